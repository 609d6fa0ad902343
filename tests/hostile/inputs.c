#include "inputs.h"
#include <string.h>

#define COUNT(array) (sizeof(array) / sizeof((array)[0]))

/* splitmix64 (Steele, Lea and Flood, 2014). */
uint64_t random_bits(struct random *random) {
    uint64_t z = random->state += UINT64_C(0x9e3779b97f4a7c15);
    z = (z ^ (z >> 30)) * UINT64_C(0xbf58476d1ce4e5b9);
    z = (z ^ (z >> 27)) * UINT64_C(0x94d049bb133111eb);
    return z ^ (z >> 31);
}

uint64_t random_below(struct random *random, uint64_t n) {
    return random_bits(random) % n;
}

/* ---- floats */

/*
 * The least and the greatest of each class, and some between, by their bits without the sign: zero, subnormal, normal,
 * infinite, signalling and quiet NaN.
 */
static const uint32_t CLASSES[] = {
    0x00000000, 0x00000001, 0x00000002, 0x00400000, 0x007fffff, 0x00800000, 0x00800001, 0x7f7fffff,
    0x7f800000, 0x7f800001, 0x7fa00000, 0x7fbfffff, 0x7fc00000, 0x7fc00001, 0x7fffffff,
};

/* The library's limits, and the powers of two at which f32 and the whole numbers' types change. */
static const float MARKS[] = {
    0.5f,     1,        2,         2000,       4096,          16384,         65536,
    1048576,  4194304,  8388608,   16777216,   2147483648.0f, 4294967296.0f, 9223372036854775808.0f,
    1e-38f,   1.2e-38f, 1.3e-38f,  0x1p-100f,  0x1p-149f,     0x1p64f,       0x1p127f,
};

static float from_bits(uint32_t bits) {
    float x;
    memcpy(&x, &bits, sizeof x);
    return x;
}

static uint32_t to_bits(float x) {
    uint32_t bits;
    memcpy(&bits, &x, sizeof bits);
    return bits;
}

/* A mark, or the float one step above or below it. */
static float near_mark(struct random *random) {
    uint32_t bits = to_bits(MARKS[random_below(random, COUNT(MARKS))]);
    return from_bits(bits + (uint32_t)random_below(random, 3) - 1);
}

static float of_any_class(struct random *random) {
    float x;
    switch (random_below(random, 4)) {
    case 0: x = from_bits(CLASSES[random_below(random, COUNT(CLASSES))]); break;
    case 1: x = near_mark(random); break;
    case 2: x = (float)random_below(random, 64) / 4; break;
    default: x = from_bits((uint32_t)random_bits(random)); break;
    }
    return random_below(random, 2) == 0 ? x : -x;
}

/*
 * Most floats of an input are of one kind, so that strokes, boxes and lines of each size occur, and not refusals alone. One
 * in six is an earlier float once more.
 */
void hostile_floats(struct random *random, float *floats, size_t count) {
    uint64_t kind = random_below(random, 6);
    for (size_t i = 0; i < count; i++) {
        uint32_t bits = (uint32_t)random_bits(random);
        uint32_t sign = bits & 0x80000000;
        switch (i > 0 && random_below(random, 6) == 0 ? 6 : kind) {
        case 0: floats[i] = from_bits(bits); break;
        /* A drawing in quarters. */
        case 1: floats[i] = ((float)random_below(random, 257) - 128) / 4; break;
        /* Near the least normal number: their differences are subnormal. */
        case 2: floats[i] = from_bits(sign | (0x00780000 + (bits & 0x000fffff))); break;
        /* Within the limit of a stroke's coordinates, each exponent as often as another. */
        case 3: floats[i] = from_bits(sign | (bits & 0x7fffffff) % 0x47800001); break;
        /* An earlier float once more. */
        case 6: floats[i] = floats[random_below(random, i)]; break;
        default: floats[i] = of_any_class(random); break;
        }
    }
}

/* ---- whole numbers */

/* The limits with one below and one above, and the ends of the types. */
static const uint64_t WHOLES[] = {
    0,     1,     2,     1999,  2000,     2001,     4095,     4096,     4097,
    16383, 16384, 16385, 65536, INT32_MAX, UINT32_MAX, INT64_MAX, UINT64_MAX,
};

uint64_t hostile_whole(struct random *random) {
    uint64_t bits = random_bits(random);
    switch (random_below(random, 4)) {
    case 0: return WHOLES[bits % COUNT(WHOLES)];
    /* Any number of binary digits, few as often as many. */
    case 1: return bits >> random_below(random, 64);
    default: return bits % 64;
    }
}

size_t hostile_length(struct random *random, size_t most) {
    static const size_t LENGTHS[] = {1, 2, 5, 9, 40, 400};
    size_t length = random_below(random, LENGTHS[random_below(random, COUNT(LENGTHS))]);
    return length < most ? length : most;
}

/* ---- hatch lists */

size_t hostile_records(struct random *random, float *floats, bool large) {
    size_t records = large ? 2000 + random_below(random, 2) : random_below(random, 6);
    size_t length = 8 * records + (random_below(random, 3) == 0 ? random_below(random, 8) : 0);
    for (size_t i = 0; i < length; i += 8)
        hostile_floats(random, floats + i, length - i < 8 ? length - i : 8);
    return length;
}

/* The bytes before the records of a hatch list, and those of a record. */
enum { HEADER = 7, RECORD = 32 };

/* Makes a record, which stands behind so many of its list. `other` is another list, which has so many. */
static void hostile_record(struct random *random, uint8_t *record, size_t before, const uint8_t *other, size_t others) {
    uint64_t choice = random_below(random, 8);
    if (choice == 0 && before > 0) {
        memcpy(record, record - RECORD * (1 + random_below(random, before)), RECORD);
    } else if (choice < 4 && others > 0) {
        memcpy(record, other + HEADER + RECORD * random_below(random, others), RECORD);
    } else {
        float floats[8];
        hostile_floats(random, floats, 8);
        memcpy(record, floats, sizeof floats);
    }
    if (random_below(random, 8) == 0)
        record[random_below(random, RECORD)] ^= (uint8_t)(1 << random_below(random, 8));
}

size_t hostile_bytes(struct random *random, uint8_t *bytes, bool large, const uint8_t *other, size_t other_length) {
    size_t records = large ? 1000 * (1 + random_below(random, 2)) : random_below(random, 6);
    size_t length = HEADER + RECORD * records;
    size_t others = other_length < HEADER ? 0 : (other_length - HEADER) / RECORD;
    memcpy(bytes, "HSL\1\0", 5);
    bytes[5] = (uint8_t)records;
    bytes[6] = (uint8_t)(records >> 8);
    for (size_t i = 0; i < records; i++)
        hostile_record(random, bytes + HEADER + RECORD * i, i, other, others);
    uint64_t bits = random_bits(random);
    /* Long lists are few, and two that are merged must both be good: they are damaged half as often. */
    switch (random_below(random, large ? 12 : 6)) {
    case 0: bytes[bits % length] = (uint8_t)(bits >> 32); break;
    /* A byte of the header, on which most refusals depend. */
    case 1: bytes[bits % 7] = (uint8_t)(bits >> 32); break;
    case 2: length = bits % length; break;
    case 3: length++; break;
    default: break;
    }
    return length;
}
