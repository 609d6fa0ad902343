/* Random inputs on which float code errs, the same for the same seed. */
#ifndef INPUTS_H
#define INPUTS_H

#include <stdbool.h>
#include <stddef.h>
#include <stdint.h>

struct random {
    uint64_t state;
};

/* 64 random bits; and a random whole number below n. */
uint64_t random_bits(struct random *random);
uint64_t random_below(struct random *random, uint64_t n);

void hostile_floats(struct random *random, float *floats, size_t count);
uint64_t hostile_whole(struct random *random);

/* The length of a list: most often none, one or few entries, and at most `most`. */
size_t hostile_length(struct random *random, size_t most);

/*
 * Makes the floats of few records, or if `large` of 2,000 or 2,001, and at times some more that make no record. Returns how
 * many floats they are.
 */
size_t hostile_records(struct random *random, float *floats, bool large);

/*
 * Makes the bytes of a hatch list of few records, or if `large` of 1,000 or 2,000, good or damaged. Returns how many bytes
 * they are, at most 64,008. Some records are repeats, of this list or of another, `other`, which has so many bytes; some
 * differ from one in a bit.
 */
size_t hostile_bytes(struct random *random, uint8_t *bytes, bool large, const uint8_t *other, size_t other_length);

#endif
