#include "calls.h"
#include "bagnoszyk.h"
#include <inttypes.h>
#include <stdio.h>
#include <stdlib.h>
#include <string.h>
#include <xmmintrin.h>

void caller_start(struct caller *caller, uint64_t seed, unsigned mxcsr) {
    memset(caller, 0, sizeof *caller);
    caller->random.state = seed;
    caller->mxcsr = mxcsr;
    for (size_t i = 0; i < MOST_LISTS; i++)
        fence_build(&caller->fences[i]);
}

/* ---- telling */

void tell(const struct caller *caller, const char *what) {
    if (caller->routine == NULL)
        return;
    fprintf(stderr, "%s: %s: MXCSR %04x", caller->routine->function, what, caller->mxcsr);
    size_t float_count = 0, whole_count = 0;
    for (const char *letter = caller->routine->takes; *letter != '\0'; letter++) {
        uint32_t bits;
        memcpy(&bits, &caller->floats[float_count], sizeof bits);
        if (*letter == 'f')
            fprintf(stderr, " %08" PRIx32, bits);
        else if (*letter == 'u')
            fprintf(stderr, " %" PRIu64, caller->wholes[whole_count]);
        float_count += *letter == 'f';
        whole_count += *letter == 'u' || *letter == 'r';
    }
    for (size_t i = 0; caller->routine->lists[i] != '\0'; i++)
        fprintf(stderr, ", list of %zu", caller->in.lists[i].length);
    fprintf(stderr, "\n");
}

static void hold(const struct caller *caller, bool holds, const char *what) {
    if (holds)
        return;
    tell(caller, what);
    exit(1);
}

/* ---- lists */

static size_t bytes_of(const struct caller *caller, size_t i) {
    return caller->in.lists[i].length * entry_size(caller->routine->lists[i]);
}

/* Puts a list of so many entries beside one of its fence's pages. */
static void place(struct caller *caller, size_t i, size_t length) {
    struct list *list = &caller->in.lists[i];
    list->length = length;
    list->start = fence_place(&caller->fences[i], bytes_of(caller, i), random_below(&caller->random, 2) == 0);
}

/* Makes a list that is read: its entries in a copy first, then in its place beside a fence's page. */
static void make_read(struct caller *caller, size_t i, bool large) {
    unsigned char *copy = caller->copies[i];
    size_t length;
    bool second = i > 0 && caller->routine->lists[i - 1] == 'B';
    const unsigned char *first = second ? caller->copies[i - 1] : NULL;
    size_t first_length = second ? caller->in.lists[i - 1].length : 0;
    /* One time in eight the second of two lists of bytes is the first, in the same memory. */
    if (second && random_below(&caller->random, 8) == 0) {
        caller->in.lists[i] = caller->in.lists[i - 1];
        memcpy(copy, first, first_length);
        return;
    }
    if (caller->routine->lists[i] == 'B') {
        length = hostile_bytes(&caller->random, copy, large, first, first_length);
    } else {
        float floats[FENCED / sizeof(float)];
        /* Records for the routines that write hatch lists, any floats for the others. */
        if (caller->routine->lists[0] == 'b') {
            length = hostile_records(&caller->random, floats, large);
        } else {
            length = hostile_length(&caller->random, 64);
            hostile_floats(&caller->random, floats, length);
        }
        memcpy(copy, floats, length * sizeof *floats);
    }
    place(caller, i, length);
    memcpy(caller->in.lists[i].start, copy, bytes_of(caller, i));
}

static void mark_written(struct caller *caller) {
    for (size_t i = 0; caller->routine->lists[i] != '\0'; i++)
        if (!is_read(caller->routine->lists[i]))
            fence_fill(&caller->fences[i], caller->in.lists[i].start, bytes_of(caller, i));
}

/* ---- answers */

/* Whether a routine tells how many entries of its first list it wrote. */
static bool tells_written(const struct routine *routine) {
    return strpbrk(routine->gives, "le") != NULL;
}

/* How many entries at the start of a list the routine may have written. */
static size_t written(const struct caller *caller, const struct answer *out, size_t i) {
    size_t length = caller->in.lists[i].length;
    if (out->status != BGZ_ANSWERED)
        return 0;
    if (tells_written(caller->routine))
        return entries_written(caller->routine, out);
    /* A report tells the bytes of the whole text, which may be more than the list has. */
    return caller->routine->lists[i] == 'b' && out->values[0].u < length ? out->values[0].u : length;
}

/* Checks an answer: a known status, no number beside a refusal, and no change in a list but in the entries to be written. */
static void look(const struct caller *caller, const struct answer *out) {
    const struct routine *routine = caller->routine;
    hold(caller, out->status <= last_refusal || out->status == BGZ_NONE, "a status that the header does not have");
    hold(caller, out->status == BGZ_ANSWERED || is_empty(routine, out), "a refusal with an answer");
    hold(caller, tells_rightly(routine, out), "a list or a place told wrongly");
    hold(caller, tells_edges(routine, out), "an edge that there is not");
    for (size_t i = 0; routine->lists[i] != '\0'; i++) {
        const struct list *list = &caller->in.lists[i];
        size_t bytes = bytes_of(caller, i);
        if (is_read(routine->lists[i])) {
            hold(caller, memcmp(list->start, caller->copies[i], bytes) == 0, "a list was written that is only read");
        } else {
            size_t count = written(caller, out, i), first = count * entry_size(routine->lists[i]);
            hold(caller, count <= list->length, "more entries told than there is room for");
            hold(caller, fence_holds(&caller->fences[i], list->start, bytes, first), "a list was written past the end");
        }
    }
}

static void mix(uint64_t *digest, uint64_t value) {
    *digest = (*digest ^ value) * UINT64_C(0x100000001b3);
    *digest ^= *digest >> 29;
}

/* All NaNs count alike: a NaN may have any bits. */
static void mix_float(uint64_t *digest, float x) {
    uint32_t bits;
    memcpy(&bits, &x, sizeof bits);
    mix(digest, x != x ? 1 : bits);
}

static void mix_list(struct caller *caller, size_t i) {
    const struct list *list = &caller->in.lists[i];
    if (caller->routine->lists[i] == 'f')
        for (size_t k = 0; k < list->length; k++)
            mix_float(&caller->digest, ((const float *)list->start)[k]);
    else
        for (size_t k = 0; k < bytes_of(caller, i); k++)
            mix(&caller->digest, ((const unsigned char *)list->start)[k]);
}

static void digest(struct caller *caller, const struct answer *out) {
    mix(&caller->digest, out->status);
    mix(&caller->digest, out->list);
    mix(&caller->digest, out->place);
    for (size_t i = 0; caller->routine->gives[i] != '\0'; i++) {
        if (caller->routine->gives[i] == 'f')
            mix_float(&caller->digest, out->values[i].f);
        else
            mix(&caller->digest, out->values[i].u);
    }
    for (size_t i = 0; caller->routine->lists[i] != '\0'; i++)
        if (!is_read(caller->routine->lists[i]))
            mix_list(caller, i);
}

/* ---- calls */

/* What is handed in: half of the empty lists by a null pointer. */
static struct arguments handed(struct caller *caller) {
    struct arguments in = caller->in;
    in.floats = caller->floats;
    in.wholes = caller->wholes;
    for (size_t i = 0; caller->routine->lists[i] != '\0'; i++)
        if (in.lists[i].length == 0 && random_below(&caller->random, 2) == 0)
            in.lists[i].start = NULL;
    return in;
}

static struct answer call(struct caller *caller) {
    struct answer out = {.place = 0};
    struct arguments in = handed(caller);
    mark_written(caller);
    unsigned usual = _mm_getcsr();
    _mm_setcsr(caller->mxcsr);
    caller->routine->call(&in, &out);
    _mm_setcsr(usual);
    look(caller, &out);
    digest(caller, &out);
    return out;
}

/* Calls once more with just enough room, and then with room for one entry less, which must be refused. */
static void call_again_with_room(struct caller *caller, struct answer first) {
    size_t count = written(caller, &first, 0);
    place(caller, 0, count);
    struct answer out = call(caller);
    hold(caller, out.status == BGZ_ANSWERED && written(caller, &out, 0) == count, "another answer with room for it");
    if (count > 0) {
        place(caller, 0, count - 1);
        out = call(caller);
        hold(caller, out.status == BGZ_REFUSED_ROOM, "no refusal with one entry too few");
    }
}

static void call_as_it_is(struct caller *caller) {
    struct answer out = call(caller);
    if (out.status == BGZ_ANSWERED && tells_written(caller->routine))
        call_again_with_room(caller, out);
}

void call_often(struct caller *caller, const struct routine *routine, uint64_t count) {
    caller->routine = routine;
    for (; count > 0; count--) {
        hostile_floats(&caller->random, caller->floats, MOST_FLOATS);
        for (size_t i = 0; i < MOST_WHOLES; i++)
            caller->wholes[i] = hostile_whole(&caller->random);
        /* One time in a thousand: hatch lists of as many records as there can be, and the longest lists. */
        bool large = random_below(&caller->random, 1000) == 0;
        for (size_t i = 0; routine->lists[i] != '\0'; i++) {
            size_t most = FENCED / entry_size(routine->lists[i]);
            if (is_read(routine->lists[i]))
                make_read(caller, i, large);
            else
                place(caller, i, large ? most : hostile_length(&caller->random, most));
        }
        call_as_it_is(caller);
    }
}

void call_with(struct caller *caller, const struct request *request) {
    caller->routine = request->routine;
    const struct input *input = &request->input;
    memcpy(caller->floats, input->floats, input->float_count * sizeof *input->floats);
    memcpy(caller->wholes, input->wholes, sizeof caller->wholes);
    for (size_t i = 0; caller->routine->lists[i] != '\0'; i++)
        place(caller, i, FENCED / 4);
    call_as_it_is(caller);
}
