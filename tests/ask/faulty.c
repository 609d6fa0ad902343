/*
 * A table of routines that break the rules of bagnoszyk.h, in the place of the library's, and some that keep them: ./ask
 * and the hostile calls must report the former and not the latter.
 */
#include "routines.h"
#include "bagnoszyk.h"
#include <string.h>

static void two(const struct arguments *in, struct answer *out) {
    uint32_t *list = in->lists[0].start;
    list[0] = 1;
    list[1] = 2;
    out->status = BGZ_ANSWERED;
    out->values[0].u = 2;
}

static void one_more(const struct arguments *in, struct answer *out) {
    two(in, out);
    ((uint32_t *)in->lists[0].start)[2] = 3;
}

static void refused(const struct arguments *in, struct answer *out) {
    (void)in;
    out->status = 3;
    out->values[0].u = 0;
}

static void refused_at(const struct arguments *in, struct answer *out) {
    refused(in, out);
    out->place = 2;
}

static void written_and_refused(const struct arguments *in, struct answer *out) {
    two(in, out);
    refused(in, out);
}

static void told_too_many(const struct arguments *in, struct answer *out) {
    two(in, out);
    out->values[0].u = in->lists[0].length + 1;
}

static void told_and_refused(const struct arguments *in, struct answer *out) {
    refused(in, out);
    out->values[0].u = 1;
}

/* Refusal 4, which tells no place, with the place of refusal 3. */
static void place_not_told(const struct arguments *in, struct answer *out) {
    refused_at(in, out);
    out->status = 4;
}

static void place_of_an_answer(const struct arguments *in, struct answer *out) {
    two(in, out);
    out->place = 2;
}

/* A refusal of list 2 of the two that are read, and one of none of them. */
static void refused_in(const struct arguments *in, struct answer *out) {
    refused_at(in, out);
    out->list = 2;
}

static void refused_in_none(const struct arguments *in, struct answer *out) {
    refused(in, out);
}

static void place_in_none(const struct arguments *in, struct answer *out) {
    refused_at(in, out);
}

static void unknown_list(const struct arguments *in, struct answer *out) {
    refused_at(in, out);
    out->list = 3;
}

static void list_not_told(const struct arguments *in, struct answer *out) {
    refused(in, out);
    out->status = 4;
    out->list = 2;
}

static void list_of_an_answer(const struct arguments *in, struct answer *out) {
    (void)in;
    out->status = BGZ_ANSWERED;
    out->values[0].u = 0;
    out->list = 1;
}

/* The routine has refusals that tell a place, and none that tells a list. */
static void list_beside_a_place(const struct arguments *in, struct answer *out) {
    refused_in(in, out);
}

static void unknown_status(const struct arguments *in, struct answer *out) {
    refused(in, out);
    out->status = last_refusal + 1;
}

/* Does not end. The read is volatile, so that the compiler keeps the loop. */
static void endless(const struct arguments *in, struct answer *out) {
    refused(in, out);
    while (*(volatile uint32_t *)&out->status != BGZ_ANSWERED)
        ;
}

/* Another answer with each call. */
static void changing(const struct arguments *in, struct answer *out) {
    static uint32_t calls;
    refused(in, out);
    out->status = 1 + __sync_fetch_and_add(&calls, 1) % last_refusal;
}

static void two_bytes(const struct arguments *in, struct answer *out) {
    memcpy(in->lists[0].start, "\1\2", 2);
    out->status = BGZ_ANSWERED;
    out->values[0].u = 2;
}

static void one_more_byte(const struct arguments *in, struct answer *out) {
    memcpy(in->lists[0].start, "\1\2\3", 3);
    out->status = BGZ_ANSWERED;
    out->values[0].u = 2;
}

static void far_edge(const struct arguments *in, struct answer *out) {
    (void)in;
    out->status = BGZ_ANSWERED;
    out->values[0].u = BGZ_EDGE_FAR;
}

static void no_edge(const struct arguments *in, struct answer *out) {
    far_edge(in, out);
    out->values[0].u = BGZ_EDGE_NONE;
}

static void unknown_edge(const struct arguments *in, struct answer *out) {
    far_edge(in, out);
    out->values[0].u++;
}

static void edge_of_none(const struct arguments *in, struct answer *out) {
    far_edge(in, out);
    out->status = BGZ_NONE;
}

/* Refusal 3 tells a place, and of a routine that reads two lists also a list. */
#define ROW_OF(name, letter) {#name, #name, name, "r", letter, "l", "room", UINT32_C(1) << 3, false}
#define ROW(name) ROW_OF(name, "u")
#define ROW_OF_EDGE(name) {#name, #name, name, "", "", "n", "", 0, false}
#define ROW_OF_TWO(name) {#name, #name, name, "rBB", "bBB", "l", "room first second", UINT32_C(1) << 3, true}

const struct routine routines[] = {
    ROW(two),
    ROW(one_more),
    ROW(refused),
    ROW(refused_at),
    ROW(written_and_refused),
    ROW(told_too_many),
    ROW(told_and_refused),
    ROW(place_not_told),
    ROW(place_of_an_answer),
    ROW_OF_TWO(refused_in),
    ROW_OF_TWO(refused_in_none),
    ROW_OF_TWO(place_in_none),
    ROW_OF_TWO(unknown_list),
    ROW_OF_TWO(list_not_told),
    ROW_OF_TWO(list_of_an_answer),
    ROW(list_beside_a_place),
    ROW(unknown_status),
    ROW(endless),
    ROW(changing),
    ROW_OF(two_bytes, "b"),
    ROW_OF(one_more_byte, "b"),
    ROW_OF_EDGE(far_edge),
    ROW_OF_EDGE(no_edge),
    ROW_OF_EDGE(unknown_edge),
    ROW_OF_EDGE(edge_of_none),
};

const size_t routine_count = sizeof routines / sizeof routines[0];

const uint32_t last_refusal = 13;
