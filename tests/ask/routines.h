/*
 * The exported functions behind one form of call, so that a program can go through all of them: ./ask, the comparison with
 * the Rust, the hostile calls. tests/generate writes the table, routines.c.
 */
#ifndef ROUTINES_H
#define ROUTINES_H

#include <stdbool.h>
#include <stddef.h>
#include <stdint.h>

/* The most that a routine has of each. tests/generate refuses a routine that has more. */
enum { MOST_FLOATS = 24, MOST_WHOLES = 8, MOST_LISTS = 3, MOST_BYTE_LISTS = 2, MOST_VALUES = 24 };

/* A list as C hands it over: its start and the number of its entries. */
struct list {
    void *start;
    size_t length;
};

/* What a routine takes: its floats in their order, its whole numbers in theirs, its lists in theirs. */
struct arguments {
    const float *floats;
    const uint64_t *wholes;
    struct list lists[MOST_LISTS];
};

/* A number of an answer; `gives` tells which it is. */
union value {
    float f;
    uint64_t u;
    int64_t i;
};

/* Status, list and place are those of bagnoszyk.h. What a routine does not have of these is 0. */
struct answer {
    uint32_t status;
    uint64_t list;
    uint64_t place;
    union value values[MOST_VALUES];
};

struct routine {
    /* The name in requests, or null: the routine has no request. */
    const char *name;
    const char *function;
    void (*call)(const struct arguments *in, struct answer *out);
    /*
     * A letter for each field of a request: f is a float and u a whole number; r is the room of a list to be written,
     * and takes a place among the whole numbers; F is the floats of a list, as many as there are, P the bits of floats,
     * and B the bytes of a list. Lists of no fixed length stand last.
     */
    const char *takes;
    /*
     * The lists among them: u (uint32_t), p (uint32_t, the bits of a float), f (float) and b (uint8_t) are written to, F,
     * P (uint32_t) and B are read.
     */
    const char *lists;
    /*
     * What an answer has: f is a float, u a whole number, i one with a sign, n the number of an edge, l the count of
     * entries that were written to the first list, e that of records there, eight entries each.
     */
    const char *gives;
    /* A name for each letter of `takes`, one space apart. */
    const char *fields;
    /* The refusals that tell a place: bit N is set if refusal N does. */
    uint32_t places;
    /* Whether each refusal tells a list before the place: 1 for the first that is read and so on, or 0 with place 0. */
    bool tells_list;
};

extern const struct routine routines[];
extern const size_t routine_count;

/* The refusals are numbered from 1 to this. */
extern const uint32_t last_refusal;

#endif
