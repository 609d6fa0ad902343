/* Calls a routine of the library by its row of the table, from numbers or from text. `./ask --help` describes the text. */
#ifndef ASK_H
#define ASK_H

#include "routines.h"

/*
 * What is handed to a routine: its floats, those of a list too, its whole numbers, rooms among them, the bits of floats, and
 * its lists of bytes.
 */
struct input {
    float *floats;
    size_t float_count;
    uint64_t wholes[MOST_WHOLES];
    uint32_t *patterns;
    size_t pattern_count;
    struct list bytes[MOST_BYTE_LISTS];
};

/* What came back from a routine. */
struct reply {
    struct answer answer;
    /* The list that was lent, if one was, by its letter; the asker frees it. */
    void *list;
    /*
     * The routine broke a rule of bagnoszyk.h: it told of more entries than there was room for, changed an entry that it
     * should not have, gave a number beside a refusal or none, told a list or a place wrongly, or told an edge that there
     * is not.
     */
    bool damaged;
};

/* A request as it was read. */
struct request {
    const struct routine *routine;
    /* Whoever calls read_request frees what it holds, with free_request. */
    struct input input;
    /* Why it is a bad request, if it is. */
    char reason[200];
};

/* The sizes of struct routine, input, reply and request, so that a program in another language can compare its own. */
extern const size_t ask_sizes[4];

/* The routine of this name, or null. */
const struct routine *routine_named(const char *name);

/* Whether every number of an answer is 0, as in one that is none or a refusal. */
bool is_empty(const struct routine *routine, const struct answer *answer);

/* Whether the status is a refusal that tells a place. */
bool tells_place(const struct routine *routine, uint32_t status);

/*
 * Whether an answer tells list and place as it may: each is 0 where none is told, and the list is one of those that are
 * read.
 */
bool tells_rightly(const struct routine *routine, const struct answer *answer);

/* The name of an edge by its number in enum bgz_edge, or null. */
const char *edge_name(uint64_t number);

/* Whether every edge that an answer tells has a name. */
bool tells_edges(const struct routine *routine, const struct answer *answer);

/* Whether a list is only read, and the bytes of one of its entries, by its letter. */
bool is_read(char letter);
size_t entry_size(char letter);

/* How many entries an answer says were written to the first list. */
size_t entries_written(const struct routine *routine, const struct answer *answer);

/* Calls a routine. A list that it writes to is lent with a pattern in every byte, which is compared afterwards. */
struct reply ask(const struct routine *routine, const struct input *input);

/* Reads a line, which is cut into its fields. False if it is a bad request: then there is a reason. */
bool read_request(char *line, struct request *request);
void free_request(struct request *request);

/* A request as a line, and a reply as one, floats as their bits or as decimals. The caller frees them. */
char *request_text(const struct routine *routine, const struct input *input);
char *reply_text(const struct routine *routine, const struct reply *reply, bool decimal);

#endif
