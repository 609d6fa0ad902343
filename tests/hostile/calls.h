/* Makes hostile calls one after another, and checks each. */
#ifndef CALLS_H
#define CALLS_H

#include "ask.h"
#include "fence.h"
#include "inputs.h"

/* A caller: what it hands in with the present call, and a digest of all answers so far. */
struct caller {
    struct random random;
    /* The processor's MXCSR register during a call: how it rounds, and what it does with subnormal numbers. */
    unsigned mxcsr;
    const struct routine *routine;
    float floats[MOST_FLOATS];
    uint64_t wholes[MOST_WHOLES];
    struct arguments in;
    struct fence fences[MOST_LISTS];
    unsigned char copies[MOST_LISTS][FENCED];
    uint64_t digest;
};

void caller_start(struct caller *caller, uint64_t seed, unsigned mxcsr);

/*
 * Calls a routine so many times with random inputs, or once as a request has it. The program ends at the first call that is
 * wrong.
 */
void call_often(struct caller *caller, const struct routine *routine, uint64_t count);
void call_with(struct caller *caller, const struct request *request);

/* Writes to standard error what a caller hands in with the present call. */
void tell(const struct caller *caller, const char *what);

#endif
