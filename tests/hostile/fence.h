/* Memory for a list, beside a page that may not be read or written: a program that reads or writes past that end is stopped. */
#ifndef FENCE_H
#define FENCE_H

#include <stdbool.h>
#include <stddef.h>

/* The most bytes of a list here: enough for every hatch list. */
enum { FENCED = 1 << 16 };

struct fence {
    unsigned char *start;
};

void fence_build(struct fence *fence);

/*
 * A place for so many bytes, at the end of the memory or at its start, so that one end is beside a page. At the other end
 * there is a guard.
 */
unsigned char *fence_place(const struct fence *fence, size_t bytes, bool at_end);

/* Fills a place and its guard with a pattern; and tells whether all but the first so many bytes of the place still hold it. */
void fence_fill(const struct fence *fence, unsigned char *place, size_t bytes);
bool fence_holds(const struct fence *fence, const unsigned char *place, size_t bytes, size_t first);

#endif
