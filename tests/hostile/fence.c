#define _DEFAULT_SOURCE /* MAP_ANONYMOUS */
#include "fence.h"
#include <stdio.h>
#include <stdlib.h>
#include <sys/mman.h>

enum { PAGE = 4096, GUARD = 64 };

void fence_build(struct fence *fence) {
    unsigned char *pages =
        mmap(NULL, FENCED + 3 * PAGE, PROT_READ | PROT_WRITE, MAP_PRIVATE | MAP_ANONYMOUS, -1, 0);
    if (pages == MAP_FAILED || mprotect(pages, PAGE, PROT_NONE) != 0
        || mprotect(pages + FENCED + 2 * PAGE, PAGE, PROT_NONE) != 0) {
        perror("no memory for a list");
        exit(1);
    }
    fence->start = pages + PAGE;
}

unsigned char *fence_place(const struct fence *fence, size_t bytes, bool at_end) {
    return at_end ? fence->start + FENCED + PAGE - bytes : fence->start;
}

static unsigned char pattern(size_t i) {
    return (unsigned char)(0xa5 ^ i * 7);
}

/* The guard is at the end that is not beside a page. */
static unsigned char *guard(const struct fence *fence, const unsigned char *place, size_t bytes) {
    unsigned char *start = fence->start + (place - fence->start);
    return start == fence->start ? start + bytes : start - GUARD;
}

static bool has_pattern(const unsigned char *bytes, size_t from, size_t to) {
    for (size_t i = from; i < to; i++)
        if (bytes[i] != pattern(i))
            return false;
    return true;
}

void fence_fill(const struct fence *fence, unsigned char *place, size_t bytes) {
    for (size_t i = 0; i < bytes; i++)
        place[i] = pattern(i);
    for (size_t i = 0; i < GUARD; i++)
        guard(fence, place, bytes)[i] = pattern(i);
}

bool fence_holds(const struct fence *fence, const unsigned char *place, size_t bytes, size_t first) {
    return has_pattern(place, first, bytes) && has_pattern(guard(fence, place, bytes), 0, GUARD);
}
