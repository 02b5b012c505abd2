/*
 * Lent memory between two pages that nobody may touch: a read or write past the fence ends the program. The memory lies
 * right before the upper fence or right behind the lower one; what is left of its pages is filled, and checked later.
 */
#ifndef FENCE_H
#define FENCE_H

#include <stdbool.h>
#include <stdint.h>
#include <stdio.h>
#include <stdlib.h>
#include <string.h>
#include <sys/mman.h>

enum { PAGE = 4096 };

struct fenced {
    uint8_t *map; /* lower fence, pages, upper fence */
    size_t pages; /* bytes between the fences */
    uint8_t *start;
    size_t length;
    uint8_t filler;
};

static inline struct fenced fence(size_t length, bool at_end, uint8_t filler)
{
    struct fenced f = {NULL, (length + PAGE - 1) / PAGE * PAGE, NULL, length, filler};
    void *map = mmap(NULL, f.pages + 2 * PAGE, PROT_NONE, MAP_PRIVATE | MAP_ANONYMOUS, -1, 0);
    f.map = map;
    if (map == MAP_FAILED || (f.pages > 0 && mprotect(f.map + PAGE, f.pages, PROT_READ | PROT_WRITE) != 0)) {
        perror("trials: memory");
        exit(3);
    }
    memset(f.map + PAGE, filler, f.pages);
    f.start = f.map + PAGE + (at_end ? f.pages - length : 0);
    return f;
}

/* Nothing between the fences was written but what was lent. */
static inline bool unharmed(const struct fenced *f)
{
    for (const uint8_t *at = f->map + PAGE; at < f->map + PAGE + f->pages; at++)
        if ((at < f->start || at >= f->start + f->length) && *at != f->filler)
            return false;
    return true;
}

static inline void take_down(struct fenced *f)
{
    munmap(f->map, f->pages + 2 * PAGE);
}

#endif
