/* Memory that ends where a page begins that nobody may touch, or begins where one ends: whoever reads or writes past it is stopped. */
#ifndef GUARDED_H
#define GUARDED_H

#include <stddef.h>
#include <stdint.h>
#include <stdio.h>
#include <stdlib.h>
#include <sys/mman.h>
#include <unistd.h>

enum guard { GUARD_BEFORE, GUARD_BEHIND };

/* Two pages that may be used between two that may not. */
static inline uint8_t *guarded_pages(size_t *size)
{
    size_t page = (size_t)sysconf(_SC_PAGESIZE);
    uint8_t *all = mmap(NULL, 4 * page, PROT_NONE, MAP_PRIVATE | MAP_ANONYMOUS, -1, 0);
    if (all == MAP_FAILED || mprotect(all + page, 2 * page, PROT_READ | PROT_WRITE) != 0) {
        perror("guarded");
        exit(2);
    }
    *size = 2 * page;
    return all + page;
}

/* So many bytes of such pages, at one of their edges. */
static inline uint8_t *at_edge(uint8_t *pages, size_t size, size_t length, enum guard guard)
{
    return guard == GUARD_BEFORE ? pages : pages + size - length;
}

/* For a program that asks `malloc` for just what it lends (-include this, with GUARDED_MALLOC): every piece ends at such a page. */
static inline void *guarded_malloc(size_t length)
{
    size_t size;
    uint8_t *pages = guarded_pages(&size);
    return length <= size ? at_edge(pages, size, length, GUARD_BEHIND) : NULL;
}

static inline void guarded_free(void *memory)
{
    (void)memory; /* the process is short */
}

#ifdef GUARDED_MALLOC
#define malloc guarded_malloc
#define free guarded_free
#endif

#endif
