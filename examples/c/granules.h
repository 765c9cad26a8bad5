/* granules.h: the granules of a host, and those that it has delegated. */
#ifndef GRANULES_H
#define GRANULES_H

#include <stdbool.h>
#include <stdint.h>

enum { PAGE_SIZE = 4096 };

/* LEAK is 1 to 5 for a host that loses granules if a call is refused: fail_each.c finds each of the five. */
#ifndef LEAK
#define LEAK 0
#endif

/* Gives the host adjacent granules, at most 4096, the first at a multiple of 64 KiB. */
void granules_open(uint64_t base, unsigned count);

/* The number of granules that are in use, or lost. */
unsigned granules_in_use(void);

/* Adjacent pages at a multiple of their size, or 0; and as granules that are DELEGATED. */
uint64_t alloc_pages(unsigned count);
uint64_t alloc_delegated(unsigned count);

/* Gives pages, or granules that are DELEGATED, back to the host. Of 0 nothing. */
void free_pages(uint64_t first, unsigned count);
void free_delegated(uint64_t first, unsigned count);

static inline void *page_at(uint64_t address) { return (void *)(uintptr_t)address; }

#endif
