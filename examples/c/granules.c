/* The granules of a host, and those that it has delegated. */
#include "granules.h"

#include "rmi_calls.h"

#include <string.h>

enum { MOST = 4096 };

static uint64_t base;
static unsigned granule_count;
static bool in_use[MOST];

void granules_open(uint64_t first, unsigned count)
{
    base = first;
    granule_count = count;
    memset(in_use, 0, sizeof in_use);
}

unsigned granules_in_use(void)
{
    unsigned count = 0;
    for (unsigned k = 0; k < granule_count; k++)
        count += in_use[k];
    return count;
}

uint64_t alloc_pages(unsigned count)
{
    for (unsigned k = 0; k + count <= granule_count; k += count)
        if (memchr(in_use + k, true, count) == NULL) {
            memset(in_use + k, true, count);
            return base + k * (uint64_t)PAGE_SIZE;
        }
    return 0;
}

void free_pages(uint64_t first, unsigned count)
{
    if (first != 0)
        memset(in_use + (first - base) / PAGE_SIZE, false, count);
}

uint64_t alloc_delegated(unsigned count)
{
    uint64_t first = alloc_pages(count);
    for (unsigned k = 0; first != 0 && k < count; k++) {
        uint64_t it = first + k * (uint64_t)PAGE_SIZE;
        if (rmi_granule_delegate(it) == RMI_SUCCESS)
            continue;
        free_pages(it, count - k);
        if (LEAK != 1)
            free_delegated(first, k);
        return 0;
    }
    return first;
}

/* A refusal is tried once more. Then the granule is lost, since nobody knows whose it is. */
void free_delegated(uint64_t first, unsigned count)
{
    for (uint64_t it = first; first != 0 && it < first + count * (uint64_t)PAGE_SIZE; it += PAGE_SIZE)
        if (rmi_granule_undelegate(it) == RMI_SUCCESS || rmi_granule_undelegate(it) == RMI_SUCCESS)
            free_pages(it, 1);
}
