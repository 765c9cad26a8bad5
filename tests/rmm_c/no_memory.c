/* Refuses each allocation of rmm_open and of rmm_line in turn, and counts what is not given back.
 * Link it with -Wl,--wrap=malloc,--wrap=realloc,--wrap=free. The last line is
 * `N allocations were refused, each in turn`. */
#include "life.h"

#include <stdlib.h>

enum { ALL = -1 };

/* The number of allocations that are granted before one is refused; and that of blocks that are out. */
static long granted = ALL, out, taken;

void *__real_malloc(size_t size);
void *__real_realloc(void *old, size_t size);
void __real_free(void *block);

static bool refuses(void) { return granted != ALL && granted-- == 0; }

void *__wrap_malloc(size_t size)
{
    void *block = refuses() ? NULL : __real_malloc(size);
    out += block != NULL;
    taken++;
    return block;
}

void *__wrap_realloc(void *old, size_t size)
{
    void *block = refuses() ? NULL : __real_realloc(old, size);
    out += block != NULL && old == NULL;
    taken++;
    return block;
}

void __wrap_free(void *block)
{
    out -= block != NULL;
    __real_free(block);
}

/* The life of a realm takes no block, nor does a reading or a judgement. */
static bool takes_none(rmm_handle *handle)
{
    rmm_realm realm;
    rmm_rec rec;
    rmm_registers asked = {RMM_FID_GRANULE_DELEGATE, RD, 0, 0, 0, 0, 0};
    uint64_t state = 0;
    long before = taken;
    WANTED(live(handle, 1, 3) && make_realm(handle, 1, 3));
    WANTED(rmm_read_realm(handle, RD, &realm) && rmm_read_rec(handle, REC, &rec) && rmm_read_state(handle, RD, &state));
    WANTED(rmm_deciding_check(handle, &asked) == RMM_CHECK_GRAN_STATE && rmm_is_allowed(handle, &asked, RMM_ERROR_INPUT));
    WANTED(taken == before);
    return true;
}

/* The fault of an open that is granted `n` allocations, or NULL; `is_open` says whether they are enough. */
static const char *fault(rmm_handle *handle, long n, bool *is_open)
{
    granted = n;
    uint64_t answer = opened(handle, PAGE_COUNT);
    granted = ALL;
    *is_open = answer == RMM_OPENED;
    if (!*is_open && (answer != RMM_NO_MEMORY || handle->is_open))
        return "the answer is not RMM_NO_MEMORY on a closed handle";
    if (*is_open && opened(handle, PAGE_COUNT) != RMM_ALREADY_OPEN)
        return "it can be opened again";
    if (*is_open && !takes_none(handle))
        return "a command is refused, or takes a block";
    rmm_close(handle);
    rmm_close(handle);
    return handle->is_open || out != 0 ? "a block is not given back" : NULL;
}

static uint64_t line(rmm_handle *handle, long n, const char *text, char *answer, size_t capacity)
{
    granted = n;
    uint64_t count = rmm_line(handle, text, strlen(text), answer, capacity);
    granted = ALL;
    return count;
}

/* The number of allocations of lines that are refused; -1 if an answer comes without them, or a block is not given back. */
static long lines(rmm_handle *handle)
{
    char answer[16] = "as before";
    long n = 0, blocks = 0;
    for (; line(handle, n, "platform 0x80000000 16", answer, sizeof answer) == RMM_NOT_ANSWERED; n++)
        if (handle->is_open || strcmp(answer, "as before") != 0 || out != 0 || n == 1000)
            return -1;
    blocks = out;
    for (long k = 0; line(handle, k, "state 0x80000000", answer, sizeof answer) == RMM_NOT_ANSWERED; k++, n++)
        if (k == 1000)
            return -1;
    if (!handle->is_open || strcmp(answer, "UNDELEGATED") != 0 || out != blocks)
        return -1;
    rmm_close(handle);
    return out == 0 ? n : -1;
}

int main(void)
{
    rmm_handle handle = RMM_CLOSED;
    bool is_open = false;
    long n = 0;
    for (; n < 1000 && !is_open; n++) {
        const char *what = fault(&handle, n, &is_open);
        if (what != NULL) {
            printf("with %ld allocations granted: %s\n", n, what);
            return 1;
        }
    }
    long of_lines = lines(&handle);
    if (of_lines < 1) {
        printf("a line is answered without its memory, or keeps a block\n");
        return 1;
    }
    printf("%ld allocations were refused, each in turn\n", n - 1 + of_lines);
    return n == 1 || !is_open;
}
