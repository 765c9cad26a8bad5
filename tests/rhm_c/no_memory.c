/* Refuses each allocation of rhm_open in turn, and counts what is not given back.
 * Link it with -Wl,--wrap=malloc,--wrap=realloc,--wrap=free. The last line is
 * `N allocations were refused, each in turn`. */
#include <rhm.h>
#include <stdio.h>
#include <stdlib.h>

enum { ALL = -1 };

/* The number of allocations that are granted before one is refused; and that of blocks that are out. */
static long granted = ALL, out, taken;

void *__real_malloc(size_t size);
void *__real_realloc(void *old, size_t size);
void __real_free(void *block);

static bool refuses(void) { return granted != ALL && granted-- == 0; }

void *__wrap_malloc(size_t size)
{
    void *block = refuses() ? NULL : __real_malloc(size);
    out += block != NULL;
    taken++;
    return block;
}

void *__wrap_realloc(void *old, size_t size)
{
    void *block = refuses() ? NULL : __real_realloc(old, size);
    out += block != NULL && old == NULL;
    taken++;
    return block;
}

void __wrap_free(void *block)
{
    out -= block != NULL;
    __real_free(block);
}

static uint64_t opened(rhm_handle *handle)
{
    const rhm_settings settings = {16, 8, 1, 2, 64, 0x80000000};
    return rhm_open(handle, &settings);
}

/* Commands, an undo, an abort, a mark and readings take no block. */
static bool takes_none(rhm_handle *handle)
{
    rhm_command command = rhm_take(3);
    rhm_actions actions;
    rhm_answer answer = {0, 0};
    rhm_build build;
    uint64_t value = 0;
    long before = taken;
    bool done = rhm_ask(handle, 0, &command, &value) == RHM_DONE && rhm_mark(handle, 0, &value) == RHM_DONE;
    command = rhm_delegate(0);
    done = done && rhm_prepare(handle, 0, &command, &actions) == RHM_DONE && actions.count == 1;
    done = done && rhm_commit(handle, 0, &command, &answer, &value) == RHM_DONE;
    done = done && rhm_roll_back(handle, 0, &value) == RHM_DONE && value == 1;
    done = done && rhm_read_build(handle, 0, &build) && build.open_count == 1 && rhm_free_count(handle) == 8;
    done = done && rhm_begin_abort(handle, 0, &value) == RHM_DONE && rhm_abort(handle, 0, &value) == RHM_DONE;
    return done && taken == before;
}

/* The fault of an open that is granted `n` allocations, or NULL; `is_open` says whether they are enough. */
static const char *fault(rhm_handle *handle, long n, bool *is_open)
{
    granted = n;
    uint64_t answer = opened(handle);
    granted = ALL;
    *is_open = answer == RHM_OPENED;
    if (!*is_open && (answer != RHM_NO_MEMORY || handle->is_open))
        return "the answer is not RHM_NO_MEMORY on a closed handle";
    if (*is_open && opened(handle) != RHM_ALREADY_OPEN)
        return "it can be opened again";
    if (*is_open && !takes_none(handle))
        return "a command is refused, or takes a block";
    rhm_close(handle);
    rhm_close(handle);
    return handle->is_open || out != 0 ? "a block is not given back" : NULL;
}

int main(void)
{
    rhm_handle handle = RHM_CLOSED;
    bool is_open = false;
    long n = 0;
    for (; n < 1000 && !is_open; n++) {
        const char *what = fault(&handle, n, &is_open);
        if (what != NULL) {
            printf("allocation %ld: %s\n", n, what);
            return 1;
        }
    }
    printf("%ld allocations were refused, each in turn\n", n - 1);
    return n == 1 || !is_open;
}
