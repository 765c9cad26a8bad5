/* Preloaded into a program, it counts what the program takes, gives back, reads and writes, and refuses what these ask for:
 *
 *   REFUSED=N      the allocation of this number, counted from 1
 *   THREADLESS=1   each thread
 *   SHORT=1        more than one byte a read of standard input
 *
 * At the end of the program the counts go to the file descriptor REPORT, each in a line `name number`. A block is the
 * program's if its own code asks for it, and the C library's otherwise: what pthread_create keeps for the next thread
 * is no leak. The C library of GNU is needed, since its own names are used below the public ones. */
#define _GNU_SOURCE
#include <dlfcn.h>
#include <errno.h>
#include <link.h>
#include <pthread.h>
#include <stdatomic.h>
#include <stdio.h>
#include <stdlib.h>
#include <sys/syscall.h>
#include <time.h>
#include <unistd.h>

extern void *__libc_malloc(size_t size);
extern void *__libc_calloc(size_t count, size_t size);
extern void *__libc_realloc(void *old, size_t size);
extern void *__libc_memalign(size_t alignment, size_t size);
extern void __libc_free(void *block);

enum { MOST_MARKS = 64 };

static long refused, is_threadless, is_short;
static ElfW(Addr) first_address, last_address;

/* All that were asked for, and those of the program's own code. */
static atomic_long asked, taken, held;
/* While a started thread is not joined: the program's allocations, and the calls that start a further thread. */
static atomic_long running, taken_in_threads, started_in_threads, started;
static atomic_long reads, writes;
/* The block that grew last, and how often in a row: only the main thread grows one. At a write of it, that is its text's. */
static _Atomic(void *) growing;
static atomic_long grown, grown_text;
/* At each write to standard output, the program's allocations and its processor time until then. */
static long taken_at[MOST_MARKS], microseconds_at[MOST_MARKS];

static int note_addresses(struct dl_phdr_info *info, size_t size, void *unused)
{
    (void)size, (void)unused;
    first_address = last_address = info->dlpi_addr;
    for (int k = 0; k < info->dlpi_phnum; k++) {
        ElfW(Addr) end = info->dlpi_addr + info->dlpi_phdr[k].p_vaddr + info->dlpi_phdr[k].p_memsz;
        if (info->dlpi_phdr[k].p_type == PT_LOAD && end > last_address)
            last_address = end;
    }
    return 1; /* The program comes first, and its libraries are not looked at. */
}

static long number_of(const char *name)
{
    const char *text = getenv(name);
    return text ? atol(text) : 0;
}

__attribute__((constructor)) static void begin(void)
{
    refused = number_of("REFUSED");
    is_threadless = number_of("THREADLESS");
    is_short = number_of("SHORT");
    dl_iterate_phdr(note_addresses, NULL);
}

static int is_of_program(void *caller)
{
    ElfW(Addr) address = (ElfW(Addr))caller;
    return first_address <= address && address < last_address;
}

/* Counts an allocation before it is made. One that is refused fails as any other does. */
static int is_refused(void *caller)
{
    if (!first_address)
        return 0; /* The program has not begun. */
    if (is_of_program(caller)) {
        taken++;
        taken_in_threads += running > 0;
    }
    if (++asked != refused)
        return 0;
    errno = ENOMEM;
    return 1;
}

static void *kept(void *block, void *caller)
{
    held += block && is_of_program(caller);
    return block;
}

void *malloc(size_t size)
{
    void *caller = __builtin_return_address(0);
    return is_refused(caller) ? NULL : kept(__libc_malloc(size), caller);
}

void *calloc(size_t count, size_t size)
{
    void *caller = __builtin_return_address(0);
    return is_refused(caller) ? NULL : kept(__libc_calloc(count, size), caller);
}

void *realloc(void *old, size_t size)
{
    void *caller = __builtin_return_address(0);
    void *block = is_refused(caller) ? NULL : __libc_realloc(old, size);
    if (!old)
        return kept(block, caller);
    if (block && is_of_program(caller)) {
        grown = old == growing ? grown + 1 : 1;
        growing = block;
    }
    return block;
}

void *aligned_alloc(size_t alignment, size_t size)
{
    void *caller = __builtin_return_address(0);
    return is_refused(caller) ? NULL : kept(__libc_memalign(alignment, size), caller);
}

int posix_memalign(void **to, size_t alignment, size_t size)
{
    void *caller = __builtin_return_address(0);
    *to = is_refused(caller) ? NULL : kept(__libc_memalign(alignment, size), caller);
    return *to ? 0 : ENOMEM;
}

void free(void *block)
{
    held -= block && is_of_program(__builtin_return_address(0));
    __libc_free(block);
}

ssize_t read(int from, void *to, size_t size)
{
    if (from == STDIN_FILENO) {
        reads++;
        if (is_short && size > 1)
            size = 1;
    }
    return syscall(SYS_read, from, to, size);
}

ssize_t write(int to, const void *from, size_t size)
{
    if (to == STDOUT_FILENO) {
        long mark = writes++;
        if (from == growing)
            grown_text = grown;
        if (mark < MOST_MARKS) {
            struct timespec now;
            clock_gettime(CLOCK_PROCESS_CPUTIME_ID, &now);
            taken_at[mark] = taken;
            microseconds_at[mark] = now.tv_sec * 1000000 + now.tv_nsec / 1000;
        }
    }
    return syscall(SYS_write, to, from, size);
}

int pthread_create(pthread_t *thread, const pthread_attr_t *attributes, void *(*run)(void *), void *argument)
{
    int (*create)(pthread_t *, const pthread_attr_t *, void *(*)(void *), void *) = dlsym(RTLD_NEXT, "pthread_create");
    started_in_threads += running > 0;
    running++;
    int error = is_threadless ? EAGAIN : create(thread, attributes, run, argument);
    if (error)
        running--;
    else
        started++;
    return error;
}

int pthread_join(pthread_t thread, void **result)
{
    int (*join)(pthread_t, void **) = dlsym(RTLD_NEXT, "pthread_join");
    int error = join(thread, result);
    running -= !error;
    return error;
}

/* The program ends by returning from its main or by _exit. */
__attribute__((destructor)) static void report(void)
{
    int to = number_of("REPORT");
    struct { const char *name; long count; } counts[] = {
        {"asked", asked}, {"taken", taken}, {"held", held}, {"started", started}, {"reads", reads}, {"writes", writes},
        {"taken_in_threads", taken_in_threads}, {"started_in_threads", started_in_threads}, {"grown_text", grown_text},
    };
    for (size_t k = 0; k < sizeof counts / sizeof *counts; k++)
        dprintf(to, "%s %ld\n", counts[k].name, counts[k].count);
    for (long mark = 0; mark < writes && mark < MOST_MARKS; mark++)
        dprintf(to, "mark %ld %ld\n", taken_at[mark], microseconds_at[mark]);
}

void _exit(int status)
{
    report();
    syscall(SYS_exit_group, status);
    __builtin_unreachable();
}
