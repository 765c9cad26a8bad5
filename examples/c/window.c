/* The memory of a simulated machine at its own addresses. The RMM has the granules; here is a copy of those that are the
 * host's. Before a call the pages that it can read are stored into the RMM, and after it they are loaded again. */
#define _GNU_SOURCE
#include "window.h"

#include <inttypes.h>
#include <rmm_commands.h>
#include <signal.h>
#include <string.h>
#include <sys/mman.h>
#include <unistd.h>

enum { PAGE = RMM_GRANULE_SIZE, MOST = 4096 };

static struct {
    rmm_handle rmm;
    rmm_settings settings;
    FILE *log;
    struct {
        bool is_host_s;   /* the host has access */
        bool is_mapped;   /* a realm may have it as unprotected memory */
        uint64_t run;     /* of a REC that was entered: the address of its run page */
        uint64_t state;
    } granules[MOST];
} window;

static bool is_in(uint64_t address)
{
    return address >= window.settings.base && (address - window.settings.base) / PAGE < window.settings.granules;
}

static uint64_t number_of(uint64_t address) { return (address - window.settings.base) / PAGE; }
static uint64_t address_of(uint64_t number) { return window.settings.base + number * PAGE; }
static uint8_t *pointer_to(uint64_t address) { return (uint8_t *)(uintptr_t)address; }

/* ---- the log */

/* A page as lines: its first byte everywhere, and then each word that is another one. */
static void log_page(uint64_t page)
{
    const uint8_t *bytes = pointer_to(page);
    uint64_t same = bytes[0] * UINT64_C(0x0101010101010101);
    fprintf(window.log, "fill 0x%" PRIx64 " %u\n", page, bytes[0]);
    for (unsigned at = 0; at < PAGE; at += 8) {
        uint64_t word;
        memcpy(&word, bytes + at, 8);
        if (word != same)
            fprintf(window.log, "store 0x%" PRIx64 " 0x%" PRIx64 "\n", page + at, word);
    }
}

/* The number of outputs of a command. */
static unsigned outputs_of(uint64_t x0)
{
    switch (x0) {
    case RMM_FID_RTT_READ_ENTRY: return 4;
    case RMM_FID_VERSION: case RMM_FID_DATA_DESTROY: case RMM_FID_RTT_DESTROY: return 2;
    case RMM_FID_RTT_UNMAP_UNPROTECTED: case RMM_FID_FEATURES: case RMM_FID_RTT_FOLD: case RMM_FID_REC_AUX_COUNT:
    case RMM_FID_RTT_INIT_RIPAS: case RMM_FID_RTT_SET_RIPAS: return 1;
    default: return 0;
    }
}

static void log_call(const rmm_registers *before, const rmm_registers *after)
{
    const uint64_t outputs[] = {after->x1, after->x2, after->x3, after->x4};
    fprintf(window.log, "smc 0x%" PRIx64 " 0x%" PRIx64 " 0x%" PRIx64 " 0x%" PRIx64, before->x0, before->x1, before->x2,
            before->x3);
    fprintf(window.log, " 0x%" PRIx64 " 0x%" PRIx64 " 0x%" PRIx64 " = 0x%" PRIx64, before->x4, before->x5, before->x6,
            after->x0);
    for (unsigned k = 0; k < outputs_of(before->x0); k++)
        fprintf(window.log, " 0x%" PRIx64, outputs[k]);
    fprintf(window.log, "\n");
}

void window_log(FILE *log)
{
    window.log = log;
    if (log != NULL)
        fprintf(log, "platform 0x%" PRIx64 " %" PRIu64 " aux %" PRIu64 "\n", window.settings.base,
                window.settings.granules, window.settings.aux);
}

/* ---- pages */

/* Stores a page of the host into the RMM, if it has changed. */
static void copy_in(uint64_t page)
{
    uint8_t there[PAGE];
    if (!window.granules[number_of(page)].is_host_s || !rmm_load(&window.rmm, page, there, PAGE))
        return;
    if (memcmp(there, pointer_to(page), PAGE) == 0)
        return;
    rmm_store(&window.rmm, page, pointer_to(page), PAGE);
    if (window.log != NULL)
        log_page(page);
}

/* Loads a page as the RMM has it now, and gives or takes the access. */
static void copy_out(uint64_t page)
{
    uint8_t there[PAGE];
    bool is_host_s = rmm_load(&window.rmm, page, there, PAGE);
    if (is_host_s != window.granules[number_of(page)].is_host_s) {
        mprotect(pointer_to(page), PAGE, is_host_s ? PROT_READ | PROT_WRITE : PROT_NONE);
        window.granules[number_of(page)].is_host_s = is_host_s;
    }
    if (is_host_s)
        memcpy(pointer_to(page), there, PAGE);
}

static void read_state(uint64_t page)
{
    rmm_read_state(&window.rmm, page, &window.granules[number_of(page)].state);
}

/* Does something with the granule that each register names, if it names one: what a call reads or changes of the host's
 * memory is there. */
static void each_named(const rmm_registers *it, void (*with)(uint64_t page))
{
    const uint64_t x[] = {it->x1, it->x2, it->x3, it->x4, it->x5, it->x6};
    for (unsigned k = 0; k < 6; k++)
        if (is_in(x[k]))
            with(x[k] - x[k] % PAGE);
}

static void each_mapped(void (*with)(uint64_t page))
{
    for (uint64_t number = 0; number < window.settings.granules; number++)
        if (window.granules[number].is_mapped)
            with(address_of(number));
}

/* Keeps which granules a realm may have as unprotected memory from now on. */
static void map(uint64_t address, uint64_t level)
{
    uint64_t count = level == 3 ? 1 : level == 2 ? 512 : MOST;
    for (uint64_t page = address; page < address + count * PAGE; page += PAGE)
        if (is_in(page))
            window.granules[number_of(page)].is_mapped = true;
}

/* ---- calls */

/* Reads which states a call has changed: of the granules that it names, before and after; of a realm and a REC all. */
static void read_states(const rmm_registers *before, const rmm_registers *after)
{
    uint64_t fid = before->x0;
    bool is_more = fid == RMM_FID_REALM_CREATE || fid == RMM_FID_REALM_DESTROY || fid == RMM_FID_REC_CREATE ||
                   fid == RMM_FID_REC_DESTROY;
    each_named(before, read_state);
    each_named(after, read_state);
    for (uint64_t number = 0; is_more && number < window.settings.granules; number++)
        read_state(address_of(number));
}

void window_smc(rmm_registers *registers)
{
    const rmm_registers before = *registers;
    bool is_entry = before.x0 == RMM_FID_REC_ENTER;
    each_named(&before, copy_in);
    if (is_entry)
        each_mapped(copy_in);
    rmm_smc(&window.rmm, registers);
    if (window.log != NULL)
        log_call(&before, registers);
    each_named(&before, copy_out);
    if (is_entry)
        each_mapped(copy_out);
    if (registers->x0 == RMM_SUCCESS) {
        read_states(&before, registers);
        if (before.x0 == RMM_FID_RTT_MAP_UNPROTECTED)
            map(before.x4 & UINT64_C(0xfffffffff000), before.x3);
    }
    if (is_entry && registers->x0 == RMM_RUNS_ON)
        window.granules[number_of(before.x1)].run = before.x2;
}

bool window_guest(uint64_t rec, const rmm_step *step, const char *text)
{
    bool is_queued = rmm_guest(&window.rmm, rec, step) == RMM_QUEUED;
    if (window.log != NULL && is_queued)
        fprintf(window.log, "guest 0x%" PRIx64 " %s = queued\n", rec, text);
    return is_queued;
}

/* What the host has written to the run page since the entry stays: the exit is another part of the page. */
bool window_interrupt(uint64_t rec, uint64_t *word)
{
    rmm_rec it;
    if (!rmm_read_rec(&window.rmm, rec, &it) || it.state != RMM_REC_RUNNING)
        return false;
    uint64_t run = window.granules[number_of(rec)].run;
    copy_in(run);
    rmm_interrupt(&window.rmm, rec, word);
    copy_out(run);
    if (window.log != NULL)
        fprintf(window.log, "interrupt 0x%" PRIx64 " = %s%s\n", rec, rmm_status_name(*word),
                *word == RMM_SUCCESS ? ", exit IRQ" : "");
    return true;
}

rmm_handle *window_rmm(void) { return &window.rmm; }

/* ---- faults */

static size_t put_text(char *to, const char *text)
{
    size_t length = strlen(text);
    memcpy(to, text, length);
    return length;
}

static size_t put_hex(char *to, uint64_t number)
{
    int digits = 1;
    while (digits < 16 && number >> 4 * digits != 0)
        digits++;
    for (int k = 0; k < digits; k++)
        to[k] = "0123456789abcdef"[number >> 4 * (digits - 1 - k) & 15];
    return (size_t)digits;
}

/* Says what the host did, and lets the access fault again: the process ends at it, as it does without this. */
static void on_fault(int number, siginfo_t *info, void *context)
{
    uint64_t address = (uintptr_t)info->si_addr;
    char line[160];
    (void)context;
    signal(number, SIG_DFL);
    if (!is_in(address))
        return;
    size_t length = put_text(line, "window: the host has no access to 0x");
    length += put_hex(line + length, address);
    length += put_text(line + length, ": granule 0x");
    length += put_hex(line + length, address - address % PAGE);
    length += put_text(line + length, " is ");
    length += put_text(line + length, rmm_granule_state_name(window.granules[number_of(address)].state));
    if (window.granules[number_of(address)].state == RMM_UNDELEGATED)
        length += put_text(line + length, ", and secure");
    line[length++] = '\n';
    (void)!write(STDERR_FILENO, line, length);
}

/* ---- opening and closing */

bool window_open(const rmm_settings *settings)
{
    struct sigaction action = {.sa_sigaction = on_fault, .sa_flags = SA_SIGINFO};
    int how = MAP_PRIVATE | MAP_ANONYMOUS | MAP_FIXED_NOREPLACE;
    size_t size = settings->granules * PAGE;
    memset(&window, 0, sizeof window);
    window.settings = *settings;
    if (rmm_open(&window.rmm, settings) != RMM_OPENED)
        return false;
    void *memory = mmap(pointer_to(settings->base), size, PROT_READ | PROT_WRITE, how, -1, 0);
    if (memory != pointer_to(settings->base)) {
        if (memory != MAP_FAILED)
            munmap(memory, size);
        rmm_close(&window.rmm);
        return false;
    }
    for (uint64_t number = 0; number < settings->granules; number++) {
        window.granules[number].is_host_s = true;
        copy_out(address_of(number));
    }
    return sigaction(SIGSEGV, &action, NULL) == 0;
}

void window_close(void)
{
    munmap(pointer_to(window.settings.base), window.settings.granules * PAGE);
    rmm_close(&window.rmm);
}
