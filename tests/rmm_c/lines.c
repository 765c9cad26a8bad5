/* Performs raw operations through the C library, one a line, and prints the result of each.
 *
 *     lines < OPERATIONS
 *
 * tests/rmm_lines.py has the operations. A comment and a platform are printed as an empty line. */
#include "rmm_commands.h"

#include <inttypes.h>
#include <stdio.h>
#include <stdlib.h>
#include <string.h>

enum { MOST_LINE = 1 << 16, MOST_WORDS = 40 };

static char line[MOST_LINE];
static char *words[MOST_WORDS];
static uint64_t n[MOST_WORDS];
static int count;

static bool is(const char *name) { return strcmp(words[0], name) == 0; }

/* Cuts a line into its words up to ` = `. The number of word k is n[k - 1]. */
static void read_words(void)
{
    count = 0;
    for (char *word = strtok(line, " \n"); word != NULL && strcmp(word, "=") != 0; word = strtok(NULL, " \n"))
        if (count < MOST_WORDS)
            words[count++] = word;
    for (int k = 0; k < MOST_WORDS; k++)
        n[k] = k + 1 < count ? strtoull(words[k + 1], NULL, 16) : 0;
}

/* ---- the machine */

static rmm_settings settings_of_line(void)
{
    rmm_settings settings = RMM_DEFAULTS;
    settings.base = n[0];
    settings.granules = n[1];
    settings.aux = n[2];
    settings.vmid_bits = n[3];
    settings.s2sz = n[4];
    settings.max_recs_order = n[5];
    settings.layout = n[6] & 1 ? RMM_EAC5 : RMM_REL0;
    settings.stops_at_destroyed = (n[6] & 2) != 0;
    settings.measures_all_recs = (n[6] & 4) != 0;
    settings.ignores_data_flags = (n[6] & 8) != 0;
    settings.aligns_live_top = (n[6] & 16) != 0;
    settings.shows_target_alone = (n[6] & 32) != 0;
    settings.block_level = n[6] & 64 ? 1 : 2;
    settings.takes_shareability = (n[6] & 128) != 0;
    settings.data_needs_ram = (n[6] & 256) != 0;
    settings.checks_params = (n[6] & 512) != 0;
    settings.checks_gic = (n[6] & 1024) != 0;
    settings.bps = n[7];
    settings.wps = n[8];
    settings.lrs = n[9];
    settings.secure_base = n[10];
    settings.secure_count = n[11];
    return settings;
}

static bool open_machine(rmm_handle *handle)
{
    rmm_settings settings = settings_of_line();
    rmm_close(handle);
    return rmm_open(handle, &settings) == RMM_OPENED;
}

/* ---- operations, each of which prints its result */

static void smc(rmm_handle *handle)
{
    rmm_registers registers = {n[0], n[1], n[2], n[3], n[4], n[5], n[6]};
    rmm_smc(handle, &registers);
    if (registers.x5 != n[5] || registers.x6 != n[6])
        printf("X5 or X6 is another: ");
    printf("%" PRIx64 " %" PRIx64 " %" PRIx64 " %" PRIx64 " %" PRIx64, registers.x0, registers.x1, registers.x2,
           registers.x3, registers.x4);
}

static void print_if_allowed(rmm_handle *handle, const rmm_registers *registers, uint64_t word)
{
    if (rmm_is_allowed(handle, registers, word))
        printf(" %" PRIx64, word);
}

/* The name of the check that decides a call, or `-`, and the words that are allowed, of all statuses with some indices. */
static void judge(rmm_handle *handle)
{
    rmm_registers registers = {n[0], n[1], n[2], n[3], n[4], n[5], n[6]};
    uint64_t check = rmm_deciding_check(handle, &registers);
    printf("%s", check == 0 ? "-" : rmm_check_name(check));
    for (uint64_t index = 0; index < 6; index++)
        for (uint64_t status = 0; status < 6; status++)
            print_if_allowed(handle, &registers, index << 8 | status);
    print_if_allowed(handle, &registers, RMM_RUNS_ON);
    print_if_allowed(handle, &registers, RMM_NOT_SUPPORTED);
}

static void put(rmm_handle *handle, const uint8_t *bytes, size_t size)
{
    printf("%s", rmm_store(handle, n[0], bytes, size) ? "done" : "fault");
}

static void fill(rmm_handle *handle)
{
    static uint8_t page[RMM_GRANULE_SIZE];
    memset(page, (int)n[1], sizeof page);
    put(handle, page, sizeof page);
}

static void store(rmm_handle *handle)
{
    static uint8_t bytes[MOST_LINE];
    size_t size = 0;
    for (const char *at = words[2]; at[0] != '\0' && at[1] != '\0'; at += 2) {
        char pair[] = {at[0], at[1], '\0'};
        bytes[size++] = (uint8_t)strtoul(pair, NULL, 16);
    }
    put(handle, bytes, size);
}

static void print_bytes(const uint8_t *bytes, size_t size)
{
    for (size_t k = 0; k < size; k++)
        printf("%02x", (unsigned)bytes[k]);
}

static void load(rmm_handle *handle)
{
    static uint8_t bytes[RMM_GRANULE_SIZE];
    if (n[1] <= sizeof bytes && rmm_load(handle, n[0], bytes, (size_t)n[1]))
        print_bytes(bytes, (size_t)n[1]);
    else
        printf("fault");
}

static void guest(rmm_handle *handle)
{
    static const char *const answers[] = {"queued", "full", "none"};
    rmm_step step = {n[1], n[2], n[3], n[4], n[5]};
    printf("%s", count > 7 ? "-" : answers[rmm_guest(handle, n[0], &step)]);
}

static void interrupt(rmm_handle *handle)
{
    uint64_t word;
    if (rmm_interrupt(handle, n[0], &word))
        printf("%" PRIx64, word);
    else
        printf("none");
}

static void saw(rmm_handle *handle)
{
    rmm_rec rec;
    rmm_step_result result;
    if (!rmm_read_rec(handle, n[0], &rec)) {
        printf("none");
        return;
    }
    printf("%" PRIx64, rec.result_count);
    for (uint64_t k = 0; rmm_result(handle, n[0], k, &result); k++)
        printf(" %" PRIx64 " %" PRIx64, result.kind, result.value);
}

static void state(rmm_handle *handle)
{
    uint64_t state;
    if (rmm_read_state(handle, n[0], &state))
        printf("%" PRIx64, state);
    else
        printf("none");
}

/* The sum of a granule's bytes; of a table, an RD and a REC it is 0. */
static void sum(rmm_handle *handle)
{
    uint64_t state, word, total = 0;
    if (!rmm_read_state(handle, n[0], &state)) {
        printf("none");
        return;
    }
    for (uint64_t k = 0; state != RMM_RTT && state != RMM_RD && state != RMM_REC && k < 512; k++)
        for (rmm_read_word(handle, n[0], k, &word); word != 0; word >>= 8)
            total += word & 0xff;
    printf("%" PRIx64, total);
}

static void realm(rmm_handle *handle)
{
    rmm_realm it;
    if (rmm_read_realm(handle, n[0], &it))
        printf("%" PRIx64 " %" PRIx64 " %" PRIx64 " %" PRIx64 " %" PRIx64 " %" PRIx64 " %" PRIx64 " %" PRIx64, it.state,
               it.s2sz, it.rtt_level_start, it.rtt_num_start, it.rtt_base, it.vmid, it.next_rec, it.rec_count);
    else
        printf("none");
}

static void rim(rmm_handle *handle)
{
    rmm_realm it;
    if (rmm_read_realm(handle, n[0], &it))
        print_bytes(it.rim, it.hash_algo == RMM_SHA_256 ? 32 : 64);
    else
        printf("none");
}

/* The RD of a REC is not read. */
static void rec(rmm_handle *handle)
{
    rmm_rec it;
    uint64_t pc, gpr;
    if (rmm_read_rec(handle, n[0], &it) && rmm_read_word(handle, n[0], 31, &pc) && rmm_read_word(handle, n[0], 0, &gpr))
        printf("%" PRIx64 " - %" PRIx64 " %" PRIx64 " %" PRIx64 " %" PRIx64 " %" PRIx64, it.state, it.mpidr,
               it.is_runnable, it.is_psci_pending, pc, gpr);
    else
        printf("none");
}

static const struct operation {
    const char *name;
    void (*perform)(rmm_handle *);
} operations[] = {
    {"smc", smc},     {"fill", fill}, {"store", store}, {"load", load},   {"guest", guest}, {"interrupt", interrupt},
    {"state", state}, {"sum", sum},   {"realm", realm}, {"rim", rim},     {"rec", rec},     {"saw", saw},
    {"judge", judge},
};

int main(void)
{
    rmm_handle handle = RMM_CLOSED;
    int status = 0;
    while (status == 0 && fgets(line, sizeof line, stdin) != NULL) {
        bool is_comment = line[0] == '#';
        read_words();
        if (!is_comment && is("platform") && !open_machine(&handle))
            status = 2;
        for (size_t k = 0; !is_comment && k < sizeof operations / sizeof operations[0]; k++)
            if (is(operations[k].name))
                operations[k].perform(&handle);
        putchar('\n');
    }
    rmm_close(&handle);
    return status;
}
