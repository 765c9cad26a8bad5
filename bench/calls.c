/* The time of a call of the RMM for C: nanoseconds of the processor, the least of several rounds.
 *
 *     cc -O2 -Iinclude bench/calls.c build/librmm.a -o calls && ./calls
 */
#define _POSIX_C_SOURCE 199309L
#include <rmm_commands.h>
#include <stdio.h>
#include <time.h>

enum { ROUNDS = 15 };

/* The granules of a realm, and those of the host. */
static const uint64_t RD = 0x80000000, REC = 0x80001000, TABLE = 0x80004000, PAGE = 0x80005000, FREE = 0x80006000;
static const uint64_t ROOT = 0x80008000, PARAMS = 0x80010000, RUN = 0x80011000, SOURCE = 0x80012000;

static rmm_handle rmm = RMM_CLOSED;

static double now(void)
{
    struct timespec it;
    clock_gettime(CLOCK_PROCESS_CPUTIME_ID, &it);
    return (double)it.tv_sec * 1e9 + (double)it.tv_nsec;
}

static uint64_t read_state(void)
{
    uint64_t state = 0;
    return rmm_read_state(&rmm, FREE, &state) ? 0 : 1;
}

static uint64_t read_realm(void)
{
    rmm_realm realm;
    return rmm_read_realm(&rmm, RD, &realm) ? 0 : 1;
}

static uint64_t page_stored(void)
{
    static const uint8_t page[RMM_GRANULE_SIZE];
    return rmm_store(&rmm, SOURCE, page, sizeof page) ? 0 : 1;
}

static uint64_t refused(void) { return rmm_granule_undelegate(&rmm, SOURCE) == RMM_ERROR_INPUT ? 0 : 1; }

static uint64_t judged(void)
{
    rmm_registers call = {RMM_FID_RTT_DESTROY, RD, 0, 3, 0, 0, 0};
    return rmm_deciding_check(&rmm, &call) == RMM_CHECK_RTT_LIVE ? 0 : 1;
}

static uint64_t entry_read(void)
{
    uint64_t level;
    return rmm_rtt_read_entry(&rmm, RD, 0, 3, &level, NULL, NULL, NULL);
}

static uint64_t delegated(void) { return rmm_granule_delegate(&rmm, FREE) | rmm_granule_undelegate(&rmm, FREE); }
static uint64_t entered(void) { return rmm_rec_enter(&rmm, REC, RUN); }

static uint64_t mapped(void)
{
    return rmm_data_create_unknown(&rmm, RD, PAGE, 0x1000) | rmm_data_destroy(&rmm, RD, 0x1000, NULL, NULL);
}

static uint64_t measured_page(void)
{
    return rmm_data_create(&rmm, RD, PAGE, 0x1000, SOURCE, RMM_MEASURE_CONTENT) |
           rmm_data_destroy(&rmm, RD, 0x1000, NULL, NULL);
}

static uint64_t opened(void)
{
    rmm_handle other = RMM_CLOSED;
    rmm_settings settings = RMM_DEFAULTS;
    settings.granules = 64;
    uint64_t answer = rmm_open(&other, &settings);
    rmm_close(&other);
    return answer;
}

static int measured(const char *what, uint64_t (*call)(void), long count, int calls)
{
    double least = 1e18;
    for (int round = 0; round < ROUNDS; round++) {
        double began = now();
        for (long i = 0; i < count; i++)
            if (call() != 0) {
                printf("%s: a call is refused\n", what);
                return 1;
            }
        double took = (now() - began) / (double)(count * calls);
        least = took < least ? took : least;
    }
    printf("%-44s %8.0f ns\n", what, least);
    return 0;
}

/* A NEW realm of 33 bits with a table of pages, a page at IPA 0, and a REC. */
static uint64_t made(void)
{
    rmm_realm_params realm = {0};
    rmm_rec_params rec = {0};
    rmm_rec_run run = {0};
    rmm_settings settings = RMM_DEFAULTS;
    settings.granules = 64;
    settings.aux = 0;
    realm.s2sz = 33;
    realm.rtt_base = ROOT;
    realm.rtt_level_start = 2;
    realm.rtt_num_start = 8;
    rec.flags = RMM_RUNNABLE;
    uint64_t word = rmm_open(&rmm, &settings);
    for (uint64_t address = RD; address < ROOT + 0x8000; address += RMM_GRANULE_SIZE)
        word |= address == FREE ? 0 : rmm_granule_delegate(&rmm, address);
    bool is_stored = rmm_store(&rmm, PARAMS, &realm, sizeof realm) && rmm_store(&rmm, RUN, &run, sizeof run);
    word |= rmm_realm_create(&rmm, RD, PARAMS) | rmm_rtt_create(&rmm, RD, TABLE, 0, 3);
    word |= rmm_data_create_unknown(&rmm, RD, PAGE, 0) | rmm_data_destroy(&rmm, RD, 0, NULL, NULL);
    word |= rmm_data_create_unknown(&rmm, RD, 0x80007000, 0);
    is_stored = is_stored && rmm_store(&rmm, PARAMS, &rec, sizeof rec);
    return word | rmm_rec_create(&rmm, RD, REC, PARAMS) | !is_stored;
}

int main(void)
{
    if (made() != 0 || measured("a measured page, made and destroyed, each", measured_page, 2000, 2) != 0 ||
        rmm_realm_activate(&rmm, RD) != 0)
        return 1;
    return measured("a state", read_state, 1000000, 1) | measured("a realm with its measurement", read_realm, 1000000, 1) |
           measured("a command that is refused", refused, 1000000, 1) |
           measured("the check that decides RMI_RTT_DESTROY", judged, 100000, 1) |
           measured("an entry of level 3, read", entry_read, 100000, 1) |
           measured("delegate and undelegate, each", delegated, 200000, 2) |
           measured("an entry of a REC with an exit", entered, 100000, 1) |
           measured("a page of zeros, made and destroyed, each", mapped, 100000, 2) |
           measured("a page of the host, stored", page_stored, 2000, 1) |
           measured("an RMM of 64 granules, opened and closed", opened, 500, 1);
}
