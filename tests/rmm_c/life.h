/* The life of a realm with one page and one REC, from its parameters to the last undelegation. Each answer is compared
 * with what RMM 1.0 has for it. */
#ifndef LIFE_H
#define LIFE_H

#include "rmm_commands.h"

#include <stdio.h>
#include <string.h>

/* The granules of the realm, and those of the host. */
static const uint64_t RD = 0x80000000, REC = 0x80001000, AUX = 0x80002000, TABLE = 0x80004000, DATA = 0x80005000;
static const uint64_t ROOT = 0x80008000, PARAMS = 0x80010000, RUN = 0x80011000, SOURCE = 0x80012000;
enum { ROOTS = 8, AUXILIARIES = 2, PAGE_COUNT = 32 };

/* Says which answer is another one. */
#define WANTED(IT)                                    \
    do {                                              \
        if (!(IT)) {                                  \
            printf("%s:%d: %s\n", __FILE__, __LINE__, #IT); \
            return false;                             \
        }                                             \
    } while (0)

static bool delegated(rmm_handle *handle, uint64_t first, unsigned count)
{
    for (unsigned k = 0; k < count; k++)
        WANTED(rmm_granule_delegate(handle, first + k * (uint64_t)RMM_GRANULE_SIZE) == RMM_SUCCESS);
    return true;
}

static bool undelegated(rmm_handle *handle, uint64_t first, unsigned count)
{
    for (unsigned k = 0; k < count; k++)
        WANTED(rmm_granule_undelegate(handle, first + k * (uint64_t)RMM_GRANULE_SIZE) == RMM_SUCCESS);
    return true;
}

static bool stored(rmm_handle *handle, uint64_t address, const void *page)
{
    return rmm_store(handle, address, page, RMM_GRANULE_SIZE);
}

/* A NEW realm: a page of bytes `value` at IPA 0, and a REC. */
static bool make_realm(rmm_handle *handle, uint16_t vmid, uint8_t value)
{
    rmm_realm_params realm = {0};
    rmm_rec_params rec = {0};
    uint8_t page[RMM_GRANULE_SIZE];
    uint64_t top = 0, count = 0;
    realm.s2sz = 33;
    realm.vmid = vmid;
    realm.rtt_base = ROOT;
    realm.rtt_level_start = 2;
    realm.rtt_num_start = ROOTS;
    rec.flags = RMM_RUNNABLE;
    rec.num_aux = AUXILIARIES;
    memset(page, value, sizeof page);
    WANTED(delegated(handle, RD, 6) && delegated(handle, ROOT, ROOTS));
    WANTED(stored(handle, PARAMS, &realm) && stored(handle, SOURCE, page));
    WANTED(rmm_realm_create(handle, RD, PARAMS) == RMM_SUCCESS);
    WANTED(rmm_realm_create(handle, RD, PARAMS) == RMM_ERROR_INPUT);
    WANTED(rmm_data_create(handle, RD, DATA, 0, SOURCE, RMM_MEASURE_CONTENT) == (RMM_ERROR_RTT | 2 << 8));
    WANTED(rmm_rtt_create(handle, RD, TABLE, 0, 3) == RMM_SUCCESS);
    WANTED(rmm_rtt_init_ripas(handle, RD, 0, 0x1000, &top) == RMM_SUCCESS && top == 0x1000);
    WANTED(rmm_data_create(handle, RD, DATA, 0, SOURCE, RMM_MEASURE_CONTENT) == RMM_SUCCESS);
    WANTED(rmm_rec_aux_count(handle, RD, &count) == RMM_SUCCESS && count == AUXILIARIES);
    for (unsigned k = 0; k < AUXILIARIES; k++)
        rec.aux[k] = AUX + k * (uint64_t)RMM_GRANULE_SIZE;
    WANTED(stored(handle, PARAMS, &rec) && rmm_rec_create(handle, RD, REC, PARAMS) == RMM_SUCCESS);
    return true;
}

/* Its guest reads the page, writes to it, calls the host, and spins until it is interrupted. */
static bool run_realm(rmm_handle *handle, uint8_t value)
{
    rmm_rec_run run = {0};
    const rmm_step steps[] = {{RMM_STEP_READ, 0xfff, 1, 0, 0},
                              {RMM_STEP_WRITE, 0, 7, 1, 0},
                              {RMM_STEP_HOST_CALL, 9, 11, 0, 0},
                              {RMM_STEP_SPIN, 0, 0, 0, 0}};
    rmm_step_result result = {0, 0};
    uint64_t word = 0;
    WANTED(stored(handle, RUN, &run) && rmm_rec_enter(handle, REC, RUN) == RMM_ERROR_REALM);
    WANTED(rmm_realm_activate(handle, RD) == RMM_SUCCESS);
    for (unsigned k = 0; k < 4; k++)
        WANTED(rmm_guest(handle, REC, &steps[k]) == RMM_QUEUED);
    WANTED(rmm_rec_enter(handle, REC, RUN) == RMM_SUCCESS);
    WANTED(rmm_load(handle, RUN, &run, sizeof run));
    WANTED(run.exit.exit_reason == RMM_EXIT_HOST_CALL && run.exit.imm == 9 && run.exit.gprs[0] == 11);
    WANTED(rmm_result(handle, REC, 0, &result) && result.kind == RMM_RESULT_READ && result.value == value);
    WANTED(rmm_result(handle, REC, 1, &result) && result.kind == RMM_RESULT_DONE && result.value == 0);
    WANTED(!rmm_result(handle, REC, 2, &result));
    WANTED(rmm_read_word(handle, DATA, 0, &word) && (word & 0xff) == 7 && word >> 56 == value);
    WANTED(!rmm_load(handle, DATA, &run, sizeof run));
    WANTED(!rmm_interrupt(handle, REC, &word));
    WANTED(rmm_rec_enter(handle, REC, RUN) == RMM_RUNS_ON && rmm_rec_enter(handle, REC, RUN) == RMM_ERROR_REC);
    WANTED(rmm_interrupt(handle, REC, &word) && word == RMM_SUCCESS);
    WANTED(rmm_load(handle, RUN, &run, sizeof run) && run.exit.exit_reason == RMM_EXIT_IRQ);
    return true;
}

/* All of its granules are the host's again. */
static bool end_realm(rmm_handle *handle)
{
    uint64_t output = 0, top = 0;
    WANTED(rmm_realm_destroy(handle, RD) == RMM_ERROR_REALM);
    WANTED(rmm_rec_destroy(handle, REC) == RMM_SUCCESS);
    WANTED(rmm_rtt_destroy(handle, RD, 0, 3, NULL, &top) == (RMM_ERROR_RTT | 3 << 8) && top == 0);
    WANTED(rmm_data_destroy(handle, RD, 0, &output, NULL) == RMM_SUCCESS && output == DATA);
    WANTED(rmm_rtt_destroy(handle, RD, 0, 3, &output, NULL) == RMM_SUCCESS && output == TABLE);
    WANTED(rmm_realm_destroy(handle, RD) == RMM_SUCCESS);
    WANTED(undelegated(handle, RD, 6) && undelegated(handle, ROOT, ROOTS));
    return true;
}

static bool live(rmm_handle *handle, uint16_t vmid, uint8_t value)
{
    return make_realm(handle, vmid, value) && run_realm(handle, value) && end_realm(handle);
}

static inline uint64_t opened(rmm_handle *handle, uint64_t granules)
{
    rmm_settings settings = RMM_DEFAULTS;
    settings.granules = granules;
    return rmm_open(handle, &settings);
}

#endif
