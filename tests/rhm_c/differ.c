/* A host and its RMM that differ, and what makes them alike again: HOST-C.md. The RMM is the one of rmm.h.
 * The last line is `N checks passed`. */
#include <rhm.h>
#include <rmm_commands.h>
#include <stdio.h>

enum { PAGES = 16, OPEN = 10 };

#define BASE UINT64_C(0x80000000)
/* The first page of the half of 39 bits that is unprotected: 2^38 / 4096. */
#define UNPROTECTED (UINT64_C(1) << 26)

static rhm_handle host;
static rmm_handle rmm;
/* The next RMI_DATA_DESTROY has another output; the calls of that command so far. */
static bool is_output_wrong;
static unsigned destroyed, passed;
static uint64_t last_x1;

#define CHECKED(IT)                                         \
    do {                                                    \
        if (!(IT)) {                                        \
            printf("%s:%d: %s\n", __FILE__, __LINE__, #IT); \
            return false;                                   \
        }                                                   \
        passed++;                                           \
    } while (0)

static uint64_t at(uint64_t page) { return BASE + page * RHM_GRANULE_SIZE; }

static void perform(void *context, const rhm_action *action, rhm_answer *answer)
{
    unsigned char page[RHM_GRANULE_SIZE] = {0};
    rmm_registers it = {action->x0, action->x1, action->x2, action->x3, action->x4, action->x5, action->x6};
    (void)context;
    if (action->kind == RHM_CALL) {
        rmm_smc(&rmm, &it);
        *answer = (rhm_answer){it.x0, it.x1};
        if (action->x0 == RMM_FID_DATA_DESTROY) {
            answer->x1 += is_output_wrong ? RHM_GRANULE_SIZE : 0;
            is_output_wrong = false;
            destroyed++;
        }
        last_x1 = answer->x1;
    } else if (action->kind == RHM_REALM_PARAMS) {
        rhm_write_params(page, action);
        rmm_store(&rmm, action->address, page, sizeof page);
    } else if (action->kind == RHM_STORE) {
        memset(page, (int)action->value, sizeof page);
        for (uint64_t k = 0; k < action->count; k++)
            rmm_store(&rmm, action->address + k * sizeof page, page, sizeof page);
    }
}

static uint64_t run(rhm_command command)
{
    uint64_t value = 0;
    return rhm_run(&host, 0, command, perform, NULL, &value);
}

static uint64_t abort_build(void) { return rhm_run_abort(&host, 0, perform, NULL); }

static uint64_t open_count(void)
{
    rhm_build build;
    return rhm_read_build(&host, 0, &build) ? build.open_count : 0;
}

/* A realm with a page: a take, five delegations, the realm, two tables, the page. */
static bool boot(void)
{
    const rhm_settings settings = {PAGES, 4, 1, 1, 64, BASE};
    rmm_settings machine = RMM_DEFAULTS;
    machine.granules = PAGES + RHM_OWN_GRANULES;
    machine.base = BASE;
    rhm_close(&host);
    rmm_close(&rmm);
    is_output_wrong = false;
    destroyed = 0;
    bool is_done = rhm_open(&host, &settings) == RHM_OPENED && rmm_open(&rmm, &machine) == RMM_OPENED;
    is_done = is_done && run(rhm_take(4)) == RHM_DONE;
    for (uint64_t page = 0; page < 5; page++)
        is_done = is_done && run(rhm_delegate(page)) == RHM_DONE;
    is_done = is_done && run(rhm_create_realm(0, 1, 39)) == RHM_DONE && run(rhm_create_rtt(2, 0, 2)) == RHM_DONE;
    is_done = is_done && run(rhm_create_rtt(3, 0, 3)) == RHM_DONE && run(rhm_init_ripas(0, 1)) == RHM_DONE;
    return is_done && run(rhm_create_data(4, 0, 9)) == RHM_DONE && open_count() == OPEN;
}

/* All pages are the host's, in both. */
static bool is_all_back(void)
{
    bool is_back = rhm_free_count(&host) == PAGES && open_count() == 0;
    for (uint64_t page = 0; page < PAGES; page++) {
        uint64_t state = RMM_RTT;
        is_back = is_back && rmm_read_state(&rmm, at(page), &state) && state == RMM_UNDELEGATED;
    }
    return is_back;
}

/* The RMM has performed an undo, and names another granule. Made again it is refused; settled it is done. */
static bool try_other_output(void)
{
    uint64_t value = 99;
    CHECKED(boot());
    is_output_wrong = true;
    CHECKED(abort_build() == RHM_OTHER_OUTPUT && open_count() == OPEN && destroyed == 1);
    CHECKED(abort_build() == RHM_DIVERGED && open_count() == OPEN && destroyed == 2);
    CHECKED(rhm_settle_undo(&host, 0, &value) == RHM_DONE && value == OPEN - 1 && destroyed == 2);
    CHECKED(abort_build() == RHM_DONE && is_all_back() && destroyed == 2);
    return true;
}

/* The hypervisor has made the undo by a call of its own. */
static bool try_own_call(void)
{
    uint64_t value = 99;
    CHECKED(boot());
    CHECKED(rmm_data_destroy(&rmm, at(0), 0, NULL, NULL) == RMM_SUCCESS);
    CHECKED(abort_build() == RHM_DIVERGED && open_count() == OPEN);
    CHECKED(rhm_run_undo(&host, 0, perform, NULL, &value) == RHM_DIVERGED && value == OPEN);
    CHECKED(rhm_settle_undo(&host, 0, &value) == RHM_DONE && value == OPEN - 1);
    CHECKED(abort_build() == RHM_DONE && is_all_back());
    return true;
}

/* The RMM has performed a table of an unprotected address, which the model refuses. It is undone by hand. */
static bool try_diverged(void)
{
    uint64_t value = 99, rtt = 0;
    rhm_command table = rhm_create_rtt(5, UNPROTECTED, 2);
    CHECKED(boot() && run(rhm_delegate(5)) == RHM_DONE && open_count() == OPEN + 1);
    CHECKED(rhm_run(&host, 0, table, perform, NULL, &value) == RHM_DIVERGED && value == RMM_ERROR_INPUT);
    CHECKED(abort_build() == RHM_DIVERGED && open_count() == OPEN + 1);
    CHECKED(rmm_rtt_destroy(&rmm, at(0), UNPROTECTED * RHM_GRANULE_SIZE, 2, &rtt, NULL) == RMM_SUCCESS && rtt == at(5));
    CHECKED(abort_build() == RHM_DONE && is_all_back());
    return true;
}

/* A range beyond one table, which the model refuses: the RMM has changed its first page, 511 of 512, and this one is
 * committed. */
static bool try_part_of_ripas(void)
{
    const rhm_command part = rhm_init_ripas(511, 1);
    rhm_event event;
    uint64_t value = 99;
    CHECKED(boot() && rhm_run(&host, 0, rhm_init_ripas(511, 2), perform, NULL, &value) == RHM_DIVERGED);
    CHECKED(value == RMM_ERROR_INPUT && last_x1 == 512 * RHM_GRANULE_SIZE);
    const rhm_answer answer = {0, last_x1};
    CHECKED(rhm_commit(&host, 0, &part, &answer, &value) == RHM_DONE && value == 0);
    CHECKED(rhm_read_event(&host, rhm_event_count(&host) - 1, &event) && event.kind == RHM_EVENT_RIPAS);
    CHECKED(event.ipa == 511 && event.count == 1);
    CHECKED(abort_build() == RHM_DONE && is_all_back());
    return true;
}

/* The host's refusals of an undo come as from rhm_run_undo, and the value is 0. */
static bool try_refusals(void)
{
    rhm_handle closed = RHM_CLOSED;
    uint64_t value = 99;
    CHECKED(rhm_settle_undo(&host, 0, &value) == RHM_NOTHING_TO_UNDO && value == 0);
    value = 99;
    CHECKED(rhm_settle_undo(&host, 1, &value) == RHM_NO_BUILD && value == 0);
    value = 99;
    CHECKED(rhm_settle_undo(&closed, 0, &value) == RHM_HANDLE_CLOSED && value == 0);
    return true;
}

int main(void)
{
    bool is_right = try_other_output() && try_own_call() && try_diverged() && try_part_of_ripas();
    is_right = is_right && try_refusals();
    rhm_close(&host);
    rmm_close(&rmm);
    printf("%u checks passed\n", passed);
    return is_right ? 0 : 1;
}
