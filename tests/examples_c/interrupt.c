/* A guest that spins is interrupted over window.h: its entry leaves the run page as it was, and then the exit is there.
 *
 *     interrupt LOG      LOG gets a trace of all calls. The last line is `N checks passed`
 */
#include "../../examples/c/rmi_calls.h"
#include "../../examples/c/window.h"

#include <rmm_commands.h>

enum { RD, REC, AUX, TABLES = 8, DELEGATED = 16, PARAMS = 16, RUN, GRANULES = 32 };

static unsigned passed;

void smccc_conduit(rmm_registers *registers) { window_smc(registers); }

#define CHECKED(IT)                                         \
    do {                                                    \
        if (!(IT)) {                                        \
            printf("%s:%d: %s\n", __FILE__, __LINE__, #IT); \
            return 1;                                       \
        }                                                   \
        passed++;                                           \
    } while (0)

static uint64_t at(unsigned number) { return 0x40000000 + number * (uint64_t)RMM_GRANULE_SIZE; }
static void *page(unsigned number) { return (void *)(uintptr_t)at(number); }

/* A realm that is ACTIVE, with a REC. */
static bool boot(void)
{
    bool is_done = true;
    for (unsigned k = 0; k < DELEGATED; k++)
        is_done = is_done && rmi_granule_delegate(at(k)) == RMI_SUCCESS;
    *(rmm_realm_params *)page(PARAMS) = (rmm_realm_params){
        .s2sz = 33, .vmid = 1, .rtt_base = at(TABLES), .rtt_level_start = 2, .rtt_num_start = 8};
    is_done = is_done && rmi_realm_create(at(RD), at(PARAMS)) == RMI_SUCCESS;
    *(rmm_rec_params *)page(PARAMS) =
        (rmm_rec_params){.flags = RMM_RUNNABLE, .num_aux = 2, .aux = {at(AUX), at(AUX + 1)}};
    is_done = is_done && rmi_rec_create(at(RD), at(REC), at(PARAMS)) == RMI_SUCCESS;
    return is_done && rmi_realm_activate(at(RD)) == RMI_SUCCESS;
}

int main(int argc, char **argv)
{
    const rmm_step spin = {RMM_STEP_SPIN, 0, 0, 0, 0};
    rmm_settings settings = RMM_DEFAULTS;
    uint64_t word = 99;
    settings.base = at(0);
    settings.granules = GRANULES;
    FILE *log = argc > 1 ? fopen(argv[1], "w") : NULL;
    CHECKED(log != NULL && window_open(&settings));
    window_log(log);
    CHECKED(boot());
    rmm_rec_run *run = page(RUN);
    run->exit.exit_reason = RMM_EXIT_SERROR;
    CHECKED(!window_interrupt(at(REC), &word) && !window_interrupt(at(RUN), &word) && word == 99);
    CHECKED(window_guest(at(REC), &spin, "spin"));
    CHECKED(rmi_rec_enter(at(REC), at(RUN)) == RMM_RUNS_ON && run->exit.exit_reason == RMM_EXIT_SERROR);
    /* What the host writes to the page meanwhile stays. */
    run->enter.gprs[5] = 7;
    CHECKED(window_interrupt(at(REC), &word) && word == RMI_SUCCESS);
    CHECKED(run->exit.exit_reason == RMM_EXIT_IRQ && run->enter.gprs[5] == 7);
    CHECKED(!window_interrupt(at(REC), &word));
    /* The REC can be entered again. Its guest has no step. */
    run->exit.exit_reason = RMM_EXIT_SERROR;
    CHECKED(rmi_rec_enter(at(REC), at(RUN)) == RMI_SUCCESS && run->exit.exit_reason == RMM_EXIT_IRQ);
    window_close();
    fclose(log);
    printf("%u checks passed\n", passed);
    return 0;
}
