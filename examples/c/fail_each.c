/* Runs the host once for each call that it makes, and each time this call is refused: the RMM never sees it. In the end
 * each granule has to be UNDELEGATED again, and the host's. Each word that an RMM refuses with is tried.
 *
 *     fail_each [PAGES]     PAGES of the image, at most 512 (8)
 */
#include "granules.h"
#include "guest.h"
#include "host.h"
#include "smccc.h"

#include <inttypes.h>
#include <stdlib.h>

/* The number of calls that a run has made, the number of the one that is refused, the word, and its function. */
static unsigned calls, refused;
static uint64_t word, function;

void smccc_conduit(rmm_registers *registers)
{
    if (++calls != refused) {
        window_smc(registers);
        return;
    }
    function = registers->x0;
    *registers = (rmm_registers){.x0 = word};
}

/* Prints which granules are not UNDELEGATED. Returns how many there are, those that the host has lost among them. */
static unsigned left_behind(uint64_t base, uint64_t granules)
{
    unsigned count = 0;
    for (uint64_t it = base; it < base + granules * RMM_GRANULE_SIZE; it += RMM_GRANULE_SIZE) {
        uint64_t state = RMM_UNDELEGATED;
        rmm_read_state(window_rmm(), it, &state);
        if (state != RMM_UNDELEGATED && count++ == 0)
            printf("call %u, 0x%" PRIx64 ", refused with 0x%" PRIx64 ": 0x%" PRIx64 " is %s\n", refused, function,
                   word, it, rmm_granule_state_name(state));
    }
    return count > granules_in_use() ? count : granules_in_use();
}

static bool opened(rmm_settings *settings)
{
    granules_open(settings->base, (unsigned)settings->granules);
    return window_open(settings);
}

/* A run of the host. Returns whether all of it went well. */
static bool run(unsigned pages)
{
    struct host host = {0};
    calls = 0;
    bool is_right = host_boot(&host, pages) && guest_load(&host) && host_run(&host);
    return host_down(&host) && is_right;
}

int main(int argc, char **argv)
{
    static const uint64_t words[] = {RMM_ERROR_INPUT, RMM_ERROR_REALM, RMM_ERROR_REC, RMM_ERROR_RTT | 2 << 8,
                                     RMM_ERROR_RTT | 3 << 8, RMM_NOT_SUPPORTED};
    rmm_settings settings = RMM_DEFAULTS;
    unsigned pages = argc > 1 ? (unsigned)strtoul(argv[1], NULL, 10) : 8, runs = 0, leaks = 0;
    settings.base = 0x40000000;
    settings.granules = pages + 64;
    if (!opened(&settings) || !run(pages))
        return 2;
    for (unsigned k = 0; k < sizeof words / sizeof words[0]; k++) {
        word = words[k];
        for (refused = 1;; refused++) {
            run(pages);
            if (calls < refused)
                break;
            runs++;
            if (left_behind(settings.base, settings.granules) == 0)
                continue;
            leaks++;
            window_close();
            if (!opened(&settings))
                return 2;
        }
    }
    window_close();
    printf("%u runs, each with one call refused: %u leave granules delegated or lost\n", runs, leaks);
    return leaks != 0;
}
