/* The host's run of a realm: its entries, and what an exit asks for. */
#include "host.h"

#include "granules.h"
#include "rmi_calls.h"

#include <inttypes.h>

enum { MOST_ENTRIES = 1000 };

#define SAY(...) (void)(host->console != NULL && fprintf(host->console, __VA_ARGS__))

/* An abort: a page that is missing, a register of the UART, or a page to be shared. */
static bool handle_abort(struct host *host, rmm_rec_run *run)
{
    uint64_t page = run->exit.hpfar >> 4 << 12, ipa = page | (run->exit.far & (PAGE_SIZE - 1));
    if (page < HOST_UNPROTECTED)
        return host_map_page(host, page, 0);
    if (ipa != HOST_UART)
        return host_map_shared(host, page);
    SAY("UART: %c\n", (int)run->exit.gprs[0]);
    run->enter.flags = RMM_EMULATED_MMIO;
    return true;
}

/* The guest asks for another RIPAS. Pages that become EMPTY are the host's again. */
static bool handle_ripas(const struct host *host, const struct host_rec *it, const rmm_run_exit *exit)
{
    bool is_set = host_set_ripas(host, it->rec, exit->ripas_base, exit->ripas_top);
    return is_set && (exit->ripas_value != RMM_EMPTY || host_unmap_pages(host, exit->ripas_base, exit->ripas_top));
}

/* The guest turns a REC on or off, or asks whether one is on. The number of a REC is its MPIDR. */
static bool handle_psci(struct host *host, struct host_rec *it, const rmm_run_exit *exit)
{
    uint64_t function = exit->gprs[0], number = exit->gprs[1];
    if (function == RMM_PSCI_CPU_OFF) {
        it->is_on = false;
        return true;
    }
    if (function != RMM_PSCI_CPU_ON && function != RMM_PSCI_AFFINITY_INFO)
        return false;
    if (number >= HOST_RECS || rmi_psci_complete(it->rec, host->recs[number].rec, RMM_PSCI_SUCCESS) != RMI_SUCCESS)
        return false;
    if (function == RMM_PSCI_CPU_ON)
        host->recs[number].is_on = true;
    return true;
}

static bool handle_exit(struct host *host, struct host_rec *it, rmm_rec_run *run)
{
    run->enter = (rmm_run_enter){0};
    switch (run->exit.exit_reason) {
    case RMM_EXIT_SYNC:
        return handle_abort(host, run);
    case RMM_EXIT_RIPAS_CHANGE:
        return handle_ripas(host, it, &run->exit);
    case RMM_EXIT_PSCI:
        return handle_psci(host, it, &run->exit);
    case RMM_EXIT_HOST_CALL:
        SAY("shared: %u\n", host->shared != 0 ? *(uint8_t *)page_at(host->shared) : 0);
        return true;
    default:
        return run->exit.exit_reason == RMM_EXIT_IRQ;
    }
}

/* KVM has a thread for each REC. Here the second one runs while it is on, and the first one waits. */
bool host_run(struct host *host)
{
    host->recs[0].is_on = true;
    for (unsigned k = 0; k < MOST_ENTRIES; k++) {
        unsigned number = host->recs[1].is_on;
        struct host_rec *it = &host->recs[number];
        rmm_rec_run *run = page_at(it->run);
        if (rmi_rec_enter(it->rec, it->run) != RMI_SUCCESS)
            return false;
        SAY("REC %u: %s, esr 0x%" PRIx64 ", hpfar 0x%" PRIx64 ", gprs 0x%" PRIx64 "\n", number,
            rmm_exit_reason_name(run->exit.exit_reason), run->exit.esr, run->exit.hpfar, run->exit.gprs[0]);
        if (run->exit.exit_reason == RMM_EXIT_PSCI && run->exit.gprs[0] == RMM_PSCI_SYSTEM_OFF)
            return true;
        if (!handle_exit(host, it, run))
            return false;
    }
    return false;
}
