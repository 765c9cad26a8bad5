/* host.h: a host that boots a realm, runs it, and takes it down. */
#ifndef HOST_H
#define HOST_H

#include <rmm_commands.h>
#include <stdio.h>

/* A realm as kvmtool makes it for 33 bits of IPAs: 2 MiB of memory at 2 GiB, devices in the half that is unprotected. */
#define HOST_RAM UINT64_C(0x80000000)
#define HOST_RAM_END UINT64_C(0x80200000)
#define HOST_UNPROTECTED UINT64_C(0x100000000)
#define HOST_UART (HOST_UNPROTECTED + 0x09000000)
enum { HOST_S2SZ = 33, HOST_START_LEVEL = 2, HOST_TABLES = 8, HOST_RECS = 2, HOST_AUX = 16 };

struct host_rec {
    uint64_t rec; /* 0 unless RMI_REC_CREATE has been accepted */
    uint64_t run;
    uint64_t aux[HOST_AUX];
    bool is_on;
};

/* A realm, and what the host needs to take it down. All zeros before host_boot. */
struct host {
    uint64_t rd; /* 0 unless RMI_REALM_CREATE has been accepted */
    uint64_t tables;
    uint64_t shared; /* the page that the guest has as unprotected memory, or 0 */
    struct host_rec recs[HOST_RECS];
    FILE *console; /* each exit is a line here; NULL for none */
};

/* Boots a realm whose first pages, at most 512, are full of sevens. False: host_down takes down what there is. */
bool host_boot(struct host *host, unsigned pages);

/* Runs the realm until its guest turns it off. False if an exit cannot be handled. */
bool host_run(struct host *host);

/* Takes down the realm. A call that is refused is tried once more. */
bool host_down(struct host *host);

/* Between them: tables, pages, and RIPAS. */
bool host_map_page(const struct host *host, uint64_t ipa, uint64_t src);
bool host_map_shared(struct host *host, uint64_t ipa);
bool host_unmap_pages(const struct host *host, uint64_t ipa, uint64_t end);
bool host_set_ripas(const struct host *host, uint64_t rec, uint64_t base, uint64_t top);

#endif
