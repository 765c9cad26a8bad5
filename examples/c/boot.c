/* Boots a realm of 2 MiB, runs it, and takes it down. Each exit is a line, and so is the RIM before the run.
 *
 *     boot [PAGES [LOG]]      PAGES of the image, at most 512 (256); LOG gets a trace of all calls
 */
#include "granules.h"
#include "guest.h"
#include "host.h"
#include "smccc.h"

#include <stdlib.h>

void smccc_conduit(rmm_registers *registers) { window_smc(registers); }

static void print_rim(uint64_t rd)
{
    rmm_realm realm;
    if (!rmm_read_realm(window_rmm(), rd, &realm))
        return;
    printf("RIM ");
    for (int k = 0; k < 32; k++)
        printf("%02x", realm.rim[k]);
    printf("\n");
}

int main(int argc, char **argv)
{
    rmm_settings settings = RMM_DEFAULTS;
    struct host host = {.console = stdout};
    unsigned pages = argc > 1 ? (unsigned)strtoul(argv[1], NULL, 10) : 256;
    FILE *log = argc > 2 ? fopen(argv[2], "w") : NULL;
    settings.base = 0x40000000;
    settings.granules = 1024;
    if (!window_open(&settings))
        return 2;
    if (log != NULL)
        window_log(log);
    granules_open(settings.base, (unsigned)settings.granules);
    bool is_right = host_boot(&host, pages);
    if (is_right)
        print_rim(host.rd);
    is_right = is_right && guest_load(&host) && host_run(&host);
    is_right = host_down(&host) && is_right;
    printf("%s: %u granules are in use\n", is_right ? "off" : "failed", granules_in_use());
    window_close();
    if (log != NULL)
        fclose(log);
    return is_right && granules_in_use() == 0 ? 0 : 1;
}
