/* A host that writes to a granule after it has delegated it: the process ends at the access, as by a fault.
 *
 *     wrong_access HOW      0: the granule is DELEGATED; 1: it is UNDELEGATED again, and zero; 2: it is secure
 */
#include "../../examples/c/rmi_calls.h"
#include "../../examples/c/window.h"

#include <stdlib.h>

void smccc_conduit(rmm_registers *registers) { window_smc(registers); }

int main(int argc, char **argv)
{
    rmm_settings settings = RMM_DEFAULTS;
    int how = argc > 1 ? atoi(argv[1]) : 0;
    settings.base = 0x40000000;
    settings.granules = 16;
    settings.secure_base = 0x4000f000;
    settings.secure_count = 1;
    if (!window_open(&settings))
        return 2;
    volatile uint8_t *granule = (volatile uint8_t *)(uintptr_t)(how == 2 ? 0x4000f000 : 0x40003000);
    if (how != 2) {
        granule[5] = 7;
        if (rmi_granule_delegate(0x40003000) != RMI_SUCCESS)
            return 2;
    }
    if (how == 1 && rmi_granule_undelegate(0x40003000) != RMI_SUCCESS)
        return 2;
    granule[6] = 1;
    int is_right = granule[5] == 0 && granule[6] == 1;
    window_close();
    return is_right ? 0 : 1;
}
