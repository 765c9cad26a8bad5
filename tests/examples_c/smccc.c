/* The calls of examples/c/smccc.h: which registers go in, and which come out. The last line is `N checks passed`. */
#include "../../examples/c/rmi_calls.h"

#include <stdio.h>

/* An inline function in the form of a kernel's header, with its types. */
typedef uint64_t u64;
typedef uint64_t phys_addr_t;
#define SMC_OF_HEADER(func) \
    ARM_SMCCC_CALL_VAL(ARM_SMCCC_FAST_CALL, ARM_SMCCC_SMC_64, ARM_SMCCC_OWNER_STANDARD, (func))
#define SMC_OF_HEADER_AUX_COUNT SMC_OF_HEADER(0x0167)

static inline int of_header_aux_count(phys_addr_t rd, u64 *count)
{
    struct arm_smccc_res res;
    arm_smccc_1_1_invoke(SMC_OF_HEADER_AUX_COUNT, rd, &res);
    if (count)
        *count = res.a1;
    return (int)res.a0;
}

static rmm_registers seen;
static unsigned passed;

void smccc_conduit(rmm_registers *registers)
{
    seen = *registers;
    *registers = (rmm_registers){91, 92, 93, 94, 95, 96, 97};
}

#define CHECKED(IT)                                        \
    do {                                                   \
        if (!(IT)) {                                       \
            printf("%s:%d: %s\n", __FILE__, __LINE__, #IT); \
            return 1;                                      \
        }                                                  \
        passed++;                                          \
    } while (0)

int main(void)
{
    struct arm_smccc_res res = {0, 0, 0, 0};
    struct arm_smccc_1_2_regs regs = {.a0 = 1, .a1 = 2, .a4 = 5, .a6 = 7, .a7 = 8, .a17 = 18}, after;
    unsigned long lower, higher;
    struct rmi_entry entry;
    u64 count = 0;
    arm_smccc_1_1_smc(1, &res);
    CHECKED(seen.x0 == 1 && seen.x1 == 0 && seen.x6 == 0);
    CHECKED(res.a0 == 91 && res.a1 == 92 && res.a2 == 93 && res.a3 == 94);
    arm_smccc_1_1_invoke(1, 2, 3, 4, NULL);
    CHECKED(seen.x0 == 1 && seen.x1 == 2 && seen.x2 == 3 && seen.x3 == 4 && seen.x4 == 0);
    arm_smccc_1_1_smc(1, 2, 3, 4, 5, 6, 7, 8, &res);
    CHECKED(seen.x0 == 1 && seen.x3 == 4 && seen.x4 == 5 && seen.x5 == 6 && seen.x6 == 7);
    /* A number of 32 bits with its sign, and a pointer, as a register has them. */
    arm_smccc_1_1_smc(1, -1, &res, &res);
    CHECKED(seen.x1 == 0xffffffffffffffff && seen.x2 == (uintptr_t)&res);
    arm_smccc_1_2_smc(&regs, &after);
    CHECKED(seen.x0 == 1 && seen.x1 == 2 && seen.x4 == 5 && seen.x6 == 7);
    CHECKED(after.a0 == 91 && after.a4 == 95 && after.a6 == 7 && after.a7 == 8 && after.a17 == 18);
    arm_smccc_1_2_smc(&regs, &regs);
    CHECKED(regs.a0 == 91 && regs.a1 == 92 && regs.a17 == 18);
    CHECKED(rmi_version(0x10000, &lower, &higher) == 91 && lower == 92 && higher == 93);
    CHECKED(seen.x0 == 0xC4000150 && seen.x1 == 0x10000);
    CHECKED(rmi_data_create(11, 12, 13, 14, 1) == 91 && seen.x0 == 0xC4000153 && seen.x5 == 1 && seen.x6 == 0);
    CHECKED(rmi_rtt_read_entry(11, 12, 3, &entry) == 91 && seen.x0 == 0xC4000161 && seen.x3 == 3);
    CHECKED(entry.level == 92 && entry.state == 93 && entry.desc == 94 && entry.ripas == 95);
    CHECKED(of_header_aux_count(11, &count) == 91 && count == 92 && seen.x0 == 0xC4000167 && seen.x1 == 11);
    /* DEN0028: SMCCC_VERSION is 0x80000000, PSCI_VERSION 0x84000000, and its CPU_ON of 64 bits 0xC4000003. */
    CHECKED(ARM_SMCCC_CALL_VAL(ARM_SMCCC_FAST_CALL, ARM_SMCCC_SMC_32, 0, 0) == 0x80000000);
    CHECKED(ARM_SMCCC_CALL_VAL(ARM_SMCCC_FAST_CALL, ARM_SMCCC_SMC_32, ARM_SMCCC_OWNER_STANDARD, 0) == 0x84000000);
    CHECKED(ARM_SMCCC_CALL_VAL(0UL, ARM_SMCCC_SMC_32, 0x7f, 0x12345) == 0x3f002345);
    CHECKED(arm_smccc_1_1_invoke(1, &res) == SMCCC_CONDUIT_SMC);
    printf("%u checks passed\n", passed);
    return 0;
}
