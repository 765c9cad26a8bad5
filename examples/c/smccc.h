/* smccc.h: SMCs in the form of Linux's arm-smccc.h, to an RMM in this process. For C11 on a machine of 64 bits.
 *
 * A host's code that calls its RMM by arm_smccc_1_1_invoke(), arm_smccc_1_1_smc() or arm_smccc_1_2_smc() is compiled
 * with this header in place of the kernel's, and runs as a process. It gives calls and the numbers of functions. A type
 * of the kernel's that the code names, as u64, is the program's to define. Arm DEN0028, SMC Calling Convention.
 */
#ifndef SMCCC_H
#define SMCCC_H

#include <rmm.h>

_Static_assert(sizeof(unsigned long) == 8, "a register has 64 bits");

/* The number of a function, and its parts: the type of the call in bit 31, the convention in bit 30, the owner in bits 29
 * to 24, and the function in bits 15 to 0. */
#ifndef ARM_SMCCC_CALL_VAL
#define ARM_SMCCC_CALL_VAL(TYPE, CONVENTION, OWNER, FUNCTION) \
    ((TYPE) << 31 | (CONVENTION) << 30 | ((OWNER) & 0x3fUL) << 24 | ((FUNCTION) & 0xffffUL))
#endif
#ifndef ARM_SMCCC_FAST_CALL
#define ARM_SMCCC_FAST_CALL 1UL
#endif
#ifndef ARM_SMCCC_SMC_32
#define ARM_SMCCC_SMC_32 0UL
#endif
#ifndef ARM_SMCCC_SMC_64
#define ARM_SMCCC_SMC_64 1UL
#endif
#ifndef ARM_SMCCC_OWNER_STANDARD
#define ARM_SMCCC_OWNER_STANDARD 4UL
#endif
/* The a0 of a function that does not exist. */
#ifndef SMCCC_RET_NOT_SUPPORTED
#define SMCCC_RET_NOT_SUPPORTED (-1)
#endif

/* The conduit of a call. Here it is always an SMC, and arm_smccc_1_1_invoke has this value. */
enum arm_smccc_conduit { SMCCC_CONDUIT_NONE, SMCCC_CONDUIT_SMC, SMCCC_CONDUIT_HVC };

/* Performs an SMC: X0 to X6 before the call, X0 to X4 after it. The program defines it, once. The simplest one is
 *
 *     void smccc_conduit(rmm_registers *registers) { rmm_smc(&handle, registers); }
 */
void smccc_conduit(rmm_registers *registers);

/* X0 to X3 after a call of SMCCC 1.1. */
struct arm_smccc_res {
    unsigned long a0, a1, a2, a3;
};

/* X0 to X17 of a call of SMCCC 1.2, before and after it. */
struct arm_smccc_1_2_regs {
    unsigned long a0, a1, a2, a3, a4, a5, a6, a7, a8, a9, a10, a11, a12, a13, a14, a15, a16, a17;
};

/* `args` and `res` can be the same. A register that is no result stays as it is. */
static inline void arm_smccc_1_2_smc(const struct arm_smccc_1_2_regs *args, struct arm_smccc_1_2_regs *res)
{
    rmm_registers it = {args->a0, args->a1, args->a2, args->a3, args->a4, args->a5, args->a6};
    smccc_conduit(&it);
    *res = *args;
    res->a0 = it.x0;
    res->a1 = it.x1;
    res->a2 = it.x2;
    res->a3 = it.x3;
    res->a4 = it.x4;
}

static inline enum arm_smccc_conduit smccc_1_1(const unsigned long x[8], struct arm_smccc_res *res)
{
    rmm_registers it = {x[0], x[1], x[2], x[3], x[4], x[5], x[6]};
    smccc_conduit(&it);
    if (res != NULL)
        *res = (struct arm_smccc_res){it.x0, it.x1, it.x2, it.x3};
    return SMCCC_CONDUIT_SMC;
}

/* X0 and up to seven registers more, and then a pointer to the results, or NULL. */
#define arm_smccc_1_1_smc(...)                                                                               \
    SMCCC_TENTH(__VA_ARGS__, SMCCC_8, SMCCC_7, SMCCC_6, SMCCC_5, SMCCC_4, SMCCC_3, SMCCC_2, SMCCC_1, SMCCC_0) \
    (__VA_ARGS__)
#define arm_smccc_1_1_invoke(...) arm_smccc_1_1_smc(__VA_ARGS__)

#define SMCCC_TENTH(A, B, C, D, E, F, G, H, I, TENTH, ...) TENTH
#define SMCCC_X(IT) (unsigned long)(IT)
#define SMCCC_8(A, B, C, D, E, F, G, H, RES)                                                                \
    smccc_1_1((const unsigned long[8]){SMCCC_X(A), SMCCC_X(B), SMCCC_X(C), SMCCC_X(D), SMCCC_X(E), SMCCC_X(F), \
                                       SMCCC_X(G), SMCCC_X(H)},                                             \
              RES)
#define SMCCC_7(A, B, C, D, E, F, G, RES) SMCCC_8(A, B, C, D, E, F, G, 0, RES)
#define SMCCC_6(A, B, C, D, E, F, RES) SMCCC_8(A, B, C, D, E, F, 0, 0, RES)
#define SMCCC_5(A, B, C, D, E, RES) SMCCC_8(A, B, C, D, E, 0, 0, 0, RES)
#define SMCCC_4(A, B, C, D, RES) SMCCC_8(A, B, C, D, 0, 0, 0, 0, RES)
#define SMCCC_3(A, B, C, RES) SMCCC_8(A, B, C, 0, 0, 0, 0, 0, RES)
#define SMCCC_2(A, B, RES) SMCCC_8(A, B, 0, 0, 0, 0, 0, 0, RES)
#define SMCCC_1(A, RES) SMCCC_8(A, 0, 0, 0, 0, 0, 0, 0, RES)

#endif
