/* rmi_calls.h: RMI commands as a kernel calls them: inline functions over the calls of arm-smccc.h. Each returns X0.
 *
 * A kernel's own header of this form is compiled in its place, once the program has the types that it names. RMM 1.0,
 * RMI commands.
 */
#ifndef RMI_CALLS_H
#define RMI_CALLS_H

#include "smccc.h"

#define SMC_RMI_CALL(NUMBER) \
    ARM_SMCCC_CALL_VAL(ARM_SMCCC_FAST_CALL, ARM_SMCCC_SMC_64, ARM_SMCCC_OWNER_STANDARD, (NUMBER))
#define SMC_RMI_VERSION SMC_RMI_CALL(0x150)
#define SMC_RMI_GRANULE_DELEGATE SMC_RMI_CALL(0x151)
#define SMC_RMI_GRANULE_UNDELEGATE SMC_RMI_CALL(0x152)
#define SMC_RMI_DATA_CREATE SMC_RMI_CALL(0x153)
#define SMC_RMI_DATA_CREATE_UNKNOWN SMC_RMI_CALL(0x154)
#define SMC_RMI_DATA_DESTROY SMC_RMI_CALL(0x155)
#define SMC_RMI_REALM_ACTIVATE SMC_RMI_CALL(0x157)
#define SMC_RMI_REALM_CREATE SMC_RMI_CALL(0x158)
#define SMC_RMI_REALM_DESTROY SMC_RMI_CALL(0x159)
#define SMC_RMI_REC_CREATE SMC_RMI_CALL(0x15A)
#define SMC_RMI_REC_DESTROY SMC_RMI_CALL(0x15B)
#define SMC_RMI_REC_ENTER SMC_RMI_CALL(0x15C)
#define SMC_RMI_RTT_CREATE SMC_RMI_CALL(0x15D)
#define SMC_RMI_RTT_DESTROY SMC_RMI_CALL(0x15E)
#define SMC_RMI_RTT_MAP_UNPROTECTED SMC_RMI_CALL(0x15F)
#define SMC_RMI_RTT_READ_ENTRY SMC_RMI_CALL(0x161)
#define SMC_RMI_RTT_UNMAP_UNPROTECTED SMC_RMI_CALL(0x162)
#define SMC_RMI_PSCI_COMPLETE SMC_RMI_CALL(0x164)
#define SMC_RMI_FEATURES SMC_RMI_CALL(0x165)
#define SMC_RMI_REC_AUX_COUNT SMC_RMI_CALL(0x167)
#define SMC_RMI_RTT_INIT_RIPAS SMC_RMI_CALL(0x168)
#define SMC_RMI_RTT_SET_RIPAS SMC_RMI_CALL(0x169)

#define RMI_RETURN_STATUS(X0) ((X0) & 0xff)
#define RMI_RETURN_INDEX(X0) ((X0) >> 8 & 0xff)

enum { RMI_SUCCESS, RMI_ERROR_INPUT, RMI_ERROR_REALM, RMI_ERROR_REC, RMI_ERROR_RTT };

static inline unsigned long rmi_version(unsigned long requested, unsigned long *lower, unsigned long *higher)
{
    struct arm_smccc_res res;
    arm_smccc_1_1_invoke(SMC_RMI_VERSION, requested, &res);
    *lower = res.a1;
    *higher = res.a2;
    return res.a0;
}

static inline unsigned long rmi_features(unsigned long index, unsigned long *value)
{
    struct arm_smccc_res res;
    arm_smccc_1_1_invoke(SMC_RMI_FEATURES, index, &res);
    *value = res.a1;
    return res.a0;
}

static inline unsigned long rmi_granule_delegate(unsigned long granule)
{
    struct arm_smccc_res res;
    arm_smccc_1_1_invoke(SMC_RMI_GRANULE_DELEGATE, granule, &res);
    return res.a0;
}

static inline unsigned long rmi_granule_undelegate(unsigned long granule)
{
    struct arm_smccc_res res;
    arm_smccc_1_1_invoke(SMC_RMI_GRANULE_UNDELEGATE, granule, &res);
    return res.a0;
}

static inline unsigned long rmi_realm_create(unsigned long rd, unsigned long params)
{
    struct arm_smccc_res res;
    arm_smccc_1_1_invoke(SMC_RMI_REALM_CREATE, rd, params, &res);
    return res.a0;
}

static inline unsigned long rmi_realm_activate(unsigned long rd)
{
    struct arm_smccc_res res;
    arm_smccc_1_1_invoke(SMC_RMI_REALM_ACTIVATE, rd, &res);
    return res.a0;
}

static inline unsigned long rmi_realm_destroy(unsigned long rd)
{
    struct arm_smccc_res res;
    arm_smccc_1_1_invoke(SMC_RMI_REALM_DESTROY, rd, &res);
    return res.a0;
}

static inline unsigned long rmi_rec_aux_count(unsigned long rd, unsigned long *count)
{
    struct arm_smccc_res res;
    arm_smccc_1_1_invoke(SMC_RMI_REC_AUX_COUNT, rd, &res);
    *count = res.a1;
    return res.a0;
}

static inline unsigned long rmi_rec_create(unsigned long rd, unsigned long rec, unsigned long params)
{
    struct arm_smccc_res res;
    arm_smccc_1_1_invoke(SMC_RMI_REC_CREATE, rd, rec, params, &res);
    return res.a0;
}

static inline unsigned long rmi_rec_destroy(unsigned long rec)
{
    struct arm_smccc_res res;
    arm_smccc_1_1_invoke(SMC_RMI_REC_DESTROY, rec, &res);
    return res.a0;
}

static inline unsigned long rmi_rec_enter(unsigned long rec, unsigned long run)
{
    struct arm_smccc_res res;
    arm_smccc_1_1_invoke(SMC_RMI_REC_ENTER, rec, run, &res);
    return res.a0;
}

static inline unsigned long rmi_rtt_create(unsigned long rd, unsigned long rtt, unsigned long ipa, unsigned long level)
{
    struct arm_smccc_res res;
    arm_smccc_1_1_invoke(SMC_RMI_RTT_CREATE, rd, rtt, ipa, level, &res);
    return res.a0;
}

static inline unsigned long rmi_rtt_destroy(unsigned long rd, unsigned long ipa, unsigned long level,
                                            unsigned long *rtt, unsigned long *top)
{
    struct arm_smccc_res res;
    arm_smccc_1_1_invoke(SMC_RMI_RTT_DESTROY, rd, ipa, level, &res);
    *rtt = res.a1;
    *top = res.a2;
    return res.a0;
}

static inline unsigned long rmi_rtt_map_unprotected(unsigned long rd, unsigned long ipa, unsigned long level,
                                                    unsigned long desc)
{
    struct arm_smccc_res res;
    arm_smccc_1_1_invoke(SMC_RMI_RTT_MAP_UNPROTECTED, rd, ipa, level, desc, &res);
    return res.a0;
}

static inline unsigned long rmi_rtt_unmap_unprotected(unsigned long rd, unsigned long ipa, unsigned long level,
                                                      unsigned long *top)
{
    struct arm_smccc_res res;
    arm_smccc_1_1_invoke(SMC_RMI_RTT_UNMAP_UNPROTECTED, rd, ipa, level, &res);
    *top = res.a1;
    return res.a0;
}

static inline unsigned long rmi_data_create(unsigned long rd, unsigned long data, unsigned long ipa, unsigned long src,
                                            unsigned long flags)
{
    struct arm_smccc_res res;
    arm_smccc_1_1_invoke(SMC_RMI_DATA_CREATE, rd, data, ipa, src, flags, &res);
    return res.a0;
}

static inline unsigned long rmi_data_create_unknown(unsigned long rd, unsigned long data, unsigned long ipa)
{
    struct arm_smccc_res res;
    arm_smccc_1_1_invoke(SMC_RMI_DATA_CREATE_UNKNOWN, rd, data, ipa, &res);
    return res.a0;
}

static inline unsigned long rmi_data_destroy(unsigned long rd, unsigned long ipa, unsigned long *data,
                                             unsigned long *top)
{
    struct arm_smccc_res res;
    arm_smccc_1_1_invoke(SMC_RMI_DATA_DESTROY, rd, ipa, &res);
    *data = res.a1;
    *top = res.a2;
    return res.a0;
}

static inline unsigned long rmi_rtt_init_ripas(unsigned long rd, unsigned long base, unsigned long top,
                                               unsigned long *out_top)
{
    struct arm_smccc_res res;
    arm_smccc_1_1_invoke(SMC_RMI_RTT_INIT_RIPAS, rd, base, top, &res);
    *out_top = res.a1;
    return res.a0;
}

static inline unsigned long rmi_rtt_set_ripas(unsigned long rd, unsigned long rec, unsigned long base,
                                              unsigned long top, unsigned long *out_top)
{
    struct arm_smccc_res res;
    arm_smccc_1_1_invoke(SMC_RMI_RTT_SET_RIPAS, rd, rec, base, top, &res);
    *out_top = res.a1;
    return res.a0;
}

static inline unsigned long rmi_psci_complete(unsigned long calling, unsigned long target, unsigned long status)
{
    struct arm_smccc_res res;
    arm_smccc_1_1_invoke(SMC_RMI_PSCI_COMPLETE, calling, target, status, &res);
    return res.a0;
}

/* The state, RIPAS and address of an entry, and the level at which its walk ends. It has more results than SMCCC 1.1. */
struct rmi_entry {
    unsigned long level, state, desc, ripas;
};

static inline unsigned long rmi_rtt_read_entry(unsigned long rd, unsigned long ipa, unsigned long level,
                                               struct rmi_entry *entry)
{
    struct arm_smccc_1_2_regs regs = {.a0 = SMC_RMI_RTT_READ_ENTRY, .a1 = rd, .a2 = ipa, .a3 = level};
    arm_smccc_1_2_smc(&regs, &regs);
    *entry = (struct rmi_entry){regs.a1, regs.a2, regs.a3, regs.a4};
    return regs.a0;
}

#endif
