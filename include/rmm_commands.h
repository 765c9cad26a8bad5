/* rmm_commands.h: the 23 commands of the RMI by name, over rmm_smc; parameter pages, names of values. For C11, C++11.
 *
 * Nothing here is needed to call an RMM: a host has code of its own for all of this. Each name begins with `rmm_` or
 * `RMM_`. The structures are those of RMM 1.0 on a little-endian machine. They are written to the memory of the machine
 * by rmm_store, as in
 *
 *     rmm_realm_params params = {0};
 *     params.s2sz = 33;
 *     rmm_store(handle, address, &params, sizeof params);
 */
#ifndef RMM_COMMANDS_H
#define RMM_COMMANDS_H

#include "rmm.h"

#ifdef __cplusplus
extern "C" {
#endif

/* ---- function identifiers. SMCCC: a fast call of 64 bits, of the standard secure services */

#define RMM_FID_VERSION 0xC4000150
#define RMM_FID_GRANULE_DELEGATE 0xC4000151
#define RMM_FID_GRANULE_UNDELEGATE 0xC4000152
#define RMM_FID_DATA_CREATE 0xC4000153
#define RMM_FID_DATA_CREATE_UNKNOWN 0xC4000154
#define RMM_FID_DATA_DESTROY 0xC4000155
#define RMM_FID_REALM_ACTIVATE 0xC4000157
#define RMM_FID_REALM_CREATE 0xC4000158
#define RMM_FID_REALM_DESTROY 0xC4000159
#define RMM_FID_REC_CREATE 0xC400015A
#define RMM_FID_REC_DESTROY 0xC400015B
#define RMM_FID_REC_ENTER 0xC400015C
#define RMM_FID_RTT_CREATE 0xC400015D
#define RMM_FID_RTT_DESTROY 0xC400015E
#define RMM_FID_RTT_MAP_UNPROTECTED 0xC400015F
#define RMM_FID_RTT_READ_ENTRY 0xC4000161
#define RMM_FID_RTT_UNMAP_UNPROTECTED 0xC4000162
#define RMM_FID_PSCI_COMPLETE 0xC4000164
#define RMM_FID_FEATURES 0xC4000165
#define RMM_FID_RTT_FOLD 0xC4000166
#define RMM_FID_REC_AUX_COUNT 0xC4000167
#define RMM_FID_RTT_INIT_RIPAS 0xC4000168
#define RMM_FID_RTT_SET_RIPAS 0xC4000169

/* ---- commands. Each returns its result word. An output is written whatever the word is: 0 if there is none, and with
 * RMM_NOT_SUPPORTED what the register had before the call. It is left out if its pointer is NULL */

static inline rmm_registers rmm_registers_of(uint64_t x0, uint64_t x1, uint64_t x2, uint64_t x3, uint64_t x4,
                                             uint64_t x5, uint64_t x6)
{
    rmm_registers registers = {x0, x1, x2, x3, x4, x5, x6};
    return registers;
}

static inline rmm_registers rmm_call(rmm_handle *handle, rmm_registers registers)
{
    rmm_smc(handle, &registers);
    return registers;
}

/* An SMC, and the check that decided it; 0 if no check failed. rmm_check_name has the check's name. */
static inline uint64_t rmm_checked_smc(rmm_handle *handle, rmm_registers *registers)
{
    uint64_t check = rmm_deciding_check(handle, registers);
    rmm_smc(handle, registers);
    return check;
}

static inline void rmm_output(uint64_t *output, uint64_t value)
{
    if (output != NULL)
        *output = value;
}

/* RMI_VERSION: lower and higher are 0x10000, whatever the word is. */
static inline uint64_t rmm_version(rmm_handle *handle, uint64_t requested, uint64_t *lower, uint64_t *higher)
{
    rmm_registers after = rmm_call(handle, rmm_registers_of(RMM_FID_VERSION, requested, 0, 0, 0, 0, 0));
    rmm_output(lower, after.x1);
    rmm_output(higher, after.x2);
    return after.x0;
}

/* RMI_GRANULE_DELEGATE. */
static inline uint64_t rmm_granule_delegate(rmm_handle *handle, uint64_t address)
{
    return rmm_call(handle, rmm_registers_of(RMM_FID_GRANULE_DELEGATE, address, 0, 0, 0, 0, 0)).x0;
}

/* RMI_GRANULE_UNDELEGATE. */
static inline uint64_t rmm_granule_undelegate(rmm_handle *handle, uint64_t address)
{
    return rmm_call(handle, rmm_registers_of(RMM_FID_GRANULE_UNDELEGATE, address, 0, 0, 0, 0, 0)).x0;
}

/* RMI_DATA_CREATE: RMM_MEASURE_CONTENT in `flags`: the RIM has the page's hash. */
static inline uint64_t rmm_data_create(rmm_handle *handle, uint64_t rd, uint64_t data, uint64_t ipa, uint64_t src,
                                       uint64_t flags)
{
    return rmm_call(handle, rmm_registers_of(RMM_FID_DATA_CREATE, rd, data, ipa, src, flags, 0)).x0;
}

/* RMI_DATA_CREATE_UNKNOWN. */
static inline uint64_t rmm_data_create_unknown(rmm_handle *handle, uint64_t rd, uint64_t data, uint64_t ipa)
{
    return rmm_call(handle, rmm_registers_of(RMM_FID_DATA_CREATE_UNKNOWN, rd, data, ipa, 0, 0, 0)).x0;
}

/* RMI_DATA_DESTROY: `top` with RMM_ERROR_RTT too. */
static inline uint64_t rmm_data_destroy(rmm_handle *handle, uint64_t rd, uint64_t ipa, uint64_t *data, uint64_t *top)
{
    rmm_registers after = rmm_call(handle, rmm_registers_of(RMM_FID_DATA_DESTROY, rd, ipa, 0, 0, 0, 0));
    rmm_output(data, after.x1);
    rmm_output(top, after.x2);
    return after.x0;
}

/* RMI_REALM_ACTIVATE. */
static inline uint64_t rmm_realm_activate(rmm_handle *handle, uint64_t rd)
{
    return rmm_call(handle, rmm_registers_of(RMM_FID_REALM_ACTIVATE, rd, 0, 0, 0, 0, 0)).x0;
}

/* RMI_REALM_CREATE: `params` is the address of an rmm_realm_params. */
static inline uint64_t rmm_realm_create(rmm_handle *handle, uint64_t rd, uint64_t params)
{
    return rmm_call(handle, rmm_registers_of(RMM_FID_REALM_CREATE, rd, params, 0, 0, 0, 0)).x0;
}

/* RMI_REALM_DESTROY. */
static inline uint64_t rmm_realm_destroy(rmm_handle *handle, uint64_t rd)
{
    return rmm_call(handle, rmm_registers_of(RMM_FID_REALM_DESTROY, rd, 0, 0, 0, 0, 0)).x0;
}

/* RMI_REC_CREATE: `params` is the address of an rmm_rec_params. */
static inline uint64_t rmm_rec_create(rmm_handle *handle, uint64_t rd, uint64_t rec, uint64_t params)
{
    return rmm_call(handle, rmm_registers_of(RMM_FID_REC_CREATE, rd, rec, params, 0, 0, 0)).x0;
}

/* RMI_REC_DESTROY. */
static inline uint64_t rmm_rec_destroy(rmm_handle *handle, uint64_t rec)
{
    return rmm_call(handle, rmm_registers_of(RMM_FID_REC_DESTROY, rec, 0, 0, 0, 0, 0)).x0;
}

/* RMI_REC_ENTER: `run` is the address of an rmm_rec_run; RMM_RUNS_ON if the guest spins. */
static inline uint64_t rmm_rec_enter(rmm_handle *handle, uint64_t rec, uint64_t run)
{
    return rmm_call(handle, rmm_registers_of(RMM_FID_REC_ENTER, rec, run, 0, 0, 0, 0)).x0;
}

/* RMI_RTT_CREATE. */
static inline uint64_t rmm_rtt_create(rmm_handle *handle, uint64_t rd, uint64_t rtt, uint64_t ipa, uint64_t level)
{
    return rmm_call(handle, rmm_registers_of(RMM_FID_RTT_CREATE, rd, rtt, ipa, level, 0, 0)).x0;
}

/* RMI_RTT_DESTROY: `top` with RMM_ERROR_RTT too. */
static inline uint64_t rmm_rtt_destroy(rmm_handle *handle, uint64_t rd, uint64_t ipa, uint64_t level, uint64_t *rtt,
                                       uint64_t *top)
{
    rmm_registers after = rmm_call(handle, rmm_registers_of(RMM_FID_RTT_DESTROY, rd, ipa, level, 0, 0, 0));
    rmm_output(rtt, after.x1);
    rmm_output(top, after.x2);
    return after.x0;
}

/* RMI_RTT_MAP_UNPROTECTED. */
static inline uint64_t rmm_rtt_map_unprotected(rmm_handle *handle, uint64_t rd, uint64_t ipa, uint64_t level,
                                               uint64_t desc)
{
    return rmm_call(handle, rmm_registers_of(RMM_FID_RTT_MAP_UNPROTECTED, rd, ipa, level, desc, 0, 0)).x0;
}

/* RMI_RTT_READ_ENTRY. */
static inline uint64_t rmm_rtt_read_entry(rmm_handle *handle, uint64_t rd, uint64_t ipa, uint64_t level,
                                          uint64_t *walk_level, uint64_t *state, uint64_t *desc, uint64_t *ripas)
{
    rmm_registers after = rmm_call(handle, rmm_registers_of(RMM_FID_RTT_READ_ENTRY, rd, ipa, level, 0, 0, 0));
    rmm_output(walk_level, after.x1);
    rmm_output(state, after.x2);
    rmm_output(desc, after.x3);
    rmm_output(ripas, after.x4);
    return after.x0;
}

/* RMI_RTT_UNMAP_UNPROTECTED: `top` with RMM_ERROR_RTT too. */
static inline uint64_t rmm_rtt_unmap_unprotected(rmm_handle *handle, uint64_t rd, uint64_t ipa, uint64_t level,
                                                 uint64_t *top)
{
    rmm_registers after = rmm_call(handle, rmm_registers_of(RMM_FID_RTT_UNMAP_UNPROTECTED, rd, ipa, level, 0, 0, 0));
    rmm_output(top, after.x1);
    return after.x0;
}

/* RMI_PSCI_COMPLETE. */
static inline uint64_t rmm_psci_complete(rmm_handle *handle, uint64_t calling, uint64_t target, uint64_t status)
{
    return rmm_call(handle, rmm_registers_of(RMM_FID_PSCI_COMPLETE, calling, target, status, 0, 0, 0)).x0;
}

/* RMI_FEATURES. Any index but 0 is RMM_SUCCESS with the value 0. */
static inline uint64_t rmm_features(rmm_handle *handle, uint64_t index, uint64_t *value)
{
    rmm_registers after = rmm_call(handle, rmm_registers_of(RMM_FID_FEATURES, index, 0, 0, 0, 0, 0));
    rmm_output(value, after.x1);
    return after.x0;
}

/* RMI_RTT_FOLD. */
static inline uint64_t rmm_rtt_fold(rmm_handle *handle, uint64_t rd, uint64_t ipa, uint64_t level, uint64_t *rtt)
{
    rmm_registers after = rmm_call(handle, rmm_registers_of(RMM_FID_RTT_FOLD, rd, ipa, level, 0, 0, 0));
    rmm_output(rtt, after.x1);
    return after.x0;
}

/* RMI_REC_AUX_COUNT. */
static inline uint64_t rmm_rec_aux_count(rmm_handle *handle, uint64_t rd, uint64_t *count)
{
    rmm_registers after = rmm_call(handle, rmm_registers_of(RMM_FID_REC_AUX_COUNT, rd, 0, 0, 0, 0, 0));
    rmm_output(count, after.x1);
    return after.x0;
}

/* RMI_RTT_INIT_RIPAS. */
static inline uint64_t rmm_rtt_init_ripas(rmm_handle *handle, uint64_t rd, uint64_t base, uint64_t top,
                                          uint64_t *out_top)
{
    rmm_registers after = rmm_call(handle, rmm_registers_of(RMM_FID_RTT_INIT_RIPAS, rd, base, top, 0, 0, 0));
    rmm_output(out_top, after.x1);
    return after.x0;
}

/* RMI_RTT_SET_RIPAS. */
static inline uint64_t rmm_rtt_set_ripas(rmm_handle *handle, uint64_t rd, uint64_t rec, uint64_t base, uint64_t top,
                                         uint64_t *out_top)
{
    rmm_registers after = rmm_call(handle, rmm_registers_of(RMM_FID_RTT_SET_RIPAS, rd, rec, base, top, 0, 0));
    rmm_output(out_top, after.x1);
    return after.x0;
}
/* ---- parameter pages. RMM 1.0, RmiRealmParams, RmiRecParams, RmiRecRun */

/* DATA_CREATE: the page is measured. */
#define RMM_MEASURE_CONTENT 1

typedef struct rmm_realm_params {
    uint64_t flags; /* 0x000 */
    uint8_t s2sz;   /* 0x008 */
    uint8_t reserved_9[7];
    uint8_t sve_vl; /* 0x010 */
    uint8_t reserved_11[7];
    uint8_t num_bps; /* 0x018 */
    uint8_t reserved_19[7];
    uint8_t num_wps; /* 0x020 */
    uint8_t reserved_21[7];
    uint8_t pmu_num_ctrs; /* 0x028 */
    uint8_t reserved_29[7];
    uint8_t hash_algo; /* 0x030 */
    uint8_t reserved_31[0x3cf];
    uint8_t rpv[64]; /* 0x400 */
    uint8_t reserved_440[0x3c0];
    uint16_t vmid; /* 0x800 */
    uint8_t reserved_802[6];
    uint64_t rtt_base;       /* 0x808 */
    int64_t rtt_level_start; /* 0x810 */
    uint32_t rtt_num_start;  /* 0x818 */
    uint8_t reserved_81c[0x7e4];
} rmm_realm_params;

#define RMM_IS_AT(TYPE, FIELD, OFFSET) RMM_STATIC_ASSERT(offsetof(TYPE, FIELD) == (OFFSET), #FIELD " is at " #OFFSET)

RMM_IS_AT(rmm_realm_params, s2sz, 0x008);
RMM_IS_AT(rmm_realm_params, sve_vl, 0x010);
RMM_IS_AT(rmm_realm_params, num_bps, 0x018);
RMM_IS_AT(rmm_realm_params, num_wps, 0x020);
RMM_IS_AT(rmm_realm_params, pmu_num_ctrs, 0x028);
RMM_IS_AT(rmm_realm_params, hash_algo, 0x030);
RMM_IS_AT(rmm_realm_params, rpv, 0x400);
RMM_IS_AT(rmm_realm_params, vmid, 0x800);
RMM_IS_AT(rmm_realm_params, rtt_base, 0x808);
RMM_IS_AT(rmm_realm_params, rtt_level_start, 0x810);
RMM_IS_AT(rmm_realm_params, rtt_num_start, 0x818);
RMM_STATIC_ASSERT(sizeof(rmm_realm_params) == RMM_GRANULE_SIZE, "rmm_realm_params is a granule");

/* RmiRecParams, flags: the REC can be entered. */
#define RMM_RUNNABLE 1

typedef struct rmm_rec_params {
    uint64_t flags; /* 0x000 */
    uint8_t reserved_8[0xf8];
    uint64_t mpidr; /* 0x100 */
    uint8_t reserved_108[0xf8];
    uint64_t pc; /* 0x200 */
    uint8_t reserved_208[0xf8];
    uint64_t gprs[8]; /* 0x300 */
    uint8_t reserved_340[0x4c0];
    uint64_t num_aux; /* 0x800 */
    uint64_t aux[16]; /* 0x808 */
    uint8_t reserved_888[0x778];
} rmm_rec_params;

RMM_IS_AT(rmm_rec_params, mpidr, 0x100);
RMM_IS_AT(rmm_rec_params, pc, 0x200);
RMM_IS_AT(rmm_rec_params, gprs, 0x300);
RMM_IS_AT(rmm_rec_params, num_aux, 0x800);
RMM_IS_AT(rmm_rec_params, aux, 0x808);
RMM_STATIC_ASSERT(sizeof(rmm_rec_params) == RMM_GRANULE_SIZE, "rmm_rec_params is a granule");

/* The first half, which the host writes. RMM 1.0, RmiRecEnter. */
typedef struct rmm_run_enter {
    uint64_t flags; /* 0x000 */
    uint8_t reserved_8[0x1f8];
    uint64_t gprs[31]; /* 0x200 */
    uint8_t reserved_2f8[8];
    uint64_t gicv3_hcr;     /* 0x300 */
    uint64_t gicv3_lrs[16]; /* 0x308 */
    uint8_t reserved_388[0x478];
} rmm_run_enter;

RMM_IS_AT(rmm_run_enter, gprs, 0x200);
RMM_IS_AT(rmm_run_enter, gicv3_hcr, 0x300);
RMM_IS_AT(rmm_run_enter, gicv3_lrs, 0x308);

/* The second half, which an exit writes. RMM 1.0, RmiRecExit. */
typedef struct rmm_run_exit {
    uint8_t exit_reason; /* 0x800 of the page */
    uint8_t reserved_801[0xff];
    uint64_t esr;   /* 0x900 */
    uint64_t far;   /* 0x908 */
    uint64_t hpfar; /* 0x910 */
    uint8_t reserved_918[0xe8];
    uint64_t gprs[31]; /* 0xa00 */
    uint8_t reserved_af8[8];
    uint64_t gicv3_hcr;     /* 0xb00 */
    uint64_t gicv3_lrs[16]; /* 0xb08 */
    uint64_t gicv3_misr;    /* 0xb88 */
    uint64_t gicv3_vmcr;    /* 0xb90 */
    uint8_t reserved_b98[0x68];
    uint64_t cntp_ctl;  /* 0xc00 */
    uint64_t cntp_cval; /* 0xc08 */
    uint64_t cntv_ctl;  /* 0xc10 */
    uint64_t cntv_cval; /* 0xc18 */
    uint8_t reserved_c20[0xe0];
    uint64_t ripas_base; /* 0xd00 */
    uint64_t ripas_top;  /* 0xd08 */
    uint8_t ripas_value; /* 0xd10 */
    uint8_t reserved_d11[0xef];
    uint16_t imm; /* 0xe00 */
    uint8_t reserved_e02[0xfe];
    uint8_t pmu_ovf_status; /* 0xf00 */
    uint8_t reserved_f01[0xff];
} rmm_run_exit;

typedef struct rmm_rec_run {
    rmm_run_enter enter;
    rmm_run_exit exit;
} rmm_rec_run;

RMM_IS_AT(rmm_rec_run, exit, 0x800);
RMM_IS_AT(rmm_rec_run, exit.esr, 0x900);
RMM_IS_AT(rmm_rec_run, exit.far, 0x908);
RMM_IS_AT(rmm_rec_run, exit.hpfar, 0x910);
RMM_IS_AT(rmm_rec_run, exit.gprs, 0xa00);
RMM_IS_AT(rmm_rec_run, exit.gicv3_hcr, 0xb00);
RMM_IS_AT(rmm_rec_run, exit.gicv3_lrs, 0xb08);
RMM_IS_AT(rmm_rec_run, exit.gicv3_misr, 0xb88);
RMM_IS_AT(rmm_rec_run, exit.gicv3_vmcr, 0xb90);
RMM_IS_AT(rmm_rec_run, exit.cntp_ctl, 0xc00);
RMM_IS_AT(rmm_rec_run, exit.cntv_cval, 0xc18);
RMM_IS_AT(rmm_rec_run, exit.ripas_base, 0xd00);
RMM_IS_AT(rmm_rec_run, exit.ripas_top, 0xd08);
RMM_IS_AT(rmm_rec_run, exit.ripas_value, 0xd10);
RMM_IS_AT(rmm_rec_run, exit.imm, 0xe00);
RMM_IS_AT(rmm_rec_run, exit.pmu_ovf_status, 0xf00);
RMM_STATIC_ASSERT(sizeof(rmm_rec_run) == RMM_GRANULE_SIZE, "rmm_rec_run is a granule");

/* ---- values */

/* The checks of commands, each by its failure condition. RMM 1.0, failure conditions of RMI commands. */
enum {
    RMM_CHECK_VERSION = 1,
    RMM_CHECK_GRAN_ALIGN = 2,
    RMM_CHECK_GRAN_BOUND = 3,
    RMM_CHECK_GRAN_STATE = 4,
    RMM_CHECK_GRAN_GPT = 5,
    RMM_CHECK_RD_ALIGN = 6,
    RMM_CHECK_RD_BOUND = 7,
    RMM_CHECK_RD_STATE = 8,
    RMM_CHECK_PARAMS_ALIGN = 9,
    RMM_CHECK_PARAMS_BOUND = 10,
    RMM_CHECK_PARAMS_PAS = 11,
    RMM_CHECK_PARAMS_VALID = 12,
    RMM_CHECK_PARAMS_SUPP = 13,
    RMM_CHECK_RTT_NUM_LEVEL = 14,
    RMM_CHECK_RTT_ALIGN = 15,
    RMM_CHECK_RTT_BOUND = 16,
    RMM_CHECK_RTT_STATE = 17,
    RMM_CHECK_ALIAS = 18,
    RMM_CHECK_VMID_VALID = 19,
    RMM_CHECK_REALM_STATE = 20,
    RMM_CHECK_REALM_LIVE = 21,
    RMM_CHECK_LEVEL_BOUND = 22,
    RMM_CHECK_IPA_ALIGN = 23,
    RMM_CHECK_IPA_BOUND = 24,
    RMM_CHECK_RTT_WALK = 25,
    RMM_CHECK_RTTE_STATE = 26,
    RMM_CHECK_RTT_LIVE = 27,
    RMM_CHECK_RTT_HOMO = 28,
    RMM_CHECK_RTT_BLOCK = 29,
    RMM_CHECK_DESC_BOUND = 30,
    RMM_CHECK_DATA_ALIGN = 31,
    RMM_CHECK_DATA_BOUND = 32,
    RMM_CHECK_DATA_STATE = 33,
    RMM_CHECK_SRC_ALIGN = 34,
    RMM_CHECK_SRC_BOUND = 35,
    RMM_CHECK_SRC_PAS = 36,
    RMM_CHECK_FLAGS_VALID = 37,
    RMM_CHECK_RTTE_RIPAS = 38,
    RMM_CHECK_SIZE = 39,
    RMM_CHECK_BASE_GRAN_ALIGN = 40,
    RMM_CHECK_TOP_GRAN_ALIGN = 41,
    RMM_CHECK_BASE_BOUND = 42,
    RMM_CHECK_TOP_BOUND = 43,
    RMM_CHECK_BASE_ALIGN = 44,
    RMM_CHECK_NO_PROGRESS = 45,
    RMM_CHECK_REC_ALIGN = 46,
    RMM_CHECK_REC_BOUND = 47,
    RMM_CHECK_REC_GRAN_STATE = 48,
    RMM_CHECK_NUM_AUX = 49,
    RMM_CHECK_AUX_ALIGN = 50,
    RMM_CHECK_AUX_BOUND = 51,
    RMM_CHECK_AUX_ALIAS = 52,
    RMM_CHECK_AUX_STATE = 53,
    RMM_CHECK_MPIDR_INDEX = 54,
    RMM_CHECK_NUM_RECS = 55,
    RMM_CHECK_REC_STATE = 56,
    RMM_CHECK_REC_OWNER = 57,
    RMM_CHECK_RUN_ALIGN = 58,
    RMM_CHECK_RUN_BOUND = 59,
    RMM_CHECK_RUN_PAS = 60,
    RMM_CHECK_REALM_NEW = 61,
    RMM_CHECK_SYSTEM_OFF = 62,
    RMM_CHECK_REC_RUNNABLE = 63,
    RMM_CHECK_REC_MMIO = 64,
    RMM_CHECK_REC_PSCI = 65,
    RMM_CHECK_REC_GICV3 = 66,
    RMM_CHECK_CALLING_ALIGN = 67,
    RMM_CHECK_CALLING_BOUND = 68,
    RMM_CHECK_CALLING_STATE = 69,
    RMM_CHECK_TARGET_ALIGN = 70,
    RMM_CHECK_TARGET_BOUND = 71,
    RMM_CHECK_TARGET_STATE = 72,
    RMM_CHECK_PENDING = 73,
    RMM_CHECK_OWNER = 74,
    RMM_CHECK_TARGET = 75,
    RMM_CHECK_STATUS = 76
};

/* RMM 1.0, RmiRttEntryState. */
enum { RMM_UNASSIGNED = 0, RMM_ASSIGNED = 1, RMM_TABLE = 2 };

/* RMM 1.0, RmiRecExitReason. */
enum {
    RMM_EXIT_SYNC = 0,
    RMM_EXIT_IRQ = 1,
    RMM_EXIT_FIQ = 2,
    RMM_EXIT_PSCI = 3,
    RMM_EXIT_RIPAS_CHANGE = 4,
    RMM_EXIT_HOST_CALL = 5,
    RMM_EXIT_SERROR = 6
};

/* RMM 1.0, RmiRecEnterFlags. RMM_REJECT_RIPAS is the response to RMM_EXIT_RIPAS_CHANGE. */
enum {
    RMM_EMULATED_MMIO = 1,
    RMM_INJECT_SEA = 2,
    RMM_TRAP_WFI = 4,
    RMM_TRAP_WFE = 8,
    RMM_REJECT_RIPAS = 16
};

/* The functions of a PSCI exit, in gprs 0, and PSCI results. */
#define RMM_PSCI_CPU_SUSPEND 0xC4000001
#define RMM_PSCI_CPU_OFF 0x84000002
#define RMM_PSCI_CPU_ON 0xC4000003
#define RMM_PSCI_AFFINITY_INFO 0xC4000004
#define RMM_PSCI_SYSTEM_OFF 0x84000008
#define RMM_PSCI_SYSTEM_RESET 0x84000009
#define RMM_PSCI_SUCCESS 0
#define RMM_PSCI_INVALID_PARAMETERS 0xfffffffffffffffe
#define RMM_PSCI_DENIED 0xfffffffffffffffd
#define RMM_PSCI_ALREADY_ON 0xfffffffffffffffc
#define RMM_PSCI_INVALID_ADDRESS 0xfffffffffffffff7

/* ---- names of RMM 1.0; "?" for a number that has none. Those of checks that CHECKS.md marks `no` are this project's,
 * or unsure */

static inline const char *rmm_name_of(uint64_t number, const char *const *names, uint64_t count)
{
    return number < count ? names[number] : "?";
}

/* The name of a status. That of RMM_RUNS_ON is RUNNING, as traces write it. */
static inline const char *rmm_status_name(uint64_t word)
{
    static const char *const names[] = {"RMI_SUCCESS", "RMI_ERROR_INPUT", "RMI_ERROR_REALM", "RMI_ERROR_REC",
                                        "RMI_ERROR_RTT"};
    if (word == RMM_RUNS_ON)
        return "RUNNING";
    return word == RMM_NOT_SUPPORTED ? "NOT_SUPPORTED" : rmm_name_of(rmm_status(word), names, 5);
}

/* The name of a check, as "rtte_state". */
static inline const char *rmm_check_name(uint64_t check)
{
    static const char *const names[] = {
        "version", "gran_align", "gran_bound", "gran_state", "gran_gpt", "rd_align", "rd_bound", "rd_state",
        "params_align", "params_bound", "params_pas", "params_valid", "params_supp", "rtt_num_level", "rtt_align",
        "rtt_bound", "rtt_state", "alias", "vmid_valid", "realm_state", "realm_live", "level_bound", "ipa_align",
        "ipa_bound", "rtt_walk", "rtte_state", "rtt_live", "rtt_homo", "rtt_block", "desc_bound", "data_align",
        "data_bound", "data_state", "src_align", "src_bound", "src_pas", "flags_valid", "rtte_ripas", "size",
        "base_gran_align", "top_gran_align", "base_bound", "top_bound", "base_align", "no_progress", "rec_align",
        "rec_bound", "rec_gran_state", "num_aux", "aux_align", "aux_bound", "aux_alias", "aux_state", "mpidr_index",
        "num_recs", "rec_state", "rec_owner", "run_align", "run_bound", "run_pas", "realm_new", "system_off",
        "rec_runnable", "rec_mmio", "rec_psci", "rec_gicv3", "calling_align", "calling_bound", "calling_state",
        "target_align", "target_bound", "target_state", "pending", "owner", "target", "status"};
    return rmm_name_of(check - 1, names, sizeof names / sizeof names[0]);
}

static inline const char *rmm_granule_state_name(uint64_t state)
{
    static const char *const names[] = {"UNDELEGATED", "DELEGATED", "RD", "REC", "REC_AUX", "DATA", "RTT"};
    return rmm_name_of(state, names, 7);
}

static inline const char *rmm_realm_state_name(uint64_t state)
{
    static const char *const names[] = {"NEW", "ACTIVE", "SYSTEM_OFF"};
    return rmm_name_of(state, names, 3);
}

static inline const char *rmm_rec_state_name(uint64_t state)
{
    static const char *const names[] = {"READY", "RUNNING"};
    return rmm_name_of(state, names, 2);
}

static inline const char *rmm_entry_state_name(uint64_t state)
{
    static const char *const names[] = {"UNASSIGNED", "ASSIGNED", "TABLE"};
    return rmm_name_of(state, names, 3);
}

static inline const char *rmm_ripas_name(uint64_t ripas)
{
    static const char *const names[] = {"EMPTY", "RAM", "DESTROYED"};
    return rmm_name_of(ripas, names, 3);
}

static inline const char *rmm_exit_reason_name(uint64_t reason)
{
    static const char *const names[] = {"SYNC", "IRQ", "FIQ", "PSCI", "RIPAS_CHANGE", "HOST_CALL", "SERROR"};
    return rmm_name_of(reason, names, 7);
}

#ifdef __cplusplus
}
#endif

#endif
