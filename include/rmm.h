/* rmm.h: a simulated Realm Management Monitor as a library, to test hosts against. For C11 and C++11.
 *
 * It is an RMM of version 1.0 (Arm DEN0137), called by registers as firmware is: all 23 commands of the RMI, with
 * addresses, parameter pages and run pages. Its guests are simulated: each REC has a list of steps. Each function is
 * proved to do what the definition of its command says, whatever the registers are.
 *
 * The library is for x86-64 with the GNU C library, so no hypervisor of a CCA machine can link it.
 *
 * Commands by name, parameter pages and names of values are in `rmm_commands.h`, which can be left out. Each name here
 * begins with `rmm_` or `RMM_`, so a host's own headers can be included too.
 *
 * A handle is 16 bytes of the caller's memory. A handle whose bytes are all 0 is closed. Every call accepts a closed
 * handle, which is firmware without an RMM. Numbers have 64 bits, as registers have, and no number is cut. Only
 * rmm_open and rmm_line allocate memory.
 *
 * After `Required:`, each function says what its caller has to guarantee, and nothing checks it. There `handle` means:
 *   - `handle` points to an rmm_handle, and is not NULL;
 *   - the handle is RMM_CLOSED, all bytes of it are 0, or it is as the last call with it left it: neither copied, moved
 *     nor written to since;
 *   - no two pointers of the call lead into the same memory;
 *   - one call with the handle is made at a time, and none from a signal handler, nor from the forked child of a
 *     process with threads.
 * Two handles have nothing in common: each may be in a thread of its own.
 */
#ifndef RMM_H
#define RMM_H

#include <stdbool.h>
#include <stddef.h>
#include <stdint.h>

#ifdef __cplusplus
extern "C" {
#define RMM_STATIC_ASSERT static_assert
#else
#define RMM_STATIC_ASSERT _Static_assert
#endif

/* Compilers that have this attribute warn of a NULL argument. */
#if defined(__GNUC__)
#define RMM_NO_NULL __attribute__((nonnull))
#else
#define RMM_NO_NULL
#endif

#define RMM_GRANULE_SIZE 4096

/* ---- handles */

typedef struct rmm_handle {
    bool is_open;
    void *monitor;
} rmm_handle;

#define RMM_CLOSED {false, NULL}

RMM_STATIC_ASSERT(sizeof(rmm_handle) == 16 && offsetof(rmm_handle, monitor) == 8, "rmm_handle has 16 bytes");

/* The memory of a machine, and the choices that RMM 1.0 leaves to an RMM. */
typedef struct rmm_settings {
    uint64_t granules;       /* 1 to 4096, from `base` on */
    uint64_t base;           /* a multiple of 4096 below 2^47 */
    uint64_t secure_base;    /* granules that cannot be delegated: the address of the first, as `base`, .. */
    uint64_t secure_count;   /* .. and their number, at most 65535 */
    uint64_t aux;            /* auxiliary granules of a REC, at most 16 */
    uint64_t vmid_bits;      /* 8 or 16 */
    uint64_t s2sz;           /* the widest address space of a realm in bits, 32 to 48 */
    uint64_t max_recs_order; /* a realm has at most 2^max_recs_order RECs at a time; 0 to 15 */
    uint64_t block_level;    /* the least level of a block, 1 or 2 */
    uint64_t bps;            /* NUM_BPS of feature register 0, at most 63, and with RMM_EAC5 15 */
    uint64_t wps;            /* NUM_WPS, as `bps` */
    uint64_t lrs;            /* GICV3_NUM_LRS, at most 15 */
    uint64_t layout;         /* of feature register 0: RMM_REL0 or RMM_EAC5 */
    bool stops_at_destroyed; /* RMI_RTT_INIT_RIPAS stops at an entry that is UNASSIGNED, DESTROYED */
    bool measures_all_recs;  /* a REC that is not runnable extends the RIM */
    bool ignores_data_flags; /* RMI_DATA_CREATE ignores flags above bit 0 */
    bool data_needs_ram;     /* RMI_DATA_CREATE requires that the RIPAS is RAM */
    bool aligns_live_top;    /* `top` of a live entry is the address at which the entry begins */
    bool shows_target_alone; /* a PSCI exit shows the function and the target alone */
    bool takes_shareability; /* bits 9:8 of a descriptor are the host's to choose, but for 0b01 */
    bool checks_params;      /* num_bps, num_wps and sve_vl above those of feature register 0 are refused */
    bool checks_gic;         /* RMI_REC_ENTER checks gicv3_hcr and gicv3_lrs */
} rmm_settings;

enum { RMM_REL0 = 0, RMM_EAC5 = 1 };

/* The defaults: 2048 granules from 0x80000000 on. A field can be set after `rmm_settings settings = RMM_DEFAULTS;`. */
#define RMM_DEFAULTS                                             \
    {2048, 0x80000000, 0, 0, 2, 16, 48, 4, 2, 0, 0, 0, RMM_REL0, \
     false, false, false, false, false, false, false, false, false}

RMM_STATIC_ASSERT(sizeof(rmm_settings) == 120 && offsetof(rmm_settings, stops_at_destroyed) == 104,
                  "rmm_settings has 120 bytes");

/* The return values of rmm_open. */
enum { RMM_OPENED = 0, RMM_NO_MACHINE = 1, RMM_NO_MEMORY = 2, RMM_ALREADY_OPEN = 3 };

/* Opens a closed handle with a fresh machine, all of whose granules are UNDELEGATED and 0.
 * Returns RMM_OPENED, or nothing has changed: RMM_ALREADY_OPEN exactly if the handle was open, RMM_NO_MACHINE exactly
 * if it was closed and a setting is out of its range, RMM_NO_MEMORY if allocation failed.
 * Required: handle; `settings` is not NULL, each of its fields is written, and its bools are true or false. */
uint64_t rmm_open(rmm_handle *handle, const rmm_settings *settings) RMM_NO_NULL;

/* Closes a handle, and frees its memory. A handle that is closed already stays closed. Required: handle. */
void rmm_close(rmm_handle *handle) RMM_NO_NULL;

/* ---- calls */

/* The registers of a call. SMCCC 1.2. */
typedef struct rmm_registers {
    uint64_t x0;
    uint64_t x1;
    uint64_t x2;
    uint64_t x3;
    uint64_t x4;
    uint64_t x5;
    uint64_t x6;
} rmm_registers;

RMM_STATIC_ASSERT(sizeof(rmm_registers) == 56, "rmm_registers has 56 bytes");

/* Performs an SMC. `registers` has X0 to X6 before the call. After it X0 is the result word, and X1 to X4 are the
 * outputs, 0 if there is none.
 *
 * X0 is RMM_NOT_SUPPORTED, and no other register changes, for a function that is no command, and on a closed handle.
 * X0 is RMM_RUNS_ON if the guest that was entered spins: RMI_REC_ENTER would not have returned. The REC is RUNNING
 * then, and rmm_interrupt ends its run.
 * Required: handle; `registers` is not NULL, and each of its fields is written. */
void rmm_smc(rmm_handle *handle, rmm_registers *registers) RMM_NO_NULL;

#define RMM_NOT_SUPPORTED 0xffffffffffffffff
#define RMM_RUNS_ON 0xfffffffffffffffe
#define RMM_RUNNING RMM_RUNS_ON /* old name, to be removed in librmm.so.1 */

/* Result words. RMM 1.0, RmiCommandReturnCode: the status in bits 7:0, the index in bits 15:8. */
enum { RMM_SUCCESS = 0, RMM_ERROR_INPUT = 1, RMM_ERROR_REALM = 2, RMM_ERROR_REC = 3, RMM_ERROR_RTT = 4 };

static inline unsigned rmm_status(uint64_t word) { return (unsigned)(word & 0xff); }
static inline unsigned rmm_index(uint64_t word) { return (unsigned)(word >> 8 & 0xff); }

/* Judgements of a call, which is not performed. They are of the machine as it is, so ask for them before rmm_smc.
 *
 * RMM 1.0 orders some failure conditions of a command before others. A check is made if each check that it comes after
 * was made and passed. If several checks are made and fail, an RMM may answer with the word of any of them. */

/* Returns the number of the check that decides in this RMM: the first that fails. The number is 0 if none fails, for a
 * function that is no command, and on a closed handle. The numbers and rmm_check_name are in rmm_commands.h.
 * Required: handle; `registers` is not NULL, and each of its fields is written. */
uint64_t rmm_deciding_check(rmm_handle *handle, const rmm_registers *registers) RMM_NO_NULL;

/* Returns whether an RMM may answer with this X0: the word of a check that is made and fails, or RMM_SUCCESS if none
 * does. For a function that is no command, and on a closed handle, only RMM_NOT_SUPPORTED is allowed. RMM_RUNS_ON is
 * never allowed.
 * Required: handle; `registers` is not NULL, and each of its fields is written. */
bool rmm_is_allowed(rmm_handle *handle, const rmm_registers *registers, uint64_t x0) RMM_NO_NULL;

/* ---- memory of the host */

/* Load and store bytes within one granule. Each returns false, and changes nothing, if a host gets a granule protection
 * fault: the granule is not UNDELEGATED, is secure, or does not exist. Each also returns false if the bytes are in more
 * than one granule, or the handle is closed.
 * Required: handle; `bytes` is not NULL, not even if `count` is 0; it points to `count` bytes, which rmm_store reads
 * and rmm_load may write to. */
bool rmm_load(rmm_handle *handle, uint64_t address, void *bytes, size_t count) RMM_NO_NULL;
bool rmm_store(rmm_handle *handle, uint64_t address, const void *bytes, size_t count) RMM_NO_NULL;

/* ---- guests. A REC has a list of at most 16 steps. RMI_REC_ENTER performs them until one causes an exit; if none is
 * left, the exit is IRQ. A step whose exit is SYNC stays, and is tried again at the next entry unless the host answers
 * it there; RMM_STEP_SYSTEM_REGISTER is done with its exit. A host call, a change of RIPAS and a PSCI call with an exit
 * have their result after the next entry */

/* A step, and its operands a to d in the sequence here. An operand that is not named is ignored. */
enum {
    RMM_STEP_WRITE = 0,           /* ipa, value, bytes: 2, 4 or 8; any other number is 1 byte */
    RMM_STEP_READ = 1,            /* ipa, bytes */
    RMM_STEP_HOST_CALL = 2,       /* imm, gprs 0 to 2 */
    RMM_STEP_SET_RIPAS = 3,       /* base, top, ripas, 1 if DESTROYED may change */
    RMM_STEP_CPU_ON = 4,          /* mpidr, entry point, context */
    RMM_STEP_AFFINITY_INFO = 5,   /* mpidr, level */
    RMM_STEP_CPU_OFF = 6,
    RMM_STEP_CPU_SUSPEND = 7,
    RMM_STEP_SYSTEM_OFF = 8,
    RMM_STEP_SYSTEM_RESET = 9,
    RMM_STEP_WFI = 10,
    RMM_STEP_WFE = 11,
    RMM_STEP_SPIN = 12,           /* spins until rmm_interrupt; any number that is not here does too */
    RMM_STEP_FETCH = 13,          /* ipa */
    RMM_STEP_SYSTEM_REGISTER = 14 /* iss, value: a write, as of ICC_SGI1R */
};

typedef struct rmm_step {
    uint64_t kind;
    uint64_t a;
    uint64_t b;
    uint64_t c;
    uint64_t d;
} rmm_step;

RMM_STATIC_ASSERT(sizeof(rmm_step) == 40, "rmm_step has 40 bytes");

/* The return values of rmm_guest. */
enum { RMM_QUEUED = 0, RMM_FULL = 1, RMM_NO_REC = 2 };

/* Queues a step for the guest of a REC, after those that it has. Returns RMM_QUEUED; or RMM_FULL if it has 16, or
 * RMM_NO_REC if no REC is at the address, and then nothing changes. A closed handle has no REC.
 * Required: handle; `step` is not NULL, and each of its fields is written. */
uint64_t rmm_guest(rmm_handle *handle, uint64_t rec, const rmm_step *step) RMM_NO_NULL;

/* Ends the run of a REC, and writes the result word of its RMI_REC_ENTER to `word`. The word is 0, and the exit IRQ is
 * in the run page that the entry named; or it is RMI_ERROR_INPUT, with no exit written, if that page is no longer the
 * host's. Returns false, with nothing changed, if the REC is not RUNNING.
 * Required: handle; `word` is not NULL, and may be written to. */
bool rmm_interrupt(rmm_handle *handle, uint64_t rec, uint64_t *word) RMM_NO_NULL;

/* The result of a step, as its guest sees it, and its value, 0 if there is none. */
enum {
    RMM_RESULT_DONE = 0,
    RMM_RESULT_READ = 1,     /* what was read */
    RMM_RESULT_SEA = 2,      /* a synchronous external abort in the guest */
    RMM_RESULT_ACCEPTED = 3, /* up to which address the RIPAS is changed */
    RMM_RESULT_REJECTED = 4, /* the same */
    RMM_RESULT_RETURNED = 5, /* gprs 0 of RmiRecEnter */
    RMM_RESULT_PSCI = 6,     /* the PSCI result */
    RMM_RESULT_RSI_ERROR_INPUT = 7
};

typedef struct rmm_step_result {
    uint64_t kind;
    uint64_t value;
} rmm_step_result;

RMM_STATIC_ASSERT(sizeof(rmm_step_result) == 16, "rmm_step_result has 16 bytes");

/* Reads result `number` of those since the last entry of a REC, from 0 on. Returns false, and writes nothing, if there
 * is no such result.
 * Required: handle; `result` is not NULL, and may be written to. */
bool rmm_result(rmm_handle *handle, uint64_t rec, uint64_t number, rmm_step_result *result) RMM_NO_NULL;

/* ---- readings, which no firmware offers a host. Each returns false, and writes nothing, if there is nothing to read.
 * None changes the machine. An address is that of the first byte of a granule. */

/* RMM 1.0, RmmGranuleState. The numbers are this library's. */
enum {
    RMM_UNDELEGATED = 0,
    RMM_DELEGATED = 1,
    RMM_RD = 2,
    RMM_REC = 3,
    RMM_REC_AUX = 4,
    RMM_DATA = 5,
    RMM_RTT = 6
};

/* Reads the state of a granule. Required: handle; `state` is not NULL, and may be written to. */
bool rmm_read_state(rmm_handle *handle, uint64_t address, uint64_t *state) RMM_NO_NULL;

/* Reads the eight bytes from 8 * index on of a granule in any state, the least first; `index` is at most 511. Of a REC,
 * words 0 to 30 are its gprs, and word 31 is its pc. Required: handle; `word` is not NULL, and may be written to. */
bool rmm_read_word(rmm_handle *handle, uint64_t address, uint64_t index, uint64_t *word) RMM_NO_NULL;

/* RMM 1.0, RmmRealmState. The numbers are this library's. */
enum { RMM_NEW = 0, RMM_ACTIVE = 1, RMM_SYSTEM_OFF = 2 };

/* RMM 1.0, RmiHashAlgorithm. */
enum { RMM_SHA_256 = 0, RMM_SHA_512 = 1 };

/* A realm. RMM 1.0, Realm attributes. */
typedef struct rmm_realm {
    uint64_t state;
    uint64_t hash_algo;
    uint64_t s2sz;
    uint64_t rtt_level_start;
    uint64_t rtt_num_start;
    uint64_t rtt_base;
    uint64_t vmid;
    uint64_t next_rec;  /* the number of RECs that it was given, which is the number of its next REC */
    uint64_t rec_count; /* the number of RECs that it has */
    uint8_t rim[64];    /* with SHA-256, zeros from byte 32 on */
} rmm_realm;

RMM_STATIC_ASSERT(sizeof(rmm_realm) == 136 && offsetof(rmm_realm, rim) == 72, "rmm_realm has 136 bytes");

/* Reads the realm whose RD is at an address. Required: handle; `realm` is not NULL, and may be written to. */
bool rmm_read_realm(rmm_handle *handle, uint64_t rd, rmm_realm *realm) RMM_NO_NULL;

/* RMM 1.0, RmmRecState. The numbers are this library's. */
enum { RMM_READY = 0, RMM_REC_RUNNING = 1 };

/* RMM 1.0, RmiRipas. */
enum { RMM_EMPTY = 0, RMM_RAM = 1, RMM_DESTROYED = 2 };

/* A REC. RMM 1.0, REC attributes. */
typedef struct rmm_rec {
    uint64_t state;
    uint64_t mpidr;
    uint64_t ripas_base;   /* the rest of the RIPAS change that it has requested; base and top are 0 without one */
    uint64_t ripas_top;
    uint64_t ripas_value;
    uint64_t step_count;   /* the number of steps that its guest has yet to perform */
    uint64_t result_count; /* the number of results since its last entry */
    uint64_t is_runnable;     /* 1 if it is, and 0 if not */
    uint64_t is_psci_pending; /* the same */
} rmm_rec;

RMM_STATIC_ASSERT(sizeof(rmm_rec) == 72 && offsetof(rmm_rec, is_runnable) == 56, "rmm_rec has 72 bytes");

/* Reads the REC at an address. Required: handle; `attributes` is not NULL, and may be written to. */
bool rmm_read_rec(rmm_handle *handle, uint64_t rec, rmm_rec *attributes) RMM_NO_NULL;

/* ---- lines of traces, as `rmi_granule_delegate 0x80000000`, `state 0x80000000`, `platform 0x80000000 64 aux 1` */

/* Performs a line, and writes the model's answer to it: the text that `rmitrace answer` puts after ` = `. A zero ends
 * the text, and a text that does not fit is cut before it. Returns the length of the whole text: 0 for a comment, an
 * empty line, and a platform. An answer that the line has is ignored.
 *
 * A platform gives the handle a fresh machine, also a closed one. On a closed handle any other question is no command.
 * Returns RMM_NOT_ANSWERED if allocation failed: nothing is written, and the line was performed or nothing has changed.
 * The memory of a text is freed.
 * Required: handle; `line` is not NULL and points to `length` bytes, without the line feed; `answer` is not NULL, not
 * even if `capacity` is 0, and points to `capacity` bytes that may be written to. */
uint64_t rmm_line(rmm_handle *handle, const void *line, size_t length, void *answer, size_t capacity) RMM_NO_NULL;

#define RMM_NOT_ANSWERED 0xffffffffffffffff

/* The size of a buffer that holds the text of any answer, and its zero. */
#define RMM_ANSWER_SIZE 2048

#ifdef __cplusplus
}
#endif

#endif
