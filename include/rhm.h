/* rhm.h: the host of realm builds as a library, to be used alone or in front of an RMM. For C11 and C++11.
 *
 * It is the host of this repository: up to eight builds share the granules of a machine, each builds a realm, and a
 * build that fails gives everything back while others go on. Each exported function is proved to do what its definition
 * says.
 *
 * The library is for x86-64 with the GNU C library, so no hypervisor of a CCA machine can link it.
 *
 * The host has a model of an RMM. rhm_ask performs a command of a build on the model at once. In front of an RMM a
 * command takes two steps: rhm_prepare returns the operations that the hypervisor performs there, and changes nothing;
 * rhm_commit is given the RMM's answer, and performs the command here if the answer agrees with the model's. rhm_run
 * does both, with a function of the hypervisor for each operation.
 *
 * Each name here begins with `rhm_` or `RHM_`, so the headers of a hypervisor or of rmm.h can be included too.
 *
 * A handle is 16 bytes of the caller's memory. A handle whose bytes are all 0 is closed. Every call accepts a closed
 * handle. Numbers have 64 bits, and no number is cut: an operand out of its range is refused. Only rhm_open allocates
 * memory.
 *
 * After `Required:`, each function says what its caller has to guarantee, and nothing checks it. There `handle` means:
 *   - `handle` points to an rhm_handle, and is not NULL;
 *   - the handle is RHM_CLOSED, all bytes of it are 0, or rhm_open has opened it and it was neither copied, moved nor
 *     written to since;
 *   - no two pointers of the call lead into the same bytes;
 *   - one call with the handle is made at a time, and none from a signal handler, nor from the forked child of a
 *     process with threads.
 * Readings and rhm_prepare write to the handle too, so a reader's lock is not enough.
 * Two handles have nothing in common: each may be in a thread of its own. Threads that share one need a lock.
 */
#ifndef RHM_H
#define RHM_H

#include <stdbool.h>
#include <stddef.h>
#include <stdint.h>
#include <string.h>

#ifdef __cplusplus
extern "C" {
#define RHM_STATIC_ASSERT static_assert
#else
#define RHM_STATIC_ASSERT _Static_assert
#endif

/* Compilers that have this attribute warn of a NULL argument. */
#if defined(__GNUC__)
#define RHM_NO_NULL __attribute__((nonnull))
#else
#define RHM_NO_NULL
#endif

#define RHM_GRANULE_SIZE 4096

/* ---- handles */

typedef struct rhm_handle {
    bool is_open;
    void *host;
} rhm_handle;

#define RHM_CLOSED {false, NULL}

RHM_STATIC_ASSERT(sizeof(rhm_handle) == 16 && offsetof(rhm_handle, host) == 8, "rhm_handle has 16 bytes");

/* The numbers that a host is opened with. Its granules are at `base` and after it: first those of the builds, then one
 * for the parameters of realms, one for those of RECs, and 64 for the exits of runs. */
typedef struct rhm_settings {
    uint64_t pages;   /* granules for the builds, 1 to 4096 */
    uint64_t vmids;   /* VMIDs from 1 on, 1 to 255, the host's alone: one handle in front of an RMM */
    uint64_t aux;     /* auxiliary granules of a REC, at most 16: the number that RMI_REC_AUX_COUNT gives. It takes
                         an RD: create a realm for it, and destroy the realm, before rhm_open */
    uint64_t builds;  /* 1 to 8 */
    uint64_t history; /* capacity for the events of each build, 16 to 16384. An undo gives none back */
    uint64_t base;    /* the address of granule 0: a multiple of 4096 below 2^46 */
} rhm_settings;

/* The granules that are the host's own, after those of the builds. */
#define RHM_OWN_GRANULES 66

/* A field can be set after `rhm_settings settings = RHM_DEFAULTS;`. */
#define RHM_DEFAULTS {1024, 255, 2, 8, 2048, 0x80000000}

RHM_STATIC_ASSERT(sizeof(rhm_settings) == 48, "rhm_settings has 48 bytes");

/* The return values of rhm_open. */
enum { RHM_OPENED = 0, RHM_NO_HOST = 1, RHM_NO_MEMORY = 2, RHM_ALREADY_OPEN = 3 };

/* Opens a closed handle with a host whose granules are UNDELEGATED and leased to no build. In front of an RMM they have
 * to be UNDELEGATED there. Returns RHM_OPENED, or nothing has changed: RHM_ALREADY_OPEN exactly if the handle was open,
 * RHM_NO_HOST exactly if it was closed and a setting is out of its range, RHM_NO_MEMORY if allocation failed.
 * Required: handle; `settings` is not NULL, and each of its fields is written. */
uint64_t rhm_open(rhm_handle *handle, const rhm_settings *settings) RHM_NO_NULL;

/* Closes a handle, and frees its memory. A handle that is closed already stays closed. An RMM keeps what builds have
 * open.
 * Required: handle. */
void rhm_close(rhm_handle *handle) RHM_NO_NULL;

/* ---- statuses. An exported function that returns a status other than RHM_DONE has changed nothing */

enum {
    RHM_DONE = 0,
    /* refusals: the first of them that applies and holds. The value is that of rhm_ask and rhm_commit */
    RHM_NO_BUILD = 1,
    RHM_ABORTING = 2,
    RHM_BAD_ORDER = 3,  /* above 9 */
    RHM_NOT_LEASED = 4, /* the build has no such page, which is the value */
    RHM_REALM_THERE = 5,
    RHM_NO_REALM = 6,
    RHM_NOTHING_TO_UNDO = 7,
    RHM_REC_RUNNING = 8,
    RHM_JOURNAL_FULL = 9, /* the build has 512 operations open */
    RHM_HISTORY_FULL = 10, /* the build lacks capacity for the command; exits and undos have theirs */
    RHM_NO_BLOCK = 11, /* no block of the order is free, which is the value */
    RHM_NO_VMID = 12,
    RHM_RMI = 13, /* the model of the RMM refuses; the value is its result word */
    /* the handle is closed; the request is no command */
    RHM_HANDLE_CLOSED = 14,
    RHM_NO_COMMAND = 15,
    /* of rhm_commit and rhm_commit_undo alone: X0 is not the model's; X1 is not the model's */
    RHM_DIVERGED = 16,
    RHM_OTHER_OUTPUT = 17
};

/* ---- commands of a build. It names its pages by its own numbers, from 0 on in the order of taking */

/* The kinds of commands, with the operands of each. */
enum {
    RHM_TAKE = 0,      /* order: a block of 2^order pages. The value is the number of the first */
    RHM_FILL = 1,      /* page, value */
    RHM_PEEK = 2,      /* page, offset. The value is the byte, as the model has it */
    RHM_DELEGATE = 3,  /* page */
    RHM_REALM = 4,     /* page: the RD; second: the first starting table; width: 39 to 43. The value is the VMID */
    RHM_RTT = 5,       /* page, ipa, level */
    RHM_RIPAS = 6,     /* ipa, count: of pages below one table, at most 512. For more, an RMM may perform a part */
    RHM_DATA = 7,      /* page, ipa; second: the page with the bytes */
    RHM_UNKNOWN = 8,   /* page, ipa */
    RHM_REC = 9,       /* page, aux_count, aux. The value is the number of the REC */
    RHM_ACTIVATE = 10,
    RHM_ENTER = 11,    /* rec; run: the page for exits, 0 to 63 */
    RHM_EXIT = 12,     /* rec: its RMI_REC_ENTER has returned. It makes no call, and is due before an abort too */
    RHM_POKE = 13      /* rec, ipa, offset, value, run: a write of the guest, for simulations */
};

/* A command. An operand that its kind does not have is 0. `ipa` is the number of a page of the realm's address space,
 * which is its address divided by 4096. */
typedef struct rhm_command {
    uint64_t kind;
    uint64_t order;
    uint64_t page;
    uint64_t second;
    uint64_t ipa;
    uint64_t level;
    uint64_t count;
    uint64_t width;
    uint64_t rec;
    uint64_t offset;
    uint64_t value;
    uint64_t run;
    uint64_t aux_count;
    uint64_t aux[16];
} rhm_command;

RHM_STATIC_ASSERT(sizeof(rhm_command) == 232 && offsetof(rhm_command, aux) == 104, "rhm_command has 232 bytes");

/* Performs a command on the model at once. Returns RHM_DONE, with the reply in `value`; or a refusal, RHM_HANDLE_CLOSED
 * or RHM_NO_COMMAND. `value` is 0 if there is none.
 * Required: handle; `command` is not NULL, and each of its fields is written; `value` is not NULL, and may be written
 * to. */
uint64_t rhm_ask(rhm_handle *handle, uint64_t build, const rhm_command *command, uint64_t *value) RHM_NO_NULL;

/* Reverses the newest operation that a build has open, on the model at once. Returns RHM_DONE, with the number of
 * operations that are left open in `value`; or RHM_NO_BUILD, RHM_NOTHING_TO_UNDO, RHM_REC_RUNNING or RHM_HANDLE_CLOSED.
 * Required: handle; `value` is not NULL, and may be written to. */
uint64_t rhm_undo(rhm_handle *handle, uint64_t build, uint64_t *value) RHM_NO_NULL;

/* ---- in front of an RMM. There rhm_ask, rhm_undo, rhm_abort and rhm_roll_back are not used, since the RMM would get
 * no call. To roll back to a mark, call rhm_run_undo until as many operations are open as at the mark. */

/* The kinds of operations that a hypervisor performs for a command. */
enum {
    RHM_STORE = 1,        /* `count` granules from `address` on get the byte `value` everywhere */
    RHM_LOAD = 2,         /* eight bytes at `address` are read */
    RHM_REALM_PARAMS = 3, /* RmiRealmParams to the page at `address`: value, the IPA width; vmid; tables, count */
    RHM_REC_PARAMS = 4,   /* RmiRecParams to the page at `address`: value, the MPIDR; aux, count */
    RHM_CALL = 5,         /* an SMC with x0 to x6. X1 after it has to be `output` if `has_output` is 1 */
    RHM_CALL_ENTER = 6,   /* RMI_REC_ENTER of the REC at `address`, an SMC with x0 to x6 */
    RHM_INTERRUPT = 7,    /* the run of the REC at `address` ends; RMI_REC_ENTER has returned */
    RHM_GUEST_WRITE = 8,  /* for simulations: the guest of the REC at `address` writes the byte `value` at the address
                             `ipa`, in bytes */
    RHM_GUEST_SPIN = 9,   /* for simulations: it runs on until it is interrupted */
    RHM_GUEST_SAW = 10    /* for simulations: it has done the write before */
};

/* An operation. `ipa` is an address in bytes, and not the number of a page. A field that its kind does not have is
 * 0. */
typedef struct rhm_action {
    uint64_t kind;
    uint64_t x0;
    uint64_t x1;
    uint64_t x2;
    uint64_t x3;
    uint64_t x4;
    uint64_t x5;
    uint64_t x6;
    uint64_t address;
    uint64_t count;
    uint64_t value;
    uint64_t ipa;
    uint64_t vmid;
    uint64_t tables;
    uint64_t output;
    uint64_t has_output;
    uint64_t aux[16];
} rhm_action;

/* The operations for a command, in sequence. */
typedef struct rhm_actions {
    uint64_t count;    /* at most 5 */
    uint64_t expected; /* X0 of the model: 0 if it performs the call, or the word of its refusal. rhm_commit compares */
    rhm_action actions[5];
} rhm_actions;

RHM_STATIC_ASSERT(sizeof(rhm_action) == 256 && sizeof(rhm_actions) == 1296, "rhm_actions has 1296 bytes");

/* X0 and X1 after the call. They do not matter for a command without a call. */
typedef struct rhm_answer {
    uint64_t x0;
    uint64_t x1;
} rhm_answer;

/* Prepares a command, and changes nothing. Returns RHM_DONE, with the operations for the RMM in `actions`; or the
 * refusal that the host gives before it calls an RMM, which is also that of rhm_ask; or RHM_HANDLE_CLOSED or
 * RHM_NO_COMMAND.
 * RHM_RMI means an operand that no call has: a level 4, or the number of a REC that does not exist. It also means an
 * access to a page that is not UNDELEGATED, and the exit of a REC that does not run. RHM_NO_BLOCK is returned only for
 * a RHM_TAKE, which makes no call. A call that the model refuses is prepared: `expected` has its word.
 * Required: handle; `command` is not NULL, and each of its fields is written; `actions` is not NULL, and may be written
 * to. */
uint64_t rhm_prepare(rhm_handle *handle, uint64_t build, const rhm_command *command, rhm_actions *actions) RHM_NO_NULL;

/* Commits a command, after its operations were performed, by comparing the RMM's answer with the model's. If both
 * perform it, it is performed here as by rhm_ask, and the status is RHM_DONE. If both refuse it with the same word, the
 * status is RHM_RMI, and the `value` is the word, as for rhm_ask.
 *
 * RHM_DIVERGED: X0 is not the model's, which is `value`. That is 0 if the model performs the call.
 * RHM_OTHER_OUTPUT: both perform it, and X1 is not the `output` of the call. The call is not to be made again. If the
 * hypervisor goes on nevertheless, it commits with `output` as X1.
 * After either of the two, nothing is recorded, and the hypervisor decides what to do.
 *
 * The RMM has performed a call if the status of X0 is RMI_SUCCESS: its bits 7:0 are 0. RMM 1.0 does not say what index
 * is beside it. After an entry X0 may also be 2^64 - 2, which the RMM of this repository returns while a guest runs on.
 * Words of refusals are compared whole. So if an RMM leaves an index beside RMI_ERROR_INPUT, the status is
 * RHM_DIVERGED, though both refuse. A call that the RMM refuses has changed nothing there. The status is never
 * RHM_DIVERGED for a command that makes no call, as RHM_EXIT, nor for an undo that the RMM performs.
 * If the host now refuses the command before the call, since another call was made in between, that refusal is the
 * status, whatever the answer is. The RMM may have performed the call. RHM_HANDLE_CLOSED and RHM_NO_COMMAND are
 * returned as by rhm_prepare.
 *
 * What is recorded is what was performed if no other call was made for the build since rhm_prepare; for a RHM_REALM,
 * none that creates or removes another realm; and for a RHM_REALM or a RHM_REC, no operation of another one, since they
 * share the page of their parameters. For a RHM_ENTER there may have been other commands of the build, but no undo, no
 * abort and no rollback, no entry of the same REC, and no entry of any build with the same `run`. If they have left no
 * capacity, the status is RHM_HISTORY_FULL: the guest has run, nothing is recorded, and no RHM_EXIT is due.
 * Required: handle; `command` and `answer` are not NULL, and each of their fields is written; `value` is not NULL, and
 * may be written to. */
uint64_t rhm_commit(rhm_handle *handle, uint64_t build, const rhm_command *command, const rhm_answer *answer,
                    uint64_t *value) RHM_NO_NULL;

/* The same for an undo. The model performs each undo that is prepared. rhm_prepare_undo refuses as rhm_undo does:
 * RHM_NO_BUILD, RHM_NOTHING_TO_UNDO, RHM_REC_RUNNING or RHM_HANDLE_CLOSED.
 *
 * rhm_commit_undo has these statuses too, and RHM_DONE with the `value` of rhm_undo. If the RMM refuses the undo, the
 * status is RHM_DIVERGED: the operation stays open, and the undo can be tried again. After RHM_OTHER_OUTPUT the
 * operation is open here, and undone there: rhm_settle_undo commits the undo.
 * Required: handle; `actions`, `answer` and `value` as above. */
uint64_t rhm_prepare_undo(rhm_handle *handle, uint64_t build, rhm_actions *actions) RHM_NO_NULL;
uint64_t rhm_commit_undo(rhm_handle *handle, uint64_t build, const rhm_answer *answer, uint64_t *value) RHM_NO_NULL;

/* ---- aborts and marks. `value` is a number of operations.
 * Required of each: handle; `value` is not NULL, and may be written to */

/* Begins the abort of a build, with the number of its open operations in `value`. Until none is left, its commands are
 * refused, and its undos are performed, whatever others do. The other statuses are RHM_NO_BUILD, RHM_ABORTING,
 * RHM_REC_RUNNING and RHM_HANDLE_CLOSED. */
uint64_t rhm_begin_abort(rhm_handle *handle, uint64_t build, uint64_t *value) RHM_NO_NULL;

/* Undoes all that a build has open on the model at once, with the number of undone operations in `value`. The other
 * statuses are RHM_NO_BUILD, RHM_REC_RUNNING and RHM_HANDLE_CLOSED. */
uint64_t rhm_abort(rhm_handle *handle, uint64_t build, uint64_t *value) RHM_NO_NULL;

/* Sets the mark of a build, with the number of its open operations in `value`. The other statuses are RHM_NO_BUILD,
 * RHM_ABORTING and RHM_HANDLE_CLOSED. */
uint64_t rhm_mark(rhm_handle *handle, uint64_t build, uint64_t *value) RHM_NO_NULL;

/* Undoes what a build has opened since its mark on the model at once, with the number of undone operations in `value`.
 * The other statuses are RHM_NO_BUILD, RHM_ABORTING, RHM_NOTHING_TO_UNDO if it has no mark, RHM_REC_RUNNING and
 * RHM_HANDLE_CLOSED. */
uint64_t rhm_roll_back(rhm_handle *handle, uint64_t build, uint64_t *value) RHM_NO_NULL;

/* ---- readings. Each returns false, and writes nothing, if there is nothing to read. None changes the host.
 * Required of each: handle; the last pointer is not NULL, and may be written to */

/* Returns the number of granules that no build leases; 0 for a closed handle. Required: handle. */
uint64_t rhm_free_count(rhm_handle *handle) RHM_NO_NULL;

typedef struct rhm_build {
    uint64_t page_count;
    uint64_t open_count;  /* the number of operations that are open */
    uint64_t mark;        /* the number that were open at its mark */
    uint64_t has_mark;    /* 1 if it has a mark, else 0 */
    uint64_t is_aborting; /* 1 if it is in abort, else 0 */
} rhm_build;

bool rhm_read_build(rhm_handle *handle, uint64_t build, rhm_build *reading) RHM_NO_NULL;

/* The states of a granule, of a realm and of a REC. RMM 1.0. The numbers are this library's. */
enum {
    RHM_STATE_UNDELEGATED = 0,
    RHM_STATE_DELEGATED = 1,
    RHM_STATE_RD = 2,
    RHM_STATE_REC = 3,
    RHM_STATE_REC_AUX = 4,
    RHM_STATE_DATA = 5,
    RHM_STATE_RTT = 6
};
enum { RHM_NEW = 0, RHM_ACTIVE = 1 };
enum { RHM_REC_STATE_READY = 0, RHM_REC_STATE_RUNNING = 1 };

/* Old names, to be removed in librhm.so.1. */
#define RHM_UNDELEGATED RHM_STATE_UNDELEGATED
#define RHM_DELEGATED RHM_STATE_DELEGATED
#define RHM_READY RHM_REC_STATE_READY
#define RHM_RUNNING RHM_REC_STATE_RUNNING

/* A page of a build: its granule. */
typedef struct rhm_page {
    uint64_t address;
    uint64_t state;
} rhm_page;

bool rhm_read_page(rhm_handle *handle, uint64_t build, uint64_t page, rhm_page *reading) RHM_NO_NULL;

/* The realm of a build. */
typedef struct rhm_realm {
    uint64_t rd;     /* the address of its RD */
    uint64_t tables; /* that of its first starting table */
    uint64_t state;
    uint64_t vmid;
    uint64_t width; /* of its IPAs, in bits */
    uint64_t next_rec;
} rhm_realm;

bool rhm_read_realm(rhm_handle *handle, uint64_t build, rhm_realm *reading) RHM_NO_NULL;

/* The REC with a number in the realm of a build. */
typedef struct rhm_rec {
    uint64_t address;
    uint64_t state;
} rhm_rec;

bool rhm_read_rec(rhm_handle *handle, uint64_t build, uint64_t number, rhm_rec *reading) RHM_NO_NULL;

/* The kinds of events: operations, and their reverses. */
enum {
    RHM_EVENT_TAKE = 0,   /* granule: the first; count: of granules */
    RHM_EVENT_UNTAKE = 1, /* the same */
    RHM_EVENT_FILL = 2,   /* granule, value */
    RHM_EVENT_PEEK = 3,   /* granule, offset, value */
    RHM_EVENT_DELEGATE = 4,
    RHM_EVENT_UNDELEGATE = 5,
    RHM_EVENT_REALM = 6, /* granule: the RD; second: the first starting table; width, vmid */
    RHM_EVENT_UNREALM = 7,
    RHM_EVENT_ACTIVATE = 8,
    RHM_EVENT_RTT = 9, /* granule, ipa, level */
    RHM_EVENT_UNRTT = 10,
    RHM_EVENT_RIPAS = 11,   /* ipa, count */
    RHM_EVENT_DATA = 12,    /* granule, ipa; second: the source */
    RHM_EVENT_UNKNOWN = 13, /* granule, ipa */
    RHM_EVENT_UNDATA = 14,
    RHM_EVENT_REC = 15, /* granule, rec, aux; count: of auxiliary granules */
    RHM_EVENT_UNREC = 16,
    RHM_EVENT_ENTER = 17, /* rec */
    RHM_EVENT_EXIT = 18,
    RHM_EVENT_POKE = 19 /* rec, ipa, offset, value */
};

/* An event of the history. `granule`, `second` and `aux` are addresses. `ipa` is a page number, as in rhm_command;
 * `count` is of granules or of pages; `width` is in bits. A field that its kind does not have is 0. */
typedef struct rhm_event {
    uint64_t build;
    uint64_t kind;
    uint64_t granule;
    uint64_t second;
    uint64_t ipa;
    uint64_t level;
    uint64_t count;
    uint64_t width;
    uint64_t rec;
    uint64_t offset;
    uint64_t value;
    uint64_t vmid;
    uint64_t aux[16];
} rhm_event;

/* Returns the number of events; 0 for a closed handle. Required: handle. */
uint64_t rhm_event_count(rhm_handle *handle) RHM_NO_NULL;

/* Reads the event with a number, from 0 on. */
bool rhm_read_event(rhm_handle *handle, uint64_t number, rhm_event *reading) RHM_NO_NULL;

RHM_STATIC_ASSERT(sizeof(rhm_event) == 224, "rhm_event has 224 bytes");
RHM_STATIC_ASSERT(sizeof(rhm_build) == 40 && sizeof(rhm_page) == 16 && sizeof(rhm_realm) == 48 && sizeof(rhm_rec) == 16,
                  "readings have these sizes");

/* ---- the history as text: the lines that `realmview apply` reads, and `realmview history` prints of a plan */

/* The size of a buffer for a line, with the 0 at its end: enough for any numbers. */
#define RHM_LINE 400

static inline size_t rhm_put_word(char *text, size_t at, const char *word)
{
    size_t length = strlen(word);
    memcpy(text + at, word, length + 1);
    return at + length;
}

/* Appends a space, and a number in decimal. */
static inline size_t rhm_put_number(char *text, size_t at, uint64_t number)
{
    char digits[21];
    size_t from = sizeof digits - 1;
    digits[from] = 0;
    do
        digits[--from] = (char)('0' + number % 10);
    while ((number /= 10) != 0);
    return rhm_put_word(text, rhm_put_word(text, at, " "), digits + from);
}

/* The letters of the operands of a kind, in their sequence: o, the order of a block; g and s, the numbers of a granule
 * and of the second one; i, l, n, w, v, m, r, f for ipa, level, count, width, value, vmid, rec, offset; a, the
 * auxiliaries. */
static inline const char *rhm_event_operands(uint64_t kind)
{
    static const char *const operands[] = {"og", "og", "gv", "gfv", "g",  "g",  "gswm", "gswm", "",  "gil",
                                           "gil", "in", "gis", "gi", "gi", "gra", "gra",  "r",    "r", "rifv"};
    return kind < sizeof operands / sizeof operands[0] ? operands[kind] : "";
}

static inline const char *rhm_event_name(uint64_t kind)
{
    static const char *const names[] = {"take",     "untake", "fill",  "peek",  "delegate", "undelegate", "realm",
                                        "unrealm",  "activate", "rtt", "unrtt", "ripas",    "data",       "unknown",
                                        "undata",   "rec",    "unrec", "enter", "exit",     "poke"};
    return kind < sizeof names / sizeof names[0] ? names[kind] : "?";
}

static inline uint64_t rhm_order_of(uint64_t count)
{
    uint64_t order = 0;
    while (count > 1) {
        count /= 2;
        order++;
    }
    return order;
}

static inline size_t rhm_put_operand(char *text, size_t at, const rhm_event *event, uint64_t base, char operand)
{
    switch (operand) {
    case 'o': return rhm_put_number(text, at, rhm_order_of(event->count));
    case 'g': return rhm_put_number(text, at, (event->granule - base) / RHM_GRANULE_SIZE);
    case 's': return rhm_put_number(text, at, (event->second - base) / RHM_GRANULE_SIZE);
    case 'i': return rhm_put_number(text, at, event->ipa);
    case 'l': return rhm_put_number(text, at, event->level);
    case 'n': return rhm_put_number(text, at, event->count);
    case 'w': return rhm_put_number(text, at, event->width);
    case 'v': return rhm_put_number(text, at, event->value);
    case 'm': return rhm_put_number(text, at, event->vmid);
    case 'r': return rhm_put_number(text, at, event->rec);
    case 'f': return rhm_put_number(text, at, event->offset);
    default:
        for (uint64_t k = 0; k < event->count && k < 16; k++)
            at = rhm_put_number(text, at, (event->aux[k] - base) / RHM_GRANULE_SIZE);
        return at;
    }
}

/* Writes the line of an event of a host with this base to `text`, with a 0 and no line feed after it. */
static inline void rhm_event_text(const rhm_event *event, uint64_t base, char text[RHM_LINE])
{
    size_t at = 0;
    text[at++] = (char)('0' + event->build % 8);
    at = rhm_put_word(text, rhm_put_word(text, at, " "), rhm_event_name(event->kind));
    for (const char *operand = rhm_event_operands(event->kind); *operand != 0; operand++)
        at = rhm_put_operand(text, at, event, base, *operand);
}

/* Writes the first line of a history, by the settings of the host, likewise. */
static inline void rhm_opening_text(const rhm_settings *settings, char text[RHM_LINE])
{
    size_t at = rhm_put_word(text, 0, "history 1");
    at = rhm_put_number(text, at, settings->pages);
    at = rhm_put_number(text, at, settings->vmids);
    at = rhm_put_number(text, at, settings->aux);
    at = rhm_put_number(text, at, settings->history);
    rhm_put_number(text, at, settings->builds);
}

/* ---- commands by name */

static inline rhm_command rhm_command_of(uint64_t kind, uint64_t page, uint64_t ipa)
{
    rhm_command command;
    memset(&command, 0, sizeof command);
    command.kind = kind;
    command.page = page;
    command.ipa = ipa;
    return command;
}

static inline rhm_command rhm_take(uint64_t order)
{
    rhm_command command = rhm_command_of(RHM_TAKE, 0, 0);
    command.order = order;
    return command;
}

static inline rhm_command rhm_fill(uint64_t page, uint64_t value)
{
    rhm_command command = rhm_command_of(RHM_FILL, page, 0);
    command.value = value;
    return command;
}

static inline rhm_command rhm_peek(uint64_t page, uint64_t offset)
{
    rhm_command command = rhm_command_of(RHM_PEEK, page, 0);
    command.offset = offset;
    return command;
}

static inline rhm_command rhm_delegate(uint64_t page) { return rhm_command_of(RHM_DELEGATE, page, 0); }

static inline rhm_command rhm_create_realm(uint64_t rd, uint64_t root, uint64_t width)
{
    rhm_command command = rhm_command_of(RHM_REALM, rd, 0);
    command.second = root;
    command.width = width;
    return command;
}

static inline rhm_command rhm_create_rtt(uint64_t page, uint64_t ipa, uint64_t level)
{
    rhm_command command = rhm_command_of(RHM_RTT, page, ipa);
    command.level = level;
    return command;
}

static inline rhm_command rhm_init_ripas(uint64_t ipa, uint64_t count)
{
    rhm_command command = rhm_command_of(RHM_RIPAS, 0, ipa);
    command.count = count;
    return command;
}

static inline rhm_command rhm_create_data(uint64_t page, uint64_t ipa, uint64_t source)
{
    rhm_command command = rhm_command_of(RHM_DATA, page, ipa);
    command.second = source;
    return command;
}

static inline rhm_command rhm_create_unknown(uint64_t page, uint64_t ipa)
{
    return rhm_command_of(RHM_UNKNOWN, page, ipa);
}

/* `aux` points to the numbers of `count` pages. If `count` is above 16, nothing is read, and the result is no
 * command. */
static inline rhm_command rhm_create_rec(uint64_t page, const uint64_t *aux, uint64_t count)
{
    rhm_command command = rhm_command_of(RHM_REC, page, 0);
    command.aux_count = count;
    if (count > 0 && count <= 16)
        memcpy(command.aux, aux, (size_t)count * sizeof command.aux[0]);
    return command;
}

static inline rhm_command rhm_activate(void) { return rhm_command_of(RHM_ACTIVATE, 0, 0); }

static inline rhm_command rhm_enter(uint64_t rec, uint64_t run)
{
    rhm_command command = rhm_command_of(RHM_ENTER, 0, 0);
    command.rec = rec;
    command.run = run;
    return command;
}

static inline rhm_command rhm_exit(uint64_t rec)
{
    rhm_command command = rhm_command_of(RHM_EXIT, 0, 0);
    command.rec = rec;
    return command;
}

static inline const char *rhm_status_name(uint64_t status)
{
    static const char *const names[] = {
        "RHM_DONE",          "RHM_NO_BUILD",      "RHM_ABORTING",      "RHM_BAD_ORDER",     "RHM_NOT_LEASED",
        "RHM_REALM_THERE",   "RHM_NO_REALM",      "RHM_NOTHING_TO_UNDO", "RHM_REC_RUNNING", "RHM_JOURNAL_FULL",
        "RHM_HISTORY_FULL",  "RHM_NO_BLOCK",      "RHM_NO_VMID",       "RHM_RMI",           "RHM_HANDLE_CLOSED",
        "RHM_NO_COMMAND",    "RHM_DIVERGED",      "RHM_OTHER_OUTPUT",
    };
    return status < sizeof names / sizeof names[0] ? names[status] : "?";
}

/* ---- parameter pages. RMM 1.0, RmiRealmParams, RmiRecParams */

static inline void rhm_put(void *page, size_t offset, uint64_t value, size_t count)
{
    unsigned char *bytes = (unsigned char *)page + offset;
    for (size_t k = 0; k < count; k++)
        bytes[k] = (unsigned char)(value >> 8 * k & 0xff);
}

/* Writes the fields that the host decides of a parameter page of 4096 bytes: for RHM_REALM_PARAMS or RHM_REC_PARAMS.
 * The other fields are the hypervisor's: hash_algo and rpv of a realm, pc and gprs of a REC. The page has to be zeros
 * before. */
static inline void rhm_write_params(void *page, const rhm_action *action)
{
    if (action->kind == RHM_REALM_PARAMS) {
        rhm_put(page, 0x008, action->value, 1);
        rhm_put(page, 0x800, action->vmid, 2);
        rhm_put(page, 0x808, action->tables, 8);
        rhm_put(page, 0x810, 1, 8);
        rhm_put(page, 0x818, action->count, 4);
    } else if (action->kind == RHM_REC_PARAMS) {
        rhm_put(page, 0x000, 1, 8);
        rhm_put(page, 0x100, action->value, 8);
        rhm_put(page, 0x800, action->count, 8);
        for (size_t k = 0; k < 16; k++)
            rhm_put(page, 0x808 + 8 * k, action->aux[k], 8);
    }
}

/* ---- runs: prepare, perform, commit */

/* Performs an operation on the RMM. For RHM_CALL and RHM_CALL_ENTER it writes X0 and X1 to `answer`. If no SMC was
 * made, X0 stays 255. An error code that is negative is not safe: bits 7:0 of -512 are 0, and -2 after an entry says
 * that a guest runs on. It must neither throw nor jump away, since what it has performed would not be recorded. */
typedef void (*rhm_perform)(void *context, const rhm_action *action, rhm_answer *answer);

static inline rhm_answer rhm_performed(const rhm_actions *actions, rhm_perform perform, void *context)
{
    rhm_answer answer = {255, 0};
    for (uint64_t k = 0; k < actions->count && k < 5; k++)
        perform(context, &actions->actions[k], &answer);
    return answer;
}

/* Runs a command in front of an RMM: its operations are performed there, and it is committed. The statuses are those of
 * rhm_prepare and rhm_commit. The value is 0 if rhm_prepare refuses. */
static inline uint64_t rhm_run(rhm_handle *handle, uint64_t build, rhm_command command, rhm_perform perform,
                               void *context, uint64_t *value)
{
    rhm_actions actions;
    uint64_t status = rhm_prepare(handle, build, &command, &actions);
    if (status != RHM_DONE) {
        *value = 0;
        return status;
    }
    rhm_answer answer = rhm_performed(&actions, perform, context);
    return rhm_commit(handle, build, &command, &answer, value);
}

/* Runs an undo likewise. The value is the number of operations that are left open, also if the RMM has not performed
 * it. It is 0 if rhm_prepare_undo refuses. */
static inline uint64_t rhm_run_undo(rhm_handle *handle, uint64_t build, rhm_perform perform, void *context,
                                    uint64_t *value)
{
    rhm_actions actions;
    rhm_build reading;
    uint64_t status = rhm_prepare_undo(handle, build, &actions);
    if (status != RHM_DONE) {
        *value = 0;
        return status;
    }
    rhm_answer answer = rhm_performed(&actions, perform, context);
    status = rhm_commit_undo(handle, build, &answer, value);
    if (status != RHM_DONE && rhm_read_build(handle, build, &reading))
        *value = reading.open_count;
    return status;
}

/* Commits the undo that is next, with `output` as X1, and performs nothing. It is for an undo that the RMM has
 * performed: one that was RHM_OTHER_OUTPUT, or that the hypervisor has made by an SMC of its own. The undo of a
 * RHM_TAKE consists of stores, so rhm_run_undo has to perform it. The statuses are those of rhm_run_undo. */
static inline uint64_t rhm_settle_undo(rhm_handle *handle, uint64_t build, uint64_t *value)
{
    rhm_actions actions;
    rhm_answer answer = {0, 0};
    uint64_t status = rhm_prepare_undo(handle, build, &actions);
    *value = 0;
    if (status != RHM_DONE)
        return status;
    for (uint64_t k = 0; k < actions.count && k < 5; k++)
        if (actions.actions[k].has_output == 1)
            answer.x1 = actions.actions[k].output;
    return rhm_commit_undo(handle, build, &answer, value);
}

/* Runs an abort likewise: it begins, unless the build is in abort, and one undo after another is run until nothing is
 * open. If an undo is not done, its status is returned, and the build stays in abort with the operations that are left.
 * After RHM_DIVERGED another rhm_run_abort goes on, with the same undo. After RHM_OTHER_OUTPUT call rhm_settle_undo
 * first: the call was performed, and is not to be made again. */
static inline uint64_t rhm_run_abort(rhm_handle *handle, uint64_t build, rhm_perform perform, void *context)
{
    uint64_t left = 0, status = rhm_begin_abort(handle, build, &left);
    if (status == RHM_ABORTING)
        left = 1;
    else if (status != RHM_DONE)
        return status;
    status = RHM_DONE;
    while (left > 0 && status == RHM_DONE)
        status = rhm_run_undo(handle, build, perform, context, &left);
    return status;
}

#ifdef __cplusplus
}
#endif

#endif
