/* table.h: the rows that `drive.py --c` makes of a trace, and what a program that runs them has to have. */
#ifndef TABLE_H
#define TABLE_H

#include <stdbool.h>
#include <stdint.h>

enum table_kind {
    PLATFORM,  /* a fresh machine: in is base and granules; it has all settings, and the text is the line */
    SMC,       /* a call: in is X0 to X6, out is X0 to X4, of which the first `results` are specified */
    FILL,      /* the host fills the granule at in[0] with the byte in[1] */
    STORE,     /* the host stores the eight bytes in[1] at in[0] */
    LOAD,      /* the host loads in[1] bytes at in[0]: out[0] */
    GUEST,     /* the guest of the REC at in[0] gets step in[1], with operands; the text is the step. out[0]: queued 0,
                  full 1, no REC 2 */
    INTERRUPT, /* the host interrupts the REC at in[0]: out[0] is the word, or all ones if it is not running */
};

/* The settings of a platform, by their names in a trace. One whose values are names is 0 for its default, the first. */
struct table_settings {
    uint64_t aux;
    uint64_t vmid_bits;
    uint64_t s2sz;
    uint64_t max_recs_order;
    uint64_t block_level;
    uint64_t bps;
    uint64_t wps;
    uint64_t lrs;
    uint64_t secure_base;    /* granules of the secure world: the first, .. */
    uint64_t secure_count;   /* .. and how many */
    uint64_t layout;         /* rel0, eac5 */
    uint64_t init_destroyed; /* change, stop */
    uint64_t measure_rec;    /* runnable, all */
    uint64_t data_flags;     /* checked, ignored */
    uint64_t live_top;       /* given, aligned */
    uint64_t psci_args;      /* all, target */
    uint64_t desc_sh;        /* zero, any */
    uint64_t data_ripas;     /* any, ram */
    uint64_t params;         /* loose, strict */
    uint64_t gic;            /* none, checked */
};

struct table_row {
    enum table_kind kind;
    uint64_t in[7];
    uint64_t out[5];
    unsigned compared; /* bit k: out[k] is compared */
    unsigned results;
    const char *text;
    const struct table_settings *settings; /* of a platform */
};

/* The functions that run the rows. On an RMM of your own: an SMC, loads and stores at addresses, and no guest.
 * table_platform returns whether the RMM is one of these settings. */
bool table_platform(const struct table_row *row);
void table_smc(uint64_t x[7]);
void table_store(uint64_t address, uint64_t word);
uint64_t table_load(uint64_t address);
uint64_t table_guest(const struct table_row *row);
uint64_t table_interrupt(uint64_t rec);

#endif
