/* Runs a table that `realmview calls --c` has made of a plan, or `drive.py --c` of a trace. It needs C alone, as at EL2.
 * Each call is a line of a trace with the registers after it, in one printf, so `rmitrace names` and `rmitrace check`
 * read the output. The last line is a comment with the number of rows that differ.
 *
 *     realmview calls --c PLAN > rows.inc && cc -DROWS='"rows.inc"' table.c table_rmm.c ..
 */
#include "table.h"

#include <inttypes.h>
#include <stdio.h>

#define HEX " 0x%" PRIx64
#define CALL "smc" HEX HEX HEX HEX HEX HEX HEX " =" HEX

static const struct table_row rows[] = {
#include ROWS
};

/* The line of a call, by the number of its results. */
static const char *const lines[] = {CALL "\n", CALL HEX "\n", CALL HEX HEX "\n", CALL HEX HEX HEX "\n", CALL HEX HEX HEX HEX "\n"};

static void call(const struct table_row *row, uint64_t x[7])
{
    const uint64_t *in = row->in;
    for (unsigned k = 0; k < 7; k++)
        x[k] = in[k];
    table_smc(x);
    printf(lines[row->results - 1], in[0], in[1], in[2], in[3], in[4], in[5], in[6], x[0], x[1], x[2], x[3], x[4]);
}

/* Performs a row. What comes out is in `x`. */
static bool perform(const struct table_row *row, uint64_t x[7])
{
    const uint64_t *in = row->in;
    switch (row->kind) {
    case PLATFORM: printf("%s\n", row->text); return table_platform(row);
    case SMC: call(row, x); return true;
    case FILL: printf("fill 0x%" PRIx64 " %" PRIu64 "\n", in[0], in[1]);
               for (unsigned at = 0; at < 4096; at += 8)
                   table_store(in[0] + at, in[1] * UINT64_C(0x0101010101010101));
               return true;
    case STORE: printf("store" HEX HEX "\n", in[0], in[1]); table_store(in[0], in[1]); return true;
    case LOAD: x[0] = table_load(in[0] & ~UINT64_C(7)) >> 8 * (in[0] & 7);
               x[0] &= in[1] < 8 ? (UINT64_C(1) << 8 * in[1]) - 1 : UINT64_MAX; return true;
    case GUEST: printf("guest" HEX " %s\n", in[0], row->text); x[0] = table_guest(row); return true;
    default: printf("interrupt" HEX "\n", in[0]); x[0] = table_interrupt(in[0]); return true;
    }
}

int main(void)
{
    unsigned differ = 0, count = sizeof rows / sizeof rows[0];
    for (unsigned k = 0; k < count; k++) {
        uint64_t x[7] = {0}, other = 0;
        if (!perform(&rows[k], x))
            return 2;
        for (unsigned r = 0; r < 5; r++)
            other |= rows[k].compared >> r & 1 ? x[r] ^ rows[k].out[r] : 0;
        if (other != 0)
            printf("# row %u:" HEX HEX ", and not" HEX HEX "\n", k, x[0], x[1], rows[k].out[0], rows[k].out[1]);
        differ += other != 0;
    }
    printf("# %u of %u rows differ\n", differ, count);
    return differ != 0;
}
