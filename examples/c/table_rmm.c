/* The RMM that a table is run on: the simulated one. For firmware these functions are an SMC and accesses to memory. */
#include "table.h"

#include <rmm_commands.h>

static rmm_handle rmm = RMM_CLOSED;

bool table_platform(const struct table_row *row)
{
    const struct table_settings *it = row->settings;
    const rmm_settings settings = {
        .granules = row->in[1],
        .base = row->in[0],
        .secure_base = it->secure_base,
        .secure_count = it->secure_count,
        .aux = it->aux,
        .vmid_bits = it->vmid_bits,
        .s2sz = it->s2sz,
        .max_recs_order = it->max_recs_order,
        .block_level = it->block_level,
        .bps = it->bps,
        .wps = it->wps,
        .lrs = it->lrs,
        .layout = it->layout == 0 ? RMM_REL0 : RMM_EAC5,
        .stops_at_destroyed = it->init_destroyed != 0,
        .measures_all_recs = it->measure_rec != 0,
        .ignores_data_flags = it->data_flags != 0,
        .data_needs_ram = it->data_ripas != 0,
        .aligns_live_top = it->live_top != 0,
        .shows_target_alone = it->psci_args != 0,
        .takes_shareability = it->desc_sh != 0,
        .checks_params = it->params != 0,
        .checks_gic = it->gic != 0,
    };
    rmm_close(&rmm);
    return rmm_open(&rmm, &settings) == RMM_OPENED;
}

void table_smc(uint64_t x[7])
{
    rmm_registers it = {x[0], x[1], x[2], x[3], x[4], x[5], x[6]};
    rmm_smc(&rmm, &it);
    x[0] = it.x0;
    x[1] = it.x1;
    x[2] = it.x2;
    x[3] = it.x3;
    x[4] = it.x4;
}

void table_store(uint64_t address, uint64_t word) { (void)rmm_store(&rmm, address, &word, sizeof word); }

uint64_t table_load(uint64_t address)
{
    uint64_t word = 0;
    (void)rmm_load(&rmm, address, &word, sizeof word);
    return word;
}

uint64_t table_guest(const struct table_row *row)
{
    rmm_step step = {row->in[1], row->in[2], row->in[3], row->in[4], row->in[5]};
    return rmm_guest(&rmm, row->in[0], &step);
}

uint64_t table_interrupt(uint64_t rec)
{
    uint64_t word = 0;
    return rmm_interrupt(&rmm, rec, &word) ? word : UINT64_MAX;
}
