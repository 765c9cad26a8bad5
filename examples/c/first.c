/* The program of docs/tutorial/LINK-A-HOST.md: a call, a realm, a page, a guest, and all of it taken down. */
#include <inttypes.h>
#include <rmm_commands.h>
#include <stdio.h>
#include <string.h>

static rmm_handle rmm = RMM_CLOSED;

/* The address of a granule. */
static uint64_t at(unsigned number) { return 0x80000000 + number * (uint64_t)RMM_GRANULE_SIZE; }

static void say(const char *what, uint64_t word)
{
    printf("%s: %s %u\n", what, rmm_status_name(word), rmm_index(word));
}

static bool first_call(void)
{
    rmm_settings settings = RMM_DEFAULTS;
    if (rmm_open(&rmm, &settings) != RMM_OPENED)
        return false;
    say("delegate", rmm_granule_delegate(&rmm, at(0)));
    say("delegate", rmm_granule_delegate(&rmm, at(0)));
    return true;
}

static void make_realm(void)
{
    rmm_realm_params realm = {0};
    for (unsigned k = 1; k < 16; k++)
        rmm_granule_delegate(&rmm, at(k));
    realm.s2sz = 33;
    realm.vmid = 1;
    realm.rtt_base = at(8);
    realm.rtt_level_start = 2;
    realm.rtt_num_start = 8;
    rmm_store(&rmm, at(16), &realm, sizeof realm);
    say("realm", rmm_realm_create(&rmm, at(0), at(16)));
}

static void map_page(void)
{
    uint64_t ipa = 0x80000000, top = 0;
    uint8_t bytes[RMM_GRANULE_SIZE];
    memset(bytes, 7, sizeof bytes);
    rmm_store(&rmm, at(17), bytes, sizeof bytes);
    say("data", rmm_data_create(&rmm, at(0), at(5), ipa, at(17), RMM_MEASURE_CONTENT));
    say("table", rmm_rtt_create(&rmm, at(0), at(4), ipa, 3));
    say("RIPAS", rmm_rtt_init_ripas(&rmm, at(0), ipa, ipa + 0x2000, &top));
    say("data", rmm_data_create(&rmm, at(0), at(5), ipa, at(17), RMM_MEASURE_CONTENT));
    printf("a load of the host: %s\n", rmm_load(&rmm, at(5), bytes, 1) ? "done" : "fault");
}

static void run_guest(void)
{
    const rmm_step steps[] = {{RMM_STEP_READ, 0x80000fff, 1, 0, 0}, {RMM_STEP_WRITE, 0x80001000, 5, 1, 0}};
    rmm_rec_params rec = {0};
    rmm_rec_run run = {0};
    rmm_step_result result = {0, 0};
    rec.flags = RMM_RUNNABLE;
    rec.num_aux = 2;
    rec.aux[0] = at(2);
    rec.aux[1] = at(3);
    rmm_store(&rmm, at(16), &rec, sizeof rec);
    say("REC", rmm_rec_create(&rmm, at(0), at(1), at(16)));
    say("activate", rmm_realm_activate(&rmm, at(0)));
    rmm_guest(&rmm, at(1), &steps[0]);
    rmm_guest(&rmm, at(1), &steps[1]);
    say("enter", rmm_rec_enter(&rmm, at(1), at(18)));
    rmm_load(&rmm, at(18), &run, sizeof run);
    printf("%s: esr 0x%" PRIx64 ", hpfar 0x%" PRIx64 "\n", rmm_exit_reason_name(run.exit.exit_reason), run.exit.esr,
           run.exit.hpfar);
    rmm_result(&rmm, at(1), 0, &result);
    printf("the guest has read %u\n", (unsigned)result.value);
}

static void take_down(void)
{
    uint64_t granule = 0, top = 0, state = 0;
    say("destroy", rmm_realm_destroy(&rmm, at(0)));
    rmm_rec_destroy(&rmm, at(1));
    rmm_data_destroy(&rmm, at(0), 0x80000000, &granule, &top);
    rmm_rtt_destroy(&rmm, at(0), 0x80000000, 3, &granule, &top);
    say("destroy", rmm_realm_destroy(&rmm, at(0)));
    for (unsigned k = 0; k < 16; k++)
        rmm_granule_undelegate(&rmm, at(k));
    rmm_read_state(&rmm, at(5), &state);
    printf("the page: %s\n", rmm_granule_state_name(state));
    rmm_close(&rmm);
}

int main(void)
{
    if (!first_call())
        return 1;
    make_realm();
    map_page();
    run_guest();
    take_down();
    return 0;
}
