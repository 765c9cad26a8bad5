/* Prints the history of a build with each kind of event, by the functions of rhm.h for text. */
#include <rhm.h>
#include <stdio.h>

static rhm_handle host = RHM_CLOSED;

static bool done(rhm_command command)
{
    uint64_t value = 0;
    return rhm_ask(&host, 0, &command, &value) == RHM_DONE;
}

static bool build(void)
{
    const uint64_t aux[1] = {7};
    bool is_done = done(rhm_take(4)) && done(rhm_fill(9, 7)) && done(rhm_peek(9, 5));
    rhm_command poke = rhm_command_of(RHM_POKE, 0, 0);
    uint64_t value = 0;
    poke.offset = 3;
    poke.value = 200;
    for (uint64_t page = 0; page < 8; page++)
        is_done = is_done && done(rhm_delegate(page));
    is_done = is_done && done(rhm_create_realm(0, 1, 39)) && done(rhm_create_rtt(2, 0, 2)) && done(rhm_create_rtt(3, 0, 3));
    is_done = is_done && done(rhm_init_ripas(0, 2)) && done(rhm_create_data(4, 0, 9)) && done(rhm_create_unknown(5, 1));
    is_done = is_done && done(rhm_create_rec(6, aux, 1)) && done(rhm_activate());
    is_done = is_done && done(rhm_enter(0, 0)) && done(poke) && done(rhm_exit(0));
    return is_done && rhm_abort(&host, 0, &value) == RHM_DONE;
}

int main(void)
{
    const rhm_settings settings = {16, 8, 1, 2, 64, 0x88000000};
    char text[RHM_LINE];
    rhm_event event;
    if (rhm_open(&host, &settings) != RHM_OPENED || !build())
        return 1;
    rhm_opening_text(&settings, text);
    puts(text);
    for (uint64_t k = 0; rhm_read_event(&host, k, &event); k++) {
        rhm_event_text(&event, settings.base, text);
        puts(text);
    }
    rhm_close(&host);
    return 0;
}
