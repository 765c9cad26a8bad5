/* guest.h: what the guests of a realm do. On hardware that is an image; here it is steps. */
#ifndef GUEST_H
#define GUEST_H

#include "host.h"
#include "window.h"

/* Gives both RECs their steps. False if one cannot have them. */
static inline bool guest_load(const struct host *host)
{
    static const struct {
        unsigned rec;
        rmm_step step;
        const char *text;
    } steps[] = {
        {0, {RMM_STEP_READ, HOST_RAM, 1, 0, 0}, "read 0x80000000"},
        {0, {RMM_STEP_WRITE, 0x801ff000, 1, 1, 0}, "write 0x801ff000 1"},
        {0, {RMM_STEP_WRITE, HOST_UART, 'h', 1, 0}, "write 0x109000000 104"},
        {0, {RMM_STEP_WRITE, HOST_UART, 'i', 1, 0}, "write 0x109000000 105"},
        {0, {RMM_STEP_SET_RIPAS, 0x80002000, 0x80004000, RMM_EMPTY, 0}, "set_ripas 0x80002000 0x80004000 EMPTY"},
        {0, {RMM_STEP_WRITE, 0x180002000, 42, 1, 0}, "write 0x180002000 42"},
        {0, {RMM_STEP_HOST_CALL, 1, 0, 0, 0}, "host_call 1"},
        {0, {RMM_STEP_SET_RIPAS, 0x80002000, 0x80004000, RMM_RAM, 0}, "set_ripas 0x80002000 0x80004000 RAM"},
        {0, {RMM_STEP_WRITE, 0x80002000, 3, 1, 0}, "write 0x80002000 3"},
        {0, {RMM_STEP_CPU_ON, 1, HOST_RAM, 5, 0}, "cpu_on 0x1 0x80000000 0x5"},
        {0, {RMM_STEP_AFFINITY_INFO, 1, 0, 0, 0}, "affinity_info 0x1 0"},
        {0, {RMM_STEP_SYSTEM_OFF, 0, 0, 0, 0}, "system_off"},
        {1, {RMM_STEP_WRITE, HOST_UART, '2', 1, 0}, "write 0x109000000 50"},
        {1, {RMM_STEP_CPU_OFF, 0, 0, 0, 0}, "cpu_off"},
    };
    for (unsigned k = 0; k < sizeof steps / sizeof steps[0]; k++)
        if (!window_guest(host->recs[steps[k].rec].rec, &steps[k].step, steps[k].text))
            return false;
    return true;
}

#endif
