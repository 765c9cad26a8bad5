/* window.h: the memory of a simulated machine at its own addresses, so that a host's code uses pointers as on hardware.
 *
 * A granule of the host can be read and written at its address. Any other granule has no access: a wrong one faults as
 * on hardware, and a line on standard error has the address and the state of the granule. A process has one window.
 */
#ifndef WINDOW_H
#define WINDOW_H

#include <rmm.h>
#include <stdio.h>

/* Opens the RMM, and maps the memory that it has. False, with nothing open, if either is not possible. The addresses
 * have to be free in the process: those from 0x40000000 on are, with the address sanitizer too. */
bool window_open(const rmm_settings *settings);
void window_close(void);

/* The RMM: for steps of guests, and for readings. */
rmm_handle *window_rmm(void);

/* An SMC. What the host has written to a page that the call or a guest reads is seen by it, and the other way. */
void window_smc(rmm_registers *registers);

/* Gives the guest of a REC a step, which a log has as `text`. False if it has no place for it. */
bool window_guest(uint64_t rec, const rmm_step *step, const char *text);

/* Ends the run of a REC whose guest spins, so that its RMI_REC_ENTER has left X0 as RMM_RUNS_ON. The exit IRQ is in the
 * run page after it, and `word` is what the entry returns. False, with nothing changed, if its guest does not spin. */
bool window_interrupt(uint64_t rec, uint64_t *word);

/* Writes each call from here on, and each page that it reads, as lines of a trace. NULL ends that. */
void window_log(FILE *log);

#endif
