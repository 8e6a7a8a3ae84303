/*
 * What lockstep.c asks of the simulator that it compares with the library, clock by clock. Another one that offers these can
 * be linked instead of simulator.c.
 */
#ifndef SIMULATOR_H
#define SIMULATOR_H

#include "fabric.h"

#ifdef __cplusplus
extern "C" {
#endif

/* The memory and the buffer (rules 2.1 and 2.2): read and, before the first clock, filled by lockstep.c. */
extern uint8_t simulator_memory[FABRIC_MEMORY_BYTES];
extern uint8_t simulator_buffer[FABRIC_BUFFER_BYTES];

/* The latency clocks that each master's read still has to pass behind the last clock (rule 4.16): read by lockstep.c. */
extern uint32_t simulator_late[FABRIC_MASTERS];

/* The response of each master in the last clock (rules 4.13 and 4.17): read by lockstep.c. */
extern uint32_t simulator_responses[FABRIC_MASTERS];

/* The log of unmapped transfers (rule 4.18), its marks 0 or 1: read by lockstep.c behind each reset, clock and take. */
extern struct fabric_log simulator_log;

/* Mistakes that can be made on purpose, ended by a null pointer: a comparison that does not find one is worth nothing. */
extern const char *const simulator_mistakes[];

/* Starts a board, or starts it again: memory and buffer stay (rule 4.2). mistake: one of those, or null. */
void simulator_reset(const struct fabric_board *board, const char *mistake);

/*
 * A master hands in a transfer that no rule refuses, on a board with the line `default` an unmapped one too (rule 3.7); words:
 * beats * width bytes, not looked at for a read.
 */
void simulator_post(uint32_t master, uint32_t write, uint32_t address, uint32_t lanes, uint32_t beats, const uint8_t *words);

/* One clock: what it shows of each slave, and the mask of the masters that are finished (rule 4.13). */
uint32_t simulator_clock(struct fabric_lines *lines);

/*
 * Takes the oldest entry out of the log (rule 4.19): FABRIC_TAKEN, its write 0 or 1; FABRIC_EMPTY_LOG and an entry of 0 where
 * there is none.
 */
uint32_t simulator_take(struct fabric_entry *entry);

#ifdef __cplusplus
}
#endif

#endif
