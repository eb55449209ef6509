/* Two ways to sleep while a run is open, for a controller with little stack: nothing here is large but what the caller lends, and
 * `make test` runs both on 2,048 bytes (tests/stack/sleep.c). Copy what you need. */
#ifndef SLEEP_H
#define SLEEP_H

#include "at6000.h"

/* Ends the run: afterwards send the first w->length bytes of `out` to the arrays. `out` has room for the current device's size
 * plus 3. The stream can then be started afresh, unless a control byte that the run took set bit 4: its device is barred then (6).
 *
 * The run is ended exactly where w->number is 0; the answer's number is then that of the last closing byte, which may be a refusal
 * of the array's own, 5, 7, 11 or 12, or 0. Otherwise nothing is to be sent and all is as it was: w->number is 15 where `out` is
 * too short, and the answer's 16; 1, 17 or 4 stand in both. */
static inline at6000_answer end_run(at6000_chain *c, uint8_t *mem, size_t mem_len, uint8_t *out, size_t out_len, at6000_written *w)
{
    *w = at6000_closing(*c, mem, mem_len, out, out_len);
    return at6000_slice_in(c, mem, mem_len, out, w->length);
}

/* Keeps the run for later: its place is written down, and the state has no run open. The arrays are sent nothing and go on
 * waiting; pick the place up into the same chain and memory, and send the rest of the stream. Gives 0, or 1, 17 or 4, and then all
 * is as it was. */
static inline uint8_t keep_run(at6000_chain *c, const uint8_t *mem, size_t mem_len, uint8_t saved[AT6000_SAVED_LENGTH])
{
    const uint8_t number = at6000_save(*c, mem, mem_len, saved, AT6000_SAVED_LENGTH).number;

    if (number == AT6000_DONE)
        *c = at6000_drop(*c, mem, mem_len).chain;
    return number;
}

#endif
