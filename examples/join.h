/* Two patches joined into one stream: how patch files are stacked without loading each. Nothing here is large but what the caller
 * lends. Copy what you need. */
#ifndef JOIN_H
#define JOIN_H

#include "at6000.h"

#include <string.h>

/* A stream for one device, and the mode it is for; in modes 3 and 4 its hunted bytes, as the lister asks. */
typedef struct patch {
    uint8_t mode;
    const uint8_t *bytes;
    size_t length;
} patch;

/* The windows of both, S's and then T's. A stream has 255 at most, so two listings always have room here, and where they are too
 * many for one stream the writer itself says so. 4 KiB, so the caller lends them: keep them in static memory, and one for each
 * thread that joins. */
typedef struct join_tables {
    uint16_t starts[510], ends[510];
    uint32_t offsets[510];
} join_tables;

/* Writes one stream, for `mode`, with S's windows and then T's, T's control byte and T's external address. Loaded into a device
 * of that kind whose stored bit 4 is clear, it leaves the cells and the register that S and then T leave: of windows that overlap
 * the later one wins, and T's control byte is the last that the register takes. Where T leaves bit 4 clear it is a patch again,
 * and can be joined with a third; what is written in modes 3 and 4 is hunted first.
 *
 * Gives the lister's number for S; the lister's for T; 6 where S's control byte sets bit 4, for T could not be loaded after it;
 * then the writer's: 2, 13 where the windows are more than 255 in all, 15, else 0. 15 is also a `data` that is too short.
 * Refused, `out` is as it was and the length 0.
 *
 * `data` and the tables are scratch, and are left with anything, on a refusal too. For `data` and for `out` s.length + t.length
 * bytes are always enough: one head (control byte, address, count) and one postamble are left out, and no lead-in is longer than
 * the preambles of S and T together. What C owes is as in at6000.h: no pointer is null, and nothing that is written overlaps
 * anything else that is lent. */
static inline at6000_written join_patches(uint8_t kind, patch s, patch t, uint8_t mode, join_tables *tables, uint8_t *data,
                                          size_t data_len, uint8_t *out, size_t out_len)
{
    const at6000_listed of_s = at6000_list(kind, s.mode, s.bytes, s.length, tables->starts, 255, tables->ends, 255,
                                           tables->offsets, 255);
    at6000_written answer = {of_s.number, 0};

    if (answer.number != AT6000_DONE)
        return answer;

    /* S has 255 windows at most, so there is room for 255 after them */
    const at6000_listed of_t = at6000_list(kind, t.mode, t.bytes, t.length, tables->starts + of_s.windows, 255,
                                           tables->ends + of_s.windows, 255, tables->offsets + of_s.windows, 255);

    answer.number = of_t.number;
    if (answer.number == AT6000_DONE && (of_s.control & 0x10))
        answer.number = AT6000_BARRED;
    if (answer.number != AT6000_DONE)
        return answer;

    const size_t windows = (size_t)of_s.windows + of_t.windows;
    size_t gathered = 0;

    for (size_t i = 0; i < windows; i++) {
        const patch from = i < of_s.windows ? s : t;
        /* an offset counts from the preamble before the control byte, and mode 6 has another before that */
        const size_t at = tables->offsets[i] + (from.mode == 6 ? 1u : 0u);
        const size_t cells = (size_t)(tables->ends[i] - tables->starts[i]) + 1;

        if (cells > data_len - gathered)
            break;
        memcpy(data + gathered, from.bytes + at, cells);
        gathered += cells;
    }
    answer = at6000_write(kind, mode, of_t.control, of_t.address, tables->starts, windows, tables->ends, windows, data, gathered,
                          out, out_len);
    /* to the writer data that did not fit is data of the wrong length, and it says so after 2 and 13 */
    if (answer.number == AT6000_BAD_DATA)
        answer.number = AT6000_TOO_SHORT;
    return answer;
}

#endif
