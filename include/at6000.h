/* The AT6000 loader for C.
 *
 * Every call takes every input: a bad chain, state, mode, stream or saved place is refused with its number, and what a refusal
 * leaves is fixed. What C itself owes: each pointer is valid for its length, an array parameter for its fixed length, and
 * nothing that a call writes overlaps anything else that it is lent. A length of 0 may go with any pointer that is not null.
 *
 * A chain is 1 to 8 devices; their memories lie one after another in one buffer, which every call on a chain is lent. Kinds and
 * bytes of memory: 0 is 52, 2 is 2665, 3 is 4141, 5 is 8065, 10 is 16381; 65536 bytes in all at most.
 *
 * Link with the archive that `make lib` writes, for x86-64.
 */
#ifndef AT6000_H
#define AT6000_H

#include <stddef.h>
#include <stdint.h>

#ifdef __cplusplus
extern "C" {
#endif

/* The numbers. Where several conditions hold, each call gives the first in the order that stands at it. */
enum at6000_number {
    AT6000_DONE = 0,            /* done; a run accepted */
    AT6000_BAD_CHAIN = 1,       /* count not 1 to 8, unknown kind, total over 65536, or lent memory of another length */
    AT6000_BAD_MODE = 2,        /* mode not 1 to 6; fetch in a mode that has no EPROM, 3, 4 or 6 */
    AT6000_RUN_OPEN = 3,        /* start or pick-up while a run is open */
    AT6000_NO_RUN = 4,          /* byte, slice, fetch, closing, save or drop with no run open */
    AT6000_NO_PREAMBLE = 5,     /* a preamble is awaited and the byte is not B2; hunt without a position */
    AT6000_BARRED = 6,          /* B2 that would begin a device whose stored bit 4 is set */
    AT6000_NO_CHECK = 7,        /* check, and the device's stored bit 3 is set, or the control byte sets it */
    AT6000_BAD_CHECK_BYTE = 8,  /* check byte neither 4D nor B2 */
    AT6000_ENDS_HERE = 9,       /* check byte B2, and this device's control byte set bit 2 */
    AT6000_LAST_DEVICE = 10,    /* check byte B2 after the last device */
    AT6000_BAD_START = 11,      /* start not below the device's size */
    AT6000_BAD_END = 12,        /* end below start or not below size */
    AT6000_BAD_TABLES = 13,     /* writer: start and end tables differ in length or exceed 255 */
    AT6000_BAD_DATA = 14,       /* writer: data length is not the sum of the windows */
    AT6000_TOO_SHORT = 15,      /* output or table shorter than needed */
    AT6000_MORE = 16,           /* slice used up, or as many bytes fetched as asked for, run still open */
    AT6000_ILL_FORMED = 17,     /* saved place not well formed; or a lent state whose unused kinds or registers are not zero or
                                   whose open place is not well formed; or a fetcher's counter above 1FFFF */
    AT6000_PAST_EPROM = 18,     /* fetch: the counter is not below the EPROM's length, run still open */
    AT6000_BAD_JUMP = 19,       /* fetch: the external address to jump to is above 1FFFF */
    AT6000_BAD_LENGTHS = 23,    /* sheet: over 65536 lengths, lengths that do not sum to the slice, or a slice over 67108864 bytes */
    AT6000_NO_HEAD = 27         /* salvage: fewer than six bytes */
};

#define AT6000_SAVED_LENGTH 27

/* An open place in a stream; running 0 is none, and the other fields are then no part of the state. */
typedef struct at6000_place {
    uint8_t running, mode, check, device, awaited, left, control;
    uint16_t start, end, next;
    uint32_t taken, mismatches;
} at6000_place;

/* The state of a chain: unused kinds and registers are zero. Keep it, and pass it on; its fields may be read. */
typedef struct at6000_chain {
    uint8_t count;
    uint8_t kinds[8];
    uint8_t registers[8];
    at6000_place place;
} at6000_chain;

typedef struct at6000_made { at6000_chain chain; uint8_t number; } at6000_made;
typedef struct at6000_answer { uint8_t number; uint32_t taken, mismatches; } at6000_answer;
typedef struct at6000_fed { at6000_chain chain; at6000_answer answer; } at6000_fed;
typedef struct at6000_written { uint8_t number; size_t length; } at6000_written;
typedef struct at6000_hunted { uint8_t number, p, left; size_t length; } at6000_hunted;
typedef struct at6000_listed { uint8_t number, windows, control, address[3]; uint32_t taken; } at6000_listed;
typedef struct at6000_salvaged { uint8_t number, kept, announced, end; size_t offset, length; } at6000_salvaged;

/* What boots a board from its EPROM: the address counter, 17 bits, and of the run that it fetches, zero until taken, the first
 * device's control byte and external address, low byte first, and whether that device's first null byte was taken, 0 for not
 * yet. A stop keeps it beside the saved place: keep it, and pass it on. */
typedef struct at6000_fetcher { uint32_t counter; uint8_t control, address[3], nulled; } at6000_fetcher;
typedef struct at6000_fetched { at6000_chain chain; at6000_answer answer; at6000_fetcher fetcher; } at6000_fetched;

/* The sums of a load sheet: bytes taken, data bytes, distinct cells stored into, cells stored into more than once, bits of memory
 * that differ before and after, clock edges. */
typedef struct at6000_sheet { uint8_t number; uint32_t taken, data, cells, again, bits, edges; } at6000_sheet;

/* The layout is part of the interface: a line that does not compile says that this compiler has another. */
#define AT6000_IS(name, fact) typedef char at6000_is_##name[(fact) ? 1 : -1]
AT6000_IS(place, sizeof(at6000_place) == 24 && offsetof(at6000_place, start) == 8 && offsetof(at6000_place, taken) == 16);
AT6000_IS(chain, sizeof(at6000_chain) == 44 && offsetof(at6000_chain, registers) == 9 && offsetof(at6000_chain, place) == 20);
AT6000_IS(made, sizeof(at6000_made) == 48 && offsetof(at6000_made, number) == 44);
AT6000_IS(answer, sizeof(at6000_answer) == 12 && offsetof(at6000_answer, taken) == 4);
AT6000_IS(fed, sizeof(at6000_fed) == 56 && offsetof(at6000_fed, answer) == 44);
AT6000_IS(written, sizeof(at6000_written) == 16 && offsetof(at6000_written, length) == 8);
AT6000_IS(hunted, sizeof(at6000_hunted) == 16 && offsetof(at6000_hunted, p) == 1 && offsetof(at6000_hunted, left) == 2
                      && offsetof(at6000_hunted, length) == 8);
AT6000_IS(listed, sizeof(at6000_listed) == 12 && offsetof(at6000_listed, address) == 3 && offsetof(at6000_listed, taken) == 8);
AT6000_IS(salvaged, sizeof(at6000_salvaged) == 24 && offsetof(at6000_salvaged, kept) == 1
                        && offsetof(at6000_salvaged, announced) == 2 && offsetof(at6000_salvaged, end) == 3
                        && offsetof(at6000_salvaged, offset) == 8 && offsetof(at6000_salvaged, length) == 16);
AT6000_IS(fetcher, sizeof(at6000_fetcher) == 12 && offsetof(at6000_fetcher, counter) == 0
                       && offsetof(at6000_fetcher, control) == 4 && offsetof(at6000_fetcher, address) == 5
                       && offsetof(at6000_fetcher, nulled) == 8);
AT6000_IS(fetched, sizeof(at6000_fetched) == 68 && offsetof(at6000_fetched, answer) == 44
                       && offsetof(at6000_fetched, fetcher) == 56);
AT6000_IS(sheet, sizeof(at6000_sheet) == 28 && offsetof(at6000_sheet, taken) == 4 && offsetof(at6000_sheet, data) == 8
                     && offsetof(at6000_sheet, cells) == 12 && offsetof(at6000_sheet, again) == 16
                     && offsetof(at6000_sheet, bits) == 20 && offsetof(at6000_sheet, edges) == 24);
#undef AT6000_IS

/* A new state: zero registers, no run open; kinds past the count are taken as zero. Memory is left as lent.
 * Gives 1, else 0; refused, the state is all zero. */
at6000_made at6000_new(uint8_t count, const uint8_t kinds[8], const uint8_t *mem, size_t mem_len);

/* Zeroes memory, all registers and unused kinds and closes the run, whatever it was: a state that is 17 elsewhere is taken too.
 * Gives 1, else 0; refused, state and memory are as lent. */
at6000_made at6000_reset(at6000_chain c, uint8_t *mem, size_t mem_len);

/* Opens a run in a mode, 1 to 6; check 0 writes, all else checks. Gives 1, 17, 2, 3, else 0; refused, the state is as lent. */
at6000_made at6000_start(at6000_chain c, const uint8_t *mem, size_t mem_len, uint8_t mode, uint8_t check);

/* Feeds bytes to the open run and stops at its end; later bytes are not looked at. A write stores each data byte at once; a
 * check changes no cell and counts the data bytes that differ from theirs. Both load the control byte into the device's
 * register when it is taken. So a check, too, can bar its device from every later run, write or check (6): bit 4 stays until a
 * reset, or a pick-up with older registers. Checks alone, by bit 3, it cannot bar: such a control byte is 7 in a check, and is
 * not loaded.
 * Gives 1, 17, 4 (with counts 0 and 0, and all as lent), then the bytes' own 5 to 12, 0 where the run is accepted, 16 where the
 * slice is used up and the run still open. The answer has the run's bytes taken and mismatches so far, modulo 2^32. A refused
 * byte counts as taken, closes the run and changes no cell and no register; what earlier bytes stored stays. */
at6000_fed at6000_slice(at6000_chain c, uint8_t *mem, size_t mem_len, const uint8_t *s, size_t s_len);

/* A slice of one byte. */
at6000_fed at6000_byte(at6000_chain c, uint8_t *mem, size_t mem_len, uint8_t b);

/* Writes the bytes that end the open run and change no cell and no register; feed them next. No fewer bytes can end the run so.
 * Their last one ends it, accepted, or refused with 5, 7, 11 or 12. At most the current device's size plus 3. The run stays
 * open. Gives 1, 17, 4, 15, else 0; on 0 only the front of the output is written and its length answered, else the output is as
 * it was and the length 0. */
at6000_written at6000_closing(at6000_chain c, const uint8_t *mem, size_t mem_len, uint8_t *out, size_t out_len);

/* Writes the open run down in AT6000_SAVED_LENGTH bytes; the run stays open. Gives 1, 17, 4, 15, else 0; outputs as for closing. */
at6000_written at6000_save(at6000_chain c, const uint8_t *mem, size_t mem_len, uint8_t *out, size_t out_len);

/* Drops the open run: none is open afterwards, and cells and registers stay as they are. For a pause: a controller saves its
 * place, drops the run, powers off, and picks the place up later; while a run is open, pick-up and start give 3. The array is
 * sent nothing: where it is to take another stream next, feed the closing bytes instead. Gives 1, 17, 4, else 0; refused, the
 * state is as lent. */
at6000_made at6000_drop(at6000_chain c, const uint8_t *mem, size_t mem_len);

/* The state that was saved, registers included, into the same chain with no run open. Gives 1, 17, 3, then 17 for the saved
 * place, else 0; refused, the state is as lent. */
at6000_made at6000_pick_up(at6000_chain c, const uint8_t *mem, size_t mem_len, const uint8_t *saved, size_t saved_len);

/* For the serial modes 3 and 4, where each byte comes least significant bit first: finds the first bit position, 0 to 64, where
 * eight bits make B2, and writes the whole bytes from there on. Answers that position, p, and the bits left after the last
 * whole byte, 0 to 7: 8 * s_len is p + 8 * length + left. Gives 5, 15, else 0; refused, p and left are 0. Outputs as for
 * closing. */
at6000_hunted at6000_hunt(const uint8_t *s, size_t s_len, uint8_t *out, size_t out_len);

/* Writes the stream of these windows, start to end inclusive, for one device; data is the windows' bytes one after another, the
 * address goes low byte first. Gives 1 (unknown kind), 2, 13, then window by window 11, 12, then 14, 15, else 0; outputs as for
 * closing. */
at6000_written at6000_write(uint8_t kind, uint8_t mode, uint8_t control, const uint8_t address[3], const uint16_t *starts,
                            size_t starts_len, const uint16_t *ends, size_t ends_len, const uint8_t *data, size_t data_len,
                            uint8_t *out, size_t out_len);

/* Lists the windows of a stream (in modes 3 and 4 of the hunted bytes) for one freshly reset device: starts, ends, and offsets
 * of the data from the preamble that precedes the control byte: the first byte of s, in mode 6 the second. 255 entries have room
 * for every stream. Gives 1 (unknown kind), 2, the stream's own 5, 8 to 12 or 16, then 15, else 0. On 0 the first `windows`
 * entries of each table are written; else the tables are as they were, and all but the number and the bytes taken is 0. */
at6000_listed at6000_list(uint8_t kind, uint8_t mode, const uint8_t *s, size_t s_len, uint16_t *starts, size_t starts_len,
                          uint16_t *ends, size_t ends_len, uint32_t *offsets, size_t offsets_len);

/* Tidies a stream in mode 1 for one device, so that one meaning has one file. Out comes a stream that loads as this one does: its
 * control byte and address, null bytes 00, the windows ascending with a cell at least between two (those that overlap or touch
 * are one), each cell once, with the last value that the stream gives it, and 4D. Two streams come out equal byte for byte, so
 * that memcmp tells, exactly when their control bytes, their addresses and what they leave of every memory of that kind are
 * equal. Tidying twice changes nothing. No window is added and the stream gets no longer: an output as long as s always has
 * room. Bytes after the postamble are not looked at. It does not hunt: in modes 3 and 4 lend it the hunted bytes; in mode 6 lend
 * it all but the first preamble. A check of it counts a cell that the stream sends twice once. Gives 1 (unknown kind), the
 * stream's own 5, 8 to 12 or 16, then 15, else 0; outputs as for closing. */
at6000_written at6000_tidy(uint8_t kind, const uint8_t *s, size_t s_len, uint8_t *out, size_t out_len);

/* Salvages a stream in mode 1 for one device that breaks off or carries a bad byte: keeps the windows that are whole before its
 * first refused byte or its end. Out comes a sound stream: control byte and address as they were, the right count, the kept
 * windows in their order with null bytes 00, and 4D; loaded, it stores the kept windows and nothing else. Answers what was
 * changed: the windows kept and the windows announced; offset, the byte of s after the last kept window, 6 where none is kept;
 * end, the number of s itself: 0 where it was sound, else its refusal, 8 to 12, or 16 where it was used up. A sound stream comes
 * out as it is up to its postamble, null bytes apart; what follows that is not looked at. The length is offset + 1, so that an
 * output one byte longer than s always has room. It does not hunt: see tidy. Gives 1 (unknown kind), 27, 5, then 15, else 0;
 * refused, all but the number is 0. Outputs as for closing. */
at6000_salvaged at6000_salvage(uint8_t kind, const uint8_t *s, size_t s_len, uint8_t *out, size_t out_len);

/* A fetcher as a board has it when it is switched on: the counter at 00000, in mode 2 at 1FFFF, nothing kept. Any other mode, one
 * that there is not among them, is like mode 1. */
at6000_fetcher at6000_fetcher_new(uint8_t mode);

/* Fetches n bytes from the EPROM and feeds them to the open run, or as many as the run takes. The counter steps up by one each
 * byte, in mode 2 down, and wraps past either end of its 17 bits. Where the first device's control byte sets bit 1, the counter
 * takes the external address after the first null byte of that device's section; with no windows there is no jump. At the run's
 * end bit 0 of that control byte decides: clear sets the counter back to where the run's mode starts it, set keeps its next
 * value; and nothing else is kept of the run. A run that ends before its control byte was taken has bit 0 clear. What was kept
 * of another run is put away when the first preamble is fetched.
 * Bytes fed directly, the closing bytes among them, and a reset have no fetcher to change: a run that was stopped, closed so and
 * started afresh boots as it did if it is lent the counter with which it began.
 * Gives 1, 17 (the state, or a counter above 1FFFF, and nothing else of the fetcher), 4 (with counts 0 and 0), 2 (a mode other
 * than 1, 2 and 5, with the run's counts so far), and all is as lent; then byte by byte 18 where the counter is not below
 * eprom_len: no byte is taken and the run stays open, to go on with a longer EPROM; the bytes' own numbers as for slice; 19 at the
 * first null byte where the jump is above 1FFFF: that byte counts as taken and closes the run, and with bit 0 set the counter is
 * the one after it; 16 after n bytes, n = 0 too, even past the EPROM. The counts are else as for slice. The first null byte of the
 * section is the first that is fetched: one fed directly leaves no mark. An EPROM longer than 131072 bytes is taken, and its rest
 * is never read. */
at6000_fetched at6000_fetch(at6000_chain c, at6000_fetcher f, uint8_t *mem, size_t mem_len, const uint8_t *eprom, size_t eprom_len,
                            size_t n);

#define AT6000_FIGURES 6 /* of a row: taken, data, cells, again, bits, edges */

/* The load sheet: writes the streams, which lie one after another in one slice, each as long as its entry of `lengths` says, into
 * one reset device of a kind, in one mode; in modes 3 and 4 each is hunted first. No memory is lent: the device is the call's own.
 * Each stream has a row, one entry of `numbers` and AT6000_FIGURES of `figures`, row after row, and meets the device as the
 * streams before it left it: memory and register. A bit 4 so bars all later ones (6).
 * A row's number is that of the stream's run: 0, 5, 6, 8 to 12, or 16 where it runs out. Such a run is then ended by closing bytes,
 * which are counted nowhere. Its figures are of the bytes taken: how many, the refused one among them; the data bytes; the distinct
 * cells that they store into; how many of these are stored into more than once by this stream; the bits in which memory differs
 * before and after; and clock edges, one per byte taken and 3 to idle, in modes 3 and 4 eight per byte, the hunt's p and 24.
 * Bytes after a run's end, and bits that make no whole byte, have none. A hunt that fails is 5 with 24 edges, and else zeros.
 * Answers the sums of the rows' figures, column by column. None can pass 32 bits: the slice is too short for that.
 * Gives 23, 1 (unknown kind), 2, 15 (fewer entries than streams in `numbers`, or than six for each in `figures`), else 0; on 0 only
 * the entries needed are written, else the tables are as they were and the sums 0. It takes more stack than the other calls: three
 * times the largest device, 49143 bytes, and 2048 at most. */
at6000_sheet at6000_load_sheet(uint8_t kind, uint8_t mode, const uint8_t *streams, size_t streams_len, const uint32_t *lengths,
                               size_t lengths_len, uint8_t *numbers, size_t numbers_len, uint32_t *figures, size_t figures_len);

/* In place: the chain is updated where the caller keeps it. Numbers, answers and what is left are those of the calls above. */
uint8_t at6000_start_in(at6000_chain *c, const uint8_t *mem, size_t mem_len, uint8_t mode, uint8_t check);
at6000_answer at6000_slice_in(at6000_chain *c, uint8_t *mem, size_t mem_len, const uint8_t *s, size_t s_len);
uint8_t at6000_pick_up_in(at6000_chain *c, const uint8_t *mem, size_t mem_len, const uint8_t *saved, size_t saved_len);

#ifdef __cplusplus
}
#endif

#endif
