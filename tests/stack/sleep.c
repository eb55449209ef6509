/* The way to sleep of a controller that has 2 KiB of stack left. At every awaited byte, as a write and as a check, on the first
 * device of eight and on the last, both of the largest kind, these calls run on a stack of 2,048 bytes, arguments and return
 * addresses and all: closing, with exact room and with a byte less; slice_in with the closing bytes; and both ways of
 * examples/sleep.h. Right below that stack lies memory that may not be touched: whoever does ends this program with status 1.
 *
 *   sleep           makes them all, and prints how much of the stack each used at most
 *   sleep scratch   gathers 3 KiB in a scratch array, and has to fail
 *   sleep N         touches the N-th byte from the top of the stack: 2,048 is its last, and 2,049, the guard's first, has to fail */
#define _GNU_SOURCE
#include "../../examples/sleep.h"
#include "guard.h"

#include <stdio.h>
#include <stdlib.h>
#include <string.h>

enum { BIG = 16381, SMALL = 52, MEMORY = 2 * BIG + 6 * SMALL, ROOM = BIG + 3, AWAITED = 14, LAST = 7 };

/* What the next call is lent, and what it answered. */
static const at6000_chain fresh = {.count = 8, .kinds = {10, 0, 0, 0, 0, 0, 0, 10}};
static at6000_chain c, stopped;
static uint8_t mem[MEMORY], out[ROOM], saved[AT6000_SAVED_LENGTH], number;
static size_t room;
static at6000_written w;
static at6000_answer a;

static void make_closing(void) { w = at6000_closing(c, mem, MEMORY, out, room); }
static void make_slice_in(void) { a = at6000_slice_in(&c, mem, MEMORY, out, w.length); }
static void make_end_run(void) { a = end_run(&c, mem, MEMORY, out, room, &w); }
static void make_keep_run(void) { number = keep_run(&c, mem, MEMORY, saved); }
static void make_scratch(void)
{
    volatile uint8_t scratch[3072];

    for (size_t i = 0; i < sizeof scratch; i++)
        scratch[i] = mem[i];
    for (size_t i = 0; i < sizeof scratch; i++)
        out[i] = scratch[i];
}
static void make_touch(void) { *(volatile uint8_t *)(bottom + STACK - room) = 0; }

static struct way closing = {"at6000_closing", make_closing, 0}, sends = {"at6000_slice_in", make_slice_in, 0},
                  ends = {"end_run", make_end_run, 0}, keeps = {"keep_run", make_keep_run, 0},
                  gathers = {"a scratch array", make_scratch, 0}, touches = {"a touch", make_touch, 0};

static void holds(int fact, const char *what)
{
    if (fact)
        return;
    printf("FAILED: %s; stopped at %d of device %d, mode %d, check %d\n", what, stopped.place.awaited, stopped.place.device,
           stopped.place.mode, stopped.place.check);
    exit(1);
}

/* The stream for a device. A sound one has a window of one cell, one over the whole device, one of its last cell, and twice one
 * that has the longest closing bytes at 11, with windows after it and as the last. The other has an end below its start. Before
 * each byte there is a stop, but inside data only before the first two and the last. */
static uint8_t stream[8 * 6 + 5 * 5 + 4 * BIG];
static size_t length, stops[200], count;

static void add(uint8_t b)
{
    stops[count++] = length;
    stream[length++] = b;
}

static void bounds(unsigned start, unsigned end)
{
    const uint8_t head[5] = {0, (uint8_t)(start >> 8), (uint8_t)start, (uint8_t)(end >> 8), (uint8_t)end};

    for (int i = 0; i < 5; i++)
        add(head[i]);
}

static void window(unsigned start, unsigned end)
{
    bounds(start, end);
    for (unsigned at = start; at <= end; at++)
        if (at < start + 2 || at == end)
            add((uint8_t)(at * 7));
        else
            stream[length++] = (uint8_t)(at * 7);
}

static void lay(uint8_t mode, uint8_t device, int sound)
{
    static const uint8_t none[6] = {0xb2, 0, 0, 0, 0, 0xff}, five[6] = {0xb2, 0x24, 0, 0, 0, 0xfa};

    length = count = 0;
    if (mode == 6)
        add(0xb2);
    for (uint8_t d = 0; d < device; d++)
        for (int i = 0; i < 6; i++)
            add(none[i]);
    for (int i = 0; i < 6; i++)
        add(five[i]);
    if (!sound) {
        bounds(0x0105, 0x00ff);
        return;
    }
    window(5, 5);
    window(0, 0x3eff);
    window(0, BIG - 1);
    window(BIG - 1, BIG - 1);
    window(0, 0x3eff);
    add(0x4d);
}

/* The run stands where it stopped, registers and all: it is saved as the same bytes. */
static int stands(void)
{
    uint8_t then[AT6000_SAVED_LENGTH];

    return at6000_save(stopped, mem, MEMORY, then, sizeof then).number == AT6000_DONE
        && at6000_save(c, mem, MEMORY, saved, sizeof saved).number == AT6000_DONE && memcmp(saved, then, sizeof then) == 0;
}

/* The run is over, the bytes counted, and neither a cell nor a register other than before. */
static uint8_t before[MEMORY];
static void ended(const char *what, size_t bytes)
{
    holds(a.number != AT6000_MORE && !c.place.running && a.taken == stopped.place.taken + bytes, what);
    holds(memcmp(mem, before, MEMORY) == 0 && memcmp(c.registers, stopped.registers, 8) == 0, what);
}

static uint8_t met[2][2][AWAITED];
static void stop(size_t n, uint8_t mode, uint8_t check, uint8_t device)
{
    static uint8_t written[ROOM];
    size_t bytes;

    c = fresh;
    at6000_start_in(&c, mem, MEMORY, mode, check);
    holds(at6000_slice_in(&c, mem, MEMORY, stream, n).number == AT6000_MORE, "the run is open");
    if (c.place.device != device)
        return;
    met[check][device == LAST][c.place.awaited] = 1;
    stopped = c;
    memcpy(before, mem, MEMORY);

    room = ROOM;
    make_closing();
    holds(w.number == AT6000_DONE, "size + 3 has room");
    bytes = w.length;
    memcpy(written, out, ROOM);

    memset(out, 0x77, ROOM);
    memset(written + bytes, 0x77, ROOM - bytes);
    room = bytes;
    guarded(&closing);
    holds(w.number == AT6000_DONE && w.length == bytes && memcmp(out, written, ROOM) == 0, "exact room");
    guarded(&sends);
    ended("the closing bytes sent", bytes);

    c = stopped;
    memset(out, 0x33, ROOM);
    memset(written, 0x33, ROOM);
    room = bytes - 1;
    guarded(&closing);
    holds(w.number == AT6000_TOO_SHORT && w.length == 0 && memcmp(out, written, ROOM) == 0, "a byte less");
    guarded(&ends);
    holds(w.number == AT6000_TOO_SHORT && a.number == AT6000_MORE && stands(), "to sleep in a byte less");
    holds(memcmp(out, written, ROOM) == 0 && memcmp(mem, before, MEMORY) == 0, "to sleep in a byte less");
    room = bytes;
    guarded(&ends);
    holds(w.number == AT6000_DONE, "to sleep with the run ended");
    ended("to sleep with the run ended", bytes);

    c = stopped;
    guarded(&keeps);
    holds(number == AT6000_DONE && !c.place.running && memcmp(mem, before, MEMORY) == 0, "to sleep with the run kept");
    holds(at6000_pick_up_in(&c, mem, MEMORY, saved, sizeof saved) == AT6000_DONE && stands(), "and picked up again");
}

int main(int words, char **word)
{
    const struct way *all[] = {&closing, &sends, &ends, &keeps};

    guard();
    if (words > 1) {
        room = strtoul(word[1], NULL, 10);
        guarded(room ? &touches : &gathers);
        puts("nothing touched the guard");
        return 0;
    }
    for (int twice = 0; twice < 2; twice++) {
        paint = twice ? 0xa5 : 0x5a;
        for (uint8_t check = 0; check < 2; check++)
            for (uint8_t mode = 1; mode <= 6; mode++)
                for (uint8_t device = 0; device <= LAST; device += LAST)
                    for (int sound = 0; sound < 2; sound++) {
                        lay(mode, device, sound);
                        for (size_t i = 0; i < count; i++)
                            stop(stops[i], mode, check, device);
                    }
    }
    /* a device after the first awaits no preamble of its own: 2 to 13 there, 0 to 13 on the first */
    for (int check = 0; check < 2; check++)
        for (int last = 0; last < 2; last++)
            for (int awaited = last ? 2 : 0; awaited < AWAITED; awaited++)
                holds(met[check][last][awaited], "an awaited byte was never met");
    for (size_t i = 0; i < sizeof all / sizeof *all; i++)
        printf("%s, return address and arguments and all: %zu of %d bytes\n", all[i]->name, all[i]->most, STACK);
    return 0;
}
