/* A cup board that boots from its EPROM in mode 2: the counter starts at 1FFFF and steps down. The control byte sets bit 1, so that after
 * the first null byte the counter takes the external address, 08000, and the windows come from there; and bit 0, so that the next boot goes
 * on where this one stopped: there a patch lies, whose bit 0 is clear, and the counter is at 1FFFF again.
 * Then the board is paused after the jump, twice. First its place and its fetcher are kept, and both are picked up. Then the run is ended by
 * its closing bytes, which are sent directly and leave the fetcher alone, and the board boots afresh, lent the counter that the stopped run
 * began with. Both leave what an unbroken boot leaves. Last, an EPROM that is too short. */
#include "at6000.h"
#include "sleep.h"

#include <stdio.h>
#include <stdlib.h>
#include <string.h>

enum { CELLS = 52, MODE = 2, WRITE = 0, OLD = 0xee, EPROM = 131072, TO = 0x08000 };

static const uint8_t head[] = {0xb2, 0x03, TO & 255, TO >> 8 & 255, TO >> 16, 0xfd, 0xa5}; /* two windows; up to the first null byte */
static const uint8_t windows[] = {
    0x00, 9, 0x00, 11, 0x11, 0x22, 0x33,
    0x5a, 0x00, 20, 0x00, 25, 0x41, 0x42, 0x43, 0x44, 0x45, 0x46,
    0x4d,
};
static const uint8_t patch[] = {0xb2, 0x00, 0x00, 0x00, 0x00, 0xfe, 0x00, 0x00, 10, 0x00, 10, 0x77, 0x4d};

/* The pause falls after the first of the second window's six cells: 7 bytes of the head, 7 of the first window, 5 and 1 of the second. By
 * then 13 bytes were fetched from 08000 down, and the counter is at 07FF3; at the end it is 19, and 07FED. */
enum { WHOLE = sizeof head + sizeof windows, PAUSE = 20 };

static uint8_t eprom[EPROM], mem[CELLS];
static at6000_chain c;
static at6000_fetcher f;

static void holds(int fact, const char *what)
{
    if (fact)
        return;
    printf("FAILED: %s\n", what);
    exit(1);
}

/* Burns bytes for mode 2: the first at the address, each next one below the last. */
static void burn(size_t address, const uint8_t *bytes, size_t length)
{
    for (size_t i = 0; i < length; i++)
        eprom[address - i] = bytes[i];
}

static void begin(void)
{
    static const uint8_t kinds[8] = {0};

    memset(mem, OLD, sizeof mem);
    c = at6000_new(1, kinds, mem, sizeof mem).chain;
    f = at6000_fetcher_new(MODE);
}

static at6000_answer fetch(size_t eprom_len, size_t n)
{
    const at6000_fetched r = at6000_fetch(c, f, mem, sizeof mem, eprom, eprom_len, n);

    c = r.chain;
    f = r.fetcher;
    return r.answer;
}

static void tell(const char *what, at6000_answer a)
{
    printf("%s: number %d, %u bytes taken, counter %05X\n", what, a.number, (unsigned)a.taken, (unsigned)f.counter);
}

static void cells(void)
{
    printf("  cells 9 to 11:");
    for (int i = 9; i <= 11; i++)
        printf(" %02X", mem[i]);
    printf("   cells 20 to 25:");
    for (int i = 20; i <= 25; i++)
        printf(" %02X", mem[i]);
    putchar('\n');
}

int main(void)
{
    static uint8_t unbroken[CELLS], before[CELLS], out[CELLS + 3], saved[AT6000_SAVED_LENGTH];
    at6000_written w;
    at6000_answer a;

    memset(eprom, 0xff, sizeof eprom);
    burn(EPROM - 1, head, sizeof head);
    burn(TO, windows, sizeof windows);
    burn(TO - sizeof windows, patch, sizeof patch);

    begin();
    const uint32_t first = f.counter;
    printf("mode %d, an EPROM of %d bytes: the counter starts at %05X\n", MODE, EPROM, (unsigned)first);
    holds(at6000_start_in(&c, mem, sizeof mem, MODE, WRITE) == AT6000_DONE, "a run can be started");
    tell("  up to the first null byte", fetch(EPROM, sizeof head));
    a = fetch(EPROM, WHOLE);
    tell("  and on to the end", a);
    cells();
    holds(a.number == AT6000_DONE && a.taken == WHOLE, "the stream is sound");
    const uint32_t next = f.counter;
    memcpy(unbroken, mem, sizeof mem);
    at6000_start_in(&c, mem, sizeof mem, MODE, WRITE);
    a = fetch(EPROM, WHOLE);
    tell("the next boot, from there", a);
    cells();
    holds(a.number == AT6000_DONE && a.taken == sizeof patch && mem[10] == 0x77, "the patch is where the first stream ended");
    holds(f.counter == first, "bit 0 of the patch is clear");

    puts("\npaused after the jump, kept, picked up");
    begin();
    at6000_start_in(&c, mem, sizeof mem, MODE, WRITE);
    tell("pause", fetch(EPROM, PAUSE));
    cells();
    holds(keep_run(&c, mem, sizeof mem, saved) == AT6000_DONE, "a place can be saved");
    const at6000_fetcher kept = f; /* beside the 27 bytes of the place */
    printf("kept: counter %05X, control byte %02X, address %02X%02X%02X, first null byte %s\n", (unsigned)kept.counter, kept.control,
           kept.address[2], kept.address[1], kept.address[0], kept.nulled ? "taken" : "not yet taken");
    holds(at6000_pick_up_in(&c, mem, sizeof mem, saved, sizeof saved) == AT6000_DONE, "and picked up");
    f = kept;
    tell("the rest", fetch(EPROM, WHOLE));
    cells();
    holds(!memcmp(unbroken, mem, sizeof mem) && f.counter == next, "a boot that was picked up leaves what an unbroken one leaves");

    puts("\npaused after the jump, closed, booted afresh");
    begin();
    at6000_start_in(&c, mem, sizeof mem, MODE, WRITE);
    tell("pause", fetch(EPROM, PAUSE));
    memcpy(before, mem, sizeof mem);
    a = end_run(&c, mem, sizeof mem, out, sizeof out, &w);
    printf("closing bytes:");
    for (size_t i = 0; i < w.length; i++)
        printf(" %02X", out[i]);
    printf("\nsent directly: number %d, cells %s, counter %05X\n", a.number, memcmp(before, mem, sizeof mem) ? "CHANGED" : "as they were",
           (unsigned)f.counter);
    holds(!c.place.running && !memcmp(before, mem, sizeof mem), "closing ends the run and changes no cell");
    f.counter = first;
    at6000_start_in(&c, mem, sizeof mem, MODE, WRITE);
    tell("afresh, from the first counter", fetch(EPROM, WHOLE));
    cells();
    holds(!memcmp(unbroken, mem, sizeof mem) && f.counter == next, "a boot afresh leaves what an unbroken one leaves");

    puts("\nhalf an EPROM");
    begin();
    at6000_start_in(&c, mem, sizeof mem, MODE, WRITE);
    a = fetch(EPROM / 2, WHOLE);
    tell("65536 bytes", a);
    holds(a.number == AT6000_PAST_EPROM && a.taken == 0, "half an EPROM does not reach 1FFFF");
    a = fetch(EPROM, WHOLE);
    tell("the whole of it, the same run", a);
    holds(a.number == AT6000_DONE && a.taken == WHOLE, "the whole of it does");
    holds(!memcmp(unbroken, mem, sizeof mem) && f.counter == next, "a run that met the EPROM's end goes on");
    return 0;
}
