/* A controller's main loop, as a lab runs it: a measure stream goes into a chain of two arrays, and somebody pauses the run
 * inside a window. First the run is closed and the stream started afresh; then, once more, its place is saved and the run
 * dropped before the power goes, and the rest of the stream is sent after a pick-up. Both leave what an unbroken load leaves. */
#include "at6000.h"
#include "sleep.h"

#include <stdio.h>
#include <string.h>

enum { CELLS = 52, MEMORY = 2 * CELLS };

/* Two sections, one for each array: cells 9 to 11 and 20 to 31 of the first, 40 to 45 of the second. */
static const uint8_t measure[] = {
    0xb2, 0x00, 0x00, 0x00, 0x00, 0xfd,
    0x00, 0x00, 9, 0x00, 11, 0x11, 0x22, 0x33,
    0x00, 0x00, 20, 0x00, 31, 0x41, 0x42, 0x43, 0x44, 0x45, 0x46, 0x47, 0x48, 0x49, 0x4a, 0x4b, 0x4c,
    0xb2, 0x00, 0x00, 0x00, 0x00, 0xfe,
    0x00, 0x00, 40, 0x00, 45, 0x51, 0x52, 0x53, 0x54, 0x55, 0x56,
    0x4d,
};

/* The pause falls after five of the twelve bytes of the second window. */
enum { PAUSE = 24, MODE = 1, WRITE = 0 };

static void park(uint8_t *mem) { memset(mem, 0xee, MEMORY); }

/* One letter a cell: '.' holds its old value, '#' a new one. */
static void picture(const uint8_t *mem)
{
    for (int d = 0; d < 2; d++) {
        printf("  device %d  ", d);
        for (int i = 0; i < CELLS; i++)
            putchar(mem[d * CELLS + i] == 0xee ? '.' : '#');
        putchar('\n');
    }
}

static int fails(const char *what)
{
    printf("FAILED: %s\n", what);
    return 1;
}

int main(void)
{
    static const uint8_t kinds[8] = {0, 0};
    /* as large as devices, so not on the stack */
    static uint8_t unbroken[MEMORY], mem[MEMORY], before[MEMORY], out[CELLS + 3], saved[AT6000_SAVED_LENGTH];
    at6000_answer a;
    at6000_written w;

    park(unbroken);
    at6000_chain c = at6000_new(2, kinds, unbroken, MEMORY).chain;
    at6000_start_in(&c, unbroken, MEMORY, MODE, WRITE);
    a = at6000_slice_in(&c, unbroken, MEMORY, measure, sizeof measure);
    printf("unbroken load: number %d, %u bytes taken\n", a.number, (unsigned)a.taken);
    picture(unbroken);
    if (a.number != AT6000_DONE)
        return fails("the stream is sound");

    puts("\nstopped, closed, started afresh");
    park(mem);
    c = at6000_new(2, kinds, mem, MEMORY).chain;
    at6000_start_in(&c, mem, MEMORY, MODE, WRITE);
    a = at6000_slice_in(&c, mem, MEMORY, measure, PAUSE);
    printf("pause after %d bytes: number %d, the array awaits cell %u of device %u\n", PAUSE, a.number, (unsigned)c.place.next,
           (unsigned)c.place.device);
    picture(mem);
    memcpy(before, mem, MEMORY);
    a = end_run(&c, mem, MEMORY, out, sizeof out, &w);
    printf("closing: number %d, %u bytes:", w.number, (unsigned)w.length);
    for (size_t i = 0; i < w.length; i++)
        printf(" %02X", out[i]);
    putchar('\n');
    printf("sent: number %d, run %s, cells %s\n", a.number, c.place.running ? "open" : "ended",
           memcmp(before, mem, MEMORY) ? "CHANGED" : "as they were");
    if (c.place.running || memcmp(before, mem, MEMORY))
        return fails("closing ends the run and changes no cell");
    at6000_start_in(&c, mem, MEMORY, MODE, WRITE);
    a = at6000_slice_in(&c, mem, MEMORY, measure, sizeof measure);
    printf("afresh: number %d, memory %s\n", a.number, memcmp(unbroken, mem, MEMORY) ? "DIFFERS" : "as unbroken");
    if (memcmp(unbroken, mem, MEMORY))
        return fails("a fresh start leaves what an unbroken load leaves");

    puts("\nstopped, saved, dropped, picked up");
    park(mem);
    c = at6000_new(2, kinds, mem, MEMORY).chain;
    at6000_start_in(&c, mem, MEMORY, MODE, WRITE);
    at6000_slice_in(&c, mem, MEMORY, measure, PAUSE);
    const at6000_chain paused = c;
    uint8_t n = keep_run(&c, mem, MEMORY, saved);
    printf("saved and dropped: number %d, %s, registers %s\n", n, c.place.running ? "a run open" : "no run open",
           memcmp(c.registers, paused.registers, sizeof c.registers) ? "CHANGED" : "as they were");
    n = at6000_pick_up_in(&c, mem, MEMORY, saved, sizeof saved);
    printf("pick-up: number %d, %u bytes taken so far\n", n, (unsigned)c.place.taken);
    a = at6000_slice_in(&c, mem, MEMORY, measure + c.place.taken, sizeof measure - c.place.taken);
    printf("the rest: number %d, %u bytes taken, memory %s\n", a.number, (unsigned)a.taken,
           memcmp(unbroken, mem, MEMORY) ? "DIFFERS" : "as unbroken");
    if (memcmp(unbroken, mem, MEMORY))
        return fails("a run that was picked up leaves what an unbroken load leaves");
    return 0;
}
