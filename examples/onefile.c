/* One file for one meaning, on the teaching array. Three people wrote one patch with different windows; tidied, their files are equal
 * byte for byte, and the file of a fourth, who got one cell wrong, is not. Last, a file that breaks off. */
#include "at6000.h"

#include <stdio.h>
#include <stdlib.h>
#include <string.h>

enum { KIND = 0, CELLS = 52, MODE = 1, WRITE = 0, OLD = 0xee, ROOM = 64, MOST = 255, MARK = 0xaa };

typedef struct file { const char *who; const uint8_t *bytes; size_t length; } file;

/* cells 9 to 14 are to hold 11 22 33 44 55 66 */
static const uint8_t two_windows[] = {
    0xb2, 0x00, 0x00, 0x00, 0x00, 0xfd,
    0x00, 0x00, 9, 0x00, 11, 0x11, 0x22, 0x33,
    0x00, 0x00, 12, 0x00, 14, 0x44, 0x55, 0x66,
    0x4d,
};
static const uint8_t descending[] = {
    0xb2, 0x00, 0x00, 0x00, 0x00, 0xfc,
    0xa5, 0x00, 14, 0x00, 14, 0x66, /* a null byte may have any value */
    0x5a, 0x00, 11, 0x00, 13, 0x33, 0x44, 0x55,
    0x3c, 0x00, 9, 0x00, 10, 0x11, 0x22,
    0x4d, 0xff, 0xff, /* whatever follows the postamble */
};
static const uint8_t repaired[] = {
    0xb2, 0x00, 0x00, 0x00, 0x00, 0xfd,
    0x00, 0x00, 9, 0x00, 14, 0x11, 0x22, 0x00, 0x00, 0x55, 0x66,
    0x00, 0x00, 11, 0x00, 12, 0x33, 0x44, /* over two cells of the first window */
    0x4d,
};
static const uint8_t half_repaired[] = {
    0xb2, 0x00, 0x00, 0x00, 0x00, 0xfd,
    0x00, 0x00, 9, 0x00, 14, 0x11, 0x22, 0x00, 0x00, 0x55, 0x66,
    0x00, 0x00, 11, 0x00, 11, 0x33,
    0x4d,
};
static const file files[] = {
    {"Anna", two_windows, sizeof two_windows},
    {"Ben", descending, sizeof descending},
    {"Carla", repaired, sizeof repaired},
    {"Dora", half_repaired, sizeof half_repaired},
};

static uint16_t starts[MOST], ends[MOST];
static uint32_t offsets[MOST];

static void holds(int fact, const char *what)
{
    if (fact)
        return;
    printf("\nFAILED: %s\n", what); /* a line of its own, wherever the last one stopped */
    exit(1);
}

static void windows(const char *name, file f)
{
    const at6000_listed l = at6000_list(KIND, MODE, f.bytes, f.length, starts, MOST, ends, MOST, offsets, MOST);

    holds(l.number == AT6000_DONE, "the stream is sound");
    printf("  %-6s %2u bytes:", name, (unsigned)l.taken);
    for (int i = 0; i < l.windows; i++)
        printf(" %d..%d", starts[i], ends[i]);
    putchar('\n');
}

/* A file loaded into an array whose cells are parked. */
static void load(file f, uint8_t *mem)
{
    static const uint8_t kinds[8] = {KIND};
    at6000_chain c;

    memset(mem, OLD, CELLS);
    c = at6000_new(1, kinds, mem, CELLS).chain;
    at6000_start_in(&c, mem, CELLS, MODE, WRITE);
    holds(at6000_slice_in(&c, mem, CELLS, f.bytes, f.length).number == AT6000_DONE, "the stream loads whole");
}

static file tidied(file f, uint8_t *out)
{
    const at6000_written w = at6000_tidy(KIND, f.bytes, f.length, out, ROOM);

    holds(w.number == AT6000_DONE && w.length <= f.length, "an output as long as the file has room");
    return (file){f.who, out, w.length};
}

int main(void)
{
    uint8_t first[ROOM], out[ROOM], again[ROOM], given[CELLS], left[CELLS];
    const file anna = tidied(files[0], first);

    printf("One patch, as four people wrote it:\n");
    for (size_t i = 0; i < sizeof files / sizeof *files; i++)
        windows(files[i].who, files[i]);

    printf("tidied:\n");
    for (size_t i = 0; i < sizeof files / sizeof *files; i++) {
        const file f = tidied(files[i], out);

        windows(f.who, f);
        load(files[i], given);
        load(f, left);
        holds(!memcmp(given, left, CELLS), "a tidied file loads as it did before");
        holds(tidied(f, again).length == f.length && !memcmp(again, out, f.length), "tidying twice changes nothing");
        printf("        ");
        for (size_t k = 0; k < f.length; k++)
            printf(" %02X", f.bytes[k]);
        printf("  %s\n", f.length == anna.length && !memcmp(f.bytes, anna.bytes, f.length) ? "Anna's file" : "another file");
    }

    memset(out, MARK, ROOM);
    at6000_written w = at6000_tidy(KIND, two_windows, sizeof two_windows - 1, out, ROOM);
    holds(w.number == AT6000_MORE && w.length == 0 && out[0] == MARK, "what breaks off is refused, and nothing is written");
    printf("A file that breaks off before its postamble: number %d, nothing written\n", w.number);
    return 0;
}
