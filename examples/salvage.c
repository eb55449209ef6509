/* Salvage of the old disks, on the teaching array: files that break off or carry a bad byte, what each still has of whole windows, and
 * the sound file made of these. With three words, KIND OLD NEW, it reads the file OLD instead, and writes NEW. */
#include "at6000.h"

#include <stdio.h>
#include <stdlib.h>
#include <string.h>

enum { KIND = 0, CELLS = 52, MODE = 1, WRITE = 0, OLD = 0xee, LONGEST = 6 + 255 * (5 + 16381) + 1 };

typedef struct disk { const char *what; uint8_t bytes[24]; size_t length; } disk;

#define HEAD 0xb2, 0x00, 0x00, 0x00, 0x00, 0xfd /* two windows */
#define FIRST 0xa5, 0x00, 9, 0x00, 11, 0x11, 0x22, 0x33
static const disk disks[] = {
    {"sound", {HEAD, FIRST, 0x5a, 0x00, 20, 0x00, 21, 0x44, 0x55, 0x4d}, 22},
    {"cut in its second window", {HEAD, FIRST, 0x5a, 0x00, 20, 0x00, 21, 0x44}, 20},
    {"a bad start", {HEAD, FIRST, 0x5a, 0x80, 20, 0x00, 21, 0x44, 0x55, 0x4d}, 22},
    {"a bad end", {HEAD, FIRST, 0x5a, 0x00, 20, 0x00, 5, 0x44, 0x55, 0x4d}, 22},
    {"a bad check byte", {HEAD, FIRST, 0x5a, 0x00, 20, 0x00, 21, 0x44, 0x55, 0x4f}, 22},
    {"cut in its first window", {HEAD, 0xa5, 0x00, 9}, 9},
    {"cut in its head", {0xb2, 0x00, 0x00}, 3},
};

static uint8_t old[LONGEST], sound[LONGEST + 1]; /* the longest stream that there is, and a byte more */

static void holds(int fact, const char *what)
{
    if (fact)
        return;
    printf("\nFAILED: %s\n", what); /* a line of its own, wherever the last one stopped */
    exit(1);
}

/* The change list in words. */
static void tell(at6000_salvaged r)
{
    static const char *const ends[] = {
        [AT6000_DONE] = "the stream is sound",
        [AT6000_BAD_CHECK_BYTE] = "neither a postamble nor a preamble follows",
        [AT6000_ENDS_HERE] = "another device follows, though the control byte says that none does",
        [AT6000_LAST_DEVICE] = "another device follows",
        [AT6000_BAD_START] = "the next window starts past the array",
        [AT6000_BAD_END] = "the next window ends below its start or past the array",
        [AT6000_MORE] = "the stream breaks off",
    };

    if (r.number != AT6000_DONE)
        printf("  nothing can be kept: number %d\n", r.number);
    else
        printf("  %d of %d windows kept, the bytes before %zu; %s\n", r.kept, r.announced, r.offset, ends[r.end]);
}

/* What a load leaves in an array whose cells are parked. */
static int load(const uint8_t *s, size_t length, uint8_t *mem)
{
    static const uint8_t kinds[8] = {KIND};
    at6000_chain c;

    memset(mem, OLD, CELLS);
    c = at6000_new(1, kinds, mem, CELLS).chain;
    at6000_start_in(&c, mem, CELLS, MODE, WRITE);
    return at6000_slice_in(&c, mem, CELLS, s, length).number;
}

static int files(const char *kind, const char *from, const char *to)
{
    FILE *f = fopen(from, "rb");
    if (f == NULL)
        return perror(from), 2;
    const size_t length = fread(old, 1, sizeof old, f);
    fclose(f);
    const at6000_salvaged r = at6000_salvage((uint8_t)atoi(kind), old, length, sound, sizeof sound);
    tell(r);
    if (r.number != AT6000_DONE)
        return 1;
    f = fopen(to, "wb");
    if (f == NULL || fwrite(sound, 1, r.length, f) != r.length || fclose(f) != 0)
        return perror(to), 2;
    return 0;
}

int main(int argc, char **argv)
{
    uint8_t given[CELLS], left[CELLS];

    if (argc == 4)
        return files(argv[1], argv[2], argv[3]);
    for (size_t i = 0; i < sizeof disks / sizeof *disks; i++) {
        const disk *d = &disks[i];
        const at6000_salvaged r = at6000_salvage(KIND, d->bytes, d->length, sound, d->length + 1);

        printf("%s, %zu bytes:\n", d->what, d->length);
        tell(r);
        if (r.number != AT6000_DONE)
            continue;
        printf("  ");
        for (size_t k = 0; k < r.length; k++)
            printf(" %02X", sound[k]);
        putchar('\n');
        load(d->bytes, r.offset, given);
        holds(load(sound, r.length, left) == AT6000_DONE, "what was salvaged loads whole");
        holds(!memcmp(given, left, CELLS), "it stores the kept windows, and nothing else");
    }
    return 0;
}
