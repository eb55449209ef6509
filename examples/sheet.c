/* The monthly load sheet, on the teaching array: a month of streams as they were sent, a row for each and the sums at the foot; then three
 * on a serial line; then a sheet that is refused. With words, KIND MODE FILES, it reads the files instead, one stream each. */
#include "at6000.h"

#include <stdio.h>
#include <stdlib.h>
#include <string.h>

enum { KIND = 0, MODE = 1, SERIAL = 3, MOST_STREAMS = 65536, MOST_BYTES = 67108864 };

typedef struct load { const char *what; uint8_t bytes[24]; size_t length; } load;

#define HEAD(count) 0xb2, 0x00, 0x00, 0x00, 0x00, 255 - (count)
#define WINDOW(start, end) 0x00, 0x00, start, 0x00, end
#define A HEAD(1), WINDOW(9, 11), 0x11, 0x22, 0x33, 0x4d
static const load month[] = {
    {"2nd, first load", {A}, 15},
    {"5th, patch", {HEAD(1), WINDOW(10, 12), 0x44, 0x33, 0x55, 0x4d}, 15},
    {"9th, windows overlap", {HEAD(2), WINDOW(20, 23), 0xff, 0xff, 0xff, 0xff, WINDOW(22, 23), 0x00, 0x00, 0x4d}, 23},
    {"12th, cable came off", {HEAD(1), WINDOW(30, 33), 0x0f, 0x0f}, 13},
    {"13th, sent again", {HEAD(1), WINDOW(30, 33), 0x0f, 0x0f, 0x0f, 0x0f, 0x4d}, 16},
    {"17th, for another array", {HEAD(1), WINDOW(60, 62), 0x11, 0x22, 0x33, 0x4d}, 15},
    {"20th, not a stream", {0x7f, 'E', 'L', 'F'}, 4},
    {"26th, frozen", {0xb2, 0x10, 0x00, 0x00, 0x00, 0xff, 0x4d}, 7},
    {"29th, too late", {A}, 15},
};
enum { LOADS = sizeof month / sizeof *month };

/* Least significant bit first: A at once, A behind 13 bits that are 0, and a line on which nothing was sent. */
static const load line[] = {
    {"A at bit 0", {A}, 15},
    {"A at bit 13",
     {0x00, 0x40, 0x16, 0x00, 0x00, 0x00, 0xc0, 0x1f, 0x00, 0x20, 0x01, 0x60, 0x21, 0x42, 0x64, 0xa6, 0x09}, 17},
    {"a quiet line", {0xff, 0xff, 0xff}, 3},
};

static void holds(int fact, const char *what)
{
    if (fact)
        return;
    printf("\nFAILED: %s\n", what); /* a line of its own, wherever the last one stopped */
    exit(1);
}

static const char *means(int number)
{
    static const char *const words[] = {
        [AT6000_DONE] = "loaded",
        [AT6000_NO_PREAMBLE] = "no preamble",
        [AT6000_BARRED] = "barred by bit 4 of an earlier one",
        [AT6000_BAD_CHECK_BYTE] = "neither a postamble nor a preamble",
        [AT6000_ENDS_HERE] = "a second device, and bit 2 says none",
        [AT6000_LAST_DEVICE] = "a second device",
        [AT6000_BAD_START] = "a window starts past the array",
        [AT6000_BAD_END] = "a bad end of a window",
        [AT6000_MORE] = "ran out; closed",
    };
    return words[number];
}

/* A row for each stream, and the sums. */
static void print(const char *const *names, const uint8_t *numbers, const uint32_t *figures, size_t count, at6000_sheet sums)
{
    const uint32_t foot[AT6000_FIGURES] = {sums.taken, sums.data, sums.cells, sums.again, sums.bits, sums.edges};

    printf("%-24s %8s %8s %8s %8s %8s %8s  %s\n", "", "bytes", "data", "cells", "again", "bits", "edges", "number");
    for (size_t i = 0; i < count; i++) {
        printf("%-24s", names[i]);
        for (int k = 0; k < AT6000_FIGURES; k++)
            printf(" %8u", (unsigned)figures[AT6000_FIGURES * i + k]);
        printf("  %d, %s\n", numbers[i], means(numbers[i]));
    }
    printf("%-24s", "in all");
    for (int k = 0; k < AT6000_FIGURES; k++) {
        uint32_t sum = 0;

        for (size_t i = 0; i < count; i++)
            sum += figures[AT6000_FIGURES * i + k];
        holds(sum == foot[k], "each sum is its column's");
        printf(" %8u", (unsigned)foot[k]);
    }
    putchar('\n');
}

/* The loads one after another in one slice, with the table of their lengths; `missing` bytes of the last are not there. */
static int sheet(const load *loads, size_t count, uint8_t mode, size_t missing)
{
    uint8_t streams[LOADS * sizeof loads->bytes], numbers[LOADS];
    uint32_t lengths[LOADS], figures[AT6000_FIGURES * LOADS];
    const char *names[LOADS];
    size_t total = 0;

    for (size_t i = 0; i < count; i++) {
        memcpy(streams + total, loads[i].bytes, loads[i].length);
        total += loads[i].length;
        lengths[i] = (uint32_t)loads[i].length;
        names[i] = loads[i].what;
    }
    memset(numbers, 0xee, sizeof numbers);
    const at6000_sheet sums =
        at6000_load_sheet(KIND, mode, streams, total - missing, lengths, count, numbers, LOADS, figures, AT6000_FIGURES * LOADS);
    if (sums.number == AT6000_DONE)
        print(names, numbers, figures, count, sums);
    else
        holds(numbers[0] == 0xee && sums.edges == 0, "a refused sheet leaves the tables, and sums of 0");
    return sums.number;
}

static int files(int count, char **words)
{
    const size_t streams = (size_t)count - 2;
    uint8_t *bytes = malloc(MOST_BYTES + 1), *numbers = malloc(MOST_STREAMS);
    uint32_t *lengths = malloc(4 * MOST_STREAMS), *figures = malloc(4 * AT6000_FIGURES * MOST_STREAMS);
    size_t total = 0;

    if (bytes == NULL || numbers == NULL || lengths == NULL || figures == NULL || streams > MOST_STREAMS)
        return fprintf(stderr, "too much\n"), 2;
    for (size_t i = 0; i < streams; i++) {
        FILE *f = fopen(words[2 + i], "rb");

        if (f == NULL)
            return perror(words[2 + i]), 2;
        lengths[i] = (uint32_t)fread(bytes + total, 1, MOST_BYTES + 1 - total, f);
        total += lengths[i];
        fclose(f);
    }
    const at6000_sheet sums = at6000_load_sheet((uint8_t)atoi(words[0]), (uint8_t)atoi(words[1]), bytes, total, lengths, streams, numbers,
                                                streams, figures, AT6000_FIGURES * streams);
    if (sums.number != AT6000_DONE)
        return printf("refused: number %d\n", sums.number), 1;
    print((const char *const *)words + 2, numbers, figures, streams, sums);
    return 0;
}

int main(int argc, char **argv)
{
    if (argc > 3)
        return files(argc - 1, argv + 1);
    puts("the month, mode 1:");
    holds(sheet(month, LOADS, MODE, 0) == AT6000_DONE, "the month has its sheet");
    puts("\na serial line, mode 3:");
    holds(sheet(line, 3, SERIAL, 0) == AT6000_DONE, "the line has its sheet");
    printf("\na byte of the month is lost: number %d\n", sheet(month, LOADS, MODE, 1));
    return 0;
}
