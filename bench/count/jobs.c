/* The jobs whose instructions are counted, each made once between two marks, after once to warm up; the first does nothing. Prints the
 * addresses of the marks, then the jobs' names in order. Under steps.c, told so by a word, a mark is a signal too. For x86-64. */
#include "at6000.h"

#include <signal.h>
#include <stdio.h>
#include <stdlib.h>
#include <string.h>

enum { BIG = 16381, MOST = 255, HUNTED = 65536, ROOM = 4 * (BIG + 16), EPROM = 131072 };

static int told;

__attribute__((noinline)) static void begin(void)
{
    __asm__ volatile("" ::: "memory");
    if (told)
        raise(SIGUSR1);
}

__attribute__((noinline)) static void end(void)
{
    __asm__ volatile("" ::: "memory");
    if (told)
        raise(SIGUSR2);
}

/* What the next job is lent. */
static at6000_chain c, kept;
static uint8_t mem[4 * BIG], cells[MOST * 40 + BIG], stream[ROOM], out[HUNTED], saved[AT6000_SAVED_LENGTH], number, check;
static const uint8_t kinds[8] = {10, 10, 10, 10}, address[3];
static size_t mem_len, length, windows, data_len;
static uint16_t starts[MOST], ends[MOST], listed[2][MOST];
static uint32_t offsets[MOST];
static uint8_t eprom[EPROM], mode;
static at6000_fetcher fetcher;
static uint32_t lengths[1], figures[AT6000_FIGURES];
static uint8_t numbers[1];
static size_t streams;

/* A chain of devices of kind 10 with nothing in it, and a stream that has so many windows of that length for each. */
static void lay(size_t devices, size_t count, size_t each)
{
    uint8_t *p = stream;

    mem_len = devices * BIG;
    windows = count;
    data_len = count * each;
    memset(mem, 0, sizeof mem);
    for (size_t i = 0; i < data_len; i++)
        cells[i] = (uint8_t)(i * 7 + i / 251);
    for (size_t d = 0; d < devices; d++) {
        const uint8_t *from = cells;
        const uint8_t head[6] = {0xb2, 0, 0, 0, 0, (uint8_t)(255 - count)};

        memcpy(p, head, 6);
        p += 6;
        for (size_t i = 0; i < count; i++) {
            starts[i] = (uint16_t)(i * 64);
            ends[i] = (uint16_t)(starts[i] + each - 1);
            const uint8_t bounds[5] = {0, starts[i] >> 8, starts[i] & 255, ends[i] >> 8, ends[i] & 255};

            memcpy(p, bounds, 5);
            memcpy(p + 5, from, each);
            p += 5 + each;
            from += each;
        }
    }
    *p++ = 0x4d;
    length = (size_t)(p - stream);
    c = at6000_new((uint8_t)devices, kinds, mem, mem_len).chain;
}

/* The windows that were laid for one device, each from `step` cells on after the one before it, or before it where they descend. */
static void move(size_t step, int descend)
{
    uint8_t *p = stream + 6;

    for (size_t i = 0; i < windows; i++) {
        const size_t each = data_len / windows, start = (descend ? windows - 1 - i : i) * step, end = start + each - 1;
        const uint8_t bounds[5] = {0, (uint8_t)(start >> 8), (uint8_t)start, (uint8_t)(end >> 8), (uint8_t)end};

        memcpy(p, bounds, 5);
        p += 5 + each;
    }
}

static void open_run(void)
{
    c = at6000_start(c, mem, mem_len, 1, check).chain;
}

/* A run stopped after so many bytes. */
static void stop(size_t after)
{
    open_run();
    kept = at6000_slice(c, mem, mem_len, stream, after).chain;
    c = kept;
}

static void nothing(void) { number = 0; }
static void start(void) { number = at6000_start_in(&c, mem, mem_len, 1, check); }
static void slice(void) { number = at6000_slice_in(&c, mem, mem_len, stream, length).number; }
static void drop(void) { number = at6000_drop(c, mem, mem_len).number; }
static void save(void) { number = at6000_save(c, mem, mem_len, saved, sizeof saved).number; }
static void pick_up(void) { number = at6000_pick_up_in(&c, mem, mem_len, saved, sizeof saved); }
static void closing(void) { number = at6000_closing(c, mem, mem_len, out, sizeof out).number; }
static void hunt(void) { number = at6000_hunt(stream, HUNTED, out, HUNTED).number; }

static size_t at;
static void byte(void)
{
    at6000_fed f = at6000_byte(c, mem, mem_len, stream[at]);
    c = f.chain;
    number = f.answer.number;
}
static void byte_in(void) { number = at6000_slice_in(&c, mem, mem_len, stream + at, 1).number; }

static void write(void)
{
    number = at6000_write(10, 1, 0, address, starts, windows, ends, windows, cells, data_len, out, sizeof out).number;
}
static void list(void)
{
    number = at6000_list(10, 1, stream, length, listed[0], MOST, listed[1], MOST, offsets, MOST).number;
}

static void tidy(void) { number = at6000_tidy(10, stream, length, out, sizeof out).number; }
static void salvage(void) { number = at6000_salvage(10, stream, length, out, sizeof out).number; }
static void fetch(void)
{
    at6000_fetched r = at6000_fetch(c, fetcher, mem, mem_len, eprom, EPROM, length);
    c = r.chain;
    number = r.answer.number;
}

static void sheet(void)
{
    number = at6000_load_sheet(10, mode, stream, streams ? length : 0, lengths, streams, numbers, 1, figures, AT6000_FIGURES).number;
}

/* Twice, from the same chain: once to warm up, then between the marks. */
static void count(const char *name, void (*job)(void), int wanted)
{
    kept = c;
    job();
    c = kept;
    begin();
    job();
    end();
    if (number != wanted) {
        fprintf(stderr, "%s: number %d, not %d\n", name, number, wanted);
        exit(1);
    }
    c = kept;
    puts(name);
}

static void byte_at(const char *awaited, size_t where)
{
    char name[64];

    stop(where);
    at = where;
    snprintf(name, sizeof name, "byte by value, %s", awaited);
    count(name, byte, AT6000_MORE);
    snprintf(name, sizeof name, "byte in place, %s", awaited);
    count(name, byte_in, AT6000_MORE);
    c = at6000_drop(c, mem, mem_len).chain;
}

static void load(const char *what, size_t devices, size_t n, size_t each)
{
    char name[64];

    lay(devices, n, each);
    open_run();
    snprintf(name, sizeof name, "%s, %s", check ? "check" : "write", what);
    count(name, slice, AT6000_DONE);
}

/* The stream that was laid, in an EPROM from the mode's first counter on. */
static void fetched(const char *what, size_t devices, size_t n, size_t each)
{
    char name[64];

    lay(devices, n, each);
    c = at6000_start(c, mem, mem_len, mode, 0).chain;
    fetcher = at6000_fetcher_new(mode);
    for (size_t i = 0; i < length; i++)
        eprom[mode == 2 ? fetcher.counter - i : fetcher.counter + i] = stream[i];
    snprintf(name, sizeof name, "fetch, %s, mode %d", what, mode);
    count(name, fetch, AT6000_DONE);
}

/* A load sheet of the stream that was laid, in mode 3 from bit 1 on. */
static void sheet_of(const char *what)
{
    char name[64];

    if (mode == 3)
        for (size_t i = length++; i + 1 > 0; i--)
            stream[i] = (uint8_t)(stream[i] << 1 | (i ? stream[i - 1] >> 7 : 0));
    lengths[0] = (uint32_t)length;
    snprintf(name, sizeof name, "sheet, %s, mode %d", what, mode);
    count(name, sheet, AT6000_DONE);
}

static void hunted(const char *name, unsigned p)
{
    const unsigned bits = 0xb2u << p % 8;

    memset(stream, 0x55, sizeof stream);
    memset(stream, 0, 9);
    stream[p / 8] |= (uint8_t)bits;
    stream[p / 8 + 1] |= (uint8_t)(bits >> 8);
    count(name, hunt, AT6000_DONE);
}

int main(int argc, char **argv)
{
    (void)argv;
    told = argc > 1;
    printf("%lx %lx\n", (unsigned long)(uintptr_t)begin, (unsigned long)(uintptr_t)end);
    count("nothing", nothing, 0);
    for (check = 0; check < 2; check++) {
        load("one window of 16,381", 1, 1, BIG);
        load("255 windows of 8", 1, MOST, 8);
        load("255 windows of 40", 1, MOST, 40);
        load("chain of four, whole", 4, 1, BIG);
    }
    check = 0;
    lay(1, MOST, 8);
    count("start", start, AT6000_DONE);
    byte_at("preamble", 0);
    byte_at("control byte", 1);
    byte_at("null byte", 6);
    byte_at("end's low byte", 10);
    byte_at("data byte", 13);
    hunted("hunt of 64 KiB, p = 0", 0);
    hunted("hunt of 64 KiB, p = 5", 5);
    lay(1, 1, BIG);
    count("writer, one window of 16,381", write, AT6000_DONE);
    count("lister, one window of 16,381", list, AT6000_DONE);
    count("tidy, one window of 16,381", tidy, AT6000_DONE);
    stream[5]--; /* two windows announced, and of the second, 9 to 11, one byte of data there */
    memcpy(stream + length - 1, "\0\0\11\0\13\21", 6);
    length += 5;
    count("salvage, 16,381 and a cut one", salvage, AT6000_DONE);
    lay(1, MOST, 40);
    count("writer, 255 windows of 40", write, AT6000_DONE);
    count("lister, 255 windows of 40", list, AT6000_DONE);
    count("tidy, 255 windows of 40 apart", tidy, AT6000_DONE);
    move(64, 1);
    count("tidy, 255 apart, descending", tidy, AT6000_DONE);
    move(20, 0);
    count("tidy, 255 windows of 40 half over", tidy, AT6000_DONE);
    move(20, 1);
    count("tidy, 255 half over, descending", tidy, AT6000_DONE);
    move(64, 0);
    length -= 21; /* 20 bytes of data, and the postamble */
    count("salvage, 255 of 40, the last cut", salvage, AT6000_DONE);
    for (mode = 1; mode <= 2; mode++) {
        fetched("one of 16,381", 1, 1, BIG);
        fetched("chain of four", 4, 1, BIG);
        fetched("255 of 40", 1, MOST, 40);
    }
    mode = 1;
    count("sheet, no stream", sheet, AT6000_DONE);
    streams = 1;
    for (; mode <= 3; mode += 2) {
        lay(1, 1, 3);
        stream[length] = 0;
        sheet_of("one of 3");
        lay(1, 1, BIG);
        stream[length] = 0;
        sheet_of("one of 16,381");
        lay(1, MOST, 40);
        stream[length] = 0;
        sheet_of("255 of 40");
        lay(1, MOST, 40);
        move(20, 0);
        stream[length] = 0;
        sheet_of("255 of 40 half over");
    }
    lay(1, MOST, 8);
    stop(6 + 13 + 4); /* the second window starts at 64, and its end's high byte is there */
    count("closing at 11, 00 alone", closing, AT6000_DONE);
    lay(1, MOST, 8);
    check = 1;
    stop(1);
    check = 0;
    count("closing of a check at 2", closing, AT6000_DONE);
    lay(1, 1, BIG);
    stop(11);
    count("closing of a whole device", closing, AT6000_DONE);
    count("save", save, AT6000_DONE);
    count("drop", drop, AT6000_DONE);
    c = at6000_drop(c, mem, mem_len).chain;
    count("pick-up", pick_up, AT6000_DONE);
    return 0;
}
