/* No shorter way out. From many open places, every awaited byte of a write and of a check on the first device and on the second,
 * the closing bytes are asked for and fed: the run is open before their last byte, ended after it, and every cell and register
 * is as it was. Then every shorter string is tried, over thirteen values: none may end the run so, and none ends it at all. Where
 * the closing bytes are more than six, strings up to three bytes are tried. They are fed byte by byte, depth first, so that a
 * common front is fed once.
 *
 *   shortest          walks them, and says how many
 *   shortest older    walks document 01's bytes from before wish 8, in a check at 2 and at 11, and has to fail */
#include "at6000.h"

#include <stdio.h>
#include <stdlib.h>
#include <string.h>

enum { LARGE = 2665, SMALL = 52, DEVICES = 2, MEMORY = DEVICES * LARGE, ROOM = LARGE + 3, AWAITED = 14, VALUES = 13 };
enum { CONTROL = 2, COUNT = 6, END_LOW = 11 };
enum { WALKED = 6, SOME = 3, ENOUGH = 1500, MOST = 4000 }; /* the most closing bytes that are walked whole, how far others are; places */

/* Of each field the values at its edges. The counts of none, one and 255 windows; preamble, postamble and neither; bits 3 and 4 set
 * and clear; a high byte past the size; around the start 9 the byte before it and the one after; the last three are the low bytes
 * of the device's last two cells and of its size. Memory holds these values alone, and so do the registers: the present value of
 * a cell, and the stored register, are tried too. */
static uint8_t values[VALUES] = {0x00, 0x01, 0x08, 0x09, 0x0a, 0x10, 0x4d, 0xb2, 0xfe, 0xff, 0, 0, 0};

/* A window to stop in: how many are left with it, start, end. One with an end that is refused is stopped in before it. The
 * larger kind is here for its high bytes: at 11 alone it has all three sorts of closing bytes. */
static const struct window { uint8_t kind, left; uint16_t start, end; } windows[] = {
    {0, 1, 9, 11}, {0, 2, 9, 11}, {0, 1, 0, 0}, {0, 2, 0, 1}, {0, 1, 1, 1}, {0, 2, 51, 51}, {0, 2, 0, 51}, {0, 1, 9, 0x0100},
    {0, 2, 0, 0x0100}, {0, 1, 51, 0xff00}, {0, 2, 0x0100, 0},
    {2, 1, 9, 9}, {2, 2, 9, 9}, {2, 1, 0, 0}, {2, 2, 0, 0}, {2, 1, 0x00ff, 0x0100}, {2, 2, 0x00ff, 0x0100},
    {2, 1, 0x0100, 0x0100}, {2, 2, 0x0100, 0x0101}, {2, 1, 0x0101, 0x0101}, {2, 2, 0x0101, 0x0200}, {2, 1, 0x01ff, 0x01ff},
    {2, 1, 0x0101, 0}, {2, 2, 0x0100, 0}, {2, 1, 0x0101, 0x0aff}, {2, 1, 0x0a00, 0x0a00}, {2, 2, 0x0a68, 0x0a68},
    {2, 1, 0x0a68, 0x09ff}, {2, 1, 0x0900, 0x0900}, {2, 2, 0x0901, 0xff00}, {2, 1, 0x0a69, 0},
};

static unsigned size_of(uint8_t kind) { return kind == 2 ? LARGE : SMALL; }

/* The open place that is walked from, with the memory at it; then the chain after each byte of a string. A byte stores in one cell
 * at most, and what it held is put back: so there is one memory for all strings. */
static at6000_chain stopped, level[WALKED];
static uint8_t mem[MEMORY], before[MEMORY], string[WALKED], closing[ROOM], met[2][DEVICES][AWAITED], met_end[2][3];
static size_t mem_len, bytes, walked, in_part, longest, failures, ended[2]; /* by strings that change something, or nothing */
static unsigned long tried;
static int older;

static uint8_t feed(at6000_chain *c, const uint8_t *s, size_t n) { return at6000_slice_in(c, mem, mem_len, s, n).number; }

static int as_it_was(const at6000_chain *c)
{
    return memcmp(mem, before, mem_len) == 0 && memcmp(c->registers, stopped.registers, 8) == 0;
}

static void failed(void)
{
    const at6000_place *p = &stopped.place;

    failures++;
    printf("FAILED: at %d in a %s: ", p->awaited, p->check ? "check" : "write");
    printf("device %d of kind %d, mode %d, left %d, start %04x, end %04x, next %04x, %zu closing bytes: ", p->device,
           stopped.kinds[p->device], p->mode, p->left, p->start, p->end, p->next, bytes);
}

static void holds(int fact, const char *what)
{
    if (fact)
        return;
    failed();
    puts(what);
    exit(1);
}

static void shorter(size_t length, int unchanged)
{
    failed();
    ended[unchanged]++;
    for (size_t i = 0; i < length; i++)
        printf("%02X ", string[i]);
    puts(unchanged ? "is shorter and ends the run with every cell and register as it was"
                   : "is shorter and ends the run, though it changes a cell or a register");
}

/* Every string that goes on from this level, up to a length; the first of them that ends the run is reported. */
static int walk(size_t length, size_t most)
{
    const at6000_chain *now = &level[length];
    uint8_t *cell = mem + now->place.device * size_of(now->kinds[0]) + now->place.next, held = *cell;

    if (length == most || length + 1 == WALKED)
        return 0;
    for (size_t i = 0; i < VALUES; i++) {
        at6000_chain *next = &level[length + 1];

        *next = *now;
        string[length] = values[i];
        tried++;
        if (feed(next, &values[i], 1) != AT6000_MORE) {
            shorter(length + 1, as_it_was(next));
            return 1;
        }
        if (walk(length + 1, most))
            return 1;
        *cell = held;
    }
    return 0;
}

/* Document 01's closing bytes in a check at 2, and at 11 where they were not FF alone, as they stood before wish 8; else none. */
static size_t older_bytes(const at6000_chain *c, const uint8_t *cells)
{
    const at6000_place *p = &c->place;
    const unsigned size = size_of(c->kinds[p->device]), h = p->end >> 8, low = h == p->start >> 8 ? p->start & 255 : 0;
    size_t n = 0;

    if (p->awaited == CONTROL && p->check) {
        memcpy(closing, (const uint8_t[]){c->registers[p->device], 0, 0, 0, 0xff, 0x4d}, 6);
        return 6;
    }
    if (p->awaited != END_LOW || 256 * h + 255 >= size || 256 * h + 255 < p->start)
        return 0;
    closing[n++] = (uint8_t)low;
    for (unsigned at = p->start; at <= 256 * h + low; at++)
        closing[n++] = cells[at];
    if (p->left > 1) {
        memcpy(closing + n, (const uint8_t[]){0, 0xff, 0xff}, 3);
        return n + 3;
    }
    closing[n] = 0x4d;
    return n + 1;
}

/* Each place is met once: its saved bytes tell it from the others of its kind. */
static int seen_before(void)
{
    static struct { uint8_t kind, saved[AT6000_SAVED_LENGTH]; } seen[MOST];
    static size_t count;

    holds(count < MOST, "more places than there is room for");
    seen[count].kind = stopped.kinds[0];
    holds(at6000_save(stopped, mem, mem_len, seen[count].saved, AT6000_SAVED_LENGTH).number == AT6000_DONE, "it is saved");
    for (size_t i = 0; i < count; i++)
        if (memcmp(&seen[i], &seen[count], sizeof *seen) == 0)
            return 1;
    count++;
    return 0;
}

/* The closing bytes of the stopped run, and every shorter string. */
static void stop(void)
{
    const at6000_place *p = &stopped.place;
    const unsigned size = size_of(stopped.kinds[p->device]);
    at6000_chain c = stopped;
    size_t most;

    if (older) {
        bytes = older_bytes(&c, mem + p->device * size);
        if (bytes == 0)
            return;
    } else {
        const at6000_written w = at6000_closing(c, mem, mem_len, closing, size + 3);

        bytes = w.length;
        holds(w.number == AT6000_DONE && bytes > 0, "size + 3 has room");
    }
    tried++;
    holds(feed(&c, closing, 0) == AT6000_MORE && c.place.running, "no byte at all leaves the run open");
    holds(feed(&c, closing, bytes - 1) == AT6000_MORE && c.place.running, "the run is open before their last byte");
    holds(feed(&c, closing + bytes - 1, 1) != AT6000_MORE && !c.place.running, "their last byte ends the run");
    holds(as_it_was(&c), "they change no cell and no register");
    met[p->check][p->device][p->awaited] = 1;
    if (p->awaited == END_LOW)
        met_end[p->check][bytes > 1 ? 2 : closing[0] == 0xff] = 1;
    walked++;
    in_part += bytes > WALKED;
    most = bytes > WALKED ? SOME : bytes - 1;
    if (most > longest)
        longest = most;
    level[0] = stopped;
    if (!walk(0, most))
        holds(memcmp(mem, before, mem_len) == 0, "a byte stores in one cell at most");
    memcpy(mem, before, mem_len);
}

/* Stops at every byte of a run up to and in one window of a device; of the larger kind only from the window on. With `stored` both
 * registers hold a byte before the run, and the stops are those up to the count. */
static void run(const struct window *w, uint8_t mode, uint8_t check, uint8_t device, int stored)
{
    const uint8_t kinds[8] = {w->kind, w->kind}, control = check ? 0x01 : 0x09;
    const uint8_t load[] = {0xb2, control, 0, 0, 0, 0xff, 0xb2, control, 0, 0, 0, 0xff, 0x4d};
    const uint8_t empty[] = {0xb2, 0, 0, 0, 0, 0xff}, head[] = {
        0xb2, 0x01, 0, 0, 0, (uint8_t)(0xff - w->left), 0, (uint8_t)(w->start >> 8), (uint8_t)w->start, (uint8_t)(w->end >> 8),
        (uint8_t)w->end};
    uint8_t s[1 + sizeof empty + sizeof head + SMALL];
    size_t length = 0;
    at6000_chain c;

    mem_len = DEVICES * size_of(w->kind);
    for (unsigned i = 0; i < 3; i++)
        values[VALUES - 1 - i] = (uint8_t)(size_of(w->kind) - i);
    if (mode == 6)
        s[length++] = 0xb2;
    if (device) {
        memcpy(s + length, empty, sizeof empty);
        length += sizeof empty;
    }
    memcpy(s + length, head, sizeof head);
    length += sizeof head;
    for (unsigned at = w->start; at <= w->end && length < sizeof s; at++)
        s[length++] = values[at * 7 % VALUES];
    for (size_t i = 0; i < mem_len; i++)
        mem[i] = values[(i * 5 + 1) % VALUES];
    c = at6000_new(DEVICES, kinds, mem, mem_len).chain;
    if (stored) {
        at6000_start_in(&c, mem, mem_len, 1, 0);
        holds(feed(&c, load, sizeof load) == AT6000_DONE, "the registers are loaded");
    }
    holds(at6000_start_in(&c, mem, mem_len, mode, check) == AT6000_DONE, "a run is open");
    for (size_t n = 0; n <= length; n++) {
        const int in_window = c.place.awaited > COUNT;

        stopped = c;
        memcpy(before, mem, mem_len);
        if (c.place.device == device && (stored ? !in_window : w->kind == 0 || in_window) && !seen_before())
            stop();
        if (n == length || feed(&c, s + n, 1) != AT6000_MORE)
            return;
    }
}

int main(int words, char **word)
{
    older = words > 1 && strcmp(word[1], "older") == 0;
    for (size_t i = 0; i < sizeof windows / sizeof *windows; i++)
        for (uint8_t mode = 1; mode <= 6; mode += 5)
            for (uint8_t check = 0; check < 2; check++)
                for (uint8_t device = 0; device < DEVICES; device++)
                    for (int stored = 0; stored <= (i == 0); stored++)
                        run(&windows[i], mode, check, device, stored);
    printf("%zu open places, %zu of them with more than %d closing bytes; %lu shorter strings tried, the longest of %zu bytes: "
           "%zu end the run and change nothing, %zu end it and change something\n",
           walked, in_part, WALKED, tried, longest, ended[1], ended[0]);
    /* a device after the first awaits no preamble of its own: 2 to 13 there, 0 to 13 on the first */
    for (int check = 0; !older && check < 2; check++)
        for (int device = 0; device < DEVICES; device++)
            for (int awaited = device ? 2 : 0; awaited < AWAITED; awaited++)
                if (!met[check][device][awaited]) {
                    printf("FAILED: never walked at %d of device %d, check %d\n", awaited, device, check);
                    failures++;
                }
    for (int check = 0; !older && check < 2; check++)
        for (int sort = 0; sort < 3; sort++)
            if (!met_end[check][sort]) {
                printf("FAILED: at 11 never walked %s, check %d\n", sort == 2 ? "a window" : sort == 1 ? "FF alone" : "00 alone", check);
                failures++;
            }
    if (!older && walked < ENOUGH) {
        printf("FAILED: fewer than %d places\n", ENOUGH);
        failures++;
    }
    return failures != 0;
}
