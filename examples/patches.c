/* Patches, as method writers stack them, on the teaching array. Two that share no cell may be loaded in either order; of two that
 * overlap the later one wins, so the order matters; and two can be joined into one stream that leaves what they leave one after the
 * other. Last, what cannot be joined. */
#include "at6000.h"
#include "join.h"

#include <stdio.h>
#include <stdlib.h>
#include <string.h>

enum { KIND = 0, CELLS = 52, OLD = 0xee, WRITE = 0, MODE = 1 };

/* Where a cell's value came from can be told: S's data are 50 to 5F, T's 70 to 7F. */
static const uint8_t apart_s[] = {
    0xb2, 0x00, 0x00, 0x00, 0x00, 0xfd,
    0x00, 0x00, 4, 0x00, 9, 0x50, 0x51, 0x52, 0x53, 0x54, 0x55,
    0x00, 0x00, 8, 0x00, 11, 0x56, 0x57, 0x58, 0x59, /* cells 8 and 9 once more */
    0x4d,
};
static const uint8_t apart_t[] = {
    0xb2, 0xb2, 0x00, 0x00, 0x00, 0x00, 0xfd,
    0xa5, 0x00, 20, 0x00, 24, 0x70, 0x71, 0x72, 0x73, 0x74, /* a null byte may have any value */
    0x3c, 0x00, 0, 0x00, 1, 0x75, 0x76,
    0x4d,
};
static const uint8_t over_s[] = {
    0xb2, 0xb2, 0x00, 0x78, 0x56, 0x00, 0xfd,
    0x00, 0x00, 10, 0x00, 17, 0x50, 0x51, 0x52, 0x53, 0x54, 0x55, 0x56, 0x57,
    0x00, 0x00, 40, 0x00, 45, 0x58, 0x59, 0x5a, 0x5b, 0x5c, 0x5d,
    0x4d,
};
static const uint8_t over_t[] = {
    0xb2, 0x04, 0x34, 0x12, 0x00, 0xfd,
    0xa5, 0x00, 14, 0x00, 25, 0x70, 0x71, 0x72, 0x73, 0x74, 0x75, 0x76, 0x77, 0x78, 0x79, 0x7a, 0x7b,
    0xa5, 0x00, 44, 0x00, 44, 0x7c,
    0x4d,
};
static const uint8_t bit_4[] = {0xb2, 0x10, 0x00, 0x00, 0x00, 0xff, 0x4d}; /* no window; its control byte sets bit 4 */

static const patch s = {6, over_s, sizeof over_s}, t = {5, over_t, sizeof over_t}, locks = {1, bit_4, sizeof bit_4};

/* MANY windows of one cell take 6 bytes each, and the rest of their stream 7. */
enum { MANY = 128, LONG = 7 + 6 * MANY, ROOM = 2 * LONG, MARK = 0xaa };

/* large, so not on the stack */
static struct array { at6000_chain chain; uint8_t mem[CELLS]; } st, ts, joined;
static join_tables tables;
static uint8_t data[ROOM], out[ROOM], hunted[ROOM];

static void holds(int fact, const char *what)
{
    if (fact)
        return;
    printf("\nFAILED: %s\n", what); /* a line of its own, wherever the last one stopped */
    exit(1);
}

/* A new array: its register is zero, its cells are parked. */
static void park(struct array *a)
{
    static const uint8_t kinds[8] = {KIND};

    memset(a->mem, OLD, CELLS);
    a->chain = at6000_new(1, kinds, a->mem, CELLS).chain;
}

static uint8_t load(struct array *a, patch p)
{
    const uint8_t number = at6000_start_in(&a->chain, a->mem, CELLS, p.mode, WRITE);

    return number ? number : at6000_slice_in(&a->chain, a->mem, CELLS, p.bytes, p.length).number;
}

static void stack(struct array *a, patch first, patch second)
{
    park(a);
    holds(load(a, first) == AT6000_DONE && load(a, second) == AT6000_DONE, "both load whole");
}

/* One letter a cell: '.' holds its old value, 's' one of S's, 't' one of T's. */
static void picture(const char *name, const struct array *a)
{
    printf("  %s  ", name);
    for (int i = 0; i < CELLS; i++)
        putchar(a->mem[i] == OLD ? '.' : a->mem[i] >> 4 == 5 ? 's' : a->mem[i] >> 4 == 7 ? 't' : '?');
    putchar('\n');
}

static int list(patch p)
{
    const at6000_listed l = at6000_list(KIND, p.mode, p.bytes, p.length, tables.starts, 255, tables.ends, 255, tables.offsets, 255);

    holds(l.number == AT6000_DONE, "the stream is sound");
    return l.windows;
}

/* Prints the windows of a patch, and marks their cells with a bit. */
static void windows(const char *name, patch p, uint8_t *marks, uint8_t bit)
{
    const int n = list(p);

    printf("  %s, mode %d:", name, p.mode);
    for (int i = 0; i < n; i++) {
        printf(" %d..%d", tables.starts[i], tables.ends[i]);
        for (int cell = tables.starts[i]; cell <= tables.ends[i]; cell++)
            marks[cell] |= bit;
    }
    putchar('\n');
}

/* Both orders, in pictures, and the cells that are in a window of both. In these the memories differ, since no byte of S's data is
 * one of T's, and in no other. */
static void both_orders(patch one, patch other)
{
    uint8_t marks[CELLS] = {0};
    int shared = 0;

    windows("S", one, marks, 1);
    windows("T", other, marks, 2);
    stack(&st, one, other);
    stack(&ts, other, one);
    printf("  cells of both:");
    for (int i = 0; i < CELLS; i++) {
        if (marks[i] == 3)
            printf(" %d", i), shared++;
        holds((marks[i] == 3) == (st.mem[i] != ts.mem[i]), "the two orders differ in the cells of both, and in no other");
        holds((marks[i] == 0) == (st.mem[i] == OLD), "the cells in no window hold their old values, and no other");
    }
    puts(shared ? "" : " none");
    picture("S then T", &st);
    picture("T then S", &ts);
}

/* What was written, as the array is fed with it: in modes 3 and 4 its hunted bytes. */
static patch written(uint8_t mode, size_t length)
{
    patch p = {mode, out, length};

    if (mode == 3 || mode == 4) {
        p.bytes = hunted;
        p.length = at6000_hunt(out, length, hunted, sizeof hunted).length;
    }
    return p;
}

/* Joins, with as much room as is always enough; what is written loads, and leaves what the two leave one after the other. */
static at6000_written join(patch one, patch other, uint8_t mode)
{
    const size_t room = one.length + other.length;

    memset(out, MARK, ROOM);
    const at6000_written w = join_patches(KIND, one, other, mode, &tables, data, room, out, room);

    for (size_t i = w.length; i < ROOM; i++)
        holds(out[i] == MARK, "only the bytes that are answered are written");
    if (w.number == AT6000_DONE) {
        stack(&st, one, other);
        park(&joined);
        holds(load(&joined, written(mode, w.length)) == AT6000_DONE, "the joined stream loads whole");
        holds(memcmp(joined.mem, st.mem, CELLS) == 0, "it leaves the memory that S then T leave");
        holds(joined.chain.registers[0] == st.chain.registers[0], "it leaves the register that S then T leave");
    }
    return w;
}

/* The joined stream with its listing: the head, a line for each window, the postamble. */
static void print_joined(size_t length)
{
    const int n = list(written(MODE, length));
    int i = 0;

    printf("  start  end\n             ");
    for (size_t at = 0; at < length; at++) {
        if (i < n && at + 5 == tables.offsets[i]) { /* null byte, start and end stand before the data */
            printf("\n  %5d %4d ", tables.starts[i], tables.ends[i]);
            i++;
        } else if (at + 1 == length) {
            printf("\n             ");
        }
        printf(" %02X", out[at]);
    }
    putchar('\n');
}

/* A patch of n windows of one cell each. */
static patch many(size_t n, uint8_t *room, uint8_t value)
{
    static const uint8_t address[3];
    static uint16_t cells[MANY];

    for (size_t i = 0; i < n; i++)
        cells[i] = (uint16_t)(i % CELLS);
    memset(data, value, n);
    return (patch){MODE, room, at6000_write(KIND, MODE, 0, address, cells, n, cells, n, data, n, room, LONG).length};
}

static void refuses(const char *what, patch one, patch other, uint8_t number)
{
    const at6000_written w = join(one, other, MODE);

    holds(w.number == number && w.length == 0, what);
    printf("  %s: number %d, nothing written\n", what, w.number);
}

int main(void)
{
    static uint8_t long_s[LONG], long_t[LONG];
    at6000_written w;

    puts("two patches that share no cell");
    both_orders((patch){1, apart_s, sizeof apart_s}, (patch){6, apart_t, sizeof apart_t});
    holds(memcmp(st.mem, ts.mem, CELLS) == 0, "the same memory");
    puts("  the same memory\n\ntwo that overlap");
    both_orders(s, t);
    holds(memcmp(st.mem, ts.mem, CELLS) != 0, "the order matters");
    puts("  the order matters\n\nthese two joined: S's windows, then T's");
    w = join(s, t, MODE);
    printf("  number %d, %u bytes\n", w.number, (unsigned)w.length);
    holds(w.number == AT6000_DONE, "they can be joined");
    print_joined(w.length);
    picture("joined  ", &joined);
    printf("  memory as S then T, and register too: %02X\n", joined.chain.registers[0]);
    w = join(s, t, 4);
    printf("  written for mode 4 and hunted: number %d, %u bytes, as S then T\n", w.number, (unsigned)w.length);
    holds(w.number == AT6000_DONE, "they can be joined for a serial board");

    puts("\nwhat is refused");
    refuses("128 windows and 128", many(MANY, long_s, 0x50), many(MANY, long_t, 0x70), AT6000_BAD_TABLES);
    w = join(many(MANY, long_s, 0x50), many(MANY - 1, long_t, 0x70), MODE);
    holds(w.number == AT6000_DONE, "255 windows can be joined");
    printf("  but 128 and 127 are joined: number %d, %u bytes\n", w.number, (unsigned)w.length);
    refuses("S cut before its postamble", (patch){s.mode, s.bytes, s.length - 1}, t, AT6000_MORE);
    refuses("T cut before its postamble", s, (patch){t.mode, t.bytes, t.length - 1}, AT6000_MORE);
    holds(join_patches(KIND, s, t, MODE, &tables, data, 27, out, ROOM).number == AT6000_DONE, "room for the data is enough");
    holds(join_patches(KIND, s, t, MODE, &tables, data, 26, out, ROOM).number == AT6000_TOO_SHORT, "a byte less is not");
    puts("  room for 26 of the 27 data bytes: number 15");
    park(&st);
    holds(load(&st, locks) == AT6000_DONE && load(&st, t) == AT6000_BARRED, "bit 4 bars what comes after its own stream");
    puts("  S sets bit 4: S loads with number 0, T after it with 6");
    refuses("S sets bit 4, joined", locks, t, AT6000_BARRED);
    w = join(s, locks, MODE);
    holds(w.number == AT6000_DONE, "the last one may set bit 4");
    printf("  but T may: number %d, %u bytes, as S then T\n", w.number, (unsigned)w.length);
    return 0;
}
