/* How much stack each call of the archive uses, the most over its states: one line a call. A call runs on a painted stack of its
 * own, and the deepest byte that is paint no more tells how far down it went. An empty call in the same place is taken off: the
 * return address and the arguments on the stack are not counted. For x86-64, as the archive is. */
#include "at6000.h"
#include "on.h"

#include <stdio.h>
#include <stdlib.h>
#include <string.h>

enum { ROOM = 4096, LARGE = 65536, BIG = 16381, HEAD = 11, LENGTH = HEAD + BIG + 1, EPROM = 131072, ANY = -1 };

/* The empty call; a large struct is returned through its address, which comes in rdi and must leave in rax. */
void nothing(void);
__asm__(".text\n"
        "nothing: movq %rdi, %rax\n ret\n");

/* What the next call is lent: a device, and a stream of one window over the whole of it. A call in place is lent a copy of the
 * chain, so that it can be made again. */
static at6000_chain c, copy;
static uint8_t mem[BIG], out[LENGTH], saved[AT6000_SAVED_LENGTH], kind = 10, mode = 1, check, b, number;
static uint8_t stream[LENGTH + 1] = {0xb2, 0, 0, 0, 0, 0xfe, 0, 0, 0, (BIG - 1) >> 8, (BIG - 1) & 255, [LENGTH - 1] = 0x4d};
static const uint8_t *s = stream, address[3];
static size_t mem_len = BIG, s_len = LENGTH, out_len = LENGTH, tables = 1;
static uint16_t starts[1] = {0}, ends[1] = {BIG - 1}, listed[2];
static uint32_t offset;

/* The same stream in an EPROM, what fetches it, and how many bytes. */
static uint8_t eprom[EPROM];
static at6000_fetcher f;
static size_t eprom_len = EPROM, wanted_bytes;

/* A stream of as many windows as there can be, descending: they overlap, or stand apart, as the step says. */
enum { MOST = 255, EACH = 40, MANY = 6 + MOST * (5 + EACH) + 1 };
static uint8_t many[MANY] = {0xb2, 0, 0, 0, 0, 255 - MOST, [MANY - 1] = 0x4d};
static void lay_many(int step)
{
    for (int i = 0; i < MOST; i++) {
        const int start = (MOST - 1 - i) * step, end = start + EACH - 1;
        uint8_t *p = many + 6 + i * (5 + EACH);

        p[1] = (uint8_t)(start >> 8), p[2] = (uint8_t)start, p[3] = (uint8_t)(end >> 8), p[4] = (uint8_t)end;
    }
}

/* Streams for a load sheet, one after another, as a mode has them. */
enum { STREAMS = 4 };
static uint8_t month[2 * (LENGTH + 16) + 2 * (MANY + 16)], numbers[STREAMS];
static size_t month_len, lengths_len, numbers_len = STREAMS, figures_len = AT6000_FIGURES * STREAMS;
static uint32_t lengths[STREAMS], figures[AT6000_FIGURES * STREAMS];

/* Every call goes through this pointer: the empty one then has the same caller and the same arguments. */
static void (*volatile called)(void);

/* A call has so much room that it cannot fill it. */
struct call { const char *name; void (*real)(void), (*make)(void); size_t room, most; };
#define CALL(name, part, arguments) CALL_IN(ROOM, name, part, arguments)
#define CALL_IN(room, name, part, arguments) \
    static void make_##name(void) { number = ((__typeof__(&at6000_##name))called) arguments part; } \
    static struct call a_##name = {"at6000_" #name, (void (*)(void))at6000_##name, make_##name, room, 0};
CALL(new, .number, (c.count, c.kinds, mem, mem_len))
CALL(reset, .number, (c, mem, mem_len))
CALL(start, .number, (c, mem, mem_len, mode, check))
CALL(start_in, , (&copy, mem, mem_len, mode, check))
CALL(slice, .answer.number, (c, mem, mem_len, s, s_len))
CALL(slice_in, .number, (&copy, mem, mem_len, s, s_len))
CALL(byte, .answer.number, (c, mem, mem_len, b))
CALL(closing, .number, (c, mem, mem_len, out, out_len))
CALL(save, .number, (c, mem, mem_len, out, out_len))
CALL(drop, .number, (c, mem, mem_len))
CALL(pick_up, .number, (c, mem, mem_len, saved, sizeof saved))
CALL(pick_up_in, , (&copy, mem, mem_len, saved, sizeof saved))
CALL(hunt, .number, (s, s_len, out, out_len))
CALL(write, .number, (kind, mode, 0, address, starts, tables, ends, tables, mem, BIG, out, out_len))
CALL(list, .number, (kind, mode, s, s_len, listed, 1, listed + 1, 1, &offset, tables))
CALL(tidy, .number, (kind, s, s_len, out, out_len))
CALL(salvage, .number, (kind, s, s_len, out, out_len))
CALL(fetcher_new, .nulled, (mode))
CALL(fetch, .answer.number, (c, f, mem, mem_len, eprom, eprom_len, wanted_bytes))
CALL_IN(LARGE, load_sheet, .number, (kind, mode, month, month_len, lengths, lengths_len, numbers, numbers_len, figures, figures_len))
#define ON_A_CHAIN \
    &a_start, &a_start_in, &a_slice, &a_slice_in, &a_byte, &a_closing, &a_save, &a_drop, &a_pick_up, &a_pick_up_in

static size_t deepest(const struct call *a, void (*f)(void))
{
    static _Alignas(16) uint8_t room[LARGE];
    size_t most = 0;

    /* two paints: a byte that is written with the value of the one is seen with the other */
    for (int i = 0; i < 2; i++) {
        const uint8_t paint = i == 0 ? 0x5a : 0xa5;
        size_t low = 0;

        memset(room, paint, a->room);
        copy = c;
        called = f;
        on(a->make, room + a->room);
        while (low < a->room && room[low] == paint)
            low++;
        if (a->room - low > most)
            most = a->room - low;
    }
    return most;
}

/* Measures these calls in the state at hand, and holds each to its number: the state is then the one that is meant. */
#define GIVES(wanted, ...) gives(wanted, (struct call *[]){__VA_ARGS__, NULL})
static void gives(int wanted, struct call **calls)
{
    for (struct call *a; (a = *calls) != NULL; calls++) {
        /* first on the common stack: where a call uses a library function, the loader may look it up then, on the caller's stack */
        copy = c;
        called = a->real;
        a->make();
        const size_t empty = deepest(a, nothing), whole = deepest(a, a->real);
        if (whole == a->room || (wanted != ANY && number != wanted)) {
            printf("FAILED: %s gives %d, wanted %d, with %zu bytes of stack\n", a->name, number, wanted, whole);
            exit(1);
        }
        if (whole - empty > a->most)
            a->most = whole - empty;
    }
}

/* The stream stopped after n bytes: the rest of it in one slice, one byte more, a byte that some places refuse, and all else. */
static void stop(size_t n)
{
    static const at6000_chain fresh = {.count = 1, .kinds = {10}};
    const int open = n < LENGTH, done = open ? AT6000_DONE : AT6000_NO_RUN;

    c = fresh;
    at6000_start_in(&c, mem, mem_len, mode, check);
    at6000_slice_in(&c, mem, mem_len, stream, n);
    at6000_save(c, mem, mem_len, saved, sizeof saved);
    s = stream + n, s_len = LENGTH - n;
    GIVES(done, &a_slice, &a_slice_in, &a_closing, &a_save, &a_drop);
    s_len = 1, b = *s;
    GIVES(n + 1 < LENGTH ? AT6000_MORE : done, &a_slice, &a_slice_in, &a_byte);
    b = 0xff;
    GIVES(ANY, &a_byte);
    GIVES(AT6000_DONE, &a_new, &a_reset);
    GIVES(open ? AT6000_RUN_OPEN : AT6000_DONE, &a_start, &a_start_in);
    if (open) {
        GIVES(AT6000_RUN_OPEN, &a_pick_up, &a_pick_up_in);
        out_len = 0;
        GIVES(AT6000_TOO_SHORT, &a_closing, &a_save);
        out_len = LENGTH;
        c.place.awaited = 14; /* there is no such byte */
        GIVES(AT6000_ILL_FORMED, ON_A_CHAIN);
        c = fresh;
        GIVES(AT6000_DONE, &a_pick_up, &a_pick_up_in);
    }
    mem_len--;
    GIVES(AT6000_BAD_CHAIN, &a_new, &a_reset, ON_A_CHAIN);
    mem_len++;
}

/* Where a byte of the stream lies that begins at this counter; it wraps past either end. */
static uint32_t lies(uint32_t first, size_t i) { return (uint32_t)(mode == 2 ? first - i : first + i) & (EPROM - 1); }

/* The stream fetched from this counter on and stopped after n bytes: the rest of it, one byte more, none, one past the EPROM; and what is
 * refused. With bit 1 of the control byte the counter takes the address where it would be anyway, or one that is too high. */
static void boot(uint32_t first, size_t n, int jump, int astray)
{
    static const at6000_chain fresh = {.count = 1, .kinds = {10}};
    const int open = n < LENGTH;
    const uint32_t to = astray ? EPROM : lies(first, 7);

    for (size_t i = 0; i < LENGTH; i++)
        eprom[lies(first, i)] = stream[i];
    if (jump) {
        const uint8_t section[] = {0x02, (uint8_t)to, (uint8_t)(to >> 8), (uint8_t)(to >> 16)};
        for (size_t i = 0; i < sizeof section; i++)
            eprom[lies(first, 1 + i)] = section[i];
    }
    c = fresh;
    at6000_start_in(&c, mem, mem_len, mode, check);
    f = at6000_fetcher_new(mode);
    f.counter = first;
    const at6000_fetched stopped = at6000_fetch(c, f, mem, mem_len, eprom, EPROM, n);
    c = stopped.chain, f = stopped.fetcher;
    wanted_bytes = LENGTH;
    GIVES(!open ? AT6000_NO_RUN : astray && n < 7 ? AT6000_BAD_JUMP : AT6000_DONE, &a_fetch);
    wanted_bytes = 1;
    GIVES(ANY, &a_fetch);
    eprom_len = 0;
    GIVES(open ? AT6000_PAST_EPROM : AT6000_NO_RUN, &a_fetch);
    wanted_bytes = 0;
    GIVES(open ? AT6000_MORE : AT6000_NO_RUN, &a_fetch);
    eprom_len = EPROM;
    f.counter = EPROM;
    GIVES(AT6000_ILL_FORMED, &a_fetch);
    mem_len--;
    GIVES(AT6000_BAD_CHAIN, &a_fetch);
    mem_len++;
}

/* In a mode: from its own first counter, and from one that wraps within the window; at each byte as far as the window's second, and at the
 * last ones. */
static void boots(void)
{
    const uint32_t own = at6000_fetcher_new(mode).counter, round = mode == 2 ? 5000 : EPROM - 5000;

    GIVES(AT6000_DONE, &a_fetcher_new);
    for (check = 0; check < 2; check++)
        for (int jump = 0; jump < 2; jump++)
            for (size_t n = 0; n <= LENGTH; n = n == HEAD + 1 ? HEAD + BIG - 1 : n + 1) {
                boot(own, n, jump, 0);
                boot(round, n, jump, 0);
            }
    check = 0;
    for (size_t n = 0; n < 7; n++)
        boot(own, n, 1, 1);
}

/* A stream of mode 1 behind those that are in the month, as the mode has it: in mode 6 with a second preamble, in 3 and 4 from bit p on. */
static void append(const uint8_t *bytes, size_t n, unsigned p)
{
    uint8_t *to = month + month_len;
    size_t length = n;

    if (mode == 6)
        *to++ = 0xb2, month_len++;
    if (p > 0) {
        length++;
        for (size_t i = 0; i < length; i++)
            to[i] = (uint8_t)((i < n ? bytes[i] << p : 0) | (i > 0 ? bytes[i - 1] >> (8 - p) : 0));
    } else
        memcpy(to, bytes, n);
    month_len += length;
    lengths[lengths_len++] = (uint32_t)(length + (mode == 6));
}

/* Whole, stopped, with windows that overlap and in order; and what is refused. */
static void sheets(unsigned p)
{
    month_len = lengths_len = 0;
    GIVES(AT6000_DONE, &a_load_sheet);
    append(stream, LENGTH, p);
    GIVES(AT6000_DONE, &a_load_sheet);
    lay_many(EACH / 2);
    append(many, MANY, p);
    GIVES(AT6000_DONE, &a_load_sheet);
    lay_many(EACH + 2);
    append(many, MANY, p);
    append(stream, LENGTH / 2, p);
    GIVES(AT6000_DONE, &a_load_sheet);
    figures_len--;
    GIVES(AT6000_TOO_SHORT, &a_load_sheet);
    figures_len++, mode += 6;
    GIVES(AT6000_BAD_MODE, &a_load_sheet);
    kind++;
    GIVES(AT6000_BAD_CHAIN, &a_load_sheet);
    kind--, mode -= 6, month_len--;
    GIVES(AT6000_BAD_LENGTHS, &a_load_sheet);
}

int main(void)
{
    const struct call *all[] = {&a_new, &a_reset, ON_A_CHAIN, &a_hunt, &a_write, &a_list, &a_tidy, &a_salvage, &a_fetcher_new, &a_fetch,
                                &a_load_sheet};

    /* within the window, the places between its second byte and its last are alike */
    for (check = 0; check < 2; check++)
        for (size_t n = 0; n <= LENGTH; n = n == HEAD + 1 ? HEAD + BIG - 1 : n + 1)
            stop(n);
    mode = 5, boots();
    mode = 2, boots();
    mode = 1, boots();
    c = at6000_start((at6000_chain){.count = 1, .kinds = {10}}, mem, mem_len, 6, 0).chain, f.counter = 0;
    GIVES(AT6000_BAD_MODE, &a_fetch);
    for (mode = 1; mode <= 6; mode++)
        sheets(0);
    mode = 3, sheets(5);
    mode = 1;
    s = stream, s_len = LENGTH;
    GIVES(AT6000_DONE, &a_hunt, &a_write, &a_list, &a_tidy, &a_salvage);
    tables = out_len = 0;
    GIVES(AT6000_TOO_SHORT, &a_hunt, &a_list, &a_tidy, &a_salvage);
    GIVES(AT6000_BAD_DATA, &a_write);
    tables = 1, out_len = LENGTH - 1;
    GIVES(AT6000_TOO_SHORT, &a_hunt, &a_write, &a_tidy, &a_salvage);
    s_len--;
    GIVES(AT6000_MORE, &a_list, &a_tidy);
    GIVES(AT6000_TOO_SHORT, &a_salvage); /* its window is whole, and 4D is not there */
    s_len--;
    GIVES(AT6000_DONE, &a_salvage); /* no window is */
    s_len++;
    stream[0] = 0xb2 << 5 & 255, stream[1] = 0xb2 >> 3; /* the preamble at bit 5 */
    GIVES(AT6000_DONE, &a_hunt);
    GIVES(AT6000_NO_PREAMBLE, &a_list, &a_tidy, &a_salvage);
    s++;
    GIVES(AT6000_NO_PREAMBLE, &a_hunt, &a_list, &a_tidy);
    ends[0]++;
    GIVES(AT6000_BAD_END, &a_write);
    mode = 7;
    GIVES(AT6000_BAD_MODE, &a_write, &a_list);
    s = many, s_len = MANY;
    lay_many(EACH / 2);
    GIVES(AT6000_DONE, &a_tidy);
    lay_many(EACH + 2);
    GIVES(AT6000_DONE, &a_tidy, &a_salvage);
    many[MANY - 1] = 0; /* a bad check byte */
    GIVES(AT6000_DONE, &a_salvage);
    s_len = MANY - 2; /* the last window is cut */
    GIVES(AT6000_DONE, &a_salvage);
    many[MANY - 1 - EACH - 2] = 0xff; /* its end is refused */
    GIVES(AT6000_DONE, &a_salvage);
    s_len = 5;
    GIVES(AT6000_NO_HEAD, &a_salvage);
    kind = 11;
    GIVES(AT6000_BAD_CHAIN, &a_write, &a_list, &a_tidy, &a_salvage);
    for (size_t i = 0; i < sizeof all / sizeof *all; i++)
        printf("%s %zu bytes\n", all[i]->name, all[i]->most);
    return 0;
}
