/* The archive's side of the comparison: reads requests from standard input, makes each call through at6000.h and writes
 * what it answered and left. A frame is a length of four bytes and that many bytes; all numbers go low byte first, as
 * this processor has them. wire.rs has the other end.
 *
 * Every lent piece lies between guard bytes of its own. A reply begins with a byte of faults: 1 where a guard byte was
 * touched, 2 where something lent to be read only was changed. */
#include "at6000.h"

#include <stdio.h>
#include <stdlib.h>
#include <string.h>

enum { FRAME = 1 << 21, ARENA = 1 << 22, GUARD = 32, PIECES = 16, MOST_EPROM = (1 << 17) + 128, MOST_MONTH = (1 << 26) + 64 };
enum { NEW, RESET, START, BYTE, SLICE, CLOSING, SAVE, PICK_UP, HUNT, WRITE, LIST, DROP, TIDY, SALVAGE, FETCHER_NEW, FETCH,
       LOAD_SHEET, MONTH };
enum { MADE = 1, FED, WRITTEN, LISTED, MEMORY, OUTPUT, STARTS, ENDS, OFFSETS, HUNTED, SALVAGED, FETCHER, FETCHED, SHEET,
       FIGURES };
enum { GUARD_TOUCHED = 1, INPUT_CHANGED = 2 };

static void stop(const char *why) {
    fprintf(stderr, "archive's side: %s\n", why);
    exit(2);
}

/* The request, read from front to back. */

static uint8_t request[FRAME];
static size_t request_length, request_at;

static const uint8_t *take(size_t length) {
    const uint8_t *front = request + request_at;
    if (length > request_length - request_at) stop("a request is too short");
    request_at += length;
    return front;
}

static uint8_t take8(void) { return *take(1); }
static uint16_t take16(void) { uint16_t value; memcpy(&value, take(2), 2); return value; }
static uint32_t take32(void) { uint32_t value; memcpy(&value, take(4), 4); return value; }

/* A chain comes field by field; its padding is junk, another at each request. */
static at6000_chain take_chain(void) {
    static uint8_t junk;
    at6000_chain c;
    memset(&c, junk += 89, sizeof c);
    c.count = take8();
    memcpy(c.kinds, take(8), 8);
    memcpy(c.registers, take(8), 8);
    c.place.running = take8();
    c.place.mode = take8();
    c.place.check = take8();
    c.place.device = take8();
    c.place.awaited = take8();
    c.place.left = take8();
    c.place.control = take8();
    c.place.start = take16();
    c.place.end = take16();
    c.place.next = take16();
    c.place.taken = take32();
    c.place.mismatches = take32();
    return c;
}

/* A fetcher, its padding junk likewise. */
static at6000_fetcher take_fetcher(void) {
    static uint8_t junk;
    at6000_fetcher f;
    memset(&f, junk += 57, sizeof f);
    f.counter = take32();
    f.control = take8();
    memcpy(f.address, take(3), 3);
    f.nulled = take8();
    return f;
}

/* The reply. */

static uint8_t reply[FRAME];
static size_t reply_length;

static void put(const void *bytes, size_t length) {
    if (length > FRAME - reply_length) stop("a reply is too long");
    memcpy(reply + reply_length, bytes, length);
    reply_length += length;
}

static void put8(uint8_t value) { put(&value, 1); }
static void put16(uint16_t value) { put(&value, 2); }
static void put32(uint32_t value) { put(&value, 4); }

static void put_chain(const at6000_chain *c) {
    put8(c->count);
    put(c->kinds, 8);
    put(c->registers, 8);
    put8(c->place.running);
    put8(c->place.mode);
    put8(c->place.check);
    put8(c->place.device);
    put8(c->place.awaited);
    put8(c->place.left);
    put8(c->place.control);
    put16(c->place.start);
    put16(c->place.end);
    put16(c->place.next);
    put32(c->place.taken);
    put32(c->place.mismatches);
}

static void put_made(const at6000_chain *c, uint8_t number) {
    put8(MADE);
    put8(number);
    put_chain(c);
}

static void put_fed(const at6000_chain *c, at6000_answer answer) {
    put8(FED);
    put8(answer.number);
    put32(answer.taken);
    put32(answer.mismatches);
    put_chain(c);
}

static void put_written(uint8_t number, size_t length) {
    uint64_t wide = length;
    put8(WRITTEN);
    put8(number);
    put(&wide, 8);
}

static void put_hunted(at6000_hunted hunted) {
    uint64_t wide = hunted.length;
    put8(HUNTED);
    put8(hunted.number);
    put8(hunted.p);
    put8(hunted.left);
    put(&wide, 8);
}

static void put_salvaged(at6000_salvaged salvaged) {
    uint64_t offset = salvaged.offset, length = salvaged.length;
    put8(SALVAGED);
    put8(salvaged.number);
    put8(salvaged.kept);
    put8(salvaged.announced);
    put8(salvaged.end);
    put(&offset, 8);
    put(&length, 8);
}

static void put_fetcher(at6000_fetcher f) {
    put32(f.counter);
    put8(f.control);
    put(f.address, 3);
    put8(f.nulled);
}

static void put_fetched(at6000_fetched fetched) {
    put8(FETCHED);
    put8(fetched.answer.number);
    put32(fetched.answer.taken);
    put32(fetched.answer.mismatches);
    put_chain(&fetched.chain);
    put_fetcher(fetched.fetcher);
}

static void put_bytes(uint8_t tag, const void *bytes, size_t length) {
    put8(tag);
    put32((uint32_t)length);
    put(bytes, length);
}

/* Lent pieces: each between guard bytes, and those to be read only with what they must still be afterwards. */

struct piece { uint8_t *bytes; size_t length; const uint8_t *same_as; };
static _Alignas(16) uint8_t arena[ARENA];
static size_t arena_used, piece_count, skew;
static struct piece pieces[PIECES];

static uint8_t *lend(size_t length, size_t alignment) {
    uint8_t *bytes;
    size_t at = (arena_used + 15) / 16 * 16 + GUARD + skew / alignment % 4 * alignment;
    if (piece_count == PIECES || length > ARENA - at - GUARD) stop("too much is lent");
    bytes = arena + at;
    memset(bytes - GUARD, 0xA7, GUARD);
    memset(bytes + length, 0x59, GUARD);
    pieces[piece_count].bytes = bytes;
    pieces[piece_count].length = length;
    pieces[piece_count++].same_as = NULL;
    arena_used = at + length + GUARD;
    return bytes;
}

static uint8_t *lend_copy(const void *from, size_t length, size_t alignment) {
    uint8_t *bytes = lend(length, alignment);
    memcpy(bytes, from, length);
    return bytes;
}

static const void *lend_const(const uint8_t *from, size_t length, size_t alignment) {
    uint8_t *bytes = lend_copy(from, length, alignment);
    pieces[piece_count - 1].same_as = from;
    return bytes;
}

/* An output with a pattern in it, which a refusal has to leave: wire.rs has the same. */
static uint8_t *lend_output(size_t length, uint8_t fill, size_t alignment) {
    uint8_t *bytes = lend(length, alignment);
    size_t i;
    for (i = 0; i < length; i++) bytes[i] = (uint8_t)(fill + 31 * i);
    return bytes;
}

/* The EPROM: it is long, so it is not made anew at each request. call.rs has the same bytes where nothing was laid. Of
 * the two copies one is lent, and the other is what it must still be. */
static uint8_t eprom_room[GUARD + MOST_EPROM + GUARD], eprom_same[MOST_EPROM];

static void unlay(size_t address) {
    eprom_room[GUARD + address] = eprom_same[address] = (uint8_t)(31 * address + 7 * (address / 256));
}

static void make_eprom(void) {
    for (size_t i = 0; i < MOST_EPROM; i++) unlay(i);
}

/* Lends the front of it with these bytes laid: four for the address, one for the byte. */
static const uint8_t *lend_eprom(size_t length, const uint8_t *laid, size_t count) {
    if (piece_count == PIECES || length > MOST_EPROM) stop("too much is lent");
    for (size_t i = 0; i < count; i++, laid += 5) {
        uint32_t address;
        memcpy(&address, laid, 4);
        if (address >= MOST_EPROM) stop("a byte is laid past the EPROM");
        eprom_room[GUARD + address] = eprom_same[address] = laid[4];
    }
    memset(eprom_room, 0xA7, GUARD);
    memset(eprom_room + GUARD + length, 0x59, GUARD);
    pieces[piece_count].bytes = eprom_room + GUARD;
    pieces[piece_count].length = length;
    pieces[piece_count++].same_as = eprom_same;
    return eprom_room + GUARD;
}

static void unlay_eprom(size_t length, const uint8_t *laid, size_t count) {
    for (size_t i = 0; i < count; i++, laid += 5) {
        uint32_t address;
        memcpy(&address, laid, 4);
        unlay(address);
    }
    for (size_t i = length; i < length + GUARD && i < MOST_EPROM; i++) unlay(i);
}

static uint8_t faults(void) {
    static uint8_t before[GUARD], after[GUARD];
    uint8_t found = 0;
    size_t i;
    memset(before, 0xA7, GUARD);
    memset(after, 0x59, GUARD);
    for (i = 0; i < piece_count; i++) {
        const struct piece *p = &pieces[i];
        if (memcmp(p->bytes - GUARD, before, GUARD)) found |= GUARD_TOUCHED;
        if (memcmp(p->bytes + p->length, after, GUARD)) found |= GUARD_TOUCHED;
        if (p->same_as && memcmp(p->bytes, p->same_as, p->length)) found |= INPUT_CHANGED;
    }
    return found;
}

/* The calls. An in-place call follows its twin, on copies of the same. */

static void make_new(void) {
    uint8_t count = take8();
    const uint8_t *kinds = lend_const(take(8), 8, 1);
    size_t mem_len = take32();
    const uint8_t *mem = lend_const(take(mem_len), mem_len, 1);
    at6000_made made = at6000_new(count, kinds, mem, mem_len);
    put_made(&made.chain, made.number);
}

static void make_reset(void) {
    at6000_chain c = take_chain();
    size_t mem_len = take32();
    uint8_t *mem = lend_copy(take(mem_len), mem_len, 1);
    at6000_made made = at6000_reset(c, mem, mem_len);
    put_made(&made.chain, made.number);
    put_bytes(MEMORY, mem, mem_len);
}

static void make_start(void) {
    at6000_chain c = take_chain();
    size_t mem_len = take32();
    const uint8_t *mem = lend_const(take(mem_len), mem_len, 1);
    uint8_t mode = take8(), check = take8(), number;
    at6000_chain *kept = (void *)lend_copy(&c, sizeof c, 4);
    at6000_made made = at6000_start(c, mem, mem_len, mode, check);
    put_made(&made.chain, made.number);
    number = at6000_start_in(kept, mem, mem_len, mode, check);
    put_made(kept, number);
}

static void make_byte(void) {
    at6000_chain c = take_chain();
    size_t mem_len = take32();
    uint8_t *mem = lend_copy(take(mem_len), mem_len, 1);
    at6000_fed fed = at6000_byte(c, mem, mem_len, take8());
    put_fed(&fed.chain, fed.answer);
    put_bytes(MEMORY, mem, mem_len);
}

static void make_slice(void) {
    at6000_chain c = take_chain();
    size_t mem_len = take32(), s_len;
    const uint8_t *before = take(mem_len), *s;
    uint8_t *mem = lend_copy(before, mem_len, 1), *mem_in = lend_copy(before, mem_len, 1);
    at6000_chain *kept = (void *)lend_copy(&c, sizeof c, 4);
    at6000_fed fed;
    at6000_answer answer;
    s_len = take32();
    s = lend_const(take(s_len), s_len, 1);
    fed = at6000_slice(c, mem, mem_len, s, s_len);
    put_fed(&fed.chain, fed.answer);
    put_bytes(MEMORY, mem, mem_len);
    answer = at6000_slice_in(kept, mem_in, mem_len, s, s_len);
    put_fed(kept, answer);
    put_bytes(MEMORY, mem_in, mem_len);
}

static void make_closing(void) {
    at6000_chain c = take_chain();
    size_t mem_len = take32(), out_len;
    const uint8_t *mem = lend_const(take(mem_len), mem_len, 1);
    uint8_t *out;
    at6000_written written;
    out_len = take32();
    out = lend_output(out_len, take8(), 1);
    written = at6000_closing(c, mem, mem_len, out, out_len);
    put_written(written.number, written.length);
    put_bytes(OUTPUT, out, out_len);
}

/* What was saved is picked up at once, by the library's own bytes, into the same chain with no run open. */
static void make_save(void) {
    at6000_chain c = take_chain();
    size_t mem_len = take32(), out_len;
    const uint8_t *mem = lend_const(take(mem_len), mem_len, 1);
    uint8_t *out;
    at6000_written written;
    out_len = take32();
    out = lend_output(out_len, take8(), 1);
    written = at6000_save(c, mem, mem_len, out, out_len);
    put_written(written.number, written.length);
    put_bytes(OUTPUT, out, out_len);
    if (written.number == AT6000_DONE && written.length <= out_len) {
        at6000_made made;
        memset(c.registers, 0, 8);
        c.place.running = 0;
        made = at6000_pick_up(c, mem, mem_len, out, written.length);
        put_made(&made.chain, made.number);
    }
}

static void make_pick_up(void) {
    at6000_chain c = take_chain();
    size_t mem_len = take32(), saved_len;
    const uint8_t *mem = lend_const(take(mem_len), mem_len, 1), *saved;
    at6000_chain *kept = (void *)lend_copy(&c, sizeof c, 4);
    at6000_made made;
    uint8_t number;
    saved_len = take32();
    saved = lend_const(take(saved_len), saved_len, 1);
    made = at6000_pick_up(c, mem, mem_len, saved, saved_len);
    put_made(&made.chain, made.number);
    number = at6000_pick_up_in(kept, mem, mem_len, saved, saved_len);
    put_made(kept, number);
}

static void make_hunt(void) {
    size_t s_len = take32(), out_len;
    const uint8_t *s = lend_const(take(s_len), s_len, 1);
    uint8_t *out;
    out_len = take32();
    out = lend_output(out_len, take8(), 1);
    put_hunted(at6000_hunt(s, s_len, out, out_len));
    put_bytes(OUTPUT, out, out_len);
}

static void make_write(void) {
    uint8_t kind = take8(), mode = take8(), control = take8(), *out;
    const uint8_t *address = lend_const(take(3), 3, 1), *data;
    const uint16_t *starts, *ends;
    size_t starts_len, ends_len, data_len, out_len;
    at6000_written written;
    starts_len = take32();
    starts = lend_const(take(2 * starts_len), 2 * starts_len, 2);
    ends_len = take32();
    ends = lend_const(take(2 * ends_len), 2 * ends_len, 2);
    data_len = take32();
    data = lend_const(take(data_len), data_len, 1);
    out_len = take32();
    out = lend_output(out_len, take8(), 1);
    written = at6000_write(kind, mode, control, address, starts, starts_len, ends, ends_len, data, data_len,
                           out, out_len);
    put_written(written.number, written.length);
    put_bytes(OUTPUT, out, out_len);
}

static void make_list(void) {
    uint8_t kind = take8(), mode = take8(), fill;
    size_t s_len = take32(), starts_len, ends_len, offsets_len;
    const uint8_t *s = lend_const(take(s_len), s_len, 1);
    uint8_t *starts, *ends, *offsets;
    at6000_listed listed;
    starts_len = take32();
    ends_len = take32();
    offsets_len = take32();
    fill = take8();
    starts = lend_output(2 * starts_len, fill, 2);
    ends = lend_output(2 * ends_len, fill, 2);
    offsets = lend_output(4 * offsets_len, fill, 4);
    listed = at6000_list(kind, mode, s, s_len, (void *)starts, starts_len, (void *)ends, ends_len,
                         (void *)offsets, offsets_len);
    put8(LISTED);
    put8(listed.number);
    put8(listed.windows);
    put8(listed.control);
    put(listed.address, 3);
    put32(listed.taken);
    put_bytes(STARTS, starts, 2 * starts_len);
    put_bytes(ENDS, ends, 2 * ends_len);
    put_bytes(OFFSETS, offsets, 4 * offsets_len);
}

/* The memory is lent to be read only, and goes into the reply all the same. */
static void make_drop(void) {
    at6000_chain c = take_chain();
    size_t mem_len = take32();
    const uint8_t *mem = lend_const(take(mem_len), mem_len, 1);
    at6000_made made = at6000_drop(c, mem, mem_len);
    put_made(&made.chain, made.number);
    put_bytes(MEMORY, mem, mem_len);
}

/* What was tidied is tidied again, into an output of just its length. */
static void make_tidy(void) {
    uint8_t kind = take8(), *out;
    size_t s_len = take32(), out_len;
    const uint8_t *s = lend_const(take(s_len), s_len, 1);
    at6000_written written;
    out_len = take32();
    out = lend_output(out_len, take8(), 1);
    written = at6000_tidy(kind, s, s_len, out, out_len);
    put_written(written.number, written.length);
    put_bytes(OUTPUT, out, out_len);
    if (written.number == AT6000_DONE && written.length <= out_len) {
        size_t length = written.length;
        const uint8_t *tidied = lend_const(out, length, 1);
        uint8_t *again = lend_output(length, 0, 1);
        written = at6000_tidy(kind, tidied, length, again, length);
        put_written(written.number, written.length);
        put_bytes(OUTPUT, again, length);
    }
}

/* What was salvaged is salvaged again, into an output of just its length. */
static void make_salvage(void) {
    uint8_t kind = take8(), *out;
    size_t s_len = take32(), out_len;
    const uint8_t *s = lend_const(take(s_len), s_len, 1);
    at6000_salvaged salvaged;
    out_len = take32();
    out = lend_output(out_len, take8(), 1);
    salvaged = at6000_salvage(kind, s, s_len, out, out_len);
    put_salvaged(salvaged);
    put_bytes(OUTPUT, out, out_len);
    if (salvaged.number == AT6000_DONE && salvaged.length <= out_len) {
        size_t length = salvaged.length;
        const uint8_t *sound = lend_const(out, length, 1);
        uint8_t *again = lend_output(length, 0, 1);
        put_salvaged(at6000_salvage(kind, sound, length, again, length));
        put_bytes(OUTPUT, again, length);
    }
}

static void make_fetcher_new(void) {
    put8(FETCHER);
    put_fetcher(at6000_fetcher_new(take8()));
}

/* Fetched at once, then on copies of the same in two parts. The EPROM is looked at before it is made as it was. */
static void make_fetch(void) {
    at6000_chain c = take_chain();
    size_t mem_len = take32(), eprom_len, count;
    const uint8_t *before = take(mem_len), *laid, *eprom;
    uint8_t *mem = lend_copy(before, mem_len, 1), *mem_two = lend_copy(before, mem_len, 1);
    at6000_fetcher f = take_fetcher();
    at6000_fetched fetched;
    uint64_t n;
    eprom_len = take32();
    count = take32();
    laid = take(5 * count);
    memcpy(&n, take(8), 8);
    eprom = lend_eprom(eprom_len, laid, count);
    fetched = at6000_fetch(c, f, mem, mem_len, eprom, eprom_len, n);
    put_fetched(fetched);
    put_bytes(MEMORY, mem, mem_len);
    fetched = at6000_fetch(c, f, mem_two, mem_len, eprom, eprom_len, n / 2);
    if (fetched.answer.number == AT6000_MORE)
        fetched = at6000_fetch(fetched.chain, fetched.fetcher, mem_two, mem_len, eprom, eprom_len, n - n / 2);
    put_fetched(fetched);
    put_bytes(MEMORY, mem_two, mem_len);
    reply[0] = faults();
    piece_count--;
    unlay_eprom(eprom_len, laid, count);
}

static void put_sheet(at6000_sheet sheet, const uint8_t *numbers, size_t numbers_len, const uint8_t *figures, size_t figures_len) {
    put8(SHEET);
    put8(sheet.number);
    put32(sheet.taken);
    put32(sheet.data);
    put32(sheet.cells);
    put32(sheet.again);
    put32(sheet.bits);
    put32(sheet.edges);
    put_bytes(OUTPUT, numbers, numbers_len);
    put_bytes(FIGURES, figures, 4 * figures_len);
}

static void make_load_sheet(void) {
    uint8_t kind = take8(), mode = take8(), fill, *numbers, *figures;
    size_t s_len = take32(), lengths_len, numbers_len, figures_len;
    const uint8_t *s = lend_const(take(s_len), s_len, 1);
    const uint32_t *lengths;
    lengths_len = take32();
    lengths = lend_const(take(4 * lengths_len), 4 * lengths_len, 4);
    numbers_len = take32();
    figures_len = take32();
    fill = take8();
    numbers = lend_output(numbers_len, fill, 1);
    figures = lend_output(4 * figures_len, fill, 4);
    put_sheet(at6000_load_sheet(kind, mode, s, s_len, lengths, lengths_len, numbers, numbers_len, (void *)figures, figures_len),
              numbers, numbers_len, figures, figures_len);
}

/* One stream many times, as call.rs has it: the slice is too long for a request. It is looked at again afterwards. */
static uint8_t month_room[GUARD + MOST_MONTH + GUARD];

static void make_month(void) {
    uint8_t kind = take8(), mode = take8(), *month = month_room + GUARD, *lent, *numbers, *figures;
    size_t s_len = take32(), times, more, length, i;
    const uint8_t *s = take(s_len);
    times = take32();
    more = take32();
    length = s_len * times + more;
    if (length > MOST_MONTH || times == 0) stop("a month is too long");
    memset(month - GUARD, 0xA7, GUARD);
    for (i = 0; i < times; i++) memcpy(month + s_len * i, s, s_len);
    memset(month + s_len * times, 0, more);
    memset(month + length, 0x59, GUARD);
    lent = lend(4 * times, 4);
    for (i = 0; i < times; i++) {
        uint32_t each = (uint32_t)(s_len + (i + 1 == times ? more : 0));
        memcpy(lent + 4 * i, &each, 4);
    }
    numbers = lend_output(times, 0, 1);
    figures = lend_output(24 * times, 0, 4);
    put_sheet(at6000_load_sheet(kind, mode, month, length, (void *)lent, times, numbers, times, (void *)figures, 6 * times), numbers,
              times, figures, 6 * times);
    for (i = 0; i < times; i++) {
        uint32_t each = (uint32_t)(s_len + (i + 1 == times ? more : 0));
        if (memcmp(month + s_len * i, s, s_len) || memcmp(lent + 4 * i, &each, 4)) reply[0] |= INPUT_CHANGED;
    }
    for (i = 0; i < more; i++)
        if (month[s_len * times + i]) reply[0] |= INPUT_CHANGED;
    for (i = 0; i < GUARD; i++)
        if (month_room[i] != 0xA7 || month[length + i] != 0x59) reply[0] |= GUARD_TOUCHED;
}

static void (*const calls[])(void) = {
    make_new, make_reset, make_start, make_byte, make_slice, make_closing,
    make_save, make_pick_up, make_hunt, make_write, make_list, make_drop, make_tidy,
    make_salvage, make_fetcher_new, make_fetch, make_load_sheet, make_month
};

int main(void) {
    uint8_t length[4];
    static char in[FRAME], out[FRAME];
    make_eprom();
    setvbuf(stdin, in, _IOFBF, sizeof in);
    setvbuf(stdout, out, _IOFBF, sizeof out);
    while (fread(length, 1, 4, stdin) == 4) {
        uint32_t frame;
        uint8_t call;
        memcpy(&frame, length, 4);
        if (frame > FRAME || fread(request, 1, frame, stdin) != frame) stop("a request was cut short");
        request_length = frame;
        request_at = 0;
        reply_length = 0;
        arena_used = piece_count = 0;
        skew++;
        put8(0);
        call = take8();
        if (call > MONTH) stop("an unknown call");
        calls[call]();
        if (request_at != request_length) stop("a request is too long");
        reply[0] |= faults();
        frame = (uint32_t)reply_length;
        memcpy(length, &frame, 4);
        fwrite(length, 1, 4, stdout);
        fwrite(reply, 1, reply_length, stdout);
    }
    return fflush(stdout) == 0 ? 0 : 2;
}
