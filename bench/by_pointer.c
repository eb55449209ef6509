/* The calls of the archive with every struct behind a pointer, so that the race needs no struct by value from Rust. Each is what a
 * controller in C does: it keeps the chain, and calls. */
#include "at6000.h"

uint8_t raced_start(at6000_chain *c, const uint8_t *mem, size_t n, uint8_t mode, uint8_t check) {
    return at6000_start_in(c, mem, n, mode, check);
}

void raced_slice(at6000_chain *c, uint8_t *mem, size_t n, const uint8_t *s, size_t s_n, at6000_answer *a) {
    *a = at6000_slice_in(c, mem, n, s, s_n);
}

void raced_byte(at6000_chain *c, uint8_t *mem, size_t n, uint8_t b, at6000_answer *a) {
    at6000_fed f = at6000_byte(*c, mem, n, b);
    *c = f.chain;
    *a = f.answer;
}

uint8_t raced_drop(at6000_chain *c, const uint8_t *mem, size_t n) {
    at6000_made m = at6000_drop(*c, mem, n);
    *c = m.chain;
    return m.number;
}

uint8_t raced_pick_up(at6000_chain *c, const uint8_t *mem, size_t n, const uint8_t *saved, size_t saved_n) {
    return at6000_pick_up_in(c, mem, n, saved, saved_n);
}

size_t raced_closing(const at6000_chain *c, const uint8_t *mem, size_t n, uint8_t *out, size_t out_n) {
    return at6000_closing(*c, mem, n, out, out_n).length;
}

size_t raced_save(const at6000_chain *c, const uint8_t *mem, size_t n, uint8_t *out, size_t out_n) {
    return at6000_save(*c, mem, n, out, out_n).length;
}

void raced_hunt(const uint8_t *s, size_t s_n, uint8_t *out, size_t out_n, at6000_hunted *h) {
    *h = at6000_hunt(s, s_n, out, out_n);
}

size_t raced_write(uint8_t kind, uint8_t mode, uint8_t control, const uint8_t address[3], const uint16_t *starts, size_t starts_n,
                   const uint16_t *ends, size_t ends_n, const uint8_t *data, size_t data_n, uint8_t *out, size_t out_n) {
    return at6000_write(kind, mode, control, address, starts, starts_n, ends, ends_n, data, data_n, out, out_n).length;
}

size_t raced_tidy(uint8_t kind, const uint8_t *s, size_t s_n, uint8_t *out, size_t out_n) {
    return at6000_tidy(kind, s, s_n, out, out_n).length;
}

void raced_salvage(uint8_t kind, const uint8_t *s, size_t s_n, uint8_t *out, size_t out_n, at6000_salvaged *r) {
    *r = at6000_salvage(kind, s, s_n, out, out_n);
}

void raced_fetch(at6000_chain *c, at6000_fetcher *f, uint8_t *mem, size_t n, const uint8_t *eprom, size_t eprom_n, size_t wanted,
                 at6000_answer *a) {
    at6000_fetched r = at6000_fetch(*c, *f, mem, n, eprom, eprom_n, wanted);
    *c = r.chain;
    *f = r.fetcher;
    *a = r.answer;
}

void raced_load_sheet(uint8_t kind, uint8_t mode, const uint8_t *s, size_t s_n, const uint32_t *lengths, size_t lengths_n, uint8_t *numbers,
                      size_t numbers_n, uint32_t *figures, size_t figures_n, at6000_sheet *r) {
    *r = at6000_load_sheet(kind, mode, s, s_n, lengths, lengths_n, numbers, numbers_n, figures, figures_n);
}

uint32_t raced_list(uint8_t kind, uint8_t mode, const uint8_t *s, size_t s_n, uint16_t *starts, size_t starts_n, uint16_t *ends,
                    size_t ends_n, uint32_t *offsets, size_t offsets_n) {
    return at6000_list(kind, mode, s, s_n, starts, starts_n, ends, ends_n, offsets, offsets_n).taken;
}
