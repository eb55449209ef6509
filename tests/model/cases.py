"""The cases of documents 01 and 02 other than the twelve that are proved: what the program `cases` is given, and what it must print.

    python3 tests/model/cases.py            writes crates/cases/stdin (the script) and crates/cases/stdout (what must be printed)
    python3 tests/model/cases.py --check    works both out again and compares them with the files

Each case cites the sentence of a document (or of the maker's guide) that it tries. Every call below says by hand which number it must give, and
often which bytes; the model (at6000.py) has to agree, and gives the rest of the line: the whole state, what was written into the output and which
cells of memory changed. No expected value is taken from a run of the program.

The script is a list of calls, each sixteen bytes and its arguments: letter, a, b, c, the lengths of the memory and the output that are lent (three bytes
each), of two tables and of the arguments (two bytes each), high byte first. A line printed is the letter and the answers in hex:

    # text                         a comment
    m                              memory filled with a, a + b, a + 2b ..
    = state                        a state that the caller makes up
    n, r, s, d, p   number state   new, reset, start, drop, pick-up
    b, f   number taken mismatches state      byte, slice
    c, v, w, t   number length     closing, save, write, tidy
    h   number p left length       hunt
    k   number kept announced end offset length        salvage: what is whole is kept
    l   number windows control address taken starts ends offset ..     list; entries that were not written are ee
    e                              bytes laid into the EPROM, which is all ff at first, from the address on that stands for the memory's length
    g, i   fetcher                 a fetcher that the caller makes up; a new one
    x   number taken mismatches state fetcher      fetch; the output's length is that of the EPROM lent, and the arguments are how many bytes
    y   number taken data cells again bits edges +entry: row ..        load sheet: the sums, then six figures a row, each row behind the number of its first
                                   entry; one that repeats the row above it is left out. Entries that were not written are ee. The output is the table of
                                   numbers; the arguments are how many lengths and how many figures are lent, four bytes each, the first lengths, as many as
                                   the first table's length says, four bytes each, the others being 0, and the streams

A state is count, kinds, registers; running, mode, check, device, awaited, windows left, control; start end next; taken, mismatches. Fields that a place gets
later (LATER) stand behind these where one of them is not zero, and read as 0 where they are not there: they move no line that has none. A fetcher
is counter, control byte, address, nulled. Then come
`>address:bytes` for each run of bytes written into the output, which held ee, and `@address:bytes` for each run of memory cells that the call changed.
"""

import sys
from copy import deepcopy
from dataclasses import replace
from pathlib import Path

sys.dont_write_bytecode = True
import at6000
from at6000 import B2, B3, B4, PREAMBLE, SIZES, Chain, Fetcher, Place, saved_of
from streams import EMPTY, A, at_bit, bytes_of, section, stream, window

CELLS = 65576  # the program's memory: enough for a chain that is refused for its total alone
LENT = 0xEE
EPROM = 131072  # what a counter of 17 bits reaches
LONGER = 131200  # the program's EPROM: bytes past that
LAST = 0x1FFFF


def eight(values):
    return list(values) + [0] * (8 - len(values))


# The fields of a place, group by group as they are printed, each with its bytes; then those of later requests, one group.
PLACE = [(1, "running mode check device awaited left control"), (2, "start end next"), (4, "taken"), (4, "mismatches")]
LATER = (1, "")


def groups(c):
    def group(width, names):
        return b"".join(getattr(c.place, name).to_bytes(width, "big") for name in names.split())

    later = group(*LATER)
    return [bytes([c.count]), bytes(c.kinds), bytes(c.registers), *(group(*fields) for fields in PLACE), *([later] if any(later) else [])]


def chain_bytes(c):
    return b"".join(groups(c))


def shown(c):
    return "".join(" " + group.hex() for group in groups(c))


def fetcher_shown(f):
    return f" {f.counter:08x} {f.control:02x} {bytes(f.address).hex()} {f.nulled:02x}"


def changes(mark, now, was):
    text, i = "", 0
    while i < len(now):
        j = i
        while j < len(now) and now[j] != was[j]:
            j += 1
        if j > i:
            text += f" {mark}{i:06x}:{now[i:j].hex()}"
        i = max(j, i + 1)
    return text


class Script:
    """The script so far, with the state, the memory, the EPROM and the fetcher that the model has reached. Each call's first argument is the number it must
    give."""

    def __init__(self):
        self.stdin, self.stdout, self.calls, self.given, self.ends, self.rows = bytearray(), [], 0, set(), set(), set()
        self.c, self.mem = Chain(), bytes(CELLS)
        self.f, self.eprom = Fetcher(), bytearray([0xFF] * LONGER)

    # ---- lines

    def line(self, letter, text="", args=b"", a=0, b=0, c=0, mem=0, out=0, starts=0, ends=0):
        head = bytes([ord(letter), a, b, c]) + mem.to_bytes(3, "big") + out.to_bytes(3, "big")
        self.stdin += head + b"".join(n.to_bytes(2, "big") for n in (starts, ends, len(args))) + bytes(args)
        self.stdout.append(letter + text)
        if letter not in "#m=eg":
            self.calls += 1
        if letter not in "#m=egi":
            self.given.add((letter, int(text[1:3], 16)))

    def agree(self, number, got):
        if number != got:
            raise SystemExit(f"after {[t for t in self.stdout if t[0] == '#'][-1]}: {number} said by hand, {got} by the model")

    def lent(self, length):
        """The memory lent: as long as the chain's, unless said."""
        if length is None:
            length = self.c.base(self.c.count)
        return self.mem[:length]

    def stored(self, mem):
        text = changes("@", mem, self.mem)
        self.mem = bytes(mem) + self.mem[len(mem) :]
        return text

    def say(self, text):
        self.line("#", " " + text, (" " + text).encode())

    def fill(self, a, b=0, length=CELLS):
        self.mem = bytes((a + b * i) % 256 for i in range(length)) + self.mem[length:]
        self.line("m", a=a, b=b, mem=length)

    def state(self, c):
        self.c = deepcopy(c)
        self.line("=", shown(c), chain_bytes(c))

    # ---- calls on a state

    def new(self, number, count, kinds, lent=None):
        kinds = eight(kinds)
        mem = self.mem[: sum(SIZES.get(k, 0) for k in kinds[:count]) if lent is None else lent]
        got, self.c = at6000.new(count, kinds, mem)
        self.agree(number, got)
        self.line("n", f" {got:02x}{shown(self.c)}", kinds, a=count, mem=len(mem))

    def reset(self, number, lent=None):
        mem = self.lent(lent)
        got, self.c, after = at6000.reset(self.c, mem)
        self.agree(number, got)
        self.line("r", f" {got:02x}{shown(self.c)}{self.stored(after)}", mem=len(mem))

    def start(self, number, mode, check=0, lent=None):
        mem = self.lent(lent)
        got, self.c = at6000.start(self.c, mem, mode, check)
        self.agree(number, got)
        self.line("s", f" {got:02x}{shown(self.c)}", a=mode, b=check, mem=len(mem))

    def drop(self, number, lent=None):
        mem = self.lent(lent)
        got, self.c = at6000.drop(self.c, mem)
        self.agree(number, got)
        self.line("d", f" {got:02x}{shown(self.c)}", mem=len(mem))

    def fed(self, letter, want, got, **args):
        number, taken, mismatches, self.c, after = got
        self.agree(want, (number, taken, mismatches)[: len(want)])
        self.line(letter, f" {number:02x} {taken:08x} {mismatches:08x}{shown(self.c)}{self.stored(after)}", mem=len(after), **args)

    def byte(self, number, b, *counts, lent=None):
        self.fed("b", (number, *counts), at6000.byte(self.c, self.lent(lent), b), a=b)

    def feed(self, number, s, *counts, lent=None):
        """A slice; counts are bytes taken and mismatches, where they are said."""
        s = bytes_of(s)
        self.fed("f", (number, *counts), at6000.feed(self.c, self.lent(lent), s), args=s)

    def pick_up(self, number, saved, lent=None):
        saved, mem = bytes_of(saved), self.lent(lent)
        got, self.c = at6000.pick_up(self.c, mem, saved)
        self.agree(number, got)
        self.line("p", f" {got:02x}{shown(self.c)}", saved, mem=len(mem))

    # ---- the EPROM

    def burn(self, at, s):
        """Bytes laid into the EPROM from an address on."""
        self.eprom[at : at + len(s)] = s
        self.line("e", args=s, mem=at)

    def lay(self, mode, at, s):
        """Bytes laid where a counter that is `at` comes by in this mode, one after another."""
        s = bytes_of(s)
        if mode == 2:
            s, at = s[::-1], at + 1 - len(s)
        low, high = s[: max(0, -at)], s[max(0, -at) :]
        at = max(0, at)
        over = high[EPROM - at :]
        for address, part in ((EPROM - len(low), low), (at, high[: EPROM - at]), (0, over)):
            if part:
                self.burn(address, part)

    def fetcher(self, counter, control=0x00, address="000000", nulled=0):
        self.f = Fetcher(counter, control, list(bytes_of(address)), nulled)
        self.line("g", fetcher_shown(self.f), bytes.fromhex(fetcher_shown(self.f)))

    def fetcher_new(self, counter, mode):
        self.f = at6000.fetcher_new(mode)
        self.agree(Fetcher(counter), self.f)
        self.line("i", fetcher_shown(self.f), a=mode)

    def fetch(self, number, n, taken=None, counter=None, mismatches=None, lent=None, size=EPROM):
        """`taken`, `counter` and `mismatches` are what they are afterwards, where they are said; `size` is the length of the EPROM lent."""
        mem = self.lent(lent)
        got = at6000.fetch(self.c, self.f, mem, self.eprom[:size], n)
        self.c, after, self.f = got[3:]
        for want, is_ in zip((number, taken, mismatches, counter), (*got[:3], self.f.counter)):
            self.agree(is_ if want is None else want, is_)
        text = f" {got[0]:02x} {got[1]:08x} {got[2]:08x}{shown(self.c)}{fetcher_shown(self.f)}{self.stored(after)}"
        self.line("x", text, n.to_bytes(4, "big"), mem=len(mem), out=size)

    # ---- calls with an output

    def written(self, letter, number, want, got, room, **args):
        """`room` is the length of the output lent, `want` the bytes it must hold in front, where they are said. An answer has its number first, its
        length last, and single bytes between them."""
        n, *figures, length, out = got
        self.agree(number, n)
        if want is not None:
            self.agree(bytes_of(want), out[:length])
        self.line(letter, f" {bytes([n, *figures]).hex(' ')} {length:08x}{changes('>', out, self.blank(room))}", out=room, **args)
        return out[:length]

    def blank(self, room):
        return bytes([LENT]) * room

    def closing(self, number, want=None, room=80, lent=None):
        mem = self.lent(lent)
        return self.written("c", number, want, at6000.closing(self.c, mem, self.blank(room)), room, mem=len(mem))

    def save(self, number, want=None, room=27, lent=None):
        mem = self.lent(lent)
        return self.written("v", number, want, at6000.save(self.c, mem, self.blank(room)), room, mem=len(mem))

    def hunt(self, number, s, want=None, room=80, where=None):
        """`where` is p and the bits left, where they are said; a refusal has 0 and 0."""
        s = bytes_of(s)
        got = at6000.hunt(s, self.blank(room))
        if where is None and number != 0:
            where = (0, 0)
        if where is not None:
            self.agree(where, got[1:3])
        return self.written("h", number, want, got, room, args=s)

    def write(self, number, kind, mode, control, address, starts, ends, data, want=None, room=80):
        address, data = bytes_of(address), bytes_of(data)
        got = at6000.write(kind, mode, control, list(address), starts, ends, data, self.blank(room))
        args = address + b"".join(n.to_bytes(2, "big") for n in starts + ends) + data
        return self.written("w", number, want, got, room, args=args, a=kind, b=mode, c=control, starts=len(starts), ends=len(ends))

    def tidy(self, number, kind, s, want=None, room=80):
        s = bytes_of(s)
        return self.written("t", number, want, at6000.tidy(kind, s, self.blank(room)), room, args=s, a=kind)

    def salvage(self, number, kind, s, told=(0, 0, 0, 0), want="", room=None):
        """`told` is windows kept, windows announced, number of the stream's end and offset; a refusal has 0 for all, and writes nothing. As much room as the
        stream has bytes and one more, where none is said."""
        s = bytes_of(s)
        room = len(s) + 1 if room is None else room
        got, *figures, length, out = at6000.salvage(kind, s, self.blank(room))
        self.agree((number, *told), (got, *figures))
        self.agree(bytes_of(want), out[:length])
        kept, announced, end, offset = figures
        if got == 0:
            self.ends.add(end)
        text = f" {got:02x} {kept:02x} {announced:02x} {end:02x} {offset:08x} {length:08x}{changes('>', out, self.blank(room))}"
        self.line("k", text, s, a=kind, out=room)
        return out[:length]

    def sheet(self, number, kind, mode, streams=(), rows=None, sums=None, lengths=None, tables=None):
        """`rows` are number and six figures of each stream, `sums` the six sums, where they are said. `lengths` are those lent where the streams' own are not,
        `tables` the entries of numbers and of figures where they are not as many as needed and one more."""
        streams = [bytes_of(s) for s in streams]
        lengths = [len(s) for s in streams] if lengths is None else lengths
        i, j = (len(lengths) + 1, 6 * len(lengths) + 1) if tables is None else tables
        long = LENT * 0x1010101
        got, summed, numbers, figures = at6000.load_sheet(kind, mode, b"".join(streams), lengths, [LENT] * i, [long] * j)
        self.agree(number, got)
        if got == 0:
            n = len(lengths)
            given = [(numbers[k], *figures[6 * k : 6 * k + 6]) for k in range(n)]
            if rows is not None:
                self.agree([tuple(r) for r in rows], given)
            self.agree(tuple(summed) if sums is None else sums, tuple(summed))
            self.agree([LENT] * (i - n) + [long] * (j - 6 * n), numbers[n:] + figures[6 * n :])
            self.rows |= set(numbers[:n])
        else:
            self.agree(((0,) * 6, [LENT] * i, [long] * j), (tuple(summed), numbers, figures))
        text = f" {got:02x}" + "".join(f" {n:08x}" for n in summed)
        for k in range(0, j, 6):
            row = figures[k : k + 6]
            if len(row) < 6 or row != figures[k - 6 : k]:
                text += f" +{k:06x}:" + "".join(f" {n:08x}" for n in row)
        text += changes(">", bytes(numbers), self.blank(i))
        spelled = list(lengths)
        while spelled and spelled[-1] == 0:
            spelled.pop()
        head = len(lengths).to_bytes(4, "big") + j.to_bytes(4, "big") + b"".join(n.to_bytes(4, "big") for n in spelled)
        self.line("y", text, head + b"".join(streams), a=kind, b=mode, out=i, starts=len(spelled))

    def list(self, number, kind, mode, s, want=None, tables=(4, 4, 4)):
        """`want` is windows, control byte, address and bytes taken, then the windows as start, end, offset, where they are said."""
        s, (i, j, k) = bytes_of(s), tables
        word, long = LENT * 0x101, LENT * 0x1010101
        got, windows, control, address, taken, starts, ends, offsets = at6000.list_windows(kind, mode, s, [word] * i, [word] * j, [long] * k)
        self.agree(number, got)
        if want is not None:
            rows = list(zip(starts, ends, offsets))[:windows]
            self.agree(want, (windows, control, bytes(address).hex(), taken, *rows)[: len(want)])
        table = [" " + "".join(f"{n:04x}" for n in t) for t in (starts, ends)] + [f" {n:08x}" for n in offsets]
        text = f" {got:02x} {windows:02x} {control:02x} {bytes(address).hex()} {taken:08x}{''.join(table)}"
        self.line("l", text, s, a=kind, b=mode, out=k, starts=i, ends=j)


def load(s, control=0x00, *more):
    """A run that stores these registers, device by device, and no cell."""
    s.start(0, 1)
    s.feed(0, stream(*[section([], c) for c in (control, *more)]))


# ---- The cases


def cases_new(s):
    s.say("new, 0: 'A new state is made from a count and eight kinds .. with zero registers and no open run. It leaves memory as lent'")
    s.fill(0x5A)
    for kind in SIZES:
        s.new(0, 1, [kind])
    s.new(0, 2, [0, 0])
    s.new(0, 8, [0] * 8)
    s.new(0, 8, [2, 0, 3, 0, 5, 0, 10, 0])
    s.say("new, 0: 'those past the count taken as zero', unknown ones too")
    s.new(0, 1, [0, 1, 2, 3, 4, 5, 10, 255])
    s.new(0, 7, [0, 0, 0, 0, 0, 0, 2, 99])
    s.say("new, 0: 'at most 65,536 bytes in all': the largest total that kinds can make is 65,524")
    s.new(0, 4, [10, 10, 10, 10])
    s.say("new, 1: 'count not 1 to 8'; 'refused, it is all zero'")
    s.new(1, 0, [0] * 8, lent=0)
    s.new(1, 0, [0] * 8, lent=52)
    for count in (9, 10, 128, 255):
        s.new(1, count, [0] * 8, lent=416)
        s.new(1, count, [0] * 8, lent=52 * count)
    s.say("new, 1: 'unknown kind', at the first and at the last device")
    for kind in (1, 4, 6, 7, 8, 9, 11, 128, 255):
        s.new(1, 1, [kind], lent=0)
        s.new(1, 1, [kind], lent=52)
    s.new(1, 8, [0] * 7 + [1], lent=416)
    s.new(1, 8, [0] * 7 + [1], lent=364)
    s.say("new, 1: 'total over 65,536', with memory as long as that total: 65,542 and 65,576")
    s.new(1, 7, [0, 3, 3, 5, 10, 10, 10])
    s.new(1, 5, [10, 10, 10, 10, 0])
    s.new(1, 5, [10, 10, 10, 10, 0], lent=65536)
    s.say("new, 1: 'lent memory of another length': a cell short, a cell over, none")
    s.new(0, 2, [0, 2])
    for length in (2716, 2718, 52, 0, 65536):
        s.new(1, 2, [0, 2], lent=length)


def cases_reset(s):
    s.say("reset, 0: 'it zeroes memory, all registers and unused kinds and closes the run'; no run open")
    s.new(0, 2, [0, 0])
    s.fill(0x01, 0x03)
    load(s, 0x10, 0xFF)
    s.reset(0)
    s.say("reset, 0: 'Reset (mode 0) is taken even with a run open'")
    s.fill(0x01, 0x03)
    load(s, 0x01, 0x02)
    s.start(0, 1)
    s.feed(16, A[:13])
    s.reset(0)
    s.start(0, 6, 1)
    s.reset(0)
    s.say("reset, 0: 'a lent state (reset excepted)': unused kinds or registers not zero, an open place not well formed")
    for c in (
        Chain(1, [0, 7, 1, 2, 3, 4, 5, 10], [0xFF] * 8),
        Chain(1, [0] * 8, [1, 0, 0, 0, 0, 0, 0, 1]),
        Chain(1, [0] * 8, [0x10] + [0] * 7, Place(1, 9, 9, 200, 77, 5, 4, 3, 2, 1, 9, 9)),
        Chain(1, [0] * 8, [0] * 8, Place(running=2)),
        Chain(1, [0] * 8, [0] * 8, Place(running=255, mode=1)),
    ):
        s.state(c)
        s.start(17, 1)
        s.reset(0)
    s.say("reset, 0: a closed place with other fields not zero comes back zero")
    s.state(Chain(1, [0] * 8, [0] * 8, Place(0, 1, 2, 3, 4, 5, 6, 7, 8, 9, 10, 11)))
    s.reset(0)
    s.say("reset, 1: state and memory as lent, with a run open too")
    s.fill(0x01, 0x03)
    s.new(0, 2, [0, 0])
    load(s, 0x01, 0x02)
    s.start(0, 1)
    for length in (103, 105, 0):
        s.reset(1, lent=length)
    for c in (Chain(0), Chain(1, eight([1])), Chain(8, [0] * 7 + [6], [1] * 8, Place(running=3))):
        s.state(c)
        s.reset(1, lent=52)
    for count in (0, 9, 255):
        s.state(Chain(count))
        s.reset(1, lent=52 * min(count, 8))
    s.state(Chain(5, eight([10, 10, 10, 10, 0]), [0] * 8))
    s.reset(1)
    s.say("reset, 1 looks at the first count kinds only")
    s.state(Chain(1, [0] + [1] * 7))
    s.reset(0)


def cases_start(s):
    s.say("start, 0: modes 1 to 6, a write and a check; 'start sets both to zero'")
    s.new(0, 2, [0, 2])
    load(s, 0x01, 0x02)
    for mode in range(1, 7):
        for check in (0, 1):
            s.start(0, mode, check)
            s.feed(16, "")
            s.feed(5, "00", 1, 0)
    s.say("start, 0: any other check than 0 is a check")
    for check in (2, 128, 255):
        s.start(0, 1, check)
        s.byte(5, 0x00)
    s.say("start, 0: the other fields of a closed place are no part of the state")
    junk = Chain(1, [0] * 8, [0] * 8, Place(0, 9, 8, 7, 99, 5, 4, 300, 200, 100, 77, 66))
    s.state(junk)
    s.start(0, 2)
    s.say("start, 2: 'with a mode not 1 to 6'; mode 0 is reset's; nothing changes, a closed place's other fields neither")
    s.state(junk)
    for mode in (0, 7, 8, 128, 255):
        s.start(2, mode)
    s.say("start, 1: 'lent memory of another length' and the rest of number 1")
    for length in (51, 53, 0):
        s.start(1, 1, lent=length)
    for c, length in ((Chain(0), 0), (Chain(9), 416), (Chain(1, eight([4])), 52)):
        s.state(c)
        s.start(1, 1, lent=length)
    s.state(Chain(5, eight([10, 10, 10, 10, 0])))
    s.start(1, 1)
    s.say("start, 17: 'unused kinds or registers are not zero'; an unused kind is 17 whether it is known or not")
    for c in (Chain(1, [0, 2] + [0] * 6), Chain(1, [0] * 7 + [1]), Chain(2, [0] * 8, [0, 0, 1] + [0] * 5), Chain(7, [0] * 8, [0] * 7 + [0x80])):
        s.state(c)
        s.start(17, 1)
    s.say("start, 3: 'while a run is open'")
    s.new(0, 1, [0])
    s.start(0, 1)
    s.start(3, 1)
    s.feed(16, A[:8])
    s.start(3, 6, 1)
    s.feed(0, A[8:], 15, 0)
    s.say("'Order: 1, 17 for the state, 2, 3': 2 with a run open, 17 before 2, 1 before 17")
    s.start(0, 1)
    s.start(2, 7)
    s.state(Chain(1, [0, 1] + [0] * 6))
    s.start(17, 7)
    s.start(1, 7, lent=51)


def cases_bytes(s):
    s.say("byte, 16 and 0: 'A byte call is a slice of one'; stream A, every byte, with the place after each")
    s.new(0, 1, [0])
    s.fill(0x40)
    s.start(0, 1)
    for i, b in enumerate(A):
        s.byte(16 if i < 14 else 0, b, i + 1, 0)
    s.say("slice, 0: 'stops at its end; later bytes are not looked at'")
    s.fill(0x40)
    s.start(0, 1)
    s.feed(0, A + A + b"\x00", 15, 0)
    s.say("slice, 16: 'slice used up, run still open'; an empty slice too, and in pieces of any length")
    s.start(0, 1)
    s.feed(16, "", 0, 0)
    for i in range(0, 14, 4):
        s.feed(16, A[i : i + 4][: 14 - i], min(i + 4, 14), 0)
    s.feed(16, "", 14, 0)
    s.feed(0, A[14:], 15, 0)
    s.say("byte, slice, 4: 'with no run open'; 'Both answer .. 0 and 0 where 1, 17 or 4 is given'")
    s.byte(4, PREAMBLE, 0, 0)
    s.feed(4, A, 0, 0)
    s.feed(4, "", 0, 0)
    s.say("byte, slice, 1: before all else, with a run open and with none; 0 and 0")
    for opened in (0, 1):
        if opened:
            s.start(0, 1)
            s.feed(16, A[:13], 13, 0)
        for length in (51, 53, 0):
            s.byte(1, 0x33, 0, 0, lent=length)
            s.feed(1, A[13:], 0, 0, lent=length)
            s.feed(1, "", 0, 0, lent=length)
    s.feed(0, A[13:], 15, 0)
    for c, length in ((Chain(0), 0), (Chain(9), 416), (Chain(1, eight([1])), 52)):
        s.state(replace(c, place=Place(1, 1)))
        s.byte(1, PREAMBLE, 0, 0, lent=length)
        s.feed(1, A, 0, 0, lent=length)
    s.say("byte, slice, 17: unused kinds, unused registers, with a run open and with none (17 comes before 4)")
    for c in (Chain(1, [0, 0, 2] + [0] * 5), Chain(1, registers=[0] * 7 + [4])):
        for p in (Place(), Place(1, 1)):
            s.state(replace(c, place=p))
            s.byte(17, PREAMBLE, 0, 0)
            s.feed(17, A, 0, 0)
            s.feed(17, "", 0, 0)


def cases_preamble(s):
    s.say("5: 'awaited 0 or 1 and not B2'; 'A refused byte counts as taken, closes the run'")
    s.new(0, 1, [0])
    s.fill(0x40)
    for b in (0x00, 0x4D, 0xB1, 0xB3, 0xFF, 0x32):
        for mode in (1, 3, 6):
            s.start(0, mode)
            s.byte(5, b, 1, 0)
            s.start(0, mode, 1)
            s.feed(5, bytes([b]) + A, 1, 0)
        s.start(0, 6)
        s.feed(5, bytes([PREAMBLE, b]) + A, 2, 0)
        s.start(0, 6, 1)
        s.feed(16, "B2")
        s.byte(5, b, 2, 0)
    s.say("5 in modes 3 and 4: the machine is fed the hunted bytes, a lead-in 00 is not one of them")
    s.start(0, 3)
    s.feed(5, b"\x00" + A, 1, 0)
    s.say("'1 second preamble (mode 6 only)': B2 B2 in mode 6; in the others the second B2 is the control byte")
    for mode in range(1, 7):
        s.reset(0)
        s.start(0, mode)
        s.feed(0, (b"\xb2" if mode == 6 else b"") + A, 15 + (mode == 6), 0)
    s.reset(0)
    s.start(0, 1)
    s.feed(16, "B2 B2", 2, 0)
    s.reset(0)
    s.say("6: 'B2 that would begin a device (in mode 6 the second) whose stored B4 is set', in a write and in a check, in every mode")
    load(s, 0x10)
    for mode in range(1, 7):
        for check in (0, 1):
            s.start(0, mode, check)
            if mode == 6:
                s.byte(16, PREAMBLE, 1, 0)
            s.feed(6, A, 1 + (mode == 6), 0)
    s.say("7: 'check, and that device's stored B3 is set', in every mode; a write is taken")
    s.reset(0)
    load(s, 0x08)
    for mode in range(1, 7):
        s.start(0, mode, 1)
        if mode == 6:
            s.byte(16, PREAMBLE, 1, 0)
        s.feed(7, A, 1 + (mode == 6), 0)
    s.start(0, 1)
    s.feed(0, stream(section([window(9, 11, "112233")], 0x08)))
    s.say("'At a preamble: 5, 6, 7': B4 and B3 stored, a check: 5, then 6")
    s.reset(0)
    load(s, 0x18)
    s.start(0, 1, 1)
    s.byte(5, 0x4D)
    s.start(0, 1, 1)
    s.byte(6, PREAMBLE)


def cases_control(s):
    s.say("'In a write the control byte is loaded when taken.' 'The register keeps all eight bits.'")
    s.new(0, 1, [0])
    s.fill(0x40)
    for control in (0x00, 0x01, 0x02, 0x04, 0x08, 0x20, 0x40, 0x80, 0xEF):
        s.start(0, 1)
        s.feed(16, bytes([PREAMBLE, control]))
        s.feed(0, stream(section([], control))[2:], 7, 0)
    s.say("'B4 bars later runs, not this one'")
    s.start(0, 1)
    s.feed(0, stream(section([window(3, 4, "A1A2")], 0xFF)), 14, 0)
    s.start(0, 1)
    s.feed(6, A, 1, 0)
    s.say("'B4 can only be reset by powering down or soft rebooting the device' (the guide)")
    s.reset(0)
    s.start(0, 1)
    s.feed(0, A, 15, 0)
    s.say("7: 'check .. or the control byte sets B3', at the control byte, which 'changes no cell or register'")
    s.fill(0x40)
    for control in (0x08, 0xFF, 0x1C):
        s.start(0, 1, 1)
        s.feed(16, "B2", 1, 0)
        s.byte(7, control, 2, 0)
        s.start(0, 6, 1)
        s.feed(7, bytes([PREAMBLE, PREAMBLE, control]) + A, 3, 0)
    assert s.c.registers[0] == 0x00
    s.say("document 02: 'a check stores the control byte too, after the test for 7', every bit but B3; B4 bars later runs, not this one")
    for control in (0x00, 0x01, 0x02, 0x04, 0x20, 0x40, 0x80, 0xE7):
        s.start(0, 1, 1)
        s.feed(16, bytes([PREAMBLE, control]), 2, 0)
        assert s.c.registers[0] == control
        s.feed(0, stream(section([], control))[2:], 7, 0)
    s.start(0, 1, 1)
    s.feed(0, stream(section([window(3, 4, "4041")], 0xF7)), 14, 1)
    assert s.c.registers[0] == 0xF7
    for check in (0, 1):
        s.start(0, 1, check)
        s.feed(6, A, 1, 0)
    s.reset(0)
    s.say("a register that a check stored stays when the check is refused later, or dropped: the next run meets its B4")
    for number, rest in ((8, "FF 00"), (10, "FF B2"), (11, "FE 00 00 34"), (12, "FE 00 00 09 00 08")):
        s.start(0, 1, 1)
        s.feed(16, "B2 50 00 00 00", 5, 0)
        s.feed(number, rest)
        assert s.c.registers[0] == 0x50
        s.start(0, 1)
        s.byte(6, PREAMBLE, 1, 0)
        s.reset(0)
    s.start(0, 1, 1)
    s.feed(16, "B2 10", 2, 0)
    s.drop(0)
    s.start(0, 1, 1)
    s.byte(6, PREAMBLE, 1, 0)
    s.reset(0)
    s.say("in a write a control byte with B3 is taken")
    s.start(0, 1)
    s.feed(0, stream(section([], 0x08)), 7, 0)
    s.say("the external address is any three bytes; 'low byte first'; nothing of it is kept in the state")
    s.start(0, 2)
    s.feed(0, stream(section([], 0x03, "123456")), 7, 0)


def cases_windows(s):
    s.say("'FE is 1, FB is 4, FF is none': counts 0, 1, 4 and 255 (count byte 00)")
    s.new(0, 1, [0])
    s.fill(0x40)
    for n in (0, 1, 4):
        s.start(0, 1)
        s.feed(0, stream(section([window(7 * i, 7 * i + 1, [0xA0 + i, 0xB0 + i]) for i in range(n)])))
    s.start(0, 5)
    s.feed(0, stream(section([window(i % 52, i % 52, [i]) for i in range(255)])), 6 + 255 * 6 + 1, 0)
    s.say("'The null byte may have any value'")
    s.fill(0x40)
    for null in (0x01, 0x4D, 0xB2, 0xFE, 0xFF):
        s.start(0, 1)
        s.feed(0, stream(section([window(1, 1, [null], null), window(2, 2, [null], null ^ 0xFF)])), 19, 0)
    s.say("'A window covers start to end inclusive': first cell, last cell, whole device")
    s.fill(0x40)
    for start, end in ((0, 0), (51, 51), (50, 51), (0, 51)):
        s.start(0, 1)
        s.feed(0, stream(section([window(start, end, range(start, end + 1))])), 13 + end - start, 0)
    s.say("'A write stores the data byte in the cell at once'")
    s.fill(0x40)
    s.start(0, 1)
    s.feed(16, A[:11])
    for b in A[11:14]:
        s.byte(16, b)
    s.byte(0, 0x4D)
    s.say("'overlaps follow stream order'")
    s.start(0, 1)
    s.feed(0, stream(section([window(5, 8, "01020304"), window(7, 10, "F1F2F3F4"), window(6, 7, "AABB")])), 32, 0)
    s.say("data bytes may be B2, 4D, FF: only their place counts")
    s.start(0, 1)
    s.feed(0, stream(section([window(0, 3, "B24DFF00")])), 16, 0)
    for kind, size in SIZES.items():
        s.say(f"11, kind {kind}: 'start not below the device's size, at its second byte'; 12: 'end below start or not below size, at its second byte'")
        s.new(0, 1, [kind])
        s.fill(0x40)
        high, low = (size - 1) // 256, (size - 1) % 256
        s.start(0, 1)
        s.feed(0, stream(section([window(size - 1, size - 1, "77")])), 13, 0)
        for start in (size, size + 1, 0xFFFF):
            s.start(0, 1)
            s.feed(16, bytes_of("B2 01 000000 FE 00") + bytes([start // 256]), 8, 0)
            s.byte(11, start % 256, 9, 0)
        for start, end in ((0, size), (size - 1, size), (0, 0xFFFF), (9, 8), (size - 1, size - 2), (size - 1, 0)):
            s.start(0, 1)
            s.feed(16, bytes_of("B2 02 000000 FE 00") + start.to_bytes(2, "big") + bytes([end // 256]), 10, 0)
            s.feed(12, bytes([end % 256]) + b"\xaa\xbb", 11, 0)
        s.start(0, 6, 1)
        s.feed(11, bytes_of("B2 B2 01 000000 FE 00") + size.to_bytes(2, "big") + A, 10, 0)
    s.say("'what earlier bytes stored stays': a second window refused, and cells outside the windows untouched")
    s.new(0, 1, [0])
    s.fill(0x40)
    s.start(0, 1)
    s.feed(11, stream(section([window(9, 11, "112233"), window(52, 52, "44")], 0x81)), 17, 0)
    s.start(0, 1)
    s.feed(12, stream(section([window(20, 21, "5152"), bytes_of("00 0014 0013 00")], 0x82)), 18, 0)
    s.say("a start or an end whose high byte alone is past the size is refused at its second byte, not before")
    s.start(0, 1)
    s.feed(16, bytes_of("B2 00 000000 FE 00 FF"), 8, 0)
    s.byte(11, 0x00, 9, 0)
    s.start(0, 1)
    s.feed(16, bytes_of("B2 00 000000 FE 00 0009 FF"), 10, 0)
    s.byte(12, 0x0B, 11, 0)


def cases_check_byte(s):
    s.say("8: 'check byte neither 4D nor B2'")
    s.new(0, 2, [0, 0])
    s.fill(0x40)
    for b in (0x00, 0x4C, 0x4E, 0xB1, 0xB3, 0xFF, 0xCD):
        s.start(0, 1)
        s.feed(8, A[:14] + bytes([b]) + A, 15, 0)
        s.start(0, 1, 1)
        s.feed(16, A[:14], 14, 0)
        s.byte(8, b, 15, 0)
    s.say("8, control bit B2 set: 'At 13: 8, 9, 10, 6, 7'")
    s.start(0, 1)
    s.feed(8, stream(section([], 0x04))[:6] + b"\x00", 7, 0)
    s.say("9: 'check byte B2, and this device's control byte set B2'; 4D is still accepted")
    s.start(0, 1)
    s.feed(9, stream(section([], 0x04), section([])), 7, 0)
    s.start(0, 1)
    s.feed(0, stream(section([], 0x04)), 7, 0)
    s.say("9 in a check 'reads the bit from the stream's control byte': set before the run and clear in the stream goes on, the other way round is 9")
    s.start(0, 1, 1)
    s.feed(0, stream(section([], 0x00), section([], 0x00)), 13, 0)
    s.start(0, 1, 1)
    s.feed(9, stream(section([], 0x04), section([], 0x00)), 7, 0)
    assert s.c.registers[:2] == [0x04, 0x00]
    s.say("10: 'check byte B2 after the last device'")
    s.start(0, 1)
    s.feed(10, stream(section([]), section([], 0x01), section([])), 13, 0)
    s.say("9 and 10 by a byte call")
    s.start(0, 1)
    s.feed(16, stream(section([], 0x04))[:6], 6, 0)
    s.byte(9, PREAMBLE, 7, 0)
    s.start(0, 1)
    s.feed(16, stream(section([]), section([]))[:12], 12, 0)
    s.byte(10, PREAMBLE, 13, 0)
    s.say("9 before 10: the last device with control bit B2")
    s.start(0, 1)
    s.feed(9, stream(section([]), section([], 0x04), section([])), 13, 0)
    s.say("6: the next device's stored B4; 9 before 6; a check too; 4D after the first device is accepted")
    load(s, 0x00, 0x10)
    for check in (0, 1):
        s.start(0, 1, check)
        s.feed(6, stream(section([]), section([])), 7, 0)
        s.start(0, 1, check)
        s.feed(9, stream(section([], 0x04), section([])), 7, 0)
        s.start(0, 1, check)
        s.feed(0, EMPTY, 7, 0)
    s.say("7: the next device's stored B3, in a check; 9 before 7; a write goes on")
    s.reset(0)
    load(s, 0x00, 0x08)
    s.start(0, 1, 1)
    s.feed(7, stream(section([]), section([])), 7, 0)
    s.start(0, 1, 1)
    s.feed(9, stream(section([], 0x04), section([])), 7, 0)
    s.start(0, 1)
    s.feed(0, stream(section([]), section([], 0x18)), 13, 0)
    s.say("6 before 7: the next device's stored B4 and B3, in a check")
    s.start(0, 1, 1)
    s.feed(6, stream(section([]), section([])), 7, 0)
    s.say("7: the second device's control byte sets B3, in a check")
    s.reset(0)
    s.start(0, 1, 1)
    s.feed(7, stream(section([]), section([], 0x08)), 8, 0)
    s.say("a device's own stored B4 that this run has just set does not bar the next one")
    s.start(0, 1)
    s.feed(0, stream(section([], 0x10), section([], 0x10)), 13, 0)
    s.say("document 02: a check stores each device's control byte; the second device's B4 then gives 6, and 9 comes before it")
    s.reset(0)
    s.start(0, 1, 1)
    s.feed(0, stream(section([], 0x20), section([], 0x10)), 13, 0)
    assert s.c.registers[:2] == [0x20, 0x10]
    for check in (1, 0):
        s.start(0, 1, check)
        s.feed(6, stream(section([], 0x40), section([])), 7, 0)
        s.start(0, 1, check)
        s.feed(9, stream(section([], 0x04), section([])), 7, 0)
        assert s.c.registers[:2] == [0x04, 0x10]
    s.say("document 02: a check whose control byte sets B2 and B4 meets 9, and the run after it 6")
    s.reset(0)
    s.start(0, 6, 1)
    s.feed(9, stream(section([], 0x14), section([]), lead="B2B2"), 8, 0)
    s.start(0, 6, 1)
    s.feed(6, stream(section([]), lead="B2B2"), 2, 0)
    s.start(0, 1)
    s.feed(6, stream(section([])), 1, 0)


def cases_check(s):
    s.say("'A check stores nothing, counts data bytes that differ from their cells, and goes on'; 0: 'a run accepted, with its mismatch count'")
    s.new(0, 1, [0])
    s.fill(0x00, 0x01)
    s.start(0, 1, 1)
    s.feed(0, stream(section([window(0, 51, range(52))], 0x41)), 64, 0)
    s.start(0, 1, 1)
    s.feed(0, stream(section([window(0, 51, [i ^ (i % 3 == 0) for i in range(52)])])), 64, 18)
    s.start(0, 1, 1)
    s.feed(0, A, 15, 3)
    s.say("mismatches are answered so far at every byte, a cell met twice counts twice")
    s.start(0, 1, 1)
    for i, (b, mismatches) in enumerate(zip(A, (0,) * 11 + (1, 2, 3, 3))):
        s.byte(0 if i == 14 else 16, b, i + 1, mismatches)
    s.start(0, 1, 1)
    s.feed(0, stream(section([window(1, 1, "FF"), window(1, 1, "FF"), window(1, 1, "01")])), 25, 2)
    s.say("a check that is refused answers its mismatches too: 8, 11, 12")
    s.start(0, 1, 1)
    s.feed(8, A[:14] + b"\x00", 15, 3)
    s.start(0, 1, 1)
    s.feed(11, stream(section([window(9, 11, "112233"), window(52, 52, "44")])), 17, 3)
    s.start(0, 1, 1)
    s.feed(12, stream(section([window(9, 11, "09220B"), window(11, 51, bytes(41))]))[:17] + b"\x00\x0a", 19, 1)
    s.say("a check of what a write has stored finds none, of the same stream with one byte other one")
    s.start(0, 1)
    s.feed(0, A, 15, 0)
    s.start(0, 1, 1)
    s.feed(0, A, 15, 0)
    s.start(0, 1, 1)
    s.feed(0, A[:12] + b"\x23" + A[13:], 15, 1)
    s.say("a whole device of kind 2, checked in pieces that end inside a window")
    s.new(0, 1, [2])
    s.fill(0x00, 0x07, 2665)
    whole = stream(section([window(0, 2664, bytes((7 * i + (i % 1000 == 999)) % 256 for i in range(2665)))]))
    s.start(0, 1, 1)
    for i, mismatches in ((1010, 0), (1011, 1), (2010, 1), (2011, 2)):
        s.feed(16, whole[s.c.place.taken : i], i, mismatches)
    s.feed(0, whole[2011:], 2677, 2)


def cases_guide(s):
    s.say("the guide's full configuration: 52 cells, data 0 to 51")
    full = bytes.fromhex("B2 00 00 00 00 FE 00 00 00 00 33") + bytes(range(52)) + b"\x4d"
    s.new(0, 1, [0])
    s.fill(0xFF)
    s.start(0, 1)
    s.feed(0, full, 64, 0)
    assert s.mem[:52] == bytes(range(52))
    s.start(0, 1, 1)
    s.feed(0, full, 64, 0)
    s.list(0, 0, 1, full, (1, 0, "000000", 64, (0, 51, 11)))
    s.write(0, 0, 1, 0x00, "000000", [0], [51], range(52), full, 64)
    s.say("the guide's partial configuration: windows 9..11, 15..17, 21..23, 45..47, each cell its own number, all others untouched")
    rows = [(9, 11), (15, 17), (21, 23), (45, 47)]
    partial = stream(section([window(a, e, range(a, e + 1)) for a, e in rows]))
    assert partial[:14].hex(" ") == "b2 00 00 00 00 fb 00 00 09 00 0b 09 0a 0b"
    s.fill(0xFF)
    s.start(0, 1)
    s.feed(0, partial, 39, 0)
    assert s.mem[:52] == bytes(i if any(a <= i <= e for a, e in rows) else 0xFF for i in range(52))
    s.list(0, 0, 1, partial, (4, 0, "000000", 39, (9, 11, 11), (15, 17, 19), (21, 23, 27), (45, 47, 35)))
    s.write(0, 0, 1, 0x00, "000000", [a for a, _ in rows], [e for _, e in rows], [i for a, e in rows for i in range(a, e + 1)], partial)
    s.say("as printed, its end 13 hex for cell 11 makes a window 9..19: document 01 calls it a slip, and the stream runs out")
    s.start(0, 1)
    s.feed(16, partial[:10] + b"\x13" + partial[11:], 39, 0)


def cases_chains(s):
    s.say("two devices: 'Its memories lie one after another in one lent buffer'; each section loads its own register and cells")
    s.new(0, 2, [0, 0])
    s.fill(0x40)
    two = stream(section([window(0, 1, "A0A1"), window(51, 51, "AF")], 0x21), section([window(0, 0, "B0"), window(50, 51, "BEBF")], 0x42))
    s.start(0, 1)
    s.feed(0, two, 39, 0)
    s.start(0, 1, 1)
    s.feed(0, two, 39, 0)
    s.say("fewer sections than devices: 4D ends the run after any device")
    s.start(0, 1)
    s.feed(0, stream(section([window(2, 2, "CC")], 0x01)), 13, 0)
    s.say("mode 6 with two devices: two B2 before the first, one between them")
    s.fill(0x40)
    s.start(0, 6)
    s.feed(0, b"\xb2" + two, 40, 0)
    s.say("a second B2 between them is the control byte: what follows is read a byte late, and 32 00 is an end past the size")
    s.start(0, 6)
    s.feed(12, b"\xb2" + two[:20] + b"\xb2" + two[20:], 37, 0)
    s.say("the second device's size is its own: kinds 0 and 2, 2 and 0")
    s.new(0, 2, [0, 2])
    s.fill(0x40)
    s.start(0, 1)
    s.feed(0, stream(section([window(51, 51, "01")]), section([window(2664, 2664, "02"), window(51, 53, "030405")])), 33, 0)
    s.start(0, 1)
    s.feed(11, stream(section([]), section([window(2665, 2665, "02")])), 15, 0)
    s.new(0, 2, [2, 0])
    s.fill(0x40)
    s.start(0, 1)
    s.feed(0, stream(section([window(2664, 2664, "01")]), section([window(51, 51, "02")])), 25, 0)
    s.start(0, 1)
    s.feed(11, stream(section([]), section([window(52, 52, "02")])), 15, 0)
    for mode in (1, 6):
        s.say(f"eight devices in mode {mode}, each with a control byte and a cell of its own; a ninth section is 10")
        s.new(0, 8, [0, 2, 0, 3, 0, 0, 0, 0])
        s.fill(0x40)
        sections = [section([window(5 + i, 6 + i, [0xD0 + i, 0xE0 + i])], 0x20 + i - (i & 4)) for i in range(8)]
        lead = "B2B2" if mode == 6 else "B2"
        n = len(bytes_of(lead)) + 8 * 13
        s.start(0, mode)
        s.feed(0, stream(*sections, lead=lead), n, 0)
        s.start(0, mode, 1)
        s.feed(0, stream(*sections, lead=lead), n, 0)
        s.start(0, mode)
        s.feed(10, stream(*sections, section([]), lead=lead), n, 0)
        s.start(0, mode)
        s.feed(0, stream(*sections[:3], lead=lead), n - 65, 0)
    s.say("the largest chain: four devices of kind 10; last cell of the last device, and closing there")
    s.new(0, 4, [10, 10, 10, 10])
    s.fill(0x01, 0x01)
    last = stream(section([]), section([]), section([]), section([window(16379, 16380, "7677")], 0x80))
    s.start(0, 5)
    s.feed(16, last[:-2], 30, 0)
    s.closing(0, "F4 4D")
    s.feed(0, last[-2:], 32, 0)
    s.say("a whole device of kind 10 in the middle of a chain")
    s.new(0, 3, [0, 10, 0])
    s.fill(0x00)
    s.start(0, 2)
    whole = section([window(0, 16380, [i % 251 + 1 for i in range(16381)])])
    s.feed(0, stream(section([]), whole, section([window(0, 0, "99")])), 16411, 0)


def stopped(s, mode, check, stored, stopped_stream, k, kind=0):
    """A run of this stream after k bytes, with memory of many values and this register stored."""
    s.new(0, 1, [kind])
    s.fill(0x31, 0x05, SIZES[kind])
    load(s, stored)
    s.start(0, mode, check)
    s.feed(16, stopped_stream[:k], k)


def close(s, want, number):
    """The closing bytes, and that 'they' end the run at their last byte with this number and change no cell and no register."""
    before = s.mem, list(s.c.registers), s.c.place.taken, s.c.place.mismatches
    sent = s.closing(0, want, room=3000)
    assert len(sent) <= s.c.size() + 3
    s.feed(number, sent, (before[2] + len(sent)) % 2**32, before[3])
    assert (s.mem, s.c.registers) == before[:2] and not s.c.place.running


def cases_closing(s):
    two = stream(section([window(9, 11, "112233"), window(5, 5, "44", null=0xAA)], 0x81), lead="B2B2")
    at_2 = [("2: stored register, 00 00 00 FF 4D.", [("C3 00 00 00 FF 4D", 0)])]
    at_2 += [("document 02: In a check at 2, send 08 alone: number 7 ends it.", [("08", 7)])]
    below = "document 02: 00 when h equals the start's high byte and the start's low byte is not zero: the end is then below start"
    cells = [("5E 63 68 00 FF FF", 11), ("63 68 00 FF FF", 11), ("68 00 FF FF", 11)]
    for check in (0, 1):
        wants = [
            ("0, 1: 00.", [("00", 5), ("00", 5)]),
            at_2[check],
            ("3 to 5: the missing address bytes as 00, then FF 4D. 6: FF 4D.", [("00 00 00 FF 4D", 0), ("00 00 FF 4D", 0), ("00 FF 4D", 0), ("FF 4D", 0)]),
            ("7: 00 FF FF. 8: FF FF. 9: FF", [("00 FF FF", 11), ("FF FF", 11), ("FF", 11)]),
            (f"10: FF FF. 11, {below}", [("FF FF", 12), ("00", 12)]),
            ("12: present values of the remaining cells, then the tail. Tail: 00 FF FF if windows remain", cells),
            ("the second window: 7 to 11 as before", [("00 FF FF", 11), ("FF FF", 11), ("FF", 11), ("FF FF", 12), ("00", 12)]),
            ("Tail: .. else 4D. 13: 4D.", [("4A 4D", 0), ("4D", 0)]),
        ]
        k = 0
        for sentence, rows in wants:
            s.say(f"closing, 0, a {'check' if check else 'write'} in mode 6: '{sentence}'; fed, it ends the run")
            for want, number in rows:
                stopped(s, 6, check, 0xC3, two, k)
                close(s, want, number)
                k += 1
        assert k == len(two)
    big = 2
    for check in (0, 1):
        which = "check" if check else "write"
        s.say(f"closing, 0, kind 2, a {which}: '9: FF, then FF FF if that start is below size': start high 00, 09, then 0A")
        head = "B2 81 000000 FD 00"
        for high, want, number in (("00", "FF FF FF", 12), ("09", "FF FF FF", 12), ("0A", "FF", 11), ("FF", "FF", 11)):
            stopped(s, 1, check, 0x01, bytes_of(head + high), 8, big)
            close(s, want, number)
        s.say(f"closing, 0, kind 2, a {which}, 11: 'else 00; then the window's present cells': 0105..0200, 00FF..0900, 0000..0900")
        for count, tail, number in (("FD", "00 FF FF", 11), ("FE", "4D", 0)):
            for start, h in ((0x105, 0x02), (0xFF, 0x09), (0, 0x09)):
                stopped(s, 1, check, 0x01, bytes_of(f"B2 81 000000 {count} 00 {start:04x} {h:02x}"), 10, big)
                present = bytes((0x31 + 5 * i) % 256 for i in range(start, 256 * h + 1))
                close(s, b"\x00" + present + bytes_of(tail), number)
    s.say("closing, 0: 'At most size + 3 bytes': the whole device awaited, a window after it; the other kinds at 9")
    stopped(s, 1, 0, 0x01, bytes_of("B2 81 000000 FD 00 0000 0033"), 11)
    close(s, bytes((0x31 + 5 * i) % 256 for i in range(52)) + b"\x00\xff\xff", 11)
    rows = [(3, "0F", "FFFFFF", 12), (3, "10", "FF", 11), (5, "1E", "FFFFFF", 12), (5, "1F", "FF", 11), (10, "3E", "FFFFFF", 12), (10, "3F", "FF", 11)]
    for kind, high, want, number in rows:
        stopped(s, 1, 0, 0x01, bytes_of("B2 81 000000 FE 00" + high), 8, kind)
        close(s, want, number)
    s.say("closing, 0, on the second device: its stored register, its size, its cells")
    second = stream(section([], 0x41), section([window(9, 11, "112233"), window(5, 5, "44")], 0x42))
    wants = [("85 00 00 00 FF 4D", 0), ("00 00 00 FF 4D", 0), ("00 00 FF 4D", 0), ("00 FF 4D", 0), ("FF 4D", 0), ("00 FF FF", 11), ("FF FF", 11)]
    wants += [("FF", 11), ("FF FF", 12), ("00", 12), ("62 67 6C 00 FF FF", 11), ("67 6C 00 FF FF", 11), ("6C 00 FF FF", 11), ("00 FF FF", 11)]
    wants += [("FF FF", 11), ("FF", 11), ("FF FF", 12), ("00", 12), ("4E 4D", 0), ("4D", 0)]
    for check in (0, 1):
        for k, (want, number) in enumerate([("08", 7), *wants[1:]] if check else wants, 7):
            s.new(0, 2, [0, 0])
            s.fill(0x31, 0x05, 104)
            load(s, 0x41, 0x85)
            s.start(0, 1, check)
            s.feed(16, second[:k], k)
            close(s, want, number)
    s.say("closing, 1, 17, 4: 'Closing and save: 4, 15'; 'Answers other than 0 leave outputs .. unchanged'")
    s.new(0, 1, [0])
    s.closing(4)
    s.closing(4, room=0)
    s.closing(1, lent=51)
    s.start(0, 1)
    s.feed(16, A[:12])
    s.closing(1, lent=53)
    s.closing(1, room=0, lent=0)
    s.state(Chain(1, [0, 2] + [0] * 6))
    s.closing(17)
    s.say("closing, 15: 'output .. shorter than needed', by one and by all; exactly enough, and more, where only the front is written")
    for k in (0, 2, 6, 7, 11, 12, 14):
        stopped(s, 1, 0, 0x01, A, k)
        n = len(s.closing(0, room=80))
        s.closing(15, room=n - 1)
        s.closing(15, room=0)
        s.closing(0, room=n)
    s.say("'They are written, not fed': the run goes on where it was")
    s.feed(0, A[14:], 15, 0)
    s.say("closing, 15: one byte short of 00 alone at 11, of 08 alone, and of 00, a cell and the tail")
    rows = [(0, 0, A, 10, "00"), (2, 1, A, 10, "00"), (0, 1, A, 1, "08"), (2, 1, A, 1, "08")]
    rows += [(2, 0, bytes_of("B2 81 000000 FE 00 0100 01"), 10, "00 31 4D"), (2, 1, bytes_of("B2 81 000000 FD 00 0100 01"), 10, "00 31 00 FF FF")]
    for kind, check, sent, k, want in rows:
        stopped(s, 1, check, 0x24, sent, k, kind)
        n = len(bytes_of(want))
        s.closing(15, "", room=n - 1)
        s.closing(0, want, room=n)
        s.closing(0, want, room=n + 1)


def at_11(s, check, left, start, h, want, number, front=""):
    """The closing bytes of an open run at 11 that has this start and end high byte, after these bytes for devices before; all is as it was then."""
    sent = bytes_of(f"B2 {front} 81 000000 {0xFF - left:02x} 00 {start:04x} {h:02x}")
    s.start(0, 1, check)
    s.feed(16, sent, len(sent))
    assert s.c.place.awaited == 11
    close(s, want, number)


def cases_closing_11(s):
    s.say("closing at 11, h the end's high byte; first document 02: 'send 00 when h equals the start's high byte and the start's low byte is not zero'")
    s.say("then 'FF if 256h + 255 is not below size or is below start'; then 'else 00; then the window's present cells, then the tail'")
    s.say("no kind has a size that is 255 or 0 modulo 256 (52, 2,665, 4,141, 8,065, 16,381); tried for each is the last cell's h, and the one before it")
    assert all(size % 256 not in (0, 255) for size in SIZES.values())
    for kind, size in SIZES.items():
        last = size // 256
        s.new(0, 1, [kind])
        s.fill(0x31, 0x05, size)
        load(s, 0x81)
        for check in (0, 1):
            for left, tail, number in ((1, "4D", 0), (2, "00 FF FF", 11)):
                which = f"a {'check' if check else 'write'}, windows left {left}"
                s.say(f"closing, 0, kind {kind}, {which}, the last cell's h, {last:02x}: 256h + 255 is not below size; low bytes 0, 1, the last cell's")
                at_11(s, check, left, 256 * last, last, "FF", 12)
                at_11(s, check, left, 256 * last + 1, last, "00", 12)
                at_11(s, check, left, size - 1, last, "00", 12)
                at_11(s, check, left, 256 * last + 1, last + 1, "FF", 12)
                at_11(s, check, left, 256 * last + 1, 0xFF, "FF", 12)
                if last == 0:
                    continue
                h = last - 1
                at_11(s, check, left, 256 * h, last, "FF", 12)
                at_11(s, check, left, 256 * h + 255, last, "FF", 12)
                s.say(f"the h before it, {h:02x}: 256h + 255 is below size; low bytes 0, 1 and 255; h one below the start's, and one above")
                at_11(s, check, left, 256 * h, h, "00 31" + tail, number)
                at_11(s, check, left, 256 * h + 1, h, "00", 12)
                at_11(s, check, left, 256 * h + 255, h, "00", 12)
                at_11(s, check, left, 256 * last, h, "FF", 12)
                at_11(s, check, left, 256 * last + 1, h, "FF", 12)
                at_11(s, check, left, 256 * h - 1, h, "00 2C 31" + tail, number)
                at_11(s, check, left, 256 * h - 2, h, "00 27 2C 31" + tail, number)
                if kind == 2:
                    s.say("h far from the start's: below it, and past the size; h the start's in the middle of the device")
                    for start, h in ((0x0105, 0x00), (0x0A68, 0x00), (0x0A68, 0x09), (0x0105, 0x0A), (0x0000, 0x0A), (0x0000, 0xFF)):
                        at_11(s, check, left, start, h, "FF", 12)
                    at_11(s, check, left, 0x0105, 0x01, "00", 12)
                    at_11(s, check, left, 0x0000, 0x00, "00 31" + tail, number)
    s.say("the same on the second device of a chain, kind 2 behind kind 0: its own size, its own cells; and kind 0 behind kind 2")
    for kinds in ([0, 2], [2, 0]):
        s.new(0, 2, kinds)
        s.fill(0x31, 0x05, 2717)
        load(s, 0x41, 0x81)
        for check in (0, 1):
            for left, tail, number in ((1, "4D", 0), (2, "00 FF FF", 11)):
                rows = [(0x0009, 0x00, "00", 12), (0x0033, 0x00, "00", 12), (0x0009, 0xFF, "FF", 12), (0x0001, 0x0A, "FF", 12)]
                if kinds == [0, 2]:
                    rows += [(0x0000, 0x00, "00 35" + tail, number), (0x0100, 0x01, "00 35" + tail, number), (0x00FF, 0x01, "00 30 35" + tail, number)]
                    rows += [(0x0101, 0x01, "00", 12), (0x01FF, 0x01, "00", 12), (0x0A68, 0x0A, "00", 12)]
                    rows += [(0x0200, 0x01, "FF", 12), (0x0A00, 0x0A, "FF", 12)]
                else:
                    rows += [(0x0000, 0x00, "FF", 12), (0x0001, 0x01, "FF", 12)]
                for start, h, want, ends in rows:
                    at_11(s, check, left, start, h, want, ends, front="41 000000 FF B2")


def cases_closing_2(s):
    for mode in (1, 6):
        lead = "B2B2" if mode == 6 else "B2"
        s.say(f"document 02, a check at 2 in mode {mode}: '08 alone: number 7 ends it'; the register is kept, and the check started afresh goes on")
        for stored in (0x00, 0x01, 0x04, 0x24, 0x80, 0xE7):
            stopped(s, mode, 1, stored, bytes_of(lead), len(bytes_of(lead)))
            close(s, "08", 7)
            assert s.c.registers[0] == stored
            s.start(0, mode, 1)
            s.feed(0, stream(section([window(9, 11, "5E6368")], 0x02), lead=lead), 14 + len(bytes_of(lead)), 0)
            assert s.c.registers[0] == 0x02
        s.say(f"a write at 2 in mode {mode}: 'stored register, 00 00 00 FF 4D', B3 set or clear")
        for stored in (0x00, 0x01, 0x08, 0x24, 0x2C, 0xEF):
            stopped(s, mode, 0, stored, bytes_of(lead), len(bytes_of(lead)))
            close(s, bytes([stored]) + bytes_of("00 00 00 FF 4D"), 0)
            assert s.c.registers[0] == stored
    s.say("at 2 on the second device of a chain: a check 08, a write six bytes with its own register; both registers are kept, and a fresh start goes on")
    both = stream(section([window(0, 0, "31")], 0x01), section([window(51, 51, "34")], 0x02))
    for stored in (0x00, 0x01, 0x24, 0xE7):
        for check in (1, 0):
            s.new(0, 2, [0, 0])
            s.fill(0x31, 0x05, 104)
            load(s, 0x40, stored)
            s.start(0, 1, check)
            s.feed(16, both[:13], 13, 0)
            assert (s.c.place.awaited, s.c.place.device) == (2, 1)
            close(s, "08" if check else bytes([stored]) + bytes_of("00 00 00 FF 4D"), 7 if check else 0)
            assert s.c.registers[:2] == [0x01, stored]
            s.start(0, 1, check)
            s.feed(0, both, len(both), 0)
            assert s.c.registers[:2] == [0x01, 0x02]


# "Saved place, 27 bytes" and what is well formed: (sentence, place, registers, well formed)


def rows_of_places():
    """Every sentence of the paragraph with places on both sides of it, for a chain of kinds 0 and 2 and unused registers zero."""
    base = {12: dict(start=3, next=5, end=9), 11: dict(start=3, end=0), 10: dict(start=3), 9: dict(start=0)}

    def at(awaited, mode=1, check=0, control=0, left=None, **fields):
        left = (1 if 7 <= awaited <= 12 else 0) if left is None else left
        return Place(1, mode, check, awaited=awaited, left=left, control=control, **(base.get(awaited, {}) | fields))

    rows = []

    def row(sentence, good, place, registers=()):
        rows.append((sentence, place, eight(registers), good))

    for awaited in range(14):
        for check in (0, 1):
            row("every awaited byte, a write and a check", True, at(awaited, 6, check))
            if awaited > 1:
                row("every awaited byte on the second device", True, at(awaited, 6, check, device=1))
    for mode in range(8):
        row("mode 1 to 6", 1 <= mode <= 6, at(7, mode))
    for awaited in (14, 15):
        row("awaited 0 to 13", False, at(awaited))
        row("awaited 0 to 13", False, at(awaited, left=1))
    for device in (2, 7):
        row("device in the chain", False, at(7, device=device))
    for i in (2, 7):
        row("unused registers 0", False, at(7), [0] * i + [1])
    row("used registers are any", True, at(0), [0xFF, 0xFF])
    row("mismatches 0 in a write", False, at(7, mismatches=1))
    row("mismatches 0 in a write", False, at(7, mismatches=2**32 - 1))
    row("mismatches of a check are any", True, at(7, check=1, mismatches=2**32 - 1))
    row("taken is any", True, at(0, taken=2**32 - 1))
    for awaited in (0, 1):
        row("Awaited 0 and 1 only on device 0", False, at(awaited, 6, device=1))
    for mode in range(1, 7):
        row("1 only in mode 6", mode == 6, at(1, mode))
    for awaited in (0, 1, 2):
        for check in (0, 1):
            row("Control byte 0 before it is taken", False, at(awaited, 6, check, control=0x01), [0x01])
    for awaited in (3, 4, 5, 6, 7, 8, 9, 10, 11, 12, 13):
        for check in (0, 1):
            equal = "document 02: the current control byte equals the stored register in both sorts of run"
            row(equal, True, at(awaited, check=check, control=0x52), [0x52])
            row(equal, False, at(awaited, check=check, control=0x52), [0x53, 0x52])
            row(equal, False, at(awaited, check=check), [0x52])
            row(equal, False, at(awaited, check=check, control=0x52))
        row("and in a check with B3 clear", True, at(awaited, check=1, control=0xF7), [0xF7])
        row("and in a check with B3 clear", False, at(awaited, check=1, control=0x08), [0x08])
        row("and in a check with B3 clear", False, at(awaited, check=1, control=0xFF), [0xFF])
    for check in (0, 1):
        row("its own device's register", True, at(6, check=check, device=1, control=0x52), [0x00, 0x52])
        row("its own device's register", False, at(6, check=check, device=1, control=0x52), [0x52, 0x00])
    row("in a write B3 and B4 may be set", True, at(6, control=0xFF), [0xFF])
    for awaited in (0, 1, 2, 3, 4, 5, 6, 13):
        for field in ("left", "start", "end", "next"):
            row("Awaited 0 to 6 and 13: windows, start, end, next 0", False, at(awaited, 6, **{field: 1}))
    for awaited in range(7, 13):
        row("7 to 12: windows at least 1", False, at(awaited, left=0))
        row("7 to 12: windows at least 1", True, at(awaited, left=255))
    for awaited in (7, 8):
        for field in ("start", "end", "next"):
            row("7, 8: start, end, next 0", False, at(awaited, **{field: 256}))
    row("9: start's low byte 0", False, at(9, start=1))
    row("9: start's low byte 0", False, at(9, start=0x0101))
    row("9: start's low byte 0; its high byte is any", True, at(9, start=0xFF00))
    for awaited, text in ((9, "9: .. end and next 0"), (10, "10: .. end and next 0")):
        for field in ("end", "next"):
            row(text, False, at(awaited, **{field: 256}))
    for awaited in (10, 11):
        text = f"{awaited}: start below size"
        for device, size in ((0, 52), (1, 2665)):
            row(text, True, at(awaited, device=device, start=size - 1))
            row(text, False, at(awaited, device=device, start=size))
    row("11: .. end's low byte 0", False, at(11, end=1))
    row("11: .. end's low byte 0; its high byte is any", True, at(11, end=0xFF00))
    row("11: .. next 0", False, at(11, next=1))
    for device, size in ((0, 52), (1, 2665)):
        last = size - 1
        for start, cell, end in ((0, 0, 0), (0, 0, last), (last, last, last), (5, 5, 9), (5, 9, 9)):
            row("12: start <= next <= end < size", True, at(12, device=device, start=start, next=cell, end=end))
        for start, cell, end in ((5, 4, 9), (5, 10, 9), (9, 7, 5), (0, 0, size), (size, size, size), (0, size, size)):
            row("12: start <= next <= end < size", False, at(12, device=device, start=start, next=cell, end=end))
    for device in (0, 1):
        for check in (0, 1):
            stored = [0x01] * device
            row("At 2: stored B4 clear", False, at(2, check=check, device=device), stored + [B4])
            row("At 2: .. in a check B3 too", not check, at(2, check=check, device=device), stored + [B3])
            row("At 2: the other bits are any", True, at(2, check=check, device=device), stored + [0xE7])
    row("At 2: the other devices' registers are any", True, at(2), [0x00, 0xFF])
    row("after 2: stored B4 may be set in a check", True, at(3, check=1, control=0x10), [0x10])
    return rows


def refused(s):
    """17 from every call but reset, which is taken."""
    s.start(17, 1)
    s.byte(17, 0x00, 0, 0)
    s.feed(17, A, 0, 0)
    s.closing(17)
    s.save(17)
    s.pick_up(17, GOOD)
    s.reset(0)


GOOD = saved_of(Chain(2, eight([0, 2]), [0] * 8, Place(1, 1)))


def cases_saved(s):
    two = stream(section([window(9, 11, "112233"), window(5, 5, "44")], 0x81), lead="B2B2")
    s.say("save, 0: 'Bit-packed fields, most significant first'; every awaited byte of a write and of a check; 'Saving leaves the run open'")
    for check in (0, 1):
        for k in range(len(two)):
            stopped(s, 6, check, 0xC3, two, k)
            s.save(0, room=30)
            s.feed(0, two[k:], len(two), 4 * check)
    s.say("save, 0: the bytes of three places worked out by hand")
    stopped(s, 1, 0, 0xC3, A, 12)
    zeros = "00 00 00 00 00 00 00"
    s.save(0, f"12 18 01 00 0009 000B 000A 0000000C 00000000 00 {zeros} 00")
    stopped(s, 6, 1, 0xC3, two, 13)
    s.save(0, f"1D 18 02 00 0009 000B 000A 0000000D 00000001 81 {zeros} 81")
    s.new(0, 8, [0] * 8)
    load(s, 1, 2, 3, 0x20, 0x21, 0x22, 0x23, 0x28)
    s.start(0, 5)
    s.feed(16, stream(*[section([], 0x40 + i) for i in (0, 1, 2, 3, 8, 9, 10, 11)])[:-1], 48, 0)
    s.save(0, "1A FA 00 00 0000 0000 0000 00000030 00000000 40 41 42 43 48 49 4A 4B 4B")
    s.say("save, 15: 26 bytes and none; more than 27: the front only")
    s.save(15, room=26)
    s.save(15, room=0)
    s.save(0, room=60)
    s.say("save, 1 before 17 before 4 before 15")
    s.save(1, lent=415)
    s.save(1, room=0, lent=0)
    s.new(0, 1, [0])
    s.save(4)
    s.save(4, room=0)
    s.state(Chain(1, [0, 2] + [0] * 6))
    s.save(17, room=0)
    s.say("pick-up, 1 before 17 before 3, 'after the state's own, 3, then 17 for the place'")
    s.new(0, 2, [0, 2])
    s.pick_up(1, GOOD, lent=2716)
    s.pick_up(1, "", lent=0)
    s.pick_up(17, "")
    s.start(0, 1)
    s.pick_up(3, GOOD)
    s.pick_up(3, "")
    s.pick_up(1, GOOD, lent=0)
    s.state(Chain(2, [0, 2, 2] + [0] * 5, [0] * 8, Place(1, 1)))
    s.pick_up(17, GOOD)
    s.state(Chain(2, eight([0, 2]), [0, 0, 1] + [0] * 5))
    s.pick_up(17, GOOD)
    s.say("pick-up, 17: 'length 27'")
    s.new(0, 2, [0, 2])
    for place in (GOOD[:26], GOOD + b"\x00", b"", GOOD[1:], GOOD + GOOD, GOOD[:1]):
        s.pick_up(17, place)
    s.say("pick-up, 17: 'form 1'")
    for form in (0, 2, 3, 4, 8, 9, 15):
        s.pick_up(17, bytes([form * 16 + GOOD[0] % 16]) + GOOD[1:])
    s.say("pick-up, 17: 'zero bits 0'")
    s.pick_up(17, GOOD[:1] + bytes([GOOD[1] | 1]) + GOOD[2:])
    for bit in range(8):
        s.pick_up(17, GOOD[:3] + bytes([1 << bit]) + GOOD[4:])
    s.pick_up(0, GOOD)
    s.say("the same chain: a place of kind 2 is not well formed where that device is of kind 0")
    s.new(0, 2, [2, 2])
    wide = saved_of(Chain(2, eight([2, 2]), [0] * 8, Place(1, 1, awaited=12, left=1, start=50, next=51, end=60)))
    s.pick_up(0, wide)
    s.new(0, 2, [0, 2])
    s.pick_up(17, wide)
    last = ""
    for sentence, place, registers, good in rows_of_places():
        if sentence != last:
            s.say(f"well formed: '{sentence}': the place saved, and the same place lent open")
            last = sentence
        c = Chain(2, eight([0, 2]), registers, place)
        s.new(0, 2, [0, 2])
        s.pick_up(0 if good else 17, saved_of(c))
        s.state(c)
        if good:
            s.feed(16, "", place.taken, place.mismatches)
        else:
            refused(s)
    s.say("well formed, of lent states alone: running and check not 0 or 1, numbers that a saved place has no room for")
    places = [Place(2, 1), Place(255, 1), Place(1, 1, 2), Place(1, 1, 255), Place(1, 255), Place(1, 9), Place(1, 0)]
    places += [Place(1, 1, 0, 8), Place(1, 1, 0, 255, 7, 1), Place(1, 1, 0, 0, 16), Place(1, 1, 0, 0, 255, 1)]
    for place in places:
        s.state(Chain(2, eight([0, 2]), [0] * 8, place))
        refused(s)


def cases_picked_up(s):
    s.say("'Bytes taken and mismatches are kept modulo 2^32': picked up at 2^32 - 1, then fed, a check")
    top = 2**32 - 1
    c = Chain(1, [0] * 8, [0] * 8, Place(1, 1, 1, awaited=12, left=1, start=9, next=9, end=11, taken=top, mismatches=top))
    s.new(0, 1, [0])
    s.fill(0x00, 0x01)
    s.pick_up(0, saved_of(c))
    s.feed(16, "", top, top)
    s.byte(16, 0x09, 0, top)
    s.byte(16, 0xFF, 1, 0)
    s.feed(0, "FF 4D", 3, 1)
    s.pick_up(0, saved_of(c))
    s.feed(0, "FF FF FF 4D", 3, 2)
    s.say("the same in a write, and a refused byte that wraps")
    c.place = replace(c.place, check=0, mismatches=0)
    s.pick_up(0, saved_of(c))
    s.feed(0, "11 22 33 4D", 3, 0)
    c.place = Place(1, 1, taken=top)
    s.pick_up(0, saved_of(c))
    s.byte(5, 0x00, 0, 0)
    s.say("a bulk of data bytes that wraps both: kind 2, 2,665 mismatches")
    s.new(0, 1, [2])
    s.fill(0x00)
    c = Chain(1, eight([2]), [0] * 8, Place(1, 1, 1, awaited=12, left=1, start=0, next=0, end=2664, taken=top - 999, mismatches=top - 1999))
    s.pick_up(0, saved_of(c))
    s.feed(16, b"\x01" * 2665, 1665, 665)
    s.save(0)
    s.byte(0, 0x4D, 1666, 665)
    s.say("'an older B4 comes back with them', set: the second device's B4 was set when the place was saved, reset cleared it, the pick-up brings it back")
    s.new(0, 2, [0, 0])
    s.fill(0x40)
    load(s, 0x01, 0x10)
    s.start(0, 1)
    s.feed(16, A[:13], 13, 0)
    place = s.save(0)
    s.reset(0)
    s.pick_up(0, place)
    assert s.c.registers[1] == 0x10
    s.feed(16, A[13:14], 14, 0)
    s.feed(6, stream(section([]), section([]))[6:], 15, 0)
    s.say("the same, clear: saved while it was clear, set by a later run, the pick-up clears it and the second device is begun")
    s.reset(0)
    load(s, 0x01, 0x02)
    s.start(0, 1)
    s.feed(16, A[:13], 13, 0)
    place = s.save(0)
    s.reset(0)
    load(s, 0x03, 0x10)
    s.start(0, 1)
    s.feed(6, stream(section([]), section([])), 7, 0)
    s.pick_up(0, place)
    assert s.c.registers[:2] == [0x00, 0x02]
    s.feed(0, A[13:14] + stream(section([]), section([window(0, 0, "77")], 0x05))[6:], 27, 0)
    s.say("the same on the first device itself: B4 of the stream's own control byte, saved after it was taken")
    s.reset(0)
    s.start(0, 1)
    s.feed(16, "B2 10 00", 3, 0)
    place = s.save(0)
    s.reset(0)
    s.pick_up(0, place)
    s.feed(0, A[3:], 15, 0)
    s.start(0, 1)
    s.byte(6, PREAMBLE)
    s.say("lent registers that a place at 0 brings back with B4 set: it is taken, and its B2 is 6")
    s.reset(0)
    s.pick_up(0, saved_of(Chain(2, [0] * 8, eight([0x10]), Place(1, 1))))
    s.byte(6, PREAMBLE, 1, 0)
    s.say("picked up twice: the saved bytes are not used up")
    s.reset(0)
    for _ in range(2):
        s.pick_up(0, saved_of(Chain(2, [0] * 8, [0] * 8, Place(1, 1))))
        s.feed(0, A, 15, 0)


def cases_hunt(s):
    s.say("hunt, 0: 'the first bit position p, 0 to 64, where eight bits make B2. It writes the whole bytes that start at p .. and drops a last part byte'")

    for p, left in ((0, 0), (1, 7), (8, 0), (64, 0)):
        sent = at_bit(p, A)
        assert len(sent) == 15 + (p + 7) // 8
        s.hunt(0, sent, A, room=24, where=(p, left))
    s.say("hunt, 0: every other position, zeros before the preamble; then every position, ones before it")
    for p in range(65):
        if p not in (0, 1, 8, 64):
            s.hunt(0, at_bit(p, A[:4]), A[:4], room=8, where=(p, -p % 8))
    for p in range(1, 65):
        s.hunt(0, at_bit(p, A[:3], 1), A[:3], room=8, where=(p, -p % 8))
    s.say("hunt, 0: 'the number of bits left after the last whole byte': a last byte that is not whole, cut off or sent, for each of its lengths")
    for p in (57, 58, 59, 60, 61, 62, 63):
        sent = at_bit(p, A[:3])
        s.hunt(0, sent, A[:3], room=8, where=(p, 64 - p))
        s.hunt(0, sent[:-1], A[:2], room=8, where=(p, 64 - p))
    s.say("hunt, 5: 'without a position': p = 65, 66, 72; zeros; ones; nothing; B2 cut short")
    for p in (65, 66, 71, 72):
        s.hunt(5, at_bit(p, A))
    for sent in ("00" * 20, "FF" * 20, "", "B1", "59", "64", "00 00 00 00 00 00 00 00"):
        s.hunt(5, sent)
    s.hunt(5, "00" * 8 + "32")
    s.say("hunt, 0: eight bits are enough, at p = 0 and at p = 64")
    s.hunt(0, "B2", "B2", room=1, where=(0, 0))
    s.hunt(0, "00" * 8 + "B2", "B2", room=1, where=(64, 0))
    s.hunt(0, "64 01", "B2", room=1, where=(1, 7))
    s.say("hunt, 0: the first of two positions: 0 and 8; 3 and 16")
    s.hunt(0, "B2 B2", "B2 B2", where=(0, 0))
    s.hunt(0, "90 05 B2", "B2 40", where=(3, 5))
    s.say("hunt, 15: 'output .. shorter than needed'; 'Hunt: 5, 15'; p and left are 'both 0 on a refusal', though the position is there")
    s.hunt(15, A, room=14)
    s.hunt(15, A, room=0)
    s.hunt(15, at_bit(3, A), room=14)
    s.hunt(5, "00 00", room=0)
    s.hunt(0, A, A, room=15)
    s.say("'The machine is fed these': a stream in mode 3, four bits late, hunted and fed; mode 4 likewise")
    s.new(0, 1, [0])
    s.fill(0x40)
    for mode in (3, 4):
        written = s.write(0, 0, mode, 0x00, "000000", [9], [11], "112233")
        hunted = s.hunt(0, at_bit(4, written))
        s.start(0, mode)
        s.feed(0, hunted, 15, 0)
    s.say("a long stream, at a bit offset: kind 2 whole")
    whole = stream(section([window(0, 2664, [i % 253 for i in range(2665)])]))
    s.hunt(0, at_bit(13, whole), whole, room=2700)


def cases_write(s):
    s.say("write, 0: 'Its lead-in is B2 in modes 1, 2, 5; 00 B2 in 3, 4; B2 B2 in 6. Null bytes are 00.'")
    body = "A5 01 02 03 FD 00 0009 000B 112233 00 0033 0033 44 4D"
    for mode, lead in ((1, "B2"), (2, "B2"), (3, "00 B2"), (4, "00 B2"), (5, "B2"), (6, "B2 B2")):
        s.write(0, 0, mode, 0xA5, "010203", [9, 51], [11, 51], "11223344", lead + body, room=40)
    s.say("write, 0: no windows; 255 windows")
    s.write(0, 0, 1, 0xFF, "FFFFFF", [], [], "", "B2 FF FFFFFF FF 4D")
    s.write(0, 0, 6, 0x00, "000000", [i % 52 for i in range(255)], [i % 52 for i in range(255)], range(255), room=1538)
    for kind, size in SIZES.items():
        s.say(f"write, 0: 'One window over a whole device takes size + 12 bytes in mode 1': kind {kind}, {size + 12}")
        data = [(i * i) % 251 for i in range(size)]
        whole = s.write(0, kind, 1, 0x00, "000000", [0], [size - 1], data, room=size + 12)
        assert len(whole) == size + 12
        if kind == 2:
            assert len(whole) == 2677
            for mode in (3, 4, 6):
                s.write(15, kind, mode, 0x00, "000000", [0], [size - 1], data, room=2677)
        s.list(0, kind, 1, whole, (1, 0, "000000", size + 12, (0, size - 1, 11)))
    s.say("write, 0: 'Each window goes into the output from where the last one stopped', in the order given, overlaps too")
    s.write(0, 2, 1, 0x00, "000000", [300, 5, 4], [302, 6, 5], "A1A2A3B1B2C1C2", "B2 00000000 FC 00012C012E A1A2A3 0000050006 B1B2 0000040005 C1C2 4D")
    s.write(0, 2, 1, 0x00, "000000", [255, 256, 2559], [255, 257, 2560], "A1B1B2C1C2", "B2 00000000 FC 0000FF00FF A1 0001000101 B1B2 0009FF0A00 C1C2 4D")
    s.say("write, 1: an unknown kind, before everything; 2: 'writer .. with a mode not 1 to 6'")
    for kind in (1, 4, 6, 9, 11, 255):
        s.write(1, kind, 1, 0x00, "000000", [0], [0], "11")
    s.write(1, 1, 0, 0x00, "000000", [0], [], "", room=0)
    for mode in (0, 7, 255):
        s.write(2, 0, mode, 0x00, "000000", [0], [0], "11")
        s.write(2, 0, mode, 0x00, "000000", [99], [], "", room=0)
    s.say("write, 13: 'start and end tables differ in length'; before any window is looked at")
    s.write(13, 0, 1, 0x00, "000000", [9, 5], [11], "112233")
    s.write(13, 0, 1, 0x00, "000000", [], [11], "")
    s.write(13, 0, 1, 0x00, "000000", [99], [], "", room=0)
    s.say("write, 13: '.. or exceed 255': 256 windows; 256 and 255")
    s.write(13, 0, 1, 0x00, "000000", [0] * 256, [0] * 256, bytes(256), room=2000)
    s.write(13, 0, 1, 0x00, "000000", [99] * 256, [0] * 255, bytes(256), room=2000)
    s.say("write, 11: 'start not below the device's size'; 12: 'end below start or not below size'; 'window by window 11, 12'")
    for kind, size in SIZES.items():
        s.write(11, kind, 1, 0x00, "000000", [size], [size], "11")
        s.write(12, kind, 1, 0x00, "000000", [size - 1], [size], "1122")
        s.write(12, kind, 1, 0x00, "000000", [size - 1], [size - 2], "")
        s.write(0, kind, 1, 0x00, "000000", [size - 1], [size - 1], "11")
    s.write(11, 0, 1, 0x00, "000000", [0xFFFF], [0], "11")
    s.write(12, 0, 1, 0x00, "000000", [0], [0xFFFF], "11")
    s.write(12, 0, 1, 0x00, "000000", [9, 52], [8, 52], "")
    s.write(11, 0, 1, 0x00, "000000", [9, 52, 9], [9, 8, 8], "", room=0)
    s.say("write, 14: 'data length is not the sum of the windows', by one either way; before 15")
    s.write(14, 0, 1, 0x00, "000000", [9, 5], [11, 5], "112233")
    s.write(14, 0, 1, 0x00, "000000", [9, 5], [11, 5], "1122334455")
    s.write(14, 0, 1, 0x00, "000000", [], [], "11")
    s.write(14, 0, 1, 0x00, "000000", [9], [11], "", room=0)
    s.say("write, 15: 'output .. shorter than needed' in each lead-in; exactly enough")
    for mode, n in ((1, 15), (2, 15), (3, 16), (4, 16), (5, 15), (6, 16)):
        s.write(15, 0, mode, 0x00, "000000", [9], [11], "112233", room=n - 1)
        s.write(0, 0, mode, 0x00, "000000", [9], [11], "112233", room=n)
    s.write(15, 0, 1, 0x00, "000000", [], [], "", room=0)


def cases_list(s):
    s.say("list, 0: windows, control byte, external address, bytes taken; 'data offsets (32 bits, from the preamble that precedes the control byte ..)'")
    two = section([window(9, 11, "112233"), window(51, 51, "44", null=0xB2)], 0xA5, "010203")
    want = (2, 0xA5, "010203", 21)
    for mode in range(1, 7):
        s.list(0, 0, mode, stream(two, lead="B2B2" if mode == 6 else "B2"), (*want[:3], 21 + (mode == 6), (9, 11, 11), (51, 51, 19)))
    s.say("list, 0: bytes after the postamble are not looked at; tables of exactly enough; no windows and no tables")
    s.list(0, 0, 1, stream(two) + b"\xff" * 9, want, tables=(2, 2, 2))
    s.list(0, 0, 1, EMPTY, (0, 0, "000000", 7), tables=(0, 0, 0))
    s.say("list, 0: 'for one freshly reset device', as a write: B3 and B4 in the control byte are no matter")
    s.list(0, 0, 1, stream(section([window(0, 0, "00")], 0xFF)), (1, 0xFF, "000000", 13, (0, 0, 11)))
    s.say("list, 0: 255 windows")
    many = stream(section([window(i % 52, i % 52, [i]) for i in range(255)]))
    s.list(0, 0, 1, many, (255, 0, "000000", 1537), tables=(255, 256, 300))
    s.say("list, 1: the kind, before everything; 2: the mode; bytes taken 0")
    for kind in (1, 4, 11, 255):
        s.list(1, kind, 1, stream(two), (0, 0, "000000", 0))
    s.list(1, 1, 0, "", (0, 0, "000000", 0), tables=(0, 0, 0))
    for mode in (0, 7, 255):
        s.list(2, 0, mode, stream(two), (0, 0, "000000", 0))
    s.say("list, 5: at the first preamble, at the second in mode 6; in modes 3 and 4 it is lent the hunted bytes, and does not hunt")
    s.list(5, 0, 1, "00" + stream(two).hex(), (0, 0, "000000", 1))
    s.list(5, 0, 3, "00" + stream(two).hex(), (0, 0, "000000", 1))
    s.list(5, 0, 6, stream(two), (0, 0, "000000", 2))
    s.say("list, 8, 9, 10, 11, 12: 'the stream's own number', with the bytes taken")
    s.list(8, 0, 1, stream(two)[:-1] + b"\x00", (0, 0, "000000", 21))
    s.list(9, 0, 1, stream(two, two), (0, 0, "000000", 21))
    s.list(10, 0, 1, stream(section([]), two), (0, 0, "000000", 7))
    s.list(11, 0, 1, stream(section([window(9, 11, "112233"), window(52, 52, "44")])), (0, 0, "000000", 17))
    s.list(12, 0, 1, stream(section([window(0, 52, bytes(53))])), (0, 0, "000000", 11))
    s.list(12, 0, 1, "B2 00 000000 FE 00 000B 0009", (0, 0, "000000", 11))
    s.list(0, 2, 1, stream(section([window(0, 52, bytes(53)), window(2664, 2664, "01")])), (2, 0, "000000", 71, (0, 52, 11), (2664, 2664, 69)))
    s.say("list, 16: 'slice used up', at every byte of a stream")
    for k in range(21):
        s.list(16, 0, 1, stream(two)[:k], (0, 0, "000000", k))
    s.list(16, 0, 6, "B2", (0, 0, "000000", 1))
    s.say("list, 15: a 'table shorter than needed', each of the three; the bytes taken are answered; after the stream's own number")
    for tables in ((1, 2, 2), (2, 1, 2), (2, 2, 1), (0, 0, 0), (0, 4, 4)):
        s.list(15, 0, 1, stream(two), (0, 0, "000000", 21), tables)
    s.list(8, 0, 1, stream(two)[:-1] + b"\x00", (0, 0, "000000", 21), tables=(0, 0, 0))
    s.say("'Written again in the same mode, the listing gives the stream up to its postamble, lead-in and null bytes apart'")
    for mode, lead in ((1, "B2"), (3, "B2"), (6, "B2B2")):
        sent = stream(two, lead=lead)
        s.list(0, 0, mode, sent, (*want[:3], len(sent), (9, 11, 11), (51, 51, 19)))
        again = s.write(0, 0, mode, 0xA5, "010203", [9, 51], [11, 51], "11223344")
        assert again[-20:] == sent[-20:].replace(b"\xb2\x00\x33", b"\x00\x00\x33")


def patch(*windows):
    """A stream of these windows, each start, end and data, with a control byte and an address that have to come out again."""
    return stream(section([window(*w) for w in windows], 0xA5, "010203"))


def tidies(s, given, want, kind=0):
    """Given these windows, out come those; tidied again, the same. As much room as the stream has bytes, then just enough."""
    given, want = patch(*given), patch(*want)
    s.tidy(0, kind, given, want, room=len(given))
    s.tidy(0, kind, want, want, room=len(want))


def cases_tidy(s):
    s.say("tidy, 0: 'Out come the windows ascending, disjoint, never touching, each cell with its last value, null bytes zero'; the paper's case 2")
    s.tidy(0, 0, "B2 00 000000 FD 00 0009 000B 112233 00 000A 000A 44 4D", "B2 00 000000 FE 00 0009 000B 114433 4D")
    s.say("tidy, 0: no windows; one cell, the first, the last; what is tidy already")
    tidies(s, [], [])
    for cell in (0, 9, 51):
        tidies(s, [(cell, cell, "11")], [(cell, cell, "11")])
    tidies(s, [(0, 3, "11223344"), (5, 5, "55"), (50, 51, "6677")], [(0, 3, "11223344"), (5, 5, "55"), (50, 51, "6677")])
    s.say("tidy, 0: 'control and external address kept', any bits; 'null bytes zero'")
    for control in (0x00, 0x04, 0x08, 0x10, 0xB2, 0xFF):
        sent = stream(section([window(9, 9, "11", null=0xB2), window(7, 7, "22", null=0x4D), window(3, 3, "33", null=0x01)], control, "FFB24D"))
        want = f"B2 {control:02x} FFB24D FC 00 0003 0003 33 00 0007 0007 22 00 0009 0009 11 4D"
        s.tidy(0, 0, sent, want)
    s.say("tidy, 0: bytes that look like framing are data: B2, 4D, FF, 00")
    tidies(s, [(20, 22, "4DB200"), (10, 12, "FFB24D")], [(10, 12, "FFB24D"), (20, 22, "4DB200")])
    s.say("tidy, 0: 'never touching': windows that touch are one, ascending and descending; with a cell between them they are two")
    joined, apart = [(9, 13, "1122334455")], [(9, 11, "112233"), (13, 14, "4455")]
    tidies(s, [(9, 11, "112233"), (12, 13, "4455")], joined)
    tidies(s, [(12, 13, "4455"), (9, 11, "112233")], joined)
    tidies(s, apart, apart)
    tidies(s, apart[::-1], apart)
    s.say("tidy, 0: a window that fills the cell between two; one that joins two by touching both; three in each order")
    tidies(s, [*apart, (12, 12, "66")], [(9, 14, "112233664455")])
    tidies(s, [(12, 12, "66"), *apart[::-1]], [(9, 14, "112233664455")])
    three = [(9, 10, "1122"), (11, 12, "3344"), (13, 14, "5566")]
    for i, j, k in ((0, 1, 2), (0, 2, 1), (1, 0, 2), (1, 2, 0), (2, 0, 1), (2, 1, 0)):
        tidies(s, [three[i], three[j], three[k]], [(9, 14, "112233445566")])
    s.say("tidy, 0: 'each cell with its last value', 'overlaps follow stream order': over the end, over the start, either one first")
    tidies(s, [(9, 12, "11223344"), (11, 14, "A1A2A3A4")], [(9, 14, "1122A1A2A3A4")])
    tidies(s, [(11, 14, "A1A2A3A4"), (9, 12, "11223344")], [(9, 14, "11223344A3A4")])
    tidies(s, [(9, 10, "1122"), (10, 11, "3344"), (11, 12, "5566")], [(9, 12, "11335566")])
    tidies(s, [(11, 12, "5566"), (10, 11, "3344"), (9, 10, "1122")], [(9, 12, "11224466")])
    s.say("tidy, 0: one within another, the inner last and the outer last; at either end; the same window three times; a zero over another value")
    tidies(s, [(5, 9, "1122334455"), (6, 8, "A1A2A3")], [(5, 9, "11A1A2A355")])
    tidies(s, [(6, 8, "A1A2A3"), (5, 9, "1122334455")], [(5, 9, "1122334455")])
    tidies(s, [(5, 9, "1122334455"), (5, 6, "A1A2"), (9, 9, "A3")], [(5, 9, "A1A23344A3")])
    tidies(s, [(5, 6, "1122"), (5, 6, "3344"), (5, 6, "1144")], [(5, 6, "1144")])
    tidies(s, [(5, 5, "11"), (5, 5, "00")], [(5, 5, "00")])
    s.say("tidy, 0: the first window's values stay where no later one comes: a whole device, then single cells")
    device = bytearray(0x80 + i for i in range(52))
    singles = [(i, i, [i]) for i in (51, 30, 0, 31, 17)]
    for i, _, (value,) in singles:
        device[i] = value
    tidies(s, [(0, 51, range(0x80, 0x80 + 52)), *singles], [(0, 51, device)])
    s.say("tidy, 0: windows on both sides of a high byte: 255 and 256 touch, 254 and 256 do not; 10, 256, 511 and 2560 are in order")
    tidies(s, [(256, 258, "A1A2A3"), (254, 255, "1122")], [(254, 258, "1122A1A2A3")], 2)
    tidies(s, [(256, 256, "A1"), (254, 254, "11")], [(254, 254, "11"), (256, 256, "A1")], 2)
    four = [(10, 10, "33"), (256, 256, "11"), (511, 511, "A1"), (2560, 2560, "22")]
    tidies(s, [four[2], four[1], four[3], four[0]], four, 2)
    s.say("tidy, 0: 255 windows of a cell each: all apart, and 'more windows than given are never needed'; ascending, descending, every seventh")
    cells = [(2 * i, 2 * i, [i]) for i in range(255)]
    for order in (cells, cells[::-1], [cells[7 * i % 255] for i in range(255)]):
        tidies(s, order, cells, 2)
    s.say("tidy, 0: 255 windows of a cell each that touch: one comes out; all on one cell; nearly five times round the teaching array")
    cells = [(100 + i, 100 + i, [i]) for i in range(255)]
    for order in (cells, cells[::-1], [cells[7 * i % 255] for i in range(255)]):
        tidies(s, order, [(100, 354, range(255))], 2)
    tidies(s, [(9, 9, [i]) for i in range(255)], [(9, 9, "FE")])
    tidies(s, [(i % 52, i % 52, [i]) for i in range(255)], [(0, 51, [*range(208, 255), *range(203, 208)])])
    for kind, size in SIZES.items():
        s.say(f"tidy, 0: a whole device in pieces that touch or overlap is one window, size + 12 bytes: kind {kind}, {size + 12}; its ends; all but one cell")
        data = [(i * i) % 251 for i in range(size)]
        cuts = [0, size // 5, size // 3, size // 2, size - 1, size]
        pieces = [(a, b - 1, data[a:b]) for a, b in zip(cuts, cuts[1:])]
        given = [pieces[i] for i in (3, 0, 4, 2, 1)]
        given.insert(0, (size // 4, size // 2 + 1, [0xEE] * (size // 2 - size // 4 + 2)))
        tidies(s, given, [(0, size - 1, data)], kind)
        tidies(s, [(size - 1, size - 1, "11"), (0, 0, "22")], [(0, 0, "22"), (size - 1, size - 1, "11")], kind)
        halves = [(0, size // 2 - 1, data[: size // 2]), (size // 2 + 1, size - 1, data[size // 2 + 1 :])]
        tidies(s, halves[::-1], halves, kind)
    s.say("tidy, 0: bytes after the postamble are not looked at, whatever they are")
    two = [(20, 21, "4455"), (9, 11, "112233")]
    for after in ("00", "4D", "B2", "FFFFFFFFFFFFFFFF", patch(*two).hex()):
        s.tidy(0, 0, patch(*two) + bytes_of(after), patch(*two[::-1]), room=28)
    s.say("tidy, 0: 'Three people write one patch with different windows': equal bytes; and other bytes for another control byte, address, value or cell")
    ways = [[(9, 13, "1122334455")], [(12, 13, "4455"), (9, 11, "112233")], [(9, 13, "1122000055"), (13, 13, "00"), (11, 13, "334455"), (9, 9, "11")]]
    assert len({s.tidy(0, 0, patch(*way)) for way in ways}) == 1
    others = [patch(*way) for way in (ways[0], [(9, 13, "1122334456")], [(9, 12, "11223344")], [(9, 14, "112233445500")], [(10, 14, "1122334455")])]
    others += [stream(section([window(*ways[0][0])], *head)) for head in ((0xA4, "010203"), (0xA5, "000203"), (0xA5, "010003"), (0xA5, "010200"))]
    assert len({s.tidy(0, 0, other) for other in others}) == 9
    s.say("tidy, 0: what is tidied loads as what was given, into a memory that holds other values")
    given = patch(*ways[2], (40, 41, "6677"), (38, 38, "88"))
    once, left = s.tidy(0, 0, given), []
    for sent in (given, once):
        s.new(0, 1, [0])
        s.fill(0x01, 0x03)
        s.start(0, 1)
        s.feed(0, sent)
        left.append(s.mem)
    assert left[0] == left[1]
    s.say("tidy, 1: an unknown kind, before everything")
    for kind in (1, 4, 6, 9, 11, 255):
        s.tidy(1, kind, patch(*two))
        s.tidy(1, kind, "", room=0)
    s.say("tidy, 5: at the preamble; it does not hunt, and in mode 1 a second preamble is a control byte")
    s.tidy(5, 0, "00" + patch(*two).hex())
    s.tidy(5, 0, "4D")
    s.tidy(5, 0, at_bit(3, patch(*two)))
    s.tidy(0, 0, "B2 B2 000000 FF 4D", "B2 B2 000000 FF 4D")
    s.tidy(16, 0, "B2 B2 00 000000 FF 4D")
    s.say("tidy, 8, 9, 10, 11, 12: 'the lister's', before 15")
    for room in (80, 0):
        s.tidy(8, 0, patch(*two)[:-1] + b"\x00", room=room)
        s.tidy(9, 0, patch(*two)[:-1] + b"\xb2", room=room)
        s.tidy(10, 0, stream(section([]), section([])), room=room)
        s.tidy(11, 0, patch((9, 11, "112233"), (52, 52, "44")), room=room)
        s.tidy(12, 0, patch((51, 52, "4455")), room=room)
        s.tidy(12, 0, "B2 00 000000 FE 00 000B 0009", room=room)
    for kind, size in SIZES.items():
        s.tidy(11, kind, patch((0, 0, "11"), (size, size, "22")))
        s.tidy(12, kind, patch((0, 0, "11"), (size - 1, size, "2233")))
    s.say("tidy, 16: 'slice used up', at every byte of a stream, with room and without")
    for k in range(len(patch(*two))):
        s.tidy(16, 0, patch(*two)[:k])
        s.tidy(16, 0, patch(*two)[:k], room=0)
    s.say("tidy, 15: 'output .. shorter than needed' by the tidied stream: a byte less, none; just enough, though the stream is longer")
    for given, want in (([], []), (two, two[::-1]), ([(9, 11, "112233")] * 5, [(9, 11, "112233")]), ([(12, 13, "4455"), (9, 11, "112233")], joined)):
        n = len(patch(*want))
        for number, room in ((15, n - 1), (15, 0), (0, n), (0, n + 1)):
            s.tidy(number, 0, patch(*given), room=room)


def salvages(s, given, kept, announced, end, offset, kind=0):
    """Of this stream these windows are kept. Salvaged again, what came out stays as it is. A byte more room than the stream has, just enough, one less."""
    want = patch(*kept)
    told = len(kept), announced, end, offset
    assert len(want) == offset + 1
    s.salvage(0, kind, given, told, want)
    s.salvage(0, kind, given, told, want, room=len(want))
    s.salvage(15, kind, given, room=len(want) - 1)
    s.salvage(0, kind, want, (len(kept), len(kept), 0, offset), want)


def announcing(n, s):
    """A stream with another number of windows announced."""
    return s[:5] + bytes([0xFF - n]) + s[6:]


def cases_salvage(s):
    two = [(9, 11, "112233"), (20, 21, "4455")]
    sent = stream(section([window(*two[0], null=0xB2), window(*two[1], null=0x4D)], 0xA5, "010203"))
    s.say("salvage, 0: 'keep the whole windows before the first refused byte or the end': cut at every byte of a stream of two windows; 'null bytes zeroed'")
    for k in range(6, 14):
        salvages(s, sent[:k], [], 2, 16, 6)
    for k in range(14, 21):
        salvages(s, sent[:k], two[:1], 2, 16, 14)
    s.say("salvage, 0: all windows are whole, and only the postamble is not there; the output is a byte longer than the stream; with it, accepted")
    salvages(s, sent[:21], two, 2, 16, 21)
    salvages(s, sent, two, 2, 0, 21)
    s.say("salvage, 0: the bytes that come out, spelled: 'a sound stream with the right count and 4D'")
    s.salvage(0, 0, "B2 00 000000 FD 77 0009 000B 112233 88 000A", (1, 2, 16, 14), "B2 00 000000 FE 00 0009 000B 112233 4D")
    s.salvage(0, 0, "B2 00 000000 FD 77 0009 000B 1122", (0, 2, 16, 6), "B2 00 000000 FF 4D")
    s.say("salvage, 0: 'An accepted stream comes out the same up to its postamble, null bytes zeroed': it is what the writer writes from its listing")
    s.list(0, 0, 1, sent, (2, 0xA5, "010203", 22, (9, 11, 11), (20, 21, 19)))
    assert s.write(0, 0, 1, 0xA5, "010203", [9, 20], [11, 21], "1122334455") == s.salvage(0, 0, sent, (2, 2, 0, 21), patch(*two))
    s.say("salvage, 0: no windows announced: 0, 16, 8, 10; a window that stands there is none")
    empty = bytes_of("B2 00 000000 FF")
    for rest, end in (("4D", 0), ("", 16), ("00", 8), ("FE", 8), ("B2", 10), (window(9, 9, "11").hex() + "4D", 8)):
        s.salvage(0, 0, empty + bytes_of(rest), (0, 0, end, 6), EMPTY)
    s.salvage(0, 0, "B2 04 000000 FF B2", (0, 0, 9, 6), "B2 04 000000 FF 4D")
    s.say("salvage, 0, end 11: 'carry a bad address': the start of the first, the second and the third window; whole windows after it are not kept")
    for start in (52, 53, 255, 256, 0x1234, 65535):
        bad = bytes_of("5A") + start.to_bytes(2, "big") + bytes_of("000A")
        salvages(s, announcing(1, patch())[:6] + bad, [], 1, 11, 6)
        salvages(s, announcing(3, patch(two[0])[:-1] + bad + window(*two[1]) + b"\x4d"), two[:1], 3, 11, 14)
        salvages(s, announcing(3, patch(*two)[:-1] + bad), two, 3, 11, 21)
    s.say("salvage, 0, end 12: 'carry a bad address': an end below its start, an end not below the size; in the first window, in the second, in the third")
    for start, end in ((11, 10), (11, 0), (51, 50), (9, 52), (51, 52), (0, 255), (9, 256), (9, 65535)):
        bad = bytes_of("5A") + start.to_bytes(2, "big") + end.to_bytes(2, "big") + bytes_of("66")
        salvages(s, announcing(1, patch())[:6] + bad, [], 1, 12, 6)
        salvages(s, announcing(3, patch(two[0])[:-1] + bad + window(*two[1]) + b"\x4d"), two[:1], 3, 12, 14)
        salvages(s, announcing(3, patch(*two)[:-1] + bad), two, 3, 12, 21)
    s.say("salvage, 0: the refused byte is the second of a start or an end: cut before it, the end is 16")
    bad = bytes_of("5A 1234")
    for k, end in ((2, 16), (3, 11)):
        salvages(s, announcing(2, patch(two[0])[:-1] + bad[:k]), two[:1], 2, end, 14)
    bad = bytes_of("5A 000B 000A")
    for k, end in ((4, 16), (5, 12)):
        salvages(s, announcing(2, patch(two[0])[:-1] + bad[:k]), two[:1], 2, end, 14)
    s.say("salvage, 0, end 8: a bad check byte; all windows are kept")
    for byte in (0x00, 0x01, 0x0D, 0x4C, 0x4E, 0xB1, 0xB3, 0xCD, 0xFF):
        salvages(s, patch(*two)[:-1] + bytes([byte]), two, 2, 8, 21)
        salvages(s, patch(*two)[:-1] + bytes([byte]) + patch(*two), two, 2, 8, 21)
    s.say("salvage, 0, end 9 and 10: the preamble of a second device, by bit 2 of the control byte; of that device nothing is kept")
    for control, end in ((0x00, 10), (0x04, 9), (0xFB, 10), (0xFF, 9), (0x18, 10), (0x1C, 9)):
        first, second = (section([window(*w)], control, "FFB24D") for w in two)
        want = stream(first)
        s.salvage(0, 0, stream(first, second), (1, 1, end, 14), want)
        s.salvage(0, 0, stream(first)[:-1] + b"\xb2", (1, 1, end, 14), want)
        s.salvage(0, 0, want, (1, 1, 0, 14), want)
    s.say("salvage, 0: bytes after the postamble are not looked at, whatever they are; nor is their number any matter")
    for after in ("00", "4D", "B2", "FFFFFFFFFFFFFFFF", patch(*two).hex()):
        salvages(s, patch(*two) + bytes_of(after), two, 2, 0, 21)
        salvages(s, patch() + bytes_of(after), [], 0, 0, 6)
    s.say("salvage, 0: control byte and address as they were, any bits: it is read as a write into a reset device")
    for control in (0x01, 0x02, 0x04, 0x08, 0x10, 0x20, 0x40, 0x80, 0xB2, 0xFF):
        for address in ("000000", "B24DFF", "010203"):
            given = stream(section([window(*w, null=0xFF) for w in two], control, address))
            want = stream(section([window(*two[0])], control, address))
            s.salvage(0, 0, given[:-2], (1, 2, 16, 14), want)
    s.say("salvage, 0: bytes that look like framing are data: B2, 4D, FF, 00")
    looks = [(20, 22, "4DB200"), (10, 12, "FFB24D"), (5, 5, "4D")]
    salvages(s, patch(*looks), looks, 3, 0, 28)
    salvages(s, patch(*looks)[:-2], looks[:2], 3, 16, 22)
    s.say("salvage, 0: 255 announced and few there; 128 announced, 254; one more than there are")
    for n in (255, 254, 128, 3):
        for k in (0, 1, 2):
            given = announcing(n, patch(*two[:k]))
            salvages(s, given[:-1], two[:k], n, 16, (6, 14, 21)[k])
            # the postamble is taken for a null byte
            salvages(s, given, two[:k], n, 16, (6, 14, 21)[k])
            salvages(s, given + bytes_of("FFFF"), two[:k], n, 11, (6, 14, 21)[k])
    s.say("salvage, 0: fewer announced than there are: the others are a bad check byte")
    salvages(s, announcing(1, patch(*two)), two[:1], 1, 8, 14)
    s.salvage(0, 0, announcing(0, patch(*two)), (0, 0, 8, 6), patch())
    s.say("salvage, 0: 255 announced and all there, whole, accepted, and cut in the last one and in the first")
    many = [(i % 52, i % 52, [i]) for i in range(255)]
    salvages(s, patch(*many), many, 255, 0, 1536)
    salvages(s, patch(*many)[:-1], many, 255, 16, 1536)
    for k in range(2, 8):
        salvages(s, patch(*many)[:-k], many[:254], 255, 16, 1530)
    for k in range(6, 12):
        salvages(s, patch(*many)[:k], [], 255, 16, 6)
    s.say("salvage, 0: windows that overlap, touch, repeat and descend stay as they are, in their order")
    over = [(9, 12, "11223344"), (11, 14, "A1A2A3A4"), (9, 9, "55"), (15, 15, "66"), (9, 12, "11223344"), (0, 51, range(0x80, 0x80 + 52)), (3, 4, "7788")]
    salvages(s, patch(*over)[:-2], over[:-1], 7, 16, 102)
    salvages(s, patch(*over), over, 7, 0, 109)
    for kind, size in SIZES.items():
        s.say(f"salvage, 0: a whole device, then a broken window; the largest start and end, and one more: kind {kind}, {size} cells")
        whole = (0, size - 1, [(i * i) % 251 for i in range(size)])
        salvages(s, announcing(2, patch(whole)[:-1] + bytes_of("00 0000 0001 11")), [whole], 2, 16, size + 11, kind)
        s.salvage(0, kind, patch(whole)[:-2], (0, 1, 16, 6), patch())
        last = (size - 1, size - 1, "11")
        salvages(s, patch(last), [last], 1, 0, 12, kind)
        salvages(s, patch(last, (size, size, "22")), [last], 2, 11, 12, kind)
        salvages(s, patch(last, (size - 1, size, "2233")), [last], 2, 12, 12, kind)
    s.say("salvage, 0: a window on both sides of a high byte, and longer than 256 cells")
    wide = [(254, 257, "11223344"), (100, 699, [i % 253 for i in range(600)])]
    salvages(s, patch(*wide), wide, 2, 0, 620, 2)
    salvages(s, patch(*wide)[:-2], wide[:1], 2, 16, 15, 2)
    s.say("'Loading the result stores exactly the kept windows', later over earlier: what the stream itself stores up to the offset, the bytes after it not fed")
    given = announcing(9, patch(*over)[:-1]) + bytes_of("00 0005 0007 9999")
    left = []
    for fed, number in ((s.salvage(0, 0, given, (7, 9, 16, 109), patch(*over)), 0), (given[:109], 16), (given, 16)):
        s.new(0, 1, [0])
        s.fill(0x01, 0x03)
        s.start(0, 1)
        s.feed(number, fed)
        left.append(s.mem)
    assert left[0] == left[1] != left[2]
    s.say("salvage, 1: an unknown kind, each of them, before everything")
    for kind in sorted(set(range(256)) - set(SIZES)):
        s.salvage(1, kind, patch(*two), room=80)
    s.salvage(1, 1, "", room=0)
    s.salvage(1, 255, "00", room=80)
    s.salvage(1, 4, "00 00 000000 FF 4D", room=0)
    s.say("salvage, 27: 'fewer than six bytes', before 5 and before 15")
    for k in range(6):
        for room in (80, 7, 6, 0):
            s.salvage(27, 0, sent[:k], room=room)
            s.salvage(27, 10, b"\x00" * k, room=room)
    s.say("salvage, 5: the first byte is not B2, before 15; it does not hunt")
    for byte in (0x00, 0x4D, 0xB0, 0xB3, 0x32, 0xFF):
        for room in (80, 6, 0):
            s.salvage(5, 0, bytes([byte]) + patch(*two)[1:], room=room)
            s.salvage(5, 0, bytes([byte]) + b"\x00" * 5, room=room)
    s.salvage(5, 0, "00" + patch(*two).hex())
    s.salvage(5, 0, at_bit(3, patch(*two)))
    s.say("salvage, 0: in mode 1 a second preamble is a control byte")
    s.salvage(0, 0, "B2 B2 000000 FF 4D", (0, 0, 0, 6), "B2 B2 000000 FF 4D")
    s.salvage(0, 0, "B2 B2 00 000000 FF 4D", (0, 255, 16, 6), "B2 B2 000000 FF 4D")
    s.say("salvage, 15: 'output .. shorter than needed' by what is kept, however long the stream is; what lies behind the needed front part stays as lent")
    for given, kept, end in ((sent[:13], [], 16), (sent[:20], two[:1], 16), (sent, two, 0), (sent[:-1] + b"\x00" * 30, two, 8)):
        want = patch(*kept)
        told = len(kept), 2, end, len(want) - 1
        for room in (len(want), len(want) + 1, len(want) + 9, 80):
            s.salvage(0, 0, given, told, want, room=room)
        for room in (len(want) - 1, len(want) - 2, 6, 1, 0):
            s.salvage(15, 0, given, room=room)


def ending(s):
    """The number with which closing bytes end a run, by the awaited byte: 5, 7, 0, 11 or 12 as the byte refused is a preamble, the control byte of a
    check, none, a start or an end."""
    p = s.c.place
    if p.awaited <= 1:
        return 5
    if p.awaited == 2:
        return 7 if p.check else 0
    if p.awaited in (7, 8, 9):
        return 11
    if p.awaited in (10, 11):
        return 12  # in the teaching array 255 is past the size, and 0 is below every other start
    return 11 if p.left > 1 else 0


def cases_stops(s):
    for mode, check in ((1, 0), (6, 0), (1, 1), (6, 1)):
        lead = "B2B2" if mode == 6 else "B2"
        two = stream(section([window(9, 10, "1122"), window(10, 10, "44", null=0xFF)], 0x21), section([window(50, 51, "5566")], 0xC2), lead=lead)

        def begin():
            s.new(0, 2, [0, 0])
            s.fill(0x31, 0x05, 104)
            load(s, 0x01, 0x02)

        s.say(f"a {'check' if check else 'write'} of two devices in mode {mode}, unbroken")
        begin()
        s.start(0, mode, check)
        s.feed(0, two, len(two), 5 * check)
        unbroken = s.mem, s.c
        assert s.c.registers[:2] == [0x21, 0xC2] and (check or (s.mem[9:11], s.mem[102:104]) == (b"\x11\x44", b"\x55\x66"))
        s.say("stopped at every byte: the closing bytes end the run and change nothing; the stream started afresh leaves what the unbroken one does")
        for k in range(len(two)):
            begin()
            s.start(0, mode, check)
            s.feed(16, two[:k], k)
            before = s.mem, s.c.registers
            s.feed(ending(s), s.closing(0))
            assert (s.mem, s.c.registers) == before and not s.c.place.running
            s.start(0, mode, check)
            s.feed(0, two, len(two), 5 * check)
            assert (s.mem, s.c) == unbroken
        s.say("stopped at every byte: saved, the registers lost, picked up, and fed the rest: as unbroken")
        for k in range(len(two)):
            begin()
            s.start(0, mode, check)
            s.feed(16, two[:k], k)
            open_run, place = s.c, s.save(0)
            s.new(0, 2, [0, 0])
            s.pick_up(0, place)
            assert s.c == open_run
            s.feed(0, two[k:], len(two), 5 * check)
            assert (s.mem, s.c) == unbroken


def cases_drop(s):
    two = stream(section([window(9, 11, "112233"), window(5, 5, "44", null=0xAA)], 0x81), lead="B2B2")

    def drop(number=0):
        """The run is gone, and cells, registers, count and kinds are as they were."""
        before = s.mem, s.c.count, s.c.kinds, s.c.registers
        s.drop(number)
        assert (s.mem, s.c.count, s.c.kinds, s.c.registers) == before and s.c.place == Place()

    for check in (0, 1):
        s.say(f"drop, 0, a {'check' if check else 'write'} in mode 6: 'without touching memory or registers', at each awaited byte")
        first = dict(zip([*range(13), 13], [*range(13), 21]))  # the two preambles to the first data byte, then the check byte
        for awaited, k in first.items():
            stopped(s, 6, check, 0xC3, two, k)
            assert s.c.place.awaited == awaited
            drop()
    s.say("drop, 0: inside a window, before its last byte and before the next one; a start is taken afterwards")
    for k in (13, 14, 15, 20):
        stopped(s, 6, 0, 0xC3, two, k)
        drop()
        s.start(0, 6)
        s.feed(0, two, 22, 0)
    s.say("drop, 0: saved before, the place is picked up and the run goes on as if it had never stopped")
    for check in (0, 1):
        for k in (0, 2, 6, 9, 13, 21):
            stopped(s, 6, check, 0xC3, two, k)
            place = s.save(0)
            drop()
            s.pick_up(0, place)
            s.feed(0, two[k:], 22, 4 * check)
    s.say("drop, 0: a place that was saved earlier in the same run is picked up once the run is dropped")
    stopped(s, 6, 0, 0xC3, two, 12)
    place = s.save(0)
    s.feed(16, two[12:20], 20, 0)
    s.pick_up(3, place)
    drop()
    s.pick_up(0, place)
    s.feed(0, two[12:], 22, 0)
    s.say("drop, 0, on the last of eight devices: eight kinds and eight registers stay")
    s.new(0, 8, [0, 2, 0, 0, 0, 0, 0, 2])
    load(s, 1, 2, 3, 0x20, 0x21, 0x22, 0x23, 0x28)
    s.start(0, 5)
    s.feed(16, stream(*[section([], 0x40 + i) for i in (0, 1, 2, 3, 8, 9, 10, 11)])[:-1], 48, 0)
    drop()
    assert s.c.registers == [0x40, 0x41, 0x42, 0x43, 0x48, 0x49, 0x4A, 0x4B]
    s.say("drop, 4: no run open: new, accepted, refused, dropped; a closed place's other fields are handed back as lent")
    s.new(0, 1, [0])
    s.drop(4)
    s.start(0, 1)
    s.feed(0, A)
    s.drop(4)
    s.start(0, 1)
    s.byte(5, 0x00)
    s.drop(4)
    s.start(0, 1)
    drop()
    s.drop(4)
    s.state(Chain(1, [0] * 8, [0x5A] + [0] * 7, Place(0, 9, 8, 7, 99, 5, 4, 300, 200, 100, 77, 66)))
    s.drop(4)
    s.say("drop, 1: 'lent memory of another length' and the rest of number 1, a run open or not; the state is as lent")
    s.drop(1, lent=51)
    s.start(0, 1)
    for length in (51, 53, 0):
        s.drop(1, lent=length)
    for c, length in ((Chain(0), 0), (Chain(9), 416), (Chain(1, eight([4])), 52), (Chain(5, eight([10, 10, 10, 10, 0])), 65576)):
        s.state(c)
        s.drop(1, lent=length)
    s.say("drop, 17: 'unused kinds or registers are not zero', 'whose open place is not well formed'; 1 before 17 before 4")
    places = [Place(), Place(1, 1), Place(1, 0), Place(1, 7), Place(1, 1, 2), Place(1, 1, 0, 1), Place(1, 1, awaited=14), Place(1, 1, control=1)]
    for place in [*places[2:], Place(2, 1), Place(255)]:
        s.state(Chain(1, [0] * 8, [0] * 8, place))
        s.drop(17)
        s.drop(1, lent=0)
    for place in places[:2]:
        for c in (Chain(1, [0, 2] + [0] * 6), Chain(1, [0] * 7 + [1]), Chain(2, [0] * 8, [0, 0, 1] + [0] * 5), Chain(7, [0] * 8, [0] * 7 + [0x80])):
            s.state(replace(c, place=place))
            s.drop(17)


def after(mode, counter, k):
    """The counter k bytes later, where nothing jumps."""
    return (counter - k if mode == 2 else counter + k) % EPROM


HOME = {1: 0x00000, 2: 0x1FFFF, 5: 0x00000}


def boot(s, mode, sent, at=None, check=0, kinds=(0,)):
    """A new chain, the stream in the EPROM where the counter starts, or at another counter that is lent, and an open run."""
    at = HOME[mode] if at is None else at
    s.new(0, len(kinds), list(kinds))
    s.fill(0x31, 0x05, s.c.base(len(kinds)))
    s.lay(mode, at, sent)
    s.fetcher(at)
    s.start(0, mode, check)
    return at


def cases_fetch(s):
    s.say("fetcher: 'A fetcher's 17-bit counter starts at 00000 (1FFFF in mode 2)'; a mode that there is not has no start of its own")
    for mode in (*range(9), 128, 130, 254, 255):
        s.fetcher_new(0x1FFFF if mode == 2 else 0, mode)
    for mode in (1, 2, 5):
        s.say(f"fetch, 0, mode {mode}: stream A, whole; n is just enough, one more, many more; 'clear resets the counter for that run's mode'")
        for n in (15, 16, 4294967295):
            boot(s, mode, A)
            s.fetcher_new(HOME[mode], mode)
            s.fetch(0, n, 15, HOME[mode])
            assert s.mem[9:12] == b"\x11\x22\x33" and s.f == Fetcher(HOME[mode])
        s.say(f"fetch, 16, mode {mode}: 'steps up by one each byte (down in mode 2)', byte by byte; what a stop keeps, 'zero until taken'")
        sent = stream(section([window(9, 10, "1122", null=0xA5), window(20, 20, "33", null=0x5A)], 0xA1, "0A0B0C"))
        at = boot(s, mode, sent, 0x00100)
        for k, b in enumerate(sent[:-1]):
            s.fetch(16, 1, k + 1, after(mode, at, k + 1))
            assert s.f.control == (0xA1 if k >= 1 else 0) and s.f.address == [b if k >= 2 + i else 0 for i, b in enumerate((10, 11, 12))]
            assert s.f.nulled == (k >= 6)
        s.say(f"fetch, 0, mode {mode}: 'set keeps its next value', the one after the postamble; nothing else is kept of a run that has ended")
        s.fetch(0, 1, 20, after(mode, at, 20))
        assert s.f == Fetcher(after(mode, at, 20))
        s.say(f"fetch, mode {mode}: the next run starts where the last one stopped; two in one EPROM, each with B0 set, then one without")
        s.lay(mode, after(mode, at, 20), A[:1] + b"\x01" + A[2:] + A)
        s.start(0, mode)
        s.fetch(0, 99, 15, after(mode, at, 35))
        s.start(0, mode)
        s.fetch(0, 99, 15, HOME[mode])
        s.say(f"fetch, mode {mode}: 'wrapping past either end': at every byte of a stream, and just behind its last")
        for k in range(16):
            sent = A[:1] + b"\x01" + A[2:]
            at = boot(s, mode, sent, after(mode, 0x1FFFF if mode == 2 else 0, -k))
            s.fetch(0, 15, 15, after(mode, at, 15))
            assert s.f.counter == (0x1FFFF - (15 - k) if mode == 2 else 15 - k)
            assert s.mem[9:12] == b"\x11\x22\x33"
        s.say(f"fetch, mode {mode}: and nowhere else: 'A fetcher's 17-bit counter' goes past 0FFFF, 07FFF and 000FF to 10000, 08000 and 00100, or down")
        for at in (0x10000, 0x08000, 0x00100):
            boot(s, mode, sent, at + 7 if mode == 2 else at - 7)
            s.fetch(0, 15, 15, at - 8 if mode == 2 else at + 8)
        s.say(f"fetch, mode {mode}: 'A fetched run equals the machine fed with its bytes', in parts of every length, with a check too, mismatches counted")
        sent = stream(section([window(9, 11, "112233"), window(10, 10, "77")], 0x20), section([window(0, 51, range(52))], 0x41))
        for check in (0, 1):
            boot(s, mode, sent, check=check, kinds=(0, 0))
            s.feed(0, sent, 84)
            left, last = (s.c, s.mem), s.stdout[-1].split("@")[0]
            for part in (1, 2, 5, 7, 13, 83, 84):
                boot(s, mode, sent, check=check, kinds=(0, 0))
                for k in range(part, 84, part):
                    s.fetch(16, part, k, after(mode, HOME[mode], k))
                s.fetch(0, part, 84, HOME[mode])
                assert (s.c, s.mem) == left and s.stdout[-1][2:30] == last[2:30]
    s.say("fetch, 16: n is 0: nothing moves, and nothing is kept or put away, whatever is lent")
    for mode in (1, 2, 5):
        at = boot(s, mode, A)
        s.fetcher(0x12345, 0xFF, "AABBCC", 0x07)
        for size in (EPROM, 1, 0):
            s.fetch(16, 0, 0, 0x12345, size=size)
        s.feed(16, A[:9], 9)
        s.fetch(16, 0, 9, 0x12345)
        assert s.f == Fetcher(0x12345, 0xFF, [0xAA, 0xBB, 0xCC], 7)
    s.say("fetch, 18: 'when the counter is not below the EPROM's length: no byte is taken, the run stays open'; an EPROM that is empty, or short by one")
    for mode in (1, 2, 5):
        boot(s, mode, A)
        s.fetch(18, 1, 0, HOME[mode], size=0)
        s.fetch(18, 15, 0, HOME[mode], size=HOME[mode])
        s.fetch(16, 1, 1, size=HOME[mode] + 1)
        s.fetch(0, 14, 15, HOME[mode])
    s.say("fetch, 18, in the middle of a run: it goes on with a longer EPROM; asked again it is 18 again; with n no more than there is, 16")
    for k in range(1, 15):
        at = boot(s, 1, A)
        s.fetch(16, k, k, k, size=k)
        s.fetch(18, 1, k, k, size=k)
        s.fetch(18, 99, k, k, size=k)
        s.fetch(18, 99, k, k, size=k - 1)
        s.fetch(0, 99, 15, 0, size=15)
        boot(s, 5, A)
        s.fetch(18, 99, k, k, size=k)
        s.feed(0, A[k:], 15)
        assert s.f.counter == k
    s.say("fetch, 18, mode 2: the counter comes below a short EPROM's end only by a lent value or a jump; past 00000 it wraps out of it")
    boot(s, 2, A[:5], 4)
    s.fetch(18, 15, 5, 0x1FFFF, size=100)
    s.fetch(18, 15, 5, 0x1FFFF, size=EPROM - 1)
    s.lay(2, 0x1FFFF, A[5:])
    s.fetch(0, 15, 15, 0x1FFFF)
    s.say("fetch: an EPROM longer than 131,072 bytes: 'wrapping past either end' at 1FFFF all the same, the rest is never read")
    s.burn(EPROM, bytes(LONGER - EPROM))
    for mode, at in ((1, 0x1FFFA), (5, 0x1FFFF), (2, 0x00003)):
        boot(s, mode, A, at)
        s.fetch(0, 99, 15, HOME[mode], size=LONGER)
        assert s.mem[9:12] == b"\x11\x22\x33"
    s.say("fetch, 17 for a counter that could be read there: 'for a lent counter above 1FFFF'")
    s.start(0, 1)
    for counter in (0x20000, 0x2007F, 0xFFFFFFFF):
        s.fetcher(counter)
        s.fetch(17, 1, 0, counter, size=LONGER)
        s.fetch(17, 0, 0, counter, size=LONGER)


def cases_fetch_refused(s):
    junk = (0x12345, 0xFF, "AABBCC", 0x07)
    s.say("fetch, 4: no run open: new, accepted, closed; the fetcher and a closed place's other fields are handed back as lent; 0 and 0")
    s.new(0, 1, [0])
    s.fetcher(*junk)
    s.fetch(4, 1, 0, 0x12345, 0)
    s.state(Chain(1, [0] * 8, [0x5A] + [0] * 7, Place(0, 9, 8, 7, 99, 5, 4, 300, 200, 100, 77, 66)))
    for n in (0, 1, 99):
        s.fetch(4, n, 0, 0x12345, 0)
    s.fetch(4, 1, 0, 0x12345, 0, size=0)
    s.say("fetch, 2: 'after 4, for any other mode', with the run's counts so far; n 0 too, and an empty EPROM; the run stays open")
    for mode in (3, 4, 6):
        for check in (0, 1):
            s.new(0, 1, [0])
            s.fill(0x31, 0x05, 52)
            s.start(0, mode, check)
            s.fetcher(*junk)
            s.fetch(2, 1, 0, 0x12345, 0)
            lead = A[:1] if mode == 6 else b""
            s.feed(16, lead + A[:13], 13 + len(lead), 2 * check)
            for n in (0, 1, 99):
                s.fetch(2, n, 13 + len(lead), 0x12345, 2 * check)
            s.fetch(2, 1, 13 + len(lead), 0x12345, 2 * check, size=0)
            s.feed(0, A[13:], 15 + len(lead), 3 * check)
    s.say("fetch, 17: 'for a lent counter above 1FFFF', after 1, before 4 and before 2; the last counter is taken, and anything else of a fetcher")
    for mode in (1, 2, 5, 3, 4, 6):
        s.new(0, 1, [0])
        s.fetcher(0x20000)
        s.fetch(17, 1, 0, 0x20000, 0)
        s.start(0, mode)
        s.fetch(17, 1, 0, 0x20000, 0)
        s.fetch(1, 1, 0, 0x20000, 0, lent=51)
        s.fetcher(0x1FFFF, 0xFF, "FFFFFF", 0xFF)
        s.fetch(16 if mode in HOME else 2, 0, 0, 0x1FFFF, 0)
    s.say("fetch, 17 of the state: unused kinds, unused registers, an open place that is not well formed; before 4, and 1 before it")
    s.fetcher(*junk)
    places = [Place(), Place(1, 1), Place(1, 3), Place(1, 0), Place(1, 7), Place(1, 1, 2), Place(1, 1, 0, 1), Place(1, 1, awaited=14)]
    places += [Place(1, 1, control=1), Place(2, 1)]
    for place in places[3:]:
        s.state(Chain(1, [0] * 8, [0] * 8, place))
        s.fetch(17, 1, 0, 0x12345, 0)
        s.fetch(1, 1, 0, 0x12345, 0, lent=53)
    for place in places[:3]:
        for c in (Chain(1, [0, 2] + [0] * 6), Chain(2, [0] * 8, [0, 0, 1] + [0] * 5)):
            s.state(replace(c, place=place))
            s.fetch(17, 1, 0, 0x12345, 0)
            s.fetcher(0x20000)
            s.fetch(17, 1, 0, 0x20000, 0)
            s.fetcher(*junk)
    s.say("fetch, 1: before all else: memory of another length, count, kind, total; a bad counter, no run and another mode beside it")
    bad = [(Chain(0), 0), (Chain(9), 416), (Chain(1, eight([4])), 52), (Chain(1), 51), (Chain(1), 0), (Chain(5, eight([10, 10, 10, 10, 0])), 65576)]
    for place in places[:3]:
        for c, length in bad:
            s.state(replace(c, place=place))
            s.fetch(1, 1, 0, 0x12345, 0, lent=length)
            s.fetcher(0xFFFFFFFF)
            s.fetch(1, 1, 0, 0xFFFFFFFF, 0, lent=length)
            s.fetcher(*junk)
    one = [window(9, 9, "11")]
    # a stream, its number, the bytes taken; the first device's control byte is the second of them
    refused = [
        (stream(section(one, 0x00))[:-1] + b"\x00", 8, 13),
        (stream(section([], 0x04), section([], 0x00)), 9, 7),
        (stream(section([], 0x00), section([], 0x00), section([], 0x00)), 10, 13),
        ("B2 00 000000 FE 00 0034", 11, 9),
        ("B2 00 000000 FE 00 000B 000A", 12, 11),
        ("B2 00 000000 FF B2 00 000000 FE 00 0009 0034", 12, 17),
    ]
    for mode in (1, 2, 5):
        s.say(f"fetch, 5 to 12, mode {mode}: a refused byte ends the run too, 'B0 of that control byte decides'; it counts as taken and is behind the counter")
        for sent, number, taken in refused:
            for b0 in (0, 1):
                sent = bytes_of(sent)
                sent = sent[:1] + bytes([sent[1] & 0xFE | b0]) + sent[2:]
                at = boot(s, mode, sent + b"\x77", 0x10000, kinds=(0, 0))
                s.fetch(number, 99, taken, after(mode, at, taken) if b0 else HOME[mode])
                assert s.f == Fetcher(after(mode, at, taken) if b0 else HOME[mode])
        s.say(f"fetch, 7, mode {mode}, for the control byte of a check: it counts as taken, so its own B0 decides, though it is not loaded")
        for control in (0x08, 0x09, 0xFE, 0xFF):
            at = boot(s, mode, bytes([0xB2, control]), 0x10000, check=1)
            s.fetch(7, 99, 2, after(mode, at, 2) if control & 1 else HOME[mode])
            assert s.c.registers[0] == 0 and s.f == Fetcher(s.f.counter)
        s.say(f"fetch, 7, mode {mode}, for the control byte of the second device: the first one's B0 decides")
        for first, second in ((0x00, 0x09), (0x01, 0x08)):
            at = boot(s, mode, stream(section([], first), section([], second)), 0x10000, check=1, kinds=(0, 0))
            s.fetch(7, 99, 8, after(mode, at, 8) if first & 1 else HOME[mode])
        s.say(f"fetch, 5, 6 and 7, mode {mode}, at the first preamble: the run ends before its control byte, B0 is clear, whatever was lent or is stored")
        firsts = [(0x00, 0, "4D", 5), (0x00, 1, "00", 5), (0x11, 0, "B2", 6), (0x11, 1, "B2", 6), (0x09, 1, "B2", 7), (0x11, 0, "B3", 5)]
        for register, check, sent, number in firsts:
            s.new(0, 1, [0])
            load(s, register)
            s.lay(mode, 0x10000, sent)
            s.fetcher(0x10000, 0xFF, "AABBCC", 0x07)
            s.start(0, mode, check)
            s.fetch(number, 99, 1, HOME[mode])
            assert s.f == Fetcher(HOME[mode])
        s.say(f"fetch, 6 and 7, mode {mode}, at the second device's preamble: the first device's B0 decides")
        for register, check, number in ((0x10, 0, 6), (0x08, 1, 7)):
            for b0 in (0, 1):
                s.new(0, 2, [0, 0])
                load(s, 0x00, register)
                s.lay(mode, 0x10000, stream(section([], b0), section([], 0x00)))
                s.fetcher(0x10000)
                s.start(0, mode, check)
                s.fetch(number, 99, 7, after(mode, 0x10000, 7) if b0 else HOME[mode])


def jumping(mode, at, to, head, rest, s):
    """The stream up to its first null byte at one counter, the rest of it at another."""
    s.lay(mode, at, head)
    s.lay(mode, to, rest)


def cases_jump(s):
    body = window(9, 10, "1122", null=0xA5)[1:] + window(20, 20, "33", null=0x5A) + b"\x4d"

    def head(control, to, count=0xFD):
        return bytes([0xB2, control, *to.to_bytes(3, "little"), count, 0xA5])

    for mode in (1, 2, 5):
        home = HOME[mode]
        s.say(f"jump, mode {mode}: 'If the first device's control byte sets B1, the counter takes the external address after that section's first null byte'")
        for control in (0x02, 0x03, 0xE2, 0xE3, 0xB2):
            boot(s, mode, "")
            jumping(mode, home, 0x08765, head(control, 0x08765), body, s)
            s.fetch(16, 6, 6, after(mode, home, 6))
            s.fetch(16, 1, 7, 0x08765)
            s.fetch(16, 1, 8, after(mode, 0x08765, 1))
            assert s.f == Fetcher(s.f.counter, control, [0x65, 0x87, 0x00], 1)
            s.fetch(0, 99, 20, after(mode, 0x08765, 13) if control & 1 else home)
            assert (s.mem[9:11], s.mem[20], s.f) == (b"\x11\x22", 0x33, Fetcher(s.f.counter))
        s.say(f"jump, mode {mode}: the last counter and the first are jumped to, and wrapped past behind it; 'low byte first'; to where it would be anyway")
        for to in (0x1FFFF, 0x00000, 0x1FFFE, 0x00001, 0x10000, 0x00100, 0x00080, after(mode, 0x00200, 7)):
            boot(s, mode, "", 0x00200)
            jumping(mode, 0x00200, to, head(0x03, to), body, s)
            s.fetch(0, 99, 20, after(mode, to, 13))
        s.say(f"jump, mode {mode}, 19: 'for a jump above 1FFFF, at the null byte, which counts as taken and closes the run'; its B0 decides as at any end")
        for to in (0x020000, 0x020001, 0x030000, 0x100000, 0x01FFFF + 0x800000, 0xFFFFFF):
            for control in (0x02, 0x03, 0x1A, 0x1B):
                at = boot(s, mode, head(control, to), 0x10000, check=0)
                s.fetch(16, 6, 6, after(mode, at, 6))
                s.fetch(19, 1, 7, after(mode, at, 7) if control & 1 else home)
                assert s.f == Fetcher(s.f.counter) and s.c.registers[0] == control and not s.c.place.running
                s.fetch(4, 1)
        s.say(f"jump, mode {mode}: 'with no windows there is no jump', and no 19 either, nor from the next device's null byte")
        for to in (0x08765, 0x020000, 0xFFFFFF):
            for control in (0x02, 0x03):
                sent = head(control, to, 0xFF)[:-1]
                at = boot(s, mode, sent + b"\x4d", 0x10000, kinds=(0, 0))
                s.fetch(0, 99, 7, after(mode, at, 7) if control & 1 else home)
                at = boot(s, mode, sent + b"\xb2" + section([window(9, 9, "11")], 0x02, "123401") + b"\x4d", 0x10000, kinds=(0, 0))
                s.fetch(0, 99, 19, after(mode, at, 19) if control & 1 else home)
        s.say(f"jump, mode {mode}: none where B1 is clear, whatever the address and the other bits")
        for control in (0x00, 0x01, 0xFD, 0x14):
            at = boot(s, mode, stream(section([window(9, 9, "11")], control, "FFFFFF")), 0x10000)
            s.fetch(0, 99, 13, after(mode, at, 13) if control & 1 else home)
        s.say(f"jump, mode {mode}: the second device's B1, B0 and address are nothing to the counter, the first one's last for the run; one jump at most")
        for first, second in ((0x00, 0x03), (0x01, 0x02), (0x02, 0x03), (0x03, 0x02)):
            boot(s, mode, "", 0x00300, kinds=(0, 0))
            sent = head(first, 0x0A000, 0xFE), window(9, 9, "11")[1:] + b"\xb2" + section([window(9, 9, "22")], second, "00FFFF") + b"\x4d"
            to = 0x0A000 if first & 2 else after(mode, 0x00300, 7)
            jumping(mode, 0x00300, to, *sent, s)
            s.fetch(16, 7, 7, to)
            s.fetch(0, 99, 25, after(mode, to, 18) if first & 1 else home)
            assert (s.mem[9], s.mem[61]) == (0x11, 0x22)
        s.say(f"jump, mode {mode}: past the EPROM's end: 18 at the next byte, and on with a longer one; a jump to its last byte takes that one")
        for size in (0x18000, 0x18001):
            boot(s, mode, "", 0x00200)
            jumping(mode, 0x00200, 0x18000, head(0x03, 0x18000), body, s)
            s.fetch(18 if size == 0x18000 else 16, 8, 7 if size == 0x18000 else 8, size=size)
            s.fetch(0, 99, 20, after(mode, 0x18000, 13))
    s.say("jump, 19: bytes taken 'modulo 2^32', mismatches as they were; no cell and no register changes; a check as well as a write")
    for check in (0, 1):
        s.state(Chain(1, [0] * 8, [0x03] + [0] * 7, Place(1, 1, check, 0, 7, 2, 0x03, 0, 0, 0, 0xFFFFFFFF, 5 * check)))
        s.fetcher(0x1FFFF, 0x03, "000002", 0)
        s.fetch(19, 1, 0, 0, 5 * check)
    s.say("jump: what is kept decides, and it is of fetched bytes alone: a control byte fed directly makes no jump, a null byte fed directly is not the first")
    whole = head(0x02, 0x08765) + body
    for fed in range(8):
        boot(s, 1, whole)
        s.lay(1, 0x08765, body)
        s.feed(16, whole[:fed], fed)
        s.fetcher(fed)
        if fed < 7:
            s.fetch(16, 7 - fed, 7, 0x08765 if fed < 2 else 7)
        s.fetch(16, 3, 10, 0x08768 if fed < 2 else 10)
        assert s.f.nulled == (fed < 7)
        s.fetch(0, 99, 20, 0)
    s.say("jump: of an address fed directly in part, what was fetched is kept, and the rest is zero")
    for i, to in enumerate((0x08700, 0x00065, 0x08765)):
        boot(s, 1, whole)
        s.lay(1, to, body)
        s.fetch(16, 2 + i, 2 + i, 2 + i)
        s.byte(16, whole[2 + i], 3 + i)
        s.fetcher(3 + i, s.f.control, s.f.address, s.f.nulled)
        s.fetch(16, 4 - i, 7, to)
        s.fetch(0, 99, 20, 0)
    s.say("jump: the first null byte fed directly, the second window's fetched with a control byte that was kept: that one is the first fetched, and jumps")
    boot(s, 1, "")
    jumping(1, 0, 0x08765, head(0x03, 0x08765), body[:6] + b"\x5a" + b"\x00" * 9, s)
    s.fetch(16, 6, 6, 6)
    s.feed(16, b"\xa5" + body[:6], 13)
    s.burn(6, b"\x5a")
    s.lay(1, 0x08765, body[7:])
    s.fetch(16, 1, 14, 0x08765)
    s.fetch(0, 99, 20, 0x0876B)
    s.say("jump: 'whether its first null was taken': a lent value above 1 is taken, and stays as it is; 0 becomes 1, with B1 clear too")
    for nulled in (0, 1, 2, 0x80, 0xFF):
        for control in (0x00, 0x02):
            s.new(0, 1, [0])
            s.start(0, 1)
            s.feed(16, "B2 02 000000 FD", 6)
            s.lay(1, 0x100, b"\xa5" + body)
            s.lay(1, 0x200, body)
            s.fetcher(0x100, control, "000200", nulled)
            s.fetch(16, 1, 7, 0x200 if control and not nulled else 0x101)
            assert s.f.nulled == (nulled or 1) and s.f.control == control
            s.fetch(16, 7, 14)
            assert s.f.nulled == (nulled or 1)
            s.fetch(0, 99, 20, 0)
    s.say("jump: none at a null byte of the second device, where a picked-up run stands there with nothing taken yet")
    for nulled in (0, 1):
        s.state(Chain(2, [0] * 8, [0x02, 0x00] + [0] * 6, Place(1, 1, 0, 1, 7, 1, 0x00)))
        s.fetcher(0x100, 0x03, "000200", nulled)
        s.lay(1, 0x100, window(9, 9, "11") + b"\x4d")
        s.fetch(16, 1, 1, 0x101)
        assert s.f == Fetcher(0x101, 0x03, [0, 2, 0], nulled)
        s.fetch(0, 99, 7, 0x107)
    s.say("fetch: at each awaited byte of the second device nothing is kept; 'that device' is the first")
    sent = stream(section([], 0x21, "010203"), section([window(9, 9, "11")], 0xC2, "AABBCC"))
    boot(s, 1, sent, kinds=(0, 0))
    for k in range(1, len(sent)):
        s.fetch(16, 1, k, k)
        assert k < 5 or s.f == Fetcher(k, 0x21, [1, 2, 3], 0)
    s.fetch(0, 1, 19, 19)


def cases_board(s):
    head = bytes_of("B2 03 004500 FD A5")
    body = window(9, 10, "1122")[1:] + window(20, 20, "33", null=0x5A) + b"\x4d"
    count = len(head) + len(body)
    for mode in (1, 2, 5):
        for check in (0, 1):
            first = 0x00200 if mode == 1 else HOME[mode]

            def begin():
                s.new(0, 1, [0])
                s.fill(0x31, 0x05, 52)
                load(s, 0x40)
                s.start(0, mode, check)
                s.fetcher(first)

            s.say(f"a {'check' if check else 'write'} in mode {mode} that jumps after its seventh byte, unbroken")
            jumping(mode, first, 0x04500, head, body, s)
            begin()
            s.fetch(0, 99, count, after(mode, 0x04500, len(body)), 3 * check)
            unbroken = s.c, s.mem, s.f
            s.say("stopped at every byte, also after the jump: 'bytes fed directly, even those that end a run' leave the counter; started afresh from the")
            s.say("'counter that the stopped run began with': as unbroken; what was kept of the stopped run is put away by the first preamble")
            for k in range(count):
                begin()
                s.fetch(16, k, k)
                kept, before = s.f, (s.mem, s.c.registers)
                s.feed(ending(s), s.closing(0))
                assert s.f == kept and (s.mem, s.c.registers) == before
                s.start(0, mode, check)
                s.fetcher(first, kept.control, kept.address, kept.nulled)
                s.fetch(0, 99, count, after(mode, 0x04500, len(body)), 3 * check)
                assert (s.c, s.mem, s.f) == unbroken
            s.say("stopped at every byte: place and fetcher kept, the run dropped, both picked up, and fetched on: as unbroken")
            for k in range(count):
                begin()
                s.fetch(16, k, k)
                place, kept = s.save(0), s.f
                s.drop(0)
                s.fetcher(0x1ABCD, 0xFF, "FFFFFF", 1)
                s.pick_up(0, place)
                s.fetcher(kept.counter, kept.control, kept.address, kept.nulled)
                s.fetch(0, 99, count, after(mode, 0x04500, len(body)), 3 * check)
                assert (s.c, s.mem, s.f) == unbroken
    s.say("the counter of the stopped run instead of the first one's is another run: after the jump it fetches from the middle of the stream, and no preamble")
    begin()
    s.fetch(16, 9, 9)
    s.feed(12, s.closing(0))
    s.start(0, 5)
    s.fetch(5, 99, 1, 0)
    s.say("'a reset leave the counter': the fetcher is no part of the state; the run that a reset ended is booted again from the first counter")
    begin()
    s.fetch(16, 9, 9)
    kept = s.f
    s.reset(0)
    assert s.f == kept
    s.start(0, 5)
    s.fetcher(0)
    s.fetch(0, 99, count)


# ---- The load sheet

PARALLEL, SERIAL = (1, 2, 5, 6), (3, 4)


def sent(mode, s, p=0):
    """A stream of mode 1, its preamble first, as the mode has it: in mode 6 with a second one, in 3 and 4 from bit p on."""
    s = bytes_of(s)
    return b"\xb2" + s if mode == 6 else at_bit(p, s) if mode in SERIAL else s


def row(mode, number, taken, data=0, cells=None, again=0, bits=0, p=0):
    """A row said by hand, with bytes as in mode 1: mode 6 has a byte more, and the edges are "one per byte in parallel modes, eight per byte in serial ones with
    p added, then 3 or 24 edges to idle". """
    taken += mode == 6
    edges = 8 * taken + p + 24 if mode in SERIAL else taken + 3
    return number, taken, data, data if cells is None else cells, again, bits, edges


# stream A's data bytes are 11 22 33: two, two and four ones; how many stand in its first k bytes
A_DATA = [0] * 12 + [1, 2, 3, 3]
A_ONES = [0, 2, 4, 8]


def cases_sheet(s):
    s.say("load sheet: no stream, every kind and mode: no row, no edge; 'Idle edges always count' is of a stream")
    for kind in SIZES:
        for mode in range(1, 7):
            s.sheet(0, kind, mode, [], [], (0,) * 6)
    s.sheet(0, 0, 1, [], [], (0,) * 6, tables=(0, 0))
    s.say("load sheet: an empty stream runs out at once in parallel modes, 16 and 3 edges; in serial ones 'a failed hunt has 5, 24 edges and else zeros'")
    for mode in PARALLEL:
        s.sheet(0, 0, mode, [""], [(16, 0, 0, 0, 0, 0, 3)], (0, 0, 0, 0, 0, 3))
        s.sheet(0, 10, mode, ["", "", ""], [(16, 0, 0, 0, 0, 0, 3)] * 3, (0, 0, 0, 0, 0, 9))
    for mode in SERIAL:
        s.sheet(0, 0, mode, [""], [(5, 0, 0, 0, 0, 0, 24)], (0, 0, 0, 0, 0, 24))
        s.sheet(0, 10, mode, ["", "", ""], [(5, 0, 0, 0, 0, 0, 24)] * 3, (0, 0, 0, 0, 0, 72))
    s.say("load sheet: stream A in each mode, by hand: 3 data bytes, 3 cells, 8 bits; 15 bytes and 18 edges, 16 and 19 in mode 6, 15 and 144 in 3 and 4")
    for mode in (1, 2, 5):
        s.sheet(0, 0, mode, [A], [(0, 15, 3, 3, 0, 8, 18)], (15, 3, 3, 0, 8, 18))
    s.sheet(0, 0, 6, [b"\xb2" + A], [(0, 16, 3, 3, 0, 8, 19)], (16, 3, 3, 0, 8, 19))
    for mode in SERIAL:
        s.sheet(0, 0, mode, [A], [(0, 15, 3, 3, 0, 8, 144)], (15, 3, 3, 0, 8, 144))
    s.say("load sheet: the same stream again stores 3 cells again, 'within' the row once each, and changes no bit; the sums are of the rows, not of the month's cells")
    for mode in range(1, 7):
        s.sheet(0, 0, mode, [sent(mode, A)] * 3, [row(mode, 0, 15, 3, bits=8), row(mode, 0, 15, 3), row(mode, 0, 15, 3)])
    s.say("load sheet, every kind: its last cell, then a start that is not below the size, then an end that is not; FF over 00 is 8 bits")
    for kind, size in SIZES.items():
        last = stream(section([window(size - 1, size - 1, "FF")]))
        high = b"\xb2" + section([bytes([0, size // 256, size % 256])])
        past = b"\xb2" + section([bytes([0, (size - 1) // 256, (size - 1) % 256, size // 256, size % 256])])
        for mode in (1, 3, 6):
            rows = [row(mode, 0, 13, 1, bits=8), row(mode, 11, 9), row(mode, 12, 11), row(mode, 0, 13, 1)]
            s.sheet(0, kind, mode, [sent(mode, t) for t in (last, high, past, last)], rows)


def cases_sheet_stops(s):
    for mode in range(1, 7):
        s.say(f"load sheet, mode {mode}: stream A 'runs out' at each byte: 16, 'then closed by uncounted closing bytes'; A behind it is whole, and changes the bits that are left")
        for k in range(mode in SERIAL, 15):
            n = A_DATA[k]
            rows = [row(mode, 16, k, n, bits=A_ONES[n]), row(mode, 0, 15, 3, bits=8 - A_ONES[n])]
            s.sheet(0, 0, mode, [sent(mode, A[:k]), sent(mode, A)], rows)
        s.say(f"load sheet, mode {mode}: every stop in one sheet, from the longest down: the closing bytes change no cell, so that no bit is counted after the first")
        stops = range(14, 0, -1)
        rows = [row(mode, 16, k, A_DATA[k], bits=8 if k == 14 else 0) for k in stops]
        s.sheet(0, 0, mode, [sent(mode, A[:k]) for k in stops], rows)
    s.say("load sheet, mode 6: the second preamble is missing: one byte")
    s.sheet(0, 0, 6, ["B2", b"\xb2" + A], [(16, 1, 0, 0, 0, 0, 4), (0, 16, 3, 3, 0, 8, 19)])
    s.say("load sheet: runs out inside the second of two windows, and within a window that is closed with the present cells of the streams before")
    two = stream(section([window(9, 11, "112233"), window(20, 23, "FF0FF0FF")]))
    for k, data, bits in ((19, 3, 8), (20, 4, 16), (21, 5, 20), (22, 6, 24), (23, 7, 32)):
        s.sheet(0, 0, 1, [two[:k], two], [row(1, 16, k, data, bits=bits), row(1, 0, 24, 7, bits=32 - bits)])
    full = stream(section([window(0, 51, bytes([0xA5] * 52))]))
    # A5 differs from 11, from 22, from 33 and from FF in four bits each
    s.sheet(0, 0, 1, [full, two[:20], two[:10], full], [row(1, 0, 64, 52, bits=208), row(1, 16, 20, 4, bits=16), row(1, 16, 10), row(1, 0, 64, 52, bits=16)])
    s.say("load sheet: stops at 11 whose closing bytes are 00, FF, or 00 with present cells (kind 2: start 0100, end's high byte 01, and start 00FF)")
    for start, high in ((0x0009, 0x00), (0x0000, 0x0A), (0x0100, 0x01), (0x00FF, 0x01), (0x0A00, 0x0A), (0x0010, 0x02)):
        cut = b"\xb2" + section([bytes([0, start // 256, start % 256, high])])
        s.sheet(0, 2, 1, [A, cut, A], [row(1, 0, 15, 3, bits=8), row(1, 16, 10), row(1, 0, 15, 3)])


def cases_sheet_numbers(s):
    s.say("load sheet: 'a refused one with its number and the figures up to the refused byte', which counts as taken and has its edges; the next one is not touched by it")
    good = window(9, 11, "112233")
    refused = [
        (5, "4D", 1, 0),
        (5, "00B2", 1, 0),
        (8, b"\xb2" + section([]) + b"\x00", 7, 0),
        (8, b"\xb2" + section([good]) + b"\x4c", 15, 3),
        (9, b"\xb2" + section([good], 0x04) + b"\xb2", 15, 3),
        (10, b"\xb2" + section([good]) + b"\xb2", 15, 3),
        (10, b"\xb2" + section([]) + b"\xb2", 7, 0),
        (11, b"\xb2" + section([good, bytes_of("00 0034")]), 17, 3),
        (11, b"\xb2" + section([bytes_of("00 FFFF")]), 9, 0),
        (12, b"\xb2" + section([good, bytes_of("00 0009 0034")]), 19, 3),
        (12, b"\xb2" + section([good, bytes_of("00 000B 0009")]), 19, 3),
    ]
    for mode in (1, 2, 5):
        for number, t, taken, data in refused:
            rows = [row(mode, number, taken, data, bits=A_ONES[data]), row(mode, 0, 15, 3, bits=8 - A_ONES[data])]
            s.sheet(0, 0, mode, [bytes_of(t), A], rows)
            s.sheet(0, 0, mode, [bytes_of(t) + A, A], rows)
    for mode in (3, 4, 6):
        for number, t, taken, data in refused[2:]:
            rows = [row(mode, number, taken, data, bits=A_ONES[data]), row(mode, 0, 15, 3, bits=8 - A_ONES[data])]
            s.sheet(0, 0, mode, [sent(mode, t), sent(mode, A)], rows)
            s.sheet(0, 0, mode, [sent(mode, bytes_of(t) + A), sent(mode, A)], rows)
    s.say("load sheet, mode 6: no preamble at the first byte, and at the second")
    s.sheet(0, 0, 6, ["00B2", "B200", "B24D", b"\xb2" + A], [(5, 1, 0, 0, 0, 0, 4), (5, 2, 0, 0, 0, 0, 5), (5, 2, 0, 0, 0, 0, 5), (0, 16, 3, 3, 0, 8, 19)])
    s.say("load sheet: 'B4 bars later runs, not this one': every stream after it has 6, one byte taken, two in mode 6; cells stay, bits are not counted again")
    bars = stream(section([window(9, 9, "FF")], 0x10))
    for mode in range(1, 7):
        rows = [row(mode, 0, 15, 3, bits=8), row(mode, 0, 13, 1, bits=6)] + [row(mode, 6, 1)] * 3
        s.sheet(0, 0, mode, [sent(mode, t) for t in (A, bars, A, EMPTY, bars)], rows)
    s.say("load sheet: the barring stream runs out or is refused, and bars all the same once its control byte was taken; not before")
    for mode in range(1, 7):
        for k in range(mode in SERIAL, 12):
            s.sheet(0, 0, mode, [sent(mode, bars[:k]), sent(mode, A)], [row(mode, 16, k), row(mode, 6, 1) if k >= 2 else row(mode, 0, 15, 3, bits=8)])
        worse = b"\xb2" + section([bytes_of("00 0034")], 0x10)
        s.sheet(0, 0, mode, [sent(mode, worse), sent(mode, A)], [row(mode, 11, 9), row(mode, 6, 1)])
    s.say("load sheet: barred, an empty stream still runs out, and a byte that is no preamble is 5 before 6; in mode 6 one B2 alone runs out")
    s.sheet(0, 0, 1, [bars, "", "00", "B2"], [row(1, 0, 13, 1, bits=8), row(1, 16, 0), row(1, 5, 1), row(1, 6, 1)])
    barred = [(0, 14, 1, 1, 0, 8, 17), (16, 0, 0, 0, 0, 0, 3), (16, 1, 0, 0, 0, 0, 4), (5, 2, 0, 0, 0, 0, 5), (6, 2, 0, 0, 0, 0, 5)]
    s.sheet(0, 0, 6, [b"\xb2" + bars, "", "B2", "B200", "B2B200"], barred)
    s.sheet(0, 0, 3, [bars, "00", "B2"], [row(3, 0, 13, 1, bits=8), (5, 0, 0, 0, 0, 0, 24), row(3, 6, 1)])
    s.say("load sheet: 'writing': B3, which bars checks, bars no stream; B2 of the control byte ends it at this device, B0 and B1 do nothing")
    for control in (0x08, 0x04, 0x0F, 0xEF):
        t = stream(section([window(9, 11, "112233")], control))
        s.sheet(0, 0, 1, [t, t, A], [row(1, 0, 15, 3, bits=8), row(1, 0, 15, 3), row(1, 0, 15, 3)])


def cases_sheet_cells(s):
    def many(*windows, cells, again, bits, mode, before=()):
        t = stream(section(list(windows)))
        data = sum(len(w) - 5 for w in windows)
        rows = [row(mode, 0, 15, 3, bits=8) for _ in before] + [row(mode, 0, len(t), data, cells, again, bits)]
        s.sheet(0, 0, mode, [sent(mode, b) for b in (*before, t)], rows)

    for mode in (1, 3, 6):
        s.say(f"load sheet, mode {mode}: windows in order, apart and touching: no cell twice")
        many(window(0, 1, "FFFF"), window(3, 4, "FFFF"), window(9, 9, "FF"), cells=5, again=0, bits=40, mode=mode)
        many(window(0, 1, "FFFF"), window(2, 4, "FFFFFF"), window(5, 5, "FF"), cells=6, again=0, bits=48, mode=mode)
        s.say("load sheet: descending, apart and touching: no cell twice")
        many(window(9, 9, "01"), window(3, 4, "0307"), window(0, 1, "0F1F"), cells=5, again=0, bits=1 + 2 + 3 + 4 + 5, mode=mode)
        many(window(5, 5, "01"), window(2, 4, "030303"), window(0, 1, "0F0F"), cells=6, again=0, bits=1 + 6 + 8, mode=mode)
        s.say("load sheet: overlapping, ascending and descending: 'the last window winning'")
        many(window(0, 4, "FFFFFFFFFF"), window(3, 6, "01010101"), cells=7, again=2, bits=24 + 4, mode=mode)
        many(window(3, 6, "01010101"), window(0, 4, "FFFFFFFFFF"), cells=7, again=2, bits=40 + 2, mode=mode)
        s.say("load sheet: one cell shared, at either edge; nested, both ways; the same window thrice is each cell once in 'more than once'")
        many(window(0, 4, "FFFFFFFFFF"), window(4, 6, "000000"), cells=7, again=1, bits=32, mode=mode)
        many(window(4, 6, "FFFFFF"), window(0, 4, "0000000000"), cells=7, again=1, bits=16, mode=mode)
        many(window(0, 9, "FF" * 10), window(3, 5, "000000"), cells=10, again=3, bits=56, mode=mode)
        many(window(3, 5, "FFFFFF"), window(0, 9, "00" * 10), cells=10, again=3, bits=0, mode=mode)
        many(*[window(7, 9, "FFFFFF")] * 3, cells=3, again=3, bits=24, mode=mode)
        many(window(7, 9, "FFFFFF"), window(8, 8, "0F"), window(8, 8, "01"), window(9, 9, "00"), cells=3, again=2, bits=9, mode=mode)
        s.say("load sheet: bits are of before and after alone: changed and changed back is none, and what another stream stored before counts")
        many(window(9, 11, "FFFFFF"), window(9, 11, "112233"), cells=3, again=3, bits=0, mode=mode, before=[A])
        many(window(9, 11, "EEDDCC"), cells=3, again=0, bits=24, mode=mode, before=[A])
        many(window(9, 11, "10FF32"), cells=3, again=0, bits=1 + 6 + 1, mode=mode, before=[A])
    s.say("load sheet: overlapping windows that run out, at each data byte of the last one; those not reached are not counted")
    t = b"\xb2" + section([window(0, 2, "FFFFFF"), window(5, 6, "0101"), window(1, 6, "000000000000")])
    for k in range(7):
        again, cells = [0, 1, 2, 2, 2, 3, 4][k], 5 + [0, 0, 0, 1, 2, 2, 2][k]
        s.sheet(0, 0, 1, [t[: len(t) - 6 + k], EMPTY], [row(1, 16, len(t) - 6 + k, 5 + k, cells, again, [26, 18, 10, 10, 10, 9, 8][k]), row(1, 0, 7)])
    s.say("load sheet: 255 windows of one cell, all the same one; 255 windows over 52 cells, up and down")
    t = stream(section([window(51, 51, bytes([i])) for i in range(1, 256)]))
    s.sheet(0, 0, 1, [t], [row(1, 0, len(t), 255, 1, 1, 8)])
    t = stream(section([window(i % 52, i % 52, "80") for i in range(255)]))
    s.sheet(0, 0, 1, [t, t], [row(1, 0, len(t), 255, 52, 52, 52), row(1, 0, len(t), 255, 52, 52)])
    t = stream(section([window(51 - i, 51, bytes(i) + b"\x80") for i in range(52)]))
    s.sheet(0, 0, 1, [t], [row(1, 0, len(t), 52 * 53 // 2, 52, 51, 1)])
    s.say("load sheet, kind 10: the whole device, FF, then 01 over it, then its upper half; 131,048 bits and all its cells")
    size = SIZES[10]
    whole = [stream(section([window(0, size - 1, bytes([b]) * size)])) for b in (0xFF, 0x01)]
    half = stream(section([window(8192, size - 1, b"\x03" * (size - 8192))]))
    rows = [row(1, 0, size + 12, size, bits=8 * size), row(1, 0, size + 12, size, bits=7 * size), row(1, 0, 8201, 8189, bits=8189)]
    s.sheet(0, 10, 1, [*whole, half], rows, (2 * 16393 + 8201, 40951, 40951, 0, 15 * 16381 + 8189, 40996))
    s.sheet(0, 10, 4, [at_bit(13, t) for t in [*whole, half]], [row(4, *r[:6], p=13) for r in rows])


def cases_sheet_bits(s):
    s.say("load sheet: 'p added': stream A from each bit position, 0 to 64, in modes 3 and 4; zeros fill the last byte and have no edge")
    for mode in SERIAL:
        for p in range(65):
            edges = 8 * 15 + p + 24
            s.sheet(0, 0, mode, [at_bit(p, A)], [(0, 15, 3, 3, 0, 8, edges)], (15, 3, 3, 0, 8, edges))
    s.say("load sheet: a preamble at 65 is not found; neither is one that stands in no whole byte")
    s.sheet(0, 0, 3, [at_bit(65, A), at_bit(64, A)], [(5, 0, 0, 0, 0, 0, 24), row(3, 0, 15, 3, bits=8, p=64)])
    s.sheet(0, 0, 4, ["FFFFFF", "59", "64"], [(5, 0, 0, 0, 0, 0, 24)] * 3)
    s.say("load sheet: bits left after the last whole byte are dropped and have no edge: a stream that runs out, by whole bytes and by bits")
    for p in range(8):
        for k in (1, 2, 11, 12, 14):
            n = A_DATA[k]
            s.sheet(0, 0, 3, [at_bit(p, A)[: k + (p > 0)]], [row(3, 16, k, n, bits=A_ONES[n], p=p)])
    s.sheet(0, 0, 3, [at_bit(3, A)[:12], at_bit(5, A)[:13]], [row(3, 16, 11, p=3), row(3, 16, 12, 1, bits=2, p=5)])
    s.say("load sheet: 'p' counts for refused streams too, and for barred ones; bits before the preamble may be anything that makes no B2")
    for p in (1, 7, 8, 9, 33, 63, 64):
        bars = stream(section([], 0x10))
        ends = at_bit(p, b"\xb2" + section([bytes_of("00 0034")]) + A, before=1)
        rows = [row(3, 11, 9, p=p), row(3, 0, 7, p=p), row(3, 6, 1, p=p)]
        s.sheet(0, 0, 3, [ends, at_bit(p, bars), at_bit(p, A)], rows)
    s.say("load sheet: bytes after the run's end are not looked at, in each mode, and have no edge")
    for mode in range(1, 7):
        for tail in ("00", "B2", A.hex() * 3):
            s.sheet(0, 0, mode, [sent(mode, A + bytes_of(tail), 5), sent(mode, A)], [row(mode, 0, 15, 3, bits=8, p=5 * (mode in SERIAL)), row(mode, 0, 15, 3)])
    s.say("load sheet: in modes 1, 2, 5 and 6 nothing is hunted: bits before the preamble are 5")
    for mode in PARALLEL:
        s.sheet(0, 0, mode, [at_bit(1, A), b"\x00" + A], [(5, 1, 0, 0, 0, 0, 4)] * 2)
    s.say("load sheet: in modes 3 and 4 the hunt may find a B2 before the stream's own; then A's is the control byte, its count 00 is 255 windows, and the end 0900 is 12")
    s.sheet(0, 0, 3, [b"\xb2" + A], [(12, 11, 0, 0, 0, 0, 8 * 11 + 24)])


def cases_sheet_refused(s):
    s.say("load sheet, 65,536 lengths: taken, all of them streams of no byte, and the first of them stream A; 65,537 are 23")
    most = 65536
    s.sheet(0, 0, 1, [], None, (0, 0, 0, 0, 0, 3 * most), lengths=[0] * most, tables=(most, 6 * most))
    s.sheet(0, 0, 3, [A], None, (15, 3, 3, 0, 8, 144 + 24 * (most - 1)), lengths=[15] + [0] * (most - 1), tables=(most, 6 * most))
    s.sheet(15, 0, 1, [], lengths=[0] * most, tables=(most - 1, 6 * most))
    s.sheet(15, 0, 1, [], lengths=[0] * most, tables=(most, 6 * most - 1))
    s.sheet(23, 0, 1, [], lengths=[0] * (most + 1), tables=(most, 6 * most + 6))
    s.sheet(23, 0, 1, [], lengths=[0] * (most + 1), tables=(0, 0))
    s.say("load sheet, 23: lengths 'do not sum to the slice': a byte too many, one too few, none, one where there is none")
    for lengths in ([14], [16], [], [0], [15, 1], [7, 7], [0, 0, 14], [30]):
        s.sheet(23, 0, 1, [A], lengths=lengths, tables=(3, 18))
    for lengths in ([1], [0, 1]):
        s.sheet(23, 0, 1, [], lengths=lengths)
    s.say("load sheet, 23: a sum that is right modulo 2^32 only, or modulo 2^31")
    for lengths in ([2**32 - 1, 16], [2**31, 2**31, 15], [2**31, 15], [2**32 - 15, 30], [15] + [2**31] * 2 + [2**31] * 2, [2**32 - 1]):
        s.sheet(23, 0, 1, [A], lengths=lengths)
    s.sheet(23, 0, 1, [], lengths=[2**31, 2**31])
    s.say("load sheet: lengths that part the slice otherwise are other streams: empty ones among them, and A in two halves")
    s.sheet(0, 0, 1, [A], [row(1, 16, 0), row(1, 0, 15, 3, bits=8), row(1, 16, 0)], lengths=[0, 15, 0])
    s.sheet(0, 0, 1, [A], [row(1, 16, 12, 1, bits=2), row(1, 5, 1)], lengths=[12, 3])
    s.say("load sheet, 1: unknown kinds; 2: 'a mode not 1 to 6'; 15: a table one entry short, each of both, and none")
    for kind in (1, 4, 6, 9, 11, 255):
        s.sheet(1, kind, 1, [A])
        s.sheet(1, kind, 1, [])
    for mode in (0, 7, 8, 128, 255):
        s.sheet(2, 0, mode, [A])
        s.sheet(2, 0, mode, [])
    for n in (1, 2, 5):
        s.sheet(15, 0, 1, [A] * n, tables=(n - 1, 6 * n))
        s.sheet(15, 0, 1, [A] * n, tables=(n, 6 * n - 1))
        s.sheet(15, 0, 1, [A] * n, tables=(n, 0))
        s.sheet(15, 0, 1, [A] * n, tables=(0, 6 * n))
        s.sheet(0, 0, 1, [A] * n, tables=(n, 6 * n))
    s.say("load sheet: 'then': 23 before 1, 2 and 15; 1 before 2 and 15; 2 before 15; refused, 'else zeros' and both tables as they were")
    bad = {"lengths": [14], "tables": (0, 0)}
    s.sheet(23, 1, 0, [A], **bad)
    s.sheet(23, 0, 0, [A], **bad)
    s.sheet(23, 0, 1, [A], **bad)
    s.sheet(23, 1, 1, [A], lengths=[16])
    s.sheet(1, 1, 0, [A], tables=(0, 0))
    s.sheet(1, 1, 1, [A], tables=(0, 0))
    s.sheet(1, 1, 7, [A])
    s.sheet(2, 0, 0, [A], tables=(0, 0))
    s.sheet(2, 0, 7, [A], tables=(1, 5))


ALL = [cases_new, cases_reset, cases_start, cases_bytes, cases_preamble, cases_control, cases_windows, cases_check_byte, cases_check, cases_guide]
ALL += [cases_chains, cases_closing, cases_closing_11, cases_closing_2, cases_saved, cases_picked_up, cases_hunt, cases_write, cases_list]
ALL += [cases_stops, cases_drop, cases_tidy, cases_salvage, cases_fetch, cases_fetch_refused, cases_jump, cases_board]
ALL += [cases_sheet, cases_sheet_stops, cases_sheet_numbers, cases_sheet_cells, cases_sheet_bits, cases_sheet_refused]


# Every number that each call can give, by the paper's table; each is given at least once.
FED = {0, 1, 4, 5, 6, 7, 8, 9, 10, 11, 12, 16, 17}
CAN_GIVE = {"n": {0, 1}, "r": {0, 1}, "s": {0, 1, 2, 3, 17}, "b": FED, "f": FED, "c": {0, 1, 4, 15, 17}, "v": {0, 1, 4, 15, 17}, "p": {0, 1, 3, 17}}
CAN_GIVE |= {"d": {0, 1, 4, 17}, "h": {0, 5, 15}, "w": {0, 1, 2, 11, 12, 13, 14, 15}, "l": {0, 1, 2, 5, 8, 9, 10, 11, 12, 15, 16}}
CAN_GIVE |= {"t": {0, 1, 5, 8, 9, 10, 11, 12, 15, 16}, "k": {0, 1, 5, 15, 27}, "x": FED | {2, 18, 19}, "y": {0, 1, 2, 15, 23}}
ENDS = {0, 8, 9, 10, 11, 12, 16}
ROWS = {0, 5, 6, 8, 9, 10, 11, 12, 16}


def main():
    s = Script()
    for cases in ALL:
        cases(s)
    assert s.given == {(letter, n) for letter, numbers in CAN_GIVE.items() for n in numbers}
    assert s.ends == ENDS
    assert s.rows == ROWS
    here = Path(__file__).resolve().parents[2] / "crates" / "cases"
    files = {here / "stdin": bytes(s.stdin), here / "stdout": ("\n".join(s.stdout) + "\n").encode()}
    if "--check" in sys.argv[1:]:
        for path, text in files.items():
            if path.read_bytes() != text:
                raise SystemExit(f"{path.name} differs from what the model works out")
    else:
        for path, text in files.items():
            path.write_bytes(text)
    print(f"{s.calls} calls, {len(s.stdout)} lines")


main()
