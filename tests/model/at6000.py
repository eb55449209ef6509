"""The model of document 01, and of the requests of document 02 that have landed, in Python, written from the papers and not from the
crates' code or definitions; docs/TESTS.md says where that holds in part only.

It is short and slow on purpose: each function follows the paper's sentences in their order, which are quoted beside it. cases.py works
out with it what the program `cases` must print, listing.py what the program `listing` must. Each of the seventeen calls answers its number
first, but for the new fetcher, which has none. Taken from the interface, not from the paper: the names of the state's fields, `running` and
`check` as bytes of which any but 0 and 1 is not well formed in a lent state, and that start takes any check but 0 for a check. Where the
paper leaves a choice, the readings in docs/DECISIONS.md are followed.
"""

from copy import deepcopy
from dataclasses import dataclass, field

# "Kinds and memory bytes are a constant table"
SIZES = {0: 52, 2: 2665, 3: 4141, 5: 8065, 10: 16381}
MOST_DEVICES = 8
MOST_CELLS = 65536

# "Preamble B2 hex, postamble 4D hex."
PREAMBLE = 0xB2
POSTAMBLE = 0x4D

# "the control bit B2 is bit 2"
B0, B1, B2, B3, B4 = 1 << 0, 1 << 1, 1 << 2, 1 << 3, 1 << 4

COUNTERS = 2**32

# "Awaited bytes, in order"
(PREAMBLE_1, PREAMBLE_2, CONTROL, ADDRESS_1, ADDRESS_2, ADDRESS_3, COUNT, NULL, START_HIGH, START_LOW, END_HIGH, END_LOW, DATA, CHECK) = range(14)

GOES_ON = 16


@dataclass
class Place:
    """The open place; `running` is 0 where there is none and 1 where there is one. With 0 the other fields are no part of the state."""

    running: int = 0
    mode: int = 0
    check: int = 0
    device: int = 0
    awaited: int = 0
    left: int = 0
    control: int = 0
    start: int = 0
    end: int = 0
    next: int = 0
    taken: int = 0
    mismatches: int = 0


@dataclass
class Chain:
    """ "The state holds the count, eight kinds (unused ones zero), eight control registers (unused ones zero) and the open place, if any." """

    count: int = 0
    kinds: list = field(default_factory=lambda: [0] * 8)
    registers: list = field(default_factory=lambda: [0] * 8)
    place: Place = field(default_factory=Place)

    def base(self, device):
        """ "Its memories lie one after another in one lent buffer." """
        return sum(SIZES[k] for k in self.kinds[:device])

    def size(self):
        """The size of the current device."""
        return SIZES[self.kinds[self.place.device]]

    def stored(self):
        """The stored register of the current device."""
        return self.registers[self.place.device]


# ---- Numbers 1 and 17 of a state


def bad_chain(count, kinds, length):
    """1: "count not 1 to 8, unknown kind, total over 65,536, or lent memory of another length" """
    if not 1 <= count <= MOST_DEVICES:
        return True
    if any(k not in SIZES for k in kinds[:count]):
        return True
    total = sum(SIZES[k] for k in kinds[:count])
    return total > MOST_CELLS or length != total


def well_formed(c, registers, p):
    """ "Well formed: .." of a place p with these registers in the chain c, of which count and kinds are used. """
    # "mode 1 to 6, awaited 0 to 13, device in the chain, unused registers 0, mismatches 0 in a write."
    if not 1 <= p.mode <= 6 or p.check not in (0, 1) or not 0 <= p.awaited <= 13 or not p.device < c.count:
        return False
    if any(registers[c.count :]):
        return False
    if not p.check and p.mismatches != 0:
        return False
    # "Awaited 0 and 1 only on device 0, 1 only in mode 6."
    if p.awaited in (0, 1) and p.device != 0:
        return False
    if p.awaited == 1 and p.mode != 6:
        return False
    # "Control byte 0 before it is taken; after, .. in a check with B3 clear." Document 02: "In the saved place the current control byte
    # equals the stored register in both sorts of run."
    stored = registers[p.device]
    if p.awaited <= CONTROL:
        if p.control != 0:
            return False
    elif p.control != stored or p.check and p.control & B3:
        return False
    # "Awaited 0 to 6 and 13: windows, start, end, next 0. 7 to 12: windows at least 1."
    size = SIZES[c.kinds[p.device]]
    if p.awaited <= COUNT or p.awaited == CHECK:
        if (p.left, p.start, p.end, p.next) != (0, 0, 0, 0):
            return False
    elif p.left < 1:
        return False
    # "7, 8: start, end, next 0. 9: start's low byte 0, end and next 0. 10: start below size, end and next 0."
    if p.awaited in (NULL, START_HIGH) and (p.start, p.end, p.next) != (0, 0, 0):
        return False
    if p.awaited == START_LOW and (p.start % 256, p.end, p.next) != (0, 0, 0):
        return False
    if p.awaited == END_HIGH and not (p.start < size and (p.end, p.next) == (0, 0)):
        return False
    # "11: start below size, end's low byte 0, next 0. 12: start <= next <= end < size."
    if p.awaited == END_LOW and not (p.start < size and (p.end % 256, p.next) == (0, 0)):
        return False
    if p.awaited == DATA and not p.start <= p.next <= p.end < size:
        return False
    # "At 2: stored B4 clear, in a check B3 too."
    if p.awaited == CONTROL and (stored & B4 or p.check and stored & B3):
        return False
    return True


def state_number(c, mem):
    """1, then 17: "a lent state (reset excepted) whose unused kinds or registers are not zero or whose open place is not well formed" """
    if bad_chain(c.count, c.kinds, len(mem)):
        return 1
    if any(c.kinds[c.count :]) or any(c.registers[c.count :]):
        return 17
    if c.place.running not in (0, 1):
        return 17
    if c.place.running == 1 and not well_formed(c, c.registers, c.place):
        return 17
    return 0


def open_number(c, mem):
    """1, 17, then 4: "byte, slice, closing or save with no run open", and drop"""
    return state_number(c, mem) or (0 if c.place.running else 4)


# ---- New and reset


def new(count, kinds, mem):
    """ "A new state is made from a count and eight kinds, those past the count taken as zero, with zero registers and no open run. It leaves
    memory as lent; refused, it is all zero." """
    if bad_chain(count, kinds, len(mem)):
        return 1, Chain()
    return 0, Chain(count, kinds[:count] + [0] * (8 - count))


def reset(c, mem):
    """ "it zeroes memory, all registers and unused kinds and closes the run", "even with a run open" """
    if bad_chain(c.count, c.kinds, len(mem)):
        return 1, c, mem
    return 0, Chain(c.count, c.kinds[: c.count] + [0] * (8 - c.count)), bytes(len(mem))


# ---- The byte machine


def start(c, mem, mode, check):
    """ "Order: 1, 17 for the state, 2, 3" """
    number = state_number(c, mem)
    if number == 0 and not 1 <= mode <= 6:
        number = 2
    if number == 0 and c.place.running:
        number = 3
    if number != 0:
        return number, c
    c = deepcopy(c)
    c.place = Place(running=1, mode=mode, check=1 if check else 0)
    return 0, c


def begins(c, device):
    """6 and 7 of a B2 that would begin this device, or 0."""
    # "B2 that would begin a device (in mode 6 the second) whose stored B4 is set"
    if c.registers[device] & B4:
        return 6
    # "check, and that device's stored B3 is set"
    if c.place.check and c.registers[device] & B3:
        return 7
    return 0


def begin(c, device):
    """The awaited byte is this device's control byte."""
    c.place.device = device
    c.place.control = 0
    c.place.awaited = CONTROL


def refusal(c, b):
    """The number for which this byte is refused, or 0."""
    p = c.place
    # "At a preamble: 5, 6, 7." "awaited 0 or 1 and not B2"
    if p.awaited in (PREAMBLE_1, PREAMBLE_2):
        if b != PREAMBLE:
            return 5
        return 0 if p.awaited == PREAMBLE_1 and p.mode == 6 else begins(c, 0)
    # "check, and .. the control byte sets B3"
    if p.awaited == CONTROL and p.check and b & B3:
        return 7
    # "start not below the device's size, at its second byte"
    if p.awaited == START_LOW and p.start + b >= c.size():
        return 11
    # "end below start or not below size, at its second byte"
    if p.awaited == END_LOW and (p.end + b < p.start or p.end + b >= c.size()):
        return 12
    # "At 13: 8, 9, 10, 6, 7."
    if p.awaited == CHECK and b != POSTAMBLE:
        if b != PREAMBLE:
            return 8
        if p.control & B2:
            return 9
        if p.device + 1 >= c.count:
            return 10
        return begins(c, p.device + 1)
    return 0


def take(c, mem, b):
    """One byte of an open run: 16 where it goes on, else the number with which it ends. The place stays, for its counts."""
    p = c.place
    # "A refused byte counts as taken, closes the run and changes no cell or register"
    p.taken = (p.taken + 1) % COUNTERS
    number = refusal(c, b)
    if number != 0:
        return number
    # "At 13: 4D accepts"
    if p.awaited == CHECK and b == POSTAMBLE:
        return 0
    if p.awaited == PREAMBLE_1 and p.mode == 6:
        p.awaited = PREAMBLE_2
    elif p.awaited in (PREAMBLE_1, PREAMBLE_2):
        begin(c, 0)
    elif p.awaited == CONTROL:
        # "In a write the control byte is loaded when taken." Document 02: "a check stores the control byte too, after the test for 7."
        c.registers[p.device] = b
        p.control = b
        p.awaited = ADDRESS_1
    elif p.awaited in (ADDRESS_1, ADDRESS_2, ADDRESS_3):
        p.awaited += 1
    elif p.awaited == COUNT:
        # "the ones' complement of the number of windows"; "No windows: 6 goes to 13. Otherwise 7"
        p.left = b ^ 0xFF
        p.awaited = NULL if p.left else CHECK
    elif p.awaited == NULL:
        p.awaited = START_HIGH
    elif p.awaited == START_HIGH:
        p.start = 256 * b
        p.awaited = START_LOW
    elif p.awaited == START_LOW:
        p.start += b
        p.awaited = END_HIGH
    elif p.awaited == END_HIGH:
        p.end = 256 * b
        p.awaited = END_LOW
    elif p.awaited == END_LOW:
        p.end += b
        p.next = p.start
        p.awaited = DATA
    elif p.awaited == DATA:
        # "A write stores the data byte in the cell at once. A check stores nothing, counts data bytes that differ from their cells"
        cell = c.base(p.device) + p.next
        if not p.check:
            mem[cell] = b
        elif mem[cell] != b:
            p.mismatches = (p.mismatches + 1) % COUNTERS
        # "A window covers start to end inclusive"; "after each window 7 again or 13"
        if p.next == p.end:
            p.start = p.end = p.next = 0
            p.left -= 1
            p.awaited = NULL if p.left else CHECK
        else:
            p.next += 1
    else:
        # "B2 begins the next device at 2"
        begin(c, p.device + 1)
    return GOES_ON


def feed(c, mem, s):
    """ "A whole-slice call feeds an open run and stops at its end; later bytes are not looked at." Answers number, bytes taken, mismatches,
    state and memory. """
    number = open_number(c, mem)
    if number != 0:
        return number, 0, 0, c, mem
    c, mem = deepcopy(c), bytearray(mem)
    number = GOES_ON
    for b in s:
        number = take(c, mem, b)
        if number != GOES_ON:
            break
    counts = c.place.taken, c.place.mismatches
    if number != GOES_ON:
        c.place = Place()
    return number, *counts, c, bytes(mem)


def byte(c, mem, b):
    """ "A byte call is a slice of one." """
    return feed(c, mem, bytes([b]))


def drop(c, mem):
    """Drops an open run without touching memory or registers: 1, 17, 4."""
    number = open_number(c, mem)
    return (number, c) if number else (0, Chain(c.count, list(c.kinds), list(c.registers)))


# ---- Outputs


def put(out, s):
    """15: "output .. shorter than needed". "on 0 only the needed front part is written and its length answered (0 otherwise)" """
    if len(out) < len(s):
        return 15, 0, out
    return 0, len(s), bytes(s) + bytes(out[len(s) :])


# ---- Closing bytes


def closing_bytes(c, mem):
    """ "By awaited byte, with size that of the current device" """
    p, size = c.place, c.size()
    cells = mem[c.base(p.device) :][:size]
    # "Tail: 00 FF FF if windows remain after this one, else 4D."
    tail = [0x00, 0xFF, 0xFF] if p.left > 1 else [POSTAMBLE]
    # "0, 1: 00. 2: stored register, 00 00 00 FF 4D. 3 to 5: the missing address bytes as 00, then FF 4D. 6: FF 4D. 13: 4D."
    if p.awaited in (PREAMBLE_1, PREAMBLE_2):
        return [0x00]
    if p.awaited == CONTROL:
        # Document 02: "In a check at 2, send 08 alone: number 7 ends it."
        return [0x08] if p.check else [c.stored(), 0x00, 0x00, 0x00, 0xFF, POSTAMBLE]
    if p.awaited in (ADDRESS_1, ADDRESS_2, ADDRESS_3):
        return [0x00] * (COUNT - p.awaited) + [0xFF, POSTAMBLE]
    if p.awaited == COUNT:
        return [0xFF, POSTAMBLE]
    if p.awaited == CHECK:
        return [POSTAMBLE]
    # "7: 00 FF FF. 8: FF FF. 9: FF, then FF FF if that start is below size. 10: FF FF."
    if p.awaited == NULL:
        return [0x00, 0xFF, 0xFF]
    if p.awaited == START_HIGH:
        return [0xFF, 0xFF]
    if p.awaited == START_LOW:
        return [0xFF] + ([0xFF, 0xFF] if p.start + 255 < size else [])
    if p.awaited == END_HIGH:
        return [0xFF, 0xFF]
    if p.awaited == END_LOW:
        # "11, with end high byte h". Document 02: "For the byte at 11, send 00 when h equals the start's high byte and the start's low byte is
        # not zero: the end is then below start."
        h = p.end // 256
        if h == p.start // 256 and p.start % 256 != 0:
            return [0x00]
        # "FF if 256h + 255 is not below size or is below start."
        if 256 * h + 255 >= size or 256 * h + 255 < p.start:
            return [0xFF]
        # "Otherwise the start's low byte if h is the start's high byte, else 00", and either is 00 by now; "then the window's present cells,
        # then the tail."
        return [0x00, *cells[p.start : 256 * h + 1], *tail]
    # "12: present values of the remaining cells, then the tail."
    return [*cells[p.next : p.end + 1], *tail]


def closing(c, mem, out):
    """ "Closing and save: 4, 15." "They are written, not fed. A stopped check closes likewise." """
    number = open_number(c, mem)
    return (number, 0, out) if number else put(out, closing_bytes(c, mem))


# ---- Saved place, 27 bytes

# "Bit-packed fields, most significant first": name and width
FIELDS = [("form", 4), ("mode", 3), ("check", 1), ("device", 3), ("awaited", 4), ("zero", 1), ("left", 8), ("zeros", 8), ("start", 16), ("end", 16)]
FIELDS += [("next", 16), ("taken", 32), ("mismatches", 32)] + [(f"register {i}", 8) for i in range(8)] + [("control", 8)]
SAVED = sum(width for _, width in FIELDS) // 8


def packed(values):
    bits = "".join(format(values[name], f"0{width}b") for name, width in FIELDS)
    return bytes(int(bits[i : i + 8], 2) for i in range(0, len(bits), 8))


def unpacked(saved):
    bits, values = "".join(format(b, "08b") for b in saved), {}
    for name, width in FIELDS:
        values[name], bits = int(bits[:width], 2), bits[width:]
    return values


def saved_of(c):
    values = {"form": 1, "zero": 0, "zeros": 0} | {f"register {i}": r for i, r in enumerate(c.registers)}
    return packed({name: values[name] if name in values else getattr(c.place, name) for name, _ in FIELDS})


def save(c, mem, out):
    """ "Saving leaves the run open." """
    number = open_number(c, mem)
    return (number, 0, out) if number else put(out, saved_of(c))


def pick_up(c, mem, saved):
    """ "Pick-up: after the state's own, 3, then 17 for the place." "gives the state saved, registers included" """
    number = state_number(c, mem)
    if number == 0 and c.place.running:
        number = 3
    if number != 0:
        return number, c
    # "Well formed: length 27, form 1, zero bits 0"
    if len(saved) != SAVED:
        return 17, c
    values = unpacked(saved)
    if values["form"] != 1 or values["zero"] != 0 or values["zeros"] != 0:
        return 17, c
    place = Place(running=1, **{name: values[name] for name in vars(Place()) if name in values})
    registers = [values[f"register {i}"] for i in range(8)]
    if not well_formed(c, registers, place):
        return 17, c
    return 0, Chain(c.count, list(c.kinds), registers, place)


# ---- The hunt


def hunt(s, out):
    """ "the first bit position p, 0 to 64, where eight bits make B2. It writes the whole bytes that start at p into a lent output and drops a
    last part byte." "Hunt: 5, 15." "The hunt shall also answer p and the number of bits left after the last whole byte, both 0 on a refusal."
    Answers number, p, left, length and the output. """
    bits = [b >> i & 1 for b in s for i in range(8)]  # "each byte least significant bit first"

    def byte_at(p):
        return sum(bits[p + i] << i for i in range(8))

    for p in range(65):
        if p + 8 <= len(bits) and byte_at(p) == PREAMBLE:
            begins = list(range(p, len(bits) - 7, 8))
            number, length, out = put(out, [byte_at(q) for q in begins])
            left = len(bits[begins[-1] + 8 :])
            return (number, p, left, length, out) if number == 0 else (number, 0, 0, 0, out)
    return 5, 0, 0, 0, out


# ---- Writer and lister


def device_number(kind, mode):
    """ "kind (1), mode": what writer, lister and listing program test first. 1: "unknown kind", 2: "a mode not 1 to 6" """
    if kind not in SIZES:
        return 1
    return 0 if 1 <= mode <= 6 else 2


def write(kind, mode, control, address, starts, ends, data, out):
    """ "Writer: kind (1), mode, 13, then window by window 11, 12, then 14, 15." """
    number = device_number(kind, mode)
    if number != 0:
        return number, 0, out
    # 13: "start and end tables differ in length or exceed 255"
    if len(starts) != len(ends) or len(starts) > 255:
        return 13, 0, out
    size = SIZES[kind]
    for s, e in zip(starts, ends):
        if s >= size:
            return 11, 0, out
        if e < s or e >= size:
            return 12, 0, out
    # 14: "data length is not the sum of the windows"
    if len(data) != sum(e - s + 1 for s, e in zip(starts, ends)):
        return 14, 0, out
    # "Its lead-in is B2 in modes 1, 2, 5; 00 B2 in 3, 4; B2 B2 in 6. Null bytes are 00."
    stream = [PREAMBLE] if mode in (1, 2, 5) else [0x00, PREAMBLE] if mode in (3, 4) else [PREAMBLE, PREAMBLE]
    stream += [control, *address, len(starts) ^ 0xFF]
    at = 0
    for s, e in zip(starts, ends):
        stream += [0x00, s // 256, s % 256, e // 256, e % 256, *data[at : at + e - s + 1]]
        at += e - s + 1
    return put(out, stream + [POSTAMBLE])


def put_table(table, values):
    return values + table[len(values) :]


def list_windows(kind, mode, s, starts, ends, offsets):
    """ "Lister: kind (1), mode, the stream's own number, then 15." Answers number, windows, control byte, external address, bytes taken and
    the three tables. """
    number = device_number(kind, mode)
    if number != 0:
        return number, 0, 0, [0, 0, 0], 0, starts, ends, offsets
    # "for one freshly reset device": its machine is fed, and what it takes is noted
    mem = bytearray(SIZES[kind])
    _, c = start(Chain(1, [kind] + [0] * 7), mem, mode, 0)
    preamble, control, address, windows, number = 0, 0, [], [], GOES_ON
    for i, b in enumerate(s):
        awaited = c.place.awaited
        number = take(c, mem, b)
        # "data offsets (32 bits, from the preamble that precedes the control byte, which has offset 0)"
        if awaited == CONTROL:
            preamble, control = i - 1, b
        elif awaited in (ADDRESS_1, ADDRESS_2, ADDRESS_3):
            address.append(b)
        elif awaited == END_LOW and number == GOES_ON:
            windows.append((c.place.start, c.place.end, i + 1 - preamble))
        if number != GOES_ON:
            break
    taken = c.place.taken
    if number == 0 and min(len(starts), len(ends), len(offsets)) < len(windows):
        number = 15
    if number != 0:
        return number, 0, 0, [0, 0, 0], taken, starts, ends, offsets
    tables = [put_table(t, [w[i] for w in windows]) for i, t in enumerate((starts, ends, offsets))]
    return 0, len(windows), control, address, taken, *tables


# ---- The tidier


def tidied(control, address, values):
    """The tidied stream. `values` has for each cell its last value, None where no window has the cell."""
    # "Out come the windows ascending, disjoint, never touching": each is all cells that stand together
    windows = []
    for i, value in enumerate(values):
        if value is None:
            continue
        if i == 0 or values[i - 1] is None:
            windows.append((i, []))
        windows[-1][1].append(value)
    # "null bytes zero, control and external address kept"
    stream = [PREAMBLE, control, *address, len(windows) ^ 0xFF]
    for first, cells in windows:
        last = first + len(cells) - 1
        stream += [0x00, first // 256, first % 256, last // 256, last % 256, *cells]
    return stream + [POSTAMBLE]


def tidy(kind, s, out):
    """ "a tidier for accepted one-device streams in mode 1"; "Refusals: the lister's, then 15." Answers number, length and the output. """
    room = [0] * 255  # so that no table is too short
    number, windows, control, address, _, starts, ends, offsets = list_windows(kind, 1, s, room, room, room)
    if number != 0:
        return number, 0, out
    # "each cell with its last value": "overlaps follow stream order"
    values = [None] * SIZES[kind]
    for first, last, offset in list(zip(starts, ends, offsets))[:windows]:
        for i in range(first, last + 1):
            values[i] = s[offset + i - first]
    return put(out, tidied(control, address, values))


# ---- Salvage


def salvage(kind, s, out):
    """ "Refusals: 1 for the kind, 27 for fewer than six bytes, 5 for the preamble, then 15." Answers number, windows kept and announced, number of the
    stream's end, offset, length and the output. """

    def refused(number):
        return number, 0, 0, 0, 0, 0, out

    if kind not in SIZES:
        return refused(1)
    if len(s) < 6:
        return refused(27)
    if s[0] != PREAMBLE:
        return refused(5)
    # "the number of the stream's end: 0, its refusal or 16": the machine of one reset device is fed, byte by byte
    mem = bytearray(SIZES[kind])
    _, c = start(Chain(1, [kind] + [0] * 7), mem, 1, 0)
    # "offset of the byte after the last kept window (6 if none)"
    kept, window, offset, end = [], [], 6, GOES_ON
    for i, b in enumerate(s):
        awaited = c.place.awaited
        end = take(c, mem, b)
        if end != GOES_ON:
            break
        # a window is its bytes from the null byte on, and it is whole when the machine has had the last of them
        if awaited == NULL:
            window = []
        if awaited >= NULL:
            window.append(b)
        if awaited == DATA and c.place.awaited != DATA:
            kept.append(window)
            offset = i + 1
    # "Write a sound stream with the right count and 4D"; "null bytes zeroed"
    stream = [*s[:5], len(kept) ^ 0xFF]
    for window in kept:
        stream += [0x00, *window[1:]]
    number, length, out = put(out, stream + [POSTAMBLE])
    if number != 0:
        return refused(number)
    # "windows kept, windows announced"
    return 0, len(kept), s[5] ^ 0xFF, end, offset, length, out


# ---- EPROM boards

# "A fetcher's 17-bit counter"
LAST_COUNT = 0x1FFFF


@dataclass
class Fetcher:
    """ "Beside the saved place a stop keeps the counter, that device's control and address bytes (zero until taken) and whether its first null was
    taken": 0 is not yet, all else is taken. """

    counter: int = 0
    control: int = 0
    address: list = field(default_factory=lambda: [0, 0, 0])
    nulled: int = 0


def first_count(mode):
    """ "starts at 00000 (1FFFF in mode 2)" """
    return LAST_COUNT if mode == 2 else 0


def fetcher_new(mode):
    return Fetcher(first_count(mode))


def stepped(mode, counter):
    """ "steps up by one each byte (down in mode 2), wrapping past either end" """
    if mode == 2:
        return LAST_COUNT if counter == 0 else counter - 1
    return 0 if counter == LAST_COUNT else counter + 1


def take_fetched(c, mem, f, b):
    """One byte that the fetcher has fetched, fed to the open run: its number, as `take` has it, or 19."""
    p, mode = c.place, c.place.mode
    f.counter = stepped(mode, f.counter)
    jump = None
    if p.device == 0:
        # what is kept belongs to this run: "zero until taken"
        if p.awaited == PREAMBLE_1:
            f.control, f.address, f.nulled = 0, [0, 0, 0], 0
        elif p.awaited == CONTROL:
            f.control = b
        elif ADDRESS_1 <= p.awaited <= ADDRESS_3:
            f.address[p.awaited - ADDRESS_1] = b
        elif p.awaited == NULL and f.nulled == 0:
            f.nulled = 1
            # "If the first device's control byte sets B1, the counter takes the external address after that section's first null byte"
            if f.control & B1:
                jump = int.from_bytes(bytes(f.address), "little")
    if jump is not None and jump > LAST_COUNT:
        # "19 for a jump above 1FFFF, at the null byte, which counts as taken and closes the run"
        p.taken = (p.taken + 1) % COUNTERS
        number = 19
    else:
        number = take(c, mem, b)
        if jump is not None:
            f.counter = jump
    if number != GOES_ON:
        # "When a run ends, B0 of that control byte decides: clear resets the counter for that run's mode, set keeps its next value."
        if not f.control & B0:
            f.counter = first_count(mode)
        f.control, f.address, f.nulled = 0, [0, 0, 0], 0
    return number


def fetch(c, f, mem, eprom, n):
    """Fetches n bytes and feeds them, or as many as the run takes. Answers number, bytes taken, mismatches, state, memory and fetcher."""
    # "17 for a lent counter above 1FFFF", then 4
    number = state_number(c, mem)
    if number == 0 and f.counter > LAST_COUNT:
        number = 17
    if number == 0 and not c.place.running:
        number = 4
    if number != 0:
        return number, 0, 0, c, mem, f
    # "2, after 4, for any other mode"
    if c.place.mode not in (1, 2, 5):
        return 2, c.place.taken, c.place.mismatches, c, mem, f
    c, mem, f = deepcopy(c), bytearray(mem), deepcopy(f)
    number = GOES_ON
    while n > 0 and number == GOES_ON:
        # "18 when the counter is not below the EPROM's length: no byte is taken, the run stays open"
        if f.counter < len(eprom):
            number = take_fetched(c, mem, f, eprom[f.counter])
        else:
            number = 18
        n -= 1
    counts = c.place.taken, c.place.mismatches
    if number not in (GOES_ON, 18):
        c.place = Place()
    return number, *counts, c, bytes(mem), f


# ---- The load sheet

# "over 65,536 lengths", "over 67,108,864 bytes"
MOST_STREAMS, MOST_BYTES = 65536, 67108864

# "bytes taken, data bytes, distinct cells stored into, cells stored more than once, and bits of memory that differ before and after", "Also clock edges"
FIGURES = 6


def ones(b):
    return bin(b).count("1")


def sheet_row(c, mem, mode, s):
    """One stream into the device as it is. Answers its number, its figures, and the state and the memory that it leaves."""
    # "one per byte in parallel modes, eight per byte in serial ones with p added, then 3 or 24 edges to idle"
    each, p, idle = 1, 0, 3
    if mode in (3, 4):
        each, idle = 8, 24
        # "serial streams are hunted first"; "a failed hunt has 5, 24 edges and else zeros"
        number, p, _, length, hunted = hunt(s, bytes(len(s)))
        if number != 0:
            return 5, [0, 0, 0, 0, 0, 24], c, mem
        s = hunted[:length]
    _, c = start(c, mem, mode, 0)
    before, mem = mem, bytearray(mem)
    taken, data, stored, again, number = 0, 0, set(), set(), GOES_ON
    for b in s:
        awaited, cell = c.place.awaited, c.place.next
        number = take(c, mem, b)
        taken += 1
        if awaited == DATA:
            data += 1
            if cell in stored:
                again.add(cell)
            stored.add(cell)
        if number != GOES_ON:
            break
    # "counted as ones of the two bytes' exclusive or"
    bits = sum(ones(x ^ y) for x, y in zip(before, mem) if x != y)
    figures = [taken, data, len(stored), len(again), bits, each * taken + p + idle]
    # "A stream that runs out is listed with 16, then closed by uncounted closing bytes"
    if number == GOES_ON:
        ends = [take(c, mem, b) for b in closing_bytes(c, mem)]
        assert GOES_ON not in ends[-1:] and set(ends[:-1]) <= {GOES_ON}
    c.place = Place()
    return number, figures, c, bytes(mem)


def load_sheet(kind, mode, streams, lengths, numbers, figures):
    """ "Exact totals over streams loaded in order into one reset device. Per stream, and as sums of these". Answers number, sums and both tables. """
    # "Refusals: 23, first, when there are over 65,536 lengths, they do not sum to the slice, or it is over 67,108,864 bytes; then 1, 2, 15."
    if len(lengths) > MOST_STREAMS or sum(lengths) != len(streams) or len(streams) > MOST_BYTES:
        number = 23
    else:
        number = device_number(kind, mode)
    if number == 0 and (len(numbers) < len(lengths) or len(figures) < FIGURES * len(lengths)):
        number = 15
    if number != 0:
        return number, [0] * FIGURES, numbers, figures
    c, mem, at, given, rows = Chain(1, [kind] + [0] * 7), bytes(SIZES[kind]), 0, [], []
    for n in lengths:
        number, row, c, mem = sheet_row(c, mem, mode, streams[at : at + n])
        given.append(number)
        rows.append(row)
        at += n
    sums = [sum(column) for column in zip(*rows)] or [0] * FIGURES
    return 0, sums, put_table(numbers, given), put_table(figures, [n for row in rows for n in row])


# ---- The listing program

MOST_INPUT = 65536


def listing(data):
    """ "Standard input: mode byte, kind byte, stream." Answers the lines that it prints. """
    # "Fewer than two bytes: "A 1 0". Over 65,536 bytes in all: the one line "L"."
    if len(data) < 2:
        return ["A 1 0"]
    if len(data) > MOST_INPUT:
        return ["L"]
    mode, kind, s = data[0], data[1], data[2:]
    # "Otherwise kind and mode are tested, modes 3 and 4 hunt, and the lister follows."; "taken 0 where no byte reached the machine".
    # "In modes 3 and 4 the listing program's last line becomes "A number taken p left", 0 0 where the hunt was not reached."
    number = device_number(kind, mode)
    serial = mode in (3, 4)
    where = " 0 0" if serial else ""
    if number == 0 and serial:
        number, p, left, length, hunted = hunt(s, bytes(len(s)))
        s = hunted[:length]
        where = f" {p} {left}"
    if number != 0:
        return [f"A {number} 0{where}"]
    room = [0] * 255
    number, windows, _, _, taken, starts, ends, _ = list_windows(kind, mode, s, room, room, room)
    # "If accepted, it prints a line "W n start end" for each window from 1, decimal. The last line is "A number taken"": not accepted, 0 windows
    return [f"W {i + 1} {starts[i]} {ends[i]}" for i in range(windows)] + [f"A {number} {taken}{where}"]
