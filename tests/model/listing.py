"""The inputs that the listing program is tried on, and what it must write for them.

    python3 tests/model/listing.py               writes tests/listing/cases.txt
    python3 tests/model/listing.py --check       works it out again and compares it with the file
    python3 tests/model/listing.py --random N    prints N random cases, as cases.txt has them: for tests/listing/run.sh PROGRAM CASES
    python3 tests/model/listing.py FILE          prints what the program is to write for the input in FILE

What it must write is the model's word (at6000.py), as it is for the program `cases`.
"""

import random
import sys
from pathlib import Path

sys.dont_write_bytecode = True
import streams
from at6000 import POSTAMBLE, PREAMBLE, SIZES, listing
from streams import A, at_bit


def window(start, end, fill=0x5A):
    return streams.window(start, end, [fill] * (end - start + 1))


def stream(*windows, control=0, last=POSTAMBLE, lead="B2"):
    """A stream for one device, at the external address 01 02 03."""
    return streams.stream(streams.section(windows, control, "010203"), lead=lead, last=last)


def cases():
    def case(name, mode, kind, data):
        yield name, bytes([mode, kind]) + data

    yield "empty", b""
    yield "one-byte", b"\1"
    yield "one-byte-mode-3", b"\3"
    yield from case("stream-a", 1, 0, A)
    # every mode, and the lead-in of each
    for mode in (2, 5):
        yield from case(f"mode-{mode}", mode, 0, A)
    yield from case("mode-6", 6, 0, b"\xB2" + A)
    yield from case("mode-6-one-preamble", 6, 0, A)
    yield from case("mode-6-one-byte", 6, 0, b"\xB2")
    yield from case("mode-1-two-preambles", 1, 0, b"\xB2" + A)
    for mode in (3, 4):
        yield from case(f"mode-{mode}", mode, 0, b"\0" + A)
    for mode in (0, 7, 255):
        yield from case(f"mode-{mode}", mode, 0, A)
    for mode in range(8):
        yield from case(f"mode-{mode}-nothing", mode, 0, b"")
    # kinds: each by one window over the whole device; kind before mode, and before the hunt
    for kind, size in SIZES.items():
        yield from case(f"kind-{kind}", 1, kind, stream(window(0, size - 1)))
        yield from case(f"kind-{kind}-start-past", 1, kind, stream(window(size, size)))
        yield from case(f"kind-{kind}-end-past", 1, kind, stream(window(size - 1, size)))
        yield from case(f"kind-{kind}-last-cell", 1, kind, stream(window(size - 1, size - 1)))
    for kind in (1, 4, 6, 9, 11, 255):
        yield from case(f"kind-{kind}", 1, kind, A)
    yield from case("kind-1-nothing", 1, 1, b"")
    yield from case("kind-1-mode-7", 7, 1, A)
    yield from case("kind-1-mode-3", 3, 1, A)
    yield from case("kind-255-mode-4", 4, 255, at_bit(63, A))
    yield from case("kind-1-mode-3-no-preamble", 3, 1, b"\0\0\0")
    yield from case("kind-1-mode-3-nothing", 3, 1, b"")
    # number 5
    for mode in (1, 2, 5, 6):
        yield from case(f"mode-{mode}-no-preamble", mode, 0, b"\x4D" + A)
    yield from case("mode-6-no-second", 6, 0, b"\xB2\x4D" + A)
    # number 16: stream A stopped after each of its bytes
    for k in range(1, len(A)):
        yield from case(f"stopped-{k}", 1, 0, A[:k])
    # check bytes: 8, 9, 10
    yield from case("no-windows", 1, 0, stream())
    for last in (0x00, 0x4C, 0xB3, 0xFF):
        yield from case(f"check-byte-{last:02x}", 1, 0, stream(window(9, 11), last=last))
    yield from case("next-device", 1, 0, stream(window(9, 11), last=PREAMBLE))
    yield from case("next-device-bit-2", 1, 0, stream(window(9, 11), last=PREAMBLE, control=4))
    yield from case("next-device-other-bits", 1, 0, stream(last=PREAMBLE, control=0xFB))
    yield from case("next-device-all-bits", 1, 0, stream(last=PREAMBLE, control=0xFF))
    yield from case("control-bits-3-and-4", 1, 0, stream(window(9, 11), control=0x18))
    # windows: 11 and 12, in order, and the first that is not whole
    yield from case("end-51", 1, 0, stream(window(51, 51)))
    yield from case("end-52", 1, 0, stream(window(51, 52)))
    yield from case("start-52", 1, 0, stream(window(52, 52)))
    yield from case("start-11-end-9", 1, 0, stream(bytes([0, 0, 11, 0, 9])))
    yield from case("start-256", 1, 0, stream(bytes([0, 1, 0, 1, 0])))
    yield from case("end-256", 1, 0, stream(bytes([0, 0, 0, 1, 0])))
    yield from case("two-windows", 1, 0, stream(window(9, 11), window(10, 10, 0x44)))
    yield from case("four-windows", 1, 0, stream(window(9, 11), window(15, 17), window(21, 23), window(45, 47)))
    yield from case("second-start-bad", 1, 0, stream(window(9, 11), window(52, 52)))
    yield from case("second-end-bad", 1, 0, stream(window(9, 11), window(12, 52)))
    yield from case("null-any", 1, 0, stream(b"\xB2" + window(9, 11)[1:]))
    yield from case("data-as-framing", 1, 0, stream(window(9, 11, PREAMBLE), window(0, 4, POSTAMBLE)))
    yield from case("windows-254", 1, 0, stream(*[window(i % 52, i % 52, i) for i in range(254)]))
    yield from case("windows-255", 1, 0, stream(*[window(i % 52, 51, i) for i in range(255)]))
    yield from case("windows-255-wide", 1, 10, stream(*[window(16380 - i, 16380 - i // 2) for i in range(255)]))
    yield from case("windows-255-one-short", 1, 0, stream(*[window(i % 52, i % 52) for i in range(255)])[:-2])
    yield from case("later-bytes", 1, 0, A + A + b"\0\xFF")
    # the hunt: positions, and what stands before the preamble
    for p in [*range(1, 8), 9, 15, 16, 31, 63, 64]:
        yield from case(f"hunt-{p}", 3 + p % 2, 0, at_bit(p, A))
        yield from case(f"hunt-{p}-ones", 4 - p % 2, 0, at_bit(p, A, 1))
    for p in (65, 66, 72):
        yield from case(f"hunt-{p}", 3, 0, at_bit(p, A))
    yield from case("hunt-0", 4, 0, A)
    yield from case("hunt-64-01", 3, 0, bytes.fromhex("64 01"))
    yield from case("hunt-part-byte", 3, 0, at_bit(3, A)[:-1])
    yield from case("hunt-part-preamble", 3, 0, b"\0\x64")
    yield from case("hunt-later-bytes", 3, 0, at_bit(3, A + A))
    yield from case("hunt-zeros", 4, 0, bytes(200))
    yield from case("hunt-refused", 3, 0, at_bit(5, stream(window(9, 11), last=PREAMBLE)))
    yield from case("hunt-stopped", 4, 10, at_bit(2, stream(window(0, 16380))[:-4000]))
    yield from case("hunt-63-windows-255", 4, 10, at_bit(63, stream(*[window(16380 - i, 16380 - i // 2) for i in range(255)])))
    # lengths
    three = [window(0, 16380)] * 3
    rest = 65534 - 7 - 3 * 16386 - 5
    longest = stream(*three, window(0, rest - 1))
    yield from case("bytes-65536", 1, 10, longest)
    yield from case("bytes-65535", 1, 10, longest[:-1])
    yield from case("bytes-65537", 1, 10, longest + b"\0")
    yield from case("bytes-65536-later-bytes", 1, 0, A + bytes(65519))
    yield from case("bytes-65536-serial", 3, 10, at_bit(1, longest[:-1]))
    yield from case("bytes-65536-serial-zeros", 3, 0, bytes(65534))
    yield from case("bytes-65537-zeros", 1, 0, bytes(65535))
    yield from case("bytes-65537-serial", 3, 10, at_bit(1, longest))
    yield from case("bytes-65537-bad-kind", 1, 1, bytes(65535))
    yield from case("bytes-200000", 1, 0, A + bytes(200000))


def random_cases(count):
    some = random.Random(count)
    for i in range(count):
        kind = some.choice([0, 0, 0, 2, 3, 5, 10, some.randrange(256)])
        mode = some.choice([1, 2, 3, 4, 5, 6, some.randrange(256)])
        size = SIZES.get(kind, 52)
        windows = []
        for _ in range(some.choice([0, 1, 1, 2, 3, some.randrange(40)])):
            a, b = some.randrange(size), some.randrange(size)
            if some.random() < 0.95:
                a, b = min(a, b), min(max(a, b), min(a, b) + 40)
            windows.append(window(a, b, some.randrange(256)))
        data = bytearray(stream(*windows, control=some.randrange(256), last=some.choice([0x4D, 0x4D, 0x4D, 0xB2, some.randrange(256)]),
                                lead="B2B2" if mode == 6 else "B2"))
        if some.random() < 0.3:
            data[some.randrange(len(data))] = some.randrange(256)
        if some.random() < 0.3:
            del data[some.randrange(len(data)):]
        data += bytes(some.randrange(256) for _ in range(some.choice([0, 0, 5])))
        data = bytes(data)
        if mode in (3, 4):
            data = at_bit(some.randrange(70), data, some.randrange(2))
        yield f"random-{i}", bytes([mode, kind]) + data


# ---- cases.txt


def in_hex(data):
    """Two digits for each byte; N*XX for N times XX, from nine on."""
    words, i = [], 0
    while i < len(data):
        j = i
        while j < len(data) and data[j] == data[i]:
            j += 1
        words += [f"{j - i}*{data[i]:02X}"] if j - i > 8 else [f"{data[i]:02X}"] * (j - i)
        i = j
    return " ".join(words)


def case_text(name, data):
    lines = [f"< {name} {in_hex(data)}".rstrip(), *(f"> {line}" for line in listing(data))]
    return "".join(line + "\n" for line in lines)


HEAD = """\
# Inputs of the listing program and what it writes for them, written by tests/model/listing.py. After '<' stand a name and the input, two
# hexadecimal digits to a byte, N*XX for N times XX: mode byte, kind byte, stream. Each line after '>' is a line of the output.
"""


def main():
    words = sys.argv[1:]
    if words[:1] == ["--random"]:
        for name, data in random_cases(int(words[1])):
            print(case_text(name, data), end="")
        return
    if words and words != ["--check"]:
        print("".join(line + "\n" for line in listing(Path(words[0]).read_bytes())), end="")
        return
    path = Path(__file__).resolve().parents[1] / "listing" / "cases.txt"
    text = HEAD + "".join(case_text(name, data) for name, data in cases())
    if not words:
        path.write_text(text)
    elif path.read_text() != text:
        raise SystemExit(f"{path.name} differs from what the model works out")
    print(f"{sum(line[0] == '<' for line in text.splitlines())} inputs")


main()
