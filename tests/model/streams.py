"""Streams put together by hand, byte for byte, for the cases of both programs."""

from at6000 import POSTAMBLE, PREAMBLE

A = bytes.fromhex("B2 00 00 00 00 FE 00 00 09 00 0B 11 22 33 4D")
EMPTY = bytes.fromhex("B2 00 00 00 00 FF 4D")


def bytes_of(s):
    """Bytes, or their hex digits."""
    return bytes.fromhex(s) if isinstance(s, str) else bytes(s)


def window(start, end, data, null=0x00):
    """A window with its data; one whose end is below its start has none."""
    data = bytes_of(data)
    assert len(data) == max(0, end - start + 1)
    return bytes([null, start // 256, start % 256, end // 256, end % 256]) + data


def section(windows, control=0x00, address="000000"):
    return bytes([control]) + bytes_of(address) + bytes([0xFF - len(windows)]) + b"".join(windows)


def stream(*sections, lead="B2", last=POSTAMBLE):
    """ "At 13: 4D accepts; B2 begins the next device at 2" """
    return bytes_of(lead) + bytes([PREAMBLE]).join(sections) + bytes([last])


def at_bit(p, s, before=0):
    """ "each byte least significant bit first": the bits of s behind p bits that are all `before`; zeros fill the last byte. """
    bits = int.from_bytes(s, "little") << p | ((1 << p) - 1 if before else 0)
    return bits.to_bytes(len(s) + (p + 7) // 8, "little")
