"""Frames that are cut off: zeros for the token partitions that are missing, so that a decoder reads what came (RFC
6386, section 9.5).
"""

from __future__ import annotations

HEAD, KEY_HEAD = 3, 10


class Bits:
    """The Boolean decoder of section 7, with zeros after the end, for flags and numbers of a header."""

    def __init__(self, data: bytes) -> None:
        self.data, self.place = data, 2
        self.value = int.from_bytes((data[:2] + b"\0\0")[:2], "big")
        self.range, self.shifted = 255, 0

    def flag(self) -> bool:
        split = 1 + ((self.range - 1) * 128 >> 8)
        big = split << 8
        bit = self.value >= big
        if bit:
            self.range -= split
            self.value -= big
        else:
            self.range = split
        while self.range < 128:
            self.value, self.range, self.shifted = self.value << 1, self.range << 1, self.shifted + 1
            if self.shifted == 8:
                self.shifted = 0
                self.value |= self.data[self.place] if self.place < len(self.data) else 0
                self.place += 1
        return bit

    def number(self, count: int) -> int:
        value = 0
        for _ in range(count):
            value = 2 * value + self.flag()
        return value

    def optional(self, count: int) -> None:
        if self.flag():
            self.number(count)


def count_of(data: bytes) -> int:
    """The number of token partitions of a packet whose first partition is whole (sections 9.2 to 9.5)."""
    is_key = not data[0] & 1
    bits = Bits(data[KEY_HEAD if is_key else HEAD :])
    if is_key:
        bits.number(2)
    if bits.flag():
        renews_map = bits.flag()
        if bits.flag():
            bits.flag()
            for count in [8] * 4 + [7] * 4:
                # A value and its sign.
                bits.optional(count)
        if renews_map:
            for _ in range(3):
                bits.optional(8)
    bits.number(1 + 6 + 3)
    if bits.flag() and bits.flag():
        for _ in range(8):
            bits.optional(7)
    return 1 << bits.number(2)


def completed(data: bytes) -> bytes:
    """The bytes of a frame that was cut after its first partition, with zeros up to where its last token partition
    begins: a decoder reads zeros after the end of each partition anyway."""
    first = (data[0] | data[1] << 8 | data[2] << 16) >> 5
    table = (HEAD if data[0] & 1 else KEY_HEAD) + first
    count = count_of(data)
    sizes = data[table : table + 3 * (count - 1)].ljust(3 * (count - 1), b"\0")
    total = sum(int.from_bytes(sizes[at : at + 3], "little") for at in range(0, len(sizes), 3))
    return data.ljust(table + len(sizes) + total, b"\0")
