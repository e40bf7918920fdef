"""Writes the input of modes.sh and the checksum of the modes that the parser of the conformance streams finds in it."""
import pathlib
import random
import struct
import sys

sys.path.insert(0, str(pathlib.Path(__file__).resolve().parent.parent / "conformance"))

from vp8 import bits, parser, tables  # noqa: E402

COLUMNS, ROWS = 120, 68
SKIP = 200


class Reader(bits.Reader):
    """A reader that keeps the probabilities with which it reads."""

    def __init__(self, text):
        super().__init__(text)
        self.probabilities = []

    def next(self, probability):
        self.probabilities.append(probability)
        return super().next(probability)


def header(updates):
    """The fields of a key frame, all of them 0, without updates."""
    writer = bits.Writer()
    writer.literal(0, 2 + 1 + 1 + 6 + 3 + 1 + 2 + 7 + 5 + 1)
    for probability in updates:
        writer.bit(0, probability)
    writer.flag(1)
    writer.literal(SKIP, 8)
    return writer.text()


def values_of(macroblocks):
    """The numbers of the checksum: sub block modes are 0 in a macroblock without them."""
    for found in macroblocks:
        yield from (found.skip, found.y_mode, *(found.subs if found.y_mode == parser.B else [0] * 16), found.uv_mode)


def main(path, out):
    text = pathlib.Path(path).read_bytes() if path else bytes([128] * 3012)
    tables.UPDATES, tables.KEY_SUBS = text[1056:2112], text[2112:]
    first = header(tables.UPDATES) + random.Random(1).randbytes(60000)
    packet = (
        (len(first) << 5 | 0x10).to_bytes(3, "little")
        + bytes.fromhex("9d012a")
        + struct.pack("<HH", 1920, 1080)
        + first
    )
    fields, start = parser.start_of(packet, False)
    reader, context = Reader(packet[start:]), parser.default_context()
    parser.read_first_fields(reader, fields, context)
    parser.read_last_fields(reader, fields, context)
    reader.probabilities = []
    macroblocks = parser.Modes(reader, fields, context, COLUMNS, ROWS, [0] * (COLUMNS * ROWS)).read()
    checksum = 0
    for value in values_of(macroblocks):
        checksum = (checksum * 31 + value) % 2**32
    pathlib.Path(out).write_bytes(struct.pack("<I", len(packet)) + text + packet + bytes(reader.probabilities))
    print(checksum)


main(sys.argv[1] if len(sys.argv) > 2 else "", sys.argv[-1])
