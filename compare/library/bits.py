"""Key packets that are written from lists of modes."""

import struct

from .conformance import bits, parser, tables as rfc

B_PRED = parser.B


def tables_of(text):
    return [text[:1056], text[1056:2112], text[2112:]]


def write_modes(encoder, tables, columns, modes):
    """Modes are a list of (y mode, sixteen sub modes, chroma mode) in raster order."""
    outside = [0] * 16
    for place, (luma, subs, chroma) in enumerate(modes):
        above = contexts(modes[place - columns]) if place >= columns else outside
        left = contexts(modes[place - 1]) if place % columns else outside
        encoder.bit(1, 1)
        encoder.tree(rfc.KEY_Y_TREE, rfc.KEY_Y_PROBABILITIES, luma)
        if luma == B_PRED:
            for block, sub in enumerate(subs):
                up = subs[block - 4] if block >= 4 else above[block + 12]
                before = subs[block - 1] if block % 4 else left[block + 3]
                at = (up * 10 + before) * 9
                encoder.tree(rfc.SUB_TREE, tables[2][at : at + 9], sub)
        encoder.tree(rfc.UV_TREE, rfc.KEY_UV_PROBABILITIES, chroma)


def contexts(mode):
    luma, subs, _ = mode
    return subs if luma == B_PRED else [parser.COUNTERPARTS[luma]] * 16


def key_packet(tables, width, height, modes, tokens=b"\0"):
    """A key packet of these modes whose macroblocks are all skipped, with one token partition."""
    encoder = bits.Writer()
    encoder.literal(0, 29)
    for prob in tables[1]:
        encoder.bit(0, prob)
    encoder.literal(1, 1)
    encoder.literal(1, 8)
    write_modes(encoder, tables, (width + 15) // 16, modes)
    first = encoder.text()
    tag = struct.pack("<I", 1 << 4 | len(first) << 5)[:3]
    return tag + b"\x9d\x01\x2a" + struct.pack("<HH", width, height) + first + tokens
