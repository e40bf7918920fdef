#!/usr/bin/env python3
"""Prints the samples that vpxdec shows for the frames of modes that the tests compare with, row by row, and how often
each row stands. A digit stands for 120 more.

Run manually: rows.py TABLES NAME, where NAME is sub_modes or whole_modes and TABLES the long tables of
RFC 6386 as a file of 3,012 bytes.
"""

import itertools
import pathlib
import sys
import tempfile

sys.path.insert(0, str(pathlib.Path(__file__).resolve().parent.parent))

from library.bits import B_PRED, key_packet, tables_of  # noqa: E402
from library.ivf import ivf  # noqa: E402
from library.programs import run  # noqa: E402

FRAMES = {
    "sub_modes": (32, 32, [(B_PRED, [(48 * m + 3 * b) % 10 for b in range(16)], m) for m in range(4)]),
    "whole_modes": (64, 64, [((m % 4 + m // 4 + 2) % 4, [0] * 16, m % 4) for m in range(16)]),
}


def main():
    tables = tables_of(pathlib.Path(sys.argv[1]).read_bytes())
    width, height, modes = FRAMES[sys.argv[2]]
    with tempfile.TemporaryDirectory() as name:
        stream, shown = pathlib.Path(name) / "in.ivf", pathlib.Path(name) / "out.yuv"
        stream.write_bytes(ivf(width, height, [key_packet(tables, width, height, modes)]))
        run(["vpxdec", "--codec=vp8", "--i420", "-o", shown, stream])
        samples = shown.read_bytes()
    for side, start in ((width, 0), (width // 2, width * height), (width // 2, width * height * 5 // 4)):
        rows = [samples[start + side * y : start + side * (y + 1)] for y in range(height * side // width)]
        for row, times in itertools.groupby(rows):
            print(len(list(times)), "".join(chr(ord("0") + sample - 120) for sample in row))


if __name__ == "__main__":
    main()
