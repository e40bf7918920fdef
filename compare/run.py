#!/usr/bin/env python3
"""Compares served frames with what two other decoders show, sample for sample.

Run manually, not in the gate. It needs the built program (see README.md), vpxdec (Debian's vpx-tools)
and ffmpeg. Each stream has two key packets whose partitions hold zero bytes only, enough of them that
no decoder finds a partition cut.
"""

import pathlib
import struct
import sys
import tempfile

import results
from library.frames import frames_of
from library.ivf import ivf
from library.programs import VP8SERVE, run

SIZES = [(1, 1), (2, 3), (16, 16), (17, 33), (64, 48), (175, 143), (176, 144), (1920, 1080)]


def key_packet(width, height, version):
    macroblocks = ((width + 15) // 16) * ((height + 15) // 16)
    first, tokens = 1000 + 20 * macroblocks, 1000 + 60 * macroblocks
    tag = version << 1 | 1 << 4 | first << 5
    start = struct.pack("<I", tag)[:3] + b"\x9d\x01\x2a" + struct.pack("<HH", width, height)
    return start + bytes(first + tokens)


def compare(room, width, height, version):
    stream, requests = room / "in.ivf", room / "requests"
    stream.write_bytes(ivf(width, height, [key_packet(width, height, version)] * 2))
    requests.write_text("frame 0\nframe 1\n")
    run([VP8SERVE, stream, requests, room / "out.y4m"])
    run(["vpxdec", "--codec=vp8", "--i420", "-o", room / "vpxdec.yuv", stream])
    run(["ffmpeg", "-y", "-v", "error", "-i", stream, "-pix_fmt", "yuv420p", "-f", "rawvideo", room / "ffmpeg.yuv"])
    size = width * height + 2 * ((width + 1) // 2) * ((height + 1) // 2)
    served = frames_of((room / "out.y4m").read_bytes(), size)
    others = {name: (room / f"{name}.yuv").read_bytes() for name in ("vpxdec", "ffmpeg")}
    return len(served) == 2 * size, {name: served == shown for name, shown in others.items()}


def main():
    all_same = True
    with tempfile.TemporaryDirectory() as name:
        for width, height in SIZES:
            for version in range(4):
                whole, same = compare(pathlib.Path(name), width, height, version)
                all_same = all_same and whole and all(same.values())
                told = ", ".join(f"{other} {'same' if yes else 'DIFFERS'}" for other, yes in same.items())
                print(f"{width}x{height} version {version}: {told}")
    results.total(f"{8 * len(SIZES)} frames: {'all the same' if all_same else 'some DIFFER'}", not all_same)
    return 0 if all_same else 1


if __name__ == "__main__":
    sys.exit(main())
