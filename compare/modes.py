#!/usr/bin/env python3
"""Compares key frames of random prediction modes with what vpxdec and ffmpeg show, sample for sample.

Run manually, not in the gate. It needs the built program (see README.md), vpxdec (Debian's vpx-tools) and
ffmpeg, and the long tables of RFC 6386 as a file of 3,012 bytes, with which the modes are written.
"""

import pathlib
import random
import sys
import tempfile

import results
from library.bits import B_PRED, key_packet, tables_of
from library.frames import frames_of
from library.ivf import ivf
from library.programs import VP8SERVE, run


def random_mode(source, share):
    """A macroblock of mode B with a probability of `share`, and of any whole-block mode else."""
    luma = B_PRED if source.random() < share else source.randrange(4)
    subs = [source.randrange(10) for _ in range(16)] if luma == B_PRED else [0] * 16
    return luma, subs, source.randrange(4)


def compare(room, tables, width, height, modes):
    size = width * height + 2 * ((width + 1) // 2) * ((height + 1) // 2)
    (room / "in.ivf").write_bytes(ivf(width, height, [key_packet(tables, width, height, modes)]))
    (room / "requests").write_text("frame 0\n")
    run([VP8SERVE, room / "in.ivf", room / "requests", room / "out.y4m"])
    run(["vpxdec", "--codec=vp8", "--i420", "-o", room / "vpxdec.yuv", room / "in.ivf"])
    run(
        [
            "ffmpeg",
            "-y",
            "-v",
            "error",
            "-i",
            room / "in.ivf",
            "-pix_fmt",
            "yuv420p",
            "-f",
            "rawvideo",
            room / "ffmpeg.yuv",
        ]
    )
    served = frames_of((room / "out.y4m").read_bytes(), size)
    return len(served) == size, [served == (room / f"{name}.yuv").read_bytes() for name in ("vpxdec", "ffmpeg")]


def main():
    if len(sys.argv) < 2:
        sys.exit("modes.py TABLES [FRAMES]")
    tables = tables_of(pathlib.Path(sys.argv[1]).read_bytes())
    frames = int(sys.argv[2]) if len(sys.argv) > 2 else 100
    source, differing = random.Random(6386), 0
    with tempfile.TemporaryDirectory() as name:
        for frame in range(frames):
            width, height = source.randrange(1, 100), source.randrange(1, 100)
            count = (width + 15) // 16 * ((height + 15) // 16)
            share = source.choice([0, 0.5, 1])
            modes = [random_mode(source, share) for _ in range(count)]
            whole, same = compare(pathlib.Path(name), tables, width, height, modes)
            if not whole or not all(same):
                differing += 1
                print(f"frame {frame}, {width}x{height}: served {whole}, vpxdec same {same[0]}, ffmpeg same {same[1]}")
    results.total(f"{frames} frames, {differing} differ", differing)
    return 1 if differing else 0


if __name__ == "__main__":
    sys.exit(main())
