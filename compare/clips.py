#!/usr/bin/env python3
"""Compares every frame of clips with what vpxdec shows, sample for sample.

Run manually, not in the gate: clips.py [CLIPS] [SEED]. It needs the built program (see README.md), vpxenc and vpxdec
(Debian's vpx-tools) and ffmpeg. ffmpeg draws each clip, and vpxenc codes it with settings drawn at random.
"""

import collections
import pathlib
import random
import subprocess
import sys
import tempfile

import results
from library.clips import SIZES, SOURCES, drawn, kinds_of, settings
from library.frames import frames_of
from library.ivf import packets_of
from library.programs import VP8SERVE, run

FRAMES = 24


def compare(room, choose, told):
    width, height = choose.choice(SIZES)
    source, words = choose.choice(SOURCES), settings(choose)
    clip, coded = room / "clip.y4m", room / "coded.ivf"
    picture = drawn(source, max(width, 64), max(height, 64))
    shape = ["-vf", f"scale={width}:{height}", "-frames:v", str(FRAMES), "-pix_fmt", "yuv420p"]
    run(["ffmpeg", "-y", "-v", "error", "-f", "lavfi", "-i", picture, *shape, clip])
    try:
        run(["vpxenc", *words, "-o", coded, clip])
    except subprocess.CalledProcessError:
        return None
    packets = list(packets_of(coded.read_bytes()))
    for packet in packets:
        told.update(kinds_of(packet))
    count = sum(packet[0] >> 4 & 1 for packet in packets)
    order = list(range(count))
    choose.shuffle(order)
    (room / "requests").write_text("".join(f"frame {n}\n" for n in list(range(count)) + order[:4]))
    run([VP8SERVE, coded, room / "requests", room / "out.y4m"])
    run(["vpxdec", "--codec=vp8", "--i420", "-o", room / "vpxdec.yuv", coded])
    frame = width * height + 2 * ((width + 1) // 2) * ((height + 1) // 2)
    text = (room / "out.y4m").read_bytes()
    served = frames_of(text, frame) if text else b""
    wanted = (room / "vpxdec.yuv").read_bytes()
    wanted += b"".join(wanted[n * frame : (n + 1) * frame] for n in order[:4])
    fault = None if served == wanted else f"{source} {width}x{height} {' '.join(words)}: DIFFERS"
    return count, fault


def main():
    count = int(sys.argv[1]) if len(sys.argv) > 1 else 100
    choose = random.Random(int(sys.argv[2]) if len(sys.argv) > 2 else 1)
    told = collections.Counter()
    frames = differing = 0
    with tempfile.TemporaryDirectory() as name:
        compared = 0
        while compared < count:
            result = compare(pathlib.Path(name), choose, told)
            if result is None:  # vpxenc does not take these settings together at this size
                continue
            shown, fault = result
            compared += 1
            frames += shown
            if fault:
                differing += 1
                print(fault, flush=True)
    results.total(f"{frames} frames of {count} clips; {differing} clips differ", differing, told)
    print("packets: " + ", ".join(f"{kind} {number}" for kind, number in sorted(told.items())))
    return 1 if differing else 0


if __name__ == "__main__":
    sys.exit(main())
