#!/usr/bin/env python3
"""Hides and shows packets of real streams at random, and compares the frames: hidden.py [ROUNDS [SEED]]

Each shown packet must have the frame that it had before, and vpxdec must show the same frames of what is saved. The
example and the clips of gate_clips are taken, each ROUNDS times (default 3). It needs the built program (see README.md)
and vpxdec (Debian's vpx-tools).
"""

import pathlib
import random
import sys
import tempfile

import results
from library.frames import frames_of
from library.ivf import has_key_tag, is_shown, packets_of, size_of
from library.programs import VP8SERVE, real_streams, run


def served(room, stream, edits, count, frame):
    """The frames after some edits, the packets that the program tells then, and the saved file."""
    lines = [*edits, *(f"frame {n}" for n in range(count)), "stats"]
    (room / "requests").write_text("".join(f"{line}\n" for line in lines))
    replies = (
        run([VP8SERVE, stream, room / "requests", room / "out.y4m", "--save", room / "saved.ivf", "--cache", "4096"])
        .decode()
        .splitlines()
    )
    refused = [reply for reply in replies if reply.startswith("refused ")]
    text = (room / "out.y4m").read_bytes()
    return refused, frames_of(text, frame) if text else b"", list(packets_of((room / "saved.ivf").read_bytes()))


def compare(room, stream, choose):
    """The number of packets that were changed, and what is wrong."""
    packets = list(packets_of(stream.read_bytes()))
    sizes = {tuple(size_of(packet)) for packet in packets if has_key_tag(packet)}
    if len(sizes) != 1 or any(len(packet) < 3 for packet in packets):
        return 0, None
    ((width, height),) = sizes
    frame = width * height + 2 * ((width + 1) // 2) * ((height + 1) // 2)
    every = [f"show {place}" for place in range(len(packets))]
    refused, before, _ = served(room, stream, every, len(packets), frame)
    if refused:
        return 0, f"{stream.name}: {refused[0]}"
    chosen = [choose.random() < 0.5 for _ in packets]
    edits = [f"{'show' if shown else 'hide'} {place}" for place, shown in enumerate(chosen)]
    choose.shuffle(edits)
    refused, after, saved = served(room, stream, edits, sum(chosen), frame)
    wanted = b"".join(before[place * frame : (place + 1) * frame] for place, shown in enumerate(chosen) if shown)
    bits = [bytes([packet[0] & 0xEF | 16 * shown]) + packet[1:] for packet, shown in zip(packets, chosen)]
    if refused or after != wanted or saved != bits:
        return 0, f"{stream.name}: other frames or packets after {edits}"
    if not sum(chosen):
        return len(chosen), None
    run(["vpxdec", "--codec=vp8", "--i420", "-o", room / "vpxdec.yuv", room / "saved.ivf"])
    shown = (room / "vpxdec.yuv").read_bytes()
    changed = sum(is_shown(packet) != bit for packet, bit in zip(packets, chosen))
    return changed, None if shown == wanted else f"{stream.name}: vpxdec shows other frames after {edits}"


def main():
    rounds = int(sys.argv[1]) if len(sys.argv) > 1 else 3
    choose = random.Random(int(sys.argv[2]) if len(sys.argv) > 2 else 1)
    changes = compared = wrong = 0
    with tempfile.TemporaryDirectory() as name:
        for stream in real_streams() * rounds:
            changed, fault = compare(pathlib.Path(name), stream, choose)
            changes += changed
            compared += changed > 0
            if fault:
                wrong += 1
                print(fault, flush=True)
    results.total(f"{changes} packets of {compared} streams hidden or shown; {wrong} streams differ", wrong)
    return 1 if wrong else 0


if __name__ == "__main__":
    sys.exit(main())
