#!/usr/bin/env python3
"""Cuts each packet of three small clips at each length, and compares the replies with the rules and the frames with
vpxdec's.

    [VPXDEC=PATH] compare/prefixes.py

README.md says more.
"""

import collections
import pathlib
import struct
import subprocess
import sys
import tempfile

from damaged import decoded
import results
from library.damage import padded, partition_count
from library.ivf import has_key_tag, ivf, packets_of
from library.programs import CLIPS, VP8SERVE

NAMES = ["small.ivf", "still.ivf", "two-partitions.ivf"]


def cause_of(packet, place):
    """Why a prefix of a sound packet is refused; None if it is not."""
    if not packet:
        return None if place else "NoKeyFrame"
    start = 10 if has_key_tag(packet) else 3
    if len(packet) < start:
        return "ShortPacket"
    end = start + (struct.unpack("<I", packet[:3] + b"\0")[0] >> 5)
    if end > len(packet):
        return "FirstPartition"
    count = partition_count(packet[start:end], has_key_tag(packet))
    at = end + 3 * (count - 1)
    if at > len(packet):
        return "TokenSizes"
    for number in range(count - 1):
        at += struct.unpack("<I", packet[end + 3 * number : end + 3 * number + 3] + b"\0")[0]
        if at > len(packet):
            return f"TokenPartition {number}"
    return None


def answers(room, stream, lines):
    """The replies to these lines, and the frames that were served, in their order."""
    (room / "in.ivf").write_bytes(stream)
    (room / "requests").write_text("".join(f"{line}\n" for line in lines))
    words = [VP8SERVE, room / "in.ivf", room / "requests", room / "out.y4m"]
    replies = (
        subprocess.run([str(word) for word in words], check=True, stdout=subprocess.PIPE).stdout.decode().splitlines()
    )
    text = (room / "out.y4m").read_bytes()
    start, served = text.index(b"\n") + 1, sum(reply.startswith("served") for reply in replies)
    size = (len(text) - start) // served
    return replies, [text[start + n * size + 6 : start + (n + 1) * size] for n in range(served)]


def compare(room, name, told):
    """Compares each prefix of each packet of a clip, and returns the number of differences."""
    stream = (CLIPS / name).read_bytes()
    width, height = struct.unpack("<HH", stream[12:16])
    packets = list(packets_of(stream))
    cut = [(place, packet[:length]) for place, packet in enumerate(packets) for length in range(len(packet))]
    lines = [f"frame {place}" for place in range(len(packets))]
    for place, prefix in cut:
        lines += [f"replace {place} {prefix.hex() or '-'}", f"frame {place}", f"replace {place} {packets[place].hex()}"]
    replies, frames = answers(room, ivf(width, height, packets), lines)
    whole, frames = frames[: len(packets)], iter(frames[len(packets) :])
    faults = 0
    for (place, prefix), reply in zip(cut, replies[len(packets) + 1 :: 3], strict=True):
        told["prefixes"] += 1
        cause = cause_of(prefix, place)
        wanted = f"served {place}" if cause is None else f"refused packet {place} {cause}"
        if reply != wanted:
            faults += 1
            print(f"{name}: {len(prefix)} bytes of packet {place}: {reply}, not {wanted}")
        if not reply.startswith("served"):
            told[f"refused by {reply.split()[3]}"] += 1
            continue
        shown = next(frames)
        if not prefix:
            told["empty packets, which repeat the frame before"] += 1
            theirs = whole[place - 1]
        else:
            found = decoded(room, packets[:place] + [padded(prefix)], "vpxdec")
            if len(found) != place + 1:
                told["not shown by vpxdec"] += 1
                continue
            theirs = found[-1]
            if shown != theirs:
                # libvpx's inverse DCT wraps in SIMD, and its C does not.
                theirs = decoded(room, packets[:place] + [padded(prefix)], "ffmpeg without SIMD")[-1]
                told["frames that are not vpxdec's, compared with ffmpeg without SIMD"] += 1
            else:
                told["frames as vpxdec's"] += 1
        if shown != theirs:
            faults += 1
            print(f"{name}: {len(prefix)} bytes of packet {place}: another frame")
    return faults


def main():
    told, faults = collections.Counter(), 0
    with tempfile.TemporaryDirectory() as name:
        for clip in NAMES:
            faults += compare(pathlib.Path(name), clip, told)
    for kind, number in sorted(told.items()):
        print(f"{number:7} {kind}")
    results.total(f"{faults} differences", faults, told)
    return 1 if faults else 0


if __name__ == "__main__":
    sys.exit(main())
