#!/usr/bin/env python3
"""Writes expected/: what each packet of each stream decodes to, and who confirms it: expect.py [NAME ..]

The plain decoder of vp8/ decodes each stream. Each run of packets that decode, from a key packet on, then goes to
vpxdec as a stream of its own, and each frame that it shows must be the same. (vpxdec ends at a packet of no bytes, so
these are left out there; the frame is the one before.) Streams in beyond/, in which libvpx leaves RFC 6386, have the
plain decoder's word alone, and that of vp8list.

A line of expected/NAME.txt is a packet: `shown` and the MD5 of its samples as I420, `hidden`, `refused` and the cause,
or `lost`.
"""

import concurrent.futures
import hashlib
import pathlib
import subprocess
import sys
import tempfile

from vp8 import ivf
from vp8.decoder import Decoder, Refused

HERE = pathlib.Path(__file__).resolve().parent
STREAMS, EXPECTED = HERE / "streams", HERE / "expected"


def is_shown(packet):
    return len(packet) < 3 or bool(packet[0] & 16)


def decoded(packets):
    """A line for each packet, and for each run of sound packets its packets, its size and the pictures that are
    shown.
    """
    decoder, lines, runs = Decoder(), [], []
    for packet in packets:
        was_broken = decoder.broken
        is_key = len(packet) >= 3 and not packet[0] & 1
        try:
            picture = decoder.decode(packet)
        except Refused as refused:
            lines.append("lost" if was_broken and not is_key else f"refused {refused}")
            continue
        if is_key:
            runs.append(([], decoder.size, []))
        lines.append("hidden")
        if packet:
            runs[-1][0].append(packet)
        if is_shown(packet):
            samples = picture.shown()
            lines[-1] = "shown " + hashlib.md5(samples).hexdigest()
            if packet:
                runs[-1][2].append(samples)
    return lines, runs


def shown_by_vpxdec(packets, size):
    """The frames that vpxdec shows of these packets."""
    with tempfile.TemporaryDirectory() as room:
        path, out = pathlib.Path(room, "run.ivf"), pathlib.Path(room, "run.yuv")
        ivf.write(path, size, packets)
        subprocess.run(["vpxdec", "--codec=vp8", "--i420", "-o", out, path], check=False, capture_output=True)
        text = out.read_bytes() if out.is_file() else b""
    length = size[0] * size[1] + 2 * ((size[0] + 1) // 2) * ((size[1] + 1) // 2)
    return [text[at : at + length] for at in range(0, len(text), length)]


def expect(path):
    """Writes the lines of a stream; how many frames vpxdec confirms, and those that it shows otherwise."""
    lines, runs = decoded(list(ivf.read(path)))
    target = EXPECTED / path.relative_to(STREAMS).with_suffix(".txt")
    target.parent.mkdir(parents=True, exist_ok=True)
    target.write_text("".join(f"{line}\n" for line in lines))
    same, other = 0, []
    for number, (packets, size, wanted) in enumerate(runs):
        theirs = shown_by_vpxdec(packets, size)
        if len(theirs) != len(wanted):
            other.append(f"run {number}: vpxdec shows {len(theirs)} of {len(wanted)} frames")
        for place, (ours, shown) in enumerate(zip(wanted, theirs)):
            if ours == shown:
                same += 1
            else:
                other.append(f"run {number}: frame {place}")
    return path, len(lines), same, other


def main():
    paths = [path for path in sorted(STREAMS.rglob("*.ivf")) if not sys.argv[1:] or path.stem in sys.argv[1:]]
    wrong = frames = 0
    with concurrent.futures.ProcessPoolExecutor() as pool:
        for path, packets, same, other in pool.map(expect, paths):
            frames += same
            if other:
                is_beyond = path.parent.name == "beyond"
                wrong += not is_beyond
                print(
                    (
                        f"{path.stem}: {packets} packets, {same} frames as vpxdec, others:"
                        f" {'; '.join(other[:4])}{' (beyond)' if is_beyond else ''}"
                    ),
                    flush=True,
                )
    print(f"{len(paths)} streams, {frames} frames are vpxdec's; {wrong} streams differ that should not")
    return 1 if wrong else 0


if __name__ == "__main__":
    sys.exit(main())
