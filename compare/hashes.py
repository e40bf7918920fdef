#!/usr/bin/env python3
"""Compares `vp8list --hash` with ffmpeg's `framemd5`, line for line.

Run manually, not in the gate: hashes.py [FILE ..] compares these IVF files, or the real streams and the examples, and
streams made from them here: time stamps that skip, another time base, a size that changes, packets cut to two bytes. It
needs the built program and ffmpeg (see README.md).
"""

import difflib
import pathlib
import struct
import subprocess
import sys
import tempfile

import results
from library.programs import CLIPS, EXAMPLE, VP8LIST

# The time stamps of the file, each frame once at its own size, and no line with ffmpeg's version.
FLAGS = ["-fps_mode", "passthrough", "-autoscale", "0", "-bitexact", "-f", "framemd5", "-"]


def ours(path):
    run = subprocess.run([VP8LIST, path, "--hash"], capture_output=True, text=True)
    refused = run.stderr and all(line.startswith("vp8list: packet ") for line in run.stderr.splitlines())
    if run.returncode != (1 if refused else 0):
        sys.exit(f"{path}: status {run.returncode}: {run.stderr}")
    return run.stdout


def theirs(path):
    run = subprocess.run(
        ["ffmpeg", "-nostdin", "-v", "quiet", "-copyts", "-i", path, *FLAGS], capture_output=True, text=True
    )
    return run.stdout


def read(path):
    """The header and the records of an IVF file."""
    text = path.read_bytes()
    (start,) = struct.unpack_from("<H", text, 6)
    packets = []
    while start + 12 <= len(text):
        size, stamp = struct.unpack_from("<IQ", text, start)
        packets.append((stamp, text[start + 12 : start + 12 + size]))
        start += 12 + size
    return text[:32], packets


def write(path, head, packets):
    path.write_bytes(head + b"".join(struct.pack("<IQ", len(data), stamp) + data for stamp, data in packets))


def with_unit(head, rate, scale):
    return head[:16] + struct.pack("<II", rate, scale) + head[24:]


def is_key(data):
    return len(data) >= 3 and data[0] & 1 == 0


def made(room, clips):
    """Streams that the clips do not have, and whether ffmpeg has the same lines by its rules."""
    for path in clips:
        head, packets = read(path)
        name = room / path.name
        write(name, head, [(3 * stamp + 5, data) for stamp, data in packets])
        yield "stamps skip", name
        for rate, scale in (60, 2), (60000, 2002), (90000, 1), (1, 1), (25, 1):
            write(name, with_unit(head, rate, scale), packets)
            yield f"{rate}/{scale}", name
        write(name, head, [(stamp, data[:2] if is_key(data) else data) for stamp, data in packets])
        yield "no key packet", name
        last = packets[-1]
        write(name, head, packets[:-1] + [(last[0], last[1][:2])])
        yield "last packet cut", name
    for one in clips:
        for other in clips:
            if one.name < other.name and "size" in one.name and one.name[:4] != other.name[:4]:
                head, packets = read(one)
                more = read(other)[1]
                name = room / f"{one.stem}-{other.name}"
                write(name, head, packets + [(len(packets) + k, data) for k, (_, data) in enumerate(more)])
                yield "size changes", name


def main():
    paths = [pathlib.Path(name) for name in sys.argv[1:]]
    clips = paths or sorted(CLIPS.glob("*.ivf")) + [EXAMPLE]
    totals = {}
    with tempfile.TemporaryDirectory() as room:
        cases = [("as it is", path) for path in clips]
        for kind, path in (
            cases if paths else (case for part in (cases, made(pathlib.Path(room), clips)) for case in part)
        ):
            left, right = ours(path), theirs(path)
            streams, frames, different = totals.get(kind, (0, 0, 0))
            totals[kind] = streams + 1, frames + left.count("\n0, "), different + (left != right)
            if left != right:
                print(f"{path.name}, {kind}: differs")
                lines = difflib.unified_diff(
                    right.splitlines(), left.splitlines(), "ffmpeg", "vp8list", lineterm="", n=0
                )
                print("\n".join(list(lines)[:8]))
    for kind, (streams, frames, different) in totals.items():
        print(f"{kind}: {streams} streams, {frames} frames, {different} different")
    streams, frames, different = map(sum, zip(*totals.values()))
    results.total(f"{streams} streams, {frames} frames: {different} differ", different)
    return different > 0


if __name__ == "__main__":
    sys.exit(main())
