#!/usr/bin/env python3
"""Compares the list of vp8list with one that is read here from the same headers, line for line.

Run manually, not in the gate: listed.py FILE.. compares the lists of these IVF files; listed.py --print FILE prints the
one that is read here; listed.py --damage N [SEED] compares the lists of N streams made from the example and the real
streams with packets cut, dropped, doubled, moved and with bytes changed. It needs the built program (see README.md).
"""

import pathlib
import random
import struct
import subprocess
import sys
import tempfile

import results
from library.damage import damage
from library.headers import facts
from library.ivf import ivf, records, size_of
from library.programs import VP8LIST, real_streams

COLUMNS = (
    "packet frame stamp bytes kind show version size first partitions quantizer level last golden altref cause byte"
    " scale color clamp"
)


def lines(text):
    """The list of a file's bytes."""
    yield "\t".join(COLUMNS.split())
    frames, has_key, broken = 0, False, False
    (byte,) = struct.unpack_from("<H", text, 6)
    for number, (stamp, packet) in enumerate(records(text)):
        tag = int.from_bytes(packet[:3], "little") if len(packet) >= 3 else None
        shown = tag is None or tag >> 4 & 1
        is_key = tag is not None and tag % 2 == 0
        line = [number, frames if shown else "-", stamp, len(packet)]
        line += ["-" if tag is None else "key" if is_key else "inter", "shown" if shown else "hidden"]
        line += ["-" if tag is None else tag >> 1 & 7]
        whole = is_key and len(packet) >= 10 and packet[3:6] == b"\x9d\x01\x2a" and 0 not in size_of(packet)
        line += ["x".join(map(str, size_of(packet))) if whole else "-", "-" if tag is None else tag >> 5]
        found, has_key = facts(packet, has_key)
        refused, lost = isinstance(found, str), broken and not is_key
        columns = ["-"] * 8 if refused else found
        line += columns[:6] + ["lost" if lost else found if refused else "-", byte + 12]
        line += [
            "x".join(str(side >> 14) for side in struct.unpack_from("<HH", packet, 6)) if whole else "-"
        ] + columns[6:]
        broken = lost or refused
        byte += 12 + len(packet)
        frames += bool(shown)
        yield "\t".join(map(str, line))


def differs(path):
    """Whether the lists of a file differ; the first line that does is printed."""
    ran = subprocess.run([VP8LIST, path], capture_output=True, text=True, check=False)
    ours, theirs = ran.stdout.splitlines(), list(lines(path.read_bytes()))
    if ran.returncode == 0 and ours == theirs:
        return False
    pair = next((pair for pair in zip(ours, theirs) if pair[0] != pair[1]), (len(ours), len(theirs)))
    print(f"{path}: status {ran.returncode}", *pair, sep="\n")
    return True


def damaged_streams(count, seed):
    """The lists of damaged streams; how many differ."""
    choose = random.Random(seed)
    clips = real_streams()
    wrong = 0
    with tempfile.TemporaryDirectory() as room:
        path = pathlib.Path(room) / "damaged.ivf"
        for _ in range(count):
            text = choose.choice(clips).read_bytes()
            found = list(records(text))
            packets = damage([packet for _, packet in found], choose)
            path.write_bytes(text[:32] + ivf(0, 0, packets)[32:])
            wrong += differs(path)
    return wrong


def main():
    words = sys.argv[1:]
    if words[:1] == ["--print"]:
        print(*lines(pathlib.Path(words[1]).read_bytes()), sep="\n")
        return
    if words[:1] == ["--damage"]:
        wrong, count = damaged_streams(int(words[1]), int(words[2]) if words[2:] else 1), int(words[1])
    else:
        wrong, count = sum(differs(pathlib.Path(word)) for word in words), len(words)
    results.total(f"{count} lists, {wrong} differ", wrong)
    sys.exit(wrong > 0)


if __name__ == "__main__":
    main()
