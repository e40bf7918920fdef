#!/usr/bin/env python3
"""Counts how much damage `vp8list --check` finds, next to vpxdec and ffmpeg.

Run manually, not in the gate: found.py [--sound] STREAMS [SEED] [FILE ..]. It damages the files (by default the example
and the clips of gate_clips with 4,000 bytes or more) in one of eleven ways, drawn at random, and asks of each stream
that shows another frame than before, or none, who says so: vp8list by its exit status, vpxdec by its exit status or a
word on standard error, ffmpeg with `-err_detect explode` by a word on standard error. VP8LIST_BEFORE names an earlier
vp8list to count too. With --sound it asks the same of the files as they are. It needs the built program (see
README.md), vpxdec (Debian's vpx-tools) and ffmpeg.
"""

import collections
import os
import pathlib
import random
import struct
import subprocess
import sys
import tempfile

import results
from library.ivf import records
from library.programs import VP8LIST, real_streams


def positions(text):
    """Where the bytes of each packet begin, and how many there are."""
    byte, found = 32, []
    for _, packet in records(text):
        found.append((byte + 12, len(packet)))
        byte += 12 + len(packet)
    return found


def inside(text, choose):
    """A byte of a packet, past its tag and the start of a key frame."""
    begins, size = choose.choice([place for place in positions(text) if place[1] > 20])
    return begins + choose.randrange(10, size), begins + size


def one_bit(text, choose):
    place, _ = inside(text, choose)
    return text[:place] + bytes([text[place] ^ 1 << choose.randrange(8)]) + text[place + 1 :]


def changed(count):
    def damage(text, choose):
        place, end = inside(text, choose)
        size = min(count, end - place)
        return text[:place] + choose.randbytes(size) + text[place + size :]

    return damage


def zero_sector(text, choose):
    sector = choose.randrange(1, max(2, len(text) // 512)) * 512
    return text[:sector] + bytes(len(text[sector : sector + 512])) + text[sector + 512 :]


def rewritten(text, rows):
    return text[:32] + b"".join(struct.pack("<IQ", len(packet), stamp) + packet for stamp, packet in rows)


def cut(text, choose):
    rows = list(records(text))
    place = choose.randrange(len(rows))
    stamp, packet = rows[place]
    rows[place] = stamp, packet[: choose.randrange(len(packet) + 1)]
    return rewritten(text, rows)


def inserted(text, choose):
    rows = list(records(text))
    place = choose.randrange(len(rows))
    stamp, packet = rows[place]
    at = choose.randrange(min(10, len(packet)), len(packet) + 1)
    rows[place] = stamp, packet[:at] + choose.randbytes(choose.randrange(1, 9)) + packet[at:]
    return rewritten(text, rows)


def exchanged(text, choose):
    rows = list(records(text))
    place = choose.randrange(len(rows) - 1)
    (first, before), (second, after) = rows[place], rows[place + 1]
    rows[place : place + 2] = [(first, after), (second, before)]
    return rewritten(text, rows)


def twice(text, choose):
    rows = list(records(text))
    place = choose.randrange(len(rows))
    rows.insert(place, rows[place])
    return rewritten(text, rows)


def dropped(text, choose):
    rows = list(records(text))
    del rows[choose.randrange(len(rows))]
    return rewritten(text, rows)


def records_exchanged(text, choose):
    rows = list(records(text))
    place = choose.randrange(len(rows) - 1)
    rows[place : place + 2] = rows[place + 1], rows[place]
    return rewritten(text, rows)


def tag_bit(text, choose):
    """A bit of a tag, or of a key frame's start code."""
    begins, size = choose.choice([place for place in positions(text) if place[1] > 20])
    place = begins + choose.randrange(3 if text[begins] & 1 else 6)
    return text[:place] + bytes([text[place] ^ 1 << choose.randrange(8)]) + text[place + 1 :]


KINDS = {
    "one bit": one_bit,
    "one byte": changed(1),
    "eight bytes": changed(8),
    "a sector of zeros": zero_sector,
    "a packet cut": cut,
    "bytes inserted": inserted,
    "two packets exchanged": exchanged,
    "a record twice": twice,
    "a record dropped": dropped,
    "two records exchanged": records_exchanged,
    "a bit of the tag": tag_bit,
}


def ran(*words):
    return subprocess.run(
        words, capture_output=True, text=True, errors="replace", timeout=60, check=False, stdin=subprocess.DEVNULL
    )


def frames(path):
    """The frames of a stream, one list of hashes, whatever their time stamps."""
    return [
        line.rsplit(",", 1)[-1] for line in ran(VP8LIST, path, "--hash").stdout.splitlines() if not line.startswith("#")
    ]


def reports(path):
    """Who says that a stream is damaged."""
    said = {"vp8list": ran(VP8LIST, path, "--check").returncode != 0}
    if "VP8LIST_BEFORE" in os.environ:
        said["vp8list before"] = ran(os.environ["VP8LIST_BEFORE"], path, "--check").returncode != 0
    shown = ran("vpxdec", "--codec=vp8", "--i420", "-o", "/dev/null", path)
    said["vpxdec"] = shown.returncode != 0 or "orrupt" in shown.stderr or "Failed" in shown.stderr
    shown = ran("ffmpeg", "-nostdin", "-v", "error", "-err_detect", "explode", "-i", path, "-f", "null", "-")
    said["ffmpeg"] = shown.returncode != 0 or bool(shown.stderr.strip())
    return said


def sound(paths):
    totals = collections.Counter()
    for path in paths:
        totals["streams"] += 1
        for who, says in reports(path).items():
            totals[who] += says
    results.total(", ".join(f"{name} {number}" for name, number in totals.items()))


def damaged(count, seed, paths):
    choose = random.Random(seed)
    whole = {path: (path.read_bytes(), frames(path)) for path in paths}
    totals = {kind: collections.Counter() for kind in KINDS}
    with tempfile.TemporaryDirectory() as folder:
        path = pathlib.Path(folder) / "damaged.ivf"
        for number in range(count):
            kind = list(KINDS)[number % len(KINDS)]
            text, before = whole[choose.choice(paths)]
            path.write_bytes(KINDS[kind](text, choose))
            if frames(path) == before:
                totals[kind]["same frames"] += 1
                continue
            totals[kind]["other frames"] += 1
            for who, says in reports(path).items():
                totals[kind][who] += says
    for kind, found in totals.items():
        print(f"{kind}: " + ", ".join(f"{name} {number}" for name, number in sorted(found.items())))
    results.total(f"{count} damaged streams", told=sum(totals.values(), collections.Counter()))


def main():
    words = sys.argv[1:]
    is_sound = words[:1] == ["--sound"]
    words = words[is_sound:]
    count, seed = int(words[0]), int(words[1]) if words[1:] else 1
    clips = real_streams()
    paths = [pathlib.Path(word) for word in words[2:]] or [path for path in clips if path.stat().st_size >= 4000]
    if is_sound:
        sound(paths)
    else:
        damaged(count, seed, paths)


if __name__ == "__main__":
    main()
