#!/usr/bin/env python3
"""Compares the WebM files that crates/webm_writing writes of IVF files with a plain model, and shows them to mkvinfo,
ffprobe and mkvmerge.

    compare/webm_text.py [--files N] [--seed S]

The example, the clips of the gate and N random files, with random rates, stamps that go back, jumps and packets of any
bytes, must be written as library/webm_text.py writes them, byte for byte, and read by library/matroska.py as these
packets with their times. Of each file of whole packets, times and sizes must also be those of mkvinfo and ffprobe, and
mkvmerge must take it without a warning. `rt run < /dev/null` in crates/gate_writing builds the program.
"""

import argparse
import os
import pathlib
import random
import subprocess
import sys
import tempfile

import results
import webm
from library import ivf, matroska, webm_text
from library.programs import TOP, real_streams, run

PROGRAM = pathlib.Path(os.environ.get("GATE_WRITING") or TOP / "crates/gate_writing/out/gate_writing")
BATCH = 100
# One random file in so many has the packets of a clip, which the other programs are shown.
CLIPS = 10
RATES = [(30, 1), (25, 1), (30000, 1001), (24000, 1001), (1000, 1), (90000, 1), (1, 1), (7, 3), (10**9, 1), (1, 7200)]


def written_by_program(folder, texts):
    """The file that the program writes of each text, which is empty if it cannot be written."""
    paths = [folder / f"random{at}.ivf" for at in range(len(texts))]
    for path, text in zip(paths, texts):
        path.write_bytes(text)
    lines = subprocess.run(
        [PROGRAM], input="".join(f"{path}\n" for path in paths), text=True, stdout=subprocess.PIPE, check=True
    ).stdout.splitlines()
    found, names = [], {str(path) for path in paths}
    for line in lines:
        if line in names:
            found.append(b"")
        else:
            found[-1] += bytes.fromhex(line)
    return found


def packets_of(text):
    """Time in milliseconds and size of each packet of an IVF file."""
    rate, scale = ivf.HEAD.unpack_from(text)[6:8]
    return [(webm_text.time_of(rate, scale, stamp), len(packet)) for stamp, packet in ivf.records(text)]


def read_wrong(text, file):
    """What the plain reader reads otherwise of a written file."""
    found = [line.split()[1:3] for line in matroska.lines_of(file) if line.startswith("packet ")]
    wanted = [[str(time), str(size)] for time, size in packets_of(text)]
    return [] if found == wanted else [f"{len(found)} packets are read of {len(wanted)}"]


def shown_wrong(folder, text, file):
    """What other programs find wrong in a written file."""
    path, wrong, wanted = folder / "shown.webm", [], packets_of(text)
    path.write_bytes(file)
    if [(track, time) for track, time, _ in webm.by_mkvinfo(path)] != [(1, time * 10**6) for time, _ in wanted]:
        wrong.append("mkvinfo has other blocks")
    probe = run(["ffprobe", "-v", "error", "-show_entries", "packet=pts,size", "-of", "csv=p=0", path]).decode().split()
    if [tuple(map(int, line.strip(",").split(",")[:2])) for line in probe] != wanted:
        wrong.append("ffprobe has other packets")
    merged = subprocess.run(
        ["mkvmerge", "-q", "-o", folder / "merged.mkv", path],
        stdout=subprocess.PIPE,
        stderr=subprocess.STDOUT,
        check=False,
    )
    if merged.returncode or merged.stdout:
        wrong.append(f"mkvmerge: {merged.stdout.decode().strip()}")
    return wrong


def head(dice, width, height, count):
    rate, scale = (
        dice.choice(RATES) if dice.randrange(3) else (dice.randint(1, 2**32 - 1), dice.randint(1, 2**32 - 1))
    )
    return ivf.HEAD.pack(b"DKIF", 0, 32, b"VP80", width, height, rate, scale, count, 0)


def random_file(dice):
    """Packets of any bytes, at any times."""
    stamp, text = dice.choice([0, 0, dice.randrange(2**40)]), b""
    count = dice.choice([0, 1, dice.randrange(40), dice.randrange(300)])
    for _ in range(count):
        packet = dice.randbytes(dice.choice([0, 1, 2, 3, dice.randrange(40), dice.randrange(400)]))
        text += ivf.RECORD.pack(len(packet), stamp) + packet
        step = dice.choice([1, 1, 1, 1, 0, dice.randrange(100), dice.randrange(10**6), -dice.randrange(100)])
        stamp = min(max(stamp + step, 0), 2**64 - 1)
    return head(dice, dice.randrange(2**16), dice.randrange(2**16), count) + text


def random_clip(dice, clips):
    """Packets of a clip, some of them left out, at times that go forward."""
    clip, stamp, text, count = dice.choice(clips), 0, b"", 0
    for _, packet in ivf.records(clip):
        if dice.randrange(8) or not text:
            text += ivf.RECORD.pack(len(packet), stamp) + packet
            count += 1
        stamp += dice.choice([1, 1, 1, 2, dice.randrange(1, 300)])
    rate, scale = dice.choice(RATES[:5])
    width, height = ivf.HEAD.unpack_from(clip)[4:6]
    return ivf.HEAD.pack(b"DKIF", 0, 32, b"VP80", width, height, rate, scale, count, 0) + text


def main():
    words = argparse.ArgumentParser(description=__doc__, formatter_class=argparse.RawDescriptionHelpFormatter)
    words.add_argument("--files", type=int, default=1_000)
    words.add_argument("--seed", type=int, default=1)
    words.add_argument("--quiet", action="store_true")
    options = words.parse_args()
    dice, wrong, shown, unwritten = random.Random(options.seed), 0, 0, 0
    clips = [path.read_bytes() for path in real_streams()]
    texts = [(text, True) for text in clips]
    for at in range(options.files):
        texts.append((random_clip(dice, clips), True) if at % CLIPS == 0 else (random_file(dice), False))
    with tempfile.TemporaryDirectory(dir="/dev/shm" if os.path.isdir("/dev/shm") else None) as name:
        folder = pathlib.Path(name)
        for at in range(0, len(texts), BATCH):
            batch = texts[at : at + BATCH]
            for (text, is_whole), file in zip(
                batch, written_by_program(folder, [text for text, _ in batch]), strict=True
            ):
                wanted = webm_text.from_ivf(text) or b""
                faults = [] if file == wanted else [f"{len(file)} bytes are not the {len(wanted)} of the model"]
                if file:
                    faults += read_wrong(text, file)
                    if is_whole:
                        faults += shown_wrong(folder, text, file)
                        shown += 1
                else:
                    unwritten += 1
                for fault in faults:
                    wrong += 1
                    print(fault, flush=True)
                    pathlib.Path(f"/tmp/webm_text_differs_{wrong}.ivf").write_bytes(text)
    told = {
        "files": len(texts),
        "shown to mkvinfo, ffprobe and mkvmerge": shown,
        "not written for their times": unwritten,
    }
    results.total(
        "webm_text: no difference" if not wrong else f"webm_text: {wrong} differences", wrong, told, results.sources()
    )
    return 1 if wrong else 0


if __name__ == "__main__":
    sys.exit(main())
