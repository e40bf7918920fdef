#!/usr/bin/env python3
"""Counts what `vp8list --check` reports of sound clips, by how their time stamps go on.

Run manually, not in the gate: steps.py [CLIPS] [SEED], so many clips of each kind, and SEED 1 if none is given. ffmpeg
draws each clip, some with variable rates; vpxenc codes some and drops frames. No clip is damaged, so each finding that
is damage is a false alarm. It needs the built program (see README.md), ffmpeg and vpxenc (Debian's vpx-tools).
"""

import collections
import json
import pathlib
import random
import struct
import subprocess
import sys
import tempfile

import results
from library.clips import SOURCES, drawn
from library.ivf import records
from library.programs import VP8LIST, run

SIZE = (96, 64)
FRAMES = 80


def by_ffmpeg(room, choose, *filters, rate=30, options=()):
    """A clip that ffmpeg draws, filters and codes itself."""
    graph = ",".join([f"scale={SIZE[0]}:{SIZE[1]}", *filters])
    words = [
        "-f",
        "lavfi",
        "-r",
        str(rate),
        "-i",
        drawn(choose.choice(SOURCES), *SIZE),
        "-vf",
        graph,
        "-frames:v",
        str(FRAMES),
    ]
    coder = [
        "-c:v",
        "libvpx",
        "-b:v",
        f"{choose.choice([40, 200, 1000])}k",
        "-g",
        str(choose.choice([9, 30, 999])),
        "-auto-alt-ref",
        str(choose.randrange(2)),
    ]
    run(["ffmpeg", "-y", "-v", "error", *words, "-pix_fmt", "yuv420p", *coder, *options, room / "clip.ivf"])


def constant(room, choose):
    by_ffmpeg(room, choose, rate=choose.choice([15, 24, 25, 30, 60, "30000/1001"]))


def milliseconds(room, choose):
    """30000/1001 frames a second in milliseconds: steps of 33 and 34."""
    by_ffmpeg(room, choose, rate="30000/1001", options=["-fps_mode", "vfr", "-enc_time_base", "1/1000"])


def variable(room, choose):
    """Frames that a filter drops at random, as a camera does in the dark."""
    kept = f"select='gt(random({choose.randrange(1000)}),{choose.choice([0.1, 0.3, 0.6])})'"
    by_ffmpeg(room, choose, kept, options=["-fps_mode", "vfr"])


def same_pictures(room, choose):
    """Frames that are the same as the one before them are dropped."""
    run(
        [
            "ffmpeg",
            "-y",
            "-v",
            "error",
            "-f",
            "lavfi",
            "-i",
            f"testsrc=size=96x64:rate=30:decimals={choose.randrange(2)}",
            "-vf",
            "mpdecimate",
            "-fps_mode",
            "vfr",
            "-frames:v",
            str(FRAMES),
            "-pix_fmt",
            "yuv420p",
            "-c:v",
            "libvpx",
            "-auto-alt-ref",
            "0",
            room / "clip.ivf",
        ]
    )


def jitter(room, choose):
    """Time stamps of a camera, some milliseconds off."""
    moved = f"settb=1/1000,setpts='N*33+floor(random({choose.randrange(1000)})*{choose.choice([3, 9, 20])})'"
    by_ffmpeg(room, choose, moved, options=["-fps_mode", "passthrough", "-enc_time_base", "1/1000"])


def one_pause(room, choose):
    """A recording that was paused once, and went on with an inter frame."""
    place, length = choose.randrange(20, 60), choose.randrange(1, 90)
    by_ffmpeg(room, choose, f"setpts='PTS+if(gte(N,{place}),{length},0)/(FR*TB)'", options=["-fps_mode", "vfr"])


def encoder_drops(room, choose):
    """Frames that vpxenc drops for its rate."""
    words = [
        "-f",
        "lavfi",
        "-i",
        drawn(choose.choice(SOURCES), *SIZE),
        "-vf",
        f"scale={SIZE[0]}:{SIZE[1]}",
        "-frames:v",
        str(FRAMES),
    ]
    run(["ffmpeg", "-y", "-v", "error", *words, "-pix_fmt", "yuv420p", room / "clip.y4m"])
    coder = [
        "--rt",
        "--end-usage=cbr",
        f"--target-bitrate={choose.choice([5, 10, 20, 40])}",
        f"--drop-frame={choose.choice([30, 60, 90])}",
        "--max-q=40",
    ]
    run(
        [
            "vpxenc",
            "--codec=vp8",
            "--ivf",
            "--disable-warning-prompt",
            *coder,
            "-o",
            room / "clip.ivf",
            room / "clip.y4m",
        ]
    )


def joined(room, choose):
    """Two clips one after the other, of which the second begins at 0 again."""
    by_ffmpeg(room, choose)
    first = (room / "clip.ivf").read_bytes()
    by_ffmpeg(room, choose)
    second = (room / "clip.ivf").read_bytes()
    rows = [*records(first), *records(second)]
    (room / "clip.ivf").write_bytes(
        first[:24]
        + struct.pack("<II", len(rows), 0)
        + b"".join(struct.pack("<IQ", len(data), stamp) + data for stamp, data in rows)
    )


KINDS = [constant, milliseconds, variable, same_pictures, jitter, one_pause, encoder_drops, joined]


def findings(path):
    done = subprocess.run([VP8LIST, path, "--check", "--json"], capture_output=True, text=True, timeout=60, check=False)
    if done.returncode > 1:
        sys.exit(f"vp8list {path}: {done.stderr}")
    return list(map(json.loads, done.stdout.splitlines()))


def main():
    count, choose = int((sys.argv[1:2] or [20])[0]), random.Random(int((sys.argv[2:3] or [1])[0]))
    damaged = 0
    with tempfile.TemporaryDirectory() as folder:
        room = pathlib.Path(folder)
        for kind in KINDS:
            totals = collections.Counter()
            for _ in range(count):
                kind(room, choose)
                found = findings(room / "clip.ivf")
                totals["with damage"] += any(finding["severity"] == "damage" for finding in found)
                totals["with notes"] += any(
                    finding["severity"] == "note" and finding["packet"] is not None for finding in found
                )
                totals.update(finding["kind"] for finding in found)
            print(
                f"{kind.__name__}: {count} clips, "
                + ", ".join(f"{name} {number}" for name, number in sorted(totals.items())),
                flush=True,
            )
            damaged += totals["with damage"]
    results.total(f"{count * len(KINDS)} clips, damage is reported of {damaged}")


if __name__ == "__main__":
    main()
