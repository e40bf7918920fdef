#!/usr/bin/env python3
"""Times `vp8serve --export`: a clip of 300 frames of 640x360 cut into 30 parts that are put in random order, next to
serving the same frames without output, and next to coding them again by ffmpeg with libvpx, whose loss is measured.

    bench/exports.py [CLIP] [TURNS]

A script has 16 nodes, so the parts are in four scripts, and the times are those of four runs together. It needs ffmpeg,
which also makes the clip if none is named.
"""

import os
import pathlib
import random
import re
import statistics
import subprocess
import sys
import tempfile
import time

TOP = pathlib.Path(__file__).resolve().parent.parent
sys.path.insert(0, str(TOP / "clients/python"))

from wokureti.base import programs  # noqa: E402
from wokureti.media import ivf  # noqa: E402
from wokureti.session import exports  # noqa: E402

PARTS, MOST = 30, 8
VP8SERVE = programs.find("vp8serve")


def run(words, text="", **more):
    return subprocess.run(
        list(map(str, words)), input=text.encode(), stdout=subprocess.PIPE, stderr=subprocess.PIPE, check=True, **more
    )


def timed(words, text=""):
    start = time.monotonic()
    run(words, text)
    return time.monotonic() - start


def make(path):
    picture = "mandelbrot=size=640x360:rate=30,noise=alls=8:allf=t"
    run(
        [
            "ffmpeg",
            "-nostdin",
            "-v",
            "error",
            "-y",
            "-f",
            "lavfi",
            "-i",
            picture,
            "-frames:v",
            300,
            "-c:v",
            "libvpx",
            "-deadline",
            "realtime",
            "-cpu-used",
            8,
            "-b:v",
            "1500k",
            "-g",
            30,
            "-auto-alt-ref",
            0,
            path,
        ]
    )


def scripts(dice, count):
    """The parts of a clip in random order, as scripts, with the number of frames of each."""
    borders = [0, *sorted(dice.sample(range(1, count), PARTS - 1)), count]
    parts = [(start, end - start) for start, end in zip(borders, borders[1:])]
    dice.shuffle(parts)
    found = []
    for first in range(0, PARTS, MOST):
        mine = parts[first : first + MOST]
        nodes, last = [f"trim 0 {start} {length}" for start, length in mine], 1
        for place in range(2, len(mine) + 1):
            nodes.append(f"splice {last} {place}")
            last = len(nodes)
        found.append(("; ".join(nodes), sum(length for _, length in mine)))
    return found


def main():
    turns = int(sys.argv[2]) if len(sys.argv) > 2 else 5
    if not exports.has_option(VP8SERVE, "--export"):
        sys.exit(f"{VP8SERVE} has no --export")
    with tempfile.TemporaryDirectory() as room:
        clip = sys.argv[1] if len(sys.argv) > 1 else f"{room}/clip.ivf"
        if len(sys.argv) < 2:
            make(clip)
        _, packets = ivf.read_packets(clip)
        count = sum(ivf.is_shown(data) for _, data in packets)
        size = sum(len(data) for _, data in packets)
        whole, shares, exported, served, ratios = [], [], [], [], []
        for turn in range(turns):
            found = scripts(random.Random(turn), count)
            export = serve = 0.0
            written = hidden = 0
            for number, (script, frames) in enumerate(found):
                serve += timed(
                    [VP8SERVE, clip, "-", "-"],
                    f"script {script}\n" + "".join(f"frame {frame}\n" for frame in range(frames)),
                )
                export += timed(
                    [VP8SERVE, clip, "-", "-", "--export", f"{room}/{number}.ivf", "--pad"], f"script {script}\n"
                )
                for _, data in ivf.read_packets(f"{room}/{number}.ivf")[1]:
                    written += len(data)
                    hidden += 0 if ivf.is_shown(data) else len(data)
            exported.append(export)
            served.append(serve)
            ratios.append(export / serve)
            whole.append(100 * (written - size) / size)
            shares.append(100 * hidden / written)
        say("export of 300 frames in 30 parts", exported)
        say("serving the same frames without output", served)
        print(f"export over serving: {statistics.median(ratios):.2f} (aim 1.3)")
        print(
            f"hidden packets: {statistics.median(shares):.1f} % of the bytes; the file is larger by"
            f" {statistics.median(whole):.1f} %"
        )
        again(room, clip, found, size)


def say(what, seconds):
    print(f"{what}: {1000 * statistics.median(seconds):.0f} ms (at least {1000 * min(seconds):.0f})", flush=True)


def again(room, clip, found, size):
    """Codes the frames again with as many bits, and says how long that took and what was lost."""
    total, losses, written = 0.0, [], 0
    rate = 8 * size * 30 // 300
    for number, (script, frames) in enumerate(found):
        run(
            [VP8SERVE, clip, "-", f"{room}/{number}.y4m"],
            f"script {script}\n" + "".join(f"frame {frame}\n" for frame in range(frames)),
        )
        words = [
            "ffmpeg",
            "-nostdin",
            "-v",
            "error",
            "-y",
            "-i",
            f"{room}/{number}.y4m",
            "-c:v",
            "libvpx",
            "-b:v",
            rate,
            f"{room}/{number}-again.ivf",
        ]
        total += timed(words)
        written += os.path.getsize(f"{room}/{number}-again.ivf")
        done = run(
            [
                "ffmpeg",
                "-nostdin",
                "-i",
                f"{room}/{number}-again.ivf",
                "-i",
                f"{room}/{number}.y4m",
                "-lavfi",
                "psnr",
                "-f",
                "null",
                "-",
            ]
        )
        losses.append((frames, float(re.search(rb"PSNR.* y:([0-9.]+|inf)", done.stderr).group(1))))
    psnr = sum(frames * value for frames, value in losses) / sum(frames for frames, _ in losses)
    print(
        f"ffmpeg -c:v libvpx -b:v {rate}: {total:.1f} s, {written:,} bytes, luma PSNR {psnr:.2f} dB (an export has none"
        " lost)"
    )


if __name__ == "__main__":
    sys.exit(main())
