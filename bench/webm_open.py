#!/usr/bin/env python3
"""Times how a long WebM file is opened: `wokureti list`, `wokureti open` up to its address and up to its first answer,
and vp8serve alone, next to copies by ffmpeg and mkvmerge.

    bench/webm_open.py [--hours H] [--turns N] [--tree FOLDER ..] [FILE]

Without FILE a clip of a minute, 640x360 at 25 frames a second with Opus, is coded once and repeated up to H hours
(2.5). The turns are in random order, and what is printed are the medians of N turns (5): seconds of processor time of a
program and of all that it starts, and the most memory of one of them. FOLDER is a checkout of another version, whose
client is measured too. The programs are those of VP8SERVE and VP8LIST. It needs ffmpeg and mkvmerge.
"""

import argparse
import contextlib
import json
import os
import pathlib
import random
import statistics
import subprocess
import sys
import tempfile
import urllib.request

TOP = pathlib.Path(__file__).resolve().parent.parent
sys.path.insert(0, str(TOP / "clients/python"))

from wokureti.base import programs  # noqa: E402

ROOM = pathlib.Path(os.environ.get("XDG_CACHE_HOME") or pathlib.Path.home() / ".cache") / "wokureti"
TICKS = os.sysconf("SC_CLK_TCK")


def ffmpeg(*words):
    subprocess.run(["ffmpeg", "-nostdin", "-v", "error", "-y", *map(str, words)], check=True)


def made(hours):
    """The file, which is made if it is not there."""
    minute, path = ROOM / "minute.webm", ROOM / f"{hours:g}-hours.webm"
    ROOM.mkdir(parents=True, exist_ok=True)
    if not minute.is_file():
        picture, sound = (
            "testsrc2=size=640x360:rate=25:duration=60,noise=alls=12:allf=t",
            "aevalsrc=0.3*sin(440*t*(1+t/60)):s=48000:d=60",
        )
        coding = [
            "-c:v",
            "libvpx",
            "-deadline",
            "realtime",
            "-cpu-used",
            "8",
            "-g",
            "100",
            "-b:v",
            "450k",
            "-c:a",
            "libopus",
            "-b:a",
            "64k",
        ]
        ffmpeg("-f", "lavfi", "-i", picture, "-f", "lavfi", "-i", sound, *coding, minute)
    if not path.is_file():
        ffmpeg("-stream_loop", round(hours * 60) - 1, "-i", minute, "-c", "copy", path)
    return path


def finished(words, **more):
    """The processor time and the memory of a program that ends."""
    process = subprocess.Popen(list(map(str, words)), stdin=subprocess.DEVNULL, stdout=subprocess.DEVNULL, **more)
    _, status, used = os.wait4(process.pid, 0)
    process.returncode = status
    if status:
        raise SystemExit(f"{words}: status {status}")
    return used.ru_utime + used.ru_stime, used.ru_maxrss << 10


def processes(pid):
    """A process, and all that it started and that run."""
    found = [pid]
    for task in os.listdir(f"/proc/{pid}/task"):
        # A thread may have ended.
        with contextlib.suppress(FileNotFoundError):
            for child in pathlib.Path(f"/proc/{pid}/task/{task}/children").read_text().split():
                found += processes(int(child))
    return found


def used(pid):
    """The processor time and the most memory of a process that runs, and of all that it started."""
    seconds, most = 0, 0
    for one in processes(pid):
        fields = pathlib.Path(f"/proc/{one}/stat").read_text().rsplit(")", 1)[1].split()
        own = fields[11:13] if one != pid else fields[11:15]
        seconds += sum(map(int, own)) / TICKS
        status = pathlib.Path(f"/proc/{one}/status").read_text()
        most = max(most, next(int(line.split()[1]) << 10 for line in status.splitlines() if line.startswith("VmHWM")))
    return seconds, most


def opened(words, asks, **more):
    """The same of `wokureti open`, until it prints its address, or until it has answered what the page asks first."""
    with subprocess.Popen(
        list(map(str, words)),
        stdin=subprocess.DEVNULL,
        stdout=subprocess.PIPE,
        stderr=subprocess.DEVNULL,
        text=True,
        **more,
    ) as process:
        try:
            address = process.stdout.readline().strip().removesuffix("page/")
            if asks:
                with urllib.request.urlopen(f"{address}session", timeout=600) as reply:
                    json.load(reply)
            return used(process.pid)
        finally:
            process.terminate()


def measures(path, trees, folder):
    """What is measured, by name."""
    found = {
        "vp8serve": lambda: finished([programs.find("vp8serve"), path]),
        "ffmpeg -c copy": lambda: finished(
            ["ffmpeg", "-nostdin", "-v", "error", "-y", "-i", path, "-c", "copy", folder / "copy.webm"]
        ),
        "mkvmerge": lambda: finished(["mkvmerge", "-q", "-o", folder / "copy.mkv", path]),
    }
    for tree in trees:
        name = "" if tree == TOP else f", {tree.name}"
        room = {**os.environ, "PYTHONPATH": str(tree / "clients/python"), "XDG_STATE_HOME": str(folder)}
        words = [sys.executable, "-m", "wokureti"]
        found[f"wokureti list{name}"] = lambda room=room: finished(
            [*words, "list", path], env=room, stderr=subprocess.DEVNULL
        )
        edits = folder / f"edits{len(found)}"
        for what, asks in (("address", False), ("first answer", True)):
            found[f"wokureti open, {what}{name}"] = lambda room=room, edits=edits, asks=asks: opened(
                [*words, "open", path, "--no-browser", "--edits", edits], asks, env=room
            )
    return found


def main():
    parser = argparse.ArgumentParser()
    parser.add_argument("--hours", type=float, default=2.5)
    parser.add_argument("--turns", type=int, default=5)
    parser.add_argument("--tree", type=pathlib.Path, action="append", default=[])
    parser.add_argument("path", nargs="?", type=pathlib.Path)
    given = parser.parse_args()
    path, dice, results = given.path or made(given.hours), random.Random(1), {}
    with tempfile.TemporaryDirectory() as room:
        ways = measures(path, [TOP, *given.tree], pathlib.Path(room))
        for _ in range(given.turns):
            for name in dice.sample(sorted(ways), len(ways)):
                results.setdefault(name, []).append(ways[name]())
    print(f"{path.name}, {path.stat().st_size / 1e6:,.0f} MB")
    for name in ways:
        seconds, memory = (statistics.median(column) for column in zip(*results[name]))
        print(f"{name:36} {seconds:6.2f} s {memory / 1e6:8,.0f} MB")


if __name__ == "__main__":
    main()
