"""Times the decoding of whole clips: decode.py ROOM CLIPS TURNS MINUTES LEVELS CLIP ..

ROOM has the program for each of LEVELS, CLIPS the clips. MINUTES is for all clips together, or empty: no turn of a clip
after its third begins when its share is used up. decode.sh runs it.
"""

import os
import random
import statistics
import struct
import sys
import time

ROOM, CLIPS, TURNS, MINUTES, LEVELS, *NAMES = sys.argv[1:]
CACHES = (1, 8, 32)
NOWHERE = os.open("/dev/null", os.O_RDWR)


class Run:
    """What one run of a command took."""

    def __init__(self, words):
        # What wait4 reports as the memory of a child is at least Python's own, so `time` starts the command.
        words = ["/usr/bin/time", "-o", f"{ROOM}/taken", "-f", "%R %M", *words]
        files = [(os.POSIX_SPAWN_DUP2, NOWHERE, number) for number in range(3)]
        start = time.perf_counter()
        child = os.posix_spawn(words[0], words, os.environ, file_actions=files)
        _, status, used = os.wait4(child, 0)
        self.wall = time.perf_counter() - start
        assert status == 0, (words, status)
        self.user = used.ru_utime
        self.system = used.ru_stime
        with open(f"{ROOM}/taken") as file:
            self.faults, self.memory = map(int, file.read().split())

    def time(self):
        return self.user + self.system


def frames_of(clip):
    """The number of packets of an IVF file; each shows a frame."""
    with open(clip, "rb") as file:
        return struct.unpack("<I", file.read(32)[24:28])[0]


def ways_for(clip, requests):
    """The commands that decode a clip: those that drop the frames, and those that write them."""
    ways = {}
    for level in LEVELS.split():
        for states in CACHES:
            ways[f"{level}, {states} state{'s' * (states > 1)}"] = [
                f"{ROOM}/{level}",
                clip,
                requests,
                "-",
                "--cache",
                str(states),
            ]
    ways["vpxdec"] = ["vpxdec", "--threads=1", "--noblit", clip]
    ways["ffmpeg"] = ["ffmpeg", "-v", "error", "-threads", "1", "-i", clip, "-f", "null", "-"]
    ways["frames written"] = [f"{ROOM}/{LEVELS.split()[-1]}", clip, requests, "/dev/null"]
    ways["vpxdec, written"] = ["vpxdec", "--threads=1", "--i420", "-o", "/dev/null", clip]
    return ways


def quartiles(values):
    """The first quartile, the median and the third."""
    values = sorted(values)
    return statistics.quantiles(values, n=4, method="inclusive") if len(values) > 1 else values * 3


def median(values):
    return statistics.median(list(values))


def ratios(runs, way):
    """The time of each turn over vpxdec's in the same turn."""
    beside = runs["vpxdec, written" if "written" in way else "vpxdec"]
    return [mine.time() / other.time() for mine, other in zip(runs[way], beside)]


def report(runs):
    """A line for each command: medians of its runs; of each turn's time over vpxdec's the median, and the quartiles
    around it.
    """
    print(
        f"  {'':24}{'user':>6}{'system':>7}{'wall':>7} ms {'faults':>8}{'MB':>7}   user and system over vpxdec's,"
        " middle half"
    )
    for way, taken in runs.items():
        low, middle, high = quartiles(ratios(runs, way))
        times = [1000 * median(getattr(run, field) for run in taken) for field in ("user", "system", "wall")]
        faults, memory = (median(getattr(run, field) for run in taken) for field in ("faults", "memory"))
        print(
            f"  {way:24}{times[0]:6.0f}{times[1]:7.0f}{times[2]:7.0f}    {faults:8.0f}{memory / 1024:7.1f}  "
            f" {middle:.2f} ({low:.2f} to {high:.2f})"
        )


def turns_of(ways, order):
    """The runs of each command, in turns in random order."""
    runs = {way: [] for way in ways}
    last = time.monotonic() + 60 * float(MINUTES) / len(NAMES) if MINUTES else float("inf")
    for turn in range(int(TURNS)):
        if turn >= 3 and time.monotonic() > last:
            break
        for way in order.sample(list(ways), len(ways)):
            runs[way].append(Run(ways[way]))
    return runs


def summary(taken):
    """The table of bench/README.md: the medians of the ratios, by clip."""
    ways = [way for way in next(iter(taken.values())) if way != "vpxdec" and "written" not in way]
    print("| over vpxdec | " + " | ".join(ways) + " | frames written |")
    print("|---" * (len(ways) + 2) + "|")
    for name, runs in taken.items():
        cells = [f"{median(ratios(runs, way)):.2f}" for way in [*ways, "frames written"]]
        print(f"| {name} | " + " | ".join(cells) + " |")


def main():
    order = random.Random(6386)
    taken = {}
    for name in NAMES:
        clip, requests = f"{CLIPS}/{name}.ivf", f"{ROOM}/requests"
        frames = frames_of(clip)
        with open(requests, "w") as file:
            file.writelines(f"frame {n}\n" for n in range(frames))
        runs = taken[name] = turns_of(ways_for(clip, requests), order)
        print(f"{name}, {frames} frames, {len(runs['vpxdec'])} turns in random order", flush=True)
        report(runs)
    summary(taken)


main()
