#!/usr/bin/env python3
"""Reads WebM files where memory is refused, and ones that are large in one way.

    tests/faults/webm_limits.py [--requests N]

Of small files (one of a track, one with sound, a damaged one), one request for memory of a mode of vp8list or of a run
of vp8serve is refused, N of all requests at random: the run must end as one with ample memory does, or say that there
is no memory, of all or of a request, and what it wrote before must be the front of what it writes then. And files of
250,000, 500,000 and 1,000,000 blocks in one cluster, and with gaps of 12, 25 and 50 MB of three kinds, are listed: the
last packet is found, and twice the size may take three times the processor time. It needs Linux on x86-64 and ffmpeg.
"""

import argparse
import os
import pathlib
import random
import resource
import subprocess
import sys
import tempfile

sys.path.insert(1, str(pathlib.Path(__file__).resolve().parents[2] / "compare"))
import results  # noqa: E402
from library.programs import VP8LIST, VP8SERVE, run  # noqa: E402
from library.traced import Program, traced  # noqa: E402
from library.webm import CLUSTER, TIME, block, element, number, webm  # noqa: E402

NO_MEMORY = (b"no memory\n", b"input NoMemory\n")
GROWTH = 3
SECONDS, TURNS, LIMIT = 0.05, 3, 600
LINES = b"count\nframe 0\npacket 1\n"


def small_files(folder):
    """Paths of three small files."""
    plain, sound, broken = (folder / f"{name}.webm" for name in ("plain", "sound", "broken"))
    picture = ["ffmpeg", "-v", "error", "-y", "-f", "lavfi", "-i", "testsrc=size=32x32:rate=25:duration=0.4"]
    run([*picture, "-c:v", "libvpx", "-b:v", "20k", plain])
    run([*picture, "-f", "lavfi", "-i", "sine=duration=0.4", "-c:v", "libvpx", "-b:v", "20k", "-c:a", "libopus", sound])
    text = bytearray(sound.read_bytes())
    text[len(text) // 2 : len(text) // 2 + 60] = bytes(60)
    broken.write_bytes(text[:-5])
    return [plain, sound, broken]


def ended(program, words, refused=None):
    """How a run ends if one request for memory is refused: its status, what it wrote, its messages; and how many
    requests it made.
    """
    with tempfile.TemporaryFile() as given, tempfile.TemporaryFile() as output, tempfile.TemporaryFile() as errors:
        given.write(LINES)
        given.seek(0)
        found = traced(
            program, words, {0: given.fileno(), 1: output.fileno(), 2: errors.fileno()}, lambda at: at == refused
        )
        output.seek(0)
        errors.seek(0)
        return (found.status, output.read(), errors.read()), found.requests


def refusals(paths, most, dice):
    """What differs where one of the requests for memory is refused, for so many of them at random; and how many
    were.
    """
    kinds = [
        (VP8LIST, words)
        for words in (
            [],
            ["--json"],
            ["--hash"],
            ["--check"],
            ["--check", "--json"],
            ["--header", "1"],
            ["--macroblocks", "1"],
        )
    ]
    kinds.append((VP8SERVE, ["-", "-"]))
    runs = []
    for path in paths:
        for program, words in kinds:
            made, given = Program(str(pathlib.Path(program).resolve())), [path, *words]
            whole, requests = ended(made, given)
            runs += [(made, given, whole, at) for at in range(requests)]
    chosen, wrong = dice.sample(runs, min(most, len(runs))), []
    for made, given, whole, at in chosen:
        found, _ = ended(made, given, at)
        is_said = (
            found[0] in (1, 2)
            and found[2].endswith(NO_MEMORY)
            or found[0] == 0
            and b"refused NoMemory\n" in found[1]
            and found[2] == whole[2]
        )
        if found != whole and not (is_said and is_front(found[1], whole[1])):
            wrong.append(
                f"{made.path} {' '.join(map(str, given))}: request {at} refused: status {found[0]}, {found[2]!r:.100}"
            )
    return len(chosen), wrong


def is_front(text, whole):
    """Whether a text is the front of another one, or of its lines some were refused for memory."""
    return whole.startswith(text) or all(
        mine in (other, b"refused NoMemory") or mine.endswith(b" NoMemory")
        for mine, other in zip(text.splitlines(), whole.splitlines())
    )


def of_blocks(count):
    """A file with so many blocks in one cluster: a key packet of a picture of 16 by 16, and dropped frames."""
    packets, rest = [bytes.fromhex("1000009D012A10001000")], block(3, 0, b"")
    text = webm(packets, [0])
    return text + element(CLUSTER, element(TIME, number(1)), rest * (count - 1))


def of_gap(kind, size, dice):
    """A file with a gap of so many bytes between two clusters: zeros, random bytes, or bytes each of which could begin
    a block.
    """
    one = webm([bytes.fromhex("1000009D012A10001000")], [0])
    filling = {"zeros": lambda: bytes(size), "random": lambda: dice.randbytes(size), "names": lambda: b"\xa3" * size}[
        kind
    ]()
    return one + filling + element(CLUSTER, element(TIME, number(1)), block(3, 0, b""))


def seconds(path):
    """The least processor time of some runs of vp8list, how many packets it lists, and the position of the last one."""
    taken = []
    for _ in range(TURNS):
        before = resource.getrusage(resource.RUSAGE_CHILDREN)
        done = subprocess.run([VP8LIST, path], capture_output=True, timeout=LIMIT, check=True)
        after = resource.getrusage(resource.RUSAGE_CHILDREN)
        taken.append(after.ru_utime + after.ru_stime - before.ru_utime - before.ru_stime)
    lines = done.stdout.splitlines()
    return min(taken), len(lines) - 1, int(lines[-1].split(b"\t")[lines[0].split(b"\t").index(b"byte")])


def growths(folder, dice):
    """What grows more than the size of a file."""
    kinds = {"blocks": ((250_000, 500_000, 1_000_000), of_blocks)}
    for kind in ("zeros", "random", "names"):
        kinds[f"gap of {kind}"] = (
            (12_500_000, 25_000_000, 50_000_000),
            lambda size, kind=kind: of_gap(kind, size, dice),
        )
    wrong = []
    for name, (sizes, make) in kinds.items():
        times = []
        for size in sizes:
            path = folder / "large.webm"
            text = make(size)
            path.write_bytes(text)
            taken, packets, last = seconds(path)
            times.append(taken)
            # bytes that could begin blocks may be read as ones that reach over the cluster
            if (last != len(text) and name != "gap of names") or (name == "blocks" and packets != size):
                wrong.append(f"{size:,} {name}: {packets} packets, the last one at {last}, not {len(text)}")
        print(f"{name}: " + ", ".join(f"{size:,} in {taken:.2f} s" for size, taken in zip(sizes, times)), flush=True)
        for small, large in zip(times, times[1:]):
            if large > GROWTH * max(small, SECONDS):
                wrong.append(f"{name}: {small:.2f} s, and {large:.2f} s for twice the size")
    return wrong


def main():
    words = argparse.ArgumentParser(description=__doc__, formatter_class=argparse.RawDescriptionHelpFormatter)
    words.add_argument("--requests", type=int, default=2000)
    options = words.parse_args()
    with tempfile.TemporaryDirectory(dir="/dev/shm" if os.path.isdir("/dev/shm") else None) as name:
        folder = pathlib.Path(name)
        dice = random.Random(1)
        count, wrong = refusals(small_files(folder), options.requests, dice)
        wrong += growths(folder, dice)
    for line in wrong:
        print(line)
    results.total(
        "webm_limits: no difference" if not wrong else f"webm_limits: {len(wrong)} differences",
        len(wrong),
        {"refused requests": count, "large files": 12},
    )
    return 1 if wrong else 0


if __name__ == "__main__":
    sys.exit(main())
