#!/usr/bin/env python3
"""Runs vp8list with each of its requests for memory refused, and compares what it writes with a run that has ample
memory.

    tests/faults/refused_lists.py [SEED]

tests/README.md says more.
"""

import collections
import os
import pathlib
import random
import sys
import tempfile

sys.path.insert(1, str(pathlib.Path(__file__).resolve().parents[2] / "compare"))
import results  # noqa: E402
from library.ivf import ivf  # noqa: E402
from library.traced import program_of, traced  # noqa: E402
from library.webm import webm  # noqa: E402
from refused_memory import HEIGHT, INTER, KEY, WIDTH, clip_packets, refusals_of  # noqa: E402

OPTIONS = (
    [],
    ["--json"],
    ["--hash"],
    ["--check"],
    ["--check", "--json"],
    ["--check", "--strict"],
    ["--check", "--tables", "tables.bin"],
    ["--hash", "--tables", "tables.bin"],
    ["--macroblocks", "all"],
    ["--header", "all", "--json"],
)
NO_MEMORY = {"vp8list: no memory\n", "vp8list: input NoMemory\n"}


def streams_of(clip):
    """Streams by name: whole, damaged in each way that `--check` reports, and without packets."""
    cut = [packet[: len(packet) // 3] if place in (3, 6) else packet for place, packet in enumerate(clip)]
    resized = [KEY, INTER, *clip, KEY]
    yield "a clip", ivf(WIDTH, HEIGHT, clip)
    yield "cut packets", ivf(WIDTH, HEIGHT, cut)
    yield "a lost packet and dropped frames", ivf(WIDTH, HEIGHT, [*clip[:2], *clip[3:5], b"", *clip[5:], b"\x10\x00"])
    yield "no key packet first, and other sizes", ivf(WIDTH, HEIGHT, [INTER, *resized, bytes([0x11, 0]), INTER])
    yield "a file that is cut off", ivf(WIDTH, HEIGHT, clip)[:-3]
    yield "no packets", ivf(WIDTH, HEIGHT, [])
    yield "a WebM file that is cut off", webm(clip, [40 * place for place in range(len(clip))])[:-3]


class Bench:
    """A folder in which the program is run."""

    def __init__(self, room):
        self.room, self.program = room, program_of("vp8list")
        (room / "tables.bin").write_bytes(bytes(1 + n % 255 for n in range(3012)))

    def run(self, words, refuses):
        """The status, standard output, standard error and number of requests of a run."""
        with (
            open(self.room / "list", "w+b") as output,
            open(self.room / "errors", "w+b") as errors,
            open(os.devnull, "rb") as nothing,
        ):
            ended = traced(self.program, words, {0: nothing.fileno(), 1: output.fileno(), 2: errors.fileno()}, refuses)
        return ended.status, (self.room / "list").read_bytes(), (self.room / "errors").read_text(), ended.requests


def difference(ample, got):
    """What is wrong with a run; None if it is the one with ample memory, or one that ended early with whole lines of
    its text.
    """
    if got[:3] == ample[:3]:
        return None
    status, text, errors, _ = got
    if status != 2 or errors not in NO_MEMORY:
        return f"status {status}, standard error {errors!r}"
    if not ample[1].startswith(text) or text[-1:] not in (b"", b"\n"):
        return f"{len(text)} bytes that are not the beginning of the text"
    return None


def try_words(bench, words, told):
    """Runs a command line with each request refused, and returns what was wrong."""
    ample, first, faults = bench.run(words, lambda n: False), 0, []
    if ample[0] == 2:
        return [f"status 2 with ample memory, standard error {ample[2]!r}"]
    told["requests for memory of one run each"] += ample[3]
    while True:
        first += 1
        for name, refuses in refusals_of(first).items():
            got = bench.run(words, refuses)
            if got[3] < first:
                return faults
            told["runs"] += 1
            told[f"status {got[0]}"] += 1
            told["runs that ended early after some lines"] += got[0] == 2 and got[1] != b""
            why = difference(ample, got)
            if why:
                faults.append(f"request {first} {name}: {why}")


def main():
    choose = random.Random(int(sys.argv[1]) if len(sys.argv) > 1 else 1)
    told, faults = collections.Counter(), 0
    with tempfile.TemporaryDirectory() as name:
        room = pathlib.Path(name)
        os.chdir(room)
        bench = Bench(room)
        lines = [("--help", ["--help"])]
        for number, (kind, stream) in enumerate(streams_of(clip_packets(room, choose))):
            (room / f"{number}.ivf").write_bytes(stream)
            lines += [(f"{kind} {' '.join(options)}", [f"{number}.ivf", *options]) for options in OPTIONS]
        for kind, words in lines:
            before = told["runs"]
            for why in try_words(bench, words, told):
                faults += 1
                print(f"{kind}: {why}", flush=True)
            print(f"{kind}: {told['runs'] - before} runs", flush=True)
    for kind, number in sorted(told.items()):
        print(f"{number:9} {kind}")
    results.total(f"{len(lines)} command lines: {faults} differences", faults, told)
    return 1 if faults else 0


if __name__ == "__main__":
    sys.exit(main())
