#!/usr/bin/env python3
"""Runs the program with each of its requests for memory refused, and compares its answers with those of ample memory.

    tests/faults/refused_memory.py [LISTS] [SEED]
    tests/faults/refused_memory.py --long [LISTS]

With --long: lists of 60 edits of 1,000 to 5,000 packets, with each request refused that comes after the stream is read.
tests/README.md says more.
"""

import collections
import os
import pathlib
import random
import sys
import tempfile
from dataclasses import dataclass, field

sys.path.insert(1, str(pathlib.Path(__file__).resolve().parents[2] / "compare"))
from edits import PACKETS, long_line  # noqa: E402
from growths import GROWTHS, all_faults  # noqa: E402
import results  # noqa: E402
from library.clips import settings  # noqa: E402
from library.ivf import ivf, packets_of  # noqa: E402
from library.programs import run  # noqa: E402
from library.traced import Program, program_of, traced  # noqa: E402

WIDTH, HEIGHT, FRAMES, CLIPS = 48, 32, 10, 4
KEY = bytes.fromhex("1000009D012A10001000")
INTER = bytes.fromhex("110000")
EDITS = ("use", "insert", "replace", "delete", "move", "copy", "blank", "hold", "hide", "show", "script")
NO_MEMORY = {
    "vp8serve: no memory\n",
    "vp8serve: input NoMemory\n",
    "vp8serve: source 1 NoMemory\n",
    "vp8serve: source 2 NoMemory\n",
}


@dataclass
class RequestList:
    """A list of requests over a stream, the options that it is run with, and the stream of `other.ivf`."""

    name: str
    stream: bytes
    lines: list
    options: list = field(default_factory=list)
    other: bytes = b""

    def counted(self):
        """The lines with a `count` at the start and after each edit."""
        lines = ["count"]
        for line in self.lines:
            lines += [line, "count"] if is_edit(line) else [line]
        return lines


@dataclass(frozen=True)
class Result:
    """All that a run shows."""

    status: int
    replies: bytes
    errors: str
    frames: bytes | None
    saved: bytes | None
    requests: int = 0

    def shown(self):
        """The same for comparisons: without the numbers of `stats`."""
        replies = tuple("decoded" if reply.startswith("decoded ") else reply for reply in self.lines())
        return self.status, replies, self.errors, self.frames, self.saved

    def lines(self):
        return self.replies.decode().splitlines()


def is_edit(line):
    words = line.split()
    return words[0] in EDITS and words != ["script"]


def clip_packets(room, choose):
    """The packets of a small clip of vpxenc with random settings."""
    source = choose.choice(["mandelbrot", "testsrc2", "testsrc2,noise=alls=60:allf=t"])
    shape = ["-vf", f"scale={WIDTH}:{HEIGHT}", "-frames:v", str(FRAMES), "-pix_fmt", "yuv420p"]
    run(["ffmpeg", "-y", "-v", "error", "-f", "lavfi", "-i", source, *shape, room / "clip.y4m"])
    run(["vpxenc", *settings(choose), "-o", room / "coded.ivf", room / "clip.y4m"])
    return list(packets_of((room / "coded.ivf").read_bytes()))


def hex_of(packet):
    return packet.hex() or "-"


def frames(*numbers):
    return [f"frame {n}" for n in numbers]


def worked_lists(clip, other):
    """Lists for each kind of request, over real packets and over small ones."""
    real, small = ivf(WIDTH, HEIGHT, clip), ivf(16, 16, [KEY, INTER, INTER, INTER])
    bad = ivf(16, 16, [KEY, bytes([0x11, 0]), INTER, KEY, INTER])
    many = []
    for n in range(40):
        many += [f"insert {n + 1} {n} {hex_of(INTER)}"] + (frames(n // 2) if n % 3 == 1 else [])
    yield RequestList("no requests", small, [])
    yield RequestList(
        "fades",
        real,
        [
            "script trim 0 0 6; fade 1 1 3 256 0; trim 0 2 4; fade 3 0 3 0 256; splice 2 4",
            *frames(0, 2, 3, 7, 8, 10),
            "stats",
        ],
        ["--cache", "4"],
    )
    yield RequestList(
        "scripts",
        real,
        [
            "script crop 0 2 4 16 12",
            *frames(0, 3),
            "script trim 0 4 2; splice 1 0",
            *frames(0, 1, 2),
            "script splice 0",
            "script crop 0 0 0 48 99",
            "frame 1",
            "script -",
            "frame 1",
        ],
    )
    yield RequestList(
        "replaced packets",
        real,
        [
            "frame 4",
            f"replace 2 {hex_of(other[2])}",
            "frame 4",
            f"replace 0 {hex_of(other[0])}",
            *frames(0, 5),
            f"replace 9 {hex_of(clip[9])}",
            "frame 5",
            "replace 99 -",
        ],
    )
    yield RequestList(
        "inserted packets",
        real,
        [
            "frame 3",
            f"insert 0 7 {hex_of(other[0])}",
            *frames(0, 4),
            f"insert 3 18446744073709551615 {hex_of(clip[3])}",
            "frame 5",
            "insert 99 0 -",
        ],
        ["--cache", "3"],
    )
    yield RequestList(
        "moved and deleted packets",
        real,
        [
            "frame 3",
            "move 1 4",
            *frames(3, 4),
            "delete 2",
            *frames(2, 4),
            "move 4 0",
            "frame 1",
            "delete 0",
            "frame 2",
            "delete 99",
        ],
        ["--cache", "2"],
    )
    yield RequestList(
        "forged packets",
        real,
        [
            "frame 2",
            f"blank 2 {WIDTH} {HEIGHT}",
            "hold 3",
            *frames(2, 3, 5),
            "blank 0 1 1",
            "frame 0",
            "hold 1",
            "frame 1",
            "hold 99",
        ],
    )
    yield RequestList(
        "forged packets alone",
        ivf(1, 1, []),
        ["hold 0", "blank 0 33 17", "hold 1", "hold 2", *frames(0, 1, 2, 0), "blank 0 0 9", "stats"],
        ["--cache", "1"],
    )
    yield RequestList(
        "dropped frames",
        small,
        ["insert 2 0 -", "insert 2 0 -", *frames(5, 1, 2), "replace 1 -", "frame 3", "delete 0", "frame 0"],
    )
    spliced = [
        "frame 1",
        "use 1",
        "copy 0 2 1",
        "copy 1 0 0",
        "script source 1; splice 0 1",
        *frames(1, 12, 13),
        "delete 1",
        "use 2",
        "copy 1 0 0",
        "use 0",
        "copy 1 3 4",
        *frames(4, 13),
        "use 9",
        "copy 9 0 0",
        "stats",
    ]
    yield RequestList("sources", real, spliced, ["--sources", "other.ivf:-", "--cache", "3"], ivf(WIDTH, HEIGHT, other))
    yield RequestList("40 insertions and 14 frames", ivf(16, 16, [KEY]), many)
    yield RequestList(
        "hidden packets",
        real,
        [
            "frame 2",
            "hide 2",
            *frames(1, 2),
            "packet 2",
            "show 2",
            "script trim 0 1 2",
            "script",
            "hide 99",
            *frames(0, 1),
            "hide 0",
            "stats",
        ],
    )
    yield RequestList(
        "broken packets",
        bad,
        [*frames(0, 1, 2, 3, 4), "hold 1", "delete 2", *frames(1, 2, 4), "play", "frame", "stats"],
    )
    yield RequestList("a file that is cut off", real[:-3], [*frames(0, 8), "stats"])
    yield RequestList("tables", real, [*frames(0, 4), "hold 2", "frame 4"], ["--tables", "tables.bin"])


def random_line(choose, count, clip, other):
    """A random line, mostly one that is not refused, and the number of packets after it."""
    at = choose.randrange(count + 1)
    kind = choose.choice(
        ["frame"] * 8 + ["insert", "replace", "delete", "move", "blank", "hold", "hide", "show", "script", "stats"]
    )
    packet = hex_of(choose.choice(clip + other + [b"", KEY, INTER]))
    if kind == "insert":
        return f"insert {at} {choose.randrange(99)} {packet}", count + 1
    if kind == "replace":
        return f"replace {at} {packet}", count
    if kind == "delete":
        return f"delete {at}", count - (at < count)
    if kind == "move":
        return f"move {at} {choose.randrange(count + 1)}", count
    if kind == "blank":
        return f"blank {at} {choose.choice([WIDTH, 16])} {choose.choice([HEIGHT, 16])}", count + 1
    if kind == "hold":
        return f"hold {at}", count + 1
    if kind in ("hide", "show"):
        return f"{kind} {at}", count
    if kind == "script":
        first, number, level = choose.randrange(4), choose.randrange(1, 9), choose.randrange(257)
        return (
            choose.choice(
                [
                    "script -",
                    f"script fade 0 {first} {number} {level} 256",
                    f"script trim 0 {first} {number}; splice 1 0",
                    "script crop 0 2 2 12 10",
                ]
            ),
            count,
        )
    return (f"frame {at}" if kind == "frame" else kind), count


def random_list(choose, number, clips):
    clip, other = choose.choice(clips), choose.choice(clips)
    packets = clip[: choose.randrange(1, len(clip) + 1)]
    lines, count = [], len(packets)
    for _ in range(choose.randrange(8, 17)):
        line, count = random_line(choose, count, clip, other)
        lines.append(line)
    return RequestList(
        f"random list {number}", ivf(WIDTH, HEIGHT, packets), lines, ["--cache", str(choose.randrange(1, 9))]
    )


def long_list(number):
    """Edits of a long stream, and a few frames."""
    random.seed(f"refused {number}")
    packets = [random.choice(PACKETS) for _ in range(random.randrange(1000, 5001))]
    lines = [long_line(len(packets)) for _ in range(60)]
    return RequestList(
        f"long list {number}", ivf(16, 16, packets), lines + frames(*(random.randrange(1000) for _ in range(3)))
    )


class Bench:
    """A folder in which the program is run."""

    def __init__(self, room, program):
        self.room, self.program = room, program
        self.ample = {}
        (room / "tables.bin").write_bytes(bytes(1 + n % 255 for n in range(3012)))

    def run(self, words, refuses, program=None, changes=None):
        for name in ("out.y4m", "saved.ivf"):
            (self.room / name).unlink(missing_ok=True)
        with (
            open(self.room / "replies", "w+b") as replies,
            open(self.room / "errors", "w+b") as errors,
            open(os.devnull, "rb") as nothing,
        ):
            files = {0: nothing.fileno(), 1: replies.fileno(), 2: errors.fileno()}
            ended = traced(program or self.program, words, files, refuses, changes)
        left = [
            path.read_bytes() if path.exists() else None for path in (self.room / "out.y4m", self.room / "saved.ivf")
        ]
        return Result(
            ended.status,
            (self.room / "replies").read_bytes(),
            (self.room / "errors").read_text(),
            *left,
            ended.requests,
        )

    def run_list(self, requests, lines, refuses):
        (self.room / "in.ivf").write_bytes(requests.stream)
        (self.room / "other.ivf").write_bytes(requests.other)
        (self.room / "requests").write_text("".join(f"{line}\n" for line in lines))
        words = ["in.ivf", "requests", "out.y4m", "--save", "saved.ivf", *requests.options]
        return self.run(words, refuses)

    def run_with_ample_memory(self, requests, lines):
        key = requests.name, tuple(lines)
        if key not in self.ample:
            self.ample[key] = self.run_list(requests, lines, lambda n: False)
        return self.ample[key]


def is_untouched(counts, lines, replies):
    """Whether each edit that was refused left the numbers of packets and frames as they were; a `count` is after each
    edit.
    """
    last = None
    for line, reply in zip(lines, replies):
        if line == "count":
            if last is not None and counts[-1].startswith("refused") and reply != last:
                return False
            last = reply
        elif is_edit(line):
            counts.append(reply)
    return True


def difference(bench, requests, lines, got):
    """What differs from a run with ample memory over the lines that were not refused for memory; None if nothing
    does.
    """
    if got.status not in (0, 1):
        return f"status {got.status}"
    replies = got.lines()
    if got.status == 1:
        if got.errors not in NO_MEMORY:
            return f"standard error {got.errors!r}"
        if not replies:
            return None if not got.frames and got.saved is None else "something was written"
        if got.errors != "vp8serve: no memory\n" or got.saved:
            return "a run that was answered and not saved says otherwise"
    if len(replies) != len(lines):
        return f"{len(replies)} replies to {len(lines)} lines"
    kept = [(line, reply) for line, reply in zip(lines, replies) if reply != "refused NoMemory"]
    ample = bench.run_with_ample_memory(requests, [line for line, _ in kept])
    wanted = ample.shown()
    if got.status == 1:
        wanted = (1, wanted[1], got.errors, wanted[3], got.saved)
    steps = [int(reply.split()[1]) for reply in replies if reply.startswith("decoded ")]
    shown = got.shown()
    shown = shown[0], tuple(reply for reply in shown[1] if reply != "refused NoMemory"), *shown[2:]
    names = "status", "replies", "standard error", "frames", "saved file"
    unlike = [name for name, one, other in zip(names, shown, wanted) if one != other]
    if unlike:
        return f"other {', '.join(unlike)}"
    if steps != sorted(steps):
        return "the number of steps fell"
    return None if is_untouched([""], lines, replies) else "a refused line changed the numbers of count"


def refusals_of(first):
    """The ways to refuse: the request of this number alone, and all from it on."""
    return {"alone": lambda n: n == first, "and all after it": lambda n: n >= first}


def try_list(bench, requests, told, first=1):
    """Runs a list with each request for memory refused, starting at number `first`, and returns the number of
    differences.
    """
    lines, faults = requests.counted(), 0
    made = bench.run_with_ample_memory(requests, lines).requests
    told["requests for memory of one run each"] += made
    while True:
        for name, refuses in refusals_of(first).items():
            got = bench.run_list(requests, lines, refuses)
            if got.requests < first:
                return faults
            told["runs"] += 1
            told[f"status {got.status}"] += 1
            told["lines refused for memory"] += got.lines().count("refused NoMemory")
            told["runs not saved for memory"] += got.status == 1 and got.replies != b""
            why = difference(bench, requests, lines, got)
            if why:
                faults += 1
                print(f"{requests.name}: request {first} {name}: {why}", flush=True)
        first += 1


def try_help(bench, told):
    """The same for `--help`: the whole text, or no memory and nothing written."""
    whole, faults, first = bench.run(["--help"], lambda n: False), 0, 1
    while True:
        for name, refuses in refusals_of(first).items():
            got = bench.run(["--help"], refuses)
            if got.requests < first:
                return faults
            told["runs"] += 1
            told[f"status {got.status}"] += 1
            if got.shown() != whole.shown() and (got.status, got.replies, got.errors) != (
                1,
                b"",
                "vp8serve: no memory\n",
            ):
                faults += 1
                print(
                    f"--help: request {first} {name}: status {got.status}, {len(got.replies)} bytes, standard error"
                    f" {got.errors!r}"
                )
        first += 1


def try_growths(told):
    """Refuses each request of gate_memory, and counts those of its frames (growths.py)."""
    found, made, requests = all_faults(Program(str(GROWTHS / "out/gate_memory")))
    told["runs of gate_memory"] += requests
    names = "frame 3", "frame 3 again", "three steps from its state", "frame 3 after that"
    print("requests for memory of gate_memory: " + ", ".join(f"{name} {made[name]}" for name in names))
    for fault in found:
        print(f"gate_memory: {fault}")
    return len(found)


def try_long_lists(count):
    """Runs long lists with each request refused that comes after the stream is read."""
    told, faults = collections.Counter(), 0
    with tempfile.TemporaryDirectory() as name:
        room = pathlib.Path(name)
        os.chdir(room)
        bench = Bench(room, program_of("vp8serve"))
        for requests in map(long_list, range(count)):
            before, read = told["runs"], bench.run_list(requests, [], lambda n: False).requests
            faults += try_list(bench, requests, told, read)
            bench.ample.clear()
            print(f"{requests.name}: {told['runs'] - before} runs", flush=True)
    for kind, number in sorted(told.items()):
        print(f"{number:9} {kind}")
    results.total(f"{count} long lists: {faults} differences", faults, told)
    return 1 if faults else 0


def main():
    if sys.argv[1:2] == ["--long"]:
        return try_long_lists(int(sys.argv[2]) if len(sys.argv) > 2 else 20)
    count = int(sys.argv[1]) if len(sys.argv) > 1 else 20
    choose = random.Random(int(sys.argv[2]) if len(sys.argv) > 2 else 1)
    told, faults = collections.Counter(), 0
    with tempfile.TemporaryDirectory() as name:
        room = pathlib.Path(name)
        os.chdir(room)
        clips = [clip_packets(room, choose) for _ in range(CLIPS)]
        bench = Bench(room, program_of("vp8serve"))
        lists = [*worked_lists(clips[0], clips[1]), *(random_list(choose, n, clips) for n in range(count))]
        for requests in lists:
            before = told["runs"]
            faults += try_list(bench, requests, told)
            print(f"{requests.name}: {told['runs'] - before} runs", flush=True)
        faults += try_help(bench, told) + try_growths(told)
    for kind, number in sorted(told.items()):
        print(f"{number:9} {kind}")
    results.total(f"{len(lists)} lists, --help and gate_memory: {faults} differences", faults, told)
    return 1 if faults else 0


if __name__ == "__main__":
    sys.exit(main())
