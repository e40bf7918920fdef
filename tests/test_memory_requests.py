#!/usr/bin/env python3
"""Tests how much memory vp8serve asks for where the bytes of packets are shared, by counting its requests to the C
library.

Reading a stream asks for no memory a packet, `copy` of a packet of 1 MB asks for none beside its place in the list, as
often as one of 10 bytes does, and a run with many copies needs no more memory than one without.
It prints what differs and ends with 1, or prints nothing but what it skipped, and ends with 0. It needs Linux on
x86-64.
"""

import os
import pathlib
import resource
import subprocess
import sys
import tempfile

TOP = pathlib.Path(__file__).resolve().parent.parent
sys.dont_write_bytecode = True
sys.path.insert(0, str(TOP / "compare"))
from library.ivf import ivf  # noqa: E402
from library.traced import Program, is_traceable, traced  # noqa: E402

SERVE = pathlib.Path(os.environ["VP8SERVE"]).resolve()
KEY, INTER = bytes.fromhex("1000009D012A10001000"), bytes.fromhex("110000")
BIG = KEY + bytes(10**6)
COPIES = 500
MIB = 2**20
LIMIT = 60

wrong = []


def expect(name, got, wanted):
    if got != wanted:
        wrong.append(f"{name}: {got!r:.300}, not {wanted!r:.300}")


def requests_of(packets, lines, sources=()):
    """The number of requests for memory of a run whose replies are all `ok`."""
    pathlib.Path("a.ivf").write_bytes(ivf(16, 16, packets))
    pathlib.Path("lines").write_text("".join(f"{line}\n" for line in lines), encoding="ascii")
    with open(os.devnull, "rb") as nothing, tempfile.TemporaryFile() as replies, tempfile.TemporaryFile() as errors:
        files = {0: nothing.fileno(), 1: replies.fileno(), 2: errors.fileno()}
        ended = traced(Program(str(SERVE)), ["a.ivf", "lines", "-", *sources], files, lambda number: False)
        replies.seek(0)
        text = replies.read().decode().splitlines()
    expect("a run", (ended.status, len(text), {line.split()[0] for line in text} <= {"ok"}), (0, len(lines), True))
    return ended.requests


def reading():
    """A thousand packets take as many requests as one, but for the list that they are in."""
    few, many = (requests_of([KEY] + [INTER] * count, []) for count in (1, 1000))
    if many - few > 40:
        wrong.append(f"1000 packets take {many} requests for memory, 2 packets {few}")


def copying():
    """Copies within a source and from another one."""
    pathlib.Path("b.ivf").write_bytes(ivf(16, 16, [BIG]))
    for name, line, sources in (
        ("copy", "copy 0 0 1", []),
        ("copy of another source", "copy 1 0 1", ["--sources", "b.ivf"]),
    ):
        for count in (1, COPIES):
            pathlib.Path("b.ivf").write_bytes(ivf(16, 16, [BIG]))
            big = requests_of([BIG], [line] * count, sources) - requests_of([BIG], [], sources)
            pathlib.Path("b.ivf").write_bytes(ivf(16, 16, [KEY]))
            small = requests_of([KEY], [line] * count, sources) - requests_of([KEY], [], sources)
            # The list of requests is longer by as many lines: reading it may take more requests, of the same number in
            # both.
            expect(f"{name}, {count} times: more requests for 1 MB", big - small, 0)
            if big > 40:
                wrong.append(f"{name}, {count} times: {big} requests for memory")


def limited():
    """500 copies of a packet of 1 MB in 96 MiB."""
    pathlib.Path("a.ivf").write_bytes(ivf(16, 16, [BIG]))
    lines = "copy 0 0 1\n" * COPIES + f"frame {COPIES}\n"
    replies = "".join(f"ok {count + 2}\n" for count in range(COPIES)) + f"served {COPIES}\n"

    def limit():
        resource.setrlimit(resource.RLIMIT_AS, (96 * MIB, 96 * MIB))

    for more in ([], ["--live"]):
        done = subprocess.run(
            [str(SERVE), "a.ivf", *more],
            input=lines.encode(),
            capture_output=True,
            timeout=LIMIT,
            check=False,
            preexec_fn=limit,
        )
        expect(f"copies in 96 MiB {more}", (done.returncode, done.stdout.decode(), done.stderr), (0, replies, b""))


def main():
    with tempfile.TemporaryDirectory() as folder:
        os.chdir(folder)
        if not is_traceable(SERVE):
            print("skipped: requests for memory are counted on x86-64 only")
        elif Program(str(SERVE)).slots:
            reading()
            copying()
        else:
            print("skipped: requests for memory are not counted: the program calls the C library's functions directly")
        limited()
        os.chdir(TOP)
    print(*wrong, sep="\n", end="\n" if wrong else "")
    return 1 if wrong else 0


if __name__ == "__main__":
    sys.exit(main())
