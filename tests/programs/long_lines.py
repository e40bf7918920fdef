#!/usr/bin/env python3
"""Pipes long lines with --live into the built program: takes 2 to 4 GB of memory and about ten seconds.

A line of exactly the limit, 1,073,741,824 bytes, is answered; a line of one byte more ends the run, after the lines
before it were answered. With less memory than a line takes, the line is refused, the next one is answered, and what was
edited is saved; bytes that are dropped count toward the limit.
"""

import pathlib
import resource
import subprocess
import sys
import tempfile

sys.path.insert(1, str(pathlib.Path(__file__).resolve().parents[2] / "compare"))
import results  # noqa: E402
from library.ivf import ivf  # noqa: E402
from library.programs import VP8SERVE  # noqa: E402

LIMIT = 1 << 30
PIECE = 1 << 20
MEMORY = 300 << 20
EDITED = ivf(0, 0, [bytes.fromhex("110000")])


def pieces(begin, length):
    """A line of this many bytes that begins like this, in pieces."""
    yield begin
    for _ in range((length - len(begin)) // PIECE):
        yield b"x" * PIECE
    yield b"x" * ((length - len(begin)) % PIECE) + b"\n"


def limit_memory():
    resource.setrlimit(resource.RLIMIT_DATA, (MEMORY, MEMORY))


def run(begin, length, arguments=(), memory=None):
    """The status, replies and messages of a run over an insertion, `use 0`, a long line, `count` and `stats`."""
    child = subprocess.Popen(
        [VP8SERVE, "--live", *arguments],
        stdin=subprocess.PIPE,
        stdout=subprocess.PIPE,
        stderr=subprocess.PIPE,
        preexec_fn=limit_memory if memory else None,
    )
    try:
        child.stdin.write(b"insert 0 0 110000\nuse 0\n")
        for piece in pieces(begin, length):
            child.stdin.write(piece)
        child.stdin.write(b"count\nstats\n")
    except BrokenPipeError:
        pass
    replies, messages = child.communicate()
    return child.returncode, replies, messages


BEFORE, AFTER = b"ok 1\nok 1\n", b"packets 1 frames 1\ndecoded 0\n"
TOO_LONG = b"vp8serve: - is too long\n"
EXPLAINED = b"line 3 was not answered: it has more than 1073741824 bytes; lines 1 to 2 were, and nothing is saved\n"
LOST = b"line 3: insert: out of memory\n"
SMALL = 400 << 20
CASES = [
    ("the longest line", b"", LIMIT, (), None, (0, BEFORE + b"refused Line\n" + AFTER, b"")),
    ("a line of one byte more", b"", LIMIT + 1, (), None, (1, BEFORE, TOO_LONG)),
    ("the same, explained", b"", LIMIT + 1, ("--explain",), None, (1, BEFORE, TOO_LONG + EXPLAINED)),
    (
        "a line of 400 MB in 300 MB",
        b"insert 0 0 ",
        SMALL,
        ("--explain",),
        MEMORY,
        (0, BEFORE + b"refused NoMemory\n" + AFTER, LOST),
    ),
    ("a comment of 400 MB in 300 MB", b"  # ", SMALL, (), MEMORY, (0, BEFORE + AFTER, b"")),
    ("the longest line in 300 MB", b"", LIMIT, (), MEMORY, (0, BEFORE + b"refused NoMemory\n" + AFTER, b"")),
    ("a line of one byte more in 300 MB", b"", LIMIT + 1, (), MEMORY, (1, BEFORE, TOO_LONG)),
]


def saved_after_a_lost_line():
    """The packets that are saved after a line for which there was no memory."""
    with tempfile.TemporaryDirectory() as folder:
        path = pathlib.Path(folder) / "saved.ivf"
        run(b"delete ", SMALL, ("--save", str(path)), MEMORY)
        return path.read_bytes() if path.exists() else None


differences = 0
for name, begin, length, arguments, memory, want in CASES:
    got = run(begin, length, arguments, memory)
    if got != want:
        differences += 1
        print(f"{name}: {got}, not {want}")
saved = saved_after_a_lost_line()
if saved != EDITED:
    differences += 1
    print(f"saved after a lost line: {saved}")
results.total(f"{len(CASES) + 1} runs, {differences} differences", differences)
sys.exit(differences != 0)
