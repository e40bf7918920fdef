#!/usr/bin/env python3
"""Runs the program with its reads and writes, and the calls of a save, failing, one after the other, or moving only 7
bytes each.

    tests/faults/failing_io.py

tests/README.md says more.
"""

import collections
import contextlib
import os
import pathlib
import signal
import sys
import tempfile
from dataclasses import dataclass

sys.path.insert(1, str(pathlib.Path(__file__).resolve().parents[2] / "compare"))
import results  # noqa: E402
from library.ivf import ivf  # noqa: E402
from library.programs import VP8SERVE  # noqa: E402
from library.traced import EINTR, EIO, Program, traced  # noqa: E402

KEY = bytes.fromhex("1000009D012A40003000")
INTER = bytes.fromhex("110000")
LIMIT = 2**30
CANNOT_WRITE = "vp8serve: cannot write\n"
OLD = b"what was there before the save"
FRESH = "vp8serve-unfinished-save-"
IN, REQUESTS, OUT, SAVED, TABLES = "in.ivf", "requests", "out.y4m", "saved.ivf", "tables.bin"
OUTPUTS = {"OUT": OUT, "--save": SAVED, "standard output": "replies", "standard error": "errors"}


@dataclass(frozen=True)
class Result:
    """All that a run shows; a file that was not made is None."""

    status: int
    replies: bytes
    errors: str
    frames: bytes | None
    saved: bytes | None
    calls: int = 0

    def shown(self):
        return self.status, self.replies, self.errors, self.frames, self.saved


def content(name):
    path = pathlib.Path(name)
    return path.read_bytes() if path.is_file() else None


def run(words, changes=None, standard_output=None, standard_error=None, inherited=None):
    """Runs the program in this folder; its input is the file `requests`."""
    pathlib.Path(OUT).unlink(missing_ok=True)
    pathlib.Path(SAVED).write_bytes(OLD)
    for path in pathlib.Path().glob(f"{FRESH}*"):
        path.unlink()
    with contextlib.ExitStack() as opened:
        replies = opened.enter_context(open("replies", "w+b"))
        errors = opened.enter_context(open("errors", "w+b"))
        requests = opened.enter_context(open(REQUESTS, "rb"))
        files = {
            0: requests.fileno(),
            1: standard_output or replies.fileno(),
            2: standard_error or errors.fileno(),
            **(inherited or {}),
        }
        ended = traced(PROGRAM_FILE, words, files, None, changes or (lambda call: None))
    return Result(
        ended.status, content("replies"), pathlib.Path("errors").read_text(), content(OUT), content(SAVED), ended.calls
    )


def is_beginning(part, whole):
    return part is None or whole.startswith(part)


def wanted_of(whole, call):
    """The status and the text of a run in which this call fails (None: a beginning of the whole text), and the outputs
    that are known.
    """
    name = os.path.basename(call.path)
    if call.kind == "read":
        shown = "-" if call.descriptor == 0 else name
        return 1, f"vp8serve: cannot read {shown}\n", {"replies": b"", "frames": None, "saved": OLD}
    if name == "errors":
        return 0, None, {"replies": whole.replies, "frames": whole.frames, "saved": whole.saved}
    if name.startswith(FRESH):
        return 1, CANNOT_WRITE, {"replies": whole.replies, "frames": whole.frames, "saved": OLD}
    return 1, CANNOT_WRITE, {"saved": OLD}


def difference(whole, got, call):
    """What is wrong with a run in which this call failed; None if nothing is."""
    status, errors, exact = wanted_of(whole, call)
    if got.status != status or not (whole.errors.startswith(got.errors) if errors is None else got.errors == errors):
        return f"status {got.status}, standard error {got.errors!r}"
    if list(pathlib.Path().glob(f"{FRESH}*")):
        return "the new file of the save remains"
    for name in ("replies", "frames", "saved"):
        part = getattr(got, name)
        if name in exact and part != exact[name]:
            return f"other {name}"
        if name != "saved" and not is_beginning(part, getattr(whole, name)):
            return f"{name} are not a beginning of the whole"
    return None


def fail_each(name, words, told):
    """Lets each read and write fail in turn, and be interrupted in turn: then a read fails too, and a write is made
    again.
    """
    whole, faults, number = run(words), 0, 1
    while number <= whole.calls:
        failed = []

        def fail(call):
            if call.number == number:
                failed.append(call)
                return EIO
            return None

        got = run(words, fail)
        told[f"{failed[0].kind}s that failed"] += 1
        why = difference(whole, got, failed[0])
        if why:
            faults += 1
            print(f"{name}: {failed[0]} fails: {why}")
        number += 1
        if failed[0].kind not in ("read", "write", "fsync"):
            continue
        interrupted = run(words, lambda call: EINTR if call.number == number - 1 else None)
        told[f"{failed[0].kind}s that were interrupted"] += 1
        if interrupted.shown() != (got if failed[0].kind == "read" else whole).shown():
            faults += 1
            print(f"{name}: {failed[0]} interrupted: status {interrupted.status}, {interrupted.errors!r}")
    return faults


def fail_writes(name, words, told):
    """Lets all writes fail, also that of the error's text: only the status reports it then."""
    got = run(words, lambda call: EIO if call.kind == "write" else None)
    told["runs whose writes all fail"] += 1
    if (got.status, got.replies, got.errors, got.frames or b"", got.saved) == (1, b"", "", b"", OLD):
        return 0
    print(f"{name}: all writes fail: status {got.status}, standard error {got.errors!r}")
    return 1


def shorten(name, words, told):
    """Lets each read and write move 7 bytes at most."""
    whole, got = run(words), run(words, lambda call: 7 if call.kind in ("read", "write") else None)
    told["runs whose reads and writes move 7 bytes"] += 1
    told["reads and writes of 7 bytes"] += got.calls
    if got.shown() == whole.shown():
        return 0
    print(f"{name}: reads and writes of 7 bytes: status {got.status}, {got.errors!r}")
    return 1


def words_with(output, path):
    """The arguments of a run in which one output goes to this path."""
    files = {"OUT": OUT, "--save": SAVED, output: path}
    return [IN, REQUESTS, files["OUT"], "--save", files["--save"], "--tables", TABLES]


def is_as_documented(output, whole, got):
    """Whether a run is as it should be if one output takes nothing."""
    if output == "standard error":
        return got.shown() == (0, whole.replies, "", whole.frames, whole.saved)
    if (got.status, got.errors) != (1, CANNOT_WRITE):
        return False
    if output == "--save":
        return (got.replies, got.frames, got.saved) == (whole.replies, whole.frames, OLD)
    return got.saved == OLD and is_beginning(got.replies, whole.replies) and is_beginning(got.frames, whole.frames)


def kill_each(name, words, told):
    """Kills the program before one call of 97, and before each of the last 40: the saved file is the old one or the
    whole new one, and a file that is left has a name that says what it is.
    """
    whole, faults = run(words), 0
    before = set(os.listdir())
    for number in range(1, whole.calls + 1):
        if number % 97 and number < whole.calls - 40:
            continue
        got = run(words, lambda call: os.kill(call.pid, signal.SIGKILL) if call.number == number else None)
        told["runs that were killed"] += 1
        left = {path for path in set(os.listdir()) - before if not path.startswith(FRESH)}
        if got.saved not in (OLD, whole.saved) or left:
            faults += 1
            print(f"{name}: killed before call {number}: {got.saved[:40]!r}, {left}")
    return faults


def full(whole, told):
    """Gives each output a device that is full."""
    faults = 0
    for output in OUTPUTS:
        with open("/dev/full", "wb") as device:
            descriptor = device.fileno()
            got = run(
                words_with(output, "/dev/full"),
                standard_output=descriptor if output == "standard output" else None,
                standard_error=descriptor if output == "standard error" else None,
            )
        told["outputs on a full device"] += 1
        if not is_as_documented(output, whole, got):
            faults += 1
            print(f"{output} on /dev/full: status {got.status}, standard error {got.errors!r}")
    return faults


def closed(whole, told):
    """Gives each output a pipe that is closed at its first write."""
    faults = 0
    for output in OUTPUTS:
        reader, writer = os.pipe()
        left = [reader]

        def close(call):
            if call.kind == "write" and "pipe:" in call.path and left:
                os.close(left.pop())

        got = run(
            words_with(output, "/dev/fd/9"),
            close,
            standard_output=writer if output == "standard output" else None,
            standard_error=writer if output == "standard error" else None,
            inherited={9: writer} if output in ("OUT", "--save") else None,
        )
        os.close(writer)
        told["outputs on a closed pipe"] += 1
        if left or not is_as_documented(output, whole, got):
            faults += 1
            print(
                f"{output} on a closed pipe: status {got.status}, standard error {got.errors!r}, pipe"
                f" {'unused' if left else 'closed'}"
            )
    return faults


def too_long(told):
    """Gives the program inputs of one byte too many."""
    faults = 0
    with open("long", "wb") as file:
        file.truncate(LIMIT + 1)
    for words in (["long"], [IN, "long"], [IN, "--tables", "long"]):
        got = run([*words, "--save", SAVED])
        told["inputs of 1,073,741,825 bytes"] += 1
        if got.shown() != (1, b"", "vp8serve: long is too long\n", None, OLD):
            faults += 1
            print(f"{words}: status {got.status}, standard error {got.errors!r}")
    os.unlink("long")
    return faults


def make_inputs():
    """A stream of 40 packets and 3 trailing bytes, tables, and 1,200 requests: outputs longer than the program's
    buffers.
    """
    pathlib.Path(IN).write_bytes(ivf(64, 48, [KEY, *[INTER] * 39]) + b"end")
    pathlib.Path(TABLES).write_bytes(bytes(1 + n % 255 for n in range(3012)))
    lines = [f"frame {n}" for n in range(40)] + ["count", "hold 40"] * 500 + [f"insert 1 0 {'00' * 200}"] * 160
    pathlib.Path(REQUESTS).write_text("".join(f"{line}\n" for line in lines))


def main():
    told, faults = collections.Counter(), 0
    with tempfile.TemporaryDirectory() as room:
        os.chdir(room)
        make_inputs()
        whole = run(words_with("OUT", OUT))
        runs = {
            "files": words_with("OUT", OUT),
            "standard input": [IN, "-", OUT, "--save", SAVED],
            "no frames": ["-", REQUESTS],
            "help": ["--help"],
        }
        for name, words in runs.items():
            faults += fail_each(name, words, told) + fail_writes(name, words, told) + shorten(name, words, told)
        for name in ("files", "standard input"):
            faults += kill_each(name, runs[name], told) + kill_each(f"{name}, live", [*runs[name], "--live"], told)
        faults += full(whole, told) + closed(whole, told) + too_long(told)
        os.chdir("/")
    for kind, number in sorted(told.items()):
        print(f"{number:9} {kind}")
    results.total(f"{faults} differences", faults, told)
    return 1 if faults else 0


if __name__ == "__main__":
    PROGRAM_FILE = Program(str(VP8SERVE))
    sys.exit(main())
