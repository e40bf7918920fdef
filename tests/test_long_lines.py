#!/usr/bin/env python3
"""Tests lines of several MiB with ample memory, a stream that is too long, and the last line of requests that come one
after another.

A line of 4 MiB is answered, and so is HEX of 2 MiB: neither is lost or refused as NoMemory. A carriage return before
the end of the last line, which has no newline, is a part of that line, in a live run too.
It prints what differs and ends with 1, or prints nothing and ends with 0.
"""

import os
import pathlib
import subprocess
import sys
import tempfile

TOP = pathlib.Path(__file__).resolve().parent.parent
sys.dont_write_bytecode = True
sys.path.insert(0, str(TOP / "compare"))
from library.ivf import ivf, packets_of  # noqa: E402

KEY = bytes.fromhex("1000009D012A10001000")
MIB = 2**20
LIMIT = 120

wrong = []


def expect(name, got, wanted):
    if got != wanted:
        wrong.append(f"{name}: {got!r:.300}, not {wanted!r:.300}")


def ran(lines, *words):
    """The status and the texts of a run over a key packet."""
    done = subprocess.run(
        [os.environ["VP8SERVE"], "a.ivf", "-", "-", *words],
        input=lines,
        capture_output=True,
        timeout=LIMIT,
        check=False,
    )
    return done.returncode, done.stdout.decode(), done.stderr.decode()


def long_hex():
    """A packet of 2 MiB is inserted, another one replaced, and both are saved."""
    packet = KEY + bytes(number % 251 for number in range(2 * MIB - len(KEY)))
    other = KEY + bytes(number % 241 for number in range(2 * MIB - len(KEY)))
    lines = f"insert 1 7 {packet.hex()}\nreplace 0 {other.hex()}\nframe 1\nframe 0\ncount".encode()
    for more in ([], ["--live"]):
        wanted = (0, "ok 2\nok 2\nserved 1\nserved 0\npackets 2 frames 2\n", "")
        expect(f"HEX of 2 MiB {more}", ran(lines, "--save", "b.ivf", *more), wanted)
        expect(
            f"HEX of 2 MiB, saved {more}", list(packets_of(pathlib.Path("b.ivf").read_bytes())) == [other, packet], True
        )


def long_lines():
    """Lines of 4 MiB that change nothing: a comment, an empty line, words that are no request, and one with many
    spaces.
    """
    parts = {
        b"#" + b"x" * (4 * MIB): "",
        b" " * (4 * MIB): "",
        b"x" * (4 * MIB): "refused Line\n",
        b"count" + b" y" * (2 * MIB): "refused Line\n",
    }
    parts |= {b" " * (4 * MIB) + b"count": "packets 1 frames 1\n", b"count" + b" " * (4 * MIB): "packets 1 frames 1\n"}
    for end in (b"\n", b"\r\n"):
        lines = b"".join(part + end + b"count" + end for part in parts)
        replies = "".join(reply + "packets 1 frames 1\n" for reply in parts.values())
        for more in ([], ["--live"]):
            expect(f"lines of 4 MiB, {end} {more}", ran(lines, *more), (0, replies, ""))


def last_line():
    """What is said of a last line without its newline: a carriage return is its last byte, one before a newline is
    not.
    """
    for lines, replies, told in (
        (b"count\r\ncount\r", "packets 1 frames 1\nrefused Line\n", "line 2: count\\x0D: there is no such request\n"),
        (b"frame 0\r", "refused Line\n", "line 1: frame: 0\\x0D is not a number below 2^64\n"),
    ):
        both = [ran(lines, "--explain", *more) for more in ([], ["--live"])]
        expect(f"{lines}, live", both[1], both[0])
        expect(f"{lines}", both[0], (0, replies, told))
    packet = KEY.hex()
    for more in ([], ["--live"]):
        expect(
            f"HEX with a carriage return {more}",
            ran(f"insert 0 0 {packet}\r\ninsert 0 0 {packet}\r".encode(), *more)[:2],
            (0, "ok 2\nrefused Line\n"),
        )


def long_stream():
    """A stream of more than 1 GiB: what is said of it, and how it is cut. A list of requests is not cut so."""
    with open("long.ivf", "wb") as file:
        file.truncate(2**30 + 1)
    long = "vp8serve: long.ivf is too long\nlong.ivf has more than 1073741824 bytes"
    cut = (
        ": cut it at key packets, for example by ffmpeg -i long.ivf -c copy -f segment -segment_time 600 part%03d.ivf\n"
    )
    for words, told in (
        (["long.ivf"], long + cut),
        (["a.ivf", "--sources", "long.ivf"], long + cut),
        (["a.ivf", "long.ivf"], long + "\n"),
    ):
        done = subprocess.run(
            [os.environ["VP8SERVE"], *words, "--explain"], input=b"", capture_output=True, timeout=LIMIT, check=False
        )
        expect(f"{words}", (done.returncode, done.stdout, done.stderr.decode()), (1, b"", told))


def main():
    with tempfile.TemporaryDirectory() as folder:
        os.chdir(folder)
        pathlib.Path("a.ivf").write_bytes(ivf(16, 16, [KEY]))
        long_hex()
        long_lines()
        long_stream()
        last_line()
        os.chdir(TOP)
    print(*wrong, sep="\n", end="\n" if wrong else "")
    return 1 if wrong else 0


if __name__ == "__main__":
    sys.exit(main())
