#!/usr/bin/env python3
"""Times questions about the packets of a long stream, in a session that runs: long_lists.py [PACKETS [TURNS]]

The stream has small packets of 16x16, a key packet every 100 or every 100,000 of them. Each question is for 256
packets, the first time in the middle and then again, for those after them, for those before, and in the middle after an
edit there. It prints milliseconds from the line to the last byte of the reply, the median of the turns, and the memory
of the session. The program is that of the variable VP8SERVE.
"""

import os
import pathlib
import statistics
import subprocess
import sys
import tempfile
import time

TOP = pathlib.Path(__file__).resolve().parent.parent
sys.dont_write_bytecode = True
sys.path.insert(0, str(TOP / "compare"))
from library.ivf import ivf  # noqa: E402

KEY, INTER = bytes.fromhex("1000009D012A10001000"), bytes.fromhex("110000")
PACKETS, TURNS, SOME = 1_048_576, 5, 256


class Session:
    def __init__(self, program, path):
        self.child = subprocess.Popen(
            [program, path, "-", "-", "--live"], stdin=subprocess.PIPE, stdout=subprocess.PIPE
        )

    def ask(self, line):
        """Milliseconds until the reply is read."""
        since = time.perf_counter()
        self.child.stdin.write(f"{line}\n".encode())
        self.child.stdin.flush()
        first = self.child.stdout.readline().split()
        assert first[0] in (b"lines", b"ok", b"packets"), first
        for _ in range(int(first[1]) if first[0] == b"lines" else 0):
            self.child.stdout.readline()
        return 1000 * (time.perf_counter() - since)

    def memory(self):
        """MB at most so far."""
        text = pathlib.Path(f"/proc/{self.child.pid}/status").read_text(encoding="ascii")
        return next(int(line.split()[1]) for line in text.splitlines() if line.startswith("VmHWM")) // 1024

    def end(self):
        self.child.stdin.close()
        assert self.child.wait() == 0


def turn(program, path, word, count):
    middle = count // 2 - 50
    session = Session(program, path)
    session.ask("count")
    before = session.memory()
    question = lambda at: session.ask(
        f"{word} {at} {SOME}" if word in ("list", "check") else f"{word} {at}"
    )  # noqa: E731
    took = [question(middle), question(middle), question(middle + SOME), question(middle)]
    session.ask(f"replace {middle + 10} {INTER.hex()}")
    took.append(question(middle))
    took.append(session.memory() - before)
    session.end()
    return took


def main(count=PACKETS, turns=TURNS):
    program = os.environ.get("VP8SERVE", str(TOP / "bin/vp8serve"))
    with tempfile.TemporaryDirectory() as room:
        path = pathlib.Path(room) / "in.ivf"
        for every in (100, 100_000):
            path.write_bytes(ivf(16, 16, [INTER if n % every else KEY for n in range(count)]))
            for word in ("list", "check", "header"):
                first, again, later, earlier, edited, memory = map(
                    statistics.median, zip(*(turn(program, str(path), word, count) for _ in range(turns)))
                )
                print(
                    (
                        f"{count} packets, a key packet every {every}: {word} in the middle {first:.2f} ms, again"
                        f" {again:.2f}, after it {later:.2f}, before it {earlier:.2f}, after an edit {edited:.2f};"
                        f" {memory:.0f} MB more"
                    ),
                    flush=True,
                )


if __name__ == "__main__":
    main(*map(int, sys.argv[1:]))
