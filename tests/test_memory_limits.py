#!/usr/bin/env python3
"""Runs both programs under limits on their memory, from one that is too low to start up to one that is ample: from the
first limit on at which a run begins, no run is ended by a signal, so a stack that has to grow is never what lacks
memory.

    tests/test_memory_limits.py

It prints what is wrong and ends with 1, or prints nothing and ends with 0."""

import os
import pathlib
import resource
import subprocess
import sys

TOP = pathlib.Path(__file__).resolve().parent.parent
SERVE, LIST = (pathlib.Path(os.environ[name]).resolve() for name in ("VP8SERVE", "VP8LIST"))
STREAM = TOP / "examples/mandelbrot.ivf"
LINES = b"frame 30\nmacroblocks 3\ncheck 0 20\nlist 0 20\n"
# In bytes: the stack of the main thread grows by pages, and a run by more.
FIRST, LAST, STEP = 1 << 20, 24 << 20, 48 << 10
SECONDS = 60


def status(words, limit):
    """How a run under a limit ends, and whether it wrote anything."""

    def take_limit():
        resource.setrlimit(resource.RLIMIT_AS, (limit, limit))

    done = subprocess.run(words, input=LINES, capture_output=True, preexec_fn=take_limit, timeout=SECONDS, check=False)
    return done.returncode, bool(done.stdout or done.stderr)


def wrong(words):
    """Runs that were ended by a signal although one with less memory was not, or after they wrote something."""
    has_begun, served = False, False
    for limit in range(FIRST, LAST, STEP):
        found, wrote = status(words, limit)
        if found < 0 and (has_begun or wrote):
            yield f"{words[0].name} {' '.join(map(str, words[1:]))} with {limit} bytes: signal {-found}"
        # 127 is the C library's own, before the program begins.
        has_begun = has_begun or found in (0, 1, 2)
        served = served or found == 0
    if not served:
        yield f"{words[0].name} {' '.join(map(str, words[1:]))}: no run ended well"


def main():
    found = [
        *wrong([SERVE, STREAM, "-", "/dev/null"]),
        *wrong([LIST, STREAM, "--check"]),
        *wrong([LIST, STREAM, "--macroblocks", "3"]),
    ]
    for text in found:
        print(text)
    return 1 if found else 0


if __name__ == "__main__":
    sys.exit(main())
