#!/usr/bin/env python3
"""Looks at the line of progress of `vp8list --check` and `--hash`, on a terminal of its own and without one.

    tests/programs/progress.py
"""

import os
import pathlib
import pty
import re
import subprocess
import sys
import tempfile
import threading

sys.path.insert(1, str(pathlib.Path(__file__).resolve().parents[2] / "compare"))
import results  # noqa: E402
from library.ivf import ivf  # noqa: E402
from library.programs import VP8LIST  # noqa: E402

COUNT = 1500
KEY, INTER = bytes.fromhex("1000009D012A80073804"), bytes.fromhex("110000")
LINE = re.compile(r"\rvp8list: (\d+) of (\d+) packets\x1b\[K")
ERASED = "\r\x1b[K"


def shown(path, option):
    """What the program writes to standard error if that is a terminal, its standard output and its status."""
    ours, terminal = pty.openpty()
    parts = []

    def read():
        try:
            while part := os.read(ours, 65536):
                parts.append(part)
        except OSError:
            pass

    reader = threading.Thread(target=read)
    reader.start()
    ended = subprocess.run([VP8LIST, path, option], stdin=subprocess.DEVNULL, stdout=subprocess.PIPE, stderr=terminal)
    os.close(terminal)
    reader.join()
    os.close(ours)
    return b"".join(parts).decode(), ended.stdout, ended.returncode


def fault_of(text, is_long):
    """What is wrong with the text on a terminal; None if nothing is."""
    if not is_long:
        return f"{text!r} for little work" if text else None
    counts = [int(done) for done, whole in LINE.findall(text) if int(whole) == COUNT]
    if LINE.sub("", text) != ERASED or not text.endswith(ERASED):
        return f"other text: {text[-80:]!r}"
    if not counts or counts != sorted(set(counts)) or counts[-1] > COUNT:
        return f"counts {counts}"
    return None


def main():
    faults = 0
    with tempfile.TemporaryDirectory() as name:
        long, short = pathlib.Path(name) / "long.ivf", pathlib.Path(name) / "short.ivf"
        long.write_bytes(ivf(1920, 1080, [KEY] + [INTER] * (COUNT - 1)))
        short.write_bytes(ivf(16, 16, [bytes.fromhex("1000009D012A10001000"), INTER]))
        for path, option in ((long, "--check"), (long, "--hash"), (short, "--check"), (long, None)):
            if option is None:
                ended = subprocess.run([VP8LIST, path, "--check"], capture_output=True)
                why = f"standard error {ended.stderr!r}" if ended.stderr else None
            else:
                text, output, status = shown(path, option)
                plain = subprocess.run([VP8LIST, path, option], capture_output=True)
                why = fault_of(text, path == long)
                if (output, status) != (plain.stdout, plain.returncode):
                    why = "another output than without a terminal"
            if why:
                faults += 1
                print(f"{path.name} {option or 'without a terminal'}: {why}")
    results.total(f"4 runs: {faults} differences", faults)
    return 1 if faults else 0


if __name__ == "__main__":
    sys.exit(main())
