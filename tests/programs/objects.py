#!/usr/bin/env python3
"""Compares the objects of `vp8list --json`, as Python reads them, with the columns of the list: objects.py [FILE ..].

Run manually, not in the gate; without arguments it reads the real streams and the damaged one. It needs the built
program.
"""

import json
import pathlib
import subprocess
import sys

sys.path.insert(1, str(pathlib.Path(__file__).resolve().parents[2] / "compare"))
import results  # noqa: E402
from library.programs import CLIPS, TOP, VP8LIST  # noqa: E402


def lines(*arguments):
    return subprocess.run([VP8LIST, *arguments], capture_output=True, text=True, check=True).stdout.splitlines()


def main():
    paths = sys.argv[1:] or [*sorted(CLIPS.glob("*.ivf")), TOP / "crates/vp8list/data/damaged.ivf"]
    count = wrong = 0
    for path in paths:
        names, *rows = [line.split("\t") for line in lines(path)]
        objects = [json.loads(line) for line in lines(path, "--json")]
        wanted = [
            {name: None if text == "-" else int(text) if text.isdigit() else text for name, text in zip(names, row)}
            for row in rows
        ]
        count += len(rows)
        if objects != wanted:
            wrong += 1
            print(f"{path}: differs")
    results.total(f"{len(paths)} streams, {count} packets, {wrong} streams different", wrong)
    return wrong


if __name__ == "__main__":
    sys.exit(main())
