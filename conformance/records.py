#!/usr/bin/env python3
"""Compares the plain parser's headers and macroblocks with those of vp8list: records.py [STREAM ..]

coverage.py counts points by what this parser reads, so each field of each header with its bits and each column of each
macroblock must be what `vp8list --header all --json` and `--macroblocks all --json` write. VP8LIST names another
program than the one that was built. It prints the first difference of each stream, and nothing if there is none.
"""

import concurrent.futures
import json
import pathlib
import subprocess
import sys

from vp8 import ivf
from vp8.listed import lines_of
from vp8.objects import differs as difference, objects_of

STREAMS = pathlib.Path(__file__).resolve().parent / "streams"


def listed(path, option):
    return [json.loads(line) for line in lines_of(path, option, "all", "--json")]


def first_difference(path, wanted, found, option):
    for one, other in zip(wanted, found):
        there = difference(one, other)
        if there:
            place = " ".join(f"{name} {one[name]}" for name in ("packet", "column", "row", "index") if name in one)
            return f"{path.name}: {option} {place}: {there}"
    return f"{path.name}: {option}: {len(found)} objects, not {len(wanted)}" if len(wanted) != len(found) else ""


def differs(path):
    """What is wrong with a stream, or an empty text."""
    try:
        return next(
            filter(
                None,
                (
                    first_difference(path, own, listed(path, option), option)
                    for own, option in zip(objects_of(ivf.read(path)), ("--header", "--macroblocks"))
                ),
            ),
            "",
        )
    except (ValueError, OSError, subprocess.TimeoutExpired) as error:
        return f"{path.name}: {error}"


def main():
    paths = [path for path in sorted(STREAMS.rglob("*.ivf")) if not sys.argv[1:] or path.stem in sys.argv[1:]]
    if not paths:
        sys.exit("records.py: no such stream")
    with concurrent.futures.ProcessPoolExecutor() as pool:
        wrong = [text for text in pool.map(differs, paths) if text]
    print("\n".join(wrong), end="\n" if wrong else "")
    return 1 if wrong else 0


if __name__ == "__main__":
    sys.exit(main())
