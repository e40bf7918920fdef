#!/usr/bin/env python3
"""Says which points of vp8/points.py each stream reaches: coverage.py [--missing] [--points STREAM] [--streams POINT]

Each stream is parsed anew by the plain decoder, so the count does not rest on what make.py meant to write. A point that
rests on a rule for which bugs.py has a bug counts for a stream only if the bug changes an MD5 of that stream:
effects.txt has those streams, and planted.py writes it. The table has a row a group: points, points reached, points
that no stream can reach, and what is missing. --missing names what is missing; --points names what one stream reaches,
--streams the streams that reach points whose names have this text. points/ has a file a group.
"""

import argparse
import concurrent.futures
import functools
import pathlib
import re

from bugs import BUGS
from vp8 import ivf
from vp8.points import GROUPS, Watch, all_points

HERE = pathlib.Path(__file__).resolve().parent
STREAMS, EFFECTS = HERE / "streams", HERE / "effects.txt"


@functools.lru_cache(maxsize=None)
def effects():
    """For each bug, the streams of which it changes an MD5."""
    lines = (
        (line.split() for line in EFFECTS.read_text().splitlines() if line and not line.startswith("#"))
        if EFFECTS.is_file()
        else ()
    )
    return {name: set(streams) for name, *streams in lines}


@functools.lru_cache(maxsize=None)
def bugs_of(point):
    """The bugs that break the rule of a point."""
    group, name = point
    return [bug[0] for bug in BUGS if any(group == other and re.fullmatch(pattern, name) for other, pattern in bug[5])]


def seen_by(path):
    """The points of the values and the situations of a stream."""
    watch = Watch()
    for packet in ivf.read(path):
        watch.packet(packet)
    return watch.found


def reached_by(path):
    """Those whose rule, if it is broken, changes an MD5 of the stream, where a bug breaks it."""
    shows = effects()
    return path.stem, {
        point for point in seen_by(path) if all(path.stem in shows.get(bug, {path.stem}) for bug in bugs_of(point))
    }


@functools.lru_cache(maxsize=None)
def reached_by_all():
    """The points of each stream."""
    with concurrent.futures.ProcessPoolExecutor() as pool:
        return dict(pool.map(reached_by, sorted(STREAMS.rglob("*.ivf"))))


def table(found):
    """Rows of the table, and what is missing."""
    rows, missing = [], []
    for group, (section, points, impossible) in GROUPS.items():
        names = list(dict.fromkeys(points()))
        left = [name for name in names if (group, name) not in found and name not in impossible]
        rows.append(
            (group, section, len(names), sum((group, name) in found for name in names), len(impossible), len(left))
        )
        missing += [(group, name) for name in left]
    return rows, missing


def write_points(by_stream):
    """A file a group, a line a point: its name, and the first stream that reaches it; those of beyond/ come last."""
    order = sorted(by_stream, key=lambda name: (not (STREAMS / f"{name}.ivf").is_file(), name))
    (HERE / "points").mkdir(exist_ok=True)
    for group, (section, points, impossible) in GROUPS.items():
        names = list(dict.fromkeys(points()))
        lines = [
            f"# {group} (RFC 6386, section {section}): {len(names)} points, each with the first stream that reaches it"
        ]
        for name in names:
            stream = next((stream for stream in order if (group, name) in by_stream[stream]), None)
            lines.append(f"{name}\t{stream or '-'}" + (f"\t{impossible[name]}" if name in impossible else ""))
        (HERE / "points" / f"{group.replace(' ', '-')}.txt").write_text("\n".join(lines) + "\n")


def main():
    parser = argparse.ArgumentParser(description=__doc__.split("\n\n")[0])
    parser.add_argument("--missing", action="store_true")
    parser.add_argument("--points", metavar="STREAM")
    parser.add_argument("--streams", metavar="POINT")
    asked = parser.parse_args()
    by_stream = reached_by_all()
    if asked.points:
        for group, name in sorted(by_stream[asked.points]):
            print(f"{group}: {name}")
        return
    if asked.streams:
        for group, name in all_points():
            if asked.streams in f"{group}: {name}":
                print(
                    f"{group}: {name}:"
                    f" {' '.join(stream for stream, found in by_stream.items() if (group, name) in found) or '-'}"
                )
        return
    found = set().union(*by_stream.values())
    unknown = sorted(found - set(all_points()))
    rows, missing = table(found)
    print(f"{'group':32} {'section':18} {'points':>6} {'reached':>7} {'impossible':>10} {'missing':>7}")
    for group, section, *numbers in rows:
        print(f"{group:32} {section:18} {numbers[0]:6} {numbers[1]:7} {numbers[2]:10} {numbers[3]:7}")
    print(
        f"{'all':32} {'':18} {sum(row[2] for row in rows):6} {sum(row[3] for row in rows):7}"
        f" {sum(row[4] for row in rows):10} {len(missing):7}"
    )
    if unknown:
        print(f"{len(unknown)} that are no points, as {unknown[:5]}")
    if asked.missing:
        for group, name in missing:
            print(f"{group}: {name}")
    write_points(by_stream)


if __name__ == "__main__":
    main()
