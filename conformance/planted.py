#!/usr/bin/env python3
"""Plants bugs in a copy of the plain decoder, one at a time, and says which streams and points show each: planted.py
[NAME ..]

A bug is one edit of a file of vp8/: bugs.py has them. For each, the table says how many streams differ, which points
only streams that differ reach, the first difference, and how many of the 31 clips of crates/gate_clips, which vpxenc
made, differ too. Without names it writes effects.txt, the streams that show each bug, by which coverage.py counts
points. The exit status is 1 if no stream shows a bug.
"""

import concurrent.futures
import functools
import importlib
import pathlib
import shutil
import sys
import tempfile

import coverage
import run
from bugs import BUGS
from vp8 import ivf

HERE = pathlib.Path(__file__).resolve().parent
CLIPS = HERE.parent / "crates/gate_clips/data"


@functools.lru_cache(maxsize=None)
def room():
    """A folder for the copies of a process, which are packages of their own."""
    folder = tempfile.mkdtemp(prefix="planted-")
    sys.path.insert(0, folder)
    return pathlib.Path(folder)


@functools.lru_cache(maxsize=None)
def planted(name):
    """The decoder module of a copy in which a bug is planted."""
    _, _, file, old, new, _ = next(bug for bug in BUGS if bug[0] == name)
    package = "planted_" + name.replace("-", "_")
    shutil.copytree(HERE / "vp8", room() / package, ignore=shutil.ignore_patterns("__pycache__"))
    path = room() / package / file
    text = path.read_text()
    if text.count(old) != 1:
        sys.exit(f"{name}: {file} has its text {text.count(old)} times")
    path.write_text(text.replace(old, new))
    return importlib.import_module(package + ".decoder")


def first_difference(truth, packets, module):
    """Where a decoder first leaves the truth, in a sentence, or None."""
    decoder, shown = module.Decoder(), 0
    for packet in packets:
        try:
            picture = decoder.decode(packet)
        except module.Refused:
            continue
        except (IndexError, KeyError, ValueError, AttributeError) as error:
            return f"frame {shown}: it fails ({error})"
        if not run.is_shown(packet):
            continue
        if shown == len(truth.frames):
            return "it shows more frames"
        if picture.shown() != truth.frames[shown][1].shown():
            return run.where_it_differs(truth, shown, picture.shown())
        shown += 1
    return None if shown == len(truth.frames) else f"it shows {shown} of {len(truth.frames)} frames"


def over(path, names):
    """For each bug, the first difference in a stream."""
    truth, packets = run.Truth(path), list(ivf.read(path))
    found = {name: first_difference(truth, packets, planted(name)) for name in names}
    shutil.rmtree(room(), ignore_errors=True)
    planted.cache_clear()
    room.cache_clear()
    return path, found


def row(bug, streams, clips):
    """A row of the table."""
    differ = {path.stem: text for path, found in streams for name, text in found.items() if name == bug[0] and text}
    seen = sum(bool(found[bug[0]]) for _, found in clips)
    names = run.points_of(set(differ), {path.stem for path, _ in streams})
    shown = "; ".join(names[:2]) + (f"; {len(names) - 2} more" if len(names) > 2 else "")
    where = min(differ.items(), key=lambda pair: len(pair[1])) if differ else ("none", "")
    return f"| {bug[1]} | {len(differ)} | {shown or '-'} | `{where[0]}`: {where[1]} | {seen} |"


def write_effects(streams):
    """The streams that show each bug."""
    lines = [" ".join([bug[0], *sorted(path.stem for path, found in streams if found[bug[0]])]) for bug in BUGS]
    coverage.EFFECTS.write_text(
        "# A bug of bugs.py and the streams that show it, by planted.py\n" + "\n".join(lines) + "\n"
    )


def main():
    asked = sys.argv[1:]
    bugs = [bug for bug in BUGS if not asked or bug[0] in asked]
    names = [bug[0] for bug in bugs]
    with concurrent.futures.ProcessPoolExecutor() as pool:
        streams = list(pool.map(over, sorted(HERE.glob("streams/**/*.ivf")), [names] * 1000))
        clips = list(pool.map(over, sorted(CLIPS.glob("*.ivf")), [names] * 1000))
    print(
        f"| Planted | Streams of {len(streams)} | Points that only streams that differ reach | One of them | Clips of"
        f" {len(clips)} |\n|---|---|---|---|---|"
    )
    if not asked:
        write_effects(streams)
    for bug in bugs:
        print(row(bug, streams, clips))
    missed = [name for name in names if not any(found[name] for _, found in streams)]
    if missed:
        print(f"no stream shows {', '.join(missed)}")
    return 1 if missed else 0


if __name__ == "__main__":
    sys.exit(main())
