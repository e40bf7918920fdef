#!/usr/bin/env python3
"""Times sessions in Python by the library and over the program's pipes: library.py CLIP [TURNS]

For each engine it prints microseconds for a cached frame, an edit and a request, and milliseconds for all frames of the
clip in order, and the same of a copy of a frame's samples; medians of TURNS turns (5), one engine after the other in
each turn. The programs are those of bin/; ./build.py --library makes the library.
"""

import pathlib
import statistics
import sys
import time

sys.dont_write_bytecode = True
sys.path.insert(0, str(pathlib.Path(__file__).resolve().parent.parent / "clients/python"))

from wokureti import Session  # noqa: E402

CACHED, EDITS = 2000, 2000


def timed(call, count):
    start = time.perf_counter()
    for _ in range(count):
        call()
    return (time.perf_counter() - start) / count


def turn(clip, engine):
    """Seconds for each thing that is timed."""
    with Session(clip, engine=engine) as session:
        frames = session.count().frames
        start = time.perf_counter()
        for number in range(frames):
            _, _, samples = session.picture(number)
        whole = time.perf_counter() - start
        last = frames - 1
        found = {
            "a cached frame": timed(lambda: session.picture(last), CACHED),
            "a request": timed(session.count, EDITS),
            "two edits": timed(lambda: (session.hold(frames), session.delete(frames)), EDITS // 10),
            "all frames in order": whole,
            "a copy of the samples": timed(lambda: bytearray(samples), CACHED),
        }
    return found


def main(clip, turns="5"):
    found = {engine: [] for engine in ("library", "program")}
    for _ in range(int(turns)):
        for engine, results in found.items():
            results.append(turn(clip, engine))
    print(f"{'':24}" + "".join(f"{engine:>12}" for engine in found) + "   microseconds")
    for name in found["library"][0]:
        medians = [statistics.median(result[name] for result in results) * 1e6 for results in found.values()]
        print(f"{name:24}" + "".join(f"{value:12.1f}" for value in medians))


if __name__ == "__main__":
    if not 2 <= len(sys.argv) <= 3:
        sys.exit(__doc__)
    main(*sys.argv[1:])
