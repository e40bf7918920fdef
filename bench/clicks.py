#!/usr/bin/env python3
"""Counts what the page of `wokureti open` asks of its server after a Delete and after a click on a frame, and times
both until the picture is there, in Debian's chromium.

    bench/clicks.py [--tree FOLDER] [CLIP]

It prints the number of requests of each of five turns, and the median in milliseconds: from the key, or the press of
the pointer, to the picture on the canvas. A turn ends once nothing was asked for 1.2 seconds. With --tree the page is
that of another checkout, and VP8SERVE names a vp8serve for it: an earlier version is measured by the same bench.
Without a clip it is examples/mandelbrot.ivf of this checkout.
"""

import argparse
import os
import pathlib
import statistics
import sys
import tempfile
import time

TOP = pathlib.Path(__file__).resolve().parent.parent
sys.path[:0] = [str(TOP / "tests/page"), str(TOP / "compare")]

import page as pages  # noqa: E402
from browser import Browser  # noqa: E402

TURNS, QUIET = 5, 1.2
SIZES = ((1280, 800), (390, 844))
# Waits for the first picture after an event, and takes the time between them; requests are counted from that event on.
WATCH = """
    const { picture } = wokureti.viewer;
    window.measured = null;
    addEventListener(args[0], (event) => {
      window.since = event.timeStamp;
      const { paint } = picture;
      picture.paint = function (...given) {
        delete picture.paint;
        paint.apply(this, given);
        requestAnimationFrame(() => (window.measured = performance.now() - window.since));
      };
    }, { once: true, capture: true });"""
ASKED = (
    "return performance.getEntriesByType('resource').filter(({ startTime }) => startTime >= window.since).map(({ name"
    " }) => new URL(name).pathname.split('/').slice(2).join('/'))"
)


def turn(browser, event, act):
    """The requests of an act, and its milliseconds."""
    browser.run("performance.clearResourceTimings()")
    browser.run(WATCH, event)
    act()
    browser.wait("window.measured !== null", seconds=60)
    count, since = -1, time.monotonic()
    while time.monotonic() - since < QUIET:
        now = len(browser.run(ASKED))
        if now != count:
            count, since = now, time.monotonic()
        time.sleep(0.05)
    return browser.run(ASKED), browser.run("return window.measured")


def told(name, found):
    counts = [len(asked) for asked, _ in found]
    print(
        (
            f"{name}: {' '.join(map(str, counts))} requests; {statistics.median(took for _, took in found):.0f} ms, at"
            f" most {max(took for _, took in found):.0f} ms; the last turn asked {' '.join(found[-1][0])}"
        ),
        flush=True,
    )


def deletes(browser):
    """The packet of a frame is deleted on the lane of packets."""
    found = []
    for number in range(TURNS):
        browser.run("await wokureti.model.goPacket(args[0]); document.getElementById('timeline').focus()", 25 - number)
        time.sleep(QUIET)
        found.append(turn(browser, "keydown", lambda: browser.key("Delete")))
    return found


def clicks(browser):
    """A frame that was not shown before is pressed."""
    lane = "document.getElementById('programme-canvas') ?? document.getElementById('bars')"
    found = []
    for number in range(TURNS):
        left, top, width, height = browser.run(
            f"const {{ left, top, width, height }} = ({lane}).getBoundingClientRect(); return [left, top, width,"
            " height]"
        )
        wide = browser.run(
            "const lane = wokureti.programme ?? wokureti.timeline; return Math.min(lane.window.width, lane.window.count"
            " * lane.window.scale)"
        )
        at = (left + wide * (0.15 + 0.17 * number), top + height / 2)
        found.append(turn(browser, "pointerdown", lambda at=at: browser.drag([at, at])))
    return found


def main():
    parser = argparse.ArgumentParser()
    parser.add_argument("--tree", type=pathlib.Path, default=TOP)
    parser.add_argument("clip", nargs="?", type=pathlib.Path, default=TOP / "examples/mandelbrot.ivf")
    given = parser.parse_args()
    pages.TOP = given.tree
    with tempfile.TemporaryDirectory() as room, Browser() as browser:
        for size in SIZES:
            browser.set_size(*size)
            page = pages.Page(browser, given.clip.resolve(), "--edits", os.path.join(room, f"edits-{size[0]}"))
            page.open()
            browser.wait("wokureti.findings.check && wokureti.findings.check.over", seconds=60)
            time.sleep(4)
            told(f"{size[0]}x{size[1]}, click on a frame", clicks(browser))
            told(f"{size[0]}x{size[1]}, Delete of a packet", deletes(browser))
            page.end()
    return 0


if __name__ == "__main__":
    sys.exit(main())
