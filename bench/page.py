#!/usr/bin/env python3
"""Times the page of `wokureti open` in Debian's chromium: from opening to the first picture, from a key to the next
picture, from an edit to the new picture, steps of many edits, how long a frame waits meanwhile, and playback.

    bench/page.py [--tree FOLDER] [--quick] CLIP-OF-640x360 CLIP-OF-1920x1080

With --tree the page and the programs are those of another checkout, in which `./serve.sh --version` was called once, so
that bin/ has its programs: an earlier version is measured by the same bench. With --quick streams are short and turns
are few: that it runs, and no figures. virtual.sh calls it if chromium is there.
"""

import argparse
import os
import pathlib
import statistics
import sys
import tempfile
import time

TOP = pathlib.Path(__file__).resolve().parent.parent
sys.path[:0] = [str(TOP / "tests/page"), str(TOP / "compare")]

import page as pages  # noqa: E402
from browser import Browser  # noqa: E402
from page import Page, make_million  # noqa: E402

# Turns of edits, and of openings; the packets of the streams that are opened, and of those that get large steps, with
# how many are deleted and held.
TURNS, OPENINGS = 15, 3
OPENED, LARGE_STREAMS, DELETED, HELD = (100, 100_000, 1 << 20), (100_000, 1 << 20), 10_000, 3_000


def opening(browser, path, count):
    """From the start of the command to its address, and from there to the first picture and to the timeline."""
    found = []
    for _ in range(OPENINGS):
        start = time.monotonic()
        page = Page(browser, path)
        address = time.monotonic() - start
        page.open()
        picture = browser.run("return performance.getEntriesByName('first picture')[0].startTime") / 1000
        browser.wait("wokureti.timeline.window.count && wokureti.timeline.wholeTile()", seconds=120)
        drawn = browser.run("return performance.getEntriesByName('first timeline')[0].startTime") / 1000
        browser.wait("wokureti.model.session.listed", seconds=300)
        listed = time.monotonic() - start
        found.append((address, picture, drawn, listed))
        page.end()
    best = [min(column) for column in zip(*found)]
    print(
        (
            f"{count:,} packets: the address after {best[0]:.2f} s, then the first picture after {best[1]:.2f} s, the"
            f" timeline after {best[2]:.2f} s; all headers listed {best[3]:.1f} s after the start"
        ),
        flush=True,
    )


# From a key to the new picture on the canvas, for each of some packets and for undo.
EDITS = """
    const { picture } = wokureti.viewer;
    const press = (key, ctrlKey = false) => {
      const since = performance.now();
      return new Promise((done) => {
        const { paint } = picture;
        picture.paint = function (...given) {
          delete picture.paint;
          paint.apply(this, given);
          requestAnimationFrame(() => done(performance.now() - since));
        };
        document.getElementById("timeline").dispatchEvent(
          new KeyboardEvent("keydown", { key, ctrlKey, bubbles: true, cancelable: true }));
      });
    };
    const times = [];
    for (let turn = 0; turn < arguments_turns; turn++) {
      const packet = 40 + 11 * turn;
      await wokureti.model.goPacket(packet);
      await new Promise((done) => setTimeout(done, 300));
      times.push(await press("d"));
      await new Promise((done) => setTimeout(done, 600));
      times.push(await press("z", true));
      await new Promise((done) => setTimeout(done, 600));
    }
    return times;"""


# From a key to the next picture on the canvas: frames that were not shown before, one after the other, and then back
# over the same frames.
STEPS = """
    const { picture } = wokureti.viewer;
    const press = (key) => {
      const since = performance.now();
      return new Promise((done) => {
        const { paint } = picture;
        picture.paint = function (...given) {
          delete picture.paint;
          paint.apply(this, given);
          requestAnimationFrame(() => done(performance.now() - since));
        };
        document.getElementById("timeline").dispatchEvent(
          new KeyboardEvent("keydown", { key, bubbles: true, cancelable: true }));
      });
    };
    await wokureti.model.go(200);
    await new Promise((done) => setTimeout(done, 1000));
    const times = [];
    for (const key of ["ArrowRight", "ArrowLeft"]) {
      for (let turn = 0; turn < 20; turn++) {
        times.push(await press(key));
        await new Promise((done) => setTimeout(done, 150));
      }
    }
    return times;"""


def steps(browser, clip, name):
    page = Page(browser, clip)
    page.open()
    browser.wait("wokureti.findings.check && wokureti.findings.check.over", seconds=120)
    times = browser.run(STEPS)
    on, back = times[:20], times[20:]
    print(
        (
            f"{name}: from a key to the next picture {statistics.median(on):.0f} ms (at most {max(on):.0f}), back"
            f" {statistics.median(back):.0f} ms (at most {max(back):.0f})"
        ),
        flush=True,
    )
    page.end()


def edits(browser, clip, name):
    page = Page(browser, clip)
    page.open()
    browser.wait("wokureti.findings.check && wokureti.findings.check.over", seconds=60)
    times = browser.run(EDITS.replace("arguments_turns", str(TURNS)))
    dropped, undone = times[::2], times[1::2]
    print(
        (
            f"{name}: from the key that drops a packet to the new picture {statistics.median(dropped):.0f} ms (at most"
            f" {max(dropped):.0f}), from undo {statistics.median(undone):.0f} ms (at most {max(undone):.0f})"
        ),
        flush=True,
    )
    page.end()


# Deletes, takes back and makes again, holds: each as one step of many edits.
LARGE = """
    const { model, editing } = wokureti;
    const times = [];
    // The longest time that a frame waits which is asked for meanwhile.
    let [waited, isOn] = [0, true];
    const ask = async () => {
      for (let frame = 0; isOn; frame = (frame + 1) % 50) {
        const since = performance.now();
        await fetch(new URL(`../frames/${frame}.y4m`, document.baseURI), { cache: "no-store" });
        waited = Math.max(waited, (performance.now() - since) / 1000);
        await new Promise((done) => setTimeout(done, 5));
      }
    };
    const asked = ask();
    const timed = async (act) => {
      const since = performance.now();
      await act();
      times.push((performance.now() - since) / 1000);
    };
    model.select(1000, 1000 + args[0]);
    await timed(() => editing.delete());
    await timed(() => editing.undo());
    await timed(() => editing.redo());
    await editing.undo();
    model.select(1000, 1000 + args[1]);
    await timed(() => editing.hold());
    isOn = false;
    await asked;
    return [model.packets, ...times, waited];"""


def large_steps(browser, path, count):
    page = Page(browser, path)
    page.open()
    browser.wait("wokureti.model.session.listed", seconds=300)
    packets, *times = browser.run(LARGE, DELETED, HELD)
    words = (f"{DELETED:,} packets deleted", "undone", "deleted again", f"{HELD:,} held", "a frame waited at most")
    said = ", ".join(f"{word} {seconds:.1f} s" for word, seconds in zip(words, times))
    print(
        f"large steps in {count:,} packets: {said}{'' if packets == count else f', and {packets} packets'}", flush=True
    )
    page.end()


def playback(browser, clip, name):
    """Frames a second that are shown: at the stream's rate, and at 8 times of it, which is more than there can be."""
    page = Page(browser, clip)
    page.open()
    shown = []
    for speed in (1, 8, -1):
        script = f"""
            await wokureti.model.go({0 if speed > 0 else 299});
            wokureti.player.isLoop = true;
            await wokureti.player.play({speed});
            await new Promise((done) => setTimeout(done, 2000));
            wokureti.player.shown = wokureti.player.dropped = 0;
            const since = performance.now();
            await new Promise((done) => setTimeout(done, 5000));
            const {{ shown, dropped }} = wokureti.player;
            wokureti.player.stop();
            return [shown / (performance.now() - since) * 1000, dropped];"""
        rate, dropped = browser.run(script)
        shown.append(f"{'backward, ' if speed < 0 else ''}{abs(speed)} times: {rate:.1f}, {dropped} dropped")
    print(f"{name}, frames a second of 30: {'; '.join(shown)}", flush=True)
    page.end()


def main():
    global TURNS, OPENINGS, OPENED, LARGE_STREAMS, DELETED, HELD
    parser = argparse.ArgumentParser(description=__doc__, formatter_class=argparse.RawDescriptionHelpFormatter)
    parser.add_argument("--tree")
    parser.add_argument("--quick", action="store_true")
    parser.add_argument("small")
    parser.add_argument("large")
    given = parser.parse_args()
    if given.tree:
        pages.TOP = pathlib.Path(given.tree).resolve()
        # Another tree has its own programs, and no library of this one.
        os.environ.update({name.upper(): str(pages.TOP / "bin" / name) for name in ("vp8serve", "vp8list")})
    if given.quick:
        TURNS, OPENINGS, OPENED, LARGE_STREAMS, DELETED, HELD = 2, 1, (100, 10_000), (10_000,), 1_000, 300
    with tempfile.TemporaryDirectory() as name, Browser() as browser:
        room = pathlib.Path(name)
        version = (pages.TOP / "VERSION").read_text().strip()
        print(f"chromium {browser.version}, wokureti {version}", flush=True)
        for count in OPENED:
            path = room / f"{count}.ivf"
            make_million(path, count)
            opening(browser, path, count)
        for count in LARGE_STREAMS:
            large_steps(browser, room / f"{count}.ivf", count)
        for clip, size in ((given.small, "640x360"), (given.large, "1920x1080")):
            link = room / f"{size}.ivf"
            link.symlink_to(pathlib.Path(clip).resolve())
            steps(browser, link, size)
            edits(browser, link, size)
            playback(browser, link, size)


if __name__ == "__main__":
    main()
