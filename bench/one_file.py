#!/usr/bin/env python3
"""Times the page in one file next to the page of `wokureti open` in Debian's chromium: one_file.py [TURNS
[CLIP-OF-640x360 CLIP-OF-1920x1080]]

From a key to the next picture, from Delete to the new picture, from opening 1,048,576 packets to the drawn timeline,
and playback of 1920x1080 at 8 times the speed, which is more than there can be. The pages take turns, each a new one;
medians of 5 turns without TURNS. The page is that of WOKURETI_PAGE, or bin/wokureti.html; the programs and the library
are those that `wokureti` finds.
"""

import contextlib
import importlib.util
import os
import pathlib
import statistics
import sys
import tempfile
import time

TOP = pathlib.Path(__file__).resolve().parent.parent
sys.path[:0] = [str(TOP / "tests/page"), str(TOP / "compare"), str(TOP / "bench")]
import page as pages  # noqa: E402
from browser import Browser  # noqa: E402
from web import clip_of  # noqa: E402

spec = importlib.util.spec_from_file_location("bench_page", TOP / "bench/page.py")
bench = importlib.util.module_from_spec(spec)
spec.loader.exec_module(bench)

PAGE = pathlib.Path(os.environ.get("WOKURETI_PAGE") or TOP / "bin/wokureti.html").resolve()
PACKETS, LIMIT = 1 << 20, 300
DRAWN = "window.wokureti?.timeline?.window.count && wokureti.timeline.wholeTile()"
CHECKED = "wokureti.findings.check && wokureti.findings.check.over"
# From the key Delete to the picture after it, six times, each after another packet.
DELETES = bench.EDITS.replace('press("d")', 'press("Delete")').replace("arguments_turns", "6")
PLAYED = """await wokureti.model.go(0); wokureti.player.isLoop = true;
    await wokureti.player.play(8); await new Promise((done) => setTimeout(done, 1500));
    wokureti.player.shown = 0; const since = performance.now();
    await new Promise((done) => setTimeout(done, 4000)); const { shown } = wokureti.player;
    wokureti.player.stop(); return 1000 * shown / (performance.now() - since)"""


@contextlib.contextmanager
def served(browser, path):
    """The page of `wokureti open`, without edits; the time at which the command began."""
    since, edits = time.monotonic(), path.with_suffix(".edits")
    page = pages.Page(browser, path, "--edits", edits)
    browser.open(page.address)
    yield since
    page.end()
    edits.unlink(missing_ok=True)


@contextlib.contextmanager
def alone(browser, path):
    """The page in one file, without edits; the time at which the file was chosen."""
    browser.open(PAGE.as_uri())
    browser.wait("!document.getElementById('welcome').hidden")
    browser.run(
        "await new Promise((done) => { const request = indexedDB.deleteDatabase('wokureti'); request.onsuccess ="
        " request.onerror = request.onblocked = done; })"
    )
    since = time.monotonic()
    browser.type("#welcome-file", str(path))
    yield since
    browser.run("addEventListener('beforeunload', (event) => event.stopImmediatePropagation(), { capture: true })")
    browser.open("about:blank")


def quick(browser, opened, path):
    """Milliseconds of a step to a new picture, of one back, of Delete and of undo."""
    with opened(browser, path):
        browser.wait("document.body.dataset.ready === 'yes'", seconds=LIMIT)
        browser.wait(CHECKED, seconds=LIMIT)
        steps = browser.run(bench.STEPS)
        times = browser.run(DELETES)
    return [statistics.median(found) for found in (steps[:20], steps[20:], times[::2], times[1::2])]


def drawn(browser, opened, path):
    """Seconds up to the timeline."""
    with opened(browser, path) as since:
        browser.wait(DRAWN, seconds=LIMIT)
        return [time.monotonic() - since]


def played(browser, opened, path):
    """Frames a second."""
    with opened(browser, path):
        browser.wait("document.body.dataset.ready === 'yes'", seconds=LIMIT)
        browser.wait(CHECKED, seconds=LIMIT)
        return [browser.run(PLAYED)]


def main():
    turns, clips = int((sys.argv[1:] or ["5"])[0]), sys.argv[2:4] or [
        clip_of("640x360", "1500k"),
        clip_of("1920x1080", "6M"),
    ]
    with tempfile.TemporaryDirectory() as name, Browser() as browser:
        room = pathlib.Path(name)
        pages.make_million(room / "million.ivf", PACKETS)
        small, large = room / "small.ivf", room / "large.ivf"
        for link, clip in zip((small, large), clips):
            link.symlink_to(pathlib.Path(clip).resolve())
        acts = [
            (quick, small, ("640x360: step, ms", "640x360: step back, ms", "640x360: Delete, ms", "640x360: undo, ms")),
            (drawn, room / "million.ivf", ("1,048,576 packets, timeline, s",)),
            (played, large, ("1920x1080, frames a second",)),
        ]
        print(
            f"chromium {browser.version}, medians of {turns} turns (least, most): wokureti open; one file", flush=True
        )
        for act, path, names in acts:
            found = {opened: [] for opened in (served, alone)}
            for _ in range(turns):
                for opened, times in found.items():
                    times.append(act(browser, opened, path))
                    print(
                        f"  {opened.__name__}: {' '.join(f'{one:.2f}' for one in times[-1])}",
                        file=sys.stderr,
                        flush=True,
                    )
            for place, what in enumerate(names):
                columns = [[row[place] for row in times] for times in found.values()]
                print(
                    f"{what}: "
                    + "; ".join(
                        f"{statistics.median(column):.2f} ({min(column):.2f}, {max(column):.2f})" for column in columns
                    ),
                    flush=True,
                )


if __name__ == "__main__":
    main()
