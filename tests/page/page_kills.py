#!/usr/bin/env python3
"""Kills `wokureti open` within 200 ms after its page shows an edit, and all that it started: page_kills.py [COUNT
[SEED]]

The edits are in the list, and the next `wokureti open` has them and the same frames. Debian's chromium and
chromium-driver must be there. COUNT is 100.
"""

import contextlib
import os
import pathlib
import random
import shutil
import signal
import sys
import tempfile
import time

sys.path.insert(1, str(pathlib.Path(__file__).resolve().parents[2] / "compare"))
import results  # noqa: E402
from browser import Browser  # noqa: E402
from page import TOP, Page  # noqa: E402

EXAMPLE = TOP / "examples/mandelbrot.ivf"
# Seconds in which a kill comes, and what is done before: what was undone is not kept, so nothing is made again.
MOST, ACTS = 0.2, ("hold", "drop", "undo", "hold", "delete")


def shown(browser, act):
    """Does what a person does, and returns the edits once the page shows them."""
    before = browser.run("return wokureti.model.revision")
    browser.run(
        "await wokureti.model.goPacket(4); wokureti.model.select(4, 5); document.getElementById(args[0]).click()", act
    )
    browser.wait("wokureti.model.revision > args[0]", before, seconds=60)
    return browser.run("return wokureti.model.session.edits")


def killed(page):
    """Ends the command and its children, which write nothing more."""
    os.killpg(page.process.pid, signal.SIGKILL)
    page.process.communicate(timeout=60)


def turns(browser, room, count, chance):
    """What is not as it must be. Each turn opens the list of the one before."""
    clip, path, wanted = room / "clip.ivf", room / "list.edits", []
    shutil.copyfile(EXAMPLE, clip)
    for turn in range(count + 1):
        page = Page(browser, clip, "--edits", path, start_new_session=True)
        with contextlib.ExitStack() as ends:
            ends.callback(killed, page)
            page.open()
            found = browser.run("return wokureti.model.session.edits")
            if found != wanted:
                yield f"after {turn} kills the edits are {found}, not {wanted}"
                return
            if turn < count:
                wanted = shown(browser, ACTS[turn % len(ACTS)])
                time.sleep(MOST * chance.random())
        lines = [line for line in path.read_text(encoding="utf-8").splitlines() if not line.startswith("#")]
        if lines != wanted:
            yield f"kill {turn}: the list has {lines}, not {wanted}"
            return


def main():
    given = [int(word) for word in sys.argv[1:] if word.isdecimal()]
    count, seed = [*given, *(100, 1)[len(given) :]]
    with tempfile.TemporaryDirectory() as name, Browser() as browser:
        wrong = list(turns(browser, pathlib.Path(name), count, random.Random(seed)))
    for line in wrong:
        print(line)
    results.total(
        (
            f"{count} kills of wokureti open within {1000 * MOST:.0f} ms after the page shows an edit:"
            f" {'some edits are gone' if wrong else 'all edits are in the list'}"
        ),
        len(wrong),
    )
    return 1 if wrong else 0


if __name__ == "__main__":
    sys.exit(main())
