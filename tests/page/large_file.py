#!/usr/bin/env python3
"""Opens large files on the page in one file: large_file.py [MIB ..]

For each size, 512, 513 and 1024 MiB without one: the seconds up to the page, the most memory of the process that has
the page (VmHWM), the warning, an edit, and what saving comes to. Debian's chromium, chromium-driver and ffmpeg must be
there. The page is that of WOKURETI_PAGE, or bin/wokureti.html.
"""

import os
import pathlib
import subprocess
import sys
import tempfile
import time

sys.path.insert(1, str(pathlib.Path(__file__).resolve().parents[2] / "compare"))
import results  # noqa: E402
from browser import Browser  # noqa: E402
from library.programs import TOP  # noqa: E402

sys.path.insert(0, str(TOP / "clients/python"))
from wokureti.media import ivf  # noqa: E402

PAGE = pathlib.Path(os.environ.get("WOKURETI_PAGE") or TOP / "bin/wokureti.html").resolve()
SIZES, MIB, LIMIT = (512, 513, 1024), 1 << 20, 300
# Files of more bytes are warned of, and those of so many are opened. The memory of the process may be twice the file,
# and this.
LARGE, OPENED, MORE = 512 * MIB, 1024 * MIB, 400 * MIB
READY = "document.body.dataset.ready === 'yes' || document.querySelector('#notices .bad span')?.textContent"
# The warning is there while the file is read.
WARNED = """window.warned = "";
    const text = () => document.querySelector("#notices [data-id=large] span")?.textContent ?? "";
    const read = () => (window.warned ||= text());
    new MutationObserver(read).observe(document.getElementById("notices"), { childList: true })"""
# What a person can save is offered as a download, whose bytes stay in the page.
SAVED = """window.showSaveFilePicker = undefined; window.saved = ""; const given = URL.createObjectURL;
    URL.createObjectURL = (blob) => {
        if (blob.type === "video/x-ivf") window.saved = `${blob.size} bytes`;
        return given.call(URL, blob);
    };
    HTMLAnchorElement.prototype.click = () => {};
    document.querySelectorAll("#notices .notice").forEach((one) => one.remove());
    document.getElementById("save").click()"""


def make_file(path, clip, size):
    """A clip's packets again and again, so many bytes; the last one is filled up."""
    head, packets = ivf.read_packets(clip)
    left, count = size - 32, 0
    with open(path, "wb") as file:
        file.write(head_of(clip))
        while left > 12:
            data = packets[count % len(packets)][1]
            if left - 12 - len(data) < 1000:
                data = data[: left - 12].ljust(left - 12, b"\0")
            file.write(len(data).to_bytes(4, "little") + count.to_bytes(8, "little") + data)
            left, count = left - 12 - len(data), count + 1


def head_of(clip):
    """The header of a clip."""
    with open(clip, "rb") as file:
        return file.read(32)


def most_memory(browser):
    """The most memory that a process of the browser had that draws pages, in bytes."""
    found = [0]
    for folder in pathlib.Path("/proc").glob("[0-9]*"):
        try:
            words, status = (folder / "cmdline").read_bytes(), (folder / "status").read_text()
        except OSError:
            continue
        if b"--type=renderer" in words and is_below(folder.name, browser.process):
            found.append(1024 * int(status.split("VmHWM:")[1].split()[0]))
    return max(found)


def is_below(number, top):
    """Whether a process is one that another one began, or one of its children did."""
    while number not in ("0", "1"):
        if int(number) == top:
            return True
        try:
            number = pathlib.Path("/proc", number, "stat").read_text().rsplit(")", 1)[1].split()[1]
        except OSError:
            return False
    return False


def opened(browser, path):
    """What a person sees who opens a file: True or the sentence, the warning, and the seconds."""
    browser.open(PAGE.as_uri())
    browser.wait("!document.getElementById('welcome').hidden")
    browser.run(WARNED)
    since = time.monotonic()
    browser.type("#welcome-file", str(path))
    said = browser.wait(READY, seconds=LIMIT)
    return said, browser.run("return window.warned"), time.monotonic() - since


def edited(browser):
    """An edit, and what saving comes to: a number of bytes or a sentence."""
    count = browser.run("return wokureti.model.packets")
    browser.run(
        "await wokureti.model.goPacket(200); wokureti.model.select(200, 201); document.getElementById('delete').click()"
    )
    browser.wait(f"wokureti.model.packets === {count - 1}", seconds=LIMIT)
    browser.run(SAVED)
    said = browser.wait(
        "window.saved || document.querySelector('#notices .bad:not([data-id=broken]) span')?.textContent", seconds=LIMIT
    )
    edits = browser.run("return wokureti.model.session.edits")
    return said, edits


def measured(path, clip, size):
    """What is not as it must be of a file of so many bytes."""
    make_file(path, clip, size)
    with Browser() as browser:
        plain = most_memory(browser)
        said, warning, seconds = opened(browser, path)
        most = most_memory(browser)
        print(
            (
                f"{size:,} bytes: {'opened' if said is True else said} after {seconds:.1f} s; the page's process had"
                f" {most:,} bytes at most ({plain:,} before); {warning or 'no warning'}"
            ),
            flush=True,
        )
        if bool(warning) != (size > LARGE) or (said is not True and (size <= OPENED or "memory" not in said)):
            yield f"{size:,} bytes: {said}, {warning!r}"
        if most > 2 * size + MORE:
            yield f"{size:,} bytes: {most:,} bytes of memory"
        if said is True:
            saved, edits = edited(browser)
            print(f"  after an edit and saving, {saved}: {most_memory(browser):,} bytes at most", flush=True)
            if edits != ["delete 200"] or not ("bytes" in saved or "memory" in saved):
                yield f"{size:,} bytes: {saved}, {edits}"


def main():
    wrong = []
    with tempfile.TemporaryDirectory() as name:
        clip, path = pathlib.Path(name, "clip.ivf"), pathlib.Path(name, "large.ivf")
        source = "testsrc2=size=1280x720:rate=30,noise=alls=40:allf=t"
        words = [
            "ffmpeg",
            "-nostdin",
            "-v",
            "error",
            "-y",
            "-f",
            "lavfi",
            "-i",
            source,
            "-frames:v",
            "60",
            "-c:v",
            "libvpx",
            "-deadline",
            "realtime",
            "-cpu-used",
            "8",
            "-b:v",
            "40M",
            "-g",
            "30",
        ]
        subprocess.run([*words, str(clip)], check=True, timeout=LIMIT)
        sizes = [int(word) for word in sys.argv[1:] if word.isdecimal()] or SIZES
        for size in sizes:
            wrong += list(measured(path, clip, size * MIB))
    print("".join(line + "\n" for line in wrong), end="")
    results.total(f"files of {', '.join(map(str, sizes))} MiB: {len(wrong)} differences", len(wrong))
    return 1 if wrong else 0


if __name__ == "__main__":
    sys.exit(main())
