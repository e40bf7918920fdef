#!/usr/bin/env python3
"""Uses the page of `wokureti open` in a real browser, and compares what it shows with ffmpeg and with vp8serve.

    tests/page/page.py [--shots FOLDER | --looks FOLDER] [--only NAME,..]

Debian's chromium, chromium-driver and ffmpeg must be there. With --shots only the pictures for the documents are
written, to a folder; with --looks what the tasks by keys and by mouse look like is written there too. With --only some
parts run: those of PARTS at the end. tests/README.md says more.
"""

import argparse
import base64
import contextlib
import hashlib
import json
import math
import os
import pathlib
import resource
import signal
import struct
import subprocess
import sys
import tempfile
import time
import urllib.request
from typing import NamedTuple

TOP = pathlib.Path(__file__).resolve().parents[2]
sys.path[:0] = [str(TOP / "clients/python"), str(TOP / "compare")]
import results  # noqa: E402
from browser import Browser  # noqa: E402

from wokureti import Session  # noqa: E402
from wokureti.base import programs  # noqa: E402
from wokureti.media import ivf  # noqa: E402
from wokureti.media.y4m import sides  # noqa: E402
from wokureti.session.frames import frame_of  # noqa: E402

# Milliseconds that a step of the wheel may take.
MOST_STEP = 50
# By how much a colour may differ from ffmpeg's, which rounds otherwise.
ROUNDING = 1
faults = []


def say(text):
    print(text, flush=True)


def expect(is_right, text):
    """Counts what is not as it must be."""
    if not is_right:
        faults.append(text)
        say(f"WRONG: {text}")


def make_clip(path, size, frames, picture="mandelbrot", group=50):
    words = [
        "ffmpeg",
        "-nostdin",
        "-v",
        "error",
        "-y",
        "-f",
        "lavfi",
        "-i",
        f"{picture}=size={size}:rate=25",
        "-frames:v",
        str(frames),
    ]
    subprocess.run(
        [
            *words,
            "-c:v",
            "libvpx",
            "-deadline",
            "realtime",
            "-cpu-used",
            "8",
            "-b:v",
            "1M",
            "-g",
            str(group),
            "-auto-alt-ref",
            "0",
            str(path),
        ],
        check=True,
    )


def break_packets(clip, path, places):
    """The clip with packets that were cut to two bytes."""
    head, packets = ivf.read_packets(clip)
    for place in places:
        packets[place] = (packets[place][0], packets[place][1][:2])
    with open(path, "wb") as file:
        file.writelines(ivf.pieces(head, len(packets), packets))


def make_million(path, count=1 << 20):
    """One key frame of 16x16, and repeats of it."""
    with Session("-") as session:
        session.blank(0, 16, 16)
        session.hold(1)
        key, hold = session.packet(0), session.packet(1)
    with open(path, "wb") as file:
        file.write(struct.pack("<4sHH4sHHIIII", b"DKIF", 0, 32, b"VP80", 16, 16, 30, 1, count, 0))
        file.write(struct.pack("<IQ", len(key), 0) + key)
        file.write(b"".join(struct.pack("<IQ", len(hold), number) + hold for number in range(1, count)))


class Page:
    """A browser on the page of a stream."""

    # The commands that were started.
    started = []

    def __init__(self, browser, *words, start_new_session=False, **more):
        self.browser = browser
        command = [sys.executable, "-m", "wokureti", "open", *map(str, words), "--no-browser"]
        env = dict(os.environ, PYTHONPATH=str(TOP / "clients/python"), PYTHONDONTWRITEBYTECODE="1", **more)
        self.process = subprocess.Popen(
            command,
            env=env,
            stdout=subprocess.PIPE,
            stderr=subprocess.PIPE,
            text=True,
            start_new_session=start_new_session,
        )
        self.started.append(self.process)
        self.address = self.process.stdout.readline().strip()

    def open(self, fragment=""):
        self.browser.open(self.address + fragment)
        self.ready()

    def ready(self):
        self.browser.wait("document.body.dataset.ready === 'yes'", seconds=300)

    def end(self):
        """Ends the command, and returns what it says."""
        with contextlib.suppress(OSError):
            self.browser.open("about:blank")
        self.process.send_signal(signal.SIGINT)
        said = self.process.communicate(timeout=60)[1]
        expect(self.process.returncode == 0, f"the command ended with status {self.process.returncode}: {said}")
        return said

    def members(self, path):
        with urllib.request.urlopen(self.address.replace("/page/", f"/{path}"), timeout=60) as answer:
            return json.loads(answer.read())

    def at(self, frame):
        self.browser.wait(
            f"wokureti.model.frame === {frame} && wokureti.viewer.picture.now &&"
            f" document.getElementById('picture-text').textContent.startsWith('frame {frame},')"
        )

    def pixels(self):
        """The red, green and blue of the canvas."""
        found = self.browser.run(
            """const canvas = document.getElementById("now-canvas");
            const data = canvas.getContext("2d").getImageData(0, 0, canvas.width, canvas.height).data;
            let text = "";
            for (let place = 0; place < data.length; place += 4) text += String.fromCharCode(
                data[place], data[place + 1], data[place + 2]);
            return [canvas.width, canvas.height, btoa(text)];"""
        )
        return found[0], found[1], base64.b64decode(found[2])

    def shows(self, wanted, text):
        """The canvas gets these pixels: a picture of the stream before an edit may be there for a moment."""
        limit = time.monotonic() + 10
        while self.pixels()[2] != wanted and time.monotonic() < limit:
            time.sleep(0.05)
        expect(self.pixels()[2] == wanted, text)

    def quiet(self, what):
        """Nothing is wrong in the console. What it has of reading canvases back is about this comparison."""
        errors = [error for error in self.browser.errors() if "willReadFrequently" not in error]
        expect(not errors, f"{what}: the console has {errors[:3]}")


def end_all():
    """Ends the commands that a failure left."""
    for process in Page.started:
        if process.poll() is None:
            process.terminate()
            process.wait(60)


def by_ffmpeg(clip, frame, width, height):
    """Red, green and blue of a frame that ffmpeg decodes and converts, each chroma sample as large as the luma samples
    that it covers. ffmpeg scales chroma of odd sizes, so the samples get a row and a column more for the conversion."""
    words = [
        "ffmpeg",
        "-nostdin",
        "-v",
        "error",
        "-i",
        str(clip),
        "-vf",
        f"select=eq(n\\,{frame})",
        "-frames:v",
        "1",
        "-f",
        "rawvideo",
        "-pix_fmt",
        "yuv420p",
        "-",
    ]
    samples = subprocess.run(words, stdout=subprocess.PIPE, check=True).stdout
    across, down = width + width % 2, height + height % 2
    rows = [samples[row * width : (row + 1) * width] for row in range(height)]
    rows = [row + row[-1:] * (across - width) for row in rows]
    rows += rows[-1:] * (down - height)
    words = ["ffmpeg", "-v", "error", "-f", "rawvideo", "-pix_fmt", "yuv420p", "-s", f"{across}x{down}", "-i", "-"]
    scale = "scale=flags=neighbor+accurate_rnd+full_chroma_int:in_h_chr_pos=128:in_v_chr_pos=128"
    words += ["-vf", scale, "-f", "rawvideo", "-pix_fmt", "rgb24", "-"]
    found = subprocess.run(
        words, input=b"".join(rows) + samples[width * height :], stdout=subprocess.PIPE, check=True
    ).stdout
    return b"".join(found[3 * row * across : 3 * (row * across + width)] for row in range(height))


def greatest(one, other):
    return max((abs(left - right) for left, right in zip(one, other)), default=0) if len(one) == len(other) else 256


def psnr(one, other):
    """The PSNR of two planes, as a number."""
    total = sum((left - right) ** 2 for left, right in zip(one, other))
    return math.inf if not total else 10 * math.log10(255 * 255 * len(one) / total)


def colours(browser, room):
    """The pixels of the canvas are those of ffmpeg's PNG."""
    worst = by_browser = count = 0
    clips = [
        (TOP / "examples/mandelbrot.ivf", (0, 20, 47)),
        (TOP / "crates/gate_clips/data/odd-size.ivf", (0, 5)),
        (TOP / "crates/gate_clips/data/small.ivf", (3,)),
    ]
    make_clip(room / "bars.ivf", "352x288", 20, "smptebars")
    clips.append((room / "bars.ivf", (7,)))
    for clip, frames in clips:
        page = Page(browser, clip, "--edits", room / "list-of-colours", "--save", room / "saved-colours.ivf")
        page.open()
        for frame in frames:
            browser.run(f"await wokureti.model.go({frame})")
            page.at(frame)
            width, height, mine = page.pixels()
            theirs = by_ffmpeg(clip, frame, width, height)
            worst = max(worst, greatest(mine, theirs))
            # What `wokureti png` writes is the same, byte for byte.
            with Session(clip) as session:
                exact = session.frame(frame).rgb().tobytes()
            expect(mine == exact, f"{clip.name}, frame {frame}: the canvas is not the frame")
            # In playback the browser converts the samples itself.
            browser.run("const { picture } = wokureti.viewer; picture.show(picture.now, null, { isPlaying: true })")
            by_browser = max(by_browser, greatest(page.pixels()[2], mine))
            count += 1
        page.quiet(clip.name)
        page.end()
        for name in ("list-of-colours", "saved-colours.ivf"):
            with contextlib.suppress(FileNotFoundError):
                os.unlink(room / name)
    expect(worst <= ROUNDING, f"colours differ by {worst} from ffmpeg's")
    say(
        f"colours: {count} frames are those of `wokureti png`, byte for byte; ffmpeg's differ by at most {worst}; in"
        f" playback the browser's own differ by at most {by_browser}"
    )


# What the functions of the modules return, for arguments whose results are known.
FUNCTIONS = """
    const modules = {};
    for (const name of ["steps", "player", "script", "window", "fragment", "colours", "timeline", "tiles", "findings",
        "keys", "engine", "loupe", "shots", "programme", "curves", "cutting", "times", "sound"]) {
      modules[name] = await import(new URL(`${name}.js`, document.baseURI));
    }
    const views = await import(new URL("engines/views.js", document.baseURI));
    const { steps, player, script, window: part, fragment, colours, timeline, tiles, findings, keys, engine, loupe,
        shots, programme, curves, cutting, times, sound } = modules;
    const { ranges } = cutting;
    const anew = (script, frames = [100, 40]) => {
      const { shots: found, isAll } = shots.shotsOf(script, frames);
      return [shots.nodesFor(found, frames).join("; "), isAll];
    };
    const after = (change, script = "-", frames = [100, 40]) => {
      const found = change(shots.shotsOf(script, frames).shots);
      return found && shots.nodesFor(found, frames).join("; ");
    };
    const block = { shot: { count: 50, fadeIn: 10, fadeOut: 0 }, left: 100, right: 200 };
    const made = (lines) => {
      const list = [..."abcdefghij"];
      for (const line of lines) {
        const [word, ...rest] = line.split(" ");
        const at = rest.map(Number);
        if (word === "delete") list.splice(at[0], 1);
        if (word === "move") list.splice(at[1], 0, ...list.splice(at[0], 1));
        if (word === "copy") list.splice(at[2], 0, list[at[1]]);
        if (word === "hold") list.splice(at[0], 0, "-");
        if (word === "replace") list[at[0]] = rest[1] === "-" ? "." : rest[1];
      }
      return list.join("");
    };
    const range = { first: 3, end: 7 };
    const samples = Uint8Array.from({ length: 6 }, (_, place) => [81, 81, 81, 81, 90, 240][place]);
    const frame = { width: 2, height: 2, samples };
    const other = { width: 2, height: 2, samples: Uint8Array.from([81, 81, 81, 80, 90, 238]) };
    const ivf = new Uint8Array(47);
    ivf.set([0x44, 0x4b, 0x49, 0x46, 0, 0, 32]);
    ivf.set([3], 32);
    ivf.set([7, 8, 9], 44);
    return [
      made(steps.deleted(3, 6)), made(steps.held(3, 6)), made(steps.heldBefore(3, 6)), made(steps.dropped(3, 6)),
      steps.ofSource(["x"], 1, 0), steps.ofSource(["x"], 0, 0),
      steps.hexadecimal([0, 17, 255]), steps.hexadecimal([]), [...steps.packetOf(ivf)],
          [...steps.packetOf(ivf.subarray(1))].length,
      [steps.packetOfLine("copy 1 2 3"), steps.packetOfLine("delete 7"), steps.packetOfLine("script -")],
      [0, 1, 2, 3, 6].map((passed) => player.frameDue(5, 1, passed, range, true)),
          [0, 1, 2, 3].map((passed) => player.frameDue(5, -1, passed, range, false)),
      player.framesAhead(5, 1, 9, range, true), player.framesAhead(5, -1, 9, range, false),
          player.orderOf([18, 17, 16, 15, 14], -1),
      script.nodesOf(" trim 0  0 5;fade 1 2 3 4 5\\n;"), script.lineOf(""), script.lineOf("trim 0 0 5\\n\\n"),
          script.nodeOf("script: node 12: x"), script.rangeOf("a b;c\\nd", 3),
      [0.3, 3, 70, 100, 101].map(part.stepOf), [9, 1500, 250000, 3e6].map(part.bytesText),
      fragment.parse("#frame=5&scale=0.5&view=pair&x=1&frame=-1&source=a"),
          fragment.format({ frame: 5, view: "frame", source: 0, scale: 1 / 3, from: undefined }),
      colours.colourOf(81, 90, 240), [...new Uint8Array(colours.toColour(frame).buffer)].slice(0, 8),
          colours.toDifference(frame, other, "colour", 16).map((pixel) => pixel & 255).join(),
      colours.compared(frame, other).differing, colours.compared(frame, other).psnr.y.toFixed(4),
          colours.compared(frame, frame).psnr.v === Infinity, colours.toPlane(frame, "v")[3] & 255,
      [2, 3, 9].map((value) => views.firstAt([1, 3, 5], value)), [1, 0.5, 0.3, 0.001].map(tiles.perOf),
      findings.ordered([{ severity: "note" }, { severity: "damage" }]).map(({ place }) => place),
          keys.nameOf({ key: "Z", ctrlKey: true, shiftKey: true }), keys.nameOf({ key: "?", shiftKey: true }),
      engine.sizeOf(175, 143), loupe.textAt(frame, other, 1, 1),
      anew("-"), anew("trim 0 10 20; trim 1 5 100"),
          anew("source 1; splice 0 1; trim 2 90 20; trim 2 110 20; splice 3 4"),
          anew("trim 0 0 50; fade 1 40 10 256 0; trim 0 50 50; fade 3 0 5 0 256; splice 2 4"),
      anew("crop 0 0 0 2 2; trim 1 0 5"), anew("fade 0 10 10 256 0"), anew("fade 0 0 10 0 256; trim 1 5 20"),
          anew("trim 0 0 0"), anew("trim 0 0 5; splice 1 1"), anew("source 1; splice 0 1; trim 2 0 0; splice 2 0"),
          anew("parts 0 5 10 0 0 0 0 40 90; parts 1 2 10 1 20 5"),
      after((found) => shots.picked(found, ranges.kept({ first: 5, end: 9 }))),
          after((found) => shots.picked(found, ranges.without({ first: 5, end: 9 }, 100))),
          after((found) => shots.picked(found, ranges.moved({ first: 5, end: 9 }, 100, 20))),
          after((found) => shots.picked(found, ranges.moved({ first: 20, end: 22 }, 100, 3))),
      after((found) => shots.picked(found, ranges.moved({ first: 5, end: 9 }, 100, 100))),
          after((found) => shots.picked(found, ranges.without({ first: 5, end: 9 }, 100)), "fade 0 0 10 0 256"),
          after((found) => shots.picked(found, ranges.without({ first: 10, end: 12 }, 100)), "fade 0 0 10 0 256"),
      after((found) => shots.fading(found, { first: 90, end: 100 }, false)),
          after((found) => shots.fading(found, { first: 0, end: 100 }, true)),
      shots.partsOver("-", ranges.moved({ first: 5, end: 9 }, 100, 20), [100]).join("; "),
          shots.partsOver("crop 0 0 0 2 2", ranges.moved({ first: 0, end: 2 }, 10, 10), [10]).join("; "),
          shots.partsOver("fade 0 3 4 256 128; parts 1 0 20 1 30 90", [[5, 25]], [100]).join("; "),
          shots.partsOver("fade 0 3 4 256 128; trim 1 10 200", [[80, 90], [0, 1]], [100]).join("; "),
      programme.blocksOf([{ count: 30 }, { count: 10 }], { pixelOf: (frame) => 2 * frame })
          .map(({ left, right }) => [left, right]),
      programme.handleAt([block], 121), programme.handleAt([block], 199), programme.handleAt([block], 150),
      [programme.fadeAt(block, "fadeIn", 130), programme.fadeAt(block, "fadeIn", 0),
          programme.fadeAt(block, "fadeOut", 150), programme.fadeAt(block, "fadeOut", 0)],
      curves.spread(0, 10, 3), curves.spread(5, 8, 300), curves.psnrOf(frame, frame),
          curves.psnrOf(frame, { ...other, width: 1 }),
      ["5", "-5", "+2", "−1", "1:02.5", "12.7", "0:03,3", "", " ", "x", "1:2:3:4", "-9", "1e3"]
          .map((text) => times.frameOf(text, 7, 25)),
      times.frameOf("0.5", 0, 25, [0, 100, 400, 600]), times.timeText(90062.5 * 2, 2),
      [sound.secondOf(50, 25), sound.secondOf(1, 25, [0, 120])],
          ["crop 0 3 0 4 4", "crop 0 2 1 4 4", "crop 0 2 0 5 7", "trim 0 3 3"].map(script.isOddCrop),
      cutting.followed("-", 1).join("; "), cutting.followed("crop 0 0 0 2 2", 0).join("; "),
          after((found) => shots.followed(found, 1, [100, 40])),
          after((found) => shots.followed(found, 1, [100, 40]), "trim 0 0 5; source 1; splice 1 2"),
    ];"""
RESULTS = [
    "abcghij", "abc---ghij", "abc---ghij", "abc...ghij",
    ["use 1", "x"], ["x"],
    "0011ff", "-", [7, 8, 9], 46,
    [3, 7, None],
    [5, 6, 3, 4, 3], [5, 4, 3, None],
    [5, 6, 3, 4], [5, 4, 3], [16, 17, 18, 14, 15],
    ["trim 0 0 5", "fade 1 2 3 4 5"], "script -", "script trim 0 0 5", 12, [6, 7],
    [1, 5, 100, 100, 200], ["9 B", "1.5 kB", "250 kB", "3.0 MB"],
    {"frame": 5, "scale": 0.5, "view": "pair"}, "#frame=5&scale=0.333333",
    [254, 0, 0], [254, 0, 0, 255, 254, 0, 0, 255], "32,32,32,32",
    # One of four luma samples differs by 1: 10 log10(255 * 255 * 4).
    2, f"{10 * math.log10(255 * 255 * 4):.4f}", True, 240,
    [1, 1, 3], [1, 2, 4, 1024],
    [1, 0], "Ctrl+Shift+Z", "?",
    175 * 143 + 2 * 88 * 72, "x 1, y 1\nY 81  U 90  V 240\nbefore 80  90  238\nRGB 254, 0, 0\nmacroblock 0, 0",
    # Scripts that are written anew from their shots.
    ["", True], ["trim 0 15 15", True], ["source 1; parts 0 90 10 1 0 30", True],
    ["trim 0 0 50; fade 1 40 10 256 0; trim 0 50 50; fade 3 0 5 0 256; parts 2 0 50 4 0 50", True],
    ["trim 0 0 5", False], ["", False], ["trim 0 5 20", False], ["trim 0 0 0", True], ["parts 0 0 5 0 0 5", True],
        ["source 1; parts 0 0 100 1 0 40 0 0 100", True], ["parts 0 7 8 0 40 2 0 50 5", True],
    "trim 0 5 4", "parts 0 0 5 0 9 91", "parts 0 0 5 0 9 11 0 5 4 0 20 80", "parts 0 0 3 0 20 2 0 3 17 0 22 78",
    "parts 0 0 5 0 9 91 0 5 4", None, "trim 0 0 10; fade 1 0 10 0 256; parts 2 0 10 0 12 88",
    "fade 0 90 10 256 0", "fade 0 0 100 0 256",
    "parts 0 0 5 0 9 11 0 5 4 0 20 80", "crop 0 0 0 2 2; parts 1 2 8 1 0 2", "fade 0 3 4 256 128; parts 1 5 15 1 30 5",
        "fade 0 3 4 256 128; parts 1 90 10 1 10 1",
    [[0, 60], [60, 80]], {"block": 0, "name": "fadeIn"}, {"block": 0, "name": "fadeOut"}, None,
    [15, 0, 25, 40],
    [0, 3, 6, 9], [5, 6, 7], 60, None,
    [5, 2, 9, 6, 1562, 317, 82, None, None, None, None, 0, None], 2, "25:01:02.500",
    [2, 0.12], [True, True, False, False],
    "source 1; splice 0 1", "crop 0 0 0 2 2; splice 1 0", "source 1; parts 0 0 100 1 0 40",
        "source 1; parts 0 0 5 1 0 40 1 0 40",
]  # fmt: skip


def functions(page):
    """The functions of the modules."""
    found = page.browser.run(FUNCTIONS)
    expect(len(found) == len(RESULTS), f"{len(found)} results, not {len(RESULTS)}")
    for number, (one, wanted) in enumerate(zip(found, RESULTS)):
        expect(one == wanted, f"result {number} is {one!r}, not {wanted!r}")
    say(f"functions of the modules: {len(found)} results")


def look(page):
    """Stepping, zooming and selecting."""
    browser = page.browser
    browser.run("document.getElementById('timeline').focus()")
    # A key frame is every 50th one.
    steps = (
        (["Right"], 1),
        (["Right"], 2),
        (["Left"], 1),
        (["PageDown"], 11),
        (["Down"], 50),
        (["Down"], 100),
        (["Up"], 50),
        (["PageUp"], 40),
        (["Up"], 0),
        (["End"], 249),
        (["Home"], 0),
    )
    for keys, frame in steps:
        browser.key(*keys)
        browser.wait(f"wokureti.model.frame === {frame}")
    browser.click("#frame")
    browser.run("document.getElementById('frame').select()")
    browser.type("#frame", "42")
    browser.key("Enter")
    page.at(42)
    box = browser.run(
        "const box = document.getElementById('bars').getBoundingClientRect(); return [box.left, box.top, box.width,"
        " box.height]"
    )
    before = browser.run("return wokureti.timeline.window.scale")
    for _ in range(4):
        browser.wheel(box[0] + box[2] / 4, box[1] + 40, -200)
    browser.wait(f"wokureti.timeline.window.scale > {2 * before}")
    browser.key("+")
    browser.wait(f"wokureti.timeline.window.scale > {4 * before}")
    browser.run("document.getElementById('timeline').focus()")
    browser.key("0")
    browser.wait(f"Math.abs(wokureti.timeline.window.scale - {before}) < 1e-6")
    # A click goes to a packet, a drag selects.
    pixel = browser.run("return wokureti.timeline.window.pixelOf(100.5)")
    browser.drag([(box[0] + pixel, box[1] + 60)])
    browser.wait("wokureti.model.packet === 100 && wokureti.model.frame === 100")
    first, last = (browser.run(f"return wokureti.timeline.window.pixelOf({packet}.5)") for packet in (120, 140))
    browser.drag(
        [(box[0] + first, box[1] + 60), (box[0] + (first + last) / 2, box[1] + 60), (box[0] + last, box[1] + 60)]
    )
    found = browser.run("return wokureti.model.selection")
    expect(found == {"first": 120, "end": 141}, f"the selection is {found}")
    browser.key("Escape")
    browser.wait("wokureti.model.selection === null")
    browser.run("await wokureti.model.go(30)")
    browser.key("i")
    browser.run("await wokureti.model.go(35)")
    browser.key("o")
    found = browser.run("return wokureti.model.range")
    expect(found == {"first": 30, "end": 36, "mark": None}, f"I and O select {found}")
    browser.key("Escape")
    say("looking: keys, the number of a frame, wheel, click, drag, I and O")


def move_about(page):
    """A selection that ends near a key packet ends there, the picture is enlarged and dragged, fills the screen, and J,
    K and L play.
    """
    browser = page.browser
    browser.run("wokureti.timeline.zoomAll(); document.getElementById('timeline').focus()")
    box = browser.run("const box = document.getElementById('bars').getBoundingClientRect(); return [box.left, box.top]")
    at = lambda packet: (
        box[0]
        + browser.run("return wokureti.timeline.window.pixelOf(arguments[0])".replace("arguments", "args"), packet),
        box[1] + 60,
    )  # noqa: E731
    browser.drag([at(120.5), at(140.5), at(150.9)])
    expect(
        browser.run("return wokureti.model.selection") == {"first": 120, "end": 150},
        "a selection does not end at the key packet next to it",
    )
    browser.key("Escape")
    browser.click("[data-size='4']")
    browser.wait("document.getElementById('now-canvas').getBoundingClientRect().width === 4 * 640")
    before = browser.run(
        "const { scrollLeft, scrollTop } = document.getElementById('stage'); return [scrollLeft, scrollTop]"
    )
    middle = browser.run(
        "const box = document.getElementById('stage').getBoundingClientRect(); return [box.left + box.width / 2,"
        " box.top + box.height / 2]"
    )
    browser.drag([middle, (middle[0] - 60, middle[1] - 40), (middle[0] - 120, middle[1] - 80)])
    after = browser.run(
        "const { scrollLeft, scrollTop } = document.getElementById('stage'); return [scrollLeft, scrollTop]"
    )
    expect(
        [one - other for one, other in zip(after, before)] == [120, 80],
        f"a drag moves the picture from {before} to {after}",
    )
    browser.run("document.getElementById('timeline').focus()")
    browser.key("f")
    browser.wait("document.getElementById('now-canvas').getBoundingClientRect().width < 4 * 640")
    browser.key("w")
    browser.wait("document.fullscreenElement && document.fullscreenElement.id === 'viewer'")
    browser.key("w")
    browser.wait("!document.fullscreenElement")
    # On a busy machine it would end before the next key.
    browser.run(
        "document.getElementById('timeline').focus(); wokureti.player.isLoop = true; await wokureti.model.go(30)"
    )
    for key, speed in (("l", 1), ("l", 2), ("j", -1), ("j", -2), ("k", 0), ("j", -1), ("k", 0)):
        browser.key(key)
        browser.wait(f"wokureti.player.speed === {speed}")
    browser.run("wokureti.player.isLoop = false")
    say("moving: a selection snaps to a key packet, the picture at 4:1 is dragged, the whole screen, J K L")


def find_and_repair(page, clip, places):
    """Finds the broken packets, which are of two groups of pictures, previews the repairs of the first, takes one,
    takes it back, and takes that of the second recording; then that of the other."""
    browser = page.browser
    place = places[0]
    browser.wait("wokureti.findings.check && wokureti.findings.check.over", seconds=60)
    texts = browser.run(
        "return [...document.querySelectorAll('#findings-list li')].map(({ textContent }) => textContent)"
    )
    expect(
        len(texts) == len(places)
        and all("refused" in text and f"packet {at}" in text for text, at in zip(texts, places)),
        f"the findings are {texts}",
    )
    # Later than the findings comes the offer to repair all, which is above them.
    browser.wait(
        (
            "!document.getElementById('repair-all-line').hidden && wokureti.findings.all.check ==="
            " wokureti.findings.check.check"
        ),
        seconds=60,
    )
    browser.click("#findings-list li .row")
    browser.wait("document.querySelectorAll('.repairs button').length > 3")
    browser.wait(f"wokureti.model.packet === {place}")
    names = browser.run("return [...document.querySelectorAll('.repairs button')].map((button) => button.textContent)")
    expect(names[0].startswith("Take packet") and names[-1] == "Keep it as it is", f"the repairs are {names}")
    browser.wait("!document.getElementById('refusal').hidden")
    with Session(clip) as session:
        before = session.frame(place - 1).rgb().tobytes()
    revision = browser.run("return wokureti.model.revision")
    browser.run("document.querySelectorAll('.repairs button')[1].click()")
    browser.wait(
        "document.getElementById('preview-result').textContent !== '' && document.getElementById('refusal').hidden"
    )
    expect(page.pixels()[2] == before, "the preview of a held packet is not the picture before")
    expect(page.members("session")["revision"] == revision, "a preview changed the stream")
    browser.click("#preview-leave")
    browser.wait("!document.getElementById('refusal').hidden")
    browser.run("document.querySelectorAll('.repairs button')[1].click()")
    browser.wait("document.getElementById('preview-result').textContent !== ''")
    browser.click("#preview-take")
    browser.wait(f"wokureti.model.revision === {revision + 1} && document.getElementById('refusal').hidden")
    page.at(place)
    expect(page.pixels()[2] == before, "a held packet does not show the picture before")
    browser.run("document.getElementById('timeline').focus()")
    browser.key("Control", "z")
    browser.wait("!document.getElementById('refusal').hidden")
    browser.key("Control", "Shift", "Z")
    browser.wait("document.getElementById('refusal').hidden")
    browser.key("Control", "z")
    # Taken, undone, made again, undone: an edit closes what was open.
    browser.wait(
        f"wokureti.model.revision === {revision + 4} && wokureti.findings.check && wokureti.findings.check.revision ==="
        f" {revision + 4}"
    )
    browser.wait(
        "wokureti.findings.check && wokureti.findings.check.over && wokureti.findings.check.damage === 2 &&"
        " document.querySelector('#findings-list li')"
    )
    take_both(page, clip, places)
    say(
        "findings in two groups of pictures: found, previewed, held, undone, made again, repaired with packets of a"
        " second recording"
    )


def take_both(page, clip, places):
    """Takes the packet of the second recording for the first finding, and then for the one that is left."""
    browser = page.browser
    for left, place in zip(range(len(places) - 1, -1, -1), places):
        with Session(clip) as session:
            wanted = session.frame(place).rgb().tobytes()
        browser.click("#findings-list li .row")
        browser.wait(f"wokureti.model.packet === {place} && document.querySelectorAll('.repairs button').length > 3")
        browser.run("document.querySelectorAll('.repairs button')[0].click()")
        browser.wait("document.getElementById('preview-result').textContent.startsWith('no damage')")
        page.shows(wanted, "the preview of the second recording's packet is not its picture")
        browser.click("#preview-take")
        browser.wait(
            f"wokureti.findings.check && wokureti.findings.check.over && wokureti.findings.check.damage === {left}",
            seconds=30,
        )
        page.at(place)
        page.shows(wanted, "the repaired picture is not that of the second recording")
    expect(
        browser.run("return document.getElementById('repair-all-line').hidden"),
        "all is repaired, and a repair of all is offered",
    )


def compare_views(page, clip, place):
    """Pair, split and difference, and the numbers that are shown."""
    browser = page.browser
    browser.run("document.getElementById('timeline').focus()")
    # The packets after a dropped one decode to other pictures.
    browser.run(f"await wokureti.model.goPacket({place}); await wokureti.editing.drop()")
    frame = place + 5
    browser.run(f"await wokureti.model.go({frame})")
    browser.key("2")
    browser.wait("document.getElementById('picture-text').textContent.includes('PSNR')")
    text = browser.run("return document.getElementById('picture-text').textContent")
    with Session(clip) as session, Session(clip) as other:
        other.replace(place, b"")
        mine, theirs = other.frame(frame), session.frame(frame)
    number = sum(left != right for left, right in zip(mine.i420(), theirs.i420()))
    values = [psnr(getattr(mine, name).tobytes(), getattr(theirs, name).tobytes()) for name in "yuv"]
    wanted = f"{number:,} of {len(mine.i420()):,} samples differ"
    expect(wanted in text, f"{text}: not {wanted}")
    for name, value in zip("YUV", values):
        expect(f"{name} {value:.2f}" in text, f"{text}: PSNR of {name} is {value:.2f}")
    browser.key("3")
    browser.wait("!document.getElementById('split-handle').hidden")
    width, height, pixels = page.pixels()
    left, right = theirs.rgb().tobytes(), mine.rgb().tobytes()
    half = width // 2
    row = height // 2 * width * 3
    expect(
        pixels[row : row + 3 * half] == left[row : row + 3 * half]
        and pixels[row + 3 * half : row + 3 * width] == right[row + 3 * half : row + 3 * width],
        "the split is not both pictures",
    )
    box = browser.run(
        "const box = document.getElementById('now-canvas').getBoundingClientRect(); return [box.left, box.top,"
        " box.width, box.height]"
    )
    browser.drag(
        [(box[0] + box[2] / 2, box[1] + 40), (box[0] + box[2] / 3, box[1] + 40), (box[0] + box[2] / 4, box[1] + 40)]
    )
    split = browser.run("return wokureti.viewer.picture.split")
    expect(abs(split - 0.25) < 0.02, f"the split was dragged to {split}")
    browser.run("document.getElementById('timeline').focus()")
    browser.key("4")
    browser.wait("!document.getElementById('gain-label').hidden")
    pixels = page.pixels()[2]
    (across, _), _, _ = sides(width, height)
    planes = [(getattr(mine, name).tobytes(), getattr(theirs, name).tobytes()) for name in "yuv"]
    wrong = 0
    for y in range(0, height, 7):
        for x in range(0, width, 5):
            places = (y * across + x, y // 2 * ((width + 1) // 2) + x // 2, y // 2 * ((width + 1) // 2) + x // 2)
            most = max(abs(one[at] - two[at]) for (one, two), at in zip(planes, places))
            wrong += pixels[3 * (y * width + x)] != min(255, 8 * most)
    expect(wrong == 0, f"the difference is wrong at {wrong} samples")
    browser.key("1")
    browser.run("await wokureti.model.go(100)")
    browser.key("n")
    browser.wait(f"wokureti.model.frame >= {place}", seconds=30)
    with Session(clip) as session, Session(clip) as other:
        other.replace(place, b"")
        wanted = next(
            number for number in range(101, 250) if session.frame(number).i420() != other.frame(number).i420()
        )
    found = browser.run("return wokureti.model.frame")
    expect(found == wanted, f"the next frame that differs is {wanted}, not {found}")
    browser.key("Control", "z")
    browser.wait("wokureti.model.session.undone.length > 0")
    say("comparing: pair, split, difference, PSNR, samples, next difference")


# The colours of the overlay, in the middle of each macroblock, a little to the side of what vectors and numbers are
# drawn on.
OVERLAY = """
    const [columns, rows] = arguments;
    const canvas = document.getElementById("overlay-canvas");
    const context = canvas.getContext("2d");
    const { width, height } = wokureti.viewer.picture.now;
    const scale = canvas.width / width;
    const found = [];
    for (let row = 0; row < rows; row++) {
      for (let column = 0; column < columns; column++) {
        const [x, y] = [Math.min(width - 1, column * 16 + 3), Math.min(height - 1, row * 16 + 2)];
        found.push([...context.getImageData(Math.floor((x + 0.5) * scale), Math.floor((y + 0.5) * scale), 1, 1).data]);
      }
    }
    return [canvas.hidden, found];"""


def listed(path, packet):
    """The macroblocks of a packet as vp8list prints them: a dictionary of words for each."""
    lines = (
        subprocess.run(
            [programs.find("vp8list"), path, "--macroblocks", str(packet)],
            stdout=subprocess.PIPE,
            check=True,
            timeout=60,
        )
        .stdout.decode()
        .splitlines()
    )
    names = lines[0].split("\t")
    return [dict(zip(names, line.split("\t"))) for line in lines[1:] if not line.startswith("#")]


def rgb(colour):
    return tuple(int(colour[place : place + 2], 16) for place in (1, 3, 5))


def overlays(page, room):
    """Each overlay has the colours of what vp8list says, and the panel has the record, the samples and the header."""
    browser = page.browser
    (room / "edited.ivf").write_bytes(
        urllib.request.urlopen(page.address.replace("/page/", "/file/packets"), timeout=60).read()
    )
    browser.run("document.getElementById('timeline').focus()")
    wrong = checked = 0
    colours = browser.run(
        "const found = await import(new URL('overlay.js', document.baseURI)); return [found.LUMA, found.REFERENCE,"
        " found.heat(0), found.heat(1)]"
    )
    expect(colours[2:] == ["rgb(24,28,92)", "rgb(252,232,90)"], f"heat goes from {colours[2]} to {colours[3]}")
    heat = lambda part: tuple(
        map(
            int,
            browser.run(
                "const { heat } = await import(new URL('overlay.js', document.baseURI)); return heat(arguments[0])",
                part,
            )[4:-1].split(","),
        )
    )  # noqa: E731
    frame = browser.run(
        "wokureti.model.select(null); await wokureti.model.go(57); wokureti.viewer.choose_view('frame'); return"
        " wokureti.model.frame"
    )
    packet = browser.run("return (await wokureti.model.origin(wokureti.model.frame)).packet")
    rows = listed(room / "edited.ivf", packet)
    across, down = (1 + max(int(row[name]) for row in rows) for name in ("column", "row"))
    known = {}
    for kind, colour_of in (
        ("luma", lambda row: rgb(colours[0][row["luma"]])),
        ("reference", lambda row: rgb(colours[1][row["reference"]])),
        ("quantizer", lambda row: known.setdefault(row["quantizer"], heat(int(row["quantizer"]) / 127))),
        ("level", lambda row: known.setdefault("level " + row["level"], heat(int(row["level"]) / 63))),
    ):
        browser.run("wokureti.macroblocks.choose(arguments[0])", kind)
        browser.wait(
            "!document.getElementById('overlay-canvas').hidden &&"
            f" document.getElementById('overlay-canvas').dataset.shows === '{kind} of packet {packet}'"
        )
        is_hidden, found = browser.run(OVERLAY, across, down)
        expect(not is_hidden and len(found) == len(rows), f"{kind}: {len(found)} of {len(rows)} macroblocks")
        for place, (pixel, row) in enumerate(zip(found, rows)):
            far = max(abs(left - right) for left, right in zip(pixel[:3], colour_of(row)))
            is_wrong = far > 3 or abs(pixel[3] - 140) > 2
            wrong += is_wrong
            checked += 1
            if is_wrong and wrong < 4:
                expect(
                    False, f"{kind}: macroblock {place % across}, {place // across} has {pixel}, not {colour_of(row)}"
                )
        counts = browser.run(
            "return [...document.querySelectorAll('#overlay-legend span')].map((one) => one.textContent)"
        )
        if kind in ("luma", "reference"):
            total = sum(int(text.rsplit(" ", 1)[1].replace(",", "")) for text in counts)
            expect(total == len(rows), f"{kind}: the legend counts {total} of {len(rows)}")
    expect(checked == 4 * len(rows), f"{checked} macroblocks were compared")
    expect(wrong == 0, f"{wrong} of {checked} macroblocks have another colour")
    # What has other drawings: vectors, edges and bits have something where vp8list has something, and nothing where
    # not.
    browser.run("wokureti.macroblocks.choose('vectors')")
    browser.wait("document.getElementById('overlay-legend').textContent.includes('from last')")
    drawn = browser.run(
        "const { data } = document.getElementById('overlay-canvas').getContext('2d').getImageData(0, 0, 4000, 4000);"
        " let count = 0; for (let place = 3; place < data.length; place += 4) count += data[place] > 0; return count"
    )
    expect(drawn > 0, "no vector is drawn")
    browser.run("wokureti.macroblocks.choose('bits')")
    browser.wait("document.getElementById('overlay-legend').textContent.includes('greatest')")
    bits = [int(row["token_bits"]) + int(row.get("mode_bits", 0)) for row in rows]
    text = browser.run("return document.getElementById('overlay-legend').textContent")
    expect(
        f"{max(bits)} (greatest)" in text and f"{min(bits)} (least)" in text,
        f"the legend of bits is {text}, not {min(bits)} to {max(bits)}",
    )
    browser.run("wokureti.macroblocks.choose('edges')")
    browser.wait("document.getElementById('overlay-legend').textContent.includes('filtered')")
    text = browser.run(
        "return [...document.querySelectorAll('#overlay-legend span')].map((one) => one.textContent).join(';')"
    )
    for name, count in (
        ("skipped", sum(row["skip"] == "1" for row in rows)),
        ("edges filtered", sum(row["level"] != "0" for row in rows)),
        ("inner edges too", sum(row["inner"] == "1" for row in rows)),
    ):
        expect(f"{name} {count:,}" in text or count == 0, f"{name}: {count} are not in {text}")
    say(f"overlays: {checked} macroblocks have the colours of what vp8list says")
    panel_of_macroblocks(page, room, rows, across, packet, frame)


def panel_of_macroblocks(page, room, rows, across, packet, frame):
    """The record under the pointer, its samples, and the header."""
    browser = page.browser
    browser.click("#tab-macroblock")
    browser.wait("document.getElementById('macroblock-name').textContent !== ''")
    box = browser.run(
        "const box = document.getElementById('now-canvas').getBoundingClientRect(); const { width, height } ="
        " wokureti.viewer.picture.now; return [box.left, box.top, box.width / width, box.height / height]"
    )
    with Session(room / "edited.ivf") as session:
        picture = session.frame(frame)
    for place in (0, across + 3, len(rows) // 2, len(rows) - 1):
        row = rows[place]
        column, line = int(row["column"]), int(row["row"])
        browser.point(box[0] + (column * 16 + 6) * box[2], box[1] + (line * 16 + 6) * box[3])
        browser.wait(
            f"document.getElementById('macroblock-name').textContent === 'Macroblock {column}, {line} of packet"
            f" {packet}'"
        )
        facts = dict(
            browser.run(
                "return [...document.querySelectorAll('#macroblock-facts tr')].map((row) => [...row.cells].map((cell)"
                " => cell.textContent))"
            )
        )
        for name, title in (
            ("luma", "Luma mode"),
            ("reference", "Reference"),
            ("quantizer", "Quantizer index"),
            ("token_bits", "Bits of its tokens"),
            ("coefficients", "Coefficients"),
        ):
            expect(
                facts.get(title, "").replace(",", "") == row[name],
                f"macroblock {column}, {line}: {title} is {facts.get(title)}, not {row[name]}",
            )
        if row["vector"] != "-":
            x, y = (int(part) / 4 for part in row["vector"].split(":"))
            expect(
                facts["Vector"] == f"{x:g}, {y:g} samples",
                f"macroblock {column}, {line}: the vector is {facts['Vector']}, not {row['vector']} quarters",
            )
        for name, side in (("y", 16), ("u", 8), ("v", 8)):
            plane, (width, height) = (
                getattr(picture, name).tobytes(),
                sides(picture.width, picture.height)["yuv".index(name)],
            )
            lines = [
                plane[down * width + column * side : down * width + min(width, column * side + side)]
                for down in range(line * side, min(height, line * side + side))
            ]
            text = browser.run(f"return document.getElementById('samples-{name}').textContent")
            expect(
                [list(map(int, found.split())) for found in text.split("\n")] == [list(wanted) for wanted in lines],
                f"macroblock {column}, {line}: other samples in {name}",
            )
    # The arrow keys go to the next macroblock.
    browser.run("wokureti.macroblocks.go(2, 2); document.getElementById('stage').focus()")
    browser.key("Shift", "Right")
    browser.key("Shift", "Down")
    browser.wait("document.getElementById('macroblock-name').textContent.startsWith('Macroblock 3, 3 ')")
    # Samples before an edit.
    browser.run("document.getElementById('timeline').focus()")
    browser.run(
        f"await wokureti.model.goPacket({packet}); await wokureti.editing.drop(); await wokureti.model.go({frame + 2})"
    )
    browser.wait("document.getElementById('samples-title').textContent.startsWith('Samples')")
    # Other edits and a script may be there.
    before = f"(await wokureti.engine.look('origins', {{ from: {frame + 2}, count: 1 }})).before[0]"
    shown = (
        "return btoa(Array.from((await wokureti.engine.frames([%s], { of: %s }))[0].samples, (one) =>"
        " String.fromCharCode(one)).join(''))"
    )
    samples = [
        base64.b64decode(browser.run(shown % one)) for one in ((before, "{ before: 0 }"), (frame + 2, "undefined"))
    ]
    pictures = [frame_of(0, picture.width, picture.height, one) for one in samples]
    most = max(range(across), key=lambda column: differing(pictures, column, 3))
    count = differing(pictures, most, 3)
    browser.run("wokureti.macroblocks.go(arguments[0], 3)", most)
    browser.wait(
        "document.getElementById('samples-title').textContent ==="
        f" {json.dumps(f'Samples now: {count} differ' if count else 'Samples: as before the edits')}"
    )
    marks = browser.run("return document.querySelectorAll('#samples-before mark').length")
    expect(marks == count, f"{marks} samples are marked, {count} differ")
    expect(count > 0, "no sample of the macroblock differs")
    # A packet of no bytes has no macroblocks, and says so.
    browser.run(f"await wokureti.model.go({frame})")
    browser.wait("document.getElementById('macroblock-note').textContent.includes('has no bytes')")
    browser.key("Control", "z")
    browser.wait("document.getElementById('macroblock-note').textContent === ''")
    # The header.
    browser.click("#tab-packet")
    browser.run(f"await wokureti.model.goPacket({packet})")
    browser.wait(
        f"document.getElementById('packet-name').textContent.startsWith('Packet {packet} of') &&"
        " document.querySelectorAll('#header-facts tbody tr').length > 5"
    )
    shown = browser.run(
        "return [...document.querySelectorAll('#header-facts tbody tr')].map((row) => [...row.cells].map((cell) =>"
        " cell.textContent))"
    )
    lines = (
        subprocess.run(
            [programs.find("vp8list"), room / "edited.ivf", "--header", str(packet)],
            stdout=subprocess.PIPE,
            check=True,
            timeout=60,
        )
        .stdout.decode()
        .splitlines()
    )
    # A field has three cells, a probability that is changed has brackets.
    fields = {name: cells for name, *cells in (line.split("\t") for line in lines[1:] if "[" not in line)}
    changes = sum("[" in line for line in lines)
    wrong = [row for row in shown if [cell.replace(", ", ",") for cell in row[1:]] != fields.get(row[0])]
    expect(not wrong and len(shown) > len(fields) - 6, f"the header has {wrong} where vp8list has {fields}")
    text = browser.run("return document.querySelector('#header-changes summary').textContent")
    expect(changes == 0 or text.endswith(f": {changes}"), f"{text}: {changes} probabilities change")
    # A picture that is cropped has no overlay.
    browser.run("await wokureti.editing.make(['script crop 0 16 16 320 160'], '')")
    browser.wait("document.getElementById('overlay-legend').textContent.includes('do not fit')")
    browser.run("document.getElementById('timeline').focus()")
    browser.key("Control", "z")
    browser.wait("!document.getElementById('overlay-canvas').hidden")
    # The address keeps the overlay.
    browser.wait("location.hash.includes('overlay=edges')")
    browser.run("wokureti.macroblocks.choose('none')")
    browser.wait("document.getElementById('overlay-canvas').hidden")
    browser.click("#tab-findings")
    say("macroblock under the pointer: record, samples now and before, header, a packet of no bytes, a cropped picture")


def differing(pictures, column, line):
    """How many samples of a macroblock differ in two frames."""
    count = 0
    for name, side in (("y", 16), ("u", 8), ("v", 8)):
        width, height = sides(pictures[0].width, pictures[0].height)["yuv".index(name)]
        planes = [getattr(picture, name).tobytes() for picture in pictures]
        for down in range(line * side, min(height, line * side + side)):
            start, end = down * width + column * side, down * width + min(width, column * side + side)
            count += sum(left != right for left, right in zip(*(plane[start:end] for plane in planes)))
    return count


def edit(page):
    """The other edits, and refusals, which change nothing."""
    browser = page.browser
    browser.run("document.getElementById('timeline').focus()")
    lines = lambda: page.members("session")["edits"]  # noqa: E731
    start = len(lines())
    browser.run("await wokureti.model.goPacket(60); wokureti.model.select(60, 63)")
    browser.key("Control", "c")
    browser.run("await wokureti.model.goPacket(10)")
    browser.key("Control", "v")
    browser.wait(f"wokureti.model.session.edits.length === {start + 3}")
    expect(lines()[start:] == ["copy 0 60 10", "copy 0 62 11", "copy 0 64 12"], f"a copy made {lines()[start:]}")
    expect(page.members("session")["packets"] == 253, "a copy of three packets made others")
    browser.key("Control", "z")
    browser.wait(f"wokureti.model.session.edits.length === {start}")
    browser.run("await wokureti.model.goPacket(60); wokureti.model.select(60, 63)")
    browser.key("Control", "x")
    browser.run("await wokureti.model.goPacket(80)")
    browser.key("Control", "v")
    browser.wait(f"wokureti.model.session.edits.length === {start + 3}")
    expect(lines()[start:] == ["move 60 79"] * 3, f"a move made {lines()[start:]}")
    browser.key("Control", "z")
    browser.wait(f"wokureti.model.session.edits.length === {start}")
    # What was copied is inserted, although its number is another one by then.
    browser.run("await wokureti.model.goPacket(60); wokureti.model.select(60, 63)")
    browser.key("Control", "c")
    browser.run("await wokureti.model.goPacket(2); wokureti.model.select(null)")
    browser.key("Delete")
    browser.wait("wokureti.model.packets === 249")
    browser.run("await wokureti.model.goPacket(10)")
    browser.key("Control", "v")
    browser.wait("wokureti.model.packets === 252")
    expect(
        lines()[start:] == ["delete 2", "copy 0 59 10", "copy 0 61 11", "copy 0 63 12"],
        f"a copy after a deletion made {lines()[start:]}",
    )
    for _ in range(2):
        browser.key("Control", "z")
    browser.wait(f"wokureti.model.session.edits.length === {start}")
    browser.run("wokureti.model.select(20, 25)")
    browser.key("Delete")
    browser.wait("wokureti.model.packets === 245")
    browser.run("wokureti.model.select(30, 32)")
    browser.key("h")
    browser.wait(f"wokureti.model.session.edits.length === {start + 9}")
    browser.click("#tab-edits")
    shown = browser.run("return document.querySelectorAll('#edits-list li .row').length")
    expect(shown == start + 9, f"the list shows {shown} edits")
    browser.run("[...document.querySelectorAll('#edits-list .row')].at(-1).click()")
    browser.wait("wokureti.model.packet === 31")
    browser.run("[...document.querySelectorAll('#edits-list .here')].at(-1).click()")
    browser.wait(f"wokureti.model.session.edits.length === {start + 5}")
    browser.run("document.getElementById('timeline').focus()")
    browser.key("Control", "z")
    browser.wait("wokureti.model.packets === 250")
    # What is refused.
    before = page.members("session")
    browser.run("await wokureti.editing.step(['delete 3', 'delete 99999'], '')")
    browser.wait("document.querySelector('.notice.bad')")
    text = browser.run("return document.querySelector('.notice.bad').textContent")
    expect("packet 99999 does not exist" in text, f"the refusal says {text}")
    expect(page.members("session") == before, "a refused step changed the stream")
    expect(browser.run("return wokureti.model.packets") == 250, "a refused step changed the page")
    browser.run("document.querySelector('.notice.bad button').click()")
    # The script, refused at its second node, and set.
    browser.click("#tab-script")
    browser.type("#script-text", "trim 0 0 50\nfade 1 24 25 256")
    browser.click("#script-form button.main")
    browser.wait("!document.getElementById('script-error').hidden")
    found = browser.run(
        "const text = document.getElementById('script-text'); return [document.querySelector('#script-numbers"
        " .bad').textContent, text.value.slice(text.selectionStart, text.selectionEnd),"
        " document.getElementById('script-error').textContent]"
    )
    expect(
        found[0] == "2" and found[1] == "fade 1 24 25 256" and "node 2" in found[2],
        f"the refusal of the script: {found}",
    )
    expect(page.members("session") == before, "a refused script changed the stream")
    browser.run(
        "const text = document.getElementById('script-text'); text.focus(); text.setSelectionRange(text.value.length,"
        " text.value.length)"
    )
    browser.type("#script-text", " 0")
    browser.key("Control", "Enter")
    browser.wait("wokureti.model.frames === 50")
    browser.run("await wokureti.model.go(49)")
    page.at(49)
    expect(set(page.pixels()[2]) <= {0, 1}, "the last frame of the fade is not black")
    browser.run("document.getElementById('timeline').focus()")
    browser.key("Control", "z")
    browser.wait("wokureti.model.frames === 250")
    # A crop that begins at an odd column.
    browser.run("document.getElementById('script-text').value = ''")
    browser.type("#script-text", "trim 0 0 50\ncrop 1 3 0 17 15")
    browser.key("Control", "Enter")
    browser.wait("document.getElementById('script-error').textContent.endsWith('column and row of a crop are even')")
    browser.run("document.getElementById('script-text').value = ''")
    browser.type("#script-text", "crop 0 2 0 17 15")
    browser.key("Control", "Enter")
    browser.wait("wokureti.model.session.script === 'crop 0 2 0 17 15'")
    browser.run("document.getElementById('timeline').focus()")
    browser.key("Control", "z")
    browser.wait("wokureti.model.session.script === '-'")
    # Files: bytes of a packet.
    browser.run("await wokureti.model.goPacket(7)")
    path = pathlib.Path(tempfile.gettempdir()) / f"page-{os.getpid()}.bin"
    path.write_bytes(b"\x11\x00")
    browser.click("#tab-packet")
    browser.type("#file", str(path))
    browser.wait("wokureti.model.session.edits.at(-1) === 'replace 7 1100'")
    path.unlink()
    browser.run("document.getElementById('timeline').focus()")
    browser.key("Control", "z")
    browser.wait("wokureti.model.session.edits.at(-1) !== 'replace 7 1100'")
    browser.click("#tab-findings")
    say("editing: copy, move, delete, hold, the list, refusals, the script, bytes of a file")


def asks_once(page):
    """The answer to a change has the state of the session after it: the page does not read it, whichever comes first,
    the answer or its event.
    """
    page.browser.run("await wokureti.model.goPacket(40)")
    for act in ("delete", "undo", "redo", "undo", "hold", "undo"):
        count = page.browser.run(
            """performance.clearResourceTimings();
            await wokureti.editing[args[0]]();
            await new Promise((done) => setTimeout(done, 1000));
            return performance.getEntriesByType("resource")
                .filter(({ name }) => new URL(name).pathname.endsWith("/session")).length;""",
            act,
        )
        expect(count == 0, f"{act} reads the state {count} times")
    say("the state after each change is in its answer")


def save_and_reload(page, path, clip):
    browser = page.browser
    browser.run("document.getElementById('timeline').focus()")
    leaves = (
        "const event = new Event('beforeunload', { cancelable: true }); window.dispatchEvent(event); return"
        " event.defaultPrevented"
    )
    expect(browser.run(leaves) is True, "closing does not ask although edits are not saved")
    browser.key("Control", "Shift", "s")
    browser.wait("wokureti.model.session.saved")
    expect(browser.run(leaves) is False, "closing asks although all is saved")
    expect(path.read_bytes() == clip.read_bytes(), "the saved stream is not the whole clip")
    browser.run("await wokureti.model.go(123); wokureti.timeline.zoom(6); wokureti.viewer.choose_plane('u')")
    browser.wait("location.hash.includes('frame=123')")
    hash_before = browser.run("return location.hash")
    view = browser.run("return [wokureti.timeline.window.from, wokureti.timeline.window.scale]")
    browser.reload()
    page.ready()
    page.at(123)
    after = browser.run("return [wokureti.timeline.window.from, wokureti.timeline.window.scale]")
    expect(
        browser.run("return location.hash") == hash_before
        and all(abs(one - two) < 0.01 for one, two in zip(view, after)),
        f"a reload shows {after}, not {view}",
    )
    browser.run("wokureti.viewer.choose_plane('colour'); wokureti.timeline.zoomAll()")
    say("saving: asked for, saved, byte for byte the clip; a reload comes back to frame and zoom")


def two_tabs(page):
    browser = page.browser
    first = browser.tabs()[0]
    second = browser.new_tab()
    browser.use_tab(second)
    page.open("#frame=5")
    page.at(5)
    browser.run("await wokureti.editing.step(['delete 249'], '')")
    browser.use_tab(first)
    browser.wait("wokureti.model.packets === 249", seconds=10)
    # An edit that is for an older revision is not made.
    browser.run("wokureti.model.session.revision -= 1; await wokureti.editing.step(['delete 0'], '')")
    browser.wait("document.querySelector('.notice.bad')")
    expect(page.members("session")["packets"] == 249, "an edit of an older revision was made")
    browser.run("await wokureti.editing.undo()")
    browser.use_tab(second)
    browser.wait("wokureti.model.packets === 250", seconds=10)
    browser.send("DELETE", "/window")
    browser.use_tab(first)
    browser.run("document.querySelectorAll('.notice button').forEach((button) => button.click())")
    say("two tabs: each shows the edits of the other; an edit for an older revision is not made")


def tab_to(browser, css, most=200):
    """Presses the Tab key until an element has the focus."""
    for _ in range(most):
        if browser.run("return document.activeElement.matches(arguments[0])", css):
            return
        browser.key("Tab")
    raise AssertionError(f"{css} is not reached by the Tab key")


def go_to(browser, text, frame):
    """Types a frame, and goes back to the timeline."""
    browser.key("g")
    browser.wait("document.activeElement.id === 'frame'")
    for letter in text:
        browser.key(letter)
    browser.key("Enter")
    browser.wait(f"wokureti.model.frame === {frame}")
    browser.wait(f"wokureti.model.known({frame}) && wokureti.model.known({frame}).packet === wokureti.model.packet")


def select_frames(browser, first, last):
    """Selects frames by I and O, each given as what is typed and its number."""
    for key, (text, frame) in (("i", first), ("o", last)):
        go_to(browser, text, frame)
        browser.key(key)


def keep_and_export(page, room, samples, shot):
    """Frames 83 to 131 are cut in and out, and exported."""
    browser = page.browser
    browser.key("Escape")
    select_frames(browser, ("0:03.32", 83), ("131", 131))
    browser.key("e")
    browser.wait(
        "wokureti.model.frames === 49 && wokureti.model.session.script === 'trim 0 83 49' && wokureti.model.range ==="
        " null"
    )
    browser.run(
        "window.clicked = null; document.addEventListener('click', ({ target }) => (clicked = target.download ||"
        " clicked), true)"
    )
    tab_to(browser, "#export")
    shot("kept")
    browser.key("Enter")
    browser.wait(
        (
            "document.getElementById('status').textContent.startsWith('exported keys-') &&"
            " document.getElementById('status').textContent.includes('49 frames')"
        ),
        seconds=120,
    )
    path = room / "keys-export.ivf"
    path.write_bytes(base64.b64decode(browser.run(EXPORTED)))
    with Session(path) as session:
        expect(
            [frame.i420() for frame in session.frames()] == samples, "the exported frames are not those that were kept"
        )
    tab_to(browser, "#timeline")
    browser.key("Control", "z")
    browser.wait("wokureti.model.frames === 250")


def join_by_keys(page, first, shot):
    """Source 1 is joined after the stream."""
    browser = page.browser
    browser.key("r")
    browser.wait("document.getElementById('ask').open && document.activeElement.matches('#ask select')")
    browser.key("End")
    browser.wait("document.activeElement.value === 'join 1'")
    shot("join")
    tab_to(browser, "#ask button[value=yes]")
    browser.key("Enter")
    browser.wait(
        "wokureti.model.session.script === 'source 1; parts 0 0 250 1 0 250' && wokureti.model.frames === 500 &&"
        " wokureti.model.frame === 250"
    )
    page.at(250)
    page.shows(first, "the joined source does not begin with its first frame")
    tab_to(browser, "#timeline")
    browser.key("Control", "z")
    browser.wait("wokureti.model.frames === 250")


def repair_by_keys(page, places, shot):
    """Each broken packet is repaired by that of the second recording."""
    browser = page.browser
    for left, place in zip(range(len(places) - 1, -1, -1), places):
        browser.key(".")
        browser.wait(f"wokureti.model.packet === {place}")
        tab_to(browser, "#findings-list .row")
        browser.key("Enter")
        browser.wait("document.querySelectorAll('.repairs button').length > 3")
        tab_to(browser, ".repairs button")
        shot("repairs")
        browser.key("Enter")
        browser.wait("document.getElementById('preview-result').textContent.startsWith('no damage')", seconds=60)
        shot("preview")
        tab_to(browser, "#preview-take")
        browser.key("Enter")
        browser.wait(
            f"wokureti.findings.check && wokureti.findings.check.over && wokureti.findings.check.damage === {left}",
            seconds=60,
        )
        tab_to(browser, "#timeline")


def by_keyboard(browser, room, made, size, looks):
    """A day's tasks by keys alone: damage is found and repaired, frames are cut out, others are kept and exported, a
    source is joined, a shot is moved, a fade is made, all is saved and opened again."""
    clip = made.clip
    stream = room / f"keys-{size[0]}.ivf"
    stream.write_bytes(made.broken.read_bytes())
    browser.set_size(*size)
    page = Page(browser, stream, "--source", clip)
    page.open()

    def shot(name):
        if looks is not None:
            (looks / f"{size[0]}x{size[1]}-{name}.png").write_bytes(browser.screenshot())

    browser.wait("wokureti.findings.check && wokureti.findings.check.over", seconds=60)
    shot("opened")
    repair_by_keys(page, made.places, shot)
    # Frames 20 to 29 are cut out; a time is typed for the first of them.
    tab_to(browser, "#timeline")
    with Session(clip) as session:
        pictures = {frame: session.frame(frame).rgb().tobytes() for frame in (0, 19, 30, 50, 99)}
        samples = [frame.i420() for frame in session.frames(range(83, 132))]
    select_frames(browser, ("0.8", 20), ("29", 29))
    browser.key("x")
    browser.wait("wokureti.model.frames === 240 && wokureti.model.range === null")
    go_to(browser, "20", 20)
    page.at(20)
    page.shows(pictures[30], "frame 30 does not follow frame 19 after a cut")
    browser.key("Control", "z")
    browser.wait("wokureti.model.frames === 250")
    keep_and_export(page, room, samples, shot)
    join_by_keys(page, pictures[0], shot)
    select_frames(browser, ("20", 20), ("29", 29))
    browser.key("x")
    browser.wait("wokureti.model.frames === 240 && wokureti.model.range === null")
    # The shot of the second key packet is moved to the beginning.
    browser.key("Home")
    browser.key("Down")
    browser.wait("wokureti.model.packet === 50")
    tab_to(browser, "#timeline")
    for _ in range(49):
        browser.key("Shift", "Right")
    browser.wait(
        "wokureti.model.selection && wokureti.model.selection.first === 50 && wokureti.model.selection.end === 100"
    )
    browser.key("Control", "x")
    browser.wait("!document.getElementById('paste').disabled")
    browser.key("Home")
    browser.wait("wokureti.model.packet === 0")
    browser.key("Control", "v")
    browser.wait(
        "wokureti.model.selection && wokureti.model.selection.first === 0 && wokureti.model.selection.end === 50"
    )
    browser.key("Home")
    page.at(0)
    page.shows(pictures[50], "the shot is not at the beginning")
    shot("moved")
    # A fade over the first second.
    browser.key("Escape")
    browser.key("i")
    go_to(browser, "24", 24)
    browser.key("o")
    browser.key("r")
    browser.wait("document.getElementById('ask').open")
    shot("fade")
    tab_to(browser, "#ask button[value=yes]")
    browser.key("Enter")
    browser.wait("wokureti.model.session.script.includes('fade') && wokureti.model.range === null")
    go_to(browser, "0", 0)
    page.at(0)
    page.shows(bytes(len(pictures[0])), "the first frame of the fade is not black")
    edits = page.members("session")
    browser.key("Control", "Shift", "s")
    browser.wait("document.getElementById('saved').textContent.includes('without the script')")
    browser.wait("document.getElementById('status').textContent.endsWith('-edited.ivf; times were numbered again')")
    shot("saved")
    saved = room / f"keys-{size[0]}-edited.ivf"
    packets = [data for _, data in ivf.read_packets(clip)[1]]
    expect(
        [data for _, data in ivf.read_packets(saved)[1]] == packets[50:100] + packets[:50] + packets[100:],
        "the saved packets are not those of the moved shot",
    )
    page.quiet(f"keys, {size[0]}x{size[1]}")
    page.end()
    # Opened again: all edits are there, what was never saved in this run is not called saved, and one undo takes back a
    # step.
    page = Page(browser, stream, "--source", clip)
    page.open()
    after = page.members("session")
    ends = [[one != other for one, other in zip(found["steps"], found["steps"][1:])] for found in (edits, after)]
    expect(
        (after["edits"], ends[1], after["saved"]) == (edits["edits"], ends[0], False),
        "the edits are not those of the run before",
    )
    tab_to(browser, "#timeline")
    browser.key("Control", "z")
    browser.wait("!wokureti.model.session.script.includes('fade')")
    browser.key("Control", "z")
    browser.wait(f"wokureti.model.session.edits.length === {len(edits['edits']) - 51}")
    shot("reopened")
    page.quiet(f"keys, {size[0]}x{size[1]}, opened again")
    page.end()
    browser.set_size(1440, 900)
    say(
        f"keys alone, {size[0]}x{size[1]}: found, repaired, cut out, cut in and out and exported, joined, moved, faded,"
        " saved, opened again"
    )


def add_and_crop(browser, room, clip, other):
    """A stream of the folder is opened on the page; a rectangle is drawn on the picture; the bits of the packets are a
    curve.
    """
    page = Page(browser, clip, "--edits", room / "list-of-crops")
    page.open()
    # On a new page.
    browser.click("#add-source")
    browser.wait("document.getElementById('ask').open")
    browser.run(
        (
            "document.querySelector('#ask select').value = args[0]; document.querySelectorAll('#ask select')[1].value ="
            " 'page'"
        ),
        str(other),
    )
    browser.click("#ask button[value=yes]")
    browser.wait("document.getElementById('status').textContent.endsWith('is open on a new page')", seconds=30)
    mine, theirs = browser.tabs()
    browser.use_tab(theirs)
    browser.wait("document.body && document.body.dataset.ready === 'yes'", seconds=60)
    expect(
        browser.run("return document.getElementById('name').textContent") == other.name,
        "the page of its own is of another stream",
    )
    browser.send("DELETE", "/window")
    browser.use_tab(mine)
    dropped_files(browser, other)
    # As a source.
    browser.click("#add-source")
    browser.wait("document.getElementById('ask').open")
    browser.run("document.querySelector('#ask select').value = args[0]", str(other))
    browser.click("#ask button[value=yes]")
    browser.wait("wokureti.model.session.sources.length === 2", seconds=60)
    expect(page.members("session")["names"] == [clip.name, other.name], "the added stream is not named")
    browser.run("await wokureti.model.go(5)")
    browser.click("#crop")
    box = browser.run(
        "const box = document.getElementById('now-canvas').getBoundingClientRect(); return [box.left, box.top,"
        " box.width, box.height]"
    )
    at = lambda across, down: (box[0] + across * box[2], box[1] + down * box[3])
    browser.drag([at(0.25, 0.25), at(0.5, 0.5), at(0.75, 0.75)])
    browser.wait("document.getElementById('ask').open")
    browser.click("#ask button[value=yes]")
    browser.wait("wokureti.model.session.script.startsWith('crop 0 ')")
    numbers = list(map(int, page.members("session")["script"].split()[2:]))
    wanted = [160, 90, 320, 180]
    expect(
        all(abs(one - two) <= 4 for one, two in zip(numbers, wanted)) and not numbers[0] % 2 and not numbers[1] % 2,
        f"the crop is {numbers}, and not about {wanted}",
    )
    browser.wait(f"document.getElementById('now-canvas').width === {numbers[2]}")
    with Session(clip) as session:
        session.script(f"crop 0 {' '.join(map(str, numbers))}")
        expect(page.pixels()[2] == session.frame(5).rgb().tobytes(), "the picture is not that of the crop")
    expect(
        page.members("session")["changing"] == [1, page.members("session")["script"]],
        "the crop is not known to change the picture",
    )
    browser.key("Control", "z")
    browser.wait("wokureti.model.session.script === '-'")
    browser.run(
        "const select = document.getElementById('curve'); select.value = 'bytes'; select.dispatchEvent(new"
        " Event('change'))"
    )
    browser.wait("wokureti.timeline.curve")
    found = browser.run(
        "const { lines, most } = wokureti.timeline.curve; return lines.flat().map(([packet, part]) => Math.round(part *"
        " most))"
    )
    with Session(clip) as session:
        wanted = [8 * facts["bytes"] for facts in session.packets()]
    expect(found == wanted[: len(found)] and len(found) > 200, f"the bits are {found[:3]}, not {wanted[:3]}")
    page.quiet("another stream and a crop")
    said = page.end()
    say("another stream on a new page and as a source, a crop, bits")
    return said


def dropped_files(browser, other):
    """A stream of the folder that is dropped on the page is offered; another one of its name and size, a folder and two
    files are not, and the page stays.
    """

    def drop(*paths):
        data = {"items": [], "files": list(map(str, paths)), "dragOperationsMask": 1}
        for kind in ("dragEnter", "dragOver", "drop"):
            browser.command("Input.dispatchDragEvent", type=kind, x=300, y=200, data=data)

    address = browser.run("return location.href.split('#')[0]")
    with tempfile.TemporaryDirectory() as name:
        another = pathlib.Path(name, other.name)
        another.write_bytes(other.read_bytes()[:-1] + bytes([other.read_bytes()[-1] ^ 1]))
        for path in (another, another.parent):
            drop(path)
            browser.wait(
                "document.getElementById('notices').textContent.includes(args[0])",
                f"{path.name} is no stream in the folders",
            )
            browser.click("#notices button")
            browser.wait("document.getElementById('notices').textContent === ''")
        drop(other, another)
        browser.wait("document.getElementById('status').textContent === 'one file is opened at a time'")
    drop(other)
    browser.wait("document.getElementById('ask').open")
    offered = browser.run("return [...document.querySelector('#ask select').options].map((option) => option.value)")
    expect(offered == [str(other)], f"for {other.name} {offered} are offered")
    browser.key("Escape")
    browser.wait("!document.getElementById('ask').open")
    expect(
        browser.run("return location.href.split('#')[0]") == address, "the page was left for a file that was dropped"
    )
    say("files dropped on the page: one of the folder is offered, no other one")


def asides(browser, room, clip, other):
    """Packets that no frame shows have their own picture; two sources are compared; what was called lost is shown."""
    page = Page(browser, clip, "--source", other, "--edits", room / "list-of-asides")
    page.open()
    browser.run("await wokureti.model.useSource(1)")
    with Session(other) as session:
        wanted = [session.frame(number).rgb().tobytes() for number in range(4)]
    browser.wait("document.getElementById('picture-text').textContent.startsWith('Packet 0 of source 1')")
    expect(page.pixels()[2] == wanted[0], "the picture of source 1 is not its first frame")
    browser.run("document.getElementById('timeline').focus()")
    browser.key("Right")
    browser.key("Right")
    browser.wait("document.getElementById('picture-text').textContent.startsWith('Packet 2 of source 1')")
    expect(page.pixels()[2] == wanted[2], "the picture is not that of packet 2 of source 1")
    browser.key("Delete")
    browser.wait("wokureti.model.session.edits.join() === 'use 1,delete 2'")
    browser.wait("document.getElementById('saved').textContent.includes('not saved')")
    expect(
        pathlib.Path(other).name in browser.run("return document.getElementById('saved').textContent"),
        "the source whose edits are not saved is not named",
    )
    browser.key("Control", "z")
    # A packet that the script leaves out.
    browser.run(
        "await wokureti.model.useSource(0); await wokureti.editing.make(['use 0', 'script trim 0 0 20'], ''); await"
        " wokureti.model.goPacket(40)"
    )
    browser.wait(
        "!document.getElementById('stage-note').hidden &&"
        " document.getElementById('picture-text').textContent.startsWith('Packet 40')"
    )
    with Session(clip) as session:
        expect(
            page.pixels()[2] == session.frame(40).rgb().tobytes(),
            "the picture is not that of the packet that the script leaves out",
        )
    # Two sources.
    browser.run(
        "await wokureti.model.go(3); wokureti.viewer.choose_view('pair'); const select ="
        " document.getElementById('against'); select.value = '1'; select.dispatchEvent(new Event('change'))"
    )
    browser.wait("document.getElementById('picture-text').textContent.includes('source 1')")
    with Session(clip) as one, Session(other) as two:
        mine, theirs = one.frame(3), two.frame(3)
    count = sum(left != right for left, right in zip(mine.i420(), theirs.i420()))
    text = browser.run("return document.getElementById('picture-text').textContent")
    expect(f"{count:,} of" in text, f"two sources are compared: {text}, not {count}")
    # A call in the last moment of another one is not lost.
    shown = browser.run(
        """
        const { viewer } = wokureti;
        await viewer.showing;
        const real = viewer.showNow;
        const lost = [];
        for (let wait = 0; wait < 8; wait++) {
          let calls = 0;
          viewer.showNow = async () => { calls++; };
          viewer.show();
          for (let turn = 0; turn < wait; turn++) await null;
          const before = calls;
          viewer.show();
          await new Promise((done) => setTimeout(done, 5));
          if (calls <= before && !(calls === 1 && before === 0)) lost.push(wait);
          if (calls === before) lost.push(wait);
        }
        viewer.showNow = real;
        return lost;"""
    )
    expect(not shown, f"calls of show() are lost after {shown} turns")
    page.quiet("asides")
    page.end()
    say(
        "packets that no frame shows: their own pictures, of another source and without a script; two sources are"
        " compared"
    )


class Shown(NamedTuple):
    """A frame that is shown: of which source and which frame of it, its weight against black, and whether it is in a
    fade, whose first weight may be 256.
    """

    source: int
    number: int
    weight: int = 256
    is_fade: bool = False


class ByMouse:
    """What a person does on the lane of shown frames, and the frames that must be shown then: in `shown`, which the
    page's own script is not asked for.
    """

    def __init__(self, page, made):
        self.page, self.browser, self.made = page, page.browser, made
        self.shown = [Shown(0, number) for number in range(250)]

    def lane(self):
        """Left, top, bottom, and pixels a frame. All of the lane is seen."""
        self.browser.wait(
            f"wokureti.model.frames === {len(self.shown)} && wokureti.programme.window.count === {len(self.shown)}"
        )
        left, top, bottom, scale = self.browser.run(
            """const canvas = document.getElementById("programme-canvas");
            canvas.scrollIntoView({ block: "nearest" });
            const { left, top, bottom } = canvas.getBoundingClientRect();
            return [left, top, bottom, wokureti.programme.window.scale];"""
        )
        return left, top, bottom, scale

    def go(self, frame):
        """Clicks on the numbers of the lane, where edges of a selection are not pressed."""
        left, top, _, scale = self.lane()
        self.browser.drag([(math.floor(left + (frame + 1) * scale - 1e-6), top + 8)])
        self.browser.wait(f"wokureti.model.frame === {frame}")

    def select(self, first, last):
        for frame, css in ((first, "#mark-in"), (last, "#mark-out")):
            self.go(frame)
            self.browser.click(css)
        self.browser.wait(
            f"wokureti.model.range && wokureti.model.range.first === {first} && wokureti.model.range.end === {last + 1}"
        )

    def made_so(self):
        self.browser.wait(f"wokureti.model.frames === {len(self.shown)} && wokureti.model.range === null")

    def join(self, source, count):
        self.browser.click("#frames-more")
        self.browser.wait("document.getElementById('ask').open")
        self.browser.run("document.querySelector('#ask select').value = args[0]", f"join {source}")
        self.browser.click("#ask button[value=yes]")
        self.shown += [Shown(source, number) for number in range(count)]
        self.made_so()

    def move(self, first, last, before):
        self.select(first, last)
        self.go(before)
        self.browser.click("#move-here")
        some = self.shown[first : last + 1]
        rest = self.shown[:first] + self.shown[last + 1 :]
        at = before if before < first else before - len(some)
        self.shown = rest[:at] + some + rest[at:]
        self.made_so()

    def cut_out(self, first, last):
        self.select(first, last)
        self.browser.click("#cut-out")
        del self.shown[first : last + 1]
        self.made_so()

    def fade(self, first, end, count, is_in):
        """Drags the handle of a shot, from frame `first` up to `end`, so that a fade in or out has `count` frames."""
        left, _, bottom, scale = self.lane()
        begin, side = (left + first * scale, 1) if is_in else (left + end * scale, -1)
        self.browser.drag([(begin + side * far, bottom - 13) for far in (4, count * scale / 2, count * scale)])
        self.browser.wait(
            f"document.getElementById('status').textContent.includes('fades {'in' if is_in else 'out'} in"
            f" {count} frames')"
        )
        at = first if is_in else end - count
        for number in range(count):
            weight = 256 * number // count
            self.shown[at + number] = self.shown[at + number]._replace(
                weight=weight if is_in else 256 - weight, is_fade=True
            )

    def samples(self):
        """What must be shown, as vp8serve serves the frames of each source by itself."""
        found = []
        with Session(self.made.clip) as one, Session(self.made.other) as two:
            for source, number, weight, _ in self.shown:
                session = (one, two)[source]
                session.script(*([] if weight == 256 else [f"fade 0 0 1 {weight} {weight}"]))
                found.append(session.frame(number).i420())
        return found


def digest(samples):
    return hashlib.sha256(samples).hexdigest()


def served(page, count):
    """The digest of each frame that the page's server has."""
    found = []
    for frame in range(count):
        with urllib.request.urlopen(page.address.replace("/page/", f"/frames/{frame}.i420"), timeout=60) as answer:
            found.append(digest(answer.read()))
    return found


def cut_by_mouse(page, made, shot):
    """A source is joined, shots are moved, an advertisement over a join is cut out, three fades are drawn, and then ten
    more parts go.
    """
    mouse = ByMouse(page, made)
    mouse.join(1, 50)
    mouse.move(250, 274, 100)
    mouse.move(180, 219, 30)
    shot("moved")
    mouse.select(120, 154)
    small_pictures(page)
    shot("advert")
    mouse.cut_out(120, 154)
    # The shots are frames 0 to 29, 30 to 69, 70 to 119, 120 to 129 and 240 to 264 of both sources, and two between
    # these.
    page.browser.wait("document.getElementById('programme-canvas').dataset.shots === '7'")
    mouse.fade(70, 120, 8, False)
    mouse.fade(130, 185, 16, True)
    mouse.fade(240, 265, 16, False)
    shot("fades")
    joins = 0
    for number in range(9):
        first = 7 + 17 * number
        while any(frame.is_fade for frame in mouse.shown[first : first + 5]):
            first += 1
        joins += (
            len({(frame.source, frame.number - place) for place, frame in enumerate(mouse.shown[first : first + 5])})
            > 1
        )
        mouse.cut_out(first, first + 4)
    expect(joins >= 2, f"{joins} of the cuts are over a join")
    # The last one is inside a fade.
    place = next(place for place, frame in enumerate(mouse.shown) if frame.weight == 48)
    mouse.cut_out(place, place + 2)
    small_pictures(page)
    shot("cut")
    return mouse


# By how much each small picture differs from the frame of its place, as it is served now, in the mean.
DIFFERENCES = """
    const { thumbs } = wokureti;
    const canvas = document.createElement("canvas");
    [canvas.width, canvas.height] = [64, 36];
    const context = canvas.getContext("2d", { willReadFrequently: true });
    const samples = (picture) => {
      context.drawImage(picture, 0, 0, 64, 36);
      return context.getImageData(0, 0, 64, 36).data;
    };
    const found = [];
    for (const { name, number, of } of thumbs.wanted) {
      const [one, other] = [samples(thumbs.found.get(name).picture), samples((await thumbs.small(number, of)).picture)];
      found.push(one.reduce((sum, sample, place) => sum + Math.abs(sample - other[place]), 0) / one.length);
    }
    return found;"""


def small_pictures(page):
    """The small pictures on the lane are those of the frames there, however fast the edits before were made."""
    page.browser.wait(
        (
            "wokureti.thumbs.wanted.length > 3 && wokureti.thumbs.wanted.every((one) => one &&"
            " wokureti.thumbs.found.get(one.name)?.picture)"
        ),
        seconds=60,
    )
    found = page.browser.run(DIFFERENCES)
    expect(max(found) < 1, f"small pictures differ from their frames by {[round(one, 1) for one in found]}")


def export_by_mouse(page, mouse, samples, path):
    """The export has the frames that must be shown: those of no fade sample for sample, the others with 36 dB at
    least.
    """
    browser = page.browser
    changed = [frame.weight != 256 for frame in mouse.shown]
    browser.run(
        "window.offering = null; const make = URL.createObjectURL; URL.createObjectURL = (blob) => { window.offering ="
        " blob; return make.call(URL, blob); }"
    )
    browser.click("#export")
    browser.wait("document.getElementById('ask').open", seconds=60)
    wanted = f"{sum(changed)} of {len(changed)} frames are coded again"
    text = browser.run("return document.querySelector('#ask .note').textContent")
    expect(text.startswith(wanted), f"Export says {text}, not {wanted}")
    browser.run("document.querySelector('#ask input').value = 36")
    browser.click("#ask button[value=yes]")
    browser.wait("document.getElementById('status').textContent.startsWith('exported ')", seconds=300)
    text = browser.run("return document.getElementById('status').textContent")
    expect(wanted in text, f"the export says {text}, not {wanted}")
    path.write_bytes(
        base64.b64decode(
            browser.run(
                "const bytes = new Uint8Array(await window.offering.arrayBuffer()); let text = ''; for (const byte of"
                " bytes) text += String.fromCharCode(byte); return btoa(text);"
            )
        )
    )
    with Session(path) as session:
        found = [frame.i420() for frame in session.frames()]
    same = [one == other for one, other in zip(found, samples)]
    wrong = [
        place for place, is_changed in enumerate(changed) if not is_changed and not same[place : place + 1] == [True]
    ]
    expect(
        len(found) == len(samples) and not wrong,
        f"{len(found)} frames are in the export; these are not those of the script: {wrong[:5]}",
    )
    worst = min(psnr(found[place], samples[place]) for place, is_changed in enumerate(changed) if is_changed)
    expect(worst >= 36, f"a coded frame has {worst:.2f} dB")
    return len(changed) - sum(changed), sum(changed), worst


def advert(browser, room, made, size, looks):
    """A day's task by mouse: a clip of several shots loses its advertisement, gets fades, is cut and exported; then all
    is opened again from the list of edits.
    """
    stream = room / f"advert-{size[0]}.ivf"
    stream.write_bytes(made.clip.read_bytes())
    browser.set_size(*size)
    page = Page(browser, stream, "--source", made.other)
    page.open()

    def shot(name):
        if looks is not None:
            (looks / f"{size[0]}x{size[1]}-{name}.png").write_bytes(browser.screenshot())

    mouse = cut_by_mouse(page, made, shot)
    samples = mouse.samples()
    wanted = list(map(digest, samples))
    before = served(page, len(wanted))
    wrong = [frame for frame, (one, other) in enumerate(zip(before, wanted)) if one != other]
    expect(
        not wrong and page.members("session")["frames"] == len(wanted),
        f"these frames are not those that were cut: {wrong[:5]}",
    )
    kept, coded, worst = export_by_mouse(page, mouse, samples, room / f"advert-{size[0]}-export.ivf")
    session = page.members("session")
    page.quiet(f"mouse, {size[0]}x{size[1]}")
    page.end()
    # The list of edits names the joined source.
    page = Page(browser, stream)
    page.open()
    after = page.members("session")
    expect(
        [after[name] for name in ("edits", "script", "frames", "names")]
        == [session[name] for name in ("edits", "script", "frames", "names")],
        f"opened again, the session is {after}",
    )
    expect(served(page, len(wanted)) == before, "opened again, other frames are shown")
    browser.click("#last")
    page.at(len(wanted) - 1)
    browser.wait("document.getElementById('programme-canvas').dataset.shots !== undefined")
    shot("reopened")
    page.quiet(f"mouse, {size[0]}x{size[1]}, opened again")
    page.end()
    browser.set_size(1440, 900)
    say(
        f"by mouse, {size[0]}x{size[1]}: joined, moved, an advertisement cut out, three fades, ten cuts; {kept} frames"
        f" exported as they are, {coded} coded, {worst:.1f} dB at least; opened again with the same"
        f" {len(wanted)} frames"
    )


def along(page, clip):
    """Small pictures and a curve along the timeline."""
    browser = page.browser
    count = "Number(document.getElementById('programme-canvas').dataset.pictures)"
    browser.wait(f"{count} > 10 && wokureti.thumbs.wanted.length === {count}", seconds=60)
    shown = browser.run(
        "return wokureti.thumbs.wanted.map(({ number }, place) => [number, ...[place, place + 1].map((at) =>"
        " wokureti.programme.window.packetAt(76 * at))])"
    )
    expect(
        all(first <= number <= end for number, first, end in shown),
        f"small pictures are not of the frames of their places: {shown}",
    )
    browser.run(
        "const select = document.getElementById('curve'); select.value = 'quantizer'; select.dispatchEvent(new"
        " Event('change'))"
    )
    browser.wait("wokureti.timeline.curve")
    found = browser.run(
        "return wokureti.timeline.curve.lines.flat().map(([packet, part]) => [Math.floor(packet), Math.round(part *"
        " 127)])"
    )
    wanted = [
        [fact["packet"], fact["quantizer"]]
        for fact in page.members("packets?count=10000")["packets"]
        if fact["quantizer"] is not None
    ]
    expect(found == wanted and len(found) > 200, f"the curve has {found[:3]}, not {wanted[:3]}")
    browser.run(
        "const select = document.getElementById('curve'); select.value = 'none'; select.dispatchEvent(new"
        " Event('change'))"
    )
    browser.wait("!wokureti.timeline.curve")
    browser.click("#thumbs-switch")
    browser.wait(f"{count} === 0")
    browser.click("#thumbs-switch")
    browser.wait(f"{count} > 10")
    page.quiet("pictures and curves")
    say(
        f"along the timeline: {len(shown)} small pictures, each of a frame of its place, and the quantizer of"
        f" {len(found)} packets"
    )


def shots_and_fades(browser, room, clip, other):
    """Shots are moved and cut by the script, fades are dragged on the programme, and the PSNR of frames is a curve."""
    link = room / "shots.ivf"
    link.symlink_to(clip)
    page = Page(browser, link, "--source", other)
    page.open()
    browser.run(
        "document.getElementById('programme').focus(); wokureti.model.selectFrames(60, 80); await wokureti.model.go(20)"
    )
    browser.key("v")
    browser.wait("wokureti.model.session.script !== '-'")
    wanted = "parts 0 0 20 0 60 20 0 20 40 0 80 170"
    expect(page.members("session")["script"] == wanted, f"the script after V is {page.members('session')['script']}")
    browser.wait("wokureti.model.frame === 20 && wokureti.model.packet === 60")
    # The script joins at frames 20, 40 and 80.
    for keys, frame in (
        (("Shift", "PageDown"), 40),
        (("Shift", "PageDown"), 80),
        (("Shift", "PageUp"), 40),
        (("Shift", "PageUp"), 20),
    ):
        browser.key(*keys)
        browser.wait(f"wokureti.model.frame === {frame}")
    browser.run("wokureti.model.selectFrames(100, 250)")
    browser.key("x")
    browser.wait("wokureti.model.frames === 100")
    wanted = "parts 0 0 20 0 60 20 0 20 40 0 80 20"
    expect(page.members("session")["script"] == wanted, f"the script after X is {page.members('session')['script']}")
    export_shots(browser, room, clip, wanted)
    # Four shots: 20, 20, 40 and 20 frames. The handle at the end of the third one is dragged to the left, that at the
    # beginning of the first to the right.
    browser.wait("document.getElementById('programme-canvas').dataset.shots === '4'")
    # The handles are in the band at the bottom.
    box = browser.run(
        "const box = document.getElementById('programme-canvas').getBoundingClientRect(); return [box.left, box.bottom"
        " - 19, box.width]"
    )
    browser.drag(
        [
            (box[0] + 0.8 * box[2] - 4, box[1] + 6),
            (box[0] + 0.75 * box[2], box[1] + 6),
            (box[0] + 0.7 * box[2], box[1] + 6),
        ]
    )
    browser.wait("wokureti.model.session.script.includes('fade')")
    browser.drag([(box[0] + 4, box[1] + 6), (box[0] + 0.02 * box[2], box[1] + 6), (box[0] + 0.05 * box[2], box[1] + 6)])
    browser.wait("wokureti.model.session.script.split('fade').length === 3")
    script = page.members("session")["script"]
    wanted = "trim 0 0 20; fade 1 0 5 0 256; trim 0 20 40; fade 3 30 10 256 0; parts 2 0 20 0 60 20 4 0 40 0 80 20"
    expect(script == wanted, f"the script with fades is {script}")
    expect(
        "changes the picture" in browser.run("return document.getElementById('export').title"), "a fade can be exported"
    )
    with Session(clip) as session:
        session.script(*script.split("; "))
        for frame in (0, 3, 39, 75, 79, 80):
            browser.run(f"await wokureti.model.go({frame})")
            page.at(frame)
            expect(
                page.pixels()[2] == session.frame(frame).rgb().tobytes(), f"frame {frame} with the fades is another one"
            )
    # A fade that is dragged back is none, and a click goes to a frame.
    browser.drag(
        [(box[0] + 0.7 * box[2], box[1] + 6), (box[0] + 0.8 * box[2], box[1] + 6), (box[0] + 0.85 * box[2], box[1] + 6)]
    )
    browser.wait("wokureti.model.session.script.split('fade').length === 2")
    browser.drag([(box[0] + 0.305 * box[2], box[1] - 20)])
    browser.wait("wokureti.model.frame === 30 && wokureti.model.packet === 70")
    browser.key("Control", "z")
    browser.wait(f"wokureti.model.session.script === '{script}'")
    # A picture is changed, so those after it are others up to the next key packet.
    browser.run("await wokureti.editing.make(['script -', 'hold 120', 'delete 121'], '')")
    browser.wait("wokureti.model.session.script === '-'")
    browser.run(
        "const select = document.getElementById('curve'); select.value = 'psnr'; select.dispatchEvent(new"
        " Event('change'))"
    )
    browser.wait("document.getElementById('status').textContent.startsWith('PSNR of 250')", seconds=60)
    found = dict(browser.run("return [...wokureti.timeline.curve.values]"))
    with Session(clip) as before, Session(clip) as after:
        after.hold(120)
        after.delete(121)
        wanted = {
            frame: min(60, psnr(after.frame(frame).y.tobytes(), before.frame(frame).y.tobytes()))
            for frame in (0, 119, 120, 121, 135, 149, 150, 249)
        }
    wrong = {
        frame: (found.get(frame), value)
        for frame, value in wanted.items()
        if frame not in found or abs(found[frame] - value) > 1e-6
    }
    expect(not wrong and len(found) == 250, f"the PSNR of {len(found)} frames: {wrong}")
    expect(wanted[119] == wanted[150] == 60 and wanted[121] < 60, f"the PSNR is {wanted}")
    page.quiet("shots, fades and PSNR")
    page.end()
    say(
        "shots: moved and cut out by keys, fades dragged on the programme, frames as vp8serve serves them; the PSNR of"
        " 250 frames as a curve"
    )


# The bytes of the export.
EXPORTED = """
    const { engine } = await import(new URL("engine.js", document.baseURI));
    const bytes = new Uint8Array(await (await engine.file("export")).file.arrayBuffer());
    let text = "";
    for (const byte of bytes) text += String.fromCharCode(byte);
    return btoa(text);"""


def export_shots(browser, room, clip, script):
    """Export gives a file with the frames of a script."""
    browser.click("#export")
    browser.wait(
        (
            "document.getElementById('status').textContent.startsWith('exported shots-export.ivf: 0:00:04.000, 100"
            " frames, in ')"
        ),
        seconds=300,
    )
    path = room / "export.ivf"
    path.write_bytes(base64.b64decode(browser.run(EXPORTED)))
    with Session(clip) as before, Session(path) as after:
        before.script(*script.split("; "))
        same = [one.i420() == other.i420() for one, other in zip(before.frames(), after.frames())]
    expect(same == [True] * 100, f"{same.count(True)} of {len(same)} frames of the export are those of the script")
    say("export: 100 frames of four shots as packets, byte for byte")


# What is not there or cannot be pressed: everything that a person needs, scrolled to.
MISSING = """
    const found = [];
    for (const css of args[0]) {
      for (const one of document.querySelectorAll(css)) {
        one.scrollIntoView({ block: "nearest", inline: "nearest" });
        const box = one.getBoundingClientRect();
        const [x, y] = [box.left + box.width / 2, box.top + box.height / 2];
        const hit = document.elementFromPoint(x, y);
        const isWhole = box.width > 0 && box.height > 0 && box.left >= -1 && box.right <= innerWidth + 1 &&
            box.top >= -1 && box.bottom <= innerHeight + 1;
        const sides = [box.left, box.top, box.right, box.bottom].map(Math.round);
        if (!isWhole || !hit || !(one.contains(hit) || hit.contains(one)))
            found.push(`${one.id || one.textContent.trim()}: ${sides}, ${hit && (hit.id || hit.tagName)}`);
      }
    }
    scrollTo(0, 0);
    return found;"""
NEEDED = [
    "header > button:not([hidden])",
    "header .group button",
    "[role=tab]",
    "#viewer .tools button:not([hidden])",
    "#overlay",
    "#png",
    "#frame",
    "#lower > .tools button:not([hidden])",
    "#programme",
]
# What is there if the lane of packets is shown.
OF_PACKETS = ["#packets-lane .tools button:not([hidden])", "#curve", "#source", "#timeline"]


def small_windows(browser, room, clip, looks):
    """In small windows nothing is lost or pushed out, also with a long name of a source."""
    link = room / f"{'a long name of a stream ' * 6}.ivf"
    link.symlink_to(clip)
    page = Page(browser, link, "--source", link)
    for width, height in ((390, 844), (844, 390), (1000, 700), (1440, 900)):
        browser.set_size(width, height)
        page.open()
        page.at(0)
        browser.run("await wokureti.editing.make(['script trim 0 5 100'], '')")
        browser.wait("wokureti.model.session.script !== '-'")
        # What is seen at once.
        seen = browser.run(
            """return ["#export", "#undo", "#now-canvas", "#play", "#programme"].filter((css) => {
            const box = document.querySelector(css).getBoundingClientRect();
            return !(box.left >= -1 && box.right <= innerWidth + 1 && box.top >= -1 &&
                box.top + Math.min(box.height, 60) <= innerHeight + 1 && box.width >= 20 && box.height >= 20);
        });"""
        )
        expect(not seen, f"{width}x{height}: not seen at first: {seen}")
        covered = browser.run(
            "for (let turn = 0; turn < 3; turn++) await new Promise(requestAnimationFrame); return"
            " document.getElementById('now-canvas').getBoundingClientRect().bottom -"
            " document.getElementById('lower').getBoundingClientRect().top"
        )
        expect(covered <= 1, f"{width}x{height}: the timeline covers {covered} pixels of the picture")
        missing = browser.run(MISSING, NEEDED)
        expect(not missing, f"{width}x{height}: cannot be reached: {missing}")
        hidden = browser.run("return document.getElementById('packets-lane').hidden")
        expect(hidden == (height < 560), f"{width}x{height}: the lane of packets is {'not ' * (not hidden)}hidden")
        if hidden:
            browser.run("document.getElementById('packets-switch').click()")
        missing = browser.run(MISSING, OF_PACKETS)
        expect(not missing, f"{width}x{height}: cannot be reached: {missing}")
        if hidden:
            browser.run("document.getElementById('packets-switch').click()")
        across = browser.run("return document.documentElement.scrollWidth - innerWidth")
        expect(across <= 0, f"{width}x{height}: the page is {across} pixels too wide")
        if looks is not None:
            (looks / f"{width}x{height}-long-name.png").write_bytes(browser.screenshot())
        browser.run("await wokureti.editing.undo()")
    page.quiet("small windows")
    page.end()
    browser.set_size(1440, 900)
    say("small windows: 390x844, 844x390, 1000x700: every control is there, with a name of 144 letters")


def typed(page):
    """What may be typed for a frame: numbers, steps, times; what means none is said."""
    browser = page.browser
    browser.run("await wokureti.model.go(100); document.getElementById('timeline').focus()")
    for text, frame in (
        ("0:04.2", 105),
        ("-5", 100),
        ("+3", 103),
        ("4,0", 100),
        ("2.5", 62),
        ("12.7", 249),
        ("-999", 0),
        ("7", 7),
    ):
        go_to(browser, text, frame)
    for text in ("", "x", "1:2:3:4", "--5"):
        browser.key("g")
        browser.wait("document.activeElement.id === 'frame'")
        browser.run("document.getElementById('frame').value = ''")
        for letter in text or "0":
            browser.key(letter)
        if not text:
            browser.run(
                "document.getElementById('frame').value = ''; document.getElementById('frame').dispatchEvent(new"
                " Event('change'))"
            )
        browser.key("Enter")
        browser.wait("document.getElementById('status').textContent.startsWith('a frame is a number')")
        expect(
            browser.run("return [wokureti.model.frame, document.getElementById('frame').value]") == [7, "7"],
            f"{text!r} goes to a frame",
        )
        browser.run("document.getElementById('status').textContent = ''")
    say("the number of a frame: numbers, steps and times; what means none is said")


def groups(browser, room, clip):
    """Damage that follows from one packet is one group, of which the first is open and the others are not."""
    head, packets = ivf.read_packets(clip)
    for place in (60, 160):
        packets[place] = (packets[place][0], packets[place + 20][1])
    path = room / "groups.ivf"
    with open(path, "wb") as file:
        file.writelines(ivf.pieces(head, len(packets), packets))
    page = Page(browser, path)
    page.open()
    browser.wait("wokureti.findings.check && wokureti.findings.check.over", seconds=60)
    damage = browser.run("return wokureti.findings.check.damage")
    found = browser.run(
        "return [...document.querySelectorAll('#findings-list li')].map((one) => [one.className,"
        " one.querySelector('button').getAttribute('aria-expanded'), one.textContent])"
    )
    more = [(one, text) for name, one, text in found if name == "more"]
    expect(damage > 15 and len(more) == 2, f"{damage} lines of damage are {len(more)} groups")
    expect([one for one, _ in more] == ["true", "false"], f"the groups are {more}")
    expect(all("up to the next key frame" in text for _, text in more), f"the groups are {more}")
    say(f"findings: {damage} lines of damage are 2 groups")
    page.end()


def not_written(browser, room, clip):
    """An edit that is not on the disk is marked, and written with the next."""
    page = Page(browser, clip, "--edits", room / "list-of-full")
    page.open()
    browser.run("document.getElementById('timeline').focus()")
    browser.key("Delete")
    browser.wait("wokureti.model.packets === 249")
    size = (room / "list-of-full").stat().st_size
    resource.prlimit(page.process.pid, resource.RLIMIT_FSIZE, (size + 3, resource.RLIM_INFINITY))
    browser.key("Delete")
    browser.wait("wokureti.model.packets === 248 && document.querySelector('.notice.bad')")
    text = browser.run("return document.querySelector('.notice.bad').textContent")
    expect("list-of-full: File too large: the last edit is made but not on the disk" in text, f"a full disk: {text}")
    browser.click("#tab-edits")
    marks = browser.run(
        "return [...document.querySelectorAll('#edits-list li')].map((one) => one.classList.contains('is-unwritten'))"
    )
    expect(marks == [False, True], f"the marks of the edits are {marks}")
    expect(
        "not on the disk yet" in browser.run("return document.getElementById('edits-text').textContent"),
        "it is not said that an edit is not on the disk",
    )
    resource.prlimit(page.process.pid, resource.RLIMIT_FSIZE, (resource.RLIM_INFINITY, resource.RLIM_INFINITY))
    browser.run("document.getElementById('timeline').focus()")
    browser.key("Delete")
    browser.wait("wokureti.model.packets === 247 && !document.querySelector('#edits-list .is-unwritten')")
    expect((room / "list-of-full").read_text().count("\ndelete 0") == 3, "the edits are not in the list")
    browser.errors()
    page.end()
    say("a full disk: the edit is marked, and written with the next")


def sound(browser, room, clip):
    """Sound is played with the frames, from where they are, and stops with them."""
    path = room / "talk.webm"
    words = [
        "ffmpeg",
        "-nostdin",
        "-v",
        "error",
        "-i",
        str(clip),
        "-f",
        "lavfi",
        "-i",
        "aevalsrc=0.3*sin(440*t*(1+t)):s=48000:d=10",
        "-map",
        "0:v",
        "-map",
        "1:a",
        "-c:v",
        "copy",
        "-c:a",
        "libopus",
        "-shortest",
        str(path),
    ]
    subprocess.run(words, check=True)
    page = Page(browser, path)
    page.open()
    away = (
        "const { audio } = wokureti.sound; return [audio.paused, audio.currentTime - wokureti.model.frame /"
        " wokureti.model.rate, audio.duration, audio.error && audio.error.message]"
    )
    expect(not browser.run("return document.getElementById('sound').hidden"), "there is no switch for the sound")
    for script, start, length in ((None, 100, 10), ("script trim 0 50 100", 20, 4)):
        if script:
            browser.run("await wokureti.editing.make(args[0], '')", [script])
        browser.run("await wokureti.model.go(args[0]); document.getElementById('timeline').focus()", start)
        browser.key(" ")
        browser.wait(f"wokureti.model.frame > {start + 25}")
        is_paused, apart, duration, error = browser.run(away)
        expect(
            not is_paused and not error and abs(apart) < 0.25 and abs(duration - length) < 0.1,
            f"the sound is {apart} s away, {duration} s long, paused: {is_paused}, {error}",
        )
        browser.key("k")
        browser.wait("wokureti.sound.audio.paused")
    # Without sound, faster, and backward it is silent.
    for keys in (["u", "l"], ["u", "l", "l"], ["j"]):
        browser.run("await wokureti.model.go(50)")
        for key in keys:
            browser.key(key)
        browser.wait("wokureti.player.isPlaying && wokureti.model.frame !== 50")
        expect(
            browser.run("return wokureti.sound.audio.paused || wokureti.player.speed === 1 && wokureti.sound.isOn"),
            f"after {keys} there is sound",
        )
        browser.key("k")
    page.quiet("sound")
    page.end()
    say("sound: played with the frames, of a script too; silent where it is switched off, faster and backward")


def door(browser, room, clip):
    """The file that a browser is started with leads to the page."""
    starter = room / "starter"
    starter.write_text('#!/bin/sh\necho "$@" > "$0.words"\n')
    starter.chmod(0o755)
    env = dict(os.environ, PYTHONPATH=str(TOP / "clients/python"), DISPLAY=":99", BROWSER=str(starter))
    words = [sys.executable, "-m", "wokureti", "open", str(clip), "--edits", str(room / "list-of-door")]
    process = subprocess.Popen(words, env=env, stdout=subprocess.PIPE, stderr=subprocess.DEVNULL, text=True)
    address = process.stdout.readline().strip()
    limit = time.monotonic() + 30
    while not (room / "starter.words").exists() or not (room / "starter.words").read_text().endswith("\n"):
        if time.monotonic() > limit:
            raise AssertionError("no browser was started")
        time.sleep(0.05)
    file = (room / "starter.words").read_text().strip()
    expect(file.startswith("file:///") and address.split("/")[3] not in file, f"the browser is started with {file}")
    browser.open(file)
    browser.wait(
        "location.href.startsWith('http://127.0.0.1:') && document.body && document.body.dataset.ready === 'yes'",
        seconds=60,
    )
    expect(browser.run("return location.href.split('#')[0]") == address, "the file does not lead to the page")
    browser.open("about:blank")
    process.terminate()
    process.wait(30)
    say("the browser is started with a file that leads to the page")


def kill(browser, room, clip):
    """vp8serve is killed: the page says so, and goes on."""
    page = Page(browser, clip, "--edits", room / "list-of-kill", WOKURETI_ENGINE="program")
    page.open()
    browser.run("document.getElementById('timeline').focus()")
    browser.key("Delete")
    browser.wait("wokureti.model.packets === 249")
    children = subprocess.run(
        ["pgrep", "-P", str(page.process.pid)], capture_output=True, text=True, check=False
    ).stdout.split()
    session = page.members("session")
    browser.errors()
    for child in children:
        # A check may have ended by itself.
        with contextlib.suppress(ProcessLookupError):
            os.kill(int(child), signal.SIGKILL)
    time.sleep(0.1)
    browser.run("await wokureti.model.go(77)")
    page.at(77)
    browser.wait(
        "[...document.querySelectorAll('.notice')].some((notice) => notice.textContent.includes('started again'))",
        seconds=10,
    )
    after = page.members("session")
    expect(
        after["edits"] == session["edits"] and after["restarts"] == session["restarts"] + 1,
        "edits are gone after vp8serve was killed",
    )
    page.quiet("after vp8serve was killed")
    page.end()
    say("killed: said, started again, all edits there")


def play(browser, clip, name, seconds=4.0):
    """Frames a second in playback."""
    page = Page(browser, clip)
    page.open()
    rates = []
    for speed in (1, -1, 4):
        browser.run(f"await wokureti.model.go({0 if speed > 0 else 10**6}); await wokureti.player.play({speed})")
        found = browser.run(
            f"await new Promise((done) => setTimeout(done, {int(seconds * 500)})); wokureti.player.shown = 0;"
            " wokureti.player.dropped = 0; const since = performance.now(); await new Promise((done) =>"
            f" setTimeout(done, {int(seconds * 500)})); const {{ shown, dropped, isPlaying }} = wokureti.player; return"
            " [shown, dropped, (performance.now() - since) / 1000, isPlaying]"
        )
        browser.run("wokureti.player.stop()")
        rates.append((speed, found[0] / found[2], found[1]))
    page.quiet(f"playback of {name}")
    page.end()
    say(
        f"playback of {name}: "
        + "; ".join(f"speed {speed}: {rate:.1f} frames a second, {dropped} dropped" for speed, rate, dropped in rates)
    )


def million(browser, room):
    """A stream of 1,048,576 packets stays responsive."""
    make_million(room / "million.ivf")
    page = Page(browser, room / "million.ivf")
    since = time.monotonic()
    page.open()
    opened = time.monotonic() - since
    browser.wait("wokureti.timeline.window.count === 1048576 && wokureti.timeline.wholeTile()", seconds=60)
    whole = time.monotonic() - since
    box = browser.run(
        "const box = document.getElementById('bars').getBoundingClientRect(); return [box.left, box.top, box.width]"
    )
    steps = """
        const box = document.getElementById("timeline");
        const { left, top, width } = box.getBoundingClientRect();
        const times = [];
        for (let turn = 0; turn < 80; turn++) {
          const since = performance.now();
          box.dispatchEvent(new WheelEvent("wheel", { deltaY: turn < 40 ? -120 : 120, clientX: left + width * 0.7,
              clientY: top + 30, bubbles: true, cancelable: true }));
          await new Promise((done) => requestAnimationFrame(() => requestAnimationFrame(done)));
          times.push(performance.now() - since);
        }
        for (let turn = 0; turn < 40; turn++) {
          const since = performance.now();
          box.dispatchEvent(new WheelEvent("wheel", { deltaY: 300, shiftKey: true, clientX: left + width * 0.7,
              clientY: top + 30, bubbles: true, cancelable: true }));
          await new Promise((done) => requestAnimationFrame(() => requestAnimationFrame(done)));
          times.push(performance.now() - since);
        }
        return times;"""
    browser.run(steps)
    browser.wait("wokureti.model.session.listed", seconds=600)
    browser.run("wokureti.timeline.zoomAll()")
    times = sorted(browser.run(steps))
    # Two frames of the browser are 33 ms; what is measured is from the wheel to the second frame after it.
    expect(
        times[int(len(times) * 0.95)] < MOST_STEP, f"a step of the wheel takes {times[int(len(times) * 0.95)]:.0f} ms"
    )
    browser.wheel(box[0] + 500, box[1] + 30, -3000)
    browser.wheel(box[0] + 500, box[1] + 30, -3000)
    browser.wait("wokureti.timeline.window.scale > 1")
    page.quiet("a million packets")
    say(
        f"1,048,576 packets: open after {opened:.1f} s, the timeline after {whole:.1f} s; a step of the wheel takes"
        f" {times[len(times) // 2]:.0f} ms, at most {times[-1]:.0f} ms"
    )
    page.end()


def reachable(page):
    """Everything has a name, is reached by the Tab key, and has enough contrast."""
    browser = page.browser
    nodes = browser.command("Accessibility.getFullAXTree")["nodes"]
    roles = {"button", "link", "radio", "tab", "slider", "textbox", "combobox", "spinbutton"}
    nameless = [
        node["role"]["value"]
        for node in nodes
        if not node.get("ignored")
        and node.get("role", {}).get("value") in roles
        and not node.get("name", {}).get("value")
    ]
    expect(not nameless, f"without a name: {nameless}")
    named = sum(node.get("role", {}).get("value") in roles for node in nodes if not node.get("ignored"))
    wanted = browser.run(
        "return [...document.querySelectorAll('button, a, input, select, textarea, [tabindex]')].filter((one) =>"
        " one.checkVisibility() && !one.disabled && one.tabIndex >= 0).map((one) => one.id ||"
        " one.textContent.trim()).length"
    )
    browser.run("document.activeElement.blur(); window.focused = new Set()")
    for _ in range(wanted + 12):
        browser.key("Tab")
        browser.run("window.focused.add(document.activeElement)")
    missed = browser.run(
        "return [...document.querySelectorAll('button, a, input, select, textarea, [tabindex]')].filter((one) =>"
        " one.checkVisibility() && !one.disabled && one.tabIndex >= 0 && !window.focused.has(one)).map((one) => one.id"
        " || one.textContent.trim())"
    )
    expect(not missed, f"not reached by the Tab key: {missed}")
    contrast = """
        const parts = (text) => (text.match(/[\\d.]+/g) || []).map(Number);
        const light = ([r, g, b]) => {
            const one = (v) => { v /= 255; return v <= 0.04045 ? v / 12.92 : ((v + 0.055) / 1.055) ** 2.4; };
            return 0.2126 * one(r) + 0.7152 * one(g) + 0.0722 * one(b);
        };
        const back = (one) => {
            for (let at = one; at; at = at.parentElement) {
                const found = parts(getComputedStyle(at).backgroundColor);
                if (found.length === 3 || found[3] === 1) return found;
            }
            return [255, 255, 255];
        };
        const low = [];
        for (const one of document.querySelectorAll("body *")) {
          if (!one.checkVisibility() || one.disabled || one.closest("[disabled], .is-kept, .is-undone") ||
              ![...one.childNodes].some((node) => node.nodeType === 3 && node.textContent.trim())) continue;
          const [a, b] = [light(parts(getComputedStyle(one).color)), light(back(one))];
          const ratio = (Math.max(a, b) + 0.05) / (Math.min(a, b) + 0.05);
          const name = one.id || one.className || one.tagName;
          if (ratio < 4.5) low.push(`${name} ${one.textContent.trim().slice(0, 20)} ${ratio.toFixed(2)}`);
        }
        return low;"""
    bars = """
        const { KINDS } = await import(new URL("kinds.js", document.baseURI));
        const parts = (text) => {
            const one = document.createElement("i");
            one.style.color = text;
            document.body.append(one);
            const found = getComputedStyle(one).color.match(/[\\d.]+/g).map(Number);
            one.remove();
            return found;
        };
        const light = ([r, g, b]) => {
            const one = (v) => { v /= 255; return v <= 0.04045 ? v / 12.92 : ((v + 0.055) / 1.055) ** 2.4; };
            return 0.2126 * one(r) + 0.7152 * one(g) + 0.0722 * one(b);
        };
        const back = light(parts("var(--panel)"));
        return KINDS.filter(({ colour }) => {
            const a = light(parts(`var(${colour})`));
            return (Math.max(a, back) + 0.05) / (Math.min(a, back) + 0.05) < 3;
        }).map(({ name }) => name);"""
    for is_dark in (True, False):
        browser.set_theme(is_dark)
        low = browser.run(bars)
        expect(not low, f"contrast of bars below 3, {'dark' if is_dark else 'light'}: {low}")
        low = browser.run(contrast)
        expect(not low, f"contrast below 4.5, {'dark' if is_dark else 'light'}: {low}")
    browser.set_theme(True)
    say(f"reachable: {named} elements with names, all by the Tab key, contrast 4.5 and more, of bars 3, dark and light")


def take_shot(browser, path):
    """A picture of the page in 256 colours, a third of the bytes."""
    words = ["ffmpeg", "-v", "error", "-y", "-f", "png_pipe", "-i", "pipe:0"]
    words += [
        "-vf",
        "split[one][two];[one]palettegen=max_colors=256[palette];[two][palette]paletteuse=dither=bayer:bayer_scale=5",
        "-frames:v",
        "1",
        str(path),
    ]
    subprocess.run(words, input=browser.screenshot(), check=True)


def shots(browser, folder, clip, broken):
    """The pictures of the documents: the preview of a repair, in both themes, and the split."""
    folder = pathlib.Path(folder)
    browser.set_size(1150, 740)
    page = Page(browser, broken, "--source", clip)
    page.open()
    # Edits right before key packets: nothing after them is damaged.
    browser.run("await wokureti.editing.make(['hold 50', 'delete 49', 'replace 149 -', 'delete 199'], '')")
    browser.wait(
        (
            "wokureti.findings.check && wokureti.findings.check.over && wokureti.model.packets === 249 &&"
            " wokureti.findings.check.packets === 249"
        ),
        seconds=60,
    )
    browser.run("document.querySelector('#findings-list li .row').click()")
    browser.wait("document.querySelectorAll('.repairs button').length > 3")
    browser.run("document.querySelectorAll('.repairs button')[0].click()")
    browser.wait("document.getElementById('preview-result').textContent.startsWith('no damage')", seconds=60)
    time.sleep(0.5)
    for is_dark, name in ((True, "page.png"), (False, "page-light.png")):
        browser.set_theme(is_dark)
        time.sleep(0.5)
        take_shot(browser, folder / name)
    browser.set_theme(True)
    browser.click("#preview-leave")
    browser.run(
        "await wokureti.model.goPacket(24); await wokureti.editing.drop(); await wokureti.model.go(30);"
        " wokureti.viewer.choose_view('split')"
    )
    browser.wait(
        (
            "document.getElementById('picture-text').textContent.includes('PSNR') && wokureti.findings.check.over &&"
            " wokureti.findings.check.damage > 2"
        ),
        seconds=60,
    )
    time.sleep(0.5)
    take_shot(browser, folder / "page-split.png")
    browser.key("Control", "z")
    browser.run(
        "wokureti.viewer.choose_view('frame'); await wokureti.model.go(57); wokureti.macroblocks.choose('luma');"
        " document.getElementById('tab-macroblock').click()"
    )
    browser.wait(
        "!document.getElementById('overlay-canvas').hidden && document.getElementById('macroblock-name').textContent"
        " !== ''"
    )
    browser.run("wokureti.macroblocks.go(14, 8)")
    time.sleep(0.5)
    take_shot(browser, folder / "page-macroblocks.png")
    page.end()
    cutting_shot(browser, folder, clip)
    for name in ("page.png", "page-light.png", "page-split.png", "page-macroblocks.png", "page-cut.png"):
        size = (folder / name).stat().st_size
        expect(size <= 300_000, f"{name} has {size} bytes")
        say(f"{name}: {size} bytes")


def cutting_shot(browser, folder, clip):
    """The picture of a clip that is cut: two parts are moved or gone, and a third is selected."""
    link = clip.with_name("talk.ivf")
    link.symlink_to(clip)
    page = Page(browser, link)
    page.open()
    browser.run("wokureti.model.selectFrames(170, 210); await wokureti.model.go(40); await wokureti.cutting.moveHere()")
    browser.run("wokureti.model.selectFrames(95, 120); await wokureti.cutting.cutOut()")
    browser.run(
        "await wokureti.model.go(97); wokureti.model.selectFrames(60, 104);"
        " document.getElementById('tab-script').click()"
    )
    browser.wait(
        (
            "document.getElementById('programme-canvas').dataset.shots === '5' && wokureti.findings.check &&"
            " wokureti.findings.check.over"
        ),
        seconds=60,
    )
    browser.wait("Number(document.getElementById('programme-canvas').dataset.pictures) > 8", seconds=30)
    time.sleep(0.5)
    take_shot(browser, folder / "page-cut.png")
    page.end()


def repairs_and_edits(browser, room, made, looks):
    """A broken clip with a second recording on one page, from the first look to what is saved."""
    clip = made.clip
    page = Page(browser, made.broken, "--source", clip, "--save", room / "saved.ivf")
    page.open()
    page.quiet("opening")
    functions(page)
    look(page)
    move_about(page)
    find_and_repair(page, clip, made.places)
    page.quiet("findings")
    # In another group of pictures: before the edits, those of the broken ones are refused.
    compare_views(page, clip, 120)
    edit(page)
    asks_once(page)
    page.quiet("comparing and editing")
    overlays(page, room)
    page.quiet("overlays")
    save_and_reload(page, room / "saved.ivf", clip)
    along(page, clip)
    typed(page)
    two_tabs(page)
    reachable(page)
    said = page.end()
    expect(str(made.broken.with_suffix(".edits")) in said, f"the end says {said}")


def plays(browser, room, clip):
    # ffmpeg draws this picture faster than the other one.
    make_clip(room / "large.ivf", "1920x1080", 250, "testsrc2")
    play(browser, clip, "640x360")
    play(browser, room / "large.ivf", "1920x1080")


class Made(NamedTuple):
    """The clips: one, another one, and the first one with broken packets in two groups of pictures."""

    clip: pathlib.Path
    other: pathlib.Path
    broken: pathlib.Path
    places: tuple

    @classmethod
    def at(cls, room, size):
        made = cls(room / "clip.ivf", room / "other.ivf", room / "broken.ivf", (93, 193))
        make_clip(made.clip, size, 250)
        make_clip(made.other, size, 50, "testsrc2")
        break_packets(made.clip, made.broken, made.places)
        return made


def each_size(task, sizes):
    """A part that is done in windows of several sizes."""

    def part(browser, room, made, looks):
        for size in sizes:
            task(browser, room, made, size, looks)

    return part


# What is done with a browser, a folder, the clips, and a folder for pictures or None.
PARTS = {
    "colours": lambda browser, room, made, looks: colours(browser, room),
    "repairs": repairs_and_edits,
    "kill": lambda browser, room, made, looks: kill(browser, room, made.clip),
    "groups": lambda browser, room, made, looks: groups(browser, room, made.clip),
    "full": lambda browser, room, made, looks: not_written(browser, room, made.clip),
    "sound": lambda browser, room, made, looks: sound(browser, room, made.clip),
    "small": lambda browser, room, made, looks: small_windows(browser, room, made.clip, looks),
    "door": lambda browser, room, made, looks: door(browser, room, made.clip),
    "add": lambda browser, room, made, looks: add_and_crop(browser, room, made.clip, made.other),
    "asides": lambda browser, room, made, looks: asides(browser, room, made.clip, made.other),
    "shots": lambda browser, room, made, looks: shots_and_fades(browser, room, made.clip, made.other),
    "advert": each_size(advert, ((1280, 800), (390, 844))),
    "keys": each_size(by_keyboard, ((1440, 900), (390, 844))),
    "million": lambda browser, room, made, looks: million(browser, room),
    "play": lambda browser, room, made, looks: plays(browser, room, made.clip),
}


def arguments():
    parser = argparse.ArgumentParser(description=__doc__.split("\n\n")[0])
    folder = parser.add_mutually_exclusive_group()
    folder.add_argument("--shots", metavar="FOLDER", type=pathlib.Path)
    folder.add_argument("--looks", metavar="FOLDER", type=pathlib.Path)
    parser.add_argument(
        "--only", metavar="NAME,..", type=lambda text: text.split(","), default=list(PARTS), help=", ".join(PARTS)
    )
    given = parser.parse_args()
    for name in set(given.only) - set(PARTS):
        parser.error(f"there is no part {name}")
    return given


def main():
    given = arguments()
    with tempfile.TemporaryDirectory() as name, Browser() as browser, contextlib.ExitStack() as ends:
        ends.callback(end_all)
        room = pathlib.Path(name)
        command = [programs.find("vp8serve"), "--version"]
        version = subprocess.run(command, capture_output=True, text=True, check=True).stdout.split()[1]
        say(f"chromium {browser.version}, vp8serve {version}")
        made = Made.at(room, "480x270" if given.shots else "640x360")
        if given.shots:
            shots(browser, given.shots, made.clip, made.broken)
            return 1 if faults else 0
        for part in PARTS:
            if part in given.only:
                PARTS[part](browser, room, made, given.looks)
    if given.only == list(PARTS):
        results.total(f"{len(faults)} faults", faults)
    else:
        say(f"{', '.join(given.only)}: {len(faults)} faults")
    return 1 if faults else 0


if __name__ == "__main__":
    sys.exit(main())
