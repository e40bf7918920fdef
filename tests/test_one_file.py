#!/usr/bin/env python3
"""Opens the page in one file from a folder that has nothing else, in a network namespace that has no network, and does
what a person does there, in chromium and in Firefox; the same acts on the page of `wokureti open`. Files that come out,
and answers, are those of the other engine and of vp8serve with the same lines. Chromium is killed after edits, KILLS
times; if KILLS is set, compare/results.txt gets the total.

    tests/test_one_file.py [PART ..] [--shots FOLDER]

The page is that of the variable WOKURETI_PAGE, or bin/wokureti.html: ./build.py --web makes it. It prints what differs
and ends with 1, or prints nothing and ends with 0; a line `skipped: ..` names what could not be run. With --shots it
writes what the page looks like.
"""

import base64
import contextlib
import hashlib
import http.server
import math
import os
import pathlib
import random
import re
import shutil
import signal
import struct
import subprocess
import sys
import tempfile
import threading
import time

sys.dont_write_bytecode = True
import pages  # noqa: E402
import results  # noqa: E402
import test_web  # noqa: E402
from test_web import EXAMPLE, PAGE, SERVE, TOP, ran, webm  # noqa: E402
from browser import HEARD, INKED  # noqa: E402
from wokureti import Session  # noqa: E402
from wokureti.media import ivf  # noqa: E402

CLIPS = TOP / "crates/gate_clips/data"
MOST_TIME = 800
SIZES = ((1280, 800), (390, 844))
# Within so many seconds after its sound is there the lane shows it.
DRAWN = 15
# Fades, cuts between key packets, a join in the middle, and a crop.
SCRIPTS = (
    "fade 0 10 20 256 0",
    "trim 0 7 9; trim 0 16 4; trim 0 30 8; splice 1 2; splice 4 3",
    "source 1; trim 1 3 20; fade 2 4 5 256 128; trim 0 5 9; splice 3 4; trim 5 2 22",
    "source 1; trim 0 11 9; splice 2 1; fade 3 0 4 0 256",
    "crop 0 16 16 64 48; trim 1 9 5",
)
PARTS = ("chromium", "firefox", "engines-chromium", "engines-firefox", "streams-chromium", "streams-firefox", "kills")
# Kills, and the seconds after an edit in which each comes.
KILLS, MOST_KILL = int(os.environ.get("KILLS", "3")), 0.2


def samples_of(path, lines=()):
    """The samples of each frame after edits, or why vp8serve refuses it."""
    count = int(ran(SERVE, path, input="".join(f"{line}\n" for line in [*lines, "count"]).encode()).stdout.split()[-1])
    with tempfile.TemporaryDirectory() as folder:
        out = pathlib.Path(folder, "out.y4m")
        done = ran(
            SERVE,
            path,
            "-",
            out,
            input="".join(f"{line}\n" for line in [*lines, *(f"frame {n}" for n in range(count))]).encode(),
        )
        found = test_web.pieces(out.read_bytes())
    return [
        bytes(next(found)) if reply.startswith("served ") else reply
        for reply in done.stdout.decode().splitlines()[len(lines) :]
    ]


def written(path, lines, folder, *options):
    """The file that vp8serve writes after edits."""
    out = pathlib.Path(folder, "wanted.ivf")
    out.unlink(missing_ok=True)
    ran(SERVE, path, "-", options[0], out, *options[1:], input="".join(f"{line}\n" for line in lines).encode())
    return out.read_bytes() if out.is_file() else None


def damaged(folder):
    """A clip with a packet that is cut to two bytes, and one that comes twice."""
    head, packets = ivf.read_packets(CLIPS / "scene-cuts.ivf")
    packets[3] = (packets[3][0], packets[3][1][:2])
    packets.insert(10, packets[9])
    path = folder / "damaged.ivf"
    path.write_bytes(b"".join(ivf.pieces(head, len(packets), packets)))
    return path


class Alone:
    """The page in one file, opened at an address."""

    name = "one file"

    def __init__(self, browser, address):
        self.page, self.address = pages.Page(browser), address

    @contextlib.contextmanager
    def opened(self, *paths):
        browser = self.page.browser
        browser.open("about:blank")
        browser.open(self.address)
        self.page.wait("document.getElementById('welcome') && !document.getElementById('welcome').hidden")
        # Each act begins without edits.
        self.page.js(
            "await new Promise((done) => { const request = indexedDB.deleteDatabase('wokureti'); request.onsuccess ="
            " request.onerror = request.onblocked = done; })"
        )
        self.page.drop(*paths)
        self.page.ready()
        yield self.page
        self.page.js(
            "window.onbeforeunload = null; addEventListener('beforeunload', (event) =>"
            " event.stopImmediatePropagation(), { capture: true })"
        )
        browser.open("about:blank")

    def saved(self, folder):
        return self.page.offered("save")[1]

    def exported(self):
        return self.page.offered("export")[1]


class Served:
    """The page of `wokureti open`."""

    name = "server"

    def __init__(self, browser):
        self.page = pages.Page(browser)

    @contextlib.contextmanager
    def opened(self, *paths):
        with tempfile.TemporaryDirectory() as name:
            folder = pathlib.Path(name)
            for path in paths:
                shutil.copyfile(path, folder / path.name)
            first, *others = [folder / path.name for path in paths]
            words = [
                sys.executable,
                "-m",
                "wokureti",
                "open",
                first,
                "--no-browser",
                *(word for path in others for word in ("--source", path)),
            ]
            environment = {
                **os.environ,
                "PYTHONPATH": str(TOP / "clients/python"),
                "PYTHONDONTWRITEBYTECODE": "1",
                "PYTHONUNBUFFERED": "1",
                "XDG_STATE_HOME": str(folder / "state"),
            }
            with subprocess.Popen(
                list(map(str, words)),
                stdout=subprocess.PIPE,
                stderr=subprocess.STDOUT,
                text=True,
                env=environment,
                cwd=folder,
            ) as server:
                try:
                    address = next(
                        (
                            found.group(0)
                            for found in (re.search(r"http://127\.0\.0\.1:\d+/\S+", line) for line in server.stdout)
                            if found
                        ),
                        None,
                    )
                    if address is None:
                        raise AssertionError("wokureti open names no address")
                    self.page.browser.open(address)
                    self.page.ready()
                    self.folder = folder
                    yield self.page
                    self.page.browser.open("about:blank")
                finally:
                    server.terminate()
                    server.communicate(timeout=60)

    def saved(self, folder):
        self.page.js("document.getElementById('save').click()")
        self.page.wait("document.querySelector('#notices [data-id=saved]')")
        return next(self.folder.glob("*-edited.ivf")).read_bytes()

    def exported(self):
        return self.page.offered("export")[1]


def looks(engine, clip):
    """Frames, the timeline and answers before edits and after them."""
    with engine.opened(clip) as page:
        page.wait("wokureti.model.session.listed")
        found = {"frames": page.frames(), "plain": pages.looked(page), "findings": page.checked()}
        found["packets"] = pages.edited(page)
        found["findings after"] = page.checked()
        found["edited"] = pages.looked(page)
        found["script"] = pages.scripted(page)
        found["scripted"] = pages.looked(page)
        found["frames after"] = page.frames()
        return found


def files(engine, clip, folder):
    """A cut is exported and its packets saved; returned with the edits."""
    with engine.opened(clip) as page:
        page.select(3, 6)
        page.press("delete")
        page.select(5, 9)
        page.press("hold")
        saved = engine.saved(folder)
        page.select_frames(8, 11)
        page.press("cut-out")
        export = engine.exported()
        return page.session()["edits"], saved, export


def repaired(engine, clip):
    """A finding's repairs, their preview, and all repairs."""
    with engine.opened(clip) as page:
        page.checked()
        page.js("document.querySelector('#findings-list .row').click()")
        page.wait("document.querySelector('.repairs button')")
        offers = page.js(
            "return wokureti.findings.open.repairs.map(({ name, title, lines, packet }) => ({ name, title, lines,"
            " packet }))"
        )
        page.js("document.querySelector('.repairs button').click()")
        page.wait("document.getElementById('preview-result').textContent")
        result = page.js("return document.getElementById('preview-result').textContent")
        state = page.session()
        page.press("preview-take")
        left = [one for one in page.checked() if one["severity"] == "damage"]
        return {
            "offers": offers,
            "result": result,
            "before": state["edits"],
            "after": page.session()["edits"],
            "left": left,
        }


def others(engine, clip, other):
    """Two streams: packets are copied from the second one, which is joined."""
    with engine.opened(clip, other) as page:
        page.js(
            "await wokureti.model.useSource(1); wokureti.model.select(2, 4); await wokureti.editing.copy(false); await"
            " wokureti.model.useSource(0); await wokureti.model.goPacket(3)"
        )
        page.press("paste")
        page.js("await wokureti.cutting.join(1)")
        session = page.session()
        return {"edits": session["edits"], "frames": session["frames"], "pictures": page.frames()}


def exports(page, *values):
    """Presses Export, and in its dialog sets the fields to these values and goes on. Returns what the dialog says."""
    page.js(
        "window.offered = null; document.getElementById('export').dispatchEvent(new MouseEvent('click', { bubbles:"
        " true, cancelable: true }))"
    )
    page.wait("document.getElementById('ask').open")
    said = page.js(
        "return document.querySelector('#ask .fields').textContent + document.querySelector('#ask .note').textContent"
    )
    page.js(
        (
            "[...document.querySelectorAll('#ask input, #ask select')].forEach((input, place) => (input.value ="
            " args[0][place])); document.querySelector('#ask button[value=yes]').click()"
        ),
        values,
    )
    return said


def decibels(one, other):
    squares = sum((left - right) ** 2 for left, right in zip(one, other))
    return 10 * math.log10(255 * 255 * len(one) / squares) if squares else 99


def coded(engine, clip, folder, least=38):
    """Frames that a fade changes are coded again: Export says how many, they are as good as was asked for, and all
    others are those of the clip. It can be stopped.
    """
    plain = samples_of(clip)
    count = len(plain)
    line = f"script fade 0 {count - 6} 5 256 0"
    wanted, out = samples_of(clip, [line]), folder / "coded.ivf"
    with engine.opened(clip) as page:
        page.set_script(line.removeprefix("script "))
        # The encoder takes long enough to be stopped.
        page.js(
            "window.flush = VideoEncoder.prototype.flush; VideoEncoder.prototype.flush = async function () { await new"
            " Promise((done) => setTimeout(done, 5000)); return window.flush.call(this); }"
        )
        exports(page, 60)
        page.wait(
            "/^exporting: coding 5 frames from frame .* on, try"
            " \\d/.test(document.getElementById('status').textContent)"
        )
        page.js("document.getElementById('export').click()")
        page.wait("document.getElementById('status').textContent === 'the export was stopped'")
        page.js("VideoEncoder.prototype.flush = window.flush")
        if (
            exports(page, least)
            != f"Decibels that each coded frame has at least5 of {count} frames are coded again; all others stay as"
            " they are."
        ):
            yield f"{page.browser.name}, {clip.name}: the dialog says something else"
        page.wait("window.offered")
        said = page.wait(
            "/; 5 of .* frames are coded again, in [\\d,]+ bytes, PSNR [\\d.]+ dB at least and [\\d.]+ dB in the"
            " mean/.exec(document.getElementById('status').textContent)?.[0]"
        )
        out.write_bytes(base64.b64decode(page.js("return window.offered[1]")))
    found = samples_of(out)
    good = [decibels(one, other) for one, other in zip(found, wanted)]
    told = [float(text) for text in re.findall(r"([\d.]+) dB", said)]
    if (
        len(found) != count
        or found[: count - 5] != plain[: count - 5]
        or min(good) < least
        or abs(told[0] - min(good)) > 0.06
    ):
        yield f"{engine.page.browser.name}, {clip.name}: {len(found)} frames, {[round(one, 1) for one in good]}, {said}"
    if [stamp for stamp, _ in ivf.read_packets(out)[1]] != [stamp for stamp, _ in ivf.read_packets(clip)[1]]:
        yield f"{engine.page.browser.name}, {clip.name}: other times"


def long_lead(engine, clip, folder):
    """A part that begins long after a key packet: what each way costs, and the coded one."""
    packets = [packet for _, packet in ivf.read_packets(clip)[1]]
    path, size = folder / "slow.ivf", ivf.read_packets(clip)[0][:2]
    path.write_bytes(b"".join(ivf.pieces(ivf.Head(*size, 5, 2), len(packets), list(enumerate(packets)))))
    hidden, own = sum(map(len, packets[:30])), sum(map(len, packets[30:40]))
    with engine.opened(path) as page:
        page.set_script("trim 0 30 10")
        said = exports(page, 36, "coded")
        for text in (
            "Frame 0 is 12 s after a key frame",
            f"hidden: 30 packets, {hidden:,} bytes",
            f"its first 10 frames, {own:,} bytes now, are coded again, and nothing is hidden",
        ):
            if text not in said:
                yield f"{page.browser.name}: a long lead: {said}"
        page.wait(
            "/in 10 packets, none of them hidden; 10 of 10 frames are coded"
            " again/.test(document.getElementById('status').textContent)"
        )


def costs(engine, clip, other):
    """What exports of scripts cost."""
    found = {}
    with engine.opened(clip, other) as page:
        for script in SCRIPTS:
            page.set_script(script)
            costs = page.js("return wokureti.engine.task('costs', {})")
            found[script] = {name: costs[name] for name in ("frames", "coded", "leads")}
    return found


def uncoded(engine, clip):
    """A browser without an encoder says so."""
    with engine.opened(clip) as page:
        page.set_script("fade 0 0 5 0 256")
        page.js(
            "window.VideoEncoder = undefined; document.getElementById('export').dispatchEvent(new MouseEvent('click', {"
            " bubbles: true, cancelable: true }))"
        )
        said = page.wait("document.querySelector('#notices [data-id=exported] span')?.textContent")
        if (
            "5 of" not in said
            or "This browser has no VideoEncoder for VP8" not in said
            or "wokureti export --code-changed" not in said
        ):
            yield f"{page.browser.name}: no encoder: {said}"


def shown(engine, clip, other):
    """The lane of the frames that are shown, and that of packets, in each size of window."""
    found = {}
    browser = engine.page.browser.browser
    for width, height in SIZES:
        if hasattr(browser, "set_size"):
            browser.set_size(width, height)
        with engine.opened(clip, other) as page:
            wrong, made = pages.programme(page)
            found[f"{width}x{height}"] = made
            found[f"wrong at {width}x{height}"] = wrong
            found[f"pictures at {width}x{height}"] = page.frames()
        with engine.opened(clip) as page:
            found[f"packets at {width}x{height}"] = pages.packets(page)
    return found


def played(engine, clip):
    """Playback shows frames as time passes."""
    with engine.opened(clip) as page:
        page.js("await wokureti.model.go(0)")
        page.js("document.getElementById('play').click()")
        page.wait("wokureti.model.frame > 5")
        page.js("if (wokureti.player.isPlaying) document.getElementById('play').click()")
        return page.js("return wokureti.player.isPlaying")


def compare(name, one, other):
    """What differs between what two engines give."""
    for key in one:
        if one[key] != other[key]:
            first = (
                next((pair for pair in zip(one[key], other[key]) if pair[0] != pair[1]), None)
                if isinstance(one[key], list)
                else (
                    {
                        part: (one[key][part], other[key].get(part))
                        for part in one[key]
                        if one[key][part] != other[key].get(part)
                    }
                    if isinstance(one[key], dict)
                    else (one[key], other[key])
                )
            )
            yield f"{name}: {key} differ: {str(first)[:700]}"


def same(alone, served, folder):
    """The same acts over both engines."""
    broken = damaged(folder)
    for clip in (EXAMPLE, CLIPS / "hidden-altref.ivf", broken):
        mine, other = looks(alone, clip), looks(served, clip)
        yield from compare(clip.name, mine, other)
        if mine["frames after"] != samples_of(clip, mine["script"]["edits"]):
            yield f"{clip.name}: frames after edits are not vp8serve's"
    for clip in (EXAMPLE, CLIPS / "scene-cuts.ivf"):
        mine, other = files(alone, clip, folder), files(served, clip, folder)
        lines = mine[0]
        if mine != other:
            yield f"{clip.name}: files of both engines differ: {mine[0]} {other[0]}"
        if mine[1] != written(clip, lines, folder, "--save", "--pad", "--restamp") or mine[2] != written(
            clip, lines, folder, "--export", "--pad"
        ):
            yield f"{clip.name}: the files are not vp8serve's with {lines}"
    for engine in (alone, served):
        yield from strings(engine, folder)
    yield from compare("repairs", repaired(alone, broken), repaired(served, broken))
    yield from compare("costs", *(costs(one, EXAMPLE, CLIPS / "scene-cuts.ivf") for one in (alone, served)))
    mine, other = (shown(one, EXAMPLE, CLIPS / "scene-cuts.ivf") for one in (alone, served))
    yield from (
        f"{engine}, {name}: {found[name]}"
        for engine, found in (("one file", mine), ("server", other))
        for name in found
        if name.startswith("wrong") and found[name]
    )
    yield from compare("the programme", mine, other)
    yield from compare("two streams", *(others(one, EXAMPLE, CLIPS / "scene-cuts.ivf") for one in (alone, served)))


def kept(alone, clip):
    """Edits are there again when the file is opened again, with their titles; a list that is not this stream's is not
    made.
    """
    with alone.opened(clip) as page:
        page.select(3, 6)
        page.press("delete")
        page.press("undo")
        page.press("redo")
        page.js("addEventListener('beforeunload', (event) => event.stopImmediatePropagation(), { capture: true })")
        before = page.session()["edits"]
    page.browser.open(alone.address)
    page.wait("document.getElementById('welcome') && !document.getElementById('welcome').hidden")
    page.drop(clip)
    page.ready()
    if page.session()["edits"] != before:
        yield f"{page.browser.name}: edits are not kept: {page.session()['edits']}, not {before}"
    page.js("addEventListener('beforeunload', (event) => event.stopImmediatePropagation(), { capture: true })")
    page.browser.open("about:blank")
    page.browser.open(alone.address)
    found = page.wait("document.querySelector('#recent-list .row .text')?.textContent")
    about = page.js(
        "return [document.querySelector('#recent-list .row .sub').textContent.split(' · ')[0],"
        " document.getElementById('recent').hidden]"
    )
    if found != clip.name or about != [f"{len(before)} edits", False]:
        yield f"{page.browser.name}: what was edited before is {found}, {about}"
    page.js(
        "window.asked = 0; document.getElementById('welcome-file').click = () => window.asked++;"
        " document.querySelector('#recent-list .row').click()"
    )
    if page.js("return [window.asked, document.getElementById('welcome-text').textContent]") != [
        1,
        f"Choose {clip.name} again: its edits are there then.",
    ]:
        yield f"{page.browser.name}: a stream that was edited before is not asked for"


def tabs(alone, clip):
    """A second tab with the same stream only looks."""
    page = alone.page
    browser = page.browser.browser
    with alone.opened(clip):
        page.select(3, 6)
        page.press("delete")
        first = browser.send("GET", "/window")
        browser.use_tab(browser.new_tab())
        page.browser.open(alone.address)
        page.wait("document.getElementById('welcome') && !document.getElementById('welcome').hidden")
        page.drop(clip)
        page.ready()
        said = page.wait("document.querySelector('#notices [data-id=only] span')?.textContent")
        edits = page.session()["edits"]
        page.js(
            "document.querySelectorAll('#notices .notice').forEach((one) => one.remove()); wokureti.model.select(8, 9);"
            " document.getElementById('delete').click()"
        )
        again = page.wait("document.querySelector('#notices span')?.textContent")
        if "another tab" not in said or said != again or page.session()["edits"] != edits or len(edits) != 3:
            yield f"two tabs: {said!r}, {again!r}, {edits}, {page.session()['edits']}"
        browser.send("DELETE", "/window")
        browser.use_tab(first)
        page.press("undo")


def killed(folder, address, clip, kills):
    """The browser is killed at a random moment after the page showed an edit: the next one with the same profile has
    it.
    """
    profile, chance, wanted = folder / "profile", random.Random(96), []
    for turn in range(kills + 1):
        browser = pages.Chromium(profile=profile)
        try:
            page = pages.Page(browser)
            browser.open(address)
            page.wait("document.getElementById('welcome') && !document.getElementById('welcome').hidden")
            page.drop(clip)
            page.ready()
            found = page.session()["edits"]
            if found != wanted:
                yield f"after {turn} kills the edits are {found}, not {wanted}"
                return
            if turn == kills:
                return
            page.select(4, 5)
            page.press("hold" if turn % 2 else "drop")
            wanted = page.session()["edits"]
            time.sleep(MOST_KILL * chance.random())
            os.kill(browser.browser.process, signal.SIGKILL)
        finally:
            browser.end()


def policed(page):
    """The policy of the page lets nothing out: no request, no picture from elsewhere, no other script."""
    script = """const found = [];
        const heard = (event) => found.push(event.effectiveDirective);
        document.addEventListener("securitypolicyviolation", heard);
        const asked = await fetch(args[0]).then(() => "answered", (error) => error.name);
        document.body.append(
            Object.assign(document.createElement("script"), { textContent: "window.injected = true" }));
        await new Promise((done) => { const image = new Image();
            image.onload = image.onerror = done; image.src = args[0]; });
        await new Promise((done) => setTimeout(done, 300));
        document.removeEventListener("securitypolicyviolation", heard);
        return [asked, window.injected ?? null, found.sort()]"""
    heard = []

    class Handler(http.server.BaseHTTPRequestHandler):
        def do_GET(self):
            heard.append(self.path)
            self.send_error(404)

        def log_message(self, *given):
            pass

    with http.server.ThreadingHTTPServer(("127.0.0.1", 0), Handler) as server:
        threading.Thread(target=server.serve_forever, daemon=True).start()
        found = page.js(script, f"http://127.0.0.1:{server.server_address[1]}/x.png")
        server.shutdown()
    if found[:2] != ["TypeError", None] or not {"connect-src", "img-src", "script-src-elem"} <= set(found[2]) or heard:
        yield f"{page.browser.name}: the policy lets something out: {found}, {heard}"


def in_browser(browser, folder, address):
    """What one browser shows."""
    alone = Alone(browser, address)
    with alone.opened(EXAMPLE) as page:
        if page.frames() != samples_of(EXAMPLE):
            yield f"{browser.name}: frames are not vp8serve's"
        name, data = page.offered("png")
        size = struct.unpack(">II", data[16:24])
        if name != "frame-0.png" or data[:4] != b"\x89PNG" or size != ivf.read_packets(EXAMPLE)[0][:2]:
            yield f"{browser.name}: {name} is no picture: {data[:24]!r}"
        yield from policed(page)
        # What was refused is in the console.
        browser.errors()
    if played(alone, EXAMPLE):
        yield f"{browser.name}: playback does not stop"
    yield from kept(alone, EXAMPLE)
    packets = [packet for _, packet in ivf.read_packets(EXAMPLE)[1]]
    path = folder / "clip.webm"
    path.write_bytes(webm(packets, [40 * at for at in range(len(packets))]))
    with alone.opened(path) as page:
        if page.frames() != samples_of(EXAMPLE) or page.session()["rate"] != [25, 1]:
            yield f"{browser.name}: a WebM file: {page.session()['rate']}"
    yield from heard(alone, folder)
    yield from coded(alone, EXAMPLE, folder)
    if browser.name == "chromium":
        yield from coded(alone, CLIPS / "odd-size.ivf", folder)
    yield from long_lead(alone, EXAMPLE, folder)
    yield from uncoded(alone, EXAMPLE)
    yield from refused(alone, folder)
    yield from hostile(alone, folder)
    errors = [line for line in browser.errors() if "beforeunload" not in line]
    if errors:
        yield f"{browser.name}: {errors[:3]}"


def heard(alone, folder):
    """A tone in the frames 25 to 29 of a clip is drawn there, and goes with them; a clip without sound has no room for
    it.
    """
    if shutil.which("ffmpeg") is None:
        print("skipped: ffmpeg is not there, so no sound is drawn")
        return
    path, tone = folder / "tone.webm", "aevalsrc=0.8*sin(2*PI*1000*t)*between(t\\,1\\,1.2):s=48000:d=4"
    inputs = ["-f", "lavfi", "-i", "testsrc=size=96x64:rate=25:duration=4", "-f", "lavfi", "-i", tone]
    ran(
        "ffmpeg", "-nostdin", "-y", "-v", "error", *inputs, "-c:v", "libvpx", "-b:v", "150k", "-c:a", "libopus", path
    ).check_returncode()
    for clip, whole, moved in ((path, [*range(25, 30)], [*range(5, 10)]), (EXAMPLE, [], [])):
        with alone.opened(clip) as page:
            found = []
            for script, wanted in (("-", whole), ("parts 0 20 20 0 0 20", moved)):
                if script != "-":
                    page.set_script(script)
                page.wait(HEARD)
                # The lane is drawn after the sound is there, on a busy machine some time after it.
                end = time.monotonic() + DRAWN
                while (drawn := page.js(INKED)) != wanted and time.monotonic() < end:
                    time.sleep(0.1)
                found.append(drawn)
            room = page.js("return wokureti.waves.tall(100) > 0")
        if found != [whole, moved] or room != (clip == path):
            yield f"{page.browser.name}: the sound of {clip.name} is drawn at {found}, not {[whole, moved]}"


def refused(alone, folder):
    """Files that are none of a stream are refused by name, and the page goes on."""
    page = alone.page
    for name, data, word in (("empty.ivf", b"", "Header"), ("<b>text.ivf", b"no stream " * 9, "Magic")):
        path = folder / name
        path.write_bytes(data)
        page.browser.open("about:blank")
        page.browser.open(alone.address)
        page.wait("document.getElementById('welcome') && !document.getElementById('welcome').hidden")
        page.drop(path)
        said = page.wait(
            "document.querySelector('#notices span')?.textContent || (document.getElementById('status').textContent !=="
            " 'ready' && document.getElementById('status').textContent)"
        )
        if word not in said or page.js("return document.querySelector('#notices b, #status b') !== null"):
            yield f"{page.browser.name}: {name}: {said!r}"
    page.drop(EXAMPLE)
    page.ready()


PUT = """await new Promise((done, failed) => {
      const request = indexedDB.open("wokureti", 1);
      request.onupgradeneeded = () => request.result.createObjectStore("lists");
      request.onerror = () => failed(request.error);
      request.onsuccess = () => {
        const made = request.result.transaction("lists", "readwrite");
        made.objectStore("lists").put({ text: args[0], time: 0 }, args[1]);
        made.oncomplete = () => (request.result.close(), done());
      };
    })"""


def hostile(alone, folder):
    """Names of files, and lists that another page from the disk put into the store, have HTML: the page shows it as
    text.
    """
    page, name = alone.page, f"{pages.ELEMENT}.ivf"
    (folder / name).write_bytes(EXAMPLE.read_bytes())
    with Session(EXAMPLE) as session:
        item = session.edits.contents().inputs.all[0]
        first, digest = (
            "# wokureti: edits of {} packets, {} bytes, sha256 {}\n".format(*item.extent(), item.digest()),
            item.digest(),
        )
    lists = {
        "a title": (f"{first}# step 2 {pages.ELEMENT}\ndelete 4\nhold 2\n", ["delete 4", "hold 2"], "#edits-list"),
        "a source": (
            f'{first}# source 1: 1 packets, 1 bytes, sha256 {64 * "0"}, "{pages.ELEMENT}"\ndelete 4\n',
            [],
            "#notices",
        ),
        "no edit": (f"{first}{pages.ELEMENT}\n", [], "#notices"),
        "no stream": (pages.ELEMENT, [], "#notices"),
    }
    for what, (text, edits, place) in lists.items():
        with alone.opened(EXAMPLE):
            pass
        page.browser.open(alone.address)
        page.wait("document.getElementById('welcome') && !document.getElementById('welcome').hidden")
        page.js(PUT, text, digest)
        page.drop(folder / name)
        page.ready()
        page.js("document.getElementById('tab-edits').click()")
        page.wait("document.querySelector(args[0]).textContent.includes('<img src=')", place)
        page.js("await wokureti.editing.step([args[0]], args[0]).catch(() => {})", pages.ELEMENT)
        page.select(3, 4)
        page.press("delete")
        found = page.js(
            "return [document.querySelector('img[onerror], img[src=\"x\"]'), window.injected ?? null,"
            " wokureti.model.session.names, wokureti.model.session.edits]"
        )
        if found != [None, None, [name], [*edits, "delete 3"]]:
            yield f"{page.browser.name}: HTML in {what}: {found}"
        page.js("addEventListener('beforeunload', (event) => event.stopImmediatePropagation(), { capture: true })")


def strings(engine, folder):
    """A WebM file whose strings and name are HTML: nothing of it runs, and what is shown is text. So is what is said of
    one that is refused, whose codec is HTML.
    """
    path, other = (folder / f"{name}{pages.ELEMENT}.webm" for name in ("", "other "))
    head, packets = ivf.read_packets(damaged(folder))
    packets = [packet for _, packet in packets]
    pages.write_marked(path, packets, head[:2])
    pages.write_marked(other, packets, head[:2], f"V_{pages.MARKUP}")
    with engine.opened(path) as page:
        page.checked()
        found = {"opened": page.js(pages.INJECTED)}
        report = page.offered("report")[1].decode()
        page.select(5, 6)
        page.press("hold")
        page.js("document.getElementById('tab-edits').click()")
        # The server finds a file that is dropped in the folder of the stream.
        if hasattr(engine, "folder"):
            shutil.copyfile(other, engine.folder / other.name)
        page.drop(other)
        page.wait("document.getElementById('ask').open")
        found["asked"] = page.js(pages.INJECTED)
        page.js("document.querySelector('#ask button[value=yes]').click()")
        said = page.wait("document.querySelector('#notices [data-id=opened] span')?.textContent")
        found["refused"] = page.js(pages.INJECTED)
        names, edits = (page.session()[name] for name in ("names", "edits"))
        title = page.js("return document.title + document.body.innerText")
    for what, one in found.items():
        if one != [0, False, None]:
            yield f"{engine.name}: strings of a WebM file that is {what} are HTML: {one}"
    made = ["hold 6", "delete 5"]
    if names != [path.name] or edits != made or pages.ELEMENT not in title or other.name not in said:
        yield f"{engine.name}: a WebM file whose strings are HTML: {names}, {edits}, {said!r}, {title[:99]!r}"
    if "<img" in report or "<script" in report or "&lt;img src=" not in report:
        yield f"{engine.name}: the report of a WebM file whose strings are HTML: {report[:300]!r}"


@contextlib.contextmanager
def static(folder):
    """A server of files, as any."""
    handler = lambda *given: http.server.SimpleHTTPRequestHandler(*given, directory=str(folder))  # noqa: E731
    http.server.SimpleHTTPRequestHandler.log_message = lambda *given: None
    with http.server.ThreadingHTTPServer(("127.0.0.1", 0), handler) as server:
        threading.Thread(target=server.serve_forever, daemon=True).start()
        yield f"http://127.0.0.1:{server.server_address[1]}/{PAGE.name}"
        server.shutdown()


def browsers(parts):
    """The browsers that are here, each with what begins it. Those that parts need and that are missing are named."""
    found = {}
    if shutil.which("chromium") and shutil.which("chromedriver"):
        found["chromium"] = pages.Chromium
    elif any("firefox" not in part for part in parts):
        print("skipped: chromium and chromium-driver are not there")
    if pages.firefox.find():
        found["firefox"] = pages.Firefox
    elif any("firefox" in part for part in parts):
        print("skipped: firefox-esr is not there")
    return found


def shots(folder, alone):
    """What the page looks like."""
    browser = alone.page.browser.browser
    for width, height in SIZES:
        browser.set_size(width, height)
        alone.page.browser.open(alone.address)
        alone.page.wait("document.getElementById('welcome')")
        (folder / f"{width}x{height}-welcome.png").write_bytes(browser.screenshot())
        with alone.opened(EXAMPLE) as page:
            page.select_frames(10, 20)
            page.press("cut-out")
            page.wait("wokureti.findings.check?.over")
            page.js("await new Promise((done) => setTimeout(done, 1500))")
            (folder / f"{width}x{height}-edited.png").write_bytes(browser.screenshot())


def by_hand(begin, folder, address):
    """What a person does on the page, from the disk and from a server of files."""
    with started(begin) as browser:
        yield from in_browser(browser, folder, address)
        with static(pathlib.Path(folder / "page")) as other, Alone(browser, other).opened(EXAMPLE) as page:
            if page.frames() != samples_of(EXAMPLE):
                yield f"{browser.name}: from a server of files, frames are not vp8serve's"
        if browser.name == "chromium":
            yield from tabs(Alone(browser, address), EXAMPLE)


SUMS = """await wokureti.engine.instead(toFile(args[0], args[1]));
    while (wokureti.model.session.names[0] !== args[1]) await new Promise((done) => setTimeout(done, 20));
    const found = [];
    const hex = (sum) => Array.from(new Uint8Array(sum), (byte) => byte.toString(16).padStart(2, "0")).join("");
    for (let n = 0; n < wokureti.model.frames; n++) {
      try { found.push(hex(await crypto.subtle.digest("SHA-256", (await wokureti.frames.get(n)).samples))); }
      catch (error) { found.push(error.reply || error.message); }
    }
    return [found, wokureti.model.session.edits, wokureti.model.frames]"""


def streams(begin, address):
    """Each clip and conformance stream is opened in the place of the one before: its frames are those of vp8serve, and
    it has no edit.
    """
    with started(begin) as browser, Alone(browser, address).opened(EXAMPLE) as page:
        page.select(3, 4)
        page.press("hold")
        for path in [*test_web.CLIPS, *test_web.STREAMS]:
            found, edits, count = page.js(
                SUMS, base64.b64encode(path.read_bytes()).decode(), f"{path.parent.name}-{path.name}"
            )
            wanted = [
                hashlib.sha256(frame).hexdigest() if isinstance(frame, bytes) else frame
                for frame in samples_of_sizes(path)
            ]
            if found != wanted or edits or count != len(wanted):
                first = next((place for place, pair in enumerate(zip(found, wanted)) if pair[0] != pair[1]), None)
                yield f"{path.name}: {count} frames, the first other one is {first}, {edits}"


def samples_of_sizes(path):
    """The samples of each frame, whatever its size, or why vp8serve refuses it: a run of vp8serve serves frames of one
    size.
    """
    found = samples_of(path)
    while "refused SizeDiffers" in found:
        left = [n for n, frame in enumerate(found) if frame == "refused SizeDiffers"]
        with tempfile.TemporaryDirectory() as folder:
            out = pathlib.Path(folder, "out.y4m")
            replies = (
                ran(SERVE, path, "-", out, input="".join(f"frame {n}\n" for n in left).encode())
                .stdout.decode()
                .splitlines()
            )
            pictures = test_web.pieces(out.read_bytes())
            for n, reply in zip(left, replies):
                found[n] = bytes(next(pictures)) if reply.startswith("served ") else reply
    return found


def engines(begin, folder, address):
    """The same acts over both engines."""
    with started(begin) as browser:
        yield from (f"{browser.name}: {line}" for line in same(Alone(browser, address), Served(browser), folder))


@contextlib.contextmanager
def started(begin):
    browser = begin()
    try:
        yield browser
    finally:
        browser.end()


def run(folder, parts):
    """The acts of these parts, in a folder that has nothing but the page."""
    own = folder / "page"
    own.mkdir()
    shutil.copyfile(PAGE, own / PAGE.name)
    address = (own / PAGE.name).as_uri()
    here = browsers(parts)
    for name, begin in here.items():
        if name in parts:
            yield from by_hand(begin, folder, address)
        if f"engines-{name}" in parts:
            yield from engines(begin, folder, address)
        if f"streams-{name}" in parts:
            yield from (f"{name}: {line}" for line in streams(begin, address))
    if "kills" in parts and "chromium" in here:
        wrong = list(killed(folder, address, EXAMPLE, KILLS))
        yield from wrong
        if "KILLS" in os.environ:
            results.total(
                f"{KILLS} kills of chromium within {1000 * MOST_KILL:.0f} ms after the page in one file shows an edit:"
                f" {'some edits are gone' if wrong else 'all edits are there again'}",
                len(wrong),
            )
    if "--shots" in sys.argv and "chromium" in here:
        with started(here["chromium"]) as browser:
            shots(pathlib.Path(sys.argv[-1]), Alone(browser, address))


def without_network():
    """Starts this test again where there is no network but that of the machine with itself. Returns only if that cannot
    be.
    """
    if os.environ.get("WOKURETI_ALONE") or shutil.which("unshare") is None or shutil.which("ip") is None:
        return
    if subprocess.run(["unshare", "-n", "ip", "link", "set", "lo", "up"], capture_output=True, check=False).returncode:
        print("skipped: without a network: unshare -n is refused here")
        return
    os.execve(
        shutil.which("unshare"),
        ["unshare", "-n", "sh", "-c", 'ip link set lo up && exec "$0" "$@"', sys.executable, *sys.argv],
        {**os.environ, "WOKURETI_ALONE": "1"},
    )


def main():
    if not PAGE.is_file():
        print("skipped: the page in one file is not built: ./build.py --web makes it")
        return 0
    without_network()
    with tempfile.TemporaryDirectory() as name:
        wrong = list(run(pathlib.Path(name), [part for part in PARTS if part in sys.argv] or PARTS))
    print("".join(line + "\n" for line in wrong), end="")
    return 1 if wrong else 0


if __name__ == "__main__":
    sys.exit(main())
