"""What a person does on the page, over each engine and in each browser: the same acts, whose results are compared with
vp8serve's.

An act is a script in the page; `js` runs it, and `wait` waits until one returns something true. Files are handed to the
page as a browser hands dropped ones.
"""

import base64
import json
import pathlib
import sys
import time

TOP = pathlib.Path(__file__).resolve().parent.parent
sys.path[1:1] = [str(TOP / "clients/python"), str(TOP / "compare")]
from browser import Browser  # noqa: E402
from library import firefox  # noqa: E402
from wokureti.media import ivf, matroska  # noqa: E402

# Seconds that something on the page may take on a busy machine.
LIMIT = 60
# Seconds that a script in the page may take.
MOST_TIME = 300
# Bytes as a text, and back.
TOOLS = """window.toText = (bytes) => {
      let text = "";
      for (let at = 0; at < bytes.length; at += 32768) text += String.fromCharCode(...bytes.subarray(at, at + 32768));
      return btoa(text);
    };
    window.toBytes = (text) => Uint8Array.from(atob(text), (letter) => letter.charCodeAt(0));
    window.toFile = (text, name) => new File([toBytes(text)], name);
    window.showSaveFilePicker = undefined;
    const given = URL.createObjectURL;
    URL.createObjectURL = (blob) => { window.offering = blob; return given.call(URL, blob); };
    const click = HTMLAnchorElement.prototype.click;
    HTMLAnchorElement.prototype.click = function () {
      if (!this.download) return click.call(this);
      const { download: name } = this;
      window.offering.arrayBuffer().then((bytes) => (window.offered = [name, toText(new Uint8Array(bytes))]));
    };"""


# A text that is an element where it is taken as HTML, and one that also ends a script and begins another one.
ELEMENT = '<img src="x" onerror="window.injected = 1">'
MARKUP = f"{ELEMENT}</script><script>window.injected = 1</script>"
# Elements of that text, whether such a script is there, and whether one ran.
INJECTED = """return [document.querySelectorAll('img[onerror], img[src="x"]').length,
    [...document.scripts].some(({ text }) => text === "window.injected = 1"), window.injected ?? null]"""
# What an Opus decoder begins with, for one channel, and a silent packet of 20 ms.
OPUS, SILENCE = b"OpusHead\1\1\0\0" + (48000).to_bytes(4, "little") + bytes(3), b"\xf8\xff\xfe"


def write_marked(path, packets, size, codec="V_VP8"):
    """Writes a WebM file of 25 frames a second, with silence, all of whose strings are HTML; and its codec if it is
    given.
    """
    text, element, unsigned = matroska.text, matroska.element, matroska.unsigned

    def track(number, codec, *more):
        own = [text(name, f"{what} {MARKUP}") for what, name in (("track", "536e"), ("codec name", "258688"))]
        said = [text(name, f"{what} {MARKUP}") for what, name in (("language", "22b59c"), ("locale", "22b59d"))]
        return element(
            "ae", *(unsigned(name, number) for name in ("d7", "73c5")), text("86", codec), *own, *said, *more
        )

    sides = element("e0", unsigned("b0", size[0]), unsigned("ba", size[1]))
    heard = element("e1", matroska.decimal("b5", 48000), unsigned("9f", 1))
    names = {"title": "7ba9", "muxing app": "4d80", "writing app": "5741", "segment": "7384"}
    attached = {"name": "466e", "kind": "4660", "about": "467e"}
    parts = {
        matroska.INFO: element(
            matroska.INFO,
            unsigned("2ad7b1", matroska.MS),
            *(text(name, f"{what} {MARKUP}") for what, name in names.items()),
        ),
        matroska.TRACKS: element(
            matroska.TRACKS,
            track(1, codec, unsigned("83", 1), unsigned("23e383", 40 * matroska.MS), sides),
            track(2, "A_OPUS", unsigned("83", 2), element("63a2", OPUS), heard),
        ),
        matroska.TAGS: element(
            matroska.TAGS, *(matroska.tags(number, {f"TAG {MARKUP}": f"tag {MARKUP}"}) for number in (0, 1, 2))
        ),
        "1941a469": element(
            "1941a469",
            element(
                "61a7",
                *(text(name, f"attached {what} {MARKUP}") for what, name in attached.items()),
                unsigned("46ae", 1),
                element("465c", MARKUP.encode()),
            ),
        ),
    }
    seen = [(40 * matroska.MS * at, 1, ivf.is_key(data), data) for at, data in enumerate(packets)]
    silent = [(20 * matroska.MS * at, 2, True, SILENCE) for at in range(2 * len(packets))]
    with open(path, "wb") as file:
        matroska.write(file, "webm", parts, sorted(seen + silent, key=lambda block: block[:2]))


class Chromium:
    """Chromium, with scripts that are waited for."""

    name = "chromium"

    def __init__(self, width=1280, height=800, profile=None):
        self.browser = Browser(width, height, more=[f"--user-data-dir={profile}"] if profile else [])

    def open(self, address):
        self.browser.open(address)

    def js(self, script, *given):
        return self.browser.run(script, *given)

    def errors(self):
        return self.browser.errors()

    def end(self):
        self.browser.end()


class Firefox:
    """The same of Firefox."""

    name = "firefox"

    def __init__(self):
        self.browser = firefox.Firefox()
        self.browser.send("WebDriver:SetTimeouts", script=1000 * MOST_TIME)

    def open(self, address):
        self.browser.open(address)

    def js(self, script, *given):
        body = (
            "const done = arguments[arguments.length - 1]; (async (...args) => {"
            f" {script} }})(...Array.prototype.slice.call(arguments, 0, -1)).then((v) => done([v === undefined ? null :"
            " v, null]), (e) => done([null, String(e) + e.stack]))"
        )
        value, error = self.browser.run(body, *given)
        if error:
            raise AssertionError(error)
        return value

    def errors(self):
        return []

    def end(self):
        self.browser.end()


class Page:
    """The page in a browser. `open_page` opens it with a stream."""

    def __init__(self, browser):
        self.browser = browser

    def js(self, script, *given):
        return self.browser.js(script, *given)

    def wait(self, script, *given, seconds=LIMIT):
        limit = time.monotonic() + seconds
        while True:
            found = self.js(f"return {script}", *given)
            if found:
                return found
            if time.monotonic() > limit:
                raise AssertionError(
                    f"{self.browser.name}: not so in {seconds} s: {script}; the page says {self.said()!r}"
                )
            time.sleep(0.05)

    def said(self):
        return self.js(
            "return [document.getElementById('status').textContent, ...[...document.querySelectorAll('#notices"
            " span')].map((one) => one.textContent)].join('; ')"
        )

    def ready(self):
        self.wait("document.body.dataset.ready === 'yes'")
        self.js(TOOLS)

    def drop(self, *paths):
        """Drops files on the page."""
        files = [
            [base64.b64encode(pathlib.Path(path).read_bytes()).decode(), pathlib.Path(path).name] for path in paths
        ]
        self.js(
            (
                f"{TOOLS} const held = new DataTransfer(); for (const [text, name] of args[0])"
                " held.items.add(toFile(text, name)); dispatchEvent(new DragEvent('drop', { dataTransfer: held,"
                " bubbles: true, cancelable: true }))"
            ),
            files,
        )

    def press(self, name, revises=True):
        """Presses a button, and waits for the revision after it."""
        before = self.js("return wokureti.model.revision")
        self.js("document.getElementById(args[0]).click()", name)
        if revises:
            self.wait("wokureti.model.revision > args[0]", before)

    def select(self, first, end):
        """Selects packets."""
        self.js("wokureti.model.select(args[0], args[1])", first, end)

    def select_frames(self, first, end):
        self.js("wokureti.model.selectFrames(args[0], args[1])", first, end)

    def key(self, key, revises=False, **held):
        """Presses a key where the keys go, and waits for the revision after it."""
        before = self.js("return wokureti.model.revision")
        self.js(
            (
                "(document.activeElement ?? document.body).dispatchEvent(new KeyboardEvent('keydown', { key: args[0],"
                " bubbles: true, cancelable: true, ...args[1] }))"
            ),
            key,
            held,
        )
        if revises:
            self.wait("wokureti.model.revision > args[0]", before)

    def mark(self, first, last):
        """In and Out at frames."""
        for frame, key in ((first, "i"), (last, "o")):
            self.go(frame)
            self.key(key)

    def shown(self):
        """The source and the packet of each frame that is shown."""
        found = self.js("return wokureti.engine.look('origins', { from: 0, count: wokureti.model.frames })")
        return list(zip(found["sources"], found["packets"]))

    def drag(self, first, last):
        """Drags over the programme from one boundary of frames to another, with pointer events."""
        self.js(
            """const canvas = document.getElementById('programme-canvas');
            const { left, top, height } = canvas.getBoundingClientRect();
            const box = document.getElementById('programme'); box.setPointerCapture = () => {};
            const send = (kind, frame) => box.dispatchEvent(new PointerEvent(kind, {
              pointerId: 1, button: 0, bubbles: true, cancelable: true,
              clientX: left + wokureti.programme.window.pixelOf(frame), clientY: top + height / 2 }));
            send('pointerdown', args[0]);
            for (const part of [0.5, 1]) send('pointermove', args[0] + part * (args[1] - args[0]));
            send('pointerup', args[1]);""",
            first,
            last,
        )

    def go(self, frame):
        self.js("await wokureti.model.go(args[0])", frame)

    def session(self):
        return self.js("return wokureti.model.session")

    def frames(self):
        """The samples of each frame, or why it is refused."""
        found = self.js(
            """const found = [];
            for (let n = 0; n < wokureti.model.frames; n++) {
              try { found.push(toText((await wokureti.frames.get(n)).samples)); }
              catch (error) { found.push(error.reply || error.message); }
            }
            return found"""
        )
        return [text if text.startswith("refused") else base64.b64decode(text) for text in found]

    def offered(self, name):
        """The name and the bytes of the file that a button or a link offers."""
        self.js(
            (
                "window.offered = null; document.getElementById(args[0]).dispatchEvent(new MouseEvent('click', {"
                " bubbles: true, cancelable: true }))"
            ),
            name,
        )
        given, text = self.wait("window.offered")
        return given, base64.b64decode(text)

    def more(self, what, seconds):
        """Takes an entry of the dialog of fades, black and stills."""
        before = self.js("return wokureti.model.revision")
        self.js(
            (
                "document.getElementById('frames-more').click(); const dialog = document.getElementById('ask');"
                " dialog.querySelector('select').value = args[0]; dialog.querySelector('input').value = args[1];"
                " dialog.querySelector('button[value=yes]').click()"
            ),
            what,
            seconds,
        )
        self.wait("wokureti.model.revision > args[0]", before)

    def set_script(self, text):
        before = self.js("return wokureti.model.revision")
        self.js("document.getElementById('script-text').value = args[0]; await wokureti.scriptPanel.set()", text)
        self.wait("wokureti.model.revision > args[0]", before)

    def checked(self):
        """The findings of the current packets, once the check is over."""
        self.wait(
            "wokureti.findings.check && wokureti.findings.check.over && wokureti.findings.check.revision ==="
            " wokureti.model.revision"
        )
        return self.js("return wokureti.findings.check.findings.map(({ group, ...finding }) => finding)")


STATE = (
    "edits",
    "undone",
    "script",
    "packets",
    "frames",
    "rate",
    "sources",
    "source_frames",
    "titles",
    "changing",
    "saved",
)


def state(page):
    """What both engines say of the session."""
    session = page.session()
    return {name: session[name] for name in STATE}


def edited(page):
    """Packets are deleted, held, copied, moved; edits are undone, and made again."""
    page.select(3, 5)
    page.press("delete")
    page.select(6, 8)
    page.press("hold")
    page.press("undo")
    page.press("redo")
    page.js("wokureti.model.select(9, 11); await wokureti.editing.copy(false); await wokureti.model.goPacket(2)")
    page.press("paste")
    page.js(
        "const { packets } = wokureti.model; wokureti.model.select(packets - 3, packets - 1); await"
        " wokureti.editing.copy(true); await wokureti.model.goPacket(5)"
    )
    page.press("paste")
    page.press("undo")
    return state(page)


def scripted(page):
    """Frames are cut out, moved and faded."""
    page.select_frames(4, 7)
    page.press("cut-out")
    page.wait("!wokureti.model.range")
    page.js("wokureti.model.selectFrames(9, 12); await wokureti.model.go(1)")
    page.press("move-here")
    page.wait("!wokureti.model.range")
    page.set_script(f"{page.session()['script']}; fade 0 2 3 256 0")
    page.press("undo")
    page.press("redo")
    return state(page)


def programme(page):
    """What is done with the frames that are shown; returned with what is wrong, and the state. The page has two
    sources.
    """
    wrong = []

    def expect(name, found, wanted):
        if found != wanted:
            wrong.append(f"{name}: {found}, not {wanted}")

    def cut(name, first, last, act):
        before = page.shown()
        page.mark(first, last)
        act()
        expect(name, page.shown(), before[:first] + before[last + 1 :])

    count = page.session()["source_frames"][0]
    page.select_frames(20, 30)
    page.go(0)
    page.key("v", True)
    cut("frames of both sides of a move", 5, 14, lambda: page.key("x", True))
    page.js("await wokureti.cutting.join(1)")
    joined = count - 10
    cut("frames of both sides of a join of sources", joined - 3, joined + 3, lambda: page.key("Delete", True))
    # A fade in the middle is no shot: the last node becomes parts of itself.
    page.select_frames(6, 12)
    page.set_script(f"{page.session()['script']}; fade {len(page.session()['script'].split(';'))} 3 4 256 128")
    samples = page.frames()
    cut("frames in a fade", 4, 8, lambda: page.press("cut-out"))
    expect("the frames after a cut in a fade", page.frames(), samples[:4] + samples[9:])
    nodes = len(page.session()["script"].split(";"))
    cut("frames in a fade again", 2, 3, lambda: page.press("cut-out"))
    expect("nodes of a script that is cut again", len(page.session()["script"].split(";")), nodes)
    page.mark(9, 5)
    expect(
        "Out before In",
        page.js(
            "const { first, end, mark } = wokureti.model.range; return [first, end, mark,"
            " document.getElementById('status').textContent]"
        ),
        [5, 6, "end", "Out, frame 5, is before In, frame 9: In is dropped. Press I at the first frame"],
    )
    page.js("wokureti.model.selectFrames(null)")
    page.key("x")
    expect(
        "a key without a selection",
        page.js("return document.getElementById('status').textContent"),
        (
            "Nothing is selected to cut out. Select the frames first: I at the first frame and O at the last one, or"
            " drag over them on the programme"
        ),
    )
    page.drag(2.5, 6.5)
    expect("a drag", page.js("const { first, end } = wokureti.model.range; return [first, end]"), [2, 7])
    page.drag(7, 9)
    expect(
        "an edge that is dragged", page.js("const { first, end } = wokureti.model.range; return [first, end]"), [2, 9]
    )
    shown = page.shown()
    page.press("keep")
    expect("frames that are kept", page.shown(), shown[2:9])
    samples = page.frames()
    # Two thirds of the samples are luma, since width and height are even.
    luma = 2 * len(samples[0]) // 3
    black = bytes([16]) * luma + bytes([128]) * (len(samples[0]) - luma)
    page.go(2)
    page.more("black", 0.2)
    count = round(0.2 * page.session()["rate"][0] / page.session()["rate"][1])
    expect("black before a frame", page.frames() == samples[:2] + [black] * count + samples[2:], True)
    page.go(1)
    page.more("hold", 0.2)
    expect("a still", [frame == samples[0] for frame in page.frames()[: count + 2]], [True] * (count + 1) + [False])
    return wrong, state(page)


def packets(page):
    """Packets are deleted on their own lane, and then cut out instead."""
    page.js(
        "await wokureti.model.useSource(0); document.getElementById('timeline').focus();"
        " wokureti.model.activate('packets'); wokureti.model.select(3, 5)"
    )
    page.key("Delete", True)
    said = page.wait("document.querySelector('#notices [data-id=broken] span')?.textContent")
    deleted = state(page)
    before = page.js("return wokureti.model.revision")
    page.js("document.querySelector('#notices .offered').click()")
    page.wait("wokureti.model.revision >= args[0] + 2", before)
    return said, deleted, state(page)


def looked(page):
    """Questions whose answers both engines share."""
    script = """const { engine } = wokureti; const found = {};
        const { frames, packets } = wokureti.model;
        found.origins = await engine.look("origins", { from: 0, count: frames });
        found.places = await Promise.all(
            Array.from({ length: packets }, (_, packet) => engine.look("place", { packet, source: 0 })));
        found.keys = await Promise.all([0, 5, packets - 1].flatMap((packet) =>
            [1, -1].map((step) => engine.look("key", { source: 0, packet, step }))));
        found.cuts = await Promise.all([0, 4, frames - 1].flatMap((frame) =>
            [1, -1].map((step) => engine.look("cut", { frame, step }))));
        found.ranges = await Promise.all([[0, 3], [2, 9], [0, packets]].map(([first, end]) =>
            engine.look("range", { source: 0, first, end })));
        const anew = (tile) => ({ ...tile, keys: tile.keys.map(([packet, , frame]) => [packet, frame]) });
        found.tiles = await Promise.all([1, 2, 8].map((per) =>
            engine.look("timeline", { source: 0, first: 0, per, count: 1024 }).then(anew)));
        for (const line of ["list 0 5", "header 1", "macroblocks 1", "packet 2"])
            found[line] = await engine.answer(line, 0);
        return JSON.stringify(found, (name, value) =>
            (name === "revision" || name === "contents" ? undefined : value))"""
    return json.loads(page.js(script))
