"""The page of wokureti open in chromium: what a person does there, and what is shown then."""

import json
import re
import shutil
import signal
import subprocess
import sys
import threading
import time
import unittest
import urllib.error
import urllib.request
from unittest import mock

from support import CLIP, SLOW, SMALL, TOP, command, digest, packets_of, start, write_packets
from test_page import SCENES, PageCase
from test_serve import TOKEN
from wokureti import Session
from wokureti.base import programs
from wokureti.media import ivf
from wokureti.session import exports
from wokureti.tools import coding

sys.path.append(str(TOP / "compare"))
from browser import HEARD, INKED  # noqa: E402

BROWSER = None


def setUpModule():
    global BROWSER
    if shutil.which("chromium") is not None and shutil.which("chromedriver") is not None:
        from browser import Browser

        BROWSER = Browser()


def tearDownModule():
    if BROWSER is not None:
        BROWSER.end()


class BrowserCase(PageCase):
    """A page that is served in this process, in a browser."""

    LIMIT = 60

    def setUp(self):
        if BROWSER is None:
            self.skipTest("chromium and chromium-driver are not there")
        super().setUp()

    def open(self, *given, **options):
        self.serve(*given, **options)
        # The page asks to stay if something is not saved.
        self.addCleanup(BROWSER.open, "about:blank")
        self.load()

    def load(self):
        BROWSER.open(f"{self.server.origin}/{TOKEN}/page/")
        self.wait("document.body.dataset.ready === 'yes'")

    def wait(self, script, seconds=10):
        return BROWSER.wait(script, seconds=seconds * SLOW)

    def js(self, script, *given):
        return BROWSER.run(script, *given)

    def text(self, css):
        return self.js("return document.querySelector(args[0]).textContent", css)

    def said(self):
        """What the status line and the notices say."""
        return self.js(
            "return [document.getElementById('status').textContent, ...[...document.querySelectorAll('#notices"
            " span')].map((one) => one.textContent)].join('\\n')"
        )


class Repairs(BrowserCase):
    def damaged(self):
        """README's clip with damage in two groups of findings: three bytes of packet 10 are flipped, and packet 40 is
        cut to two bytes.
        """
        packets = packets_of(CLIP)
        data = bytearray(packets[10])
        for place in (60, 90, 120):
            data[place] ^= 0xFF
        packets[10], packets[40] = bytes(data), packets[40][:2]
        return write_packets(self.folder() / "damaged.ivf", packets)

    def test_repair_all_while_a_group_is_folded_and_none_is_open(self):
        self.open(self.damaged())
        self.wait(
            "wokureti.findings.check && wokureti.findings.check.over && document.querySelector('#findings-list"
            " li.more')"
        )
        self.js("if (document.querySelector('#findings-list li.is-open')) throw Error('a finding is open')")
        BROWSER.click("#repair-all")
        self.wait(
            "!document.getElementById('preview-bar').hidden || document.getElementById('status').textContent !=="
            " 'ready'"
        )
        self.assertNotIn("Cannot read", self.said())
        self.wait("!document.getElementById('preview-bar').hidden")
        self.assertRegex(self.text("#preview-text"), r"\d+ steps, \d+ edits")
        lines = self.task("repair_all")["lines"]
        BROWSER.click("#preview-take")
        self.wait("wokureti.model.revision === 2")
        self.assertEqual(self.members("/edits")["edits"], lines)

    def test_no_repair_is_certain(self):
        """The button is off, and what a person can do is said."""
        packets = packets_of(CLIP)
        for place in (10, 30):
            data = bytearray(packets[place])
            data[len(data) // 2 :] = bytes(255 - value for value in data[len(data) // 2 :])
            packets[place] = bytes(data)
        self.open(write_packets(self.folder() / "inside.ivf", packets))
        self.wait("wokureti.findings.check && wokureti.findings.check.over")
        self.assertEqual(self.task("repair_all")["lines"], [])
        for size in ((1280, 800), (390, 844)):
            BROWSER.set_size(*size)
            self.wait("document.getElementById('repair-all').disabled")
            self.assertRegex(
                self.text("#repair-all-why"),
                r"No repair is certain, so nothing is changed: (1 packet stays|\d+ packets stay) damaged",
            )
            self.assertIn(
                "Press a finding to see what can be done there, or open a second recording as source 1",
                self.text("#repair-all-why"),
            )
            self.load()
            self.wait("wokureti.findings.check && wokureti.findings.check.over")
        BROWSER.set_size(1440, 900)
        # Other packets, other repairs.
        self.step("hold 40", "delete 41")
        self.wait("wokureti.findings.check.revision === 2 && wokureti.findings.check.over")
        self.assertEqual(
            self.js(
                "return [document.getElementById('repair-all-line').hidden,"
                " document.getElementById('repair-all').disabled]"
            ),
            [False, False],
        )


class Lists(BrowserCase):
    """Files that the page offers and takes."""

    def test_reports(self):
        path = self.folder() / "<b>&.ivf"
        packets = packets_of(SCENES)
        packets[5] = packets[5][:2]
        self.open(write_packets(path, packets))
        self.wait("wokureti.findings.check && wokureti.findings.check.over")
        name, text = self.offered(lambda: BROWSER.click("#report-json"))
        done = subprocess.run(
            [programs.find("vp8list"), path, "--check", "--json"],
            capture_output=True,
            text=True,
            check=False,
            timeout=60,
        )
        findings = list(map(json.loads, done.stdout.splitlines()))
        damage = sum(one["severity"] == "damage" for one in findings)
        found = json.loads(text)
        self.assertEqual(
            (name, found["findings"], found["damage"], found["notes"]),
            ("<b>&-findings.json", findings, damage, len(findings) - damage),
        )
        name, text = self.offered(lambda: BROWSER.click("#report"))
        self.assertEqual(
            (text.count("<tr>"), "<b>" in text, "&lt;b&gt;&amp;.ivf" in text, "refused ShortPacket" in text),
            (len(findings), False, True, True),
        )

    def offered(self, act):
        """The name and the text of the file that an act offers."""
        self.js(
            """window.offered = null; const real = URL.createObjectURL;
            URL.createObjectURL = (blob) => { window.offering = blob; return real.call(URL, blob); };
            HTMLAnchorElement.prototype.click = function () {
              if (this.download && window.offering)
                window.offering.text().then((text) => (window.offered = [this.download, text]));
            };"""
        )
        act()
        return self.wait("window.offered")

    def test_cuts_as_csv(self):
        self.open(SMALL)
        self.step("script trim 0 2 3; trim 0 7 2; splice 1 2")
        self.wait("wokureti.model.revision === 2")
        self.js("document.getElementById('tab-script').click()")
        name, text = self.offered(lambda: BROWSER.click("#cuts-save"))
        self.assertEqual((name, text.encode()), ("small-cuts.csv", self.ask("/file/cuts.csv")[2]))
        path = self.folder() / "list.csv"
        path.write_text(text.splitlines()[1])
        BROWSER.type("#cuts-file", str(path))
        self.wait("wokureti.model.session.script === 'parts 0 7 2'")
        path.write_text("soon")
        BROWSER.type("#cuts-file", str(path))
        self.wait("document.querySelector('#notices [data-id=cuts]')")

    def test_curves_as_csv(self):
        self.open(SCENES)
        packets = self.members("/packets?count=100")["packets"]
        for kind, name, value in (
            ("quantizer", "quantizer", lambda facts: facts["quantizer"]),
            ("level", "level", lambda facts: facts["level"]),
            ("bytes", "bits", lambda facts: 8 * facts["bytes"]),
        ):
            self.js(
                (
                    "const one = document.getElementById('curve'); one.value = args[0]; one.dispatchEvent(new"
                    " Event('change'))"
                ),
                kind,
            )
            found = self.offered(lambda: BROWSER.click("#curve-save"))
            self.assertEqual(
                found,
                [
                    f"scenes-{kind}.csv",
                    "".join(
                        f"{line}\n"
                        for line in [f"packet,{name}", *(f"{facts['packet']},{value(facts)}" for facts in packets)]
                    ),
                ],
            )
        self.js(
            "const one = document.getElementById('curve'); one.value = 'psnr'; one.dispatchEvent(new Event('change'))"
        )
        self.wait("document.getElementById('status').textContent.startsWith('PSNR of ')")
        found = self.offered(lambda: BROWSER.click("#curve-save"))
        self.assertEqual(found[1].splitlines()[:2], ["packet,psnr", "0,60"])
        self.js(
            "const one = document.getElementById('curve'); one.value = 'none'; one.dispatchEvent(new Event('change'))"
        )
        self.assertTrue(self.js("return document.getElementById('curve-save').hidden"))


class Differences(BrowserCase):
    def test_the_next_difference_is_from_what_is_shown(self):
        packets = packets_of(SCENES)
        other = write_packets(self.folder() / "other.ivf", [*packets[:16], *packets[20:]])
        self.open(SCENES, sources=[str(other)])
        self.js(
            "wokureti.viewer.choose_view('difference'); const one = document.getElementById('against'); one.value ="
            " '1'; one.dispatchEvent(new Event('change'))"
        )
        BROWSER.click("#next-difference")
        self.wait("document.getElementById('status').textContent.includes('differs from')")
        self.assertRegex(self.text("#status"), "frame 1[67] differs from source 1")

    def next_from(self, frame, key="n"):
        """The frame that the search goes to, or None."""
        self.js("await wokureti.model.go(args[0]); document.getElementById('status').textContent = ''", frame)
        self.js("document.getElementById('timeline').focus()")
        BROWSER.key(*key)
        said = self.wait(
            "/differs? from/.test(document.getElementById('status').textContent) &&"
            " document.getElementById('status').textContent"
        )
        return None if said.startswith("no frame") else self.js("return wokureti.model.frame")

    def test_from_before_the_edits_in_both_directions(self):
        self.open(SCENES)
        self.assertIsNone(self.next_from(0))
        packets = packets_of(SCENES)
        keys = [place for place, data in enumerate(packets) if ivf.is_key(data)]
        self.step(f"hold {keys[1] + 1}", f"delete {keys[1]}")
        self.wait("wokureti.model.revision === 2")
        self.assertEqual(
            [self.next_from(0), self.next_from(keys[1]), self.next_from(keys[2] - 1)], [keys[1], keys[1] + 1, None]
        )
        self.assertEqual(self.next_from(len(packets) - 1, ("Shift", "n")), keys[2] - 1)
        # A frame that is refused, and was not.
        self.step("replace 20 1000")
        self.wait("wokureti.model.revision === 3")
        self.assertEqual(self.next_from(keys[2]), 20)


class Programme(BrowserCase):
    """The lane of frames that are shown: its selection is of these, whatever packets they are of."""

    MOVED = "trim 0 20 10; trim 0 0 20; splice 1 2; trim 0 30 6; splice 3 4"
    SIZES = ((1280, 800), (390, 844))

    def tearDown(self):
        BROWSER.set_size(1440, 900)

    def moved(self):
        self.open(SCENES)
        self.step(f"script {self.MOVED}")
        self.settled(2)

    def settled(self, revision):
        self.wait(f"wokureti.model.revision === {revision} && wokureti.model.session.revision === {revision}")

    def mark(self, first, last):
        for frame, key in ((first, "i"), (last, "o")):
            self.js("await wokureti.model.go(args[0])", frame)
            BROWSER.key(key)

    def range(self):
        return self.js("const { range } = wokureti.model; return range && [range.first, range.end]")

    def shown(self):
        """The source and the packet of each frame that is shown."""
        found = self.look("origins")
        return list(zip(found["sources"], found["packets"]))

    def press(self, key, revision):
        BROWSER.key(*key.split())
        self.settled(revision)

    def box(self):
        return self.js(
            "const { left, top, width, height } = document.getElementById('programme-canvas').getBoundingClientRect();"
            " return [left, top, width, height]"
        )

    def drag(self, first, last, part=0.5):
        """Drags from one boundary of frames to another."""
        left, top, _, height = self.box()
        scale = self.js("return wokureti.programme.window.scale")
        BROWSER.drag([(left + scale * frame, top + height * part) for frame in (first, (first + last) / 2, last)])

    def test_frames_that_were_moved_are_cut_out(self):
        """Marks on both sides of a join: all frames between them go."""
        for first, last in ((5, 15), (0, 29), (25, 35), (12, 20)):
            self.moved()
            before = self.shown()
            self.mark(first, last)
            self.assertEqual(self.range(), [first, last + 1])
            self.press("x", 3)
            self.assertEqual(self.shown(), before[:first] + before[last + 1 :])
            self.assertIsNone(self.range())

    def test_frames_of_both_sides_of_a_join_of_sources(self):
        self.open(SCENES, sources=[str(SCENES)])
        self.step("script source 1; splice 0 1")
        self.settled(2)
        before, join = self.shown(), len(packets_of(SCENES))
        self.assertEqual({source for source, _ in before}, {0, 1})
        self.mark(join - 5, join + 5)
        self.press("x", 3)
        self.assertEqual(self.shown(), before[: join - 5] + before[join + 6 :])
        self.mark(join - 7, join - 3)
        self.press("e", 4)
        self.assertEqual(self.shown(), (before[: join - 5] + before[join + 6 :])[join - 7 : join - 2])

    def test_frames_are_moved(self):
        self.moved()
        before = self.shown()
        self.mark(8, 12)
        self.js("await wokureti.model.go(30)")
        self.press("v", 3)
        self.assertEqual(self.shown(), before[:8] + before[13:30] + before[8:13] + before[30:])

    def test_any_script_is_cut_also_in_a_fade(self):
        """The last node of the script becomes parts of itself, and the next cut adds no node."""
        self.open(SMALL)
        self.step("script trim 0 0 8; fade 1 2 4 256 128; crop 2 0 0 2 2")
        self.settled(2)
        before = self.samples()
        self.mark(3, 4)
        self.press("x", 3)
        self.assertEqual(self.samples(), before[:3] + before[5:])
        nodes = self.nodes()
        self.mark(1, 1)
        self.press("x", 4)
        self.assertEqual(self.samples(), before[:1] + before[2:3] + before[5:])
        self.assertEqual(len(self.nodes()), len(nodes))

    def nodes(self):
        return self.js(
            "return wokureti.model.session.edits.filter((line) => line.startsWith('script')).pop().split(';')"
        )

    def samples(self):
        return self.js(
            "const found = []; for (let n = 0; n < wokureti.model.frames; n++) found.push((await"
            " wokureti.frames.get(n)).samples.join()); return found"
        )

    def test_a_drag_selects_and_its_edges_are_dragged(self):
        for size in self.SIZES:
            BROWSER.set_size(*size)
            self.moved()
            self.drag(5.5, 13.5)
            self.assertEqual(self.range(), [5, 14], size)
            self.drag(14, 24)
            self.assertEqual(self.range(), [5, 24], size)
            self.drag(5, 2)
            self.assertEqual(self.range(), [2, 24], size)
            # The selection is drawn there, and packets are not selected.
            self.wait("document.getElementById('programme-canvas').dataset.selection === '2 24'")
            self.assertIsNone(self.js("return wokureti.model.selection"))
            before = self.shown()
            BROWSER.click("#cut-out")
            self.settled(3)
            self.assertEqual(self.shown(), before[:2] + before[24:])

    def test_a_selection_snaps_at_a_join(self):
        """A drag that ends a frame before a join or after it, which are some pixels, ends at the join; further off it
        does not.
        """
        self.open(SCENES)
        self.step("script splice 0 0; splice 1 1; splice 2 2")
        self.settled(2)
        join = len(packets_of(SCENES))
        for last, end in ((join - 1.5, join), (join + 0.5, join), (join + 4.5, join + 5)):
            self.drag(8.5, last)
            self.assertEqual(self.range(), [8, end])
            BROWSER.key("Escape")

    def test_out_before_in(self):
        """The older mark is dropped, and a sentence says so."""
        self.moved()
        self.mark(30, 20)
        self.assertIn("Out, frame 20, is before In, frame 30: In is dropped. Press I at the first frame", self.said())
        self.assertEqual((self.range(), self.text("#selection-text")), ([20, 21], "Out at frame 20"))
        self.js("await wokureti.model.go(4)")
        BROWSER.key("i")
        self.assertEqual(self.range(), [4, 21])
        self.js("await wokureti.model.go(25)")
        BROWSER.key("i")
        self.assertIn("Out, frame 20, is before In, frame 25: Out is dropped. Press O at the last frame", self.said())
        self.assertEqual((self.range(), self.text("#selection-text")), ([25, 26], "In at frame 25"))

    def test_keys_without_a_selection(self):
        self.moved()
        for key, what in (("x", "cut out"), ("e", "keep"), ("v", "move"), ("Delete", "cut out")):
            self.js("document.getElementById('status').textContent = ''")
            BROWSER.key(key)
            self.wait("document.getElementById('status').textContent !== ''")
            self.assertEqual(
                self.text("#status"),
                (
                    f"Nothing is selected to {what}. Select the frames first: I at the first frame and O at the last"
                    " one, or drag over them on the programme"
                ),
            )
        self.assertEqual(self.members("/session")["script"], self.MOVED)
        self.assertIn("Select them first", self.js("return document.getElementById('cut-out').title"))

    def test_keys_that_follow_each_other_at_once(self):
        """Each key acts on what those before it did, also if nothing is waited for between them."""
        self.moved()
        before = self.shown()
        self.js(
            """const press = (key) => document.getElementById('programme').dispatchEvent(
              new KeyboardEvent('keydown', { key, bubbles: true, cancelable: true }));
            wokureti.model.go(12); press('i'); for (let turn = 0; turn < 4; turn++) press('ArrowRight');
            await new Promise((done) => setTimeout(done, 300)); press('o'); press('x');"""
        )
        self.settled(3)
        self.assertEqual(self.shown(), before[:12] + before[17:])

    def test_a_click_keeps_the_marks(self):
        self.moved()
        self.js("await wokureti.model.go(4)")
        BROWSER.key("i")
        self.drag(20.5, 20.5)
        self.assertEqual((self.js("return wokureti.model.frame"), self.range()), (20, [4, 5]))
        BROWSER.key("o")
        self.assertEqual(self.range(), [4, 21])
        BROWSER.key("Escape")
        self.assertIsNone(self.range())

    def test_delete_is_that_of_the_lane(self):
        """In the programme Delete cuts out; in the lane of packets it deletes packets, says what breaks, and offers to
        cut out.
        """
        for size in self.SIZES:
            BROWSER.set_size(*size)
            self.open(SCENES)
            before, count = self.shown(), len(packets_of(SCENES))
            self.mark(3, 4)
            self.press("Delete", 2)
            self.assertEqual((self.shown(), self.members("/session")["packets"]), (before[:3] + before[5:], count))
            BROWSER.key("Control", "z")
            self.settled(3)
            self.js(
                "document.getElementById('timeline').focus(); wokureti.model.select(3, 5); await"
                " wokureti.model.goPacket(3)"
            )
            self.press("Delete", 4)
            self.assertEqual(self.members("/session")["packets"], count - 2)
            after = next(place for place, data in enumerate(packets_of(SCENES)) if place > 5 and ivf.is_key(data)) - 5
            self.wait("document.querySelector('#notices .offered')")
            self.assertIn(
                (
                    f"Packets 3 to 4 deleted. The {after} packets after them, up to the next key packet, are predicted"
                    " from them, so their pictures break"
                ),
                self.said(),
            )
            BROWSER.click("#notices .offered")
            self.settled(6)
            self.assertEqual((self.shown(), self.members("/session")["packets"]), (before[:3] + before[5:], count))

    def test_nothing_is_said_of_packets_that_nothing_is_predicted_from(self):
        """The last packets before a key packet."""
        self.open(SCENES)
        key = next(place for place, data in enumerate(packets_of(SCENES)) if place > 3 and ivf.is_key(data))
        self.js("document.getElementById('timeline').focus(); wokureti.model.select(args[0] - 2, args[0])", key)
        self.press("Delete", 2)
        self.js("await new Promise((done) => setTimeout(done, 300))")
        self.assertIsNone(self.js("return document.querySelector('#notices .offered')"))

    def test_packets_have_a_selection_of_their_own(self):
        self.moved()
        self.mark(5, 15)
        self.js("document.getElementById('timeline').focus()")
        BROWSER.key("Control", "a")
        self.assertEqual(
            (self.range(), self.js("return wokureti.model.selection.end")), ([5, 16], len(packets_of(SCENES)))
        )
        self.js("wokureti.model.select(null); document.getElementById('programme').focus()")
        # The packet of the current frame is not what is selected.
        BROWSER.key("h")
        self.wait("document.getElementById('status').textContent.startsWith('This acts on packets')")
        BROWSER.key("Control", "a")
        self.assertEqual(self.range(), [0, 36])
        self.assertEqual(self.members("/session")["revision"], 2)

    def test_pictures_are_those_of_the_frames(self):
        """A picture is that of a frame of its place: after a move too."""
        self.open(SCENES)
        pictures = "Number(document.getElementById('programme-canvas').dataset.pictures)"
        self.wait(f"{pictures} > 8")
        first = self.js("return wokureti.thumbs.shown")
        self.mark(20, 29)
        self.js("await wokureti.model.go(0)")
        self.press("v", 2)
        self.wait(f"{pictures} > 8 && wokureti.thumbs.wanted[0].frame >= 20")
        self.assertNotEqual(self.js("return wokureti.thumbs.shown"), first)
        for name, number in self.js("return wokureti.thumbs.wanted.map((one) => [one.frame, one.number])"):
            self.assertEqual(self.shown()[number], (0, name))

    def test_a_picture_that_comes_after_an_edit_is_of_no_other_frame(self):
        """The script moves frames while a small picture is fetched by the number of its frame."""
        self.open(SCENES)
        self.js(
            """const { engine } = await import(new URL("engine.js", document.baseURI));
            const [real, { thumbs, programme }] = [engine.frames, wokureti];
            const gate = new Promise((open) => (window.open_gate = open));
            engine.frames = async (list, given) => {
              if (given?.low) {
                window.held = list[0];
                await gate;
              }
              return real(list, given);
            };
            thumbs.found.clear();
            thumbs.key = "";
            programme.redraw();"""
        )
        self.wait("window.held === 0 || window.held > 0")
        self.step("script parts 0 20 10 0 0 20")
        self.wait("wokureti.model.frames === 30 && wokureti.programme.window.count === 30")
        self.js("window.open_gate()")
        self.wait(
            "wokureti.thumbs.wanted.length > 3 && wokureti.thumbs.wanted.every((one) => one &&"
            " wokureti.thumbs.found.get(one.name)?.picture)"
        )
        wrong = self.js(
            """const [context, wrong] = [new OffscreenCanvas(8, 8).getContext("2d"), []];
            const samples = (picture) => {
              context.drawImage(picture, 0, 0, 8, 8);
              return [...context.getImageData(0, 0, 8, 8).data].join();
            };
            for (const { name, number, of } of wokureti.thumbs.wanted) {
              const small = (await wokureti.thumbs.small(number, of)).picture;
              if (samples(wokureti.thumbs.found.get(name).picture) !== samples(small)) wrong.push(number);
            }
            return wrong;"""
        )
        self.assertEqual(wrong, [])


BEEP = "aevalsrc=0.8*sin(2*PI*1000*t)*between(t\\,1\\,1.2):s=48000:d=4"


def heard_clip(case, name="beep.webm", codec="libopus", sound=BEEP):
    """A clip of 100 frames, 25 a second, with a tone in the frames 25 to 29 and none else."""
    if shutil.which("ffmpeg") is None:
        case.skipTest("ffmpeg is not there")
    path = case.folder() / name
    inputs = [
        "-f",
        "lavfi",
        "-i",
        "testsrc=size=96x64:rate=25:duration=4",
        *(["-f", "lavfi", "-i", sound, "-c:a", codec] if sound else []),
    ]
    subprocess.run(
        ["ffmpeg", "-nostdin", "-y", "-v", "error", *inputs, "-c:v", "libvpx", "-g", "20", "-b:v", "150k", path],
        check=True,
        timeout=60 * SLOW,
    )
    return path


class Waves(BrowserCase):
    """The sound of the frames that are shown, below their pictures."""

    clip = heard_clip

    def check_ink(self, wanted, what=None):
        """The frames that have ink in the picture of the sound, in the pixels of the canvas, are these. The lane is
        drawn after the sound is there, on a busy machine some time after it.
        """
        self.wait(HEARD)
        end = time.monotonic() + 15
        while (found := self.js(INKED)) != list(wanted) and time.monotonic() < end:
            time.sleep(0.1)
        self.assertEqual(found, list(wanted), what)

    def set_script(self, text):
        revision = self.members("/session")["revision"] + 1
        self.step(f"script {text}")
        self.wait(
            f"wokureti.model.revision === {revision} && wokureti.programme.window.count === wokureti.model.frames"
        )

    def asked(self):
        return self.js(
            "return performance.getEntriesByType('resource').map((one) => one.name).filter((name) =>"
            " /wave\\.webm/.test(name)).length"
        )

    def test_the_tone_is_where_it_is_heard(self):
        self.open(self.clip())
        self.check_ink(range(25, 30))
        # A minute of the file.
        self.assertEqual(self.asked(), 1)

    def test_it_goes_with_its_frames(self):
        self.open(
            self.clip(), sources=[str(self.clip("other.mkv", "libvorbis")), str(self.clip("silent.webm", sound=None))]
        )
        self.check_ink(range(25, 30))
        for script, wanted in (
            ("parts 0 20 20 0 0 20 0 40 60", range(5, 10)),
            ("parts 0 0 10 0 27 73", range(10, 13)),
            ("trim 0 40 60", ()),
            (
                "source 1; source 2; trim 1 20 20; trim 2 0 30; trim 0 22 20; splice 4 5; splice 6 3",
                (*range(33, 38), *range(55, 60)),
            ),
            ("fade 0 0 60 0 256", range(25, 30)),
            # The shade of the fade covers the others.
            ("trim 0 20 10; fade 1 0 10 256 0; splice 2 2", (5, 6, 15, 16)),
        ):
            self.set_script(script)
            self.check_ink(wanted, script)
        # Each file was decoded once.
        self.assertEqual(
            self.js("return [...wokureti.waves.files.values()].map((pieces) => pieces && pieces.size)"), [1, 1]
        )
        self.assertEqual(self.asked(), 2)

    def test_it_goes_with_its_packets(self):
        """Frames that are deleted take their sound along: their times are asked again once nothing is done for a
        moment.
        """
        self.open(self.clip())
        self.wait(HEARD)
        self.step(*["delete 10"] * 5, "move 94 0")
        self.wait("wokureti.model.revision === 2 && wokureti.waves.runs.get(0)?.runs.length === 3", seconds=20)
        runs = self.task("waves", source=0)["runs"]
        first = runs[1][2]
        self.assertEqual(runs, [[1, 0, first + 3960, 40], [10, 0, first, 400], [84, 0, first + 600, 3360]])
        self.js("await wokureti.model.go(50)")
        self.check_ink(range(21, 26))

    def test_no_sound(self):
        """Without sound, or in a browser that cannot decode it, there is no room for it, and nothing is said."""
        for path, cannot in (
            (self.clip("silent.webm", sound=None), ""),
            (SMALL, ""),
            (
                self.clip(),
                (
                    "OfflineAudioContext.prototype.decodeAudioData = async () => { throw new DOMException('no',"
                    " 'EncodingError'); }"
                ),
            ),
        ):
            self.open(path)
            self.js(cannot)
            self.wait(
                "wokureti.thumbs.wanted.length && !wokureti.thumbs.isWanting && !wokureti.waves.isBusy &&"
                " !wokureti.waves.next()"
            )
            self.assertEqual(
                self.js(
                    "return [wokureti.programme.box.clientHeight, wokureti.programme.canvas.dataset.waves,"
                    " document.getElementById('notices').textContent]"
                ),
                [92, "0", ""],
                path,
            )

    def test_small_pictures_come_first(self):
        self.open(self.clip())
        self.wait(HEARD)
        names = self.js(
            "return performance.getEntriesByType('resource').sort((one, other) => one.startTime -"
            " other.startTime).map((one) => one.name.replace(/.*\\//, '').replace(/\\?.*/, ''))"
        )
        self.assertLess(
            max(place for place, name in enumerate(names) if name == "frames" or name.endswith(".y4m")),
            names.index("wave.webm"),
        )


class Requests(BrowserCase):
    """What a click asks of the server."""

    # Seconds without a request after which all was asked: small pictures and curves wait for less.
    QUIET = 1.2

    def asked(self, act):
        """The requests that an act makes, without the events."""
        routes, found, real = self.server.routes, [], self.server.routes.answer
        since = [time.monotonic()]

        def answer(request):
            if request.parts[1:] != ["events"]:
                found.append(f"{request.method} {'/'.join(request.parts[1:])}")
            since[0] = time.monotonic()
            return real(request)

        with mock.patch.object(routes, "answer", answer):
            act()
            while time.monotonic() - since[0] < self.QUIET:
                time.sleep(0.05)
        return found

    def open(self, *given, **options):
        super().open(*given, **options)
        self.wait(
            "wokureti.findings.check && wokureti.findings.check.over && wokureti.thumbs.wanted.length &&"
            " wokureti.thumbs.wanted.every(({ name }) => wokureti.thumbs.found.has(name))"
        )
        self.js("document.getElementById('timeline').focus()")
        self.asked(lambda: self.js("await wokureti.model.goPacket(25)"))

    def edit(self, act, revision):
        """The requests of an act that changes the stream; it ends when the picture after it and its findings are
        shown.
        """

        def whole():
            act()
            self.wait(
                f"wokureti.model.revision === {revision} && wokureti.frames.here(wokureti.model.frame) &&"
                f" wokureti.findings.check.over && wokureti.findings.check.revision === {revision}"
            )

        return self.asked(whole)

    def test_a_delete_and_its_undo(self):
        self.open(SCENES)
        for revision, keys in ((2, ["Delete"]), (3, ["Delete"]), (4, ["Control", "z"]), (5, ["h"])):
            found = self.edit(lambda: BROWSER.key(*keys), revision)
            self.assertEqual(found, ["POST edits", "GET frames/25.y4m"], keys)
            # The answer to the edit has what the page would ask for.
            self.assertEqual(self.js("return wokureti.model.session"), self.members("/session"))
            tile = self.js("const { marks, ...tile } = wokureti.timeline.tiles.fresh(1, 0); return tile")
            self.assertEqual(tile, self.look("timeline"))
            self.assertEqual(
                self.js("return wokureti.findings.check.findings.map(({ group, ...finding }) => finding)"),
                self.check_members()["findings"],
            )

    def test_a_delete_that_damages(self):
        """The findings of the packets after it are told, and the timeline shows them without being read again."""
        self.open(CLIP)
        found = self.edit(lambda: BROWSER.key("Delete"), 2)
        self.assertEqual(found, ["POST edits", "GET frames/25.y4m"])
        inside = [
            finding["packet"] for finding in self.checked()["findings"] if finding["kind"] in ("past_end", "unread")
        ]
        kinds = "".join(
            "p" if place in inside and kind in "ihkfd" else kind
            for place, kind in enumerate(self.look("timeline")["kinds"])
        )
        self.assertIn("p", kinds)
        self.assertEqual(
            self.js(
                "return Array.from({ length: wokureti.model.packets }, (_, packet) =>"
                " wokureti.timeline.entry(packet).kind).join('')"
            ),
            kinds,
        )

    def test_a_delete_of_a_stream_with_sound(self):
        """The sound is not asked for again. Small pictures, the times of packets and the repairs are asked for when
        nothing is done for seconds.
        """
        self.open(heard_clip(self))
        self.wait(HEARD)
        found = self.edit(lambda: BROWSER.key("Delete"), 2)
        self.assertEqual(found[:2], ["POST edits", "GET frames/25.y4m"])
        self.assertFalse([one for one in found if "wave.webm" in one], found)
        self.js("document.getElementById('programme').focus(); wokureti.model.selectFrames(90, 91)")

        def cut():
            BROWSER.key("Delete")
            self.wait(
                "wokureti.model.revision === 3 && wokureti.model.frames === 98 &&"
                " wokureti.frames.here(wokureti.model.frame)"
            )

        found = self.asked(cut)
        self.assertIn("POST edits", found)
        self.assertFalse([one for one in found if "wave.webm" in one], found)

    def test_a_click_on_a_frame(self):
        self.open(SCENES)
        left, top, width, height = self.js(
            "const box = document.getElementById('bars').getBoundingClientRect(); return [box.left, box.top, box.width,"
            " box.height]"
        )
        packet = self.js("return wokureti.timeline.window.packetAt(args[0])", width / 3)
        found = self.asked(lambda: BROWSER.drag([(left + width / 3, top + height / 2)] * 2))
        self.assertEqual((found, self.js("return wokureti.model.packet")), ([f"GET frames/{packet}.y4m"], packet))
        self.assertLessEqual(len(self.asked(lambda: BROWSER.key("Right"))), 2)

    def test_an_edit_of_another_tab(self):
        self.open(SCENES)
        found = self.edit(lambda: self.step("delete 3"), 2)
        self.assertEqual(found.count("GET session"), 1, found)

    def test_findings_while_nothing_is_asked(self):
        """A page that was hidden, or lost its server, is told all of the check again."""
        self.open(self.damaged())
        wanted = self.check_members()["findings"]
        self.assertTrue(wanted)
        self.js(
            "wokureti.findings.check = null; Object.defineProperty(document, 'hidden', { value: true, configurable:"
            " true }); document.dispatchEvent(new Event('visibilitychange'))"
        )
        self.js(
            "Object.defineProperty(document, 'hidden', { value: false, configurable: true });"
            " document.dispatchEvent(new Event('visibilitychange'))"
        )
        self.wait("wokureti.findings.check && wokureti.findings.check.over")
        self.assertEqual(
            self.js("return wokureti.findings.check.findings.map(({ group, ...finding }) => finding)"), wanted
        )

    def damaged(self):
        packets = packets_of(SCENES)
        packets[9] = packets[9][:2]
        return write_packets(self.folder() / "damaged.ivf", packets)


class Looks(BrowserCase):
    SIZES = ((390, 844), (844, 390), (720, 450))

    def tearDown(self):
        BROWSER.set_size(1440, 900)

    def test_the_status_line_is_seen_in_small_windows(self):
        self.open(self.folded())
        for width, height in self.SIZES:
            BROWSER.set_size(width, height)
            self.load()
            self.wait("wokureti.findings.check && wokureti.findings.check.over")
            for css in ("footer", "#programme"):
                top, bottom = self.js(
                    "const box = document.querySelector(args[0]).getBoundingClientRect(); return [box.top, box.bottom]",
                    css,
                )
                self.assertTrue(0 <= top < bottom <= height + 1, (width, height, css, top, bottom))

    def test_the_timeline_covers_no_picture(self):
        """In a low window, with a script and a long name."""
        path = self.folder() / f"{'a long name ' * 12}.ivf"
        path.write_bytes(CLIP.read_bytes())
        self.open(path)
        self.step("script trim 0 5 30")
        for width, height in (*self.SIZES, (1000, 700)):
            BROWSER.set_size(width, height)
            self.load()
            self.wait("wokureti.model.session.script !== '-' && wokureti.viewer.picture.now")
            covered = (
                "document.getElementById('now-canvas').getBoundingClientRect().bottom -"
                " document.getElementById('lower').getBoundingClientRect().top"
            )
            self.wait(f"{covered} <= 1")

    def folded(self):
        """A clip with findings, so that the panel is long."""
        packets = packets_of(SCENES)
        for place in (2, 9, 20):
            packets[place] = packets[place][:2]
        return write_packets(self.folder() / "damaged.ivf", packets)

    def test_toolbars_show_that_they_have_more(self):
        self.open(SMALL)
        for width, height in self.SIZES:
            BROWSER.set_size(width, height)
            self.load()
            for number in range(2):
                ask = (
                    "const bar = document.querySelectorAll('.tools')[args[0]]; return [bar.scrollWidth >"
                    " bar.clientWidth, bar.classList.contains('more-left'), bar.classList.contains('more-right')]"
                )
                self.wait(
                    "[0, 1].every((bar) => document.querySelectorAll('.tools')[bar].classList.contains('more-right'))"
                )
                self.assertEqual(self.js(ask, number), [True, False, True])
                self.js(
                    "const bar = document.querySelectorAll('.tools')[args[0]]; bar.scrollLeft = bar.scrollWidth", number
                )
                self.wait("document.querySelectorAll('.tools.more-left').length === 1")
                self.assertEqual(self.js(ask, number), [True, True, False])
                self.js("document.querySelectorAll('.tools')[args[0]].scrollLeft = 0", number)
        BROWSER.set_size(1440, 900)
        self.load()
        self.assertEqual(self.js("return document.querySelectorAll('.tools.more-right').length"), 0)

    def test_a_notice_is_there_once(self):
        self.open(SMALL)
        for _ in range(3):
            self.live.notice("the same sentence")
            self.step("hold 3")
        self.wait("wokureti.model.session.notices.length === 3")
        self.assertEqual(
            self.js(
                "return [...document.querySelectorAll('#notices span')].filter((one) => one.textContent === 'the same"
                " sentence').length"
            ),
            1,
        )

    def test_the_keys_go_on_after_a_repair_is_taken(self):
        self.open(self.folded())
        self.wait("wokureti.findings.check && wokureti.findings.check.over")
        for button in ("#preview-leave", "#preview-take"):
            BROWSER.click("#repair-all")
            self.wait("!document.getElementById('preview-bar').hidden")
            BROWSER.click(button)
            self.wait("document.getElementById('preview-bar').hidden")
            self.js("await new Promise((done) => setTimeout(done, 300))")
            self.assertIn(self.js("return document.activeElement.id"), ("timeline", "programme"), button)

    def test_enter_in_a_dialog(self):
        self.open(SMALL)
        self.js("document.getElementById('timeline').focus()")
        # In a list.
        BROWSER.key("r")
        self.wait("document.getElementById('ask').open && document.activeElement.matches('select')")
        BROWSER.key("Enter")
        self.wait("!document.getElementById('ask').open")
        self.wait("wokureti.model.session.script !== '-'")
        # In a number.
        self.js("document.getElementById('tab-packet').click(); document.getElementById('insert-blank').click()")
        self.wait("document.getElementById('ask').open && document.activeElement.matches('input')")
        BROWSER.key("Enter")
        self.wait("!document.getElementById('ask').open")
        self.wait("wokureti.model.session.packets === 13")
        self.js("document.getElementById('insert-blank').click()")
        self.wait("document.getElementById('ask').open")
        BROWSER.click("#ask button[value=no]")
        self.wait("!document.getElementById('ask').open")
        self.assertEqual(self.members("/session")["packets"], 13)


class Exports(BrowserCase):
    def test_an_export_shows_that_it_works_and_can_be_stopped(self):
        go_on = threading.Event()
        self.addCleanup(go_on.set)
        real = exports.export

        def slow(*given):
            go_on.wait(60)
            return real(*given)

        self.open(SMALL)
        self.step("script trim 0 2 5")
        self.wait("!document.getElementById('export').hidden")
        with mock.patch.object(exports, "export", slow):
            BROWSER.click("#export")
            self.wait(
                "/^exporting: vp8serve makes the packets, \\d+\\.\\d"
                " s$/.test(document.getElementById('status').textContent)"
            )
            self.assertEqual(self.text("#export"), "Stop the export")
            BROWSER.click("#export")
            self.wait("document.getElementById('status').textContent === 'the export was stopped'")
            self.assertEqual(self.text("#export"), "Export")
            go_on.set()
            BROWSER.click("#export")
            self.wait("document.getElementById('status').textContent.startsWith('exported small-export.ivf: ')")

    @unittest.skipUnless(shutil.which("ffmpeg"), "no ffmpeg")
    def test_what_the_script_changes_is_coded_again(self):
        frames = len(packets_of(CLIP))
        script = f"fade 0 {frames - 6} 5 256 0"
        self.open(CLIP)
        self.step(f"script {script}")
        self.wait("!document.getElementById('export').hidden")
        self.js(
            "window.offering = null; const make = URL.createObjectURL; URL.createObjectURL = (blob) => {"
            " window.offering = blob; return make.call(URL, blob); }"
        )
        BROWSER.click("#export")
        self.wait("document.getElementById('ask').open")
        self.assertEqual(self.text("#ask .note"), f"5 of {frames} frames are coded again; all others stay as they are.")
        self.assertEqual(
            self.js("return [...document.querySelectorAll('#ask input, #ask select')].map((one) => one.value)"), ["45"]
        )
        self.js("document.querySelector('#ask input').value = 36")
        BROWSER.click("#ask button[value=yes]")
        self.wait(
            f"/^exported mandelbrot-export.ivf: .*; 5 of {frames} frames are coded again, in [\\d,]+ bytes, PSNR"
            " 3[6-9]\\.\\d dB at least and [\\d.]+ dB in the mean/.test(document.getElementById('status').textContent)"
        )
        out = self.folder() / "out.ivf"
        self.assertEqual(command("export", CLIP, out, "--code-changed", "--psnr", "36", "--script", script)[0], 0)
        self.assertEqual(
            self.js("return [...new Uint8Array(await window.offering.arrayBuffer())]"), list(out.read_bytes())
        )

    @unittest.skipUnless(shutil.which("ffmpeg"), "no ffmpeg")
    def test_coding_shows_how_far_it_is_and_can_be_stopped(self):
        go_on, real = threading.Event(), coding.encode
        self.addCleanup(go_on.set)

        def slow(*given):
            while not go_on.wait(0.05):
                given[-1].check()
            return real(*given)

        self.open(SMALL)
        self.step("script fade 0 2 5 256 0")
        self.wait("!document.getElementById('export').hidden")
        with mock.patch.object(coding, "encode", slow):
            BROWSER.click("#export")
            self.wait("document.getElementById('ask').open")
            BROWSER.click("#ask button[value=yes]")
            self.wait(
                "/^exporting: coding 9 frames from frame 3 on, try 1 of 6 at most, \\d+\\.\\d"
                " s$/.test(document.getElementById('status').textContent)"
            )
            BROWSER.click("#export")
            self.wait("document.getElementById('status').textContent === 'the export was stopped'")
            self.assertEqual(self.text("#export"), "Export")
        # A dialog that is left exports nothing.
        BROWSER.click("#export")
        self.wait("document.getElementById('ask').open")
        BROWSER.click("#ask button[value=no]")
        self.wait("!document.getElementById('ask').open")
        self.assertEqual(self.text("#export"), "Export")
        with mock.patch("shutil.which", lambda name: None):
            BROWSER.click("#export")
            self.wait("document.querySelector('#notices [data-id=exported]')")
        self.assertIn(
            (
                "Nothing was exported: 9 of 12 frames are coded again; all others stay as they are. No encoder of VP8"
                " was found on the machine of the server: install ffmpeg (with libvpx)"
            ),
            self.said(),
        )

    @unittest.skipUnless(shutil.which("ffmpeg"), "no ffmpeg")
    def test_a_long_lead(self):
        """A part that begins 12 s after a key packet: what each way costs."""
        path, packets = self.folder() / "slow.ivf", packets_of(CLIP)
        path.write_bytes(b"".join(ivf.pieces(ivf.Head(320, 180, 5, 2), len(packets), list(enumerate(packets)))))
        self.open(path)
        self.step("script trim 0 30 10")
        self.wait("!document.getElementById('export').hidden")
        BROWSER.click("#export")
        self.wait("document.getElementById('ask').open")
        hidden, own = sum(map(len, packets[:30])), sum(map(len, packets[30:40]))
        self.assertEqual(
            self.js("return [...document.querySelectorAll('#ask option')].map((one) => one.textContent)"),
            ["hidden", "none: coded again"],
        )
        text = (
            "Frame 0 is 12 s after a key frame. The packets from there on can come before it, hidden: 30 packets,"
            f" {hidden:,} bytes. Or its first 10 frames, {own:,} bytes now, are coded again, and nothing is hidden."
        )
        self.assertEqual(self.text("#ask .note"), text)
        self.js(
            "document.querySelector('#ask select').value = 'coded'; document.querySelector('#ask input').value = 36"
        )
        BROWSER.click("#ask button[value=yes]")
        self.wait(
            "/in 10 packets, none of them hidden; 10 of 10 frames are coded again, in [\\d,]+"
            " bytes/.test(document.getElementById('status').textContent)"
        )
        BROWSER.click("#export")
        self.wait("document.getElementById('ask').open")
        BROWSER.click("#ask button[value=yes]")
        self.wait("/in 40 packets, 30 of them hidden/.test(document.getElementById('status').textContent)")
        # The choice is of all parts, also of those that begin soon after a key packet.
        self.step("script trim 0 30 10; trim 0 5 3; splice 1 2")
        self.wait("wokureti.model.revision === 3")
        BROWSER.click("#export")
        self.wait("document.getElementById('ask').open")
        hidden, own = hidden + sum(map(len, packets[:5])), own + sum(map(len, packets[5:8]))
        text = f"hidden: 35 packets, {hidden:,} bytes. Or their first 13 frames, {own:,} bytes now, are coded again"
        self.assertIn(text, self.text("#ask .note"))
        self.assertIn("2 parts begin between key frames, one of them 12 s after one.", self.text("#ask .note"))
        BROWSER.click("#ask button[value=no]")

    def offered(self, act):
        """The name and the bytes of the file that an act offers."""
        self.js(
            """window.offered = null; const real = URL.createObjectURL;
            URL.createObjectURL = (blob) => { window.offering = blob; return real.call(URL, blob); };
            HTMLAnchorElement.prototype.click = function () {
              if (this.download && window.offering)
                window.offering.arrayBuffer().then(
                  (bytes) => (window.offered = [this.download, [...new Uint8Array(bytes)]]));
            };"""
        )
        act()
        name, data = self.wait("window.offered")
        return name, bytes(data)

    def test_one_button_gives_what_is_seen(self):
        """With a script and without one, by a click and by its key; the packets as they are are an entry of its
        menu.
        """
        self.open(SMALL, stems=[str(self.folder() / "small")])
        self.assertIsNone(self.js("return document.getElementById('download')"))
        blue = self.js("return [...document.querySelectorAll('header button.main')].map(({ id }) => id)")
        self.assertEqual(blue, ["export", "export-more"])
        frames = [digest(frame) for frame in self.live.session.frames(range(12))]
        name, data = self.offered(lambda: BROWSER.click("#export"))
        self.assertEqual((name, self.digests(data)), ("small-export.ivf", frames))
        self.assertEqual(self.text("#saved"), "exported to small-export.ivf")
        self.step("script trim 0 2 5")
        self.wait("wokureti.model.session.revision === 2")
        self.assertEqual(self.text("#saved"), "the script is in the list of edits")
        for act in (
            lambda: BROWSER.click("#export"),
            lambda: BROWSER.key("Control", "s"),
            lambda: BROWSER.key("Control", "e"),
        ):
            self.assertEqual(self.digests(self.offered(act)[1]), frames[2:7])
        self.assertTrue(self.js("return document.getElementById('export-menu').hidden"))
        BROWSER.click("#export-more")
        self.assertEqual(
            self.js("return [document.getElementById('export-menu').hidden, document.activeElement.id]"),
            [False, "save"],
        )
        BROWSER.key("Enter")
        self.wait("document.querySelector('#notices [data-id=saved]')")
        saved = self.members("/session")["saves"][0]["file"]
        self.assertEqual(packets_of(saved), packets_of(SMALL))
        self.assertTrue(self.js("return document.getElementById('export-menu').hidden"))

    def test_packets_are_saved_by_their_key(self):
        self.open(SMALL, stems=[str(self.folder() / "small")])
        self.js("document.getElementById('timeline').focus(); await wokureti.model.goPacket(11)")
        BROWSER.key("h")
        self.wait("wokureti.model.session.revision === 2")
        BROWSER.key("Control", "Shift", "s")
        self.wait("document.querySelector('#notices [data-id=saved]')")
        self.assertEqual(len(packets_of(self.members("/session")["saves"][0]["file"])), 12)

    def digests(self, data):
        path = self.folder() / "offered.ivf"
        path.write_bytes(data)
        with Session(path) as session:
            return [digest(frame) for frame in session.frames(range(session.count().frames))]


class Killed(BrowserCase):
    LIMIT = 90

    def start(self, *words, **env):
        process = start("open", *words, "--no-browser", stdout=subprocess.PIPE, stderr=subprocess.PIPE, env=env)

        def end():
            process.kill()
            process.communicate()

        self.addCleanup(end)
        return process, process.stdout.readline().decode().strip()

    def test_a_tab_finds_the_server_that_is_started_again(self):
        room = self.folder()
        clip = write_packets(room / "a clip.ivf", packets_of(SMALL))
        process, address = self.start(clip, XDG_STATE_HOME=str(room / "state"))
        self.addCleanup(BROWSER.open, "about:blank")
        BROWSER.open(address)
        self.wait("document.body.dataset.ready === 'yes'")
        self.js("document.getElementById('timeline').focus()")
        BROWSER.key("Delete")
        self.wait("wokureti.model.session.packets === 11")
        process.kill()
        process.wait(20)
        self.wait("document.querySelector('#notices [data-id=lost]')")
        said = self.said()
        self.assertIn(f"The edits are in {room / 'a clip.edits'}: wokureti open '{clip}' goes on from there", said)
        instance = self.js("return wokureti.model.session.instance")
        _, again = self.start(clip, XDG_STATE_HOME=str(room / "state"))
        self.assertEqual(again, address)
        self.wait(
            f"window.wokureti && wokureti.model.session && wokureti.model.session.instance !== '{instance}' &&"
            " document.body.dataset.ready === 'yes'"
        )
        self.assertEqual(
            self.js(
                "return [wokureti.model.session.packets, document.querySelectorAll('#notices [data-id=lost]').length]"
            ),
            [11, 0],
        )


class StartPage(BrowserCase):
    """`wokureti open` without a stream."""

    LIMIT = 120
    SIZES = ((1280, 800), (390, 844))

    def tearDown(self):
        BROWSER.set_size(1440, 900)

    def started(self, room, *words):
        process = start(
            "open",
            *words,
            "--no-browser",
            stdout=subprocess.PIPE,
            stderr=subprocess.DEVNULL,
            env={"XDG_STATE_HOME": str(room / "state")},
        )

        def end():
            if process.poll() is None:
                process.send_signal(signal.SIGINT)
                process.communicate(timeout=30 * SLOW)

        self.addCleanup(end)
        self.addCleanup(BROWSER.open, "about:blank")
        self.end = end
        return process.stdout.readline().decode().strip()

    def recent(self):
        return self.js(
            "return [...document.querySelectorAll('#recent-list .row')].map((one) =>"
            " [one.querySelector('.text').textContent, one.querySelector('.sub').textContent])"
        )

    def ready(self, address):
        BROWSER.open(address)
        self.wait("document.body && document.body.dataset.ready === 'yes'")

    def chosen(self, path):
        """Chooses a file in the browser's dialog, and waits for its page."""
        BROWSER.type("#welcome-file", str(path))
        self.wait("window.wokureti && document.body.dataset.ready === 'yes'")
        self.js("addEventListener('beforeunload', (event) => event.stopImmediatePropagation(), { capture: true })")

    def test_a_file_of_the_dialog_is_copied_and_its_edits_are_kept(self):
        for size in self.SIZES:
            BROWSER.set_size(*size)
            room = self.folder()
            path = write_packets(room / "<b>a clip.ivf", packets_of(SMALL))
            address = self.started(room)
            self.ready(address)
            self.assertTrue(self.js("return document.getElementById('recent').hidden"))
            self.assertLessEqual(self.js("return document.documentElement.scrollWidth"), size[0])
            self.chosen(path)
            self.assertEqual(
                self.js("const { names, packets } = wokureti.model.session; return [names, packets]"),
                [["<b>a clip.ivf"], 12],
            )
            self.js("wokureti.model.selectFrames(2, 5); await wokureti.cutting.cutOut()")
            self.assertEqual(self.js("return wokureti.model.frames"), 9)
            self.ready(address)
            ((name, about),) = self.recent()
            self.assertEqual(name, "<b>a clip.ivf")
            self.assertTrue(about.startswith("1 edit · "), about)
            # Nothing is written next to the stream; the list is in the state folder.
            self.assertEqual(sorted(one.name for one in room.iterdir()), ["<b>a clip.ivf", "state"])
            self.chosen(path)
            self.assertEqual(self.js("return [wokureti.model.frames, wokureti.model.session.edits.length]"), [9, 1])

    def test_a_stream_that_was_open_before(self):
        room = self.folder()
        path = write_packets(room / "clip.ivf", packets_of(SMALL))
        self.ready(self.started(room, path))
        self.js("addEventListener('beforeunload', (event) => event.stopImmediatePropagation(), { capture: true })")
        self.js("await wokureti.model.goPacket(11); await wokureti.editing.hold()")
        BROWSER.open("about:blank")
        self.end()
        self.ready(self.started(room))
        self.assertEqual([name for name, _ in self.recent()], ["clip.ivf"])
        self.assertIn(str(room), self.recent()[0][1])
        BROWSER.click("#recent-list .row")
        self.wait("window.wokureti && document.body.dataset.ready === 'yes'")
        self.assertEqual(self.js("return wokureti.model.session.edits"), ["hold 12", "delete 11"])

    def test_what_is_not_a_stream_is_refused(self):
        room = self.folder()
        path = room / "text.ivf"
        path.write_bytes(b"no stream " * 9)
        self.ready(self.started(room))
        BROWSER.type("#welcome-file", str(path))
        self.wait("/text\\.ivf is not a stream of VP8/.test(document.getElementById('welcome-text').textContent)")

    def test_pieces_are_of_a_name_and_in_order(self):
        """No path leads out of the folder, and no piece is left out."""
        room = self.folder()
        address = self.started(room)

        def post(path, **body):
            origin = re.match("http://[^/]*", address).group(0)
            request = urllib.request.Request(
                address.replace("/page/", f"/{path}"),
                json.dumps(body).encode(),
                {"Content-Type": "application/json", "Origin": origin},
            )
            try:
                with urllib.request.urlopen(request, timeout=20 * SLOW) as answer:
                    return answer.status, json.load(answer)
            except urllib.error.HTTPError as error:
                return error.code, json.load(error)

        status, found = post("piece", copy="", name="../../a.ivf", at=0, data="AAAA")
        self.assertEqual(status, 200)
        for copy, at, data, wanted in (
            (found["copy"], 9, "AAAA", 409),
            ("../../" + 10 * "a", 3, "AAAA", 400),
            (found["copy"], 3, "no base64", 400),
        ):
            self.assertEqual(post("piece", copy=copy, name="../../a.ivf", at=at, data=data)[0], wanted)
        for body in (
            {"recent": 0},
            {"copy": found["copy"], "name": "../../etc/passwd"},
            {"copy": "..", "name": "a"},
            {},
        ):
            self.assertEqual(post("pages", **body)[0], 404, body)
        self.assertEqual([one.name for one in room.iterdir() if one.name != "state"], [])


if __name__ == "__main__":
    unittest.main()
