"""wokureti open: the files of the page, and what the page asks for."""

import hashlib
import http.client
import json
import os
import pathlib
import posixpath
import random
import re
import signal
import socket
import shutil
import subprocess
import tempfile
import threading
import time
import unittest
import urllib.parse
from unittest import mock

from support import (
    DATA,
    ENGINE,
    ODD,
    SLOW,
    SMALL,
    TOP,
    Case,
    children_of,
    command,
    crash,
    frames_of,
    list_of,
    packets_of,
    serve,
    start,
    write_packets,
)
from test_asked import random_script
from test_serve import TOKEN, ServerCase
from wokureti import Refused, Script, Session, system
from wokureti.base import programs
from wokureti.media import ivf, times
from wokureti.server.web import Server
from wokureti.page import checking
from wokureti.page.opened import Opened
from wokureti.page.pages import KINDS, PageRoutes, files_of_page

BROKEN = b"\x10\x00"
# Three clips of one size, with key packets at 0, 4, 16 and 32.
ROOM = tempfile.TemporaryDirectory()
SCENES = write_packets(
    pathlib.Path(ROOM.name) / "scenes.ivf",
    [
        data
        for name in ("scene-cuts", "error-resilient", "independent-partitions")
        for data in packets_of(DATA / f"{name}.ivf")
    ],
)


class PageCase(ServerCase):
    """A server with a page, in this process."""

    speaker = None

    def setUp(self):
        super().setUp()
        self.hush()

    def serve(self, stream=SMALL, edits=None, save=None, stems=(), **options):
        self.live = Opened({"stream": stream, **options}, edits, save, stems=stems)
        self.server = Server()
        titles = [os.path.basename(str(path)) for path in (stream, *options.get("sources", ()))]
        self.server.routes = PageRoutes(self.live, self.server, TOKEN, titles, [str(stream)])
        live, server = self.live, self.server
        thread = threading.Thread(target=server.serve, daemon=True)
        thread.start()

        def end():
            server.end()
            thread.join(5)
            live.close()

        self.addCleanup(end)
        self.await_list()

    def await_list(self):
        limit = time.monotonic() + 10 * SLOW
        while not self.members("/session")["listed"]:
            self.assertLess(time.monotonic(), limit)
            time.sleep(0.02)

    def engine(self, name, *given):
        """What a call of the page's engine over this server returns, as it runs in Node; an error has a status."""
        if shutil.which("node") is None:
            self.skipTest("node is not there")
        if self.speaker is None or self.speaker[0] is not self.server:
            words = [
                "node",
                TOP / "clients/python/tests/engine.mjs",
                f"{self.server.origin}/{TOKEN}/",
                TOP / "clients/python/wokureti/page",
            ]
            process = subprocess.Popen(list(map(str, words)), stdin=subprocess.PIPE, stdout=subprocess.PIPE, text=True)
            self.speaker = (self.server, process)
            self.addCleanup(lambda: (process.communicate(timeout=10 * SLOW), process.kill()))
        process = self.speaker[1]
        process.stdin.write(json.dumps([name, *given]) + "\n")
        process.stdin.flush()
        found = json.loads(process.stdout.readline())
        return found["result"] if "result" in found else found

    def look(self, what, **query):
        """What the engine answers of the current stream."""
        self.engine("state")
        usual = {
            "timeline": {"first": 0, "per": 1, "count": 1024},
            "origins": {"from": 0, "count": 256},
            "numbers": {"count": 1},
        }
        return self.engine("look", what, {"source": 0, **usual.get(what, {}), **query})

    def post_to(self, path, **body):
        headers = {"Origin": self.server.origin, "Content-Type": "application/json"}
        return self.ask(path, "POST", headers, json.dumps(body))

    def step(self, *lines):
        status, _, body = self.post_to("/edits", lines=list(lines), contents=self.live.contents().name)
        self.assertEqual(status, 200, body)
        return json.loads(body)

    def picture(self, path):
        """The samples of a frame."""
        status, _, body = self.ask(path)
        self.assertEqual(status, 200, body)
        return body.partition(b"\nFRAME\n")[2]

    def frame(self, number, **of):
        """The same of a frame of another kind."""
        status, _, body = self.post_to("/frames", frames=[number], **of)
        self.assertEqual(status, 200, body)
        return body.partition(b"\nFRAME\n")[2]

    def task(self, kind, **query):
        """The answer to long work."""
        status, _, body = self.post_to("/task", kind=kind, **query)
        self.assertEqual(status, 200, body)
        return json.loads(body)

    def check_members(self, first=0):
        """What is known of the check of the current stream."""
        return json.loads(json.dumps(self.live.checked().members(first)))

    def checked(self):
        """The findings of the current stream, once the check is over."""
        limit = time.monotonic() + 20 * SLOW
        while True:
            found = self.check_members()
            if found["over"]:
                self.assertIsNone(found["failed"])
                return found
            self.assertLess(time.monotonic(), limit)
            time.sleep(0.02)

    def broken(self, place=5, source=SCENES, data=BROKEN):
        """A stream with one broken packet."""
        packets = packets_of(source)
        packets[place] = data
        return write_packets(self.folder() / "broken.ivf", packets)


def check_of(path):
    """What vp8list --check says of a file."""
    done = subprocess.run(
        [programs.find("vp8list"), str(path), "--check", "--json"],
        capture_output=True,
        text=True,
        check=False,
        timeout=20 * SLOW,
    )
    return [json.loads(line) for line in done.stdout.splitlines()]


class Files(PageCase):
    def test_each_file_has_its_type_and_the_policy(self):
        self.serve()
        files = files_of_page()
        self.assertTrue({"index.html", "main.js", "engines/http.js", "page.css", "icon.svg"} <= set(files))
        for name, (kind, text) in files.items():
            status, headers, body = self.ask(f"/page/{name}")
            self.assertEqual((status, headers["Content-Type"], body), (200, kind, text), name)
            self.assertEqual(kind, KINDS[os.path.splitext(name)[1]])
            self.assertEqual(headers["Content-Security-Policy"], "default-src 'self'")
            self.assertEqual(headers["X-Content-Type-Options"], "nosniff")
        self.assertEqual(self.ask("/page/")[2], files["index.html"][1])
        for path in (
            "/page",
            "/page/x.js",
            "/page/../edits",
            "/page/main.js/",
            "/page//main.js",
            "/page/__init__.py",
            "/page/.",
            "/page/%2e%2e/routes.py",
            "/main.js",
        ):
            self.assertEqual(self.ask(path)[0], 404, path)
        self.assertEqual(self.ask("/page/main.js?x=1")[0], 400)

    def test_nothing_is_inline_or_from_elsewhere(self):
        names = files_of_page()
        for name, (_, text) in names.items():
            text = text.decode().replace("http://www.w3.org/2000/svg", "")
            self.assertNotRegex(text, r"https?://|//[\w.-]+\.\w+/|@import|\beval\(|new Function", name)
            if name.endswith(".html"):
                # The policy would refuse these.
                self.assertNotRegex(text, r"<style|\sstyle=|\son\w+=|<script(?! type=\"module\" src=)|javascript:")
            for other in re.findall(r'(?:from|import) "(\.[\w./]+)"', text):
                self.assertIn(posixpath.normpath(posixpath.join(posixpath.dirname(name), other)), names, name)

    def test_serve_has_no_page(self):
        from wokureti.server.live import Live
        from wokureti.server.routes import Routes

        self.serve()
        live = Live({"stream": SMALL})
        self.addCleanup(live.close)
        self.server.routes = Routes(live, self.server, TOKEN)
        for path in (
            "/page/",
            "/page/main.js",
            "/session",
            "/answer?line=list%200%201",
            "/progress",
            "/streams",
            "/file/packets",
            "/file/cuts.csv",
        ):
            self.assertEqual(self.ask(path)[0], 404, path)


class Views(PageCase):
    def kinds(self, source=0, **query):
        return self.look("timeline", source=source, **query)

    def assertTimeline(self):
        """Each entry is what vp8list says of the packet."""
        with self.live.lock:
            facts = self.live.session.packets(source=0)
        found = self.kinds()
        letters = "".join(letter_of(fact) for fact in facts)
        forged = [place for place, letter in enumerate(found["kinds"]) if letter == "f"]
        self.assertEqual(
            "".join("f" if place in forged else letter for place, letter in enumerate(letters)), found["kinds"]
        )
        self.assertEqual(found["bytes"], [fact["bytes"] for fact in facts])
        frames, shown = [], 0
        for fact in facts:
            frames.append(shown)
            shown += fact["show"] == "shown"
        self.assertEqual((found["frames"], found["packets"]), (frames, len(facts)))
        # Columns of several packets.
        order = "ihkfdplr"
        for per in (2, 3, 64):
            columns = self.kinds(per=per)
            parts = [found["kinds"][place : place + per] for place in range(0, len(facts), per)]
            self.assertEqual(columns["kinds"], "".join(max(part, key=order.index) for part in parts))
            self.assertEqual(
                columns["bytes"], [max(found["bytes"][place : place + per]) for place in range(0, len(facts), per)]
            )
            self.assertEqual(columns["frames"], frames[::per])
            self.assertEqual(columns["edits"], sorted({place // per for place in found["edits"]}))
        return found

    def test_timeline(self):
        for clip in (SMALL, ODD, SCENES, DATA / "hidden-altref.ivf"):
            self.serve(clip)
            found = self.assertTimeline()
            self.assertEqual(found["edits"], [])
        self.assertIn("h", found["kinds"])

    def test_timeline_of_edits(self):
        self.serve(SCENES)
        count = self.members("/session")["packets"]
        self.step("hold 3", "replace 5 -", "replace 7 1000", "delete 20", "move 30 25", "insert 2 9 1000")
        found = self.assertTimeline()
        # The inserted packet of two bytes is refused, and what follows is lost up to the next key packet.
        self.assertEqual(found["kinds"][:6], "kirlll")
        # What was inserted, held, replaced, moved, and what follows a packet that is gone.
        self.assertEqual(found["edits"], [2, 4, 6, 8, 21, 26, 27, 32])
        self.change("undo")
        self.assertEqual(self.assertTimeline()["edits"], [])
        self.assertEqual(self.members("/session")["packets"], count)

    def test_random_edits(self):
        choose = random.Random(57)
        self.serve(SMALL, sources=[ODD])
        for _ in range(25):
            count = self.members("/session")["packets"]
            at = choose.randrange(count + 1)
            line = choose.choice(
                [
                    f"delete {at}",
                    f"hold {at}",
                    f"replace {at} -",
                    f"replace {at} 1000",
                    f"copy 1 {choose.randrange(12)} {at}",
                    f"move {at} {choose.randrange(count)}",
                    f"blank {at} 16 16",
                    "undo",
                    "redo",
                ]
            )
            self.assertIn(self.post(line)[0], (200, 409))
            self.assertTimeline()

    def test_damage_is_in_the_timeline_once_it_is_known(self):
        packets = packets_of(SCENES)
        place = next(
            number for number, data in enumerate(packets) if number > 3 and not ivf.is_key(data) and len(data) > 60
        )
        packets[place] = packets[place][: len(packets[place]) // 2]
        self.serve(write_packets(self.folder() / "a.ivf", packets))
        found = self.checked()
        inside = [finding["packet"] for finding in found["findings"] if finding["kind"] == "past_end"]
        self.assertTrue(inside)
        self.engine("event", "check", {**found, "revision": 1, "inside": inside})
        kinds = self.kinds()["kinds"]
        self.assertEqual([number for number, kind in enumerate(kinds) if kind == "p"], sorted(set(inside)))

    def test_session(self):
        room = self.folder()
        self.serve(SMALL, edits=room / "list", save=room / "out.ivf", sources=[ODD])
        found = self.members("/session")
        self.assertEqual(
            [
                found[name]
                for name in (
                    "revision",
                    "packets",
                    "frames",
                    "sources",
                    "source",
                    "script",
                    "edits",
                    "undone",
                    "saved",
                    "listed",
                )
            ],
            [1, 12, 12, [12, 12], 0, "-", [], [], True, True],
        )
        self.assertEqual(
            (found["names"], found["saves"][0]["next"], found["list"]),
            (["small.ivf", "odd-size.ivf"], str(room / "out.ivf"), str(room / "list")),
        )
        self.step("delete 3", "delete 3")
        self.change("delete 0")
        self.change(f"replace 0 {'00' * 1000}")
        self.change("undo")
        self.change("script trim 0 0 4")
        found = self.members("/session")
        self.assertEqual(
            (found["packets"], found["frames"], found["script"], found["saved"]), (9, 4, "trim 0 0 4", False)
        )
        self.assertEqual(found["edits"], ["delete 3", "delete 3", "delete 0", "script trim 0 0 4"])
        first, *rest = found["steps"]
        self.assertEqual([step == first for step in rest], [True, False, False])

    def test_origins_and_places(self):
        self.serve(SCENES, sources=[SMALL])
        for lines in ([], ["delete 4", "hold 9", "replace 12 -"], ["script trim 0 5 9; splice 1 0"]):
            if lines:
                self.step(*lines)
            session = self.members("/session")
            found = self.look("origins", count=4000)
            self.assertEqual(len(found["packets"]), session["frames"])
            with self.live.lock:
                numbers = {(0, fact["packet"]): fact["frame"] for fact in self.live.session.packets(source=0)}
            with self.session(SCENES) as other:
                for line in lines[:0] if lines and lines[0].startswith("script") else lines:
                    other.request(line)
                if session["script"] != "-":
                    for line in ("delete 4", "hold 9", "replace 12 -"):
                        other.request(line)
                for frame, origin in enumerate(zip(found["sources"], found["packets"])):
                    if frame % 7 == 0:
                        self.assertEqual(
                            self.picture(f"/frames/{frame}.y4m"), other.frame(numbers[origin]).i420(), (lines, frame)
                        )
            for frame in range(0, session["frames"], 5):
                place = self.look("place", packet=found["packets"][frame])
                self.assertEqual(found["packets"][place["frame"]], found["packets"][frame])
                self.assertLessEqual(place["frame"], frame)
        self.assertEqual(self.look("origins", **{"from": 100000, "count": 5})["packets"], [])
        self.assertIsNone(self.look("place", packet=3, source=1)["frame"])

    def test_the_frames_of_random_scripts(self):
        """The page has them from the script, and the session says the same."""
        choose, seen = random.Random(96), 0
        self.serve(SMALL, sources=[SCENES])
        self.step("delete 3", "hold 5", "insert 7 0 -")
        # Frames that follow each other, of which the first ones fade.
        scripts = ["trim 0 0 5; fade 1 2 3 256 0; trim 0 5 4; splice 2 3"]
        for script in scripts + [
            random_script(choose, 2, ("source", "trim", "splice", "parts", "fade", "crop")) for _ in range(30)
        ]:
            if self.post(f"script {script}")[0] != 200:
                continue
            found = self.look("origins", count=4096)
            with self.live.lock:
                wanted = self.live.session.origins(0, 4096)
            self.assertEqual(
                list(zip(found["sources"], found["packets"])),
                [(one["source"], one["packet"]) for one in wanted],
                script,
            )
            joins = [
                frame
                for frame, (one, other) in enumerate(zip(wanted, wanted[1:]), 1)
                if (other["source"], other["source_frame"]) != (one["source"], one["source_frame"] + 1)
            ]
            self.assertEqual(
                [self.engine("look", "cut", {"frame": frame - 1, "step": 1})["frame"] for frame in joins], joins, script
            )
            self.assertIsNone(
                self.engine("look", "cut", {"frame": joins[-1] if joins else 0, "step": 1})["frame"], script
            )
            seen += bool(joins)
        self.assertGreater(seen, 5)

    def test_packets_that_no_frame_shows(self):
        self.serve(SCENES, sources=[SMALL])
        with self.session(SCENES) as one, self.session(SMALL) as other:
            wanted = [[frame.i420() for frame in session.frames(range(12))] for session in (one, other)]
        # Without a script no frame shows a packet of source 1.
        place = self.look("place", packet=3, source=1)
        self.assertEqual((place["frame"], place["own"], place["before"]), (None, 3, 3))
        for packet in (0, 3, 11):
            self.assertEqual(self.frame(packet, packets=1), wanted[1][packet])
        # With a script none shows packet 9 of source 0.
        self.change("script trim 0 0 5")
        self.assertEqual((self.look("place", packet=9)["frame"], self.look("place", packet=4)["frame"]), (None, 4))
        self.assertEqual(self.frame(9, packets=0), wanted[0][9])
        # They are those of the edited packets.
        self.step("delete 2", "use 1", "delete 0", "copy 0 0 0", "use 0")
        self.assertEqual(self.frame(8, packets=0), wanted[0][9])
        self.assertEqual(self.look("place", packet=8)["before"], 9)
        self.assertEqual(self.frame(0, packets=1), wanted[0][0])
        self.assertEqual(self.members("/session")["edits"][-1], "use 0")
        for number, source in ((len(packets_of(SCENES)), 0), (0, 2)):
            self.assertEqual(self.post_to("/frames", frames=[number], packets=source)[0], 404, number)
        self.assertEqual(self.frame(7, packets=0, lines=["delete 0"]), self.frame(8, packets=0))

    def test_the_frames_before_the_edits(self):
        self.serve(SCENES)
        with self.session(SCENES) as other:
            wanted = [frame.i420() for frame in other.frames(range(40))]
        self.step("delete 4", "hold 10", "delete 11", "insert 20 0 -", "insert 20 0 -")
        before = self.look("origins", count=40)["before"]
        self.assertEqual(before[:26], [0, 1, 2, 3, *range(5, 21), 20, 20, 21, 22, 23, 24])
        for frame in (0, 10, 20, 39):
            self.assertEqual(self.frame(frame, before=0), wanted[frame])
        self.assertEqual(self.post_to("/frames", frames=[100000], before=0)[0], 404)
        self.assertEqual(self.post_to("/frames", frames=[0], before=1)[0], 404)

    def test_the_edited_stream(self):
        room = self.folder()
        self.serve(SCENES, save=room / "out.ivf")
        self.step("delete 4", "hold 9", "replace 12 -", "move 20 3")
        status, headers, body = self.ask("/file/packets")
        self.assertEqual((status, headers["Content-Disposition"]), (200, 'attachment; filename="scenes-edited.ivf"'))
        self.change("save")
        self.assertEqual(body, (room / "out.ivf").read_bytes())
        # Frames follow each other without a gap, and times do not go back: each packet of the clip is shown.
        packets = ivf.read_packets(room / "out.ivf")[1]
        self.assertEqual([stamp for stamp, _ in packets], list(range(len(packets))))
        self.live.keeps_stamps = True
        replies = serve(SCENES, ["delete 4", "hold 9", "replace 12 -", "move 20 3"], "--save", room / "other.ivf")
        self.assertTrue(all(reply.startswith("ok") for reply in replies))
        self.assertEqual(self.ask("/file/packets")[2], (room / "other.ivf").read_bytes())
        self.change("save")
        self.assertEqual((room / "out.ivf").read_bytes(), (room / "other.ivf").read_bytes())


def letter_of(fact):
    """The kind of a packet, from what vp8list says of it."""
    if fact["cause"] == "lost":
        return "l"
    if fact["cause"] is not None:
        return "r"
    if fact["bytes"] == 0:
        return "d"
    if fact["show"] == "hidden":
        return "h"
    return "k" if fact["kind"] == "key" else "i"


class Told(PageCase):
    def test_what_is_new_is_told_and_no_more(self):
        """A page that has followed all edits, and one that has seen none of them, have the same packets."""
        choose = random.Random(58)
        self.serve(SCENES, sources=[SMALL])
        known = ""
        for _ in range(12):
            found = self.members(f"/session?known={known}")["told"]
            if found is None:
                # Each edit was refused.
                continue
            self.assertEqual(found["files"] is None, bool(known))
            known = found["name"]
            self.assertIsNone(self.members(f"/session?known={known}")["told"])
            self.look("timeline")
            for _ in range(choose.choice([1, 3])):
                count = self.members("/session")["packets"]
                self.post(
                    choose.choice(
                        [
                            f"delete {choose.randrange(count)}",
                            f"hold {choose.randrange(1, count)}",
                            f"move {choose.randrange(count)} 0",
                            f"copy 1 3 {choose.randrange(count)}",
                            f"replace {choose.randrange(count)} 1000",
                            "use 1",
                            "use 0",
                            "undo",
                            "redo",
                            "script trim 0 2 9",
                        ]
                    )
                )
            looks = ("timeline", "origins", "place")
            mine = [self.look(what, source=source, packet=5) for what in looks for source in (0, 1)]
            before, self.speaker = self.speaker, None
            self.assertEqual([self.look(what, source=source, packet=5) for what in looks for source in (0, 1)], mine)
            self.speaker = before
        # Views that were forgotten, and those of another program, are told whole.
        for old in ("nonsense", "12345678-1"):
            self.assertIsNotNone(self.members(f"/session?known={old}")["told"]["files"])

    def test_marks_of_edits(self):
        self.serve(SMALL)
        for lines, marked in (
            ((), []),
            (("delete 11", "delete 10"), []),
            (("delete 2",), [2]),
            (("delete 0",), [0]),
            (("insert 2 0 -",), [2]),
            (("replace 2 -",), [2]),
            (("replace 2 -", "replace 3 -"), [2, 3]),
            (("replace 2 -", "replace 3 -", "delete 4"), [2, 3, 4]),
            (("move 1 2",), [1, 2, 3]),
        ):
            if lines:
                self.step(*lines)
            self.assertEqual(self.look("timeline")["edits"], marked, lines)
            if lines:
                self.change("undo")


class Going(PageCase):
    def test_key_packets_and_cuts(self):
        self.serve(SCENES, sources=[SMALL])
        keys = [place for place, data in enumerate(packets_of(SCENES)) if ivf.is_key(data)]
        for packet in (0, 1, keys[1], keys[-1], len(packets_of(SCENES)) - 1):
            after, before = (self.look("key", packet=packet, step=step)["packet"] for step in (1, -1))
            self.assertEqual(after, next((key for key in keys if key > packet), None), packet)
            self.assertEqual(before, next((key for key in reversed(keys) if key < packet), None), packet)
        self.assertEqual(
            self.look("key", packet=0, source=1)["packet"],
            next((place for place, data in enumerate(packets_of(SMALL)) if place and ivf.is_key(data)), None),
        )
        # Those of columns, and the one before these: a packet, its number, its frame.
        for first, count, wanted in (
            (0, 1024, keys),
            (17, 1024, [key for key in keys if key >= 16]),
            (5, 3, [4]),
            (4, 1, [0, 4]),
            (len(packets_of(SCENES)), 1, keys[-1:]),
        ):
            self.assertEqual(
                self.look("timeline", first=first, count=count)["keys"], [[key, key, key] for key in wanted], first
            )
        self.step("delete 0", "delete 0")
        # A number stays that of the packet.
        self.assertEqual(self.look("timeline", count=16)["keys"], [[2, 4, 2], [14, 16, 14]])
        self.change("undo")
        self.change("script trim 0 0 10; trim 0 20 5; splice 1 2; source 1; splice 3 4")
        for frame, before, after in (
            (0, None, 10),
            (9, 0, 10),
            (10, 0, 15),
            (12, 10, 15),
            (15, 10, None),
            (26, 15, None),
        ):
            self.assertEqual(
                [self.look("cut", frame=frame, step=step)["frame"] for step in (-1, 1)], [before, after], frame
            )

    def test_key_packets_of_columns_of_several_packets(self):
        packets = [bytes(random.Random(place).randbytes(9)) for place in range(3000)]
        key, inter = packets_of(SMALL)[:2]
        is_key = [random.Random(place).random() < 0.2 for place in range(len(packets))]
        self.serve(write_packets(self.folder() / "long.ivf", [key if one else inter for one in is_key]))
        for first, per, count in ((0, 2, 1024), (1000, 4, 100), (2990, 8, 1024), (0, 1 << 20, 1024)):
            found = self.look("timeline", first=first, per=per, count=count)["keys"]
            before = [place for place in range(first) if is_key[place]][-1:]
            blocks = [
                range(start, min(len(is_key), first + per * count, start + 16 * per))
                for start in range(first, min(len(is_key), first + per * count), 16 * per)
            ]
            last = [[place for place in block if is_key[place]][-1:] for block in blocks]
            self.assertEqual(
                [packet for packet, _, _ in found], [*before, *(place for one in last for place in one)], (first, per)
            )

    def test_the_frames_of_packets(self):
        self.serve(SCENES, sources=[SMALL])
        count = len(packets_of(SCENES))
        ask = lambda first, end, source=0: [
            self.look("range", source=source, first=first, end=end)[name] for name in ("first", "end")
        ]  # noqa: E731
        self.assertEqual(
            [ask(3, 9), ask(0, count), ask(5, 5), ask(0, 3, 1)], [[3, 9], [0, count], [None, None], [None, None]]
        )
        self.change("script trim 0 5 10; source 1; splice 2 1")
        self.assertEqual(
            [ask(5, 9), ask(4, 9), ask(14, 16), ask(0, 12, 1), ask(7, 8)],
            [[12, 16], [12, 16], [21, 22], [0, 12], [14, 15]],
        )

    def test_frames_that_are_served_together(self):
        self.serve(SCENES)
        with self.session(SCENES) as stream:
            wanted = [stream.frame(number).i420() for number in range(8)]
        for first, last in ((0, 0), (0, 7), (3, 5)):
            status, headers, body = self.post_to("/frames", frames=list(range(first, last + 1)))
            head, *frames = body.split(b"FRAME\n")
            self.assertEqual(
                (status, headers["ETag"], len(body)), (200, f'"{self.live.instance}-1"', int(headers["Content-Length"]))
            )
            self.assertEqual(body[len(head) :], b"".join(b"FRAME\n" + samples for samples in wanted[first : last + 1]))
            self.assertEqual(head, self.ask("/frames/0.y4m")[2].partition(b"FRAME\n")[0])
        self.step("replace 5 1000")
        count = self.members("/session")["frames"]
        for numbers, status in (
            ([3, 4, 5], 409),
            ([0, 4], 200),
            ([count - 1, count], 404),
            ([], 400),
            (list(range(9)), 400),
            (["0"], 400),
            ([-1], 400),
            ([True], 400),
            (3, 400),
        ):
            self.assertEqual(self.post_to("/frames", frames=numbers)[0], status, numbers)

    def test_findings_have_the_key_packet_before_them(self):
        self.serve(self.broken(18))
        found = self.checked()
        self.assertEqual(len(found["groups"]), len(found["findings"]))
        for finding, group in zip(found["findings"], found["groups"]):
            self.assertEqual(
                group, None if finding["packet"] is None else 16 if 16 <= finding["packet"] < 32 else group
            )


class Steps(PageCase):
    def test_a_step(self):
        room = self.folder()
        self.serve(edits=room / "list")
        self.assertEqual(self.step("delete 3", "delete 3", "hold 4"), {"reply": "ok 11", "revision": 2, "changes": 2})
        self.assertEqual(list_of(room / "list"), "# step 3\ndelete 3\ndelete 3\nhold 4\n")
        self.assertEqual(self.change("undo")["reply"], ["delete 3", "delete 3", "hold 4"])
        self.assertEqual(((room / "list").read_text(), self.members("/session")["packets"]), ("", 12))
        self.change("redo")
        self.assertEqual(self.members("/session")["packets"], 11)

    def test_a_step_that_is_refused_changes_nothing(self):
        room = self.folder()
        (room / "list").write_text("# a comment\ndelete 1\n# another one\n")
        self.serve(edits=room / "list")
        self.change("delete 2")
        self.change("undo")
        before = (self.members("/session"), (room / "list").read_text(), self.picture("/frames/5.y4m"))
        for lines in (
            ["delete 3", "hold 4", "delete 99"],
            ["use 1", "delete 0"],
            ["script trim 0 0 2", "script trim 9 9 9"],
            ["nonsense", "delete 0"],
            ["delete 3", "replace 0 zz"],
        ):
            status, _, body = self.post_to("/edits", lines=lines)
            self.assertIn(status, (400, 409), body)
            self.assertEqual(
                (self.members("/session"), (room / "list").read_text(), self.picture("/frames/5.y4m")), before, lines
            )
        # What was undone can still be made again, and the comments are there.
        self.assertEqual(self.change("redo")["reply"], ["delete 2"])
        self.assertTrue((room / "list").read_text().startswith("# a comment\ndelete 1\n"))
        self.change("delete 0")
        self.assertIn("# another one\n", (room / "list").read_text())

    def test_a_step_while_the_program_dies(self):
        self.serve(edits=self.folder() / "list")
        self.step("delete 3", "delete 3")
        self.change("undo")
        crash(self.live.session)
        with mock.patch("sys.stderr"):
            status, _, _ = self.post_to("/edits", lines=["delete 0", "delete 0"])
            self.assertIn(status, (200, 503))
        found = self.members("/session")
        self.assertEqual((found["packets"], found["edits"]), (10, ["delete 0"] * 2) if status == 200 else (12, []))
        self.assertEqual(found["restarts"], 1)
        if status == 503:
            self.assertEqual(found["undone"], ["delete 3", "delete 3"])

    def test_bodies(self):
        self.serve()
        for body in (
            {"lines": []},
            {"lines": "delete 0"},
            {"lines": [1]},
            {"lines": ["undo"]},
            {"lines": ["frame 0"]},
            {"lines": ["delete 0\ndelete 0"]},
            {"lines": ["delete 0"], "line": "delete 0"},
            {"lines": ["delete 0"], "x": 1},
            {"lines": ["delete 0"], "revision": True},
            {"lines": ["delete 0"], "revision": -1},
            {},
        ):
            self.assertEqual(self.post_to("/edits", **body)[0], 400, str(body)[:60])
        self.assertEqual(self.post_to("/edits", lines=["delete 0"], revision=9)[0], 412)
        self.assertEqual(self.members("/session")["revision"], 1)

    def test_refusals_as_answers(self):
        self.serve(SCENES)
        self.step("replace 5 1000")
        for path, status in (
            ("/frames/5.y4m", 409),
            ("/frames/99.y4m", 404),
            ("/answer?line=list%200%201&source=9", 404),
        ):
            plain = self.ask(path)
            self.assertEqual((plain[0], plain[1]["X-Refused"]), (status, None), path)
            found = self.ask(f"{path}{'&' if '?' in path else '?'}refusals=answers")
            self.assertEqual((found[0], found[1]["X-Refused"], found[2]), (200, str(status), plain[2]), path)
        for lines, status in ((["delete 99"], 409), (["delete 0"], 412)):
            found = self.post_to("/edits?refusals=answers", lines=lines, revision=2 if status == 409 else 1)
            self.assertEqual((found[0], found[1]["X-Refused"]), (200, str(status)))
        self.assertEqual(self.post_to("/edits?refusals=answers", lines=[])[0], 400)
        self.assertIsNone(self.ask("/frames/0.y4m?refusals=answers")[1]["X-Refused"])
        self.assertEqual(self.members("/session")["revision"], 2)

    def test_a_change_needs_the_origin(self):
        self.serve()
        for path in ("/edits", "/frames", "/task", "/streams"):
            for headers, status in (
                ({}, 403),
                ({"Origin": "http://evil.example"}, 403),
                ({"Origin": self.server.origin, "Content-Type": "text/plain"}, 415),
            ):
                self.assertEqual(
                    self.ask(path, "POST", {"Content-Type": "application/json", **headers}, '{"lines": ["delete 0"]}')[
                        0
                    ],
                    status,
                )
        for path in ("/session", "/answer", "/progress", "/file/packets", "/page/"):
            self.assertEqual(self.post_to(path, lines=["delete 0"])[0], 405, path)
        self.assertEqual(self.members("/session")["revision"], 1)

    def test_progress_does_not_wait(self):
        self.serve(SCENES)
        with self.live.lock:
            found = []
            thread = threading.Thread(
                target=lambda: found.append((self.members("/progress"), self.members("/session?known=")))
            )
            thread.start()
            thread.join(10 * SLOW)
            self.assertFalse(thread.is_alive())
        self.assertEqual(found[0][0], {"revision": 1, "doing": None, "exports": {}, "opening": None, "restarts": 0})

    def test_frames_do_not_wait_for_a_large_step(self):
        self.serve(SCENES, edits=self.folder() / "list")
        self.step("delete 3", "script trim 0 2 30")
        self.change("hold 9")
        before = {path: self.picture(path) for path in ("/frames/0.y4m", "/frames/20.y4m")}
        together, opened = self.post_to("/frames", frames=[5, 6, 7, 8])[2], self.frame(5, before=0)
        tag = self.ask("/frames/0.y4m")[1]["ETag"]
        edits, begun, ended = self.live.session.edits, threading.Event(), threading.Event()
        real = edits.run_step

        def run_step(*given, **more):
            begun.set()
            ended.wait(20 * SLOW)
            return real(*given, **more)

        with mock.patch.object(edits, "run_step", run_step):
            thread = threading.Thread(target=self.step, args=("delete 4", "delete 4"))
            thread.start()
            try:
                self.assertTrue(begun.wait(10 * SLOW))
                with self.within(8):
                    for path, wanted in before.items():
                        # The frames before the step, and they say so.
                        self.assertEqual(self.picture(path), wanted, path)
                        self.assertEqual(self.ask(path)[1]["ETag"], tag)
                    self.assertEqual(
                        (self.post_to("/frames", frames=[5, 6, 7, 8])[2], self.frame(5, before=0)), (together, opened)
                    )
                self.assertEqual(self.ask("/frames/30.y4m")[0], 404)
                self.assertTrue(thread.is_alive())
            finally:
                ended.set()
                thread.join(10 * SLOW)
        self.assertNotEqual(self.ask("/frames/0.y4m")[1]["ETag"], tag)
        with self.session(SCENES) as other:
            for line in self.members("/session")["edits"]:
                other.request(line)
            self.assertEqual(self.picture("/frames/5.y4m"), other.frame(5).i420())

    def test_ten_thousand_packets_are_held(self):
        with self.session("-") as stream:
            stream.blank(0, 16, 16)
            stream.hold(1)
            key, hold = stream.packet(0), stream.packet(1)
        count = 10001
        self.serve(write_packets(self.folder() / "many.ivf", [key] + (count + 1) * [hold]))
        self.step(*(line for at in range(1, count + 1) for line in (f"hold {at + 1}", f"delete {at}")))
        found = self.members("/session")
        self.assertEqual((found["packets"], found["edits_before"] + len(found["edits"])), (count + 2, 2 * count))
        self.assertEqual(len(self.change("undo")["reply"]), 2 * count)
        self.assertEqual(self.members("/session")["edits"], [])

    def test_numbers(self):
        self.serve()
        for path in ("/session?x=1", "/progress?x=1", "/streams?x=1", "/file/packets?x=1", "/frames/0.y4m?x=1"):
            self.assertEqual(self.ask(path)[0], 400, path)
        self.assertEqual(self.look("timeline", first=10**15)["kinds"], "")
        for path in (
            "/frames/x.y4m",
            "/frames/-1.y4m",
            f"/frames/{'9' * 40}.y4m",
            "/frames/0-3.y4m",
            "/file",
            "/file/",
            "/file/x",
            "/file/packets/x",
            "/file/../edits",
        ):
            self.assertEqual(self.ask(path)[0], 404, path)
        for body in (
            {},
            {"kind": "x"},
            {"kind": 3},
            {"kind": "costs", "x": 1},
            {"kind": "facts", "numbers": 3},
            {"kind": "facts", "numbers": [3]},
            {"kind": "facts", "numbers": [[0, -1]]},
            {"kind": "facts", "numbers": [[0, 1 << 24]]},
            {"kind": "check", "lines": "x"},
        ):
            self.assertEqual(self.post_to("/task", **body)[0], 400, body)


class Saving(PageCase):
    def opened(self, room, name="clip", **options):
        """A server whose names are those of a clip in a folder."""
        self.serve(SCENES, edits=room / f"{name}.edits", stems=[str(room / one) for one in (name, "second")], **options)

    def saves(self):
        return self.members("/session")["saves"]

    def save(self, **more):
        status, _, body = self.post_to("/edits", line="save", **more)
        self.assertEqual(status, 200, body)
        return json.loads(body)["reply"]

    def test_a_list_that_was_never_saved_is_not_saved(self):
        room = self.folder()
        self.opened(room)
        self.step("delete 3")
        self.live.close()
        self.opened(room)
        found = self.members("/session")
        self.assertEqual(
            (found["edits"], found["saved"], found["saves"][0]),
            (
                ["delete 3"],
                False,
                {"edited": True, "saved": False, "file": None, "next": str(room / "clip-edited.ivf")},
            ),
        )
        self.save()
        self.assertTrue(self.members("/session")["saved"])
        # Saved is what is in the file.
        self.change("undo")
        self.assertTrue(self.members("/session")["saved"])
        self.change("redo")
        self.assertEqual(self.saves()[0]["file"], str(room / "clip-edited.ivf"))
        self.change("delete 0")
        self.assertEqual((self.saves()[0]["file"], self.members("/session")["saved"]), (None, False))

    def test_the_name_is_taken_when_the_file_is_written(self):
        room = self.folder()
        self.opened(room)
        self.step("delete 3")
        (room / "clip-edited.ivf").write_text("it came since")
        self.assertEqual(self.save(), str(room / "clip-edited-2.ivf"))
        self.assertEqual((room / "clip-edited.ivf").read_text(), "it came since")
        # Its own file is replaced, but not another one with its name.
        self.change("delete 0")
        self.assertEqual(self.save(), str(room / "clip-edited-2.ivf"))
        self.assertEqual(packets_of(room / "clip-edited-2.ivf"), packets_of(SCENES)[1:3] + packets_of(SCENES)[4:])
        (room / "clip-edited-2.ivf").unlink()
        (room / "clip-edited-2.ivf").write_text("another one")
        self.change("delete 0")
        self.assertEqual(self.save(), str(room / "clip-edited-3.ivf"))
        self.assertEqual((room / "clip-edited-2.ivf").read_text(), "another one")

    def test_a_save_that_fails_leaves_no_file(self):
        room = self.folder()
        self.opened(room)
        self.step("delete 3")
        with mock.patch("wokureti.base.files.whole", side_effect=OSError(28, "No space left on device")):
            status, _, body = self.post_to("/edits", line="save")
        self.assertEqual(
            (
                status,
                "clip-edited.ivf: No space left on device: not saved, and nothing was written"
                in json.loads(body)["error"],
            ),
            (500, True),
        )
        self.assertEqual(sorted(path.name for path in room.iterdir()), ["clip.edits"])
        self.assertEqual(self.members("/session")["revision"], 2)

    def test_it_is_said_when_times_are_numbered_anew(self):
        def saved(*lines, keeps_stamps=False):
            self.opened(self.folder())
            self.live.keeps_stamps = keeps_stamps
            if lines:
                self.step(*lines)
            return json.loads(self.post_to("/edits", line="save", source=0)[2])["renumbered"]

        # Packets that are held keep the time stamps, and so does an edit at the end.
        self.assertEqual([saved("delete 3"), saved("move 20 3"), saved("copy 0 3 9")], [True] * 3)
        self.assertEqual(
            [
                saved(),
                saved("hold 4", "delete 3"),
                saved("replace 3 -"),
                saved("delete 47"),
                saved("delete 3", keeps_stamps=True),
            ],
            [False] * 5,
        )

    def test_a_script_is_not_in_the_packets(self):
        room = self.folder()
        self.opened(room)
        self.change("script trim 0 0 5")
        found = self.members("/session")
        self.assertEqual((found["saves"][0]["edited"], found["saved"], found["script"]), (False, True, "trim 0 0 5"))
        self.save()
        self.assertEqual(packets_of(room / "clip-edited.ivf"), packets_of(SCENES))

    def test_the_edits_of_other_sources_are_named_and_saved(self):
        room = self.folder()
        self.opened(room, sources=[SMALL])
        self.step("use 1", "delete 3")
        self.assertEqual([(one["edited"], one["saved"]) for one in self.saves()], [(False, True), (True, False)])
        self.assertFalse(self.members("/session")["saved"])
        self.save()
        self.assertFalse(self.members("/session")["saved"])
        self.assertEqual(self.save(source=1), str(room / "second-edited.ivf"))
        self.assertEqual(packets_of(room / "second-edited.ivf"), packets_of(SMALL)[:3] + packets_of(SMALL)[4:])
        self.assertTrue(self.members("/session")["saved"])
        for body, status in (
            ({"line": "save", "source": 2}, 404),
            ({"line": "undo", "source": 0}, 400),
            ({"line": "save", "source": -1}, 400),
            ({"lines": ["delete 0"], "source": 0}, 400),
        ):
            self.assertEqual(self.post_to("/edits", **body)[0], status, body)

    def test_edits_that_are_not_on_the_disk_are_marked(self):
        room = self.folder()
        self.opened(room)
        self.step("delete 3")
        with mock.patch("wokureti.session.edit_files.EditFile.write", side_effect=OSError(28, "full")):
            self.assertEqual(self.post_to("/edits", lines=["delete 0", "delete 0"])[0], 500)
        found = self.members("/session")
        self.assertEqual(
            (found["edits"], found["unwritten"], found["revision"]), (["delete 3", "delete 0", "delete 0"], 2, 3)
        )
        self.change("delete 1")
        self.assertEqual(self.members("/session")["unwritten"], 0)
        self.assertEqual(list_of(room / "clip.edits"), "delete 3\n# step 2\ndelete 0\ndelete 0\ndelete 1\n")


class Pasting(PageCase):
    def remember(self, first, count, source=0):
        found = self.look("numbers", source=source, first=first, count=count)
        return {"contents": found["contents"], "numbers": found["numbers"]}

    def paste(self, board, at, source=0, move=False, **more):
        """What the engine answers to a paste, without the state after it."""
        self.engine("state")
        page = {"source": source, "packet": 0, "tiles": []}
        found = self.engine(
            "paste",
            {**board, "at": at, "source": source, "move": move, "revision": self.live.revision, "page": page, **more},
        )
        return {name: value for name, value in found.items() if name not in ("session", "place", "tiles", "reply")}

    def stream(self, source=0):
        with self.live.lock:
            contents = self.live.contents()
            return [contents.packet(number, source).bytes() for number in range(len(contents.streams[source]))]

    def test_a_copy_is_of_packets_and_not_of_numbers(self):
        packets = packets_of(SCENES)
        self.serve(SCENES)
        board = self.remember(30, 3)
        self.change("delete 2")
        self.assertEqual(
            self.paste(board, 10), {"revision": 3, "changes": 3, "first": 10, "count": 3, "deleted": 0, "made": 3}
        )
        self.assertEqual(self.stream(), [*packets[:2], *packets[3:11], *packets[30:33], *packets[11:]])
        self.assertEqual(self.members("/session")["edits"][1:], ["copy 0 29 10", "copy 0 31 11", "copy 0 33 12"])
        # One step, and it can be pasted again.
        self.change("undo")
        self.change("move 0 40")
        self.paste(board, 0)
        self.assertEqual(self.stream()[:3], packets[30:33])

    def test_packets_that_were_deleted_or_replaced_are_inserted_again(self):
        packets = packets_of(SCENES)
        self.serve(SCENES)
        board = self.remember(30, 3)
        self.step("replace 30 -", "delete 31")
        found = self.paste(board, 5)
        self.assertEqual((found["deleted"], found["count"]), (2, 3))
        self.assertEqual(self.stream()[5:8], packets[30:33])

    def test_a_cut_moves_the_packets(self):
        packets = packets_of(SCENES)
        for at, wanted in ((3, 3), (9, 9), (10, 9), (12, 9), (13, 10), (40, 37)):
            self.serve(SCENES)
            board = self.remember(10, 3)
            self.change("delete 0")
            found = self.paste(board, at, move=True)
            rest = packets[1:10] + packets[13:]
            self.assertEqual((found["first"], found["count"], found["deleted"]), (wanted, 3, 0), at)
            self.assertEqual(self.stream(), rest[:wanted] + packets[10:13] + rest[wanted:], at)
            self.assertEqual(found["made"], 0 if wanted == 9 else 3)

    def test_the_copy_that_was_cut_is_moved(self):
        packets = packets_of(SCENES)
        self.serve(SCENES)
        self.paste(self.remember(5, 1), 20)
        # Packets 5 and 20 have the same bytes.
        board = self.remember(20, 1)
        self.step("delete 0", "delete 0")
        self.paste(board, 40, move=True)
        self.assertEqual(self.stream(), [*packets[2:41], packets[5], *packets[41:]])

    def test_a_cut_from_another_source(self):
        packets, others = packets_of(SCENES), packets_of(SMALL)
        self.serve(SCENES, sources=[SMALL])
        self.paste(self.remember(3, 2, source=1), 7, move=True)
        self.assertEqual(self.stream(), packets[:7] + others[3:5] + packets[7:])
        self.assertEqual(self.stream(1), others[:3] + others[5:])
        self.assertEqual(self.members("/session")["source"], 0)
        self.change("undo")
        self.assertEqual((self.stream(), self.stream(1)), (packets, others))
        self.paste(self.remember(3, 2), 1, source=1)
        self.assertEqual(self.stream(1), others[:1] + packets[3:5] + others[1:])

    def test_what_is_refused(self):
        self.serve(SCENES, sources=[SMALL])
        count = len(packets_of(SCENES))
        board = self.remember(3, 2)
        self.assertEqual(self.paste(board, count + 1)["status"], 409)
        self.assertEqual(self.paste(board, 0, revision=9)["status"], 412)
        self.assertIn("at most 1048576 packets", self.paste({**board, "numbers": [[0, 1 << 21]]}, 0)["error"])
        for number in (count + 12, 1 << 29):
            self.assertIn("gone", self.paste({**board, "numbers": [[number, 1]]}, 0)["error"])
        for line, status in (
            ("insert 0 #0", 200),
            ("insert 0 #x", 409),
            ("insert 0 #-1", 409),
            ("insert 0 #", 409),
            ("replace 0 #0", 409),
            ("delete #0", 409),
        ):
            self.assertEqual(self.post_to("/edits", lines=[line], contents=board["contents"])[0], status, line)
        self.change("undo")
        self.assertEqual(self.stream()[:3], packets_of(SCENES)[:3])
        self.assertEqual(self.members("/session")["revision"], 3)

    def test_copies_of_packets_that_the_program_forgot(self):
        self.serve(SCENES, edits=self.folder() / "list")
        self.step("insert 5 7 1000", "delete 9")
        made, own = self.remember(5, 1), self.remember(20, 1)
        with mock.patch("sys.stderr"):
            crash(self.live.session)
            self.assertEqual(self.ask("/frames/2.y4m")[0], 200)
        self.assertIn("gone", self.paste(made, 0)["error"])
        self.paste(own, 0)
        self.assertEqual(self.stream()[0], packets_of(SCENES)[20])


class Checks(PageCase):
    def test_findings_are_those_of_the_current_stream(self):
        path = self.broken()
        room = self.folder()
        self.serve(path, save=room / "out.ivf")
        wanted = check_of(path)
        found = self.checked()
        self.assertEqual(found["findings"], wanted)
        self.assertEqual(
            (found["damage"], found["notes"]),
            (sum(one["severity"] == "damage" for one in wanted), sum(one["severity"] == "note" for one in wanted)),
        )
        self.assertGreater(found["damage"], 0)
        self.assertEqual(self.check_members(1)["findings"], wanted[1:])
        self.change("replace 5 -")
        self.change("save")
        other = self.checked()
        self.assertEqual(other["findings"], check_of(room / "out.ivf"))
        self.assertNotEqual(other["check"], found["check"])
        # A script changes no packet, so nothing is checked again.
        self.change("script trim 0 0 2")
        self.assertEqual(self.checked()["check"], other["check"])
        self.change("undo")
        # Nor after undo: these packets were checked already.
        self.change("undo")
        self.assertEqual((self.checked()["findings"], self.checked()["check"]), (wanted, found["check"]))

    def test_a_file_that_is_cut_off(self):
        path = self.folder() / "cut.ivf"
        path.write_bytes(SCENES.read_bytes()[:-7])
        self.serve(path)
        self.assertEqual(self.checked()["findings"], check_of(path))
        self.assertIn("cut_record", [finding["kind"] for finding in self.checked()["findings"]])
        self.step("delete 0")
        self.assertNotIn("cut_record", [finding["kind"] for finding in self.checked()["findings"]])

    def test_an_empty_stream(self):
        self.serve("-")
        found = self.members("/session")
        self.assertEqual((found["packets"], found["frames"]), (0, 0))
        self.assertEqual(self.look("timeline")["kinds"], "")
        self.assertEqual(self.checked()["damage"], 0)
        self.step("blank 0 16 16", "hold 1")
        self.assertEqual(self.look("timeline")["kinds"], "ff")
        self.assertEqual(self.look("origins")["before"], [None, None])

    def test_a_check_that_is_stopped_by_edits(self):
        self.serve(SCENES)
        for _ in range(10):
            self.check_members()
            self.step("delete 1")
        self.change("undo")
        self.assertTrue(self.checked()["over"])

    def repairs(self, kind):
        finding = next(finding for finding in self.checked()["findings"] if finding["kind"] == kind)
        numbers = {name: finding[name] for name in ("packet", "before", "stamp") if isinstance(finding.get(name), int)}
        return self.mended(kind=kind, **numbers)

    def mended(self, **finding):
        """The repairs of a finding."""
        self.engine("state")
        return self.engine("task", "repairs", {"finding": finding})["repairs"]

    def test_repairs_of_a_refused_packet(self):
        path = self.broken()
        self.serve(path, sources=[SCENES])
        repairs = self.repairs("refused")
        self.assertEqual([repair["name"] for repair in repairs], ["second", "hold", "hold_all", "drop", "keep"])
        texts = {}
        for repair in repairs:
            if repair["lines"]:
                self.step(*repair["lines"])
                texts[repair["name"]] = self.ask("/file/packets")[2]
                findings = self.checked()["findings"]
                self.assertNotIn("refused", [finding["kind"] for finding in findings], repair)
                if repair["name"] in ("second", "hold_all"):
                    self.assertEqual([finding for finding in findings if finding["severity"] == "damage"], [], repair)
                # The time stamps stay.
                self.assertEqual([finding for finding in findings if finding["kind"].startswith("stamp")], [], repair)
                self.change("undo")
        room = self.folder()
        (room / "second.ivf").write_bytes(texts["second"])
        self.assertEqual(packets_of(room / "second.ivf"), packets_of(SCENES))
        # Each held picture is the one before.
        (room / "held.ivf").write_bytes(texts["hold_all"])
        end = next(place for place, data in enumerate(packets_of(SCENES)) if place > 5 and ivf.is_key(data))
        with self.session(room / "held.ivf") as held, self.session(SCENES) as whole:
            for frame in range(5, end):
                self.assertEqual(held.frame(frame).i420(), whole.frame(4).i420())
            self.assertEqual(held.frame(end).i420(), whole.frame(end).i420())

    def test_repairs_of_a_broken_key_packet(self):
        packets = packets_of(SCENES)
        key = next(place for place, data in enumerate(packets) if place and ivf.is_key(data))
        self.serve(self.broken(key, data=packets[key][:3] + b"\0\0\0" + packets[key][6:]))
        for repair in self.repairs("refused"):
            if repair["lines"]:
                self.step(*repair["lines"])
                self.assertNotIn("refused", [finding["kind"] for finding in self.checked()["findings"]], repair)
                self.change("undo")

    def test_repairs_of_the_first_packet(self):
        self.serve(self.broken(0))
        repairs = self.repairs("refused")
        self.assertEqual([repair["name"] for repair in repairs], ["remove", "keep"])
        self.step(*repairs[0]["lines"])
        self.assertEqual(
            [finding["kind"] for finding in self.checked()["findings"] if finding["severity"] == "damage"], []
        )

    def test_repairs_of_a_hole(self):
        _, packets = ivf.read_packets(SCENES)
        path = self.folder() / "a.ivf"
        with open(path, "wb") as file:
            file.writelines(ivf.pieces(ivf.Head(16, 16, 30, 1), len(packets) - 3, packets[:7] + packets[10:]))
        self.serve(path, sources=[SCENES])
        repairs = self.repairs("breaks_step")
        self.assertEqual([repair["name"] for repair in repairs], ["second", "drop", "keep"])
        # Three packets, and the one before the hole, which lasted as long as the hole.
        self.assertEqual(
            [line.split(" ")[:2] for line in repairs[1]["lines"]],
            [["insert", "7"], ["insert", "8"], ["insert", "9"], ["insert", "6"], ["delete", "7"]],
        )
        room = self.folder()
        self.step(*repairs[1]["lines"])
        (room / "out.ivf").write_bytes(self.ask("/file/packets")[2])
        self.assertEqual([stamp for stamp, _ in ivf.read_packets(room / "out.ivf")[1]], list(range(len(packets))))
        self.change("undo")
        self.assertEqual(repairs[0]["lines"], ["copy 1 7 7", "copy 1 8 8", "copy 1 9 9", "copy 1 6 6", "delete 7"])
        self.step(*repairs[0]["lines"])
        (room / "out.ivf").write_bytes(self.ask("/file/packets")[2])
        self.assertEqual(ivf.read_packets(room / "out.ivf")[1], packets)

    def test_repairs_of_a_double_and_of_an_order(self):
        _, packets = ivf.read_packets(SCENES)
        for others in (packets[:6] + packets[5:], packets[:5] + [packets[6], packets[5]] + packets[7:]):
            path = self.folder() / "a.ivf"
            with open(path, "wb") as file:
                file.writelines(ivf.pieces(ivf.Head(16, 16, 30, 1), len(others), others))
            self.serve(path)
            repairs = self.repairs("comes_twice" if len(others) > len(packets) else "breaks_step")
            self.step(*repairs[0]["lines"])
            room = self.folder()
            (room / "out.ivf").write_bytes(self.ask("/file/packets")[2])
            self.assertEqual(ivf.read_packets(room / "out.ivf")[1], packets)

    def test_repairs_of_a_file_that_is_cut_off(self):
        path = self.folder() / "cut.ivf"
        path.write_bytes(SCENES.read_bytes()[:-2000])
        self.serve(path, sources=[SCENES])
        repairs = self.repairs("cut_record")
        self.assertEqual([repair["name"] for repair in repairs], ["second", "keep"])
        self.step(*repairs[0]["lines"])
        room = self.folder()
        (room / "out.ivf").write_bytes(self.ask("/file/packets")[2])
        self.assertEqual(packets_of(room / "out.ivf"), packets_of(SCENES))

    def test_all_repairs_are_those_of_the_command(self):
        path = self.broken(20)
        packets = packets_of(path)
        packets[6], packets[40] = BROKEN, packets[40][:4]
        write_packets(path, packets)
        for second in ((), (SCENES,), (ODD,)):
            self.serve(path, sources=second)
            found = self.task("repair_all")
            self.assertTrue(found["lines"])
            before = self.ask("/file/packets")[2]
            self.step(*found["lines"])
            room = self.folder()
            words = ["--second", second[0]] if second == (SCENES,) else []
            status, out, errors = command("repair", path, room / "out.ivf", "--no-scan", "-y", *words)
            self.assertEqual((status, errors), (1, ""))
            (room / "mine.ivf").write_bytes(self.ask("/file/packets")[2])
            self.assertEqual(packets_of(room / "mine.ivf"), packets_of(room / "out.ivf"))
            if second == (SCENES,):
                # No packet of the second recording is sent as HEX.
                self.assertTrue(any(line.startswith("copy 1 ") for line in found["lines"]))
                self.assertLess(max(map(len, found["lines"])), 60)
            self.assertEqual(out.decode().splitlines()[: len(found["said"])], found["said"])
            self.change("undo")
            self.assertEqual(self.ask("/file/packets")[2], before)
        self.serve("-")
        self.assertEqual(self.post_to("/task", kind="repair_all")[0], 409)

    def test_repairs_of_what_is_not_there(self):
        self.serve(self.broken())
        for finding in (
            {"kind": "nonsense", "packet": 5},
            {"kind": "no_rate"},
            {"kind": "refused"},
            {"kind": "refused", "packet": 999},
        ):
            self.assertEqual([repair["name"] for repair in self.mended(**finding)], ["keep"])
        name = self.live.contents().name
        for body, status in (
            ({"numbers": [[0, 3]]}, 412),
            ({"numbers": [[0, 3]], "contents": "nonsense"}, 412),
            ({"numbers": [[1 << 20, 1]], "contents": name}, 412),
            ({"numbers": [[0, 3]], "contents": name}, 200),
        ):
            self.assertEqual(self.post_to("/task", kind="facts", **body)[0], status, body)


class Previews(PageCase):
    def preview(self, frame, **body):
        return self.post_to("/frames", frames=[frame], **body)

    def test_a_preview_changes_nothing(self):
        room = self.folder()
        self.serve(SCENES, edits=room / "list")
        self.step("delete 3")
        before = (self.members("/session"), (room / "list").read_text(), self.picture("/frames/8.y4m"))
        for lines in (["hold 6", "delete 7"], ["replace 6 -"], [], ["delete 0"], ["hold 6", "delete 7"]):
            with self.session(SCENES) as other:
                for line in ("delete 3", *lines):
                    other.request(line)
                try:
                    wanted = other.frame(8).i420()
                except Refused as refused:
                    wanted = refused.reply
            status, _, body = self.preview(8, lines=lines)
            if isinstance(wanted, str):
                self.assertEqual((status, json.loads(body)["reply"]), (409, wanted))
            else:
                self.assertEqual((status, body.partition(b"\nFRAME\n")[2] == wanted), (200, True), lines)
            self.assertEqual(
                (self.members("/session"), (room / "list").read_text(), self.picture("/frames/8.y4m")), before
            )
        # It follows the edits that are made, and those that are undone.
        self.change("undo")
        with self.session(SCENES) as other:
            other.hold(6)
            wanted = other.frame(9).i420()
        self.assertEqual(self.preview(9, lines=["hold 6"])[2].partition(b"\nFRAME\n")[2], wanted)
        self.assertEqual(self.preview(0, lines=["delete 99999"])[0], 409)
        self.assertEqual(self.preview(99999, lines=["hold 6"])[0], 404)
        self.assertEqual(self.preview(9, lines=["hold 6"])[2].partition(b"\nFRAME\n")[2], wanted)

    def test_findings_of_a_preview(self):
        self.serve(self.broken(), sources=[SCENES])
        for lines, kinds in ((["copy 1 5 5", "delete 6"], set()), ([], {"refused"})):
            damage = [
                finding
                for finding in self.task("check", lines=lines, packet=5)["findings"]
                if finding["severity"] == "damage"
            ]
            self.assertEqual({finding["kind"] for finding in damage}, kinds)
            self.assertTrue(all(finding["packet"] == 5 for finding in damage))

    def test_bodies(self):
        self.serve()
        for frame, body in (
            (0, {"lines": ["undo"]}),
            (-1, {"lines": []}),
            ("0", {"lines": []}),
            (True, {"lines": []}),
            (0, {"lines": [], "x": 1}),
            (0, {"lines": "delete 0"}),
        ):
            self.assertEqual(self.preview(frame, **body)[0], 400, body)
        self.assertEqual(self.post_to("/frames", lines=[])[0], 400)
        self.assertEqual(self.preview(0, lines=[], revision=7)[0], 412)


class Macroblocks(PageCase):
    def listed(self, option, packet):
        """What vp8list says of a packet of the edited stream, as a file."""
        status, _, body = self.ask("/file/packets")
        self.assertEqual(status, 200)
        path = self.folder() / "edited.ivf"
        path.write_bytes(body)
        done = subprocess.run(
            [programs.find("vp8list"), path, option, str(packet), "--json"], stdout=subprocess.PIPE, check=True
        )
        return [json.loads(line) for line in done.stdout.splitlines()]

    def answer(self, word, packet, source=0):
        """The objects of the reply to a question about a packet."""
        status, _, body = self.ask(f"/answer?line={word}%20{packet}&source={source}")
        self.assertEqual(status, 200, body)
        first, *lines = body.decode().split("\n")
        self.assertEqual(first, f"lines {len(lines)}")
        return [json.loads(line) for line in lines]

    def assertListed(self, *packets):
        for packet in packets:
            for word in ("macroblocks", "header"):
                self.assertEqual(self.answer(word, packet), self.listed(f"--{word}", packet))

    def test_records_and_headers(self):
        self.serve(SCENES)
        self.assertListed(0, 3, 4, 15, 16, 31)
        self.step("delete 2", "copy 0 20 5", "blank 9 16 32")
        self.assertListed(0, 2, 5, 9, 16, 18, 32)

    def test_another_source(self):
        self.serve(SMALL, sources=[SCENES])
        found = self.answer("macroblocks", 18, 1)
        done = subprocess.run(
            [programs.find("vp8list"), SCENES, "--macroblocks", "18", "--json"], stdout=subprocess.PIPE, check=True
        )
        self.assertEqual(found, [json.loads(line) for line in done.stdout.splitlines()])

    def test_packets_without_macroblocks(self):
        self.serve(self.broken(5))
        for packet in (5, 7, 15):
            for word in ("macroblocks", "header"):
                self.assertEqual(self.answer(word, packet), [{"packet": packet, "refused": 5, "cause": "ShortPacket"}])
        self.assertListed(4, 16)
        self.step("replace 5 -")
        self.assertEqual(self.answer("macroblocks", 5), [{"packet": 5, "repeats": True}])
        self.assertListed(6)

    def test_requests(self):
        self.serve(SMALL)
        count = len(packets_of(SMALL))
        for path, status in (
            (f"header%20{count}", 409),
            ("header%200&source=1", 404),
            ("header%20x", 409),
            ("", 400),
            ("header%200&frame=0", 400),
            ("list%200%20x", 409),
        ):
            self.assertEqual(self.ask(f"/answer?line={path}")[0], status, path)
        for line in (
            "delete%200",
            "frame%200",
            "script%20-",
            "use%201",
            "check%200%209",
            "undo",
            "header%200%0Adelete%200",
            "stats",
        ):
            self.assertIn(self.ask(f"/answer?line={line}")[0], (400, 409), line)
        self.assertEqual((self.members("/session")["revision"], self.members("/session")["edits"]), (1, []))

    def test_many_readers_while_it_is_edited(self):
        self.serve(SCENES)
        failed = []

        def read():
            for packet in range(20):
                found = self.answer("macroblocks", packet)
                if "refused" in found[0] or "column" not in found[0]:
                    failed.append(found)

        threads = [threading.Thread(target=read) for _ in range(3)]
        for thread in threads:
            thread.start()
        for _ in range(6):
            self.step("copy 0 0 0")
        for thread in threads:
            thread.join(20 * SLOW)
        self.assertEqual(failed, [])


class Killed(PageCase):
    def test_the_page_goes_on(self):
        self.serve(SCENES, edits=self.folder() / "list")
        self.step("delete 3", "replace 5 1000")
        before = {what: self.look(what, packet=4) for what in ("timeline", "origins", "place")}
        kinds = self.members("/session")
        with mock.patch("sys.stderr"):
            crash(self.live.session)
            self.assertEqual(self.ask("/frames/2.y4m")[0], 200)
        self.await_list()
        found = self.members("/session")
        self.assertEqual({**kinds, "restarts": 1, "changes": kinds["changes"] + 1}, found)
        for what, members in before.items():
            # Numbers are those of another program.
            found = self.look(what, packet=4)
            self.assertNotEqual(found.pop("contents", ""), members.pop("contents", None))
            self.assertEqual(found, members)
        self.change("undo")
        self.assertEqual(self.members("/session")["edits"], [])

    def test_the_programs_of_previews_and_of_the_frames_before(self):
        self.serve(SCENES)
        wanted = (self.frame(5, lines=["hold 3"]), self.frame(5, before=0))
        with mock.patch("sys.stderr"):
            for live in (self.live.preview.live, self.live.originals[0]):
                crash(live.session)
            self.assertEqual((self.frame(5, lines=["hold 3"]), self.frame(5, before=0)), wanted)

    def test_events_say_that_it_was_saved(self):
        self.serve(save=self.folder() / "out.ivf")
        with socket.create_connection(("127.0.0.1", self.server.port), timeout=5 * SLOW) as sock:
            sock.sendall(self.head(f"GET /{TOKEN}/events HTTP/1.1"))
            file = sock.makefile("rb")
            while file.readline().strip():
                pass
            told = lambda: [file.readline() for _ in range(3)]  # noqa: E731
            self.assertEqual(told(), [b"event: edit\n", b'data: {"revision": 1, "changes": 1}\n', b"\n"])
            # A page that knows as many changes as an answer or an event has reads nothing again.
            for line, wanted in (
                ("delete 3", (b"edit", 2, 2)),
                ("save", (b"saved", 2, 3)),
                ("undo", (b"edit", 3, 4)),
                ("save", (b"saved", 3, 5)),
            ):
                answer = self.change(line)
                self.assertEqual(
                    told(), [b"event: %b\n" % wanted[0], b'data: {"revision": %d, "changes": %d}\n' % wanted[1:], b"\n"]
                )
                self.assertEqual(
                    (answer["revision"], answer["changes"], self.members("/session")["changes"]),
                    (*wanted[1:], wanted[2]),
                )
            self.assertEqual(self.change("undo")["changes"], 5)
            with mock.patch("sys.stderr"):
                crash(self.live.session)
                self.ask("/frames/0.y4m")
            self.assertEqual(told()[:2], [b"event: restarted\n", b'data: {"revision": 3, "changes": 6}\n'])
            self.assertEqual(self.members("/session")["changes"], 6)
            file.close()

    def test_the_answer_to_a_change_has_what_the_page_shows(self):
        self.serve(SCENES, sources=[SMALL], save=self.folder() / "out.ivf")
        board = {**self.look("numbers", first=3, count=2), "source": 0, "at": 9, "move": False}
        for lines in (
            ["delete 25"],
            ["delete 0"] * 20,
            "undo",
            "redo",
            ["use 1", "delete 0"],
            "save",
            ["use 0"],
            board,
            ["script trim 0 2 3"],
            ["delete 0"] * (len(packets_of(SCENES)) - 18),
        ):
            for page in (
                {"source": 1, "packet": 2, "tiles": [[1, 0], [2, 0]]},
                {"source": 0, "packet": 25, "tiles": [[1, 0], [2, 0]]},
            ):
                with self.subTest(lines=str(lines)[:40], source=page["source"]):
                    if page["source"] == 0 and isinstance(lines, list):
                        self.change("undo")
                    self.engine("state")
                    if lines == "save":
                        answer = self.engine("save", 0, page)
                    elif lines is board:
                        answer = self.engine("paste", {**board, "revision": self.live.revision, "page": page})
                    else:
                        answer = self.engine("ask", lines, {"revision": self.live.revision, "title": "x", "page": page})
                    source = page["source"]
                    self.assertEqual(answer["session"], self.members("/session"))
                    packet = max(0, min(page["packet"], answer["session"]["sources"][source] - 1))
                    self.assertEqual(answer["place"], self.look("place", packet=packet, source=source))
                    self.assertEqual(answer["tiles"], [self.look("timeline", source=source, per=per) for per in (1, 2)])
        self.assertEqual(self.post_to("/edits", lines=["hold 0"], known=7)[0], 400)

    def test_events_have_what_the_check_found(self):
        path = self.broken(9)
        self.serve(path)
        with socket.create_connection(("127.0.0.1", self.server.port), timeout=10 * SLOW) as sock:
            sock.sendall(self.head(f"GET /{TOKEN}/events?check=1 HTTP/1.1"))
            file = sock.makefile("rb")
            while file.readline().strip():
                pass

            def told():
                """The events up to that of a check that is over, with its findings together."""
                names, findings, number = [], [], None
                while True:
                    name, data, _ = file.readline(), json.loads(file.readline().partition(b" ")[2]), file.readline()
                    names.append(name.split()[1].decode())
                    if names[-1] == "check":
                        findings = findings if data["check"] == number and data["from"] else []
                        number = data["check"]
                        self.assertEqual(data["from"], len(findings))
                        findings += data["findings"]
                        if data["over"]:
                            return names[0], findings, data

            for most in (checking.MOST_TOLD, 2):
                with mock.patch.object(checking, "MOST_TOLD", most):
                    for edit in ("delete 0", "undo"):
                        name, findings, data = told()
                        whole = self.check_members()
                        self.assertEqual(
                            (name, findings, data["damage"], data["revision"]),
                            ("edit", whole["findings"], whole["damage"], self.live.revision),
                        )
                        self.assertTrue(findings)
                        self.change(edit)
            file.close()
        self.assertEqual(self.ask("/events?check=1&x=1")[0], 400)

    def test_a_save_finds_the_time_stamps_once(self):
        self.serve(SCENES, save=self.folder() / "out.ivf")
        real, found = times.stamps_of, []
        with mock.patch.object(times, "stamps_of", lambda *given: found.append(given) or real(*given)):
            for line, is_other in (("delete 3", True), ("undo", False), ("move 3 9", True)):
                found.clear()
                self.change(line)
                status, _, body = self.post_to("/edits", line="save", source=0)
                self.assertEqual((status, json.loads(body)["renumbered"], len(found)), (200, is_other, int(is_other)))
                saved = ivf.read_packets(self.folder().parent / self.live.saves.path(0))[1]
                self.assertEqual([stamp for stamp, _ in saved], list(range(len(saved))))

    def test_a_change_while_the_state_is_read_is_in_the_next_one(self):
        self.serve(save=self.folder() / "out.ivf")
        read, changes = self.live.current_view, self.live.changes

        def saved_meanwhile():
            self.live.run("save")
            return read()

        with mock.patch.object(self.live, "current_view", saved_meanwhile):
            self.assertEqual(self.members("/session")["changes"], changes)
        self.assertEqual(self.members("/session")["changes"], changes + 1)


class MoreSources(PageCase):
    """Streams that are added on the page."""

    def opened(self, *lines):
        room = self.folder()
        for name, path in (("one.ivf", SMALL), ("two.ivf", ODD), (".hidden.ivf", SMALL), ("notes.txt", SMALL)):
            shutil.copy(path, room / name)
        (room / "broken.ivf").write_text("no stream")
        (room / "folder.ivf").mkdir()
        self.serve(str(room / "one.ivf"), edits=room / "one.edits", stems=[str(room / "one")])
        if lines:
            self.step(*lines)
        return room

    def add(self, path):
        status, _, body = self.post_to("/streams", file=str(path), **{"as": "source"})
        return status, json.loads(body)

    def test_one_is_added(self):
        room = self.opened("delete 3", "hold 5")
        self.assertEqual(
            self.members("/streams")["files"], [str(room / name) for name in ("broken.ivf", "one.ivf", "two.ivf")]
        )
        before, revision = self.ask("/file/packets")[2], self.members("/session")["revision"]
        status, found = self.add(room / "two.ivf")
        self.assertEqual((status, found["source"]), (200, 1))
        self.await_list()
        session = self.members("/session")
        self.assertEqual(
            (session["names"], session["sources"], session["edits"]),
            (["one.ivf", "two.ivf"], [12, len(packets_of(ODD))], ["delete 3", "hold 5"]),
        )
        self.assertGreater(session["revision"], revision)
        self.assertEqual(self.ask("/file/packets")[2], before)
        self.step("copy 1 0 12", "script source 1")
        self.assertEqual(self.picture("/frames/0.y4m"), frames_of(ODD, [0])[0])
        self.assertEqual(self.frame(1, before=1), frames_of(ODD, [1])[0])
        self.assertEqual(self.members("/session")["saves"][1]["next"], str(room / "two-edited.ivf"))
        self.change("undo")
        self.change("undo")
        self.assertEqual(self.members("/session")["edits"], [])
        self.assertEqual(list_of(room / "one.edits"), "")

    def test_streams_below_the_folder(self):
        room = self.opened()
        for name in (
            "sub/deep/three.ivf",
            "sub/.hidden/four.ivf",
            ".away/five.ivf",
            "a/b/c/d/six.ivf",
            "a/b/c/d/e/seven.ivf",
        ):
            (room / name).parent.mkdir(parents=True, exist_ok=True)
            shutil.copy(ODD, room / name)
        os.symlink("/", room / "sub/all")
        found = [room / name for name in ("broken.ivf", "one.ivf", "two.ivf", "a/b/c/d/six.ivf", "sub/deep/three.ivf")]
        self.assertEqual(self.members("/streams")["files"], list(map(str, found)))
        status, answer = self.add(found[-1])
        self.assertEqual((status, answer["source"]), (200, 1))
        self.assertEqual(self.add(room / "sub/.hidden/four.ivf")[0], 404)

    def same(self, path, name=None, digest=None):
        data = path.read_bytes()
        asked = {"name": name or path.name, "size": len(data), "sha256": digest or hashlib.sha256(data).hexdigest()}
        return self.members(f"/streams?{urllib.parse.urlencode(asked)}")["files"]

    def test_a_file_that_is_dropped_is_found_by_its_name_and_its_bytes(self):
        room = self.opened()
        for name in ("sub/two.ivf", "sub/\N{SNOWMAN} & a.ivf", "sub/.hidden/two.ivf"):
            (room / name).parent.mkdir(parents=True, exist_ok=True)
            shutil.copy(ODD, room / name)
        # Another stream of its name and size.
        data = bytearray(ODD.read_bytes())
        data[-1] ^= 1
        (room / "other").mkdir()
        (room / "other/two.ivf").write_bytes(data)
        self.assertEqual(self.same(ODD, "two.ivf"), [str(room / "two.ivf"), str(room / "sub/two.ivf")])
        self.assertEqual(self.same(room / "other/two.ivf"), [str(room / "other/two.ivf")])
        self.assertEqual(self.same(ODD, "\N{SNOWMAN} & a.ivf"), [str(room / "sub/\N{SNOWMAN} & a.ivf")])
        for path, name in (
            (ODD, "one.ivf"),
            (ODD, "sub/two.ivf"),
            (ODD, ""),
            (SMALL, "notes.txt"),
            (pathlib.Path("/etc/passwd"), None),
        ):
            self.assertEqual(self.same(path, name), [], (path, name))
        self.assertEqual(self.same(ODD, "two.ivf", "0" * 64), [])
        self.assertEqual(self.ask("/streams?name=two.ivf&size=x&sha256=0")[0], 400)
        self.assertEqual(self.members("/streams?name=two.ivf")["files"], [])
        # One that cannot be read is none.
        (room / "two.ivf").unlink()
        os.mkfifo(room / "two.ivf")
        self.assertEqual(self.same(ODD, "two.ivf"), [str(room / "sub/two.ivf")])

    def test_a_list_without_edits_stays_quiet(self):
        room = self.opened()
        self.assertEqual(self.add(room / "two.ivf")[0], 200)
        self.assertEqual(self.members("/session")["notices"], [])
        self.step("delete 3")
        self.assertEqual(list_of(room / "one.edits"), "delete 3\n")

    def test_what_cannot_be_added(self):
        room = self.opened("delete 3")
        for path in (
            "/etc/passwd",
            room / "notes.txt",
            room / ".hidden.ivf",
            room / "folder.ivf",
            f"{room}/../one.ivf",
            "two.ivf",
            "",
        ):
            self.assertEqual(self.add(path)[0], 404, path)
        status, found = self.add(room / "broken.ivf")
        self.assertEqual((status, "broken.ivf was not added" in found["error"]), (409, True))
        self.await_list()
        session = self.members("/session")
        self.assertEqual((session["names"], session["edits"], len(session["sources"])), (["one.ivf"], ["delete 3"], 1))
        self.step("delete 4")
        for turn in range(7):
            self.assertEqual(self.add(room / "two.ivf")[0], 200)
        status, found = self.add(room / "two.ivf")
        self.assertEqual((status, "at most 8 streams" in found["error"]), (409, True))
        self.assertEqual(self.post_to("/streams", file=3)[0], 400)


class Overwritten(PageCase):
    def test_edits_are_taken_back_after_the_file_was_overwritten(self):
        room = self.folder()
        clip = write_packets(room / "clip.ivf", packets_of(SMALL))
        self.serve(str(clip), edits=room / "clip.edits", stems=[str(room / "clip")])
        before = self.ask("/frames/11.i420")[2]
        with self.live.lock:
            self.live.contents()
        self.step("delete 3")
        self.step("delete 7", "delete 6", "replace 5 -", "hide 4")
        write_packets(clip, packets_of(ODD))
        os.utime(clip, (1, 1))
        self.step("delete 2", "hide 1")
        self.step("delete 0")
        self.assertEqual(self.live.run("save"), str(room / "clip-edited.ivf"))
        self.assertEqual(len(packets_of(room / "clip-edited.ivf")), 7)
        for _ in range(4):
            self.change("undo")
        self.assertEqual(self.members("/edits")["edits"], [])
        self.assertEqual(
            [self.live.session.ask(f"packet {n}").split()[2] for n in range(12)],
            [data.hex() for data in packets_of(SMALL)],
        )
        self.assertEqual(self.ask("/frames/11.i420")[2], before)
        for _ in range(4):
            self.change("redo")
        self.assertEqual(self.members("/session")["packets"], 7)


class TheCommand(Case):
    LIMIT = 40

    def open(self, *words):
        process = start("open", *words, "--no-browser", stdout=subprocess.PIPE, stderr=subprocess.PIPE)
        self.addCleanup(process.kill)
        url = process.stdout.readline().decode().strip()
        found = re.fullmatch(r"http://(127\.0\.0\.1:\d+)/([\w-]{20,})/page/", url)
        self.assertTrue(found, url)
        return process, *found.groups()

    def ask(self, host, path, line=None):
        one = http.client.HTTPConnection(host, timeout=10 * SLOW)
        headers = {"Origin": f"http://{host}", "Content-Type": "application/json"} if line else {}
        one.request("POST" if line else "GET", path, json.dumps({"line": line}) if line else None, headers)
        response = one.getresponse()
        body = response.read()
        one.close()
        return response.status, body

    def end(self, process, ending=signal.SIGINT):
        process.send_signal(ending)
        self.assertEqual(process.wait(10 * SLOW), 0)
        out, errors = process.stdout.read(), process.stderr.read().decode()
        process.stdout.close()
        process.stderr.close()
        self.assertEqual(out, b"")
        return errors

    def test_it_says_where_the_edits_are(self):
        room = self.folder()
        clip = write_packets(room / "a clip.ivf", packets_of(SMALL))
        process, host, token = self.open(clip)
        self.assertEqual(self.ask(host, f"/{token}/page/")[0], 200)
        errors = self.end(process)
        self.assertNotIn("edits are", errors)
        # Nothing was edited, so nothing is left.
        self.assertEqual(sorted(path.name for path in room.iterdir()), ["a clip.ivf"])
        for turn, ending in enumerate((signal.SIGINT, signal.SIGTERM)):
            process, host, token = self.open(clip)
            self.assertEqual(json.loads(self.ask(host, f"/{token}/session")[1])["packets"], 12 - turn)
            self.assertEqual(self.ask(host, f"/{token}/edits", "delete 3")[0], 200)
            errors = self.end(process, ending)
            self.assertIn(str(room / "a clip.edits"), errors)
        self.assertEqual(list_of(room / "a clip.edits"), "delete 3\ndelete 3\n")
        self.assertEqual(sorted(path.name for path in room.iterdir()), ["a clip.edits", "a clip.ivf"])

    def test_a_list_names_its_sources(self):
        room = self.folder()
        (room / "in").mkdir()
        clip, other = write_packets(room / "in/a.ivf", packets_of(SMALL)), write_packets(
            room / 'in/b "ü.ivf', packets_of(ODD)
        )
        process, host, token = self.open(clip, "--source", other)
        self.assertEqual(self.ask(host, f"/{token}/edits", "script source 1; splice 0 1")[0], 200)
        self.end(process)
        # The folder may be moved.
        os.rename(room / "in", room / "moved")
        clip, other = room / "moved/a.ivf", room / "moved" / other.name
        process, host, token = self.open(clip)
        found = json.loads(self.ask(host, f"/{token}/session")[1])
        self.assertEqual(
            (found["names"], found["sources"], found["script"]),
            (["a.ivf", other.name], [12, len(packets_of(ODD))], "source 1; splice 0 1"),
        )
        self.end(process)
        # One that is missing is named, and so is another one in its place.
        os.rename(other, room / "elsewhere.ivf")
        status, _, errors = command("open", clip, "--no-browser")
        self.assertEqual(status, 2)
        self.assertIn("a.edits names source 1: ", errors)
        self.assertIn("ü.ivf, which is not there", errors)
        self.assertIn("name it with --source", errors)
        process, host, token = self.open(clip, "--source", room / "elsewhere.ivf")
        self.end(process)
        status, _, errors = command("open", clip, "--source", clip, "--no-browser")
        self.assertEqual((status, "another source 1" in errors), (2, True), errors)
        # A list as an earlier version wrote it.
        (room / "moved/a.edits").write_text("script source 1; splice 0 1\n")
        status, _, errors = command("open", clip, "--no-browser")
        self.assertEqual(
            (status, "name it with --source" in errors, "not of this stream" in errors), (2, True, False), errors
        )

    def test_it_saves_to_a_new_file(self):
        room = self.folder()
        clip = write_packets(room / "clip.ivf", packets_of(SMALL))
        (room / "clip-edited.ivf").write_text("another file")
        process, host, token = self.open(clip)
        self.ask(host, f"/{token}/edits", "delete 3")
        status, body = self.ask(host, f"/{token}/edits", "save")
        self.assertEqual((status, json.loads(body)["reply"]), (200, str(room / "clip-edited-2.ivf")))
        self.assertIn("clip-edited-2.ivf", self.end(process))
        self.assertEqual((room / "clip-edited.ivf").read_text(), "another file")
        self.assertEqual(packets_of(room / "clip-edited-2.ivf"), packets_of(SMALL)[:3] + packets_of(SMALL)[4:])

    def test_it_saves_at_the_end_if_it_was_asked_to(self):
        room = self.folder()
        clip = write_packets(room / "clip.ivf", packets_of(SMALL))
        process, host, token = self.open(clip, "--edits", room / "list", "--save", room / "out.ivf", "--keep-stamps")
        self.ask(host, f"/{token}/edits", "hold 3")
        self.end(process)
        # The packet that holds the picture is saved so that libvpx shows it.
        with Session(clip) as other:
            other.hold(3)
            other.save(room / "plain.ivf")
            other.save(room / "padded.ivf", pad=True)
        self.assertEqual((room / "out.ivf").read_bytes(), (room / "padded.ivf").read_bytes())
        process, host, token = self.open(
            clip, "--edits", room / "list", "--save", room / "out.ivf", "--no-pad", "--keep-stamps"
        )
        self.ask(host, f"/{token}/edits", "save")
        self.end(process)
        self.assertEqual((room / "out.ivf").read_bytes(), (room / "plain.ivf").read_bytes())

    def test_another_stream_on_a_page_of_its_own(self):
        room = self.folder()
        clip, other = (
            write_packets(room / f"{name}.ivf", packets_of(path)) for name, path in (("clip", SMALL), ("other", ODD))
        )
        (room / "broken.ivf").write_text("no stream")
        process, host, token = self.open(clip)

        def page_of(path):
            one = http.client.HTTPConnection(host, timeout=20 * SLOW)
            one.request(
                "POST",
                f"/{token}/streams",
                json.dumps({"file": str(path), "as": "page"}),
                {"Origin": f"http://{host}", "Content-Type": "application/json"},
            )
            response = one.getresponse()
            body = response.read()
            one.close()
            return response.status, json.loads(body)

        status, found = page_of(other)
        self.assertEqual(status, 200, found)
        _, _, theirs, word, *_ = found["address"].split("/")
        self.assertNotEqual((theirs, word), (host, token))
        self.assertEqual(json.loads(self.ask(theirs, f"/{word}/session")[1])["names"], ["other.ivf"])
        self.assertEqual(self.ask(theirs, f"/{word}/edits", "delete 3")[0], 200)
        # One that is open has its list already, and one that is none says so.
        for path, status, said in (
            (other, 409, "another session"),
            (room / "broken.ivf", 409, "broken.ivf"),
            ("/etc/passwd", 404, "no such stream"),
        ):
            found = page_of(path)
            self.assertEqual((found[0], said in found[1]["error"]), (status, True), found)
        children = children_of(process.pid)
        errors = self.end(process)
        self.assertIn(str(room / "other.edits"), errors)
        self.assertEqual(list_of(room / "other.edits"), "delete 3\n")
        for child in children:
            self.assertGone(child)

    def test_the_stream_itself_is_not_saved_to(self):
        room = self.folder()
        clip, other = (write_packets(room / f"{name}.ivf", packets_of(SMALL)) for name in ("clip", "other"))
        os.link(other, room / "link.ivf")
        for name in ("open", "serve"):
            for save in (clip, room / "link.ivf"):
                status, out, errors = command(
                    name, clip, "--source", other, "--save", save, *(["--no-browser"] * (name == "open"))
                )
                self.assertEqual((status, out), (2, b""))
                self.assertIn("which is only read here: name another file", errors)
        self.assertEqual(packets_of(clip), packets_of(SMALL))

    def test_the_address_is_kept_for_a_day(self):
        room = self.folder()
        clip, other = (write_packets(room / f"{name}.ivf", packets_of(SMALL)) for name in ("clip", "other"))
        with mock.patch.dict(os.environ, {"XDG_STATE_HOME": str(room / "state")}):
            process, *address = self.open(clip)
            # Both are open at a time, so one that has another list has another address.
            process_of_other, *of_other = self.open(other)
            self.assertNotEqual(address, of_other)
            process.kill()
            process.communicate()
            process, *again = self.open(clip)
            self.assertEqual(again, address)
            self.end(process)
            kept = {path.name: path.stat() for path in (room / "state/wokureti/pages").iterdir()}
            self.assertEqual(
                ([found.st_mode & 0o777 for found in kept.values()], (room / "state/wokureti").stat().st_mode & 0o777),
                ([0o600, 0o600], 0o700),
            )
            self.end(process_of_other)
            # A port that another program has by now, a file that others may read, and one that is older than a day.
            with socket.create_server(("127.0.0.1", int(address[0].rpartition(":")[2]))):
                process, *another = self.open(clip)
                self.assertNotEqual(another, address)
                self.end(process)
            for change in (
                lambda path: path.chmod(0o640),
                lambda path: os.utime(path, (time.time() - 25 * 3600,) * 2),
                lambda path: path.write_text("{}"),
            ):
                for path in (room / "state/wokureti/pages").iterdir():
                    change(path)
                process, *found = self.open(clip)
                self.assertNotEqual(found[1], another[1])
                another = found
                self.end(process)

    def test_the_list_of_edits_is_its_owners(self):
        room = self.folder()
        clip = write_packets(room / "clip.ivf", packets_of(SMALL))
        process, host, token = self.open(clip)
        self.ask(host, f"/{token}/edits", "delete 3")
        self.assertEqual((room / "clip.edits").stat().st_mode & 0o777, 0o600)
        # A forwarded port has another Host: the refusal names the address.
        said = (
            f"this address is not http://{host}/, where the server is: open that. With ssh, forward the same port, and"
            f" open that: ssh -L {host.rpartition(':')[2]}:{host} MACHINE"
        )
        for headers, kind, text in (
            ({}, "application/json", json.dumps({"error": said})),
            ({"Sec-Fetch-Dest": "document"}, "text/plain; charset=utf-8", f"Wokureti: {said}"),
        ):
            one = http.client.HTTPConnection(host, timeout=10 * SLOW)
            one.request("GET", f"/{token}/page/", headers={"Host": "127.0.0.1:1", **headers})
            response = one.getresponse()
            self.assertEqual(
                (response.status, response.headers["Content-Type"], response.read().decode()), (421, kind, f"{text}\n")
            )
            one.close()
        self.end(process)

    def test_it_does_not_start(self):
        room = self.folder()
        status, out, errors = command("open", room / "nowhere.ivf", "--no-browser")
        self.assertEqual((status, out, "nowhere.ivf: No such file" in errors), (2, b"", True))
        self.assertEqual(list(room.iterdir()), [])
        clip = write_packets(room / "clip.ivf", packets_of(SMALL))
        process, _, _ = self.open(clip)
        status, out, errors = command("open", clip, "--no-browser")
        self.assertEqual((status, out, "another session" in errors), (2, b"", True))
        self.end(process)

    def test_it_ends_in_the_middle_of_a_frame(self):
        room = self.folder()
        # A frame that takes a while: the last of many.
        key, other = packets_of(DATA / "version-0.ivf")[:2]
        clip = write_packets(room / "long.ivf", [key] + 20000 * [other])
        process, host, token = self.open(clip)
        one = http.client.HTTPConnection(host, timeout=60 * SLOW)
        one.request("GET", f"/{token}/frames/20000.y4m")
        time.sleep(0.5)
        # A frame that the library decodes is waited for.
        with self.within(6 if ENGINE == "program" else 20):
            self.end(process)
        one.close()

    def test_names_beside(self):
        from wokureti.server.saves import claimed, free_name
        from wokureti.page.opening import stem_of

        room = self.folder()
        self.assertEqual(
            [stem_of(path) for path in (f"{room}/clip.webm", "-", "/dev/fd/5")], [f"{room}/clip", "stream", "5"]
        )
        (room / "a-edited.ivf").write_text("")
        os.symlink(room / "gone", room / "a-edited-2.ivf")
        self.assertEqual(
            (free_name(f"{room}/a"), claimed(f"{room}/a"), claimed(f"{room}/a")),
            (f"{room}/a-edited-3.ivf", f"{room}/a-edited-3.ivf", f"{room}/a-edited-4.ivf"),
        )

    def test_a_folder_that_cannot_be_written(self):
        from wokureti.page import opening

        room = self.folder()
        with mock.patch.object(system, "is_writable", return_value=False), mock.patch.dict(
            os.environ, {"XDG_STATE_HOME": str(room / "state")}
        ):
            one, other = (opening.stem_of(f"/media/{name}/clip.ivf") for name in ("one", "other"))
        self.assertEqual([os.path.dirname(stem) for stem in (one, other)], [str(room / "state/wokureti")] * 2)
        self.assertNotEqual(one, other)
        if os.getuid() == 0:
            return
        clip = write_packets(room / "clip.ivf", packets_of(SMALL))
        os.chmod(room, 0o555)
        self.addCleanup(os.chmod, room, 0o755)
        with mock.patch.dict(os.environ, {"XDG_STATE_HOME": str(self.folder())}):
            process, host, token = self.open(clip)
            self.assertEqual(self.ask(host, f"/{token}/edits", "delete 3")[0], 200)
            self.assertIn("nothing can be written next to", self.end(process))

    def test_the_command_line_of_the_browser_has_no_token(self):
        room = self.folder()
        clip = write_packets(room / "clip.ivf", packets_of(SMALL))
        browser = room / "browser"
        browser.write_text('#!/bin/sh\necho "$@" > "$0.words"\n')
        browser.chmod(0o755)
        process = start(
            "open",
            clip,
            stdout=subprocess.PIPE,
            stderr=subprocess.PIPE,
            env={"DISPLAY": ":99", "BROWSER": str(browser), "TMPDIR": str(room)},
        )
        self.addCleanup(process.kill)
        url = process.stdout.readline().decode().strip()
        limit = time.monotonic() + 10 * SLOW
        while not (room / "browser.words").exists() or not (room / "browser.words").read_text():
            self.assertLess(time.monotonic(), limit)
            time.sleep(0.02)
        words = (room / "browser.words").read_text()
        token = url.split("/")[3]
        self.assertNotIn(token, words)
        door = pathlib.Path(words.strip().removeprefix("file://"))
        self.assertEqual((door.stat().st_mode & 0o777, f"url={url}" in door.read_text()), (0o600, True))
        # The door is of no site; the page opens from there, and nothing else does.
        site = {"Sec-Fetch-Site": "cross-site", "Sec-Fetch-Mode": "navigate", "Sec-Fetch-Dest": "document"}
        for path, headers, status in (
            ("page/", site, 200),
            ("page/main.js", site, 403),
            ("session", site, 403),
            ("page/", {**site, "Sec-Fetch-Dest": "iframe"}, 403),
            ("page/", {**site, "Sec-Fetch-Mode": "no-cors"}, 403),
        ):
            one = http.client.HTTPConnection(url.split("/")[2], timeout=10 * SLOW)
            one.request("GET", f"/{token}/{path}", headers=headers)
            self.assertEqual(one.getresponse().status, status, path)
            one.close()
        self.end(process)
        self.assertFalse(door.exists())

    def test_a_name_that_a_terminal_obeys(self):
        room = self.folder()
        clip = write_packets(room / "a\x1b[31m.ivf", packets_of(SMALL))
        process, host, token = self.open(clip)
        self.assertEqual(self.ask(host, f"/{token}/edits", "delete 3")[0], 200)
        errors = self.end(process)
        self.assertEqual(("\x1b" in errors, "a\\x1b[31m.edits" in errors), (False, True))

    def test_two_starts_at_once(self):
        room = self.folder()
        clip = write_packets(room / "clip.ivf", packets_of(SMALL))
        for turn in range(4):
            both = [
                start("open", clip, "--no-browser", stdout=subprocess.PIPE, stderr=subprocess.PIPE) for _ in range(2)
            ]
            for process in both:
                self.addCleanup(process.kill)
            found = {process: process.stdout.readline().decode().strip() for process in both}
            running = [process for process in both if found[process]]
            for process in both:
                if not found[process]:
                    self.assertEqual((process.wait(10 * SLOW), b"another session" in process.stderr.read()), (2, True))
                    process.stdout.close()
                    process.stderr.close()
            # Both may be refused if each saw the other one, but none loses its list.
            for process in running:
                _, _, host, token, *_ = found[process].split("/")
                self.assertEqual(self.ask(host, f"/{token}/edits", "delete 3")[0], 200)
                self.assertTrue((room / "clip.edits").exists())
                self.end(process)
            self.assertLessEqual(len(running), 1)
            if running:
                self.assertEqual(list_of(room / "clip.edits"), "delete 3\n")
                (room / "clip.edits").unlink()


class Scripts(PageCase):
    def test_origins_of_random_scripts(self):
        choose = random.Random(1957)
        self.serve(SMALL, sources=[SMALL])
        with self.session(SMALL) as other:
            wanted = [frame.i420() for frame in other.frames()]
        for _ in range(20):
            script = Script()
            for _ in range(choose.randrange(1, 6)):
                node, last = choose.randrange(script.last + 1), script.last
                choose.choice(
                    [
                        lambda: script.source(choose.randrange(2)),
                        lambda: script.trim(node, choose.randrange(8), choose.randrange(1, 9)),
                        lambda: script.splice(node, last),
                    ]
                )()
            self.change(f"script {script}")
            session, found = self.members("/session"), self.look("origins", count=4000)
            self.assertEqual(session["frames"], self.members("/")["frames"], str(script))
            self.assertEqual(len(found["packets"]), min(4000, session["frames"]))
            for frame in choose.sample(range(session["frames"]), min(6, session["frames"])):
                self.assertEqual(
                    self.picture(f"/frames/{frame}.y4m"), wanted[found["packets"][frame]], (str(script), frame)
                )


if __name__ == "__main__":
    unittest.main()
