"""wokureti serve: the virtual file, the interface, and requests that must not be answered."""

import contextlib
import errno
import http.client
import json
import os
import random
import re
import signal
import socket
import struct
import subprocess
import threading
import time
import unittest
import zlib
from unittest import mock

from support import (
    DATA,
    ENGINE,
    ODD,
    SLOW,
    SMALL,
    Case,
    children_of,
    crash,
    is_alive,
    list_of,
    packets_of,
    start,
    start_unwaking,
    whole_text,
    write_packets,
)
from test_edits import edit
from wokureti import Refused, Script, Session
from wokureti.media import ivf
from wokureti.session import edit_files
from wokureti.session.outcomes import Outcomes
from wokureti.server import virtual, web
from wokureti.server.live import Live
from wokureti.server.routes import Routes
from wokureti.server.web import Server

CLIP = DATA / "sharpness-1.ivf"
SCENES = DATA / "scene-cuts.ivf"
BROKEN = b"\x10\x00"
TOKEN = "token-of-the-test"


class ServerCase(Case):
    """A server in this process."""

    LIMIT = 30

    def serve(self, stream=SMALL, edits=None, save=None, **options):
        self.live = Live({"stream": stream, **options}, edits, save)
        self.server = Server()
        self.server.routes = Routes(self.live, self.server, TOKEN)
        live, server = self.live, self.server
        thread = threading.Thread(target=server.serve, daemon=True)
        thread.start()

        def end():
            server.end()
            thread.join(5)
            live.close()

        self.addCleanup(end)

    def ask(self, path, method="GET", headers=(), body=None, connection=None):
        """The status, headers and body of a response."""
        one = connection or http.client.HTTPConnection(self.server.host, timeout=20 * SLOW)
        try:
            one.request(method, f"/{TOKEN}{path}", body, dict(headers))
            response = one.getresponse()
            return response.status, response.headers, response.read()
        finally:
            if connection is None:
                one.close()

    def get(self, path, **headers):
        headers = {name.replace("_", "-"): value for name, value in headers.items()}
        return self.ask(path, headers=headers)

    def members(self, path):
        status, _, body = self.ask(path)
        self.assertEqual(status, 200, body)
        return json.loads(body)

    def post(self, line, **more):
        headers = {"Origin": self.server.origin, "Content-Type": "application/json"}
        status, _, body = self.ask("/edits", "POST", headers, json.dumps({"line": line, **more}))
        return status, json.loads(body)

    def change(self, line):
        status, members = self.post(line)
        self.assertEqual(status, 200, members)
        return members

    def raw(self, data, wait=5):
        """What the server answers to these bytes, until it closes the connection or says nothing for a while."""
        with socket.create_connection(("127.0.0.1", self.server.port), timeout=wait) as sock:
            try:
                sock.sendall(data)
                found = b""
                while True:
                    piece = sock.recv(1 << 16)
                    if not piece:
                        return found
                    found += piece
            except (ConnectionResetError, BrokenPipeError):
                return found

    def head(self, line=None, host=None, *more):
        lines = [line or f"GET /{TOKEN}/edits HTTP/1.1", f"Host: {host or self.server.host}", *more]
        return "\r\n".join([*lines, "Connection: close", "", ""]).encode("latin-1")


class VirtualFile(ServerCase):
    def test_the_whole_file(self):
        wanted = whole_text(SMALL)
        self.serve()
        status, headers, body = self.ask("/clip.y4m")
        self.assertEqual((status, body), (200, wanted))
        self.assertEqual((headers["Content-Length"], headers["Accept-Ranges"]), (str(len(wanted)), "bytes"))
        status, headers, body = self.ask("/clip.y4m", "HEAD")
        self.assertEqual((status, headers["Content-Length"], body), (200, str(len(wanted)), b""))

    def test_the_rate_is_that_of_the_time_stamps(self):
        path = self.folder() / "clip.ivf"
        packets = [(40 * number, data) for number, data in enumerate(packets_of(SMALL))]
        path.write_bytes(b"".join(ivf.pieces(ivf.Head(16, 16, 1000, 1), len(packets), packets)))
        self.serve(path)
        self.assertEqual(self.members("/")["rate"], [25, 1])
        for name in ("/clip.y4m", "/frames/3.y4m"):
            self.assertEqual(self.ask(name)[2].split(b"\n")[0].split()[3], b"F25:1")

    def test_ranges_at_each_boundary(self):
        wanted = whole_text(SMALL)
        self.serve()
        head = wanted.index(b"\n") + 1
        size = (len(wanted) - head) // 12
        places = {0, 1, len(wanted) - 1, len(wanted) - 2}
        for frame in (0, 1, 2, 5, 11):
            start = head + frame * size
            places |= {start - 1, start, start + 1, start + 5, start + 6, start + 7, start + size - 1}
        one = http.client.HTTPConnection(self.server.host, timeout=20 * SLOW)
        for first in sorted(places):
            for last in sorted(places):
                if first <= last:
                    self.assertRange(one, f"bytes={first}-{last}", wanted, first, last + 1)
            self.assertRange(one, f"bytes={first}-", wanted, first, len(wanted))
            if first:
                self.assertRange(one, f"bytes=-{first}", wanted, len(wanted) - first, len(wanted))
        self.assertRange(one, f"bytes=0-{len(wanted)}", wanted, 0, len(wanted))
        self.assertRange(one, f"bytes=-{2 * len(wanted)}", wanted, 0, len(wanted))
        self.assertRange(one, f"bytes=3-{10**29}", wanted, 3, len(wanted))
        one.close()

    def assertRange(self, one, text, wanted, start, end):
        status, headers, body = self.ask("/clip.y4m", headers={"Range": text}, connection=one)
        self.assertEqual((status, headers["Content-Range"]), (206, f"bytes {start}-{end - 1}/{len(wanted)}"))
        self.assertTrue(body == wanted[start:end], text)

    def test_a_thousand_random_ranges(self):
        choose = random.Random(9110)
        self.serve(SCENES, cache=32)
        wanted = whole_text(SCENES)
        one = http.client.HTTPConnection(self.server.host, timeout=20 * SLOW)
        for _ in range(1000):
            first = choose.randrange(len(wanted))
            length = choose.choice([1, 100, 20000, 70000])
            self.assertRange(
                one, f"bytes={first}-{first + length - 1}", wanted, first, min(len(wanted), first + length)
            )
        one.close()

    def test_ranges_that_are_none(self):
        wanted = whole_text(SMALL)
        self.serve()
        for text in (
            "bytes=5-4",
            "bytes=0-1,4-5",
            "frames=0-1",
            "bytes",
            "bytes=",
            "bytes=-",
            "bytes=a-b",
            "bytes=1-2-3",
            f"bytes={'1' * 31}-",
        ):
            self.assertEqual(self.get("/clip.y4m", Range=text)[::2], (200, wanted))
        for text in (f"bytes={len(wanted)}-", f"bytes={10**29}-", "bytes=-0"):
            status, headers, _ = self.get("/clip.y4m", Range=text)
            self.assertEqual((status, headers["Content-Range"]), (416, f"bytes */{len(wanted)}"))
        self.assertEqual(self.ask("/clip.y4m", "HEAD", {"Range": "bytes=0-1"})[0], 200)

    def test_tags(self):
        self.serve()
        tag = self.ask("/clip.y4m")[1]["ETag"]
        self.assertRegex(tag, '^"[^"]+"$')
        self.assertEqual(self.get("/clip.y4m", Range="bytes=0-1", If_Range=tag)[0], 206)
        self.assertEqual(self.get("/clip.y4m", Range="bytes=0-1", If_Range='"other"')[0], 200)
        self.assertEqual(self.get("/clip.y4m", Range="bytes=0-1", If_Range="Thu, 01 Jan 1970 00:00:00 GMT")[0], 200)
        self.assertEqual(self.get("/clip.y4m", If_None_Match=f'"a", {tag}')[::2], (304, b""))
        self.assertEqual(self.get("/clip.y4m", If_None_Match='"a"')[0], 200)
        self.assertEqual(self.get("/clip.y4m", If_Match='"a"')[0], 412)
        tags = [tag, self.ask("/clip.y4m?refused=black")[1]["ETag"]]
        for line in ("delete 3", "undo", "redo", "script trim 0 1 2", "undo"):
            self.change(line)
            tags.append(self.ask("/clip.y4m")[1]["ETag"])
            self.assertEqual(self.get("/clip.y4m", Range="bytes=0-1", If_Range=tag)[0], 200)
        self.assertEqual(len(set(tags)), len(tags))

    def test_edits_and_scripts_change_the_file(self):
        self.serve(SMALL, sources=[ODD])
        for line, lines in (
            ("delete 3", ["delete 3"]),
            ("script trim 0 2 4", ["delete 3", "script trim 0 2 4"]),
            ("script crop 0 0 0 2 2", ["delete 3", "script crop 0 0 0 2 2"]),
            ("script source 1", ["delete 3", "script source 1"]),
            ("undo", ["delete 3", "script crop 0 0 0 2 2"]),
        ):
            self.change(line)
            self.assertEqual(self.ask("/clip.y4m")[2], whole_text(SMALL, *lines, sources=[ODD]))
        self.change("script -")
        self.assertEqual(self.ask("/clip.y4m")[2], whole_text(SMALL, "delete 3"))

    def test_frames_that_are_refused(self):
        small = packets_of(SMALL)
        path = write_packets(self.folder() / "a.ivf", small + small[:4] + [BROKEN] + small[5:] + small)
        self.serve(path)
        status, _, body = self.ask("/clip.y4m")
        members = json.loads(body)
        self.assertEqual((status, members["frame"], members["reply"]), (409, 16, "refused packet 16 ShortPacket"))
        good = whole_text(write_packets(self.folder() / "a.ivf", small))
        head = good.index(b"\n") + 1
        size = (len(good) - head) // 12
        frames = [good[head + n * size : head + (n + 1) * size] for n in range(12)]
        black = b"FRAME\n" + bytes([16]) * 35 + bytes([128]) * 24
        for mode, other in (("repeat", frames[3]), ("black", black)):
            wanted = good[:head] + b"".join(frames + frames[:4] + 8 * [other] + frames)
            self.assertEqual(self.ask(f"/clip.y4m?refused={mode}")[::2], (200, wanted))
            one = http.client.HTTPConnection(self.server.host, timeout=20 * SLOW)
            for first in range(head + 15 * size, head + 25 * size, 37):
                status, _, body = self.ask(
                    f"/clip.y4m?refused={mode}", headers={"Range": f"bytes={first}-{first + 150}"}, connection=one
                )
                self.assertEqual((status, body), (206, wanted[first : first + 151]))
            one.close()
        self.assertEqual(self.ask("/clip.y4m?refused=other")[0], 400)
        self.assertEqual(self.ask("/clip.y4m?other=black")[0], 400)

    def test_refused_frames_before_all_others(self):
        path = write_packets(self.folder() / "a.ivf", packets_of(SMALL)[1:3] + packets_of(SMALL))
        self.serve(path)
        self.assertEqual(json.loads(self.ask("/clip.y4m")[2])["reply"], "refused packet 0 NoKeyFrame")
        for mode in ("repeat", "black"):
            body = self.ask(f"/clip.y4m?refused={mode}")[2]
            self.assertEqual(
                (body.count(b"FRAME\n" + bytes([16]) * 35 + bytes([128]) * 24), body.count(b"FRAME\n")), (2, 14)
            )

    def test_nothing_to_show(self):
        self.serve("-")
        status, _, body = self.ask("/clip.y4m")
        self.assertEqual((status, json.loads(body)["reply"]), (409, "refused NoSuchFrame"))
        self.change("insert 0 0 1000")
        for path in ("/clip.y4m", "/clip.y4m?refused=black"):
            status, _, body = self.ask(path)
            self.assertEqual((status, json.loads(body)["reply"]), (409, "refused packet 0 ShortPacket"))

    def test_other_sizes(self):
        small, odd = packets_of(SMALL), packets_of(ODD)[:2]
        self.serve(write_packets(self.folder() / "a.ivf", small + odd + small))
        status, _, body = self.ask("/clip.y4m")
        self.assertEqual(
            (status, json.loads(body)["frame"], json.loads(body)["reply"]), (409, 12, "refused SizeDiffers")
        )
        # A frame by itself has its own size; programs of both sizes follow the edits.
        for turn in range(3):
            sizes = [self.ask(f"/frames/{n}.y4m")[2].split(b" ")[1:3] for n in (0, 12 - turn, 13 - turn, 14 - turn)]
            self.assertEqual(sizes, [[b"W7", b"H5"], [b"W175", b"H143"], [b"W175", b"H143"], [b"W7", b"H5"]])
            self.change("delete 1")
        self.assertEqual(len(self.live.viewers), 1)

    def test_an_edit_ends_a_response(self):
        self.serve(DATA / "version-0.ivf")
        script = Script().splice(0, 0)
        for _ in range(8):
            script.splice(-1, -1)
        self.change(f"script {script}")
        length = int(self.ask("/clip.y4m", "HEAD")[1]["Content-Length"])
        self.assertGreater(length, 300_000_000)
        with socket.create_connection(("127.0.0.1", self.server.port), timeout=10 * SLOW) as sock:
            sock.sendall(self.head(f"GET /{TOKEN}/clip.y4m HTTP/1.1"))
            count = len(sock.recv(1000))
            self.change("delete 1")
            while piece := sock.recv(1 << 20):
                count += len(piece)
        self.assertLess(count, length // 2)

    def test_readers_while_edits_go_on(self):
        self.serve(SCENES, cache=32)
        texts = {True: whole_text(SCENES), False: whole_text(SCENES, "delete 9")}
        done, found, wrong = threading.Event(), [], []

        def read(seed):
            choose = random.Random(seed)
            while not done.is_set():
                whole = choose.random() < 0.5
                first = 0 if whole else choose.randrange(250_000)
                try:
                    status, headers, body = self.get(
                        "/clip.y4m", Range=f"bytes={first}-{'' if whole else first + 30000}"
                    )
                except (http.client.IncompleteRead, ConnectionError, http.client.BadStatusLine):
                    found.append("cut")
                    continue
                # Revision 1 is whole, 2 has the deletion, 3 is whole again, and so on.
                text = texts[int(headers["ETag"].strip('"').split("-")[1]) % 2 == 1]
                wanted = text[first:] if whole else text[first : first + 30001]
                found.append(status)
                if (status, body) != (206, wanted):
                    wrong.append((status, first, len(body), len(wanted)))

        threads = [threading.Thread(target=read, args=(seed,)) for seed in range(4)]
        for thread in threads:
            thread.start()
        for turn in range(60):
            self.change("delete 9" if turn % 2 == 0 else "undo")
            time.sleep(0.01)
        done.set()
        for thread in threads:
            thread.join()
        self.assertEqual(wrong, [])
        self.assertGreater(found.count(206), 20)


class Prediction(Case):
    LIMIT = 60

    def test_outcomes_are_those_of_the_program(self):
        choose = random.Random(1956)
        compared = refused = 0
        for turn in range(45):
            stream = self.session(choose.choice([SMALL, "-"]), sources=[SMALL, ODD])
            for _ in range(8):
                edit(choose, stream, 2)
            script = Script()
            for _ in range(choose.randrange(5)):
                node, other = choose.randrange(script.last + 1), choose.randrange(script.last + 1)
                choose.choice(
                    [
                        lambda: script.source(choose.randrange(3)),
                        lambda: script.trim(node, choose.randrange(6), choose.randrange(1, 9)),
                        lambda: script.splice(node, other),
                        lambda: script.crop(
                            node, 0, 2 * choose.randrange(3), choose.choice([2, 7, 40]), choose.choice([1, 5])
                        ),
                        lambda: script.fade(node, 0, 3, 256, 0),
                    ]
                )()
            stream.script(script)
            outcomes = Outcomes(stream)
            self.assertEqual(outcomes.count, stream.count().frames)
            for number in range(outcomes.count):
                outcome = outcomes.of_frame(number)
                found = None
                try:
                    width, height, _ = stream.picture(number)
                    found = (width, height)
                except Refused as error:
                    found = error.reply.removeprefix("refused ")
                wanted = outcome if isinstance(outcome, str) or outcomes.is_served(outcome) else "SizeDiffers"
                self.assertEqual(found, wanted, (turn, number, list(stream.edits), str(script)))
                compared += 1
                refused += isinstance(found, str)
            stream.close()
        self.assertGreater(compared, 200)
        self.assertGreater(refused, 50)
        self.assertGreater(compared - refused, 50)


class Interface(ServerCase):
    def test_a_frame(self):
        self.serve(ODD)
        with self.session(ODD) as stream:
            frame = stream.frame(5)
        self.assertEqual(self.ask("/frames/5.i420")[::2], (200, frame.i420()))
        self.assertEqual(self.ask("/frames/5.y4m")[2], b"YUV4MPEG2 W175 H143 F30:1 Ip C420jpeg\nFRAME\n" + frame.i420())
        for query, options in (
            ("", ("601", False)),
            ("?matrix=709", ("709", False)),
            ("?matrix=601&full=1", ("601", True)),
        ):
            status, headers, body = self.ask(f"/frames/5.png{query}")
            self.assertEqual((status, headers["Content-Type"]), (200, "image/png"))
            self.assertEqual(unpacked(body), (175, 143, frame.rgb(*options).tobytes()))
        tag = headers["ETag"]
        self.assertEqual(self.get("/frames/5.png", If_None_Match=tag)[0], 304)
        self.assertEqual(self.ask("/frames/12.png")[0], 404)
        for path in (
            "/frames/5",
            "/frames/5.gif",
            "/frames/-1.png",
            "/frames/x.png",
            "/frames/.png",
            "/frames/5.png/x",
            "/frames",
            "/frames/",
        ):
            self.assertEqual(self.ask(path)[0], 404, path)
        for path in (
            "/frames/5.png?matrix=2020",
            "/frames/5.png?full=2",
            "/frames/5.y4m?matrix=601",
            "/frames/5.png?a=1",
        ):
            self.assertEqual(self.ask(path)[0], 400, path)
        self.change("replace 0 1000")
        status, _, body = self.ask("/frames/5.png")
        members = json.loads(body)
        self.assertEqual((status, members["reply"]), (409, "refused packet 0 ShortPacket"))
        self.assertIn("2 bytes", members["reason"])

    def test_packets(self):
        self.serve(SMALL, sources=[ODD])
        with self.session() as stream:
            wanted = stream.packets()
        found = self.members("/packets")
        self.assertEqual((found["count"], found["packets"]), (12, wanted))
        self.assertEqual(self.members("/packets?from=3&count=4")["packets"], wanted[3:7])
        self.assertEqual(self.members("/packets?from=10&count=99999999999")["packets"], wanted[10:])
        self.assertEqual(self.members(f"/packets?from={10**17}")["packets"], [])
        self.assertEqual(self.members("/packets?source=1")["packets"][0]["size"], "175x143")
        for query in (
            "from=-1",
            "from=x",
            "count=",
            "from=1&from=2",
            "a=1",
            f"from={10**18}",
            "from=%31",
            "source=1.0",
        ):
            self.assertEqual(self.ask(f"/packets?{query}")[0], 200 if query == "from=%31" else 400, query)
        self.assertEqual(self.ask("/packets?source=2")[0], 404)

    def test_findings(self):
        self.serve()
        self.assertEqual(self.members("/findings")["findings"], [])
        self.change("replace 3 1000")
        found = self.members("/findings")
        self.assertEqual((found["revision"], len(found["findings"])), (2, 1))
        self.assertIn("packet 3: refused ShortPacket", found["findings"][0])
        self.assertIn("12 packets", found["summary"])

    def test_edits(self):
        room = self.folder()
        self.serve(edits=room / "list", save=room / "out.ivf")
        self.assertEqual(self.members("/edits"), {"revision": 1, "edits": [], "undone": [], "source": 0, "saved": True})
        self.assertEqual(self.change("delete 3"), {"reply": "ok 11", "revision": 2, "changes": 2})
        self.assertEqual(self.change("  delete   3 "), {"reply": "ok 10", "revision": 3, "changes": 3})
        self.assertEqual(self.change("undo"), {"reply": ["delete 3"], "revision": 4, "changes": 4})
        self.assertEqual(self.members("/edits")["undone"], ["delete 3"])
        self.assertEqual(self.change("redo"), {"reply": ["delete 3"], "revision": 5, "changes": 5})
        self.assertEqual(self.change("redo"), {"reply": [], "revision": 5, "changes": 5})
        self.assertEqual(list_of(room / "list"), "delete 3\ndelete 3\n")
        self.assertEqual(self.members("/edits")["saved"], False)
        self.assertEqual(self.change("save")["reply"], str(room / "out.ivf"))
        self.assertEqual(self.members("/edits")["saved"], True)
        self.assertEqual(packets_of(room / "out.ivf"), packets_of(SMALL)[:3] + packets_of(SMALL)[5:])
        status, members = self.post("delete 99")
        self.assertEqual((status, members["reply"]), (409, "refused Place"))
        self.assertTrue(members["reason"])
        self.assertEqual(self.post("delete 0", revision=4)[0], 412)
        self.assertEqual(self.post("delete 0", revision=5)[0], 200)
        self.assertEqual(self.members("/")["packets"], 9)

    def test_a_full_disk(self):
        room = self.folder()
        self.serve(edits=room / "list", save="/dev/full")
        self.change("delete 3")
        tag = self.get("/clip.y4m")[1]["ETag"]
        status, members = self.post("save")
        self.assertEqual(status, 500)
        self.assertIn("/dev/full: No space left on device: not saved", members["error"])
        # Nobody who reads the clip is cut off by that.
        self.assertEqual((self.members("/edits")["revision"], self.get("/clip.y4m")[1]["ETag"]), (2, tag))
        with mock.patch.object(edit_files.EditFile, "write", side_effect=OSError(errno.ENOSPC, "full")):
            status, members = self.post("delete 0")
        self.assertEqual(status, 500)
        self.assertIn(
            (
                f"{room / 'list'}: No space left on device: the last edit is made but not on the disk; the edit before"
                " it is safe"
            ),
            members["error"],
        )
        self.assertEqual(self.members("/edits")["edits"], ["delete 3", "delete 0"])
        crash(self.live.session)
        with mock.patch("sys.stderr"):
            self.assertEqual(self.members("/")["packets"], 10)
        self.assertEqual(list_of(room / "list"), "delete 3\ndelete 0\n")
        self.live.saves.named = None

    def test_a_list_that_is_replaced_is_named(self):
        room = self.folder()
        self.serve(edits=room / "list")
        self.change("delete 3")
        (room / "list").unlink()
        (room / "list").write_text("mine\n")
        with mock.patch("sys.stderr"):
            self.change("delete 0")
            crash(self.live.session)
            self.assertEqual(self.members("/")["packets"], 10)
        self.assertEqual(((room / "list").read_text(), list_of(room / "list.1")), ("mine\n", "delete 3\ndelete 0\n"))
        self.assertEqual(len(self.live.notices), 1)
        self.assertIn(str(room / "list.1"), self.live.notices[0][1])

    def test_bodies_that_are_no_edits(self):
        self.serve()
        for line in (
            "frame 0",
            "count",
            "stats",
            "",
            " ",
            "# x",
            "nonsense",
            "undo ",
            "save x",
            "delete 0\ndelete 0",
            "delete 0\n",
            "delete 0\r\ncount",
            "delete\t0",
        ):
            self.assertEqual(self.post(line)[0], 400, line)
        self.assertEqual(self.post("delete x")[0], 409)
        headers = {"Origin": self.server.origin, "Content-Type": "application/json"}
        for body in (
            b"",
            b"{",
            b"[]",
            b'"undo"',
            b'{"line": 5}',
            b"{}",
            b'{"line": "undo", "x": 1}',
            b"\xff\xfe",
            b"[" * 100000,
            b'{"line":"undo","revision":true}',
            b'{"line":"undo","revision":"1"}',
        ):
            self.assertEqual(self.ask("/edits", "POST", headers, body)[0], 400, body[:20])
        self.assertEqual(self.post("save")[0], 409)
        self.assertEqual(self.members("/edits")["revision"], 1)

    def test_a_large_packet(self):
        self.serve()
        self.change(f"insert 12 0 {'00' * 1_000_000}")
        self.assertEqual(self.members("/packets?from=12")["packets"][0]["bytes"], 1_000_000)

    def test_events(self):
        self.serve()
        with socket.create_connection(("127.0.0.1", self.server.port), timeout=5 * SLOW) as sock:
            sock.sendall(self.head(f"GET /{TOKEN}/events HTTP/1.1"))
            file = sock.makefile("rb")
            while file.readline().strip():
                pass
            self.assertEqual(
                [file.readline() for _ in range(3)], [b"event: edit\n", b'data: {"revision": 1, "changes": 1}\n', b"\n"]
            )
            self.change("delete 3")
            self.assertEqual(
                [file.readline() for _ in range(3)], [b"event: edit\n", b'data: {"revision": 2, "changes": 2}\n', b"\n"]
            )
            crash(self.live.session)
            with mock.patch("sys.stderr"):
                self.ask("/frames/0.y4m")
            self.assertEqual(
                [file.readline() for _ in range(3)],
                [b"event: restarted\n", b'data: {"revision": 2, "changes": 3}\n', b"\n"],
            )
            file.close()


class Killed(ServerCase):
    def test_the_program_is_started_again(self):
        self.serve(edits=self.folder() / "list")
        self.change("delete 3")
        self.change("delete 3")
        self.change("undo")
        wanted = whole_text(SMALL, "delete 3")
        for path, check in (
            ("/clip.y4m", lambda body: body == wanted),
            ("/edits", lambda body: json.loads(body)["undone"] == ["delete 3"]),
            ("/packets", lambda body: json.loads(body)["count"] == 11),
            ("/frames/10.y4m", lambda body: body[-65:] == wanted[-65:]),
            ("/findings", lambda body: "11 packets" in json.loads(body)["summary"]),
            ("/", lambda body: json.loads(body)["frames"] == 11),
        ):
            crash(self.live.session)
            with mock.patch("sys.stderr"):
                status, _, body = self.ask(path)
            self.assertEqual((status, check(body)), (200, True), path)
        crash(self.live.session)
        with mock.patch("sys.stderr"):
            self.assertIn(self.post("delete 0")[0], (200, 503))
            status, members = self.post("redo")
        self.assertIn(status, (200, 503))
        with self.session(edits=None) as fresh:
            for line in self.members("/edits")["edits"]:
                fresh.request(line)
            self.assertEqual(self.members("/")["packets"], fresh.count().packets)

    def test_a_kill_in_the_middle_of_a_response(self):
        self.serve(SCENES)
        wanted = whole_text(SCENES)
        stop = threading.Event()

        def kill():
            while not stop.wait(0.05):
                try:
                    crash(self.live.session)
                except (ProcessLookupError, AttributeError):
                    pass

        killer = threading.Thread(target=kill)
        with mock.patch("sys.stderr"):
            killer.start()
            whole = 0
            for _ in range(15):
                try:
                    status, _, body = self.ask("/clip.y4m")
                except (http.client.IncompleteRead, ConnectionError) as error:
                    body = getattr(error, "partial", b"")
                    self.assertTrue(wanted.startswith(body))
                    continue
                if status == 200:
                    self.assertTrue(body == wanted)
                    whole += 1
                else:
                    self.assertEqual(status, 503)
            stop.set()
            killer.join()
            self.assertEqual(self.ask("/clip.y4m")[2], wanted)

    def test_a_program_that_cannot_be_started(self):
        path = self.folder() / "a.ivf"
        path.write_bytes(SMALL.read_bytes())
        self.serve(path)
        os.rename(path, f"{path}.away")
        crash(self.live.session)
        with mock.patch("sys.stderr"):
            for _ in range(2):
                status, _, body = self.ask("/frames/0.y4m")
                self.assertEqual((status, "No such file" in json.loads(body)["error"]), (503, True))
            os.rename(f"{path}.away", path)
            self.assertEqual(self.ask("/frames/0.y4m")[0], 200)


class Hostile(ServerCase):
    def setUp(self):
        super().setUp()
        self.serve()

    def tearDown(self):
        # Whatever was asked, the stream is as it was, and is served.
        self.assertEqual((self.members("/")["revision"], self.ask("/frames/3.i420")[0]), (1, 200))

    def assertStatus(self, status, data):
        found = self.raw(data)
        self.assertTrue(found.startswith(f"HTTP/1.1 {status} ".encode()), (data[:100], found[:100]))
        return found

    def test_another_host(self):
        for host in (
            f"evil.example:{self.server.port}",
            "evil.example",
            f"localhost:{self.server.port}",
            "127.0.0.1",
            f"127.0.0.1.:{self.server.port}",
            f"{self.server.host}, x",
            f"x@{self.server.host}",
        ):
            self.assertStatus(421, self.head(None, host))
        self.assertStatus(421, f"GET /{TOKEN}/edits HTTP/1.1\r\n\r\n".encode())
        self.assertStatus(400, self.head(None, None, f"Host: {self.server.host}"))
        self.assertStatus(200, self.head())

    def test_no_token(self):
        for path in (
            "/",
            "",
            "/edits",
            "/clip.y4m",
            "/token/edits",
            f"/{TOKEN}",
            f"/{TOKEN[:-1]}/edits",
            f"/{TOKEN}x/edits",
            f"//{TOKEN}/edits",
            f"/ /{TOKEN}/edits",
        ):
            found = self.raw(self.head(f"GET {path or '/'} HTTP/1.1"))
            self.assertRegex(found[:20], b"^HTTP/1.1 (404|400) ")
            self.assertNotIn(TOKEN.encode(), found)

    def test_another_origin(self):
        for origin in (
            "http://evil.example",
            "null",
            f"https://{self.server.host}",
            f"http://localhost:{self.server.port}",
            f"{self.server.origin}/",
            "",
        ):
            self.assertStatus(403, self.head(None, None, f"Origin: {origin}"))
            body = b'{"line":"delete 0"}'
            text = self.head(
                f"POST /{TOKEN}/edits HTTP/1.1",
                None,
                f"Origin: {origin}",
                "Content-Type: application/json",
                f"Content-Length: {len(body)}",
            )
            self.assertStatus(403, text + body)
        for site in ("cross-site", "same-site"):
            self.assertStatus(403, self.head(None, None, f"Sec-Fetch-Site: {site}"))

    def test_forms(self):
        body = b'{"line":"delete 0"}'
        origin = f"Origin: {self.server.origin}"
        length = f"Content-Length: {len(body)}"
        line = f"POST /{TOKEN}/edits HTTP/1.1"
        self.assertStatus(403, self.head(line, None, "Content-Type: application/json", length) + body)
        for kind in (
            "application/x-www-form-urlencoded",
            "multipart/form-data; boundary=x",
            "text/plain",
            "text/plain; application/json",
            "",
        ):
            self.assertStatus(415, self.head(line, None, origin, f"Content-Type: {kind}", length) + body)
        self.assertStatus(415, self.head(line, None, origin, length) + body)
        self.assertStatus(411, self.head(line, None, origin, "Content-Type: application/json"))
        for method in ("PUT", "DELETE", "PATCH", "OPTIONS", "TRACE", "CONNECT", "get"):
            self.assertStatus(405, self.head(f"{method} /{TOKEN}/edits HTTP/1.1", None, origin))
        for path in ("clip.y4m", "", "frames/0.png", "packets", "events"):
            self.assertStatus(
                405,
                self.head(f"POST /{TOKEN}/{path} HTTP/1.1", None, origin, "Content-Type: application/json", length)
                + body,
            )

    def test_paths(self):
        for path in (
            "../etc/passwd",
            "/etc/passwd",
            "..%2f..%2fetc%2fpasswd",
            "%2e%2e/edits",
            "./edits",
            "edits/",
            "edits/..",
            "frames/../edits",
            "frames/..%2f0.png",
            "edits%00",
            "EDITS",
            "clip.y4m/x",
            "frames//0.png",
            "\\..\\x",
        ):
            self.assertStatus(404, self.head(f"GET /{TOKEN}/{path} HTTP/1.1"))
        for target in (
            f"http://{self.server.host}/{TOKEN}/edits",
            "*",
            f"{TOKEN}/edits",
            f"/{TOKEN}/edits\xff",
            f"/{TOKEN}/edits\x01",
        ):
            self.assertStatus(400, self.head(f"GET {target} HTTP/1.1"))

    def test_huge_numbers(self):
        for path, status in (
            (f"frames/{'9' * 18}.png", 404),
            (f"frames/{'9' * 19}.png", 404),
            (f"frames/{'9' * 4000}.png", 404),
            (f"packets?from={'9' * 18}", 200),
            (f"packets?from={'9' * 400}", 400),
            (f"packets?count={'9' * 18}", 200),
        ):
            self.assertStatus(status, self.head(f"GET /{TOKEN}/{path} HTTP/1.1"))
        self.assertStatus(200, self.head(f"GET /{TOKEN}/clip.y4m HTTP/1.1", None, f"Range: bytes={'9' * 4000}-"))

    def test_what_is_no_request(self):
        for data in (
            b"\0" * 100,
            b"\x16\x03\x01\x02\0" + b"x" * 50,
            b"GET\r\n\r\n",
            b"GET / HTTP/1.1 x\r\n\r\n",
            b"PRI * HTTP/2.0\r\n\r\nSM\r\n\r\n",
            b"GET /\r\n\r\n",
            b"\r\n\r\n\r\n\r\n",
        ):
            self.assertRegex(self.raw(data + b"\r\n\r\n")[:20], b"^HTTP/1.1 (400|505) ")
        for header in ("no colon", ": no name", "na me: x", "Name : x", " folded: x", "X: a\nHost: b", "X: \0"):
            self.assertStatus(400, self.head(None, None, header))
        self.assertStatus(431, self.head(None, None, "X: " + "x" * 20000))
        self.assertStatus(431, self.head(None, None, *(f"X{n}: y" for n in range(3000))))
        self.assertStatus(431, b"GET /" + b"x" * 20000)

    def test_bodies(self):
        line, more = f"POST /{TOKEN}/edits HTTP/1.1", (
            f"Origin: {self.server.origin}",
            "Content-Type: application/json",
        )
        with self.within(3):
            self.assertStatus(413, self.head(line, None, *more, f"Content-Length: {1 << 30}"))
            self.assertStatus(413, self.head(line, None, *more, f"Content-Length: {1 << 30}") + bytes(1 << 20))
        for length in ("-1", "x", "1e3", "+5", "0x10", "1" * 30, "5 5", ""):
            self.assertStatus(400, self.head(line, None, *more, f"Content-Length: {length}") + b"12345")
        self.assertStatus(
            501, self.head(line, None, *more, "Transfer-Encoding: chunked", "Content-Length: 3") + b"0\r\n\r\n"
        )
        self.assertStatus(400, self.head(line, None, *more, "Content-Length: 3", "Content-Length: 4") + b"{}xx")
        self.assertStatus(400, self.head(None, None, "Content-Length: 5") + b"12345")

    def test_half_a_request(self):
        with mock.patch.object(web, "READ_TIME", 0.5), mock.patch.object(web, "IDLE_TIME", 0.5):
            for data in (
                b"",
                b"GET /",
                self.head()[:-2],
                self.head(
                    f"POST /{TOKEN}/edits HTTP/1.1",
                    None,
                    f"Origin: {self.server.origin}",
                    "Content-Type: application/json",
                    "Content-Length: 10",
                )
                + b"{",
            ):
                with self.within(2):
                    self.assertEqual(self.raw(data, 3), b"")
            # A byte at a time does not make the time longer.
            with self.within(3), socket.create_connection(("127.0.0.1", self.server.port), timeout=1) as sock:
                try:
                    for byte in self.head():
                        sock.sendall(bytes([byte]))
                        time.sleep(0.05)
                    self.assertEqual(sock.recv(100), b"")
                except (ConnectionResetError, BrokenPipeError):
                    pass

    def test_two_hundred_connections(self):
        with mock.patch.object(web, "STALLED", 0.2):
            socks = []
            for _ in range(200):
                sock = socket.create_connection(("127.0.0.1", self.server.port), timeout=5 * SLOW)
                sock.sendall(b"GET /")
                socks.append(sock)
            time.sleep(0.5)
            for _ in range(5):
                self.assertEqual(self.ask("/frames/3.i420")[0], 200)
            self.assertLessEqual(len(self.server.connections), web.MOST_CONNECTIONS)
            for sock in socks:
                sock.close()

    def test_clients_without_the_token_take_no_place(self):
        with socket.create_connection(("127.0.0.1", self.server.port), timeout=5 * SLOW) as events:
            events.sendall(self.head(f"GET /{TOKEN}/events HTTP/1.1"))
            file = events.makefile("rb")
            self.assertIn(b"200 OK", file.readline())
            ended, failed = threading.Event(), []

            def bother():
                while not ended.is_set():
                    with (
                        contextlib.suppress(OSError),
                        socket.create_connection(("127.0.0.1", self.server.port), timeout=2) as sock,
                    ):
                        sock.sendall(b"GET /wrong/edits HTTP/1.1\r\n")
                        ended.wait(0.5)

            threads = [threading.Thread(target=bother, daemon=True) for _ in range(100)]
            for thread in threads:
                thread.start()
            with mock.patch.object(web, "STALLED", 0.1):
                for number in range(60):
                    status = self.ask(f"/frames/{number % 12}.i420")[0]
                    if status != 200:
                        failed.append(status)
                    time.sleep(0.01)
            ended.set()
            for thread in threads:
                thread.join(5 * SLOW)
            self.assertEqual(failed, [])
            # Who waits for events still has the connection.
            self.change("delete 0")
            found = b""
            while b'"revision": 2' not in found:
                found += file.readline()
            self.change("undo")
            file.close()
        self.live.revision = 1

    def test_what_is_made_ahead_is_bounded(self):
        made, most = virtual.Ahead(), virtual.MOST_BYTES
        frame = 1920 * 1080 * 3 // 2
        counts = [made.take(frame) for _ in range(60)]
        self.assertEqual((counts[0], counts[-1]), (8, 0))
        self.assertLessEqual(3 * frame * sum(counts), most)
        for count in counts:
            made.give(count, frame)
        self.assertEqual((made.taken, made.take(most)), (0, 0))
        # Those who get none are served too.
        wanted, other = self.ask("/clip.y4m")[2], virtual.Ahead()
        with mock.patch.object(virtual, "AHEAD", made), mock.patch.object(virtual, "MOST_BYTES", 0):
            self.assertEqual(self.ask("/clip.y4m")[2], wanted)
        # What a reader took is given back after its last byte.
        with mock.patch.object(virtual, "AHEAD", other):
            self.assertEqual(self.ask("/clip.y4m")[2], wanted)
            limit = time.monotonic() + 10 * SLOW
            while other.taken:
                self.assertLess(time.monotonic(), limit)
                time.sleep(0.02)

    def test_clients_that_do_not_read(self):
        script = Script().splice(0, 0)
        for _ in range(14):
            script.splice(-1, -1)
        self.change(f"script {script}")
        socks = []
        for _ in range(20):
            sock = socket.create_connection(("127.0.0.1", self.server.port), timeout=5 * SLOW)
            sock.sendall(self.head(f"GET /{TOKEN}/clip.y4m HTTP/1.1"))
            socks.append(sock)
        time.sleep(0.3)
        # Each reader gets the frames that are made ahead of it, and no more.
        with self.within(8):
            for number in range(20):
                self.assertEqual(self.ask(f"/frames/{number}.i420")[0], 200)
        self.change("undo")
        self.assertEqual(self.members("/")["frames"], 12)
        for sock in socks:
            sock.close()
        self.live.revision = 1

    def test_one_interface(self):
        with self.assertRaises(ConnectionRefusedError):
            socket.create_connection(("127.0.0.2", self.server.port), timeout=2)

    def test_headers_of_each_answer(self):
        for data in (
            self.head(),
            self.head(None, "evil"),
            self.head(f"GET /{TOKEN}/x HTTP/1.1"),
            self.head(f"GET /{TOKEN}/frames/3.png HTTP/1.1"),
            b"x\r\n\r\n",
        ):
            found = self.raw(data)
            for header in (
                b"Content-Security-Policy: default-src 'self'",
                b"X-Content-Type-Options: nosniff",
                b"Referrer-Policy: no-referrer",
                b"Cache-Control: no-store",
            ):
                self.assertIn(b"\r\n" + header + b"\r\n", found)
            self.assertNotIn(b"Access-Control", found)

    def test_requests_one_after_the_other(self):
        text = self.head().replace(b"Connection: close", b"Connection: keep-alive")
        found = self.raw(text + text + self.head())
        self.assertEqual(found.count(b"HTTP/1.1 200 OK"), 3)
        found = self.raw(f"GET /{TOKEN}/edits HTTP/1.0\r\nHost: {self.server.host}\r\n\r\n".encode())
        self.assertEqual(found.count(b"Connection: close"), 1)


class TheCommand(Case):
    LIMIT = 30

    def begin(self, *words, **options):
        """A server: its process, its host, the word that only reads, and the one that edits."""
        process = start("serve", *words, stdout=subprocess.PIPE, stderr=subprocess.PIPE, **options)
        self.addCleanup(process.kill)
        host, reading = re.fullmatch(
            r"http://(127\.0\.0\.1:\d+)/([\w-]{20,})/clip\.y4m\n", process.stdout.readline().decode()
        ).groups()
        editing = re.fullmatch(rf"http://{host}/([\w-]{{20,}})/edits\n", process.stdout.readline().decode()).group(1)
        return process, host, reading, editing

    def end(self, process, ending):
        """What it wrote to standard error."""
        process.send_signal(ending)
        with self.within(5):
            self.assertEqual(process.wait(10 * SLOW), 0)
        out, errors = process.stdout.read(), process.stderr.read()
        process.stdout.close()
        process.stderr.close()
        self.assertEqual(out, b"")
        return errors

    def test_it_serves_until_it_is_interrupted(self):
        room = self.folder()
        path = write_packets(room / "a clip.ivf", packets_of(SMALL))
        for number, ending in enumerate((signal.SIGINT, signal.SIGTERM, signal.SIGHUP)):
            process, host, reading, editing = self.begin(path, "--edits", room / "list", "--save", room / "out.ivf")
            one = http.client.HTTPConnection(host, timeout=10 * SLOW)
            one.request("GET", f"/{reading}/clip.y4m")
            self.assertEqual(one.getresponse().read(), whole_text(SMALL, *(number * ["delete 3"])))
            headers = {"Origin": f"http://{host}", "Content-Type": "application/json"}
            # The address of the players does not edit.
            for token, status in ((reading, 403), (editing, 200)):
                one.request("POST", f"/{token}/edits", '{"line": "delete 3"}', headers)
                response = one.getresponse()
                self.assertEqual(
                    (response.status, response.read()[:9]), (status, b'{"error":' if status == 403 else b'{"reply":')
                )
            one.close()
            children = children_of(process.pid)
            self.assertEqual(len(children), ENGINE == "program")
            self.assertEqual(self.end(process, ending), b"")
            self.assertFalse(any(is_alive(child) for child in children))
            self.assertEqual(list_of(room / "list"), "delete 3\n" * (number + 1))
            self.assertEqual(packets_of(room / "out.ivf"), packets_of(SMALL)[:3] + packets_of(SMALL)[4 + number :])

    def test_folders_of_programs_that_are_gone(self):
        room = self.folder()
        env = {"TMPDIR": str(room)}
        first, *_ = self.begin(SMALL, env=env)
        second, *_ = self.begin(SMALL, env=env)
        folders = set(room.iterdir())
        self.assertTrue(len(folders) >= 2 and all(path.name.startswith("wokureti-") for path in folders), folders)
        (room / "wokureti-of-a-person").mkdir()
        first.kill()
        first.communicate(timeout=10 * SLOW)
        self.end(self.begin(SMALL, env=env)[0], signal.SIGTERM)
        left = set(room.iterdir()) - {room / "wokureti-of-a-person"}
        # Those of the one that runs are there, and those of the one that was killed are not.
        self.assertTrue(left and left < folders, (left, folders))
        self.end(second, signal.SIGHUP)
        self.assertEqual([path.name for path in room.iterdir()], ["wokureti-of-a-person"])

    def test_an_interrupt_right_before_the_main_thread_waits(self):
        for words in (("serve", SMALL), ("open", SMALL, "--no-browser", "--edits", self.folder() / "list")):
            process = start_unwaking(*words, stdout=subprocess.PIPE, stderr=subprocess.PIPE)
            self.addCleanup(process.kill)
            self.assertIn(b"http://127.0.0.1:", process.stdout.readline())
            # Meanwhile the main thread begins to wait.
            time.sleep(0.5 * SLOW)
            with self.within(5):
                process.communicate(b"\n", timeout=10 * SLOW)
            self.assertEqual(process.returncode, 0)

    def test_it_does_not_start(self):
        from support import command

        with socket.create_server(("127.0.0.1", 0)) as other:
            status, _, errors = command("serve", SMALL, "--port", other.getsockname()[1])
            self.assertEqual((status, "in use" in errors), (2, True))
        status, out, errors = command("serve", "/nowhere.ivf")
        self.assertEqual((status, out, "/nowhere.ivf: No such file" in errors), (2, b"", True))


def unpacked(png):
    """The width, height and bytes of a PNG that has red, green and blue in rows without a filter."""
    assert png[:8] == b"\x89PNG\r\n\x1a\n"
    place, chunks = 8, {}
    while place < len(png):
        length, kind = struct.unpack(">I4s", png[place : place + 8])
        data = png[place + 8 : place + 8 + length]
        assert struct.unpack(">I", png[place + 8 + length : place + 12 + length])[0] == zlib.crc32(kind + data)
        chunks[kind] = data
        place += 12 + length
    width, height, depth, kind, *rest = struct.unpack(">IIBBBBB", chunks[b"IHDR"])
    assert (depth, kind, rest) == (8, 2, [0, 0, 0])
    rows, across = zlib.decompress(chunks[b"IDAT"]), 1 + 3 * width
    assert len(rows) == height * across and all(rows[row * across] == 0 for row in range(height))
    return width, height, b"".join(rows[row * across + 1 : (row + 1) * across] for row in range(height))


if __name__ == "__main__":
    unittest.main()
