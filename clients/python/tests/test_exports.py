"""wokureti cut, join and export."""

import json
import os
import pathlib
import pty
import random
import re
import shlex
import signal
import socket
import subprocess
import time
import unittest
from unittest import mock

import test_containers
import test_page
from support import DATA, SLOW, SMALL, Case, command, packets_of, serve, start, write_packets
from test_containers import clip, frames, media, needs_ffmpeg, setUpModule, sound_packets  # noqa: F401
from wokureti.errors import Failed, Stopped
from wokureti.page import opened
from test_serve import TOKEN
from wokureti.base import programs, progress
from wokureti.media import containers, ivf, opus, webm
from wokureti.session import convert, exports
from wokureti.tools import cut_lists

MS = 10**6
SCENES = DATA / "scene-cuts.ivf"
REAL = programs.find("vp8serve")
# The program is asked, and not the library.
ENV = {"VP8SERVE": REAL}


def wokureti(*words):
    with mock.patch.dict(os.environ, ENV):
        return command(*words)


class EndlessCase(Case):
    """Exports that take for ever."""

    def endless(self):
        """A vp8serve whose exports never end, and the file that has the number of the process."""
        path = self.folder() / "vp8serve"
        path.write_text(
            f'#!/bin/sh\ncase " $* " in *" --help "*) ;; *" --export "*) echo $$ > {shlex.quote(str(path))}.new; mv'
            f" {shlex.quote(str(path))}.new {shlex.quote(str(path))}.pid; exec sleep 600 ;; esac\nexec"
            f' {shlex.quote(os.path.abspath(REAL))} "$@"\n'
        )
        path.chmod(0o755)
        return path, path.with_name("vp8serve.pid")

    def read(self, path):
        """The number in a file, once it is there."""
        limit = time.monotonic() + 10 * SLOW
        while not path.exists():
            self.assertLess(time.monotonic(), limit)
            time.sleep(0.02)
        return int(path.read_text())


class Places(Case):
    def frames(self, stream=None):
        return exports.Frames(
            self.session(stream or write_packets(self.folder() / "in.ivf", packets_of(SMALL), 25)).edits.contents()
        )

    def test_frames_and_times(self):
        # 12 frames of 40 ms.
        found, cases = self.frames(), {
            "f0": (0, 0),
            "f5": (5, 5),
            "f99": (12, 12),
            "0": (0, 0),
            "1": (12, 12),
            "210ms": (5, 6),
            "0.2s": (5, 5),
            "40000us": (1, 1),
            "0.0": (0, 0),
            "0:00.2": (5, 5),
            "0.21": (5, 6),
            "0:0:0.239": (5, 6),
            "00:00:00.240": (6, 6),
            "0.47": (11, 12),
            "1:0.0": (12, 12),
        }
        self.assertEqual({text: (found.place(text, False), found.place(text, True)) for text in cases}, cases)
        for text in ("-1", "x", "1:2:3:4", "1:x", "", "3m", "f", "f1.5", "1:00ms", "F3"):
            with self.assertRaisesRegex(Failed, "is neither a time nor a frame"):
                found.place(text, False)

    def test_seconds_that_were_frames(self):
        room = self.folder()
        status, _, errors = wokureti(
            "cut", SMALL, room / "out.ivf", "--from", "0", "--to", "2", "--from", "0.1", "--to", "3"
        )
        self.assertEqual((status, errors), (0, "wokureti: 2 is a time in seconds, as in ffmpeg; frame 2 is f2\n"))
        self.assertEqual(len(packets_of(room / "out.ivf")), 24)
        self.assertEqual(
            [exports.seconds_text(words) for words in (["0", None], ["00", "f3"], ["1.0", "0:02"])], [None, None, None]
        )

    def test_times_of_a_rate_that_varies(self):
        packets = [(stamp, data) for stamp, data in zip((0, 40, 200, 240), packets_of(SMALL))]
        path = self.folder() / "in.ivf"
        path.write_bytes(b"".join(ivf.pieces(ivf.Head(7, 5, 1000, 1), 4, packets)))
        found = self.frames(path)
        self.assertEqual(
            [found.place(text, False) for text in ("0.039", "0.04", "0.199", "0.2", "0.24", "0.279", "0.28")],
            [0, 1, 1, 2, 3, 3, 4],
        )
        self.assertEqual(
            [found.place(text, True) for text in ("0.039", "0.04", "0.199", "0.2", "0.24", "0.28")], [1, 1, 2, 2, 3, 4]
        )

    def test_scripts(self):
        found = self.frames()
        self.assertEqual(exports.cut_script(found, [("f3", "f8")]), "parts 0 3 5")
        self.assertEqual(
            exports.cut_script(found, [(None, "0.08"), ("f5", None), ("f0", "f1")]), "parts 0 0 2 0 5 7 0 0 1"
        )
        self.assertEqual(exports.cut_script(found, [("f1", "f2")] * 1000), "parts" + " 0 1 1" * 1000)
        for parts, why in (
            ([("f3", "f3")], "there is no frame from f3 to f3"),
            ([("20", None)], "from 20 to the end: the stream has 12 frames, 0:00:00.480"),
            ([], "there is no part"),
        ):
            with self.assertRaisesRegex(Failed, why):
                exports.cut_script(found, parts)
        self.assertEqual(
            [exports.join_script(count) for count in (1, 2, 3)],
            [
                "-",
                "source 1; parts 0 0 1048576 1 0 1048576",
                "source 1; source 2; parts 0 0 1048576 1 0 1048576 2 0 1048576",
            ],
        )

    def test_what_is_said(self):
        told = exports.Told(14_400 * MS, 361, 400, 39, 5000, 50000)
        self.assertEqual(
            told.text(), "0:00:14.400, 361 frames, in 400 packets, 39 of them hidden: 5,000 bytes, 10.0 % of the file"
        )
        self.assertEqual(
            exports.Told(0, 0, 0, 0, 0, 0).text(), "0:00:00.000, 0 frames, in 0 packets, none of them hidden"
        )
        self.assertEqual(exports.clock_text(3_723_045_600_000), "1:02:03.046")


class Stamps(Case):
    def test_the_program_has_the_same_new_stamps(self):
        room = self.folder()
        stream = write_packets(room / "in.ivf", packets_of(SMALL), 25)
        for lines in (
            (),
            ("delete 3", "delete 3"),
            ("move 9 2", "hold 6", "copy 1 4 4"),
            ("copy 1 7 0", "replace 4 -", "insert 3 99 -"),
        ):
            with self.session(stream, sources=[stream]) as session:
                for line in lines:
                    session.request(line)
                session.save(room / "client.ivf", restamp=True)
            serve(stream, lines, "--sources", stream, "--save", room / "program.ivf", "--restamp")
            self.assertEqual(ivf.read_packets(room / "client.ivf")[1], ivf.read_packets(room / "program.ivf")[1], lines)

    def test_a_repair_of_a_hole_or_of_an_order_takes_no_time(self):
        """The list of `wokureti repair`, run by vp8serve: the new time stamps are those of the stream before the
        damage.
        """
        room, packets = self.folder(), list(enumerate(packets_of(SCENES)))
        whole = room / "whole.ivf"
        whole.write_bytes(b"".join(ivf.pieces(ivf.Head(16, 16, 30, 1), len(packets), packets)))
        damaged = {
            "hole": packets[:7] + packets[10:],
            "two holes": packets[:5] + packets[6:20] + packets[24:],
            "late": packets[:5] + [packets[7], packets[5], packets[6]] + packets[8:],
            "twice": packets[:9] + packets[6:],
        }
        for name, found in damaged.items():
            path, edits = room / "damaged.ivf", room / "list"
            # The header counts more packets than there are: the sign that some were lost.
            path.write_bytes(b"".join(ivf.pieces(ivf.Head(16, 16, 30, 1), len(packets), found)))
            for second in ((), ("--second", whole)):
                self.assertIn(command("repair", path, room / "out.ivf", *second, "--edits", edits, "-y")[0], (1, 2))
                sources = ("--sources", whole) if second else ()
                serve(path, edits.read_text().splitlines(), *sources, "--save", room / "program.ivf", "--restamp")
                mended = ivf.read_packets(room / "program.ivf")[1]
                with self.session(path, sources=[whole] if second else []) as session:
                    for line in edits.read_text().splitlines():
                        session.request(line)
                    session.save(room / "client.ivf", restamp=True)
                self.assertEqual(ivf.read_packets(room / "client.ivf")[1], mended, (name, second))
                self.assertEqual([stamp for stamp, _ in mended], list(range(len(packets))), (name, second))
                self.assertEqual(
                    [data for _, data in mended] == [data for _, data in packets],
                    bool(second) or name in ("late", "twice"),
                    (name, second),
                )


class Ivf(Case):
    LIMIT = 60

    def served(self, path):
        with self.session(path) as session:
            return [bytes(frame.i420()) for frame in session.frames()]

    def test_a_cut(self):
        room, whole = self.folder(), self.served(SMALL)
        status, out, errors = wokureti("cut", SMALL, room / "out.ivf", "--from", "f3", "--to", "f8")
        self.assertEqual((status, errors), (0, ""))
        self.assertEqual(
            out.decode(),
            (
                "0:00:00.167, 5 frames, in 8 packets, 3 of them hidden:"
                f" {sum(map(len, packets_of(SMALL)[:3])):,} bytes,"
                f" {100 * sum(map(len, packets_of(SMALL)[:3])) / sum(map(len, packets_of(SMALL)[:8])):.1f} % of the"
                " file\n"
            ),
        )
        self.assertEqual(self.served(room / "out.ivf"), whole[3:8])

    def test_several_parts_and_a_join(self):
        room, whole = self.folder(), self.served(SMALL)
        self.assertEqual(
            wokureti("cut", SMALL, room / "one.ivf", "--from", "f9", "--to", "f11", "--from", "f2", "--to", "f4")[0], 0
        )
        self.assertEqual(self.served(room / "one.ivf"), whole[9:11] + whole[2:4])
        self.assertEqual(wokureti("join", room / "one.ivf", SMALL, room / "one.ivf", room / "two.ivf")[0], 0)
        self.assertEqual(self.served(room / "two.ivf"), [*whole[9:11], *whole[2:4], *whole, *whole[9:11], *whole[2:4]])

    def test_a_script_and_edits(self):
        room, whole = self.folder(), self.served(SMALL)
        (room / "edits").write_text("delete 11\n")
        self.assertEqual(
            wokureti("export", SMALL, room / "out.ivf", "--edits", room / "edits", "--script", "trim 0 4 100")[0], 0
        )
        self.assertEqual(self.served(room / "out.ivf"), whole[4:11])

    def test_what_cannot_be_exported(self):
        room = self.folder()
        (room / "out.ivf").write_text("before")
        status, out, errors = wokureti("export", SMALL, room / "out.ivf", "--script", "fade 0 0 5 0 256", "-y")
        self.assertEqual((status, out, (room / "out.ivf").read_text()), (2, b"", "before"))
        self.assertRegex(errors, "frame 0.*node 1|node 1.*frame 0")
        for words, why in (
            (
                ("cut", SMALL, room / "out.ivf"),
                "say which part is kept: for example --from 0:03.3 --to 0:17.7, or frames, --from f83 --to f443",
            ),
            (
                ("cut", SMALL, room / "out.ivf", "--from", "1", "--from", "2", "--to", "3"),
                "each part has a --from and a --to",
            ),
            (("cut", SMALL, SMALL, "--from", "1"), "the output is"),
            (("cut", SMALL, room / "out.ivf", "--from", "soon"), "'soon' is neither a time nor a frame"),
            (("export", SMALL, room / "out.ivf", "--script", "trim 9 0 1"), "refused Reference"),
            (("join", SMALL, room / "none.ivf", room / "out.ivf"), "none.ivf"),
            (("cut", SMALL, room / "out.mp4", "--from", "3"), "no .mp4 file is written. Name it .webm or .mkv"),
            (("repair", SMALL, room / "out.MOV"), "no .mov file is written"),
            (("join", SMALL, SMALL, "-"), "the output is a file: name it"),
        ):
            status, out, errors = wokureti(*words, "-y")
            self.assertEqual((status, out, (room / "out.ivf").read_text()), (2, b"", "before"))
            self.assertIn(why, errors)


class CutLists(Case):
    """Lists of cuts as LosslessCut has them."""

    LIMIT = 60

    def test_lines(self):
        text = '\ufeff,56.9568,First segment\n70.5,842.2,"Second, quoted"\r\n\n1234,,Last\n 0:01:02.5 , 63 \n'
        path = self.folder() / "list.csv"
        path.write_text(text)
        self.assertEqual(
            cut_lists.read(path), [(None, "56.9568"), ("70.5", "842.2"), ("1234", None), ("0:01:02.5", "63")]
        )
        for text, why in (
            ("", "no line"),
            ("70.5", "line 1 has no `,`"),
            ("1,2\nsoon,3,x", "line 2: 'soon' is not a time"),
            ("-1,3", "line 1: '-1' is not a time"),
        ):
            with self.assertRaisesRegex(Failed, re.escape(why)):
                cut_lists.parts_of(text)

    def test_a_list_names_the_same_frames_when_it_is_read_again(self):
        choose = random.Random(5)
        for rate, scale in ((25, 1), (30000, 1001), (1000, 1), (90000, 1), (3, 1)):
            data, stamp, packets = packets_of(SMALL), 0, []
            for _ in range(3):
                for packet in data:
                    packets.append((stamp, packet))
                    stamp += choose.choice([1, 1, 1, 2, 7]) if rate < 1000 else choose.randrange(20, 60)
            path = self.folder() / "in.ivf"
            path.write_bytes(b"".join(ivf.pieces(ivf.Head(16, 16, rate, scale), len(packets), packets)))
            with self.session(path) as session:
                frames = exports.Frames(session.edits.contents())
                count = len(frames.shown[0])
                for delay in (0, 123_456_789):
                    with mock.patch.object(exports.Frames, "delay", return_value=delay):
                        runs = [
                            (choose.randint(1, count - first), 0, first)
                            for first in (choose.randrange(count) for _ in range(8))
                        ]
                        parts = cut_lists.parts_of(cut_lists.text_of(frames, runs))
                        found = [(frames.place(start, False), frames.place(end, True)) for start, end in parts]
                        self.assertEqual(
                            found, [(first, first + length) for length, _, first in runs], (rate, scale, delay)
                        )
                with self.assertRaisesRegex(Failed, "frames of source 1"):
                    cut_lists.text_of(frames, [(1, 0, 0), (1, 1, 0)])

    def test_a_cut_by_a_list(self):
        """Also of more parts than a script has."""
        room = self.folder()
        path, out, cuts = write_packets(room / "in.ivf", packets_of(SMALL), 25), room / "out.ivf", room / "list.csv"
        with self.session(path) as session:
            whole = [bytes(frame.i420()) for frame in session.frames()]
        for parts in ([(3, 5), (8, 11)], [(place % 10, place % 10 + 1 + place % 2) for place in range(19)]):
            cuts.write_text("".join(f"{first / 25},{end / 25},part\n" for first, end in parts))
            status, said, errors = wokureti("cut", path, out, "--cuts", cuts, "-y")
            self.assertEqual((status, errors), (0, ""))
            self.assertEqual(len(said.splitlines()), 1)
            with self.session(out) as session:
                self.assertEqual(
                    [bytes(frame.i420()) for frame in session.frames()],
                    [frame for first, end in parts for frame in whole[first:end]],
                )
        before = out.read_bytes()
        for words, why in (
            (("--cuts", cuts), "is there already: -y"),
            (("--cuts", cuts, "--from", "1", "-y"), "not both"),
            (("--cuts", room / "none.csv", "-y"), "none.csv"),
        ):
            status, said, errors = wokureti("cut", path, out, *words)
            self.assertEqual((status, said, why in errors, out.read_bytes()), (2, b"", True, before), errors)
        self.assertEqual(sorted(os.listdir(room)), ["in.ivf", "list.csv", "out.ivf"])


class Parts(progress.Watch):
    """What was heard of an export; it is stopped at a part."""

    def __init__(self, last=None):
        self.stages, self.parts, self.last = [], [], last

    def stage(self, text):
        self.stages.append(text)

    def part(self, done, total):
        self.parts.append((done, total))
        if len(self.parts) == self.last:
            raise Stopped


class HowFar(EndlessCase):
    """How far an export is, and what ends it."""

    LIMIT = 40

    def export(self, out, watch):
        with mock.patch.dict(os.environ, ENV), self.session(SMALL) as session:
            session.request("script trim 0 2 9")
            with mock.patch.object(exports, "PIECE", 300):
                return exports.export(
                    session.edits.contents(),
                    list(session.edits),
                    exports.Output(str(out), False, None, print, watch),
                    str(self.folder()),
                )

    def test_the_part_that_is_written(self):
        for name in ("out.ivf", "out.webm"):
            out, heard = self.folder() / name, Parts()
            told = self.export(out, heard)
            self.assertEqual(heard.stages, [f"writing {name}"])
            total = out.stat().st_size if name == "out.ivf" else told.bytes
            dones = [done for done, _ in heard.parts]
            self.assertEqual((dones[-1], dones, {one for _, one in heard.parts}), (total, sorted(set(dones)), {total}))
            self.assertGreater(len(dones), 2)

    def test_it_is_stopped_while_it_is_written(self):
        for name in ("out.ivf", "out.webm"):
            room = self.folder()
            (room / name).write_text("before")
            with self.assertRaises(Stopped):
                self.export(room / name, Parts(2))
            self.assertEqual((os.listdir(room), (room / name).read_text()), ([name], "before"))

    def test_it_is_interrupted(self):
        program, number = self.endless()
        room = self.folder()
        process = start(
            "cut",
            SMALL,
            room / "out.ivf",
            "--from",
            "f2",
            env={"VP8SERVE": str(program), "TMPDIR": str(room)},
            stdout=subprocess.PIPE,
            stderr=subprocess.PIPE,
        )
        pid = self.read(number)
        process.send_signal(signal.SIGINT)
        out, errors = process.communicate(timeout=10 * SLOW)
        self.assertEqual((process.returncode, out, errors), (130, b"", b""))
        self.assertGone(pid)
        self.assertEqual(os.listdir(room), [])

    def test_a_terminal_shows_it(self):
        """How long vp8serve takes, which does not say how far it is."""
        program, number = self.endless()
        ours, theirs = pty.openpty()
        process = start(
            "cut",
            SMALL,
            self.folder() / "out.ivf",
            "--from",
            "f2",
            env={"VP8SERVE": str(program)},
            stdout=subprocess.PIPE,
            stderr=theirs,
        )
        os.close(theirs)
        self.read(number)
        said = b""
        while not re.search(rb"exporting \d+ frames: \d+ s", said):
            said += os.read(ours, 1000)
        process.send_signal(signal.SIGINT)
        process.communicate(timeout=10 * SLOW)
        os.close(ours)

    def test_stages_have_per_cent(self):
        written = []
        with (
            mock.patch.object(progress.sys, "stderr") as stream,
            mock.patch.object(progress, "TICK", 0.01),
            mock.patch.object(progress, "SOON", 0),
        ):
            stream.isatty.return_value = True
            stream.write = written.append
            with progress.Stages() as stages:
                stages.stage("writing out.webm")
                stages.part(1, 3)
                limit = time.monotonic() + 10 * SLOW
                while not any("writing out.webm: 33 %, 0 s" in text for text in written):
                    self.assertLess(time.monotonic(), limit, written)
                    time.sleep(0.01)


class OnThePage(test_page.PageCase, EndlessCase):
    """The export of the page, and the file that it offers."""

    LIMIT = 60

    def setUp(self):
        super().setUp()
        patch = mock.patch.dict(os.environ, ENV)
        patch.start()
        self.addCleanup(patch.stop)

    def test_a_script_is_exported(self):
        self.serve(SMALL)
        self.assertIsNone(self.members("/session")["changing"])
        self.step("delete 11", "script trim 0 4 100")
        status, headers, body = self.ask("/file/export")
        self.assertEqual((status, headers["Content-Disposition"]), (200, 'attachment; filename="small-export.ivf"'))
        self.assertRegex(
            headers["X-Exported"], r"0:00:00\.\d+, 7 frames, in 11 packets, 4 of them hidden: .* of the file"
        )
        path = self.folder() / "out.ivf"
        path.write_bytes(body)
        with self.session(SMALL) as one, self.session(path) as other:
            self.assertEqual(
                [frame.i420() for frame in other.frames()], [one.frame(number).i420() for number in range(4, 11)]
            )

    def test_a_list_of_cuts(self):
        self.serve(SMALL)
        for script, parts in (
            ("trim 0 2 3; trim 0 7 2; splice 1 2", "parts 0 2 3 0 7 2"),
            ("trim 0 5 1", "parts 0 5 1"),
        ):
            self.step(f"script {script}")
            status, headers, body = self.ask("/file/cuts.csv")
            self.assertEqual(
                (status, headers["Content-Type"], headers["Content-Disposition"]),
                (200, "text/csv; charset=utf-8", 'attachment; filename="small-cuts.csv"'),
            )
            revision = self.live.revision
            status, _, answer = self.post_to("/task", kind="cuts", text=body.decode())
            self.assertEqual((status, json.loads(answer)["script"]), (200, parts))
            self.assertEqual(self.live.revision, revision)
        self.step("script -")
        self.assertEqual(self.ask("/file/cuts.csv")[2].decode().count("\n"), 1)
        for text in ("soon", "1000,2000", ""):
            self.assertEqual(self.post_to("/task", kind="cuts", text=text)[0], 409, text)
        self.assertEqual(self.post_to("/task", kind="cuts", text="0,0.01\n" * 9)[0], 200)
        self.assertEqual((self.post_to("/task", kind="cuts", text=3)[0], self.ask("/file/cuts.csv?x=1")[0]), (400, 400))

    def test_an_export_that_nobody_waits_for_ends(self):
        program, number = self.endless()
        with mock.patch.dict(os.environ, {"VP8SERVE": str(program)}):
            self.serve(SMALL)
        self.step("script trim 0 2 5")
        with socket.create_connection(("127.0.0.1", self.server.port), timeout=10 * SLOW) as sock:
            sock.sendall(self.head(f"GET /{TOKEN}/file/export?name=7 HTTP/1.1"))
            pid = self.read(number)
            [(name, found)] = self.members("/progress")["exports"].items()
            self.assertEqual(
                (name, found["what"], found["done"], found["total"]), ("7", "vp8serve makes the packets", None, None)
            )
            self.assertGreater(self.members("/progress")["exports"]["7"]["seconds"], -1)
            # Others are answered meanwhile.
            self.picture("/frames/0.y4m")
        self.assertGone(pid)
        limit = time.monotonic() + 10 * SLOW
        while self.members("/progress")["exports"]:
            self.assertLess(time.monotonic(), limit)
        self.assertEqual(list(pathlib.Path(self.live.room.name).glob("tmp*")), [])

    def test_the_part_of_an_export_that_is_written(self):
        self.serve(SMALL)
        self.step("script trim 0 2 9")
        real, seen = exports.watched, []

        def watched(pieces, size, total, watch):
            for piece in real(pieces, size, total, watch):
                seen.append(self.members("/progress")["exports"][""])
                yield piece

        with mock.patch.object(exports, "watched", watched), mock.patch.object(exports, "PIECE", 300):
            _, _, body = self.ask("/file/export")
        self.assertEqual(
            [(one["done"], one["total"]) for one in seen[:3]], [(None, None), (300, len(body)), (600, len(body))]
        )
        self.assertEqual({one["what"] for one in seen}, {"writing small-export.ivf"})
        self.assertEqual(self.members("/progress")["exports"], {})

    def test_what_cannot_be_exported(self):
        self.serve(SMALL)
        self.step("script trim 0 0 5; fade 1 0 5 0 256; splice 2 1")
        self.assertEqual(self.members("/session")["changing"], [2, "fade 1 0 5 0 256"])
        status, _, body = self.ask("/file/export")
        self.assertEqual(status, 409)
        self.assertRegex(json.loads(body)["error"], r"frame \d.*node \d")
        self.assertNotIn(self.live.room.name.encode(), body)
        self.assertEqual(list(pathlib.Path(self.live.room.name).glob("tmp*")), [])

    @needs_ffmpeg
    def test_how_far_a_stream_is_that_is_added(self):
        room = self.folder()
        one, other = room / "one.ivf", room / "other.webm"
        one.write_bytes(pathlib.Path(SMALL).read_bytes())
        other.write_bytes(clip("silent.webm").read_bytes())
        self.serve(str(one))
        real, heard = containers.read, []

        def read(path, out, watch):
            watch.part(300, 1000)
            heard.append(self.members("/progress")["opening"])
            return real(path, out, watch)

        # As with earlier programs, which read no WebM files.
        with (
            mock.patch.object(webm, "is_read", return_value=False),
            mock.patch.object(containers, "read_by_core", return_value=False),
            mock.patch.object(containers, "read", read),
        ):
            self.assertEqual(self.post_to("/streams", file=str(other), **{"as": "source"})[0], 200)
        self.assertEqual(
            [(found["what"], found["done"], found["total"]) for found in heard],
            [(f"taking the packets out of {other}", 300, 1000)],
        )
        self.assertIsNone(self.members("/progress")["opening"])

    @needs_ffmpeg
    def test_a_webm_file_stays_one(self):
        source = clip("talk.webm")
        room = self.folder()
        self.serve(convert.readable(source, str(room), is_quiet=True), stems=[str(room / "talk")])
        self.assertEqual(self.members("/session")["rate"], [25, 1])
        self.assertEqual(self.members("/session")["saves"][0]["next"], str(room / "talk-edited.webm"))
        self.step("delete 60")
        status, headers, body = self.ask("/file/packets")
        self.assertEqual((status, headers["Content-Type"], body[:4]), (200, "video/webm", b"\x1a\x45\xdf\xa3"))
        self.change("save")
        self.assertEqual((room / "talk-edited.webm").read_bytes(), body)
        self.assertEqual([saved["saved"] for saved in self.members("/session")["saves"]], [True])
        self.assertEqual(len(media(room / "talk-edited.webm", self.folder())[0].sounds), 1)

    @needs_ffmpeg
    def test_frames_have_the_times_of_their_blocks(self):
        room = self.folder()
        self.serve(convert.readable(clip("varied.webm"), str(room), is_quiet=True))
        self.assertTrue(self.members("/session")["varies"])
        stamps = [stamp for stamp, _ in ivf.read_packets(media(clip("varied.webm"), room)[1])[1]]
        self.assertEqual(self.task("times")["times"], [stamp - stamps[0] for stamp in stamps])
        self.step("script trim 0 0 2")
        self.assertFalse(self.members("/session")["varies"])
        self.step("script trim 0 2 30")
        self.assertEqual(self.task("times")["times"], [stamp - stamps[2] for stamp in stamps[2:32]])

    @needs_ffmpeg
    def test_the_sound_of_playback_is_that_of_the_frames(self):
        room = self.folder()
        self.serve(convert.readable(clip("talk.webm"), str(room), is_quiet=True), sources=[SMALL])
        before, packets = media(clip("talk.webm"), room)
        starts = [stamp for stamp, data in ivf.read_packets(packets)[1] if ivf.is_shown(data)]
        ours = sound_packets(before.sounds[0])
        self.assertTrue(self.members("/session")["sounds"])
        for script, first, count in (
            ("-", 0, 100),
            ("trim 0 33 40", 33, 40),
            ("trim 0 60 5; source 1; splice 1 2", 60, 5),
        ):
            self.step(f"script {script}")
            status, headers, body = self.ask("/file/sound.webm?revision=9")
            self.assertEqual((status, headers["Content-Type"], headers["Accept-Ranges"]), (200, "audio/webm", "bytes"))
            (room / "sound.webm").write_bytes(body)
            track = containers.read_sounds(room / "sound.webm", room / "sound.webm")[0]
            theirs = sound_packets(track)
            place = ours.index(theirs[0])
            length = min(len(theirs), 2 * count - 1)
            self.assertEqual(theirs[:length], ours[place : place + length], script)
            self.assertLessEqual(abs(before.sounds[0].times[place] / MS + 6.5 - starts[first]), 11.5)
            # As long as the frames, to a packet; SMALL has 12 frames and no sound.
            self.assertLessEqual(abs(20 * len(theirs) - 40 * count - (12 * 1000 / 30 if "source" in script else 0)), 40)
            for text, status, wanted in (
                ("bytes=0-99", 206, body[:100]),
                ("bytes=1000-", 206, body[1000:]),
                ("bytes=-7", 206, body[-7:]),
                (f"bytes={len(body)}-", 416, None),
            ):
                found = self.ask("/file/sound.webm", headers={"Range": text})
                self.assertEqual((found[0], found[2] if wanted is not None else None), (status, wanted), text)
        # The file before is gone.
        self.assertEqual([path.name for path in pathlib.Path(self.live.room.name).glob("sound*")], ["sound3.webm"])
        self.serve(SMALL)
        self.assertEqual((self.members("/session")["sounds"], self.ask("/file/sound.webm")[0]), (False, 404))

    def test_frames_of_a_rate_have_no_times(self):
        self.serve(SMALL)
        self.assertEqual((self.members("/session")["varies"], self.task("times")["times"]), (False, None))


class Scripts(Case):
    def test_the_node_that_changes_samples(self):
        cases = {
            "-": None,
            "trim 0 0 5; splice 0 1": None,
            "trim 0 0 5; fade 1 0 5 0 256": (2, "fade 1 0 5 0 256"),
            "crop 0 0 0 2 2; trim 0 0 5": None,
            "crop 0 0 0 2 2; trim 0 0 5; splice 1 2": (1, "crop 0 0 0 2 2"),
            "source 1; fade 1 0 1 0 0; fade 0 0 1 0 0; splice 3 2": (2, "fade 1 0 1 0 0"),
            # These change nothing.
            "fade 0 0 5 256 256; crop 1 0 0 7 5": None,
            "trim 0 0 3; fade 0 9 1 256 0; splice 2 1": (2, "fade 0 9 1 256 0"),
        }
        live = opened.Opened({"stream": SMALL, "sources": [SMALL]})
        self.addCleanup(live.close)
        for script, wanted in cases.items():
            live.run(f"script {script}")
            self.assertEqual(live.current_view().changing(), wanted, script)


@needs_ffmpeg
class WithSound(Case):
    LIMIT = 90

    def test_a_cut_at_any_frame(self):
        room, source = self.folder(), clip("talk.webm")
        status, out, errors = wokureti("cut", source, room / "out.webm", "--from", "0:01.32", "--to", "0:02.9")
        self.assertEqual(status, 0, errors)
        whole, found = frames(source), frames(room / "out.webm")
        self.assertEqual(found, whole[33:73])
        after, path = media(room / "out.webm", room)
        before, packets = media(source, room)
        stamps = [(stamp, ivf.is_shown(data)) for stamp, data in ivf.read_packets(path)[1]]
        # The hidden packets before the cut have the time of its first frame.
        self.assertEqual([stamp for stamp, is_shown in stamps if is_shown], [40 * turn for turn in range(40)])
        self.assertEqual({stamp for stamp, is_shown in stamps[: stamps.index((0, True))]}, {0})
        self.assertFalse(stamps[0][1])
        first_frame = [stamp for stamp, data in ivf.read_packets(packets)[1] if ivf.is_shown(data)][33]
        theirs, ours = sound_packets(after.sounds[0]), sound_packets(before.sounds[0])
        first = ours.index(theirs[0])
        self.assertEqual(theirs, ours[first : first + len(theirs)])
        self.assertLessEqual(abs(before.sounds[0].times[first] / MS + 6.5 - first_frame), 11)
        self.assertLessEqual(abs(20 * len(theirs) - 1600), 20 + 7)

    def test_times_are_those_of_a_player(self):
        """The picture begins half a second after the sound, with which the file begins: a frame is shown at the time
        stamp of its packet.
        """
        room, whole = self.folder(), frames(clip("late.webm"))
        found, path = media(clip("late.webm"), room)
        stamps = [stamp for stamp, data in ivf.read_packets(path)[1] if ivf.is_shown(data)]
        self.assertTrue(
            490 <= stamps[0] <= 540 and abs(found.sounds[0].times[0] / MS + 6.5) < 1,
            (stamps[0], found.sounds[0].times[0]),
        )
        for start, stop in ((0.95, 1.3), (0.2, 0.7), (3.3, 3.6)):
            first = max((place for place, stamp in enumerate(stamps) if stamp <= 1000 * start), default=0)
            end = next(place for place, stamp in enumerate(stamps) if stamp >= 1000 * stop)
            status, _, errors = wokureti(
                "cut", clip("late.webm"), room / f"{start}.webm", "--from", start, "--to", stop
            )
            self.assertEqual((status, frames(room / f"{start}.webm")), (0, whole[first:end]), errors)

    def test_parts_that_are_joined_keep_picture_and_sound_together(self):
        room, source = self.folder(), clip("talk.webm")
        parts = [(70, 80), (12, 31), (50, 51), (52, 60), (3, 9)]
        words = [word for start, stop in parts for word in ("--from", f"f{start}", "--to", f"f{stop}")]
        self.assertEqual(wokureti("cut", source, room / "out.webm", *words)[0], 0)
        whole = frames(source)
        self.assertEqual(frames(room / "out.webm"), [one for start, stop in parts for one in whole[start:stop]])
        before, packets = media(source, room)
        starts = [stamp for stamp, data in ivf.read_packets(packets)[1] if ivf.is_shown(data)]
        ours, theirs = (
            sound_packets(track) for track in (before.sounds[0], media(room / "out.webm", room)[0].sounds[0])
        )
        clock, time = 0, -6.5
        for start, stop in parts:
            end = clock + 40 * (stop - start)
            while theirs and time + 10 <= end:
                data = theirs.pop(0)
                there = before.sounds[0].times[ours.index(data)] / MS
                self.assertLessEqual(abs(there - (starts[start] + time - clock)), 11.5)
                time += opus.duration(data) / MS
            clock = end
        self.assertEqual(theirs, [])

    def test_two_recordings_are_joined(self):
        room = self.folder()
        self.assertEqual(wokureti("join", clip("talk.webm"), clip("late.webm"), room / "out.webm")[0], 0)
        self.assertEqual(frames(room / "out.webm"), frames(clip("talk.webm")) + frames(clip("late.webm")))
        found, path = media(room / "out.webm", room)
        self.assertEqual((found.rate, found.tags.get("title"), len(found.sounds)), ((25, 1), "A talk", 1))
        status, _, errors = wokureti(
            "join", clip("talk.webm"), clip("vorbis.webm"), room / "out.webm", "--sound", "copy", "-y"
        )
        self.assertEqual(status, 2)
        self.assertIn("sound track 0 cannot be copied: the recordings have sound of different codecs", errors)


del test_containers, test_page

if __name__ == "__main__":
    unittest.main()
