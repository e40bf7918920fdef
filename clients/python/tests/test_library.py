"""The engine in this process answers as the program does: the tests of sessions again, and what is its own."""

import gc
import os
import pathlib
import subprocess
import sys
import threading
import unittest
import unittest.mock

import test_session
from support import CLIP, DATA, ODD, SMALL, TOP, Case, packets_of, write_packets
from wokureti import Ended, NotVideo, Refused, Session
from wokureti.base import programs
from wokureti.session import library


@unittest.skipIf(library.find() is None, "libwokureti.so.0 is not built: ./build.py --library makes it")
class Library(Case):
    def session(self, stream=SMALL, **options):
        return super().session(stream, engine="library", **options)


class Requests(Library, test_session.Requests):
    pass


class Matched(Library, test_session.Matched):
    pass


class Alike(Library):
    def test_frames_and_replies_are_those_of_the_program(self):
        lines = [
            "delete 3",
            "hold 5",
            "blank 2 176 144",
            "move 1 4",
            "copy 0 2 7",
            "script trim 0 1 20",
            "replace 9 1100",
            "script -",
            "use 1",
        ]
        ours, its = self.session(), Case.session(self, SMALL)
        for line in lines:
            for number in (0, 7, 3):
                self.assertEqual(*(self.shown(session, number) for session in (ours, its)))
            self.assertEqual(*(self.replied(session, line) for session in (ours, its)))
        self.assertEqual(ours.header, its.header)
        self.assertEqual(ours.frame_size, its.frame_size)

    @staticmethod
    def shown(session, number):
        try:
            return session.frame(number).i420()
        except Refused as refused:
            return str(refused)

    @staticmethod
    def replied(session, line):
        try:
            return session.request(line)
        except Refused as refused:
            return str(refused)

    def test_a_frame_is_made_once(self):
        packets = packets_of(SMALL)
        packets[7] = b"\x11\x00"
        for path in (SMALL, ODD, write_packets(self.folder() / "broken.ivf", packets)):
            ours, its = self.session(path), Case.session(self, path, engine="program")
            engine, calls = ours._pipes.engine, []

            class Counted:
                def __getattr__(self, name, real=engine.library, calls=calls):
                    return lambda *given: calls.append(name) or getattr(real, name)(*given)

            ours.frame(0)
            its.frame(0)
            engine.library = Counted()
            again = 0
            for number in (3, 3, 5, 0, 11, 6, 7, 8, 11, 2, 99, 6):
                calls.clear()
                found = self.shown(ours, number)
                self.assertEqual(found, self.shown(its, number))
                self.assertEqual(
                    calls, ["wk_frame"] if isinstance(found, bytes) else ["wk_frame", "wk_request", "wk_text"]
                )
                # The packet that is refused is read again for the reply.
                again += "packet" in str(found)
            self.assertEqual(ours.decoded(), its.decoded() + again)

    def test_lines_that_ask_for_a_frame(self):
        ours, its = self.session(), Case.session(self, SMALL, engine="program")
        for line in (
            "frame 3",
            "  frame   3  ",
            "frame 003",
            "frame 3\r",
            "frame 18446744073709551615",
            "frame 18446744073709551616",
            "frame 18446744073709551619",
            "frame 000000000000000000003",
            "frame -1",
            "frame +1",
            "frame",
            "frame 1 2",
            "frame 1x",
        ):
            self.assertEqual(*(self.replied(session, line) for session in (ours, its)), line)
        self.assertEqual(*(session.pictures([0, 3, 3]) for session in (ours, its)))

    def test_a_frame_for_which_there_is_memory_only_the_second_time(self):
        session = self.session()
        session.frame(0)
        engine = session._pipes.engine
        refused = []

        class Short:
            def __getattr__(self, name, library=engine.library):
                if name == "wk_frame" and refused:
                    return lambda *given: refused.pop()
                return getattr(library, name)

        wanted = session.frame(5).i420()
        engine.library = Short()
        for status in (31, 3):
            refused.append(status)
            self.assertEqual((session.frame(5).i420(), refused), (wanted, []))
        refused += [3, 3]
        with self.assertRaisesRegex(Ended, "served 5, and then not"):
            session.frame(5)

    def test_a_frame_is_the_callers(self):
        session = self.session(CLIP)
        first, again = session.frame(0), session.frame(1)
        before = first.i420()
        session.frame(2)
        self.assertEqual(first.i420(), before)
        self.assertNotEqual(again.i420(), before)

    def test_the_file_of_the_packets(self):
        folder = self.folder()
        with Session(SMALL, engine="library", save=folder / "ours.ivf", pad=True) as session:
            session.hold(3)
        with Session(SMALL, save=folder / "its.ivf", pad=True) as session:
            session.hold(3)
        self.assertEqual((folder / "ours.ivf").read_bytes(), (folder / "its.ivf").read_bytes())

    def test_files_of_each_source_are_those_of_the_program(self):
        folder, rates = self.folder(), self.folder() / "rates.ivf"
        write_packets(rates, packets_of(SMALL), 24)
        ours, its = (
            Case.session(self, SMALL, sources=[ODD, rates], engine=engine) for engine in ("library", "program")
        )
        for session in (ours, its):
            for line in ("hold 3", "copy 2 4 1", "use 1", "delete 2", "blank 0 16 16", "use 2", "move 1 5", "hide 2"):
                session.request(line)
        for source in range(3):
            for pad in (False, True):
                for restamp in (False, True):
                    for name, session in (("ours", ours), ("its", its)):
                        session.save(folder / name, pad, source, restamp)
                    self.assertEqual(
                        (folder / "ours").read_bytes(), (folder / "its").read_bytes(), (source, pad, restamp)
                    )

    def test_a_limit_in_bytes_is_that_of_the_program(self):
        for path in (SMALL, ODD, CLIP):
            for size in (1, 1 << 20, 3 << 20, 9 << 20):
                ours, its = (
                    Case.session(self, path, engine=engine, cache_bytes=size) for engine in ("library", "program")
                )
                for session in (ours, its):
                    for number in (11, 3, 9, 0, 5):
                        session.frame(number)
                self.assertEqual(ours.decoded(), its.decoded(), (path, size))

    def test_reasons_are_those_of_the_program(self):
        ours, its = self.session(explain=True), Case.session(self, SMALL, explain=True)
        for line in (
            "delete 99999",
            "blank 0 0 16",
            "script trim 0",
            "frame 123456",
            "nonsense 1",
            "insert 0 0 zz",
            "use 3",
        ):
            found = []
            for session in (ours, its):
                session.request("frame 3")
                with self.assertRaises(Refused) as caught:
                    session.request(line)
                found.append((str(caught.exception), caught.exception.reason))
            self.assertEqual(*found)
            self.assertTrue(found[0][1])

    def test_the_example_of_the_readme(self):
        lines = (TOP / "README.md").read_text(encoding="utf-8").splitlines()
        start = lines.index("    from wokureti import Session")
        end = next(place for place in range(start + 2, len(lines)) if not lines[place])
        room = self.folder()
        (room / "examples").mkdir()
        (room / "examples/mandelbrot.ivf").write_bytes(CLIP.read_bytes())
        code = "\n".join([*(line[4:] for line in lines[start:end]), "print(session.engine)"])
        env = {**os.environ, "PYTHONPATH": str(TOP / "clients/python"), "WOKURETI_ENGINE": "library"}
        done = subprocess.run(
            [sys.executable, "-c", code], cwd=room, env=env, capture_output=True, text=True, timeout=60, check=False
        )
        self.assertEqual((done.returncode, done.stdout, done.stderr), (0, "320 180 30\nlibrary\n", ""))
        with Session(CLIP) as whole, Session(room / "cut.ivf") as cut:
            self.assertEqual([cut.picture(n) for n in range(30)], [whole.picture(n) for n in range(8, 38)])

    def test_what_is_asked_where_nothing_is_said(self):
        found = {}
        for name, variables, program in (
            ("nothing", {}, None),
            ("a program", {"VP8SERVE": programs.find("vp8serve")}, None),
            ("program=", {}, "x"),
            ("the variable", {"WOKURETI_ENGINE": "program"}, None),
        ):
            named = {key: value for key, value in os.environ.items() if key not in ("VP8SERVE", "WOKURETI_ENGINE")}
            with unittest.mock.patch.dict(os.environ, {**named, **variables}, clear=True):
                found[name] = library.engine_of(None, program)
        self.assertEqual(
            found, {"nothing": "library", "a program": "program", "program=": "program", "the variable": "program"}
        )
        # A library of another version is not taken.
        with unittest.mock.patch.object(library.versions, "version", return_value="0.1.0"), unittest.mock.patch.dict(
            os.environ, {"WOKURETI_ENGINE": "", "VP8SERVE": ""}
        ):
            self.assertEqual(library.engine_of(None, None), "program")

    def test_threads_with_a_small_stack(self):
        before = threading.stack_size(64 << 10)
        try:
            session = self.session()
            self.assertEqual(session.frame(3).i420(), Case.session(self, SMALL, engine="program").frame(3).i420())
            self.assertEqual(threading.stack_size(), 64 << 10)
        finally:
            threading.stack_size(before)

    def test_the_version(self):
        first, second, third = map(int, (TOP / "VERSION").read_text().split("."))
        self.assertEqual(library.load().wk_version(), 10000 * first + 100 * second + third)


class Broken(Library):
    def test_a_file_that_is_none(self):
        path = self.folder() / "none.ivf"
        path.write_bytes(b"no file of packets, but longer than a header\n")
        with self.assertRaisesRegex(NotVideo, "none.ivf is not a stream of VP8: it looks like a text"):
            Session(SMALL, sources=[path], engine="library")

    def test_tables_that_are_none(self):
        path = self.folder() / "tables"
        path.write_bytes(b"too short")
        with self.assertRaisesRegex(Ended, "3012"):
            Session(SMALL, tables=path, engine="library")

    def test_what_it_does_not_take(self):
        for options in ({"cache": 3, "cache_bytes": 1 << 20}, {"engine": "none"}):
            with self.assertRaises(ValueError):
                Session(SMALL, **{"engine": "library", **options})

    def test_after_close_and_kill(self):
        session = self.session()
        session.close()
        with self.assertRaises(Ended):
            session.frame(0)
        session = self.session()
        session.kill()
        with self.assertRaises(Ended):
            session.count()

    def test_a_library_that_is_none(self):
        path = self.folder() / "none.so"
        path.write_bytes(b"none")
        with unittest.mock.patch.dict(os.environ, LIBWOKURETI=str(path)), self.assertRaises(OSError):
            Session(SMALL, engine="library")

    def test_a_request_that_takes_too_long(self):
        session = self.session(CLIP)
        with self.assertRaises(Ended):
            session.pictures(range(48), timeout=1e-6)
        with self.assertRaises(Ended):
            session.count()

    def test_a_session_that_nobody_has_ends_its_thread(self):
        before = threading.active_count()
        for _ in range(20):
            Session(SMALL, engine="library").frame(0)
        for _ in range(200):
            gc.collect()
            if threading.active_count() <= before:
                break
            threading.Event().wait(0.02)
        self.assertLessEqual(threading.active_count(), before)

    def test_python_ends_with_a_session_open(self):
        code = f"from wokureti import Session\ns = Session({str(SMALL)!r}, engine='library')\nprint(s.count().frames)"
        done = subprocess.run(
            [sys.executable, "-c", code],
            cwd=TOP / "clients/python",
            capture_output=True,
            text=True,
            timeout=60,
            check=False,
        )
        self.assertEqual((done.returncode, done.stderr), (0, ""))

    def test_a_forked_child_has_no_session(self):
        session = self.session()
        child = os.fork()
        if child == 0:
            try:
                session.count()
            except Ended:
                os._exit(7)
            finally:
                os._exit(1)
        self.assertEqual(os.waitstatus_to_exitcode(os.waitpid(child, 0)[1]), 7)
        self.assertEqual(session.count().frames, session.count().frames)

    def test_many_sessions_on_many_threads(self):
        paths = sorted(DATA.glob("*.ivf"))[:8]
        found = {}

        def look(path):
            with Session(path, engine="library") as session:
                found[path] = session.frame(session.count().frames - 1).i420()

        threads = [threading.Thread(target=look, args=(path,)) for path in paths]
        for thread in threads:
            thread.start()
        for thread in threads:
            thread.join()
        for path in paths:
            with Session(path) as session:
                self.assertEqual(found[path], session.frame(session.count().frames - 1).i420(), pathlib.Path(path).name)


if __name__ == "__main__":
    unittest.main()
