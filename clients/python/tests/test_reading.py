"""The line on a terminal while the programs, or the client, read a large file."""

import io
import os
import pty
import shlex
import subprocess
import sys
import threading
import time
import unittest
from unittest import mock

from support import SLOW, SMALL, TOP, Case, command, packets_of, start
from wokureti import system
from wokureti.base import programs, progress
from wokureti.session.inputs import Input

sys.path.append(str(TOP / "compare"))
from library.webm import webm  # noqa: E402

WIPED = "\r\x1b[K"


def on_terminal(*words, feed=None, **options):
    """What a command writes to standard error if that is a terminal, to standard output, and its status. `feed` runs
    meanwhile.
    """
    ours, theirs = pty.openpty()
    process = start(*words, stdout=subprocess.PIPE, stderr=theirs, **options)
    os.close(theirs)
    said, out = [], []
    threads = [
        threading.Thread(target=feed or (lambda: None)),
        threading.Thread(target=lambda: out.append(process.stdout.read())),
    ]
    for thread in threads:
        thread.start()
    try:
        while piece := os.read(ours, 1000):
            said.append(piece)
    except OSError:
        pass
    os.close(ours)
    for thread in threads:
        thread.join()
    process.stdout.close()
    return b"".join(said).decode(), out[0], process.wait(20 * SLOW)


class ReadingCase(Case):
    LIMIT = 60

    def setUp(self):
        super().setUp()
        self.room = self.folder()
        packets = packets_of(SMALL)
        self.path = self.room / "a clip.webm"
        self.path.write_bytes(webm(packets, [40 * place for place in range(len(packets))]))

    def slow(self, name):
        """The environment in which a program has its file half read for a while. It opens the file itself, as
        `/dev/fd/N` too.
        """
        program, half, seconds = self.room / name, self.path.stat().st_size // 2, 3 + SLOW / 10
        reads = f'exec 9< "$1"; head -c {half} <&9 > /dev/null; sleep {seconds}; exec 9<&-'
        program.write_text(
            f'#!/bin/sh\ncase "$1" in -*) ;; *) {reads} ;; esac\nexec {shlex.quote(str(programs.find(name)))} "$@"\n'
        )
        program.chmod(0o755)
        return {**os.environ, name.upper(): str(program)}

    def assertShown(self, said, pattern):
        self.assertRegex(said, pattern)
        self.assertTrue(WIPED in said[said.rindex("reading") :], f"the line is not wiped: {said!r}")


@unittest.skipUnless(os.path.isdir("/proc/self/fdinfo"), "this system does not say how far a program has read")
class Programs(ReadingCase):
    def test_the_list_of_a_file(self):
        wanted = command("list", self.path)[:2]
        said, out, status = on_terminal("list", self.path, env=self.slow("vp8list"))
        self.assertShown(said, r"\rreading .*/a clip\.webm: (49|50) %, \d+ s\x1b\[K")
        self.assertEqual((status, out), wanted)

    def test_a_session(self):
        out = self.room / "frame.png"
        said, _, status = on_terminal("png", self.path, "3", out, env=self.slow("vp8serve"))
        self.assertShown(said, r"\rreading .*/a clip\.webm: (49|50) %, \d+ s\x1b\[K")
        self.assertEqual((status, out.read_bytes()[:4]), (0, b"\x89PNG"))

    def test_the_places_of_packets(self):
        """vp8list is given the file that is open, and not its name."""
        out = self.room / "out.ivf"
        said, _, status = on_terminal("cut", self.path, out, "--from", "f2", "--to", "f6", env=self.slow("vp8list"))
        self.assertShown(said, r"\rreading .*/a clip\.webm: (49|50) %, \d+ s\x1b\[K")
        self.assertEqual((status, out.read_bytes()[:4]), (0, b"DKIF"))

    def test_a_name_that_a_terminal_obeys(self):
        self.path = self.path.rename(self.room / "a\x1b[7m\n.webm")
        said, _, _ = on_terminal("list", self.path, env=self.slow("vp8list"))
        self.assertShown(said, r"reading .*/a\\x1b\[7m\\n\.webm: \d+ %")

    def test_without_a_terminal(self):
        for words, name in (
            (("list", self.path), "vp8list"),
            (("png", self.path, "3", self.room / "frame.png"), "vp8serve"),
        ):
            self.assertEqual(command(*words, env=self.slow(name))[2], "", words)

    def test_a_session_of_somebodys_program_is_quiet(self):
        begin = f"import sys; sys.path.insert(0, {str(TOP / 'clients/python')!r}); from wokureti import Session"
        script = (
            f"{begin}\nwith Session({str(self.path)!r}, engine='program') as session: print(session.count().frames)"
        )
        ours, theirs = pty.openpty()
        done = subprocess.run(
            [sys.executable, "-c", script],
            stdout=subprocess.PIPE,
            stderr=theirs,
            env=self.slow("vp8serve"),
            timeout=20 * SLOW,
            check=True,
        )
        os.close(theirs)
        with self.assertRaises(OSError):
            self.fail(os.read(ours, 1000))
        os.close(ours)
        self.assertEqual(int(done.stdout), len(packets_of(SMALL)))

    def test_of_which_file(self):
        """Of two files the one that is read now; none once they are; what was given, and is not read, does not
        count.
        """
        other = self.room / "b.webm"
        other.write_bytes(bytes(1000))
        with open(self.path, "rb") as one, open(other, "rb") as two:
            ask = progress.of_program(os.getpid(), [("a", self.path), ("b", other)])
            size = self.path.stat().st_size
            os.lseek(one.fileno(), 10, os.SEEK_SET)
            self.assertEqual(ask(), ("a", 10, size))
            os.lseek(one.fileno(), 0, os.SEEK_END)
            os.lseek(two.fileno(), 700, os.SEEK_SET)
            self.assertEqual(ask(), ("b", 700, 1000))
            self.assertIsNone(progress.of_program(os.getpid(), [("a", self.path), ("b", other)], (two.fileno(),))())
            with mock.patch.object(system, "places_of", return_value=None):
                self.assertEqual(ask(), ("a", None, None))
        self.assertIsNone(ask())


class Pipes(ReadingCase):
    def test_a_pipe_that_comes_slowly(self):
        pipe = self.room / "pipe"
        os.mkfifo(pipe)
        data = self.path.read_bytes()

        def feed():
            with open(pipe, "wb", buffering=0) as file:
                file.write(data[:1000])
                time.sleep(3 + SLOW / 10)
                file.write(data[1000:])

        said, out, status = on_terminal("list", pipe, feed=feed)
        self.assertShown(said, r"\rreading .*/pipe: 0 MB, \d+ s\x1b\[K")
        self.assertEqual((status, out), command("list", self.path)[:2])


class Lines(Case):
    """Who has the line of the terminal."""

    def setUp(self):
        super().setUp()
        self.said = io.StringIO()
        for patch in (
            mock.patch.object(progress, "TICK", 0.01),
            mock.patch.object(progress, "SOON", 0),
            mock.patch.object(progress.Reading, "is_on", True),
            mock.patch.object(sys, "stderr", mock.Mock(wraps=self.said, isatty=lambda: True)),
        ):
            patch.start()
            self.addCleanup(patch.stop)

    def wait(self, text):
        limit = time.monotonic() + 10 * SLOW
        while text not in self.said.getvalue():
            self.assertLess(time.monotonic(), limit, self.said.getvalue())
            time.sleep(0.005)

    def test_the_library_reads_in_parts(self):
        item = Input(str(SMALL))
        self.addCleanup(item.close)
        size, real = SMALL.stat().st_size, item.bytes_at

        def slow(count, place):
            time.sleep(0.1)
            return real(count, place)

        with mock.patch("wokureti.session.inputs.PART", size // 4), mock.patch.object(item, "bytes_at", slow):
            self.assertEqual(item.whole(1 << 30), SMALL.read_bytes())
            self.assertEqual(item.whole(100), SMALL.read_bytes()[:100])
        self.assertRegex(self.said.getvalue(), r"\rreading .*small\.ivf: (24|25|49|50|74|75) %, 0 s\x1b\[K")
        self.assertTrue(self.said.getvalue().endswith(WIPED))

    def test_one_at_a_time(self):
        """What is read in a part of something is shown in its place."""
        with progress.Stages() as stages:
            stages.stage("opening")
            self.wait("opening")
            with progress.Reading(lambda: ("a.webm", 1, 2)):
                self.wait("reading a.webm: 50 %, 0 s")
                length = len(self.said.getvalue())
                time.sleep(0.1)
                self.assertNotIn("opening", self.said.getvalue()[length:])
            length = len(self.said.getvalue())
            time.sleep(0.1)
            self.assertIn("opening", self.said.getvalue()[length:])
            self.assertNotIn("a.webm", self.said.getvalue()[length:])
        self.assertTrue(self.said.getvalue().endswith(WIPED))

    def test_a_sentence_is_on_a_line_of_its_own(self):
        with progress.Reading(lambda: ("a.webm", 1, 2)):
            self.wait("a.webm")
            progress.say("the address is known")
        self.assertIn(f"{WIPED}wokureti: the address is known\n", self.said.getvalue())

    def test_nothing_is_read_any_more(self):
        """The program may write its own line now."""
        found = [("a.webm", 1, 2)]
        with progress.Reading(lambda: found[0]):
            self.wait("a.webm")
            found[0] = None
            self.wait(f"\x1b[K{WIPED}")
            length = len(self.said.getvalue())
            time.sleep(0.1)
            self.assertEqual(len(self.said.getvalue()), length)


if __name__ == "__main__":
    unittest.main()
