"""wokureti cat: the text of one vp8serve, whatever the parts are, and nothing lost when something fails."""

import errno
import os
import pathlib
import pty
import shutil
import signal
import subprocess
import sys
import tempfile
import threading
import time
import unittest
import urllib.request
from unittest import mock

from support import (
    DATA,
    ODD,
    SLOW,
    SMALL,
    Case,
    command,
    packets_of,
    start,
    start_python,
    start_unwaking,
    whole_text,
    write_packets,
)
from wokureti import Session, commands, system
from wokureti.errors import Failed
from wokureti.base import programs, rooms
from wokureti.media import webm
from wokureti.tools import cat, machines, parts

SCENES = DATA / "scene-cuts.ivf"
HIDDEN = DATA / "hidden-altref.ivf"
BROKEN = b"\x10\x00"


def program_that(folder, text):
    """A script in place of vp8serve, which is `$real` in it."""
    path = folder / "program"
    path.write_text(f"#!/bin/sh\nreal='{programs.find('vp8serve')}'\n{text}\n")
    path.chmod(0o755)
    return {"VP8SERVE": str(path)}


class Texts(Case):
    def assertWhole(self, stream, status=0, lines=(), sources=(), words=()):
        wanted = whole_text(stream, *lines, sources=sources)
        # What a session calls an empty stream is standard input for the command.
        stream = "/dev/null" if stream == "-" else stream
        for jobs in (1, 3):
            found, text, errors = command("cat", stream, "--jobs", jobs, *words)
            other = [line for line in errors.splitlines() if "the rate of the frames varies" not in line]
            self.assertEqual((found, text == wanted, bool(other)), (status, True, status != 0), errors)
        return errors

    def test_clips(self):
        for name in ("scene-cuts", "hidden-altref", "still", "one-sample", "two-partitions"):
            self.assertWhole(DATA / f"{name}.ivf")

    def test_sizes_that_change(self):
        small, other, still = packets_of(SMALL), packets_of(ODD)[:2], packets_of(DATA / "sharpness-1.ivf")[:1]
        path = self.folder() / "a.ivf"
        for packets in (
            small + other + small + still + small,
            other + small,
            small[1:3] + [BROKEN] + other + small + other,
            [BROKEN] + small + other + small[1:] + small,
        ):
            write_packets(path, packets)
            self.assertIn("refused", self.assertWhole(path, 1))

    def test_broken_packets_keep_their_numbers(self):
        small = packets_of(SMALL)
        path = write_packets(self.folder() / "a.ivf", small + small[:4] + [BROKEN] + small[5:] + small + small)
        errors = self.assertWhole(path, 1)
        self.assertIn("wokureti: frame 16: refused packet 16 ShortPacket\n", errors)
        self.assertEqual(len(errors.splitlines()), 8)

    def test_nothing_to_show(self):
        self.assertWhole("-")
        path = write_packets(self.folder() / "a.ivf", packets_of(SMALL)[1:])
        errors = self.assertWhole(path, 1)
        self.assertIn("frames 0 to 10: refused packet 0 NoKeyFrame", errors)

    def test_edits_scripts_and_sources(self):
        edits = self.folder() / "list"
        lines = ["delete 3", "hold 2", "use 1", "delete 0", "delete 0"]
        edits.write_text("".join(f"{line}\n" for line in ["# edits", *lines]))
        script = "script trim 0 3 9; source 1; splice 1 0; fade 3 0 9 0 256"
        words = ["--edits", edits, "--source", SCENES]
        self.assertWhole(SCENES, lines=lines, sources=[SCENES], words=words)
        self.assertWhole(SCENES, lines=[*lines, script], sources=[SCENES], words=[*words, "--script", script[7:]])
        self.assertEqual(edits.read_text(), "".join(f"{line}\n" for line in ["# edits", *lines]))

    def test_a_script_that_refuses(self):
        script = "source 1; splice 0 1"
        self.assertWhole(
            SMALL, 1, lines=[f"script {script}"], sources=[ODD], words=["--source", ODD, "--script", script]
        )

    def test_edits_of_another_stream(self):
        edits = self.folder() / "list"
        edits.write_text("delete 99\n")
        status, text, errors = command("cat", SMALL, "--edits", edits)
        self.assertEqual((status, text), (2, b""))
        self.assertIn("line 1: delete 99: refused Place", errors)
        status, text, errors = command("cat", SMALL, "--script", "trim 5 0 1")
        self.assertEqual((status, text), (2, b""))
        self.assertIn("refused Reference", errors)


class Paths(Case):
    LIMIT = 60

    def setUp(self):
        super().setUp()
        self.room = self.folder() / "a folder of 'clips' $x"
        self.room.mkdir()
        self.clip = self.room / "in of é.ivf"
        self.clip.write_bytes(SCENES.read_bytes())
        self.wanted = whole_text(SCENES)

    def test_spaces_and_relative_paths(self):
        (self.room / "tmp of it").mkdir()
        env = {"TMPDIR": str(self.room / "tmp of it")}
        self.assertEqual(command("cat", "in of é.ivf", "out of it.y4m", cwd=self.room, env=env), (0, b"", ""))
        self.assertEqual((self.room / "out of it.y4m").read_bytes(), self.wanted)
        self.assertEqual(os.listdir(self.room / "tmp of it"), [])
        (self.room / "-x.ivf").write_bytes(SCENES.read_bytes())
        self.assertEqual(command("cat", "--", "-x.ivf", "-y.y4m", cwd=self.room), (0, b"", ""))
        self.assertEqual((self.room / "-y.y4m").read_bytes(), self.wanted)

    def test_the_output_is_no_input(self):
        os.link(self.clip, self.room / "b.ivf")
        os.symlink(self.clip, self.room / "c.ivf")
        (self.room / "list").write_text("delete 0\n")
        for out in ("in of é.ivf", "./in of é.ivf", "b.ivf", "c.ivf"):
            for words in (["in of é.ivf", out], ["b.ivf", out], [SMALL, out, "--source", "in of é.ivf"]):
                status, text, errors = command("cat", *words, cwd=self.room)
                self.assertEqual((status, text), (2, b""))
                self.assertIn("name another file", errors)
        self.assertEqual(command("cat", SMALL, "list", "--edits", "list", cwd=self.room)[0], 2)
        with open(self.clip, "ab") as file:
            process = start("cat", self.clip, stdout=file, stderr=subprocess.DEVNULL)
            self.assertEqual(process.wait(20 * SLOW), 2)
        self.assertEqual(self.clip.read_bytes(), SCENES.read_bytes())
        self.assertEqual((self.room / "list").read_text(), "delete 0\n")

    def test_pipes_and_links(self):
        out = self.room / "pipe"
        os.mkfifo(out)
        found = []
        reader = threading.Thread(target=lambda: found.append(out.read_bytes()))
        reader.start()
        self.assertEqual(command("cat", self.clip, out), (0, b"", ""))
        reader.join()
        self.assertEqual(found, [self.wanted])
        os.symlink("target", self.room / "link")
        self.assertEqual(command("cat", self.clip, self.room / "link"), (0, b"", ""))
        self.assertTrue((self.room / "link").is_symlink())
        self.assertEqual((self.room / "target").read_bytes(), self.wanted)
        self.assertEqual(command("cat", self.clip, "/dev/null"), (0, b"", ""))
        for name in ("/dev/stdin", "-"):
            self.assertEqual(command("cat", name, given=SCENES.read_bytes()), (0, self.wanted, ""))
            with open(SCENES, "rb") as file:
                process = start("cat", name, stdin=file, stdout=subprocess.PIPE)
                self.assertEqual((process.communicate(timeout=20 * SLOW)[0], process.returncode), (self.wanted, 0))
        self.assertEqual(command("cat", "/dev/null"), (0, b"", ""))
        # The other commands too.
        png = command("png", SCENES, 3, "-")
        self.assertEqual(
            (command("png", "-", 3, "-", given=SCENES.read_bytes()), png[0], png[1][:4]), (png, 0, b"\x89PNG")
        )
        self.assertEqual(command("repair", "-", self.room / "mended.ivf", given=SCENES.read_bytes())[::2], (0, ""))
        self.assertEqual((self.room / "mended.ivf").read_bytes(), SCENES.read_bytes())
        with open(SCENES, "rb") as file:
            self.assertEqual(
                start("repair", "-", self.room / "mended.ivf", "-y", stdin=file, stdout=subprocess.DEVNULL).wait(
                    20 * SLOW
                ),
                0,
            )
        self.assertEqual(command("compare", "-", SCENES, given=SCENES.read_bytes())[0], 0)

    def test_standard_input_of_each_command(self):
        data, wanted = SCENES.read_bytes(), packets_of(SCENES)
        key = next(place for place, packet in enumerate(wanted) if place and not packet[0] & 1)
        status, _, errors = command("cut", "-", self.room / "cut.ivf", "--from", 0, "--to", f"f{key}", given=data)
        self.assertEqual((status, packets_of(self.room / "cut.ivf") if not status else errors), (0, wanted[:key]))
        status, _, errors = command("join", "-", self.clip, self.room / "joined.ivf", given=data)
        self.assertEqual((status, packets_of(self.room / "joined.ivf") if not status else errors), (0, 2 * wanted))
        status, _, errors = command(
            "export", "-", self.room / "exported.ivf", "--script", f"trim 0 0 {key}", given=data
        )
        self.assertEqual((status, packets_of(self.room / "exported.ivf") if not status else errors), (0, wanted[:key]))
        for words in (["serve"], ["open", "--no-browser", "--edits", self.room / "list"]):
            process = start(
                words[0], "-", *words[1:], stdin=subprocess.PIPE, stdout=subprocess.PIPE, stderr=subprocess.PIPE
            )
            self.addCleanup(process.kill)
            process.stdin.write(data)
            process.stdin.close()
            address = process.stdout.readline().decode().strip()
            address = address if words[0] == "serve" else address.replace("page/", "clip.y4m")
            with urllib.request.urlopen(address, timeout=20 * SLOW) as answer:
                self.assertEqual(answer.read(), self.wanted, words)
            process.send_signal(signal.SIGINT)
            self.assertEqual(process.wait(10 * SLOW), 0)
            process.stdout.close()
            process.stderr.close()

    def test_a_name_that_a_terminal_obeys(self):
        for words in (["a\x1b[31m\x07.ivf"], [self.clip, "a\x1b[31m\x07/out.y4m"]):
            status, _, errors = command("cat", *words, cwd=self.room)
            self.assertEqual((status, "\x1b" in errors, "\x07" in errors), (2, False, False))
        self.assertIn("a\\x1b[31m\\x07/", errors)

    def test_a_folder_that_is_not_there(self):
        status, _, errors = command("cat", self.clip, self.room / "none" / "out.y4m")
        self.assertEqual((status, "No such file" in errors), (2, True))
        status, _, errors = command("cat", self.room / "none.ivf", self.room / "out.y4m")
        self.assertEqual((status, f"{self.room / 'none.ivf'}: No such file" in errors), (2, True))
        self.assertEqual(sorted(os.listdir(self.room)), ["in of é.ivf"])


@unittest.skipUnless(shutil.which("ffmpeg"), "ffmpeg is not there")
class Containers(Case):
    def setUp(self):
        super().setUp()
        self.room = self.folder()
        self.webm = self.room / "a.webm"
        subprocess.run(
            ["ffmpeg", "-nostdin", "-v", "error", "-i", SCENES, "-c", "copy", self.webm], check=True, timeout=20 * SLOW
        )
        self.packets = packets_of(SCENES)

    def test_each_command_reads_them(self):
        # Earlier programs read no WebM files.
        is_copied = not webm.is_read(self.webm)
        status, text, errors = command("cat", self.webm)
        self.assertEqual(
            (
                status,
                b"".join(text.split(b"\n", 1)[1:]) == whole_text(SCENES).split(b"\n", 1)[1],
                "took its packets out" in errors,
            ),
            (0, True, is_copied),
        )
        status, piped, errors = command("cat", "-", given=self.webm.read_bytes())
        self.assertEqual((status, piped == text, "standard input is a WebM" in errors), (0, True, is_copied))
        self.assertEqual(command("compare", "-", SCENES, given=self.webm.read_bytes())[0], 0)
        status, _, _ = command("repair", "-", self.room / "out.ivf", given=self.webm.read_bytes())
        self.assertEqual((status, packets_of(self.room / "out.ivf")), (0, self.packets))
        # The header counts the packets.
        self.assertEqual(int.from_bytes((self.room / "out.ivf").read_bytes()[24:28], "little"), len(self.packets))
        done = subprocess.run(
            [programs.find("vp8list"), self.room / "out.ivf", "--check"], capture_output=True, text=True, check=False
        )
        self.assertNotIn("note: header: 1", done.stdout)
        self.assertNotIn("frames, 16 packets", done.stdout)

    def test_a_session_reads_them(self):
        with self.session(self.webm, sources=[self.webm]) as stream:
            self.assertEqual([stream.packet(n) for n in range(len(self.packets))], self.packets)
            stream.copy(1, 3, 0)
            self.assertEqual(stream.packet(0), self.packets[3])
            stream.save(self.room / "saved.ivf")
            with self.assertRaisesRegex(ValueError, "a file of the session"):
                stream.save(self.webm)
        self.assertEqual(packets_of(self.room / "saved.ivf"), [self.packets[3], *self.packets])
        # There is no folder with the packets, or with earlier programs it is gone.
        self.assertFalse(stream._inputs.room is not None and os.path.exists(stream._inputs.room.name))


class Bounded(Case):
    def test_the_folder_for_temporary_files_has_a_few_parts(self):
        room = self.folder()
        path = write_packets(room / "in.ivf", 16 * packets_of(SMALL))
        wanted = whole_text(path)
        header = wanted.index(b"\n") + 1
        size = (len(wanted) - header) // 192
        real, most, sizes = cat.run_part, [], []

        def size_of(path):
            # A part that was joined meanwhile is gone.
            try:
                return os.path.getsize(path)
            except FileNotFoundError:
                return 0

        def run_part(folder, number, *more):
            real(folder, number, *more)
            most.append(sum(size_of(entry.path) for entry in os.scandir(folder.folder) if entry.name.endswith(".y4m")))
            sizes.append(size_of(folder.path(number, "y4m")))

        for script in ((), ("--script", "trim 0 0 500")):
            with (
                mock.patch.object(cat, "run_part", run_part),
                mock.patch.object(cat, "MOST_HELD", 30 * size),
                mock.patch.object(parts, "MOST_PART", 12 * size),
            ):
                self.assertEqual(
                    commands.main(["cat", str(path), str(room / "out.y4m"), "-y", "--jobs", "4", *script]), 0
                )
            self.assertEqual((room / "out.y4m").read_bytes(), wanted)
        # A part has 12 frames, and the one that leads, and two of them are there at a time; one more is being joined.
        self.assertLessEqual(max(sizes), header + 13 * size)
        self.assertGreater(max(sizes), 0)
        self.assertLessEqual(max(most), 3 * (header + 13 * size))
        self.assertGreaterEqual(len(sizes), 2 * 16)

    def test_a_full_folder_is_named(self):
        room = self.folder()
        (room / "it").mkdir()
        self.assertEqual(cat.if_full(str(room / "it")), "")
        with mock.patch.object(cat, "LEAST_FREE", 1 << 62):
            self.assertEqual(
                cat.if_full(str(room / "it")),
                f". The folder for temporary files, {room}, is full: name another one in the variable TMPDIR",
            )


class Failures(Case):
    def setUp(self):
        super().setUp()
        self.room = self.folder()
        self.out = self.room / "out.y4m"
        self.out.write_bytes(b"old")
        self.many = write_packets(self.room / "in.ivf", 8 * packets_of(SMALL))

    def assertFails(self, env, words=()):
        with self.within(10):
            status, text, errors = command("cat", self.many, self.out, "-y", "--jobs", 2, *words, env=env)
        self.assertEqual((status, text, self.out.read_bytes()), (2, b"", b"old"), errors)
        self.assertEqual([name for name in os.listdir(self.room) if name.startswith(".")], [])
        return errors

    def test_a_part_that_fails(self):
        env = program_that(
            self.room, 'case "$2" in */2.list) echo "vp8serve: no memory" >&2; exit 1;; esac\nexec "$real" "$@"'
        )
        self.assertIn("part 2: vp8serve: no memory", self.assertFails(env))

    def test_a_part_that_is_killed(self):
        env = program_that(self.room, 'case "$2" in */1.list) kill -9 $$;; esac\nexec "$real" "$@"')
        self.assertIn("part 1: vp8serve ended with status -9", self.assertFails(env))

    def test_a_part_that_is_too_short(self):
        env = program_that(self.room, '"$real" "$@" || exit; case "$2" in */1.list) truncate -s -1 "$3";; esac')
        self.assertIn("part 1 has", self.assertFails(env))

    def test_no_program(self):
        errors = self.assertFails({"VP8SERVE": "/nowhere/vp8serve"})
        self.assertEqual(
            errors, "wokureti: there is no /nowhere/vp8serve: install it, or name it in the variable VP8SERVE\n"
        )

    def test_a_full_disk(self):
        limit = ["sh", "-c", 'ulimit -f 8; exec "$@"', "sh"]
        env = dict(os.environ, PYTHONPATH=str(programs.TREE / "clients/python"))
        words = ["python3", "-m", "wokureti", "cat", str(self.many), str(self.out), "-y"]
        done = subprocess.run(limit + words, env=env, capture_output=True, timeout=20 * SLOW, check=False)
        self.assertEqual((done.returncode, self.out.read_bytes()), (2, b"old"), done.stderr)
        self.assertEqual(sorted(os.listdir(self.room)), ["in.ivf", "out.y4m"])

    def test_a_reader_that_goes_away(self):
        env = program_that(self.room, 'echo $$ >> "$PIDS"; exec "$real" "$@"')
        pids = self.room / "pids"
        process = start(
            "cat", SCENES, "--jobs", 2, stdout=subprocess.PIPE, stderr=subprocess.PIPE, env={**env, "PIDS": str(pids)}
        )
        process.stdout.read(10)
        process.stdout.close()
        with self.within(5):
            self.assertEqual(process.wait(10 * SLOW), 2)
        self.assertEqual(process.stderr.read(), b"")
        process.stderr.close()
        for pid in pids.read_text().split():
            self.assertGone(int(pid))

    def interrupt(self, start, interrupt):
        """Starts cat, and interrupts it while a part is decoded."""
        env = program_that(self.room, 'echo $$ >> "$PIDS"; case "$2" in */1.list) sleep 30;; esac; exec "$real" "$@"')
        pids = self.room / "pids"
        env["PIDS"], env["TMPDIR"] = str(pids), str(self.room / "tmp")
        (self.room / "tmp").mkdir()
        process = start("cat", SCENES, self.out, "-y", "--jobs", 2, stderr=subprocess.PIPE, env=env)
        self.addCleanup(process.kill)
        while not pids.exists() or len(pids.read_text().split()) < 3:
            time.sleep(0.02)
        with self.within(5):
            interrupt(process)
            self.assertEqual(process.wait(10 * SLOW), 130)
        self.assertEqual(
            (process.stderr.read(), self.out.read_bytes(), os.listdir(self.room / "tmp")), (b"", b"old", [])
        )
        process.stderr.close()

    def test_an_interrupt_while_a_part_begins(self):
        begins, start_program = threading.Event(), subprocess.Popen
        room = mock.Mock(
            **{
                "first.size": 1,
                "words.return_value": ["sleep", "30"],
                "path": lambda number, name: self.room / f"{number}.{name}",
            }
        )
        here = cat.Here(room, [mock.Mock(first=0, end=1)], 1, None)

        def slowly(*words, **channels):
            begins.set()
            time.sleep(0.2)
            return start_program(*words, **channels)

        def interrupted(*_):
            here.ready.release()
            begins.wait(10 * SLOW)
            here.ready.acquire()
            raise KeyboardInterrupt

        with (
            self.within(5),
            mock.patch.object(cat.subprocess, "Popen", slowly),
            mock.patch.object(here.ready, "wait", interrupted),
            self.assertRaises(KeyboardInterrupt),
        ):
            list(here)
        with self.assertRaises(Failed), here.started(["sleep", "30"], None, None):
            pass

    def test_an_interrupt(self):
        self.interrupt(start, lambda process: process.send_signal(signal.SIGINT))

    def test_an_interrupt_right_before_the_main_thread_waits(self):
        def interrupt(process):
            # Meanwhile the main thread begins to wait.
            time.sleep(0.5 * SLOW)
            process.stdin.write(b"\n")
            process.stdin.close()

        self.interrupt(start_unwaking, interrupt)


class Machines(Case):
    def test_machines_are_asked_first(self):
        room = self.folder()
        ssh = room / "ssh"
        # What a machine answers is in its name.
        ssh.write_text(
            '#!/bin/sh\ncase "$1" in none) echo "ssh: no such host" >&2; exit 255;; rsync) exit 3;; program) exit 4;;'
            " slow) exec sleep 60;; esac\n"
        )
        ssh.chmod(0o755)
        names = ["none", "4/rsync", "2/program", "slow"]
        with (
            mock.patch.dict(os.environ, {"PARALLEL_SSH": str(ssh)}),
            mock.patch.object(machines, "MOST_ASK", 0.5),
            mock.patch("sys.stderr") as said,
            self.within(5),
        ):
            with self.assertRaisesRegex(Failed, "no machine"):
                machines.able(names, "vp8serve")
            self.assertEqual(machines.able([":", "8/good", *names], "vp8serve"), [":", "8/good"])
        text = "".join(call.args[0] for call in said.write.call_args_list)
        for sentence in (
            "none cannot be reached: ssh: no such host",
            "rsync has no rsync",
            "program has no vp8serve: install it there",
            "slow does not answer in 0.5 seconds",
        ):
            self.assertIn(f"wokureti: {sentence}", text)

    def test_what_counts_is_the_file(self):
        """A machine that dies may leave a status of 0 in parallel's log, and no file: another one decodes its part."""
        room = self.folder()
        for name in ("ssh", "rsync"):
            (room / name).write_text("#!/bin/sh\n")
        # parallel with one process: parts 1 and 2 are lost by the machine `dead`, each once it is there.
        (room / "parallel").write_text(
            f"""#!{sys.executable}
import subprocess, sys
words = sys.argv[1:]
logins = [words[place + 1] for place, word in enumerate(words) if word == "--sshlogin"]
with open(words[words.index("--joblog") + 1], "w") as log:
    log.write("head\\n")
    for place, number in enumerate(sys.stdin.read().split(), 1):
        host = logins[0].rpartition("/")[2]
        subprocess.run(["sh", "-c", words[-1].replace("{{}}", number)], check=True)
        if host == "dead" and number in "12":
            subprocess.run(["rm", f"{{number}}.replies", *([f"{{number}}.y4m"] if number == "2" else [])], check=True)
        log.write(f"{{place}}\\t{{host}}\\t0\\t0\\t0\\t0\\t0\\t0\\tcommand\\n")
        log.flush()
"""
        )
        for name in ("ssh", "rsync", "parallel"):
            (room / name).chmod(0o755)
        env = {
            "PATH": f"{room}:{os.environ['PATH']}",
            "PARALLEL_SSH": str(room / "ssh"),
            "VP8SERVE": programs.find("vp8serve"),
        }
        many = write_packets(room / "in.ivf", 6 * packets_of(SMALL))
        words = ["cat", many, "--remote", programs.find("vp8serve")]
        status, out, errors = command(*words, "--sshlogin", "2/dead,good", env=env)
        self.assertEqual((status, out == whole_text(many)), (0, True), errors)
        self.assertEqual(
            errors,
            "".join(f"wokureti: part {number} did not come back from dead: it is decoded again\n" for number in (1, 2)),
        )
        status, _, errors = command(*words, "--sshlogin", "2/dead", env=env)
        self.assertEqual((status, errors), (2, "wokureti: part 1 did not come back from dead\n"))


class Rooms(Case):
    """Folders for temporary files that a program left, and those of programs that run."""

    def sweep(self, room, **env):
        code = "import tempfile\nfrom wokureti.base import rooms\nrooms.sweep()"
        process = start_python("-c", code, env={"TMPDIR": str(room), **env})
        self.assertEqual(process.wait(20 * SLOW), 0)

    def test_a_folder_that_is_written_into_until_the_end_is_removed(self):
        """A program that is being ended may make a file while the folder is removed: no error hides the one that the
        run ended with.
        """
        tries, remove = [], shutil.rmtree

        def full(path, *words, **more):
            tries.append(path)
            if len(tries) < 3:
                raise OSError(errno.ENOTEMPTY, os.strerror(errno.ENOTEMPTY), path)
            return remove(path, *words, **more)

        room = rooms.Room(str(self.folder()))
        with mock.patch.object(shutil, "rmtree", full):
            room.cleanup()
        self.assertEqual((len(tries), os.path.exists(room.name)), (3, False))

    def test_only_a_folder_whose_program_is_gone_is_removed(self):
        room = self.folder()
        code = (
            "import sys\nfrom wokureti.base import rooms\nroom = rooms.Room()\nprint(room.name,"
            " flush=True)\nsys.stdin.read()"
        )
        process = start_python("-c", code, env={"TMPDIR": str(room)}, stdin=subprocess.PIPE, stdout=subprocess.PIPE)
        name = pathlib.Path(process.stdout.readline().decode().strip())
        # Where locks are not made, as on some file systems, each program finds the lock free.
        with open(name / ".lock", "rb") as file:
            text = file.read()
        self.sweep(room)
        self.assertTrue(name.is_dir())
        copy = room / "wokureti-copy"
        copy.mkdir()
        (copy / ".lock").write_bytes(text)
        self.sweep(room)
        self.assertTrue(copy.is_dir(), "its program runs, although nobody has the lock")
        process.kill()
        process.wait()
        process.stdin.close()
        process.stdout.close()
        # Those of another machine, or of a version that did not say whose it is, may be used.
        other, old = room / "wokureti-other", room / "wokureti-old"
        for folder, data in ((other, text.replace(text.split(b"\n")[0], b"another start")), (old, b"")):
            folder.mkdir()
            (folder / ".lock").write_bytes(data)
        self.sweep(room)
        self.assertEqual(sorted(path.name for path in room.iterdir()), ["wokureti-old", "wokureti-other"])

    def test_a_system_without_locks(self):
        room = self.folder()
        with mock.patch.object(system, "lock", side_effect=OSError(38, "Function not implemented")), mock.patch.object(
            tempfile, "tempdir", str(room)
        ):
            with rooms.Room() as folder:
                rooms.sweep()
                self.assertTrue(os.path.isdir(folder))
        self.assertEqual(os.listdir(room), [])


class Progress(Case):
    def test_a_line_on_a_terminal(self):
        room = self.folder()
        env = program_that(room, 'case "$2" in */[1-9].list) sleep 0.6;; esac; exec "$real" "$@"')
        many = write_packets(room / "in.ivf", 4 * packets_of(SMALL))
        ours, theirs = pty.openpty()
        process = start("cat", many, "/dev/null", "--jobs", 1, stderr=theirs, env=env)
        os.close(theirs)
        said = b""
        try:
            while True:
                piece = os.read(ours, 1000)
                if not piece:
                    break
                said += piece
        except OSError:
            pass
        os.close(ours)
        self.assertEqual(process.wait(10 * SLOW), 0)
        self.assertRegex(said.decode(), r"\r\d+ of 48 frames")
        self.assertTrue(said.endswith(b"\r\x1b[K"))


if __name__ == "__main__":
    unittest.main()
