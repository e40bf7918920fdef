"""The files of a mounted stream, and the folder itself where FUSE is here."""

import contextlib
import errno
import importlib.util
import json
import os
import random
import signal
import struct
import subprocess
import sys
import threading
import time
import unittest
import zlib
from unittest import mock

from support import (
    DATA,
    SLOW,
    SMALL,
    Case,
    children_of,
    command,
    crash,
    packets_of,
    serve,
    start,
    whole_text,
    write_packets,
)
from wokureti.errors import Changed, Unreadable
from wokureti.media import ivf, png
from wokureti.server import folders, mount
from wokureti.page.opened import Opened

SCENES = DATA / "scene-cuts.ivf"


def can_mount(*modules):
    """Why no folder can be mounted here by one of these modules, or None."""
    if not any(importlib.util.find_spec(module) for module in modules):
        return f"{' and '.join(modules)} are not here" if len(modules) > 1 else f"{modules[0]} is not here"
    return None if os.access("/dev/fuse", os.R_OK | os.W_OK) else "/dev/fuse cannot be opened"


WHY = can_mount("pyfuse3")
# fusepy, if pyfuse3 is not there.
WHY_NOT_FUSEPY = can_mount("fusepy", "fuse")


def is_mounted(folder):
    """Whether a folder is a mount, also one whose program is gone."""
    with open("/proc/mounts", encoding="utf-8", errors="replace") as file:
        return any(line.split(" ")[1].replace("\\040", " ") == str(folder) for line in file)


def samples_of_png(text):
    """The width, height and bytes of a PNG of three bytes a pixel without filters."""
    place, data = 8, b""
    while place < len(text):
        size, kind = struct.unpack(">I4s", text[place : place + 8])
        part = text[place + 8 : place + 8 + size]
        assert struct.unpack(">I", text[place + 8 + size : place + 12 + size])[0] == zlib.crc32(kind + part)
        if kind == b"IHDR":
            width, height = struct.unpack(">II", part[:8])
        data += part if kind == b"IDAT" else b""
        place += 12 + size
    rows, across = zlib.decompress(data), 1 + 3 * width
    return width, height, b"".join(rows[row * across + 1 : (row + 1) * across] for row in range(height))


class Files(Case):
    """The files, read without a mount."""

    def opened(self, stream=SMALL, *lines, **options):
        live = Opened({"stream": stream, **options})
        self.addCleanup(live.close)
        if lines:
            live.run_step(list(lines))
        self.folder_of, self.live = folders.Folder(live), live
        return self.folder_of

    def whole(self, name):
        revision, file = self.folder_of.open(name)
        text = self.folder_of.read(revision, file, 0, file.size + 100)
        self.assertEqual(len(text), file.size, name)
        return text

    def test_what_is_there(self):
        folder = self.opened()
        self.assertEqual(
            folder.names(),
            ["clip.y4m", "clip.ivf", "clip.webm", "frames", "edits.txt", "findings.txt", "packets.jsonl"],
        )
        self.assertEqual(list(folder.pictures())[-2:], ["000010.png", "000011.png"])
        for name in (
            "clip.mp4",
            "frames/000012.png",
            "frames/1.png",
            "frames/00000a.png",
            "frames/0000001.png",
            "edits.err",
            "frames/",
            "x/000001.png",
        ):
            with self.assertRaises(KeyError):
                folder.open(name)

    def test_each_is_that_of_the_programs(self):
        for lines in ((), ("delete 3", "hold 9", "move 2 7")):
            self.opened(SCENES, *lines)
            room = self.folder()
            self.assertEqual(self.whole("clip.y4m"), whole_text(SCENES, *lines))
            (room / "clip.ivf").write_bytes(self.whole("clip.ivf"))
            serve(SCENES, lines, "--save", room / "saved.ivf")
            self.assertEqual(packets_of(room / "clip.ivf"), packets_of(room / "saved.ivf"))
            self.assertEqual(self.whole("edits.txt").decode().splitlines(), list(lines))
            self.assertEqual(
                [json.loads(line)["bytes"] for line in self.whole("packets.jsonl").splitlines()],
                list(map(len, packets_of(room / "saved.ivf"))),
            )
            self.assertEqual(self.whole("clip.webm")[:4], b"\x1a\x45\xdf\xa3")
            self.assertIn("frames, damage: ", self.whole("findings.txt").decode())
            picture = self.whole("frames/000005.png")
            with self.session(SCENES) as session:
                for line in lines:
                    session.request(line)
                frame = session.frame(5)
                self.assertEqual(samples_of_png(picture), (frame.width, frame.height, frame.rgb().tobytes()))

    def test_any_part_of_them(self):
        folder, dice = self.opened(SCENES, "delete 3"), random.Random(3)
        for name in ("clip.y4m", "clip.ivf", "clip.webm", "frames/000002.png", "packets.jsonl"):
            revision, file = folder.open(name)
            whole = self.whole(name)
            for _ in range(40):
                at, size = dice.randrange(len(whole) + 10), dice.choice((0, 1, 12, 100, 4096, 131072))
                self.assertEqual(folder.read(revision, file, at, size), whole[at : at + size])

    def test_a_frame_that_is_refused_cannot_be_read(self):
        folder = self.opened(SCENES, "replace 10 1100")
        revision, file = folder.open("clip.y4m")
        whole, size = whole_text(SCENES), self.folder_of.now().file("clip.y4m").clip.frame_size
        head = whole.index(b"\n") + 1
        self.assertEqual(file.size, len(whole))
        self.assertEqual(folder.read(revision, file, head + 9 * size, size), whole[head + 9 * size : head + 10 * size])
        for name, at, count in (
            ("clip.y4m", head + 10 * size, 1),
            ("clip.y4m", head + 9 * size, size + 1),
            ("frames/000010.png", 0, 100),
        ):
            one = folder.open(name)
            with self.assertRaisesRegex(Unreadable, "packet 10 ShortPacket"):
                folder.read(*one, at, count)
        self.assertIn("frames 10 to ", self.whole("findings.txt").decode().splitlines()[0])
        self.assertIn("refused packet 10 ShortPacket", self.whole("findings.txt").decode())

    def test_an_edit_changes_them(self):
        folder = self.opened(SCENES)
        before = {name: folder.open(name) for name in ("clip.y4m", "clip.ivf", "edits.txt", "frames/000001.png")}
        time.sleep(0.02)
        self.live.run("delete 3")
        for one in before.values():
            with self.assertRaises(Changed):
                folder.read(*one, 0, 10)
        self.assertEqual(self.whole("clip.y4m"), whole_text(SCENES, "delete 3"))
        self.assertGreater(folder.now().time, before["clip.y4m"][0].time)

    def test_the_list_of_edits_is_written(self):
        folder = self.opened(SCENES)
        folder.edit("# a comment\ndelete 3\n\n  delete 5\ndelete 7\n")
        self.assertEqual(self.whole("edits.txt"), b"delete 3\ndelete 5\ndelete 7\n")
        folder.edit("delete 3\ndelete 6\n")
        self.assertEqual(list(self.live.session.edits), ["delete 3", "delete 6"])
        self.assertEqual(folder.error, "")
        before = self.whole("clip.ivf")
        for wrong in ("delete 3\ndelete 99999\n", "jump 3\n", "delete 3\nframe 1\n"):
            with self.assertRaises(ValueError):
                folder.edit(wrong)
            self.assertEqual(list(self.live.session.edits), ["delete 3", "delete 6"])
            self.assertTrue(self.whole("edits.err"))
            self.assertEqual(self.whole("clip.ivf"), before)
        # Only a newline ends a line, so these are comments.
        folder.edit("# a page \f delete 3\n# a line \u2028delete 3\ndelete 2\n")
        self.assertEqual(list(self.live.session.edits), ["delete 2"])
        folder.edit("")
        self.assertEqual((list(self.live.session.edits), "edits.err" in folder.names()), ([], False))

    def test_a_stream_without_frames(self):
        self.opened("-")
        self.assertEqual([self.whole(name) for name in ("clip.y4m", "edits.txt", "packets.jsonl")], [b"", b"", b""])
        self.assertEqual(len(self.whole("clip.ivf")), 32)

    def test_the_program_may_end(self):
        self.opened(SCENES)
        whole = self.whole("clip.y4m")
        crash(self.live.session)
        self.folder_of.kept = self.folder_of.now().kept = folders.Kept()
        self.assertEqual(self.whole("clip.y4m"), whole)

    def test_pictures_have_a_size_that_is_known(self):
        for width, height in ((1, 1), (16, 16), (150, 149), (640, 360), (21845, 1)):
            data = random.Random(1).randbytes(3 * width * height)
            text = png.stored_text_of(width, height, data)
            self.assertEqual(len(text), png.stored_size(width, height))
            self.assertEqual(samples_of_png(text), (width, height, data))

    def test_what_is_over_waits_for_nothing(self):
        leave = mock.Mock()
        operations = mount.Operations(self.opened(), leave)
        self.assertEqual(operations("getattr", "/")["st_nlink"], 2)
        held, let = threading.Event(), threading.Event()
        self.addCleanup(let.set)

        def decode():
            with self.live.lock:
                held.set()
                let.wait(10 * SLOW)

        threading.Thread(target=decode, daemon=True).start()
        self.assertTrue(held.wait(5 * SLOW))
        operations.is_over = True
        with self.within(2), self.assertRaises(OSError) as caught:
            operations("getattr", "/clip.y4m")
        self.assertEqual((caught.exception.errno, leave.call_count), (errno.ENODEV, 1))
        for operation in ("init", "destroy"):
            operations(operation, "/")
        self.assertEqual(leave.call_count, 1)

    def test_without_fuse(self):
        room = self.folder()
        for name in ("fusepy.py", "pyfuse3.py"):
            (room / name).write_text("raise ImportError")
        (room / "fuse.py").write_text("# python3-fuse, which is another module\n")
        env = {**os.environ, "PYTHONPATH": f"{room}:{mount.__file__.rsplit('/', 3)[0]}"}
        done = subprocess.run(
            [sys.executable, "-m", "wokureti", "mount", SMALL, room],
            env=env,
            capture_output=True,
            text=True,
            timeout=20 * SLOW,
            check=False,
        )
        self.assertEqual((done.returncode, done.stdout), (2, ""))
        self.assertIn("install python3-pyfuse3 and fuse3", done.stderr)


@unittest.skipIf(WHY, WHY)
class Mounted(Case):
    """The folder as pyfuse3 mounts it."""

    LIMIT = 60
    # Modules that the command does not find.
    HIDDEN = ()

    def start(self, stream, folder, *words):
        """A process that mounts a folder."""
        room = self.folder()
        for name in self.HIDDEN:
            (room / f"{name}.py").write_text("raise ImportError")
        env = {"PYTHONPATH": f"{room}:{mount.__file__.rsplit('/', 3)[0]}"}
        streams = {"stdout": subprocess.PIPE, "stderr": subprocess.PIPE}
        process = start("mount", stream, folder, *words, text=True, env=env, **streams)
        self.addCleanup(self.end, process, folder)
        return process

    def mounted(self, stream, *words):
        """A folder with the stream, its process, and what it printed first."""
        folder = self.folder() / "a folder"
        folder.mkdir()
        process = self.start(stream, folder, *words)
        limit = time.monotonic() + 20 * SLOW
        while not is_mounted(folder):
            self.assertIsNone(process.poll(), process.stderr.read() if process.poll() is not None else "")
            self.assertLess(time.monotonic(), limit)
            time.sleep(0.02)
        return folder, process

    def end(self, process, folder):
        if process.poll() is None:
            process.kill()
        process.wait()
        for stream in (process.stdout, process.stderr):
            stream.close()
        if not self.is_unmounted(folder):
            # fusermount3 leaves the folder of a program that was killed 3 of 120 times if others are mounted and
            # unmounted at the same moment, never alone.
            mount.clear(folder)
        self.assertTrue(self.is_unmounted(folder), "it is still mounted")

    def is_unmounted(self, folder):
        """Whether the folder is unmounted within 10 seconds."""
        limit = time.monotonic() + 10 * SLOW
        while is_mounted(folder) and time.monotonic() < limit:
            time.sleep(0.02)
        return not is_mounted(folder)

    def test_programs_open_it(self):
        folder, _ = self.mounted(SCENES)
        self.assertEqual((folder / "clip.y4m").read_bytes(), whole_text(SCENES))
        self.assertEqual(packets_of(folder / "clip.ivf"), packets_of(SCENES))
        self.assertEqual((folder / "clip.y4m").stat().st_size, len(whole_text(SCENES)))
        self.assertEqual(
            samples_of_png((folder / "frames/000003.png").read_bytes())[:2], ivf.key_size(packets_of(SCENES)[0])
        )
        for name in ("new.txt", "frames/x"):
            with self.assertRaises(OSError):
                (folder / name).write_text("text")
        for path in (folder / "clip.ivf", folder / "frames/000001.png"):
            with self.assertRaises(PermissionError):
                os.open(path, os.O_WRONLY)

    def test_edits_are_written(self):
        folder, _ = self.mounted(SCENES)
        with open(folder / "clip.y4m", "rb", buffering=0) as old:
            old.read(100)
            (folder / "edits.txt").write_text("delete 3\n")
            with self.assertRaises(OSError) as caught:
                old.read(100)
            self.assertEqual(caught.exception.errno, errno.ESTALE)
        self.assertEqual((folder / "clip.y4m").read_bytes(), whole_text(SCENES, "delete 3"))
        with open(folder / "edits.txt", "a") as file:
            file.write("delete 4\n")
        self.assertEqual((folder / "edits.txt").read_text(), "delete 3\ndelete 4\n")
        with self.assertRaises(OSError):
            (folder / "edits.txt").write_text("delete 99999\n")
        self.assertIn("packet 99999 does not exist", (folder / "edits.err").read_text())
        self.assertEqual((folder / "edits.txt").read_text(), "delete 3\ndelete 4\n")

    def test_a_frame_that_is_refused(self):
        folder, _ = self.mounted(write_packets(self.folder() / "in.ivf", [*packets_of(SMALL)[:4], b"\x11\x00"]))
        with self.assertRaises(OSError) as caught:
            (folder / "frames/000004.png").read_bytes()
        self.assertEqual(caught.exception.errno, errno.EIO)
        self.assertIn("ShortPacket", (folder / "findings.txt").read_text())

    def test_it_ends_and_is_unmounted(self):
        for number in (signal.SIGINT, signal.SIGTERM, signal.SIGHUP, signal.SIGKILL, None):
            folder, process = self.mounted(SMALL)
            children = children_of(process.pid)
            self.assertTrue(children)
            if number is None:
                subprocess.run(["umount", folder], check=True, timeout=20 * SLOW)
            else:
                process.send_signal(number)
            process.wait(20 * SLOW)
            self.assertTrue(self.is_unmounted(folder), "it is still mounted")
            self.assertEqual(list(folder.iterdir()), [], number)
            if number != signal.SIGKILL:
                self.assertEqual(process.returncode, 0)

    def test_a_signal_comes_while_it_is_mounted(self):
        for turn in range(18):
            folder = self.folder() / "a folder"
            folder.mkdir()
            process = self.start(SMALL, folder)
            process.stdout.readline()
            # libfuse mounts some milliseconds later.
            time.sleep(turn // 3 * 0.004)
            number = (signal.SIGTERM, signal.SIGHUP, signal.SIGINT)[turn % 3]
            process.send_signal(number)
            self.assertEqual(
                (process.wait(20 * SLOW), is_mounted(folder), list(folder.iterdir())),
                (0, False, []),
                (turn, process.stderr.read()),
            )

    def test_it_is_unmounted_while_a_file_is_open(self):
        folder, process = self.mounted(SCENES)
        opened = os.open(folder / "clip.y4m", os.O_RDONLY)
        try:
            os.read(opened, 100)
            process.send_signal(signal.SIGTERM)
            self.assertEqual(process.wait(20 * SLOW), 0)
            self.assertTrue(self.is_unmounted(folder), "it is still mounted")
            with self.assertRaises(OSError):
                os.read(opened, 100)
        finally:
            with contextlib.suppress(OSError):
                os.close(opened)

    def test_a_closed_terminal_does_not_end_it_under_nohup(self):
        folder = self.folder() / "a folder"
        folder.mkdir()
        ignored = signal.signal(signal.SIGHUP, signal.SIG_IGN)
        try:
            process = self.start(SMALL, folder)
        finally:
            signal.signal(signal.SIGHUP, ignored)
        process.stdout.readline()
        process.send_signal(signal.SIGHUP)
        with self.assertRaises(subprocess.TimeoutExpired):
            process.wait(0.5)
        process.send_signal(signal.SIGTERM)
        self.assertEqual(process.wait(20 * SLOW), 0)

    def test_the_program_is_killed(self):
        folder, process = self.mounted(SCENES)
        (folder / "clip.y4m").read_bytes()
        for child in children_of(process.pid):
            with contextlib.suppress(OSError), open(f"/proc/{child}/comm") as file:
                if file.read().startswith("vp8serve"):
                    os.kill(child, signal.SIGKILL)
        self.assertEqual((folder / "clip.y4m").read_bytes(), whole_text(SCENES))

    def test_folders_that_do_not_fit(self):
        room = self.folder()
        (room / "file").write_text("")
        for folder, why in (
            (room, "is not empty"),
            (room / "none", "none: No such file"),
            (room / "file", "is not a folder"),
        ):
            status, _, errors = command("mount", SMALL, folder)
            self.assertEqual(status, 2)
            self.assertIn(why, errors)

    def test_the_page_is_there_too(self):
        folder, process = self.mounted(SMALL, "--serve")
        self.assertRegex(process.stdout.readline(), r"^http://127\.0\.0\.1:[0-9]+/[A-Za-z0-9_-]+/page/\n$")

    def test_what_a_folder_has(self):
        """All names once, also of more pictures than one answer of the system holds, and no file is made for them."""
        folder, _ = self.mounted(write_packets(self.folder() / "in.ivf", packets_of(SMALL)[:1] * 3000))
        names = ["clip.ivf", "clip.webm", "clip.y4m", "edits.txt", "findings.txt", "frames", "packets.jsonl"]
        self.assertEqual(sorted(os.listdir(folder)), names)
        self.assertEqual(sorted(os.listdir(folder / "frames")), [f"{number:06}.png" for number in range(3000)])
        self.assertEqual([path.name for path in sorted(folder.iterdir()) if path.is_dir()], ["frames"])

    def test_two_programs_read_it(self):
        """A frame that is decoded holds up no other file."""
        folder, _ = self.mounted(SCENES)
        whole, found = whole_text(SCENES), []
        threads = [threading.Thread(target=lambda: found.append((folder / "clip.y4m").read_bytes())) for _ in range(4)]
        for thread in threads:
            thread.start()
        for thread in threads:
            thread.join(30 * SLOW)
        self.assertEqual(found, [whole] * 4)

    def test_a_folder_does_not_change(self):
        folder, _ = self.mounted(SMALL)
        for change in (
            lambda: (folder / "new").mkdir(),
            lambda: (folder / "clip.ivf").unlink(),
            lambda: (folder / "clip.ivf").rename(folder / "other.ivf"),
            lambda: (folder / "link").symlink_to("clip.ivf"),
            lambda: os.link(folder / "clip.ivf", folder / "link"),
            lambda: (folder / "clip.ivf").chmod(0o600),
        ):
            with self.assertRaises(OSError) as caught:
                change()
            self.assertEqual(caught.exception.errno, errno.EROFS)
        os.utime(folder / "edits.txt")


@unittest.skipIf(WHY_NOT_FUSEPY, WHY_NOT_FUSEPY)
class MountedByFusepy(Mounted):
    """The same as fusepy mounts it, where pyfuse3 is not there."""

    HIDDEN = ("pyfuse3",)


if __name__ == "__main__":
    unittest.main()
