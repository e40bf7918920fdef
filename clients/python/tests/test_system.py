"""What differs between systems: that only one module knows it, and what that module does on each."""

import ast
import errno
import fcntl
import hashlib
import importlib.util
import json
import ntpath
import os
import pathlib
import socket
import struct
import sys
import tempfile
import threading
import time
import types
import unittest
from unittest import mock

from support import SMALL, TOP, Case, command, packets_of
from wokureti import system
from wokureti.base import checks, files, programs, rooms
from wokureti.media import ivf, muxing
from wokureti.session import inputs, library, named
from wokureti.tools import cat
from wokureti.page import opening

PACKAGE = pathlib.Path(system.__file__).parent
# Modules, and names of modules, that Windows or macOS does not have, or that mean something else there.
MODULES = {"fcntl", "msvcrt", "select", "resource", "termios", "tty", "pty", "pwd", "grp", "platform"}
NAMES = {
    "os": """pread pwrite preadv pwritev killpg getpgid setsid getuid geteuid getgid getegid sched_getaffinity
        cpu_count register_at_fork statvfs fork chown fchown lchown fchmod mkfifo set_blocking get_blocking
        umask uname sysconf sendfile O_CLOEXEC O_NOFOLLOW O_DIRECTORY O_NONBLOCK O_TMPFILE O_BINARY O_TEMPORARY
        name""",
    "signal": "SIGHUP SIGKILL SIGPIPE SIGALRM SIGCHLD SIGQUIT SIGBREAK CTRL_BREAK_EVENT SIGTERM SIGINT",
    "sys": "platform getwindowsversion",
    "shutil": "disk_usage",
}
# Texts that only the shells of other machines get.
ALLOWED = {
    ("tools/machines.py", "/tmp/"),
    ("tools/machines.py", " > /dev/null || exit 4"),
    ("tools/machines.py", "command -v rsync > /dev/null || exit 3; command -v "),
    ("commands.py", "; /dev/null is an empty stream"),
}


def of_systems(path):
    """What a module names that only some systems have, and texts with paths that only some have."""
    tree = ast.parse(path.read_text(encoding="utf-8"))
    documents = {
        ast.get_docstring(node, clean=False)
        for node in ast.walk(tree)
        if isinstance(node, (ast.Module, ast.ClassDef, ast.FunctionDef))
    }
    for node in ast.walk(tree):
        if isinstance(node, (ast.Import, ast.ImportFrom)):
            found = (
                [alias.name for alias in node.names]
                if isinstance(node, ast.Import)
                else [node.module or ""]
                if not node.level
                else []
            )
            yield from (name for name in found if name in MODULES)
        elif (
            isinstance(node, ast.Attribute)
            and isinstance(node.value, ast.Name)
            and node.attr in NAMES.get(node.value.id, "").split()
        ):
            yield f"{node.value.id}.{node.attr}"
        elif isinstance(node, ast.Constant) and isinstance(node.value, str) and node.value not in documents:
            if any(place in node.value for place in ("/dev/", "/proc/", "/tmp/")):
                yield node.value


def variant(platform):
    """The module as another system has it. Windows has another `os.path`, and locks of bytes."""
    specification = importlib.util.spec_from_file_location("wokureti.system", system.__file__)
    found = importlib.util.module_from_spec(specification)
    hidden = (
        {"fcntl": None, "msvcrt": types.SimpleNamespace(LK_NBLCK=2, locking=locking)} if platform == "win32" else {}
    )
    with mock.patch.object(sys, "platform", platform), mock.patch.dict(sys.modules, hidden):
        specification.loader.exec_module(found)
    if platform == "win32":
        found.os = types.SimpleNamespace(**{**vars(os), "path": ntpath})
    return found


def locking(descriptor, mode, size):
    """Locks bytes from where the file is being read, for this open file only."""
    text = struct.pack("@hhqqi0q", fcntl.F_WRLCK, os.SEEK_SET, os.lseek(descriptor, 0, os.SEEK_CUR), size, 0)
    try:
        fcntl.fcntl(descriptor, 37, text)
    except BlockingIOError:
        raise PermissionError(errno.EACCES, "Permission denied") from None


WINDOWS, MACOS = variant("win32"), variant("darwin")


class Package(unittest.TestCase):
    def test_only_one_module_knows_systems(self):
        found = {
            (str(path.relative_to(PACKAGE)), what)
            for path in PACKAGE.rglob("*.py")
            if path.name != "system.py"
            for what in of_systems(path)
        }
        self.assertEqual(found - ALLOWED, set())
        # The check finds what is there.
        self.assertEqual(ALLOWED - found, set())
        self.assertLess(
            {"fcntl", "msvcrt", "select", "os.killpg", "os.umask", "signal.SIGKILL", "sys.platform", "/dev/stdin"},
            set(of_systems(PACKAGE / "system.py")),
        )

    def test_files_are_opened_as_bytes(self):
        """`os.open` without O_BINARY changes line ends on Windows."""
        wrong = []
        for path in PACKAGE.rglob("*.py"):
            for node in ast.walk(ast.parse(path.read_text(encoding="utf-8"))):
                if isinstance(node, ast.Call) and ast.unparse(node.func) == "os.open":
                    flags = ast.unparse(node.args[1])
                    if (
                        "BINARY" not in flags
                        and flags not in ("flags | os.O_EXCL", "flags")
                        and "devnull" not in ast.unparse(node.args[0])
                        and "O_DIRECTORY" not in flags
                    ):
                        wrong.append((path.name, ast.unparse(node)))
        self.assertEqual(wrong, [])


class Names(unittest.TestCase):
    def test_libraries_and_programs(self):
        self.assertEqual(
            [one.LIBRARY for one in (system, WINDOWS, MACOS)],
            ["libwokureti.so.0", "wokureti.dll", "libwokureti.0.dylib"],
        )
        self.assertEqual(
            [one.program_file("vp8list") for one in (system, WINDOWS, MACOS)], ["vp8list", "vp8list.exe", "vp8list"]
        )
        self.assertEqual((WINDOWS.builds(), MACOS.builds()), ([""], [""]))
        self.addCleanup(system.builds.cache_clear)
        system.builds.cache_clear()
        with mock.patch.object(os, "uname", return_value=types.SimpleNamespace(machine="aarch64")):
            self.assertEqual(system.builds(), [""])

    def test_what_a_wheel_installs_is_found(self):
        """On Windows, in an environment or for one user: the library in its folder of data, the programs in Scripts."""
        with tempfile.TemporaryDirectory() as room:
            for number, (package, scripts) in enumerate(
                (("Lib/site-packages", "Scripts"), ("Python311/site-packages", "Python311/Scripts"))
            ):
                folder = pathlib.Path(room, str(number))
                paths = [
                    folder / "lib/wokureti/wokureti.dll",
                    *(folder / scripts / f"{name}.exe" for name in ("vp8serve", "vp8list")),
                ]
                for path in paths:
                    path.parent.mkdir(parents=True, exist_ok=True)
                    path.touch()
                where = mock.patch.object(programs, "HERE", folder / package / "wokureti/base/programs.py")
                windows = mock.patch.multiple(system, IS_WINDOWS=True, LIBRARY=WINDOWS.LIBRARY, builds=WINDOWS.builds)
                with where, windows, mock.patch.dict(os.environ, {"VP8SERVE": "", "VP8LIST": "", "LIBWOKURETI": ""}):
                    self.assertEqual(
                        [library.find(), programs.find("vp8serve"), programs.find("vp8list")], list(map(str, paths))
                    )

    def test_lists_of_sources(self):
        with tempfile.TemporaryDirectory() as folder:
            there = os.path.join(folder, "a;b.ivf")
            pathlib.Path(there).touch()
            cases = {
                "a.ivf": ["a.ivf"],
                "a.ivf:b.ivf": ["a.ivf", "b.ivf"],
                "a.ivf;b c.ivf": ["a.ivf", "b c.ivf"],
                "a:b;c": ["a", "b", "c"],
                there: [there],
                f"{there}:c;d": [there, "c", "d"],
                f"{there};c": [f"{folder}/a", "b.ivf", "c"],
                "a:": ["a", ""],
            }
            self.assertEqual({text: system.sources_of(text) for text in cases}, cases)
        cases = {
            r"C:\a.ivf;D:\b c.ivf": [r"C:\a.ivf", r"D:\b c.ivf"],
            r"C:\a.ivf": [r"C:\a.ivf"],
            "a;b": ["a", "b"],
            r"\\server\share\a.ivf;b": [r"\\server\share\a.ivf", "b"],
            "D:a.ivf;C:/b.ivf": ["D:a.ivf", "C:/b.ivf"],
        }
        self.assertEqual({text: WINDOWS.sources_of(text) for text in cases}, cases)

    def test_sources_of_a_session(self):
        with self.assertRaisesRegex(ValueError, "separates the paths of sources by `:`"):
            checks.sources(["C:\\a.ivf"])
        with mock.patch.object(system, "SEPARATOR", ";"):
            self.assertEqual(checks.sources(["C:\\a.ivf", "-"]), ["C:\\a.ivf", "-"])
            with self.assertRaisesRegex(ValueError, "separates the paths of sources by `;`"):
                checks.sources(["a;b.ivf"])

    def test_state_folders(self):
        with mock.patch.dict(
            os.environ, {"LOCALAPPDATA": r"C:\Users\Ä b\AppData\Local", "XDG_STATE_HOME": "", "HOME": "/home/a"}
        ):
            self.assertEqual(WINDOWS.state_folder(), r"C:\Users\Ä b\AppData\Local\wokureti")
            self.assertEqual(system.state_folder(), "/home/a/.local/state/wokureti")
            self.assertEqual(MACOS.state_folder(), "/home/a/Library/Application Support/wokureti")
        with mock.patch.dict(os.environ, {"LOCALAPPDATA": "", "USERPROFILE": r"D:\u", "XDG_STATE_HOME": ""}):
            self.assertEqual(WINDOWS.state_folder(), r"D:\u\AppData\Local\wokureti")
        with mock.patch.dict(os.environ, {"XDG_STATE_HOME": r"E:\state"}):
            self.assertEqual(WINDOWS.state_folder(), r"E:\state\wokureti")
        with mock.patch.dict(os.environ, {"XDG_STATE_HOME": "/state"}):
            self.assertEqual([one.state_folder() for one in (system, MACOS)], ["/state/wokureti"] * 2)

    def test_devices(self):
        cases = {"/dev/stdin": True, "/proc/self/fd/0": True, "/devices": False, "clip.ivf": False}
        self.assertEqual({path: system.is_device(path) for path in cases}, cases)
        self.assertFalse(WINDOWS.is_device("/dev/stdin"))
        self.assertEqual(
            [WINDOWS.is_null(path) for path in ("nul", "NUL", r"\\.\nul", "/dev/null", "null", r"C:\nul.ivf")],
            [True] * 4 + [False] * 2,
        )
        self.assertEqual(
            [system.is_null(path) for path in ("/dev/null", "nul", "/dev/zero", "/dev/fd/99")],
            [True, False, False, False],
        )

    def test_temporary_folders_that_lists_of_paths_take(self):
        for folder, wanted in ((r"C:\Users\Ä b\Temp", r"C:\Users\Ä b\Temp"), (r"C:\a;b", None)):
            with mock.patch.object(tempfile, "gettempdir", return_value=folder):
                if wanted is not None:
                    self.assertEqual(WINDOWS.plain_folder(), wanted)
                else:
                    with self.assertRaisesRegex(ValueError, "name another one in the variable TMP"):
                        WINDOWS.plain_folder()
        for folder, wanted in (("/var/tmp", "/var/tmp"), ("/var/a b", "/tmp"), ("/a:b", "/tmp")):
            with mock.patch.object(tempfile, "gettempdir", return_value=folder):
                self.assertEqual(system.plain_folder(), wanted)

    def test_command_lines(self):
        text = r'C:\bin\vpxdec.exe --i420 -o {out} "C:\a b\{in}"'
        self.assertEqual(
            WINDOWS.words_of_command(text), [r"C:\bin\vpxdec.exe", "--i420", "-o", "{out}", r"C:\a b\{in}"]
        )
        self.assertEqual(system.words_of_command("vpxdec -o '{out} a' b\\ c"), ["vpxdec", "-o", "{out} a", "b c"])
        self.assertEqual(
            WINDOWS.command_text(["wokureti", "open", r"C:\a b\clip.ivf"]), r'wokureti open "C:\a b\clip.ivf"'
        )
        self.assertEqual(system.command_text(["wokureti", "open", "a b"]), "wokureti open 'a b'")

    def test_names_of_files_on_windows(self):
        with mock.patch.object(os, "path", ntpath), mock.patch.object(system, "is_writable", return_value=True):
            self.assertEqual(opening.stem_of(r"C:\clips\a.b\clip.webm"), r"C:\clips\a.b\clip")
            self.assertEqual(opening.stem_of(r"\\server\share.x\clip"), r"\\server\share.x\clip")
            self.assertEqual(
                (muxing.ending_of(r"C:\a.ivf\clip.WEBM"), muxing.ending_of(r"C:\a.webm\clip")), (".webm", None)
            )
            self.assertEqual(cat.names_of_sizes(r"C:\a.b\out", [((16, 8), 0, 1)]), [r"C:\a.b\out-16x8"])
        self.assertEqual((WINDOWS.slashed(r"sub\b.ivf"), system.slashed(r"sub\b.ivf")), ("sub/b.ivf", r"sub\b.ivf"))

    def test_a_list_of_edits_of_windows(self):
        """It is found next to the list by its last name, on every system."""
        self.assertEqual(system.names_of(r"C:\clips\b.ivf"), [r"C:\clips\b.ivf", "b.ivf"])
        with tempfile.TemporaryDirectory() as folder:
            clip = pathlib.Path(folder, "b.ivf")
            clip.touch()
            line = (
                f'# source 1: 2 packets, 3 bytes, sha256 {"0" * 64},'
                f' {json.dumps("C:/clips/b.ivf".replace("/", chr(92)))}\n'
            )
            found = named.of_line(line.rstrip("\n"))
            self.assertEqual(
                os.path.realpath(named.path_of(found, os.path.join(folder, "a.edits"))), os.path.realpath(clip)
            )


class Positions(Case):
    """Reads at a place where the system only has `seek` and `read`."""

    def test_the_place_of_the_file_stays(self):
        path = self.folder() / "file"
        path.write_bytes(bytes(range(100)))
        with open(path, "r+b", buffering=0) as file:
            self.assertEqual(file.read(10), bytes(range(10)))
            self.assertEqual(system.seek_and_read(file.fileno(), 5, 50), bytes(range(50, 55)))
            self.assertEqual(system.seek_and_write(file.fileno(), b"ab", 10), 2)
            self.assertEqual(file.read(3), b"ab\x0c")
            with self.assertRaises(OSError):
                system.seek_and_read(file.fileno(), 5, -1)
            self.assertEqual(file.tell(), 13)

    def test_threads(self):
        path = self.folder() / "file"
        path.write_bytes(bytes(range(256)) * 64)
        wrong = []
        with open(path, "rb") as file:

            def work(first):
                for place in range(first, 16000, 7):
                    if system.seek_and_read(file.fileno(), 3, place) != bytes((place + one) % 256 for one in range(3)):
                        wrong.append(place)

            threads = [threading.Thread(target=work, args=(first,)) for first in range(4)]
            for thread in threads:
                thread.start()
            for thread in threads:
                thread.join(60)
        self.assertEqual(wrong, [])

    def test_all_bytes_or_an_error(self):
        path = self.folder() / "file"
        path.write_bytes(bytes(range(100)))
        short = lambda descriptor, size, place: os.pread(descriptor, min(size, 7), place)  # noqa: E731
        with open(path, "rb") as file, mock.patch.object(system, "pread", short):
            self.assertEqual(system.pread_all(file.fileno(), 50, 20), bytes(range(20, 70)))
            self.assertEqual(system.pread_all(file.fileno(), 0, 20), b"")
            with self.assertRaisesRegex(OSError, "the file ends at byte 100, and not at 101 or after"):
                system.pread_all(file.fileno(), 21, 80)

    def test_a_stream_that_is_read_piece_by_piece(self):
        """Short reads lose no packet, and a file that shrinks while it is read is an error."""
        short = lambda descriptor, size, place: os.pread(descriptor, min(size, 1000), place)  # noqa: E731
        with mock.patch.object(system, "pread", short):
            self.assertEqual(packets_of(SMALL), packets_of(SMALL))
            found = inputs.Input(str(SMALL))
            self.addCleanup(found.close)
            self.assertEqual([found.read(number) for number in range(len(found.records()))], packets_of(SMALL))
            self.assertEqual(found.whole(1 << 20), SMALL.read_bytes())
            digest = hashlib.sha256(
                b"".join(len(data).to_bytes(4, "little") + data for data in packets_of(SMALL))
            ).hexdigest()
            self.assertEqual((found.digest(), inputs.Input("-").digest()), (digest, hashlib.sha256(b"").hexdigest()))
        size = SMALL.stat().st_size
        with open(SMALL, "rb") as file, mock.patch.object(
            system,
            "pread",
            lambda descriptor, count, place: os.pread(descriptor, count, place)[: max(0, size // 2 - place)],
        ):
            with self.assertRaisesRegex(OSError, "the file ends at byte"):
                ivf.read_index(file.fileno())


class Files(Case):
    def test_pieces_that_are_not_as_long_as_they_must_be(self):
        path = self.folder() / "out"
        path.write_bytes(b"before")
        for pieces, size in (([], 3), ([b"ab"], 3), ([b"ab", b"cd"], 3)):
            with self.assertRaisesRegex(
                OSError, f"{sum(map(len, pieces))} bytes of 3 were read of what is to be written"
            ) as caught:
                files.write_whole(path, pieces, size)
            self.assertEqual(
                (caught.exception.filename, path.read_bytes(), os.listdir(path.parent)), (str(path), b"before", ["out"])
            )
        files.write_whole(path, [b"ab", b"c"], 3)
        self.assertEqual(path.read_bytes(), b"abc")

    def test_locks_of_bytes(self):
        path = self.folder() / "file"
        path.write_bytes(b"text")
        one, two = (os.open(path, os.O_RDWR) for _ in range(2))
        os.lseek(two, 2, os.SEEK_SET)
        WINDOWS.lock(one)
        with self.assertRaises(BlockingIOError):
            WINDOWS.lock(two)
        # Who has not locked it reads it, from where it was read.
        self.assertEqual(os.read(two, 9), b"xt")
        os.close(one)
        WINDOWS.lock(two)
        os.close(two)
        failing = types.SimpleNamespace(
            LK_NBLCK=2, locking=mock.Mock(side_effect=OSError(errno.ENOLCK, "No locks available"))
        )
        with (
            open(path, "rb") as file,
            mock.patch.object(WINDOWS, "msvcrt", failing),
            self.assertRaises(OSError) as caught,
        ):
            WINDOWS.lock(file.fileno())
        self.assertNotIsInstance(caught.exception, BlockingIOError)

    def test_a_file_that_another_program_has_open_is_replaced_when_that_closes_it(self):
        tries = []

        def busy(source, target):
            tries.append(time.monotonic())
            if len(tries) < 4:
                raise PermissionError(errno.EACCES, "Permission denied", source)

        with mock.patch.object(WINDOWS.os, "replace", busy):
            WINDOWS.replace("new", "old")
        self.assertEqual(len(tries), 4)
        with mock.patch.object(
            WINDOWS.os, "replace", side_effect=PermissionError(errno.EACCES, "Permission denied", "new")
        ), mock.patch.object(WINDOWS, "MOST_BUSY", 0.1):
            with self.assertRaisesRegex(
                PermissionError, "it cannot be replaced: another program has it open"
            ) as caught:
                WINDOWS.replace("new", "old")
        self.assertEqual(caught.exception.filename, "old")
        # Elsewhere that is no question of time.
        start = time.monotonic()
        with mock.patch.object(
            os, "replace", side_effect=PermissionError(errno.EACCES, "Permission denied", "new")
        ), self.assertRaises(PermissionError):
            system.replace("new", "old")
        self.assertLess(time.monotonic() - start, 1)

    def test_permissions_of_new_files(self):
        before = os.umask(0o027)
        try:
            self.assertEqual(system.umask(), 0o027)
            with mock.patch("builtins.open", side_effect=FileNotFoundError):
                self.assertEqual(system.umask(), 0o027)
        finally:
            self.assertEqual(os.umask(before), 0o027)

    def test_a_pipe_where_descriptors_have_no_path(self):
        """It is copied to a file, which goes with the input."""
        room = self.folder()
        os.mkfifo(room / "pipe")
        writer = threading.Thread(target=lambda: (room / "pipe").write_bytes(SMALL.read_bytes()))
        writer.start()
        with mock.patch.object(system, "HAS_DESCRIPTOR_PATHS", False), mock.patch.object(
            tempfile, "tempdir", str(room)
        ):
            found = inputs.Input(str(room / "pipe"))
        writer.join(20)
        self.assertEqual((found.is_shared, pathlib.Path(found.word).read_bytes()), (False, SMALL.read_bytes()))
        found.check_opened()
        found.close()
        self.assertEqual(os.listdir(room), ["pipe"])

    def test_a_file_that_goes_when_it_is_closed(self):
        path = self.folder() / "file"
        path.write_bytes(b"text")
        with system.open_to_remove(path) as file:
            self.assertEqual(file.read(), b"text")
        self.assertFalse(path.exists())


class Processes(Case):
    def folder_of(self, text):
        """A folder as a program leaves it whose file says so of it, and the descriptor of the file."""
        path = self.folder() / ".lock"
        path.write_text(text)
        descriptor = os.open(path, os.O_RDWR)
        self.addCleanup(os.close, descriptor)
        return path, descriptor

    def test_where_processes_are_not_listed_the_lock_says_who_is_gone(self):
        with mock.patch.object(system, "HAS_PROCESSES", False):
            mine, unlocked = system.process_text(os.getpid(), True), system.process_text(os.getpid(), False)
            node = mine.split("\n")[1]
            cases = {
                mine: True,
                unlocked: False,
                "": False,
                mine[:-1]: False,
                mine.replace(node, "another"): False,
                f"locked\n{node}\n": False,
            }
            for text, is_abandoned in cases.items():
                path, descriptor = self.folder_of(text)
                self.assertEqual(system.is_abandoned(descriptor), is_abandoned, text)
                # Another program has the lock.
                path, descriptor = self.folder_of(text)
                other = os.open(path, os.O_RDWR)
                system.lock(other)
                self.assertFalse(system.is_abandoned(descriptor), text)
                os.close(other)
                # It cannot be known who has it.
                path, descriptor = self.folder_of(text)
                with mock.patch.object(system, "lock", side_effect=OSError(errno.ENOSYS, "Function not implemented")):
                    self.assertFalse(system.is_abandoned(descriptor), text)

    def test_a_folder_that_cannot_be_locked_says_so(self):
        room = self.folder()
        with mock.patch.object(system, "HAS_PROCESSES", False), mock.patch.object(tempfile, "tempdir", str(room)):
            for is_locked, text in ((True, "locked\n"), (False, "not locked\n")):
                with mock.patch.object(
                    system,
                    "lock",
                    **({} if is_locked else {"side_effect": OSError(errno.ENOLCK, "No locks available")}),
                ):
                    with rooms.Room() as folder:
                        self.assertTrue(pathlib.Path(folder, ".lock").read_text().startswith(text))
                        rooms.sweep()
                        self.assertEqual(
                            os.path.isdir(folder), not is_locked, "only a lock that can be had says that nobody has it"
                        )
        self.assertEqual(os.listdir(room), [])

    def test_a_forked_process_leaves_the_folder(self):
        with rooms.Room() as folder:
            child = os.fork()
            if not child:
                try:
                    rooms.clear(folder, -1, os.getppid())
                finally:
                    os._exit(0)
            os.waitpid(child, 0)
            self.assertTrue(os.path.isdir(folder))

    def test_sockets_that_can_be_read(self):
        one, two = socket.socketpair()
        self.addCleanup(one.close)
        for has_poll in (True, False):
            with mock.patch.object(
                system, "select", system.select if has_poll else types.SimpleNamespace(select=system.select.select)
            ):
                self.assertFalse(system.is_readable(one))
                two.send(b"a")
                self.assertTrue(system.is_readable(one))
                one.recv(1)
        two.close()
        self.assertTrue(system.is_readable(one))

    def test_engines(self):
        with mock.patch.object(system, "HAS_PIPES", False):
            self.assertEqual(
                [
                    library.engine_of(named, program)
                    for named, program in ((None, None), ("library", None), (None, "vp8serve"))
                ],
                ["library"] * 3,
            )
            with self.assertRaisesRegex(ValueError, "the engine is the library"):
                library.engine_of("program", None)

    def test_what_ends_a_pipe(self):
        self.assertTrue(system.is_closed_pipe(BrokenPipeError()) and WINDOWS.is_closed_pipe(BrokenPipeError()))
        error = OSError(errno.EINVAL, "Invalid argument")
        self.assertEqual(
            (
                system.is_closed_pipe(error),
                WINDOWS.is_closed_pipe(error),
                WINDOWS.is_closed_pipe(OSError(errno.EINVAL, "Invalid argument", "a")),
            ),
            (False, True, False),
        )

    def test_sources_on_the_command_line(self):
        room = self.folder()
        script = ("--script", "source 1; source 2; splice 0 1; splice 3 2")
        words = ("cat", SMALL, "-", *script)
        wanted = command(*words, "--source", SMALL, "--source", TOP / "crates/gate_clips/data/small.ivf")
        self.assertEqual(wanted[0], 0)
        for more in (
            ("--sources", f"{SMALL}:{SMALL}"),
            ("--sources", f"{SMALL};{SMALL}"),
            ("--source", SMALL, "--sources", SMALL),
            ("--sources", SMALL, "--source", SMALL),
        ):
            self.assertEqual(command(*words, *more), wanted, more)
        status, _, errors = command(*words, "--sources", f"{SMALL}:{room / 'missing.ivf'}")
        self.assertEqual((status, f"{room / 'missing.ivf'}: No such file" in errors), (2, True), errors)
