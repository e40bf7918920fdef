"""What differs between Linux, macOS and Windows. Every other module asks this one, and uses nothing itself that one of
them does not have.
"""

from __future__ import annotations

import functools
import contextlib
import errno
import ntpath
import os
import re
import select
import shlex
import shutil
import signal
import socket
import stat
import subprocess
import sys
import tempfile
import threading
import time
from typing import BinaryIO, Callable, Iterable, Iterator, Optional, Sequence, Union

try:
    import fcntl
except ImportError:
    fcntl = None  # type: ignore[assignment]  # Windows has none.
try:
    import msvcrt
except ImportError:
    msvcrt = None  # type: ignore[assignment]  # Only Windows has it.

AnyPath = Union[str, bytes, "os.PathLike[str]", "os.PathLike[bytes]"]
IS_WINDOWS, IS_MACOS = sys.platform == "win32", sys.platform == "darwin"
NAME = "Windows" if IS_WINDOWS else "macOS" if IS_MACOS else "Linux"

# Open files

# Windows changes the line ends of a file that is opened without the first flag.
BINARY, NO_LINK = getattr(os, "O_BINARY", 0), getattr(os, "O_NOFOLLOW", 0)
# A locked byte cannot be read on Windows, so this one is far after the end of each file that is locked.
FAR = (1 << 31) - 1
SEEKING = threading.Lock()
# Seconds for which a file is tried to be replaced that another program has open.
MOST_BUSY = 2


@contextlib.contextmanager
def position(descriptor: int, place: int) -> Iterator[None]:
    """The file is at a place in the block, and back where it was after it: a Python file over the same descriptor reads
    on from there.
    """
    with SEEKING:
        before = os.lseek(descriptor, 0, os.SEEK_CUR)
        os.lseek(descriptor, place, os.SEEK_SET)
        try:
            yield
        finally:
            os.lseek(descriptor, before, os.SEEK_SET)


def seek_and_read(descriptor: int, size: int, place: int) -> bytes:
    with position(descriptor, place):
        return os.read(descriptor, size)


def seek_and_write(descriptor: int, data: Union[bytes, bytearray, memoryview], place: int) -> int:
    with position(descriptor, place):
        return os.write(descriptor, data)


# Bytes of a file from a place on, at most so many; and the number of bytes that were written at a place.
pread: Callable[[int, int, int], bytes] = getattr(os, "pread", seek_and_read)
pwrite: Callable[[int, Union[bytes, bytearray, memoryview], int], int] = getattr(os, "pwrite", seek_and_write)


def pread_all(descriptor: int, size: int, place: int) -> bytes:
    """Exactly so many bytes of a file from a place on. `OSError` if the file ends before."""
    pieces, end = [], place + size
    while place < end:
        piece = pread(descriptor, min(end - place, 1 << 30), place)
        if not piece:
            raise OSError(errno.EIO, f"the file ends at byte {place:,}, and not at {end:,} or after")
        pieces.append(piece)
        place += len(piece)
    return pieces[0] if len(pieces) == 1 else b"".join(pieces)


def places_of(pid: int, but: Iterable[int] = ()) -> Optional[dict[tuple[int, int], int]]:
    """How many bytes a process has read of each file that it has open, by its device and number, without the
    descriptors `but`; None where the system does not say.
    """
    found, folder = {}, f"/proc/{pid}/fd"
    if not os.path.isdir("/proc/self/fdinfo"):
        return None
    with contextlib.suppress(OSError):
        for name in os.listdir(folder):
            with contextlib.suppress(OSError, ValueError):
                about = os.stat(f"{folder}/{name}")
                if stat.S_ISREG(about.st_mode) and int(name) not in but:
                    with open(f"/proc/{pid}/fdinfo/{name}", encoding="ascii") as file:
                        found[about.st_dev, about.st_ino] = int(file.readline().split()[1])
    return found


def lock(descriptor: int) -> None:
    """Locks a file until it is closed. `BlockingIOError` if another one has it locked, `OSError` if it cannot be locked
    at all.
    """
    if fcntl is not None:
        fcntl.flock(descriptor, fcntl.LOCK_EX | fcntl.LOCK_NB)
        return
    with position(descriptor, FAR):
        try:
            msvcrt.locking(descriptor, msvcrt.LK_NBLCK, 1)
        except OSError as error:
            if error.errno in (errno.EACCES, errno.EDEADLK):
                raise BlockingIOError(error.errno, "another process has it locked") from None
            raise


def remove_and_close(path: str, descriptor: int) -> None:
    """Removes a file that is open here, and closes it. Nobody else gets its lock in between, except on Windows, which
    removes no file that is open.
    """
    with contextlib.suppress(OSError):
        if not IS_WINDOWS:
            os.unlink(path)
    os.close(descriptor)
    with contextlib.suppress(OSError):
        if IS_WINDOWS:
            os.unlink(path)


def open_to_remove(path: AnyPath) -> BinaryIO:
    """A file that is read, and gone once it is closed."""
    if hasattr(os, "O_TEMPORARY"):
        return open(os.open(path, os.O_RDONLY | BINARY | os.O_TEMPORARY), "rb")
    file = open(path, "rb")
    os.unlink(path)
    return file


def replace(source: str, target: str) -> None:
    """Gives a file the name of another one, which goes. Windows refuses that while a program has the other one open, so
    there it is tried for a while.
    """
    limit = time.monotonic() + MOST_BUSY
    while True:
        try:
            return os.replace(source, target)
        except PermissionError as error:
            if not IS_WINDOWS:
                raise
            if time.monotonic() > limit:
                raise PermissionError(
                    error.errno,
                    "it cannot be replaced: another program has it open, or it must not be written",
                    os.fspath(target),
                ) from None
            time.sleep(0.05)


def sync_folder(folder: str) -> None:
    """Brings the names of a folder to the disk, where the system opens folders."""
    if not hasattr(os, "O_DIRECTORY"):
        return
    descriptor = os.open(folder or ".", os.O_RDONLY | os.O_DIRECTORY)
    try:
        # Some file systems cannot.
        with contextlib.suppress(OSError):
            os.fsync(descriptor)
    finally:
        os.close(descriptor)


def umask() -> int:
    """The permissions that new files do not get."""
    with contextlib.suppress(OSError), open("/proc/self/status", encoding="ascii", errors="replace") as file:
        for line in file:
            if line.startswith("Umask:"):
                return int(line.split()[1], 8)
    # It can only be read by setting it: a file that another thread makes in between is for its owner alone.
    found = os.umask(0o077)
    os.umask(found)
    return found


def is_mine(found: os.stat_result) -> bool:
    """Whether a file, or a folder, is of this user. On Windows the folder for temporary files is."""
    return not hasattr(os, "getuid") or found.st_uid == os.getuid()


def is_private(found: os.stat_result) -> bool:
    """Whether only this user reads and writes a file. On Windows that follows from its folder, and the mode says
    nothing.
    """
    return IS_WINDOWS or (is_mine(found) and not found.st_mode & 0o077)


def owner() -> tuple[int, int]:
    """The numbers of this user and their group; 0 where there are none."""
    return (os.getuid(), os.getgid()) if hasattr(os, "getuid") else (0, 0)


def is_writable(folder: str) -> bool:
    """Whether files can be made in a folder. Windows only knows when one is made."""
    if not IS_WINDOWS:
        return os.access(folder or ".", os.W_OK | os.X_OK)
    try:
        with tempfile.TemporaryFile(dir=folder or "."):
            return True
    except OSError:
        return False


def is_full(folder: str, least: int) -> bool:
    """Whether a folder has fewer free bytes than these, or no place for another file."""
    if not hasattr(os, "statvfs"):
        return shutil.disk_usage(folder).free < least
    found = os.statvfs(folder)
    return found.f_bavail * found.f_frsize < least or bool(found.f_files and not found.f_favail)


# Devices

STANDARD_INPUT = "/dev/stdin"
# Whether a path names the file of a descriptor, for other processes too, and opens it at its beginning. On macOS it is
# opened where it is being read.
HAS_DESCRIPTOR_PATHS = sys.platform.startswith("linux")


def descriptor_path(descriptor: int) -> str:
    return f"/dev/fd/{descriptor}"


def is_device(path: AnyPath) -> bool:
    """Whether a path is that of a device, which may be another one in another process."""
    return not IS_WINDOWS and os.path.abspath(os.fsdecode(path)).startswith(("/dev/", "/proc/"))


def is_null(path: AnyPath) -> bool:
    """Whether a path is that of the device that is always empty. Windows takes the name that it has elsewhere too."""
    if IS_WINDOWS:
        return os.fsdecode(path).lower() in ("nul", "\\\\.\\nul", "/dev/null")
    try:
        found = os.stat(path)
    except OSError:
        return False
    return stat.S_ISCHR(found.st_mode) and found.st_rdev == os.stat(os.devnull).st_rdev


def open_input(path: AnyPath) -> BinaryIO:
    """A file to read. Standard input is not a path everywhere, and other processes read it too."""
    return open(os.dup(0), "rb") if path == STANDARD_INPUT and not HAS_DESCRIPTOR_PATHS else open(path, "rb")


# Pipes and processes

# Whether programs are talked to over pipes. Windows cannot wait for several pipes: there the library answers.
HAS_PIPES = hasattr(select, "poll") and hasattr(os, "killpg")
# Linux makes a pipe larger if it is asked to. The constant is in fcntl since Python 3.10.
F_SETPIPE_SZ = 1031
# The signals that end a command as Ctrl-C does.
ENDS = tuple(getattr(signal, name) for name in ("SIGTERM", "SIGHUP", "SIGBREAK") if hasattr(signal, name))


def ready(reading: Iterable[int], writing: Iterable[int], milliseconds: Optional[int]) -> tuple[list[int], list[int]]:
    """Those of these descriptors that can be read, or were closed, and those that can be written; none if that takes
    longer. None: for ever.
    """
    poll = select.poll()
    for descriptor in reading:
        poll.register(descriptor, select.POLLIN)
    for descriptor in writing:
        poll.register(descriptor, select.POLLOUT)
    events = dict(poll.poll(milliseconds))
    readable = select.POLLIN | select.POLLHUP | select.POLLERR
    return [one for one in reading if events.get(one, 0) & readable], [one for one in writing if one in events]


def is_readable(connection: socket.socket) -> bool:
    """Whether a socket has bytes, or was closed, now. Elsewhere than on Windows `select` refuses descriptors from 1024
    on.
    """
    return bool(
        ready([connection.fileno()], [], 0)[0] if hasattr(select, "poll") else select.select([connection], [], [], 0)[0]
    )


def enlarge(descriptor: int, size: int) -> None:
    """Makes a pipe so large, if the system does that."""
    with contextlib.suppress(OSError):
        fcntl.fcntl(descriptor, F_SETPIPE_SZ, size)


def do_not_wait(descriptor: int) -> None:
    """Calls on a pipe return at once."""
    os.set_blocking(descriptor, False)


def kill_group(process: subprocess.Popen[bytes]) -> None:
    """Kills a program that has a session of its own, and what it started."""
    try:
        os.killpg(process.pid, signal.SIGKILL)
    except OSError:
        process.kill()


def at_fork(after_in_child: Callable[[], None]) -> None:
    """Has a function called in each forked child, where there are some."""
    if hasattr(os, "register_at_fork"):
        os.register_at_fork(after_in_child=after_in_child)


def started_apart() -> int:
    """The flags with which a command is started that `interrupt` ends."""
    flags: int = getattr(subprocess, "CREATE_NEW_PROCESS_GROUP", 0)
    return flags


def interrupt(process: Union[subprocess.Popen[bytes], subprocess.Popen[str]]) -> None:
    """Ends a command as Ctrl-C does. Windows refuses that without a console."""
    with contextlib.suppress(OSError):
        process.send_signal(getattr(signal, "CTRL_BREAK_EVENT") if IS_WINDOWS else signal.SIGINT)


def is_closed_pipe(error: BaseException) -> bool:
    """Whether an error of a write says that nobody reads any more. Windows says that an argument is invalid."""
    return isinstance(error, BrokenPipeError) or (
        IS_WINDOWS and isinstance(error, OSError) and error.errno == errno.EINVAL and error.filename is None
    )


def prepare_output() -> None:
    """Messages have names of files, which the character set of a pipe on Windows may not have: such letters are
    escaped.
    """
    for file in (sys.stdout, sys.stderr):
        if IS_WINDOWS and hasattr(file, "reconfigure"):
            file.reconfigure(errors="backslashreplace")


def processors() -> int:
    """How many processors this process may use."""
    return len(os.sched_getaffinity(0)) if hasattr(os, "sched_getaffinity") else os.cpu_count() or 1


# Which process a file is of

# Whether the system lists its processes, so that one can be known to be gone.
HAS_PROCESSES = os.path.isdir("/proc/self/ns")
# Bytes of a text that names a process, at most; and how one begins where there are no processes, if the file that it is
# in was locked.
MOST_OWNER, LOCKED = 1000, "locked"


def process_text(pid: int, is_locked: bool = False) -> str:
    """A text that names a process, and no other one: on this machine, since it was started, among the processes that
    this one sees.
    """
    if HAS_PROCESSES:
        return "\n".join([*process_space(), str(pid), process_start(pid), ""])
    return "\n".join([LOCKED if is_locked else "not locked", socket.gethostname(), str(pid), ""])


def process_space() -> tuple[str, str]:
    """The start of this machine, and the processes that this one sees."""
    with open("/proc/sys/kernel/random/boot_id", encoding="ascii") as file:
        return file.read().strip(), os.readlink("/proc/self/ns/pid")


def process_start(pid: Union[int, str]) -> str:
    """When a process was started, as the system has it; an empty text if it is gone, also if nobody waited for it
    yet.
    """
    try:
        with open(f"/proc/{pid}/stat", encoding="ascii", errors="replace") as file:
            state = file.read().rpartition(")")[2].split()
            return "" if state[0] in ("Z", "X") else state[19]
    except (OSError, IndexError):
        return ""


def is_gone(text: str) -> bool:
    """Whether the process that a text names is certainly gone. One of another machine, or among other processes, is
    not.
    """
    parts = text.split("\n")
    if (
        not HAS_PROCESSES
        or len(parts) != 5
        or not parts[2].isdecimal()
        or not parts[3]
        or tuple(parts[:2]) != process_space()
    ):
        return False
    return process_start(parts[2]) != parts[3]


def is_abandoned(descriptor: int) -> bool:
    """Whether the process whose text is in a file is certainly gone. Where processes are not listed, the lock of the
    file says so, if it was made on this machine: a system, or a file system, that cannot lock says nothing."""
    text = os.read(descriptor, MOST_OWNER).decode("utf-8", "replace")
    if not (
        is_gone(text)
        if HAS_PROCESSES
        else text.split("\n")[:2] == [LOCKED, socket.gethostname()] and text.count("\n") == 3
    ):
        return False
    try:
        lock(descriptor)
    except BlockingIOError:
        # A child of that process may have it.
        return False
    except OSError:
        return HAS_PROCESSES
    return True


def read_by_process(pid: int, path: AnyPath) -> Optional[int]:
    """How many bytes of a file a process has read, or None where the system does not say so."""
    real = os.path.realpath(path)
    with contextlib.suppress(OSError, ValueError):
        for name in os.listdir(f"/proc/{pid}/fd"):
            if os.readlink(f"/proc/{pid}/fd/{name}") == real:
                with open(f"/proc/{pid}/fdinfo/{name}", encoding="ascii") as file:
                    return int(file.readline().removeprefix("pos:"))
    return None


def paths_of_process(pid: int) -> Iterator[str]:
    """The paths of the files that a process has open, where the system lists them."""
    with contextlib.suppress(OSError):
        for name in os.listdir(f"/proc/{pid}/fd"):
            yield os.readlink(f"/proc/{pid}/fd/{name}")


# Names

LIBRARY = "wokureti.dll" if IS_WINDOWS else "libwokureti.0.dylib" if IS_MACOS else "libwokureti.so.0"
# The flags of processors that run the faster programs for x86-64.
V3 = {"avx2", "bmi1", "bmi2", "f16c", "fma", "abm", "movbe"}


def program_file(name: str) -> str:
    """The name of the file of a program."""
    return f"{name}.exe" if IS_WINDOWS else name


@functools.lru_cache(maxsize=None)
def builds() -> list[str]:
    """The processors for which there are builds that run here, the best one first; one of no name where there is only
    one build.
    """
    if NAME != "Linux" or os.uname().machine != "x86_64":
        return [""]
    try:
        with open("/proc/cpuinfo", encoding="ascii", errors="replace") as file:
            flags = set(file.read(1 << 14).split())
    except OSError:
        flags = set()
    return (["x86-64-v3"] if V3 <= flags else []) + ["x86-64-v2"]


def library_places() -> list[str]:
    """Where the libraries that run here are, from the folder of the library of an installed package: the one for the
    best processor first, as glibc's loader has it.
    """
    return [f"glibc-hwcaps/{build}" for build in builds()[:-1]] + [""]


def state_folder() -> str:
    """The folder for what a program of this user keeps."""
    named = os.environ.get("XDG_STATE_HOME", "")
    if os.path.isabs(named):
        home = named
    elif IS_WINDOWS:
        home = os.environ.get("LOCALAPPDATA") or os.path.expanduser(os.path.join("~", "AppData", "Local"))
    else:
        home = os.path.expanduser("~/Library/Application Support" if IS_MACOS else "~/.local/state")
    return os.path.join(home, "wokureti")


def has_windows() -> bool:
    """Whether a browser with windows can be shown."""
    return IS_WINDOWS or IS_MACOS or bool(os.environ.get("DISPLAY") or os.environ.get("WAYLAND_DISPLAY"))


# What separates the paths of a list for the programs. On Windows a path has a `:` after the letter of its drive.
SEPARATOR = ";" if IS_WINDOWS else ":"
PLAIN = re.compile("[A-Za-z0-9._/+-]*")


def sources_of(text: str) -> list[str]:
    """The paths of a list: `a.ivf:b.ivf` elsewhere than on Windows, and `a.ivf;b.ivf`. A `;` in the name of a file that
    is there separates nothing.
    """
    parts = [text] if IS_WINDOWS else text.split(":")
    return [path for part in parts for path in ([part] if os.path.isfile(part) else part.split(";"))]


def slashed(path: str) -> str:
    """A path as it is written on every system: Windows takes `/` too."""
    return path.replace("\\", "/") if IS_WINDOWS else path


def names_of(path: str) -> list[str]:
    """The names that the last part of a path may have: a list of edits that was made on Windows has its separators."""
    return list(dict.fromkeys((os.path.basename(path), ntpath.basename(path))))


def plain_folder() -> str:
    """A folder for temporary files whose path neither a list of paths nor a shell divides. On Windows no shell gets it,
    and there is no other one.
    """
    folder = tempfile.gettempdir()
    if not IS_WINDOWS:
        return folder if PLAIN.fullmatch(folder) else "/tmp"
    if SEPARATOR in folder:
        raise ValueError(
            f"the folder for temporary files, {folder}, has a `{SEPARATOR}` in its path: name another one in the"
            " variable TMP"
        )
    return folder


def command_text(words: Sequence[str]) -> str:
    """A command line of these words, as a shell of the system reads it."""
    return subprocess.list2cmdline(words) if IS_WINDOWS else shlex.join(words)


def words_of_command(text: str) -> list[str]:
    """The words of a command line, as the shell of the system has them: on Windows a backslash is a part of a path."""
    if not IS_WINDOWS:
        return shlex.split(text)
    words = shlex.split(text, posix=False)
    return [word[1:-1] if len(word) > 1 and word[0] == word[-1] and word[0] in "\"'" else word for word in words]
