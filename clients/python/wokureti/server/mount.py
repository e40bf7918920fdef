"""wokureti mount: a folder in which the edited stream is a file of each kind, for programs that open files by a
path.
"""

from __future__ import annotations

import contextlib
import errno
import os
import stat
import subprocess
import sys
import threading
from types import ModuleType
from typing import Callable, Optional, Protocol, Union

from .. import system
from ..errors import Changed, Ended, Failed, Lost, Unreadable
from ..base import waits
from ..base.progress import say
from .folders import EDITS, FRAMES, File, Folder, Revision
from .live import Live
from .web import Server

WRITES = os.O_WRONLY | os.O_RDWR
# Seconds between two looks at whether a folder is unmounted.
OFTEN = 0.02
# The operations that are answered, and those that would change the folder.
DONE = (
    "init",
    "destroy",
    "getattr",
    "readdir",
    "open",
    "read",
    "write",
    "truncate",
    "flush",
    "fsync",
    "release",
    "statfs",
    "access",
    "utimens",
)
REFUSED = ("chmod", "chown", "create", "mkdir", "unlink", "rmdir", "rename", "symlink", "link", "mknod")


class Mounter(Protocol):
    """What mounts a folder."""

    def mount(self, operations: Operations, folder: str, others: bool) -> None:
        """Mounts the folder until it is unmounted; with `others` other users may read it. `RuntimeError` if it cannot
        be mounted.
        """

    def leave(self) -> None:
        """Unmounts the folder in an operation."""

    def end(self, folder: str) -> None:
        """Makes it unmount the folder, from another thread. It is called until that is done."""


class ByFusepy:
    """A folder that fusepy mounts, with libfuse 2. It unmounts only in an operation."""

    def __init__(self, module: ModuleType) -> None:
        self.module = module

    def mount(self, operations: Operations, folder: str, others: bool) -> None:
        options = {"allow_other": True} if others else {}
        try:
            self.module.FUSE(
                operations,
                folder,
                foreground=True,
                direct_io=True,
                attr_timeout=0,
                entry_timeout=0,
                auto_unmount=True,
                fsname="wokureti",
                **options,
            )
        except RuntimeError as error:
            raise RuntimeError(f"libfuse gave status {error}") from None

    def leave(self) -> None:
        self.module.fuse_exit()

    def end(self, folder: str) -> None:
        with contextlib.suppress(OSError):
            os.stat(folder)


def mounter() -> Mounter:
    """What mounts a folder here: pyfuse3 on Linux if it is there, else fusepy, which Debian calls so and PyPI calls
    fuse.
    """
    if system.IS_WINDOWS:
        raise Failed(
            "mount needs FUSE, which Windows does not have: `wokureti serve` has the same frames for programs that open"
            " an address"
        )
    if not system.IS_MACOS:
        with contextlib.suppress(ImportError, OSError):
            from .inodes import ByPyfuse3

            return ByPyfuse3()
    for name in ("fusepy", "fuse"):
        try:
            found = __import__(name)
        except (ImportError, OSError):
            continue
        # python3-fuse, another module, has the second name too.
        if hasattr(found, "FuseOSError"):
            return ByFusepy(found)
    what = (
        "macFUSE and fusepy (pip install fusepy)"
        if system.IS_MACOS
        else "python3-pyfuse3 and fuse3 (or pip install fusepy)"
    )
    raise Failed(f"to mount a folder, install {what}, or use `wokureti serve`")


def failure(number: int) -> OSError:
    return OSError(number, os.strerror(number))


class Open:
    """An open file: its revision and what it reads, or the text that is written to it."""

    def __init__(self, revision: Optional[Revision], file: File, text: Optional[bytearray] = None) -> None:
        self.revision, self.file, self.text, self.is_changed = revision, file, text, False


class Operations:
    """What the system asks of the folder. Paths begin with `/`. `leave` unmounts it in an operation."""

    def __init__(self, folder: Folder, leave: Callable[[], object]) -> None:
        self.folder, self.leave = folder, leave
        # Set when the folder is to be unmounted: the next operation does that, since libfuse 2 takes it only from one.
        self.is_over = False
        self.opened: dict[int, Open] = {}
        self.count, self.counting = 0, threading.Lock()
        # Whether the list of edits was cut to nothing before it is opened: the system does so in two steps.
        self.is_cut = False

    def __call__(self, operation: str, *given: object) -> object:
        """Does an operation. Errors are those of the system."""
        if self.is_over and operation not in ("init", "destroy"):
            self.leave()
            raise failure(errno.ENODEV)
        if operation not in (*DONE, *REFUSED):
            raise failure(errno.ENOSYS)
        try:
            return getattr(self, operation)(*given)
        except KeyError:
            raise failure(errno.ENOENT) from None
        except Changed:
            raise failure(errno.ESTALE) from None
        except ValueError:
            raise failure(errno.EINVAL) from None
        except (Unreadable, Lost, Ended, MemoryError):
            raise failure(errno.EIO) from None

    def refuse(self, *given: object) -> None:
        """Nothing is made, renamed or removed. fusepy asks for no operation that is not here."""
        raise failure(errno.EROFS)

    chmod = chown = create = mkdir = unlink = rmdir = rename = symlink = link = mknod = refuse

    def init(self, path: str) -> None:
        """The folder is there."""

    def destroy(self, path: str) -> None:
        """The folder goes."""

    def getattr(self, path: str, handle: Optional[int] = None) -> dict[str, Union[int, float]]:
        name, (user, group) = path[1:], system.owner()
        if name in ("", FRAMES):
            when = self.folder.now().time
            return {
                "st_mode": stat.S_IFDIR | 0o755,
                "st_nlink": 2,
                "st_mtime": when,
                "st_ctime": when,
                "st_atime": when,
                "st_uid": user,
                "st_gid": group,
            }
        revision, file = self.folder.open(name)
        when = self.folder.failed if revision is None else revision.time
        mode = 0o644 if name == EDITS else 0o444
        return {
            "st_mode": stat.S_IFREG | mode,
            "st_nlink": 1,
            "st_size": file.size,
            "st_mtime": when,
            "st_ctime": when,
            "st_atime": when,
            "st_uid": user,
            "st_gid": group,
        }

    def readdir(self, path: str, handle: int) -> list[str]:
        return [".", "..", *(self.folder.names() if path == "/" else self.folder.pictures())]

    def open(self, path: str, flags: int) -> int:
        writes = bool(flags & WRITES)
        if writes and path[1:] != EDITS:
            raise failure(errno.EACCES)
        revision, file = self.folder.open(path[1:])
        found = Open(revision, file, bytearray(file.read(0, file.size)) if writes else None)
        if writes and (self.is_cut or flags & os.O_TRUNC):
            found.text, found.is_changed, self.is_cut = bytearray(), True, False
        with self.counting:
            self.count += 1
            self.opened[self.count] = found
            return self.count

    def read(self, path: str, size: int, start: int, handle: int) -> bytes:
        found = self.opened[handle]
        if found.text is not None:
            return bytes(found.text[start : start + size])
        return self.folder.read(found.revision, found.file, start, size)

    def write(self, path: str, data: bytes, start: int, handle: int) -> int:
        text = self.opened[handle].text
        if text is None:
            raise failure(errno.EBADF)
        text.extend(bytes(max(0, start - len(text))))
        text[start : start + len(data)] = data
        self.opened[handle].is_changed = True
        return len(data)

    def truncate(self, path: str, length: int, handle: Optional[int] = None) -> None:
        if path[1:] != EDITS:
            raise failure(errno.EACCES)
        with self.counting:
            # A file that is opened to be written anew is cut right after or before that, by its name.
            writers = (
                [found for found in self.opened.values() if found.text is not None]
                if handle is None
                else [self.opened[handle]]
            )
        self.is_cut = not writers and length == 0
        for found in writers:
            if found.text is None:
                raise failure(errno.EBADF)
            found.text = found.text[:length] + bytes(max(0, length - len(found.text)))
            found.is_changed = True

    def flush(self, path: str, handle: int) -> None:
        found = self.opened[handle]
        if found.is_changed and found.text is not None:
            found.is_changed = False
            self.folder.edit(found.text.decode(errors="replace"))

    def fsync(self, path: str, is_data: int, handle: int) -> None:
        return self.flush(path, handle)

    def release(self, path: str, handle: int) -> None:
        with self.counting:
            del self.opened[handle]

    def statfs(self, path: str) -> dict[str, int]:
        return {"f_bsize": 4096, "f_frsize": 4096, "f_namemax": 255}

    def access(self, path: str, mode: int) -> None:
        """What may be done is said when it is tried."""

    def utimens(self, path: str, times: Optional[tuple[float, float]] = None) -> None:
        """Times are those of edits."""


def clear(folder: str) -> None:
    """Unmounts a folder whose program is gone."""
    try:
        os.stat(folder)
    except OSError as error:
        if error.errno != errno.ENOTCONN:
            raise
        for words in (["fusermount3", "-u", folder], ["fusermount", "-u", folder], ["umount", folder]):
            with contextlib.suppress(OSError):
                if subprocess.run(words, capture_output=True, check=False).returncode == 0:
                    return


class Mount:
    """A folder that a thread of its own mounts. In the main thread libfuse takes the signals over, and one that comes
    right before that ends the process.
    """

    def __init__(self, by: Mounter, operations: Operations, folder: str, others: bool) -> None:
        self.by, self.operations, self.folder, self.others = by, operations, folder, others
        self.gone = threading.Event()
        self.error: Optional[BaseException] = None
        self.thread = threading.Thread(target=self.work, daemon=True)

    def work(self) -> None:
        try:
            if not self.operations.is_over:
                self.by.mount(self.operations, self.folder, self.others)
        except BaseException as error:
            self.error = error
        finally:
            self.gone.set()

    def wait(self) -> None:
        """Mounts the folder until it is unmounted."""
        self.thread.start()
        while not self.gone.wait(waits.LONGEST):
            pass
        if self.error is not None:
            raise self.error

    def end(self) -> None:
        """Unmounts the folder, also if it is just being mounted."""
        self.operations.is_over = True
        while self.thread.ident is not None and not self.gone.wait(OFTEN):
            self.by.end(self.folder)


def run(live: Live, folder: str, others: bool = False, server: Optional[Server] = None) -> int:
    """Mounts the folder until it is unmounted or the process is interrupted. `server` serves the same session
    meanwhile.
    """
    by = mounter()
    clear(folder)
    if not os.path.isdir(folder):
        raise ValueError(f"{folder} is not a folder: make it first")
    if os.listdir(folder):
        raise ValueError(f"{folder} is not empty: mount in an empty folder")
    mount = Mount(by, Operations(Folder(live), by.leave), folder, others)
    try:
        if server is not None:
            threading.Thread(target=server.serve, daemon=True).start()
        print(os.path.join(folder, ""), file=sys.stdout, flush=True)
        say("Ctrl-C or umount ends it")
        mount.wait()
    except KeyboardInterrupt:
        pass
    except RuntimeError as error:
        raise ValueError(f"{folder} could not be mounted: {error}") from None
    finally:
        mount.end()
        if server is not None:
            server.end()
            server.routes.close()
        live.close()
    return 0
