"""A mounted folder by pyfuse3, with libfuse 3, which names files by numbers and asks in one thread. Each operation is
done in a thread of its own, so that a frame that is decoded holds up no other file.
"""

from __future__ import annotations

import contextlib
import errno
import os
import stat
from typing import TYPE_CHECKING, Dict, List, Optional

import pyfuse3
import trio

from ..base.progress import say
from .folders import FRAMES

if TYPE_CHECKING:
    from .mount import Operations

NANO = 10**9


class Inodes(pyfuse3.Operations):  # type: ignore[misc]  # pyfuse3 has no types.
    """The operations of a folder, for pyfuse3. A number is that of a path for ever."""

    supports_dot_lookup = False

    def __init__(self, operations: Operations) -> None:
        super().__init__()
        self.operations = operations
        self.paths: Dict[int, str] = {pyfuse3.ROOT_INODE: "/"}
        self.numbers: Dict[str, int] = {"/": pyfuse3.ROOT_INODE}
        # The names of the folders that are read.
        self.listed: Dict[int, List[str]] = {}
        self.count = 0

    def number(self, path: str) -> int:
        if path not in self.numbers:
            number = pyfuse3.ROOT_INODE + len(self.numbers)
            self.numbers[path], self.paths[number] = number, path
        return self.numbers[path]

    async def done(self, operation: str, *given: object) -> object:
        """Does an operation. The folder may be unmounted meanwhile: then nobody waits for it any more."""
        try:
            found: object = await trio.to_thread.run_sync(self.operations, operation, *given, cancellable=True)
            return found
        except OSError as error:
            raise pyfuse3.FUSEError(error.errno or errno.EIO) from None
        except Exception as error:
            # A mistake of this program: the folder stays.
            say(f"{operation}: {type(error).__name__}: {error}")
            raise pyfuse3.FUSEError(errno.EINVAL) from None

    def entry(self, path: str, mode: int) -> pyfuse3.EntryAttributes:
        """What is told of a path. The system asks each time again, since an edit changes all."""
        entry = pyfuse3.EntryAttributes()
        entry.st_ino, entry.st_mode, entry.generation = self.number(path), mode, 0
        entry.entry_timeout = entry.attr_timeout = 0
        return entry

    async def attributes(self, path: str) -> pyfuse3.EntryAttributes:
        found = await self.done("getattr", path)
        assert isinstance(found, dict)
        entry = self.entry(path, found["st_mode"])
        entry.st_nlink, entry.st_size = found["st_nlink"], found.get("st_size", 0)
        entry.st_uid, entry.st_gid = found["st_uid"], found["st_gid"]
        entry.st_atime_ns, entry.st_mtime_ns, entry.st_ctime_ns = (
            int(found[name] * NANO) for name in ("st_atime", "st_mtime", "st_ctime")
        )
        return entry

    async def lookup(self, parent: int, name: bytes, context: object = None) -> pyfuse3.EntryAttributes:
        return await self.attributes(os.path.join(self.paths[parent], os.fsdecode(name)))

    async def getattr(self, number: int, context: object = None) -> pyfuse3.EntryAttributes:
        return await self.attributes(self.paths[number])

    async def setattr(
        self,
        number: int,
        entry: pyfuse3.EntryAttributes,
        fields: pyfuse3.SetattrFields,
        handle: Optional[int],
        context: object = None,
    ) -> pyfuse3.EntryAttributes:
        if fields.update_mode or fields.update_uid or fields.update_gid:
            raise pyfuse3.FUSEError(errno.EROFS)
        if fields.update_size:
            await self.done("truncate", self.paths[number], entry.st_size, handle)
        return await self.attributes(self.paths[number])

    async def open(self, number: int, flags: int, context: object = None) -> pyfuse3.FileInfo:
        handle = await self.done("open", self.paths[number], flags)
        return pyfuse3.FileInfo(fh=handle, direct_io=True, keep_cache=False)

    async def read(self, handle: int, start: int, size: int) -> object:
        return await self.done("read", "", size, start, handle)

    async def write(self, handle: int, start: int, data: bytes) -> object:
        return await self.done("write", "", data, start, handle)

    async def flush(self, handle: int) -> None:
        await self.done("flush", "", handle)

    async def fsync(self, handle: int, is_data: bool) -> None:
        await self.done("fsync", "", is_data, handle)

    async def release(self, handle: int) -> None:
        await self.done("release", "", handle)

    async def opendir(self, number: int, context: object = None) -> int:
        path = self.paths[number]
        found = await self.done("readdir", path, number)
        assert isinstance(found, list)
        self.count += 1
        self.listed[self.count] = [os.path.join(path, name) for name in found if name not in (".", "..")]
        return self.count

    async def readdir(self, handle: int, start: int, token: pyfuse3.ReaddirToken) -> None:
        # The size of a file is asked for when it is looked at: to know that of clip.webm, it is made.
        for place, path in enumerate(self.listed[handle][start:], start + 1):
            entry = self.entry(path, stat.S_IFDIR | 0o755 if path == f"/{FRAMES}" else stat.S_IFREG | 0o444)
            if not pyfuse3.readdir_reply(token, os.fsencode(os.path.basename(path)), entry, place):
                return

    async def releasedir(self, handle: int) -> None:
        del self.listed[handle]

    async def statfs(self, context: object = None) -> pyfuse3.StatvfsData:
        found = pyfuse3.StatvfsData()
        found.f_bsize, found.f_frsize, found.f_namemax = 4096, 4096, 255
        return found

    async def refused(self, *given: object) -> None:
        raise pyfuse3.FUSEError(errno.EROFS)

    create = mkdir = unlink = rmdir = rename = symlink = link = mknod = refused


class ByPyfuse3:
    """A folder that pyfuse3 mounts."""

    def __init__(self) -> None:
        self.scope: Optional[trio.CancelScope] = None
        self.token: Optional[trio.lowlevel.TrioToken] = None

    def mount(self, operations: Operations, folder: str, others: bool) -> None:
        options = {"fsname=wokureti", "auto_unmount", *(["allow_other"] if others else [])}
        pyfuse3.init(Inodes(operations), folder, options)
        try:
            trio.run(self.serve, operations)
        finally:
            pyfuse3.close(unmount=True)

    async def serve(self, operations: Operations) -> None:
        self.scope, self.token = trio.CancelScope(), trio.lowlevel.current_trio_token()
        with self.scope:
            if not operations.is_over:
                await pyfuse3.main()

    def leave(self) -> None:
        """It is unmounted by `end`."""

    def end(self, folder: str) -> None:
        if self.token is not None and self.scope is not None:
            with contextlib.suppress(trio.RunFinishedError):
                self.token.run_sync_soon(self.scope.cancel)
