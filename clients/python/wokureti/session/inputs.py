"""The files that a session was opened with, kept open so that the bytes of their packets can be read later."""

from __future__ import annotations

import errno
import functools
import hashlib
import os
import shutil
import stat
import tempfile
import threading
import weakref
from array import array
from typing import IO, BinaryIO, Callable, Iterable, Iterator, Optional, Sequence, Tuple, Union

from .. import system
from ..errors import NotIvf, NotVideo
from ..base import checks, programs, rooms
from ..base.checks import AnyBytes, AnyPath
from ..base.progress import Copied, Reading
from ..media import containers, elements, ivf, looks, times, webm
from ..media.ivf import Rate
from ..media.webm import AnyMedia
from . import convert

# The paths of vp8serve and vp8list.
Tools = Tuple[str, str]

# Bytes that are read at a time, and of a file that is read whole.
WINDOW, PART = 1 << 20, 1 << 26


class Input:
    """A stream of a session: the word that the program gets for it, and its packets. Both read the same file: IVF, or
    WebM, of which `facts` are those of its beginning. It is closed when it is collected. `tools` are vp8serve and
    vp8list."""

    def __init__(self, path: str, tools: Optional[Tools] = None) -> None:
        self.path = self.word = path
        self.tools = tools or (programs.find("vp8serve"), programs.find("vp8list"))
        self.descriptor: Optional[int] = None
        self.closing: Optional[Callable[[], object]] = None
        self.signature: Optional[webm.Signature] = None
        self.facts: Optional[webm.Facts] = None
        self.head = ivf.EMPTY
        self.index: Optional[ivf.Index] = None
        self.lock, self.digesting, self.damaging = threading.Lock(), threading.Lock(), threading.Lock()
        # What was asked for before.
        self.known_digest: Optional[str] = None
        self.known_step: Optional[int] = None
        self.known_durations: Optional[array[int]] = None
        self.known_left: Optional[int] = None
        self.known_rate: Optional[Rate] = None
        self.known_damage: Optional[list[str]] = None
        self.is_shared = False
        self.room: Optional[rooms.Room] = None
        if path == "-":
            return
        self.hold(os.open(path, os.O_RDONLY | system.BINARY))
        descriptor = self.opened()
        kind = os.fstat(descriptor).st_mode
        if stat.S_ISDIR(kind):
            self.close()
            raise IsADirectoryError(errno.EISDIR, os.strerror(errno.EISDIR), path)
        if not stat.S_ISREG(kind) or system.is_device(path):
            # Another process cannot open a pipe again, and /dev/stdin is another file there.
            self.share(stat.S_ISREG(kind))
        descriptor = self.opened()
        self.signature = self.sign(os.fstat(descriptor))
        if webm.is_marked(descriptor):
            self.facts = webm.facts_of(descriptor) or webm.PLAIN
            self.head = self.facts.head

    @functools.cached_property
    def media(self) -> Optional[AnyMedia]:
        """What the container has, or had, besides the packets of the video; None if there is none."""
        return containers.media_of(self.path) if self.facts is None else webm.Around(self.path, self.facts, self)

    def folder(self) -> str:
        """A folder for files that are made of this one, which goes when it is closed."""
        with self.lock:
            self.room = room = self.room or rooms.Room()
        return room.name

    def readable(self) -> tuple[str, tuple[int, ...]]:
        """The path by which a program that is started reads the file that is open here, and the descriptors that it has
        to get for that.
        """
        if system.HAS_DESCRIPTOR_PATHS:
            return system.descriptor_path(self.opened()), (self.opened(),)
        self.check_opened()
        return checks.path(self.word), ()

    def hold(self, descriptor: int) -> None:
        """Keeps a file open, and no other."""
        if self.closing is not None:
            self.closing()
        self.descriptor, self.closing = descriptor, weakref.finalize(self, os.close, descriptor)

    def share(self, is_file: bool) -> None:
        """Makes the program able to open what was opened here: by its descriptor, or as a copy where that has no
        path.
        """
        if not system.HAS_DESCRIPTOR_PATHS:
            self.room = rooms.Room()
            self.word = os.path.join(self.room.name, "copied.ivf")
            with open(self.word, "xb") as file:
                self.spool(file, self.word)
            return
        if not is_file:
            with tempfile.TemporaryFile() as file:
                # Not dup: the program opens it again, and reads from the start.
                self.spool(file, system.descriptor_path(file.fileno()))
        self.word, self.is_shared = system.descriptor_path(self.opened()), True

    def spool(self, file: IO[bytes], path: str) -> None:
        """Copies a pipe to a file, and opens that by its path."""
        with open(self.opened(), "rb", closefd=False) as pipe:
            Copied(containers.name_of(self.path)).copy(pipe, file)
        file.flush()
        self.hold(os.open(path, os.O_RDONLY | system.BINARY))

    @staticmethod
    def sign(found: os.stat_result) -> webm.Signature:
        return found.st_dev, found.st_ino, found.st_size, found.st_mtime_ns

    def is_changed(self) -> bool:
        """Whether the file is no more the one that the program read."""
        return self.descriptor is not None and self.sign(os.fstat(self.descriptor)) != self.signature

    def check(self) -> None:
        """`OSError` if the file is no more the one that the program read."""
        if self.is_changed():
            raise OSError(f"{self.path} was changed since the session was opened")

    def check_opened(self) -> None:
        """The same right after the program read the file by its path."""
        self.check()
        if self.descriptor is not None and not self.is_shared and self.sign(os.stat(self.word)) != self.signature:
            raise OSError(f"{self.path} was changed while the session was opened")

    def records(self) -> ivf.Index:
        """The index of the packets, made when it is needed first. Other threads that need it wait."""
        index = self.index
        if index is None:
            with self.lock:
                index = self.index = self.read_index() if self.index is None else self.index
        return index

    def read_index(self) -> ivf.Index:
        if self.descriptor is None:
            return ivf.Index()
        try:
            if self.facts is not None:
                assert self.signature is not None
                return webm.index_of(self.tools[1], *self.readable(), self.signature, containers.name_of(self.path))
            self.head, index = ivf.read_index(self.descriptor)
            return index
        finally:
            self.check()

    def step(self) -> int:
        """The median of the steps between the time stamps of shown packets: the time of a frame. 1 if there is none."""
        if self.known_step is None:
            index = self.records()
            self.known_step = times.median_step(index.stamps, index.tags)
        return self.known_step

    def rate(self) -> Rate:
        """The frames a second, as a pair."""
        if self.known_rate is None:
            index = self.records()
            self.known_rate = times.rate_of(index.stamps, index.tags, times.base_of(self.head))
        return self.known_rate

    def frame_rate(self) -> Rate:
        """The frames a second in the first line of the frames, as a pair: those of the header of an IVF file."""
        if self.facts is None:
            return self.head.rate, self.head.scale
        return self.facts.served(self.step())

    def durations(self) -> array[int]:
        """The duration of each packet, in the time base of the file."""
        if self.known_durations is None:
            index = self.records()
            self.known_durations = times.durations(index.stamps, index.tags, self.step())
        return self.known_durations

    def extent(self) -> tuple[int, int]:
        """The number of packets, and of their bytes."""
        index = self.records()
        return len(index), sum(index.sizes)

    def damage(self) -> list[str]:
        """Sentences about a file that ends in the middle, or whose container is damaged."""
        if self.descriptor is None:
            return []
        return [*self.damage_around(), *ivf.damage_text(self.path, self.records(), self.left())]

    def damage_around(self) -> list[str]:
        """Sentences about the damage of the container, in which the packets are, or were."""
        if self.facts is None or self.descriptor is None:
            return containers.damage_of(self.path)
        with self.damaging:
            if self.known_damage is None:
                self.known_damage = elements.damage_of(self.tools[1], self.readable()[0], containers.name_of(self.path))
            return self.known_damage

    def left(self) -> int:
        """The number of bytes after the last whole record of an IVF file."""
        if self.facts is not None:
            return 0
        if self.known_left is None:
            self.known_left = ivf.left_after(self.opened(), self.records())
        return self.known_left

    def digest(self) -> str:
        """The SHA-256 of the packets, each after its size: what they are called and what their time stamps are does not
        matter. Read once.
        """
        with self.digesting:
            if self.known_digest is None:
                self.known_digest = self.read_digest()
            return self.known_digest

    def read_digest(self) -> str:
        found = hashlib.sha256()
        for data in self.contents_of(range(len(self.records()))):
            found.update(len(data).to_bytes(4, "little"))
            found.update(data)
        return found.hexdigest()

    def opened(self) -> int:
        """The descriptor. `OSError` if the session is over."""
        if self.descriptor is None:
            raise OSError(f"{self.path} is not open any more")
        return self.descriptor

    def bytes_at(self, size: int, place: int) -> bytes:
        """Bytes of the file. `OSError` if it is no more the one that the program read."""
        try:
            return system.pread_all(self.opened(), size, place)
        finally:
            self.check()

    def read(self, number: int, size: Optional[int] = None) -> bytes:
        """The bytes of a packet, or the first ones of them."""
        index = self.records()
        count = index.sizes[number]
        return self.bytes_at(count if size is None else min(size, count), index.starts[number])

    def read_records(self, first: int, end: int) -> Iterator[bytes]:
        """The bytes of packets as the records of an IVF file, piece by piece."""
        index = self.records()
        if self.facts is not None:
            yield from self.made_records(range(first, end))
            return
        place = index.starts[first] - ivf.RECORD.size
        stop = index.starts[end - 1] + index.sizes[end - 1]
        while place < stop:
            data = self.bytes_at(min(stop - place, ivf.WINDOW), place)
            place += len(data)
            yield data

    def made_records(self, numbers: Sequence[int]) -> Iterator[bytes]:
        """The same of packets that are no records in their file."""
        index, size = self.records(), 0
        records: list[bytes] = []
        for number, data in zip(numbers, self.contents_of(numbers)):
            records += [ivf.RECORD.pack(len(data), index.stamps[number]), data]
            size += len(data)
            if size >= ivf.WINDOW:
                yield b"".join(records)
                records, size = [], 0
        yield b"".join(records)

    def contents_of(self, numbers: Sequence[int]) -> Iterator[bytes]:
        """The bytes of packets that follow each other. What is between them is read too."""
        index = self.records()
        window, base = memoryview(b""), 0
        end = index.starts[numbers[-1]] + index.sizes[numbers[-1]] if numbers else 0
        for number in numbers:
            start, size = index.starts[number], index.sizes[number]
            if start < base or start + size > base + len(window):
                window, base = memoryview(self.bytes_at(min(max(size, WINDOW), end - start), start)), start
            yield window[start - base : start - base + size]

    def whole(self, most: int) -> bytes:
        """The bytes of the whole file, at most so many; those of an empty stream if there is none."""
        if self.path == "-":
            return ivf.EMPTY.text(0)
        size, done = min(most, os.fstat(self.opened()).st_size), 0
        pieces: list[bytes] = []
        with Reading(lambda: (containers.name_of(self.path), done, size)):
            while done < size:
                pieces.append(self.bytes_at(min(PART, size - done), done))
                done += len(pieces[-1])
        return b"".join(pieces)

    def close(self) -> None:
        if self.closing is not None:
            self.closing()
            self.descriptor = self.closing = None
        if self.room is not None:
            self.room.cleanup()


class Inputs:
    """The streams of a session, source 0 first. `tools` are vp8serve and vp8list."""

    def __init__(self, paths: Iterable[Union[str, AnyBytes, BinaryIO]], tools: Tools) -> None:
        self.all: list[Input] = []
        self.paths: list[str] = []
        self.room: Optional[rooms.Room] = None
        try:
            for path in paths:
                self.paths.append(path if isinstance(path, str) else self.written(path))
                is_read = os.path.isfile(self.paths[-1]) and webm.is_read(self.paths[-1], *tools)
                self.all.append(Input(self.paths[-1] if is_read else self.taken_out(self.paths[-1]), tools))
        except BaseException:
            self.close()
            raise

    def written(self, content: Union[AnyBytes, BinaryIO]) -> str:
        """The path of a file with what was given in place of a path: the bytes of a file, or one that is open for
        reading, from where it is.
        """
        if self.room is None:
            self.room = rooms.Room()
        path = os.path.join(self.room.name, f"given-{len(self.paths)}")
        with open(path, "xb") as file:
            if isinstance(content, (bytes, bytearray, memoryview)):
                file.write(content)
            else:
                shutil.copyfileobj(content, file, 1 << 20)
        with open(path, "rb") as file:
            head = file.read(ivf.HEAD.size)
        try:
            if convert.kind_of(head) is None:
                ivf.parse_head(head)
        except NotIvf as error:
            # The file has no name that says anything, and is gone when the program has reported it.
            name = f"source {len(self.paths)}" if self.paths else "the stream"
            raise NotVideo(1, looks.sentence(path, name, error)) from None
        return path

    def taken_out(self, path: str) -> str:
        """The path, or of a file in another container that of its packets."""
        if path == "-" or not os.path.isfile(path):
            return path
        with open(path, "rb") as file:
            if convert.kind_of(file.read(12)) is None:
                return path
        if self.room is None:
            self.room = rooms.Room()
        return convert.as_ivf(path, self.room.name, is_quiet=True)

    @property
    def words(self) -> list[str]:
        """What the program gets for each stream."""
        return [item.word for item in self.all]

    @property
    def shared(self) -> tuple[int, ...]:
        """The descriptors that the program opens by number."""
        return tuple(item.opened() for item in self.all if item.is_shared)

    def check(self) -> None:
        for item in self.all:
            item.check_opened()

    def close(self) -> None:
        for item in self.all:
            item.close()
        if self.room is not None:
            self.room.cleanup()


def is_input(path: AnyPath, paths: Iterable[AnyPath]) -> bool:
    """Whether a file that is to be written is one of these."""
    return any(other != "-" and checks.is_same_file(path, other) for other in paths)
