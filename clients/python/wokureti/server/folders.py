"""The files of a mounted stream, as they are at a revision: nothing is written, and each part of a file is made when it
is read.
"""

from __future__ import annotations

import bisect
import os
import threading
import time
from array import array
from collections import OrderedDict
from itertools import accumulate
from typing import Iterator, Optional, Protocol, Tuple, Union

from .. import system
from ..errors import Changed, Refused, TooManyRuns, Unreadable, Unserved
from ..base.checks import AnyBytes
from ..base.lines import EDITS as EDIT_WORDS, first_word, lines_in, lines_of
from ..media import ivf, png
from ..media.y4m import MARK
from ..session.contents import Contents
from ..session.frames import frame_of
from .live import Live
from .virtual import Clip

# A revision and a frame of it, as samples or as a picture.
Key = Union[Tuple[int, int], Tuple[int, int, str]]

# Bytes of pictures that are kept for the next read: programs read a frame in many pieces.
MOST_KEPT = 64 << 20
CLIP, PACKETS, EDITS, ERROR, FINDINGS, FACTS, FRAMES = (
    "clip.y4m",
    "clip.ivf",
    "edits.txt",
    "edits.err",
    "findings.txt",
    "packets.jsonl",
    "frames",
)
CONTAINERS = ("clip.webm", "clip.mkv")


class File(Protocol):
    """A file: its size, and its bytes from one place to another."""

    size: int

    def read(self, start: int, end: int) -> AnyBytes:
        ...


class Text:
    """A file whose bytes are here."""

    def __init__(self, data: bytes) -> None:
        self.data, self.size = data, len(data)

    def read(self, start: int, end: int) -> bytes:
        return self.data[start:end]


class OnDisk:
    """A file that was made on the disk, and has no name there any more."""

    def __init__(self, path: str) -> None:
        self.file = system.open_to_remove(path)
        self.size = os.fstat(self.file.fileno()).st_size

    def read(self, start: int, end: int) -> bytes:
        return system.pread_all(self.file.fileno(), end - start, start)


class Packets:
    """The packets of source 0 as an IVF file with new time stamps: any of its bytes, made of the records that they
    touch.
    """

    def __init__(self, contents: Contents) -> None:
        self.contents, self.numbers = contents, array("I", contents.streams[0])
        self.stamps, _ = contents.stamps(0, self.numbers)
        self.head = contents.inputs.all[0].head.text(len(self.numbers))
        sizes = (ivf.RECORD.size + contents.size(number) for number in self.numbers)
        self.places = array("Q", accumulate(sizes, initial=len(self.head)))
        self.size = self.places[-1]

    def read(self, start: int, end: int) -> bytes:
        pieces = [self.head[start:end]]
        place = max(0, bisect.bisect_right(self.places, start) - 1)
        stop = min(len(self.numbers), bisect.bisect_left(self.places, end))
        for at, data in enumerate(self.contents.data(self.numbers[place:stop]), place):
            text = ivf.RECORD.pack(len(data), self.stamps[at]) + data
            pieces.append(text[max(0, start - self.places[at]) : end - self.places[at]])
        return b"".join(pieces)


class Frames:
    """All frames as one file; a frame that is refused has its place, and cannot be read."""

    def __init__(self, clip: Clip, kept: Kept) -> None:
        self.clip, self.kept, self.size = clip, kept, clip.length

    def frame(self, number: int) -> bytes:
        found = self.kept.get((self.clip.revision, number))
        return (
            found
            if found is not None
            else self.kept.put((self.clip.revision, number), bytes(self.clip.frames([number])[0]))
        )

    def read(self, start: int, end: int) -> bytes:
        head, size = self.clip.header, self.clip.frame_size
        pieces, end = [head[start:end]], min(end, self.size)
        if end > len(head):
            first, last = max(0, start - len(head)) // size, (end - len(head) - 1) // size
            for number in range(first, last + 1):
                place = len(head) + number * size
                text = MARK + self.frame(number)
                pieces.append(text[max(0, start - place) : end - place])
        return b"".join(pieces)


class Picture:
    """A frame as PNG, whose size is known before it is made."""

    def __init__(self, live: Live, revision: int, number: int, size: tuple[int, int], kept: Kept) -> None:
        self.live, self.revision, self.number, self.kept = live, revision, number, kept
        self.size = png.stored_size(*size)

    def read(self, start: int, end: int) -> bytes:
        key = (self.revision, self.number, "png")
        text = self.kept.get(key)
        if text is None:
            frame = frame_of(self.number, *self.live.picture(self.number, self.revision))
            text = self.kept.put(key, png.stored_text_of(frame.width, frame.height, frame.rgb().tobytes()))
        return text[start:end]


class Kept:
    """The texts that were made last."""

    def __init__(self) -> None:
        self.items: OrderedDict[Key, bytes] = OrderedDict()
        self.bytes, self.lock = 0, threading.Lock()

    def get(self, key: Key) -> Optional[bytes]:
        with self.lock:
            if key in self.items:
                self.items.move_to_end(key)
            return self.items.get(key)

    def put(self, key: Key, text: bytes) -> bytes:
        with self.lock:
            if key not in self.items:
                self.items[key] = text
                self.bytes += len(text)
            while self.bytes > MOST_KEPT and len(self.items) > 1:
                self.bytes -= len(self.items.popitem(last=False)[1])
        return text


class Revision:
    """The files at one revision, each made when it is looked at first."""

    def __init__(self, live: Live, number: int, kept: Kept) -> None:
        self.live, self.number, self.kept = live, number, kept
        self.time, self.lock = time.time(), threading.RLock()
        self.files: dict[str, File] = {}
        self.outcomes = live.outcomes()[1]

    def file(self, name: str) -> File:
        """A file. `KeyError` if there is none of this name."""
        with self.lock:
            if name not in self.files:
                self.files[name] = self.make(name)
            return self.files[name]

    def make(self, name: str) -> File:
        live = self.live
        with live.lock:
            if live.revision != self.number:
                raise Changed
            contents = live.contents()
            if name == PACKETS:
                return Packets(contents)
            if name == EDITS:
                return Text("".join(f"{line}\n" for line in live.session.edits).encode())
            if name == FACTS:
                found = live.ask(lambda session: session.ask(f"list 0 {len(contents.streams[0])}", 0))
                return Text("".join(f"{line}\n" for line in lines_of(found)).encode())
            if name in CONTAINERS:
                return self.container(contents, name)
        if name == CLIP:
            return self.clip()
        if name == FINDINGS:
            return Text("".join(f"{line}\n" for line in (*self.refused(), *live.findings()[1])).encode())
        folder, _, number = name.partition("/")
        number, _, ending = number.partition(".")
        if (
            folder != FRAMES
            or ending != "png"
            or not number.isdecimal()
            or name != picture_name(int(number))
            or int(number) >= self.outcomes.count
        ):
            raise KeyError(name)
        outcome = self.outcomes.of_frame(int(number))
        return Picture(
            live,
            self.number,
            int(number),
            outcome if isinstance(outcome, tuple) else self.outcomes.size or (1, 1),
            self.kept,
        )

    def clip(self) -> File:
        try:
            clip = Clip(self.live, "error")
        except (Unserved, TooManyRuns):
            # No frame is served: there is no size.
            return Text(b"")
        if clip.revision != self.number:
            raise Changed
        return Frames(clip, self.kept)

    def container(self, contents: Contents, name: str) -> File:
        path = os.path.join(self.live.room.name, f"{self.number}-{name}")
        contents.save(path, self.live.pad, 0, True, self.live.sound, self.live.notice)
        return OnDisk(path)

    def refused(self) -> Iterator[str]:
        """A line for each run of frames that are not served."""
        start = 0
        for end, (_, outcome) in zip(self.outcomes.ends, self.outcomes.runs):
            if not self.outcomes.is_served(outcome):
                yield f"frames {start} to {end - 1}: {self.outcomes.reply(outcome)}"
            start = end


def picture_name(number: int) -> str:
    return f"{FRAMES}/{number:06}.png"


class Folder:
    """The folder of a stream that is edited meanwhile."""

    def __init__(self, live: Live) -> None:
        self.live, self.kept, self.lock = live, Kept(), threading.RLock()
        self.current: Optional[Revision] = None
        self.error, self.failed = "", time.time()

    def now(self) -> Revision:
        """The files of the current revision."""
        with self.lock:
            if self.current is None or self.current.number != self.live.revision:
                self.current = Revision(self.live, self.live.revision, self.kept)
            return self.current

    def names(self) -> list[str]:
        """What is in the folder."""
        return [CLIP, PACKETS, CONTAINERS[0], FRAMES, EDITS, FINDINGS, FACTS, *([ERROR] if self.error else [])]

    def pictures(self) -> Iterator[str]:
        return (picture_name(number).split("/")[1] for number in range(self.now().outcomes.count))

    def open(self, name: str) -> tuple[Optional[Revision], File]:
        """The revision and a file of it; `KeyError` if there is none of this name."""
        if name == ERROR and self.error:
            return None, Text(self.error.encode())
        revision = self.now()
        return revision, revision.file(name)

    def read(self, revision: Optional[Revision], file: File, start: int, size: int) -> bytes:
        """Bytes of a file. `Changed` if the stream was edited since it was opened, `Unreadable` if a frame is
        refused.
        """
        if revision is not None and revision.number != self.live.revision:
            raise Changed
        try:
            return bytes(file.read(start, min(file.size, start + size))) if start < file.size else b""
        except (Refused, Unserved) as refused:
            raise Unreadable(str(refused)) from None

    def edit(self, text: str) -> None:
        """Makes the list of edits this text. `ValueError` if an edit is refused; the list is then as it was, and the
        reason is in a file.
        """
        lines = [line.strip() for line in lines_in(text)]
        lines = [line for line in lines if line and not line.startswith("#")]
        try:
            for line in lines:
                if first_word(line) not in EDIT_WORDS:
                    raise ValueError(f"{line[:80]!r} is no edit")
            with self.live.lock:
                replace_edits(self.live, lines)
            self.error = ""
        except (Refused, ValueError) as error:
            self.error, self.failed = f"{error}\n", time.time()
            raise ValueError(str(error)) from None


def replace_edits(live: Live, lines: list[str]) -> None:
    """Makes the edits of a session these lines: those that both begin with stay, the others are undone. If one is
    refused, all are as before.
    """
    before = list(live.session.edits)
    common = next(
        (place for place, pair in enumerate(zip(before, lines)) if pair[0] != pair[1]), min(len(before), len(lines))
    )
    while len(live.session.edits) > common:
        live.run("undo")
    more = lines[len(live.session.edits) :]
    try:
        if more:
            live.run_step(more)
    except (Refused, ValueError):
        if len(live.session.edits) < len(before):
            live.run_step(before[len(live.session.edits) :])
        raise
