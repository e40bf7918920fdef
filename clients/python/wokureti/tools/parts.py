"""The frames of a stream as parts that can be decoded apart from each other.

A packet with a key tag depends on no packet before it, so the packets are cut at such packets; each part is a stream of
its own. A script mixes frames, so with a script a part is a range of frames, and every part has all packets.

One run of vp8serve writes frames of one size, that of the first frame that it serves. So a part that does not have that
frame has its packets in front, and serves it first; it is left out when the parts are joined.
"""

from __future__ import annotations

import os
from typing import IO, Callable, Iterable, List, NamedTuple, Optional, Tuple, Union

from .. import system
from ..errors import Refused
from ..base.lines import lines_in, words_of
from ..media import ivf
from ..media.y4m import parse_header
from ..session.contents import Contents
from ..session.session import Session

# Parts a process: so that one long part holds up no process.
PARTS_A_PROCESS = 4
# Makes the parts of the frames, so many, and decodes them: their numbers, each when it was decoded.
Workers = Callable[["Room", int], Tuple[List["Part"], Iterable[int]]]
# Bytes of the frames of a part, at most, if key packets and the number of frames allow it.
MOST_PART = 64 << 20


class Part(NamedTuple):
    """A part: the frames that it serves, and where its packets are in the stream: (first packet, end), or None for
    all.
    """

    first: int
    end: int
    packets: Optional[tuple[int, int]]


class First(NamedTuple):
    """The first frame that is served: its number, the header line of the text, and the packets from its key packet to
    its own.
    """

    number: int
    header: bytes
    size: int
    packets: Optional[tuple[int, int]]


def first_frame(session: Session) -> tuple[Optional[int], Optional[Refused]]:
    """The first frame of a session that is served, and the first refusal. The frame is None if all are refused."""
    refused: Optional[Refused] = None
    for number in range(session.count().frames):
        try:
            session.frame(number)
            return number, refused
        except Refused as error:
            refused = refused or error
    return None, refused


def find_first(session: Session, number: int) -> First:
    """What the parts need of the first frame."""
    contents = session.edits.contents()
    place: Optional[tuple[int, int]] = None
    if contents.script == "-":
        contents.listing.learn()
        stream = contents.streams[0]
        last = [place for place, packet in enumerate(stream) if contents.is_shown(packet)][number]
        begin = last
        while begin and not contents.has_key_tag(stream[begin]):
            begin -= 1
        place = (begin, last + 1)
    return First(number, session.header, session.frame_size, place)


def by_packets(contents: Contents, processes: int, frame_size: int) -> list[Part]:
    """The parts of source 0, cut at packets with a key tag. `frame_size` is the number of bytes of a frame."""
    contents.listing.learn()
    stream = contents.streams[0]
    sizes = [contents.size(number) for number in stream]
    share = max(1, sum(sizes) // (PARTS_A_PROCESS * processes))
    begin, frame, bytes_so_far, frames = 0, 0, 0, 0
    parts: list[Part] = []
    for place, number in enumerate(stream):
        if frames and (bytes_so_far >= share or frames * frame_size >= MOST_PART) and contents.has_key_tag(number):
            parts.append(Part(frame, frame + frames, (begin, place)))
            begin, frame, frames, bytes_so_far = place, frame + frames, 0, 0
        bytes_so_far += sizes[place]
        frames += contents.is_shown(number)
    if frames:
        parts.append(Part(frame, frame + frames, (begin, len(stream))))
    return parts


def by_frames(count: int, processes: int, frame_size: int) -> list[Part]:
    """Ranges of frames."""
    length = max(1, min(-(-count // (PARTS_A_PROCESS * processes)), MOST_PART // frame_size))
    return [Part(first, min(first + length, count), None) for first in range(0, count, length)]


class Room:
    """The files of the parts, in a folder: N.list, and N.ivf or the streams of all sources; the frames and replies are
    added.
    """

    def __init__(self, folder: str, session: Session, first: First) -> None:
        self.folder = folder
        self.contents = session.edits.contents()
        self.first, self.script = first, self.contents.script
        self.sources: list[str] = []
        if self.script != "-":
            for source in range(len(self.contents.streams)):
                path = os.path.join(folder, f"source-{source}.ivf")
                with open(path, "wb") as file:
                    file.writelines(self.contents.pieces(source))
                self.sources.append(path)

    def path(self, number: Union[int, str], kind: str) -> str:
        return os.path.join(self.folder, f"{number}.{kind}")

    def write(self, number: int, part: Part) -> None:
        """Writes the stream and the requests of a part."""
        leads = part.first > self.first.number
        with open(self.path(number, "list"), "w", encoding="ascii", newline="\n") as file:
            if part.packets is None:
                file.write(f"script {self.script}\n")
                frames = ([self.first.number] if leads else []) + list(range(part.first, part.end))
            else:
                before = self.write_packets(number, part, leads)
                frames = ([before - 1] if leads else []) + list(range(before, before + part.end - part.first))
            file.writelines(f"frame {frame}\n" for frame in frames)

    def write_packets(self, number: int, part: Part, leads: bool) -> int:
        """Writes the stream of a part, and returns how many frames come before those of the part."""
        assert part.packets is not None
        contents, stream = self.contents, self.contents.streams[0]
        begin, end = (self.first.packets if leads else None) or (0, 0)
        before = list(stream[begin:end])
        numbers = before + list(stream[part.packets[0] : part.packets[1]])
        packets = zip(map(contents.stamp, numbers), contents.data(numbers))
        with open(self.path(number, "ivf"), "wb") as file:
            file.writelines(ivf.pieces(contents.inputs.all[0].head, len(numbers), packets))
        return sum(map(contents.is_shown, before))

    def words(self, number: Union[int, str], program: str, tables: Optional[str] = None) -> list[str]:
        """The command line of a part."""
        streams = self.sources or [self.path(number, "ivf")]
        words = [program, streams[0], self.path(number, "list"), self.path(number, "y4m")]
        if len(streams) > 1:
            words += ["--sources", system.SEPARATOR.join(streams[1:])]
        if not self.sources:
            # A part is decoded once, in order.
            words += ["--cache", "1"]
        return words + (["--tables", tables] if tables else [])

    def refusals(self, number: int, part: Part) -> list[str]:
        """The replies that refuse a frame of a part, as one run over the whole stream gives them."""
        with open(self.path(number, "replies"), encoding="utf-8", errors="replace") as file:
            replies = lines_in(file.read())
        leads = part.first > self.first.number
        if len(replies) != part.end - part.first + leads + (part.packets is None):
            raise ValueError(f"part {number} has {len(replies)} replies")
        replies = replies[leads + (part.packets is None) :]
        begin, end = (self.first.packets if leads and part.packets else None) or (0, 0)
        shift = part.packets[0] - (end - begin) if part.packets else 0
        found = []
        for frame, reply in enumerate(replies, part.first):
            if reply.startswith("refused packet "):
                words = words_of(reply)
                reply = " ".join([*words[:2], str(int(words[2]) + shift), *words[3:]])
            if not reply.startswith("served "):
                found.append(f"frame {frame}: {reply}")
        return found

    def join(self, number: int, part: Part, refused: int, out: IO[bytes]) -> int:
        """Appends the frames of a part to the output, without the first line and the frame that only fixed the size."""
        leads = part.first > self.first.number
        frames = part.end - part.first - refused
        with open(self.path(number, "y4m"), "rb") as file:
            header = file.readline()
            length = os.fstat(file.fileno()).st_size
            wanted = len(header) + self.first.size * (frames + leads) if frames + leads else 0
            # A part has a rate of its own, that of its time stamps.
            if length != wanted or (frames + leads and parse_header(header) != parse_header(self.first.header)):
                raise ValueError(f"part {number} has {length} bytes, not {wanted}")
            file.seek(len(header) + self.first.size * leads)
            while True:
                piece = file.read(1 << 20)
                if not piece:
                    break
                out.write(piece)
        return frames

    def clear(self, number: int) -> None:
        """Removes the files of a part."""
        for kind in ("ivf", "list", "y4m", "replies"):
            try:
                os.unlink(self.path(number, kind))
            except FileNotFoundError:
                pass
