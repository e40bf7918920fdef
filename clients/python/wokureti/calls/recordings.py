"""The frames of a stream of VP8 in a capture of RTP, as an IVF file."""

from __future__ import annotations

import json
import mmap
import os
from typing import Callable, Dict, List, NamedTuple, Optional, Protocol, Sequence, Tuple, TypeVar, Union

from ..errors import NotRead
from ..base.checks import AnyPath
from ..base.progress import say
from ..media import ivf
from . import captures, partitions, rtp

# The number of the stream of a capture that is read, from 1, or None: the one with the most bytes.
chosen: Optional[int] = None
# Lines about single frames that are said, at most.
MOST_LINES = 12
# Pictures between two frames that the numbers of pictures are believed for.
MOST_PICTURES = 64


class Choice(NamedTuple):
    """A stream of a capture: its number, from 1, its packets in order, its frames, and sentences about the capture."""

    number: int
    stream: rtp.Stream
    packets: List[rtp.Packet]
    frames: List[rtp.Frame]
    damage: List[str]


class Missing(NamedTuple):
    """What is missing of a stream: of a packet that is cut off (`cut_off`), or before one: a frame (`lost_frame`),
    packets of RTP between two frames (`lost_packets`), or so many pictures by their numbers (`lost_pictures`). `ranges`
    are sequence numbers."""

    kind: str
    packet: int
    ranges: Tuple[rtp.Range, ...] = ()
    count: int = 0  # type: ignore[assignment]  # It is not the method of a tuple.

    def text(self) -> str:
        ranges = ", ".join(map(range_text, self.ranges))
        if self.kind == "cut_off":
            return f"packet {self.packet} is cut off: RTP packets {ranges} are missing"
        if self.kind == "lost_frame":
            return f"a frame before packet {self.packet} is lost: RTP packets {ranges} are missing"
        if self.kind == "lost_packets":
            return f"RTP packets {ranges} are missing before packet {self.packet}"
        return (
            f"{self.count} picture{'s' * (self.count != 1)} before packet"
            f" {self.packet} {'are' if self.count != 1 else 'is'} missing, by the numbers of the pictures"
        )

    def json(self) -> str:
        """The finding as vp8list's are."""
        facts: dict[str, object] = (
            {"count": self.count}
            if self.kind == "lost_pictures"
            else {"missing": [[number % 65536 for number in pair] for pair in self.ranges]}
        )
        return json.dumps(
            {"packet": self.packet, "kind": self.kind, **facts, "severity": "damage"}, separators=(",", ":")
        )


class Call(NamedTuple):
    """The frames of a capture that can be decoded, and what is missing: for each frame whether some were lost before
    it, and all that is missing.
    """

    head: ivf.Head
    frames: List[rtp.Frame]
    after_gap: List[bool]
    missing: List[Missing]


# What is missing of the captures that were read, by the path of the IVF file.
missing: Dict[Union[str, bytes], List[Missing]] = {}


def is_capture(path: AnyPath) -> bool:
    """Whether a file is a capture of network packets."""
    if not os.path.isfile(path):
        return False
    with open(path, "rb") as file:
        return captures.kind_of(file.read(16)) is not None


def load(path: AnyPath) -> memoryview:
    """The bytes of a file, mapped if there are any."""
    with open(path, "rb") as file:
        if os.fstat(file.fileno()).st_size == 0:
            return memoryview(b"")
        return memoryview(mmap.mmap(file.fileno(), 0, access=mmap.ACCESS_READ))


def choose(path: AnyPath, name: str, number: Optional[int] = None, is_quiet: bool = True) -> Choice:
    """The stream of VP8 of a capture: the one of this number, or that with the most bytes. `NotRead` with a sentence if
    there is none.
    """
    number = chosen if number is None else number
    try:
        capture = captures.read(load(path))
        streams = rtp.Streams(capture)
    except NotRead as error:
        kind = captures.kind_of(load(path)[:16].tobytes())
        raise NotRead(f"{name} is a {kind} file: {error}" if kind else f"{name}: {error}") from None
    found = streams.of_vp8()
    if not found:
        why = (
            "its packets were not captured to their end (tcpdump -s 0 captures whole ones)"
            if capture.short > len(capture.datagrams) / 2
            else streams.why_none()
        )
        raise NotRead(f"{name} is a {capture.kind} file with no video that can be read: {why}")
    if number is not None and not 1 <= number <= len(found):
        raise NotRead(f"{name} has {streams_text(len(found))} of VP8: --stream {number} is none of them")
    listed = [(stream, stream.packets()) for stream in found]
    taken = number or 1 + max(range(len(found)), key=lambda place: sum(len(packet.data) for packet in listed[place][1]))
    if not is_quiet:
        for place, (stream, packets) in enumerate(listed, 1):
            mark = " (taken)" if place == taken and len(found) > 1 else ""
            say(f"{name}, stream {place}{mark}: {stream_text(stream, packets)}")
        if len(found) > 1 and number is None:
            say("--stream N takes another one")
    stream, packets = listed[taken - 1]
    return Choice(taken, stream, packets, rtp.frames_of(packets), capture.damage(name))


def streams_text(count: int) -> str:
    return f"{count} stream{'s' * (count != 1)}"


def stream_text(stream: rtp.Stream, packets: Sequence[rtp.Packet]) -> str:
    """What is said of a stream: source, packets, how many are lost, size and seconds."""
    first, last = packets[0], packets[-1]
    lost = last.sequence - first.sequence + 1 - len(packets)
    size = next(filter(None, (ivf.key_size(packet.data) for packet in packets if packet.begins)), None)
    layers = len({packet.layer for packet in packets} - {None})
    more = f", {layers} temporal layers" if layers > 1 else ""
    more += f", {stream.damaged} damaged" if stream.damaged else ""
    more += f", {stream.again} twice" if stream.again else ""
    picture = f"{size[0]}x{size[1]}" if size else "no size"
    seconds = (max(packet.time for packet in packets) - first.time) / rtp.RATE
    return (
        f"SSRC {stream.ssrc:08x}, payload type {stream.kind}, {len(packets):,} packets, {lost:,} lost{more}, {picture},"
        f" {seconds:.1f} s"
    )


def call_of(frames: Sequence[rtp.Frame]) -> Call:
    """The frames that can be decoded, and what is missing."""
    kept: list[rtp.Frame] = []
    after_gap: list[bool] = []
    found: list[Missing] = []
    before: Optional[rtp.Frame] = None
    is_after = False
    for frame in frames:
        hole = hole_between(before, frame, len(kept)) if before is not None else None
        if hole is not None:
            found.append(hole)
            is_after = True
        if frame.is_usable:
            if not frame.is_whole:
                found.append(Missing("cut_off", len(kept), frame.missing))
            kept.append(frame)
            after_gap.append(is_after)
            is_after = False
        else:
            found.append(Missing("lost_frame", len(kept), frame.missing))
            is_after = True
        before = frame
    size = next(filter(None, (ivf.key_size(frame.data) for frame in kept)), (0, 0))
    return Call(ivf.Head(*size, rtp.RATE, 1), kept, after_gap, found)


def hole_between(before: rtp.Frame, after: rtp.Frame, packet: int) -> Optional[Missing]:
    """What is missing between two frames, or None: pictures by their numbers, else packets that are of neither."""
    is_hole = after.has_beginning and after.first > before.last + 1 and before.is_whole
    count = rtp.lost_between(before, after) or 0
    if 0 < count < MOST_PICTURES and (is_hole or not before.is_whole or not after.has_beginning):
        return Missing("lost_pictures", packet, (), count)
    return Missing("lost_packets", packet, ((before.last + 1, after.first - 1),)) if is_hole and not count else None


def range_text(pair: rtp.Range) -> str:
    """A range of sequence numbers, as RTP has them, of 16 bits."""
    first, last = (number % 65536 for number in pair)
    return str(first) if first == last else f"{first} to {last}"


def packets_of(call: Call) -> list[tuple[int, bytes]]:
    """The packets of a call as pairs of a time stamp, from that of the first frame on, and bytes."""
    start = min((frame.time for frame in call.frames), default=0)
    return [
        (frame.time - start, frame.data if frame.is_whole else partitions.completed(frame.data))
        for frame in call.frames
    ]


def read(path: AnyPath, out: AnyPath, name: str, is_quiet: bool) -> list[str]:
    """Writes the frames of a capture as an IVF file. Returns sentences about what is missing."""
    choice = choose(path, name, is_quiet=is_quiet)
    call = call_of(choice.frames)
    if not call.frames:
        raise NotRead(f"{name}: no frame of its stream is there to the end of its first partition")
    packets = packets_of(call)
    with open(out, "wb") as file:
        file.writelines(ivf.pieces(call.head, len(packets), packets))
    missing[os.fspath(out)] = call.missing
    return damage_of(name, choice, call)


def damage_of(name: str, choice: Choice, call: Call) -> list[str]:
    """Sentences about what is missing of a stream."""
    found = list(choice.damage)
    if call.missing:
        packets = choice.packets
        lost = packets[-1].sequence - packets[0].sequence + 1 - len(packets)
        cut = sum(not frame.is_whole for frame in call.frames)
        gone = len(choice.frames) - len(call.frames)
        found.append(
            f"{name}: {lost:,} packets of RTP are missing: {cut:,} frames are cut off and {gone:,} more are lost, of"
            f" {len(choice.frames):,}"
        )
        found += [f"{name}: {one.text()}" for one in call.missing[:MOST_LINES]]
        if len(call.missing) > MOST_LINES:
            found.append(
                f"{name}: {len(call.missing) - MOST_LINES:,} more places where packets are missing, which `wokureti"
                " check` lists"
            )
    return found


Packet = TypeVar("Packet")


class Taker(Protocol[Packet]):
    """What gets the packets of a capture: a `Repair`."""

    head: ivf.Head
    packets: List[Packet]

    def say(self, text: str, changed: bool = True) -> None:
        ...


class Searched:
    """The frames of a capture for `wokureti repair`, with those of a second capture of the same call if there is
    one.
    """

    def __init__(
        self, path: AnyPath, name: str, second: Optional[AnyPath] = None, second_name: Optional[AnyPath] = None
    ) -> None:
        choice = choose(path, name, is_quiet=False)
        frames, self.said = choice.frames, []
        if second is not None:
            other_name = os.fsdecode(second if second_name is None else second_name)
            other = choose(second, other_name, number=None if chosen is None else chosen, is_quiet=False)
            before = sum(frame.is_whole for frame in frames)
            merged = rtp.merge(choice.packets, other.packets)
            frames = rtp.frames_of(merged.packets)
            after = sum(frame.is_whole for frame in frames)
            self.said.append(
                f"{merged.taken} packets of RTP of {other_name} taken: {after} frames are whole, {before} were"
            )
            if merged.others:
                self.said.append(f"{merged.others} packets of RTP differ there and are left")
        self.changed = bool(second is not None and merged.taken)
        self.call = call_of(frames)
        if not self.call.frames:
            raise NotRead(f"{name}: no frame of its stream is there to the end of its first partition")
        self.damage = choice.damage

    def write(self, out: AnyPath) -> None:
        packets = packets_of(self.call)
        with open(out, "wb") as file:
            file.writelines(ivf.pieces(self.call.head, len(packets), packets))

    def give(self, found: Taker[Packet], packet: Callable[[int, bytes, bool, bool, bool], Packet]) -> None:
        """Gives a `Repair` its packets, each made by `packet`, and says what is missing."""
        found.head = self.call.head
        after = [*self.call.after_gap[1:], False]
        pairs = packets_of(self.call)
        cut = [not frame.is_whole for frame in self.call.frames]
        found.packets = [
            packet(stamp, data, before_gap, after_gap, is_cut)
            for (stamp, data), before_gap, after_gap, is_cut in zip(pairs, after, self.call.after_gap, cut)
        ]
        for text in self.said:
            found.say(text, self.changed)
        for text in [*self.damage, *(one.text() for one in self.call.missing)]:
            found.say(text)


def whole_frames(path: AnyPath, out: str) -> str:
    """Writes the frames of a capture that are whole as an IVF file, and returns its path."""
    choice = choose(path, os.fsdecode(path))
    call = call_of([frame for frame in choice.frames if frame.is_whole])
    with open(out, "wb") as file:
        file.writelines(ivf.pieces(call.head, len(call.frames), packets_of(call)))
    return out
