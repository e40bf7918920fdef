"""RTP packets (RFC 3550) that carry VP8 (RFC 7741): the streams of a capture, and their frames."""

from __future__ import annotations

import bisect
from typing import Dict, Iterable, List, NamedTuple, Optional, Sequence, Tuple

from ..errors import NotRead
from ..base.checks import AnyBytes
from .captures import Capture

# Sequence numbers from one to another.
Range = Tuple[int, int]
# What a payload descriptor says, and a packet of a stream as RTP has it: number, time stamp, marker and payload.
Parts = Tuple[bool, int, Optional[int], Optional[int], Optional[int], bool]
Raw = Tuple[int, int, bool, AnyBytes]
# The difference of the numbers of pictures and of base layers of two packets.
Shift = Tuple[Optional[int], Optional[int]]
# A packet that is in two captures: its sequence number in the second, and the differences of sequence numbers, time
# stamps and pictures.
Pair = Tuple[int, int, int, Shift]
# Ticks a second of the time stamps.
RATE = 90000
# Payload types of RTP that are RTCP where both use one port (RFC 5761), with the bit of the marker.
RTCP = range(192, 224)
# Payload types that have one meaning everywhere, of those that are still used.
STATIC = {
    0: "G.711 sound",
    3: "GSM sound",
    8: "G.711 sound",
    9: "G.722 sound",
    13: "comfort noise",
    18: "G.729 sound",
    26: "JPEG",
    31: "H.261",
    32: "MPEG video",
    34: "H.263",
}
# The first bytes of the records of DTLS, by which the keys of SRTP are made.
DTLS = (b"\x14\xfe", b"\x16\xfe", b"\x17\xfe")
START_CODE = b"\x9d\x01\x2a"
# Frames that are looked at, and the packets that a stream has at least.
LOOKED, LEAST = 64, 4
# First bytes of payloads: of VP8 few are different; of so many payloads that are encrypted at least this part is.
FIRST_BYTES, RANDOM = 64, 0.6
# Datagrams whose checksums are looked at before those with a wrong one count as lost: sums of packets that were
# captured where they were sent are often not made yet.
RIGHT_SUMS = 0.5


class Packet(NamedTuple):
    """A packet of a stream: its sequence number and its time stamp, without the ends of their ranges; whether it is the
    last one of its frame, and whether it begins the frame; the numbers of its picture (of 15 bits, or 7: `wide`) and of
    its base layer, its temporal layer, each None if it has none; and its part of the frame.
    """

    sequence: int
    time: int
    is_last: bool
    begins: bool
    picture: Optional[int]
    base: Optional[int]
    layer: Optional[int]
    is_wide: bool
    data: bytes


# What a packet of padding alone has in place of a descriptor.
NO_PART: Parts = (False, 0, None, None, None, False)


class Stream:
    """The packets of a source (SSRC) and a payload type."""

    def __init__(self, ssrc: int, kind: int) -> None:
        self.ssrc, self.kind = ssrc, kind
        self.raw: list[Raw] = []
        self.damaged = self.again = 0

    # What it is

    def is_vp8(self) -> bool:
        """Whether its key packets begin as those of VP8 do."""
        keys = right = 0
        for _, _, _, payload in self.raw:
            found = descriptor_of(payload)
            if found is None or not found[0] or found[1] >= len(payload) or payload[found[1]] & 1:
                continue
            keys += 1
            right += bytes(payload[found[1] + 3 : found[1] + 6]) == START_CODE
            if keys == LOOKED:
                break
        return keys > 0 and 2 * right > keys

    def looks_encrypted(self) -> bool:
        """Whether its payloads begin with any bytes."""
        first = [payload[0] for _, _, _, payload in self.raw[:FIRST_BYTES] if len(payload)]
        return len(first) >= 16 and self.kind not in STATIC and len(set(first)) >= RANDOM * len(first)

    # Its packets

    def packets(self) -> list[Packet]:
        """Its packets in the order of their sequence numbers, each once."""
        found: dict[int, Packet] = {}
        numbers, times = Unwrapped(16), Unwrapped(32)
        for sequence, time, is_last, payload in self.raw:
            number, stamp = numbers.next(sequence), times.next(time)
            if number in found:
                self.again += 1
                continue
            parts = descriptor_of(payload) if len(payload) else NO_PART
            if parts is None:
                continue
            begins, start, picture, base, layer, is_wide = parts
            found[number] = Packet(
                number, stamp, is_last, begins, picture, base, layer, is_wide, bytes(payload[start:])
            )
        return [found[number] for number in sorted(found)]


class Unwrapped:
    """Numbers of so many bits, whose end is followed by 0, without that end: each is the nearest to the one before."""

    def __init__(self, bits: int) -> None:
        self.range = 1 << bits
        self.last: Optional[int] = None

    def next(self, value: int) -> int:
        if self.last is None:
            self.last = value
        else:
            half = self.range >> 1
            self.last += (value - self.last + half) % self.range - half
        return self.last


def descriptor_of(payload: AnyBytes) -> Optional[Parts]:
    """What the payload descriptor says (RFC 7741, section 4.2): whether a frame begins, where its bytes begin, the
    numbers of the picture and of the base layer, the temporal layer, and whether the number of the picture has 15 bits.
    None if it is cut off."""
    if not len(payload):
        return None
    first, place, is_wide = payload[0], 1, False
    picture: Optional[int] = None
    base: Optional[int] = None
    layer: Optional[int] = None
    if first & 0x80:
        if len(payload) < 2:
            return None
        more, place = payload[1], 2
        if more & 0x80:
            if len(payload) <= place:
                return None
            is_wide = bool(payload[place] & 0x80)
            number, place = payload[place] & 0x7F, place + 1
            if is_wide:
                if len(payload) <= place:
                    return None
                number, place = number << 8 | payload[place], place + 1
            picture = number
        if more & 0x40:
            if len(payload) <= place:
                return None
            base, place = payload[place], place + 1
        if more & 0x30:
            if len(payload) <= place:
                return None
            layer, place = (payload[place] >> 6 if more & 0x20 else None), place + 1
    return bool(first & 0x10) and not first & 7, place, picture, base, layer, is_wide


def rtp_of(data: AnyBytes) -> Optional[tuple[int, int, int, int, bool, AnyBytes]]:
    """The source, payload type, sequence number, time stamp, marker and payload of a packet; None if it is none of
    RTP.
    """
    if 4 <= len(data) and data[0] >> 6 == 1:
        # The packets of a relay (TURN) have a channel and a length before them.
        size = data[2] << 8 | data[3]
        data = data[4 : 4 + size] if size + 4 <= len(data) else data[:0]
    if len(data) < 12 or data[0] >> 6 != 2 or data[1] in RTCP:
        return None
    first, start, end = data[0], 12 + 4 * (data[0] & 15), len(data)
    if first & 0x10:
        if start + 4 > end:
            return None
        start += 4 + 4 * (data[start + 2] << 8 | data[start + 3])
    if first & 0x20:
        if not 0 < data[end - 1] <= end - start:
            return None
        end -= data[end - 1]
    if start > end:
        return None
    sequence, time, source = (int.from_bytes(data[at : at + size], "big") for at, size in ((2, 2), (4, 4), (8, 4)))
    return source, data[1] & 0x7F, sequence, time, bool(data[1] & 0x80), data[start:end]


class Streams:
    """The streams of a capture, in the order in which they begin, and whether keys for their encryption were
    exchanged.
    """

    def __init__(self, capture: Capture) -> None:
        self.all: dict[tuple[int, int], Stream] = {}
        self.has_keys = False
        trusts = trusts_sums(capture)
        for _, data, is_right in capture.datagrams:
            if data is None:
                continue
            found = rtp_of(data)
            if found is None:
                self.has_keys |= bytes(data[:2]) in DTLS
                continue
            source, kind, sequence, time, is_last, payload = found
            if is_right is False and trusts:
                # Which of its bytes is wrong is not known: it is none of a new stream.
                if (source, kind) in self.all:
                    self.all[source, kind].damaged += 1
                continue
            stream = self.all.get((source, kind))
            if stream is None:
                stream = self.all[source, kind] = Stream(source, kind)
            stream.raw.append((sequence, time, is_last, payload))

    def of_vp8(self) -> list[Stream]:
        return [stream for stream in self.all.values() if len(stream.raw) >= LEAST and stream.is_vp8()]

    def why_none(self) -> str:
        """Why there is no stream of VP8."""
        others = [stream for stream in self.all.values() if len(stream.raw) >= LEAST]
        if not others:
            return "it has no packets of RTP"
        if self.has_keys or any(stream.looks_encrypted() for stream in others):
            return (
                "its streams are encrypted (SRTP): only who has the keys can read them; capture in the browser or the"
                " server, where they are not"
            )
        kinds = sorted({STATIC.get(stream.kind, f"payload type {stream.kind}") for stream in others})
        return f"none of its streams of RTP is VP8 with a key packet: they are {', '.join(kinds)}"


def trusts_sums(capture: Capture) -> bool:
    """Whether wrong checksums say that a datagram is damaged: most are right."""
    sums = [one.is_right for one in capture.datagrams if one.is_right is not None]
    return sum(sums) > RIGHT_SUMS * len(sums)


# Frames


class Frame(NamedTuple):
    """A frame: its time stamp, its bytes up to the first packet that is missing, the first and last sequence numbers
    that it is known to have, those that are missing, as ranges, whether its beginning was there, and the numbers of its
    picture and layer."""

    time: int
    data: bytes
    first: int
    last: int
    missing: Tuple[Range, ...]
    has_beginning: bool
    picture: Optional[int]
    layer: Optional[int]
    is_wide: bool

    @property
    def is_whole(self) -> bool:
        return not self.missing

    @property
    def is_usable(self) -> bool:
        """Whether its first partition is whole, so that it can be decoded with what came."""
        return self.has_beginning and (self.is_whole or has_first_partition(self.data))


def has_first_partition(data: bytes) -> bool:
    """Whether the bytes of a frame have its whole header and first partition (RFC 6386, section 9.1)."""
    if len(data) < 3:
        return False
    tag = data[0] | data[1] << 8 | data[2] << 16
    return len(data) >= (3 if tag & 1 else 10) + (tag >> 5)


def frames_of(packets: Sequence[Packet]) -> list[Frame]:
    """The frames of packets that are in order. What is missing between two frames is missing of the one before if its
    last packet did not come, or of the one after, if its first did not."""
    # A frame begins with the start of its partition 0, also where another one has its time stamp.
    groups: list[list[Packet]] = []
    for packet in packets:
        # Packets without a part of a frame fill the line.
        if not packet.data:
            if groups and packet.sequence == groups[-1][-1].sequence + 1 and packet.time == groups[-1][-1].time:
                groups[-1].append(packet)
            continue
        if groups and groups[-1][0].time == packet.time and not packet.begins:
            groups[-1].append(packet)
        else:
            groups.append([packet])
    filled, found = [packet.sequence for packet in packets], []
    for place, group in enumerate(groups):
        found.append(frame_of(group, filled, groups[place + 1][0] if place + 1 < len(groups) else None))
    return found


def frame_of(group: Sequence[Packet], filled: Sequence[int], after: Optional[Packet]) -> Frame:
    """The frame of packets with one time stamp, before the packet `after`; `filled` are the sequence numbers of all
    packets.
    """
    first, data, missing, is_open = group[0], [], [], True
    has_beginning = first.begins
    if not has_beginning:
        before = bisect.bisect_left(filled, first.sequence) - 1
        missing.append((filled[before] + 1 if before >= 0 else first.sequence - 1, first.sequence - 1))
        is_open = False
    expected = first.sequence
    for packet in group:
        if packet.sequence != expected:
            missing.append((expected, packet.sequence - 1))
            is_open = False
        if is_open:
            data.append(packet.data)
        expected = packet.sequence + 1
    if not any(packet.is_last for packet in group):
        # Without a marker the frame ends where the next one begins, if nothing is missing between.
        at = bisect.bisect_left(filled, expected)
        while at < len(filled) and filled[at] == expected and (after is None or expected < after.sequence):
            at, expected = at + 1, expected + 1
        if after is None or not after.begins or after.sequence != expected:
            missing.append((expected, filled[at] - 1 if at < len(filled) and filled[at] > expected else expected))
    return Frame(
        first.time,
        b"".join(data),
        first.sequence,
        group[-1].sequence,
        tuple(missing),
        has_beginning,
        first.picture,
        first.layer,
        first.is_wide,
    )


def lost_between(before: Frame, after: Frame) -> Optional[int]:
    """How many pictures are missing between two frames by their numbers; None if they have none."""
    if before.picture is None or after.picture is None:
        return None
    return (after.picture - before.picture - 1) % (1 << (15 if after.is_wide else 7))


# A second capture


class Merged(NamedTuple):
    """Packets of two captures together: how many of the second were taken, and how many are others there than here and
    were left.
    """

    packets: List[Packet]
    taken: int
    others: int


def merge(one: Iterable[Packet], other: Iterable[Packet]) -> Merged:
    """The packets of a stream, and those of a second recording of it that are missing here. A server that sends a
    stream on gives it other numbers, so packets are found by their bytes first; between these, the numbers go on in
    both. `NotRead` if no packet is in both."""
    places: dict[tuple[bytes, bool, bool], list[Packet]] = {}
    for packet in one:
        if len(packet.data) >= 8:
            places.setdefault((packet.data, packet.begins, packet.is_last), []).append(packet)
    # The difference of the time stamps is the same everywhere.
    spans: dict[int, int] = {}
    pairs: list[Pair] = []
    for packet in other:
        for twin in places.get((packet.data, packet.begins, packet.is_last), ()):
            spans[twin.time - packet.time] = spans.get(twin.time - packet.time, 0) + 1
            pairs.append(
                (packet.sequence, twin.sequence - packet.sequence, twin.time - packet.time, shift_of(twin, packet))
            )
    if not spans:
        raise NotRead("no packet of the second capture is one of the first")
    span = max(spans, key=spans.__getitem__)
    pairs = sorted(pair for pair in pairs if pair[2] == span)
    pictures: dict[Shift, int] = {}
    for pair in pairs:
        pictures[pair[3]] = pictures.get(pair[3], 0) + 1
    picture = max(pictures, key=pictures.__getitem__)
    have = {packet.sequence: packet for packet in one}
    numbers, keys = sorted(have), [pair[0] for pair in pairs]
    taken: dict[int, Packet] = {}
    others = 0
    for packet in other:
        for shift in shifts_at(pairs, keys, packet.sequence):
            sequence = packet.sequence + shift
            mine = have.get(sequence)
            if mine is not None:
                others += mine.data != packet.data
            elif sequence not in taken and fits(have, numbers, new := moved(packet, sequence, span, picture)):
                taken[sequence] = new
            else:
                continue
            break
    have.update(taken)
    return Merged([have[number] for number in sorted(have)], len(taken), others)


def shift_of(one: Packet, other: Packet) -> Shift:
    """The difference of the numbers of pictures and of base layers of two packets."""
    picture = (
        None
        if one.picture is None or other.picture is None
        else (one.picture - other.picture) % (1 << (15 if one.is_wide else 7))
    )
    return picture, None if one.base is None or other.base is None else (one.base - other.base) % 256


def shifts_at(pairs: Sequence[Pair], keys: Sequence[int], sequence: int) -> Iterable[int]:
    """The differences of the sequence numbers at the packets around one that are in both captures, the nearest
    first.
    """
    at = bisect.bisect_left(keys, sequence)
    near = sorted(
        (pairs[place] for place in (at - 1, at) if 0 <= place < len(pairs)), key=lambda pair: abs(pair[0] - sequence)
    )
    return dict.fromkeys(pair[1] for pair in near)


def fits(have: Dict[int, Packet], numbers: Sequence[int], packet: Packet) -> bool:
    """Whether a packet can be where its number says: its time stamp is between those around it, and the numbers of a
    picture are those of its other packets.
    """
    at = bisect.bisect_left(numbers, packet.sequence)
    before = have[numbers[at - 1]] if at else None
    after = have[numbers[at]] if at < len(numbers) else None
    if (before and before.time > packet.time) or (after and packet.time > after.time):
        return False
    near = [one for one in (before, after) if one and one.time == packet.time]
    return all((one.picture, one.base) == (packet.picture, packet.base) for one in near)


def moved(packet: Packet, sequence: int, span: int, shift: Shift) -> Packet:
    """A packet of the second capture with the numbers of the first."""
    picture, base = packet.picture, packet.base
    if picture is not None and shift[0] is not None:
        picture = (picture + shift[0]) % (1 << (15 if packet.is_wide else 7))
    if base is not None and shift[1] is not None:
        base = (base + shift[1]) % 256
    return packet._replace(sequence=sequence, time=packet.time + span, picture=picture, base=base)
