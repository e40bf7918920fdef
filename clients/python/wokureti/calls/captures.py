"""Captures of network packets as the UDP datagrams in them: pcap and pcapng, rtpdump, and the recordings of Janus
(.mjr).

A capture that is damaged is read on where its records follow each other again, and says so."""

from __future__ import annotations

import json
import struct
from typing import Iterator, Literal, NamedTuple, Optional, Tuple, Union

from ..errors import NotRead
from ..base.checks import AnyBytes

# The addresses and ports of a datagram: none where a capture does not have them.
Flow = Union[Tuple[()], Tuple[bytes, int, int]]

# The first bytes of a pcap file, and how it is read: the order of bytes, and that times are in nanoseconds does not
# matter here.
PCAP = {b"\xd4\xc3\xb2\xa1": "<", b"\x4d\x3c\xb2\xa1": "<", b"\xa1\xb2\xc3\xd4": ">", b"\xa1\xb2\x3c\x4d": ">"}
PCAPNG, RTPDUMP, JANUS = b"\x0a\x0d\x0d\x0a", b"#!rtpplay1.0", (b"MJR00001", b"MJR00002", b"MEETECHO")
# Bytes of a packet of a network, at most, and of a block of pcapng.
MOST_RECORD, MOST_BLOCK = 1 << 18, 1 << 24
# Records that must follow each other where reading goes on.
CHAIN = 3
# Seconds between two records, at most, where reading goes on.
MOST_SECONDS = 1 << 17
UDP = 17
FRAGMENTS: Literal[44] = 44
# Headers of IPv6 that come before that of UDP.
OPTIONS = (0, 43, 60)
IPV4, IPV6 = 0x0800, 0x86DD
VLANS, PPPOE = (0x8100, 0x88A8, 0x9100), 0x8864
LINKS = "Ethernet, Linux's cooked capture, loopback and raw IP"


class Datagram(NamedTuple):
    """The payload of a UDP packet, from where to where it was sent, and whether its checksum is right: None if it has
    none. A payload that was not captured to its end is None."""

    flow: Flow
    data: Optional[AnyBytes]
    is_right: Optional[bool] = None


class Capture:
    """A capture: its kind, its datagrams in their order, and what was left out of it."""

    def __init__(self, kind: str) -> None:
        self.kind = kind
        self.datagrams: list[Datagram] = []
        # Packets that were not captured to their end, parts of datagrams, and packets of links that are not read here.
        self.short = self.fragments = self.other_links = 0
        self.link: Optional[int] = None
        # Where the capture is damaged, and the byte after which it ends in the middle of a record.
        self.gaps: list[tuple[int, int]] = []
        self.end: Optional[int] = None

    def damage(self, name: str) -> list[str]:
        """Sentences about the damage of the capture."""
        found = []
        if self.gaps:
            (start, stop), more = self.gaps[0], len(self.gaps) - 1
            found.append(
                f"{name} is damaged at byte {start:,}: {stop - start:,} bytes lead to no record"
                + (f", and at {more} more places" if more else "")
            )
        if self.end is not None:
            found.append(
                f"{name} ends in the middle of a record, after {self.end:,} bytes: the packets that followed are"
                " missing"
            )
        if self.short:
            found.append(
                f"{name}: {self.short:,} packets were not captured to their end (tcpdump -s 0 captures whole ones):"
                " they count as lost"
            )
        if self.fragments:
            found.append(f"{name}: {self.fragments:,} parts of IP packets are left out: they count as lost")
        return found


def kind_of(head: bytes) -> Optional[str]:
    """The kind of a capture that begins with these bytes, or None."""
    if head[:4] in PCAP:
        return "pcap"
    if head[:4] == PCAPNG:
        return "pcapng"
    if head.startswith(RTPDUMP):
        return "rtpdump"
    return "Janus recording" if head[:8] in JANUS else None


def read(data: AnyBytes) -> Capture:
    """The capture of these bytes. `NotRead` if it is of a link that is not read here, or of no video."""
    kind = kind_of(bytes(data[:16]))
    if kind is None:
        raise NotRead("it does not begin as a capture")
    capture = Capture(kind)
    {"pcap": read_pcap, "pcapng": read_pcapng, "rtpdump": read_rtpdump, "Janus recording": read_janus}[kind](
        data, capture
    )
    if capture.other_links and not capture.datagrams:
        raise NotRead(f"it is a capture of link type {capture.link}, which is not read here: {LINKS} are")
    return capture


# The files


def resume(capture: Capture, place: int, others: Iterator[int]) -> Optional[int]:
    """The first of the other places, from which reading goes on after damage at a place; None if there is none, and
    then the capture ends there.
    """
    found = next(others, None)
    if found is None:
        capture.end = place
    else:
        capture.gaps.append((place, found))
    return found


def read_pcap(data: AnyBytes, capture: Capture) -> None:
    """pcap: a header of 24 bytes, and for each packet a record of 16 and its bytes."""
    order, size, place = PCAP[bytes(data[:4])], len(data), 24
    last: Optional[int] = None
    if size < place:
        capture.end = size
        return
    link = struct.unpack_from(order + "I", data, 20)[0] & 0xFFFFFFF
    record = struct.Struct(order + "IIII")
    while place < size:
        found = pcap_record(data, record, place, last)
        if found is None:
            others = (at for at in range(place + 1, size - record.size) if follows(data, record, at, last))
            next_place = resume(capture, place, others)
            if next_place is None:
                return
            place = next_place
            continue
        last, captured, length = found
        start = place + record.size
        take(capture, link, data[start : start + captured], captured < length)
        place = start + captured


def pcap_record(
    data: AnyBytes, record: struct.Struct, place: int, last: Optional[int]
) -> Optional[tuple[int, int, int]]:
    """The second, the captured bytes and the length of a packet whose record is at a place; None if it is none, or the
    file ends in it.
    """
    if place + record.size > len(data):
        return None
    second, _, captured, length = record.unpack_from(data, place)
    if captured > MOST_RECORD or captured > length or place + record.size + captured > len(data):
        return None
    if last is not None and abs(second - last) > MOST_SECONDS:
        return None
    return second, captured, length


def follows(data: AnyBytes, record: struct.Struct, place: int, last: Optional[int]) -> bool:
    """Whether records follow each other from a place on, or all up to the end."""
    for _ in range(CHAIN):
        if place == len(data):
            return True
        found = pcap_record(data, record, place, last)
        if found is None or not found[1]:
            return False
        place += record.size + found[1]
    return True


def read_pcapng(data: AnyBytes, capture: Capture) -> None:
    """pcapng: blocks of a type, a length, what they have, and the length again."""
    order, size, place = "<", len(data), 0
    links: list[tuple[int, int]] = []
    while place < size:
        found = block_at(data, order, place)
        if found is None:
            others = (at for at in range(place + 4 - place % 4, size - 12, 4) if is_chain(data, order, at))
            next_place = resume(capture, place, others)
            if next_place is None:
                return
            place = next_place
            continue
        order, kind, start, end = found
        if kind == 0x0A0D0D0A:
            links = []
        elif kind == 1 and end - start >= 8:
            link, snap = struct.unpack_from(order + "HxxI", data, start)
            links.append((link, snap))
        else:
            take_block(capture, data[start:end], kind, order, links)
        place = end + 4


def block_at(data: AnyBytes, order: str, place: int) -> Optional[tuple[str, int, int, int]]:
    """The order of bytes, the type of the block at a place, and where its content begins and ends; None if there is
    none.
    """
    if place + 12 > len(data):
        return None
    if data[place : place + 4] == PCAPNG:
        found = {b"\x4d\x3c\x2b\x1a": "<", b"\x1a\x2b\x3c\x4d": ">"}.get(bytes(data[place + 8 : place + 12]))
        if found is None:
            return None
        order = found
    kind, length = struct.unpack_from(order + "II", data, place)
    end = place + length
    if (
        length < 12
        or length % 4
        or length > MOST_BLOCK
        or end > len(data)
        or struct.unpack_from(order + "I", data, end - 4)[0] != length
    ):
        return None
    return order, kind, place + 8, end - 4


def is_chain(data: AnyBytes, order: str, place: int) -> bool:
    for _ in range(CHAIN):
        if place == len(data):
            return True
        found = block_at(data, order, place)
        if found is None:
            return False
        order, place = found[0], found[3] + 4
    return True


def take_block(capture: Capture, block: AnyBytes, kind: int, order: str, links: list[tuple[int, int]]) -> None:
    """Takes the packet of a block, if it has one: an enhanced one (6), an old one (2) or a simple one (3)."""
    if kind in (2, 6) and len(block) >= 20:
        at = struct.unpack_from(order + ("I" if kind == 6 else "H"), block, 0)[0]
        captured, length = struct.unpack_from(order + "II", block, 12)
        start = 20
    elif kind == 3 and len(block) >= 4:
        at, start = 0, 4
        length = struct.unpack_from(order + "I", block, 0)[0]
        captured = min(length, links[0][1] or length, len(block) - 4) if links else 0
    else:
        return
    if at < len(links) and captured <= len(block) - start:
        take(capture, links[at][0], block[start : start + captured], captured < length)
    else:
        capture.short += 1


def read_rtpdump(data: AnyBytes, capture: Capture) -> None:
    """rtpdump: a line, a header of 16 bytes, and for each packet 8 bytes, with its length with these and that of the
    packet, which is 0 for RTCP.
    """
    line = data[:256].tobytes().find(b"\n") if isinstance(data, memoryview) else data[:256].find(b"\n")
    place, size = line + 17, len(data)
    while line >= 0 and place + 8 <= size:
        length, whole = struct.unpack_from(">HH", data, place)
        if length < 8 or place + length > size:
            break
        if whole > length - 8:
            capture.short += 1
        elif whole:
            capture.datagrams.append(Datagram((), data[place + 8 : place + 8 + whole]))
        place += length
    if place != size:
        capture.end = min(place, size)


def read_janus(data: AnyBytes, capture: Capture) -> None:
    """Janus: 8 bytes, a length and a text about the recording; then for each packet 8 bytes, its length and the
    packet.
    """
    place, size = 0, len(data)
    while place + 10 <= size:
        mark, length = bytes(data[place : place + 8]), struct.unpack_from(">H", data, place + 8)[0]
        start = place + 10
        if not mark.startswith((b"MJR0000", b"MEET")) or start + length > size:
            break
        if mark.startswith(b"MJR0000") or (place == 0 and length == 5):
            check_janus(bytes(data[start : start + length]))
        else:
            capture.datagrams.append(Datagram((), data[start : start + length]))
        place = start + length
    if place != size:
        capture.end = place


def check_janus(text: bytes) -> None:
    """`NotRead` if a recording is of another kind or codec."""
    if text in (b"audio", b"data"):
        raise NotRead(f"it is a recording of {text.decode()}, and has no video")
    try:
        facts = json.loads(text) if text != b"video" else {}
    except ValueError:
        return
    facts = facts if isinstance(facts, dict) else {}
    kind, codec = facts.get("t", "v"), facts.get("c", "vp8")
    if kind != "v":
        raise NotRead(f"it is a recording of {'sound' if kind == 'a' else 'data'}, and has no video")
    if codec != "vp8":
        raise NotRead(f"it is a recording of {codec}, and not of VP8")
    if facts.get("e"):
        raise NotRead("it is encrypted from one end to the other: only who has the key can read it")


# The packets of a network


def take(capture: Capture, link: int, packet: AnyBytes, is_short: bool) -> None:
    """Takes the datagram of a packet of a link, if it is one of UDP."""
    found = internet(link, packet)
    if found is None:
        capture.other_links += 1
        capture.link = link
        return
    version, packet = found
    parts = parts_of(version, packet)
    if isinstance(parts, int):
        capture.fragments += 1
    elif parts is not None:
        addresses, segment, length = parts
        add(capture, addresses, segment, length, is_short)


def add(capture: Capture, addresses: bytes, segment: AnyBytes, length: int, is_short: bool) -> None:
    """Adds the datagram of a UDP segment, which has `length` bytes by the header of IP."""
    if len(segment) < 8:
        capture.short += 1
        return
    source, to, size, checksum = struct.unpack_from(">HHHH", segment)
    flow = (addresses, source, to)
    if size < 8 or size > min(length, len(segment)):
        capture.short += 1
        capture.datagrams.append(Datagram(flow, None))
        return
    segment = segment[:size]
    is_right = None if not checksum else is_sum_right(addresses, segment)
    capture.datagrams.append(Datagram(flow, segment[8:], is_right))


def is_sum_right(addresses: bytes, segment: AnyBytes) -> bool:
    """Whether the checksum of a segment is right (RFC 768): the sum of its words, and of those of the addresses, in
    ones' complement, is 0.
    """
    size = len(segment)
    total = int.from_bytes(addresses, "big") + UDP + size
    total += int.from_bytes(segment, "big") << 8 * (size % 2)
    return total % 0xFFFF == 0


def internet(link: int, packet: AnyBytes) -> Optional[tuple[Optional[int], AnyBytes]]:
    """The version of IP and the packet of IP in a packet of a link; (None, packet) for another protocol. None if the
    link is not read here.
    """
    if link == 1:
        return ethernet(packet, 12)
    if link in (12, 14, 101, 228, 229):
        return packet[0] >> 4 if len(packet) else None, packet
    if link in (0, 108):
        return packet[4] >> 4 if len(packet) > 4 else None, packet[4:]
    if link == 113:
        return ethernet(packet, 14)
    if link == 276:
        return by_type(word(packet, 0), packet[20:])
    return None


def word(packet: AnyBytes, place: int) -> int:
    return packet[place] << 8 | packet[place + 1] if place + 2 <= len(packet) else 0


def ethernet(packet: AnyBytes, place: int) -> tuple[Optional[int], AnyBytes]:
    """The same of a packet of Ethernet whose type is at a place: tags of virtual networks, and PPPoE, may come before
    IP.
    """
    kind = word(packet, place)
    while kind in VLANS:
        place += 4
        kind = word(packet, place)
    if kind == PPPOE:
        return by_type({0x21: IPV4, 0x57: IPV6}.get(word(packet, place + 8)), packet[place + 10 :])
    return by_type(kind, packet[place + 2 :])


def by_type(kind: Optional[int], packet: AnyBytes) -> tuple[Optional[int], AnyBytes]:
    return None if kind is None else {IPV4: 4, IPV6: 6}.get(kind), packet


def parts_of(version: Optional[int], packet: AnyBytes) -> Union[Literal[44], tuple[bytes, AnyBytes, int], None]:
    """The addresses, the segment and its length by the header, of a packet of UDP; FRAGMENTS for a part of one; None
    for anything else.
    """
    if version == 4 and len(packet) >= 20:
        length, start = word(packet, 2), 4 * (packet[0] & 15)
        if packet[9] != UDP or start < 20:
            return None
        if word(packet, 6) & 0x3FFF:
            return FRAGMENTS
        # Packets that the network card cuts have no length yet.
        return bytes(packet[12:20]), packet[start : length or None], (length or len(packet)) - start
    if version == 6 and len(packet) >= 40:
        kind, start, end = packet[6], 40, 40 + word(packet, 4)
        while kind in OPTIONS and start + 2 <= len(packet):
            kind, start = packet[start], start + 8 * (packet[start + 1] + 1)
        if kind == FRAGMENTS:
            return FRAGMENTS
        return (bytes(packet[8:40]), packet[start:end], end - start) if kind == UDP else None
    return None
