"""Captures of calls that the tests make: RTP packets of VP8 by hand, and the files of captures around them, written by
the RFCs and the descriptions of the formats and not by what reads them."""

import json
import random
import struct

CLOCK = 90000


def descriptor(begins, part=0, picture=None, wide=True, base=None, layer=None, key=None, extended=None):
    """A payload descriptor (RFC 7741, section 4.2)."""
    more = (picture is not None) << 7 | (base is not None) << 6 | (layer is not None) << 5 | (key is not None) << 4
    has_more = bool(more) if extended is None else extended
    found = bytearray([has_more << 7 | bool(begins) << 4 | part])
    if has_more:
        found.append(more)
    if picture is not None:
        found += struct.pack(">H", 0x8000 | picture % 0x8000) if wide else bytes([picture % 0x80])
    if base is not None:
        found.append(base % 256)
    if layer is not None or key is not None:
        found.append((layer or 0) << 6 | (key or 0))
    return bytes(found)


def rtp(sequence, time, payload, is_last=False, ssrc=0x11223344, kind=96, padding=0, sources=(), extension=None):
    """An RTP packet (RFC 3550, section 5.1)."""
    first = 0x80 | bool(padding) << 5 | (extension is not None) << 4 | len(sources)
    found = struct.pack(">BBHII", first, is_last << 7 | kind, sequence % 65536, time % (1 << 32), ssrc)
    found += b"".join(struct.pack(">I", source) for source in sources)
    if extension is not None:
        found += struct.pack(">HH", 0xBEDE, len(extension) // 4) + extension
    return found + payload + (bytes(padding - 1) + bytes([padding]) if padding else b"")


def payloads(packets, size=80, first=65000, start=0xFFFFFF00, step=CLOCK // 25, **facts):
    """The RTP packets of packets of VP8: their numbers go over the end of their range."""
    found, sequence = [], first
    layers = facts.pop("layers", None)
    pictures = facts.pop("pictures", None)
    for number, data in enumerate(packets):
        places = range(0, max(1, len(data)), size)
        for place in places:
            more = {}
            if pictures is not None:
                more.update(picture=pictures + number, wide=facts.get("wide", True))
            if layers:
                more.update(base=number // len(layers), layer=layers[number % len(layers)])
            head = descriptor(place == 0, **more)
            options = {name: value for name, value in facts.items() if name != "wide"}
            found.append(
                rtp(sequence, start + number * step, head + data[place : place + size], place == places[-1], **options)
            )
            sequence += 1
    return found


def lossy(packets, part, seed, keeps=1):
    """Packets of which some are lost at random, but for the first ones."""
    chance = random.Random(seed)
    return [packet for place, packet in enumerate(packets) if place < keeps or chance.random() >= part]


# Datagrams and networks


def ones_sum(data):
    """The Internet checksum of bytes (RFC 1071)."""
    total = sum(struct.unpack(f">{len(data) // 2}H", data[: len(data) & ~1])) + (data[-1] << 8 if len(data) % 2 else 0)
    while total >> 16:
        total = (total & 0xFFFF) + (total >> 16)
    return ~total & 0xFFFF


def udp(data, source, to, addresses, has_sum=True):
    head = struct.pack(">HHHH", source, to, 8 + len(data), 0)
    if not has_sum:
        return head + data
    pseudo = addresses + (
        struct.pack(">BBH", 0, 17, 8 + len(data))
        if len(addresses) == 8
        else struct.pack(">IHBB", 8 + len(data), 0, 0, 17)
    )
    return head[:6] + struct.pack(">H", ones_sum(pseudo + head + data) or 0xFFFF) + data


def ipv4(data, source=40000, to=50000, has_sum=True, options=b"", part=0):
    addresses = bytes([10, 0, 0, 1, 10, 0, 0, 2])
    segment = udp(data, source, to, addresses, has_sum)
    size = 20 + len(options)
    head = struct.pack(">BBHHHBBH", 0x40 | size // 4, 0, size + len(segment), 1, part, 64, 17, 0) + addresses
    return head + options + segment


def ipv6(data, source=40000, to=50000, options=b""):
    addresses = bytes(15) + b"\1" + bytes(15) + b"\2"
    segment = udp(data, source, to, addresses)
    return (
        struct.pack(">IHBB", 6 << 28, len(options) + len(segment), 0 if options else 17, 64)
        + addresses
        + options
        + segment
    )


def ethernet(packet, tags=()):
    kind = b"\x08\x00" if packet[0] >> 4 == 4 else b"\x86\xdd"
    return bytes(12) + b"".join(tags) + kind + packet


# Files


def pcap(packets, link=1, order="<", nano=False, snap=1 << 16, every=1):
    """A pcap file of packets of a network, one each millisecond. Every so many of them are captured up to `snap`
    bytes.
    """
    found = [struct.pack(order + "IHHiIII", 0xA1B23C4D if nano else 0xA1B2C3D4, 2, 4, 0, 0, snap, link)]
    for place, packet in enumerate(packets):
        found.append(
            struct.pack(
                order + "IIII",
                1000 + place // 1000,
                place % 1000 * (1000000 if nano else 1000),
                len(part := packet[:snap] if place % every == every - 1 else packet),
                len(packet),
            )
        )
        found.append(part)
    return b"".join(found)


def block(kind, body, order="<"):
    body += bytes(-len(body) % 4)
    return struct.pack(order + "II", kind, 12 + len(body)) + body + struct.pack(order + "I", 12 + len(body))


def pcapng(packets, link=1, order="<", simple=False, old=False):
    """A pcapng file: the head of a section, a link, and a block for each packet."""
    found = [
        block(0x0A0D0D0A, struct.pack(order + "IHHq", 0x1A2B3C4D, 1, 0, -1), order),
        block(1, struct.pack(order + "HHI", link, 0, 0), order),
    ]
    for place, packet in enumerate(packets):
        if simple:
            found.append(block(3, struct.pack(order + "I", len(packet)) + packet, order))
        elif old:
            found.append(
                block(2, struct.pack(order + "HHIIII", 0, 0, 0, place, len(packet), len(packet)) + packet, order)
            )
        else:
            found.append(block(6, struct.pack(order + "IIIII", 0, 0, place, len(packet), len(packet)) + packet, order))
    return b"".join(found)


def rtpdump(packets):
    """What rtptools' rtpdump writes, with a packet of RTCP at the end."""
    found = [b"#!rtpplay1.0 10.0.0.1/5004\n", struct.pack(">IIIHH", 1000, 0, 0x0A000001, 5004, 0)]
    for place, packet in enumerate(packets):
        found.append(struct.pack(">HHI", 8 + len(packet), len(packet), place) + packet)
    rtcp = struct.pack(">BBHI", 0x80, 200, 6, 1) + bytes(20)
    found.append(struct.pack(">HHI", 8 + len(rtcp), 0, 1) + rtcp)
    return b"".join(found)


def janus(packets, version=2, facts=None):
    """What Janus records: version 1 has no times."""
    text = json.dumps({"t": "v", "c": "vp8", "s": 1, "u": 2} if facts is None else facts).encode()
    found = [b"MJR0000%d" % version, struct.pack(">H", len(text)), text]
    for place, packet in enumerate(packets):
        found.append(
            (b"MEET" + struct.pack(">I", place) if version == 2 else b"MEETECHO")
            + struct.pack(">H", len(packet))
            + packet
        )
    return b"".join(found)


def framed(data):
    """The packets of a stream in which each has its length before it (RFC 4571), as GStreamer's rtpstreampay writes
    it.
    """
    found, place = [], 0
    while place < len(data):
        size = struct.unpack_from(">H", data, place)[0]
        found.append(data[place + 2 : place + 2 + size])
        place += 2 + size
    return found
