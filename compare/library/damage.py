"""Damage to packets, and the partitions of sound ones."""

import struct

from .conformance import bits, parser

# How many zeros `padded` puts after each partition.
PADDING = 4000


def damage(packets, choose):
    """The packets with one to three faults."""
    packets = list(packets)
    for _ in range(choose.randrange(1, 4)):
        place = choose.randrange(len(packets))
        packet, kind = packets[place], choose.randrange(6)
        if kind == 0:
            packets[place] = packet[: choose.randrange(len(packet) + 1)]
        elif kind == 1 and len(packets) > 1:
            del packets[place]
        elif kind == 2:
            packets.insert(place, packet)
        elif kind == 3:
            packets.insert(choose.randrange(len(packets)), packets.pop(place))
        elif packet:
            text = bytearray(packet)
            first = 0 if kind == 4 else min(10, len(text) - 1)
            for _ in range(choose.randrange(1, 4)):
                text[choose.randrange(first, len(text))] = choose.randrange(256)
            packets[place] = bytes(text)
    return packets


def partition_count(first, is_key):
    """How many token partitions a first partition says that there are."""
    header = parser.Header(is_key=is_key)
    parser.read_first_fields(bits.Reader(first), header, parser.default_context())
    return 1 << header.log2_nbr_of_dct_partitions


def partitions_of(packet):
    """A sound packet's parts: what stands before its first partition, the first partition and the token partitions.

    None for a dropped frame, and for a broken packet that no reply names: one that is not shown, with no frame after it
    up to the next key packet.
    """
    if len(packet) < 3:
        return None
    tag = struct.unpack("<I", packet[:3] + b"\0")[0]
    start = 3 if tag & 1 else 10
    end = start + (tag >> 5)
    if end > len(packet):
        return None
    first = packet[start:end]
    count = partition_count(first, not tag & 1)
    place = end + 3 * (count - 1)
    if place > len(packet):
        return None
    texts = []
    for at in range(end, place, 3):
        size = struct.unpack("<I", packet[at : at + 3] + b"\0")[0]
        texts.append(packet[place : place + size])
        place += size
    return packet[:start], first, texts + [packet[place:]]


def padded(packet):
    """A packet with zeros after each of its partitions, if it has any."""
    parts = partitions_of(packet)
    if parts is None:
        return packet
    head, first, texts = parts
    texts = [text + bytes(PADDING) for text in texts]
    first += bytes(PADDING)
    sizes = b"".join(struct.pack("<I", len(text))[:3] for text in texts[:-1])
    tag = struct.unpack("<I", head[:3] + b"\0")[0]
    return struct.pack("<I", tag & 31 | len(first) << 5)[:3] + head[3:] + first + sizes + b"".join(texts)


def begins_with_ff(packet):
    """Whether one of the partitions of a sound packet begins with the byte FF."""
    parts = partitions_of(packet)
    return parts is not None and any(text[:1] == b"\xff" for text in [parts[1], *parts[2]])
