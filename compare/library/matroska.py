"""A plain reading of WebM and Matroska files, by the definitions in crates/webm_files/specs."""

import math

EBML, SEGMENT, INFO, TRACKS, CLUSTER = 0x1A45DFA3, 0x18538067, 0x1549A966, 0x1654AE6B, 0x1F43B675
CHAPTERS, ATTACHMENTS, TAGS = 0x1043A770, 0x1941A469, 0x1254C367
TIMESTAMP, SIMPLE_BLOCK, BLOCK_GROUP, BLOCK = 0xE7, 0xA3, 0xA0, 0xA1
OPENED = {SEGMENT, CLUSTER, BLOCK_GROUP}
BLOCKS = {SIMPLE_BLOCK, BLOCK}
RESUMED = {SIMPLE_BLOCK, BLOCK_GROUP, BLOCK}
KEPT = {INFO, TRACKS, CHAPTERS, ATTACHMENTS, TAGS}
VOID, CRC_32 = 0xEC, 0xBF
OTHERS = {
    0x114D9B74,
    0x1C53BB6B,
    VOID,
    CRC_32,
    0x5854,
    0xA7,
    0xAB,
    0xAF,
    0xA2,
    0x75A1,
    0x9B,
    0xFA,
    0xFB,
    0xFD,
    0xA4,
    0x75A2,
    0x8E,
    0xC8,
}
KNOWN = OPENED | BLOCKS | KEPT | OTHERS | {EBML, TIMESTAMP}
MOST_PACKETS, MOST_ELEMENTS, MOST_TRACKS = 1_048_576, 16_777_216, 127


class Refused(Exception):
    """The file is not read, by this error."""


def number(text, at, most):
    """The number at a position, with its mark and width; None if no whole one of at most `most` bytes is there."""
    if at >= len(text):
        return None
    width = 9 - text[at].bit_length()
    if width > most or at + width > len(text):
        return None
    return int.from_bytes(text[at : at + width], "big"), width


def head(text, at):
    """The name of an element, the length of its content, whether that is known, and where the content begins."""
    name = number(text, at, 4)
    if name is None:
        return None
    size = number(text, at + name[1], 8)
    if size is None:
        return None
    length = size[0] % 128 ** size[1]
    return name[0], length, length + 1 < 128 ** size[1], at + name[1] + size[1]


def element(text, at):
    """The element at a position: name, position, and those where its content begins and where reading continues."""
    found = head(text, at)
    if found is None or found[0] not in KNOWN:
        return None
    name, length, is_sized, start = found
    if name in OPENED:
        return name, at, start, start
    if not is_sized or start + length > len(text):
        return None
    return name, at, start, start + length


def is_cut(text, at):
    """Whether the end of the file cuts an element at a position."""
    found = head(text, at)
    return found is not None and found[0] in KNOWN and found[2] and found[3] + found[1] > len(text)


def follow(text, at, count):
    """Whether so many elements follow each other at a position, or fewer up to the end."""
    for _ in range(count):
        if at == len(text):
            return True
        found = element(text, at)
        if found is None:
            return False
        at = found[3]
    return True


def next_element(text, at):
    """The element with which reading continues from a position."""
    found = element(text, at)
    if found and (found[0] not in BLOCKS or is_cut(text, found[3]) or follow(text, found[3], 1)):
        return found
    for later in range(at + 1, len(text)):
        if text[later] in (0x1F, 0xA0, 0xA1, 0xA3):
            found = element(text, later)
            if found and (found[0] == CLUSTER or (found[0] in RESUMED and follow(text, found[3], 2))):
                return found
    return None


def walk(text):
    """The elements that reading finds, and the position where it ends."""
    at, elements = 0, []
    while found := next_element(text, at):
        elements.append(found)
        at = found[3]
    return elements, at


def blocks(text, elements):
    """The blocks: track, time, flags, position of the element, first byte and end of the packets."""
    base, found = 0, []
    for name, place, start, end in elements:
        if name == TIMESTAMP:
            base = int.from_bytes(text[start:end][:8], "big")
        track = number(text[start:end], 0, 8) if name in BLOCKS else None
        if track and end - start >= track[1] + 3:
            at = start + track[1]
            stamp = base + int.from_bytes(text[at : at + 2], "big", signed=True)
            found.append(
                (track[0] % 128 ** track[1], min(max(stamp, 0), 2**64 - 1), text[at + 2], place, at + 3, end)
            )
    return found


def timeless(elements):
    """Where the clusters begin of which a block comes before their time."""
    decide = {CLUSTER, TIMESTAMP} | BLOCKS
    for at, found in enumerate(elements):
        if found[0] == CLUSTER and next((name for name, *_ in elements[at + 1 :] if name in decide), None) in BLOCKS:
            yield found[1]


def closes(level, name):
    """Whether an element is not in the Segment or Cluster before it."""
    return name in (EBML, SEGMENT) if level == SEGMENT else name >= 1 << 28


def lengths(text, elements, end):
    """The lengths that are wrong, of Segments and then of Clusters: name, position, where it ends by its length, and by
    what was read.
    """
    for level in (SEGMENT, CLUSTER):
        for at, (name, place, start, _) in enumerate(elements):
            _, length, is_sized, _ = head(text, place)
            if name != level or not is_sized:
                continue
            says = start + length
            # a file whose end cuts an element decides nothing at its end
            ends = None if is_cut(text, end) or says <= len(text) else len(text)
            for other, begins, _, following in elements[at + 1 :]:
                if closes(level, other):
                    ends = begins if begins < says else None
                    break
                if other not in (VOID, CRC_32) and says < following:
                    ends = following
                    break
            if ends is not None:
                yield level, place, says, ends


def children(text):
    """The elements in the content of an element that is whole: names and contents."""
    at, found = 0, []
    while (child := head(text, at)) and child[2] and child[3] + child[1] <= len(text):
        found.append((child[0], text[child[3] : child[3] + child[1]]))
        at = child[3] + child[1]
    return found


def field(text, name):
    """The content of the first child of a name, or nothing."""
    return next((content for other, content in children(text) if other == name), b"")


def text_field(text, name):
    """The value of the first child of a name that is a string: what is before its first byte of 0."""
    return field(text, name).partition(b"\0")[0]


def number_or(text, other):
    return int.from_bytes(text[:8], "big") if text else other


def reading(text):
    """What is read of a file, as the lines that gate_webm prints."""
    first = element(text, 0)
    if first is None or first[0] != EBML:
        raise Refused("Header")
    if text_field(text[first[2] : first[3]], 0x4282) not in (b"webm", b"matroska"):
        raise Refused("DocType")
    elements, end = walk(text)
    tracks = next((text[found[2] : found[3]] for found in elements if found[0] == TRACKS), None)
    if tracks is None:
        raise Refused("NoTracks")
    entries = [content for name, content in children(tracks) if name == 0xAE]
    entry = next((content for content in entries if text_field(content, 0x86) == b"V_VP8"), None)
    if entry is None:
        raise Refused("NoVideo")
    if field(entry, 0x6D80):
        raise Refused("Encoded")
    info = next((text[found[2] : found[3]] for found in elements if found[0] == INFO), b"")
    scale = number_or(field(info, 0x2AD7B1), 1_000_000)
    if not 0 < scale < 2**32:
        raise Refused("Scale")
    video, numbers, found = (
        number_or(field(entry, 0xD7), 0),
        [number_or(field(content, 0xD7), 0) for content in entries],
        blocks(text, elements),
    )
    packets = [block for block in found if block[0] == video and not block[2] & 6]
    if len(elements) > MOST_ELEMENTS or len(entries) > MOST_TRACKS or len(packets) > MOST_PACKETS:
        raise Refused("TooMany")
    size, common = field(entry, 0xE0), math.gcd(10**9, scale)
    width, height = (number_or(field(size, key), 0) % 65536 for key in (0xB0, 0xBA))
    yield f"head {width} {height} {10**9 // common} {scale // common}"
    yield f"video {video} {number_or(field(entry, 0x23E383), 0)}"
    yield from (f"track {track}" for track in numbers)
    yield from (f"packet {block[1]} {block[5] - block[4]} {hash_of(text[block[4] : block[5]])}" for block in packets)
    yield from ("block " + " ".join(map(str, block)) for block in found if block[0] in numbers)
    yield from ("unlisted " + " ".join(map(str, block)) for block in found if block[0] not in numbers)
    at, spare = 0, 0
    for place, following in [*((found[1], found[3]) for found in elements), (len(text), 0)]:
        if at < place:
            yield f"gap {at} {place}"
            spare += place - at
        at = following
    yield from (f"part {name} {place} {following}" for name, place, _, following in elements if name in KEPT)
    yield from (f"timeless {place}" for place in timeless(elements))
    yield from ("length " + " ".join(map(str, wrong)) for wrong in lengths(text, elements, end))
    yield f"spare {spare}"
    if is_cut(text, end):
        yield "cut"


def hash_of(text):
    value = 0
    for byte in text:
        value = (value * 16777619 + byte) % 2**32
    return value


def lines_of(text):
    """The lines that gate_webm prints of a file."""
    try:
        return list(reading(text))
    except Refused as refused:
        return [f"error {refused}"]
