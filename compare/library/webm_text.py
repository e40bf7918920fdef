"""A plain model of the WebM files that crates/webm_writing writes (its specs/Written.antt and specs/Entries.antt)."""

import struct

from library import ivf

INFO, TRACKS, CUES, SEEK_HEAD = "1549A966", "1654AE6B", "1C53BB6B", "114D9B74"
MOST = 5000  # milliseconds of a cluster


def number(value, size):
    return value.to_bytes(size, "big")


def element(name, content, marks=4):
    """An element: its name in hexadecimal, its length in `marks` bytes with the bit that marks them; its content."""
    return bytes.fromhex(name) + number(128**marks + len(content), marks) + content


HEADER = element(
    "1A45DFA3",
    element("4286", b"\1")
    + element("42F7", b"\1")
    + element("42F2", b"\4")
    + element("42F3", b"\10")
    + element("4282", b"webm")
    + element("4287", b"\4")
    + element("4285", b"\2"),
)


def groups_of(most, samples):
    """The samples of each cluster. A sample is its track, its time, whether decoding can begin there, and its bytes."""
    groups = []
    for sample in samples:
        _, time, is_key, _ = sample
        if not groups or is_key or time < groups[-1][0][1] or time > groups[-1][0][1] + most:
            groups.append([])
        groups[-1].append(sample)
    return groups


def block(base, sample):
    track, time, is_key, packet = sample
    content = bytes([128 + track]) + number(time - base, 2) + bytes([128 if is_key else 0]) + packet
    return element("A3", content, 4 if len(content) + 1 < 2**28 else 8)


def cluster(group):
    base = group[0][1]
    return element("1F43B675", element("E7", number(base, 8)) + b"".join(block(base, one) for one in group), 8)


def cue(track, time, place):
    position = element("F7", bytes([track])) + element("F1", number(place, 8))
    return element("BB", element("B3", number(time, 8)) + element("B7", position))


def seek(name, place):
    return element("4DBB", element("53AB", bytes.fromhex(name)) + element("53AC", number(place, 8)))


def webm_text(parts, most, samples):
    """A file with these parts, which are pairs of a name and a content. Positions are counted from the start of the
    content of the Segment.
    """
    texts = [element(name, content) for name, content in parts]
    groups = groups_of(most, samples)
    clusters = [cluster(group) for group in groups]
    at = 8 + 30 * (len(parts) + 1)
    seeks = cues = b""
    for (name, _), text in zip(parts, texts):
        seeks += seek(name, at)
        at += len(text)
    for group, text in zip(groups, clusters):
        track, time, is_key, _ = group[0]
        if is_key:
            cues += cue(track, time, at)
        at += len(text)
    seeks += seek(CUES, at)
    pieces = [element(SEEK_HEAD, seeks), *texts, *clusters, element(CUES, cues)]
    return HEADER + element("18538067", b"".join(pieces), 8)


def info_text(scale):
    return element("2AD7B1", number(scale, 4)) + element("4D80", b"wokureti") + element("5741", b"wokureti")


def tracks_text(width, height, duration):
    entry = (
        element("D7", b"\1")
        + element("73C5", b"\1")
        + element("83", b"\1")
        + element("9C", b"\0")
        + element("86", b"V_VP8")
        + (element("23E383", number(duration, 8)) if duration else b"")
        + element("E0", element("B0", number(width, 2)) + element("BA", number(height, 2)))
    )
    return element("AE", entry)


def time_of(rate, scale, stamp):
    """The time in milliseconds of a stamp in units of `scale / rate` seconds: the nearest one, or the later of two."""
    return (2000 * scale * stamp + rate) // (2 * rate)


def from_ivf(text):
    """The WebM file of an IVF file, or None if a time is not known or has more than 64 bits."""
    width, height, rate, scale = struct.unpack_from("<HHII", text, 12)
    samples = []
    for stamp, packet in ivf.records(text):
        if not rate or time_of(rate, scale, stamp) >= 2**64:
            return None
        samples.append((1, time_of(rate, scale, stamp), ivf.has_key_tag(packet), packet))
    duration = 10**9 * scale // rate if rate else 0
    return webm_text([(INFO, info_text(1000000)), (TRACKS, tracks_text(width, height, duration))], MOST, samples)
