"""What a file looks like that is no stream which can be read here, and what would help."""

from __future__ import annotations

import os

from ..base.checks import AnyPath

# The first bytes of files, what they are, and what helps; `{}` is the file.
ENCODE = "its frames have to be coded as VP8 first: ffmpeg -i {} -c:v libvpx OUT.webm"
RTP = "take the video out of its RTP packets first, as GStreamer's pcapparse and rtpvp8depay do"
MAGIC = (
    ((b"\xd4\xc3\xb2\xa1", b"\xa1\xb2\xc3\xd4", b"\x4d\x3c\xb2\xa1", b"\xa1\xb2\x3c\x4d", b"\x0a\x0d\x0d\x0a"),
     "a capture of network packets (pcap)", RTP),
    ((b"YUV4MPEG2",), "frames, YUV4MPEG2", ENCODE),
    ((b"\x00\x00\x00\x01", b"\x00\x00\x01\x67", b"\x00\x00\x01\x40"), "a stream of H.264 or H.265", ENCODE),
    ((b"\x00\x00\x01\xba", b"\x00\x00\x01\xb3"), "an MPEG video", ENCODE),
    ((b"\x89PNG", b"\xff\xd8\xff", b"GIF8", b"BM", b"II*\0", b"MM\0*"), "a picture", ENCODE),
    ((b"RIFF",), "a file of sound or pictures (RIFF)", ENCODE),
    ((b"ID3", b"fLaC", b"\xff\xfb"), "a file of sound", "it has no video"),
    ((b"PK\x03\x04", b"\x1f\x8b", b"BZh", b"\xfd7zXZ", b"7z\xbc\xaf", b"\x28\xb5\x2f\xfd"),
     "an archive", "unpack it first"),
    ((b"\x7fELF", b"MZ"), "a program", "name a stream"),
    ((b"%PDF",), "a PDF", "name a stream"),
)  # fmt: skip
# What helps with bytes that may be a damaged stream.
SEARCH = "`wokureti repair {} OUT` searches it for packets of VP8"
# Bytes that are looked at.
HEAD = 512


def of(path: AnyPath) -> tuple[str, str]:
    """What a file looks like, and what would help: a pair of texts."""
    with open(path, "rb") as file:
        head = file.read(HEAD)
    name = os.fsdecode(path)
    if not head:
        return "an empty file", "name a stream"
    for begins, look, helps in MAGIC:
        if head.startswith(begins):
            return look, helps.format(name)
    if len(head) > 376 and head[0] == head[188] == head[376] == 0x47:
        return "an MPEG transport stream", ENCODE.format(name)
    if is_text(head):
        return "a text", "name a stream; a list of edits is named with --edits"
    return "bytes of an unknown kind", SEARCH.format(name)


def hint(path: AnyPath) -> str:
    """What a message says more of a file in which no packet was found: what it looks like and what would help, if that
    is known.
    """
    if not os.path.isfile(path):
        return ""
    with open(path, "rb") as file:
        if file.read(4) == b"DKIF":
            return ""
    look, helps = of(path)
    return "" if helps == SEARCH.format(os.fsdecode(path)) else f": it looks like {look}; {helps}"


def is_text(head: bytes) -> bool:
    """Whether bytes are a text: the last letter may be cut off."""
    for end in range(len(head), max(0, len(head) - 4), -1):
        try:
            text = head[:end].decode("utf-8")
        except UnicodeDecodeError:
            continue
        return all(letter.isprintable() or letter in "\t\r\n\f\x1b" for letter in text)
    return False


def sentence(path: AnyPath, name: str, error: Exception) -> str:
    """Why a file cannot be read as IVF."""
    with open(path, "rb") as file:
        is_ivf = file.read(4) == b"DKIF"
    if not is_ivf:
        look, helps = of(path)
        return f"{name} is not a stream of VP8: it looks like {look}; {helps}"
    if "another codec" in str(error):
        return f"{name}: {error}: {ENCODE.format(name)}"
    return f"{name}: {error}: {SEARCH.format(name)}"
