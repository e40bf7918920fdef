#!/usr/bin/env python3
"""Makes the files of crates/gate_webm/data with ffmpeg and mkvmerge, its `stdin`, and its `stdout` by the plain model
of library/matroska.py.

    compare/generators/gate_webm.py

Of each whole file, tracks, times, positions and sizes are first compared with mkvinfo and ffprobe (compare/webm.py).
"""

import pathlib
import sys
import tempfile

sys.path.insert(0, str(pathlib.Path(__file__).resolve().parents[1]))

import webm  # noqa: E402
from library import matroska  # noqa: E402
from library.programs import TOP, run  # noqa: E402

CRATE = TOP / "crates/gate_webm"
PLAIN = ["-fflags", "+bitexact", "-flags", "+bitexact", "-map_metadata", "-1"]
PICTURE = ["-f", "lavfi", "-i", "testsrc=size=16x16:rate=25:duration=0.32"]
SOUND = ["-f", "lavfi", "-i", "sine=duration=0.32"]
VIDEO = ["-c:v", "libvpx", "-b:v", "10k", "-g", "4"]


def element(name, content):
    """An element with a name and a length of eight bytes."""
    return bytes.fromhex(name) + (2**56 + len(content)).to_bytes(8, "big") + content


def by_hand(is_late=False, end=b""):
    """A file of which each part is seldom written: times before 0, a group, two clusters, lacing of the video, a track
    that is not listed, and a length that is wrong. The time of the second cluster may come after its block. Strings may
    have a 0 at their end, as those of GStreamer have.
    """
    entry = (
        element("D7", b"\x01")
        + element("83", b"\x01")
        + element("86", b"V_VP8" + end)
        + element("E0", element("B0", b"\x10") + element("BA", b"\x00\x20"))
    )
    sound = element("D7", b"\x00\x02") + element("83", b"\x02") + element("86", b"A_OPUS")
    blocks = [
        b"\x81\xff\xfe\x80\x10",
        b"\x82\x00\x00\x00ss",
        b"\x81\x00\x05\x02\x01\x01ab",
        b"\x83\x00\x06\x00x",
        b"\x40\x01\x00\x07\x00\x11",
    ]
    first = element("E7", b"\x01") + b"".join(element("A3", block) for block in blocks)
    time, group = element("E7", (2**64 - 3).to_bytes(8, "big")), element(
        "A0", element("A1", b"\x81\x00\x64\x00\x11") + element("9B", b"\x28")
    )
    second = group + time if is_late else time + group
    return (
        element("1A45DFA3", element("4282", b"matroska" + end))
        + b"\x18\x53\x80\x67\xff"
        + element("1549A966", element("2AD7B1", (41667).to_bytes(3, "big")))
        + element("1654AE6B", element("AE", sound) + element("EC", b"") + element("AE", entry))
        + element("1F43B675", first)
        + b"\x1f\x43\xb6\x75\x80"
        + second
    )


def main():
    data = CRATE / "data"
    data.mkdir(exist_ok=True)
    with tempfile.TemporaryDirectory() as name:
        folder = pathlib.Path(name)
        webm.encode(*PICTURE, *SOUND, *PLAIN, *VIDEO, "-c:a", "libopus", "-b:a", "6k", folder / "plain.webm")
        webm.encode(*PICTURE, *PLAIN, *VIDEO, folder / "short.webm")
        webm.encode("-i", folder / "plain.webm", *PLAIN, "-c", "copy", "-live", "1", folder / "live.webm")
        alpha = "color=red@0.5:size=16x16:rate=25:duration=0.12,format=yuva420p"
        webm.encode("-f", "lavfi", "-i", alpha, *PLAIN, "-c:v", "libvpx", "-auto-alt-ref", "0", folder / "groups.webm")
        webm.encode(*PICTURE, *PLAIN, "-c:v", "libvpx-vp9", "-b:v", "10k", folder / "vp9.webm")
        for path, words in (("laced.mkv", []), ("encoded.mkv", ["--compression", "0:zlib"])):
            run(["mkvmerge", "-q", "--deterministic", "1", "-o", folder / path, *words, folder / "plain.webm"])
        for path in sorted(folder.iterdir()):
            text, lines = path.read_bytes(), matroska.lines_of(path.read_bytes())
            if not lines[0].startswith("error") and webm.check_whole(path, lines)[1]:
                return 1
            (data / path.name).write_bytes(text)
    live, whole = (data / "live.webm").read_bytes(), (data / "plain.webm").read_bytes()
    starts = [found[1] for found in matroska.walk(live)[0] if found[0] == matroska.SIMPLE_BLOCK]
    (data / "damaged.webm").write_bytes(live[: starts[3]] + bytes(starts[5] - starts[3]) + live[starts[5] :])
    (data / "cut.webm").write_bytes(live[: starts[-1] + 9])
    (data / "kind.webm").write_bytes(whole.replace(b"\x42\x82\x84webm", b"\x42\x82\x84wabm"))
    (data / "empty.webm").write_bytes(b"")
    (data / "tracks.webm").write_bytes(whole.replace(b"\x16\x54\xae\x6b", b"\x16\x54\xae\x6c"))
    (data / "hand.mkv").write_bytes(by_hand())
    (data / "late.mkv").write_bytes(by_hand(is_late=True))
    (data / "strings.mkv").write_bytes(by_hand(end=b"\0"))
    (data / "early.webm").write_bytes(
        whole[: next(found[1] for found in reversed(matroska.walk(whole)[0]) if found[0] == matroska.SIMPLE_BLOCK)]
    )
    (data / "scale.mkv").write_bytes(
        by_hand().replace(element("2AD7B1", (41667).to_bytes(3, "big")), element("2AD7B1", b"\x00\x00\x00"))
    )
    names = sorted(path.name for path in data.iterdir())
    (CRATE / "stdin").write_text("".join(f"{name}\n" for name in names))
    lines = [line for name in names for line in [name, *matroska.lines_of((data / name).read_bytes())]]
    (CRATE / "stdout").write_text("".join(f"{line}\n" for line in lines))
    return 0


if __name__ == "__main__":
    sys.exit(main())
