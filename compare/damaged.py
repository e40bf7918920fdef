#!/usr/bin/env python3
"""Compares the frames of damaged streams with what vpxdec shows, sample for sample.

Run manually, not in the gate: damaged.py [STREAMS] [SEED]. It needs the built program (see README.md), vpxenc and
vpxdec (Debian's vpx-tools) and ffmpeg. Clips are coded as by clips.py, and each gives streams with packets cut,
dropped, doubled, moved and with bytes changed. The replies tell which packets are sound: each run of them from a key
packet on is decoded by vpxdec as a stream of its own, and every frame that it shows must be the one that was served.

After the end of a partition all bits are 0. vpxdec stops there, and ffmpeg reads on in the next partition; so both get
the packets with zeros after each partition, which changes no frame of ours, and the script sees that it does not.

All bits of a partition that begins with FF are 1. vpxdec loses the top of its window there and reads others. A frame
that differs from vpxdec's, with such a partition in its packet or in one before it back to the key packet, is reported
by that name.

In version 3 vpxdec leaves chroma unpredicted where its vector points far out of the frame. A frame of that version that
differs from vpxdec's only in chroma is reported by that name.
"""

import collections
import os
import pathlib
import random
import struct
import subprocess
import sys
import tempfile

import results
from library.clips import SIZES, SOURCES, drawn, settings
from library.damage import begins_with_ff, damage, padded
from library.ivf import has_key_tag, is_shown, ivf, packets_of
from library.programs import VP8SERVE, run

FRAMES = 10
STREAMS_OF_A_CLIP = 20


def coded(room, choose):
    """The packets of a clip and its size; none where vpxenc does not take the settings."""
    width, height = choose.choice(SIZES)
    picture = drawn(choose.choice(SOURCES), max(width, 64), max(height, 64))
    shape = ["-vf", f"scale={width}:{height}", "-frames:v", str(FRAMES), "-pix_fmt", "yuv420p"]
    run(["ffmpeg", "-y", "-v", "error", "-f", "lavfi", "-i", picture, *shape, room / "clip.y4m"])
    try:
        run(["vpxenc", *settings(choose), "-o", room / "coded.ivf", room / "clip.y4m"])
    except subprocess.CalledProcessError:
        return None
    return width, height, list(packets_of((room / "coded.ivf").read_bytes()))


def frames_in(text, replies):
    """The served frames of a YUV4MPEG2 text, by their numbers."""
    served = [int(reply.split()[1]) for reply in replies if reply.startswith("served")]
    if not served:
        return {}
    size = (len(text) - text.index(b"\n") - 1) // len(served)
    start = text.index(b"\n") + 1
    return {n: text[start + k * size + 6 : start + (k + 1) * size] for k, n in enumerate(served)}


def runs_of(packets, sound):
    """The runs of sound packets that begin with a key tag, as ranges."""
    start = None
    for place, packet in enumerate(packets):
        if not sound[place]:
            if start is not None:
                yield start, place
            start = None
        elif has_key_tag(packet):
            if start is not None:
                yield start, place
            start = place
    if start is not None:
        yield start, len(packets)


def decoded(room, packets, decoder):
    """What a decoder shows of these packets, a text for each frame; all have one size."""
    width, height = (side & 0x3FFF for side in struct.unpack("<HH", packets[0][6:10]))
    stream, shown = room / "run.ivf", room / "run.yuv"
    stream.write_bytes(ivf(width, height, packets))
    shown.write_bytes(b"")
    words = {
        "vpxdec": [os.environ.get("VPXDEC", "vpxdec"), "--codec=vp8", "--i420", "--keep-going", "-o", shown, stream],
        "ffmpeg": [
            "ffmpeg",
            "-y",
            "-v",
            "error",
            "-i",
            stream,
            "-fps_mode",
            "passthrough",
            "-pix_fmt",
            "yuv420p",
            "-f",
            "rawvideo",
            shown,
        ],
        "ffmpeg without SIMD": [
            "ffmpeg",
            "-y",
            "-v",
            "error",
            "-cpuflags",
            "0",
            "-i",
            stream,
            "-fps_mode",
            "passthrough",
            "-pix_fmt",
            "yuv420p",
            "-f",
            "rawvideo",
            shown,
        ],
    }[decoder]
    subprocess.run([str(word) for word in words], stdout=subprocess.PIPE, stderr=subprocess.PIPE)
    text = shown.read_bytes()
    size = width * height + 2 * ((width + 1) // 2) * ((height + 1) // 2)
    return [text[at : at + size] for at in range(0, len(text) - size + 1, size)]


def frames_by_place(room, packets, decoder):
    """The frame that a decoder shows for each packet, where it shows one."""
    places = [place for place, packet in enumerate(packets) if is_shown(packet)]
    frames = decoded(room, packets, decoder)
    if len(frames) == len(places):
        return dict(zip(places, frames))
    found, before = {}, 0
    for place in places:
        frames = decoded(room, packets[: place + 1], decoder)
        if len(frames) == before + 1:
            found[place] = frames[-1]
        before = len(frames)
    return found


def is_unpredicted_chroma(packet, width, height, ours, theirs):
    """Whether two frames may differ because vpxdec leaves chroma unpredicted: in version 3, and in chroma alone."""
    return packet[0] >> 1 & 7 == 3 and ours[: width * height] == theirs[: width * height]


def served_of(room, width, height, packets):
    """The served frames of a stream by their numbers, and the replies."""
    (room / "in.ivf").write_bytes(ivf(width, height, packets))
    (room / "requests").write_text("".join(f"frame {n}\n" for n in range(sum(map(is_shown, packets)))))
    words = [VP8SERVE, room / "in.ivf", room / "requests", room / "out.y4m"]
    replies = (
        subprocess.run([str(word) for word in words], check=True, stdout=subprocess.PIPE).stdout.decode().split("\n")
    )
    return frames_in((room / "out.y4m").read_bytes(), replies), replies


def compare(room, width, height, packets, told):
    shown = [place for place, packet in enumerate(packets) if is_shown(packet)]
    served, replies = served_of(room, width, height, packets)
    broken = {int(reply.split()[2]) for reply in replies if reply.startswith("refused packet")}
    for reply in replies:
        if reply:
            told[" ".join(word for word in reply.split() if not word.isdigit())] += 1
    # A packet is sound where no break stands between it and the key packet before it.
    sound, good = [], False
    for place, packet in enumerate(packets):
        good = (good or has_key_tag(packet)) and place not in broken
        sound.append(good)
    packets = [padded(packet) if sound[place] else packet for place, packet in enumerate(packets)]
    faults = [n for n, frame in served_of(room, width, height, packets)[0].items() if frame != served.get(n)]
    for start, end in runs_of(packets, sound):
        wanted = frames_by_place(room, packets[start:end], "vpxdec")
        others = None
        for n, place in enumerate(shown):
            if not start <= place < end or n not in served:
                continue
            if place - start not in wanted:
                told["not shown by vpxdec"] += 1
            elif served[n] == wanted[place - start]:
                told["as vpxdec"] += 1
            elif is_unpredicted_chroma(packets[place], width, height, served[n], wanted[place - start]):
                told["chroma of version 3 unpredicted by vpxdec"] += 1
            elif any(map(begins_with_ff, packets[start : place + 1])):
                told["after a partition that begins with FF"] += 1
            else:
                if others is None:
                    others = frames_by_place(room, packets[start:end], "ffmpeg")
                if others.get(place - start) == served[n]:
                    told["as ffmpeg and not as vpxdec"] += 1
                else:
                    faults.append(n)
    return faults


def main():
    count = int(sys.argv[1]) if len(sys.argv) > 1 else 200
    choose = random.Random(int(sys.argv[2]) if len(sys.argv) > 2 else 1)
    told = collections.Counter()
    streams = differing = 0
    with tempfile.TemporaryDirectory() as name:
        room = pathlib.Path(name)
        while streams < count:
            clip = coded(room, choose)
            for _ in range(STREAMS_OF_A_CLIP if clip else 0):
                width, height, packets = clip
                packets = damage(packets, choose)
                faults = compare(room, width, height, packets, told)
                streams += 1
                if faults:
                    differing += 1
                    kept = pathlib.Path(tempfile.gettempdir()) / f"damaged-{streams}.ivf"
                    kept.write_bytes(ivf(width, height, packets))
                    print(f"{kept}: frames {faults} DIFFER", flush=True)
    results.total(f"{streams} streams; {differing} differ", differing, told)
    print(", ".join(f"{kind} {number}" for kind, number in sorted(told.items())))
    return 1 if differing else 0


if __name__ == "__main__":
    sys.exit(main())
