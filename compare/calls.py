#!/usr/bin/env python3
"""Captures of calls with losses, as wokureti reads them, next to GStreamer's depayloader and to ffmpeg, which is sent
them; two captures of one call; and captures that are cut and flipped.

    compare/calls.py [--captures N] [--seed S]

Of each part of lost packets it counts the frames that are whole, those that are cut off but decoded, and their mean
luma PSNR to what was sent; every frame that is called whole must be the one that was sent. N captures (2,000 if nothing
is said) are damaged: each must end in a reading or a sentence, with no whole frame that was not sent. It needs Debian's
ffmpeg, vpx-tools and gstreamer1.0-plugins-good, and the built programs.
"""

import argparse
import collections
import hashlib
import math
import pathlib
import random
import signal
import socket
import subprocess
import sys
import tempfile
import time
from unittest import mock

TOP = pathlib.Path(__file__).resolve().parent.parent
sys.path[:0] = [str(TOP / "clients/python"), str(TOP / "clients/python/tests")]

import captured  # noqa: E402
import results  # noqa: E402
from repairs import clips  # noqa: E402
from wokureti import Refused, Session  # noqa: E402
from wokureti.media import ivf  # noqa: E402
from wokureti.calls import recordings  # noqa: E402

PARTS = (0.0, 0.01, 0.02, 0.05, 0.1, 0.2)
# Those that ffmpeg is sent: as long as a call takes, so not all.
SENT = (0.0, 0.02)
# Seconds between two packets that it is sent, and for which it is waited for before and after them.
STEP, PATIENCE, AFTER = 0.0005, 20, 2
# What GStreamer makes of its packets for the tests: bytes that a packet of RTP may have.
SIZE = 500
# Bytes between two that are flipped: more than a packet has.
APART = 1000
LIMIT = 120


def sent_by_gstreamer(path, room):
    """The packets of RTP of an IVF file."""
    clip, out = room / "clip.webm", room / "sent"
    subprocess.run(
        ["ffmpeg", "-nostdin", "-v", "error", "-y", "-i", path, "-c", "copy", clip], check=True, timeout=LIMIT
    )
    words = (
        f"filesrc location={clip} ! matroskademux ! rtpvp8pay mtu={SIZE} picture-id-mode=15-bit ! rtpstreampay !"
        f" filesink location={out}"
    )
    subprocess.run(["gst-launch-1.0", "-q", *words.split()], check=True, timeout=LIMIT)
    return captured.framed(out.read_bytes())


def kept_by_gstreamer(packets, room):
    """How many frames GStreamer's depayloader gives of these packets."""
    given = room / "given"
    given.write_bytes(b"".join(len(one).to_bytes(2, "big") + one for one in packets))
    caps = "application/x-rtp-stream,media=video,clock-rate=90000,encoding-name=VP8,payload=96"
    words = f"filesrc location={given} ! {caps} ! rtpstreamdepay ! rtpvp8depay ! fakesink silent=false"
    return subprocess.run(
        ["gst-launch-1.0", "-v", *words.split()], check=True, timeout=LIMIT, capture_output=True
    ).stdout.count(b"chain")


def is_bound(port):
    """Whether a program waits for datagrams at a port."""
    lines = pathlib.Path("/proc/net/udp").read_text().splitlines()[1:]
    return any(int(line.split()[1].split(":")[1], 16) == port for line in lines)


def kept_by_ffmpeg(packets, room):
    """The MD5 of each frame that ffmpeg takes out of these packets when it is sent them."""
    with socket.socket(socket.AF_INET, socket.SOCK_DGRAM) as out:
        out.bind(("127.0.0.1", 0))
        port = out.getsockname()[1] & ~1
    call = room / "call.sdp"
    call.write_text(
        f"v=0\no=- 0 0 IN IP4 127.0.0.1\ns=call\nc=IN IP4 127.0.0.1\nt=0 0\nm=video {port} RTP/AVP 96\na=rtpmap:96"
        " VP8/90000\n"
    )
    words = [
        "ffmpeg",
        "-nostdin",
        "-v",
        "quiet",
        "-protocol_whitelist",
        "file,udp,rtp",
        "-i",
        call,
        "-c",
        "copy",
        "-copyinkf",
        "-f",
        "framemd5",
        "-",
    ]
    with (
        subprocess.Popen(words, stdout=subprocess.PIPE, text=True) as process,
        socket.socket(socket.AF_INET, socket.SOCK_DGRAM) as out,
    ):
        limit = time.monotonic() + PATIENCE
        while not is_bound(port) and time.monotonic() < limit:
            time.sleep(0.01)
        for one in packets:
            out.sendto(one, ("127.0.0.1", port))
            time.sleep(STEP)
        time.sleep(AFTER)
        process.send_signal(signal.SIGINT)
        text = process.communicate(timeout=LIMIT)[0]
    return [line.rpartition(",")[2].strip() for line in text.splitlines() if not line.startswith("#")]


def capture(packets, path):
    path.write_bytes(captured.pcap([captured.ethernet(captured.ipv4(one)) for one in packets]))
    return path


def lumas(path):
    """The luma samples of each frame of an IVF file; None for one that is refused."""
    found = []
    with Session(path) as session:
        for number in range(session.count().frames):
            try:
                found.append(session.frame(number).y.tobytes())
            except Refused:
                found.append(None)
    return found


def psnr(one, other):
    error = sum((a - b) ** 2 for a, b in zip(one, other)) / len(one)
    return 60.0 if error == 0 else min(60.0, 10 * math.log10(255 * 255 / error))


def measure(path, room, seed, counts, wrong):
    """Counts what is left of a clip at each part of lost packets."""
    packets = ivf.read_packets(path)[1]
    true, samples, sent = {data for _, data in packets}, lumas(path), sent_by_gstreamer(path, room)
    shown = [number for number, (_, data) in enumerate(packets) if ivf.is_shown(data)]
    for part in PARTS:
        left = captured.lossy(sent, part, seed)
        one = capture(left, room / "one.pcap")
        call = recordings.call_of(recordings.choose(one, "one").frames)
        whole = [frame for frame in call.frames if frame.is_whole]
        wrong += [f"{path.name}, {part}: a whole frame that was not sent" for frame in whole if frame.data not in true]
        numbers = {frame.picture: place for place, frame in enumerate(call.frames)}
        start = call.frames[0].picture
        out = room / "read.ivf"
        recordings.read(one, out, "one", True)
        ours, place = lumas(out), 0
        seen = [number for number, (_, data) in enumerate(recordings.packets_of(call)) if ivf.is_shown(data)]
        cut = []
        for place, number in enumerate(seen):
            frame = call.frames[number]
            at = (frame.picture - start) % 32768
            if not frame.is_whole and at in shown and ours[place] is not None:
                cut.append(psnr(ours[place], samples[shown.index(at)]))
        two = capture(captured.lossy(sent, part, seed + 1000), room / "two.pcap")
        joined = recordings.Searched(one, "one", two, "two").call.frames
        wrong += [
            f"{path.name}, {part}: a joined frame that was not sent"
            for frame in joined
            if frame.is_whole and frame.data not in true
        ]
        found = counts[part]
        found["frames"] += len(packets)
        found["whole"] += len(whole)
        found["decoded"] += len(numbers)
        found["gstreamer"] += kept_by_gstreamer(left, room)
        if part in SENT:
            sums = {hashlib.md5(data).hexdigest() for data in true}
            found["ffmpeg"] += sum(one in sums for one in kept_by_ffmpeg(left, room))
        found["cut"] += len(cut)
        found["psnr"] += sum(cut)
        found["joined"] += sum(frame.is_whole for frame in joined)


def damage(count, seed, room, wrong):
    """Reads captures that are cut and flipped, and returns how many whole frames they had."""
    packets = [data for _, data in ivf.read_packets(TOP / "examples/mandelbrot.ivf")[1]][:20]
    sent = captured.payloads(packets, size=400, pictures=9)
    made = [
        captured.pcap([captured.ethernet(captured.ipv4(one)) for one in sent]),
        captured.pcapng([captured.ethernet(captured.ipv6(one)) for one in sent]),
        captured.pcapng([captured.ipv4(one) for one in sent], 101, ">", simple=True),
    ]
    chance, true, whole, path = random.Random(seed), set(packets), 0, room / "damaged"
    for turn in range(count):
        data = bytearray(made[turn % len(made)])
        # The checksum of UDP finds each flip, but two in one datagram may leave it as it was.
        for at in range(chance.randrange(APART), len(data), APART):
            if chance.random() < 0.3:
                data[at] ^= 1 << chance.randrange(8)
        if turn % 3 == 0:
            del data[chance.randrange(len(data)) :]
        path.write_bytes(data)
        try:
            frames = recordings.call_of(recordings.choose(path, "damaged").frames).frames
        except ValueError:
            continue
        found = [frame.data for frame in frames if frame.is_whole]
        whole += len(found)
        wrong += [f"damaged capture {turn}: a whole frame that was not sent" for data in found if data not in true]
    return whole


def main():
    parser = argparse.ArgumentParser(description=__doc__, formatter_class=argparse.RawDescriptionHelpFormatter)
    parser.add_argument("--captures", type=int, default=2000)
    parser.add_argument("--seed", type=int, default=1)
    given = parser.parse_args()
    counts, wrong = collections.defaultdict(collections.Counter), []
    with tempfile.TemporaryDirectory() as name, mock.patch("wokureti.calls.recordings.say"):
        room = pathlib.Path(name)
        for number, path in enumerate(clips(room)):
            measure(path, room, given.seed + number, counts, wrong)
        whole = damage(given.captures, given.seed, room, wrong)
    print(
        "lost, frames, whole, decoded, by GStreamer, by ffmpeg, cut off and shown, their mean luma PSNR, whole with a"
        " second capture"
    )
    for part, found in counts.items():
        mean = f"{found['psnr'] / found['cut']:.1f}" if found["cut"] else "-"
        by_ffmpeg = found["ffmpeg"] if part in SENT else "-"
        print(
            f"{part:.0%} {found['frames']} {found['whole']} {found['decoded']} {found['gstreamer']} {by_ffmpeg}"
            f" {found['cut']} {mean} {found['joined']}"
        )
    if counts[0.0]["ffmpeg"] != counts[0.0]["frames"]:
        wrong.append(
            f"without losses ffmpeg has {counts[0.0]['ffmpeg']} of {counts[0.0]['frames']} frames: it was sent them too"
            " fast"
        )
    for text in wrong[:20]:
        print(text)
    two = counts[0.02]
    mean = two["psnr"] / max(1, two["cut"])
    text = (
        f"of {two['frames']} frames with 2 % of RTP lost {two['whole']} whole, {two['decoded']} decoded (PSNR of the"
        f" {two['cut']} cut ones {mean:.1f}), GStreamer {two['gstreamer']}, ffmpeg {two['ffmpeg']}, whole with a second"
        f" capture {two['joined']}"
    )
    results.total(f"{text}; {given.captures} damaged captures, {whole} whole frames; {len(wrong)} wrong", len(wrong))
    return 1 if wrong else 0


if __name__ == "__main__":
    sys.exit(main())
