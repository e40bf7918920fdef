#!/usr/bin/env python3
"""Compares streams whose size changes at each key frame with what vpxdec shows, sample for sample.

    compare/sizes.py [STREAMS] [SEED]

README.md says more.
"""

import pathlib
import random
import subprocess
import sys
import tempfile

import results
from library.clips import drawn
from library.ivf import ivf, packets_of
from library.programs import VP8SERVE, run

LONGEST_SIDE = 40
PIECES, FRAMES = 5, 4


def side_pair(choose):
    """A width and a height of 1 to 40 samples: each pair of odd and even is as likely."""
    return tuple(choose.randrange(2 - odd, LONGEST_SIDE + 1, 2) for odd in (choose.randrange(2), choose.randrange(2)))


def coded_clip(room, choose, width, height):
    """The packets of a short clip of this size: one key frame, then inter frames."""
    picture = drawn(choose.choice(["mandelbrot", "testsrc2,noise=alls=60:allf=t"]), 64, 64)
    shape = ["-vf", f"scale={width}:{height}", "-frames:v", str(FRAMES), "-pix_fmt", "yuv420p"]
    run(["ffmpeg", "-y", "-v", "error", "-f", "lavfi", "-i", picture, *shape, room / "clip.y4m"])
    words = [
        f"--profile={choose.randrange(4)}",
        f"--token-parts={choose.randrange(4)}",
        f"--sharpness={choose.randrange(8)}",
    ]
    words += [
        f"--target-bitrate={choose.choice([5, 50, 500])}",
        "--auto-alt-ref=0",
        "--lag-in-frames=0",
        "--kf-max-dist=999",
    ]
    run(
        [
            "vpxenc",
            "--codec=vp8",
            "--ivf",
            "--disable-warning-prompt",
            *words,
            "-o",
            room / "coded.ivf",
            room / "clip.y4m",
        ]
    )
    return list(packets_of((room / "coded.ivf").read_bytes()))


def shown_by_vpxdec(room, packets):
    """The samples of each frame of packets of one size, which begin with a key packet."""
    (room / "piece.ivf").write_bytes(ivf(LONGEST_SIDE, LONGEST_SIDE, packets))
    run(["vpxdec", "--codec=vp8", "--i420", "-o", room / "piece.yuv", room / "piece.ivf"])
    samples = (room / "piece.yuv").read_bytes()
    size = len(samples) // len(packets)
    return [samples[n * size : (n + 1) * size] for n in range(len(packets))]


def wrong_frames(room, choose, pieces, first):
    """How many frames were compared of a run that begins with a frame of piece `first`, and the errors of that run.

    All frames are requested three times in random order. Those of the first frame's size must be vpxdec's, and the
    others are refused after they were decoded, so pictures of several sizes are cached next to each other.
    """
    packets = [packet for piece in pieces for packet in piece["packets"]]
    frames = [(piece["size"], samples) for piece in pieces for samples in piece["shown"]]
    order = [n for _ in range(3) for n in choose.sample(range(len(frames)), len(frames))]
    order.insert(0, first * FRAMES)
    size = frames[order[0]][0]
    (room / "in.ivf").write_bytes(ivf(LONGEST_SIDE, LONGEST_SIDE, packets))
    (room / "requests").write_text("".join(f"frame {n}\n" for n in order))
    command = [VP8SERVE, room / "in.ivf", room / "requests", room / "out.y4m", f"--cache={choose.randrange(1, 9)}"]
    replies = subprocess.run(command, check=True, capture_output=True, text=True).stdout.splitlines()
    wanted = [f"served {n}" if frames[n][0] == size else "refused SizeDiffers" for n in order]
    text = (room / "out.y4m").read_bytes()
    samples = b"".join(b"FRAME\n" + frames[n][1] for n in order if frames[n][0] == size)
    faults = [] if replies == wanted else ["replies"]
    if text[text.find(b"\n") + 1 :] != samples:
        faults.append("frames")
    return sum(frames[n][0] == size for n in order), faults


def compare(room, choose):
    sizes = [side_pair(choose) for _ in range(PIECES - 1)]
    sizes.append(sizes[0])  # so that a size comes back
    pieces = []
    for size in sizes:
        packets = coded_clip(room, choose, *size)
        pieces.append({"size": size, "packets": packets, "shown": shown_by_vpxdec(room, packets)})
    count = 0
    for first in range(PIECES - 1):
        compared, faults = wrong_frames(room, choose, pieces, first)
        count += compared
        if faults:
            return count, f"{sizes} from piece {first}: {' and '.join(faults)} DIFFER"
    return count, None


def main():
    streams = int(sys.argv[1]) if len(sys.argv) > 1 else 20
    choose = random.Random(int(sys.argv[2]) if len(sys.argv) > 2 else 1)
    frames = differing = 0
    with tempfile.TemporaryDirectory() as name:
        for _ in range(streams):
            count, fault = compare(pathlib.Path(name), choose)
            frames += count
            if fault:
                differing += 1
                print(fault, flush=True)
    results.total(f"{frames} frames of {streams} streams; {differing} streams differ", differing)
    return 1 if differing else 0


if __name__ == "__main__":
    sys.exit(main())
