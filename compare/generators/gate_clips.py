#!/usr/bin/env python3
"""Makes the clips of the crate gate_clips, and what its program must print of them.

Run manually, not in the gate: gate_clips.py. It needs vpxenc and vpxdec (Debian's vpx-tools) and ffmpeg. Each line that
the program must print is a clip's name, how many frames vpxdec shows of it, and the MD5 that vpxdec gives of their
samples; the last line is the same of three clips, one after another.
"""

import hashlib
import pathlib
import sys

sys.path.insert(0, str(pathlib.Path(__file__).resolve().parent.parent))

from library.clips import drawn, kinds_of  # noqa: E402
from library.ivf import ivf, packets_of  # noqa: E402
from library.programs import TOP, run  # noqa: E402

CRATE = TOP / "crates/gate_clips"
LIMIT = 60_000
TEST, FRACTAL, NOISE = "testsrc2", "mandelbrot", "testsrc2,noise=alls=60:allf=t"
LIFE = "life=mold=10:ratio=0.4:death_color=#C83232:life_color=#00ff00,scale"
TURNED = "testsrc2,rotate=t:fillcolor=gray"
PAN = "mandelbrot,scroll=h=0.35:v=0.2"
CUTS = "testsrc2,hue=h='if(gt(mod(n,8),3),180,0)':b='if(gt(mod(n,8),3),3,0)'"

# The name of each clip, its source, width, height, number of frames, and vpxenc's words.
CLIPS = [
    ("version-0", TEST, 176, 144, 16, "--profile=0 --min-q=30 --max-q=50"),
    ("version-1", TEST, 176, 144, 16, "--profile=1 --min-q=30 --max-q=50"),
    ("version-2", TURNED, 176, 144, 16, "--profile=2 --min-q=30 --max-q=50"),
    ("version-3", TURNED, 176, 144, 16, "--profile=3 --min-q=30 --max-q=50"),
    ("two-partitions", FRACTAL, 96, 128, 12, "--token-parts=1 --min-q=20 --max-q=40"),
    ("four-partitions", LIFE, 96, 144, 8, "--token-parts=2 --min-q=30 --max-q=50"),
    ("eight-partitions", TEST, 64, 176, 12, "--token-parts=3 --min-q=20 --max-q=40"),
    ("error-resilient", TURNED, 128, 96, 16, "--error-resilient=1 --min-q=20 --max-q=50"),
    ("independent-partitions", TEST, 128, 96, 16, "--error-resilient=3 --token-parts=2 --min-q=20 --max-q=50"),
    (
        "hidden-altref",
        TURNED,
        144,
        96,
        24,
        "--passes=2 --auto-alt-ref=1 --lag-in-frames=16 --arnr-maxframes=7 --arnr-strength=5 --min-q=10 --max-q=50",
    ),
    (
        "segments",
        NOISE,
        96,
        96,
        12,
        "--rt --cpu-used=-6 --error-resilient=1 --end-usage=cbr --target-bitrate=60 --min-q=30 --max-q=63",
    ),
    ("odd-size", TEST, 175, 143, 12, "--min-q=30 --max-q=50"),
    ("narrow", FRACTAL, 17, 144, 12, "--min-q=10 --max-q=40"),
    ("small", TEST, 7, 5, 12, "--min-q=0 --max-q=30"),
    ("one-sample", TEST, 1, 1, 6, "--min-q=0 --max-q=30"),
    ("size-before-a-change", TEST, 80, 48, 8, "--min-q=10 --max-q=40"),
    ("size-behind-a-change", TEST, 48, 80, 8, "--min-q=10 --max-q=40"),
    ("scene-cuts", CUTS, 128, 96, 16, "--min-q=20 --max-q=50 --kf-max-dist=999"),
    ("finest-noise", NOISE, 48, 48, 6, "--min-q=0 --max-q=0"),
    ("coarsest-noise", NOISE, 176, 144, 12, "--min-q=63 --max-q=63"),
    ("far-vectors", PAN, 64, 64, 16, "--min-q=20 --max-q=40 --cpu-used=0"),
    ("still", "smptebars", 176, 144, 20, "--min-q=30 --max-q=50"),
    ("golden-references", TURNED, 96, 96, 24, "--rt --cpu-used=-3 --min-q=20 --max-q=50 --kf-max-dist=999"),
] + [
    (f"sharpness-{n}", FRACTAL if n % 2 else TURNED, 80, 64, 8, f"--sharpness={n} --min-q=40 --max-q=60")
    for n in range(8)
]


# Three clips of one size, which are the sources of one session.
SPLICED = ["error-resilient.ivf", "independent-partitions.ivf", "scene-cuts.ivf"]


def make(path, source, width, height, frames, words):
    clip = path.with_suffix(".y4m")
    picture = drawn(source, max(width, 64), max(height, 64))
    shape = ["-vf", f"scale={width}:{height}", "-frames:v", frames, "-pix_fmt", "yuv420p"]
    run(["ffmpeg", "-y", "-v", "error", "-f", "lavfi", "-i", picture, *shape, clip])
    run(["vpxenc", "--codec=vp8", "--ivf", "--disable-warning-prompt", *words.split(), "-o", path, clip])
    clip.unlink()


def main():
    data = CRATE / "data"
    data.mkdir(exist_ok=True)
    names, lines, total = [], [], 0
    for name, source, width, height, frames, words in CLIPS:
        path = data / f"{name}.ivf"
        make(path, source, width, height, frames, words)
        packets = list(packets_of(path.read_bytes()))
        path.write_bytes(ivf(width, height, packets))
        size = path.stat().st_size
        total += size
        md5 = run(["vpxdec", "--codec=vp8", "--i420", "--md5", path]).decode().split()[0]
        count = sum(packet[0] >> 4 & 1 for packet in packets)
        names.append(f"{name}.ivf\n")
        lines.append(f"{name}.ivf {count} {md5}\n")
        kinds = sorted({kind for packet in packets for kind in kinds_of(packet)})
        print(
            f"{name}: {size} bytes, {count} frames of {len(packets)} packets, {', '.join(kinds)}"
            + (", TOO LONG" if size > LIMIT else "")
        )
    samples = [run(["vpxdec", "--codec=vp8", "--i420", "-o", "-", data / name]) for name in SPLICED]
    together = sum(int(line.split()[1]) for line in lines if line.split()[0] in SPLICED)
    names.append(" ".join(SPLICED) + "\n")
    lines.append(" ".join(SPLICED) + f" {together} {hashlib.md5(b''.join(samples)).hexdigest()}\n")
    (CRATE / "stdin").write_text("".join(names))
    (CRATE / "stdout").write_text("".join(lines))
    print(f"{total} bytes")


if __name__ == "__main__":
    main()
