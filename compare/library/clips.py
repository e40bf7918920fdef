"""Clips that ffmpeg draws and vpxenc codes with settings drawn at random."""

import struct

from .conformance import bits

SOURCES = [
    "mandelbrot",
    "testsrc2",
    "life=mold=10:ratio=0.4:death_color=#C83232:life_color=#00ff00,scale",
    "cellauto=rule=110,scale",
    "testsrc2,rotate=t:fillcolor=gray",
    "mandelbrot,noise=alls=12:allf=t",
    "testsrc2,noise=alls=60:allf=t",
]
SIZES = [(176, 144), (64, 64), (33, 17), (160, 96), (1, 1), (97, 51), (16, 16), (175, 143), (320, 180)]


def kinds_of(packet):
    """What a packet's header says, as words."""
    tag = struct.unpack("<I", packet[:3] + b"\0")[0]
    reader = bits.Reader(packet[3 if tag & 1 else 10 :][: tag >> 5])
    reader.number(0 if tag & 1 else 2)
    segments = reader.number(1)
    yield "inter frame" if tag & 1 else "key frame"
    yield f"version {tag >> 1 & 7}"
    if segments:
        updates_map, updates_data = reader.number(1), reader.number(1)
        yield "segments with a new map" if updates_map else "segments with the map before"
        if updates_data:
            reader.number(1)
            for size in [7] * 4 + [6] * 4:
                if reader.number(1):
                    reader.number(size + 1)
        for _ in range(3 * updates_map):
            if reader.number(1):
                reader.number(8)
    simple, level, sharpness = reader.number(1), reader.number(6), reader.number(3)
    if level:
        yield "simple filter" if simple else "normal filter"
        if sharpness:
            yield "sharpness"


def drawn(source, width, height):
    """A source of ffmpeg's of this size; the size goes after the first of its words, or after `scale`."""
    if source.endswith("scale"):
        return f"{source}={width}:{height}"
    first, _, rest = source.partition(",")
    return f"{first}=size={width}x{height}" + (f",{rest}" if rest else "")


def settings(choose):
    low = choose.choice([0, 0, 4, 20, 40, 63])
    words = [
        "--codec=vp8",
        "--ivf",
        f"--min-q={low}",
        f"--max-q={choose.choice([low, 63])}",
        "--disable-warning-prompt",
    ]
    words += [f"--profile={choose.randrange(4)}", f"--token-parts={choose.randrange(4)}"]
    words += [f"--auto-alt-ref={choose.randrange(2)}", f"--lag-in-frames={choose.choice([0, 5, 12])}"]
    words += [f"--error-resilient={choose.choice([0, 0, 1, 2, 3])}", f"--kf-max-dist={choose.choice([0, 9, 30, 999])}"]
    words += [f"--arnr-maxframes={choose.choice([0, 5])}", f"--sharpness={choose.randrange(8)}"]
    words += [f"--target-bitrate={choose.choice([20, 100, 1000])}", f"--static-thresh={choose.choice([0, 0, 1000])}"]
    if choose.randrange(3) == 0:
        return words + [
            "--rt",
            "--end-usage=cbr",
            f"--cpu-used={choose.choice([-4, -8, -16])}",
            f"--screen-content-mode={choose.randrange(3)}",
        ]
    return words + [f"--cpu-used={choose.choice([0, 0, 1, 4])}"]
