#!/usr/bin/env python3
"""Compares what a session with a small cache serves after random edits with what a session serves that caches nothing.

    tests/programs/kept.py [LISTS] [SEED]

tests/README.md says more.
"""

import collections
import pathlib
import random
import subprocess
import sys
import tempfile

sys.path.insert(1, str(pathlib.Path(__file__).resolve().parents[2] / "compare"))
import results  # noqa: E402
from library.clips import settings  # noqa: E402
from library.ivf import ivf, packets_of  # noqa: E402
from library.programs import VP8SERVE, run  # noqa: E402

WIDTH, HEIGHT = 48, 32
CLIPS, FRAMES, LINES = 6, 12, 24
FRAME = 6 + WIDTH * HEIGHT * 3 // 2


def clip_packets(room, choose):
    """The packets of a clip that is coded with settings drawn at random."""
    source = choose.choice(["mandelbrot", "testsrc2", "testsrc2,noise=alls=60:allf=t"])
    shape = ["-vf", f"scale={WIDTH}:{HEIGHT}", "-frames:v", str(FRAMES), "-pix_fmt", "yuv420p"]
    run(["ffmpeg", "-y", "-v", "error", "-f", "lavfi", "-i", source, *shape, room / "clip.y4m"])
    run(["vpxenc", *settings(choose), "-o", room / "coded.ivf", room / "clip.y4m"])
    return list(packets_of((room / "coded.ivf").read_bytes()))


def write_stream(path, packets):
    path.write_bytes(ivf(WIDTH, HEIGHT, packets, [0] * len(packets)))


def served(room, packets, requests, *words):
    """The replies, and the bytes of each frame that was served."""
    write_stream(room / "in.ivf", packets)
    (room / "requests").write_text("".join(f"{line}\n" for line in requests))
    command = [VP8SERVE, room / "in.ivf", room / "requests", room / "out.y4m", *words]
    replies = subprocess.run(command, check=True, capture_output=True, text=True).stdout.splitlines()
    text = (room / "out.y4m").read_bytes()
    text = text[text.find(b"\n") + 1 :]
    return replies, [text[place : place + FRAME] for place in range(0, len(text), FRAME)]


def random_edit(choose, packets, pool):
    """An edit, as its line, made of the list too."""
    kind = choose.choice(["insert", "replace", "same", "same", "delete", "move"]) if packets else "insert"
    at = choose.randrange(len(packets) + (kind == "insert"))
    if kind == "insert":
        packet = choose.choice(pool)
        packets.insert(at, packet)
        return f"insert {at} 0 {packet.hex() or '-'}"
    if kind in ("replace", "same"):
        packet = packets[at] if kind == "same" else choose.choice(pool)
        packets[at] = packet
        return f"replace {at} {packet.hex() or '-'}"
    if kind == "delete":
        del packets[at]
        return f"delete {at}"
    to = choose.randrange(len(packets))
    packets.insert(to, packets.pop(at))
    return f"move {at} {to}"


def compare(room, choose, pools, told):
    pool = choose.choice(pools) + [b"", bytes([0x11, 0, 0])]
    stream = list(choose.choice(pools))
    packets, lines, states = list(stream), [], []
    for _ in range(LINES):
        if choose.randrange(3):
            n = choose.randrange(len(packets) + 1)
            lines.append(f"frame {n}")
            states.append((n, list(packets)))
        else:
            lines.append(random_edit(choose, packets, pool))
    capacity = choose.randrange(1, 9)
    replies, frames = served(room, stream, lines + ["stats"], "--cache", str(capacity))
    told["steps"] += int(replies.pop().split()[1])
    replies = [reply for reply in replies if not reply.startswith("ok ")]
    for reply, (n, standing) in zip(replies, states, strict=True):
        alone, shown = served(room, standing, [f"frame {n}", "stats"])
        told["steps that a session that caches nothing makes"] += int(alone[1].split()[1])
        if reply != alone[0] or (shown and shown[0] != frames.pop(0)):
            sys.exit(f"capacity {capacity}, frame {n}: {reply}, and alone {alone[0]}; the lines are {lines}")
        told[" ".join(word for word in reply.split() if not word.isdigit())] += 1
    assert not frames
    return len(states)


def main():
    count = int(sys.argv[1]) if len(sys.argv) > 1 else 500
    choose = random.Random(int(sys.argv[2]) if len(sys.argv) > 2 else 1)
    told = collections.Counter()
    with tempfile.TemporaryDirectory() as name:
        room = pathlib.Path(name)
        pools = [clip_packets(room, choose) for _ in range(CLIPS)]
        frames = sum(compare(room, choose, pools, told) for _ in range(count))
    for kind, number in sorted(told.items()):
        print(f"{number:9} {kind}")
    results.total(
        (
            f"{count} lists of edits and {frames} requests for a frame, caches of 1 to 8 states: all are those of a"
            " session that caches nothing"
        ),
        told=told,
    )


main()
