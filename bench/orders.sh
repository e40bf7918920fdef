#!/bin/sh
# Counts decoding steps a frame for several orders of requests, with few cached states, and times a walk through many more packets
# than are cached. README.md says more.
. "$(dirname "$0")/prologue.sh"
build

python3 - "$program" "$room" "${1:-3000}" "${2:-65536}" <<'END'
import random, subprocess, sys, time
from library.ivf import ivf
program, room, asked, far = sys.argv[1], sys.argv[2], int(sys.argv[3]), int(sys.argv[4])
KEY, INTER = bytes.fromhex("1000009D012A10001000"), bytes.fromhex("110000")
COUNT = 300

def run(packets, lines, cache):
    """The replies, and the seconds taken."""
    with open(f"{room}/in.ivf", "wb") as file:
        file.write(ivf(16, 16, [KEY] + (packets - 1) * [INTER]))
    with open(f"{room}/requests", "w") as file:
        file.writelines(f"{line}\n" for line in lines)
    begun = time.perf_counter()
    replies = subprocess.run([program, f"{room}/in.ivf", f"{room}/requests", "-", "--cache", str(cache)], check=True, capture_output=True, text=True).stdout.splitlines()
    taken = time.perf_counter() - begun
    assert len(replies) == len(lines) and not any(reply.startswith("refused") for reply in replies), replies[-1]
    return replies, taken

def walk(step):
    """A random walk of 1 to `step` frames back or forth."""
    frame, frames = COUNT // 2, []
    for _ in range(asked):
        frame = min(COUNT - 1, max(0, frame + choose.choice((-1, 1)) * choose.randint(1, step)))
        frames.append(frame)
    return frames

choose = random.Random(6386)
orders = [
    ("in order", [n % COUNT for n in range(asked)]),
    ("random order", [choose.randrange(COUNT) for _ in range(asked)]),
    ("backward", [COUNT - 1 - n % COUNT for n in range(asked)]),
    ("scrubbing by 1", walk(1)),
    ("scrubbing by up to 5", walk(5)),
    ("scrubbing by up to 30", walk(30)),
    ("local, 25 frames", [COUNT // 2 + choose.randint(-12, 12) for _ in range(asked)]),
]
print(f"steps a frame, {COUNT} packets after one key packet, {asked} requests")
print(f"{'':24}{'8 states':>10}{'32 states':>11}")
for name, frames in orders:
    steps = []
    for cache in (8, 32):
        replies = run(COUNT, [f"frame {n}" for n in frames] + ["stats"], cache)[0]
        steps.append(int(replies[-1].split()[1]) / len(frames))
    print(f"{name:24}{steps[0]:10.2f}{steps[1]:11.2f}", flush=True)
for cache in (32, 4096):
    taken = run(far, [f"frame {far - 1}"], cache)[1]
    print(f"the last of {far} packets after the only key packet, {cache} states: {taken:.2f} s, {1e6 * taken / far:.1f} us a step", flush=True)
END
