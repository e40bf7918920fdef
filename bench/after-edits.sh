#!/bin/sh
# Times frames after edits and frames in several orders, with cached states, next to vpxdec from the stream's start and
# ffmpeg's own seek. README.md says more.
. "$(dirname "$0")/prologue.sh"
clip=$clips/640x360-one-key.ivf
need vpxenc vpxdec ffmpeg

# A clip with one key packet, made once.
if [ ! -f "$clip" ]; then
    mkdir -p "$clips"
    ffmpeg -v error -f lavfi \
        -i "mandelbrot=size=640x360:rate=30:start_scale=1.5:end_scale=0.01:end_pts=400,noise=alls=6:allf=t,format=yuv420p" \
        -frames:v 300 "$room/clip.y4m"
    vpxenc --codec=vp8 --ivf --good --cpu-used=2 --target-bitrate=1000 --disable-kf -o "$room/clip.ivf" "$room/clip.y4m" \
        > "$room/vpxenc.log" 2>&1 || { tail -n 5 "$room/vpxenc.log"; exit 1; }
    mv "$room/clip.ivf" "$clip"
fi
build

python3 - "$program" "$clip" "$room" <<'END'
import random, struct, subprocess, sys, time
program, clip, room = sys.argv[1:]
LAST = 299

text = open(clip, "rb").read()
packets, place = [], 32
while place + 12 <= len(text):
    size = struct.unpack("<I", text[place : place + 4])[0]
    packets.append(text[place + 12 : place + 12 + size])
    place += 12 + size
keys = [i for i, packet in enumerate(packets) if packet[0] & 1 == 0]
assert len(packets) == LAST + 1, len(packets)

def run(lines, cache, times=3):
    """Seconds, the least of some runs, and the replies."""
    with open(f"{room}/requests", "w") as file:
        file.writelines(f"{line}\n" for line in lines)
    best = float("inf")
    for _ in range(times):
        start = time.perf_counter()
        replies = subprocess.run([program, clip, f"{room}/requests", "-", "--cache", str(cache)], check=True, capture_output=True, text=True).stdout.split("\n")
        best = min(best, time.perf_counter() - start)
    assert not any(reply.startswith("refused") for reply in replies), replies
    return best, replies

def vpxdec(frames):
    best = float("inf")
    for _ in range(5):
        start = time.perf_counter()
        subprocess.run(["vpxdec", "--threads=1", "--noblit", f"--limit={frames}", clip], check=True, capture_output=True)
        best = min(best, time.perf_counter() - start)
    return best

def steps(replies):
    told = [int(reply.split()[1]) for reply in replies if reply.startswith("decoded ")]
    return told[-1] - told[0]

def row(what, seconds, made, beside):
    print(f"{what:52}{1000 * seconds:9.3f} ms  {made:6.1f} steps  vpxdec {1000 * beside:6.1f} ms  {beside / seconds:8.1f} times sooner")

first = [f"frame {LAST}", "stats"]
whole, _ = run(first, 400, 9)
beside = vpxdec(LAST + 1)
print(f"640x360, {len(packets)} packets, key packets at {keys}; vpxdec from the start to frame {LAST}: {1000 * beside:.0f} ms; vp8serve from nothing: {1000 * whole:.0f} ms")

def again(what, lines, times):
    taken, replies = run(first + lines * times + ["stats"], 400)
    row(what, (taken - whole) / times, steps(replies) / times, beside)

again(f"frame {LAST} asked again", [f"frame {LAST}"], 200000)
again("after packet 150 was replaced by its own bytes", [f"replace 150 {packets[150].hex()}", f"frame {LAST}"], 200)
other, own = f"replace 150 {packets[149].hex()}", f"replace 150 {packets[150].hex()}"
again("after packet 150 was replaced by another, and restored", [other, f"frame {LAST}", own, f"frame {LAST}"], 3)

def ffmpeg(frame):
    """Seconds of ffmpeg's own seek to a frame, the least of three runs."""
    best = float("inf")
    for _ in range(3):
        start = time.perf_counter()
        subprocess.run(["ffmpeg", "-v", "error", "-threads", "1", "-ss", f"{frame / 30:.6f}", "-i", clip, "-frames:v", "1", "-f", "null", "-"], check=True, capture_output=True)
        best = min(best, time.perf_counter() - start)
    return best

choose = random.Random(6386)

def walk(step):
    frame, frames = LAST // 2, []
    for _ in range(1000):
        frame = min(LAST, max(0, frame + choose.choice((-1, 1)) * choose.randint(1, step)))
        frames.append(frame)
    return frames

orders = [
    ("in order", list(range(LAST + 1))),
    ("random order", [choose.randrange(LAST + 1) for _ in range(1000)]),
    ("backward", list(range(LAST, -1, -1))),
    ("scrubbing by 1", walk(1)),
    ("scrubbing by up to 5", walk(5)),
    ("scrubbing by up to 30", walk(30)),
    ("local, 25 frames", [LAST // 2 + choose.randint(-12, 12) for _ in range(1000)]),
]
print(f"{'a frame, by order of requests':32}{'states':>8}{'steps':>8}{'ms':>9}{'vpxdec, ms':>12}{'ffmpeg -ss, ms':>16}")
for what, frames in orders:
    sample = choose.sample(frames, 20)
    whole_stream = sum(vpxdec(n + 1) for n in sample) / len(sample)
    seek = sum(ffmpeg(n) for n in sample) / len(sample)
    for cache in (8, 32, 300):
        taken, replies = run(["stats"] + [f"frame {n}" for n in frames] + ["stats"], cache, 1)
        print(f"{what:32}{cache:8}{steps(replies) / len(frames):8.2f}{1000 * taken / len(frames):9.2f}{1000 * whole_stream:12.1f}{1000 * seek:16.1f}")
END
