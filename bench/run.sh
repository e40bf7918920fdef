#!/bin/sh
# Times the serving of a 1920x1080 key frame, and a plain fill of planes of its size next to it. README.md says more.
. "$(dirname "$0")/prologue.sh"
frames=${1:-200}

build
rustc -O --edition 2021 -o "$room/fill" "$here/fill.rs"

python3 - "$room" "$frames" <<'END'
import sys
from library.ivf import ivf
room, frames = sys.argv[1], int(sys.argv[2])
packet = bytes.fromhex("10 00 00 9D 01 2A 80 07 38 04")
with open(f"{room}/in.ivf", "wb") as file:
    file.write(ivf(1920, 1080, [packet] * frames))
with open(f"{room}/requests", "w") as file:
    file.writelines(f"frame {n}\n" for n in range(frames))
END

"$program" "$room/in.ivf" "$room/requests" /dev/null --cache 1 > "$room/replies"
if [ "$(grep -c '^served' "$room/replies")" != "$frames" ]; then
    echo "not every frame was served:" "$(grep -v '^served' "$room/replies" | sort -u)"
    exit 1
fi

python3 - "$frames" "$program" "$room/in.ivf" "$room/requests" /dev/null --cache 1 <<'END'
import subprocess, sys, time
def best_of_five(words):
    times = []
    for _ in range(5):
        start = time.perf_counter()
        subprocess.run(words, check=True, stdout=subprocess.DEVNULL)
        times.append(time.perf_counter() - start)
    return min(times)
frames, words = int(sys.argv[1]), sys.argv[2:]
served = best_of_five(words) * 1000 / frames
filled = best_of_five([f"{words[1].rpartition('/')[0]}/fill", str(frames)]) * 1000 / frames
print(f"vp8serve, 1920x1080 key frame: {served:.2f} ms a frame, {1000 / served:.0f} frames a second")
print(f"plain fill and write:          {filled:.2f} ms a frame, {1000 / filled:.0f} frames a second")
print(f"ratio: {served / filled:.1f}")
END
