#!/bin/sh
# Times random edits of a long packet list, next to the same on a plain vector. README.md says more.
. "$(dirname "$0")/prologue.sh"
count=${1:-100000}
edits=${2:-20000}

build
rustc -O --edition 2021 -o "$room/plain" "$here/edits.rs" 2> "$room/rustc.log" || { cat "$room/rustc.log"; exit 1; }

python3 - "$room" "$count" "$edits" <<'END'
import random, sys
from library.ivf import ivf
room, count, edits = sys.argv[1], int(sys.argv[2]), int(sys.argv[3])
random.seed(6386)
with open(f"{room}/in.ivf", "wb") as file:
    file.write(ivf(16, 16, [bytes([0x11, 0, 0])] * count))
standing = count
with open(f"{room}/edits", "w") as file, open(f"{room}/replies", "w") as replies:
    for _ in range(edits):
        kind = random.choice(["insert", "replace", "delete", "move"])
        at = random.randrange(standing + (kind == "insert"))
        hex = random.randbytes(random.randrange(8)).hex() or "-"
        if kind == "insert":
            file.write(f"insert {at} {random.randrange(2**32)} {hex}\n")
            standing += 1
        elif kind == "replace":
            file.write(f"replace {at} {hex}\n")
        elif kind == "delete":
            file.write(f"delete {at}\n")
            standing -= 1
        else:
            file.write(f"move {at} {random.randrange(standing)}\n")
        replies.write(f"ok {standing}\n")
open(f"{room}/nothing", "w").close()
END

"$program" "$room/in.ivf" "$room/edits" > "$room/told"
cmp "$room/told" "$room/replies"

python3 - "$count" "$edits" "$program" "$room" <<'END'
import subprocess, sys, time
count, edits, program, room = int(sys.argv[1]), int(sys.argv[2]), sys.argv[3], sys.argv[4]
def seconds(requests):
    start = time.perf_counter()
    subprocess.run([program, f"{room}/in.ivf", requests], check=True, stdout=subprocess.DEVNULL)
    return time.perf_counter() - start
def plain():
    words = [f"{room}/plain", str(count), f"{room}/edits"]
    return float(subprocess.run(words, check=True, capture_output=True).stdout)
edited = min(seconds(f"{room}/edits") for _ in range(3)) - min(seconds(f"{room}/nothing") for _ in range(3))
beside = min(plain() for _ in range(3))
print(f"vp8serve, {edits} edits of {count} packets: {edited / edits * 1e6:.2f} us an edit, lines and replies included")
print(f"plain vector, the same edits: {beside / edits * 1e6:.2f} us an edit")
print(f"ratio of the times: {edited / beside:.2f}")
END
