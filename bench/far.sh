#!/bin/sh
# Times a cached frame: far from the only key packet, and in streams with a key packet every 30 to 300 packets. README.md says more.
. "$(dirname "$0")/prologue.sh"
build

python3 - "$program" "$room" "${1:-1047990}" "${2:-200000}" <<'END'
import os, random, subprocess, sys, threading, time
from library.ivf import ivf
program, room, far, asked = sys.argv[1], sys.argv[2], int(sys.argv[3]), int(sys.argv[4])
KEY, INTER = bytes.fromhex("1000009D012A10001000"), bytes.fromhex("110000")
choose = random.Random(6386)

def user_time(child):
    """Seconds that a process has taken."""
    return int(open(f"/proc/{child.pid}/stat").read().rpartition(")")[2].split()[11]) / os.sysconf("SC_CLK_TCK")

def times(packets, first, again):
    """Seconds of the frames `first` of a session, and user time of each of the frames `again` after them."""
    with open(f"{room}/in.ivf", "wb") as file:
        file.write(ivf(16, 16, packets))
    child = subprocess.Popen([program, f"{room}/in.ivf", "-", "-", "--cache", "4096", "--live"], stdin=subprocess.PIPE, stdout=subprocess.PIPE)

    def ask(frames):
        text = b"".join(b"frame %d\n" % n for n in frames)
        writer = threading.Thread(target=lambda: (child.stdin.write(text), child.stdin.flush()))
        writer.start()
        for n in frames:
            reply = child.stdout.readline()
            assert reply == b"served %d\n" % n, reply
        writer.join()

    begun = time.perf_counter()
    ask(first)
    taken, before = time.perf_counter() - begun, user_time(child)
    ask(again)
    after = user_time(child)
    child.stdin.close()
    assert child.wait() == 0
    return taken, (after - before) / len(again)

for every in (30, 100, 300):
    count = 20 * every
    packets = [INTER if n % every else KEY for n in range(count)]
    cached = [n * every + choose.randrange(every) for n in range(16)]
    once = times(packets, cached, [choose.choice(cached) for _ in range(asked)])[1]
    print(f"a key packet every {every}: a cached frame {1e6 * once:.2f} us", flush=True)
for name, packet in (("no bytes", b""), ("11 00 00", INTER)):
    first, once = times([KEY] + far * [packet], [far], [far] * asked)
    print(f"{far} packets ({name}) after the only key packet: {first:.1f} s, and cached {1e6 * once:.2f} us", flush=True)
END
