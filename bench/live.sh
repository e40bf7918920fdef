#!/bin/sh
# Times a session that is held open over pipes (--live): a cached frame from the newline of its request to its reply, next to the
# same frame in a list of requests; 100,000 edits whose replies are waited for; and the memory of 1,000,000 piped requests.
. "$(dirname "$0")/prologue.sh"
need ffmpeg python3
build
ffmpeg -v error -f lavfi -i testsrc=size=640x360:rate=30 -frames:v 30 -c:v libvpx -b:v 1M "$room/clip.ivf"

python3 - "$program" "$room/clip.ivf" "$room" <<'END'
import os, random, statistics, subprocess, sys, threading, time
program, clip, room = sys.argv[1:]
FRAMES, TURNS, EDITS, PIPED = 30, 1000, 100_000, 1_000_000

class Live:
    """A session: one line is written, and one reply read."""

    def __init__(self, out):
        self.child = subprocess.Popen([program, clip, "-", out, "--cache", "64", "--live"], stdin=subprocess.PIPE, stdout=subprocess.PIPE)

    def ask(self, line):
        os.write(self.child.stdin.fileno(), line)
        reply = b""
        while not reply.endswith(b"\n"):
            piece = os.read(self.child.stdout.fileno(), 4096)
            assert piece, "the program ended"
            reply += piece
        return reply

    def close(self):
        self.child.stdin.close()
        assert self.child.wait() == 0

def timed_list(lines, out):
    """Seconds of a run over a list of requests, the least of five."""
    with open(f"{room}/list", "wb") as file:
        file.writelines(lines)
    best = float("inf")
    for _ in range(5):
        start = time.perf_counter()
        replies = subprocess.run([program, clip, f"{room}/list", out, "--cache", "64"], check=True, capture_output=True).stdout
        best = min(best, time.perf_counter() - start)
        assert b"refused" not in replies, replies
    return best

# Every frame is decoded once, and then comes from the cache.
first = [b"frame %d\n" % n for n in range(FRAMES)]
choose = random.Random(6386)
asked = [b"frame %d\n" % choose.randrange(FRAMES) for _ in range(TURNS)]
# In memory, if there is such a file system: a disk takes longer than the frame.
written = f"{'/dev/shm' if os.access('/dev/shm', os.W_OK) else room}/wokureti-live-{os.getpid()}.y4m"
for out, name, times in (("-", "frames dropped", 100), (written, "frames written to a file", 1)):
    in_list = (timed_list(first + times * asked, out) - timed_list(first, out)) / (times * TURNS)
    best, medians = float("inf"), []
    for _ in range(5):
        session, taken = Live(out), []
        for line in first:
            session.ask(line)
        for line in asked:
            start = time.perf_counter()
            reply = session.ask(line)
            taken.append(time.perf_counter() - start)
            assert reply == b"served" + line[5:], reply
        session.close()
        best = min(best, sum(taken) / TURNS)
        medians.append(statistics.median(taken))
    print(f"cached frame, {name}: {1000 * in_list:.3f} ms in a list; {1000 * best:.3f} ms live, {1000 * (best - in_list):.3f} ms above (median of a frame: {1000 * min(medians):.3f})")
os.remove(written)

# Edits one at a time, each after the reply to the last one.
session = Live("-")
count = FRAMES
start = time.perf_counter()
for _ in range(EDITS):
    if choose.random() < 0.5:
        reply, count = session.ask(b"insert %d 0 1100\n" % choose.randrange(count + 1)), count + 1
    elif count:
        reply, count = session.ask(b"delete %d\n" % choose.randrange(count)), count - 1
    assert reply == b"ok %d\n" % count, (reply, count)
seconds = time.perf_counter() - start
session.close()
print(f"{EDITS} edits, each after the last reply: {seconds:.2f} s, {1e6 * seconds / EDITS:.1f} us each, Python's part included")

def memory(count):
    """The greatest resident memory in MB of a session that this many requests are piped into, after the last reply."""
    child = subprocess.Popen([program, clip, "-", "-", "--live"], stdin=subprocess.PIPE, stdout=subprocess.PIPE)
    lines = b"".join(b"move %d 0\n" % (n % FRAMES) for n in range(count))

    def write():
        child.stdin.write(lines)
        child.stdin.flush()

    writer = threading.Thread(target=write)
    writer.start()
    left = count
    while left:
        piece = os.read(child.stdout.fileno(), 1 << 20)
        assert piece, "the program ended"
        left -= piece.count(b"\n")
    writer.join()
    # Not ru_maxrss, which begins at Python's own.
    status = open(f"/proc/{child.pid}/status").read()
    child.stdin.close()
    assert child.wait() == 0
    return int(status.split("VmHWM:")[1].split()[0]) / 1000

print(f"memory: {memory(1):.2f} MB for 1 piped request, {memory(PIPED):.2f} MB for {PIPED}")
END
