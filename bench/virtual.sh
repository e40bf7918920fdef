#!/bin/sh
# Times the file of `wokureti serve`: a cached and a new frame over HTTP, all frames read in order by ffmpeg and by a program that drops
# them, next to vp8serve writing the same to a pipe; and the memory with 1,048,576 packets. virtual.sh [CLIP of 640x360] [CLIP of 1920x1080]
set -eu
here=$(cd "$(dirname "$0")" && pwd)
for tool in ffmpeg python3; do
    command -v "$tool" > /dev/null || { echo "$tool is not here" >&2; exit 1; }
done
store=${XDG_CACHE_HOME:-$HOME/.cache}/wokureti
mkdir -p "$store"

# A clip of 300 frames with a key frame every 30.
clip() {
    [ -e "$store/virtual-$1.ivf" ] || ffmpeg -nostdin -v error -y -f lavfi -i "mandelbrot=size=$1:rate=30,noise=alls=8:allf=t" -frames:v 300 \
        -c:v libvpx -deadline realtime -cpu-used 8 -b:v "$2" -g 30 -auto-alt-ref 0 "$store/virtual-$1.ivf"
    echo "$store/virtual-$1.ivf"
}
small=${1:-$(clip 640x360 1500k)}
large=${2:-$(clip 1920x1080 6M)}
PYTHONDONTWRITEBYTECODE=1
export PYTHONDONTWRITEBYTECODE
if command -v chromium > /dev/null && command -v chromedriver > /dev/null; then
    python3 "$here/page.py" "$small" "$large"
fi
PYTHONPATH="$here/../clients/python" exec python3 - "$small" "$large" <<'END_OF_PYTHON'
import atexit, http.client, os, random, statistics, struct, subprocess, sys, tempfile, time
from wokureti import Session
from wokureti.base import programs

TURNS = int(os.environ.get("TURNS", "5"))
serve = [sys.executable, "-m", "wokureti", "serve"]


class Server:
    def __init__(self, *words):
        self.process = subprocess.Popen([*serve, *words], stdout=subprocess.PIPE)
        atexit.register(self.process.terminate)
        self.url = self.process.stdout.readline().decode().strip()
        self.host, self.token = self.process.stdout.readline().decode().split("/")[2:4]
        self.http = http.client.HTTPConnection(self.host)

    def get(self, path):
        self.http.request("GET", f"/{self.token}/{path}")
        answer = self.http.getresponse()
        body = answer.read()
        assert answer.status == 200, (answer.status, body[:200])
        return body

    def post(self, line):
        headers = {"Origin": f"http://{self.host}", "Content-Type": "application/json"}
        self.http.request("POST", f"/{self.token}/edits", '{"line": "%s"}' % line, headers)
        answer = self.http.getresponse()
        assert answer.status == 200, answer.read()
        answer.read()

    def end(self):
        self.http.close()
        self.process.terminate()
        self.process.wait()


def took(function):
    start = time.perf_counter()
    function()
    return time.perf_counter() - start


def pipe(clip, count, *reader):
    """vp8serve writes all frames to a pipe."""
    lines = "".join(f"frame {n}\n" for n in range(count)).encode()
    with tempfile.TemporaryFile() as requests:
        requests.write(lines)
        requests.seek(0)
        out, into = os.pipe()
        writer = subprocess.Popen([programs.find("vp8serve"), clip, "-", f"/dev/fd/{into}", "--cache", "1"], stdin=requests, stdout=subprocess.DEVNULL, pass_fds=(into,))
        os.close(into)
        subprocess.run(reader, stdin=out, stdout=subprocess.DEVNULL, check=True)
        os.close(out)
        assert writer.wait() == 0


def memory(process):
    """The resident memory of a process and its children, in MB."""
    found = 0
    children = subprocess.run(["pgrep", "-P", str(process.pid)], capture_output=True, text=True).stdout.split()
    for pid in (process.pid, *children):
        found += int(open(f"/proc/{pid}/status").read().split("VmRSS:")[1].split()[0]) / 1000
    return found


def latency(clip, name):
    server = Server(clip, "--cache", "300")
    choose, count = random.Random(1), 300
    frames = choose.sample(range(count), 60)
    new = [1000 * took(lambda: server.get(f"frames/{n}.i420")) for n in frames]
    cached = [1000 * took(lambda: server.get(f"frames/{n}.i420")) for n in frames]
    edits = []
    for n in frames[:20]:
        server.post(f"delete {n}")
        server.post("undo")
        edits.append(1000 * took(lambda: server.get(f"frames/{n}.i420")))
    server.end()
    print(f"{name}: a new frame {statistics.median(new):.1f} ms (at most {max(new):.1f}), a cached one {statistics.median(cached):.2f} ms, the same frame after an edit and undo {statistics.median(edits):.1f} ms (at most {max(edits):.1f})")


def in_order(clip, name):
    with Session(clip) as session:
        count = session.count().frames
    times = {key: [] for key in ("pipe", "http", "pipe to ffmpeg", "http to ffmpeg")}
    for _ in range(TURNS):
        times["pipe"].append(took(lambda: pipe(clip, count, "cat")))
        times["pipe to ffmpeg"].append(took(lambda: pipe(clip, count, "ffmpeg", "-nostdin", "-v", "error", "-i", "-", "-f", "null", "-")))
        server = Server(clip)
        server.get("frames/0.i420")
        times["http"].append(took(lambda: subprocess.run(["curl", "-s", "-o", "/dev/null", server.url], check=True)))
        server.end()
        server = Server(clip)
        server.get("frames/0.i420")
        times["http to ffmpeg"].append(took(lambda: subprocess.run(["ffmpeg", "-nostdin", "-v", "error", "-i", server.url, "-f", "null", "-"], check=True)))
        server.end()
    for reader, one, other in (("dropped", "pipe", "http"), ("ffmpeg -f null", "pipe to ffmpeg", "http to ffmpeg")):
        best = [count / min(times[key]) for key in (one, other)]
        ratio = statistics.median(left / right for left, right in zip(times[one], times[other]))
        print(f"{name}, {reader}: vp8serve to a pipe {best[0]:.0f} frames/s, over HTTP {best[1]:.0f}, median ratio {ratio:.2f}")


def million():
    """A stream of 1,048,576 packets: one key frame of 16x16, and repeats of it."""
    with tempfile.TemporaryDirectory() as room:
        with Session("-") as session:
            session.blank(0, 16, 16)
            session.hold(1)
            key, hold = session.packet(0), session.packet(1)
        path, count = f"{room}/million.ivf", 1 << 20
        with open(path, "wb") as file:
            file.write(struct.pack("<4sHH4sHHIIII", b"DKIF", 0, 32, b"VP80", 16, 16, 30, 1, count, 0))
            file.write(struct.pack("<IQ", len(key), 0) + key)
            file.write(b"".join(struct.pack("<IQ", len(hold), n) + hold for n in range(1, count)))
        server = Server(path)
        before = memory(server.process)
        header = took(lambda: server.get("packets?from=1000000&count=10"))
        after = memory(server.process)
        head = took(lambda: subprocess.run(["curl", "-sI", server.url], check=True, stdout=subprocess.DEVNULL))
        server.post("delete 500000")
        again = took(lambda: subprocess.run(["curl", "-sI", server.url], check=True, stdout=subprocess.DEVNULL))
        most = memory(server.process)
        server.end()
        print(f"1,048,576 packets: {before:.0f} MB at the start, {after:.0f} MB after the first list of packets ({header:.1f} s), {most:.0f} MB with the file's length ({head:.1f} s; {again:.1f} s after an edit)")


for clip, name in ((sys.argv[1], "640x360"), (sys.argv[2], "1920x1080")):
    latency(clip, name)
    in_order(clip, name)
million()
END_OF_PYTHON
