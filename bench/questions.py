#!/usr/bin/env python3
"""Times what the page of `wokureti open` asks about packets: the macroblocks of a packet, its header, the facts of 256
packets, the findings of a group of pictures after an edit that is not made, and the check after an edit; and how long
frames take meanwhile. No browser is needed.

    bench/questions.py [--tree FOLDER] [--turns N] CLIP ..

With --tree the client and the programs are those of another checkout, or of a folder into which a wheel was unpacked:
an earlier version is measured by the same bench. The variables VP8SERVE, VP8LIST and WOKURETI_ENGINE name other
programs than those of its bin/, and what answers.
"""

import argparse
import http.client
import json
import os
import pathlib
import random
import signal
import statistics
import subprocess
import sys
import tempfile
import threading
import time

TOP = pathlib.Path(__file__).resolve().parent.parent
# Seconds that a check may take.
MOST_TIME = 600


class Server:
    """The command `wokureti open` of a tree, on a link to a clip."""

    def __init__(self, tree, clip, room):
        link = pathlib.Path(room) / clip.name
        link.symlink_to(clip.resolve())
        client = tree / "clients/python"
        env = dict(os.environ, PYTHONPATH=str(client if client.is_dir() else tree), PYTHONDONTWRITEBYTECODE="1")
        for name in ("vp8serve", "vp8list"):
            if (tree / "bin" / name).is_file():
                env.setdefault(name.upper(), str(tree / "bin" / name))
        words = [sys.executable, "-m", "wokureti", "open", "--no-browser", str(link)]
        self.process = subprocess.Popen(words, env=env, stdout=subprocess.PIPE, stderr=subprocess.DEVNULL, text=True)
        _, _, self.host, self.token, *_ = self.process.stdout.readline().strip().split("/")
        self.link = self.connect()
        limit = time.monotonic() + MOST_TIME
        while not self.get("session")["listed"] and time.monotonic() < limit:
            time.sleep(0.05)

    def connect(self):
        return http.client.HTTPConnection(self.host, timeout=MOST_TIME)

    def ask(self, path, body=None, link=None):
        """The bytes of an answer."""
        link = link or self.link
        headers = {} if body is None else {"Origin": f"http://{self.host}", "Content-Type": "application/json"}
        link.request(
            "GET" if body is None else "POST",
            f"/{self.token}/{path}",
            None if body is None else json.dumps(body),
            headers,
        )
        answer = link.getresponse()
        found = answer.read()
        if answer.status != 200:
            raise SystemExit(f"{path}: {answer.status} {found[:200]!r}")
        return found

    def get(self, path, link=None):
        return json.loads(self.ask(path, link=link))

    def check(self):
        """The check of the current packets, once it is over."""
        link = self.connect()
        link.request("GET", f"/{self.token}/events?check=1")
        for line in link.getresponse():
            if line.startswith(b"data: ") and (found := json.loads(line[6:])).get("over"):
                link.close()
                return found
        raise SystemExit("the events ended")

    def end(self):
        self.process.send_signal(signal.SIGINT)
        self.process.wait(60)


def timed(act):
    """Milliseconds."""
    since = time.perf_counter()
    act()
    return (time.perf_counter() - since) * 1000


def shown(times):
    """The median, and in parentheses the least and the most: on a busy machine the least says what the work takes."""
    return f"{statistics.median(times):.1f} ({min(times):.1f} to {max(times):.1f})"


class Frames:
    """How long frames take that are asked for one after the other, in a thread of its own."""

    def __init__(self, server, count, choose):
        self.server, self.count, self.choose, self.times, self.is_on = server, count, choose, [], True
        self.thread = threading.Thread(target=self.run)
        self.thread.start()

    def run(self):
        link = self.server.connect()
        while self.is_on or not self.times:
            frame = self.choose.randrange(self.count)
            self.times.append(timed(lambda: self.server.ask(f"frames/{frame}.y4m", link=link)))
            time.sleep(0.005)

    def end(self):
        self.is_on = False
        self.thread.join()
        return self.times


def measure(server, clip, turns):
    choose = random.Random(70)
    session = server.get("session")
    packets, frames = session["packets"], session["frames"]
    failed = server.check()["failed"]
    some = [choose.randrange(packets - 1) for _ in range(turns)]
    for name, path in (
        ("macroblocks", "answer?line=macroblocks%20{}"),
        ("header", "answer?line=header%20{}"),
        ("256 packets", "packets?from={}&count=256"),
    ):
        server.ask(path.format(0))
        print(
            f"{clip.name}: {name} {shown([timed(lambda: server.ask(path.format(packet))) for packet in some])} ms",
            flush=True,
        )
    if failed:
        print(f"{clip.name}: no findings: {failed}", flush=True)
        return
    server.ask("task", {"kind": "check", "lines": [], "packet": 0})
    times = [
        timed(lambda: server.ask("task", {"kind": "check", "lines": [f"delete {packet}"], "packet": packet}))
        for packet in some
    ]
    print(f"{clip.name}: the findings of a group after an edit that is not made {shown(times)} ms", flush=True)
    asked = Frames(server, frames - 1, choose)
    time.sleep(1)
    alone = asked.end()
    whole, ahead, meanwhile, damage = [], [], [], 0
    for packet in some[: max(3, turns // 4)]:
        ahead.append(timed(lambda: server.ask("edits", {"lines": [f"delete {packet}"]})))
        whole.append(timed(server.check))
        server.ask("edits", {"line": "undo"})
        server.ask("edits", {"lines": [f"delete {packet}", f"insert {packet} 0 1000"]})
        asked = Frames(server, frames - 1, choose)
        damage += server.check()["damage"]
        meanwhile += asked.end()
        server.ask("edits", {"line": "undo"})
    print(
        (
            f"{clip.name}: an edit {shown(ahead)} ms, from there to the end of the check of {packets:,} packets"
            f" {shown(whole)} ms"
        ),
        flush=True,
    )
    print(
        f"{clip.name}: a frame {shown(alone)} ms, while packets are checked {shown(meanwhile)} ms ({damage} damages)",
        flush=True,
    )


def main():
    parser = argparse.ArgumentParser(description=__doc__, formatter_class=argparse.RawDescriptionHelpFormatter)
    parser.add_argument("--tree", type=pathlib.Path, default=TOP)
    parser.add_argument("--turns", type=int, default=40)
    parser.add_argument("clips", nargs="+", type=pathlib.Path, metavar="CLIP")
    given = parser.parse_args()
    for clip in given.clips:
        with tempfile.TemporaryDirectory() as room:
            server = Server(given.tree.resolve(), clip, room)
            try:
                measure(server, clip, given.turns)
            finally:
                server.end()


if __name__ == "__main__":
    main()
