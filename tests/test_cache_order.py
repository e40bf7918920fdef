#!/usr/bin/env python3
"""Tests which cached state a full cache drops: the number of decoding steps of many frames in a random order is that of
the defined order.

The order is that of crates/state_cache/specs/Evictions.antt: a cached outcome saves as many steps as the packets that
it is after the one cached before it in its run, times those that it is before the one after it; its age is 1 and the
uses since it was used. The one that saves least over its age is dropped, the first among equals. With a limit in bytes
that is one of those before the newest, which is cached then, and no more are dropped than are over the limit. The model
here keeps each run as a list, and knows nothing of how the program does it. It prints what differs and ends with 1, or
prints nothing and ends with 0.
"""

import os
import pathlib
import random
import subprocess
import sys
import tempfile
from dataclasses import dataclass, field

TOP = pathlib.Path(__file__).resolve().parent.parent
sys.dont_write_bytecode = True
sys.path.insert(0, str(TOP / "compare"))
from library.ivf import ivf  # noqa: E402

KEY, INTER = bytes.fromhex("1000009D012A10001000"), bytes.fromhex("110000")
# A state of 16x16 has four pictures, each with a border of 32 samples around its planes.
STATE = 4 * (80 * 80 + 2 * 72 * 72)
REQUESTS, LIMIT = 300, 120


@dataclass
class Run:
    """Outcomes that were stepped from one another, by their packets: `first` is the packet before it, `last` the last
    one that was cached.
    """

    first: int
    last: int
    cached: list = field(default_factory=list)


class Cache:
    """The cached outcomes of one stream, in the order in which they are kept: the last one moves to the place of one
    that is dropped.
    """

    def __init__(self, keys, capacity, has_limit):
        self.keys, self.capacity, self.has_limit = keys, capacity, has_limit
        self.kept, self.runs, self.used = [], {}, {}
        self.uses = self.steps = 0

    def use(self, packet):
        self.uses += 1
        self.used[packet] = self.uses

    def saved(self, packet):
        run = self.runs[packet]
        at = run.cached.index(packet)
        before = run.cached[at - 1] if at else run.first
        after = run.cached[at + 1] if at + 1 < len(run.cached) else run.last + 1
        return (packet - before) * (after - packet)

    def victim(self, among):
        """The outcome that saves least over its age; fractions are compared by their products."""
        least = among[0]
        for packet in among[1:]:
            if self.saved(packet) * self.age(least) < self.saved(least) * self.age(packet):
                least = packet
        return least

    def age(self, packet):
        return self.uses - self.used[packet] + 1

    def drop(self, packet):
        at, last = self.kept.index(packet), self.kept.pop()
        if last != packet:
            self.kept[at] = last
        self.runs.pop(packet).cached.remove(packet)

    def step(self, packet, before):
        """Decodes a packet after the one before it, or a key packet after none, and caches the outcome."""
        self.steps += 1
        if before is not None:
            self.use(before)
        victim = self.victim(self.kept) if len(self.kept) == self.capacity and not self.has_limit else None
        run = Run(packet - 1, packet) if before is None else self.runs[before]
        run.cached = sorted([*run.cached, packet])
        run.last = max(run.last, packet)
        self.runs[packet] = run
        self.kept.append(packet)
        self.use(packet)
        if len(self.kept) > self.capacity and self.has_limit:
            victim = self.victim(self.kept[:-1])
        if victim is not None:
            self.drop(victim)

    def frame(self, packet):
        """Continues from the last cached outcome between the key packet and the packet."""
        key = max(place for place in self.keys if place <= packet)
        near = [place for place in self.kept if key <= place <= packet]
        for place in range(max(near) + 1 if near else key, packet + 1):
            self.step(place, None if place in self.keys else place - 1)
        self.use(packet)


def case(seed):
    """A stream, a number of cached states and requests of frames."""
    choose = random.Random(seed)
    count = choose.randrange(120, 300)
    keys = {0, *choose.sample(range(1, count), choose.randrange(6))}
    near = choose.random() < 0.5
    at, frames = 0, []
    for _ in range(REQUESTS):
        at = min(max(at + choose.randrange(-20, 30), 0), count - 1) if near else choose.randrange(count)
        frames.append(at)
    return count, keys, frames


def difference(seed, capacity, folder):
    count, keys, frames = case(seed)
    stream = folder / f"{seed}.ivf"
    stream.write_bytes(ivf(16, 16, [KEY if packet in keys else INTER for packet in range(count)]))
    lines = "".join(f"frame {packet}\nstats\n" for packet in frames)
    least = capacity * STATE
    for words in (["--cache", str(capacity)], ["--cache-bytes", str(least)], ["--cache-bytes", str(least + STATE - 1)]):
        cache, wanted = Cache(keys, capacity, words[0] == "--cache-bytes"), []
        for packet in frames:
            cache.frame(packet)
            wanted += [f"served {packet}", f"decoded {cache.steps}"]
        asked = [os.environ["VP8SERVE"], stream, *words]
        done = subprocess.run(asked, input=lines.encode(), capture_output=True, timeout=LIMIT, check=False)
        got = done.stdout.decode().splitlines()
        if (done.returncode, done.stderr) != (0, b"") or len(got) != len(wanted):
            return f"stream {seed}, {words}: status {done.returncode}, {len(got)} replies, {done.stderr!r:.200}"
        for number, (one, other) in enumerate(zip(got, wanted)):
            if one != other:
                return f"stream {seed}, {words}: reply {number + 1} is {one}, not {other}"
    return None


def main():
    with tempfile.TemporaryDirectory() as folder:
        cases = [(seed, capacity) for seed in range(6) for capacity in (32, 7, 2, 1)]
        wrong = [why for seed, capacity in cases if (why := difference(seed, capacity, pathlib.Path(folder)))]
    print(*wrong, sep="\n", end="\n" if wrong else "")
    return 1 if wrong else 0


if __name__ == "__main__":
    sys.exit(main())
