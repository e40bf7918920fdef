#!/usr/bin/env python3
"""Compares the time stamps of `vp8serve --restamp`, and those of the Python client, with those of a plain model of
durations, over random edits of random streams.

    compare/restamps.py [--lists N] [--seed S]

Each list edits one or two streams of random rates and time stamps (with gaps, repeats and jumps back) by insert,
replace, delete, move, copy, blank, hold, hide, show and use. The packets of source 0 that the program saves must have
the time stamps and bytes of the model, and so must those that a session of the client saves; without --restamp they
have their own.
"""

import argparse
import random
import subprocess
import sys
import tempfile

import results
from library import exact_times
from library.ivf import HEAD, RECORD, is_shown, records
from library.programs import TOP, VP8SERVE

sys.path.insert(0, str(TOP / "clients/python"))

from wokureti import Session  # noqa: E402

PACKETS = [
    bytes([0x11, 0, 0]),
    bytes([0x01, 0, 0]),
    b"",
    bytes([0x11, 0]),
    bytes.fromhex("10 00 00 9D 01 2A 10 00 10 00"),
    bytes([0x11, 0, 0, 7]),
]


class Stream:
    """The packets of a source: their bytes, time stamps, and durations in its own units with its rate."""

    def __init__(self, dice):
        self.rate = (dice.choice([30, 25, 1000, 0, 90000, 1]), dice.choice([1, 1, 1, 1001, 0, 3]))
        stamp, self.file = dice.choice([0, 0, 500]), []
        for _ in range(dice.randint(0, 12)):
            self.file.append((max(stamp, 0), dice.choice(PACKETS)))
            stamp += dice.choice([1, 1, 1, 33, 34, 0, -5, 2**33, dice.randint(0, 99)])
        stamps, shown = [stamp for stamp, _ in self.file], [is_shown(packet) for _, packet in self.file]
        self.usual = exact_times.median_step(stamps, shown)
        units = exact_times.durations_of(stamps, shown)
        self.packets = [[stamp, packet, (lasts, self.rate)] for (stamp, packet), lasts in zip(self.file, units)]

    def text(self):
        head = HEAD.pack(b"DKIF", 0, 32, b"VP80", 16, 16, *self.rate, len(self.file), 0)
        return head + b"".join(RECORD.pack(len(packet), stamp) + packet for stamp, packet in self.file)

    def insert(self, at, stamp, packet, duration=None):
        self.packets.insert(at, [stamp, packet, duration or (self.usual, self.rate)])

    def restamped(self):
        """The packets with new time stamps, by exact fractions."""
        shown = [is_shown(packet) for _, packet, _ in self.packets]
        durations = [
            (units, exact_times.base_of(*rate))
            for is_frame, (_, _, (units, rate)) in zip(shown, self.packets)
            if is_frame
        ]
        stamps = exact_times.stamps_of(durations, exact_times.base_of(*self.rate))
        return [(stamp, packet) for stamp, (_, packet, _) in zip(exact_times.stamped(shown, stamps), self.packets)]


def random_edit(dice, streams, current):
    """A request for the current source, which is made in the model too; None if the model would need bytes that it does
    not know.
    """
    mine = streams[current]
    count = len(mine.packets)
    kind = dice.choice(["insert", "insert", "copy", "copy", "move", "delete", "replace", "show", "hide"])
    if kind == "insert":
        at, stamp, packet = dice.randint(0, count), dice.randint(0, 9999), dice.choice(PACKETS)
        mine.insert(at, stamp, packet)
        return f"insert {at} {stamp} {packet.hex() or '-'}"
    if kind == "copy":
        source = dice.randrange(len(streams))
        if not streams[source].packets:
            return None
        at, start = dice.randint(0, count), dice.randrange(len(streams[source].packets))
        mine.insert(at, *streams[source].packets[start])
        return f"copy {source} {start} {at}"
    if not count:
        return None
    at = dice.randrange(count)
    if kind == "move":
        to = dice.randrange(count)
        mine.packets.insert(to, mine.packets.pop(at))
        return f"move {at} {to}"
    if kind == "delete":
        del mine.packets[at]
        return f"delete {at}"
    if kind == "replace":
        packet = dice.choice(PACKETS)
        mine.packets[at][1:2] = [packet]
        return f"replace {at} {packet.hex() or '-'}"
    packet = mine.packets[at][1]
    if len(packet) < 3:
        return None
    mine.packets[at][1] = bytes([packet[0] & ~16 | (16 if kind == "show" else 0)]) + packet[1:]
    return f"{kind} {at}"


def run_list(dice, room):
    """Makes a list of edits, and returns what the program and the client saved and what the model has."""
    streams = [Stream(dice) for _ in range(dice.choice([1, 2, 2]))]
    for number, stream in enumerate(streams):
        with open(f"{room}/{number}.ivf", "wb") as file:
            file.write(stream.text())
    lines, current = [], 0
    for _ in range(dice.randint(0, 25)):
        if len(streams) > 1 and dice.random() < 0.1:
            current = dice.randrange(2)
            lines.append(f"use {current}")
        else:
            line = random_edit(dice, streams, current)
            lines += [line] if line else []
    more = ["--sources", f"{room}/1.ivf"] if len(streams) > 1 else []
    words = [VP8SERVE, f"{room}/0.ivf", "-", "-", *more, "--save", f"{room}/out.ivf", "--restamp"]
    ran = subprocess.run(
        [str(word) for word in words],
        input="".join(f"{line}\n" for line in lines),
        text=True,
        stdout=subprocess.PIPE,
        stderr=subprocess.PIPE,
        timeout=60,
    )
    refused = [reply for reply in ran.stdout.splitlines() if not reply.startswith("ok")]
    if ran.returncode or refused:
        raise SystemExit(f"status {ran.returncode}: {ran.stderr}{refused[:2]}: {lines}")
    with Session(f"{room}/0.ivf", sources=more[1:]) as session:
        for line in lines:
            session.request(line)
        session.save(f"{room}/client.ivf", restamp=True)
    return lines, [saved_in(f"{room}/{name}.ivf") for name in ("out", "client")], streams[0].restamped()


def saved_in(path):
    with open(path, "rb") as file:
        return list(records(file.read()))


def main():
    words = argparse.ArgumentParser(description=__doc__.split("\n\n")[0])
    words.add_argument("--lists", type=int, default=500)
    words.add_argument("--seed", type=int, default=1)
    args = words.parse_args()
    dice, wrong, packets = random.Random(args.seed), 0, 0
    with tempfile.TemporaryDirectory() as room:
        for number in range(args.lists):
            lines, saved, model = run_list(dice, room)
            packets += len(model)
            for who, found in zip(("vp8serve", "the client"), saved):
                if found != model:
                    wrong += 1
                    print(f"list {number}: {lines}: {who} saved {found}, and the model has {model}")
    results.total(f"{args.lists} lists, {packets} packets: {wrong} wrong", wrong)
    return 1 if wrong else 0


if __name__ == "__main__":
    sys.exit(main())
