#!/usr/bin/env python3
"""Tests the questions `list`, `check`, `header`, `macroblocks` and `origins` over random edits of real streams:
test_questions.py [LISTS [SEED]]

`list` in ranges, put together, is what vp8list --json prints of the file that --save writes at that place; so is
`check` what it prints with --check --json of packets, and the last line of each reply counts its findings. `header` and
`macroblocks` of some packets are what it prints of that file with these options. `origins` is what a model says here:
the script's nodes frame by frame, and the packets that `list` reports as shown. A session without the questions has the
same other replies and the same frames. Questions in any order, with edits between them, have the replies that each has
in a session in which nothing was asked before: what a session keeps from one question to the next is that of its
packets. It prints what differs and ends with 1, or prints nothing and ends with 0.
"""

import json
import os
import pathlib
import random
import subprocess
import sys
import tempfile

TOP = pathlib.Path(__file__).resolve().parent.parent
sys.dont_write_bytecode = True
sys.path.insert(0, str(TOP / "compare"))
from library.ivf import packets_of  # noqa: E402
from library.programs import real_streams  # noqa: E402

SERVE, LIST = (pathlib.Path(os.environ[name]).resolve() for name in ("VP8SERVE", "VP8LIST"))
LISTS, SEED = 30, 1
LIMIT = 120
# Packets and edits of a list, at most: a list is short, so that its ranges have many beginnings.
MOST_PACKETS, MOST_EDITS = 60, 12


def ran(*words, lines="", most=0):
    done = subprocess.run([str(word) for word in words], input=lines.encode(), stdout=subprocess.PIPE, timeout=LIMIT)
    assert 0 <= done.returncode <= most, (words, done.returncode)
    return done.stdout.decode()


def random_bytes(dice, packets):
    """Bytes for a packet: of the streams, cut, with another bit, or none."""
    packet = bytearray(dice.choice(packets))
    kind = dice.choice("whole whole cut bit none short".split())
    if kind == "cut":
        del packet[dice.randint(0, min(len(packet), 40)) :]
    elif kind == "bit" and packet:
        packet[dice.randrange(min(len(packet), 12))] ^= 1 << dice.randrange(8)
    elif kind in ("none", "short"):
        del packet[2 * (kind == "short") :]
    return packet.hex() or "-"


def random_edit(dice, counts, current, packets):
    """An edit of the current source, and how many packets it has then if the edit is accepted."""
    count = counts[current]
    at = dice.randint(0, count)
    kind = dice.choice("insert replace replace delete delete move copy blank hold hide hide show".split())
    if kind == "insert":
        return f"insert {at} {dice.randint(0, 999)} {random_bytes(dice, packets)}"
    if kind == "replace":
        return f"replace {at} {random_bytes(dice, packets)}"
    if kind == "move":
        return f"move {at} {dice.randint(0, count)}"
    if kind == "copy":
        source = dice.randrange(len(counts))
        return f"copy {source} {dice.randint(0, counts[source])} {at}"
    return f"blank {at} 32 16" if kind == "blank" else f"{kind} {at}"


def random_script(dice):
    """A script of some nodes; its crops may be the whole picture, and its fades may change nothing."""
    nodes = []
    for number in range(1, dice.randint(0, 6) + 1):
        clip = dice.randrange(number)
        nodes.append(
            dice.choice(
                [
                    f"source {dice.randrange(2)}",
                    f"trim {clip} {dice.randint(0, 9)} {dice.randint(0, 40)}",
                    f"splice {clip} {dice.randrange(number)}",
                    " ".join(
                        [
                            "parts",
                            *(
                                f"{dice.randrange(number)} {dice.randint(0, 9)} {dice.randint(0, 12)}"
                                for _ in range(dice.randint(1, 4))
                            ),
                        ]
                    ),
                    (
                        f"crop {clip} {2 * dice.randint(0, 3)} 0"
                        f" {dice.choice([16, 176, 320])} {dice.choice([16, 144, 180])}"
                    ),
                    f"crop {clip} 0 0 {dice.choice([32, 176, 320])} {dice.choice([16, 144, 180])}",
                    (
                        f"fade {clip} {dice.randint(0, 20)} {dice.randint(1, 9)}"
                        f" {dice.choice([0, 255, 256])} {dice.choice([0, 256])}"
                    ),
                ]
            )
        )
    return "; ".join(nodes) or "-"


class Script:
    """The frames of a script: for each its source, the frame of that, and the steps of its nodes as (node, kind,
    numbers).
    """

    def __init__(self, text, counts):
        self.nodes = [[(0, frame, ()) for frame in range(counts[0])]]
        for number, node in enumerate(text.split(";") if text != "-" else [], 1):
            word, *numbers = node.split()
            numbers = list(map(int, numbers))
            if word == "source":
                made = [(numbers[0], frame, ()) for frame in range(counts[numbers[0]])]
            elif word == "trim":
                made = self.nodes[numbers[0]][numbers[1] : numbers[1] + numbers[2]]
            elif word == "splice":
                made = self.nodes[numbers[0]] + self.nodes[numbers[1]]
            elif word == "parts":
                parts = zip(*[iter(numbers)] * 3)
                made = [frame for clip, first, count in parts for frame in self.nodes[clip][first : first + count]]
            elif word == "crop":
                made = [
                    (source, frame, (*steps, (number, "crop", numbers[1:])))
                    for source, frame, steps in self.nodes[numbers[0]]
                ]
            else:
                made = [
                    (source, frame, (*steps, (number, "fade", weight(i, *numbers[1:]))))
                    for i, (source, frame, steps) in enumerate(self.nodes[numbers[0]])
                ]
            self.nodes.append(made)

    def origins(self, lists):
        """The objects of all frames, by the packets of the sources."""
        shown = [[facts["packet"] for facts in source if facts["show"] == "shown"] for source in lists]
        for number, (source, frame, steps) in enumerate(self.nodes[-1]):
            packet = shown[source][frame]
            yield {
                "frame": number,
                "source": source,
                "source_frame": frame,
                "packet": packet,
                "changed": list(changes(steps, size_at(lists[source], packet))),
            }


def weight(i, first, count, start, end):
    """The weight of frame i of a fade."""
    return (
        start
        if i < first
        else end
        if i >= first + count
        else (start * (count - (i - first)) + end * (i - first)) // count
    )


def size_at(source, packet):
    """The size in the last packet with a key tag up to this one; 0x0 if there is none, or it has none."""
    keys = [facts["size"] for facts in source[: packet + 1] if facts["kind"] == "key"]
    return tuple(map(int, keys[-1].split("x"))) if keys and keys[-1] else (0, 0)


def changes(steps, size):
    """The nodes that change a sample of a picture of this size."""
    for number, kind, value in steps:
        if kind == "fade":
            if value != 256:
                yield number
            continue
        column, row, width, height = value
        if value != [0, 0, *size]:
            yield number
        if column + width <= size[0] and row + height <= size[1]:
            size = (width, height)


def ranges(dice, word, count):
    """Questions that cover `count` items, each once, with a count that is too large at the end, and the empty ones."""
    lines, first = [], 0
    while first < count:
        length = dice.randint(1, 1 + count // 2)
        lines.append(f"{word} {first} {length}")
        first += length
    return [*lines, f"{word} {count} 7", f"{word} {dice.randint(0, count)} 0", f"{word} {count + 1} 1"]


def taken(replies, asked, refusal):
    """The objects of the replies to these questions, which are taken off the list; the last three replies have none."""
    found = []
    for line in asked:
        first = next(replies)
        if line is asked[-1]:
            assert first == refusal, (line, first)
            continue
        count = int(first.removeprefix("lines "))
        assert count <= int(line.split()[2]), (line, first)
        found += [next(replies) for _ in range(count)]
    return found


def findings_of(replies, asked):
    """The findings of the replies to these questions, which are taken off the list; the last question has none."""
    found = []
    for line in asked[:-1]:
        first, count = map(int, line.split()[1:])
        *some, tally = [next(replies) for _ in range(int(next(replies).removeprefix("lines ")))]
        objects = [json.loads(finding) for finding in some]
        counted = {
            f"{severity}s"
            if severity == "note"
            else severity: sum(finding["severity"] == severity for finding in objects)
            for severity in ("damage", "note")
        }
        assert json.loads(tally) == counted, (line, tally)
        assert all(first <= finding["packet"] < first + count for finding in objects), line
        found += some
    last = next(replies)
    assert last == "refused Place", (asked[-1], last)
    return found


def expect(got, wanted, what):
    assert len(got) == len(wanted), (what, len(got), len(wanted))
    for one, other in zip(got, wanted):
        assert one == other, (what, one, other)


def counts_after(paths, lines):
    """How many packets the two sources have, and frames the script, after these lines."""
    words = ran(
        SERVE,
        paths[0],
        "-",
        "-",
        "--sources",
        paths[1],
        lines="".join(f"{line}\n" for line in [*lines, "use 1", "count", "use 0", "count"]),
    ).split("\n")
    second, first = words[-4].split(), words[-2].split()
    return [int(first[1]), int(second[1])], int(first[3])


def one_list(dice, folder, streams):
    """Runs one list of edits, and compares what its questions report."""
    paths, packets = [], []
    for number in range(2):
        data = dice.choice(streams).read_bytes()
        path = folder / f"{number}.ivf"
        few, size = list(packets_of(data))[: dice.randint(0, MOST_PACKETS)], 32
        size += sum(12 + len(packet) for packet in few)
        path.write_bytes(data[:size])
        paths.append(path)
        packets += few
    packets = packets or [b""]
    edits, counts, current = [], [MOST_PACKETS // 2] * 2, 0
    for _ in range(dice.randint(0, MOST_EDITS)):
        if dice.random() < 0.2:
            current = dice.randrange(2)
            edits.append(f"use {current}")
        edits.append(random_edit(dice, counts, current, packets))
    text = random_script(dice)
    edits.append(f"script {text}")
    counts, frames = counts_after(paths, edits)
    second, first, origins = (
        ranges(dice, "list", counts[1]),
        ranges(dice, "list", counts[0]),
        ranges(dice, "origins", frames),
    )
    looks = [f"frame {dice.randint(0, frames)}" for _ in range(3)]
    plain = ["use 1", "use 0", *looks, "stats", "count", "script"]
    checks = ranges(dice, "check", counts[0])
    details = [
        f"{dice.choice(['header', 'macroblocks'])} {dice.randrange(counts[0])}" for _ in range(4 * (counts[0] > 0))
    ]
    asked = [
        "use 1",
        *second,
        "use 0",
        *first,
        *checks,
        *origins,
        *details,
        looks[0],
        first[0],
        *looks[1:],
        origins[0],
        "stats",
        "count",
        "script",
    ]
    saved, out = folder / "saved.ivf", folder / "out.y4m"
    lines = "".join(f"{line}\n" for line in [*edits, *asked])
    replies = ran(
        SERVE,
        paths[0],
        "-",
        out,
        "--sources",
        paths[1],
        "--save",
        saved,
        *(["--live"] if dice.random() < 0.5 else []),
        lines=lines,
    ).split("\n")
    shown = out.read_bytes()
    without = ran(
        SERVE, paths[0], "-", out, "--sources", paths[1], lines="".join(f"{line}\n" for line in [*edits, *plain])
    ).split("\n")
    assert out.read_bytes() == shown, "the frames are others without the questions"
    left = iter(replies)
    others = [next(left) for _ in range(len(edits) + 1)]
    lists = [None, taken(left, second, "refused Place")]
    others.append(next(left))
    lists[0] = taken(left, first, "refused Place")
    findings = findings_of(left, checks)
    found = taken(left, origins, "refused NoSuchFrame")
    for question in details:
        word, number = question.split()
        objects = [next(left) for _ in range(int(next(left).removeprefix("lines ")))]
        expect(objects, ran(LIST, saved, f"--{word}", number, "--json").splitlines(), question)
    rest = [line for line in left if not line.startswith(("lines ", "{", "refused Place", "refused NoSuchFrame"))]
    wanted = [line for line in without[len(others) :] if not line.startswith("refused NoSuchFrame")]
    expect(others + rest, without[: len(others)] + wanted, "another reply")
    expect(lists[0], ran(LIST, saved, "--json").splitlines(), "list")
    expect(
        findings,
        [
            line
            for line in ran(LIST, saved, "--check", "--json", most=1).splitlines()
            if json.loads(line)["packet"] is not None
        ],
        "check",
    )
    objects = [list(map(json.loads, source)) for source in lists]
    expect(
        list(map(json.loads, found)),
        list(Script(text, [sum(facts["show"] == "shown" for facts in source) for source in objects]).origins(objects)),
        "origins",
    )


def random_question(dice, count):
    word = dice.choice("list list check check header macroblocks".split())
    number = dice.randint(0, count)
    return f"{word} {number} {dice.randint(0, count // 2)}" if word in ("list", "check") else f"{word} {number}"


def replies_of(text):
    """The replies of a run, each with its lines."""
    lines, found = iter(text.splitlines()), []
    for first in lines:
        count = int(first.removeprefix("lines ")) if first.startswith("lines ") else 0
        found.append([first, *(next(lines) for _ in range(count))])
    return found


def in_any_order(dice, folder, streams):
    """Compares questions between edits with the same ones in sessions of their own."""
    paths, packets = [], []
    for number in range(2):
        data = dice.choice(streams).read_bytes()
        few = list(packets_of(data))[: dice.randint(1, MOST_PACKETS)]
        path = folder / f"{number}.ivf"
        path.write_bytes(data[: 32 + sum(12 + len(packet) for packet in few)])
        paths.append(path)
        packets += few
    counts, current, lines, questions = [MOST_PACKETS // 2] * 2, 0, [], []
    for _ in range(dice.randint(8, 24)):
        if dice.random() < 0.2:
            current = dice.randrange(2)
            lines.append(f"use {current}")
        elif dice.random() < 0.3:
            lines.append(random_edit(dice, counts, current, packets))
        else:
            questions.append(len(lines))
            lines.append(random_question(dice, counts[current]))
    session = lambda some: replies_of(
        ran(SERVE, paths[0], "-", "-", "--sources", paths[1], lines="".join(f"{line}\n" for line in some))
    )  # noqa: E731
    together = session(lines)
    for at in questions:
        alone = session(
            [line for number, line in enumerate(lines[: at + 1]) if number == at or number not in questions]
        )
        expect(together[at], alone[-1], (lines[: at + 1], "after other questions"))


def main(count=LISTS, seed=SEED):
    streams = real_streams()
    for number in range(seed, seed + count):
        dice = random.Random(number)
        with tempfile.TemporaryDirectory() as folder:
            try:
                one_list(dice, pathlib.Path(folder), streams)
                in_any_order(dice, pathlib.Path(folder), streams)
            except (AssertionError, subprocess.SubprocessError, StopIteration, ValueError) as error:
                print(f"list {number}: {error!r:.400}")
                return 1
    return 0


if __name__ == "__main__":
    sys.exit(main(*map(int, sys.argv[1:])))
