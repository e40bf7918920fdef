#!/usr/bin/env python3
"""Packets that show the frames of random scripts again: those of `vp8serve --export`, and those of a plain model of
lossless_cuts' definition.

    compare/exports.py [--scripts N] [--joins N] [--seed S] [--no-ffmpeg] [--model] [FILE ..]

Each script trims and splices one or two clips of one size, or has parts of them, with repeated frames and frames in
reverse order. Each clip is taken once as it is and once with packets of no bytes among its packets, as an encoder that
drops frames writes them. The packets of a script are those of the definition: a lead of hidden packets from the packet
after the last one, or from the last key packet, and then the frame's own packet, or a hold packet. The program must
write exactly these, with the time stamps and the head of their durations, by exact fractions. vpxdec and ffmpeg decode
what it wrote: their frames must be the frames that vp8serve serves for the script, byte for byte, and their number too.
An export of the export has the same frames, and one of a clip without a script the clip's. Then clips of other rates
and time stamps are joined, of which packets, time stamps and heads are compared. With --model nothing is exported: the
decoders read the packets of the model.
"""

import argparse
import json
import os
import random
import subprocess
import sys
import tempfile

import results
from library import exact_times
from library.ivf import has_key_tag, is_shown
from library.programs import TOP, VP8LIST, VP8SERVE, real_streams

sys.path.insert(0, str(TOP / "clients/python"))

from wokureti.media import ivf as files  # noqa: E402


def run(words, text=None):
    """Runs a program, and returns its output; a time limit of ten minutes."""
    ran = subprocess.run(
        [str(word) for word in words], input=text, stdout=subprocess.PIPE, stderr=subprocess.PIPE, timeout=600
    )
    if ran.returncode:
        raise SystemExit(
            f"{' '.join(map(str, words))}: status {ran.returncode}: {ran.stderr.decode(errors='replace')[-300:]}"
        )
    return ran.stdout


def rate_of(data):
    """The rate and the scale of a file."""
    return int.from_bytes(data[16:20], "little"), int.from_bytes(data[20:24], "little")


class Clip:
    """The packets of a file, and what vp8list says of each."""

    def __init__(self, path):
        self.path = path
        with open(path, "rb") as file:
            data = file.read()
        self.head, self.packets, self.stamps, at = data[:32], [], [], int.from_bytes(data[6:8], "little")
        while at + 12 <= len(data):
            size = int.from_bytes(data[at : at + 4], "little")
            self.packets.append(data[at + 12 : at + 12 + size])
            self.stamps.append(int.from_bytes(data[at + 4 : at + 12], "little"))
            at += 12 + size
        self.facts = [json.loads(line) for line in run([VP8LIST, "--json", path]).splitlines()]
        self.shown = [at for at, packet in enumerate(self.packets) if is_shown(packet)]
        self.sizes = {it["size"] for it in self.facts if it["size"]}
        self.size = min(self.sizes)
        self.rate = rate_of(data)
        self.durations = exact_times.durations_of(self.stamps, [is_shown(packet) for packet in self.packets])

    def key_place(self, at):
        return next(k for k in range(at, -1, -1) if has_key_tag(self.packets[k]))

    def leaves_last(self, at):
        return not self.packets[at] or self.facts[at]["last"] == "new"


def with_show_bit(packet, shown):
    """The packet with bit 4 of its first byte set or cleared."""
    if len(packet) < 3:
        return packet
    return bytes([packet[0] & ~16 | (16 if shown else 0)]) + packet[1:]


def frame_packets(clip, before, target, held):
    """The packets of a frame, after the frame before it: pairs of whether it is shown and its bytes."""
    source, place = target
    packet = clip.packets[place]
    if before == target and clip.leaves_last(place):
        return [(True, held)]
    first = clip.key_place(place)
    if before and before[0] == source and before[1] < place:
        first = max(before[1] + 1, first)
    lead = [(False, with_show_bit(it, False)) for it in clip.packets[first:place] if it]
    return lead + [(True, packet or held)]


def exported(clips, targets, held):
    packets, before = [], None
    for target in targets:
        packets += frame_packets(clips[target[0]], before, target, held)
        before = target
    return packets


def times_of(clips, targets, packets):
    """The rate and scale of the head of an export, and the time stamps of its packets."""
    durations = [
        (clips[source].durations[place], exact_times.base_of(*clips[source].rate)) for source, place in targets
    ]
    head = exact_times.head_for(durations, clips[0].rate)
    stamps = exact_times.stamps_of(durations, exact_times.base_of(*head))
    assert exact_times.is_near(durations, exact_times.base_of(*head), stamps)
    return head, exact_times.stamped([shown for shown, _ in packets], stamps)


def hold_packet(size, room):
    """A hold packet, with the byte that libvpx wants in its last partition."""
    width, height = size.split("x")
    run([VP8SERVE, "-", "-", "-", "--save", f"{room}/hold.ivf"], f"blank 0 {width} {height}\nhold 1\n".encode())
    return Clip(f"{room}/hold.ivf").packets[1] + b"\0"


def ivf(head, packets):
    """An IVF file; a hidden packet has the stamp of the next shown one."""
    out, stamp = [head[:6] + (32).to_bytes(2, "little") + head[8:24] + len(packets).to_bytes(4, "little") + bytes(4)], 0
    for shown, packet in packets:
        out.append(len(packet).to_bytes(4, "little") + stamp.to_bytes(8, "little") + packet)
        stamp += shown
    return b"".join(out)


def with_drops(dice, clip, path):
    """The clip with packets of no bytes after some of its packets."""
    packets = []
    for packet in clip.packets:
        packets += [packet] + [b""] * dice.choice([0, 0, 0, 1, 2])
    with open(path, "wb") as file:
        file.write(ivf(clip.head, [(True, it) for it in packets]))
    return Clip(path)


def random_script(dice, clips):
    """A script, and the source and frame of each of its frames."""
    nodes, frames = [], [[(0, n) for n in range(len(clips[0].shown))]]
    if len(clips) > 1:
        nodes.append("source 1")
        frames.append([(1, n) for n in range(len(clips[1].shown))])
    sources = len(frames)
    parts = []
    for _ in range(dice.randint(1, 6)):
        clip = dice.randrange(sources)
        first = dice.randrange(len(frames[clip]))
        count = dice.choice([1, 1, 2, 3, 5, 9])
        nodes.append(f"trim {clip} {first} {count}")
        frames.append(frames[clip][first : first + count])
        parts.append(len(frames) - 1)
    if dice.random() < 0.5:
        parts.append(dice.choice(parts))
    if dice.random() < 0.5:
        pieces = [
            (part, 0 if place == 0 else dice.randrange(3), dice.choice([1, 2, 3, 9]))
            for place, part in enumerate(parts)
        ]
        nodes.append(f"parts {' '.join(f'{part} {first} {count}' for part, first, count in pieces)}")
        return "; ".join(nodes), [
            frame for part, first, count in pieces for frame in frames[part][first : first + count]
        ]
    whole = parts[0]
    for part in parts[1:]:
        if len(nodes) == 16:
            break
        nodes.append(f"splice {whole} {part}")
        frames.append(frames[whole] + frames[part])
        whole = len(frames) - 1
    if whole != len(frames) - 1:
        nodes.append(f"trim {whole} 0 4294967295")
        frames.append(frames[whole])
    return "; ".join(nodes), frames[-1]


def served(clips, script, count, room):
    """The frames that vp8serve serves."""
    lines = [f"script {script}"] + [f"frame {n}" for n in range(count)]
    more = ["--sources", ":".join(str(it.path) for it in clips[1:])] if len(clips) > 1 else []
    replies = (
        run([VP8SERVE, clips[0].path, "-", f"{room}/out.y4m", *more], "\n".join(lines).encode() + b"\n")
        .decode()
        .splitlines()
    )
    if replies[1:] != [f"served {n}" for n in range(count)]:
        raise SystemExit(f"{clips[0].path}: {script}: {[it for it in replies if not it.startswith('served')][:3]}")
    with open(f"{room}/out.y4m", "rb") as file:
        data = file.read()
    at = data.index(b"\n") + 1
    width, height = map(int, clips[0].size.split("x"))
    size = width * height + 2 * ((width + 1) // 2) * ((height + 1) // 2)
    return b"".join(data[at + n * (size + 6) + 6 : at + (n + 1) * (size + 6)] for n in range(count)), size


def export(clips, script, out):
    """The packets that the program exports of a script, with their time stamps."""
    more = ["--sources", ":".join(str(it.path) for it in clips[1:])] if len(clips) > 1 else []
    run([VP8SERVE, clips[0].path, "-", "-", *more, "--export", out], f"script {script}\n".encode() if script else b"")
    _, packets = files.read_packets(out)
    with open(out, "rb") as file:
        return rate_of(file.read(32)), packets


def check_export(clips, targets, packets, wrote):
    """What is wrong with the head and the packets that the program wrote."""
    (rate, wrote), (head, stamps) = wrote, times_of(clips, targets, packets)
    if [data for _, data in wrote] != [data for _, data in packets]:
        return [f"{len(wrote)} packets are written, and not the {len(packets)} of the definition"]
    if rate != head:
        return [f"the head has the rate {rate}, and not {head}"]
    if [stamp for stamp, _ in wrote] != stamps:
        return ["other time stamps than those of the durations"]
    return []


def decoded(name, path, room):
    """The frames of a file by a decoder."""
    lines = {
        "vpxdec": ["vpxdec", "--i420", "-o", f"{room}/frames.yuv", path],
        "ffmpeg": [
            "ffmpeg",
            "-v",
            "error",
            "-y",
            "-i",
            path,
            "-fps_mode",
            "passthrough",
            "-f",
            "rawvideo",
            "-pix_fmt",
            "yuv420p",
            f"{room}/frames.yuv",
        ],
    }
    run(lines[name])
    with open(f"{room}/frames.yuv", "rb") as file:
        return file.read()


class Totals:
    """What was compared so far."""

    def __init__(self):
        self.scripts = self.frames = self.packets = self.hidden = self.joins = self.wrong = 0

    def text(self):
        done = f"{self.scripts} scripts, {self.frames} frames, {self.packets} packets, {self.hidden} of them hidden"
        return f"{done}, {self.joins} joins of other rates: {self.wrong} wrong"


def random_case(dice, clips):
    """One or two clips of one size, a script, and the source and frame of each of its frames."""
    one = dice.choice(clips)
    others = [it for it in clips if it.size == one.size and it is not one]
    mine = [one] + ([dice.choice(others)] if others and dice.random() < 0.6 else [])
    script, origins = random_script(dice, mine)
    if dice.random() < 0.02:
        # Without a script: the clip's own packets, but for those that change nothing.
        return [one], "", [(0, n) for n in range(len(one.shown))]
    return mine, script, origins


def with_times(dice, clip, path):
    """The first packets of a clip with another rate, and with time stamps that have gaps, repeats and jumps back."""
    head = bytearray(clip.head)
    head[16:20] = dice.choice([30, 25, 20, 24, 24000, 30000, 15, 1000, 90000, 0, 1, 4294967291]).to_bytes(4, "little")
    head[20:24] = dice.choice([1, 1, 1, 1001, 2, 0]).to_bytes(4, "little")
    packets, stamp = clip.packets[: dice.randint(1, 24)], dice.choice([0, 0, 500])
    head[24:28] = len(packets).to_bytes(4, "little")
    steps = dice.choice([[1], [1, 2], [33, 33, 34], [1, 1, 1, 0, 9], [7, -3, 40, 2**20]])
    out = [bytes(head)]
    for packet in packets:
        out.append(len(packet).to_bytes(4, "little") + stamp.to_bytes(8, "little") + packet)
        stamp = max(0, stamp + dice.choice(steps))
    with open(path, "wb") as file:
        file.write(b"".join(out))
    return Clip(path)


def check_join(dice, clips, room):
    """What is wrong with the export of two or three clips of other rates, one after another."""
    one = dice.choice(clips)
    same = [it for it in clips if it.size == one.size]
    mine = [
        with_times(dice, it, f"{room}/join-{at}.ivf")
        for at, it in enumerate(dice.choices(same, k=dice.choice([2, 2, 3])))
    ]
    script = "source 1; splice 0 1" if len(mine) == 2 else "source 1; source 2; splice 0 1; splice 3 2"
    targets = [(source, place) for source, clip in enumerate(mine) for place in clip.shown]
    packets = exported(mine, targets, hold_packet(mine[0].size, room))
    return check_export(mine, targets, packets, export(mine, script, f"{room}/join.ivf"))


def compare(case, decoders, is_model, room, totals):
    """What is wrong with the packets of a script."""
    clips, script, origins = case
    targets = [(source, clips[source].shown[n]) for source, n in origins]
    packets = exported(clips, targets, hold_packet(clips[0].size, room))
    want, size = served(clips, script or "-", len(targets), room)
    out, said = f"{room}/export.ivf", []
    if is_model:
        with open(out, "wb") as file:
            file.write(ivf(clips[0].head, packets))
    else:
        said += check_export(clips, targets, packets, export(clips, script, out))
    got = {name: decoded(name, out, room) for name in decoders}
    if not is_model:
        export([Clip(out)], "", f"{room}/again.ivf")
        got["the export of the export"] = decoded("vpxdec", f"{room}/again.ivf", room)
    for name, data in got.items():
        if data != want:
            first = next(
                (n for n in range(len(targets)) if data[n * size : (n + 1) * size] != want[n * size : (n + 1) * size]),
                len(targets),
            )
            said.append(f"{name}: {len(data) / size:g} of {len(targets)} frames, the first wrong one {first}")
    totals.scripts, totals.frames, totals.packets = (
        totals.scripts + 1,
        totals.frames + len(targets),
        totals.packets + len(packets),
    )
    totals.hidden, totals.wrong = totals.hidden + sum(not shown for shown, _ in packets), totals.wrong + len(said)
    return said


def main():
    words = argparse.ArgumentParser(description=__doc__.split("\n\n")[0])
    words.add_argument("clips", nargs="*", default=real_streams())
    words.add_argument("--scripts", type=int, default=100)
    words.add_argument("--joins", type=int, default=1000)
    words.add_argument("--seed", type=int, default=1)
    words.add_argument("--no-ffmpeg", action="store_true")
    words.add_argument("--model", action="store_true")
    args = words.parse_args()
    is_there = b"--export" in run([VP8SERVE, "--help"])
    if not is_there and not args.model:
        raise SystemExit(
            f"{VP8SERVE} has no --export: compare/exports.py --model compares the packets of the definition"
        )
    decoders = ["vpxdec"] + ["ffmpeg"] * (not args.no_ffmpeg)
    dice, totals = random.Random(args.seed), Totals()
    clips = [it for it in map(Clip, args.clips) if len(it.sizes) == 1]
    with tempfile.TemporaryDirectory() as room:
        clips += [with_drops(dice, clip, f"{room}/drops-{number}.ivf") for number, clip in enumerate(clips)]
        try:
            for number in range(args.scripts):
                case = random_case(dice, clips)
                for text in compare(case, decoders, args.model, room, totals):
                    print(
                        f"script {number} of {[os.path.basename(it.path) for it in case[0]]}: {case[1]}: {text}",
                        flush=True,
                    )
            for number in range(0 if args.model else args.joins):
                for text in check_join(dice, clips, room):
                    totals.wrong += 1
                    print(f"join {number}: {text}", flush=True)
                totals.joins += 1
        except KeyboardInterrupt:
            print(f"interrupted after {totals.scripts} scripts")
    results.total(totals.text(), totals.wrong or totals.scripts < args.scripts)
    return 1 if totals.wrong else 0


if __name__ == "__main__":
    sys.exit(main())
