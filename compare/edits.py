#!/usr/bin/env python3
"""Compares the program's replies to random lists of requests with those of a plain model of them, written again here.

    compare/edits.py [LISTS [LONG_LISTS]]

Each list is run once more with questions at random places between its lines: the other replies, those of `stats` too,
and the frames must be the same. LONG_LISTS are lists of 60 edits of streams of 1,000 to 5,000 packets, whose packets
are saved and compared too. README.md says more.
"""
import pathlib
import random
import struct
import subprocess
import sys
import tempfile

import results
from library.ivf import ivf
from library.programs import VP8SERVE

TOP = 2**64


def key(width, height):
    return bytes.fromhex("10 00 00 9D 01 2A") + struct.pack("<HH", width, height)


PACKETS = [
    key(16, 16),
    key(16, 16),
    key(40, 24),
    bytes([0x11, 0, 0]),
    bytes([0x01, 0, 0]),
    b"",
    bytes([0x11, 0]),
    bytes.fromhex("10 00 00 9D 01 2B 10 00 10 00"),
    bytes.fromhex("18 00 00 9D 01 2A 10 00 10 00"),
    bytes.fromhex("30 00 00 9D 01 2A 10 00 10 00"),
    bytes.fromhex("00 00 00 9D 01 2A 20 00 10 00"),
]


def cause(packet, has_state):
    """What is wrong with a packet, or None: these packets alone."""
    if not packet:
        return None if has_state else "NoKeyFrame"
    if len(packet) < 3 or (packet[0] % 2 == 0 and len(packet) < 10):
        return "ShortPacket"
    if packet[0] >> 1 & 7 > 3:
        return "Version"
    if packet[0] % 2 == 0:
        if packet[3:6] != bytes([0x9D, 0x01, 0x2A]):
            return "StartCode"
        return "FirstPartition" if packet[0] >> 5 else None
    return None if has_state else "NoKeyFrame"


class Model:
    """A session: the packets with their time stamps, and the size that the first frame served has fixed."""

    def __init__(self, packets):
        self.packets = list(packets)
        self.stamps = list(range(len(packets)))
        self.size = None

    def frame(self, n):
        shown = [i for i, p in enumerate(self.packets) if len(p) < 3 or p[0] & 0x10]
        if n >= len(shown):
            return "refused NoSuchFrame"
        size, broken = None, None
        for place, packet in enumerate(self.packets[: shown[n] + 1]):
            has_key_tag = len(packet) >= 3 and packet[0] % 2 == 0
            if broken and not has_key_tag:
                continue
            fault = cause(packet, size is not None and not has_key_tag)
            broken = (place, fault) if fault else None
            if fault or has_key_tag:
                size = None if fault else struct.unpack("<HH", packet[6:10])
        if broken:
            return f"refused packet {broken[0]} {broken[1]}"
        if self.size not in (None, size):
            return "refused SizeDiffers"
        self.size = size
        return f"served {n}"

    def answer(self, line):
        words = line.split(" ")
        words = [word for word in words if word]
        count = len(self.packets)
        try:
            command, numbers = words[0], [int(word) for word in words[1:3]]
        except ValueError:
            command, numbers = words[0], [int(word) for word in words[1:2]]
        if command == "frame":
            return self.frame(numbers[0])
        if command == "count":
            return f"packets {count} frames {sum(len(p) < 3 or p[0] & 0x10 != 0 for p in self.packets)}"
        if command == "stats":
            return "decoded"
        if command == "script":
            return "script -"
        if command == "insert":
            if numbers[0] > count:
                return "refused Place"
            self.packets.insert(numbers[0], bytes.fromhex(words[3].replace("-", "")))
            self.stamps.insert(numbers[0], numbers[1])
        elif numbers[0] >= count or (command == "move" and numbers[1] >= count):
            return "refused Place"
        elif command == "packet":
            return f"packet {self.stamps[numbers[0]]} {self.packets[numbers[0]].hex() or '-'}"
        elif command in ("hide", "show"):
            if len(self.packets[numbers[0]]) < 3:
                return "refused NoBit"
            first, rest = self.packets[numbers[0]][0] & 0xEF, self.packets[numbers[0]][1:]
            self.packets[numbers[0]] = bytes([first + 16 * (command == "show")]) + rest
        elif command == "replace":
            self.packets[numbers[0]] = bytes.fromhex(words[2].replace("-", ""))
        elif command == "delete":
            del self.packets[numbers[0]], self.stamps[numbers[0]]
        else:
            for listed in (self.packets, self.stamps):
                listed.insert(numbers[1], listed.pop(numbers[0]))
        return f"ok {len(self.packets)}"


def random_line(most):
    place = lambda: (
        random.choice([random.randrange(most), random.randrange(most), TOP - 1])
        if random.random() < 0.1
        else random.randrange(most)
    )
    hex = random.choice(PACKETS).hex() or "-"
    hex = random.choice([hex, hex.upper()])
    return random.choice(
        [f"frame {place()}"] * 6
        + [f"insert {place()} {random.randrange(TOP)} {hex}"] * 2
        + [
            f"replace {place()} {hex}",
            f"delete {place()}",
            f"move {place()} {place()}",
            f"  move   {place()}  {place()} ",
            "count",
            "stats",
        ]
        + [f"hide {place()}", f"show {place()}", f"packet {place()}", "script"]
    )


def with_questions(lines):
    """The lines with questions between them, and the places of the lines."""
    asked, places = [], []
    for line in lines:
        while random.random() < 0.4:
            asked.append(random.choice(["count", "stats", "script", "packet", f"packet {random.randrange(12)}"]))
        places.append(len(asked))
        asked.append(line)
    return asked, places


def served(room, lines):
    """The replies to lines over the stream of a room, and the frames."""
    pathlib.Path(f"{room}/requests").write_text("\n".join(lines))
    words = [VP8SERVE, f"{room}/in.ivf", f"{room}/requests", f"{room}/out.y4m"]
    ran = subprocess.run(words, check=True, capture_output=True, text=True)
    return ran.stdout.splitlines(), pathlib.Path(f"{room}/out.y4m").read_bytes()


def compare(room, seed):
    random.seed(seed)
    packets = [random.choice(PACKETS) for _ in range(random.randrange(9))]
    lines = [random_line(10) for _ in range(60)]
    pathlib.Path(f"{room}/in.ivf").write_bytes(ivf(16, 16, packets))
    replies, frames = served(room, lines)
    model = Model(packets)
    wanted = [model.answer(line) for line in lines]
    told = ["decoded" if reply.startswith("decoded ") else reply for reply in replies]
    steps = [int(reply.split()[1]) for reply in replies if reply.startswith("decoded ")]
    if told != wanted or steps != sorted(steps):
        row = next((i for i, pair in enumerate(zip(told, wanted)) if pair[0] != pair[1]), min(len(told), len(wanted)))
        sys.exit(
            f"list {seed}, line {row}: {lines[row : row + 1]}: told {told[row : row + 1]}, wanted"
            f" {wanted[row : row + 1]}"
        )
    asked, places = with_questions(lines)
    more, same_frames = served(room, asked)
    if [more[place] for place in places] != replies or same_frames != frames:
        sys.exit(f"list {seed}: questions between its lines change a reply or a frame")
    return wanted


def long_line(count):
    """An edit of a long stream, at its ends, at the ends of runs of 1,024 packets and anywhere."""
    near = lambda: max(
        0, random.choice([0, 1023, 1024, 1025, 2047, 2048, 3072, 4096, count - 1, count]) + random.randrange(-1, 2)
    )
    place = lambda: near() if random.random() < 0.4 else random.randrange(count + 1)
    hex = random.choice(PACKETS).hex() or "-"
    return random.choice(
        [f"insert {place()} {random.randrange(2**32)} {hex}", f"delete {place()}"] * 2
        + [f"replace {place()} {hex}", f"move {place()} {place()}", f"move {place()} {place()}", "count"]
        + [f"hide {place()}", f"show {place()}", f"packet {place()}"]
    )


def saved_packets(path):
    """The time stamps and the bytes of the packets of a saved file."""
    data, at, packets = pathlib.Path(path).read_bytes(), 32, []
    while at < len(data):
        size, stamp = struct.unpack("<IQ", data[at : at + 12])
        packets.append((stamp, data[at + 12 : at + 12 + size]))
        at += 12 + size
    return packets


def compare_long(room, seed):
    random.seed(f"long {seed}")
    packets = [random.choice(PACKETS) for _ in range(random.randrange(1000, 5001))]
    lines = [long_line(len(packets)) for _ in range(60)]
    lines += [f"frame {random.randrange(len(packets))}" for _ in range(3)]
    pathlib.Path(f"{room}/in.ivf").write_bytes(ivf(16, 16, packets))
    pathlib.Path(f"{room}/requests").write_text("\n".join(lines))
    words = [VP8SERVE, "--save", f"{room}/saved.ivf", f"{room}/in.ivf", f"{room}/requests"]
    ran = subprocess.run(words, check=True, capture_output=True, text=True)
    model = Model(packets)
    wanted = [model.answer(line) for line in lines]
    told = ran.stdout.splitlines()[: len(lines)]
    if told != wanted:
        row = next((i for i, pair in enumerate(zip(told, wanted)) if pair[0] != pair[1]), min(len(told), len(wanted)))
        sys.exit(
            f"long list {seed}, line {row}: {lines[row : row + 1]}: told {told[row : row + 1]}, wanted"
            f" {wanted[row : row + 1]}"
        )
    if saved_packets(f"{room}/saved.ivf") != list(zip(model.stamps, model.packets)):
        sys.exit(f"long list {seed}: other packets were saved")


def main():
    lists = int(sys.argv[1]) if len(sys.argv) > 1 else 500
    long_lists = int(sys.argv[2]) if len(sys.argv) > 2 else 200
    kinds = {}
    with tempfile.TemporaryDirectory() as room:
        for seed in range(lists):
            for reply in compare(room, seed):
                kind = " ".join(word for word in reply.split() if not word.isdigit())
                kinds[kind] = kinds.get(kind, 0) + 1
        for seed in range(long_lists):
            compare_long(room, seed)
    for kind, count in sorted(kinds.items()):
        print(f"{count:7} {kind}")
    results.total(
        f"{lists} lists of 60 requests, {long_lists} of 60 edits of 1,000 to 5,000 packets: all replies and saved"
        " packets are the model's"
    )


if __name__ == "__main__":
    main()
