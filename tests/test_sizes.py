#!/usr/bin/env python3
"""Tests sizes that no contract promises: a contract lets NoMemory through at each of them, so each call is made here
with ample memory.

Macroblocks of a picture of 1920x1080; a check of 100,000 packets; packets of more than 1 MiB that are hidden; lines of
16 MiB in a live run; exports with leads of 200 and of 100,000 packets, and of more than 100,000 frames. By the library:
strides of more than 4,096 samples, and lines of more than 1 MiB. Two costs that no contract counts: questions at the
end of a long list, each of which continues from the one before, and an export, which decodes nothing. It prints what
differs and ends with 1, or prints nothing but what it skipped, and ends with 0.
"""

import ctypes
import json
import os
import pathlib
import subprocess
import sys
import tempfile

TOP = pathlib.Path(__file__).resolve().parent.parent
sys.dont_write_bytecode = True
sys.path.insert(0, str(TOP / "clients/python"))
sys.path.insert(1, str(TOP / "compare"))
from library.ivf import ivf, packets_of  # noqa: E402
from wokureti.session import library  # noqa: E402

SERVE, LIST = (os.environ[name] for name in ("VP8SERVE", "VP8LIST"))
LIBRARY = pathlib.Path(os.environ.get("LIBWOKURETI") or TOP / "bin/libwokureti.so.0")
CLIP = TOP / "crates/gate_clips/data/odd-size.ivf"
LONG = 100_000
MIB = 2**20
LIMIT = 600

wrong = []


def expect(name, got, wanted):
    if got != wanted:
        wrong.append(f"{name}: {got!r:.300}, not {wanted!r:.300}")


def ran(*words, lines=b"", program=SERVE):
    done = subprocess.run([program, *words], input=lines, capture_output=True, timeout=LIMIT, check=False)
    return done.returncode, done.stdout, done.stderr


def taken():
    """The processor time of the programs that have ended, which other work on the machine makes little longer."""
    times = os.times()
    return times.children_user + times.children_system


def forged():
    """A key packet of 16x16 and an inter packet that repeats its picture, both without findings."""
    ran("-", "-", "-", "--save", "forged.ivf", "--pad", lines=b"blank 0 16 16\nhold 1\n")
    return list(packets_of(pathlib.Path("forged.ivf").read_bytes()))


def macroblocks():
    """The macroblocks of 1920x1080, 120 in each of 68 rows, by the question and by vp8list."""
    status, told, errors = ran("-", "-", "-", "--save", "wide.ivf", lines=b"blank 0 1920 1080\nmacroblocks 0\n")
    places = [(column, row) for row in range(68) for column in range(120)]
    replies = told.decode().splitlines()
    expect("macroblocks", (status, replies[:2], errors), (0, ["ok 1", f"lines {len(places)}"], b""))
    found = [json.loads(line) for line in replies[2:]]
    expect("macroblocks: places", [(one["column"], one["row"]) for one in found] == places, True)
    status, told, errors = ran("wide.ivf", "--macroblocks", "0", "--json", program=LIST)
    expect("--macroblocks", (status, told.decode().splitlines() == replies[2:], errors), (0, True, b""))


def checked(key, inter):
    """A check of 100,000 packets finds the one that is refused near their end, and what is lost with it."""
    refused, back = LONG - 20_000, LONG - 10_000
    packets = [key] + [inter] * (LONG - 1)
    packets[refused], packets[back] = b"\x11\x00", key
    pathlib.Path("long.ivf").write_bytes(ivf(16, 16, packets))
    finding = {"packet": refused, "frame": refused, "kind": "refused", "cause": "ShortPacket"}
    finding |= {"lost": back - refused - 1, "severity": "damage"}
    wanted = ["lines 2", json.dumps(finding, separators=(",", ":")), '{"damage":1,"notes":0}']
    status, told, errors = ran("long.ivf", lines=f"check 0 {LONG}\n".encode())
    expect("check", (status, told.decode().splitlines(), errors), (0, wanted, b""))
    status, told, errors = ran("long.ivf", "--check", program=LIST)
    lost = f"damage: packet {refused}: refused ShortPacket, packets lost with it: {finding['lost']}"
    counts = f"{LONG} packets, {LONG} frames, damage: 1, notes: 0"
    expect("--check", (status, told.decode().splitlines(), errors), (1, [lost, counts], b""))


def asked_again():
    """Of a long list the first question about a packet near its end reads the packets before it, and those about the
    200 packets after it continue there.
    """
    for word, rest in (("check", " 1"), ("list", " 1"), ("header", ""), ("macroblocks", "")):
        times = []
        for count in (1, 201):
            lines = "".join(f"{word} {packet}{rest}\n" for packet in range(LONG - 201, LONG - 201 + count))
            start = taken()
            status, told, errors = ran("long.ivf", lines=lines.encode())
            times.append(taken() - start)
            expect(f"{count} times {word}", (status, told.count(b"lines "), errors), (0, count, b""))
        if times[1] > 3 * times[0] + 1:
            wrong.append(f"{word}: once {times[0]:.1f} s, 201 times {times[1]:.1f} s")


def hidden(key):
    """The show bit of packets of more than 1 MiB."""
    big = key + bytes(number % 251 for number in range(MIB + 7))
    pathlib.Path("big.ivf").write_bytes(ivf(16, 16, [big, big]))
    told = ran("big.ivf", "-", "-", "--save", "less.ivf", lines=b"hide 0\nhide 1\nshow 1\n")
    expect("hide", told, (0, b"ok 2\nok 2\nok 2\n", b""))
    saved = list(packets_of(pathlib.Path("less.ivf").read_bytes()))
    expect("hide: packets", saved == [bytes([big[0] & ~0x10]) + big[1:], big], True)


def lines_of_16_mib(key):
    """A packet of 8 MiB is inserted and one of the same length asked for; a comment of 16 MiB has no reply."""
    packet = key + bytes(number % 241 for number in range(8 * MIB - len(key)))
    lines = b"insert 1 7 " + packet.hex().encode() + b"\n#" + b"x" * (16 * MIB) + b"\npacket 1\ncount\n"
    wanted = (0, b"ok 2\npacket 7 " + packet.hex().encode() + b"\npackets 2 frames 2\n", b"")
    pathlib.Path("a.ivf").write_bytes(ivf(16, 16, [key]))
    for more in ([], ["--live"]):
        status, told, errors = ran("a.ivf", *more, lines=lines)
        expect(f"lines of 16 MiB {more}", (status, told.lower() == wanted[1], errors), (0, True, b""))


def exported(key, inter):
    """Leads: the packets from the key packet to the first frame are there, hidden; then the frames. Then all frames."""
    pathlib.Path("steps.ivf").write_bytes(ivf(16, 16, [key] + [inter] * LONG))
    for first, count in ((200, 3), (LONG - 2, 3), (0, LONG + 1)):
        script = f"script trim 0 {first} {count}\n" if first else ""
        status, told, errors = ran("steps.ivf", "-", "-", "--export", "part.ivf", lines=script.encode())
        expect(f"export of {first} {count}", (status, told.count(b"ok "), errors), (0, script.count("\n"), b""))
        packets = [key] + [inter] * (first + count - 1)
        wanted = [bytes([packet[0] & ~0x10]) + packet[1:] for packet in packets[:first]] + packets[first:]
        found = list(packets_of(pathlib.Path("part.ivf").read_bytes()))
        expect(f"export of {first} {count}: packets", len(found), len(wanted))
        # A player that uses libvpx needs a byte 00 after some packets.
        same = all(one in (other, other + b"\0") for one, other in zip(found, wanted))
        expect(f"export of {first} {count}: bytes", same, True)


def exported_once(key, inter):
    """An export of 3,000 small frames after a large one takes little more time than one of the large frame."""
    ran("-", "-", "-", "--save", "large.ivf", lines=b"blank 0 4096 4096\n")
    large = next(iter(packets_of(pathlib.Path("large.ivf").read_bytes())))
    times = []
    for count in (0, 3000):
        pathlib.Path("mixed.ivf").write_bytes(ivf(16, 16, [large, key] + [inter] * count))
        start = taken()
        expect(f"export of {count} small frames", ran("mixed.ivf", "-", "-", "--export", "part.ivf"), (0, b"", b""))
        times.append(taken() - start)
    if times[1] > 10 * times[0] + 5:
        wrong.append(f"an export of 2 frames takes {times[0]:.1f} s, of 3,002 frames {times[1]:.1f} s")


def frame_of(engine, strides):
    """Frame 0 in rooms with these strides, whose other bytes stay; the samples, and whether those did."""
    width, height = engine.size
    sides = [(width, height), ((width + 1) // 2, (height + 1) // 2), ((width + 1) // 2, (height + 1) // 2)]
    steps = [strides[0], strides[1], strides[1]]
    rooms = [
        ctypes.create_string_buffer(b"\xa5" * (step * side[1]), step * side[1]) for step, side in zip(steps, sides)
    ]
    shown = library.Shown(luma_stride=strides[0], chroma_stride=strides[1])
    given = [it for room in rooms for it in (ctypes.addressof(room), len(room))]
    status = engine.library.wk_frame(engine.handle, 0, *given, ctypes.byref(shown))
    samples, rest = b"", b""
    for room, step, (across, down) in zip(rooms, steps, sides):
        samples += b"".join(room.raw[row * step : row * step + across] for row in range(down))
        rest += b"".join(room.raw[row * step + across : (row + 1) * step] for row in range(down))
    return status, samples, set(rest) <= {0xA5}, (shown.luma_stride, shown.chroma_stride, shown.width, shown.height)


def by_the_library(key):
    loaded = library.load(str(LIBRARY))
    engine = library.Engine(loaded, [CLIP.read_bytes()], 4, b"", False)
    try:
        wanted = bytes(engine.picture(0)[2])
        for strides in ((4097, 4097), (5000, 300), (300, 70_000), (65_537, 4096)):
            expect(f"strides {strides}", frame_of(engine, strides), (0, wanted, True, (*strides, *engine.size)))
    finally:
        engine.close()
    engine = library.Engine(loaded, [ivf(16, 16, [key])], 4, b"", False)
    try:
        for size in (MIB, 3 * MIB):
            packet = key + bytes(number % 239 for number in range(size))
            replies = [
                engine.answer(line.encode())[0] for line in (f"insert 1 7 {packet.hex()}", "packet 1", "delete 1")
            ]
            told = ["ok 2", f"packet 7 {packet.hex()}", "ok 1"]
            expect(f"lines with {size} bytes", [reply.lower() for reply in replies] == told, True)
            expect(f"a comment of {size} bytes", engine.answer(b"#" + b"x" * size), ("", None))
    finally:
        engine.close()


def main():
    with tempfile.TemporaryDirectory() as folder:
        os.chdir(folder)
        key, inter = forged()
        macroblocks()
        checked(key, inter)
        asked_again()
        hidden(key)
        lines_of_16_mib(key)
        exported(key, inter)
        exported_once(key, inter)
        os.chdir(TOP)
        if LIBRARY.is_file():
            by_the_library(key)
        else:
            print(f"skipped: {LIBRARY.name} is not built")
    print(*wrong, sep="\n", end="\n" if wrong else "")
    return 1 if wrong else 0


if __name__ == "__main__":
    sys.exit(main())
