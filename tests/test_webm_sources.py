#!/usr/bin/env python3
"""Tests that vp8serve and vp8list read WebM files: test_webm_sources.py [LISTS [SEED]]

The same packets are written here as IVF with a time base of 1 ms, and as WebM by a few lines that know nothing of the
reader. Random lists of requests over both have the same replies and the same frames, but for the frame rate in the
first line of the frames, which is that of the track, or of the median step. The two kinds are mixed by `--sources`.
Each kind of refusal has its word, its status and, with `--explain`, its sentence. What is saved is IVF with the file's
time base. vp8list writes the same for both files in every mode, but for `byte`, at which the packet's bytes are in the
file, also as mkvinfo says it. A damaged file has its findings, and a file that is refused its word and sentence. It
prints what differs and ends with 1, or prints nothing and ends with 0.
"""

import json
import os
import pathlib
import random
import re
import subprocess
import sys
import tempfile

TOP = pathlib.Path(__file__).resolve().parent.parent
sys.dont_write_bytecode = True
sys.path.insert(0, str(TOP / "compare"))
from library.ivf import HEAD, RECORD, packets_of, records  # noqa: E402
from library.programs import real_streams  # noqa: E402
from library.webm import CLUSTER, SEGMENT, TIME, block, element, number, webm  # noqa: E402

SERVE, LIST = (pathlib.Path(os.environ[name]).resolve() for name in ("VP8SERVE", "VP8LIST"))
LISTS, SEED = 40, 1
LIMIT = 60


def ivf(packets, stamps):
    head = HEAD.pack(b"DKIF", 0, 32, b"VP80", 176, 144, 1000, 1, len(packets), 0)
    return head + b"".join(RECORD.pack(len(packet), stamp) + packet for stamp, packet in zip(stamps, packets))


def run(folder, source, lines, *words):
    """The status, the replies, the first line of the frames, the other bytes, and standard error."""
    (folder / "requests").write_text(lines)
    out = folder / "out.y4m"
    out.unlink(missing_ok=True)
    done = subprocess.run(
        [SERVE, source, folder / "requests", out, *words], stdout=subprocess.PIPE, stderr=subprocess.PIPE, timeout=LIMIT
    )
    first, _, frames = (out.read_bytes() if out.exists() else b"").partition(b"\n")
    return done.returncode, done.stdout, first, frames, done.stderr.decode()


def random_lines(dice, packets):
    """Requests of every kind for a stream of these packets, and frames."""
    lines, count = [], len(packets)
    for _ in range(dice.randint(5, 25)):
        at, to, data = dice.randint(0, count), dice.randint(0, count), dice.choice(packets).hex()
        edits = [
            f"delete {at}",
            f"hide {at}",
            f"show {at}",
            f"move {at} {to}",
            f"copy 0 {at} {to}",
            f"hold {at}",
            f"blank {at} 176 144",
            f"insert {at} {to} {data}",
            f"replace {at} {data}",
            "use 0",
            "use 1",
        ]
        scripts = [
            f"script trim 0 {at} 9",
            f"script parts 0 {at} 2 0 {to} 3",
            f"script source 0; splice 0 1; trim 2 {at} 9",
            f"script fade 0 {at} 4 0 256",
            f"script crop 0 16 16 64 48; trim 1 {at} 5",
            "script -",
            "script",
        ]
        asked = [
            f"list {at} 5",
            f"check {at} 4",
            f"header {at}",
            f"macroblocks {at}",
            f"packet {at}",
            "count",
            "stats",
            f"origins {at} 3",
            "shown",
        ]
        lines.append(dice.choice([f"frame {at}", *dice.choice([edits, scripts, asked])]))
    return "\n".join(lines) + "\n"


def same_answers(folder, dice, packets):
    """Replies and frames of one random list over both files, and of the files as second sources."""
    packets = packets[: dice.randint(1, 40)]
    step = dice.choice([20, 33, 40])
    stamps = [step * at + dice.randint(0, 2) * (step > 20) for at in range(len(packets))]
    duration = dice.choice([None, 40_000_000, 33_366_667])
    (folder / "a.ivf").write_bytes(ivf(packets, stamps))
    (folder / "a.webm").write_bytes(webm(packets, stamps, duration=duration))
    lines = random_lines(dice, packets)
    one, other = (run(folder, folder / name, lines) for name in ("a.ivf", "a.webm"))
    for part, of_ivf, of_webm in zip(
        ("status", "replies", "frames"), (one[0], one[1], one[3]), (other[0], other[1], other[3])
    ):
        if of_ivf != of_webm:
            yield f"{part} of IVF and WebM differ for {lines!r}"
    if re.sub(rb" F\d+:\d+", b"", one[2]) != re.sub(rb" F\d+:\d+", b"", other[2]):
        yield f"first lines {one[2]} and {other[2]}"
    lines = "script source 1; splice 1 0\n" + "".join(f"frame {at}\n" for at in range(len(packets)))
    mixed = [
        run(folder, folder / a, lines, "--sources", folder / b)
        for a, b in (("a.ivf", "a.ivf"), ("a.ivf", "a.webm"), ("a.webm", "a.ivf"))
    ]
    if len({(status, replies, frames) for status, replies, _, frames, _ in mixed}) != 1:
        yield "a session over both kinds of files differs from one over IVF"


def frame_rates(folder, packets):
    """The rate of the frames: by the track's duration, else by the median step, else by the time base."""
    few = packets[:4]
    for duration, stamps, scale, rate in (
        (40_000_000, [0, 7, 14, 21], 1_000_000, "F25:1"),
        (33_366_667, [0, 7, 14, 21], 1_000_000, "F1000000000:33366667"),
        (None, [0, 40, 80, 120], 1_000_000, "F25:1"),
        (0, [0, 40, 80, 200], 1_000_000, "F25:1"),
        (None, [5, 5, 5, 5], 1_000_000, "F1000:1"),
        (None, [0, 3, 6, 9], 333_667, "F1000000000:1001001"),
    ):
        (folder / "rate.webm").write_bytes(webm(few, stamps, duration=duration, scale=scale))
        status, _, first, _, error = run(folder, folder / "rate.webm", "frame 0\n")
        if status or rate not in first.decode().split():
            yield f"duration {duration}, stamps {stamps}, scale {scale}: {first} {error}, not {rate}"


def strings(folder, packets):
    """Strings that a byte of 0 ends, as GStreamer writes them, have the value before it."""
    few, stamps = packets[:3], [0, 40, 80]
    (folder / "plain.webm").write_bytes(webm(few, stamps))
    (folder / "ended.webm").write_bytes(webm(few, stamps, kind=b"webm\0", codec=b"V_VP8\0\0"))
    lines = "frame 0\nframe 2\n"
    one, other = (run(folder, folder / name, lines) for name in ("plain.webm", "ended.webm"))
    if one != other:
        yield f"strings that a 0 ends: {other[0]} {other[1]} {other[4]!r}, not {one[0]} {one[1]}"


def saves(folder, packets):
    """A save is IVF: packets, time stamps and the file's time base."""
    stamps = [40 * at for at in range(len(packets))]
    (folder / "save.webm").write_bytes(webm(packets, stamps, duration=40_000_000))
    status, _, _, _, error = run(folder, folder / "save.webm", "delete 1\n", "--save", folder / "saved.ivf")
    saved = (folder / "saved.ivf").read_bytes()
    if (
        status
        or list(records(saved)) != [pair for at, pair in enumerate(zip(stamps, packets)) if at != 1]
        or HEAD.unpack_from(saved)[6:8] != (1000, 1)
    ):
        yield f"a saved WebM source: status {status} {error} {HEAD.unpack_from(saved)}"


def refusals(folder, packets):
    """The word of each refusal, and the sentence that explains it."""
    few, stamps = packets[:3], [0, 40, 80]
    whole = webm(few, stamps)
    for text, word, sentence in (
        (whole[:9], "Header", "begins as a WebM file, but its EBML header is cut off or damaged"),
        (webm(few, stamps, kind=b"else"), "DocType", "is an EBML file, but neither WebM nor Matroska"),
        (webm(few, stamps, tracks=False), "NoTracks", "has no list of tracks"),
        (webm(few, stamps, codec=b"V_VP9"), "NoVideo", "has no VP8 video: the codec of its video is V_VP9"),
        (webm(few, stamps, encoded=True), "Encoded", "are compressed or encrypted once more"),
        (webm(few, stamps, scale=0), "Scale", "has a unit of time of 0"),
    ):
        path = folder / "refused.webm"
        path.write_bytes(text)
        status, replies, _, _, error = run(folder, path, "count\n", "--explain")
        if (
            status != 1
            or replies
            or not error.startswith(f"vp8serve: input {word}\n")
            or sentence not in error
            or str(path) not in error
        ):
            yield f"{word}: status {status}, {error!r}"
        status, _, _, _, error = run(folder, folder / "good.webm", "count\n", "--sources", path)
        if status != 1 or not error.startswith(f"vp8serve: source 1 {word}\n"):
            yield f"{word} of source 1: status {status}, {error!r}"
        for words in ([], ["--json"], ["--hash"], ["--check"], ["--header", "0"]):
            status, said, error = listed(path, *words)
            if (
                status != 2
                or said
                or not error.startswith(f"vp8list: input {word}\n")
                or sentence not in error
                or str(path) not in error
            ):
                yield f"vp8list {words} of {word}: status {status}, {said!r} {error!r}"


def cut_files(folder, packets):
    """A file that ends in the middle has the blocks that are whole, and the skipped bytes are reported."""
    few = packets[:5]
    text = webm(few, [40 * at for at in range(5)])
    (folder / "cut.webm").write_bytes(text[:-1])
    status, replies, _, _, error = run(folder, folder / "cut.webm", "count\n")
    left = len(block(3, 0, few[-1])) - 1
    if (status, replies) != (0, b"packets 4 frames 4\n") or f"spare {left}\n" not in error:
        yield f"a file without its last byte: status {status}, {replies} {error!r}, not spare {left}"


def listed(path, *words):
    """The status of vp8list, its text and standard error."""
    done = subprocess.run([LIST, path, *words], stdout=subprocess.PIPE, stderr=subprocess.PIPE, timeout=LIMIT)
    return done.returncode, done.stdout.decode(), done.stderr.decode()


def same_lists(folder, dice, packets):
    """Each mode writes the same for both kinds, but for `byte`, which is where the packet's bytes are."""
    first = dice.randint(0, len(packets) - 1)
    packets = packets[first : first + dice.randint(1, 30)]
    stamps = [33 * at + dice.randint(0, 2) for at in range(len(packets))]
    text = webm(packets, stamps)
    (folder / "a.ivf").write_bytes(ivf(packets, stamps))
    (folder / "a.webm").write_bytes(text)
    details = [
        [option, which, *form]
        for option in ("--header", "--macroblocks")
        for which in ("0", "all", f"0-{len(packets) - 1}", f"{len(packets)}")
        for form in ([], ["--json"])
    ]
    checks = [["--check", *form, *strict] for form in ([], ["--json"]) for strict in ([], ["--strict"])]
    for words in (*details, ["--hash"], *checks):
        one, other = (listed(folder / name, *words) for name in ("a.ivf", "a.webm"))
        if one != other:
            yield f"vp8list {words} of IVF and WebM differ: {one[0]} {one[2]!r}, {other[0]} {other[2]!r}"
    one, other = (
        [json.loads(line) for line in listed(folder / name, "--json")[1].splitlines()] for name in ("a.ivf", "a.webm")
    )
    lines = [line.split("\t") for line in listed(folder / "a.webm")[1].splitlines()]
    places = [int(line[lines[0].index("byte")]) for line in lines[1:]]
    if places != [facts["byte"] for facts in other] or [{**facts, "byte": 0} for facts in one] != [
        {**facts, "byte": 0} for facts in other
    ]:
        yield "the lists of IVF and WebM differ in more than the bytes"
    if [text[at : at + len(packet)] for at, packet in zip(places, packets)] != packets or len(places) != len(packets):
        yield f"the packets are not at the bytes that vp8list names: {places}"


def places_of_others(folder, path):
    """`byte` in files of ffmpeg and mkvmerge, with sound: the packets are those of ffprobe, and their bytes where
    mkvinfo finds them.
    """
    sound = ["-f", "lavfi", "-i", "sine=duration=1", "-c:v", "copy", "-c:a", "libopus", "-shortest"]
    made = folder / "made.webm"
    subprocess.run(["ffmpeg", "-nostdin", "-v", "error", "-y", "-i", path, *sound, made], check=True, timeout=LIMIT)
    subprocess.run(["mkvmerge", "-q", "-o", folder / "made.mkv", made], check=True, timeout=LIMIT)
    for file in (made, folder / "made.mkv"):
        status, text, error = listed(file, "--json")
        facts = [json.loads(line) for line in text.splitlines()]
        probe = [
            "ffprobe",
            "-v",
            "error",
            "-select_streams",
            "v",
            "-show_entries",
            "packet=pts,size",
            "-of",
            "csv=p=0",
            file,
        ]
        known = [
            tuple(int(word) for word in line.split(",")[:2])
            for line in subprocess.run(probe, check=True, stdout=subprocess.PIPE, timeout=LIMIT).stdout.decode().split()
        ]
        if status or [(each["stamp"], each["bytes"]) for each in facts] != known:
            yield f"{file.name}: status {status} {error!r}, or other packets than ffprobe's"
        info = subprocess.run(
            ["mkvinfo", "-v", "-v", "-o", file], check=True, stdout=subprocess.PIPE, timeout=LIMIT
        ).stdout.decode()
        frames = [
            (track, int(size), int(at))
            for track, size, at in re.findall(r"track number (\d+),.*\n.*Frame with size (\d+) at (\d+)", info)
        ]
        own = [(each["bytes"], each["byte"]) for each in facts]
        if own not in [
            [(size, at) for number, size, at in frames if number == track]
            for track in {number for number, _, _ in frames}
        ]:
            yield f"{file.name}: other bytes than mkvinfo's"


def longer(text, place, more):
    """A file with a greater length of the element at a place, whose name has four bytes and whose length has eight."""
    at = place + 4
    return text[:at] + (int.from_bytes(text[at : at + 8], "big") + more).to_bytes(8, "big") + text[at + 8 :]


def wrong_length(name, begins, says, ends):
    """The line and the object of a length that is wrong."""
    what = "an element in it" if says < ends else "it"
    line = (
        f"damage: {name} at byte {begins}: its length says that it ends at byte {says}, and {what} ends at byte {ends}"
    )
    return line, {
        "kind": "wrong_length",
        "byte": begins,
        "element": name,
        "says": says,
        "ends": ends,
        "severity": "damage",
    }


def skipped(begins, count):
    """The line and the object of bytes that are skipped."""
    return f"damage: byte {begins}: {count} bytes are no element, and are skipped", {
        "kind": "skipped",
        "byte": begins,
        "bytes": count,
        "severity": "damage",
    }


def findings(folder, packets):
    """What is wrong with a file besides its packets: bytes that are no element, an end that is cut, a cluster without a
    time, lengths that are wrong, laced blocks, tracks that are not listed."""
    few = packets[:5]
    text = webm(few, [40 * at for at in range(5)])
    before, last = block(3, 120, few[3]), block(3, 160, few[4])
    begins, head = text.index(last), 13
    opened, segment = text.index(number(CLUSTER)), text.index(number(SEGMENT))
    timed = opened + 12
    first = timed + len(element(TIME, b"\0"))
    following = first + len(block(3, 0, few[0]))
    two = webm(packets[:11], [40 * at for at in range(11)])
    second = two.rindex(number(CLUSTER))
    status, said, _ = listed(folder / "good.webm", "--check")
    if status or "damage: 0" not in said:
        yield f"a good file: status {status}, {said!r}"
    for changed, line, found in (
        (
            text[:timed] + text[first:following] + text[timed:first] + text[following:],
            f"damage: cluster at byte {opened}: it has no time, so its blocks have that of the cluster before",
            {"kind": "cluster_without_time", "byte": opened, "severity": "damage"},
        ),
        (longer(text, opened, -1), *wrong_length("cluster", opened, len(text) - 1, len(text))),
        (longer(text, segment, 1), *wrong_length("segment", segment, len(text) + 1, len(text))),
        (longer(two, opened, 3), *wrong_length("cluster", opened, second + 3, second)),
        (text[:begins], *wrong_length("cluster", opened, len(text), begins)),
        (text[:begins], *wrong_length("segment", segment, len(text), begins)),
        (
            text[:-1],
            f"damage: element at byte {begins}: the file ends within it, {len(last) - 1} bytes are there",
            {"kind": "cut_element", "byte": begins, "left": len(last) - 1, "severity": "damage"},
        ),
        # A block that no element follows is not trusted.
        (text + bytes(9), *skipped(begins, len(last) + 9)),
        (text[:begins] + bytes(7) + text[begins:], *skipped(begins - len(before), len(before) + 7)),
        (
            text[: begins + head - 1] + b"\2" + text[begins + head :],
            f"damage: block at byte {begins}: laced packets of the video, which are left out",
            {"kind": "laced_block", "byte": begins, "severity": "damage"},
        ),
        (
            text[: begins + head - 4] + b"\x87" + text[begins + head - 3 :],
            f"note: block at byte {begins}: track 7, which the file does not list",
            {"kind": "unlisted_block", "byte": begins, "track": 7, "severity": "note"},
        ),
    ):
        path = folder / "wrong.webm"
        path.write_bytes(changed)
        status, said, error = listed(path, "--check")
        if status != int(line.startswith("damage")) or error or line not in said.splitlines():
            yield f"not {line!r}: status {status}, {said!r} {error!r}"
        status, said, error = listed(path, "--check", "--json", "--strict")
        if (
            status != 1
            or error
            or {"packet": None, "frame": None, **found} not in [json.loads(each) for each in said.splitlines()]
        ):
            yield f"not {found}: status {status}, {said!r} {error!r}"


def main():
    lists, seed = (int(word) for word in [*sys.argv[1:], *(LISTS, SEED)[len(sys.argv) - 1 :]])
    dice = random.Random(seed)
    streams = [list(packets_of(path.read_bytes())) for path in real_streams()]
    found = []
    with tempfile.TemporaryDirectory() as room:
        folder = pathlib.Path(room)
        plain = max(streams, key=len)
        (folder / "good.webm").write_bytes(webm(plain[:3], [0, 40, 80]))
        for part in (frame_rates, strings, saves, refusals, cut_files, findings):
            found += part(folder, plain)
        found += places_of_others(folder, max(real_streams(), key=lambda path: path.stat().st_size))
        for _ in range(lists):
            found += same_answers(folder, dice, dice.choice(streams))
            found += same_lists(folder, dice, dice.choice(streams))
    for line in found:
        print(line)
    sys.exit(bool(found))


if __name__ == "__main__":
    main()
