#!/usr/bin/env python3
"""Runs another decoder over the streams, and says where it leaves RFC 6386.

    run.py vpxdec | ffmpeg | gstreamer                one of these, if it is installed; gstreamer is its vp8dec
    run.py dwebp | go                                 libwebp, golang.org/x/image/vp8: key frames only
    run.py NAME COMMAND                               any other: {in} is the stream, {out} a file for I420 frames
    run.py NAME COMMAND --md5                         it prints an MD5 of all frames, or of each, on standard output
    run.py ... [--junit FILE] [--beyond] [STREAM ..]

A stream is `same`, or the first frame that differs is shown, with the macroblock and the sample, and what the
macroblock is made of. A stream in which the decoder shows fewer frames than the standard is compared as far as it goes.
--beyond takes the streams in which libvpx leaves the standard, too. The last lines name the points that only streams
that differ reach, and count streams, frames and points. The exit status is 1 if a stream differs, and 2 if the decoder
cannot be run or a stream is not there. COMMAND is split as a shell does: quote a path with spaces in it.
"""

import argparse
import concurrent.futures
import hashlib
import os
import pathlib
import re
import shlex
import shutil
import subprocess
import sys
import tempfile
import xml.etree.ElementTree as xml

import coverage
from vp8 import ivf
from vp8.decoder import Decoder, Refused
from vp8.parser import B, INTRA, SPLIT
from vp8.points import MODE_NAMES, SUB_NAMES, VECTOR_MODES

HERE = pathlib.Path(__file__).resolve().parent
STREAMS, EXPECTED = HERE / "streams", HERE / "expected"
KNOWN = {
    "vpxdec": ["vpxdec", "--codec=vp8", "--i420", "-o", "{out}", "{in}"],
    "ffmpeg": [
        "ffmpeg",
        "-nostdin",
        "-v",
        "error",
        "-y",
        "-i",
        "{in}",
        "-fps_mode",
        "passthrough",
        "-autoscale",
        "0",
        "-f",
        "rawvideo",
        "{out}",
    ],
    "gstreamer": [
        "gst-launch-1.0",
        "-q",
        "filesrc",
        "location={in}",
        "!",
        "ivfparse",
        "!",
        "vp8dec",
        "!",
        "filesink",
        "location={out}",
    ],
    "dwebp": [sys.executable, str(HERE / "adapters/dwebp.py"), "{in}", "{out}"],
    "go": ["{room}/key_packets", "{in}", "{out}"],
}
# Decoders of key frames alone: other packets are left out.
KEY_ONLY = ("dwebp", "go")
# GStreamer's rows begin at multiples of four, and it has an even number of rows of luma.
PADDED = ("gstreamer",)


def is_shown(packet):
    return len(packet) < 3 or bool(packet[0] & 16)


class Truth:
    """What the standard gives for a stream: each shown frame with its packet, its samples and its records."""

    def __init__(self, path, keys_only=False):
        self.frames = []
        decoder = Decoder()
        for number, packet in enumerate(ivf.read(path)):
            try:
                picture = decoder.decode(packet)
            except Refused:
                continue
            if is_shown(packet) and (not keys_only or decoder.frame and decoder.frame.header.is_key):
                self.frames.append((number, picture, decoder.frame))


def ran(command, path, room, prints):
    """The bytes that a decoder makes of a stream, or the MD5s that it prints, and its errors."""
    out = pathlib.Path(room, "out")
    words = [word.replace("{in}", str(path)).replace("{out}", str(out)) for word in command]
    done = subprocess.run(words, stdin=subprocess.DEVNULL, capture_output=True, timeout=120, check=False)
    errors = done.stderr.decode(errors="replace").strip().splitlines()
    if prints:
        return re.findall(r"\b[0-9a-f]{32}\b", done.stdout.decode(errors="replace")), errors
    return out.read_bytes() if out.is_file() else done.stdout, errors


def record_of(frame, place):
    """What a macroblock is made of, in words."""
    if frame is None:
        return "a repeat of the last frame"
    macroblock = frame.macroblocks[place]
    words = [f"version {frame.header.version}", "key frame" if frame.header.is_key else "inter frame"]
    if macroblock.reference == INTRA:
        modes = " ".join(SUB_NAMES[mode] for mode in macroblock.subs) if macroblock.y_mode == B else ""
        words += [f"luma {MODE_NAMES[macroblock.y_mode]} {modes}".strip(), f"chroma {MODE_NAMES[macroblock.uv_mode]}"]
    else:
        vectors = macroblock.vectors if macroblock.vector_mode == SPLIT else [macroblock.vector]
        words += [("", "last", "golden", "altref")[macroblock.reference], VECTOR_MODES[macroblock.vector_mode]]
        words.append("vectors " + " ".join(f"{down},{across}" for down, across in vectors))
    words.append("skipped" if macroblock.skip else "tokens" if macroblock.has_tokens else "no tokens")
    return ", ".join(words)


def first_sample(ours, theirs, picture):
    """The plane, column and row of the first sample that differs."""
    place = next(number for number, pair in enumerate(zip(ours, theirs)) if pair[0] != pair[1])
    for plane, (width, height) in enumerate(
        ((picture.width, picture.height), *[((picture.width + 1) // 2, (picture.height + 1) // 2)] * 2)
    ):
        if place < width * height:
            return plane, place % width, place // width
        place -= width * height
    raise ValueError("no sample")


def where_it_differs(truth, number, part):
    """The first sample of a frame that differs, with what its macroblock is made of."""
    packet, picture, frame = truth.frames[number]
    plane, x, y = first_sample(picture.shown(), part, picture)
    side = 8 if plane else 16
    columns = (picture.width + 15) // 16
    place = (
        f"frame {number}, packet {packet}, macroblock {x // side},{y // side}, {('Y', 'U', 'V')[plane]} sample {x},{y}"
    )
    return f"{place}: {record_of(frame, y // side * columns + x // side)}"


def without_padding(text, truth):
    """Frames of padded rows as I420."""
    frames, place = [], 0
    for _, picture, _ in truth.frames:
        width, height = (picture.width + 1) // 2, (picture.height + 1) // 2
        for shown, rows, all_rows in (
            (picture.width, picture.height, 2 * height),
            (width, height, height),
            (width, height, height),
        ):
            stride = (shown + 3) // 4 * 4
            plane = text[place : place + stride * all_rows]
            frames += [plane[row * stride :][:shown] for row in range(rows)]
            place += stride * all_rows
    return b"".join(frames) + text[place:]


def difference(path, command, asked):
    """None if a decoder gives the standard's frames, or a sentence, and how many frames are right before it."""
    truth, prints = Truth(path, asked.name in KEY_ONLY), asked.md5
    with tempfile.TemporaryDirectory() as room:
        try:
            theirs, errors = ran(command, path, room, prints)
        except subprocess.TimeoutExpired:
            return "it does not end", 0, len(truth.frames)
    if asked.name in PADDED:
        theirs = without_padding(theirs, truth)
    said = f" ({errors[-1][:120]})" if errors else ""
    if prints:
        samples = [picture.shown() for _, picture, _ in truth.frames]
        wanted = [hashlib.md5(text).hexdigest() for text in samples]
        if theirs in (wanted, [hashlib.md5(b"".join(samples)).hexdigest()]):
            return None, len(samples), len(samples)
        same = next(
            (number for number, pair in enumerate(zip(wanted, theirs)) if pair[0] != pair[1]),
            min(len(wanted), len(theirs)),
        )
        return f"frame {same} differs{said}", same if len(theirs) > 1 else 0, len(samples)
    place = 0
    for number, (_, picture, _) in enumerate(truth.frames):
        ours = picture.shown()
        part = theirs[place : place + len(ours)]
        if len(part) < len(ours):
            return f"it shows {number} of {len(truth.frames)} frames{said}", number, len(truth.frames)
        if part != ours:
            return f"{where_it_differs(truth, number, part)}{said}", number, len(truth.frames)
        place += len(ours)
    if place != len(theirs):
        return f"it shows more than the {len(truth.frames)} frames{said}", len(truth.frames), len(truth.frames)
    return None, len(truth.frames), len(truth.frames)


def points_of(differing, run):
    """The points that only streams that differ reach, of those that were run: first those that most of them reach."""
    reaching = {}
    for stream, points in coverage.reached_by_all().items():
        for point in points if stream in run else ():
            reaching.setdefault(point, set()).add(stream)
    found = [
        (len(streams), f"{group}: {name}")
        for (group, name), streams in sorted(reaching.items())
        if streams <= differing
    ]
    return [name for _, name in sorted(found, key=lambda pair: -pair[0])]


def reached(names):
    """How many points streams of these names reach, and how many all do."""
    by_stream = coverage.reached_by_all()
    some = set().union(*(points for stream, points in by_stream.items() if stream in names)) if names else set()
    return len(some), len(set().union(*by_stream.values()))


def write_junit(path, name, results):
    suite = xml.Element(
        "testsuite",
        name=f"vp8 conformance, {name}",
        tests=str(len(results)),
        failures=str(sum(bool(text) for _, text, _, _ in results)),
    )
    for stream, text, _, _ in results:
        case = xml.SubElement(suite, "testcase", classname=name, name=stream)
        if text:
            xml.SubElement(case, "failure", message=text)
    xml.ElementTree(suite).write(path, encoding="utf-8", xml_declaration=True)


def fail(text):
    """Ends with a sentence, and the status of what cannot be run."""
    print(f"run.py: {text}", file=sys.stderr)
    sys.exit(2)


def need(word):
    if shutil.which(word) is None:
        fail(
            f"{word} is not there: install it, or give its path"
            if os.sep not in word
            else f"there is no program {word}; a path with spaces is quoted"
        )


def command_of(asked, room):
    """The words that run the decoder; the adapter in Go is built first."""
    if asked.name not in KNOWN:
        return shlex.split(asked.command) if asked.command else None
    if asked.name == "go":
        # Debian's golang-golang-x-image-dev puts its sources there.
        settings = {
            "GO111MODULE": "off",
            "GOPATH": os.environ.get("GOPATH", "/usr/share/gocode"),
            "GOCACHE": f"{room}/cache",
            "GOFLAGS": "",
        }
        need("go")
        built = ["go", "build", "-o", f"{room}/key_packets", str(HERE / "adapters/key_packets.go")]
        if subprocess.run(built, env={**os.environ, **settings}, check=False).returncode != 0:
            fail("the adapter in Go was not built: Debian's golang-golang-x-image-dev is needed")
    return [word.replace("{room}", room) for word in KNOWN[asked.name]]


def asked_streams(asked):
    wanted = set(asked.streams) | ({asked.command} if asked.name in KNOWN and asked.command else set())
    paths = [
        path
        for path in sorted(STREAMS.rglob("*.ivf"))
        if (asked.beyond or path.parent == STREAMS) and (not wanted or path.stem in wanted)
    ]
    missing = wanted - {path.stem for path in paths}
    if missing or not paths:
        fail(f"no stream {', '.join(sorted(missing))}; streams/ has their names")
    return paths


def summary(name, results):
    """The points that only streams that differ reach, and how much is the same."""
    good = {stream for stream, text, _, _ in results if text is None}
    bad = {row[0] for row in results} - good
    frames = (
        f"{sum(row[2] for row in results)} of"
        f" {sum(row[3] for row in results)} {'key ' if name in KEY_ONLY else ''}frames"
    )
    total = f"{name}: {len(good)} of {len(results)} streams, {frames}"
    if name in KEY_ONLY:
        return total
    suspects, points = points_of(bad, good | bad), reached(good)
    more = f"; and {len(suspects) - 12} more points" if len(suspects) > 12 else ""
    first = f"only streams that differ reach: {'; '.join(suspects[:12])}{more}\n" if suspects else ""
    return f"{first}{total}; streams that are the same reach {points[0]} of {points[1]} points"


def main():
    parser = argparse.ArgumentParser(description=__doc__, formatter_class=argparse.RawDescriptionHelpFormatter)
    parser.add_argument("name")
    parser.add_argument("command", nargs="?")
    parser.add_argument("streams", nargs="*")
    parser.add_argument("--md5", action="store_true")
    parser.add_argument("--beyond", action="store_true")
    parser.add_argument("--junit")
    asked = parser.parse_args()
    paths, results = asked_streams(asked), []
    with tempfile.TemporaryDirectory() as room, concurrent.futures.ThreadPoolExecutor(4) as pool:
        command = command_of(asked, room)
        if command is None:
            parser.error(f"{asked.name} is not known: give its command")
        need(command[0])
        found = pool.map(lambda path: difference(path, command, asked), paths)
        for path, (text, same, frames) in zip(paths, found):
            results.append((path.stem, text, same, frames))
            print(f"{path.stem}: {'same' if text is None else text}", flush=True)
    print(summary(asked.name, results))
    if asked.junit:
        write_junit(asked.junit, asked.name, results)
    return 1 if any(text for _, text, _, _ in results) else 0


if __name__ == "__main__":
    sys.exit(main())
