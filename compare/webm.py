#!/usr/bin/env python3
"""Compares what crates/webm_files reads of WebM and Matroska files with a plain model, and with mkvinfo and ffprobe.

    compare/webm.py [--files N] [--seed S]

Files of ffmpeg, mkvmerge, vpxenc, GStreamer and chromium's MediaRecorder are made anew (the last two if they are here).
Of each whole one, the track, time and position of every block must be those of `mkvinfo -v -v`, and, without lacing,
the track and size of every packet those of ffprobe. Each cut of the shortest one, and N damaged copies in all (bits,
bytes, names, lengths, sectors of zeros, pieces removed, doubled or exchanged), must be read as the model reads them,
errors included. `rt run < /dev/null` in crates/gate_webm builds the program.
"""

import argparse
import base64
import os
import pathlib
import random
import re
import shutil
import subprocess
import sys
import tempfile

import browser
import results
from library import matroska
from library.programs import TOP, run

PROGRAM = pathlib.Path(os.environ.get("GATE_WEBM") or TOP / "crates/gate_webm/out/gate_webm")
BATCH = 250
# A recording of a canvas, which has a hole after the first picture and changes its size, with a tone if it is asked
# for.
RECORDING = """const [sound] = args; let done; const over = new Promise((found) => { done = found; });
    const canvas = document.createElement("canvas"); canvas.width = 64; canvas.height = 48;
    const pen = canvas.getContext("2d"), tracks = [...canvas.captureStream(25).getTracks()];
    const draw = setInterval(() => {
        pen.clearRect(0, 0, canvas.width, canvas.height);
        pen.fillStyle = `hsl(${performance.now() % 360} 90% 50%)`; pen.fillRect(performance.now() / 20 % 40, 8, 20, 20);
    }, 20);
    if (sound) {
        const context = new AudioContext(), tone = context.createOscillator();
        const end = context.createMediaStreamDestination();
        tone.connect(end); tone.start(); tracks.push(...end.stream.getTracks());
    }
    const mimeType = sound ? "video/webm;codecs=vp8,opus" : "video/webm;codecs=vp8";
    const pieces = [], recorder = new MediaRecorder(new MediaStream(tracks), {mimeType});
    recorder.ondataavailable = (event) => pieces.push(event.data);
    recorder.onstop = async () => {
        clearInterval(draw);
        const reader = new FileReader();
        reader.onload = () => done(reader.result.split(",")[1]);
        reader.readAsDataURL(new Blob(pieces));
    };
    recorder.start(200);
    setTimeout(() => { canvas.width = 80; canvas.height = 64; }, 900);
    setTimeout(() => recorder.stop(), 1800);
    return await over"""
SIMPLE = re.compile(
    r"\+ (?:Simple block|Block): .*?track number (\d+), (\d+) frame\(s\), timestamp (\d+):(\d+):(\d+)\.(\d+)(?:.*?) at"
    r" (\d+)"
)


def encode(*words):
    run(["ffmpeg", "-v", "error", "-y", *words])


def make(folder):
    """The files: paths, the first of which is short."""
    picture = ["-f", "lavfi", "-i", "testsrc=size=64x48:rate=25:duration=2"]
    sound = ["-f", "lavfi", "-i", "sine=duration=2"]
    video = ["-c:v", "libvpx", "-b:v", "60k", "-g", "10"]
    encode(
        "-f",
        "lavfi",
        "-i",
        "testsrc=size=16x16:rate=25:duration=0.4",
        "-c:v",
        "libvpx",
        "-b:v",
        "10k",
        folder / "short.webm",
    )
    encode(*picture, *sound, *video, "-c:a", "libopus", "-b:a", "12k", folder / "plain.webm")
    encode(*picture, *sound, *video, "-c:a", "libvorbis", folder / "vorbis.webm")
    encode(
        "-f",
        "lavfi",
        "-i",
        "color=red@0.5:size=32x32:rate=25:duration=1,format=yuva420p",
        "-c:v",
        "libvpx",
        "-auto-alt-ref",
        "0",
        folder / "alpha.webm",
    )
    encode(*picture, "-c:v", "libvpx-vp9", "-b:v", "60k", folder / "vp9.webm")
    plain = folder / "plain.webm"
    encode("-i", plain, "-c", "copy", folder / "plain.mkv")
    encode("-i", plain, "-c", "copy", "-live", "1", folder / "live.webm")
    encode("-i", plain, "-c", "copy", "-cues_to_front", "1", folder / "cues.webm")
    encode("-i", plain, "-c", "copy", "-cluster_time_limit", "100", folder / "clusters.webm")
    encode("-i", plain, "-c", "copy", "-map_metadata", "-1", "-output_ts_offset", "70000", folder / "late.webm")
    (folder / "pipe.webm").write_bytes(run(["ffmpeg", "-v", "error", "-i", plain, "-c", "copy", "-f", "webm", "-"]))
    run(["mkvmerge", "-q", "-o", folder / "laced.mkv", plain])
    run(["mkvmerge", "-q", "-w", "-o", folder / "merged.webm", plain])
    run(["mkvmerge", "-q", "-o", folder / "zlib.mkv", "--compression", "1:zlib", plain])
    run(["mkvmerge", "-q", "-o", folder / "encoded.mkv", "--compression", "0:zlib", plain])
    encode("-i", plain, "-f", "rawvideo", "-pix_fmt", "yuv420p", folder / "raw")
    run(
        [
            "vpxenc",
            "--codec=vp8",
            "--webm",
            "--i420",
            "-w",
            "64",
            "-h",
            "48",
            "--fps=30000/1001",
            "-o",
            folder / "vpxenc.webm",
            folder / "raw",
        ]
    )
    (folder / "chained.webm").write_bytes(plain.read_bytes() + (folder / "short.webm").read_bytes())
    (folder / "raw").unlink()
    names = sorted(path.name for path in folder.iterdir() if path.name != "short.webm")
    return [folder / name for name in ["short.webm", *names]]


def by_gstreamer(folder):
    """Files of GStreamer's muxers: a whole one, one for a pipe, and one with sound."""
    if shutil.which("gst-launch-1.0") is None:
        print("skipped: GStreamer: gstreamer1.0-tools, gstreamer1.0-plugins-good", flush=True)
        return []
    picture = (
        "videotestsrc num-buffers=50 ! video/x-raw,width=64,height=48,framerate=25/1 ! vp8enc deadline=1"
        " keyframe-max-dist=10"
    )
    kinds = {
        "gstreamer.webm": f"{picture} ! webmmux ! filesink location=",
        "gstreamer-live.webm": f"{picture} ! webmmux streamable=true ! filesink location=",
        "gstreamer.mkv": (
            f"matroskamux name=m audiotestsrc num-buffers=80 ! opusenc ! m. {picture} ! m. m. ! filesink location="
        ),
    }
    for name, elements in kinds.items():
        run(["gst-launch-1.0", "-q", *f"{elements}{folder / name}".split()])
    return [folder / name for name in kinds]


def by_chromium(folder):
    """Recordings of chromium's MediaRecorder, with alpha and two sizes, with sound and without."""
    if shutil.which("chromium") is None or shutil.which("chromedriver") is None:
        print("skipped: MediaRecorder: chromium, chromium-driver", flush=True)
        return []
    paths = [folder / "recorded.webm", folder / "recorded-sound.webm"]
    (folder / "page.html").write_text("<!doctype html><meta charset=utf-8><title>a recording</title>")
    with browser.Browser(more=["--autoplay-policy=no-user-gesture-required"]) as window:
        window.open((folder / "page.html").as_uri())
        for sound, path in enumerate(paths):
            path.write_bytes(base64.b64decode(window.run(RECORDING, sound)))
    (folder / "page.html").unlink()
    return paths


def read_by_program(folder, texts):
    """The lines of each file, by the program."""
    paths = []
    for at, text in enumerate(texts):
        paths.append(folder / f"damaged{at}")
        paths[-1].write_bytes(text)
    answer = subprocess.run(
        [PROGRAM], input="".join(f"{path}\n" for path in paths), text=True, stdout=subprocess.PIPE, check=True
    ).stdout.splitlines()
    found, names = [], {str(path) for path in paths}
    for line in answer:
        if line in names:
            found.append([])
        else:
            found[-1].append(line)
    return found


def differences(folder, texts):
    """How many files the program reads otherwise than the model; it names the first line of each."""
    wrong = 0
    for at, (text, found) in enumerate(zip(texts, read_by_program(folder, texts), strict=True)):
        wanted = matroska.lines_of(text)
        if found != wanted:
            wrong += 1
            first = next((pair for pair in zip(wanted, found) if pair[0] != pair[1]), (len(wanted), len(found)))
            print(f"file {at} of this batch: the model reads {first[0]}, the program {first[1]}", flush=True)
            pathlib.Path(f"/tmp/webm_differs_{at}").write_bytes(text)
    return wrong


def by_mkvinfo(path):
    """Track, nanoseconds, position of each block, by mkvinfo."""
    found = []
    for line in run(["mkvinfo", "-v", "-v", path], env={**os.environ, "LC_ALL": "C.UTF-8"}).decode().splitlines():
        if match := SIMPLE.search(line):
            track, _, hours, minutes, seconds, rest, place = match.groups()
            found.append(
                (int(track), ((int(hours) * 60 + int(minutes)) * 60 + int(seconds)) * 10**9 + int(rest), int(place))
            )
    return found


def check_whole(path, lines):
    """Compares what was read of a whole file with mkvinfo and ffprobe; returns how many blocks were compared, and the
    differences.
    """
    blocks = [tuple(map(int, line.split()[1:])) for line in lines if line.startswith("block ")]
    scale = next(10**9 * int(line.split()[4]) // int(line.split()[3]) for line in lines if line.startswith("head "))
    ours, theirs, wrong = [(block[0], block[1] * scale, block[3]) for block in blocks], by_mkvinfo(path), []
    if path.name != "chained.webm" and ours != theirs:
        wrong.append(
            f"{path.name}: {len(ours)} blocks, and {len(theirs)} by mkvinfo:"
            f" {next((pair for pair in zip(ours, theirs) if pair[0] != pair[1]), 'a number')}"
        )
    if not any(block[2] & 6 for block in blocks) and path.name not in ("chained.webm", "zlib.mkv"):
        probe = (
            run(["ffprobe", "-v", "error", "-show_entries", "packet=stream_index,size", "-of", "csv=p=0", path])
            .decode()
            .split()
        )
        probed = [tuple(map(int, line.strip(",").split(",")[:2])) for line in probe]
        numbers = [int(line.split()[1]) for line in lines if line.startswith("track ")]
        sizes = [(numbers.index(block[0]), block[5] - block[4]) for block in blocks]
        if sizes != probed:
            wrong.append(
                f"{path.name}: {len(sizes)} packets, and {len(probed)} by ffprobe:"
                f" {next((pair for pair in zip(sizes, probed) if pair[0] != pair[1]), 'a number')}"
            )
    for line in wrong:
        print(line, flush=True)
    return len(blocks), len(wrong)


def damaged(text, dice):
    """A copy with one to four places of damage, one in five cut."""
    text = bytearray(text)
    starts = [found[1] for found in matroska.walk(bytes(text))[0]]
    for _ in range(dice.randint(1, 4)):
        at, kind = dice.choice(starts), dice.randrange(10)
        at = min(at, len(text) - 1)
        if kind == 0:
            text[at] ^= 1 << dice.randrange(8)
        elif kind == 1:
            text[min(at + 1, len(text) - 1)] ^= 1 << dice.randrange(8)
        elif kind == 2:
            text[at : at + 300] = bytes(dice.randrange(256) for _ in text[at : at + dice.randint(1, 300)])
        elif kind == 3:
            text[min(at + dice.randrange(12), len(text) - 1)] = dice.randrange(256)
        elif kind == 4:
            start = at // 512 * 512
            text[start : start + 512] = bytes(len(text[start : start + 512]))
        elif kind == 5:
            del text[at : at + dice.randint(1, 2000)]
        elif kind == 6:
            piece = text[at : at + dice.randint(1, 600)]
            text[dice.randrange(len(text)) : 0] = piece
        elif kind == 7:
            text[dice.randrange(len(text))] = dice.choice([0x1F, 0xA0, 0xA1, 0xA3, 0xE7, 0, 0xFF, 0x01])
        elif kind == 8:
            place = dice.randrange(min(len(text), 700))
            text[place] = dice.randrange(256)
        else:
            names = [
                b"\x1f\x43\xb6\x75",
                b"\xa3\x85",
                b"\xe7\x88" + bytes(dice.randrange(256) for _ in range(8)),
                b"\xae\x80",
                b"\x16\x54\xae\x6b\x80",
            ]
            name = dice.choice(names)
            text[at : at + len(name)] = name
        if not text:
            break
    if text and dice.randrange(5) == 0:
        del text[dice.randrange(len(text) // 2, len(text)) :]
    return bytes(text)


def main():
    words = argparse.ArgumentParser(description=__doc__, formatter_class=argparse.RawDescriptionHelpFormatter)
    words.add_argument("--files", type=int, default=10_000)
    words.add_argument("--seed", type=int, default=1)
    words.add_argument("--quiet", action="store_true")
    options = words.parse_args()
    dice, wrong, blocks = random.Random(options.seed), 0, 0
    with tempfile.TemporaryDirectory(dir="/dev/shm" if os.path.isdir("/dev/shm") else None) as name:
        folder = pathlib.Path(name)
        files = [*make(folder), *by_gstreamer(folder), *by_chromium(folder)]
        texts = [path.read_bytes() for path in files]
        wrong += differences(folder, texts)
        for path, lines in zip(files, read_by_program(folder, texts), strict=True):
            if not lines[0].startswith("error"):
                count, bad = check_whole(path, lines)
                blocks, wrong = blocks + count, wrong + bad
            elif (path.name, lines[0]) not in (("vp9.webm", "error NoVideo"), ("encoded.mkv", "error Encoded")):
                print(f"{path.name}: {lines[0]}")
                wrong += 1
        cuts = [texts[0][:size] for size in range(len(texts[0]))]
        for at in range(0, len(cuts), BATCH):
            wrong += differences(folder, cuts[at : at + BATCH])
        for at in range(0, options.files, BATCH):
            wrong += differences(
                folder, [damaged(dice.choice(texts), dice) for _ in range(min(BATCH, options.files - at))]
            )
    told = {"files": len(files), "blocks": blocks, "cuts": len(cuts), "damaged copies": options.files}
    results.total("webm: no difference" if not wrong else f"webm: {wrong} differences", wrong, told, results.sources())
    return 1 if wrong else 0


if __name__ == "__main__":
    sys.exit(main())
