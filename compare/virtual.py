#!/usr/bin/env python3
"""Players open the file of `wokureti serve`, seek to ten places, and their frames are compared with those of vp8serve;
again after an edit.

    compare/virtual.py [CLIP [SEED]]

ffmpeg must be there (Debian's package); ffplay and mpv are used if they are. README.md says more.
"""

import json
import os
import pathlib
import random
import re
import shutil
import subprocess
import sys
import tempfile
import urllib.request
import zlib

TOP = pathlib.Path(__file__).resolve().parent.parent
sys.path.insert(0, str(TOP / "clients/python"))

import results  # noqa: E402
from wokureti import Session  # noqa: E402
from wokureti.base import programs  # noqa: E402
from wokureti.media.y4m import sides  # noqa: E402

RATE = 25
QUIET = {"stdin": subprocess.DEVNULL, "timeout": 120, "check": True}


def make_clip(path):
    words = [
        "ffmpeg",
        "-nostdin",
        "-v",
        "error",
        "-y",
        "-f",
        "lavfi",
        "-i",
        f"testsrc2=size=640x360:rate={RATE}",
        "-frames:v",
        "250",
    ]
    subprocess.run(
        [*words, "-c:v", "libvpx", "-deadline", "realtime", "-cpu-used", "8", "-b:v", "1M", "-g", "100", str(path)],
        check=True,
    )


def by_ffmpeg(url, seconds, size):
    words = [
        "ffmpeg",
        "-nostdin",
        "-v",
        "error",
        "-ss",
        seconds,
        "-i",
        url,
        "-frames:v",
        "1",
        "-f",
        "rawvideo",
        "-pix_fmt",
        "yuv420p",
        "-",
    ]
    return subprocess.run(words, stdout=subprocess.PIPE, **QUIET).stdout


def by_mpv(url, seconds, size):
    words = [
        "mpv",
        "--no-config",
        "--really-quiet",
        f"--start={seconds}",
        "--frames=1",
        "--o=-",
        "--of=rawvideo",
        "--ovc=rawvideo",
        url,
    ]
    return subprocess.run(words, stdout=subprocess.PIPE, **QUIET).stdout[:size]


def by_ffplay(url, seconds, size):
    """The time of the first frame that is shown, and the checksums of its planes: ffplay writes no frames, and seeks to
    one near the time.
    """
    words = [
        "ffplay",
        "-hide_banner",
        "-loglevel",
        "info",
        "-nostats",
        "-an",
        "-autoexit",
        "-ss",
        seconds,
        "-t",
        "0.04",
        "-vf",
        "showinfo",
        url,
    ]
    env = dict(os.environ, SDL_VIDEODRIVER="dummy", SDL_AUDIODRIVER="dummy")
    said = subprocess.run(words, stderr=subprocess.PIPE, text=True, env=env, **QUIET).stderr
    found = re.search(r"n: *0 .*pts_time:([0-9.]+) .*plane_checksum:\[([0-9A-F ]+)\]", said)
    return (float(found.group(1)), found.group(2).split()) if found else said[-300:]


def checksums(picture):
    """What showinfo prints of the planes of a picture."""
    width, height, samples = picture
    found, start = [], 0
    for across, down in sides(width, height):
        found.append(f"{zlib.adler32(samples[start : start + across * down], 0):08X}")
        start += across * down
    return found


PLAYERS = {"ffmpeg": by_ffmpeg, "ffplay": by_ffplay, "mpv": by_mpv}


def version_of(name):
    said = subprocess.run(
        [name, "-version" if name != "mpv" else "--version"], capture_output=True, text=True, check=False
    )
    return said.stdout.split("\n")[0].split(" Copyright")[0]


def post(url, line):
    origin = "/".join(url.split("/")[:3])
    headers = {"Origin": origin, "Content-Type": "application/json"}
    request = urllib.request.Request(url, json.dumps({"line": line}).encode(), headers)
    with urllib.request.urlopen(request, timeout=20) as answer:
        return json.loads(answer.read())


def main():
    choose = random.Random(int(sys.argv[2]) if len(sys.argv) > 2 else 1)
    with tempfile.TemporaryDirectory() as room:
        clip = pathlib.Path(sys.argv[1]) if len(sys.argv) > 1 else pathlib.Path(room, "clip.ivf")
        if len(sys.argv) < 2:
            make_clip(clip)
        env = dict(
            os.environ,
            PYTHONPATH=str(TOP / "clients/python"),
            VP8SERVE=programs.find("vp8serve"),
            VP8LIST=programs.find("vp8list"),
        )
        server = subprocess.Popen(
            [sys.executable, "-m", "wokureti", "serve", str(clip)], stdout=subprocess.PIPE, env=env
        )
        try:
            url, edits = (server.stdout.readline().decode().strip() for _ in range(2))
            return run(url, edits, clip, choose)
        finally:
            server.terminate()
            server.wait(10)


def run(url, edits, clip, choose):
    faults = compared = 0
    with Session(clip) as session:
        rate, scale = session.rate
        for line in (None, "delete 40", "script fade 0 0 200 0 256"):
            if line is not None:
                session.request(line)
                post(edits, line)
            count = session.count().frames
            seconds = subprocess.run(
                ["ffprobe", "-v", "error", "-show_entries", "format=duration", "-of", "csv=p=0", url],
                stdout=subprocess.PIPE,
                text=True,
                **QUIET,
            ).stdout
            if abs(float(seconds) - count * scale / rate) > 0.001:
                faults += 1
                print(f"ffprobe: {seconds.strip()} seconds, not {count * scale / rate}")
            for number in [0, count - 1, *(choose.randrange(count) for _ in range(8))]:
                picture = session.picture(number)
                # A tenth of a frame before it, as players round.
                at = f"{max(0, (number - 0.1) * scale / rate):.5f}"
                for name, player in PLAYERS.items():
                    if shutil.which(name) is None:
                        continue
                    wanted, found = bytes(picture[2]), player(url, at, len(picture[2]))
                    compared += 1
                    if name == "ffplay" and isinstance(found, tuple):
                        shown = round(found[0] * rate / scale)
                        # The frame of the time that it says, which is at most two away from the one that was asked for.
                        wanted = checksums(session.picture(shown)) if abs(shown - number) <= 2 else f"frame {shown}"
                        found = found[1]
                    if found != wanted:
                        faults += 1
                        print(
                            f"{name}: frame {number} after {line}: another picture"
                            f" ({found if isinstance(found, str) else len(found)})"
                        )
    for name in PLAYERS:
        print(f"{name}: {version_of(name) if shutil.which(name) else 'not here'}")
    results.total(f"{compared} frames compared, {faults} differences", faults)
    return 1 if faults else 0


if __name__ == "__main__":
    sys.exit(main())
