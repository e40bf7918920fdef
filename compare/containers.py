#!/usr/bin/env python3
"""WebM files that wokureti writes, in other programs: mkvinfo, ffprobe, ffmpeg, mpv, GStreamer, chromium and Firefox,
those of them that are here.

    compare/containers.py [--cuts N] [--seed S]

Clips with sound are made by ffmpeg: Opus packets of 20 and of 60 ms, hidden altrefs, a rate that varies. Each is cut at
random, into one to four parts, at key packets if vp8serve has no --export. The pictures must be those of the clip, by
ffmpeg and by mpv, and the lengths of picture and sound must agree to a packet; chromium and Firefox play the file from
its first frame to its last with sound, and mpv begins in the middle. README.md says more.
"""

import argparse
import contextlib
import functools
import http.server
import json
import os
import pathlib
import random
import shutil
import subprocess
import sys
import tempfile
import threading
import time

TOP = pathlib.Path(__file__).resolve().parent.parent
sys.path.insert(0, str(TOP / "clients/python"))

import results  # noqa: E402
from library import firefox  # noqa: E402
from wokureti import Session  # noqa: E402
from wokureti.base import programs  # noqa: E402
from wokureti.media import containers, ivf  # noqa: E402
from wokureti.session import exports  # noqa: E402

WIDTH, HEIGHT = 160, 120
# How often a browser plays a file, at most.
TURNS = 3

QUIET = {"stdin": subprocess.DEVNULL, "timeout": 300, "check": True, "capture_output": True}
SOUNDS = {
    "opus-20": ["-c:a", "libopus", "-b:a", "64k"],
    "opus-60": ["-c:a", "libopus", "-b:a", "32k", "-frame_duration", "60"],
    "varied": ["-c:a", "libopus", "-b:a", "48k", "-vf", "select='not(eq(mod(n,7),3))'", "-fps_mode", "vfr"],
    "altref": ["-c:a", "libopus", "-b:a", "48k", "-auto-alt-ref", "1", "-lag-in-frames", "12", "-arnr-maxframes", "5"],
}


def run(*words, **more):
    return subprocess.run(list(map(str, words)), **QUIET, **more).stdout


def make(name, path):
    words = [
        "ffmpeg",
        "-nostdin",
        "-y",
        "-v",
        "error",
        "-f",
        "lavfi",
        "-i",
        f"testsrc2=size={WIDTH}x{HEIGHT}:rate=25:duration=12",
    ]
    words += [
        "-f",
        "lavfi",
        "-i",
        "aevalsrc=0.3*sin(300*t*(1+t)):s=48000:d=12",
        "-c:v",
        "libvpx",
        "-threads",
        "1",
        "-g",
        "40",
        "-b:v",
        "200k",
        *SOUNDS[name],
    ]
    for turn in (1, 2) if name == "altref" else (0,):
        run(*words, *(["-pass", turn, "-passlogfile", f"{path}.pass"] if turn else []), path)


def md5s(path, *more, start=None):
    found = run(
        "ffmpeg",
        "-nostdin",
        "-v",
        "error",
        *(["-ss", start] if start else []),
        "-i",
        path,
        "-map",
        "0:v",
        "-fps_mode",
        "passthrough",
        *more,
        "-f",
        "framemd5",
        "-",
    ).decode()
    return [line.split(",")[-1].strip() for line in found.splitlines() if not line.startswith("#")]


def by_mpv(path, room, *more):
    out = os.path.join(room, "mpv.yuv")
    run(
        "mpv",
        "--no-config",
        "--really-quiet",
        "--no-audio",
        *more,
        f"--o={out}",
        "--ovc=rawvideo",
        "--of=rawvideo",
        "--vf=format=yuv420p",
        path,
    )
    return md5s_of_raw(out)


def by_gstreamer(path, room):
    out = os.path.join(room, "gst.yuv")
    run(
        "gst-launch-1.0",
        "-q",
        "filesrc",
        f"location={path}",
        "!",
        "matroskademux",
        "!",
        "vp8dec",
        "!",
        "video/x-raw,format=I420",
        "!",
        "filesink",
        f"location={out}",
    )
    return md5s_of_raw(out)


def md5s_of_raw(path):
    found = run(
        "ffmpeg",
        "-nostdin",
        "-v",
        "error",
        "-f",
        "rawvideo",
        "-pix_fmt",
        "yuv420p",
        "-s",
        f"{WIDTH}x{HEIGHT}",
        "-i",
        path,
        "-f",
        "framemd5",
        "-",
    ).decode()
    return [line.split(",")[-1].strip() for line in found.splitlines() if not line.startswith("#")]


def times(path):
    """When each frame begins, by ffprobe."""
    return (
        run("ffprobe", "-v", "error", "-select_streams", "v", "-show_entries", "frame=pts_time", "-of", "csv=p=0", path)
        .decode()
        .replace(",", " ")
        .split()
    )


def by_ffplay(path, start):
    """How many seconds ffplay plays, from a time to the end."""
    begin = time.monotonic()
    run(
        "ffplay",
        "-v",
        "error",
        "-autoexit",
        "-an",
        "-ss",
        start,
        path,
        env={**os.environ, "SDL_VIDEODRIVER": "dummy", "SDL_AUDIODRIVER": "dummy"},
    )
    return time.monotonic() - begin


def lengths(path):
    """The milliseconds at which picture and sound end, by ffprobe."""
    found = json.loads(
        run("ffprobe", "-v", "error", "-of", "json", "-show_entries", "packet=codec_type,pts,duration", path)
    )["packets"]
    return [
        max((packet["pts"] + packet.get("duration", 0) for packet in found if packet["codec_type"] == kind), default=0)
        for kind in ("video", "audio")
    ]


# Plays a file, and gives the gray of 40 x 30 points of the first and of the last picture; how long the sound is that it
# decodes.
PLAY = """
    const [address, width, height, done] = arguments;
    const video = document.querySelector('video'), canvas = document.createElement('canvas');
    const gray = () => {
        canvas.width = width; canvas.height = height;
        const context = canvas.getContext('2d', {willReadFrequently: true}), found = [];
        context.drawImage(video, 0, 0, width, height);
        const data = context.getImageData(0, 0, width, height).data;
        for (let y = 0; y < height; y += 4) for (let x = 0; x < width; x += 4) {
            const at = 4 * (y * width + x);
            found.push(Math.round(0.299 * data[at] + 0.587 * data[at + 1] + 0.114 * data[at + 2]));
        }
        return found;
    };
    let first = null;
    const sound = async () => {
        const bytes = await (await fetch(address)).arrayBuffer();
        return (await new OfflineAudioContext(2, 1, 48000).decodeAudioData(bytes)).duration;
    };
    video.src = address; video.muted = true; video.preload = 'auto';
    video.onerror = () => done({error: video.error.message});
    video.onloadeddata = () => {
        if (first !== null) return;
        first = gray(); video.playbackRate = 4;
        video.play().catch(error => done({error: String(error)}));
    };
    // Pictures of less than a refresh of the screen are not all painted.
    video.ontimeupdate = () => { if (video.duration - video.currentTime < 1.5) video.playbackRate = 1; };
    video.onended = () => setTimeout(() => {
        const last = gray(), frames = video.getVideoPlaybackQuality().totalVideoFrames, time = video.currentTime;
        const duration = video.duration;
        sound().catch(() => 0).then((length) => done({time, duration, frames, sound: length, first, last}));
    }, 500);"""


class Chromium:
    """Chromium, by WebDriver."""

    def __init__(self):
        from browser import Browser

        self.browser = Browser(400, 300)
        self.version = self.browser.version
        self.open, self.end = self.browser.open, self.browser.end

    def run(self, script, *given):
        return self.browser.send("POST", "/execute/async", {"script": script, "args": list(given)})


class Player:
    """Plays files in a browser, by a page that a server of this process has."""

    def __init__(self, browser, room):
        pathlib.Path(room, "page.html").write_text("<!doctype html><video></video>")
        self.server = http.server.ThreadingHTTPServer(("127.0.0.1", 0), functools.partial(Quiet, directory=room))
        threading.Thread(target=self.server.serve_forever, daemon=True).start()
        self.browser = browser
        self.root = f"http://127.0.0.1:{self.server.server_address[1]}"

    def play(self, name):
        # A new page for each file: frames are counted anew.
        self.browser.open(f"{self.root}/page.html?{name}")
        return self.browser.run(PLAY, f"{self.root}/{name}", WIDTH, HEIGHT)

    def close(self):
        self.browser.end()
        self.server.shutdown()


def browsers():
    """Those that are here, by name."""
    found = {"chromium": Chromium} if shutil.which("chromium") and shutil.which("chromedriver") else {}
    return {**found, **({"firefox": firefox.Firefox} if firefox.find() else {})}


def grays(path):
    """The gray of 40 x 30 points of each frame, as the browsers give it."""
    data = run(
        "ffmpeg",
        "-nostdin",
        "-v",
        "error",
        "-i",
        path,
        "-map",
        "0:v",
        "-fps_mode",
        "passthrough",
        "-pix_fmt",
        "rgb24",
        "-f",
        "rawvideo",
        "-",
    )
    found, size = [], 3 * WIDTH * HEIGHT
    for start in range(0, len(data), size):
        places = (start + 3 * (y * WIDTH + x) for y in range(0, HEIGHT, 4) for x in range(0, WIDTH, 4))
        found.append([round(0.299 * data[at] + 0.587 * data[at + 1] + 0.114 * data[at + 2]) for at in places])
    return found


def nearest(picture, frames):
    """The number of the frame that is most like a picture."""
    return min(
        range(len(frames)), key=lambda number: sum(abs(one - other) for one, other in zip(picture, frames[number]))
    )


class Quiet(http.server.SimpleHTTPRequestHandler):
    def log_message(self, *given):
        """Nothing is logged."""


def cut(dice, clip, out, can_export):
    """Cuts a clip into random parts, and returns the frames of the clip that the output has."""
    with Session(clip) as session:
        shown = [place for place in range(session.count().packets) if ivf.is_shown(session.packet(place))]
        count = len(shown)
        if can_export:
            parts = [sorted(dice.sample(range(count + 1), 2)) for _ in range(dice.randint(1, 4))]
            words = [word for start, stop in parts for word in ("--from", f"f{start}", "--to", f"f{stop}")]
            run(sys.executable, "-m", "wokureti", "cut", clip, out, "-y", *words)
            return [frame for start, stop in parts for frame in range(start, stop)]
        keys = [frame for frame, place in enumerate(shown) if ivf.is_key(session.packet(place))]
        start = dice.choice(keys)
        end = dice.choice([key for key in (*keys, count) if key > start])
        session.delete(range(shown[end], session.count().packets) if end < count else range(0))
        session.delete(range(shown[start]))
        session.save(out)
        return list(range(start, end))


def main():
    words = argparse.ArgumentParser(description=__doc__.split("\n\n")[0])
    words.add_argument("--cuts", type=int, default=5)
    words.add_argument("--seed", type=int, default=1)
    given = words.parse_args()
    os.environ["PYTHONPATH"] = str(TOP / "clients/python")
    dice, wrong, counts = random.Random(given.seed), 0, dict.fromkeys(("files", "frames"), 0)
    can_export = exports.has_option(programs.find("vp8serve"), "--export")
    tools = [name for name in ("ffmpeg", "mkvinfo", *READERS, "ffplay") if shutil.which(name)]
    print(
        "read by Python's av" if containers.has_av() else "read by ffmpeg",
        "and cut at any frame" if can_export else "and cut at key packets: vp8serve has no --export",
    )
    with tempfile.TemporaryDirectory() as room, contextlib.ExitStack() as stack:
        players = {}
        for name, make_browser in browsers().items():
            players[name] = Player(make_browser(), room)
            stack.callback(players[name].close)
        for name in SOUNDS:
            clip = os.path.join(room, f"{name}.webm")
            make(name, clip)
            whole, pictures = md5s(clip), grays(clip) if players else []
            for turn in range(given.cuts):
                out = os.path.join(room, f"{name}-{turn}.webm")
                numbers = cut(dice, clip, out, can_export)
                said = check(name, out, [whole[number] for number in numbers], room)
                said += seek(dice, out, [whole[number] for number in numbers], room, turn == 0)
                for browser, player in players.items():
                    said += watch(browser, player, out, numbers, pictures)
                wrong += len(said)
                counts["files"] += 1
                counts["frames"] += len(numbers)
                print(*said, sep="\n", end="\n" if said else "")
        versions = [f"{name} {player.browser.version}" for name, player in players.items()]
    skipped = [name for name in ("mkvinfo", *READERS, "ffplay") if name not in tools] + [
        name for name in ("chromium", "firefox") if name not in players
    ]
    print(*(f"skipped: {name}" for name in skipped), sep="\n", end="\n" if skipped else "")
    results.total(
        f"{counts['files']} files, {counts['frames']} frames, by {', '.join([*tools, *versions])}: {wrong} wrong", wrong
    )
    return 1 if wrong else 0


READERS = {"mpv": by_mpv, "gst-launch-1.0": by_gstreamer}


def check(name, out, wanted, room):
    """What is wrong with a file."""
    said = []
    if md5s(out) != wanted:
        said.append(f"{out}: ffmpeg shows other frames")
    for one in filter(shutil.which, READERS):
        got = READERS[one](out, room)
        if got != wanted:
            said.append(f"{out}: {one} shows {len(got)} frames, and not the {len(wanted)} of the clip")
    if shutil.which("mkvinfo"):
        run("mkvinfo", "--all", out)
    picture, sound = lengths(out)
    if abs(picture - sound) > (75 if name == "opus-60" else 35):
        said.append(f"{out}: the picture ends at {picture} ms, the sound at {sound} ms")
    return said


def seek(dice, out, wanted, room, plays):
    """What is wrong with a file that is read from the middle on."""
    said, begins = [], times(out)
    number = dice.randrange(len(wanted))
    if md5s(out, start=begins[number]) != wanted[number:]:
        said.append(f"{out}: ffmpeg shows other frames from {begins[number]} on, frame {number}")
    if shutil.which("mpv") and by_mpv(out, room, f"--start={begins[number]}") != wanted[number:]:
        said.append(f"{out}: mpv shows other frames from {begins[number]} on, frame {number}")
    if plays and shutil.which("ffplay"):
        rest = lengths(out)[0] / 1000 - float(begins[number])
        seconds = by_ffplay(out, begins[number])
        if not rest - 0.5 < seconds < rest + 5:
            said.append(f"{out}: ffplay plays {seconds:.1f} s from {begins[number]} on, and {rest:.1f} s are left")
    return said


def watch(name, player, out, numbers, pictures):
    """What is wrong with a file in a browser."""
    for _ in range(TURNS):
        # On a busy machine a browser may not paint the last picture.
        played = player.play(os.path.basename(out))
        if "error" in played:
            return [f"{out}: {name}: {played['error']}"]
        first, last = (nearest(played[one], pictures) for one in ("first", "last"))
        if (first, last) == (numbers[0], numbers[-1]):
            break
    picture, sound = lengths(out)
    said = []
    if (first, last) != (numbers[0], numbers[-1]):
        said.append(
            f"{out}: {name} begins with frame {first} of the clip and ends with {last}, and not with {numbers[0]} and"
            f" {numbers[-1]}"
        )
    if abs(played["time"] - played["duration"]) > 0.04 or abs(1000 * played["duration"] - max(picture, sound)) > 80:
        said.append(
            f"{out}: {name} ends at {played['time']} s of {played['duration']} s; picture and sound end at"
            f" {picture} and {sound} ms"
        )
    if abs(1000 * played["sound"] - sound) > 130:
        said.append(f"{out}: {name} decodes {played['sound']} s of sound, and there are {sound} ms")
    return said


if __name__ == "__main__":
    sys.exit(main())
