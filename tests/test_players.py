#!/usr/bin/env python3
"""Plays a clip of which the last frames and their sound were coded again, to its end: in chromium, Firefox, ffmpeg,
GStreamer, mpv and VLC, those that are here. All other frames are the clip's, by ffmpeg, and so are all other packets of
sound.

It prints what differs and ends with 1, or prints nothing and ends with 0; a line `skipped: ..` names what could not be
run.
"""

import os
import pathlib
import re
import shutil
import subprocess
import sys
import tempfile

sys.dont_write_bytecode = True
import pages  # noqa: E402

TOP = pathlib.Path(__file__).resolve().parent.parent
LIMIT = 120
# Frames of the clip and of the fade; the packets of sound before the fade, of 20 ms, the first of which begins 6.5 ms
# early.
FRAMES, FADED, RATE = 100, 24, 25
SOUND_BEFORE = 150
# Packets of the programs of Debian.
PLAYERS = {
    "ffmpeg": "ffmpeg",
    "gst-launch-1.0": "gstreamer1.0-tools and gstreamer1.0-plugins-good",
    "mpv": "mpv",
    "cvlc": "vlc-bin and vlc-plugin-base",
}
BROWSERS = """const video = document.createElement("video"); video.muted = true;
    video.src = args[0]; document.body.append(video);
    const over = new Promise((done) => {
        video.onended = () => done("ended");
        video.onerror = () => done(video.error.message || "error");
        setTimeout(() => done("not ended"), 60000);
    });
    await video.play(); const how = await over;
    return [how, video.currentTime, video.videoWidth, video.getVideoPlaybackQuality().totalVideoFrames]"""


def ran(*words, **more):
    return subprocess.run(list(map(str, words)), capture_output=True, text=True, timeout=LIMIT, check=False, **more)


def wokureti(*words):
    return ran(sys.executable, "-m", "wokureti", *words, env={**os.environ, "PYTHONPATH": str(TOP / "clients/python")})


def frames_of(path):
    text = ran("ffmpeg", "-nostdin", "-v", "error", "-i", path, "-map", "0:v", "-f", "framemd5", "-").stdout
    return [line.rpartition(",")[2].strip() for line in text.splitlines() if not line.startswith("#")]


def sound_of(path):
    return ran(
        "ffprobe",
        "-v",
        "error",
        "-select_streams",
        "a",
        "-show_entries",
        "packet=data_hash",
        "-show_data_hash",
        "md5",
        "-of",
        "csv=p=0",
        path,
    ).stdout.split()


def made(folder):
    """The clip, and the one that fades at its end."""
    clip, out = folder / "talk.webm", folder / "ending.webm"
    sources = ["-f", "lavfi", "-i", f"testsrc=size=320x180:rate={RATE}", "-f", "lavfi", "-i", "sine=duration=4"]
    ran(
        "ffmpeg",
        "-nostdin",
        "-v",
        "error",
        "-y",
        *sources,
        "-frames:v",
        FRAMES,
        "-c:v",
        "libvpx",
        "-b:v",
        "300k",
        "-g",
        50,
        "-auto-alt-ref",
        0,
        "-c:a",
        "libopus",
        "-shortest",
        clip,
    )
    done = wokureti("cut", clip, out, "--from", "0", "--fade-out", f"f{FADED + 1}", "--fade-sound", "--psnr", "40")
    if done.returncode:
        raise SystemExit(f"it was not made: {done.stderr}")
    found = re.search(r"(\d+) of (\d+) frames are coded again, in [\d,]+ bytes, PSNR ([\d.]+) dB at least", done.stdout)
    if found is None or found.group(1, 2) != (str(FADED), str(FRAMES)) or float(found.group(3)) < 40:
        yield f"the command says {done.stdout!r}"
    if frames_of(out)[: FRAMES - FADED] != frames_of(clip)[: FRAMES - FADED] or len(frames_of(out)) != FRAMES:
        yield "frames before the fade are others"
    before, after = sound_of(clip), sound_of(out)
    if (
        after[: SOUND_BEFORE - 1] != before[: SOUND_BEFORE - 1]
        or after[SOUND_BEFORE + 1 : SOUND_BEFORE + 40] == before[SOUND_BEFORE + 1 : SOUND_BEFORE + 40]
    ):
        yield "packets of sound before the fade are others, or those of the fade are not"


def commands(path):
    """What plays a file, by the name of the program. VLC refuses to be root."""
    nobody = (
        ["setpriv", "--reuid=65534", "--regid=65534", "--clear-groups", "env", f"HOME={path.parent}"]
        if os.geteuid() == 0
        else []
    )
    elements = (
        f"filesrc location={path} ! matroskademux name=d d. ! queue ! vp8dec ! fakesink sync=true d. ! queue ! opusdec"
        " ! fakesink sync=true"
    )
    return {
        "ffmpeg": ["ffmpeg", "-nostdin", "-v", "error", "-i", path, "-f", "null", "-"],
        "gst-launch-1.0": ["gst-launch-1.0", "-q", *elements.split()],
        "mpv": ["mpv", "--no-config", "--msg-level=all=warn,cplayer=info", "--vo=null", "--ao=null", path],
        "cvlc": [
            *nobody,
            "cvlc",
            "-q",
            "--intf",
            "dummy",
            "--vout",
            "dummy",
            "--aout",
            "dummy",
            "--play-and-exit",
            path,
        ],
    }


def by_programs(path):
    for name, words in commands(path).items():
        if shutil.which(name) is None or shutil.which(words[0]) is None:
            print(f"skipped: {name}: {PLAYERS[name]}")
            continue
        done = ran(*words, stdin=subprocess.DEVNULL)
        if (
            done.returncode
            or (name == "mpv" and "End of file" not in done.stdout)
            or (name in ("ffmpeg", "gst-launch-1.0") and done.stderr)
        ):
            yield f"{name}: status {done.returncode}, {(done.stdout + done.stderr)[-500:]}"


def by_browsers(path):
    (path.parent / "play.html").write_text("<!doctype html><meta charset=utf-8><title>play</title>")
    for begin, is_here in (
        (pages.Chromium, shutil.which("chromium") and shutil.which("chromedriver")),
        (pages.Firefox, pages.firefox.find()),
    ):
        if not is_here:
            print(f"skipped: {begin.name}")
            continue
        browser = begin()
        try:
            browser.open((path.parent / "play.html").as_uri())
            how, time, width, frames = browser.js(BROWSERS, path.name)
            if how != "ended" or time < (FRAMES - 2) / RATE or width != 320 or frames < FRAMES // 2:
                yield f"{begin.name}: {how} at {time} s, {width} columns, {frames} frames"
        finally:
            browser.end()


def main():
    if shutil.which("ffmpeg") is None:
        print("skipped: ffmpeg is not there")
        return 0
    with tempfile.TemporaryDirectory() as name:
        folder = pathlib.Path(name)
        folder.chmod(0o755)
        wrong = list(made(folder))
        wrong += [*by_programs(folder / "ending.webm"), *by_browsers(folder / "ending.webm")]
    print("".join(line + "\n" for line in wrong), end="")
    return 1 if wrong else 0


if __name__ == "__main__":
    sys.exit(main())
