#!/usr/bin/env python3
"""Programs that open files by a path read the folder of `wokureti mount`: ffmpeg, mpv, melt, GStreamer, VLC, Blender,
Shotcut and Kdenlive, those of them that are here.

    compare/mounted.py [--reads N] [--seed S] [--shots FOLDER]

It needs python3-pyfuse3 or python3-fusepy, and fuse3. Each program reads the frames of clip.y4m, and seeks in it. melt
converts its samples: its frames are compared with those that it makes of a file on the disk with the same bytes. The
files are read at random places and compared with what the programs write; edits are made while they are read; the mount
and vp8serve are killed. README.md says more.
"""

import argparse
import errno
import json
import os
import pathlib
import random
import shutil
import signal
import subprocess
import sys
import tempfile
import time

TOP = pathlib.Path(__file__).resolve().parent.parent
sys.path.insert(0, str(TOP / "clients/python"))

import results  # noqa: E402
from library import screens  # noqa: E402
from wokureti import Session  # noqa: E402
from wokureti.base import programs  # noqa: E402
from wokureti.media import ivf  # noqa: E402
from wokureti.server import mount  # noqa: E402

LIBRARY = TOP / "compare/library"
RATE, COUNT, WIDTH, HEIGHT = 25, 120, 320, 180
QUIET = {"stdin": subprocess.DEVNULL, "timeout": 300, "check": True, "capture_output": True}


def run(*words, **more):
    return subprocess.run(list(map(str, words)), **{**QUIET, **more}).stdout


def md5s(*words):
    found = run("ffmpeg", "-nostdin", "-v", "error", *words, "-f", "framemd5", "-").decode()
    return [line.split(",")[-1].strip() for line in found.splitlines() if not line.startswith("#")]


def by_ffmpeg(path, start, room):
    return md5s("-ss", start / RATE, "-i", path)


def by_mpv(path, start, room):
    out = f"{room}/mpv.yuv"
    run(
        "mpv",
        "--no-config",
        "--really-quiet",
        f"--start={start / RATE}",
        f"--o={out}",
        "--ovc=rawvideo",
        "--of=rawvideo",
        "--vf=format=yuv420p",
        path,
    )
    return md5s("-f", "rawvideo", "-pix_fmt", "yuv420p", "-s", f"{WIDTH}x{HEIGHT}", "-i", out)


def by_melt(path, start, room):
    out = f"{room}/melt.yuv"
    # The profile of the clip: else melt scales it.
    pathlib.Path(room, "profile").write_text(
        f"description=x\nframe_rate_num={RATE}\nframe_rate_den=1\nwidth=320\nheight=180\nprogressive=1\n"
        "sample_aspect_num=1\nsample_aspect_den=1\ndisplay_aspect_num=16\ndisplay_aspect_den=9\ncolorspace=601\n"
    )
    env = {**os.environ, "SDL_VIDEODRIVER": "dummy", "QT_QPA_PLATFORM": "offscreen"}
    run(
        "melt",
        "-silent",
        "-profile",
        f"{room}/profile",
        path,
        f"in={start}",
        f"out={COUNT - 1}",
        "-consumer",
        f"avformat:{out}",
        "f=rawvideo",
        "vcodec=rawvideo",
        "pix_fmt=yuv420p",
        "an=1",
        "real_time=-1",
        env=env,
    )
    return md5s("-f", "rawvideo", "-pix_fmt", "yuv420p", "-s", f"{WIDTH}x{HEIGHT}", "-i", out)


def by_gstreamer(path, start, room):
    if start or subprocess.run(["gst-inspect-1.0", "--exists", "y4mdec"], check=False).returncode:
        return None
    out = f"{room}/gst.yuv"
    run(
        "gst-launch-1.0",
        "-q",
        "filesrc",
        f"location={path}",
        "!",
        "y4mdec",
        "!",
        "video/x-raw,format=I420",
        "!",
        "filesink",
        f"location={out}",
    )
    return md5s("-f", "rawvideo", "-pix_fmt", "yuv420p", "-s", f"{WIDTH}x{HEIGHT}", "-i", out)


def by_vlc(path, start, room):
    """What VLC shows. It may show a frame again, and the first one before it seeks."""
    found = run(sys.executable, LIBRARY / "vlc.py", path, start / RATE, WIDTH, HEIGHT).decode().split()
    return [md5 for place, md5 in enumerate(found) if place == 0 or md5 != found[place - 1]]


def by_blender(path, start, room):
    """What Blender renders of a movie or of a folder of pictures, as RGB."""
    with tempfile.TemporaryDirectory(dir=room) as out:
        run("blender", "--background", "--factory-startup", "--python", LIBRARY / "blend.py", "--", path, start, out)
        return rgb("-i", f"{out}/%06d.png")


def rgb(*words):
    return md5s(*words, "-pix_fmt", "rgb24")


READERS = {
    "ffmpeg": by_ffmpeg,
    "mpv": by_mpv,
    "melt": by_melt,
    "gst-launch-1.0": by_gstreamer,
    "vlc": by_vlc,
    "blender": by_blender,
}


def is_right(name, found, start, wanted):
    """Whether these are the frames from one on. VLC seeks by bytes, and begins one earlier than it is asked for, or
    two.
    """
    if name != "vlc":
        return found == wanted[start:]
    found = found[1:] if start and found[:1] == wanted[:1] else found
    return found == wanted[len(wanted) - len(found) :] and start - 2 <= len(wanted) - len(found) <= start


def begin_shotcut(screen, path):
    screen.start("shotcut", path)


def begin_kdenlive(screen, path):
    screen.start("dbus-run-session", "kdenlive", "-i", path)
    # It asks whether the project shall have the size of the clip.
    limit = time.monotonic() + 60
    while "Warning" not in str(screen.windows()) and time.monotonic() < limit:
        time.sleep(0.5)
    screen.keys("Return")
    screen.wait(0)
    screen.click()


# How a program with a window opens a path, and the keys that go to a frame.
WINDOWS = {
    "shotcut": (begin_shotcut, {0: ["Home"], 50: ["Home", "Next", "Next"], COUNT - 1: ["End"]}),
    "kdenlive": (begin_kdenlive, {0: ["Home"], 50: ["Home", "shift+Right", "shift+Right"], COUNT - 1: ["End"]}),
}


def see(name, path, frames, shots):
    """Opens a path in a program with a window, goes to frames of it, and returns the names of those that are not
    there.
    """
    wrong = []
    with tempfile.TemporaryDirectory() as room:
        screen = screens.Screen(room, frames, WIDTH, HEIGHT)
        try:
            begin, places = WINDOWS[name]
            begin(screen, path)
            screen.wait(None, 60)
            for frame, keys in places.items():
                screen.keys(*keys)
                found = screen.wait(frame)
                if found != frame:
                    wrong.append(f"{name}: frame {found} is shown, and not {frame}")
                if shots:
                    screen.shot(os.path.join(shots, f"{name}-{frame}.png"))
        finally:
            screen.close()
    return wrong


class Mounted:
    """A folder, and the process that has it."""

    def __init__(self, clip, folder):
        self.folder = folder
        self.process = subprocess.Popen(
            [sys.executable, "-m", "wokureti", "mount", clip, folder],
            stdout=subprocess.DEVNULL,
            stderr=subprocess.DEVNULL,
        )
        self.wait(True)

    def is_there(self):
        with open("/proc/mounts", encoding="utf-8", errors="replace") as file:
            return any(line.split(" ")[1] == str(self.folder) for line in file)

    def wait(self, is_there):
        limit = time.monotonic() + 60
        while self.is_there() != is_there:
            if time.monotonic() > limit:
                raise SystemExit(f"the folder is {'not ' * is_there}mounted after a minute")
            time.sleep(0.02)

    def end(self, number=signal.SIGTERM):
        self.process.send_signal(number)
        self.process.wait(60)
        self.wait(False)


def texts(clip, *lines):
    """What the programs write of each file."""
    with tempfile.TemporaryDirectory() as room:
        out = f"{room}/out.y4m"
        with Session(clip) as session:
            for line in lines:
                session.request(line)
            count = session.count().frames
            facts = session.packets()
        requests = "".join(f"{line}\n" for line in (*lines, *(f"frame {number}" for number in range(count))))
        run(programs.find("vp8serve"), clip, "-", out, "--save", f"{room}/out.ivf", input=requests.encode(), stdin=None)
        packets = ivf.read_packets(f"{room}/out.ivf")[1]
        return {"clip.y4m": pathlib.Path(out).read_bytes(), "clip.ivf": packets, "packets.jsonl": facts}


def read_at_random(dice, folder, clip, count):
    """Reads the files at random places; returns what is wrong."""
    wanted, wrong = texts(clip), 0
    if [data for _, data in ivf.read_packets(folder / "clip.ivf")[1]] != [data for _, data in wanted["clip.ivf"]]:
        wrong += 1
        print("clip.ivf has other packets")
    if list(map(json.loads, (folder / "packets.jsonl").read_text().splitlines())) != wanted["packets.jsonl"]:
        wrong += 1
        print("packets.jsonl has other facts")
    whole = {
        "clip.y4m": wanted["clip.y4m"],
        **{
            name: (folder / name).read_bytes()
            for name in ("clip.ivf", "clip.webm", "packets.jsonl", "frames/000007.png")
        },
    }
    for _ in range(count):
        name = dice.choice(list(whole))
        at, size = dice.randrange(len(whole[name])), dice.choice((1, 100, 4096, 131072, 1 << 20))
        with open(folder / name, "rb", buffering=0) as file:
            got = os.pread(file.fileno(), size, at)
        if got != whole[name][at : at + size]:
            wrong += 1
            print(f"{name}: {size} bytes from {at} on are others")
    return wrong


def edit_meanwhile(dice, folder, clip):
    """Edits while a file is read: its bytes are those of one revision, or the read fails."""
    wrong, lines = 0, []
    for _ in range(10):
        before = texts(clip, *lines)["clip.y4m"]
        with open(folder / "clip.y4m", "rb", buffering=0) as file:
            got = os.pread(file.fileno(), 200000, 0)
            lines = [*lines, f"delete {dice.randrange(1, 60)}"]
            (folder / "edits.txt").write_text("\n".join(lines) + "\n")
            try:
                os.pread(file.fileno(), 100, 0)
                wrong += 1
                print("a file of before an edit is read after it")
            except OSError as error:
                if error.errno != errno.ESTALE:
                    raise
        wrong += got != before[: len(got)]
    wrong += (folder / "clip.y4m").read_bytes() != texts(clip, *lines)["clip.y4m"]
    (folder / "edits.txt").write_text("")
    return wrong


def read_pictures(folder, room):
    """Reads the folder of pictures as ffmpeg and Blender do; returns what is wrong."""
    wanted = rgb("-i", folder / "frames/%06d.png")
    found = by_blender(folder / "frames", 0, room) if shutil.which("blender") else wanted
    if len(wanted) == COUNT and found == wanted:
        return 0
    print(f"frames: {len(wanted)} pictures by ffmpeg, and {len(found)} by Blender, or others")
    return 1


def see_windows(folder, clip, names, shots):
    """Opens clip.y4m in programs with windows; returns what is wrong."""
    lacks, wrong = screens.missing(), []
    there = [name for name in WINDOWS if shutil.which(name)]
    if lacks or len(there) < len(WINDOWS):
        print(
            f"skipped: {', '.join(WINDOWS) if lacks else ', '.join(set(WINDOWS) - set(there))}: {lacks or 'it'} is not"
            " here"
        )
    data = run("ffmpeg", "-nostdin", "-v", "error", "-i", clip, "-pix_fmt", "rgb24", "-f", "rawvideo", "-")
    size = 3 * WIDTH * HEIGHT
    frames = [data[start : start + size] for start in range(0, len(data), size)]
    for name in there if not lacks else ():
        names.add(name)
        wrong += see(name, str(folder / "clip.y4m"), frames, shots)
    print(*wrong, sep="\n", end="\n" if wrong else "")
    return len(wrong)


def main():
    words = argparse.ArgumentParser(description=__doc__.split("\n\n")[0])
    words.add_argument("--reads", type=int, default=1000)
    words.add_argument("--seed", type=int, default=1)
    words.add_argument("--shots", metavar="FOLDER", help="pictures of the programs with windows")
    given = words.parse_args()
    mount.mounter()
    os.environ["PYTHONPATH"] = str(TOP / "clients/python")
    if given.shots:
        os.makedirs(given.shots, exist_ok=True)
    dice, wrong, frames, names = random.Random(given.seed), 0, 0, set()
    with tempfile.TemporaryDirectory() as room:
        clip, folder = f"{room}/clip.ivf", pathlib.Path(room, "folder")
        folder.mkdir()
        run(
            "ffmpeg",
            "-nostdin",
            "-v",
            "error",
            "-f",
            "lavfi",
            "-i",
            f"testsrc2=size=320x180:rate={RATE}",
            "-frames:v",
            COUNT,
            "-c:v",
            "libvpx",
            "-threads",
            "1",
            "-g",
            "30",
            clip,
        )
        mounted, whole, disk = Mounted(clip, folder), md5s("-i", clip), f"{room}/disk.y4m"
        pathlib.Path(disk).write_bytes(texts(clip)["clip.y4m"])
        try:
            for name in [one for one in READERS if shutil.which(one)]:
                wanted = {"melt": lambda: by_melt(disk, 0, room), "blender": lambda: rgb("-i", clip)}.get(
                    name, lambda: whole
                )()
                for start in (0, *sorted(dice.sample(range(1, COUNT), 4))):
                    found = READERS[name](str(folder / "clip.y4m"), start, room)
                    if found is None:
                        continue
                    frames, names = frames + len(found), names | {name}
                    if not is_right(name, found, start, wanted):
                        wrong += 1
                        print(f"{name} from frame {start}: {len(found)} frames, and not those of the clip")
            wrong += read_pictures(folder, room) + see_windows(folder, clip, names, given.shots)
            wrong += read_at_random(dice, folder, clip, given.reads) + edit_meanwhile(dice, folder, clip)
            children = run("pgrep", "-P", mounted.process.pid, "vp8serve").decode().split()
            for child in children:
                os.kill(int(child), signal.SIGKILL)
            wrong += (folder / "clip.y4m").read_bytes() != texts(clip)["clip.y4m"] or not children
        finally:
            mounted.end(signal.SIGKILL)
        wrong += list(folder.iterdir()) != []
    skipped = [name for name in READERS if name not in names]
    print(*(f"skipped: {name}" for name in skipped), sep="\n", end="\n" if skipped else "")
    results.total(
        (
            f"{', '.join(sorted(names))}: {frames} frames, {given.reads} reads, 10 edits meanwhile, vp8serve and the"
            f" mount killed: {wrong} wrong"
        ),
        wrong,
    )
    return 1 if wrong else 0


if __name__ == "__main__":
    sys.exit(main())
