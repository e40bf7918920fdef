#!/usr/bin/env python3
"""Times the page's module in WebAssembly next to vp8serve: web.py [CLIP ..]

All frames of a clip in order, in processor time: by vp8serve with its output to /dev/null, and by the module in Node,
once while V8 still compiles it and then in sessions after that. Without a clip it takes clips of 300 frames of 640x360
and 1920x1080, which ffmpeg makes once. The page is that of WOKURETI_PAGE, or bin/wokureti.html; several, separated by
`:`, are compared. `TURNS=N` sets how many sessions are timed.
"""

import os
import pathlib
import resource
import shutil
import subprocess
import sys

TOP = pathlib.Path(__file__).resolve().parent.parent
SERVE = os.environ.get("VP8SERVE") or str(TOP / "bin/vp8serve")
PAGES = (os.environ.get("WOKURETI_PAGE") or str(TOP / "bin/wokureti.html")).split(":")
STORE = pathlib.Path(os.environ.get("XDG_CACHE_HOME") or pathlib.Path.home() / ".cache") / "wokureti"
TURNS, LIMIT = int(os.environ.get("TURNS", "5")), 1800
SIZES = (("640x360", "1500k"), ("1920x1080", "6M"))


def clip_of(size, rate):
    """A clip of 300 frames with a key frame every 30, as bench/virtual.sh makes it."""
    path = STORE / f"virtual-{size}.ivf"
    if not path.is_file():
        STORE.mkdir(parents=True, exist_ok=True)
        source = f"mandelbrot=size={size}:rate=30,noise=alls=8:allf=t"
        options = [
            "-c:v",
            "libvpx",
            "-deadline",
            "realtime",
            "-cpu-used",
            "8",
            "-b:v",
            rate,
            "-g",
            "30",
            "-auto-alt-ref",
            "0",
        ]
        words = [
            "ffmpeg",
            "-nostdin",
            "-v",
            "error",
            "-y",
            "-f",
            "lavfi",
            "-i",
            source,
            "-frames:v",
            "300",
            *options,
            str(path),
        ]
        subprocess.run(words, check=True, timeout=LIMIT)
    return path


def native(clip):
    """The least processor time of vp8serve for all frames."""
    count = int(
        subprocess.run([SERVE, clip], input=b"count\n", capture_output=True, check=True, timeout=LIMIT).stdout.split()[
            3
        ]
    )
    requests = "".join(f"frame {n}\n" for n in range(count)).encode()
    found = []
    for _ in range(TURNS):
        before = resource.getrusage(resource.RUSAGE_CHILDREN)
        subprocess.run(
            [SERVE, clip, "-", "/dev/null", "--cache", "3"],
            input=requests,
            capture_output=True,
            check=True,
            timeout=LIMIT,
        )
        after = resource.getrusage(resource.RUSAGE_CHILDREN)
        found.append(after.ru_utime + after.ru_stime - before.ru_utime - before.ru_stime)
    return min(found), count


def main():
    for program in ("node", "ffmpeg"):
        if shutil.which(program) is None:
            sys.exit(f"{program} is not here")
    for clip in sys.argv[1:] or [clip_of(*size) for size in SIZES]:
        best, count = native(clip)
        print(f"{pathlib.Path(clip).name}: {count} frames, vp8serve {best:.2f} s")
        for page in PAGES:
            words = ["node", TOP / "bench/web_times.js", page, clip, str(TURNS)]
            done = subprocess.run(list(map(str, words)), capture_output=True, text=True, check=True, timeout=LIMIT)
            compiling, first, later, frames = map(float, done.stdout.split())
            if frames != count:
                sys.exit(f"{page} has {frames:.0f} frames, vp8serve has {count}")
            print(
                (
                    f"  {page}: module {compiling:.2f} s, first session {first:.2f} s, later ones {later:.2f} s,"
                    f" {later / best:.2f} times vp8serve"
                ),
                flush=True,
            )


if __name__ == "__main__":
    main()
