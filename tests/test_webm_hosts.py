#!/usr/bin/env python3
"""Tests that every host of the engine opens the same WebM file and serves its frame 12: vp8serve, a program in C,
Python without a process, a program in Rust, GStreamer, the VapourSynth plugin and the module of the page in Node give
the samples that ffmpeg and vpxdec decode.

The file has the packets of examples/mandelbrot.ivf, written here. The programs are those of VP8SERVE and VP8LIST, the
library that of LIBWOKURETI or bin/libwokureti.so.0, the page that of WOKURETI_PAGE or bin/wokureti.html. It prints what
differs and ends with 1, or prints nothing and ends with 0; a line `skipped: ..` names a host that is not there.
"""

import json
import os
import pathlib
import shutil
import subprocess
import sys
import tempfile

TOP = pathlib.Path(__file__).resolve().parent.parent
sys.dont_write_bytecode = True
sys.path[1:1] = [str(TOP / "clients/python"), str(TOP / "compare")]
import test_gstreamer  # noqa: E402
import test_library  # noqa: E402
import test_vapoursynth  # noqa: E402
from library.ivf import records  # noqa: E402
from library.webm import webm  # noqa: E402
from wokureti import Session  # noqa: E402
from wokureti.base import programs  # noqa: E402

SERVE = os.environ.get("VP8SERVE") or str(TOP / "bin/vp8serve")
LIBRARY = pathlib.Path(os.environ.get("LIBWOKURETI") or TOP / "bin/libwokureti.so.0")
PAGE = pathlib.Path(os.environ.get("WOKURETI_PAGE") or TOP / "bin/wokureti.html")
NUMBER, WIDTH, HEIGHT = 12, 320, 180
SIZE = WIDTH * HEIGHT * 3 // 2
LIMIT = 300
RUST = f"""
use std::io::Write;
fn main() {{
    let text = std::fs::read(std::env::args().nth(1).unwrap()).unwrap();
    let mut session = wokureti::Session::from_bytes(&[text.as_slice()], wokureti::Cache::States(4)).unwrap();
    let frame = session.frame({NUMBER}).unwrap();
    for plane in [&frame.y, &frame.cb, &frame.cr] {{
        std::io::stdout().write_all(plane).unwrap();
    }}
}}
"""


class Skipped(Exception):
    """A host that is not there."""


def ran(*words, **more):
    done = subprocess.run(list(map(str, words)), capture_output=True, timeout=LIMIT, check=False, **more)
    if done.returncode:
        raise OSError(f"{words[0]}: status {done.returncode}: {done.stderr.decode(errors='replace')[-500:]}")
    return done.stdout


def need(*names):
    missing = [name for name in names if shutil.which(name) is None]
    if missing:
        raise Skipped(f"{' and '.join(missing)} is not there")


def by_ffmpeg(clip, folder):
    need("ffmpeg")
    pixels = ran(
        "ffmpeg",
        "-nostdin",
        "-v",
        "error",
        "-i",
        clip,
        "-fps_mode",
        "passthrough",
        "-f",
        "rawvideo",
        "-pix_fmt",
        "yuv420p",
        "-",
    )
    return pixels[NUMBER * SIZE : (NUMBER + 1) * SIZE]


def by_vpxdec(clip, folder):
    need("vpxdec")
    # --skip leaves frames out that later ones need.
    return ran("vpxdec", "--i420", f"--limit={NUMBER + 1}", "-o", "-", clip)[-SIZE:]


def by_program(clip, folder):
    if not programs.says(SERVE, "WebM"):
        raise Skipped("this one is of an earlier version, which reads no WebM files")
    out = folder / "program.y4m"
    ran(SERVE, clip, "-", out, input=f"frame {NUMBER}\n".encode())
    return test_library.frames_of(out.read_bytes())


def by_c(clip, folder):
    need("gcc")
    program, out = folder / "session", folder / "c"
    ran(
        "gcc",
        "-std=c11",
        "-D_GNU_SOURCE",
        "-O1",
        "-I",
        TOP / "clients/c/include",
        "-o",
        program,
        TOP / "clients/c/session.c",
        LIBRARY,
        f"-Wl,-rpath,{LIBRARY.parent}",
    )
    ran(program, out, 4, "-", "-", "-", clip, input=f"frame {NUMBER}\n".encode())
    return out.read_bytes()


def by_python(clip, folder):
    with Session(clip, engine="library") as session:
        return bytes(session.picture(NUMBER)[2])


def by_rust(clip, folder):
    need("cargo")
    crates = folder / "rust"
    shutil.copytree(TOP / "clients/rust", crates, ignore=shutil.ignore_patterns("target"))
    (crates / "wokureti/examples").mkdir(exist_ok=True)
    (crates / "wokureti/examples/frame.rs").write_text(RUST)
    for name in ("libwokureti.so", "libwokureti.so.0"):
        shutil.copyfile(LIBRARY, folder / name)
    room = {
        **os.environ,
        "WOKURETI_LIB": str(folder),
        "CARGO_TARGET_DIR": str(folder / "target"),
        "LD_LIBRARY_PATH": str(folder),
    }
    words = [
        "cargo",
        "run",
        "--offline",
        "--locked",
        "--quiet",
        "--manifest-path",
        crates / "wokureti/Cargo.toml",
        "--example",
        "frame",
        "--",
        clip,
    ]
    return ran(*words, env=room, cwd=folder)


def by_gstreamer(clip, folder):
    need("gcc", "pkg-config", "gst-launch-1.0")
    if subprocess.run(["pkg-config", "--exists", *test_gstreamer.NEEDED], timeout=LIMIT, check=False).returncode:
        raise Skipped("GStreamer's headers are not there")
    out, room = folder / "gstreamer", {
        **os.environ,
        "GST_PLUGIN_PATH": str(test_gstreamer.compiled(folder / "plugin")),
        "GST_REGISTRY": str(folder / "registry"),
    }
    ran("gst-launch-1.0", "-q", "wokuretisrc", f"location={clip}", "!", "filesink", f"location={out}", env=room)
    return out.read_bytes()[NUMBER * SIZE : (NUMBER + 1) * SIZE]


def by_vapoursynth(clip, folder):
    need("gcc")
    (folder / "vapoursynth").mkdir()
    status, lines, samples = test_vapoursynth.Host(folder / "vapoursynth").run([NUMBER], f"path={clip}")
    if status:
        raise OSError(f"status {status}, {lines}")
    return samples


def by_page(clip, folder):
    need("node")
    if not PAGE.is_file():
        raise Skipped("the page is not built: ./build.py --web makes it")
    out = folder / "page"
    task = {"file": str(clip), "lines": [f"frame {NUMBER}"], "out": str(out), "save": str(folder / "page.ivf")}
    [result] = map(
        json.loads,
        ran("node", TOP / "tests/web_session.js", PAGE, input=(json.dumps(task) + "\n").encode()).splitlines(),
    )
    if "error" in result:
        raise OSError(result["error"])
    return out.read_bytes()


DECODERS = {"ffmpeg": by_ffmpeg, "vpxdec": by_vpxdec}
# Those that need the library.
LOADING = {
    "C": by_c,
    "Python without a process": by_python,
    "Rust": by_rust,
    "GStreamer": by_gstreamer,
    "VapourSynth's host": by_vapoursynth,
}
HOSTS = {"vp8serve": by_program, **LOADING, "the page in Node": by_page}


def without_library():
    """Why the hosts that need the library are skipped, or None."""
    if not LIBRARY.is_file():
        return "the library is not built: ./build.py --library makes it"
    os.environ["LIBWOKURETI"] = str(LIBRARY)
    return None


def main():
    why, found, wrong = without_library(), {}, []
    packets = list(records((TOP / "examples/mandelbrot.ivf").read_bytes()))
    with tempfile.TemporaryDirectory() as room:
        folder = pathlib.Path(room)
        clip = folder / "clip.webm"
        clip.write_bytes(
            webm([data for _, data in packets], [40 * place for place in range(len(packets))], duration=40_000_000)
        )
        for name, by in {**DECODERS, **HOSTS}.items():
            try:
                if why is not None and name in LOADING:
                    raise Skipped(why)
                found[name] = by(clip, folder)
            except Skipped as skipped:
                print(f"skipped: {name}: {skipped}")
            except (OSError, SystemExit) as error:
                wrong.append(f"{name}: {error}")
    wanted = next((found[name] for name in DECODERS if name in found), None)
    if wanted is None or len(wanted) != SIZE:
        wrong.append("no decoder shows the frame")
    wrong += [
        f"{name}: {len(samples)} bytes that are other samples" for name, samples in found.items() if samples != wanted
    ]
    print("".join(line + "\n" for line in wrong), end="")
    return 1 if wrong else 0


if __name__ == "__main__":
    sys.exit(main())
