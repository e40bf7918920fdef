#!/usr/bin/env python3
"""Tests the VapourSynth plugin over the library: its frames, asked for from several threads in any order, are those
that vp8serve serves, and its errors have the refusals of vp8serve.

VapourSynth is not there: the plugin is loaded by a host of its own, tests/vapoursynth_host.c. The library is that of
the variable LIBWOKURETI, or bin/libwokureti.so.0. It prints what differs and ends with 1, or prints nothing and ends
with 0; a line `skipped: ..` names what could not be run.
"""

import copy
import itertools
import os
import pathlib
import random
import re
import shutil
import statistics
import subprocess
import sys
import tempfile
import types
from fractions import Fraction

TOP = pathlib.Path(__file__).resolve().parent.parent
sys.dont_write_bytecode = True
sys.path[1:1] = [str(TOP / "clients/python"), str(TOP / "compare")]
import guides  # noqa: E402
from library.webm import webm  # noqa: E402
from wokureti.media import ivf  # noqa: E402

DATA = TOP / "crates/gate_clips/data"
LIBRARY = pathlib.Path(os.environ.get("LIBWOKURETI") or TOP / "bin/libwokureti.so.0")
SERVE = os.environ.get("VP8SERVE") or str(TOP / "bin/vp8serve")
LIMIT = 120
CHECKS = (["-fsanitize=address,undefined", "-fno-sanitize-recover=all"], [])
# Links tests/opened.c into the plugin.
NOTES = (TOP / "tests/opened.c", "-Wl,--wrap=wk_open,--wrap=wk_open_bytes")
# VapourSynth for the source in Python.
STUB = f"""
import sys
sys.path[1:1] = {[str(TOP / "clients/python/tests"), str(TOP / "clients/python")]}
import test_vapoursynth
test_vapoursynth.Clip.set_output = lambda clip: print(clip.width, clip.height, clip.num_frames)
"""
PROPERTIES = "_Matrix=6 _ColorRange=1 _ChromaLocation=1 _FieldBased=0"


def ran(*words, **more):
    return subprocess.run(list(map(str, words)), capture_output=True, timeout=LIMIT, check=False, **more)


class Host:
    """The plugin and its host, compiled into a folder."""

    def __init__(self, folder, more=()):
        """With `more` to link into the plugin."""
        self.folder = folder
        self.plugin, self.host = folder / "libwokureti-vapoursynth.so", folder / "host"
        own = ran("pkg-config", "--cflags", "vapoursynth", text=True) if shutil.which("pkg-config") else None
        self.has_header = own is not None and own.returncode == 0
        flags = [
            "-std=gnu11",
            "-O1",
            "-g",
            "-Wall",
            "-Wextra",
            "-Werror",
            "-fvisibility=hidden",
            "-I",
            TOP / "clients/c/include",
            "-I",
            TOP / "clients/vapoursynth",
        ]
        flags += own.stdout.split() if self.has_header else []
        for checks in CHECKS:
            self.is_checked = bool(checks)
            made = ran(
                "gcc",
                *flags,
                *checks,
                "-fPIC",
                "-shared",
                "-o",
                self.plugin,
                TOP / "clients/vapoursynth/wokureti.c",
                *more,
                LIBRARY,
                f"-Wl,-rpath,{LIBRARY.parent}",
                "-pthread",
                text=True,
            )
            host = ran(
                "gcc", *flags, *checks, "-o", self.host, TOP / "tests/vapoursynth_host.c", "-ldl", "-pthread", text=True
            )
            if made.returncode == host.returncode == 0:
                return
        raise SystemExit(f"the plugin or its host does not compile: {made.stderr}{host.stderr}")

    def run(self, numbers, *arguments, threads=4):
        """The host's status, its lines, and the samples."""
        out = self.folder / "frames"
        room = {**os.environ, "OPENED": str(self.folder / "opened")}
        done = ran(self.host, self.plugin, out, threads, *arguments, "--", *numbers, text=True, env=room)
        lines = (done.stdout + done.stderr[-500:]).splitlines()
        return done.returncode, lines, out.read_bytes() if done.returncode == 0 else b""


def served(paths, numbers, script=None):
    """vp8serve's replies to requests for these frames, with the reasons of --explain, and the samples of those that are
    served.
    """
    with tempfile.TemporaryDirectory() as folder:
        out = pathlib.Path(folder, "out.y4m")
        requests = ([f"script {script}"] if script else []) + [f"frame {number}" for number in numbers]
        more = ["--sources", ":".join(map(str, paths[1:]))] if paths[1:] else []
        done = ran(
            SERVE, paths[0], "-", out, "--explain", *more, input="".join(line + "\n" for line in requests).encode()
        )
        line, rest = out.read_bytes().split(b"\n", 1)
    width, height = (int(word[1:]) for word in line.split()[1:3])
    size = width * height * 3 // 2
    frames = [rest[at + 6 : at + 6 + size] for at in range(0, len(rest), 6 + size)]
    reasons = {
        int(line.split()[1][:-1]): line.split(": ", 2)[2]
        for line in done.stderr.decode().splitlines()
        if line.startswith("line ")
    }
    replies = [
        reply + (f": {reasons[number]}" if number in reasons else "")
        for number, reply in enumerate(done.stdout.decode().splitlines(), 1)
    ]
    return replies[1 if script else 0 :], b"".join(frames), (width, height)


def kinds(path):
    """The kind of each shown packet, as VapourSynth names it."""
    return ["I" if ivf.is_key(data) else "P" for _, data in ivf.read_packets(path)[1] if ivf.is_shown(data)]


def rate(path):
    """The frames a second of a file, in lowest terms."""
    head, packets = ivf.read_packets(path)
    stamps = [stamp for stamp, data in packets if ivf.is_shown(data)]
    found = Fraction(
        head.rate,
        head.scale
        * statistics.median_high([after - before for before, after in zip(stamps, stamps[1:]) if after > before]),
    )
    return found.numerator, found.denominator


def times(path, shown, many, one):
    """When each of these frames of a file begins, and how long it lasts, in seconds: by its packets' time stamps, or by
    the rate if that is never a frame away.
    """
    head, packets = ivf.read_packets(path)
    stamps = [stamp for stamp, data in packets if ivf.is_shown(data)]
    steps = [after - before for before, after in zip(stamps, stamps[1:])]
    median = statistics.median_low([step for step in steps if step > 0])
    lasting = [Fraction((step if step > 0 else median) * head.scale, head.rate) for step in [*steps, 0]]
    begins = list(itertools.accumulate((lasting[number] for number in shown), initial=Fraction(0)))
    frame = Fraction(one, many)
    if all(abs(begin - number * frame) < frame for number, begin in enumerate(begins[:-1])):
        return [(number * frame, frame) for number in range(len(shown))]
    # The last frame lasts as long as one of the rate.
    return [*((begin, lasting[number]) for begin, number in zip(begins, shown[:-1])), (begins[-2], frame)]


def frames(host, path, chance, script=None, sources=(), cache=(), shown=None):
    """What is wrong with the frames of a clip, which are asked for three times each. They are these of the file, in
    order, or all.
    """
    given = [f"path={path}", *(f"sources={one}" for one in sources), *([f"script={script}"] if script else []), *cache]
    status, lines, _ = host.run([], *given)
    if status or not lines or not lines[0].startswith("clip "):
        return [f"{path.name}: status {status}, {lines}"]
    count = int(lines[0].split()[3])
    numbers = 3 * list(range(count))
    chance.shuffle(numbers)
    replies, samples, size = served([path, *sources], numbers, script)
    kind, (many, one) = kinds(path), rate(path)
    wanted = [f"clip {size[0]}x{size[1]} frames {count} rate {many}/{one}"]
    is_whole = all(reply.startswith("served ") for reply in replies)
    timed = (
        times(path, shown or range(count), many, one)
        if is_whole
        else [(Fraction(number * one, many), Fraction(one, many)) for number in range(count)]
    )
    for number, reply in zip(numbers, replies):
        picture, (begin, lasts) = "" if script else f" _PictType={kind[number]}", timed[number]
        properties = (
            f"{PROPERTIES} _DurationNum={lasts.numerator} _DurationDen={lasts.denominator}"
            f" _AbsoluteTime={float(begin):.17g}{picture}"
        )
        source = int(reply.split()[2]) if reply.startswith("refused source ") else 0
        wanted.append(
            f"{number} {properties}"
            if reply == f"served {number}"
            else f"{number} error wokureti: {[path, *sources][source]}: frame {number}: {reply}"
        )
    wrong = []
    for threads in (1, 4):
        status, lines, got = host.run(numbers, *given, threads=threads)
        if status or lines != wanted:
            wrong.append(
                f"{path.name} on {threads} threads: status {status},"
                f" {[pair for pair in zip(lines, wanted) if pair[0] != pair[1]][:2]} {lines[-1:]}"
            )
        elif got != samples:
            wrong.append(f"{path.name} on {threads} threads: other samples")
    return wrong


def written(folder, name, changes, step=1):
    """A clip of ten packets, of which some are others, with this step of time stamps."""
    head, packets = ivf.read_packets(DATA / "scene-cuts.ivf")
    packets = [(step * place, changes.get(place, data)) for place, (_, data) in enumerate(packets[:10])]
    path = folder / name
    path.write_bytes(b"".join(ivf.pieces(head, len(packets), packets)))
    return path


def refusals(host, folder):
    """Clips that are not made."""
    clip, empty = DATA / "scene-cuts.ivf", folder / "empty.ivf"
    empty.write_bytes(b"".join(ivf.pieces(ivf.Head(64, 48, 30, 1), 0, [])))
    wanted = [
        ([], "path is missing"),
        ([f"path={folder / 'none.ivf'}"], f"cannot read {folder / 'none.ivf'}: No such file or directory"),
        ([f"path={folder}"], f"cannot read {folder}: Is a directory"),
        ([f"path={TOP / 'README.md'}"], f"{TOP / 'README.md'} is not an IVF, WebM or Matroska file of VP8: Magic"),
        (
            [f"path={clip}", f"sources={TOP / 'README.md'}"],
            f"{TOP / 'README.md'} is not an IVF, WebM or Matroska file of VP8: Magic",
        ),
        ([f"path={clip}", *[f"sources={clip}"] * 8], "there are more than seven sources"),
        ([f"path={clip}", "cache=0"], "cache is 0, but must be 1 to 4096"),
        ([f"path={clip}", "cache=4097"], "cache is 4097, but must be 1 to 4096"),
        ([f"path={clip}", "cache_bytes=0"], "cache_bytes is 0, but must be 1 or more"),
        ([f"path={clip}", "cache_bytes=-1"], "cache_bytes is -1, but must be 1 or more"),
        ([f"path={clip}", "cache=32", "cache_bytes=1048576"], "either cache or cache_bytes is given, not both"),
        (
            [f"path={clip}", "script=trim 0"],
            f"{clip}: script: refused Syntax: node 1: a word is missing: trim A FIRST COUNT",
        ),
        (
            [f"path={clip}", "script=source 1"],
            f"{clip}: script: refused Reference: a node names a source or node that is not before it",
        ),
        ([f"path={clip}", "script=trim 0 0 9\nuse 0"], "script: refused Syntax"),
        ([f"path={empty}"], f"{empty}: there are no frames"),
        ([f"path={DATA / 'odd-size.ivf'}"], "VapourSynth's YUV420P8 needs even sides"),
        (
            [f"path={written(folder, 'all.ivf', dict.fromkeys(range(10), bytes(2)))}"],
            "no frame is served; frame 0: refused packet 0 ShortPacket: packet 0 has 2 bytes, a tag needs 3",
        ),
    ]
    for words, text in wanted:
        status, lines, _ = host.run([], *words)
        if status != 3 or len(lines) != 1 or not lines[0].startswith("error wokureti.Source: ") or text not in lines[0]:
            yield f"{words}: status {status}, {lines}"


def limits(folder):
    """The limit of what a session caches is the one that is given, or 512 MiB."""
    folder.mkdir()
    host, clip, opened = Host(folder, NOTES), DATA / "scene-cuts.ivf", folder / "opened"
    most = 2**63 - 1
    for words, wanted in (
        ([], "bytes 536870912"),
        (["cache=7"], "states 7"),
        (["cache_bytes=1"], "bytes 1"),
        ([f"cache_bytes={most}"], f"bytes {most}"),
    ):
        opened.unlink(missing_ok=True)
        status, lines, _ = host.run([3, 0], f"path={clip}", *words)
        if status or len(lines) != 3 or opened.read_text() != wanted + "\n":
            yield f"{words}: status {status}, {lines}, opened with {opened.read_text()!r}"


# The functions of VSAPI up to the last one that the plugin calls, in the order of VapourSynth's API 4.
ORDER = """createVideoFilter createVideoFilter2 createAudioFilter createAudioFilter2 setLinearFilter setCacheMode
setCacheOptions freeNode addNodeRef getNodeType getVideoInfo getAudioInfo newVideoFrame newVideoFrame2 newAudioFrame
newAudioFrame2 freeFrame addFrameRef copyFrame getFramePropertiesRO getFramePropertiesRW getStride getReadPtr
getWritePtr getVideoFrameFormat getAudioFrameFormat getFrameType getFrameWidth getFrameHeight getFrameLength
getVideoFormatName getAudioFormatName queryVideoFormat queryAudioFormat queryVideoFormatID getVideoFormatByID getFrame
getFrameAsync getFrameFilter requestFrameFilter releaseFrameEarly cacheFrame setFilterError createFunction freeFunction
addFunctionRef callFunction createMap freeMap clearMap copyMap mapSetError mapGetError mapNumKeys mapGetKey mapDeleteKey
mapNumElements mapGetType mapSetEmpty mapGetInt mapGetIntSaturated mapGetIntArray mapSetInt mapSetIntArray mapGetFloat
mapGetFloatSaturated mapGetFloatArray mapSetFloat mapSetFloatArray mapGetData mapGetDataSize mapGetDataTypeHint
mapSetData""".split()


def order():
    """Each function that the plugin calls has its number in that order, which the compiler compares with its place in
    the struct.
    """
    header = (TOP / "clients/vapoursynth/vapoursynth4.h").read_text()
    numbers = {
        name: int(number) for name, number in re.findall(r"^WOKURETI_IS_AT\((\w+), (\d+)\);", header, re.MULTILINE)
    }
    called = set(re.findall(r"\bapi->(\w+)\(", (TOP / "clients/vapoursynth/wokureti.c").read_text())) - {
        "configPlugin",
        "registerFunction",
    }
    for name in sorted(called | set(numbers)):
        if name not in ORDER or numbers.get(name) != ORDER.index(name):
            yield f"{name} has the number {numbers.get(name)} in vapoursynth4.h"


def sizes(host, folder):
    """A frame of another size than the first one is an error, with both sizes, and the others are served."""
    clip, other = DATA / "scene-cuts.ivf", folder / "other.ivf"
    ran(SERVE, "-", "-", "-", "--save", other, input=b"blank 0 32 16\nhold 1\n")
    script = "source 1; splice 0 1"
    count = len(kinds(clip))
    replies, samples, (width, height) = served([clip, other], [0, count, 1, count + 1], script)
    status, lines, got = host.run(
        [0, count, 1, count + 1], f"path={clip}", f"sources={other}", f"script={script}", threads=1
    )
    wanted = (
        f"{count} error wokureti: {clip}: frame {count}: refused SizeDiffers: 32x16 is not {width}x{height}, the size"
        " of the first frame served"
    )
    if (
        status
        or got != samples
        or lines[2] != wanted
        or replies[1] not in wanted
        or not lines[4].startswith(f"{count + 1} error ")
    ):
        yield f"frames of two sizes: status {status}, {lines}"


def rates(host, folder):
    """The frame rate of files in milliseconds, IVF and WebM, whose frames have their kinds."""
    head, packets = ivf.read_packets(DATA / "scene-cuts.ivf")
    data = [packet for _, packet in packets]
    shown = kinds(DATA / "scene-cuts.ivf")
    for step, rate in ((Fraction(100, 3), "30/1"), (40, "25/1"), (Fraction(125, 3), "24/1")):
        stamps = [round(place * step) for place in range(len(data))]
        texts = {
            "ivf": b"".join(ivf.pieces(ivf.Head(head.width, head.height, 1000, 1), len(data), list(zip(stamps, data)))),
            "webm": webm(data, stamps),
        }
        for name, text in texts.items():
            path = folder / f"rate.{name}"
            path.write_bytes(text)
            status, lines, _ = host.run([1], f"path={path}")
            if status or not lines[0].endswith(f" rate {rate}") or not lines[1].endswith(f" _PictType={shown[1]}"):
                yield f"{name} at {rate}: status {status}, {lines}"


def guide(host, folder):
    """The lines of docs/guide/c.md: the plugin that they build makes the clip, and the source in Python makes its own,
    over a stub.
    """
    guides.checkout(folder, LIBRARY)
    build, use, python = guides.blocks("VapourSynth")
    status, said = guides.run(build, folder, dict(os.environ))
    if status or said:
        yield f"the guide does not build: {said}"
        return
    clip, loaded = DATA / "scene-cuts.ivf", []
    for name in ("a.ivf", "b.webm"):
        shutil.copyfile(clip, folder / name)

    def source(path, sources, script, cache):
        built = copy.copy(host)
        built.plugin = folder / loaded[0]
        return built.run(
            [0],
            f"path={folder / path}",
            *(f"sources={folder / one}" for one in sources),
            f"script={script}",
            f"cache={cache}",
        )[1][0]

    names = {
        "core": types.SimpleNamespace(
            std=types.SimpleNamespace(LoadPlugin=loaded.append), wokureti=types.SimpleNamespace(Source=source)
        )
    }
    exec(use, names)
    if f"frames {2 * len(kinds(clip))} " not in names["clip"]:
        yield f"the guide's clip: {names['clip']}"
    ran(SERVE, "-", "-", "-", "--save", folder / "in.ivf", input=b"blank 0 1280 720\nhold 1\n")
    done = ran(sys.executable, "-B", "-c", STUB + python, cwd=folder, text=True)
    if done.returncode or done.stdout != "640 360 2\n":
        yield f"the guide's source in Python: {done.stdout}{done.stderr[-500:]}"


def main():
    if shutil.which("gcc") is None:
        print("skipped: gcc is not there")
        return 0
    if not LIBRARY.is_file():
        print("skipped: the library is not built: ./build.py --library makes it")
        return 0
    chance = random.Random(75)
    with tempfile.TemporaryDirectory() as name:
        folder = pathlib.Path(name)
        host = Host(folder)
        if not host.is_checked:
            print("skipped: the compiler has no -fsanitize=address")
        if not host.has_header:
            print(
                "skipped: VapourSynth is not there: the plugin is compiled with the declarations of"
                " clients/vapoursynth/vapoursynth4.h, and loaded by tests/vapoursynth_host.c"
            )
        clip, other, key = (
            DATA / "hidden-altref.ivf",
            DATA / "scene-cuts.ivf",
            ivf.read_packets(DATA / "scene-cuts.ivf")[1][0][1],
        )
        wrong = [
            *order(),
            *frames(host, clip, chance),
            *frames(host, other, chance, cache=["cache=2"]),
            *refusals(host, folder),
            *limits(folder / "limits"),
        ]
        wrong += frames(host, other, chance, cache=["cache_bytes=1"])
        wrong += frames(host, clip, chance, script="crop 0 2 2 16 8; trim 1 3 4", shown=range(3, 7))
        wrong += frames(
            host,
            clip,
            chance,
            script="source 1; trim 1 0 4; splice 2 1; fade 3 0 4 256 0",
            sources=[clip],
            shown=[*range(4), *range(len(kinds(clip)))],
        )
        wrong += frames(host, written(folder, "middle.ivf", {4: bytes(2), 7: key}), chance)
        wrong += [*sizes(host, folder), *rates(host, folder), *guide(host, folder / "guide")]
        wrong += frames(host, written(folder, "first.ivf", {0: b"\x10\x00", 2: key}, step=5), chance)
    print("".join(line + "\n" for line in wrong), end="")
    return 1 if wrong else 0


if __name__ == "__main__":
    sys.exit(main())
