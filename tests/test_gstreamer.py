#!/usr/bin/env python3
"""Tests the GStreamer element over the library: its frames, in any order and after seeks, are the ones that vp8serve
serves, its errors have vp8serve's reasons, and the lines of docs/guide/c.md run.

The library is that of the variable LIBWOKURETI, or bin/libwokureti.so.0. It prints what differs and ends with 1, or
prints nothing and ends with 0; a line `skipped: ..` names what could not be run.
"""

import hashlib
import os
import pathlib
import shutil
import subprocess
import sys
import tempfile
import urllib.parse
from fractions import Fraction

TOP = pathlib.Path(__file__).resolve().parent.parent
sys.dont_write_bytecode = True
sys.path[1:1] = [str(TOP / "clients/python"), str(TOP / "compare")]
import guides  # noqa: E402
from library.webm import webm  # noqa: E402
from wokureti.media import ivf  # noqa: E402

DATA = TOP / "crates/gate_clips/data"
LIBRARY = pathlib.Path(os.environ.get("LIBWOKURETI") or TOP / "bin/libwokureti.so.0")
SERVE = os.environ.get("VP8SERVE") or str(TOP / "bin/vp8serve")
NEEDED = ("gstreamer-video-1.0", "gstreamer-base-1.0")
LIMIT = 120
NANO = 10**9
# A clip of the example's size has strides that are its widths.
CLIP = TOP / "examples/mandelbrot.ivf"
# Links tests/opened.c into the plugin.
NOTES = (TOP / "tests/opened.c", "-Wl,--wrap=wk_open,--wrap=wk_open_bytes")
SINK = "fakesink name=sink sync=false"


def ran(*words, **more):
    return subprocess.run(list(map(str, words)), capture_output=True, timeout=LIMIT, check=False, **more)


def compiled(folder, more=()):
    """The folder of the plugin, with `more` linked into it."""
    folder.mkdir(exist_ok=True)
    flags = ran("pkg-config", "--cflags", "--libs", *NEEDED, text=True)
    made = folder / "libgstwokureti.so"
    done = ran(
        "gcc",
        "-std=c11",
        "-O1",
        "-Wall",
        "-Wextra",
        "-Werror",
        "-fPIC",
        "-shared",
        "-o",
        made,
        TOP / "clients/gstreamer/wokuretisrc.c",
        *more,
        "-I",
        TOP / "clients/c/include",
        *flags.stdout.split(),
        LIBRARY,
        f"-Wl,-rpath,{LIBRARY.parent}",
        text=True,
    )
    if done.returncode != 0:
        raise SystemExit(f"the plugin does not compile: {done.stderr}")
    return folder


class Room:
    """A folder with the plugin and the host of the tests."""

    def __init__(self, folder, more=()):
        """With `more` linked into the plugin."""
        self.folder, self.host = folder, folder / "host"
        self.variables = {
            **os.environ,
            "GST_PLUGIN_PATH": str(compiled(folder, more)),
            "GST_REGISTRY": str(folder / "registry"),
            "OPENED": str(folder / "opened"),
        }
        flags = ran("pkg-config", "--cflags", "--libs", *NEEDED, text=True)
        made = ran(
            "gcc",
            "-std=c11",
            "-O1",
            "-Wall",
            "-Wextra",
            "-Werror",
            "-o",
            self.host,
            TOP / "tests/gstreamer_host.c",
            *flags.stdout.split(),
            text=True,
        )
        if made.returncode:
            raise SystemExit(f"the host does not compile: {made.stderr}")

    def launch(self, *words):
        """What gst-launch-1.0 writes of a pipeline that begins with these words, and its status."""
        out = self.folder / "frames"
        out.unlink(missing_ok=True)
        done = ran("gst-launch-1.0", "-q", *words, "!", "filesink", f"location={out}", env=self.variables, text=True)
        return done, out.read_bytes() if out.exists() else b""

    def run(self, source, *commands):
        """The lines of the host over this source, or its error."""
        done = ran(self.host, f"{source} ! {SINK}", *commands, env=self.variables, text=True)
        return done.stdout.splitlines() if done.returncode == 0 else [f"status {done.returncode}: {done.stderr[-400:]}"]


def served(requests, paths=(CLIP,)):
    """The samples of the frames that vp8serve writes for these requests, and the lines of --explain."""
    with tempfile.TemporaryDirectory() as folder:
        out = pathlib.Path(folder, "out.y4m")
        more = ["--sources", ":".join(map(str, paths[1:]))] if paths[1:] else []
        done = ran(SERVE, paths[0], "-", out, "--explain", *more, input=requests.encode())
        line, rest = out.read_bytes().split(b"\n", 1)
    width, height = (int(word[1:]) for word in line.split()[1:3])
    size = width * height + 2 * ((width + 1) // 2) * ((height + 1) // 2)
    return [rest[at + 6 : at + 6 + size] for at in range(0, len(rest), 6 + size)], done.stderr.decode().splitlines()


def quoted(path):
    """A value of a property in a text of a pipeline."""
    return '"' + str(path).replace("\\", "\\\\").replace('"', '\\"') + '"'


def rate():
    """The frames a second of the clip."""
    head = CLIP.read_bytes()[:32]
    return int.from_bytes(head[16:20], "little") // int.from_bytes(head[20:24], "little")


def launched(room, whole):
    """Frames by gst-launch-1.0: all, those of a script, and those of two sources with `:` in their paths."""
    done, got = room.launch("wokuretisrc", f"location={CLIP}")
    if done.returncode or got != b"".join(whole):
        yield f"all frames: status {done.returncode}, {len(got)} bytes, {done.stderr[-300:]}"
    done, got = room.launch("wokuretisrc", f"location={CLIP}", "script=trim 0 10 5")
    if done.returncode or got != b"".join(whole[10:15]):
        yield f"a script: status {done.returncode}, {len(got)} bytes, {done.stderr[-300:]}"
    folder = room.folder / "a: b, 100%"
    folder.mkdir()
    one, other, script = (
        folder / "one:1?.ivf",
        folder / "other:2 #&+.ivf",
        "source 1; trim 1 0 4; trim 0 40 2; splice 2 3",
    )
    for path in (one, other):
        shutil.copyfile(CLIP, path)
    wanted = b"".join(whole[:4] + whole[40:42])
    uri = f"wokureti://{urllib.parse.quote(str(one))}?source={urllib.parse.quote(str(other))}&script={script}"
    plain = f"wokureti://{CLIP}?script=trim 0 10 5&states=3&cache-bytes=7"
    for words, frames in (
        (["wokuretisrc", f"location={one}", f"source1={other}", f"script={script}"], wanted),
        (
            ["wokuretisrc", f"location={CLIP}", f"sources={CLIP}:{CLIP}", f"script={script}; source 2; splice 4 5"],
            wanted + b"".join(whole),
        ),
        (["uridecodebin", f"uri={uri}"], wanted),
        (["uridecodebin", f"uri={plain}"], b"".join(whole[10:15])),
        (["uridecodebin", f"uri={uri.replace(' ', '%20')}"], wanted),
        (["uridecodebin", f"uri=WOKURETI://{CLIP}"], b"".join(whole)),
    ):
        done, got = room.launch(*words)
        if done.returncode or got != frames:
            yield f"{words}: status {done.returncode}, {len(got)} bytes, {done.stderr[-300:]}"


def frames_of(lines):
    """The numbers and digests of the frames that the host prints."""
    return [(int(line.split()[1]), line.split()[4]) for line in lines if line.startswith("frame ")]


def sought(room, whole):
    """Frames after exact seeks in time and by number, ranges, and frames backward: they, their times and their
    durations.
    """
    digests, each = [hashlib.md5(frame).hexdigest() for frame in whole], NANO // rate()
    source, last = f"wokuretisrc location={CLIP}", len(whole) - 1
    wanted, commands = [], []
    for number in (40, 3, 3, last, 0, 21, 22):
        commands += ["frame", number, "time", number * each, "time", number * each + each - 1]
        wanted += [number] * 3
    for words, numbers in (
        (("1", "frame", 3, 6), range(3, 6)),
        (("1", "time", 3 * each + 1, 6 * each + 1), range(3, 7)),
        (("-1", "frame", 0, 4), range(3, -1, -1)),
        (("-1", "frame", 44, -1), range(last, 43, -1)),
        (("-2", "time", 3 * each, 5 * each), range(4, 2, -1)),
        (("-1", "time", 3 * each + 1, 5 * each + 1), range(5, 2, -1)),
        (("1", "frame", last, -1), [last]),
        (("1", "frame", 0, -1), range(last + 1)),
        (("-1", "frame", 0, 10 * last), range(last, -1, -1)),
        (("2", "frame", 46, -1), [46, 47]),
    ):
        commands += ["play", *words]
        wanted += numbers
    # Loops, and a pipeline that is started again.
    commands += ["loop", "1", 3, 6, "loop", "-1", 3, 6, "again", "frame", 7]
    wanted += [3, 4, 5] * 2 + [5, 4, 3] * 2 + [0, 7]
    lines = room.run(source, "length", *commands)
    if frames_of(lines) != [(number, digests[number]) for number in wanted]:
        yield f"seeks: {lines[-30:]}, wanted {wanted}"
    if lines[0] != f"length {len(whole) * each} {len(whole)} second {rate()}":
        yield f"the length: {lines[0]}"
    for line in lines:
        word, *numbers = line.split()
        if word == "frame" and (int(numbers[1]), int(numbers[2])) != (int(numbers[0]) * each, each):
            yield f"the time of a frame: {line}"
    # The sink keeps one buffer, and one is written.
    if int(lines[-1].removeprefix("buffers ")) > 3:
        yield f"buffers are not used again: {lines[-1]}"


def beyond(room):
    """A seek past the end ends the frames, and nothing else."""
    lines = room.run(f"wokuretisrc location={CLIP}", "play", "1", "frame", 48, -1, "play", "1", "frame", 47, -1)
    if [line.split()[0] for line in lines] != ["end", "frame", "end", "buffers"]:
        yield f"a seek past the end: {lines}"


def rates(room):
    """The frame rate and the times of frames of files with other time bases."""
    packets, tick = [data for _, data in ivf.read_packets(CLIP)[1]], Fraction(1, 1000)
    ntsc, clips = Fraction(30000, 1001), []
    for name, head, step, many, count in (
        ("ticks", (90000, 1), 3000, Fraction(30), 48),
        ("film", (1000, 1), Fraction(125, 3), Fraction(24), 48),
        ("ntsc", (1000, 1), 1 / ntsc / tick, ntsc, 2400),
        ("frames", (30000, 1001), 1, ntsc, 48),
        ("thirds", (25, 1), 3, Fraction(25, 3), 48),
        ("none", (0, 0), 1, Fraction(30), 48),
        ("webm", None, 40, Fraction(25), 48),
        ("thirty", None, Fraction(100, 3), Fraction(30), 48),
    ):
        path, stamps = room.folder / f"rate-{name}", [round(n * step) for n in range(count)]
        data = (packets * 50)[:count]
        path.write_bytes(
            webm(data, stamps)
            if head is None
            else b"".join(ivf.pieces(ivf.Head(320, 180, *head), count, list(zip(stamps, data))))
        )
        clips.append((path, many, count))
    for path, many, count in clips:
        lines = room.run(
            f"wokuretisrc location={path}", "caps", "frame", "17", "time", int(18 * NANO / many) - 1, "length"
        )
        wanted = ["17", str(int(17 * NANO / many))]
        if (
            f"framerate=(fraction){many.numerator}/{many.denominator}" not in lines[0]
            or lines[1].split()[1:3] != wanted
            or lines[2].split()[1:3] != wanted
            or lines[3].split()[1:3] != [str(int(count * NANO / many)), str(count)]
        ):
            yield f"{path.name}: {lines}, wanted {many}"


def varying(room):
    """Frames whose time stamps vary have their own times, also those of a script, and are found by them."""
    packets = [data for _, data in ivf.read_packets(CLIP)[1]]
    steps = [40] * 10 + [300] + [40] * 10 + [1000, 20, 20] + [40] * 23
    stamps = [1000 + sum(steps[:place]) for place in range(48)]
    path, milli = room.folder / "varying.ivf", NANO // 1000
    path.write_bytes(b"".join(ivf.pieces(ivf.Head(320, 180, 1000, 1), 48, list(zip(stamps, packets)))))
    for script, shown in (
        (None, range(48)),
        ("trim 0 5 30", range(5, 35)),
        ("trim 0 5 30; crop 1 0 0 320 90; fade 2 0 9 0 256", range(5, 35)),
        ("parts 0 20 4 0 8 4", [*range(20, 24), *range(8, 12)]),
    ):
        begins = [sum(steps[number] for number in shown[:place]) * milli for place in range(len(shown))]
        # The last one lasts as long as one of the rate.
        ends = [*begins[1:], begins[-1] + 40 * milli]
        numbers, source = range(len(shown)), f"wokuretisrc location={path}" + (f' script="{script}"' if script else "")
        commands = ["length", "play", "1", "frame", 0, -1, "play", "-1", "frame", 0, -1]
        for number in numbers:
            commands += ["frame", number, "time", begins[number], "time", ends[number] - 1]
        lines = room.run(source, *commands)
        found = [tuple(map(int, line.split()[1:4])) for line in lines if line.startswith("frame ")]
        wanted = [*numbers, *reversed(numbers), *(number for number in numbers for _ in range(3))]
        if lines[0].split()[1:3] != [str(ends[-1]), str(len(shown))] or found != [
            (number, begins[number], ends[number] - begins[number]) for number in wanted
        ]:
            differing = [
                pair
                for pair in zip(found, ((number, begins[number], ends[number] - begins[number]) for number in wanted))
                if pair[0] != pair[1]
            ]
            yield f"times that vary, {script}: {lines[0]}, {len(found)} of {len(wanted)}, {differing[:3]}"


def colours(room):
    """The caps have the same colours at each size, and the samples of odd sizes are vp8serve's."""
    packets = room.folder / "large.ivf"
    # 1280x720: for GStreamer this height would be BT.709.
    ran(SERVE, "-", "-", "-", "--save", packets, "--pad", input=b"blank 0 1280 720\nhold 1\n")
    for path in (
        CLIP,
        packets,
        DATA / "odd-size.ivf",
        DATA / "one-sample.ivf",
        DATA / "narrow.ivf",
        DATA / "small.ivf",
    ):
        lines = room.run(f"wokuretisrc location={path}", "caps", "frame", "1")
        [first, second], _ = served("frame 0\nframe 1\n", [path])
        if (
            "colorimetry=(string)bt601" not in lines[0]
            or "chroma-site=(string)jpeg" not in lines[0]
            or frames_of(lines) != [(1, hashlib.md5(second).hexdigest())]
        ):
            yield f"{path.name}: {lines}"


def reason(lines, word):
    """What vp8serve --explain says of the last refusal: `line 2: frame: packet 60 has 2 bytes`."""
    return next(
        line.split(": ", 2)[2] for line in reversed(lines) if line.startswith("line ") and f": {word}: " in line
    )


def errors(room):
    """Errors have the path, the frame and the cause."""
    none, text, folder, broken = (
        room.folder / "none: x.ivf",
        TOP / "README.md",
        room.folder,
        room.folder / "broken: x.ivf",
    )
    ran(SERVE, CLIP, "-", "-", "--save", broken, input=b"replace 7 1100\n")
    syntax, packet = reason(served("frame 0\nscript trim 0\n")[1], "script"), reason(
        served("frame 0\nframe 7\n", [broken])[1], "frame"
    )
    # vp8serve takes no path with a colon among its sources.
    shutil.copyfile(broken, room.folder / "broken.ivf")
    other = reason(served("script source 1\nframe 0\nframe 7\n", [CLIP, room.folder / "broken.ivf"])[1], "frame")
    splice, odd = "source 1; splice 0 1", DATA / "odd-size.ivf"
    size = reason(served(f"script {splice}\nframe 0\nframe 48\n", [CLIP, odd])[1], "frame")
    for words, parts in (
        ([f"location={none}"], [f"cannot read {none}: No such file or directory"]),
        ([f"location={CLIP}", f"source1={none}"], [f"cannot read {none}: No such file or directory"]),
        ([f"location={folder}"], [f"cannot read {folder}: Is a directory"]),
        ([f"location={text}"], [f"{text} is not an IVF, WebM or Matroska file of VP8: Magic"]),
        ([f"location={CLIP}", f"source1={text}"], [f"{text} is not an IVF, WebM or Matroska file of VP8: Magic"]),
        ([f"location={CLIP}", "script=trim 0"], [f"{CLIP}: script trim 0: refused Syntax: {syntax}"]),
        ([f"location={CLIP}", "script=trim 0 48 1"], [f"{CLIP}: there are no frames"]),
        ([f"location={broken}"], [f"{broken}: frame 7: refused packet 7 ShortPacket: {packet}"]),
        (
            [f"location={CLIP}", f"source1={broken}", "script=source 1"],
            [f"{broken}: frame 7: refused source 1 packet 7 ShortPacket: {other}"],
        ),
        (
            [f"location={CLIP}", f"source1={odd}", f"script={splice}"],
            [f"{CLIP}: frame 48: refused SizeDiffers: {size}"],
        ),
        ([f"location={CLIP}", f"source2={CLIP}"], ["source2 is given, and source1 is not"]),
        (
            [f"location={CLIP}", f"source1={CLIP}", f"sources={CLIP}"],
            ["either sources or source1 to source7 are given, not both"],
        ),
        ([f"location={CLIP}", "sources=" + ":".join([str(CLIP)] * 8)], ["there are more than seven sources"]),
        ([], ["no location is given"]),
    ):
        done, _ = room.launch("wokuretisrc", *words)
        if not done.returncode or not all(part in done.stderr for part in parts):
            yield f"{words}: status {done.returncode}, {done.stderr[-400:]}, wanted {parts}"


def addresses(room):
    """Addresses that are none, by what GStreamer says of them."""
    for uri, part in (
        ("wokureti://host/a.ivf", "the form is wokureti:///PATH?NAME=VALUE&.."),
        ("wokureti:///a%zz.ivf", "the path is not percent-encoded"),
        (f"wokureti://{CLIP}?script=trim 0 1 2&script=-", "script is there twice"),
        (f"wokureti://{CLIP}?frames=7", "a name in the query is not"),
        (f"wokureti://{CLIP}?script", "a part of the query is not NAME=VALUE"),
        (f"wokureti://{CLIP}?states=4097", "states is not a number"),
        (f"wokureti://{CLIP}?cache-bytes=0", "cache-bytes is not a number"),
        (f"wokureti://{CLIP}?" + "&".join(["source=/a"] * 8), "there are more than seven sources"),
        (f"wokureti://{CLIP}#t=7", "# is written as %23"),
        (f"wokureti://{CLIP}?script=%00", "a part of the query is not NAME=VALUE"),
        ("wokureti:///none.ivf", "cannot read /none.ivf: No such file or directory"),
    ):
        done, _ = room.launch("uridecodebin", f"uri={uri}")
        if not done.returncode or part not in done.stderr:
            yield f"{uri}: status {done.returncode}, {done.stderr[-400:]}"


def limits(folder):
    """The limit of what a session caches is the one that is given, or 512 MiB."""
    room, opened = Room(folder, NOTES), folder / "opened"
    most = 2**64 - 1
    given = [
        ["wokuretisrc", f"location={CLIP}", *words]
        for words in (
            [],
            ["states=7"],
            ["cache-bytes=1"],
            [f"cache-bytes={most}"],
            ["states=0", "cache-bytes=2"],
            ["states=7", "cache-bytes=2"],
        )
    ]
    given += [["uridecodebin", f"uri=wokureti://{CLIP}?{words}"] for words in ("", "states=7", "cache-bytes=3")]
    for words, wanted in zip(
        given,
        (
            "bytes 536870912",
            "states 7",
            "bytes 1",
            f"bytes {most}",
            "bytes 2",
            "states 7",
            "bytes 536870912",
            "states 7",
            "bytes 3",
        ),
    ):
        opened.unlink(missing_ok=True)
        done = ran("gst-launch-1.0", "-q", *words, "!", "fakesink", "num-buffers=2", env=room.variables, text=True)
        if done.returncode or opened.read_text() != wanted + "\n":
            yield f"{words}: status {done.returncode}, opened with {opened.read_text()!r}, {done.stderr[-300:]}"


def long(room):
    """A seek does not wait for a frame that takes long, and the frame after it is the right one."""
    head, packets = ivf.read_packets(CLIP)
    path, many = room.folder / "long.ivf", 6000
    data = [packets[0][1]] + [packets[1][1]] * many
    path.write_bytes(b"".join(ivf.pieces(head, len(data), list(enumerate(data)))))
    lines = room.run(f"wokuretisrc location={path} states=1", "long", many * NANO // rate())
    [first], _ = served("frame 0\n")
    if not lines[0].startswith("long ") or frames_of(lines) != [(0, hashlib.md5(first).hexdigest())]:
        yield f"a long frame: {lines}"
        return
    call, whole = map(int, lines[0].split()[1:])
    if 2 * call > whole:
        yield f"a seek takes {call} ms while a frame of {whole} ms is decoded"


def facts(room):
    """What gst-inspect-1.0 shows."""
    shown = ran("gst-inspect-1.0", "wokuretisrc", env=room.variables, text=True).stdout
    lines = [" ".join(line.split()) for line in shown.splitlines()]
    for wanted in (
        "License unknown",
        "Supported URI protocols:",
        "wokureti",
        "Version " + (TOP / "VERSION").read_text().strip(),
    ):
        if wanted not in lines:
            yield f"gst-inspect-1.0 has no line {wanted!r}"


def guide(folder):
    """The lines of docs/guide/c.md, with sinks that need no screen."""
    guides.checkout(folder, LIBRARY)
    head, packets = ivf.read_packets(CLIP)
    data = [data for _, data in packets] * 4
    (folder / "a.ivf").write_bytes(b"".join(ivf.pieces(head, len(data), list(enumerate(data)))))
    # The contents of a file and not its name are what is looked at.
    (folder / "b.webm").write_bytes(webm([data for _, data in packets], [40 * place for place in range(len(packets))]))
    build, use = guides.blocks("GStreamer")
    for text in ["autovideosink", "gst-play-1.0 "]:
        if text not in use:
            yield f"the guide has no {text}"
    use = use.replace("autovideosink", "fakesink").replace(
        "gst-play-1.0 ", "gst-play-1.0 --no-interactive --videosink=fakesink "
    )
    for program in ("gst-play-1.0", "gst-discoverer-1.0"):
        if shutil.which(program) is None:
            print(f"skipped: {program} is not there: gstreamer1.0-plugins-base-apps")
            use = "".join(line + "\n" for line in use.splitlines() if not line.startswith(program))
    status, said = guides.run(build + use, folder, {**os.environ, "GST_REGISTRY": str(folder / "registry")})
    frames = (folder / "both.y4m").read_bytes().count(b"FRAME\n") if (folder / "both.y4m").exists() else 0
    if status or "rror" in said or frames != len(data) + len(packets):
        yield f"the guide: status {status}, {frames} frames, {said[-1500:]}"
    if "gst-discoverer-1.0" in use and not ("Duration: 0:00:09.600000000" in said and "Seekable: yes" in said):
        yield f"gst-discoverer-1.0: {said[-1500:]}"


def without():
    """Why nothing can be run, or None."""
    if (
        any(shutil.which(name) is None for name in ("gcc", "pkg-config", "gst-launch-1.0"))
        or ran("pkg-config", "--exists", *NEEDED).returncode != 0
    ):
        return "GStreamer and its headers are not there: libgstreamer-plugins-base1.0-dev and gstreamer1.0-tools"
    if not LIBRARY.is_file():
        return "the library is not built: ./build.py --library makes it"
    return None


def main():
    why = without()
    if why:
        print(f"skipped: {why}")
        return 0
    with tempfile.TemporaryDirectory() as name:
        folder = pathlib.Path(name)
        room, (whole, _) = Room(folder / "room"), served("".join(f"frame {number}\n" for number in range(48)))
        wrong = [
            *launched(room, whole),
            *sought(room, whole),
            *beyond(room),
            *rates(room),
            *varying(room),
            *colours(room),
            *errors(room),
            *addresses(room),
            *long(room),
            *facts(room),
        ]
        wrong += [*limits(folder / "limits"), *guide(folder / "guide")]
    print("".join(line + "\n" for line in wrong), end="")
    return 1 if wrong else 0


if __name__ == "__main__":
    sys.exit(main())
