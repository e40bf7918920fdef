#!/usr/bin/env python3
"""Tests the library over real clips: random request lists, answered by a C program that uses it and by vp8serve, give
the same replies, the same samples and the same files of `--save` and `--export`. 1,000 more lists are answered in this
process, and by `vp8serve --live`.

The C program is clients/c/session.c, compiled with `-fsanitize=address,undefined` where the compiler has it. The
library is that of the variable LIBWOKURETI, or bin/libwokureti.so.0. It prints what differs and ends with 1, or prints
nothing and ends with 0; a line `skipped: ..` names what could not be run. For a library of another processor the
variable WOKURETI_CC names its compiler, and WOKURETI_EMULATOR what its programs are started by.
"""

import ctypes
import os
import pathlib
import random
import re
import shlex
import shutil
import subprocess
import sys
import tempfile

TOP = pathlib.Path(__file__).resolve().parent.parent
sys.dont_write_bytecode = True
sys.path.insert(0, str(TOP / "clients/python"))
sys.path.insert(1, str(TOP / "compare"))
from library.request_lists import requests  # noqa: E402
from wokureti.session import library  # noqa: E402

CLIPS = TOP / "crates/gate_clips/data"
LISTS, LIVE_LISTS, LIMIT = 60, 1000, 120
# Clips of the live lists have fewer bytes.
MOST_BYTES = 40_000
SERVE = os.environ.get("VP8SERVE") or str(TOP / "bin/vp8serve")
REASON = re.compile(
    r"vp8serve: frame (?P<frame>\d+) is (changed by node (?P<node>\d+)|refused: ((source (?P<source>\d+) )?packet"
    r" (?P<packet>\d+) .*|CropOutside))"
)
CC, EMULATOR = os.environ.get("WOKURETI_CC") or "gcc", shlex.split(os.environ.get("WOKURETI_EMULATOR", ""))
LIBRARY = pathlib.Path(os.environ.get("LIBWOKURETI") or TOP / "bin/libwokureti.so.0")


def compiled(folder):
    """The words that start the C program, and whether its accesses to memory are checked. An emulator does not run such
    checks.
    """
    words = [
        CC,
        "-std=c11",
        "-D_GNU_SOURCE",
        "-O1",
        "-g",
        "-Wall",
        "-Wextra",
        "-Werror",
        "-I",
        TOP / "clients/c/include",
        TOP / "clients/c/session.c",
        LIBRARY,
    ]
    made = folder / "session"
    for checks in ([] if EMULATOR else ["-fsanitize=address,undefined", "-fno-sanitize-recover=all"], []):
        ran = subprocess.run(
            [*map(str, words), *checks, "-o", str(made), f"-Wl,-rpath,{LIBRARY.parent}"],
            capture_output=True,
            text=True,
            check=False,
        )
        if ran.returncode == 0:
            return [*EMULATOR, made], bool(checks)
    raise SystemExit(f"the C program does not compile: {ran.stderr}")


def checks(folder):
    """The checks in C, over the archive: each request for memory refused, rooms of every size, a million lines,
    threads, NULL, the numbers of each call.
    """
    archive = LIBRARY.with_name("libwokureti.a")
    if not archive.is_file():
        print(f"skipped: {archive.name} is not next to the library")
        return
    made = folder / "checks"
    words = [
        CC,
        "-std=c11",
        "-D_GNU_SOURCE",
        "-O1",
        "-g",
        "-Wall",
        "-Wextra",
        "-Werror",
        "-I",
        TOP / "clients/c/include",
        TOP / "clients/c/checks.c",
        archive,
        "-pthread",
        "-Wl,--wrap=malloc,--wrap=realloc",
        "-o",
        made,
    ]
    subprocess.run(list(map(str, words)), check=True, timeout=LIMIT)
    for what, clip in (
        ("growths", "small"),
        ("rooms", "small"),
        ("rooms", "odd-size"),
        ("threads", "small"),
        ("nulls", "small"),
        ("numbers", "small"),
        ("fuzz", "small"),
    ):
        done = subprocess.run(
            [*EMULATOR, made, what, CLIPS / f"{clip}.ivf"],
            capture_output=True,
            text=True,
            timeout=5 * LIMIT,
            check=False,
        )
        if done.returncode != 0:
            yield f"checks {what} {clip}: status {done.returncode}: {done.stdout}{done.stderr}"


def of_readme(folder):
    """The example in C of README.md compiles, and gives frame 12 and takes an edit."""
    lines = (TOP / "README.md").read_text(encoding="utf-8").splitlines()
    start = lines.index("    wk_handle clip = {0};")
    end = next(place for place in range(start, len(lines)) if lines[place] == "    }")
    text = "\n".join(lines[start : end + 1])
    source, made, clip = folder / "readme.c", folder / "readme", TOP / "examples/mandelbrot.ivf"
    source.write_text(README % text)
    words = [
        CC,
        "-std=c11",
        "-O1",
        "-Wall",
        "-Wextra",
        "-Werror",
        "-I",
        TOP / "clients/c/include",
        source,
        LIBRARY,
        "-o",
        made,
        f"-Wl,-rpath,{LIBRARY.parent}",
    ]
    subprocess.run(list(map(str, words)), check=True, timeout=LIMIT)
    done = subprocess.run([*EMULATOR, made, clip], capture_output=True, timeout=LIMIT, check=False)
    y4m = folder / "readme.y4m"
    subprocess.run([SERVE, clip, "-", y4m], input=b"frame 12\n", capture_output=True, timeout=LIMIT, check=True)
    head, _, rest = y4m.read_bytes().partition(b"\n")
    width, height = (int(word[1:]) for word in head.split()[1:3])
    if done.returncode or done.stdout != rest[6 : 6 + width * height]:
        yield (
            f"the example of README.md: status {done.returncode}, {len(done.stdout)} samples of luma:"
            f" {done.stderr[-500:]!r}"
        )


# A program around the example: the samples of luma on standard output.
README = """#include <stdio.h>
#include <wokureti.h>
static uint8_t file[1 << 20], y[640 * 480], cb[320 * 240], cr[320 * 240];
int main(int argc, char **argv) {
    FILE *in = fopen(argv[argc - 1], "rb");
    size_t size = in ? fread(file, 1, sizeof file, in) : 0, length = 0;
%s
    for (unsigned line = 0; line < shown.height; line++) fwrite(y + 640 * line, 1, shown.width, stdout);
    return !(shown.width && length > 3);
}
"""
PROJECT = """cmake_minimum_required(VERSION 3.10)
project(example C)
find_package(wokureti {version} CONFIG REQUIRED)
add_executable(example example.c)
target_link_libraries(example wokureti::wokureti)
"""
EXAMPLE = """#include <stdio.h>
#include <wokureti.h>
#if WK_VERSION != {number}
#error another version
#endif
int main(void) {{ return printf("%u\\n", (unsigned)wk_version()) < 0; }}
"""


def cmake(folder):
    """A project of CMake finds the library by its config file if it asks for this version or an older one of the same
    major version, and for no other.
    """
    if shutil.which("cmake") is None or not LIBRARY.with_name("wokureti-config.cmake").is_file():
        print("skipped: cmake, or wokureti-config.cmake next to the library, is missing")
        return
    first, second, third = map(int, (TOP / "VERSION").read_text().split("."))
    number = 10000 * first + 100 * second + third
    older, newer = (f"{first}.{second}", f"{first}.{second - 1}"), (
        f"{first}.{second}.{third + 1}",
        f"{first}.{second + 1}",
        f"{first + 1}.0",
    )
    for wanted, is_found in [(text, True) for text in older] + [(text, False) for text in newer]:
        room = folder / wanted
        room.mkdir()
        (room / "CMakeLists.txt").write_text(PROJECT.format(version=wanted))
        (room / "example.c").write_text(EXAMPLE.format(number=number))
        ran = subprocess.run(
            ["cmake", "-S", room, "-B", room / "made", f"-Dwokureti_DIR={LIBRARY.parent}"],
            capture_output=True,
            text=True,
            timeout=LIMIT,
            check=False,
        )
        if (ran.returncode == 0) != is_found:
            yield f"cmake: version {wanted}: status {ran.returncode}: {ran.stderr[-300:]}"
        elif is_found:
            subprocess.run(["cmake", "--build", room / "made"], check=True, capture_output=True, timeout=LIMIT)
            said = subprocess.run(
                [room / "made/example"], check=True, capture_output=True, text=True, timeout=LIMIT
            ).stdout
            if int(said) != number:
                yield f"cmake: the example reports version {said.strip()}"


def frames_of(text):
    """The samples of a YUV4MPEG2 text."""
    if not text:
        return b""
    line, rest = text.split(b"\n", 1)
    width, height = (int(word[1:]) for word in line.split()[1:3])
    size = width * height + 2 * ((width + 1) // 2) * ((height + 1) // 2)
    return b"".join(rest[at + 6 : at + 6 + size] for at in range(0, len(rest), 6 + size))


def compare(chance, session, folder, number):
    """One list over one to three clips. What differs, or nothing."""
    clips = chance.sample(sorted(CLIPS.glob("*.ivf")), chance.choice((1, 1, 2, 3)))
    # The C program asks for each frame several times if it writes it, which changes which states are kept.
    counts = number % 3 == 0
    text, states = requests(chance, len(clips), 30, counts), chance.choice((1, 2, 32))
    names = ("requests", "served.y4m", "served.ivf", "frames", "library.ivf", "exported.ivf", "library-exported.ivf")
    asked, y4m, saved, samples, mine, its, ours = (folder / name for name in names)
    asked.write_text(text)
    more = ["--sources", ":".join(map(str, clips[1:]))] if len(clips) > 1 else []
    pads, restamps = chance.random() < 0.5, chance.random() < 0.5
    padded, restamped = ["--pad"] * pads, ["--restamp"] * restamps
    served = subprocess.run(
        [SERVE, clips[0], asked, y4m, *more, "--cache", str(states), "--save", saved, *padded, *restamped],
        capture_output=True,
        timeout=LIMIT,
        check=False,
    )
    exported = subprocess.run(
        [SERVE, clips[0], asked, "-", *more, "--export", its, *padded], capture_output=True, timeout=LIMIT, check=False
    )
    words = [*session, "-" if counts else samples, str(states), mine, ours, "o" + "p" * pads + "r" * restamps, *clips]
    done = subprocess.run(words, input=text.encode(), capture_output=True, timeout=LIMIT, check=False)
    where = f"list {number} over {', '.join(clip.name for clip in clips)}"
    if served.returncode or done.returncode:
        return [f"{where}: status {served.returncode} and {done.returncode}: {done.stderr.decode()[-500:]}"]
    differ = []
    if served.stdout != done.stdout:
        differ.append(f"{where}: other replies")
    if not counts and frames_of(y4m.read_bytes()) != samples.read_bytes():
        differ.append(f"{where}: other samples")
    if saved.read_bytes() != mine.read_bytes():
        differ.append(f"{where}: another file")
    return [*differ, *(f"{where}: {what}" for what in unlike(exported, its, done, ours))]


def unlike(served, its, done, ours):
    """What differs between an export of vp8serve and one of the library, or the reasons why there is none."""
    if served.returncode == 0:
        if done.stderr or its.read_bytes() != ours.read_bytes():
            yield "another export"
        return
    message, told = served.stderr.decode().strip(), done.stderr.decode().split()
    found = REASON.fullmatch(message)
    if found is None or told[:1] != ["export"]:
        yield f"no export: {message!r} and {told}"
        return
    status, frame, node, source, packet = map(int, told[1:])
    wanted = [int(found["frame"]), int(found["node"] or 0), int(found["source"] or 0), int(found["packet"] or 0)]
    if [frame, node, source, packet] != wanted or status != (33 if found["node"] else 24 if found["packet"] else 25):
        yield f"no export: {message!r} and {told}"


def answered(states, files, lines, writes):
    """The replies of the library in this process, and the samples of the frames that it served, if they are asked
    for.
    """
    engine = library.Engine(library.load(str(LIBRARY)), files, states, b"", False)
    replies, samples = [], []
    try:
        for line in lines:
            if writes:
                reply, picture = engine.answer(line)
                samples += [] if picture is None else [bytes(picture[2])]
            else:
                engine.library.wk_request(engine.handle, line, len(line), ctypes.byref(engine.length))
                reply = engine.text().decode().rstrip("\n")
            replies += [f"{reply}\n"] if reply else []
    finally:
        engine.close()
    return "".join(replies), b"".join(samples)


def live(chance, folder, number):
    """One list over small clips, against `vp8serve --live`. What differs, or nothing."""
    clips = chance.sample(
        [clip for clip in sorted(CLIPS.glob("*.ivf")) if clip.stat().st_size < MOST_BYTES], chance.choice((1, 1, 2, 3))
    )
    counts = number % 2 == 0
    text, states, y4m = requests(chance, len(clips), 12, counts), chance.choice((1, 2, 32)), folder / "live.y4m"
    more = ["--sources", ":".join(map(str, clips[1:]))] if len(clips) > 1 else []
    words = [SERVE, clips[0], "-", "-" if counts else y4m, *more, "--cache", str(states), "--live"]
    served = subprocess.run(words, input=text.encode(), capture_output=True, timeout=LIMIT, check=False)
    lines = [line.removesuffix(b"\r") for line in text.encode().split(b"\n")[:-1]]
    replies, samples = answered(states, [clip.read_bytes() for clip in clips], lines, not counts)
    where = f"live list {number} over {', '.join(clip.name for clip in clips)}"
    if served.returncode or served.stdout.decode() != replies:
        yield f"{where}: other replies, status {served.returncode}"
    elif not counts and frames_of(y4m.read_bytes()) != samples:
        yield f"{where}: other samples"


def refusals(session, folder):
    """Files that are none, and numbers outside their ranges."""
    clip, other = CLIPS / "small.ivf", folder / "other"
    other.write_bytes(b"no file of packets, but longer than a header\n")
    wanted = [
        ([other], 32, "opened 2 source 0 cause 2"),
        ([clip, other], 32, "opened 2 source 1 cause 2"),
        ([clip], 0, "opened 1 source 0 cause 0"),
        ([clip], 4097, "opened 1 source 0 cause 0"),
        ([clip] * 9, 32, "opened 1 source 0 cause 0"),
    ]
    for files, states, line in wanted:
        done = subprocess.run(
            [*session, "-", str(states), "-", "-", "o", *files],
            input=b"",
            capture_output=True,
            timeout=LIMIT,
            check=False,
        )
        if (done.returncode, done.stdout.decode()) != (3, line + "\n"):
            yield f"{len(files)} files and {states} states: {done.stdout!r} {done.stderr!r}"


def main():
    if shutil.which(CC) is None:
        print(f"skipped: {CC} is not there")
        return 0
    if not LIBRARY.is_file():
        print("skipped: the library is not built: ./build.py --library makes it")
        return 0
    chance, differ = random.Random(75), []
    with tempfile.TemporaryDirectory() as name:
        folder = pathlib.Path(name)
        session, is_checked = compiled(folder)
        if EMULATOR:
            print(
                f"skipped: {LIVE_LISTS} lists in this process, CMake, -fsanitize=address: the library is for another"
                " processor"
            )
        elif not is_checked:
            print("skipped: the compiler has no -fsanitize=address")
        differ += [
            *refusals(session, folder),
            *checks(folder),
            *([] if EMULATOR else cmake(folder)),
            *of_readme(folder),
        ]
        for number in range(LISTS):
            differ += compare(chance, session, folder, number)
        for number in range(0 if EMULATOR else LIVE_LISTS):
            differ += live(chance, folder, number)
    print("".join(line + "\n" for line in differ), end="")
    return 1 if differ else 0


if __name__ == "__main__":
    sys.exit(main())
