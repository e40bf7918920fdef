#!/usr/bin/env python3
"""Tests the programs and the library for Windows under wine: the rows, clips, findings and stored runs of tests/run.py;
saves over files that are open elsewhere; long names, names that are not ASCII, drives; a full disk, Ctrl-C, a kill, a
closed pipe; random request lists answered by a C program over the library.

What they must print, write and return is what the native programs do. The files are those of the variable
WOKURETI_WINDOWS, or bin/windows: ./build.py --windows makes them. It prints what differs and ends with 1, or prints
nothing and ends with 0; a line `skipped: ..` names what could not be run.
"""

import contextlib
import os
import pathlib
import random
import shlex
import shutil
import signal
import subprocess
import sys
import tempfile
import time

TOP = pathlib.Path(__file__).resolve().parent.parent
sys.dont_write_bytecode = True
import test_library  # noqa: E402

FOLDER = pathlib.Path(os.environ.get("WOKURETI_WINDOWS") or TOP / "bin/windows")
SERVE, LIST = (os.environ.get(name) or str(TOP / "bin" / name.lower()) for name in ("VP8SERVE", "VP8LIST"))
CLIPS = TOP / "crates/gate_clips/data"
SMALL, OTHER = CLIPS / "small.ivf", CLIPS / "odd-size.ivf"
LARGE = max(CLIPS.glob("*.ivf"), key=lambda path: path.stat().st_size)
COMPILER = "x86_64-w64-mingw32-gcc"
C_OPTIONS = ["-std=gnu11", "-O1", "-Wall", "-Wextra", "-Werror"]
SUITES = ("row ", "clip ", "findings", "stored run")
LIMIT, SUITE_LIMIT, LISTS = 120, 1500, 20
UNFINISHED = "vp8serve-unfinished-save-"
OLD = b"the file that was there before"


def wine_program(name):
    """A program of wine, or None."""
    path = pathlib.Path("/usr/lib/wine", name)
    return shutil.which(name) or (str(path) if path.is_file() else None)


class Wine:
    """Runs programs for Windows, with settings in a folder of its own."""

    def __init__(self, folder):
        self.folder = folder
        given = {name: value for name, value in os.environ.items() if name not in ("DISPLAY", "WAYLAND_DISPLAY")}
        self.environment = {
            **given,
            "WINEPREFIX": str(folder / "settings"),
            "WINEDEBUG": "-all",
            "LC_ALL": "C.UTF-8",
            "WINEDLLOVERRIDES": "mscoree,mshtml=",
        }
        self.program = wine_program("wine64")

    def __enter__(self):
        # wineserver asks for a folder that is there
        pathlib.Path(self.environment["WINEPREFIX"]).mkdir()
        # Without -p the server ends three seconds after the last program, and a program that starts meanwhile can fail.
        # The server, and the services that wineboot starts, keep what they were given as their output: so that is not a
        # pipe, of which nobody would see the end. A minute after the last program they end, also if this is killed.
        for words in ([wine_program("wineserver"), "-p60"], [self.program, "wineboot", "-i"]):
            subprocess.run(
                words,
                env=self.environment,
                stdin=subprocess.DEVNULL,
                stdout=subprocess.DEVNULL,
                stderr=subprocess.DEVNULL,
                timeout=LIMIT,
                check=True,
            )
        return self

    def __exit__(self, *_):
        subprocess.run(
            [wine_program("wineserver"), "-k"], env=self.environment, capture_output=True, timeout=LIMIT, check=False
        )

    def drive(self, letter, folder):
        (self.folder / f"settings/dosdevices/{letter}:").symlink_to(folder)

    def words(self, program):
        return [self.program, str(FOLDER / program if isinstance(program, str) else program)]

    def start(self, program, *words, **more):
        streams = {"stdin": subprocess.PIPE, "stdout": subprocess.PIPE, "stderr": subprocess.PIPE}
        return subprocess.Popen([*self.words(program), *map(str, words)], env=self.environment, **{**streams, **more})

    def run(self, program, *words, data=b"", **more):
        return subprocess.run(
            [*self.words(program), *map(str, words)],
            env=self.environment,
            input=data,
            capture_output=True,
            timeout=LIMIT,
            check=False,
            **more,
        )

    def script(self, program, name):
        """A script that runs a program, for what starts a native one."""
        path, variables = self.folder / name, [
            f"{key}={shlex.quote(self.environment[key])}" for key in ("WINEPREFIX", "WINEDEBUG", "LC_ALL")
        ]
        path.write_text(
            f'#!/bin/sh\nunset DISPLAY WAYLAND_DISPLAY\nexport {" ".join(variables)}\nexec'
            f' {shlex.join(self.words(program))} "$@"\n'
        )
        path.chmod(0o755)
        return path


def native(*words, data=b"", program=SERVE, **more):
    return subprocess.run(
        [program, *map(str, words)], input=data, capture_output=True, timeout=LIMIT, check=False, **more
    )


def unlike(where, mine, wanted, names=()):
    """What a run differs in from the native one. `names` has pairs: a name that the one prints, and that of the
    other.
    """
    errors = mine.stderr.decode(errors="replace")
    for own, other in names:
        errors = errors.replace(str(own), str(other))
    found = {
        "status": (mine.returncode, wanted.returncode),
        "replies": (mine.stdout, wanted.stdout),
        "messages": (errors, wanted.stderr.decode(errors="replace")),
    }
    return [f"{where}: {what} {got!r:.300}, not {need!r:.300}" for what, (got, need) in found.items() if got != need]


def unfinished(folder):
    return sorted(path.name for path in folder.iterdir() if path.name.startswith(UNFINISHED))


def suites(wine):
    """Tests of tests/run.py, over these programs."""
    variables = {
        "VP8SERVE": str(wine.script("vp8serve.exe", "serve")),
        "VP8LIST": str(wine.script("vp8list.exe", "list")),
    }
    words = [sys.executable, TOP / "tests/run.py", *SUITES]
    done = subprocess.run(
        list(map(str, words)),
        env={**os.environ, **variables},
        capture_output=True,
        text=True,
        timeout=SUITE_LIMIT,
        check=False,
    )
    if done.returncode:
        yield from (
            line for line in done.stdout.splitlines() if not line.startswith("ok ") and not line.startswith("skipped")
        )
        yield f"tests/run.py {' '.join(SUITES)}: status {done.returncode} {done.stderr[-500:]}"


def named(wine, folder):
    """Files under names of each kind: read, saved over, and reported as missing."""
    deep = folder.joinpath(*["a long folder name of more than sixty characters for one test"] * 6)
    odd = folder / "größe 日本 – Ω"
    for place in (deep, odd):
        place.mkdir(parents=True)
    kinds = {
        "a drive": (folder, "W:\\"),
        "slashes": (folder, "W:/"),
        "a long name": (deep, f"Z:{str(deep)}/".replace("/", "\\")),
        "not ASCII": (odd, f"W:\\{odd.name}\\"),
        "Unix": (odd, f"{odd}/"),
    }
    for what, (place, prefix) in kinds.items():
        shutil.copyfile(SMALL, place / "in.ivf")
        wanted = native(
            place / "in.ivf",
            "-",
            place / "native.y4m",
            "--save",
            place / "native.ivf",
            data=b"delete 1\nframe 0\nframe 2\n",
        )
        (place / "mine.ivf").write_bytes(OLD)
        mine = wine.run(
            "vp8serve.exe",
            f"{prefix}in.ivf",
            "-",
            f"{prefix}mine.y4m",
            "--save",
            f"{prefix}mine.ivf",
            data=b"delete 1\nframe 0\nframe 2\n",
        )
        yield from unlike(what, mine, wanted)
        for end in ("y4m", "ivf"):
            if (place / f"mine.{end}").read_bytes() != (place / f"native.{end}").read_bytes():
                yield f"{what}: another .{end}"
        shown = prefix.replace("\\", "/")
        yield from unlike(
            f"{what}, missing",
            wine.run("vp8list.exe", f"{prefix}no.ivf"),
            native(place / "no.ivf", program=LIST),
            [(f"{shown}no.ivf", place / "no.ivf")],
        )
        yield from (f"{what}: {name} is left" for name in unfinished(place))


def relative(wine, folder):
    """Names without a drive, from a folder, with \\ in them."""
    (folder / "inner").mkdir()
    shutil.copyfile(SMALL, folder / "inner/in.ivf")
    wanted = native("inner/in.ivf", "-", "native.y4m", data=b"frame 3\n", cwd=folder)
    yield from unlike(
        "a relative name",
        wine.run("vp8serve.exe", "inner\\in.ivf", "-", ".\\inner\\..\\mine.y4m", data=b"frame 3\n", cwd=folder),
        wanted,
    )
    if (folder / "mine.y4m").read_bytes() != (folder / "native.y4m").read_bytes():
        yield "a relative name: another .y4m"


def sources(wine, folder):
    """Lists of files: of drives, separated by `;`, and a file that is missing. The current drive is W: here."""
    for name, clip in (("a", SMALL), ("b", OTHER)):
        shutil.copyfile(clip, folder / f"{name}.ivf")
    data = b"script source 1; source 2; splice 0 1\ncount\nframe 0\nuse 2\ncount\n"
    for number, (given, wanted) in enumerate(
        (
            ("W:\\a.ivf;W:\\b.ivf", "{0}/a.ivf:{0}/b.ivf"),
            ("W:/b.ivf;w:\\a.ivf", "{0}/b.ivf:{0}/a.ivf"),
            ("a.ivf;b.ivf", "a.ivf:b.ivf"),
            ("\\b.ivf:a.ivf", "b.ivf:a.ivf"),
        )
    ):
        mine, other = folder / f"mine{number}.y4m", folder / f"native{number}.y4m"
        done = wine.run("vp8serve.exe", f"Z:{SMALL}", "-", mine.name, "--sources", given, data=data, cwd=folder)
        yield from unlike(
            f"--sources {given}",
            done,
            native(SMALL, "-", other, "--sources", wanted.format(folder), data=data, cwd=folder),
        )
        if mine.read_bytes() != other.read_bytes():
            yield f"--sources {given}: another .y4m"
    done = wine.run("vp8serve.exe", f"Z:{SMALL}", "-", "-", "--sources", "W:\\a.ivf;W:\\no.ivf")
    yield from unlike(
        "a missing source",
        done,
        native(SMALL, "-", "-", "--sources", f"{folder}/a.ivf:{folder}/no.ivf"),
        [("W|/no.ivf", folder / "no.ivf")],
    )


@contextlib.contextmanager
def held(wine, holder, path, *words):
    """While it lasts, another program has the file open."""
    with wine.start(holder, path, *words) as process:
        if process.stdout.readline().strip() != b"open":
            raise SystemExit(f"{path} could not be opened")
        try:
            yield
        finally:
            process.stdin.close()
            process.wait(LIMIT)


def over_open_files(wine, folder):
    """A file that another program has open is replaced whole, or the save is refused and the file is the old one."""
    holder, place = folder / "hold.exe", folder / "open"
    place.mkdir()
    compiled(holder, [TOP / "tests/windows_hold.c", "-municode"])
    native(SMALL, "-", "-", "--save", place / "wanted.ivf", data=b"delete 1\n")
    for words in ((), ("delete",)):
        path = place / f"saved{len(words)}.ivf"
        path.write_bytes(OLD)
        with held(wine, holder, path, *words):
            done = wine.run("vp8serve.exe", SMALL, "-", "-", "--save", path, "--explain", data=b"delete 1\n")
            found = path.read_bytes()
        wanted = (place / "wanted.ivf").read_bytes()
        is_refused = found == OLD and str(path).encode() in done.stderr and b"Permission denied" in done.stderr
        is_right = found == wanted if done.returncode == 0 else is_refused
        if not is_right or unfinished(place):
            yield (
                f"a save over an open file, {words}: status {done.returncode}, {done.stderr!r}, {len(found)} bytes,"
                f" {unfinished(place)}"
            )
        if (
            wine.run("vp8serve.exe", SMALL, "-", "-", "--save", path, data=b"delete 1\n").returncode
            or path.read_bytes() != wanted
        ):
            yield f"a save over a file that was open, {words}: it is not replaced"


@contextlib.contextmanager
def volume(folder):
    """A volume of 32 KB, less than the largest clip has, or None."""
    folder.mkdir()
    is_there = (
        subprocess.run(
            ["mount", "-t", "tmpfs", "-o", "size=32k", "tmpfs", folder], capture_output=True, check=False
        ).returncode
        == 0
    )
    try:
        yield folder if is_there else None
    finally:
        if is_there:
            subprocess.run(["umount", folder], capture_output=True, timeout=LIMIT, check=True)


def full_disk(wine, folder):
    """A save and an output that do not fit: a message, and the old file."""
    with volume(folder / "disk") as disk:
        if disk is None:
            print("skipped: a full disk: no volume can be mounted, which root can")
            return
        wine.drive("v", disk)
        saved, names = disk / "saved.ivf", [("V:/", f"{disk}/")]
        saved.write_bytes(OLD)
        for what, given, own in (
            ("a save", ["-", "-", "--save", "V:\\saved.ivf"], ["-", "-", "--save", saved]),
            ("an output", ["-", "V:\\out.y4m"], ["-", disk / "out.y4m"]),
        ):
            data = b"frame 0\nframe 1\nframe 2\n"
            wanted, after = native(LARGE, *own, "--explain", data=data), sorted(path.name for path in disk.iterdir())
            (disk / "out.y4m").unlink(missing_ok=True)
            saved.write_bytes(OLD)
            mine = wine.run("vp8serve.exe", LARGE, *given, "--explain", data=data)
            yield from unlike(f"a full disk, {what}", mine, wanted, names)
            if not wanted.returncode or b"disk" not in mine.stderr:
                yield f"a full disk, {what}: {mine.stderr!r}"
            if saved.read_bytes() != OLD or sorted(path.name for path in disk.iterdir()) != after:
                yield f"a full disk, {what}: {sorted(path.name for path in disk.iterdir())}"


def interrupted(wine, folder):
    """Ctrl-C, and a kill, while requests are answered: the program ends, and the file is the old one."""
    path = folder / "kept.ivf"
    path.write_bytes(OLD)
    for number in (signal.SIGINT, signal.SIGKILL):
        with wine.start("vp8serve.exe", SMALL, "-", "-", "--live", "--save", path) as process:
            process.stdin.write(b"delete 1\n")
            process.stdin.flush()
            if not process.stdout.readline().startswith(b"ok "):
                yield f"{number.name}: no reply"
            process.send_signal(number)
            try:
                process.wait(LIMIT)
            except subprocess.TimeoutExpired:
                process.kill()
                yield f"{number.name}: the program did not end"
        # wine ends a program with status 0 at Ctrl-C.
        if path.read_bytes() != OLD:
            yield f"{number.name}: status {process.returncode}, {path.read_bytes()[:40]!r}"
    for name in unfinished(folder):
        (folder / name).unlink()


def killed_saves(wine, folder):
    """A program that is killed while it saves leaves the old file or the new one."""
    path, wanted = folder / "killed.ivf", folder / "wanted.ivf"
    native(LARGE, "-", "-", "--save", wanted, data=b"delete 1\n")
    for wait in range(8):
        path.write_bytes(OLD)
        with wine.start("vp8serve.exe", LARGE, "-", "-", "--save", path) as process:
            process.stdin.write(b"delete 1\n")
            process.stdin.close()
            time.sleep(0.05 * wait)
            process.kill()
        if path.read_bytes() not in (OLD, wanted.read_bytes()):
            yield f"killed after {wait * 50} ms: the file is neither the old one nor the new one"


def closed_pipe(wine, _):
    """Nobody reads the replies."""
    ended = []
    for start in (
        wine.start,
        lambda _, *words: subprocess.Popen(
            [SERVE, *map(str, words)], stdin=subprocess.PIPE, stdout=subprocess.PIPE, stderr=subprocess.PIPE
        ),
    ):
        with start("vp8serve.exe", SMALL, "-", "-") as process:
            process.stdout.close()
            with contextlib.suppress(BrokenPipeError):
                process.stdin.write(b"count\n" * 100_000)
            with contextlib.suppress(BrokenPipeError):
                process.stdin.close()
            errors = process.stderr.read()
            ended.append((process.wait(LIMIT), errors))
    if ended[0] != ended[1] or not ended[1][0]:
        yield f"a closed pipe: {ended[0]}, not {ended[1]}"


def compiled(out, words):
    done = subprocess.run(
        [COMPILER, *C_OPTIONS, *map(str, words), "-o", str(out)],
        capture_output=True,
        text=True,
        timeout=LIMIT,
        check=False,
    )
    if done.returncode:
        raise SystemExit(f"{out.name} does not compile: {done.stderr[-1000:]}")


def by_the_library(wine, folder):
    """Request lists of tests/test_library.py, answered by a C program over the library."""
    shutil.copyfile(FOLDER / "wokureti.dll", folder / "wokureti.dll")
    include = TOP / "clients/c/include"
    compiled(
        folder / "session.exe",
        [
            "-include",
            TOP / "tests/windows_lines.h",
            "-I",
            include,
            TOP / "clients/c/session.c",
            folder / "wokureti.dll",
        ],
    )
    session, chance, room = [wine.script(folder / "session.exe", "session")], random.Random(94), folder / "lists"
    room.mkdir()
    yield from test_library.refusals(session, room)
    for number in range(LISTS):
        yield from test_library.compare(chance, session, room, number)


def main():
    if not (FOLDER / "vp8serve.exe").is_file():
        print("skipped: the programs for Windows are not built: ./build.py --windows makes them")
        return 0
    if wine_program("wine64") is None or shutil.which(COMPILER) is None:
        print(f"skipped: wine64 or {COMPILER} is not there")
        return 0
    wrong = []
    with tempfile.TemporaryDirectory() as name, Wine(pathlib.Path(name)) as wine:
        wine.drive("w", pathlib.Path(name))
        for test in (
            named,
            relative,
            sources,
            over_open_files,
            full_disk,
            interrupted,
            killed_saves,
            closed_pipe,
            by_the_library,
        ):
            wrong += test(wine, pathlib.Path(name))
        wrong += suites(wine)
    print("".join(line + "\n" for line in wrong), end="")
    return 1 if wrong else 0


if __name__ == "__main__":
    sys.exit(main())
