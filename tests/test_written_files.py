#!/usr/bin/env python3
"""Tests the files that vp8serve writes: OUT and the files of --save and --export.

Neither is standard output's file or standard error's; a link is followed from its own folder; a saved file keeps its
mode and its owner, is brought to the disk before it replaces the old one, and a file that may not be written is
refused. It prints what differs and ends with 1, or prints nothing but what it skipped, and ends with 0.
"""

import contextlib
import errno
import os
import pathlib
import shutil
import stat
import subprocess
import sys
import tempfile

TOP = pathlib.Path(__file__).resolve().parent.parent
sys.dont_write_bytecode = True
sys.path.insert(0, str(TOP / "compare"))
from library.ivf import ivf  # noqa: E402
from library.traced import Program, is_traceable, traced  # noqa: E402

SERVE = pathlib.Path(os.environ["VP8SERVE"]).resolve()
KEY = bytes.fromhex("1000009D012A10001000")
STREAM, SHORTER = ivf(16, 16, [KEY, KEY]), ivf(16, 16, [KEY])
# The packet ends empty, so an export has a byte 00 after it.
EXPORTED = ivf(16, 16, [KEY + bytes(1)])
FRESH = "vp8serve-unfinished-save-1"
REPLIES = (
    "vp8serve: command line: {} {} is standard output, so replies would be among the {}: name /dev/fd/3 3>&1 >replies\n"
)
ERRORS = (
    "vp8serve: command line: {} {} is standard error, so messages would be among the {}: name another file for {}\n"
)
NOBODY = 65534
LIMIT = 60

wrong = []


def expect(name, got, wanted):
    if got != wanted:
        wrong.append(f"{name}: {got!r:.300}, not {wanted!r:.300}")


def ran(*words, lines="", program=SERVE, **options):
    """The status and the texts of a run; a text that goes to a file is None."""
    options = {"stdout": subprocess.PIPE, "stderr": subprocess.PIPE, **options}
    done = subprocess.run([str(program), *map(str, words)], input=lines.encode(), timeout=LIMIT, check=False, **options)
    return done.returncode, *(
        None if text is None else text.decode(errors="replace") for text in (done.stdout, done.stderr)
    )


def put(name="a.ivf", data=STREAM):
    pathlib.Path(name).write_bytes(data)


def to_standard_output():
    """OUT, --save or --export is standard output's file, by its name, by a link, by its descriptor; nothing is written
    then.
    """
    os.symlink("both", "link")
    for more in ([], ["--live"]):
        for path in ("both", "./both", "link", "/dev/stdout", "/dev/fd/1", "/proc/self/fd/1"):
            for argument, content, words in (
                ("OUT", "frames", ["-", path]),
                ("--save", "packets", ["-", "-", "--save", path]),
                ("--export", "packets", ["-", "-", "--export", path]),
            ):
                put("both", b"")
                with open("both", "r+b") as both:
                    told = ran("a.ivf", *words, *more, lines="frame 0\n", stdout=both)
                expect(f"{argument} {path} {more}", told, (2, None, REPLIES.format(argument, path, content)))
                expect(f"{argument} {path} {more} is empty", pathlib.Path("both").read_bytes(), b"")
        expect(
            f"a pipe {more}",
            ran("a.ivf", "-", "-", "--save", "/dev/stdout", *more, lines="count\n"),
            (2, "", REPLIES.format("--save", "/dev/stdout", "packets")),
        )
    with open("/dev/null", "wb") as nothing:
        expect(
            "/dev/null",
            ran("a.ivf", "-", "/dev/stdout", "--save", "/dev/stdout", lines="frame 0\n", stdout=nothing),
            (0, None, ""),
        )
    os.unlink("link")


def to_standard_error():
    """OUT, --save or --export is standard error's file."""
    for path in ("told", "/dev/stderr", "/dev/fd/2"):
        for argument, content, words in (
            ("OUT", "frames", ["-", path]),
            ("--save", "packets", ["-", "-", "--save", path]),
            ("--export", "packets", ["-", "-", "--export", path]),
        ):
            with open("told", "w+b") as told:
                status = ran("a.ivf", *words, lines="frame 0\n", stderr=told)
                told.seek(0)
                expect(
                    f"{argument} {path}",
                    (*status, told.read().decode(errors="replace")),
                    (2, "", None, ERRORS.format(argument, path, content, argument)),
                )
    with open("/dev/null", "wb") as nothing:
        expect(
            "no messages",
            ran("a.ivf", "-", "/dev/stderr", "--save", "/dev/null", lines="frame 0\n", stderr=nothing),
            (0, "served 0\n", None),
        )


def beside_a_descriptor():
    """Packets to a pipe by another descriptor, with replies in a file."""
    line = f"'{SERVE}' a.ivf - - --save /dev/fd/3 3>&1 >replies"
    done = subprocess.run(["sh", "-c", line], input=b"delete 1\n", capture_output=True, timeout=LIMIT, check=False)
    expect("/dev/fd/3", (done.returncode, done.stdout, pathlib.Path("replies").read_bytes()), (0, SHORTER, b"ok 1\n"))


def by_links():
    """A relative link is read from its own folder, one after another, also to a file that is not there yet."""
    os.makedirs("sub/deep")
    os.symlink("target", "sub/link")
    os.symlink("../link", "sub/deep/first")
    os.symlink(pathlib.Path("sub/deep/first").absolute(), "whole")
    for path in ("sub/link", "sub/deep/first", "whole"):
        for out in (False, True):
            pathlib.Path("sub/target").unlink(missing_ok=True)
            words = ["-", path] if out else ["-", "-", "--save", path]
            expect(path, ran("a.ivf", *words, lines="delete 1\n"), (0, "ok 1\n", ""))
            made = pathlib.Path("sub/target")
            expect(f"{path}: what it leads to", made.read_bytes() if made.exists() else None, b"" if out else SHORTER)
            expect(
                f"{path}: other files",
                [name for name in ("target", "sub/deep/target", "link") if os.path.lexists(name)],
                [],
            )
        expect(f"{path} is a link", os.path.islink(path), True)


def kept_attributes():
    """A saved file keeps its mode, and its owner if that is allowed."""
    for mode in (0o604, 0o640, 0o755, 0o400):
        put("old.ivf")
        os.chmod("old.ivf", mode)
        if os.geteuid() == 0:
            os.chown("old.ivf", 1234, 5678)
        elif mode == 0o400:
            continue
        before = os.stat("old.ivf")
        expect(f"mode {mode:o}", ran("a.ivf", "-", "-", "--save", "old.ivf", lines="delete 1\n"), (0, "ok 1\n", ""))
        after = os.stat("old.ivf")
        expect(f"mode {mode:o}: the file", pathlib.Path("old.ivf").read_bytes(), SHORTER)
        expect(
            f"mode {mode:o}: mode and owner",
            (after.st_mode, after.st_uid, after.st_gid),
            (before.st_mode, before.st_uid, before.st_gid),
        )
        expect(f"mode {mode:o}: a new file", after.st_ino != before.st_ino, True)
        os.unlink("old.ivf")
    old = os.umask(0o027)
    try:
        expect("a new file", ran("a.ivf", "-", "-", "--save", "new.ivf"), (0, "", ""))
    finally:
        os.umask(old)
    expect("mode of a new file", stat.S_IMODE(os.stat("new.ivf").st_mode), 0o640)


def refused_read_only(room):
    """A file that its user may not write is refused, although its folder takes new files, and stays as it is."""
    user = {}
    program = SERVE
    if os.geteuid() == 0:
        user = {"user": NOBODY, "group": NOBODY, "extra_groups": []}
        program = room / "vp8serve"
        shutil.copyfile(SERVE, program)
        os.chmod(program, 0o755)
        os.chmod(room, 0o777)
    put("kept.ivf")
    os.chmod("kept.ivf", 0o444)
    if user:
        os.chown("kept.ivf", NOBODY, NOBODY)
    status, replies, told = ran(
        "a.ivf", "-", "-", "--save", "kept.ivf", "--explain", lines="delete 1\n", program=program, **user
    )
    expect(
        "a read-only file",
        (status, replies, told),
        (1, "ok 1\n", "vp8serve: cannot write\n--save kept.ivf cannot be created: Permission denied (os error 13)\n"),
    )
    expect("a read-only file: its bytes", pathlib.Path("kept.ivf").read_bytes(), STREAM)
    expect("a read-only file: other files", list(pathlib.Path().glob("vp8serve-unfinished-*")), [])


def in_order():
    """The calls of a save: the new file is written whole, brought to the disk, and only then renamed; both are asked of
    the system.
    """
    put("old.ivf")
    calls = []

    def note(call):
        if FRESH in call.path:
            calls.append(call.kind)

    with contextlib.ExitStack() as opened:
        nothing = opened.enter_context(open(os.devnull, "rb"))
        sinks = [opened.enter_context(tempfile.TemporaryFile()) for _ in range(2)]
        files = {0: nothing.fileno(), 1: sinks[0].fileno(), 2: sinks[1].fileno()}
        ended = traced(Program(str(SERVE)), ["a.ivf", "-", "-", "--save", "old.ivf"], files, None, note)
    expect("calls of a save: status", ended.status, 0)
    expect(
        "calls of a save",
        [kind for at, kind in enumerate(calls) if calls[at - 1 : at] != [kind]],
        ["write", "fsync", "rename"],
    )


def both_or_neither():
    """`--save` and `--export` of one run: both new files are written whole and brought to the disk before either is
    renamed. Each of these calls is refused in turn: neither file is replaced then, unless only the second one could not
    be renamed, and no new file is left.
    """
    old = {"saved.ivf": b"an old file", "exported.ivf": b"another one"}
    kinds, at = [], 0
    while True:
        at += 1
        for name, data in old.items():
            put(name, data)
        calls = []

        def change(call):
            if "vp8serve-unfinished-save-" not in call.path or call.kind not in ("write", "fsync", "rename"):
                return None
            calls.append(call.kind)
            return -errno.EIO if len(calls) == at else None

        with contextlib.ExitStack() as opened:
            requests = opened.enter_context(tempfile.TemporaryFile())
            requests.write(b"delete 1\n")
            requests.seek(0)
            sinks = [opened.enter_context(tempfile.TemporaryFile()) for _ in range(2)]
            files = {0: requests.fileno(), 1: sinks[0].fileno(), 2: sinks[1].fileno()}
            ended = traced(
                Program(str(SERVE)),
                ["a.ivf", "-", "-", "--save", "saved.ivf", "--export", "exported.ivf"],
                files,
                None,
                change,
            )
        now = {name: pathlib.Path(name).read_bytes() for name in old}
        left = [path.name for path in pathlib.Path().glob("vp8serve-unfinished-save-*")]
        if at > len(calls):
            kinds = calls
            break
        if at == kinds_of_both(calls)[1]:
            expect(f"call {at} refused: the first file", now["saved.ivf"], SHORTER)
            expect(f"call {at} refused: the second file", now["exported.ivf"], old["exported.ivf"])
        else:
            expect(f"call {at}, {calls[-1]}, refused: both files", now, old)
        expect(f"call {at} refused: status and new files", (ended.status, left), (1, []))
    expect("calls of two saves", kinds_of_both(kinds)[0], ["write", "fsync", "write", "fsync", "rename", "rename"])
    expect("two saves", (ended.status, now, left), (0, {"saved.ivf": SHORTER, "exported.ivf": EXPORTED}, []))


def kinds_of_both(calls):
    """The calls without repeated writes, and the number of the second rename, or 0."""
    renames = [number for number, kind in enumerate(calls, 1) if kind == "rename"]
    return [kind for at, kind in enumerate(calls) if kind != "write" or calls[at - 1 : at] != ["write"]], (
        renames[1] if len(renames) > 1 else 0
    )


def unexported_is_unsaved():
    """A refused export: the file of `--save` is as it was, and no new file is left, also with `--live`, whose new files
    are made before the first line.
    """
    for more in ([], ["--live"]):
        put("saved.ivf", b"an old file")
        before = sorted(os.listdir())
        told = ran(
            "a.ivf",
            "-",
            "-",
            "--save",
            "saved.ivf",
            "--export",
            "exported.ivf",
            *more,
            lines="delete 1\nscript fade 0 0 1 0 0\n",
        )
        expect(f"refused export {more}: status and replies", told[:2], (1, "ok 1\nok 1\n"))
        expect(
            f"refused export {more}: files",
            (sorted(os.listdir()), pathlib.Path("saved.ivf").read_bytes()),
            (before, b"an old file"),
        )
        expect(f"refused export {more}: new files", list(pathlib.Path().glob("vp8serve-unfinished-save-*")), [])


def main():
    with tempfile.TemporaryDirectory() as folder:
        os.chdir(folder)
        put()
        to_standard_output()
        to_standard_error()
        beside_a_descriptor()
        by_links()
        kept_attributes()
        if is_traceable(SERVE):
            in_order()
            both_or_neither()
        else:
            print("skipped: calls of a save are refused one by one on x86-64 only")
        for name in ("saved.ivf", "exported.ivf", "new.ivf", "old.ivf"):
            pathlib.Path(name).unlink(missing_ok=True)
        unexported_is_unsaved()
        pathlib.Path("saved.ivf").unlink()
        refused_read_only(pathlib.Path(folder))
        os.chdir(TOP)
    print(*wrong, sep="\n", end="\n" if wrong else "")
    return 1 if wrong else 0


if __name__ == "__main__":
    sys.exit(main())
