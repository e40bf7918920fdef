#!/usr/bin/env python3
"""Saves and writes to files under other names, over the stream, with closed descriptors, little room and little memory.

    tests/faults/saving.py [--quiet]

tests/README.md says more. With --quiet it prints what is wrong only. Requests for memory are refused on x86-64 only.
"""

import collections
import contextlib
import os
import pathlib
import pty
import resource
import shutil
import signal
import subprocess
import sys
import tempfile

sys.path.insert(1, str(pathlib.Path(__file__).resolve().parents[2] / "compare"))
import results  # noqa: E402
from library.ivf import ivf  # noqa: E402
from library.programs import VP8SERVE  # noqa: E402
from library.traced import is_traceable, program_of, traced  # noqa: E402

KEY = bytes.fromhex("1000009D012A40003000")
INTER = bytes.fromhex("110000")
STREAM = ivf(64, 48, [KEY, INTER, INTER])
SHORTER = ivf(64, 48, [KEY, INTER])
# The packets end empty, so in an export a byte 00 follows each.
EXPORTED = {
    False: ivf(64, 48, [KEY + bytes(1), INTER + bytes(1), INTER + bytes(1)]),
    True: ivf(64, 48, [KEY + bytes(1), INTER + bytes(1)]),
}
FRESH = "vp8serve-unfinished-save-"
FRAME = 6 + 64 * 48 * 3 // 2
OPENING = b"YUV4MPEG2 W64 H48 F30:1 Ip C420jpeg\n"
TOLD = collections.Counter()
REFUSED = "vp8serve: command line: {} and {} are both {}: name another file for {}\n"
AMONG = (
    "vp8serve: command line: OUT {} is standard output, so replies would be among the frames: name /dev/fd/3 3>&1"
    " >replies\n"
)
SAVED_AMONG = (
    "vp8serve: command line: --save {} is standard output, so replies would be among the packets: name /dev/fd/3 3>&1"
    " >replies\n"
)


def differs(name, got, want):
    TOLD["runs"] += 1
    if got == want:
        return
    TOLD["differences"] += 1
    print(f"{name}: {got!r}, not {want!r}")


def content(name):
    path = pathlib.Path(name)
    return path.read_bytes() if path.exists() else None


def fresh():
    return sorted(path.name for path in pathlib.Path().glob(f"{FRESH}*"))


def run(*words, lines="", limit=None, **options):
    """Runs the program: its status, replies and messages."""

    def before():
        signal.signal(signal.SIGXFSZ, signal.SIG_IGN)
        if limit is not None:
            resource.setrlimit(resource.RLIMIT_FSIZE, (limit, limit))

    options = {"stdout": subprocess.PIPE, "stderr": subprocess.PIPE, **options}
    ended = subprocess.run([VP8SERVE, *words], input=lines.encode(), preexec_fn=before, timeout=60, **options)
    return ended.returncode, (ended.stdout or b"").decode(), (ended.stderr or b"").decode()


def put_stream():
    for name in ("a.ivf", "link", "links", "hard", "out.y4m"):
        pathlib.Path(name).unlink(missing_ok=True)
    pathlib.Path("a.ivf").write_bytes(STREAM)
    os.symlink("a.ivf", "link")
    os.symlink("link", "links")
    os.link("a.ivf", "hard")


def names():
    """OUT as other names of IN, of a source, of the requests and of the saved file."""
    put_stream()
    for out in ("a.ivf", "./a.ivf", "link", "links", "hard", str(pathlib.Path("a.ivf").resolve())):
        for more in ([], ["--live"]):
            differs(
                out, run("a.ivf", "-", out, *more, lines="count\n"), (2, "", REFUSED.format("OUT", "IN", out, "OUT"))
            )
            differs(
                f"{out} source",
                run("-", "-", out, "--sources", "a.ivf", *more),
                (2, "", REFUSED.format("OUT", "--sources", out, "OUT")),
            )
            differs(f"{out} kept", content("a.ivf"), STREAM)
    pathlib.Path("req").write_text("count\n")
    for more in ([], ["--live"]):
        differs(
            "requests", run("a.ivf", "req", "./req", *more), (2, "", REFUSED.format("OUT", "REQUESTS", "./req", "OUT"))
        )
        differs(
            "save, requests",
            run("a.ivf", "req", "--save", "./req", *more),
            (2, "", REFUSED.format("--save", "REQUESTS", "./req", "--save")),
        )
        differs(
            "save, out",
            run("a.ivf", "-", "new", "--save", "./new", *more),
            (2, "", REFUSED.format("--save", "OUT", "./new", "--save")),
        )
    with open("req", "rb") as requests:
        ended = subprocess.run([VP8SERVE, "a.ivf", "-", "req"], stdin=requests, capture_output=True, timeout=60)
    differs(
        "standard input",
        (ended.returncode, ended.stderr.decode()),
        (2, REFUSED.format("OUT", "REQUESTS", "req", "OUT")),
    )
    differs("requests kept", content("req"), b"count\n")


def devices():
    """OUT as standard output, another descriptor, a pipe with a name, and /dev/null twice."""
    put_stream()
    for out in ("/dev/stdout", "/dev/fd/1", "/proc/self/fd/1"):
        differs(out, run("a.ivf", "-", out, lines="frame 0\n"), (2, "", AMONG.format(out)))
        with open("mixed", "wb") as file:
            differs(f"{out} a file", run("a.ivf", "-", out, lines="frame 0\n", stdout=file), (2, "", AMONG.format(out)))
        ours, terminal = pty.openpty()
        differs(
            f"{out} a terminal", run("a.ivf", "-", out, lines="frame 0\n", stdout=terminal), (2, "", AMONG.format(out))
        )
        os.close(terminal)
        os.close(ours)
        with open("/dev/null", "wb") as file:
            differs(f"{out} null", run("a.ivf", "-", out, lines="frame 0\n", stdout=file), (0, "", ""))
    with open("mixed", "wb") as file:
        differs("its name", run("a.ivf", "-", "mixed", lines="frame 0\n", stdout=file), (2, "", AMONG.format("mixed")))
    differs(
        "null twice", run("a.ivf", "-", "/dev/null", "--save", "/dev/null", lines="frame 0\n"), (0, "served 0\n", "")
    )
    line = f"{VP8SERVE} a.ivf - /dev/fd/3 3>&1 >replies"
    shown = subprocess.run(["sh", "-c", line], input=b"frame 0\n", capture_output=True, timeout=60)
    differs(
        "/dev/fd/3", (shown.returncode, len(shown.stdout), content("replies")), (0, len(OPENING) + FRAME, b"served 0\n")
    )
    os.mkfifo("fifo")
    for words in (["a.ivf", "-", "fifo"], ["a.ivf", "-", "fifo", "--live"]):
        with subprocess.Popen(["cat", "fifo"], stdout=subprocess.PIPE) as reader:
            ended = run(*words, lines="frame 0\n")
            differs("a pipe", (ended, len(reader.stdout.read())), ((0, "served 0\n", ""), len(OPENING) + FRAME))
    with subprocess.Popen(["cat", "fifo"], stdout=subprocess.PIPE) as reader:
        ended = run("a.ivf", "--save", "fifo")
        differs("a saved pipe", (ended, reader.stdout.read()), ((0, "", ""), STREAM))
    os.unlink("fifo")
    differs("saved standard output", run("a.ivf", "--save", "/dev/stdout"), (2, "", SAVED_AMONG.format("/dev/stdout")))
    with open("saved.ivf", "wb") as file:
        differs(
            "saved standard output, a file",
            run("a.ivf", "--save", "/dev/stdout", stdout=file),
            (2, "", SAVED_AMONG.format("/dev/stdout")),
        )
    line = f"{VP8SERVE} a.ivf --save /dev/fd/3 3>&1 >replies"
    shown = subprocess.run(["sh", "-c", line], input=b"count\n", capture_output=True, timeout=60)
    differs(
        "saved /dev/fd/3", (shown.returncode, shown.stdout, content("replies")), (0, STREAM, b"packets 3 frames 3\n")
    )


def over():
    """A save over IN, over a source and over a link, with the mode kept, into a folder that takes no new file, and over
    a folder.
    """
    for path, changed in (
        ("a.ivf", "a.ivf"),
        ("./a.ivf", "a.ivf"),
        ("link", "a.ivf"),
        ("links", "a.ivf"),
        ("hard", "hard"),
    ):
        for more in ([], ["--live"]):
            put_stream()
            os.chmod("a.ivf", 0o604)
            differs(path, run("a.ivf", "--save", path, *more, lines="delete 2\n"), (0, "ok 2\n", ""))
            differs(f"{path} saved", (content(changed), os.stat(changed).st_mode & 0o777), (SHORTER, 0o604))
            differs(
                f"{path} others",
                (content("hard" if changed == "a.ivf" else "a.ivf"), os.path.islink("link"), fresh()),
                (STREAM, True, []),
            )
    put_stream()
    pathlib.Path("b.ivf").write_bytes(STREAM)
    differs("a source", run("a.ivf", "--sources", "b.ivf", "--save", "b.ivf", lines="delete 2\n"), (0, "ok 2\n", ""))
    differs("a source saved", (content("a.ivf"), content("b.ivf")), (STREAM, SHORTER))
    os.mkdir("folder")
    for path, why in (
        ("folder", "Is a directory (os error 21)"),
        ("none/x.ivf", "No such file or directory (os error 2)"),
        ("new/", "is a directory"),
        ("a.ivf/x", "Not a directory (os error 20)"),
    ):
        told = f"vp8serve: cannot write\n--save {path} cannot be created: {why}\n"
        differs(path, run("a.ivf", "--save", path, "--explain", lines="count\n"), (1, "packets 3 frames 3\n", told))
        differs(f"{path} live", run("a.ivf", "--save", path, "--explain", "--live", lines="count\n"), (1, "", told))
    os.symlink("loop", "loop")
    differs("a loop", run("a.ivf", "--save", "loop")[:2], (1, ""))
    differs("left", fresh(), [])


def room():
    """A limit on the length of files, as on a disk that is full: the saved file is the old one, and the whole frames
    are counted.
    """
    put_stream()
    for more in ([], ["--live"]):
        told = (
            "vp8serve: cannot write\n--save a.ivf was not written: the disk may be full. A file that was there is as it"
            " was\n"
        )
        differs(
            "full",
            run("a.ivf", "--save", "a.ivf", "--explain", *more, lines="delete 2\n", limit=40),
            (1, "ok 2\n", told),
        )
        differs("full, kept", (content("a.ivf"), fresh()), (STREAM, []))
        told = (
            "vp8serve: cannot write\n--export a.ivf was not written: the disk may be full. A file that was there is as"
            " it was\n"
        )
        differs(
            "full export",
            run("a.ivf", "--export", "a.ivf", "--explain", *more, lines="count\n", limit=40),
            (1, "packets 3 frames 3\n", told),
        )
        differs("full export, kept", (content("a.ivf"), fresh()), (STREAM, []))
        for limit, count in (
            (10, 0),
            (len(OPENING) + FRAME - 1, 0),
            (len(OPENING) + FRAME, 1),
            (len(OPENING) + 2 * FRAME + 5, 2),
        ):
            status, _, errors = run(
                "a.ivf", "-", "out.y4m", "--explain", *more, lines="frame 0\nframe 1\nframe 2\nframe 0\n", limit=limit
            )
            told = (
                "vp8serve: cannot write\nstandard output or OUT out.y4m takes no more bytes: its reader has gone, or"
                " the disk is full\n"
            )
            known = f"{limit} bytes, at most one frame" if more and not count else f"{count} whole frames"
            differs(f"{limit} bytes", (status, errors), (1, told + f"OUT out.y4m took {known}\n"))
            differs(f"{limit} bytes written", len(content("out.y4m")), limit)


def closed():
    """Each standard descriptor closed by the caller: no file gets its number, and a reply is not lost with status 0."""
    put_stream()
    pathlib.Path("req").write_text("frame 0\ncount\n")
    program = str(VP8SERVE)
    frames = len(OPENING) + FRAME
    for what, want in (
        (">&-", (1, frames, None)),
        ("2>&-", (0, frames, STREAM)),
        ("<&-", (0, frames, STREAM)),
        (">&- 2>&-", (1, frames, None)),
        ("<&- >&- 2>&-", (1, frames, None)),
    ):
        for more in ("", "--live", "--explain", "--live --explain"):
            for name in ("out.y4m", "saved.ivf"):
                pathlib.Path(name).unlink(missing_ok=True)
            ended = subprocess.run(
                ["sh", "-c", f"exec {program} a.ivf req out.y4m --save saved.ivf {more} {what}"],
                capture_output=True,
                timeout=60,
            )
            out = content("out.y4m")
            differs(f"{what} {more}", (ended.returncode, len(out), content("saved.ivf")), want)
            differs(
                f"{what} {more} frames",
                out.startswith(OPENING) and b"served" not in out and b"vp8serve" not in out,
                True,
            )
            differs(f"{what} {more} left", fresh(), [])
    differs(
        "help", subprocess.run(["sh", "-c", f"{program} --help >&-"], capture_output=True, timeout=60).returncode, 1
    )


def saved_without(known, refused, option, more):
    """A run in which one request for memory is refused: it ended, the file that it saves by this option, and the
    replies.
    """
    pathlib.Path("saved.ivf").write_bytes(b"old")
    with contextlib.ExitStack() as opened:
        files = {at: opened.enter_context(open(name, "w+b")).fileno() for at, name in ((1, "replies"), (2, "errors"))}
        ended = traced(known, ["a.ivf", "req", option, "saved.ivf", *more], files, lambda number: number == refused)
    return ended, content("saved.ivf"), content("replies")


def memory(option, more):
    """Each request for memory refused in turn: the saved file is the old one, or the whole new one with status 0."""
    put_stream()
    pathlib.Path("req").write_text("frame 0\ndelete 2\n")
    known = program_of("vp8serve")
    for number in range(1, saved_without(known, None, option, more)[0].requests + 1):
        ended, saved, replies = saved_without(known, number, option, more)
        is_shorter = b"ok 2" in replies
        whole = EXPORTED[is_shorter] if option == "--export" else SHORTER if is_shorter else STREAM
        differs(f"request {number} {option} {more}", saved == (whole if ended.status == 0 else b"old"), True)
        differs(f"request {number} {option} {more} left", fresh(), [])
        TOLD["requests for memory"] += 1


def memories():
    """The packets are saved, and the frames exported, as a batch and live."""
    for option in ("--save", "--export"):
        for more in ([], ["--live"]):
            memory(option, more)


def main():
    with tempfile.TemporaryDirectory() as folder:
        os.chdir(folder)
        is_here = is_traceable(VP8SERVE)
        if not is_here:
            print("skipped: requests for memory are refused on x86-64 only")
        for part in (names, devices, over, room, closed, *([memories] if is_here else [])):
            part()
            for path in pathlib.Path().iterdir():
                shutil.rmtree(path) if path.is_dir() and not path.is_symlink() else path.unlink()
        os.chdir("/")
    results.total(
        (
            f"{TOLD['runs']} comparisons, {TOLD['requests for memory']} requests for memory refused,"
            f" {TOLD['differences']} differences"
        ),
        TOLD["differences"],
    )
    return 1 if TOLD["differences"] else 0


if __name__ == "__main__":
    sys.exit(main())
