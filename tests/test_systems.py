#!/usr/bin/env python3
"""Tests the Python package as Python of Windows and of macOS would run it (tests/as_system.py): each command but
`mount` writes the bytes that it writes here, the page and the server too; two runs at a time leave each other's
folders; and a file that is read in part is an error, and replaces nothing.

On Windows the library answers sessions; macOS is tested with the programs. The library is that of the variable
LIBWOKURETI, or bin/libwokureti.so.0. It prints what differs and ends with 1, or prints nothing and ends with 0; a line
`skipped: ..` names what could not be run.
"""

import http.client
import json
import os
import pathlib
import re
import shutil
import signal
import subprocess
import sys
import tempfile

TOP = pathlib.Path(__file__).resolve().parent.parent
DATA, AS = TOP / "crates/gate_clips/data", TOP / "tests/as_system.py"
# Seconds for a command, and for a server to do what it is asked.
LIMIT = 120
PROGRAMS = {
    name: os.path.abspath(os.environ.get(name.upper()) or TOP / "bin" / name) for name in ("vp8serve", "vp8list")
}
LIBRARY = pathlib.Path(os.environ.get("LIBWOKURETI") or TOP / "bin/libwokureti.so.0").absolute()
SYSTEMS = ("windows", "macos")
# A program of Windows has a list of paths with `;`.
WRAPPER = """#!/bin/sh
for word; do
    shift
    case $last in --sources) word=$(printf %s "$word" | tr ';' ':') ;; esac
    last=$word
    set -- "$@" "$word"
done
exec {} "$@"
"""
DECODER = """#!/bin/sh
seq -f 'frame %.0f' 0 11 | {} "$1" - "$2" > /dev/null
"""
# Each command, and what it gets on standard input. They run in a folder in this order, and what one writes another
# reads.
COMMANDS = {
    "version": ("--version",),
    "cut": ("cut", "clip.ivf", "cut.ivf", "--from", "f3", "--to", "f9"),
    "cut of standard input": ("cut", "-", "cut-2.ivf", "--from", "0.1", "--to", "0.3"),
    "cut to WebM": ("cut", "clip.ivf", "cut.webm", "--from", "f2"),
    "cut of parts": ("cut", "clip.ivf", "parts.ivf", "--from", "f0", "--to", "f2", "--from", "f5", "--to", "f7"),
    "join": ("join", "clip.ivf", "cut.ivf", "clip.ivf", "joined.ivf"),
    "a file that is there": ("join", "clip.ivf", "cut.ivf", "joined.ivf"),
    "a file that is replaced": ("join", "cut.ivf", "clip.ivf", "joined.ivf", "-y"),
    "export": (
        "export",
        "clip.ivf",
        "export.ivf",
        "--sources",
        "cut.ivf;joined.ivf",
        "--script",
        "source 1; source 2; splice 1 2",
        "--edits",
        "list",
    ),
    "export of a name with `;`": (
        "export",
        "clip.ivf",
        "export-2.ivf",
        "--sources",
        "cut.ivf",
        "--script",
        "source 1; splice 0 1",
    ),
    "repair": ("repair", "broken.ivf", "repaired.ivf", "--edits", "repairs"),
    "compare": ("compare", "clip.ivf", "repaired.ivf", "--png", "pictures"),
    "compare of a decoder": ("compare", "clip.ivf", "--decoder", "./decoder {in} {out}", "--junit", "junit.xml"),
    "cat": ("cat", "clip.ivf", "frames.y4m", "--jobs", "2"),
    "cat of a script": (
        "cat",
        "clip.ivf",
        "faded.y4m",
        "--source",
        "cut.ivf",
        "--script",
        "source 1; splice 0 1; fade 2 0 6 0 256",
        "--edits",
        "list",
    ),
    "cat of standard input": ("cat", "-"),
    "cat of nothing": ("cat", "/dev/null"),
    "png": ("png", "clip.ivf", "5", "frame.png", "--edits", "list"),
    "a file that is not there": ("png", "missing.ivf", "5", "frame-2.png"),
    "a text": ("cut", "list", "cut-3.ivf", "--from", "f3"),
}
READ_WEBM = {
    "cut of WebM": ("cut", "cut.webm", "cut-2.webm", "--from", "f3"),
    "cat of WebM": ("cat", "cut.webm", "webm.y4m"),
}
# Code that gives the client a positional read that moves the place where a file is read, as `seek` and `read` do.
MOVING = """
import os, sys
from wokureti import commands, system
def moving(descriptor, size, place):
    os.lseek(descriptor, place, os.SEEK_SET)
    return os.read(descriptor, size)
system.pread = moving
sys.exit(commands.main())
"""
wrong = []


def expect(name, got, wanted):
    if got != wanted:
        wrong.append(f"{name}: {got!r:.600}, not {wanted!r:.600}")


class Place:
    """A folder of streams, and how wokureti is run in it as a system does, or as it is (None)."""

    def __init__(self, room, system):
        self.system, self.folder, self.temporary = (
            system,
            room / f"{system}" / "clips",
            room / f"{system}" / "temporary",
        )
        for folder in (self.folder, self.temporary):
            folder.mkdir(parents=True)
        shutil.copyfile(DATA / "small.ivf", self.folder / "clip.ivf")
        (self.folder / "list").write_bytes(b"hold 3\ndelete 5\n")
        for path, text, program in (
            (self.folder / "decoder", DECODER, "vp8serve"),
            (room / f"{system}" / "vp8serve", WRAPPER, "vp8serve"),
        ):
            path.write_text(text.format(PROGRAMS[program]))
            path.chmod(0o755)
        given = b"replace 4 1100\n"
        subprocess.run(
            [PROGRAMS["vp8serve"], "clip.ivf", "-", "-", "--save", "broken.ivf"],
            cwd=self.folder,
            input=given,
            stdout=subprocess.DEVNULL,
            check=True,
            timeout=LIMIT,
        )
        serve = PROGRAMS["vp8serve"] if system != "windows" else str(room / system / "vp8serve")
        self.environment = {
            **os.environ, "VP8SERVE": serve, "VP8LIST": PROGRAMS["vp8list"],
            "LIBWOKURETI": str(LIBRARY),
            "WOKURETI_ENGINE": "program" if system == "macos" else "library",
            "PYTHONPATH": str(TOP / "clients/python"), "PYTHONDONTWRITEBYTECODE": "1",
            "TMPDIR": str(self.temporary), "XDG_STATE_HOME": str(room / f"{system}" / "state"),
        }  # fmt: skip
        if system is not None:
            self.environment["WOKURETI_AS"] = system

    def start(self, *words, **options):
        """A process of Python with these words."""
        program = [sys.executable] if self.system is None else [sys.executable, str(AS)]
        return subprocess.Popen([*program, *words], cwd=self.folder, env=self.environment, **options)

    def run(self, *words, given=b""):
        """The status of a run, and what it wrote: with the line ends and the names of Linux."""
        with self.start(*words, stdin=subprocess.PIPE, stdout=subprocess.PIPE, stderr=subprocess.PIPE) as process:
            try:
                out, errors = process.communicate(given, timeout=LIMIT)
            except subprocess.TimeoutExpired:
                process.kill()
                return "late", b"", ""
        # The second line of `--version` is of the programs.
        out = out.split(b"\n")[0] if "--version" in words else out
        return (
            process.returncode,
            out if "cat" in words else out.replace(b"\r\n", b"\n").rstrip(b"\r"),
            self.plain(errors),
        )

    def plain(self, errors):
        """What was said, without what differs: folders, addresses, and who answers the session."""
        text = (
            errors.decode(errors="replace")
            .replace("\r\n", "\n")
            .replace(str(self.folder), "FOLDER")
            .replace("libwokureti: ", "vp8serve: ")
        )
        return re.sub(r"http://127\.0\.0\.1:\d+/[\w-]+/", "ADDRESS/", text)

    def files(self):
        """The bytes of each file, with the time that a program took left out."""
        found = {
            str(path.relative_to(self.folder)): path.read_bytes()
            for path in sorted(self.folder.rglob("*"))
            if path.is_file()
        }
        return {
            name: re.sub(rb'time="[0-9.]+"', b"", data) if name == "junit.xml" else data for name, data in found.items()
        }

    def left(self):
        """What is left in the folder for temporary files."""
        return sorted(path.name for path in self.temporary.iterdir())


def commands():
    """The commands that can be run here, with what they get on standard input."""
    found = dict(COMMANDS)
    if shutil.which("ffmpeg") and shutil.which("ffprobe"):
        found |= READ_WEBM
    else:
        print("skipped: streams in WebM are read by ffmpeg, which is not here")
    return {name: (words, (DATA / "small.ivf").read_bytes() if "-" in words else b"") for name, words in found.items()}


class Page:
    """A server that wokureti starts in a folder."""

    def __init__(self, place, *words):
        self.process = place.start(
            "-m", "wokureti", *words, stdin=subprocess.DEVNULL, stdout=subprocess.PIPE, stderr=subprocess.PIPE
        )
        self.place, self.address = place, self.process.stdout.readline().decode().strip()
        self.host, self.token = re.fullmatch(r"http://([\d.:]+)/([\w-]+)/.*", self.address).groups()

    def ask(self, path, **members):
        """The status and the body of an answer."""
        one = http.client.HTTPConnection(self.host, timeout=LIMIT)
        headers = {"Origin": f"http://{self.host}", "Content-Type": "application/json"} if members else {}
        one.request(
            "POST" if members else "GET", f"/{self.token}/{path}", json.dumps(members) if members else None, headers
        )
        response = one.getresponse()
        found = response.status, response.read()
        one.close()
        return found

    def end(self):
        """Ends it as Ctrl-C does: its status, and what it said."""
        self.process.send_signal(signal.SIGINT)
        try:
            out, errors = self.process.communicate(timeout=LIMIT)
        except subprocess.TimeoutExpired:
            self.process.kill()
            return "late", ""
        return self.process.returncode, self.place.plain(errors)


def page_of(place):
    """What the page of a stream answers while it is looked at, edited and saved; and what it says at its end."""
    page = Page(place, "open", "clip.ivf", "--no-browser", "--source", "cut.ivf", "--cache", "8")
    try:
        found = [page.ask(path) for path in ("page/", "page/main.js", "frames/0.y4m", "file/packets", "streams")]
        status, body = page.ask("session")
        found.append((status, json.loads(body)["packets"], json.loads(body)["names"]))
        found.append(page.ask("edits", line="delete 3")[0])
        status, body = page.ask("edits", line="save")
        found += [
            (status, json.loads(body).get("reply")),
            page.ask("frames", frames=[2, 3, 4]),
            page.ask("file/export"),
            page.ask("file/packets"),
        ]
        # Another page is a command of its own, which ends with this one.
        status, body = page.ask("streams", file="joined.ivf", **{"as": "page"})
        other = re.fullmatch(r"http://([\d.:]+)/([\w-]+)/page/", json.loads(body)["address"])
        one = http.client.HTTPConnection(other.group(1), timeout=LIMIT)
        one.request("GET", f"/{other.group(2)}/frames/1.y4m")
        answer = one.getresponse()
        found.append((status, answer.status, answer.read()))
        one.close()
    finally:
        found.append(page.end())
    try:
        http.client.HTTPConnection(other.group(1), timeout=5).request("GET", "/")
        found.append("the other page did not end")
    except ConnectionRefusedError:
        pass
    return [normal(one) for one in found]


def served_by(place):
    """What the server for players answers, with the list of edits of the page."""
    server = Page(place, "serve", "clip.ivf", "--edits", "clip.edits", "--save", "served.ivf")
    address = server.process.stdout.readline().decode().strip()
    try:
        found = [server.ask("clip.y4m")]
        server.token = re.fullmatch(r"http://[\d.:]+/([\w-]+)/edits", address).group(1)
        found += [server.ask("edits", line="hide 4")[0], server.ask("edits", line="save")[0]]
    finally:
        found.append(server.end())
    return [normal(one) for one in found]


def normal(answer):
    """An answer without what is new in each run."""
    if isinstance(answer, tuple) and isinstance(answer[-1], bytes) and answer[-1].startswith(b"{"):
        members = json.loads(answer[-1])
        return *answer[:-1], {
            name: value for name, value in members.items() if name not in ("instance", "revision", "changes")
        }
    return answer


def same_bytes(places):
    """Each command, the page and the server write the same on each system."""
    plain, *others = places
    for name, (words, given) in commands().items():
        wanted = plain.run("-m", "wokureti", *words, given=given)
        for place in others:
            expect(f"{place.system}: {name}", place.run("-m", "wokureti", *words, given=given), wanted)
    for what in (page_of, served_by):
        wanted = what(plain)
        for place in others:
            for number, (got, one) in enumerate(zip(what(place), wanted)):
                expect(f"{place.system}: {what.__name__}, answer {number}", got, one)
    wanted = plain.files()
    expect("files of this system", len(wanted) > 20, True)
    for place in others:
        found = place.files()
        expect(f"{place.system}: files", sorted(found), sorted(wanted))
        for name in found.keys() & wanted.keys():
            expect(f"{place.system}: {name}", found[name], wanted[name])
    for place in places:
        expect(f"{place.system}: temporary files that are left", place.left(), [])


def taken_away(place):
    """What a system does not have is really taken away here; and commands name what they miss."""
    lines = {
        "windows": (
            "import fcntl",
            "import os; os.pread",
            "import os; os.O_CLOEXEC",
            "import select; select.poll",
            "import signal; signal.SIGHUP",
            "open('/proc/self/status')",
            "open('/dev/stdin')",
            "import os; os.getuid()",
            "import os; os.register_at_fork",
        ),
        "macos": ("import os; os.sched_getaffinity", "open('/proc/self/status')", "import select; select.epoll"),
    }[place.system]
    for line in lines:
        status, _, errors = place.run("-c", line, "")
        expect(
            f"{place.system}: {line}",
            (
                status,
                errors.strip().rpartition("\n")[2].split(":")[0]
                in ("ModuleNotFoundError", "AttributeError", "FileNotFoundError"),
            ),
            (1, True),
        )
    if place.system == "windows":
        text = (
            "wokureti: mount needs FUSE, which Windows does not have: `wokureti serve` has the same frames for programs"
            " that open an address\n"
        )
        expect("windows: mount", place.run("-m", "wokureti", "mount", "clip.ivf", "folder"), (2, b"", text))
        status, _, errors = place.run("-c", "from wokureti import Session; Session('clip.ivf', engine='program')", "")
        expect(
            "windows: a program over pipes",
            (status, "Windows has no pipes on which a program can answer" in errors),
            (1, True),
        )


def read_in_part(place):
    """A positional read that moves the place of a file: commands that copy a file find that they did not read it whole,
    write nothing, and replace nothing.
    """
    before = (place.folder / "joined.ivf").read_bytes()
    for words in (
        ("cut", "clip.ivf", "new.ivf", "--from", "f3"),
        ("join", "cut.ivf", "clip.ivf", "joined.ivf", "-y"),
        ("export", "clip.ivf", "new.ivf", "--edits", "list"),
    ):
        status, out, errors = place.run("-c", MOVING, *words)
        size = re.fullmatch(
            (
                rf"wokureti: {re.escape(words[-2] if words[-1] == '-y' else words[2])}: 0 bytes of [\d,]+ were read of"
                r" what is to be written, so it was not written\n"
            ),
            errors,
        )
        expect(
            f"{place.system}: {words[0]} that reads in part", (status, out, size is not None or errors), (2, b"", True)
        )
    expect(
        f"{place.system}: a file after that",
        ((place.folder / "new.ivf").exists(), (place.folder / "joined.ivf").read_bytes() == before),
        (False, True),
    )
    expect(f"{place.system}: temporary files after that", place.left(), [])


# A program that has a temporary folder until it is ended; and one that cannot lock it.
HOLDING = (
    "from wokureti.base import rooms\nroom = rooms.Room()\nprint(room.name, flush=True)\nimport sys\nsys.stdin.read()"
)
UNLOCKED = (
    "from wokureti import system\ndef lock(descriptor):\n    raise OSError(38, 'Function not"
    f" implemented')\nsystem.lock = lock\n{HOLDING}"
)
SWEEPING = "from wokureti.base import rooms\nrooms.sweep()"
SWEEPING_UNLOCKED = UNLOCKED.replace(HOLDING, SWEEPING)


def at_a_time(place):
    """Two runs at a time: the folder of the one is removed by the other only if the one was killed, and locks say
    so.
    """
    for name, holding, is_removed in (("locked", HOLDING, True), ("where nothing can be locked", UNLOCKED, False)):
        process = place.start("-c", holding, stdin=subprocess.PIPE, stdout=subprocess.PIPE)
        folder = pathlib.Path(process.stdout.readline().decode().strip())
        for sweeping in (SWEEPING, SWEEPING_UNLOCKED):
            place.run("-c", sweeping, "")
            expect(f"{place.system}: a folder that is used, {name}", folder.is_dir(), True)
        process.kill()
        process.communicate(timeout=LIMIT)
        place.run("-c", SWEEPING_UNLOCKED, "")
        expect(f"{place.system}: a folder whose lock cannot be tried, {name}", folder.is_dir(), True)
        place.run("-c", SWEEPING, "")
        expect(f"{place.system}: a folder of a program that was killed, {name}", folder.is_dir(), not is_removed)
        shutil.rmtree(folder, ignore_errors=True)


def locked_list(place):
    """A list of edits has one session at a time, and goes if nothing was edited."""
    page = Page(place, "open", "cut.ivf", "--no-browser")
    try:
        status, out, errors = place.run("-m", "wokureti", "open", "cut.ivf", "--no-browser")
        expect(
            f"{place.system}: a second session",
            (status, out, "is the list of another session that is open" in errors),
            (2, b"", True),
        )
    finally:
        expect(f"{place.system}: the end of a session without edits", page.end()[0], 0)
    expect(f"{place.system}: a list without edits", (place.folder / "cut.edits").exists(), False)


def main():
    if not LIBRARY.is_file():
        print(f"skipped: {LIBRARY} is not there: ./build.py --library makes it")
        return 0
    with tempfile.TemporaryDirectory() as name:
        places = [Place(pathlib.Path(name), system) for system in (None, *SYSTEMS)]
        same_bytes(places)
        for place in places[1:]:
            taken_away(place)
            read_in_part(place)
            at_a_time(place)
            locked_list(place)
    for line in wrong:
        print(line)
    return 1 if wrong else 0


if __name__ == "__main__":
    sys.exit(main())
