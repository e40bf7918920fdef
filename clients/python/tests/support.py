"""What the tests share: the programs, small clips, and a time limit for each test."""

import contextlib
import hashlib
import os
import pathlib
import re
import signal
import subprocess
import sys
import tempfile
import time
import unittest
from unittest import mock

TOP = pathlib.Path(__file__).resolve().parents[3]
sys.path.insert(0, str(TOP / "clients/python"))

from wokureti import Session  # noqa: E402
from wokureti.base import programs  # noqa: E402
from wokureti.media import ivf  # noqa: E402
from wokureti.session import library  # noqa: E402

# The programs of this tree are tested, not others that may be on the PATH.
for name in ("vp8serve", "vp8list"):
    built = programs.TREE / "crates" / name / "out" / name
    if built.is_file():
        os.environ.setdefault(name.upper(), str(built))

# A shell's job in the background ignores Ctrl-C, and so would what it starts; the tests send it.
signal.signal(signal.SIGINT, signal.default_int_handler)

# What a program of this user keeps, as the addresses of pages, is not that of who runs the tests.
STATE = tempfile.TemporaryDirectory()
os.environ["XDG_STATE_HOME"] = STATE.name

# What sessions ask where a test does not say, and how its errors begin.
ENGINE = library.engine_of(None, None)
SPEAKER = {"program": "vp8serve", "library": "libwokureti"}[ENGINE]
CLIP = TOP / "examples/mandelbrot.ivf"
DATA = TOP / "crates/gate_clips/data"
SMALL = DATA / "small.ivf"
ODD = DATA / "odd-size.ivf"


def slowness():
    """How many times longer than on an idle machine a process takes to start here, so that a busy machine fails no
    test.
    """
    start = time.monotonic()
    subprocess.run([sys.executable, "-c", ""], check=True, timeout=60)
    return min(20.0, max(1.0, (time.monotonic() - start) / 0.05))


SLOW = slowness()


class Case(unittest.TestCase):
    """A test that may take LIMIT seconds, on an idle machine."""

    LIMIT = 20

    def setUp(self):
        limit = SLOW * self.LIMIT

        def late(number, frame):
            raise AssertionError(f"the test took longer than {limit} seconds")

        signal.signal(signal.SIGALRM, late)
        signal.setitimer(signal.ITIMER_REAL, limit)
        self.addCleanup(signal.setitimer, signal.ITIMER_REAL, 0)

    def hush(self):
        """What sessions and servers in this process say to people is not printed."""
        for name in ("wokureti.server.live.say", "wokureti.session.convert.say"):
            patch = mock.patch(name)
            patch.start()
            self.addCleanup(patch.stop)

    def folder(self):
        """A new folder, which goes after the test."""
        room = tempfile.TemporaryDirectory()
        self.addCleanup(room.cleanup)
        return pathlib.Path(room.name)

    def session(self, stream=SMALL, **options):
        """A session that is ended after the test."""
        session = Session(stream, **options)
        self.addCleanup(session.kill)
        return session

    def assertGone(self, pid):
        """The process ends within a second."""
        limit = time.monotonic() + SLOW
        while is_alive(pid):
            self.assertLess(time.monotonic(), limit, f"process {pid} is alive")
            time.sleep(0.01)

    @contextlib.contextmanager
    def within(self, seconds):
        """The block takes at most this long, on an idle machine."""
        start = time.monotonic()
        yield
        self.assertLess(time.monotonic() - start, SLOW * seconds)


def is_alive(pid):
    """Whether a process runs; one that ended and was not waited for does not."""
    try:
        with open(f"/proc/{pid}/stat") as file:
            return file.read().rsplit(")", 1)[1].split()[0] != "Z"
    except OSError:
        return False


def list_of(path):
    """The text of a list of edits without its first line, which says what stream it is of, and without those that name
    its sources.
    """
    text = re.sub(r"\A# wokureti: edits of \d+ packets, \d+ bytes, sha256 [0-9a-f]{64}\n", "", path.read_text())
    return re.sub(r"(?m)^# source \d+: .*\n", "", text)


def parent_of(pid):
    """The number of a process's parent, or nothing if the process is gone."""
    try:
        with open(f"/proc/{pid}/stat") as file:
            return int(file.read().rsplit(")", 1)[1].split()[1])
    except OSError:
        return None


def children_of(pid):
    """The processes that this one started and that run."""
    return [int(name) for name in os.listdir("/proc") if name.isdigit() and parent_of(name) == pid]


def process_of(session):
    return session._pipes.process.pid


def crash(session):
    """Ends what answers a session, as a fault of its program does."""
    if session.engine == "program":
        os.kill(process_of(session), signal.SIGKILL)
    else:
        session._pipes.kill()


def digest(frame):
    return hashlib.md5(frame.i420()).hexdigest()


def packets_of(path):
    """The packets of an IVF file."""
    return [data for _, data in ivf.read_packets(path)[1]]


def serve(stream, lines, *options, frames="-"):
    """The replies of a run of the program on a list of requests."""
    words = [programs.find("vp8serve"), str(stream), "-", str(frames), *map(str, options)]
    given = "".join(f"{line}\n" for line in lines)
    return subprocess.run(
        words, input=given, capture_output=True, text=True, timeout=20 * SLOW, check=True
    ).stdout.splitlines()


def frames_of(stream, numbers, *lines_before):
    """The samples of the frames that a run of the program writes."""
    with tempfile.TemporaryDirectory() as room:
        out = os.path.join(room, "out.y4m")
        serve(stream, [*lines_before, *(f"frame {number}" for number in numbers)], frames=out)
        with open(out, "rb") as file:
            header = file.readline()
            rest = file.read()
    from wokureti.media.y4m import parse_header, size_of

    size = 6 + size_of(*parse_header(header))
    return [rest[start + 6 : start + size] for start in range(0, len(rest), size)]


def start_python(*words, **options):
    """A process of Python, which finds the client."""
    env = {**os.environ, "PYTHONPATH": str(TOP / "clients/python"), **options.pop("env", {})}
    return subprocess.Popen([sys.executable, *map(str, words)], env=env, **options)


def start(*words, **options):
    """A process of the command wokureti."""
    return start_python("-m", "wokureti", *words, **options)


def start_unwaking(*words, **options):
    """The same. A line of its standard input is a Ctrl-C that came right before the main thread began to wait: the
    handler is called when the wait is over, and the signal does not end the wait."""
    code = "; ".join((
        "import _thread, sys, threading",
        "from wokureti import commands",
        "threading.Thread(target=lambda: (sys.stdin.readline(), _thread.interrupt_main()), daemon=True).start()",
        "sys.exit(commands.main(sys.argv[1:]))",
    ))  # fmt: skip
    return start_python("-c", code, *words, stdin=subprocess.PIPE, **options)


def command(*words, given=b"", **options):
    """The status of the command wokureti, and what it wrote to standard output and standard error."""
    process = start(*words, stdin=subprocess.PIPE, stdout=subprocess.PIPE, stderr=subprocess.PIPE, **options)
    out, errors = process.communicate(given, timeout=20 * SLOW)
    return process.returncode, out, errors.decode()


def whole_text(stream, *lines, sources=()):
    """The text that one run of the program writes for all frames."""
    with tempfile.TemporaryDirectory() as room:
        out = os.path.join(room, "out.y4m")
        options = ["--sources", ":".join(map(str, sources))] if sources else []
        count = int(serve(stream, [*lines, "count"], *options)[-1].split()[3])
        serve(stream, [*lines, *(f"frame {number}" for number in range(count))], *options, frames=out)
        with open(out, "rb") as file:
            return file.read()


def write_packets(path, packets, rate=30, scale=1):
    """Writes an IVF file of packets, with time stamps from 0."""
    head = ivf.Head(16, 16, rate, scale)
    with open(path, "wb") as file:
        file.writelines(ivf.pieces(head, len(packets), list(enumerate(packets))))
    return path
