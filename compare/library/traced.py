"""Runs a program that stops at each of its requests for memory, or at each of its reads and writes, and lets the caller
refuse them.

It uses ptrace of Linux on x86-64 from Python's standard library. The program's own slots for `malloc` and `realloc`
(its global offset table) are given addresses with no code, once the dynamic linker has filled them: each call then
stops with SIGSEGV there. So the requests are those of the program's own code, all of them from `main` on; what the C
library takes for itself is not counted.
"""

import contextlib
import ctypes
import errno
import os
import platform
import signal
import struct
from dataclasses import dataclass, field

from .programs import TOP

TRACE_ME, PEEK, PEEK_USER, POKE, POKE_USER, CONTINUE, UNTIL_CALL, SET_OPTIONS = 0, 1, 3, 4, 6, 7, 24, 0x4200
MARKS_CALLS, ENDS_WITH_US = 1, 0x100000
RAX, RDX, RDI, ORIG_RAX, RIP, RSP = 80, 96, 112, 120, 128, 152
CALLS = {0: "read", 1: "write", 19: "readv", 20: "writev", 74: "fsync", 82: "rename", 87: "unlink", 91: "fchmod"}
WITH_PATH = ("rename", "unlink")
ALLOCATORS = {"malloc": 0x10, "realloc": 0x20, "calloc": 0x30, "aligned_alloc": 0x40, "posix_memalign": 0x50}
MASK = 2**64 - 1
SECONDS = 60

LIBC = ctypes.CDLL(None, use_errno=True)
LIBC.ptrace.argtypes = [ctypes.c_long, ctypes.c_long, ctypes.c_void_p, ctypes.c_void_p]
LIBC.ptrace.restype = ctypes.c_long


def ptrace(request, pid, address, data):
    ctypes.set_errno(0)
    result = LIBC.ptrace(request, pid, address, data)
    if ctypes.get_errno():
        raise OSError(ctypes.get_errno(), os.strerror(ctypes.get_errno()))
    return result & MASK


def is_traceable(path):
    """Whether a program is one that this can run: for Linux on x86-64, here, and not by an emulator."""
    with open(path, "rb") as file:
        head = file.read(20)
    return (
        (platform.system(), platform.machine()) == ("Linux", "x86_64")
        and head[:4] == b"\x7fELF"
        and head[18:] == b"\x3e\x00"
    )


@dataclass
class Program:
    """The parts of an ELF file that a run needs: its entry, and the slots of the functions that give memory."""

    path: str
    entry: int = 0
    is_fixed: bool = False
    slots: dict = field(default_factory=dict)

    def __post_init__(self):
        with open(self.path, "rb") as file:
            text = file.read()
        kind, self.entry, start, size, count = (
            *struct.unpack_from("<H6xQ", text, 16),
            *struct.unpack_from("<Q", text, 40),
            *struct.unpack_from("<HH", text, 58),
        )
        self.is_fixed = kind == 2
        sections = [struct.unpack_from("<IIQQQQIIQQ", text, start + size * at) for at in range(count)]
        for section in sections:
            if section[1] != 4:
                continue
            symbols = sections[section[6]]
            names = sections[symbols[6]]
            for at in range(section[4], section[4] + section[5], 24):
                place, info, _ = struct.unpack_from("<QQq", text, at)
                if info & 0xFFFFFFFF not in (6, 7):
                    continue
                first = names[4] + struct.unpack_from("<I", text, symbols[4] + 24 * (info >> 32))[0]
                name = text[first : text.index(b"\0", first)].decode()
                if name in ALLOCATORS:
                    self.slots.setdefault(name, []).append(place)


def program_of(name):
    """The program of this name, whose requests for memory are seen: that of the variable VP8SERVE or VP8LIST, or the
    one that `rt ci` built. Those of dist/ are linked statically: no request of theirs would be refused."""
    for path in (os.environ.get(name.upper()), TOP / "crates" / name / "out" / name):
        if path and os.path.isfile(path):
            program = Program(str(path))
            if program.slots:
                return program
    raise SystemExit(
        f"no {name} is here whose requests for memory are seen, as of those that are linked dynamically: rt ci"
        " builds one"
    )


@dataclass
class Ended:
    """A run that ended: its exit status (negative for a signal), and how many requests for memory and reads and writes
    it made.
    """

    status: int
    requests: int = 0
    calls: int = 0


@dataclass
class Call:
    """A read, a write or another call on a file, before it is made: its number from 1, and the file that its descriptor
    or path names.
    """

    number: int
    kind: str
    descriptor: int
    path: str
    length: int
    requests: int
    pid: int


class Run:
    """A run. `refuses(n)` says whether the nth request for memory is refused. `changes(call)` returns None for a call
    that is made as it is, a negative number for one that fails with that error, and a positive number of bytes for one
    that is made shorter.
    """

    def __init__(self, program, pid, refuses, changes):
        self.program, self.pid, self.refuses, self.changes = program, pid, refuses, changes
        self.ended = Ended(0)
        self.real, self.base = {}, 0
        self.failing = None
        self.is_in_call = False

    def peek(self, address):
        return ptrace(PEEK, self.pid, address, None)

    def text_at(self, address):
        """The text in the program's memory that begins here and ends with a byte 0."""
        text = b""
        while b"\0" not in text:
            text += struct.pack("<Q", self.peek(address + len(text)))
        return text.split(b"\0")[0].decode()

    def user(self, register):
        return ptrace(PEEK_USER, self.pid, register, None)

    def set_user(self, register, value):
        ptrace(POKE_USER, self.pid, register, value & MASK)

    def wait(self):
        """Whether the program stopped, and at what; else it has ended."""
        _, status = os.waitpid(self.pid, 0)
        if os.WIFSTOPPED(status):
            return os.WSTOPSIG(status)
        self.ended.status = -os.WTERMSIG(status) if os.WIFSIGNALED(status) else os.WEXITSTATUS(status)
        return None

    def to_entry(self):
        """Lets the dynamic linker work, and stops at the program's first instruction."""
        self.wait()
        ptrace(SET_OPTIONS, self.pid, None, MARKS_CALLS | ENDS_WITH_US)
        with open(f"/proc/{self.pid}/auxv", "rb") as file:
            entry = dict(struct.iter_unpack("<QQ", file.read()))[9]
        self.base = 0 if self.program.is_fixed else entry - self.program.entry
        word = self.peek(entry)
        ptrace(POKE, self.pid, entry, word & ~0xFF | 0xCC)
        ptrace(CONTINUE, self.pid, None, None)
        if self.wait() != signal.SIGTRAP:
            raise RuntimeError("the program does not reach its first instruction")
        ptrace(POKE, self.pid, entry, word)
        self.set_user(RIP, entry)

    def set_traps(self):
        for name, places in self.program.slots.items():
            for place in places:
                self.real[ALLOCATORS[name]] = self.peek(self.base + place)
                ptrace(POKE, self.pid, self.base + place, ALLOCATORS[name])

    def at_request(self, trap):
        """Refuses a request for memory, or lets it be made."""
        self.ended.requests += 1
        if not self.refuses(self.ended.requests):
            self.set_user(RIP, self.real[trap])
            return
        if trap == ALLOCATORS["posix_memalign"]:
            raise RuntimeError("posix_memalign refuses otherwise")
        top = self.user(RSP)
        self.set_user(RIP, self.peek(top))
        self.set_user(RSP, top + 8)
        self.set_user(RAX, 0)

    def at_call(self):
        """Changes a read or a write, before it is made or after."""
        self.is_in_call = not self.is_in_call
        if not self.is_in_call:
            if self.failing is not None:
                self.set_user(RAX, self.failing)
            self.failing = None
            return
        kind = CALLS.get(self.user(ORIG_RAX))
        if kind is None:
            return
        self.ended.calls += 1
        descriptor, length = self.user(RDI), self.user(RDX)
        path = self.text_at(descriptor) if kind in WITH_PATH else os.readlink(f"/proc/{self.pid}/fd/{descriptor}")
        change = self.changes(Call(self.ended.calls, kind, descriptor, path, length, self.ended.requests, self.pid))
        if change is None:
            return
        if change < 0:
            self.failing = change
            self.set_user(ORIG_RAX, -1)
        elif kind not in ("read", "write"):
            raise RuntimeError(f"{kind} cannot be made shorter")
        else:
            self.set_user(RDX, min(length, change))

    def go(self):
        self.to_entry()
        if self.refuses:
            self.set_traps()
        following = UNTIL_CALL if self.changes else CONTINUE
        signal_number = 0
        while True:
            with contextlib.suppress(ProcessLookupError):
                ptrace(following, self.pid, None, signal_number)
            stop = self.wait()
            if stop is None:
                return self.ended
            signal_number = 0
            if stop == signal.SIGTRAP | 0x80:
                self.at_call()
            elif stop == signal.SIGSEGV and (trap := self.user(RIP)) in self.real:
                self.at_request(trap)
            else:
                signal_number = stop


def begin(words, files):
    """Starts a program that waits to be traced, with these descriptors."""
    pid = os.fork()
    if pid:
        return pid
    try:
        for descriptor, file in files.items():
            os.dup2(file, descriptor)
        signal.signal(signal.SIGPIPE, signal.SIG_DFL)
        LIBC.ptrace(TRACE_ME, 0, None, None)
        os.execve(words[0], words, {"LD_BIND_NOW": "1", "PATH": os.environ["PATH"]})
    finally:
        os._exit(127)


def out_of_time(*_):
    raise TimeoutError(f"the program runs for over {SECONDS} seconds")


def traced(program, words, files, refuses=None, changes=None):
    """Runs the program with these arguments and descriptors until it ends by itself."""
    signal.signal(signal.SIGALRM, out_of_time)
    pid = begin([program.path, *map(str, words)], files)
    signal.alarm(SECONDS)
    try:
        ended = Run(program, pid, refuses, changes).go()
        pid = None
        return ended
    finally:
        signal.alarm(0)
        if pid:
            with contextlib.suppress(OSError):
                os.kill(pid, signal.SIGKILL)
                os.waitpid(pid, 0)


EIO, EINTR = -errno.EIO, -errno.EINTR
