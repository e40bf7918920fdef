"""A vp8serve that runs with --live, and the pipes to it: one line is written, and its reply and picture are read. A
reply is one line, or `lines K` and K lines.

No thread reads in the background. The caller waits for all pipes together, so the program never waits for room in one
of them, and what goes wrong is raised where the request was made.
"""

from __future__ import annotations

import os
import subprocess
import time
import weakref
from typing import Iterable, Optional, Sequence, Tuple

from .. import system
from ..errors import Gone, Late, Strange
from ..base import programs
from .frames import FrameReader

AT_ONCE = 1 << 18
# Bytes of a pipe, so that a frame or a long list needs fewer reads.
PIPE_BYTES = 1 << 20
# How long a program may take to end after it closed its standard output, or was killed.
GRACE = 1.0
# Bytes of standard error that are stored.
MOST_ERRORS = 1 << 20
# The width, height and samples of a frame.
Picture = Tuple[int, int, memoryview]


def end(process: subprocess.Popen[bytes], descriptors: list[int], owner: int) -> None:
    """Ends the program and closes the pipes. A copy of them in a forked process is only closed."""
    if os.getpid() == owner:
        kill(process)
    for descriptor in descriptors:
        try:
            os.close(descriptor)
        except OSError:
            pass
    descriptors.clear()
    if os.getpid() == owner:
        process.wait()


def kill(process: subprocess.Popen[bytes]) -> None:
    """Ends the program, and what it started, if it is a script around vp8serve."""
    if process.poll() is None:
        system.kill_group(process)


class Pipes:
    """A running program. `words` is its command line, in which `{frames}` is the path of the pipe for frames."""

    # Those that are open, for a forked child, which closes its copies: else the program would not see the end of its
    # input.
    opened: weakref.WeakSet[Pipes] = weakref.WeakSet()

    def __init__(self, words: list[str], pass_fds: Iterable[int] = ()) -> None:
        self.owner = os.getpid()
        ends: list[int] = []
        try:
            for _ in range(4):
                ends += os.pipe()
            lines, stdin, stdout, replies, stderr, errors, frames, out = (
                ends[place] for place in (1, 0, 3, 2, 5, 4, 6, 7)
            )
            words = [word.replace("{frames}", system.descriptor_path(out)) for word in words]
            self.process = subprocess.Popen(
                words, stdin=stdin, stdout=stdout, stderr=stderr, pass_fds=(*pass_fds, out), start_new_session=True
            )
        except BaseException as error:
            for descriptor in ends:
                os.close(descriptor)
            if isinstance(error, FileNotFoundError):
                raise programs.missing(words[0]) from None
            raise
        for descriptor in (stdin, stdout, stderr, out):
            os.close(descriptor)
        self.lines, self.replies, self.errors, self.frames = lines, replies, errors, frames
        self.descriptors = [lines, replies, errors, frames]
        self.finalizer = weakref.finalize(self, end, self.process, self.descriptors, self.owner)
        for descriptor in self.descriptors:
            system.do_not_wait(descriptor)
        for descriptor in (lines, replies, frames):
            system.enlarge(descriptor, PIPE_BYTES)
        self.reader = FrameReader(frames)
        self.read = bytearray()
        self.said = bytearray()
        self.open = {replies, errors, frames}
        Pipes.opened.add(self)

    def exchange(self, lines: Sequence[bytes], deadline: Optional[float]) -> list[tuple[str, Optional[Picture]]]:
        """The reply to each of these lines, and the picture if the reply is `served`. `Gone` if the program ended,
        `Late` after the deadline.
        """
        self.write(memoryview(b"".join(lines)), deadline)
        found = [self.answer(deadline) for _ in lines]
        if self.read:
            raise Strange(f"more replies than requests: {bytes(self.read[:80])!r}")
        return found

    def answer(self, deadline: Optional[float]) -> tuple[str, Optional[Picture]]:
        """The next reply with all its lines, and its picture."""
        reply = self.line(deadline)
        if reply.startswith("lines "):
            return f"{reply}{self.lines_after(int(reply[6:]), deadline)}", None
        if not reply.startswith("served "):
            return reply, None
        # The frame was written before its reply, so it is in the pipe even if the program has ended since.
        while not self.reader.is_whole:
            if self.frames not in self.open:
                raise Gone
            self.wait(deadline, [self.frames])
        return reply, self.reader.take()

    def line(self, deadline: Optional[float]) -> str:
        """The next line of the replies."""
        start = 0
        while True:
            end = self.read.find(b"\n", start)
            if end >= 0:
                break
            start = len(self.read)
            self.check()
            self.wait(deadline, self.open)
        line = bytes(self.read[:end]).decode(errors="replace")
        del self.read[: end + 1]
        return line

    def lines_after(self, count: int, deadline: Optional[float]) -> str:
        """The next lines of the replies, each after a newline: there may be many, so they are counted as they come and
        taken together.
        """
        end, counted = 0, 0
        while True:
            there = self.read.count(b"\n", end)
            if counted + there >= count:
                break
            end, counted = len(self.read), counted + there
            self.check()
            self.wait(deadline, self.open)
        for _ in range(count - counted):
            end = self.read.index(b"\n", end) + 1
        text = bytes(self.read[: max(0, end - 1)]).decode(errors="replace")
        del self.read[:end]
        return f"\n{text}" if count else ""

    def write(self, left: memoryview, deadline: Optional[float]) -> None:
        """Writes a line. The program may not read it: it may have ended, or wait for room to explain something."""
        while left:
            try:
                left = left[os.write(self.lines, left) :]
            except BlockingIOError:
                self.check()
                self.wait(deadline, self.open, writing=True)
            except BrokenPipeError:
                raise Gone from None

    def check(self) -> None:
        """`Gone` if the program closed its standard output."""
        if self.replies not in self.open:
            raise Gone

    def wait(self, deadline: Optional[float], descriptors: Iterable[int], writing: bool = False) -> None:
        """Waits until one of these pipes is ready, and reads from those that are."""
        reading = [descriptor for descriptor in descriptors if descriptor != self.frames or not self.reader.is_whole]
        readable, writable = system.ready(reading, [self.lines] if writing else [], time_left(deadline))
        if not readable and not writable:
            raise Late
        for descriptor in readable:
            self.take(descriptor)

    def take(self, descriptor: int) -> None:
        """Reads what a pipe has."""
        try:
            if descriptor == self.frames:
                more = self.reader.read()
            else:
                piece = os.read(descriptor, AT_ONCE)
                (self.read if descriptor == self.replies else self.said).extend(piece)
                more = bool(piece)
        except BlockingIOError:
            return
        if not more:
            self.open.discard(descriptor)
        if len(self.said) > MOST_ERRORS:
            del self.said[: -MOST_ERRORS // 2]

    def explanation(self, number: int) -> Optional[str]:
        """The text that explains the refusal of request line `number`, if standard error has it; what is before it is
        dropped.
        """
        while self.errors in self.open:
            before = len(self.said)
            self.take(self.errors)
            if len(self.said) == before:
                break
        found, start = None, f"line {number}: "
        for line in self.said.decode(errors="replace").splitlines():
            if line.startswith(start):
                found = line[len(start) :]
        self.said.clear()
        return found

    def owner_is_here(self) -> bool:
        """Whether this is the process that started the program, and not a forked copy."""
        return os.getpid() == self.owner

    def kill(self) -> None:
        """Ends the program."""
        kill(self.process)

    def finish(self, deadline: Optional[float]) -> tuple[int, str]:
        """Ends the input, and waits for the program to end: its status, and what is left of standard error. `Late`
        after the deadline.
        """
        os.close(self.lines)
        self.descriptors.remove(self.lines)
        while self.replies in self.open:
            # Frames that nobody asked for are dropped.
            if self.reader.is_whole:
                self.reader.take()
            self.wait(deadline, self.open)
        return self.collect(deadline)

    def collect(self, deadline: Optional[float] = None) -> tuple[int, str]:
        """The status of a program that closed its output or was killed, and the rest of standard error."""
        limit = time.monotonic() + GRACE
        while self.errors in self.open:
            if not system.ready([self.errors], [], time_left(limit))[0]:
                break
            self.take(self.errors)
        try:
            self.process.wait(max(0.0, (limit if deadline is None else max(limit, deadline)) - time.monotonic()))
        except subprocess.TimeoutExpired:
            kill(self.process)
        self.close()
        return self.process.returncode, bytes(self.said).decode(errors="replace").strip()

    def close(self) -> None:
        """Ends the program if it runs, and closes the pipes."""
        self.finalizer()
        Pipes.opened.discard(self)

    def forget(self) -> None:
        """In a forked child: closes its copies of the pipes."""
        self.finalizer()


def time_left(deadline: Optional[float]) -> Optional[int]:
    """Milliseconds up to a deadline, for poll; None if there is none."""
    return None if deadline is None else max(0, int(1000 * (deadline - time.monotonic())) + 1)


def forget_all() -> None:
    """In a forked child: the sessions belong to the parent."""
    for pipes in list(Pipes.opened):
        pipes.forget()
    Pipes.opened.clear()


system.at_fork(forget_all)
