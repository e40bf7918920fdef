"""wokureti cat: all frames of a stream as one YUV4MPEG2 text, byte for byte as one vp8serve writes it, decoded by
several processes.

The parts are joined in order as they come, so the output may be a pipe.
"""

from __future__ import annotations

import collections
import contextlib
import os
import re
import subprocess
import tempfile
import threading
from typing import IO, Callable, ContextManager, Iterable, Iterator, NamedTuple, Optional, Sequence

from .. import system
from ..errors import Failed, Refused, sentence
from ..base import checks, files, rooms, waits
from ..base.checks import AnyPath, AnyStream
from ..base.progress import Progress, say
from ..media.y4m import MARK, header_of, parse_header
from ..session.library import Picture
from ..session.outcomes import Outcomes
from ..session.session import Session
from . import paces, parts

# Starts a program with files for its replies and its errors.
Started = Callable[[Sequence[str], IO[bytes], IO[bytes]], ContextManager["subprocess.Popen[bytes]"]]
# Bytes of frames that are in the folder for temporary files, at most: those of one part may be more.
MOST_HELD = 1 << 30
# Bytes that must be free there, else it is called full.
LEAST_FREE = 1 << 20


def run_part(room: parts.Room, number: int, program: str, tables: Optional[str], started: Started) -> None:
    """Decodes a part by a program that is started here."""
    words = room.words(number, program, tables)
    with open(room.path(number, "replies"), "wb") as replies, tempfile.TemporaryFile() as errors:
        with started(words, replies, errors) as process:
            status = process.wait()
        if status != 0:
            errors.seek(0)
            said = errors.read().decode(errors="replace").strip()
            raise Failed(f"part {number}: {said or f'vp8serve ended with status {status}'}{if_full(room.folder)}")


def if_full(folder: str) -> str:
    """What a message says more if the folder for temporary files is full."""
    if not system.is_full(folder, LEAST_FREE):
        return ""
    return (
        f". The folder for temporary files, {os.path.dirname(folder)}, is full: name another one in the variable TMPDIR"
    )


class Here:
    """Decodes parts on this machine, at most `processes` at a time, and never far ahead of what was joined."""

    def __init__(
        self, room: parts.Room, plan: Sequence[parts.Part], processes: int, program: str, tables: Optional[str] = None
    ) -> None:
        self.room, self.plan, self.processes = room, plan, processes
        self.program, self.tables = program, tables
        self.running: set[subprocess.Popen[bytes]] = set()
        self.left = iter(range(len(plan)))
        self.done: set[int] = set()
        self.ready = threading.Condition()
        # How many parts were joined, and the bytes of the frames of those that were begun and not joined.
        self.joined = self.held = 0
        self.stopped = False
        self.error: Optional[BaseException] = None

    def work(self) -> None:
        """Takes one part after the other."""
        try:
            while True:
                with self.ready:
                    number = next(self.left, None)
                    if number is None:
                        return
                    # Frames take room, so a part waits until those before it were joined.
                    while self.is_far(number) and not self.stopped:
                        self.ready.wait()
                    if self.stopped:
                        return
                    self.held += self.size(number)
                    # Reading the session's files from two threads at a time is avoided.
                    self.room.write(number, self.plan[number])
                run_part(self.room, number, self.program, self.tables, self.started)
                with self.ready:
                    self.done.add(number)
                    self.ready.notify_all()
        except BaseException as error:
            with self.ready:
                self.error = self.error or error
                self.ready.notify_all()

    @contextlib.contextmanager
    def started(self, words: Sequence[str], replies: IO[bytes], errors: IO[bytes]) -> Iterator[subprocess.Popen[bytes]]:
        """A program, which is ended when no more parts are wanted; then none is started."""
        with self.ready:
            if self.stopped:
                raise Failed("no more parts are wanted")
            process = subprocess.Popen(words, stdin=subprocess.DEVNULL, stdout=replies, stderr=errors)
            self.running.add(process)
        try:
            yield process
        finally:
            self.running.discard(process)

    def size(self, number: int) -> int:
        """The bytes of the frames of a part."""
        part = self.plan[number]
        return (part.end - part.first) * self.room.first.size

    def is_far(self, number: int) -> bool:
        """Whether a part is too far ahead of what was joined. The next one that is joined never is."""
        if number == self.joined:
            return False
        return number >= self.joined + 3 * self.processes or self.held + self.size(number) > MOST_HELD

    def __iter__(self) -> Iterator[int]:
        """The numbers of the parts, each when it was decoded, in order."""
        threads = [threading.Thread(target=self.work, daemon=True) for _ in range(min(self.processes, len(self.plan)))]
        for thread in threads:
            thread.start()
        try:
            for number in range(len(self.plan)):
                with self.ready:
                    while number not in self.done and not self.error:
                        self.ready.wait(waits.LONGEST)
                    if number not in self.done and self.error is not None:
                        raise self.error
                yield number
                with self.ready:
                    self.joined, self.held = number + 1, self.held - self.size(number)
                    self.ready.notify_all()
        finally:
            with self.ready:
                self.stopped = True
                self.ready.notify_all()
            for process in list(self.running):
                process.kill()
            for thread in threads:
                thread.join()


def open_session(
    stream: AnyStream,
    sources: Iterable[AnyStream],
    edits: Optional[AnyPath],
    script: Optional[str],
    tables: Optional[AnyPath],
    program: Optional[str],
    anyway: bool = False,
) -> Session:
    """A session with the edits of a list and a script, for finding out what the parts are."""
    session = Session(
        stream, sources=sources, tables=tables, program=program, anyway=anyway, explain=script is not None
    )
    try:
        if edits is not None:
            session.edits.run(edits)
        if script is not None:
            session.script(script)
        return session
    except BaseException:
        session.kill()
        raise


def check_output(out: str, inputs: Iterable[Optional[str]]) -> None:
    """The output must be none of the inputs."""
    for path in inputs:
        if path is None or path == "-":
            continue
        same = checks.is_same_file(out, path) if out != "-" else is_stdout(path)
        if same:
            raise Failed(f"the output is {path}, which is read: name another file")


def is_stdout(path: str) -> bool:
    try:
        found, other = os.fstat(1), os.stat(path)
    except OSError:
        return False
    return os.path.isfile(path) and (found.st_dev, found.st_ino) == (other.st_dev, other.st_ino)


def output(path: str) -> ContextManager[IO[bytes]]:
    """A file to write to. Standard output is opened again: with PYTHONUNBUFFERED sys.stdout may write a part of what it
    is given.
    """
    if path == "-":
        return open(os.dup(1), "wb")
    return files.whole(path)


def write(session: Session, out: str, workers: parts.Workers, name: str = "frames") -> list[str]:
    """Writes all frames of a session; `workers` makes the parts. Returns the refusals, a line for each."""
    count = session.count().frames
    number, refused = parts.first_frame(session)
    if number is None:
        # One run writes no header either.
        with output(out):
            pass
        return [] if refused is None else [f"frames 0 to {count - 1}: {refused.reply}"]
    first = parts.find_first(session, number)
    with rooms.Room(system.plain_folder()) as folder:
        room = parts.Room(folder, session, first)
        plan, made = workers(room, count)
        progress = Progress(name, count)
        refusals: list[str] = []
        try:
            with output(out) as file, progress:
                file.write(header(session, first))
                for number in made:
                    more = room.refusals(number, plan[number])
                    room.join(number, plan[number], len(more), file)
                    room.clear(number)
                    refusals += more
                    progress.show(plan[number].end)
        except OSError as error:
            full = if_full(folder)
            if full:
                raise Failed(f"{sentence(error)}{full}") from None
            raise
    return refusals


class SizeRun(NamedTuple):
    """Frames of one size that follow each other: the size, the first of them, and the one after the last."""

    size: tuple[int, int]
    first: int
    end: int


def size_runs(session: Session) -> list[SizeRun]:
    """The frames of one size that follow each other: sizes, with the first frame and the one after the last. Those that
    are refused go with those before.
    """
    found: list[SizeRun] = []
    outcomes = Outcomes(session)
    for end, (count, outcome) in zip(outcomes.ends, outcomes.runs):
        if isinstance(outcome, tuple) and (not found or found[-1].size != outcome):
            found.append(SizeRun(outcome, end - count if found else 0, end))
        elif found:
            found[-1] = found[-1]._replace(end=end)
    return found


def sizes_text(runs: Sequence[SizeRun]) -> str:
    """What is said of a stream whose size changes."""
    left = sum(end - first for size, first, end in runs if size != runs[0][0])
    names = ", ".join(f"frames {first:,} to {end - 1:,} are {size[0]}x{size[1]}" for size, first, end in runs[:3])
    more = f", and {len(runs) - 3:,} changes follow" if len(runs) > 3 else ""
    return (
        f"the size of the frames changes: {names}{more}. A YUV4MPEG2 file has one size, so {left:,} frames are left"
        " out; --per-size writes a file for each size"
    )


def names_of_sizes(out: str, runs: Iterable[SizeRun]) -> list[str]:
    """The files for these frames: OUT-320x180.y4m, and OUT-320x180-2.y4m if the size comes again."""
    stem, ending = os.path.splitext(out)
    counts: collections.Counter[tuple[int, int]] = collections.Counter()
    found: list[str] = []
    for (width, height), _, _ in runs:
        counts[width, height] += 1
        turn = counts[width, height]
        found.append(f"{stem}-{width}x{height}{f'-{turn}' if turn > 1 else ''}{ending}")
    return found


def write_sizes(
    open_session: Callable[[], Session],
    runs: Iterable[SizeRun],
    outs: Iterable[str],
    workers_of: Callable[[Session], parts.Workers],
) -> list[str]:
    """Writes a file for the frames of each size, and says which. Returns the refusals, with the numbers that the frames
    have in the stream. A session serves frames of one size, so each file has its own."""
    refusals: list[str] = []
    for out, (_, first, end) in zip(outs, runs):
        with open_session() as session:
            script = session.edits.contents().script
            nodes = [] if script == "-" else script.split("; ")
            session.script(*nodes, f"trim {len(nodes)} {first} {end - first}")
            refusals += [shifted(line, first) for line in write(session, out, workers_of(session))]
        print(f"{out}: frames {first} to {end - 1}", flush=True)
    return refusals


def shifted(line: str, first: int) -> str:
    """A refusal of a part that begins with a frame, as one of the whole."""
    return re.sub(r"frame (\d+)", lambda found: f"frame {int(found.group(1)) + first}", line, count=1)


def write_constant(session: Session, out: str) -> int:
    """Writes the frames of a session at its rate: one whose time is not nearest to any step is left out, others are
    repeated. The exit status.
    """
    contents = session.edits.contents()
    order = paces.constant(paces.begins(contents), contents.rate)
    number, refused = parts.first_frame(session)
    refusals = {} if refused is None else {0: refused.reply}
    made: Optional[int] = None
    picture: Optional[Picture] = None
    with output(out) as file, Progress("frames", len(order)) as progress:
        for turn, frame in enumerate(order if number is not None else ()):
            if frame != made:
                made = frame
                try:
                    picture = session.picture(frame)
                except Refused as error:
                    refusals.setdefault(frame, error.reply)
            if not turn:
                file.write(header_of(parse_header(session.header), contents.rate))
            if picture is not None:
                file.write(MARK + picture[2])
            progress.show(turn)
    for frame, reply in list(refusals.items())[:10]:
        say(f"frame {frame}: {reply}: the frame before it is repeated")
    return 1 if refusals else 0


def header(session: Session, first: parts.First) -> bytes:
    """The first line of the text: that of the program, whose rate is the time base of the file, with the rate of the
    frames, as `wokureti serve` has it.
    """
    return header_of(parse_header(first.header), session.rate)


def here(session: Session, processes: int, program: str, tables: Optional[str]) -> parts.Workers:
    """Workers on this machine."""

    def workers(room: parts.Room, count: int) -> tuple[list[parts.Part], Iterable[int]]:
        contents = session.edits.contents()
        size = room.first.size
        plan = (
            parts.by_packets(contents, processes, size)
            if contents.script == "-"
            else parts.by_frames(count, processes, size)
        )
        return plan, Here(room, plan, processes, program, tables)

    return workers
