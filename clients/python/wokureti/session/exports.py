"""wokureti cut, join and export: the frames of a script as packets, which `vp8serve --export` writes without coding
again.
"""

from __future__ import annotations

import os
import re
import subprocess
import tempfile
import time
from typing import (
    IO,
    TYPE_CHECKING,
    Callable,
    Iterable,
    Iterator,
    NamedTuple,
    Optional,
    Sequence,
    Tuple,
    TypeVar,
    Union,
)

from .. import system
from ..errors import Ended, Failed, Unexported
from ..base import checks, files, progress, rooms
from ..base.checks import AnyPath
from ..media import excerpts, ivf, muxing, opus, times
from ..media.fades import Levels
from ..media.sounds import Span
from .inputs import Inputs
from .origins import joined, runs_of

if TYPE_CHECKING:
    from .contents import Contents

Piece = TypeVar("Piece")
# A shown packet, its duration, and its source.
Shown = Tuple[int, int, int]

# Streams that the programs read at a time, and frames that a stream has at most.
MOST_STREAMS, MOST_FRAMES = 8, 1 << 20
MOST_TIME = 3600
# Seconds between two looks at whether the program is done, or is to be ended; bytes that are written at a time.
OFTEN, PIECE = 0.1, 1 << 20
# What the program says if it does not export the frames.
UNEXPORTED = re.compile(r"frame \d+ is |too many packets|no packet repeats")
# Programs that write a container put the picture so much later than the sound, for what a decoder of Opus drops: that
# is no delay.
MOST_SHIFT = 10**7
CLOCK = re.compile(r"(?:(?:(\d+):)?(\d+):)?(\d+(?:\.\d*)?)")
# A number with a unit, as ffmpeg takes it.
UNITS = {"s": times.NANO, "ms": 10**6, "us": 10**3}
WITH_UNIT = re.compile(r"(\d+(?:\.\d*)?)(s|ms|us)")


class Told(NamedTuple):
    """What was written: the nanoseconds and the number of frames, of packets and of hidden ones, the bytes of these,
    and of all.
    """

    length: int
    frames: int
    packets: int
    hidden: int
    hidden_bytes: int
    bytes: int

    def text(self) -> str:
        share = 100 * self.hidden_bytes / self.bytes if self.bytes else 0
        hidden = (
            f"{self.hidden:,} of them hidden: {self.hidden_bytes:,} bytes, {share:.1f} % of the file"
            if self.hidden
            else "none of them hidden"
        )
        return f"{clock_text(self.length)}, {self.frames:,} frames, in {self.packets:,} packets, {hidden}"


def clock_text(nano: int) -> str:
    """A time as h:mm:ss.mmm."""
    seconds, rest = divmod(round(nano / 10**6), 1000)
    minutes, seconds = divmod(seconds, 60)
    return f"{minutes // 60}:{minutes % 60:02}:{seconds:02}.{rest:03}"


class Frames:
    """The frames of each source of a session, and those that its script serves; or of other streams of its packets, and
    other runs of frames.
    """

    def __init__(
        self,
        contents: Contents,
        streams: Optional[Iterable[Sequence[int]]] = None,
        runs: Optional[Sequence[tuple[int, int, int]]] = None,
    ) -> None:
        self.contents, self.runs = contents, runs
        self.shown: list[list[Shown]] = []
        contents.listing.learn()
        for source, stream in enumerate(contents.streams if streams is None else streams):
            pairs = [
                (number, duration)
                for number, duration in zip(stream, contents.durations(source, stream))
                if contents.is_shown(number)
            ]
            self.shown.append([(number, duration, source) for number, duration in pairs])

    def served(self) -> list[Shown]:
        """The packets of the frames that the script serves, with their durations and sources."""
        runs = joined(runs_of(self.contents.session)) if self.runs is None else self.runs
        return [frame for count, source, first in runs for frame in self.shown[source][first : first + count]]

    def length_text(self) -> str:
        """How long source 0 is."""
        head = self.contents.inputs.all[0].head
        return (
            f"{len(self.shown[0]):,} frames,"
            f" {clock_text(times.nano(sum(duration for _, duration, _ in self.shown[0]), head))}"
        )

    def place(self, text: str, is_end: bool) -> int:
        """The frame of source 0 that a number or a time names: that which is shown then, or for an end the first one
        that begins then or later.
        """
        frames = self.shown[0]
        if re.fullmatch("f[0-9]+", text):
            return min(int(text[1:]), len(frames))
        wanted, clock, head = nanoseconds(text) - self.delay(), 0, self.contents.inputs.all[0].head
        for place, (_, duration, _) in enumerate(frames):
            after = clock + duration
            if times.nano(clock, head) >= wanted if is_end else times.nano(after, head) > wanted:
                return place
            clock = after
        return len(frames)

    def delay(self) -> int:
        """The nanoseconds after the beginning of the file of source 0, which a player counts from, at which its first
        frame is shown: sound may begin before it.
        """
        item = self.contents.inputs.all[0]
        if item.media is None or not self.shown[0]:
            return 0
        first = times.nano(self.contents.stamp(self.shown[0][0][0]), item.head)
        begins = [sound.times[0] + opus.pre_skip(sound.private) for sound in item.media.sounds if len(sound.times)]
        delay = first - min([first, *begins])
        return delay if delay > MOST_SHIFT else 0


def nanoseconds(text: str) -> int:
    """A time as ffmpeg takes it: seconds, with a unit, or hours, minutes and seconds."""
    found = WITH_UNIT.fullmatch(text)
    if found:
        return round(float(found.group(1)) * UNITS[found.group(2)])
    found = CLOCK.fullmatch(text)
    if found is None:
        raise Failed(
            f"{text!r} is neither a time nor a frame: a time is 3.3, 0:03.3, 1:02:03.456 or 200ms, and frame 83 is f83"
        )
    hours, minutes, seconds = (float(part or 0) for part in found.groups())
    return round((3600 * hours + 60 * minutes + seconds) * times.NANO)


def seconds_text(words: Iterable[Optional[str]]) -> Optional[str]:
    """A sentence if one of these places looks like the number of a frame, else None."""
    number = next((word for word in words if word is not None and re.fullmatch("[0-9]*[1-9][0-9]*", word)), None)
    return number and f"{number} is a time in seconds, as in ffmpeg; frame {number} is f{number}"


def cut_script(frames: Frames, parts: Sequence[tuple[Optional[str], Optional[str]]]) -> str:
    """The script of parts of source 0, pairs of texts of the first frame and of the end, or None for the beginning or
    the end of the stream.
    """
    if not parts:
        raise Failed("there is no part to cut")
    pieces = []
    for start, stop in parts:
        first = 0 if start is None else frames.place(start, False)
        end = len(frames.shown[0]) if stop is None else frames.place(stop, True)
        if first >= end:
            raise Failed(
                f"there is no frame from {start or 'the beginning'} to {stop or 'the end'}: the stream has"
                f" {frames.length_text()}"
            )
        pieces.append(f"0 {first} {end - first}")
    return f"parts {' '.join(pieces)}"


def frames_within(contents: Contents, served: Sequence[Shown], text: str) -> int:
    """How many of these frames, one at least, are within a time from their beginning; or a number of frames, as f24."""
    if re.fullmatch("f[0-9]+", text):
        return max(1, min(int(text[1:]), len(served)))
    wanted, clock = nanoseconds(text), 0
    for place, (_, duration, source) in enumerate(served):
        if clock >= wanted:
            return max(1, place)
        clock += times.nano(duration, contents.inputs.all[source].head)
    return len(served)


def fade_script(script: str, count: int, fades: Iterable[int]) -> str:
    """A script with a fade in at its beginning and out at its end, of so many frames each; `count` is how many frames
    it serves.
    """
    nodes = [] if script == "-" else script.split("; ")
    for frames, is_end in zip(fades, (False, True)):
        if frames == 0:
            continue
        frames = min(frames, count)
        # The first frame of a fade in and the last one of a fade out are black.
        span = f"{count - frames} {max(1, frames - 1)} 256 0" if is_end else f"0 {max(1, frames - 1)} 0 256"
        nodes.append(f"fade {len(nodes)} {span}")
    return "; ".join(nodes) or "-"


def join_script(count: int) -> str:
    """The script of so many sources, one after the other."""
    if count == 1:
        return "-"
    nodes = [f"source {source}" for source in range(1, count)]
    pieces = " ".join(f"{source} 0 {MOST_FRAMES}" for source in range(count))
    return "; ".join([*nodes, f"parts {pieces}"])


class Output(NamedTuple):
    """How a file is written: the path; whether packets that hold the picture are padded; what is done with sound; what
    a sentence is given to; and who hears how far it is."""

    path: str
    pad: bool
    sound: Optional[str]
    say: Callable[[str], None]
    watch: progress.Watch = progress.Watch()


class Added(NamedTuple):
    """A source that is exported with those of a session: its path, and the frames of the session's own script, which
    say the times and the sound; and if the sound fades, its levels at the beginning and at the end of each frame."""

    path: str
    served: Sequence[Shown]
    levels: Optional[Sequence[Levels]] = None


class With(NamedTuple):
    """The inputs of a session with one more."""

    words: list[str]
    shared: tuple[int, ...]


def export(contents: Contents, lines: Iterable[str], out: Output, room: str, added: Optional[Added] = None) -> Told:
    """Writes the frames that a session with these contents and edits serves as packets: an IVF file, or WebM or
    Matroska with their sound. Returns what was written. Files that are made on the way are in the folder `room`."""
    between = os.path.join(room, "exported.ivf")
    inputs: Union[Inputs, With] = contents.inputs
    if added is not None:
        inputs = With([*inputs.words, added.path], inputs.shared)
    try:
        run(contents.program, inputs, lines, between, out.pad, contents.tables, watch=out.watch)
    except Ended as ended:
        # The file on the way has a name that says nothing.
        text = ended.text.replace(f"--export {between}", os.path.basename(os.fsdecode(out.path))).removeprefix(
            "vp8serve: "
        )
        raise Ended(ended.status, text) from None
    served = Frames(contents).served() if added is None else added.served
    with open(between, "rb") as file:
        head, index = ivf.read_index(file.fileno())
        spans = excerpts.of_frames(contents, served)
        told = told_of(index, spans)
        if added is not None and added.levels is not None:
            spans = [span._replace(levels=levels) for span, levels in zip(spans, added.levels)]
        out.watch.stage(f"writing {os.path.basename(os.fsdecode(out.path))}")
        if muxing.ending_of(out.path) is None:
            length = os.fstat(file.fileno()).st_size
            files.write_whole(out.path, watched(iter(lambda: file.read(PIECE), b""), len, length, out.watch), length)
            return told
        size = excerpts.first_size(file, index) or (head.width, head.height)
        rate = contents.rate if excerpts.is_constant([span.length for span in spans], contents.rate) else None
        packets = watched(timed(file, index, spans), lambda packet: len(packet[1]), told.bytes, out.watch)
        video = muxing.Video(packets, told.length, size, rate, contents.inputs.all[0].media)
        muxing.write(out.path, video, spans, out.sound, out.say)
    return told


def export_plain(contents: Contents, lines: Iterable[str], out: AnyPath, pad: bool) -> None:
    """Writes the frames that a session with these contents and edits serves as an IVF file. `Unexported` if they are
    not exported.
    """
    with rooms.Room() as room:
        between = os.path.join(room, "exported.ivf")
        try:
            run(contents.program, contents.inputs, lines, between, pad, contents.tables, explains=False)
        except Ended as ended:
            text = ended.text.removeprefix("vp8serve: ")
            if ended.status == 1 and UNEXPORTED.match(text):
                raise Unexported(text) from None
            raise
        with open(between, "rb") as file:
            files.write_whole(out, iter(lambda: file.read(PIECE), b""), os.fstat(file.fileno()).st_size)


def watched(
    pieces: Iterable[Piece], size: Callable[[Piece], int], total: int, watch: progress.Watch
) -> Iterator[Piece]:
    """The pieces, and who watches hears how many bytes of all they were."""
    done = 0
    for piece in pieces:
        yield piece
        done += size(piece)
        watch.part(done, total)


def run(
    program: str,
    inputs: Union[Inputs, With],
    lines: Iterable[str],
    out: str,
    pad: bool,
    tables: Optional[AnyPath],
    explains: bool = True,
    watch: progress.Watch = progress.Watch(),
) -> None:
    """Runs the program on the edits of a session. `Ended` with what it says if it refuses; it says nothing of how far
    it is.
    """
    words = [
        program,
        inputs.words[0],
        "-",
        "-",
        "--export",
        out,
        *(["--explain"] if explains else []),
        *(["--pad"] if pad else []),
    ]
    words += ["--sources", system.SEPARATOR.join(inputs.words[1:])] if len(inputs.words) > 1 else []
    words += ["--tables", checks.path(tables)] if tables is not None else []
    with tempfile.TemporaryFile() as given, tempfile.TemporaryFile() as errors:
        given.write("".join(f"{line}\n" for line in lines).encode())
        given.seek(0)
        with subprocess.Popen(
            words, stdin=given, stdout=subprocess.DEVNULL, stderr=errors, pass_fds=inputs.shared
        ) as process:
            await_end(process, program, watch)
        if process.returncode != 0:
            errors.seek(0)
            raise Ended(process.returncode, errors.read().decode(errors="replace").strip())


def await_end(process: subprocess.Popen[bytes], program: str, watch: progress.Watch) -> None:
    """Waits until a program ends. It is ended if that takes too long, or is stopped."""
    limit = time.monotonic() + MOST_TIME
    try:
        while True:
            try:
                process.wait(OFTEN)
                return
            except subprocess.TimeoutExpired:
                watch.check()
                if time.monotonic() > limit:
                    raise Ended(None, f"{program} took longer than {MOST_TIME} seconds") from None
    except BaseException:
        process.kill()
        raise


def told_of(index: ivf.Index, spans: Sequence[Span]) -> Told:
    """What the exported file has. `ValueError` if its frames are not as many as those of the script."""
    shown = sum(bool(tags & ivf.SHOWN) for tags in index.tags)
    if shown != len(spans):
        raise ValueError(f"vp8serve exported {shown} frames, and the script has {len(spans)}")
    hidden = [size for size, tags in zip(index.sizes, index.tags) if not tags & ivf.SHOWN]
    return Told(sum(span.length for span in spans), shown, len(index), len(hidden), sum(hidden), sum(index.sizes))


def timed(file: IO[bytes], index: ivf.Index, spans: Iterable[Span]) -> Iterator[tuple[int, bytes]]:
    """The packets with their times: those of the spans, and for a hidden one that of the next shown one."""
    clock, lengths = 0, iter([span.length for span in spans])
    for start, size, tags in zip(index.starts, index.sizes, index.tags):
        yield clock, system.pread_all(file.fileno(), size, start)
        clock += next(lengths) if tags & ivf.SHOWN else 0
