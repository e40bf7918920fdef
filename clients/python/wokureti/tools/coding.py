"""wokureti export --code-changed: the frames that a script changes are coded again as VP8, and all others stay the
packets that they are.

The coded frames are a source more, each run of them with a key packet first, and the script that is exported has the
parts of all sources one after the other. How good they are is measured: they are decoded and compared with what the
script serves, and coded again with more bits until each is good enough."""

from __future__ import annotations

import math
import operator
import os
import shutil
import subprocess
import tempfile
from array import array
from typing import Callable, Dict, Iterable, Iterator, List, NamedTuple, Optional, Sequence, TypedDict

from .. import system
from ..errors import Failed
from ..base.progress import Watch
from ..media import fades, ivf, times
from ..media.y4m import size_of
from ..session import exports
from ..session.contents import Contents
from ..session.library import Picture
from ..session.origins import Run, runs_of
from ..session.session import Session

try:
    import numpy
except ImportError:
    numpy = None  # type: ignore[assignment]  # Samples are compared one after the other then.

# Opens a session over an IVF file.
Opens = Callable[[str], Session]
# Decibels that each coded frame has at least if nothing is said, and the least and the most that can be asked for.
USUAL, LEAST, MOST = 45.0, 20, 60
ENCODERS = ("ffmpeg", "vpxenc")
# Quantizers of the encoder, the finest one first.
FINEST, COARSEST = 0, 50
# Tries of which one is the coarsest quantizer that is good enough: each halves what is left.
MOST_TURNS = (COARSEST + 1 - FINEST).bit_length()
# Frames of a run that one thread codes, so that the same packets come out on each machine: libvpx makes others with
# more threads.
FEW = 250
# Frames that are asked for together.
TOGETHER = 8
# Decibels of a frame that is the same.
BEST = 99.0
NO_ENCODER = (
    "no encoder of VP8 was found: install ffmpeg (with libvpx), or vpx-tools, which has vpxenc. Nothing was written"
)


class Piece(NamedTuple):
    """Frames of the output that follow each other: how many, from which on; and whether they are coded, or come from a
    source, from one of its frames on.
    """

    first: int
    count: int  # type: ignore[assignment]  # It is not the method of a tuple.
    is_coded: bool
    source: int = 0
    start: int = 0


class Coded(NamedTuple):
    """What was coded: the path of the IVF file, the number of frames, their bytes, and the PSNR of each."""

    path: str
    frames: int
    bytes: int
    psnr: list[float]

    def text(self, count: int) -> str:
        mean = sum(self.psnr) / len(self.psnr)
        return (
            f"{self.frames:,} of {count:,} frames are coded again, in {self.bytes:,} bytes, PSNR"
            f" {min(self.psnr):.1f} dB at least and {mean:.1f} dB in the mean; all others stay as they are"
        )


# Which frames


def pieces_of(found: Iterable[Run], leads: Sequence[tuple[int, int]] = ()) -> list[Piece]:
    """The pieces of the frames of a script, which are runs as `origins.runs_of` has them. Frames that the script
    changes are coded, and those in `leads`, ranges.
    """
    first = 0
    pieces: list[Piece] = []
    for run in found:
        for start, end, is_coded in marked(first, first + run.count, leads, bool(run.changed)):
            add(pieces, Piece(start, end - start, is_coded, run.source, run.first + start - first))
        first += run.count
    return pieces


def marked(first: int, end: int, leads: Iterable[tuple[int, int]], is_changed: bool) -> Iterator[tuple[int, int, bool]]:
    """Parts of a range of frames, each with whether it is coded."""
    if is_changed:
        yield first, end, True
        return
    for start, stop in leads:
        start, stop = max(first, start), min(end, stop)
        if start < stop:
            if first < start:
                yield first, start, False
            yield start, stop, True
            first = stop
    if first < end:
        yield first, end, False


def add(pieces: list[Piece], piece: Piece) -> None:
    """Adds a piece, to the last one if it goes on from there."""
    last = pieces[-1] if pieces else None
    if (
        last is not None
        and last.is_coded == piece.is_coded
        and (piece.is_coded or (last.source == piece.source and last.start + last.count == piece.start))
    ):
        pieces[-1] = last._replace(count=last.count + piece.count)
    else:
        pieces.append(piece)


class Lead(NamedTuple):
    """A part that begins between key packets, at frame `first` of the output: an exact cut has so many hidden packets
    before it, of so many bytes and nanoseconds; or its frames up to `end`, the next key packet, are coded again, of
    which the packets have `coded_bytes` now."""

    first: int
    end: int
    packets: int
    bytes: int
    length: int
    coded_bytes: int


def leads_of(contents: Contents, found: Iterable[Run]) -> list[Lead]:
    """The leads of runs of frames."""
    contents.listing.learn()
    first = 0
    leads: list[Lead] = []
    before: Optional[Run] = None
    for run in found:
        goes_on = (
            before is not None
            and before.source == run.source
            and before.first + before.count == run.first
            and not before.changed
        )
        if not run.changed and not goes_on:
            stream = contents.streams[run.source]
            shown = [place for place, number in enumerate(stream) if contents.is_shown(number)]
            place = begin = shown[run.first]
            while begin and not contents.has_key_tag(stream[begin]):
                begin -= 1
            if begin < place:
                end = next(
                    (
                        number
                        for number in range(run.first, run.first + run.count)
                        if contents.has_key_tag(stream[shown[number]])
                    ),
                    run.first + run.count,
                )
                leads.append(
                    lead_of(contents, run.source, (first, first + end - run.first), (begin, place, shown[end - 1] + 1))
                )
        first, before = first + run.count, run
    return leads


def lead_of(contents: Contents, source: int, frames: tuple[int, int], places: tuple[int, int, int]) -> Lead:
    """A lead, of its frames and of the places of its key packet, of its first shown packet, and after its last one."""
    stream, (begin, place, after) = contents.streams[source], places
    hidden, coded = (
        sum(contents.size(number) for number in stream[one:other]) for one, other in ((begin, place), (place, after))
    )
    numbers = [number for number in stream[begin:place] if contents.is_shown(number)]
    length = times.nano(sum(contents.durations(source, numbers)), contents.inputs.all[source].head)
    return Lead(*frames, place - begin, hidden, length, coded)


def script_of(pieces: Sequence[Piece], coded: int) -> str:
    """The script of pieces, of which source `coded` has those that are coded."""
    sources = sorted({piece.source for piece in pieces if not piece.is_coded} | {coded})
    number, place = {0: 0}, 0
    nodes: list[str] = []
    for source in sources:
        if source:
            nodes.append(f"source {source}")
            number[source] = len(nodes)
    triples = []
    for piece in pieces:
        source, start = (coded, place) if piece.is_coded else (piece.source, piece.start)
        place += piece.count if piece.is_coded else 0
        triples.append((number[source], start, piece.count))
    return "; ".join([*nodes, "parts " + " ".join(f"{node} {start} {count}" for node, start, count in triples)])


# Coding


def encoder() -> str:
    """The name of the program that codes."""
    found = next((name for name in ENCODERS if shutil.which(name)), None)
    if found is None:
        raise Failed(NO_ENCODER)
    return found


def encode(name: str, frames: str, out: str, quantizer: int, threads: int, watch: Watch) -> None:
    """Codes a YUV4MPEG2 file as an IVF file, whose packets all have this quantizer of the encoder, 0 to 63. Who watches
    may end it.
    """
    number = str(quantizer)
    if name == "ffmpeg":
        rates = ["-qmin", number, "-qmax", number, "-b:v", "500M", "-g", "99999", "-keyint_min", "0"]
        words = [
            "ffmpeg",
            "-nostdin",
            "-v",
            "error",
            "-y",
            "-f",
            "yuv4mpegpipe",
            "-i",
            f"file:{frames}",
            "-c:v",
            "libvpx",
            *rates,
        ]
        words += [
            "-auto-alt-ref",
            "0",
            "-lag-in-frames",
            "0",
            "-deadline",
            "good",
            "-cpu-used",
            "1",
            "-threads",
            str(threads),
            "-fps_mode",
            "passthrough",
            "-f",
            "ivf",
            f"file:{out}",
        ]
    else:
        words = [
            "vpxenc",
            "--codec=vp8",
            "--ivf",
            "--quiet",
            "--passes=1",
            "--good",
            "--cpu-used=1",
            "--auto-alt-ref=0",
            "--lag-in-frames=0",
            "--drop-frame=0",
            "--disable-warning-prompt",
        ]
        words += [
            "--end-usage=vbr",
            "--target-bitrate=500000",
            f"--min-q={number}",
            f"--max-q={number}",
            "--kf-max-dist=99999",
            f"--threads={threads}",
            "-o",
            out,
            frames,
        ]
    with tempfile.TemporaryFile() as errors:
        with subprocess.Popen(words, stdin=subprocess.DEVNULL, stdout=subprocess.DEVNULL, stderr=errors) as process:
            exports.await_end(process, name, watch)
        if process.returncode != 0:
            errors.seek(0)
            said = errors.read().decode(errors="replace").strip()
            raise Failed(
                f"{name} could not code the frames: {said[-300:]}"
                + ("; install ffmpeg with libvpx" if "Unknown encoder" in said else "")
            )


def pictures(session: Session, first: int, count: int) -> Iterator[Picture]:
    """The width, height and samples of frames, some asked for at a time."""
    for start in range(first, first + count, TOGETHER):
        yield from session.pictures(range(start, min(start + TOGETHER, first + count)))


def write_frames(session: Session, piece: Piece, path: str, watch: Watch) -> tuple[int, int]:
    """Writes the frames of a piece as YUV4MPEG2. `Failed` if their size changes."""
    size: Optional[tuple[int, int]] = None
    with open(path, "wb") as file:
        for number, (width, height, samples) in enumerate(pictures(session, piece.first, piece.count), piece.first):
            if size is None:
                size = (width, height)
                file.write(f"YUV4MPEG2 W{width} H{height} F30:1 Ip C420jpeg\n".encode())
            if (width, height) != size:
                raise Failed(
                    f"frame {number} is {width}x{height} and those before it are {size[0]}x{size[1]}: frames that are"
                    " coded together have one size"
                )
            file.write(b"FRAME\n")
            file.write(samples)
            watch.part(number + 1 - piece.first, piece.count)
    assert size is not None
    return size


def difference(one: bytes, other: bytes) -> int:
    """The sum of the squares of the differences of samples."""
    if numpy is not None:
        far = numpy.frombuffer(one, numpy.uint8).astype(numpy.int32) - numpy.frombuffer(other, numpy.uint8)
        return int((far * far).sum(dtype=numpy.int64))
    steps = list(map(operator.sub, one, other))
    return sum(map(operator.mul, steps, steps))


def measure(frames: str, size: tuple[int, int], session: Session) -> Iterator[float]:
    """The PSNR of each frame that a session serves, over all samples, against the frames of a YUV4MPEG2 file, one after
    the other.
    """
    samples = size_of(*size)
    with open(frames, "rb") as file:
        file.readline()
        for _, _, decoded in pictures(session, 0, session.count().frames):
            file.read(len(b"FRAME\n"))
            squares = difference(file.read(samples), bytes(decoded))
            yield BEST if squares == 0 else min(BEST, 10 * math.log10(255 * 255 * samples / squares))


class Coder:
    """Codes runs of frames, and keeps the packets in an IVF file for all of them."""

    def __init__(self, room: str, open_session: Opens, least: float, say: Callable[[str], None], watch: Watch) -> None:
        self.room, self.open_session, self.least, self.say, self.watch = room, open_session, least, say, watch
        self.name = encoder()
        self.packets: list[bytes] = []
        self.psnr: list[float] = []

    def code(self, session: Session, piece: Piece) -> None:
        """Codes a piece: with the coarsest quantizer by which each frame is good enough. `Failed` if even the finest
        one is not.
        """
        frames, out = (os.path.join(self.room, name) for name in ("frames.y4m", "coded.ivf"))
        self.watch.stage(f"making {piece.count:,} frames from frame {piece.first:,} on")
        size = write_frames(session, piece, frames, self.watch)
        low, high, turn, least = FINEST, COARSEST, 0, 0.0
        best: Optional[tuple[list[bytes], list[float]]] = None
        while low <= high:
            quantizer, turn = (low + high) // 2, turn + 1
            self.watch.stage(
                f"coding {piece.count:,} frames from frame {piece.first:,} on, try {turn} of {MOST_TURNS} at most"
            )
            found = self.attempt(frames, size, out, quantizer, piece)
            if min(found[1]) >= self.least:
                best, low = found, quantizer + 1
            else:
                high = quantizer - 1
                least = min(found[1])
        if best is None:
            last = piece.first + piece.count - 1
            raise Failed(
                f"frames {piece.first} to {last} cannot be coded with {self.least:g} dB: one of them has {least:.1f} dB"
                " with the finest quantizer; --psnr asks for less. Nothing was written"
            )
        os.unlink(frames)
        self.packets += best[0]
        self.psnr += best[1]

    def attempt(
        self, frames: str, size: tuple[int, int], out: str, quantizer: int, piece: Piece
    ) -> tuple[list[bytes], list[float]]:
        """The packets of a run coded with a quantizer, and the PSNR of each frame."""
        encode(self.name, frames, out, quantizer, 1 if piece.count <= FEW else system.processors(), self.watch)
        packets = [data for _, data in ivf.read_packets(out)[1]]
        if len(packets) != piece.count or not all(map(ivf.is_shown, packets)) or not ivf.is_key(packets[0]):
            raise Failed(f"{self.name} made {len(packets)} packets of {piece.count} frames")
        found: list[float] = []
        with self.open_session(out) as session:
            for decibels in measure(frames, size, session):
                found.append(decibels)
                self.watch.part(len(found), piece.count)
                if decibels < self.least:
                    # The rest is not looked at.
                    break
        return packets, found

    def write(self, head: ivf.Head, durations: Iterable[int]) -> Coded:
        """Writes the packets, with these durations in the time base of a head."""
        path, clock, stamps = os.path.join(self.room, "coded-frames.ivf"), 0, array("Q")
        for duration in durations:
            stamps.append(clock)
            clock += duration
        # What follows says how long the last one is shown; no script has it.
        packets = [*zip(stamps, self.packets), (clock, b"")]
        with open(path, "wb") as file:
            file.writelines(ivf.pieces(head, len(packets), packets))
        return Coded(path, len(self.packets), sum(map(len, self.packets)), self.psnr)


def durations_of(served: Sequence[exports.Shown], contents: Contents, pieces: Iterable[Piece]) -> list[int]:
    """The durations of the frames that are coded, in the time base of source 0: sums are rounded, and not each."""
    heads = [item.head for item in contents.inputs.all]
    base, clock, due = times.base_of(heads[0]), 0, 0.0
    found: list[int] = []
    for piece in pieces:
        for _, duration, source in served[piece.first : piece.first + piece.count] if piece.is_coded else ():
            rate, scale = times.base_of(heads[source])
            # In units of both bases, so that nothing is lost.
            due += duration * scale * base[0] / (rate * base[1])
            step = max(1, round(due) - clock)
            found.append(step)
            clock += step
    return found


class Costs(TypedDict):
    """What an export costs."""

    frames: int
    coded: int
    nodes: List[int]
    leads: List[Dict[str, object]]


def costs_of(session: Session) -> Costs:
    """What an export of a session costs: the number of its frames, how many are coded again, what of the script changes
    them, and the leads.
    """
    contents, found = session.edits.contents(), runs_of(session)
    changed = [run for run in found if run.changed]
    return {
        "frames": sum(run.count for run in found),
        "coded": sum(run.count for run in changed),
        "nodes": sorted({node for run in changed for node in run.changed}),
        "leads": [lead._asdict() for lead in leads_of(contents, found)],
    }


def export(
    session: Session, open_session: Opens, out: exports.Output, how: How, room: str
) -> tuple[exports.Told, Optional[Coded]]:
    """Writes the frames that a session serves: those that its script changes are coded again, and those of leads, if
    that is asked for. Returns what was written, and what was coded, None if nothing had to be."""
    contents = session.edits.contents()
    if len(contents.inputs.all) >= exports.MOST_STREAMS:
        raise Failed(
            f"{len(contents.inputs.all)} sources are read, and the coded frames are one more:"
            f" {exports.MOST_STREAMS} are the most; join some first"
        )
    found = runs_of(session)
    leads = leads_of(contents, found)
    how.say_leads(leads)
    pieces = pieces_of(found, [lead[:2] for lead in leads] if how.codes_leads else ())
    if not any(piece.is_coded for piece in pieces):
        return exports.export(contents, list(session.edits), out, room), None
    count = sum(piece.count for piece in pieces)
    wanted = sum(piece.count for piece in pieces if piece.is_coded)
    if wanted == count:
        out.say(f"the script changes each of the {count:,} frames: all of them are coded again")
    coder = Coder(room, open_session, how.least, out.say, out.watch)
    for piece in pieces:
        if piece.is_coded:
            coder.code(session, piece)
    frames = exports.Frames(contents)
    served, levels = frames.served(), None
    if how.fades_sound:
        levels = fades.levels_of(found, fades.Weights(contents.script, [len(shown) for shown in frames.shown]))
    coded = coder.write(contents.inputs.all[0].head, durations_of(served, contents, pieces))
    script = script_of(pieces, len(contents.inputs.all))
    lines = [*session.edits, f"script {script}"]
    return exports.export(contents, lines, out, room, exports.Added(coded.path, served, levels)), coded


class How(NamedTuple):
    """How frames are coded: the least PSNR, whether the frames of leads are, who hears what each way costs, and whether
    the sound fades with the picture.
    """

    least: float
    codes_leads: bool
    say: Callable[[str], None]
    fades_sound: bool = False

    def say_leads(self, leads: Iterable[Lead]) -> None:
        """Says what a part that begins between key packets costs, if it costs much."""
        for lead in leads:
            count = lead.end - lead.first
            other = (
                f"coded, its first {count:,} frames are new"
                if self.codes_leads
                else f"--lead coded codes {count:,} frames instead of them"
            )
            self.say(
                f"frame {lead.first} is between key packets: exactly, {lead.packets:,} hidden packets of"
                f" {lead.bytes:,} bytes come before it; {other}"
            )
