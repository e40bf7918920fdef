"""wokureti compare --decoder: a folder of streams, and the frames of another decoder for each of them."""

from __future__ import annotations

import concurrent.futures
import contextlib
import itertools
import os
import pathlib
import shutil
import subprocess
import time
import xml.etree.ElementTree as xml
from typing import IO, Iterable, Iterator, NamedTuple, Optional, Sequence, Union

from .. import system
from ..errors import Ended, Failed, NotY4m, sentence
from ..base import files, rooms
from ..base.checks import AnyPath
from ..media import containers, y4m
from ..media.y4m import size_of
from ..session import convert
from . import compare

# Seconds that a decoder may take for one stream.
MOST_TIME = 600
ENDINGS = (".ivf", ".webm", ".mkv")


class Result(NamedTuple):
    """A stream: its name, what differs, as lines, sentences about the damage of its file, and the seconds that it
    took.
    """

    name: str
    lines: list[str]
    damage: list[str]
    seconds: float

    @property
    def is_same(self) -> bool:
        return not self.lines


def streams_of(path: AnyPath) -> list[tuple[str, pathlib.Path]]:
    """The streams of a folder and of the folders in it, with their names; or one stream."""
    top = pathlib.Path(os.fsdecode(path))
    if top.is_dir():
        return [
            (str(one.relative_to(top)), one)
            for one in sorted(top.rglob("*"))
            if one.suffix.lower() in ENDINGS and one.is_file()
        ]
    return [(top.name, top)]


def words_of(command: str) -> list[str]:
    """The words of a command line. `ValueError` if its program is not there."""
    words = system.words_of_command(command)
    if not words:
        raise ValueError("--decoder names a command, with {in} for the stream")
    if shutil.which(words[0]) is None:
        raise ValueError(f"there is no program {words[0]}; a path with spaces is quoted")
    return words if any("{in}" in word for word in words) else [*words, "{in}"]


def raw_frames(file: IO[bytes], sizes: Iterable[tuple[int, int]]) -> Iterator[compare.Picture]:
    """Frames of I420 of these sizes."""
    for width, height in sizes:
        samples = y4m.read_exactly(file, size_of(width, height))
        if len(samples) < size_of(width, height):
            if samples:
                raise NotY4m("the last frame is cut off")
            return
        yield width, height, samples
    if file.read(1):
        raise NotY4m("it has more frames than the stream shows")


def decoded(words: Sequence[str], path: pathlib.Path, folder: str) -> tuple[str, list[str]]:
    """The file with the frames of a decoder, and what it wrote to standard error."""
    out = os.path.join(folder, "out")
    is_file = any("{out}" in word for word in words)
    words = [word.replace("{in}", str(path)).replace("{out}", out) for word in words]
    with contextlib.ExitStack() as stack:
        stdout: Union[int, IO[bytes]] = subprocess.DEVNULL if is_file else stack.enter_context(open(out, "wb"))
        done = subprocess.run(
            words, stdin=subprocess.DEVNULL, stdout=stdout, stderr=subprocess.PIPE, timeout=MOST_TIME, check=False
        )
    said = done.stderr.decode(errors="replace").strip().splitlines()
    if done.returncode and not said:
        said = [f"it ended with status {done.returncode}"]
    return out, said


def differences(words: Sequence[str], path: pathlib.Path, tables: Optional[AnyPath]) -> tuple[list[str], list[str]]:
    """How the frames of a decoder differ from those of a stream, as lines, and sentences about the damage of its file.
    Frames that are refused are left out: a decoder shows none there."""
    damage: list[str] = []
    with rooms.Room() as folder:
        try:
            out, said = decoded(words, path, folder)
            taken = convert.readable(str(path), folder, is_quiet=True, is_checked=False, watch=containers.NOBODY)
            ours = [picture for picture in compare.of_stream(taken, tables) if not isinstance(picture, compare.Missing)]
            damage = compare.damage_in(taken)
            if not os.path.exists(out):
                return ["it wrote no frames", *said[-1:]], damage
            with open(out, "rb") as file:
                is_text = file.read(9) == b"YUV4MPEG2"
                file.seek(0)
                theirs: Iterator[compare.Picture] = (
                    y4m.read_frames(file) if is_text else raw_frames(file, [picture[:2] for picture in ours])
                )
                found = compare.Comparison()
                for number, pair in enumerate(itertools.zip_longest(ours, theirs)):
                    found.add(number, *pair)
        except subprocess.TimeoutExpired:
            return [f"it took longer than {MOST_TIME} seconds"], damage
        except NotY4m as error:
            return [f"its frames cannot be read: {error}", *said[-1:]], damage
        except (Ended, OSError, Failed) as error:
            return [sentence(error)], damage
    return [] if found.is_same else [*found.lines(), *said[-1:]], damage


def results(path: AnyPath, command: str, jobs: Optional[int], tables: Optional[AnyPath] = None) -> Iterator[Result]:
    """The result of each stream, in order, each when it is there."""
    words, streams = words_of(command), streams_of(path)
    if not streams:
        raise ValueError(f"{os.fsdecode(path)} has no streams: files that end in {', '.join(ENDINGS)}")

    def result(stream: tuple[str, pathlib.Path]) -> Result:
        name, where = stream
        start = time.monotonic()
        return Result(name, *differences(words, where, tables), time.monotonic() - start)

    with concurrent.futures.ThreadPoolExecutor(jobs) as pool:
        yield from pool.map(result, streams)


def write_junit(path: AnyPath, command: str, found: Sequence[Result], is_anyway: bool = False) -> None:
    """The results as JUnit has them: a file that is damaged is an error, unless it is compared anyway."""
    errors = [] if is_anyway else [one for one in found if one.damage]
    numbers = {"tests": len(found), "failures": sum(not one.is_same for one in found), "errors": len(errors)}
    facts = {name: str(count) for name, count in numbers.items()}
    suite = xml.Element("testsuite", {"name": command, **facts, "time": f"{sum(one.seconds for one in found):.3f}"})
    for one in found:
        case = xml.SubElement(suite, "testcase", classname=command, name=one.name, time=f"{one.seconds:.3f}")
        if not one.is_same:
            xml.SubElement(case, "failure", message=one.lines[0]).text = "\n".join(one.lines)
        if one in errors:
            xml.SubElement(case, "error", message=one.damage[0]).text = "\n".join(one.damage)
    files.write_whole(path, [xml.tostring(suite, encoding="utf-8", xml_declaration=True)])
