"""Streams in other containers: their packets are taken out into an IVF file, without coding them again and with their
time stamps.
"""

from __future__ import annotations

import bisect
import contextlib
import mmap
import os
import stat
from typing import ContextManager, NamedTuple, Optional, Sequence, Union

from .. import system
from ..errors import Failed, NotIvf
from ..base import checks, programs
from ..base.checks import AnyPath
from ..base.progress import Copied, Stages, Watch, say
from ..media import containers, elements, ends, ivf, looks, salvage, webm
from ..calls import captures, recordings

# A file of network packets, in which a stream of RTP is.
CAPTURE = "capture of RTP"
# What `wokureti repair` does with a WebM or Matroska file.
SEARCHES = "searches a damaged file for all its packets"


class Searched(NamedTuple):
    """What was found in a damaged file: the head, the packets, the gaps between them, and the length of the file."""

    head: ivf.Head
    packets: list[salvage.Found]
    gaps: list[salvage.Gap]
    size: int


def kind_of(head: bytes) -> Optional[str]:
    """The container of a file that begins with these bytes, or None."""
    if head[:4] == b"\x1a\x45\xdf\xa3":
        return "WebM or Matroska"
    if head[:4] == b"RIFF" and head[8:12] == b"AVI ":
        return "AVI"
    if head[4:8] == b"ftyp":
        return "MP4"
    if head[:4] == b"OggS":
        return "Ogg"
    if head[:3] == b"FLV":
        return "FLV"
    return CAPTURE if captures.kind_of(head) is not None else None


def is_container(path: AnyPath) -> bool:
    """Whether a path is a file in another container than IVF."""
    if not os.path.isfile(path):
        return False
    with open(path, "rb") as file:
        return kind_of(file.read(12)) not in (None, CAPTURE)


def spooled(path: AnyPath, folder: str) -> str:
    """A pipe as a file in the folder."""
    out = new_name(folder, "spooled")
    with system.open_input(path) as pipe, open(out, "xb") as file:
        Copied("standard input" if path == system.STANDARD_INPUT else os.fsdecode(path)).copy(pipe, file)
    return out


def new_name(folder: str, ending: str) -> str:
    return os.path.join(folder, f"{len(os.listdir(folder))}.{ending}")


def readable(
    path: AnyPath, folder: str, is_quiet: bool = False, is_checked: bool = True, watch: Optional[Watch] = None
) -> str:
    """The path of the stream for a session and for vp8list: a WebM or Matroska file that these read is itself; else as
    `as_ivf` has it.
    """
    return as_ivf(path, folder, is_quiet, is_checked, watch, in_place=True)


def as_ivf(
    path: AnyPath,
    folder: str,
    is_quiet: bool = False,
    is_checked: bool = True,
    watch: Optional[Watch] = None,
    in_place: bool = False,
) -> str:
    """The path of the stream as IVF: the file itself, or a file in the folder. `-` is standard input, and /dev/null an
    empty stream, for which a session has the path `-`. With `is_checked` a file that does not begin as one raises
    `NotIvf`, which says what it looks like. `watch` hears how far a container is; a terminal shows it if there is
    none, unless it `is_quiet`. `in_place` is that of `readable`."""
    given, name, is_file = as_file(path, folder)
    if not is_file:
        return given
    with open(given, "rb") as file:
        head = file.read(ivf.HEAD.size)
    kind = kind_of(head)
    if kind is None:
        try:
            ivf.parse_head(head)
        except NotIvf as error:
            if is_checked:
                raise NotIvf(looks.sentence(given, name, error)) from None
        return given
    if in_place and webm.is_read(given):
        out = spooled(given, folder) if system.is_device(given) else given
        media = webm.media_of(out)
        if not is_quiet and isinstance(media, webm.Around) and media.facts.has_sound and not containers.can_read():
            say(f"the sound of {name} is left out: install ffmpeg for that")
    else:
        out = taken_out(given, folder, name, kind, is_quiet, watch)
    containers.origins[out] = system.STANDARD_INPUT if os.fspath(path) == "-" else path
    return out


def as_file(path: AnyPath, folder: str) -> tuple[str, str, bool]:
    """The path of a stream, or of a file in the folder with what a pipe gives; what it is called; and whether it is a
    file that can be read.
    """
    given = system.STANDARD_INPUT if os.fspath(path) == "-" else os.fsdecode(path)
    name = "standard input" if given == system.STANDARD_INPUT else os.fsdecode(given)
    if given == system.STANDARD_INPUT and not system.HAS_DESCRIPTOR_PATHS:
        return spooled(given, folder), name, True
    if system.is_null(given):
        return "-", name, False
    try:
        found = os.stat(given)
    except OSError:
        # Who reads it says so.
        return given, name, False
    if stat.S_ISDIR(found.st_mode):
        return given, name, False
    return given if stat.S_ISREG(found.st_mode) else spooled(given, folder), name, True


def searched(
    path: AnyPath, folder: str, watch: Optional[Watch] = None, second: Optional[AnyPath] = None
) -> tuple[str, Union[Searched, recordings.Searched, None]]:
    """The path of a stream as IVF, as `as_ivf` has it. A WebM or Matroska file that is damaged is searched for its
    packets, and then also the head, the packets, the gaps, and the length of the file, else None. Of a capture the
    frames that can be decoded, with those of a `second` capture.
    """
    given, name, is_file = as_file(path, folder)
    if not is_file:
        return given, None
    if recordings.is_capture(given):
        other = None if second is None else as_file(second, folder)[0]
        call, out = recordings.Searched(given, name, other, second), new_name(folder, "ivf")
        call.write(out)
        return out, call
    with open(given, "rb") as file:
        head = file.read(12)
        if head[:4] == b"DKIF" or (kind_of(head) or "WebM or Matroska") != "WebM or Matroska":
            return as_ivf(given, folder, watch=watch), None
        is_matroska = kind_of(head) is not None
        failed: Optional[Failed] = None
        if is_matroska and elements.damage(file, watch=watch or containers.NOBODY) is None:
            try:
                out = taken_out(given, folder, name, "WebM or Matroska", False, watch)
                # Of a track that has another number in the file nothing is taken out.
                if os.path.getsize(out) > ivf.HEAD.size:
                    return out, None
            except Failed as error:
                failed = error
        file.seek(0)
        data = file.read()
    found = elements.find(data, watch or containers.NOBODY)
    if found is not None:
        return whole_of(found, data, given, folder, name)
    if is_matroska:
        raise failed or NotIvf("no packet of VP8 was found in it")
    return given, None


def whole_of(found: elements.Found, data: bytes, given: AnyPath, folder: str, name: str) -> tuple[str, Searched]:
    """The packets of a damaged file, as `searched` has them."""
    ending = os.path.splitext(os.fsdecode(given))[1]
    made, out, unread = f"{new_name(folder, 'whole')}{ending}", new_name(folder, "ivf"), ""
    found.write(data, made)
    try:
        read(made, out, name, "WebM or Matroska", containers.NOBODY)
    except Failed:
        # ffmpeg reads no file that has sound without what a decoder of it begins with.
        unread = "; its sound cannot be read"
        found.without_sound().write(data, made)
        read(made, out, name, "WebM or Matroska", containers.NOBODY)
    with open(out, "rb") as file:
        head = ivf.read_index(file.fileno())[0]._replace(width=found.size[0], height=found.size[1])
    pictures = [row for row in found.rows if row.track == found.video]
    packets = [salvage.Found(row.stamp, data[row.place : row.place + row.size], row.place) for row in pictures]
    places = [packet.place for packet in packets]
    gaps = [salvage.Gap(start, end, bisect.bisect_left(places, start)) for start, end in found.damage.gaps]
    lost = "" if found.has_tracks else "; what it says of its tracks is lost"
    say(
        f"{name} is a damaged WebM or Matroska file: its packets were"
        f" searched{sound_text(containers.media_of(out))}{lost}{unread}"
    )
    return out, Searched(head, packets, gaps, len(data))


def taken_out(path: AnyPath, folder: str, name: str, kind: str, is_quiet: bool, watch: Optional[Watch] = None) -> str:
    """The packets of a container as an IVF file in the folder."""
    out = new_name(folder, "ivf")
    context: ContextManager[Watch] = contextlib.nullcontext(watch or containers.NOBODY)
    if watch is None and not is_quiet:
        context = Stages()
    with context as stages:
        stages.stage(f"taking the packets out of {name}")
        if kind == CAPTURE:
            containers.damaged[out] = recordings.read(path, out, name, is_quiet)
            if not is_quiet:
                say_damage(containers.damaged[out], "fills what is missing, also from a second capture")
            return out
        tool = read(path, out, name, kind, stages)
        stages.stage(f"looking for damage of {name}")
        containers.damaged[out] = damage_of(path, name, kind, stages)
    media = containers.media_of(out)
    if not is_quiet:
        say(
            f"{name} is {'an' if kind[0] in 'AO' else 'a'} {kind} file; {tool} took its packets out without coding them"
            f" again{sound_text(media)}"
        )
    if media is not None and media.said and not containers.damaged[out]:
        containers.damaged[out] = [f"{tool} complains of {name}: {'; '.join(media.said.splitlines()[:3])}"]
    say_damage(containers.damaged[out], SEARCHES if kind == "WebM or Matroska" else "")
    return out


def say_damage(texts: Sequence[str], helps: str = SEARCHES) -> None:
    """Says what is damaged of a file that was read, and what `wokureti repair` does with it."""
    for place, text in enumerate(texts):
        say(f"{text}. `wokureti repair` {helps}" if helps and place == len(texts) - 1 else text)


def read(path: AnyPath, out: str, name: str, kind: str, watch: Watch) -> str:
    """Takes the packets of a container out, and returns the name of the program that did it."""
    if kind == "WebM or Matroska" and containers.read_by_core(path, out, watch):
        return "vp8serve"
    if containers.can_read():
        return containers.read(path, out, watch)
    raise Failed(f"{name} is a {kind} file: to take its packets out, install python3-av or ffmpeg")


def damage_of(path: AnyPath, name: str, kind: str, watch: Watch = containers.NOBODY) -> list[str]:
    """Sentences about the damage of a file: the programs that read one go on after it, or end, and do not always say
    so.
    """
    if kind == "WebM or Matroska":
        return elements.damage_of(programs.find("vp8list"), os.fsdecode(path), name, watch)
    with open(path, "rb") as file, mmap.mmap(file.fileno(), 0, access=mmap.ACCESS_READ) as data:
        size, is_cut = len(data), ends.is_cut(kind, data)
    return [f"{name} ends in the middle, after {size:,} bytes: the packets that followed are missing"] if is_cut else []


def sound_text(media: Optional[containers.Media]) -> str:
    """What is said of the sound."""
    if media is None:
        return ", and left its sound out: install python3-av or ffmpeg for that"
    count = len(media.sounds)
    return f", and {count} track{'s' * (count != 1)} of sound" if count else ""
