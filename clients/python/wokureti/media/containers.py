"""Files in containers such as WebM: the packets of their video as an IVF file, their sound, their tags and their rate.

Python's `av` reads a container if it is installed, else ffmpeg. Times are in nanoseconds, and those of the file."""

from __future__ import annotations

import concurrent.futures
import io
import itertools
import json
import os
import re
import shutil
import statistics
import subprocess
import time
from array import array
from typing import Any, Callable, Dict, Iterable, Iterator, Mapping, NamedTuple, Optional, Sequence

from .. import system
from ..errors import Failed
from ..base import checks, programs
from ..base.checks import AnyPath
from ..base.progress import Watch
from . import ivf, times
from .ivf import Rate

# What ffprobe says of a file, or of a track: an object of JSON.
Probed = Dict[str, Any]
MOST_TIME = 3600
# Seconds between two looks at how much a program wrote; packets, and bytes of a list of them, between two looks at how
# far reading is.
OFTEN, MANY, PIECE = 0.2, 256, 1 << 18
NANO = 10**9
# Nobody is told how far it is.
NOBODY = Watch()
# A rate that a container names is believed if its frames are as far apart as those of the file, to the millisecond to
# which WebM rounds.
ROUNDED = 0.001
# Tags that a program that writes a container makes itself.
OWN_TAGS = (
    "encoder",
    "duration",
    "language",
    "creation_time",
    "major_brand",
    "minor_version",
    "compatible_brands",
    "handler_name",
    "vendor_id",
)


class Sound(NamedTuple):
    """A track of sound: its codec with the bytes that a decoder begins with, its tags and language, and its packets,
    which are parts of the file `path`, with their times and durations. A time is that of the first sample that a packet
    adds."""

    codec: str
    private: bytes
    rate: int
    channels: int
    tags: dict[str, str]
    language: str
    index: int  # type: ignore[assignment]  # It is not the method of a tuple.
    path: str
    starts: array[int]
    sizes: array[int]
    times: array[int]
    durations: array[int]

    def packet(self, number: int) -> bytes:
        """The bytes of a packet."""
        with open(self.path, "rb") as file:
            file.seek(self.starts[number])
            return file.read(self.sizes[number])

    def packets(self, numbers: Iterable[int]) -> Iterator[bytes]:
        """The bytes of packets, one after the other."""
        with open(self.path, "rb") as file:
            for number in numbers:
                file.seek(self.starts[number])
                yield file.read(self.sizes[number])


class Media(NamedTuple):
    """What a container, the file `path`, has besides the packets of its video: the frames a second, or None if it has
    no rate; the tags of the file and of the video; the tracks of sound; and what the program that read it complained
    of."""

    path: AnyPath
    rate: Optional[Rate]
    tags: dict[str, str]
    video_tags: dict[str, str]
    language: str
    sounds: list[Sound]
    said: str

    @property
    def has_sound(self) -> bool:
        return bool(self.sounds)

    @property
    def source(self) -> tuple[AnyPath, tuple[int, ...]]:
        """The path that a program reads, and the descriptors that it has to get for that."""
        return self.path, ()


# What was read in this process, by the path of the IVF file that has the packets of the video; and sentences about the
# damage of the containers.
known: dict[AnyPath, Media] = {}
damaged: dict[AnyPath, list[str]] = {}
# The paths that were given for them.
origins: dict[AnyPath, AnyPath] = {}


def media_of(path: AnyPath) -> Optional[Media]:
    """What the container had from which this IVF file was made, or None."""
    return known.get(os.fspath(path))


def damage_of(path: AnyPath) -> list[str]:
    """Sentences about the damage of the container from which this IVF file was made."""
    return damaged.get(os.fspath(path), [])


def name_of(path: AnyPath) -> str:
    """What a file is called in messages: the path that was given for it, or standard input."""
    found = origins.get(path, path)
    return "standard input" if found == system.STANDARD_INPUT else os.fsdecode(found)


def has_av() -> bool:
    try:
        import av  # noqa: F401

        return True
    except ImportError:
        return False


def has_ffmpeg() -> bool:
    return bool(shutil.which("ffmpeg") and shutil.which("ffprobe"))


def can_read() -> bool:
    return has_av() or has_ffmpeg()


def read(path: AnyPath, out: str, watch: Watch = NOBODY) -> str:
    """Writes the packets of the first track of video as an IVF file, and returns the name of the program that did it.
    `media_of` has the rest. `watch` hears how many of the bytes were read."""
    tool, found = (
        ("Python's av", read_by_av(path, out, watch)) if has_av() else ("ffmpeg", read_by_ffmpeg(path, out, watch))
    )
    known[os.fspath(out)] = found
    return tool


def kept_tags(tags: Mapping[str, str]) -> dict[str, str]:
    return {
        name.lower(): value
        for name, value in tags.items()
        if name.lower() not in OWN_TAGS and not name.lower().startswith(("_statistics", "bps", "number_of_"))
    }


def rate_of(path: AnyPath, named: Optional[Rate]) -> Optional[Rate]:
    """The frames a second of an IVF file: the rate that the container names, if it is that of the time stamps, else
    that of their median step. If there is no step, the named one."""
    with open(path, "rb") as file:
        head, index = ivf.read_index(file.fileno())
    return rate_of_stamps(head, index.stamps, index.tags, named)


def rate_of_stamps(head: ivf.Head, stamps: Sequence[int], tags: Sequence[int], named: Optional[Rate]) -> Optional[Rate]:
    """The same of a file with this head, and packets with these time stamps and tags."""
    steps = times.steps_of(stamps, tags)
    if not steps:
        return named
    step = statistics.median_low(steps)
    if named is not None and abs(named[1] / named[0] - step * head.scale / head.rate) <= ROUNDED:
        return named
    return times.rate_of(stamps, tags, times.base_of(head))


# By vp8serve


def read_by_core(path: AnyPath, out: str, watch: Watch = NOBODY) -> bool:
    """The same of a WebM or Matroska file, whose packets vp8serve reads as they are, and whose sound ffmpeg or Python's
    av reads meanwhile, if it is there. False if vp8serve does not read it."""
    program = programs.find("vp8serve")
    if not programs.says(program, "WebM"):
        return False
    facts = probe(path) if has_ffmpeg() else None
    found: Optional[Media] = None
    video = next((one for one in (facts or {}).get("streams", ()) if one.get("codec_name") == "vp8"), None)
    if facts is not None and video is None:
        return False
    with concurrent.futures.ThreadPoolExecutor(1) as pool:
        saving = pool.submit(run, [program, checks.path(path), "-", "-", "--save", os.fspath(out)])
        if facts is not None and video is not None:
            sounds, said = copy_tracks(path, facts["streams"], [], out, watch)
            found = media_by(path, facts, video, fraction(video.get("avg_frame_rate", "0/0")), sounds, said)
        elif has_av():
            found = read_by_av(path, out, watch, has_video=False)
        try:
            saving.result()
        except (Failed, OSError):
            return False
    if found is not None:
        known[os.fspath(out)] = found._replace(rate=rate_of(out, found.rate))
    return True


# By ffmpeg


def read_by_ffmpeg(path: AnyPath, out: str, watch: Watch = NOBODY) -> Media:
    """The same by the programs ffmpeg and ffprobe."""
    facts = probe(path)
    video: Probed = next(
        (
            one
            for one in facts["streams"]
            if one.get("codec_type") == "video" and not one.get("disposition", {}).get("attached_pic")
        ),
        {},
    )
    check_video(path, video.get("codec_name"))
    [pictures, *sounds], said = copy_tracks(path, facts["streams"], [video["index"]], out, watch)
    watch.stage(f"copying the packets of {os.fsdecode(path)}")
    rate = rate_of_stamps(*write_ivf(out, video, pictures, watch), fraction(video.get("avg_frame_rate", "0/0")))
    return media_by(path, facts, video, rate, sounds, said)


def media_by(
    path: AnyPath, facts: Probed, video: Probed, rate: Optional[Rate], sounds: list[Sound], said: str
) -> Media:
    """What ffprobe says of a file and of its video, with the rate and the sound."""
    tags = video.get("tags", {})
    return Media(
        path,
        rate,
        kept_tags(facts.get("format", {}).get("tags", {})),
        kept_tags(tags),
        tags.get("language", "und"),
        sounds,
        said,
    )


def read_sounds(path: AnyPath, out: str) -> list[Sound]:
    """The tracks of sound of a file, by ffmpeg. Files that are made begin with `out`."""
    return copy_tracks(path, probe(path)["streams"], [], out)[0]


def probe(path: AnyPath, shared: Sequence[int] = ()) -> Probed:
    """What ffprobe says of a file. It gets the descriptors `shared`."""
    words = [
        "ffprobe",
        "-v",
        "error",
        "-of",
        "json",
        "-show_streams",
        "-show_format",
        "-show_data",
        f"file:{os.fsdecode(path)}",
    ]
    found = json.loads(run(words, shared=shared)[0])
    return {"streams": [], **found}


def copy_tracks(
    path: AnyPath,
    streams: Iterable[Probed],
    more: Sequence[int],
    out: str,
    watch: Watch = NOBODY,
    shared: Sequence[int] = (),
) -> tuple[list[Sound], str]:
    """Writes the packets of tracks to files, those with the indexes `more` and all of sound. Returns the tracks, and
    what ffmpeg, which gets the descriptors `shared`, complains of. (Its IVF files are not used: where two packets have
    one time, it gives the second one a later one.)
    """
    wanted = [one for one in streams if one["index"] in more] + [
        one for one in streams if one.get("codec_type") == "audio"
    ]
    words = ["ffmpeg", "-nostdin", "-y", "-v", "error", "-copyts", "-i", f"file:{os.fsdecode(path)}"]
    for number, one in enumerate(wanted):
        track = ["-map", f"0:{one['index']}", "-c", "copy", "-copyinkf", "-f"]
        words += [*track, "data", f"{out}.track{number}", *track, "framecrc", f"{out}.times{number}"]
    # What the writers of these lists say is not of the file: they are given hidden packets with the time of the next
    # one.
    look = part_of(path, [f"{out}.track{number}" for number in range(len(wanted))], watch)
    said = (
        [line for line in run(words, look, shared)[1].splitlines() if not line.startswith(("[data @", "[framecrc @"))]
        if wanted
        else []
    )
    watch.stage(f"listing the packets of {os.fsdecode(path)}")
    return [
        sound_of(one, f"{out}.track{number}", f"{out}.times{number}", watch) for number, one in enumerate(wanted)
    ], "\n".join(said)


def write_ivf(
    path: AnyPath, facts: Probed, track: Sound, watch: Watch = NOBODY
) -> tuple[ivf.Head, array[int], bytearray]:
    """Writes the packets of a track of video as an IVF file, with the time base of the container. Returns its head, and
    the time stamps and tags of its packets.
    """
    base, tags = fraction(facts.get("time_base", "")) or (1, 1000), bytearray()
    head = ivf.Head(int(facts.get("width", 0)), int(facts.get("height", 0)), base[1], base[0])
    # A time was rounded down to a nanosecond.
    stamps = array("Q", (-(-time * base[1] // (base[0] * NANO)) % (1 << 64) for time in track.times))
    with open(track.path, "rb") as packets, open(path, "wb") as file:
        file.writelines(
            ivf.pieces(head, len(stamps), tagged(zip(stamps, map(packets.read, track.sizes)), tags, len(stamps), watch))
        )
    os.unlink(track.path)
    return head, stamps, tags


def tagged(
    packets: Iterable[tuple[int, bytes]], tags: bytearray, count: int, watch: Watch
) -> Iterator[tuple[int, bytes]]:
    """The packets, so many of them, whose tags are added to those that are known."""
    for number, packet in enumerate(packets, 1):
        data = packet[1]
        tags.append(ivf.tag_of(len(data), data[0] if data else 0))
        yield packet
        if number % MANY == 0:
            watch.part(number, count)


def check_video(path: AnyPath, codec: Optional[str]) -> None:
    if codec != "vp8":
        name = os.fsdecode(path)
        if codec is None:
            raise Failed(f"{name} has no video")
        raise Failed(
            f"{name} has video of {codec}, and not of VP8: ffmpeg -i {name} -c:v libvpx OUT.webm codes it again as VP8,"
            " which changes each frame"
        )


def fraction(text: str) -> Optional[Rate]:
    """A rate such as 30000/1001, or None."""
    found = re.fullmatch(r"([0-9]+)/([0-9]+)", text)
    rate, scale = map(int, found.groups()) if found else (0, 0)
    return (rate, scale) if rate and scale else None


def sound_of(facts: Probed, path: str, times_path: str, watch: Watch = NOBODY) -> Sound:
    """The track of sound of what ffprobe says, of the packets in a file, and of the list of their times."""
    (times, durations), sizes = times_of(times_path, watch)
    os.unlink(times_path)
    starts = array("Q", itertools.accumulate(sizes, initial=0))
    place = starts.pop()
    if place != os.path.getsize(path):
        raise Failed(f"ffmpeg lists {place} bytes of sound, and wrote {os.path.getsize(path)}")
    tags = facts.get("tags", {})
    return Sound(
        facts.get("codec_name", ""), undumped(facts.get("extradata", "")),
        int(facts.get("sample_rate", 0)), int(facts.get("channels", 0)),
        kept_tags(tags), tags.get("language", "und"), facts["index"], path, starts, sizes, times, durations,
    )  # fmt: skip


def times_of(path: str, watch: Watch = NOBODY) -> tuple[list[array[int]], array[int]]:
    """The times and the durations of packets, in nanoseconds, and their sizes, of a list that ffmpeg's framecrc
    wrote.
    """
    columns, sizes, base = (array("q"), array("q")), array("I"), (1, 1000)
    add_time, add_duration, add_size = columns[0].append, columns[1].append, sizes.append
    done, total = 0, os.path.getsize(path)
    with open(path, encoding="ascii", errors="replace") as file:
        while lines := file.readlines(PIECE):
            done += sum(map(len, lines))
            watch.part(done, total)
            for line in lines:
                if line[0] == "#":
                    base = (fraction(line.split(":")[1].strip()) or base) if line.startswith("#tb ") else base
                    continue
                row = line.split(",", 5)
                add_time(int(row[2]))
                add_duration(int(row[3]))
                add_size(int(row[4]))
    unit, ticks = base[0] * NANO, base[1]
    return [array("q", [value * unit // ticks for value in column]) for column in columns], sizes


def undumped(text: str) -> bytes:
    """The bytes that ffprobe shows as lines such as `00000000: 4f70 7573  Opus`."""
    lines = re.findall(r"^[0-9a-f]+: ((?:[0-9a-f]{2,4} ?)+) ", text, re.MULTILINE)
    return bytes.fromhex("".join(lines))


def count_packets(path: AnyPath) -> None:
    """Writes the number of packets into the header of an IVF file: some programs write another number there."""
    with open(path, "r+b") as file:
        _, index = ivf.read_index(file.fileno())
        file.seek(24)
        file.write(len(index).to_bytes(4, "little"))


def part_of(path: AnyPath, outs: Sequence[str], watch: Watch) -> Callable[[int], None]:
    """A function that tells how much of a file a process has read, or where the system does not say that, how much of
    it is in these files by now.
    """
    total = os.path.getsize(path)

    def look(pid: int) -> None:
        done = system.read_by_process(pid, path)
        if done is None:
            done = sum(os.path.getsize(out) for out in outs if os.path.exists(out))
        watch.part(min(done, total), total)

    return look


def run(
    words: Sequence[str], look: Callable[[int], None] = lambda pid: None, shared: Sequence[int] = ()
) -> tuple[bytes, str]:
    """The text that a program writes, and what it complains of. `Failed` if it fails. `look` is called with its process
    now and then until it ends. It gets the descriptors `shared`."""
    limit = time.monotonic() + MOST_TIME
    with subprocess.Popen(
        words, stdin=subprocess.DEVNULL, stdout=subprocess.PIPE, stderr=subprocess.PIPE, pass_fds=shared
    ) as process:
        try:
            while True:
                try:
                    out, errors = process.communicate(timeout=OFTEN)
                    break
                except subprocess.TimeoutExpired:
                    look(process.pid)
                    if time.monotonic() > limit:
                        raise Failed(f"{words[0]} took longer than {MOST_TIME} seconds") from None
        except BaseException:
            process.kill()
            raise
    said = errors.decode(errors="replace").strip()
    if process.returncode != 0:
        raise Failed(f"{words[0]} could not read it: {said[-500:]}")
    return out, said


# By Python's av


def read_by_av(path: AnyPath, out: str, watch: Watch = NOBODY, has_video: bool = True) -> Media:
    """The same by Python's av; without the packets of the video, and with the rate that the file names, if another
    program reads these.
    """
    import av

    total = os.path.getsize(path)
    try:
        with av.open(checks.path(path)) as container:
            video: Any = next(iter(container.streams.video), None)
            check_video(path, video and video.codec_context.name)
            tracks = list(container.streams.audio)
            writers = {track.index: Writer(f"{out}.sound{number}", track) for number, track in enumerate(tracks)}
            base = video.time_base
            head = ivf.Head(video.codec_context.width, video.codec_context.height, base.denominator, base.numerator)
            wanted = [*[video] * has_video, *tracks]
            with open(out, "wb") if has_video else io.BytesIO() as file:
                file.write(head.text(0))
                for number, packet in enumerate(container.demux(wanted) if wanted else ()):
                    if number % MANY == 0:
                        watch.part(min(packet.pos or 0, total), total)
                    if packet.pts is None or packet.size == 0:
                        continue
                    if packet.stream.index == video.index:
                        file.write(ivf.RECORD.pack(packet.size, packet.pts % (1 << 64)))
                        file.write(bytes(packet))
                    else:
                        writers[packet.stream.index].add(packet)
            for writer in writers.values():
                writer.file.close()
            rate = video.average_rate and (video.average_rate.numerator, video.average_rate.denominator)
            if has_video:
                count_packets(out)
                rate = rate_of(out, rate)
            tags = dict(video.metadata)
            sounds = [writer.sound() for writer in writers.values()]
            return Media(
                path,
                rate,
                kept_tags(dict(container.metadata)),
                kept_tags(tags),
                tags.get("language", "und"),
                sounds,
                "",
            )
    except (OSError, ValueError) as error:
        if isinstance(error, Failed):
            raise
        raise Failed(f"Python's av could not read {os.fsdecode(path)}: {error}") from None


class Writer:
    """The packets of a track of sound, while they are read."""

    def __init__(self, path: str, track: Any) -> None:
        self.path, self.track, self.file = path, track, open(path, "wb")
        self.starts, self.sizes, self.times, self.durations = array("Q"), array("I"), array("q"), array("q")

    def add(self, packet: Any) -> None:
        self.starts.append(self.file.tell())
        self.sizes.append(packet.size)
        for items, value in ((self.times, packet.pts), (self.durations, packet.duration or 0)):
            items.append(int(value * packet.time_base * NANO // 1))
        self.file.write(bytes(packet))

    def sound(self) -> Sound:
        context, tags = self.track.codec_context, dict(self.track.metadata)
        channels = len(context.layout.channels)
        private = bytes(context.extradata or b"")
        return Sound(
            context.codec.canonical_name if hasattr(context.codec, "canonical_name") else plain_name(context.name),
            private,
            context.sample_rate,
            channels,
            # fmt: skip
            kept_tags(tags),
            tags.get("language", "und"),
            self.track.index,
            self.path,
            self.starts,
            self.sizes,
            self.times,
            self.durations,
        )


def plain_name(name: str) -> str:
    """The name of a codec, from that of the decoder that was chosen for it."""
    return {"libopus": "opus", "libvorbis": "vorbis", "mp3float": "mp3", "libvpx": "vp8"}.get(name, name)
