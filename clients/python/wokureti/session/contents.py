"""Which packet of which file each packet of a session is now. No question of the session says that, nor how long a
packet is shown, so edits are followed here as far as these need it; all else of a packet is what the session
answers."""

from __future__ import annotations

import bisect
import builtins
import contextlib
import copy
import itertools
import os
import secrets
import tempfile
from array import array
from typing import IO, TYPE_CHECKING, Callable, Iterable, Iterator, NamedTuple, Optional, Sequence

from .. import system
from ..base import checks, files
from ..base.checks import AnyPath
from ..base.lines import LOSING, first_word, rest_of, spaced, words_of
from ..base.progress import say
from ..media import excerpts, ivf, muxing, times
from ..media.ivf import Rate
from . import runs
from .inputs import Input, Inputs, is_input
from .listing import Listing

if TYPE_CHECKING:
    from .session import Session

# Packets that are read together, and those that are asked for together, at most.
MOST_TOGETHER, MOST_ASKED = 1 << 16, 256


# What a line inserts if that does not matter: a packet of no bytes.
NOTHING = {"insert": "0 -", "replace": "-"}


class Operation(NamedTuple):
    """A change of the packets of a source that was made, or that takes one back: a request line without what it
    inserts. `packet` is the number of the packet that is inserted, and `text` what the line has of it: its time stamp
    and its bytes, or a script. Of a packet of a file it is empty until it is needed.
    """

    word: str
    numbers: tuple[int, ...]
    packet: Optional[int] = None
    text: str = ""

    @property
    def line(self) -> str:
        return " ".join([self.word, *map(str, self.numbers), *([self.text] if self.text else [])])

    @property
    def is_lost(self) -> bool:
        """Whether it is not known what the line inserts."""
        return self.word in ("insert", "replace", "script") and not self.text


class Plan(NamedTuple):
    """Edits that were followed before they are made: the contents after them, and what takes each of them back."""

    after: Contents
    inverses: list[Operation]

    @property
    def of_file(self) -> list[bool]:
        """For each edit whether the packet that it takes away is one of a file, so that it need not be asked for."""
        if self.after.is_overwritten():
            return [False] * len(self.inverses)
        return [inverse.packet is not None and inverse.packet < self.after.of_files for inverse in self.inverses]


class Made(NamedTuple):
    """A packet that an edit made: the number of the packet whose time it has, or None; the source that it was made in;
    and whether it was forged.
    """

    timed: Optional[int]
    source: int
    is_forged: bool


class Packet(NamedTuple):
    """A packet as the session has it."""

    stamp: int
    data: builtins.bytes

    def bytes(self) -> builtins.bytes:
        return self.data


def inserted(operation: Operation) -> int:
    """The number of the packet that an operation inserts."""
    assert operation.packet is not None
    return operation.packet


def packet_of(text: str) -> Packet:
    """A packet of the answer to `packet`, without its first word."""
    stamp, data = words_of(text)
    return Packet(int(stamp), b"" if data == "-" else bytes.fromhex(data))


class Stamped(NamedTuple):
    """The new time stamps of packets in the order of a source, and the end of the last one."""

    source: int
    stream: array[int]
    stamps: array[int]
    end: int


class Kept:
    """The records of packets of files, in a file without a name: those that follow each other are one part of it, which
    has the place of each record and its end.
    """

    def __init__(self, contents: Contents) -> None:
        self.contents = contents
        self.file: Optional[IO[bytes]] = None
        self.firsts: list[int] = []
        self.parts: list[array[int]] = []

    def add(self, numbers: Iterable[int]) -> None:
        """Keeps packets, if their files are still those that were opened, and if there is room."""
        for first, end in parts_of(number for number in sorted(numbers) if self.place(number) is None):
            while first < end:
                # Packets of two files may follow each other.
                item, index = self.contents.where(first)
                records = item.records()
                stop = min(end, first + len(records) - index)
                with contextlib.suppress(OSError):
                    self.file = self.file or tempfile.TemporaryFile()
                    start = self.file.seek(0, os.SEEK_END)
                    self.file.writelines(item.read_records(index, index + stop - first))
                    self.file.flush()
                    place = bisect.bisect(self.firsts, first)
                    sizes = records.sizes[index : index + stop - first]
                    self.firsts.insert(place, first)
                    self.parts.insert(
                        place,
                        array("Q", itertools.accumulate((ivf.RECORD.size + size for size in sizes), initial=start)),
                    )
                first = stop

    def place(self, number: int) -> Optional[int]:
        """The part that has a packet, or None."""
        place = bisect.bisect(self.firsts, number) - 1
        return place if place >= 0 and number < self.firsts[place] + len(self.parts[place]) - 1 else None

    def data(self, number: int) -> Optional[bytes]:
        """The bytes of a packet, or None."""
        place = self.place(number)
        if place is None or self.file is None:
            return None
        start, end = self.parts[place][number - self.firsts[place] :][:2]
        return system.pread_all(self.file.fileno(), end - start - ivf.RECORD.size, start + ivf.RECORD.size)


def parts_of(numbers: Iterable[int]) -> Iterator[tuple[int, int]]:
    """Numbers in ascending order as ranges of those that follow each other: the first one, and the one after the
    last.
    """
    first = 0
    end: Optional[int] = None
    for number in numbers:
        if number != end:
            if end is not None:
                yield first, end
            first = number
        end = number + 1
    if end is not None:
        yield first, end


class Contents:
    """The packets of all sources.

    Each packet has a number: those of the files first, then each one that an edit made, a copy too. A stream is a list
    of such numbers, so an edit moves numbers, and a number is in one stream at most, once: it says which packet is
    meant, wherever that is now. The bytes of a number stay the same.
    """

    def __init__(self, session: Session, edits_path: Optional[AnyPath]) -> None:
        self.session: Session = session
        self.inputs: Inputs = session._inputs
        self.edits_path: Optional[AnyPath] = edits_path
        self.program: str = session._settings.program
        self.lister: str = session._settings.lister
        self.tables: Optional[AnyPath] = session._settings.tables
        # Numbers of packets that edits made are those of these contents alone.
        self.name = secrets.token_hex(4)
        self.current = 0
        self.bases: list[int] = []
        self.streams: list[array[int]] = []
        count = 0
        for item in self.inputs.all:
            records = len(item.records())
            self.bases.append(count)
            self.streams.append(array("I", range(count, count + records)))
            count += records
        self.of_files: int = count
        # The packets that edits made, and of those that edits took away since what `packet` answered.
        self.made: list[Made] = []
        self.lost: dict[int, str] = {}
        # The bytes of packets of files that edits took away: a file may be overwritten before they are wanted again.
        self.kept = Kept(self)
        self.stamped: Optional[Stamped] = None
        # Whether a packet that an edit took away was inserted again: the engine then takes its duration for that of a
        # new packet.
        self.has_inserted_again = False
        self.listing: Listing = Listing(self)

    # Edits

    def apply(self, line: str) -> Operation:
        """Makes an accepted edit, and returns what takes it back."""
        word, *rest = words_of(line)
        if word == "script":
            return Operation(word, ())
        if word in ("insert", "blank", "hold"):
            return self.perform(Operation("insert", (int(rest[0]),), self.make(None, word != "insert")))
        if word == "copy":
            source, index, at = map(int, rest)
            copied = self.streams[source][index]
            return self.perform(Operation("insert", (at,), self.make(copied, self.is_forged(copied))))
        if word in ("replace", "hide", "show"):
            at = int(rest[0])
            return self.perform(Operation("replace", (at,), self.make(self.streams[self.current][at])))
        return self.perform(Operation(word, tuple(map(int, rest))))

    def apply_all(self, lines: Iterable[str]) -> list[Operation]:
        """Makes accepted edits, and returns what takes each of them back. Packets that are deleted one after the other
        go together.
        """
        found: list[Operation] = []
        for line, group in itertools.groupby(lines):
            count = len(list(group))
            word, *rest = words_of(line)
            if count == 1 or word != "delete":
                found += [self.apply(line) for _ in range(count)]
                continue
            at, stream = int(rest[0]), self.streams[self.current]
            numbers = stream[at : at + count]
            if len(numbers) < count:
                raise IndexError(f"there are no {count} packets from {at} on")
            del stream[at : at + count]
            found += [Operation("insert", (at,), number) for number in numbers]
        return found

    def perform_all(self, operations: Iterable[Operation]) -> list[Operation]:
        """Makes changes, and returns what takes each of them back. Packets that are inserted at one index go in
        together: the last one comes first.
        """
        found: list[Operation] = []
        for (word, numbers), group in itertools.groupby(operations, lambda operation: operation[:2]):
            same = list(group)
            if word != "insert" or len(same) == 1:
                found += map(self.perform, same)
                continue
            [at] = numbers
            self.streams[self.current][at:at] = array("I", [inserted(operation) for operation in reversed(same)])
            found += [Operation("delete", (at,))] * len(same)
        return found

    def perform(self, operation: Operation) -> Operation:
        """Makes a change, and returns what takes it back, without what it lost."""
        word, numbers, _, _ = operation
        stream = self.streams[self.current]
        if word == "script":
            return Operation(word, ())
        if word == "use":
            before, self.current = self.current, numbers[0]
            return Operation(word, (before,))
        if word == "move":
            start, to = numbers
            stream.insert(to, stream.pop(start))
            return Operation(word, (to, start))
        at = numbers[0]
        if word == "insert":
            stream.insert(at, inserted(operation))
            return Operation("delete", (at,))
        if word == "delete":
            return Operation("insert", (at,), stream.pop(at))
        before, stream[at] = stream[at], inserted(operation)
        return Operation("replace", (at,), before)

    def whole_by(self, inverse: Operation, lost: str) -> Operation:
        """What takes an edit back, with what the edit lost, if that was asked for. A packet that an edit made is in no
        file.
        """
        if not lost:
            return inverse
        if inverse.packet is not None and inverse.packet >= self.of_files:
            self.lost[inverse.packet] = lost
        # A packet that is replaced keeps its time stamp.
        return inverse._replace(text=rest_of(lost) if inverse.word == "replace" else lost)

    def make(self, timed: Optional[int], is_forged: bool = False) -> int:
        """The number of a new packet."""
        self.made.append(Made(timed, self.current, is_forged))
        return self.next_number - 1

    def is_forged(self, number: int) -> bool:
        return number >= self.of_files and self.made[number - self.of_files].is_forged

    @property
    def script(self) -> str:
        """The current script."""
        return spaced(rest_of(self.session.ask("script")))

    @property
    def next_number(self) -> int:
        """The number of the next packet that an edit makes."""
        return self.of_files + len(self.made)

    def takes_of_file(self, line: str) -> bool:
        """Whether the packet that an edit takes away is one of a file, so that it need not be asked for."""
        word, *rest = words_of(line)
        try:
            return (
                word in LOSING
                and self.streams[self.current][int(rest[0])] < self.of_files
                and not self.is_overwritten()
            )
        except (IndexError, ValueError):
            # It is refused.
            return False

    def planned(self, lines: Sequence[str]) -> Optional[Plan]:
        """Follows edits that are about to be made: a `Plan`. None if one will be refused, or if they reach packets that
        edits made: if one is refused, others may take these away where packets of a file were thought to be."""
        after = copy.copy(self)
        try:
            if (
                len(lines) > 1
                and self.made
                and any(max(stream, default=0) >= self.of_files for stream in self.reach(lines))
            ):
                return None
            after.streams, after.made = [array("I", stream) for stream in self.streams], list(self.made)
            return Plan(after, after.apply_all(lines))
        except (IndexError, OverflowError, ValueError):
            return None

    def adopt(self, plan: Plan) -> list[Operation]:
        """Takes over what was planned, once all of it was accepted, and returns what takes each edit back."""
        self.streams, self.made, self.current = plan.after.streams, plan.after.made, plan.after.current
        return plan.inverses

    def reach(self, lines: Sequence[str]) -> list[array[int]]:
        """The packets that edits can take away: of deletions those around, of others all."""
        if {first_word(line) for line in lines} != {"delete"}:
            return self.streams
        places = [int(words_of(line)[1]) for line in lines]
        return [self.streams[self.current][min(places) : max(places) + len(places)]]

    def has_whole(self, operation: Operation, new: Optional[int] = None) -> bool:
        """Whether what an operation inserts is known. It does not matter of a packet whose number is `new` or a later
        one: a step that made it and took it away is taken back, so that it goes again."""
        packet = operation.packet
        return not operation.is_lost or (
            packet is not None and (packet < self.of_files or (new is not None and packet >= new))
        )

    def whole(self, operation: Operation) -> Operation:
        """An operation with what it inserts."""
        if not operation.is_lost:
            return operation
        number = inserted(operation)
        if number >= self.of_files:
            return operation._replace(text=NOTHING[operation.word])
        item, index = self.where(number)
        data = self.of_file(number).hex() or "-"
        return operation._replace(
            text=data if operation.word == "replace" else f"{item.records().stamps[index]} {data}"
        )

    # Times

    def where(self, number: int) -> tuple[Input, int]:
        """The file and the index of a packet of a file."""
        source = max(
            place for place, base in enumerate(self.bases) if base <= number and len(self.inputs.all[place].records())
        )
        return self.inputs.all[source], number - self.bases[source]

    def timed(self, number: int) -> Optional[int]:
        """The packet of a file that a packet has its time from: itself, or the one that it was copied from or is in the
        place of; else None.
        """
        found: Optional[int] = number
        while found is not None and found >= self.of_files:
            found = self.made[found - self.of_files].timed
        return found

    def lasting(self, number: int) -> tuple[int, Input]:
        """How long a packet is shown, and the file in whose time base that is: as in its file; for one that has no time
        the median step of the source that it was made in."""
        found: Optional[int] = number
        made_in = 0
        while found is not None and found >= self.of_files:
            found, made_in, _ = self.made[found - self.of_files]
        if found is None:
            return self.inputs.all[made_in].step(), self.inputs.all[made_in]
        item, index = self.where(found)
        return item.durations()[index], item

    def duration(self, number: int, source: int) -> int:
        """The duration of a packet in the time base of a source."""
        ticks, item = self.lasting(number)
        return times.scaled(ticks, item.head, self.inputs.all[source].head)

    def durations(self, source: int, stream: Iterable[int]) -> array[int]:
        """The durations of packets in the time base of a source."""
        return array("Q", (self.duration(number, source) for number in stream))

    def stamps(self, source: int, stream: Sequence[int]) -> tuple[array[int], int]:
        """New time stamps for packets in the order of a source, and the end of the last one. They are kept for what is
        asked next of the same packets.
        """
        known = self.stamped
        if known is None or (known.source, known.stream) != (source, stream):
            self.listing.learn()
            lasting = ((number, *self.lasting(number)) for number in stream)
            packets = ((self.is_shown(number), ticks, times.base_of(item.head)) for number, ticks, item in lasting)
            new = times.stamps_of(packets, times.base_of(self.inputs.all[source].head))
            known = self.stamped = Stamped(source, array("I", stream), *new)
        return known.stamps, known.end

    # Facts

    def stamp(self, number: int) -> int:
        """The time stamp of a packet."""
        return self.listing.stamps[self.known(number)]

    def is_shown(self, number: int) -> bool:
        """Whether a packet is shown as a frame."""
        return bool(self.listing.tags[self.known(number)] & ivf.SHOWN)

    def has_key_tag(self, number: int) -> bool:
        return bool(self.listing.tags[self.known(number)] & ivf.KEY)

    def size(self, number: int) -> int:
        """The number of bytes of a packet."""
        return self.listing.sizes[self.known(number)]

    def known(self, number: int) -> int:
        """The number, whose facts are asked for if they are not known yet."""
        if number not in self.listing:
            self.listing.learn()
        if number not in self.listing:
            # An edit took it away before it was listed.
            stamp, data = self.asked([number])[0]
            tags = builtins.bytes([ivf.tag_of(len(data), data[0] if data else 0)])
            self.listing.put(array("I", [number]), tags, array("I", [len(data)]), array("Q", [stamp]))
        return number

    # Bytes

    def bytes(self, number: int) -> builtins.bytes:
        """The bytes of a packet."""
        return next(self.data([number]))

    def data(self, numbers: Sequence[int]) -> Iterator[builtins.bytes]:
        """The bytes of packets, one after the other. Those of a file are read from it, the others are asked for
        together.
        """
        place = 0
        while place < len(numbers):
            if numbers[place] < self.of_files:
                yield self.of_file(numbers[place])
                place += 1
                continue
            end = self.end_of_made(numbers, place)
            yield from (packet.data for packet in self.asked(numbers[place:end]))
            place = end

    def of_file(self, number: int) -> builtins.bytes:
        """The bytes of a packet of a file: if that was overwritten, those that were kept, or that the session has."""
        item, index = self.where(number)
        try:
            return item.read(index)
        except OSError:
            data = self.kept.data(number)
            if data is None and any(number in stream for stream in self.streams):
                data = self.asked([number])[0].data
            if data is None:
                raise
            return data

    def is_overwritten(self) -> bool:
        """Whether a file is no more the one that was opened."""
        return any(item.is_changed() for item in self.inputs.all)

    def end_of_made(self, numbers: Sequence[int], place: int) -> int:
        """Up to where packets follow that edits made and that are asked for together."""
        end, limit = place + 1, min(len(numbers), place + MOST_ASKED)
        while end < limit and numbers[end] >= self.of_files:
            end += 1
        return end

    def asked(self, numbers: Sequence[int]) -> list[Packet]:
        """Packets that edits made, as the session has them, or had them before an edit took them away."""
        with self.session.turn():
            places = self.places({number for number in numbers if number not in self.lost})
            found: dict[int, str] = {}
            for source in sorted({source for source, _ in places.values()}):
                mine = [number for number, place in places.items() if place[0] == source]
                answers = self.session.ask_all([f"packet {places[number][1]}" for number in mine], source)
                found.update(zip(mine, map(rest_of, answers)))
            return [packet_of(found.get(number) or self.lost[number]) for number in numbers]

    def places(self, numbers: set[int]) -> dict[int, tuple[int, int]]:
        """Where packets are: for each of the numbers the source and the index. Those that edits took away are left
        out.
        """
        if len(numbers) == 1:
            [number] = numbers
            return {
                number: (source, stream.index(number)) for source, stream in enumerate(self.streams) if number in stream
            }
        return (
            {
                number: (source, index)
                for source, stream in enumerate(self.streams)
                for index, number in enumerate(stream)
                if number in numbers
            }
            if numbers
            else {}
        )

    def is_edited(self, source: int, stream: Sequence[int]) -> bool:
        """Whether the packets of a source are others than those of its file."""
        base, count = self.bases[source], len(self.inputs.all[source].records())
        return len(stream) != count or stream != array("I", range(base, base + count))

    def source(self, source: Optional[int] = None) -> int:
        """The number of a source that is there; the current one if none is given."""
        source = self.current if source is None else checks.number(source)
        if source >= len(self.streams):
            raise IndexError(f"there is no source {source}: the last one is {len(self.streams) - 1}")
        return source

    def packet(self, index: int, source: Optional[int] = None) -> Packet:
        """A packet of a source now."""
        source, index = self.source(source), checks.number(index)
        if index >= len(self.streams[source]):
            raise IndexError(f"there is no packet {index}: there are {len(self.streams[source])}")
        return packet_of(rest_of(self.session.ask(f"packet {index}", source)))

    @property
    def rate(self) -> Rate:
        """Rate and scale of the frames that are served: those of the container that source 0 was in; else those of its
        header, whose time base may be finer than a frame, over the step of its time stamps."""
        media = self.inputs.all[0].media
        if media is not None and media.rate is not None:
            return media.rate
        return self.inputs.all[0].rate()

    def shown_kinds(self, source: int) -> list[str]:
        """For each shown packet of a source its kind, `key` or `inter`."""
        self.listing.learn()
        return [
            "key" if self.has_key_tag(number) else "inter" for number in self.streams[source] if self.is_shown(number)
        ]

    def pieces(self, source: int = 0) -> Iterator[builtins.bytes]:
        """The text of an IVF file of the packets of a source, piece by piece."""
        stream = self.streams[source]
        yield self.inputs.all[source].head.text(len(stream))
        yield from self.records(stream)

    def records(self, stream: Sequence[int]) -> Iterator[builtins.bytes]:
        """The records of packets as an IVF file has them. Those that follow each other in a file are read together."""
        place = 0
        while place < len(stream):
            number = stream[place]
            if number >= self.of_files:
                end = self.end_of_made(stream, place)
                for packet in self.asked(stream[place:end]):
                    yield ivf.RECORD.pack(len(packet.data), packet.stamp)
                    yield packet.data
                place = end
                continue
            item, first = self.where(number)
            if item.is_changed():
                data = self.of_file(number)
                yield ivf.RECORD.pack(len(data), item.records().stamps[first])
                yield data
                place += 1
                continue
            end, index = place + 1, first + 1
            limit = min(len(stream), place + MOST_TOGETHER, place + len(item.records()) - first)
            while end < limit and stream[end] == number + end - place:
                end, index = end + 1, index + 1
            yield from item.read_records(first, index)
            place = end

    def restamped(self, source: int = 0, stream: Optional[Sequence[int]] = None) -> Iterator[builtins.bytes]:
        """The text of an IVF file of packets in the order of a source, with new time stamps, piece by piece."""
        stream = self.streams[source] if stream is None else stream
        stamps, _ = self.stamps(source, stream)
        return ivf.pieces(self.inputs.all[source].head, len(stream), zip(stamps, self.data(stream)))

    def damage(self) -> list[str]:
        """Sentences about the files of the sources that end in the middle or are damaged."""
        return [text for item in self.inputs.all for text in item.damage()]

    def check_output(self, path: AnyPath) -> None:
        """`ValueError` if a file is one that the session reads or writes."""
        if is_input(path, self.inputs.paths):
            raise ValueError(f"{path!r} is a file of the session: name another one")
        if self.edits_path is not None and checks.is_same_file(path, self.edits_path):
            raise ValueError(f"{path!r} is the list of the edits: name another file")

    def save(
        self,
        path: AnyPath,
        pad: bool = False,
        source: int = 0,
        restamp: bool = False,
        sound: Optional[str] = None,
        say: Callable[[str], None] = say,
    ) -> None:
        """Writes the packets of a source as an IVF file; with `restamp` with new time stamps. A file .webm or .mkv
        always has these, and the sound.
        """
        self.check_output(path)
        source = self.source(source)
        is_container = muxing.ending_of(path) is not None
        pieces = self.restamped(source) if restamp or is_container else self.pieces(source)
        pieces = runs.padded(self.program, pieces) if pad else pieces
        if is_container:
            excerpts.save(
                path,
                pieces,
                self.inputs.all[source],
                excerpts.of_numbers(self, self.streams[source], source),
                sound,
                say,
            )
        else:
            files.write_whole(path, pieces)
