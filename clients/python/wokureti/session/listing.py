"""The facts of the packets of a session, as `list` reports them: kept for each packet, and asked again only where edits
changed the packets.
"""

from __future__ import annotations

import re
from array import array
from typing import TYPE_CHECKING, NamedTuple, Sequence


from ..media.ivf import KEY, NO_BYTES, SHOWN

if TYPE_CHECKING:
    from .contents import Contents

# Packets that are asked for at a time, at least and at most, and the characters of an answer that are read together.
PAGE, MOST_PAGE, PIECE = 4096, 1 << 17, 1 << 20
# What is used of an object of `list`.
FACTS = re.compile(
    r'"stamp":(\d+),"byte":\d+,"bytes":(\d+),"kind":(?:null|"(\w+)"),"show":"(\w+)"'
    r'[^\n]*?,"size":(?:null|"(\d+)x(\d+)")[^\n]*,"cause":(?:null|"([^"\n]+)")}'
)
# The tags of a packet by its kind, whether it is shown, and whether it has no bytes, as the index of a file has them.
TAGS = {
    (kind, show, is_empty): KEY * (kind == "key") | SHOWN * (show == "shown") | NO_BYTES * is_empty
    for kind in ("", "key", "inter")
    for show in ("shown", "hidden")
    for is_empty in (False, True)
}
# The number of the cause of packets that are not decoded because of an earlier one.
LOST = 1


class Seen(NamedTuple):
    """The packets of a source as they were listed, as numbers, and for each the number of the cause against it, 0 if it
    is decoded.
    """

    stream: array[int]
    causes: bytearray


class Listing:
    """The facts of the packets of `Contents`. Until a source is listed, the tags, sizes and time stamps of its packets
    are those that the file has.
    """

    def __init__(self, contents: Contents) -> None:
        self.contents = contents
        self.tags, self.sizes, self.stamps = bytearray(), array("I"), array("Q")
        for item in contents.inputs.all:
            index = item.records()
            self.tags += index.tags
            self.sizes += index.sizes
            self.stamps += index.stamps
        # The size of the pictures of key packets, and the packets of which nothing is known yet.
        self.pictures: dict[int, tuple[int, int]] = {}
        self.unknown: set[int] = set()
        self.causes = ["", "lost"]
        # What is listed of each source, and of those that are not wholly listed the beginning.
        self.seen: dict[int, Seen] = {}
        self.begun: dict[int, Seen] = {}

    def __contains__(self, number: int) -> bool:
        return number < len(self.tags) and number not in self.unknown

    @property
    def is_whole(self) -> bool:
        """Whether all sources were listed."""
        return len(self.seen) == len(self.contents.streams)

    def learn(self) -> None:
        """Lists what is new in all sources."""
        for source in range(len(self.contents.streams)):
            self.look(source)

    def look(self, source: int) -> Seen:
        """What is listed of a source, as it is now."""
        with self.contents.session.turn():
            while source not in self.seen:
                self.go_on(source)
            old, stream = self.seen[source], self.contents.streams[source]
            if old.stream != stream:
                self.seen[source] = Seen(array("I", stream), self.causes_now(source, old, stream))
            return self.seen[source]

    def go_on(self, source: int) -> None:
        """Lists the next packets of a source that is not wholly listed. Edits may come before the next call, and others
        have the session while the answer is read.
        """
        with self.contents.session.turn():
            if source in self.seen:
                return
            stream = self.contents.streams[source]
            known = self.begun.setdefault(source, Seen(array("I"), bytearray()))
            if known.stream != stream[: len(known.stream)]:
                del known.stream[common(known.stream, stream) :]
                del known.causes[len(known.stream) :]
            place = len(known.stream)
            # The program reads the headers up to the first packet that is asked for, so pages grow.
            numbers = stream[place : place + min(max(PAGE, place), MOST_PAGE)]
            reply = self.reply(source, place, len(numbers))
        causes = self.read(reply, numbers)
        with self.contents.session.turn():
            if self.begun.get(source) is known and len(known.stream) == place:
                known.causes.extend(causes)
                known.stream.extend(numbers)
                if known.stream == self.contents.streams[source]:
                    self.seen[source] = self.begun.pop(source)

    def causes_now(self, source: int, old: Seen, stream: array[int]) -> bytearray:
        """The causes of packets of which others were listed. A packet that was there, and has the cause that it had,
        leaves those after it as they were: what decoding refuses depends on the packets from the last key packet on,
        and on these only by whether one of them is refused.
        """
        first = common(old.stream, stream)
        rest = len(stream) - common(old.stream[first:], stream[first:], -1)
        shift = len(old.stream) - len(stream)
        causes, after = old.causes[:first], 1
        while len(causes) < len(stream):
            place = len(causes)
            causes += self.ask(source, place, min(PAGE, max(rest - place, 0) + after, len(stream) - place))
            after = 256
            same = next(
                (at for at in range(max(place, rest), len(causes)) if causes[at] == old.causes[at + shift]), None
            )
            if same is not None:
                return causes[:same] + old.causes[same + shift :]
        return causes

    def ask(self, source: int, first: int, count: int) -> bytearray:
        """Asks for packets of a source, and returns the number of the cause of each."""
        return self.read(self.reply(source, first, count), self.contents.streams[source][first : first + count])

    def reply(self, source: int, first: int, count: int) -> str:
        """What `list` answers of packets of a source."""
        self.grow()
        reply: str = self.contents.session.ask(f"list {first} {count}", source)
        return reply

    def read(self, reply: str, numbers: array[int]) -> bytearray:
        """Stores what is answered of these packets, and returns the number of the cause of each."""
        causes, place = bytearray(), 0
        while place >= 0:
            end = reply.find("\n", place + PIECE)
            found = FACTS.findall(reply, place, len(reply) if end < 0 else end)
            if found:
                causes += self.take(numbers[len(causes) : len(causes) + len(found)], found)
            place = end
        if len(causes) != len(numbers):
            raise OSError("vp8serve and the client do not find the same packets")
        return causes

    def take(self, numbers: array[int], found: list[tuple[str, ...]]) -> bytearray:
        """Stores the facts of packets, and returns the number of the cause of each."""
        stamps, sizes, kinds, shows, widths, heights, causes = zip(*found)
        tags = bytes(map(TAGS.__getitem__, zip(kinds, shows, map("0".__eq__, sizes))))
        self.put(numbers, tags, array("I", map(int, sizes)), array("Q", map(int, stamps)))
        for at in [at for at, width in enumerate(widths) if width]:
            self.pictures[numbers[at]] = (int(widths[at]), int(heights[at]))
        return bytearray(map(self.number_of, causes)) if any(causes) else bytearray(len(causes))

    def put(self, numbers: array[int], tags: bytes, sizes: array[int], stamps: array[int]) -> None:
        """Stores the facts of packets."""
        start, end = numbers[0], numbers[0] + len(numbers)
        if len(numbers) > 1 and numbers[-1] == end - 1 and numbers == array("I", range(start, end)):
            self.tags[start:end], self.sizes[start:end], self.stamps[start:end] = tags, sizes, stamps
        else:
            for number, *facts in zip(numbers, tags, sizes, stamps):
                self.tags[number], self.sizes[number], self.stamps[number] = facts
        if self.unknown:
            self.unknown.difference_update(numbers)

    def grow(self) -> None:
        """Makes room for the packets that edits made."""
        count = self.contents.of_files + len(self.contents.made)
        new = range(len(self.tags), count)
        self.tags += bytes(len(new))
        self.sizes.extend(new)
        self.stamps.extend(new)
        self.unknown.update(new)

    def number_of(self, cause: str) -> int:
        """The number of a cause."""
        if cause not in self.causes:
            self.causes.append(cause)
        return self.causes.index(cause)


def common(one: Sequence[int], other: Sequence[int], step: int = 1) -> int:
    """How many items two arrays have in common at the beginning, or at the end if the step is -1."""
    low, high = 0, min(len(one), len(other))

    def part(items: Sequence[int], start: int, stop: int) -> Sequence[int]:
        return items[start:stop] if step > 0 else items[len(items) - stop : len(items) - start]

    while low < high:
        middle = (low + high + 1) // 2
        if part(one, low, middle) == part(other, low, middle):
            low = middle
        else:
            high = middle - 1
    return low
