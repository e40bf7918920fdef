"""wokureti repair: finds the damage of a stream, and repairs what can be repaired without asking."""

from __future__ import annotations

import bisect
import collections
import concurrent.futures
import fractions
import json
import os
import statistics
from array import array
from typing import (
    Any,
    Callable,
    Container,
    Dict,
    Iterable,
    Iterator,
    Mapping,
    NamedTuple,
    Optional,
    Sequence,
    Tuple,
    TypeVar,
    Union,
)

from .. import system
from ..errors import NoKeyFrame, NoSecond, NotIvf
from ..base.checks import AnyBytes, AnyPath
from ..base.files import Mapped
from ..calls import recordings
from ..media import facts, ivf, salvage, times
from ..session import convert, runs
from .differences import Lasting, edits_between

# What is read of a list: an outline, or a finding, which is an object of JSON.
Listed = TypeVar("Listed")
Finding = Dict[str, Any]
Size = Tuple[int, int]
# The step between two time stamps; of rounded ones the mean.
Step = Union[int, fractions.Fraction]
# A packet is sorted back over at most so many others: if it is further away, the time stamps begin again, as in clips
# that were joined.
MOST_MOVE = 64
# A step that is rounded is not smaller.
LEAST_ROUNDED = 8
# At most so many packets are put into one hole.
MOST_HOLE = 10000
# This part of the steps between shown packets is the same in a stream of a constant rate.
CONSTANT = 0.8
# Guesses at packets with a wrong size that are tried one after the other.
MOST_GUESSES = 30
# A long stream is listed and checked in parts of so many bytes and packets, each with some packets of the next one, so
# many at a time.
PART, LEAST_PART, OVERLAP, AT_A_TIME = 16 << 20, 100, 8, 4
# Steps between shown packets that are constant, and those in a row that may be others, for vp8list to call what is
# around one damage.
MANY_STEPS, ODD_STEPS = 16, 3
# Packets before one among which two shown ones are looked for.
NEAR = 16
# What a kind of finding means.
DAMAGE = {"past_end": "read past its end", "unread": "not read to its end"}
# What a kind of finding says of the packets around one.
AROUND = {"breaks_step": "time stamp {stamp} follows {before}", "comes_twice": "the next packet is the same again"}


class Packet(NamedTuple):
    """A packet, and what is known of it: whether it comes right before bytes that are lost, whether one or more were
    lost before it, and whether its end is missing."""

    stamp: int
    data: AnyBytes
    before_gap: bool = False
    after_gap: bool = False
    is_cut: bool = False


class Outline(NamedTuple):
    """What vp8list says of a packet."""

    is_key: bool
    is_shown: bool
    cause: Optional[str]


class Repair:
    """The packets of a stream while they are mended, and a line for each step."""

    def __init__(self, program: Optional[str], lister: Optional[str], tables: Optional[str] = None) -> None:
        self.program, self.lister, self.tables = program, lister, tables
        self.head = ivf.EMPTY
        self.packets: list[Packet] = []
        self.lines: list[str] = []
        # How many packets the header counts, how many changes were made, and how much is left that was not mended.
        self.counted = self.changes = self.left = 0
        self.forged: dict[tuple[str, int, int], bytes] = {}
        # The packets as they are in a file, and its path.
        self.in_file: tuple[Optional[list[Packet]], Optional[AnyPath]] = (None, None)
        # Packets, and what vp8list says of them; and of parts of a long stream, by the first packet and what was asked.
        self.outlined: tuple[Optional[list[Packet]], list[Outline]] = (None, [])
        self.checked: tuple[Optional[list[Packet]], list[Finding]] = (None, [])
        self.of_parts: dict[tuple[int, tuple[str, ...]], tuple[list[Packet], list[Any]]] = {}
        # Called with what is done next.
        self.stage: Callable[[str], None] = lambda text: None

    def asked_lister(self) -> str:
        """The path of vp8list. Where there is none, packets are only read."""
        assert self.lister is not None
        return self.lister

    def say(self, text: str, changed: bool = True) -> None:
        self.lines.append(text)
        self.changes += changed

    def outlines(self) -> list[Outline]:
        """The outlines of the packets, each by itself. They are listed once, as long as the packets stay."""
        if self.outlined[0] is not self.packets:
            self.outlined = (self.packets, self.list_outlines())
        return self.outlined[1]

    def list_outlines(self) -> list[Outline]:
        if not self.packets:
            return []
        found = self.listed()
        # What is refused because of others is listed again, each after a key packet.
        again = [place for place, outline in enumerate(found) if outline.cause in facts.OF_OTHERS]
        if again:
            key = self.forge("blank", 1, 1)
            packets = ((0, data) for place in again for data in (key, self.packets[place].data))
            listed = self.list_of(facts.run_on(self.asked_lister(), packets))[1::2]
            for place, outline in zip(again, listed):
                found[place] = outline
        return found

    def listed(self) -> list[Outline]:
        what = f"listing {len(self.packets):,} packets"
        self.stage(what)
        parts = self.parts()
        if len(parts) == 1:
            return self.list_of(self.lister_run())
        return [outline for found in self.by_parts(parts, 0, what, self.list_of) for outline in found]

    def parts(self) -> list[tuple[int, int]]:
        """Ranges of packets that begin at key packets, each to be listed or checked by itself. Those that were there
        before begin where they did.
        """
        begins = {id(packets[0].data) for packets, _ in self.of_parts.values()}
        start, size = 0, 0
        found: list[tuple[int, int]] = []
        for place, packet in enumerate(self.packets[: -LEAST_PART or None]):
            if (
                place - start >= LEAST_PART
                and (id(packet.data) in begins or (size >= PART and not begins))
                and ivf.is_key(packet.data)
            ):
                found.append((start, place))
                start, size = place, 0
            size += len(packet.data)
        return [*found, (start, len(self.packets))]

    def by_parts(
        self,
        parts: Sequence[tuple[int, int]],
        overlap: int,
        what: str,
        read: Callable[[Iterator[bytes]], list[Listed]],
        *options: str,
        statuses: Sequence[int] = (0,),
    ) -> Iterator[list[Listed]]:
        """What `read` makes of what vp8list prints of each part, with so many packets of the next one, in order. A part
        whose packets are those that they were is not read again."""

        def run(part: tuple[int, int]) -> list[Listed]:
            packets = self.packets[part[0] : part[1] + overlap]
            key = (id(packets[0].data), options)
            known = self.of_parts.get(key)
            if known is not None and are_same(known[0], packets):
                return known[1]
            found = read(
                facts.run_on(
                    self.asked_lister(),
                    ((packet.stamp, packet.data) for packet in packets),
                    *options,
                    statuses=statuses,
                )
            )
            self.of_parts[key] = (packets, found)
            return found

        pool = concurrent.futures.ThreadPoolExecutor(min(AT_A_TIME, system.processors()))
        try:
            for done, found in enumerate(pool.map(run, parts), 1):
                self.stage(f"{what}, {done} of {len(parts)} parts")
                yield found
        finally:
            pool.shutdown(cancel_futures=True)

    def list_of(self, lines: Iterator[bytes]) -> list[Outline]:
        return [
            Outline(bool(flags & facts.KEY), bool(flags & facts.SHOWN), cause)
            for flags, _, cause in facts.outlines(lines)
        ]

    def lister_run(self, *options: str, statuses: Sequence[int] = (0,)) -> Iterator[bytes]:
        """What vp8list prints of the packets: of the file, as long as they are those that are in it."""
        packets, path = self.in_file
        if path is not None and packets is self.packets:
            return facts.run(self.asked_lister(), path, *options, statuses=statuses)
        return facts.run_on(
            self.asked_lister(), ((packet.stamp, packet.data) for packet in self.packets), *options, statuses=statuses
        )

    def damaged(self) -> dict[int, str]:
        """The packets whose decoding ends too early or reads past an end, and for each of them what vp8list says."""
        if not self.packets:
            return {}
        found: dict[int, str] = {}
        for finding in self.findings():
            if finding["packet"] is not None and finding["kind"] in DAMAGE:
                found.setdefault(finding["packet"], DAMAGE[finding["kind"]])
        return found

    def findings(self) -> list[Finding]:
        """The damage of packets, as vp8list --check has it. They are checked once, as long as they stay."""
        if self.checked[0] is not self.packets:
            what = f"checking {len(self.packets):,} packets"
            self.stage(what)
            parts = self.parts()
            if len(parts) > 1:
                self.checked = (self.packets, self.findings_of_parts(parts, what))
            else:
                self.checked = (self.packets, damage_in(self.lister_run(*self.check_words(), statuses=(0, 1))))
        return self.checked[1]

    def findings_of_parts(self, parts: Sequence[tuple[int, int]], what: str) -> list[Finding]:
        """The same of a long stream. A key packet begins anew, so a part has the damage that the whole has there; but
        what vp8list says of the packets around one is damage only if the steps of the whole are constant, and may be
        said by the part before, which has some packets more.
        """
        is_constant = constant_step(self.packets) is not None
        found: dict[tuple[int, object], Finding] = {}
        for (start, end), damage in zip(
            parts, self.by_parts(parts, OVERLAP, what, damage_in, *self.check_words(), statuses=(0, 1))
        ):
            for number, finding in enumerate(damage):
                place, is_around = start + finding["packet"], finding["kind"] in AROUND
                if is_constant if is_around else place < end:
                    found[place, finding["kind"] if is_around else number] = {**finding, "packet": place}
        return [finding for _, finding in sorted(found.items(), key=lambda item: item[0][0])]

    def check_words(self) -> list[str]:
        return ["--check", "--json"] + (["--tables", self.tables] if self.tables else [])

    def findings_of(self, packets: Iterable[tuple[int, AnyBytes]]) -> Iterator[bytes]:
        return facts.run_on(self.asked_lister(), packets, *self.check_words(), statuses=(0, 1))

    def forge(self, word: str, width: int, height: int) -> bytes:
        """The bytes of a grey key frame, or of a packet that shows the last picture again and is shown by libvpx
        too.
        """
        key = (word, width, height)
        if key not in self.forged:
            lines = [f"blank 0 {width} {height}"] + ["hold 1"] * (word == "hold")
            assert self.program is not None
            data = runs.last_packet(self.program, lines, self.tables)
            self.forged[key] = data + b"\0" * (word == "hold")
        return self.forged[key]

    # Reading

    def read(self, data: Mapped, scan: bool = True, path: Optional[AnyPath] = None) -> None:
        """Takes the packets of a file. Its path is only for vp8list, which then reads it itself."""
        found = salvage.plain(data)
        if found is not None:
            head, packets, end = found
            self.head = head
            if not scan or (end == len(data) and not has_zero_tail(packets)):
                self.packets = [Packet(packet.stamp, packet.data) for packet in packets]
                self.counted = int.from_bytes(data[24:28], "little")
                if end < len(data):
                    self.say(f"byte {end}: the last {len(data) - end} bytes are no whole record: dropped")
                elif path is not None:
                    self.in_file = (self.packets, path)
                return
        elif not scan:
            raise NotIvf("it is not an IVF file of VP8, and its packets are not searched with --no-scan")
        top, packets, gaps, guesses = salvage.find_all(data)
        if not packets and not any(guesses):
            raise NotIvf("no packet of VP8 was found in it")
        packets, gaps = self.take_guesses(packets, gaps, guesses)
        self.take(top, packets, gaps, len(data), "record")

    def take(
        self,
        head: Optional[ivf.Head],
        packets: Sequence[salvage.Found],
        gaps: Sequence[salvage.Gap],
        length: int,
        what: str,
    ) -> None:
        """Takes packets that were searched in a file of this length, in which `what` leads from one to the next."""
        if head is not None:
            self.head = head
        ends = {gap.after for gap in gaps}
        self.packets = [
            Packet(packet.stamp, packet.data, place + 1 in ends, place in ends) for place, packet in enumerate(packets)
        ]
        if head is None:
            self.say("the header is lost: the size is the first key packet's, the rate 30 frames a second")
            self.head = ivf.Head(*(self.first_size() or (0, 0)), 30, 1)
        for gap in gaps:
            where = f"after packet {gap.after - 1}" if gap.after else "before the first packet"
            if gap.start == length:
                self.say(f"byte {length}: the file ends before its end: what followed is lost")
            elif gap.end == length:
                self.say(f"byte {gap.start}: the last {gap.end - gap.start} bytes lead to no {what}: dropped")
            else:
                self.say(
                    f"byte {gap.start}: {gap.end - gap.start} bytes {where} lead to no {what}: read on at byte"
                    f" {gap.end}"
                )

    def take_guesses(
        self, packets: list[salvage.Found], gaps: list[salvage.Gap], guesses: Iterable[list[salvage.Guess]]
    ) -> tuple[list[salvage.Found], list[salvage.Gap]]:
        """Takes packets whose records have a wrong size: those that decode to their end with all the bytes up to the
        next record. `guesses` has those of each gap."""
        some = [group for group in guesses if group]
        if self.lister is None or not some:
            return packets, gaps
        self.stage(f"trying {len(some):,} records with a wrong size")
        taken = [group[0] for group in some]
        if self.wrong_ones(packets, gaps, taken):
            # A wrong guess also makes those after it look wrong.
            taken = []
            for group in some[:MOST_GUESSES]:
                right = (guess for guess in group if not self.wrong_ones(packets, gaps, [*taken, guess]))
                first = next(right, None)
                taken += [] if first is None else [first]
        found, left, places = with_guesses(packets, gaps, taken)
        for guess, place in zip(taken, places):
            size = len(guess.packet.data)
            self.say(
                f"packet {place}: the size in its record at byte {guess.packet.place} is wrong: it has the {size} bytes"
                " up to the next record"
            )
        return found, left

    def wrong_ones(
        self, packets: list[salvage.Found], gaps: list[salvage.Gap], guesses: list[salvage.Guess]
    ) -> list[salvage.Guess]:
        """The guesses that do not decode to their end if these are taken, or whose time stamps break the steps. Only
        their groups of pictures are checked.
        """
        found, _, places = with_guesses(packets, gaps, guesses)
        numbers = [place for group in groups_around(found, places) for place in group]
        given = ((found[place].stamp, found[place].data) for place in numbers)
        damaged = {
            numbers[finding["packet"]]
            for finding in damage_in(self.findings_of(given))
            if finding["kind"] not in AROUND
        }
        return [guess for guess, place in zip(guesses, places) if place in damaged or breaks_step(found, place)]

    def first_size(self) -> Optional[Size]:
        return next(filter(None, (ivf.key_size(packet.data) for packet in self.packets)), None)

    # Order

    def drop_doubles(self) -> None:
        """Packets that are there twice, with their time stamp, go."""
        seen: dict[tuple[int, AnyBytes], int] = {}
        kept: list[Packet] = []
        size: Optional[Size] = None
        for place, packet in enumerate(self.packets):
            size = ivf.key_size(packet.data) or size
            first = seen.setdefault((packet.stamp, packet.data), place)
            if first != place and not self.is_repeat(packet.data, size):
                self.say(f"packet {place}: packet {first} again: removed")
            else:
                kept.append(packet)
        if len(kept) < len(self.packets):
            self.packets = kept

    def is_repeat(self, data: AnyBytes, size: Optional[Size]) -> bool:
        """Whether a packet only shows the last picture again: several of these may have the same time stamp and
        bytes.
        """
        return not data or (size is not None and data in (self.forge("hold", *size), self.forge("hold", *size)[:-1]))

    def sort(self) -> None:
        """Packets that come too late or too early are sorted by their time stamps, if these are theirs alone and not
        far from their place.
        """
        stamps = [packet.stamp for packet in self.packets]
        if all(before <= after for before, after in zip(stamps, stamps[1:])):
            return
        # A hidden packet mostly has the time stamp of the shown one after it.
        keys = [(packet.stamp, ivf.is_shown(packet.data)) for packet in self.packets]
        if not hidden_first(keys):
            keys = [(stamp, False) for stamp in stamps]
        counts = collections.Counter(keys)
        order = sorted(range(len(keys)), key=keys.__getitem__)
        for place in sorted(out_of_order(order)):
            if counts[keys[place]] > 1:
                self.say(f"packet {place}: time stamp {stamps[place]} is another packet's too: it stays", False)
                keys[place] = keys[place - 1] if place else min(keys)
        order = sorted(range(len(keys)), key=keys.__getitem__)
        if max((abs(place - to) for to, place in enumerate(order)), default=0) > MOST_MOVE:
            self.say("the time stamps go back far: the packets stay in their order", False)
            return
        out = out_of_order(order)
        for to, place in enumerate(order):
            if place in out:
                self.say(f"packet {place}: time stamp {stamps[place]}: moved to {to}")
        self.packets = [self.packets[place] for place in order]

    # A second recording

    def merge(self, other: Sequence[Packet]) -> None:
        """Takes packets of a second recording with the same time stamps: for those that are missing, refused, or
        damaged.
        """
        shift = shift_between(self.packets, other)
        if shift is None:
            raise NoSecond("no packet of the second recording is one of the first")
        theirs = {
            stamp + shift: [packet.data for packet in group]
            for stamp, group in groups_of(other).items()
            if not any(packet.before_gap or packet.after_gap or self.is_broken(packet.data) for packet in group)
        }
        if shift:
            self.say(f"the time stamps of the second recording differ by {shift}", False)
        self.insert_missing(theirs)
        # A damaged packet also makes those after it look damaged; once it is replaced, they are not.
        while self.replace_some(theirs):
            pass

    def insert_missing(self, theirs: Mapping[int, Sequence[AnyBytes]]) -> None:
        """Inserts the packets of each time stamp that has more packets there."""
        stamps = [packet.stamp for packet in self.packets]
        if any(after < before for before, after in zip(stamps, stamps[1:])):
            self.say("the time stamps go back: no packets of the second recording are inserted", False)
            return
        ours = groups_of(self.packets)
        missing = {
            stamp: len(group) - len(ours.get(stamp, ()))
            for stamp, group in theirs.items()
            if len(group) > len(ours.get(stamp, ()))
        }
        if not missing:
            return
        order = sorted(set(ours) | set(missing))
        for run in stretches(sorted(missing), order):
            count = sum(missing[stamp] for stamp in run)
            names = f"time stamp {run[0]}" if len(run) == 1 else f"time stamps {run[0]} to {run[-1]}"
            self.say(f"{names}: {count} {'packet' if count == 1 else 'packets'} of the second recording inserted")
        self.packets = []
        before: Optional[int] = None
        for stamp in order:
            if stamp in missing:
                self.packets += [Packet(stamp, data) for data in theirs[stamp]]
            else:
                # What was lost before these is there now, if the packets before them came with it.
                self.packets += [
                    packet._replace(after_gap=packet.after_gap and before not in missing) for packet in ours[stamp]
                ]
            before = stamp

    def replace_some(self, theirs: Mapping[int, Sequence[AnyBytes]]) -> bool:
        """Replaces packets that are refused or damaged. Whether there was one."""
        outlines, past, found = self.outlines(), self.damaged(), False
        packets = list(self.packets)
        ranks: collections.Counter[int] = collections.Counter()
        for place, packet in enumerate(self.packets):
            group, rank = theirs.get(packet.stamp, ()), ranks[packet.stamp]
            ranks[packet.stamp] += 1
            data = group[rank] if rank < len(group) else packet.data
            if data == packet.data:
                continue
            cause = outlines[place].cause
            has_zeros = bytes(salvage.ZEROS) in bytes(packet.data) and bytes(salvage.ZEROS) not in bytes(data)
            if cause or place in past or packet.before_gap or has_zeros:
                why = (
                    f"refused {cause}"
                    if cause
                    else past[place]
                    if place in past
                    else "zeros in it"
                    if has_zeros
                    else "damaged at its end"
                )
                self.say(
                    f"packet {place}: {why}: the packet of the second recording with its time stamp, {packet.stamp}"
                )
                packets[place] = Packet(packet.stamp, data)
                found = True
        if found:
            self.packets = packets
        return found

    def is_broken(self, data: AnyBytes) -> bool:
        return bool(data) and not salvage.begins_packet(data, 0, len(data))

    # What is left

    def drop_beginning(self) -> None:
        """Packets before the first key frame cannot be decoded."""
        outlines = self.outlines()
        count = next((place for place, found in enumerate(outlines) if found.is_key and not found.cause), len(outlines))
        if count == len(outlines):
            return
        if count:
            names = "packet 0" if count == 1 else f"packets 0 to {count - 1}"
            self.say(f"{names}: no key frame before: removed")
            self.packets = self.packets[count:]

    def step(self, outlines: Iterable[Outline]) -> Optional[Step]:
        """The step between the time stamps of shown packets, if it is constant, else None. Time stamps of milliseconds
        are rounded: then it is the mean of those that are one apart, as 33 and 34."""
        stamps = [packet.stamp for packet, found in zip(self.packets, outlines) if found.is_shown]
        steps = collections.Counter(after - before for before, after in zip(stamps, stamps[1:]))
        if not steps:
            return None
        step, count = steps.most_common(1)[0]
        if step > 0 and count >= CONSTANT * sum(steps.values()):
            return step
        near = {one: steps[one] for one in (step - 1, step, step + 1)}
        is_constant = step >= LEAST_ROUNDED and sum(near.values()) >= CONSTANT * sum(steps.values())
        return (
            fractions.Fraction(sum(one * times for one, times in near.items()), sum(near.values()))
            if is_constant
            else None
        )

    def hold(self) -> None:
        """Holds the last picture for packets that are refused or lost, up to the next key frame."""
        outlines = self.outlines()
        # A packet without its end says nothing of those before it.
        past = {place: text for place, text in self.damaged().items() if not self.packets[place].is_cut}
        step = self.step(outlines)
        place, changes = 0, self.changes
        kept: list[Packet] = []
        size: Optional[Size] = None
        while place < len(self.packets):
            end = place + 1
            while end < len(self.packets) and not outlines[end].is_key:
                end += 1
            if outlines[place].is_key and not outlines[place].cause:
                size = ivf.key_size(self.packets[place].data)
            begin, why = self.first_lost(place, end, outlines, past, step)
            hidden = 0
            for number in range(place, end):
                self.fill(kept, number, step, size, past, outlines, end)
                packet = self.packets[number]
                if number < begin:
                    kept.append(packet)
                elif outlines[number].is_shown:
                    assert size is not None
                    kept.append(Packet(packet.stamp, self.forge("hold", *size)))
                else:
                    hidden += 1
            if begin < end:
                names = f"packet {begin}" if end == begin + 1 else f"packets {begin} to {end - 1}"
                more = f", {hidden} hidden ones are removed" if hidden else ""
                self.say(f"{names}: {why}: the picture before is held{more}")
            place = end
        if self.changes > changes:
            self.packets = kept

    def first_lost(
        self, place: int, end: int, outlines: Sequence[Outline], past: Container[int], step: Optional[Step]
    ) -> tuple[int, Optional[str]]:
        """The first packet of a stretch, from a key packet to the next, that cannot be decoded as it was coded, and
        why.
        """
        for number in range(place, end):
            if outlines[number].cause:
                return number, f"refused {outlines[number].cause}" + (
                    f", {end - number - 1} packets lost" if end > number + 1 else ""
                )
            # After a loss, decoding that ends too early or too late says that the packets do not fit what was decoded
            # before.
            if (
                self.is_after_loss(number, step)
                and not outlines[number].is_key
                and any(other in past for other in range(number, end))
            ):
                return number, "packets before it are lost, and it does not decode without them"
        return end, None

    def is_after_loss(self, number: int, step: Optional[Step]) -> bool:
        packet = self.packets[number]
        if packet.after_gap:
            return True
        if not step or number == 0:
            return False
        return steps_between(self.packets[number - 1].stamp, packet.stamp, step) >= 2

    def fill(
        self,
        kept: list[Packet],
        number: int,
        step: Optional[Step],
        size: Optional[Size],
        past: Container[int],
        outlines: Sequence[Outline],
        end: int,
    ) -> None:
        """Puts packets that hold the picture where packets are missing by the time stamps, and there is a sign that
        they were lost.
        """
        packet = self.packets[number]
        if not kept or not step or size is None:
            return
        before = self.packets[number - 1].stamp
        count = steps_between(before, packet.stamp, step) - 1
        fewer = self.counted > len(self.packets)
        sign = packet.after_gap or fewer or outlines[number].cause or any(other in past for other in range(number, end))
        if 1 <= count <= MOST_HOLE and sign:
            stamps = [before + round(step * turn) for turn in range(1, count + 1)]
            kept += [Packet(stamp, self.forge("hold", *self.last_size(kept) or size)) for stamp in stamps]
            names = f"time stamp {stamps[0]}" if count == 1 else f"time stamps {stamps[0]} to {stamps[-1]}"
            self.say(f"{names}: {count} {'packet' if count == 1 else 'packets'} lost: the picture before is held")

    def last_size(self, packets: Sequence[Packet]) -> Optional[Size]:
        """The size of the last key packet."""
        return next(filter(None, (ivf.key_size(packet.data) for packet in reversed(packets))), None)

    def check(self) -> None:
        """What is still wrong, as vp8list --check says of the packets that are written. Notes do not count."""
        refused: dict[int, str] = {}
        inside: set[int] = set()
        around: dict[int, str] = {}
        for finding in self.findings():
            if finding["severity"] != "damage" or finding["packet"] is None:
                continue
            if finding["kind"] == "refused":
                refused[finding["packet"]] = finding["cause"]
            elif finding["kind"] in AROUND:
                around[finding["packet"]] = AROUND[finding["kind"]].format(**finding)
            else:
                inside.add(finding["packet"])
        for place, cause in sorted(refused.items()):
            self.say(f"packet {place}: refused {cause}: not repaired", False)
        past = sorted(inside - set(refused))
        if past:
            names = f"packet {past[0]}" if len(past) == 1 else f"packet {past[0]} and {len(past) - 1} more"
            self.say(
                f"{names}: damaged inside, so the pictures up to the next key frame are not right: not repaired", False
            )
        for place, text in sorted(around.items()):
            self.say(f"packet {place}: {text}: not repaired", False)
        self.left = len(refused) + len(past) + len(around)

    def need_key(self, second: Optional[Mapped]) -> None:
        """`NoKeyFrame` if nothing can be decoded: there is nothing to repair from."""
        if any(found.is_key and not found.cause for found in self.outlines()):
            return
        more = (
            "; a second recording of the same packets (--second) may have one"
            if second is None
            else ", and none is in the second recording either"
        )
        raise NoKeyFrame(
            f"no key frame survives, so no frame can be decoded and there is nothing to repair from{more}. Nothing was"
            " written"
        )


def groups_around(packets: Sequence[salvage.Found], places: Iterable[int]) -> list[range]:
    """The groups of pictures of packets at these places, which ascend: ranges from a key packet to the next one."""
    found: list[range] = []
    for place in places:
        if found and place < found[-1].stop:
            continue
        start, end = place, place + 1
        while start and not ivf.is_key(packets[start].data):
            start -= 1
        while end < len(packets) and not ivf.is_key(packets[end].data):
            end += 1
        found.append(range(start, end))
    return found


def breaks_step(packets: Sequence[salvage.Found], place: int) -> bool:
    """Whether vp8list calls the step to an inter packet damage: it is none of the steps of the stream, which are
    constant.
    """
    packet, before = (
        packets[place],
        [one.stamp for one in packets[max(0, place - NEAR) : place] if ivf.is_shown(one.data)][-2:],
    )
    if (
        ivf.is_key(packet.data)
        or not ivf.is_shown(packet.data)
        or len(before) < 2
        or packet.stamp in (before[1], 2 * before[1] - before[0])
    ):
        # Most steps are that of the packet before.
        return False
    step = constant_step(packets)
    return step is not None and packet.stamp - before[1] != step


def damage_in(lines: Iterable[bytes]) -> list[Finding]:
    """The damage of packets among the findings that vp8list prints."""
    return [
        finding
        for finding in map(json.loads, lines)
        if finding["severity"] == "damage" and finding["packet"] is not None
    ]


def are_same(packets: Sequence[Packet], others: Sequence[Packet]) -> bool:
    """Whether two lists have the same packets of the file, with the same time stamps."""
    return len(packets) == len(others) and all(
        one.data is other.data and one.stamp == other.stamp for one, other in zip(packets, others)
    )


def constant_step(packets: Iterable[Union[Packet, salvage.Found]]) -> Optional[int]:
    """The step between the time stamps of shown packets if there are many, and all are the same but for a few in a row;
    else None.
    """
    stamps = [packet.stamp for packet in packets if ivf.is_shown(packet.data)]
    steps = [after - before for before, after in zip(stamps, stamps[1:])]
    forward = [step for step in steps if step > 0]
    if len(steps) < MANY_STEPS or not forward:
        return None
    step = statistics.median_low(forward)
    odd = [place for place, one in enumerate(steps) if one != step]
    return step if not odd or odd[-1] - odd[0] < ODD_STEPS else None


def steps_between(before: int, after: int, step: Step) -> int:
    """How many steps are between two time stamps, which are rounded if the step is no whole number."""
    return (after - before) // step if isinstance(step, int) else round((after - before) / step)


def with_guesses(
    packets: Sequence[salvage.Found], gaps: Sequence[salvage.Gap], guesses: Iterable[salvage.Guess]
) -> tuple[list[salvage.Found], list[salvage.Gap], list[int]]:
    """The packets and gaps with these guesses among them, and the index of each guess."""
    # The packets before each gap, with the guess in the place of the last one, or after it.
    start = 0
    found: list[salvage.Found] = []
    places: list[int] = []
    for guess in guesses:
        gap = gaps[guess.gap]
        found += packets[start : gap.after - guess.is_cut]
        places.append(len(found))
        found.append(guess.packet)
        start = gap.after
    found += packets[start:]
    taken = {guess.gap: guess for guess in guesses}
    more = 0
    left: list[salvage.Gap] = []
    for number, gap in enumerate(gaps):
        if number in taken:
            more += not taken[number].is_cut
        else:
            left.append(gap._replace(after=gap.after + more))
    return found, left, places


def has_zero_tail(packets: Sequence[salvage.Found]) -> bool:
    """Whether the last records are zeros, after others that are not."""
    last = [packet for packet in packets[-2:] if not packet.data and packet.stamp == 0]
    return len(last) == 2 and any(packet.stamp for packet in packets)


def hidden_first(keys: Sequence[tuple[int, bool]]) -> bool:
    """Whether of two packets with one time stamp, a hidden one mostly comes before a shown one."""
    pairs = collections.Counter((before[1], after[1]) for before, after in zip(keys, keys[1:]) if before[0] == after[0])
    return pairs[False, True] >= pairs[True, False]


def out_of_order(order: Sequence[int]) -> set[int]:
    """The items of an order that do not ascend with the others: all but a longest ascending list of them."""
    tails: list[int] = []
    places: list[int] = []
    before: list[Optional[int]] = [None] * len(order)
    for index, item in enumerate(order):
        at = bisect.bisect_left(tails, item)
        before[index] = places[at - 1] if at else None
        if at == len(tails):
            tails.append(item)
            places.append(index)
        else:
            tails[at], places[at] = item, index
    kept: set[int] = set()
    last = places[-1] if places else None
    while last is not None:
        kept.add(order[last])
        last = before[last]
    return set(order) - kept


def groups_of(packets: Iterable[Packet]) -> dict[int, list[Packet]]:
    """The packets of each time stamp: a hidden packet mostly has that of the next one. Stamps that come back later are
    left out.
    """
    found: dict[int, list[Packet]] = {}
    again: set[int] = set()
    last: Optional[int] = None
    for packet in packets:
        if packet.stamp != last and packet.stamp in found:
            again.add(packet.stamp)
        found.setdefault(packet.stamp, []).append(packet)
        last = packet.stamp
    return {stamp: group for stamp, group in found.items() if stamp not in again}


def stretches(missing: Iterable[int], known: Iterable[int]) -> Iterator[list[int]]:
    """Runs of missing time stamps with no other stamp between them."""
    place = {stamp: index for index, stamp in enumerate(known)}
    run: list[int] = []
    for stamp in missing:
        if run and place[stamp] != place[run[-1]] + 1:
            yield run
            run = []
        run.append(stamp)
    if run:
        yield run


def shift_between(packets: Iterable[Packet], other: Iterable[Packet]) -> Optional[int]:
    """What to add to the time stamps of another recording of the same packets; None if they have no packet in
    common.
    """
    stamps = {packet.data: packet.stamp for packet in packets if len(packet.data) > 16}
    shifts = collections.Counter(stamps[packet.data] - packet.stamp for packet in other if packet.data in stamps)
    return shifts.most_common(1)[0][0] if shifts else None


def packets_of(data: Mapped, scan: bool = True) -> list[Packet]:
    """The packets of a second recording."""
    reader = Repair(None, None)
    try:
        reader.read(data, scan)
    except NotIvf as error:
        raise NoSecond(str(error)) from None
    return reader.packets


def repair(
    data: Mapped,
    program: str,
    lister: str,
    second: Optional[Mapped] = None,
    tables: Optional[str] = None,
    steps: Container[str] = frozenset(("scan", "double", "sort", "hold")),
    stage: Optional[Callable[[str], None]] = None,
    path: Optional[AnyPath] = None,
    searched: Union[convert.Searched, recordings.Searched, None] = None,
) -> Repair:
    """Mends a stream, and returns a `Repair`. `stage` is called with what is done next, and `path` is a file with the
    data, if there is one. `searched` is what was found of a damaged container: the head, the packets, the gaps, and the
    length of the file; or the frames of a capture.
    """
    found = Repair(program, lister, tables)
    found.stage = stage or found.stage
    found.stage("searching the packets")
    if searched is None:
        found.read(data, "scan" in steps, path)
    elif isinstance(searched, tuple):
        found.take(*searched, "block")
    else:
        searched.give(found, Packet)
    if "double" in steps:
        found.drop_doubles()
    if "sort" in steps:
        found.sort()
    if second is not None:
        found.merge(packets_of(second, "scan" in steps))
    if not found.packets:
        raise NotIvf("no packet is left")
    if "hold" in steps:
        found.need_key(second)
        found.drop_beginning()
        found.hold()
    if not found.packets:
        raise NotIvf("no packet is left")
    found.check()
    return found


def edits_of(
    data: Mapped, found: Repair, second: Optional[Mapped] = None, lasting: Optional[Lasting] = None
) -> Optional[list[str]]:
    """The edits that make the mended stream of the file, or None if vp8serve does not read the file. Packets of a
    second recording that is source 1 are copied from it. `lasting` says how long packets are shown, if edits of the
    file were made before."""
    before = salvage.plain(data)
    if before is None:
        return None
    other = salvage.plain(second) if second is not None else None
    one, two = ([(packet.stamp, packet.data) for packet in (read[1] if read else ())] for read in (before, other))
    theirs = {packet: index for index, packet in enumerate(two)}
    lasting = lasting or Lasting(durations_of(one), durations_of(two), times.median_step(*columns(one)))
    return edits_between(one, [(packet.stamp, packet.data) for packet in found.packets], theirs, lasting)


def columns(packets: Sequence[tuple[int, AnyBytes]]) -> tuple[list[int], list[int]]:
    """The time stamps and the tags of packets."""
    return [stamp for stamp, _ in packets], [ivf.tag_of(len(data), data[0] if data else 0) for _, data in packets]


def durations_of(packets: Sequence[tuple[int, AnyBytes]]) -> array[int]:
    """The durations of the packets of a file."""
    stamps, tags = columns(packets)
    return times.durations(stamps, tags, times.median_step(stamps, tags))
