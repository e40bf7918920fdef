"""How loud sound is that fades with the picture: the weights of the frames of a script, and samples at these levels."""

from __future__ import annotations

import bisect
import itertools
from array import array
from typing import TYPE_CHECKING, Callable, Iterable, NamedTuple, Optional, Protocol, Sequence, Tuple

if TYPE_CHECKING:
    from .sounds import Span

NANO = 10**9
Levels = Tuple[float, float]
# The level of what does not fade, at its beginning and at its end.
LEVEL: Levels = (1.0, 1.0)


class Ramp(NamedTuple):
    """Some time of the output, in nanoseconds, and the levels at its beginning and at its end, 0 to 1."""

    start: int
    end: int
    levels: Levels


# Frames of a script


class Node(NamedTuple):
    """A node of a script: its word, its numbers, and of `parts` where each of them begins."""

    word: str
    numbers: tuple[int, ...]
    begins: Sequence[int] = ()


class Run(Protocol):
    """What is used of an `origins.Run`."""

    @property
    def count(self) -> int:
        ...

    @property
    def source(self) -> int:
        ...

    @property
    def first(self) -> int:
        ...

    @property
    def changed(self) -> tuple[int, ...]:
        ...


class Weights:
    """How much of its picture each frame of a script shows, 0 (black) to 1: the product of its fades. `lengths` are the
    numbers of frames of the sources.
    """

    def __init__(self, script: str, lengths: Sequence[int]) -> None:
        self.nodes, self.lengths = [Node("source", (0,))], [lengths[0]]
        for text in [] if script == "-" else script.split(";"):
            word, *rest = text.split()
            numbers = tuple(map(int, rest))
            self.lengths.append(self.length_of(word, numbers, lengths))
            begins = list(itertools.accumulate(self.counts(numbers), initial=0)) if word == "parts" else ()
            self.nodes.append(Node(word, numbers, begins))

    def count(self, node: int, first: int, count: int) -> int:
        """How many frames a trim has."""
        return max(0, min(count, self.lengths[node] - first))

    def counts(self, numbers: Sequence[int]) -> list[int]:
        """How many frames each part has."""
        return [self.count(*numbers[place : place + 3]) for place in range(0, len(numbers), 3)]

    def length_of(self, word: str, numbers: Sequence[int], lengths: Sequence[int]) -> int:
        if word == "source":
            return lengths[numbers[0]]
        if word == "trim":
            return self.count(*numbers)
        if word == "splice":
            return sum(self.lengths[node] for node in numbers)
        if word == "parts":
            return sum(self.counts(numbers))
        return self.lengths[numbers[0]]

    def __call__(self, frame: int) -> float:
        number, weight = len(self.nodes) - 1, 1.0
        while True:
            node = self.nodes[number]
            if node.word == "source":
                return weight
            if node.word == "fade":
                weight *= faded(node.numbers, frame)
            number, frame = step(node, frame, self.lengths)


def faded(numbers: Sequence[int], frame: int) -> float:
    """The weight of a frame of a fade."""
    _, first, count, start, end = numbers
    return (start + (end - start) * min(max(0, frame - first), count) / count) / 256


def step(node: Node, frame: int, lengths: Sequence[int]) -> tuple[int, int]:
    """The node that a node's frame comes from, and its frame."""
    word, numbers, begins = node
    if word == "trim":
        return numbers[0], numbers[1] + frame
    if word == "splice":
        first = lengths[numbers[0]]
        return (numbers[0], frame) if frame < first else (numbers[1], frame - first)
    if word == "parts":
        part = bisect.bisect_right(begins, frame) - 1
        return numbers[3 * part], numbers[3 * part + 1] + frame - begins[part]
    return numbers[0], frame


def levels_of(runs: Sequence[Run], weights: Callable[[int], float]) -> list[Levels]:
    """The level at the beginning and at the end of each frame of runs, as `origins.runs_of` has them. A frame goes on
    to the weight of the next one, if that is the next frame of its source too; else it stays at its own."""
    first = 0
    found: list[float] = []
    for run in runs:
        found += [weights(number) for number in range(first, first + run.count)] if run.changed else [1.0] * run.count
        first += run.count
    ends = [*found[1:], 1.0]
    first = 0
    following: list[Optional[Run]] = [*runs[1:], None]
    for run, after in zip(runs, following):
        first += run.count
        if after is None or (after.source, after.first) != (run.source, run.first + run.count):
            ends[first - 1] = found[first - 1]
    return list(zip(found, ends))


# Sound


def ramps_of(spans: Iterable[Span]) -> list[Ramp]:
    """The ramps of spans, one after the other; what does not fade is in none."""
    clock = 0
    found: list[Ramp] = []
    for span in spans:
        if span.levels != LEVEL and span.length:
            found.append(Ramp(clock, clock + span.length, span.levels))
        clock += span.length
    return found


def fade(samples: array[int], time: int, channels: int, ramps: Sequence[Ramp], rate: int) -> None:
    """Fades samples of 16 bits, those of all channels together, of which the first is at this time, so many
    nanoseconds.
    """
    count = len(samples) // channels
    end = time + count * NANO // rate
    first = bisect.bisect_right([ramp.end for ramp in ramps], time)
    for ramp in ramps[first:]:
        if ramp.start >= end:
            break
        low, high = (min(max(0, -((time - one) * rate // NANO)), count) for one in (ramp.start, ramp.end))
        begin, step = level_at(ramp, time + low * NANO / rate), (ramp.levels[1] - ramp.levels[0]) * NANO / rate / (
            ramp.end - ramp.start
        )
        levels = [begin + step * number for number in range(high - low)]
        for channel in range(channels):
            part = slice(low * channels + channel, high * channels, channels)
            samples[part] = array("h", [round(sample * level) for sample, level in zip(samples[part], levels)])


def level_at(ramp: Ramp, time: float) -> float:
    start, end = ramp.levels
    return start + (end - start) * (time - ramp.start) / (ramp.end - ramp.start)
