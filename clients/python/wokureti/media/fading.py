"""Packets of Opus that fade: those of the fade are coded again, and all others stay."""

from __future__ import annotations

import collections
import operator
import os
from array import array
from typing import Iterable, Iterator, NamedTuple, Sequence, Tuple

from ..errors import NoSound
from . import fades, opus, opus_coding

NANO = 10**9
# A packet: its time, and its bytes.
Packet = Tuple[int, bytes]
# Packets before a fade that are decoded, so that the decoder has converged; nanoseconds of them that the encoder is
# given too; packets after it by which the end is measured.
LEAD, MOST_LEAD, AFTER = 60, 200 * opus.MS, 5
# How loud a step between two samples is that nobody hears, and the seconds of both ends of a fade that are measured.
QUIET, ENDS = 100, 1


class Way(NamedTuple):
    """A way of coding: options of the encoder, bits a second of each channel, and what a decoder drops at the
    beginning, in samples.
    """

    options: tuple[str, ...]
    bits: int
    delay: int


# CELT as ever; and so that each packet depends as little as can be on those before it, without a pitch filter and with
# levels that are not predicted.
CELT = [Way(("-application", "lowdelay", "-packet_loss", loss), 128_000, 120) for loss in ("0", "100")]
# SILK, which joins packets of SILK: between the two, ffmpeg's own decoder clicks. The less the encoder searches, the
# less a packet depends on those before it.
SILK = [
    Way(("-application", "audio", "-compression_level", "0"), 16_000, 312),
    Way(("-application", "audio"), 16_000, 312),
    Way(("-application", "voip", "-compression_level", "0"), 20_000, 312),
]


def faded(packets: Iterable[Packet], ramps: Sequence[fades.Ramp], channels: int, room: str) -> Iterator[Packet]:
    """Packets, pairs of a time and bytes, each after the one before it: those that have a sample in a ramp are coded
    again.
    """
    before: collections.deque[Packet] = collections.deque(maxlen=LEAD)
    group: list[Packet] = []
    after: list[Packet] = []
    place = 0
    for packet in packets:
        time, data = packet
        while place < len(ramps) and ramps[place].end <= time:
            place += 1
        is_faded = place < len(ramps) and ramps[place].start < time + opus.duration(data)
        if group and (len(after) == AFTER or (is_faded and after)):
            yield from Group(list(before), group, after, ramps, channels, room).coded()
            yield from after
            before.extend([*group, *after])
            group, after = [], []
        if is_faded:
            group.append(packet)
        elif group:
            after.append(packet)
        else:
            before.append(packet)
            yield packet
    if group:
        yield from Group(list(before), group, after, ramps, channels, room).coded()
        yield from after


class Group(NamedTuple):
    """Packets that are coded again, and those before and after them, which stay."""

    before: list[Packet]
    packets: list[Packet]
    after: list[Packet]
    ramps: Sequence[fades.Ramp]
    channels: int
    room: str

    def coded(self) -> list[Packet]:
        """The packets of the group, coded again: that way of which the ends are best, as it is decoded."""
        start, length, lead = self.packets[0][0], length_of(self.packets), length_of(self.before)
        given, wanted = (self.faded(decoder, start - lead) for decoder in ("libopus", "opus"))
        # Packets of one length, which together are as long as the group.
        step = next(frame for frame in reversed(opus.CELT) if length % frame == 0)
        # Nobody hears what is before the time 0.
        skipped = max(0, lead - opus.CELT[-1], lead - start) * opus_coding.RATE // NANO * self.channels
        found = [self.tried(given, wanted[skipped:], step, way, skipped) for way in CELT]
        if min(found)[0] and any(opus.is_silk(data) for _, data in (*self.before[-1:], *self.after[:1])):
            found += [self.tried(given, wanted[skipped:], step, way, skipped) for way in SILK]
        return min(found)[2]

    def tried(
        self, given: array[int], wanted: array[int], step: int, way: Way, skipped: int
    ) -> tuple[int, int, list[Packet]]:
        """How bad a way is, as `score` has it, and the packets that it makes."""
        packets = [
            (self.packets[0][0] + number * step, data) for number, data in enumerate(self.code(given, step, way))
        ]
        return (*self.score(self.decoded([*self.before, *packets, *self.after], "opus")[skipped:], wanted), packets)

    def faded(self, decoder: str, time: int) -> array[int]:
        """The samples of all packets, faded."""
        samples = self.decoded([*self.before, *self.packets, *self.after], decoder)
        fades.fade(samples, time, self.channels, self.ramps, opus_coding.RATE)
        return samples

    def score(self, heard: array[int], wanted: array[int]) -> tuple[int, int]:
        """How bad the ends of samples are: how much greater their greatest step is, roughly, for that is a click; and
        how far they are from what they are to be.
        """
        edge, count = ENDS * opus_coding.RATE * self.channels, len(wanted)
        parts = [slice(0, count)] if count <= 2 * edge else [slice(0, edge), slice(count - edge, count)]
        click, step = (max(self.steepest(samples[part]) for part in parts) for samples in (heard, wanted))
        far = sum(sum((one - other) ** 2 for one, other in zip(heard[part], wanted[part])) for part in parts)
        return max(0, round(4 * (click / max(QUIET, step) - 1))), far

    def steepest(self, samples: array[int]) -> int:
        """The greatest step between two samples of a channel."""
        return max(map(abs, map(operator.sub, samples[self.channels :], samples)), default=0)

    def decoded(self, packets: Iterable[Packet], decoder: str) -> array[int]:
        return opus_coding.decode(
            [data for _, data in packets], self.channels, os.path.join(self.room, "faded"), decoder
        )

    def code(self, samples: array[int], step: int, way: Way) -> list[bytes]:
        """Codes the samples from the first one of the group on, after a lead-in for the encoder, as packets of `step`
        nanoseconds.
        """
        lead, length = length_of(self.before), length_of(self.packets)
        ahead = min(MOST_LEAD, lead) // step * step
        size, count = step * opus_coding.RATE // NANO, (ahead + length) // step
        # The encoder's sound comes later by its delay, so it is given later samples.
        first = ((lead - ahead) * opus_coding.RATE // NANO + way.delay) * self.channels
        given = samples[first : first + count * size * self.channels].tobytes()
        given += bytes(2 * count * size * self.channels - len(given))
        options = ["-b:a", str(way.bits * self.channels), "-frame_duration", f"{step / opus.MS:g}", *way.options]
        track = opus_coding.code([given], self.channels, options, os.path.join(self.room, "faded-again"))
        delay = opus.pre_skip(track.private) * opus_coding.RATE // NANO
        if delay != way.delay:
            return self.code(samples, step, way._replace(delay=delay))
        packets = list(track.packets(range(len(track.sizes))))[:count]
        if len(packets) != count or any(opus.duration(data) != step for data in packets):
            raise NoSound("ffmpeg coded the sound of a fade in other packets than it was asked for")
        return packets[ahead // step :]


def length_of(packets: Iterable[Packet]) -> int:
    """The nanoseconds of packets."""
    return sum(opus.duration(data) for _, data in packets)
