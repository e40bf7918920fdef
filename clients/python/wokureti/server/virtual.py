"""The frames of a stream as one YUV4MPEG2 file that is never written: any range of its bytes is made of the frames that
it touches.
"""

from __future__ import annotations

import queue
import threading
from typing import Callable, Generator, Optional, Sequence, Tuple, TypeVar, Union

from ..errors import Changed, Lost, Refused, Unserved
from ..base.checks import AnyBytes
from ..media.y4m import MARK, header_of, size_of
from ..tools import paces
from .live import Live

Item = TypeVar("Item")
Made = TypeVar("Made")

# Frames that are asked for at a time, at most, and the bytes of those that are made for all readers together and not
# sent yet: a reader has up to three groups of them.
AT_ONCE, MOST_BYTES = 8, 192 << 20
MODES = ("repeat", "black")


class Ahead:
    """The bytes that may be made ahead for all readers together. A reader that gets none of them has one frame at a
    time.
    """

    def __init__(self) -> None:
        self.taken, self.lock = 0, threading.Lock()

    def take(self, frame_size: int) -> int:
        """How many frames a group has, three of which fit; 0 if there is no room. `give` gives their bytes back."""
        with self.lock:
            count = min(AT_ONCE, max(0, MOST_BYTES - self.taken) // (3 * frame_size))
            self.taken += 3 * count * frame_size
            return count

    def give(self, count: int, frame_size: int) -> None:
        with self.lock:
            self.taken -= 3 * count * frame_size


AHEAD = Ahead()


class Clip:
    """The file of one revision. `mode` says what is in the place of a frame that is refused: None, the file cannot be
    served; `repeat`, the frame before it; `black`, a black frame; `error`, none: the other frames are served."""

    def __init__(self, live: Live, mode: Optional[str] = None) -> None:
        self.live, self.mode = live, mode
        with live.lock:
            self.revision, self.outcomes = live.outcomes()
            # The frames of the stream that are the frames of the file, if they are repeated or left out.
            self.order = paces.constant(paces.begins(live.contents()), live.rate()) if live.is_constant else None
        self.etag = f'"{live.instance}-{self.revision}{f"-{mode}" if mode else ""}"'
        size = self.outcomes.size
        refused = self.outcomes.first_refused()
        if refused is not None and (mode is None or size is None):
            raise Unserved(*refused)
        if size is None:
            raise Unserved(0, "refused NoSuchFrame")
        self.header = header_of(size, live.rate())
        self.samples = size_of(*size)
        self.frame_size = len(MARK) + self.samples
        self.count = self.outcomes.count if self.order is None else len(self.order)
        self.length = len(self.header) + self.count * self.frame_size
        luma = size[0] * size[1]
        self.black = bytes([16]) * luma + bytes([128]) * (self.samples - luma)

    def source_of(self, number: int) -> Optional[int]:
        """The frame of the stream whose picture is served as this one, or None for a black one."""
        number = number if self.order is None else self.order[number]
        if self.outcomes.is_served(self.outcomes.of_frame(number)):
            return number
        return self.outcomes.served_before(number) if self.mode == "repeat" else None

    def frames(self, numbers: Sequence[int]) -> list[AnyBytes]:
        """The samples of frames of the file."""
        wanted = list(dict.fromkeys(source for source in map(self.source_of, numbers) if source is not None))
        found = dict(zip(wanted, self.live.pictures(wanted, self.revision)))
        for number, (width, height, _) in found.items():
            if (width, height) != self.outcomes.size:
                raise Lost(f"frame {number} has {width}x{height} samples")
        sources = list(map(self.source_of, numbers))
        if self.mode == "error" and None in sources:
            number = list(numbers)[sources.index(None)]
            number = number if self.order is None else self.order[number]
            raise Unserved(number, self.outcomes.reply(self.outcomes.of_frame(number)))
        return [self.black if source is None else found[source][2] for source in sources]

    def in_order(self, first: int, end: int) -> Generator[AnyBytes, None, None]:
        """The samples of a range of frames, some of them made while those before them are sent."""
        budget = AHEAD
        at_once = 0 if end - first <= 2 else budget.take(self.frame_size)
        if not at_once:
            for number in range(first, end):
                yield from self.frames([number])
            return
        groups = [range(place, min(place + at_once, end)) for place in range(first, end, at_once)]
        made = ahead(self.frames, groups)
        try:
            for group in made:
                yield from group
        finally:
            made.close()
            budget.give(at_once, self.frame_size)

    def pieces(self, start: int, end: int) -> Generator[AnyBytes, None, None]:
        """The bytes of a range. It stops, before the range is whole, at an edit, or if a frame cannot be made."""
        head = len(self.header)
        if start < head:
            yield self.header[start:end]
        if end <= head:
            return
        first, last = max(0, start - head) // self.frame_size, (end - head - 1) // self.frame_size
        frames = self.in_order(first, last + 1)
        try:
            for number, samples in enumerate(frames, first):
                place = head + number * self.frame_size
                for piece in (MARK, samples):
                    low, high = max(0, start - place), min(len(piece), end - place)
                    if low < high:
                        yield piece[low:high]
                    place += len(piece)
        finally:
            frames.close()


def ahead(make: Callable[[Item], Made], numbers: Sequence[Item]) -> Generator[Made, None, None]:
    """What `make` makes of each item, in order, the next one before it is asked for."""
    made: queue.Queue[Union[Tuple[Made], BaseException]] = queue.Queue(1)
    stopped = threading.Event()

    def put(item: Union[Tuple[Made], BaseException]) -> None:
        while not stopped.is_set():
            try:
                made.put(item, timeout=0.5)
                return
            except queue.Full:
                pass

    def work() -> None:
        for number in numbers:
            if stopped.is_set():
                return
            item: Union[Tuple[Made], BaseException]
            try:
                item = (make(number),)
            except BaseException as error:
                item = error
            put(item)
            if isinstance(item, BaseException):
                return

    threading.Thread(target=work, daemon=True).start()
    try:
        for _ in numbers:
            item = made.get()
            if isinstance(item, BaseException):
                raise item
            yield item[0]
    finally:
        stopped.set()


# What ends a response in the middle: the connection is closed, so that the client sees that bytes are missing.
ENDINGS = (Changed, Lost, Refused)
