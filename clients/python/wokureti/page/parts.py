"""How far something is that takes long, for who asks."""

from __future__ import annotations

import time
from typing import Callable, Optional

from ..errors import Stopped
from ..base import progress


class Part(progress.Watch):
    """What is done, how much of it by now, and for how long. It ends if `is_gone` says that nobody waits for it any
    more.
    """

    text: Optional[str]
    done: Optional[int]
    total: Optional[int]

    def __init__(self, text: str, is_gone: Callable[[], bool] = lambda: False) -> None:
        self.is_gone, self.since = is_gone, time.monotonic()
        self.stage(text)

    def stage(self, text: Optional[str]) -> None:
        self.text, self.done, self.total = text, None, None

    def part(self, done: int, total: Optional[int]) -> None:
        self.done, self.total = done, total
        self.check()

    def check(self) -> None:
        if self.is_gone():
            raise Stopped

    def members(self) -> dict[str, object]:
        return {
            "what": self.text,
            "done": self.done,
            "total": self.total,
            "seconds": round(time.monotonic() - self.since, 1),
        }
