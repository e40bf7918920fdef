"""Texts of scripts, with nodes that are numbered as they are added.

    script = Script().trim(0, 5, 10).fade(-1, 0, 10, 0, 256)
    session.script(script)

serves frames 5 to 14 of source 0, fading in from black. Node 0 is source 0, and the nodes that are added are 1, 2, and
so on. A negative number counts from the end, so -1 is the node that was added last. `last` is its number, to name it
later:

    script = Script()
    head = script.trim(0, 0, 50).fade(-1, 40, 10, 256, 0).last
    tail = script.trim(0, 50, 50).last
    script.splice(head, tail)
"""

from __future__ import annotations

import operator


class Script:
    """The nodes of a script. docs/reference/requests.md says what each node serves."""

    def __init__(self) -> None:
        self.nodes: list[str] = []

    @property
    def last(self) -> int:
        """The number of the node that was added last; 0, source 0, if there is none."""
        return len(self.nodes)

    def _node(self, number: int) -> int:
        number = operator.index(number)
        known = self.last + 1
        if not -known <= number < known:
            raise IndexError(f"there is no node {number}: the last one is {self.last}")
        return number % known

    def _add(self, word: str, *numbers: int) -> Script:
        self.nodes.append(" ".join([word, *(str(operator.index(number)) for number in numbers)]))
        return self

    def source(self, source: int) -> Script:
        """The frames of another source."""
        return self._add("source", source)

    def trim(self, node: int, first: int, count: int) -> Script:
        """At most `count` frames of a node, starting at `first`."""
        return self._add("trim", self._node(node), first, count)

    def splice(self, node: int, other: int) -> Script:
        """The frames of a node, then those of another one."""
        return self._add("splice", self._node(node), self._node(other))

    def parts(self, *parts: tuple[int, int, int]) -> Script:
        """Any number of trims, one after the other: of each a node, the first frame and at most so many frames."""
        return self._add(
            "parts", *(number for node, first, count in parts for number in (self._node(node), first, count))
        )

    def crop(self, node: int, x: int, y: int, width: int, height: int) -> Script:
        """Each frame's `width` x `height` luma samples starting at column `x` and row `y`, both even."""
        return self._add("crop", self._node(node), x, y, width, height)

    def fade(self, node: int, first: int, count: int, start: int, end: int) -> Script:
        """Frames mixed with black: weight `start` before `first`, `end` from `first + count` on; 256 is the picture, 0
        black.
        """
        return self._add("fade", self._node(node), first, count, start, end)

    def __str__(self) -> str:
        return "; ".join(self.nodes) or "-"
