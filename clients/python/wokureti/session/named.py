"""The sources that a list of edits names: a comment for each, with its packets and its path, so that the next session
opens them too.
"""

from __future__ import annotations

import json
import os
import re
from typing import TYPE_CHECKING, Any, Iterable, NamedTuple, Optional

from .. import system
from ..errors import Failed
from ..base.lines import lines_in
from ..base.checks import AnyPath
from ..media import containers

if TYPE_CHECKING:
    from .inputs import Input

SOURCE = re.compile(r'# source (\d+): (\d+) packets, (\d+) bytes, sha256 ([0-9a-f]{64}), (".*")')
# What a pipe is called, which cannot be read again.
PIPE = "-"


class Named(NamedTuple):
    """A source as a list names it: its packets, their bytes and their digest, and its path as it is in the list."""

    number: int
    packets: int
    size: int
    digest: str
    path: str

    def text(self) -> str:
        return f"{self.packets:,} packets of {self.size:,} bytes"


def of_line(line: str) -> Optional[Named]:
    """The source that a line of a list names, or None."""
    found = SOURCE.fullmatch(line.removesuffix("\r"))
    if found is None:
        return None
    try:
        path = json.loads(found.group(5))
    except ValueError:
        return None
    number, packets, size = map(int, found.group(1, 2, 3))
    return Named(number, packets, size, found.group(4), path)


def line_of(number: int, item: Input, folder: str) -> str:
    """The line that names source `number` in a list that is in a folder. Paths in this folder and below are relative,
    so that the folder can be moved.
    """
    path = os.path.abspath(origin_of(item.path)) if origin_of(item.path) != PIPE else PIPE
    inside = os.path.realpath(folder or ".") + os.sep
    if path != PIPE and os.path.realpath(path).startswith(inside):
        path = system.slashed(os.path.realpath(path)[len(inside) :])
    return "# source {}: {} packets, {} bytes, sha256 {}, {}\n".format(
        number, *item.extent(), item.digest(), json.dumps(path)
    )


def origin_of(path: AnyPath) -> str:
    """The path that was given for a stream, whose packets may have been taken out of a container since."""
    found = os.fsdecode(containers.origins.get(os.fspath(path), path))
    return PIPE if found == system.STANDARD_INPUT or system.is_device(found) else found


def of_list(path: AnyPath) -> dict[int, Named]:
    """The sources that a list names, by their numbers. None of a list that is not there."""
    if not os.path.isfile(path):
        return {}
    try:
        with open(path, encoding="utf-8", errors="replace") as file:
            found = map(of_line, lines_in(file.read()))
    except OSError:
        return {}
    return {one.number: one for one in found if one is not None}


def with_named(sources: Iterable[Any], path: AnyPath) -> list[Any]:
    """The paths of sources that were given, and after them those that the list of edits at `path` names. `Failed` if
    one is not there.
    """
    named, found = of_list(path), list(sources)
    for number in range(len(found) + 1, max(named, default=0) + 1):
        if number not in named:
            raise Failed(
                f"{os.fsdecode(path)} names source {max(named)} and not source {number}: name it with --source"
            )
        found.append(path_of(named[number], path))
    return found


def path_of(named: Named, path: AnyPath) -> str:
    """Where a source is: at its path, or next to the list."""
    folder = os.path.dirname(os.path.realpath(os.fsdecode(path)))
    for candidate in (os.path.join(folder, name) for name in (named.path, *system.names_of(named.path))):
        if named.path != PIPE and os.path.isfile(candidate):
            return candidate
    what = "a pipe" if named.path == PIPE else f"{named.path}, which is not there"
    raise Failed(
        f"{os.fsdecode(path)} names source {named.number}: {what}: it has {named.text()}; name it with --source"
    )
