"""Runs of vp8serve that end by themselves: for packets without a session, and for what `--pad` adds, which no question
reports yet.
"""

from __future__ import annotations

import os
import subprocess
from typing import Iterable, Iterator, Optional, Sequence

from ..errors import Ended
from ..base import checks, programs, rooms
from ..base.checks import AnyPath
from ..base.lines import is_refusal, lines_in, words_of

# Seconds.
MOST_TIME = 60


def run(words: Sequence[str], lines: Iterable[str] = ()) -> list[str]:
    """Runs a command line on request lines, and returns the replies. `Ended` if the status is not 0."""
    given = "".join(f"{line}\n" for line in lines).encode()
    try:
        done = subprocess.run(words, input=given, capture_output=True, timeout=MOST_TIME, check=False)
    except FileNotFoundError:
        raise programs.missing(words[0]) from None
    except subprocess.TimeoutExpired:
        raise Ended(None, f"{words[0]} took longer than {MOST_TIME} seconds") from None
    if done.returncode != 0:
        raise Ended(done.returncode, done.stderr.decode(errors="replace").strip())
    return lines_in(done.stdout.decode(errors="replace"))


def last_packet(program: str, lines: Sequence[str], tables: Optional[AnyPath] = None) -> bytes:
    """The bytes of the last packet after these edits of an empty stream, each of which inserts one."""
    words = [program, "-", "-", "-", *([] if tables is None else ["--tables", checks.path(tables)])]
    lines = [*lines, f"packet {len(lines) - 1}"]
    replies = run(words, lines)
    for line, reply in zip(lines, replies):
        if is_refusal(reply):
            raise Ended(0, f"{line}: {reply}")
    return bytes.fromhex(words_of(replies[-1])[2])


def padded(program: str, pieces: Iterable[bytes]) -> Iterator[bytes]:
    """The text of an IVF file as the program saves it with --pad, in pieces."""
    with rooms.Room() as folder:
        before, after = os.path.join(folder, "before.ivf"), os.path.join(folder, "after.ivf")
        with open(before, "wb") as file:
            file.writelines(pieces)
        run([program, before, "-", "-", "--save", after, "--pad"])
        with open(after, "rb") as file:
            while True:
                piece = file.read(1 << 20)
                if not piece:
                    return
                yield piece
