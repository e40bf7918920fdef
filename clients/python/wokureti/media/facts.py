"""What vp8list says of a file, or of packets that are not those of a session: those that `wokureti repair` mends."""

from __future__ import annotations

import os
import subprocess
import tempfile
from typing import Iterable, Iterator, Optional, Sequence

from ..errors import Ended
from ..base import programs, rooms
from ..base.checks import AnyBytes, AnyPath
from . import ivf

# Seconds that a run may take, and bytes of the file for each of which it may take one more.
MOST_TIME, A_SECOND = 300, 1 << 18
KEY, SHOWN, REFUSED = ivf.KEY, ivf.SHOWN, 4
# Causes that are those of the packets before.
OF_OTHERS = ("NoKeyFrame", "lost")


def run(
    lister: str, path: AnyPath, *options: str, pass_fds: Sequence[int] = (), statuses: Iterable[int] = (0,)
) -> Iterator[bytes]:
    """The lines that vp8list prints of a file, one after the other."""
    with tempfile.TemporaryFile() as out:
        words = [lister, path, *options]
        # A long stream takes long.
        most = MOST_TIME + (os.path.getsize(path) // A_SECOND if os.path.isfile(path) else 0)
        try:
            done = subprocess.run(
                words,
                stdout=out,
                stderr=subprocess.PIPE,
                timeout=most,
                stdin=subprocess.DEVNULL,
                check=False,
                pass_fds=pass_fds,
            )
        except FileNotFoundError:
            raise programs.missing(lister) from None
        except subprocess.TimeoutExpired:
            raise Ended(None, f"{lister} took longer than {most} seconds") from None
        if done.returncode not in statuses:
            raise Ended(done.returncode, done.stderr.decode(errors="replace").strip())
        out.seek(0)
        yield from out


def run_on(
    lister: str, packets: Iterable[tuple[int, AnyBytes]], *options: str, statuses: Iterable[int] = (0,)
) -> Iterator[bytes]:
    """The same of these packets, pairs of a time stamp and bytes."""
    with rooms.Room() as folder:
        path = os.path.join(folder, "packets.ivf")
        with open(path, "wb") as file:
            file.writelines(ivf.pieces(ivf.EMPTY, 0, packets))
        yield from run(lister, path, *options, statuses=statuses)


def outlines(lines: Iterator[bytes]) -> Iterator[tuple[int, Optional[str], Optional[str]]]:
    """For each line of a list its flags, the size of a key packet or None, and the cause against its header or None."""
    names = next(lines, b"").decode("ascii").rstrip("\n").split("\t")
    kind, show, size, cause = (names.index(name) if name in names else 0 for name in ("kind", "show", "size", "cause"))
    for line in lines:
        columns = line.rstrip(b"\n").split(b"\t")
        sides, why = columns[size], columns[cause]
        flags = KEY * (columns[kind] == b"key") + SHOWN * (columns[show] == b"shown") + REFUSED * (why != b"-")
        yield flags, sides.decode("ascii") if sides != b"-" else None, why.decode("ascii") if why != b"-" else None
