"""The exceptions of this package. A program that uses it meets those that `wokureti` itself exports, and `OSError`."""

from __future__ import annotations

import os
import re
from typing import Optional

from .base.lines import words_of

# A reply such as "refused source 2 packet 60 TokenPartition 1".
_BROKEN = re.compile(r"refused (?:source (\d+) )?packet (\d+) (.+)")
# What the program says of an export that fails, such as "frame 12 is changed by node 2" or "frame 3 is refused: packet
# 60 ShortPacket".
_UNEXPORTED = re.compile(
    r"frame (\d+) is (?:changed by node (\d+)|refused: (?:(?:source (\d+) )?packet (\d+) (.+)|.+))"
)


class _Kept(Exception):
    """An exception that another process gets as it was: it is made again of what it was made of."""

    _given: tuple[object, ...] = ()

    def __reduce__(self) -> tuple[object, ...]:
        return type(self), self._given


class Refused(_Kept):
    """The program refused a request, which changed nothing.

    `word` is the name of the refusal, such as `Place`. If a frame was refused because its stream is broken, `word` is
    `packet`, and `source`, `packet` and `cause` name the packet and why it cannot be decoded, for example 0, 60 and
    `ShortPacket`. `reply` is the whole reply. In a session with `explain=True`, `reason` is the program's explanation,
    else None.
    """

    def __init__(self, reply: str, reason: Optional[str] = None) -> None:
        super().__init__(f"{reply}: {reason}" if reason else reply)
        self._given = (reply, reason)
        self.reply = reply
        self.reason = reason
        self.word = words_of(reply)[1]
        self.source: Optional[int] = None
        self.packet: Optional[int] = None
        self.cause: Optional[str] = None
        broken = _BROKEN.fullmatch(reply)
        if broken:
            self.word = "packet"
            self.source = int(broken.group(1) or 0)
            self.packet = int(broken.group(2))
            self.cause = broken.group(3)


class Unexported(Exception):
    """The frames of the script are not exported; the session is as it was.

    `frame` is the first frame that is not, and `node` the number of the first node of the script that changes samples
    of it, counted from 1; or `source`, `packet` and `cause` name the packet that cannot be decoded. All are None if
    there would be too many packets, or if no packet repeats a frame.
    """

    def __init__(self, text: str) -> None:
        super().__init__(text)
        self.frame: Optional[int] = None
        self.node: Optional[int] = None
        self.source: Optional[int] = None
        self.packet: Optional[int] = None
        self.cause: Optional[str] = None
        found = _UNEXPORTED.fullmatch(text)
        if found:
            self.frame = int(found.group(1))
            self.node = None if found.group(2) is None else int(found.group(2))
            if found.group(4) is not None:
                self.source = int(found.group(3) or 0)
                self.packet = int(found.group(4))
                self.cause = found.group(5)


class Ended(_Kept):
    """The session is over: the exit status of the program (None if it is not known), and a text that says why.

    The text is what the program wrote to standard error; or, if the session ended the program, the reason for it.
    """

    def __init__(self, status: Optional[int], text: str) -> None:
        super().__init__(text or f"vp8serve ended with status {status}")
        self._given = (status, text)
        self.status = status
        self.text = text


class OtherStream(_Kept, ValueError):
    """A list of edits is of another stream than the session, or names another source: how many packets and bytes each
    has.
    """

    def __init__(
        self, path: str, wanted: tuple[int, int], found: tuple[int, int], source: int = 0, name: str = ""
    ) -> None:
        self._given = (path, wanted, found, source, name)
        theirs, ours = (f"{packets:,} packets of {size:,} bytes" for packets, size in (wanted, found))
        more = "" if wanted != found else ", but others"
        of = f"another source {source}: of {name}, " if source else "another stream: of one "
        text = (
            f"{path} is the list of edits of {of}with {theirs}, and this one has {ours}{more}. Name another list with"
            " --edits, or make these edits with --anyway"
        )
        super().__init__(text)


class NotVideo(Ended, ValueError):
    """A file that is not a stream of VP8. The text has its name, what it looks like, and what would help."""


class Lost(Exception):
    """A program ended, and could not be started again or ended again."""


class NotWritten(OSError):
    """Edits that were made, and are not in the file of the list. They are kept, and written with the next one."""

    def __init__(self, error: OSError, path: str, count: int, written: int, why: Optional[str] = None) -> None:
        edits = "the last edit is" if count == 1 else f"the last {count} edits are"
        safe = (
            "no edit is in it"
            if written == 0
            else "the edit before it is safe"
            if written == 1
            else f"the {written} edits before are safe in it"
        )
        text = (
            f"{why or path}: {os.strerror(error.errno) if error.errno else error}: {edits} made but not on the disk;"
            f" {safe}. Free some space: the next edit writes all"
        )
        super().__init__(error.errno, text)
        self.text = text

    def __str__(self) -> str:
        return self.text


class Failed(ValueError):
    """What was asked for cannot be done; the text says why."""


class NoSound(Failed):
    """The sound cannot be written as it was asked for."""


class Unread(ValueError):
    """A file that is not what it has to be."""


class NotIvf(Unread):
    """The bytes are not an IVF file of VP8."""


class NotY4m(Unread):
    """The text is not YUV4MPEG2, or of other frames."""


class NotRead(Unread):
    """A capture that cannot be read."""


class NoKeyFrame(Unread):
    """No frame can be decoded."""


class NoSecond(Unread):
    """No packet of the second recording can be taken."""


class Unanswered(Exception):
    """A request that got no reply."""


class Gone(Unanswered):
    """The program closed its standard output."""


class Strange(Unanswered):
    """What the program wrote is no reply, or no frame."""


class Late(Unanswered):
    """The time of a request is over."""


class NotExported(Exception):
    """The library exports no frames: why, the frame, and whether that one is refused."""

    def __init__(self, text: str, frame: int, is_refused: bool) -> None:
        super().__init__(text)
        self.text = text
        self.frame = frame
        self.is_refused = is_refused


class PacketRefused(Exception):
    """A packet that decoding refuses, itself or because of an earlier one."""

    def __init__(self, packet: int, cause: str) -> None:
        super().__init__(f"packet {packet} is refused: {cause}")
        self.packet = packet
        self.cause = cause


class NoBytes(Exception):
    """A packet of no bytes, which shows the last frame again."""


class Unserved(Exception):
    """A file of frames cannot be served: the first frame that is refused, and its reply."""

    def __init__(self, frame: int, reply: str) -> None:
        super().__init__(reply)
        self.frame = frame
        self.reply = reply


class Unreadable(Exception):
    """Bytes of a file of frames cannot be made: a frame of them is refused."""


class TooManyRuns(Exception):
    """The script makes too many runs of frames."""


class Abandoned(Exception):
    """Work whose result nobody wants any more."""


class Stopped(Abandoned):
    """Nobody waits for it any more."""


class Stale(Abandoned):
    """A check was stopped, or the session has other packets by now."""


class Changed(Abandoned):
    """The stream is no more that of the revision."""


class Dropped(Abandoned):
    """The client of a server is gone, or too slow."""


class Refuse(Exception):
    """A request of HTTP is answered with this status and a text; the connection then ends."""

    def __init__(self, status: int, text: str, **more: object) -> None:
        super().__init__(text)
        self.status = status
        self.members: dict[str, object] = {"error": text, **more}


def sentence(error: BaseException) -> str:
    """An error as a message says it: that of the system without its number."""
    if type(error).__str__ is not OSError.__str__ or not isinstance(error, OSError) or not error.strerror:
        return str(error)
    return (
        f"{os.fsdecode(error.filename)}: {error.strerror}"
        if isinstance(error.filename, (str, bytes))
        else error.strerror
    )
