"""A check of the packets in the background. The session is asked for the findings at some packets at a time, so that
frames and edits do not wait long.
"""

from __future__ import annotations

import json
import threading
import time
from typing import TYPE_CHECKING, Callable, List, Mapping, Optional, TypedDict, TypeVar

from ..errors import Ended, Lost, Refused, Stale
from ..base.lines import objects_of
from ..session.session import Session
from . import file_findings
from .file_findings import Finding
from .views import View

if TYPE_CHECKING:
    from .opened import Opened, Preview

Found = TypeVar("Found")
# What is known of a check.
Known = TypedDict(
    "Known",
    {
        "check": int,
        "from": int,
        "findings": List[Finding],
        "groups": List[Optional[int]],
        "damage": int,
        "notes": int,
        "done": int,
        "packets": int,
        "over": bool,
        "failed": Optional[str],
    },
)

# The packets of the first question. Seconds that a question should take in the session of the stream, and in one of its
# own.
FIRST, SHORT, LONG = 16, 0.03, 0.25
# The least time of a question.
LEAST = 0.0001
# Each question reads from the last key packet on, and the time stamps of all packets. If that takes more seconds, a
# session of its own is asked.
MOST_BEFORE = 0.1
# Seconds between two questions: whoever waits for the session comes first.
PAUSE = 0.001
# Findings that are stored, at most; those that follow are only counted.
MOST_FINDINGS = 20000
# Seconds between two looks of a client at a check that goes on; findings in one event.
OFTEN, MOST_TOLD = 0.1, 1000
# Checks of the same revision with which the session ended, at most: it is not started again for ever.
MOST_TRIES = 2
# Kinds of findings that say that a packet decodes to other samples than were coded.
INSIDE = ("past_end", "unread")


def answer(session: Session, first: int, count: int) -> tuple[list[Finding], dict[str, int]]:
    """What `check` reports of packets of source 0: the findings, and their numbers."""
    *findings, numbers = objects_of(session.ask(f"check {first} {count}", 0))
    return findings, numbers


class Pace:
    """How many packets are asked for at a time, so that a question takes some seconds. `before` is how long it takes to
    read what is before its packets: a question takes twice as long as that at least, or the whole check would take much
    longer than its packets."""

    def __init__(self) -> None:
        self.count, self.short, self.before = FIRST, SHORT, 0.0

    @property
    def wanted(self) -> float:
        return max(self.short, 2 * self.before)

    def is_late(self, took: float) -> bool:
        return took > 1.5 * (self.before + self.wanted)

    def go_on(self, took: float) -> None:
        """After a question that took so long, and was not late."""
        if took < (self.before + self.wanted) / 2:
            self.count *= 2
        # It is less after the next key packet.
        self.before /= 2

    def slow_down(self, took: float, before: float) -> None:
        """After a question that was late, when the time that was taken before its packets was found."""
        self.before = before
        each = max(took - before, LEAST) / self.count
        self.count = max(1, min(self.count, int(self.wanted / each)))


class Check:
    """A check of source 0 of a view. `beside` is the session of its own, a `Preview`, and `tries` the checks of this
    revision with which the session ended.
    """

    def __init__(self, view: View, number: int, beside: Preview, tries: int = 0) -> None:
        self.view, self.stream, self.number, self.beside, self.tries = view, view.streams[0], number, beside, tries
        self.findings: list[Finding] = []
        self.damage = self.notes = 0
        # How many packets were checked, and the packets that are damaged inside.
        self.done = 0
        self.inside: list[int] = []
        self.is_over, self.has_ended = False, False
        self.error: Optional[str] = None
        # The edits, if the session of its own is asked.
        self.lines: Optional[list[str]] = None
        self.stopped = threading.Event()
        threading.Thread(target=self.run, daemon=True).start()

    def is_of(self, view: View) -> bool:
        """Whether the packets of a view are those that are checked. A session that was started again may have other
        packets by the same numbers.
        """
        stream = view.streams[0]
        return self.view.contents is view.contents and (self.stream is stream or self.stream == stream)

    @property
    def is_whole(self) -> bool:
        """Whether all packets were checked."""
        return self.is_over and not self.error and not self.stopped.is_set()

    @property
    def is_left(self) -> bool:
        """Whether it was left in the middle, so that another check of the same packets follows it."""
        return self.stopped.is_set() or (self.has_ended and self.tries < MOST_TRIES)

    def members(self, first: int, most: Optional[int] = None) -> Known:
        """What is known of it, with findings from one on."""
        is_over = self.is_over and not self.is_left
        # The findings last: those that come meanwhile are told then.
        damage, notes, done, failed = self.damage, self.notes, self.done, self.error if is_over else None
        findings = self.findings[first : None if most is None else first + most]
        return {
            "check": self.number,
            "from": first,
            "findings": findings,
            "groups": self.groups(findings),
            "damage": damage,
            "notes": notes,
            "done": done,
            "packets": len(self.stream),
            "over": is_over,
            "failed": failed,
        }

    def groups(self, findings: list[Finding]) -> list[Optional[int]]:
        """For each finding the key packet at or before its packet, or None: what is damaged after a packet is mostly
        damaged with it.
        """
        keys = self.view.keys(0)
        return [
            None if finding["packet"] is None else max(0, keys.rfind(1, 0, finding["packet"] + 1))
            for finding in findings
        ]

    def stop(self) -> None:
        """Ends the check after the question that is asked now."""
        if not self.is_over:
            self.stopped.set()

    def run(self) -> None:
        try:
            self.check()
        except Stale:
            self.stopped.set()
        except (Ended, Lost) as error:
            self.has_ended, self.error = True, str(error)
        except (Refused, OSError, ValueError) as error:
            self.error = str(error)
        except BaseException as error:
            # It must not look as if nothing was found.
            self.error = repr(error)
            raise
        finally:
            self.is_over = True

    def check(self) -> None:
        contents, pace = self.view.contents, Pace()
        if self.beside.is_open:
            # The stream is long, as was found before.
            self.go_beside(pace)
        self.take(file_findings.at_header(contents, self.stream, self.asked(self.first_size)))
        while self.done < len(self.stream):
            since = time.monotonic()
            findings, numbers = self.ask(self.done, pace.count)
            took = time.monotonic() - since
            self.take(findings, numbers)
            self.done = min(len(self.stream), self.done + pace.count)
            self.adapt(pace, took)
            time.sleep(PAUSE)
        self.take(file_findings.at_end(contents, self.stream))

    def adapt(self, pace: Pace, took: float) -> None:
        if not pace.is_late(took):
            pace.go_on(took)
        elif self.done < len(self.stream):
            since = time.monotonic()
            self.ask(self.done, 0)
            pace.slow_down(took, time.monotonic() - since)
            if pace.before > MOST_BEFORE and self.lines is None:
                self.go_beside(pace)

    def go_beside(self, pace: Pace) -> None:
        self.lines, pace.short = self.asked(lambda session: list(session.edits)), LONG

    def ask(self, first: int, count: int) -> tuple[list[Finding], dict[str, int]]:
        """The findings at packets, and their numbers."""
        if self.lines is None:
            return self.asked(lambda session: answer(session, first, count))
        if self.view.contents.streams[0] != self.stream:
            raise Stale
        return self.beside.check(self.lines, first, count, self.stopped)

    def asked(self, function: Callable[[Session], Found]) -> Found:
        """What a function returns of the session of the stream, which has the packets that are checked."""
        contents = self.view.contents
        with contents.session.turn():
            if (
                self.stopped.is_set()
                or contents.session.edits.contents() is not contents
                or contents.streams[0] != self.stream
            ):
                raise Stale
            return function(contents.session)

    def first_size(self, session: Session) -> Optional[tuple[int, int]]:
        """The size of the first key packet that has one, or None. It is asked for only if it is not listed yet."""
        keys, listing = self.view.keys(0), self.view.contents.listing
        place = keys.find(1)
        while place >= 0:
            number = self.stream[place]
            if number not in listing.pictures and not self.view.is_listed:
                listing.ask(0, place, 1)
            if number in listing.pictures:
                return listing.pictures[number]
            place = keys.find(1, place + 1)
        return None

    def take(self, findings: list[Finding], numbers: Optional[dict[str, int]] = None) -> None:
        """Takes findings, of which some are damage and the others are notes."""
        if numbers is None:
            damage = sum(finding["severity"] == "damage" for finding in findings)
            numbers = {"damage": damage, "notes": len(findings) - damage}
        self.damage += numbers["damage"]
        self.notes += numbers["notes"]
        self.findings += findings[: MOST_FINDINGS - len(self.findings)]
        self.inside += [finding["packet"] for finding in findings if finding["kind"] in INSIDE]


class News:
    """What a client was told of the check of the current packets, and what there is more by now."""

    def __init__(self, live: Opened) -> None:
        self.live, self.count, self.inside = live, 0, 0
        self.check: Optional[Check] = None
        self.state: Optional[tuple[int, int, int, bool]] = None

    def events(self) -> tuple[list[bytes], Optional[float]]:
        """An event with what is new, and the seconds until there may be more; None if that needs a change."""
        revision = self.live.revision
        try:
            check = self.live.checked()
        except (Ended, Lost, Refused, OSError, ValueError) as error:
            return [event({"failed": str(error)})], None
        if revision != self.live.revision:
            return [], 0
        if check is not self.check:
            self.check, self.count, self.inside, self.state = check, 0, 0, None
        members = check.members(self.count, MOST_TOLD)
        self.count += len(members["findings"])
        state = (revision, self.count, check.done, members["over"])
        is_rest, found = self.count < len(check.findings), []
        if state != self.state:
            inside = check.inside[self.inside :]
            self.inside += len(inside)
            found = [
                event({"revision": revision, **members, "inside": inside, "over": members["over"] and not is_rest})
            ]
        self.state = state
        return found, 0 if is_rest else None if members["over"] else OFTEN


def event(members: Mapping[str, object]) -> bytes:
    """An event of a check."""
    return b"event: check\ndata: %b\n\n" % json.dumps(members).encode()
