"""The stream that a page shows: with its views, its check, the stream before the edits, and previews of edits."""

from __future__ import annotations

import contextlib
import threading
import time
from concurrent.futures import Future
import functools
import os
from typing import Callable, Iterable, Iterator, Optional, Sequence, TypeVar, Union

from ..errors import Changed, Ended, Lost, Refused, Stale
from ..base.checks import AnyPath
from ..base.lines import first_word
from ..media.ivf import Rate
from ..session.contents import Contents
from ..session.origins import Run, runs_of
from ..session.session import Session
from ..server import live
from ..server.live import Options, Picture
from .checking import Check, answer
from .file_findings import Finding
from .parts import Part
from .views import View, Views

Found = TypeVar("Found")

# Seconds between two pages of a list in the background, and packets that a preview asks for at a time.
PAUSE, PAGE = 0.001, 256
# The packets of a group that a preview checks, at most; how many of the last edits a preview makes one by one,
# so that others can follow those before them.
MOST_GROUP, MOST_SINGLE = 1000, 500
# Checks whose findings are stored.
MOST_CHECKS = 8
# Seconds that a frame waits for a step of edits before another program shows it as it was before the step.
PATIENCE = 0.3
# Seconds between two looks at which of both is ready.
OFTEN = 0.05


class Opened(live.Live):
    """A stream with what a page needs. What is not the program's own work is answered while the program works."""

    def __init__(
        self,
        options: Options,
        edits: Optional[AnyPath] = None,
        save: Union[str, os.PathLike[str], None] = None,
        pad: bool = False,
        stems: Iterable[str] = (),
    ) -> None:
        self.pad = pad
        self.current: Optional[View] = None
        self.views = Views()
        self.known_runs: Optional[tuple[tuple[Contents, str, list[int]], list[Run]]] = None
        self.check_lock, self.count = threading.Lock(), 0
        self.check: Optional[Check] = None
        self.checks: list[Check] = []
        self.originals: dict[int, live.Live] = {}
        self.begin_others(options)
        # While an edit is made: the revision before it, the rate of the frames, and the edits that were made by then.
        self.before: Optional[tuple[int, Rate, list[str]]] = None
        # What goes on: a word, how much of it is done, of how much, and since when; and the same of a stream that is
        # opened.
        self.doing: Optional[tuple[str, int, int, float]] = None
        self.taking: Optional[Part] = None
        super().__init__(options, edits, save, stems)
        threading.Thread(target=self.list_files, daemon=True).start()

    # Views

    def list_files(self) -> None:
        """Lists the headers of all packets, some at a time; until that is done, no packet is known to be refused."""
        with contextlib.suppress(OSError, Ended, Lost, Refused):
            self.session.read_indexes()
            with self.lock:
                contents = self.contents()
                self.tell_damage()
            for source in range(len(contents.streams)):
                while source not in contents.listing.seen:
                    contents.listing.go_on(source)
                    # Whoever waits for the session comes first.
                    time.sleep(PAUSE)
            # What the first edit writes to the list.
            for item in contents.inputs.all:
                item.digest()
            with self.lock:
                if self.current is not None and self.current.contents is contents:
                    self.current = self.make_view(self.current)
                self.changed.notify_all()

    def current_view(self) -> View:
        """The view of the current revision."""
        found = self.current
        if found is not None and found.revision == self.revision:
            return found
        with contextlib.suppress(OSError, ValueError):
            # Frames are answered meanwhile.
            self.session.read_indexes()
        with self.lock:
            found = self.current
            if found is None or found.revision != self.revision:
                found = self.current = self.ask(lambda session: self.make_view(self.current))
            return found

    def make_view(self, before: Optional[View]) -> View:
        contents = self.contents()
        if contents.listing.is_whole or contents.made:
            contents.listing.learn()
        if before is not None and before.contents is not contents:
            before = None
        return View(self.revision, contents, self.session, before, self.served)

    def served(self, view: View) -> list[Run]:
        """The frames that the script serves at a revision, as runs. They stay the same as long as the script and the
        numbers of frames of the sources do. `Changed` if the stream is of another revision."""
        with self.lock:
            if view.revision != self.revision:
                raise Changed
            key = (view.contents, view.script, view.shown)
            if self.known_runs is None or self.known_runs[0] != key:
                self.known_runs = (key, self.ask(lambda session: runs_of(session, view.script, view.frames)))
            return self.known_runs[1]

    def tell(self) -> None:
        super().tell()
        if self.current is not None:
            # If the program ended, the view is made when it is asked for.
            with contextlib.suppress(Ended):
                self.current = self.make_view(self.current)

    def again(self, ended: object) -> None:
        super().again(ended)
        # Its packets are read again, and listed again.
        self.current = None
        threading.Thread(target=self.list_files, daemon=True).start()

    def forget(self) -> None:
        super().forget()
        self.current = None
        self.close_others()
        self.begin_others(self.options)
        threading.Thread(target=self.list_files, daemon=True).start()

    @contextlib.contextmanager
    def opening(self, name: str) -> Iterator[Part]:
        """While a stream is opened, `taking` is how much of its packets was taken out of a container."""
        self.taking = Part(f"taking the packets out of {name}")
        try:
            yield self.taking
        finally:
            self.taking = None

    # Edits

    def make(self, edit: Callable[[], Found]) -> Found:
        self.doing = ("edit", 0, 1, time.monotonic())
        try:
            with self.lock:
                view = self.current
                if view is not None and view.revision == self.revision and not self.session.is_over:
                    self.before = (view.revision, view.rate, list(self.session.edits))
                return super().make(edit)
        finally:
            self.doing = self.before = None

    def look(self, numbers: Sequence[int]) -> tuple[int, Rate, list[Picture]]:
        """Frames do not wait for all of a large step: another program shows them as they were before it, if it is
        faster than the step.
        """
        if not self.lock.acquire(timeout=PATIENCE):
            before = self.before
            found = None if before is None else begun(functools.partial(self.meanwhile.pictures, before[2], numbers))
            while not self.lock.acquire(timeout=OFTEN):
                if before is not None and found is not None and found.done():
                    return before[0], before[1], found.result()
        try:
            return super().look(numbers)
        finally:
            self.lock.release()

    def on_progress(self, done: int, total: int) -> None:
        # Another change that ended meanwhile has cleared it.
        since = time.monotonic() if self.doing is None else self.doing[3]
        self.doing = ("edit", done, total, since)

    def close(self) -> None:
        if self.saves.named is None or self.is_known_saved():
            interrupt(self)
        for original in self.originals.values():
            interrupt(original)
            original.close()
        self.close_others()
        super().close()

    def begin_others(self, options: Options) -> None:
        """Programs beside the one of the stream: of edits that are not made, of packets that no frame shows, of checks
        of long streams, and of frames while an edit is made.
        """
        self.preview, self.aside, self.beside = (Preview(options) for _ in range(3))
        self.meanwhile = Preview(options, 0)

    def close_others(self) -> None:
        # A check would start them again.
        with self.check_lock:
            if self.check is not None:
                self.check.stop()
        for other in (self.preview, self.aside, self.beside, self.meanwhile):
            other.close()

    def is_known_saved(self) -> bool:
        """Whether there is nothing to save at the end, without waiting for a request that goes on."""
        view = self.current
        if view is None or view.revision != self.revision:
            return False
        is_edited = self.revision > 1 or len(self.session.edits) > 0
        return not is_edited or self.saves.file_of(0, view.contents, view.streams[0]) is not None

    # What is beside the stream

    def checked(self) -> Check:
        """The check of the current stream, begun now if it is another one than that of the check before."""
        view = self.living_view()
        with self.check_lock:
            check = self.check
            if check is None or check.is_left or not (check.is_of(view) or self.was_last_try(check, view)):
                check = self.check = self.known_check(view) or self.new_check(view)
            return check

    def living_view(self) -> View:
        """The view of the current revision, of a session that answers."""
        view = self.current_view()
        if view.contents.session.is_over:
            self.ask(lambda session: None)
            view = self.current_view()
        return view

    def was_last_try(self, check: Check, view: View) -> bool:
        """Whether the session ended with several checks of a revision: another one would end it again."""
        return check.has_ended and check.view.revision == view.revision

    def known_check(self, view: View) -> Optional[Check]:
        """A check of the same packets that is over: after undo, nothing is checked again."""
        return next((check for check in self.checks if check.is_whole and check.is_of(view)), None)

    def new_check(self, view: View) -> Check:
        tries = 0
        if self.check is not None:
            self.check.stop()
            if self.check.has_ended and self.check.view.revision == view.revision:
                tries = self.check.tries + 1
        self.count += 1
        check = Check(view, self.count, self.beside, tries)
        self.checks = [check, *(old for old in self.checks if old.is_whole)][:MOST_CHECKS]
        return check

    def original(self, source: int) -> live.Live:
        """A source as it was opened, without edits and without a script."""
        with self.check_lock:
            if source not in self.originals:
                options = self.options.copy()
                options["stream"] = [self.options["stream"], *self.options.get("sources", ())][source]
                options["sources"] = ()
                self.originals[source] = live.Live(options)
            return self.originals[source]


def begun(function: Callable[[], Found]) -> Future[Found]:
    """What a function returns, in a thread of its own."""
    found: Future[Found] = Future()

    def work() -> None:
        try:
            found.set_result(function())
        except BaseException as error:
            found.set_exception(error)

    threading.Thread(target=work, daemon=True).start()
    return found


class Preview:
    """A program that makes edits so that their pictures can be seen before they are made."""

    def __init__(self, options: Options, most_single: int = MOST_SINGLE) -> None:
        self.options, self.most_single, self.lock = options, most_single, threading.Lock()
        self.live: Optional[live.Live] = None

    def follow(self, lines: Sequence[str]) -> live.Live:
        """Makes the list of the edits these lines, and returns what has it."""
        if self.live is None:
            self.live = live.Live(self.options)
        made = self.live
        mine = list(made.session.edits)
        common = next(
            (place for place, pair in enumerate(zip(mine, lines)) if pair[0] != pair[1]), min(len(mine), len(lines))
        )
        while len(mine) > common:
            made.run("undo")
            mine = list(made.session.edits)
        rest = list(lines[len(mine) :])
        place = max(0, len(rest) - self.most_single)
        if place:
            made.run_step(rest[:place])
        for line in rest[place:]:
            made.run(line)
        return made

    def pictures(self, lines: Sequence[str], frames: Sequence[int]) -> list[Picture]:
        """The width, height and samples of frames of one size after these edits."""
        with self.lock:
            return self.follow(lines).pictures(frames)

    def packet(self, lines: Sequence[str], source: int, packet: int, frame: Optional[int] = None) -> Picture:
        """The picture of a packet of a source after these edits, without the script. `frame` is its frame in the
        source, if that is known.
        """
        lines = [line for line in lines if first_word(line) != "script"]
        with self.lock:
            made = self.follow([*lines, *([f"script source {source}"] if source else [])])
            if frame is None:
                frame = made.ask(lambda session: frame_at(session, source, packet))
            return made.picture(frame)

    def findings(self, lines: Sequence[str], packet: int) -> list[Finding]:
        """The findings at the group of pictures that has a packet of source 0, after these edits."""
        with self.lock:
            made = self.follow(lines)
            return made.ask(lambda session: findings_of(session, *group_of(session, packet)))

    @property
    def is_open(self) -> bool:
        return self.live is not None

    def check(
        self, lines: Sequence[str], first: int, count: int, stopped: threading.Event
    ) -> tuple[list[Finding], dict[str, int]]:
        """What `check` reports of packets of source 0 after these edits. `Stale` if the check was stopped: a closed
        program is not started again for it.
        """
        with self.lock:
            if stopped.is_set():
                raise Stale
            made = self.follow(lines)
            return made.ask(lambda session: answer(session, first, count))

    def close(self) -> None:
        if self.live is not None:
            interrupt(self.live)
        with self.lock:
            if self.live is not None:
                self.live.close()
                self.live = None


def interrupt(stream: live.Live) -> None:
    """Ends the program of a stream that is closed, also in the middle of a frame."""
    stream.closed = True
    stream.session.kill()


def findings_of(session: Session, first: int, end: int) -> list[Finding]:
    """The findings at packets of source 0, from one index to another."""
    return answer(session, first, end - first)[0]


def frame_at(session: Session, source: int, packet: int) -> int:
    """The frame that shows a packet of a source, or the next shown one after it, or else the last one, of a script that
    serves this source.
    """
    while True:
        found = session.packets(range(packet, packet + PAGE), source)
        frame: Optional[int] = next((facts["frame"] for facts in found if facts["frame"] is not None), None)
        if frame is not None:
            return frame
        if len(found) < PAGE:
            return max(0, session.count().frames - 1)
        packet += PAGE


def group_of(session: Session, packet: int) -> tuple[int, int]:
    """The packets of source 0 from the key packet at or before a packet to the next one, as a range of indexes."""
    count = len(session.edits.contents().streams[0])
    packet = max(0, min(packet, count - 1))
    first, end = packet + 1, packet + 1
    while first > 0:
        begin = max(0, first - PAGE)
        keys = [facts["packet"] for facts in session.packets(range(begin, first), 0) if facts["kind"] == "key"]
        first = keys[-1] if keys else begin
        if keys:
            break
    while end < min(count, first + MOST_GROUP):
        found = session.packets(range(end, end + PAGE), 0)
        key = next((facts["packet"] for facts in found if facts["kind"] == "key"), None)
        if key is not None:
            end = key
            break
        end += len(found)
    return first, min(end, first + MOST_GROUP, count)
