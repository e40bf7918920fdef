"""An edited stream that several clients look at while it is edited: a session, its revision, and what starts it again
when it ends.
"""

from __future__ import annotations

import contextlib
import os
import re
import secrets
import threading
from typing import Callable, Iterable, Optional, Sequence, Tuple, TypedDict, TypeVar, Union

from ..errors import Changed, Ended, Lost, NotWritten, Refused
from ..base import rooms
from ..base.checks import AnyPath
from ..base.progress import say
from ..media import containers, facts, muxing, webm
from ..media.ivf import Rate
from ..session.contents import Contents
from ..session.edits import EditList
from ..session.outcomes import Outcomes
from ..session.session import Session
from .saves import Saves

# Frames of another size than the first one that a program served are refused: so each size has a program of its own, at
# most so many.
MOST_VIEWERS = 3
# Seconds that one request may take.
MOST_TIME = 120
# Notices that are stored.
MOST_NOTICES = 100


Found = TypeVar("Found")
# The width, height and samples of a frame.
Picture = Tuple[int, int, memoryview]


class Options(TypedDict, total=False):
    """How the sessions of a stream are opened: arguments of `Session`."""

    stream: AnyPath
    sources: Sequence[AnyPath]
    cache: Optional[int]
    tables: Optional[AnyPath]
    anyway: bool
    timeout: float


def with_damage(lines: list[str], contents: Contents) -> list[str]:
    """The lines of `vp8list --check` of the packets of source 0, with the damage of its file, which these packets do
    not have.
    """
    item = contents.inputs.all[0]
    texts = item.damage_around() if contents.is_edited(0, contents.streams[0]) else item.damage()
    if not texts or not lines:
        return lines
    summary = re.sub(r"damage: (\d+)", lambda found: f"damage: {int(found.group(1)) + len(texts)}", lines[-1])
    return [*lines[:-1], *(f"damage: {text}" for text in texts), summary]


class Viewer:
    """A session that makes the edits of another one after it, and serves frames of one size."""

    def __init__(self, live: Live) -> None:
        self.session = Session(**live.options)
        try:
            for line in live.session.edits:
                self.session.request(line, listed=False)
        except BaseException:
            self.session.kill()
            raise
        self.seen = len(live.log)

    def follow(self, log: Sequence[str]) -> None:
        """Makes the edits that were made since."""
        for line in log[self.seen :]:
            self.session.request(line, listed=False)
        self.seen = len(log)


class Live:
    """The stream. A call waits until the one before it is done."""

    # Whether packets are saved as with --pad, whether they keep their time stamps, and what is done with sound
    # (`sounds.outputs`).
    pad, keeps_stamps = False, False
    sound: Optional[str] = None
    # Whether frames are repeated or left out, so that all last as long.
    is_constant = False

    def __init__(
        self,
        options: Options,
        edits: Optional[AnyPath] = None,
        save: Union[str, os.PathLike[str], None] = None,
        stems: Iterable[str] = (),
    ) -> None:
        self.options = options.copy()
        self.options["timeout"] = MOST_TIME
        self.lock = threading.RLock()
        self.changed = threading.Condition(self.lock)
        self.instance, self.revision = secrets.token_hex(4), 1
        paths = [self.options.get("stream", "-"), *self.options.get("sources", ())]
        self.saves = Saves(save, stems, [muxing.ending_for(webm.media_of(path)) for path in paths])
        self.room = rooms.Room()
        self.viewers: list[Viewer] = []
        self.log: list[str] = []
        self.known: Optional[tuple[int, Outcomes]] = None
        self.found: Optional[tuple[int, list[str]]] = None
        self.checking = threading.Lock()
        self.closed = False
        # How often the program was started again, and what else is to be said: sentences, numbered from 1.
        self.events: list[str] = []
        self.notices: list[tuple[int, str]] = []
        self.noticed = 0
        self.told: set[str] = set()
        try:
            self.session = self.open(edits=edits)
        except BaseException:
            self.room.cleanup()
            raise

    def open(self, edits: Optional[AnyPath] = None, resume: Optional[EditList] = None) -> Session:
        session = Session(**self.options, edits=edits, resume=resume, explain=True)
        session.on_edit, session.edits.on_notice = self.heard, self.notice
        return session

    def tell_damage(self) -> None:
        """Says which files end in the middle or are damaged. What was said when a container was read is said to the
        page only.
        """
        for item in self.session.edits.contents().inputs.all:
            for text in item.damage():
                if text not in self.told:
                    self.told.add(text)
                    self.notice(text, is_said=text in containers.damage_of(item.path))

    def notice(self, text: str, is_said: bool = False) -> None:
        """Says something that nobody asked for."""
        if not is_said:
            say(text)
        self.noticed += 1
        self.notices = [*self.notices, (self.noticed, text)][-MOST_NOTICES:]

    def heard(self, line: str) -> None:
        """An edit was accepted."""
        if self.viewers:
            self.log.append(line)

    def close(self) -> None:
        """Ends the programs. The edits are in the list; the stream is saved if it was changed since the last time."""
        with self.lock:
            try:
                if not self.closed and self.saves.named is not None and self.is_to_be_saved():
                    self.save()
            finally:
                self.closed = True
                self.drop_viewers()
                self.session.kill()
                self.room.cleanup()
                self.changed.notify_all()

    def drop_viewers(self) -> None:
        for viewer in self.viewers:
            viewer.session.kill()
        self.viewers.clear()
        self.log.clear()

    def again(self, ended: object) -> None:
        """Starts the program again, from the list of edits."""
        if self.closed:
            raise Lost("the server ends")
        say(f"vp8serve ended ({ended}); it is started again from the list of edits")
        self.drop_viewers()
        before = self.session
        before.kill()
        try:
            self.session = self.open(resume=before.edits)
        except (Ended, OSError, ValueError) as error:
            raise Lost(str(error)) from None
        self.events.append("restarted")
        self.changed.notify_all()

    def add_source(self, path: AnyPath, stem: str, ending: str) -> None:
        """Opens another stream as the last source: the program is started again, from the list of edits. If it does not
        read the stream, all is as before."""
        with self.lock:
            before, edits = self.options, self.alive().edits
            # A list without edits is removed when its session ends.
            is_kept = edits.path is None or bool(len(edits) or edits.undone)
            listed, resumed = (None, edits) if is_kept else (edits.path, None)
            self.options = before.copy()
            self.options["sources"] = [*before.get("sources", ()), path]
            self.drop_viewers()
            self.session.kill()
            try:
                self.session = self.open(listed, resumed)
            except (Ended, OSError, ValueError):
                self.options = before
                self.session = self.open(listed, resumed)
                raise
            finally:
                self.forget()
            self.saves.stems.append((stem, ending))
            self.tell()

    def forget(self) -> None:
        """Nothing is known of the packets any more: the program reads the streams again."""
        self.known = self.found = None

    @property
    def changes(self) -> int:
        """How often something was changed: an edit, a save, or the program started again. Who knows the number knows
        all.
        """
        return self.revision + len(self.events) + self.saves.count

    def tell(self) -> None:
        """The stream was changed."""
        self.revision += 1
        self.changed.notify_all()

    def run(self, line: str) -> Union[str, list[str]]:
        """Makes an edit, `undo`, `redo` or `save`, and returns the reply, or the lines that were undone or made
        again.
        """
        return self.make(lambda: self.run_one(line))

    def run_step(self, lines: list[str], title: str = "") -> str:
        """Makes edits as one step for `undo`, and returns the reply to the last one. If one is refused, none is
        made.
        """

        def step() -> str:
            reply = self.session.edits.run_step(
                lines, progress=lambda done: self.on_progress(done, len(lines)), title=title
            )
            self.tell()
            return reply

        return self.make(step)

    def on_progress(self, done: int, total: int) -> None:
        """So many edits of a step were made."""

    def run_one(self, line: str) -> Union[str, list[str]]:
        if line == "save":
            return self.save()
        if line in ("undo", "redo"):
            lines = self.session.undo() if line == "undo" else self.session.redo()
            if lines:
                self.tell()
            return lines
        reply = self.session.request(line)
        self.tell()
        return reply

    def make(self, edit: Callable[[], Found]) -> Found:
        """What a function returns that edits the session. If the program ends, it is started again, and the edit is not
        made.
        """
        with self.lock:
            if self.session.is_over:
                self.again("before this edit")
            try:
                return edit()
            except Ended as ended:
                self.again(ended)
                raise Lost("vp8serve ended; the edit was not made") from None
            except NotWritten:
                # The edit was made.
                self.tell()
                raise

    def save(self, source: int = 0) -> str:
        """Writes the packets of a source, and returns the name of the file."""
        contents = self.contents()
        restamps = not self.keeps_stamps and contents.is_edited(source, contents.streams[source])
        path = self.saves.save(
            source, contents, lambda path: self.session.save(path, self.pad, source, restamps, self.sound, self.notice)
        )
        self.changed.notify_all()
        return path

    def renumbers(self, source: int = 0) -> bool:
        """Whether a save gives the packets of a source other time stamps than they have."""
        contents = self.contents()
        stream = contents.streams[source]
        if self.keeps_stamps or not contents.is_edited(source, stream):
            return False
        return any(stamp != contents.stamp(number) for stamp, number in zip(contents.stamps(source, stream)[0], stream))

    def is_saved(self) -> bool:
        """Whether the packets of all sources are as they were opened or saved."""
        with self.lock:
            contents = self.contents()
            return all(self.saves.is_saved(source, contents, stream) for source, stream in enumerate(contents.streams))

    def is_to_be_saved(self) -> bool:
        """Whether something was edited, and the file that was named does not have it."""
        contents = self.contents()
        is_edited = self.revision > 1 or len(self.session.edits) > 0
        return is_edited and self.saves.file_of(0, contents, contents.streams[0]) is None

    def picture(self, number: int, revision: Optional[int] = None) -> Picture:
        """The width, height and samples of a frame. `Changed` if the stream is of another revision."""
        return self.pictures([number], revision)[0]

    def pictures(self, numbers: Sequence[int], revision: Optional[int] = None) -> list[Picture]:
        """The same of several frames of one size."""

        def view(session: Session) -> list[Picture]:
            if revision is not None and revision != self.revision:
                raise Changed
            return self.view(session, numbers)

        return self.ask(view)

    def look(self, numbers: Sequence[int]) -> tuple[int, Rate, list[Picture]]:
        """The revision, the rate of the frames, and some of them, of one size."""
        with self.lock:
            return self.revision, self.rate(), self.pictures(numbers)

    def ask(self, function: Callable[[Session], Found]) -> Found:
        """What a function returns of the session. If the program ended, it is started again, and asked again once."""
        with self.lock:
            for last in (False, True):
                try:
                    return function(self.alive())
                except Ended as ended:
                    self.again(ended)
                    if last:
                        raise Lost("vp8serve ended twice at this request") from None
            raise AssertionError

    def view(self, session: Session, numbers: Sequence[int]) -> list[Picture]:
        """Frames of the program that serves their size."""
        try:
            return session.pictures(numbers)
        except Refused as refused:
            if refused.word != "SizeDiffers":
                raise
        for place, viewer in enumerate(self.viewers):
            try:
                viewer.follow(self.log)
                found = viewer.session.pictures(numbers)
                self.viewers.insert(0, self.viewers.pop(place))
                return found
            except Refused as refused:
                if refused.word != "SizeDiffers":
                    raise
        while len(self.viewers) >= MOST_VIEWERS - 1:
            self.viewers.pop().session.kill()
        if not self.viewers:
            self.log.clear()
        self.viewers.insert(0, Viewer(self))
        return self.viewers[0].session.pictures(numbers)

    def alive(self) -> Session:
        """The session, started again if it ended."""
        if self.session.is_over:
            self.again("before this request")
        return self.session

    def contents(self) -> Contents:
        return self.alive().edits.contents()

    def outcomes(self) -> tuple[int, Outcomes]:
        """The revision, and the outcomes of its frames."""
        with self.lock:
            if self.known is None or self.known[0] != self.revision:
                self.known = (self.revision, self.ask(Outcomes))
            return self.known

    def rate(self) -> Rate:
        with self.lock:
            return self.contents().rate

    def findings(self) -> tuple[int, list[str]]:
        """The revision, and what `vp8list --check` says of its packets of source 0, line by line."""
        with self.checking:
            with self.lock:
                revision, contents = self.revision, self.contents()
                if self.found is not None and self.found[0] == revision:
                    return self.found
                path = os.path.join(self.room.name, "checked.ivf")
                with open(path, "wb") as file:
                    file.writelines(contents.pieces(0))
            lines = [
                line.decode(errors="replace").rstrip("\n")
                for line in facts.run(contents.lister, path, "--check", statuses=(0, 1))
            ]
            lines = with_damage(lines, contents)
            with contextlib.suppress(OSError):
                os.unlink(path)
            self.found = (revision, lines)
            return self.found
