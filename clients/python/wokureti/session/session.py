"""A session of vp8serve that stays open: look at a frame, decide, edit, look again."""

from __future__ import annotations

import contextlib
import dataclasses
import functools
import operator
import os
import pathlib
import re
import threading
import time
import weakref
from typing import Any, Callable, ContextManager, Iterable, Iterator, NamedTuple, Optional, Union, overload

from .. import system
from ..errors import Ended, Gone, Late, NotExported, NotIvf, NotVideo, Refused, Strange, Unexported
from ..base import checks, files, programs, rooms
from ..base.checks import AnyBytes, AnyPath, AnyStream
from ..base.lines import EDITS, begins_reply, first_word, is_edit, is_refusal, objects_of, plain, rest_of, words_of
from ..base.progress import Reading, of_program, say
from ..media import containers, ivf, looks, muxing, times
from . import exports, named, outcomes
from .edits import EditList
from .frames import Frame, Times, frame_of
from .inputs import Inputs
from .library import MOST_FILE, Answer, Library, engine_of
from .pipes import Pipes
from .scripts import Script

# Lines and bytes that are sent at a time, at most.
MOST_LINES, MOST_BYTES = 500, 1 << 18
# What a program says of a file that does not begin as a stream.
NO_STREAM = re.compile(r"(?:vp8serve|libwokureti): (?:input|source (\d+)) (?:Magic|Header|FourCc|HeaderLength)")
# The first words of lines after which frames may be others.
CHANGES = frozenset(word.encode() for word in EDITS - {"use"})
# Packets of a source, at most.
MOST_PACKETS = 1 << 20
# Bytes of pictures that the program caches where nothing else is said.
MOST_CACHED = 512 << 20


class Count(NamedTuple):
    """The number of packets of the current source, and of the frames that the script serves."""

    packets: int
    frames: int


@dataclasses.dataclass(frozen=True)
class Settings:
    """How the engine of a session is started: the paths of vp8serve and vp8list, the tables, the file that gets the
    packets and whether they are padded in it, the cache, and whether a refusal is explained."""

    program: str
    lister: str
    tables: Optional[AnyPath]
    save: Optional[AnyPath]
    pad: bool
    cache: Optional[int]
    cache_bytes: Optional[int]
    explain: bool

    @property
    def files(self) -> list[AnyPath]:
        """The files that are named besides the streams."""
        return [path for path in (self.save, self.tables) if path is not None]

    @property
    def most_bytes(self) -> int:
        """The bytes that pictures may take in the cache."""
        return checks.number(MOST_CACHED if self.cache_bytes is None else self.cache_bytes)


class Session:
    """A session over an IVF or WebM file, or over an empty stream if `stream` is `-`: the library answers it, or a
    running vp8serve. Of a file in another container, such as MP4, the packets are copied out first, by Python's av or
    ffmpeg. A stream is a path, the bytes of a file, or a file that is open for reading. A file that cannot be opened is
    an `OSError`, such as `FileNotFoundError`, and one that is not a stream of VP8 is `NotVideo`, which says what it
    looks like.

    `len(session)` is the number of frames, `session[3]` and `session[-1]` are frames, `session[3:9]` is a list of them,
    and a loop over a session has one frame after the other.

    `sources` are sources 1 to 7, `cache` the number of cached states, or `cache_bytes` the number of bytes that their
    pictures may take, 512 MiB if neither is given, `tables` a file that replaces the RFC's long tables, and `save` the
    file that gets the packets of source 0 when the session is closed; with `pad` players that use libvpx show the
    packets of `blank` and `hold` in it too. `program` is the path of vp8serve, `lister` the path of vp8list, by which
    WebM files are opened.

    `edits` is a file that the accepted edits are written to, each when it was accepted; if the file exists, its edits
    are made first. A list of another stream is refused, unless `anyway` is true. `resume` is the list of a session that
    ended, with which this one goes on. `timeout` is the number of seconds that a call may take, if it gives none of its
    own. With `explain` the program says why it refuses a request, in `Refused.reason`.

    `engine` is "library" or "program". With the library there is no program: the same proved code answers in this
    process, from `libwokureti.so.0`, without a pipe; a call that takes too long is left to its thread, and the session
    is over. The program is a process of its own, which can be ended. Where nothing is said, here or in the variable
    WOKURETI_ENGINE, it is the library where one of this version is found, and the program where `program` or the
    variable VP8SERVE names one. `session.engine` is what was taken.

    Threads may share a session: a call waits until the one before it has its reply and its picture. What leaves a call
    in the middle, as an exception of a signal's handler, or a call that takes too long, ends the session, since the
    reply would be taken for the next one's. From then on each call raises `Ended`. A session that is not closed ends
    when it is collected, and when Python ends; nothing is saved then. In a forked child it is over, and lives on in the
    parent.
    """

    def __init__(
        self,
        stream: AnyStream = "-",
        sources: Iterable[AnyStream] = (),
        *,
        cache: Optional[int] = None,
        cache_bytes: Optional[int] = None,
        tables: Optional[AnyPath] = None,
        save: Optional[AnyPath] = None,
        pad: bool = False,
        edits: Optional[AnyPath] = None,
        anyway: bool = False,
        resume: Optional[EditList] = None,
        timeout: Optional[float] = None,
        explain: bool = False,
        engine: Optional[str] = None,
        program: Optional[str] = None,
        lister: Optional[str] = None,
    ) -> None:
        # Called with the line of each edit that was accepted, also with those of `undo` and `redo`.
        self.on_edit: Optional[Callable[[str], None]] = None
        self._lock = threading.RLock()
        self._ended: Optional[tuple[Optional[int], str]] = None
        self._pending: Optional[str] = None
        self._timeout = timeout
        self._lines = 0
        # The number of edits that were asked for.
        self._changes = 0
        # The new file of a save, while the program runs.
        self._unfinished: Optional[rooms.Unfinished] = None
        # "library" or "program".
        self.engine: str = engine_of(engine, program)
        if edits is not None and resume is None:
            sources = named.with_named(sources, edits)
        serve, lists = program or programs.find("vp8serve"), lister or programs.find("vp8list")
        self._settings = Settings(serve, lists, tables, save, pad, cache, cache_bytes, explain)
        self._inputs = Inputs(
            [checks.stream(stream), *checks.sources(sources)],
            (serve, lists),
        )
        self._edits = EditList(self)
        try:
            words = self._words()
            if edits is not None:
                checks.outputs(edits, [*self._inputs.paths, *self._settings.files], "edits")
            self._edits = EditList(self, edits, anyway)
            self._pipes: Union[Pipes, Library] = (
                Pipes(words, self._inputs.shared) if self.engine == "program" else self._library()
            )
        except Ended as ended:
            error = self._opening_error(ended)
            self._close_files()
            raise error from None
        except BaseException:
            self._close_files()
            raise
        try:
            # The reply comes once the files were read, so a file that is not IVF is reported here.
            with self._reading():
                self._first_request()
            if save is not None and isinstance(self._pipes, Pipes):
                rooms.sweep()
                self._unfinished = rooms.Unfinished(self._pipes.process.pid, save)
            self._inputs.check()
            self._edits.load() if resume is None else self._edits.resume(resume)
        except BaseException:
            self.kill()
            raise

    def _reading(self) -> ContextManager[object]:
        """Shows how much of the files the program has read; the library was given their bytes."""
        if not isinstance(self._pipes, Pipes):
            return contextlib.nullcontext()
        paths = [(containers.name_of(path), word) for path, word in zip(self._inputs.paths, self._inputs.words)]
        return Reading(of_program(self._pipes.process.pid, paths, self._inputs.shared))

    def _first_request(self) -> None:
        try:
            self.request("stats")
        except Ended as ended:
            raise self._opening_error(ended) from None

    def _opening_error(self, ended: Ended) -> Ended:
        """Why a session ended before it began: `NotVideo` with the name of the file, if one is no stream."""
        found = NO_STREAM.fullmatch(ended.text)
        if found is None:
            return ended
        path = self._inputs.paths[int(found.group(1) or 0)]
        try:
            with open(path, "rb") as file:
                ivf.parse_head(file.read(ivf.HEAD.size))
            return ended
        except NotIvf as error:
            return NotVideo(ended.status, looks.sentence(path, path, error))
        except OSError:
            return ended

    def _words(self) -> list[str]:
        """The command line of the program."""
        streams, settings = self._inputs.words, self._settings
        save, tables = settings.save, settings.tables
        words = [settings.program, streams[0], "-", "{frames}", "--live"]
        if len(streams) > 1:
            words += ["--sources", system.SEPARATOR.join(streams[1:])]
        if save is not None:
            if muxing.ending_of(save) is not None:
                raise ValueError(
                    f"save= is an IVF file, which the program writes: {os.fsdecode(save)!r} is written by"
                    " session.save()"
                )
            checks.outputs(save, [*self._inputs.paths, *([] if tables is None else [tables])], "save")
            words += ["--save", checks.path(save)]
        if tables is not None:
            words += ["--tables", checks.path(tables)]
        if settings.cache is not None:
            words += ["--cache", str(checks.states(settings.cache))]
        if settings.cache_bytes is not None or settings.cache is None:
            words += ["--cache-bytes", str(settings.most_bytes)]
        return words + ["--pad"] * bool(settings.pad) + ["--explain"] * bool(settings.explain)

    def _library(self) -> Library:
        """The session in this process, over the bytes of the files as they were opened."""
        settings, inputs = self._settings, self._inputs.all
        cache, save, tables = settings.cache, settings.save, settings.tables
        if cache is not None and settings.cache_bytes is not None:
            raise ValueError("either cache or cache_bytes is given, not both")
        try:
            streams = [self._whole(item.path, functools.partial(item.whole, MOST_FILE + 1)) for item in inputs]
            long_tables = b"" if tables is None else self._whole(tables, pathlib.Path(os.fsdecode(tables)).read_bytes)
            if (
                save is not None
                and not os.path.exists(save)
                and not os.access(os.path.dirname(os.path.realpath(save)), os.W_OK | os.X_OK)
            ):
                raise Gone(f"cannot write {os.fsdecode(save)}")
            return Library(
                streams,
                None if cache is None else checks.states(cache),
                settings.most_bytes if cache is None else None,
                long_tables,
                None if save is None else checks.path(save),
                settings.pad,
                settings.explain,
                None if inputs[0].facts is None else inputs[0].frame_rate,
            )
        except Gone as error:
            raise Ended(1, f"libwokureti: {error}") from None

    @staticmethod
    def _whole(path: AnyPath, read: Callable[[], bytes]) -> bytes:
        """The bytes of a file, as a program reads it whole. `Gone` if it cannot be read, or has more bytes than a
        program takes.
        """
        try:
            found = read()
        except OSError:
            raise Gone(f"cannot read {os.fsdecode(path)}") from None
        if len(found) > MOST_FILE:
            raise Gone(f"{os.fsdecode(path)} is too long")
        return found

    def _close_files(self) -> None:
        self._edits.close()
        self._inputs.close()

    def __enter__(self) -> Session:
        return self

    def __exit__(self, kind: object, value: object, trace: object) -> None:
        if kind is None:
            self.close()
        else:
            self.kill()

    def close(self, timeout: Optional[float] = None) -> None:
        """Ends the session; the program then saves the packets, if that was asked for. `Ended` if it failed."""
        if not self._pipes.owner_is_here():
            return
        with self._locked(timeout) as deadline:
            if self._ended:
                return
            self._pending = "close"
            try:
                status, text = self._pipes.finish(deadline)
            except Late:
                self._end("the program did not end in time, so it was ended: what it saved is not whole")
                raise self._error() from None
            except BaseException as error:
                self._end(f"closing was left in the middle ({type(error).__name__})")
                raise
            self._over(status, "the session was closed" if status == 0 else text)
            if status != 0:
                raise self._error()

    def kill(self) -> None:
        """Ends the session now. Nothing is saved."""
        if self._ended or not self._pipes.owner_is_here():
            return
        # A call that another thread makes then ends at once.
        self._pipes.kill()
        with self._lock:
            if self._ended is None:
                self._end("the session was ended")

    def _end(self, text: str) -> None:
        """Ends the program, which is in the middle of something, for this reason."""
        self._pipes.kill()
        status, said = self._pipes.collect()
        self._over(status, text)

    def _over(self, status: Optional[int], text: str) -> None:
        self._ended = (status, text)
        self._pending = None
        if self._unfinished is not None:
            self._unfinished.clear()
        self._close_files()

    def _error(self) -> Ended:
        assert self._ended is not None
        return Ended(*self._ended)

    def _locked(self, timeout: Optional[float]) -> _Turn:
        if not self._pipes.owner_is_here():
            # The lock may be held by a thread that is not in this process.
            raise Ended(None, "the session belongs to the process that opened it")
        return _Turn(self._lock, self._timeout if timeout is None else timeout)

    def request(self, line: str, timeout: Optional[float] = None, listed: bool = True) -> str:
        """The reply to a request line, without its newline: one line, or `lines K` and K lines. A picture that it
        serves is dropped.

        `Refused` if the reply is a refusal, `Ended` if the session is over. An edit that is not `listed` is not in the
        list of edits.
        """
        reply, _ = self._ask(line, timeout, listed)
        return reply

    def request_all(
        self, lines: Iterable[str], timeout: Optional[float] = None, progress: Optional[Callable[[int], None]] = None
    ) -> list[Union[str, Refused]]:
        """The replies to edits, which are not listed, and to questions between them. Many are sent together, so a reply
        may be a refusal, as an exception in the list: after one of an edit those that were sent with it are made, and
        those after them are not. `progress` is called with how many lines were answered."""
        replies: list[Union[str, Refused]] = []
        for batch in batches(lines):
            with self._locked(timeout) as deadline:
                found = self._exchange(*map(checks.line, batch), deadline=deadline)
                first, is_refused = self._lines - len(found) + 1, False
                for number, (line, (reply, _)) in enumerate(zip(batch, found), first):
                    if not is_edit(line):
                        replies.append(Refused(reply) if is_refusal(reply) else reply)
                    elif is_refusal(reply):
                        # The program explains them in their order: the first one is that of the first line.
                        replies.append(Refused(reply) if is_refused else self._refused(reply, number, deadline))
                        is_refused = True
                    else:
                        replies.append(reply)
                        if self.on_edit is not None:
                            self.on_edit(line)
            if progress is not None:
                progress(len(replies))
            if is_refused:
                break
        return replies

    def _ask(self, line: str, timeout: Optional[float] = None, listed: bool = True) -> Answer:
        """The reply to a request line, and the width, height and samples of its picture, if it serves one."""
        text = checks.line(line)
        is_known = is_edit(line) and first_word(line) in EDITS
        # What the edit loses is asked for, so that it can be taken back.
        with self._locked(timeout) as deadline:
            question = self._edits.question(line) if is_known and listed and not self._ended else None
            *answers, (reply, picture) = self._exchange(
                *([] if question is None else [question.encode()]), text, deadline=deadline
            )
            if is_refusal(reply):
                raise self._refused(reply, self._lines, deadline)
            if is_known:
                if self.on_edit is not None:
                    self.on_edit(line)
                if listed:
                    self._edits.accept([(plain(line), rest_of(answers[0][0]) if answers else "")])
            return reply, picture

    def _exchange(self, *lines: bytes, deadline: Optional[float]) -> list[Answer]:
        """Writes lines and reads their replies. Whatever leaves this in the middle ends the session, which then names
        the last line.
        """
        if self._ended:
            raise self._error()
        if self._pending is not None:
            self._end(f"{self._pending} was left in the middle, so the session was ended")
            raise self._error()
        self._pending = shown = _shown(lines[-1])
        try:
            self._lines += len(lines)
            self._changes += sum(line.lstrip(b" ").partition(b" ")[0] in CHANGES for line in lines)
            found = self._pipes.exchange([line + b"\n" for line in lines], deadline)
            for line, (reply, _) in zip(lines, found):
                if not is_reply(reply, line):
                    raise Strange(repr(reply[:80]))
        except Gone:
            self._over(*self._pipes.collect())
            raise self._error() from None
        except Late:
            self._end(f"no reply to {shown} in time, so the session was ended")
            raise self._error() from None
        except (Strange, ValueError) as error:
            self._end(f"the answer to {shown} is not one of vp8serve, so the session was ended: {error}")
            raise self._error() from None
        except BaseException as error:
            self._end(f"{shown} was left in the middle ({type(error).__name__}), so the session was ended")
            raise
        self._pending = None
        return found

    def _refused(self, reply: str, number: int, deadline: Optional[float]) -> Refused:
        """The exception of the refusal of line `number`. The reply to another request says that its explanation was
        written.
        """
        if not self._settings.explain:
            return Refused(reply)
        self._exchange(b"stats", deadline=deadline)
        return Refused(reply, self._pipes.explanation(number))

    def ask(self, question: str, source: Optional[int] = None, timeout: Optional[float] = None) -> str:
        """The reply to a question about the packets of a source, without its newline. The current source stays as it
        is, also if the question is refused.
        """
        return self.ask_all([question], source, timeout)[0]

    def ask_all(
        self, questions: Iterable[str], source: Optional[int] = None, timeout: Optional[float] = None
    ) -> list[str]:
        """The replies to several questions about the packets of a source, of which many are sent together. The first
        one that is refused raises `Refused`.
        """
        replies = []
        with self._locked(timeout) as deadline:
            current = self._edits.current
            there: list[bytes] = []
            back: list[bytes] = []
            if source is not None and source != current:
                there, back = [f"use {checks.number(source)}".encode()], [f"use {current}".encode()]
            for batch in batches(questions):
                found = self._exchange(*there, *map(checks.question, batch), *back, deadline=deadline)
                if there and is_refusal(found[0][0]):
                    raise self._refused(found[0][0], self._lines - len(found) + 1, deadline)
                first = self._lines - len(found) + len(there) + 1
                for number, (reply, _) in enumerate(found[len(there) : len(found) - len(back)], first):
                    if is_refusal(reply):
                        raise self._refused(reply, number, deadline)
                    replies.append(reply)
        return replies

    def turn(self, timeout: Optional[float] = None) -> ContextManager[Optional[float]]:
        """A block in which no other thread has the session."""
        return self._locked(timeout)

    def _number(self, line: str, timeout: Optional[float] = None) -> int:
        return int(words_of(self.request(line, timeout))[1])

    def frame(self, number: int, timeout: Optional[float] = None) -> Frame:
        """Frame `number` of the current stream."""
        with self._locked(timeout):
            return frame_of(checks.number(number), *self.picture(number, timeout), self._times_of(number))

    def _times_of(self, number: int) -> Callable[[], Optional[Times]]:
        """What finds the times of a frame, as long as the session is as it is now."""
        this, changes = weakref.ref(self), self._changes

        def times_now() -> Optional[Times]:
            session = this()
            if session is None:
                return None
            with session._locked(None):
                return None if session._ended or session._changes != changes else session._times(number)

        return times_now

    def _times(self, number: int) -> Times:
        """The times of a frame of the current script: those of its packet, in the time base of its source."""
        [origin] = objects_of(self.ask(f"origins {number} 1"))
        contents, source = self._edits.contents(), origin["source"]
        packet = contents.streams[source][origin["packet"]]
        rate, scale = times.base_of(self._inputs.all[source].head)
        return Times(contents.stamp(packet), contents.duration(packet, source), rate, scale)

    def picture(self, number: int, timeout: Optional[float] = None) -> tuple[int, int, memoryview]:
        """The width, height and samples of a frame, the samples of the three planes one after the other."""
        _, picture = self._ask(f"frame {checks.number(number)}", timeout)
        assert picture is not None
        return picture

    def pictures(self, numbers: Iterable[int], timeout: Optional[float] = None) -> list[tuple[int, int, memoryview]]:
        """The pictures of several frames, as `picture` has them. All are asked for before the first is read, so the
        program never waits.

        The first one that is refused raises `Refused`.
        """
        lines = [f"frame {checks.number(number)}".encode() for number in numbers]
        with self._locked(timeout) as deadline:
            found = self._exchange(*lines, deadline=deadline) if lines else []
            for number, (reply, picture) in enumerate(found, self._lines - len(found) + 1):
                if picture is None:
                    raise self._refused(reply, number, deadline)
        return [picture for _, picture in found if picture is not None]

    @property
    def is_over(self) -> bool:
        """Whether the session is known to have ended."""
        return self._ended is not None

    def frames(self, numbers: Optional[Iterable[int]] = None, timeout: Optional[float] = None) -> Iterator[Frame]:
        """The frames of a range, one after the other; without a range all of them. `timeout` is for each frame."""
        if numbers is None:
            numbers = range(self.count(timeout).frames)
        for number in numbers:
            yield self.frame(number, timeout)

    def __len__(self) -> int:
        return self.count().frames

    def __iter__(self) -> Iterator[Frame]:
        return self.frames()

    @overload
    def __getitem__(self, number: int) -> Frame:
        ...

    @overload
    def __getitem__(self, number: slice) -> list[Frame]:
        ...

    def __getitem__(self, number: Union[int, slice]) -> Union[Frame, list[Frame]]:
        """A frame, from the end if its number is negative, or those of a slice. `IndexError` if there is none."""
        count = self.count().frames
        if isinstance(number, slice):
            numbers = range(count)[number]
            with self._locked(None):
                return [
                    frame_of(one, *picture, self._times_of(one))
                    for one, picture in zip(numbers, self.pictures(numbers))
                ]
        place = operator.index(number)
        if not -count <= place < count:
            raise IndexError(f"there is no frame {place}: the script serves {count} frames")
        return self.frame(place % count)

    @property
    def width(self) -> int:
        """The width of the first frame that is served, in luma samples. Nothing is decoded; 0 if there is none."""
        return self._size[0]

    @property
    def height(self) -> int:
        """The height of the first frame that is served."""
        return self._size[1]

    @property
    def _size(self) -> tuple[int, int]:
        with self._locked(None):
            runs = outcomes.of_script(self)
            return next((outcome for _, outcome in runs if isinstance(outcome, tuple)), (0, 0))

    def use(self, source: int, timeout: Optional[float] = None) -> int:
        """Later edits act on this source. Like every edit it returns the number of packets of the current source."""
        return self._number(f"use {checks.number(source)}", timeout)

    def insert(self, at: int, data: AnyBytes, stamp: int = 0, timeout: Optional[float] = None) -> int:
        """Inserts a packet of these bytes at an index, with this time stamp."""
        return self._number(f"insert {checks.number(at)} {checks.number(stamp)} {checks.hexadecimal(data)}", timeout)

    def replace(self, at: int, data: AnyBytes, timeout: Optional[float] = None) -> int:
        """Gives a packet other bytes; it keeps its time stamp."""
        return self._number(f"replace {checks.number(at)} {checks.hexadecimal(data)}", timeout)

    def delete(self, at: Union[int, range], timeout: Optional[float] = None) -> int:
        """Deletes a packet, or those of a range of indexes, which is one step for `undo`. If one is refused, none is
        deleted.
        """
        # The last one comes first, so the others keep their indexes.
        lines = [f"delete {index}" for index in checks.indexes(at)]
        if not lines:
            return self.count(timeout).packets
        with self._locked(timeout):
            return int(words_of(self._edits.run_step(lines, timeout))[1])

    def move(self, index: int, to: int, timeout: Optional[float] = None) -> int:
        """Removes a packet and inserts it at index `to` of the remaining ones."""
        return self._number(f"move {checks.number(index)} {checks.number(to)}", timeout)

    def copy(self, source: int, index: int, at: int, timeout: Optional[float] = None) -> int:
        """Inserts a copy of a packet of a source, which may be the current one."""
        return self._number(f"copy {checks.number(source)} {checks.number(index)} {checks.number(at)}", timeout)

    def blank(self, at: int, width: int, height: int, timeout: Optional[float] = None) -> int:
        """Inserts a grey key frame."""
        return self._number(f"blank {checks.number(at)} {checks.number(width)} {checks.number(height)}", timeout)

    def hold(self, at: int, timeout: Optional[float] = None) -> int:
        """Inserts a packet that shows the last picture again."""
        return self._number(f"hold {checks.number(at)}", timeout)

    def hide(self, at: int, timeout: Optional[float] = None) -> int:
        """Clears the show bit of a packet: it is decoded as before, and no frame shows it."""
        return self._number(f"hide {checks.number(at)}", timeout)

    def show(self, at: int, timeout: Optional[float] = None) -> int:
        """Sets the show bit of a packet: a frame shows it."""
        return self._number(f"show {checks.number(at)}", timeout)

    def script(self, *nodes: Union[str, Script], timeout: Optional[float] = None) -> int:
        """Sets the script: a `Script`, or a text for each node, as `script("trim 0 0 50", "fade 1 25 25 256 0")`; none:
        no script.
        """
        return self._number("script " + ("; ".join(map(checks.node, nodes)) or "-"), timeout)

    def count(self, timeout: Optional[float] = None) -> Count:
        """The number of packets and frames."""
        words = words_of(self.request("count", timeout))
        return Count(int(words[1]), int(words[3]))

    def decoded(self, timeout: Optional[float] = None) -> int:
        """The number of packets that were decoded so far."""
        return self._number("stats", timeout)

    @property
    def edits(self) -> EditList:
        """The list of the accepted edits, an `EditList`."""
        return self._edits

    def undo(self, timeout: Optional[float] = None) -> list[str]:
        """Takes the last edit back, and returns its lines; an empty list if there is none."""
        with self._locked(timeout):
            return self._edits.undo(timeout)

    def redo(self, timeout: Optional[float] = None) -> list[str]:
        """Makes the edit again that was taken back last, and returns its lines; an empty list if there is none."""
        with self._locked(timeout):
            return self._edits.redo(timeout)

    def read_indexes(self) -> None:
        """Reads where the packets of the files are. No request waits for it meanwhile, and what needs it later is
        answered sooner.
        """
        for item in self._inputs.all:
            item.records()

    def list_packets(self, first: int, count: int, timeout: Optional[float] = None) -> list[dict[str, Any]]:
        """The facts of at most `count` packets of the current source, starting at index `first`, as `vp8list --json`
        has them of the file that they are saved to: a dictionary for each. `first` may be the number of packets."""
        return objects_of(self.request(f"list {checks.number(first)} {checks.number(count)}", timeout))

    def origins(self, first: int, count: int, timeout: Optional[float] = None) -> list[dict[str, Any]]:
        """Where at most `count` frames of the current script come from, starting at frame `first`: a dictionary for
        each, with the source, its frame, the packet, and the numbers of the nodes that change its samples."""
        return objects_of(self.request(f"origins {checks.number(first)} {checks.number(count)}", timeout))

    def packet_header(self, index: int, timeout: Optional[float] = None) -> list[dict[str, Any]]:
        """The header of a packet of the current source, as `vp8list --header --json` has it of the file that the
        packets are saved to: a dictionary of its fields, and one for each probability that it changes. Of a packet that
        decoding refuses one dictionary with `refused` and `cause`, of one of no bytes one with `repeats`."""
        return objects_of(self.request(f"header {checks.number(index)}", timeout))

    def macroblocks(self, index: int, timeout: Optional[float] = None) -> list[dict[str, Any]]:
        """The macroblocks of a packet of the current source, as `vp8list --macroblocks --json` has them: a dictionary
        for each, or one as `packet_header` has it.
        """
        return objects_of(self.request(f"macroblocks {checks.number(index)}", timeout))

    def packet(self, index: int, source: Optional[int] = None) -> bytes:
        """The bytes of a packet of the current source, or of another one. `OSError` if a file was changed since the
        session was opened.
        """
        with self._locked(None):
            contents = self._edits.contents()
            self._inputs.all[contents.source(source)].check()
            return contents.packet(index, source).data

    def packets(self, numbers: Optional[Iterable[int]] = None, source: Optional[int] = None) -> list[dict[str, Any]]:
        """The facts of the packets of a range, or of all, of the current source or another one, as `list_packets` has
        them. Those that do not exist are left out."""
        wanted = range(MOST_PACKETS) if numbers is None else [number for number in numbers if number >= 0]
        if not wanted:
            return []
        first, end = (0, MOST_PACKETS) if numbers is None else (min(wanted), max(wanted) + 1)
        with self._locked(None):
            try:
                found = objects_of(
                    self.ask(
                        f"list {first} {end - first}", None if source is None else self._edits.contents().source(source)
                    )
                )
            except Refused:
                # Only an index past the end is refused.
                found = []
        return found if numbers is None else [found[number - first] for number in wanted if number - first < len(found)]

    @property
    def rate(self) -> tuple[int, int]:
        """The frames a second of the frames that are served, as a pair: rate and scale of source 0, or 30 and 1 if
        either is 0, over the median step of its time stamps."""
        with self._locked(None):
            return self._edits.contents().rate

    @property
    def header(self) -> bytes:
        """The first line of the frames' YUV4MPEG2 text, once a frame was served."""
        return bytes(self._pipes.reader.header)

    @property
    def frame_size(self) -> int:
        """The number of bytes of a frame in that text, with the word FRAME, once a frame was served."""
        return self._pipes.reader.frame_size

    def shown_kinds(self) -> Optional[list[str]]:
        """For each shown packet of source 0 `key` or `inter`: those of the frames, if there is no script. None if there
        is one.
        """
        with self._locked(None):
            contents = self._edits.contents()
            return contents.shown_kinds(0) if contents.script == "-" else None

    def save(
        self,
        path: AnyPath,
        pad: bool = False,
        source: int = 0,
        restamp: bool = False,
        sound: Optional[str] = None,
        say: Callable[[str], None] = say,
    ) -> None:
        """Writes the current packets of a source as an IVF file now, as `--save` does at the end; with `restamp` with
        new time stamps, by which each shown packet stays as long as in its file.

        If the path ends in `.webm` or `.mkv`, the time stamps are new ones, and the sound of the files is cut with the
        packets: `sound` is `copy`, `encode` or `none`; without it packets of sound are copied where that is exact, else
        coded again. `ValueError` if it cannot be done. `say` is called with sentences about it."""
        with self._locked(None) as deadline:
            contents = self._edits.contents()
            number = contents.source(source)
            knows_times, library = not restamp or self._knows_durations(), self._maker()
            if (
                library is not None
                and knows_times
                and muxing.ending_of(path) is None
                and self._inputs.all[number].media is None
            ):
                contents.check_output(path)
                made = self._file(functools.partial(library.saved, pad, number, restamp, deadline))
                files.write_whole(path, [made])
            else:
                contents.save(path, pad, number, restamp, sound, say)

    def export(self, path: AnyPath, pad: bool = False, timeout: Optional[float] = None) -> None:
        """Writes the frames of the current script as an IVF file now, as `vp8serve --export` does: without coding
        again. `Unexported` if a frame is refused, or if the script changes samples of one. With `pad` players that use
        libvpx show packets that repeat a frame.
        """
        with self._locked(timeout) as deadline:
            contents = self._edits.contents()
            contents.check_output(path)
            library = self._maker()
            if library is not None and self._knows_durations():
                files.write_whole(path, [self._exported(library, pad, deadline)])
            else:
                exports.export_plain(contents, list(self._edits), path, pad)

    def _maker(self) -> Optional[Library]:
        """The library, which makes the files of packets and of frames itself; None if the program answers."""
        return self._pipes if not self._ended and isinstance(self._pipes, Library) else None

    def _knows_durations(self) -> bool:
        """Whether the engine has the durations of all packets: one that `undo` inserted again is a new packet there."""
        return not self._edits.contents().has_inserted_again

    def _file(self, call: Callable[[], bytes]) -> bytes:
        """The file that a call of the library makes."""
        try:
            return call()
        except Late:
            self._end("a file was not made in time, so the session was ended")
            raise self._error() from None

    def _exported(self, library: Library, pad: bool, deadline: Optional[float]) -> bytes:
        """The file of the frames, by the library."""
        try:
            return self._file(functools.partial(library.exported, pad, deadline))
        except NotExported as error:
            text = error.text
            if error.is_refused:
                # The reply names the cause.
                [(reply, _)] = self._exchange(b"frame %d" % error.frame, deadline=deadline)
                text = f"frame {error.frame} is refused: {reply.removeprefix('refused ')}"
            raise Unexported(text) from None


class _Turn:
    """The lock of a session, and the deadline of the call that has it, which counts from when the call was made."""

    def __init__(self, lock: threading.RLock, timeout: Optional[float]) -> None:
        self.lock = lock
        self.timeout = timeout

    def __enter__(self) -> Optional[float]:
        if self.timeout is None:
            self.lock.acquire()
            return None
        deadline = time.monotonic() + self.timeout
        if not self.lock.acquire(timeout=max(0.0, self.timeout)):
            raise TimeoutError("another request has the session; nothing was sent")
        return deadline

    def __exit__(self, kind: object, value: object, trace: object) -> None:
        self.lock.release()


def batches(lines: Iterable[str]) -> Iterator[list[str]]:
    """Request lines in groups that are sent together."""
    batch, size = [], 0
    for line in lines:
        batch.append(line)
        size += len(line)
        if len(batch) == MOST_LINES or size >= MOST_BYTES:
            yield batch
            batch, size = [], 0
    if batch:
        yield batch


def is_reply(reply: str, line: bytes) -> bool:
    """Whether a reply may be that of a line: a refusal, or one that begins as this request's does."""
    return is_refusal(reply) or first_word(reply) == begins_reply(line.decode(errors="replace"))


def _shown(text: bytes) -> str:
    """A request as a message shows it."""
    shown = text.decode(errors="replace")
    return f"`{shown[:80]}..`" if len(shown) > 80 else f"`{shown}`"
