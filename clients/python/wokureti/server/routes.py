"""The routes of `wokureti serve`: docs/reference/http.md says what each of them answers."""

from __future__ import annotations

import hmac
import json
import re
import time
from typing import Callable, Dict, Generator, Iterable, Iterator, Mapping, Optional, Tuple

from ..errors import Dropped, Ended, Lost, Refuse, Refused, TooManyRuns, Unserved, sentence
from ..base.checks import AnyBytes
from ..base.lines import EDITS, first_word, is_edit
from ..media import png
from ..media.y4m import header_of
from ..session.frames import frame_of
from . import ranges
from .live import Live
from .virtual import ENDINGS, MODES, Clip
from .web import Request, Response, Server, as_json

MOST_PACKETS = 10000
NUMBER = re.compile("[0-9]{1,18}")
# Seconds between two signs of life of the events.
BEAT = 15
WORDS = ("undo", "redo", "save")
# What answers the requests of a path.
Answer = Callable[[Request], Response]
# Events, and the seconds until there may be more, or None.
Events = Tuple[Iterable[bytes], Optional[float]]


class Paths:
    """What is answered below a path that has the token; or another one, `reading`, with which nothing can be
    changed.
    """

    reading: Optional[str] = None

    def __init__(self, server: Server, token: str) -> None:
        self.server, self.token = server, token
        self.reads: Dict[Tuple[str, ...], Answer] = {}
        self.posts: Dict[Tuple[str, ...], Answer] = {}

    def close(self) -> None:
        """Ends what was started for requests."""

    def check(self, request: Request) -> None:
        """Refuses a request before its body is read."""
        given = request.parts[0].encode()
        changes, reads = (
            token is not None and hmac.compare_digest(given, token.encode()) for token in (self.token, self.reading)
        )
        if not (changes or reads) or len(request.parts) < 2:
            raise Refuse(404, "there is nothing here")
        if request.method == "POST":
            if not changes:
                raise Refuse(403, "this address only reads")
            if tuple(request.parts[1:]) not in self.posts:
                raise Refuse(405, f"only {' and '.join(path for path, in self.posts)} take a POST")
            if request.headers.get("origin") != self.server.origin:
                raise Refuse(403, f"a change needs the header Origin: {self.server.origin}")
            kind = request.headers.get("content-type", "").split(";")[0].strip().lower()
            if kind != "application/json":
                raise Refuse(415, "a change is application/json")
            if "content-length" not in request.headers:
                raise Refuse(411, "a change has a Content-Length")
        elif request.method not in ("GET", "HEAD"):
            raise Refuse(405, "GET, HEAD and POST are answered")
        elif request.headers.get("content-length", "0") != "0":
            raise Refuse(400, f"a {request.method} has no body")

    def is_entry(self, request: Request) -> bool:
        """Whether a request is for what a person opens in a browser, from wherever."""
        return False

    def answer(self, request: Request) -> Response:
        parts = tuple(request.parts[1:])
        try:
            if request.method == "POST":
                return self.posts[parts](request)
            return self.read(request, parts)
        except Refused as refused:
            status = 404 if refused.word == "NoSuchFrame" else 409
            return as_json({"error": str(refused), "reply": refused.reply, "reason": refused.reason}, status)
        except (Lost, Ended) as lost:
            raise Refuse(503, str(lost)) from None
        except OSError as error:
            raise Refuse(500, sentence(error)) from None

    def read(self, request: Request, parts: tuple[str, ...]) -> Response:
        if parts in self.reads:
            return self.reads[parts](request)
        raise Refuse(404, "there is nothing here")

    def number(self, request: Request, name: str, default: int) -> int:
        text = request.query.get(name)
        if text is None:
            return default
        if not NUMBER.fullmatch(text):
            raise Refuse(400, f"{name} is not a number")
        return int(text)

    def only(self, request: Request, *names: str) -> None:
        for name in request.query:
            if name not in names:
                raise Refuse(400, f"{name[:40]!r} is not asked for here")


class Routes(Paths):
    """What is served of a stream."""

    def __init__(self, live: Live, server: Server, token: str) -> None:
        super().__init__(server, token)
        self.live = live
        self.reads = {
            ("",): self.summary,
            ("clip.y4m",): self.clip,
            ("packets",): self.packets,
            ("findings",): self.findings,
            ("edits",): self.edits,
            ("events",): self.events,
        }
        self.posts = {("edits",): self.change}

    def read(self, request: Request, parts: tuple[str, ...]) -> Response:
        if len(parts) == 2 and parts[0] == "frames" and parts not in self.reads:
            return self.frame(request, parts[1])
        return super().read(request, parts)

    def summary(self, request: Request) -> Response:
        """What there is."""
        self.only(request)
        with self.live.lock:
            count, script = self.live.ask(lambda session: (session.count(), session.edits.contents().script))
            contents = self.live.contents()
            rate = contents.rate
            members = {
                "revision": self.live.revision,
                "packets": len(contents.streams[0]),
                "frames": count.frames,
                "rate": list(rate),
                "sources": [len(stream) for stream in contents.streams],
                "source": contents.current,
                "script": script,
            }
        return as_json(members)

    def clip(self, request: Request) -> Response:
        """All frames as one file."""
        self.only(request, "refused")
        mode = request.query.get("refused")
        if mode not in (None, *MODES):
            raise Refuse(400, "refused is repeat or black")
        try:
            clip = Clip(self.live, mode)
        except Unserved as cannot:
            raise Refuse(409, f"frame {cannot.frame}: {cannot.reply}", frame=cannot.frame, reply=cannot.reply) from None
        except TooManyRuns:
            raise Refuse(409, "the script changes between frames of different kinds too often") from None
        headers = [("Accept-Ranges", "bytes"), ("ETag", clip.etag)]
        condition = request.headers.get("if-match")
        if condition is not None and not ranges.is_etag_of(condition, clip.etag):
            raise Refuse(412, "the stream was changed")
        condition = request.headers.get("if-none-match")
        if condition is not None and ranges.is_etag_of(condition, clip.etag):
            return Response(304, None, length=0, headers=headers)
        try:
            found = ranges.wanted(request.headers, clip.length, clip.etag) if request.method == "GET" else None
        except Refuse as refuse:
            return as_json(refuse.members, 416, [*headers, ("Content-Range", f"bytes */{clip.length}")])
        start, end = found or (0, clip.length)
        if found:
            headers.append(("Content-Range", f"bytes {start}-{end - 1}/{clip.length}"))
        status = 206 if found else 200
        return Response(
            status, "video/x-yuv4mpeg", length=end - start, headers=headers, pieces=until_ended(clip.pieces(start, end))
        )

    def tag_of(self, revision: int) -> str:
        """The ETag of frames of a revision."""
        return f'"{self.live.instance}-{revision}"'

    def frame(self, request: Request, name: str) -> Response:
        """A frame."""
        self.only(request, *(("matrix", "full") if name.endswith(".png") else ()))
        text, _, kind = name.partition(".")
        if not NUMBER.fullmatch(text) or kind not in ("y4m", "png", "i420"):
            raise Refuse(404, "there is nothing here")
        number = int(text)
        condition, etag = request.headers.get("if-none-match"), self.tag_of(self.live.revision)
        if condition is not None and ranges.is_etag_of(condition, etag):
            return Response(304, None, length=0, headers=[("ETag", etag)])
        revision, rate, [(width, height, samples)] = self.live.look([number])
        headers = [("ETag", self.tag_of(revision))]
        if kind == "i420":
            return Response(200, "application/octet-stream", bytes(samples), headers=headers)
        if kind == "y4m":
            return Response(
                200, "video/x-yuv4mpeg", header_of((width, height), rate) + b"FRAME\n" + samples, headers=headers
            )
        matrix, full = request.query.get("matrix", "601"), request.query.get("full", "0")
        if matrix not in ("601", "709") or full not in ("0", "1"):
            raise Refuse(400, "matrix is 601 or 709, full is 0 or 1")
        picture = png.of_frame(frame_of(number, width, height, samples), matrix, full == "1")
        return Response(200, "image/png", picture, headers=headers)

    def packets(self, request: Request) -> Response:
        """The facts of packets."""
        self.only(request, "from", "count", "source")
        first, count = self.number(request, "from", 0), min(self.number(request, "count", 100), MOST_PACKETS)
        with self.live.lock:
            contents = self.live.contents()
            source = self.number(request, "source", 0)
            if source >= len(contents.streams):
                raise Refuse(404, "there is no such source")
            total = len(contents.streams[source])
            found = self.live.ask(lambda session: session.packets(range(first, first + count), source))
            return as_json({"revision": self.live.revision, "source": source, "count": total, "packets": found})

    def findings(self, request: Request) -> Response:
        """What is wrong with the stream."""
        self.only(request)
        revision, lines = self.live.findings()
        return as_json({"revision": revision, "findings": lines[:-1], "summary": lines[-1] if lines else ""})

    def edits(self, request: Request) -> Response:
        """The list of edits."""
        self.only(request)
        with self.live.lock:
            session = self.live.alive()
            members = {
                "revision": self.live.revision,
                "edits": list(session.edits),
                "undone": session.edits.undone,
                "source": session.edits.current,
                "saved": self.live.is_saved(),
            }
        return as_json(members)

    def change(self, request: Request) -> Response:
        """An edit, `undo`, `redo` or `save`."""
        self.only(request)
        members = members_of(request.body)
        if not isinstance(members, dict) or set(members) - {"line", "revision"}:
            raise Refuse(400, 'the body is {"line": "..."}, and may have "revision"')
        with self.live.lock:
            return self.changed(reply=self.make_change(members))

    def make_change(self, members: Mapping[str, object]) -> object:
        """Makes the change that the members of a body name, and returns the reply."""
        line, revision = change_of(members)
        if revision is not None and revision != self.live.revision:
            raise Refuse(412, "the stream was changed", revision=self.live.revision)
        try:
            return self.live.run(line)
        except ValueError as error:
            raise Refuse(409 if line == "save" else 400, str(error)) from None

    def changed(self, **members: object) -> Response:
        """The answer to a change."""
        return as_json({**members, "revision": self.live.revision, "changes": self.live.changes})

    def events(self, request: Request) -> Response:
        """A line for each change, as it comes."""
        self.only(request)
        return self.streamed(request, self.beats)

    def streamed(self, request: Request, pieces: Callable[[], Iterator[bytes]]) -> Response:
        """Events as they come: what a function yields."""
        return Response(200, "text/event-stream", length=None, pieces=pieces() if request.method == "GET" else iter(()))

    def beats(self, news: Callable[[], Events] = lambda: ((), None)) -> Iterator[bytes]:
        """The revisions, the current one first, and what `news` has: it returns events, and the seconds until there may
        be more, or None.
        """
        told: Optional[int] = None
        restarts, changes = len(self.live.events), self.live.changes
        said = time.monotonic()
        patience: Optional[float] = None
        while not self.server.ended:
            with self.live.lock:
                if told is not None and changes == self.live.changes:
                    self.live.changed.wait(BEAT if patience is None else patience)
                revision, count, before, changes = self.live.revision, len(self.live.events), changes, self.live.changes
            if told is None or changes != before:
                name = b"edit" if revision != told else b"restarted" if count != restarts else b"saved"
                yield b'event: %b\ndata: {"revision": %d, "changes": %d}\n\n' % (name, revision, changes)
                said = time.monotonic()
            elif time.monotonic() - said >= BEAT:
                yield b": %d\n\n" % int(time.time())
                said = time.monotonic()
            told, restarts = revision, count
            more, patience = news()
            yield from more


def members_of(body: bytes) -> object:
    """What a body in JSON has."""
    try:
        members: object = json.loads(body.decode())
        return members
    except (UnicodeDecodeError, ValueError, RecursionError):
        raise Refuse(400, "the body is not JSON") from None


def change_of(members: Mapping[str, object]) -> tuple[str, Optional[int]]:
    """The line of a change, and the revision that it is for, or None."""
    line, revision = members.get("line"), members.get("revision")
    if not isinstance(line, str):
        raise Refuse(400, 'the body is {"line": "..."}, and may have "revision"')
    if revision is not None and (not isinstance(revision, int) or isinstance(revision, bool)):
        raise Refuse(400, "revision is a number")
    word = first_word(line)
    if word not in (*EDITS, *WORDS) or (word in WORDS and line != word) or (word in EDITS and not is_edit(line)):
        raise Refuse(400, f"the line is an edit, or {', '.join(WORDS)}")
    return line, revision


def until_ended(pieces: Generator[AnyBytes, None, None]) -> Iterator[AnyBytes]:
    """The pieces; where they stop in the middle, the connection ends."""
    try:
        yield from pieces
    except (*ENDINGS, Ended, OSError, MemoryError):
        raise Dropped from None
    finally:
        pieces.close()
