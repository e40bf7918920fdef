"""The routes that `wokureti open` has more than `wokureti serve`: the files of its page, and what the page asks for."""

from __future__ import annotations

import itertools
import os
import pathlib
import re
import secrets
import tempfile
import time
import zlib
from typing import Any, BinaryIO, Callable, Dict, Iterable, Iterator, Mapping, Optional, Sequence, Tuple

from .. import system
from ..errors import Changed, Dropped, Ended, Failed, NoKeyFrame, NoSound, NotIvf, Refuse, Stopped
from ..base.lines import EDITS, first_word, is_edit
from ..media import muxing
from ..media.ivf import Rate
from ..media.y4m import MARK, header_of
from ..session import exports
from ..tools import coding, cut_lists, repair
from ..tools.differences import Lasting
from ..server import ranges
from ..server.live import Picture
from ..server.routes import Answer, Paths, Routes, members_of
from ..server.web import Request, Response, Server, as_json
from . import adding, coded, others, waves
from .checking import News
from .opened import Opened
from .parts import Part
from .sounding import Sounding, has_sound
from .views import View

# The members of a body, of which `checked` has seen that each is of its kind.
Members = Dict[str, Any]

KINDS = {
    ".html": "text/html; charset=utf-8",
    ".js": "text/javascript; charset=utf-8",
    ".css": "text/css; charset=utf-8",
    ".svg": "image/svg+xml",
}
CONTAINERS = {".ivf": "video/x-ivf", ".webm": "video/webm", ".mkv": "video/x-matroska"}
REFUSALS = (404, 409, 412)
# The questions that the page asks of the session itself.
QUESTIONS = ("list", "header", "macroblocks", "packet")
# The steps of `wokureti repair` that act on packets.
STEPS = frozenset(("double", "sort", "hold"))
# The edits of one request, and the bytes of its body, at most.
MOST_LINES, MOST_BODY = 1 << 20, 1 << 26
# Packets whose facts are told together, at most: those of eight sources of a million.
MOST_NUMBERS = 1 << 23
# Frames that are served together, at most.
MOST_TOGETHER = 8
# A packet that is named by its number.
NUMBERED = re.compile("(insert [0-9]{1,15})( [0-9]{1,19})? #([0-9]{1,9})")


def files_of_page() -> dict[str, tuple[str, bytes]]:
    """The files of the page, by their names: nothing else is served as a file."""
    folder = pathlib.Path(__file__).resolve().parent
    return {
        path.relative_to(folder).as_posix(): (KINDS[path.suffix], path.read_bytes())
        for path in sorted(folder.rglob("*"))
        if path.suffix in KINDS
    }


class PageFiles(Paths):
    """The routes of the files of a page."""

    files: Dict[str, Tuple[str, bytes]]

    def is_entry(self, request: Request) -> bool:
        """The page, if a browser opens it as a new page: the file that leads there is of no site."""
        is_page = (
            request.headers.get("sec-fetch-mode") == "navigate" and request.headers.get("sec-fetch-dest") == "document"
        )
        return is_page and request.method == "GET" and request.parts[1:] == ["page", ""]

    def page_file(self, request: Request, parts: tuple[str, ...], first: str) -> Optional[Response]:
        """A file of the page, of which `first` is the first one; or None."""
        if len(parts) < 2 or parts[0] != "page":
            return None
        found = self.files.get("/".join(parts[1:]) or first)
        if found is None:
            return None
        self.only(request)
        return Response(200, *found)


class PageRoutes(PageFiles, Routes):
    """The routes of a stream that has a page."""

    most_body = MOST_BODY
    live: Opened

    def __init__(self, live: Opened, server: Server, token: str, titles: list[str], paths: Iterable[str] = ()) -> None:
        super().__init__(live, server, token)
        self.titles, self.files = titles, files_of_page()
        # The streams that the command names, and those that were added.
        self.paths = list(paths)
        self.added: list[str] = []
        # The list of edits that is taken where none is named.
        self.usual: Optional[str] = None
        self.sounding, self.others = Sounding(live.room.name), others.Others()
        # The exports that go on, by the names that the pages gave them.
        self.exporting: dict[str, Part] = {}
        self.tasks: dict[str, tuple[Callable[[Members], dict[str, object]], dict[str, type]]] = {
            "check": (self.findings_after, {"lines": list, "packet": int, "revision": int, "contents": str}),
            "costs": (self.costs, {}),
            "cuts": (self.script_of_cuts, {"text": str}),
            "facts": (self.facts, {"numbers": list, "contents": str}),
            "repair_all": (self.repair_all, {}),
            "times": (self.times, {}),
            "waves": (self.wave_times, {"source": int}),
        }
        self.kinds: dict[str, Answer] = {
            "cuts.csv": self.cuts,
            "export": self.exported,
            "packets": self.packets_as_they_are,
            "sound.webm": self.sound,
            "wave.webm": self.wave,
        }
        self.posts.update({("frames",): self.pictures, ("task",): self.task, ("streams",): self.open_stream})
        self.reads.update(
            {
                ("answer",): self.answered,
                ("progress",): self.progress,
                ("session",): self.session,
                ("streams",): self.list_streams,
            }
        )

    def close(self) -> None:
        self.others.close()

    def answer(self, request: Request) -> Response:
        """A browser reports each status of 400 and more as an error of the page: with `refusals=answers` a refusal is
        an answer.
        """
        wants = request.query.pop("refusals", None) == "answers"
        try:
            try:
                response = super().answer(request)
            except Changed:
                raise Refuse(412, "the stream was changed", revision=self.live.revision) from None
        except Refuse as refuse:
            if not wants or refuse.status not in REFUSALS:
                raise
            response = as_json(refuse.members, refuse.status)
        if wants and response.status in REFUSALS:
            response.headers.append(("X-Refused", str(response.status)))
            response.status = 200
        return response

    def read(self, request: Request, parts: tuple[str, ...]) -> Response:
        if len(parts) == 2 and parts[0] == "file" and parts[1] in self.kinds:
            return self.kinds[parts[1]](request)
        return self.page_file(request, parts, "index.html") or super().read(request, parts)

    def session(self, request: Request) -> Response:
        """What the page shows of the session, and with `known`, a view or nothing, what is new of the packets since
        that view.
        """
        self.only(request, "known")
        # What changes while the answer is made is in the next one.
        others = self.live.changes - self.live.revision
        return as_json(self.session_of(self.live.current_view(), others, request.query.get("known")))

    def session_of(self, view: View, others: int, known: Optional[str] = None) -> dict[str, object]:
        """What the page shows of the session at a revision. `others` are the changes that made no revision."""
        edits, saves = self.live.session.edits, self.saves_of(view)
        members = {
            "revision": view.revision,
            "changes": others + view.revision,
            "instance": self.live.instance,
            "names": self.titles,
            "packets": len(view.streams[0]),
            "frames": view.frames,
            "rate": list(view.rate),
            "varies": view.times() is not None,
            "sounds": has_sound(view.contents),
            "waves": [item.media is not None and item.media.has_sound for item in view.contents.inputs.all],
            "sources": [len(stream) for stream in view.streams],
            "source": view.source,
            "script": view.script,
            "edits_before": view.edits_before,
            "edits": [line for line, _, _ in view.edits],
            "steps": [step for _, step, _ in view.edits],
            "titles": {place: title for place, (_, _, title) in enumerate(view.edits) if title},
            "undone": view.undone,
            "saved": all(source["saved"] for source in saves),
            "saves": saves,
            "changing": view.changing(),
            "list": edits.path,
            "again": self.again(),
            "unwritten": max(0, len(edits) - edits.written),
            "notices": self.live.notices,
            "listed": view.is_listed,
            "restarts": len(self.live.events),
            "shown": view.shown[0],
            "source_frames": view.shown,
        }
        return members if known is None else {**members, "told": self.live.views.told(view, known)}

    def again(self) -> Optional[str]:
        """The command that goes on with the list of edits, or None if there is no list."""
        path = self.live.session.edits.path
        if path is None or not self.paths:
            return None
        stream = self.paths[0] if self.paths[0] == "-" else os.path.abspath(self.paths[0])
        words = ["wokureti", "open", stream, *(() if self.usual == path else ("--edits", os.path.abspath(path)))]
        return system.command_text(words)

    def saves_of(self, view: View) -> list[dict[str, object]]:
        """For each source whether it is edited, whether its packets are as they were opened or saved, in which file
        they are, and the file that Save writes."""
        saves = self.live.saves
        found: list[dict[str, object]] = []
        for source, stream in enumerate(view.streams):
            is_edited, path = view.contents.is_edited(source, stream), saves.file_of(source, view.contents, stream)
            found.append(
                {
                    "edited": is_edited,
                    "saved": path is not None or not is_edited,
                    "file": slashed(path),
                    "next": slashed(saves.path(source)),
                }
            )
        return found

    def progress(self, request: Request) -> Response:
        """What goes on. Nothing waits here."""
        self.only(request)
        doing, found = self.live.doing, None
        if doing is not None:
            what, done, total, since = doing
            found = {"what": what, "done": done, "total": total, "seconds": round(time.monotonic() - since, 1)}
        exporting = {name: one.members() for name, one in list(self.exporting.items())}
        taking = self.live.taking
        opening = None if taking is None else taking.members()
        return as_json(
            {
                "revision": self.live.revision,
                "doing": found,
                "exports": exporting,
                "opening": opening,
                "restarts": len(self.live.events),
            }
        )

    def source_of(self, source: int, view: View) -> int:
        """A source that there is."""
        if source >= len(view.streams):
            raise Refuse(404, "there is no such source")
        return source

    def pictures(self, request: Request) -> Response:
        """A few frames of one size: those of now; of a source as it was opened (`before`); packets of a source alone,
        without the script (`packets`); and with `lines` as they would be after these edits, which are not made."""
        self.only(request)
        members = parse_body(
            request.body,
            {"frames": list, "before": int, "packets": int, "lines": list, "revision": int, "contents": str},
        )
        numbers = members.get("frames", [])
        if not 1 <= len(numbers) <= MOST_TOGETHER or not all(is_number(number) for number in numbers):
            raise Refuse(400, f"1 to {MOST_TOGETHER} frames are served together")
        if not {"before", "packets", "lines"} & set(members):
            return self.y4m(*self.live.look(numbers))
        if "before" in members:
            # Nothing waits for the stream here.
            view = self.live.current_view()
            return self.y4m(
                view.revision, view.rate, self.live.original(self.source_of(members["before"], view)).pictures(numbers)
            )
        view, made = self.before_edits(members)
        revision, rate = view.revision, view.rate
        if "packets" not in members:
            return self.y4m(revision, rate, self.live.preview.pictures(made, numbers))
        source, program = self.source_of(members["packets"], view), (
            self.live.preview if "lines" in members else self.live.aside
        )
        if "lines" not in members and max(numbers) >= len(view.streams[source]):
            raise Refuse(404, "there is no such packet")
        return self.y4m(revision, rate, [program.packet(made, source, packet) for packet in numbers])

    def before_edits(self, members: Members) -> tuple[View, list[str]]:
        """The view that a body is about, and the edits that were made, with those of the body after them, which are not
        made.
        """
        lines, view = self.lines_of(members), self.live.current_view()
        if members.get("revision", view.revision) != view.revision:
            raise Refuse(412, "the stream was changed", revision=view.revision)
        with self.live.lock:
            made = list(self.live.alive().edits)
            if self.live.revision != view.revision:
                raise Refuse(412, "the stream was changed", revision=self.live.revision)
        return view, made + lines

    def y4m(self, revision: int, rate: Rate, pictures: Sequence[Picture]) -> Response:
        """Frames of one size as a file."""
        head = header_of(pictures[0][:2], rate)
        length = len(head) + sum(len(MARK) + len(samples) for _, _, samples in pictures)
        pieces = itertools.chain([head], *((MARK, samples) for _, _, samples in pictures))
        return Response(
            200, "video/x-yuv4mpeg", length=length, headers=[("ETag", self.tag_of(revision))], pieces=pieces
        )

    def task(self, request: Request) -> Response:
        """What takes long."""
        self.only(request)
        members = members_of(request.body)
        kind = members.pop("kind", None) if isinstance(members, dict) else None
        if not isinstance(kind, str) or kind not in self.tasks:
            raise Refuse(400, f"kind is one of {', '.join(self.tasks)}")
        act, kinds = self.tasks[kind]
        return as_json({"revision": self.live.revision, **act(checked(members, kinds))})

    def findings_after(self, members: Members) -> dict[str, object]:
        """The findings of a group of pictures after edits that are not made."""
        view, made = self.before_edits(members)
        return {"revision": view.revision, "findings": self.live.preview.findings(made, members.get("packet", 0))}

    def cuts(self, request: Request) -> Response:
        """The parts of source 0 that the script shows as a list of cuts."""
        self.only(request)
        view = self.live.current_view()
        try:
            text = cut_lists.text_of(exports.Frames(view.contents, view.streams), view.runs()[1])
        except Failed as error:
            raise Refuse(409, str(error)) from None
        return Response(200, "text/csv; charset=utf-8", text.encode(), headers=[self.attached(".csv", "cuts")])

    def script_of_cuts(self, members: Members) -> dict[str, object]:
        """The script that shows the parts of a list of cuts. Nothing is changed."""
        view = self.live.current_view()
        try:
            return {
                "script": exports.cut_script(
                    exports.Frames(view.contents, view.streams), cut_lists.parts_of(members.get("text", ""))
                )
            }
        except Failed as error:
            raise Refuse(409, str(error)) from None

    def safe_name(self) -> str:
        """The name of the stream in the name of a file."""
        name = os.path.splitext(os.path.basename(self.titles[0]))[0]
        return "".join(letter if letter.isalnum() and letter.isascii() else "-" for letter in name) or "stream"

    def answered(self, request: Request) -> Response:
        """The reply to a question about the packets of a source, as a text."""
        self.only(request, "line", "source")
        line = request.query.get("line", "")
        if first_word(line) not in QUESTIONS or not line.isprintable():
            raise Refuse(400, f"a question is one line of {', '.join(QUESTIONS)}")
        with self.live.lock:
            view = self.live.current_view()
            source = self.source_of(self.number(request, "source", 0), view)
            reply = self.live.ask(lambda session: session.ask(line, source))
            return Response(
                200, "text/plain; charset=utf-8", reply.encode(), headers=[("ETag", self.tag_of(view.revision))]
            )

    def events(self, request: Request) -> Response:
        """A line for each change, and with `check=1` what the check of the current packets found, as it comes."""
        self.only(request, "check")
        if request.query.get("check") != "1":
            return self.streamed(request, self.beats)
        return self.streamed(request, lambda: self.beats(News(self.live).events))

    def facts(self, members: Members) -> dict[str, object]:
        """What repairs need of packets, which are named by their numbers, as runs: time stamps, durations in the time
        of source 0, and numbers that packets with other bytes have only by chance."""
        runs, contents = members.get("numbers", []), self.live.contents()
        if (
            not all(isinstance(run, list) and len(run) == 2 and all(map(is_number, run)) for run in runs)
            or sum(count for _, count in runs) > MOST_NUMBERS
        ):
            raise Refuse(400, "numbers are pairs of a number and a count")
        numbers = [number for first, count in runs for number in range(first, first + count)]
        if contents.name != members.get("contents") or max(numbers, default=0) > contents.next_number:
            raise Refuse(412, "the stream was changed", revision=self.live.revision)
        hashes = [zlib.crc32(data) << 21 | len(data) & 0x1FFFFF for data in contents.data(numbers)]
        found = {
            "stamps": list(map(contents.stamp, numbers)),
            "durations": list(contents.durations(0, numbers)),
            "hashes": hashes,
        }
        return {"revision": self.live.revision, **found, "step": contents.inputs.all[0].step()}

    def repair_all(self, members: Members) -> dict[str, object]:
        """The edits that `wokureti repair` would make, with source 1 as the second recording if there is one, and what
        they do.
        """
        view = self.live.current_view()
        contents = view.contents
        texts = [b"".join(self.text(view, source)) for source in range(min(2, len(view.streams)))]
        data, second = texts[0], texts[1] if len(texts) > 1 else None
        given = (contents.program, contents.lister)
        tables = None if contents.tables is None else os.fsdecode(contents.tables)
        try:
            try:
                found = repair.repair(data, *given, second, tables=tables, steps=STEPS)
            except (NotIvf, NoKeyFrame):
                raise
            except ValueError:
                # Source 1 is another stream.
                found = repair.repair(data, *given, tables=tables, steps=STEPS)
        except (NotIvf, NoKeyFrame) as error:
            raise Refuse(409, str(error)) from None
        durations = [contents.durations(0, stream) for stream in view.streams[:2]]
        lasting = Lasting(durations[0], durations[-1] if second is not None else (), contents.inputs.all[0].step())
        return {
            "revision": view.revision,
            "lines": repair.edits_of(data, found, second, lasting),
            "said": found.lines,
            "left": found.left,
        }

    def text(self, view: View, source: int) -> Iterator[bytes]:
        """The packets of a source as an IVF file, in pieces."""
        stream = view.streams[source]
        yield view.contents.inputs.all[source].head.text(len(stream))
        yield from view.contents.records(stream)

    def times(self, members: Members) -> dict[str, object]:
        """When each frame begins, in milliseconds, if the rate varies."""
        view = self.live.current_view()
        return {"revision": view.revision, "times": view.times()}

    def sound(self, request: Request) -> Response:
        """The sound of the frames that are shown. `revision` only names it."""
        self.only(request, "revision", "instance")
        view = self.live.current_view()
        try:
            file = self.sounding.open(view)
        except NoSound as error:
            raise Refuse(409, str(error)) from None
        if file is None:
            raise Refuse(404, "no stream has sound")
        etag = self.tag_of(view.revision)
        length, headers = os.fstat(file.fileno()).st_size, [("Accept-Ranges", "bytes"), ("ETag", etag)]
        try:
            found = ranges.wanted(request.headers, length, etag) if request.method == "GET" else None
        except Refuse:
            file.close()
            raise
        start, end = found or (0, length)
        if found:
            headers.append(("Content-Range", f"bytes {start}-{end - 1}/{length}"))
        return Response(
            206 if found else 200, "audio/webm", length=end - start, headers=headers, pieces=pieces_of(file, start, end)
        )

    def wave(self, request: Request) -> Response:
        """A minute of the sound of a source's file, from which the page draws it. Nothing if no packet is there."""
        self.only(request, "source", "piece", "instance")
        view = self.live.current_view()
        media = view.contents.inputs.all[self.source_of(self.number(request, "source", 0), view)].media
        if media is None or not media.has_sound:
            raise Refuse(404, "this source has no sound")
        try:
            return Response(200, "audio/webm", waves.piece_of(media, min(self.number(request, "piece", 0), 1 << 24)))
        except ValueError as error:
            raise Refuse(409, str(error)) from None

    def wave_times(self, members: Members) -> dict[str, object]:
        """At which times of which file the sound of the frames of a source is."""
        view = self.live.current_view()
        source = self.source_of(members.get("source", 0), view)
        return {"revision": view.revision, "source": source, "runs": waves.runs_of(view, source)}

    def list_streams(self, request: Request) -> Response:
        """The streams that can be added, or those of them that are a file with this name, number of bytes and
        SHA-256.
        """
        self.only(request, "name", "size", "sha256")
        name, digest, size = request.query.get("name"), request.query.get("sha256"), self.number(request, "size", 0)
        found = adding.files_of(self.paths) if name is None else adding.same_as(self.paths, name, size, digest)
        return as_json({"revision": self.live.revision, "files": found})

    def open_stream(self, request: Request) -> Response:
        """Opens one of these on a page of its own, and answers with its address, or as the last source, and answers
        with its number.
        """
        self.only(request)
        members = parse_body(request.body, {"file": str, "as": str})
        path, what = members.get("file"), members.get("as")
        if what not in ("page", "source"):
            raise Refuse(400, "a stream is opened as a page, or as a source")
        if path not in adding.files_of(self.paths):
            raise Refuse(404, "there is no such stream in the folders of those that are open")
        try:
            if what == "page":
                return as_json({"address": self.others.open(path), "revision": self.live.revision})
            adding.add(self.live, path, os.path.splitext(path)[0])
        except Failed as error:
            raise Refuse(
                409, f"{os.path.basename(path)} was not opened: {error}" if what == "page" else str(error)
            ) from None
        self.titles.append(os.path.basename(path))
        self.added.append(path)
        return self.changed(source=len(self.titles) - 1)

    def attached(self, ending: str, what: str) -> tuple[str, str]:
        """The header of an answer that a browser saves as a file."""
        return ("Content-Disposition", f'attachment; filename="{self.safe_name()}-{what}{ending}"')

    def download(self, path: str, ending: str, what: str, *headers: tuple[str, str]) -> Response:
        """A file that goes once it is sent."""
        file = system.open_to_remove(path)
        length, found = os.fstat(file.fileno()).st_size, [self.attached(ending, what), *headers]
        return Response(200, CONTAINERS[ending], length=length, headers=found, pieces=pieces_of(file))

    def packets_as_they_are(self, request: Request) -> Response:
        """The current packets of source 0 as a file of the kind that was opened: an IVF file, or WebM or Matroska with
        its sound.
        """
        self.only(request)
        live, contents = self.live, self.live.contents()
        ending = muxing.ending_for(contents.inputs.all[0].media)
        path = os.path.join(live.room.name, f"download-{secrets.token_hex(8)}{ending}")
        with live.lock:
            restamps = not live.keeps_stamps and contents.is_edited(0, contents.streams[0])
            try:
                contents.save(path, live.pad, 0, restamps, live.sound, live.notice)
            except ValueError as error:
                raise Refuse(409, str(error)) from None
        return self.download(path, ending, "edited")

    def exported(self, request: Request) -> Response:
        """The frames that the script serves as packets. Other requests go on meanwhile; it ends if nobody waits for it
        any more.
        """
        self.only(request, "name", *coded.NAMES)
        how = coded.how_of(request.query)
        name, watch = request.query.get("name", ""), Part("vp8serve makes the packets", request.is_gone)
        self.exporting[name] = watch
        try:
            return self.export(watch, how)
        except Stopped:
            raise Dropped from None
        finally:
            if self.exporting.get(name) is watch:
                del self.exporting[name]

    def export(self, watch: Part, how: Optional[coding.How]) -> Response:
        """Without `how` nothing is coded again."""
        with self.live.lock:
            revision, contents, lines = self.live.revision, self.live.contents(), list(self.live.session.edits)
        ending = muxing.ending_for(contents.inputs.all[0].media)
        with tempfile.TemporaryDirectory(dir=self.live.room.name) as folder:
            # Messages have this name.
            path = os.path.join(folder, f"{self.safe_name()}-export{ending}")
            out = exports.Output(path, self.live.pad, self.live.sound, self.live.notice, watch)
            try:
                told = (
                    coded.export_as_packets(contents, lines, out, folder)
                    if how is None
                    else coded.export(self.live, lines, out, how, folder)
                )
            except (ValueError, Ended) as error:
                raise Refuse(409 if self.live.revision == revision else 412, str(error)) from None
            # What is coded has its own session.
            if self.live.revision != revision and how is None:
                raise Refuse(412, "the stream was changed", revision=self.live.revision)
            kept = os.path.join(self.live.room.name, f"export-{secrets.token_hex(8)}{ending}")
            os.rename(path, kept)
        return self.download(kept, ending, "export", ("X-Exported", told))

    def costs(self, members: Members) -> dict[str, object]:
        """What an export of the frames that are shown costs."""
        with self.live.lock:
            return {"revision": self.live.revision, **self.live.ask(coded.costs_of)}

    def change(self, request: Request) -> Response:
        """An edit, several as one step, which may have a title, `undo`, `redo` or `save`, which may be of a source.
        With `known` the answer has the state after it.
        """
        self.only(request)
        members = parse_body(
            request.body,
            {"line": str, "lines": list, "title": str, "source": int, "revision": int, "contents": str, "known": str},
        )
        known = members.pop("known", None)
        if "source" in members and "lines" not in members:
            return self.save(members, known)
        if "lines" not in members:
            with self.live.lock:
                return self.changed_since(known, reply=self.make_change(members))
        if not members["lines"] or {"line", "source"} & set(members):
            raise Refuse(400, "a change is of a line, or of lines")
        with self.live.lock:
            revision = members.get("revision")
            if revision is not None and revision != self.live.revision:
                raise Refuse(412, "the stream was changed", revision=self.live.revision)
            lines = self.lines_of(members)
            try:
                reply = self.live.run_step(lines, members.get("title", ""))
            except ValueError as error:
                raise Refuse(400, str(error)) from None
            return self.changed_since(known, reply=reply)

    def lines_of(self, members: Members) -> list[str]:
        """The edits of a body. One that names a packet by its number inserts that packet."""
        return [
            self.with_packet(found, members.get("contents")) if found else line
            for line in checked_lines(members)
            for found in [NUMBERED.fullmatch(line)]
        ]

    def with_packet(self, found: re.Match[str], name: Optional[str]) -> str:
        """The line of an edit that inserts a packet, of which the page knows the number only. It may have been deleted,
        or replaced, since.
        """
        contents, (line, stamp, text) = self.live.contents(), found.groups()
        number = int(text)
        if number >= (contents.next_number if contents.name == name else contents.of_files):
            raise Refuse(409, "the packets that were copied are gone")
        return f"{line}{stamp or f' {contents.stamp(number)}'} {contents.bytes(number).hex() or '-'}"

    def changed_since(self, known: Optional[str], **members: object) -> Response:
        """The answer to a change, with the state after it for a page, of which `known` says what it has: nothing more
        is to be asked then.
        """
        if known is not None:
            members["session"] = self.session_of(
                self.live.current_view(), self.live.changes - self.live.revision, known
            )
        return self.changed(**members)

    def save(self, members: Members, known: Optional[str]) -> Response:
        """Saves the packets of a source."""
        source = members["source"]
        if members.get("line") != "save":
            raise Refuse(400, "a source is saved")
        with self.live.lock:
            if source >= len(self.live.contents().streams):
                raise Refuse(404, "there is no such source")
            try:
                path, renumbered = self.live.make(lambda: (self.live.save(source), self.live.renumbers(source)))
            except ValueError as error:
                raise Refuse(409, str(error)) from None
            return self.changed_since(known, reply=path, renumbered=renumbered)


def slashed(path: Optional[str]) -> Optional[str]:
    return path and system.slashed(path)


def pieces_of(file: BinaryIO, start: int = 0, end: Optional[int] = None) -> Iterator[bytes]:
    """The bytes of a file from one place to another, which is closed after them."""
    with file:
        file.seek(start)
        left = os.fstat(file.fileno()).st_size - start if end is None else end - start
        while left > 0:
            piece = file.read(min(left, 1 << 20))
            if not piece:
                return
            left -= len(piece)
            yield piece


def is_number(value: object) -> bool:
    return isinstance(value, int) and not isinstance(value, bool) and 0 <= value < 1 << 60


def parse_body(body: bytes, kinds: Mapping[str, type]) -> Members:
    """The members of a JSON object, each of its kind."""
    return checked(members_of(body), kinds)


def checked(members: object, kinds: Mapping[str, type]) -> Members:
    """Members, each of its kind."""
    if not isinstance(members, dict) or not set(members) <= set(kinds):
        raise Refuse(400, f"the body is an object with {', '.join(kinds)}")
    for name, value in members.items():
        if not (is_number(value) if kinds[name] is int else isinstance(value, kinds[name])):
            raise Refuse(400, f"{name} is not of its kind")
    return members


def checked_lines(members: Members) -> list[str]:
    """The edits of a body."""
    lines: list[str] = members.get("lines", [])
    if len(lines) > MOST_LINES:
        raise Refuse(400, f"a step has at most {MOST_LINES} edits")
    for line in lines:
        if (
            not isinstance(line, str)
            or "\n" in line
            or "\r" in line
            or first_word(line) not in EDITS
            or not is_edit(line)
        ):
            raise Refuse(400, "lines are edits")
    return lines
