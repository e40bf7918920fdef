"""wokureti open without a stream: a page that opens a file of the browser's dialog, or a stream that was opened
before.
"""

from __future__ import annotations

import base64
import binascii
import hashlib
import os
import re
import secrets
import threading
from typing import Callable, Iterable, Optional

from .. import system
from ..errors import Failed, Refuse
from ..base import rooms
from ..base.progress import say
from ..server import serve
from ..server.web import Request, Response, Server, as_json
from . import others, recent
from .pages import PageFiles, files_of_page, parse_body

# Bytes of a piece of a file that is copied, at most: a body has 8 MiB, and these are written as base64.
MOST_PIECE = 4 << 20
MARK = re.compile("[0-9a-f]{16}")


class Start:
    """The folder of the copies, and the pages that were opened."""

    def __init__(self, folder: str) -> None:
        self.folder, self.others, self.lock = folder, others.Others(), threading.Lock()
        # The address of each stream that is open.
        self.addresses: dict[str, str] = {}

    def close(self) -> None:
        self.others.close()

    def open(self, path: str, sources: Iterable[str] = ()) -> str:
        """The address of the page of a stream, which is opened once."""
        with self.lock:
            if path not in self.addresses:
                self.addresses[path] = self.others.open(path, sources)
            return self.addresses[path]

    def take(self, copy: str, name: str, at: int, data: bytes, is_last: bool) -> str:
        """Takes a piece of a file. Its folder has the name of a number until it is whole, and then of its bytes, as has
        the list of its edits.
        """
        folder = os.path.join(self.folder, copy)
        path = os.path.join(folder, name)
        if at == 0:
            os.mkdir(folder, 0o700)
        with open(path, "ab") as file:
            if file.tell() != at:
                raise Refuse(409, "a piece of the file is missing")
            file.write(data)
        return self.finish(folder, name) if is_last else copy

    def finish(self, folder: str, name: str) -> str:
        digest = hashlib.sha256()
        with open(os.path.join(folder, name), "rb") as file:
            while piece := file.read(1 << 20):
                digest.update(piece)
        mark = digest.hexdigest()[:16]
        whole = os.path.join(self.folder, mark)
        os.makedirs(whole, 0o700, exist_ok=True)
        os.replace(os.path.join(folder, name), os.path.join(whole, name))
        os.rmdir(folder)
        return mark


class StartRoutes(PageFiles):
    """The routes of the start page."""

    def __init__(self, start: Start, server: Server, token: str) -> None:
        super().__init__(server, token)
        self.start, self.files = start, files_of_page()
        self.reads = {("recent",): self.recent}
        self.posts = {("pages",): self.open_page, ("piece",): self.piece}

    def read(self, request: Request, parts: tuple[str, ...]) -> Response:
        return self.page_file(request, parts, "start.html") or super().read(request, parts)

    def recent(self, request: Request) -> Response:
        """The streams that were opened before, and the folder that keeps the edits of copies."""
        self.only(request)
        return as_json({"recent": recent.offered(), "folder": system.state_folder()})

    def open_page(self, request: Request) -> Response:
        """Opens a stream that was open before, by its number, or a file that was copied, and answers with the address
        of its page.
        """
        members = parse_body(request.body, {"recent": int, "copy": str, "name": str})
        copy: str = members.get("copy", "")
        number: Optional[int] = members.get("recent")
        path = os.path.join(self.start.folder, copy, named(members.get("name", "")))
        noted = [] if number is None else recent.noted()[number : number + 1]
        sources: list[str] = []
        if noted and noted[0]["stream"]:
            path, sources = noted[0]["stream"], noted[0]["sources"]
        elif not MARK.fullmatch(copy) or not os.path.isfile(path):
            raise Refuse(404, "there is no such stream")
        try:
            return as_json({"address": self.start.open(path, sources)})
        except Failed as error:
            raise Refuse(409, str(error)) from None

    def piece(self, request: Request) -> Response:
        """Takes a piece of a file that is opened, and answers with the name of the copy."""
        members = parse_body(request.body, {"copy": str, "name": str, "at": int, "data": str, "last": bool})
        copy: str = members.get("copy", "")
        name, at, text = (members.get(one) for one in ("name", "at", "data"))
        if name is None or at is None or text is None or (at and not MARK.fullmatch(copy)):
            raise Refuse(400, "a piece has copy, name, at and data")
        try:
            data = base64.b64decode(text, validate=True)
        except binascii.Error:
            raise Refuse(400, "data is not base64") from None
        if len(data) > MOST_PIECE:
            raise Refuse(413, f"a piece has at most {MOST_PIECE} bytes")
        mark = copy if at else secrets.token_hex(8)
        return as_json({"copy": self.start.take(mark, named(name), at, data, members.get("last", False))})


def named(name: str) -> str:
    """The name of a copy: that of the file, without a folder."""
    refused = r'[\0-\37/\\:*?"<>|]' if system.IS_WINDOWS else r"[\0-\37/]"
    return re.sub(refused, "-", name).lstrip(".")[-60:] or "stream"


def run(port: int, show: Callable[[str, str], bool]) -> int:
    """Serves the start page until the process is interrupted, and the pages that it opens."""
    with rooms.Room() as folder:

        def announce(address: str, reading: str) -> None:
            print(f"{address}page/", flush=True)
            if not show(f"{address}page/", folder):
                say("open this address in a browser, and a file there. Ctrl-C ends it")

        serve.serve_with(Start(folder), port, StartRoutes, announce)
    return 0
