"""A small HTTP server for one person on one machine: requests are bounded in size, number and time.

It answers on 127.0.0.1 alone. A request must name the address that was given out in its Host header, so a page of
another site cannot reach it under a name of its own (DNS rebinding); and where a browser says in Origin which site a
request comes from, it must be this one.
"""

from __future__ import annotations

import contextlib
import json
import re
import socket
import sys
import threading
import time
import urllib.parse
from typing import Callable, Iterable, Mapping, Optional, Protocol

from .. import system
from ..errors import Dropped, Refuse
from ..base.checks import AnyBytes

MOST_HEAD = 16 << 10
MOST_BODY = 8 << 20
# Connections whose last request had the token, and those that have not sent one yet.
MOST_CONNECTIONS, MOST_STRANGERS = 64, 64
# Seconds: for the head and the body of a request; for a connection without a request; for a client that takes nothing
# of a response.
READ_TIME, IDLE_TIME, WRITE_TIME = 10, 30, 600
# A connection with the token that made no progress for so long makes room for another one.
STALLED = 5
SEND_AT_ONCE = 1 << 18

SAFE = (
    ("Content-Security-Policy", "default-src 'self'"),
    ("X-Content-Type-Options", "nosniff"),
    ("Referrer-Policy", "no-referrer"),
    ("Cache-Control", "no-store"),
    ("Cross-Origin-Resource-Policy", "same-origin"),
)
REASONS = {
    200: "OK", 206: "Partial Content", 304: "Not Modified", 400: "Bad Request", 403: "Forbidden", 404: "Not Found",
    405: "Method Not Allowed", 409: "Conflict", 411: "Length Required",
    412: "Precondition Failed", 413: "Content Too Large",
    414: "URI Too Long", 415: "Unsupported Media Type", 416: "Range Not Satisfiable", 421: "Misdirected Request",
    431: "Request Header Fields Too Large", 500: "Internal Server Error", 501: "Not Implemented",
    503: "Service Unavailable",
    505: "HTTP Version Not Supported",
}  # fmt: skip
TOKEN = re.compile(rb"[!#$%&'*+.^_`|~0-9A-Za-z-]+")


class Response:
    """What is sent: a status, headers, and a body of bytes or of pieces whose length is known."""

    def __init__(
        self,
        status: int,
        kind: Optional[str],
        body: bytes = b"",
        length: Optional[int] = None,
        headers: Iterable[tuple[str, str]] = (),
        pieces: Optional[Iterable[AnyBytes]] = None,
    ) -> None:
        self.status, self.kind, self.body, self.headers, self.pieces = status, kind, body, list(headers), pieces
        self.length = len(body) if length is None and pieces is None else length


def as_json(members: Mapping[str, object], status: int = 200, headers: Iterable[tuple[str, str]] = ()) -> Response:
    """A JSON object as a response."""
    return Response(status, "application/json", json.dumps(members).encode() + b"\n", headers=headers)


def as_text(refuse: Refuse) -> Response:
    """A refusal that a person reads in a browser."""
    return Response(refuse.status, "text/plain; charset=utf-8", f"Wokureti: {refuse.members['error']}\n".encode())


def is_opened(request: Request) -> bool:
    """Whether a browser opens the request as a page."""
    return request.headers.get("sec-fetch-dest") == "document" or request.headers.get("accept", "").startswith(
        "text/html"
    )


class Request:
    """A request: the method, the parts of the path, the query, the headers (names in small letters) and the body."""

    def __init__(self, method: str, target: str, version: str, headers: Mapping[str, str], body: bytes = b"") -> None:
        self.method, self.version, self.headers, self.body = method, version, headers, body
        # Whether nobody waits for the answer any more.
        self.is_gone: Callable[[], bool] = lambda: False
        path, _, query = target.partition("?")
        if not path.startswith("/") or not re.fullmatch(r"[\x21-\x7e]*", target):
            raise Refuse(400, "the target of the request is not a path")
        # No route has a percent sign or a dot part, so none is decoded or followed.
        self.parts = path[1:].split("/")
        try:
            pairs = urllib.parse.parse_qsl(query, keep_blank_values=True, strict_parsing=bool(query), max_num_fields=20)
        except ValueError:
            raise Refuse(400, "the query is not name=value") from None
        self.query = dict(pairs)
        if len(self.query) != len(pairs):
            raise Refuse(400, "a name is twice in the query")

    @property
    def keeps(self) -> bool:
        """Whether the client wants to use the connection again."""
        said = self.headers.get("connection", "").lower()
        return "close" not in said and (self.version == "HTTP/1.1" or "keep-alive" in said)


def parse_head(text: bytes) -> tuple[str, str, str, dict[str, str]]:
    """The method, target, version and headers of a request."""
    lines = text.split(b"\r\n")
    words = lines[0].split(b" ")
    if len(words) != 3 or not TOKEN.fullmatch(words[0]):
        raise Refuse(400, "not a request line")
    if words[2] not in (b"HTTP/1.1", b"HTTP/1.0"):
        raise Refuse(505, "only HTTP/1.1 and HTTP/1.0 are spoken")
    headers: dict[str, str] = {}
    for line in lines[1:]:
        token, colon, value = line.partition(b":")
        if not colon or not TOKEN.fullmatch(token) or b"\n" in value or b"\r" in value or b"\0" in value:
            raise Refuse(400, "not a header")
        name = token.decode("ascii").lower()
        if name in headers:
            if name in ("host", "content-length", "content-type", "origin", "range", "if-range", "transfer-encoding"):
                raise Refuse(400, f"the header {name} is there twice")
            headers[name] += ", " + value.decode("latin-1").strip(" \t")
        else:
            headers[name] = value.decode("latin-1").strip(" \t")
    return words[0].decode("ascii"), words[1].decode("latin-1"), words[2].decode("ascii"), headers


class Handler(Protocol):
    """What answers the requests of a server. `reading` is the word of the address that only reads."""

    reading: Optional[str]

    def is_entry(self, request: Request) -> bool:
        ...

    def check(self, request: Request) -> None:
        ...

    def answer(self, request: Request) -> Response:
        ...

    def close(self) -> None:
        ...


class Connection:
    """A connection of a client, which has a thread of its own."""

    def __init__(self, server: Server, sock: socket.socket) -> None:
        self.server, self.socket = server, sock
        self.moved = time.monotonic()
        self.rest = b""
        # The request that is answered, once its head was read.
        self.asked: Optional[Request] = None

    def run(self) -> None:
        try:
            self.socket.setsockopt(socket.IPPROTO_TCP, socket.TCP_NODELAY, 1)
            while self.answer_one():
                pass
        except (Dropped, OSError):
            pass
        except Exception as error:
            # A mistake of this program: told where it was started, and the server goes on.
            print(f"wokureti: {type(error).__name__}: {error}", file=sys.stderr, flush=True)
        finally:
            self.close()
            self.server.forget(self)

    def shut(self) -> None:
        """Ends the connection, from another thread."""
        with contextlib.suppress(OSError):
            self.socket.shutdown(socket.SHUT_RDWR)

    def close(self) -> None:
        self.shut()
        self.socket.close()

    def receive(self, deadline: float) -> bytes:
        """More bytes, before a deadline."""
        left = deadline - time.monotonic()
        if left <= 0:
            raise Dropped
        self.socket.settimeout(left)
        try:
            piece = self.socket.recv(1 << 16)
        except socket.timeout:
            raise Dropped from None
        if not piece:
            raise Dropped
        return piece

    def read_head(self) -> bytes:
        """The head of the next request, without its empty line."""
        deadline = time.monotonic() + IDLE_TIME
        while b"\r\n\r\n" not in self.rest:
            if len(self.rest) > MOST_HEAD:
                raise Refuse(431, "the head of the request is too long")
            begun = bool(self.rest)
            self.rest += self.receive(deadline)
            if not begun:
                # A new request.
                deadline = time.monotonic() + READ_TIME
                self.moved = time.monotonic()
        head, _, self.rest = self.rest.partition(b"\r\n\r\n")
        if len(head) > MOST_HEAD:
            raise Refuse(431, "the head of the request is too long")
        return head

    def read_request(self) -> Request:
        method, target, version, headers = parse_head(self.read_head().lstrip(b"\r\n"))
        if "transfer-encoding" in headers:
            raise Refuse(501, "a body must have a Content-Length")
        text = headers.get("content-length", "0")
        if not re.fullmatch("[0-9]{1,18}", text):
            raise Refuse(400, "Content-Length is not a number")
        length = int(text)
        most: int = getattr(self.server.routes, "most_body", MOST_BODY)
        if length > most:
            raise Refuse(413, f"a body has at most {most} bytes")
        # What must not be answered is refused before its body is read.
        request = self.asked = Request(method, target, version, headers)
        self.server.check(request)
        self.server.admit(self)
        if length and headers.get("expect", "").lower() == "100-continue":
            self.send(b"HTTP/1.1 100 Continue\r\n\r\n")
        deadline = time.monotonic() + READ_TIME
        while len(self.rest) < length:
            self.rest += self.receive(deadline)
        request.body, self.rest = self.rest[:length], self.rest[length:]
        return request

    def answer_one(self) -> bool:
        """Answers a request. Whether another one may come."""
        request: Optional[Request] = None
        self.asked = None
        try:
            request = self.read_request()
            request.is_gone = self.is_gone
            response = self.server.answer(request)
        except Refuse as refuse:
            response = (
                as_text(refuse)
                if self.asked is not None and is_opened(self.asked)
                else as_json(refuse.members, refuse.status)
            )
            keeps = False
        else:
            keeps = request.keeps
        self.respond(response, keeps, request is not None and request.method == "HEAD")
        if not keeps:
            self.linger()
        return keeps

    def is_gone(self) -> bool:
        """Whether the client closed the connection."""
        try:
            return system.is_readable(self.socket) and self.socket.recv(1, socket.MSG_PEEK) == b""
        except OSError:
            return True

    def respond(self, response: Response, keeps: bool, is_head: bool) -> None:
        head = [f"HTTP/1.1 {response.status} {REASONS[response.status]}"]
        head += [f"{name}: {value}" for name, value in (*SAFE, *response.headers)]
        if response.kind:
            head.append(f"Content-Type: {response.kind}")
        if response.length is None:
            keeps = False
        else:
            head.append(f"Content-Length: {response.length}")
        head.append(f"Connection: {'keep-alive' if keeps else 'close'}")
        self.send("\r\n".join(head).encode("latin-1") + b"\r\n\r\n")
        try:
            if not is_head:
                if response.pieces is None:
                    self.send(response.body)
                else:
                    for piece in response.pieces:
                        self.send(piece)
                    if response.length is None:
                        raise Dropped
        finally:
            if response.pieces is not None and hasattr(response.pieces, "close"):
                response.pieces.close()

    def send(self, data: AnyBytes) -> None:
        """Sends bytes; a client that takes none for too long is dropped."""
        view = memoryview(data)
        self.socket.settimeout(WRITE_TIME)
        while view:
            try:
                count = self.socket.send(view[:SEND_AT_ONCE])
            except socket.timeout:
                raise Dropped from None
            view = view[count:]
            self.moved = time.monotonic()

    def linger(self) -> None:
        """Reads what the client still sends, for a moment, so that it sees the answer and not a reset."""
        with contextlib.suppress(OSError):
            self.socket.shutdown(socket.SHUT_WR)
            self.socket.settimeout(0.3)
            limit = time.monotonic() + 0.3
            while time.monotonic() < limit and self.socket.recv(1 << 16):
                pass


class Server:
    """Listens on a port of 127.0.0.1. `routes` has check(request), which raises `Refuse`, and answer(request), which
    returns a `Response`.
    """

    def __init__(self, port: int = 0) -> None:
        self.listener = socket.create_server(("127.0.0.1", port), backlog=128)
        self.port = self.listener.getsockname()[1]
        self.host = f"127.0.0.1:{self.port}"
        self.origin = f"http://{self.host}"
        self.connections: set[Connection] = set()
        self.strangers: dict[Connection, bool] = {}
        self.lock = threading.Lock()
        self.routes: Handler
        self.ended = False

    def check(self, request: Request) -> None:
        """Refuses what is not from this machine's own client."""
        if request.headers.get("host") != self.host:
            raise Refuse(
                421,
                (
                    f"this address is not {self.origin}/, where the server is: open that. With ssh, forward the same"
                    f" port, and open that: ssh -L {self.port}:{self.host} MACHINE"
                ),
            )
        origin = request.headers.get("origin")
        if origin is not None and origin != self.origin:
            raise Refuse(403, "the request comes from another site")
        if request.headers.get("sec-fetch-site", "none") not in ("same-origin", "none") and not self.routes.is_entry(
            request
        ):
            raise Refuse(403, "the request comes from another site")
        self.routes.check(request)

    def answer(self, request: Request) -> Response:
        return self.routes.answer(request)

    def forget(self, connection: Connection) -> None:
        with self.lock:
            self.connections.discard(connection)
            self.strangers.pop(connection, None)

    def meet(self, connection: Connection) -> None:
        """Takes a connection that has not sent a token yet. If there are too many of these, the oldest one goes: it is
        no client of ours, which sends its first request at once."""
        oldest = None
        with self.lock:
            if len(self.strangers) >= MOST_STRANGERS:
                oldest = next(iter(self.strangers))
                del self.strangers[oldest]
            self.strangers[connection] = True
        if oldest is not None:
            oldest.shut()

    def admit(self, connection: Connection) -> None:
        """Gives a connection whose request has the token a place. If there is none, the one that is stalled for the
        longest time goes.
        """
        stalled = None
        with self.lock:
            if connection in self.connections:
                return
            if len(self.connections) >= MOST_CONNECTIONS:
                stalled = min(self.connections, key=lambda one: one.moved)
                if time.monotonic() - stalled.moved < STALLED:
                    raise Refuse(503, f"{MOST_CONNECTIONS} requests are answered already")
                self.connections.discard(stalled)
            self.strangers.pop(connection, None)
            self.connections.add(connection)
        if stalled is not None:
            stalled.shut()

    def serve(self) -> None:
        """Takes connections until `end` is called."""
        while not self.ended:
            try:
                sock, _ = self.listener.accept()
            except OSError:
                if self.ended:
                    return
                # No descriptor is free: those of other clients will be.
                time.sleep(0.05)
                continue
            connection = Connection(self, sock)
            self.meet(connection)
            try:
                threading.Thread(target=connection.run, daemon=True).start()
            except RuntimeError:
                connection.close()
                self.forget(connection)

    def end(self) -> None:
        """Ends `serve`, and all connections."""
        self.ended = True
        with contextlib.suppress(OSError):
            self.listener.shutdown(socket.SHUT_RDWR)
        self.listener.close()
        with self.lock:
            connections = [*self.connections, *self.strangers]
        for connection in connections:
            connection.shut()
