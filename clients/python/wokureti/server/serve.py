"""wokureti serve: the edited stream on a port of this machine, for players and editors."""

from __future__ import annotations

import argparse
import secrets
import sys
import threading
from typing import Callable, Optional, Protocol, TextIO, TypeVar

from ..base import waits
from ..tools import paces
from .live import Live, Options
from .routes import Routes
from .web import Handler, Server


class Closes(Protocol):
    """What is served, and ends with the server."""

    def close(self) -> None:
        ...


Served = TypeVar("Served", bound=Closes)


def serve(live: Live, port: int = 0, out: Optional[TextIO] = None) -> None:
    """Serves a stream until the process is interrupted."""

    def announce(address: str, reading: str) -> None:
        # A player's command line, which other users of the machine see, has an address that only reads.
        print(f"{reading}clip.y4m\n{address}edits", file=out or sys.stdout, flush=True)

    serve_with(live, port, Routes, announce)


def opened(port: int) -> tuple[Server, str, str]:
    """A server, and the words of its address: one with which the stream is edited, and one that only reads."""
    return Server(port), secrets.token_urlsafe(18), secrets.token_urlsafe(18)


def serve_with(
    live: Served,
    port: int,
    routes: Callable[[Served, Server, str], Handler],
    announce: Callable[[str, str], None],
    open_server: Callable[[int], tuple[Server, str, str]] = opened,
) -> None:
    """Serves a stream with these routes until the process is interrupted. `announce` is called with the address, and
    the one that only reads.
    """
    server, token, reading = open_server(port)
    server.routes = routes(live, server, token)
    server.routes.reading = reading
    thread = threading.Thread(target=server.serve, daemon=True)
    try:
        thread.start()
        announce(f"{server.origin}/{token}/", f"{server.origin}/{reading}/")
        while thread.is_alive():
            thread.join(waits.LONGEST)
    except KeyboardInterrupt:
        pass
    finally:
        server.end()
        live.close()


def run(options: Options, edits: Optional[str], save: Optional[str], port: int, how: argparse.Namespace) -> int:
    """Opens the stream and serves it. `how` has the options of a server."""
    live = Live(options, edits, save)
    live.keeps_stamps, live.sound, live.is_constant = how.keep_stamps, how.sound, how.constant
    paces.warn(live.contents(), how.constant, live.notice)
    live.tell_damage()
    serve(live, port)
    return 0
