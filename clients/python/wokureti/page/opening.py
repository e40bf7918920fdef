"""wokureti open: the page of a stream, in a browser."""

from __future__ import annotations

import hashlib
import os
import pathlib
import secrets
import webbrowser
from typing import NamedTuple, Optional, Sequence

from .. import system
from ..errors import Ended
from ..base import rooms
from ..base.progress import say
from ..server import serve
from ..server.live import Options
from ..server.web import Server
from . import doors, recent
from .opened import Opened
from .pages import PageRoutes

# Browsers that take over the terminal.
TEXT_BROWSERS = ("www-browser", "links", "elinks", "lynx", "w3m")


def stem_of(stream: str) -> str:
    """The beginning of the names of the list of edits and of the file to save to: next to the stream, or in the state
    folder if nothing can be written there."""
    stem = "stream" if stream == "-" else os.path.splitext(stream)[0]
    if is_copy(stream):
        return os.path.join(
            system.state_folder(), f"{os.path.basename(stem)}-{os.path.basename(os.path.dirname(stem))}"
        )
    if system.is_device(stream):
        stem = os.path.basename(stem)
    if system.is_writable(os.path.dirname(stem)):
        return stem
    # Streams of other folders may have the same name.
    mark = hashlib.sha256(os.fsencode(os.path.realpath(stem))).hexdigest()[:8]
    return os.path.join(system.state_folder(), f"{os.path.basename(stem)}-{mark}")


def is_copy(stream: str) -> bool:
    """Whether a stream is a copy that the start page made: it goes with the folder that it is in."""
    room = os.path.dirname(os.path.dirname(os.path.realpath(stream)))
    return os.path.basename(room).startswith(rooms.PREFIX) and os.path.isfile(os.path.join(room, rooms.LOCK))


def show(url: str, folder: str) -> bool:
    """Opens a browser, if there is one with windows. Whether it was started. Its command line, which other users of the
    machine can read, has a file that leads to the address, and that only this user can read."""
    if not system.has_windows():
        return False
    try:
        browser = webbrowser.get()
        if getattr(browser, "name", "") in TEXT_BROWSERS:
            return False
        return browser.open(pathlib.Path(write_door(url, folder)).as_uri())
    except (webbrowser.Error, OSError):
        return False


def write_door(url: str, folder: str) -> str:
    """The file that leads to the page."""
    path = os.path.join(folder, "page.html")
    with open(
        os.open(path, os.O_WRONLY | os.O_CREAT | os.O_EXCL | system.BINARY, 0o600), "w", encoding="ascii"
    ) as file:
        file.write(
            '<!doctype html><meta charset="utf-8"><meta name="referrer" content="no-referrer"><meta'
            f' http-equiv="refresh" content="0; url={url}"><title>Wokureti</title><a href="{url}">Wokureti</a>\n'
        )
    return path


class How(NamedTuple):
    """The list of edits and the file to save to, or None; whether packets are saved as with --pad, and with their time
    stamps; and what is done with sound."""

    edits: Optional[str]
    save: Optional[str]
    pad: bool
    keeps_stamps: bool
    sound: Optional[str]


def run(options: Options, titles: Sequence[str], how: How, port: int, has_browser: bool) -> int:
    """Serves the page until the process is interrupted, and says where the edits are."""
    stems = [stem_of(title) for title in titles]
    path = how.edits or f"{stems[0]}.edits"
    if any(os.path.dirname(stem) == system.state_folder() for stem in stems):
        os.makedirs(system.state_folder(), mode=0o700, exist_ok=True)
        if not is_copy(titles[0]):
            say(f"nothing can be written next to {titles[0]}: what is edited is in {path}")
    try:
        live = Opened(options, path, how.save, how.pad, stems)
        live.keeps_stamps, live.sound = how.keeps_stamps, how.sound
    except Ended as error:
        if ": input " in str(error):
            raise Ended(
                error.status, f"{error}\n`wokureti repair {titles[0]} OUT` searches the packets of a damaged file"
            ) from None
        raise
    if os.path.isfile(titles[0]):
        recent.note(titles[0], path, titles[1:], is_copy(titles[0]))
    count = len(live.session.edits)
    if count:
        say(f"{path}: {edits_text(count)} made")
    names = [os.path.basename(title) for title in titles]

    def announce(address: str, reading: str) -> None:
        print(f"{address}page/", flush=True)
        if not has_browser or not show(f"{address}page/", live.room.name):
            say("open this address in a browser. Ctrl-C ends it")

    try:
        made: list[PageRoutes] = []

        def routes(live: Opened, server: Server, token: str) -> PageRoutes:
            made.append(PageRoutes(live, server, token, names, titles))
            made[0].usual = f"{stems[0]}.edits"
            return made[0]

        serve.serve_with(live, port, routes, announce, lambda port: doors.opened(port, path))
    finally:
        for routed in made:
            routed.others.close()
        added = "".join(f" --source {path}" for path in (made[0].added if made else ()))
        say_where(live, f"{titles[0]}{added}", f"{stems[0]}.edits")
    return 0


def server_of(live: Opened, port: int, titles: Sequence[str]) -> Server:
    """A server of the page of a stream, whose address is printed. It is not started."""
    server, tokens = Server(port), [secrets.token_urlsafe(18) for _ in range(2)]
    server.routes = PageRoutes(live, server, tokens[0], [os.path.basename(title) for title in titles], titles)
    server.routes.reading = tokens[1]
    print(f"{server.origin}/{tokens[0]}/page/", flush=True)
    return server


def edits_text(count: int) -> str:
    return "1 edit" if count == 1 else f"{count} edits"


def say_where(live: Opened, title: str, usual: str) -> None:
    """Where the edits and the saved packets are."""
    edits = live.session.edits
    lines, written = len(edits), edits.written
    if written:
        how = f"`wokureti open {title}`" if edits.path == usual else f"`wokureti open {title} --edits {edits.path}`"
        say(f"{edits_text(written)} {'is' if written == 1 else 'are'} in {edits.path}: {how} continues from there")
    if lines > written:
        say(
            f"{edits_text(lines - written)} could not be written to {edits.path}, and"
            f" {'is' if lines - written == 1 else 'are'} lost"
        )
    for source, done in sorted(live.saves.done.items()):
        of = "" if source == 0 else f"of source {source} "
        say(f"the edited packets {of}were saved to {done.path}")
