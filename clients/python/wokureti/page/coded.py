"""The page's exports: as packets without coding again, or with the frames that the script changes, or leads, coded
again by a session of their own.
"""

from __future__ import annotations

import shutil
from typing import Mapping, Optional, Sequence

from ..errors import Refuse
from ..base import programs
from ..server.live import Live
from ..session import exports
from ..session.contents import Contents
from ..session.session import Session
from ..tools import cat, coding
from .sounding import has_sound

# What the page may ask for of an export that codes.
NAMES = ("code", "psnr", "lead", "sound")
NO_ENCODER = (
    "No encoder of VP8 was found on the machine of the server: install ffmpeg (with libvpx), or vpx-tools, which has"
    " vpxenc"
)


def costs_of(session: Session) -> dict[str, object]:
    """What an export costs (`coding.costs_of`), whether there is sound that can fade, and what codes: a name, or None
    with a sentence that says what helps.
    """
    contents = session.edits.contents()
    found = coding.costs_of(session)
    fades = any(contents.script.split(";")[node - 1].split()[0] == "fade" for node in found["nodes"])
    name = next((name for name in coding.ENCODERS if shutil.which(name)), None)
    return {**found, "sounds": fades and has_sound(contents), "encoder": name, "why": "" if name else NO_ENCODER}


def how_of(query: Mapping[str, str]) -> Optional[coding.How]:
    """How the export of a query codes, or None if it does not. `Refuse` if it asks for what there is not."""
    if query.get("code") != "1":
        return None
    try:
        least = float(query.get("psnr", coding.USUAL))
    except ValueError:
        least = 0.0
    if (
        not coding.LEAST <= least <= coding.MOST
        or query.get("lead", "exact") not in ("exact", "coded")
        or query.get("sound", "copy") not in ("copy", "fade")
    ):
        raise Refuse(400, f"psnr is {coding.LEAST} to {coding.MOST}, lead is exact or coded, sound is copy or fade")
    return coding.How(least, query.get("lead") == "coded", lambda text: None, query.get("sound") == "fade")


def export(live: Live, lines: Sequence[str], out: exports.Output, how: coding.How, room: str) -> str:
    """Writes the frames after these edits, of which those that the script changes are coded again. A session of their
    own makes them, so the page goes on meanwhile.
    """

    def open_session(path: str) -> Session:
        return cat.open_session(path, [], None, None, None, programs.find("vp8serve"))

    session = Session(**live.options, explain=True)
    try:
        if lines:
            session.edits.run_step(lines)
        told, coded = coding.export(session, open_session, out, how, room)
    finally:
        session.kill()
    return told.text() if coded is None else f"{told.text()}; {coded.text(told.frames)}"


def export_as_packets(contents: Contents, lines: Sequence[str], out: exports.Output, room: str) -> str:
    """Writes the same frames without coding."""
    return exports.export(contents, lines, out, room).text()
