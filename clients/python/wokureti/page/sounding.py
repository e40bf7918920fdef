"""The sound of playback: that of the frames which the script shows, as a WebM file without a picture, made when it is
asked for.
"""

from __future__ import annotations

import contextlib
import os
import threading
from array import array
from typing import BinaryIO, Optional

from ..media import excerpts, muxing
from ..session.contents import Contents
from ..session.exports import Frames
from .views import View


def has_sound(contents: Contents) -> bool:
    """Whether a stream was opened with sound."""
    return any(item.media is not None and item.media.has_sound for item in contents.inputs.all)


class Sounding:
    """The files that were made, in a folder. The one of the last revision is kept."""

    def __init__(self, folder: str) -> None:
        self.folder, self.lock, self.count = folder, threading.Lock(), 0
        self.known: Optional[tuple[tuple[str, str, list[array[int]]], str]] = None

    def open(self, view: View) -> Optional[BinaryIO]:
        """The file of a view, opened, or None if no stream has sound. Frames are served meanwhile."""
        if not has_sound(view.contents):
            return None
        key = (view.contents.name, view.script, view.streams)
        with self.lock:
            known = self.known
            if known is None or known[0] != key:
                self.count += 1
                path = os.path.join(self.folder, f"sound{self.count}.webm")
                spans = excerpts.of_frames(view.contents, Frames(view.contents, view.streams, view.runs()[1]).served())
                muxing.write_sound(path, spans)
                self.drop()
                known = self.known = (key, path)
            return open(known[1], "rb")

    def drop(self) -> None:
        """Removes the file. Who reads it has it open, and then it stays on Windows, until its folder goes."""
        if self.known is not None:
            with contextlib.suppress(PermissionError):
                os.unlink(self.known[1])
            self.known = None
