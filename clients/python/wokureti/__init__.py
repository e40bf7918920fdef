"""A client of vp8serve: look at a frame, decide, edit, look again.

    from wokureti import Session, Refused

    with Session("in.ivf", save="out.ivf") as session:
        for number in range(session.count().frames):
            try:
                session.frame(number)
            except Refused as refused:
                session.hold(refused.packet)
                session.delete(refused.packet + 1)
                break

Each call is one request and its reply, by the library `libwokureti` or by the program `vp8serve --live`.
docs/reference/requests.md has the requests and refusals.
"""

from .errors import Ended, NotVideo, Refused, Unexported
from .base.versions import version
from .session.edits import EditList
from .session.frames import Frame
from .session.scripts import Script
from .session.session import Count, Session

__version__ = version()

__all__ = ["Count", "EditList", "Ended", "Frame", "NotVideo", "Refused", "Script", "Session", "Unexported"]
