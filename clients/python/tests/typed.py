"""The public names of wokureti, as a program with types uses them: mypy reads this file, and nothing runs it."""

from typing import List, Optional, Tuple

from wokureti import Count, EditList, Ended, Frame, Refused, Script, Session


def repaired(path: str) -> Tuple[Count, List[str]]:
    with Session(path, sources=["b.ivf"], cache=64, save="out.ivf", pad=True, timeout=2.5, edits="list") as session:
        count: Count = session.count()
        for number in range(count.frames):
            try:
                frame: Frame = session.frame(number)
                samples: bytes = frame.i420()
                print(frame.width, frame.height, len(samples), frame.rgb("709", full=True))
                stamp: Optional[int] = frame.pts
                seconds: Optional[float] = frame.time
                print(stamp, seconds, frame.duration, frame.time_base)
            except Refused as refused:
                source: Optional[int] = refused.source
                packet: Optional[int] = refused.packet
                if packet is not None:
                    session.hold(packet)
                    session.delete(packet + 1)
                print(source, refused.cause, refused.reason, refused.word)
        session.delete(range(3, 9), timeout=1)
        session.script(Script().trim(0, 5, 10).fade(-1, 0, 10, 0, 256))
        session.script("trim 0 0 50", "fade 1 25 25 256 0")
        total: int = session.insert(0, b"", 7) + session.copy(1, 0, 0) + session.blank(0, 16, 16)
        edits: EditList = session.edits
        edits.run_step(["delete 0", "hold 1"], title="two")
        with edits.step("another"):
            session.move(0, 1)
        rate: Tuple[int, int] = session.rate
        print(
            len(session),
            session[0].width,
            [frame.number for frame in session[2:5]],
            session.width,
            session.height,
            session[0] == session[1],
        )
        print(total, rate, session.packet(0), session.packets(range(5))[0]["bytes"], edits.path, edits.written)
        return session.count(), session.undo() + session.redo()


def status_of(path: str) -> Optional[int]:
    try:
        Session(path).close()
    except Ended as ended:
        return ended.status
    return 0
