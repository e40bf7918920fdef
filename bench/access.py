#!/usr/bin/env python3
"""Times frames in order, in random order and after an edit: by the library in Python, by PyAV and by OpenCV. access.py
CLIP [FRAMES [TURNS]]

A random frame is exact: PyAV seeks to the key frame before it and decodes up to its time stamp; OpenCV is asked for the
number. After an edit (the picture is held for a frame more, 10 packets before the frame) the library is asked for the
frame, and the others open the edited file again. It prints frames a second, medians of TURNS turns (3) over FRAMES
frames (60), and how many frames of the others are not those of the library. Debian's python3-av and python3-opencv must
be there: run it with /usr/bin/python3.
"""

import pathlib
import random
import statistics
import sys
import tempfile
import time

sys.dont_write_bytecode = True
sys.path.insert(0, str(pathlib.Path(__file__).resolve().parent.parent / "clients/python"))

import av  # noqa: E402
import cv2  # noqa: E402
from wokureti import Session  # noqa: E402

BEFORE = 10


class Library:
    """The library: samples are bytes of I420."""

    name = "library"

    def __init__(self, path):
        self.session = Session(path, engine="library")

    def in_order(self, count):
        for number in range(count):
            yield self.session.picture(number)[2]

    def frame(self, number):
        return self.session.picture(number)[2]

    def after_edit(self, at, number, path):
        self.session.hold(at)
        return self.frame(number)

    def end(self):
        self.session.close()


class Others:
    """A decoder that opens an edited file again."""

    def after_edit(self, at, number, path):
        self.end()
        self.__init__(path)
        return self.frame(number)


class Pyav(Others):
    name = "PyAV"

    def __init__(self, path):
        self.container = av.open(str(path))
        self.stream = self.container.streams.video[0]
        self.stream.thread_count = 1
        self.step = 1

    def in_order(self, count):
        for number, frame in enumerate(self.container.decode(self.stream)):
            if number == count:
                return
            yield frame.to_ndarray()

    def frame(self, number):
        self.container.seek(number, stream=self.stream, backward=True)
        for frame in self.container.decode(self.stream):
            if frame.pts >= number:
                return frame.to_ndarray()
        raise SystemExit(f"PyAV has no frame {number}")

    def end(self):
        self.container.close()


class Opencv(Others):
    name = "OpenCV"

    def __init__(self, path):
        self.capture = cv2.VideoCapture(str(path))

    def in_order(self, count):
        for _ in range(count):
            yield self.capture.read()[1]

    def frame(self, number):
        self.capture.set(cv2.CAP_PROP_POS_FRAMES, number)
        return self.capture.read()[1]

    def end(self):
        self.capture.release()


def timed(call):
    start = time.perf_counter()
    found = call()
    return found, time.perf_counter() - start


def turn(kind, path, count, numbers, edits):
    """Frames a second in order, in random order and after edits, and those frames. `edits` has the packet, the frame
    and the edited file of each.
    """
    decoder = kind(path)
    whole, seconds = timed(lambda: sum(1 for _ in decoder.in_order(count)))
    decoder.end()
    decoder = kind(path)
    picked, random_seconds = timed(lambda: [decoder.frame(number) for number in numbers])
    edited, edit_seconds = timed(lambda: [decoder.after_edit(*edit) for edit in edits])
    decoder.end()
    return (whole / seconds, len(numbers) / random_seconds, len(edits) / edit_seconds), (*picked, *edited)


def edited_files(path, chance, count, folder):
    """Edits one after the other, each with the file that they lead to."""
    found = []
    with Session(path) as session:
        for number in range(10):
            frame = chance.randrange(BEFORE, count)
            session.hold(frame - BEFORE)
            file = pathlib.Path(folder, f"{number}.ivf")
            session.save(file, pad=True, restamp=True)
            found.append((frame - BEFORE, frame, file))
    return found


def main(path, frames="60", turns="3"):
    chance = random.Random(75)
    with tempfile.TemporaryDirectory() as folder:
        with Session(path) as session:
            count = session.count().frames
        numbers, edits = [chance.randrange(count) for _ in range(int(frames))], edited_files(
            path, chance, count, folder
        )
        kinds, found, differing = (Library, Pyav, Opencv), {}, {}
        for _ in range(int(turns)):
            for kind in kinds:
                figures, samples = turn(kind, path, count, numbers, edits)
                found.setdefault(kind.name, []).append(figures)
                if kind is Library:
                    wanted = samples
                elif kind is Pyav:
                    differing[kind.name] = sum(one.tobytes() != bytes(two) for one, two in zip(samples, wanted))
    print(f"{'':24}" + "".join(f"{name:>12}" for name in found) + "   frames a second")
    for at, name in enumerate(("in order", "in random order", "after an edit")):
        print(
            f"{name:24}"
            + "".join(f"{statistics.median(figures[at] for figures in turns):12.1f}" for turns in found.values())
        )
    print(f"frames of PyAV that are not those of the library: {differing['PyAV']} of {len(numbers) + len(edits)}")


if __name__ == "__main__":
    if not 2 <= len(sys.argv) <= 4:
        sys.exit(__doc__)
    main(*sys.argv[1:])
