"""A session as Python's users expect it: exceptions in other processes, files that are closed, streams that are no
paths, indexes, and frames as other libraries have them.
"""

import copy
import gc
import io
import multiprocessing
import os
import pickle
import tempfile
import unittest
from concurrent.futures import ProcessPoolExecutor
from fractions import Fraction

from support import CLIP, SLOW, SMALL, Case, frames_of, packets_of
from wokureti import Ended, Frame, NotVideo, Refused, Session, Unexported
from wokureti.errors import OtherStream
from wokureti.media import ivf
from wokureti.session.frames import frame_of

try:
    import numpy
except ImportError:
    numpy = None
try:
    import PIL.Image as pillow
except ImportError:
    pillow = None


def opened(path):
    """What another process does with a stream."""
    with Session(path) as session:
        return session.count()


class Exceptions(Case):
    LIMIT = 60

    def test_they_can_be_pickled(self):
        for error in (
            Ended(1, "cannot read x"), Ended(None, ""), NotVideo(1, "x is no stream"),
            Refused("refused source 2 packet 60 TokenPartition 1", "why"), Refused("refused Place"),
            Unexported("frame 12 is changed by node 2"), OtherStream("list", (1, 2), (3, 4), 1, "b.ivf"),
        ):  # fmt: skip
            for other in (pickle.loads(pickle.dumps(error)), copy.copy(error)):
                self.assertEqual((type(other), str(other), vars(other)), (type(error), str(error), vars(error)))

    def test_a_bad_file_in_a_pool(self):
        bad = self.folder() / "bad.ivf"
        bad.write_bytes(b"no stream")
        context = multiprocessing.get_context("spawn")
        with context.Pool(1) as pool:
            answer = pool.map_async(opened, [str(bad)])
            with self.assertRaises(NotVideo):
                answer.get(30 * SLOW)
            self.assertEqual(pool.apply_async(opened, (str(SMALL),)).get(30 * SLOW).packets, 12)
        with ProcessPoolExecutor(1, mp_context=context) as pool:
            with self.assertRaises(NotVideo):
                pool.submit(opened, str(bad)).result(30 * SLOW)
            self.assertEqual(pool.submit(opened, str(SMALL)).result(30 * SLOW).packets, 12)


class Files(Case):
    LIMIT = 60

    def test_a_session_that_is_collected_closes_its_files(self):
        before = len(os.listdir("/proc/self/fd"))
        for _ in range(50):
            Session(SMALL, sources=[CLIP]).count()
        gc.collect()
        self.assertLessEqual(len(os.listdir("/proc/self/fd")), before + 8)

    def test_streams_that_are_no_paths(self):
        wanted = frames_of(SMALL, [0, 5])
        data = SMALL.read_bytes()
        with open(SMALL, "rb") as file, tempfile.TemporaryFile() as other:
            other.write(b"before" + data)
            other.seek(6)
            for stream in (data, bytearray(data), memoryview(data), io.BytesIO(data), file, other):
                with Session(stream, sources=[io.BytesIO(data)]) as session:
                    self.assertEqual([session.frame(number).i420() for number in (0, 5)], wanted)
                    session.script("source 1")
                    self.assertEqual(session.frame(0).i420(), wanted[0])
        folder = self.folder()
        with Session(data, save=folder / "saved.ivf") as session:
            session.delete(11)
        self.assertTrue((folder / "saved.ivf").read_bytes()[44:] in data)
        for wrong in (data, "one.ivf", io.BytesIO(data)):
            with self.assertRaises(TypeError):
                Session("-", sources=wrong)
        with self.assertRaises(TypeError):
            Session(io.StringIO("text"))

    def test_no_file_of_them_is_left(self):
        with tempfile.TemporaryDirectory() as room:
            before, tempfile.tempdir = tempfile.tempdir, room
            try:
                Session(SMALL.read_bytes()).close()
                with self.assertRaises(NotVideo):
                    Session(b"no stream")
                gc.collect()
                self.assertEqual(os.listdir(room), [])
            finally:
                tempfile.tempdir = before


class Indexes(Case):
    def test_frames_by_index(self):
        session, wanted = self.session(SMALL), frames_of(SMALL, range(12))
        self.assertEqual((len(session), session.width, session.height), (12, session[0].width, session[0].height))
        for index in (0, 3, 11, -1, -12):
            self.assertEqual((session[index].i420(), session[index].number), (wanted[index], range(12)[index]))
        for part in (slice(3, 6), slice(None, None, 4), slice(-2, None), slice(8, 2, -3), slice(20, 30)):
            self.assertEqual([frame.i420() for frame in session[part]], wanted[part])
            self.assertEqual([frame.number for frame in session[part]], list(range(12))[part])
        for index in (12, -13):
            with self.assertRaisesRegex(IndexError, "the script serves 12 frames"):
                session[index]
        with self.assertRaises(TypeError):
            session["3"]
        self.assertEqual([frame.number for frame in session], list(range(12)))
        session.script("trim 0 2 3")
        self.assertEqual([frame.i420() for frame in session], wanted[2:5])
        session.script("crop 0 2 2 4 2")
        self.assertEqual((session.width, session.height), (4, 2))
        self.assertEqual((len(self.session("-")), self.session("-").width), (0, 0))


class FrameTimes(Case):
    """Files of which packet n is shown at n, n * 2 + 7 and so on: what a frame says is what the test wrote."""

    def file(self, name, stamps, rate, scale):
        path = self.folder() / name
        with open(path, "wb") as file:
            file.writelines(ivf.pieces(ivf.Head(16, 16, rate, scale), 12, list(zip(stamps, packets_of(SMALL)))))
        return path

    def session_of(self, engine):
        even, late = self.file("even.ivf", range(12), 24000, 1001), self.file(
            "late.ivf", [7, 9, 14, 15, 16, 20, 21, 22, 23, 24, 30, 31], 1000, 1
        )
        return self.session(even, sources=[late], engine=engine)

    @staticmethod
    def of(frame):
        return frame.pts, frame.duration, frame.time_base, frame.time

    def test_times_are_those_of_the_packet(self):
        for engine in ("library", "program"):
            session = self.session_of(engine)
            self.assertEqual(self.of(session[5]), (5, 1, Fraction(1001, 24000), 5 * 1001 / 24000))
            session.use(1)
            session.script("source 1; trim 1 2 8; fade 2 0 4 0 256")
            self.assertEqual(
                [self.of(frame) for frame in session[0:3]],
                [
                    (14, 1, Fraction(1, 1000), 0.014),
                    (15, 1, Fraction(1, 1000), 0.015),
                    (16, 4, Fraction(1, 1000), 0.016),
                ],
            )
            session.delete(2)
            self.assertEqual(self.of(session.frame(0)), (15, 1, Fraction(1, 1000), 0.015))
            # A copy keeps its time stamp, and lasts as long as in its file: 41 of these units.
            session.copy(0, 3, 1)
            session.script("source 1")
            self.assertEqual(self.of(next(session.frames([1]))), (3, 41, Fraction(1, 1000), 0.003))
            self.assertEqual(session.count().packets, 12)

    def test_an_edit_or_the_end_leaves_what_was_read(self):
        for engine in ("library", "program"):
            session = self.session_of(engine)
            read, unread = session[3], session[4]
            self.assertEqual(read.pts, 3)
            session.delete(11)
            self.assertEqual((read.time, self.of(unread)), (3 * 1001 / 24000, (None,) * 4))
            self.assertEqual(session[4].pts, 4)
            asked, last = session[5], session[6]
            session.use(1)
            self.assertEqual(asked.pts, 5)
            session.close()
            self.assertEqual((asked.duration, last.pts), (1, None))
            self.assertEqual(self.of(frame_of(0, 1, 1, bytes(3))), (None,) * 4)

    @unittest.skipIf(numpy is None, "no numpy")
    def test_they_are_pickled(self):
        frame = self.session_of("library")[7]
        other = pickle.loads(pickle.dumps(frame))
        self.assertEqual(
            (other, self.of(other), other.number), (frame, (7, 1, Fraction(1001, 24000), 7 * 1001 / 24000), 7)
        )


class Pictures(Case):
    def test_equality_and_text(self):
        session = self.session(SMALL)
        one, again, other = session[3], session.frame(3), session[4]
        self.assertIs(one == again, True)
        self.assertIs(one != again, False)
        self.assertIs(one == other, False)
        self.assertIs(one == "frame", False)
        self.assertEqual(hash(one), hash(again))
        self.assertEqual(len({one, again, other}), 2)
        self.assertEqual(repr(one), f"<Frame 3, {one.width}x{one.height}>")
        self.assertIsInstance(one, Frame)
        self.assertEqual(tuple(one)[:3], (3, one.width, one.height))

    def test_as_a_notebook_shows_it(self):
        text = self.session(SMALL)[0]._repr_png_()
        self.assertEqual(text[:8], b"\x89PNG\r\n\x1a\n")

    @unittest.skipIf(numpy is None, "no numpy")
    def test_arrays(self):
        frame = self.session(CLIP)[2]
        rgb = frame.to_ndarray()
        self.assertEqual((rgb.shape, rgb.dtype), ((frame.height, frame.width, 3), numpy.uint8))
        self.assertEqual(rgb.tobytes(), frame.rgb().tobytes())
        self.assertTrue((frame.to_ndarray("bgr24") == rgb[:, :, ::-1]).all())
        self.assertEqual(frame.to_ndarray("gray").tobytes(), frame.i420()[: frame.width * frame.height])
        whole = frame.to_ndarray("yuv420p")
        self.assertEqual((whole.shape, whole.tobytes()), ((frame.height * 3 // 2, frame.width), frame.i420()))
        with self.assertRaisesRegex(ValueError, "a format is"):
            frame.to_ndarray("rgba")
        with self.assertRaisesRegex(ValueError, "even sides"):
            frame_of(0, 3, 3, bytes(9 + 8)).to_ndarray("yuv420p")

    @unittest.skipIf(pillow is None, "no Pillow")
    def test_images(self):
        frame = self.session(SMALL)[2]
        image = frame.to_image()
        self.assertEqual(
            (image.size, image.mode, image.tobytes()), ((frame.width, frame.height), "RGB", frame.rgb().tobytes())
        )


if __name__ == "__main__":
    unittest.main()
