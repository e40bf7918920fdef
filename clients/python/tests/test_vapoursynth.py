"""The VapourSynth source, over a small stub of the calls that it uses: VapourSynth itself is not there."""

import ctypes
import sys
import types
import unittest
from concurrent.futures import ThreadPoolExecutor

from support import DATA, ODD, TOP, Case, frames_of
from wokureti import Refused, Session

STRIDE = 64


class Frame:
    """A frame of YUV420P8 whose rows begin at multiples of 64 bytes."""

    def __init__(self, width, height):
        self.sides = [(width, height)] + 2 * [(width // 2, height // 2)]
        self.planes = [
            ctypes.create_string_buffer(self.stride(place) * down) for place, (_, down) in enumerate(self.sides)
        ]
        self.props = {}

    def stride(self, place):
        return -(-self.sides[place][0] // STRIDE) * STRIDE

    def copy(self):
        other = Frame(*self.sides[0])
        other.props = dict(self.props)
        return other

    def get_stride(self, place):
        return self.stride(place)

    def get_write_ptr(self, place):
        return ctypes.c_void_p(ctypes.addressof(self.planes[place]))

    def samples(self):
        """The samples without what is between the rows."""
        found = b""
        for place, (across, down) in enumerate(self.sides):
            raw, stride = self.planes[place].raw, self.stride(place)
            found += b"".join(raw[row * stride : row * stride + across] for row in range(down))
        return found


class Clip:
    def __init__(self, width, height, length, fps, selector=None):
        if length < 1 or width < 1 or height < 1:
            raise ValueError("BlankClip: no frames")
        self.width, self.height, self.num_frames, self.fps, self.selector = width, height, length, fps, selector

    def get_frame(self, n):
        blank = Frame(self.width, self.height)
        return self.selector(n=n, f=blank) if self.selector else blank


def blank_clip(format, width, height, length, fpsnum, fpsden):
    assert format == "yuv420p8"
    return Clip(width, height, length, (fpsnum, fpsden))


def modify_frame(clip, clips, selector):
    assert clips is clip
    return Clip(clip.width, clip.height, clip.num_frames, clip.fps, selector)


stub = types.ModuleType("vapoursynth")
stub.YUV420P8 = "yuv420p8"
stub.core = types.SimpleNamespace(std=types.SimpleNamespace(BlankClip=blank_clip, ModifyFrame=modify_frame))
sys.modules["vapoursynth"] = stub
sys.path.insert(0, str(TOP / "clients/vapoursynth"))

from wokureti_source import source  # noqa: E402

CLIP = DATA / "hidden-altref.ivf"
COUNT = Session(CLIP).count().frames


class Source(Case):
    def open(self, *arguments, **options):
        clip, session = source(*arguments, **options)
        self.addCleanup(session.kill)
        return clip, session

    def test_frames_in_any_order_on_threads(self):
        clip, session = self.open(CLIP, cache=32)
        expected = frames_of(CLIP, range(COUNT))
        self.assertEqual(
            (clip.num_frames, clip.width, clip.height), (COUNT, session.frame(0).width, session.frame(0).height)
        )
        self.assertEqual(clip.fps, session.rate)
        numbers = [(7 * n) % COUNT for n in range(3 * COUNT)]
        with ThreadPoolExecutor(4) as pool:
            found = list(pool.map(lambda n: clip.get_frame(n).samples(), numbers))
        self.assertEqual(found, [expected[n] for n in numbers])

    def test_a_script_that_changes_size_and_length(self):
        whole, session = self.open(CLIP)
        clip, _ = self.open(CLIP, script="crop 0 2 2 16 8; trim 1 3 4")
        self.assertEqual((clip.num_frames, clip.width, clip.height), (4, 16, 8))
        frame = session.frame(3)
        rows = [
            bytes(frame.y[row])[2:18] if hasattr(frame.y, "dtype") else frame.y.tobytes()[row * frame.width :][2:18]
            for row in range(2, 10)
        ]
        self.assertEqual(clip.get_frame(0).samples()[:128], b"".join(rows))
        self.assertNotIn("_PictType", clip.get_frame(0).props)

    def test_a_stream_whose_first_frames_are_refused(self):
        session, good = self.addSession(CLIP), self.addSession(CLIP)
        key = session.packet(0)
        session.replace(0, b"\x10\x00")
        with self.assertRaises(Refused):
            source(session)
        session.insert(1, key)
        clip, _ = self.open(session)
        with self.assertRaises(Refused):
            clip.get_frame(0)
        self.assertEqual(clip.get_frame(1).samples(), good.frame(0).i420())

    def addSession(self, path):
        session = Session(path)
        self.addCleanup(session.kill)
        return session

    def test_properties(self):
        clip, session = self.open(CLIP)
        kinds = [facts["kind"] for facts in session.packets() if facts["frame"] is not None]
        self.assertEqual((len(kinds), kinds[0]), (COUNT, "key"))
        for number in range(COUNT):
            props = clip.get_frame(number).props
            self.assertEqual(props["_PictType"], "I" if kinds[number] == "key" else "P")
            self.assertEqual(
                (props["_Matrix"], props["_ColorRange"], props["_ChromaLocation"], props["_FieldBased"]), (6, 1, 1, 0)
            )
            self.assertEqual((props["_DurationDen"], props["_DurationNum"]), session.rate)
            self.assertEqual(props["_AbsoluteTime"], number * session.rate[1] / session.rate[0])

    def test_an_empty_stream_and_its_edits(self):
        with self.assertRaisesRegex(ValueError, "no frames"):
            source("-")
        session = self.addSession("-")
        session.blank(0, 32, 16)
        clip, _ = self.open(session)
        self.assertEqual((clip.num_frames, clip.width, clip.height, clip.fps), (1, 32, 16, (30, 1)))
        self.assertEqual(set(clip.get_frame(0).samples()), {128})

    def test_odd_sides(self):
        with self.assertRaisesRegex(ValueError, "even sides"):
            source(ODD)
        session = self.addSession(ODD)
        with self.assertRaises(ValueError):
            source(session)
        # It is left to its owner.
        self.assertTrue(session.count().frames)


if __name__ == "__main__":
    unittest.main()
