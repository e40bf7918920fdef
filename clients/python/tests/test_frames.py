"""Frames in red, green and blue, and files that are written whole."""

import os
import stat
import struct
import threading
import unittest
from unittest import mock

from support import SMALL, Case, packets_of
from wokureti.errors import NotIvf
from wokureti.base import files
from wokureti.media import colours, ivf
from wokureti.media.y4m import size_of
from wokureti.session.frames import frame_of

# Y, Cb and Cr of colour bars of 100 %, for 16 to 235: ITU-R BT.601 and BT.709. Red, green and blue are 0 or 255.
BARS = {
    "601": {
        (0, 0, 0): (16, 128, 128),
        (255, 255, 255): (235, 128, 128),
        (255, 255, 0): (210, 16, 146),
        (0, 255, 255): (170, 166, 16),
        (0, 255, 0): (145, 54, 34),
        (255, 0, 255): (106, 202, 222),
        (255, 0, 0): (81, 90, 240),
        (0, 0, 255): (41, 240, 110),
    },
    "709": {
        (0, 0, 0): (16, 128, 128),
        (255, 255, 255): (235, 128, 128),
        (255, 255, 0): (219, 16, 138),
        (0, 255, 255): (188, 154, 16),
        (0, 255, 0): (173, 42, 26),
        (255, 0, 255): (78, 214, 230),
        (255, 0, 0): (63, 102, 240),
        (0, 0, 255): (32, 240, 118),
    },
}


def flat(width, height, y, u, v):
    chroma = (width + 1) // 2 * ((height + 1) // 2)
    return frame_of(0, width, height, bytes([y]) * (width * height) + bytes([u]) * chroma + bytes([v]) * chroma)


def pixels(frame, *options):
    """The picture as bytes, made by plain Python and, where it is there, by numpy too."""
    with mock.patch.object(colours, "numpy", None):
        found = frame.rgb(*options).tobytes()
    assert frame.rgb(*options).tobytes() == found
    return found


class Colours(Case):
    def test_colour_bars(self):
        for matrix, bars in BARS.items():
            for wanted, (y, u, v) in bars.items():
                found = pixels(flat(3, 3, y, u, v), matrix)
                self.assertEqual(len(found), 27)
                for place, value in enumerate(found):
                    self.assertLessEqual(abs(value - wanted[place % 3]), 2, (matrix, wanted, found[:3]))

    def test_grey(self):
        for y in range(256):
            self.assertEqual(pixels(flat(1, 1, y, 128, 128), "601", True), bytes([y, y, y]))
            # 219 steps of luma between black and white, rounded to the next integer.
            grey = max(0, min(255, int((y - 16) * 255 / 219 + 0.5) if y >= 16 else 0))
            self.assertEqual(pixels(flat(1, 1, y, 128, 128)), bytes([grey, grey, grey]))

    def test_full_range_of_jpeg(self):
        # JFIF: R = Y + 1.402 (Cr - 128), G = Y - 0.344136 (Cb - 128) - 0.714136 (Cr - 128), B = Y + 1.772 (Cb - 128).
        for y, u, v in ((100, 90, 200), (0, 0, 0), (255, 255, 255), (37, 129, 127)):
            exact = (y + 1.402 * (v - 128), y - 0.344136 * (u - 128) - 0.714136 * (v - 128), y + 1.772 * (u - 128))
            for value, wanted in zip(pixels(flat(1, 1, y, u, v), "601", True), exact):
                self.assertLessEqual(abs(value - max(0, min(255, wanted))), 0.51)

    def test_each_chroma_sample_covers_four(self):
        luma = bytes(range(15))
        frame = frame_of(0, 5, 3, luma + bytes([128, 128, 240, 128, 128, 128]) + bytes([128] * 6))
        found = pixels(frame, "601", True)
        for row in range(3):
            for column in range(5):
                y = luma[5 * row + column]
                blue = y + 1.772 * 112 if row < 2 and column == 4 else y
                at = 3 * (5 * row + column)
                self.assertEqual(found[at], y)
                self.assertAlmostEqual(found[at + 2], blue, delta=0.51)

    def test_the_shape(self):
        picture = flat(5, 3, 1, 2, 3).rgb()
        self.assertEqual(picture.shape, (3, 5, 3))
        with self.assertRaises(ValueError):
            flat(1, 1, 0, 0, 0).rgb("2020")


class Files(Case):
    def test_a_write_that_fails_leaves_the_file(self):
        room = self.folder()
        path = room / "a"
        path.write_bytes(b"old")
        path.chmod(0o640)

        def pieces():
            yield b"new"
            raise KeyError

        for target in (path, room / "b"):
            with self.assertRaises(KeyError):
                files.write_whole(target, pieces())
        self.assertEqual((path.read_bytes(), os.listdir(room)), (b"old", ["a"]))
        files.write_whole(path, [b"new", b"er"])
        self.assertEqual((path.read_bytes(), stat.S_IMODE(path.stat().st_mode)), (b"newer", 0o640))

    def test_the_folder_is_on_the_disk_after_the_file_and_its_name(self):
        room, calls = self.folder(), []
        path = room / "a"
        real = os.fsync, os.replace

        def fsync(descriptor):
            calls.append("folder" if stat.S_ISDIR(os.fstat(descriptor).st_mode) else "file")
            return real[0](descriptor)

        def replace(*names):
            calls.append("rename")
            return real[1](*names)

        with mock.patch("os.fsync", fsync), mock.patch("os.replace", replace):
            files.write_whole(path, [b"new"])
        self.assertEqual(calls, ["file", "rename", "folder"])

    def test_a_link_stays_a_link(self):
        room = self.folder()
        os.symlink("b", room / "a")
        files.write_whole(room / "a", [b"new"])
        self.assertTrue((room / "a").is_symlink())
        self.assertEqual((room / "b").read_bytes(), b"new")

    def test_a_pipe_is_written_to(self):
        path = self.folder() / "pipe"
        os.mkfifo(path)
        found = []
        reader = threading.Thread(target=lambda: found.append(path.read_bytes()))
        reader.start()
        files.write_whole(path, [b"new", b"er"])
        reader.join()
        self.assertEqual(found, [b"newer"])
        self.assertTrue(stat.S_ISFIFO(path.stat().st_mode))


class Ivf(Case):
    def test_files_that_are_none(self):
        room = self.folder()
        good = SMALL.read_bytes()
        for text in (
            b"",
            good[:31],
            b"RIFF" + good[4:],
            good[:8] + b"VP90" + good[12:],
            good[:6] + b"\x1f\0" + good[8:],
            good[:6] + b"\xff\xff" + good[8:],
        ):
            (room / "a").write_bytes(text)
            with self.assertRaises(NotIvf):
                ivf.read_packets(room / "a")

    def test_a_longer_header_and_a_rest(self):
        path = self.folder() / "a"
        good = SMALL.read_bytes()
        path.write_bytes(good[:6] + b"\x24\0" + good[8:32] + b"more" + good[32:] + struct.pack("<IQ", 5, 0) + b"1234")
        self.assertEqual(packets_of(path), packets_of(SMALL))

    def test_key_sizes(self):
        key = b"\x10\0\0\x9d\x01\x2a\x40\x41\xb4\x80"
        self.assertEqual(ivf.key_size(key), (0x140, 0xB4))
        for data in (b"", key[:9], b"\x11" + key[1:], key[:3] + b"\0" + key[4:], key[:6] + b"\0\x40" + key[8:]):
            self.assertIsNone(ivf.key_size(data))

    def test_sizes_of_frames(self):
        self.assertEqual([size_of(*side) for side in ((1, 1), (2, 2), (3, 5), (320, 180))], [3, 6, 27, 86400])


if __name__ == "__main__":
    unittest.main()
