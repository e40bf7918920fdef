"""What the commands say, and what they refuse: one sentence each, with the path, what it looks like, and what would
help.
"""

import errno
import os
import shutil
import subprocess
import unittest
from unittest import mock

from support import CLIP, ODD, SLOW, SMALL, Case, command, frames_of, packets_of, write_packets
from wokureti.base import files
from wokureti.media import ivf, looks, times


NTSC = (30000, 1001)


class Inputs(Case):
    LIMIT = 60

    def refused(self, path, *wanted):
        """The commands refuse a file with one line."""
        room = self.folder()
        commands = (
            ("export", path, room / "out.ivf"),
            ("cut", path, room / "out.ivf", "--from", "0.1"),
            ("join", SMALL, path, room / "out.ivf"),
            ("cat", path),
            ("png", path, 0, "-"),
            ("serve", path),
            ("open", path, "--no-browser", "--edits", room / "list"),
        )
        for words in commands:
            status, out, errors = command(*words)
            self.assertEqual((status, out, len(errors.splitlines())), (2, b"", 1), (words, errors))
            for text in (str(path), *wanted):
                self.assertIn(text, errors, words)
        self.assertEqual(os.listdir(room), [])

    def test_files_that_are_no_stream(self):
        room = self.folder()
        for name, data, wanted in (
            ("text", "a text, with \u00fc at its end: \u00fc".encode() * 30, ("it looks like a text", "name a stream")),
            ("short", b"hello\n", ("it looks like a text",)),
            (
                "pcap",
                b"\xd4\xc3\xb2\xa1\x02\0\x04\0" + bytes(200),
                ("is a pcap file with no video that can be read: it has no packets of RTP",),
            ),
            ("frames.y4m", b"YUV4MPEG2 W2 H2 F25:1\nFRAME\n123456", ("it looks like frames, YUV4MPEG2", "-c:v libvpx")),
            ("empty", b"", ("it looks like an empty file",)),
            ("bytes", bytes(range(255, 0, -1)), ("bytes of an unknown kind", "`wokureti repair")),
            (
                "other.ivf",
                ivf.HEAD.pack(b"DKIF", 0, 32, b"AV01", 8, 8, 30, 1, 0, 0),
                ("another codec than VP8, b'AV01'", "-c:v libvpx"),
            ),
            ("cut.ivf", SMALL.read_bytes()[:20], ("fewer bytes than the header of an IVF file", "`wokureti repair")),
        ):
            (room / name).write_bytes(data)
            self.refused(room / name, *wanted)

    @unittest.skipUnless(shutil.which("ffmpeg") and shutil.which("ffprobe"), "ffmpeg is not here")
    def test_video_of_another_codec(self):
        path = self.folder() / "clip.mp4"
        words = [
            "ffmpeg",
            "-nostdin",
            "-v",
            "error",
            "-f",
            "lavfi",
            "-i",
            "testsrc=size=64x48:duration=0.2",
            "-c:v",
            "mpeg4",
            path,
        ]
        subprocess.run(words, check=True, timeout=20 * SLOW)
        self.refused(path, "has video of mpeg4, and not of VP8", "-c:v libvpx")

    def test_looks(self):
        room = self.folder()
        for data, look in (
            (bytes([0x47, *bytes(187)] * 3), "an MPEG transport stream"),
            (b"\0\0\0\x01\x67", "a stream of H.264 or H.265"),
            (b"\x89PNG", "a picture"),
            ("\u00fc".encode() * 400, "a text"),
            (bytes(600), "bytes of an unknown kind"),
        ):
            (room / "one").write_bytes(data)
            self.assertEqual(looks.of(room / "one")[0], look)

    def test_what_has_nothing_to_repair(self):
        """The file that is named is the one that has no packet."""
        room = self.folder()
        (room / "list").write_text("delete 3\n")
        for words, wanted in (
            (
                (room / "list", room / "out.ivf"),
                (
                    f"wokureti: {room / 'list'}: no packet of VP8 was found in it: it looks like a text; name a stream;"
                    " a list of edits is named with --edits\n"
                ),
            ),
            (
                (SMALL, room / "out.ivf", "--second", room / "list"),
                (
                    f"wokureti: {room / 'list'}: no packet of VP8 was found in it: it looks like a text; name a stream;"
                    " a list of edits is named with --edits\n"
                ),
            ),
            (
                (SMALL, room / "out.ivf", "--second", CLIP),
                f"wokureti: {CLIP}: no packet of the second recording is one of the first\n",
            ),
        ):
            status, out, errors = command("repair", *words)
            self.assertEqual((status, out, errors, os.listdir(room)), (2, b"", wanted, ["list"]))

    def test_a_frame_that_is_not_there(self):
        room = self.folder()
        status, out, errors = command("png", SMALL, 12, room / "out.png")
        self.assertEqual(
            (status, out, errors),
            (2, b"", f"wokureti: {SMALL}: there is no frame 12: 12 frames are shown, and the first one is frame 0\n"),
        )

    def test_a_script_that_is_none(self):
        """The node, and what is missing, for each command that takes a script."""
        room = self.folder()
        for words in (("cat", SMALL), ("export", SMALL, room / "out.ivf"), ("png", SMALL, 0, "-")):
            status, out, errors = command(*words, "--script", "trim 0 2 3; trim 1 2")
            self.assertEqual((status, out), (2, b""))
            self.assertIn("refused Syntax: script: node 2: a word is missing: trim A FIRST COUNT", errors)

    def test_ports(self):
        for name in ("serve", "open"):
            for number in ("65536", "-1", "http"):
                status, out, errors = command(name, SMALL, f"--port={number}")
                self.assertEqual((status, out), (2, b""), errors)
                self.assertIn("argument --port: ", errors)
        self.assertIn(
            "65536 is no port: it is 1 to 65535, or 0 for a free one", command("serve", SMALL, "--port", "65536")[2]
        )


class Outputs(Case):
    LIMIT = 60

    def test_a_folder_that_is_not_there(self):
        """The file that was named is in the message, and no other one."""
        out = self.folder() / "none" / "out.ivf"
        for words in (
            ("cut", SMALL, out, "--from", "f3"),
            ("export", SMALL, out),
            ("join", SMALL, SMALL, out),
            ("repair", SMALL, out),
            ("cat", SMALL, out.with_suffix(".y4m")),
            ("png", SMALL, 0, out),
        ):
            status, said, errors = command(*words)
            path = next(word for word in words if str(word).startswith(str(out.parent)))
            self.assertEqual((status, said, errors), (2, b"", f"wokureti: {path}: No such file or directory\n"), words)

    def test_a_save_that_cannot_be_written(self):
        """It is refused before anything is served, and not when all was edited."""
        room = self.folder()
        for name, more in (("serve", ()), ("open", ("--no-browser",))):
            for save, wanted in (
                (room / "none" / "out.ivf", f"there is no folder {room / 'none'}"),
                (room, "this is a folder"),
            ):
                status, out, errors = command(name, SMALL, *more, "--edits", room / "list", "--save", save)
                self.assertEqual(
                    (status, out, errors),
                    (2, b"", f"wokureti: --save {save}: {wanted}: name a file that can be written\n"),
                )
        self.assertEqual(os.listdir(room), [])

    def test_a_file_that_is_there_is_replaced_only_with_y(self):
        room = self.folder()
        out = room / "out"
        for words in (
            ("cut", SMALL, out, "--from", "f3"),
            ("export", SMALL, out),
            ("join", SMALL, SMALL, out),
            ("repair", SMALL, out),
            ("cat", SMALL, out),
        ):
            out.write_text("before")
            status, _, errors = command(*words)
            self.assertEqual(
                (status, errors, out.read_text()),
                (2, f"wokureti: {out} is there already: -y replaces it\n", "before"),
                words,
            )
            status, _, errors = command(*words, "-y")
            self.assertEqual((status, errors), (0, ""), words)
            self.assertNotEqual(out.read_bytes(), b"before")
        out.unlink()
        (room / "list").write_text("before")
        self.assertEqual(command("repair", SMALL, out, "--edits", room / "list")[0], 2)
        self.assertEqual(os.listdir(room), ["list"])
        self.assertEqual(command("cat", SMALL, "/dev/null")[0], 0)

    def test_a_full_disk_is_named(self):
        for words in (
            ("cat", SMALL, "/dev/full"),
            ("png", SMALL, 0, "/dev/full"),
            ("export", SMALL, "/dev/full"),
            ("repair", SMALL, "/dev/full"),
        ):
            status, _, errors = command(*words)
            self.assertEqual((status, errors), (2, "wokureti: /dev/full: No space left on device\n"), words)
        path = self.folder() / "out"
        with (
            mock.patch.object(os, "fsync", side_effect=OSError(errno.ENOSPC, "No space left on device")),
            self.assertRaises(OSError) as caught,
        ):
            files.write_whole(path, [b"a"])
        self.assertEqual((caught.exception.filename, list(path.parent.iterdir())), (str(path), []))

    def test_frames_go_to_no_file_of_packets(self):
        room = self.folder()
        for name in ("keep.ivf", "out.webm", "out.mp4"):
            status, _, errors = command("cat", SMALL, room / name)
            self.assertEqual(
                (status, "cat writes frames, YUV4MPEG2, and not" in errors and "name it .y4m" in errors), (2, True)
            )


class Joins(Case):
    LIMIT = 120

    def test_more_streams_than_the_program_reads(self):
        room = self.folder()
        clips = [SMALL, ODD]
        for count in (8, 9, 17, 66):
            names = [
                write_packets(room / f"{count}-{turn}.ivf", packets_of(clips[turn % 2])[: 2 + turn % 3])
                for turn in range(count)
            ]
            out = room / f"out{count}.ivf"
            status, said, errors = command("join", *names, out)
            self.assertEqual((status, errors, len(said.splitlines())), (0, "", 1))
            self.assertEqual(packets_of(out), [data for name in names for data in packets_of(name)])
            stamps = [stamp for stamp, _ in ivf.read_packets(out)[1]]
            self.assertEqual(stamps, list(range(len(stamps))))
        status, _, errors = command("join", *names[:9], names[3], "-y")
        self.assertEqual((status, "the output is" in errors), (2, True), errors)


class Sizes(Case):
    def changing(self):
        """A stream of 12 frames of one size, 12 of another, and 3 of the first."""
        with open(CLIP, "rb") as file:
            head, _ = ivf.read_index(file.fileno())
        packets = [*packets_of(CLIP)[:12], *packets_of(SMALL), *packets_of(CLIP)[:3]]
        path = self.folder() / "changing.ivf"
        path.write_bytes(b"".join(ivf.pieces(head, len(packets), list(enumerate(packets)))))
        return path

    def test_it_is_said_before_the_first_frame(self):
        path = self.changing()
        status, out, errors = command("cat", path)
        self.assertEqual(status, 1)
        self.assertTrue(
            errors.startswith(
                "wokureti: the size of the frames changes: frames 0 to 11 are 320x180, frames 12 to 23 are 7x5, frames"
                " 24 to 26 are 320x180. A YUV4MPEG2 file has one size, so 12 frames are left out; --per-size writes a"
                " file for each size\n"
            ),
            errors,
        )
        self.assertEqual(out.count(b"FRAME\n"), 15)
        self.assertNotIn("the size", command("cat", SMALL)[2])

    def test_a_file_for_each_size(self):
        path = self.changing()
        out = path.parent / "out.y4m"
        for more in ((), ("--script", "trim 0 2 100")):
            status, said, errors = command("cat", path, out, "--per-size", *more, *(("-y",) if more else ()))
            self.assertEqual((status, errors), (0, ""))
            names = [path.parent / f"out-{name}.y4m" for name in ("320x180", "7x5", "320x180-2")]
            begin = 2 if more else 0
            self.assertEqual(
                [line.split(b": ")[0].decode() for line in said.splitlines()], [str(name) for name in names]
            )
            starts, found = (begin, 12, 24, 27), []
            for name, first, end in zip(names, starts, starts[1:]):
                head, _, rest = name.read_bytes().partition(b"\n")
                found.append(rest)
                self.assertEqual(rest, b"".join(b"FRAME\n" + data for data in frames_of(path, range(first, end))))
                self.assertIn(f"W{320 if end != 24 else 7} ".encode(), head)
        self.assertFalse(out.exists())
        self.assertEqual(command("cat", path, out, "--per-size")[0], 2)
        self.assertEqual(command("cat", path, "--per-size")[0], 2)


class Rates(Case):
    def stream(self, stamps, base):
        path = self.folder() / "in.ivf"
        data = packets_of(SMALL)
        packets = [(stamp, data[0] if turn % 12 == 0 else data[turn % 12]) for turn, stamp in enumerate(stamps)]
        path.write_bytes(b"".join(ivf.pieces(ivf.Head(7, 5, *base), len(packets), packets)))
        return path

    def test_a_base_that_is_no_rate(self):
        """As programs write them: 90,000 ticks a second, milliseconds, microseconds."""
        thirty = [round(1000 * n / 30) for n in range(600)]
        ntsc = [1000 * n * 1001 // 30000 for n in range(900)]
        cases = [
            (range(0, 90000 * 20, 3000), (90000, 1), (30, 1)),
            (range(0, 3003 * 300, 3003), (90000, 1), NTSC),
            ([900000 + round(90000 * n / 24) for n in range(100)], (90000, 1), (24, 1)),
            (thirty, (1000, 1), (30, 1)),
            (ntsc, (1000, 1), NTSC),
            (range(0, 4000, 40), (1000, 1), (25, 1)),
            (range(0, 330, 33), (1000, 1), (1000, 33)),
            (range(0, 400000, 40000), (1000000, 1), (25, 1)),
            (range(12), (30, 1), (30, 1)),
            (range(0, 24, 2), (30, 1), (15, 1)),
            (range(12), NTSC, NTSC),
            ([0], (90000, 1), (30, 1)),
            ([0], (25, 1), (25, 1)),
        ]
        for stamps, base, rate in cases:
            found = times.rate_of(list(stamps), bytes([ivf.SHOWN]) * len(stamps), base)
            self.assertEqual(found, rate, (base, list(stamps)[:4]))

    def test_cat_and_a_session_have_one_rate(self):
        path = self.stream(range(0, 90000 * 20, 3000), (90000, 1))
        status, out, errors = command("cat", path)
        self.assertEqual((status, out.split(b"\n", 1)[0], errors), (0, b"YUV4MPEG2 W7 H5 F30:1 Ip C420jpeg", ""))
        self.assertEqual(self.session(path).rate, (30, 1))

    def test_a_rate_that_varies_is_said(self):
        path = self.stream([0, 40, 200, 240, 280, 600, 640], (1000, 1))
        status, out, errors = command("cat", path)
        self.assertEqual((status, out.split(b"\n", 1)[0]), (0, b"YUV4MPEG2 W7 H5 F25:1 Ip C420jpeg"))
        self.assertRegex(
            errors,
            (
                "the rate of the frames varies, and a YUV4MPEG2 file has one rate: frames are away from their times by"
                " up to [0-9]+ ms. --constant"
            ),
        )


if __name__ == "__main__":
    unittest.main()
