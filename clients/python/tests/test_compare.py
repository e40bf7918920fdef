"""wokureti compare and wokureti png."""

import functools
import http.server
import math
import os
import re
import subprocess
import sys
import threading
import unittest
import xml.etree.ElementTree as xml
from unittest import mock

from support import DATA, ODD, SLOW, SMALL, TOP, Case, command, packets_of, start, whole_text, write_packets
from test_serve import unpacked
from wokureti import Session
from wokureti.base import programs
from wokureti.media import ivf
from wokureti.session import frames
from wokureti.tools import compare

BROKEN = b"\x10\x00"
# 8 frames of 5x3: 15 luma samples, and 6 of each chroma plane.
HEAD, MARK, SIZE = b"YUV4MPEG2 W5 H3 F25:1 Ip C420jpeg\n", b"FRAME\n", 27


def text_of(pictures, head=HEAD):
    return head + b"".join(MARK + picture for picture in pictures)


class Compare(Case):
    def setUp(self):
        super().setUp()
        self.room = self.folder()
        self.pictures = [bytes((7 * number + place) % 256 for place in range(SIZE)) for number in range(8)]
        self.one = self.room / "one.y4m"
        self.one.write_bytes(text_of(self.pictures))

    def changed(self, *changes):
        """Another file, with other samples: (frame, place, difference)."""
        pictures = [bytearray(picture) for picture in self.pictures]
        for number, place, far in changes:
            pictures[number][place] += far
        path = self.room / "other.y4m"
        path.write_bytes(text_of(pictures, b"YUV4MPEG2 W5 H3 F30:1 Ip A1:1 C420mpeg2 XCOMMENT\n"))
        return path

    def assertSays(self, status, lines, *words, **options):
        found, out, errors = command("compare", *words, **options)
        self.assertEqual((found, out.decode().splitlines(), errors), (status, lines, ""))

    def test_the_same(self):
        self.assertSays(0, ["8 frames, all the same"], self.one, self.changed())
        self.assertSays(0, ["8 frames, all the same"], self.one, "-", given=self.changed().read_bytes())

    def test_one_sample(self):
        # PSNR: 10 log10(255^2 N / sum of squares), of 8 frames with 15 and 6 samples.
        luma, chroma, whole = 8 * 15, 8 * 6, 8 * SIZE
        for place, where, values, far, sides in (
            (0, "plane Y, column 0, row 0 (macroblock 0, 0)", (21, 23), 2, (luma, None, None)),
            (14, "plane Y, column 4, row 2 (macroblock 0, 0)", (35, 32), -3, (luma, None, None)),
            (15, "plane Cb, column 0, row 0 (macroblock 0, 0)", (36, 37), 1, (None, chroma, None)),
            (26, "plane Cr, column 2, row 1 (macroblock 0, 0)", (47, 57), 10, (None, None, chroma)),
        ):
            words = [
                f"{name} {10 * math.log10(65025 * side / far**2) if side else math.inf:.2f}"
                for name, side in zip(("Y", "Cb", "Cr"), sides)
            ]
            self.assertSays(
                1,
                [
                    f"first difference: frame 3: {where}: {values[0]} in A, {values[1]} in B",
                    "1 of 8 frames differ",
                    f"1 of {whole} samples differ, by {abs(far)} at most",
                    f"PSNR {', '.join(words)}, all {10 * math.log10(65025 * whole / far**2):.2f} dB",
                ],
                self.one,
                self.changed((3, place, far)),
            )

    def test_many_samples(self):
        lines = [
            "first difference: frame 2: plane Y, column 1, row 1 (macroblock 0, 0): 20 in A, 25 in B",
            "2 of 8 frames differ",
            "3 of 216 samples differ, by 5 at most",
            (
                f"PSNR Y {10 * math.log10(65025 * 120 / 29):.2f}, Cb {10 * math.log10(65025 * 48 / 9):.2f}, Cr inf, all"
                f" {10 * math.log10(65025 * 216 / 38):.2f} dB"
            ),
        ]
        self.assertSays(1, lines, self.one, self.changed((2, 6, 5), (2, 16, 3), (5, 0, -2)))

    def test_macroblocks(self):
        with Session(ODD) as stream:
            width, height, samples = stream.picture(0)
        path = self.room / "a.y4m"
        samples = bytearray(samples)
        for place, where in (
            (70 * 175 + 100, "plane Y, column 100, row 70 (macroblock 6, 4)"),
            (175 * 143 + 30 * 88 + 50, "plane Cb, column 50, row 30 (macroblock 6, 3)"),
        ):
            other = bytearray(samples)
            other[place] ^= 1
            path.write_bytes(b"YUV4MPEG2 W175 H143\n" + MARK + other)
            found = compare.compare(str(ODD), str(path))
            self.assertIn(where, found.first)
            self.assertEqual(found.counts, [12, 1])
        self.assertEqual((width, height), (175, 143))

    def test_the_first_macroblock_is_that_of_raster_order(self):
        width, height = 40, 35
        picture = (width, height, bytes(width * height + 2 * 20 * 18))
        luma, chroma = width * height, 20 * 18
        for places, wanted in (
            ([0], (0, 0)),
            ([luma - 1], (2, 2)),
            # The sample in the row above is in a macroblock to the right.
            ([20, 5 * width + 3], (0, 0)),
            ([16 * width + 39, 18 * width + 17], (1, 1)),
            ([luma + 8 * 20 + 9, 33 * width], (1, 1)),
            ([luma + chroma + 17 * 20 + 19], (2, 2)),
            ([luma + 19, luma + chroma + 7 * 20 + 7], (0, 0)),
        ):
            samples = bytearray(picture[2])
            for place in places:
                samples[place] = 1
            self.assertEqual(compare.first_macroblock(picture, (width, height, samples)), wanted, places)
        self.assertIsNone(compare.first_macroblock(picture, picture))

    def test_the_record_of_the_first_macroblock(self):
        packets = packets_of(ODD)
        one, other = (write_packets(self.room / f"{name}.ivf", packets) for name in "ab")
        # A hidden packet comes first in B, so its packets have other numbers.
        hidden = bytes([packets[0][0] & ~0x10]) + packets[0][1:]
        changed = [*packets[:6], packets[7], *packets[7:]]
        write_packets(other, [hidden, *changed])
        status, out, errors = command("compare", one, other)
        lines = out.decode().splitlines()
        self.assertEqual((status, errors), (1, ""))
        self.assertTrue(lines[0].startswith("first difference: frame 6: "), lines)
        found = re.fullmatch(r"first macroblock that differs: (\d+), (\d+)", lines[1])
        self.assertTrue(found, lines)
        place = tuple(map(int, found.groups()))
        with Session(one) as left, Session(other) as right:
            self.assertEqual(compare.first_macroblock(left.picture(6), right.picture(6)), place)
        for line, path, name, packet in zip(lines[2:], (one, other), "AB", (6, 7)):
            start = f"  {name}, packet {packet}: "
            self.assertTrue(line.startswith(start), line)
            self.assertEqual(
                dict(words.split(" ", 1) for words in self.words(line[len(start) :])), self.listed(path, packet, *place)
            )
        # A YUV4MPEG2 text has no records.
        status, out, _ = command("compare", one, "-", given=whole_text(other))
        self.assertEqual((status, out.decode().splitlines()[2:3]), (1, lines[2:3]))
        self.assertFalse(out.decode().splitlines()[3].startswith("  B, "))

    def words(self, text):
        """The words of a record: a list has commas without spaces."""
        return text.split(", ")

    def listed(self, path, packet, column, row):
        """The line of a macroblock as vp8list prints it, without its position and what it has not."""
        lines = (
            subprocess.run(
                [programs.find("vp8list"), path, "--macroblocks", str(packet)], stdout=subprocess.PIPE, check=True
            )
            .stdout.decode()
            .splitlines()
        )
        names = lines[0].split("\t")
        rows = (dict(zip(names, line.split("\t"))) for line in lines[1:] if not line.startswith("#"))
        found = next(line for line in rows if (line["column"], line["row"]) == (str(column), str(row)))
        return {
            name: value for name, value in found.items() if name not in ("packet", "column", "row") and value != "-"
        }

    def test_without_vp8list(self):
        packets = packets_of(ODD)
        other = write_packets(self.room / "b.ivf", [*packets[:6], packets[7], *packets[7:]])
        with mock.patch.dict(os.environ, {"VP8LIST": "/nowhere/vp8list"}):
            found = compare.compare(str(ODD), str(other))
        self.assertEqual(len(found.records), 2)
        self.assertIn("no record: ", found.records[0])

    def test_streams(self):
        text = whole_text(ODD)
        path = self.room / "whole.y4m"
        path.write_bytes(text)
        self.assertSays(0, ["12 frames, all the same"], ODD, path)
        self.assertSays(0, ["12 frames, all the same"], path, "-", given=ODD.read_bytes())
        process = start("cat", ODD, stdout=subprocess.PIPE)
        self.assertSays(
            0,
            ["12 frames, all the same"],
            ODD,
            f"/dev/fd/{process.stdout.fileno()}",
            pass_fds=[process.stdout.fileno()],
        )
        process.stdout.close()
        self.assertEqual(process.wait(5 * SLOW), 0)
        self.assertSays(
            1,
            ["first difference: frame 11: only A has it", "A has 12 frames, B has 11", "0 of 11 frames differ"]
            + self.last_two(ODD, 11),
            ODD,
            "-",
            given=text[: text.rindex(MARK)],
        )

    def last_two(self, path, count):
        samples = count * (175 * 143 + 2 * 88 * 72)
        return [f"0 of {samples} samples differ, by 0 at most", "PSNR Y inf, Cb inf, Cr inf, all inf dB"]

    def test_frames_of_other_sizes_and_refused_ones(self):
        small, odd = packets_of(SMALL), packets_of(ODD)[:3]
        one = write_packets(self.room / "a.ivf", small + odd + small + [BROKEN] + small)
        found = compare.compare(str(one), str(one))
        self.assertEqual((found.is_same, found.frames, found.same), (True, 40, 40))
        other = write_packets(self.room / "b.ivf", small + odd + small + small[:1] + small)
        found = compare.compare(str(one), str(other))
        self.assertEqual(found.first, "frame 27: A has refused packet 27 ShortPacket")
        self.assertEqual((found.frames, found.same), (40, 39))
        found = compare.compare(str(one), str(SMALL))
        self.assertEqual(found.first, "frame 12: only A has it")
        found = compare.compare(str(SMALL), str(ODD))
        self.assertEqual(found.first, "frame 0: A has 7x5 samples, B 175x143")
        self.assertEqual(list(found.lines())[1:], ["12 of 12 frames differ"])

    def test_a_url(self):
        handler = functools.partial(Quiet, directory=str(self.room))
        with http.server.ThreadingHTTPServer(("127.0.0.1", 0), handler) as server:
            thread = threading.Thread(target=server.serve_forever, daemon=True)
            thread.start()
            (self.room / "a.ivf").write_bytes(SMALL.read_bytes())
            url = f"http://127.0.0.1:{server.server_port}"
            self.assertSays(0, ["8 frames, all the same"], self.one, f"{url}/one.y4m")
            self.assertSays(0, ["12 frames, all the same"], f"{url}/a.ivf", SMALL)
            self.assertEqual(command("compare", SMALL, f"{url}/none")[0], 2)
            server.shutdown()
            thread.join()

    def test_what_cannot_be_compared(self):
        text = self.one.read_bytes()
        for data, words in (
            (text[:-1], "cut off"),
            (text.replace(b"C420jpeg", b"C422"), "not of 4:2:0"),
            (text.replace(b"W5", b"W-5"), "samples"),
            (text.replace(b"W5 ", b""), "no size"),
            (text.replace(MARK, b"FARCE\n", 1), "does not begin with FRAME"),
            (b"YUV4MPEG2 " + b"x" * 10000, "no end"),
            (b"", "neither an IVF file"),
            (b"text", "neither an IVF file"),
            (b"DKIF" + bytes(100), "standard input: it is an IVF file of another codec than VP8"),
        ):
            status, out, errors = command("compare", self.one, "-", given=data)
            self.assertEqual((status, out, words in errors), (2, b"", True), errors)
        for words in (["-", "-"], [self.one, "/nowhere"], [self.one], [self.room, self.one]):
            self.assertEqual(command("compare", *words)[0], 2)

    def test_pictures(self):
        folder = self.room / "new" / "pictures of it"
        status, _, errors = command(
            "compare", self.one, self.changed((3, 0, 2), (3, 14, 100), (3, 17, 5), (6, 1, 1)), "--png", folder
        )
        self.assertEqual(
            (status, errors, sorted(os.listdir(folder))),
            (1, "", ["frame-3-a.png", "frame-3-b.png", "frame-3-difference.png"]),
        )
        other = bytearray(self.pictures[3])
        other[0], other[14], other[17] = other[0] + 2, other[14] + 100, other[17] + 5
        for name, picture in (("a", self.pictures[3]), ("b", bytes(other))):
            wanted = frames.frame_of(0, 5, 3, picture).rgb().tobytes()
            self.assertEqual(unpacked((folder / f"frame-3-{name}.png").read_bytes()), (5, 3, wanted))
        # Eight times the difference: of luma at both ends, of Cb at the pixels of column 4 in rows 0 and 1.
        grey = bytearray(15)
        grey[0], grey[14], grey[4], grey[9] = 16, 255, 40, 40
        picture = (folder / "frame-3-difference.png").read_bytes()
        self.assertEqual(picture[24:26], b"\x08\x00")
        self.assertEqual(compare.png.text_of(5, 3, grey, 1), picture)

    def test_numpy_and_plain_python_agree(self):
        if compare.numpy is None:
            self.skipTest("numpy is not here")
        other = self.changed((2, 6, 5), (2, 16, 3), (5, 0, -2))
        found = [list(compare.compare(str(self.one), str(other)).lines())]
        with mock.patch.object(compare, "numpy", None):
            found.append(list(compare.compare(str(self.one), str(other)).lines()))
        self.assertEqual(found[0], found[1])


class Decoders(Case):
    LIMIT = 40

    def setUp(self):
        super().setUp()
        self.room = self.folder() / "a folder"
        (self.room / "more").mkdir(parents=True)
        for name in ("scene-cuts", "still"):
            (self.room / f"{name}.ivf").write_bytes((DATA / f"{name}.ivf").read_bytes())
        (self.room / "more/odd.ivf").write_bytes(ODD.read_bytes())
        (self.room / "notes.txt").write_text("no stream")
        # Frame 5 is refused: a decoder shows none there.
        packets = packets_of(SMALL)
        write_packets(self.room / "broken.ivf", [*packets[:5], BROKEN])

    def decoder(self, text):
        """A command with a space in its path, that has the frames of a stream and does something with them."""
        path = self.room.parent / "a decoder"
        lines = [
            "#!/bin/sh",
            f"export PYTHONPATH='{TOP}/clients/python'",
            f'"{sys.executable}" -m wokureti cat "$1" "$2.y4m" --jobs 1 2> /dev/null',
            text,
        ]
        path.write_text("\n".join(lines) + "\n")
        path.chmod(0o755)
        return f"'{path}' {{in}} {{out}}"

    def run_it(self, text, *words):
        status, out, errors = command(
            "compare", "--decoder", self.decoder(text), self.room, "--junit", self.room.parent / "junit.xml", *words
        )
        self.assertEqual(errors, "")
        suite = xml.parse(self.room.parent / "junit.xml").getroot()
        failures = {case.get("name"): case.find("failure").text for case in suite if case.find("failure") is not None}
        self.assertEqual((suite.get("tests"), suite.get("failures")), (str(len(suite)), str(len(failures))))
        return status, out.decode().splitlines(), failures

    def test_a_folder_of_streams(self):
        status, lines, failures = self.run_it('mv "$2.y4m" "$2"')
        names = ["broken.ivf", "more/odd.ivf", "scene-cuts.ivf", "still.ivf"]
        self.assertEqual(
            (status, lines, failures), (0, [*(f"{name}: same" for name in names), "4 of 4 streams are the same"], {})
        )
        # I420, as a decoder writes it that knows no Y4M; one stream by itself, and one process.
        raw = 'tail -n +2 "$2.y4m" | sed "s/^FRAME$//" > /dev/null; "$0.py" "$2.y4m" > "$2"'
        (self.room.parent / "a decoder.py").write_text(
            f"#!{sys.executable}\nimport sys\nsys.path.insert(0, {str(TOP / 'clients/python')!r})\nfrom wokureti.media"
            " import y4m\nfor frame in y4m.read_frames(open(sys.argv[1], 'rb')):\n   "
            " sys.stdout.buffer.write(frame[2])\n"
        )
        (self.room.parent / "a decoder.py").chmod(0o755)
        self.assertEqual(self.run_it(raw, "--jobs", "1")[0], 0)

    def test_what_differs(self):
        change = (
            'if [ "$(basename "$1")" = still.ivf ]; then printf x | dd of="$2.y4m" bs=1 seek=200 conv=notrunc'
            ' status=none; fi; mv "$2.y4m" "$2"'
        )
        status, lines, failures = self.run_it(change)
        self.assertEqual((status, list(failures), lines[-1]), (1, ["still.ivf"], "3 of 4 streams are the same"))
        self.assertIn("first difference: frame 0: plane Y", failures["still.ivf"])
        status, lines, failures = self.run_it(
            'case "$1" in *odd*) echo "no memory" >&2; exit 3;; esac; head -c 100 "$2.y4m" > "$2"'
        )
        self.assertEqual((status, len(failures)), (1, 4))
        self.assertIn("no memory", failures["more/odd.ivf"])

    def test_a_file_that_ends_in_the_middle(self):
        """Its frames are those of a decoder, and it is an error all the same, unless it is compared anyway."""
        whole = (self.room / "still.ivf").read_bytes()
        (self.room / "still.ivf").write_bytes(whole[:-7])
        for words, wanted, errors in (([], 2, 1), (["--anyway"], 0, 0)):
            status, lines, failures = self.run_it('mv "$2.y4m" "$2"', *words)
            self.assertEqual(
                (status, failures, lines[-1]),
                (wanted, {}, "4 of 4 streams are the same; 1 is damaged or ends in the middle"),
            )
            self.assertRegex(lines[-2], r"^still\.ivf: same; .*still\.ivf ends in the middle")
            suite = xml.parse(self.room.parent / "junit.xml").getroot()
            found = {
                case.get("name"): case.find("error").get("message") for case in suite if case.find("error") is not None
            }
            self.assertEqual((suite.get("errors"), len(found)), (str(errors), errors))
        # One that differs and one that is damaged: the damage is the status.
        change = (
            'if [ "$(basename "$1")" = scene-cuts.ivf ]; then printf x | dd of="$2.y4m" bs=1 seek=200 conv=notrunc'
            ' status=none; fi; mv "$2.y4m" "$2"'
        )
        self.assertEqual([self.run_it(change, *words)[0] for words in ([], ["--anyway"])], [2, 1])

    def test_what_cannot_be_run(self):
        for words, said in (
            (["--decoder", "/nowhere/decoder {in}", self.room], "there is no program /nowhere/decoder"),
            (["--decoder", "true", self.room / "more", SMALL], "no B"),
            (["--decoder", "true", self.folder()], "has no streams"),
            ([SMALL], "B is missing"),
            ([SMALL, SMALL, "--junit", self.room / "x"], "two streams"),
        ):
            status, out, errors = command("compare", *words)
            self.assertEqual((status, out, said in errors), (2, b"", True), errors)


class Quiet(http.server.SimpleHTTPRequestHandler):
    def log_message(self, *words):
        pass


class Png(Case):
    def test_a_frame(self):
        room = self.folder()
        with self.session(ODD) as stream:
            frame = stream.frame(5)
        self.assertEqual(command("png", ODD, 5, room / "a b.png"), (0, b"", ""))
        self.assertEqual(unpacked((room / "a b.png").read_bytes()), (175, 143, frame.rgb().tobytes()))
        status, out, _ = command("png", ODD, 5, "-", "--matrix", "709", "--full")
        self.assertEqual((status, unpacked(out)), (0, (175, 143, frame.rgb("709", True).tobytes())))
        (room / "list").write_text("delete 0\nblank 0 4 4\n")
        status, out, _ = command("png", ODD, 0, "-", "--edits", room / "list", "--script", "crop 0 0 0 2 2")
        # Samples of 128: the grey of limited range, 255 (128 - 16) / 219.
        self.assertEqual((status, unpacked(out)), (0, (2, 2, bytes([130]) * 12)))

    def test_what_is_refused(self):
        room = self.folder()
        path = write_packets(room / "a.ivf", packets_of(SMALL)[:2] + [BROKEN])
        for words, text in (
            ([path, 2, room / "x.png"], "refused packet 2 ShortPacket"),
            ([path, 3, room / "x.png"], "there is no frame 3: 3 frames are shown"),
            ([path, 0, path], "name another file"),
            ([path, 0, room / "none" / "x.png"], "No such file"),
            ([room, 0, room / "x.png"], "Is a directory"),
        ):
            status, out, errors = command("png", *words)
            self.assertEqual((status, out, text in errors), (2, b"", True), errors)
        self.assertEqual(os.listdir(room), ["a.ivf"])
        for words in ([path, -1, "-"], [path, "x", "-"], [path], []):
            self.assertEqual(command("png", *words)[0], 2)


class Containers(Case):
    """Other containers, with a script in place of ffmpeg, which may not be here."""

    def setUp(self):
        super().setUp()
        self.room = self.folder()
        self.clip = self.room / "a clip.webm"
        # The head of a container, and nothing more.
        self.clip.write_bytes(b"\x1a\x45\xdf\xa3\x80")
        (self.room / "bin").mkdir()
        # Python's av, which may be here, is not found.
        (self.room / "av.py").write_text("raise ImportError")
        self.env = {"PATH": str(self.room / "bin"), "PYTHONPATH": f"{self.room}:{TOP / 'clients/python'}"}

    def tool(self, name, text):
        path = self.room / "bin" / name
        path.write_text(f"#!/bin/sh\nPATH=/usr/bin:/bin\n{text}\n")
        path.chmod(0o755)

    def run_it(self, *words):
        """The command, whose PATH has only what a test puts there."""
        done = subprocess.run(
            [sys.executable, "-m", "wokureti", *map(str, words)],
            env={**os.environ, **self.env},
            capture_output=True,
            timeout=20 * SLOW,
            check=False,
        )
        return done.returncode, done.stdout, done.stderr.decode()

    def test_packets_are_taken_out(self):
        self.tool("ffprobe", """echo '{"streams": [{"index": 0, "codec_type": "video", "codec_name": "vp8"}]}'""")
        # The packets one after the other, and a line for each with its time.
        index = ivf.read_packets(SMALL)[1]
        (self.room / "data").write_bytes(b"".join(data for _, data in index))
        (self.room / "times").write_text(
            "".join(f"0, {33 * place}, {33 * place}, 33, {len(data)}, 0x0\n" for place, (_, data) in enumerate(index))
        )
        taken = f"""case "$*" in *"-i file:{self.clip} "*"-c copy"*);; *) exit 1;; esac
        while [ $# -gt 0 ]; do
          [ "$1" = data ] && cp {self.room}/data "$2"
          [ "$1" = framecrc ] && cp {self.room}/times "$2"
          shift
        done
        exit 0"""
        self.tool("ffmpeg", taken)
        status, out, errors = self.run_it("cat", self.clip)
        self.assertEqual(
            (status, out), (0, b"YUV4MPEG2 W7 H5 F1000:33 Ip C420jpeg\n" + whole_text(SMALL).split(b"\n", 1)[1])
        )
        self.assertIn(
            "a clip.webm is a WebM or Matroska file; ffmpeg took its packets out without coding them again", errors
        )
        self.assertEqual(self.run_it("png", self.clip, 3, "-")[0], 0)
        self.assertEqual(self.run_it("compare", self.clip, SMALL)[:2], (0, b"12 frames, all the same\n"))
        self.tool("ffmpeg", "echo no such codec >&2; exit 1")
        status, out, errors = self.run_it("cat", self.clip)
        self.assertEqual((status, out, "no such codec" in errors), (2, b"", True))

    def test_nothing_that_takes_them_out(self):
        for head, kind in (
            (b"\x1a\x45\xdf\xa3", "WebM or Matroska"),
            (b"RIFF1234AVI ", "AVI"),
            (b"1234ftypisom", "MP4"),
        ):
            self.clip.write_bytes(head + bytes(20))
            status, out, errors = self.run_it("cat", self.clip)
            self.assertEqual((status, out), (2, b""))
            self.assertIn(f"is a {kind} file: to take its packets out, install python3-av or ffmpeg", errors)
        self.assertEqual(self.run_it("cat", DATA / "still.ivf")[0], 0)


if __name__ == "__main__":
    unittest.main()
