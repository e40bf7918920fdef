"""WebM and Matroska files in and out, and their sound."""

import io
import itertools
import json
import os
import pathlib
import pty
import random
import shutil
import subprocess
import sys
import tempfile
import time
import unittest
from array import array
from unittest import mock

from support import SLOW, SMALL, Case, command, packets_of, start, write_packets
from wokureti.errors import NoSound
from wokureti.base import programs, progress
from wokureti.media import containers, ends, excerpts, ivf, matroska, muxing, opus, sounds, times, webm
from wokureti.session import convert
from wokureti.tools import paces

MS = 10**6
HAS_FFMPEG = bool(shutil.which("ffmpeg") and shutil.which("ffprobe"))
needs_ffmpeg = unittest.skipUnless(HAS_FFMPEG, "ffmpeg is not here")
ROOM = None


def setUpModule():
    global ROOM
    room = tempfile.TemporaryDirectory()
    unittest.addModuleCleanup(room.cleanup)
    ROOM = pathlib.Path(room.name)


def ffmpeg(*words):
    subprocess.run(["ffmpeg", "-nostdin", "-y", "-v", "error", *map(str, words)], check=True, timeout=60 * SLOW)


# What makes each clip, after a picture with a sound that rises.
KINDS = {
    "talk.webm": [
        "-c:a",
        "libopus",
        "-b:a",
        "64k",
        "-auto-alt-ref",
        "1",
        "-lag-in-frames",
        "12",
        "-arnr-maxframes",
        "5",
        "-metadata",
        "title=A talk",
        "-metadata:s:a:0",
        "language=eng",
        "-metadata:s:a:0",
        "title=Room",
    ],
    "long.webm": ["-c:a", "libopus", "-b:a", "32k", "-frame_duration", "60"],
    "vorbis.webm": ["-c:a", "libvorbis", "-b:a", "64k"],
    "two.mkv": ["-c:a", "libopus", "-b:a", "48k", "-map", "0:v", "-map", "1:a", "-map", "2:a", "-ac:a:1", "2"],
    "silent.webm": ["-an"],
    "late.webm": ["-c:a", "libopus", "-b:a", "48k"],
    "varied.webm": ["-c:a", "libopus", "-b:a", "48k", "-vf", "select='not(eq(mod(n,7),3))'", "-fps_mode", "vfr"],
}


def clip(name):
    """A clip of 4 seconds, 25 frames a second, that is coded once."""
    path = ROOM / name
    if not path.exists():
        start = ["-itsoffset", "0.5"] if name == "late.webm" else []
        pictures = [*start, "-f", "lavfi", "-i", "testsrc=size=96x64:rate=25:duration=4"]
        sound = [
            word
            for pitch in (440, 880)
            for word in ("-f", "lavfi", "-i", f"aevalsrc=0.3*sin({pitch}*t*(1+t)):s=48000:d=4")
        ]
        words = [
            *pictures,
            *sound,
            "-c:v",
            "libvpx",
            "-threads",
            "1",
            "-g",
            "20",
            "-b:v",
            "150k",
            *([] if "two" in name else ["-map", "0:v", "-map", "1:a"]),
            *KINDS[name],
        ]
        # Hidden packets need two passes.
        for turn in (1, 2) if "-auto-alt-ref" in words else ():
            ffmpeg(*words, "-pass", turn, "-passlogfile", ROOM / "passes", path)
        if not path.exists():
            ffmpeg(*words, path)
    return path


def media(path, folder):
    """What ffmpeg reads of a file, and the path of its packets."""
    out = os.path.join(folder, f"read-{len(os.listdir(folder))}.ivf")
    return containers.read_by_ffmpeg(path, out), out


def starts(path):
    """Where the blocks of the video begin."""
    index = webm.read_index(programs.find("vp8list"), str(path), (), str(path))
    data = path.read_bytes()
    # The head of a block: its length has a byte or two here.
    return [place - (6 if data[place - 6] == 0xA3 else 7) for place in index.starts]


def sound_packets(track):
    return list(track.packets(range(len(track.sizes))))


def frames(path):
    """The MD5s of a file's frames, by ffmpeg."""
    words = [
        "ffmpeg",
        "-nostdin",
        "-v",
        "error",
        "-i",
        path,
        "-map",
        "0:v",
        "-fps_mode",
        "passthrough",
        "-f",
        "framemd5",
        "-",
    ]
    found = subprocess.run(list(map(str, words)), capture_output=True, text=True, check=True, timeout=60 * SLOW).stdout
    return [line.split(",")[-1].strip() for line in found.splitlines() if not line.startswith("#")]


class Durations(Case):
    def test_of_a_file(self):
        # Shown, hidden, shown; then a time stamp that goes back, and one that is the same.
        shown, hidden = ivf.SHOWN, 0
        found = times.durations([0, 33, 40, 70, 50, 50, 90], [shown, hidden, shown, shown, shown, shown, shown], 33)
        self.assertEqual(list(found), [40, 7, 30, 33, 33, 40, 33])
        self.assertEqual(list(times.durations([], [], 1)), [])

    def test_new_stamps(self):
        packets = [(False, 5), (True, 40), (False, 7), (True, 30), (False, 9)]
        stamps, end = times.stamps_of([(*packet, (20, 1)) for packet in packets], (20, 1))
        self.assertEqual((list(stamps), end), ([0, 0, 40, 40, 70], 70))

    def test_new_stamps_of_two_rates(self):
        # Three frames of 1/20 second and three of 1/7 in ticks of 1/30: 1.5, 3 and 4.5, and with these 4.5 + 4.29,
        # rounded apart.
        twenty, seven = (True, 1, (20, 1)), (True, 1, (7, 1))
        stamps, end = times.stamps_of([twenty] * 3 + [seven] * 3, (30, 1))
        self.assertEqual((list(stamps), end), ([0, 2, 3, 5, 9, 14], 18))
        # A frame lasts one tick at least.
        stamps, end = times.stamps_of([(True, 1, (1000, 1))] * 3, (30, 1))
        self.assertEqual((list(stamps), end), ([0, 1, 2], 3))

    def test_other_rates(self):
        heads = [ivf.Head(0, 0, *rate) for rate in ((30, 1), (1000, 1), (30000, 1001), (0, 0), (1, 10))]
        self.assertEqual([times.scaled(1, heads[0], head) for head in heads], [1, 33, 1, 1, 1])
        self.assertEqual(times.scaled(100, heads[1], heads[0]), 3)


class Opus(Case):
    def test_durations(self):
        # RFC 6716, section 3.1: table 2, and the numbers of frames.
        cases = {
            b"\x00": 10,
            b"\x18": 60,
            b"\x19": 120,
            b"\x60": 10,
            b"\x78": 20,
            b"\x80": 2.5,
            b"\xe8": 5,
            b"\xf8": 20,
            b"\xfa": 40,
            b"\xfb\x03": 60,
            b"\xfb": 0,
            b"": 0,
        }
        self.assertEqual({data: opus.duration(data) / MS for data in cases}, cases)
        self.assertEqual(
            [opus.duration(opus.silence(int(length * MS), 2)[0]) / MS for length in (2.5, 5, 7, 20, 60)],
            [2.5, 5, 5, 20, 20],
        )

    def test_pre_skip(self):
        self.assertEqual(opus.pre_skip(b"OpusHead\x01\x02\x38\x01" + bytes(7)), 6_500_000)
        self.assertEqual(opus.pre_skip(b"\x02vorbis"), 0)

    @needs_ffmpeg
    def test_silence_is_silent(self):
        room = self.folder()
        for channels, length in itertools.product((1, 2), (2.5, 5, 10, 20)):
            data, _ = opus.silence(int(length * MS), channels)
            private = b"OpusHead\x01" + bytes([channels]) + bytes(2) + (48000).to_bytes(4, "little") + bytes(3)
            track = matroska.sound(2, "opus", private, 48000, channels, 0)
            with open(room / "silent.mka", "wb") as file:
                parts = {matroska.INFO: matroska.info("", 0), matroska.TRACKS: matroska.element(matroska.TRACKS, track)}
                matroska.write(
                    file, "matroska", parts, ((int(turn * length * MS), 2, True, data) for turn in range(50))
                )
            ffmpeg("-i", room / "silent.mka", "-f", "s16le", room / "samples")
            samples = array("h", (room / "samples").read_bytes())
            self.assertEqual((len(samples), set(samples)), (int(50 * length * 48) * channels, {0}))


class Elements(Case):
    def test_lengths(self):
        # RFC 8794, section 4.4: all ones are an unknown length.
        cases = {0: "80", 126: "fe", 127: "407f", 16382: "7ffe", 16383: "203fff"}
        self.assertEqual({size: matroska.length_of(size).hex() for size in cases}, cases)
        self.assertEqual(matroska.filling(0), b"")
        self.assertEqual(len(matroska.filling(40)), 40)

    def test_a_pipe_gets_a_file_without_an_index(self):
        read, write = os.pipe()
        parts = {
            matroska.INFO: matroska.info("", 0),
            matroska.TRACKS: matroska.element(matroska.TRACKS, matroska.video(1, (16, 16), None)),
        }
        with open(write, "wb") as file:
            matroska.write(file, "webm", parts, [(0, 1, True, b"a packet")])
        with open(read, "rb") as file:
            text = file.read()
        self.assertEqual(text.index(bytes.fromhex("18538067") + b"\x01" + b"\xff" * 7), len(matroska.head("webm")))
        self.assertIn(matroska.cluster(0, [matroska.block(1, 0, True, b"a packet")]), text)
        self.assertNotIn(bytes.fromhex(matroska.CUES), text)


class Joins(Case):
    """The choice of packets, of tracks that are made here."""

    def track(
        self, length=20, count=500, start=-7, channels=1, private=b"OpusHead\x01\x01\x38\x01" + bytes(7), name="track"
    ):
        """A track of Opus packets of this many milliseconds, each with its number in it."""
        path = self.folder() / name
        place = {2.5: 0xE0, 5: 0xE8, 10: 0xF0, 20: 0xF8, 60: 0x18}[length]
        packets = [bytes([place]) + number.to_bytes(4, "big") for number in range(count)]
        path.write_bytes(b"".join(packets))
        starts, sizes = array("Q", range(0, 5 * count, 5)), array("I", [5] * count)
        # A file has milliseconds.
        found = array("q", (round(start + number * length) * MS for number in range(count)))
        return containers.Sound(
            "opus",
            private,
            48000,
            channels,
            {},
            "und",
            1,
            str(path),
            starts,
            sizes,
            found,
            array("q", [int(length * MS)] * count),
        )

    def media(self, *tracks):
        return containers.Media("", (25, 1), {}, {}, "und", list(tracks), "")

    def output(self, spans, ending=".webm", mode="copy", number=0):
        output = sounds.outputs(spans, ending, mode, self.fail, None)[number]
        return output, list(output.packets)

    def numbers(self, packets):
        return [int.from_bytes(data[1:], "big") if len(data) == 5 else None for _, data in packets]

    def test_a_cut(self):
        media = self.media(self.track())
        output, packets = self.output([sounds.Span(media, 1000 * MS, 400 * MS)])
        # It begins 6.5 ms earlier: packet 50 has the sample at 993 ms.
        self.assertEqual(self.numbers(packets), list(range(50, 70)))
        self.assertEqual([time for time, _ in packets], [-6_500_000 + 20 * MS * turn for turn in range(20)])
        self.assertEqual((output.delay, output.codec, output.rate), (6_500_000, "opus", 48000))

    def test_each_join_is_at_most_half_a_packet_off(self):
        for length in (2.5, 10, 20, 60):
            track = self.track(length, int(10000 / length))
            media = self.media(track)
            starts = [1000 + 137 * turn % 7000 for turn in range(50)]
            spans = [sounds.Span(media, start * MS, 33 * MS + 333_333) for start in starts]
            _, packets = self.output(spans)
            clock, found = 0, iter(packets)
            time, number = next(found)
            for span in spans:
                end = clock + span.length
                while time + length * MS / 2 <= end:
                    wanted = span.start + time - clock
                    there = track.times[int.from_bytes(number[1:], "big")]
                    self.assertLessEqual(abs(there - wanted), length * MS / 2 + 1.5 * MS, (length, span))
                    # The first packets of all begin earlier by the pre-skip.
                    self.assertGreaterEqual(time + length * MS / 2, clock if clock else -6.5 * MS)
                    time, number = next(found, (1 << 60, b""))
                clock = end
            # No time is lost or added, however many joins there are.
            self.assertLessEqual(abs(packets[-1][0] + length * MS - clock), length * MS / 2)
            self.assertEqual(
                [after[0] - before[0] for before, after in zip(packets, packets[1:])],
                [length * MS] * (len(packets) - 1),
            )

    def test_silence_where_there_is_no_sound(self):
        media, mute = self.media(self.track(count=100)), self.media()
        _, packets = self.output(
            [
                sounds.Span(media, 1900 * MS, 200 * MS),
                sounds.Span(mute, 0, 40 * MS),
                sounds.Span(None, 0, 60 * MS),
                sounds.Span(media, 0, 20 * MS),
            ]
        )
        self.assertEqual(self.numbers(packets), [95, 96, 97, 98, 99, *[None] * 10, 0])
        self.assertEqual(len(packets) * 20, 320)

    def test_a_hole_in_the_sound(self):
        track = self.track()
        for items in (track.starts, track.sizes, track.times, track.durations):
            del items[60:63]
        _, packets = self.output([sounds.Span(self.media(track), 1100 * MS, 300 * MS)])
        self.assertEqual(self.numbers(packets), [*range(55, 60), None, None, None, *range(63, 70)])

    def test_spans_that_follow_each_other_are_one(self):
        media, other = self.media(), self.media()
        spans = [
            sounds.Span(media, 0, 33),
            sounds.Span(media, 33, 34),
            sounds.Span(other, 67, 33),
            sounds.Span(other, 90, 0),
            sounds.Span(None, 0, 5),
            sounds.Span(None, 0, 6),
        ]
        self.assertEqual([(span.start, span.length) for span in sounds.joined(spans)], [(0, 67), (67, 33), (0, 11)])

    def test_tracks_that_cannot_be_copied(self):
        one, other = self.track(), self.track(private=b"OpusHead\x01\x01\x00\x02" + bytes(7))
        vorbis = one._replace(codec="vorbis")
        half = 1000 * MS
        cases = [
            ([(one, 0), (other, 0)], ".webm", "different codecs, headers, rates or channels"),
            ([(vorbis, 0), (vorbis, 2 * half)], ".webm", "needs the one before it"),
            ([(one._replace(codec="mp3"), 0)], ".webm", "mp3 cannot be copied to .webm"),
            (
                [(one._replace(private=one.private[:18] + b"\x01\x02\x01"), 0), (None, 0)],
                ".mkv",
                "more than two channels",
            ),
        ]
        for parts, ending, why in cases:
            known = {id(track): self.media(*([track] if track else [])) for track, _ in parts}
            spans = [sounds.Span(known[id(track)], start, half) for track, start in parts]
            with self.assertRaisesRegex(NoSound, f"sound track 0 cannot be copied: .*{why}.*--sound encode"):
                self.output(spans, ending)
            self.assertEqual(sounds.outputs(spans, ending, "none", self.fail, None), [])
        _, packets = self.output([sounds.Span(self.media(vorbis), half, half)])
        self.assertEqual((self.numbers(packets)[0], len(packets), packets[0][0]), (50, 50, 0))

    def test_without_ffmpeg_nothing_is_coded_again(self):
        media = self.media(self.track())
        with mock.patch.object(shutil, "which", return_value=None), self.assertRaisesRegex(
            NoSound, "install ffmpeg, or leave it out with --sound none"
        ):
            sounds.outputs([sounds.Span(media, 0, 20 * MS)], ".webm", "encode", self.fail, self.folder())


class Spans(Case):
    def contents(self, *lines, stream=None):
        stream = stream or write_packets(self.folder() / "in.ivf", packets_of(SMALL), 25)
        session = self.session(stream, sources=[stream])
        for line in lines:
            session.request(line)
        return session.edits.contents()

    def spans(self, *lines):
        """The spans in milliseconds, those that follow each other as one; None is silence."""
        contents = self.contents(*lines)
        one = containers.Media("", (25, 1), {}, {}, "und", [], "")
        for item in contents.inputs.all:
            item.media = one
        found = sounds.joined(excerpts.of_numbers(contents, contents.streams[0], 0))
        return [(span.start // MS if span.media else None, span.length // MS) for span in found]

    def test_they_are_those_of_the_packets(self):
        self.assertEqual(self.spans(), [(0, 480)])
        self.assertEqual(self.spans("delete 3", "delete 3"), [(0, 120), (200, 280)])
        self.assertEqual(self.spans("move 9 2"), [(0, 80), (360, 40), (80, 280), (400, 80)])
        self.assertEqual(self.spans("copy 1 5 8"), [(0, 320), (200, 40), (320, 160)])
        self.assertEqual(self.spans("replace 4 -"), [(0, 480)])

    def test_what_is_held(self):
        # In the place of a packet it keeps the sound that is there; else it is silent.
        self.assertEqual(self.spans("hold 4", "delete 5"), [(0, 480)])
        self.assertEqual(self.spans("hold 4"), [(0, 160), (None, 40), (160, 320)])
        self.assertEqual(self.spans("hold 12", "hold 12"), [(0, 480), (None, 80)])
        self.assertEqual(self.spans("blank 0 7 5"), [(None, 40), (0, 480)])
        self.assertEqual(self.spans("delete 0", "blank 0 7 5"), [(0, 480)])

    def test_new_stamps(self):
        contents = self.contents("delete 3", "move 9 2", "hold 6", "copy 1 4 4")
        stamps, end = contents.stamps(0, contents.streams[0])
        self.assertEqual((list(stamps), end), (list(range(13)), 13))

    def test_a_packet_keeps_its_duration(self):
        holed = self.folder() / "holed.ivf"
        packets = list(enumerate(packets_of(SMALL)))
        holed.write_bytes(b"".join(ivf.pieces(ivf.Head(7, 5, 25, 1), 9, packets[:4] + packets[7:])))
        contents = self.contents(stream=holed)
        self.assertEqual(list(contents.stamps(0, contents.streams[0])[0]), [0, 1, 2, 3, *range(7, 12)])
        # What fills the hole after one comes after it.
        contents = self.contents("insert 4 4 -", stream=holed)
        self.assertEqual(list(contents.stamps(0, contents.streams[0])[0]), [0, 1, 2, 3, 7, *range(8, 13)])
        contents = self.contents("move 3 0", stream=holed)
        self.assertEqual(list(contents.stamps(0, contents.streams[0])[0]), [0, 4, 5, 6, *range(7, 12)])

    def test_the_median_step_is_the_lower_one_of_two(self):
        path = self.folder() / "in.ivf"
        stamps = (0, 10, 20, 40, 60)
        path.write_bytes(b"".join(ivf.pieces(ivf.Head(7, 5, 1000, 1), 5, list(zip(stamps, packets_of(SMALL))))))
        contents = self.contents("hold 5", stream=path)
        self.assertEqual(
            (
                list(contents.stamps(0, contents.streams[0])[0]),
                contents.stamps(0, contents.streams[0])[1],
                contents.rate,
            ),
            ([0, 10, 20, 40, 60, 70], 80, (100, 1)),
        )


@needs_ffmpeg
class Reading(Case):
    LIMIT = 60

    def test_a_webm_file(self):
        found, path = media(clip("talk.webm"), self.folder())
        self.assertEqual(
            (found.rate, found.tags, found.sounds[0].language, found.sounds[0].tags),
            ((25, 1), {"title": "A talk"}, "eng", {"title": "Room"}),
        )
        [track] = found.sounds
        self.assertEqual((track.codec, track.rate, track.channels, track.private[:8]), ("opus", 48000, 1, b"OpusHead"))
        self.assertEqual({opus.duration(data) for data in sound_packets(track)}, {20 * MS})
        ffmpeg("-i", clip("talk.webm"), "-c", "copy", "-copyts", "-an", f"{path}.other.ivf")
        self.assertEqual(packets_of(path), packets_of(f"{path}.other.ivf"))
        # Each packet has the time of its block; a hidden one that of the next one here.
        done = subprocess.run(
            [
                "ffprobe",
                "-v",
                "error",
                "-select_streams",
                "v",
                "-show_entries",
                "packet=pts",
                "-of",
                "csv=p=0",
                clip("talk.webm"),
            ],
            capture_output=True,
            text=True,
            check=True,
        )
        self.assertEqual(
            [stamp for stamp, _ in ivf.read_packets(path)[1]], list(map(int, done.stdout.replace(",", " ").split()))
        )

    def test_rates(self):
        room = self.folder()
        self.assertEqual(
            {
                name: media(clip(name), room)[0].rate
                for name in ("talk.webm", "late.webm", "varied.webm", "silent.webm")
            },
            dict.fromkeys(("talk.webm", "late.webm", "varied.webm", "silent.webm"), (25, 1)),
        )
        # A rate that the time stamps do not have.
        self.assertEqual(containers.rate_of(media(clip("talk.webm"), room)[1], (1000, 1)), (25, 1))
        self.assertEqual([len(media(clip(name), room)[0].sounds) for name in ("two.mkv", "silent.webm")], [2, 0])

    @unittest.skipUnless(containers.has_av(), "Python's av is not here")
    def test_av_reads_the_same(self):
        room = self.folder()
        for name in KINDS:
            one, path = media(clip(name), room)
            two = containers.read_by_av(clip(name), f"{path}.av")
            self.assertEqual(ivf.read_packets(path), ivf.read_packets(f"{path}.av"), name)
            self.assertEqual(
                [(*track[:7], track.times, track.sizes, sound_packets(track)) for track in one.sounds],
                [(*track[:7], track.times, track.sizes, sound_packets(track)) for track in two.sounds],
                name,
            )
            self.assertEqual(one[1:5], two[1:5])

    def test_the_header_counts_the_packets(self):
        for read in (containers.read_by_ffmpeg, *([containers.read_by_av] if containers.has_av() else [])):
            out = self.folder() / "read.ivf"
            read(clip("silent.webm"), out)
            self.assertEqual(int.from_bytes(out.read_bytes()[24:28], "little"), len(packets_of(out)), read)
            done = subprocess.run(
                [programs.find("vp8list"), out, "--check"],
                capture_output=True,
                text=True,
                timeout=20 * SLOW,
                check=False,
            )
            self.assertNotIn("note: header", done.stdout)
            # This ffmpeg may write the right number itself; others write 30000.
            text = out.read_bytes()
            out.write_bytes(text[:24] + (30000).to_bytes(4, "little") + text[28:])
            containers.count_packets(out)
            self.assertEqual(out.read_bytes(), text)

    def test_what_has_no_vp8(self):
        room = self.folder()
        ffmpeg("-f", "lavfi", "-i", "sine=duration=1", "-c:a", "libopus", room / "sound.webm")
        ffmpeg("-f", "lavfi", "-i", "testsrc=size=32x32:duration=0.2", "-c:v", "libvpx-vp9", room / "vp9.webm")
        for name, why in (("sound", "has no video"), ("vp9", "video of vp9, and not of VP8")):
            status, out, errors = command("cat", room / f"{name}.webm")
            self.assertEqual((status, out), (2, b""))
            self.assertIn(why, errors)

    def test_the_rate_is_that_of_the_track(self):
        _, text, _ = command("cat", clip("talk.webm"))
        self.assertEqual(text.split(b"\n", 1)[0], b"YUV4MPEG2 W96 H64 F25:1 Ip C420jpeg")

    def test_an_ivf_file_of_a_webm_file_has_its_rate(self):
        """Its time base is that of the file, milliseconds: each command has the rate of its time stamps."""
        room = self.folder()
        out = room / "out.ivf"
        self.assertEqual(command("export", clip("talk.webm"), out)[0], 0)
        with open(out, "rb") as file:
            head, _ = ivf.read_index(file.fileno())
        self.assertEqual(times.base_of(head), (1000, 1))
        self.assertEqual(command("cat", out)[1].split(b"\n", 1)[0], b"YUV4MPEG2 W96 H64 F25:1 Ip C420jpeg")
        status, _, _ = command("cut", out, room / "again.webm", "--from", "f3")
        done = subprocess.run(
            [
                "ffprobe",
                "-v",
                "error",
                "-select_streams",
                "v",
                "-show_entries",
                "stream=r_frame_rate",
                "-of",
                "csv=p=0",
                room / "again.webm",
            ],
            capture_output=True,
            text=True,
            check=True,
        )
        self.assertEqual((status, done.stdout.strip()), (0, "25/1"))


@needs_ffmpeg
@needs_ffmpeg
class ByTheCore(Case):
    """vp8serve reads WebM files itself, and an earlier version does not."""

    LIMIT = 60

    def program(self, text):
        """A script in place of vp8serve, whose fifth argument is where packets are saved to."""
        path = self.folder() / "vp8serve"
        path.write_text(f"#!/bin/sh\n{text}\n")
        path.chmod(0o755)
        return mock.patch.dict(os.environ, {"VP8SERVE": str(path)})

    def as_ivf(self, path):
        """The packets, what else is known, and what is said."""
        with mock.patch("wokureti.session.convert.say") as say:
            out = convert.as_ivf(path, str(self.folder()))
        return pathlib.Path(out).read_bytes(), containers.media_of(out), [call.args[0] for call in say.call_args_list]

    def test_its_packets_are_taken(self):
        path, room = clip("talk.webm"), self.folder()
        by_ffmpeg, _ = media(path, room)
        (room / "mine.ivf").write_bytes(SMALL.read_bytes())
        with self.program(
            'case "$1" in --help) echo "the IVF or WebM file";; *) [ "$#" = 5 ] && [ "$4" = --save ] && cp'
            f' {room}/mine.ivf "$5";; esac'
        ):
            data, found, said = self.as_ivf(path)
        self.assertEqual(data, SMALL.read_bytes())
        self.assertEqual(
            said,
            [
                f"{path} is a WebM or Matroska file; vp8serve took its packets out without coding them again, and 1"
                " track of sound"
            ],
        )
        self.assertEqual((found.tags, found.video_tags, found.language), by_ffmpeg[2:5])
        self.assertEqual(
            [(*track[:7], track.times, track.durations, sound_packets(track)) for track in found.sounds],
            [(*track[:7], track.times, track.durations, sound_packets(track)) for track in by_ffmpeg.sounds],
        )

    def test_one_that_does_not_read_it(self):
        """An earlier one, and one that refuses the file: then ffmpeg reads it, or says why it cannot."""
        path = clip("talk.webm")
        _, wanted = media(path, self.folder())
        for text in (
            '[ "$1" = --help ] && echo "the IVF file"',
            'case "$1" in --help) echo "the IVF or WebM file";; *) echo "vp8serve: input NoVideo" >&2; exit 1;; esac',
        ):
            with self.program(text):
                data, _, said = self.as_ivf(path)
            self.assertEqual(data, pathlib.Path(wanted).read_bytes())
            self.assertIn("; ffmpeg took its packets out", said[0])

    @unittest.skipUnless(programs.says(programs.find("vp8serve"), "WebM"), "this vp8serve reads no WebM files")
    def test_the_packets_are_those_of_ffmpeg(self):
        room = self.folder()
        for name in KINDS:
            wanted, out = media(clip(name), room)
            data, found, said = self.as_ivf(clip(name))
            self.assertEqual(data, pathlib.Path(out).read_bytes(), name)
            self.assertIn("; vp8serve took its packets out", said[0])
            self.assertEqual(
                (found.rate, *found[2:5], len(found.sounds)), (wanted.rate, *wanted[2:5], len(wanted.sounds)), name
            )


class HowFar(Case):
    """A line says how much of a container was read."""

    LIMIT = 60

    def slow(self, *names):
        """The variables with which these programs take a moment longer than they write."""
        room = self.folder()
        for name in names:
            (room / name).write_text(f'#!/bin/sh\n{shutil.which(name)} "$@"\nstatus=$?\nsleep 2\nexit $status\n')
            (room / name).chmod(0o755)
        return {"PATH": f"{room}:{os.environ['PATH']}"}

    def test_each_program(self):
        path = clip("talk.webm")
        size = path.stat().st_size
        for name in ("ffmpeg", "av"):
            if not (containers.has_av() if name == "av" else shutil.which(name)):
                continue
            heard = []
            watch = mock.Mock(
                **{
                    "stage.side_effect": lambda text: heard.append((text, [])),
                    "part.side_effect": lambda *given: heard[-1][1].append(given),
                }
            )
            looks = (
                mock.patch.object(containers, "MANY", 1),
                mock.patch.object(containers, "PIECE", 100),
            )
            with (
                self.subTest(name),
                mock.patch.dict(os.environ, self.slow("ffmpeg") if name != "av" else {}),
                looks[0],
                looks[1],
            ):
                with (
                    mock.patch.object(containers, "read_by_core", return_value=False),
                    mock.patch.object(containers, "has_av", return_value=name == "av"),
                ):
                    out = convert.as_ivf(path, str(self.folder()), is_quiet=True, watch=watch)
                self.assertEqual(len(packets_of(out)), len(packets_of(media(path, self.folder())[1])))
                stages = [
                    "taking the packets out of",
                    *(["listing the packets of", "copying the packets of"] if name == "ffmpeg" else []),
                    "looking for damage of",
                ]
                self.assertEqual([text for text, _ in heard], [f"{text} {path}" for text in stages])
                for text, parts in heard:
                    # Of the file, of the list of each of its two tracks, and of the packets of the video.
                    totals = {total for _, total in parts}
                    wanted = {"listing": (2, False), "copying": (1, False)}.get(text.split()[0], (1, True))
                    self.assertEqual((len(totals), size in totals), wanted, text)
                    for total in totals:
                        mine = [done for done, of in parts if of == total]
                        self.assertTrue(mine == sorted(mine) and 0 < mine[-1] <= total, (text, mine))

    def test_a_terminal_shows_it(self):
        """Of each command: one that has a line of its own, and one that has none."""
        room = self.folder()
        path = room / "talk.avi"
        ffmpeg("-i", clip("talk.webm"), "-an", "-c", "copy", path)
        for words in (
            ("cut", path, room / "out.ivf", "--from", "f2"),
            ("cat", path, "/dev/null"),
            ("repair", path, room / "repaired.ivf"),
        ):
            ours, theirs = pty.openpty()
            process = start(*words, stdout=subprocess.DEVNULL, stderr=theirs, env=self.slow("ffmpeg"))
            os.close(theirs)
            said = b""
            try:
                while piece := os.read(ours, 1000):
                    said += piece
            except OSError:
                pass
            os.close(ours)
            process.wait(20 * SLOW)
            self.assertRegex(said.decode(), r"taking the packets out of .*talk\.avi: \d+ %, \d+ s", words[0])

    def test_a_terminal_shows_how_far_a_large_file_is_read(self):
        """Each step of it has per cent, once it takes a second."""
        room, said = self.folder(), io.StringIO()
        watch = progress.Stages()
        with (
            mock.patch.object(progress, "TICK", 0.01),
            mock.patch.object(progress, "SOON", 0),
            mock.patch.object(sys, "stderr", mock.Mock(wraps=said, isatty=lambda: True)),
            watch,
        ):
            real = watch.part

            def slow(done, total):
                real(done, total)
                time.sleep(0.03)

            with (
                mock.patch.object(containers, "read_by_core", return_value=False),
                mock.patch.object(watch, "part", slow),
                mock.patch.object(containers, "PIECE", 1000),
                mock.patch.object(containers, "MANY", 20),
            ):
                convert.as_ivf(clip("talk.webm"), str(room), is_quiet=True, watch=watch)
            with mock.patch.object(watch, "part", slow), mock.patch.object(containers, "PIECE", 1000):
                watch.stage("searching")
                (room / "half.webm").write_bytes(clip("talk.webm").read_bytes()[:60000])
                convert.searched(room / "half.webm", str(room), watch)
        for text in ("listing the packets of", "copying the packets of", "looking for damage of"):
            self.assertRegex(said.getvalue(), rf"{text} .*talk\.webm: \d+ %, \d+ s", text)
        self.assertRegex(said.getvalue(), r"searching: \d+ %, \d+ s")

    def test_what_is_no_terminal_is_told_once(self):
        path = self.folder() / "silent.avi"
        ffmpeg("-i", clip("silent.webm"), "-c", "copy", path)
        status, _, errors = command("cat", path, "/dev/null", env=self.slow("ffmpeg"))
        self.assertEqual((status, len(errors.splitlines())), (0, 1), errors)


class Paces(Case):
    def test_a_rate_that_varies(self):
        # Frames at 0, 40, 200 and 240 ms, and the end at 280 ms.
        starts = [0, 40 * MS, 200 * MS, 240 * MS, 280 * MS]
        self.assertEqual(list(paces.constant(starts, (25, 1))), [0, 1, 1, 1, 2, 2, 3])
        self.assertEqual(paces.drift(starts, (25, 1)), 120 * MS)
        self.assertEqual(list(paces.constant([0, 10 * MS, 20 * MS, 30 * MS, 80 * MS], (25, 1))), [0, 3])
        self.assertEqual((list(paces.constant([0], (25, 1))), paces.drift([0], (25, 1))), ([], 0))
        self.assertEqual(list(paces.constant([0, 40 * MS, 80 * MS], (25, 1))), [0, 1])

    @needs_ffmpeg
    def test_each_command(self):
        stream, room = clip("varied.webm"), self.folder()
        status, plain, errors = command("cat", stream)
        self.assertEqual(status, 0)
        self.assertRegex(errors, "the rate of the frames varies.* part by up to [0-9]+ ms. --constant")
        status, text, errors = command("cat", stream, "--constant")
        self.assertEqual(status, 0)
        self.assertIn("the rate of the frames varies: of 86 frames ", errors)
        head = text.index(b"\n") + 1
        size = 6 + 96 * 64 * 3 // 2
        self.assertEqual(text[:head], b"YUV4MPEG2 W96 H64 F25:1 Ip C420jpeg\n")
        stamps = [stamp for stamp, _ in ivf.read_packets(media(stream, room)[1])[1]]
        made = [text[head + size * turn : head + size * (turn + 1)] for turn in range((len(text) - head) // size)]
        self.assertEqual(len(made), round((stamps[-1] - stamps[0] + 40) / 40))
        # A frame that lasts twice as long is there twice.
        for place, (one, other) in enumerate(zip(stamps, stamps[1:])):
            first = (one - stamps[0]) // 40
            self.assertEqual(made[first], plain[head + size * place : head + size * (place + 1)])
        status, _, errors = command("cat", stream, room / "out.webm")
        self.assertEqual(status, 2)
        self.assertIn("`wokureti export` writes packets", errors)


@needs_ffmpeg
class Writing(Case):
    LIMIT = 90

    def edited(self, name, out, *lines, **options):
        """Saves a clip after edits, and returns what is in it."""
        room = self.folder()
        with self.session(clip(name)) as session:
            for line in lines:
                session.request(line)
            session.save(room / out, **options)
            self.assertEqual(os.listdir(room), [out])
            self.inputs = session.edits.contents().inputs.all
        found, path = media(room / out, self.folder())
        return found, path, room / out

    def test_nothing_changed(self):
        for name in ("talk.webm", "long.webm", "two.mkv", "silent.webm", "varied.webm", "vorbis.webm"):
            before, packets = media(clip(name), self.folder())
            after, path, out = self.edited(name, f"out{pathlib.Path(name).suffix}", sound="copy")
            self.assertEqual(packets_of(path), packets_of(packets), name)
            self.assertEqual(frames(out), frames(clip(name)))
            self.assertEqual(
                (after.rate, after.tags.get("title"), len(after.sounds)),
                (before.rate, before.tags.get("title"), len(before.sounds)),
            )
            starts = [ivf.read_packets(one)[1][0][0] for one in (path, packets)]
            for one, other in zip(before.sounds, after.sounds):
                # All but what is after the picture, and as long after it as it was: to a packet's half, for Opus.
                theirs, ours = sound_packets(other), sound_packets(one)
                first = ours.index(theirs[0])
                self.assertEqual(theirs, ours[first : first + len(theirs)])
                self.assertLessEqual(abs(len(theirs) - len(ours)), 2, name)
                length = max(one.durations) / MS
                self.assertLessEqual(
                    abs((other.times[3] - one.times[first + 3]) / MS - (starts[0] - starts[1])), length / 2 + 1.5, name
                )
                self.assertEqual((one[:4], one.tags, one.language), (other[:4], other.tags, other.language))

    def test_a_cut_takes_its_sound(self):
        packets = packets_of(media(clip("talk.webm"), self.folder())[1])
        keys = [place for place, data in enumerate(packets) if ivf.is_key(data)]
        lines = ["delete 0"] * keys[2]
        found, path, out = self.edited("talk.webm", "out.webm", *lines)
        self.assertEqual(packets_of(path), packets[keys[2] :])
        shown = sum(map(ivf.is_shown, packets[keys[2] :]))
        self.assertEqual(frames(out), frames(clip("talk.webm"))[-shown:])
        theirs, track = sound_packets(found.sounds[0]), media(clip("talk.webm"), self.folder())[0].sounds[0]
        ours, gone = sound_packets(track), sum(map(ivf.is_shown, packets[: keys[2]]))
        first = ours.index(theirs[0])
        self.assertEqual(theirs[:-1], ours[first : first + len(theirs) - 1])
        # The first packet has the sample 6.5 ms before the frame.
        start = media(clip("talk.webm"), self.folder())[1]
        stamp = [stamp for stamp, data in ivf.read_packets(start)[1] if ivf.is_shown(data)][gone]
        self.assertLessEqual(abs(track.times[first] / MS - (stamp - 6.5)), 10 + 1)
        self.assertLessEqual(abs(len(theirs) * 20 - shown * 40), 20 + 7)

    def test_hidden_packets_have_the_time_of_the_next_shown_one(self):
        _, path, out = self.edited("talk.webm", "out.webm", "delete 90")
        packets = ivf.read_packets(path)[1]
        hidden = [place for place, (_, data) in enumerate(packets) if not ivf.is_shown(data)]
        self.assertTrue(hidden)
        for place in hidden:
            self.assertEqual(packets[place][0], packets[place + 1][0])
        stamps = [stamp for stamp, data in packets if ivf.is_shown(data)]
        self.assertEqual(stamps, [40 * turn for turn in range(len(stamps))])

    def test_a_rate_that_varies_stays(self):
        _, path, _ = self.edited("varied.webm", "out.webm")
        before = [stamp for stamp, _ in ivf.read_packets(media(clip("varied.webm"), self.folder())[1])[1]]
        self.assertEqual([stamp for stamp, _ in ivf.read_packets(path)[1]], [stamp - before[0] for stamp in before])
        self.assertEqual({40, 80}, {after - one for one, after in zip(before, before[1:])})

    def test_a_first_frame_that_is_late(self):
        before, packets = media(clip("late.webm"), self.folder())
        after, path, _ = self.edited("late.webm", "out.webm")
        late = ivf.read_packets(packets)[1][0][0]
        self.assertGreater(late, 400)
        self.assertEqual(ivf.read_packets(path)[1][0][0], 0)
        first = sound_packets(before.sounds[0]).index(sound_packets(after.sounds[0])[0])
        self.assertLessEqual(abs(before.sounds[0].times[first] / MS + 6.5 - late), 11)

    def test_vorbis_with_a_join(self):
        lines = ["delete 0"] * 20 + ["move 20 0"] * 20
        with self.assertRaisesRegex(
            ValueError, "sound track 0 cannot be copied: a packet of vorbis needs the one before it"
        ):
            self.edited("vorbis.webm", "out.webm", *lines, sound="copy")
        with mock.patch("wokureti.base.progress.print") as said:
            found, path, _ = self.edited("vorbis.webm", "out.webm", *lines)
        self.assertIn("sound track 0 is coded again as Opus: a packet of vorbis needs", said.call_args[0][0])
        self.assertEqual((found.sounds[0].codec, len(found.sounds)), ("opus", 1))
        length = ivf.read_packets(path)[1][-1][0] + 40
        self.assertLessEqual(abs(20 * len(found.sounds[0].sizes) - length), 40)
        self.assertEqual(self.edited("vorbis.webm", "out.webm", *lines, sound="none")[0].sounds, [])

    def test_what_is_coded_again_is_the_same_sound(self):
        room = self.folder()
        found, _, out = self.edited("talk.webm", "out.webm", sound="encode")
        for path in (clip("talk.webm"), out):
            ffmpeg("-i", path, "-ar", "8000", "-ac", "1", "-f", "s16le", room / path.name)
        one, other = (array("h", (room / path.name).read_bytes()) for path in (clip("talk.webm"), out))
        at = 8000
        errors = {
            shift: sum(abs(one[at + shift + place] - other[at + place]) for place in range(4000))
            for shift in range(-40, 200, 4)
        }
        best = min(errors, key=errors.get)
        self.assertLess(errors[best], 0.2 * sum(abs(one[at + place]) for place in range(4000)))
        # Both begin with the picture: to 8 ms, since ffmpeg shows the clip's first frame 7 ms after the sound.
        self.assertLessEqual(abs(best), 8 * 8)

    def test_two_recordings(self):
        room = self.folder()
        other = clip("long.webm")
        with self.session(clip("talk.webm"), sources=[other]) as session:
            key = [place for place in range(60) if ivf.is_key(session.packet(place, 1))][1]
            count = session.count().packets
            for turn in range(20):
                session.copy(1, key + turn, count + turn)
            session.save(room / "out.webm")
        found, _ = media(room / "out.webm", room)
        ours, theirs = (sound_packets(media(path, room)[0].sounds[0]) for path in (clip("talk.webm"), other))
        packets = sound_packets(found.sounds[0])
        tail = [data for data in packets if data not in ours]
        self.assertGreaterEqual(len(tail), 12)
        self.assertTrue(all(data in theirs for data in tail))
        self.assertEqual(frames(room / "out.webm")[-20:], frames(other)[key : key + 20])

    def test_it_is_written_whole_or_not_at_all(self):
        room = self.folder()
        out = room / "out.webm"
        out.write_text("before")
        with self.session(clip("talk.webm")) as session:
            with mock.patch.object(
                matroska, "cue", side_effect=OSError(28, "No space left on device")
            ), self.assertRaises(OSError):
                session.save(out)
            with mock.patch.object(sounds, "read_packet", side_effect=KeyboardInterrupt), self.assertRaises(
                KeyboardInterrupt
            ):
                session.save(out)
            self.assertEqual((out.read_text(), os.listdir(room)), ("before", ["out.webm"]))
            with self.assertRaisesRegex(ValueError, "is a file of the session"):
                session.save(clip("talk.webm"))

    def test_two_saves_are_equal(self):
        room = self.folder()
        with self.session(clip("talk.webm")) as session:
            session.delete(90)
            session.save(room / "one.webm")
            # A date in the file, in seconds, would be another one.
            time.sleep(1.1)
            session.save(room / "two.webm")
        self.assertEqual((room / "one.webm").read_bytes(), (room / "two.webm").read_bytes())
        with open(room / "one.webm", "rb") as file:
            told = webm.first(webm.parts_of(file.fileno())[webm.INFO])
        # Muxing and writing application, SegmentUID and date.
        names = (0x4D80, 0x5741, 0x73A4, 0x4461)
        self.assertEqual([told.get(name) for name in names], [b"wokureti", b"wokureti", None, None])

    def test_what_the_program_saves_is_ivf(self):
        with self.assertRaisesRegex(ValueError, "out.webm' is written by session.save"):
            self.session(SMALL, save=self.folder() / "out.webm")

    def test_an_ivf_file_becomes_webm(self):
        room = self.folder()
        with self.session(SMALL) as session:
            session.save(room / "out.webm")
        found, path = media(room / "out.webm", room)
        self.assertEqual((packets_of(path), found.rate, found.sounds), (packets_of(SMALL), (30, 1), []))
        info = json.loads(
            subprocess.run(
                ["ffprobe", "-v", "error", "-of", "json", "-show_format", room / "out.webm"],
                capture_output=True,
                check=True,
            ).stdout
        )
        self.assertAlmostEqual(float(info["format"]["duration"]), 0.4, delta=0.002)

    @unittest.skipUnless(shutil.which("mkvinfo"), "mkvinfo is not here")
    def test_mkvtoolnix_takes_it(self):
        room = self.folder()
        _, _, out = self.edited("two.mkv", "out.mkv")
        done = subprocess.run(["mkvinfo", "--all", out], capture_output=True, text=True, check=True, timeout=20 * SLOW)
        for line in (
            "Cue time: 00:00:00.800000000",
            "Default duration: 00:00:00.040000000",
            "Seek pre-roll: 00:00:00.080000000",
        ):
            self.assertIn(line, done.stdout)
        done = subprocess.run(
            ["mkvmerge", "-o", room / "again.mkv", out], capture_output=True, text=True, check=False, timeout=20 * SLOW
        )
        self.assertEqual((done.returncode, "Warning" in done.stdout), (0, False))


@needs_ffmpeg
class Cut(Case):
    """A file that ends in the middle is damage in each command that reads it."""

    LIMIT = 90

    def cut(self):
        """Half of a WebM file, of two kinds: it ends in a block, and between two."""
        data, room = clip("talk.webm").read_bytes(), self.folder()
        between = next(at for at in starts(clip("talk.webm")) if at > len(data) // 2)
        for name, length in (("inside.webm", len(data) // 2 + 1), ("between.webm", between)):
            (room / name).write_bytes(data[:length])
            yield room / name

    def test_the_status_of_commands(self):
        for path in self.cut():
            out = path.parent / "out.webm"
            commands = {
                "export": ("export", path, out),
                "cut": ("cut", path, out, "--from", "0", "--to", "0.5"),
                "join": ("join", path, path, out),
                "cat": ("cat", path, path.parent / "out.y4m"),
                "png": ("png", path, "0", path.parent / "out.png"),
                "compare": ("compare", path, path),
            }  # fmt: skip
            for name, words in commands.items():
                wanted = 2 if name == "compare" else 1
                for more, status in (((), wanted), (("--anyway",), 0)):
                    for old in (out, path.parent / "out.y4m", path.parent / "out.png"):
                        old.unlink(missing_ok=True)
                    found, _, errors = command(*words, *more)
                    self.assertEqual(found, status, (name, errors))
                    self.assertIn(f"{path} ends in the middle", errors)

    def test_other_containers(self):
        """The programs that read them do not say that they end in the middle; a file that was written to a pipe is
        whole.
        """
        room = self.folder()
        for ending in ("avi", "ogg"):
            whole, piped = room / f"whole.{ending}", room / f"piped.{ending}"
            ffmpeg("-i", clip("talk.webm"), "-an", "-c", "copy", whole)
            with open(piped, "wb") as file:
                subprocess.run(
                    [
                        "ffmpeg",
                        "-nostdin",
                        "-v",
                        "error",
                        "-i",
                        clip("talk.webm"),
                        "-an",
                        "-c",
                        "copy",
                        "-f",
                        ending,
                        "-",
                    ],
                    stdout=file,
                    check=True,
                    timeout=20 * SLOW,
                )
            data = whole.read_bytes()
            for path in (whole, piped):
                status, _, errors = command("export", path, room / "out.ivf", "-y")
                self.assertEqual((status, "ends in the middle" in errors), (0, False), (path, errors))
            half = room / f"half.{ending}"
            for length in (len(data) // 2, len(data) - 100):
                half.write_bytes(data[:length])
                for name, words in (
                    ("export", (half, room / "out.ivf", "-y")),
                    ("repair", (half, room / "out.ivf", "-y")),
                ):
                    status, _, errors = command(name, *words)
                    self.assertIn(status, (1, 2) if name == "repair" else (1,), (length, errors))
                    self.assertIn(
                        f"{half} ends in the middle, after {length:,} bytes: the packets that followed are missing\n",
                        errors,
                    )
                self.assertEqual(command("export", half, room / "out.ivf", "-y", "--anyway")[0], 0)

    def test_ends(self):
        """Of each kind: whole, and cut off at each byte that a reader would not miss."""
        chunk = lambda name, data: name + len(data).to_bytes(4, "little") + data + bytes(len(data) % 2)  # noqa: E731
        box = lambda name, data: (8 + len(data)).to_bytes(4, "big") + name + data  # noqa: E731
        page = (
            lambda serial, flags, data: b"OggS\0"
            + bytes([flags])
            + bytes(8)
            + serial.to_bytes(4, "little")
            + bytes(8)
            + bytes([1, len(data)])
            + data
        )  # noqa: E731
        cases = (
            ("AVI", chunk(b"RIFF", b"AVI " + bytes(31)) + chunk(b"RIFF", b"AVIX" + bytes(20)), 24 + 8 + 44),
            (
                "MP4",
                box(b"ftyp", b"isom")
                + (1).to_bytes(4, "big")
                + b"mdat"
                + (36).to_bytes(8, "big")
                + bytes(20)
                + box(b"moov", bytes(9)),
                12 + 36 + 17,
            ),
            (
                "Ogg",
                page(1, 2, b"head")
                + page(2, 2, b"head")
                + page(1, 4, b"end")
                + page(2, 0, b"data")
                + page(2, 4, b"end"),
                5 * 28 + 4 + 4 + 3 + 4 + 3,
            ),
        )
        for kind, data, length in cases:
            self.assertEqual((len(data), ends.is_cut(kind, data)), (length, False), kind)
            found = [cut for cut in range(1, len(data)) if not ends.is_cut(kind, data[:cut])]
            # Between two parts of a file that may have one part or several nothing is missed.
            self.assertEqual(found, {"AVI": [43, 44], "MP4": [12, 48], "Ogg": []}[kind], kind)
        self.assertFalse(ends.is_cut("AVI", b"RIFF\xff\xff\xff\xffAVI " + bytes(9)))
        self.assertFalse(ends.is_cut("AVI", cases[0][1] + b"JUNK"))
        self.assertFalse(ends.is_cut("MP4", box(b"ftyp", b"isom") + bytes(4) + b"mdat" + bytes(99)))
        self.assertFalse(ends.is_cut("WebM or Matroska", b""))

    def test_an_ivf_file(self):
        path = self.folder() / "cut.ivf"
        path.write_bytes(SMALL.read_bytes()[:-5])
        for more, status in (((), 1), (("--anyway",), 0)):
            out = path.parent / f"out{status}.ivf"
            found, _, errors = command("export", path, out, *more)
            self.assertEqual((found, len(packets_of(out))), (status, 11))
            self.assertIn(f"{path} ends in the middle of packet 11: ", errors)

    def test_a_repair_says_so(self):
        for path in self.cut():
            status, said, _ = command("repair", path, path.parent / "out.webm", "-y")
            self.assertEqual(status, 1, said)

    def test_the_page_has_a_finding(self):
        from wokureti.page.opened import Opened

        self.hush()
        for path in self.cut():
            live = Opened({"stream": path})
            try:
                check = live.checked()
                limit = time.monotonic() + 20 * SLOW
                while not check.is_over and time.monotonic() < limit:
                    time.sleep(0.02)
                self.assertEqual((check.error, check.damage), (None, 1))
                self.assertEqual(
                    [finding["kind"] for finding in check.findings if finding["severity"] == "damage"], ["container"]
                )
                self.assertIn("ends in the middle", check.findings[-1]["text"])
                _, lines = live.findings()
                self.assertEqual([line for line in lines if "ends in the middle" in line][0][:8], "damage: ")
                self.assertIn("damage: 1,", lines[-1])
                self.assertTrue(any("ends in the middle" in text for _, text in live.notices))
            finally:
                live.close()


@needs_ffmpeg
class Repaired(Case):
    LIMIT = 60

    def repaired(self, data, *words):
        room = self.folder()
        (room / "in.webm").write_bytes(data)
        status, out, errors = command("repair", room / "in.webm", room / "out.webm", *words)
        return status, out.decode(), errors, room / "out.webm"

    def test_zeroed_sectors(self):
        data = bytearray(clip("talk.webm").read_bytes())
        for at in (30000, 52000):
            data[at : at + 512] = bytes(512)
        status, said, errors, out = self.repaired(bytes(data))
        self.assertIn(status, (1, 2))
        self.assertIn("lead to no block: read on at byte", said)
        self.assertIn(
            "in.webm is a damaged WebM or Matroska file: its packets were searched, and 1 track of sound", errors
        )
        found, path = media(out, self.folder())
        before, packets = media(clip("talk.webm"), self.folder())
        # Every frame has its time.
        self.assertEqual(len(frames(out)), len(frames(clip("talk.webm"))))
        stamps = [[stamp for stamp, data in ivf.read_packets(one)[1] if ivf.is_shown(data)] for one in (path, packets)]
        self.assertLessEqual(max(abs(one - (other - stamps[1][0])) for one, other in zip(*stamps)), 1)
        theirs = set(sound_packets(before.sounds[0]))
        self.assertGreaterEqual(sum(data in theirs for data in sound_packets(found.sounds[0])), len(theirs) - 12)

    def test_half_a_file(self):
        data = clip("talk.webm").read_bytes()
        status, said, _, out = self.repaired(data[: len(data) // 2])
        self.assertEqual((status, "bytes lead to no block: dropped" in said), (1, True))
        whole = frames(clip("talk.webm"))
        found = frames(out)
        self.assertEqual(found, whole[: len(found)])
        self.assertGreater(len(found), 40)

    def test_a_clean_file(self):
        status, said, errors, out = self.repaired(clip("talk.webm").read_bytes())
        self.assertEqual((status, "took its packets out" in errors), (0, True))
        self.assertEqual(frames(out), frames(clip("talk.webm")))
        self.assertEqual(self.repaired(clip("talk.webm").read_bytes(), "--sound", "none")[0], 0)

    def test_a_webm_file_without_video(self):
        room = self.folder()
        ffmpeg("-f", "lavfi", "-i", "sine=duration=1", "-c:a", "libopus", room / "in.webm")
        status, out, errors = command("repair", room / "in.webm", room / "out.webm")
        self.assertEqual((status, out, os.listdir(room)), (2, b"", ["in.webm"]))
        self.assertIn("has no video", errors)


if __name__ == "__main__":
    unittest.main()
