"""Frames that are coded again: those that a script changes and no others, how good they are, and what is said where
that cannot be done.
"""

import contextlib
import http.client
import math
import os
import re
import shutil
import signal
import subprocess
import threading
import time
import unittest
from array import array
from unittest import mock

from support import CLIP, SLOW, Case, command, frames_of, packets_of, start
from test_page import PageCase
from wokureti import Session
from wokureti.errors import Stopped
from wokureti.media import containers, fades, ivf, opus
from wokureti.session import convert
from wokureti.session.origins import Run
from wokureti.tools import coding
from wokureti.tools.coding import Piece

FRAMES = len([data for data in packets_of(CLIP) if ivf.is_shown(data)])
HAS_ENCODER = shutil.which("ffmpeg") is not None


def all_frames(path):
    """The size and the samples of each frame of a file, by vp8serve."""
    with Session(path) as session:
        return [
            (width, height, bytes(samples))
            for width, height, samples in session.pictures(range(session.count().frames))
        ]


def served(*lines):
    """The samples of each frame of a script over the clip."""
    return frames_of(CLIP, range(FRAMES), *lines)


def by_ffmpeg(path):
    """The MD5 of each frame of a file, by ffmpeg."""
    words = [
        "ffmpeg",
        "-nostdin",
        "-v",
        "error",
        "-i",
        path,
        "-map",
        "0:v",
        "-fps_mode",
        "passthrough",
        "-f",
        "framemd5",
        "-",
    ]
    text = subprocess.run(words, capture_output=True, text=True, timeout=20 * SLOW, check=True).stdout
    return [line.rsplit(",", 1)[1].strip() for line in text.splitlines() if not line.startswith("#")]


class Pieces(Case):
    def test_pieces(self):
        runs = [Run(10, 0, 5, ()), Run(3, 0, 15, (2,)), Run(2, 1, 0, (2, 3)), Run(4, 1, 2, ()), Run(5, 1, 6, ())]
        self.assertEqual(
            coding.pieces_of(runs),
            [Piece(0, 10, False, 0, 5), Piece(10, 5, True, 0, 15), Piece(15, 9, False, 1, 2)],
        )
        self.assertEqual(
            coding.pieces_of(runs, [(0, 2), (15, 18)]),
            [Piece(0, 2, True, 0, 5), Piece(2, 8, False, 0, 7), Piece(10, 8, True, 0, 15), Piece(18, 6, False, 1, 5)],
        )
        self.assertEqual(coding.pieces_of([Run(4, 0, 0, (1,))]), [Piece(0, 4, True, 0, 0)])
        self.assertEqual(
            coding.pieces_of([Run(4, 0, 0, ())], [(1, 3)]),
            [Piece(0, 1, False, 0, 0), Piece(1, 2, True, 0, 1), Piece(3, 1, False, 0, 3)],
        )


@unittest.skipUnless(HAS_ENCODER, "no ffmpeg")
class Coded(Case):
    LIMIT = 90

    def setUp(self):
        super().setUp()
        self.room = self.folder()
        self.out = self.room / "out.ivf"

    def run_it(self, *words, **options):
        status, text, errors = command(*words, **options)
        self.assertEqual(status, 0, errors)
        return text.decode(), errors

    def assertCoded(self, coded, script, least=45.0, out=None):
        """The frames of `coded` are as good as was asked for, and all others are those of the script, sample for
        sample.
        """
        true, found = served(f"script {script}"), [one[2] for one in all_frames(out or self.out)]
        self.assertEqual(len(found), len(true))
        for number, (one, other) in enumerate(zip(found, true)):
            if number in coded:
                squares = sum((left - right) ** 2 for left, right in zip(one, other))
                self.assertLessEqual(squares * 10 ** (least / 10), 255 * 255 * len(other) * 1.01, number)
            else:
                self.assertTrue(one == other, number)
        # ffmpeg shows the same frames of the packets that were not coded.
        theirs, ours = by_ffmpeg(out or self.out), by_ffmpeg(CLIP)
        self.assertEqual(
            [one for number, one in enumerate(theirs) if number not in coded],
            [one for number, one in enumerate(ours) if number not in coded],
        )

    def test_a_fade_at_the_end(self):
        script = f"fade 0 {FRAMES - 12} 11 256 0"
        text, _ = self.run_it("export", CLIP, self.out, "--code-changed", "--script", script)
        found = re.search(
            (
                r"(\d+) of (\d+) frames are coded again, in ([\d,]+) bytes, PSNR ([\d.]+) dB at least and ([\d.]+) dB"
                r" in the mean"
            ),
            text,
        )
        # The first frame of the fade has weight 256: it is as it was.
        self.assertEqual(found.groups()[:2], ("11", str(FRAMES)))
        self.assertGreaterEqual(float(found.group(4)), 45)
        coded = range(FRAMES - 11, FRAMES)
        self.assertCoded(coded, script)
        size = sum(map(len, packets_of(self.out)[-11:]))
        self.assertEqual(size, int(found.group(3).replace(",", "")))

    def test_several_runs_and_less_quality(self):
        script = "fade 0 0 5 0 256; fade 1 20 6 256 0"
        self.run_it("export", CLIP, self.out, "--code-changed", "--psnr", "36", "--script", script)
        small = self.out.stat().st_size
        self.assertCoded({*range(0, 5), *range(21, FRAMES)}, script, 36.0)
        self.run_it("export", CLIP, self.out, "-y", "--code-changed", "--psnr", "48", "--script", script)
        self.assertGreater(self.out.stat().st_size, small)

    def test_nothing_is_changed(self):
        text, _ = self.run_it("export", CLIP, self.out, "--code-changed", "--script", "trim 0 0 10")
        self.assertNotIn("coded again", text)
        self.assertEqual(packets_of(self.out), packets_of(CLIP)[:10])

    def test_a_crop_codes_all(self):
        text, errors = self.run_it(
            "export", CLIP, self.out, "--code-changed", "--psnr", "35", "--script", "crop 0 16 16 64 48"
        )
        self.assertIn(f"the script changes each of the {FRAMES} frames: all of them are coded again", errors)
        self.assertIn(f"{FRAMES} of {FRAMES} frames are coded again", text)
        self.assertEqual({one[:2] for one in all_frames(self.out)}, {(64, 48)})

    def test_fades_of_a_cut(self):
        self.run_it("cut", CLIP, self.out, "--from", "f6", "--to", "f30", "--fade-in", "f4", "--fade-out", "f5")
        found = [one[2] for one in all_frames(self.out)]
        true = frames_of(CLIP, range(24), "script trim 0 6 24; fade 1 0 3 0 256; fade 2 19 4 256 0")
        self.assertEqual(len(found), 24)
        # Frame 3 has weight 256 again, and so has frame 19.
        same = [number for number in range(24) if found[number] == true[number]]
        self.assertTrue(set(range(3, 20)) <= set(same), same)
        for number in (0, 23):
            luma = found[number][: 320 * 180]
            self.assertLess(max(luma) - 16, 12, number)
        status, _, errors = command(
            "cut", CLIP, self.out, "-y", "--from", "f6", "--to", "f10", "--fade-in", "f4", "--fade-out", "f5"
        )
        self.assertEqual((status, "the fades have 4 and 4 frames, and OUT has 4" in errors), (2, True), errors)

    def test_coded_leads(self):
        # One key packet: an exact cut has all packets before it, hidden.
        text, errors = self.run_it("cut", CLIP, self.out, "--from", "f30")
        self.assertIn("30 of them hidden", text)
        text, errors = self.run_it("cut", CLIP, self.out, "-y", "--from", "f30", "--lead", "coded", "--psnr", "38")
        self.assertIn("none of them hidden", text)
        self.assertIn(f"{FRAMES - 30} of {FRAMES - 30} frames are coded again", text)
        self.assertIn("exactly, 30 hidden packets of", errors)
        self.assertEqual(len(all_frames(self.out)), FRAMES - 30)

    def test_the_sound_stays(self):
        clip, out = self.room / "clip.webm", self.room / "out.webm"
        words = [
            "ffmpeg",
            "-nostdin",
            "-v",
            "error",
            "-i",
            CLIP,
            "-f",
            "lavfi",
            "-i",
            "sine=440:d=2",
            "-c:v",
            "copy",
            "-c:a",
            "libopus",
            "-shortest",
            clip,
        ]
        subprocess.run(words, check=True, timeout=20 * SLOW)
        self.run_it("export", clip, out, "--code-changed", "--script", f"fade 0 {FRAMES - 6} 5 256 0")

        def sound(path):
            words = [
                "ffprobe",
                "-v",
                "error",
                "-select_streams",
                "a",
                "-show_entries",
                "packet=size",
                "-of",
                "csv=p=0",
                path,
            ]
            return subprocess.run(words, capture_output=True, text=True, timeout=20 * SLOW, check=True).stdout.split()

        self.assertEqual(sound(out)[:40], sound(clip)[:40])
        self.assertGreater(len(sound(out)), 50)
        self.assertEqual(by_ffmpeg(out)[: FRAMES - 5], by_ffmpeg(CLIP)[: FRAMES - 5])

    def test_times_stay(self):
        # Frames that are coded are shown as long as those that they replace, also at the end.
        path, packets = self.room / "uneven.ivf", packets_of(CLIP)[:12]
        stamps = [0, 3, 4, 9, 10, 11, 20, 21, 25, 26, 27, 33]
        with open(path, "wb") as file:
            file.writelines(ivf.pieces(ivf.Head(320, 180, 30, 1), 12, zip(stamps, packets)))
        self.run_it("export", path, self.out, "--code-changed", "--psnr", "36", "--script", "fade 0 2 3 256 0")
        self.assertEqual([stamp for stamp, _ in ivf.read_packets(self.out)[1]], stamps)

    def test_vpxenc(self):
        if shutil.which("vpxenc") is None:
            self.skipTest("no vpxenc")
        folder = self.room / "path"
        folder.mkdir()
        for name in ("vpxenc", "python3"):
            os.symlink(shutil.which(name), folder / name)
        script = f"fade 0 {FRAMES - 6} 5 256 0"
        self.run_it("export", CLIP, self.out, "--code-changed", "--script", script, env={"PATH": str(folder)})
        self.assertCoded(range(FRAMES - 5, FRAMES), script)

    def test_no_encoder(self):
        status, _, errors = command(
            "export", CLIP, self.out, "--code-changed", "--script", "fade 0 0 5 0 256", env={"PATH": str(self.room)}
        )
        self.assertEqual(
            (status, "install ffmpeg (with libvpx), or vpx-tools" in errors, self.out.exists()),
            (2, True, False),
            errors,
        )

    def test_more_than_can_be(self):
        noise = self.room / "noise.ivf"
        words = [
            "ffmpeg",
            "-nostdin",
            "-v",
            "error",
            "-f",
            "lavfi",
            "-i",
            "nullsrc=s=64x64:r=25,geq=random(1)*255:128:128",
            "-frames:v",
            "6",
            "-c:v",
            "libvpx",
            "-qmin",
            "0",
            "-qmax",
            "4",
            "-b:v",
            "50M",
            noise,
        ]
        subprocess.run(words, check=True, timeout=20 * SLOW)
        status, _, errors = command(
            "export", noise, self.out, "--code-changed", "--psnr", "60", "--script", "fade 0 0 5 128 250"
        )
        self.assertEqual((status, "cannot be coded with 60 dB" in errors, self.out.exists()), (2, True, False), errors)
        for words in (("--psnr", "70"), ("--psnr", "x")):
            self.assertEqual(command("export", CLIP, self.out, "--code-changed", *words)[0], 2)
        status, _, errors = command("export", CLIP, self.out, "--psnr", "40")
        self.assertEqual((status, "--psnr is together with" in errors), (2, True), errors)

    def test_without_coding_it_is_refused_as_before(self):
        status, _, errors = command("export", CLIP, self.out, "--script", "fade 0 0 5 0 256")
        self.assertEqual(
            (status, "frame 0 is changed by node 1" in errors, self.out.exists()), (2, True, False), errors
        )

    def test_stopped_in_the_middle(self):
        temporary = self.room / "temporary"
        temporary.mkdir()
        process = start(
            "export",
            CLIP,
            self.out,
            "--code-changed",
            "--script",
            "fade 0 0 40 0 256",
            env={"TMPDIR": str(temporary)},
            stderr=subprocess.DEVNULL,
            stdout=subprocess.DEVNULL,
        )
        limit = time.monotonic() + 20 * SLOW
        while not list(temporary.rglob("coded.ivf")):
            self.assertLess(time.monotonic(), limit)
            time.sleep(0.02)
        process.send_signal(signal.SIGINT)
        self.assertEqual(process.wait(20 * SLOW), 130)
        self.assertEqual((self.out.exists(), list(temporary.iterdir())), (False, []))


class Levels(Case):
    """How much of a picture fades show, by the samples that the program serves."""

    def test_weights_are_those_of_the_pictures(self):
        script = (
            "trim 0 5 30; fade 1 3 8 256 64; trim 0 0 6; fade 3 0 4 0 256; splice 2 4; parts 5 20 16 2 0 7 0 40 100"
        )
        last = script.count(";") + 1
        script += f"; fade {last} 10 5 256 32; fade {last + 1} 12 60 256 128"
        weights = fades.Weights(script, [FRAMES])
        plain = frames_of(CLIP, range(FRAMES))
        with Session(CLIP) as session:
            session.request(f"script {script}")
            count = session.count().frames
            origins = session.origins(0, count)
        self.assertEqual(weights.lengths[-1], count)
        luma = 320 * 180
        for number, faded in enumerate(frames_of(CLIP, range(count), f"script {script}")):
            whole = sum(plain[origins[number]["source_frame"]][:luma]) - 16 * luma
            self.assertAlmostEqual((sum(faded[:luma]) - 16 * luma) / whole, weights(number), delta=0.02)

    def test_weights_of_parts(self):
        weights = fades.Weights("fade 0 0 10 0 256; parts 1 5 3 0 0 2 1 20 9", [25])
        self.assertEqual(weights.lengths[-1], 10)
        self.assertEqual([weights(number) for number in range(10)], [0.5, 0.6, 0.7, 1, 1, 1, 1, 1, 1, 1])

    def test_levels(self):
        # A fade to black at the end of a part stays black, and does not go on to the next part, which is another one.
        weights = fades.Weights("trim 0 0 4; fade 1 0 3 256 0; parts 2 0 4 0 10 3", [FRAMES])
        levels = fades.levels_of([Run(1, 0, 0, ()), Run(3, 0, 1, (2,)), Run(3, 0, 10, ())], weights)
        wanted = [(1, 2 / 3), (2 / 3, 1 / 3), (1 / 3, 0), (0, 0), (1, 1), (1, 1), (1, 1)]
        self.assertEqual(len(levels), len(wanted))
        for found, pair in zip(levels, wanted):
            self.assertAlmostEqual(found[0], pair[0])
            self.assertAlmostEqual(found[1], pair[1])


@unittest.skipUnless(HAS_ENCODER, "no ffmpeg")
class Sound(Case):
    """Sound that fades with the picture."""

    LIMIT = 120

    def clip(self, name, *words, source="sine=440:d=2:r=48000"):
        """Two seconds of small pictures, 25 a second, with sound."""
        path = self.room / name
        picture = [
            "-f",
            "lavfi",
            "-i",
            "testsrc=size=64x48:rate=25:duration=2",
            "-f",
            "lavfi",
            "-i",
            source,
            "-c:v",
            "libvpx",
            "-b:v",
            "100k",
        ]
        subprocess.run(
            ["ffmpeg", "-nostdin", "-v", "error", *picture, *words, "-shortest", path], check=True, timeout=20 * SLOW
        )
        return path

    def setUp(self):
        super().setUp()
        self.room = self.folder()

    def cut(self, clip, out, *words):
        # It starts some fifty programs, which takes long on a busy machine.
        with start(
            "cut",
            clip,
            out,
            "-y",
            "--from",
            "f6",
            "--to",
            "f42",
            *words,
            stdout=subprocess.DEVNULL,
            stderr=subprocess.PIPE,
            text=True,
        ) as process:
            errors = process.communicate(timeout=60 * SLOW)[1]
        self.assertEqual(process.returncode, 0, errors)
        return errors

    def fade(self, clip, out):
        return self.cut(clip, out, "--fade-in", "f10", "--fade-out", "f12", "--psnr", "36", "--fade-sound")

    def packets(self, path):
        """The times and bytes of the packets of sound."""
        track = containers.read_sounds(path, str(path))[0]
        return list(track.times), list(track.packets(range(len(track.sizes))))

    def samples(self, path):
        words = [
            "ffmpeg",
            "-nostdin",
            "-v",
            "error",
            "-i",
            path,
            "-map",
            "0:a",
            "-ac",
            "1",
            "-ar",
            "48000",
            "-f",
            "s16le",
            "-",
        ]
        return array("h", subprocess.run(words, stdout=subprocess.PIPE, timeout=20 * SLOW, check=True).stdout)

    def level(self, time):
        """What the level is to be at a time in seconds: frames are 1/25 s."""
        frame = 25 * time
        return max(0, min(1, frame / 9, (35 - frame) / 11))

    def assertLevels(self, path, plain, far):
        """The level of each 20 ms against the one without a fade."""
        found, whole = self.samples(path), self.samples(plain)
        self.assertLess(abs(len(found) - len(whole)), 2000)
        for start in range(0, min(len(found), len(whole)) - 960, 960):
            one, other = (
                math.sqrt(sum(sample * sample for sample in samples[start : start + 960]) / 960)
                for samples in (found, whole)
            )
            self.assertAlmostEqual(one / other, self.level((start + 480) / 48000), delta=far, msg=start)
        return found, whole

    def assertSamePackets(self, one, other):
        """Only the packets of the fades are others, and all have the same times. Returns their numbers."""
        (times, ours), (plain_times, theirs) = self.packets(one), self.packets(other)
        self.assertEqual(times, plain_times)
        self.assertEqual({after - before for before, after in zip(times, times[1:])}, {20_000_000})
        self.assertEqual(len(ours), len(theirs))
        changed = [number for number, pair in enumerate(zip(ours, theirs)) if pair[0] != pair[1]]
        # The fade in is over at 0.36 s, and the fade out begins at 0.96 s.
        for number in changed:
            self.assertTrue(times[number] < 360_000_000 or times[number] + 20_000_000 > 960_000_000, times[number])
        self.assertGreater(len(changed), 36)
        return changed

    def test_a_tone(self):
        clip, out, plain = self.clip("clip.webm", "-c:a", "libopus"), self.room / "out.webm", self.room / "plain.webm"
        self.fade(clip, out)
        self.cut(clip, plain)
        self.assertSamePackets(out, plain)
        found, whole = self.assertLevels(out, plain, 0.03)
        # No click: no sample is further from the one before it than those of the tone are.
        step = max(abs(after - before) for before, after in zip(whole, whole[1:]))
        self.assertLessEqual(max(abs(after - before) for before, after in zip(found, found[1:])), 1.02 * step)

    def test_speech(self):
        """Packets of SILK are followed by packets of SILK: ffmpeg's own decoder clicks at CELT after SILK."""
        voice = (
            "aevalsrc='0.25*sin(2*PI*(140+9*sin(2*PI*3*t))*t)+0.15*sin(2*PI*420*t)"
            "+0.05*sin(4200*t)*sin(9*t):d=2:s=48000'"
        )
        clip = self.clip("clip.webm", "-c:a", "libopus", "-b:a", "14k", "-application", "voip", source=voice)
        out, plain = self.room / "out.webm", self.room / "plain.webm"
        self.fade(clip, out)
        self.cut(clip, plain)
        changed = self.assertSamePackets(out, plain)
        kinds = [opus.is_silk(data) for data in self.packets(out)[1]]
        self.assertEqual(set(kinds[changed[len(changed) // 2] :]), {True})
        found, whole = self.assertLevels(out, plain, 0.3)
        step = max(abs(after - before) for before, after in zip(whole, whole[1:]))
        self.assertLessEqual(max(abs(after - before) for before, after in zip(found, found[1:])), 1.1 * step)

    def test_another_codec_is_coded_as_opus(self):
        clip, out, plain = self.clip("clip.webm", "-c:a", "libvorbis"), self.room / "out.webm", self.room / "plain.webm"
        errors = self.fade(clip, out)
        self.assertIn(
            "sound track 0 is coded again as Opus: it fades, and packets of vorbis are not coded here", errors
        )
        self.cut(clip, plain, "--sound", "encode")
        self.assertLevels(out, plain, 0.03)
        status, _, errors = command(
            "cut",
            clip,
            out,
            "-y",
            "--from",
            "f6",
            "--fade-in",
            "f10",
            "--fade-sound",
            "--sound",
            "copy",
            "--psnr",
            "30",
        )
        self.assertEqual((status, "cannot be copied: it fades" in errors), (2, True), errors)

    def test_what_is_refused(self):
        for words, text in (
            (("--fade-sound",), "--fade-sound is together with"),
            (("--fade-in", "f4", "--fade-sound"), "name OUT .webm or .mkv"),
        ):
            status, _, errors = command("cut", CLIP, self.room / "out.ivf", "--from", "f6", *words)
            self.assertEqual((status, text in errors), (2, True), errors)


@unittest.skipUnless(HAS_ENCODER, "no ffmpeg")
class Pages(PageCase):
    """What the page asks of the server."""

    LIMIT = 120

    def script(self, text):
        self.serve(CLIP)
        self.step(f"script {text}")

    def test_costs(self):
        self.script("trim 0 30 10; fade 1 5 4 256 0")
        found = self.task("costs")
        packets = packets_of(CLIP)
        lead = {
            "first": 0,
            "end": 6,
            "packets": 30,
            "bytes": sum(map(len, packets[:30])),
            "length": 30 * 10**9 // 25,
            "coded_bytes": sum(map(len, packets[30:36])),
        }
        self.assertEqual((found["frames"], found["coded"], found["nodes"], found["leads"]), (10, 4, [2], [lead]))
        self.assertEqual((found["sounds"], found["encoder"], found["why"]), (False, "ffmpeg", ""))

    def test_the_file_is_that_of_the_command(self):
        script = f"fade 0 {FRAMES - 6} 5 256 0"
        self.script(script)
        status, headers, body = self.ask("/file/export?code=1&psnr=36")
        self.assertEqual(status, 200)
        self.assertRegex(
            headers["X-Exported"],
            (
                rf"{FRAMES} frames, in {FRAMES} packets, none of them hidden; 5 of {FRAMES} frames are coded again, in"
                r" [\d,]+ bytes, PSNR 3[6-9]\.\d dB at least and [\d.]+ dB in the mean"
            ),
        )
        out = self.folder() / "out.ivf"
        self.assertEqual(command("export", CLIP, out, "--code-changed", "--psnr", "36", "--script", script)[0], 0)
        self.assertTrue(body == out.read_bytes())
        for query in ("psnr=70", "psnr=x", "lead=other", "sound=loud", "more=1"):
            self.assertEqual(self.ask(f"/file/export?code=1&{query}")[0], 400, query)
        self.assertEqual(self.ask("/file/export")[0], 409)

    def test_sound_fades_with_the_picture(self):
        room = self.folder()
        clip, out = room / "clip.webm", room / "out.webm"
        words = [
            "ffmpeg",
            "-nostdin",
            "-v",
            "error",
            "-i",
            CLIP,
            "-f",
            "lavfi",
            "-i",
            "sine=440:d=2:r=48000",
            "-c:v",
            "copy",
            "-c:a",
            "libopus",
            "-shortest",
            clip,
        ]
        subprocess.run(words, check=True, timeout=20 * SLOW)
        script = f"fade 0 {FRAMES - 6} 5 256 0"
        self.serve(convert.as_ivf(clip, str(room), is_quiet=True))
        self.step(f"script {script}")
        self.assertTrue(self.task("costs")["sounds"])
        status, headers, body = self.ask("/file/export?code=1&psnr=36&sound=fade")
        self.assertEqual((status, headers["Content-Type"]), (200, "video/webm"))
        self.assertEqual(
            command("export", clip, out, "--code-changed", "--psnr", "36", "--fade-sound", "--script", script)[0], 0
        )
        self.assertTrue(body == out.read_bytes())
        self.assertNotEqual(self.ask("/file/export?code=1&psnr=36")[2], body)

    def test_no_encoder(self):
        self.script("fade 0 0 5 0 256")
        with mock.patch("shutil.which", lambda name: None):
            found = self.task("costs")
            self.assertEqual((found["encoder"], "install ffmpeg (with libvpx)" in found["why"]), (None, True))
            self.assertEqual(self.ask("/file/export?code=1")[0], 409)

    def test_nobody_waits_any_more(self):
        """The encoder is ended."""
        self.script("fade 0 0 40 0 256")
        began, ended = threading.Event(), []
        real = coding.encode

        def encode(*given):
            *_, quantizer, _, watch = given
            began.set()
            watch.check = mock.Mock(side_effect=Stopped)
            try:
                real(*given)
            except Stopped:
                ended.append(quantizer)
                raise

        with mock.patch.object(coding, "encode", encode):
            with contextlib.suppress(OSError, http.client.HTTPException):
                self.ask("/file/export?code=1")
            self.assertTrue(began.wait(20 * SLOW))
        self.assertEqual(len(ended), 1)
        self.assertEqual([name for name in os.listdir(self.live.room.name) if name.startswith("export")], [])


if __name__ == "__main__":
    unittest.main()
