"""The sound that a page draws: which peaks are those of which frame, and the pieces of a file that it is made of,
without a browser.
"""

import array
import json
import os
import pathlib
import random
import shutil
import subprocess
import unittest
from unittest import mock

from support import SLOW, SMALL, TOP, Case
from test_page import PageCase
from wokureti.media import containers, ivf
from wokureti.page import waves

PAGE = TOP / "clients/python/wokureti/page"
needs_node = unittest.skipUnless(shutil.which("node"), "node is not there")
needs_ffmpeg = unittest.skipUnless(shutil.which("ffmpeg"), "ffmpeg is not there")
MS = 10**6


def ffmpeg(*words, **more):
    return subprocess.run(
        ["ffmpeg", "-nostdin", "-y", "-v", "error", *map(str, words)],
        check=True,
        timeout=60 * SLOW,
        capture_output=True,
        **more,
    ).stdout


def clip(path, seconds, begins, *words):
    """A clip of small pictures, 25 a second, with a tone of 0.2 s that begins at a second, and nothing else to hear."""
    tone = f"aevalsrc=0.8*sin(2*PI*1000*t)*between(t\\,{begins}\\,{begins + 0.2}):s=48000:d={seconds}"
    pictures = f"color=size=32x32:rate=25:duration={seconds}"
    coded = ("-c:v", "libvpx", "-deadline", "realtime", "-cpu-used", 8, "-b:v", "20k", *(words or ("-c:a", "libopus")))
    ffmpeg("-f", "lavfi", "-i", pictures, "-f", "lavfi", "-i", tone, *coded, path)
    return path


def loud(path):
    """The first and the last second at which a file is loud."""
    samples = array.array("h", ffmpeg("-i", path, "-vn", "-f", "s16le", "-ac", 1, "-ar", 8000, "-"))
    places = [place for place, value in enumerate(samples) if abs(value) > 4000]
    return (places[0] / 8000, places[-1] / 8000) if places else None


class NodeCase(Case):
    LIMIT = 60

    def node(self, script, *given):
        """What a script prints as JSON, which imports the page's modules by their names."""
        folder = self.folder()
        shutil.copytree(PAGE, folder / "page", ignore=shutil.ignore_patterns("*.py", "__pycache__"))
        (folder / "package.json").write_text('{"type": "module"}')
        (folder / "test.js").write_text(f"const given = {json.dumps(given)};\n{script}")
        done = subprocess.run(
            ["node", "test.js"], cwd=folder, capture_output=True, text=True, timeout=60 * SLOW, check=False
        )
        self.assertEqual((done.returncode, done.stderr), (0, ""))
        return json.loads(done.stdout)


@needs_node
class Peaks(NodeCase):
    def test_samples(self):
        """A tone from 1 s on for 0.2 s, in one of two channels, and a click in the last sample; sound that begins 35 ms
        after its piece.
        """
        found = self.node(
            """import { peaksOf } from "./page/peaks.js";
            const rate = 44100;
            const tone = Float32Array.from({ length: 2 * rate + 100 },
                (_, at) => (at >= rate && at < 1.2 * rate ? 0.5 * Math.sin(at) : 0));
            const other = new Float32Array(tone.length);
            other[tone.length - 1] = -3;
            const pairs = (peaks) =>
                Array.from({ length: peaks.length / 2 }, (_, place) => [peaks[2 * place], peaks[2 * place + 1]]);
            const late = Float32Array.from({ length: 960 }, () => 0.25);
            const long = peaksOf([new Float32Array(70 * 8000)], 8000);
            console.log(JSON.stringify([pairs(peaksOf([tone, other], rate)), pairs(peaksOf([late], 48000, 35)),
                long.length]));"""
        )
        peaks, late, longest = found
        self.assertEqual(len(peaks), 201)
        self.assertEqual([place for place, pair in enumerate(peaks) if pair != [0, 0]], [*range(100, 120), 200])
        self.assertTrue(all(-64 <= low <= -60 and 60 <= high <= 64 for low, high in peaks[100:120]), peaks[100:120])
        self.assertEqual(peaks[200], [-127, 0])
        self.assertEqual(late, [[0, 0]] * 3 + [[0, 32]] * 3)
        # A piece has a minute.
        self.assertEqual(longest, 2 * 6000)

    def columns(self, script, runs, frames=(100, 50), width=200, start=0, scale=2):
        """For each column of pixels the sources and times in it, and how loud they are, of a script over two
        sources.
        """
        return self.node(
            """import { columnsOf, numbered } from "./page/peaks.js";
            import { shotsOf } from "./page/shots.js";
            import { Window } from "./page/window.js";
            import { blocksOf } from "./page/programme.js";
            const [script, runs, frames, width, start, scale] = given;
            const window = Object.assign(new Window(), { from: start, scale, width, count: 1e6 });
            const blocks = blocksOf(shotsOf(script, frames).shots, window);
            const list = runs.map((one) => one && numbered(one));
            const found = columnsOf(blocks, width, (source) => list[source]);
            const parts = ({ of, from, end }) => [of, from, end];
            console.log(JSON.stringify(found.map(({ x, level, times }) => [x, level, times.map(parts)])));""",
            script, runs, frames, width, start, scale,
        )  # fmt: skip

    def test_frames_that_are_cut_moved_and_joined(self):
        runs = [[[100, 0, 7, 4000]], [[50, 1, 0, 1000]]]
        # Column x has the first or the second half of frame x // 2 of what is shown.
        whole = [[x, 1, [[0, 7 + 20 * x, 27 + 20 * x]]] for x in range(200)]
        self.assertEqual(self.columns("-", runs), whole)
        moved = self.columns("parts 0 50 10 0 0 50 0 60 40", runs)
        self.assertEqual(
            [times[0][1] for _, _, times in moved],
            [7 + 20 * x for x in (*range(100, 120), *range(100), *range(120, 200))],
        )
        cut = self.columns("parts 0 0 10 0 90 10", runs)
        self.assertEqual([times[0][1] for _, _, times in cut], [7 + 20 * x for x in (*range(20), *range(180, 200))])
        joined = self.columns("source 1; trim 1 10 20; splice 2 0", runs)
        self.assertEqual(
            [(times[0][0], times[0][1]) for _, _, times in joined],
            [*((1, 200 + 10 * x) for x in range(40)), *((0, 7 + 20 * x) for x in range(160))],
        )
        # From frame 40 on, in pixels of four frames.
        far = self.columns("-", runs, start=40, scale=0.25)
        self.assertEqual(far, [[x, 1, [[0, 7 + 1600 + 160 * x, 7 + 1600 + 160 * (x + 1)]]] for x in range(15)])
        # Nothing is known of source 1.
        self.assertEqual(len(self.columns("source 1; splice 0 1", [runs[0], None])), 200)

    def test_frames_of_several_runs(self):
        """Packets of another file, silence, and a gap, within a pixel too."""
        runs = [[[10, 0, 0, 400], [5, 1, 1000, 200], [5, None, 0, 200], [80, 0, 5000, 3200]], []]
        found = self.columns("-", runs, width=20, scale=0.2)
        self.assertEqual([times for _, _, times in found[:4]], [[[0, 0, 200]], [[0, 200, 400]], [[1, 1000, 1200]], []])
        self.assertEqual(found[4][2], [[0, 5000, 5200]])
        [[_, _, times]] = self.columns("-", runs, width=1, scale=0.01)
        self.assertEqual(times, [[0, 0, 400], [1, 1000, 1200], [0, 5000, 8200]])

    def test_fades(self):
        runs = [[[100, 0, 0, 4000]], []]
        found = self.columns("trim 0 0 100; fade 1 0 50 0 256; fade 2 80 20 256 0", runs, scale=1)
        levels = [round(level, 3) for _, level, _ in found]
        self.assertEqual(
            levels,
            [
                *(round((x + 0.5) / 50, 3) for x in range(50)),
                *[1] * 30,
                *(round((19.5 - x) / 20, 3) for x in range(20)),
            ],
        )

    def test_the_loudest_of_pieces(self):
        found = self.node(
            """import { loudest, piecesOf } from "./page/peaks.js";
            const one = new Int8Array(12000);
            [one[2 * 5999], one[2 * 5999 + 1]] = [-3, 9];
            const pieces = new Map([[0, one], [1, Int8Array.of(-50, 1)], [2, new Int8Array(0)]]);
            const asked = [[59990, 60000], [59990, 60001], [59985, 60015], [0, 59990],
                [60000, 60010], [60010, 180000], [-20, 5]];
            const wanted = [[0, 1], [59999, 60001], [60000, 120000], [-5, 10]]
                .map(([from, end]) => piecesOf({ from, end }));
            console.log(JSON.stringify([asked.map(([from, end]) => loudest(pieces, from, end)), wanted]));"""
        )
        self.assertEqual(
            found, [[[-3, 9], [-50, 9], [-50, 9], [0, 0], [-50, 1], [0, 0], [0, 0]], [[0], [0, 1], [1], [0]]]
        )


class Runs(Case):
    def test_frames_of_about_the_same_length_are_one_run(self):
        span = waves.sounds.Span
        thirty = [span("a", place * 1000 // 30 * MS, 33 * MS) for place in range(3000)]
        self.assertEqual([count for count, *_ in waves.evened(thirty)], [3000])
        # A rate that changes: no frame is more than NEAR away.
        starts = [0]
        for place in range(2000):
            starts.append(starts[-1] + (33 if place < 1000 else 34) * MS)
        found, at = list(waves.evened([span("a", one, other - one) for one, other in zip(starts, starts[1:])])), 0
        self.assertLess(len(found), 5)
        for count, _, start, length in found:
            for place in range(count):
                self.assertLessEqual(abs(start + place * length / count - starts[at + place]), waves.NEAR)
            at += count
        self.assertEqual(at, 2000)
        self.assertEqual(list(waves.evened([])), [])


@needs_ffmpeg
class Pieces(NodeCase):
    """A tone 65 seconds after the beginning is in the second minute."""

    KINDS = {
        "a.webm": ("-c:a", "libopus"),
        "a.mkv": ("-c:a", "libvorbis"),
        "b.mkv": ("-c:a", "aac"),
        "live.webm": ("-c:a", "libopus", "-live", 1),
    }

    def clips(self):
        folder = self.folder()
        for name, words in self.KINDS.items():
            yield clip(folder / name, 70, 65, *words)
        if shutil.which("mkvmerge"):
            subprocess.run(
                ["mkvmerge", "-q", "-o", folder / "merged.mkv", folder / "a.webm"],
                check=True,
                timeout=60 * SLOW,
                stdout=subprocess.DEVNULL,
            )
            yield folder / "merged.mkv"

    def assertTone(self, path, begins=0.0):
        found = loud(path)
        self.assertIsNotNone(found, path)
        self.assertAlmostEqual(begins + found[0], 5, delta=0.03)
        self.assertAlmostEqual(begins + found[1], 5.2, delta=0.03)

    def test_of_the_server(self):
        room = self.folder()
        for path in self.clips():
            sound = containers.read_sounds(path, os.path.join(room, path.name))
            media = mock.Mock(sounds=sound, source=(str(path), ()))
            pieces = []
            for number in (0, 1, 2):
                pieces.append(room / f"{path.name}-{number}.webm")
                pieces[-1].write_bytes(waves.piece_of(media, number))
            self.assertIsNone(loud(pieces[0]), path)
            self.assertTone(pieces[1])
            # The file has no third minute, and the second one ends with the file.
            self.assertEqual(pieces[2].read_bytes(), b"", path)
            self.assertLess(pieces[1].stat().st_size, pieces[0].stat().st_size)
        self.assertEqual(waves.piece_of(mock.Mock(sounds=[]), 0), b"")

    @needs_node
    def test_of_the_page_in_one_file(self):
        room = self.folder()
        script = """import { readFileSync, writeFileSync } from "node:fs";
            import { WebmSound } from "./page/engines/webm_sound.js";
            const [path, out] = given;
            const sound = await new WebmSound(new Blob([readFileSync(path)])).read();
            const found = [];
            for (const number of [0, 1, 2]) {
              const { bytes, begins } = await sound.piece(number * 60000, (number + 1) * 60000);
              writeFileSync(`${out}-${number}`, Buffer.from(bytes));
              found.push(begins / 1000);
            }
            console.log(JSON.stringify([sound.hasSound, found]));"""
        for path in self.clips():
            out = room / path.name
            has_sound, begins = self.node(script, str(path), str(out))
            self.assertEqual(
                (has_sound, loud(f"{out}-0"), pathlib.Path(f"{out}-2").read_bytes()), (True, None, b""), path
            )
            self.assertTone(f"{out}-1", begins[1])

    @needs_node
    def test_files_without_sound(self):
        """IVF, WebM without a track of sound, and a file that ends in the middle of its header."""
        room = self.folder()
        silent = room / "silent.webm"
        ffmpeg("-f", "lavfi", "-i", "testsrc=size=32x32:rate=5:duration=1", "-c:v", "libvpx", silent)
        short = room / "short.webm"
        short.write_bytes(silent.read_bytes()[:60])
        for path in (SMALL, silent, short):
            found = self.node(
                """import { readFileSync } from "node:fs";
                import { WebmSound } from "./page/engines/webm_sound.js";
                const sound = await new WebmSound(new Blob([readFileSync(given[0])])).read();
                console.log(JSON.stringify(sound.hasSound));""",
                str(path),
            )
            self.assertFalse(found, path)


@needs_node
@needs_ffmpeg
class Engines(PageCase, NodeCase):
    """The times of frames after random edits are those of the other engine."""

    LIMIT = 60
    EDITS = ("delete", "move", "hold", "insert", "copy", "replace", "blank")

    def line(self, chance, counts):
        word = chance.choice(self.EDITS)
        at = chance.randrange(counts[0])
        if word == "delete":
            counts[0] -= 1
        elif word not in ("move", "replace"):
            counts[0] += 1
        return {
            "move": f"move {at} {chance.randrange(counts[0])}",
            "insert": f"insert {at} 0 00",
            "replace": f"replace {at} 1100",
            "blank": f"blank {at} 32 32",
        }.get(word, f"copy 1 {chance.randrange(counts[1])} {at}" if word == "copy" else f"{word} {at}")

    def test_random_edits(self):
        room, chance = self.folder(), random.Random(7)
        paths = [
            clip(room / "a.webm", 2, 1),
            clip(room / "b.mkv", 1, 0.5, "-c:a", "libvorbis", "-vf", "setpts=PTS*1.3"),
        ]
        for _ in range(8):
            self.serve(paths[0], sources=[str(paths[1])])
            contents = self.live.contents()
            files = [
                {"stamps": list(item.records().stamps), "tags": list(item.records().tags), "head": item.head._asdict()}
                for item in contents.inputs.all
            ]
            counts = [len(file["stamps"]) for file in files]
            lines = [self.line(chance, counts) for _ in range(chance.randrange(12))]
            for line in lines:
                self.step(line)
            wanted = [self.task("waves", source=source)["runs"] for source in (0, 1)]
            shown = [bool(contents.is_shown(number)) for number in range(contents.next_number)]
            found = self.node(
                """import { Contents, Index } from "./page/engines/contents.js";
                import { runsOf } from "./page/engines/heard.js";
                const [files, lines, shown] = given;
                const indexes = files.map((file) => Object.assign(new Index(), file, { sizes: file.stamps }));
                const contents = new Contents(indexes, () => "");
                contents.apply(lines, contents.ofFiles);
                shown.forEach((is, number) => (contents.tags[number] = is ? 2 : 0));
                console.log(JSON.stringify([0, 1].map((source) => runsOf(contents, source))));""",
                files,
                lines,
                shown,
            )
            for mine, other in zip(wanted, found):
                rounded = lambda runs: [
                    [count, of, round(start, 3) if of is not None else 0, round(length, 3)]
                    for count, of, start, length in runs
                ]  # noqa: E731
                self.assertEqual(rounded(mine), rounded(other), lines)
