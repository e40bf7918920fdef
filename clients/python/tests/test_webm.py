"""WebM and Matroska files that the programs read where they are."""

import json
import os
import pathlib
import random
import shutil
import subprocess
import sys
import unittest
from unittest import mock

from support import SLOW, SMALL, TOP, Case, command, packets_of
from test_containers import KINDS, clip, ffmpeg, media, needs_ffmpeg, setUpModule, sound_packets  # noqa: F401
from wokureti import Session
from wokureti.base import programs
from wokureti.media import containers, elements, ivf, muxing, webm
from wokureti.session import convert, exports, inputs, library

sys.path.insert(0, str(TOP / "compare"))
from library.webm import webm as webm_of  # noqa: E402

MADE = TOP / "crates/gate_webm/data"
SERVE, LIST = programs.find("vp8serve"), programs.find("vp8list")


def listed(path, *words):
    """The objects that vp8list writes."""
    done = subprocess.run([LIST, str(path), *words, "--json"], capture_output=True, timeout=60 * SLOW, check=False)
    return [json.loads(line) for line in done.stdout.splitlines()]


def written(path, packets=None, step=40, **more):
    """A WebM file of packets that is written by a few lines of its own."""
    packets = packets or packets_of(SMALL)
    path.write_bytes(webm_of(packets, [step * place for place in range(len(packets))], **more))
    return path


@needs_ffmpeg
class InPlace(Case):
    """What a session has of a WebM file is what it has of a copy of its packets as IVF."""

    LIMIT = 90

    def both(self, path):
        """The same file as it is, and as a copy."""
        return self.session(path), self.session(convert.as_ivf(path, str(self.folder()), is_quiet=True))

    def test_the_packets(self):
        for name in KINDS:
            mine, other = (session.edits.contents() for session in self.both(clip(name)))
            [one], [copy] = mine.inputs.all, other.inputs.all
            self.assertEqual((one.path, mine.inputs.room, one.word), (str(clip(name)), None, str(clip(name))))
            for part in ("sizes", "stamps", "tags"):
                self.assertEqual(getattr(one.records(), part), getattr(copy.records(), part), (name, part))
            for part in ("step", "rate", "durations", "extent", "digest", "damage", "left"):
                self.assertEqual(getattr(one, part)(), getattr(copy, part)(), (name, part))
            self.assertEqual((one.head, mine.rate), (copy.head, other.rate), name)
            for start, end in ((0, len(one.index)), (3, 7), (len(one.index) - 1, len(one.index))):
                self.assertEqual(b"".join(one.read_records(start, end)), b"".join(copy.read_records(start, end)))
            self.assertEqual([one.read(number) for number in (0, 1, 50)], [copy.read(number) for number in (0, 1, 50)])
            self.assertEqual((one.read(5, 3), one.whole(1 << 30)), (copy.read(5, 3), clip(name).read_bytes()))

    def test_what_else_it_has(self):
        for name in KINDS:
            mine, other = (session.edits.contents().inputs.all[0].media for session in self.both(clip(name)))
            self.assertEqual(
                (mine.has_sound, mine.rate, mine.tags, mine.video_tags, mine.language),
                (other.has_sound, other.rate, other.tags, other.video_tags, other.language),
                name,
            )
            self.assertEqual(
                [(*track[:7], track.times, track.durations, sound_packets(track)) for track in mine.sounds],
                [(*track[:7], track.times, track.durations, sound_packets(track)) for track in other.sounds],
                name,
            )
            self.assertEqual(
                (muxing.ending_for(mine), muxing.ending_for(webm.media_of(clip(name)))),
                (clip(name).suffix, clip(name).suffix),
            )

    def test_edits_and_saves(self):
        lines = ("delete 3", "delete 3", "move 20 2", "copy 0 7 9", "replace 4 -", "hide 12", "insert 0 0 -", "hold 5")
        room = self.folder()
        for name in ("talk.webm", "varied.webm", "late.webm"):
            found = []
            for session in self.both(clip(name)):
                for line in lines:
                    session.request(line)
                for restamp, ending in ((False, "ivf"), (True, "ivf"), (True, "webm")):
                    out = room / f"{len(found)}.{ending}"
                    session.save(out, restamp=restamp)
                    found.append(out.read_bytes())
                session.script("trim 0 2 9; trim 0 30 8; splice 1 2")
                session.export(room / "export.ivf")
                found.append((room / "export.ivf").read_bytes())
            self.assertEqual(found[:4], found[4:], name)

    def test_the_first_line_of_the_frames(self):
        """By the program and by the library."""
        room, packets = self.folder(), packets_of(SMALL)
        engines = ["program", *(["library"] if library.is_ready() else [])]
        for step, more, rate in (
            (40, {"duration": 40_000_000}, b"F25:1"),
            (33, {"duration": 33_366_667}, b"F1000000000:33366667"),
            (40, {}, b"F25:1"),
            (40, {"scale": 333_667}, b"F25000000:333667"),
        ):
            path = written(room / "rate.webm", packets, step, **more)
            for engine in engines:
                with Session(path, engine=engine) as session:
                    session.picture(0)
                    self.assertIn(rate, session.header.split(), (engine, step, more))

    def test_the_head_is_that_of_a_save(self):
        room = self.folder()
        for path in [*sorted(MADE.glob("*")), clip("talk.webm"), written(room / "one.webm", scale=333_667)]:
            done = subprocess.run(
                [SERVE, path, "-", "-", "--save", room / "saved.ivf"],
                stdin=subprocess.DEVNULL,
                capture_output=True,
                timeout=60 * SLOW,
                check=False,
            )
            with open(path, "rb") as file:
                facts = webm.facts_of(file.fileno())
            if facts is None:
                # Such a file is refused, or its beginning is damaged.
                self.assertTrue(done.returncode or path.name in ("damaged.webm",), path)
                continue
            self.assertEqual(
                (done.returncode, facts.head), (0, ivf.parse_head((room / "saved.ivf").read_bytes())[0]), path
            )

    def test_packets_that_edits_took_away_are_kept(self):
        """The file is overwritten in place, and an edit is taken back."""
        path = self.folder() / "talk.webm"
        shutil.copyfile(clip("talk.webm"), path)
        wanted = packets_of(media(clip("talk.webm"), self.folder())[1])
        with self.session(path) as session:
            session.edits.contents()
            for _ in range(9):
                session.request("delete 40")
            session.request("delete 3")
            with open(path, "r+b") as file:
                file.write(bytes(9))
            with self.assertRaisesRegex(OSError, "was changed since the session was opened"):
                session.packet(0)
            for _ in range(10):
                session.undo()
            session.save(path.parent / "out.ivf")
            self.assertEqual(packets_of(path.parent / "out.ivf"), wanted)

    def test_a_file_that_is_changed_meanwhile(self):
        path = self.folder() / "talk.webm"
        shutil.copyfile(clip("talk.webm"), path)
        session = self.session(path)
        with open(path, "r+b") as file:
            file.write(bytes(9))
        with self.assertRaisesRegex(OSError, "was changed since the session was opened"):
            session.edits.contents()

    def test_a_file_that_is_replaced_is_read_on(self):
        """Its name is that of another file."""
        path = self.folder() / "talk.webm"
        shutil.copyfile(clip("talk.webm"), path)
        session = self.session(path)
        (path.parent / "other").write_bytes(b"another file")
        os.replace(path.parent / "other", path)
        contents = session.edits.contents()
        self.assertEqual(
            (contents.inputs.all[0].digest(), len(contents.inputs.all[0].media.sounds)),
            (inputs.Input(str(clip("talk.webm"))).digest(), 1),
        )

    def test_sources_of_both_kinds(self):
        with self.session(SMALL, sources=[clip("talk.webm")]) as session:
            contents = session.edits.contents()
            self.assertEqual([item.facts is None for item in contents.inputs.all], [True, False])
            session.request("copy 1 0 0")
            self.assertEqual(session.packet(0), contents.inputs.all[1].read(0))

    def test_bytes_and_a_pipe(self):
        data = clip("talk.webm").read_bytes()
        count = self.session(clip("talk.webm")).count()
        self.assertEqual(self.session(data).count(), count)
        for words in (("list", "-"), ("check", "-")):
            status, out, _ = command(*words, given=data)
            self.assertEqual(
                (status, out),
                (
                    0,
                    subprocess.run(
                        [LIST, clip("talk.webm"), *(["--check"] if words[0] == "check" else [])],
                        capture_output=True,
                        check=True,
                        timeout=60 * SLOW,
                    ).stdout,
                ),
            )

    def test_a_list_of_edits_is_that_of_both(self):
        """One that was begun over a copy of the packets goes on."""
        room = self.folder()
        mine, other = room / "mine.edits", room / "other.edits"
        for session, path in zip(
            (clip("talk.webm"), convert.as_ivf(clip("talk.webm"), str(room), is_quiet=True)), (mine, other)
        ):
            with Session(session, edits=path) as opened:
                opened.request("delete 3")
        self.assertEqual(mine.read_text(), other.read_text())

    def test_it_cannot_be_saved_over(self):
        path = self.folder() / "talk.webm"
        shutil.copyfile(clip("talk.webm"), path)
        with self.session(path) as session, self.assertRaisesRegex(ValueError, "is a file of the session"):
            session.save(path)


@needs_ffmpeg
class Otherwise(Case):
    """When a file is not read where it is."""

    LIMIT = 60

    def lister(self, text):
        path = self.folder() / "vp8list"
        path.write_text(f"#!/bin/sh\n{text}\n")
        path.chmod(0o755)
        return str(path)

    def test_an_earlier_vp8list(self):
        earlier = self.lister('[ "$1" = --help ] && echo "the IVF file"')
        session = self.session(clip("talk.webm"), lister=earlier)
        [item] = session.edits.contents().inputs.all
        self.assertEqual(
            (item.facts, item.path.endswith(".ivf"), len(item.media.sounds), item.digest()),
            (None, True, 1, inputs.Input(str(clip("talk.webm"))).digest()),
        )

    def test_one_that_fails(self):
        failing = self.lister(
            'case "$1" in --help) echo "the IVF or WebM file";; *) echo "vp8list: no memory" >&2; exit 2;; esac'
        )
        (self.folder() / "copy.webm").write_bytes(clip("talk.webm").read_bytes())
        with mock.patch.dict(webm.known, clear=True):
            session = self.session(clip("talk.webm"), lister=failing)
            with self.assertRaisesRegex(OSError, "vp8list does not list the packets of .*: vp8list: no memory"):
                session.edits.contents()

    def test_without_ffmpeg(self):
        room = self.folder()
        for name in ("talk.webm", "silent.webm"):
            with (
                mock.patch.object(containers, "has_ffmpeg", return_value=False),
                mock.patch.object(containers, "has_av", return_value=False),
                mock.patch("wokureti.session.convert.say") as say,
            ):
                self.assertEqual(convert.readable(clip(name), str(room)), str(clip(name)))
                self.assertEqual(
                    [call.args[0] for call in say.call_args_list],
                    [f"the sound of {clip(name)} is left out: install ffmpeg for that"] if name == "talk.webm" else [],
                )
                [item] = self.session(clip(name)).edits.contents().inputs.all
                self.assertEqual(
                    (item.media.has_sound, item.media.sounds, item.media.tags, item.media.language, item.media.rate),
                    (False, [], {}, "und", (25, 1)),
                )

    @unittest.skipUnless(containers.has_av(), "Python's av is not here")
    def test_by_av(self):
        """The packets are those of vp8list all the same, and av reads the sound."""
        for name in ("talk.webm", "two.mkv", "silent.webm"):
            wanted = self.session(clip(name)).edits.contents().inputs.all[0].media
            told = [(*track[:7], track.times, sound_packets(track)) for track in wanted.sounds]
            with mock.patch.object(containers, "has_ffmpeg", return_value=False):
                [item] = self.session(clip(name)).edits.contents().inputs.all
                self.assertEqual((item.path, item.media.has_sound), (str(clip(name)), bool(told)))
                self.assertEqual(
                    (item.media.tags, item.media.video_tags, item.media.language, item.media.rate),
                    (wanted.tags, wanted.video_tags, wanted.language, wanted.rate),
                )
                self.assertEqual(
                    [(*track[:7], track.times, sound_packets(track)) for track in item.media.sounds], told, name
                )
                out = convert.as_ivf(clip(name), str(self.folder()), is_quiet=True)
                found = containers.media_of(out)
            self.assertEqual(packets_of(out), packets_of(media(clip(name), self.folder())[1]))
            self.assertEqual((found.rate, len(found.sounds)), (wanted.rate, len(told)))

    def test_files_that_are_refused(self):
        """Who reads them otherwise says why."""
        status, _, errors = command("list", MADE / "vp9.webm")
        self.assertEqual((status, "has video of vp9, and not of VP8" in errors), (2, True), errors)
        # Packets that are compressed once more ffmpeg takes out.
        self.assertEqual(command("export", MADE / "encoded.mkv", self.folder() / "out.ivf")[0], 0)


class Rates(Case):
    def test_they_are_rounded_as_ffmpeg_does(self):
        head = ivf.Head(0, 0, 1000, 1)
        cases = {
            40_000_000: (25, 1),
            33_366_667: (30000, 1001),
            41_708_333: (24000, 1001),
            16_666_667: (60, 1),
            66_666_667: (15, 1),
            2_000_000_000: (1, 2),
            0: None,
        }
        self.assertEqual({duration: webm.Facts(head, duration, False).rate for duration in cases}, cases)

    @needs_ffmpeg
    def test_ffprobe_has_the_same(self):
        room, dice = self.folder(), random.Random(5)
        for duration in (
            40_000_000,
            33_366_667,
            41_708_333,
            16_683_333,
            *(dice.randrange(5_000_000, 200_000_000) for _ in range(6)),
        ):
            path = written(room / "one.webm", duration=duration)
            words = [
                "ffprobe",
                "-v",
                "error",
                "-select_streams",
                "v",
                "-show_entries",
                "stream=avg_frame_rate",
                "-of",
                "csv=p=0",
                str(path),
            ]
            said = subprocess.run(words, capture_output=True, text=True, check=True, timeout=60 * SLOW).stdout.strip()
            with open(path, "rb") as file:
                found = webm.facts_of(file.fileno()).rate
            self.assertEqual("/".join(map(str, found)), said, duration)


class Damaged(Case):
    """Sentences about damaged files, next to the findings of vp8list."""

    LIMIT = 120

    def said(self, path):
        return elements.damage_of(LIST, str(path), "in.webm")

    @needs_ffmpeg
    def test_whole_files(self):
        for path in map(clip, KINDS):
            self.assertEqual(
                (
                    self.said(path),
                    [one for one in listed(path, "--check") if one["kind"] in ("skipped", "cut_element")],
                ),
                ([], []),
                path,
            )

    def test_copies_that_are_damaged(self):
        """A sentence if vp8list skips bytes, and none else, except at an end between two elements; and its byte is that
        of the first finding, or is in the block before it.
        """
        dice, room = random.Random(9), self.folder()
        whole = written(room / "whole.webm", packets_of(SMALL) * 4).read_bytes()
        begins = whole.index(bytes.fromhex("1f43b675"))
        counts = {"none": 0, "damaged": 0, "cut": 0}
        for turn in range(120):
            data, at = bytearray(whole), dice.randrange(begins, len(whole) - 700)
            kind = turn % 4
            if kind == 0:
                data[at : at + dice.randrange(1, 600)] = bytes(dice.randrange(1, 600))
            elif kind == 1:
                data[at] ^= 1 << dice.randrange(8)
            elif kind == 2:
                del data[at:]
            else:
                del data[at : at + dice.randrange(1, 300)]
            path = room / "damaged.webm"
            path.write_bytes(data)
            found = [one for one in listed(path, "--check") if one["kind"] in ("skipped", "cut_element")]
            texts = self.said(path)
            if not texts:
                counts["none"] += 1
                self.assertEqual(found, [], turn)
            elif texts == [
                f"in.webm ends in the middle, after {len(data):,} bytes: the packets that followed are missing"
            ]:
                counts["cut"] += 1
                self.assertTrue(kind in (1, 2) or found, turn)
            else:
                counts["damaged"] += 1
                place, spare = (
                    int(text.replace(",", ""))
                    for text in (texts[0].split("byte ")[1].split(":")[0], texts[0].split(": ")[1].split(" bytes")[0])
                )
                self.assertEqual(spare, sum(one.get("bytes", one.get("left")) for one in found), turn)
                self.assertLessEqual(found[0]["byte"], place, turn)
        self.assertTrue(all(counts.values()), counts)

    def test_half_a_file(self):
        path = written(self.folder() / "half.webm")
        data = path.read_bytes()
        for length in (len(data) - 1, len(data) // 2):
            path.write_bytes(data[:length])
            status, _, errors = command("list", path)
            said = (
                f"ends in the middle, after {length:,} bytes: the packets that followed are missing. `wokureti repair`"
                " searches a damaged file for all its packets\n"
            )
            self.assertEqual((status, errors), (1, f"wokureti: {path} {said}"))
            for words in (("list", "-"), ("check", "-"), ("export", "-", path.parent / "out.ivf", "-y")):
                status, _, errors = command(*words, given=data[:length])
                self.assertEqual((status, errors), (1, f"wokureti: standard input {said}"), words)


if __name__ == "__main__":
    unittest.main()
