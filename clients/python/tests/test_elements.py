"""Damaged WebM and Matroska files: what is found in them, of packets that are known."""

import io
import os
import random
import shutil
import subprocess
import unittest

from support import SLOW, SMALL, Case, command, packets_of
from test_containers import clip, ffmpeg, media, needs_ffmpeg, setUpModule, sound_packets, starts  # noqa: F401
from wokureti.errors import NotIvf
from wokureti.media import containers, elements, matroska
from wokureti.session import convert

MS = 10**6
CLUSTER = bytes.fromhex(matroska.CLUSTER)
needs_mkvmerge = unittest.skipUnless(shutil.which("mkvmerge"), "mkvmerge is not here")


def damage(data):
    return elements.damage(io.BytesIO(data))


def found_in(data):
    """The blocks that are found, and all that is."""
    found = elements.find(bytes(data))
    return [(row.track, row.stamp, data[row.place : row.place + row.size]) for row in found.rows], found


class Made(Case):
    """A file of pictures of 40 ms and sound of 20 ms."""

    LIMIT = 60

    def file(self):
        """The file, in clusters, and its blocks."""
        pictures = [(40 * MS * turn, 1, data[0] & 1 == 0, data) for turn, data in enumerate(packets_of(SMALL) * 10)]
        sound = [(20 * MS * turn, 2, True, bytes([0xF8]) + turn.to_bytes(60, "big")) for turn in range(240)]
        entries = [
            matroska.video(1, (7, 5), 40 * MS),
            matroska.sound(2, "opus", b"OpusHead\x01\x01\x38\x01" + bytes(9), 48000, 1, 6_500_000, "fre", "Room"),
        ]
        parts = {matroska.INFO: matroska.info("", 0), matroska.TRACKS: matroska.element(matroska.TRACKS, *entries)}
        out = self.folder() / "file"
        made = sorted(pictures + sound, key=lambda block: block[0])
        with open(out, "wb") as file:
            matroska.write(file, "webm", parts, made)
        return out.read_bytes(), [(number, time // MS, data) for time, number, _, data in made]

    def searched(self, data):
        """The packets, the gaps, and what else is found, as a repair has them."""
        room = self.folder()
        (room / "in.webm").write_bytes(data)
        self.hush()
        out, (head, packets, gaps, length) = convert.searched(str(room / "in.webm"), str(room))
        self.assertEqual(length, len(data))
        return head, packets, gaps, containers.media_of(out)


class Blocks(Made):
    def test_a_file_that_is_whole(self):
        data, made = self.file()
        self.assertIsNone(damage(data))
        blocks, found = found_in(data)
        self.assertEqual((blocks, found.video, found.size, found.has_tracks), (made, 1, (7, 5), True))
        self.assertEqual(set(found.entries), {1, 2})

    def test_zeroed_sectors(self):
        dice = random.Random(7)
        for turn in range(12):
            data, made = self.file()
            data = bytearray(data)
            hit = sorted(dice.randrange(data.index(CLUSTER), len(data) - 600) for _ in range(3))
            for at in hit:
                data[at : at + 300] = bytes(300)
            blocks, found = found_in(bytes(data))
            self.assertTrue(found.damage.gaps)
            self.assertLessEqual(len(made) - len(blocks), 3 * 9, (turn, hit))
            # Where the time of a cluster was hit, its blocks continue those before, of which some may be lost.
            times = {data: time for track, time, data in made if track == 2}
            far = [one for one in blocks if one[0] == 2 and one[2] in times and abs(times[one[2]] - one[1]) > 120]
            self.assertEqual(far, [], (turn, hit))
            pictures = [data for number, _, data in blocks if number == 1 and bytes(20) not in data]
            self.assertEqual([data for data in pictures if data not in packets_of(SMALL)], [])

    def test_another_time_scale(self):
        data, made = self.file()
        place = data.index(bytes.fromhex("2ad7b188"))
        data = data[: place + 4] + (MS // 10).to_bytes(8, "big") + data[place + 12 :]
        blocks, found = found_in(data)
        self.assertEqual((blocks, found.scale), (made, MS // 10))

    def test_a_file_that_ends_in_the_middle_is_damaged(self):
        data, made = self.file()
        start = data.index(CLUSTER)
        for length in range(start + 1, len(data), 997):
            found = damage(data[:length])
            self.assertTrue(found is not None and "ends in the middle" in found.sentences("it")[0], length)
        for at in range(start, start + 4):
            [text] = damage(data[:at] + b"\0" + data[at + 1 :]).sentences("it")
            self.assertIn("it is damaged at byte", text)
        blocks, found = found_in(data[: len(data) // 2])
        self.assertEqual((blocks, len(found.damage.gaps)), (made[: len(blocks)], 1))
        self.assertGreater(len(blocks), len(made) // 2 - 3)

    def test_bytes_that_are_no_file(self):
        for data in (b"", b"\xa3", random.Random(1).randbytes(20000), bytes(20000), b"\xa3\x84\x81\x00\x00" * 40):
            self.assertIsNone(elements.find(data))
        path = self.folder() / "in.webm"
        path.write_bytes(bytes.fromhex("1a45dfa3") + bytes(1000))
        with self.assertRaisesRegex(NotIvf, "no packet of VP8"):
            convert.searched(str(path), str(path.parent))


class Times(Made):
    """Those of clusters and blocks that are lost, or are others."""

    def times(self, data, made, most):
        """How many blocks have other times: at most so many may be lost."""
        blocks, _ = found_in(data)
        times = {data: time for track, time, data in made if track == 2}
        self.assertLessEqual(len(made) - len(blocks), most)
        pictures = [(time, data) for track, time, data in blocks if track == 1]
        wrong = len(set(pictures) - {(time, data) for track, time, data in made if track == 1})
        return wrong, [(time, times[data]) for track, time, data in blocks if track == 2 and times[data] != time]

    def test_the_time_of_a_cluster(self):
        """Too great, too small, and none, of one cluster in the middle; the element of its time skipped."""
        data, made = self.file()
        places = [at for at in range(len(data)) if data.startswith(CLUSTER, at)]
        at = data.index(b"\xe7\x88", places[len(places) // 2])
        for value in ((1 << 64) - 1, 1 << 40, 0, 1):
            hit = data[: at + 2] + value.to_bytes(8, "big") + data[at + 10 :]
            self.assertEqual(self.times(hit, made, 0), (0, []), value)
        hit = data[:at] + b"\xec" + data[at + 1 :]
        self.assertEqual(self.times(hit, made, 0), (0, []))

    def test_the_head_of_a_cluster(self):
        """It is skipped, and its blocks have the time of the cluster before."""
        data, made = self.file()
        places = [at for at in range(len(data)) if data.startswith(CLUSTER, at)]
        at = places[len(places) // 2]
        self.assertEqual(self.times(data[:at] + bytes(8) + data[at + 8 :], made, 1), (0, []))

    def test_the_time_of_a_block(self):
        data, made = self.file()
        block = next(data for track, _, data in made[len(made) // 2 :] if track == 2)
        at = data.index(block)
        for value in (b"\x7f\xff", b"\x80\x00"):
            self.assertEqual(self.times(data[: at - 3] + value + data[at - 1 :], made, 0), (0, []))


@needs_ffmpeg
class NoBeginning(Made):
    """What the beginning of a file says is lost."""

    def check(self, data, made, has_tracks, lost=0):
        head, packets, gaps, found = self.searched(data)
        pictures = [(time, data) for number, time, data in made if number == 1]
        self.assertEqual((head[:2], [(one.stamp, one.data) for one in packets]), ((7, 5), pictures[lost:]))
        self.assertTrue(gaps or has_tracks)
        [track] = found.sounds
        sound = [data for number, _, data in made if number == 2]
        self.assertEqual((track.codec, track.channels), ("opus", 1))
        self.assertEqual(sound_packets(track), sound[len(sound) - len(track.sizes) :])
        self.assertGreaterEqual(len(track.sizes), len(sound) - 2 * lost - 2 * bool(lost))
        self.assertEqual(track.tags, {"title": "Room"} if has_tracks else {})

    def test_the_head_of_the_file(self):
        data, made = self.file()
        self.check(bytes(4) + data[4:], made, True)
        self.check(b"\x1a\x45\xdf\xa2" + data[4:], made, True)
        self.check(data[40:], made, True)

    def test_the_tracks(self):
        data, made = self.file()
        # The first of these names is in the SeekHead.
        at = data.rindex(bytes.fromhex(matroska.TRACKS), 0, data.index(CLUSTER))
        self.check(data[:at] + bytes([data[at] ^ 4]) + data[at + 1 :], made, False)
        # The codec of the video, and the number of its track.
        at = data.index(b"V_VP8")
        self.check(data[: at + 4] + b"9" + data[at + 5 :], made, True)
        at = data.index(b"\xd7\x88")
        self.check(data[: at + 9] + b"\5" + data[at + 10 :], made, True)

    def test_all_up_to_the_first_cluster(self):
        data, made = self.file()
        start = data.index(CLUSTER)
        self.check(bytes(start) + data[start:], made, False)
        self.check(data[start:], made, False)

    def test_the_first_bytes(self):
        data, made = self.file()
        head, packets, gaps, found = self.searched(bytes(10_000) + data[10_000:])
        pictures = [(time, data) for number, time, data in made if number == 1]
        self.assertEqual(
            ([one.data for one in packets], [gap.after for gap in gaps]),
            ([data for _, data in pictures[len(pictures) - len(packets) :]], [0]),
        )
        self.assertGreater(len(packets), len(pictures) // 2)
        self.assertEqual((len(found.sounds), head[:2]), (1, (7, 5)))

    def test_no_cluster(self):
        """Only blocks are left: their times begin at 0."""
        data, made = self.file()
        start = data.index(b"\xa3", data.index(CLUSTER) + 12)
        end = data.index(CLUSTER, start)
        blocks, found = found_in(data[start:end])
        self.assertEqual((blocks, found.video, found.has_tracks), (made[: len(blocks)], 1, False))
        self.assertGreater(len(blocks), 5)

    def test_numbers_that_damage_made_great(self):
        """The time of a cluster, the rate, the channels and the delay of sound."""
        data, made = self.file()
        for mark, value in (
            ("e788", b"\xff" * 8),
            ("b588", b"\x7f\xf0" + bytes(6)),
            ("b588", b"\x7f\xf8" + bytes(6)),
            ("9f88", b"\xff" * 8),
            ("56aa88", b"\xff" * 8),
        ):
            place = data.index(bytes.fromhex(mark)) + len(mark) // 2
            # A cluster is lost, so that the file is damaged.
            _, packets, _, _ = self.searched(data[:place] + value + data[place + 8 : -3])
            self.assertGreaterEqual(len(packets), sum(number == 1 for number, _, _ in made) - 1, mark)


@needs_ffmpeg
class Programs(Case):
    """Files of other programs."""

    LIMIT = 90

    @needs_mkvmerge
    def test_whole_ones(self):
        room = self.folder()
        live = ("-map", "0", "-c", "copy", "-f", "matroska", "-cluster_time_limit", "500", "-live", "1")
        for name in ("talk.webm", "vorbis.webm", "two.mkv"):
            ffmpeg("-i", clip(name), *live, room / "live.mkv")
            # mkvmerge makes blocks with several packets of sound.
            subprocess.run(["mkvmerge", "-q", "-o", room / "laced.mkv", clip(name)], check=True, timeout=20 * SLOW)
            wanted = packets_of(media(clip(name), room)[1])
            for path in (clip(name), room / "live.mkv", room / "laced.mkv"):
                self.assertIsNone(damage(path.read_bytes()), path.name)
                blocks, found = found_in(path.read_bytes())
                self.assertEqual([data for track, _, data in blocks if track == found.video], wanted, path.name)

    @needs_mkvmerge
    def test_the_sound_of_a_damaged_laced_file(self):
        """All of it is there but for the blocks that are hit, and a repair writes it."""
        room = self.folder()
        subprocess.run(["mkvmerge", "-q", "-o", room / "laced.mkv", clip("talk.webm")], check=True, timeout=20 * SLOW)
        whole = sound_packets(media(room / "laced.mkv", room)[0].sounds[0])
        data = bytearray((room / "laced.mkv").read_bytes())
        places = starts(room / "laced.mkv")
        data[places[len(places) // 2] - 10 : places[len(places) // 2] + 90] = bytes(100)
        (room / "in.mkv").write_bytes(data)
        self.hush()
        out, _ = convert.searched(str(room / "in.mkv"), str(room))
        [track] = containers.media_of(out).sounds
        packets = sound_packets(track)
        self.assertEqual([one for one in packets if one not in whole and bytes(20) not in one], [])
        self.assertGreater(len(packets), len(whole) - 20)
        self.assertEqual(list(track.times), sorted(track.times))
        status, _, errors = command("repair", room / "in.mkv", room / "out.mkv")
        self.assertEqual((status, "and 1 track of sound" in errors), (1, True), errors)
        written = sound_packets(media(room / "out.mkv", room)[0].sounds[0])
        self.assertGreater(len(set(written) & set(whole)), len(set(whole)) - 24)

    def test_sound_that_no_decoder_reads(self):
        """What a decoder of Vorbis begins with is damaged: the picture is repaired."""
        data, room = bytearray(clip("vorbis.webm").read_bytes()), self.folder()
        at = data.index(b"\x05vorbis") + 40
        data[at : at + 60] = bytes(60)
        (room / "in.webm").write_bytes(data[:-50])
        status, _, errors = command("repair", room / "in.webm", room / "out.webm")
        self.assertEqual((status, "; its sound cannot be read" in errors), (1, True), errors)
        found, path = media(room / "out.webm", room)
        self.assertEqual((len(found.sounds), os.path.getsize(path) > 10_000), (0, True))


if __name__ == "__main__":
    unittest.main()
