"""wokureti repair: damage of each kind, what is mended, and that sound streams stay as they are."""

import mmap
import os
import pathlib
import random
import re
import struct
import subprocess
import unittest
from unittest import mock

from support import DATA, ODD, SLOW, SMALL, TOP, Case, command, packets_of, serve, start_python, write_packets
from wokureti import commands
from wokureti.base import programs
from wokureti.media import ivf, salvage
from wokureti.tools import repair
from wokureti.tools.differences import edits_between

CHECKS = TOP / "crates/gate_checks/data"
CLEAN = CHECKS / "clean.ivf"
BROKEN = b"\x11\x00"


def text_of(packets, count=None, head=ivf.Head(32, 32, 30, 1)):
    """An IVF file of pairs of a time stamp and bytes."""
    return b"".join(ivf.pieces(head, len(packets) if count is None else count, packets))


def record(stamp, data):
    return struct.pack("<IQ", len(data), stamp) + data


class RepairCase(Case):
    def setUp(self):
        super().setUp()
        self.room = self.folder()
        self.packets = ivf.read_packets(CLEAN)[1]
        self.data = CLEAN.read_bytes()
        self.keys = [place for place, (_, data) in enumerate(self.packets) if ivf.is_key(data)]
        # Each packet is of its own: a packet that is found is known by its bytes and time stamp.
        self.assertEqual((len(self.packets), len(set(self.packets))), (100, 100))

    def run_it(self, data, *words, second=None):
        """The status, the lines, and the packets of the output."""
        (self.room / "in.ivf").write_bytes(data)
        if second is not None:
            (self.room / "second.ivf").write_bytes(second)
            words = (*words, "--second", self.room / "second.ivf")
        out = self.room / "out.ivf"
        if out.exists():
            out.unlink()
        edits = self.room / "list"
        status, text, errors = command("repair", self.room / "in.ivf", out, "-y", *words)
        self.assertEqual(errors, "")
        packets = ivf.read_packets(out)[1]
        # The same with a list of edits, which makes the same packets.
        if salvage.plain(data) is not None:
            self.assertEqual(
                command("repair", self.room / "in.ivf", out, "-y", "--edits", edits, *words)[:2], (status, text)
            )
            serve(self.room / "in.ivf", edits.read_text().splitlines(), "--save", self.room / "edited.ivf")
            self.assertEqual(ivf.read_packets(self.room / "edited.ivf")[1], packets)
        lines = text.decode().splitlines()
        self.assertRegex(lines[-1], rf"^{len(packets)} packets written, \d+ are read without repair; \d+ changes$")
        if status != 2:
            replies = serve(out, [f"frame {n}" for n in range(len(packets))])
            self.assertEqual([reply for reply in replies if "packet" in reply], [])
        return status, lines[:-1], packets


class Sound(Case):
    LIMIT = 40

    def test_sound_streams_stay_as_they_are(self):
        out = self.folder() / "out.ivf"
        count = 0
        for path in [*sorted(DATA.glob("*.ivf"))[::3], CLEAN, CHECKS / "sizes.ivf", CHECKS / "hidden.ivf"]:
            found = repair.repair(path.read_bytes(), programs.find("vp8serve"), programs.find("vp8list"))
            self.assertEqual((found.lines, found.changes, found.left), ([], 0, 0), path)
            self.assertEqual([(packet.stamp, packet.data) for packet in found.packets], ivf.read_packets(path)[1])
            count += 1
        self.assertGreater(count, 10)
        self.assertEqual(command("repair", CLEAN, out, "-y")[::2], (0, ""))
        self.assertEqual(out.read_bytes(), CLEAN.read_bytes())


class Refused(RepairCase):
    def test_a_refused_packet(self):
        key, end = self.keys[1:3]
        place = key + 3
        self.packets[place] = (place, BROKEN)
        status, lines, packets = self.run_it(text_of(self.packets))
        self.assertEqual(
            lines,
            [
                f"packets {place} to {end - 1}: refused ShortPacket, {end - place - 1} packets lost: the picture before"
                " is held"
            ],
        )
        self.assertEqual((status, packets[:place], packets[end:]), (1, self.packets[:place], self.packets[end:]))
        self.assertEqual([stamp for stamp, _ in packets], list(range(100)))
        self.assertEqual(len({data for _, data in packets[place:end]}), 1)
        frames = self.frames(self.room / "out.ivf")
        self.assertEqual(set(frames[place:end]), {frames[place - 1]})

    def frames(self, path):
        with self.session(path) as stream:
            return [frame.i420() for frame in stream.frames()]

    def test_a_refused_key_packet(self):
        key, end = self.keys[1], self.keys[2]
        data = bytearray(self.packets[key][1])
        data[3] = 0
        self.packets[key] = (key, bytes(data))
        status, lines, packets = self.run_it(text_of(self.packets))
        self.assertEqual(
            (status, lines),
            (
                1,
                [
                    f"packets {key} to {end - 1}: refused StartCode, {end - key - 1} packets lost: the picture before"
                    " is held"
                ],
            ),
        )
        self.assertEqual((packets[:key], packets[end:]), (self.packets[:key], self.packets[end:]))

    def test_the_beginning(self):
        key = self.keys[1]
        status, lines, packets = self.run_it(text_of(self.packets[3:]))
        self.assertEqual(
            (status, lines, packets), (1, [f"packets 0 to {key - 4}: no key frame before: removed"], self.packets[key:])
        )

    def test_left_as_they_are(self):
        self.packets[50] = (50, BROKEN)
        status, lines, packets = self.run_it(text_of(self.packets), "--no-hold")
        self.assertEqual((status, lines, packets), (2, ["packet 50: refused ShortPacket: not repaired"], self.packets))
        status, lines, packets = self.run_it((CHECKS / "inside.ivf").read_bytes())
        self.assertEqual((status, packets), (2, ivf.read_packets(CHECKS / "inside.ivf")[1]))
        self.assertIn("not repaired", lines[0])

    def test_a_lost_packet(self):
        status, lines, packets = self.run_it((CHECKS / "lost.ivf").read_bytes())
        self.assertEqual((status, lines), (1, ["time stamp 30: 1 packet lost: the picture before is held"]))
        self.assertEqual([stamp for stamp, _ in packets], list(range(100)))


class Order(RepairCase):
    def test_packets_that_are_there_twice(self):
        packets = self.packets[:31] + self.packets[30:50] + [self.packets[45]] + self.packets[50:]
        status, lines, found = self.run_it(text_of(packets))
        self.assertEqual(
            (status, lines, found),
            (1, ["packet 31: packet 30 again: removed", "packet 51: packet 46 again: removed"], self.packets),
        )
        status, lines, found = self.run_it(text_of(packets), "--no-double", "--no-sort", "--no-hold")
        self.assertEqual((found, [line for line in lines if "not repaired" not in line]), (packets, []))

    def test_packets_out_of_order(self):
        packets = list(self.packets)
        packets.insert(20, packets.pop(23))
        packets.insert(70, packets.pop(66))
        status, lines, found = self.run_it(text_of(packets))
        self.assertEqual(
            (status, lines, found),
            (1, ["packet 20: time stamp 23: moved to 23", "packet 70: time stamp 66: moved to 66"], self.packets),
        )
        self.assertEqual(self.run_it(text_of(packets), "--no-sort", "--no-hold")[2], packets)

    def test_time_stamps_that_say_nothing(self):
        # One packet with another's time stamp, and repeats with the same one.
        packets = list(self.packets)
        packets[20] = (5, packets[20][1])
        lines = ["packet 20: time stamp 5 is another packet's too: it stays"]
        lines += [
            "packet 20: time stamp 5 follows 19: not repaired",
            "packet 21: time stamp 21 follows 5: not repaired",
        ]
        self.assertEqual(self.run_it(text_of(packets)), (2, lines, packets))
        hold = serve_hold(32, 32)
        packets = self.packets[:50] + 5 * [(49, hold)] + 3 * [(49, b"")] + self.packets[50:]
        self.assertEqual(self.run_it(text_of(packets)), (0, [], packets))

    def test_clips_that_were_joined(self):
        later = [(stamp + 1000, data) for stamp, data in self.packets]
        joined = later + self.packets
        status, lines, found = self.run_it(text_of(joined))
        self.assertEqual(
            (status, lines, found), (0, ["the time stamps go back far: the packets stay in their order"], joined)
        )


def serve_hold(width, height):
    from wokureti.session import runs

    return runs.last_packet(programs.find("vp8serve"), [f"blank 0 {width} {height}", "hold 1"])


class Second(RepairCase):
    def test_the_packet_with_the_same_time_stamp(self):
        packets = list(self.packets)
        packets[42] = (42, BROKEN)
        key = self.keys[2]
        packets[key] = (key, b"\x10\x00\x00" + packets[key][1][3:])
        del packets[60:63], packets[10]
        other = [(stamp + 500, data) for stamp, data in self.packets[5:]]
        other[20] = (other[20][0], BROKEN)
        status, lines, found = self.run_it(text_of(packets), second=text_of(other))
        self.assertEqual((status, found), (1, self.packets))
        self.assertEqual(
            lines[:3],
            [
                "the time stamps of the second recording differ by -500",
                "time stamp 10: 1 packet of the second recording inserted",
                "time stamps 60 to 62: 3 packets of the second recording inserted",
            ],
        )
        self.assertEqual(len(lines), 5)

    def test_two_halves(self):
        status, _, found = self.run_it(text_of(self.packets[:55], 100), second=text_of(self.packets[45:]))
        self.assertEqual((status, found), (1, self.packets))
        status, _, found = self.run_it(text_of(self.packets[45:]), second=text_of(self.packets[:50])[:-7])
        self.assertEqual((status, found), (1, self.packets))

    def test_damage_inside(self):
        packets = ivf.read_packets(CHECKS / "inside.ivf")[1]
        self.assertEqual([place for place in range(100) if packets[place] != self.packets[place]], [41])
        status, lines, found = self.run_it((CHECKS / "inside.ivf").read_bytes(), second=self.data)
        self.assertEqual((status, found), (1, self.packets))
        self.assertEqual(
            lines, ["packet 41: read past its end: the packet of the second recording with its time stamp, 41"]
        )

    def test_another_stream(self):
        (self.room / "second.ivf").write_bytes(SMALL.read_bytes())
        status, _, errors = command("repair", CLEAN, self.room / "out.ivf", "-y", "--second", self.room / "second.ivf")
        self.assertEqual((status, "no packet of the second recording" in errors), (2, True))
        self.assertFalse((self.room / "out.ivf").exists())


class Records(RepairCase):
    """Files whose records do not follow each other."""

    def places(self):
        place, found = 32, []
        for _, data in self.packets:
            found.append(place)
            place += 12 + len(data)
        return [*found, place]

    def recovered(self, data, *words):
        """How many packets are found as they were; a frame is served for each."""
        status, lines, packets = self.run_it(data, *words)
        self.assertEqual(status, 1, lines)
        self.assertTrue(lines)
        return sum(packet in self.packets for packet in packets)

    def test_each_header_that_is_lost(self):
        places = self.places()
        for place in (0, 1, 40, 41, 98):
            for change in (
                bytes(12),
                b"\xff" * 12,
                b"\xff\xff\xff\x7f" + self.data[places[place] + 4 : places[place] + 12],
            ):
                data = self.data[: places[place]] + change + self.data[places[place] + 12 :]
                found, gaps = salvage.find(data)[1:]
                lost = set(self.packets) - {(packet.stamp, packet.data) for packet in found}
                self.assertEqual(
                    (lost, [gap.start for gap in gaps]), ({self.packets[place]}, [places[place]]), (place, change)
                )
                self.assertEqual([gap.end for gap in gaps], [places[place + 1]])

    def test_bytes_inserted_and_missing(self):
        choose = random.Random(3)
        places = self.places()
        for _ in range(40):
            number = choose.randrange(100)
            at = choose.randrange(places[number], places[number + 1])
            count = choose.randrange(1, 200)
            for data, lost in (
                (self.data[:at] + choose.randbytes(count) + self.data[at:], 1),
                (self.data[:at] + self.data[at + count :], 3 + count // 20),
            ):
                found = {(packet.stamp, packet.data) for packet in salvage.find(data)[1]}
                self.assertLessEqual(len(set(self.packets) - found), lost, (number, at, count))

    def test_zeros(self):
        for at in range(40, len(self.data) - 600, 311):
            data = self.data[:at] + bytes(512) + self.data[at + 512 :]
            found = {(packet.stamp, packet.data) for packet in salvage.find(data)[1]}
            places = self.places()
            hit = sum(places[n] < at + 512 and places[n + 1] > at for n in range(100))
            self.assertEqual(len(set(self.packets) - found), hit, at)

    def test_the_file_is_mended(self):
        places = self.places()
        at = places[20] + 5
        zeros = self.data[:at] + bytes(300) + self.data[at + 300 :]
        self.assertGreater(self.recovered(zeros), 70)
        status, lines, packets = self.run_it(zeros)
        self.assertEqual([stamp for stamp, _ in packets], list(range(100)))
        self.assertRegex(lines[0], r"^byte \d+: \d+ bytes after packet 19 lead to no record: read on at byte \d+$")
        self.assertEqual(self.run_it(zeros, second=self.data)[2], self.packets)
        self.assertLess(self.recovered(self.data[:at] + bytes(len(self.data) - at), "--no-hold"), 40)

    def test_the_end(self):
        places = self.places()
        for data in (
            self.data[: places[80] + 20],
            self.data[: places[80] + 5],
            self.data[: places[80]] + bytes(2000),
            self.data[: places[80]] + bytes(1999),
        ):
            status, lines, packets = self.run_it(data)
            self.assertEqual((status, packets), (1, self.packets[:80]))
            self.assertIn("dropped", lines[0])

    def test_the_header(self):
        data = bytes(512) + self.data[512:]
        status, lines, packets = self.run_it(data)
        self.assertEqual(
            (status, lines[0]),
            (1, "the header is lost: the size is the first key packet's, the rate 30 frames a second"),
        )
        self.assertTrue(set(packets) <= set(self.packets))
        self.assertEqual(ivf.read_packets(self.room / "out.ivf")[0], ivf.Head(*ivf.key_size(self.packets[0][1]), 30, 1))
        status, _, errors = command(
            "repair", self.room / "in.ivf", self.room / "out.ivf", "-y", "--edits", self.room / "list"
        )
        self.assertEqual((status, "no list of edits" in errors), (2, True))
        self.assertEqual(command("repair", self.room / "in.ivf", self.room / "out.ivf", "-y", "--no-scan")[0], 2)

    def test_random_damage_ends(self):
        choose = random.Random(5)
        for turn in range(150):
            data = bytearray(self.data)
            for _ in range(choose.randrange(1, 6)):
                at, count = choose.randrange(len(data)), choose.randrange(1, 400)
                data[at : at + count] = choose.choice(
                    [b"", bytes(count), choose.randbytes(count), bytes(data[at : at + count]) * 2]
                )
            head, packets, gaps = salvage.find(bytes(data))
            for packet in packets:
                self.assertEqual(
                    data[packet.place : packet.place + 12 + len(packet.data)], record(packet.stamp, packet.data)
                )
            pieces = sorted(
                [(packet.place, packet.place + 12 + len(packet.data)) for packet in packets]
                + [(gap.start, gap.end) for gap in gaps]
            )
            # The packets and the gaps are the whole file after the header, once each.
            place = 32 if head else 0
            for start, end in pieces:
                self.assertEqual((place, end > start), (start, True), turn)
                place = end
            self.assertEqual(place, len(data))


class Commands(RepairCase):
    def test_what_is_no_stream(self):
        out = self.room / "out.ivf"
        for data in (
            b"",
            b"text" * 100,
            bytes(100000),
            text_of([]),
            random.Random(1).randbytes(100000),
            b"\x1a\x45\xdf\xa3",
        ):
            (self.room / "in").write_bytes(data)
            status, text, errors = command("repair", self.room / "in", out, "-y", env={"PATH": "/nowhere"})
            self.assertEqual((status, text, bool(errors)), (2, b"", True))
        self.assertEqual(command("repair", self.room / "none", out, "-y")[0], 2)
        self.assertFalse(out.exists())

    def test_the_output_is_no_input(self):
        path = self.room / "in.ivf"
        path.write_bytes(self.data)
        os.link(path, self.room / "link")
        for words in (
            [path, path],
            [path, self.room / "link"],
            [SMALL, path, "--second", path],
            [path, self.room / "x", "--edits", path],
            [path, self.room / "x", "--edits", self.room / "x"],
        ):
            status, _, errors = command("repair", *words, "-y")
            self.assertEqual((status, "file" in errors), (2, True))
        self.assertEqual((path.read_bytes(), (self.room / "x").exists()), (self.data, False))

    def test_an_exception_is_no_result(self):
        for words in (["cat", SMALL], ["repair", SMALL, self.room / "out"], ["compare", SMALL, SMALL]):
            code = (
                "import sys; from wokureti import commands; commands.programs.find = lambda name: 1 / 0;"
                f" sys.exit(commands.main({[str(word) for word in words]}))"
            )
            process = start_python(
                "-c", code, stdout=subprocess.PIPE, stderr=subprocess.PIPE, env={"TMPDIR": str(self.room)}
            )
            out, errors = process.communicate(timeout=20)
            self.assertEqual((process.returncode, out), (70, b""), words)
            found = re.fullmatch(
                r"wokureti: a mistake of wokureti itself: ZeroDivisionError: division by zero; the rest is in (.*)\n",
                errors.decode(),
            )
            self.assertIn("Traceback", pathlib.Path(found.group(1)).read_text())


class Long(Case):
    def test_each_packet_is_checked_once_and_again_with_what_is_mended(self):
        """A stream of any length is checked once in parts, and then those parts whose packets were changed; it is
        listed so too.
        """
        for turns in (8, 16, 32):
            # Two packets of a clip are mended, and damage inside another one stays.
            packets = list(enumerate(turns * packets_of(CLEAN)))
            length = len(packets) // turns
            for place in (20, 3 * length + 10):
                packets[place] = (place, packets[place][1][:2])
            inside = bytearray(packets[-5][1])
            inside[len(inside) // 2 :] = bytes(255 - value for value in inside[len(inside) // 2 :])
            packets[-5] = (packets[-5][0], bytes(inside))
            data, checked, listed, run = (
                b"".join(ivf.pieces(ivf.Head(16, 16, 30, 1), len(packets), packets)),
                [],
                [],
                subprocess.run,
            )

            def counted(words, *given, **more):
                if words[1] != "-":
                    with open(words[1], "rb") as file:
                        (checked if "--check" in words else listed).append(len(ivf.read_index(file.fileno())[1]))
                return run(words, *given, **more)

            with (
                mock.patch.object(repair, "PART", 1),
                mock.patch.object(repair, "LEAST_PART", length),
                mock.patch.object(repair.facts.subprocess, "run", counted),
            ):
                found = repair.repair(data, programs.find("vp8serve"), programs.find("vp8list"))
            self.assertGreater(found.changes, 0)
            self.assertGreater(found.left, 0)
            overlap, again = repair.OVERLAP * len(checked), 6 * length
            self.assertGreater(len(checked), turns // 2)
            self.assertLessEqual(sum(checked), len(packets) + overlap + again, (turns, checked))
            self.assertLessEqual(sum(listed), len(packets) + again, (turns, listed))

    def test_a_guess_is_tried_on_its_group_of_pictures(self):
        """Bytes are lost in several packets of a long stream: what the records around them may be is tried without
        checking the whole again.
        """
        data, turns = packets_of(CLEAN), 20
        packets = list(enumerate(turns * data))
        text, places, place = bytearray(b"".join(ivf.pieces(ivf.Head(16, 16, 30, 1), len(packets), packets))), [], 32
        for _, one in packets:
            places.append(place)
            place += 12 + len(one)
        for turn in range(9, 3, -1):
            number = turn * 2 * len(data) + 5
            middle = places[number] + 12 + len(packets[number][1]) // 2
            del text[middle : middle + 9]
        checked, run = [], subprocess.run

        def counted(words, *given, **more):
            if "--check" in words:
                with open(words[1], "rb") as file:
                    checked.append(len(ivf.read_index(file.fileno())[1]))
            return run(words, *given, **more)

        with mock.patch.object(repair.facts.subprocess, "run", counted):
            found = repair.repair(bytes(text), programs.find("vp8serve"), programs.find("vp8list"))
        self.assertEqual((found.left, len(found.packets)), (0, len(packets)))
        self.assertGreater(len(checked), 4)
        # Those of the guesses, and the whole before and after it is mended.
        self.assertLessEqual(sum(checked), 3 * len(packets), checked)


class NoKeyFrames(RepairCase):
    LIMIT = 120

    def broken(self, *others):
        """The stream without a sound key frame."""
        packets = list(self.packets)
        for key in self.keys:
            packets[key] = (key, b"\x10" + packets[key][1][1:3] + b"\0\0\0" + packets[key][1][6:])
        for place in others:
            packets[place] = (place, BROKEN)
        return packets

    def test_there_is_nothing_to_mend_from(self):
        for packets in (
            self.broken(),
            self.broken(50),
            [packet for packet in self.broken() if not ivf.is_key(packet[1])],
            [(0, b"")] * 3,
        ):
            (self.room / "in.ivf").write_bytes(text_of(packets))
            status, out, errors = command("repair", self.room / "in.ivf", self.room / "out.ivf", "-y")
            self.assertEqual((status, out, (self.room / "out.ivf").exists()), (2, b"", False))
            self.assertIn("no key frame survives", errors)
            self.assertNotIn("Traceback", errors)
        # Without holding, the packets are written, and the status says that they are damaged.
        (self.room / "in.ivf").write_bytes(text_of(self.broken()))
        status, out, _ = command("repair", self.room / "in.ivf", self.room / "out.ivf", "-y", "--no-hold")
        self.assertEqual((status, b"not repaired" in out), (2, True))

    def test_the_second_recording_has_them(self):
        status, _, found = self.run_it(text_of(self.broken()), second=self.data)
        self.assertEqual((status, found), (1, self.packets))

    def test_the_status_is_what_the_check_says(self):
        choose, statuses = random.Random(47), set()
        for turn in range(60):
            packets = list(self.packets[: choose.choice([30, 100])])
            for _ in range(choose.randrange(1, 9)):
                at = choose.randrange(len(packets))
                stamp, data = packets[at]
                cut = choose.randrange(len(data) + 1)
                packets[at] = choose.choice(
                    [
                        (stamp, data[:cut]),
                        (stamp, BROKEN),
                        (stamp, bytes(len(data))),
                        (stamp, choose.randbytes(len(data))),
                        (0, data),
                        (stamp, data[:cut] + choose.randbytes(3) + data[cut + 3 :]),
                    ]
                )
            if choose.random() < 0.2:
                packets = [packet for packet in packets if not ivf.is_key(packet[1])]
            data = bytearray(text_of(packets))
            if choose.random() < 0.3:
                at = choose.randrange(len(data))
                data[at : at + 40] = choose.randbytes(choose.randrange(80))
            out = self.room / "out.ivf"
            out.unlink(missing_ok=True)
            (self.room / "in.ivf").write_bytes(data)
            status, _, errors = command("repair", self.room / "in.ivf", out, "-y")
            self.assertIn(status, (0, 1, 2), errors)
            self.assertNotIn("Traceback", errors)
            statuses.add(status)
            if not out.exists():
                self.assertEqual(status, 2)
                continue
            is_damaged = subprocess.run(
                [programs.find("vp8list"), out, "--check"], capture_output=True, check=False
            ).returncode
            self.assertEqual(status == 2, bool(is_damaged), turn)
        self.assertEqual(statuses, {1, 2})


class Sizes(RepairCase):
    """Records whose sizes are wrong, while all bytes are there."""

    LIMIT = 40

    def wrong(self, changes):
        places, place = [], 32
        for _, data in self.packets:
            places.append(place)
            place += 12 + len(data)
        text = bytearray(self.data)
        for number, size in changes.items():
            text[places[number] : places[number] + 4] = struct.pack("<I", size(len(self.packets[number][1])))
        return bytes(text)

    def test_the_packets_are_found(self):
        for size in (
            lambda size: size + 5,
            lambda size: size - 7,
            lambda size: size + 100000,
            lambda size: 0x7FFFFFFF,
            lambda size: 0,
            lambda size: size // 2,
        ):
            for numbers in ((20,), (self.keys[1],), (10, 50, 90)):
                status, lines, found = self.run_it(self.wrong({number: size for number in numbers}))
                self.assertEqual((status, found), (1, self.packets), (numbers, size(100), lines))
                self.assertEqual([line.split(":")[0] for line in lines], [f"packet {number}" for number in numbers])
                self.assertIn("is wrong", lines[0])

    def test_bytes_that_do_not_belong_to_a_packet_are_not_taken(self):
        place = 32 + sum(12 + len(data) for _, data in self.packets[:30])
        status, lines, found = self.run_it(self.data[:place] + bytes(range(1, 90)) + self.data[place:])
        self.assertEqual((status, found), (1, self.packets))
        self.assertIn("lead to no record", lines[0])


class Parts(RepairCase):
    """A long stream, which is listed and checked in parts."""

    LIMIT = 60

    def mended(self, data, **sizes):
        said = []
        with mock.patch.multiple(repair, **{"PART": repair.PART, **sizes}):
            found = repair.repair(data, programs.find("vp8serve"), programs.find("vp8list"), stage=said.append)
        return (
            found.lines,
            found.changes,
            found.left,
            [(packet.stamp, bytes(packet.data)) for packet in found.packets],
        ), said

    def test_as_in_one_piece(self):
        choose = random.Random(11)
        packets = [
            (100 * turn + place, data)
            for turn in range(6)
            for place, data in enumerate(data for _, data in self.packets)
        ]
        keys = [place for place, (_, data) in enumerate(packets) if ivf.is_key(data)]
        cases = {
            "clean": packets,
            "two bytes": [(stamp, data[:2] if stamp == 333 else data) for stamp, data in packets],
            "twice": packets[:250] + packets[249:],
        }
        cases["hole before a key"], cases["hole after a key"] = (
            packets[: keys[7] - 1] + packets[keys[7] :],
            packets[: keys[8] + 1] + packets[keys[8] + 2 :],
        )
        cases["late"] = packets[:199] + [packets[200], packets[199]] + packets[201:]
        # Holes at one place and at several: the steps are constant but for one place, or not; and packets that come
        # twice with their time stamps.
        for turn in range(12):
            gone = {choose.randrange(600) for _ in range(choose.choice([1, 1, 2, 3]))}
            again = {choose.randrange(600) for _ in range(choose.choice([0, 1, 2]))}
            cases[f"holes {turn}"] = [
                packet for packet in packets for _ in range(1 + (packet[0] in again)) if packet[0] not in gone
            ]
        for turn in range(8):
            at = choose.randrange(600)
            cases[f"bytes {turn}"] = [
                (
                    stamp,
                    (
                        bytes(choose.randrange(256) if place > 20 else byte for place, byte in enumerate(data))
                        if stamp == at
                        else data
                    ),
                )
                for stamp, data in packets
            ]
        for name, found in cases.items():
            data = text_of(found)
            whole, said = self.mended(data)
            self.assertFalse([text for text in said if "parts" in text])
            parts, said = self.mended(data, PART=3000, LEAST_PART=40)
            self.assertEqual(parts, whole, name)
            self.assertGreater(
                len([text for text in said if re.search(r"checking .*, \d+ of \d+ parts", text)]),
                0 if name == "clean" else -1,
            )

    def test_a_long_file_is_never_in_memory(self):
        names = ("golden-references", "hidden-altref", "error-resilient")
        path = write_packets(
            self.room / "in.ivf", 540 * [data for name in names for data in packets_of(DATA / f"{name}.ivf")]
        )
        code = """
import resource, sys
from wokureti import commands
from wokureti.tools import repair
repair.PART, commands.LEAST_MAPPED = 4 << 20, int(sys.argv[1])
resource.setrlimit(resource.RLIMIT_DATA, (105 << 20, 105 << 20))
sys.exit(commands.main(["repair", *sys.argv[2:]]))
"""
        # A file of 47 MB that is read as a whole does not fit, next to Python and its threads.
        for least, wanted in ((1 << 40, 70), (0, 0)):
            process = start_python(
                "-c",
                code,
                least,
                path,
                self.room / "out.ivf",
                stdout=subprocess.DEVNULL,
                stderr=subprocess.PIPE,
                env={"TMPDIR": str(self.room)},
            )
            errors = process.communicate(timeout=50 * SLOW)[1].decode()
            self.assertEqual((process.returncode, errors if not wanted else ""), (wanted, ""))
        self.assertEqual((self.room / "out.ivf").stat().st_size, path.stat().st_size)

    def test_a_mapped_file_is_read_as_any(self):
        data = self.data[:9000] + bytes(512) + self.data[9512:]
        (self.room / "in.ivf").write_bytes(data)
        with mock.patch.object(commands, "LEAST_MAPPED", 0):
            mapped = commands.read_all(self.room / "in.ivf")
        self.assertIsInstance(mapped, mmap.mmap)
        self.assertEqual(self.mended(mapped)[0], self.mended(data)[0])


class Differences(unittest.TestCase):
    def test_packets_of_a_second_recording_are_copied(self):
        one = [(0, b"a" * 20), (1, b"b" * 20), (2, b"c" * 20), (3, b"d")]
        other = [(0, b"a" * 20), (1, b"x" * 20), (2, b"c" * 20), (3, b"y"), (4, b"z" * 20)]
        theirs = {packet: index + 5 for index, packet in enumerate(other)}
        self.assertEqual(edits_between(one, other, theirs), ["copy 1 6 1", "delete 2", "replace 3 79", "copy 1 9 4"])

    def test_edits_make_one_list_of_another(self):
        choose = random.Random(8)
        for _ in range(300):
            one = [(choose.randrange(4), bytes([choose.randrange(3)])) for _ in range(choose.randrange(12))]
            other = [(choose.randrange(4), bytes([choose.randrange(3)])) for _ in range(choose.randrange(12))]
            packets = list(one)
            for line in edits_between(one, other):
                word, at, *rest = line.split(" ")
                at = int(at)
                if word == "delete":
                    del packets[at]
                elif word == "replace":
                    packets[at] = (packets[at][0], bytes.fromhex(rest[0]))
                else:
                    packets.insert(at, (int(rest[0]), bytes.fromhex(rest[1])))
            self.assertEqual(packets, other)
        self.assertEqual(edits_between([(1, b"a"), (2, b"b")], [(1, b"a"), (2, b"c")]), ["replace 1 63"])
        self.assertEqual(edits_between([(1, b"a")], [(1, b"a"), (2, b"")]), ["insert 1 2 -"])


if __name__ == "__main__":
    unittest.main()
