"""The list of edits, undo and redo, and the packets as the client knows them."""

import errno
import json
import os
import random
import signal
import subprocess
import sys
import threading
import unittest
from unittest import mock

from support import DATA, ODD, SLOW, SMALL, TOP, Case, list_of, packets_of, process_of, serve, write_packets
from wokureti import Ended, Refused, Script, Session, Unexported
from wokureti.errors import OtherStream
from wokureti.base import programs
from wokureti.media import ivf
from wokureti.session import edit_files
from wokureti.session.contents import Contents

HIDDEN = DATA / "hidden-altref.ivf"


def random_edit(choose, stream, sources):
    """Makes an edit that may be refused, of two or more sources."""
    count = stream.count().packets
    at = choose.randrange(count + 2)
    data = choose.choice([b"", b"\x11\x00", bytes(10), packets_of(SMALL)[choose.randrange(12)], packets_of(ODD)[0]])
    return choose.choice(
        [
            lambda: stream.insert(at, data, choose.randrange(1 << 64)),
            lambda: stream.replace(at, data),
            lambda: stream.delete(at),
            lambda: stream.delete(range(at, at + choose.randrange(3))),
            lambda: stream.move(at, choose.randrange(count + 1)),
            lambda: stream.copy(choose.randrange(sources + 1), choose.randrange(14), at),
            lambda: stream.blank(at, choose.randrange(34), 17),
            lambda: stream.hold(at),
            lambda: stream.hide(at),
            lambda: stream.show(at),
            lambda: stream.use(choose.randrange(sources + 1)),
            lambda: stream.script(Script().trim(0, choose.randrange(5), 100)),
        ]
    )


def edit(choose, stream, sources):
    try:
        random_edit(choose, stream, sources)()
    except Refused:
        pass


def state(stream, sources):
    """The packets of all sources with their stamps, the current source and the number of frames, as the client and the
    program say.
    """
    contents = stream.edits.contents()
    known = [
        [(contents.packet(n, s).stamp, contents.packet(n, s).bytes()) for n in range(len(contents.streams[s]))]
        for s in range(sources)
    ]
    return known, contents.current, contents.script, stream.count()


class Undo(Case):
    LIMIT = 40

    def test_a_packet_is_hidden_and_shown(self):
        packets = packets_of(SMALL)
        with self.session() as stream:
            pictures = [stream.frame(n).i420() for n in range(12)]
            self.assertEqual(stream.hide(3), 12)
            hidden = bytes([packets[3][0] & 0xEF]) + packets[3][1:]
            self.assertEqual(stream.packet(3), hidden)
            self.assertEqual(stream.request("packet 3").split()[2], hidden.hex())
            self.assertEqual(
                [stream.frame(n).i420() for n in range(stream.count().frames)], pictures[:3] + pictures[4:]
            )
            self.assertEqual(stream.undo(), ["hide 3"])
            self.assertEqual([stream.frame(n).i420() for n in range(12)], pictures)
            self.assertEqual(stream.redo(), ["hide 3"])
            self.assertEqual(stream.show(3), 12)
            self.assertEqual([stream.packet(n) for n in range(12)], packets)
            self.assertEqual(stream.request("script"), "script -")
            self.assertEqual(list(stream.edits), ["hide 3", "show 3"])
            stream.replace(0, b"\1")
            with self.assertRaises(Refused) as refused:
                stream.hide(0)
            self.assertEqual(refused.exception.word, "NoBit")

    def test_an_edit_is_taken_back_and_made_again(self):
        packets = packets_of(SMALL)
        with self.session() as stream:
            pictures = [stream.frame(n).i420() for n in range(12)]
            self.assertEqual((stream.undo(), stream.redo()), ([], []))
            stream.delete(3)
            stream.replace(0, b"\1")
            with self.assertRaises(Refused):
                stream.frame(0)
            self.assertEqual(stream.undo(), ["replace 0 01"])
            self.assertEqual(stream.edits.undone, ["replace 0 01"])
            self.assertEqual(stream.undo(), ["delete 3"])
            self.assertEqual([stream.packet(n) for n in range(12)], packets)
            self.assertEqual([stream.frame(n).i420() for n in range(12)], pictures)
            self.assertEqual(stream.redo(), ["delete 3"])
            self.assertEqual(stream.count().packets, 11)
            stream.move(0, 1)
            self.assertEqual((stream.redo(), list(stream.edits)), ([], ["delete 3", "move 0 1"]))

    def test_a_range_is_one_step(self):
        with self.session() as stream:
            stream.delete(range(2, 5))
            stream.delete(0)
            self.assertEqual(stream.undo(), ["delete 0"])
            self.assertEqual(stream.undo(), ["delete 4", "delete 3", "delete 2"])
            self.assertEqual([stream.packet(n) for n in range(12)], packets_of(SMALL))
            self.assertEqual(stream.redo(), ["delete 4", "delete 3", "delete 2"])
            self.assertEqual(stream.count().packets, 9)

    def test_the_source_goes_with_the_edit(self):
        with self.session(sources=[ODD]) as stream:
            stream.delete(0)
            stream.use(1)
            stream.delete(0)
            stream.use(0)
            self.assertEqual(stream.undo(), ["delete 0", "use 0"])
            self.assertEqual(stream.count().packets, 12)
            self.assertEqual(stream.undo(), ["delete 0", "use 1"])
            self.assertEqual(stream.packet(0), packets_of(SMALL)[0])
            self.assertEqual(stream.redo(), ["delete 0", "use 1"])
            self.assertEqual(stream.packet(0), packets_of(ODD)[0])

    def test_two_hundred_random_edits(self):
        choose = random.Random(56)
        with self.session(sources=[ODD, "-"], cache=8) as stream:
            states = {0: state(stream, 3)}
            while len(stream.edits) < 200:
                edit(choose, stream, 2)
                if choose.random() < 0.2:
                    for _ in range(choose.randrange(4)):
                        stream.undo()
                    for _ in range(choose.randrange(4)):
                        stream.redo()
                now = state(stream, 3)
                self.assertEqual(now, states.setdefault(stream.edits.text(), now))
            lines = list(stream.edits)
            end = state(stream, 3)
            while stream.undo():
                pass
            self.assertEqual(state(stream, 3), states[0])
            while stream.redo():
                pass
            self.assertEqual((list(stream.edits), state(stream, 3)), (lines, end))
            self.assertSame(stream, end)

    def assertSame(self, stream, end):
        """A new session that makes the edits of the list has the same packets, frames and refusals."""
        room = self.folder()
        stream.edits.save(room / "list")
        with self.session(sources=[ODD, "-"], edits=room / "list", cache=1) as fresh:
            self.assertEqual(state(fresh, 3), end)
            for number in range(fresh.count().frames + 1):
                found = []
                for one in (stream, fresh):
                    try:
                        found.append(one.frame(number).i420())
                    except Refused as refused:
                        found.append(refused.reply)
                # The first frame that a session served fixes the size.
                if not any(reply == "refused SizeDiffers" for reply in found):
                    self.assertEqual(found[0], found[1])
        serve(SMALL, stream.edits, "--sources", f"{ODD}:-", "--save", room / "batch.ivf")
        stream.save(room / "now.ivf")
        self.assertEqual((room / "now.ivf").read_bytes(), (room / "batch.ivf").read_bytes())

    def test_undo_that_is_refused_changes_nothing(self):
        with self.session() as stream:
            stream.delete(range(2, 5))
            stream.undo()
            stream.redo()
            before = state(stream, 1)
            real = stream.request_all

            def request_all(lines, timeout=None, progress=None):
                lines = list(lines)
                # The second one is refused, and the third one, which was sent with it, is made.
                return [*real(lines[:1]), Refused("refused NoMemory"), *real(lines[2:])]

            stream.request_all = request_all
            with self.assertRaises(Refused):
                stream.undo()
            del stream.request_all
            self.assertEqual(state(stream, 1), before)
            self.assertEqual(stream.undo(), ["delete 4", "delete 3", "delete 2"])
            self.assertEqual([stream.packet(n) for n in range(12)], packets_of(SMALL))


class LargeSteps(Case):
    LIMIT = 40

    def many(self, count):
        """A stream of a key packet and many that repeat it."""
        with self.session("-") as stream:
            stream.blank(0, 16, 16)
            stream.hold(1)
            key, hold = stream.packet(0), stream.packet(1)
        return write_packets(self.folder() / "many.ivf", [key] + (count - 1) * [hold])

    def test_edits_together_are_those_of_each_alone(self):
        choose, path = random.Random(5), self.many(300)
        for _ in range(40):
            lines, count = [], 300
            while len(lines) < 60:
                at, times = choose.randrange(1, count - 20), choose.choice((1, 1, 2, 9))
                word = choose.choice(("delete", "delete", "hold", "insert", "move"))
                rest = {
                    "insert": f" {choose.randrange(9)} {choose.choice(('-', '1100', SMALL.read_bytes()[44:60].hex()))}",
                    "move": f" {choose.randrange(count)}",
                }.get(word, "")
                lines += times * [f"{word} {at}{rest}"]
                count += times * {"delete": -1, "move": 0}.get(word, 1)
            one, other = (self.session(path).edits.contents() for _ in range(2))
            start = list(one.streams[0])
            inverses = [one.apply(line) for line in lines]
            self.assertEqual(other.apply_all(lines), inverses)
            self.assertEqual(one.streams, other.streams)
            again = [one.perform(operation) for operation in reversed(inverses)]
            self.assertEqual(other.perform_all(list(reversed(inverses))), again)
            self.assertEqual(list(other.streams[0]), start)
            self.assertEqual(one.streams, other.streams)

    def test_a_large_step_of_a_long_stream_moves_its_packets_together(self):
        stream, alone = self.session(self.many(1 << 20)), []
        contents = stream.edits.contents()
        for name in ("apply", "perform"):
            real = getattr(Contents, name)
            patch = mock.patch.object(Contents, name, lambda *given, real=real: alone.append(given[1]) or real(*given))
            patch.start()
            self.addCleanup(patch.stop)
        start = list(contents.streams[0])
        stream.edits.run_step(10000 * ["delete 1000"])
        self.assertEqual(list(contents.streams[0]), start[:1000] + start[11000:])
        stream.undo()
        self.assertEqual(list(contents.streams[0]), start)
        self.assertEqual(alone, [])

    def test_ten_thousand_edits_are_sent_together(self):
        stream = self.session(self.many(12000), edits=self.folder() / "list")
        real, calls = stream._pipes.exchange, []
        stream._pipes.exchange = lambda lines, deadline: calls.append(len(lines)) or real(lines, deadline)
        stream.delete(range(100, 10100))
        self.assertEqual(stream.count().packets, 2000)
        self.assertEqual(len(stream.undo()), 10000)
        self.assertEqual(stream.count().packets, 12000)
        self.assertEqual(len(stream.redo()), 10000)
        self.assertEqual(stream.count().packets, 2000)
        self.assertLess(len(calls), 300)

    def test_a_step_that_is_refused_in_the_middle(self):
        stream = self.session()
        stream.delete(0)
        stream.undo()
        before = state(stream, 1)
        # Those after the refused one are sent with it.
        for lines in (
            ["delete 3", "delete 99", "delete 0", "hold 2", "move 0 5"],
            ["delete 3"] * 9 + ["hold 9"] + ["delete 0"] * 3,
            ["use 1", "delete 0"],
            ["delete 3", "delete 3", "move 0 99999999999999999999"],
        ):
            with self.assertRaises(Refused):
                stream.edits.run_step(lines)
            self.assertEqual((state(stream, 1), list(stream.edits), stream.edits.undone), (before, [], ["delete 0"]))

    def test_a_step_of_one_line_that_goes_past_the_end_is_refused(self):
        stream = self.session()
        with self.assertRaises(Refused):
            stream.edits.run_step(10 * ["delete 5"])
        self.assertEqual((list(stream.edits), stream.count().packets), ([], 12))
        room = self.folder()
        (room / "list").write_text(10 * "delete 5\n")
        with self.assertRaisesRegex(ValueError, "line 8: delete 5: refused Place"):
            self.session(edits=room / "list")

    def test_an_edit_is_followed_once(self):
        lines = [line for at in range(1, 200, 2) for line in (f"hold {at + 2}", f"delete {at}", f"move {at} {at + 1}")]
        path, room = self.many(300), self.folder()
        (room / "list").write_text("".join(f"{line}\n" for line in lines))
        real, counted = Contents.apply, []

        def apply(contents, line, *more):
            counted.append(line)
            return real(contents, line, *more)

        with mock.patch.object(Contents, "apply", apply):
            stream = self.session(path, edits=room / "list")
            stream.edits.contents()
            self.assertEqual(counted, lines)
            for make in (stream.undo, stream.redo, stream.undo):
                counted.clear()
                self.assertTrue(make())
                self.assertLessEqual(len(counted), len(lines))
            while stream.undo():
                pass
            counted.clear()
            stream.edits.run_step(lines)
            self.assertEqual(counted, lines)
            for line in ("delete 5", "replace 5 -", "hide 3", "script trim 0 0 5"):
                counted.clear()
                stream.request(line)
                self.assertEqual(counted, [line])
        self.assertNumbers(stream)

    def assertNumbers(self, stream):
        """The packets by their numbers are those of the program."""
        contents = stream.edits.contents()
        for source, packets in enumerate(contents.streams):
            self.assertEqual(len(packets), len(stream.packets(source=source)))
            known = list(zip(map(contents.stamp, packets), contents.data(packets)))
            self.assertEqual(
                known,
                [(contents.packet(n, source).stamp, contents.packet(n, source).data) for n in range(len(packets))],
            )

    def test_random_steps_of_which_some_are_refused(self):
        choose, refused = random.Random(71), 0
        stream = self.session(sources=[ODD])
        for turn in range(120):
            lines = []
            for _ in range(choose.choice((1, 2, 3, 12))):
                at = choose.randrange(14)
                lines += choose.choice((1, 1, 1, 4)) * [
                    choose.choice(
                        (f"delete {at}", f"hold {at}",
                         f"replace {at} {choose.choice(('-', '1100', '0102030405'))}",
                         f"hide {at}", f"show {at}", f"move {at} {choose.randrange(12)}",
                         f"copy {choose.randrange(2)} {choose.randrange(12)} {at}",
                         f"blank {at} {choose.randrange(20)} 16", f"use {choose.randrange(2)}",
                         "script trim 0 0 9")
                    )
                ]  # fmt: skip
            before = state(stream, 2), list(stream.edits)
            try:
                stream.edits.run_step(lines)
            except Refused:
                refused += 1
                self.assertEqual((state(stream, 2), list(stream.edits)), before, lines)
            self.assertNumbers(stream)
            if turn % 3 == 0:
                stream.undo()
                self.assertNumbers(stream)
            if turn % 6 == 0:
                stream.redo()
                self.assertNumbers(stream)
        self.assertGreater(refused, 10)
        while stream.undo():
            pass
        self.assertEqual(
            [[stream.packet(n, source) for n in range(12)] for source in range(2)], [packets_of(SMALL), packets_of(ODD)]
        )

    def test_a_list_that_is_refused_in_the_middle_is_known_as_far_as_it_was_made(self):
        room = self.folder()
        (room / "list").write_text("delete 3\nhold 5\ndelete 99\ndelete 5\n")
        stream = self.session()
        before = state(stream, 1)
        with self.assertRaisesRegex(ValueError, "line 3: delete 99"):
            stream.edits.run(room / "list")
        self.assertNumbers(stream)
        self.assertEqual(list(stream.edits)[:2], ["delete 3", "hold 5"])
        while stream.undo():
            pass
        self.assertEqual(state(stream, 1), before)

    def test_a_step_that_is_left_in_the_middle_is_not_known(self):
        stream = self.session(self.many(300))
        stream.delete(5)
        contents = stream.edits.contents()
        before = list(contents.streams[0])
        with mock.patch.object(stream._pipes, "exchange", side_effect=KeyboardInterrupt), self.assertRaises(
            KeyboardInterrupt
        ):
            stream.edits.run_step(["hold 3", "delete 9"] * 30)
        self.assertEqual((list(contents.streams[0]), list(stream.edits)), (before, ["delete 5"]))
        with self.assertRaises(Ended):
            stream.count()

    def test_the_reason_is_that_of_the_first_refusal(self):
        stream = self.session(explain=True)
        with self.assertRaises(Refused) as caught:
            stream.edits.run_step(["delete 3", "delete 99", "delete 98"])
        self.assertIn("packet 99", caught.exception.reason)
        self.assertEqual(stream.edits.run_step(["delete 3", "delete 3"]), "ok 10")


class Packets(Case):
    def test_packets_of_other_sources(self):
        with self.session(sources=[ODD]) as stream:
            self.assertEqual(stream.packet(3, source=1), packets_of(ODD)[3])
            for call in (lambda: stream.packet(12), lambda: stream.packet(0, source=2)):
                with self.assertRaises(IndexError):
                    call()
            stream.copy(1, 3, 0)
            self.assertEqual(stream.packet(0), packets_of(ODD)[3])

    def test_forged_packets(self):
        room = self.folder()
        with self.session("-", save=room / "out.ivf") as stream:
            stream.blank(0, 33, 17)
            stream.hold(1)
            stream.blank(2, 1, 1)
            stream.hold(3)
            stream.hold(2)
            found = [stream.packet(n) for n in range(5)]
        self.assertEqual(found, packets_of(room / "out.ivf"))

    def test_facts_are_those_of_vp8list(self):
        choose = random.Random(52)
        for clip in (SMALL, HIDDEN):
            stream = self.session(clip, sources=[ODD])
            for _ in range(12):
                for _ in range(3):
                    edit(choose, stream, 1)
                stream.use(0)
                path = self.folder() / "now.ivf"
                stream.save(path)
                done = subprocess.run(
                    [programs.find("vp8list"), path, "--json"], capture_output=True, timeout=20 * SLOW, check=True
                )
                expected = [json.loads(line) for line in done.stdout.splitlines()]
                self.assertEqual(stream.packets(), expected)
                self.assertEqual(
                    stream.packets(range(9, 2, -3)), [expected[n] for n in range(9, 2, -3) if n < len(expected)]
                )
            stream.close()

    def test_a_stream_that_does_not_begin_with_a_key_frame(self):
        with self.session() as stream:
            stream.delete(0)
            facts = stream.packets()
            self.assertEqual([facts[0]["cause"], facts[1]["cause"]], ["NoKeyFrame", "lost"])
            stream.blank(1, 7, 5)
            facts = stream.packets()
            self.assertEqual([facts[0]["cause"], facts[1]["cause"], facts[2]["cause"]], ["NoKeyFrame", None, None])

    def test_a_file_that_changes(self):
        path = self.folder() / "a.ivf"
        path.write_bytes(SMALL.read_bytes())
        with self.session(path) as stream:
            stream.packet(0)
            with open(path, "r+b") as file:
                file.write(b"XXXX")
            os.utime(path, (1, 1))
            with self.assertRaisesRegex(OSError, "was changed since"):
                stream.packet(0)
            self.assertEqual(stream.count().packets, 12)

    def test_a_file_that_is_replaced(self):
        room = self.folder()
        path = room / "a.ivf"
        path.write_bytes(SMALL.read_bytes())
        with self.session(path) as stream:
            (room / "b.ivf").write_bytes(ODD.read_bytes())
            os.replace(room / "b.ivf", path)
            self.assertEqual([stream.packet(n) for n in range(12)], packets_of(SMALL))

    def test_a_file_that_is_cut_off(self):
        path = self.folder() / "a.ivf"
        path.write_bytes(SMALL.read_bytes()[:-5])
        with self.session(path) as stream:
            self.assertEqual(stream.count().packets, 11)
            self.assertEqual([stream.packet(n) for n in range(11)], packets_of(SMALL)[:11])
            with self.assertRaises(IndexError):
                stream.packet(11)


def uneven(choose, path, clip, count):
    """Some packets of a clip with time stamps whose steps vary."""
    packets, stamp, found = packets_of(clip)[:count], 0, []
    for data in packets:
        found.append((stamp, data))
        stamp += choose.choice((1, 1, 1, 2, 7))
    with open(path, "wb") as file:
        file.writelines(ivf.pieces(ivf.Head(16, 16, 30, 1), len(found), found))
    return path


class Durations(Case):
    LIMIT = 240

    def written(self, stream, name):
        """The files of the packets of both sources with new time stamps, and of the frames."""
        found = []
        for source in range(2):
            stream.save(self.room / name, restamp=True, source=source)
            found.append((self.room / name).read_bytes())
        try:
            stream.export(self.room / name)
            found.append((self.room / name).read_bytes())
        except Unexported as error:
            found.append(str(error))
        return found

    def test_a_packet_that_is_there_again_has_its_own_duration(self):
        self.room = self.folder()
        path = self.room / "uneven.ivf"
        with open(path, "wb") as file:
            file.writelines(ivf.pieces(ivf.Head(176, 144, 30, 1), 5, zip((0, 1, 2, 9, 10), packets_of(SMALL))))
        stream = self.session(path)

        def stamps():
            stream.save(self.room / "out.ivf", restamp=True)
            return [stamp for stamp, _ in ivf.read_packets(self.room / "out.ivf")[1]]

        self.assertEqual(stamps(), [0, 1, 2, 9, 10])
        stream.delete(2)
        stream.undo()
        self.assertEqual(stamps(), [0, 1, 2, 9, 10])
        with self.assertRaises(Refused):
            stream.delete(range(1, 9))
        self.assertEqual(stamps(), [0, 1, 2, 9, 10])
        stream.export(self.room / "frames.ivf")
        self.assertEqual([stamp for stamp, _ in ivf.read_packets(self.room / "frames.ivf")[1]], [0, 1, 2, 9, 10])

    def test_five_hundred_random_sessions(self):
        """After undo and redo the files are those of a session that only made the edits that are left."""
        self.room = self.folder()
        for turn in range(500):
            choose = random.Random(f"durations {turn}")
            paths = [
                uneven(choose, self.room / f"{name}.ivf", clip, 8) for name, clip in (("one", SMALL), ("two", ODD))
            ]
            with Session(paths[0], sources=[paths[1]]) as stream:
                for _ in range(8):
                    edit(choose, stream, 1)
                    for _ in range(choose.randrange(3)):
                        choose.choice((stream.undo, stream.undo, stream.redo))()
                lines, found = list(stream.edits), self.written(stream, "found.ivf")
            with Session(paths[0], sources=[paths[1]]) as stream:
                for line in lines:
                    stream.request(line)
                self.assertTrue(found == self.written(stream, "wanted.ivf"), f"session {turn}: {lines}")


class Saving(Case):
    def test_as_the_program_saves(self):
        room = self.folder()
        for pad in (False, True):
            with self.session(save=room / "theirs.ivf", pad=pad) as stream:
                stream.hold(2)
                stream.blank(5, 7, 5)
                stream.insert(3, b"", 1 << 60)
                stream.save(room / "ours.ivf", pad=pad)
            self.assertEqual((room / "ours.ivf").read_bytes(), (room / "theirs.ivf").read_bytes())

    def test_links_and_pipes(self):
        room = self.folder()
        (room / "target.ivf").write_bytes(b"old")
        os.symlink(room / "target.ivf", room / "link.ivf")
        os.mkfifo(room / "pipe")
        with self.session() as stream:
            stream.save(room / "link.ivf")
            self.assertTrue((room / "link.ivf").is_symlink())
            self.assertEqual(packets_of(room / "target.ivf"), packets_of(SMALL))
            found = []
            reader = threading.Thread(target=lambda: found.append((room / "pipe").read_bytes()))
            reader.start()
            stream.save(room / "pipe")
            reader.join()
            self.assertEqual(found, [(room / "target.ivf").read_bytes()])

    def test_no_file_of_the_session(self):
        room = self.folder()
        path = room / "a.ivf"
        path.write_bytes(SMALL.read_bytes())
        os.symlink(path, room / "link.ivf")
        with self.session(path, sources=[path], edits=room / "list") as stream:
            for other in (path, room / "link.ivf", room / "list"):
                with self.assertRaisesRegex(ValueError, "of the session|list of the edits"):
                    stream.save(other)
        self.assertEqual(path.read_bytes(), SMALL.read_bytes())

    def test_a_full_disk(self):
        """No file of over 1,000 bytes can be written in this process."""
        room = self.folder()
        (room / "old.ivf").write_bytes(b"old")
        code = f"""
import os, resource, sys
from wokureti import Session
session = Session({str(SMALL)!r}, edits={str(room / "list")!r})
session.delete(0)
resource.setrlimit(resource.RLIMIT_FSIZE, (1000, 1000))
try:
    session.save({str(room / "old.ivf")!r})
except OSError as error:
    print("save", error.errno)
try:
    session.insert(0, bytes(600))
except OSError as error:
    print("list", error.errno)
    print(error)
print(session.count().packets, len(session.edits), session.edits.written,
      open({str(room / "list")!r}).read().split("\\n", 1)[1])
session.undo()
session.delete(1)
print(open({str(room / "list")!r}).read().split("\\n", 1)[1])
"""
        env = dict(os.environ, PYTHONPATH=str(TOP / "clients/python"))
        done = subprocess.run(
            [sys.executable, "-c", code], env=env, capture_output=True, text=True, timeout=20 * SLOW, check=False
        )
        lines = done.stdout.split("\n")
        self.assertEqual((done.stderr, lines[:2], lines[3:5]), ("", ["save 27", "list 27"], ["12 2 1 delete 0", ""]))
        self.assertEqual(
            lines[2],
            (
                f"{room / 'list'}: File too large: the last edit is made but not on the disk; the edit before it is"
                " safe. Free some space: the next edit writes all"
            ),
        )
        self.assertEqual(lines[5:], ["delete 0", "delete 1", "", ""])
        self.assertEqual((room / "old.ivf").read_bytes(), b"old")
        self.assertEqual(sorted(os.listdir(room)), ["list", "old.ivf"])


class Lists(Case):
    def test_the_file_has_each_edit(self):
        path = self.folder() / "list"
        stream = self.session(edits=path)
        self.assertEqual(path.read_text(), "")
        stream.delete(3)
        self.assertEqual(list_of(path), "delete 3\n")
        with self.assertRaises(Refused):
            stream.delete(30)
        stream.script("trim 0 0 5")
        stream.insert(0, b"\1\2", 7)
        self.assertEqual(list_of(path), "delete 3\nscript trim 0 0 5\ninsert 0 7 0102\n")
        stream.undo()
        self.assertEqual(list_of(path), "delete 3\nscript trim 0 0 5\n")
        stream.redo()
        self.assertEqual(path.read_text(), stream.edits.text())
        self.assertEqual(serve(SMALL, [*stream.edits, "count"])[-1], "packets 12 frames 5")

    def test_nothing_is_lost_with_the_program(self):
        path = self.folder() / "list"
        stream = self.session(engine="program", edits=path)
        stream.delete(3)
        stream.blank(0, 7, 5)
        known = state(stream, 1)
        os.kill(process_of(stream), signal.SIGKILL)
        with self.assertRaises(Ended):
            stream.delete(0)
        again = self.session(edits=path)
        self.assertEqual(state(again, 1), known)
        self.assertEqual(again.undo(), ["blank 0 7 5"])
        again.close()

    def test_a_file_written_by_a_person(self):
        path = self.folder() / "list"
        text = "# the broken one\r\n\n  delete   3  \r\nframe 0\ncount\nuse 0\n\n# the end\n"
        path.write_bytes(text.encode())
        with self.session(edits=path) as stream:
            self.assertEqual(list(stream.edits), ["delete 3", "use 0"])
            stream.delete(0)
            self.assertEqual(path.read_bytes().decode(), text + "delete 0\n")
            stream.undo()
            self.assertEqual(
                path.read_bytes().decode(), "# the broken one\r\n\n  delete   3  \r\nframe 0\ncount\nuse 0\n"
            )
            stream.redo()
            self.assertEqual(path.read_bytes().decode(), text + "delete 0\n")
            stream.undo()
            stream.undo()
            self.assertEqual((path.read_bytes(), stream.count().packets), (b"", 12))

    def test_a_list_of_another_stream(self):
        path = self.folder() / "list"
        path.write_text("delete 3\n\ndelete 99\ndelete 4\n")
        with self.assertRaisesRegex(ValueError, "line 3: delete 99: refused Place"):
            Session(SMALL, edits=path)
        self.assertEqual(path.read_text(), "delete 3\n\ndelete 99\ndelete 4\n")

    def test_a_list_that_is_cut_off(self):
        path = self.folder() / "list"
        path.write_text("delete 3\ndelete 1")
        with self.assertRaisesRegex(ValueError, "no newline"):
            Session(SMALL, edits=path)
        self.assertEqual(path.read_text(), "delete 3\ndelete 1")

    def noticed(self, stream):
        said = []
        stream.edits.on_notice = said.append
        return said

    def test_a_list_that_is_replaced_or_removed_while_it_is_open(self):
        def replace(path):
            (path.parent / "other").write_text("another list\n")
            os.replace(path.parent / "other", path)

        def append(path):
            with open(path, "a") as file:
                file.write("# a line of a person\n")

        for change, said, name in (
            (replace, "replaced by another file", "list.1"),
            (os.unlink, "removed", "list"),
            (append, "changed by another program", "list.1"),
        ):
            room = self.folder()
            stream = self.session(edits=room / "list")
            heard = self.noticed(stream)
            stream.delete(3)
            change(room / "list")
            theirs = (room / "list").read_text() if name != "list" else ""
            stream.delete(4)
            stream.delete(0)
            self.assertEqual(
                (list_of(room / name), stream.edits.path), ("delete 3\ndelete 4\ndelete 0\n", str(room / name))
            )
            self.assertEqual(len(heard), 1)
            self.assertIn(said, heard[0])
            self.assertIn(str(room / name), heard[0])
            # What somebody else wrote is as it was.
            self.assertEqual(theirs, (room / "list").read_text() if theirs else "")
            stream.close()
            self.assertEqual(list_of(room / name), "delete 3\ndelete 4\ndelete 0\n")

    def test_a_list_that_is_replaced_after_the_last_edit(self):
        room = self.folder()
        stream = self.session(edits=room / "list")
        heard = self.noticed(stream)
        stream.delete(3)
        os.unlink(room / "list")
        stream.close()
        self.assertEqual((list_of(room / "list"), len(heard)), ("delete 3\n", 1))

    def test_edits_that_are_not_on_the_disk_are_written_with_the_next(self):
        room = self.folder()
        stream = self.session(engine="program", edits=room / "list")
        stream.delete(3)
        with mock.patch.object(edit_files.EditFile, "write", side_effect=OSError(errno.ENOSPC, "full")):
            for turn in range(2):
                with self.assertRaisesRegex(
                    OSError,
                    (
                        f"list: No space left on device: the last {'edit is' if not turn else '2 edits are'} made but"
                        " not on the disk"
                    ),
                ):
                    stream.delete(0)
        self.assertEqual((list_of(room / "list"), len(stream.edits), stream.edits.written), ("delete 3\n", 3, 1))
        # They are not lost with the program either.
        os.kill(process_of(stream), signal.SIGKILL)
        with self.assertRaises(Ended):
            stream.count()
        again = self.session(resume=stream.edits)
        self.assertEqual((list(again.edits), again.count().packets), (["delete 3", "delete 0", "delete 0"], 9))
        self.assertEqual(list_of(room / "list"), "delete 3\ndelete 0\ndelete 0\n")
        self.assertEqual(again.undo(), ["delete 0"])
        self.assertEqual(list_of(room / "list"), "delete 3\ndelete 0\n")
        again.close()

    def test_steps_are_in_the_list(self):
        path = self.folder() / "list"
        stream = self.session(edits=path)
        stream.delete(11)
        stream.edits.run_step(["delete 2", "replace 1 -", "delete 2"], title="Repair\nall")
        stream.delete(range(3, 5))
        stream.hold(1)
        self.assertEqual(
            list_of(path),
            "delete 11\n# step 3 Repair all\ndelete 2\nreplace 1 -\ndelete 2\n# step 2\ndelete 4\ndelete 3\nhold 1\n",
        )
        text = path.read_text()
        stream.close()
        again = self.session(edits=path)
        self.assertEqual(again.edits.entries[1].title, "Repair all")
        for lines in (["hold 1"], ["delete 4", "delete 3"], ["delete 2", "replace 1 -", "delete 2"], ["delete 11"], []):
            self.assertEqual(again.undo(), lines)
        self.assertEqual([again.packet(n) for n in range(12)], packets_of(SMALL))
        while again.redo():
            pass
        self.assertEqual(path.read_text(), text)
        again.close()
        # A program that runs the list takes the comments for what they are.
        self.assertEqual(serve(SMALL, [*text.splitlines(), "count"])[-1], "packets 8 frames 8")

    def test_a_list_belongs_to_a_stream_and_not_to_a_name(self):
        room = self.folder()
        with self.session(edits=room / "list") as stream:
            stream.delete(3)
        text = (room / "list").read_text()
        with self.assertRaisesRegex(
            OtherStream,
            (
                "another stream: of one with 12 packets of 1,185 bytes, and this one has 12 packets of 11,204"
                " bytes.*--anyway"
            ),
        ):
            Session(ODD, edits=room / "list")
        data = packets_of(SMALL)
        data[5] = data[5][:-1] + bytes([data[5][-1] ^ 1])
        with self.assertRaisesRegex(OtherStream, "but others"):
            Session(write_packets(room / "changed.ivf", data), edits=room / "list")
        with self.assertRaises(OtherStream):
            self.session(ODD).edits.run(room / "list")
        self.assertEqual((room / "list").read_text(), text)
        # The same packets with another name and other time stamps.
        with self.session(
            write_packets(room / "copy.ivf", packets_of(SMALL), rate=1000, scale=33), edits=room / "list"
        ) as stream:
            self.assertEqual(list(stream.edits), ["delete 3"])
        with self.session(ODD, edits=room / "list", anyway=True) as stream:
            self.assertEqual(list(stream.edits), ["delete 3"])

    def test_a_list_names_its_sources(self):
        room = self.folder()
        one, two = (
            write_packets(room / f"{name}.ivf", packets_of(path)) for name, path in (("one", SMALL), ("two", ODD))
        )
        with self.session(one, sources=[two], edits=room / "list") as stream:
            stream.delete(3)
            stream.copy(1, 0, 3)
            stream.undo()
            stream.undo()
            stream.copy(1, 2, 0)
            wanted = state(stream, 2)
        named = [line for line in (room / "list").read_text().splitlines() if line.startswith("# source ")]
        self.assertEqual(
            [line.split()[2:5] + line.split()[-1:] for line in named],
            [["1:", str(len(packets_of(ODD))), "packets,", '"two.ivf"']],
        )
        with self.session(one, edits=room / "list") as stream:
            self.assertEqual(state(stream, 2), wanted)
            stream.undo()
            self.assertEqual((room / "list").read_text(), "")
            stream.delete(0)
        self.assertIn('"two.ivf"', (room / "list").read_text())
        # The program reads the list too.
        self.assertEqual(serve(one, (room / "list").read_text().splitlines(), "--sources", two), ["ok 11"])
        with self.assertRaisesRegex(OtherStream, "another source 1: of two.ivf"):
            Session(one, sources=[one], edits=room / "list")
        with self.session(one, sources=[one], edits=room / "list", anyway=True) as stream:
            self.assertEqual(len(stream.edits), 1)
        two.unlink()
        with self.assertRaisesRegex(ValueError, "list names source 1: two.ivf, which is not there"):
            Session(one, edits=room / "list")

    def test_a_list_that_was_made_here_goes_if_it_has_nothing(self):
        room = self.folder()
        (room / "old").write_text("")
        for name, is_left in (("new", False), ("old", True)):
            self.session(edits=room / name).close()
            self.assertEqual((room / name).exists(), is_left)
        # Not that of another session.
        stream = self.session(edits=room / "new")
        with self.assertRaisesRegex(ValueError, "another session"):
            Session(SMALL, edits=room / "new")
        stream.delete(0)
        self.assertEqual(list_of(room / "new"), "delete 0\n")

    def test_a_list_has_one_session(self):
        path = self.folder() / "list"
        with self.session(edits=path):
            with self.assertRaisesRegex(ValueError, "another session"):
                Session(SMALL, edits=path)
        with self.session(edits=path) as stream:
            self.assertEqual(list(stream.edits), [])

    def test_a_list_is_no_input(self):
        room = self.folder()
        path = room / "a.ivf"
        path.write_bytes(SMALL.read_bytes())
        os.link(path, room / "list")
        with self.assertRaisesRegex(ValueError, "are one file"):
            Session(path, edits=room / "list")
        self.assertEqual(path.read_bytes(), SMALL.read_bytes())
        with self.assertRaisesRegex(ValueError, "are one file"):
            Session(path, edits=room / "new", save=room / "." / "new")
        os.mkfifo(room / "pipe")
        for other in (room, room / "pipe"):
            with self.assertRaises((ValueError, OSError)):
                Session(path, edits=other)
        self.assertFalse((room / "new").exists())


class Scripts(Case):
    def test_nodes_are_numbered(self):
        script = Script()
        head = script.trim(0, 0, 5).fade(-1, 0, 5, 256, 0).last
        tail = script.trim(0, 5, 5).last
        self.assertEqual(str(script.splice(head, tail)), "trim 0 0 5; fade 1 0 5 256 0; trim 0 5 5; splice 2 3")
        self.assertEqual(
            str(Script().source(1).crop(-1, 0, 0, 2, 2).splice(-3, -1)), "source 1; crop 1 0 0 2 2; splice 0 2"
        )
        self.assertEqual(str(Script()), "-")
        for node in (1, -2):
            with self.assertRaises(IndexError):
                Script().trim(node, 0, 1)
        with self.assertRaises(TypeError):
            Script().trim(0, 0, 1.5)

    def test_a_script_is_served(self):
        with self.session() as stream:
            pictures = [stream.frame(n).i420() for n in range(12)]
            stream.script(Script().trim(0, 5, 4).splice(-1, 0))
            self.assertEqual(stream.count().frames, 16)
            self.assertEqual([stream.frame(n).i420() for n in (0, 3, 4)], [pictures[5], pictures[8], pictures[0]])
            stream.undo()
            self.assertEqual(stream.frame(4).i420(), pictures[4])
            stream.script(Script())
            self.assertEqual(list(stream.edits), ["script -"])


if __name__ == "__main__":
    unittest.main()
