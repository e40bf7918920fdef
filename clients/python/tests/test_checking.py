"""The check of the page: a session is asked for the findings of some packets at a time. What it finds, and what comes
in between.
"""

import random
import struct
import threading
import time
import unittest
from unittest import mock

from support import DATA, SLOW, crash, packets_of, write_packets
from test_page import BROKEN, SCENES, PageCase, check_of
from wokureti.media import ivf
from wokureti.session.listing import Listing
from wokureti.page import checking
from wokureti.page.opened import Opened


class Held:
    """Stops the check before a question, until it is let go."""

    def __init__(self, case, after=2):
        self.real, self.after, self.asked = checking.answer, after, 0
        self.is_there, self.let = threading.Event(), threading.Event()
        case.addCleanup(self.let.set)
        patch = mock.patch.object(checking, "answer", self.answer)
        patch.start()
        case.addCleanup(patch.stop)

    def answer(self, session, first, count):
        self.asked += 1
        if self.asked == self.after:
            self.hold(session)
        return self.real(session, first, count)

    def hold(self, session):
        self.is_there.set()
        self.let.wait(20 * SLOW)

    def wait(self, case):
        case.assertTrue(self.is_there.wait(10 * SLOW))


class Waiting(Held):
    """The same after a question: nobody has the session meanwhile."""

    def answer(self, session, first, count):
        return self.real(session, first, count)

    def sleep(self, seconds):
        if threading.current_thread() is threading.main_thread():
            return
        self.asked += 1
        if self.asked == self.after:
            self.hold(None)


def small_ranges(case, first=4):
    """Questions of a few packets, so that there are many of them."""
    for name, value in (("FIRST", first), ("SHORT", 0)):
        patch = mock.patch.object(checking, name, value)
        patch.start()
        case.addCleanup(patch.stop)


class CheckCase(PageCase):
    def saved(self):
        """What vp8list --check says of the packets as they are now."""
        path = self.folder() / "now.ivf"
        path.write_bytes(b"".join(self.live.contents().pieces(0)))
        return check_of(path)

    def waiting(self, after=2):
        """Stops the check after some questions, while it has not the session."""
        found = Waiting(self, after)
        patch = mock.patch.object(checking, "time", mock.Mock(sleep=found.sleep, monotonic=time.monotonic))
        patch.start()
        self.addCleanup(patch.stop)
        return found


class Ranges(CheckCase):
    def damaged(self):
        """A stream with damage of many kinds."""
        packets, choose = packets_of(SCENES), random.Random(70)
        for place in choose.sample(range(len(packets)), 12):
            packets[place] = choose.choice(
                [
                    b"",
                    BROKEN,
                    packets[place][: len(packets[place]) // 2],
                    packets[place] + b"\1\2\3\4\5\6",
                    packets[max(0, place - 1)],
                ]
            )
        return write_packets(self.folder() / "damaged.ivf", packets)

    def test_ranges_put_together_are_the_whole(self):
        path = self.damaged()
        wanted = check_of(path)
        for first in (1, 3, 7, 1000):
            small_ranges(self, first)
            self.serve(path)
            found = self.checked()
            self.assertEqual(found["findings"], wanted)
            self.assertEqual(
                (found["damage"], found["notes"]),
                tuple(sum(one["severity"] == kind for one in wanted) for kind in ("damage", "note")),
            )
            self.assertEqual(found["done"], found["packets"])

    def test_long_streams_are_checked_beside(self):
        path = self.damaged()
        small_ranges(self)
        with mock.patch.object(checking, "MOST_BEFORE", -1), mock.patch.object(
            checking.Pace, "is_late", return_value=True
        ):
            self.serve(path)
            self.assertEqual(self.checked()["findings"], check_of(path))
            self.assertTrue(self.live.beside.is_open)
            self.step("delete 3", "replace 9 1000", "script trim 0 1 3")
            self.assertEqual(self.checked()["findings"], self.saved())
            self.change("undo")
            self.step("delete 40")
            self.assertEqual(self.checked()["findings"], self.saved())
            # It goes on after the program beside ended.
            self.step("delete 40")
            with mock.patch("sys.stderr"):
                crash(self.live.beside.live.session)
                self.assertEqual(self.checked()["findings"], self.saved())
        self.live.close()
        self.assertFalse(self.live.beside.is_open)

    def test_findings_of_the_file(self):
        whole = SCENES.read_bytes()
        header = bytearray(whole[:32])
        heads = [("<HH", 12, (0, 0)), ("<HH", 12, (176, 144)), ("<I", 24, (7,)), ("<I", 16, (0,)), ("<I", 20, (0,))]
        texts = [
            whole[:-1],
            whole + b"\0",
            whole + b"\0\1\2",
            whole + bytes(11),
            whole + bytes(12),
            whole + struct.pack("<IQ", 9, 1),
            whole[:32],
            whole[:37],
        ]
        for form, at, values in heads:
            other = bytearray(header)
            struct.pack_into(form, other, at, *values)
            texts.append(bytes(other) + whole[32:])
        packets = packets_of(SCENES)
        for number, text in enumerate([*texts, packets[0][:6], packets[0][:3] + bytes(7)]):
            path = self.folder() / "a.ivf"
            if number < len(texts):
                path.write_bytes(text)
            else:
                write_packets(path, [text, *packets[1:]])
            self.serve(path)
            self.assertEqual(self.checked()["findings"], check_of(path), number)
            if number < len(texts) and len(text) > 100:
                self.step("delete 3")
                self.assertEqual(self.checked()["findings"], self.saved(), number)

    def test_questions_are_short(self):
        # Each packet takes as long, and what is read before them too.
        pace = checking.Pace()
        for each, before in ((0.001, 0), (0.001, 0.01), (0.0001, 0.002), (0.01, 0), (0.5, 0.3), (0.001, 0.5)):
            most = questions = 0
            for _ in range(200):
                took = before + each * pace.count
                questions += took
                if pace.is_late(took):
                    pace.slow_down(took, before)
                    questions += before
                else:
                    pace.go_on(took)
            for _ in range(50):
                took = before + each * pace.count
                most = max(most, took)
                pace.slow_down(took, before) if pace.is_late(took) else pace.go_on(took)
            self.assertLess(most, 2.5 * (before + max(checking.SHORT, 2 * before, each)), (each, before))


class Once(CheckCase):
    """Nothing is asked of the session twice."""

    def logged(self):
        """The lines that the session gets from now on."""
        session, lines = self.live.session, []
        real = session._exchange

        def exchange(*given, deadline):
            lines.extend(line.decode() for line in given)
            return real(*given, deadline=deadline)

        session._exchange = exchange
        return lines

    def look(self):
        """What the page asks for after an edit."""
        self.members("/session?known=")
        self.members("/session")
        self.checked()

    def test_a_click(self):
        self.serve(SCENES)
        self.look()
        lines = self.logged()
        for edit in (
            "delete 10",
            "hold 3",
            "replace 7 1000",
            "script trim 0 0 9",
            "script trim 0 0 9;fade 1 0 5 0 256",
            "delete 2",
        ):
            lines.clear()
            self.step(edit)
            self.look()
            after = lines[lines.index(edit) + 1 :]
            self.assertEqual(len(after), len(set(after)), after)
            # A check needs no list of packets that are listed.
            self.assertNotIn("list 0 1", after)
        lines.clear()
        self.change("undo")
        self.change("redo")
        lines.clear()
        self.look()
        self.assertEqual(lines, [])

    def test_the_size_of_the_first_key_packet_before_the_stream_is_listed(self):
        packets = packets_of(SCENES)
        packets[0] = packets[0][:3] + b"xxx" + packets[0][6:]
        for path in (
            SCENES,
            write_packets(self.folder() / "in.ivf", packets),
            write_packets(self.folder() / "none.ivf", packets[1:4]),
        ):
            with (
                mock.patch.object(Opened, "list_files", lambda live: live.session.read_indexes()),
                mock.patch.object(Listing, "is_whole", False),
                mock.patch.object(self, "await_list"),
            ):
                self.serve(path)
                self.assertEqual(self.checked()["findings"], check_of(path))


class Between(CheckCase):
    def test_an_error_in_the_middle(self):
        small_ranges(self)
        self.serve(SCENES)
        real, asked = checking.answer, []

        def answer(*given):
            asked.append(given)
            if len(asked) == 3:
                raise OSError("the disk is gone")
            return real(*given)

        with mock.patch.object(checking, "answer", answer):
            limit = time.monotonic() + 10 * SLOW
            while not (found := self.check_members())["over"]:
                self.assertLess(time.monotonic(), limit)
            self.assertEqual(found["failed"], "the disk is gone")
            self.assertLess(found["done"], found["packets"])
            # The same packets are not checked again and again.
            self.assertEqual(self.check_members()["check"], found["check"])
        self.step("delete 3")
        self.assertEqual(self.checked()["findings"], self.saved())
        # A check that failed is none of these packets.
        self.change("undo")
        self.assertEqual(self.checked()["findings"], check_of(SCENES))

    def test_an_error_that_nobody_expects(self):
        self.serve(SCENES)
        with mock.patch.object(checking, "answer", side_effect=ZeroDivisionError), mock.patch.object(
            threading, "excepthook"
        ):
            limit = time.monotonic() + 10 * SLOW
            while not (found := self.check_members())["over"]:
                self.assertLess(time.monotonic(), limit)
        self.assertIn("ZeroDivisionError", found["failed"])

    def test_an_edit_during_a_check(self):
        small_ranges(self)
        self.serve(self.broken(40))
        held = self.waiting()
        first = self.check_members()
        held.wait(self)
        self.step("delete 0", "delete 0")
        held.let.set()
        found = self.checked()
        self.assertNotEqual(found["check"], first["check"])
        self.assertEqual(found["findings"], self.saved())
        self.change("undo")
        self.assertEqual(self.checked()["findings"], check_of(self.live.options["stream"]))

    def test_an_edit_that_is_taken_back_during_a_check(self):
        small_ranges(self)
        path = self.broken(40)
        self.serve(path)
        held = self.waiting()
        self.check_members()
        held.wait(self)
        self.change("delete 0")
        held.let.set()
        # It ends by itself: nobody asked for the check of the packets between.
        limit = time.monotonic() + 10 * SLOW
        while not self.live.check.is_over:
            self.assertLess(time.monotonic(), limit)
            time.sleep(0.01)
        self.change("undo")
        self.assertEqual(self.checked()["findings"], check_of(path))

    def test_an_edit_waits_for_a_question_at_most(self):
        small_ranges(self)
        self.serve(SCENES)
        held = Held(self)
        self.check_members()
        held.wait(self)
        done = []
        thread = threading.Thread(target=lambda: done.append(self.step("delete 3")))
        thread.start()
        held.let.set()
        thread.join(10 * SLOW)
        self.assertEqual(done[0]["revision"], 2)
        self.assertEqual(self.checked()["findings"], self.saved())

    def test_a_frame_comes_between_two_questions(self):
        small_ranges(self)
        self.serve(SCENES)
        held = self.waiting()
        self.check_members()
        held.wait(self)
        with self.within(5):
            self.picture("/frames/20.y4m")
        self.assertFalse(self.live.check.is_over)

    def test_the_session_ends_during_a_check(self):
        small_ranges(self)
        path = self.broken(40)
        for beside in (False, True):
            self.serve(path)
            with mock.patch.object(checking, "MOST_BEFORE", -1 if beside else 1000), mock.patch.object(
                checking.Pace, "is_late", return_value=True
            ):
                held = self.waiting()
                self.check_members()
                held.wait(self)
                with mock.patch("sys.stderr"):
                    crash(self.live.session)
                    held.let.set()
                    # The page asks on, and the session is started again for it.
                    self.assertEqual(self.checked()["findings"], check_of(path))
            self.await_list()
            # The program beside goes on without it.
            self.assertIn(self.members("/session")["restarts"], (0, 1) if beside else (1,))

    def test_a_question_that_ends_the_session(self):
        self.serve(SCENES)

        def answer(session, first, count):
            crash(session)
            return session.ask(f"check {first} {count}", 0)

        with mock.patch.object(checking, "answer", answer), mock.patch("sys.stderr"):
            limit = time.monotonic() + 10 * SLOW
            while not (found := self.check_members())["failed"] or found["check"] <= checking.MOST_TRIES:
                self.assertLess(time.monotonic(), limit)
                time.sleep(0.02)
            self.assertTrue(found["over"])
            for _ in range(5):
                self.assertEqual(self.check_members()["check"], found["check"])
        self.await_list()
        self.assertLessEqual(self.members("/session")["restarts"], checking.MOST_TRIES + 1)
        self.step("delete 3")
        self.assertEqual(self.checked()["findings"], self.saved())

    def test_numbers_of_a_session_that_was_started_again(self):
        self.serve(SCENES, edits=self.folder() / "list")
        self.step(f"insert 5 0 {BROKEN.hex()}")
        self.assertEqual(self.checked()["findings"], self.saved())
        self.change("undo")
        # After the restart this packet has the number of the one that was taken back.
        self.step("insert 5 0 -")
        with mock.patch("sys.stderr"):
            crash(self.live.session)
            self.picture("/frames/2.y4m")
        self.await_list()
        self.assertEqual(self.checked()["findings"], self.saved())

    def test_it_is_closed_during_a_check(self):
        small_ranges(self)
        for beside in (False, True):
            with mock.patch.object(checking, "MOST_BEFORE", -1 if beside else 1000), mock.patch.object(
                checking.Pace, "is_late", return_value=True
            ):
                self.serve(SCENES)
                held = self.waiting()
                self.check_members()
                held.wait(self)
                check = self.live.check
                with self.within(5):
                    self.live.close()
                held.let.set()
                limit = time.monotonic() + 10 * SLOW
                while not check.is_over:
                    self.assertLess(time.monotonic(), limit)
                    time.sleep(0.01)
                self.assertFalse(self.live.beside.is_open)

    def test_a_source_is_added_during_a_check(self):
        small_ranges(self)
        with mock.patch.object(checking, "MOST_BEFORE", -1), mock.patch.object(
            checking.Pace, "is_late", return_value=True
        ):
            self.serve(self.broken(40))
            held = self.waiting()
            self.check_members()
            held.wait(self)
            check, beside = self.live.check, self.live.beside
            self.live.add_source(str(DATA / "odd-size.ivf"), "odd", ".ivf")
            held.let.set()
            limit = time.monotonic() + 10 * SLOW
            while not check.is_over:
                self.assertLess(time.monotonic(), limit)
                time.sleep(0.01)
            # The program that was closed was not started again.
            self.assertFalse(beside.is_open)
            self.await_list()
            self.assertEqual(self.checked()["findings"], self.saved())

    def test_two_checks_one_after_the_other(self):
        small_ranges(self)
        self.serve(self.broken(40))
        for line in ("delete 30", "hold 3", "undo", "replace 0 -", "undo", "use 0"):
            self.check_members()
            self.change(line)
            self.check_members()
        self.assertEqual(self.checked()["findings"], self.saved())

    def test_another_source_is_current(self):
        self.serve(self.broken(40), sources=[DATA / "odd-size.ivf"])
        self.step("use 1", "delete 0")
        self.assertEqual(self.checked()["findings"], self.saved())

    def test_findings_of_groups_in_previews(self):
        path = self.broken(40)
        self.serve(path)
        wanted = [finding for finding in check_of(path) if finding["packet"] is not None]
        keys = [place for place, data in enumerate(packets_of(path)) if ivf.is_key(data)]
        for first, end in zip(keys, [*keys[1:], len(packets_of(path))]):
            found = self.task("check", lines=[], packet=first)["findings"]
            self.assertEqual(found, [finding for finding in wanted if first <= finding["packet"] < end])


if __name__ == "__main__":
    unittest.main()
