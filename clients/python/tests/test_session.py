"""Sessions: requests and replies, and what goes wrong between them."""

import gc
import itertools
import json
import os
import shutil
import signal
import subprocess
import sys
import threading
import time
import unittest
from unittest import mock

from support import (
    CLIP,
    DATA,
    ODD,
    SLOW,
    SMALL,
    SPEAKER,
    TOP,
    Case,
    digest,
    frames_of,
    is_alive,
    packets_of,
    process_of,
    start_python,
)
from wokureti import Count, Ended, NotVideo, Refused, Session, Unexported
from wokureti.base import programs
from wokureti.media import ivf
from wokureti.session import library
from wokureti.session.frames import FrameReader

# The size of the example, and the MD5 of some of its frames, from `vpxdec --i420`.
WIDTH, HEIGHT = 320, 180
FRAMES = {
    0: "37d20bd18336c72aa8d9f7e695c8433c",
    12: "be5a7f416d9701d77c2983535b442282",
    20: "2676ee5882d26fd5a0a34ba1fdb63513",
    47: "834c04dcad172e57fcc430c180397e7e",
}


class Requests(Case):
    def test_frames_are_those_of_vpxdec(self):
        with self.session(CLIP) as stream:
            for number, expected in FRAMES.items():
                frame = stream.frame(number)
                self.assertEqual((frame.number, frame.width, frame.height), (number, WIDTH, HEIGHT))
                self.assertEqual(frame.y.shape, (HEIGHT, WIDTH))
                self.assertEqual(digest(frame), expected)

    def test_edits_between_looks(self):
        packets = packets_of(CLIP)
        with self.session(CLIP) as stream:
            self.assertEqual(stream.count(), Count(len(packets), len(packets)))
            self.assertEqual(stream.replace(10, b"\x11\x00"), len(packets))
            with self.assertRaises(Refused) as refused:
                stream.frame(12)
            self.assertEqual((refused.exception.word, refused.exception.source), ("packet", 0))
            self.assertEqual((refused.exception.packet, refused.exception.cause), (10, "ShortPacket"))
            stream.hold(10)
            self.assertEqual(stream.delete(11), len(packets))
            before, after = stream.frame(9), stream.frame(10)
            self.assertEqual(digest(before), digest(after))
            stream.replace(10, packets[10])
            self.assertEqual(digest(stream.frame(12)), FRAMES[12])

    def test_an_export_has_the_frames_of_the_script(self):
        path = self.folder() / "exported.ivf"
        with self.session(CLIP) as stream:
            stream.hold(7)
            stream.script("trim 0 5 6", "splice 1 0")
            frames = [stream.frame(number).i420() for number in range(9)]
            stream.export(path, pad=True)
        with self.session(path) as exported:
            self.assertEqual([exported.frame(number).i420() for number in range(9)], frames)

    def test_frames_that_are_not_exported(self):
        path = self.folder() / "exported.ivf"
        with self.session(CLIP, sources=[SMALL]) as stream:
            for script, lines, wanted in (
                (["fade 0 2 4 256 0"], [], ("frame 3 is changed by node 1", 3, 1, None, None, None)),
                (
                    ["source 1"],
                    ["use 1", "replace 5 1100"],
                    ("frame 5 is refused: source 1 packet 5 ShortPacket", 5, None, 1, 5, "ShortPacket"),
                ),
                (["crop 0 0 0 4096 16"], [], ("frame 0 is refused: CropOutside", 0, None, None, None, None)),
            ):
                stream.script(*script)
                for line in lines:
                    stream.request(line)
                with self.assertRaises(Unexported) as caught:
                    stream.export(path)
                found = caught.exception
                self.assertEqual((str(found), found.frame, found.node, found.source, found.packet, found.cause), wanted)
                self.assertFalse(path.exists())
            with self.assertRaises(ValueError):
                stream.export(CLIP)

    def test_packets_are_listed_as_they_are_saved(self):
        path = self.folder() / "saved.ivf"
        with self.session(CLIP) as stream:
            stream.hide(3)
            stream.replace(10, b"\x11\x00")
            stream.delete(1)
            stream.hold(7)
            count = stream.count().packets
            found = [facts for first in range(0, count, 7) for facts in stream.list_packets(first, 7)]
            stream.save(path)
            lister = os.environ.get("VP8LIST") or programs.find("vp8list")
            text = subprocess.run([lister, path, "--json"], check=True, stdout=subprocess.PIPE, timeout=60).stdout
            self.assertEqual(found, list(map(json.loads, text.splitlines())))
            self.assertEqual(stream.packets(), found)
            self.assertEqual(stream.packets([9, 2, 99, 4]), [found[number] for number in (9, 2, 4)])
            self.assertEqual((stream.list_packets(count, 5), stream.list_packets(3, 0)), ([], []))
            with self.assertRaises(Refused) as refused:
                stream.list_packets(count + 1, 0)
            self.assertEqual(refused.exception.word, "Place")
            self.assertEqual(stream.count().packets, count)

    def test_packets_of_another_source(self):
        with self.session(SMALL, sources=[ODD]) as stream:
            stream.use(1)
            stream.delete(0)
            odd = stream.list_packets(0, 99)
            stream.use(0)
            self.assertEqual(stream.packets(source=1), odd)
            self.assertEqual(stream.packets(), stream.list_packets(0, 99))
            self.assertEqual(list(stream.edits), ["use 1", "delete 0", "use 0"])

    def test_origins(self):
        with self.session(SMALL, sources=[ODD]) as stream:
            stream.hide(2)
            stream.script("source 1", "trim 0 1 2", "splice 2 1", "fade 3 0 2 256 0")
            frames = stream.count().frames
            found = stream.origins(0, frames + 9)
            self.assertEqual([origin["frame"] for origin in found], list(range(frames)))
            self.assertEqual(found[0], {"frame": 0, "source": 0, "source_frame": 1, "packet": 1, "changed": []})
            self.assertEqual(found[1], {"frame": 1, "source": 0, "source_frame": 2, "packet": 3, "changed": [4]})
            self.assertEqual(found[2], {"frame": 2, "source": 1, "source_frame": 0, "packet": 0, "changed": [4]})
            self.assertEqual(stream.origins(1, 1), found[1:2])
            self.assertEqual(stream.origins(frames, 1), [])
            with self.assertRaises(Refused) as refused:
                stream.origins(frames + 1, 1)
            self.assertEqual(refused.exception.word, "NoSuchFrame")

    def test_steps_are_counted(self):
        with self.session(cache=64) as stream:
            stream.frame(11)
            decoded = stream.decoded()
            stream.frame(11)
            self.assertEqual(stream.decoded(), decoded)

    def test_states_are_counted_in_bytes(self):
        for cache_bytes, is_decoded_again in ((1, True), (2**30, False)):
            with self.session(cache_bytes=cache_bytes) as stream:
                stream.frame(1)
                decoded = stream.decoded()
                stream.frame(0)
                self.assertEqual(stream.decoded() > decoded, is_decoded_again)

    def test_refusals(self):
        with self.session() as stream:
            for word, call in (
                ("Place", lambda: stream.delete(12)),
                ("Source", lambda: stream.use(1)),
                ("NoSuchFrame", lambda: stream.frame(12)),
                ("Reference", lambda: stream.script("trim 1 0 1")),
                ("Line", lambda: stream.request("nonsense")),
            ):
                with self.assertRaises(Refused) as refused:
                    call()
                self.assertEqual((refused.exception.word, refused.exception.reason), (word, None))
            self.assertEqual(stream.count(), Count(12, 12))

    def test_the_source_of_a_broken_packet(self):
        refused = Refused("refused source 2 packet 60 TokenPartition 1", "why")
        self.assertEqual(
            (refused.word, refused.source, refused.packet, refused.cause), ("packet", 2, 60, "TokenPartition 1")
        )
        self.assertEqual(str(refused), "refused source 2 packet 60 TokenPartition 1: why")

    def test_sources_and_scripts(self):
        with self.session("-", sources=[SMALL]) as stream:
            self.assertEqual(stream.copy(1, 0, 0), 1)
            self.assertEqual(stream.use(1), 12)
            self.assertEqual(stream.move(11, 11), 12)
            self.assertEqual(stream.script("source 1", "splice 0 1"), 12)
            self.assertEqual(stream.count(), Count(12, 13))
            expected = frames_of(SMALL, [0, 5])
            self.assertEqual([stream.frame(0).i420(), stream.frame(6).i420()], expected)

    def test_blank_frames_and_odd_sizes(self):
        with self.session("-") as stream:
            self.assertEqual(stream.blank(0, 33, 17), 1)
            frame = stream.frame(0)
            self.assertEqual((frame.y.shape, frame.u.shape, frame.v.shape), ((17, 33), (9, 17), (9, 17)))
            self.assertEqual(set(frame.i420()), {128})

    def test_saves_when_closed(self):
        saved = self.folder() / "out.ivf"
        packets = packets_of(SMALL)
        with self.session(save=saved) as stream:
            stream.insert(12, packets[11], 99)
            self.assertFalse(saved.exists())
        self.assertEqual(packets_of(saved), packets + [packets[11]])

    def test_nothing_is_saved_after_an_exception(self):
        saved = self.folder() / "out.ivf"
        with self.assertRaises(KeyError):
            with self.session(save=saved):
                raise KeyError
        self.assertFalse(saved.exists())

    def test_pads_saved_packets(self):
        room = self.folder()
        for name in ("plain", "padded"):
            with self.session(save=room / name, pad=name == "padded") as stream:
                stream.hold(1)
        packets = packets_of(SMALL)
        self.assertEqual(
            packets_of(room / "padded"), packets[:1] + [packets_of(room / "plain")[1] + b"\0"] + packets[1:]
        )

    def test_a_range_of_frames(self):
        with self.session() as stream:
            frames = list(stream.frames(range(7, 3, -2)))
            self.assertEqual([frame.number for frame in frames], [7, 5])
            self.assertEqual([frame.i420() for frame in frames], frames_of(SMALL, [7, 5]))
            self.assertEqual([frame.number for frame in stream.frames()], list(range(12)))

    def test_a_range_of_packets_is_deleted(self):
        packets = packets_of(SMALL)
        with self.session() as stream:
            self.assertEqual(stream.delete(range(3, 9, 2)), 9)
            self.assertEqual(
                [stream.packet(n) for n in range(9)], packets[:3] + packets[4:5] + packets[6:7] + packets[8:]
            )
            with self.assertRaises(Refused):
                stream.delete(range(7, 10))
            self.assertEqual(stream.count().packets, 9)
            self.assertEqual(stream.delete(range(4, 4)), 9)

    def test_a_line_longer_than_a_pipe(self):
        with self.session() as stream:
            stream.insert(12, bytes(600_000), 7)
            self.assertEqual(stream.count().packets, 13)
            self.assertEqual(stream.packet(12), bytes(600_000))

    def test_a_stream_from_a_pipe(self):
        path = self.folder() / "pipe"
        os.mkfifo(path)
        writer = threading.Thread(target=lambda: path.write_bytes(SMALL.read_bytes()))
        writer.start()
        with self.session(path) as stream:
            writer.join()
            self.assertEqual(stream.packet(3), packets_of(SMALL)[3])
            self.assertEqual([stream.frame(3).i420()], frames_of(SMALL, [3]))


class Rates(Case):
    def test_the_rate_is_that_of_the_time_stamps(self):
        packets = packets_of(SMALL)
        path = self.folder() / "clip.ivf"
        for rate, scale, stamps, wanted in (
            (30, 1, range(12), (30, 1)),
            (0, 0, range(12), (30, 1)),
            (1000, 1, [0, 33, 67, 100, 133, 167, 200, 233, 267, 300, 333, 367], (30, 1)),
            (1000, 1, range(0, 480, 40), (25, 1)),
            (90000, 1, range(0, 12 * 3003, 3003), (30000, 1001)),
            # Two of them repeat, one skips.
            (1000, 1, [0, 40, 40, 80, 120, 160, 160, 200, 900, 940, 980, 1020], (25, 1)),
            (25, 1, [0] * 12, (25, 1)),
        ):
            head = ivf.Head(16, 16, rate, scale)
            path.write_bytes(b"".join(ivf.pieces(head, 12, list(zip(stamps, packets)))))
            with self.session(path) as stream:
                self.assertEqual(stream.rate, wanted)
                # Edits do not change it.
                stream.delete(range(2, 9))
                self.assertEqual(stream.rate, wanted)


class Matched(Case):
    """Each reply and picture belongs to its request."""

    def test_a_picture_that_is_not_taken(self):
        with self.session() as stream:
            self.assertEqual(stream.request("frame 5"), "served 5")
            self.assertEqual([stream.frame(6).i420()], frames_of(SMALL, [6]))

    def test_many_pictures_that_are_not_taken(self):
        with self.session() as stream:
            for _ in range(100):
                for number in range(12):
                    stream.request(f"frame {number}")
            self.assertEqual([stream.frame(0).i420()], frames_of(SMALL, [0]))

    def test_ten_thousand_requests_of_eight_threads(self):
        expected = frames_of(ODD, range(12))
        self.assertEqual(len(expected), 12)
        wrong, asked = [], itertools.count()

        def ask(seed):
            try:
                for turn in range(1250):
                    next(asked)
                    number = (seed * 7919 + turn * 31) % 14
                    try:
                        frame = stream.frame(number)
                    except Refused as refused:
                        if number < 12 or refused.word != "NoSuchFrame":
                            wrong.append((number, refused))
                        continue
                    if number >= 12 or frame.number != number or frame.i420() != expected[number]:
                        wrong.append(number)
            except BaseException as error:
                wrong.append(error)

        with self.session(ODD, cache=64) as stream:
            threads = [threading.Thread(target=ask, args=(seed,)) for seed in range(8)]
            for thread in threads:
                thread.start()
            for thread in threads:
                thread.join()
        self.assertEqual((wrong[:3], next(asked)), ([], 10000))


class Broken(Case):
    """A session that is over says so, and its program has ended."""

    def assertOver(self, stream, status, text):
        for call in (stream.count, lambda: stream.frame(0), lambda: stream.delete(0), lambda: stream.request("count")):
            with self.assertRaises(Ended) as ended:
                call()
            self.assertEqual(ended.exception.status, status)
            self.assertIn(text, str(ended.exception))

    def test_after_close(self):
        stream = self.session(engine="program")
        pid = process_of(stream)
        stream.close()
        self.assertGone(pid)
        self.assertOver(stream, 0, "the session was closed")
        stream.close()

    def test_a_missing_file(self):
        for streams in (("/nowhere.ivf",), ("-", ["-", SMALL, "/nowhere.ivf"])):
            with self.assertRaises(FileNotFoundError) as missing:
                Session(*streams)
            self.assertEqual(missing.exception.filename, "/nowhere.ivf")
        with self.assertRaises(IsADirectoryError):
            Session(TOP)

    def test_no_stream(self):
        with self.assertRaises(NotVideo) as ended:
            Session(__file__)
        wanted = (
            f"{__file__} is not a stream of VP8: it looks like a text; name a stream; a list of edits is named with"
            " --edits"
        )
        self.assertEqual((ended.exception.status, ended.exception.text), (1, wanted))
        self.assertIsInstance(ended.exception, (Ended, ValueError))
        with self.assertRaisesRegex(NotVideo, "source 1 is not a stream of VP8: it looks like an empty file"):
            Session("-", sources=[b""])

    def test_the_number_of_cached_states(self):
        for cache in (0, 4097, -1):
            with self.assertRaisesRegex(ValueError, f"1 to 4096, and not {cache}"):
                Session(SMALL, cache=cache)

    def test_no_program(self):
        with self.assertRaisesRegex(
            FileNotFoundError, "there is no /.*: install it, or name it in the variable VP8SERVE"
        ):
            Session(SMALL, program="/nowhere/vp8serve")

    def test_a_save_that_cannot_begin(self):
        with self.assertRaises(Ended) as ended:
            self.session(save=self.folder() / "none" / "out.ivf")
        self.assertEqual(ended.exception.status, 1)
        self.assertRegex(ended.exception.text, f"^{SPEAKER}: cannot write")

    def test_a_save_that_fails(self):
        folder = self.folder() / "gone"
        folder.mkdir()
        stream = self.session(save=folder / "out.ivf")
        shutil.rmtree(folder)
        with self.assertRaises(Ended) as ended:
            stream.close()
        self.assertEqual(ended.exception.status, 1)
        self.assertRegex(ended.exception.text, f"^{SPEAKER}: cannot write")
        self.assertOver(stream, 1, "cannot write")

    def unfinished(self, folder):
        return sorted(path.name for path in folder.glob("vp8serve-unfinished-save-*"))

    def test_a_killed_program_leaves_no_new_file(self):
        """The new file of a save goes with the program, however that ends, and those of other sessions stay."""
        folder = self.folder()
        with self.session(engine="program", save=folder / "other.ivf"):
            for number, end in enumerate(
                (Session.kill, lambda stream: os.kill(process_of(stream), signal.SIGKILL), Session.close)
            ):
                stream = self.session(engine="program", save=folder / f"out-{number}.ivf")
                self.assertEqual(len(self.unfinished(folder)), 2)
                end(stream)
                if number == 1:
                    with self.assertRaises(Ended):
                        stream.count()
                self.assertEqual(len(self.unfinished(folder)), 1, number)
            self.assertEqual(packets_of(folder / "out-2.ivf"), packets_of(SMALL))
        self.assertEqual(sorted(os.listdir(folder)), ["other.ivf", "out-2.ivf"])

    def test_what_a_killed_process_left(self):
        """The next session removes it, as soon as the program that may write it is gone, and nothing else."""
        folder, temporary = self.folder(), self.folder()
        code = (
            "import sys; from wokureti import Session; one = Session(sys.argv[1], engine='program', save=sys.argv[2]);"
            " print(one._pipes.process.pid, flush=True); sys.stdin.read()"
        )
        process = start_python(
            "-c",
            code,
            SMALL,
            folder / "out.ivf",
            stdin=subprocess.PIPE,
            stdout=subprocess.PIPE,
            env={"TMPDIR": str(temporary)},
        )
        pid = int(process.stdout.readline())
        self.addCleanup(lambda: is_alive(pid) and os.kill(pid, signal.SIGKILL))
        # The program would end, and save, when its input does.
        os.kill(pid, signal.SIGSTOP)
        process.kill()
        process.communicate()
        [left] = self.unfinished(folder)
        (folder / "vp8serve-unfinished-save-9").write_text("of somebody else")
        begin = lambda: start_python(
            "-c",
            code,
            SMALL,
            folder / "next.ivf",
            stdin=subprocess.DEVNULL,
            stdout=subprocess.DEVNULL,
            env={"TMPDIR": str(temporary)},
        ).wait(
            20 * SLOW
        )  # noqa: E731
        begin()
        self.assertEqual(self.unfinished(folder), [left, "vp8serve-unfinished-save-9"])
        os.kill(pid, signal.SIGKILL)
        self.assertGone(pid)
        begin()
        self.assertEqual((self.unfinished(folder), os.listdir(temporary)), (["vp8serve-unfinished-save-9"], []))

    def test_a_killed_program(self):
        stream = self.session(engine="program")
        os.kill(process_of(stream), signal.SIGKILL)
        with self.within(1):
            self.assertOver(stream, -signal.SIGKILL, "vp8serve")

    def test_a_program_that_is_killed_while_it_answers(self):
        stream = self.session(engine="program")
        pid = process_of(stream)
        os.kill(pid, signal.SIGSTOP)
        killer = threading.Timer(0.2, os.kill, (pid, signal.SIGKILL))
        killer.start()
        with self.within(1.2), self.assertRaises(Ended) as ended:
            stream.frame(3)
        self.assertEqual(ended.exception.status, -signal.SIGKILL)
        self.assertOver(stream, -signal.SIGKILL, "vp8serve")

    def test_an_exception_in_the_middle(self):
        class Alarm(Exception):
            pass

        def ring(number, frame):
            raise Alarm

        stream = self.session(engine="program")
        pid = process_of(stream)
        os.kill(pid, signal.SIGSTOP)
        left = signal.setitimer(signal.ITIMER_REAL, 0)[0]
        before = signal.signal(signal.SIGALRM, ring)
        signal.setitimer(signal.ITIMER_REAL, 0.2)
        with self.assertRaises(Alarm):
            stream.frame(10)
        signal.signal(signal.SIGALRM, before)
        signal.setitimer(signal.ITIMER_REAL, left)
        self.assertGone(pid)
        self.assertOver(stream, -signal.SIGKILL, "`frame 10` was left in the middle (Alarm)")

    def test_a_request_that_takes_too_long(self):
        for options, call in (({}, {"timeout": 0.2}), ({"timeout": 0.2}, {})):
            stream = self.session(engine="program", **options)
            pid = process_of(stream)
            stream.frame(3, **call)
            os.kill(pid, signal.SIGSTOP)
            with self.within(1.2), self.assertRaises(Ended) as ended:
                stream.frame(4, **call)
            self.assertIn("no reply to `frame 4` in time", str(ended.exception))
            self.assertGone(pid)
            self.assertOver(stream, -signal.SIGKILL, "`frame 4`")

    def test_a_line_that_is_not_read_in_time(self):
        stream = self.session(engine="program")
        os.kill(process_of(stream), signal.SIGSTOP)
        with self.within(2), self.assertRaises(Ended):
            stream.insert(0, bytes(3_000_000), timeout=0.2)

    def test_another_thread_has_the_session(self):
        stream = self.session(engine="program")
        pid = process_of(stream)
        os.kill(pid, signal.SIGSTOP)
        found = []
        thread = threading.Thread(target=lambda: found.append(stream.frame(5).i420()))
        thread.start()
        while stream._pending is None:
            time.sleep(0.01)
        with self.within(1), self.assertRaises(TimeoutError):
            stream.frame(6, timeout=0.2)
        os.kill(pid, signal.SIGCONT)
        thread.join()
        self.assertEqual([*found, stream.frame(6).i420()], frames_of(SMALL, [5, 6]))

    def test_kill_ends_the_call_of_another_thread(self):
        stream = self.session(engine="program")
        os.kill(process_of(stream), signal.SIGSTOP)
        found = []

        def ask():
            try:
                stream.frame(5)
            except Ended as ended:
                found.append(ended.status)

        thread = threading.Thread(target=ask)
        thread.start()
        while stream._pending is None:
            time.sleep(0.01)
        with self.within(1.5):
            stream.kill()
            thread.join()
        self.assertEqual(found, [-signal.SIGKILL])

    def test_no_room_for_a_frame(self):
        stream = self.session(engine="program")
        pid = process_of(stream)
        with mock.patch.object(FrameReader, "start", side_effect=MemoryError):
            with self.within(1), self.assertRaises(MemoryError):
                stream.frame(3)
        self.assertGone(pid)
        self.assertOver(stream, -signal.SIGKILL, "`frame 3` was left in the middle (MemoryError)")

    def test_a_program_that_speaks_something_else(self):
        path = self.folder() / "other"
        for text in (
            "echo ok 1",
            "echo served 0; echo served 1",
            "echo served 0; exit 3",
            "printf x >&7; echo served 0",
            "exec cat > /dev/null",
        ):
            path.write_text(f"#!/bin/sh\nexec 7> $3; read line; echo decoded 0; read line; {text}\n")
            path.chmod(0o755)
            stream = self.session("-", program=str(path), timeout=1)
            pid = process_of(stream)
            with self.within(2.5), self.assertRaises(Ended):
                stream.frame(0)
            self.assertGone(pid)
            with self.assertRaises(Ended):
                stream.count()

    def test_a_session_that_nobody_has(self):
        stream = Session(SMALL, engine="program")
        pid = process_of(stream)
        self.assertTrue(is_alive(pid))
        del stream
        gc.collect()
        self.assertGone(pid)

    def test_sessions_when_python_ends(self):
        code = f"from wokureti import Session\nall = [Session({str(SMALL)!r}, engine='program') for _ in range(20)]\n"
        code += "print(*[one._pipes.process.pid for one in all])\n"
        env = dict(os.environ, PYTHONPATH=str(TOP / "clients/python"))
        done = subprocess.run(
            [sys.executable, "-c", code], env=env, capture_output=True, text=True, timeout=20 * SLOW, check=True
        )
        pids = done.stdout.split()
        self.assertEqual((len(pids), done.stderr), (20, ""))
        for pid in pids:
            self.assertGone(pid)

    def test_a_forked_child_does_not_hold_the_session(self):
        stream = self.session(engine="program")
        stopped, stop = os.pipe()
        said, say = os.pipe()
        child = os.fork()
        if child == 0:
            try:
                stream.count()
            except Ended as ended:
                os.write(say, str(ended).encode())
            stream.close()
            stream.kill()
            os.read(stopped, 1)
            os._exit(0)
        os.close(say)
        self.assertEqual(os.read(said, 100), b"the session belongs to the process that opened it")
        self.assertEqual([stream.frame(4).i420()], frames_of(SMALL, [4]))
        pid = process_of(stream)
        with self.within(1):
            stream.close()
        self.assertGone(pid)
        os.write(stop, b"!")
        self.assertEqual(os.waitpid(child, 0)[1], 0)

    def test_a_forked_child_that_ends_leaves_the_session(self):
        stream = self.session()
        code = os.fork()
        if code == 0:
            # The exit handlers of Python run, as in a child of multiprocessing that calls sys.exit.
            stream = None
            gc.collect()
            os._exit(0)
        os.waitpid(code, 0)
        self.assertEqual([stream.frame(4).i420()], frames_of(SMALL, [4]))


class Arguments(Case):
    def test_paths_that_begin_with_a_dash(self):
        room = self.folder()
        (room / "-x.ivf").write_bytes(SMALL.read_bytes())
        before = os.getcwd()
        os.chdir(room)
        self.addCleanup(os.chdir, before)
        with self.session("-x.ivf", sources=["-x.ivf", "-"], save="--save=y.ivf") as stream:
            self.assertEqual(stream.use(1), 12)
            self.assertEqual(stream.use(2), 0)
            self.assertEqual(stream.use(0), 12)
        self.assertEqual(packets_of("--save=y.ivf"), packets_of(SMALL))

    def test_paths_with_spaces(self):
        room = self.folder()
        path = room / "a clip of é ' \" $x.ivf"
        path.write_bytes(SMALL.read_bytes())
        with self.session(path, sources=[path], save=f"{path} 2") as stream:
            self.assertEqual(stream.use(1), 12)
        self.assertEqual(packets_of(f"{path} 2"), packets_of(SMALL))

    def test_packets_are_bytes(self):
        with self.session() as stream:
            for data in (5, "00", [1, 2], None):
                with self.assertRaises(TypeError):
                    stream.insert(0, data)
            for data in (b"\1\2", bytearray(b"\1\2"), memoryview(b"\1\2")):
                stream.insert(0, data)
                self.assertEqual(stream.packet(0), b"\1\2")
            self.assertEqual(stream.count().packets, 15)

    def test_numbers(self):
        with self.session() as stream:
            for number in (-1, 1 << 64):
                with self.assertRaises(ValueError):
                    stream.frame(number)
            for number in (1.0, "1", None):
                with self.assertRaises(TypeError):
                    stream.frame(number)
            self.assertEqual(stream.count().packets, 12)

    def test_sources_are_a_list(self):
        for sources in (str(SMALL), SMALL, bytes(SMALL)):
            with self.assertRaisesRegex(TypeError, "sources is a list of paths"):
                Session(SMALL, sources=sources)
        with self.assertRaisesRegex(ValueError, "separates the paths of sources by `:`"):
            Session(SMALL, sources=["a:b.ivf"])
        with self.assertRaisesRegex(ValueError, "7 are the most"):
            Session(SMALL, sources=8 * ["-"])

    def test_a_script_is_one_line(self):
        with self.session() as stream:
            for node in ("trim 0 0 1\ndelete 0", "trim 0 0 1\0", "trim 0 0 1\r"):
                with self.assertRaisesRegex(ValueError, "a script is one line"):
                    stream.script(node)
            self.assertEqual(stream.count(), Count(12, 12))

    def test_one_request_a_call(self):
        with self.session("-") as stream:
            # None of these has a reply, or they have two.
            for line in ("", " ", "# a comment", "  # a comment", "\r", "#\r", "count\ncount", "count\n"):
                with self.assertRaises(ValueError):
                    stream.request(line)
            for line in ("\t", "\xa0", "\x1c", " count\t", "é", "count\r\r"):
                with self.assertRaises(Refused):
                    stream.request(line)
            self.assertEqual(stream.request(" count \r"), "packets 0 frames 0")

    def test_save_is_no_input(self):
        room = self.folder()
        path = room / "a.ivf"
        path.write_bytes(SMALL.read_bytes())
        os.link(path, room / "b.ivf")
        os.symlink(path, room / "c.ivf")
        for other in (path, f"{room}/./a.ivf", room / "b.ivf", room / "c.ivf"):
            with self.assertRaisesRegex(ValueError, "are one file"):
                Session(path, save=other)
            with self.assertRaisesRegex(ValueError, "are one file"):
                Session("-", sources=["-", path], save=other)
        self.assertEqual(path.read_bytes(), SMALL.read_bytes())

    def test_reasons(self):
        with self.session(explain=True) as stream:
            for call in (
                lambda: stream.delete(99),
                lambda: stream.frame(99),
                lambda: stream.request("delete x"),
                lambda: stream.request("é"),
            ):
                with self.assertRaises(Refused) as refused:
                    call()
                self.assertTrue(refused.exception.reason)
                self.assertIn(refused.exception.reason, str(refused.exception))
            self.assertEqual([stream.frame(4).i420()], frames_of(SMALL, [4]))
            with self.assertRaises(Refused) as refused:
                stream.request("insert 0 0 zz")
            self.assertIn("zz", refused.exception.reason)

    def test_errors_are_explained(self):
        tables = self.folder() / "tables"
        tables.write_bytes(b"few")
        with self.assertRaises(Ended) as ended:
            Session(SMALL, explain=True, engine="program", tables=tables)
        self.assertEqual(ended.exception.status, 1)
        self.assertGreater(len(ended.exception.text.splitlines()), 1)


if __name__ == "__main__":
    unittest.main()
