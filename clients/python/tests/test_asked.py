"""What the client asks the session for: packets that undo brings back, the facts of packets, and the frames of scripts,
against a plain model and against vp8list.
"""

import json
import random
import subprocess
import threading
import unittest
from unittest import mock

from support import DATA, ODD, SLOW, SMALL, Case, crash, packets_of, serve
from wokureti import Ended, Refused
from wokureti.base import programs
from wokureti.media import ivf
from wokureti.session.listing import common
from wokureti.session.origins import first_change, joined, runs_of
from wokureti.page.opened import Opened, frame_at, group_of

HIDDEN, SCENES = DATA / "hidden-altref.ivf", DATA / "scene-cuts.ivf"
# Packets that drop a frame, that decoding refuses, and that are sound.
BYTES = [
    b"",
    b"",
    b"\x11\x00",
    b"\x10\x00",
    bytes(10),
    b"\x10\x00\x00",
    packets_of(SMALL)[0],
    packets_of(SMALL)[3],
    packets_of(ODD)[0],
    packets_of(SCENES)[4],
]


class Model:
    """The packets of each source, as docs/reference/requests.md says what edits do: pairs of a time stamp and bytes."""

    forged = {}

    def __init__(self, paths):
        self.sources = [ivf.read_packets(path)[1] if path != "-" else [] for path in paths]
        self.current, self.script = 0, "-"

    def make(self, line):
        word, *rest = line.split()
        packets = self.sources[self.current]
        if word == "script":
            self.script = " ".join(rest)
            return
        if word in ("insert", "replace"):
            data = b"" if rest[-1] == "-" else bytes.fromhex(rest[-1])
            if word == "insert":
                packets.insert(int(rest[0]), (int(rest[1]), data))
            else:
                packets[int(rest[0])] = (packets[int(rest[0])][0], data)
            return
        numbers = list(map(int, rest))
        if word == "use":
            self.current = numbers[0]
        elif word == "delete":
            packets.pop(numbers[0])
        elif word == "move":
            packets.insert(numbers[1], packets.pop(numbers[0]))
        elif word == "copy":
            packets.insert(numbers[2], self.sources[numbers[0]][numbers[1]])
        elif word in ("hide", "show"):
            stamp, data = packets[numbers[0]]
            packets[numbers[0]] = (stamp, bytes([data[0] | 16 if word == "show" else data[0] & 0xEF]) + data[1:])
        else:
            at, *size = numbers
            packets.insert(at, (packets[at - 1][0] if at else 0, self.forge(word, size or self.size_before(at))))

    def size_before(self, at):
        """The size in the last packet with a key tag before one."""
        return ivf.key_size([data for _, data in self.sources[self.current][:at] if ivf.is_key(data)][-1])

    def forge(self, word, size):
        key = (word, *size)
        if key not in self.forged:
            replies = serve("-", [f"blank 0 {size[0]} {size[1]}", "hold 1", "packet 0", "packet 1"])
            self.forged[("blank", *size)], self.forged[("hold", *size)] = (
                bytes.fromhex(reply.split()[2]) for reply in replies[2:]
            )
        return self.forged[key]

    def frames(self):
        """The source and the packet of each frame of the script, which has no fade and no crop."""
        shown = [[place for place, (_, data) in enumerate(packets) if ivf.is_shown(data)] for packets in self.sources]
        return [(source, shown[source][frame]) for source, frame in model_origins(self.script, list(map(len, shown)))]


def random_line(choose, counts, current):
    """An edit of sources with so many packets, which may be refused."""
    count = counts[current]
    at, data = choose.randrange(count + 2), choose.choice(BYTES).hex() or "-"
    other = choose.randrange(len(counts))
    lines = [
        f"insert {at} {choose.randrange(1 << 64)} {data}",
        f"replace {at} {data}",
        f"delete {at}",
        f"delete {at}",
        f"move {at} {choose.randrange(count + 1)}",
        f"copy {other} {choose.randrange(counts[other] + 1)} {at}",
        f"blank {at} {choose.randrange(34)} 17",
        f"hold {at}",
        f"hide {at}",
        f"show {at}",
        f"use {choose.randrange(len(counts) + 1)}",
        f"script {random_script(choose, len(counts))}",
    ]
    return choose.choice(lines)


def model_origins(script, counts):
    """The source of each frame of a script of source, trim, splice and parts, and its frame there, for sources of so
    many frames.
    """
    sources = [[(source, frame) for frame in range(count)] for source, count in enumerate(counts)]
    nodes = [sources[0]]
    for text in script.split(";") if script != "-" else ():
        word, *rest = text.split()
        one, *rest = map(int, rest)
        if word == "source":
            made = sources[one]
        elif word == "splice":
            made = nodes[one] + nodes[rest[0]]
        else:
            made = [
                frame
                for node, first, count in zip(*[iter([one, *rest])] * 3)
                for frame in nodes[node][first : first + count]
            ]
        nodes.append(made)
    return nodes[-1]


def random_script(choose, sources, kinds=("source", "trim", "splice", "parts")):
    nodes = []
    for number in range(choose.randrange(5)):
        word, node = choose.choice(kinds), choose.randrange(number + 1)
        rest = {
            "source": f"{choose.randrange(sources)}",
            "trim": f"{node} {choose.randrange(6)} {choose.randrange(1, 9)}",
            "splice": f"{node} {choose.randrange(number + 1)}",
            "parts": " ".join(
                f"{choose.randrange(number + 1)} {choose.randrange(6)} {choose.randrange(5)}"
                for _ in range(choose.randrange(1, 5))
            ),
            "crop": f"{node} 0 {2 * choose.randrange(2)} {choose.choice([2, 7, 16, 40])} {choose.choice([1, 5, 16])}",
            "fade": (
                f"{node} {choose.randrange(4)} {choose.randrange(1, 5)}"
                f" {choose.choice([0, 256])} {choose.choice([0, 256])}"
            ),
        }[word]
        nodes.append(f"{word} {rest}")
    return "; ".join(nodes) or "-"


def listed(path):
    """What vp8list says of a file."""
    done = subprocess.run(
        [programs.find("vp8list"), path, "--json"], capture_output=True, timeout=20 * SLOW, check=True
    )
    return [json.loads(line) for line in done.stdout.splitlines()]


class AskedCase(Case):
    LIMIT = 120

    def packets(self, stream, sources):
        """The packets of each source, by the question `packet`."""
        found = []
        for source in range(sources):
            count = len(stream.packets(source=source))
            answers = [
                answer.split() for answer in stream.ask_all([f"packet {index}" for index in range(count)], source)
            ]
            found.append([(int(stamp), b"" if data == "-" else bytes.fromhex(data)) for _, stamp, data in answers])
        return found

    def counts(self, stream):
        return list(map(len, stream.edits.contents().streams))


class Packets(AskedCase):
    def test_random_edits_undone_and_made_again(self):
        """After each step the packets, the current source and the script are those of the model, which is made anew
        from the list of edits.
        """
        choose = random.Random(311)
        for paths in ((SMALL, ODD, "-"), (HIDDEN, SCENES)):
            stream, steps = self.session(paths[0], sources=paths[1:], cache=4), 0
            while steps < 120:
                act = choose.random()
                try:
                    if act < 0.2:
                        stream.undo()
                    elif act < 0.35:
                        stream.redo()
                    elif act < 0.5:
                        stream.edits.run_step(
                            [
                                random_line(choose, self.counts(stream), stream.edits.current)
                                for _ in range(choose.randrange(1, 6))
                            ]
                        )
                    else:
                        stream.request(random_line(choose, self.counts(stream), stream.edits.current))
                except Refused:
                    pass
                steps += 1
                model = Model(paths)
                for line in stream.edits:
                    model.make(line)
                self.assertEqual(self.packets(stream, len(paths)), model.sources, list(stream.edits))
                contents = stream.edits.contents()
                self.assertEqual(
                    (contents.current, contents.script, self.counts(stream)),
                    (model.current, model.script, list(map(len, model.sources))),
                )
                # The client knows which packet each of them is: its bytes are found by its number.
                for source, packets in enumerate(model.sources):
                    numbers = contents.streams[source]
                    self.assertEqual(list(contents.data(numbers)), [data for _, data in packets])
            while stream.undo():
                pass
            self.assertEqual(self.packets(stream, len(paths)), Model(paths).sources)
            stream.close()

    def test_steps_that_are_refused_are_taken_back(self):
        """Those after the refused edit are made on other packets than was thought; so are those of an undo of which one
        is refused.
        """
        choose, refused = random.Random(319), 0
        stream, wanted = self.session(SMALL, sources=[ODD], cache=1), Model([SMALL, ODD]).sources
        for turn in range(250):
            lines = [random_line(choose, [12, 12], 0) for _ in range(choose.randrange(2, 9))]
            try:
                stream.edits.run_step(lines)
                stream.undo()
            except Refused:
                refused += 1
            self.assertEqual((self.packets(stream, 2), list(stream.edits)), (wanted, []), lines)
            # What is left in the list of what was undone can be made again.
            if turn % 5 == 0 and stream.edits.undone:
                made = stream.redo()
                stream.undo()
                self.assertEqual((stream.edits.undone, self.packets(stream, 2)), (made, wanted))
        self.assertGreater(refused, 50)
        self.assertLess(refused, 245)

    def test_what_a_file_has_is_not_asked_for(self):
        with self.session(SMALL, sources=[ODD]) as stream:
            real, asked = stream._exchange, []
            stream._exchange = lambda *lines, deadline: asked.extend(lines) or real(*lines, deadline=deadline)
            # Nothing is known of the packets yet.
            stream.delete(3)
            stream.edits.contents()
            stream.delete(range(2, 9))
            stream.edits.run_step(["use 1", "delete 0", "use 0"])
            stream.hide(1)
            stream.delete(range(2, 4))
            # The packet that was hidden is none of the file.
            stream.delete(1)
            stream.undo()
            stream.delete(range(0, 2))
            self.assertEqual(
                [line for line in asked if line.startswith(b"packet")],
                [b"packet 3", b"packet 1", b"packet 1", b"packet 0"],
            )
            del stream._exchange
            while stream.undo():
                pass
            self.assertEqual(self.packets(stream, 2), Model([SMALL, ODD]).sources)

    def test_a_list_that_is_read_can_be_undone(self):
        choose, path = random.Random(312), self.folder() / "list"
        with self.session(SMALL, sources=[ODD], edits=path) as stream:
            while len(stream.edits) < 40:
                try:
                    stream.request(random_line(choose, self.counts(stream), stream.edits.current))
                except Refused:
                    pass
        with self.session(SMALL, sources=[ODD], edits=path) as stream:
            while stream.undo():
                model = Model([SMALL, ODD])
                for line in stream.edits:
                    model.make(line)
                self.assertEqual(self.packets(stream, 2), model.sources)

    def test_questions_are_no_edits(self):
        with self.session() as stream:
            for line in ("delete 0", "use 0", " script -", "hold 1"):
                with self.assertRaises(ValueError):
                    stream.ask(line)
            for question, source, word in (
                ("packet 0", 4, "Source"),
                ("packet 12", None, "Place"),
                ("nonsense", None, "Line"),
                ("list 13 0", 0, "Place"),
            ):
                with self.assertRaises(Refused) as caught:
                    stream.ask(question, source)
                self.assertEqual(caught.exception.word, word)
            self.assertEqual((stream.ask("script"), stream.count().packets, list(stream.edits)), ("script -", 12, []))

    def test_an_answer_of_many_lines(self):
        with self.session(SCENES) as stream:
            count = stream.count().packets
            answers = stream.ask_all(
                ["list 0 0", f"list 0 {count}", "packet 0", f"list {count} 5", "list 1 1", "count"]
            )
            self.assertEqual(
                [answer.split("\n")[0].split()[:2] for answer in answers],
                [
                    ["lines", "0"],
                    ["lines", str(count)],
                    answers[2].split()[:2],
                    ["lines", "0"],
                    ["lines", "1"],
                    ["packets", str(count)],
                ],
            )
            self.assertEqual([len(answer.split("\n")) for answer in answers], [1, count + 1, 1, 1, 2, 1])


class Facts(AskedCase):
    def assertListed(self, stream, source, path):
        """The facts of a source are those of vp8list of the file that is saved of it: those that are asked for, and
        those that are stored.
        """
        stream.save(path, source=source)
        wanted = listed(path)
        self.assertEqual(stream.packets(source=source), wanted)
        contents = stream.edits.contents()
        seen, listing = contents.listing.look(source), contents.listing
        self.assertEqual(len(seen.causes), len(wanted))
        for number, cause, fact in zip(seen.stream, seen.causes, wanted):
            self.assertEqual(listing.causes[cause] or None, fact["cause"])
            self.assertEqual((contents.size(number), contents.stamp(number)), (fact["bytes"], fact["stamp"]))
            self.assertEqual(
                (contents.has_key_tag(number), contents.is_shown(number)),
                (fact["kind"] == "key", fact["show"] == "shown"),
            )
            if fact["size"]:
                self.assertEqual("{}x{}".format(*listing.pictures[number]), fact["size"])

    def test_several_hundred_lists(self):
        choose, path = random.Random(313), self.folder() / "saved.ivf"
        compared = refused = dropped = 0
        for turn in range(300):
            paths = choose.choice([(SMALL, ODD, "-"), (HIDDEN, SCENES), ("-", SMALL)])
            stream = self.session(paths[0], sources=paths[1:], cache=1)
            # A few edits at a time, so that what was listed before is taken over.
            for _ in range(choose.randrange(1, 4)):
                for _ in range(choose.randrange(1, 5)):
                    try:
                        choose.choice(
                            [
                                stream.undo,
                                stream.redo,
                                *[
                                    lambda: stream.request(
                                        random_line(choose, self.counts(stream), stream.edits.current)
                                    )
                                ]
                                * 8,
                            ]
                        )()
                    except Refused:
                        pass
                stream.edits.contents().listing.learn()
            for source in range(len(paths)):
                self.assertListed(stream, source, path)
                facts = stream.packets(source=source)
                compared, refused, dropped = (
                    compared + 1,
                    refused + any(fact["cause"] for fact in facts),
                    dropped + any(fact["bytes"] == 0 for fact in facts),
                )
            stream.close()
        self.assertGreater(compared, 600)
        self.assertGreater(refused, 30)
        self.assertGreater(dropped, 10)

    def test_little_is_asked_again(self):
        """An edit asks for a few packets around it, also if a refused packet loses all that follow."""
        packets = packets_of(SCENES)
        stream = self.session("-")
        stream.edits.run_step(
            [f"insert {index} {index} {(packets[0] if index == 0 else packets[1]).hex()}" for index in range(2000)]
        )
        contents = stream.edits.contents()
        contents.listing.learn()
        real, asked = stream.ask_all, []
        stream.ask_all = lambda questions, *rest: asked.extend(questions) or real(questions, *rest)
        for line, most in (
            ("delete 900", 1),
            ("copy 0 5 7", 2),
            ("move 10 1000", 992),
            ("hide 50", 2),
            ("replace 60 1000", 1941),
            ("replace 60 -", 1941),
            ("delete 1500", 1),
        ):
            asked.clear()
            stream.request(line)
            contents.listing.learn()
            counts = [int(question.split()[2]) for question in asked if question.startswith("list")]
            self.assertLessEqual(sum(counts), most, line)
            self.assertLessEqual(len(counts), 10, line)
        del stream.ask_all
        self.assertListed(stream, 0, self.folder() / "saved.ivf")

    def test_edits_while_a_stream_is_listed(self):
        choose = random.Random(314)
        with mock.patch("wokureti.session.listing.PAGE", 3), mock.patch("wokureti.session.listing.MOST_PAGE", 5):
            for _ in range(30):
                stream = self.session(SCENES)
                listing = stream.edits.contents().listing
                while 0 not in listing.seen:
                    listing.go_on(0)
                    if choose.random() < 0.4:
                        try:
                            stream.request(random_line(choose, self.counts(stream), 0))
                        except Refused:
                            pass
                        stream.use(0)
                self.assertListed(stream, 0, self.folder() / "saved.ivf")
                stream.close()

    def test_a_packet_that_was_never_listed(self):
        """It was made and taken away in one step, and comes back by undo; or its bytes are wanted."""
        with self.session() as stream:
            contents = stream.edits.contents()
            contents.listing.learn()
            stream.edits.run_step(["insert 3 77 1000", "delete 3"])
            stream.edits.run_step(["hold 5", "replace 5 -"])
            [made, *_] = (number for number in range(contents.of_files, contents.of_files + 1))
            self.assertEqual(
                (contents.stamp(made), contents.bytes(made), contents.size(made), contents.is_shown(made)),
                (77, b"\x10\x00", 2, True),
            )
            stream.undo()
            self.assertListed(stream, 0, self.folder() / "saved.ivf")

    def test_what_arrays_have_in_common(self):
        choose = random.Random(315)
        for _ in range(300):
            one, other = ([choose.randrange(3) for _ in range(choose.randrange(12))] for _ in range(2))
            wanted = next((place for place, (a, b) in enumerate(zip(one, other)) if a != b), min(len(one), len(other)))
            self.assertEqual((common(one, other), common(one[::-1], other[::-1], -1)), (wanted, wanted))


class Frames(AskedCase):
    def test_origins_of_random_scripts(self):
        choose = random.Random(316)
        for turn in range(150):
            paths = choose.choice([(SMALL, ODD), (HIDDEN, SCENES, SMALL)])
            stream = self.session(paths[0], sources=paths[1:], cache=1)
            for _ in range(choose.randrange(8)):
                try:
                    stream.request(random_line(choose, self.counts(stream), stream.edits.current))
                except Refused:
                    pass
            stream.request(f"script {random_script(choose, len(paths))}")
            model = Model(paths)
            for line in stream.edits:
                model.make(line)
            frames = stream.count().frames
            with mock.patch("wokureti.session.origins.PAGE", choose.choice([1, 4, 4096])):
                runs = runs_of(stream)
                part = runs_of(stream, end=min(frames, 5))
            asked = stream.origins(0, frames)
            self.assertEqual([(origin["source"], origin["packet"]) for origin in asked], model.frames())
            told = [(source, first + turn) for count, source, first in joined(runs) for turn in range(count)]
            self.assertEqual(told, [(origin["source"], origin["source_frame"]) for origin in asked])
            self.assertEqual([(run.source, run.first + turn) for run in part for turn in range(run.count)], told[:5])
            # Nodes of every kind.
            stream.request(
                f"script {random_script(choose, len(paths), ('source', 'trim', 'splice', 'parts', 'crop', 'fade'))}"
            )
            asked = stream.origins(0, stream.count().frames)
            changed = [node for run in runs_of(stream) for _ in range(run.count) for node in [list(run.changed)]]
            self.assertEqual(changed, [origin["changed"] for origin in asked])
            self.assertEqual(
                first_change(runs_of(stream)),
                min((origin["changed"][0] for origin in asked if origin["changed"]), default=None),
            )
            stream.close()

    def test_views_of_random_edits(self):
        """What the page is told of frames and packets is what the questions say."""
        choose, live = random.Random(317), Opened({"stream": SCENES, "sources": [SMALL, HIDDEN]})
        self.addCleanup(live.close)
        for _ in range(60):
            with live.lock:
                counts, current = self.counts(live.session), live.session.edits.current
            try:
                live.run(choose.choice(["undo", "redo", *[random_line(choose, counts, current)] * 5]))
            except Refused:
                pass
            view = live.current_view()
            asked = live.session.origins(0, view.frames)
            runs = view.runs()[1]
            self.assertEqual(
                [(source, first + turn) for count, source, first in runs for turn in range(count)],
                [(origin["source"], origin["source_frame"]) for origin in asked],
            )
            self.assertEqual(view.script, live.session.ask("script").removeprefix("script ").replace(";", "; "))
            for source in range(3):
                facts = live.session.packets(source=source)
                self.assertEqual(len(view.streams[source]), len(facts))
                self.assertEqual(view.count_shown(view.streams[source]), sum(fact["show"] == "shown" for fact in facts))

    def test_frames_and_groups_of_a_preview(self):
        with self.session(HIDDEN) as stream:
            facts = stream.packets()
            shown = [fact["packet"] for fact in facts if fact["frame"] is not None]
            for packet in range(len(facts)):
                after = next((place for place in shown if place >= packet), shown[-1])
                self.assertEqual(frame_at(stream, 0, packet), facts[after]["frame"])
            stream.hide(len(facts) - 1)
            self.assertEqual(frame_at(stream, 0, len(facts) - 1), stream.count().frames - 1)
        with self.session(SCENES) as stream, mock.patch("wokureti.page.opened.PAGE", 5):
            keys = [fact["packet"] for fact in stream.packets() if fact["kind"] == "key"]
            count = stream.count().packets
            for packet in range(count + 2):
                at = min(packet, count - 1)
                self.assertEqual(
                    group_of(stream, packet),
                    (max(key for key in keys if key <= at), min([key for key in keys if key > at] + [count])),
                )
        with self.session("-") as stream:
            self.assertEqual((group_of(stream, 0), frame_at(stream, 0, 0)), ((0, 0), 0))


class Failures(AskedCase):
    def state(self, stream):
        return self.packets(stream, 2), list(stream.edits), stream.edits.undone, stream.edits.current

    def test_an_exception_in_the_middle(self):
        """The session is over, and goes on from its list as it was before the call."""
        for act in (
            lambda stream: stream.delete(3),
            lambda stream: stream.delete(range(2, 9)),
            lambda stream: stream.undo(),
            lambda stream: stream.redo(),
        ):
            stream = self.session(SMALL, sources=[ODD], engine="program")
            stream.replace(2, b"\1")
            stream.delete(range(4, 7))
            stream.undo()
            before = self.state(stream)
            with mock.patch.object(stream._pipes, "answer", side_effect=KeyboardInterrupt), self.assertRaises(
                KeyboardInterrupt
            ):
                act(stream)
            with self.assertRaises(Ended):
                stream.count()
            again = self.session(SMALL, sources=[ODD], resume=stream.edits)
            self.assertEqual(self.state(again), before)
            again.undo()
            self.assertEqual(self.packets(again, 2), Model([SMALL, ODD]).sources)

    def test_the_program_is_killed(self):
        for act in (
            lambda stream, progress: stream.edits.run_step(["delete 0"] * 1500, progress=progress),
            lambda stream, progress: stream.edits.run_step(["hold 1", "use 1"] * 600, progress=progress),
        ):
            room = self.folder()
            stream = self.session(SMALL, sources=[ODD], edits=room / "list")
            stream.edits.run_step([f"copy 0 {index} {12 + index}" for index in range(2000)])
            stream.delete(3)
            stream.undo()
            before = self.state(stream)
            counts = []

            def progress(done):
                counts.append(done)
                crash(stream)

            with self.assertRaises(Ended):
                act(stream, progress)
            self.assertEqual(len(counts), 1)
            again = self.session(SMALL, sources=[ODD], resume=stream.edits)
            self.assertEqual(self.state(again), before)
            self.assertEqual(again.redo(), ["delete 3"])
            again.undo()
            self.assertEqual(self.state(again)[0], before[0])
            again.close()

    def test_progress_counts_edits(self):
        with self.session(SMALL) as stream:
            counts = []
            stream.edits.run_step(["hold 1", "delete 1"] * 800, progress=counts.append)
            self.assertEqual((counts[-1], counts), (1600, sorted(counts)))
            self.assertGreater(len(counts), 2)

    def test_no_memory_for_what_an_edit_loses(self):
        """The edit is made, and cannot be taken back; nothing changes then."""
        with self.session(SMALL, sources=[ODD]) as stream:
            stream.hide(1)
            real = stream._pipes.exchange

            def exchange(lines, deadline):
                return [
                    ("refused NoMemory", None) if line.startswith(b"packet") else answer
                    for line, answer in zip(lines, real(lines, deadline))
                ]

            with mock.patch.object(stream._pipes, "exchange", exchange):
                stream.delete(1)
            before = self.state(stream)
            for _ in range(2):
                with self.assertRaises(Refused) as caught:
                    stream.undo()
                self.assertEqual(caught.exception.word, "NoMemory")
                self.assertEqual(self.state(stream), before)

    def test_two_threads(self):
        """One edits and takes back, others read packets by their numbers, whose bytes stay the same."""
        stream, choose = self.session(SMALL, sources=[ODD], cache=2), random.Random(318)
        contents, known, wrong, done = stream.edits.contents(), {}, [], threading.Event()

        def note():
            with stream.turn():
                for source, packets in enumerate(self.packets(stream, 2)):
                    known.update(zip(contents.streams[source], [data for _, data in packets]))

        def read(seed):
            mine = random.Random(seed)
            while not done.is_set():
                numbers = mine.sample(list(known.items()), min(9, len(known)))
                try:
                    found = list(contents.data([number for number, _ in numbers]))
                    if found != [data for _, data in numbers]:
                        wrong.append("other bytes")
                    facts = stream.packets(source=mine.randrange(2))
                    if [fact["packet"] for fact in facts] != list(range(len(facts))):
                        wrong.append("other packets")
                except Exception as error:
                    wrong.append(repr(error))
                    return

        note()
        readers = [threading.Thread(target=read, args=(seed,)) for seed in range(2)]
        for thread in readers:
            thread.start()
        for _ in range(150):
            try:
                with stream.turn():
                    lines = [
                        random_line(choose, self.counts(stream), stream.edits.current)
                        for _ in range(choose.randrange(1, 4))
                    ]
                    choose.choice([stream.undo, stream.redo, *[lambda: stream.edits.run_step(lines)] * 4])()
                    note()
            except Refused:
                pass
        done.set()
        for thread in readers:
            thread.join()
        self.assertEqual(wrong[:3], [])


if __name__ == "__main__":
    unittest.main()
