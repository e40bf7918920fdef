"""Captures of calls: each format and field, what is lost, two captures of one call, and files that are damaged."""

import json
import random
import shutil
import subprocess
import time
import unittest
from unittest import mock

import captured
from captured import descriptor, ethernet, ipv4, ipv6, janus, lossy, payloads, pcap, pcapng, rtp, rtpdump
from support import CLIP, DATA, SLOW, Case, command, packets_of
from wokureti.media import ivf
from wokureti.calls import captures, partitions, recordings, rtp as streams

# A clip whose frames take several packets of RTP, and one with several token partitions.
PACKETS = packets_of(CLIP)[:60]


def on_network(packets):
    return [ethernet(ipv4(packet)) for packet in packets]


class CallCase(Case):
    def setUp(self):
        super().setUp()
        self.room = self.folder()
        patch = mock.patch("wokureti.calls.recordings.say")
        patch.start()
        self.addCleanup(patch.stop)

    def write(self, data, name="call.pcap"):
        path = self.room / name
        path.write_bytes(data)
        return path

    def call(self, data, **facts):
        """What is read of a capture of these bytes."""
        path = self.write(data)
        return recordings.call_of(recordings.choose(path, "call", **facts).frames)

    def assertWhole(self, data, packets=PACKETS, **facts):
        """All packets are read, and nothing is missing."""
        call = self.call(data, **facts)
        self.assertEqual(([one for _, one in recordings.packets_of(call)], call.missing), (packets, []))
        return call

    def refusal(self, data, name="call.pcap"):
        with self.assertRaises(ValueError) as refused:
            recordings.choose(self.write(data, name), name)
        return str(refused.exception)


class Formats(CallCase):
    def test_files(self):
        sent = payloads(PACKETS)
        for order in "<>":
            for data in (
                pcap(on_network(sent), order=order),
                pcap(on_network(sent), order=order, nano=True),
                pcapng(on_network(sent), order=order),
                pcapng(on_network(sent), order=order, simple=True),
                pcapng(on_network(sent), order=order, old=True),
            ):
                self.assertWhole(data)
        self.assertWhole(rtpdump(sent))
        self.assertWhole(janus(sent))
        self.assertWhole(janus(sent, version=1))

    def test_links(self):
        sent = payloads(PACKETS)
        tag, cooked, cooked2 = b"\x81\0\0\5", bytes(14) + b"\x08\0", b"\x86\xdd" + bytes(18)
        session = b"\x88\x64\x11\0\0\1\0\0\0\x21"
        for link, made in (
            (1, [ethernet(ipv6(one)) for one in sent]),
            (1, [ethernet(ipv4(one), (tag, b"\x88\xa8\0\1")) for one in sent]),
            (1, [bytes(12) + session + ipv4(one) for one in sent]),
            (1, [ethernet(ipv6(one, options=b"\x3c\0" + bytes(6) + b"\x11\0" + bytes(6))) for one in sent]),
            (1, [ethernet(ipv4(one, options=bytes(8))) for one in sent]),
            (1, [ethernet(ipv4(one, has_sum=False)) for one in sent]),
            (101, [ipv4(one) for one in sent]),
            (229, [ipv6(one) for one in sent]),
            (0, [b"\2\0\0\0" + ipv4(one) for one in sent]),
            (113, [cooked + ipv4(one) for one in sent]),
            (276, [cooked2 + ipv6(one) for one in sent]),
        ):
            self.assertWhole(pcap(made, link))
            self.assertWhole(pcapng(made, link))

    def test_sums_that_were_not_made_yet(self):
        # Where it is sent, a capture has the sums that the network card makes later.
        sent = [ethernet(ipv4(one)) for one in payloads(PACKETS)]
        self.assertWhole(pcap([one[:40] + b"\x12\x34" + one[42:] for one in sent]))

    def test_refused(self):
        sent = payloads(PACKETS)
        random_bytes = random.Random(5)
        secret = [rtp(place, place // 4 * 3600, random_bytes.randbytes(600), place % 4 == 3) for place in range(200)]
        opus = [rtp(place, place * 960, b"\x78" + random_bytes.randbytes(60), kind=111) for place in range(200)]
        sound = [rtp(place, place * 160, random_bytes.randbytes(160), kind=0) for place in range(200)]
        for data, text in (
            (pcap(on_network(secret)), "encrypted (SRTP)"),
            (b"no capture, but long enough for a head", "does not begin as a capture"),
            (pcap(on_network([b"\x16\xfe\xfd" + bytes(40), *opus])), "encrypted (SRTP)"),
            (pcap(on_network(opus)), "none of its streams of RTP is VP8 with a key packet: they are payload type 111"),
            (pcap(on_network(sound)), "they are G.711 sound"),
            (pcap(on_network([bytes(30)] * 20)), "no packets of RTP"),
            (pcap([]), "no packets of RTP"),
            (pcap([bytes(100)] * 20, 105), "link type 105"),
            (janus(sent, facts={"t": "a", "c": "opus"}), "a recording of sound"),
            (janus(sent, facts={"t": "v", "c": "h264"}), "a recording of h264, and not of VP8"),
            (janus(sent, facts={"t": "v", "c": "vp8", "e": True}), "encrypted from one end to the other"),
        ):
            said = self.refusal(data)
            self.assertIn(text, said)
            self.assertTrue(said.startswith(("call.pcap is a ", "call.pcap: it does not")), said)
        status, out, errors = command("cat", self.write(pcap(on_network(secret)), "secret.pcap"), "-")
        self.assertEqual(
            (status, out, "secret.pcap is a pcap file" in errors, "encrypted" in errors), (2, b"", True, True), errors
        )

    def test_several_streams(self):
        other = packets_of(DATA / "small.ivf")
        small = payloads(other, first=7, ssrc=5, kind=100)
        sent = [one for pair in zip(payloads(PACKETS), small + [b""] * 1000) for one in pair if one] + small[
            len(payloads(PACKETS)) :
        ]
        data = pcap(on_network(sent))
        self.assertWhole(data)
        self.assertWhole(data, number=1)
        self.assertWhole(data, other, number=2)
        path = self.write(data)
        out = self.room / "out.ivf"
        status, _, errors = command("repair", path, out, "--stream", 2)
        self.assertEqual((status, packets_of(out)), (0, other), errors)
        self.assertIn("stream 2 (taken): SSRC 00000005, payload type 100", errors)
        self.assertIn("SSRC 11223344, payload type 96", errors)
        status, _, errors = command("list", "--stream", 3, path)
        self.assertEqual((status, "has 2 streams of VP8: --stream 3 is none of them" in errors), (2, True), errors)


class Fields(CallCase):
    def test_descriptors(self):
        # Each field with and without the others, as the figure of the RFC has them.
        for picture in (None, 5, 300):
            for wide in (True, False):
                for base in (None, 9):
                    for layer in (None, 2):
                        for key in (None, 7):
                            for extended in (None, True):
                                text = descriptor(True, 0, picture, wide, base, layer, key, extended)
                                found = streams.descriptor_of(text + b"rest")
                                number = None if picture is None else picture if wide else picture % 128
                                self.assertEqual(
                                    found,
                                    (
                                        True,
                                        len(text),
                                        number,
                                        base,
                                        layer if layer is not None else None,
                                        wide and picture is not None,
                                    ),
                                )
                                for end in range(1, len(text)):
                                    self.assertIn(
                                        streams.descriptor_of(text[:end]),
                                        (None,) if text[0] & 0x80 else (None, found),
                                        (text, end),
                                    )
        self.assertEqual(streams.descriptor_of(descriptor(True, 3) + b"x")[0], False)
        self.assertEqual(streams.descriptor_of(b""), None)

    def test_headers(self):
        sent = payloads(PACKETS, extension=bytes(8), sources=(1, 2, 3))
        self.assertWhole(pcap(on_network(sent)))
        self.assertWhole(pcap(on_network(payloads(PACKETS, padding=7))))
        # What a relay passes on has a channel and a length before it.
        self.assertWhole(
            pcap(
                on_network(
                    [
                        b"\x40\x01" + len(one).to_bytes(2, "big") + one + bytes(-len(one) % 4)
                        for one in payloads(PACKETS)
                    ]
                )
            )
        )
        for pictures in (0, 120, 32760):
            for wide in (True, False):
                self.assertWhole(pcap(on_network(payloads(PACKETS, pictures=pictures, wide=wide))))
        self.assertWhole(pcap(on_network(payloads(PACKETS, pictures=1, layers=(0, 2, 1, 2)))))

    def test_packets_that_are_none_of_frames(self):
        # Packets of padding alone, with which the rate is tried out, take sequence numbers.
        sent, more = [], 0
        for packet in payloads(PACKETS):
            number = int.from_bytes(packet[2:4], "big") + more
            sent.append(packet[:2] + (number % 65536).to_bytes(2, "big") + packet[4:])
            if packet[1] & 0x80 and number % 3 == 0:
                more += 1
                sent.append(rtp(number + 1, int.from_bytes(packet[4:8], "big"), b"", padding=200))
        self.assertGreater(more, 5)
        control = bytes([0x80, 200]) + bytes(26)
        self.assertWhole(pcap(on_network([one for packet in sent for one in (control, packet)])))

    def test_order(self):
        # Numbers and time stamps go over their ends; packets come late, and twice.
        sent, chance = payloads(PACKETS), random.Random(3)
        self.assertEqual(
            [int.from_bytes(sent[place][2:4], "big") for place in (0, -1)], [65000, (65000 + len(sent) - 1) % 65536]
        )
        self.assertGreater(len(sent), 536)
        late = sorted(range(len(sent)), key=lambda place: place + (chance.randrange(40) if place else 0))
        self.assertWhole(pcap(on_network([sent[place] for place in late])))
        self.assertWhole(pcap(on_network([one for place in late for one in [sent[place]] * chance.randint(1, 2)])))

    def test_a_stream_without_markers(self):
        sent = [one[:1] + bytes([one[1] & 0x7F]) + one[2:] for one in payloads(PACKETS)]
        call = self.call(pcap(on_network(sent)))
        self.assertEqual([one for _, one in recordings.packets_of(call)], PACKETS)
        # Nothing says that the last one is whole.
        self.assertEqual([(one.kind, one.packet) for one in call.missing], [("cut_off", len(PACKETS) - 1)])


class Losses(CallCase):
    LIMIT = 60

    def test_each_damaged_frame_is_named(self):
        whole = dict(enumerate(PACKETS))
        for seed in range(12):
            for part in (0.0, 0.01, 0.05, 0.2):
                sent = payloads(PACKETS, pictures=seed * 3000 if seed % 2 else None)
                left = lossy(sent, part, seed)
                call = self.call(pcap(on_network(left)))
                came = {int.from_bytes(one[4:8], "big") for one in left}
                cut = {one.packet for one in call.missing if one.kind == "cut_off"}
                right = 0
                for place, frame in enumerate(call.frames):
                    number = (frame.time - 0xFFFFFF00) // 3600
                    self.assertTrue(frame.is_whole == (place not in cut))
                    self.assertTrue(
                        whole[number] == frame.data if frame.is_whole else whole[number].startswith(frame.data),
                        (seed, part, number),
                    )
                    right += frame.is_whole
                lost = [frame for frame in sent if frame not in left]
                damaged = {int.from_bytes(one[4:8], "big") for one in lost}
                # A loss after the last packet of all cannot be seen.
                self.assertEqual(right, len(PACKETS) - len(damaged), (seed, part))
                self.assertGreaterEqual(len(came), len(call.frames))

    def test_a_lost_picture_is_counted(self):
        sent = payloads(PACKETS, pictures=126, wide=False)
        times = sorted(
            {int.from_bytes(one[4:8], "big") for one in sent}, key=lambda one: (one - 0xFFFFFF00) % (1 << 32)
        )
        left = [one for one in sent if int.from_bytes(one[4:8], "big") not in times[10:13]]
        self.assertEqual(
            [tuple(one)[:2] + (one.count,) for one in self.call(pcap(on_network(left))).missing],
            [("lost_pictures", 10, 3)],
        )

    def test_a_frame_without_its_end_is_decoded(self):
        # With one token partition and with several: what is missing is zeros, which a decoder reads after an end too.
        for clip in (CLIP, DATA / "four-partitions.ivf"):
            packets = packets_of(clip)[:8]
            for number in (0, 3):
                data = packets[number]
                head = 10 if ivf.is_key(data) else 3
                first = head + (int.from_bytes(data[:3], "little") >> 5)
                for end in {first, first + 1, first + 2, (first + len(data)) // 2, len(data) - 1}:
                    made = partitions.completed(data[:end])
                    self.assertEqual(made[:end], data[:end])
                    self.assertEqual(made.strip(b"\0"), data[:end].strip(b"\0"))
                    path = self.room / "cut.ivf"
                    with open(path, "wb") as file:
                        file.writelines(
                            ivf.pieces(ivf.Head(16, 16, 30, 1), number + 1, list(enumerate([*packets[:number], made])))
                        )
                    status, out, errors = command("cat", path, "-")
                    self.assertEqual((status, out.count(b"FRAME\n") >= number + 1), (0, True), errors)

    def test_two_captures(self):
        for changes in (False, True):
            for seed in range(6):
                sent = payloads(PACKETS, pictures=77)
                # A server gives what it sends on other numbers.
                again = payloads(PACKETS, pictures=9000, first=300, start=50000, ssrc=9) if changes else sent
                one, two = lossy(range(len(sent)), 0.04, seed), lossy(range(len(sent)), 0.04, seed + 100)
                paths = [
                    self.write(pcap(on_network([made[place] for place in places])), f"{name}.pcap")
                    for name, made, places in (("one", sent, one), ("two", again, two))
                ]
                found = recordings.Searched(paths[0], "one", paths[1], "two")
                both = set(one) | set(two)
                frames = {int.from_bytes(sent[place][4:8], "big") for place in range(len(sent)) if place not in both}
                whole = [frame.data for frame in found.call.frames if frame.is_whole]
                self.assertEqual(len(whole), len(PACKETS) - len(frames), (changes, seed, found.said))
                self.assertTrue(set(whole) <= set(PACKETS))
                self.assertTrue(
                    found.said[0].startswith(f"{len(set(two) - set(one))} packets of RTP of two taken"), found.said
                )

    def test_another_call_is_refused(self):
        paths = [
            self.write(pcap(on_network(payloads(packets))), f"{name}.pcap")
            for name, packets in (("one", PACKETS), ("two", packets_of(DATA / "small.ivf")))
        ]
        out = self.room / "out.ivf"
        status, _, errors = command("repair", paths[0], out, "--second", paths[1])
        self.assertEqual(
            (status, "no packet of the second capture is one of the first" in errors, out.exists()),
            (2, True, False),
            errors,
        )

    def test_many_packets(self):
        sent = payloads(PACKETS, size=60)
        turns = 100000 // len(sent) + 1
        many = [
            one
            for turn in range(turns)
            for one in payloads(PACKETS, size=60, first=turn * len(sent), start=turn * 3600 * len(PACKETS))
        ]
        data = pcap(on_network(many))
        with self.within(15):
            self.assertEqual(len(self.call(data).frames), turns * len(PACKETS))


class Damaged(CallCase):
    LIMIT = 120

    def read(self, data):
        try:
            choice = recordings.choose(self.write(data), "call")
        except ValueError:
            return None
        return recordings.call_of(choice.frames), choice

    def test_cut_and_flipped(self):
        sent = payloads(PACKETS[:20], size=400)
        made = [
            pcap(on_network(sent)),
            pcapng(on_network(sent)),
            pcapng(on_network(sent), order=">", simple=True),
            pcap([ipv6(one) for one in sent], 229),
        ]
        chance, true, found = random.Random(11), set(PACKETS[:20]), 0
        for turn in range(200):
            data = bytearray(made[turn % len(made)])
            # The checksum of UDP finds each flip, but two in one datagram may leave it as it was.
            for at in range(chance.randrange(1000), len(data), 1000):
                if chance.random() < 0.3:
                    data[at] ^= 1 << chance.randrange(8)
            if turn % 3 == 0:
                del data[chance.randrange(len(data)) :]
            if turn % 5 == 0:
                start = chance.randrange(len(data))
                del data[start : start + chance.randrange(1, 3000)]
            read = self.read(bytes(data))
            if read is None:
                continue
            call, _ = read
            whole = [frame.data for frame in call.frames if frame.is_whole]
            found += len(whole)
            self.assertTrue(set(whole) <= true, turn)
        self.assertGreater(found, 1500)

    def test_each_end(self):
        # rtpdump and Janus have no sums: only their end is cut.
        sent = payloads(PACKETS[:4], size=300)
        for data in (rtpdump(sent), janus(sent), pcap(on_network(sent)), pcapng(on_network(sent))):
            ended = 0
            for end in range(20, len(data), 37):
                read = self.read(data[:end])
                if read is not None:
                    self.assertTrue({frame.data for frame in read[0].frames if frame.is_whole} <= set(PACKETS[:4]))
                    ended += any("ends in the middle" in text for text in read[1].damage)
            self.assertGreater(ended, 10)

    def test_packets_that_were_not_captured_whole(self):
        sent = payloads(PACKETS)
        call, choice = self.read(pcap(on_network(sent), snap=60, every=20))
        self.assertGreater(len([frame for frame in call.frames if frame.is_whole]), 15)
        self.assertFalse([frame for frame in call.frames if frame.is_whole and frame.data not in PACKETS])
        self.assertTrue(any("were not captured to their end" in text for text in choice.damage), choice.damage)
        self.assertIn("tcpdump -s 0", self.refusal(pcap(on_network(sent), snap=60)))

    def test_gap_in_the_file(self):
        data = pcap(on_network(payloads(PACKETS)))
        middle = len(data) // 2
        call, choice = self.read(data[:middle] + data[middle + 1000 :])
        self.assertTrue(any("is damaged at byte" in text for text in choice.damage), choice.damage)
        self.assertGreater(sum(frame.is_whole for frame in call.frames), len(PACKETS) - 6)


class Commands(CallCase):
    LIMIT = 60

    def setUp(self):
        super().setUp()
        self.sent = payloads(PACKETS)
        self.whole = self.write(pcap(on_network(self.sent)), "whole.pcap")
        # The last packets of frames 0 and 24.
        ends = [place for place, one in enumerate(self.sent) if one[1] & 0x80]
        self.gone = (ends[0], ends[24])
        self.lossy = self.write(
            pcap(on_network([one for place, one in enumerate(self.sent) if place not in self.gone])), "lossy.pcap"
        )

    def test_each_command(self):
        out = self.room / "out.ivf"
        status, text, errors = command("list", self.whole, "--json")
        self.assertEqual(
            (status, [json.loads(line)["bytes"] for line in text.splitlines()]),
            (0, [len(one) for one in PACKETS]),
            errors,
        )
        self.assertIn(f"SSRC 11223344, payload type 96, {len(self.sent):,} packets, 0 lost", errors)
        status, text, errors = command("check", self.whole)
        self.assertEqual((status, b"damage: 0" in text), (0, True), errors)
        status, _, errors = command("cut", self.whole, out, "--from", "f10", "--to", "f20")
        self.assertEqual((status, len([one for one in packets_of(out) if ivf.is_shown(one)])), (0, 10), errors)
        status, _, errors = command("export", self.whole, out, "-y")
        self.assertEqual((status, len(packets_of(out))), (0, len(PACKETS)), errors)
        status, text, errors = command("cat", self.whole, "-")
        self.assertEqual(
            (status, text.count(b"FRAME\n"), text.split(b"\n")[0].split()[3]), (0, len(PACKETS), b"F25:1"), errors
        )
        status, _, errors = command("repair", self.whole, out, "-y")
        self.assertEqual((status, packets_of(out)), (0, PACKETS), errors)

    def test_check_names_what_is_missing(self):
        status, text, errors = command("check", self.lossy)
        missing = [(65000 + place) % 65536 for place in self.gone]
        lines = text.decode().splitlines()
        self.assertEqual(status, 1, errors)
        for number in missing:
            self.assertTrue(
                any(line.startswith("damage: ") and f"RTP packets {number} are missing" in line for line in lines),
                (number, lines[:4]),
            )
        status, text, _ = command("check", self.lossy, "--json")
        found = [json.loads(line) for line in text.splitlines()]
        self.assertEqual(
            [one["missing"] for one in found if "missing" in one], [[[number, number]] for number in missing]
        )
        self.assertTrue(any(one["kind"] == "past_end" for one in found))
        for words in (("list",), ("export", self.room / "x.ivf"), ("cat", "-")):
            status, _, errors = command(words[0], self.lossy, *words[1:])
            self.assertEqual(
                (status, "2 packets of RTP are missing: 2 frames are cut off" in errors), (1, True), (words, errors)
            )
        self.assertEqual(command("export", self.lossy, self.room / "x.ivf", "-y", "--anyway")[0], 0)

    def test_repair(self):
        out = self.room / "out.ivf"
        status, text, errors = command("repair", self.lossy, out)
        self.assertEqual((status, len(packets_of(out))), (2, len(PACKETS)), (text, errors))
        self.assertIn(b"is cut off: RTP packets", text)
        status, text, errors = command("repair", self.lossy, out, "-y", "--second", self.whole)
        self.assertEqual((status, packets_of(out)), (1, PACKETS), (text, errors))
        self.assertIn(b"2 packets of RTP of", text)
        # The second recording may be a file of packets, and the first one too.
        status, text, errors = command("repair", self.lossy, out, "-y", "--second", CLIP)
        self.assertEqual(status in (1, 2), True, errors)
        first, given = self.room / "first.ivf", list(enumerate(PACKETS))
        with open(first, "wb") as file:
            file.writelines(
                ivf.pieces(ivf.Head(320, 180, 90000, 1), len(given), [(stamp * 3600, data) for stamp, data in given])
            )
        self.assertEqual(command("repair", first, out, "-y", "--second", self.lossy)[0], 0)
        self.assertEqual(packets_of(out), PACKETS)


class Payloaders(CallCase):
    """What other programs make of a clip."""

    LIMIT = 60

    @unittest.skipUnless(shutil.which("gst-launch-1.0") and shutil.which("ffmpeg"), "no gst-launch-1.0 or ffmpeg")
    def test_gstreamer(self):
        clip = self.room / "clip.webm"
        subprocess.run(["ffmpeg", "-v", "error", "-i", CLIP, "-c", "copy", clip], check=True, timeout=20 * SLOW)
        for mode in ("none", "7-bit", "15-bit"):
            for size in (300, 1200, 8000):
                out = self.room / "sent"
                words = (
                    f"filesrc location={clip} ! matroskademux ! rtpvp8pay mtu={size} picture-id-mode={mode} !"
                    f" rtpstreampay ! filesink location={out}"
                )
                made = subprocess.run(
                    ["gst-launch-1.0", "-q", *words.split()], capture_output=True, timeout=30 * SLOW, check=False
                )
                if b"no element" in made.stderr:
                    self.skipTest(made.stderr.decode().strip())
                self.assertEqual(made.returncode, 0, made.stderr)
                call = self.assertWhole(rtpdump(captured.framed(out.read_bytes())), packets_of(CLIP))
                self.assertEqual({frame.is_wide for frame in call.frames}, {mode == "15-bit"})

    @unittest.skipUnless(shutil.which("ffmpeg"), "no ffmpeg")
    def test_ffmpeg(self):
        import socket

        with (
            socket.socket(socket.AF_INET, socket.SOCK_DGRAM) as port,
            socket.socket(socket.AF_INET, socket.SOCK_DGRAM) as control,
        ):
            port.bind(("127.0.0.1", 0))
            number = port.getsockname()[1]
            try:
                control.bind(("127.0.0.1", number + 1))
            except OSError:
                pass
            port.setsockopt(socket.SOL_SOCKET, socket.SO_RCVBUF, 1 << 22)
            port.settimeout(5 * SLOW)
            words = [
                "ffmpeg",
                "-v",
                "error",
                "-re",
                "-readrate",
                "4",
                "-i",
                CLIP,
                "-c",
                "copy",
                "-f",
                "rtp",
                f"rtp://127.0.0.1:{number}?pkt_size=700",
            ]
            with subprocess.Popen(
                words, stdin=subprocess.DEVNULL, stdout=subprocess.DEVNULL, stderr=subprocess.DEVNULL
            ) as sender:
                sent, limit = [], time.monotonic() + 30 * SLOW
                try:
                    while time.monotonic() < limit:
                        port.settimeout(0.5 * SLOW)
                        try:
                            sent.append(port.recv(1 << 16))
                        except TimeoutError:
                            if sender.poll() is not None:
                                break
                finally:
                    sender.kill()
        call = self.call(rtpdump(sent))
        true = packets_of(CLIP)
        frames = [one for _, one in recordings.packets_of(call)]
        # A busy machine may lose some.
        self.assertTrue({frame.data for frame in call.frames if frame.is_whole} <= set(true))
        self.assertGreater(len(frames), len(true) * 0.9)
        if not call.missing:
            self.assertEqual(frames, true)


if __name__ == "__main__":
    unittest.main()
