#!/usr/bin/env python3
"""Compares the findings of `vp8list --check` with those that are found here from headers, and with libvpx's errors.

Run manually, not in the gate: checked.py FILE.. compares the findings of these IVF files; checked.py --damage N [SEED]
those of N streams made from the example and the real streams with packets cut, dropped, doubled, moved and with bytes
changed, and counts the packets that vpxdec does not decode next to those that are refused, and the packets that libvpx
calls corrupt next to those with a partition that is read past its end. With so many zero bytes after each such
partition as `--check` says, libvpx must call no further packet corrupt, and with one byte less it must call that packet
corrupt. It needs the built program (see README.md) and, for --damage, vpxdec (Debian's vpx-tools) and its library.
"""

import collections
import pathlib
import random
import re
import struct
import subprocess
import sys
import tempfile

import results
from library.corrupt import padded, verdicts
from library.damage import damage
from library.headers import copies_of, facts
from library.ivf import has_key_tag, is_shown, records, size_of
from library.programs import VP8LIST, real_streams

# Findings that are damage begin so after their place; all others are notes.
DAMAGE = re.compile(r"refused|first partition|token partition|record|time stamp \d+ follows")


class Damage(str):
    """A finding that is damage in its stream, and may be a note in another."""


def run_before_key(packets):
    """The packets before the first one with a key tag."""
    keys = [place for place, packet in enumerate(packets) if has_key_tag(packet)]
    return packets[: keys[0]] if keys else packets


def refusals(packets):
    """The cause against each packet that breaks the stream, by its index."""
    found, has_key, broken = {}, False, False
    for place, packet in enumerate(packets):
        if has_key_tag(packet):
            has_key, broken = False, False
        if broken:
            continue
        fields, has_key = facts(packet, has_key)
        if isinstance(fields, str) and fields != "-":
            found[place], broken = fields, True
    return found


def pace_of(rows):
    """The median step between shown packets, and whether it is constant: 16 steps or more, which are all this one
    except for up to three in a row.
    """
    shown = [stamp for stamp, packet in rows if is_shown(packet)]
    steps = [after - before for before, after in zip(shown, shown[1:])]
    forward = sorted(step for step in steps if step > 0)
    step = forward[(len(forward) - 1) // 2] if forward else 1
    odd = [place for place, own in enumerate(steps) if own != step]
    return step, len(steps) >= 16 and (not odd or odd[-1] - odd[0] <= 2)


def stamp_lines(rows):
    """The findings about time stamps, by index."""
    step, is_constant = pace_of(rows)
    last = even = None
    found = {}
    for place, (stamp, packet) in enumerate(rows):
        if not is_shown(packet):
            if last and stamp < last[0]:
                found[place] = f"time stamp {stamp} goes back from {last[0]}"
            continue
        if is_constant and last and not has_key_tag(packet) and stamp not in (last[0], last[0] + step):
            found[place] = f"time stamp {stamp} follows {last[0]}, all other steps are {step}"
        expected = last is None or any(0 < stamp - before < (place - at + 1) * step for before, at in (last, even))
        if not expected and place not in found:
            if stamp == last[0]:
                found[place] = f"time stamp {stamp} repeats"
            else:
                found[place] = f"time stamp {stamp} {'goes back' if stamp < last[0] else 'skips'} from {last[0]}"
        last = stamp, place
        even = last if expected else even
    return found


def first_size(packets):
    """The size of the first key packet that has one."""
    for packet in packets:
        if has_key_tag(packet) and len(packet) >= 10 and packet[3:6] == b"\x9d\x01\x2a" and 0 not in size_of(packet):
            return size_of(packet)
    return None


def line_of(found):
    """The line of a finding: damage, or a note."""
    is_damage = isinstance(found, Damage) or DAMAGE.match(re.sub(r"^packet \d+: ", "", found))
    return ("damage: " if is_damage else "note: ") + found


def copy_lines(packets, lost):
    """The findings about copies of no reference, by index: those of golden, and those of altref."""
    numbers = {place: copies_of(packet) for place, packet in enumerate(packets) if place not in lost}
    return [
        {place: f"{field} 3, at which vpxdec ends" for place, found in numbers.items() if found[which] == 3}
        for which, field in enumerate(("copy_buffer_to_golden", "copy_buffer_to_arf"))
    ]


TWICE = "the next packet has the same bytes and time stamp"


def repeated(rows):
    """The findings about packets that come twice, by index of the first."""
    is_constant = pace_of(rows)[1]
    pairs = enumerate(zip(rows, rows[1:]))
    return {
        place: (Damage if is_constant and not has_key_tag(one[1]) else str)(TWICE)
        for place, (one, other) in pairs
        if one == other and one[1]
    }


def size_lines(packets):
    """The findings about sizes, by index."""
    before, found = None, {}
    for place, packet in enumerate(packets):
        if not has_key_tag(packet) or len(packet) < 10 or packet[3:6] != b"\x9d\x01\x2a" or 0 in size_of(packet):
            continue
        size = "{}x{}".format(*size_of(packet))
        if before not in (None, size):
            found[place] = f"size {before} changes to {size}"
        before = size
    return found


def lines(text):
    """The lines that a check writes for a file's bytes, except for those of partitions."""
    return map(line_of, findings(text))


def findings(text):
    """What is found in a file's bytes."""
    rows = list(records(text))
    packets = [packet for _, packet in rows]
    (claimed,) = struct.unpack_from("<I", text, 24)
    if claimed != len(rows):
        yield f"header: {claimed} frames, {len(rows)} packets"
    size, claimed = first_size(packets), list(struct.unpack_from("<HH", text, 12))
    if size and size != claimed:
        yield "header: size {}x{}, first key packet {}x{}".format(*claimed, *size)
    rate, scale = struct.unpack_from("<II", text, 16)
    if not rate or not scale:
        yield f"header: rate {rate}, scale {scale}"
    refused = refusals(packets)
    lost = {n for place in refused for n in range(place, place + 1 + len(run_before_key(packets[place + 1 :])))}
    around = [*copy_lines(packets, lost), repeated(rows), stamp_lines(rows), size_lines(packets)]
    for place, packet in enumerate(packets):
        rest = run_before_key(packets[place + 1 :])
        if place in refused:
            yield f"packet {place}: refused {refused[place]}, packets lost with it: {len(rest)}"
        if not packet:
            yield f"packet {place}: no bytes, at which vpxdec ends"
        for found in around:
            if place in found:
                yield type(found[place])(f"packet {place}: {found[place]}")
        if not is_shown(packet) and not any(map(is_shown, rest)):
            yield f"packet {place}: hidden, never shown"
    begins = struct.unpack_from("<H", text, 6)[0] + sum(12 + len(packet) for packet in packets)
    left = len(text) - begins
    if left >= 4:
        yield (
            f"record {len(rows)} at byte {begins}: claims 12 + {struct.unpack_from('<I', text, begins)[0]} bytes,"
            f" {left} are there"
        )
    elif left:
        yield f"record {len(rows)} at byte {begins}: {left} bytes are there"


PAST = re.compile(r"damage: packet (\d+): (?:first|token) partition(?: (\d+))?: (\d+) bytes read past its end")
PARTITION = re.compile(r"(damage|note): packet \d+: (?:first|token) partition.*")


def past_ends(path):
    """By packet and partition (0 is the first, 1 token partition 0): the bytes that `--check` says are read past its
    end.
    """
    said = subprocess.run([VP8LIST, path, "--check"], capture_output=True, text=True, check=False).stdout
    found = collections.defaultdict(dict)
    for packet, partition, count in PAST.findall(said):
        found[int(packet)][int(partition) + 1 if partition else 0] = int(count)
    return found


def differs(path):
    """Whether the findings of a file differ, except for those in partitions; the first that does is printed."""
    ran = subprocess.run([VP8LIST, path, "--check"], capture_output=True, text=True, check=False)
    text = path.read_bytes()
    packets, theirs = [packet for _, packet in records(text)], list(lines(text))
    partitions = [found.group(1) for line in ran.stdout.splitlines() if (found := PARTITION.fullmatch(line))]
    damage = sum(line.startswith("damage") for line in theirs) + partitions.count("damage")
    notes = sum(line.startswith("note") for line in theirs) + partitions.count("note")
    status = 1 if damage else 0
    theirs.append(f"{len(packets)} packets, {sum(map(is_shown, packets))} frames, damage: {damage}, notes: {notes}")
    ours = [line for line in ran.stdout.splitlines() if not PARTITION.fullmatch(line)]
    if ran.returncode == status and ours == theirs:
        return False
    pair = next((pair for pair in zip(ours, theirs) if pair[0] != pair[1]), (len(ours), len(theirs)))
    print(f"{path}: status {ran.returncode}", *pair, sep="\n")
    return True


def failures(path):
    """The indexes of the packets that vpxdec does not decode, and how many frames it calls corrupt."""
    words = ["vpxdec", "--codec=vp8", "--keep-going", "--i420", "-o", "/dev/null", str(path)]
    said = subprocess.run(words, capture_output=True, text=True, errors="replace", check=False).stderr
    corrupt = re.search(r"(\d+) frames corrupted", said)
    return {int(n) - 1 for n in re.findall(r"Failed to decode frame (\d+)", said)}, (
        int(corrupt.group(1)) if corrupt else 0
    )


def ends_by_libvpx(packets, past, lost, totals):
    """Counts the partitions that are read past their end next to the packets that libvpx calls corrupt."""
    packets = [b"" if place in lost else packet for place, packet in enumerate(packets)]
    said = verdicts(packets)
    whole = verdicts([padded(packet, past.get(place, {})) for place, packet in enumerate(packets)])
    spoiled = False
    for place, packet in enumerate(packets):
        spoiled = spoiled and not has_key_tag(packet)
        bad = packet and said[place] != "ok"
        totals["corrupt or failed by libvpx"] += bool(bad)
        totals["read past an end by --check"] += place in past
        totals["both libvpx and --check"] += bool(bad and place in past)
        totals["libvpx only, after such a packet, before a key packet"] += bool(bad and place not in past and spoiled)
        other = bool(bad and place not in past and not spoiled)
        totals["libvpx only, any other"] += other
        totals["--check only"] += place in past and not bad
        totals["of these, the first partition too"] += place in past and not bad and 0 in past[place]
        spoiled = spoiled or bool(bad) or place in past
        if packet and whole[place] != "ok":
            totals["still corrupt or failed with the zeros"] += 1
            totals["of these, the first partition is read past its end"] += 0 in past.get(place, {})
        for partition in past.get(place, {}):
            shorter = dict(past[place])
            shorter[partition] -= 1
            front = [padded(before, past.get(index, {})) for index, before in enumerate(packets[:place])]
            short = verdicts([*front, padded(packet, shorter)])[-1]
            kind = "token" if partition else "first"
            totals[f"{kind} partitions with one zero byte less"] += 1
            totals[f"{kind} partitions with one zero byte less, corrupt by libvpx"] += short != "ok"


def damaged_streams(count, seed):
    """Compares the findings of damaged streams; how many differ, and packets by who refuses them."""
    choose = random.Random(seed)
    clips = real_streams()
    wrong, totals = 0, collections.Counter()
    with tempfile.TemporaryDirectory() as room:
        path = pathlib.Path(room) / "damaged.ivf"
        for _ in range(count):
            text = choose.choice(clips).read_bytes()
            packets = damage([packet for _, packet in records(text)], choose)
            body = b"".join(struct.pack("<IQ", len(packet), stamp) + packet for stamp, packet in enumerate(packets))
            path.write_bytes(text[:32] + body[: len(body) - choose.choice([0, 0, 0, 1, 20])])
            wrong += differs(path)
            packets = [packet for _, packet in records(path.read_bytes())]
            refused, (failed, corrupt) = refusals(packets), failures(path)
            lost = {n for place in refused for n in range(place, place + 1 + len(run_before_key(packets[place + 1 :])))}
            ends_by_libvpx(packets, past_ends(path), lost, totals)
            totals["packets"] += len(packets)
            totals["refused or lost here"] += len(lost)
            totals["not decoded by vpxdec"] += len(failed)
            totals["both"] += len(lost & failed)
            totals["refused here"] += len(refused)
            totals["refused here, decoded by vpxdec"] += len(set(refused) - failed)
            totals["not decoded by vpxdec, neither refused nor lost here"] += len(failed - lost)
            totals["frames that vpxdec calls corrupt"] += corrupt
    for name, number in totals.items():
        print(f"{number} {name}")
    return wrong


def main():
    words = sys.argv[1:]
    if words[:1] == ["--damage"]:
        wrong, count = damaged_streams(int(words[1]), int(words[2]) if words[2:] else 1), int(words[1])
    else:
        wrong, count = sum(differs(pathlib.Path(word)) for word in words), len(words)
    results.total(f"{count} checks, {wrong} differ", wrong)
    sys.exit(wrong > 0)


if __name__ == "__main__":
    main()
