#!/usr/bin/env python3
"""Compares `vp8list --macroblocks` and `--header` with the plain parser of the conformance streams.

    macroblocks.py [FILE ..]
    macroblocks.py --random STREAMS [SEED]
    macroblocks.py --damage STREAMS [SEED]

The parser (conformance/vp8) reads headers, modes, vectors and tokens with Python's whole numbers and tables of its own.
By default the files are the example, the clips of gate_clips and the streams of gate_checks. With --random they are
streams of random bits after sound tags, with 1 to 8 partitions, and with --damage the clips with packets that are cut,
dropped, doubled, moved and changed. Each object is compared, and the lines are compared with the objects. VP8LIST names
another program.
"""

import json
import pathlib
import random
import subprocess
import sys
import tempfile

import results
from library.conformance import bits, objects, parser
from library.damage import damage
from library.ivf import ivf, packets_of, records
from library.programs import VP8LIST

TOP = pathlib.Path(__file__).resolve().parent.parent
LIST = str(VP8LIST)


def said(*words):
    return subprocess.run(
        [LIST, *map(str, words)], capture_output=True, text=True, timeout=600, check=True
    ).stdout.splitlines()


UPDATES = {
    "token_prob_update": (1056, 8),
    "intra_16x16_prob": (1, 8),
    "intra_chroma_prob": (1, 8),
    "mv_prob_update": (38, 7),
}


def rows_of(header, changes):
    """The lines of a header by their names: the value and the bits of each field, and the values of each changed
    probability.
    """
    bits, rows = header["bits"], {"packet": [str(header["packet"])]}
    for name in bits:
        flags, size = UPDATES.get(name, (0, 1))
        value = header[name] if name in header else (bits[name] - flags) // size
        rows[name] = [cell(value), cell(bits[name])]
    if "mode_ref_lf_delta_update" in bits:
        rows["mode_ref_lf_delta_update"][0] = str(int(bits["ref_frame_delta"][0] > 0))
    return rows | {f"{one['probability']}[{one['index']}]": [str(one["old"]), str(one["new"])] for one in changes}


def cell(value):
    if isinstance(value, list):
        return ",".join(":".join(map(str, part)) if isinstance(part, list) else str(part) for part in value)
    return "-" if value is None else str(value)


def check_lines(path, headers):
    """Compares the lines of headers with their objects: the names and their number, and the value and the bits of
    each.
    """
    shown = {}
    for name, *cells in (line.split("\t") for line in said(path, "--header", "all") if "\t" in line):
        if name == "packet":
            rows = shown[cells[0]] = {}
        assert name not in rows, f"{path}: {name} twice"
        rows[name] = cells
    for packet, rows in shown.items():
        own = [one for one in headers if one["packet"] == int(packet)]
        wanted_rows = rows_of(own[0], own[1:])
        assert rows == wanted_rows, f"{path}: packet {packet}: {rows} instead of {wanted_rows}"


def compare(path, shown, wanted):
    """Compares objects with those of the parser."""
    assert len(shown) == len(wanted), f"{path}: {len(shown)} objects instead of {len(wanted)}"
    for ours, theirs in zip(shown, wanted):
        there = objects.differs(theirs, ours)
        assert there is None, f"{path}: {ours}: {there}"


def check(path):
    headers, macroblocks = objects.objects_of(packets_of(path.read_bytes()))
    shown = [json.loads(line) for line in said(path, "--macroblocks", "all", "--json")]
    compare(path, shown, macroblocks)
    shown = [one for one in shown if "column" in one]
    macroblocks = [one for one in macroblocks if "column" in one]
    names, *lines = [line.split("\t") for line in said(path, "--macroblocks", "all") if not line.startswith("#")]
    for line, one in zip(lines, shown, strict=True):
        row = [cell(":".join(map(str, one[name])) if name == "vector" and one[name] else one[name]) for name in names]
        assert line == row, f"{path}: {line} instead of {row}"
    shown = [json.loads(line) for line in said(path, "--header", "all", "--json")]
    compare(path, shown, headers)
    headers = [one for one in headers if "version" in one or "probability" in one]
    check_lines(path, headers)
    return (
        len(macroblocks),
        sum("version" in one for one in headers),
        sum(all(name in one for name in objects.BITS) for one in macroblocks),
    )


SIDES = [(1, 1), (16, 16), (17, 33), (48, 20), (40, 48), (64, 16)]


def random_packet(choose, size):
    """A packet of random bits, a key packet if it has a size; most have a number of partitions that fits their bits."""
    first = choose.randbytes(choose.choice([0, 1, 5, 30, 60, 120, 300]))
    tag = (0 if size else 1) | choose.choice([0, 0, 0, 1, 2, 3]) << 1 | choose.choice([0, 1, 1]) << 4 | len(first) << 5
    start = (
        b"\x9d\x01\x2a" + b"".join((side | choose.randrange(4) << 14).to_bytes(2, "little") for side in size)
        if size
        else b""
    )
    head = tag.to_bytes(3, "little") + start + first
    header, at = parser.start_of(head, True)
    parser.read_first_fields(bits.Reader(first), header, parser.default_context())
    count = 1 << header.log2_nbr_of_dct_partitions
    parts = [choose.randbytes(choose.choice([0, 1, 3, 40, 200])) for _ in range(count)]
    return head + b"".join(len(part).to_bytes(3, "little") for part in parts[:-1]) + b"".join(parts)


def random_stream(choose, number):
    """A stream of a few such packets; every fiftieth is 1,024 macroblocks wide."""
    size = (16383, 1) if number % 50 == 49 else choose.choice(SIDES)
    packets = [random_packet(choose, size)]
    for _ in range(1 if number % 50 == 49 else 4):
        kind = choose.randrange(12)
        packets.append(
            b""
            if kind == 0
            else random_packet(choose, choose.choice(SIDES))
            if kind == 1
            else random_packet(choose, None)
        )
    return packets


def made(kind, count, seed):
    """Compares streams that are made, and returns the totals."""
    choose, totals = random.Random(seed), [0, 0, 0]
    with tempfile.TemporaryDirectory() as folder:
        path = pathlib.Path(folder) / "made.ivf"
        clips = [path for path in sorted((TOP / "crates/gate_clips/data").glob("*.ivf")) if path.stat().st_size < 30000]
        for number in range(count):
            whole = [packet for _, packet in records(choose.choice(clips).read_bytes())][:8]
            path.write_bytes(
                ivf(16, 16, random_stream(choose, number) if kind == "--random" else damage(whole, choose))
            )
            totals = [a + b for a, b in zip(totals, check(path))]
    return totals


def main():
    if sys.argv[1:2] in (["--random"], ["--damage"]):
        kind, count, seed = sys.argv[1], int(sys.argv[2]), int(sys.argv[3]) if sys.argv[3:] else 1
        totals = made(kind, count, seed)
        results.total(
            f"{count} streams, {totals[1]} headers, {totals[0]} macroblocks ({totals[2]} with their bits), no"
            " difference"
        )
        return
    folders = [TOP / "examples", TOP / "crates/gate_clips/data", TOP / "crates/gate_checks/data"]
    paths = [pathlib.Path(word) for word in sys.argv[1:]] or [
        path for folder in folders for path in sorted(folder.glob("*.ivf"))
    ]
    totals = [0, 0, 0]
    for path in paths:
        totals = [a + b for a, b in zip(totals, check(path))]
    results.total(
        f"{len(paths)} streams, {totals[1]} headers, {totals[0]} macroblocks ({totals[2]} with their bits), no"
        " difference"
    )


if __name__ == "__main__":
    main()
