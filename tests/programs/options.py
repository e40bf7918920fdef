#!/usr/bin/env python3
"""Runs vp8list with each of its options, and compares texts and exit statuses: options.py [--quiet] [--few]

The gate runs it after `rt ci`; with --quiet it prints what is wrong only, with --few it asks for three packets of each
stream alone and not for all: for emulators. The streams are those of gate_checks, the damaged one of vp8list and one of
640x360 with a packet of 7,303 bytes, so each call is made with ample memory for a stream of that size. Lists and
findings are compared with those that listed.py and checked.py find from headers, objects with the lines, and hashes
with the samples that vp8serve serves, and macroblocks and headers with those of the parser of the conformance streams.
VP8LIST and VP8SERVE name other programs than those that `rt ci` built.
"""

import hashlib
import json
import os
import pathlib
import subprocess
import sys
import tempfile

TOP = pathlib.Path(__file__).resolve().parents[2]
sys.path.insert(1, str(TOP / "compare"))
from checked import PARTITION, lines as findings  # noqa: E402
from listed import lines as listed  # noqa: E402
import results  # noqa: E402
from library.conformance import objects  # noqa: E402
from library.ivf import packets_of  # noqa: E402
from macroblocks import cell, rows_of  # noqa: E402


def built(name):
    """The program that rt ci built here, and else the one in bin/."""
    out = TOP / f"crates/{name}/out/{name}"
    return str(out if out.exists() else TOP / "bin" / name)


LIST = os.environ.get("VP8LIST") or built("vp8list")
SERVE = os.environ.get("VP8SERVE") or built("vp8serve")
VERSION = (TOP / "VERSION").read_text().strip()
DATA = TOP / "crates/gate_checks/data"
LARGE = TOP / "examples/large.ivf"
STREAMS = [*sorted(DATA.glob("*.ivf")), TOP / "crates/vp8list/data/damaged.ivf", LARGE]
# Entries of the RFC's long tables, so that a file of tables can be made of zeros that differs from them.
ENTRIES = 3012

wrong = []


def ran(*words, stdin=b""):
    """The exit status and the two outputs of vp8list."""
    done = subprocess.run([LIST, *map(str, words)], input=stdin, capture_output=True, timeout=60, check=False)
    return done.returncode, done.stdout.decode(), done.stderr.decode()


def expect(what, found, wanted):
    if found != wanted:
        wrong.append(f"{what}: {found!r:.400} instead of {wanted!r:.400}")


def check_lists(path):
    status, text, errors = ran(path)
    expect(f"{path.name} list", (status, text.splitlines(), errors), (0, list(listed(path.read_bytes())), ""))
    names, *rows = [line.split("\t") for line in text.splitlines()]
    values = [
        {name: None if text == "-" else int(text) if text.isdigit() else text for name, text in zip(names, row)}
        for row in rows
    ]
    status, text, errors = ran(path, "--json")
    expect(f"{path.name} --json", (status, [json.loads(line) for line in text.splitlines()], errors), (0, values, ""))
    expect(
        f"{path.name} from standard input",
        ran("-", stdin=path.read_bytes())[1].splitlines(),
        list(listed(path.read_bytes())),
    )


def check_findings(path):
    status, text, errors = ran(path, "--check")
    said = [line for line in text.splitlines()[:-1]]
    around = [line for line in said if not PARTITION.fullmatch(line)]
    expect(f"{path.name} --check", (around, errors), (list(findings(path.read_bytes())), ""))
    damage = sum(line.startswith("damage: ") for line in said)
    notes = sum(line.startswith("note: ") for line in said)
    expect(f"{path.name} summary", text.splitlines()[-1].split(" frames, ")[1], f"damage: {damage}, notes: {notes}")
    expect(f"{path.name} status of --check", status, 1 if damage else 0)
    expect(f"{path.name} --check --strict", ran(path, "--check", "--strict"), (1 if damage or notes else 0, text, ""))
    status, text, errors = ran(path, "--check", "--json")
    objects = [json.loads(line) for line in text.splitlines()]
    expect(f"{path.name} --check --json", (status, len(objects), errors), (1 if damage else 0, damage + notes, ""))
    for line, found in zip(said, objects):
        expect(f"{path.name} severity of {line}", line.split(":")[0], found["severity"])
        expect(
            f"{path.name} packet of {line}",
            line.startswith(f"{found['severity']}: packet {found['packet']}: "),
            found["packet"] is not None,
        )


def check_details(path):
    headers, macroblocks = objects.objects_of(packets_of(path.read_bytes()))
    status, text, errors = ran(path, "--macroblocks", "all", "--json")
    expect(
        f"{path.name} --macroblocks all --json",
        (status, [json.loads(line) for line in text.splitlines()], errors),
        (0, macroblocks, ""),
    )
    status, text, errors = ran(path, "--header", "all", "--json")
    shown = [json.loads(line) for line in text.splitlines()]
    expect(f"{path.name} --header all --json", (status, shown, errors), (0, headers, ""))
    macroblocks, headers = [one for one in macroblocks if "column" in one], [
        one for one in headers if "version" in one or "probability" in one
    ]
    others = [one["packet"] for one in shown if "version" not in one and "probability" not in one]
    count = len(list(listed(path.read_bytes()))) - 1
    expect(
        f"{path.name} packets without a header",
        sorted(others + [one["packet"] for one in headers if "version" in one]),
        list(range(count)),
    )
    lines = [line for line in ran(path, "--macroblocks", "all")[1].splitlines()]
    names, rows = lines[0].split("\t"), [line.split("\t") for line in lines[1:] if not line.startswith("#")]
    spell = [
        [cell(":".join(map(str, one[name])) if name == "vector" and one[name] else one[name]) for name in names]
        for one in macroblocks
    ]
    expect(f"{path.name} --macroblocks all", rows, spell)
    for packet in sorted({0, count // 2, count - 1} & set(range(count))):
        own = [line for line in lines if line.startswith((f"{packet}\t", f"# packet {packet}:"))]
        expect(
            f"{path.name} --macroblocks {packet}",
            ran(path, "--macroblocks", packet),
            (0, "".join(line + "\n" for line in [lines[0], *own]), ""),
        )
        fields = {
            name: cells
            for name, *cells in (
                line.split("\t") for line in ran(path, "--header", packet)[1].splitlines() if "\t" in line
            )
        }
        own = [header for header in headers if header["packet"] == packet]
        expect(f"{path.name} --header {packet}", fields, rows_of(own[0], own[1:]) if own else {})
    # A file without packets has no span.
    spans = {f"{count // 2}-{min(count // 2 + 2, count - 1)}", *([] if "--few" in sys.argv else [f"0-{count - 1}"])}
    for span in sorted(spans if count else ()):
        check_span(path, span)
    status, text, errors = ran(path, "--macroblocks", count)
    expect(
        f"{path.name} packet {count}",
        (status, text, errors),
        (2, "", f"vp8list: no packet {count}, the stream has {count} packets\n"),
    )


def check_span(path, span):
    """The lines and objects of packets A to B are those of each of them, one after another."""
    first, last = map(int, span.split("-"))
    head = ran(path, "--macroblocks", first)[1].splitlines(True)[:1]
    for option in "--macroblocks", "--header":
        each = [ran(path, option, packet)[1].splitlines(True) for packet in range(first, last + 1)]
        lines = [line for text in each for line in text if [line] != head]
        expect(
            f"{path.name} {option} {span}",
            ran(path, option, span),
            (0, "".join((head if option == "--macroblocks" else []) + lines), ""),
        )
        each = [ran(path, option, packet, "--json")[1] for packet in range(first, last + 1)]
        expect(f"{path.name} {option} {span} --json", ran(path, option, span, "--json"), (0, "".join(each), ""))


def check_formats():
    texts = {
        "a.webm": (
            b"\x1a\x45\xdf\xa3" + bytes(40),
            "{0} begins as a WebM file, but its EBML header is cut off or damaged\n",
        ),
        "b.mp4": (
            b"\0\0\0\x20ftypisom" + bytes(40),
            "{0} is an MP4 file; if its video is VP8: ffmpeg -i {0} -an -c copy out.ivf\n",
        ),
        "c.avi": (
            b"RIFF\x24\xa3\0\0AVI LIST" + bytes(40),
            "{0} is an AVI file; if its video is VP8: ffmpeg -i {0} -an -c copy out.ivf\n",
        ),
        "d.y4m": (
            b"YUV4MPEG2 W2 H2\nFRAME\n" + bytes(6),
            "{0} is a YUV4MPEG2 file, whose frames are not coded: ffmpeg -i {0} -c:v libvpx out.ivf\n",
        ),
    }
    with tempfile.TemporaryDirectory() as folder:
        for name, (text, said) in texts.items():
            path = pathlib.Path(folder) / name
            path.write_bytes(text)
            for words in (path,), ("-",):
                status, output, errors = ran(*words, "--check", stdin=text)
                first, second, *_ = errors.splitlines(keepends=True)
                where = words[0]
                cause = "Header" if name == "a.webm" or len(text) < 32 else "Magic"
                expect(
                    f"{name} {where}",
                    (status, output, first, second),
                    (2, "", f"vp8list: input {cause}\n", said.format(where)),
                )


def served(path, *words):
    """The MD5 of each frame that vp8serve serves, in order."""
    count = int(
        subprocess.run([SERVE, path], input=b"count\n", capture_output=True, timeout=60, check=True).stdout.split()[3]
    )
    with tempfile.TemporaryDirectory() as folder:
        out = pathlib.Path(folder) / "out.y4m"
        requests = "".join(f"frame {number}\n" for number in range(count)).encode()
        subprocess.run([SERVE, path, "-", out, *words], input=requests, capture_output=True, timeout=60, check=True)
        text = out.read_bytes()
    head, _, text = text.partition(b"\n")
    width, height = (int(next(word[1:] for word in head.split() if word[:1] == side)) for side in (b"W", b"H"))
    size = width * height + 2 * ((width + 1) // 2) * ((height + 1) // 2)
    step = len(b"FRAME\n") + size
    return [hashlib.md5(text[at + 6 : at + step]).hexdigest() for at in range(0, len(text), step)]


def hashes(text):
    return [line.rsplit(", ", 1)[1] for line in text.splitlines() if not line.startswith("#")]


def check_hashes():
    clean, cut = DATA / "clean.ivf", DATA / "cut.ivf"
    for path in clean, LARGE:
        status, text, errors = ran(path, "--hash")
        expect(f"{path.name} --hash", (status, hashes(text), errors), (0, served(path), ""))
    status, text, errors = ran(cut, "--hash")
    expect("cut.ivf --hash", (status, errors), (1, "vp8list: packet 60: refused ShortPacket\n"))
    expect("cut.ivf hashes", hashes(text), served(cut))
    with tempfile.TemporaryDirectory() as folder:
        tables = pathlib.Path(folder) / "tables"
        tables.write_bytes(bytes([128]) * ENTRIES)
        status, text, errors = ran(clean, "--hash", "--tables", tables)
        expect("--tables of --hash", (status, hashes(text)), (0, served(clean, "--tables", tables)))
        expect("--tables changes frames", hashes(text) != served(clean), True)
        expect("--tables of --check", ran(clean, "--check", "--tables", tables)[0], 1)
        tables.write_bytes(b"short")
        expect("short tables", ran(clean, "--tables", tables), (2, "", "vp8list: tables are not 3012 bytes\n"))


def check_errors():
    with tempfile.TemporaryDirectory() as folder:
        text = pathlib.Path(folder) / "text.ivf"
        text.write_bytes(b"no stream, but as long as the header of one is\n")
        for words in (), ("--json",), ("--hash",), ("--check",), ("--check", "--json"):
            expect(f"a text {words}", ran(text, *words), (2, "", "vp8list: input Magic\n"))
        gone = pathlib.Path(folder) / "gone.ivf"
        expect("no file", ran(gone), (2, "", f"vp8list: cannot read {gone}\n"))
    for words in (
        ("--hash", "--check"),
        ("--hash", "--json"),
        ("--strict",),
        ("--json", "--strict"),
        ("--nonsense",),
        ("--macroblocks", "1", "--header", "1"),
        ("--macroblocks", "1", "--hash"),
        ("--header", "1", "--check"),
        ("--macroblocks", "1", "--strict"),
        ("--macroblocks", "2-1"),
        ("--header", "-"),
        ("--header", "one"),
    ):
        status, text, errors = ran(DATA / "clean.ivf", *words)
        expect(f"{words}", (status, text, errors.splitlines()[:1]), (2, "", ["vp8list: command line"]))


def check_full():
    """A full disk: each output ends with the error of the writer, also if it is longer than the buffer."""
    asked = [["--json"], ["--hash"], ["--check"], ["--macroblocks", "all"], ["--header", "all", "--json"], []]
    lists = [[path, *options] for path in (LARGE, DATA / "short.ivf") for options in asked]
    told = "vp8list: cannot write\n"
    with open("/dev/full", "wb") as full:
        for words in [*lists, [DATA / "short.ivf", "--check", "--json"], ["--help"], ["--version"]]:
            done = subprocess.run(
                [LIST, *map(str, words)], stdout=full, stderr=subprocess.PIPE, timeout=60, check=False
            )
            expect(f"a full disk {words}", (done.returncode, done.stderr.decode()), (2, told))
        for words, lines, output in (
            ([LARGE], b"count\n", full),
            ([LARGE, "-", "/dev/full"], b"frame 0\n", subprocess.DEVNULL),
        ):
            done = subprocess.run(
                [SERVE, *map(str, words)], input=lines, stdout=output, stderr=subprocess.PIPE, timeout=60, check=False
            )
            expect(
                f"a full disk, vp8serve {words}",
                (done.returncode, done.stderr.decode()),
                (1, "vp8serve: cannot write\n"),
            )


def check_lines_of_messages():
    """A newline of a path or of a file is no line of a message."""
    name = "..\nline 9: x"
    expect("a path of two lines", ran(name), (2, "", "vp8list: cannot read ..?line 9: x\n"))
    with tempfile.TemporaryDirectory() as folder:
        texts = {
            "a\nb.webm": b"\x1a\x45\xdf\xa3" + bytes(40),
            "c\nd.ivf": b"DKIF\0\0\x20\0V\nX8\x10\0\x10\0\x1e\0\0\0\x01" + bytes(11),
        }
        for name, text in texts.items():
            (pathlib.Path(folder) / name).write_bytes(text)
        done = subprocess.run([LIST, "a\nb.webm"], cwd=folder, capture_output=True, timeout=60, check=False)
        said = "vp8list: input Header\na?b.webm begins as a WebM file, but its EBML header is cut off or damaged\n"
        expect("a WebM file of two lines", (done.returncode, done.stdout, done.stderr.decode()), (2, b"", said))
        done = subprocess.run(
            [SERVE, "c\nd.ivf", "--explain"], cwd=folder, input=b"", capture_output=True, timeout=60, check=False
        )
        said = (
            "c?d.ivf has the codec V?X8, not VP80, and has to be coded again, which changes each frame: ffmpeg -i"
            " c?d.ivf -an -c:v libvpx out.ivf"
        )
        expect(
            "a codec of two lines",
            (done.returncode, done.stderr.decode().splitlines()),
            (1, ["vp8serve: input FourCc", said]),
        )


def check_help():
    status, text, errors = ran("--help")
    expect("--help", (status, errors, "--macroblocks" in text, "Exit status" in text), (0, "", True, True))
    expect("--version", ran("--version"), (0, f"vp8list {VERSION}\n", ""))


def main():
    for path in STREAMS:
        check_lists(path)
        check_findings(path)
        check_details(path)
    check_hashes()
    check_formats()
    check_help()
    check_errors()
    check_full()
    check_lines_of_messages()
    print(*wrong, sep="\n", end="\n" if wrong else "")
    results.total(f"{len(STREAMS)} streams, {len(wrong)} differences", wrong)
    return 1 if wrong else 0


if __name__ == "__main__":
    sys.exit(main())
