#!/usr/bin/env python3
"""Counts the definitions that the outermost contracts speak of, by name, and compares the documents with the sources:
definitions.py [--quiet]

reached.py has the three readings of docs/design/definitions.md. The first part must name each file of the first
reading and no other, the second part those that only questions use; the third part names the rest. Each file that is
named anywhere must exist. Each word in backquotes of definitions.md, proofs.md and architecture.md must be one of the
sources, and the numbers of files, lines, crates, wrong bodies, clips, streams and points must be those that are counted
here. No definition has more than ten lines besides one for each case, field or element. With --quiet it prints what is
wrong only. The gate runs it.
"""

import functools
import pathlib
import re
import sys

TOP = pathlib.Path(__file__).resolve().parents[2]
sys.path.insert(1, str(TOP / "compare"))
import reached  # noqa: E402
import results  # noqa: E402


def path_of(crate, name):
    return TOP / "crates" / crate / "specs" / f"{name}.antt"


def named(text):
    """The files that the second columns of the tables name."""
    for line in text.splitlines():
        columns = line.split(" | ")
        for part in (
            re.sub(r"\(→[^)]*\)", "", columns[1]).split(";") if line.startswith("| ") and len(columns) > 2 else []
        ):
            crate = re.match(r"\s*([a-z_0-9]+),", part)
            yield from (path_of(crate.group(1), name) for name in re.findall(r"`([A-Z]\w*)`", part)) if crate else ()


WORD = re.compile(r"[A-Za-z_][\w-]*")
# Where the documents may take a word in backquotes from: the proved sources, and the scripts and clients around them.
SOURCES = ("crates/*/src/**/*.rt", "crates/*/specs/*.antt", "crates/*/proofs/**/*.antt", "crates.txt")
SCRIPTS = (
    "clients/python/wokureti/page/engines/*.js",
    "clients/**/*.py",
    "compare/**/*.py",
    "bench/*",
    "conformance/**/*.py",
    "release/*",
    "tests/**/*.py",
    "*.sh",
    "*.py",
    ".ci/run",
)
FOLDERS = ("must-fail",)
READINGS = ("first", "second", "third")
COUNTS = ("files", "lines", "types", "lines of types")
# What the documents say in figures: the document, the text around the figures, and what they are.
FIGURES = (
    (
        "README.md",
        r"definitions\]\([^)]*\): ([\d,]+)\s+lines\s+in\s+([\d,]+)\s+files.*?for\s+questions\s+([\d,]+)\s+more",
        ("lines 1", "files 1", "lines 2"),
    ),
    ("README.md", r"([\d,]+) small streams", ("streams",)),
    *(
        (
            "docs/design/definitions.md",
            rf"\| \[the {name}\][^|]*\|[^|]*\| ([\d,]+) \| ([\d,]+) \| ([\d,]+), ([\d,]+) \|",
            tuple(f"{what} {place}" for what in COUNTS),
        )
        for place, name in enumerate(READINGS, 1)
    ),
    ("docs/design/proofs.md", r"There are ([\d,]+) crates and ([\d,]+) wrong bodies", ("crates", "wrong bodies")),
    ("docs/design/proofs.md", r"every frame of ([\d,]+) clips", ("clips",)),
    ("docs/design/proofs.md", r"longest chain has ([\d,]+) crates", ("chain",)),
    ("docs/design/proofs.md", r"line of state_cache proves ([\d,]+) crates again", ("state_cache and above",)),
    ("conformance/README.md", r"([\d,]+) small streams that reach ([\d,]+) points", ("streams", "reached")),
    (
        "conformance/README.md",
        r"Streams of ([\d,]+) \| Frames of ([\d,]+) \| Points of ([\d,]+)",
        ("streams of libvpx", "frames of libvpx", "possible"),
    ),
    ("conformance/README.md", r"Planted \| Streams of ([\d,]+) \| Clips of ([\d,]+)", ("streams", "clips")),
    ("conformance/README.md", r"([\d,]+) points are reached in `beyond/` alone", ("beyond",)),
)
CONFORMANCE = TOP / "conformance"


@functools.lru_cache(maxsize=None)
def words_of_sources():
    found = (
        {path.name for path in (TOP / "crates").iterdir()}
        | {path.stem for folder in ("tests", "docs") for path in (TOP / folder).glob("*.py")}
        | set(FOLDERS)
    )
    for pattern in (*SOURCES, *SCRIPTS):
        for path in TOP.glob(pattern):
            if path.is_file() and "out" not in path.parts:
                found.add(path.stem)
                found |= set(WORD.findall(path.read_text(encoding="utf-8", errors="replace")))
    return found


def unknown_names():
    """The words in backquotes that no source has, each with its document."""
    for document in ("docs/design/definitions.md", "docs/design/proofs.md", "docs/design/architecture.md"):
        text = re.sub(r"(?m)^    .*$", "", (TOP / document).read_text(encoding="utf-8"))
        for code in re.findall(r"`([^`\n]+)`", text):
            for word in WORD.findall(code):
                if word not in words_of_sources():
                    yield f"{document}: there is no {word}, in `{code}`"


def counts(readings):
    """What a table of readings has, by the name of each figure."""
    for place, reading in enumerate(readings, 1):
        found = len(reading.files()), reading.lines(), len(reading.types()), reading.lines_of_types()
        yield from ((f"{what} {place}", figure) for what, figure in zip(COUNTS, found))


def counted(readings):
    """What the documents say in figures."""
    return {
        **dict(counts(readings)),
        "crates": sum(1 for path in (TOP / "crates").iterdir() if (path / "src").is_dir()),
        "wrong bodies": sum(1 for _ in (TOP / "crates").glob("*/must-fail/*.edit")),
        "clips": len(list((TOP / "crates/gate_clips/data").glob("*.ivf"))),
        "chain": max(map(chain, crates_below())),
        "state_cache and above": sum("state_cache" in under(name) for name in crates_below()),
        **conformance(),
    }


@functools.lru_cache(maxsize=None)
def crates_below():
    """The crates of crates.txt, each with those of them that it uses."""
    lines = [
        line.split(":")
        for line in (TOP / "crates.txt").read_text(encoding="utf-8").splitlines()
        if ":" in line and not line.startswith("#")
    ]
    names = {head.split()[0] for head, _ in lines}
    return {head.split()[0]: [word for word in used.split() if word in names] for head, used in lines}


def under(name):
    """A crate and all that are below it."""
    return {name}.union(*map(under, crates_below()[name]))


@functools.lru_cache(maxsize=None)
def chain(name):
    """How many crates the longest chain up to a crate has."""
    return 1 + max(map(chain, crates_below()[name]), default=0)


def points():
    """The lines of each group of conformance/points: a point, the first stream that reaches it or `-`, and why none
    can.
    """
    for path in sorted((CONFORMANCE / "points").glob("*.txt")):
        head, *lines = path.read_text(encoding="utf-8").splitlines()
        yield head[2:].partition(" (")[0], [line.split("\t") for line in lines]


def conformance():
    """The numbers of streams, of the frames that libvpx shows of them, and of points."""
    streams, beyond = CONFORMANCE / "streams", {path.stem for path in (CONFORMANCE / "streams/beyond").glob("*.ivf")}
    rows = [row for _, lines in points() for row in lines]
    return {
        "streams": len(list(streams.rglob("*.ivf"))),
        "streams of libvpx": len(list(streams.glob("*.ivf"))),
        "frames of libvpx": sum(path.read_text().count("shown ") for path in (CONFORMANCE / "expected").glob("*.txt")),
        "reached": sum(row[1] != "-" for row in rows),
        "possible": sum(len(row) < 3 for row in rows),
        "beyond": sum(row[1] in beyond for row in rows),
    }


def wrong_groups():
    """The rows of conformance/README.md that do not have the numbers of conformance/points."""
    text = (CONFORMANCE / "README.md").read_text(encoding="utf-8")
    for group, rows in points():
        want = [len(rows), sum(row[1] != "-" for row in rows), sum(len(row) > 2 for row in rows)]
        if re.findall(rf"\n\| {group} \|[^|]*\| ([\d,]+) \| ([\d,]+) \| ([\d,]+) \|", text) != [
            tuple(f"{number:,}" for number in want)
        ]:
            yield (
                f"conformance/README.md: {group} has {want} points, points reached and points that no stream can reach"
            )


def wrong_figures(facts):
    for document, pattern, names in FIGURES:
        found = re.findall(pattern, (TOP / document).read_text(encoding="utf-8"))
        if not found:
            yield f"{document}: no text as {pattern}"
        for figures in found:
            for figure, name in zip([figures] if isinstance(figures, str) else figures, names):
                if int(figure.replace(",", "")) != facts[name]:
                    yield f"{document}: {figure} {name}, and there are {facts[name]:,}"


# A line that is one field of a record, one value that is read, or one element of a list.
ITEM = re.compile(r"\s+(?:(?:pub )?[\w']+ (?::|=|←) .*|∷ .*)")
MOST_LINES = 10


def cases(text):
    """The cases of the definitions of a file, each a list of its lines: a case begins with the line that is not
    indented.
    """
    case = []
    for line in text.splitlines():
        if not line.lstrip().startswith(("--", "use ", "pub mod ")):
            if case and not line[:1].isspace():
                yield case
                case = []
            case += [line] if line.strip() else []
    yield case


def long_definitions():
    """The cases that have too many lines, those of one item each not counted."""
    for path in sorted(TOP.glob("crates/*/specs/*.antt")):
        for case in cases(path.read_text(encoding="utf-8")):
            count = sum(1 for line in case if not ITEM.fullmatch(line))
            if count > MOST_LINES:
                yield f"{path.relative_to(TOP)}: {count} lines from {case[0]:.60}"


def misplaced(readings):
    """The files that a part of definitions.md lacks, or has although its reading does not use them."""
    parts = re.split(r"\n## (?:First|Second|Third) reading.*\n", (TOP / "docs/design/definitions.md").read_text())[1:]
    listed = [set(named(part)) for part in parts]
    core = readings[0].files()
    wanted = core, readings[1].files() - core
    yield from (
        f"{file.relative_to(TOP)} is named, but does not exist"
        for file in sorted(set.union(*listed))
        if not file.is_file()
    )
    for name, has, uses in zip(READINGS, listed, wanted):
        yield from (f"{file.relative_to(TOP)} is not named in the {name} part" for file in sorted(uses - has))
        yield from (
            f"{file.relative_to(TOP)} is named in the {name} part, which does not use it"
            for file in sorted(has - uses)
            if file.is_file()
        )
    yield from (
        f"{file.relative_to(TOP)} is named nowhere" for file in sorted(readings[2].files() - set.union(*listed))
    )


def main():
    readings = reached.readings()
    wrong = [
        *misplaced(readings),
        *unknown_names(),
        *long_definitions(),
        *wrong_groups(),
        *wrong_figures(counted(readings)),
    ]
    print(*wrong, sep="\n", end="\n" if wrong else "")
    results.total(
        "; ".join(f"{len(reading.files())} files, {reading.lines()} lines" for reading in readings),
        bool(wrong),
        version=results.sources(),
    )
    return 1 if wrong else 0


if __name__ == "__main__":
    sys.exit(main())
