#!/usr/bin/env python3
"""Checks the documents: links and their anchors, paths, names in backquotes, numbers of versions, crates, wrong bodies
and streams, the groups of architecture.md, README's commands, the tables of bench/README.md, and a budget of words for
each. Then it plants a mistake for each check, which must be found.

    test_documents.py [--words]      with --words it prints how many words each document has, and its budget

The programs are those of the variables VP8SERVE and VP8LIST, or in bin/. It prints what is wrong and ends with 1, or
prints nothing and ends with 0.
"""

import functools
import os
import pathlib
import re
import shlex
import signal
import subprocess
import sys
import tempfile
import threading

sys.dont_write_bytecode = True
TOP = pathlib.Path(__file__).resolve().parent.parent
PROGRAMS = {
    "vp8serve": os.environ.get("VP8SERVE") or TOP / "bin/vp8serve",
    "vp8list": os.environ.get("VP8LIST") or TOP / "bin/vp8list",
}
LIMIT = 120
# The most words of each document, as `wc -w` counts them. A new document gets a budget here; a full one is shortened,
# or says less twice.
BUDGETS = {
    "README.md": 1100,
    "CHANGELOG.md": 2500,
    "CONTRIBUTING.md": 1200,
    "docs/guide/cookbook.md": 6200,
    "docs/guide/page.md": 1700,
    "docs/guide/python.md": 1200,
    "docs/guide/c.md": 1500,
    "docs/guide/troubleshooting.md": 800,
    "docs/reference/requests.md": 3200,
    "docs/reference/lists.md": 3000,
    "docs/reference/http.md": 1600,
    "docs/reference/edits.md": 700,
    "docs/reference/options.md": 4300,
    "docs/design/architecture.md": 4200,
    "docs/design/glossary.md": 800,
    "docs/design/definitions.md": 11500,
    "docs/design/proofs.md": 6600,
    "docs/design/decisions.md": 5000,
    "bench/README.md": 3000,
    "compare/README.md": 2500,
    "conformance/README.md": 2400,
    "tests/README.md": 1450,
}
ALL = 50000
# What a reader believes is not shortened for the sum.
ASIDE = ("docs/design/definitions.md",)
MOST_LINES = 110
# A choice has at most five lines of 120 characters.
MOST_CHARACTERS = 600
# Words in backquotes that no source has: other programs' words, and parts of names that are made up.
OTHERS = set(
    "F90000 f60 f37 playbin nodejs generic-gnu bsf setts Client If-Range BASE64 EDIT TITLE prove_"
    " vp8serve-unfinished-save-N clip-export broken-edited".split()
)
BINARIES = (".md", ".png", ".ivf", ".whl", ".webm", ".svg", ".html")
SKIPPED = {"out", "target", "__pycache__", "bin", "node_modules"}
WORD = re.compile(r"[A-Za-z_][\w-]*")
LINK = re.compile(r"!?\[[^\]]*\]\(([^)\s]+)\)")
# A path from the top; one with a name in capitals stands for any.
PATH = re.compile(
    r"(?<![\w/.~-])((?:\.ci|bench|clients|compare|conformance|crates|dist|docs|examples|release|tests)/[\w./-]*\w)"
)


def of_tree():
    """The documents of the checkout, by their paths."""
    found = [
        path
        for path in TOP.rglob("*.md")
        if not SKIPPED & set(path.relative_to(TOP).parts) and not path.relative_to(TOP).parts[0].startswith(".")
    ]
    return {str(path.relative_to(TOP)): path.read_text(encoding="utf-8") for path in sorted(found)}


def prose(text):
    """A text without its indented code."""
    return re.sub(r"(?m)^    .*$", "", text)


def anchors(text):
    """The anchors of a document's headings, as GitHub makes them."""
    found = set()
    for title in re.findall(r"(?m)^#+ (.*)$", text):
        word = re.sub(r"[^\w\- ]", "", re.sub(r"\[([^\]]*)\]\([^)]*\)", r"\1", title).lower()).replace(" ", "-")
        found.add(word)
    return found


def links(texts):
    """Paths are there, and anchors are headings."""
    for name, text in texts.items():
        for target in LINK.findall(prose(text)):
            path, _, anchor = target.partition("#")
            if re.match(r"[a-z]+:", target):
                continue
            file = os.path.normpath(os.path.join(os.path.dirname(name), path)) if path else name
            if not (TOP / file).exists():
                yield f"{name}: there is no {file}, to which ({target}) leads"
            elif anchor and anchor not in anchors(texts.get(file, "")):
                yield f"{name}: {file} has no heading #{anchor}"


def paths(texts):
    """Paths that a document names are there."""
    for name, text in texts.items():
        # What was there once is in the changelog.
        for path in PATH.findall(prose(text)) if name != "CHANGELOG.md" else ():
            if not re.search(r"/[A-Z]+[/.]", path) and not (TOP / path).exists():
                yield f"{name}: there is no {path}"


@functools.lru_cache(maxsize=None)
def source_words():
    """The words of the sources, scripts and clients, and the names of files. Documents are no source."""
    found = set()
    for folder, folders, files in os.walk(TOP):
        folders[:] = [name for name in folders if name not in SKIPPED and not name.startswith(".git")]
        found.update(folders)
        for file in map(pathlib.Path, files):
            found |= {file.name, file.stem}
            # This file has the mistakes that are planted.
            if file.name != pathlib.Path(__file__).name and (
                file.suffix not in BINARIES or "page" in pathlib.Path(folder).parts
            ):
                found |= set(WORD.findall(pathlib.Path(folder, file).read_text(encoding="utf-8", errors="replace")))
    return found


def names(texts):
    """Each word in backquotes is one of the sources."""
    for name, text in texts.items():
        for code in re.findall(r"`([^`\n]+)`", prose(text)):
            for word in WORD.findall(code):
                if word not in OTHERS and word not in source_words():
                    yield f"{name}: no source has {word}, in `{code}`"


def figures(texts):
    """Versions and numbers of crates, wrong bodies and streams, wherever a document says them."""
    version = (TOP / "VERSION").read_text(encoding="utf-8").strip().rpartition(".")[0]
    counts = {
        r"find_package\(wokureti ([\d.]+)": version,
        r"There are (\d+) crates": str(sum(1 for path in (TOP / "crates").iterdir() if (path / "src").is_dir())),
        r"(\d+) wrong bodies": str(sum(1 for _ in (TOP / "crates").glob("*/must-fail/*.edit"))),
        r"(\d+) small streams": str(sum(1 for _ in (TOP / "conformance/streams").rglob("*.ivf"))),
    }
    for pattern, wanted in counts.items():
        found = [
            (name, number)
            for name, text in texts.items()
            if name != "CHANGELOG.md"
            for number in re.findall(pattern, text)
        ]
        if not found:
            yield f"no document says {pattern}"
        for name, number in found:
            if number != wanted:
                yield f"{name}: {pattern} is {wanted}, not {number}"


def groups(texts):
    """architecture.md has the groups of crates.txt with their crates, in that order."""
    wanted = []
    for line in (TOP / "crates.txt").read_text(encoding="utf-8").splitlines()[1:]:
        if line.startswith("# "):
            wanted.append((line[2:].lower(), []))
        elif line.strip():
            wanted[-1][1].append(line.partition(":")[0].split()[0])
    name = "docs/design/architecture.md"
    chapter = texts[name].partition("\n## Crates by group")[2].partition("\n## ")[0]
    found = []
    for part in chapter.split("\n### ")[1:]:
        rows = re.findall(r"(?m)^\| ([a-z_0-9, ]+?) \|", part)
        found.append((part.splitlines()[0].lower(), [crate for row in rows for crate in row.split(", ")]))
    for (group, crates), (title, shown) in zip(wanted, found):
        if group != title or sorted(crates) != sorted(shown):
            yield f"{name}: {title} has {', '.join(shown)}; the group {group} of crates.txt has {', '.join(crates)}"
    if len(wanted) != len(found):
        yield f"{name}: {len(found)} groups, and crates.txt has {len(wanted)}"


def budgets(texts):
    """Each document has a budget and keeps it, and so has the sum."""
    counts = {name: len(text.split()) for name, text in texts.items()}
    for name in counts.keys() ^ BUDGETS.keys():
        yield (
            f"{name}: it has no budget in tests/test_documents.py"
            if name in counts
            else f"{name}: it is gone, and has a budget in tests/test_documents.py"
        )
    for name, count in counts.items():
        if count > BUDGETS.get(name, count):
            yield f"{name}: {count:,} words, at most {BUDGETS[name]:,}: say it shorter, or link to where it is said"
    total = sum(count for name, count in counts.items() if name not in ASIDE)
    if total > ALL:
        yield f"all documents: {total:,} words without {', '.join(ASIDE)}, at most {ALL:,}"
    lines = texts["README.md"].count("\n")
    if lines > MOST_LINES:
        yield f"README.md: {lines} lines, at most {MOST_LINES}"


def choices(texts):
    """A choice of decisions.md has at most five lines."""
    name = "docs/design/decisions.md"
    for choice in re.split(r"\n(?=- |\n)", texts[name]):
        if choice.startswith("- ") and len(" ".join(choice.split())) > MOST_CHARACTERS:
            yield f"{name}: {len(' '.join(choice.split()))} characters, at most {MOST_CHARACTERS}: {choice[:60]}"


def tables(texts):
    """Each chapter of bench/README.md has one table."""
    name = "bench/README.md"
    for chapter in texts[name].split("\n## ")[1:]:
        count = len(re.findall(r"(?m)^\|[-|]+\|$", chapter))
        if count != 1:
            yield f"{name}: {count} tables in {chapter.splitlines()[0]}"


def blocks(text):
    """The indented texts, each without its indentation. An empty line does not end one."""
    found, lines = [], []
    for line in [*text.splitlines(), "end"]:
        if line.startswith("    ") or not line and lines:
            lines.append(line[4:])
        elif lines:
            found.append("\n".join(lines).rstrip("\n") + "\n")
            lines = []
    return found


def start(folder):
    """Makes a folder in which README's commands can run, and returns the variables of their environment."""
    (folder / "bin").mkdir()
    for program, path in PROGRAMS.items():
        (folder / "bin" / program).symlink_to(os.path.abspath(path))
    command = folder / "bin/wokureti"
    command.write_text(
        f'#!/bin/sh\nexport PYTHONPATH={shlex.quote(str(TOP / "clients/python"))}\n[ "$1" != open ] || exec'
        f' {sys.executable} -B -m wokureti "$@" --no-browser\nexec {sys.executable} -B -m wokureti "$@"\n'
    )
    command.chmod(0o755)
    for name in ("examples", "dist"):
        (folder / name).symlink_to(TOP / name)
    (folder / "clip.ivf").write_bytes((TOP / "examples/mandelbrot.ivf").read_bytes())
    named = {name.upper(): str(path) for name, path in PROGRAMS.items()}
    return {
        **os.environ,
        **named,
        "PATH": f"{folder}/bin:{os.environ['PATH']}",
        "XDG_STATE_HOME": f"{folder}/state",
        "WOKURETI_ENGINE": "program",
    }


def opened(command, folder, room):
    """The first line that `wokureti open` prints; then it is ended as by Ctrl-C."""
    with subprocess.Popen(
        ["bash", "-c", f"exec {command}"],
        cwd=folder,
        env=room,
        stdout=subprocess.PIPE,
        stderr=subprocess.DEVNULL,
        text=True,
    ) as process:
        late = threading.Timer(LIMIT, process.kill)
        late.start()
        line = process.stdout.readline()
        process.send_signal(signal.SIGINT)
        process.wait()
        late.cancel()
    return line


def run(name, lines, folder, room):
    """Runs the commands of a block: each has the output that the lines after it say."""
    commands = []
    for line in lines:
        commands[-1][1].append(line[2:]) if line.startswith("# ") else commands.append((line, []))
    for command, wanted in commands:
        if command.startswith("wokureti open"):
            line = opened(command, folder, room)
            if not re.fullmatch(r"http://127\.0\.0\.1:\d+/\S+/page/\n", line):
                yield f"{name}: {command}: {line!r}, and no address"
            continue
        done = subprocess.run(
            ["bash", "-c", command], cwd=folder, env=room, capture_output=True, text=True, timeout=LIMIT, check=False
        )
        if done.returncode or (wanted and done.stdout.splitlines() != wanted):
            yield (
                f"{name}: {command}: status {done.returncode}, {done.stdout!r:.300}, {done.stderr!r:.300}, and not"
                f" {wanted}"
            )


def commands(texts):
    """README's commands run as they are. Its program in C is compiled by tests/test_library.py, and pip's line is run
    by tests/test_release.py.
    """
    name = "README.md"
    with tempfile.TemporaryDirectory() as made:
        folder = pathlib.Path(made)
        room = start(folder)
        python = {**room, "PYTHONPATH": str(TOP / "clients/python")}
        for block in blocks(texts[name]):
            first, lines = block.split()[0], block.splitlines()
            if first == "pip":
                if " --find-links dist wokureti " not in block or not list((TOP / "dist").glob("wokureti-*.whl")):
                    yield f"{name}: pip finds no wheel: {block}"
            elif first in ("wokureti", "vp8serve", "vp8list"):
                yield from run(name, lines, folder, room)
            elif first == "from":
                done = subprocess.run(
                    [sys.executable, "-B", "-c", block],
                    cwd=folder,
                    env=python,
                    capture_output=True,
                    text=True,
                    timeout=LIMIT,
                    check=False,
                )
                if done.returncode or not (folder / "cut.ivf").is_file():
                    yield f"{name}: the program in Python: status {done.returncode}, {done.stderr[-300:]}"
            elif first.startswith(("./", ".ci/")):
                yield from (
                    f"{name}: {line.split()[0]} is no program"
                    for line in lines
                    if not os.access(TOP / line.split()[0], os.X_OK)
                )
            elif first != "wk_handle":
                yield f"{name}: no test runs {block.splitlines()[0]}"


# For each check a mistake: a document, a text of it, and what is put in its place.
PLANTED = (
    (links, "docs/design/proofs.md", "](definitions.md)", "](definition.md)"),
    (links, "README.md", "troubleshooting.md)", "troubleshooting.md#no-such-heading)"),
    (paths, "tests/README.md", "docs/guide/cookbook.md", "docs/cookbook.md"),
    (names, "docs/reference/options.md", "`--restamp`", "`--restampp`"),
    (figures, "docs/guide/c.md", "find_package(wokureti ", "find_package(wokureti 0.1"),
    (figures, "docs/design/proofs.md", "There are ", "There are 1"),
    (figures, "CONTRIBUTING.md", " wrong bodies", "0 wrong bodies"),
    (figures, "README.md", " small streams", "1 small streams"),
    (groups, "docs/design/architecture.md", "| state_cache |", "| state_caches |"),
    (groups, "docs/design/architecture.md", "\n### Editing\n", "\n### Edits\n"),
    (budgets, "README.md", "# Wokureti\n", "# Wokureti\n" + "word " * 1100),
    (budgets, "README.md", "# Wokureti\n", "# Wokureti\n" + "\n" * 110),
    (choices, "docs/design/decisions.md", "\n- ", "\n- " + "word " * 130),
    (tables, "bench/README.md", "\n## Kernels\n", "\n## Kernels\n\n| a | b |\n|---|---|\n| 1 | 2 |\n"),
    (commands, "README.md", "    # 48 packets, 48 frames", "    # 49 packets, 48 frames"),
    (commands, "README.md", "        session.undo()\n", "        session.undone()\n"),
    (commands, "README.md", "    ./test.sh ", "    ./tests.sh "),
)
CHECKS = (links, paths, names, figures, groups, budgets, choices, tables, commands)


def missed(texts):
    """The planted mistakes that no check finds."""
    for check, name, old, new in PLANTED:
        if old not in texts[name]:
            yield f"{name} has no {old!r}, where a mistake is planted: choose another place in tests/test_documents.py"
            continue
        text = texts[name].replace(old, new, 1)
        if check is commands:
            # The other blocks were run.
            text = "\n".join(
                "    " + line
                for block in blocks(text)
                if block not in blocks(texts[name])
                for line in block.splitlines()
            )
        if not [line for line in check({**texts, name: text}) if name in line]:
            yield f"{check.__name__} does not find {new!r:.60} in {name}"


def main(words):
    texts = of_tree()
    if words == ["--words"]:
        for name, text in texts.items():
            print(f"{len(text.split()):6,} of {BUDGETS.get(name, 0):6,}  {name}")
        print(
            f"{sum(len(text.split()) for name, text in texts.items() if name not in ASIDE):6,} of {ALL:6,}  without"
            f" {', '.join(ASIDE)}"
        )
        return 0
    wrong = [line for check in CHECKS for line in check(texts)]
    wrong = wrong or list(missed(texts))
    print(*wrong, sep="\n", end="\n" if wrong else "")
    return 1 if wrong else 0


if __name__ == "__main__":
    sys.exit(main(sys.argv[1:]))
