#!/usr/bin/env python3
"""Tests compare/results.py: the lines of results.txt, the scripts in the tables of compare/README.md and of
tests/README.md, and that a line is written whole or not at all.

It prints what differs and ends with 1, or prints nothing and ends with 0.
"""

import collections
import contextlib
import datetime
import os
import pathlib
import re
import resource
import signal
import subprocess
import sys
import tempfile
import time

TOP = pathlib.Path(__file__).resolve().parent.parent
COMPARE = TOP / "compare"
sys.dont_write_bytecode = True
sys.path.insert(0, str(COMPARE))
import results  # noqa: E402

LIMIT = 60
TODAY = datetime.date.today().isoformat()
OLD = (
    results.HEAD + "clips.py 20 1 | 480 frames | 0.12.0 | 2026-11-01\nlisted.py (31 files) | 31 lists | 0.12.0 |"
    " 2026-11-01\nlisted.py --damage 200 | 200 lists | 0.12.0 | 2026-11-01\n"
)
# A script that ends with a total: its file of results, what it does before, its arguments, and those of `total`.
SCRIPT = f"""
import os, pathlib, signal, sys
sys.dont_write_bytecode = True
sys.path.insert(0, {str(COMPARE)!r})
import results
results.FILE = pathlib.Path(sys.argv[1])
before, text, wrong, sys.argv = sys.argv[2], sys.argv[3], int(sys.argv[4]), sys.argv[5:]
exec(before)
results.total(text, wrong, version="0.13.0")
"""
wrong = []


def expect(name, got, want):
    if got != want:
        wrong.append(f"{name}: {got!r}, not {want!r}")


def begun(file, *words, text="960 frames", before="", differing=0, limit=None):
    """A run of such a script, as `words`; with a limit for the bytes of a file."""
    limited = (lambda: resource.setrlimit(resource.RLIMIT_FSIZE, (limit, limit))) if limit is not None else None
    command = [sys.executable, "-c", SCRIPT, str(file), before, text, str(differing), *words]
    return subprocess.Popen(
        command, stdin=subprocess.DEVNULL, stdout=subprocess.PIPE, stderr=subprocess.PIPE, text=True, preexec_fn=limited
    )


def ended(process):
    try:
        output, errors = process.communicate(timeout=LIMIT)
    except subprocess.TimeoutExpired:
        process.kill()
        output, errors = process.communicate()
        errors += f"it took longer than {LIMIT} seconds"
    return process.returncode, output, errors


@contextlib.contextmanager
def old_file():
    with tempfile.TemporaryDirectory() as folder:
        file = pathlib.Path(folder, "results.txt")
        file.write_text(OLD)
        yield file


def check_documents():
    """Each line has four columns, a script that exists and its own kind; the tables have each script, and each script
    has a total.
    """
    lines = (COMPARE / "results.txt").read_text(encoding="utf-8").splitlines(keepends=True)
    expect("the head of results.txt", lines[:1], [results.HEAD])
    expect("lines without four columns", [line for line in lines[1:] if len(line.split(" | ")) != 4], [])
    kinds = [results.kind(line) for line in lines[1:]]
    expect("the order of results.txt", kinds, sorted(kinds))
    expect("kinds of run with two lines", [kind for kind, after in zip(kinds, kinds[1:]) if kind == after], [])
    there = collections.defaultdict(dict)
    # A test that is run at length by its own variable has a total too.
    for path in (*COMPARE.glob("*.py"), *(TOP / "tests").glob("*/*.py"), TOP / "tests/test_one_file.py"):
        if path.read_bytes().startswith(b"#!"):
            there[COMPARE if path.parent == COMPARE else TOP / "tests"][path.name] = path
    scripts = [path for paths in there.values() for path in paths.values()]
    expect("scripts of one name", [name for name in there[COMPARE] if name in there[TOP / "tests"]], [])
    expect(
        "scripts of results.txt without a file", {name for name, *_ in kinds} - {path.name for path in scripts}, set()
    )
    expect(
        "scripts without a total",
        [path.name for path in scripts if "results.total(" not in path.read_text(encoding="utf-8")],
        [],
    )
    for folder, paths in there.items():
        text = (folder / "README.md").read_text(encoding="utf-8")
        rows = [
            line.split(" | ")[0]
            for part in text.split("| Script |")[1:]
            for line in part.split("\n\n")[0].splitlines()[2:]
        ]
        named = collections.Counter(name for row in rows for name in set(re.findall(r"\w+\.py", row)))
        expect(f"the scripts in the table of {folder.name}/README.md", named, collections.Counter(paths.keys()))


def check_lines():
    """A line of the same kind is replaced, the others stay; what differs, --quiet and --help write nothing."""
    for words, replaced, line in (
        (["/somewhere/clips.py", "40", "7"], 1, "clips.py 40 7"),
        (["clips.py", "--seed", "7", "--lists=9"], 1, "clips.py --seed 7 --lists=9"),
        (["listed.py", "a.ivf", "/b/c|d\n.ivf"], 2, "listed.py a.ivf c d .ivf"),
        (["listed.py", "--damage=9"], 3, "listed.py --damage=9"),
        (["clips.py", "--new", "1", "2", "3", "4", "5"], None, "clips.py --new 1 2 3 4 5"),
        (["sizes.py", *"abcd"], None, "sizes.py (4 files)"),
        (["listed.py"], None, "listed.py"),
    ):
        with old_file() as file:
            expect(
                f"{words}", ended(begun(file, *words, text="960\tframes | \x1b[1m")), (0, "960\tframes | \x1b[1m\n", "")
            )
            want = OLD.splitlines()
            want[replaced or len(want) : (replaced or len(want)) + 1] = [f"{line} | 960 frames [1m | 0.13.0 | {TODAY}"]
            expect(f"{words}: the lines", file.read_text().splitlines(), [want[0], *sorted(want[1:], key=results.kind)])
    for words, differing, output in (
        (["clips.py", "1"], 1, "960 frames\n"),
        (["clips.py", "--quiet"], 0, ""),
        (["clips.py", "--help"], 0, ""),
    ):
        with old_file() as file:
            expect(f"{words}, {differing} differ", ended(begun(file, *words, differing=differing)), (0, output, ""))
            expect(f"{words}, {differing} differ: the file", file.read_text(), OLD)
    with tempfile.TemporaryDirectory() as folder:
        expect("without a file", ended(begun(pathlib.Path(folder, "results.txt"), "run.py"))[0], 0)
        expect(
            "the new file",
            pathlib.Path(folder, "results.txt").read_text(),
            f"{results.HEAD}run.py | 960 frames | 0.13.0 | {TODAY}\n",
        )


def check_together():
    """Of eight runs at the same time no line is lost, also of lines that no script wrote."""
    with old_file() as file:
        with open(file, "ab") as out:
            out.write(b"zzz \xff not a line\n")
        again = (
            "results.LIMIT = 50\nfor number in range(9): results.write(results.FILE, f'{sys.argv[0]} --{number}', 'x',"
            " '-')"
        )
        runs = [begun(file, f"s{number}.py", before=again) for number in range(8)]
        for run in runs:
            expect("one of eight runs", ended(run), (0, "960 frames\n", ""))
        lines = file.read_text(encoding="utf-8", errors="surrogateescape").splitlines()
    want = [*OLD.splitlines(), "zzz \udcff not a line"]
    expect("lines that are lost", [line for line in want if line not in lines], [])
    expect("the number of lines", len(lines), len(want) + 8 * 10)


def check_failures():
    """No disk space, no folder, a run that is killed, and one that is stopped while it writes: the file is as it was,
    and the next run writes.
    """
    with old_file() as file:
        expect(
            "a full disk",
            ended(begun(file, "clips.py", limit=100)),
            (0, "960 frames\n", "results.txt does not get this line: [Errno 27] File too large\n"),
        )
        expect(
            "a full disk: the folder",
            ({path.name for path in file.parent.iterdir()}, file.read_text()),
            ({"results.txt"}, OLD),
        )
    for place in ("/proc/self/results.txt", "/nowhere/results.txt"):
        status, output, errors = ended(begun(place, "clips.py"))
        expect(
            place,
            (status, output, errors.startswith("results.txt does not get this line: "), errors.count("\n")),
            (0, "960 frames\n", True, 1),
        )
    with old_file() as file:
        expect(
            "killed before the rename",
            ended(begun(file, "clips.py", before="os.replace = lambda *_: os.kill(os.getpid(), signal.SIGKILL)"))[0],
            -signal.SIGKILL,
        )
        expect("killed before the rename: the file", file.read_text(), OLD)
        file.with_name("results.txt.new").write_text(OLD[:100])
        expect("after one that was killed", ended(begun(file, "clips.py"))[0], 0)
        expect(
            "after one that was killed: the folder",
            ({path.name for path in file.parent.iterdir()}, file.read_text()),
            (
                {"results.txt"},
                OLD.replace(
                    "clips.py 20 1 | 480 frames | 0.12.0 | 2026-11-01", f"clips.py | 960 frames | 0.13.0 | {TODAY}"
                ),
            ),
        )
    with old_file() as file:
        for turn in range(8):
            run = begun(
                file,
                "run.py",
                before="print(flush=True)\nwhile True: results.write(results.FILE, 'run.py', '960 frames', '0.13.0')",
            )
            run.stdout.readline()
            time.sleep(0.004 * turn)
            run.kill()
            ended(run)
            expect(
                "killed at any time", file.read_text() in (OLD, f"{OLD}run.py | 960 frames | 0.13.0 | {TODAY}\n"), True
            )
    with old_file() as file:
        stopped = begun(
            file,
            "run.py",
            before=(
                "replace = os.replace\nos.replace = lambda *paths: (os.kill(os.getpid(), signal.SIGSTOP),"
                " replace(*paths))"
            ),
        )
        os.waitpid(stopped.pid, os.WUNTRACED)
        status, output, errors = ended(begun(file, "clips.py", before="results.LIMIT = 0.2"))
        expect(
            "while one is stopped",
            (status, output, "another run has held the lock" in errors, file.read_text()),
            (0, "960 frames\n", True, OLD),
        )
        stopped.send_signal(signal.SIGCONT)
        expect("the one that was stopped", ended(stopped), (0, "960 frames\n", ""))
        expect("the one that was stopped: the file", file.read_text(), f"{OLD}run.py | 960 frames | 0.13.0 | {TODAY}\n")


def check_version():
    """The version is that of the programs."""
    expect(
        "the version",
        results.version_of_programs(),
        subprocess.run(
            [os.environ["VP8SERVE"], "--version"], stdout=subprocess.PIPE, text=True, timeout=LIMIT
        ).stdout.split()[1],
    )


def main():
    check_documents()
    check_lines()
    check_together()
    check_failures()
    check_version()
    print(*wrong, sep="\n", end="\n" if wrong else "")
    return 1 if wrong else 0


if __name__ == "__main__":
    sys.exit(main())
