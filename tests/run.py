#!/usr/bin/env python3
"""Runs every test that needs no proof over the programs: ./test.sh starts it.

The programs are those of the variables VP8SERVE and VP8LIST. It prints a line for each test when it ends, and
`N passed, M failed` at the end; its exit status is 1 if one failed. Tests run side by side, as many as there are
processors; each has a time limit.
"""

import collections
import concurrent.futures
import hashlib
import os
import pathlib
import re
import signal
import subprocess
import sys
import tempfile
import time
from dataclasses import dataclass

sys.dont_write_bytecode = True
HERE = pathlib.Path(__file__).resolve().parent
TOP = HERE.parent
sys.path.insert(1, str(TOP))
import build  # noqa: E402
import rows  # noqa: E402

CRATES = TOP / "crates"
CLIENT = TOP / "clients/python/tests"
SERVE, LIST = (os.environ.get(name, "") for name in ("VP8SERVE", "VP8LIST"))
LIMIT = 900
# Tests whose parts are run side by side.
PARTS = {
    "tests/test_arm.py": ("programs", "options", "saving", "library"),
    "tests/test_one_file.py": (
        "chromium",
        "firefox",
        "engines-chromium",
        "engines-firefox",
        "streams-chromium",
        "streams-firefox",
        "kills",
    ),
}
# Tests of what the version in dist/ may not have yet, by a text of the help that has it.
LATER = {"tests/test_questions.py": "check FIRST COUNT", "tests/test_long_lines.py": "--fail-refused"}


class Skipped(Exception):
    """Why a whole test cannot be run here."""


@dataclass
class Result:
    """What a test came to: `ok`, `FAILED` or `skipped`; what is wrong, what it could not run, and how long it took."""

    name: str
    word: str
    wrong: list
    skipped: list
    seconds: float


def ran(words, data=b"", folder=None, limit=LIMIT, more=(), environment=os.environ):
    """Runs a program to its end, with all that it starts, and with more variables than those of an environment."""
    streams = {"stdin": subprocess.PIPE, "stdout": subprocess.PIPE, "stderr": subprocess.STDOUT}
    with subprocess.Popen(
        list(map(str, words)), **streams, cwd=folder, env={**environment, **dict(more)}, start_new_session=True
    ) as process:
        try:
            output, _ = process.communicate(data, timeout=limit)
        except subprocess.TimeoutExpired:
            os.killpg(process.pid, signal.SIGKILL)
            output, _ = process.communicate()
            return -1, output + f"it took longer than {limit} seconds\n".encode()
    return process.returncode, output


def script(path, *words, **variables):
    """A test that is a script of its own: it prints nothing and ends with 0 if all is well. A line `skipped: ..` names
    what it could not run.
    """

    def test():
        status, output = ran([sys.executable, TOP / path, *words], more=variables)
        lines = output.decode(errors="replace").splitlines()
        skipped = [line for line in lines if line.startswith("skipped: ")]
        wrong = [line for line in lines if not line.startswith("skipped: ")]
        return wrong if status == 0 else [*wrong, f"status {status}"], skipped

    return test


def stored_run(name, program):
    """The run that a program's crate stores: what it is given, and what it must print."""

    def test():
        crate = CRATES / name
        texts = {
            part: (crate / part).read_bytes() if (crate / part).exists() else b""
            for part in ("stdin", "stdout", "args", "status")
        }
        status, output = ran(
            [program, *texts["args"].decode().splitlines()],
            texts["stdin"],
            crate / "data" if (crate / "data").is_dir() else None,
            60,
        )
        wanted = (int(texts["status"] or 0), texts["stdout"])
        return ([] if (status, output) == wanted else [f"status {status}, {output[:300]!r}"]), []

    return test


def frames_of(paths, order):
    """The MD5 of the frames of these clips, one after another, asked for in this order: their samples as one text."""
    with tempfile.TemporaryDirectory() as folder:
        out = pathlib.Path(folder, "out.y4m")
        words = [SERVE, paths[0], "-", out, *(["--sources", ":".join(map(str, paths[1:]))] if paths[1:] else [])]
        spliced = "script source 1; source 2; splice 0 1; splice 3 2\n" if paths[1:] else ""
        status, output = ran(words, (spliced + "".join(f"frame {number}\n" for number in order)).encode(), limit=60)
        if status != 0 or b"refused" in output:
            return f"status {status}, {output[-200:]!r}"
        data = out.read_bytes()
    head, _, rest = data.partition(b"\n")
    size = {word[:1]: int(word[1:]) for word in head.split()[1:3]}
    width, height = size[b"W"], size[b"H"]
    bytes_of_frame = len(b"FRAME\n") + width * height + 2 * ((width + 1) // 2) * ((height + 1) // 2)
    pieces = {
        number: rest[place * bytes_of_frame + 6 : (place + 1) * bytes_of_frame] for place, number in enumerate(order)
    }
    return hashlib.md5(b"".join(pieces[number] for number in sorted(pieces))).hexdigest()


def clip(line):
    """A clip in order and from its last frame back: the MD5 that vpxdec's frames have."""
    *names, count, md5 = line.split()
    paths, count = [CRATES / "gate_clips/data" / name for name in names], int(count)

    def test():
        orders = {"in order": range(count), "backwards": range(count - 1, -1, -1)}
        found = {name: frames_of(paths, order) for name, order in orders.items()}
        return [f"{name}: {got}, not {md5}" for name, got in found.items() if got != md5], []

    return test


def checks():
    """Findings of streams whose damage is known."""
    crate, wrong = CRATES / "gate_checks", []
    names = (crate / "stdin").read_text().split()
    wanted = (crate / "stdout").read_text().splitlines()
    starts = [*(wanted.index(name) for name in names), len(wanted)]
    for name, start, end in zip(names, starts, starts[1:]):
        damage = int(wanted[end - 1].split()[1])
        status, output = ran([LIST, crate / "data" / name, "--check"], limit=60)
        if (status, output.decode().splitlines()) != (1 if damage else 0, wanted[start + 1 : end - 1]):
            wrong.append(f"{name}: status {status}, {output.decode()!r:.300}")
    return wrong, []


def need(text):
    """Skips the test if the help of vp8serve has not this text: it is an earlier version."""
    if text not in ran([SERVE, "--help"], limit=60)[1].decode():
        raise Skipped(f"this vp8serve is an earlier one, without {text}")


def later(text, path):
    """A test that is a script of its own, of a vp8serve whose help has this text."""

    def test():
        need(text)
        return script(path)()

    return test


def row(path):
    def test():
        read, wrong = rows.read(path), []
        if read.needs:
            need(read.needs)
        for name, is_live in (("batch", False), ("--live", True)):
            with tempfile.TemporaryDirectory() as folder:
                wrong += [f"{name}: {line}" for line in rows.differences(read, SERVE, pathlib.Path(folder), is_live)]
        return wrong, []

    return test


def versions():
    """All three commands have the version of this checkout, and so have the examples for CMake in the documents.
    wokureti says what is proved, in a second line.
    """
    version = (TOP / "VERSION").read_text().strip()
    said = f"what is proved of it is not known: VP8SERVE names {SERVE}, VP8LIST names {LIST}\n"
    words = {"vp8serve": [SERVE], "vp8list": [LIST], "wokureti": [sys.executable, "-m", "wokureti"]}
    room = {name: value for name, value in os.environ.items() if name != "LIBWOKURETI"}
    found = {
        name: ran([*command, "--version"], folder=TOP / "clients/python", limit=60, environment=room)
        for name, command in words.items()
    }
    wrong = [
        f"{name}: {got!r}"
        for name, got in found.items()
        if got != (0, f"{name} {version}\n{said if name == 'wokureti' else ''}".encode())
    ]
    asked = re.findall(r"find_package\(wokureti ([0-9.]+)", (TOP / "docs/guide/c.md").read_text())
    if not asked or {*asked} != {version.rpartition(".")[0]}:
        wrong.append(f"docs/guide/c.md: find_package(wokureti {asked}) is not for {version}")
    return wrong, []


def links():
    """bin/wokureti, as build.py writes it, is started by a link of another name in another folder, and by a link to
    that, with the programs next to it.
    """
    version, wrong = (TOP / "VERSION").read_text().strip(), []
    room = {
        name: value
        for name, value in os.environ.items()
        if name not in ("PYTHONPATH", "VP8SERVE", "VP8LIST", "LIBWOKURETI")
    }
    with tempfile.TemporaryDirectory() as name:
        folder = pathlib.Path(name)
        programs, command = folder / "a tree/bin", folder / "a tree/bin/wokureti"
        programs.mkdir(parents=True)
        command.write_text(build.WOKURETI)
        command.chmod(0o755)
        for path, target in (
            (programs / "vp8serve", os.path.abspath(SERVE)),
            (programs / "vp8list", os.path.abspath(LIST)),
            (folder / "a tree/clients", TOP / "clients"),
            (folder / "one", "a tree/bin/wokureti"),
        ):
            path.symlink_to(target)
        other = folder / "another folder/two"
        other.parent.mkdir()
        other.symlink_to(folder / "one")
        for link in (folder / "one", other):
            said = ran([link, "--version"], folder=folder, limit=60, environment=room)
            if said[0] or not said[1].startswith(f"wokureti {version}\n".encode()):
                wrong.append(f"{link.name} --version: {said}")
        said = ran(
            [other, "cut", TOP / "examples/mandelbrot.ivf", "part.ivf", "--from", "f0", "--to", "f5"],
            folder=folder,
            limit=60,
            environment=room,
        )
        if said[0] or not (folder / "part.ivf").is_file():
            wrong.append(f"{other.name} cut: {said}")
    return wrong, []


def growths():
    program = CRATES / "gate_memory/out/gate_memory"
    if not program.is_file():
        raise Skipped(f"{program.relative_to(TOP)} is built by `rt ci`")
    return script("tests/faults/growths.py", "--quiet")()


def by_the_library(name):
    """A file of the client's tests, with sessions that the library answers."""
    test = script("clients/python/tests/run.py", name, WOKURETI_ENGINE="library")

    def either():
        if not (TOP / "bin/libwokureti.so.0").is_file() and not os.environ.get("LIBWOKURETI"):
            raise Skipped("the library is not built: ./build.py --library makes it")
        return test()

    return either


def all_tests():
    """Each test by its name, those that take longest first."""
    names = sorted(path.stem for path in CLIENT.glob("test_*.py"))
    found = {
        f"clients/python/tests/{name}.py": script("clients/python/tests/run.py", name, WOKURETI_ENGINE="program")
        for name in names
    }
    found |= {f"clients/python/tests/{name}.py, by the library": by_the_library(name) for name in names}
    found |= {f"tests/{path.name}": script(f"tests/{path.name}") for path in sorted(HERE.glob("test_*.py"))}
    found |= {path: later(text, path) for path, text in LATER.items()}
    found |= {f"{path} {part}": script(path, part) for path, parts in PARTS.items() for part in parts}
    for path in PARTS:
        del found[path]
    found |= {name: script(name) for name in ("conformance/records.py", "conformance/check")}
    found |= {
        name: script(name, "--quiet")
        for name in ("tests/documents/definitions.py", "tests/install/first_command.py", "tests/programs/options.py")
    }
    found |= {"docs/draw.py": script("docs/draw.py", "--check")}
    found |= {"tests/faults/growths.py": growths, "findings": checks, "links": links, "versions": versions}
    found |= {
        f"stored run of {name}": stored_run(name, program) for name, program in (("vp8serve", SERVE), ("vp8list", LIST))
    }
    found |= {
        f"clip {' '.join(line.split()[:-2])}": clip(line)
        for line in (CRATES / "gate_clips/stdout").read_text().splitlines()
    }
    return found | {f"row {path.stem}": row(path) for path in sorted(rows.ROWS.glob("*.row"))}


def timed(name, test):
    start = time.monotonic()
    try:
        wrong, skipped = test()
        word = "FAILED" if wrong else "ok"
    except Skipped as why:
        word, wrong, skipped = "skipped", [], [f"skipped: {name}: {why}"]
    except Exception as error:  # A test that cannot be run has failed; the others go on.
        word, wrong, skipped = "FAILED", [f"{type(error).__name__}: {error}"], []
    return Result(name, word, wrong, skipped, time.monotonic() - start)


def pass_no_ignored_signals():
    """Under nohup, or in the background of a script, these are ignored, and so they would be by what a test starts and
    ends by them. A handler is not passed on.
    """
    for number in (signal.SIGINT, signal.SIGHUP):
        if signal.getsignal(number) == signal.SIG_IGN:
            signal.signal(number, lambda *_: None)


def main(names):
    pass_no_ignored_signals()
    for path in (SERVE, LIST):
        if not os.access(path, os.X_OK):
            sys.exit(
                f"tests/run.py: the programs of VP8SERVE and VP8LIST are not there: {path or 'not set'}; ./test.sh"
                " names them"
            )
    tests = {name: test for name, test in all_tests().items() if not names or any(word in name for word in names)}
    counts, skipped = collections.Counter(), []
    with concurrent.futures.ThreadPoolExecutor(len(os.sched_getaffinity(0))) as pool:
        for ended in concurrent.futures.as_completed([pool.submit(timed, name, test) for name, test in tests.items()]):
            result = ended.result()
            print(
                f"{result.word:7} {result.name} ({result.seconds:.1f} s)", *result.wrong, sep="\n        ", flush=True
            )
            counts[result.word] += 1
            skipped += result.skipped
    print(*skipped, sep="\n", end="\n" if skipped else "")
    print(
        f"{counts['ok']} passed, {counts['FAILED']} failed"
        + (f", {counts['skipped']} skipped" if counts["skipped"] else ""),
        flush=True,
    )
    return 1 if counts["FAILED"] or not counts["ok"] else 0


if __name__ == "__main__":
    sys.exit(main(sys.argv[1:]))
