#!/usr/bin/env python3
"""Tests the gate: processor time of a command by part (.ci/parts.py), the limit of docs/design/proofs.md, and what one
part of the gate takes of an earlier one.

It prints what differs and ends with 1, or prints nothing and ends with 0.
"""

import contextlib
import importlib.util
import io
import json
import os
import pathlib
import subprocess
import sys
import tempfile
from unittest import mock

sys.dont_write_bytecode = True
TOP = pathlib.Path(__file__).resolve().parent.parent
sys.path.insert(0, str(TOP))
from release import library, proving  # noqa: E402

SCRIPT = TOP / ".ci/parts.py"
LIMIT = 120
# What a process takes, and what its start may take more.
SECONDS, LOST = 1.5, 0.6
BURN = f"import time\nwhile time.process_time() < {SECONDS}: pass\n"
# A command that starts what rt starts, each next to the others: a proof, a wrong body whose time is a child's, tests,
# and a program that is compiled.
COMMAND = f"""
import os, subprocess, sys, tempfile
room = tempfile.mkdtemp(prefix="rt-edit-1-", dir=sys.argv[1])
inner = [sys.executable, "-c", {BURN!r}]
outer = [sys.executable, "-c",
         "import subprocess, sys; subprocess.run(sys.argv[3:], check=True)",
         "/kit/bin/rattle", "check", *inner]
burn = lambda *words: [*inner, "/kit/bin/rattle", *words]
started = [subprocess.Popen(burn("build", "-o", "a.rlib")),
           subprocess.Popen(outer, cwd=room),
           subprocess.Popen(burn("check", "--test")),
           subprocess.Popen(burn("build", "--crate-checked", "there")), subprocess.Popen([*inner, "rattle-link"])]
print("begun", flush=True)
for one in started:
    one.wait()
print("rt: ok; every proof and must-fail edit was done in this run")
sys.exit(3)
"""
wrong = []


def expect(name, got, wanted):
    if got != wanted:
        wrong.append(f"{name}: {got!r:.300}, not {wanted!r:.300}")


def parts():
    spec = importlib.util.spec_from_file_location("parts", SCRIPT)
    module = importlib.util.module_from_spec(spec)
    spec.loader.exec_module(module)
    return module


def check_times(room):
    """Each part has its own process, and the rest what is no part of it."""
    file = room / "parts"
    done = subprocess.run(
        [sys.executable, SCRIPT, "run", file, "rest", sys.executable, "-c", COMMAND, room],
        capture_output=True,
        text=True,
        timeout=LIMIT,
        check=False,
    )
    expect("status and output", (done.returncode, done.stdout.splitlines()[:1], done.stderr), (3, ["begun"], ""))
    one = json.loads(file.read_text())
    expect("from nothing", one["anew"], True)
    expect("parts", list(one["parts"]), [*parts().PARTS, "rest"])
    for name in parts().PARTS:
        # On a busy machine more of a process may be counted as the rest.
        if not 0 < one["parts"][name] <= SECONDS + LOST:
            wrong.append(f"{name}: {one['parts'][name]} s of {SECONDS} s")
    if one["parts"]["rest"] < SECONDS:
        wrong.append(f"the rest: {one['parts']['rest']} s, and a process that is no part took {SECONDS} s")


def told(room, minutes, is_anew, here):
    """What is printed of a run, and the status, with a limit of 300 minutes on this machine."""
    text = 'It fails above 300 minutes\nof processor time on 4 processors "Some processor", and so on.\n'
    (room / "proofs.md").write_text(text)
    runs = [{"parts": {"proofs": 60 * minutes, "rest": 30}, "anew": is_anew}, {"parts": {"page": 30}, "anew": False}]
    (room / "runs").write_text("".join(json.dumps(one) + "\n" for one in runs))
    with contextlib.redirect_stdout(io.StringIO()) as out:
        status = parts().tell(room / "runs", room / "proofs.md", here)
    return status, out.getvalue().splitlines()


def check_limit(room):
    """A run from nothing on the machine of the limit fails above it; no other one does."""
    here = (4, "Some processor")
    lines = [
        "gate: proofs: 299.0 min",
        "gate: rest: 0.5 min",
        "gate: page: 0.5 min",
        "gate: in all: 300.0 min of processor time",
    ]
    expect("at the limit", told(room, 299, True, here), (0, lines))
    busy = told(room, 300, True, here)
    expect(
        "above the limit, next to other work",
        (busy[0], busy[1][-1]),
        (0, "gate: a run from nothing took more than 300 minutes of processor time on this machine"),
    )
    os.environ["GATE_QUIET"] = "1"
    status, lines = told(room, 300, True, here)
    expect("above it", (status, lines[-1][:13]), (1, "gate: FAILED:"))
    expect("with proofs of earlier runs", told(room, 300, False, here)[0], 0)
    expect("another processor", told(room, 300, True, (4, "Another one"))[0], 0)
    expect("two processors", told(room, 300, True, (2, "Some processor"))[0], 0)


def check_last(room):
    """The sum comes before the last line, whose status is the command's."""
    (room / "log").write_text(json.dumps({"parts": {"proofs": 60}, "anew": True}) + "\n")
    words = ["sh", "-c", "echo one; echo; echo 9 passed, 2 failed; exit 1"]
    done = subprocess.run(
        [sys.executable, SCRIPT, "last", room / "log", "tests", *words],
        capture_output=True,
        text=True,
        timeout=LIMIT,
        check=False,
    )
    lines = [
        "one",
        "",
        "gate: proofs: 1.0 min",
        "gate: tests: 0.0 min",
        "gate: in all: 1.0 min of processor time",
        "9 passed, 2 failed",
    ]
    expect("the last part", (done.returncode, done.stdout.splitlines(), done.stderr), (1, lines, ""))


def check_document():
    """docs/design/proofs.md has the limit, and rt says of a run from nothing what the script looks for."""
    expect(
        "the limit of docs/design/proofs.md",
        [found[0] for found in parts().LIMIT.findall(parts().PROOFS.read_text(encoding="utf-8"))],
        ["300"],
    )


def check_library(room):
    """An archive and its module are built once for each processor, and again if the sources or the kit are others."""
    built, said = [], {"digest": "one", "kit_here": "kit"}

    def run(words, *_):
        built.append(words[4])
        pathlib.Path(words[5]).write_text(f"archive {len(built)}")
        pathlib.Path(words[6]).write_text(f"module {len(built)}")

    def texts(cpu):
        return [path.read_text() for path in library.compiled(room, cpu, True, print)]

    given = {
        "prove_below": lambda *_: room,
        "kit_folder": lambda: room,
        "digest": lambda _: said["digest"],
        "kit_here": lambda: said["kit_here"],
    }
    with mock.patch.multiple(library, **given), mock.patch.object(proving, "run", run):
        expect("the first one", texts("v2"), ["archive 1", "module 1"])
        expect("another processor", texts("v3"), ["archive 2", "module 2"])
        expect("once more", [texts("v2"), texts("v3")], [["archive 1", "module 1"], ["archive 2", "module 2"]])
        said["digest"] = "two"
        expect("other sources", texts("v2"), ["archive 3", "module 3"])
        said["kit_here"] = "another kit"
        expect("another kit", texts("v2"), ["archive 4", "module 4"])
        expect("what was built", (built, len(list(room.glob("wokureti_c-v2-*")))), (["v2", "v3", "v2", "v2"], 2))


def check_programs(room):
    """An object file of rt ci is taken only if the program next to it is linked of it."""
    kit, out = room / "kit", room / "crates/vp8list/out"
    (kit / "bin").mkdir(parents=True)
    out.mkdir(parents=True)
    linker = kit / "bin/rattle-link"
    linker.write_text('#!/bin/sh\nprintf "linked of " > "$6"\ncat "$7" >> "$6"\n')
    linker.chmod(0o755)
    with mock.patch.multiple(proving, TOP=room, kit_folder=lambda: kit):
        expect("no object file", proving.made_by_ci("vp8list", room), None)
        (out / "vp8list.o").write_text("object file")
        expect("no program", proving.made_by_ci("vp8list", room), None)
        (out / "vp8list").write_text("linked of object file")
        expect("both", proving.made_by_ci("vp8list", room), out / "vp8list.o")
        (out / "vp8list").write_text("linked of another one")
        expect("another program", proving.made_by_ci("vp8list", room), None)


def main():
    os.chdir(TOP)
    with tempfile.TemporaryDirectory() as room:
        check_times(pathlib.Path(room))
        check_limit(pathlib.Path(room))
        check_last(pathlib.Path(room))
        check_library(pathlib.Path(room))
        check_programs(pathlib.Path(room))
    check_document()
    print(*wrong, sep="\n", end="\n" if wrong else "")
    return 1 if wrong else 0


if __name__ == "__main__":
    sys.exit(main())
