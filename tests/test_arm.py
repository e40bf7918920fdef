#!/usr/bin/env python3
"""Tests the programs and the library for Linux on ARM under `qemu-aarch64`: rows, clips, findings, stored runs,
conformance, options, saving, and the library's tests in C against the vp8serve of this machine.

    test_arm.py [programs | options | saving | library]

They are those of bin/arm, which `./build.py --arm` makes, or of the wheel in dist/, if it is of these sources. It
prints what fails and ends with 1, or prints nothing and ends with 0; a line `skipped: ..` names what could not be run.
"""

import os
import pathlib
import shlex
import shutil
import subprocess
import sys
import tempfile

TOP = pathlib.Path(__file__).resolve().parent.parent
sys.dont_write_bytecode = True
sys.path.insert(0, str(TOP))
from release import arm, library, wheel  # noqa: E402
from release.arm import PREFIX  # noqa: E402
from release.others import sources  # noqa: E402
from release.sources import Failed, read_names  # noqa: E402
from release.targets import ARM  # noqa: E402

LIMIT = 800
QEMU, ROOT, MADE = "qemu-aarch64", "/usr/aarch64-linux-gnu", TOP / "bin/arm"
CPU = ARM.builds[0]
TESTS = ("row ", "clip ", "findings", "stored run", "conformance/", "test_written_files")


def programs(folder):
    """The folder with the programs and the library, of the same sources as the other programs that are tested; or the
    reason why there is none.
    """
    if read_names(MADE / ".built").get("sources") == sources(arm):
        return MADE, ""
    dist = read_names()
    if dist.get(f"sources for {CPU}") != sources(arm):
        return None, "neither bin/arm nor dist/ has programs of these sources: ./build.py --arm makes them"
    try:
        for name in ARM.files:
            (folder / name).write_bytes(wheel.program(dist["version"], name, CPU))
            (folder / name).chmod(0o755)
    except Failed as failed:
        return None, str(failed)
    return folder, ""


def started_by_qemu(there, folder):
    """A script for each program that starts it under the emulator."""
    made = {name: folder / "qemu" / name for name in ARM.programs}
    (folder / "qemu").mkdir()
    for name in ARM.programs:
        made[name].write_text(f'#!/bin/sh\nexec {QEMU} {shlex.quote(str(there / name))} "$@"\n')
        made[name].chmod(0o755)
    return {name.upper(): str(path) for name, path in made.items()}


def ran(words, variables):
    """The lines of a test that fail, and those that say what it skipped."""
    options = {"stdin": subprocess.DEVNULL, "capture_output": True, "text": True, "timeout": LIMIT}
    done = subprocess.run([sys.executable, *map(str, words)], env={**os.environ, **variables}, **options, check=False)
    lines = (done.stdout + done.stderr).splitlines()
    skipped = [line for line in lines if line.startswith("skipped: ")]
    wrong = [line for line in lines if line not in skipped and not line.startswith("ok ")] if done.returncode else []
    return wrong or ([f"{words[0]}: status {done.returncode}"] if done.returncode else []), skipped


def of_programs(there, folder):
    return ran([TOP / "tests/run.py", *TESTS], started_by_qemu(there, folder))


def of_options(there, folder):
    return ran([TOP / "tests/programs/options.py", "--quiet", "--few"], started_by_qemu(there, folder))


def of_saving(there, folder):
    return ran([TOP / "tests/faults/saving.py", "--quiet"], started_by_qemu(there, folder))


def of_library(there, _):
    """The library's tests in C, whose programs the cross compiler makes; the lists of requests are answered by vp8serve
    of this machine too.
    """
    if shutil.which(f"{PREFIX}gcc") is None:
        return [], [f"skipped: the library for {ARM.name}: {PREFIX}gcc is not there"]
    variables = {
        "LIBWOKURETI": str(there / library.SHARED),
        "WOKURETI_CC": f"{PREFIX}gcc",
        "WOKURETI_EMULATOR": f"{QEMU} -L {ROOT}",
    }
    parts = [ran([TOP / f"tests/{name}.py"], variables) for name in ("test_library", "test_library_stack")]
    return tuple(sum(lines, []) for lines in zip(*parts))


PARTS = {"programs": of_programs, "options": of_options, "saving": of_saving, "library": of_library}


def main(names):
    if shutil.which(QEMU) is None:
        print(f"skipped: {ARM.name}: {QEMU} is not there; Debian's package is qemu-user")
        return 0
    with tempfile.TemporaryDirectory() as name:
        folder = pathlib.Path(name)
        # One test starts the programs as another user.
        folder.chmod(0o755)
        there, why = programs(folder)
        if there is None:
            print(f"skipped: {ARM.name}: {why}")
            return 0
        rooms = {name: folder / f"part-{name}" for name in names or PARTS}
        for room in rooms.values():
            room.mkdir()
        found = [PARTS[name](there, room) for name, room in rooms.items()]
    wrong, skipped = [line for part, _ in found for line in part], [line for _, part in found for line in part]
    print(
        *(f"skipped: under qemu: {line.removeprefix('skipped: ')}" for line in skipped),
        *wrong,
        sep="\n",
        end="\n" if wrong or skipped else "",
    )
    return 1 if wrong else 0


if __name__ == "__main__":
    sys.exit(main(sys.argv[1:]))
