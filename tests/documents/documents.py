#!/usr/bin/env python3
"""Runs the commands of docs/guide/cookbook.md (or of the files named) as they stand, in order, in one bash and one new
folder, and compares their output with the lines after `#`. A player is replaced by `cat`, and `wokureti open` is
interrupted after some seconds. On a machine of more than three processors they run on three of them, since no output
may depend on how many there are."""

import os
import pathlib
import shutil
import subprocess
import sys
import tempfile

TOP = pathlib.Path(__file__).resolve().parents[2]
sys.path.insert(1, str(TOP / "compare"))
import results  # noqa: E402


def blocks(text):
    """The indented lines of a text, each command with the output that is wanted after it."""
    found = []
    for line in text.splitlines():
        if not line.startswith("    "):
            continue
        line = line[4:]
        if line.startswith("# "):
            found[-1][1].append(line[2:])
        elif found and (not complete(found[-1][0]) or line.startswith((" ", "}"))):
            found[-1][0] += "\n" + line
        else:
            found.append([line, []])
    return found


def complete(command):
    """Whether bash reads this as whole commands."""
    return subprocess.run(["bash", "-n", "-c", command], capture_output=True).returncode == 0


def on_three():
    """The beginning of a command line that runs the rest on three processors, if there are more."""
    processors = sorted(os.sched_getaffinity(0))
    return (
        ["taskset", "-c", ",".join(map(str, processors[:3]))] if len(processors) > 3 and shutil.which("taskset") else []
    )


def run(path, folder):
    wrong = 0
    commands = blocks(path.read_text(encoding="utf-8"))
    script = "".join(f"{command}\necho '--end--' \n" for command, _ in commands)
    programs = f"{TOP}/bin"
    path_of_programs = f"{folder}/bin:{programs}:{os.environ['PATH']}"
    env = dict(os.environ, PATH=path_of_programs, PYTHONPATH=str(TOP / "clients/python"), PYTHONDONTWRITEBYTECODE="1")
    # On an idle machine most of it is the page, which is open for 8 s; on a busy one it took 8 minutes.
    ran = subprocess.run(
        [*on_three(), "bash", "-c", script],
        cwd=folder,
        env=env,
        capture_output=True,
        text=True,
        stdin=subprocess.DEVNULL,
        timeout=1800,
    )
    outputs = ran.stdout.split("--end--\n")
    for (command, wanted), output in zip(commands, outputs):
        lines = output.splitlines()
        if wanted and lines != wanted:
            wrong += 1
            print(f"{path.name}: {command}\n  printed {lines}\n  and not {wanted}")
    if len(outputs) != len(commands) + 1:
        wrong += 1
        print(f"{path.name}: only {len(outputs) - 1} of {len(commands)} commands ended")
    print(f"{path.name}: {len(commands)} commands, {wrong} differ")
    if ran.stderr:
        print(ran.stderr, end="")
    return len(commands), wrong


def main():
    missing = [name for name in ("vp8serve", "vp8list", "wokureti") if not (TOP / "bin" / name).is_file()]
    if missing:
        sys.exit(f"{TOP}/bin has no {' and no '.join(missing)}: run ./build.py first")
    paths = [pathlib.Path(name) for name in sys.argv[1:]] or [TOP / "docs/guide/cookbook.md"]
    commands = wrong = 0
    for path in paths:
        with tempfile.TemporaryDirectory() as folder:
            os.mkdir(f"{folder}/bin")
            for player in ("ffplay", "mpv"):
                stub = pathlib.Path(folder, "bin", player)
                stub.write_text("#!/bin/sh\ncat > /dev/null\n")
                stub.chmod(0o755)
            page = pathlib.Path(folder, "bin", "wokureti")
            page.write_text(
                f'#!/bin/sh\n[ "$1" != open ] || exec timeout -s INT 8 {TOP}/bin/wokureti "$@" --no-browser 2>'
                f' /dev/null\nexec {TOP}/bin/wokureti "$@"\n'
            )
            page.chmod(0o755)
            found = run(path, folder)
            commands, wrong = commands + found[0], wrong + found[1]
    results.total(f"{commands} commands, {wrong} differ", wrong)
    return 1 if wrong else 0


if __name__ == "__main__":
    sys.exit(main())
