#!/usr/bin/env python3
"""Looks at the messages of `vp8serve` on a terminal of its own and in a pipe: that `--explain` is named on the terminal
only, after an error without it, that two lines say how to begin if standard input is a terminal and there are no
arguments, and that no control character of a path or a file reaches it.

    tests/programs/terminal.py
"""

import os
import pathlib
import pty
import subprocess
import sys
import tempfile

sys.path.insert(1, str(pathlib.Path(__file__).resolve().parents[2] / "compare"))
import results  # noqa: E402
from library.programs import VP8SERVE  # noqa: E402

NAMED = "with --explain the next line says why, and what to do\n"
HINT = (
    "vp8serve reads requests, a line each, for example: blank 0 64 48. Ctrl-D ends them\n"
    "vp8serve --help shows all of them, and a line to copy\n"
)
OTHER = b"DKIF\0\0\x20\0\x1bcAB\x10\0\x10\0\x1e\0\0\0\1\0\0\0" + bytes(8)

# Arguments, and the messages without the line that names `--explain`, and whether it follows on a terminal.
CASES = [
    (["--pad"], "vp8serve: command line\n", True),
    (["no.ivf"], "vp8serve: cannot read no.ivf\n", True),
    (["no\x1bc\x9b.ivf"], "vp8serve: cannot read no?c?.ivf\n", True),
    (["other.ivf"], "vp8serve: input FourCc\n", True),
    (
        ["other.ivf", "--explain"],
        (
            "vp8serve: input FourCc\nother.ivf has the codec ?cAB, not VP80, and has to be coded again, which changes"
            " each frame: ffmpeg -i other.ivf -an -c:v libvpx out.ivf\n"
        ),
        False,
    ),
    (["--version"], "", False),
    ([], "", False),
]


def on_terminal(arguments, folder):
    """What the program writes to standard error if that is a terminal."""
    ours, terminal = pty.openpty()
    subprocess.run(
        [VP8SERVE, *arguments], cwd=folder, stdin=subprocess.DEVNULL, stdout=subprocess.DEVNULL, stderr=terminal
    )
    os.close(terminal)
    text = b""
    try:
        while part := os.read(ours, 65536):
            text += part
    except OSError:
        pass
    os.close(ours)
    return text.decode().replace("\r\n", "\n")


def in_pipe(arguments, folder):
    """What the program writes to standard error if that is a pipe."""
    ran = subprocess.run(
        [VP8SERVE, *arguments], cwd=folder, stdin=subprocess.DEVNULL, stdout=subprocess.DEVNULL, stderr=subprocess.PIPE
    )
    return ran.stderr.decode()


def at_keyboard(arguments, folder):
    """Standard output and error of a run in which one request is typed at a terminal."""
    ours, terminal = pty.openpty()
    with subprocess.Popen(
        [VP8SERVE, *arguments], cwd=folder, stdin=terminal, stdout=subprocess.PIPE, stderr=subprocess.PIPE
    ) as program:
        os.write(ours, b"count\n\x04")
        told = program.stdout.read().decode(), program.stderr.read().decode()
    os.close(terminal)
    os.close(ours)
    return told


def main():
    differences = 0
    with tempfile.TemporaryDirectory() as folder:
        pathlib.Path(folder, "other.ivf").write_bytes(OTHER)
        for arguments, text, is_named in CASES:
            for got, want in (
                (on_terminal(arguments, folder), text + NAMED * is_named),
                (in_pipe(arguments, folder), text),
            ):
                if got != want:
                    differences += 1
                    print(f"{arguments}: {got!r}, not {want!r}")
        for arguments, hint in ([], HINT), (["-"], ""), (["--explain"], ""), (["--live"], ""):
            got, want = at_keyboard(arguments, folder), ("packets 0 frames 0\n", hint)
            if got != want:
                differences += 1
                print(f"{arguments}: {got!r}, not {want!r}")
    results.total(f"{2 * len(CASES) + 4} runs, {differences} differences", differences)
    return 1 if differences else 0


if __name__ == "__main__":
    sys.exit(main())
