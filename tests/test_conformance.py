#!/usr/bin/env python3
"""conformance/run.py: a decoder whose path has a space, one that differs, and one that is not there; a stream that is
not there.

The program is that of VP8LIST. It prints what differs and ends with 1, or prints nothing and ends with 0.
"""

import os
import pathlib
import subprocess
import sys
import tempfile

TOP = pathlib.Path(__file__).resolve().parent.parent
LIST = os.environ.get("VP8LIST", str(TOP / "bin/vp8list"))
STREAMS = ("widest", "zero-tokens")
wrong = []


def run(command, *words):
    """The status of a run over two streams, and what it prints."""
    done = subprocess.run(
        [sys.executable, TOP / "conformance/run.py", "ours", command, *STREAMS, "--md5", *words],
        capture_output=True,
        text=True,
        timeout=120,
        check=False,
    )
    return done.returncode, done.stdout, done.stderr


def expect(what, found, wanted):
    if found != wanted:
        wrong.append(f"{what}: {found!r}, not {wanted!r}")


def main():
    with tempfile.TemporaryDirectory() as name:
        folder = pathlib.Path(name, "a folder of decoders")
        folder.mkdir()
        decoder, other = folder / "a decoder", folder / "another"
        decoder.write_text(f'#!/bin/sh\nexec "{LIST}" "$1" --hash\n')
        other.write_text(f'#!/bin/sh\n"{LIST}" "$1" --hash | sed "s/[0-9a-f]$/x/"\n')
        for path in (decoder, other):
            path.chmod(0o755)
        status, out, errors = run(f"'{decoder}' {{in}}")
        expect(
            "a path with spaces",
            (status, [f"{stream}: same" in out for stream in STREAMS], errors),
            (0, [True, True], ""),
        )
        status, out, errors = run(f"'{other}' {{in}}")
        expect(
            "a decoder that differs",
            (status, [f"{stream}: same" in out for stream in STREAMS], errors),
            (1, [False, False], ""),
        )
        # Without quotes the first word is no program.
        for command, said in (
            (f"{decoder} {{in}}", f"there is no program {name}/a; a path with spaces is quoted"),
            ("/nowhere/decoder {in}", "there is no program /nowhere/decoder; a path with spaces is quoted"),
            ("no-such-decoder {in}", "no-such-decoder is not there: install it, or give its path"),
        ):
            status, out, errors = run(command)
            expect(command, (status, out, errors), (2, "", f"run.py: {said}\n"))
        done = subprocess.run(
            [sys.executable, TOP / "conformance/run.py", "ours", f"'{LIST}' {{in}}", "none"],
            capture_output=True,
            text=True,
            timeout=60,
            check=False,
        )
        expect(
            "a stream that is not there",
            (done.returncode, done.stdout, done.stderr),
            (2, "", "run.py: no stream none; streams/ has their names\n"),
        )
    print(*wrong, sep="\n", end="\n" if wrong else "")
    return 1 if wrong else 0


if __name__ == "__main__":
    sys.exit(main())
