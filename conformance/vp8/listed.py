"""What vp8list of this repository writes of a stream."""

import os
import pathlib
import subprocess

TOP = pathlib.Path(__file__).resolve().parent.parent.parent
BUILT = (TOP / "bin/vp8list", TOP / "crates/vp8list/out/vp8list")


def program():
    """VP8LIST, or the program that was built, or the one on the PATH."""
    return os.environ.get("VP8LIST") or next((str(path) for path in BUILT if path.is_file()), "vp8list")


def lines_of(path, *options):
    ran = subprocess.run([program(), path, *options], capture_output=True, text=True, timeout=60, check=False)
    if ran.returncode > 1:
        raise ValueError(ran.stderr.strip() or f"{program()} ends with {ran.returncode}")
    return ran.stdout.splitlines()
