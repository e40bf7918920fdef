"""Where the programs and the streams of this repository are."""

import os
import pathlib
import subprocess

TOP = pathlib.Path(__file__).resolve().parents[2]
# The programs that ./build.py made, or those that these variables name.
VP8SERVE = pathlib.Path(os.environ.get("VP8SERVE") or TOP / "bin/vp8serve")
VP8LIST = pathlib.Path(os.environ.get("VP8LIST") or TOP / "bin/vp8list")
EXAMPLE = TOP / "examples/mandelbrot.ivf"
CLIPS = TOP / "crates/gate_clips/data"


def real_streams():
    """The example and the clips of gate_clips."""
    return [EXAMPLE, *sorted(CLIPS.glob("*.ivf"))]


def run(words, **more):
    """Runs a command that must succeed, and returns what it wrote."""
    return subprocess.run(
        [str(word) for word in words], check=True, stdout=subprocess.PIPE, stderr=subprocess.PIPE, **more
    ).stdout
