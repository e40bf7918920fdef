"""The parser of VP8 in Python: that of the conformance streams."""

import pathlib
import sys

sys.path.insert(0, str(pathlib.Path(__file__).resolve().parent.parent.parent / "conformance"))

from vp8 import bits, generator, objects, parser, tables  # noqa: E402, F401
