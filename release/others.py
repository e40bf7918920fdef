"""The builders of the programs for other systems than the one that they are built on.

Each is a module with FOLDER, its folder below bin/, FILES, the files besides crates/ that its programs are made of, and
the functions `missing`, `linker`, `programs` and `build`, as release/arm.py has them. A target without a wheel may have
one too.
"""

import hashlib

from . import arm, library, windows
from .sources import PROGRAMS, digest, needed, sum_of
from .targets import ARM, WINDOWS

BUILDERS = {ARM: arm, WINDOWS: windows}


def with_wheels():
    """The builders whose programs are in dist/."""
    return {target: builder for target, builder in BUILDERS.items() if target.tags}


def sources(builder):
    """A text that changes with each file that a builder's programs and library are made of."""
    found = hashlib.sha256(digest(needed((*PROGRAMS, library.CRATE))).encode())
    for path in getattr(builder, "FILES", ()):
        found.update(f"{path.name} {sum_of(path)}\n".encode())
    return found.hexdigest()
