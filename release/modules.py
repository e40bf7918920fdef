"""The LLVM modules of the programs, as rattle makes them of the proved crates. `retarget` compiles them for other
targets.

They are made for plain x86-64: for x86-64-v2 and v3 a program begins with a test of the processor. The library has no
such test, so `library.compiled` has its module.
"""

import hashlib
import os
import sys
import tempfile

from . import proving
from .sources import PROGRAMS, TOP, Failed, digest, kit_folder, kit_here, needed

CPU = "x86-64"


def make(name, crates, room, is_proved, out):
    """Proves a program for plain x86-64, and keeps its module."""
    with open(room / f"{name}.log", "w", encoding="utf-8") as log, tempfile.TemporaryDirectory(dir=room) as fresh:
        try:
            folder = proving.over_ci(name, crates, room, log) if is_proved else room / name / "crates" / name
            proving.run(
                [
                    sys.executable,
                    TOP / "release/archive.py",
                    kit_folder() / "bin/rt",
                    folder,
                    CPU,
                    f"{fresh}/o",
                    f"{fresh}/bc",
                ],
                folder,
                log,
            )
        except Failed as failed:
            text = (room / f"{name}.log").read_text(encoding="utf-8", errors="replace")
            raise Failed(f"{text[-2000:]}no module of {name} was made: {failed}") from None
        os.replace(f"{fresh}/bc", out)


def programs(room, is_proved, say):
    """The module of each program by its name: those in `room`, if they were made there of these sources."""
    crates = needed()
    mark = hashlib.sha256(f"{digest(crates)} {kit_here()}".encode()).hexdigest()[:16]
    made = {name: room / f"{name}-{CPU}-{mark}.bc" for name in PROGRAMS}
    missing = {name: path for name, path in made.items() if not path.is_file()}
    if missing and not is_proved:
        proving.build(crates, room, (), say)
    for name, path in missing.items():
        for old in room.glob(f"{name}-{CPU}-*.bc"):
            old.unlink()
        say(f"making the LLVM module of {name}")
        make(name, crates, room, is_proved, path)
    return made
