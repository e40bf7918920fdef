"""Builds the programs for WASI, which are only compared with the native ones and not shipped. Node runs them, by
tests/run_wasi.mjs.

They show that modules with pointers of 4 bytes do what the native programs do, with the whole program and not only the
library.
"""

import pathlib
import subprocess
import tempfile

from . import modules, retarget, web
from .sources import TOP, Failed

FOLDER = "wasi"
PORT = TOP / "release/port"
INCLUDE, LIBC = pathlib.Path("/usr/include/wasm32-wasi"), pathlib.Path("/usr/lib/wasm32-wasi")
C_OPTIONS = (
    "--target=wasm32-wasip1",
    "-std=gnu11",
    "-O2",
    "-nostdinc",
    "-isystem",
    INCLUDE,
    "-Wall",
    "-Wextra",
    "-Werror",
)


def is_possible():
    """Whether the C library of WASI is there."""
    return (LIBC / "libc.a").is_file()


def c_objects(folder):
    """The object files of release/port, and of the numbers of 128 bits. The kit's clang has no headers of its own:
    stddef.h is gcc's.
    """
    made = []
    own = subprocess.run(["gcc", "-print-file-name=include"], capture_output=True, text=True, check=True).stdout.strip()
    for name in ("common", "heap", "posix"):
        made.append(folder / f"{name}.o")
        retarget.clang(
            *C_OPTIONS, "-isystem", own, *retarget.TARGETS[web.TARGET].options, "-c", PORT / f"{name}.c", "-o", made[-1]
        )
    return [*made, web.c_object("wide.c", folder)]


def linked(bitcodes, folder):
    """The program of each module, by its name."""
    made = {}
    with tempfile.TemporaryDirectory() as name:
        room = pathlib.Path(name)
        parts = c_objects(room)
        for program, bitcode in bitcodes.items():
            own = retarget.compiled(bitcode, web.TARGET, room / f"{program}.o")
            made[program] = folder / f"{program}.wasm"
            retarget.clang(
                *web.STACK, "-o", made[program], LIBC / "crt1-command.o", own, *parts, LIBC / "libc.a", name="wasm-ld"
            )
    return made


def build(room, folder, is_proved, say):
    """Puts the programs into a folder."""
    if not is_possible():
        raise Failed("programs for WASI are linked with its C library: install wasi-libc")
    bitcodes = modules.programs(pathlib.Path(room), is_proved, say)
    say("compiling the programs for WASI, outside the verdict")
    folder.mkdir(parents=True, exist_ok=True)
    made = linked(bitcodes, folder)
    say(f"{', '.join(path.name for path in made.values())} are in {folder}")
