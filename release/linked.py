"""Links a program that needs no library of the machine: of the object file that the proofs build, two archives of the
kit, and the C library.
"""

import hashlib
import pathlib
import shutil
import subprocess

from .sources import Failed, kit_folder, sum_of

# What gcc links of the C library and of its own; a program's bytes depend on them.
PARTS = ("crt1.o", "crti.o", "crtbeginT.o", "crtend.o", "crtn.o", "libc.a", "libgcc.a", "libgcc_eh.a")


def c_library(prefix=""):
    """Which C library is linked here: the linker's line, and a digest of the files. None without gcc or without libc.a.
    The names of a compiler for another system begin with a prefix."""
    if shutil.which(f"{prefix}gcc") is None:
        return None
    found = hashlib.sha256()
    for part in PARTS:
        path = subprocess.run(
            [f"{prefix}gcc", f"-print-file-name={part}"], capture_output=True, text=True, check=True
        ).stdout.strip()
        if not pathlib.Path(path).is_file():
            return None
        found.update(f"{part} {sum_of(path)}\n".encode())
    linker = subprocess.run(
        [f"{prefix}ld", "--version"], capture_output=True, text=True, check=True
    ).stdout.splitlines()[0]
    return f"{linker}, {found.hexdigest()}"


def archives():
    """The kit's C functions for x86-64."""
    return [kit_folder() / "c" / name for name in ("libos_c.a", "liblibc_c.a")]


def link(made, out, prefix="", functions=None):
    """Links the object file `made` to the stripped program `out`, with the kit's C functions or with those of other
    files.
    """
    words = [
        f"{prefix}gcc",
        "-static",
        "-s",
        "-Wl,--build-id=none",
        "-Wl,--gc-sections",
        "-o",
        out,
        made,
        *(archives() if functions is None else functions),
    ]
    ran = subprocess.run(list(map(str, words)), capture_output=True, text=True, check=False)
    if ran.returncode != 0:
        raise Failed(f"{prefix}gcc could not link {pathlib.Path(made).name}: {ran.stderr.strip()}")
