"""Builds the C library of the crate wokureti_c: the archive that rt makes, and the shared library that gcc links of
it.
"""

import hashlib
import os
import pathlib
import shutil
import subprocess
import sys
import tempfile

from . import proving, sdk
from .sdk import ARCHIVE, SHARED
from .sources import TOP, Failed, digest, kit_folder, kit_here, needed

CRATE = "wokureti_c"
HEADER, SYMBOLS = TOP / "clients/c/include/wokureti.h", TOP / "clients/c/wokureti.map"


def prove_below(room, crates, is_proved, say, log):
    """Gives a copy of the library's crate the proved crates below it, and returns the copy. If `is_proved`, rt ci has
    proved them in this checkout.
    """
    folder = room / "library"
    proving.copy_files(crates, folder)
    if is_proved:
        proving.take_libraries(set(crates) - {CRATE}, TOP, folder)
        return folder / "crates" / CRATE
    say(
        f"proving {len(crates)} crates: allow 40 minutes on 4 idle processors. rt's output goes to"
        f" {room / 'library.log'}"
    )
    for made in (room / "common", room / "vp8serve"):
        proving.take_libraries(set(crates) - {CRATE}, made, folder)
    proving.run(["rt", "all", "check", "--jobs", str(proving.jobs())], folder, log)
    return folder / "crates" / CRATE


def compiled(room, cpu, is_proved, say):
    """The archive of the library for a processor, and the LLVM module that it is compiled from: those in `room`, if
    they were built there of these sources.
    """
    crates = needed((CRATE,))
    stem = f"{CRATE}-{cpu}-{hashlib.sha256(f'{digest(crates)} {kit_here()}'.encode()).hexdigest()[:16]}"
    archive, module = room / f"{stem}.a", room / f"{stem}.bc"
    if archive.is_file() and module.is_file():
        return archive, module
    for old in room.glob(f"{CRATE}-{cpu}-*"):
        old.unlink()
    with open(room / "library.log", "w", encoding="utf-8") as log, tempfile.TemporaryDirectory(dir=room) as fresh:
        try:
            folder = prove_below(room, crates, is_proved, say, log)
            proving.run(
                [
                    sys.executable,
                    TOP / "release/archive.py",
                    kit_folder() / "bin/rt",
                    folder,
                    cpu,
                    f"{fresh}/a",
                    f"{fresh}/bc",
                ],
                folder,
                log,
            )
        except Failed as failed:
            text = (room / "library.log").read_text(encoding="utf-8", errors="replace")
            raise Failed(f"{text[-2000:]}no library was built: {failed}") from None
        os.replace(f"{fresh}/bc", module)
        os.replace(f"{fresh}/a", archive)
    return archive, module


def ran(*words):
    done = subprocess.run(list(map(str, words)), capture_output=True, text=True, check=False)
    if done.returncode != 0:
        raise Failed(f"{words[0]} could not make the library: {done.stderr.strip()}")


def link(made, out, prefix="", heap=None):
    """Links the shared library of an archive, with the kit's heap or with that of another file."""
    heap = heap or kit_folder() / "c/liblibc_c.a"
    options = [
        "-shared",
        "-s",
        "-Wl,--build-id=none",
        f"-Wl,-soname,{SHARED}",
        f"-Wl,--version-script={SYMBOLS}",
        "-Wl,-z,defs,-z,relro,-z,now,--gc-sections",
    ]
    ran(f"{prefix}gcc", *options, "-o", out, "-Wl,--whole-archive", made, "-Wl,--no-whole-archive", heap)


def pack(made, heap, out, prefix=""):
    """Makes the archive for static linking: the library's own, and the kit's heap."""
    pathlib.Path(out).unlink(missing_ok=True)
    script = (
        f"create {out}\\naddlib {made}\\n{'addlib' if str(heap).endswith('.a') else 'addmod'} {heap}\\nsave\\nend\\n"
    )
    ran("sh", "-c", f"printf '{script}' | {prefix}ar -MD")


def shared(room, cpus, is_proved, say):
    """The shared library for each processor, and the archive for the most general one, by their names and
    processors.
    """
    found = {}
    for cpu in cpus:
        say(f"building {SHARED} for {cpu}")
        found[SHARED, cpu] = pathlib.Path(room) / f"{SHARED}-{cpu}"
        link(compiled(pathlib.Path(room), cpu, is_proved, say)[0], found[SHARED, cpu])
    found[ARCHIVE, cpus[0]] = pathlib.Path(room) / f"{ARCHIVE}-{cpus[0]}"
    pack(
        compiled(pathlib.Path(room), cpus[0], is_proved, say)[0],
        kit_folder() / "c/liblibc_c.a",
        found[ARCHIVE, cpus[0]],
    )
    return found


def build(room, folder, cpu, is_proved, say):
    """Puts the shared library, the archive, the header and the files for pkg-config and CMake into a folder."""
    for program in ("gcc", "ar"):
        if shutil.which(program) is None:
            raise Failed(f"the library is linked with {program}: install gcc and binutils")
    made = compiled(room, cpu, is_proved, say)[0]
    fresh = pathlib.Path(room) / "linked"
    shutil.rmtree(fresh, ignore_errors=True)
    fresh.mkdir()
    link(made, fresh / SHARED)
    pack(made, kit_folder() / "c/liblibc_c.a", fresh / ARCHIVE)
    shutil.copyfile(HEADER, fresh / HEADER.name)
    for name, text in sdk.texts("").items():
        (fresh / name).write_text(text, encoding="ascii")
    folder.mkdir(exist_ok=True)
    for path in fresh.iterdir():
        os.replace(path, folder / path.name)
    say(f"the library is in {folder}: {SHARED}, {ARCHIVE}, {HEADER.name}, wokureti.pc and wokureti-config.cmake")
