"""Builds the archive of a static library, and keeps the LLVM module that it is compiled from: archive.py RT FOLDER CPU
ARCHIVE MODULE

In the crate FOLDER rattle proves and builds the library as `rt lib` does, with a toolchain whose clang is a script: it
copies the module that it is to compile to MODULE, and calls the kit's clang. What an earlier call in this folder
proved, for whatever processor, is not proved again. The libraries below the crate are proved before.
"""

import pathlib
import shlex
import sys
import tempfile

sys.dont_write_bytecode = True
from stamps import module_of  # noqa: E402

CLANG = """#!/bin/sh
for word in "$@"; do case "$word" in *.bc) cp "$word" {out};; esac; done
exec {clang} "$@"
"""


def toolchain(folder, kit, out):
    """The kit's toolchain in another folder, but for clang."""
    for part in sorted((kit / "toolchain").rglob("*")):
        made = folder / part.relative_to(kit / "toolchain")
        if part.is_dir():
            made.mkdir()
        elif part.name == "clang":
            made.write_text(CLANG.format(out=shlex.quote(str(out)), clang=shlex.quote(str(part))), encoding="utf-8")
            made.chmod(0o755)
        else:
            made.symlink_to(part.parent / part.readlink() if part.is_symlink() else part)


def main(rt, folder, cpu, archive, module):
    rt, folder = pathlib.Path(rt).resolve(), pathlib.Path(folder).resolve()
    archive, module = pathlib.Path(archive).resolve(), pathlib.Path(module).resolve()
    rtlib = module_of(rt).rtlib
    crate = next(one for one in rtlib.crates_below(str(folder)) if pathlib.Path(one.folder) == folder)
    with tempfile.TemporaryDirectory() as room:
        toolchain(pathlib.Path(room), rt.parents[1], module)
        words = [
            *crate.words(["--cpu", cpu]),
            "--toolchain",
            room,
            "--backend",
            "llvm",
            *rtlib.KEPT,
            "-o",
            str(archive),
        ]
        status = crate.call(rtlib.RATTLE, "build", *words)
    return status or (0 if archive.is_file() and module.is_file() else "no archive, or no LLVM module, was made")


if __name__ == "__main__":
    sys.exit(main(*sys.argv[1:]))
