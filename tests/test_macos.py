#!/usr/bin/env python3
"""Assembles and links the programs and the library for macOS, which are not run: the assembly of bin/macos, with the C
files next to it. Apple's SDK is not needed; macos/sdk.h has the declarations of the C library that they use, and
macos/libSystem.tbd its names.

It prints what fails and ends with 1, or prints nothing and ends with 0; a line `skipped: ..` names what could not be
run.
"""

import pathlib
import shutil
import subprocess
import sys
import tempfile

TOP = pathlib.Path(__file__).resolve().parent.parent
sys.dont_write_bytecode = True
sys.path.insert(1, str(TOP))
from release.sources import kit_folder  # noqa: E402

FOLDER, SDK = TOP / "bin/macos", TOP / "tests/macos"
HEADERS = (
    "errno.h",
    "fcntl.h",
    "signal.h",
    "stddef.h",
    "stdint.h",
    "stdio.h",
    "stdlib.h",
    "string.h",
    "time.h",
    "unistd.h",
    "sys/file.h",
    "sys/stat.h",
)
VERSIONS = {"arm64": "11.0.0", "x86_64": "10.15.0"}
FILES = {"vp8serve": ("common", "heap", "posix"), "vp8list": ("common", "heap", "posix"), "wokureti": ("heap",)}
LINKER, LIMIT = "ld64.lld-19", 300


def ran(*words):
    """What a command says if it fails."""
    done = subprocess.run(list(map(str, words)), capture_output=True, text=True, timeout=LIMIT, check=False)
    return [f"{pathlib.Path(words[0]).name}: {done.stderr.strip()[-500:]}"] if done.returncode else []


def headers(folder):
    """The names of the headers, all of which are macos/sdk.h."""
    for name in HEADERS:
        (folder / name).parent.mkdir(parents=True, exist_ok=True)
        (folder / name).write_text(f'#include "{SDK / "sdk.h"}"\n', encoding="utf-8")
    return folder


def objects(processor, folder):
    """The object files of a processor in the folder. What fails."""
    clang = [kit_folder() / "toolchain/bin/clang", f"--target={processor}-apple-macosx{VERSIONS[processor]}", "-c"]
    include = headers(folder / "include")
    for source in sorted((FOLDER / "port").glob("*.c")):
        yield from ran(
            *clang,
            "-O2",
            "-nostdinc",
            "-isystem",
            include,
            "-Wall",
            "-Wextra",
            "-Werror",
            source,
            "-o",
            folder / f"{source.stem}.o",
        )
    for source in sorted((FOLDER / processor).glob("*.s")):
        yield from ran(*clang, source, "-o", folder / f"{source.stem}.o")


def linked(processor, folder):
    """Links the files of a processor. What fails."""
    version = VERSIONS[processor]
    words = [
        LINKER,
        "-arch",
        processor,
        "-platform_version",
        "macos",
        version,
        version,
        "-dead_strip",
        SDK / "libSystem.tbd",
    ]
    for name, parts in FILES.items():
        kind = ["-dylib", "-exported_symbol", "_wk_*"] if name == "wokureti" else []
        out = folder / name
        yield from ran(*words, *kind, "-o", out, folder / f"{name}.o", *(folder / f"{part}.o" for part in parts))


def main():
    if not FOLDER.is_dir() or shutil.which("rt") is None:
        print("skipped: the assembly for macOS is not built: ./build.py --macos makes it")
        return 0
    wrong = []
    for processor in VERSIONS:
        with tempfile.TemporaryDirectory() as name:
            wrong += objects(processor, pathlib.Path(name))
            if shutil.which(LINKER) is None:
                print(f"skipped: programs for macOS on {processor} are assembled and not linked: {LINKER} is not there")
            elif not wrong:
                wrong += linked(processor, pathlib.Path(name))
    print("".join(line + "\n" for line in wrong), end="")
    return 1 if wrong else 0


if __name__ == "__main__":
    sys.exit(main())
