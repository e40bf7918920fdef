"""Builds the page that needs no server, one file: the LLVM module of the proved library, compiled for WebAssembly with
32-bit memory, and the page around it.

The kit proves the library for wasm64, which Safari does not run, and does not compile its heap. So `retarget` compiles
the module that rattle makes for x86-64 (the same for both processors, except attributes and the alignment of vectors),
and it is linked with the heap of release/wasm/heap.c. No proof covers the result.
"""

import hashlib
import os
import pathlib
import tempfile

from . import library, page, retarget
from .sources import TOP, sum_of, version

WASM = TOP / "release/wasm"
TARGET = "wasm32"
CALLS = (
    "wk_version",
    "wk_open",
    "wk_open_bytes",
    "wk_close",
    "wk_frame",
    "wk_request",
    "wk_why",
    "wk_save",
    "wk_save_source",
    "wk_export",
    "wk_text",
    "wk_room",
    "wk_free",
)
# A stack that is full ends the call, and writes over nothing.
STACK = ("--gc-sections", "--strip-all", "--stack-first", "-z", "stack-size=1048576")
LINKING = ("--no-entry", *STACK, *(f"--export={name}" for name in CALLS))
FREESTANDING = ("-O2", "-nostdlib", "-ffreestanding", "-Wall", "-Wextra", "-Werror")


def c_object(source, folder):
    """The object file of a file of release/wasm."""
    made, target = folder / f"{source}.o", retarget.TARGETS[TARGET]
    retarget.clang(f"--target={target.triple}", *target.options, *FREESTANDING, "-c", WASM / source, "-o", made)
    return made


def linked(own, folder):
    """The bytes of the module in WebAssembly, of the library's object file."""
    made = folder / "library.wasm"
    retarget.clang(*LINKING, "-o", made, own, c_object("heap.c", folder), c_object("wide.c", folder), name="wasm-ld")
    return made.read_bytes()


def mark():
    """A text that changes with each file that makes the module in WebAssembly of the library's."""
    files = [*sorted(WASM.iterdir()), TOP / "release/retarget.py", TOP / "release/web.py"]
    return hashlib.sha256("".join(map(sum_of, files)).encode()).hexdigest()[:16]


def module(room, cpu, is_proved, say):
    """The bytes of the module, made of that for this processor: those in `room`, if they were made there of it."""
    bitcode = library.compiled(pathlib.Path(room), cpu, is_proved, say)[1]
    kept = bitcode.with_name(f"{bitcode.stem}-{mark()}.wasm")
    if kept.is_file():
        return kept.read_bytes()
    say("compiling the library's LLVM module for WebAssembly, outside the verdict")
    with tempfile.TemporaryDirectory(dir=room) as made:
        data = linked(retarget.compiled(bitcode, TARGET, pathlib.Path(made) / "library.o"), pathlib.Path(made))
        pathlib.Path(made, "whole").write_bytes(data)
        os.replace(pathlib.Path(made, "whole"), kept)
    return data


def build(room, folder, cpu, is_proved, say):
    """Builds the page into a folder, of the module for this processor."""
    data = page.made(module(room, cpu, is_proved, say), version())
    folder.mkdir(parents=True, exist_ok=True)
    fresh = folder / f".{page.NAME}"
    fresh.write_bytes(data)
    fresh.replace(folder / page.NAME)
    say(f"the page is {folder / page.NAME}, {len(data):,} bytes: open it in a browser")
