#!/usr/bin/env python3
"""Plants faults in the module for WebAssembly, and sees whether the comparisons of tests/test_web.py with vp8serve
notice each: wrong_modules.py [--each N] BITCODE

The faults: a pointer that is read from the other half of its 8 bytes, in a function that decodes; and an instruction
that saturates to signed bytes instead of unsigned ones, N of them (12 without --each) one at a time, evenly spaced.
BITCODE is the LLVM module of the library that `build.py --web --room DIR` leaves in DIR. It ends with 1 if a pointer,
or no saturating instruction, goes unnoticed.
"""

import argparse
import itertools
import pathlib
import random
import re
import sys
import tempfile

TOP = pathlib.Path(__file__).resolve().parents[2]
sys.dont_write_bytecode = True
sys.path[1:1] = [str(TOP), str(TOP / "compare"), str(TOP / "tests"), str(TOP / "clients/python")]
import test_web  # noqa: E402
import results  # noqa: E402
from library import wasm_code  # noqa: E402
from release import page, retarget, web  # noqa: E402
from release.sources import version  # noqa: E402

POINTER = re.compile(r"^( *)(%\S+) = load ptr, ptr (%\S+), align 8", re.M)


def with_wrong_pointer(text):
    """The text, in which the middle one of the functions that filter reads a pointer 4 bytes too far."""
    starts = [found.start() for found in re.finditer(r"^define [^\n]*loop_filter::", text, re.M)]
    start = starts[len(starts) // 2]
    found = POINTER.search(text, start)
    space, name, place = found.groups()
    wrong = (
        f"{space}{name}.wrong = getelementptr i8, ptr {place}, i64 4\n{space}{name} = load ptr, ptr {name}.wrong,"
        " align 4"
    )
    return text[: found.start()] + wrong + text[found.end() :]


def compiled(text, folder, options=()):
    """The module in WebAssembly of a module's text."""
    return web.linked(retarget.compile_text(text, web.TARGET, folder / "library.o", options), folder)


def is_noticed(module, folder):
    """Whether tests/test_web.py reports a difference of a frame or of a random request list, or the module fails."""
    # The wrong pointer is in a module without optimization, which makes a larger page than is shipped.
    page.MOST = 1 << 24
    test_web.PAGE = folder / page.NAME
    test_web.PAGE.write_bytes(page.made(module, version()))
    node, chance = test_web.Node(), random.Random(75)
    try:
        return any(itertools.chain(test_web.frames(node), test_web.lists(node, chance, folder)))
    except SystemExit:
        return True


def planted(module, count):
    """The module with one instruction that saturates to signed bytes, for `count` of them."""
    places = wasm_code.narrowing(module)
    print(f"{len(places)} instructions saturate to unsigned bytes", flush=True)
    for number in range(min(count, len(places))):
        at = places[number * len(places) // min(count, len(places))]
        yield module[:at] + bytes([wasm_code.NARROW_SIGNED]) + module[at + 1 :]


def main():
    parser = argparse.ArgumentParser(description=__doc__, formatter_class=argparse.RawDescriptionHelpFormatter)
    parser.add_argument("--each", type=int, default=12, metavar="N")
    parser.add_argument("bitcode", type=pathlib.Path)
    given = parser.parse_args()
    with tempfile.TemporaryDirectory() as name:
        folder = pathlib.Path(name)
        text = retarget.for_target(retarget.given_text(given.bitcode), web.TARGET)
        module = compiled(text, folder)
        if is_noticed(module, folder):
            sys.exit("the module differs from vp8serve before anything is planted")
        found = [is_noticed(wrong, folder) for wrong in planted(module, given.each)]
        pointer = is_noticed(compiled(with_wrong_pointer(text), folder, ("-O0",)), folder)
        print(f"a pointer read from its wrong half: {'noticed' if pointer else 'NOT noticed'}", flush=True)
        results.total(
            f"a wrong pointer and {sum(found)} of {len(found)} wrong saturating instructions are noticed",
            not pointer or not any(found),
        )
    return 0 if pointer and any(found) else 1


if __name__ == "__main__":
    sys.exit(main())
