#!/usr/bin/env python3
"""What each option that rattle gives clang changes in a module for another system: compiler_options.py [--target NAME]
BITCODE

The module is compiled to assembly with all options of `release/retarget.py`, and then without each of them. For each it
prints how many of the functions are compiled in another way, by their instructions, and the first of them. BITCODE is
an LLVM module that `build.py --web` or `--windows --room DIR` leaves in DIR. Each compilation takes minutes.
"""

import argparse
import pathlib
import re
import sys
import tempfile

TOP = pathlib.Path(__file__).resolve().parents[2]
sys.dont_write_bytecode = True
sys.path.insert(1, str(TOP))
sys.path.insert(1, str(TOP / "compare"))
import results  # noqa: E402
from release import retarget  # noqa: E402

# A label that the compiler numbers in order of the file.
NUMBERED = re.compile(r"\.?L\w*?\d+(?:_\d+)?|\blabel\d+|-?\b\d+: +# ")
START = re.compile(r'^("?[^\s#.][^\n]*"?):\s*(?:[#/].*)?$')


def functions(assembly):
    """The instructions of each function, without the numbers of labels."""
    found, name = {}, None
    for line in assembly.splitlines():
        start = START.match(line)
        if start:
            name = start.group(1)
            found[name] = []
        elif name and line.startswith("\t") and not line.startswith("\t."):
            found[name].append(NUMBERED.sub("L", line.split("#")[0].rstrip()))
    return found


def compiled(text, target, left, out):
    """The functions of the text, compiled without one of the passes' options."""
    options = [
        word for name in retarget.PASSES + retarget.TARGETS[target].passes if name != left for word in ("-mllvm", name)
    ]
    return functions(retarget.compile_with(text, target, out, options).read_text(encoding="utf-8"))


def main():
    parser = argparse.ArgumentParser(description=__doc__, formatter_class=argparse.RawDescriptionHelpFormatter)
    parser.add_argument("--target", default="wasm32", choices=sorted(retarget.TARGETS))
    parser.add_argument("bitcode", type=pathlib.Path)
    given = parser.parse_args()
    text = retarget.for_target(retarget.given_text(given.bitcode), given.target)
    changing = []
    with tempfile.TemporaryDirectory() as name:
        out = pathlib.Path(name, "module.s")
        wanted = compiled(text, given.target, None, out)
        print(f"{given.target}: {len(wanted)} functions, {sum(map(len, wanted.values()))} instructions", flush=True)
        for left in retarget.PASSES + retarget.TARGETS[given.target].passes:
            found = compiled(text, given.target, left, out)
            differ = sorted(key for key in wanted.keys() | found.keys() if wanted.get(key) != found.get(key))
            said = f"{len(differ)} functions differ, the first is {differ[0]}" if differ else "no instruction differs"
            print(f"without {left}: {said}", flush=True)
            changing += [left] if differ else []
    results.total(
        f"{given.target}: options that change an instruction: {' '.join(changing) or 'none'}",
        version=results.version_of_programs(),
    )


if __name__ == "__main__":
    main()
