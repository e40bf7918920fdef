"""Proves a program or a static library for another target, and compiles it: for_target.py RT FOLDER TRIPLE OUT

It is `rt run` or `rt lib` in the crate FOLDER as far as the object file or the archive, which is OUT. The libraries
below the crate have no target; they are proved before.
"""

import pathlib
import sys

sys.dont_write_bytecode = True
from stamps import module_of  # noqa: E402


def main(rt, folder, triple, out):
    rt, folder, out = pathlib.Path(rt).resolve(), pathlib.Path(folder).resolve(), pathlib.Path(out).resolve()
    rtlib = module_of(rt).rtlib
    crate = next(one for one in rtlib.crates_below(str(folder)) if pathlib.Path(one.folder) == folder)
    words = [
        *crate.words(["--target", triple]),
        "--toolchain",
        str(rt.parents[1] / "toolchain"),
        "--backend",
        "llvm",
        *rtlib.KEPT,
        "-o",
        str(out),
    ]
    status = crate.call(rtlib.RATTLE, "build", *words)
    return status or (0 if out.is_file() else "nothing was made")


if __name__ == "__main__":
    sys.exit(main(*sys.argv[1:]))
