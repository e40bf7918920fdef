"""Notes in a copy of crates which of their libraries are proved, as `rt check` notes it: stamps.py RT FOLDER

`rt ci` proves every library from nothing, and leaves them without the stamp by which `rt run` knows them, since its own
checks keep another form of them. In a copy that has only the libraries of one `rt ci` they go together. Each stamp is
computed by the kit's own code.
"""

import importlib.machinery
import importlib.util
import os
import pathlib
import sys

sys.dont_write_bytecode = True


def module_of(rt):
    """The kit's command rt, as a module."""
    sys.path.insert(0, str(rt.parent))
    loader = importlib.machinery.SourceFileLoader("rt", str(rt))
    module = importlib.util.module_from_spec(importlib.util.spec_from_loader("rt", loader))
    loader.exec_module(module)
    return module


def main(rt, folder):
    os.chdir(folder)
    for crate in module_of(pathlib.Path(rt).resolve()).rtlib.crates_below(os.getcwd()):
        if os.path.isdir(crate.rlib):
            pathlib.Path(crate.folder, "out/rlib/stamp").write_text(crate.stamp(), encoding="utf-8")


if __name__ == "__main__":
    main(*sys.argv[1:])
