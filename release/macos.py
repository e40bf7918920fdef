"""Makes the programs and the library for macOS as assembly, for who wants to try them on a Mac: none of it was run by
us, and none is shipped.

In the folder macos are arm64/*.s and x86_64/*.s, and the C files of release/port that they are linked with. README.md
there says how.
"""

import pathlib
import shutil
import tempfile

from . import library, modules, retarget
from .sources import CPUS, TOP

FOLDER = "macos"
PORT = TOP / "release/port"
PROCESSORS = {"arm64": "aarch64-macos", "x86_64": "x86_64-macos"}
C_FILES = ("common.c", "heap.c", "posix.c", "linux.h")
README = """Wokureti for macOS, as assembly: the same LLVM modules as for Linux, compiled for another system.
Not proved for macOS, and never run by us.

On a Mac with the command line tools (`xcode-select --install`), in this folder; on an older Mac write x86_64 for arm64:

    for name in vp8serve vp8list; do cc -O2 -o $name arm64/$name.s port/common.c port/heap.c port/posix.c; done
    cc -O2 -dynamiclib -o libwokureti.0.dylib arm64/wokureti.s port/heap.c -Wl,-exported_symbol,'_wk_*'
"""


def made_of(bitcodes, folder):
    """Compiles each module for both processors."""
    for processor, target in PROCESSORS.items():
        (folder / processor).mkdir()
        for name, bitcode in bitcodes.items():
            retarget.compiled(bitcode, target, folder / processor / f"{name}.s")
    (folder / "port").mkdir()
    for name in C_FILES:
        shutil.copyfile(PORT / name, folder / "port" / name)
    (folder / "README.md").write_text(README, encoding="ascii")


def build(room, folder, is_proved, say):
    """Writes the folder."""
    room = pathlib.Path(room)
    bitcodes = {
        **modules.programs(room, is_proved, say),
        "wokureti": library.compiled(room, CPUS[0], is_proved, say)[1],
    }
    say("compiling the programs and the library for macOS, outside the verdict")
    folder.parent.mkdir(parents=True, exist_ok=True)
    with tempfile.TemporaryDirectory(dir=folder.parent) as name:
        fresh = pathlib.Path(name) / folder.name
        fresh.mkdir()
        made_of(bitcodes, fresh)
        shutil.rmtree(folder, ignore_errors=True)
        fresh.rename(folder)
    say(f"{folder} has assembly and C for macOS; README.md in it says how to link them")
