"""The systems that Wokureti runs on: how each one gets it, what is proved of its build, and how that build was tested.

The names of wheels, dist/SOURCES, the table in docs/design/proofs.md and the second line of `wokureti --version` are
made of this table.
"""

import platform
from dataclasses import dataclass

from .sdk import ARCHIVE
from .sources import PROGRAMS, Failed

VERDICT = "proved by the kit's verdict for this target"
# Where the library is in a wheel's folder of data.
PLACE = "data/lib/wokureti"


@dataclass(frozen=True)
class Target:
    """A system. `builds` are the processors that its files are made for, the most general one first; `system` and
    `machines` are the names that Python's `platform` has for it.

    Without `tags` there is no wheel for it. `place` is a file's place in the wheel's folder of data: `data/` is
    installed below the environment's folder, `scripts/` among its commands. With a launcher, a script of each program's
    name starts the file for the processor.
    """

    name: str
    installed: str
    proof: str
    tested: str
    caution: str = ""
    tags: tuple = ()
    builds: tuple = ()
    programs: tuple = PROGRAMS
    library: str = "libwokureti.so.0"
    place: str = "scripts/{name}"
    place_of_library: str = "data/lib/wokureti/{name}"
    has_launcher: bool = False
    # Whether the wheel has what a compiler needs: the archive of the library, for the most general processor, and the
    # texts of `release/sdk.py`.
    has_sdk: bool = False
    system: str = ""
    machines: tuple = ()

    @property
    def sentence(self):
        """What `wokureti --version` and dist/SOURCES say of a build for this target."""
        return "; ".join(part for part in (f"{self.name}: {self.proof}", self.caution) if part)

    @property
    def files(self):
        """The programs and the library."""
        return (*self.programs, *([self.library] if self.library else []))

    @property
    def made(self):
        """Each file that is built, with its processor: for each processor the programs and the library, and the
        archive.
        """
        return [(name, build) for build in self.builds for name in self.files] + (
            [(ARCHIVE, self.builds[0])] if self.has_sdk else []
        )

    def place_of(self, name, build):
        """The place of a program or of the library for one of the `builds`. The loader of glibc finds the library for a
        better processor below that of the most general one.
        """
        if name == ARCHIVE or (name == self.library and build == self.builds[0]):
            return f"{PLACE}/{name}"
        return (self.place_of_library if name == self.library else self.place).format(name=name, build=build)

    def places_of(self, name, build):
        """Where it may be in a wheel: up to version 0.14.0 each library had a folder of its processor."""
        return [self.place_of(name, build)] + ([f"{PLACE}/{build}/{name}"] if name == self.library else [])

    def wheel(self, version):
        """The name of the wheel of a version."""
        if not self.tags:
            raise Failed(f"there is no wheel for {self.name}")
        return f"wokureti-{version}-py3-none-{'.'.join(self.tags)}.whl"


X86_64 = Target(
    name="Linux on x86-64",
    installed="the wheel, or `./serve.sh` in a checkout",
    proof=VERDICT,
    tested="every test of the gate runs over it",
    tags=("manylinux_2_17_x86_64", "musllinux_1_1_x86_64"),
    builds=("x86-64-v2", "x86-64-v3"),
    place="data/lib/wokureti/{name}-{build}",
    place_of_library="data/lib/wokureti/glibc-hwcaps/{build}/{name}",
    has_launcher=True,
    has_sdk=True,
    system="Linux",
    machines=("x86_64", "amd64"),
)
ARM = Target(
    name="Linux on ARM",
    installed="the wheel",
    proof=VERDICT,
    tested=(
        "under `qemu-aarch64`: rows, clips, conformance, findings, options, saving, and the library by its tests in C"
    ),
    caution="run by us under an emulator only",
    tags=("manylinux_2_17_aarch64", "musllinux_1_1_aarch64"),
    builds=("aarch64",),
    has_sdk=True,
    system="Linux",
    machines=("aarch64", "arm64"),
)
WINDOWS = Target(
    name="Windows on x86-64 (preview)",
    installed="the wheel",
    proof="not proved: the same LLVM module, compiled for another system",
    tested="under `wine64` on Linux: rows, clips, saving; the client by a test that takes away what Python lacks there",
    caution="tested under wine; never installed on Windows by us; preview",
    tags=("win_amd64",),
    builds=("x86-64",),
    programs=("vp8serve.exe", "vp8list.exe"),
    library="wokureti.dll",
    system="Windows",
    machines=("amd64", "x86_64"),
)
PAGE = Target(
    name="any system with a browser",
    installed="`dist/wokureti.html`, the page in one file: open it, and drop a file on it",
    proof="not proved: the same LLVM module, rewritten for pointers of 4 bytes and compiled for WebAssembly",
    tested="in Node, Chromium and Firefox; never in Safari",
    builds=("wasm32",),
    programs=(),
    library="",
)
MACOS = Target(
    name="macOS",
    installed="not shipped: use the page in one file; `./build.py --macos` makes assembly for `cc`",
    proof="not proved: the same LLVM module, compiled for another system",
    tested="a small module links; it was never run by us",
    system="Darwin",
    machines=("arm64", "x86_64"),
)
TARGETS = (X86_64, ARM, WINDOWS, PAGE, MACOS)
SHIPPED = tuple(target for target in TARGETS if target.tags)


def here():
    """The target of this machine, or None."""
    system, machine = platform.system(), platform.machine().lower()
    return next((target for target in TARGETS if target.system == system and machine in target.machines), None)


def of_build(build):
    """The target whose wheel has files for this processor."""
    found = next((target for target in TARGETS if build in target.builds), None)
    if found is None:
        raise Failed(
            f"there is no build for {build}: {', '.join(name for target in TARGETS for name in target.builds)}"
        )
    return found


def table():
    """The lines of the table in docs/design/proofs.md."""
    rows = [("System", "How it is installed", "What is proved", "How it is tested"), ("---",) * 4]
    rows += [
        (
            target.name,
            target.installed,
            target.proof,
            "; ".join(part for part in (target.tested, target.caution) if part),
        )
        for target in TARGETS
    ]
    return [f"| {' | '.join(row)} |" if row[0] != "---" else f"|{'|'.join(row)}|" for row in rows]
