"""Builds the programs and the library for Windows: the LLVM modules of the proved crates, compiled by `retarget` and
linked by Debian's mingw-w64.

No proof covers the result. release/port has the functions of C that the modules call.
"""

import hashlib
import pathlib
import re
import shutil
import subprocess
import tempfile

from . import library, modules, retarget
from .sources import CPUS, PROGRAMS, TOP, Failed, kit_here, sum_of

FOLDER = "windows"
TARGET, CPU, PREFIX = "x86_64-windows", "x86-64", "x86_64-w64-mingw32-"
PACKAGE = "gcc-mingw-w64-x86-64"
LIBRARY = "wokureti.dll"
PORT = TOP / "release/port"
FILES = (*sorted(PORT.iterdir()), TOP / "release/retarget.py", TOP / "release/windows.py", library.HEADER)
C_OPTIONS = ("-std=gnu11", "-O2", "-ffunction-sections", "-Wall", "-Wextra", "-Werror")
# The linker is the kit's: that of binutils takes minutes for so many sections. Without the time of the build in it, the
# same objects make the same file.
LINKING = (
    "-m",
    "i386pep",
    "-Bstatic",
    "-s",
    "--gc-sections",
    "--no-insert-timestamp",
    "--dynamicbase",
    "--high-entropy-va",
    "--nxcompat",
)
# What a program is linked with of mingw-w64 and of gcc; what the library is. The stack is as large as on Linux.
OBJECTS_OF_PROGRAMS = ("crt2.o", "crtbegin.o", "crtend.o")
LIBRARIES_OF_PROGRAMS = (
    "libmingw32.a",
    "libmingwex.a",
    "libmoldname.a",
    "libmsvcrt.a",
    "libkernel32.a",
    "libshell32.a",
    "libgcc.a",
    "libgcc_eh.a",
)
LIBRARIES_OF_LIBRARY = ("libmsvcrt.a", "libgcc.a")
STACK = 8 << 20
OF_PROGRAMS = ("common", "heap", "windows")
OF_LIBRARY = ("heap", "dll")
# What the files may import of Windows.
PROGRAMS_IMPORT = {"KERNEL32.dll", "SHELL32.dll", "msvcrt.dll"}
LIBRARY_IMPORTS = {"malloc", "realloc", "free", "memcpy", "memmove", "memset"}


def ran(*words):
    done = subprocess.run(list(map(str, words)), capture_output=True, text=True, check=False)
    if done.returncode != 0:
        raise Failed(f"{words[0]} ended with status {done.returncode}: {done.stderr.strip()[-2000:]}")
    return done.stdout


def missing():
    """What has to be installed to build for Windows, or an empty text."""
    return (
        "" if shutil.which(f"{PREFIX}gcc") else f"programs for Windows are linked with {PREFIX}gcc: install {PACKAGE}"
    )


def part(name):
    """The path of a file of mingw-w64 or of gcc."""
    return ran(f"{PREFIX}gcc", f"-print-file-name={name}").strip()


def linker():
    """Which linker and C library are used: their version, and a digest of the files that are linked."""
    found = hashlib.sha256()
    for name in (*OBJECTS_OF_PROGRAMS, *LIBRARIES_OF_PROGRAMS):
        found.update(f"{name} {sum_of(part(name))}\n".encode())
    return f"{kit_here()}, {found.hexdigest()}"


def c_objects(names, folder):
    """The object files of these files of release/port."""
    made = [folder / f"{name}.obj" for name in names]
    for name, path in zip(names, made):
        ran(f"{PREFIX}gcc", *C_OPTIONS, "-c", PORT / f"{name}.c", "-o", path)
    return made


def imports_of(path):
    """The functions that a file imports, by the names of their libraries."""
    found, name = {}, ""
    for line in ran(f"{PREFIX}objdump", "-p", path).splitlines():
        if "DLL Name: " in line:
            name = line.split("DLL Name: ")[1].strip()
            found[name] = set()
        elif name and (entry := re.match(r"\t[0-9a-f]+\t\s+\d+\s+(\w+)$", line)):
            found[name].add(entry.group(1))
    return found


def link_program(made, out, folder):
    """Links the object file of a program."""
    parts = [*map(part, OBJECTS_OF_PROGRAMS), made, *c_objects(OF_PROGRAMS, folder), *map(part, LIBRARIES_OF_PROGRAMS)]
    retarget.clang(*LINKING, "--stack", STACK, "-o", out, *parts, name="ld.lld")
    other = set(imports_of(out)) - PROGRAMS_IMPORT
    if other:
        raise Failed(f"{out.name} imports {', '.join(sorted(other))}")


def calls():
    """The functions that the header declares."""
    return sorted(set(re.findall(r"(?m)^(?!static )\w[\w *]*\b(wk_\w+)\(", library.HEADER.read_text(encoding="utf-8"))))


def link_library(made, out, folder):
    """Links the library, which exports the header's functions and imports only those of the heap and of memory."""
    exported = folder / "wokureti.def"
    exported.write_text("".join(["EXPORTS\n", *(f"{name}\n" for name in calls())]), encoding="ascii")
    parts = [made, *c_objects(OF_LIBRARY, folder), exported, *map(part, LIBRARIES_OF_LIBRARY)]
    retarget.clang(*LINKING, "-shared", "-e", "DllMain", "-o", out, *parts, name="ld.lld")
    found = imports_of(out)
    if set(found) != {"msvcrt.dll"} or not found["msvcrt.dll"] <= LIBRARY_IMPORTS:
        raise Failed(f"{out.name} imports {found}, not only {', '.join(sorted(LIBRARY_IMPORTS))}")


def linked(bitcodes, made):
    """Compiles and links the modules of both programs and of the library."""
    with tempfile.TemporaryDirectory() as name:
        folder = pathlib.Path(name)
        for crate, bitcode in bitcodes.items():
            own = retarget.compiled(bitcode, TARGET, folder / f"{crate}.obj")
            (link_library if crate == library.CRATE else link_program)(own, folder / made[crate].name, folder)
        for path in made.values():
            shutil.move(folder / path.name, path)


def mark_of(bitcodes):
    """A text that changes with each file that the results are made from."""
    return hashlib.sha256(" ".join([linker(), *map(sum_of, [*bitcodes.values(), *FILES])]).encode()).hexdigest()[:16]


def programs(room, is_proved, say):
    """Both programs and the library for Windows by name and processor, and the modules that they are compiled from:
    those in `room`, if they were made there of these sources.
    """
    if missing():
        raise Failed(missing())
    room = pathlib.Path(room)
    bitcodes = {
        **modules.programs(room, is_proved, say),
        library.CRATE: library.compiled(room, CPUS[0], is_proved, say)[1],
    }
    folder = room / f"{TARGET}-{mark_of(bitcodes)}"
    made = {**{name: folder / f"{name}.exe" for name in PROGRAMS}, library.CRATE: folder / LIBRARY}
    if not all(path.is_file() for path in made.values()):
        for old in room.glob(f"{TARGET}-*"):
            shutil.rmtree(old)
        folder.mkdir()
        say(f"compiling {', '.join(PROGRAMS)} and the library for Windows, outside the verdict")
        linked(bitcodes, made)
    return {(path.name, CPU): path for path in made.values()}, bitcodes


def build(room, folder, is_proved, say):
    """Puts the programs, the library and its header into a folder."""
    made = programs(room, is_proved, say)[0]
    folder.mkdir(parents=True, exist_ok=True)
    for (name, _), path in made.items():
        shutil.copyfile(path, folder / name)
    shutil.copyfile(library.HEADER, folder / library.HEADER.name)
    say(f"{', '.join(name for name, _ in made)} for Windows are in {folder}")
