"""Compiles an LLVM module that rattle makes for Linux on x86-64 for another target. No proof covers the result.

For example, the module of the library for `wasm32`: its text gets the target's triple and data layout, its pointers of
8 bytes become pointers of 4 bytes, and the kit's clang compiles it with the options that rattle passes.

What a module has of Linux on x86-64: the data layout, attributes of the processor, and the numbers of some C functions
(flags of `open`, error numbers, the fields of `statx`). These functions get the prefix `wokureti_os_`; the files in
release/port define them. It has no instruction of x86 and makes no pointer of a number.
"""

import functools
import re
import subprocess
from dataclasses import dataclass

from .sources import Failed, kit_folder


@dataclass(frozen=True)
class Target:
    """A target of clang: its triple, its instructions, and the options of passes that only it has."""

    triple: str
    options: tuple = ()
    passes: tuple = ()


TARGETS = {
    "wasm32": Target("wasm32-unknown-unknown", ("-msimd128", "-mbulk-memory")),
    "x86_64-windows": Target("x86_64-pc-windows-gnu", ("-march=x86-64-v2",), ("-no-x86-call-frame-opt",)),
    "aarch64-macos": Target("arm64-apple-macosx11.0.0", (), ("-aarch64-load-store-renaming=false",)),
    "x86_64-macos": Target("x86_64-apple-macosx10.15.0", ("-march=x86-64-v2",), ("-no-x86-call-frame-opt",)),
}
# What rattle itself passes to clang. Without the passes' options, clang compiles some correct modules wrongly.
PASSES = (
    "-no-trap-after-noreturn",
    "-trap-unreachable",
    "-disable-machine-licm",
    "-disable-postra-machine-licm",
    "-sink-common-insts=false",
)
OPTIONS = ("-O3", "-ffunction-sections", "-fdata-sections", "-Wno-override-module")
# Functions of Linux whose numbers are other ones on the target.
OF_LINUX = (
    "open close read write isatty clock_gettime statx readlink chown ftruncate fchmod fsync fdatasync flock unlink"
    " rename lseek __xpg_strerror_r __sysv_signal".split()
)
SYSTEM_CALL = re.compile(rf"@({'|'.join(OF_LINUX)})\(")
SYSTEM_NAME = re.compile(rf"@(?:{'|'.join(OF_LINUX)}|main)\b(?![-.:$])")
MAIN = re.compile(r"@main\(")
# `open` is variadic: on macOS such an argument is passed in another way.
OPEN = re.compile(r"call i32 \(ptr, i32, \.\.\.\) @open\((ptr [^,()]+, i32 [^,()]+)(, i32 [^,()]+)?\)")
OPEN_DECLARED = re.compile(r"@open\(ptr noundef, i32 noundef, \.\.\.\)")
# What a module says of the processor that it was made for.
OF_CPU = re.compile(r' "(?:probe-stack|stack-probe-size|target-cpu|target-features|frame-pointer)"="[^"]*"')
WIDE = re.compile(r"\balign (?:32|64)\b")
# Two words in registers: C on Windows returns a structure of two words in memory, and this convention in registers.
TRIED = re.compile(r"\b(declare|call) (\{ i64, i64 \}) (@rattle_(?:re)?alloc\()")
TRIED_NAME = re.compile(r"@rattle_(?:re)?alloc\b")

# The lines that a pointer of 4 bytes changes.
PAIR = re.compile(r"^ *(%[-\w.]+) = load \{ (ptr|i\d+), (ptr|i\d+) \}, ptr (%[-\w.]+), align 8$")
ADDRESS = re.compile(r"^ *(%[-\w.]+) = ptrtoaddr ptr (\S+) to i64$")
STATIC = re.compile(r"^(@\S+ = [a-z_ ]*)<\{ ([^}]*) \}> <\{ (.*) \}>(, align \d+)$")
POINTER = re.compile(r"\bptr (null|@[-\w.]+|getelementptr (?:inbounds )?(?:nuw )?\([^()]*\))(?=,|$)")
# Lines that would have to be changed in a way that is not known here.
UNKNOWN = re.compile(
    r"\b(?:ptrtoint|inttoptr|addrspacecast)\b"
    r"|\b(?:load|store|alloca|getelementptr|byval)\b[^%@]*[{[<][^]}>%@]*\bptr\b"
    r"|\bgetelementptr (?:\w+ )*ptr,"
)


def clang(*words, name="clang", data=None):
    """Runs the kit's clang, or its linker under another name, and returns what it prints."""
    done = subprocess.run(
        [name, *map(str, words)],
        executable=kit_folder() / "toolchain/bin/clang",
        input=data,
        capture_output=True,
        text=True,
        check=False,
    )
    if done.returncode != 0:
        raise Failed(f"{name} could not make the module: {done.stderr.strip()[-2000:]}")
    return done.stdout


def text_of(bitcode):
    """The text of a module as rattle made it, before any pass."""
    return clang("-x", "ir", bitcode, "-S", "-emit-llvm", "-Xclang", "-disable-llvm-passes", "-o", "-")


def given_text(path):
    """The text of a module in bitcode, or in a file of text that ends in .ll."""
    return path.read_text(encoding="utf-8") if path.suffix == ".ll" else text_of(path)


@functools.lru_cache(maxsize=None)
def header_of(triple):
    """The lines of a module that name the target."""
    text = clang(f"--target={triple}", "-x", "c", "-S", "-emit-llvm", "-o", "-", "-", data="")
    return {name: re.search(rf"^target {name} = .*$", text, re.M).group(0) for name in ("datalayout", "triple")}


def with_header(text, triple):
    for name, line in header_of(triple).items():
        text = re.sub(rf"^target {name} = .*$", lambda _, line=line: line, text, count=1, flags=re.M)
    return text


def with_own_names(text):
    """The text with names of our own for the system's functions."""
    text = OPEN_DECLARED.sub("@open(ptr noundef, i32 noundef, i32 noundef)", text)
    text = OPEN.sub(lambda found: f"call i32 @open({found.group(1)}{found.group(2) or ', i32 0'})", text)
    text = MAIN.sub("@wokureti_main(", SYSTEM_CALL.sub(r"@wokureti_os_\1(", text))
    left = SYSTEM_NAME.search(text)
    if left:
        raise Failed(f"the module uses {left.group(0)} other than by a call")
    return text


def with_linux_heap(text):
    """The text, in which the functions of the heap are called as on Linux."""
    text, count = TRIED.subn(r"\1 x86_64_sysvcc \2 \3", text)
    if len(TRIED_NAME.findall(text)) != count:
        raise Failed("the module uses a function of the heap other than by a call")
    return text


def narrow_static(line):
    """A packed static, with 4 bytes after each pointer."""
    found = STATIC.match(line)
    if not found:
        raise Failed(f"the module has a static of a kind that is not known: {line[:200]}")
    start, types, values, end = found.groups()
    types = re.sub(r"\bptr\b", "ptr, [4 x i8]", types)
    values = POINTER.sub(r"ptr \1, [4 x i8] zeroinitializer", values)
    return f"{start}<{{ {types} }}> <{{ {values} }}>{end}"


def narrow_pair(name, first, second, place):
    """Two values that are read at once, one of them a pointer: the second one is 8 bytes after the first."""
    return (
        f"  {name}.first = load {first}, ptr {place}, align 8\n"
        f"  {name}.place = getelementptr i8, ptr {place}, i64 8\n"
        f"  {name}.second = load {second}, ptr {name}.place, align 8\n"
        f"  {name}.half = insertvalue {{ {first}, {second} }} poison, {first} {name}.first, 0\n"
        f"  {name} = insertvalue {{ {first}, {second} }} {name}.half, {second} {name}.second, 1"
    )


def narrow_line(line):
    if "ptr" not in line:
        return line
    if line.startswith("@"):
        return narrow_static(line)
    pair = PAIR.match(line)
    if pair and "ptr" in pair.groups()[1:3]:
        return narrow_pair(*pair.groups())
    address = ADDRESS.match(line)
    if address:
        name, pointer = address.groups()
        return f"  {name}.low = ptrtoaddr ptr {pointer} to i32\n  {name} = zext i32 {name}.low to i64"
    if UNKNOWN.search(line):
        raise Failed(f"the module has an instruction that is not known for pointers of 4 bytes: {line.strip()[:200]}")
    return line.replace(" = alloca ptr,", " = alloca i64,")


def narrowed(text):
    """The text for pointers of 4 bytes. In all of rattle's layouts a pointer has 8 bytes, and it is in the first 4 of
    them. Sizes and places are counted in bytes, so nothing moves. This is done before any pass of clang, which would
    make vectors of pointers."""
    return "\n".join(map(narrow_line, text.split("\n")))


def for_target(text, target):
    """The text of a module for a target."""
    if "@llvm.x86." in text or "@__x86_get_cpuid" in text:
        raise Failed("the module has instructions of x86, so it is not compiled for another target")
    text = with_own_names(with_header(text, TARGETS[target].triple))
    text = WIDE.sub("align 16", OF_CPU.sub("", text))
    if target == "wasm32":
        return narrowed(text)
    if target == "x86_64-windows":
        return with_linux_heap(text)
    return text


def compile_with(text, target, out, options):
    """Compiles the text of a module for a target, with these options of passes: to an object file, or to assembly if
    `out` ends in .s.
    """
    form = ("-S", "-fno-addrsig") if str(out).endswith(".s") else ("-c",)
    clang(
        f"--target={TARGETS[target].triple}",
        *OPTIONS,
        *TARGETS[target].options,
        *options,
        *form,
        "-x",
        "ir",
        "-",
        "-o",
        out,
        data=text,
    )
    return out


def compile_text(text, target, out, options=()):
    """Compiles the text of a module for a target, with the options that rattle gives clang."""
    passes = [word for name in PASSES + TARGETS[target].passes for word in ("-mllvm", name)]
    return compile_with(text, target, out, [*passes, *options])


def compiled(bitcode, target, out):
    """Compiles a module that rattle made for a target."""
    return compile_text(for_target(text_of(bitcode), target), target, out)
