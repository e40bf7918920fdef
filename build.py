#!/usr/bin/env python3
"""Proves and builds vp8serve and vp8list: build.py [--cpu x86-64-v2|x86-64-v3] [--ready | --verify | --dist | --library
| --web | --arm | --windows | --macos | --wasi | --others]

Without an option it proves the crates that the two programs need, builds both for this processor, and puts them into
bin/, next to bin/wokureti, which starts the Python client. It works on a copy of these crates outside the checkout, so
it can be interrupted: what was proved by then is kept. If nothing has changed since the last time, it does nothing.

  --ready   puts the programs and the library of dist/ into bin/, if no newer ones are there, and says which ones bin/
            has; only without dist/ it builds. Its messages name SCRIPT, which called it
  --verify  builds both programs and the library for all processors of dist/, and compares them with dist/ byte for
  byte, if dist/ is of these sources.
            With --built they are taken from crates/, where `rt ci` has proved them
  --dist    the same, and packs them with the client into a new dist/ with a wheel for each system and the page in one
            file, if VERSION is new
  --library builds the C library into bin/: libwokureti.so.0, libwokureti.a, wokureti.h and files for pkg-config and
  CMake. --built as above
  --web     builds the page that needs no server, bin/wokureti.html: the library's LLVM module, compiled for
            WebAssembly, outside the verdict. --built as above
  --arm     proves and builds the programs and the C library for Linux on ARM into bin/arm. --built as above
  --windows compiles the LLVM modules of the programs and of the library for Windows into bin/windows, outside the
  verdict. --built as above
  --macos   the same for macOS, as assembly, into bin/macos; nobody has run it
  --wasi    the same for WASI, the programs only, into bin/wasi: tests/install/targets.py compares them with the native
            ones
  --others  builds for ARM and for Windows, if the compilers are here, and names those that it skips

Python 3.9 and its standard library suffice for --ready; the others need the Rattle kit, --verify, --dist and --library
gcc too, and the first two of them the C library's libc.a. --arm needs gcc-aarch64-linux-gnu, --windows
gcc-mingw-w64-x86-64, --wasi wasi-libc.
"""

import argparse
import contextlib
import datetime
import fcntl
import hashlib
import importlib
import os
import pathlib
import shutil
import subprocess
import sys
import tempfile

sys.dont_write_bytecode = True
from release import proving, targets, wheel  # noqa: E402
from release.sources import (
    CPUS,
    DIST,
    PROGRAMS,
    TOP,
    Failed,
    digest,
    kit,
    kit_here,
    needed,
    read_names,
    sum_of,
    version,
    write_names,
)  # noqa: E402

BIN = TOP / "bin"
# Options that build for another system: a module of release/ has the name of each.
ELSEWHERE = ("arm", "windows", "macos", "wasi")
STAMP = BIN / ".built"
# The page in one file in dist/, and the name of its line in dist/SOURCES.
PAGE_FILE, PAGE = "wokureti.html", "page wokureti.html"
WOKURETI = """#!/bin/sh
# Starts the Python client of this checkout: wokureti --help
here=$(dirname "$(readlink -f "$0")")
PATH="$here:$PATH" PYTHONPATH="$here/../clients/python${PYTHONPATH:+:$PYTHONPATH}" exec python3 -m wokureti "$@"
"""


class Speaker:
    """The script that a message names: the one that was called."""

    name = "build.py"


def say(text):
    print(f"{Speaker.name}: {text}", file=sys.stderr, flush=True)


def processor(given):
    """The processor that programs in bin/ are for: the one that was asked for, or v3 if this machine has it."""
    here = targets.here()
    if here not in (targets.X86_64, targets.ARM):
        raise Failed(
            f"the programs are for {targets.X86_64.name} and {targets.ARM.name}; README.md has a table of all systems"
        )
    if given:
        if given not in here.builds:
            raise Failed(f"the processor is {given}, but must be {' or '.join(here.builds)}")
        return given
    if here is targets.ARM:
        return here.builds[0]
    flags = pathlib.Path("/proc/cpuinfo").read_text(encoding="ascii", errors="replace").split()
    return CPUS[all(word in flags for word in ("avx2", "bmi1", "bmi2", "f16c", "fma", "abm", "movbe"))]


def in_bin():
    """What is known of the programs in bin/: their sources, processor, version and origin; nothing if one is
    missing.
    """
    is_whole = all((BIN / name).is_file() for name in (*PROGRAMS, "wokureti"))
    return read_names(STAMP) if is_whole else {}


def place(files, cpu, names):
    """Puts the programs into bin/, each whole: `files` has the bytes of each by its name."""
    BIN.mkdir(exist_ok=True)
    STAMP.unlink(missing_ok=True)
    for name, data in [*files.items(), ("wokureti", WOKURETI.encode())]:
        fresh = BIN / f".{name}.{os.getpid()}"
        fresh.write_bytes(data)
        fresh.chmod(0o755 if data.startswith((b"\x7fELF", b"#!")) else 0o644)
        fresh.replace(BIN / name)
    write_names({**names, "processor": cpu, "proof": targets.of_build(cpu).sentence}, STAMP)


def check_kit():
    """Any kit of the same logic will do: it proves the same statements."""
    if targets.here() is not targets.X86_64:
        raise Failed(
            f"the Rattle kit is for {targets.X86_64.name}, and builds the programs for {targets.ARM.name} there"
        )
    if shutil.which("rt") is None:
        raise Failed("building needs the command rt of the Rattle kit on the PATH")
    shown = kit_here()
    if kit().split(" logic ")[-1] not in shown.split():
        raise Failed(f"this repository is proved with {kit()}, but rt is of {shown or 'a kit that does not say which'}")


@contextlib.contextmanager
def room_of():
    """The folder of this checkout's copy, for one build at a time."""
    cache = pathlib.Path(os.environ.get("XDG_CACHE_HOME") or pathlib.Path.home() / ".cache")
    room = cache / "wokureti" / hashlib.sha256(str(TOP).encode()).hexdigest()[:16]
    room.mkdir(parents=True, exist_ok=True)
    with open(room / "lock", "w", encoding="ascii") as lock:
        try:
            fcntl.flock(lock, fcntl.LOCK_EX | fcntl.LOCK_NB)
        except BlockingIOError:
            say("another build of this checkout runs; waiting for it")
            fcntl.flock(lock, fcntl.LOCK_EX)
        yield room


def is_built(sources, cpu):
    there = in_bin()
    return (there.get("sources"), there.get("processor"), there.get("origin")) == (sources, cpu, "here")


def build(cpu):
    """Proves and builds the programs of the current sources, and puts them into bin/."""
    crates = needed()
    if is_built(digest(crates), cpu):
        return
    check_kit()
    BIN.mkdir(exist_ok=True)
    with room_of() as room:
        sources = digest(crates)
        if is_built(sources, cpu):
            return
        objects = proving.build(crates, room, (cpu,), say)
        files = {name: objects[name, cpu].with_suffix("").read_bytes() for name in PROGRAMS}
        place(files, cpu, {"sources": sources, "version": version(), "date": today(), "origin": "here"})
    say(f'built {", ".join(PROGRAMS)} and wokureti in {BIN}. To call them by name: export PATH="{BIN}:$PATH"')


def today():
    return datetime.datetime.now(datetime.timezone.utc).date().isoformat()


def ready(cpu):
    """Makes sure that bin/ has programs, and says which ones."""
    there, dist, sources = in_bin(), read_names(), digest(needed())
    if there.get("sources") != sources or there.get("processor") != cpu:
        if not dist and not there:
            return build(cpu)
        is_newer = dist and dist["sources"] == sources
        if (
            is_newer
            or not there
            or (there["origin"] == "dist" and (there["version"], there["processor"]) != (dist.get("version"), cpu))
        ):
            target = targets.of_build(cpu)
            if f"program {target.programs[0]} for {cpu}" not in dist:
                raise Failed(f"dist/ has no programs for {target.name}, {cpu}")
            names = [*target.programs, *([target.library] if f"{target.library} for {cpu}" in dist else [])]
            files = {name: wheel.program(dist["version"], name, cpu) for name in names} | sdk_of(target, dist)
            there = {"sources": dist["sources"], "version": dist["version"], "date": dist["date"], "origin": "dist"}
            place(files, cpu, there)
    how = "as it was proved and built on" if there["origin"] == "dist" else "as it was proved and built here on"
    caution = targets.of_build(there["processor"] if "processor" in there else cpu).caution
    line = f"wokureti {there['version']} {how} {there['date']}" + (f", {caution}" if caution else "")
    if there["sources"] == sources:
        say(f"{line} (./build.py proves and builds it again)" if there["origin"] == "dist" else line)
    else:
        say(
            f"{line}; the sources were changed since: ./build.py proves and builds them"
            + ("" if shutil.which("rt") else ", which needs the Rattle kit")
        )
    return None


def sdk_of(target, dist):
    """What a compiler needs of the library of dist/, for bin/: the archive, the header and the files of pkg-config and
    CMake; nothing if dist/ has none.
    """
    from release import library, sdk

    build = target.builds[0]
    if f"{sdk.ARCHIVE} for {build}" not in dist:
        return {}
    texts = {name: text.encode() for name, text in sdk.texts("", dist["version"]).items()}
    return {
        sdk.ARCHIVE: wheel.program(dist["version"], sdk.ARCHIVE, build),
        library.HEADER.name: library.HEADER.read_bytes(),
        **texts,
    }


def link_all(objects, folder):
    """Links each object file to the program that is shipped."""
    from release import linked

    made = {}
    for (name, cpu), path in objects.items():
        made[name, cpu] = folder / f"{name}-{cpu}"
        linked.link(path, made[name, cpu])
    return made


class Built:
    """Whether rt ci has proved the crates here, and the folder for what is built of them, which the next call may be
    given too.
    """

    is_there, folder = False, None


@contextlib.contextmanager
def room_to_build():
    """The folder to build in."""
    if not Built.is_there:
        with room_of() as room:
            yield room
    elif Built.folder:
        Built.folder.mkdir(parents=True, exist_ok=True)
        yield Built.folder
    else:
        with tempfile.TemporaryDirectory() as folder:
            yield pathlib.Path(folder)


@contextlib.contextmanager
def objects_of():
    """The object files of both programs for both processors, as the proofs build them, and a folder for what is linked
    of them.
    """
    with room_to_build() as room:
        yield (proving.build_in if Built.is_there else proving.build)(needed(), room, CPUS, say), room


def make_library(cpu):
    """Builds the C library."""
    from release import library

    check_kit()
    with room_to_build() as room:
        library.build(room, BIN, cpu, Built.is_there, say)
    return 0


def make_web(cpu):
    """Builds the page without a server. It is the same for each processor, and is made of the module of the library for
    this one.
    """
    from release import web

    check_kit()
    with room_to_build() as room:
        web.build(room, BIN, cpu, Built.is_there, say)
    return 0


def made_page(room):
    """The page in one file, and the lines of dist/SOURCES about it."""
    from release import page, web

    module = web.module(room, CPUS[0], Built.is_there, say)
    data = page.made(module, version())
    digests = {"sources of the page": page.sources(), "module in WebAssembly": hashlib.sha256(module).hexdigest()}
    return data, {**digests, PAGE: hashlib.sha256(data).hexdigest()}


def verify_page(dist, room):
    """Compares the page of dist/. Returns a sentence if that could not be done."""
    from release import page

    if PAGE not in dist:
        return f"dist/ has no {page.NAME}"
    if page.sources() != dist["sources of the page"]:
        return f"the page of dist/ is of an earlier state of version {dist['version']}, so it is not compared"
    for name, value in made_page(room)[1].items():
        if dist[name] != value:
            raise Failed(f"the {name} is not the one of dist/")
    return ""


def names_of(sources, objects, programs, libraries):
    """The lines of dist/SOURCES for the programs and libraries that are built."""
    from release import library

    names = {
        "version": version(),
        "date": today(),
        "sources": sources,
        "kit": kit_here(),
        "sources of the library": digest(needed((library.CRATE,))),
    }
    for (name, cpu), path in objects.items():
        names[f"object file of {name} for {cpu}"] = sum_of(path)
    for (name, cpu), path in {**programs, **libraries}.items():
        names[name_of(name, cpu)] = sum_of(path)
    return names


def name_of(name, cpu):
    """The name of the line that dist/SOURCES has of a program or library."""
    return f"{'program ' if name in targets.of_build(cpu).programs else ''}{name} for {cpu}"


def check_wheels(dist):
    """Refuses a dist/ whose files are not those of dist/SOURCES, each wheel whole and each program in it."""
    wheels = {name: value.split() for name, value in dist.items() if name.startswith("wheel for ")}
    for name, (file, wanted) in wheels.items():
        if not (DIST / file).is_file() or sum_of(DIST / file) != wanted:
            raise Failed(f"dist/{file} is not the {name} of dist/SOURCES")
    if PAGE in dist and (not (DIST / PAGE_FILE).is_file() or sum_of(DIST / PAGE_FILE) != dist[PAGE]):
        raise Failed(f"dist/{PAGE_FILE} is not the page of dist/SOURCES")
    others = (
        {path.name for path in DIST.iterdir()}
        - {file for file, _ in wheels.values()}
        - {"SOURCES", *([PAGE_FILE] if PAGE in dist else [])}
    )
    if wheels and others:
        raise Failed(f"dist/ has files that dist/SOURCES does not name: {', '.join(sorted(others))}")
    for target in targets.SHIPPED:
        for name, cpu in [(name, cpu) for name, cpu in target.made if name_of(name, cpu) in dist]:
            if hashlib.sha256(wheel.program(dist["version"], name, cpu)).hexdigest() != dist[name_of(name, cpu)]:
                raise Failed(f"the wheel's {name} for {cpu} is not the one of dist/SOURCES")


def compare(made, dist):
    """Refuses programs or libraries that are not those of dist/, byte for byte."""
    for (name, cpu), path in made.items():
        if path.read_bytes() != wheel.program(dist["version"], name, cpu) or sum_of(path) != dist[name_of(name, cpu)]:
            raise Failed(f"{name} for {cpu} is not the one of dist/")


def verify_here(dist, objects, room):
    """Compares what dist/ has for this system. Returns a sentence if that could not be done whole."""
    from release import library, linked

    for name, cpu in objects:
        if sum_of(objects[name, cpu]) != dist[f"object file of {name} for {cpu}"]:
            raise Failed(f"the object file of {name} for {cpu} is not the one of dist/")
    if linked.c_library() != dist["C library"]:
        return (
            "the four object files are the ones of dist/; the programs and the library are not linked again, since this"
            " machine's C library is another one"
        )
    compare(link_all(objects, room), dist)
    compare(library.shared(room, CPUS, Built.is_there, say), dist)
    return ""


def verify_other(target, builder, dist, room):
    """Compares what dist/ has for another system. Returns a sentence if that could not be done."""
    from release.others import sources

    if name_of(target.programs[0], target.builds[0]) not in dist:
        return f"dist/ has nothing for {target.name}"
    if sources(builder) != dist[f"sources for {target.builds[0]}"]:
        return (
            f"what dist/ has for {target.name} is of an earlier state of version {dist['version']}, so it is not"
            " compared"
        )
    if builder.missing():
        return f"what dist/ has for {target.name} is not compared: {builder.missing()}"
    if builder.linker() != dist[f"C library for {target.builds[0]}"]:
        return f"what dist/ has for {target.name} is not compared, since this machine links it with another C library"
    compare(builder.programs(room, Built.is_there, say)[0], dist)
    return ""


def verify():
    """Compares dist/ with the programs and the library of the current sources. Returns the exit status."""
    from release import library
    from release.others import with_wheels

    dist, sources = read_names(), digest(needed())
    if dist.get("version") != version():
        raise Failed(
            f"VERSION is {version()}, and dist/ has {dist.get('version', 'nothing')}: ./build.py --dist makes a new one"
        )
    if dist["sources"] != sources or dist.get("sources of the library") != digest(needed((library.CRATE,))):
        say(
            f"dist/ is of an earlier state of version {dist['version']}: its sources are others, so nothing is compared"
        )
        return 0
    check_wheels(dist)
    check_kit()
    if dist["kit"] != kit_here():
        say(
            f"dist/ was built with {dist['kit']}, and this machine has {kit_here()}: nothing is compared, since another"
            " compiler may make other bytes"
        )
        return 0
    with objects_of() as (objects, room):
        left = {targets.X86_64: verify_here(dist, objects, room)}
        left |= {target: verify_other(target, builder, dist, room) for target, builder in with_wheels().items()}
        of_page = verify_page(dist, room)
    for text in filter(None, [*left.values(), of_page]):
        say(text)
    if not of_page:
        say(f"dist/{PAGE_FILE} is, byte for byte, what the sources build, outside the verdict")
    whole = [target.name for target, text in left.items() if not text]
    if whole:
        say(
            f"the programs and libraries of dist/ for {' and '.join(whole)} are, byte for byte, what the proved sources"
            " build"
        )
    return 0


def made_for_all(objects, room):
    """The programs and libraries for each system that has a wheel, and the lines of dist/SOURCES about them."""
    from release import library, linked
    from release.others import sources, with_wheels

    programs, libraries = link_all(objects, room), library.shared(room, CPUS, Built.is_there, say)
    names = {**names_of(digest(needed()), objects, programs, libraries), "C library": linked.c_library()}
    made = {targets.X86_64: {**programs, **libraries}}
    for target, builder in with_wheels().items():
        made[target] = builder.programs(room, Built.is_there, say)[0]
        names |= {
            f"sources for {target.builds[0]}": sources(builder),
            f"C library for {target.builds[0]}": builder.linker(),
        }
        names |= {name_of(name, cpu): sum_of(path) for (name, cpu), path in made[target].items()}
    return made, names


def make_dist():
    """Writes a new dist/, with a wheel for each system."""
    from release import linked, manuals
    from release.others import with_wheels

    if read_names().get("version") == version():
        raise Failed(f"dist/ has version {version()} already: one dist/ a version; change VERSION first")
    if linked.c_library() is None:
        raise Failed("the programs are linked with gcc and the C library's libc.a: install gcc and libc6-dev")
    for target, builder in with_wheels().items():
        if builder.missing():
            raise Failed(f"dist/ has a wheel for {target.name}, too: {builder.missing()}")
    check_kit()
    with objects_of() as (objects, room):
        made, names = made_for_all(objects, room)
        texts = {
            name: subprocess.run(
                [made[targets.X86_64][name, CPUS[0]], "--help"], capture_output=True, text=True, check=True
            ).stdout
            for name in PROGRAMS
        }
        data, of_page = made_page(room)
        pack(made, {**names, **of_page}, manuals.files(texts, version(), today()), data)
    return 0


def pack(made, names, shared, page=None):
    """Replaces dist/ by the wheels of these programs, the page and a file SOURCES with these lines."""
    fresh = DIST.with_name(".dist")
    shutil.rmtree(fresh, ignore_errors=True)
    fresh.mkdir()
    sizes = {}
    if page is not None:
        (fresh / PAGE_FILE).write_bytes(page)
        sizes[PAGE_FILE] = len(page)
    for target, files in made.items():
        path = fresh / target.wheel(version())
        wheel.write(path, target, version(), today(), files, shared)
        sizes[path.name] = path.stat().st_size
        names |= {f"wheel for {target.name}": f"{path.name} {sum_of(path)}", f"said of {target.name}": target.sentence}
    write_names(names, fresh / "SOURCES")
    shutil.rmtree(DIST, ignore_errors=True)
    fresh.rename(DIST)
    for name, size in sizes.items():
        say(f"wrote {DIST / name}: {size / 1e6:.1f} MB")
    say(f"dist/ takes {sum(sizes.values()) / 1e6:.1f} MB in git")


def make_for(builder):
    """Builds the programs and the library for another system into its folder below bin/."""
    from release.others import sources

    check_kit()
    with room_to_build() as room:
        builder.build(room, BIN / builder.FOLDER, Built.is_there, say)
    write_names({"sources": sources(builder), "version": version()}, BIN / builder.FOLDER / STAMP.name)
    return 0


def make_others():
    """Builds for each other system whose compiler is here. What an earlier run built for those without one is removed:
    it may be of other sources.
    """
    from release.others import BUILDERS

    for target, builder in BUILDERS.items():
        if builder.missing():
            shutil.rmtree(BIN / builder.FOLDER, ignore_errors=True)
            say(f"skipped: {target.name}: {builder.missing()}")
        else:
            make_for(builder)
    return 0


def main():
    parser = argparse.ArgumentParser(description=__doc__, formatter_class=argparse.RawDescriptionHelpFormatter)
    cpus = "x86-64-v2 or x86-64-v3, or aarch64 on such a machine; also the variable WOKURETI_CPU"
    parser.add_argument("--cpu", default=os.environ.get("WOKURETI_CPU", ""), metavar="NAME", help=cpus)
    parser.add_argument(
        "--built", action="store_true", help="with all others but --ready: rt ci has proved the crates here"
    )
    parser.add_argument(
        "--room",
        type=pathlib.Path,
        metavar="DIR",
        help="with --built: keeps what is built in this folder, and takes from it what an earlier call built there",
    )
    what = parser.add_mutually_exclusive_group()
    what.add_argument("--ready", nargs="?", const="build.py", metavar="SCRIPT")
    what.add_argument("--verify", action="store_true")
    what.add_argument("--dist", action="store_true")
    what.add_argument("--library", action="store_true")
    what.add_argument("--web", action="store_true")
    for name in ELSEWHERE:
        what.add_argument(f"--{name}", action="store_true")
    what.add_argument("--others", action="store_true")
    given = parser.parse_args()
    Built.is_there, Built.folder = given.built, given.room
    try:
        if given.verify:
            return verify()
        if given.dist:
            return make_dist()
        if given.library:
            return make_library(processor(given.cpu))
        if given.web:
            return make_web(processor(given.cpu))
        for name in ELSEWHERE:
            if getattr(given, name):
                return make_for(importlib.import_module(f"release.{name}"))
        if given.others:
            return make_others()
        Speaker.name = given.ready or Speaker.name
        (ready if given.ready else build)(processor(given.cpu))
    except Failed as failed:
        say(failed)
        return 1
    except KeyboardInterrupt:
        say("interrupted; the next run continues from here")
        return 130
    except OSError as error:
        say(f"nothing was built: {error}")
        return 1
    return 0


if __name__ == "__main__":
    sys.exit(main())
