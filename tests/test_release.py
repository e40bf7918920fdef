#!/usr/bin/env python3
"""Tests dist/: each wheel whole and as dist/SOURCES has it; that of this system installed by pip in a new environment,
its programs, launcher, manual pages and completion.

It prints what differs and ends with 1, or prints nothing but what it skipped, and ends with 0.
"""

import base64
import csv
import hashlib
import io
import os
import pathlib
import shutil
import struct
import subprocess
import sys
import tempfile
import zipfile

TOP = pathlib.Path(__file__).resolve().parent.parent
sys.dont_write_bytecode = True
sys.path.insert(0, str(TOP))
from release import targets  # noqa: E402
from release.page import NAME  # noqa: E402
from release.sources import read_names, sum_of  # noqa: E402

VERSION = (TOP / "VERSION").read_text().strip()
EXAMPLE = TOP / "examples/mandelbrot.ivf"
COMMANDS = ("vp8serve", "vp8list", "wokureti")
LIMIT = 120
# Processors by their numbers in ELF files.
MACHINES = {62: "x86_64", 183: "aarch64"}
SESSION = f"""
from wokureti import Session, __version__
with Session({str(EXAMPLE)!r}) as session:
    frame = session.frame(3)
    print(__version__, session.count().frames, frame.width, frame.height)
"""

wrong = []


def expect(name, got, wanted):
    if got != wanted:
        wrong.append(f"{name}: {got!r:.300}, not {wanted!r:.300}")


def ran(*words, **options):
    done = subprocess.run(
        list(map(str, words)),
        capture_output=True,
        text=True,
        timeout=LIMIT,
        check=False,
        stdin=subprocess.DEVNULL,
        **options,
    )
    return done.returncode, done.stdout, done.stderr


def check_record(file):
    """The record of the wheel has each file with its digest and length."""
    record = f"wokureti-{VERSION}.dist-info/RECORD"
    rows = {row[0]: row[1:] for row in csv.reader(io.StringIO(file.read(record).decode()))}
    expect("files of the record", sorted(rows), sorted(file.namelist()))
    for name in file.namelist():
        data = file.read(name)
        digest = base64.urlsafe_b64encode(hashlib.sha256(data).digest()).rstrip(b"=").decode()
        expect(f"record of {name}", rows[name], ["", ""] if name == record else [f"sha256={digest}", str(len(data))])


def needs_interpreter(data):
    """Whether a program of 64 bits asks for a dynamic linker."""
    start, size, count = struct.unpack_from("<Q", data, 32)[0], *struct.unpack_from("<HH", data, 54)
    return any(struct.unpack_from("<I", data, start + number * size)[0] == 3 for number in range(count))


def check_installed(prefix, environment, sentence):
    """The three commands and their files below the folder of an environment."""
    for name in COMMANDS:
        said = sentence if name == "wokureti" else ""
        expect(
            f"{name} --version",
            ran(prefix / "bin" / name, "--version", env=environment),
            (0, f"{name} {VERSION}\n{said}", ""),
        )
        manual = (prefix / f"share/man/man1/{name}.1").read_text()
        expect(
            f"the manual page of {name}",
            manual.startswith(f".TH {name.upper()} 1 ") and f'"wokureti {VERSION}"' in manual,
            True,
        )
        completion = prefix / f"share/bash-completion/completions/{name}"
        if shutil.which("bash"):
            expect(f"completion of {name}", ran("bash", "-n", completion), (0, "", ""))
        if shutil.which("man"):
            status, text, _ = ran(
                "man",
                "-l",
                prefix / f"share/man/man1/{name}.1",
                env={**os.environ, "MANPAGER": "cat", "MANWIDTH": "100"},
            )
            expect(f"man {name}", (status, f"{name} - " in text, "--help" in text), (0, True, True))
    help_text = ran(prefix / "bin/vp8serve", "--help", env=environment)[1]
    page = (prefix / "share/man/man1/vp8serve.1").read_text().replace("\\-", "-").replace("\\(aq", "'")
    expect(
        "options of the manual page",
        [
            line.split()[0]
            for line in help_text.splitlines()
            if line.startswith("      --") and line.split()[0] not in page
        ],
        [],
    )


def check_launcher(prefix):
    """The launcher starts the program that it must, in its own process."""
    launcher = prefix / "bin/vp8serve"
    link = prefix / "a link"
    link.symlink_to(launcher)
    status, text, _ = ran(link, "--version")
    expect("through a link of another name", (status, text), (0, f"vp8serve {VERSION}\n"))
    for cpu in ("x86-64-v2", "x86-64-v3"):
        expect(
            cpu, ran(launcher, "--version", env={**os.environ, "WOKURETI_CPU": cpu})[:2], (0, f"vp8serve {VERSION}\n")
        )
    status, text, errors = ran(launcher, env={**os.environ, "WOKURETI_CPU": "x86-64-v9"})
    expect("another processor", (status, text, errors.count("\n"), "WOKURETI_CPU" in errors), (1, "", 1, True))
    with subprocess.Popen(
        [launcher, EXAMPLE, "-", "-", "--live"], stdin=subprocess.PIPE, stdout=subprocess.PIPE
    ) as started:
        started.stdin.write(b"count\n")
        started.stdin.flush()
        expect("a session", started.stdout.readline(), b"packets 48 frames 48\n")
        expect("its process", pathlib.Path(f"/proc/{started.pid}/exe").resolve().parent.name, "wokureti")
        started.stdin.close()
        expect("its end", started.wait(LIMIT), 0)


def check_pip(folder, sentence):
    """pip installs the wheel of this system from dist/ into a new environment, as README.md has it, and the client
    finds the programs there.
    """
    prefix = folder / "environment"
    if ran(sys.executable, "-m", "venv", prefix)[0] != 0:
        print("skipped: pip install of the wheel: there is no venv with pip")
        return
    expect(
        "pip install",
        ran(
            prefix / "bin/pip",
            "install",
            "-q",
            "--no-index",
            "--find-links",
            TOP / "dist",
            "--disable-pip-version-check",
            "wokureti",
        )[0],
        0,
    )
    environment = {
        name: value
        for name, value in os.environ.items()
        if name not in ("VP8SERVE", "VP8LIST", "LIBWOKURETI", "PYTHONPATH")
    }
    check_installed(prefix, environment, sentence)
    check_launcher(prefix)
    expect(
        "a session of the installed client",
        ran(prefix / "bin/python", "-c", SESSION, env=environment, cwd=folder)[:2],
        (0, f"{VERSION} 48 320 180\n"),
    )
    within = SESSION.replace("Session(", "Session(engine='library', stream=", 1)
    expect(
        "a session by the installed library",
        ran(prefix / "bin/python", "-c", within, env=environment, cwd=folder)[:2],
        (0, f"{VERSION} 48 320 180\n"),
    )
    check_sdk(prefix, folder, environment)
    for target in targets.SHIPPED:
        check_other(prefix, folder, target)
    expect("pip uninstall", ran(prefix / "bin/pip", "uninstall", "-q", "-y", "wokureti")[0], 0)
    expect("what is left", [path.name for path in (prefix / "bin").iterdir() if path.name in COMMANDS], [])


def check_sdk(prefix, folder, environment):
    """A C program is compiled as the guide says: by `wokureti --cflags --libs`, by pkg-config, with the archive, and by
    CMake.
    """
    place, source = prefix / "lib/wokureti", TOP / "clients/c/session.c"
    if not (place / "wokureti.pc").is_file():
        return
    if shutil.which("gcc") is None:
        print("skipped: a C program over the installed library: there is no gcc")
        return
    status, words = ran(prefix / "bin/wokureti", "--cflags", "--libs", env=environment)[:2]
    expect(
        "wokureti --cflags --libs",
        (status, words.split()),
        (0, [f"-I{prefix}/include", f"-L{place}", "-lwokureti", f"-Wl,-rpath,{place}"]),
    )
    ways = {"wokureti --libs": words.split(), "the archive": [f"-I{prefix}/include", str(place / "libwokureti.a")]}
    if shutil.which("pkg-config"):
        found = ran("pkg-config", "--cflags", "--libs", "wokureti", env={**environment, "PKG_CONFIG_PATH": str(place)})
        ways["pkg-config"] = [*found[1].split(), f"-Wl,-rpath,{place}"]
    for name, options in ways.items():
        made = folder / f"by {name}"
        expect(f"a C program by {name}", ran("gcc", "-o", made, source, *options)[0], 0)
        expect_session(made, name)
    check_cmake(place, folder, source)


def expect_session(made, name):
    """The program answers request lines over the example."""
    words = [made, "-", "4", "-", "-", "-", EXAMPLE]
    done = subprocess.run(
        list(map(str, words)), input="count\nframe 3\n", capture_output=True, text=True, timeout=LIMIT, check=False
    )
    expect(f"a C program by {name}", (done.returncode, done.stdout), (0, "packets 48 frames 48\nserved 3\n"))


def check_cmake(place, folder, source):
    """CMake finds the installed library, and refuses another minor version."""
    if shutil.which("cmake") is None:
        print("skipped: the installed library by CMake: there is no cmake")
        return
    major, minor = VERSION.split(".")[:2]
    for asked, is_found in ((f"{major}.{minor}", True), (f"{major}.{int(minor) + 1}", False)):
        project, built = folder / f"project {asked}", folder / f"built {asked}"
        project.mkdir()
        (project / "CMakeLists.txt").write_text(
            f"cmake_minimum_required(VERSION 3.10)\nproject(one C)\nfind_package(wokureti {asked} CONFIG"
            f' REQUIRED)\nadd_executable(one "{source}")\ntarget_link_libraries(one wokureti::wokureti)\n'
        )
        status = ran("cmake", "-S", project, "-B", built, f"-Dwokureti_DIR={place}")[0]
        expect(f"CMake for version {asked}", status == 0, is_found)
        if is_found and status == 0:
            expect("CMake's build", ran("cmake", "--build", built)[0], 0)
            expect_session(built / "one", "CMake")


def check_other(prefix, folder, target):
    """pip takes the wheel of each of its tags for that system, with this client and those programs in it."""
    for tag in target.tags if (TOP / "dist" / target.wheel(VERSION)).is_file() else ():
        to = folder / tag
        words = (
            "--only-binary",
            ":all:",
            "--no-deps",
            "--no-index",
            "--find-links",
            TOP / "dist",
            "--platform",
            tag,
            "--target",
            to,
        )
        expect(
            f"pip install for {tag}",
            ran(prefix / "bin/pip", "install", "-q", "--disable-pip-version-check", *words, "wokureti")[0],
            0,
        )
        tags = [
            line.removeprefix("Tag: ")
            for line in (to / f"wokureti-{VERSION}.dist-info/WHEEL").read_text().splitlines()
            if line.startswith("Tag: ")
        ]
        expect(f"the tags that pip reads for {tag}", tags, [f"py3-none-{one}" for one in target.tags])


def check_files(file, target):
    """A wheel has each program and library of its target, for this system; those for Linux need no dynamic linker.
    Returns what it says of its proof.
    """
    names, sentence = file.namelist(), ""
    for paths in [target.places_of(name, build) for name, build in target.made]:
        expect(
            f"{paths[0]} in the wheel for {target.name}",
            any(f"wokureti-{VERSION}.data/{path}" in names for path in paths),
            True,
        )
    for name in names:
        data = file.read(name)
        if data[:4] == b"\x7fELF":
            expect(f"the processor of {name}", MACHINES.get(struct.unpack_from("<H", data, 18)[0]), target.machines[0])
            expect(f"{name} needs a dynamic linker", needs_interpreter(data), False)
    if "wokureti/BUILD" in names:
        sentence = file.read("wokureti/BUILD").decode()
        expect(f"what is said of {target.name}", sentence, f"{target.sentence}\n")
    return sentence


def check_sources(wheels):
    """dist/SOURCES has each wheel and the page in one file with their digests, and what is said of each wheel, and no
    other file is there.
    """
    names = read_names()
    if not any(name.startswith("wheel for ") for name in names):
        return
    page = TOP / "dist" / NAME
    expect(
        "files of dist/",
        {path.name for path in page.parent.iterdir()},
        {"SOURCES", NAME, *(path.name for path in wheels.values())},
    )
    expect(f"the digest of {NAME}", names.get(f"page {NAME}"), sum_of(page))
    for target, path in wheels.items():
        expect(f"the wheel for {target.name}", names.get(f"wheel for {target.name}"), f"{path.name} {sum_of(path)}")
        expect(f"what dist/SOURCES says of {target.name}", names.get(f"said of {target.name}"), target.sentence)


def main():
    wheels = {
        target: TOP / "dist" / target.wheel(VERSION)
        for target in targets.SHIPPED
        if (TOP / "dist" / target.wheel(VERSION)).is_file()
    }
    if targets.X86_64 not in wheels:
        wrong.append(f"dist/ has no wheel of version {VERSION}")
    check_sources(wheels)
    for target, path in wheels.items():
        with zipfile.ZipFile(path) as file:
            check_record(file)
            sentence = check_files(file, target)
        if target is targets.here():
            with tempfile.TemporaryDirectory() as folder:
                check_pip(pathlib.Path(folder), sentence)
    print(*wrong, sep="\n", end="\n" if wrong else "")
    return 1 if wrong else 0


if __name__ == "__main__":
    sys.exit(main())
