#!/usr/bin/env python3
"""Runs build.py over four small crates with a false `rt`: interrupted, twice at the same time, in a folder with spaces
in its path, where `bin` cannot be made, without `rt`, with another kit, and with a crate that fails; and
`build.py --ready` over a false dist/.

    tests/install/first_command.py [--quiet]

With --quiet it prints differences only.
"""

import contextlib
import os
import pathlib
import shutil
import signal
import stat
import subprocess
import sys
import tempfile
import time
import zipfile

TOP = pathlib.Path(__file__).resolve().parents[2]
sys.path.insert(1, str(TOP / "compare"))
import results  # noqa: E402

KIT = "rattle-kit-false logic 0123456789abcdef"
NOBODY = 65534
SECONDS = 60
TOLD = {"runs": 0, "differences": 0}
# It proves a crate of each folder of crates/, $PAUSE seconds each, and keeps which ones are proved in out/; with a file
# `fails` it fails at `low`.
FALSE_RT = """#!/bin/sh
echo "$*" >> "$CALLS"
case "$1" in
version) cat "$KIT_FILE" ;;
all)
    for crate in $(ls crates); do
        [ -e "$CALLS.fails" ] && { echo "low: a goal is open"; exit 1; }
        mkdir -p crates/$crate/out
        [ -e crates/$crate/out/proved ] || {
            sleep "$PAUSE"; : > crates/$crate/out/proved; echo "proved $crate" >> "$CALLS"
        }
        echo "== $crate"
    done ;;
check)
    crate=$(basename "$PWD")
    [ -e "$CALLS.fails" ] && { echo "$crate: a goal is open"; exit 1; }
    mkdir -p out
    [ -e out/proved ] || { sleep "$PAUSE"; : > out/proved; echo "proved $crate" >> "$CALLS"; } ;;
run)
    crate=$(basename "$PWD")
    mkdir -p out
    printf '#!/bin/sh\\necho "$0"\\n' > "out/$crate"
    : > "out/$crate.o"
    echo "built $crate" >> "$CALLS" ;;
esac
"""


def differs(name, got, want):
    TOLD["runs"] += 1
    if got != want:
        TOLD["differences"] += 1
        print(f"{name}: {got!r}, not {want!r}")


class Checkout:
    """A checkout of four crates and one that no program needs, a false `rt` and a cache folder of its own."""

    def __init__(self, room, name):
        self.top, self.room = room / name, room
        self.calls = room / f"{name} calls"
        (self.top / "docs/design").mkdir(parents=True)
        shutil.copyfile(TOP / "build.py", self.top / "build.py")
        shutil.copytree(TOP / "release", self.top / "release", ignore=shutil.ignore_patterns("__pycache__"))
        (self.top / "VERSION").write_text("1.2.3\n")
        (self.top / "crates.txt").write_text(
            "# programs\nlow:\nreference_frames: low\nvp8serve: reference_frames\nvp8list: reference_frames\nother:"
            " low\n"
        )
        (self.top / "HANDLES").write_text("Handles allowed: none.\n")
        (self.top / "docs/design/proofs.md").write_text(f"The kit is {KIT}.\n")
        for crate in (*CRATES, "other"):
            (self.top / "crates" / crate / "src").mkdir(parents=True)
            (self.top / "crates" / crate / "src/lib.rt").write_text("// nothing\n")
        (room / "kit").write_text(f"{KIT}\n")
        (room / "path").mkdir(exist_ok=True)
        rt = room / "path/rt"
        rt.write_text(FALSE_RT)
        rt.chmod(0o755)

    def start(self, *options_of_it, pause=0, path=None, python=sys.executable, machine=None, **options):
        environment = {} if machine is None else {"PYTHONPATH": str(self.on(machine))}
        environment |= {
            "PATH": path or f"{self.room}/path:{os.environ['PATH']}",
            "XDG_CACHE_HOME": str(self.room / "cache of programs"),
            "HOME": str(self.room),
            "CALLS": str(self.calls),
            "KIT_FILE": str(self.room / "kit"),
            "PAUSE": str(pause),
        }
        words = [python, self.top / "build.py", *options_of_it]
        return subprocess.Popen(
            words,
            env=environment,
            stdout=subprocess.PIPE,
            stderr=subprocess.STDOUT,
            text=True,
            start_new_session=True,
            **options,
        )

    def on(self, machine):
        """A folder with a module that Python imports first, by which `platform` names this machine."""
        folder = self.room / machine
        folder.mkdir(exist_ok=True)
        (folder / "sitecustomize.py").write_text(f"import platform\nplatform.machine = lambda: {machine!r}\n")
        return folder

    def run(self, *options_of_it, **options):
        started = self.start(*options_of_it, **options)
        text, _ = started.communicate(timeout=SECONDS)
        return started.returncode, text

    def proved(self):
        """The crates that were proved, in order, and at the end the programs that were built, which are."""
        lines = self.calls.read_text().splitlines() if self.calls.exists() else []
        proved = [line.split()[1] for line in lines if line.startswith("proved")]
        return proved + sorted(line.split()[1] for line in lines if line.startswith("built"))

    def built(self):
        return sorted(path.name for path in (self.top / "bin").glob("[!.]*")) if (self.top / "bin").is_dir() else []


def await_proved(checkout, count):
    end = time.monotonic() + SECONDS
    while len(checkout.proved()) < count:
        if time.monotonic() > end:
            raise TimeoutError("no crate was proved")
        time.sleep(0.02)


ALL = ["vp8list", "vp8serve", "wokureti"]
CRATES = ["low", "reference_frames", "vp8list", "vp8serve"]


def spaces(room):
    """A path with spaces; a second run does nothing; a change builds again; the programs run."""
    checkout = Checkout(room, "a checkout with spaces")
    status, text = checkout.run()
    differs("built", (status, checkout.built(), checkout.proved()), (0, ALL, CRATES))
    differs("lines of crates", [f"({n} of 4" in text for n in (1, 2, 3, 4)], [True] * 4)
    names = dict(
        line.split(": ", 1)
        for line in (checkout.top / "bin/.built").read_text().splitlines()
        if ": " in line and line[0] != "#"
    )
    differs("what is in bin", (names["version"], names["origin"]), ("1.2.3", "here"))
    shown = subprocess.run([checkout.top / "bin/vp8serve"], capture_output=True, text=True, timeout=SECONDS)
    differs("the program", shown.stdout.strip(), str(checkout.top / "bin/vp8serve"))
    differs("again", checkout.run(), (0, ""))
    (checkout.top / "crates/other/src/lib.rt").write_text("// changed\n")
    differs("a crate of no program", checkout.run(), (0, ""))
    (checkout.top / "crates/low/src/lib.rt").write_text("// changed\n")
    before = checkout.calls.read_text().count("all check")
    differs("a change", (checkout.run()[0], checkout.calls.read_text().count("all check")), (0, before + 1))


def interrupted(room):
    """Interrupted after a crate: the next run begins with what was proved."""
    checkout = Checkout(room, "interrupted")
    started = checkout.start(pause=1)
    await_proved(checkout, 1)
    started.send_signal(signal.SIGINT)
    text, _ = started.communicate(timeout=SECONDS)
    differs(
        "interrupted",
        (started.returncode, text.splitlines()[-1], checkout.built()),
        (130, "build.py: interrupted; the next run continues from here", []),
    )
    first = checkout.proved()
    differs("the next run", (checkout.run()[0], checkout.built()), (0, ALL))
    differs("proved once each", sorted(checkout.proved()), sorted(set(checkout.proved())))
    differs("went on", checkout.proved()[: len(first)], first)


def twice(room):
    """Two at the same time: the second waits, says so, and finds all built."""
    checkout = Checkout(room, "twice")
    first = checkout.start(pause=1)
    await_proved(checkout, 1)
    second = checkout.start()
    texts = [started.communicate(timeout=SECONDS)[0] for started in (first, second)]
    differs("both", (first.returncode, second.returncode, checkout.built()), (0, 0, ALL))
    differs("the second", texts[1], "build.py: another build of this checkout runs; waiting for it\n")
    differs("proved once", (checkout.proved(), checkout.calls.read_text().count("all check")), (CRATES, 1))


def read_only(room):
    """A tree that may not be written: one sentence."""
    checkout = Checkout(room, "read-only")
    for folder, _, _ in os.walk(checkout.top):
        os.chmod(folder, stat.S_IRUSR | stat.S_IXUSR | stat.S_IRGRP | stat.S_IXGRP | stat.S_IROTH | stat.S_IXOTH)
    options = (
        {"user": NOBODY, "group": NOBODY, "extra_groups": [], "python": "/usr/bin/python3"} if os.geteuid() == 0 else {}
    )
    status, text = checkout.run(**options)
    differs(
        "read-only",
        (status, text.count("\n"), text.startswith("build.py: nothing was built: "), "bin" in text),
        (1, 1, True, True),
    )
    for folder, _, _ in os.walk(checkout.top):
        os.chmod(folder, 0o755)


def without_kit(room):
    """No `rt`, and another kit: one sentence each."""
    checkout = Checkout(room, "no rt")
    differs(
        "no rt",
        checkout.run(path="/nowhere"),
        (1, "build.py: building needs the command rt of the Rattle kit on the PATH\n"),
    )
    (room / "kit").write_text("rattle-kit-other logic fedcba9876543210\n")
    told = f"build.py: this repository is proved with {KIT}, but rt is of rattle-kit-other logic fedcba9876543210\n"
    differs("another kit", checkout.run(), (1, told))
    differs("nothing built", (checkout.built(), checkout.proved()), ([], []))


def failing(room):
    """A crate that fails: its last lines, and nothing is built."""
    checkout = Checkout(room, "failing")
    fails = pathlib.Path(f"{checkout.calls}.fails")
    fails.write_text("")
    status, text = checkout.run()
    differs("failing", (status, checkout.built()), (1, []))
    differs(
        "the last lines",
        text.splitlines()[-2:],
        ["build.py: low: a goal is open", "nothing was built: rt all ended with status 1"],
    )
    fails.unlink()
    differs("repaired", (checkout.run()[0], checkout.built()), (0, ALL))


X86_64 = {
    f"{name}-x86-64-{cpu}": f"data/lib/wokureti/{name}-x86-64-{cpu}"
    for name in ("vp8serve", "vp8list")
    for cpu in ("v2", "v3")
}
ARM = {f"{name}-aarch64": f"scripts/{name}" for name in ("vp8serve", "vp8list")}


def false_dist(checkout, version, sources, wheels=("x86_64",)):
    """A dist/ whose programs print its version."""
    dist = checkout.top / "dist"
    shutil.rmtree(dist, ignore_errors=True)
    dist.mkdir()
    programs = {machine: {"x86_64": X86_64, "aarch64": ARM}[machine] for machine in wheels}
    lines = [f"program {name.replace('-', ' for ', 1)}: -\n" for names in programs.values() for name in names]
    (dist / "SOURCES").write_text(f"version: {version}\ndate: 2026-01-02\nsources: {sources}\n{''.join(lines)}")
    for machine, names in programs.items():
        with zipfile.ZipFile(
            dist / f"wokureti-{version}-py3-none-manylinux_2_17_{machine}.musllinux_1_1_{machine}.whl", "w"
        ) as file:
            for name, path in names.items():
                file.writestr(
                    f"wokureti-{version}.data/{path}", f"#!/bin/sh\necho {version} {name.rpartition('-')[2]}\n"
                )


def printed(checkout):
    return subprocess.run([checkout.top / "bin/vp8serve"], capture_output=True, text=True, timeout=SECONDS).stdout


def ready(room):
    """Ready programs: which ones bin/ gets, and what is said of them."""
    checkout = Checkout(room, "ready")
    said = "build.py: wokureti 1.2.3 as it was proved and built on 2026-01-02"
    sums = (
        f"import sys; sys.path.insert(0, {str(checkout.top)!r}); sys.dont_write_bytecode = True; from release.sources"
        " import digest, needed; print(digest(needed()))"
    )
    sources = subprocess.run(
        [sys.executable, "-c", sums], capture_output=True, text=True, timeout=SECONDS
    ).stdout.strip()
    false_dist(checkout, "1.2.3", sources)
    anew = f"{said} (./build.py proves and builds it again)\n"
    differs(
        "ready",
        (checkout.run("--ready", "--cpu", "x86-64-v2", path="/nowhere"), printed(checkout)),
        ((0, anew), "1.2.3 v2\n"),
    )
    differs(
        "ready again",
        checkout.run("--ready", "serve.sh", "--cpu", "x86-64-v2", path="/nowhere"),
        (0, anew.replace("build.py: ", "serve.sh: ")),
    )
    differs(
        "another processor",
        (checkout.run("--ready", "--cpu", "x86-64-v3", path="/nowhere"), printed(checkout)),
        ((0, anew), "1.2.3 v3\n"),
    )
    differs("nothing proved", checkout.proved(), [])
    (checkout.top / "crates/low/src/lib.rt").write_text("// changed\n")
    changed = f"{said}; the sources were changed since: ./build.py proves and builds them"
    differs("changed, with rt", checkout.run("--ready", "--cpu", "x86-64-v3"), (0, changed + "\n"))
    differs(
        "changed, without rt",
        checkout.run("--ready", "--cpu", "x86-64-v3", path="/nowhere"),
        (0, changed + ", which needs the Rattle kit\n"),
    )
    differs("built", (checkout.run("--cpu", "x86-64-v3")[0], printed(checkout)), (0, f"{checkout.top}/bin/vp8serve\n"))
    status, text = checkout.run("--ready", "--cpu", "x86-64-v3")
    differs(
        "newer ones stay",
        (status, text.startswith("build.py: wokureti 1.2.3 as it was proved and built here on "), printed(checkout)),
        (0, True, f"{checkout.top}/bin/vp8serve\n"),
    )
    next(checkout.top.glob("dist/*.whl")).write_bytes(b"PK")
    shutil.rmtree(checkout.top / "bin")
    status, text = checkout.run("--ready", "--cpu", "x86-64-v3")
    differs("a damaged wheel", (status, text.count("\n"), "cannot be read" in text), (1, 1, True))
    (checkout.top / "VERSION").write_text("1.2.4\n")
    differs(
        "another version",
        checkout.run("--verify"),
        (1, "build.py: VERSION is 1.2.4, and dist/ has 1.2.3: ./build.py --dist makes a new one\n"),
    )
    (checkout.top / "VERSION").write_text("1.2.3\n")
    earlier = (
        "build.py: dist/ is of an earlier state of version 1.2.3: its sources are others, so nothing is compared\n"
    )
    differs("earlier sources", checkout.run("--verify"), (0, earlier))
    differs(
        "one dist a version",
        checkout.run("--dist"),
        (1, "build.py: dist/ has version 1.2.3 already: one dist/ a version; change VERSION first\n"),
    )


def on_arm(room):
    """On ARM the programs are those of its wheel; without one, or on another machine, nothing is put into bin/."""
    checkout = Checkout(room, "arm")
    false_dist(checkout, "1.2.3", "-", ("x86_64", "aarch64"))
    status, text = checkout.run("--ready", "serve.sh", path="/nowhere", machine="aarch64")
    said = (
        "serve.sh: wokureti 1.2.3 as it was proved and built on 2026-01-02, run by us under an emulator only; the"
        " sources were changed since"
    )
    differs("on ARM", (status, text.startswith(said), printed(checkout)), (0, True, "1.2.3 aarch64\n"))
    differs(
        "what is proved there",
        "proof: Linux on ARM: proved by the kit's verdict for this target; run by us under an emulator only\n"
        in (checkout.top / "bin/.built").read_text(),
        True,
    )
    told = "build.py: the processor is x86-64-v3, but must be aarch64\n"
    differs(
        "a processor of another system", checkout.run("--ready", "--cpu", "x86-64-v3", machine="aarch64"), (1, told)
    )
    told = "build.py: the Rattle kit is for Linux on x86-64, and builds the programs for Linux on ARM there\n"
    differs("a build there", checkout.run(machine="aarch64"), (1, told))
    shutil.rmtree(checkout.top / "bin")
    told = "build.py: the programs are for Linux on x86-64 and Linux on ARM; README.md has a table of all systems\n"
    differs("another machine", checkout.run("--ready", machine="riscv64"), (1, told))
    false_dist(checkout, "1.2.3", "-")
    differs(
        "without a wheel for it",
        checkout.run("--ready", machine="aarch64"),
        (1, "build.py: dist/ has no programs for Linux on ARM, aarch64\n"),
    )
    differs("nothing in bin", checkout.built(), [])


def main():
    with tempfile.TemporaryDirectory() as folder, contextlib.suppress(KeyboardInterrupt):
        os.chmod(folder, 0o755)
        for part in (spaces, interrupted, twice, read_only, without_kit, failing, ready, on_arm):
            part(pathlib.Path(folder))
        results.total(
            f"{TOLD['runs']} comparisons, {TOLD['differences']} differences",
            TOLD["differences"],
            version=results.sources(),
        )
    return 1 if TOLD["differences"] else 0


if __name__ == "__main__":
    sys.exit(main())
