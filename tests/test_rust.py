#!/usr/bin/env python3
"""Tests the Rust crate over the library: `cargo test`, `cargo clippy` and `cargo doc` in clients/rust, without a
network and without a warning, and a program of another crate by the lines of docs/guide/c.md, which starts by each of
the ways that they name.

The library is that of the variable LIBWOKURETI, or bin/libwokureti.so.0. It prints what fails and ends with 1, or
prints nothing and ends with 0; a line `skipped: ..` names what could not be run.
"""

import os
import pathlib
import shutil
import subprocess
import sys
import tempfile

import guides

TOP = pathlib.Path(__file__).resolve().parent.parent
SERVE = os.environ.get("VP8SERVE") or str(TOP / "bin/vp8serve")
CLIP = TOP / "examples/mandelbrot.ivf"
LIBRARY = pathlib.Path(os.environ.get("LIBWOKURETI") or TOP / "bin/libwokureti.so.0")
LIMIT = 600


def checked(room):
    """The tests, lints and documents of the crates: what fails, or warns."""
    has_clippy = (
        subprocess.run(["cargo", "clippy", "--version"], capture_output=True, timeout=LIMIT, check=False).returncode
        == 0
    )
    if not has_clippy:
        print("skipped: cargo clippy is not there")
    for words in (["test"], ["clippy", "--all-targets"] if has_clippy else [], ["doc", "--no-deps"]):
        if not words:
            continue
        flags = {"RUSTFLAGS": "-D warnings", "RUSTDOCFLAGS": "-D warnings"}
        ran = subprocess.run(
            ["cargo", words[0], "--offline", "--locked", "--quiet", *words[1:]],
            cwd=TOP / "clients/rust",
            env={**room, **flags},
            capture_output=True,
            text=True,
            timeout=LIMIT,
            check=False,
        )
        if ran.returncode or "warning" in ran.stderr:
            yield f"cargo {words[0]}: {ran.stdout[-4000:]}{ran.stderr[-4000:]}"


def frames_of(path, requests):
    """The frames that vp8serve writes for these requests, as one text."""
    out = path.with_suffix(".y4m")
    subprocess.run(
        [SERVE, path, "-", out],
        input="".join(line + "\n" for line in requests).encode(),
        capture_output=True,
        timeout=LIMIT,
        check=True,
    )
    return out.read_bytes().split(b"\n", 1)[1]


def started(folder, program, room):
    """What the program of the guide does over a clip with a damaged packet, by these words that start it."""
    run = folder / "run"
    shutil.rmtree(run, ignore_errors=True)
    run.mkdir()
    subprocess.run(
        [SERVE, CLIP, "-", "-", "--save", run / "clip.ivf"],
        input=b"replace 7 1100\n",
        capture_output=True,
        timeout=LIMIT,
        check=True,
    )
    ran = subprocess.run(program, cwd=run, env=room, capture_output=True, text=True, timeout=LIMIT, check=False)
    lines = ran.stdout.splitlines()
    if (
        ran.returncode
        or len(lines) != 49
        or lines[7] != "7: refused packet 7 ShortPacket: packet 7 has 2 bytes, a tag needs 3"
        or lines[48] != "20 frames"
    ):
        return f"{program}: status {ran.returncode}, {lines[-3:]}{ran.stderr[-2000:]}"
    numbers = [*range(10), *range(38, 48)]
    if frames_of(run / "cut.ivf", [f"frame {number}" for number in range(20)]) != frames_of(
        run / "clip.ivf", ["hold 7", "delete 8", *(f"frame {number}" for number in numbers)]
    ):
        return f"{program}: other frames"
    return None


def of_guide(folder, room):
    """The program of docs/guide/c.md in a crate of its own, which is not in the checkout, started by each of the ways
    that are named there.
    """
    crate = folder / "editor"
    (crate / "src").mkdir(parents=True)
    depends, program, ways = guides.blocks("Rust")
    (crate / "Cargo.toml").write_text(
        '[package]\nname = "editor"\nversion = "0.1.0"\nedition ='
        f' "2021"\n\n{depends.replace("clients/rust", str(TOP / "clients/rust"))}'
    )
    (crate / "src/main.rs").write_text(program)
    if (TOP / "clients/rust/wokureti/examples/cut.rs").read_text().split("\n", 1)[1] != program:
        yield "docs/guide/c.md has another program than examples/cut.rs"
    lines = [line.split("#")[0].strip() for line in ways.splitlines()]
    if [line.split("cargo ")[-1] for line in lines] != ["run", "build", "build"] or not lines[2].startswith(
        "WOKURETI_STATIC=1 "
    ):
        yield f"the guide has other commands: {lines}"
    has_archive = LIBRARY.with_name("libwokureti.a").is_file()
    if not has_archive:
        print(
            "skipped: a program of another crate with the library in it: bin/libwokureti.a is not built: ./build.py"
            " --library makes it"
        )
    for place, line in enumerate(lines if has_archive else lines[:2]):
        target = folder / f"target-{place}"
        here = {
            **room,
            "CARGO_TARGET_DIR": str(target),
            "CARGO_NET_OFFLINE": "true",
            **({"WOKURETI_LIB": str(LIBRARY.parent)} if "STATIC" in line else {}),
        }
        here.pop("LD_LIBRARY_PATH", None)
        plain = {name: value for name, value in here.items() if not name.startswith("WOKURETI")}
        if line.endswith("cargo run"):
            words, env = ["cargo", "run", "--quiet", "--manifest-path", str(crate / "Cargo.toml")], here
        else:
            status, said = guides.run(line + " --quiet", crate, here, LIMIT)
            words, env = [str(target / "debug/editor")], plain
            if status or said:
                yield f"{line}: {said[-3000:]}"
                continue
        why = started(folder, words, env)
        if why:
            yield f"{line}: {why}"


def main():
    if shutil.which("cargo") is None:
        print("skipped: cargo is not there")
        return 0
    if not LIBRARY.is_file():
        print("skipped: the library is not built: ./build.py --library makes it")
        return 0
    with tempfile.TemporaryDirectory() as folder:
        # The linker looks for libwokureti.so, and the program for the name of the library's own.
        for name in ("libwokureti.so", "libwokureti.so.0"):
            shutil.copyfile(LIBRARY, pathlib.Path(folder, name))
        room = {**os.environ, "WOKURETI_LIB": folder, "CARGO_TARGET_DIR": f"{folder}/target"}
        room.pop("LD_LIBRARY_PATH", None)
        wrong = [*checked(room), *of_guide(pathlib.Path(folder), room)]
    print(*wrong, sep="\n", end="\n" if wrong else "")
    return 1 if wrong else 0


if __name__ == "__main__":
    sys.exit(main())
