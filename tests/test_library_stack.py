#!/usr/bin/env python3
"""Tests that each call of the library has enough with WK_STACK bytes of stack: tests/library_stack.c makes all of
them on a stack of that size, over every clip and one of 1920x1080, and measures each. With half of it, it must fail.

The library, the compiler and the emulator are those of tests/test_library.py. It prints what is wrong and ends with 1,
or prints nothing and ends with 0; a line `skipped: ..` names what could not be run.
"""

import pathlib
import random
import re
import shutil
import signal
import subprocess
import sys
import tempfile

sys.dont_write_bytecode = True
from test_library import CC, CLIPS, EMULATOR, LIBRARY, LIMIT, TOP  # noqa: E402

HEADER = TOP / "clients/c/include/wokureti.h"
WEBM = tuple(TOP / f"crates/gate_webm/data/{name}.webm" for name in ("plain", "groups", "live", "damaged"))
# Under an emulator, which takes seconds for each.
FEW = ("odd-size", "hidden-altref", "size-before-a-change")
CALL = re.compile(r"(\d+) (wk_\S+( \S*)?)")


def stated():
    """The bytes of stack that the header promises, and the most that it says a call takes."""
    text = HEADER.read_text(encoding="utf-8")
    size = re.search(r"#define WK_STACK \((\d+) \* 1024\)", text)
    most = re.search(r"takes the most, (\d+) KB", text)
    return int(size[1]) * 1024, int(most[1]) * 1024


def compiled(folder):
    made = folder / "library_stack"
    options = ["-std=c11", "-D_GNU_SOURCE", "-O1", "-Wall", "-Wextra", "-Werror", "-I", HEADER.parent]
    words = [CC, *options, TOP / "tests/library_stack.c", LIBRARY, "-o", made, f"-Wl,-rpath,{LIBRARY.parent}"]
    subprocess.run(list(map(str, words)), check=True, timeout=LIMIT)
    return made


def large(folder):
    """A clip of 1920x1080 with eight token partitions."""
    if shutil.which("vpxenc") is None:
        print("skipped: a clip of 1920x1080: vpxenc is not there")
        return []
    drawn, coded, chance = folder / "large.y4m", folder / "large.ivf", random.Random(93)
    noise = chance.getrandbits(8 * 1920 * 1620).to_bytes(1920 * 1620, "little")
    with open(drawn, "wb") as file:
        file.write(b"YUV4MPEG2 W1920 H1080 F30:1 Ip C420jpeg\n")
        for number in range(4):
            file.write(b"FRAME\n" + noise[1920 * number :] + noise[: 1920 * number])
    options = ["--codec=vp8", "--ivf", "--rt", "--cpu-used=8", "--token-parts=3", "--target-bitrate=9000", "--quiet"]
    subprocess.run(["vpxenc", *options, "-o", coded, drawn], check=True, capture_output=True, timeout=LIMIT)
    return [coded]


def ran(made, size, clip):
    return subprocess.run(
        [*EMULATOR, made, str(size), clip], capture_output=True, text=True, timeout=LIMIT, check=False
    )


def differences(folder):
    size, most = stated()
    made, taken = compiled(folder), {}
    clips = (
        [CLIPS / f"{name}.ivf" for name in FEW] if EMULATOR else [*sorted(CLIPS.glob("*.ivf")), *WEBM, *large(folder)]
    )
    for clip in clips:
        done = ran(made, size, clip)
        if done.returncode:
            yield f"{clip.name}: status {done.returncode} on a stack of {size} bytes: {done.stdout[-100:]!r}"
        for count, call, _ in CALL.findall(done.stdout):
            taken[call] = max(int(count), taken.get(call, 0))
    missing = {*re.findall(r"^(?:uint32_t|void) (wk_\w+)\(wk_handle", HEADER.read_text(), re.M)} - {
        call.split()[0] for call in taken
    }
    if missing:
        yield f"not called: {', '.join(sorted(missing))}"
    yield from (
        f"{call} takes {count} bytes, and the header says {most}" for call, count in taken.items() if count > most
    )
    done = ran(made, size // 2, CLIPS / "odd-size.ivf")
    if done.returncode not in (-signal.SIGSEGV, 128 + signal.SIGSEGV):
        yield f"half of the stack is enough, or is not guarded: status {done.returncode}"


def main():
    if shutil.which(CC) is None or not LIBRARY.is_file():
        print(f"skipped: {CC} is not there" if LIBRARY.is_file() else "skipped: ./build.py --library makes the library")
        return 0
    with tempfile.TemporaryDirectory() as name:
        wrong = list(differences(pathlib.Path(name)))
    print("".join(line + "\n" for line in wrong), end="")
    return 1 if wrong else 0


if __name__ == "__main__":
    sys.exit(main())
