#!/usr/bin/env python3
"""Compares programs for other systems with those of this one: exit status, standard output and standard error, and each
file that is written.

    tests/install/targets.py [--lists N] [--damaged N] [--seed S] [NAME | NAME=COMMAND ..]

NAME is one of arm, windows and wasm: the programs below bin/, under an emulator or in Node. COMMAND starts the programs
of any other target, with {} for vp8serve or vp8list: 'windows=wine64 bin/windows/{}.exe'. Without a name it takes each
target whose programs and emulator are here, and names those that it skips.
"""

import argparse
import collections
import concurrent.futures
import os
import pathlib
import random
import shlex
import shutil
import subprocess
import sys
import tempfile
from dataclasses import dataclass

sys.path.insert(1, str(pathlib.Path(__file__).resolve().parents[2] / "compare"))
import results  # noqa: E402
from library.damage import damage  # noqa: E402
from library.ivf import packets_of, records, RECORD  # noqa: E402
from library.programs import CLIPS, TOP, VP8LIST, VP8SERVE  # noqa: E402
from library.request_lists import questions, requests  # noqa: E402

KNOWN = {
    "arm": f"qemu-aarch64 {TOP}/bin/arm/{{}}",
    "windows": f"wine64 {TOP}/bin/windows/{{}}.exe",
    "wasm": f"node --no-warnings {TOP}/tests/run_wasi.mjs {TOP}/bin/wasi/{{}}.wasm",
}
STREAMS = TOP / "conformance/streams"
NATIVE = {"vp8serve": [str(VP8SERVE.resolve())], "vp8list": [str(VP8LIST.resolve())]}
SECONDS, MOST_FRAMES = 600, 60
# Clips of the random lists have fewer bytes.
MOST_BYTES = 40_000
LISTS = ([], ["--json"], ["--hash"], ["--check"], ["--check", "--json"], ["--macroblocks", "0"], ["--header", "0"])
EDITS = """count
stats
hold 1
delete 0
blank 0 64 48
frame 0
list 0 5
check 0 9
origins 0 9
header 0
script trim 0 0 5; fade 1 0 3 256 0
frame 2
script
script -
packet 0
frame 99999
nonsense
move 1 0
hide 2
show 2
frame 3
stats
"""


@dataclass
class Case:
    """A run: the program and its arguments, standard input, the files that are there before, and those that it
    writes.
    """

    program: str
    words: list
    lines: str = ""
    inputs: dict = None
    outputs: tuple = ()


def run(command, case):
    """Everything that can be seen of a run, in a folder of its own."""
    with tempfile.TemporaryDirectory() as name:
        folder = pathlib.Path(name)
        for file, data in case.inputs.items():
            (folder / file).write_bytes(data)
        environment = {**os.environ, "WINEDEBUG": "-all", "PWD": name}
        try:
            words, options = [*command[case.program], *case.words], {
                "capture_output": True,
                "timeout": SECONDS,
                "cwd": folder,
                "env": environment,
            }
            done = subprocess.run(words, input=case.lines.encode(), **options, check=False)
        except subprocess.TimeoutExpired:
            return {"status": f"later than {SECONDS} s"}
        left = {path.name: path.read_bytes() for path in folder.iterdir() if path.name not in case.inputs}
        return {"status": done.returncode, "output": done.stdout, "errors": done.stderr} | left


def of_stream(data):
    """The runs over one stream: frames in order and back, edits, questions, a save and an export, as a batch and live;
    each kind of list.
    """
    count = min(MOST_FRAMES, sum(1 for _ in packets_of(data)))
    forth = "".join(f"frame {number}\n" for number in range(count))
    back = "".join(f"frame {number}\n" for number in range(count - 1, -1, -3))
    inputs = {"a.ivf": data}
    yield Case(
        "vp8serve",
        ["a.ivf", "-", "out.y4m", "--save", "saved.ivf", "--explain"],
        forth + back + EDITS,
        inputs,
        ("out.y4m", "saved.ivf"),
    )
    yield Case(
        "vp8serve",
        ["a.ivf", "-", "out.y4m", "--live", "--export", "exported.ivf", "--cache", "3"],
        back + "hold 2\n" + forth,
        inputs,
        ("out.y4m",),
    )
    for words in LISTS:
        yield Case("vp8list", ["a.ivf", *words], "", inputs)


def of_lists(count, seed):
    """Random lists of requests over one to three small clips, with random options."""
    chance = random.Random(seed)
    small = [path.read_bytes() for path in sorted(CLIPS.glob("*.ivf")) if path.stat().st_size < MOST_BYTES]
    for _ in range(count):
        clips = chance.sample(small, chance.choice((1, 1, 2, 3)))
        inputs = dict(zip(("a.ivf", "b.ivf", "c.ivf"), clips))
        words = [
            "a.ivf",
            "-",
            "out.y4m",
            "--cache",
            str(chance.choice((1, 2, 32))),
            *(["--sources", ":".join(list(inputs)[1:])] if len(clips) > 1 else []),
        ]
        words += [
            word for word in ("--pad", "--restamp", "--live", "--explain", "--fail-refused") if chance.random() < 0.4
        ]
        words += chance.choice(([], ["--save", "saved.ivf"], ["--save", "a.ivf"], ["--export", "exported.ivf"]))
        yield Case(
            "vp8serve", words, requests(chance, len(clips), 30, True) + questions(chance, 30), inputs, ("out.y4m",)
        )


def of_damaged(count, seed):
    """Streams with one to three faults: all frames and the packets saved again; hashes and findings."""
    chance = random.Random(seed)
    clips = [path.read_bytes() for path in sorted(CLIPS.glob("*.ivf")) if path.stat().st_size < MOST_BYTES]
    for _ in range(count):
        clip = chance.choice(clips)
        packets = damage([packet for _, packet in records(clip)], chance)
        body = b"".join(RECORD.pack(len(packet), stamp) + packet for stamp, packet in enumerate(packets))
        inputs = {"a.ivf": clip[:32] + body[: len(body) - chance.choice((0, 0, 0, 1, 20))]}
        lines = "".join(f"frame {number}\n" for number in range(len(packets)))
        yield Case(
            "vp8serve", ["a.ivf", "-", "out.y4m", "--explain", "--save", "saved.ivf"], lines, inputs, ("saved.ivf",)
        )
        yield Case("vp8list", ["a.ivf", "--hash"], "", inputs)
        yield Case("vp8list", ["a.ivf", "--check"], "", inputs)


def cases(given):
    """Each run, with what it is over."""
    for kind, paths in (("clips", sorted(CLIPS.glob("*.ivf"))), ("streams", sorted(STREAMS.rglob("*.ivf")))):
        for path in paths:
            yield kind, path.name, list(of_stream(path.read_bytes()))
    for number, case in enumerate(of_lists(given.lists, given.seed)):
        yield "lists", f"list {number}", [case]
    damaged = list(of_damaged(given.damaged, given.seed))
    for number in range(given.damaged):
        yield "damaged streams", f"damaged stream {number}", damaged[3 * number : 3 * number + 3]


def differences(commands, name, ran):
    """What differs in these runs between this system and each of the others, and the number of runs."""
    found, count = [], 0
    for case in ran:
        wanted = run(NATIVE, case)
        missing = [file for file in case.outputs if wanted["status"] == 0 and file not in wanted]
        found += [f"{name} {case.words}: here no {file} is written" for file in missing]
        for target, command in commands.items():
            got, count = run(command, case), count + 1
            for part in sorted({*wanted, *got}):
                if wanted.get(part) != got.get(part):
                    found.append(
                        f"{name} {case.program} {' '.join(case.words)}: {part} of {target}: {got.get(part)!r:.200}, not"
                        f" {wanted.get(part)!r:.200}"
                    )
    return found, count


def commands_of(names):
    """What starts the programs of each target; and why others are skipped."""
    found, skipped = {}, []
    for name in names or KNOWN:
        target, _, text = name.partition("=")
        text = text or KNOWN.get(target)
        if text is None:
            sys.exit(
                f"targets.py: {target} is not one of {', '.join(KNOWN)}: give its command, as {target}='COMMAND {{}}'"
            )
        command = {program: shlex.split(text.replace("{}", program)) for program in NATIVE}
        files = [
            word
            for words in command.values()
            for word in words
            if any(program in os.path.basename(word) for program in NATIVE)
        ]
        missing = [word for word in files if not os.path.isfile(word)] + [
            words[0] for words in command.values() if shutil.which(words[0]) is None
        ]
        if missing:
            skipped.append(f"{target}: there is no {missing[0]}")
        else:
            found[target] = {
                program: [os.path.abspath(word) if word in files else word for word in words]
                for program, words in command.items()
            }
    return found, skipped


def main():
    parser = argparse.ArgumentParser(description=__doc__.split("\n\n")[0])
    for name, default in (("lists", 1000), ("damaged", 200), ("seed", 1)):
        parser.add_argument(f"--{name}", type=int, default=default)
    parser.add_argument("names", nargs="*", metavar="NAME")
    given = parser.parse_args()
    commands, skipped = commands_of(given.names)
    print(*(f"skipped: {line}" for line in skipped), sep="\n", end="\n" if skipped else "")
    if not commands or (given.names and skipped):
        sys.exit("targets.py: nothing is compared")
    wrong, runs, told = [], 0, collections.Counter()
    with concurrent.futures.ThreadPoolExecutor(len(os.sched_getaffinity(0))) as pool:
        going = {pool.submit(differences, commands, name, ran): kind for kind, name, ran in cases(given)}
        for done in concurrent.futures.as_completed(going):
            found, count = done.result()
            wrong, runs = wrong + found, runs + count
            told[going[done]] += 1
            print("".join(f"{line}\n" for line in found), end="", flush=True)
    results.total(f"{runs} runs of {', '.join(commands)}, {len(wrong)} differences", len(wrong), told)
    return 1 if wrong else 0


if __name__ == "__main__":
    sys.exit(main())
