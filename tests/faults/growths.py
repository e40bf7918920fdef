#!/usr/bin/env python3
"""Refuses each request for memory of gate_memory in turn, and counts the requests of its frames. The gate runs it.

    tests/faults/growths.py [--quiet] [PROGRAM]

It shows what no contract can say. Each call that was refused memory is made again, and then the program must print its
usual text. Over a key packet and three others, P, P, P:

- frame 3 makes the requests of these four steps, one for each state that is cached and no more, so no step is made
beside those
  that `stats` counts;
- frame 3 again makes none, so a script without steps copies no picture;
- after a replacement of packet 1 frame 3 makes fewer than three steps do, so decoding stops where the states converge.

Of vp8list it counts the requests for the macroblocks of key frames of 1, 2, 4 and 8 token partitions that are alike
else: as many more for each further one, so room for all of them is reserved at once.

It ends with status 0 if all this holds; with --quiet it prints what is wrong only. It takes the program that `rt ci`
built; it needs Linux on x86-64.
"""

import os
import pathlib
import sys
import tempfile
from dataclasses import dataclass

TOP = pathlib.Path(__file__).resolve().parents[2]
sys.dont_write_bytecode = True
sys.path.insert(1, str(TOP / "compare"))
import results  # noqa: E402
from library.conformance import generator  # noqa: E402
from library.ivf import ivf  # noqa: E402
from library.traced import Program, program_of, traced  # noqa: E402

GROWTHS = TOP / "crates/gate_memory"


@dataclass
class Ran:
    """The result of a run: its exit status, what it wrote, and the number of its requests for memory."""

    status: int
    output: bytes
    errors: str
    requests: int


def run(program, refuses, changes=None, words=()):
    """Runs the program with these arguments, without input."""
    with open(os.devnull, "rb") as nothing, tempfile.TemporaryFile() as output, tempfile.TemporaryFile() as errors:
        files = {0: nothing.fileno(), 1: output.fileno(), 2: errors.fileno()}
        ended = traced(program, words, files, refuses, changes)
        output.seek(0)
        errors.seek(0)
        return Ran(ended.status, output.read(), errors.read().decode(errors="replace"), ended.requests)


def requests_of_lines(program):
    """A run with ample memory, and the number of requests for memory that come before each of its lines and after the
    line before.
    """
    writes = []

    def note(call):
        if call.descriptor == 1:
            writes.append((call.requests, call.length))

    ran = run(program, lambda n: False, note)
    made, place, last = {}, 0, 0
    for requests, length in writes:
        if place == 0 or ran.output[place - 1 : place] == b"\n":
            line = ran.output[place:].partition(b"\n")[0].decode()
            made[line.partition(":")[0]] = requests - last
            last = requests
        place += length
    return ran, made


COUNTED = ("frame 3", "frame 3 again", "frame 3 after that", "the key packet", "three steps from its state")


def count_faults(made):
    """What is wrong with the numbers of requests."""
    first, again, after, key, steps = map(made.__getitem__, COUNTED)
    if first > key + steps + 4:
        yield (
            f"frame 3 makes {first} requests for memory, its four steps {key} and {steps}, its four cached states one"
            " each"
        )
    if again != 0:
        yield f"frame 3 again makes {again} requests for memory"
    if after >= steps:
        yield f"frame 3 makes {after} requests for memory after packet 1 is replaced, three steps {steps}"


def refusal_faults(program, whole, requests):
    """What is wrong with the runs in which one request is refused."""
    for first in range(1, requests + 1):
        ran = run(program, lambda n, first=first: n == first)
        if (ran.status, ran.output, ran.errors) != (0, whole, ""):
            yield (
                f"request {first} is refused: status {ran.status}, {len(ran.output)} bytes, standard error"
                f" {ran.errors!r}"
            )


def alike(count):
    """A key frame of 32x32 samples without tokens, and with so many token partitions."""
    stream = generator.Stream(generator.Chooser(1))
    stream.chooser.rare = 0
    fixed = {
        name: 0
        for name in (
            "color_space",
            "clamping_type",
            "segmentation_enabled",
            "filter_type",
            "loop_filter_level",
            "sharpness_level",
            "loop_filter_adj_enable",
        )
    }
    fixed |= {
        "y_ac_qi": 0,
        "refresh_entropy_probs": 1,
        "mb_no_coeff_skip": 1,
        "prob_skip_false": 1,
        "mb_skip_coeff": 1,
        "key intra_y_mode": 0,
        "key intra_uv_mode": 0,
    }
    fixed |= {f"{name}_delta": lambda chooser: None for name in ("y_dc", "y2_dc", "y2_ac", "uv_dc", "uv_ac")}
    stream.frame((32, 32), log2_nbr_of_dct_partitions=count.bit_length() - 1, **fixed)
    return stream.packets[0]


def list_faults(program):
    """What is wrong with the numbers of requests of vp8list."""
    with tempfile.TemporaryDirectory() as room:
        path = pathlib.Path(room, "in.ivf")
        path.write_bytes(ivf(32, 32, [alike(count) for count in (1, 1, 2, 4, 8)]))
        one, two, four, eight = (
            run(program, lambda n: False, words=[path, "--macroblocks", packet]).requests for packet in (1, 2, 3, 4)
        )
    if not eight - four == 2 * (four - two) == 4 * (two - one):
        yield f"key frames of 1, 2, 4 and 8 token partitions take {one}, {two}, {four} and {eight} requests for memory"


def all_faults(program):
    """What is wrong, and the numbers of requests and of runs."""
    whole = (GROWTHS / "stdout").read_bytes()
    ample, made = requests_of_lines(program)
    found = [] if (ample.status, ample.output, ample.errors) == (0, whole, "") else ["another text with ample memory"]
    return [*found, *count_faults(made), *refusal_faults(program, whole, ample.requests)], made, ample.requests


def main():
    named = [word for word in sys.argv[1:] if word != "--quiet"]
    program = Program(named[0] if named else str(GROWTHS / "out/gate_memory"))
    found, made, requests = all_faults(program)
    found = [f"gate_memory: {fault}" for fault in found] + [
        f"vp8list: {fault}" for fault in list_faults(program_of("vp8list"))
    ]
    for fault in found:
        print(fault)
    results.total(
        f"{requests} requests for memory, each refused: {len(found)} differences",
        found,
        {f"for {name}": made.get(name, 0) for name in COUNTED},
    )
    return 1 if found else 0


if __name__ == "__main__":
    sys.exit(main())
