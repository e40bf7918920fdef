#!/usr/bin/env python3
"""Processor time of the gate, by part.

    parts.py run FILE NAME COMMAND ..    runs a command, and adds what its processes took to FILE, in seconds: each of
                                         PARTS that rt starts, and the rest as NAME
    parts.py last FILE NAME COMMAND ..   the same; before the last line of the command it prints the minutes of each
                                         part and of all, and it ends with 1 if a run from nothing took more than
                                         docs/design/proofs.md allows and GATE_QUIET=1 says that nothing else ran on the
                                         machine

Next to other work, also that of another virtual machine, the same check takes up to twice the processor time: so
without GATE_QUIET the limit is only reported. rt does not say how long a check takes. So twice a second the processes
below it are read from /proc, with what they had of the processor by then: the last half second of each is counted as
the rest. All together is exact.
"""

import json
import os
import pathlib
import re
import resource
import subprocess
import sys
import threading

PROOFS = pathlib.Path(__file__).resolve().parent.parent / "docs/design/proofs.md"
PARTS = ("proofs", "wrong bodies", "tests", "programs for x86-64-v2")
LIMIT = re.compile(r'fails above (\d+) minutes\s+of\s+processor\s+time\s+on\s+(\d+)\s+processors\s+"([^"]+)"')
ANEW = "every proof and must-fail edit was done in this run"
TICKS = os.sysconf("SC_CLK_TCK")


def processes():
    """Of each process its parent, when it began, and the seconds that it and its children that have ended took."""
    found = {}
    for name in filter(str.isdigit, os.listdir("/proc")):
        try:
            fields = (
                pathlib.Path("/proc", name, "stat")
                .read_text(encoding="utf-8", errors="replace")
                .rpartition(")")[2]
                .split()
            )
        except OSError:
            continue
        found[int(name)] = int(fields[1]), fields[19], sum(map(int, fields[11:15])) / TICKS
    return found


def part_of(pid):
    """The part of the gate that a process below rt belongs to; None if it is another one."""
    try:
        words = pathlib.Path("/proc", str(pid), "cmdline").read_bytes().decode(errors="replace").split("\0")
        folder = os.path.basename(os.readlink(f"/proc/{pid}/cwd"))
    except OSError:
        return None
    if not any(os.path.basename(word) == "rattle" for word in words):
        return None
    if folder.startswith("rt-edit-"):
        return "wrong bodies"
    return "tests" if "--test" in words else "programs for x86-64-v2" if "--crate-checked" in words else "proofs"


class Sampler:
    """What the processes below `root` took, by part."""

    def __init__(self, root):
        self.root, self.taken = root, {}

    def look(self):
        found = processes()
        below = {}
        for pid, (parent, *_) in found.items():
            below.setdefault(parent, []).append(pid)

        def whole(pid):
            return found[pid][2] + sum(map(whole, below.get(pid, ())))

        # A child of rt has one part, and what it starts has the same.
        for pid in below.get(self.root, ()):
            part = part_of(pid)
            if part:
                self.taken[pid, found[pid][1]] = part, whole(pid)

    def sums(self):
        return {name: sum(seconds for part, seconds in self.taken.values() if part == name) for name in PARTS}


def run(file, name, words, holds=False):
    """Runs a command, passes its output on, and adds the parts to the file. Returns its exit status, and its last line
    if `holds`, which is not passed on then.
    """
    with subprocess.Popen(words, stdout=subprocess.PIPE) as child:
        sampler, ended = Sampler(child.pid), threading.Event()

        def watch():
            while not ended.wait(0.5):
                sampler.look()

        watching = threading.Thread(target=watch)
        watching.start()
        is_anew, held = False, b""
        for line in child.stdout:
            is_anew = is_anew or ANEW.encode() in line
            line, held = (held, line) if holds else (line, held)
            sys.stdout.buffer.write(line)
            sys.stdout.buffer.flush()
        status = child.wait()
        ended.set()
        watching.join()
    used = resource.getrusage(resource.RUSAGE_CHILDREN)
    sums = {part: seconds for part, seconds in sampler.sums().items() if seconds}
    sums[name] = used.ru_utime + used.ru_stime - sum(sums.values())
    with open(file, "a", encoding="utf-8") as log:
        log.write(json.dumps({"parts": sums, "anew": is_anew}) + "\n")
    return status if status >= 0 else 128 - status, held.decode(errors="replace")


def machine():
    """The number of processors, and the model of the first one."""
    text = pathlib.Path("/proc/cpuinfo").read_text(encoding="utf-8", errors="replace")
    model = re.search(r"^model name\s*:\s*(.*)$", text, re.M)
    return len(os.sched_getaffinity(0)), model.group(1).strip() if model else ""


def tell(file, proofs=PROOFS, here=None):
    """Prints the parts. Returns 1 if they are those of a run from nothing that took too long."""
    runs = [json.loads(line) for line in pathlib.Path(file).read_text(encoding="utf-8").splitlines()]
    for name, seconds in [pair for one in runs for pair in one["parts"].items()]:
        print(f"gate: {name}: {seconds / 60:.1f} min")
    minutes = sum(sum(one["parts"].values()) for one in runs) / 60
    print(f"gate: in all: {minutes:.1f} min of processor time", flush=True)
    most, count, model = LIMIT.search(pathlib.Path(proofs).read_text(encoding="utf-8")).groups()
    if any(one["anew"] for one in runs) and (here or machine()) == (int(count), model) and minutes > int(most):
        is_quiet = os.environ.get("GATE_QUIET") == "1"
        print(
            (
                f"gate: {'FAILED: ' if is_quiet else ''}a run from nothing took more than {most} minutes of processor"
                " time on this machine"
            ),
            flush=True,
        )
        return int(is_quiet)
    return 0


def main(verb, file, name, *words):
    status, held = run(file, name, words, holds=verb == "last")
    is_slow = verb == "last" and tell(file)
    print(held, end="")
    if is_slow:
        print("0 passed, 1 failed: the processor time, as told above")
    return status or is_slow


if __name__ == "__main__":
    sys.exit(main(*sys.argv[1:]))
