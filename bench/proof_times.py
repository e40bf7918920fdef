"""Prints the modules of a proof that took longest, in seconds.

    (cd crates/test_steps && rm -rf out/incremental && rt check --test --jobs 1)
    python3 bench/proof_times.py crates/test_steps

A check in one process writes a file for each module when it is proved: the time of a module is the time since the file
before. It reads nothing else, so a second check over the same folder mixes both. FUNCTION.Lts is the check of what a
function borrows and drops, FUNCTION.Proof that of its contract.
"""

import pathlib
import sys

if len(sys.argv) != 2:
    sys.exit("usage: python3 bench/proof_times.py crates/NAME")
kept = pathlib.Path(sys.argv[1], "out", "incremental")
written = sorted((file.stat().st_mtime, file.stem) for file in kept.rglob("*.oantt") if file.parent.name != "records")
if not written:
    sys.exit(f"{kept} has no modules: remove it, and run rt check --jobs 1 in {sys.argv[1]}")
times = sorted(((at - before, name) for (before, _), (at, name) in zip(written, written[1:])), reverse=True)
for seconds, name in times[:20]:
    print(f"{seconds:8.1f} {name}")
