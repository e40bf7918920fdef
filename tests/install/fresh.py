#!/usr/bin/env python3
"""Runs ./serve.sh and ./test.sh on a clean clone, on a machine that has Python and nothing else: fresh.py [FOLDER]

With debootstrap, and as root, the machine is a Debian of its own in FOLDER (made there if it is missing): a `chroot`
without a network, with the packages of debootstrap's smallest variant and python3. Else it is this machine with a PATH
of python3 and the commands of coreutils, sed and grep. The first command must give the frame that vpxdec gives in under
two seconds, the second must pass. It prints what it measured.
"""

import hashlib
import os
import pathlib
import shutil
import subprocess
import sys
import tempfile
import time

TOP = pathlib.Path(__file__).resolve().parents[2]
sys.path.insert(1, str(TOP / "compare"))
import results  # noqa: E402

# The MD5 of vpxdec's frame 0 of the example: vpxdec --i420 --limit=1 --md5 examples/mandelbrot.ivf
FRAME = "37d20bd18336c72aa8d9f7e695c8433c"
COMMANDS = (
    "sh",
    "env",
    "python3",
    "dirname",
    "basename",
    "readlink",
    "uname",
    "cat",
    "sed",
    "grep",
    "sleep",
    "true",
    "false",
    "seq",
    "printf",
    "head",
    "wc",
    "tee",
    "rm",
    "mkdir",
    "kill",
    "ps",
)
FIRST = ["./serve.sh", "examples/mandelbrot.ivf", "examples/frame-0.txt", "frame.y4m"]
MOUNT = (
    "ip link set lo up && mount -t proc proc {0}/proc && mount --rbind /dev {0}/dev && mount -t tmpfs tmpfs {0}/tmp &&"
    " exec chroot {0} /usr/bin/env -i PATH=/usr/bin:/bin HOME=/root sh -c"
)


def clone(to):
    shutil.rmtree(to, ignore_errors=True)
    subprocess.run(["git", "clone", "-q", TOP, to], check=True)


def debian(root):
    """A Debian in a folder; None without debootstrap."""
    if os.geteuid() != 0 or shutil.which("debootstrap") is None:
        return None
    if not (root / "usr/bin/python3").exists():
        subprocess.run(
            ["debootstrap", "--variant=minbase", "--include=python3", "bookworm", root],
            check=True,
            stdout=subprocess.DEVNULL,
        )
    return root


def command_in(root, words):
    """A command that runs in the clone of the Debian in this folder."""
    line = "cd /wokureti && " + " ".join(words)
    return ["unshare", "--mount", "--pid", "--fork", "--net", "sh", "-c", f"{MOUNT.format(root)} '{line}'"]


def bare(folder):
    """A PATH of a few commands."""
    (folder / "bin").mkdir()
    for name in COMMANDS:
        found = shutil.which(name)
        if found:
            (folder / "bin" / name).symlink_to(pathlib.Path(found).resolve() if name == "python3" else found)
    return {"PATH": str(folder / "bin"), "HOME": str(folder)}


def run(words, **options):
    start = time.monotonic()
    ran = subprocess.run(
        words,
        stdin=subprocess.DEVNULL,
        stdout=subprocess.PIPE,
        stderr=subprocess.STDOUT,
        text=True,
        timeout=1800,
        **options,
    )
    return ran.returncode, ran.stdout, time.monotonic() - start


def samples(path):
    """The MD5 of the samples of a YUV4MPEG2 file with one frame."""
    return hashlib.md5(path.read_bytes().split(b"FRAME\n", 1)[1]).hexdigest() if path.is_file() else "no file"


def main():
    with tempfile.TemporaryDirectory() as folder:
        folder = pathlib.Path(folder)
        root = debian(pathlib.Path(sys.argv[1]).resolve() if len(sys.argv) > 1 else folder / "debian")
        top = (root or folder) / "wokureti"
        clone(top)
        environment = bare(folder) if root is None else None
        wrong, times = [], []
        for words, most in ((FIRST, 2), (["./test.sh"], 600)):
            status, text, seconds = run(
                command_in(root, words) if root else words, **({} if root else {"cwd": top, "env": environment})
            )
            print(text, end="")
            times.append(seconds)
            print(f"{' '.join(words)}: {seconds:.1f} s, status {status}", flush=True)
            wrong += [f"{words[0]}: status {status}"] * (status != 0) + [f"{words[0]}: {seconds:.1f} s, not {most}"] * (
                seconds > most
            )
        if samples(top / "frame.y4m") != FRAME:
            wrong.append(f"frame.y4m: {samples(top / 'frame.y4m')}, not {FRAME}")
    print(*wrong, sep="\n", end="\n" if wrong else "")
    where = "a Debian with python3 only" if root else "a PATH with python3 only"
    results.total(
        (
            f"on {where}: the frame after {times[0]:.1f} s; {text.strip().rpartition(chr(10))[2]}, {times[1]:.0f} s on"
            f" {len(os.sched_getaffinity(0))} processors"
        ),
        wrong,
        version=results.sources(),
    )
    return 1 if wrong else 0


if __name__ == "__main__":
    sys.exit(main())
