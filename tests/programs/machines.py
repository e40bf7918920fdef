#!/usr/bin/env python3
"""Decodes a clip on two machines, which are two sshd of this script on ports of the loopback address, and compares the
bytes with those of one vp8serve; then again, and one sshd is killed in the middle with all that it started.

    tests/programs/machines.py [CLIP]

It needs Debian's openssh-server, openssh-client, parallel and rsync, and the built programs. tests/README.md says more.
"""

import hashlib
import os
import pathlib
import shutil
import signal
import socket
import subprocess
import sys
import tempfile
import time

TOP = pathlib.Path(__file__).resolve().parents[2]
sys.path.insert(0, str(TOP / "clients/python"))
sys.path.insert(1, str(TOP / "compare"))
import results  # noqa: E402
from wokureti import Session  # noqa: E402
from wokureti.base import programs  # noqa: E402
from wokureti.media import ivf  # noqa: E402

NAMES = ("one", "two")


def free_port():
    with socket.socket() as found:
        found.bind(("127.0.0.1", 0))
        return found.getsockname()[1]


class Machine:
    """An sshd of our own, with keys of its own."""

    def __init__(self, room, name):
        self.room, self.name, self.port = room / name, name, free_port()
        self.room.mkdir()
        keygen(self.room / "host")
        # Which parts ran here, and a pause before each, so that the kill comes in the middle.
        self.program, self.ran = self.room / "vp8serve", self.room / "ran"
        settings = {
            "Port": self.port,
            "ListenAddress": "127.0.0.1",
            "HostKey": self.room / "host",
            "AuthorizedKeysFile": room / "key.pub",
            "PidFile": self.room / "pid",
            "StrictModes": "no",
            "UsePAM": "no",
            "PasswordAuthentication": "no",
            "SetEnv": f"MACHINE={name} PATH={self.room}:{os.environ['PATH']}",
        }
        (self.room / "config").write_text("".join(f"{key} {value}\n" for key, value in settings.items()))
        self.program.write_text(
            f'#!/bin/sh\necho "$2" >> {self.ran}\nsleep 0.2\nexec "{programs.find("vp8serve")}" "$@"\n'
        )
        self.program.chmod(0o755)

    def start(self):
        self.ran.write_text("")
        sshd = shutil.which("sshd") or "/usr/sbin/sshd"
        if os.geteuid() == 0:
            os.makedirs("/run/sshd", exist_ok=True)
        log = open(self.room / "log", "ab")
        self.process = subprocess.Popen(
            [sshd, "-D", "-e", "-f", str(self.room / "config")], stdin=subprocess.DEVNULL, stderr=log, stdout=log
        )
        log.close()
        limit = time.monotonic() + 5
        while time.monotonic() < limit:
            with socket.socket() as found:
                if found.connect_ex(("127.0.0.1", self.port)) == 0:
                    return
            time.sleep(0.05)
        raise SystemExit(f"sshd did not start: {(self.room / 'log').read_text()}")

    def kill(self):
        """Kills the sshd and all processes that it started, as if the machine lost its power."""
        for pid in [*descendants(self.process.pid), self.process.pid]:
            try:
                os.kill(pid, signal.SIGKILL)
            except ProcessLookupError:
                pass
        self.process.wait()

    def count(self):
        return len(self.ran.read_text().split())


def descendants(pid):
    """The processes below a process, the deepest ones first."""
    found = []
    for entry in os.listdir("/proc"):
        if entry.isdigit():
            try:
                with open(f"/proc/{entry}/stat") as file:
                    parent = int(file.read().rsplit(")", 1)[1].split()[1])
            except OSError:
                continue
            if parent == pid:
                found += [*descendants(int(entry)), int(entry)]
    return found


def keygen(path):
    subprocess.run(["ssh-keygen", "-q", "-t", "ed25519", "-N", "", "-f", str(path)], check=True)


def configure(room, machines):
    """The configuration of ssh with the names of the machines."""
    lines = [
        f"IdentityFile {room / 'key'}",
        "IdentitiesOnly yes",
        "BatchMode yes",
        "StrictHostKeyChecking no",
        f"UserKnownHostsFile {room / 'known'}",
    ]
    for machine in machines:
        lines += [f"Host {machine.name}", "HostName 127.0.0.1", f"Port {machine.port}"]
    path = room / "ssh"
    path.write_text("\n".join(lines) + "\n")
    return f"ssh -F {path}"


def cat(words, room, ssh):
    env = dict(
        os.environ,
        PYTHONPATH=str(TOP / "clients/python"),
        PARALLEL_SSH=ssh,
        TMPDIR=str(room / "tmp"),
        HOME=str(room / "home"),
    )
    # For `:`, this machine, too.
    env["PATH"] = f"{os.path.dirname(os.path.abspath(programs.find('vp8serve')))}:{env['PATH']}"
    return subprocess.Popen([sys.executable, "-m", "wokureti", "cat", "-y", *map(str, words)], cwd=room, env=env)


def many_keys(path):
    """A clip with forty key packets: the example, and grey frames and repeats between its copies."""
    head, packets = ivf.read_packets(TOP / "examples/mandelbrot.ivf")
    with Session(TOP / "examples/mandelbrot.ivf") as session:
        for number in range(1, 40):
            session.copy(0, 0, session.count().packets)
            for place in range(1, 1 + number % 7):
                session.copy(0, place, session.count().packets)
        session.save(path)
    return head


def expected(clip, room, *lines):
    with Session(clip) as session:
        for line in lines:
            session.request(line)
        count = session.count().frames
    text = "".join(f"{line}\n" for line in lines) + "".join(f"frame {number}\n" for number in range(count))
    out = room / "whole.y4m"
    subprocess.run(
        [programs.find("vp8serve"), clip, "-", out], input=text.encode(), check=True, stdout=subprocess.DEVNULL
    )
    return out.read_bytes()


def main():
    with tempfile.TemporaryDirectory(prefix="wokureti machines ") as folder:
        room = pathlib.Path(folder)
        plain = pathlib.Path(tempfile.mkdtemp(prefix="wokureti-machines-"))
        try:
            return run(room, plain)
        finally:
            shutil.rmtree(plain)


def run(room, plain):
    """`room` has spaces in its path and the clip; the machines' own files are in `plain`."""
    (room / "tmp").mkdir()
    (room / "home").mkdir()
    clip = room / "a clip.ivf"
    if len(sys.argv) > 1:
        shutil.copy(sys.argv[1], clip)
    else:
        many_keys(clip)
    keygen(plain / "key")
    machines = [Machine(plain, name) for name in NAMES]
    ssh = configure(plain, machines)
    wanted = expected(clip, room)
    faults = runs = 0
    for machine in machines:
        machine.start()
    try:
        for name, words, logins, kill in (
            ("two machines", [], "one,two", False),
            ("two machines and this one", [], "2/one,2/two,:", False),
            ("two machines, a script", ["--script", "fade 0 0 40 0 256"], "one,two", False),
            ("two machines, one killed in the middle", [], "2/one,2/two", True),
            ("two machines, of which one is gone", [], "one,two", False),
        ):
            runs += 1
            faults += one_run(name, [*words, "--sshlogin", logins], kill, machines, clip, room, ssh, wanted)
    finally:
        for machine in machines:
            machine.kill()
    faults += dask_recipe(room, wanted)
    left = sorted(os.listdir(room / "tmp"))
    if left:
        faults += 1
        print(f"left in the folder for files: {left}")
    results.total(f"{runs} runs, {faults} differences", faults)
    return 1 if faults else 0


def dask_recipe(room, wanted):
    """The recipe of the cookbook, which decodes a folder of clips on several workers of Dask, if that is there. How
    many hashes are wrong.
    """
    if subprocess.run([sys.executable, "-c", "import distributed"], capture_output=True, check=False).returncode != 0:
        print("Dask: python3-distributed is not there")
        return 0
    lines = (
        (TOP / "docs/guide/cookbook.md")
        .read_text(encoding="utf-8")
        .split("\n    ' > hashes.py\n")[0]
        .rsplit("\n    echo '\n", 1)[1]
        .splitlines()
    )
    (room / "hashes.py").write_text("".join(f"{line[4:]}\n" for line in lines))
    (room / "clips").mkdir()
    count = 24
    for number in range(count):
        shutil.copy(room / "a clip.ivf", room / "clips" / f"clip {number}.ivf")
    header, size = wanted.index(b"\n") + 1, None
    with Session(room / "a clip.ivf") as session:
        session.frame(0)
        size = session.frame_size
    frames = [wanted[place + 6 : place + size] for place in range(header, len(wanted), size)]
    right = hashlib.md5(b"".join(frames)).hexdigest()
    env = dict(os.environ, PYTHONPATH=str(TOP / "clients/python"), VP8SERVE=programs.find("vp8serve"))
    start = time.monotonic()
    done = subprocess.run(
        [sys.executable, "hashes.py"], cwd=room, env=env, stdout=subprocess.PIPE, text=True, timeout=300, check=False
    )
    found = [line.rsplit(" ", 1)[1] for line in done.stdout.splitlines()]
    wrong = count - found.count(right)
    print(
        f"Dask: status {done.returncode}, {len(found)} clips of {len(frames)} frames, {wrong} wrong,"
        f" {time.monotonic() - start:.1f} s"
    )
    return wrong


def one_run(name, words, kill, machines, clip, room, ssh, wanted):
    if "--script" in words:
        wanted = expected(clip, room, f"script {words[1]}")
    before = [machine.count() for machine in machines]
    out = room / "out.y4m"
    out.write_bytes(b"old")
    start = time.monotonic()
    process = cat([clip.name, out.name, *words], room, ssh)
    killed = ""
    if kill:
        while machines[0].count() < before[0] + 3 and process.poll() is None:
            time.sleep(0.02)
        machines[0].kill()
        killed = f", killed after {machines[0].count() - before[0]} parts had begun there"
    status = process.wait(300)
    ran = [machine.count() - old for machine, old in zip(machines, before)]
    same = out.read_bytes() == wanted
    print(
        f"{name}: status {status}, {'same' if same else 'OTHER'} {len(wanted)} bytes, parts begun on each machine"
        f" {ran}{killed}, {time.monotonic() - start:.1f} s"
    )
    return 0 if same and status == 0 else 1


if __name__ == "__main__":
    sys.exit(main())
