"""Parts that are decoded on several machines by GNU parallel, which carries their files there and back with ssh and
rsync.
"""

from __future__ import annotations

import concurrent.futures
import contextlib
import os
import re
import shlex
import shutil
import subprocess
import tempfile
import time
from typing import IO, Iterable, Iterator, Optional, Sequence

from .. import system
from ..errors import Failed
from ..base.progress import say
from ..session.session import Session
from . import parts

# A machine that does not answer for so many seconds is given up.
ALIVE = ("-o", "BatchMode=yes", "-o", "ConnectTimeout=10", "-o", "ServerAliveInterval=5", "-o", "ServerAliveCountMax=3")
# Seconds in which a machine says whether it can decode.
MOST_ASK = 15
INSTALL = "apt-get install parallel rsync openssh-client here, and rsync openssh-server on each machine"


def check_here() -> None:
    """What is needed on this machine."""
    if system.IS_WINDOWS:
        raise Failed(
            "--sshlogin needs GNU parallel, which Windows does not have: leave it out, and this machine decodes"
        )
    missing = [name for name in ("parallel", "rsync", "ssh") if shutil.which(name) is None]
    if missing:
        raise Failed(f"{' and '.join(missing)} must be installed for --sshlogin: {INSTALL}")


def ssh_words() -> list[str]:
    """How ssh is called."""
    return shlex.split(os.environ.get("PARALLEL_SSH") or " ".join(("ssh", *ALIVE)))


def why_not(login: str, program: str) -> Optional[str]:
    """Why a machine cannot decode, as a sentence, or None. It is asked by one ssh."""
    host = host_of(login)
    if host == ":" or " " in host or host.startswith("@"):
        # This machine, or what only parallel understands.
        return None
    asked = f"command -v rsync > /dev/null || exit 3; command -v {shlex.quote(program)} > /dev/null || exit 4"
    try:
        done = subprocess.run(
            [*ssh_words(), host, asked], stdin=subprocess.DEVNULL, capture_output=True, timeout=MOST_ASK, check=False
        )
    except subprocess.TimeoutExpired:
        return f"{host} does not answer in {MOST_ASK} seconds"
    except OSError as error:
        return f"{host}: {error.strerror}"
    if done.returncode == 3:
        return f"{host} has no rsync: apt-get install rsync there"
    if done.returncode == 4:
        return f"{host} has no {program}: install it there, or give its path with --remote"
    said = done.stderr.decode(errors="replace").strip().splitlines()
    return (
        f"{host} cannot be reached: {said[-1] if said else f'ssh ended with status {done.returncode}'}"
        if done.returncode
        else None
    )


def able(logins: Sequence[str], program: str) -> list[str]:
    """The machines that can decode. The others are named; `Failed` if there is none."""
    with concurrent.futures.ThreadPoolExecutor(len(logins)) as pool:
        reasons = list(pool.map(lambda login: why_not(login, program), logins))
    for reason in filter(None, reasons):
        say(reason)
    found = [login for login, reason in zip(logins, reasons) if reason is None]
    if not found:
        raise Failed("no machine of --sshlogin can decode")
    return found


class Machines:
    """Decodes parts on machines, `logins` as parallel's --sshlogin takes them: `:` is this machine.

    A part that fails on a machine, because that machine is gone, say, is decoded on another one. Files have the names
    that they have in the folder of the parts, and lie in a folder of their own on each machine.
    """

    def __init__(
        self,
        room: parts.Room,
        plan: Sequence[parts.Part],
        logins: Sequence[str],
        program: str,
        tables: Optional[str] = None,
    ) -> None:
        self.room, self.plan, self.logins = room, plan, logins
        self.program = program
        self.log = os.path.join(room.folder, "log")
        self.base = [os.path.basename(path) for path in room.sources]
        self.tables: Optional[str] = None
        if tables is not None:
            self.tables = "tables"
            shutil.copyfile(tables, os.path.join(room.folder, self.tables))
            self.base.append(self.tables)

    def command(self) -> str:
        """The command of a part, whose number is {}. On this machine nothing was carried, so the files are in the
        folder of the parts.
        """
        folder = f"{self.room.folder}/"
        words = [word.replace(folder, "") for word in self.room.words("{}", self.program, self.tables)]
        text = " ".join(word if "{}" in word else shlex.quote(word) for word in words)
        return f"[ -e {{}}.list ] || cd {shlex.quote(self.room.folder)} && {text} > {{}}.replies"

    def words(self, log: str, logins: Sequence[str]) -> list[str]:
        """The command line of parallel, for a log and machines."""
        there = f"/tmp/{os.path.basename(self.room.folder)}-there"
        words = ["parallel", "--will-cite", "--retries", str(len(logins) + 2), "--joblog", log, "--workdir", there]
        for login in logins:
            words += ["--sshlogin", login]
        for kind in ["list"] if self.room.sources else ["ivf", "list"]:
            words += ["--transferfile", f"{{}}.{kind}"]
        for name in self.base:
            words += ["--basefile", name]
        return [*words, "--return", "{}.y4m", "--return", "{}.replies", "--cleanup", self.command()]

    def __iter__(self) -> Iterator[int]:
        """The numbers of the parts, each when its frames are here, in order."""
        for number, part in enumerate(self.plan):
            self.room.write(number, part)
        with self.running(range(len(self.plan)), self.log, self.logins) as (process, errors):
            for number in range(len(self.plan)):
                lost = self.wait(number, process, errors)
                if lost is not None:
                    self.decode_again(number, lost)
                yield number

    @contextlib.contextmanager
    def running(
        self, numbers: Iterable[int], log: str, logins: Sequence[str]
    ) -> Iterator[tuple[subprocess.Popen[bytes], IO[bytes]]]:
        """parallel with these parts on these machines, and what it complains of."""
        env = dict(
            os.environ,
            PARALLEL_SSH=os.environ.get("PARALLEL_SSH") or " ".join(("ssh", *ALIVE)),
            LC_ALL="C",
            TMPDIR=self.room.folder,
        )
        with tempfile.TemporaryFile() as errors:
            words = self.words(log, logins)
            process = subprocess.Popen(
                words, cwd=self.room.folder, stdin=subprocess.PIPE, stdout=subprocess.DEVNULL, stderr=errors, env=env
            )
            try:
                assert process.stdin is not None
                with contextlib.suppress(BrokenPipeError):
                    process.stdin.write("".join(f"{number}\n" for number in numbers).encode())
                    process.stdin.close()
                yield process, errors
            finally:
                end(process)

    def wait(
        self,
        number: int,
        process: subprocess.Popen[bytes],
        errors: IO[bytes],
        log: Optional[str] = None,
        place: Optional[int] = None,
    ) -> Optional[str]:
        """Waits until a part is here, and returns None; or the machine whose part did not come back, although
        parallel's log says that all went well.
        """
        while True:
            ended = process.poll() is not None
            status, host = self.statuses(log or self.log).get(number if place is None else place, (None, None))
            if status == 0:
                return None if self.is_here(number) else host
            if ended:
                errors.seek(0)
                said = errors.read().decode(errors="replace").strip()
                raise Failed(f"part {number} was not decoded on any machine: {said or f'status {status}'}")
            time.sleep(0.02)

    def is_here(self, number: int) -> bool:
        """Whether the files of a part came back: what parallel says of it is the status of the program there."""
        return all(os.path.exists(self.room.path(number, kind)) for kind in ("y4m", "replies"))

    def decode_again(self, number: int, host: str) -> None:
        """Decodes a part on a machine other than those that lost it, as long as there is one."""
        lost = {host}
        for turn in range(len(self.logins)):
            logins = [login for login in self.logins if host_of(login) not in lost]
            if not logins:
                break
            say(f"part {number} did not come back from {host}: it is decoded again")
            log = f"{self.log}.{number}.{turn}"
            with self.running([number], log, logins) as (process, errors):
                again = self.wait(number, process, errors, log, 0)
            if again is None:
                return
            host = again
            lost.add(host)
        raise Failed(f"part {number} did not come back from {', '.join(sorted(lost))}")

    @staticmethod
    def statuses(log: str) -> dict[int, tuple[int, str]]:
        """For each line of parallel's input the last exit status that its log has, that of the program or of ssh, and
        the machine.
        """
        found: dict[int, tuple[int, str]] = {}
        try:
            with open(log, encoding="utf-8", errors="replace") as file:
                lines = file.read().split("\n")[1:-1]
        except FileNotFoundError:
            return found
        for line in lines:
            columns = line.split("\t")
            found[int(columns[0]) - 1] = (int(columns[6]) or int(columns[7]), columns[1])
        return found


def host_of(login: str) -> str:
    """What parallel's log calls a machine: without the number of processes."""
    return login.rsplit("/", 1)[-1] if re.fullmatch(r"[0-9]+%?/.*", login) else login


def end(process: subprocess.Popen[bytes]) -> None:
    """Ends parallel, if it runs, and its jobs: it ends them at the second signal."""
    for _ in range(2):
        if process.poll() is None:
            process.terminate()
            with contextlib.suppress(subprocess.TimeoutExpired):
                process.wait(3)
    process.kill()
    process.wait()


def workers_of(session: Session, logins: Sequence[str], program: str, tables: Optional[str]) -> parts.Workers:
    """Workers on these machines."""
    check_here()
    able_ones = able(logins, program)

    def workers(room: parts.Room, count: int) -> tuple[list[parts.Part], Iterable[int]]:
        contents = session.edits.contents()
        processes = 4 * len(able_ones)
        size = room.first.size
        plan = (
            parts.by_packets(contents, processes, size)
            if contents.script == "-"
            else parts.by_frames(count, processes, size)
        )
        return plan, Machines(room, plan, able_ones, program, tables)

    return workers
