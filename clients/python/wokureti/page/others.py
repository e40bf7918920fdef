"""Pages of other streams, which a page opens: each is a command of its own, with its list of edits, and ends with this
one.
"""

from __future__ import annotations

import subprocess
import sys
import threading
from typing import Iterable

from .. import system
from ..errors import Failed

# Seconds.
MOST_START, MOST_END = 30, 10


class Others:
    """The commands that were started."""

    def __init__(self) -> None:
        self.running: list[subprocess.Popen[str]] = []
        self.lock, self.closed = threading.Lock(), False

    def open(self, path: str, sources: Iterable[str] = ()) -> str:
        """The address of the page of another stream. `Failed` with what the command says if it does not start."""
        words = [
            sys.executable,
            "-m",
            "wokureti",
            "open",
            "--no-browser",
            *(word for source in sources for word in ("--source", source)),
            "--",
            path,
        ]
        with self.lock:
            if self.closed:
                raise Failed("the server ends")
            process = subprocess.Popen(
                words,
                stdin=subprocess.DEVNULL,
                stdout=subprocess.PIPE,
                stderr=subprocess.PIPE,
                text=True,
                errors="replace",
                creationflags=system.started_apart(),
            )
            self.running.append(process)
        said: list[str] = []
        threading.Thread(target=relay, args=(process, said), daemon=True).start()
        late = threading.Timer(MOST_START, process.kill)
        late.start()
        assert process.stdout is not None
        address = process.stdout.readline().strip()
        late.cancel()
        if not address:
            process.wait()
            raise Failed(" ".join(said) or "it does not start")
        return address

    def close(self) -> None:
        """Ends them as Ctrl-C does."""
        with self.lock:
            self.closed, running = True, [process for process in self.running if process.poll() is None]
        for process in running:
            system.interrupt(process)
        for process in running:
            try:
                process.wait(MOST_END)
            except subprocess.TimeoutExpired:
                process.kill()


def relay(process: subprocess.Popen[str], said: list[str]) -> None:
    """Says what a command says."""
    assert process.stderr is not None
    for line in process.stderr:
        said.append(line.strip().removeprefix("wokureti: "))
        print(line, end="", file=sys.stderr, flush=True)
