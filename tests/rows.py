"""Runs rows: lists of requests over small streams, with the replies and frames that RFC 6386 gives.

A file of rows/ has these lines, in this order:

    # what it shows
    packets: 10 00 00 .. | 11 00 00     a stream, its packets separated by `|`; `-` is a packet of no bytes. The next
                                        such line is source 1
    cut: 3                              the last bytes of the file that are left out
    tables: 80                          the long tables have this byte throughout
    options: --cache 8                  more words of the command line
    needs: check FIRST COUNT            a text of --help: a vp8serve without it, an earlier one, is not run on the row
    > frame 0                           a request
    < served 0                          its reply
    = 16x16 64*80 192*81 128*80         the frame: its size, and the bytes of Y, U and V, each as often as is said
    ! spare 19                          a line of standard error, after all requests
    exported: 0 00 00 .. | 0 11 00 00   the packets of --export, each after its time stamp; `none` if no file is made
    status: 1                           the exit status, if it is not 0

Each is run as a batch and with --live.
"""

import pathlib
import re
import struct
import subprocess
from dataclasses import dataclass, field

ROWS = pathlib.Path(__file__).resolve().parent / "rows"
LIMIT = 30


@dataclass
class Row:
    """A row as its file has it."""

    sources: list = field(default_factory=list)
    cut: int = 0
    tables: str = ""
    needs: str = ""
    exported: str = ""
    options: list = field(default_factory=list)
    requests: list = field(default_factory=list)
    replies: list = field(default_factory=list)
    frames: list = field(default_factory=list)
    errors: list = field(default_factory=list)
    status: int = 0


def read(path):
    row = Row()
    for line in path.read_text(encoding="ascii").splitlines():
        mark, _, rest = line.partition(" ")
        if mark == "packets:":
            row.sources.append(
                [bytes.fromhex(text.replace("-", "")) for text in rest.split("|")] if rest.strip() else []
            )
        elif mark in ("cut:", "status:"):
            setattr(row, mark[:-1], int(rest))
        elif mark in ("tables:", "exported:", "needs:"):
            setattr(row, mark[:-1], rest)
        elif mark == "options:":
            row.options = rest.split()
        elif mark in "><!=":
            {">": row.requests, "<": row.replies, "!": row.errors, "=": row.frames}[mark].append(rest)
        elif mark != "#":
            raise ValueError(f"{path.name}: {line}")
    return row


def ivf(packets):
    """An IVF file of 30 frames a second, whose packets have the stamps 0, 1, 2."""
    head = struct.pack("<4sHH4sHHIIII", b"DKIF", 0, 32, b"VP80", 16, 16, 30, 1, len(packets), 0)
    return head + b"".join(struct.pack("<IQ", len(data), stamp) + data for stamp, data in enumerate(packets))


def packets_in(data):
    """The packets of an IVF file as a row has them; `none` without one."""
    found, at = [], 32
    while at < len(data):
        size, stamp = struct.unpack_from("<IQ", data, at)
        found.append(f"{stamp} {data[at + 12 : at + 12 + size].hex(' ')}")
        at += 12 + size
    return " | ".join(found) if data else "none"


def y4m(frames):
    """The text of these frames."""
    if not frames:
        return b""
    width, height = re.match(r"(\d+)x(\d+)", frames[0]).groups()
    text = f"YUV4MPEG2 W{width} H{height} F30:1 Ip C420jpeg\n".encode()
    for frame in frames:
        text += b"FRAME\n"
        for run in frame.split()[1:]:
            count, value = run.split("*")
            text += bytes([int(value, 16)]) * int(count)
    return text


def differences(row, program, folder, is_live):
    """What a run of the row gives that it must not."""
    paths = []
    for number, packets in enumerate(row.sources):
        paths.append(folder / f"{number}.ivf")
        data = ivf(packets)
        paths[-1].write_bytes(data[: len(data) - row.cut])
    words = [str(paths[0]), "-", str(folder / "out.y4m"), *row.options, *(["--live"] if is_live else [])]
    if len(paths) > 1:
        words += ["--sources", ":".join(map(str, paths[1:]))]
    if row.tables:
        (folder / "tables").write_bytes(bytes.fromhex(row.tables) * 3012)
        words += ["--tables", str(folder / "tables")]
    if row.exported:
        words += ["--export", str(folder / "exported.ivf")]
    for name in ("out.y4m", "exported.ivf"):
        (folder / name).unlink(missing_ok=True)
    requests = "".join(f"{line}\n" for line in row.requests)
    ran = subprocess.run([program, *words], input=requests.encode(), capture_output=True, timeout=LIMIT, check=False)
    made = (folder / "out.y4m").read_bytes() if (folder / "out.y4m").exists() else b""
    exported = (folder / "exported.ivf").read_bytes() if (folder / "exported.ivf").exists() else b""
    found = (
        ran.stdout.decode().splitlines(),
        ran.stderr.decode().splitlines(),
        ran.returncode,
        made,
        packets_in(exported) if row.exported else "",
    )
    wanted = (row.replies, row.errors, row.status, y4m(row.frames), row.exported)
    names = ("replies", "standard error", "status", "frames", "exported")
    return [f"{name}: {got!r:.300}, not {want!r:.300}" for name, got, want in zip(names, found, wanted) if got != want]
