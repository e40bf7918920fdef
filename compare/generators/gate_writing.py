#!/usr/bin/env python3
"""Makes the files of crates/gate_writing/data, its `stdin`, and its `stdout` by the plain model of
library/webm_text.py.

    compare/generators/gate_writing.py
"""

import pathlib
import sys

sys.path.insert(0, str(pathlib.Path(__file__).resolve().parents[1]))

from library import ivf, webm_text  # noqa: E402
from library.programs import TOP  # noqa: E402

CRATE = TOP / "crates/gate_writing"
KEY, SHOWN, HIDDEN = b"\x10\x02\x00", b"\x11\x03", b"\x01"


def file(rate, scale, records):
    text = ivf.HEAD.pack(b"DKIF", 0, 32, b"VP80", 176, 144, rate, scale, len(records), 0)
    return text + b"".join(ivf.RECORD.pack(len(packet), stamp) + packet for stamp, packet in records)


FILES = {
    "none.ivf": file(30, 1, []),
    # Key packets begin clusters.
    "keys.ivf": file(30, 1, [(at, KEY if at in (0, 3) else SHOWN) for at in range(6)]),
    # 1001 / 30000 seconds: 33.37, 66.73, 100.1 ms.
    "ntsc.ivf": file(30000, 1001, [(at, KEY + bytes([at]) if at == 0 else SHOWN) for at in range(5)]),
    # Halves of a millisecond are rounded up.
    "halves.ivf": file(2000, 1, [(at, SHOWN) for at in range(5)]),
    # A cluster begins more than 5 s after the time of the one before, and at a time before it.
    "times.ivf": file(
        1000,
        1,
        [(0, KEY), (5000, SHOWN), (5001, SHOWN), (40000, HIDDEN), (39999, b""), (40000, b"\x00\x00"), (45000, SHOWN)],
    ),
    # The first packet is no key packet.
    "late.ivf": file(1, 1, [(7, SHOWN), (8, KEY)]),
    # A time of more than 64 bits, and no rate: they are not written.
    "far.ivf": file(1, 1, [(0, KEY), (2**64 - 1, SHOWN)]),
    "rate.ivf": file(0, 1, [(0, KEY)]),
    # The record at the end is cut off.
    "cut.ivf": file(25, 1, [(0, KEY), (1, SHOWN), (2, SHOWN)])[:-1],
}


def main():
    data = CRATE / "data"
    data.mkdir(exist_ok=True)
    lines = []
    for name, text in sorted(FILES.items()):
        (data / name).write_bytes(text)
        written = webm_text.from_ivf(text) or b""
        lines += [name, *(written[at : at + 32].hex() for at in range(0, len(written), 32))]
    (CRATE / "stdin").write_text("".join(f"{name}\n" for name in sorted(FILES)))
    (CRATE / "stdout").write_text("".join(f"{line}\n" for line in lines))


if __name__ == "__main__":
    sys.exit(main())
