#!/usr/bin/env python3
"""Decodes the shown key packets of an IVF file of VP8 with dwebp (libwebp), each as a WebP file of its own: dwebp.py IN
OUT

OUT gets the frames as I420, without those of packets that dwebp refuses. dwebp otherwise adds noise to smooth areas:
that is off.
"""

import pathlib
import subprocess
import sys
import tempfile

sys.path.insert(0, str(pathlib.Path(__file__).resolve().parent.parent))

from vp8 import ivf  # noqa: E402


def webp_of(packet):
    padded = packet + b"\0" * (len(packet) % 2)
    chunk = b"VP8 " + len(packet).to_bytes(4, "little") + padded
    return b"RIFF" + (4 + len(chunk)).to_bytes(4, "little") + b"WEBP" + chunk


def main():
    source, target = sys.argv[1:]
    with open(target, "wb") as out, tempfile.TemporaryDirectory() as room:
        still, samples = pathlib.Path(room, "still.webp"), pathlib.Path(room, "samples")
        for packet in ivf.read(pathlib.Path(source)):
            if len(packet) > 2 and packet[0] & 17 == 16:
                still.write_bytes(webp_of(packet))
                ran = subprocess.run(
                    ["dwebp", "-quiet", "-nodither", "-yuv", still, "-o", samples],
                    capture_output=True,
                    text=True,
                    check=False,
                )
                if ran.returncode:
                    sys.stderr.write(ran.stderr)
                else:
                    out.write(samples.read_bytes())


if __name__ == "__main__":
    main()
