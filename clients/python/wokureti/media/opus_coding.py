"""Opus by ffmpeg: samples as packets, and packets as samples of 16 bits at 48,000 a second."""

from __future__ import annotations

import os
import shutil
import subprocess
import tempfile
from array import array
from typing import Iterable, Sequence

from ..errors import NoSound
from . import containers, matroska, opus

RATE = 48000


def code(pieces: Iterable[bytes], channels: int, options: Sequence[str], path: str) -> containers.Sound:
    """Codes samples, which come in pieces of bytes, as Opus. Returns the track; its packets are in a file that begins
    with `path`.
    """
    if not shutil.which("ffmpeg"):
        raise NoSound("sound has to be coded again: install ffmpeg, or leave it out with --sound none")
    out = f"{path}.mka"
    words = [
        "ffmpeg",
        "-nostdin",
        "-y",
        "-v",
        "error",
        "-f",
        "s16le",
        "-ar",
        str(RATE),
        "-ac",
        str(channels),
        "-i",
        "pipe:0",
        "-c:a",
        "libopus",
        *options,
        out,
    ]
    with (
        tempfile.TemporaryFile() as errors,
        subprocess.Popen(words, stdin=subprocess.PIPE, stdout=subprocess.DEVNULL, stderr=errors) as process,
    ):
        try:
            assert process.stdin is not None
            with process.stdin as pipe:
                for piece in pieces:
                    pipe.write(piece)
        except BrokenPipeError:
            pass
        except BaseException:
            process.kill()
            raise
        if process.wait() != 0:
            errors.seek(0)
            raise NoSound(f"ffmpeg could not code the sound: {errors.read().decode(errors='replace').strip()[-500:]}")
    return containers.read_sounds(out, path)[0]


def decode(packets: Iterable[bytes], channels: int, path: str, decoder: str) -> array[int]:
    """The samples that a decoder of ffmpeg makes of packets that follow each other, from the first one of the first
    packet on, those of all channels together. Files that are made begin with `path`."""
    # No sample is dropped, and the gain of the track's own header is left to the player.
    private = b"OpusHead" + bytes([1, channels, 0, 0]) + RATE.to_bytes(4, "little") + bytes(3)
    blocks: list[matroska.Block] = []
    time = 0
    for data in packets:
        blocks.append((time, 1, True, data))
        time += opus.duration(data)
    entry = matroska.sound(1, "opus", private, RATE, channels, 0)
    parts = {matroska.INFO: matroska.info("", time), matroska.TRACKS: matroska.element(matroska.TRACKS, entry)}
    with open(f"{path}.mka", "wb") as file:
        matroska.write(file, "matroska", parts, blocks, has_video=False)
    containers.run(
        [
            "ffmpeg",
            "-nostdin",
            "-y",
            "-v",
            "error",
            "-c:a",
            decoder,
            "-i",
            f"{path}.mka",
            "-f",
            "s16le",
            "-ar",
            str(RATE),
            "-ac",
            str(channels),
            f"{path}.pcm",
        ]
    )
    with open(f"{path}.pcm", "rb") as file:
        samples = array("h", file.read())
    for ending in (".mka", ".pcm"):
        os.unlink(path + ending)
    wanted = time * RATE // matroska.MS // 1000 * channels
    if len(samples) != wanted:
        raise NoSound(f"ffmpeg made {len(samples)} samples of packets of {wanted}")
    return samples
