"""The frames of a YUV4MPEG2 text."""


def frames_of(text, size):
    """The frames of a YUV4MPEG2 text, one after another, without their marks."""
    rest, frames = text.split(b"\n", 1)[1], b""
    while rest:
        if not rest.startswith(b"FRAME\n"):
            raise ValueError("no frame where one should stand")
        frames, rest = frames + rest[6 : 6 + size], rest[6 + size :]
    return frames
