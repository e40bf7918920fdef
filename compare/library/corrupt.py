"""What libvpx says of each packet of a stream, by its decoder library (Debian's libvpx7), called by ctypes."""

import ctypes

from .damage import partition_count

ABI = 12
FRAME_CORRUPTED = 257


def library():
    vpx = ctypes.CDLL("libvpx.so.7")
    vpx.vpx_codec_vp8_dx.restype = ctypes.c_void_p
    vpx.vpx_codec_dec_init_ver.argtypes = [
        ctypes.c_void_p,
        ctypes.c_void_p,
        ctypes.c_void_p,
        ctypes.c_long,
        ctypes.c_int,
    ]
    vpx.vpx_codec_decode.argtypes = [ctypes.c_void_p, ctypes.c_char_p, ctypes.c_uint, ctypes.c_void_p, ctypes.c_long]
    vpx.vpx_codec_get_frame.argtypes = [ctypes.c_void_p, ctypes.c_void_p]
    vpx.vpx_codec_get_frame.restype = ctypes.c_void_p
    vpx.vpx_codec_control_.argtypes = [ctypes.c_void_p, ctypes.c_int, ctypes.c_void_p]
    vpx.vpx_codec_destroy.argtypes = [ctypes.c_void_p]
    return vpx


def verdicts(packets):
    """For each packet `ok`, `corrupt` or `failed`, in one decoder that continues after each error."""
    vpx = library()
    room = ctypes.create_string_buffer(1024)
    if vpx.vpx_codec_dec_init_ver(room, vpx.vpx_codec_vp8_dx(), None, 0, ABI):
        raise OSError("libvpx has another interface")
    said = []
    for packet in packets:
        failed = vpx.vpx_codec_decode(room, bytes(packet), len(packet), None, 0)
        corrupt, place = ctypes.c_int(0), ctypes.c_void_p(None)
        if not failed:
            vpx.vpx_codec_control_(room, FRAME_CORRUPTED, ctypes.byref(corrupt))
        while vpx.vpx_codec_get_frame(room, ctypes.byref(place)):
            pass
        said.append("failed" if failed else "corrupt" if corrupt.value else "ok")
    vpx.vpx_codec_destroy(room)
    return said


def padded(packet, zeros):
    """The packet with so many zero bytes after its partitions: number 0 is the first, 1 token partition 0."""
    if not zeros:
        return packet
    tag = int.from_bytes(packet[:3], "little")
    start = 3 if tag & 1 else 10
    first = tag >> 5
    rest = packet[start + first :]
    count = partition_count(packet[start : start + first], not tag & 1)
    sizes = [int.from_bytes(rest[3 * k : 3 * k + 3], "little") for k in range(count - 1)]
    rest, tokens = rest[3 * (count - 1) :], []
    for size in sizes:
        tokens.append(rest[:size])
        rest = rest[size:]
    tokens.append(rest)
    first += zeros.get(0, 0)
    head = (
        (tag & 31 | first << 5).to_bytes(3, "little")
        + packet[3:start]
        + packet[start : start + (tag >> 5)]
        + bytes(zeros.get(0, 0))
    )
    tokens = [text + bytes(zeros.get(k + 1, 0)) for k, text in enumerate(tokens)]
    return head + b"".join(len(text).to_bytes(3, "little") for text in tokens[:-1]) + b"".join(tokens)
