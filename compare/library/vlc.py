#!/usr/bin/env python3
"""Plays a file by VLC's library, and prints the MD5 of each picture that it shows, as I420: vlc.py FILE SECONDS WIDTH
HEIGHT

The program vlc refuses to run as root; its library does not.
"""

import ctypes
import hashlib
import sys
import time

POINTER, NUMBER, TEXT = ctypes.c_void_p, ctypes.c_uint, ctypes.c_char_p
CALLS = {
    "libvlc_new": (POINTER, ctypes.c_int, POINTER),
    "libvlc_get_version": (TEXT,),
    "libvlc_media_new_path": (POINTER, POINTER, TEXT),
    "libvlc_media_add_option": (None, POINTER, TEXT),
    "libvlc_media_player_new_from_media": (POINTER, POINTER),
    "libvlc_media_player_play": (ctypes.c_int, POINTER),
    "libvlc_media_player_get_state": (ctypes.c_int, POINTER),
    "libvlc_media_player_stop": (None, POINTER),
    "libvlc_video_set_callbacks": (None, POINTER, POINTER, POINTER, POINTER, POINTER),
    "libvlc_video_set_format": (None, POINTER, TEXT, NUMBER, NUMBER, NUMBER),
}
LOCK = ctypes.CFUNCTYPE(POINTER, POINTER, ctypes.POINTER(POINTER))
UNLOCK = ctypes.CFUNCTYPE(None, POINTER, POINTER, ctypes.POINTER(POINTER))
SHOW = ctypes.CFUNCTYPE(None, POINTER, POINTER)
OVER = (6, 7)
MOST_TIME = 120


def library():
    found = ctypes.CDLL("libvlc.so.5")
    for name, (result, *given) in CALLS.items():
        call = getattr(found, name)
        call.restype, call.argtypes = result, given
    return found


def play(path, seconds, width, height):
    """The MD5s of the pictures. Each plane has lines of `width` bytes."""
    vlc, found = library(), []
    words = [b"--no-audio", b"--no-drop-late-frames", b"--no-skip-frames", b"--quiet"]
    instance = vlc.libvlc_new(len(words), (TEXT * len(words))(*words))
    media = vlc.libvlc_media_new_path(instance, path.encode())
    if seconds:
        vlc.libvlc_media_add_option(media, f":start-time={seconds}".encode())
    player = vlc.libvlc_media_player_new_from_media(media)
    size = width * height
    planes = ctypes.create_string_buffer(4 * size)

    def lock(_, places):
        for number in range(3):
            places[number] = ctypes.addressof(planes) + number * size

    def show(_, picture):
        data = planes.raw
        halves = (
            data[start : start + (width + 1) // 2]
            for plane in (1, 2)
            for start in range(plane * size, plane * size + width * ((height + 1) // 2), width)
        )
        found.append(hashlib.md5(data[:size] + b"".join(halves)).hexdigest())

    calls = LOCK(lock), UNLOCK(lambda *_: None), SHOW(show)
    vlc.libvlc_video_set_callbacks(player, *(ctypes.cast(call, POINTER) for call in calls), None)
    vlc.libvlc_video_set_format(player, b"I420", width, height, width)
    vlc.libvlc_media_player_play(player)
    limit = time.monotonic() + MOST_TIME
    while vlc.libvlc_media_player_get_state(player) not in OVER and time.monotonic() < limit:
        time.sleep(0.05)
    vlc.libvlc_media_player_stop(player)
    return found


if __name__ == "__main__":
    print(*play(sys.argv[1], float(sys.argv[2]), int(sys.argv[3]), int(sys.argv[4])), sep="\n")
