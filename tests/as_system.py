#!/usr/bin/env python3
"""Runs wokureti on Linux as Python of another system would: WOKURETI_AS=windows (or macos) as_system.py -m wokureti cut
IN OUT --from f3

What that Python does not have is taken away: modules, functions, flags, signals and paths. As on Windows, a file that
is open is neither renamed nor removed, text files get CRLF, names have none of `<>:"|?*`, locks are of bytes, and a
process inherits no descriptor. Paths keep their form: tests of the functions that read them have the rest. `-c CODE`
runs code after that. The tests of tests/test_systems.py use it.
"""

import argparse
import builtins
import concurrent.futures.thread
import contextlib
import ctypes
import errno
import fcntl
import http.client
import importlib.metadata
import io
import logging
import mmap
import os
import pathlib
import random
import re
import secrets
import select
import shutil
import signal
import socket
import struct
import subprocess
import sys
import tempfile
import threading
import types
import urllib.request
import webbrowser
import xml.etree.ElementTree

# The standard library keeps what it took of these modules when it was imported, as it does not need them on the other
# system.
IMPORTED = (
    argparse,
    concurrent.futures.thread,
    contextlib,
    ctypes,
    http.client,
    importlib.metadata,
    logging,
    mmap,
    random,
    secrets,
    shutil,
    socket,
    threading,
    urllib.request,
    webbrowser,
    xml.etree.ElementTree,
)
SYSTEM = os.environ.get("WOKURETI_AS", "")
PLATFORMS = {"windows": "win32", "macos": "darwin"}
MODULES = {"windows": "fcntl resource termios tty pty pwd grp syslog", "macos": ""}
LINUX_ONLY = """sched_getaffinity sched_setaffinity posix_fadvise posix_fallocate fdatasync pipe2 memfd_create
    copy_file_range splice eventfd O_TMPFILE O_PATH getxattr setxattr listxattr removexattr pidfd_open"""
FUNCTIONS = {
    "windows": f"""{LINUX_ONLY} pread pwrite preadv pwritev readv writev killpg getpgid setpgid getpgrp setsid
        getsid getuid geteuid getgid getegid getgroups setuid register_at_fork statvfs fstatvfs fork forkpty
        vfork posix_spawn chown lchown fchown fchmod mkfifo mknod nice getloadavg set_blocking get_blocking
        waitid wait wait3 wait4 sendfile sync uname sysconf pathconf ttyname openpty chroot O_CLOEXEC O_NOFOLLOW
        O_DIRECTORY O_NONBLOCK O_NOCTTY O_SYNC O_DSYNC""",
    "macos": LINUX_ONLY,
}
WAITS = {"windows": "poll epoll", "macos": "epoll"}
SIGNALS = {
    "windows": (
        "SIGHUP SIGALRM SIGPIPE SIGUSR1 SIGUSR2 SIGCHLD SIGQUIT SIGKILL SIGSTOP SIGTSTP SIGCONT SIGWINCH SIGTTIN"
        " SIGTTOU"
    ),
    "macos": "SIGPWR SIGSTKFLT",
}
# The flags that Windows has, as bits that Linux does not use; and Ctrl-Break, as a signal that nothing sends here.
BINARY, TEMPORARY, BREAK = 1 << 29, 1 << 28, signal.SIGTTIN
NULL = "nul" if SYSTEM == "windows" else os.devnull
HIDDEN = {"windows": ("/proc/", "/dev/"), "macos": ("/proc/",)}
real = types.SimpleNamespace(
    **{
        name: getattr(os, name)
        for name in (
            "open",
            "stat",
            "lstat",
            "access",
            "listdir",
            "scandir",
            "readlink",
            "unlink",
            "rename",
            "replace",
            "fstat",
        )
    },
    file=open,
)
F_OFD_SETLK, KILL = 37, signal.SIGKILL


def seen(path):
    """A path as this system has it: `nul` is the device of Linux; `FileNotFoundError` if the system does not have
    it.
    """
    if not isinstance(path, (str, bytes, os.PathLike)):
        return path
    text = os.path.abspath(os.fsdecode(path)) + "/"
    if os.fsdecode(path) == NULL:
        return "/dev/null"
    if text.startswith(HIDDEN[SYSTEM]):
        raise FileNotFoundError(errno.ENOENT, "No such file or directory", os.fsdecode(path))
    return path


def hiding(function):
    """A function of paths that does not see some."""
    return lambda path=".", *words, **more: function(seen(path), *words, **more)


def duplicate(path):
    """On macOS a path below /dev/fd is another descriptor of the same open file, read from where that one is. None for
    another path.
    """
    found = (
        re.fullmatch("/dev/fd/([0-9]+)", {"/dev/stdin": "/dev/fd/0"}.get(path, path)) if isinstance(path, str) else None
    )
    return os.dup(int(found.group(1))) if found and SYSTEM == "macos" else None


def check_name(path, writes):
    """`OSError` if a new file has a name that Windows does not take."""
    if (
        SYSTEM == "windows"
        and writes
        and isinstance(path, (str, os.PathLike))
        and re.search('[<>:"|?*]', os.path.basename(os.fsdecode(path)))
    ):
        raise OSError(errno.EINVAL, "Invalid argument", os.fsdecode(path))


def open_descriptor(path, flags, mode=0o777, **more):
    """`os.open`. Code of wokureti opens a file with O_BINARY: else Windows changes its line ends."""
    found = duplicate(path)
    if found is not None:
        return found
    caller = sys._getframe(1).f_globals.get("__name__", "")
    if SYSTEM == "windows" and caller.startswith("wokureti") and path != NULL and not flags & BINARY:
        raise AssertionError(f"{caller} opens {path} without O_BINARY")
    check_name(path, flags & os.O_CREAT)
    descriptor = real.open(seen(path), flags & ~(BINARY | TEMPORARY), mode, **more)
    if flags & TEMPORARY:
        real.unlink(path)
    return descriptor


def open_file(path, mode="r", buffering=-1, encoding=None, errors=None, newline=None, *words, **more):
    """`open`. Code of wokureti names the encoding of a text: that of Windows is another one."""
    caller, is_text = sys._getframe(1).f_globals.get("__name__", ""), "b" not in mode
    if caller.startswith("wokureti") and is_text and encoding is None:
        raise AssertionError(f"{caller} opens {path} without an encoding")
    if SYSTEM == "windows" and is_text and newline is None and not mode.startswith("r"):
        newline = "\r\n"
    found = duplicate(path)
    check_name(path, not mode.startswith("r"))
    return real.file(seen(path) if found is None else found, mode, buffering, encoding, errors, newline, *words, **more)


def refuse_open(path, **more):
    """`PermissionError` if a file is open in this process. That it is not there is said by what is called next."""
    found = stat_or_none(real.lstat, path, **more)
    others = (stat_or_none(real.fstat, int(name)) for name in real.listdir("/proc/self/fd"))
    if found is not None and any(
        other is not None and (found.st_dev, found.st_ino) == (other.st_dev, other.st_ino) for other in others
    ):
        raise PermissionError(
            errno.EACCES,
            "The process cannot access the file because it is being used by another process",
            os.fsdecode(path),
        )


def stat_or_none(function, *words, **more):
    try:
        return function(*words, **more)
    except OSError:
        return None


def unlink(path, *, dir_fd=None):
    refuse_open(path, dir_fd=dir_fd)
    real.unlink(path, dir_fd=dir_fd)


def moving(function):
    """A call that gives a file another name."""

    def call(source, target):
        refuse_open(source)
        refuse_open(target)
        check_name(target, True)
        function(source, target)

    return call


def locking(descriptor, mode, size):
    """Locks bytes from where a file is being read, for this open file."""
    text = struct.pack("@hhqqi0q", fcntl.F_WRLCK, os.SEEK_SET, os.lseek(descriptor, 0, os.SEEK_CUR), size, 0)
    try:
        fcntl.fcntl(descriptor, F_OFD_SETLK, text)
    except BlockingIOError:
        raise PermissionError(errno.EACCES, "Permission denied") from None


def temporary_file(mode="w+b", dir=None, **more):
    """A file that goes when it is closed, as one that was opened with O_TEMPORARY."""
    descriptor, name = tempfile.mkstemp(dir=dir)
    real.unlink(name)
    return real.file(descriptor, mode, **more)


class Process(subprocess.Popen):
    """A process gets no descriptors but those of its standard streams."""

    def __init__(self, *words, pass_fds=(), preexec_fn=None, **more):
        if pass_fds or preexec_fn:
            raise AssertionError("pass_fds and preexec_fn are not supported on Windows platforms")
        super().__init__(*words, **more)

    def kill(self):
        os.kill(self.pid, KILL)


def take_away():
    """Removes what the system does not have."""
    tempfile._O_TMPFILE_WORKS = False
    for name in MODULES[SYSTEM].split():
        sys.modules[name] = None
    for module, names in ((os, FUNCTIONS), (select, WAITS), (signal, SIGNALS)):
        for name in names[SYSTEM].split():
            if hasattr(module, name):
                delattr(module, name)
    for name in ("stat", "lstat", "access", "listdir", "scandir", "readlink"):
        setattr(os, name, hiding(getattr(real, name)))
    os.open, builtins.open, io.open = open_descriptor, open_file, open_file


def become_windows():
    """Adds what only Windows has, and how it differs."""
    os.O_BINARY, os.O_TEMPORARY, os.devnull = BINARY, TEMPORARY, NULL
    os.unlink = os.remove = unlink
    os.rename, os.replace = moving(real.rename), moving(real.replace)
    signal.SIGBREAK = signal.CTRL_BREAK_EVENT = BREAK
    sys.modules["msvcrt"] = types.SimpleNamespace(LK_NBLCK=2, locking=locking)
    subprocess.Popen, subprocess.CREATE_NEW_PROCESS_GROUP = Process, 0
    tempfile.TemporaryFile = temporary_file
    for file in (sys.stdout, sys.stderr):
        file.reconfigure(newline="\r\n")


def become_macos():
    """Linux's number for the size of a pipe is no call there."""
    call = fcntl.fcntl

    def control(descriptor, number, *words):
        if number == 1031:
            raise OSError(errno.EINVAL, "Invalid argument")
        return call(descriptor, number, *words)

    fcntl.fcntl = control


def main(words):
    sys.path.insert(0, str(pathlib.Path(__file__).resolve().parent.parent / "clients/python"))
    sys.executable = os.path.abspath(__file__)
    take_away()
    become_windows() if SYSTEM == "windows" else become_macos()
    # Only the module that knows systems looks at the name of this one; the standard library is that of Linux.
    name, sys.platform = sys.platform, PLATFORMS[SYSTEM]
    import wokureti.system

    sys.platform = name
    sys.argv = ["wokureti", *words[2:]]
    if words[0] == "-c":
        exec(compile(words[1], "<code>", "exec"), {"__name__": "__main__"})
        return 0
    from wokureti import commands

    return commands.main()


if __name__ == "__main__":
    sys.exit(main(sys.argv[1:]))
