"""The engine in this process, by the library `libwokureti.so`: the same calls as `pipes.Pipes` has over a program.

A session of the library stays on the thread that opened it, so each has a worker, and callers wait for it.
"""

from __future__ import annotations

import ctypes
import functools
import os
import pathlib
import queue
import re
import threading
import time
import weakref
from typing import TYPE_CHECKING, Any, Callable, NamedTuple, Optional, Sequence, Tuple, TypeVar

from .. import system
from ..errors import Gone, Late, NotExported, Strange
from ..base import checks, programs, versions
from ..base.files import write_whole
from ..base.lines import is_refusal, words_of
from ..media import ivf
from ..media.y4m import MARK, size_of

if TYPE_CHECKING:
    # What a worker is asked for: a call and where its result goes, or None to end.
    Asked = queue.SimpleQueue[Any]

Result = TypeVar("Result")
# The width, height and samples of a frame; and a reply with the frame that it serves.
Picture = Tuple[int, int, memoryview]
Answer = Tuple[str, Optional[Picture]]
ENGINES = ("library", "program")
# Bytes of stack that a worker has at least: the library needs 128 KB (WK_STACK).
LEAST_STACK = 1 << 20
STARTING = threading.Lock()
CACHE = 32
OK, FILE, MEMORY, ROOM, LOST, NO_MEMORY = 0, 2, 3, 5, 7, 31
# Numbers of `wk_export`: a frame that the script changes, and too many packets.
CHANGED, FULL = 33, 35
REFUSALS = range(16, 33)
FRAME = re.compile(rb"frame ([0-9]{1,20})")
FAULTS = {
    1: "a number is outside its range: 1 to 8 files and 1 to 4096 states",
    3: "out of memory",
    6: "tables are not 3012 bytes",
}
# Bytes of a file, at most.
MOST_FILE = 1 << 30
CAUSES = (
    "",
    "Header",
    "Magic",
    "FourCc",
    "HeaderLength",
    "TooMany",
    "NoMemory",
    "DocType",
    "NoTracks",
    "NoVideo",
    "Encoded",
    "Scale",
)


class Shown(ctypes.Structure):
    """`wk_shown` of the header."""

    _fields_ = [
        ("luma_stride", ctypes.c_size_t),
        ("chroma_stride", ctypes.c_size_t),
        ("width", ctypes.c_uint32),
        ("height", ctypes.c_uint32),
        ("source", ctypes.c_uint64),
        ("packet", ctypes.c_uint64),
    ]


class Fault(ctypes.Structure):
    """`wk_fault` of the header."""

    _fields_ = [("source", ctypes.c_uint64), ("cause", ctypes.c_uint32)]


class Unwritten(ctypes.Structure):
    """`wk_unexported` of the header."""

    _fields_ = [
        ("frame", ctypes.c_uint64),
        ("node", ctypes.c_uint64),
        ("source", ctypes.c_uint64),
        ("packet", ctypes.c_uint64),
    ]


def not_exported(status: int, frame: int, node: int) -> NotExported:
    """What `wk_export` returned and reported, as an exception."""
    if status == CHANGED:
        text = f"frame {frame} is changed by node {node}"
    else:
        text = "too many packets" if status == FULL else "no packet repeats a frame of this size"
    return NotExported(text, frame, status in REFUSALS)


def room_of(size: int) -> bytearray:
    """A bytearray of this size. The engine writes each of its bytes, so they are not set before."""
    make = getattr(getattr(ctypes, "pythonapi", None), "PyByteArray_FromStringAndSize", None)
    if make is None:
        return bytearray(size)
    make.argtypes, make.restype = [ctypes.c_char_p, ctypes.c_ssize_t], ctypes.py_object
    made: bytearray = make(None, size)
    return made


def find() -> Optional[str]:
    """The path of the library: that of the variable LIBWOKURETI, or installed with this package, or built in this tree;
    None if it is nowhere.
    """
    named = os.environ.get("LIBWOKURETI")
    if named:
        return named
    places = [
        folder / "lib/wokureti" / place / system.LIBRARY
        for folder in programs.HERE.parents
        for place in system.library_places()
    ] + [programs.TREE / "bin" / system.LIBRARY]
    return next((str(path) for path in places if path.is_file()), None)


class Folders(NamedTuple):
    """Where a compiler finds the header, and the library."""

    header: str
    library: str

    def cflags(self) -> str:
        return f"-I{self.header}"

    def libs(self) -> str:
        return f"-L{self.library} -lwokureti -Wl,-rpath,{self.library}"


def folders() -> Folders:
    """The folders of the header and of the library that is found here. `OSError` if one has no header."""
    path = find()
    if path is None:
        raise OSError(f"{system.LIBRARY} is not there: ./serve.sh puts it into bin/")
    folder = pathlib.Path(path).resolve().parent
    if folder.parent.name == "glibc-hwcaps":
        # The loader finds the one for this processor from the folder of the most general one.
        folder = folder.parent.parent
    for header in (folder, folder.parent.parent / "include"):
        if (header / "wokureti.h").is_file():
            return Folders(str(header), str(folder))
    raise OSError(
        f"{folder} has the library, but wokureti.h is not next to it: ./serve.sh or ./build.py --library puts it into"
        " bin/"
    )


def number_of(version: str) -> int:
    """The number of a version, as `wk_version` returns it."""
    first, second, third = map(int, version.split("."))
    return 10000 * first + 100 * second + third


def is_ready() -> bool:
    """Whether the library is found, can be loaded here, and is of the version of this package."""
    path = find()
    if path is None:
        return False
    try:
        return bool(load(path).wk_version() == number_of(versions.version()))
    except (OSError, AttributeError, ValueError):
        return False


def engine_of(named: Optional[str], program: Optional[str]) -> str:
    """What answers: what is named, in the call or in the variable WOKURETI_ENGINE, or the program where one is named;
    else the library where it is ready.
    """
    engine = named or ("program" if program and system.HAS_PIPES else os.environ.get("WOKURETI_ENGINE"))
    if not system.HAS_PIPES:
        if named == "program":
            raise ValueError(f"{system.NAME} has no pipes on which a program can answer: the engine is the library")
        return "library"
    if not engine:
        return "library" if not os.environ.get("VP8SERVE") and is_ready() else "program"
    if engine not in ENGINES:
        raise ValueError(f'the engine is {engine!r}, but must be "program" or "library"')
    return engine


def load(path: Optional[str] = None) -> ctypes.CDLL:
    """The library. `OSError` if it is nowhere, or is not one."""
    path = path or find()
    if path is None:
        raise OSError(
            f"{system.LIBRARY} is not there: ./build.py --library makes it, or name it in the variable LIBWOKURETI"
        )
    found, size, data, pointer = ctypes.CDLL(path), ctypes.c_size_t, ctypes.c_char_p, ctypes.c_void_p
    calls = {
        "wk_version": [],
        "wk_open": [pointer, data, size, pointer, size, ctypes.c_uint16, data, size, pointer],
        "wk_close": [pointer],
        "wk_frame": [pointer, ctypes.c_uint64, pointer, size, pointer, size, pointer, size, pointer],
        "wk_request": [pointer, data, size, pointer],
        "wk_why": [pointer, pointer],
        "wk_save": [pointer, ctypes.c_bool, pointer],
        "wk_text": [pointer, pointer, size, pointer],
        "wk_open_bytes": [pointer, data, size, pointer, size, ctypes.c_uint64, data, size, pointer],
        "wk_save_source": [pointer, size, ctypes.c_bool, ctypes.c_bool, pointer],
        "wk_export": [pointer, ctypes.c_bool, pointer, pointer],
    }
    for name, types in calls.items():
        call = getattr(found, name)
        call.argtypes, call.restype = types, None if name == "wk_close" else ctypes.c_uint32
    return found


class Engine:
    """A session of the library. All its calls are made on one thread."""

    def __init__(
        self,
        library: ctypes.CDLL,
        files: Sequence[bytes],
        states: Optional[int],
        tables: bytes,
        explains: bool,
        most_bytes: Optional[int] = None,
    ) -> None:
        self.library, self.explains, self.lines = library, explains, 0
        # The number of each line that was refused, and why.
        self.reasons: list[tuple[int, Optional[str]]] = []
        self.handle = (ctypes.c_void_p * 1)()
        self.shown, self.length = Shown(), ctypes.c_size_t()
        self.size = (0, 0)
        ends, total = (ctypes.c_size_t * len(files))(), 0
        for place, file in enumerate(files):
            total += len(file)
            ends[place] = total
        fault = Fault()
        opens, most = (library.wk_open, states or CACHE) if most_bytes is None else (library.wk_open_bytes, most_bytes)
        status = opens(
            self.handle, b"".join(files), total, ends, len(files), most, tables, len(tables), ctypes.byref(fault)
        )
        self.trouble = None if status == OK else (status, fault.source, fault.cause)

    def text(self) -> bytes:
        """The text that the last call left."""
        room = ctypes.create_string_buffer(max(1, self.length.value))
        self.library.wk_text(self.handle, room, self.length.value, ctypes.byref(self.length))
        return room.raw[: self.length.value]

    def answer(self, line: bytes) -> Answer:
        """The reply to a line, and the picture if it is served."""
        # A carriage return before the newline is no part of a line.
        line = line.removesuffix(b"\n").removesuffix(b"\r")
        self.lines += 1
        found = FRAME.fullmatch(line)
        number = int(found.group(1)) if found else checks.MOST + 1
        picture = self.picture(number) if number <= checks.MOST else None
        if picture is not None:
            return f"served {number}", picture
        # Why it is refused is in the reply alone.
        status = self.library.wk_request(self.handle, line, len(line), ctypes.byref(self.length))
        if status != OK:
            raise Strange(f"out of memory for a reply ({status})")
        reply = self.text().decode(errors="replace").rstrip("\n")
        if self.explains and is_refusal(reply):
            self.reasons.append((self.lines, self.reason()))
        if reply.startswith("served "):
            picture = self.picture(int(words_of(reply)[1]))
            if picture is None:
                raise Strange(f"{reply}, and then not")
        return reply, picture

    def picture(self, number: int) -> Optional[Picture]:
        """A frame, in new memory, or None if it is refused."""
        while True:
            width, height = self.size
            across, down, samples = (width + 1) // 2, (height + 1) // 2, room_of(max(1, size_of(width, height)))
            room = (ctypes.c_ubyte * len(samples)).from_buffer(samples)
            at, luma, chroma = ctypes.addressof(room), width * height, across * down
            self.shown.luma_stride, self.shown.chroma_stride = width, across
            status = self.library.wk_frame(
                self.handle, number, at, luma, at + luma, chroma, at + luma + chroma, chroma, ctypes.byref(self.shown)
            )
            del room
            if status == OK:
                return width, height, memoryview(samples)
            if status != ROOM or self.size == (self.shown.width, self.shown.height):
                return None
            self.size = (self.shown.width, self.shown.height)

    def reason(self) -> Optional[str]:
        """Why the last line was refused, as the program explains it, without the number of the line: frames are not
        counted there.
        """
        if self.library.wk_why(self.handle, ctypes.byref(self.length)) != OK:
            return None
        return self.text().decode(errors="replace").rstrip("\n").partition(": ")[2] or None

    def saved(self, pads: bool, source: int = 0, restamps: bool = False) -> bytes:
        """The IVF file of the current packets of a source."""
        if source or restamps:
            status = self.library.wk_save_source(
                self.handle, source, bool(pads), bool(restamps), ctypes.byref(self.length)
            )
        else:
            status = self.library.wk_save(self.handle, bool(pads), ctypes.byref(self.length))
        if status != OK:
            raise MemoryError("out of memory for the file of the packets")
        return self.text()

    def exported(self, pads: bool) -> bytes:
        """The IVF file of the frames of the current script."""
        found = Unwritten()
        status = self.library.wk_export(self.handle, bool(pads), ctypes.byref(self.length), ctypes.byref(found))
        if status in (MEMORY, NO_MEMORY):
            raise MemoryError("out of memory for the file of the frames")
        if status != OK:
            raise not_exported(status, found.frame, found.node)
        return self.text()

    def close(self) -> None:
        self.library.wk_close(self.handle)


class Header:
    """The line before the frames, and the size of a frame, as a reader of them knows them."""

    def __init__(self, rate: Callable[[], tuple[int, int]]) -> None:
        self.rate_of = rate
        self.rate: Optional[tuple[int, int]] = None
        self.size: Optional[tuple[int, int]] = None

    @property
    def header(self) -> bytes:
        if self.size is None:
            return b""
        self.rate = self.rate or self.rate_of()
        rate = ":".join(map(str, self.rate)) if all(self.rate) else "30:1"
        return f"YUV4MPEG2 W{self.size[0]} H{self.size[1]} F{rate} Ip C420jpeg\n".encode()

    @property
    def frame_size(self) -> int:
        assert self.size is not None
        return len(MARK) + size_of(*self.size)


def work(asked: Asked) -> None:
    """Makes the calls that are asked for, one after the other, until it is told to end."""
    while True:
        item = asked.get()
        if item is None:
            return
        call, answers = item
        try:
            answers.put((call(), None))
        except BaseException as error:
            answers.put((None, error))
        # What the caller holds ends with the caller.
        del item, call, answers


def start_worker(asked: Asked) -> None:
    """Starts a thread for the calls of a session, also where `threading.stack_size` gives threads less than the library
    needs.
    """
    with STARTING:
        given = threading.stack_size()
        if given:
            threading.stack_size(max(given, LEAST_STACK))
        try:
            threading.Thread(target=work, args=(asked,), name="wokureti", daemon=True).start()
        finally:
            if given:
                threading.stack_size(given)


def rate_in(text: bytes) -> tuple[int, int]:
    """The rate in the header of an IVF file."""
    head, _ = ivf.parse_head(text)
    return head.rate, head.scale


class Library:
    """A running session. `files` are the bytes of its sources; `save` gets the packets of source 0 when it is finished.
    So many states are cached, or as many as have pictures of `most_bytes`. `rate` returns the frames a second in the
    first line of the frames; else they are those of an IVF file's header.
    """

    def __init__(
        self,
        files: Sequence[bytes],
        states: Optional[int] = CACHE,
        most_bytes: Optional[int] = None,
        tables: bytes = b"",
        save: Optional[str] = None,
        pad: bool = False,
        explains: bool = False,
        rate: Optional[Callable[[], tuple[int, int]]] = None,
    ) -> None:
        library = load()
        self.owner = os.getpid()
        self.asked: Asked = queue.SimpleQueue()
        start_worker(self.asked)
        self.is_over, self.save, self.pad = False, save, pad
        self.finalizer = weakref.finalize(self, self.asked.put, None)
        self.engine = self.call(lambda: Engine(library, files, states, tables, explains, most_bytes))
        if self.engine.trouble:
            status, source, cause = self.engine.trouble
            self.finalizer()
            raise Gone(
                f"{f'source {source}' if source else 'input'} {CAUSES[cause]}" if status == FILE else FAULTS[status]
            )
        # The worker closes the session, whatever ends first.
        self.finalizer.detach()
        self.finalizer = weakref.finalize(self, end, self.asked, self.engine)
        self.reader = Header(rate or functools.partial(rate_in, files[0][: ivf.HEAD.size]))

    def call(self, function: Callable[[], Result], deadline: Optional[float] = None) -> Result:
        """What a call returns that the worker makes. `Late` after the deadline: the worker is left to it, and the
        session is over.
        """
        answers: queue.SimpleQueue[tuple[Result, Optional[BaseException]]] = queue.SimpleQueue()
        self.asked.put((function, answers))
        try:
            result, error = answers.get(timeout=None if deadline is None else max(0.0, deadline - time.monotonic()))
        except queue.Empty:
            self.kill()
            raise Late from None
        except BaseException:
            self.kill()
            raise
        if error is not None:
            raise error
        return result

    def exchange(self, lines: Sequence[bytes], deadline: Optional[float]) -> list[Answer]:
        """The reply to each of these lines, and the picture if the reply is `served`. `Gone` if the session is over."""
        if self.is_over:
            raise Gone
        found = self.call(lambda: [self.engine.answer(line) for line in lines], deadline)
        for _, picture in found:
            if picture is not None:
                self.reader.size = picture[:2]
        return found

    def saved(self, pads: bool, source: int, restamps: bool, deadline: Optional[float]) -> bytes:
        """The IVF file of the current packets of a source."""
        return self.call(lambda: self.engine.saved(pads, source, restamps), deadline)

    def exported(self, pads: bool, deadline: Optional[float]) -> bytes:
        """The IVF file of the frames of the current script."""
        return self.call(lambda: self.engine.exported(pads), deadline)

    def explanation(self, number: int) -> Optional[str]:
        """The text that explains the refusal of request line `number`; those of earlier lines are dropped."""
        reasons, self.engine.reasons = self.engine.reasons, []
        return next((reason for line, reason in reasons if line == number), None)

    def owner_is_here(self) -> bool:
        """Whether this is the process that opened the session, and not a forked copy, in which the worker is not."""
        return os.getpid() == self.owner

    def kill(self) -> None:
        """Ends the session, once the call that it is in the middle of has ended."""
        self.is_over = True
        self.finalizer()

    def finish(self, deadline: Optional[float]) -> tuple[int, str]:
        """Saves the packets, if that was asked for, and ends the session: its status, and what went wrong."""
        if self.save is not None:
            try:
                write_whole(self.save, [self.call(lambda: self.engine.saved(self.pad), deadline)])
            except (OSError, MemoryError) as error:
                self.kill()
                return 1, f"libwokureti: cannot write {os.fsdecode(self.save)}: {error}"
        self.kill()
        return 0, ""

    def collect(self) -> tuple[int, str]:
        """The status of a session that is over, and what went wrong."""
        return 0, ""


def end(asked: Asked, engine: Engine) -> None:
    """Tells the worker to close the session, and then to end."""
    asked.put((engine.close, queue.SimpleQueue()))
    asked.put(None)
