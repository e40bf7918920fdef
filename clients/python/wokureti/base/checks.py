"""The arguments of a session, checked before they reach the program."""

from __future__ import annotations

import operator
import os
from typing import Any, BinaryIO, Iterable, SupportsIndex, Union

from .. import system
from . import lines

AnyPath = system.AnyPath
# A stream: its path, the bytes of its file, or an open file.
AnyStream = Union[str, "os.PathLike[str]", "os.PathLike[bytes]", bytes, bytearray, memoryview, BinaryIO]
AnyBytes = Union[bytes, bytearray, memoryview]
MOST = (1 << 64) - 1
MOST_STATES = 4096


def number(value: SupportsIndex) -> int:
    """A number of a request: 0 to 2^64 - 1."""
    value = operator.index(value)
    if not 0 <= value <= MOST:
        raise ValueError(f"{value} is not between 0 and {MOST}")
    return value


def states(value: SupportsIndex) -> int:
    """The number of decoded states that are cached."""
    value = operator.index(value)
    if not 1 <= value <= MOST_STATES:
        raise ValueError(f"cache is the number of decoded states that are cached, 1 to {MOST_STATES}, and not {value}")
    return value


def indexes(value: Union[SupportsIndex, range]) -> list[int]:
    """The packets that a number or a range names, the last one first."""
    if isinstance(value, range):
        return sorted((number(index) for index in value), reverse=True)
    return [number(value)]


def hexadecimal(data: AnyBytes) -> str:
    """The bytes of a packet as a word of a request."""
    try:
        return bytes(memoryview(data)).hex() or "-"
    except TypeError:
        raise TypeError(f"a packet is bytes, not {type(data).__name__}") from None


def node(text: object) -> str:
    """The text of a node of a script, or of several."""
    text = str(text)
    for mark, name in (("\n", "a newline"), ("\r", "a carriage return"), ("\0", "a zero byte")):
        if mark in text:
            raise ValueError(f"a script is one line, and {text!r} has {name}")
    return text


def line(text: str) -> bytes:
    """A request line, as bytes without its newline. Lines without a word, and comments, have no reply and are no
    request.
    """
    if "\n" in text:
        raise ValueError(f"not one request, but several lines: {text!r}")
    words = (text[:-1] if text.endswith("\r") else text).strip(" ")
    if not words or words.startswith("#"):
        raise ValueError(f"not a request: {text!r}")
    return text.encode()


def question(text: str) -> bytes:
    """A question, as bytes without its newline."""
    if lines.first_word(text) in lines.EDITS and lines.is_edit(text):
        raise ValueError(f"not a question, but an edit: {text!r}")
    return line(text)


def path(value: AnyPath) -> str:
    """A path as an argument of the program, which takes a word that begins with `-` for an option."""
    word = os.fsdecode(value)
    try:
        word.encode()
    except UnicodeEncodeError:
        raise ValueError(f"vp8serve takes only paths in UTF-8, and {word!r} is not") from None
    if not word or "\0" in word:
        raise ValueError(f"not a path: {word!r}")
    return f"./{word}" if word.startswith("-") else word


def is_content(value: object) -> bool:
    """Whether a stream is given itself, as bytes or as an open file, and not by its path."""
    return isinstance(value, (bytes, bytearray, memoryview)) or hasattr(value, "read")


def stream(value: Any) -> Any:
    """The path of a stream; `-` is an empty one. What is no path stays as it is."""
    if is_content(value):
        return value
    return "-" if os.fsdecode(value) == "-" else path(value)


def sources(values: Iterable[Any]) -> list[Any]:
    """The paths of source 1 and the ones after it."""
    if isinstance(values, (str, os.PathLike)):
        raise TypeError(f"sources is a list of paths, not the path {os.fsdecode(values)!r}")
    if is_content(values):
        raise TypeError("sources is a list of paths or streams, and not one stream")
    words = [stream(value) for value in values]
    if len(words) > 7:
        raise ValueError(f"{len(words)} sources, but 7 are the most: the stream itself is source 0")
    for word in words:
        if isinstance(word, str) and system.SEPARATOR in word:
            raise ValueError(
                f"{word!r} cannot be a source: vp8serve separates the paths of sources by `{system.SEPARATOR}`. Use a"
                " link with another name"
            )
    return words


def outputs(path: AnyPath, others: Iterable[AnyPath], name: str) -> None:
    """A file that is written must be none of the others, also under another name: that one would be lost."""
    for other in others:
        if other != "-" and is_same_file(path, other):
            raise ValueError(
                f"{os.fsdecode(path)!r} and {os.fsdecode(other)!r} are one file: name another file for {name}"
            )


def is_same_file(one: AnyPath, other: AnyPath) -> bool:
    """Whether two paths name one file, there or not yet. Devices and pipes, as /dev/null, may be named twice."""
    try:
        return os.path.samefile(one, other) and os.path.isfile(one)
    except OSError:
        return os.path.realpath(one) == os.path.realpath(other)
