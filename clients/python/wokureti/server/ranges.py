"""Byte ranges of HTTP (RFC 9110, section 14)."""

from __future__ import annotations

import re
from typing import Mapping, Optional

from ..errors import Refuse


def parse_range(text: str, length: int) -> Optional[tuple[int, int]]:
    """The first byte and the end of a Range header, or None if all bytes are to be sent: several ranges, or other
    units.

    `Refuse` with 416 if the range begins after the end.
    """
    found = re.fullmatch(r"bytes=[ \t]*([0-9]*)-([0-9]*)[ \t]*", text)
    if not found or found.groups() == ("", "") or max(map(len, found.groups())) > 30:
        return None
    first, last = found.groups()
    if first == "":
        start, end = max(0, length - int(last)), length
        if int(last) == 0:
            start = length
    else:
        start = int(first)
        if last != "" and int(last) < start:
            return None
        end = min(length, int(last) + 1) if last != "" else length
    if start >= length:
        raise Refuse(416, f"the range begins after the last byte: there are {length}")
    return start, end


def is_etag_of(text: str, etag: str) -> bool:
    """Whether a header such as If-None-Match names this tag, or any."""
    return text.strip() == "*" or etag in [word.strip().removeprefix("W/") for word in text.split(",")]


def wanted(headers: Mapping[str, str], length: int, etag: str) -> Optional[tuple[int, int]]:
    """The range that is to be sent of a text with this tag, or None for all of it."""
    text = headers.get("range")
    if text is None:
        return None
    condition = headers.get("if-range")
    if condition is not None and condition.strip() != etag:
        return None
    return parse_range(text, length)
