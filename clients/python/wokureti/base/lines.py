"""Request lines, replies and scripts as words: the only place where the client splits them. docs/reference/requests.md
has the requests.
"""

from __future__ import annotations

import json
from typing import Any, Optional

# The requests that change something.
EDITS = frozenset(("use", "insert", "replace", "delete", "move", "copy", "blank", "hold", "hide", "show", "script"))
# The requests that are not edits, and the first word of their replies. The reply to an edit begins with `ok`.
REPLIES = {
    "frame": "served",
    "count": "packets",
    "stats": "decoded",
    "packet": "packet",
    "list": "lines",
    "origins": "lines",
    "header": "lines",
    "macroblocks": "lines",
    "check": "lines",
}
# The edits after which the bytes that a packet had are nowhere in the session.
LOSING = frozenset(("delete", "replace", "hide", "show"))


def words_of(line: str) -> list[str]:
    """The words of a line, which spaces separate."""
    words = line.removesuffix("\r").split(" ")
    return [word for word in words if word] if "" in words else words


def plain(line: str) -> str:
    """A line with one space between its words."""
    return " ".join(words_of(line))


def first_word(line: str) -> str:
    """The first word of a line, or an empty text."""
    line = line.lstrip(" ")
    end = line.find(" ")
    return line.removesuffix("\r") if end < 0 else line[:end]


def asks_for_script(word: str, line: str) -> bool:
    """Whether a line that begins with this word is `script` alone, which asks for the script."""
    return word == "script" and len(words_of(line)) == 1


def is_edit(line: str) -> bool:
    """Whether a line of a list is an edit, and not a comment or another request."""
    word = first_word(line)
    return bool(word) and word not in REPLIES and not word.startswith("#") and not asks_for_script(word, line)


def begins_reply(line: str) -> str:
    """The first word of the reply to a line, if it is not refused."""
    word = first_word(line)
    return word if asks_for_script(word, line) else REPLIES.get(word, "ok")


def question_before(line: str) -> Optional[str]:
    """The question whose answer has what an edit loses, so that it can be taken back, or None if it loses nothing."""
    word = first_word(line)
    if word in LOSING:
        return " ".join(["packet", *words_of(line)[1:2]])
    return word if word == "script" and not asks_for_script(word, line) else None


def is_refusal(reply: str) -> bool:
    return reply.startswith("refused ")


def rest_of(reply: str) -> str:
    """A reply without its first word."""
    return reply.partition(" ")[2]


def lines_in(text: str) -> list[str]:
    """The lines of a text of requests or of replies. The last one may lack its newline."""
    lines = text.split("\n")
    return lines if lines[-1] else lines[:-1]


def lines_of(reply: str) -> list[str]:
    """The lines of a reply after its first one."""
    return reply.split("\n")[1:]


def objects_of(reply: str) -> list[Any]:
    """The objects of a reply of several lines."""
    return list(map(json.loads, lines_of(reply)))


def nodes_of(script: str) -> list[list[str]]:
    """The nodes of a script, each as its words."""
    return [] if script == "-" else [words_of(node) for node in script.split(";")]


def spaced(script: str) -> str:
    """A script as the session has it, with a space after each node, as people write it."""
    return script.replace(";", "; ")
