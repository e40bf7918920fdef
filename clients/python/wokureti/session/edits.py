"""The list of the accepted edits of a session: `vp8serve IN LIST` runs it, and it is all that there is to save of an
edit.

A line of the list is a request line, as in docs/reference/requests.md: `delete 3`, `use 1`, `script trim 0 0 50`. If
the list has a file, each edit is in it before the call that made it returns. Comments and empty lines of the file are
left where they are. Two comments are read: the first line says which stream the list is of, and `# step 3 Repair all`
that the next three edits are one step for `undo`.
"""

from __future__ import annotations

import bisect
import contextlib
import os
import re
import warnings
from itertools import accumulate
from typing import TYPE_CHECKING, Callable, Iterable, Iterator, Optional, Sequence, Tuple, Union

from ..errors import NotWritten, OtherStream, Refused, sentence
from ..base.checks import AnyPath
from ..base.files import write_whole
from ..base.lines import first_word, is_edit, lines_in, plain, question_before, rest_of, words_of
from . import named
from .contents import Contents, Operation, Plan
from .edit_files import EditFile

if TYPE_CHECKING:
    from .session import Session

STEP = re.compile(r"# step (\d{1,9})(?: (.*))?")
STREAM = re.compile(r"# wokureti: edits of (\d+) packets, (\d+) bytes, sha256 ([0-9a-f]{64})")
# The reply to an edit, which may be a refusal, and what the edit lost.
Answered = Tuple[Union[str, Refused], str]
# Characters of the title of a step.
MOST_TITLE = 100


class Entry:
    """An edit: its line, the lines of the file before it, the step that it belongs to, what it lost, and what takes it
    back, once that is known. The first edit of a step has its title."""

    def __init__(self, line: str, step: int, before: str = "", title: str = "", lost: str = "") -> None:
        self.line = line
        self.step = step
        self.before = before
        self.title = title
        self.lost = lost
        self.inverse: Optional[Operation] = None
        # The sources that the comments before it name.
        self.sources: tuple[int, ...] = ()

    @property
    def text(self) -> str:
        return f"{self.before}{self.line}\n"

    @property
    def undoing(self) -> Operation:
        """What takes it back, which is known where the contents are."""
        assert self.inverse is not None
        return self.inverse

    @property
    def is_use(self) -> bool:
        return first_word(self.line) == "use"


def parsed(text: str, step: int = 0) -> tuple[list[Entry], list[int], str]:
    """The edits of the text of a list as entries, the number of the line of each, and the lines after the last one.
    Steps are numbered from `step` + 1 on."""
    entries: list[Entry] = []
    numbers: list[int] = []
    sources: list[int] = []
    before, left, title = "", 0, ""
    for number, line in enumerate(lines_in(text), 1):
        if not is_edit(line):
            before += f"{line}\n"
            found = STEP.fullmatch(line.removesuffix("\r"))
            if found:
                left, title = int(found.group(1)), found.group(2) or ""
                step += 1
            else:
                sources += [one.number for one in [named.of_line(line)] if one is not None]
            continue
        if not left:
            step += 1
        entries.append(Entry(plain(line), step, before, title))
        entries[-1].sources = tuple(sources)
        numbers.append(number)
        left, before, title, sources = max(0, left - 1), "", "", []
    return entries, numbers, before


class EditList:
    """The accepted edits of a session, in their order."""

    def __init__(self, session: Session, path: Optional[AnyPath] = None, anyway: bool = False) -> None:
        self._session = session
        self._anyway = anyway
        self._entries: list[Entry] = []
        self._undone: list[list[Entry]] = []
        self._after = ""
        self._contents: Optional[Contents] = None
        self._step = 0
        self._depth = 0
        # How many entries the file has, and where each of them ends in it.
        self._ends: list[int] = []
        # The file that was named, the one that has the edits, and what is known of it once it is closed.
        self._named: Optional[str] = None
        self._path: Optional[str] = None
        self._known: Optional[tuple[int, int, int, int]] = None
        self._file: Optional[EditFile] = None
        # Called with a sentence if the file is another one than was thought; without it that is a warning.
        self.on_notice: Optional[Callable[[str], None]] = None
        if path is not None:
            self._use(EditFile(os.fsdecode(path)))
            self._named = self._path

    def _use(self, file: EditFile) -> None:
        self._file, self._path = file, file.path
        if self._contents is not None:
            self._contents.edits_path = file.path

    def __iter__(self) -> Iterator[str]:
        return iter([entry.line for entry in self._entries])

    def __len__(self) -> int:
        return len(self._entries)

    @property
    def entries(self) -> list[Entry]:
        """The edits, with their steps: those of one step are taken back together."""
        return self._entries

    def text(self) -> str:
        """The list as text."""
        return "".join(entry.text for entry in self._entries)

    def save(self, path: AnyPath) -> None:
        """Writes the list to another file."""
        write_whole(path, [self.text().encode()])

    @property
    def path(self) -> Optional[str]:
        """The file of the list, or None."""
        return self._path

    @property
    def written(self) -> int:
        """How many of the edits are in the file, on the disk."""
        return len(self._ends)

    @property
    def undone(self) -> list[str]:
        """The lines that `redo` makes again, the next one first."""
        return [entry.line for group in reversed(self._undone) for entry in group]

    def close(self) -> None:
        """The file stays as it is, unless somebody replaced it, or edits are not in it yet."""
        if self._file is None:
            return
        try:
            if self._entries:
                self._write()
        except OSError as error:
            self._say(sentence(error))
        file, self._file = self._file, None
        self._known = file.known
        file.close()

    def _say(self, text: str) -> None:
        if self.on_notice is not None:
            self.on_notice(text)
        else:
            warnings.warn(text, RuntimeWarning, stacklevel=3)

    def load(self) -> None:
        """Makes the edits of the file."""
        if self._file is None:
            return
        path, text = self._file.path, self._file.text()
        if text and not text.endswith("\n"):
            last = lines_in(text)[-1]
            raise ValueError(
                f"{path}: the last line has no newline, so it may be cut off: {last[:80]!r}. End the line, or"
                " delete it"
            )
        entries, numbers, after = self._parsed(text, path)
        plan = self._replay(entries, path, numbers)
        self._entries, self._after = entries, after
        self._know(self._contents, entries, plan)
        self._step = entries[-1].step if entries else 0
        place = 0
        lines = lines_in(text)
        for before, number in zip([0, *numbers], numbers):
            place += sum(len(line.encode()) + 1 for line in lines[before:number])
            self._ends.append(place)

    def run(self, path: AnyPath) -> None:
        """Makes the edits of a list, which is only read. `ValueError` if one is refused: those that were made by then
        are in this list.
        """
        with open(path, encoding="utf-8") as file:
            text = file.read()
        name = os.fsdecode(path)
        entries, numbers, _ = self._parsed(text, name)
        with self._session.turn():
            replies, plan = self._send([entry.line for entry in entries])
            self.accept(
                [
                    (entry.line, lost)
                    for entry, (reply, lost) in zip(entries, replies)
                    if not isinstance(reply, Refused)
                ],
                plan,
            )
            check(entries, name, numbers, replies)

    def _parsed(self, text: str, path: str) -> tuple[list[Entry], list[int], str]:
        """The entries of a list, which must be of this stream."""
        found = STREAM.fullmatch(text.split("\n", 1)[0].removesuffix("\r"))
        if found and not self._anyway:
            packets, size, digest = int(found.group(1)), int(found.group(2)), found.group(3)
            item = self._session._inputs.all[0]
            if (packets, size) != item.extent() or digest != item.digest():
                raise OtherStream(path, (packets, size), item.extent())
        if not self._anyway:
            self._check_sources(text, path)
        return parsed(text, self._step)

    def _check_sources(self, text: str, path: str) -> None:
        """The sources that a list names must be those of the session, as far as it has them."""
        for one in {one.number: one for one in map(named.of_line, lines_in(text)) if one is not None}.values():
            if not 1 <= one.number < len(self._session._inputs.all):
                continue
            item = self._session._inputs.all[one.number]
            if (one.packets, one.size) != item.extent() or one.digest != item.digest():
                raise OtherStream(path, (one.packets, one.size), item.extent(), one.number, one.path)

    def _replay(self, entries: list[Entry], path: str, numbers: Iterable[int]) -> Optional[Plan]:
        replies, plan = self._send([entry.line for entry in entries])
        check(entries, path, numbers, replies)
        for entry, (_, lost) in zip(entries, replies):
            entry.lost = lost
        return plan

    def resume(self, other: EditList) -> None:
        """Goes on with the list of a session that ended: with its edits, those too that its file does not have, and
        with what was undone.
        """
        plan = self._replay(other._entries, other.path or "the list of edits", range(1, len(other._entries) + 1))
        self._entries, self._undone, self._after, self._step = other._entries, other._undone, other._after, other._step
        for entry in self._entries:
            entry.inverse = None
        self._know(self._contents, self._entries, plan)
        self.on_notice, self._ends, self._path, self._named = other.on_notice, other._ends, other._path, other._named
        if self._path is None:
            return
        with contextlib.suppress(OSError, ValueError):
            file = EditFile(self._path)
            if file.known == other._known:
                self._use(file)
            else:
                file.close()
        try:
            self._write()
        except OSError as error:
            self._say(sentence(error))

    def contents(self) -> Contents:
        """Which packets there are after the edits, which is found when it is needed first."""
        if self._contents is None:
            contents = Contents(self._session, self.path)
            self._know(contents, self._entries)
            self._contents = contents
        return self._contents

    @staticmethod
    def _know(contents: Optional[Contents], entries: Sequence[Entry], plan: Optional[Plan] = None) -> None:
        """Follows accepted edits in the contents, if these were needed before, and finds what takes each of them
        back.
        """
        if contents is None:
            return
        inverses = contents.apply_all([entry.line for entry in entries]) if plan is None else contents.adopt(plan)
        for entry, inverse in zip(entries, inverses):
            entry.inverse = contents.whole_by(inverse, entry.lost)
        contents.kept.add(
            one.packet
            for one in (entry.undoing for entry in entries)
            if one.is_lost and one.packet is not None and one.packet < contents.of_files
        )

    @property
    def current(self) -> int:
        """The current source: that of the last accepted `use`."""
        if self._contents is not None:
            return self._contents.current
        return next((int(words_of(entry.line)[1]) for entry in reversed(self._entries) if entry.is_use), 0)

    def _send(
        self, lines: Sequence[str], timeout: Optional[float] = None, progress: Optional[Callable[[int], None]] = None
    ) -> tuple[list[Answered], Optional[Plan]]:
        """Sends edits, each after the question what it loses. For each that was sent the reply, which may be a refusal,
        and what was lost; and the plan that was made of them, if none was refused. `progress` is called with how many
        were made."""
        questions, plan = list(map(question_before, lines)), None
        count = sum(question is not None for question in questions)
        if count > 1 or (count and self._contents is not None):
            plan = self.contents().planned(list(map(plain, lines)))
        if plan is not None:
            questions = [None if is_of_file else question for question, is_of_file in zip(questions, plan.of_file)]
        replies = self._ask(questions, lines, timeout, progress)
        return replies, None if refusal_of(replies) else plan

    def _ask(
        self,
        questions: Sequence[Optional[str]],
        lines: Iterable[str],
        timeout: Optional[float],
        progress: Optional[Callable[[int], None]] = None,
    ) -> list[Answered]:
        """Sends edits, each after a question, if there is one. For each that was sent the reply, and what was lost."""
        sent = (text for pair in zip(questions, lines) for text in pair if text is not None)
        ends = list(accumulate(1 + (question is not None) for question in questions))
        told = None if progress is None else lambda done: progress(bisect.bisect_right(ends, done))
        replies, found = iter(self._session.request_all(sent, timeout, told)), []
        for question in questions:
            answer = next(replies, None) if question is not None else None
            reply = next(replies, None)
            if reply is None:
                break
            found.append((reply, rest_of(answer) if isinstance(answer, str) else ""))
        return found

    def question(self, line: str) -> Optional[str]:
        """The question what an edit loses, or None if it loses nothing, or a packet that a file has."""
        return None if self._contents is not None and self._contents.takes_of_file(line) else question_before(line)

    @contextlib.contextmanager
    def step(self, title: str = "") -> Iterator[None]:
        """Edits in the block are one step for `undo`, which may have a title. They are in the file when the block
        ends.
        """
        if self._depth == 0:
            self._step += 1
            start = len(self._entries)
        self._depth += 1
        try:
            yield
        finally:
            self._depth -= 1
            if self._depth == 0:
                self._name(self._entries[start:], title)
                self._write()

    def _name(self, group: list[Entry], title: str) -> None:
        """Puts the comment before the edits of a step that says how many they are."""
        title = " ".join(title.split())[:MOST_TITLE]
        if len(group) > 1:
            group[0].title = title
            group[0].before += f"# step {len(group)} {title}".rstrip() + "\n"

    def _new_step(self) -> None:
        if self._depth == 0:
            self._step += 1

    def accept(self, edits: Iterable[tuple[str, str]], plan: Optional[Plan] = None) -> None:
        """Adds edits that the program accepted, pairs of a line and what it lost. They are followed here, unless that
        was planned.
        """
        entries: list[Entry] = []
        for line, lost in edits:
            self._new_step()
            before = self._after or ("" if self._entries or entries else self._first_line())
            sources: dict[int, str] = {} if entries else self._unnamed()
            entries.append(Entry(line, self._step, before + "".join(sources.values()), lost=lost))
            entries[-1].sources = tuple(sources)
            self._after = ""
        self._know(self._contents, entries, plan)
        self._entries += entries
        self._undone.clear()
        self._write()

    def _first_line(self) -> str:
        """The comment that says which stream a list is of. A stream that was overwritten since has none."""
        if self._file is None:
            return ""
        item = self._session._inputs.all[0]
        try:
            return "# wokureti: edits of {} packets, {} bytes, sha256 {}\n".format(*item.extent(), item.digest())
        except OSError:
            return ""

    def _unnamed(self) -> dict[int, str]:
        """The comments for the sources that the list does not name yet, by their numbers."""
        items = self._session._inputs.all
        if self._file is None or len(items) == 1:
            return {}
        known = {source for entry in self._entries for source in entry.sources}
        folder = os.path.dirname(os.path.realpath(self._file.path))
        found: dict[int, str] = {}
        for number, item in enumerate(items[1:], 1):
            if number not in known and item.descriptor is not None:
                with contextlib.suppress(OSError):
                    found[number] = named.line_of(number, item, folder)
        return found

    def _write(self) -> None:
        """Brings the file up to date. `NotWritten` if that fails: the next edit tries again."""
        if self._path is None or self._depth:
            return
        file = self._file
        change = "is not open any more" if file is None else file.change()
        if file is None or change is not None:
            self._move(self._path, f"{self._path} {change}")
            return
        del self._ends[len(self._entries) :]
        new = [entry.text.encode() for entry in self._entries[len(self._ends) :]]
        start = self._ends[-1] if self._ends else 0
        if not new and start == file.size:
            return
        try:
            file.write(b"".join(new), start)
        except OSError as error:
            raise NotWritten(error, self._path, len(new), self.written) from None
        self._extend(new)

    def _extend(self, new: list[bytes]) -> None:
        """The file has these entries more."""
        place = self._ends[-1] if self._ends else 0
        for text in new:
            place += len(text)
            self._ends.append(place)

    def _move(self, path: str, why: str) -> None:
        """Writes the whole list to another file, since the one that it had is no more its own: what somebody else wrote
        is left as it is.
        """
        new = [entry.text.encode() for entry in self._entries]
        self._ends = []
        try:
            file = EditFile.beside(self._named or path)
            try:
                file.write(b"".join(new), 0)
            except BaseException:
                file.close()
                raise
        except OSError as error:
            raise NotWritten(error, path, len(new), 0, why) from None
        if self._file is not None:
            self._file.close()
        self._use(file)
        self._extend(new)
        count = len(new)
        self._say(
            f"{why} while it was open: {'the edit is' if count == 1 else f'all {count} edits are'} in {self._path} now"
        )

    def run_step(
        self,
        lines: Iterable[str],
        timeout: Optional[float] = None,
        progress: Optional[Callable[[int], None]] = None,
        title: str = "",
    ) -> str:
        """Makes edits as one step, and returns the reply to the last one. If one is refused, none is made, and what was
        undone can be made again as before. `progress` is called with the number of edits that were made."""
        with self._session.turn(timeout):
            return self._run_step(list(lines), timeout, progress, title)

    def _run_step(
        self, lines: list[str], timeout: Optional[float], progress: Optional[Callable[[int], None]], title: str
    ) -> str:
        count, undone, after = len(self._entries), list(self._undone), self._after
        # After a refusal the program may have made some of the edits that follow it: those are taken back too.
        replies, plan = self._send(lines, timeout, progress)
        refused, made = refusal_of(replies), [
            (plain(line), lost) for line, (reply, lost) in zip(lines, replies) if not isinstance(reply, Refused)
        ]
        if refused is None:
            with self.step(title):
                self.accept(made, plan)
            last = replies[-1][0] if replies else ""
            assert isinstance(last, str)
            return last
        self._depth += 1
        try:
            new = self.contents().next_number
            self.accept(made)
            self._take_back(self._entries[count:], timeout, new)
            del self._entries[count:]
            self._undone, self._after = undone, after
        finally:
            self._depth -= 1
            # If there is no memory to take them back, the edits before the refused one stay, in the program and in the
            # list.
            self._write()
        raise refused

    def _last_group(self) -> int:
        """How many entries the last step has, with the `use` lines after it."""
        count, step = 0, None
        for entry in reversed(self._entries):
            if step is None and not entry.is_use:
                step = entry.step
            elif step is not None and entry.step != step:
                break
            count += 1
        return count

    def undo(self, timeout: Optional[float] = None) -> list[str]:
        """Takes back the last step, and returns its lines."""
        if not self._entries:
            return []
        group = self._entries[len(self._entries) - self._last_group() :]
        self._take_back(group, timeout)
        del self._entries[len(self._entries) - len(group) :]
        self._undone.append(group)
        self._write()
        return [entry.line for entry in group]

    def _take_back(self, group: list[Entry], timeout: Optional[float], new: Optional[int] = None) -> None:
        """Takes back the last entries, the last one first."""
        # What takes an entry back is found when the contents are.
        self.contents()
        self._perform([entry.undoing for entry in reversed(group)], timeout, new)

    def _perform(
        self, operations: Sequence[Operation], timeout: Optional[float], new: Optional[int] = None
    ) -> list[Operation]:
        """Makes changes that are not listed, and returns what takes each of them back. If one is refused because memory
        ran out, those that were made are taken back."""
        contents = self.contents()
        if not all(contents.has_whole(operation, new) for operation in operations):
            raise Refused("refused NoMemory", "there was no memory to ask for what the edit took away")
        contents.has_inserted_again = contents.has_inserted_again or any(
            operation.word == "insert" for operation in operations
        )
        texts = (contents.whole(operation).line for operation in operations)
        # What is taken away here was made by edits, so it is asked for.
        replies = self._ask([question_before(operation.line) for operation in operations], texts, timeout)
        refused, made = refusal_of(replies), [
            (operation, lost) for operation, (reply, lost) in zip(operations, replies) if not isinstance(reply, Refused)
        ]
        inverses = contents.perform_all([operation for operation, _ in made])
        done = [contents.whole_by(inverse, lost) for inverse, (_, lost) in zip(inverses, made)]
        if refused is not None:
            for operation in reversed(done):
                self._session.request(contents.whole(operation).line, timeout, listed=False)
                contents.perform(operation)
            raise refused
        return done

    def redo(self, timeout: Optional[float] = None) -> list[str]:
        """Makes the step again that was taken back last, and returns its lines."""
        if not self._undone:
            return []
        group, contents = self._undone[-1], self.contents()
        new = contents.next_number
        replies, plan = self._send([entry.line for entry in group], timeout)
        refused, made = refusal_of(replies), []
        for entry, (reply, lost) in zip(group, replies):
            if not isinstance(reply, Refused):
                entry.lost = lost
                made.append(entry)
        self._know(contents, made, plan)
        if refused is not None:
            self._perform([entry.undoing for entry in reversed(made)], timeout, new)
            raise refused
        self._undone.pop()
        self._entries += group
        self._write()
        return [entry.line for entry in group]


def check(entries: Iterable[Entry], path: str, numbers: Iterable[int], replies: Iterable[Answered]) -> None:
    """`ValueError` if an edit of a list was refused, which names its line."""
    for entry, number, (reply, _) in zip(entries, numbers, replies):
        if isinstance(reply, Refused):
            why = (
                "Another stream is missing: name it with --source"
                if names_source(entry.line, reply)
                else "The list is not of this stream"
            )
            raise ValueError(f"{path}, line {number}: {entry.line[:80]}: {reply}. {why}") from None


def names_source(line: str, refused: Refused) -> bool:
    """Whether an edit was refused that names a source which may not be there."""
    return refused.word == "Source" or (
        first_word(line) == "script"
        and refused.word in ("Reference", "Number")
        and "source" in words_of(line.replace(";", " "))
    )


def refusal_of(replies: Iterable[Answered]) -> Optional[Refused]:
    """The first refusal of pairs of a reply and what was lost, or None."""
    return next((reply for reply, _ in replies if isinstance(reply, Refused)), None)
