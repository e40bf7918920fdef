"""The definitions that a contract speaks of, by their names: each definition of crates/CRATE/specs/FILE.antt with its
lines, the names that it uses, and the types of .rt files among them. definitions.py counts with it.
"""

import functools
import pathlib
import re
from dataclasses import dataclass

TOP = pathlib.Path(__file__).resolve().parents[2]
KINDS = r"(?:(?:pub|abbrev|opaque|unfoldable)\s+)*"
# The first line of a definition, or a line that defines a name by cases.
FIRST = re.compile(KINDS + r"(?:(record|data)\s+" + KINDS + r")?([^\s:(){},=]+)(.*)")
TYPED = re.compile(r"\s*(?:\{[^}]*\}\s*|\([^)]*\)\s*)*:")
USE = re.compile(r"^(?:pub )?use (Rattle\.[\w.]*\w)(?:\.\{([^}]*)\}|\s+as\s+(\S+))?", re.M)
GHOST_USE = re.compile(r"^ghost use (Rattle\.[\w.]*\w)\.\{([^}]*)\}", re.M)
WORDS = re.compile(r"[^\s(){}\[\],;:→×⊎]+")
OPERATOR = "◌"


@dataclass(frozen=True)
class Name:
    """A definition: of `specs/FILE.antt`, or a type of `src/FILE.rt`."""

    crate: str
    file: str
    name: str
    is_type: bool = False


class Specification:
    """A file of definitions: the lines of each, and what the names that it imports stand for."""

    def __init__(self, crate, file, text):
        self.crate, self.file = crate, file
        self.lines, self.constructors = {}, {}
        self.imports, self.modules = {}, {}
        self.read_uses("\n".join(line for line in text.splitlines() if not line.lstrip().startswith("--")))
        self.read_definitions(text)

    def read_uses(self, text):
        for module, names, alias in USE.findall(re.sub(r"\{[^}]*\}", lambda part: part[0].replace("\n", " "), text)):
            if alias:
                self.modules[alias] = module
            for name in filter(None, map(str.strip, names.split(","))):
                own = re.split(r"\s+as\s+", name)
                self.imports[own[-1]] = module, own[0]

    def read_definitions(self, text):
        name, is_use = None, False
        for line in text.splitlines():
            if not line.strip() or line.lstrip().startswith("--"):
                continue
            if is_use or line.startswith(("use ", "pub use ")):
                is_use = "}" not in line and (is_use or "{" in line)
                continue
            if not line[0].isspace() and line[0] not in "})":
                kind, found, rest = FIRST.match(line).groups()
                if kind or TYPED.match(rest):
                    name = found
            self.lines.setdefault(name, []).append(line)
            made = re.match(r"\s+(?:pub )?(\S+)\s*:", line)
            if made and re.match(KINDS + "data ", self.lines[name][0]):
                self.constructors[made[1]] = name

    def named(self, word):
        """The definition that a word of this file stands for, or None."""
        head, _, rest = word.partition(".")
        for own in (word, head):
            if own in self.lines or own in self.constructors:
                return Name(self.crate, self.file, self.constructors.get(own, own))
        if head in self.modules and rest:
            return imported(self.modules[head], rest)
        return imported(*self.imports[head]) if head in self.imports else None

    def used_by(self, name):
        """The definitions that one of this file uses."""
        text = "\n".join(self.lines[name])
        words = {word.strip(".λ") for word in WORDS.findall(text)}
        words |= {own for own in self.imports if OPERATOR in own and own.strip(OPERATOR).split(OPERATOR)[0] in text}
        return {self.named(word) for word in words} - {None, Name(self.crate, self.file, name)}


@functools.lru_cache(maxsize=None)
def specification(crate, file):
    path = TOP / "crates" / crate / "specs" / f"{file}.antt"
    return Specification(crate, file, path.read_text(encoding="utf-8")) if path.is_file() else None


def imported(module, name):
    """What a name of a module is: a definition or a type of this repository, or None."""
    crate, is_ours, path = re.match(r"Rattle\.(\w+)(?:(\.specs\.)(.*))?", module).groups()
    if not is_ours or not (TOP / "crates" / crate).is_dir():
        return None
    parts = [part for part in path.split(".") if part != "TheVariants"]
    if parts[0] == "declared":
        return Name(crate, "/".join(parts[1:-1]), parts[-1], True)
    found = specification(crate, parts[0])
    if not found:
        return None
    for own in (name, name.partition(".")[0], *parts[1:]):
        if own in found.lines or own in found.constructors:
            return Name(crate, parts[0], found.constructors.get(own, own))
    # a name that the file passes on
    return imported(*found.imports[name]) if name in found.imports else None


@functools.lru_cache(maxsize=None)
def type_lines(name):
    """The lines of a struct or an enum of a .rt file; none if it is declared elsewhere, as constants are."""
    path = TOP / "crates" / name.crate / "src" / f"{name.file}.rt"
    text = path.read_text(encoding="utf-8") if path.is_file() else ""
    found = re.search(rf"^pub (?:struct|enum) {name.name}\b.*?(?:^\}}|;$)", text, re.M | re.S)
    return (
        [line for line in found[0].splitlines() if line.strip() and not line.strip().startswith("//")] if found else []
    )


@functools.lru_cache(maxsize=None)
def types_of(crate):
    """The public types of a crate, by name."""
    top = TOP / "crates" / crate / "src"
    return {
        name: Name(crate, str(path.relative_to(top))[:-3], name, True)
        for path in sorted(top.rglob("*.rt"))
        for name in re.findall(r"^pub (?:struct|enum) (\w+)", path.read_text(encoding="utf-8"), re.M)
    }


def used_by_type(name):
    """The types of a type's fields."""
    path = TOP / "crates" / name.crate / "src" / f"{name.file}.rt"
    text = path.read_text(encoding="utf-8") if path.is_file() else ""
    for word in set(re.findall(r"\b[A-Z]\w+\b", "\n".join(type_lines(name)))) - {name.name}:
        found = re.search(rf"^(?:pub )?use (\w+)[\w:]*::(?:\{{[^}}]*\b{word}\b[^}}]*\}}|{word});", text, re.M)
        crate = found[1] if found and (TOP / "crates" / found[1]).is_dir() else name.crate
        if word in types_of(crate):
            yield types_of(crate)[word]


def reached(starts, without=()):
    """The definitions and types that some stand on, themselves too; what only those of `without` use is left out."""
    found, left = set(), list(starts)
    while left:
        name = left.pop()
        if name not in found and name not in without:
            found.add(name)
            left += used_by_type(name) if name.is_type else specification(name.crate, name.file).used_by(name.name)
    return found


def spoken_of(crate, files):
    """The definitions and types that contracts of a crate's files name."""
    for file in files:
        text = (TOP / "crates" / crate / "src" / file).read_text(encoding="utf-8")
        for module, names in GHOST_USE.findall(re.sub(r"\{[^}]*\}", lambda part: part[0].replace("\n", " "), text)):
            for name in filter(None, map(str.strip, names.split(","))):
                found = imported(module, re.split(r"\s+as\s+", name)[0])
                if found:
                    yield found


@dataclass
class Reading:
    """What is read together: its definitions and types."""

    names: set

    def files(self):
        return {TOP / "crates" / it.crate / "specs" / f"{it.file}.antt" for it in self.names if not it.is_type}

    def lines(self):
        return sum(len(specification(it.crate, it.file).lines[it.name]) for it in self.names if not it.is_type)

    def types(self):
        return [it for it in self.names if it.is_type and type_lines(it)]

    def lines_of_types(self):
        return sum(len(type_lines(it)) for it in self.types())


MEANS = Name("frame_session", "Answers", "Means")
QUESTIONS = Name("frame_session", "Questions", "AnswersQuestion")
# The outermost calls besides `run`: their files, by crate.
OUTERMOST = {
    "frame_session": ("serving.rt", "live.rt", "session.rt", "session/exports.rt"),
    "serve_program": ("program.rt",),
    "list_program": ("program.rt",),
    "wokureti_c": ("exports.rt",),
}


def readings():
    """Frames, edits and scripts; then what only questions use; then what only the other outermost contracts use."""
    core, means = reached([MEANS], {QUESTIONS}), reached([MEANS])
    others = reached([name for crate, files in OUTERMOST.items() for name in spoken_of(crate, files)])
    return Reading(core), Reading(means - core), Reading(others - means)
