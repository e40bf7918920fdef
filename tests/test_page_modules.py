#!/usr/bin/env python3
"""The modules of the page without a browser: `node --test` over clients/python/tests/page, `tsc --checkJs` over all,
which have no line of more than 120 characters.

It prints what is wrong and ends with 1, or prints nothing and ends with 0; a line `skipped: ..` names what could not be
run.
"""

import os
import pathlib
import re
import shutil
import subprocess
import sys
import tempfile

TOP = pathlib.Path(__file__).resolve().parent.parent
PAGE, HERE = TOP / "clients/python/wokureti/page", TOP / "clients/python/tests/page"
TESTS = sorted(HERE.glob("*.test.mjs"))
LIMIT, WIDTH = 600, 120
# Members that a class has of those that extend it, or of the module that makes its objects: tsc does not see them.
GIVEN = {
    "Contents": "sizes stamps tags hashes",
    "Editing": "cutting viewer",
    "Exporting": "done",
    "Index": "lasting usual",
    "Lane": "current selection select go clicked draw isRuler isSnap onview",
    "Looks": "contents causesOf current damaged frameCount revision scriptText",
    "Packets": "tags",
    "Player": "onchange onframe",
    "Programme": "thumbs waves",
    "Programme | Timeline": "onview",
    "Refused": "isOfOtherSize isUnsure",
    "Timeline": "curve ondraw",
    "Viewer": "choose_view choose_plane choose_size",
}
UNSEEN = re.compile(r"error TS(?:2339|2551): Property '(\w+)' does not exist on type '([^']+)'")
# Mistakes that tsc must find: in a module a text, and what is in its place.
PLANTED = (
    ("sound.js", "this.audio.pause()", "this.audio.pauze()"),
    ("curves.js", "new Map(points)", "new Map(point)"),
    ("model.js", "this.selection.end", "this.selektion.end"),
    ("thumbs.js", "toColour(frame)", "toColour(frame, 1)"),
    ("keys.js", "event.defaultPrevented", "event.defaultPrevent"),
    ("engines/stream.js", "this.files[0].head", "this.heads[0].head"),
)


def ran(*words, folder=None):
    # Node reports to a parent of the same kind if it finds this name.
    room = {name: value for name, value in os.environ.items() if name != "NODE_TEST_CONTEXT"}
    streams = {"stdout": subprocess.PIPE, "stderr": subprocess.STDOUT, "text": True}
    return subprocess.run(list(map(str, words)), timeout=LIMIT, check=False, env=room, cwd=folder, **streams)


def tested():
    """The tests that fail."""
    done = ran("node", "--no-warnings", "--test", "--test-reporter=spec", *TESTS)
    if done.returncode:
        yield done.stdout[-6000:]


def split(text):
    """The parts of a list between the commas that are in no brackets."""
    found, depth = [""], 0
    for letter in text:
        depth += (letter in "([{") - (letter in ")]}")
        if letter == "," and not depth:
            found.append("")
        else:
            found[-1] += letter
    return [part.strip() for part in found if part.strip()]


def assigned(found):
    """`Object.assign(this, { a, b: 1 })` as assignments of members, which tsc reads."""
    lines = []
    for part in split(found.group(1)):
        name, _, value = part.partition(":")
        lines.append(part[3:] if part.startswith("...") else f"this.{name} = {value.strip() or name}")
    return "; ".join(lines) + ";"


def paired(found):
    """`[this.a, this.b] = [1, 2]` with these assignments after it, which are never made."""
    names, values = split(found.group(1)), split(found.group(2))
    if len(names) != len(values) or not all(name.startswith("this.") for name in names):
        return found.group(0)
    lines = " ".join(f"{name} = {value};" for name, value in zip(names, values))
    return f"{found.group(0)} if (0) {{ {lines} }}"


def copy(folder):
    """A copy of the page in which tsc sees the members of objects, line by line."""
    for name in ("browsers.d.ts", "tsconfig.json"):
        shutil.copyfile(HERE / name, folder / name)
    for path in PAGE.rglob("*.js"):
        text = path.read_text(encoding="utf-8")
        text = re.sub(r"Object\.assign\(this, \{\s(.*?)\s\}\);", assigned, text, flags=re.S)
        text = re.sub(r"^ *\[(this\.[^\]]*)\] = \[([^;]*?)\];$", paired, text, flags=re.M)
        other = folder / "page" / path.relative_to(PAGE)
        other.parent.mkdir(parents=True, exist_ok=True)
        other.write_text(text, encoding="utf-8")


def mistakes(folder):
    """What tsc finds in a copy."""
    used = set()
    for line in ran("tsc", "-p", ".", folder=folder).stdout.splitlines():
        unseen = UNSEEN.search(line)
        if unseen and unseen.group(1) in GIVEN.get(unseen.group(2), "").split():
            used.add(unseen.group(2))
        elif not line.startswith(" "):
            yield line
    yield from (f"tsc sees all members of {name}: GIVEN has it for nothing" for name in sorted({*GIVEN} - used))


def checked():
    """What tsc finds, and which mistakes that are planted it does not."""
    with tempfile.TemporaryDirectory() as name:
        folder = pathlib.Path(name)
        copy(folder)
        found = list(mistakes(folder))
        if found:
            yield from found
            return
        for module, old, new in PLANTED:
            path = folder / "page" / module
            text = path.read_text(encoding="utf-8")
            if old not in text:
                yield f"{module} has no {old}"
            path.write_text(text.replace(old, new), encoding="utf-8")
        found = list(mistakes(folder))
        yield from (
            f"tsc does not find {new} in {name}" for name, _, new in PLANTED if f"page/{name}(" not in str(found)
        )


def long_lines(folder):
    """The lines of modules with more characters than a line may have."""
    return [
        f"{path.relative_to(folder)}:{number}: {len(line)} characters, at most {WIDTH}"
        for path in sorted(folder.rglob("*.js"))
        for number, line in enumerate(path.read_text(encoding="utf-8").split("\n"), 1)
        if len(line) > WIDTH
    ]


def narrow():
    """The long lines of the page, and whether one that is planted is not found."""
    yield from long_lines(PAGE)
    with tempfile.TemporaryDirectory() as name:
        pathlib.Path(name, "planted.js").write_text(f"// {'a' * WIDTH}\n", encoding="utf-8")
        if not long_lines(pathlib.Path(name)):
            yield f"a line of more than {WIDTH} characters is not found"


def main():
    wrong = [] if TESTS else ["clients/python/tests/page has no test"]
    wrong += narrow()
    for program, what, act in (("node", "the page's functions", tested), ("tsc", "the page's types", checked)):
        if shutil.which(program):
            wrong += act()
        else:
            print(f"skipped: {what}: {program} is not there")
    print("".join(f"{line}\n" for line in wrong), end="")
    return 1 if wrong else 0


if __name__ == "__main__":
    sys.exit(main())
