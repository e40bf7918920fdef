#!/usr/bin/env python3
"""Checks how the Python of this tree is written: Debian's black leaves each file as it is, no line has more than 120
characters, mypy finds nothing in the package, and a module of it imports none of a higher layer. Then each check gets
a file with a mistake, which it must find.

It prints what is wrong and ends with 1, or ends with 0. A line `skipped: ..` names a program that is not there.
"""

import ast
import os
import pathlib
import shutil
import subprocess
import sys
import tempfile

sys.dont_write_bytecode = True
TOP = pathlib.Path(__file__).resolve().parent.parent
CLIENT = TOP / "clients/python"
WIDTH, LIMIT = 120, 900
BLACK = ("black", "--check", "-q", "-l", str(WIDTH), "-t", "py39")
# The folders and modules of the package, the lowest layer first.
LAYERS = (
    ("system", "errors", "base"),
    ("media",),
    ("calls",),
    ("session",),
    ("tools",),
    ("server",),
    ("page",),
    ("commands",),
    ("__main__",),
)
LAYER_OF = {name: number for number, names in enumerate(LAYERS) for name in names}
# A mistake for each check.
UNFORMATTED = "numbers = [1,2]\n"
LONG = f'"""{"a" * WIDTH}"""\n'
UPWARD = "from ..tools import cat\n"
UNTYPED = "def half(number):\n    return number / 2\n"


def tracked():
    """The Python files of this tree that git knows, or all of them where there is no git."""
    done = subprocess.run(["git", "-C", TOP, "ls-files", "-z", "*.py"], capture_output=True, check=False, timeout=LIMIT)
    if done.returncode:
        return sorted(path for name in ("bench", "clients", "release", "tests") for path in (TOP / name).rglob("*.py"))
    return [
        TOP / os.fsdecode(name) for name in done.stdout.split(b"\0") if name and (TOP / os.fsdecode(name)).is_file()
    ]


def said(words, **more):
    """What a program that checks says, or an empty list if it has found nothing."""
    done = subprocess.run(
        list(map(str, words)), capture_output=True, text=True, check=False, timeout=LIMIT, cwd=CLIENT, **more
    )
    if not done.returncode:
        return []
    return [*done.stdout.splitlines(), *done.stderr.splitlines()] or [f"{words[0]}: status {done.returncode}"]


def unformatted(paths):
    """The files that black would change."""
    # It says which only if it is not quiet, and then it praises the others too.
    wrong = said([*BLACK, *paths])
    if not wrong or len(paths) == 1:
        return [f"{path}: black -l {WIDTH} would change it" for path in paths] if wrong else []
    half = len(paths) // 2
    return unformatted(paths[:half]) + unformatted(paths[half:])


def long_lines(paths):
    """The lines with more characters than a line may have."""
    return [
        f"{path}:{number}: {len(line)} characters, at most {WIDTH}"
        for path in paths
        for number, line in enumerate(path.read_text(encoding="utf-8").split("\n"), 1)
        if len(line) > WIDTH
    ]


def untyped(paths):
    """What mypy finds in these modules, or in a package."""
    if not paths:
        return []
    with tempfile.TemporaryDirectory() as cache:
        return said(["mypy", "--config-file", CLIENT / "pyproject.toml", "--cache-dir", cache, *paths])


def imported(path, tree):
    """The first names of what a module of the package imports from the package, with their lines."""
    folder = path.parent.name if path.parent.parent.name == "wokureti" else None
    for node in ast.walk(tree):
        if isinstance(node, ast.ImportFrom) and node.level:
            # `from . import names` in a folder is of that folder.
            inside = folder is not None and node.level == 1
            names = [folder] if inside else [node.module] if node.module else [alias.name for alias in node.names]
            yield from ((name.partition(".")[0], node.lineno) for name in names)


def upward(paths):
    """What modules import of a layer above their own."""
    for path in paths:
        own = path.parent.name if path.parent.parent.name == "wokureti" else path.stem
        for name, line in imported(path, ast.parse(path.read_text(encoding="utf-8"))):
            # The package itself says its version.
            if own != "__init__" and name != "__version__" and LAYER_OF[name] > LAYER_OF[own]:
                yield f"{path}:{line}: {own} imports {name}, which is of a higher layer"


def planted(check, text):
    """Whether a check finds nothing in a file with a mistake, in the layer of media."""
    with tempfile.TemporaryDirectory() as folder:
        path = pathlib.Path(folder, "wokureti/media/planted.py")
        path.parent.mkdir(parents=True)
        path.write_text(text)
        return [] if list(check([path])) else [f"{check.__name__} does not find {text!r:.60}"]


def main():
    # Lines of compare/ are older than this limit.
    paths = tracked()
    checks = [
        (long_lines, [path for path in paths if TOP / "compare" not in path.parents], LONG),
        (upward, [path for path in paths if CLIENT / "wokureti" in path.parents], UPWARD),
    ]
    for name, check, read, mistake in (
        ("black", unformatted, paths, UNFORMATTED),
        ("mypy", untyped, [CLIENT / "wokureti"], UNTYPED),
    ):
        if shutil.which(name):
            checks.append((check, read, mistake))
        else:
            print(f"skipped: tests/test_python_style.py: {name} is not there")
    wrong = [line for check, read, mistake in checks for line in [*check(read), *planted(check, mistake)]]
    print(*wrong, sep="\n", end="\n" if wrong else "")
    return 1 if wrong else 0


if __name__ == "__main__":
    sys.exit(main())
