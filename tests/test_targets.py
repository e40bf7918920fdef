#!/usr/bin/env python3
"""Tests the table of systems (release/targets.py) and what is refused of a build for ARM: the documents have the table,
each machine its target, a library or program that asks the system for too much is refused, a missing compiler is named,
and tests/install/targets.py reports each difference.

It prints what differs and ends with 1, or prints nothing but what it skipped, and ends with 0.
"""

import contextlib
import hashlib
import io
import os
import pathlib
import re
import subprocess
import sys
import tempfile
from unittest import mock

TOP = pathlib.Path(__file__).resolve().parent.parent
sys.dont_write_bytecode = True
sys.path[:0] = [str(TOP), str(TOP / "tests/install"), str(TOP / "compare")]
import build  # noqa: E402
import targets as compared  # noqa: E402
from release import arm, others, targets, wheel  # noqa: E402
from release.sources import Failed, sum_of  # noqa: E402

LIMIT = 60
# The functions that a library may ask for, each called once.
ASKS = """#include <stdlib.h>
#include <string.h>
void *wk_{name}(void *a, void *b, size_t n) {{
    memcpy(a, b, n); memmove(b, a, n); memset(a, 1, n); free(b);
    return realloc(malloc(n), n + 1); }}
"""
wrong = []


def expect(name, got, wanted):
    if got != wanted:
        wrong.append(f"{name}: {got!r:.300}, not {wanted!r:.300}")


def check_table():
    """docs/design/proofs.md has the table, README.md each system that has a file, each wheel a name of its own, and
    each build one target.
    """
    text = (TOP / "docs/design/proofs.md").read_text(encoding="utf-8")
    expect(
        "lines that docs/design/proofs.md does not have",
        [line for line in targets.table() if line not in text.splitlines()],
        [],
    )
    shown = dict(
        re.findall(r"(?m)^\| ([^|]+?) \|[^|]*\| ([^|]+?) \|$", (TOP / "README.md").read_text(encoding="utf-8"))
    )
    wanted = {
        target.name: "yes" if target.proof == targets.VERDICT else "no" for target in (*targets.SHIPPED, targets.PAGE)
    }
    expect("what README.md says is proved", {name: shown.get(name, "")[:3].strip(";: ") for name in wanted}, wanted)
    names = [target.wheel("1.2.3") for target in targets.SHIPPED]
    expect("names of wheels", len(set(names)), len(targets.SHIPPED))
    builds = [name for target in targets.TARGETS for name in target.builds]
    expect("builds", len(set(builds)), len(builds))
    expect(
        "targets of builds",
        [targets.of_build(name) for name in builds],
        [target for target in targets.TARGETS for _ in target.builds],
    )
    # "Proved" is said of what the kit's verdict is about, and of nothing else.
    proved = [target.name for target in targets.TARGETS if target.proof == targets.VERDICT]
    expect("what is proved", proved, ["Linux on x86-64", "Linux on ARM"])
    expect(
        "what is not",
        [
            target.name
            for target in targets.TARGETS
            if target.name not in proved and not target.proof.startswith("not proved: ")
        ],
        [],
    )


def check_machines():
    known = [
        ("Linux", "x86_64", targets.X86_64),
        ("Linux", "aarch64", targets.ARM),
        ("Windows", "AMD64", targets.WINDOWS),
        ("Darwin", "arm64", targets.MACOS),
    ]
    for system, machine, wanted in [*known, ("Linux", "riscv64", None)]:
        with mock.patch("platform.system", lambda: system), mock.patch("platform.machine", lambda: machine):
            expect(f"{system} on {machine}", targets.here(), wanted)


def refused(check, path):
    """What the check says of a file, or nothing if it passes."""
    try:
        check(path)
    except Failed as failed:
        return str(failed).removeprefix(f"{path} ")
    return ""


def compiled(folder, name, text, *options):
    source, made = folder / f"{name}.c", folder / name
    source.write_text(text)
    subprocess.run(
        [f"{arm.PREFIX}gcc", "-O1", "-fno-builtin", *options, "-o", made, source],
        check=True,
        capture_output=True,
        timeout=LIMIT,
    )
    return made


def check_refusals(folder):
    """Libraries and programs that are linked for this test: what of them is refused."""
    calls = [
        "close",
        "export",
        "frame",
        "open",
        "open_bytes",
        "request",
        "save",
        "save_source",
        "text",
        "version",
        "why",
    ]
    whole = "\n".join(ASKS.format(name=name) for name in calls)
    shared = ("-shared", "-fPIC", "-nostartfiles")
    expect("a library as it must be", refused(arm.check_library, compiled(folder, "whole", whole, *shared)), "")
    more = compiled(folder, "more", whole + '#include <stdio.h>\nvoid other(void) { puts(""); }\n', *shared)
    asked = ", ".join(sorted(arm.ASKED))
    expect(
        "one that prints",
        refused(arm.check_library, more),
        f"asks the system for {asked.replace('set,', 'set, puts,')}, not for {asked}",
    )
    fewer = compiled(folder, "fewer", "\n".join(ASKS.format(name=name) for name in calls[1:]), *shared)
    expect("one without a call", refused(arm.check_library, fewer).startswith("exports wk_export, "), True)
    with mock.patch.object(arm, "NEWEST", (2, 16)):
        expect(
            "one for a newer glibc",
            refused(arm.check_library, folder / "whole").endswith("of GLIBC_2.17: the wheel is for glibc 2.16"),
            True,
        )
    program = "int main(void) { return 0; }\n"
    expect("a static program", refused(arm.check_program, compiled(folder, "static", program, "-static")), "")
    expect(
        "one with a dynamic linker",
        refused(arm.check_program, compiled(folder, "dynamic", program)),
        "needs a dynamic linker",
    )
    expect(
        "one for this processor",
        refused(arm.check_program, os.path.realpath(sys.executable)).endswith("is not for aarch64"),
        True,
    )


def check_missing(folder):
    """Without the cross compiler nothing is built for ARM, that is said, and what was built before is removed."""
    old = folder / arm.FOLDER / "vp8serve"
    old.parent.mkdir()
    old.write_text("of other sources")
    errors = io.StringIO()
    only = mock.patch.object(others, "BUILDERS", {targets.ARM: arm})
    with (
        mock.patch.dict(os.environ, PATH="/nowhere"),
        mock.patch.object(build, "BIN", folder),
        only,
        contextlib.redirect_stderr(errors),
    ):
        expect("status without the compiler", build.make_others(), 0)
        expect(
            "a build without it",
            refused(lambda _: arm.programs(folder, True, print), ""),
            f"nothing is built for Linux on ARM: {arm.missing()}",
        )
        expect("what is said", errors.getvalue(), f"build.py: skipped: Linux on ARM: {arm.missing()}\n")
    expect("what was built before", old.exists(), False)


def check_dist(folder):
    """A dist/ with a wheel for each system passes as it was written; not with another file, a changed wheel, or the
    digest of another program.
    """
    dist, made, names = folder / "dist", {}, {"version": build.version()}
    for target in targets.SHIPPED:
        made[target] = {(name, cpu): folder / f"{name} for {cpu}" for name in target.files for cpu in target.builds}
        for (name, cpu), path in made[target].items():
            path.write_text(f"{name} for {cpu}")
            names[build.name_of(name, cpu)] = sum_of(path)
    with (
        mock.patch.object(build, "DIST", dist),
        mock.patch.object(wheel, "DIST", dist),
        contextlib.redirect_stderr(io.StringIO()) as errors,
    ):
        names[build.PAGE] = hashlib.sha256(b"the page").hexdigest()
        build.pack(made, names, {}, b"the page")
        expect("what a version adds to git", errors.getvalue().count(" MB"), len(targets.SHIPPED) + 2)
        expect("a dist/ as it was written", refused(lambda _: build.check_wheels(names), ""), "")
        expect(
            "another digest",
            refused(lambda _: build.check_wheels({**names, "program vp8list for aarch64": "-"}), ""),
            "the wheel's vp8list for aarch64 is not the one of dist/SOURCES",
        )
        (dist / "wokureti-0.1.0.whl").write_text("an earlier one")
        expect(
            "another file",
            refused(lambda _: build.check_wheels(names), ""),
            "dist/ has files that dist/SOURCES does not name: wokureti-0.1.0.whl",
        )
        (dist / "wokureti-0.1.0.whl").unlink()
        (dist / build.PAGE_FILE).write_bytes(b"another page")
        expect(
            "another page",
            refused(lambda _: build.check_wheels(names), ""),
            f"dist/{build.PAGE_FILE} is not the page of dist/SOURCES",
        )
        (dist / build.PAGE_FILE).unlink()
        expect(
            "no page",
            refused(lambda _: build.check_wheels(names), ""),
            f"dist/{build.PAGE_FILE} is not the page of dist/SOURCES",
        )
        file = targets.ARM.wheel(build.version())
        (dist / file).write_bytes((dist / file).read_bytes() + b"x")
        expect(
            "a changed wheel",
            refused(lambda _: build.check_wheels(names), ""),
            f"dist/{file} is not the wheel for Linux on ARM of dist/SOURCES",
        )


def check_page(folder):
    """The page of dist/ is compared, byte for byte, if dist/ is of the same files; a page or a module that is another
    one is refused.
    """
    from release import page, web

    with mock.patch.object(web, "module", lambda *given: b"a module"), contextlib.redirect_stderr(io.StringIO()):
        data, names = build.made_page(folder)
        dist = {"version": build.version(), **names}
        expect("the page again", (build.made_page(folder)[0] == data, build.verify_page(dist, folder)), (True, ""))
        for name in ("module in WebAssembly", build.PAGE):
            expect(
                f"another {name}",
                refused(lambda wrong: build.verify_page(wrong, folder), {**dist, name: "-"}),
                f"the {name} is not the one of dist/",
            )
        expect("no page", build.verify_page({"version": "1.2.3"}, folder), f"dist/ has no {page.NAME}")
        expect(
            "other files",
            build.verify_page({**dist, "sources of the page": "-"}, folder),
            f"the page of dist/ is of an earlier state of version {build.version()}, so it is not compared",
        )


def check_comparison(folder):
    """A program that differs in one byte, in its status, or in a file that it writes is reported, and one that is the
    same is not.
    """
    case = compared.Case(
        "vp8serve",
        ["a.ivf", "-", "out.y4m"],
        "frame 0\n",
        {"a.ivf": (TOP / "examples/mandelbrot.ivf").read_bytes()},
        ("out.y4m",),
    )
    serve = compared.NATIVE["vp8serve"][0]
    for name, text, parts in (
        ("same", f'exec "{serve}" "$@"', []),
        ("another byte", f'"{serve}" "$@" | tr 0 1', ["output"]),
        ("another status", f'"{serve}" "$@"; exit 3', ["status"]),
        ("another message", f'echo x >&2; exec "{serve}" "$@"', ["errors"]),
        ("another file", f'"{serve}" "$@"; printf x >> out.y4m', ["out.y4m"]),
        ("one file more", f'touch more; exec "{serve}" "$@"', ["more"]),
    ):
        program = folder / name
        program.write_text(f"#!/bin/sh\n{text}\n")
        program.chmod(0o755)
        found, count = compared.differences({"other": {"vp8serve": [str(program)]}}, "a clip", [case])
        expect(name, ([line.split(": ")[1] for line in found], count), ([f"{part} of other" for part in parts], 1))


def main():
    check_table()
    check_machines()
    with tempfile.TemporaryDirectory() as name:
        folder = pathlib.Path(name)
        if arm.missing():
            print(f"skipped: what is refused of a build for {targets.ARM.name}: {arm.missing()}")
        else:
            check_refusals(folder)
        check_missing(folder)
        check_dist(folder)
        check_page(folder)
        check_comparison(folder)
    print(*wrong, sep="\n", end="\n" if wrong else "")
    return 1 if wrong else 0


if __name__ == "__main__":
    sys.exit(main())
