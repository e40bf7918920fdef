"""The commands and programs of a section of docs/guide/c.md, for the tests that run them."""

import pathlib
import shutil
import subprocess

TOP = pathlib.Path(__file__).resolve().parent.parent


def blocks(title):
    """The texts that are indented in the section with this title, in order: each without its indentation. It ends at
    the next heading, of whichever level.
    """
    lines = (TOP / "docs/guide/c.md").read_text(encoding="utf-8").splitlines()
    start = next(place for place, line in enumerate(lines) if line in (f"## {title}", f"### {title}")) + 1
    end = next((place for place in range(start, len(lines)) if lines[place].startswith("#")), len(lines))
    found = [[]]
    for line in lines[start:end]:
        if line.startswith("    "):
            found[-1].append(line[4:])
        elif line or not found[-1]:
            found.append([])
        else:
            found[-1].append("")
    return ["\n".join(block).strip("\n") + "\n" for block in found if any(block)]


def checkout(folder, library):
    """Makes a folder in which the commands can run: `clients`, and `bin` with what `./serve.sh` puts there for a
    compiler.
    """
    (folder / "bin").mkdir(parents=True)
    (folder / "clients").symlink_to(TOP / "clients")
    for name in ("libwokureti.so", "libwokureti.so.0"):
        (folder / "bin" / name).symlink_to(library)
    shutil.copyfile(TOP / "clients/c/include/wokureti.h", folder / "bin/wokureti.h")
    return folder


def run(text, folder, room, limit=120):
    """The lines of a block as a shell script that ends at the first error: its status and what it writes."""
    done = subprocess.run(
        ["bash", "-euc", text], cwd=folder, env=room, capture_output=True, text=True, timeout=limit, check=False
    )
    return done.returncode, done.stdout + done.stderr
