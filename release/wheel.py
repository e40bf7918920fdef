"""Packs the programs for a target and the Python client into a wheel, and unpacks the programs of one."""

import base64
import hashlib
import pathlib
import zipfile

from . import sdk
from .sources import DIST, TOP, Failed
from .targets import PLACE, VERDICT, of_build

CLIENT = TOP / "clients/python/wokureti"
HEADER = TOP / "clients/c/include/wokureti.h"
FILE, PROGRAM = 0o100644, 0o100755


def in_wheel(version, place):
    """The path of a place in the wheel's folder of data."""
    return f"wokureti-{version}.data/{place}"


def about(target, version):
    """The files that say what the wheel is, by their names."""
    summary = "Serves, edits, lists and repairs VP8 streams" + (
        " with proved programs" if target.proof == VERDICT else ""
    )
    metadata = (
        f"Metadata-Version: 2.1\nName: wokureti\nVersion: {version}\nSummary: {summary}\nRequires-Python: >=3.9\n"
        'Provides-Extra: arrays\nRequires-Dist: numpy; extra == "arrays"\nDescription-Content-Type: text/markdown\n\n'
        f"This wheel is for {target.sentence}.\n\n" + (TOP / "docs/guide/python.md").read_text(encoding="utf-8")
    )
    wheel = "Wheel-Version: 1.0\nGenerator: wokureti build.py\nRoot-Is-Purelib: false\n" + "".join(
        f"Tag: py3-none-{tag}\n" for tag in target.tags
    )
    return {
        "METADATA": metadata,
        "WHEEL": wheel,
        "entry_points.txt": "[console_scripts]\nwokureti = wokureti.commands:main\n",
    }


def client_files():
    """The client's files by their paths in the wheel."""
    for path in sorted(CLIENT.rglob("*")):
        if path.is_file() and "__pycache__" not in path.parts:
            yield f"wokureti/{path.relative_to(CLIENT)}", path.read_bytes()


def entries(target, version, programs, shared):
    """The files of the wheel but for its record: path, mode and bytes. `programs` has a path for each (name,
    processor), the library's too, and `shared` a text for each file below share/. What is proved of the programs is in
    the file BUILD of the client."""
    for path, data in client_files():
        yield path, FILE, data
    yield "wokureti/VERSION", FILE, f"{version}\n".encode()
    yield "wokureti/BUILD", FILE, f"{target.sentence}\n".encode()
    for name in target.programs if target.has_launcher else ():
        yield in_wheel(version, f"scripts/{name}"), PROGRAM, (TOP / "release/launcher.sh").read_bytes()
    for (name, cpu), path in sorted(programs.items()):
        yield in_wheel(version, target.place_of(name, cpu)), PROGRAM, pathlib.Path(path).read_bytes()
    yield in_wheel(version, f"data/include/{HEADER.name}"), FILE, HEADER.read_bytes()
    for name, text in sdk.texts("/../../include", version).items() if target.has_sdk else ():
        yield in_wheel(version, f"{PLACE}/{name}"), FILE, text.encode()
    for path, text in sorted(shared.items()):
        yield in_wheel(version, f"data/{path}"), FILE, text.encode()
    for name, text in about(target, version).items():
        yield f"wokureti-{version}.dist-info/{name}", FILE, text.encode()


def write(out, target, version, date, programs, shared):
    """Writes the wheel for a target. Each of its files has the time of the version's day, so that the same files make
    the same wheel.
    """
    record = f"wokureti-{version}.dist-info/RECORD"
    lines = []
    with zipfile.ZipFile(out, "w", zipfile.ZIP_DEFLATED, compresslevel=9) as file:

        def add(path, mode, data):
            info = zipfile.ZipInfo(path, (*map(int, date.split("-")), 0, 0, 0))
            info.external_attr, info.compress_type = mode << 16, zipfile.ZIP_DEFLATED
            file.writestr(info, data)

        for path, mode, data in entries(target, version, programs, shared):
            digest = base64.urlsafe_b64encode(hashlib.sha256(data).digest()).rstrip(b"=").decode()
            lines.append(f"{path},sha256={digest},{len(data)}\n")
            add(path, mode, data)
        add(record, FILE, "".join([*lines, f"{record},,\n"]).encode())


def program(version, name, cpu):
    """The bytes of a program, or of a library, for a processor, of the wheel in dist/ that has it."""
    target = of_build(cpu)
    path = DIST / target.wheel(version)
    try:
        with zipfile.ZipFile(path) as file:
            names = [in_wheel(version, place) for place in target.places_of(name, cpu)]
            return file.read(next((place for place in names if place in file.namelist()), names[0]))
    except (OSError, KeyError, zipfile.BadZipFile) as error:
        raise Failed(f"{path} cannot be read: {error}") from None
