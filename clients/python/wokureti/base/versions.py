"""The version of the client, which is that of the programs that it came with, and what is proved of these."""

import os
import pathlib

HERE = pathlib.Path(__file__).resolve().parents[1]
# A wheel has the file in the package, a checkout at its top.
FILES = (HERE / "VERSION", HERE.parents[2] / "VERSION")
# The sentence of a wheel, and the line of the file that build.py writes next to the programs of a checkout.
SENTENCE, BUILT, LINE = HERE / "BUILD", HERE.parents[2] / "bin/.built", "proof: "
NAMED = ("VP8SERVE", "VP8LIST", "LIBWOKURETI")


def version() -> str:
    """The text of the file VERSION; of a client that was installed without its programs, what pip noted."""
    for path in FILES:
        if path.is_file():
            return path.read_text(encoding="ascii").strip()
    import importlib.metadata

    return importlib.metadata.version("wokureti")


def proof() -> str:
    """What is proved of the build that runs, by a sentence with the system that it is for; or why that is not known."""
    named = [f"{name} names {os.environ[name]}" for name in NAMED if os.environ.get(name)]
    if named:
        return f"what is proved of it is not known: {', '.join(named)}"
    if SENTENCE.is_file():
        return SENTENCE.read_text(encoding="utf-8").strip()
    lines = BUILT.read_text(encoding="utf-8").splitlines() if BUILT.is_file() else []
    return next(
        (line[len(LINE) :] for line in lines if line.startswith(LINE)),
        "what is proved of it is not known: this client came without programs",
    )
