#!/usr/bin/env python3
"""Picks sentences of the documents at random, to check them manually: claims.py N [SEED]

Each has a name in backquotes or a number. Sentences are those of README.md, docs/guide, docs/reference and docs/design;
a row of a table counts as one. Each is printed with its document and line.
"""

import pathlib
import random
import re
import sys

TOP = pathlib.Path(__file__).resolve().parent.parent
# The numbers of a numbered list, and targets of links, are no claims.
CLAIM = re.compile(r"`[^`]+`|(?<![\w#.-])\d[\d,.]*")
END = re.compile(r"(?<=[.:;!?])\s+(?=[A-Z`*\[])")


def documents():
    return [
        TOP / "README.md",
        *sorted(path for name in ("guide", "reference", "design") for path in (TOP / "docs" / name).glob("*.md")),
    ]


def paragraphs(text):
    """Paragraphs, items of lists and rows of tables, each with its first line; indented code is left out."""
    found, start = [], 0
    for number, line in enumerate([*text.splitlines(), ""], 1):
        begins = line.startswith(("|", "- ", "#")) or re.match(r"\d+\. ", line)
        if found and (begins or not line.strip() or line.startswith("    ")):
            yield start, " ".join(found)
            found = []
        if line.strip() and not line.startswith(("    ", "#", "|--", "![")):
            start = start if found else number
            found.append(line.strip())


def claims():
    for path in documents():
        for number, text in paragraphs(path.read_text(encoding="utf-8")):
            plain = re.sub(r"\]\([^)]*\)", "]", re.sub(r"^(\d+\.|-) ", "", text))
            for sentence in [plain] if plain.startswith("|") else END.split(plain):
                if CLAIM.search(sentence):
                    yield f"{path.relative_to(TOP)}:{number}: {sentence}"


def main(words):
    if not words or not all(word.isdigit() for word in words) or len(words) > 2:
        sys.exit(__doc__.splitlines()[0])
    found = list(claims())
    picked = random.Random(int(words[1]) if words[1:] else None).sample(found, min(int(words[0]), len(found)))
    print(*picked, sep="\n")
    print(f"{len(picked)} of {len(found):,} claims")


if __name__ == "__main__":
    main(sys.argv[1:])
