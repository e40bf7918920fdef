#!/usr/bin/env python3
"""Draws docs/stream.svg, docs/flow.svg, and docs/crates.svg from crates.txt: python3 docs/draw.py [--check]

With --check it writes nothing, and ends with 1 if a picture is not the one that it would draw."""

import pathlib
import sys

HERE = pathlib.Path(__file__).resolve().parent
IS_CHECK = sys.argv[1:] == ["--check"]

STYLE = """
  text { font-family: sans-serif; font-size: 13px; fill: #1f2328; }
  .small { font-size: 11px; }
  .head { font-weight: bold; }
  .light { fill: #59636e; }
  .box { fill: #f6f8fa; stroke: #59636e; stroke-width: 1.2; }
  .key { fill: #ddf4ff; stroke: #0969da; stroke-width: 1.8; }
  .hidden { fill: none; stroke: #59636e; stroke-width: 1.2; stroke-dasharray: 4 3; }
  .broken { fill: #ffebe9; stroke: #d1242f; stroke-width: 1.8; }
  .state { fill: #2da44e; }
  .edit { fill: #fff8c5; stroke: #9a6700; stroke-width: 1.8; }
  .again { fill: #9a6700; opacity: 0.22; }
  .line { stroke: #59636e; stroke-width: 1.3; fill: none; }
  .flow { stroke: #0969da; stroke-width: 1.8; fill: none; stroke-dasharray: 6 4; }
  .head-of-flow { fill: #0969da; }
  .equal { fill: #9a6700; stroke: #2da44e; stroke-width: 4; }
  .warn { fill: #d1242f; }
  .mark { fill: #9a6700; }
  .head-of-arrow { fill: #59636e; }
  @media (prefers-color-scheme: dark) {
    text { fill: #f0f6fc; }
    .light { fill: #9198a1; }
    .box { fill: #212830; stroke: #9198a1; }
    .key { fill: #0c2d6b; stroke: #4493f8; }
    .hidden { stroke: #9198a1; }
    .broken { fill: #490202; stroke: #f85149; }
    .state { fill: #3fb950; }
    .edit { fill: #3b2300; stroke: #d29922; }
    .again { fill: #d29922; opacity: 0.28; }
    .line { stroke: #9198a1; }
    .flow { stroke: #4493f8; }
    .head-of-flow { fill: #4493f8; }
    .equal { fill: #d29922; stroke: #3fb950; }
    .warn { fill: #f85149; }
    .mark { fill: #d29922; }
    .head-of-arrow { fill: #9198a1; }
  }
"""


class Drawing:
    def __init__(self, width, height, title):
        self.parts = [
            (
                f'<svg xmlns="http://www.w3.org/2000/svg" viewBox="0 0 {width} {height}" width="{width}"'
                f' height="{height}" role="img">'
            ),
            f"<title>{title}</title>",
            f"<style>{STYLE}</style>",
            (
                '<defs><marker id="arrow" viewBox="0 0 8 8" refX="7" refY="4" markerWidth="7" markerHeight="7"'
                ' orient="auto"><path d="M0,0 L8,4 L0,8 z" class="head-of-arrow"/></marker><marker id="flow" viewBox="0'
                ' 0 8 8" refX="7" refY="4" markerWidth="6" markerHeight="6" orient="auto"><path d="M0,0 L8,4 L0,8 z"'
                ' class="head-of-flow"/></marker></defs>'
            ),
        ]

    def box(self, x, y, width, height, kind="box"):
        self.parts.append(f'<rect x="{x}" y="{y}" width="{width}" height="{height}" rx="5" class="{kind}"/>')

    def text(self, x, y, words, kind="", anchor="middle"):
        words = words.replace("&", "&amp;").replace("<", "&lt;")
        self.parts.append(f'<text x="{x}" y="{y}" text-anchor="{anchor}" class="{kind}">{words}</text>')

    def arrow(self, *points, kind="line"):
        """A call, or with the kind `flow` data."""
        path = " ".join(f"{x},{y}" for x, y in points)
        head = "flow" if kind == "flow" else "arrow"
        self.parts.append(f'<polyline points="{path}" class="{kind}" marker-end="url(#{head})"/>')

    def dot(self, x, y, kind):
        self.parts.append(f'<circle cx="{x}" cy="{y}" r="7" class="{kind}"/>')

    def save(self, name):
        """Writes the picture next to this script, or with --check says that the one there is another, and ends."""
        file, text = HERE / name, "\n".join(self.parts) + "\n</svg>\n"
        if not IS_CHECK:
            file.write_text(text, encoding="utf-8")
        elif not file.is_file() or file.read_text(encoding="utf-8") != text:
            sys.exit(f"{file}: another picture than the sources give: run python3 docs/draw.py")


def stream():
    draw = Drawing(960, 318, "Packets, the frames that they serve, an edit, and the span that is decoded again")
    left, step, size = 96, 70, 54
    kinds = ["key", "edit", "box", "hidden", "box", "box", "key", "box", "broken", "box", "key", "box"]
    names = ["key", "inter", "inter", "hidden", "inter", "inter", "key", "inter", "broken", "inter", "key", "inter"]
    cached = {0: "state", 1: "mark", 2: "mark", 3: "equal", 4: "state", 5: "state", 6: "state", 7: "state"}
    for y, words in [(44, "frames"), (138, "packets"), (202, "cached"), (216, "states")]:
        draw.text(8, y, words, "head", "start")
    draw.box(left + step - 8, 96, 3 * step - 8, 132, "again")
    frame = 0
    for index, kind in enumerate(kinds):
        x = left + index * step
        middle = x + size / 2
        draw.box(x, 106, size, 52, kind)
        draw.text(middle, 128, str(index), "head")
        draw.text(middle, 146, names[index], "small")
        if names[index] != "hidden":
            lost = index in (8, 9)
            draw.arrow((middle, 102), (middle, 62))
            draw.text(middle, 40, str(frame), "warn head" if lost else "head")
            if lost:
                draw.text(middle, 54, "refused", "small warn")
            frame += 1
        if index in cached:
            draw.dot(middle, 206, cached[index])
    draw.text(left + 2.5 * step - 8, 248, "replace 1: packets 1 to 3 are decoded again", "mark")
    draw.text(
        left + 2.5 * step - 8,
        265,
        "the state after packet 3 equals the cached one, so those after it are used again",
        "small light",
    )
    draw.text(left + 8 * step, 192, "packet 8 cannot be decoded: frames 7 and 8", "small warn", "start")
    draw.text(left + 8 * step, 207, "are refused as \u201cpacket 8\u201d, up to the next key", "small warn", "start")
    draw.dot(104, 296, "state")
    draw.text(118, 300, "cached, used again", "small", "start")
    draw.dot(262, 296, "mark")
    draw.text(276, 300, "decoded again", "small", "start")
    draw.dot(380, 296, "equal")
    draw.text(396, 300, "decoded again, and equal", "small", "start")
    draw.text(556, 300, "a hidden packet serves no frame; a key packet needs nothing before it", "small light", "start")
    draw.save("stream.svg")


def groups_of(text):
    """The groups of a crates.txt, lowest first: each its name and its crates, and which groups each group uses."""
    groups, home, uses = {}, {}, {}
    for line in text.splitlines()[1:]:
        if line.startswith("# "):
            name = line[2:]
            groups[name] = []
        elif line.strip():
            crate, _, below = line.partition(":")
            groups[name].append(crate.split()[0])
            home[crate.split()[0]] = name
            uses.setdefault(name, set()).update(home[it] for it in below.split() if it in home)
    return groups, {name: found - {name} for name, found in uses.items()}


def nearest(uses, name):
    """The groups that a group uses and that no other group that it uses does."""
    return [it for it in uses[name] if not any(it in uses.get(other, ()) for other in uses[name])]


# Where a group is in the picture: its row from the top, and the columns of twelfths that it takes.
PLACES = {
    "programs for the gate": (0, 0, 4),
    "tests": (0, 4, 8),
    "vp8serve": (1, 0, 6),
    "the library": (1, 6, 2),
    "vp8list": (1, 8, 4),
    "both programs": (2, 0, 3),
    "session": (2, 3, 9),
    "editing": (3, 2, 10),
    "decoder": (4, 1, 11),
    "bits, files and pixels": (5, 0, 12),
}
LEFT, TWELFTH, GAP, LINE = 8, 78.6, 10, 17


def crates():
    groups, uses = groups_of((HERE.parent / "crates.txt").read_text(encoding="utf-8"))
    boxes, top = {}, 8
    for row in range(1 + max(place[0] for place in PLACES.values())):
        here = [(name, place) for name, place in PLACES.items() if place[0] == row]
        lines = {}
        for name, (_, _, wide) in here:
            columns = max(1, round(wide * TWELFTH / 150))
            lines[name] = -(-len(groups[name]) // columns)
        high = 34 + LINE * max(lines.values())
        for name, (_, first, wide) in here:
            boxes[name] = (LEFT + first * TWELFTH, top, wide * TWELFTH - GAP, high)
        top += high + 34
    draw = Drawing(960, top, "The crates of crates.txt by their groups, and which group uses which")
    for name, (x, y, width, high) in boxes.items():
        draw.box(x, y, width, high, "key" if name in ("decoder", "session") else "box")
        draw.text(x + 10, y + 19, name, "head", "start")
        columns = max(1, round((width + GAP) / 150))
        for number, crate in enumerate(groups[name]):
            draw.text(
                x + 10 + number % columns * (width / columns),
                y + 19 + LINE * (1 + number // columns),
                crate,
                "small",
                "start",
            )
    for name in boxes:
        for number, low in enumerate(sorted(nearest(uses, name))):
            (x, y, width, high), (under, below, wide, _) = boxes[name], boxes[low]
            at = max(x, under) + (0.25 + 0.2 * number) * (min(x + width, under + wide) - max(x, under))
            if y == below:
                (
                    draw.arrow((x + width, y + high / 2), (under - 1, y + high / 2))
                    if x < under
                    else draw.arrow((x, y + high / 2), (under + wide + 1, y + high / 2))
                )
            elif min(x + width, under + wide) > max(x, under):
                draw.arrow((round(at), y + high), (round(at), below - 1))
            else:
                # Nothing of one is above the other: the arrow goes along the gap between their rows.
                draw.arrow(
                    (x + 20, y + high),
                    (x + 20, y + high + 12),
                    (under + wide - 20, y + high + 12),
                    (under + wide - 20, below - 1),
                )
    draw.text(
        LEFT,
        top - 8,
        "An arrow: uses. The groups that a group uses through another one have no arrow.",
        "small light",
        "start",
    )
    draw.save("crates.svg")


# The way of a frame: the stages of a session, each a crate and what it does. The frame goes down.
STAGES = (
    ("stream_sources", "packets, times and rate of each file"),
    ("packet_edits", "edited packets; the script's frame n is packet k"),
    ("state_cache", "the nearest cached state before packet k"),
    ("reference_frames", "steps from there: the decoded picture"),
    ("script_nodes", "the crops and fades of the script"),
    ("frame_session", "the frame, or the packet that broke"),
)
# What a session is given: its place, its name and more of it.
INPUTS = (
    (40, "IVF, WebM, Matroska", "IN and up to seven sources"),
    (132, "AVI, MP4, Ogg, calls", "wokureti copies the packets first"),
    (230, "a list of edits and requests", "delete 3; script fade 0 24 24 256 0"),
)
# What asks a session: its name, the crate or the build that it asks, and who uses it.
HOSTS = (
    ("vp8serve", "serve_program", "request lines in, replies and YUV4MPEG2 out"),
    ("libwokureti", "wokureti_c", "C, Rust, GStreamer, VapourSynth"),
    ("wokureti, Session", "the library, or vp8serve over pipes", "Python, the page of open, serve, mount"),
    ("wokureti.html", "the library in WebAssembly", "the page in one file; not proved"),
)


def check_crates(used):
    """The crates that a picture names are there."""
    names = {
        line.partition(":")[0].split()[0]
        for line in (HERE.parent / "crates.txt").read_text(encoding="utf-8").splitlines()
        if line[:1] not in ("", "#")
    }
    if used - names:
        sys.exit(f"docs/draw.py: crates.txt has no {', '.join(sorted(used - names))}")


def flow():
    check_crates({name for name, _ in STAGES} | {"lossless_cuts", "list_program", "serve_program", "wokureti_c"})
    draw = Drawing(960, 372, "The way of a frame from a file to each host")
    draw.box(270, 8, 330, 356, "key")
    draw.text(282, 28, "a session, proved", "head", "start")
    for number, (crate, does) in enumerate(STAGES):
        top = 40 + 46 * number
        draw.box(282, top, 306, 36)
        draw.text(292, top + 15, crate, "head", "start")
        draw.text(292, top + 30, does, "small light", "start")
        if number:
            draw.arrow((435, top - 10), (435, top - 1), kind="flow")
    draw.box(282, 322, 306, 34)
    draw.text(292, 337, "lossless_cuts", "head", "start")
    draw.text(292, 351, "an export: the packets of the frames, some hidden", "small light", "start")
    draw.arrow((435, 306), (435, 321), kind="flow")
    for top, name, more in INPUTS:
        draw.box(8, top, 222, 40)
        draw.text(18, top + 17, name, "head", "start")
        draw.text(18, top + 33, more, "small light", "start")
    draw.arrow((230, 58), (281, 58), kind="flow")
    draw.arrow((119, 132), (119, 81), kind="flow")
    draw.arrow((230, 250), (281, 276))
    draw.box(8, 310, 222, 46)
    draw.text(18, 328, "vp8list (list_program)", "head", "start")
    draw.text(18, 345, "reads a file and asks no session", "small light", "start")
    for number, (name, asks, users) in enumerate(HOSTS):
        top = 40 + 66 * number
        draw.box(650, top, 302, 54)
        draw.text(660, top + 17, name, "head", "start")
        draw.text(660, top + 32, asks, "small", "start")
        draw.text(660, top + 47, users, "small light", "start")
        draw.arrow((588, 288), (620, 288), (620, top + 27), (649, top + 27), kind="flow")
    draw.box(650, 316, 302, 40)
    draw.text(660, 333, "an IVF file", "head", "start")
    draw.text(660, 349, "--save, --export; wokureti writes WebM with sound", "small light", "start")
    draw.arrow((588, 338), (649, 338), kind="flow")
    draw.save("flow.svg")


stream()
crates()
flow()
