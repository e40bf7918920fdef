#!/usr/bin/env python3
"""Tests the engine of the page in one file in Node: its frames of all stored clips and conformance streams, its replies
to random requests, and the files that its edits save are those of vp8serve; files, lists and requests that it refuses.
tests/test_one_file.py opens the page in browsers.

The page is that of the variable WOKURETI_PAGE, or bin/wokureti.html: ./build.py --web makes it. It prints what differs
and ends with 1, or prints nothing and ends with 0; a line `skipped: ..` names what could not be run.
"""

import base64
import gzip
import hashlib
import json
import os
import pathlib
import random
import re
import shutil
import subprocess
import sys
import tempfile

TOP = pathlib.Path(__file__).resolve().parent.parent
sys.path[1:1] = [str(TOP), str(TOP / "clients/python"), str(TOP / "compare")]
import test_library  # noqa: E402
from wokureti import Session  # noqa: E402
from wokureti.base.lines import is_edit  # noqa: E402
from wokureti.media import ivf  # noqa: E402
from release import page  # noqa: E402
from release.sources import Failed, version  # noqa: E402
from library.webm import webm  # noqa: E402

PAGE = pathlib.Path(os.environ.get("WOKURETI_PAGE") or TOP / "bin/wokureti.html")
SERVE = os.environ.get("VP8SERVE") or str(TOP / "bin/vp8serve")
CLIPS = sorted((TOP / "crates/gate_clips/data").glob("*.ivf"))
STREAMS = sorted((TOP / "conformance/streams").rglob("*.ivf"))
EXAMPLE = TOP / "examples/mandelbrot.ivf"
LIMIT, LISTS, SAVES = 300, 40, 20
EDITED = ("hidden-altref", "scene-cuts", "golden-references", "small", "odd-size", "hidden-and-dropped")


def ran(*words, **more):
    return subprocess.run(list(map(str, words)), capture_output=True, timeout=LIMIT, check=False, **more)


class Node:
    """The page's worker in Node."""

    def tasks(self, tasks):
        """The result of each task."""
        done = ran(
            "node",
            TOP / "tests/web_session.js",
            PAGE,
            input="".join(json.dumps(task, default=str) + "\n" for task in tasks),
            text=True,
        )
        lines = done.stdout.splitlines()
        if done.returncode or len(lines) != len(tasks):
            raise SystemExit(
                f"Node: status {done.returncode}, {len(lines)} of {len(tasks)} results: {done.stderr[-1000:]}"
            )
        return [json.loads(line) for line in lines]


def served(path):
    """For each frame of a stream the MD5 of its samples, or why vp8serve refuses it. A run of vp8serve serves frames of
    one size.
    """
    count = int(ran(SERVE, path, input=b"count\n").stdout.split()[3])
    found, left = [None] * count, list(range(count))
    while left:
        with tempfile.TemporaryDirectory() as folder:
            out = pathlib.Path(folder, "out.y4m")
            done = ran(SERVE, path, "-", out, "--explain", input="".join(f"frame {n}\n" for n in left).encode())
            samples = pieces(out.read_bytes())
        reasons = dict(line.split(": frame: ", 1) for line in done.stderr.decode().splitlines() if ": frame: " in line)
        replies = dict(zip(left, done.stdout.decode().splitlines()))
        for line, n in enumerate(left):
            found[n] = (
                hashlib.md5(next(samples)).hexdigest() if replies[n] == f"served {n}" else reasons[f"line {line + 1}"]
            )
        left = [n for n, reply in replies.items() if reply == "refused SizeDiffers"]
    return found


def pieces(text):
    """The samples of each frame of a YUV4MPEG2 text."""
    samples = test_library.frames_of(text)
    if not text:
        return iter(())
    width, height = (int(word[1:]) for word in text.split(b"\n", 1)[0].split()[1:3])
    size = width * height + 2 * ((width + 1) // 2) * ((height + 1) // 2)
    return iter([samples[at : at + size] for at in range(0, len(samples), size)])


def frames(node):
    """All frames of all streams, in order and backwards."""
    paths = [*CLIPS, *STREAMS, EXAMPLE]
    for path, result in zip(paths, node.tasks([{"file": path} for path in paths])):
        wanted = served(path)
        for name in ("found", "again"):
            if result.get(name) != wanted:
                differ = [n for n, (mine, other) in enumerate(zip(result.get(name, []), wanted)) if mine != other]
                yield (
                    f"{path.name}, {name}:"
                    f" {result.get('error') or [(n, result[name][n], wanted[n]) for n in differ[:2]]}"
                )


def lists(node, chance, folder):
    """Random request lists: replies, samples and the saved file."""
    tasks, wanted = [], []
    for number in range(LISTS):
        clip, states, counts = chance.choice(CLIPS), chance.choice((1, 2, 32)), number % 3 == 0
        text = test_library.requests(chance, 1, 30, counts)
        out, y4m, mine, other = (folder / f"{number}.{name}" for name in ("frames", "y4m", "mine.ivf", "other.ivf"))
        done = ran(SERVE, clip, "-", y4m, "--cache", states, "--save", other, input=text.encode())
        lines = [line.removesuffix("\r") for line in text.splitlines()]
        tasks.append({"file": clip, "states": states, "lines": lines, "out": None if counts else out, "save": mine})
        wanted.append((done.stdout.decode(), y4m, other))
    for task, result, (replies, y4m, other) in zip(tasks, node.tasks(tasks), wanted):
        where = f"a list over {task['file'].name}"
        # The scripts ask for a served frame again, which changes what `stats` counts.
        mine = [line for line in result.get("replies", []) if not line.startswith("decoded ")]
        if mine != [line for line in replies.splitlines() if not line.startswith("decoded ")]:
            yield f"{where}: other replies {result.get('error')}"
        elif task["out"] and task["out"].read_bytes() != test_library.frames_of(y4m.read_bytes()):
            yield f"{where}: other samples"
        elif task["save"].read_bytes() != other.read_bytes():
            yield f"{where}: another file"


def questions(node, folder):
    """Questions whose replies have several lines: packets, a header, macroblocks, also after an edit."""
    lines = [
        "list 0 4",
        "header 0",
        "macroblocks 0",
        "delete 1",
        "macroblocks 1",
        "header 2",
        "list 0 3",
        "origins 0 5",
    ]
    tasks = [
        {"file": path, "states": 4, "lines": lines, "out": None, "save": folder / "questions.ivf"}
        for path in CLIPS
        if path.stem in EDITED
    ]
    for task, result in zip(tasks, node.tasks(tasks)):
        wanted = ran(SERVE, task["file"], input="".join(f"{line}\n" for line in lines).encode()).stdout.decode()
        if "".join(f"{reply}\n" for reply in result.get("replies", [])) != wanted:
            yield f"questions of {task['file'].name}: other replies {result.get('error')}"


def bounded(node, folder):
    """The pictures of a hundred packets of 2048x2048 take more than the editor's limit. The file's header has no size
    to reckon with.
    """
    path, count = folder / "large.ivf", 100
    ran(SERVE, "-", "-", "--save", path, input=b"count\n")
    lines = ["blank 0 2048 2048"] * count + [f"frame {n}" for n in range(count)]
    (result,) = node.tasks([{"file": path, "lines": lines, "out": None, "save": folder / "large-saved.ivf"}])
    if result.get("replies") != [f"ok {n + 1}" for n in range(count)] + [f"served {n}" for n in range(count)]:
        yield f"large pictures: {result.get('error') or 'other replies'}"
    elif result["memory"] > 2**29:
        yield f"large pictures: {result['memory']} bytes of memory"


def saved(node, chance, folder):
    """Random lists of edits as steps, of which some are undone and made again: files that are saved and exported are
    those that vp8serve writes with the same lines.
    """
    tasks, wanted = [], []
    for number in range(SAVES):
        clip = chance.choice([EXAMPLE, *(path for path in CLIPS if path.stem in EDITED)])
        lines = [line for line in test_library.requests(chance, 1, 20, False).splitlines() if is_edit(line.strip())]
        accepted = made(clip, lines)
        mine, other, exported, export = (
            folder / f"{number}-{name}.ivf" for name in ("mine", "other", "exported", "export")
        )
        asks = [["ask", [[line], {}]] for line in accepted]
        if accepted:
            asks += [["ask", ["undo", {}]], ["ask", ["redo", {}]]]
        asks += [["save", [0]], ["lines", []], ["beside.export", [accepted]]]
        tasks.append({"files": [clip], "asks": asks, "saves": [mine, export]})
        text = "".join(f"{line}\n" for line in accepted).encode()
        restamps = ["--restamp"] if is_changed(clip, text) else []
        ran(SERVE, clip, "-", "--save", other, "--pad", *restamps, input=text)
        wanted.append(
            (accepted, other, exported, ran(SERVE, clip, "-", "--export", exported, "--pad", input=text).returncode)
        )
    for task, result, (accepted, other, exported, status) in zip(tasks, node.tasks(tasks), wanted):
        mine, export = task["saves"]
        where = f"{task['files'][0].name}, {'; '.join(accepted)[:300]}"
        if result.get("error") or result["results"][-2] != accepted:
            yield f"{where}: {result.get('error') or result['results'][-2]}"
        elif mine.read_bytes() != other.read_bytes():
            yield f"{where}: another file is saved"
        elif (status == 0) != export.is_file() or (status == 0 and export.read_bytes() != exported.read_bytes()):
            yield f"{where}: another export, status {status}, {result['results'][-1]}"


def made(clip, lines):
    """The lines that vp8serve accepts one after the other."""
    replies = ran(SERVE, clip, input="".join(f"{line}\n" for line in lines).encode()).stdout.decode().splitlines()
    return [" ".join(line.split()) for line, reply in zip(lines, replies) if reply.startswith("ok ")]


def is_changed(clip, text):
    """Whether the packets of source 0 are others after these lines."""
    with Session(clip) as session:
        for line in text.decode().splitlines():
            session.request(line)
        contents = session.edits.contents()
        return contents.is_edited(0, contents.streams[0])


def refused(node, folder):
    """Files that are refused, lists that are not this stream's, and requests of another revision: each is a sentence,
    and nothing is lost.
    """
    files = {
        "empty.ivf": b"",
        "text.ivf": b"a text and no stream " * 9,
        "other.webm": webm([b"\0" * 40], [0], codec=b"V_VP9"),
        "short.ivf": EXAMPLE.read_bytes()[:20],
    }
    says = {"empty.ivf": "Header", "text.ivf": "Magic", "other.webm": "NoVideo", "short.ivf": "Header"}
    tasks = []
    for name, data in files.items():
        (folder / name).write_bytes(data)
        tasks.append({"files": [EXAMPLE], "asks": [["add", [{"file": folder / name}]], ["state", []]]})
    for (name, word), result in zip(says.items(), node.tasks(tasks)):
        said, state = result.get("results", [None] * 4)[2:4]
        if (
            not said
            or word not in said.get("refused", {}).get("error", "")
            or state["packets"] != 48
            or len(state["sources"]) != 1
        ):
            yield f"{name}: {result.get('error') or said} {state and state['sources']}"
    yield from lists_of_others(node)
    (result,) = node.tasks(
        [
            {
                "files": [EXAMPLE],
                "asks": [
                    ["ask", [["delete 3"], {"revision": 9}]],
                    ["ask", [["delete 3", "delete 99"], {}]],
                    ["ask", [["delete 3"], {}]],
                    ["state", []],
                ],
            }
        ]
    )
    stale, second, fine, state = result["results"][2:]
    if (
        "changed" not in stale["refused"]["error"]
        or second["refused"]["reply"] != "refused Place"
        or fine["reply"] != "ok 47"
        or state["edits"] != ["delete 3"]
    ):
        yield f"refused edits: {stale}, {second}, {fine['reply']}, {state['edits']}"


def lists_of_others(node):
    """A list that the browser kept may be anybody's."""
    with Session(EXAMPLE) as session:
        item = session.edits.contents().inputs.all[0]
        first = "# wokureti: edits of {} packets, {} bytes, sha256 {}\n".format(*item.extent(), item.digest())
    good = f"{first}delete 3\n# step 2 <b>Two</b>\ndelete 4\nhold 2\n"
    bad = {
        "of another stream": "# wokureti: edits of 9 packets, 9 bytes, sha256 " + 64 * "0" + "\ndelete 3\n",
        "no edit": f"{first}frame 3\n",
        "a question": f"{first}script\n",
        "refused": f"{first}delete 3\ndelete 999\n",
        "cut off": f"{first}delete 3",
        "no list": "\0\1\2",
        "empty": "",
        "a carriage return": f"{first}delete 3\rdelete 4\n",
    }
    texts = [good, *bad.values()]
    for name, result in zip(
        ["good", *bad],
        node.tasks([{"files": [EXAMPLE], "asks": [["take", [text]], ["state", []], ["text", []]]} for text in texts]),
    ):
        if result.get("error"):
            yield f"a list, {name}: {result['error']}"
            continue
        taken, state, text = result["results"][2:]
        wanted = (True, ["delete 3", "delete 4", "hold 2"], good) if name == "good" else (False, [], first)
        if (taken["isTaken"], state["edits"], text) != wanted or bool(state["notices"]) != (name != "good"):
            yield f"a list, {name}: {taken}, {state['edits']}, {state['notices']}, {text!r}"


def previews(node):
    """Frames and findings after edits that are not made change nothing: no edit, no redo, no file."""
    given = [["ask", [["delete 5"], {}]], ["ask", [["hold 3"], {}]], ["ask", ["undo", {}]]]
    after = [["state", []], ["text", []]]
    looks = [
        ["beside.frames", [["delete 5", "delete 7"], [0, 7]]],
        ["beside.findings", [["delete 5", "replace 9 1000"], 9]],
        ["beside.before", [0, [5]]],
        ["beside.packet", [["delete 5"], 0, 9]],
    ]
    plain, looked = node.tasks(
        [{"files": [EXAMPLE], "asks": [*given, *asks, *after, ["ask", ["redo", {}]]]} for asks in ([], looks)]
    )
    if plain.get("error") or looked.get("error"):
        yield f"previews: {plain.get('error') or looked.get('error')}"
        return
    without = lambda found: [
        {**one, "instance": 0} if isinstance(one, dict) and "instance" in one else one for one in found
    ]  # noqa: E731
    if without(plain["results"][-3:-1]) != without(looked["results"][-3:-1]) or looked["results"][-1]["reply"] != [
        "hold 3"
    ]:
        yield f"previews: the state is another one: {looked['results'][-3:]}"
    frames, findings, before, packet = looked["results"][5:9]
    wanted = served(EXAMPLE)
    if (
        before != [wanted[5]]
        or frames[0] != wanted[0]
        or not any(one["kind"] == "refused" for one in findings)
        or len(packet) != 1
    ):
        yield f"previews: {before}, {findings}"


def wide(folder):
    """The functions for numbers of 128 bits, over those of gcc."""
    if shutil.which("gcc") is None:
        print("skipped: numbers of 128 bits: gcc is not there")
        return
    made = folder / "wide"
    built = ran("gcc", "-std=gnu11", "-O1", "-Wall", "-Wextra", "-Werror", TOP / "tests/wide_numbers.c", "-o", made)
    status = built.returncode or ran(made).returncode
    if status:
        yield f"numbers of 128 bits: status {status} {built.stderr.decode()[-300:]}"


def planted(node):
    """A fault of the module, and a memory that is full: a sentence each, and no edit is lost."""
    asks = [
        ["ask", [["delete 3"], {}]],
        ["fault", []],
        ["frames", [[2]]],
        ["state", []],
        ["frames", [[2]]],
        ["full", [1]],
        ["ask", [["delete 5"], {}]],
        ["state", []],
        ["ask", [["delete 5"], {}]],
        ["full", [2]],
        ["save", [0]],
        ["frames", [[2]]],
    ]
    (result,) = node.tasks([{"files": [EXAMPLE], "asks": asks, "saves": []}])
    if result.get("error"):
        yield f"planted faults: {result['error']}"
        return
    _, _, first, _, fault, after, frame, _, full, state, again, _, save, last = result["results"]
    wanted = served(EXAMPLE)[2]
    if (
        "started again" not in fault["refused"]["error"]
        or after["restarts"] != 1
        or after["edits"] != ["delete 3"]
        or frame != [wanted]
    ):
        yield f"a fault of the module: {fault}, {after['edits']}, {after['restarts']}"
    if (
        "memory" not in full["refused"]["error"]
        or state["edits"] != ["delete 3"]
        or again["reply"] != "ok 46"
        or "memory" not in save["refused"]["error"]
        or last != [wanted]
    ):
        yield f"a memory that is full: {full}, {state['edits']}, {again['reply']}, {save}"


# What may be refused for memory, after edits of which one was undone.
BEGUN = [
    ["ask", [["delete 7"], {}]],
    ["ask", [["hold 1", "hold 2"], {"title": "two"}]],
    ["ask", [["use 1"], {}]],
    ["ask", [["use 0"], {}]],
    ["ask", [["copy 1 0 4"], {}]],
    ["ask", ["undo", {}]],
]
ACTS = {
    "delete": ["ask", [["delete 3"], {}]],
    "several": ["ask", [["delete 9", "hold 2", "copy 0 3 9", "use 1", "delete 1"], {"title": "several"}]],
    "a script": ["ask", [["script trim 0 0 9"], {}]],
    "an edit and what is shown of it": [
        "ask",
        [["insert 5 7 110011"], {"page": {"source": 0, "packet": 3, "tiles": [[1, 0]]}}],
    ],
    "undo": ["ask", ["undo", {}]],
    "redo": ["ask", ["redo", {}]],
    "save": ["save", [0]],
    "a frame": ["frames", [[9]]],
    "a question about another source": ["answer", ["list 0 9", 1]],
    "another file": ["add", [{"file": EXAMPLE}]],
}


def without_memory(node):
    """Each request for memory that an act makes is refused in turn, and each answer is lost: a sentence, and edits,
    redo, packets and frames are as before.
    """
    files = [EXAMPLE, TOP / "crates/gate_clips/data/scene-cuts.ivf"]
    for what, act in ACTS.items():
        # A frame has its room from before.
        kinds = ("checked",) if what == "a frame" else ("room", "checked")
        for kind, result in zip(
            kinds, node.tasks([{"files": files, "asks": BEGUN, "act": act, "refused": kind} for kind in kinds])
        ):
            if result.get("error") or result["wrong"] or not result["turns"]:
                yield (
                    f"{what} without memory ({kind}):"
                    f" {str(result.get('error') or result['wrong'] or 'nothing is refused')[:900]}"
                )


def few_pages(node, folder):
    """A module whose memory may have few pages: each act is made, or is a sentence about memory, and the list has the
    edits that were made.
    """
    edits = [["ask", [[f"insert 40 7 {'11' * size}"], {}]] for size in (400000,) * 4 + (9000,) * 6 + (60,) * 6]
    asks = [*edits, ["lines", []], ["save", [0]], ["frames", [[20]]], ["ask", ["undo", {}]], ["lines", []]]
    opened, refusals, turns = 0, 0, (17, 150, 200, 240, 280, 400)
    for pages in turns:
        (result,) = node.tasks([{"pages": pages, "files": [EXAMPLE], "asks": asks, "saves": [folder / "few.ivf"]}])
        where, results = f"{pages} pages of memory", result.get("results", [{"refused": {}}])
        if "refused" in results[0]:
            if "memory" not in results[0]["refused"].get("error", ""):
                yield f"{where}: {result.get('error') or results[0]}"
            continue
        said = [one["refused"]["error"] for one in results[2:] if isinstance(one, dict) and "refused" in one]
        opened, refusals, lines = opened + 1, refusals + len(said), []
        for ask, found in zip(asks, results[2:]):
            if ask[0] == "ask" and "refused" not in found:
                lines = lines[:-1] if ask[1][0] == "undo" else [*lines, *ask[1][0]]
            elif ask[0] == "lines" and found != lines:
                yield f"{where}: {len(found)} edits, and {len(lines)} were made"
        if not all("memory" in one for one in said):
            yield f"{where}: {[one for one in said if 'memory' not in one][:2]}"
    if not refusals or not 0 < opened < len(turns):
        yield f"few pages: {opened} of {len(turns)} are opened, {refusals} acts are refused"


def progress(node, folder):
    """While a file is opened the worker says how much of it is read."""
    head, packets = ivf.read_packets(EXAMPLE)
    path = folder / "padded.ivf"
    path.write_bytes(
        b"".join(ivf.pieces(head, len(packets), [(stamp, data + bytes(400000)) for stamp, data in packets]))
    )
    (result,) = node.tasks([{"files": [path], "asks": [["events", []]]}])
    parts = [one["part"] for one in result.get("results", [None, None, []])[2]]
    if len(parts) < 3 or parts != sorted(parts) or not 0 < parts[0] < parts[-1] <= 1:
        yield f"progress: {result.get('error') or parts}"


def joined_wrongly(folder):
    """Modules that cannot be joined, and what a page must have."""
    for name, text in {
        "an import that is not known": 'import x from "./b.js";\n',
        "one at a time": 'const y = import("./b.js");\n',
        "an export that is not known": "export default 3;\n",
        "a circle": 'import "./a.js";\n',
    }.items():
        (folder / "a.js").write_text(text)
        (folder / "b.js").write_text("export const x = 3;\n")
        kept, page.FOLDER = page.FOLDER, folder
        try:
            page.joined("a.js")
            yield f"{name} is joined"
        except Failed:
            pass
        finally:
            page.FOLDER = kept
    one, other = page.made(b"x", "1.2.3"), page.made(b"x", "1.2.3")
    if one != other or len(one) > page.MOST:
        yield f"the page is another one at each turn, or large: {len(one)}"
    try:
        page.made(random.Random(1).randbytes(page.MOST), "1.2.3")
        yield "a page that is too large is made"
    except Failed:
        pass
    script = re.search(r"<script>(.*)</script>", one.decode(), re.S).group(1)
    policy = re.search(r'Content-Security-Policy" content="([^"]*)"', one.decode()).group(1)
    if (
        f"'sha256-{base64.b64encode(hashlib.sha256(script.encode()).digest()).decode()}'" not in policy
        or "connect-src" in policy
        or "default-src 'none'" not in policy
    ):
        yield f"the policy is {policy}"
    if re.search(
        (
            r"https?://(?!www\.w3\.org/2000/svg)|(?:await|return|=) fetch\(|XMLHttpRequest|WebSocket|sendBeacon|<link"
            r" (?![^>]*data:)|<img [^>]*src=\"(?!data:)"
        ),
        one.decode(),
    ):
        yield "the page asks for something from elsewhere"


def stale():
    """Whether the page is not that of the modules."""
    found = re.search(r'id="module-text">([^<]*)<', PAGE.read_text(encoding="utf-8"))
    made_now = page.made(gzip.decompress(base64.b64decode(found.group(1))), version()) if found else b""
    return [] if made_now == PAGE.read_bytes() else [f"{PAGE} is not of these modules: ./build.py --web"]


def main():
    wrong, chance = [], random.Random(75)
    with tempfile.TemporaryDirectory() as name:
        folder = pathlib.Path(name)
        wrong += [*wide(folder), *joined_wrongly(folder)]
        if not PAGE.is_file():
            print("skipped: the page in one file is not built: ./build.py --web makes it")
        elif shutil.which("node") is None:
            print("skipped: Node is not there")
        else:
            wrong += stale()
            node = Node()
            wrong += [
                *frames(node),
                *lists(node, chance, folder),
                *questions(node, folder),
                *bounded(node, folder),
                *saved(node, chance, folder),
                *refused(node, folder),
                *previews(node),
                *planted(node),
                *without_memory(node),
                *few_pages(node, folder),
                *progress(node, folder),
            ]
    print("".join(line + "\n" for line in wrong), end="")
    return 1 if wrong else 0


if __name__ == "__main__":
    sys.exit(main())
