#!/usr/bin/env python3
"""Which edits mend which finding: one table of cases, which both engines of the page answer alike: that over a server,
and that in the browser.

It prints what differs and ends with 1, or prints nothing and ends with 0; a line `skipped: ..` names what could not be
run.
"""

import json
import pathlib
import shutil
import subprocess
import sys
import tempfile
import threading

sys.dont_write_bytecode = True
import test_web  # noqa: E402
from test_web import PAGE, TOP  # noqa: E402
from wokureti.media import ivf  # noqa: E402
from wokureti.server.web import Server  # noqa: E402
from wokureti.page.opened import Opened  # noqa: E402
from wokureti.page.pages import PageRoutes  # noqa: E402

CLIP = TOP / "crates/gate_clips/data/scene-cuts.ivf"
LIMIT = 60
CASES = json.loads(pathlib.Path(__file__).with_name("repair_cases.json").read_text())


def changed(changes, path):
    """Writes the clip with damage, and returns its packets."""
    head, packets = ivf.read_packets(CLIP)
    for word, at in changes:
        stamp, data = packets[at]
        if word == "cut":
            packets[at] = (stamp, data[:2])
        elif word == "double":
            packets.insert(at + 1, packets[at])
        elif word == "swap":
            packets[at], packets[at + 1] = packets[at + 1], packets[at]
        else:
            del packets[at]
    path.write_bytes(b"".join(ivf.pieces(head, len(packets), packets)))
    return [data for _, data in packets]


def wanted(case, packets):
    """The repairs of the table; @N is the packet N as HEX."""
    return [
        [
            name,
            [
                " ".join(packets[int(word[1:])].hex() if word.startswith("@") else word for word in line.split())
                for line in lines
            ],
        ]
        for name, lines in case["repairs"]
    ]


def by_server(path, others, finding):
    """The repairs over a server, which names packets by their numbers."""
    live, server = Opened({"stream": str(path), "sources": [str(other) for other in others]}), Server()
    server.routes = PageRoutes(live, server, "token", [path.name, *(other.name for other in others)], [str(path)])
    thread = threading.Thread(target=server.serve, daemon=True)
    thread.start()
    try:
        calls = (["state"], ["task", "repairs", {"finding": finding}])
        words = [
            "node",
            TOP / "clients/python/tests/engine.mjs",
            f"{server.origin}/token/",
            TOP / "clients/python/wokureti/page",
        ]
        done = subprocess.run(
            list(map(str, words)),
            input="".join(json.dumps(call) + "\n" for call in calls),
            capture_output=True,
            text=True,
            timeout=LIMIT,
            check=True,
        )
        repairs = json.loads(done.stdout.splitlines()[1])["result"]["repairs"]
        plain = lambda word: live.contents().bytes(int(word[1:])).hex() if word.startswith("#") else word  # noqa: E731
        return [[one["name"], [" ".join(map(plain, line.split())) for line in one["lines"]]] for one in repairs]
    finally:
        server.end()
        thread.join(5)
        live.close()


def main():
    wrong, tasks = [], []
    if shutil.which("node") is None:
        print("skipped: the engines of the page: Node is not there")
        return 0
    with tempfile.TemporaryDirectory() as name:
        folder = pathlib.Path(name)
        for number, case in enumerate(CASES):
            path = folder / f"{number}.ivf"
            packets, others = changed(case["changes"], path), [CLIP] if case.get("second") else []
            tasks.append(
                (
                    case,
                    wanted(case, packets),
                    {"files": [path, *others], "asks": [["task", ["repairs", {"finding": case["finding"]}]]]},
                )
            )
            found = by_server(path, others, case["finding"])
            if found != tasks[-1][1]:
                wrong.append(f"over a server: {case['name']}: {found}")
        if not PAGE.is_file():
            print("skipped: the engine in the browser: ./build.py --web makes its page")
        else:
            for (case, right, _), result in zip(tasks, test_web.Node().tasks([task for _, _, task in tasks])):
                found = result.get("error") or [[one["name"], one["lines"]] for one in result["results"][2]["repairs"]]
                if found != right:
                    wrong.append(f"Node: {case['name']}: {found}")
    print("".join(f"{line[:900]}\n" for line in wrong), end="")
    return 1 if wrong else 0


if __name__ == "__main__":
    sys.exit(main())
