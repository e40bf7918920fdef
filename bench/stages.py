"""Instructions of decoding by stage: stages.py ROOM CLIP FRAMES PROGRAM [VPXDEC]. stages.sh runs it.

valgrind counts them, so other work on the machine changes nothing. VPXDEC is a vpxdec whose libvpx has symbols.
"""

import bisect
import os
import re
import struct
import subprocess
import sys

ROOM, CLIP, FRAMES, PROGRAM, *VPXDEC = sys.argv[1:]

# The first expression that a function's name contains decides its stage. A step of vp8serve has modes, and what is done
# for each macroblock, in one function.
STAGES = [
    ("tokens", r"token_parser|bool_coder|mb_tokens|GetCoeffs|bool_decoder_fill"),
    ("modes, macroblocks", r"mode_parser|steps::decode|decode_mode_mvs|read_mv|vp8_decode_frame"),
    ("intra prediction", r"intra|dc_predictor|predictor_4x4|tm_predictor"),
    ("inter prediction", r"inter_predict|reconinter|sixtap|filter_block1d|copy_mem|bilinear"),
    ("residuals", r"transforms|residuals|kept_blocks|idct|dequant|walsh"),
    ("loop filter", r"loop_?filter"),
    ("borders", r"refill|border|extend"),
]


def first_frames(clip, count):
    """The file's first packets as a file of its own."""
    with open(clip, "rb") as file:
        data = file.read()
    end = 32
    for _ in range(count):
        end += 12 + struct.unpack_from("<I", data, end)[0]
    path = os.path.join(ROOM, "clip.ivf")
    with open(path, "wb") as file:
        file.write(data[:24] + struct.pack("<I", count) + data[28:end])
    return path


def symbols_of(library):
    """The addresses of a library's symbols, in order, and their names: functions in assembly have no names in the
    profile.
    """
    lines = subprocess.run(["nm", "-n", library], capture_output=True, text=True, check=True).stdout.splitlines()
    found = [line.split() for line in lines if re.match(r"[0-9a-f]+ [tTwW] .", line)]
    return [int(words[0], 16) for words in found], [words[2] for words in found]


def name_of(text, known):
    """The name of a function in the profile, or of the symbol before its address."""
    at = re.search(r":0x([0-9a-f]+) \[(/?[^\]]*)\]", text)
    if at is None or not os.path.isfile(at[2]):
        return text
    if at[2] not in known:
        known[at[2]] = symbols_of(at[2])
    addresses, names = known[at[2]]
    number = bisect.bisect_right(addresses, int(at[1], 16)) - 1
    return names[number] if number >= 0 else text


def profile(words, libraries=""):
    """Instructions by stage, and the functions of each with theirs."""
    out = os.path.join(ROOM, "callgrind.out")
    environment = dict(os.environ, LD_LIBRARY_PATH=libraries)
    subprocess.run(
        ["valgrind", "--tool=callgrind", f"--callgrind-out-file={out}", *words],
        check=True,
        capture_output=True,
        env=environment,
    )
    text = subprocess.run(
        ["callgrind_annotate", "--threshold=100", "--auto=no", out], check=True, capture_output=True, text=True
    ).stdout
    stages, known = {}, {}
    for line in text.splitlines():
        row = re.match(r" *([0-9,]+) \( *[0-9.]+%\)  (.+)", line)
        if row is None or row[2].startswith("PROGRAM TOTALS"):
            continue
        name = name_of(row[2], known)
        stage = next((stage for stage, words in STAGES if re.search(words, name)), "the rest")
        stages.setdefault(stage, []).append((int(row[1].replace(",", "")), name))
    return stages


def main():
    clip = first_frames(CLIP, int(FRAMES))
    requests = os.path.join(ROOM, "requests")
    with open(requests, "w") as file:
        file.writelines(f"frame {n}\n" for n in range(int(FRAMES)))
    columns = {"vp8serve": profile([PROGRAM, clip, requests, "-", "--cache", "1"])}
    if VPXDEC:
        columns["vpxdec"] = profile([VPXDEC[0], "--threads=1", "--noblit", clip], os.path.dirname(VPXDEC[0]))
    totals = {who: sum(count for found in stages.values() for count, _ in found) for who, stages in columns.items()}
    print(f"{FRAMES} frames of {os.path.basename(CLIP)}: millions of instructions, and percent of all")
    print(f"{'':20}" + "".join(f"{who:>20}" for who in columns))
    for stage in [name for name, _ in STAGES] + ["the rest"]:
        counts = [sum(count for count, _ in stages.get(stage, [])) for stages in columns.values()]
        print(
            f"{stage:20}"
            + "".join(
                f"{count / 1e6:12.1f} ({100 * count / total:4.1f})" for count, total in zip(counts, totals.values())
            )
        )
    print(f"{'all':20}" + "".join(f"{total / 1e6:12.1f}        " for total in totals.values()))
    if os.environ.get("FUNCTIONS"):
        for who, stages in columns.items():
            for stage, found in stages.items():
                for count, name in sorted(found, reverse=True)[:12]:
                    print(f"{who:10}{stage:18}{count / 1e6:9.2f}  {name[:110]}")


main()
