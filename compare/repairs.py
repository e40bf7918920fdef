#!/usr/bin/env python3
"""Damages streams in ten ways, repairs them, and counts the packets that come back and the frames that equal the
original's; next to what ffmpeg and mkvmerge make of the same files.

    compare/repairs.py [STREAMS [SEED]]
    compare/repairs.py --webm [FILES [SEED]]

With --webm it damages WebM and Matroska files instead, as webm.py does, and counts the packets of the video and of the
sound that `wokureti repair` searches: the right ones have the bytes and the time of one of the whole file. CLIENT names
the folder of another client to count too.

It needs Debian's ffmpeg, vpx-tools and mkvtoolnix, and the built programs. README.md says more.
"""

import collections
import os
import pathlib
import random
import subprocess
import sys
import tempfile

TOP = pathlib.Path(__file__).resolve().parent.parent
sys.path.insert(0, os.environ.get("CLIENT") or str(TOP / "clients/python"))

import results  # noqa: E402
import webm as webm_files  # noqa: E402
from wokureti.base import programs  # noqa: E402
from wokureti.errors import Failed, NotIvf  # noqa: E402
from wokureti.media import containers, ivf, webm  # noqa: E402
from wokureti.session import convert  # noqa: E402
from wokureti.tools import repair  # noqa: E402

FRAMES = 200
SOURCES = [
    "mandelbrot=size=176x144:rate=25",
    "testsrc2=size=176x144:rate=25",
    "life=size=96x96:rate=25:mold=10:ratio=0.4,scale=160:96",
]


def clips(room):
    """Clips of vpxenc: a key frame every 50, with and without error resilience, hidden frames."""
    made = []
    for number, source in enumerate(SOURCES):
        raw = room / f"{number}.y4m"
        words = [
            "ffmpeg",
            "-nostdin",
            "-v",
            "error",
            "-f",
            "lavfi",
            "-i",
            source,
            "-frames:v",
            str(FRAMES),
            "-pix_fmt",
            "yuv420p",
            str(raw),
        ]
        subprocess.run(words, check=True)
        for name, options in (
            ("plain", ["--kf-max-dist=50"]),
            ("resilient", ["--kf-max-dist=50", "--error-resilient=1"]),
            ("hidden", ["--kf-max-dist=50", "--auto-alt-ref=1", "--lag-in-frames=16", "--passes=2"]),
        ):
            path = room / f"{number}-{name}.ivf"
            subprocess.run(
                [
                    "vpxenc",
                    "--codec=vp8",
                    "--quiet",
                    "--ivf",
                    "--target-bitrate=250",
                    *options,
                    "-o",
                    str(path),
                    str(raw),
                ],
                check=True,
                capture_output=True,
            )
            made.append(path)
        raw.unlink()
    return made


def zeros(data, packets, choose, size):
    at = choose.randrange(32, len(data) - size) // 512 * 512
    at = max(at, 32)
    return data[:at] + bytes(size) + data[at + size :]


def again(packets, choose):
    packets = list(packets)
    for _ in range(5):
        at = choose.randrange(len(packets))
        packets.insert(min(len(packets), at + choose.randrange(1, 4)), packets[at])
    return packets


def exchanged(packets, choose):
    packets = list(packets)
    for _ in range(5):
        at = choose.randrange(len(packets) - 4)
        packets.insert(at, packets.pop(at + choose.randrange(1, 4)))
    return packets


def refused(packets, choose):
    packets = list(packets)
    for _ in range(3):
        at = choose.randrange(len(packets))
        packets[at] = (packets[at][0], packets[at][1][: choose.randrange(1, 3)])
    return packets


def dropped(packets, choose):
    packets = list(packets)
    for _ in range(3):
        del packets[choose.randrange(1, len(packets))]
    return packets


def cut(data, choose, low=0.1):
    return data[: choose.randrange(int(low * len(data)), len(data))]


def at_once(data, choose, text):
    at = choose.randrange(32, len(data))
    return data[:at] + text + data[at:]


def without(data, choose, count):
    at = choose.randrange(32, len(data) - count)
    return data[:at] + data[at + count :]


def text_of(head, packets):
    return b"".join(ivf.pieces(head, len(packets), packets))


def damage(kind, data, head, packets, choose):
    """The bytes of a damaged file."""
    return {
        "a sector of zeros": lambda: zeros(data, packets, choose, 512),
        "eight sectors of zeros": lambda: zeros(data, packets, choose, 4096),
        "bytes inserted": lambda: at_once(data, choose, choose.randbytes(choose.randrange(1, 600))),
        "bytes missing": lambda: without(data, choose, choose.randrange(1, 600)),
        "a tail of zeros": lambda: (lambda part: part + bytes(len(data) - len(part)))(cut(data, choose, 0.3)),
        "cut off": lambda: cut(data, choose, 0.3),
        "first sector of zeros": lambda: bytes(512) + data[512:],
        "packets twice": lambda: text_of(head, again(packets, choose)),
        "packets exchanged": lambda: text_of(head, exchanged(packets, choose)),
        "packets cut to 1 or 2 bytes": lambda: text_of(head, refused(packets, choose)),
    }[kind]()


KINDS = [
    "a sector of zeros",
    "eight sectors of zeros",
    "bytes inserted",
    "bytes missing",
    "a tail of zeros",
    "cut off",
    "first sector of zeros",
    "packets twice",
    "packets exchanged",
    "packets cut to 1 or 2 bytes",
]


def frames_of(path):
    """For each time stamp the MD5s of the frames that have it, and the number of packets; none if it is no stream."""
    done = subprocess.run([programs.find("vp8list"), str(path), "--hash"], capture_output=True, text=True, check=False)
    found = collections.defaultdict(set)
    for line in done.stdout.splitlines():
        if line and not line.startswith("#"):
            columns = [column.strip() for column in line.split(",")]
            found[int(columns[2])].add(columns[5])
    return found


def packets_in(path):
    try:
        return ivf.read_packets(path)[1]
    except (OSError, NotIvf):
        return []


def by_repair(path, out, second=None):
    data = path.read_bytes()
    try:
        found = repair.repair(data, programs.find("vp8serve"), programs.find("vp8list"), second and second.read_bytes())
    except (NotIvf, ValueError):
        return
    packets = [(packet.stamp, packet.data) for packet in found.packets]
    out.write_bytes(text_of(found.head, packets))


def by_ffmpeg(path, out):
    subprocess.run(["ffmpeg", "-nostdin", "-v", "quiet", "-y", "-i", str(path), "-c", "copy", str(out)], check=False)


def by_mkvmerge(path, out):
    mkv = out.with_suffix(".mkv")
    subprocess.run(["mkvmerge", "-q", "-o", str(mkv), str(path)], check=False, capture_output=True)
    if mkv.exists():
        subprocess.run(["mkvextract", "-q", str(mkv), "tracks", f"0:{out}"], check=False, capture_output=True)
        mkv.unlink()


TOOLS = {
    "as it is": lambda path, out: out.write_bytes(path.read_bytes()),
    "ffmpeg -c copy": by_ffmpeg,
    "mkvmerge": by_mkvmerge,
    "wokureti repair": by_repair,
}


def score(out, packets, frames):
    """The packets of the original that are there, and its frames that are there at their time stamps."""
    found = packets_in(out)
    wanted = collections.Counter(data for _, data in packets)
    recovered = sum((wanted & collections.Counter(data for _, data in found)).values())
    shown = frames_of(out) if found else {}
    # A container may count in another unit: mkvextract's stamps are those of milliseconds in the stream's rate, as the
    # original's.
    return recovered, sum(bool(hashes & shown.get(stamp, set())) for stamp, hashes in frames.items())


# Files that are damaged: of ffmpeg with two codecs of sound, live, and with many clusters; of mkvmerge with laced
# sound. A time that is rounded twice may be so many nanoseconds away.
WEBM, NEAR = ("plain.webm", "vorbis.webm", "live.webm", "clusters.webm", "laced.mkv", "merged.webm"), 2_000_000


def whole(path, room):
    """The packets of the video of a whole file, and of its sound: bytes, and the nanoseconds of their times."""
    with open(path, "rb") as file:
        head = webm.facts_of(file.fileno()).head
    index = webm.read_index(programs.find("vp8list"), str(path), (), str(path))
    data, pictures = path.read_bytes(), collections.defaultdict(list)
    for start, size, stamp in zip(index.starts, index.sizes, index.stamps):
        pictures[data[start : start + size]].append(stamp * 10**9 * head.scale // head.rate)
    return pictures, sound_of(containers.read_sounds(path, str(room / "whole")))


def sound_of(tracks):
    found = collections.defaultdict(list)
    for track in tracks:
        for data, time in zip(track.packets(range(len(track.sizes))), track.times):
            found[data].append(time)
    return found


def searched(path, folder):
    """The packets of the video and the sound of a damaged file, as `wokureti repair` begins with them."""
    out, found = convert.searched(str(path), str(folder))
    head, packets = (found[0], [one[:2] for one in found[1]]) if found else ivf.read_packets(out)
    pictures = collections.defaultdict(list)
    for stamp, data in packets:
        pictures[bytes(data)].append(stamp * 10**9 * head.scale // head.rate)
    media = containers.media_of(out)
    return pictures, sound_of(media.sounds if media is not None else ())


def right(found, wanted):
    """How many of the packets that were found are in the whole file, and how many are not."""
    count = 0
    for data, times in found.items():
        left = list(wanted.get(data, ()))
        for time in times:
            near = next((one for one in left if abs(one - time) <= NEAR), None)
            if near is not None:
                left.remove(near)
                count += 1
    return count, sum(map(len, found.values())) - count


def of_webm(count, seed):
    """The total of damaged WebM files."""
    choose, totals = random.Random(seed), {name: collections.Counter() for name in WEBM}
    with tempfile.TemporaryDirectory() as folder:
        room = pathlib.Path(folder)
        webm_files.make(room)
        files = [(name, (room / name).read_bytes(), whole(room / name, room)) for name in WEBM]
        convert.say = lambda text: None
        for turn in range(count):
            name, data, (pictures, sound) = files[turn % len(files)]
            total = totals[name]
            total.update(
                {"files": 1, "pictures": sum(map(len, pictures.values())), "sound": sum(map(len, sound.values()))}
            )
            with tempfile.TemporaryDirectory(dir=folder) as inside:
                path = pathlib.Path(inside, f"damaged{pathlib.Path(name).suffix}")
                path.write_bytes(webm_files.damaged(data, choose))
                try:
                    found = searched(path, inside)
                except (NotIvf, Failed, OSError):
                    found = {}, {}
            scores = right(found[0], pictures), right(found[1], sound)
            total.update(dict(zip(("right", "wrong"), scores[0])))
            total.update(dict(zip(("sound right", "sound wrong"), scores[1])))
            total["nothing"] += not scores[0][0]
            if "EACH" in os.environ:
                print(turn, name, *scores[0], *scores[1], flush=True)
    totals["all"] = sum(totals.values(), collections.Counter())
    print("| file | files | without a packet | packets of the video: there were, right, wrong | of the sound |")
    print("|---|---|---|---|---|")
    for name, total in totals.items():
        cells = [f"{total[kind]:,}" for kind in ("pictures", "right", "wrong", "sound", "sound right", "sound wrong")]
        print(f"| {name} | {total['files']} | {total['nothing']} | {', '.join(cells[:3])} | {', '.join(cells[3:])} |")
    total = totals["all"]
    results.total(
        f"{count} damaged files, of {total['nothing']} nothing; packets of the video right {total['right']:,}, wrong"
        f" {total['wrong']:,}; of the sound right {total['sound right']:,}, wrong {total['sound wrong']:,}"
    )
    return 0


def main():
    words = [word for word in sys.argv[1:] if word != "--webm"]
    if len(words) < len(sys.argv) - 1:
        return of_webm(int(words[0]) if words else 504, int(words[1]) if len(words) > 1 else 1)
    count = int(sys.argv[1]) if len(sys.argv) > 1 else 500
    choose = random.Random(int(sys.argv[2]) if len(sys.argv) > 2 else 1)
    sums = {kind: collections.Counter() for kind in KINDS}
    with tempfile.TemporaryDirectory() as folder:
        room = pathlib.Path(folder)
        streams = [(path, path.read_bytes(), *ivf.read_packets(path), frames_of(path)) for path in clips(room)]
        damaged, out = room / "damaged.ivf", room / "out.ivf"
        for turn in range(count):
            kind = KINDS[turn % len(KINDS)]
            path, data, head, packets, frames = choose.choice(streams)
            damaged.write_bytes(damage(kind, data, head, packets, choose))
            total = sums[kind]
            total["packets"] += len(packets)
            total["frames"] += len(frames)
            for name, tool in [*TOOLS.items(), ("with a second", lambda one, to: by_repair(one, to, path))]:
                if out.exists():
                    out.unlink()
                tool(damaged, out)
                recovered, same = score(out, packets, frames)
                total[f"{name} packets"] += recovered
                total[f"{name} frames"] += same
            if sys.stderr.isatty():
                print(f"\r{turn + 1} of {count}", end="", file=sys.stderr)
    names = [*TOOLS, "with a second"]
    print(
        f"| {count} streams, {count // len(KINDS)} of each kind; packets and frames in percent | {' | '.join(names)} |"
    )
    print("|---|" + "---|" * len(names))
    for kind in [*KINDS, "all"]:
        total = sum(sums.values(), collections.Counter()) if kind == "all" else sums[kind]
        cells = [
            f"{100 * total[f'{name} packets'] / total['packets']:.1f},"
            f" {100 * total[f'{name} frames'] / total['frames']:.1f}"
            for name in names
        ]
        print(f"| {kind} | {' | '.join(cells)} |")
    results.total(
        f"{count} streams; packets and frames in percent:"
        f" {', '.join(f'{name} {cell}' for name, cell in zip(names, cells))}"
    )
    return 0


if __name__ == "__main__":
    sys.exit(main())
