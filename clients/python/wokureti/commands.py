"""The command line of wokureti."""

from __future__ import annotations

import argparse
import itertools
import mmap
import os
import signal
import subprocess
import sys
import tempfile
import threading
import traceback
from typing import TYPE_CHECKING, Callable, NoReturn, Optional, Sequence, Union

from . import __version__, system
from .errors import Ended, Failed, Lost, NoKeyFrame, NoSecond, NotIvf, Refused, sentence
from .base import checks, files, programs, rooms, versions
from .base.progress import Reading, of_program, say
from .media import containers, elements, excerpts, ivf, muxing, sounds, webm
from .calls import recordings
from .session import convert, named
from .tools import cat

if TYPE_CHECKING:
    # They are imported by the commands that need them.
    from .base.progress import Stages
    from .server.live import Options
    from .session import exports
    from .session.frames import Frame
    from .session.session import Session
    from .tools import coding, parts

    Commands = argparse._SubParsersAction[argparse.ArgumentParser]
    ScriptOf = Callable[[exports.Frames], str]

ABOUT = """\
Shows, edits, repairs and compares VP8 streams with the programs vp8serve and vp8list. The variables VP8SERVE and
VP8LIST name them; otherwise they are the installed ones, or the first ones on the PATH. An exit status of 70 says that
wokureti itself failed.
"""
# The exit status of a mistake of this program, EX_SOFTWARE of sysexits.h: no command means anything else by it.
MISTAKE = 70
# Bytes of a file that is mapped and not read, at least.
LEAST_MAPPED = 64 << 20


# Endings of files of packets, which `cat` does not write.
PACKETS = (".webm", ".mkv", ".ivf", ".mp4", ".m4v", ".mov", ".avi", ".ogv", ".ogg", ".flv", ".vp8")


# What each command reads.
STREAM = (
    "IVF, WebM or Matroska file, or AVI, MP4 or Ogg if python3-av or ffmpeg is there, or a capture of RTP (pcap,"
    " pcapng, rtpdump, Janus's .mjr); `-` is standard input"
)


def stop(text: str) -> int:
    """Ends with a message and status 2."""
    say(text)
    return 2


class Sources(argparse.Action):
    """Adds the streams of a list to those that were named."""

    def __call__(
        self,
        parser: argparse.ArgumentParser,
        given: argparse.Namespace,
        text: Union[str, Sequence[object], None],
        option: Optional[str] = None,
    ) -> None:
        given.source = [*given.source, *system.sources_of(str(text))]


def add_sources(parser: argparse.ArgumentParser) -> None:
    """The arguments that name other streams."""
    parser.add_argument(
        "--source", action="append", default=[], metavar="B", help="another stream: source 1, 2, and so on"
    )
    parser.add_argument(
        "--sources",
        action=Sources,
        default=argparse.SUPPRESS,
        metavar="LIST",
        help="several of them, separated by `;`, or by `:` except on Windows",
    )


def add_number(parser: argparse.ArgumentParser) -> None:
    """The argument that names a stream of a capture."""
    parser.add_argument(
        "--stream",
        dest="stream_number",
        type=int,
        metavar="N",
        help="of a capture with several streams of VP8: stream N, from 1; the one with the most bytes if missing",
    )


def add_edits(parser: argparse.ArgumentParser) -> None:
    """The arguments that name other streams, and edits."""
    add_sources(parser)
    add_number(parser)
    parser.add_argument("--edits", metavar="FILE", help="a list of edits, made first")
    parser.add_argument(
        "--anyway",
        action="store_true",
        help="makes the edits of a list that is of another stream, and damage of a file is no exit status",
    )
    parser.add_argument("--script", metavar="TEXT", help="the script, for example 'trim 0 0 50'")
    parser.add_argument("--tables", metavar="FILE", help="3012 bytes that replace the long tables of RFC 6386")


def add_cat(commands: Commands) -> None:
    parser = commands.add_parser(
        "cat",
        help="all frames as one YUV4MPEG2 text",
        description=(
            "Writes all frames as one YUV4MPEG2 text, byte for byte as one vp8serve writes it. The packets are cut at"
            " key packets, several processes decode the parts, and the parts are joined in order as they come. Exit"
            " status 1 if a frame is refused, which is then left out; 2 for any error."
        ),
    )
    parser.add_argument("stream", metavar="IN", help=STREAM)
    add_edits(parser)
    parser.add_argument(
        "out", metavar="OUT", nargs="?", default="-", help="the text; standard output if it is missing, or `-`"
    )
    parser.add_argument(
        "--jobs", type=int, default=0, metavar="N", help="processes on this machine; as many as processors if missing"
    )
    parser.add_argument(
        "--sshlogin",
        action="append",
        default=[],
        metavar="LIST",
        help=(
            "machines, as GNU parallel's --sshlogin takes them: `:` is this one, `4/user@host` another one with 4"
            " processes. Files are carried there and back"
        ),
    )
    add_constant(parser)
    add_replace(parser)
    parser.add_argument(
        "--per-size",
        action="store_true",
        help="of a stream whose size changes: writes a file for each size, OUT-WIDTHxHEIGHT.y4m for OUT.y4m",
    )
    parser.add_argument(
        "--remote",
        default="vp8serve",
        metavar="PATH",
        help="vp8serve on these machines; the one on their PATH if missing",
    )
    parser.set_defaults(run=run_cat)


def add_named(given: argparse.Namespace) -> None:
    """Adds the sources that the list of edits names."""
    if given.edits is not None:
        given.source = named.with_named(given.source, given.edits)


def opened(given: argparse.Namespace, folder: str) -> Session:
    """The session of the arguments, with their edits and script. The output may be none of the inputs."""
    return opener(given, folder)()


def opener(given: argparse.Namespace, folder: str) -> Callable[[], Session]:
    """A function that opens such a session."""
    add_named(given)
    cat.check_output(given.out, [given.stream, *given.source, given.edits, given.tables])
    stream, *sources = (convert.readable(path, folder) for path in [given.stream, *given.source])
    return lambda: cat.open_session(
        stream, sources, given.edits, given.script, given.tables, programs.find("vp8serve"), given.anyway
    )


def status_of(session: Session, is_anyway: bool) -> int:
    """The exit status of a command that read the streams of a session: 1 if the file of one of them ends in the middle
    or is damaged, which is said.
    """
    found = 0
    for item in session.edits.contents().inputs.all:
        texts = item.damage()
        found = max(found, int(bool(texts)))
        convert.say_damage(
            [text for text in texts if text not in containers.damage_of(item.path)],
            "" if item.facts is None else convert.SEARCHES,
        )
    return 0 if is_anyway else found


def run_cat(given: argparse.Namespace) -> int:
    from .tools import paces

    program = programs.find("vp8serve")
    jobs = given.jobs or system.processors()
    if jobs < 1:
        raise Failed("--jobs is 1 or more")
    cat.check_output(given.out, [given.stream, *given.source, given.edits, given.tables])
    ending = os.path.splitext(given.out)[1].lower()
    if ending in PACKETS:
        raise Failed(
            f"cat writes frames, YUV4MPEG2, and not {given.out}: `wokureti export` writes packets; for frames name it"
            " .y4m"
        )
    if given.per_size and (given.out == "-" or given.constant):
        raise Failed("--per-size writes files: name OUT; and it is not together with --constant")
    check_replaced(given, given.out)
    with rooms.Room() as folder, (again := opener(given, folder))() as session:
        paces.warn(session.edits.contents(), given.constant, say)
        status = status_of(session, given.anyway)
        if given.constant:
            return max(status, cat.write_constant(session, given.out))
        if given.sshlogin:
            from .tools import machines

            logins = [login for words in given.sshlogin for login in words.split(",") if login]

            def workers_of(session: Session) -> parts.Workers:
                return machines.workers_of(session, logins, given.remote, given.tables)

        else:

            def workers_of(session: Session) -> parts.Workers:
                return cat.here(session, jobs, program, given.tables)

        runs = cat.size_runs(session)
        if given.per_size:
            outs = cat.names_of_sizes(given.out, runs)
            check_replaced(given, *outs)
            refusals = cat.write_sizes(again, runs, outs, workers_of)
        else:
            if len(runs) > 1:
                say(cat.sizes_text(runs))
            refusals = cat.write(session, given.out, workers_of(session))
    for line in refusals[:10]:
        say(line)
    if len(refusals) > 10:
        say(f"{len(refusals) - 10} more frames were refused")
    return 1 if refusals else status


def port(text: str) -> int:
    """The number of a port, or 0 for a free one."""
    number = int(text)
    if not 0 <= number < 1 << 16:
        raise argparse.ArgumentTypeError(f"{number} is no port: it is 1 to 65535, or 0 for a free one")
    return number


def add_served(parser: argparse.ArgumentParser, more: str = "") -> None:
    """The arguments of a server. With `more` about it IN may be missing."""
    text = f"{STREAM}; /dev/null is an empty stream{more}"
    if more:
        parser.add_argument("stream", metavar="IN", help=text, nargs="?")
    else:
        parser.add_argument("stream", metavar="IN", help=text)
    add_sources(parser)
    add_number(parser)
    parser.add_argument("--cache", type=int, metavar="N", help="number of decoded states that are cached")
    parser.add_argument("--port", type=port, default=0, metavar="N", help="the port; a free one if missing")
    parser.add_argument("--tables", metavar="FILE", help="3012 bytes that replace the long tables of RFC 6386")
    parser.add_argument("--anyway", action="store_true", help="makes the edits of a list that is of another stream")
    parser.add_argument(
        "--keep-stamps",
        action="store_true",
        help="IVF files are saved with the time stamps of the packets; else an edited stream gets new ones",
    )
    add_sound(parser)


def add_constant(parser: argparse.ArgumentParser) -> None:
    parser.add_argument(
        "--constant",
        action="store_true",
        help="of a stream whose rate varies: frames are repeated or left out, so each is at the nearest time",
    )


def add_replace(parser: argparse.ArgumentParser) -> None:
    parser.add_argument("-y", dest="replace", action="store_true", help="replaces a file that is there")


def add_sound(parser: argparse.ArgumentParser) -> None:
    parser.add_argument(
        "--sound",
        choices=sounds.MODES,
        help=(
            "of a file .webm or .mkv that is written: the packets of sound are copied, or coded again as Opus, or left"
            " out; copied where that is exact, else coded again, if missing"
        ),
    )


def served(given: argparse.Namespace, folder: str) -> Options:
    """The options of a session."""
    stream, *sources = (convert.readable(path, folder) for path in [given.stream, *given.source])
    return {
        "stream": stream,
        "sources": sources,
        "cache": given.cache,
        "tables": given.tables,
        "anyway": given.anyway,
    }


def add_open(commands: Commands) -> None:
    parser = commands.add_parser(
        "open",
        help="a page in the browser to look at a stream, edit it, compare and repair it",
        description=(
            "Opens a page in the browser, on 127.0.0.1: a timeline of the packets, the picture, the frame before the"
            " edits next to it, the findings of `vp8list --check` with the repairs that can work, and all edits, with"
            " undo. IN is only read. Each edit is in a list, IN.edits, before it is answered, and the next run"
            " continues from there. Ctrl-C ends it."
        ),
    )
    add_served(parser, "; without it a page opens a file of the browser's dialog, or one that was open before")
    parser.add_argument(
        "--edits", metavar="FILE", help="the list of edits; next to IN, with the ending .edits, if missing"
    )
    parser.add_argument(
        "--save",
        metavar="FILE",
        help="the file that Save writes, and the end, if something was edited since; a new file next to IN if missing",
    )
    parser.add_argument(
        "--no-pad",
        action="store_true",
        help="packets that hold the picture are saved as they are, and libvpx does not show them",
    )
    parser.add_argument("--no-browser", action="store_true", help="only prints the address")
    parser.set_defaults(run=run_open)


def check_save(given: argparse.Namespace) -> None:
    """The file that is saved to can be written, and is none of those that are only read."""
    if given.save is None:
        return
    for path in (given.stream, *given.source):
        if path != "-" and checks.is_same_file(given.save, path):
            raise Failed(
                f"--save names {path}, which is only read here: name another file, or use `vp8serve IN LIST -"
                " --save IN`"
            )
    folder = os.path.dirname(os.path.realpath(given.save))
    if not os.path.isdir(folder) or os.path.isdir(given.save):
        raise Failed(
            f"--save {given.save}: {'this is a folder' if os.path.isdir(folder) else f'there is no folder {folder}'}:"
            " name a file that can be written"
        )


def run_open(given: argparse.Namespace) -> int:
    from .page import opening

    if given.stream is None:
        from .page import starting

        if given.source or given.edits or given.save:
            raise Failed("--source, --edits and --save are of a stream: name it, as `wokureti open IN`")
        return starting.run(given.port, lambda url, folder: not given.no_browser and opening.show(url, folder))
    given.source = named.with_named(given.source, given.edits or f"{opening.stem_of(given.stream)}.edits")
    check_save(given)
    with rooms.Room() as folder:
        titles = [given.stream, *given.source]
        how = opening.How(given.edits, given.save, not given.no_pad, given.keep_stamps, given.sound)
        return opening.run(served(given, folder), titles, how, given.port, not given.no_browser)


def add_serve(commands: Commands) -> None:
    parser = commands.add_parser(
        "serve",
        help="the edited stream on a port, for players and editors",
        description=(
            "Starts a server on 127.0.0.1 and prints the URL of a YUV4MPEG2 file, which is made as it is read: ffplay,"
            " mpv, VLC and ffmpeg open it and seek in it. docs/reference/http.md has the rest of the interface, with"
            " which the stream is edited. Ctrl-C ends it."
        ),
    )
    add_served(parser)
    parser.add_argument(
        "--edits", metavar="FILE", help="the list of edits: it is made first, and each edit is written to it"
    )
    parser.add_argument(
        "--save", metavar="FILE", help="the file that `save` writes, and the end, if something was edited since"
    )
    add_constant(parser)
    parser.set_defaults(run=run_serve)


def run_serve(given: argparse.Namespace) -> int:
    from .server import serve

    add_named(given)
    check_save(given)
    with rooms.Room() as folder:
        return serve.run(served(given, folder), given.edits, given.save, given.port, given)


def add_mount(commands: Commands) -> None:
    parser = commands.add_parser(
        "mount",
        help="a folder in which the edited stream is a file of each kind, for editors that open a path",
        description=(
            "Mounts DIR, an empty folder, by FUSE (python3-pyfuse3, else python3-fusepy): clip.y4m, clip.ivf and"
            " clip.webm, a picture of each frame in frames/, the edits, the findings and the facts of the packets."
            " Nothing is written: a read makes the frames that it touches. edits.txt can be written: the session then"
            " makes these edits, or the write fails, and edits.err says why. A file that was opened before an edit"
            " can be read no more. Ctrl-C, umount or SIGTERM ends it."
        ),
    )
    add_served(parser)
    parser.add_argument("folder", metavar="DIR", help="the empty folder")
    parser.add_argument(
        "--edits", metavar="FILE", help="the list of edits: it is made first, and each edit is written to it"
    )
    parser.add_argument(
        "--serve",
        action="store_true",
        help="the page of `wokureti open` is there too, over the same session; its address is printed",
    )
    add_constant(parser)
    parser.add_argument(
        "--others", action="store_true", help="other users may read the folder (user_allow_other in /etc/fuse.conf)"
    )
    parser.set_defaults(run=run_mount)


def run_mount(given: argparse.Namespace) -> int:
    from .tools import paces
    from .server import mount
    from .page import opened, opening

    mount.mounter()
    add_named(given)
    with rooms.Room() as folder:
        live = opened.Opened(served(given, folder), given.edits)
        live.keeps_stamps, live.sound, live.is_constant = given.keep_stamps, given.sound, given.constant
        paces.warn(live.contents(), given.constant, live.notice)
        server = opening.server_of(live, given.port, [given.stream, *given.source]) if given.serve else None
        return mount.run(live, given.folder, given.others, server)


def add_export_options(parser: argparse.ArgumentParser, script: bool = False) -> None:
    """The arguments of the commands that write the frames of a script as packets."""
    if script:
        add_edits(parser)
    else:
        add_number(parser)
        parser.add_argument("--anyway", action="store_true", help="damage of a file that is read is no exit status")
        parser.add_argument("--tables", metavar="FILE", help="3012 bytes that replace the long tables of RFC 6386")
    parser.add_argument(
        "--no-pad",
        action="store_true",
        help="packets that hold the picture are written as they are, and libvpx does not show them",
    )
    add_sound(parser)
    add_replace(parser)


EXPORTED = (
    "The packets are the streams', of which nothing but the show bit is changed, and each frame is as it was: nothing"
    " is coded again. Where a part does not begin at a key packet, the packets from there on come before it, hidden."
    " OUT is an IVF file; WebM or Matroska, with the sound, if it ends in .webm or .mkv. A line says how many packets"
    " are hidden, and how many bytes they have."
)


def add_coding(parser: argparse.ArgumentParser) -> None:
    """The arguments of frames that are coded again."""
    parser.add_argument(
        "--code-changed",
        action="store_true",
        help=(
            "frames that the script changes, by a fade or a crop, are coded again as VP8, by ffmpeg or vpxenc; all"
            " others stay as they are"
        ),
    )
    parser.add_argument(
        "--psnr",
        type=decibels,
        default=None,
        metavar="DB",
        help="what each frame that is coded again has at least against the script's frame, 20 to 60 dB; 45 if missing",
    )
    parser.add_argument(
        "--fade-sound",
        action="store_true",
        help=(
            "the sound fades with the picture: of a track of Opus the packets of the fade are coded again, of another"
            " track all of them as Opus; else the sound is copied"
        ),
    )
    parser.add_argument(
        "--lead",
        choices=("exact", "coded"),
        default="exact",
        help=(
            "of a part that begins between key packets: all packets since the key packet come before it, hidden"
            " (exact), or its frames up to the next key packet are coded again"
        ),
    )


def decibels(text: str) -> float:
    value = float(text)
    if not 20 <= value <= 60:
        raise argparse.ArgumentTypeError(f"{text} is not 20 to 60")
    return value


def add_cut(commands: Commands) -> None:
    parser = commands.add_parser(
        "cut",
        help="parts of a stream, at any frame, without coding again",
        description=(
            "Writes the frames of IN from F to T, T not included; several --from and --to keep several parts. F and T"
            " are times as ffmpeg takes them and a player shows them, in seconds or as 1:02:03.4, or frames, as f83."
            f" {EXPORTED}"
        ),
    )
    parser.add_argument("stream", metavar="IN", help=STREAM)
    parser.add_argument("out", metavar="OUT", help="the file to write")
    parser.add_argument(
        "--from",
        dest="starts",
        action="append",
        default=[],
        metavar="F",
        help="a time of the player, as 3.3 or 0:03.3, or a frame, as f83; the beginning if missing",
    )
    parser.add_argument(
        "--to",
        dest="ends",
        action="append",
        default=[],
        metavar="T",
        help="the same for the first frame that is left out; the end if missing",
    )
    parser.add_argument(
        "--cuts",
        metavar="FILE",
        help="the parts as LosslessCut's CSV: a line for each, its beginning, its end and a label, in seconds",
    )
    parser.add_argument(
        "--fade-in",
        metavar="TIME",
        help=(
            "the beginning of OUT comes out of black, for so long; these frames are coded again, as with --code-changed"
        ),
    )
    parser.add_argument("--fade-out", metavar="TIME", help="the same for the end of OUT, into black")
    add_coding(parser)
    add_export_options(parser)
    parser.set_defaults(run=run_cut)


def run_cut(given: argparse.Namespace) -> int:
    from .session import exports

    if given.cuts is not None:
        return run_cut_list(given)
    counts = {len(given.starts), len(given.ends)}
    if not any(counts) or (len(counts) > 1 and max(counts) > 1):
        what = (
            "say which part is kept"
            if not any(counts)
            else "each part has a --from and a --to; only a single part may leave one of them out"
        )
        raise Failed(f"{what}: for example --from 0:03.3 --to 0:17.7, or frames, --from f83 --to f443")
    parts = list(itertools.zip_longest(given.starts, given.ends))
    text = exports.seconds_text([*given.starts, *given.ends])
    if text is not None:
        say(text)
    return run_script(given, [given.stream], lambda frames: exports.cut_script(frames, parts))


def run_cut_list(given: argparse.Namespace) -> int:
    """Cuts the parts of a list."""
    from .session import exports
    from .tools import cut_lists

    if given.starts or given.ends:
        raise Failed("the parts are given by --cuts, or by --from and --to, not both")
    cat.check_output(given.out, [given.stream, given.cuts, given.tables])
    muxing.check_ending(given.out)
    check_replaced(given, given.out)
    parts = cut_lists.read(given.cuts)
    return run_script(given, [given.stream], lambda frames: exports.cut_script(frames, parts))


def add_join(commands: Commands) -> None:
    parser = commands.add_parser(
        "join",
        help="streams one after the other, without coding again",
        description=f"Writes the frames of all streams, one after the other. {EXPORTED}",
    )
    parser.add_argument("streams", metavar="IN", nargs="+", help=STREAM)
    parser.add_argument("out", metavar="OUT", help="the file to write")
    add_export_options(parser)
    parser.set_defaults(run=run_join)


def run_join(given: argparse.Namespace) -> int:
    from .session import exports

    with rooms.Room() as room:
        streams, count = given.streams, len(given.streams)
        # The programs read eight streams at a time: more of them are joined in steps.
        for step in itertools.count():
            if len(streams) <= exports.MOST_STREAMS:
                break
            groups = [
                streams[place : place + exports.MOST_STREAMS] for place in range(0, len(streams), exports.MOST_STREAMS)
            ]
            streams = [
                join_step(given, group, os.path.join(room, f"{step}-{place}")) for place, group in enumerate(groups)
            ]
        script = exports.join_script(len(streams))
        return run_script(given, streams, lambda frames: script, given.streams)


def join_step(given: argparse.Namespace, streams: Sequence[str], path: str) -> str:
    """Joins some streams into a file that is joined with others: with their sound, if they have some and OUT has it."""
    from .session import exports

    return (
        streams[0]
        if len(streams) == 1
        else script_step(given, streams, lambda frames: exports.join_script(len(streams)), path)
    )


def script_step(given: argparse.Namespace, streams: Sequence[str], script_of: ScriptOf, path: str) -> str:
    """Writes the frames of a script of some streams into a file that is joined with others, and returns its path."""
    has_sound = (
        muxing.ending_of(given.out) is not None
        and given.sound != "none"
        and any(convert.is_container(stream) for stream in streams)
    )
    out = path + (".mkv" if has_sound else ".ivf")
    step = argparse.Namespace(**{**vars(given), "out": out, "replace": True, "is_step": True})
    given.status = max(getattr(given, "status", 0), run_script(step, streams, script_of))
    return out


def add_export(commands: Commands) -> None:
    parser = commands.add_parser(
        "export",
        help="the frames of a script as packets, without coding again",
        description=(
            "Writes the frames that a script serves, of the streams after the edits of a list. What a script changes,"
            f" a fade or a crop, cannot be written so: the message names the frame and the node. {EXPORTED}"
        ),
    )
    parser.add_argument("stream", metavar="IN", help=STREAM)
    parser.add_argument("out", metavar="OUT", help="the file to write")
    add_coding(parser)
    add_export_options(parser, script=True)
    parser.set_defaults(run=run_export)


def run_export(given: argparse.Namespace) -> int:
    add_named(given)
    return run_script(given, [given.stream, *given.source], None)


def check_replaced(given: argparse.Namespace, *outs: Optional[str]) -> None:
    """A file that is there is replaced only if that was asked for."""
    for out in outs:
        if out is not None and out != "-" and not given.replace and os.path.isfile(out):
            raise Failed(f"{out} is there already: -y replaces it")


def run_script(
    given: argparse.Namespace, streams: Sequence[str], script_of: Optional[ScriptOf], inputs: Sequence[str] = ()
) -> int:
    """Writes OUT of the frames of a script, which is made of the frames of the streams, or that of the arguments."""
    from .base import progress
    from .session import exports

    edits, script = getattr(given, "edits", None), getattr(given, "script", None)
    cat.check_output(given.out, [*streams, *inputs, edits, given.tables])
    muxing.check_ending(given.out)
    check_replaced(given, given.out)
    program = programs.find("vp8serve")
    with rooms.Room() as room, progress.Stages() as stages:
        stages.stage("reading the packets")
        paths = [convert.readable(path, room, watch=stages) for path in streams]
        stages.stage("opening the streams" if len(streams) > 1 else f"opening {os.fsdecode(streams[0])}")
        with cat.open_session(paths[0], paths[1:], edits, script, given.tables, program, given.anyway) as session:
            if script_of is not None:
                script = script_of(exports.Frames(session.edits.contents()))
                session.request(f"script {script}")
            add_fades(given, session)
            stages.stage(f"exporting {session.count().frames:,} frames")
            out = exports.Output(given.out, not given.no_pad, given.sound, say, stages)
            told, coded = export_session(given, session, out, room)
            status = status_of(session, given.anyway)
    if not getattr(given, "is_step", False):
        print(told.text())
        if coded is not None:
            print(coded.text(told.frames))
    return max(status, getattr(given, "status", 0))


def add_fades(given: argparse.Namespace, session: Session) -> None:
    """Fades the beginning and the end of what the session serves, if that was asked for."""
    from .session import exports

    fades = [getattr(given, name, None) for name in ("fade_in", "fade_out")]
    if not any(fades) or getattr(given, "is_step", False):
        return
    contents, count = session.edits.contents(), session.count().frames
    served = exports.Frames(contents).served()
    lengths = [
        0 if text is None else exports.frames_within(contents, served if number == 0 else served[::-1], text)
        for number, text in enumerate(fades)
    ]
    if sum(lengths) > count:
        raise Failed(f"the fades have {lengths[0]} and {lengths[1]} frames, and OUT has {count}")
    session.request(f"script {exports.fade_script(contents.script, count, lengths)}")


def export_session(
    given: argparse.Namespace, session: Session, out: exports.Output, room: str
) -> tuple[exports.Told, Optional[coding.Coded]]:
    """Exports what a session serves: what was written, and what was coded again, None if nothing was."""
    from .session import exports
    from .tools import coding

    fades = any(getattr(given, name, None) for name in ("fade_in", "fade_out"))
    if getattr(given, "is_step", False) or not (
        fades or getattr(given, "code_changed", False) or getattr(given, "lead", "exact") == "coded"
    ):
        name = (
            "--psnr"
            if getattr(given, "psnr", None) is not None
            else "--fade-sound"
            if getattr(given, "fade_sound", False)
            else None
        )
        if name is not None and not getattr(given, "is_step", False):
            raise Failed(f"{name} is together with --code-changed, --fade-in, --fade-out or --lead coded")
        return exports.export(session.edits.contents(), list(session.edits), out, room), None

    def open_session(path: str) -> Session:
        return cat.open_session(path, [], None, None, None, programs.find("vp8serve"))

    least = coding.USUAL if given.psnr is None else given.psnr
    if given.fade_sound and muxing.ending_of(given.out) is None:
        raise Failed("--fade-sound is of a file with sound: name OUT .webm or .mkv")
    return coding.export(
        session, open_session, out, coding.How(least, given.lead == "coded", say, given.fade_sound), room
    )


def add_listed(parser: argparse.ArgumentParser) -> None:
    add_number(parser)
    parser.add_argument("stream", metavar="IN", help=STREAM)
    parser.add_argument(
        "options", metavar="OPTION", nargs=argparse.REMAINDER, help="options of vp8list, after IN: see vp8list --help"
    )


def add_list(commands: Commands) -> None:
    parser = commands.add_parser(
        "list",
        help="what each packet is",
        description=(
            "Prints what vp8list prints of the packets of IN: a line for each, or with its options their headers,"
            " macroblocks and hashes. Exit status 1 if IN ends in the middle or is damaged."
        ),
    )
    add_listed(parser)
    parser.set_defaults(run=lambda given: run_lister(given, []))


def add_check(commands: Commands) -> None:
    parser = commands.add_parser(
        "check",
        help="the damage of a stream",
        description=(
            "Prints what `vp8list --check` prints of the packets of IN, and what is damaged of the file around them; of"
            " a capture, which packets of RTP are missing. Exit status 0 if nothing was found, 1 if IN is damaged."
        ),
    )
    add_listed(parser)
    parser.set_defaults(run=lambda given: run_lister(given, ["--check"]))


def run_lister(given: argparse.Namespace, words: Sequence[str]) -> int:
    """Runs vp8list on the packets of IN. What is said of the file is on standard error, and what is missing of a
    capture is among the findings.
    """
    with rooms.Room() as folder:
        path = convert.readable(given.stream, folder)
        for one in recordings.missing.get(path, ()) if words else ():
            print(one.json() if "--json" in given.options else f"damage: {one.text()}", flush=True)
        with subprocess.Popen(
            [programs.find("vp8list"), path, *words, *given.options], stdin=subprocess.DEVNULL
        ) as done:
            with programs.ending(done), Reading(of_program(done.pid, [(containers.name_of(path), path)])):
                done.wait()
        damage = containers.damage_of(path)
        if isinstance(webm.media_of(path), webm.Around):
            damage = elements.damage_of(programs.find("vp8list"), path, containers.name_of(path))
            convert.say_damage(damage)
        return max(done.returncode, int(bool(damage)))


def add_repair(commands: Commands) -> None:
    parser = commands.add_parser(
        "repair",
        help="finds the damage of a stream and repairs it",
        description=(
            "Reads a damaged stream, repairs what can be repaired without asking, and writes it to OUT. A line says"
            " what each step did. Packets whose records are lost are searched; packets that are there twice go; packets"
            " out of order are sorted by their time stamps; those that are missing or refused are taken from a second"
            " recording; and where packets are refused or lost, the picture before is held up to the next key frame."
            " OUT is then checked as by `vp8list --check`. Exit status 0 if the stream was clean, 1 if it was repaired"
            " and OUT has no damage, 2 if damage is left, or no key frame survives and nothing was written."
        ),
    )
    parser.add_argument("stream", metavar="IN", help=STREAM)
    parser.add_argument(
        "out",
        metavar="OUT",
        help="the repaired IVF file; WebM or Matroska, with the sound of IN, if it ends in .webm or .mkv",
    )
    parser.add_argument(
        "--second",
        metavar="FILE",
        help="a second recording of the same packets; of two captures of a call, packets of RTP are joined",
    )
    add_number(parser)
    parser.add_argument(
        "--edits",
        metavar="FILE",
        help="writes the edits that make OUT of IN, which `vp8serve IN FILE - --save OUT` runs",
    )
    parser.add_argument("--no-scan", action="store_true", help="records that are lost are not searched")
    parser.add_argument("--no-double", action="store_true", help="packets that are there twice stay")
    parser.add_argument("--no-sort", action="store_true", help="packets stay in their order")
    parser.add_argument(
        "--no-hold", action="store_true", help="no picture is held, and nothing is removed at the beginning"
    )
    parser.add_argument("--tables", metavar="FILE", help="3012 bytes that replace the long tables of RFC 6386")
    add_sound(parser)
    add_replace(parser)
    parser.set_defaults(run=run_repair)


def run_repair(given: argparse.Namespace) -> int:
    from .base import progress
    from .media import ivf, looks
    from .tools import repair

    inputs = [given.stream, given.second, given.tables]
    for out in (given.out, given.edits):
        if out is not None:
            cat.check_output(out, inputs)
    muxing.check_ending(given.out)
    check_replaced(given, given.out, given.edits)
    if given.edits is not None and checks.is_same_file(given.out, given.edits):
        raise Failed("OUT and the list of edits are one file")
    steps = {name for name in ("scan", "double", "sort", "hold") if not getattr(given, f"no_{name}")}
    try:
        with rooms.Room() as folder, progress.Stages() as stages:
            stages.stage("searching the packets")
            joins = given.second is not None and all(map(recordings.is_capture, (given.stream, given.second)))
            is_searched = "scan" in steps or recordings.is_capture(given.stream)
            if is_searched:
                path, searched = convert.searched(given.stream, folder, stages, given.second if joins else None)
            else:
                path, searched = convert.as_ivf(given.stream, folder, watch=stages), None
            other = second_of(given.second, folder, stages) if given.second and not joins else None
            data, second = read_all(path), None if other is None else read_all(other)
            tools = (programs.find("vp8serve"), programs.find("vp8list"))
            found = repair.repair(data, *tools, second, given.tables, steps, stages.stage, as_file(path), searched)
            packets = [(packet.stamp, packet.data) for packet in found.packets]
            write_repaired(given, path, found.head, packets)
    except NoSecond as error:
        raise Failed(f"{given.second}: {error}{looks.hint(given.second)}") from None
    except (NotIvf, NoKeyFrame) as error:
        raise Failed(f"{given.stream}: {error}{looks.hint(given.stream)}") from None
    if given.edits is not None:
        lines = repair.edits_of(data, found) if searched is None else None
        if lines is None:
            raise Failed("vp8serve does not read IN, so no list of edits makes OUT of it; OUT was written")
        files.write_whole(given.edits, [f"{line}\n".encode() for line in lines])
    for line in found.lines:
        print(line)
    before = len(salvage_count(data))
    print(f"{len(packets)} packets written, {before} are read without repair; {found.changes} changes")
    return 2 if found.left else 1 if found.changes or containers.damage_of(path) else 0


def second_of(path: str, folder: str, stages: Stages) -> str:
    """The second recording as IVF. Of a capture these are the frames that are whole."""
    return (
        recordings.whole_frames(path, os.path.join(folder, "second.ivf"))
        if recordings.is_capture(path)
        else convert.searched(path, folder, stages)[0]
    )


def write_repaired(
    given: argparse.Namespace, path: str, head: ivf.Head, packets: Sequence[tuple[int, checks.AnyBytes]]
) -> None:
    """Writes OUT: an IVF file, or with the sound of IN a WebM or Matroska file."""
    if muxing.ending_of(given.out) is None:
        files.write_whole(given.out, ivf.pieces(head, len(packets), packets))
        return
    spans, restamped = excerpts.of_packets(packets, head, containers.media_of(path))
    with rooms.Room() as room:
        between = os.path.join(room, "packets.ivf")
        with open(between, "wb") as file:
            file.writelines(ivf.pieces(head, len(restamped), restamped))
        excerpts.save_file(given.out, between, containers.media_of(path), spans, given.sound, say)


def as_file(path: str) -> Optional[str]:
    """The path for another program, or None if that would find another file there."""
    is_here = system.is_device(path) or not os.path.isfile(path)
    return None if is_here else checks.path(path)


def read_all(path: str) -> files.Mapped:
    """The bytes of a file. A large one is mapped: its pages are read when they are needed, and need not stay in
    memory.
    """
    if path == "-":
        return b""
    with open(path, "rb") as file:
        if os.fstat(file.fileno()).st_size < LEAST_MAPPED:
            return file.read()
        return mmap.mmap(file.fileno(), 0, access=mmap.ACCESS_READ)


def salvage_count(data: files.Mapped) -> Sequence[object]:
    """The packets that vp8serve reads of a file."""
    from .media import salvage

    found = salvage.plain(data)
    return found[1] if found else []


def add_compare(commands: Commands) -> None:
    parser = commands.add_parser(
        "compare",
        help="where two streams of frames part",
        description=(
            "Compares the frames of A and B, each an IVF file, a YUV4MPEG2 file, a URL, or `-`, a decoder under test on"
            " a pipe. Prints the first frame that differs, with the first sample and, of IVF files, the record of the"
            " first macroblock that differs; how many frames and samples differ, and the PSNR. With --decoder A is a"
            " folder of streams, and each is compared with the frames of that decoder. Exit status 0 if all are the"
            " same, 1 if not, 2 for an error or for a file that ends in the middle or is damaged."
        ),
    )
    parser.add_argument("one", metavar="A")
    parser.add_argument("other", metavar="B", nargs="?")
    parser.add_argument(
        "--decoder",
        metavar="CMD",
        help=(
            "a command that decodes a stream: {in} is the stream, {out} a file for its frames, YUV4MPEG2 or I420; they"
            " come on standard output if {out} is missing. For example 'vpxdec --i420 -o {out} {in}'"
        ),
    )
    parser.add_argument(
        "--jobs",
        type=int,
        default=0,
        metavar="N",
        help="with --decoder: streams at a time; as many as processors if missing",
    )
    parser.add_argument("--junit", metavar="FILE", help="with --decoder: the results as JUnit has them")
    parser.add_argument(
        "--anyway", action="store_true", help="a file that ends in the middle or is damaged is no error"
    )
    parser.add_argument(
        "--png", metavar="DIR", help="writes the first two frames that differ, and their difference, as PNG"
    )
    parser.add_argument("--tables", metavar="FILE", help="3012 bytes that replace the long tables of RFC 6386")
    parser.set_defaults(run=run_compare)


def run_decoder(given: argparse.Namespace) -> int:
    from .tools import decoders

    found = []
    for result in decoders.results(given.one, given.decoder, given.jobs or system.processors(), given.tables):
        found.append(result)
        print(f"{result.name}: {'; '.join([*(result.lines[:2] or ['same']), *result.damage])}", flush=True)
    same, damaged = sum(result.is_same for result in found), sum(bool(result.damage) for result in found)
    print(
        f"{same} of {len(found)} streams are the same"
        + (
            f"; {damaged} {'is damaged or ends' if damaged == 1 else 'are damaged or end'} in the middle"
            if damaged
            else ""
        )
    )
    if given.junit is not None:
        decoders.write_junit(given.junit, given.decoder, found, given.anyway)
    if damaged and not given.anyway:
        return 2
    return 0 if same == len(found) else 1


def run_compare(given: argparse.Namespace) -> int:
    from .tools import compare

    if given.decoder is not None:
        if given.other is not None or given.png is not None or given.jobs < 0:
            raise Failed("with --decoder there is one folder, and no B and no --png")
        return run_decoder(given)
    if given.other is None or given.junit is not None:
        raise Failed("two streams are compared: B is missing, or --decoder")

    found = compare.compare(given.one, given.other, given.png, given.tables)
    for line in found.lines():
        print(line)
    for text in found.damage:
        say(text)
    if found.damage and not given.anyway:
        return 2
    return 0 if found.is_same else 1


def add_png(commands: Commands) -> None:
    parser = commands.add_parser(
        "png",
        help="a frame as PNG",
        description=(
            "Writes a frame as a PNG file, with the colours of ITU-R BT.601 and luma of 16 to 235, as VP8 has them."
        ),
    )
    parser.add_argument("stream", metavar="IN", help=STREAM)
    parser.add_argument("number", metavar="N", type=int, help="the number of the frame, from 0")
    parser.add_argument("out", metavar="OUT", help="the PNG file; standard output if it is `-`")
    add_edits(parser)
    parser.add_argument("--matrix", choices=("601", "709"), default="601", help="the colours: BT.601 or BT.709")
    parser.add_argument("--full", action="store_true", help="luma has 0 to 255")
    parser.set_defaults(run=run_png)


def run_png(given: argparse.Namespace) -> int:
    from .media import png

    with rooms.Room() as folder:
        with opened(given, folder) as session:
            text = png.of_frame(frame_of(session, given), given.matrix, given.full)
            status = status_of(session, given.anyway)
        with cat.output(given.out) as file:
            file.write(text)
    return status


def frame_of(session: Session, given: argparse.Namespace) -> Frame:
    """The frame that is asked for."""
    try:
        return session.frame(given.number)
    except Refused as error:
        if error.word != "NoSuchFrame":
            raise
        raise Failed(
            f"{given.stream}: there is no frame {given.number}: {session.count().frames:,} frames are shown, and the"
            " first one is frame 0"
        ) from None


class Version(argparse.Action):
    """`--version`: a line with the version, and one with what is proved."""

    def __call__(self, parser: argparse.ArgumentParser, *_: object) -> NoReturn:
        print(f"wokureti {__version__}", versions.proof(), sep="\n", flush=True)
        parser.exit()


def run_compiling(words: Sequence[str]) -> int:
    """Prints the options of a compiler for the C library."""
    from .session import library

    folders = library.folders()
    print(*(folders.cflags() if word == "--cflags" else folders.libs() for word in words))
    return 0


def parser_of() -> argparse.ArgumentParser:
    parser = argparse.ArgumentParser(prog="wokureti", description=ABOUT)
    for name, what in (("--cflags", "where its header is"), ("--libs", "to link with it")):
        parser.add_argument(
            name, action="store_true", help=f"print the options of a C compiler for libwokureti: {what}"
        )
    parser.add_argument("--version", action=Version, nargs=0, help="show the version, and what is proved of this build")
    commands = parser.add_subparsers(metavar="COMMAND", required=True)
    add_open(commands)
    add_serve(commands)
    add_mount(commands)
    add_cut(commands)
    add_join(commands)
    add_export(commands)
    add_list(commands)
    add_check(commands)
    add_repair(commands)
    add_compare(commands)
    add_cat(commands)
    add_png(commands)
    return parser


def main(words: Optional[Sequence[str]] = None) -> int:
    """Runs a command line, and returns the exit status."""
    system.prepare_output()
    words = sys.argv[1:] if words is None else words
    if words and set(words) <= {"--cflags", "--libs"}:
        # No command comes with them.
        given = argparse.Namespace(run=lambda given: run_compiling(words))
    else:
        given = parser_of().parse_args(words)
    recordings.chosen = getattr(given, "stream_number", None)
    end_by_signals()
    Reading.is_on = True
    rooms.sweep()
    try:
        status: int = given.run(given)
        return status
    except KeyboardInterrupt:
        return 130
    except (Ended, Lost, Refused, OSError, ValueError) as error:
        if system.is_closed_pipe(error):
            # The reader of standard output went away; nothing may be written to it when Python ends.
            os.dup2(os.open(os.devnull, os.O_WRONLY), 1)
            return 2
        return stop(f"{sentence(error)}{where_full(error)}")
    except Exception as error:
        return mistake(error)


def where_full(error: BaseException) -> str:
    """What a message says more if there is no room, and no file is named: it is that of the folder for temporary
    files.
    """
    if not isinstance(error, OSError) or error.errno not in files.FULL or error.filename is not None:
        return ""
    return f" in the folder for temporary files, {tempfile.gettempdir()}: name another one in the variable TMPDIR"


def end_by_signals() -> None:
    """A terminal that closes, or a request to end, ends a command as Ctrl-C does: what is to be saved is saved, and no
    folder is left.
    """

    def end(number: int, frame: object) -> NoReturn:
        # What is done at the end is not ended by a second one.
        for one in system.ENDS:
            signal.signal(one, signal.SIG_IGN)
        raise KeyboardInterrupt

    if threading.current_thread() is threading.main_thread():
        for number in system.ENDS:
            # nohup ignores the closing of a terminal.
            if signal.getsignal(number) != signal.SIG_IGN:
                signal.signal(number, end)


def mistake(error: BaseException) -> int:
    """Says in one line what went wrong, and where the rest of it is."""
    text = "".join(traceback.format_exception(type(error), error, error.__traceback__))
    try:
        descriptor, path = tempfile.mkstemp(prefix="wokureti-mistake-", suffix=".txt")
        with open(descriptor, "w", encoding="utf-8", errors="backslashreplace") as file:
            file.write(f"wokureti {' '.join(sys.argv[1:])}\n{text}")
        where = f"the rest is in {path}"
    except OSError:
        print(text, end="", file=sys.stderr)
        where = "the rest is above"
    print(
        f"wokureti: a mistake of wokureti itself: {type(error).__name__}: {str(error)[:200]}; {where}", file=sys.stderr
    )
    return MISTAKE
