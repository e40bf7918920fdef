"""Proves the crates of the programs with `rt`, and builds the object files and programs of them."""

import concurrent.futures
import os
import shutil
import subprocess
import sys
import time

from .sources import CPUS, PARTS, PROGRAMS, TOP, Failed, below, files_of, kit_folder

# The processor for which `rt ci` builds programs: the kit's default.
CI_CPU = CPUS[0]
# The crates above this one are few and large, and most of them stand in two chains, one for each program.
NARROW = "reference_frames"


def elapsed(since):
    minutes, seconds = divmod(int(time.monotonic() - since), 60)
    return f"{minutes} min {seconds} s"


def jobs():
    """How many processes to prove with: one for each processor and for each 4 GB of memory."""
    processors = len(os.sched_getaffinity(0))
    with open("/proc/meminfo", encoding="ascii") as file:
        memory = next((int(line.split()[1]) for line in file if line.startswith("MemAvailable")), 0)
    return max(1, min(processors, memory // 4_000_000))


def under(crates, name):
    """A crate and all crates of this repository below it."""
    found = {name}
    for other in below(crates, name):
        found |= under(crates, other)
    return found


def copy_files(crates, room):
    """Makes the copy of these crates equal to the checkout; what rt kept in out/ stays."""
    (room / "crates").mkdir(parents=True, exist_ok=True)
    for old in (room / "crates").iterdir():
        if old.name not in crates:
            shutil.rmtree(old)
    for crate in crates:
        wanted = {path.relative_to(TOP): path for path in files_of(crate)}
        there = room / "crates" / crate
        for part in PARTS:
            files = [there / part] if (there / part).is_file() else (there / part).rglob("*")
            for path in [file for file in files if file.is_file() and file.relative_to(room) not in wanted]:
                path.unlink()
        for name, path in wanted.items():
            target = room / name
            if not target.is_file() or target.read_bytes() != path.read_bytes():
                target.parent.mkdir(parents=True, exist_ok=True)
                shutil.copyfile(path, target)
    (room / "crates.txt").write_text("\n".join(crates.values()) + "\n")
    shutil.copyfile(TOP / "HANDLES", room / "HANDLES")


def take_libraries(names, one, other):
    """Gives the copy `other` the proved libraries of `one`, so that they are not proved a second time."""
    for name in names:
        made, to = one / "crates" / name / "out/rlib", other / "crates" / name / "out/rlib"
        if made.is_dir():
            shutil.rmtree(to, ignore_errors=True)
            shutil.copytree(made, to)


def run(words, folder, log, each_line=lambda line: None):
    """Runs a command, its lines to the log and to `each_line`. It ends with this program."""
    with subprocess.Popen(
        words,
        cwd=folder,
        stdin=subprocess.DEVNULL,
        stdout=subprocess.PIPE,
        stderr=subprocess.STDOUT,
        text=True,
        errors="replace",
    ) as ran:
        try:
            for line in ran.stdout:
                log.write(line)
                log.flush()
                each_line(line.rstrip("\n"))
        except BaseException:
            ran.terminate()
            raise
    if ran.returncode != 0:
        raise Failed(f"{' '.join(map(str, words[:2]))} ended with status {ran.returncode}")


def compiled(crate, cpu, log):
    """The object file of a program for a processor; the program as rt links it is next to it, without the ending."""
    run(["rt", "run", "--cpu", cpu, "--", "--version"], crate, log)
    made = crate / "out" / f"{crate.name}-{cpu}.o"
    shutil.copyfile(crate / "out" / f"{crate.name}.o", made)
    shutil.copyfile(crate / "out" / crate.name, made.with_suffix(""))
    return made


class Build:
    """A build in `room`: `common` has what both programs need, `vp8serve` and `vp8list` the rest of each."""

    def __init__(self, crates, room, say):
        self.crates, self.room, self.say = crates, room, say
        self.log = open(room / "build.log", "w", encoding="utf-8")
        self.since, self.done = time.monotonic(), set()
        self.shared = set.intersection(*(under(crates, name) for name in PROGRAMS))
        self.first = self.shared | {name for name in crates if NARROW not in under(crates, name)}

    def lines(self, names):
        return {name: self.crates[name] for name in self.crates if name in names}

    def progress(self, line):
        if line.startswith("== ") and line != "== summary" and line[3:] not in self.done:
            self.done.add(line[3:])
            self.say(f"proved {line[3:]} ({len(self.done)} of {len(self.crates)}, {elapsed(self.since)})")

    def check(self, name, folder, count):
        """Proves one crate with several processes."""
        run(["rt", "check", "--jobs", str(count)], folder / "crates" / name, self.log)
        self.progress(f"== {name}")

    def prove_common(self):
        """Proves the crates that both programs need, and those of one program that are above no large crate."""
        folder, wide = self.room / "common", {name for name in self.first if NARROW not in under(self.crates, name)}
        copy_files(self.lines(wide), folder)
        run(["rt", "all", "check", "--jobs", str(jobs())], folder, self.log, self.progress)
        copy_files(self.lines(self.first), folder)
        for name in sorted(self.first - wide, key=lambda name: len(under(self.crates, name))):
            self.check(name, folder, jobs())

    def build_one(self, program, cpus):
        """Proves what only this program needs, and builds it."""
        folder, wanted = self.room / program, under(self.crates, program)
        copy_files(self.lines(wanted), folder)
        take_libraries(wanted & self.first, self.room / "common", folder)
        for name in sorted(wanted - self.first - {program}, key=lambda name: len(under(self.crates, name))):
            self.check(name, folder, max(1, jobs() // 2))
        made = {}
        for cpu in cpus:
            self.say(f"building {program} for {cpu}")
            made[program, cpu] = compiled(folder / "crates" / program, cpu, self.log)
        self.progress(f"== {program}")
        return made

    def whole(self, cpus):
        self.prove_common()
        return side_by_side(lambda program: self.build_one(program, cpus))


def build(crates, room, cpus, say):
    """Proves the crates, and builds both programs for these processors. Returns the object files by name and
    processor.
    """
    say(
        f"proving {len(crates)} crates, up to {jobs()} at a time: allow 40 minutes on 4 idle processors. rt's output"
        f" goes to {room / 'build.log'}"
    )
    work = Build(crates, room, say)
    try:
        return work.whole(cpus)
    except Failed as failed:
        last = (room / "build.log").read_text(encoding="utf-8", errors="replace").splitlines(True)[-20:]
        raise Failed("".join(last) + f"nothing was built: {failed}") from None
    finally:
        work.log.close()


def made_by_ci(program, room):
    """The object file that `rt ci` has built in this checkout of a program, for the processor that is the kit's
    default, if there is one: rt links the program next to it of it, byte for byte. There is none if rt kept the program
    from an earlier run."""
    made, kit = TOP / "crates" / program / "out" / f"{program}.o", kit_folder()
    if not made.is_file() or not made.with_suffix("").is_file():
        return None
    linked = room / f"{program}-linked"
    words = [
        "--target",
        "x86_64-unknown-linux-gnu",
        "--toolchain",
        kit / "toolchain",
        "-o",
        linked,
        made,
        kit / "c/libos_c.a",
        kit / "c/liblibc_c.a",
    ]
    done = subprocess.run(list(map(str, [kit / "bin/rattle-link", *words])), capture_output=True, check=False)
    is_same = done.returncode == 0 and linked.read_bytes() == made.with_suffix("").read_bytes()
    return made if is_same else None


def over_ci(program, crates, room, log):
    """The folder of a program's crate in a copy that has the libraries which `rt ci` has proved in this checkout."""
    folder, wanted = room / program, under(crates, program)
    copy_files({name: crates[name] for name in crates if name in wanted}, folder)
    take_libraries(wanted - {program}, TOP, folder)
    run([sys.executable, TOP / "release/stamps.py", kit_folder() / "bin/rt", folder], folder, log)
    return folder / "crates" / program


def build_in(crates, room, cpus, say):
    """Builds both programs over the libraries that `rt ci` has proved in this checkout: only the programs' own crates
    are proved again, and for the kit's default processor not even these, if `rt ci` has built them."""
    say(f"building {' and '.join(PROGRAMS)} for {' and '.join(cpus)}")

    def one(program):
        made = {(program, CI_CPU): made_by_ci(program, room)} if CI_CPU in cpus else {}
        made = {key: path for key, path in made.items() if path}
        return made | build_rest(program, [cpu for cpu in cpus if (program, cpu) not in made])

    def build_rest(program, cpus):
        if not cpus:
            return {}
        with open(room / f"{program}.log", "w", encoding="utf-8") as log:
            try:
                folder = over_ci(program, crates, room, log)
                return {(program, cpu): compiled(folder, cpu, log) for cpu in cpus}
            except Failed as failed:
                text = (room / f"{program}.log").read_text(encoding="utf-8", errors="replace")
                raise Failed(f"{text[-2000:]}nothing was built: {failed}") from None

    return side_by_side(one)


def side_by_side(one):
    """Both programs at the same time, and what came of them in one map."""
    with concurrent.futures.ThreadPoolExecutor(len(PROGRAMS)) as pool:
        made = list(pool.map(one, PROGRAMS))
    return {key: path for part in made for key, path in part.items()}
