"""A screen without a monitor (Xvfb), on which programs with windows run, and the frame of a clip that it shows."""

import os
import shutil
import signal
import subprocess
import time

# The programs that it takes. openbox gives a dialog the keys.
NEEDED = ("Xvfb", "openbox", "xdotool", "dbus-run-session", "ffmpeg")
WIDTH, HEIGHT = 1280, 800
# Points of a picture that are compared.
ACROSS, DOWN = 64, 36
# The mean difference of the samples of a picture that is shown, at most: it is scaled and converted.
MOST_AWAY = 25
# Points of other colours between two parts of a line of testsrc2, at most.
MOST_MIXED = 30


def missing():
    """What is not here, or None."""
    found = next((name for name in NEEDED if shutil.which(name) is None), None)
    try:
        import numpy  # noqa: F401
    except ImportError:
        return found or "numpy"
    return found


class Screen:
    """The screen, with a home folder of its own. `frames` are those of the clip as RGB, of `width` x `height` samples,
    drawn by ffmpeg's testsrc2.
    """

    def __init__(self, room, frames, width, height):
        import numpy

        self.numpy, self.running = numpy, []
        self.frames = [
            self.grid(numpy.frombuffer(frame, numpy.uint8).reshape(height, width, 3), 0, 0, width, height)
            for frame in frames
        ]
        self.aspect = height / width
        read, write = os.pipe()
        self.server = subprocess.Popen(
            ["Xvfb", "-displayfd", str(write), "-screen", "0", f"{WIDTH}x{HEIGHT}x24", "-nolisten", "tcp"],
            pass_fds=(write,),
            stdin=subprocess.DEVNULL,
            stdout=subprocess.DEVNULL,
            stderr=subprocess.DEVNULL,
        )
        os.close(write)
        with open(read, encoding="ascii") as file:
            self.name = f":{file.readline().strip()}"
        home = os.path.join(room, "home")
        os.makedirs(os.path.join(home, "run"), mode=0o700)
        self.env = {
            **os.environ,
            "DISPLAY": self.name,
            "HOME": home,
            "XDG_RUNTIME_DIR": os.path.join(home, "run"),
            "LIBGL_ALWAYS_SOFTWARE": "1",
            "SDL_AUDIODRIVER": "dummy",
        }
        self.start("openbox")

    def start(self, *words):
        """Starts a program with its children, which are ended with the screen."""
        process = subprocess.Popen(
            words,
            env=self.env,
            start_new_session=True,
            stdin=subprocess.DEVNULL,
            stdout=subprocess.DEVNULL,
            stderr=subprocess.DEVNULL,
        )
        self.running.append(process)
        return process

    def end(self, process):
        try:
            os.killpg(process.pid, signal.SIGKILL)
        except ProcessLookupError:
            pass
        process.wait(20)
        self.running.remove(process)

    def close(self):
        for process in list(self.running):
            self.end(process)
        self.server.terminate()
        self.server.wait(20)

    def keys(self, *names):
        for name in names:
            subprocess.run(["xdotool", "key", name], env=self.env, check=True, timeout=20)
            time.sleep(0.5)

    def click(self):
        """Clicks in the middle of the picture, if there is one."""
        left, top, width, height = self.place(self.picture()) or (0, 0, WIDTH, HEIGHT)
        subprocess.run(
            ["xdotool", "mousemove", str(left + width // 2), str(top + height // 2), "click", "1"],
            env=self.env,
            check=True,
            timeout=20,
        )

    def windows(self):
        """The titles of the windows."""
        found = subprocess.run(
            ["xdotool", "search", "--onlyvisible", "--name", "."],
            env=self.env,
            capture_output=True,
            text=True,
            timeout=20,
            check=False,
        ).stdout.split()
        return [
            subprocess.run(
                ["xdotool", "getwindowname", one], env=self.env, capture_output=True, text=True, timeout=20, check=False
            ).stdout.strip()
            for one in found
        ]

    def picture(self):
        words = [
            "ffmpeg",
            "-nostdin",
            "-v",
            "error",
            "-f",
            "x11grab",
            "-video_size",
            f"{WIDTH}x{HEIGHT}",
            "-draw_mouse",
            "0",
            "-i",
            self.name,
            "-frames:v",
            "1",
            "-pix_fmt",
            "rgb24",
            "-f",
            "rawvideo",
            "-",
        ]
        data = subprocess.run(words, capture_output=True, timeout=60, check=True).stdout
        return self.numpy.frombuffer(data, self.numpy.uint8).reshape(HEIGHT, WIDTH, 3)

    def shot(self, path):
        """Writes what is on the screen as PNG."""
        words = [
            "ffmpeg",
            "-nostdin",
            "-y",
            "-v",
            "error",
            "-f",
            "x11grab",
            "-video_size",
            f"{WIDTH}x{HEIGHT}",
            "-draw_mouse",
            "0",
            "-i",
            self.name,
            "-frames:v",
            "1",
            path,
        ]
        subprocess.run(words, timeout=60, check=True)

    def place(self, picture):
        """Where the largest picture of testsrc2 is: left, top, width, height; None if there is none. Most of its points
        are of full colours: where two columns meet, and in what moves, some are not."""
        numpy, rows = self.numpy, {}
        full = (picture.max(axis=2) >= 235) & (picture.min(axis=2) <= 20)
        for row in range(HEIGHT):
            edges = numpy.flatnonzero(numpy.diff(numpy.concatenate(([0], full[row].view(numpy.int8), [0]))))
            starts, ends = edges[::2], edges[1::2]
            begins = numpy.concatenate(([True], starts[1:] - ends[:-1] > MOST_MIXED)) if len(starts) else []
            starts, ends = starts[begins], (
                ends[numpy.concatenate((begins[1:], [True])).astype(bool)] if len(starts) else ends
            )
            if len(starts):
                longest = (ends - starts).argmax()
                run = (int(ends[longest] - starts[longest]), int(starts[longest]))
                rows.setdefault(run, []).append(row)
        runs = [run for run in rows if run[0] >= 150 and len(rows[run]) >= 10]
        if not runs:
            return None
        width, left = max(runs)
        height = round(width * self.aspect)
        top = max(rows[width, left]) + 1 - height
        return (left, top, width, height) if top >= 0 else None

    def grid(self, picture, left, top, width, height):
        """Points of a part of a picture, spread evenly."""
        across = left + ((self.numpy.arange(ACROSS) + 0.5) * width / ACROSS).astype(int)
        down = top + ((self.numpy.arange(DOWN) + 0.5) * height / DOWN).astype(int)
        return picture[down][:, across].astype(int)

    def frame(self):
        """The number of the frame that is on the screen, or None."""
        picture = self.picture()
        place = self.place(picture)
        if place is None:
            return None
        shown = self.grid(picture, *place)
        away = [float(abs(shown - frame).mean()) for frame in self.frames]
        number = min(range(len(away)), key=away.__getitem__)
        return number if away[number] <= MOST_AWAY else None

    def wait(self, wanted, seconds=20):
        """Waits until a frame is on the screen, and returns the one that is there at the end."""
        limit = time.monotonic() + seconds
        while True:
            found = self.frame()
            if found is not None and (wanted is None or found == wanted) or time.monotonic() > limit:
                return found
            time.sleep(0.3)
