"""Firefox without a window, by its own protocol (Marionette): messages of JSON with their length before them."""

import json
import os
import pathlib
import shutil
import socket
import subprocess
import tempfile
import time

# Seconds that a script or an answer may take.
MOST_TIME = 120
PREFERENCES = {
    "marionette.port": 0,
    "media.autoplay.default": 0,
    "media.autoplay.blocking_policy": 0,
    "browser.shell.checkDefaultBrowser": False,
    "app.update.enabled": False,
    "datareporting.policy.dataSubmissionEnabled": False,
}


def find():
    """The program, or None."""
    return shutil.which("firefox-esr") or shutil.which("firefox")


class Firefox:
    def __init__(self):
        self.room = tempfile.TemporaryDirectory()
        profile = pathlib.Path(self.room.name)
        (profile / "user.js").write_text(
            "".join(f"user_pref({json.dumps(name)}, {json.dumps(value)});\n" for name, value in PREFERENCES.items())
        )
        words = [find(), "--headless", "--marionette", "--profile", self.room.name, "--no-remote", "about:blank"]
        self.process = subprocess.Popen(
            words,
            env={**os.environ, "HOME": self.room.name},
            stdin=subprocess.DEVNULL,
            stdout=subprocess.DEVNULL,
            stderr=subprocess.DEVNULL,
        )
        self.count = 0
        try:
            self.socket = socket.create_connection(("127.0.0.1", self.port()), timeout=MOST_TIME)
            self.file = self.socket.makefile("rb")
            self.read()
            found = self.send(
                "WebDriver:NewSession", capabilities={"alwaysMatch": {"timeouts": {"script": 1000 * MOST_TIME}}}
            )
            self.version = found["capabilities"]["browserVersion"]
        except BaseException:
            self.process.kill()
            raise

    def port(self):
        file, limit = pathlib.Path(self.room.name, "MarionetteActivePort"), time.monotonic() + MOST_TIME
        while time.monotonic() < limit and self.process.poll() is None:
            if file.exists() and file.read_text().strip():
                return int(file.read_text())
            time.sleep(0.1)
        raise OSError("firefox does not start")

    def read(self):
        length = b""
        while not length.endswith(b":"):
            length += self.file.read(1) or b":"
        return json.loads(self.file.read(int(length[:-1] or 0)) or "null")

    def send(self, name, **given):
        self.count += 1
        data = json.dumps([0, self.count, name, given]).encode()
        self.socket.sendall(b"%d:%s" % (len(data), data))
        _, _, error, found = self.read()
        if error:
            raise OSError(f"firefox: {error['error']}: {error['message']}")
        return found

    def set_size(self, width, height):
        """The window has this size, as far as it may be that narrow."""
        self.send("WebDriver:SetWindowRect", width=width, height=height)

    def open(self, address):
        self.send("WebDriver:Navigate", url=address)

    def run(self, script, *given):
        """What a script gives to the function that is its last argument."""
        return self.send("WebDriver:ExecuteAsyncScript", script=script, args=list(given))["value"]

    def end(self):
        try:
            self.send("Marionette:Quit", flags=["eForceQuit"])
            self.process.wait(20)
        except (OSError, ValueError, TypeError, subprocess.TimeoutExpired):
            self.process.kill()
            self.process.wait(20)
        self.socket.close()
        self.room.cleanup()
