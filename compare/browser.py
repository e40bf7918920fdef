"""A browser that a script looks through: the protocol of WebDriver (W3C) over Debian's chromium and chromium-driver."""

import base64
import json
import shutil
import socket
import subprocess
import time
import urllib.error
import urllib.request

# Seconds that a request of the driver may take.
MOST_TIME = 300
ELEMENT = "element-6066-11e4-a52e-4f735466cecf"
KEYS = {
    "Control": "\ue009", "Shift": "\ue008", "Left": "\ue012", "Right": "\ue014", "Up": "\ue013", "Down": "\ue015",
    "Home": "\ue011", "End": "\ue010", "PageUp": "\ue00e", "PageDown": "\ue00f",
    "Delete": "\ue017", "Escape": "\ue00c", "Enter": "\ue007", "Tab": "\ue004",
}  # fmt: skip


# Whether all that is seen of the sound is drawn; and the frames that have ink in its picture, in the pixels of the
# canvas.
HEARD = "!wokureti.waves.isBusy && wokureti.waves.runs.size && !wokureti.waves.next()"
INKED = """const { programme, waves } = wokureti;
    programme.redraw();
    await new Promise((done) => requestAnimationFrame(() => requestAnimationFrame(done)));
    const { canvas, window, model } = programme;
    const ratio = canvas.width / window.width;
    const height = canvas.height / ratio;
    // A copy: a canvas that is read is slower from then on.
    const copy = new OffscreenCanvas(canvas.width, canvas.height + 1)
        .getContext("2d", { alpha: false, willReadFrequently: true });
    copy.drawImage(canvas, 0, 0);
    copy.fillStyle = programme.theme.wave;
    copy.fillRect(0, canvas.height, 1, 1);
    const wave = [...copy.getImageData(0, canvas.height, 1, 1).data].join();
    const row = copy.getImageData(0, Math.round((height - 18 - waves.tall(height) / 2) * ratio), canvas.width, 1).data;
    const found = [];
    for (let frame = 0; frame < window.count; frame++) {
      // The cursor covers a frame.
      if (frame === model.frame) continue;
      let ink = 0;
      const [first, end] = [frame, frame + 1].map((one) => Math.round(window.pixelOf(one) * ratio));
      for (let x = first + 2; x < end - 2; x++) ink += [...row.subarray(4 * x, 4 * x + 4)].join() === wave;
      if (ink * 2 > end - first - 4) found.push(frame);
    }
    return found;"""


class Wrong(Exception):
    """The driver refused a command."""


class Browser:
    """A browser without a window, of a size, with the colours of a theme. `more` are arguments of the program."""

    def __init__(self, width=1440, height=900, is_dark=True, more=()):
        program = shutil.which("chromedriver")
        if program is None or shutil.which("chromium") is None:
            raise SystemExit("chromium and chromium-driver are not here: apt-get install chromium chromium-driver")
        with socket.create_server(("127.0.0.1", 0)) as sock:
            port = sock.getsockname()[1]
        self.driver = subprocess.Popen(
            [program, f"--port={port}"], stdout=subprocess.DEVNULL, stderr=subprocess.DEVNULL
        )
        self.root = f"http://127.0.0.1:{port}"
        arguments = [
            "--headless=new",
            "--no-sandbox",
            "--disable-gpu",
            f"--window-size={width},{height}",
            "--hide-scrollbars",
            "--no-first-run",
            *more,
        ]
        options = {"binary": shutil.which("chromium"), "args": arguments}
        wanted = {
            "browserName": "chrome",
            "goog:chromeOptions": options,
            "goog:loggingPrefs": {"browser": "ALL"},
            "unhandledPromptBehavior": "ignore",
            "timeouts": {"script": 1000 * MOST_TIME},
        }
        try:
            limit = time.monotonic() + 30
            while True:
                try:
                    self.session = ""
                    found = self.send("POST", "/session", {"capabilities": {"alwaysMatch": wanted}}, root=True)
                    break
                except (urllib.error.URLError, ConnectionError):
                    if time.monotonic() > limit:
                        raise
                    time.sleep(0.1)
            self.session = f"/session/{found['sessionId']}"
            self.version = found["capabilities"]["browserVersion"]
            self.process = found["capabilities"].get("goog:processID")
            self.set_theme(is_dark)
            self.set_size(width, height)
        except BaseException:
            self.driver.kill()
            raise

    def send(self, method, path, body=None, root=False):
        data = None if method == "GET" else json.dumps(body or {}).encode()
        request = urllib.request.Request(
            self.root + ("" if root else self.session) + path, data, {"Content-Type": "application/json"}, method=method
        )
        try:
            with urllib.request.urlopen(request, timeout=MOST_TIME) as answer:
                return json.loads(answer.read())["value"]
        except urllib.error.HTTPError as error:
            value = json.loads(error.read())["value"]
            raise Wrong(f"{value['error']}: {value['message'][:500]}") from None

    def command(self, name, **given):
        """A command of the browser's own protocol."""
        return self.send("POST", "/goog/cdp/execute", {"cmd": name, "params": given})

    def set_theme(self, is_dark):
        self.command(
            "Emulation.setEmulatedMedia",
            features=[{"name": "prefers-color-scheme", "value": "dark" if is_dark else "light"}],
        )

    def set_size(self, width, height, ratio=1):
        self.command(
            "Emulation.setDeviceMetricsOverride", width=width, height=height, deviceScaleFactor=ratio, mobile=False
        )

    def open(self, address):
        self.send("POST", "/url", {"url": address})

    def reload(self):
        self.send("POST", "/refresh")

    def run(self, script, *given):
        """What a script returns; a promise is waited for."""
        body = (
            "const done = arguments[arguments.length - 1]; (async (...args) => {"
            f" {script} }})(...Array.prototype.slice.call(arguments, 0, -1)).then((v) => done([v, null]), (e) =>"
            " done([null, String(e.stack || e)]))"
        )
        value, error = self.send("POST", "/execute/async", {"script": body, "args": list(given)})
        if error:
            raise Wrong(error)
        return value

    def wait(self, script, *given, seconds=20):
        """Waits until a script returns something true, and returns it."""
        limit = time.monotonic() + seconds
        while True:
            found = self.run(f"return {script}", *given)
            if found:
                return found
            if time.monotonic() > limit:
                raise AssertionError(f"not so in {seconds} s: {script}")
            time.sleep(0.03)

    def element(self, css):
        return self.send("POST", "/element", {"using": "css selector", "value": css})[ELEMENT]

    def click(self, css):
        self.send("POST", f"/element/{self.element(css)}/click")

    def type(self, css, text):
        self.send("POST", f"/element/{self.element(css)}/value", {"text": text})

    def key(self, *names):
        """Presses keys together: the last one is the key, those before it are held."""
        keys = [KEYS.get(name, name) for name in names]
        steps = [{"type": "keyDown", "value": key} for key in keys] + [
            {"type": "keyUp", "value": key} for key in reversed(keys)
        ]
        self.send("POST", "/actions", {"actions": [{"type": "key", "id": "keys", "actions": steps}]})

    def wheel(self, x, y, down, across=0):
        steps = [
            {
                "type": "scroll",
                "x": int(x),
                "y": int(y),
                "deltaX": int(across),
                "deltaY": int(down),
                "duration": 0,
                "origin": "viewport",
            }
        ]
        self.send("POST", "/actions", {"actions": [{"type": "wheel", "id": "wheel", "actions": steps}]})

    def drag(self, points, held=()):
        """Presses the pointer at the first point, moves through the others, and lets it go."""
        move = [
            {"type": "pointerMove", "duration": 30, "x": int(x), "y": int(y), "origin": "viewport"} for x, y in points
        ]
        steps = [move[0], {"type": "pointerDown", "button": 0}, *move[1:], {"type": "pointerUp", "button": 0}]
        self.send(
            "POST",
            "/actions",
            {"actions": [{"type": "pointer", "id": "mouse", "parameters": {"pointerType": "mouse"}, "actions": steps}]},
        )

    def point(self, x, y):
        steps = [{"type": "pointerMove", "duration": 10, "x": int(x), "y": int(y), "origin": "viewport"}]
        self.send(
            "POST",
            "/actions",
            {"actions": [{"type": "pointer", "id": "mouse", "parameters": {"pointerType": "mouse"}, "actions": steps}]},
        )

    def screenshot(self):
        return base64.b64decode(self.send("GET", "/screenshot"))

    def errors(self):
        """What the console has of errors since the last call."""
        return [
            entry["message"]
            for entry in self.send("POST", "/se/log", {"type": "browser"})
            if entry["level"] in ("SEVERE", "WARNING")
        ]

    def tabs(self):
        return self.send("GET", "/window/handles")

    def new_tab(self):
        return self.send("POST", "/window/new", {"type": "tab"})["handle"]

    def use_tab(self, handle):
        self.send("POST", "/window", {"handle": handle})

    def end(self):
        try:
            self.send("DELETE", "")
        except (OSError, Wrong):
            pass
        self.driver.terminate()
        self.driver.wait(10)

    def __enter__(self):
        return self

    def __exit__(self, kind, value, trace):
        self.end()
