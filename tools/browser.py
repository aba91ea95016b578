"""A Chromium without a window, spoken to by its DevTools protocol, for scripts that try a page."""
import base64
import contextlib
import json
import os
import select
import shutil
import signal
import subprocess
import tempfile

NAMES = ("chromium", "chromium-browser", "google-chrome", "chrome")
KEYS = {"Enter": (13, "\r"), " ": (32, " "), "Tab": (9, "")}
# How many seconds an answer is waited for.
PATIENCE = 60


def path():
    """Where a Chromium lies, or None."""
    return next(filter(None, map(shutil.which, NAMES)), None)


class Browser:
    """A Chromium and a page in it, which are ended with the block that they run in.

    It hears at its descriptor 3 and tells at 4; a zero byte stands behind each message. `faults` are those of
    the page that it has told.
    """

    def __init__(self, address):
        self.faults = []
        self._number, self._rest, self._session = 0, b"", None
        self._folder = tempfile.mkdtemp()
        hearing, self._say = os.pipe()
        self._hear, telling = os.pipe()
        words = [path(), "--headless", "--no-sandbox", "--disable-gpu", "--hide-scrollbars", "--no-first-run"]
        words += ["--remote-debugging-pipe", f"--user-data-dir={self._folder}", "about:blank"]
        self._process = subprocess.Popen(
            ["bash", "-c", f'exec 3<&{hearing} 4>&{telling}; exec "$@"', "-", *words],
            pass_fds=(hearing, telling),
            stdin=subprocess.DEVNULL,
            stdout=subprocess.DEVNULL,
            stderr=subprocess.DEVNULL,
            start_new_session=True,
        )
        os.close(hearing)
        os.close(telling)
        self._open(address)

    def _open(self, address):
        target = self.call("Target.createTarget", url="about:blank")["targetId"]
        self._session = self.call("Target.attachToTarget", targetId=target, flatten=True)["sessionId"]
        for domain in ("Runtime", "Log", "Page"):
            self.call(f"{domain}.enable")
        self.resize(1280, 860)
        self.call("Page.navigate", url=address)

    def __enter__(self):
        return self

    def __exit__(self, *_fault):
        with contextlib.suppress(OSError):
            os.killpg(self._process.pid, signal.SIGKILL)
        self._process.wait()
        os.close(self._say)
        os.close(self._hear)
        shutil.rmtree(self._folder, ignore_errors=True)

    def _next(self):
        """The next message."""
        while b"\0" not in self._rest:
            if not select.select([self._hear], [], [], PATIENCE)[0]:
                raise TimeoutError("the browser does not answer")
            piece = os.read(self._hear, 1 << 16)
            if not piece:
                raise EOFError("the browser has ended")
            self._rest += piece
        message, self._rest = self._rest.split(b"\0", 1)
        return json.loads(message)

    def call(self, method, **words):
        """What a method of the protocol answers; faults that are told meanwhile are kept."""
        self._number += 1
        asked = {"id": self._number, "method": method, "params": words}
        asked.update({"sessionId": self._session} if self._session else {})
        os.write(self._say, json.dumps(asked).encode() + b"\0")
        while (told := self._next()).get("id") != self._number:
            if told.get("method") in ("Runtime.exceptionThrown", "Log.entryAdded"):
                self.faults.append(json.dumps(told["params"]))
        if "error" in told:
            raise ValueError(f"{method}: {told['error']}")
        return told["result"]

    def value(self, expression):
        """The value of an expression in the page; None where it has none."""
        return self.call("Runtime.evaluate", expression=expression, returnByValue=True)["result"].get("value")

    def resize(self, width, height):
        """Makes the window so large."""
        size = {"width": width, "height": height, "deviceScaleFactor": 1, "mobile": False}
        self.call("Emulation.setDeviceMetricsOverride", **size)

    def dark(self, is_dark):
        """Whether the system wants dark pages."""
        scheme = {"name": "prefers-color-scheme", "value": "dark" if is_dark else "light"}
        self.call("Emulation.setEmulatedMedia", features=[scheme])

    def click(self, selector):
        """Clicks in the middle of an element."""
        box = f"JSON.stringify(document.querySelector({json.dumps(selector)}).getBoundingClientRect())"
        box = json.loads(self.value(box))
        spot = {"x": box["x"] + box["width"] / 2, "y": box["y"] + box["height"] / 2}
        for kind in ("mousePressed", "mouseReleased"):
            self.call("Input.dispatchMouseEvent", type=kind, button="left", clickCount=1, **spot)

    def press(self, key):
        """Presses a key of KEYS."""
        code, text = KEYS[key]
        for kind in ("keyDown", "keyUp"):
            self.call("Input.dispatchKeyEvent", type=kind, key=key, text=text, windowsVirtualKeyCode=code)

    def picture(self):
        """What the window shows, as the bytes of a PNG file."""
        return base64.b64decode(self.call("Page.captureScreenshot", format="png")["data"])
