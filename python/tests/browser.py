"""A Chromium without a window, by its DevTools protocol over two pipes: what a page does when it is
loaded from disk."""
import base64
import json
import os
import select
import shutil
import subprocess
import tempfile
from contextlib import contextmanager, suppress

CHROMIUM = next(
    filter(None, map(shutil.which, ("chromium", "chromium-browser", "google-chrome"))), None
)
PATIENCE = (
    60  # seconds that the browser has for an answer: a page that opens a dialog, say, gives none
)
WORDS = (
    "--headless=new",
    "--no-sandbox",
    "--disable-gpu",
    "--disable-dev-shm-usage",
    "--no-first-run",
    "--remote-debugging-pipe",
    "--disable-background-networking",
    "--disable-component-update",
    "--disable-sync",
    "--hide-scrollbars",
    "--disable-default-apps",
    "--disable-extensions",
    "--mute-audio",
)


class Browser:
    """One browser with one page.

    `requests` are the addresses that the page asked for. `said` is what it wrote to the console, or
    was said of it there: errors, warnings, what its policy refused."""

    def __init__(self, folder):
        commands, answers = os.pipe(), os.pipe()
        for end in (commands[1], answers[0]):
            os.set_inheritable(end, False)
        # the browser reads commands from descriptor 3, and writes to 4
        words = f'exec "$0" "$@" 3<&{commands[0]} 4>&{answers[1]}'
        self._process = subprocess.Popen(
            ["sh", "-c", words, CHROMIUM, *WORDS, f"--user-data-dir={folder}", "about:blank"],
            pass_fds=(commands[0], answers[1]),
            stdout=subprocess.DEVNULL,
            stderr=subprocess.DEVNULL,
        )
        os.close(commands[0])
        os.close(answers[1])
        self._commands, self._answers = open(commands[1], "wb", 0), open(answers[0], "rb")
        self._number, self._rest, self._session = 0, b"", None
        self.requests, self.said, self._events = [], [], []
        target = self.call("Target.createTarget", url="about:blank")["targetId"]
        self._session = self.call("Target.attachToTarget", targetId=target, flatten=True)[
            "sessionId"
        ]
        for domain in ("Page", "Runtime", "Network", "Log"):
            self.call(f"{domain}.enable")

    def close(self):
        """Ends the browser."""
        with suppress(OSError):
            self._commands.close()
        self._process.terminate()
        try:
            self._process.wait(10)
        except subprocess.TimeoutExpired:
            self._process.kill()
            self._process.wait()
        self._answers.close()

    def _next(self):
        """The next message of the browser."""
        while b"\0" not in self._rest:
            if not select.select([self._answers], [], [], PATIENCE)[0]:
                raise AssertionError("the browser does not answer")
            piece = os.read(self._answers.fileno(), 1 << 16)
            if not piece:
                raise AssertionError("the browser has ended")
            self._rest += piece
        text, _, self._rest = self._rest.partition(b"\0")
        return json.loads(text)

    def _take(self, told):
        """Notes an event."""
        name, given = told.get("method"), told.get("params", {})
        self._events.append(name)
        if name == "Network.requestWillBeSent":
            self.requests.append(given["request"]["url"])
        elif name == "Runtime.consoleAPICalled":
            self.said.append(
                " ".join(str(each.get("value", each.get("description"))) for each in given["args"])
            )
        elif name == "Runtime.exceptionThrown":
            self.said.append(json.dumps(given["exceptionDetails"]))
        elif name == "Log.entryAdded":
            self.said.append(given["entry"]["text"])

    def call(self, method, **given):
        """What the browser answers."""
        self._number += 1
        message = {"id": self._number, "method": method, "params": given}
        if self._session is not None:
            message["sessionId"] = self._session
        self._commands.write(json.dumps(message).encode() + b"\0")
        while True:
            told = self._next()
            if told.get("id") == self._number:
                if "error" in told:
                    raise AssertionError(f"{method}: {told['error']}")
                return told["result"]
            self._take(told)

    def load(self, path, width=1280, dark=False, height=900):
        """Loads a file from disk or a URL, as a screen of this width shows it."""
        self.call(
            "Emulation.setDeviceMetricsOverride",
            width=width,
            height=height,
            deviceScaleFactor=1,
            mobile=width < 600,
        )
        self.call(
            "Emulation.setEmulatedMedia",
            features=[{"name": "prefers-color-scheme", "value": "dark" if dark else "light"}],
        )
        self.requests, self.said, self._events = [], [], []
        self.call("Page.navigate", url=path if isinstance(path, str) else path.as_uri())
        while "Page.loadEventFired" not in self._events:
            self._take(self._next())

    def run(self, script):
        """What an expression of JavaScript gives, once it is there."""
        told = self.call(
            "Runtime.evaluate",
            expression=script,
            awaitPromise=True,
            returnByValue=True,
            userGesture=True,
        )
        if "exceptionDetails" in told:
            raise AssertionError(json.dumps(told["exceptionDetails"]))
        return told["result"].get("value")

    def picture(self, whole=True):
        """A picture of the page, as PNG."""
        return base64.b64decode(
            self.call(
                "Page.captureScreenshot",
                captureBeyondViewport=whole,
                **(
                    {"clip": {**self.call("Page.getLayoutMetrics")["cssContentSize"], "scale": 1}}
                    if whole
                    else {}
                ),
            )["data"]
        )

    def printed(self):
        """The page on A4, as PDF."""
        return base64.b64decode(
            self.call("Page.printToPDF", preferCSSPageSize=True, printBackground=True)["data"]
        )


@contextmanager
def browser():
    """A browser that leaves nothing."""
    folder = tempfile.mkdtemp()
    try:
        made = Browser(folder)
        try:
            yield made
        finally:
            made.close()
    finally:
        shutil.rmtree(folder, ignore_errors=True)
