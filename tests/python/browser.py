"""A browser without a window, for the tests of pages: Chromium, driven over the pipe of its debugging protocol.

The protocol is that of DevTools (chromedevtools.github.io): messages of JSON, each with a zero byte after it, on the
file descriptors 3 and 4 of the browser. Only the standard library is wanted.
"""
import base64
import json
import os
import shutil
import subprocess
import tempfile

NAMES = ("chromium", "chromium-browser", "google-chrome", "google-chrome-stable")
KEYS = {"ArrowLeft": 37, "ArrowRight": 39, "ArrowUp": 38, "ArrowDown": 40, "Home": 36, "End": 35, "PageDown": 34,
        "PageUp": 33, " ": 32, "Tab": 9, "[": 219, "]": 221, "?": 191, "1": 49, "2": 50,
        **{letter: ord(letter.upper()) for letter in "adnprsy"}}


def found():
    """The browser's file, or None if none is installed."""
    return next(filter(None, map(shutil.which, NAMES)), None)


class Browser:
    """A started browser with one page."""

    def __init__(self, program):
        self._folder = tempfile.mkdtemp(prefix="chipfire-browser-")
        to_browser, self._out = os.pipe()
        self._in, from_browser = os.pipe()
        options = ["--headless", "--no-sandbox", "--disable-gpu", "--no-first-run", "--disable-background-networking"]
        words = [program, "--remote-debugging-pipe", f"--user-data-dir={self._folder}", *options, "about:blank"]
        # (bash puts the pipes where the protocol wants them)
        start = ["bash", "-c", f'exec "$@" 3<&{to_browser} 4>&{from_browser}', "bash", *words]
        quiet = {"stdin": subprocess.DEVNULL, "stdout": subprocess.DEVNULL, "stderr": subprocess.DEVNULL}
        self._running = subprocess.Popen(start, pass_fds=(to_browser, from_browser), **quiet)
        os.close(to_browser)
        os.close(from_browser)
        self._rest, self._number, self._session = b"", 0, None
        self.events = []
        target = self.ask("Target.createTarget", url="about:blank")["targetId"]
        self._session = self.ask("Target.attachToTarget", targetId=target, flatten=True)["sessionId"]
        for domain in ("Page", "Runtime", "Network", "Log"):
            self.ask(f"{domain}.enable")

    def close(self):
        os.close(self._out)
        try:
            self._running.wait(20)
        except subprocess.TimeoutExpired:
            self._running.kill()
            self._running.wait()
        os.close(self._in)
        shutil.rmtree(self._folder, ignore_errors=True)

    def ask(self, method, **params):
        """The result of a command; what happens meanwhile is put into `events`."""
        self._number += 1
        message = {"id": self._number, "method": method, "params": params}
        if self._session:
            message["sessionId"] = self._session
        os.write(self._out, json.dumps(message).encode() + b"\0")
        while True:
            reply = self._reply()
            if reply.get("id") == self._number:
                if "error" in reply:
                    raise RuntimeError(f"{method}: {reply['error']}")
                return reply["result"]
            self.events.append(reply)

    def _reply(self):
        while b"\0" not in self._rest:
            more = os.read(self._in, 1 << 20)
            if not more:
                raise RuntimeError("the browser has ended")
            self._rest += more
        message, self._rest = self._rest.split(b"\0", 1)
        return json.loads(message)

    def go(self, address):
        """Opens a page again and waits until it is there."""
        self.ask("Page.navigate", url="about:blank")
        self.wait("location.href === 'about:blank'")
        self.events.clear()
        self.ask("Page.navigate", url=address)
        self.wait("document.readyState === 'complete' && location.protocol === 'file:'")

    def wait(self, condition):
        """Waits until a condition of the page holds, a minute at most."""
        asked = f"new Promise((done, fail) => {{ const until = Date.now() + 60000; const look = () => ({condition}) " \
                "? done(true) : Date.now() > until ? fail(Error('it never held')) : setTimeout(look, 20); look(); })"
        self.value(asked)

    def value(self, expression):
        """The value of an expression in the page."""
        reply = self.ask("Runtime.evaluate", expression=expression, returnByValue=True, awaitPromise=True)
        if "exceptionDetails" in reply:
            raise AssertionError(f"{expression}: {reply['exceptionDetails']}")
        return reply["result"].get("value")

    def press(self, key):
        """Presses a key, as on the keyboard."""
        code = "Space" if key == " " else key
        for kind in ("rawKeyDown", "keyUp"):
            self.ask("Input.dispatchKeyEvent", type=kind, key=key, code=code, windowsVirtualKeyCode=KEYS[key])

    def click(self, selector):
        """Clicks in the middle of an element, as with the mouse."""
        box = self.value(f"(() => {{ const it = document.querySelector({json.dumps(selector)}); "
                         "it.scrollIntoView({block: 'nearest'}); const box = it.getBoundingClientRect(); "
                         "return [box.x + box.width / 2, box.y + box.height / 2]; })()")
        for kind in ("mousePressed", "mouseReleased"):
            self.ask("Input.dispatchMouseEvent", type=kind, x=box[0], y=box[1], button="left", clickCount=1)

    def resize(self, width, height, is_phone=False):
        """Gives the page a screen of this size."""
        size = {"width": width, "height": height, "deviceScaleFactor": 1, "mobile": is_phone}
        self.ask("Emulation.setDeviceMetricsOverride", **size)

    def media(self, theme="", forced=""):
        """Gives the page a theme, "dark" or "light", and forced colours, if "active"."""
        features = {"prefers-color-scheme": theme, "forced-colors": forced}
        self.ask("Emulation.setEmulatedMedia", features=[{"name": key, "value": it} for key, it in features.items()])

    def names(self):
        """The roles and names of what a screen reader reads out of the page."""
        nodes = self.ask("Accessibility.getFullAXTree")["nodes"]
        return [(it["role"]["value"], it.get("name", {}).get("value", "")) for it in nodes if not it["ignored"]]

    def picture(self, file, whole=False):
        """Writes what the screen shows as a PNG file, or the whole page."""
        data = self.ask("Page.captureScreenshot", format="png", captureBeyondViewport=whole)["data"]
        with open(file, "wb") as out:
            out.write(base64.b64decode(data))

    def complaints(self):
        """What went wrong in the page: exceptions, errors on its console, and requests for anything but the page."""
        complaints = [event for event in self.events if event.get("method") == "Runtime.exceptionThrown"]
        noted = [event for event in self.events if event.get("method") == "Log.entryAdded"]
        complaints += [event for event in noted if event["params"]["entry"]["level"] == "error"]
        asked = [event for event in self.events if event.get("method") == "Network.requestWillBeSent"]
        return complaints + [event for event in asked if not event["params"]["request"]["url"].startswith("file:")]
