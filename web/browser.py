"""A headless Chromium, driven over a pipe with the standard library alone: pages, controls, keys, files, pictures."""
import base64
import json
import os
import pathlib
import select
import shutil
import subprocess
import tempfile
import time

NAMES = ("chromium", "chromium-browser", "google-chrome", "google-chrome-stable")
PATIENCE = 60  # seconds for an answer
BETWEEN_SAVES = 0.15  # Chromium drops what a page saves more than ten times in a second


class BrowserFault(Exception):
    """What the browser did not do."""


def found():
    """Where a Chromium is, or None."""
    return next(filter(None, map(shutil.which, NAMES)), None)


def version(program):
    said = subprocess.run([program, "--version"], stdout=subprocess.PIPE, stderr=subprocess.DEVNULL, text=True, check=False)
    return said.stdout.strip() or "of no known version"


class Browser:
    """One page at a time. What the page throws or logs as an error is kept in `faults`."""

    def __init__(self, program, width=1366, height=768):
        self.folder = tempfile.TemporaryDirectory(ignore_cleanup_errors=True)
        self.faults, self._ended, self._number, self._held, self._saved = [], False, 0, b"", 0.0
        theirs, self._out = os.pipe()
        self._in, ours = os.pipe()

        def places():  # Chromium reads commands from 3 and writes to 4
            a, b = os.dup(theirs), os.dup(ours)
            os.dup2(a, 3)
            os.dup2(b, 4)
        # Without a sandbox it starts as root and in containers, too; the page is a file of this repository.
        words = [program, "--headless=new", "--remote-debugging-pipe", "--no-sandbox", "--disable-gpu", "--disable-dev-shm-usage", "--hide-scrollbars", "--no-first-run", "--disable-extensions",
                 "--disable-background-networking", "--disable-component-update", "--mute-audio", "--force-color-profile=srgb", f"--user-data-dir={self.folder.name}/profile", f"--window-size={width},{height}", "about:blank"]
        self._process = subprocess.Popen(words, preexec_fn=places, pass_fds=(3, 4), stdin=subprocess.DEVNULL, stdout=subprocess.DEVNULL, stderr=subprocess.DEVNULL)
        os.close(theirs)
        os.close(ours)
        self.session = None
        page = self.call("Target.createTarget", url="about:blank")["targetId"]
        self.session = self.call("Target.attachToTarget", targetId=page, flatten=True)["sessionId"]
        for domain in ("Page", "Runtime", "Log", "DOM", "Network"):
            self.call(f"{domain}.enable")
        self.size(width, height)

    def close(self):
        if not self._ended:
            self._ended = True
            os.close(self._out)
            self._process.terminate()
            self._process.wait(10)
            os.close(self._in)
            self.folder.cleanup()

    def __enter__(self):
        return self

    def __exit__(self, *_):
        self.close()

    # -- the pipe

    def call(self, method, **params):
        self._number += 1
        message = {"id": self._number, "method": method, "params": params}
        if self.session and not method.startswith(("Target.", "Browser.")):
            message["sessionId"] = self.session
        self._send(json.dumps(message).encode() + b"\0")
        until = time.monotonic() + PATIENCE
        while True:
            answer = self._receive(until)
            if answer.get("id") == self._number:
                if "error" in answer:
                    raise BrowserFault(f"{method}: {answer['error'].get('message')}")
                return answer["result"]
            self._event(answer)

    def _send(self, data):
        while data:
            data = data[os.write(self._out, data):]

    def _receive(self, until):
        while b"\0" not in self._held:
            if not select.select([self._in], [], [], max(0, until - time.monotonic()))[0]:
                raise BrowserFault(f"no answer for {PATIENCE} s")
            part = os.read(self._in, 1 << 20)
            if not part:
                raise BrowserFault("it has ended")
            self._held += part
        message, self._held = self._held.split(b"\0", 1)
        return json.loads(message)

    def _event(self, message):
        method, params = message.get("method"), message.get("params", {})
        if method == "Runtime.exceptionThrown":
            details = params["exceptionDetails"]
            self.faults.append(details.get("exception", {}).get("description") or details.get("text"))
        elif method == "Log.entryAdded" and params["entry"]["level"] == "error":
            self.faults.append(f"{params['entry']['text']} {params['entry'].get('url', '')}")
        elif method == "Runtime.consoleAPICalled" and params["type"] in ("error", "assert"):
            self.faults.append(f"console: {[part.get('value') for part in params['args']]}")
        elif method == "Network.requestWillBeSent" and params["request"]["url"].split(":")[0] in ("http", "https", "ws", "wss"):
            self.faults.append(f"a request to the network: {params['request']['url']}")

    # -- the page

    def open(self, path):
        self.call("Page.navigate", url=pathlib.Path(path).resolve().as_uri())
        self.wait("document.documentElement?.dataset.ready === 'yes'")

    def value(self, expression):
        """What an expression is in the page; a promise is waited for."""
        answer = self.call("Runtime.evaluate", expression=expression, returnByValue=True, awaitPromise=True)
        if "exceptionDetails" in answer:
            raise BrowserFault(f"{expression}: {answer['exceptionDetails'].get('exception', {}).get('description')}")
        return answer["result"].get("value")

    def wait(self, condition, seconds=30):
        until = time.monotonic() + seconds
        while not self.value(condition):
            if time.monotonic() > until:
                raise BrowserFault(f"never came: {condition}")
            time.sleep(0.02)

    def text(self, selector):
        return self.value(f"document.querySelector({json.dumps(selector)}).textContent")

    def press(self, selector):
        """Clicks a control; one that is switched off, or not there, is a fault."""
        done = self.value(f"(() => {{ const found = document.querySelector({json.dumps(selector)}); if (!found || found.disabled) return false; found.click(); return true; }})()")
        if not done:
            raise BrowserFault(f"no control {selector} that can be pressed")

    def type(self, selector, text):
        """Puts a text into a field, as its reader would see it change."""
        self.value(f"(() => {{ const field = document.querySelector({json.dumps(selector)}); field.value = {json.dumps(text)}; field.dispatchEvent(new Event('input', {{ bubbles: true }})); field.dispatchEvent(new Event('change', {{ bubbles: true }})); }})()")

    def choose(self, selector, words):
        """Picks an option of a choice by its words."""
        done = self.value(f"(() => {{ const choice = document.querySelector({json.dumps(selector)}); const option = [...choice.options].find((one) => one.textContent === {json.dumps(words)}); if (!option) return false;"
                          " choice.value = option.value; choice.dispatchEvent(new Event('change', { bubbles: true })); return true; })()")
        if not done:
            raise BrowserFault(f"{selector} has no {words!r}")

    def key(self, key, text="", control=False):
        for kind in ("keyDown", "keyUp"):
            self.call("Input.dispatchKeyEvent", type=kind, key=key, text=text if kind == "keyDown" and not control else "", modifiers=2 if control else 0)

    def click_at(self, x, y):
        """The mouse's own button, at a place of the window."""
        for kind in ("mouseMoved", "mousePressed", "mouseReleased"):
            self.call("Input.dispatchMouseEvent", type=kind, x=x, y=y, button="none" if kind == "mouseMoved" else "left", clickCount=0 if kind == "mouseMoved" else 1)

    def give_file(self, selector, path):
        """A file for a file dialog."""
        node = self.call("Runtime.evaluate", expression=f"document.querySelector({json.dumps(selector)})")["result"]["objectId"]
        self.call("DOM.setFileInputFiles", files=[str(pathlib.Path(path).resolve())], objectId=node)

    def drop_file(self, path, x, y):
        """A file that is dropped on the page."""
        data = {"items": [], "files": [str(pathlib.Path(path).resolve())], "dragOperationsMask": 1}
        for kind in ("dragEnter", "dragOver", "drop"):
            self.call("Input.dispatchDragEvent", type=kind, x=x, y=y, data=data)

    def saved(self, selector, seconds=20):
        """Presses a control that saves a file, and answers the file's name and bytes."""
        time.sleep(max(0, self._saved + BETWEEN_SAVES - time.monotonic()))
        self._saved = time.monotonic()
        with tempfile.TemporaryDirectory(dir=self.folder.name) as folder:
            self.call("Browser.setDownloadBehavior", behavior="allow", downloadPath=folder)
            self.press(selector)
            until = time.monotonic() + seconds
            while time.monotonic() < until:
                there = [path for path in pathlib.Path(folder).iterdir() if path.suffix != ".crdownload" and not path.name.startswith(".")]
                if there and not list(pathlib.Path(folder).glob("*.crdownload")):
                    return there[0].name, there[0].read_bytes()
                self.value("0")  # takes in what the browser tells meanwhile
                time.sleep(0.01)
        raise BrowserFault(f"{selector} saved nothing")

    # -- how it is shown

    def size(self, width, height):
        self.call("Emulation.setDeviceMetricsOverride", width=width, height=height, deviceScaleFactor=1, mobile=False)

    def media(self, dark=False, still=False):
        features = [{"name": "prefers-color-scheme", "value": "dark" if dark else "light"}, {"name": "prefers-reduced-motion", "value": "reduce" if still else "no-preference"}]
        self.call("Emulation.setEmulatedMedia", features=features)

    def picture(self, path, whole=False):
        params = {"captureBeyondViewport": True, "clip": {**self._whole(), "scale": 1}} if whole else {}
        data = self.call("Page.captureScreenshot", format="png", **params)["data"]
        pathlib.Path(path).write_bytes(base64.b64decode(data))

    def _whole(self):
        size = self.call("Page.getLayoutMetrics")["cssContentSize"]
        return {"x": 0, "y": 0, "width": size["width"], "height": size["height"]}
