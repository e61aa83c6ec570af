"""Chromium without a window, driven by the DevTools protocol over a pipe."""
import base64
import json
import os
import shutil
import subprocess
import tempfile
import time

NAMES = ("chromium", "chromium-browser", "google-chrome")
KEYS = {"\n": ("Enter", "\r", 13), "Tab": ("Tab", "", 9), **{f"F{number}": (f"F{number}", "", 111 + number) for number in range(1, 13)}}
CONTROL = 2
# How many times as long as on an idle machine things may take.
SLOW = float(os.environ.get("SLOW", "1"))


class Browser:
    """A browser with one page. What it downloads goes to the folder `downloads`."""

    def __init__(self):
        program = next(filter(None, map(shutil.which, NAMES)), None)
        if program is None:
            raise SystemExit("no browser: apt install chromium")
        self.folder = tempfile.mkdtemp(prefix="xv6-web-")
        self.downloads = os.path.join(self.folder, "downloads")
        os.mkdir(self.downloads)
        self.rest, self.number, self.faults = b"", 0, []
        self.start(program)
        target = next(it for it in self.call("Target.getTargets")["targetInfos"] if it["type"] == "page")
        self.session = self.call("Target.attachToTarget", targetId=target["targetId"], flatten=True)["sessionId"]
        for domain in ("Runtime", "Log", "Page", "DOM"):
            self.call(f"{domain}.enable")
        self.call("Browser.setDownloadBehavior", behavior="allow", downloadPath=self.downloads)
        self.call("Browser.grantPermissions", permissions=["clipboardReadWrite", "clipboardSanitizedWrite"])

    def start(self, program):
        to_browser, self.input = os.pipe()
        self.output, from_browser = os.pipe()

        def pipes():
            # The protocol is read from 3 and written to 4.
            os.dup2(to_browser, 63)
            os.dup2(from_browser, 64)
            os.dup2(63, 3)
            os.dup2(64, 4)

        words = [program, "--headless", "--no-sandbox", "--disable-gpu", "--remote-debugging-pipe", f"--user-data-dir={self.folder}/data", "about:blank"]
        quiet = {"stdin": subprocess.DEVNULL, "stdout": subprocess.DEVNULL, "stderr": subprocess.DEVNULL}
        self.process = subprocess.Popen(words, preexec_fn=pipes, close_fds=False, **quiet)
        os.close(to_browser)
        os.close(from_browser)
        self.session = None

    def __enter__(self):
        return self

    def __exit__(self, *_):
        try:
            self.session = None
            self.call("Browser.close")
            self.process.wait(10)
        except (OSError, subprocess.TimeoutExpired):
            self.process.kill()
        shutil.rmtree(self.folder, ignore_errors=True)

    def take(self):
        while b"\0" not in self.rest:
            more = os.read(self.output, 1 << 16)
            if not more:
                raise OSError("the browser has ended")
            self.rest += more
        line, self.rest = self.rest.split(b"\0", 1)
        return json.loads(line)

    def call(self, method, **words):
        self.number += 1
        said = {"id": self.number, "method": method, "params": words}
        if self.session and not method.startswith(("Browser.", "Target.")):
            said["sessionId"] = self.session
        os.write(self.input, json.dumps(said).encode() + b"\0")
        while True:
            got = self.take()
            if got.get("id") == self.number:
                if "error" in got:
                    raise RuntimeError(f"{method}: {got['error']['message']}")
                return got["result"]
            self.keep(got)

    def keep(self, event):
        """Keeps what the page complains of."""
        method, words = event.get("method"), event.get("params", {})
        if method == "Runtime.exceptionThrown":
            details = words["exceptionDetails"]
            self.faults.append(details.get("exception", {}).get("description", details["text"]))
        elif method == "Log.entryAdded" and words["entry"]["level"] == "error":
            self.faults.append(words["entry"]["text"])

    def js(self, text):
        """The value of an expression."""
        got = self.call("Runtime.evaluate", expression=text, returnByValue=True, awaitPromise=True)
        if "exceptionDetails" in got:
            raise RuntimeError(got["exceptionDetails"]["exception"]["description"])
        return got["result"].get("value")

    def wait(self, text, what, seconds=30):
        """Waits until an expression is true. What it names may come later."""
        end = time.time() + seconds * max(1, SLOW)
        while not self.js(f"(() => {{ try {{ return Boolean({text}); }} catch {{ return false; }} }})()"):
            if time.time() > end:
                raise TimeoutError(what)
            time.sleep(0.05)

    def size(self, width, height, dark=False):
        self.call("Emulation.setScrollbarsHidden", hidden=width < 640)
        self.call("Emulation.setDeviceMetricsOverride", width=width, height=height, deviceScaleFactor=1, mobile=False)
        self.call("Emulation.setEmulatedMedia", features=[{"name": "prefers-color-scheme", "value": "dark" if dark else "light"}])

    def open(self, address):
        self.call("Page.navigate", url="about:blank")
        self.call("Page.navigate", url=address)

    def press(self, key, control=False, shift=False, commands=()):
        name, text, code = KEYS[key] if key in KEYS else (key, key, ord(key.upper()) if key.isalnum() else 0)
        words = {"key": name, "windowsVirtualKeyCode": code, "modifiers": CONTROL * control + 8 * shift}
        if text and not control:
            words["text"] = text
        self.call("Input.dispatchKeyEvent", type="keyDown", commands=list(commands), **words)
        self.call("Input.dispatchKeyEvent", type="keyUp", key=name, windowsVirtualKeyCode=code)

    def type(self, text):
        for letter in text:
            self.press(letter)

    def paste(self, text):
        """Pastes by the clipboard, as a reader does."""
        self.js(f"navigator.clipboard.writeText({json.dumps(text)})")
        self.press("v", control=True, commands=["paste"])

    def click(self, selector):
        self.js(f"document.querySelector({json.dumps(selector)}).click()")

    def give_file(self, selector, path):
        """Chooses a file at an input of files."""
        root = self.call("DOM.getDocument")["root"]["nodeId"]
        node = self.call("DOM.querySelector", nodeId=root, selector=selector)["nodeId"]
        self.call("DOM.setFileInputFiles", files=[str(path)], nodeId=node)

    def downloaded(self, name, seconds=30):
        """The bytes of a download, once it is whole."""
        path, end = os.path.join(self.downloads, name), time.time() + seconds
        while not os.path.exists(path) or os.path.exists(f"{path}.crdownload"):
            if time.time() > end:
                raise TimeoutError(f"no download {name}")
            self.js("1")
            time.sleep(0.05)
        with open(path, "rb") as file:
            got = file.read()
        os.remove(path)
        return got

    def picture(self, path, whole=False, small=None):
        """Takes a picture: of all of the page, of what is seen, or of a width and a height of it, made small by a factor."""
        self.js("scrollTo(0, 0)")
        clip = {"clip": dict(zip(("x", "y", "width", "height", "scale"), (0, 0, *small)))} if small else {}
        shot = self.call("Page.captureScreenshot", format="png", captureBeyondViewport=whole, **clip)
        with open(path, "wb") as file:
            file.write(base64.b64decode(shot["data"]))
