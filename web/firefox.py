"""Firefox without a window, driven by its Marionette protocol over a socket."""
import base64
import html
import json
import os
import re
import shutil
import socket
import subprocess
import tempfile
import time

from browser import SLOW

NAMES = ("firefox-esr", "firefox")
SHIFT, CONTROL = "\ue008", "\ue009"
KEYS = {"\n": "\ue007", "Tab": "\ue004", **{f"F{number}": chr(0xE030 + number) for number in range(1, 13)}}
NARROWEST = 500  # pixels of a window; what is narrower is a frame in it
FRAME = """<!doctype html><meta charset="utf-8"><style>body { margin: 0 } iframe { border: 0 }</style>
<iframe src="ADDRESS" width="WIDTH" height="HEIGHT"></iframe>
"""


class Firefox:
    """A browser with one page; `is_there` says whether there is one on this machine."""

    @staticmethod
    def program():
        return next(filter(None, map(shutil.which, NAMES)), None)

    def __enter__(self):
        self.folder = tempfile.mkdtemp(prefix="xv6-web-")
        self.downloads = os.path.join(self.folder, "downloads")
        os.mkdir(self.downloads)
        self.frame, self.faults = None, []
        self.port = self.free_port()
        wanted = {"marionette.port": self.port, "browser.download.folderList": 2, "browser.download.dir": self.downloads}
        wanted["ui.useOverlayScrollbars"] = 1  # as a phone has them
        with open(os.path.join(self.folder, "user.js"), "w") as file:
            file.writelines(f"user_pref({json.dumps(name)}, {json.dumps(value)});\n" for name, value in wanted.items())
        words = [self.program(), "--headless", "--marionette", "--no-remote", "--profile", self.folder, "about:blank"]
        quiet = {"stdin": subprocess.DEVNULL, "stdout": subprocess.DEVNULL, "stderr": subprocess.DEVNULL}
        self.process = subprocess.Popen(words, env={**os.environ, "HOME": self.folder, "MOZ_DISABLE_CONTENT_SANDBOX": "1"}, **quiet)
        self.number, self.rest = 0, b""
        self.socket = self.connected()
        self.message()
        self.call("WebDriver:NewSession", capabilities={"alwaysMatch": {"unhandledPromptBehavior": "dismiss"}})
        patience = round(60000 * max(1, SLOW))
        self.call("WebDriver:SetTimeouts", script=patience, pageLoad=patience)
        return self

    @staticmethod
    def free_port():
        with socket.socket() as one:
            one.bind(("127.0.0.1", 0))
            return one.getsockname()[1]

    def connected(self):
        end = time.time() + 60
        while True:
            try:
                return socket.create_connection(("127.0.0.1", self.port))
            except OSError:
                if time.time() > end or self.process.poll() is not None:
                    raise
                time.sleep(0.1)

    def __exit__(self, *_):
        try:
            self.call("Marionette:Quit", flags=["eForceQuit"])
            self.process.wait(10)
        except (OSError, RuntimeError, subprocess.TimeoutExpired):
            self.process.kill()
        self.socket.close()
        shutil.rmtree(self.folder, ignore_errors=True)

    def message(self):
        while b":" not in self.rest:
            self.more()
        length, self.rest = self.rest.split(b":", 1)
        while len(self.rest) < int(length):
            self.more()
        text, self.rest = self.rest[: int(length)], self.rest[int(length) :]
        return json.loads(text)

    def more(self):
        got = self.socket.recv(1 << 16)
        if not got:
            raise OSError("the browser has ended")
        self.rest += got

    def call(self, name, **words):
        self.number += 1
        text = json.dumps([0, self.number, name, words]).encode()
        self.socket.sendall(b"%d:%s" % (len(text), text))
        _, _, error, result = self.message()
        if error:
            raise RuntimeError(f"{name}: {error['message']}")
        return result

    def js(self, text):
        """The value of an expression."""
        return self.call("WebDriver:ExecuteScript", script=f"return ({text});", args=[], newSandbox=False)["value"]

    def wait(self, text, what, seconds=60):
        """Waits until an expression is true. What it names may come later."""
        end = time.time() + seconds * max(1, SLOW)
        while not self.js(f"(() => {{ try {{ return Boolean({text}); }} catch {{ return false; }} }})()"):
            if time.time() > end:
                raise TimeoutError(what)
            time.sleep(0.05)

    def open(self, address):
        self.call("WebDriver:SwitchToFrame")
        self.call("WebDriver:Navigate", url="about:blank")
        if self.frame is None:
            self.call("WebDriver:Navigate", url=address)
            return
        path = os.path.join(self.folder, "frame.html")
        with open(path, "w") as file:
            values = {"ADDRESS": html.escape(address), "WIDTH": self.frame[0], "HEIGHT": self.frame[1]}
            file.write(re.sub("ADDRESS|WIDTH|HEIGHT", lambda match: str(values[match[0]]), FRAME))
        self.call("WebDriver:Navigate", url=f"file://{path}")
        self.call("WebDriver:SwitchToFrame", id=0)

    def size(self, width, height, dark=False):
        """The size of the window, so that the page that is opened next has that much room. Dark is for the page's own button."""
        self.call("WebDriver:SwitchToFrame")
        self.frame = (width, height) if width < NARROWEST else None
        self.resize(max(width, NARROWEST), height)

    def resize(self, width, height):
        self.call("WebDriver:SetWindowRect", width=width, height=height)
        inner = self.js("[innerWidth, innerHeight]")
        self.call("WebDriver:SetWindowRect", width=2 * width - inner[0], height=2 * height - inner[1])

    def press(self, key, control=False, shift=False):
        held = [CONTROL] * control + [SHIFT] * shift
        order = [("keyDown", it) for it in (*held, KEYS.get(key, key))] + [("keyUp", it) for it in (KEYS.get(key, key), *held)]
        actions = [{"type": kind, "value": value} for kind, value in order]
        self.call("WebDriver:PerformActions", actions=[{"type": "key", "id": "keys", "actions": actions}])

    def type(self, text):
        """Types at the element that has the focus."""
        for letter in text:
            self.press(letter)

    def give_file(self, selector, path):
        """Chooses a file at an input of files."""
        found = self.call("WebDriver:FindElement", using="css selector", value=selector)["value"]
        self.call("WebDriver:ElementSendKeys", id=next(iter(found.values())), text=str(path))

    def downloaded(self, name, seconds=30):
        """The bytes of a download, once it is whole."""
        path, end = os.path.join(self.downloads, name), time.time() + seconds
        while not os.path.exists(path) or os.path.exists(f"{path}.part") or os.path.getsize(path) == 0:
            if time.time() > end:
                raise TimeoutError(f"no download {name}")
            time.sleep(0.05)
        with open(path, "rb") as file:
            got = file.read()
        os.remove(path)
        return got

    def click(self, selector):
        self.js(f"document.querySelector({json.dumps(selector)}).click()")

    def picture(self, path, whole=False, small=None):
        """Takes a picture: of all of the page, or of what is seen."""
        self.js("scrollTo(0, 0)")
        shot = self.call("WebDriver:TakeScreenshot", full=whole) if self.frame is None else self.picture_of_frame()
        with open(path, "wb") as file:
            file.write(base64.b64decode(shot["value"]))

    def picture_of_frame(self):
        """A picture of all of the page in the frame, which is as tall as the page meanwhile, and so is the window."""
        tall = self.js("document.documentElement.scrollHeight")
        self.stretch(tall)
        found = self.call("WebDriver:FindElement", using="css selector", value="iframe")["value"]
        shot = self.call("WebDriver:TakeScreenshot", id=next(iter(found.values())), full=False)
        self.stretch(self.frame[1])
        self.call("WebDriver:SwitchToFrame", id=0)
        return shot

    def stretch(self, height):
        """Gives the frame and its window a height."""
        self.call("WebDriver:SwitchToFrame")
        self.js(f"document.querySelector('iframe').height = {height}")
        self.resize(NARROWEST, height)
