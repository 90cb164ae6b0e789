"""Headless Chromium with its keyboard, by the DevTools protocol over two pipes.

    with Browser(folder) as browser:
        browser.open("file:///tmp/page.html")
        browser.press("Tab")
        browser.value("document.activeElement.id")
"""
import base64
import contextlib
import fcntl
import json
import os
import select
import subprocess
import time

KEYS = {"Tab": 9, "Enter": 13, "Escape": 27, "ArrowLeft": 37, "ArrowUp": 38, "ArrowRight": 39, "ArrowDown": 40}
TEXTS = {"Enter": "\r"}
SECONDS = 300


class Browser:
    """A page of headless Chromium, whose profile is in a folder. All calls raise RuntimeError if one takes minutes."""

    def __init__(self, folder, width=1100, height=700):
        (read, self.to), (self.back, write) = os.pipe(), os.pipe()
        # Chromium reads from 3 and writes to 4.
        read, write = (fcntl.fcntl(it, fcntl.F_DUPFD, 20) for it in (read, write))
        command = ["chromium", "--headless=new", "--no-sandbox", "--disable-gpu", "--disable-dev-shm-usage", "--no-first-run"]
        command += [f"--user-data-dir={folder}/profile-of-keys", f"--window-size={width},{height}", "--remote-debugging-pipe"]
        quiet = {"stdin": subprocess.DEVNULL, "stdout": subprocess.DEVNULL, "stderr": subprocess.DEVNULL}
        shell = ["bash", "-c", f'exec "$@" 3<&{read} 4>&{write} {read}<&- {write}>&-', "browser", *command]
        self.process = subprocess.Popen(shell, pass_fds=(read, write), **quiet)
        os.close(read)
        os.close(write)
        self.text, self.number, self.session = b"", 0, None
        target = self.call("Target.createTarget", url="about:blank")["targetId"]
        self.session = self.call("Target.attachToTarget", targetId=target, flatten=True)["sessionId"]
        self.call("Page.enable")
        self.size(width, height)

    def message(self, deadline):
        """The next message of the browser."""
        while b"\0" not in self.text:
            if not select.select([self.back], [], [], max(0, deadline - time.monotonic()))[0]:
                raise RuntimeError("the browser doesn't answer")
            data = os.read(self.back, 1 << 16)
            if not data:
                raise RuntimeError("the browser has ended")
            self.text += data
        found, self.text = self.text.split(b"\0", 1)
        return json.loads(found)

    def call(self, method, **arguments):
        """Calls a method, and returns its result."""
        self.number += 1
        asked = {"id": self.number, "method": method, "params": arguments}
        if self.session:
            asked["sessionId"] = self.session
        os.write(self.to, json.dumps(asked).encode() + b"\0")
        deadline = time.monotonic() + SECONDS
        while (found := self.message(deadline)).get("id") != self.number:
            pass
        if "error" in found:
            raise RuntimeError(f"{method}: {found['error']}")
        return found["result"]

    def open(self, url):
        """Opens a page, and waits until it is loaded."""
        self.call("Page.navigate", url="about:blank")
        self.call("Page.navigate", url=url)
        self.wait("document.readyState === 'complete' && location.href !== 'about:blank'")
        self.frame()

    def wait(self, condition):
        """Waits until an expression is true."""
        deadline = time.monotonic() + SECONDS
        while not self.value(condition):
            if time.monotonic() > deadline:
                raise RuntimeError(f"not true: {condition}")
            time.sleep(0.02)

    def value(self, expression):
        """The value of an expression of the page."""
        found = self.call("Runtime.evaluate", expression=expression, returnByValue=True, awaitPromise=True)
        if "exceptionDetails" in found:
            raise RuntimeError(f"{expression}: {found['exceptionDetails'].get('exception', {}).get('description')}")
        return found["result"].get("value")

    def frame(self):
        """Waits until what was asked for is drawn."""
        self.value("new Promise(done => requestAnimationFrame(() => requestAnimationFrame(() => setTimeout(done, 20))))")

    def press(self, key, times=1, shift=False):
        """Presses a key."""
        names = {"key": key, "code": key, "windowsVirtualKeyCode": KEYS[key], "modifiers": 8 if shift else 0}
        for _ in range(times):
            kind = {"type": "keyDown", "text": TEXTS[key]} if key in TEXTS else {"type": "rawKeyDown"}
            self.call("Input.dispatchKeyEvent", **names, **kind)
            self.call("Input.dispatchKeyEvent", type="keyUp", **names)
        self.frame()

    def type(self, text):
        """Types a text."""
        self.call("Input.insertText", text=text)
        self.frame()

    def size(self, width, height):
        """Changes the size of the window."""
        self.call("Emulation.setDeviceMetricsOverride", width=width, height=height, deviceScaleFactor=1, mobile=False)

    def medium(self, name="", scheme="light"):
        """Sets the medium, such as print, and the preferred colours."""
        feature = {"name": "prefers-color-scheme", "value": scheme}
        self.call("Emulation.setEmulatedMedia", media=name, features=[feature])
        self.frame()

    def save(self, name, method, **arguments):
        """Saves a screenshot (Page.captureScreenshot) or a PDF file (Page.printToPDF)."""
        with open(name, "wb") as file:
            file.write(base64.b64decode(self.call(method, **arguments)["data"]))

    def __enter__(self):
        return self

    def __exit__(self, *_):
        # A browser that is killed leaves processes that still write to its profile.
        self.session = None
        with contextlib.suppress(RuntimeError, OSError):
            self.call("Browser.close")
        os.close(self.to)
        os.close(self.back)
        try:
            self.process.wait(SECONDS)
        except subprocess.TimeoutExpired:
            self.process.kill()
            self.process.wait()
