"""Debian's chromium, without a window, driven over a pipe by its DevTools protocol."""
import base64
import fcntl
import json
import os
import shutil
import subprocess
import tempfile
import time


def program():
    """The browser's path, None where there is none."""
    return shutil.which("chromium")


class Browser:
    """A browser with one page."""

    def __init__(self, address, width=1280, height=800, scale=1):
        self.folder = tempfile.mkdtemp(prefix="browser-")
        (theirs, self.ours), (self.answers, their_answers) = os.pipe(), os.pipe()
        # (numbers that are far from those which it looks for its pipe at)
        theirs, their_answers = (fcntl.fcntl(number, fcntl.F_DUPFD, 20) for number in (theirs, their_answers))
        words = [program(), "--headless", "--disable-gpu", "--no-first-run", "--disable-extensions", "--disable-dev-shm-usage", "--remote-debugging-pipe", f"--user-data-dir={self.folder}"]
        words += ["--no-sandbox"] if os.getuid() == 0 else []
        self.process = subprocess.Popen(words, stdin=subprocess.DEVNULL, stdout=subprocess.DEVNULL, stderr=subprocess.DEVNULL, close_fds=False,
                                        preexec_fn=lambda: (os.dup2(theirs, 3), os.dup2(their_answers, 4)))
        os.close(theirs)
        os.close(their_answers)
        self.number, self.read, self.session = 0, b"", None
        target = self.call("Target.createTarget", url="about:blank")["targetId"]
        self.session = self.call("Target.attachToTarget", targetId=target, flatten=True)["sessionId"]
        self.call("Page.enable")
        self.call("Emulation.setDeviceMetricsOverride", width=width, height=height, deviceScaleFactor=scale, mobile=False)
        self.go(address)

    def go(self, address):
        """Opens an address, also that which is open, and waits for what lies there."""
        self.value("window.left = true")
        self.call("Page.navigate", url=address)
        self.until("!window.left && location.protocol === 'http:' && document.readyState === 'complete'")

    def call(self, method, **params):
        self.number += 1
        message = {"id": self.number, "method": method, "params": params} | ({"sessionId": self.session} if self.session else {})
        os.write(self.ours, json.dumps(message).encode() + b"\0")
        while True:
            answer = json.loads(self.message())
            if answer.get("id") == self.number:
                if "error" in answer:
                    raise RuntimeError(f"{method}: {answer['error']}")
                return answer["result"]

    def message(self):
        while b"\0" not in self.read:
            piece = os.read(self.answers, 1 << 20)
            if not piece:
                raise RuntimeError("the browser has ended")
            self.read += piece
        message, self.read = self.read.split(b"\0", 1)
        return message

    def value(self, text):
        """The value of an expression in the page."""
        result = self.call("Runtime.evaluate", expression=text, returnByValue=True, awaitPromise=True)
        if "exceptionDetails" in result:
            raise RuntimeError(f"{text}: {result['exceptionDetails']}")
        return result["result"].get("value")

    def until(self, text, seconds=30):
        """Waits until an expression is true; whether it came to be."""
        end = time.monotonic() + seconds
        while time.monotonic() < end:
            if self.value(text):
                return True
            time.sleep(0.005)
        return False

    def type(self, text):
        """Presses the keys of a text."""
        for letter in text:
            key = {"\n": "Enter", "\b": "Backspace"}.get(letter, letter)
            code = {"\n": 13, "\b": 8}.get(letter, 0)
            down = {"type": "keyDown", "key": key, "windowsVirtualKeyCode": code} | ({} if letter == "\b" else {"text": "\r" if letter == "\n" else letter})
            self.call("Input.dispatchKeyEvent", **down)
            self.call("Input.dispatchKeyEvent", type="keyUp", key=key, windowsVirtualKeyCode=code)

    def picture(self):
        """What the page looks like, as a PNG file."""
        return base64.b64decode(self.call("Page.captureScreenshot", format="png")["data"])

    def close(self):
        self.process.terminate()
        self.process.wait()
        os.close(self.ours)
        os.close(self.answers)
        # (what it began may still be at its files)
        shutil.rmtree(self.folder, ignore_errors=True)
