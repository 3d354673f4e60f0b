"""A headless browser for the tests: Debian's chromium-headless-shell, by the DevTools protocol over two pipes."""

import base64
import json
import os
import select
import shutil
import signal
import subprocess
import tempfile
import time

NAMES = ("chromium-headless-shell", "chromium", "google-chrome")


def found():
    """The path of a browser, or None."""
    return next(filter(None, map(shutil.which, NAMES)), None)


class Failed(Exception):
    """The browser, or a script in it, failed."""


class Browser:
    """A browser with one page open."""

    def __init__(self, program, seconds=240):
        self.seconds = seconds
        self.profile = tempfile.TemporaryDirectory(prefix="tessla-browser.", ignore_cleanup_errors=True)
        (given, self.to), (self.source, taken) = os.pipe(), os.pipe()
        self.number, self.left, self.events = 0, b"", []
        words = [program, "--headless", "--no-sandbox", "--disable-gpu", "--disable-dev-shm-usage", "--hide-scrollbars", "--no-first-run"]
        words += ["--force-color-profile=srgb", f"--user-data-dir={self.profile.name}", "--remote-debugging-pipe", "about:blank"]

        def place():
            # Above the two numbers first, which one of these may have already.
            pipes = os.dup2(given, 60), os.dup2(taken, 61)
            os.dup2(pipes[0], 3)
            os.dup2(pipes[1], 4)

        how = {"stdin": subprocess.DEVNULL, "stdout": subprocess.DEVNULL, "stderr": subprocess.DEVNULL, "close_fds": False}
        self.session = None
        self.child = subprocess.Popen(words, preexec_fn=place, start_new_session=True, **how)
        os.close(given)
        os.close(taken)
        targets = self.call("Target.getTargets")["targetInfos"]
        target = next(it["targetId"] for it in targets if it["type"] == "page")
        self.session = self.call("Target.attachToTarget", targetId=target, flatten=True)["sessionId"]
        self.call("Page.enable")
        self.call("Network.enable")

    def __enter__(self):
        return self

    def __exit__(self, *_):
        os.killpg(self.child.pid, signal.SIGKILL)
        self.child.wait()
        os.close(self.to)
        os.close(self.source)
        self.profile.cleanup()

    def call(self, method, **given):
        """Calls the browser, and returns its answer."""
        self.number += 1
        message = {"id": self.number, "method": method, "params": given, **({"sessionId": self.session} if self.session else {})}
        self.send(json.dumps(message).encode() + b"\0")
        until = time.monotonic() + self.seconds
        while time.monotonic() < until:
            answer = json.loads(self.receive(until - time.monotonic()))
            if "method" in answer:
                self.events.append(answer)
            elif answer.get("id") == self.number:
                if "error" in answer:
                    raise Failed(f"{method}: {answer['error']}")
                return answer["result"]
        raise Failed(f"{method}: no answer in {self.seconds} seconds")

    def send(self, data):
        while data:
            data = data[os.write(self.to, data) :]

    def receive(self, seconds):
        while b"\0" not in self.left:
            ready = select.select([self.source], [], [], max(seconds, 0))[0]
            if not ready:
                raise Failed("the browser does not answer")
            more = os.read(self.source, 1 << 16)
            if not more:
                raise Failed("the browser has ended")
            self.left += more
        message, _, self.left = self.left.partition(b"\0")
        return message

    def evaluate(self, script):
        """What a script gives, once it is there, as JSON."""
        how = {"expression": script, "awaitPromise": True, "returnByValue": True}
        answer = self.call("Runtime.evaluate", **how)
        if "exceptionDetails" in answer:
            raise Failed(json.dumps(answer["exceptionDetails"])[:600])
        return answer["result"].get("value")

    def apply(self, function, *given):
        return self.evaluate(f"({function})({', '.join(map(json.dumps, given))})")

    def open(self, address):
        self.call("Page.navigate", url=address)
        self.wait("document.readyState === 'complete'")

    def wait(self, condition):
        until = time.monotonic() + self.seconds
        while not self.evaluate(condition):
            if time.monotonic() > until:
                raise Failed(f"after {self.seconds} seconds this does not hold: {condition}")
            time.sleep(0.05)

    def resize(self, width, height):
        self.call("Emulation.setDeviceMetricsOverride", width=width, height=height, deviceScaleFactor=1, mobile=False)

    def set_dark(self, is_dark):
        self.call("Emulation.setEmulatedMedia", features=[{"name": "prefers-color-scheme", "value": "dark" if is_dark else "light"}])

    def asked_for(self):
        """The addresses that the page has asked for so far."""
        return [it["params"]["request"]["url"] for it in self.events if it["method"] == "Network.requestWillBeSent"]

    def type(self, text):
        """Text as by keys, into what has the focus."""
        self.call("Input.insertText", text=text)

    def press(self, key):
        for kind in ("rawKeyDown", "keyUp"):
            self.call("Input.dispatchKeyEvent", type=kind, key=key, code=key, windowsVirtualKeyCode={"Tab": 9, "ArrowRight": 39, "ArrowDown": 40}.get(key, 0))

    def screenshot(self, path):
        with open(path, "wb") as opened:
            opened.write(base64.b64decode(self.call("Page.captureScreenshot", format="png")["data"]))
