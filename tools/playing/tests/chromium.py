"""Chromium without a window and without a network, driven over two pipes by its own protocol."""
import base64
import json
import os
import select
import shutil
import subprocess
import tempfile
import time

NAMES = ("chromium-headless-shell", "chromium", "chromium-browser", "google-chrome")
SECONDS = 60


def path_of_chromium():
    return next((found for found in map(shutil.which, NAMES) if found), None)


class Chromium:
    """One page of a browser that runs as a child, for the length of a `with`."""

    def __init__(self, path):
        self.path, self.last, self.left, self.told = path, 0, b"", []

    def __enter__(self):
        self.folder = tempfile.mkdtemp(prefix="bq-chromium-")
        to_read, self.to = os.pipe()
        self.back, to_write = os.pipe()
        words = ["--headless", "--no-sandbox", "--disable-gpu", "--remote-debugging-pipe", f"--user-data-dir={self.folder}",
                 "--disable-background-networking", "--no-first-run", "--proxy-server=127.0.0.1:9", "about:blank"]

        def ends():
            # The protocol's pipes are the files 3 and 4 there.
            os.dup2(to_read, 100), os.dup2(to_write, 101)
            os.dup2(100, 3), os.dup2(101, 4)
            os.set_inheritable(3, True), os.set_inheritable(4, True)

        self.child = subprocess.Popen([self.path, *words], preexec_fn=ends, close_fds=False, stdout=subprocess.DEVNULL, stderr=subprocess.DEVNULL)
        os.close(to_read), os.close(to_write)
        self.session = None
        target = next(it for it in self.ask("Target.getTargets")["targetInfos"] if it["type"] == "page")["targetId"]
        self.session = self.ask("Target.attachToTarget", targetId=target, flatten=True)["sessionId"]
        for domain in ("Page", "Runtime", "Network", "Log"):
            self.ask(f"{domain}.enable")
        self.ask("Network.emulateNetworkConditions", offline=True, latency=0, downloadThroughput=0, uploadThroughput=0)
        return self

    def __exit__(self, *_):
        self.child.kill()
        self.child.wait()
        os.close(self.to), os.close(self.back)
        # A process of the browser may still write there.
        shutil.rmtree(self.folder, ignore_errors=True)

    def message(self, until):
        """The next message of the browser."""
        while b"\0" not in self.left:
            if not select.select([self.back], [], [], max(0, until - time.monotonic()))[0]:
                raise TimeoutError("the browser does not answer")
            got = os.read(self.back, 1 << 20)
            if not got:
                raise ConnectionError("the browser ended")
            self.left += got
        one, _, self.left = self.left.partition(b"\0")
        return json.loads(one)

    def ask(self, method, **parameters):
        """Asks the browser, and keeps what it tells meanwhile."""
        self.last += 1
        asked = {"id": self.last, "method": method, "params": parameters}
        if self.session:
            asked["sessionId"] = self.session
        data, until = json.dumps(asked).encode() + b"\0", time.monotonic() + SECONDS
        while data:
            data = data[os.write(self.to, data):]
        while True:
            told = self.message(until)
            if told.get("id") == self.last:
                if "error" in told:
                    raise RuntimeError(f"{method}: {told['error']}")
                return told["result"]
            self.told.append(told)

    def open(self, address):
        self.ask("Page.navigate", url=address)

    def value(self, script):
        """The value of an expression in the page, waited for where it is a promise."""
        got = self.ask("Runtime.evaluate", expression=script, awaitPromise=True, returnByValue=True)
        if "exceptionDetails" in got:
            raise RuntimeError(f"{script[:80]}: {got['exceptionDetails']}")
        return got["result"].get("value")

    def wait(self, script, seconds=SECONDS):
        """Waits until an expression is true in the page; gives whether it became so."""
        until = time.monotonic() + seconds
        while time.monotonic() < until:
            if self.value(script):
                return True
            time.sleep(0.05)
        return False

    def press(self, key, code=0, modifiers=0):
        for kind in ("rawKeyDown", "keyUp"):
            self.ask("Input.dispatchKeyEvent", type=kind, key=key, code=key, windowsVirtualKeyCode=code, modifiers=modifiers)

    def type(self, text):
        self.ask("Input.insertText", text=text)

    def look(self, width, height, is_dark=False, is_phone=False):
        """Sets the size of the window and the colours that its reader asks for."""
        self.ask("Emulation.setDeviceMetricsOverride", width=width, height=height, deviceScaleFactor=1, mobile=is_phone)
        self.ask("Emulation.setEmulatedMedia", features=[{"name": "prefers-color-scheme", "value": "dark" if is_dark else "light"}])

    def shot(self, path, is_whole=True):
        """Saves a picture of the page."""
        got = self.ask("Page.captureScreenshot", format="png", captureBeyondViewport=is_whole)
        with open(path, "wb") as file:
            file.write(base64.b64decode(got["data"]))

    def requests(self):
        """The addresses that the page asked for, but of itself and of what it holds."""
        asked = [it["params"]["request"]["url"] for it in self.told if it.get("method") == "Network.requestWillBeSent"]
        return [it for it in asked if not it.startswith(("file:", "data:", "blob:", "about:"))]

    def faults(self):
        """What was thrown in the page, and what its console was told as an error."""
        thrown = [it["params"]["exceptionDetails"] for it in self.told if it.get("method") == "Runtime.exceptionThrown"]
        logged = [it["params"]["entry"] for it in self.told if it.get("method") == "Log.entryAdded" and it["params"]["entry"]["level"] == "error"]
        return thrown + logged
