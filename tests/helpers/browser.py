"""A browser that is driven over a pipe by the DevTools protocol, without a library: Debian's chromium, headless."""
import base64
import json
import os
import shutil
import subprocess
import tempfile
import time

NAMES = ("chromium", "chromium-browser", "google-chrome")
WORDS = ("--headless=new", "--remote-debugging-pipe", "--no-sandbox", "--disable-gpu", "--no-first-run", "--disable-extensions", "--hide-scrollbars")
# What the browser reads and writes of the protocol.
READS, WRITES = 3, 4


def path():
    """Where a browser is, if there is one."""
    return next(filter(None, map(shutil.which, NAMES)), None)


def connected(reads, writes):
    """For the browser's process: the ends of the pipes where it looks for them."""
    spare = [os.dup(reads), os.dup(writes)]
    high = [os.dup2(end, 200 + k, False) for k, end in enumerate(spare)]
    os.dup2(high[0], READS)
    os.dup2(high[1], WRITES)


class Page:
    """A page in a browser of its own; `told` has what went wrong in it, and `asked` the addresses that it asked for."""

    def __init__(self, address):
        self.folder = tempfile.TemporaryDirectory(ignore_cleanup_errors=True)
        reads, self.writes = os.pipe()
        self.reads, writes = os.pipe()
        self.process = subprocess.Popen([path(), *WORDS, f"--user-data-dir={self.folder.name}/user", "about:blank"], stdout=subprocess.DEVNULL, stderr=subprocess.DEVNULL,
                                        close_fds=False, preexec_fn=lambda: connected(reads, writes))
        os.close(reads)
        os.close(writes)
        self.rest, self.count, self.session, self.told, self.asked = b"", 0, None, [], []
        target = self.call("Target.createTarget", url="about:blank")["targetId"]
        self.session = self.call("Target.attachToTarget", targetId=target, flatten=True)["sessionId"]
        for domain in ("Page", "Runtime", "Log", "Network"):
            self.call(f"{domain}.enable")
        self.call("Page.setDownloadBehavior", behavior="allow", downloadPath=self.folder.name)
        self.open(address)

    def open(self, address):
        self.call("Page.navigate", url="about:blank")
        self.call("Page.navigate", url=address)
        self.until("document.body && document.body.dataset.ready === 'yes'")

    def next(self):
        """The next message of the browser."""
        while b"\0" not in self.rest:
            part = os.read(self.reads, 1 << 20)
            if not part:
                raise EOFError("the browser ended")
            self.rest += part
        text, _, self.rest = self.rest.partition(b"\0")
        return json.loads(text)

    def call(self, method, **given):
        """What the browser answers; events that come before it are kept where something went wrong."""
        self.count += 1
        asked = {"id": self.count, "method": method, "params": given, **({"sessionId": self.session} if self.session else {})}
        os.write(self.writes, json.dumps(asked).encode() + b"\0")
        while True:
            message = self.next()
            if message.get("id") == self.count:
                if "error" in message:
                    raise RuntimeError(f"{method}: {message['error']}")
                return message["result"]
            self.hear(message)

    def hear(self, message):
        method, given = message.get("method", ""), message.get("params", {})
        if method == "Runtime.exceptionThrown":
            self.told.append(given["exceptionDetails"].get("exception", {}).get("description", "an exception"))
        elif method == "Log.entryAdded" and given["entry"]["level"] == "error":
            self.told.append(given["entry"]["text"])
        elif method == "Network.requestWillBeSent":
            self.asked.append(given["request"]["url"])

    def value(self, expression):
        """What an expression is in the page."""
        done = self.call("Runtime.evaluate", expression=expression, returnByValue=True, awaitPromise=True)
        if "exceptionDetails" in done:
            raise RuntimeError(f"{expression}: {done['exceptionDetails']['exception'].get('description')}")
        return done["result"].get("value")

    def until(self, expression, seconds=20):
        end = time.monotonic() + seconds
        while not self.value(expression):
            if time.monotonic() > end:
                raise TimeoutError(expression)
            time.sleep(0.02)

    def key(self, key):
        for kind in ("keyDown", "keyUp"):
            self.call("Input.dispatchKeyEvent", type=kind, key=key, code=key, windowsVirtualKeyCode={"Enter": 13, "ArrowRight": 39, "ArrowLeft": 37, "Home": 36, "End": 35}.get(key, 0))

    def size(self, width, height, dark=False, media=""):
        self.call("Emulation.setDeviceMetricsOverride", width=width, height=height, deviceScaleFactor=1, mobile=width < 600)
        self.call("Emulation.setEmulatedMedia", media=media, features=[{"name": "prefers-color-scheme", "value": "dark" if dark else "light"}])

    def picture(self, file, whole=False):
        """A picture of what is seen, or of the whole page."""
        done = self.call("Page.captureScreenshot", captureBeyondViewport=whole)
        with open(file, "wb") as out:
            out.write(base64.b64decode(done["data"]))

    def close(self):
        self.call("Browser.close") if self.process.poll() is None else None
        self.process.wait(10)
        os.close(self.writes)
        os.close(self.reads)
        self.folder.cleanup()
