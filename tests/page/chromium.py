"""A headless Chromium, driven through its debugging pipe by the standard library alone."""

import base64
import json
import os
import select
import shutil
import subprocess
import tempfile
import time
import urllib.parse

NAMES = ("chromium", "chromium-browser", "google-chrome")
FLAGS = (
    "--headless=new",
    "--no-sandbox",
    "--disable-gpu",
    "--disable-dev-shm-usage",
    "--disable-extensions",
    "--disable-background-networking",
    # Without it the browser takes no more than 200 changes of the address in 10 seconds.
    "--disable-ipc-flooding-protection",
    "--no-first-run",
    "--hide-scrollbars",
    "--force-color-profile=srgb",
    "--remote-debugging-pipe",
)
HELD = {None: 0, "alt": 1, "ctrl": 2}
KEYS = {"ArrowLeft": 37, "ArrowRight": 39, "Tab": 9, "Enter": 13, " ": 32}


def browser():
    """The path of a Chromium, or None."""
    return next((path for path in map(shutil.which, NAMES) if path), None)


def js(text):
    """A text as a JavaScript literal."""
    return "decodeURIComponent('" + urllib.parse.quote(text, safe="") + "')"


# Lets each later run go on until it is stopped, so that a test can look at a run even on a fast machine; and the end
# of that.
ENDLESS = """window.post ??= Worker.prototype.postMessage;
    Worker.prototype.postMessage = function (data) { data.kind || post.call(this, data); };"""
AS_LONG_AS_IT_TAKES = "Worker.prototype.postMessage = window.post;"


class Failed(Exception):
    """The browser refused a call, or the page threw an exception."""


class Chromium:
    """A browser with one tab. Waits end after these seconds; `with` closes the browser."""

    def __init__(self, patience=300):
        self.patience = patience
        self.data = tempfile.mkdtemp(prefix="page-chromium-")
        (ours_in, theirs_out), (theirs_in, ours_out) = os.pipe(), os.pipe()
        # The browser reads from 3 and writes to 4.
        command = 'exec 3<&"$1" 4>&"$2"; shift 2; exec "$@"'
        words = ["bash", "-c", command, "bash", str(theirs_in), str(theirs_out), browser(), *FLAGS, f"--user-data-dir={self.data}", "about:blank"]
        quiet = {"stdin": subprocess.DEVNULL, "stdout": subprocess.DEVNULL, "stderr": subprocess.DEVNULL}
        self.process = subprocess.Popen(words, pass_fds=(theirs_in, theirs_out), start_new_session=True, **quiet)
        os.close(theirs_in)
        os.close(theirs_out)
        self.read, self.write, self.left, self.count, self.session = ours_in, ours_out, b"", 0, None
        self.events = []
        self.session = self.attach()
        self.call("Page.enable")

    def attach(self):
        """Attaches to the first tab."""
        until = time.monotonic() + 300
        while True:
            targets = self.call("Target.getTargets")["targetInfos"]
            pages = [it["targetId"] for it in targets if it["type"] == "page"]
            if pages:
                return self.call("Target.attachToTarget", targetId=pages[0], flatten=True)["sessionId"]
            if time.monotonic() > until:
                raise Failed("the browser has no tab")
            time.sleep(0.1)

    def __enter__(self):
        return self

    def __exit__(self, *_):
        self.process.terminate()
        try:
            self.process.wait(60)
        except subprocess.TimeoutExpired:
            self.process.kill()
            self.process.wait()
        os.close(self.read)
        os.close(self.write)
        shutil.rmtree(self.data, ignore_errors=True)

    def message(self, seconds):
        """Returns the next message of the browser."""
        while b"\0" not in self.left:
            if not select.select([self.read], [], [], seconds)[0]:
                raise Failed(f"the browser said nothing for {seconds} seconds")
            some = os.read(self.read, 1 << 20)
            if not some:
                raise Failed("the browser has ended")
            self.left += some
        whole, _, self.left = self.left.partition(b"\0")
        return json.loads(whole)

    def call(self, method, seconds=900, **parameters):
        """Calls a method of the browser, and returns its result. Events that come meanwhile are kept."""
        self.count += 1
        asked = {"id": self.count, "method": method, "params": parameters}
        if self.session:
            asked["sessionId"] = self.session
        os.write(self.write, json.dumps(asked).encode() + b"\0")
        while True:
            said = self.message(seconds)
            if said.get("id") == self.count:
                break
            self.events.append(said)
        if "error" in said:
            raise Failed(f"{method}: {said['error']['message']}")
        return said["result"]

    def js(self, text, seconds=900):
        """Returns the value of an expression in the page, or the value of its promise."""
        said = self.call("Runtime.evaluate", seconds, expression=text, returnByValue=True, awaitPromise=True)
        if "exceptionDetails" in said:
            told = said["exceptionDetails"]
            raise Failed(told.get("exception", {}).get("description") or told["text"])
        return said["result"].get("value")

    def until(self, text):
        """Waits until an expression is true in the page."""
        end = time.monotonic() + self.patience
        while not self.js(f"Boolean({text})"):
            if time.monotonic() > end:
                raise Failed(f"it isn't so after {self.patience} seconds: {text}")
            time.sleep(0.02)

    def open(self, url):
        """Opens an address anew, and waits until the page is ready."""
        self.call("Page.navigate", url="about:blank")
        self.call("Page.navigate", url=url)
        self.until("document.readyState === 'complete' && location.href !== 'about:blank'")
        self.js("typeof begun === 'undefined' || begun.then(() => true)")

    def key(self, name, times=1, held=None):
        """Presses a key while another is held."""
        for _ in range(times):
            more = {"key": name, "code": {" ": "Space"}.get(name, name), "windowsVirtualKeyCode": KEYS[name], "modifiers": HELD[held]}
            if name in ("Enter", " ") and not held:
                more["text"] = {"Enter": "\r"}.get(name, name)
            self.call("Input.dispatchKeyEvent", type="keyDown", **more)
            self.call("Input.dispatchKeyEvent", type="keyUp", key=name, code=more["code"])

    def names(self):
        """Returns the role and the name of each focusable part of the page, as a screen reader gets them."""
        value = lambda node, which: node.get(which, {}).get("value", "")
        nodes = [it for it in self.call("Accessibility.getFullAXTree")["nodes"] if not it.get("ignored")]
        focusable = [it for it in nodes if any(p["name"] == "focusable" and p["value"]["value"] for p in it.get("properties", []))]
        return [[value(it, "role"), value(it, "name").strip()] for it in focusable if value(it, "role") != "RootWebArea"]

    def look(self, wide, high, scheme, is_phone=False):
        """Sets the size of the window, and the light or dark scheme."""
        size = {"width": wide, "height": high, "deviceScaleFactor": 1, "mobile": is_phone}
        self.call("Emulation.setDeviceMetricsOverride", **size)
        self.call("Emulation.setEmulatedMedia", features=[{"name": "prefers-color-scheme", "value": scheme}])

    def screenshot(self, path):
        """Writes a picture of the whole page."""
        shot = self.call("Page.captureScreenshot", format="png", captureBeyondViewport=True)
        with open(path, "wb") as it:
            it.write(base64.b64decode(shot["data"]))
