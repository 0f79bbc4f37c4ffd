"""A browser without a window, driven over its devtools protocol by two pipes, with Python's standard library alone."""

import base64
import json
import os
import select
import shutil
import subprocess
import tempfile
import time

import ending

NAMES = ("chromium", "chromium-browser", "google-chrome")
SECONDS = 60
# name: code, key code, text of a key
KEYS = {
    "ArrowLeft": ("ArrowLeft", 37, ""),
    "ArrowRight": ("ArrowRight", 39, ""),
    "ArrowUp": ("ArrowUp", 38, ""),
    "ArrowDown": ("ArrowDown", 40, ""),
    "Home": ("Home", 36, ""),
    "End": ("End", 35, ""),
    "PageUp": ("PageUp", 33, ""),
    "PageDown": ("PageDown", 34, ""),
    "Tab": ("Tab", 9, ""),
    "Enter": ("Enter", 13, "\r"),
    "Escape": ("Escape", 27, ""),
    " ": ("Space", 32, " "),
}

# A fixed sum, and how many milliseconds a browser takes for it on a processor of 2.5 GHz that it has for itself.
SUM = ("(() => { const begin = performance.now(); let x = 0; for (let i = 0; i < 1e7; i++) x = (x * 31 + i) | 0;"
       " return performance.now() - begin + 0 * x; })()")
SUM_TAKES = 72


class BrowserFault(Exception):
    """The browser ended, kept silent, or a script failed in it."""


def find():
    """The browser's command, or None."""
    return next((found for name in NAMES if (found := shutil.which(name))), None)


class Browser:
    """A browser with one page."""

    def __init__(self, width=1280, height=720, dark=False):
        self.process, self.profile, self.ends = None, None, []
        try:
            # (what ends the script comes behind it, and finds all that has to go)
            with ending.beginning():
                self.begin()
            self.attach()
            self.resize(width, height)
            self.scheme("dark" if dark else "light")
        except BaseException:
            self.close()
            raise

    def begin(self):
        self.profile = tempfile.mkdtemp()
        to_read, self.to = os.pipe()
        self.back, from_write = os.pipe()
        self.ends = [self.to, self.back]
        # (the pipes' ends have to be 3 and 4 in the browser)
        command = 'exec "$0" "$@" 3<&%d 4>&%d' % (to_read, from_write)
        self.process = subprocess.Popen(
            ["sh", "-c", command, find(), "--headless", "--no-sandbox", "--disable-gpu", "--disable-dev-shm-usage",
             "--remote-debugging-pipe", f"--user-data-dir={self.profile}", "--no-first-run", "--hide-scrollbars",
             "--disable-background-networking", "--disable-component-update", "--disable-sync", "about:blank"],
            pass_fds=(to_read, from_write), stdout=subprocess.DEVNULL, stderr=subprocess.DEVNULL,
            env={**os.environ, "TMPDIR": self.profile}, start_new_session=True)
        os.close(to_read)
        os.close(from_write)

    def attach(self):
        self.pending = b""
        self.last = 0
        self.session = None
        self.events = []
        pages = [it for it in self.call("Target.getTargets")["targetInfos"] if it["type"] == "page"]
        target = pages[0]["targetId"] if pages else self.call("Target.createTarget", url="about:blank")["targetId"]
        self.session = self.call("Target.attachToTarget", targetId=target, flatten=True)["sessionId"]
        for domain in ("Page", "Runtime"):
            self.call(f"{domain}.enable")

    def __enter__(self):
        return self

    def __exit__(self, *_):
        self.close()

    def close(self):
        if self.process and self.process.poll() is None:
            ending.kill(self.process)
            self.process.wait()
        while self.ends:
            os.close(self.ends.pop())
        if self.profile:
            shutil.rmtree(self.profile, ignore_errors=True)

    def read_message(self, until):
        """The next message, or None if there is none by this time."""
        while b"\0" not in self.pending:
            if not select.select([self.back], [], [], max(0, until - time.monotonic()))[0]:
                return None
            more = os.read(self.back, 1 << 20)
            if not more:
                raise BrowserFault("the browser ended")
            self.pending += more
        message, _, self.pending = self.pending.partition(b"\0")
        return json.loads(message)

    def call(self, method, **params):
        self.last += 1
        message = {"id": self.last, "method": method, "params": params}
        if self.session:
            message["sessionId"] = self.session
        data = json.dumps(message).encode() + b"\0"
        while data:
            data = data[os.write(self.to, data):]
        until = time.monotonic() + SECONDS
        while (said := self.read_message(until)) is not None:
            if said.get("id") == self.last:
                if "error" in said:
                    raise BrowserFault(f"{method}: {said['error']}")
                return said["result"]
            if "method" in said:
                self.events.append(said)
        raise BrowserFault(f"{method}: no answer")

    def wait_for(self, method):
        """The next event of this name since the list of events was emptied."""
        until = time.monotonic() + SECONDS
        while True:
            for at, event in enumerate(self.events):
                if event["method"] == method:
                    del self.events[: at + 1]
                    return event["params"]
            said = self.read_message(until)
            if said is None:
                raise BrowserFault(f"{method}: no such event")
            self.events.append(said)

    def open(self, url):
        """Opens an address anew, and waits until its scripts have run."""
        self.events.clear()
        said = self.call("Page.navigate", url=url)
        if "errorText" in said:
            raise BrowserFault(f"{url}: {said['errorText']}")
        # (an address that differs in its fragment alone loads nothing)
        if "loaderId" in said:
            self.wait_for("Page.loadEventFired")

    def reload_at(self, fragment):
        """Loads the page again, at this fragment of its address. (To leave it for another page and come back costs more: its process
        ends, and another one begins.)"""
        self.events.clear()
        self.run(f"(history.replaceState(null, '', {json.dumps(fragment or '#')}), location.reload())")
        self.wait_for("Page.loadEventFired")

    def run(self, script):
        """The value of an expression in the page; a promise is waited for."""
        said = self.call("Runtime.evaluate", expression=script, returnByValue=True, awaitPromise=True)
        if "exceptionDetails" in said:
            told = said["exceptionDetails"]
            raise BrowserFault(told.get("exception", {}).get("description", told["text"]))
        return said["result"].get("value")

    def slowness(self):
        """How many times as long as there this machine takes for the sum now, and 1 at least."""
        return max(1, self.run(SUM) / SUM_TAKES)

    def press(self, key, modifiers=0):
        code, number, text = KEYS.get(key, (f"Key{key.upper()}", ord(key.upper()[0]), key))
        common = {"key": key, "code": code, "windowsVirtualKeyCode": number, "modifiers": modifiers}
        if text and not modifiers:
            common["text"] = text
        self.call("Input.dispatchKeyEvent", type="keyDown", **common)
        self.call("Input.dispatchKeyEvent", type="keyUp", key=key, code=code, windowsVirtualKeyCode=number, modifiers=modifiers)

    def type(self, text):
        self.call("Input.insertText", text=text)

    def click(self, x, y):
        for kind in ("mousePressed", "mouseReleased"):
            self.call("Input.dispatchMouseEvent", type=kind, x=x, y=y, button="left", clickCount=1)

    def middle(self, selector):
        """Where the middle of an element stands, brought into view."""
        return self.run(
            "(() => { const it = document.querySelector(%s); it.scrollIntoView({ block: 'nearest' });"
            " const r = it.getBoundingClientRect(); return [r.x + r.width / 2, r.y + r.height / 2]; })()" % json.dumps(selector))

    def click_on(self, selector):
        self.click(*self.middle(selector))

    def resize(self, width, height):
        self.call("Emulation.setDeviceMetricsOverride", width=width, height=height, deviceScaleFactor=1, mobile=False)

    def scheme(self, name):
        self.call("Emulation.setEmulatedMedia", features=[{"name": "prefers-color-scheme", "value": name}])

    def picture(self, file, width=1280, height=720):
        """Writes what the upper left of the page looks like, as a PNG."""
        clip = {"x": 0, "y": 0, "width": width, "height": height, "scale": 1}
        with open(file, "wb") as out:
            out.write(base64.b64decode(self.call("Page.captureScreenshot", format="png", clip=clip)["data"]))
