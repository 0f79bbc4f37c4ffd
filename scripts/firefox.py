"""Firefox without a window, driven over its own Marionette protocol, with Python's standard library alone."""

import base64
import json
import os
import pathlib
import shutil
import socket
import subprocess
import tempfile
import time

import ending
from browser import BrowserFault

NAMES = ("firefox-esr", "firefox")
SECONDS = 90
PREFERENCES = """\
user_pref("marionette.port", 0);
user_pref("browser.shell.checkDefaultBrowser", false);
user_pref("browser.startup.homepage_override.mstone", "ignore");
user_pref("datareporting.policy.dataSubmissionEnabled", false);
user_pref("app.update.enabled", false);
user_pref("network.captive-portal-service.enabled", false);
user_pref("network.connectivity-service.enabled", false);
user_pref("extensions.getAddons.cache.enabled", false);
"""


def find():
    """The browser's command, or None."""
    return next((found for name in NAMES if (found := shutil.which(name))), None)


class Firefox:
    """A browser with one page."""

    def __init__(self):
        self.process = self.profile = self.to = None
        self.last = 0
        self.pending = b""
        try:
            # (what ends the script comes behind it, and finds all that has to go)
            with ending.beginning():
                self.begin()
            self.to = self.connect()
            self.read()
            self.call("WebDriver:NewSession", capabilities={})
            self.call("WebDriver:SetTimeouts", script=1000 * SECONDS, pageLoad=1000 * SECONDS)
        except BaseException:
            self.close()
            raise

    def begin(self):
        self.profile = pathlib.Path(tempfile.mkdtemp())
        (self.profile / "user.js").write_text(PREFERENCES)
        self.process = subprocess.Popen(
            [find(), "--headless", "--marionette", "--no-remote", "--profile", str(self.profile)], stdout=subprocess.DEVNULL,
            stderr=subprocess.DEVNULL, env={**os.environ, "HOME": str(self.profile), "MOZ_HEADLESS": "1"}, start_new_session=True)

    def __enter__(self):
        return self

    def __exit__(self, *_):
        self.close()

    def close(self):
        if self.to:
            self.to.close()
        if self.process and self.process.poll() is None:
            ending.kill(self.process)
            self.process.wait()
        if self.profile:
            shutil.rmtree(self.profile, ignore_errors=True)

    def connect(self):
        """The port is told in a file of the profile."""
        told = self.profile / "MarionetteActivePort"
        until = time.monotonic() + SECONDS
        while time.monotonic() < until and self.process.poll() is None:
            try:
                return socket.create_connection(("127.0.0.1", int(told.read_text())), timeout=SECONDS)
            except (OSError, ValueError):
                time.sleep(0.05)
        raise BrowserFault("Firefox doesn't begin")

    def read(self):
        """A message is its length, a colon, and JSON."""
        while True:
            size, colon, rest = self.pending.partition(b":")
            if colon and len(rest) >= int(size):
                self.pending = rest[int(size):]
                return json.loads(rest[: int(size)])
            more = self.to.recv(1 << 20)
            if not more:
                raise BrowserFault("Firefox ended")
            self.pending += more

    def call(self, name, **params):
        self.last += 1
        data = json.dumps([0, self.last, name, params]).encode()
        self.to.sendall(b"%d:%s" % (len(data), data))
        while True:
            _, number, fault, said = self.read()
            if number == self.last:
                if fault:
                    raise BrowserFault(f"{name}: {fault.get('message')}")
                return said

    def open(self, url):
        self.call("WebDriver:Navigate", url=url)

    def run(self, script):
        """The value of an expression over the page's document; a promise is waited for."""
        body = f"const done = arguments[0]; Promise.resolve({script}).then((it) => done([it]), (it) => done([null, String(it)]))"
        told = self.call("WebDriver:ExecuteAsyncScript", script=body, args=[], sandbox=None)["value"]
        if told is None or len(told) > 1:
            raise BrowserFault(told[1] if told else "the page was left meanwhile")
        return told[0]

    def run_in_page(self, script):
        """The same among the names of the page's own scripts, which a page with a content security policy doesn't allow."""
        return self.run(f"window.eval({json.dumps(script)})")

    def enter(self, frame):
        """Goes into the frame that this script finds, or back out of all."""
        if frame is None:
            self.call("WebDriver:SwitchToFrame", id=None)
            return
        found = self.call("WebDriver:FindElement", using="css selector", value=frame)["value"]
        self.call("WebDriver:SwitchToFrame", element=list(found.values())[0])

    def type(self, selector, text):
        found = self.call("WebDriver:FindElement", using="css selector", value=selector)["value"]
        self.call("WebDriver:ElementSendKeys", id=list(found.values())[0], text=text)

    def resize(self, width, height):
        self.call("WebDriver:SetWindowRect", width=width, height=height)

    def picture(self, file):
        """Writes what the page looks like, as a PNG."""
        with open(file, "wb") as out:
            out.write(base64.b64decode(self.call("WebDriver:TakeScreenshot", full=False)["value"]))
