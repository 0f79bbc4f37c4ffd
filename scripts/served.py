"""A page that ./kroft-page serves, for its checks: the process, and requests by hand."""

import json
import os
import pathlib
import re
import signal
import socket
import subprocess

import ending
from counting import Different, same

TOP = pathlib.Path(__file__).resolve().parent.parent


def as_from_a_terminal():
    """A page in the background, or under `nohup`, would begin with these signals ignored."""
    for number in (signal.SIGINT, signal.SIGHUP):
        signal.signal(number, signal.SIG_DFL)


class Served:
    """A page that is served."""

    def __init__(self, folder, command=(TOP / "kroft-page",), place=None, **environment):
        self.folder, self.process = folder, None
        try:
            with ending.beginning():
                self.begin(command, cwd=place, env={**os.environ, "TMPDIR": str(folder), **environment})
            self.find()
        except BaseException:
            self.__exit__()
            raise

    def begin(self, command, **options):
        # A shell without job control starts what it runs beside it with SIGINT ignored, and that is inherited.
        self.process = subprocess.Popen(command, stdout=subprocess.PIPE, stderr=subprocess.PIPE, text=True, preexec_fn=as_from_a_terminal,
                                        **options)

    def find(self):
        self.address = self.process.stdout.readline().strip()
        found = re.fullmatch(r"http://127\.0\.0\.1:(\d+)/([\w-]{20,})/", self.address)
        if not found:
            raise Different(f"the page's address is {self.address!r}: {self.process.stderr.read()}")
        self.port, self.token = int(found[1]), found[2]

    def __enter__(self):
        return self

    def __exit__(self, *_):
        """Ends it, where nothing else has."""
        if self.process and self.process.poll() is None:
            self.process.terminate()
            self.process.wait(timeout=20)

    def end(self, number=signal.SIGTERM):
        self.process.send_signal(number)
        status = self.process.wait(timeout=20)
        same("what it says on standard error", self.process.stderr.read(), "")
        return status

    def children(self):
        """The processes that it runs."""
        found = []
        for stat in pathlib.Path("/proc").glob("[0-9]*/stat"):
            try:
                state, parent = stat.read_text().rpartition(")")[2].split()[:2]
            except OSError:
                continue
            if parent == str(self.process.pid) and state != "Z":
                found.append(int(stat.parent.name))
        return found

    # ---- requests by hand

    def connect(self):
        made = socket.create_connection(("127.0.0.1", self.port), timeout=20)
        return made

    def send(self, data, is_cut=True):
        """Sends these bytes, and nothing more if they are cut there, and gives all that comes back."""
        with self.connect() as made:
            try:
                made.sendall(data)
                if is_cut:
                    made.shutdown(socket.SHUT_WR)
            except OSError:
                pass
            said = b""
            try:
                while more := made.recv(1 << 16):
                    said += more
            except OSError:
                pass
            return said

    def ask(self, method="GET", path=None, headers=None, body=b"", is_cut=False):
        """The status, the head and the body of a request."""
        named = {"Host": f"127.0.0.1:{self.port}", **(headers or {})}
        if body and "Content-Length" not in named:
            named["Content-Length"] = str(len(body))
        head = f"{method} {path if path is not None else f'/{self.token}/'} HTTP/1.1\r\n"
        head += "".join(f"{name}: {value}\r\n" for name, value in named.items() if value is not None)
        said = self.send(head.encode("latin-1") + b"\r\n" + body, is_cut)
        found = re.match(rb"HTTP/1\.\d (\d+)", said)
        head, _, body = said.partition(b"\r\n\r\n")
        return int(found[1]) if found else None, head.decode("latin-1"), body

    def answer(self, headers=None, **asked):
        body = json.dumps({"job": "run", "given": "load 1 4\n", "machine": {}, **asked}).encode()
        return self.ask("POST", f"/{self.token}/answer", {"Content-Type": "application/json", **(headers or {})}, body)

    def is_well(self):
        status, _, body = self.answer()
        same("an answer", (status, json.loads(body)["said"] if status == 200 else body), (200, "load 1 4 -> accepted\n"))
