"""A page to work in: a trace on the left, what ./kroft says of it on the right, in a browser of this machine.

    ./kroft-page [--port N] [--listen 0.0.0.0]

Prints the page's address, and serves it until it is interrupted. All that is answered is answered by the program ./kroft.
It listens on 127.0.0.1 alone, the address has a token, and no request names a file. --listen 0.0.0.0 is for a container, whose
port is published to 127.0.0.1 of its host under the same number."""

import argparse
import hmac
import http.server
import json
import os
import pathlib
import secrets
import select
import shutil
import signal
import socket
import subprocess
import sys
import tempfile
import threading
import time

TOP = pathlib.Path(__file__).resolve().parent.parent

# The most bytes of a request's body, and of an answer.
MOST_GIVEN = 1_000_000
MOST_SAID = 32_000_000
# What an answer may take: seconds of the clock, and kibibytes of memory.
SECONDS = 5
MEMORY = 512 * 1024
# How many answers are worked at, and how many connections are open, at a time.
AT_A_TIME = 4
CONNECTIONS = 32
# How long a request may take to come, and a finished answer to go; and how long a connection may keep silent when others wait.
PATIENCE = 10
SILENCE = 0.5
# How often it is looked whether a client is still there.
LOOK = 0.1
# The port, if none is given and this one is free: a browser keeps drafts by it.
PORT = 19810
# How many pictures are kept.
PICTURES = 8

MACHINE_KEYS = ("block_words", "ways", "registers", "stack", "words", "sets", "banks", "bank_queue", "write_queue", "replies")
JOBS = {
    "run": ["run"],
    "check": ["check"],
    "explain": ["explain"],
    "sweep": ["sweep"],
    "drive": ["drive", "--summary"],
    "show": ["show"],
    "grade": ["grade"],
    "sweep csv": ["sweep", "--format", "csv"],
    "sweep svg": ["sweep", "--svg"],
    "drive csv": ["drive", "--summary", "--format", "csv"],
    "drive svg": ["drive", "--summary", "--svg"],
}
# What an older program may lack.
MAY_LACK = ("grade",)
WITH_LATENCY = ("sweep", "drive", "sweep csv", "sweep svg", "drive csv", "drive svg")

PAGE_POLICY = ("default-src 'none'; script-src 'self'; style-src 'self'; connect-src 'self'; frame-src 'self'; base-uri 'none'; "
               "form-action 'none'; frame-ancestors 'none'")
# A picture's script stands in it, so it is held apart: it has no origin, and may load nothing.
PICTURE_POLICY = ("default-src 'none'; script-src 'unsafe-inline'; style-src 'unsafe-inline'; base-uri 'none'; form-action 'none'; "
                  "frame-ancestors 'self'; sandbox allow-scripts")


class Refusal(Exception):
    """A request that isn't served: its status, and why; and the path to ask for instead, if there is one."""

    def __init__(self, status, why, instead=None):
        super().__init__(why)
        self.status = status
        self.instead = instead


class Program:
    """The program ./kroft, called with limits, at most a few times at once."""

    def __init__(self, path, folder):
        self.path = path
        self.folder = folder
        self.free = threading.BoundedSemaphore(AT_A_TIME)
        self.running = set()
        self.lock = threading.Lock()
        self.is_closed = False

    def answer(self, words, given, machine, is_gone):
        """What the program says: its status, and its two outputs. It is ended once nobody waits for them."""
        until = time.monotonic() + 2 * SECONDS
        while not self.free.acquire(timeout=LOOK):
            if time.monotonic() > until or is_gone():
                raise Refusal(503, "too many answers at a time")
        try:
            with tempfile.TemporaryDirectory(dir=self.folder) as name:
                return self.call(pathlib.Path(name), words, given, machine, is_gone)
        finally:
            self.free.release()

    def call(self, folder, words, given, machine, is_gone):
        """Both outputs go to files, whose size the system bounds."""
        (folder / "given").write_bytes(given)
        if machine:
            (folder / "machine.toml").write_text("".join(f"{key} = {number}\n" for key, number in machine.items()))
            words = [*words, "--machine", "machine.toml"]
        limits = (f'ulimit -v {MEMORY} && ulimit -t {SECONDS} && ulimit -f {MOST_SAID // 512} && ulimit -c 0 && '
                  'exec "$0" "$@"')
        with open(folder / "given", "rb") as source, open(folder / "said", "wb") as said, open(folder / "told", "wb") as told:
            process = self.start(["sh", "-c", limits, self.path, *words], cwd=folder, stdin=source, stdout=said, stderr=told)
            try:
                status = self.wait(process, is_gone)
            finally:
                self.end(process)
        if status is None or status < 0:
            raise Refusal(422, f"no answer within {SECONDS} seconds, {MEMORY // 1024} MB and {MOST_SAID // 1_000_000} MB of text")
        texts = [(folder / name).read_bytes().decode("utf-8", "replace") for name in ("said", "told")]
        return {"status": status, "said": texts[0], "told": texts[1]}

    @staticmethod
    def wait(process, is_gone):
        """The status, or none if it takes too long or nobody waits for it."""
        until = time.monotonic() + SECONDS
        while time.monotonic() < until and not is_gone():
            try:
                return process.wait(timeout=LOOK)
            except subprocess.TimeoutExpired:
                pass
        return None

    def said(self, words, given=b""):
        return self.answer(words, given, {}, lambda: False)

    def check(self):
        """Ends all with a line if the program doesn't run."""
        try:
            said = self.said(["run"], b"load 1 4\n")
        except Refusal as refusal:
            said = {"said": "", "told": str(refusal)}
        if said["said"] != "load 1 4 -> accepted\n":
            sys.exit(f"kroft-page: {self.path} doesn't run here: {' '.join(said['told'].split())}")

    def jobs(self):
        """The jobs that the program has."""
        return [job for job, words in JOBS.items() if job not in MAY_LACK or self.said([words[0], "--help"])["status"] == 0]

    def start(self, words, **options):
        with self.lock:
            if self.is_closed:
                raise Refusal(503, "the page is closing")
            process = subprocess.Popen(words, start_new_session=True, **options)
            self.running.add(process)
        return process

    def end(self, process):
        """Ends the process with all that it may have started."""
        try:
            os.killpg(process.pid, signal.SIGKILL)
        except ProcessLookupError:
            pass
        process.wait()
        with self.lock:
            self.running.discard(process)

    def close(self):
        with self.lock:
            self.is_closed = True
            for process in self.running:
                try:
                    os.killpg(process.pid, signal.SIGKILL)
                except ProcessLookupError:
                    pass


def whole_number(name, value):
    if type(value) is not int or not 0 <= value < 2**32:
        raise Refusal(400, f"{name} is no whole number, or too large")
    return value


def read_asked(body):
    """What a request for an answer says: the job, the input, the machine, and the numbers of memory's rounds."""
    try:
        asked = json.loads(body)
    except (ValueError, RecursionError):
        raise Refusal(400, "the body is no JSON") from None
    if not isinstance(asked, dict) or not isinstance(asked.get("given"), str) or not isinstance(asked.get("machine", {}), dict):
        raise Refusal(400, "the body has no input or no machine")
    job = asked.get("job")
    if not isinstance(job, str) or job not in JOBS:
        raise Refusal(400, "no such job")
    machine = asked.get("machine", {})
    if not set(machine) <= set(MACHINE_KEYS):
        raise Refusal(400, "a machine has no such key")
    machine = {key: whole_number(key, machine[key]) for key in MACHINE_KEYS if key in machine}
    words = list(JOBS[job])
    if job in WITH_LATENCY:
        for key in ("latency", "busy"):
            if asked.get(key) is not None:
                words += [f"--{key}", str(whole_number(key, asked[key]))]
    try:
        given = asked["given"].encode()
    except UnicodeError:
        raise Refusal(400, "the input is no text") from None
    return job, words, given, machine


class Pages:
    """All that may be got: the page's own files, the examples, and the last pictures. No request names a file."""

    def __init__(self, jobs):
        folder = TOP / "page/workbench"
        self.fixed = {
            "": ("text/html", (folder / "work.html").read_bytes()),
            "work.css": ("text/css", (folder / "work.css").read_bytes()),
            "lines.js": ("text/javascript", (folder / "lines.js").read_bytes()),
            "sheets.js": ("text/javascript", (folder / "sheets.js").read_bytes()),
            "charts.js": ("text/javascript", (folder / "charts.js").read_bytes()),
            "work.js": ("text/javascript", (folder / "work.js").read_bytes()),
            "examples": ("application/json", json.dumps({"examples": self.examples(), "jobs": jobs}).encode()),
        }
        self.pictures = {}
        self.count = 0
        self.lock = threading.Lock()

    @staticmethod
    def examples():
        """The traces, recorded runs and machines of examples/, and the exercises."""
        kinds = ("*.trace", "*.recorded", "*.toml", "machines/*.toml", "exercises/*.sheet")
        files = [it for kind in kinds for it in sorted((TOP / "examples").glob(kind))]
        return [{"name": it.name, "text": it.read_text()} for it in files if it.stat().st_size <= MOST_GIVEN]

    def keep(self, picture):
        """Keeps a picture, and gives the name to get it by."""
        with self.lock:
            self.count += 1
            self.pictures[f"picture/{self.count}"] = picture.encode()
            for name in list(self.pictures)[:-PICTURES]:
                del self.pictures[name]
            return f"picture/{self.count}"

    def get(self, name):
        """The kind, the bytes and the policy of what has this name."""
        if name in self.fixed:
            return (*self.fixed[name], PAGE_POLICY)
        with self.lock:
            if name in self.pictures:
                return "text/html", self.pictures[name], PICTURE_POLICY
        raise Refusal(404, "there is no such page")


class Handler(http.server.BaseHTTPRequestHandler):
    """One request, and its answer; then the connection ends."""

    protocol_version = "HTTP/1.0"
    server_version = "kroft-page"
    sys_version = ""
    timeout = PATIENCE

    def log_message(self, *_):
        pass

    # What comes or goes too slowly is cut.
    def setup(self):
        super().setup()
        self.clock = None
        self.server.silent[self] = time.monotonic()
        self.begin_waiting()

    def begin_waiting(self):
        self.clock = threading.Timer(PATIENCE, self.cut)
        self.clock.daemon = True
        self.clock.start()

    def cut(self):
        try:
            self.connection.shutdown(socket.SHUT_RDWR)
        except OSError:
            pass

    def finish(self):
        self.clock.cancel()
        self.server.silent.pop(self, None)
        super().finish()

    def is_gone(self):
        """Whether the other side has closed the connection, or broken it."""
        try:
            return bool(select.select([self.connection], [], [], 0)[0]) and not self.connection.recv(1, socket.MSG_PEEK)
        except OSError:
            return True

    def name_of(self):
        """What the request asks for, if it comes from this machine's own page."""
        self.server.silent.pop(self, None)
        if self.headers.get_all("Host", []) not in self.server.hosts:
            raise Refusal(403, "the page is for this machine alone")
        origin = self.headers.get_all("Origin", [])
        if origin and origin not in self.server.origins:
            raise Refusal(403, "the request comes from another page")
        _, token, *rest = self.path.split("#")[0].split("/", 2) + [""]
        if not self.path.startswith("/") or not hmac.compare_digest(token.encode(), self.server.token.encode()):
            raise Refusal(404, "the page's address has a token: it was printed when ./kroft-page began")
        if len(rest) == 1:
            # (the page names its files by what stands behind the slash)
            raise Refusal(308, "the page's address ends with a slash", f"/{self.server.token}/")
        return rest[0]

    def reply(self, status, kind, body, policy=PAGE_POLICY, instead=None):
        self.clock.cancel()
        self.begin_waiting()
        self.send_response(status)
        for name, value in {
            "Content-Type": f"{kind}; charset=utf-8", "Content-Length": str(len(body)), "Cache-Control": "no-store",
            "Content-Security-Policy": policy, "X-Content-Type-Options": "nosniff", "Referrer-Policy": "no-referrer",
            "Cross-Origin-Resource-Policy": "same-origin", "Cross-Origin-Opener-Policy": "same-origin",
        }.items():
            self.send_header(name, value)
        if instead:
            self.send_header("Location", instead)
        self.end_headers()
        if self.command != "HEAD":
            self.wfile.write(body)

    def served(self, serve):
        try:
            try:
                serve(self.name_of())
            except Refusal as refusal:
                self.reply(refusal.status, "text/plain", f"{refusal}\n".encode(), instead=refusal.instead)
        except OSError:
            # The other side is gone.
            self.close_connection = True

    def do_GET(self):
        self.served(lambda name: self.reply(200, *self.server.pages.get(name)))

    do_HEAD = do_GET

    def do_POST(self):
        self.served(self.answer)

    def body(self):
        length = self.headers.get("Content-Length", "")
        if not (length.isascii() and length.isdigit() and len(length) < 10):
            raise Refusal(411, "the request doesn't tell its length")
        # (each byte of a text takes six at most in JSON)
        if int(length) > 6 * MOST_GIVEN + 1000:
            raise Refusal(413, "the input has more than a megabyte")
        body = self.rfile.read(int(length))
        if len(body) != int(length):
            raise Refusal(400, "the request was cut")
        self.clock.cancel()
        return body

    def answer(self, name):
        if name != "answer":
            raise Refusal(404, "there is no such page")
        if self.headers.get_content_type() != "application/json":
            raise Refusal(415, "the body is no JSON")
        job, words, given, machine = read_asked(self.body())
        if job not in self.server.jobs:
            raise Refusal(400, "no such job")
        if len(given) > MOST_GIVEN:
            raise Refusal(413, "the input has more than a megabyte")
        said = self.server.program.answer(words, given, machine, self.is_gone)
        if job == "show" and said["status"] == 0:
            said = {**said, "said": "", "picture": self.server.pages.keep(said["said"])}
        self.reply(200, "application/json", json.dumps(said).encode())


class Server(http.server.ThreadingHTTPServer):
    """The page's server, for this machine alone."""

    daemon_threads = True
    block_on_close = False
    request_queue_size = 1024

    def __init__(self, listen, port, program):
        super().__init__((listen, port), Handler)
        self.program = program
        # the connections whose requests haven't come yet, and since when
        self.silent = {}
        self.jobs = program.jobs()
        self.pages = Pages(self.jobs)
        self.token = secrets.token_urlsafe(16)
        names = [f"{host}:{self.server_port}" for host in ("127.0.0.1", "localhost")]
        self.hosts = [[name] for name in names]
        self.origins = [[f"http://{name}"] for name in names]
        self.room = threading.BoundedSemaphore(CONNECTIONS)

    @property
    def address(self):
        return f"http://127.0.0.1:{self.server_port}/{self.token}/"

    def server_bind(self):
        # (without asking a name server for this machine's name)
        self.socket.setsockopt(socket.SOL_SOCKET, socket.SO_REUSEADDR, 1)
        self.socket.bind(self.server_address)
        self.server_address = self.socket.getsockname()
        self.server_name, self.server_port = self.server_address[:2]

    def process_request(self, request, client_address):
        if not self.has_room():
            self.shutdown_request(request)
            return
        super().process_request(request, client_address)

    def has_room(self):
        """Whether there is room for a connection: one that says nothing goes first."""
        if self.room.acquire(blocking=False):
            return True
        for handler, since in list(self.silent.items()):
            if since < time.monotonic() - SILENCE:
                handler.cut()
                return self.room.acquire(timeout=SILENCE)
        return False

    def process_request_thread(self, request, client_address):
        try:
            super().process_request_thread(request, client_address)
        finally:
            self.room.release()

    def handle_error(self, *_):
        """A connection that fails is ended, and nothing else."""


def find_program():
    """The program's path; it is built first if it has to be."""
    if "KROFT" in os.environ:
        return os.path.abspath(os.environ["KROFT"])
    found = subprocess.run([TOP / "scripts/run_program", "--path", "kroft_tool"], stdout=subprocess.PIPE, text=True)
    if found.returncode != 0:
        sys.exit(found.returncode)
    return found.stdout.strip()


def server_at(listen, port, program):
    """The server at this port, or at the usual one or any other that is free."""
    if port is None:
        try:
            return Server(listen, PORT, program)
        except OSError:
            port = 0
    return Server(listen, port, program)


ENDS = (signal.SIGINT, signal.SIGTERM, signal.SIGHUP)


class End:
    """Whether the page is ending."""

    begun = False


def interrupted(*_):
    # (what comes behind it mustn't cut the page's end short. It isn't ignored yet: Python tells of a signal that came before)
    if not End.begun:
        End.begun = True
        raise KeyboardInterrupt


def ignore_ends():
    for it in ENDS:
        signal.signal(it, signal.SIG_IGN)


def main():
    parser = argparse.ArgumentParser(prog="kroft-page", description=__doc__, formatter_class=argparse.RawDescriptionHelpFormatter)
    parser.add_argument("--port", type=int, metavar="N", help=f"the port; {PORT} or any free one if none is given")
    parser.add_argument("--listen", default="127.0.0.1", choices=["127.0.0.1", "0.0.0.0"], help="0.0.0.0 is for a container alone")
    words = parser.parse_args()
    if sys.stdout is None:
        sys.exit("kroft-page: standard output is closed, so that the page's address can't be told")
    program = folder = None
    try:
        # (a terminal that is closed ends the page too, but under `nohup`)
        for number in ENDS:
            if signal.getsignal(number) != signal.SIG_IGN:
                signal.signal(number, interrupted)
        folder = tempfile.mkdtemp(prefix="kroft-page-")
        program = Program(find_program(), folder)
        program.check()
        server = server_at(words.listen, words.port, program)
        print(server.address, flush=True)
        server.serve_forever(poll_interval=0.2)
    except KeyboardInterrupt:
        pass
    except (OSError, OverflowError) as fault:
        sys.exit(f"kroft-page: {fault}")
    finally:
        End.begun = True
        if program:
            program.close()
        if folder:
            shutil.rmtree(folder, ignore_errors=True)
        # (Python takes its handlers away as it ends, and what comes then would end it by a signal)
        ignore_ends()


main()
