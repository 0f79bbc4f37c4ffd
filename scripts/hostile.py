"""Hostile requests to ./kroft-page: of any bytes, too large, slow, cut, many at once, from elsewhere, or for files."""

import concurrent.futures
import json
import os
import pathlib
import random
import shutil
import signal
import socket
import subprocess
import threading
import time

from counting import Different, same
from served import TOP, Served


def only_this_machine(served):
    addresses = {it[4][0] for it in socket.getaddrinfo(socket.gethostname(), None, socket.AF_INET)} - {"127.0.0.1"}
    for address in addresses:
        if address.startswith("127."):
            continue
        try:
            socket.create_connection((address, served.port), timeout=2).close()
        except OSError:
            continue
        raise Different(f"it listens on {address}")
    listening = [line.split()[1] for line in pathlib.Path("/proc/net/tcp").read_text().splitlines()[1:] if line.split()[3] == "0A"]
    same("where it listens", [it for it in listening if int(it.split(":")[1], 16) == served.port], [f"0100007F:{served.port:04X}"])


def other_hosts(served):
    own, token = f"127.0.0.1:{served.port}", served.token
    same("its own host", served.ask()[0], 200)
    same("localhost", served.ask(headers={"Host": f"localhost:{served.port}"})[0], 200)
    for host in ("evil.example", f"evil.example:{served.port}", "127.0.0.1", "127.0.0.1:1", f"{own}.evil.example", "", None):
        same(f"the host {host}", served.ask(headers={"Host": host})[0], 403)
    for origin in ("http://evil.example", "null", f"https://{own}", f"http://{own}.evil.example", "http://127.0.0.1:1", "file://"):
        same(f"the origin {origin}", served.answer({"Origin": origin})[0], 403)
    same("its own origin", served.answer({"Origin": f"http://{own}"})[0], 200)
    for path in ("/", f"/{token[:-1]}/", f"/{token}x/", f"/{token[::-1]}/", "*", f"http://{own}/{token}/", f"/x/../{token}/", "/\xff/"):
        same(f"the path {path}", served.ask(path=path)[0] in (400, 404), True)
    _, head, _ = served.ask()
    for wanted in ("default-src 'none'", "frame-ancestors 'none'", "nosniff", "no-referrer", "no-store"):
        same(f"{wanted} in the head", wanted in head, True)
    same("'unsafe' in the page's policy", "unsafe" in head, False)
    picture = json.loads(served.answer(job="show")[2])["picture"]
    _, head, _ = served.ask(path=f"/{token}/{picture}")
    for wanted in ("default-src 'none'", "sandbox allow-scripts", "frame-ancestors 'self'", "nosniff", "no-store"):
        same(f"{wanted} in a picture's head", wanted in head, True)
    same("its own origin for a picture", "allow-same-origin" in head, False)
    same("another type", served.answer({"Content-Type": "text/plain"})[0], 415)


def no_files(served):
    secret = pathlib.Path(served.folder) / "secret"
    secret.write_text("the secret text")
    paths = ["../README.md", "..%2f..%2fREADME.md", "%2e%2e/README.md", "README.md", "work.js/../work.css", "/etc/passwd",
             "//etc/passwd", "picture/../../README.md", "picture/0", "picture/%00", "examples/../README.md", str(secret),
             f"file://{secret}", "work.html", "work.js%00", "work.js?x=1", ".git/config"]
    for path in paths:
        status, _, body = served.ask(path=f"/{served.token}/{path}")
        same(f"the path {path}", status, 404)
        same(f"the text of {path}", b"Kroft" in body or b"secret" in body or b"root:" in body, False)
    for name in (str(secret), "../secret", "/dev/zero"):
        for asked in ({"machine": name}, {"machine": {"words": name}}, {"machine": {name: 1}}, {"job": name},
                      {"job": ["run", "--machine", name]}, {"latency": name}):
            status, _, body = served.answer(**asked)
            same(f"{asked}", status in (400, 200) and b"secret" not in body, True)
    machines = [{"machine": {"words": words}} for words in (True, 1.5, -1, 10**30)]
    for asked in (*machines, {"given": 1}, {"given": None}, {"machine": []}, {"job": "help"}, {"job": "run --machine x"}, {"job": None},
                  {"job": {}}):
        same(f"{asked}", served.answer(**asked)[0], 400)
    same("half a character", served.answer(given="\ud800")[0], 400)
    same("no JSON", served.ask("POST", f"/{served.token}/answer", {"Content-Type": "application/json"}, b"[" * 100000)[0], 400)
    for method in ("PUT", "DELETE", "TRACE", "CONNECT", "OPTIONS", "PATCH"):
        same(method, served.ask(method)[0], 501)


def any_of(draw, count):
    return bytes(draw.randrange(256) for _ in range(count))


def any_bytes(served):
    draw = random.Random(7)
    head = f"POST /{served.token}/answer HTTP/1.1\r\nHost: 127.0.0.1:{served.port}\r\nContent-Type: application/json\r\n".encode()
    for _ in range(60):
        served.send(any_of(draw, draw.randrange(1, 3000)))
        broken = bytearray(head + b"Content-Length: 40\r\n\r\n" + any_of(draw, 40))
        for _ in range(draw.randrange(1, 6)):
            broken[draw.randrange(len(broken))] = draw.randrange(256)
        served.send(bytes(broken))
    for text in (b"", b"\r\n\r\n", b"GET\r\n\r\n", b"GET / HTTP/9.9\r\n\r\n", b"\0" * 5000, b"GET /" + b"a" * 100000 + b" HTTP/1.1\r\n\r\n",
                 b"GET / HTTP/1.1\r\n" + b"A: b\r\n" * 5000 + b"\r\n", head + b"Content-Length: -1\r\n\r\n",
                 head + b"Content-Length: 9" + b"9" * 50 + b"\r\n\r\n",
                 head + b"Transfer-Encoding: chunked\r\n\r\nffffffff\r\n", head + b"\r\n", head + b"Content-Length: 1e3\r\n\r\n"):
        served.send(text)
    served.is_well()


def too_large(served):
    path, json_body = f"/{served.token}/answer", {"Content-Type": "application/json"}
    same("10 MB", served.ask("POST", path, json_body, b"x" * 10_000_000)[0] in (413, None), True)
    line = "take 0\n"
    status, _, body = served.answer(given=line * (1_000_000 // len(line)))
    same("1 MB of lines", (status, json.loads(body)["status"] if status == 200 else 0) in ((200, 0), (422, 0)), True)
    same("more than 1 MB", served.answer(given=line * (1_100_000 // len(line)))[0], 413)
    same("a body that was cut", served.ask("POST", path, {**json_body, "Content-Length": "500"}, b"{}", is_cut=True)[0], 400)
    served.is_well()


def too_long(served):
    """An answer that would take longer, or more memory, than it may."""
    begin = time.monotonic()
    given = "".join(f"load {k % 60000} {k * 37 % 1048576}\n" for k in range(50000))
    machine = {"words": 1048576, "sets": 1024, "banks": 1, "bank_queue": 64}
    status, _, _ = served.answer(job="drive", given=given, latency=1000, machine=machine)
    spent = time.monotonic() - begin
    same("a long answer", status in (422, 200), True)
    same("its time", spent < 15, True)
    same("what is left running", served.children(), [])
    served.is_well()


class Slow:
    """Requests that come a byte at a time, and never to their end, while others are served."""

    def __init__(self, served):
        self.served = served
        self.held = [served.connect() for _ in range(10)]
        self.begun = time.monotonic()
        for it in self.held:
            it.send(b"GET /")
        self.feeding = threading.Thread(target=self.feed, daemon=True)
        self.feeding.start()

    def feed(self):
        while time.monotonic() - self.begun < 9.0:
            for it in self.held:
                try:
                    it.send(b"a")
                except OSError:
                    pass
            time.sleep(0.5)

    def are_cut(self, served):
        """Each of them has been ended by now, or is within its time."""
        self.feeding.join()
        ended = 0
        for it in self.held:
            it.settimeout(max(0.1, self.begun + 14.0 - time.monotonic()))
            try:
                while it.recv(4096):
                    pass
                ended += 1
            except ConnectionError:
                ended += 1
            except OSError:
                pass
            it.close()
        same("slow requests that were cut", ended, len(self.held))
        served.is_well()


def many_at_once(served):
    most = []
    is_over = False

    def watch():
        while not is_over:
            most.append(len(served.children()))
            time.sleep(0.02)

    with concurrent.futures.ThreadPoolExecutor(41) as pool:
        watching = pool.submit(watch)
        given = "".join(f"load {k % 60000} {k % 64}\nserve {k % 4}\n" for k in range(30000))
        said = list(pool.map(lambda _: served.answer(job="sweep", given=given)[0], range(40)))
        is_over = True
        watching.result()
    same("the statuses", set(said) <= {200, 503, 422, None}, True)
    same("answers", said.count(200) > 0, True)
    same("answers at a time", max(most) <= 4, True)
    held = [served.connect() for _ in range(200)]
    for it in held:
        it.close()
    time.sleep(0.5)
    served.is_well()


def a_thousand_at_once(served):
    """A thousand requests at the same time: each is answered or shut out, no more programs run than may, and the page goes on."""
    text = b"GET /%s/ HTTP/1.1\r\nHost: 127.0.0.1:%d\r\n\r\n" % (served.token.encode(), served.port)
    begun = threading.Barrier(50)

    def twenty(_):
        begun.wait()
        held, answered = [], 0
        for _ in range(20):
            made = socket.socket()
            made.settimeout(20)
            try:
                made.connect(("127.0.0.1", served.port))
                made.sendall(text)
                held.append(made)
            except OSError:
                made.close()
        for made in held:
            with made:
                try:
                    said = b""
                    while more := made.recv(1 << 16):
                        said += more
                except OSError:
                    pass
                answered += said.startswith(b"HTTP/1.0 200 ") and said.endswith(b"</html>\n")
        return answered

    with concurrent.futures.ThreadPoolExecutor(50) as pool:
        answered = sum(pool.map(twenty, range(50)))
    print(f"  of 1,000 requests at once {answered} are answered, and the others are shut out")
    same("answers", answered > 0, True)
    served.is_well()
    same("what is left running", served.children(), [])


LONG = "".join(f"load {k % 60000} {k % 64}\n" for k in range(60000))


def clients_that_left(served):
    """An answer that nobody waits for any more is ended, and one that is waited for comes at once."""
    body = json.dumps({"job": "drive", "given": LONG, "machine": {}, "latency": 1000}).encode()
    head = (f"POST /{served.token}/answer HTTP/1.1\r\nHost: 127.0.0.1:{served.port}\r\nContent-Type: application/json\r\n"
            f"Content-Length: {len(body)}\r\n\r\n")
    held = [served.connect() for _ in range(8)]
    for it in held:
        it.sendall(head.encode() + body)
    until = time.monotonic() + 20
    while len(served.children()) < 4 and time.monotonic() < until:
        time.sleep(0.01)
    for it in held:
        it.close()
    left = time.monotonic()
    served.is_well()
    same("its time", time.monotonic() - left < 2.5, True)
    while served.children() and time.monotonic() < left + 2.5:
        time.sleep(0.01)
    same("what is left running", served.children(), [])


def silent_connections(served):
    """Connections that say nothing, as many as there may be, hold nobody up."""
    held = [served.connect() for _ in range(32)]
    time.sleep(1)
    begun = time.monotonic()
    for _ in range(8):
        served.is_well()
    same("the time of eight answers", time.monotonic() - begun < 6, True)
    for it in held:
        it.close()


def without_a_program():
    """It is said at once if the program doesn't run here."""
    for path in ("/nonexistent", "/etc/passwd", "/bin/cat"):
        said = subprocess.run([TOP / "kroft-page"], capture_output=True, text=True, timeout=30, env={**os.environ, "KROFT": path})
        same(f"with {path}", (said.returncode, said.stdout, said.stderr.count("\n")), (1, "", 1))
        same(f"with {path}", said.stderr.startswith(f"kroft-page: {path} doesn't run here: "), True)


def as_in_a_container(folder):
    """The files that the Dockerfile takes are all that the page needs, and listening on all addresses asks for token and host still."""
    lines = [line.split() for line in (TOP / "Dockerfile").read_text().splitlines()]
    for names in (words[1:] for words in lines if words[:1] == ["COPY"]):
        for name in names[:-1]:
            to = folder / "kroft" / names[-1]
            to.mkdir(parents=True, exist_ok=True)
            copied = TOP / name
            shutil.copytree(copied, to, dirs_exist_ok=True) if copied.is_dir() else shutil.copy2(copied, to)
    entry = next(json.loads(" ".join(words[1:])) for words in lines if words[:1] == ["ENTRYPOINT"])
    (folder / "temporary").mkdir()
    with socket.create_server(("127.0.0.1", 0)) as free:
        entry[-1] = str(free.getsockname()[1])
    program = folder / next(words[1] for words in lines if words[:1] == ["ENV"]).partition("=/")[2]
    with Served(folder / "temporary", entry, folder / "kroft", KROFT=str(program)) as served:
        same("the port", str(served.port), entry[-1])
        served.is_well()
        listening = [line.split()[1] for line in pathlib.Path("/proc/net/tcp").read_text().splitlines()[1:] if line.split()[3] == "0A"]
        same("where it listens", f"00000000:{served.port:04X}" in listening, True)
        other_hosts(served)
        same("another address's host", served.ask(headers={"Host": f"{socket.gethostname()}:{served.port}"})[0], 403)
        served.end()


def is_running(number):
    try:
        return pathlib.Path(f"/proc/{number}/stat").read_text().rpartition(")")[2].split()[0] != "Z"
    except OSError:
        return False


def busy(served, pool):
    """The processes of an answer that takes long, once they run, and the answer."""
    asked = pool.submit(served.answer, job="drive", given=LONG, latency=1000)
    until = time.monotonic() + 20
    while not (running := served.children()) and not asked.done() and time.monotonic() < until:
        time.sleep(0.01)
    if not running:
        served.end()
        raise Different("no answer was under way, so that nothing had to be ended")
    return running, asked


# What comes behind an interrupt, and so many seconds behind it.
BEHIND = [(signal.SIGINT, pause / 1000) for pause in (0, 1, 2, 3, 5, 8, 12, 20)] + [(signal.SIGTERM, 0.002), (signal.SIGHUP, 0.002)]


def interrupted_at_once(folder):
    """All that ends a page comes while it stands still, so that it finds each of them there."""
    with Served(folder) as served, concurrent.futures.ThreadPoolExecutor(2) as pool:
        _, asked = busy(served, pool)
        for number in (signal.SIGSTOP, signal.SIGINT, signal.SIGTERM, signal.SIGHUP, signal.SIGCONT):
            served.process.send_signal(number)
        same("the status", served.end(), 0)
        asked.exception()
    same("files that are left", list(folder.iterdir()), [])


def interrupted_twice(folder):
    """A second interrupt doesn't cut short what the first one ends."""
    (folder / "at_once").mkdir()
    interrupted_at_once(folder / "at_once")
    for at, (number, pause) in enumerate(BEHIND):
        room = folder / f"twice{at}"
        room.mkdir()
        with Served(room) as served, concurrent.futures.ThreadPoolExecutor(2) as pool:
            _, asked = busy(served, pool)
            served.process.send_signal(signal.SIGINT)
            time.sleep(pause)
            same("the status", served.end(number), 0)
            asked.exception()
        same("files that are left", list(room.iterdir()), [])


def clean_ends(folder):
    for number in (signal.SIGINT, signal.SIGTERM, signal.SIGHUP):
        room = folder / f"end{number}"
        room.mkdir()
        with Served(room) as served, concurrent.futures.ThreadPoolExecutor(2) as pool:
            running, asked = busy(served, pool)
            same("the status", served.end(number), 0)
            asked.exception()
        until = time.monotonic() + 5
        while any(is_running(it) for it in running) and time.monotonic() < until:
            time.sleep(0.01)
        same("processes that are left", [it for it in running if is_running(it)], [])
        same("files that are left", list(room.iterdir()), [])
    closed = subprocess.run(["sh", "-c", 'exec "$0" >&-', TOP / "kroft-page"], capture_output=True, text=True, timeout=20)
    same("a closed standard output", (closed.returncode, closed.stderr.count("\n")), (1, 1))
    taken = socket.create_server(("127.0.0.1", 0))
    said = subprocess.run([TOP / "kroft-page", "--port", str(taken.getsockname()[1])], capture_output=True, text=True, timeout=20)
    same("a port that is taken", (said.returncode, said.stdout, said.stderr.count("\n")), (1, "", 1))


