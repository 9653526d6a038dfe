"""Good and hostile requests to nbhd-page."""

import json
import os
import re
import socket
import subprocess
import sys
import threading
import time
from pathlib import Path

from server import Server
from steps import CV1, PROGRAM, ROOT, STEPS, nbhd

JSON = {"Content-Type": "application/json"}
CHECK = {"command": "check", "options": {"ids": "8"}, "text": CV1}
STUB = Path(__file__).resolve().parent / "stub"
# Where the stub tries to write.
WRITTEN = Path("/tmp/page-test-stub")


def address(server):
    """The server listens on the loopback address alone, and says what it does."""
    listening = []
    for table in ("/proc/net/tcp", "/proc/net/tcp6"):
        rows = [line.split() for line in Path(table).read_text().splitlines()[1:]] if Path(table).exists() else []
        listening += [row[1] for row in rows if row[3] == "0A" and int(row[1].split(":")[1], 16) == server.port]
    STEPS.equal("it listens on the loopback address alone", listening, [f"0100007F:{server.port:04X}"])
    STEPS.equal("it says its address", server.greeting, f"nbhd-page: http://{server.own}/ (Ctrl-C ends it)\n")

    def refused(program, *words):
        words = [sys.executable, str(ROOT / "nbhd-page"), *words]
        ran = subprocess.run(words, capture_output=True, text=True, env={**os.environ, "NBHD": program})
        return ran.returncode, ran.stdout + ran.stderr

    status, said = refused(str(PROGRAM), "--port", str(server.port))
    STEPS.check("a port in use", status == 1 and "--port" in said, said)
    status, said = refused("/nowhere/nbhd", "--port", "0")
    wanted = "nbhd-page: there is no program at /nowhere/nbhd; ./build proves and builds it\n"
    STEPS.equal("a program that is not built", (status, said), (1, wanted))


def files(server):
    """The page's files are served, and no others."""
    names = {file.name for file in (ROOT / "page").iterdir()} - {"index.html", "package.json"}
    tables = ["/tables.json", "/examples/problems/mis_rounds2_ids7_channels2.table"]
    for path in ["/", "/examples.json", *tables, *(f"/{name}" for name in sorted(names))]:
        STEPS.equal(f"GET {path}", server.ask(f"GET {path}")[0], 200)
    for path in ("README.html", "CHANGELOG.html", "docs/LANGUAGE.html", "docs/pictures/ring.svg", "docs/pictures/page_run.png"):
        STEPS.equal(f"GET /{path}", server.ask(f"GET /{path}")[0], 200)
    _, page = server.ask("GET /")
    STEPS.check("the page loads nothing from elsewhere", not re.search(rb"(src|href)=\"(https?:)?//", page))
    foreign = """/../nbhd-page /%2e%2e/nbhd-page /..%2fnbhd-page //etc/passwd /page/../nbhd-page /./style.css /style.css/../main.js
        /index.html /nbhd-page /examples/cv1.txt /examples/least/ /style.css?x /\\..\\nbhd-page /checks/page-test /style.css%00 /nbhd * /etc/passwd
        /.git/config style.css /package.json /docs /docs/ /docs/../README.md /docs/pictures/ /docs/CALLS.html
        /docs/LANGUAGE.md"""
    for path in [*foreign.split(), f"http://{server.own}/../nbhd-page"]:
        answer = server.ask(f"GET {path}")
        STEPS.check(f"GET {path} is refused", answer[0] in (400, 404), answer)


def senders(server):
    """Only the page itself is served, by its own address."""
    own, port = server.own, server.port
    other = f"127.0.0.1:{port + 1}"
    for host in ("evil.example", f"evil.example:{port}", "127.0.0.1", other, f"localhost:{port + 1}", "localhost", f"{own}.evil.example", "", None):
        STEPS.equal(f"Host {host}", server.ask("GET /", {"Host": host})[0], 403)
    for path in ("/", "/main.js", "/docs/FAULTS.html"):
        answer = server.raw(f"GET {path} HTTP/1.1\r\nHost: localhost:{port}\r\n\r\n".encode()).decode()
        sent = answer.split(" ")[1] == "307" and f"\r\nLocation: http://{own}{path}\r\n" in answer
        STEPS.check(f"localhost leads {path} to the address", sent and answer.endswith("\r\n\r\n"), answer)
    STEPS.equal("no other file of localhost", server.ask("GET /nbhd-page", {"Host": f"localhost:{port}"})[0], 403)
    STEPS.equal("no run of localhost", server.run("check", {"ids": "8"}, CV1, {"Host": f"localhost:{port}"})[0], 403)
    twice = server.raw(f"GET / HTTP/1.1\r\nHost: {own}\r\nHost: evil.example\r\n\r\n".encode())
    STEPS.equal("two hosts", twice[9:12], b"403")
    foreign = ["http://evil.example", "null", f"https://{own}", f"http://localhost:{port}", f"http://{own}.evil.example", f"http://{other}"]
    for origin in foreign:
        STEPS.equal(f"POST of Origin {origin}", server.run("check", {"ids": "8"}, CV1, {"Origin": origin})[0], 403)
        STEPS.equal(f"GET of Origin {origin}", server.ask("GET /", {"Origin": origin})[0], 403)
    cross = {"Sec-Fetch-Site": "cross-site"}
    STEPS.equal("a script of another site", server.ask("GET /main.js", cross)[0], 403)
    STEPS.equal("a frame of another site", server.ask("GET /", {**cross, "Sec-Fetch-Mode": "no-cors"})[0], 403)
    STEPS.equal("a link of another site", server.ask("GET /", {**cross, "Sec-Fetch-Mode": "navigate"})[0], 200)
    STEPS.equal("a form of another site", server.run("check", {"ids": "8"}, CV1, {**cross, "Sec-Fetch-Mode": "navigate"})[0], 403)
    for method in ("PUT", "DELETE", "OPTIONS", "TRACE", "CONNECT", "PATCH", "get", "X"):
        STEPS.check(f"method {method}", server.ask(f"{method} /")[0] in (400, 501))


def bodies(server):
    """Bodies that are no request for a run."""
    broken = [b"x", b"{", b"[" * 100000, b"null", b"[]", b'"check"', b"1e999", b"\xff\xfe", b'{"command": "check"}']
    changes = [{"command": value} for value in ("audit", ["check"], "--help", None)]
    changes += [{"text": value} for value in (5, None)]
    changes += [{"options": value} for value in (None, ["ids"], {"ring": "1"}, {"workers": "64"}, {"help": ""})]
    changes += [{"options": {"ids": value}} for value in (8, "8\0", "\ud800", "9" * 9000, ["8"])]
    # Lists of patterns with too many characters in all, and values that are no lists of words.
    lists = (["1,1"] * 2001, [""] * 8001, ["1" * 8000], "1,1", ["1,1", 1], [["1,1"]], {"1,1": "1"}, ["1,1\0"], ["\ud800"], [], None)
    changes += [{"command": "judge", "options": {"ids": "8", "forbid": value}} for value in lists]
    changes += [{"command": "judge", "options": {"ids": "8", "problem": value}} for value in (["mis"], None)]
    changes += [{"options": {"ids": "8", name: value}} for name, value in (("forbid", ["1,1"]), ("problem", "mis"))]
    for body in broken + [json.dumps({**CHECK, **change}).encode() for change in changes]:
        STEPS.equal(f"body {body[:60]}", server.ask("POST /nbhd", JSON, body)[0], 400)
    headers = (
        ("of a form", {"Content-Type": "application/x-www-form-urlencoded"}, 415),
        ("of plain text", {"Content-Type": "text/plain"}, 415),
        ("without a type", {"Content-Type": None}, 415),
        ("without a length", {**JSON, "Content-Length": None}, 411),
        ("with a length below 0", {**JSON, "Content-Length": "-1"}, 411),
        ("with a length that is not a number", {**JSON, "Content-Length": "1e3"}, 411),
        ("with an endless length", {**JSON, "Content-Length": "9" * 30}, 411),
        ("in chunks", {**JSON, "Transfer-Encoding": "chunked"}, 411),
        ("that is too long", {**JSON, "Content-Length": "2500001"}, 413),
        ("that is far too long", {**JSON, "Content-Length": "99999999999"}, 413),
    )
    for name, fields, status in headers:
        STEPS.equal(f"a body {name}", server.ask("POST /nbhd", fields, json.dumps(CHECK).encode())[0], status)
    STEPS.equal("POST to the page", server.ask("POST /", JSON, json.dumps(CHECK).encode())[0], 404)


def long_requests(server):
    """Requests at the limits, and values that are for nbhd to refuse."""
    longest = server.run("check", {"ids": "8"}, " " * 199000)[1]
    STEPS.equal("a text of 199,000 bytes", longest.get("out"), "text fault N1 at 65536\n")
    STEPS.equal("a long header", server.ask("GET /", {"X": "y" * 100000})[0], 431)
    STEPS.equal("a long path", server.ask("GET /" + "y" * 100000)[0], 414)
    STEPS.check("no request", server.raw(b"\x00\xff\r\n\r\n")[:1] in (b"", b"H", b"4", b"<"))
    for ids in ("--help", "8 --help", "8;id", "$(id)", ""):
        STEPS.equal(f"ids {ids}", server.run("check", {"ids": ids}, CV1)[1].get("status"), 2)
    STEPS.equal("ring -h", server.run("trace", {"ids": "8", "ring": "-h"}, CV1)[1].get("status"), 2)
    for options in ({"forbid": ["-h"]}, {"forbid": ["1,1", "--help"]}, {"forbid": [""]}, {"problem": "--help"}, {"problem": "none"}):
        STEPS.equal(f"judge {options}", server.run("judge", {"ids": "8", **options}, CV1)[1].get("status"), 2)
    STEPS.equal("too many patterns", server.run("judge", {"ids": "8", "forbid": ["1,1"] * 257}, CV1)[1].get("status"), 2)
    words = ["--ids", "8", "--forbid", "9,9", "--forbid", "0,*,0"]
    answer = server.run("judge", {"ids": "8", "forbid": ["9,9", "0,*,0"]}, CV1)
    STEPS.equal("two patterns", (answer[0], answer[1].get("out")), (200, nbhd(CV1, "judge", *words)))
    answer = server.run("judge", {"ids": "8", "problem": "mis"}, CV1)
    STEPS.equal("a problem", (answer[0], answer[1].get("out")), (200, nbhd(CV1, "judge", "--ids", "8", "--problem", "mis")))
    answer = server.run("judge", {"ids": "8", "format": "json"}, CV1)
    STEPS.equal("a report in JSON", (answer[0], answer[1].get("out")), (200, nbhd(CV1, "judge", "--ids", "8", "--format", "json")))
    STEPS.equal("another format", server.run("check", {"ids": "8", "format": "xml"}, CV1)[1].get("status"), 2)
    linial = (ROOT / "examples/linial_poly.txt").read_text(encoding="ascii")
    found = server.run("table", {"ids": "102"}, linial)[1]["out"]
    STEPS.equal("a table of 13 MB", len(found), len(nbhd(linial, "table", "--ids", "102")))
    refused = {"refused": "the output is longer than 24 MB"}
    three = (ROOT / "examples/cv_to_three.txt").read_text(encoding="ascii")
    STEPS.equal("a table over 24 MB", server.run("table", {"ids": "10"}, three), (503, refused))
    twice = server.raw(2 * f"GET / HTTP/1.1\r\nHost: {server.own}\r\nConnection: keep-alive\r\n\r\n".encode())
    STEPS.equal("two requests in one connection", twice.count(b"HTTP/1.0 200"), 1)


def eventually(condition, seconds=5):
    """Whether a condition becomes true in time."""
    end = time.monotonic() + seconds
    while not condition() and time.monotonic() < end:
        time.sleep(0.05)
    return condition()


def command_line(process):
    """The words of the process with this number, each with a zero byte after it; nothing if it has ended."""
    try:
        return Path(f"/proc/{process}/cmdline").read_bytes()
    except OSError:
        return b""


def limits():
    """What a run, its client and a connection may take."""
    server = Server(STUB)
    try:
        limited = Limits(server)
        limited.one_run()
        limited.at_once()
        limited.gone_client()
        limited.idle_clients()
        limited.end()
    finally:
        server.process.kill()


class Limits:
    """A server that runs the stub, which misbehaves as its input says, and clients that are slow or leave."""

    def __init__(self, server):
        self.server = server

    def run(self, text):
        return self.server.run("check", {"ids": "8"}, text)

    def one_run(self):
        WRITTEN.unlink(missing_ok=True)
        STEPS.equal("the words are a list", self.run("echo")[1].get("out"), "stub\n['check', '--ids=8']\n")
        STEPS.equal("a long output", self.run("flood"), (503, {"refused": "the output is longer than 24 MB"}))
        STEPS.equal("a long note is cut", len(self.run("grumble")[1].get("note", "")), 64000)
        STEPS.equal("3 GB of memory", self.run("memory")[1].get("out"), "stub\nrefused\n")
        STEPS.equal("a file", self.run("write")[1].get("out"), "stub\nrefused\n")
        STEPS.check("nothing is written", not WRITTEN.exists() or WRITTEN.stat().st_size == 0)
        WRITTEN.unlink(missing_ok=True)
        STEPS.equal("the signals that end a run", [self.run(f"die {signal}")[1].get("status") for signal in (9, 15)], [-9, -15])
        STEPS.equal("an input that is not read", self.run("deaf " + "x" * 150000)[1].get("out"), "stub\n")

    def timed(self, name, text, status, least, most):
        begin = time.monotonic()
        answer = self.run(text)
        spent = time.monotonic() - begin
        STEPS.check(name, answer[0] == status and least <= spent <= most, f"{answer} after {spent:.1f} s")

    def slow_client(self):
        begin = time.monotonic()
        with socket.create_connection(("127.0.0.1", self.server.port), timeout=30) as link:
            try:
                for byte in b"GET / HTTP/1.1\r\nX: " + b"y" * 100:
                    link.sendall(bytes([byte]))
                    time.sleep(0.3)
                ended = False
            except OSError:
                ended = True
        STEPS.check("a client of 3 bytes a second is cut off", ended and time.monotonic() - begin < 15)

    def head(self, length):
        """The head of a request for a run."""
        fields = {"Host": self.server.own, "Content-Type": "application/json", "Content-Length": length}
        return ("POST /nbhd HTTP/1.1\r\n" + "".join(f"{name}: {value}\r\n" for name, value in fields.items()) + "\r\n").encode()

    def short_body(self):
        begin = time.monotonic()
        answer = self.server.raw(self.head(100) + b"{")
        STEPS.check("a body that ends too soon", not answer and time.monotonic() - begin < 15, answer)

    def at_once(self):
        def together(*jobs):
            threads = [threading.Thread(target=job) for job in jobs]
            for thread in threads:
                thread.start()
                time.sleep(0.1)
            for thread in threads:
                thread.join()

        four = [lambda: self.timed("one of five at once", "sleep 1.5", 200, 1.4, 8)] * 4
        fifth = lambda: self.timed("the fifth waits", "sleep 1", 200, 1.5, 10)
        together(*four, fifth, lambda: STEPS.check("at most four run", len(self.server.children()) <= 4))
        three = [lambda: self.timed("a run of 60 s is stopped", "sleep 60", 503, 9.5, 15)] * 3
        # By its number of seconds the stub's child is known.
        seconds = f"60.{os.getpid()}"
        fork = lambda: self.timed("a run that left a child is stopped", f"fork {seconds}", 503, 9.5, 15)
        together(*three, fork, self.slow_client, self.short_body, lambda: self.timed("a fifth is refused", "echo", 503, 4.5, 9))
        STEPS.equal("no run is left", self.server.children(), set())
        processes = [entry.name for entry in Path("/proc").iterdir() if entry.name.isdigit()]
        left = [process for process in processes if f"sleep\0{seconds}".encode() in command_line(process)]
        STEPS.equal("the child is not left", left, [])

    def gone_client(self):
        body = json.dumps({"command": "check", "options": {}, "text": "sleep 60"}).encode()
        with socket.create_connection(("127.0.0.1", self.server.port)) as link:
            link.sendall(self.head(len(body)) + body)
            STEPS.check("a run is under way", eventually(lambda: len(self.server.children()) == 1))
        STEPS.check("it ends with its client", eventually(lambda: not self.server.children()))

    def idle_clients(self):
        idle = [socket.create_connection(("127.0.0.1", self.server.port)) for _ in range(60)]
        time.sleep(11)
        STEPS.equal("a request after 60 idle connections", self.server.ask("GET /")[0], 200)
        for link in idle:
            link.close()

    def end(self):
        threading.Thread(target=self.run, args=("sleep 30",), daemon=True).start()
        STEPS.check("a run before the end", eventually(self.server.children))
        left = self.server.children()
        STEPS.equal("Ctrl-C", self.server.end(), 0)
        STEPS.check("it ends the runs", eventually(lambda: not any(str(STUB).encode() in command_line(child) for child in left)))
