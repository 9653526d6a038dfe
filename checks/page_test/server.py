"""A server started by checks/page-test, and what it answers."""

import json
import os
import re
import signal
import socket
import subprocess
import sys
from pathlib import Path

from steps import ROOT


class Server:
    """A server on a free port, which runs the given program, with more variables if it needs some. It can be started again on the same
    port."""

    def __init__(self, program, **variables):
        self.port, self.environment = 0, {**os.environ, **variables, "NBHD": str(program)}
        self.start()

    def start(self):
        words = [sys.executable, str(ROOT / "nbhd-page"), "--port", str(self.port)]
        self.process = subprocess.Popen(words, text=True, stdout=subprocess.PIPE, env=self.environment)
        self.greeting = self.process.stdout.readline()
        self.port = int(re.search(r":(\d+)/", self.greeting)[1])
        self.own = f"127.0.0.1:{self.port}"

    def raw(self, data, seconds=30):
        """All that the server answers to these bytes; nothing if it closes the connection."""
        with socket.create_connection(("127.0.0.1", self.port), timeout=seconds) as link:
            answer = b""
            try:
                link.sendall(data)
                while piece := link.recv(65536):
                    answer += piece
            except (ConnectionError, TimeoutError):
                pass
            return answer

    def ask(self, line, headers=None, body=b""):
        """The status and the body of an answer. A header with the value None is left out."""
        length = {"Content-Length": str(len(body))} if body else {}
        named = {"Host": self.own, **length, **(headers or {})}
        head = "".join(f"{name}: {value}\r\n" for name, value in named.items() if value is not None)
        answer = self.raw(f"{line} HTTP/1.1\r\n{head}\r\n".encode("latin-1") + body)
        top, _, rest = answer.partition(b"\r\n\r\n")
        status = re.match(rb"HTTP/1.\d (\d+)", top)
        return (int(status[1]) if status else 0), rest

    def run(self, command, options, text, headers=None):
        """The status and the JSON of the answer to a run of nbhd."""
        body = json.dumps({"command": command, "options": options, "text": text}).encode()
        own = {"Content-Type": "application/json", "Origin": f"http://{self.own}"}
        status, rest = self.ask("POST /nbhd", {**own, **(headers or {})}, body)
        try:
            return status, json.loads(rest)
        except ValueError:
            return status, {}

    def children(self):
        """The numbers of the server's child processes."""
        lists = Path(f"/proc/{self.process.pid}/task").glob("*/children")
        return {child for numbers in lists for child in numbers.read_text().split()}

    def end(self):
        """Ends the server as Ctrl-C does, and returns its exit status."""
        self.process.send_signal(signal.SIGINT)
        return self.process.wait(timeout=10)
