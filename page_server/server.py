"""The requests of the page. A connection carries one."""

import json
import re
import select
import socket
import socketserver
import sys
import threading
from http.server import BaseHTTPRequestHandler, HTTPServer

from .errors import ClientGone, Refusal
from .orders import words_and_text

# A table text of 2 MB, with a letter more for each end of a line.
BODY_BYTES = 2_500_000
# How long a request waits for one of the runs to end.
QUEUE_SECONDS = 5
# How long a client may take to send its request, and to take the answer.
REQUEST_SECONDS = 10
ANSWER_SECONDS = 20
PLACES = threading.BoundedSemaphore(4)
CONNECTIONS = threading.BoundedSemaphore(32)
HEADERS = {
    "Cache-Control": "no-store",
    "Content-Security-Policy": "default-src 'none'; script-src 'self'; style-src 'self'; connect-src 'self'; "
    "img-src 'self'; base-uri 'none'; form-action 'none'; frame-ancestors 'none'",
    "Cross-Origin-Resource-Policy": "same-origin",
    "Referrer-Policy": "no-referrer",
    "X-Content-Type-Options": "nosniff",
}


class Handler(BaseHTTPRequestHandler):
    server_version, sys_version = "nbhd-page", ""
    timeout = REQUEST_SECONDS
    error_message_format, error_content_type = "%(code)d %(message)s\n", "text/plain; charset=utf-8"

    def setup(self):
        super().setup()
        # `timeout` limits each read alone. This timer limits the whole request, also of a client that sends byte by byte.
        self.timer = threading.Timer(REQUEST_SECONDS, self.disconnect)
        self.timer.daemon = True
        self.timer.start()

    def finish(self):
        self.timer.cancel()
        super().finish()

    def disconnect(self):
        try:
            self.connection.shutdown(socket.SHUT_RDWR)
        except OSError:
            pass

    def do_GET(self):
        self.serve(self.get)

    def do_HEAD(self):
        self.serve(self.get)

    def do_POST(self):
        self.serve(self.post)

    def serve(self, method):
        more = {}
        try:
            if self.is_elsewhere():
                status, kind, content = 307, "text/plain; charset=utf-8", b""
                more = {"Location": f"http://{self.server.own}{self.path}"}
            else:
                self.check_sender()
                kind, content = method()
                status = 200
        except ClientGone:
            return
        except Refusal as refusal:
            status, kind = refusal.status, "application/json"
            content = json.dumps({"refused": refusal.reason}).encode()
        self.send(status, {**HEADERS, **more, "Content-Type": kind, "Content-Length": str(len(content))}, content)

    def send(self, status, headers, content):
        self.timer.cancel()
        self.connection.settimeout(ANSWER_SECONDS)
        try:
            self.send_response(status)
            for name, value in headers.items():
                self.send_header(name, value)
            self.end_headers()
            if self.command != "HEAD":
                self.wfile.write(content)
        except OSError:
            pass

    def is_elsewhere(self):
        """Whether a file of the page is asked for by the name `localhost`: then the browser is sent to the address."""
        name = self.server.own.replace("127.0.0.1", "localhost")
        return self.command != "POST" and self.headers.get_all("Host") == [name] and self.path in self.server.files

    def check_sender(self):
        """Refuses a request to another host name (DNS rebinding) and one from a page of another site."""
        own = self.server.own
        if self.headers.get_all("Host") != [own]:
            raise Refusal(403, f"the address of this page is http://{own}/")
        foreign = Refusal(403, "requests of other sites are refused")
        if any(origin != f"http://{own}" for origin in self.headers.get_all("Origin", [])):
            raise foreign
        if self.headers.get("Sec-Fetch-Site", "none") not in ("none", "same-origin"):
            # A link of another site may open the page, which then stands alone in its tab.
            if self.command != "GET" or self.headers.get("Sec-Fetch-Mode") != "navigate":
                raise foreign

    def get(self):
        found = self.server.files.get(self.path)
        if found is None:
            raise Refusal(404, "the page has no such file")
        return found

    def post(self):
        if self.path != "/nbhd":
            raise Refusal(404, "the page has no such file")
        words, text = words_and_text(self.body())
        self.timer.cancel()
        if not PLACES.acquire(timeout=QUEUE_SECONDS):
            raise Refusal(503, "four runs are under way already")
        try:
            status, out, note = self.server.runs.run(words, text, self.client_is_gone)
        except OSError as error:
            raise Refusal(503, f"nbhd cannot be run: {error.strerror}") from None
        finally:
            PLACES.release()
        out, note = (stream.decode("utf-8", "backslashreplace") for stream in (out, note))
        return "application/json", json.dumps({"status": status, "out": out, "note": note}).encode()

    def body(self):
        if self.headers.get_content_type() != "application/json":
            raise Refusal(415, "a body is application/json")
        lengths = self.headers.get_all("Content-Length", [])
        if "Transfer-Encoding" in self.headers or len(lengths) != 1 or not re.fullmatch("[0-9]{1,12}", lengths[0]):
            raise Refusal(411, "a body has one length")
        length = int(lengths[0])
        if length > BODY_BYTES:
            raise Refusal(413, f"a body has at most {BODY_BYTES} bytes")
        try:
            body = self.rfile.read(length)
        except OSError:
            raise ClientGone from None
        if len(body) < length:
            raise ClientGone
        return body

    def client_is_gone(self):
        try:
            readable, _, _ = select.select([self.connection], [], [], 0)
            return bool(readable) and self.connection.recv(1, socket.MSG_PEEK) == b""
        except OSError:
            return True

    def log_message(self, *_):
        pass


class Server(socketserver.ThreadingMixIn, HTTPServer):
    """Serves these files on the loopback address, and these runs of nbhd."""

    daemon_threads = True
    request_queue_size = 32

    def __init__(self, port, files, runs):
        super().__init__(("127.0.0.1", port), Handler)
        self.files, self.runs = files, runs
        self.own = "127.0.0.1" if self.server_port == 80 else f"127.0.0.1:{self.server_port}"

    def server_bind(self):
        # HTTPServer would look up the host's name here.
        socketserver.TCPServer.server_bind(self)
        self.server_name, self.server_port = self.server_address

    def process_request(self, request, client_address):
        if CONNECTIONS.acquire(blocking=False):
            super().process_request(request, client_address)
        else:
            self.shutdown_request(request)

    def process_request_thread(self, request, client_address):
        try:
            super().process_request_thread(request, client_address)
        finally:
            CONNECTIONS.release()

    def handle_error(self, request, client_address):
        if not isinstance(sys.exc_info()[1], OSError):
            super().handle_error(request, client_address)
