"""A server for tests: the plain files of a folder, and at /answer the texts of a game, in the bytes by which a page asks its
engine. Each request is answered by the program, run in a folder of its own."""
import http.server
import os
import subprocess
import sys
import tempfile
import threading

sys.path.insert(0, os.path.join(os.path.dirname(os.path.abspath(__file__)), ".."))
import paws  # noqa: E402


class Parts:
    """The parts of a request, one after the other."""

    def __init__(self, data):
        self.data, self.at = data, 0

    def number(self):
        self.at += 4
        return int.from_bytes(self.data[self.at - 4:self.at], "little")

    def part(self):
        length = self.number()
        self.at += length
        return self.data[self.at - length:self.at]


def as_part(data):
    return len(data).to_bytes(4, "little") + data


def answer(paw, request):
    """The reply to a request: what the program says, shows and leaves."""
    parts = Parts(request)
    words = [parts.part() for _ in range(parts.number())]
    with tempfile.TemporaryDirectory() as room:
        for _ in range(parts.number()):
            name = parts.part().decode("ascii")
            with open(os.path.join(room, name), "wb") as file:
                file.write(parts.part())
        lines = [parts.part() + b"\n" for _ in range(parts.number())]
        done = subprocess.run([paw, *words], cwd=room, input=b"".join(lines), stdout=subprocess.PIPE, stderr=subprocess.PIPE)
        reply = bytes([done.returncode]) + as_part(done.stderr.strip() if done.returncode else b"") + as_part(done.stdout)
        path = os.path.join(room, words[2].decode("ascii")) if len(words) > 2 else None
        if path and os.path.isfile(path):
            with open(path, "rb") as file:
                return reply + b"\1" + as_part(file.read())
        return reply + b"\0"


class Handler(http.server.SimpleHTTPRequestHandler):
    protocol_version = "HTTP/1.1"
    extensions_map = {**http.server.SimpleHTTPRequestHandler.extensions_map, ".wasm": "application/wasm", ".js": "text/javascript"}

    def do_GET(self):
        self.server.asked.append(self.path)
        super().do_GET()

    def do_POST(self):
        self.server.asked.append(self.path)
        request = self.rfile.read(int(self.headers["Content-Length"]))
        reply = answer(self.server.paw, request)
        self.send_response(200)
        self.send_header("Content-Length", str(len(reply)))
        self.end_headers()
        self.wfile.write(reply)

    def log_message(self, *_):
        """Says nothing."""


class Server(http.server.ThreadingHTTPServer):
    daemon_threads = True

    def handle_error(self, *_):
        """A browser that goes away in the middle is none."""


def begun(folder):
    """A server of a folder, at the port that it has in server_address; asked are the paths that it was asked for."""
    def handler(*words):
        return Handler(*words, directory=folder)
    server = Server(("127.0.0.1", 0), handler)
    server.paw, server.asked = paws.program(), []
    threading.Thread(target=server.serve_forever, daemon=True).start()
    return server
