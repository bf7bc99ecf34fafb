"""What a server counts of itself, in the form that Prometheus reads; and a line for each request, without addresses and names.

Each process has a row of numbers in memory that all share, so whoever has that memory can say what all of them counted.
"""
import contextlib
import fcntl
import http.server
import mmap
import os
import sys
import threading
import time

BOUNDS = (0.005, 0.01, 0.025, 0.05, 0.1, 0.25, 0.5, 1, 2.5, 5, 10)  # seconds of a request
STATUSES = ("2xx", "3xx", "4xx", "5xx")
REASONS = ("requests", "games", "bytes", "connections", "at once", "length", "time", "form")
EVENTS = {
    "taken": "lines that were taken and kept",
    "again": "lines that came again, and were answered as before",
    "behind": "requests of pages that were behind",
    "begun": "games that were begun",
    "undone": "times that lines were taken back",
    "brought": "games that were brought from elsewhere",
    "over": "lines to games that were over",
    "full": "lines to games that have all that they can keep",
    "spent": "lines whose answer would be too long",
    "deep": "lines whose tables call each other too deep",
    "refused": "games in play that cannot be read",
    "failed": "failures of the store",
    "made": "sessions that were made again from their lines",
    "ended": "programs (pawhost) that ended by themselves",
    "no room": "sessions for which memory was lacking",
}
LEVELS = {"connections": "open connections", "at work": "requests at work"}
COLUMNS = ["process", "requests", "microseconds", "bytes", *EVENTS, *LEVELS, *("requests " + status for status in STATUSES),
           *("limit " + reason for reason in REASONS), *("within %g" % bound for bound in BOUNDS)]
PLACE = {name: place for place, name in enumerate(COLUMNS)}
SPARE = 8   # rows for processes that take the place of others


class Shared:
    """Memory for the rows of all processes, which are begun by this one."""

    def __init__(self, processes=1):
        self.file = os.memfd_create("counters")
        os.truncate(self.file, 8 * len(COLUMNS) * (processes + SPARE))
        self.numbers = memoryview(mmap.mmap(self.file, 0)).cast("q")

    def sums(self):
        """What all processes counted, by name."""
        return {name: sum(self.numbers[place::len(COLUMNS)]) for name, place in PLACE.items()}

    def claim(self):
        """Where the row of this process begins: one that nobody has, or whose process has ended."""
        fcntl.lockf(self.file, fcntl.LOCK_EX)
        try:
            for first in range(0, len(self.numbers), len(COLUMNS)):
                process = self.numbers[first]
                if process in (0, os.getpid()) or not is_there(process):
                    self.numbers[first] = os.getpid()
                    return first
            return 0
        finally:
            fcntl.lockf(self.file, fcntl.LOCK_UN)


def is_there(process):
    with contextlib.suppress(ProcessLookupError, PermissionError):
        os.kill(process, 0)
        return True
    return False


class Counters:
    """The row of one process, in memory for all."""

    def __init__(self, shared=None):
        self.shared = shared or Shared()
        self.row = self.shared.numbers[self.shared.claim():][:len(COLUMNS)]
        for name in LEVELS:
            self.row[PLACE[name]] = 0

    def add(self, name, more=1):
        """Counts something; what has no column isn't counted."""
        if name in PLACE:
            self.row[PLACE[name]] += more

    def request(self, status, seconds, given):
        """Counts a request that was answered, with the bytes that were given."""
        self.add("requests")
        self.add("requests %dxx" % (status // 100))
        self.add("microseconds", int(seconds * 1e6))
        self.add("bytes", given)
        self.add(next(("within %g" % bound for bound in BOUNDS if seconds <= bound), ""))


def exposition(shared):
    """The text that Prometheus reads."""
    count, rows = shared.sums(), []

    def family(name, kind, does, values):
        name = "paw_" + name.replace(" ", "_")
        rows.extend(["# HELP %s %s" % (name, does), "# TYPE %s %s" % (name, kind)])
        rows.extend("%s%s %s" % (name, label, value) for label, value in values)

    family("requests_total", "counter", "requests that were answered, by status",
           [('{status="%s"}' % status, count["requests " + status]) for status in STATUSES])
    family("limited_total", "counter", "requests and connections that were refused by a limit",
           [('{limit="%s"}' % reason, count["limit " + reason]) for reason in REASONS])
    for name, does in EVENTS.items():
        family(name + "_total", "counter", does, [("", count[name])])
    for name, does in LEVELS.items():
        family(name, "gauge", does, [("", count[name])])
    family("sent_bytes_total", "counter", "bytes of answers", [("", count["bytes"])])
    within, up_to = [], 0
    for bound in BOUNDS:
        up_to += count["within %g" % bound]
        within.append(('_bucket{le="%g"}' % bound, up_to))
    within.append(('_bucket{le="+Inf"}', count["requests"]))
    family("request_seconds", "histogram", "seconds until a request was answered",
           [*within, ("_sum", "%.6f" % (count["microseconds"] / 1e6)), ("_count", count["requests"])])
    return "\n".join(rows) + "\n"


def listen(address, port, shared):
    """Shows the counters at an address, at every path. It is a port of its own, so no player gets there."""
    class Handler(http.server.BaseHTTPRequestHandler):
        timeout = 10

        def do_GET(self):
            body = exposition(shared).encode("ascii")
            self.send_response(200)
            self.send_header("Content-Type", "text/plain; version=0.0.4; charset=utf-8")
            self.send_header("Content-Length", str(len(body)))
            self.end_headers()
            self.wfile.write(body)

        def log_message(self, *_):
            """Says nothing."""

    server = http.server.HTTPServer((address, port), Handler)
    threading.Thread(target=server.serve_forever, daemon=True).start()
    return server


class Watched:
    """Stands before a server (ASGI): counts each request, and says a line of it.

    What the server says of a request it puts into the scope, as `paw`: the game, and what was asked for. That is written, and the
    path isn't, because a name in it is a player's game.
    """

    def __init__(self, app, counters, write=None):
        self.app, self.counters, self.write = app, counters, write

    async def __call__(self, scope, receive, send):
        if scope["type"] != "http":
            await self.app(scope, receive, send)
            return
        began, status, given = time.monotonic(), 0, 0

        async def send_seen(message):
            nonlocal status, given
            status = message.get("status", status)
            given += len(message.get("body", b""))
            await send(message)

        self.counters.add("at work")
        try:
            await self.app(scope, receive, send_seen)
        except Exception:
            status = status or 500
            raise
        finally:
            self.counters.add("at work", -1)
            seconds = time.monotonic() - began
            if status:
                self.counters.request(status, seconds, given)
                if self.write:
                    self.write("%s %s %s %d %d %.1f\n" % (time.strftime("%Y-%m-%dT%H:%M:%SZ", time.gmtime()), method_of(scope),
                                                          scope.get("paw", "-"), status, given, 1000 * seconds))


def method_of(scope):
    """The method of a request; strangers' own words are not written."""
    return scope["method"] if scope["method"] in ("GET", "HEAD", "POST") else "-"


def write_line(line):
    """Writes a line where a service says what it does. One that can't be written is left out: play goes on."""
    with contextlib.suppress(OSError):
        sys.stderr.write(line)
        sys.stderr.flush()
