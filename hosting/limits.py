"""What a server takes of strangers: how often, how much, how long, and how many at once; of an address, and of all together.

All of it is kept in memory, and all of it is looked at before any work is done: refusals and addresses where nothing is count
like everything else. Time is that of a clock that nobody sets. Several processes share the rates where they are given the same
memory; of connections and requests at once each takes its share.
"""
import asyncio
import collections
import contextlib
import hashlib
import ipaddress
import json
import math
import mmap
import os
import resource
import time

from uvicorn.protocols.http.h11_impl import H11Protocol

import counters

try:
    from uvicorn.protocols.http.httptools_impl import HttpToolsProtocol
except ImportError:  # Debian only recommends it with uvicorn; it is twice as fast
    HttpToolsProtocol = None

PLACES = 1 << 18                    # of the table of rates; each is a number of 8 bytes
ROOM = 8 * PLACES + 32              # bytes of the table, and of the key by which places are found
WHOLE, ANSWERED = 10, 60            # seconds until a request has to be there, and until its answer has to be taken
FILES = 200                         # files of a process beside its connections
PAUSE = 0.5                         # seconds that a refusal waits, so that a connection doesn't send too much all the time
CLOSE = (b"connection", b"close")

Rate = collections.namedtuple("Rate", "count seconds burst")
Rate.__doc__ = """So much in so many seconds, of which a burst may come at once. A count of 0 is no limit."""


class Most:
    """The limits, each for an address and for all together."""

    def __init__(self, **given):
        self.requests, self.all_requests = Rate(120, 60, 60), Rate(120000, 60, 4000)
        self.games, self.all_games = Rate(60, 3600, 20), Rate(6000, 3600, 600)
        self.bytes, self.all_bytes = Rate(4 << 20, 60, 16 << 20), Rate(1 << 30, 60, 1 << 30)
        self.connections, self.all_connections = 64, 4096
        self.at_once, self.all_at_once = 16, 1024
        self.body, self.brought = 8192, (1 << 20) + 4096  # bytes of a request, and of one that brings a game
        for name, value in given.items():
            if not hasattr(self, name):
                raise AttributeError(name)
            setattr(self, name, value)

    def share(self, processes):
        """The same for one of several processes: its share of what is counted at once. Rates are shared by memory."""
        for name in ("connections", "all_connections", "at_once", "all_at_once"):
            setattr(self, name, math.ceil(getattr(self, name) / processes))
        return self


# --- Who it is -----------------------------------------------------------------------------------------------------

def whose(address):
    """Those who share an address: of IPv6, a network of 64 bits."""
    if ":" not in address:
        return address
    try:
        found = ipaddress.IPv6Address(address.partition("%")[0])
    except ValueError:
        return address
    return str(found.ipv4_mapped or ipaddress.IPv6Network((int(found) >> 64 << 64, 64)))


class Proxies:
    """The servers before this one whose word on addresses is taken: networks, and any that comes by a socket of this machine."""

    def __init__(self, networks=()):
        self.networks = [ipaddress.ip_network(network) for network in networks]

    def has(self, address):
        """Whether an address is that of such a server."""
        if not address or not self.networks:
            return not address
        try:
            found = ipaddress.ip_address(address.partition("%")[0])
        except ValueError:
            return False
        found = getattr(found, "ipv4_mapped", None) or found
        return any(found in network for network in self.networks)

    def address(self, peer, headers):
        """Whose request it is: that of the peer, or where this is such a server the last address it names that isn't one."""
        if not self.has(peer):
            return peer
        named = b",".join(value for name, value in headers if name == b"x-forwarded-for").decode("latin-1")
        for address in reversed([part.strip() for part in named.split(",")]):
            if address and not self.has(address):
                return address[:64]
        return peer


# --- How often -----------------------------------------------------------------------------------------------------

def shared_memory():
    """Memory for the rates that processes have together which are begun by this one."""
    memory = mmap.mmap(-1, ROOM)
    memory[-32:] = os.urandom(32)
    return memory


class Rates:
    """How often somebody does something, by the time up to which all that is allowed is used up.

    The table doesn't grow, so strangers can't make it. Each has two places in it, found by a key that nobody knows, and is
    refused only where both say so. Two processes that write at the same time may forget one of both: that makes a limit no
    tighter.
    """

    def __init__(self, memory=None, clock=time.monotonic):
        memory = memory or shared_memory()
        self.key, self.table, self.clock = bytes(memory[-32:]), memoryview(memory)[:8 * PLACES].cast("d"), clock

    def places(self, kind, who):
        digest = hashlib.blake2b(("%s %s" % (kind, who)).encode("utf-8", "replace"), key=self.key, digest_size=8).digest()
        return int.from_bytes(digest[:4], "little") % PLACES, int.from_bytes(digest[4:], "little") % PLACES

    def wait(self, kind, who, rate, cost=1):
        """Counts something; gives 0, or the seconds to wait where it is too often, and then nothing is counted."""
        if not rate.count:
            return 0
        now, each = self.clock(), rate.seconds / rate.count
        places = self.places(kind, who)
        until = max(now, min(self.table[place] for place in places))
        if until - now > each * rate.burst:
            return until - now - each * rate.burst
        until += each * cost
        for place in places:
            if self.table[place] < until:
                self.table[place] = until
        return 0


class AtOnce:
    """How many of something there are at once: in all, and of each address."""

    def __init__(self, most, all_together):
        self.most, self.all_together, self.count, self.by_address = most, all_together, 0, {}

    def enters(self, who):
        """One more; false where that is too many. Of those without an address only all together are counted."""
        if self.count >= self.all_together or who and self.by_address.get(who, 0) >= self.most:
            return False
        self.count += 1
        if who:
            self.by_address[who] = self.by_address.get(who, 0) + 1
        return True

    def leaves(self, who):
        self.count -= 1
        if who:
            left = self.by_address[who] - 1
            if left:
                self.by_address[who] = left
            else:
                del self.by_address[who]


# --- Requests ------------------------------------------------------------------------------------------------------

class Refused(Exception):
    """A request that isn't looked at: the status, why in a sentence, the reason for the counters, and the seconds to wait."""

    def __init__(self, status, why, reason, wait=None):
        super().__init__(why)
        self.status, self.why, self.reason, self.wait = status, why, reason, wait


class Gone(Exception):
    """Whoever sent the request has left."""


class Visitor:
    """Whose request it is. The server that is limited finds it in the scope, as `visitor`."""

    def __init__(self, limits, who):
        self.limits, self.who = limits, who

    def seconds_until_game(self):
        """Counts a new game; gives 0, or the seconds to wait where that is one too many."""
        try:
            self.limits.count("games", self.who, self.limits.most.games, self.limits.most.all_games, "")
        except Refused as refused:
            self.limits.tell("limit games")
            return math.ceil(refused.wait)
        return 0


class Limits:
    """Stands before a server (ASGI), and hands over what is no more than it should be, with its whole body."""

    def __init__(self, app, most=None, proxies=None, memory=None, count=lambda event: None):
        self.app, self.most, self.proxies = app, most or Most(), proxies or Proxies()
        self.rates, self.tell = Rates(memory), count
        self.at_work = AtOnce(self.most.at_once, self.most.all_at_once)

    def count(self, kind, who, rate, of_all, why, cost=1):
        """Counts what somebody does; raises Refused where it is too much."""
        wait = self.rates.wait(kind, who, rate, cost) or self.rates.wait("all " + kind, "", of_all, cost)
        if wait:
            raise Refused(429, why, kind, wait)

    def count_bytes(self, who, count):
        """Counts bytes that were taken or given. They can't be refused any more: the next request is."""
        with contextlib.suppress(Refused):
            self.count("bytes", who, self.most.bytes, self.most.all_bytes, "", count)

    async def __call__(self, scope, receive, send):
        if scope["type"] != "http":
            await self.app(scope, receive, send)
            return
        who = whose(self.proxies.address((scope.get("client") or [""])[0], scope["headers"]))
        scope["visitor"] = Visitor(self, who)
        try:
            await self.pass_on(who, scope, receive, send)
        except Gone:
            pass
        except Refused as refused:
            self.tell("limit " + refused.reason)
            if refused.wait:
                await asyncio.sleep(PAUSE)
            await refuse(scope, send, refused)

    async def pass_on(self, who, scope, receive, send):
        """Has the server answer a request that is no more than it should be."""
        self.count("requests", who, self.most.requests, self.most.all_requests, "That was too fast. Wait a moment.")
        self.count("bytes", who, self.most.bytes, self.most.all_bytes, "That was too much. Wait a moment.", 0)
        if not self.at_work.enters(who):
            raise Refused(503, "Too many requests are at work. Wait a moment.", "at once", 1)
        given = 0

        async def send_counted(message):
            nonlocal given
            given += len(message.get("body", b""))
            await send(message)

        try:
            body = await self.whole_body(scope, receive)
            given = len(body)
            messages = iter([{"type": "http.request", "body": body, "more_body": False}])

            async def receive_whole():
                return next(messages, None) or await receive()

            await self.app(scope, receive_whole, send_counted)
        finally:
            self.at_work.leaves(who)
            self.count_bytes(who, given)

    async def whole_body(self, scope, receive):
        """The body of a request; one that is too long is refused as soon as that is known."""
        most = self.most.brought if scope["path"].endswith("/bring") else self.most.body
        for name, value in scope["headers"]:
            if name == b"content-length" and (not value.isdigit() or len(value) > 15 or int(value) > most):
                raise Refused(413, "That is too long.", "length")
        parts, length, is_whole = [], 0, False
        while not is_whole:
            message = await receive()
            if message["type"] != "http.request":
                raise Gone()
            parts.append(message.get("body", b""))
            length += len(parts[-1])
            if length > most:
                raise Refused(413, "That is too long.", "length")
            is_whole = not message.get("more_body", False)
        return b"".join(parts)


async def refuse(scope, send, refused):
    """Answers a request that is refused, as text or as JSON. One that is too long isn't read to its end, so its connection is
    closed."""
    wants_json = any(name == b"accept" and b"application/json" in value for name, value in scope["headers"])
    body = (json.dumps({"why": refused.why}) if wants_json else refused.why + "\n").encode("utf-8")
    headers = [(b"content-type", b"application/json" if wants_json else b"text/plain; charset=utf-8"),
               (b"content-length", b"%d" % len(body)), (b"cache-control", b"no-store")]
    if refused.wait:
        headers.append((b"retry-after", b"%d" % math.ceil(min(refused.wait, 3600))))
    if refused.status == 413:
        headers.append(CLOSE)
    await send({"type": "http.response.start", "status": refused.status, "headers": headers})
    await send({"type": "http.response.body", "body": body})


# --- Connections ---------------------------------------------------------------------------------------------------

def raw_refusal(status, phrase, why):
    """The bytes of a refusal for a connection whose request isn't read."""
    return ("HTTP/1.1 %d %s\r\nContent-Type: text/plain; charset=utf-8\r\nContent-Length: %d\r\nConnection: close\r\n\r\n%s\n" %
            (status, phrase, len(why) + 1, why)).encode("ascii")


CROWDED = raw_refusal(429, "Too Many Requests", "There are too many connections. Wait a moment.")
SLOW = raw_refusal(408, "Request Timeout", "The request did not come in time.")
NO_REQUEST = raw_refusal(400, "Bad Request", "This is no request.")


def connections(most, proxies, count):
    """The class of connections for uvicorn (its `http`): there are no more than may be, and none that is slow stays."""
    base, open_now = HttpToolsProtocol or H11Protocol, AtOnce(most.connections, most.all_connections)

    class Connection(base):
        """A connection. Its request has to be there in time, and its answer has to be taken in time."""

        who, is_counted, timer, has_begun = None, False, None, False

        def connection_made(self, transport):
            super().connection_made(transport)
            peer = (self.client or [""])[0]
            self.who = None if proxies.has(peer) else whose(peer)
            self.is_counted = open_now.enters(self.who)
            if self.is_counted:
                count("connections", 1)
                self.begin()
            else:
                self.end_with(CROWDED, "connections")

        def connection_lost(self, fault):
            self.stop()
            if self.is_counted:
                self.is_counted = False
                count("connections", -1)
                open_now.leaves(self.who)
            with contextlib.suppress(Exception):  # what is left of a connection that is closed by force
                super().connection_lost(fault)

        def data_received(self, data):
            if self.transport.is_closing():
                return
            if self.timer is None and self.is_idle():
                self.begin()
            super().data_received(data)

        def on_response_complete(self):
            super().on_response_complete()
            self.stop()
            if self.transport.get_write_buffer_size():
                self.timer = self.loop.call_later(ANSWERED, self.is_slow_to_take)

        def send_400_response(self, *_):
            self.end_with(NO_REQUEST, "form")

        def is_idle(self):
            return self.cycle is None or self.cycle.response_complete

        def begin(self):
            """A request begins here: a new connection has to send one."""
            self.stop()
            self.before, self.timer = self.cycle, self.loop.call_later(WHOLE, self.is_slow)

        def stop(self):
            if self.timer:
                self.timer.cancel()
                self.timer = None

        def is_slow(self):
            """The request should be there by now, and has until later to be answered."""
            if self.cycle is not self.before and not self.cycle.more_body:
                self.timer = self.loop.call_later(ANSWERED - WHOLE, self.is_slow_to_take)
            else:
                self.timer = None
                self.end_with(SLOW, "time")

        def is_slow_to_take(self):
            """The answer should be taken by now."""
            self.timer = None
            if self.transport.get_write_buffer_size() or not self.is_idle():
                count("limit time")
                self.transport.abort()

        def end_with(self, answer, reason):
            """Closes the connection; with an answer, where none has begun."""
            count("limit " + reason)
            if self.is_idle() or not self.cycle.response_started:
                self.transport.write(answer)
            if self.cycle is not None:
                self.cycle.disconnected = True
                self.cycle.message_event.set()
            self.transport.close()
            self.timer = self.timer or self.loop.call_later(WHOLE, self.transport.abort)

    return Connection


# --- What hosting/serve asks for -----------------------------------------------------------------------------------

class Shared:
    """What all processes of a server have together."""

    def __init__(self, given):
        allow_files(given.most_connections + FILES)
        self.rates, self.counts = shared_memory(), counters.Shared(given.processes)
        self.listening = counters.listen(*given.counters, self.counts) if given.counters else None
        self.own = None

    def counters(self):
        """The counters of this process."""
        if self.own is None or self.own[0] != os.getpid():
            self.own = os.getpid(), counters.Counters(self.counts)
        return self.own[1]


def allow_files(count):
    """Has the system let a process open this many files, or as many as it may."""
    soft, hard = resource.getrlimit(resource.RLIMIT_NOFILE)
    most = count if hard == resource.RLIM_INFINITY else min(count, hard)
    if soft != resource.RLIM_INFINITY and soft < most:
        resource.setrlimit(resource.RLIMIT_NOFILE, (most, hard))


def address_and_port(text):
    """[ADDRESS:]PORT; without an address that of this machine."""
    address, _, port = text.rpartition(":")
    if not 0 <= int(port) <= 65535:
        raise ValueError(port)
    return address.strip("[]") or "127.0.0.1", int(port)


def words(parser):
    """Adds the words of limits to those of a server."""
    most = Most()
    parser.add_argument("--rate", type=int, default=most.requests.count, metavar="N",
                        help="requests a minute of an address, half of them at once (%(default)s; 0 is no limit)")
    parser.add_argument("--games", dest="new_games", type=int, default=most.games.count, metavar="N",
                        help="games an hour that an address begins, a third of them at once (%(default)s; 0 is no limit)")
    parser.add_argument("--connections", type=int, default=most.connections, metavar="N",
                        help="connections of an address at once (%(default)s)")
    parser.add_argument("--most-connections", type=int, default=most.all_connections, metavar="N",
                        help="connections in all (%(default)s)")
    parser.add_argument("--proxy", action="append", default=[], metavar="NETWORK", type=ipaddress.ip_network,
                        help="a server before this one (or its network) whose X-Forwarded-For is believed; may be given again")
    parser.add_argument("--counters", type=address_and_port, metavar="[ADDRESS:]PORT",
                        help="show counters there, as Prometheus reads them")
    parser.add_argument("--quiet", action="store_true", help="write no line for each request")


def most_of(given):
    """The limits that words give, for one of all processes."""
    most = Most(connections=given.connections, all_connections=given.most_connections,
                at_once=max(1, given.connections // 4), all_at_once=max(1, given.most_connections // 4))
    most.requests = Rate(given.rate, 60, max(1, given.rate // 2))
    most.games = Rate(given.new_games, 3600, max(1, given.new_games // 3))
    if not given.rate:
        most.all_requests = most.bytes = most.all_bytes = Rate(0, 1, 1)
    if not given.new_games:
        most.all_games = Rate(0, 1, 1)
    most.share(given.processes)
    files = resource.getrlimit(resource.RLIMIT_NOFILE)[0]
    if files != resource.RLIM_INFINITY:
        most.all_connections = max(1, min(most.all_connections, files - FILES))
    return most


def shared(given):
    """What is made once, before the processes begin."""
    return Shared(given)


def guard(app, given, shared):
    """The server with its limits, its counters and its log around it."""
    count = shared.counters()
    limited = Limits(app, most_of(given), Proxies(given.proxy), shared.rates, count.add)
    return counters.Watched(limited, count, None if given.quiet else counters.write_line)


def protocol(given, shared):
    """The connections of the server."""
    return connections(most_of(given), Proxies(given.proxy), shared.counters().add)
