"""The host as an application of the web: what is asked by HTTP, in which form, and what comes back.

GET /                       the games, and those of this browser
GET /GAME/, /GAME/NAME      the page of a game, and of a game in play; nothing is kept for either
GET /GAME/plain, POST       without JavaScript: begins a game by a press
GET /GAME/NAME/plain, POST  without JavaScript: the last text, and a form for a line
POST /GAME/begin, open, line, undo, bring, lines   what the page asks, as JSON; service.py tells what each does

A request that gets nothing has its status and, as JSON or as text, why. The word for a log stands in the scope of a request, as paw:
an address may have a name in it, and who has the name has the game.
"""
import json
import re

from starlette.applications import Starlette
from starlette.exceptions import HTTPException
from starlette.responses import HTMLResponse, JSONResponse, PlainTextResponse, RedirectResponse
from starlette.routing import Route

import common
import paws
import plain
import service
import store

LONGEST_BODY, LONGEST_BROUGHT = 4096, 1 << 20  # bytes
NAME = re.compile("[a-z]{%d}" % common.LONGEST_NAME)
KEY = re.compile("[A-Za-z0-9_-]{1,40}")
NOTHING = "There is nothing here."
HEADERS = {"Cache-Control": "no-store", "Referrer-Policy": "no-referrer", "X-Frame-Options": "DENY", "X-Content-Type-Options": "nosniff"}
RAW_HEADERS = [(name.lower().encode("ascii"), value.encode("ascii")) for name, value in HEADERS.items()]
ROBOTS = "User-agent: *\nDisallow: /\n"
encoded = json.JSONEncoder(ensure_ascii=False, separators=(",", ":")).encode


class Gone(Exception):
    """Whoever sent a request has left."""


class Asked:
    """The fields of a request, each read by what it has to be."""

    def __init__(self, fields):
        if not isinstance(fields, dict):
            raise service.Refused(400, "These are no fields of this page.")
        self.fields = fields

    def of(self, name, is_fine, none=()):
        """The value of a field; where it is missing, that which is named for this, if any is."""
        value = self.fields.get(name)
        if value is None and none:
            return none[0]
        try:
            if is_fine(value):
                return value
        except TypeError:
            pass
        raise service.Refused(400, "These are no fields of this page.")

    def name(self, *none):
        return self.of("name", NAME.fullmatch, none)

    def number(self, name, *none):
        return self.of(name, lambda value: type(value) is int and 0 <= value < 1 << 31, none)

    def key(self):
        return self.of("key", KEY.fullmatch)

    def seed(self, *none):
        return self.of("seed", lambda value: re.fullmatch("[0-9]{1,20}", value) and int(value) < 1 << 64, none)

    def before(self, number):
        """Where the page stands, behind the line of this number."""
        after = self.of("after", lambda value: value == "" or KEY.fullmatch(value))
        if number < 0 or (number == 0) != (after == ""):
            raise service.Refused(400, "These are no fields of this page.")
        return store.Stand(self.number("generation"), number, after)

    def line(self):
        return line_of(self.of("line", lambda value: isinstance(value, str)))

    def lines(self):
        lines = self.of("lines", lambda value: isinstance(value, list) and all(isinstance(line, str) for line in value))
        if len(lines) > service.MOST_BROUGHT:
            raise service.Refused(413, "A game that is brought has at most %d lines." % service.MOST_BROUGHT)
        return [line_of(line) for line in lines]


def line_of(typed):
    """The bytes of a typed line, in the letters that games know."""
    line = common.plain_line(typed)
    if line is None:
        raise service.Refused(400, "A line has at most %d letters, and no control characters." % common.LONGEST_LINE)
    return line


async def body_of(receive, most=LONGEST_BODY):
    """The bytes of a request's body; one that is too long is refused before all of it is read."""
    data, is_whole = b"", False
    while not is_whole:
        message = await receive()
        if message["type"] != "http.request":
            raise Gone()
        data += message.get("body", b"")
        if len(data) > most:
            raise service.Refused(413, "That is too long.")
        is_whole = not message.get("more_body", False)
    return data


def header_of(scope, wanted):
    """The first header of a name; nothing where there is none."""
    return next((value for name, value in scope["headers"] if name == wanted), b"")


async def fields_of(scope, receive, most):
    if header_of(scope, b"content-type").partition(b";")[0].strip() != b"application/json":
        raise service.Refused(415, "JSON is wanted.")
    try:
        return Asked(json.loads(await body_of(receive, most)))
    except (ValueError, RecursionError):
        raise service.Refused(400, "These are no fields of this page.") from None


def count_game(scope):
    """Counts a game that is begun, where the host is limited; refuses one too many."""
    wait = scope["visitor"].seconds_until_game() if "visitor" in scope else 0
    if wait:
        raise service.Refused(429, "Too many games are begun. Wait a while.", wait)


# --- What the page asks: each gives what is to be waited for --------------------------------------------------------

def begin(host, game, asked, scope):
    seed = asked.seed(None)
    count_game(scope)
    return host.begin(game, seed)


def open_game(host, game, asked, _):
    first = asked.fields.get("from")
    return host.open(game, asked.name(), None if first is None else asked.number("from"))


def line(host, game, asked, _):
    return host.line(game, asked.name(), asked.before(asked.number("n") - 1), asked.key(), asked.line())


def undo(host, game, asked, _):
    return host.undo(game, asked.name(), asked.before(asked.number("n")), asked.number("to"))


def bring(host, game, asked, scope):
    name = asked.name(None)
    before = asked.before(asked.number("n")) if name else None
    if not name:
        count_game(scope)
    return host.bring(game, asked.seed(), asked.lines(), name, before)


def lines(host, game, asked, _):
    return host.lines(game, asked.name())


ASKED = {"begin": begin, "open": open_game, "line": line, "undo": undo, "bring": bring, "lines": lines}
LONGEST = {"bring": LONGEST_BROUGHT}


class Application:
    """What answers requests: those of the page here, without what makes others easy, and the others by Starlette."""

    def __init__(self, host, others):
        self.host, self.others = host, others

    async def __call__(self, scope, receive, send):
        word, prefix, base = "", "", None
        if scope["type"] == "http" and scope["method"] == "POST":
            base, _, word = scope["path"].rpartition("/")
            base, _, prefix = base.rpartition("/")
        if word not in ASKED or base not in ("", scope.get("root_path")):
            await self.others(scope, receive, send)
            return
        game = self.host.games.get(prefix)
        scope["paw"] = prefix + " " + word if game else word
        status, found, again = await answered(self.asked(word, game, scope, receive))
        if status == 200 or b"application/json" in header_of(scope, b"accept"):
            kind, body = b"application/json", encoded(found if status == 200 else {"why": found}).encode("utf-8")
        else:
            kind, body = b"text/plain; charset=utf-8", found.encode("utf-8") + b"\n"
        headers = [*RAW_HEADERS, (b"content-type", kind), (b"content-length", b"%d" % len(body))]
        if again:
            headers.append((b"retry-after", b"%d" % again))
        await send({"type": "http.response.start", "status": status, "headers": headers})
        await send({"type": "http.response.body", "body": body})

    async def asked(self, word, game, scope, receive):
        if not game:
            raise service.Refused(404, NOTHING)
        fields = await fields_of(scope, receive, LONGEST.get(word, LONGEST_BODY))
        return await ASKED[word](self.host, game, fields, scope)


async def answered(found):
    """The status of an answer, what it gives or why it gives nothing, and in how many seconds to ask again."""
    try:
        return 200, await found, None
    except service.Refused as why:
        return why.status, why.why, why.again
    except Gone:
        return 400, "Nobody waits for the answer.", None
    except Exception as fault:
        paws.own_fault("hosting/serve", fault)
        return 500, "The host has a fault of its own. Nothing of your game is lost.", None


def refusal(request, status, why, again=None):
    """The answer to a request that gets nothing."""
    headers = {**HEADERS, **({"Retry-After": str(again)} if again else {})}
    if "application/json" in request.headers.get("accept", ""):
        return JSONResponse({"why": why}, status, headers)
    return PlainTextResponse(why + "\n", status, headers)


def application(host, pages):
    """The application of a service; pages gives the first page, and that of each game."""

    def route(word, does):
        async def asked(request, game, name):
            if "game" in request.path_params and not game or name is not None and not NAME.fullmatch(name):
                raise service.Refused(404, NOTHING)
            return await does(request, game, name)

        async def answer(request):
            game = host.games.get(request.path_params.get("game", ""))
            request.scope["paw"] = " ".join(part for part in (game and game.prefix, word) if part)
            status, found, again = await answered(asked(request, game, request.path_params.get("name")))
            return found if status == 200 else refusal(request, status, found, again)
        return answer

    def page_response(page, policy):
        return HTMLResponse(page, headers={**HEADERS, "Content-Security-Policy": policy})

    async def first(*_):
        return page_response(*pages.first())

    async def page(_, game, name):
        return page_response(*pages.of(game, name))

    async def to_page(request, *_):
        return RedirectResponse(str(request.url.path) + "/", 308, HEADERS)

    async def robots(*_):
        return PlainTextResponse(ROBOTS, headers=HEADERS)

    async def begin_plainly(request, game, _):
        if request.method == "POST":
            await body_of(request.receive)
            count_game(request.scope)
            found = await host.begin(game)
            return RedirectResponse("%s/plain" % found["name"], 303, HEADERS)
        return page_response(*plain.beginning(game))

    async def play_plainly(request, game, name):
        if request.method != "POST":
            return page_response(*plain.page(game, await host.open(game, name, service.MOST_BROUGHT)))
        typed = plain.fields(await body_of(request.receive))
        asked = Asked(typed)
        if "undo" in typed:
            found = await host.undo(game, name, asked.before(asked.number("n") - 1), max(0, asked.number("n") - 2))
        else:
            found = await host.line(game, name, asked.before(asked.number("n") - 1), asked.key(), asked.line())
        if found["taken"]:
            return RedirectResponse("plain", 303, HEADERS)
        return page_response(*plain.page(game, found))

    async def nothing(request, why):
        request.scope.setdefault("paw", "nothing")
        told = NOTHING if why.status_code == 404 else "That can't be done here."
        return refusal(request, why.status_code, told)

    found = Starlette(exception_handlers={HTTPException: nothing}, routes=[
        Route("/", route("first", first)), Route("/robots.txt", route("robots", robots)),
        Route("/{game}", route("page", to_page)), Route("/{game}/", route("page", page)),
        Route("/{game}/plain", route("plain", begin_plainly), methods=["GET", "POST"]),
        Route("/{game}/{name}", route("page", page)),
        Route("/{game}/{name}/plain", route("plain", play_plainly), methods=["GET", "POST"])])
    found.router.redirect_slashes = False  # what leads nowhere is answered so, and not by a host that the request names
    return Application(host, found)
