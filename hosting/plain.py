"""The page of a game without JavaScript: the last text, and a form for the next line."""
import collections
import html
import re
import urllib.parse

import common
import page_file
import service

NUMBERS = ("generation", "n")
Titled = collections.namedtuple("Titled", "title")
OURS = "default-src 'none'; style-src %s; form-action 'self'; base-uri 'none'; frame-ancestors 'none'; img-src data:"
FRAME = """\
<!DOCTYPE html>
<html lang="en">
<head>
<meta charset="utf-8">
<meta name="viewport" content="width=device-width, initial-scale=1">
<meta name="robots" content="noindex">
<meta name="color-scheme" content="light dark">
<title>@TITLE@</title>
<link rel="icon" href="data:,">
<style>@STYLE@</style>
</head>
<body class="first">
<main>
<h1>@TITLE@</h1>
@CONTENT@
</main>
</body>
</html>
"""
BEGINNING = """\
<form method="post" action="plain"><button>Begin a game</button></form>
<p>It gets an address of its own: keep that. Whoever has it can go on with the game.</p>
"""
PAGE = """\
<p class="text">@TEXT@</p>
<p id="note">@NOTE@</p>
@FORM@
<p>Each line is kept before it is answered. The address of this page is your game: whoever has it can go on with it.</p>
"""
PLACE = """\
<input type="hidden" name="generation" value="@GENERATION@"><input type="hidden" name="n" value="@N@">
<input type="hidden" name="after" value="@AFTER@">"""
FORM = """\
<form method="post" action="plain" autocomplete="off">
%s<input type="hidden" name="key" value="@KEY@">
<label for="line">@PROMPT@</label>
<input type="text" name="line" id="line" maxlength="@LONGEST@" autofocus autocapitalize="none"
 autocorrect="off" spellcheck="false" aria-label="What do you do?">
<button>Send</button>
</form>
""" % PLACE
UNDO = """\
<form method="post" action="plain">
%s<button name="undo" value="1">Undo</button>
</form>
""" % PLACE
OVER = '<p>The game is over. <a href="../plain">Begin a new one</a></p>\n'
BEHIND = "The game had gone on without this page, so that was not done. Here is where the game stands."


def framed(game, content):
    """A page, and the rules of the browser for it."""
    style = page_file.part("style.css")
    values = {"TITLE": html.escape(game.title), "STYLE": style, "CONTENT": content}
    return page_file.filled(FRAME, values), OURS % page_file.hash_of(style)


def beginning(game):
    """The page on which a game is begun."""
    return framed(game, BEGINNING)


def page(game, state):
    """The page of a game in play, as it stands."""
    text = state["turns"][-1]["text"] if state["turns"] else ""
    text, _, prompt = text.rstrip("\n").rpartition("\n")
    values = {"TEXT": text.strip("\n"), "NOTE": state.get("note") or (BEHIND if state.get("behind") else ""),
              "PROMPT": prompt.strip() or ">", "GENERATION": str(state["generation"]), "N": str(state["n"] + 1),
              "AFTER": state["after"], "KEY": service.new_key(), "LONGEST": str(common.LONGEST_LINE)}
    values = {name: html.escape(value) for name, value in values.items()}
    forms = (OVER if state["over"] else FORM) + (UNDO if state["n"] else "")
    return framed(game, page_file.filled(page_file.filled(PAGE, {"FORM": forms}), values))


def fields(data):
    """The fields of a form that was sent, with numbers where these are wanted."""
    try:
        found = urllib.parse.parse_qs(data.decode("ascii"), keep_blank_values=True, strict_parsing=True, max_num_fields=8,
                                      errors="strict")
    except ValueError:
        raise service.Refused(400, "These are no fields of this page.") from None
    if any(len(values) > 1 for values in found.values()):
        raise service.Refused(400, "These are no fields of this page.")
    return {name: int(value) if name in NUMBERS and re.fullmatch("[0-9]{1,9}", value) else value
            for name, (value,) in found.items()}
