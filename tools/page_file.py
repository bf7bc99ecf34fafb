"""A game as a page that needs no server: one HTML file with the game, the program as WebAssembly, and the front end of page/.

What a page shows of an about file beside the fields that tools/publish knows: its cover, and pictures and sounds for marks.

  cover: gull.png A lamp over the sea
  picture 3: lamp.png The lamp, lit
  sound 10 200: bell.ogg

Each is a file beside the about file. What stands behind it is what a screen reader says of the picture. Pictures of places lie in a
folder of their own: pictures.py tells of them.
"""
import base64
import hashlib
import html
import json
import os
import re
import zlib

import images
import letters
import marks
import paws
import pictures
import signals

FOLDER = os.path.join(paws.TOP, "page")
# One behind the other they are the script of a page: of a game that the browser plays, and of one that a host keeps.
SCRIPTS = ["engine.js", "store.js", "game.js", "pictures.js", "play.js", "local.js"]
SERVED = ["game.js", "yours.js", "pictures.js", "play.js", "served.js"]
MODULES = [os.path.join(paws.TOP, "bin", "paw.wasm"), os.path.join(paws.TOP, "..", "..", "lib", "paw", "paw.wasm")]
MEDIA = re.compile(r"(cover|picture \d{1,3}|sound \d{1,3} \d{1,3})\s*:\s*(.*)", re.IGNORECASE)
PICTURES = {".png": "image/png", ".jpg": "image/jpeg", ".jpeg": "image/jpeg", ".gif": "image/gif", ".webp": "image/webp",
            ".svg": "image/svg+xml"}
SOUNDS = {".ogg": "audio/ogg", ".mp3": "audio/mpeg", ".wav": "audio/wav", ".m4a": "audio/mp4", ".opus": "audio/ogg"}
MOST = 16 << 20  # bytes of a picture or a sound
SCORE = 30  # a flag
GENERATOR = b'<meta name="generator" content="Kaldrevin">'
PROPERTY = '<meta prefix="ifiction: http://babel.ifarchive.org/protocol/iFiction/" property="ifiction:ifid" content="%s">'


class Wrong(Exception):
    """Something that no page can be made of; it is told to the author."""


# --- What an about file says of pictures and sounds ----------------------------------------------------------------

def is_media(line):
    """Whether a line of an about file names a picture or a sound."""
    return bool(MEDIA.match(line.strip()))


def media_of(path):
    """What an about file gives for marks, and the cover: of each its kind, its bytes as an address, and what is said of it."""
    found = {}
    for number, line in enumerate(paws.bytes_of(path, MOST).decode("utf-8", "replace").split("\n"), 1):
        match = MEDIA.match(line.strip())
        if match:
            name, value = match.group(1).lower(), match.group(2).strip()
            place = "%s:%d" % (path, number)
            if name in found:
                raise Wrong("%s: %s stands there twice" % (place, name))
            found[name] = medium(name, value, os.path.dirname(path), place)
    return found


def medium(name, value, folder, place):
    """One picture or sound, of a file in the folder."""
    if not value.isprintable():
        raise Wrong("%s: a control character stands there" % place)
    file, _, told = value.partition(" ")
    kinds = SOUNDS if name.startswith("sound") else PICTURES
    kind = kinds.get(os.path.splitext(file)[1].lower())
    if not kind:
        raise Wrong("%s: a file is wanted whose name ends in one of %s" % (place, ", ".join(sorted(kinds))))
    path = os.path.join(folder, file)
    if not os.path.isfile(path):
        raise Wrong("%s: there is no file %s" % (place, path))
    data = "data:%s;base64,%s" % (kind, as_text(paws.bytes_of(path, MOST)))
    return {"is": "sound" if kinds is SOUNDS else "picture", "data": data, "tells": told.strip()}


def pictures_of(stem, image):
    """The pictures of the places of a game, whose files begin so."""
    try:
        return pictures.of(stem, len(images.places(image)))
    except pictures.Wrong as fault:
        raise Wrong(str(fault)) from fault


def mark_of(name):
    """The mark that a name of an about file stands for."""
    return name.replace("sound", "beep").upper()


# --- The page ------------------------------------------------------------------------------------------------------

def as_text(data):
    return base64.b64encode(data).decode("ascii")


def packed(data):
    """Bytes as they stand in a page, which unpacks them."""
    return as_text(zlib.compress(data, 9))


def part(name):
    with open(os.path.join(FOLDER, name), encoding="utf-8") as file:
        return file.read()


def script(names):
    """The script of a page, with the marks and the letters as the other front ends have them."""
    table = "const MARKS = /%s/g;\n%s" % (marks.MARK.pattern, letters.javascript())
    return '"use strict";\n' + table + "".join(part(name) for name in names)


def module():
    """The program as WebAssembly."""
    named = os.environ.get("PAWWASM")
    for path in [named] if named else MODULES:
        if os.path.isfile(path):
            return paws.bytes_of(path, MOST)
    raise Wrong("%s is missing: a page has the program in it, as WebAssembly" % (named or MODULES[0]))


def has_score(paw, image):
    """Whether a game counts a score: a condact shows it, or names its flag."""
    with signals.room() as room:
        path = os.path.join(room, "image")
        with open(path, "wb") as file:
            file.write(image)
        source, _ = paws.source_and_image(paw, path, room)
    return any(step.name == "SCORE" or any(value == SCORE for value, _, _ in paws.flags_of(step)) for _, _, step in source.steps())


def is_page(path):
    """Whether a file is a page that was made here."""
    with open(path, "rb") as file:
        return GENERATOR in file.read(4096)


def hash_of(text):
    return "'sha256-%s'" % as_text(hashlib.sha256(text.encode("utf-8")).digest())


def policy(scripts, style, also=None):
    """What a browser lets a page do: run these scripts, and the module in a worker. No request leaves it, but to its own site where
    it has one."""
    rules = {"default-src": "'none'", "script-src": "%s 'wasm-unsafe-eval'" % hash_of(scripts), "style-src": hash_of(style),
             "img-src": "data:", "media-src": "data:", "worker-src": "blob:", "base-uri": "'none'", "form-action": "'none'",
             **(also or {})}
    return "; ".join("%s %s" % rule for rule in rules.items())


def filled(template, values):
    """A template with values for its names, each of them once; what a value holds isn't looked at again."""
    return re.sub("@([A-Z_]+)@", lambda found: values.get(found.group(1), found.group(0)), template)


def told(fields):
    """The elements of the head by which browsers and archives know a game."""
    named = [("author", fields.get("author")), ("description", fields.get("description") or fields.get("headline"))]
    rows = ['<meta name="%s" content="%s">' % (name, html.escape(value)) for name, value in named if value]
    if "ifid" in fields:
        rows += [PROPERTY % fields["ifid"], "<!-- UUID://%s// -->" % fields["ifid"]]
    return "\n".join(rows)


def front(fields, cover):
    """What stands before the story: the cover, and whose game it is."""
    picture = '<img src="%s" alt="%s">' % (cover["data"], html.escape(cover["tells"] or "The cover")) if cover else ""
    return '<figure id="front">%s<figcaption>%s</figcaption></figure>' % (picture, html.escape(by(fields)))


def page(fields, media, image, scored, places=None, shown=None):
    """The text of a page, where the pictures of its places are shown. Its image and module stand in it; or they lie beside it in a
    site, and places has their names and the rules of the policy for that; or a server computes the texts, and places has its
    address."""
    places, code, beside = places or {}, script(SCRIPTS), ' data-from="%s"'
    about = {"server": places.get("server", ""), "service": places.get("service", ""), **told_of(shown)}
    return whole(fields, media, about_of(fields, media, image, scored, about), code, policy(code, part("style.css"), places.get("policy")), {
        "IMAGE_FROM": beside % places["image"] if "image" in places else "", "IMAGE": "" if "image" in places else packed(image),
        "MODULE_FROM": beside % places["module"] if "module" in places else "",
        "MODULE": "" if "module" in places or "server" in places else packed(module()), **packed_of(shown),
        "KEPT": "Each line is kept in this browser before its answer is shown: close the page when you like.",
        "PLAIN": "This page is a game, and needs JavaScript."})


def served(fields, media, image, scored, longest, shown=None):
    """The text of a page of a game that a host keeps, with a place (@ADDRESS@) for where it is played without JavaScript; and the
    rules of the policy. The longest line there has this many letters; the pictures of places are shown."""
    code, style = script(SERVED), part("style.css")
    rules = policy(code, style, {"script-src": hash_of(code), "connect-src": "'self'", "worker-src": "'none'"})
    about = about_of(fields, media, image, scored, {"longest": longest, "service": "", **told_of(shown)})
    return whole(fields, media, about, code, rules, {
        **packed_of(shown), "BEGIN": filled(part("begin.html"), {"YOURS": part("yours.html")}), "BAR": " hidden",
        "KEPT": "Each line is kept by this host before its answer is shown: close the page when you like. The address of the page is your "
                "game: whoever has it can go on with it.",
        "PLAIN": 'This page wants JavaScript. <a href="@ADDRESS@">Play without it</a>'}), rules


def told_of(shown):
    """What the script of a page is to know of pictures of places, where there are any."""
    return {"pictures": shown.told()} if shown else {}


def packed_of(shown):
    """The pictures of places as they stand in a page, where there are any."""
    return {"PICTURES": packed(shown.texts())} if shown else {}


def about_of(fields, media, image, scored, more):
    """What the script of a page is to know of its game."""
    return {"title": fields["title"], "digest": hashlib.sha256(image).hexdigest(), "ifid": fields.get("ifid", ""), "hasScore": scored,
            "media": {mark_of(name): value for name, value in media.items() if name != "cover"}, **more}


def whole(fields, media, about, code, rules, values):
    """A page of its parts; what no value is named for is empty."""
    names = ["BEGIN", "BAR", "IMAGE_FROM", "IMAGE", "MODULE_FROM", "MODULE", "PICTURES"]
    return filled(part("index.html"), {
        **dict.fromkeys(names, ""), "LANGUAGE": fields.get("language", "en"), "TITLE": html.escape(fields["title"]), "TOLD": told(fields),
        "STYLE": part("style.css"), "POLICY": html.escape(rules), "FRONT": front(fields, media.get("cover")),
        "ABOUT": json.dumps(about, sort_keys=True).replace("<", "\\u003c"), "SCRIPT": code, **values})


def row(fields, media, address):
    """What a first page says of a game, and where its page is."""
    cover = media.get("cover")
    picture = '<img src="%s" alt="">' % cover["data"] if cover else ""
    rows = [by(fields), fields.get("description")]
    return '<li>%s<a href="%s">%s</a>%s</li>' % (picture, address, html.escape(fields["title"]),
                                                 "".join("<p>%s</p>" % html.escape(row) for row in rows if row))


def by(fields):
    """What a game is, and whose."""
    return ", ".join(part for part in (fields.get("headline"), fields.get("author") and "by " + fields["author"]) if part)


def publishing():
    """The script tools/publish: how it reads an about file, a source and an image, and writes a file."""
    return paws.loaded(os.path.join(paws.TOP, "tools", "publish"))


def of_game(paw, fields, about, image):
    """The page of a game, by the path of its about file."""
    return page(fields, media_of(about), image, has_score(paw, image), shown=pictures_of(os.path.splitext(about)[0], image))
