"""The pages of a host: the first one, and that of each game."""
import html
import os

import common
import page_file
import paws

PUBLISHING = page_file.publishing()
KEPT = ("Each game is kept by this host: go on when you like. Its address is your game, and this browser alone has the list "
        "of yours.")


def about_of(image):
    """What stands of a game in the file beside its image, NAME.about, and its pictures and sounds; without one, no title. And the
    pictures of its places."""
    stem = os.path.splitext(image)[0]
    path, shown = stem + ".about", page_file.pictures_of(stem, paws.bytes_of(image, paws.IMAGE_LIMIT))
    if not os.path.exists(path):
        return {"title": "A game"}, {}, shown
    return PUBLISHING.read_about(path), page_file.media_of(path), shown


class Pages:
    """The pages of a host's games, each with the rules of the browser for it."""

    def __init__(self, games):
        self.games = games
        program = common.program("paw")
        self.served = {game.prefix: self.made(game, program) for game in games}
        self.front = self.front_made()

    def made(self, game, program):
        image = paws.bytes_of(game.image, paws.IMAGE_LIMIT)
        return page_file.served(game.fields, game.media, image, page_file.has_score(program, image), common.LONGEST_LINE, game.pictures)

    def first(self):
        """The first page: the games, and those of this browser."""
        return self.front

    def front_made(self):
        code, style = page_file.part("yours.js") + 'showYours("/");\n', page_file.part("style.css")
        rules = page_file.policy(code, style, {"script-src": page_file.hash_of(code), "worker-src": "'none'"})
        rows = "\n".join(page_file.row(game.fields, game.media, game.prefix + "/") for game in self.games)
        return page_file.filled(page_file.part("first.html"), {
            "TITLE": "Games", "STYLE": style, "SCRIPT": code, "GAMES": rows, "YOURS": page_file.part("yours.html"), "KEPT": KEPT,
            "POLICY": html.escape(rules)}), rules

    def of(self, game, name=None):
        """The page of a game, or of a game in play."""
        page, rules = self.served[game.prefix]
        return page_file.filled(page, {"ADDRESS": "%s/plain" % name if name else "plain"}), rules
