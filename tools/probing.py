"""States of a game that lines lead to, and lines that are tried in each of them, some thousands by one run of the program.

Each try begins in its state by LOAD FOUR, behind one SAVE FOUR; so the game has to be made of games/start.paws. The line is typed
twice, since an end may be asked for once, and then one line looks around.
"""
import os
import re

import paws
import sessions

SEED = "7"
LOOK = "look. i. score"
# Flags that tell of the sentence, of the last turn and of how many turns there were: they make no other state.
PASSING = {*range(31, 37), *range(43, 48), 50, 51, *range(54, 58), 60, 61, *range(240, 254)}


def words_in(text):
    """The words of a text, in small letters; an apostrophe belongs to its word."""
    return re.findall("[a-z]+(?:'[a-z]+)?", text.lower())


class Game:
    """A game: the program, its image and its source, and the texts that tell what an answer is."""

    def __init__(self, paw, image, source):
        self.paw, self.image, self.source = paw, image, source
        self.says = [item.text for item in source.texts["/STX"]]
        self.prompt = self.says[33]
        self.questions = [self.says[number] for number in (12, 13, 16) if self.says[number]]
        self.asked = tuple(text for text in self.questions[1:2])
        self.stops = re.compile("(%s)" % "|".join(map(re.escape, [self.prompt] + self.questions)))
        self.back = self.says[59] + self.says[63] + "\n"
        self.nouns = {word.letters.lower(): word.value for word in source.words if word.kind == "noun" and word.value > 24}
        self.verbs = {word.letters.lower(): word.value for word in source.words
                      if word.kind == "verb" or word.kind == "noun" and word.value < 20}
        self.written = {word.letters.lower(): word.written.lower() for word in source.words}
        self.things = [item.text for item in source.texts["/OTX"]]
        self.noun_of = [thing.noun for thing in source.things]
        self.containers = {thing.number for thing in source.things if "C" in thing.kind}
        self.over = None

    def pattern(self, *numbers):
        """An answer that is one of these system messages, with any thing in its gap."""
        texts = [re.escape(self.says[number]).replace("_", ".+") for number in numbers
                 if number < len(self.says) and self.says[number]]
        return re.compile("(?:%s)" % "|".join(texts or ["(?!)"]))

    def noun(self, word):
        """The value of a noun, by the letters that count, or nothing."""
        return self.nouns.get(word[:5])

    def walk(self, lines):
        return paws.run([self.paw, "walk", self.image, SEED], lines)[1]

    def stopped(self, shown):
        """The texts of what was shown, each with the prompt or the question that stands behind it, and what comes last."""
        if any(question in shown for question in self.questions):
            parts = self.stops.split(shown)
            return list(zip(parts[::2], parts[1::2])), parts[-1]
        *texts, last = shown.split(self.prompt)
        return [(text, self.prompt) for text in texts], last

    def parted(self, shown):
        """The same without the prompts."""
        texts, last = self.stopped(shown)
        return [text for text, _ in texts] + [last]

    def parts(self, lines):
        """What is shown before the first line and behind each, without the prompts."""
        return self.parted(self.walk(lines))

    def is_end(self, text):
        """Whether a text, with the prompt that stands behind it, asks at an end what is to be done."""
        return text.endswith(self.asked) or self.over is not None and self.over in text


class State:
    """Where some lines lead: what was shown on the way, the place, the flags and the places of the things."""

    def __init__(self, game, way, lines, shown):
        self.game, self.way, self.lines = game, way, lines
        self.last = shown[-1] if shown else ""
        self.shown = shown
        self.kept = None

    @property
    def standing(self):
        """What was shown on the way and holds still: LOAD takes back all that was shown since the position was kept."""
        kept, found, (kept_as, loaded) = {}, [], self.game.says[58:60]
        for text in (text.strip("\n") for text in self.shown):
            if text.startswith(kept_as):
                kept[text[len(kept_as):].split("\n")[0]] = list(found)
            elif text.startswith(loaded):
                found = list(kept.get(text[len(loaded):].split("\n")[0], found))
            found.append(text)
        return found

    def keep(self, path):
        """Has the program keep the state; tells whether a line can be typed there."""
        if os.path.exists(path):
            os.remove(path)
        paws.run([self.game.paw, "play", self.game.image, path, SEED], self.lines)
        state = sessions.now(path)
        self.flags, self.places, self.is_open = bytes(state.flags), bytes(state.places), state.prompt == 0
        return self.is_open

    @property
    def mark(self):
        """What makes it another state."""
        return bytes(flag for number, flag in enumerate(self.flags) if number not in PASSING), self.places

    def has(self, number):
        """Whether a thing is carried or worn, or lies in a container that is."""
        place = self.places[number] if number < len(self.game.things) else 252
        return place in (253, 254) or place in self.game.containers and place != number and self.places[place] in (253, 254)


class Try:
    """A line that was tried: the two answers to it, and what was seen then."""

    def __init__(self, line, parts):
        parts = parts + [""] * (4 - len(parts))
        self.line, self.described, self.answer, self.again, self.seen = line, *[part.strip("\n") for part in parts[:4]]
        self.is_whole = len(parts) > 4


def tried(game, state, lines):
    """Each line tried in the state, by one run."""
    typed = list(state.lines) + ["save four"]
    for line in lines:
        typed += ["load four", line, line, LOOK]
    shown = game.walk(typed + ["load four"])[len(game.walk(state.lines)):]
    for line, chunk in zip(lines, shown.split(game.back)[1:]):
        yield Try(line, game.parted(chunk))


class Seen:
    """What one look around shows: the description with its list, what is carried, and the score."""

    def __init__(self, game, text):
        text, _, score = text.partition(game.says[21])
        self.score = re.match(r"\d*", score).group()
        self.described, _, self.carried = text.partition(game.says[9])
        self.described, self.carried = self.described.strip(), self.carried.strip()
        self.place = self.described.split("\n")[0]
        self.told, mark, listed = self.described.partition(game.says[1]) if game.says[1] else (self.described, "", "")
        self.listed = re.split(r", | and |\n", listed.strip().split("\n\n")[0].removesuffix(".")) if mark else []
