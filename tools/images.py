"""What the bytes of an image hold, as far as front ends ask: docs/FORMATS.md has them."""
import collections
import hashlib

MARK, VERSION = b"PAWI", 1  # how an image begins, and how many bytes its version has
CLASSES = "verb", "adverb", "noun", "adjective", "preposition", "conjunction", "pronoun"
MOST_FOR_VERBS = 19  # a noun up to this value stands for a verb
CONTAINER = 64  # the bit of a thing's weight that says so

Word = collections.namedtuple("Word", "letters value kind")
Thing = collections.namedtuple("Thing", "text noun adjective place weight")
Exit = collections.namedtuple("Exit", "verb to")
Image = collections.namedtuple("Image", "words things places exits")  # of places the texts, of exits those of each place


def digest(data):
    """The name of a game: its sessions have it."""
    return hashlib.sha256(data).hexdigest()


class Bytes:
    """The bytes of an image, from the first to the last."""

    def __init__(self, data):
        self.data, self.at = data, len(MARK) + VERSION

    def take(self, length):
        self.at += length
        return self.data[self.at - length:self.at]

    def number(self, length=2):
        return int.from_bytes(self.take(length), "little")

    def text(self):
        return self.take(self.number()).decode("latin-1")


def read(data):
    """The words, things and places of a valid image."""
    found = Bytes(data)
    words, systems, messages, things, places, _ = (found.number() for _ in range(6))
    words = [Word(found.take(5).decode("ascii").rstrip(" "), found.number(1), CLASSES[found.number(1)]) for _ in range(words)]
    for _ in range(systems + messages):
        found.text()
    things = [Thing(found.text(), *found.take(4)) for _ in range(things)]
    texts = [found.text() for _ in range(places)]
    exits = [[Exit(*found.take(2)) for _ in range(found.number(1))] for _ in range(places)]
    return Image(words, things, texts, exits)


def places(data):
    """The text of each location; of a valid image."""
    return read(data).places


def words_for(image, verb):
    """The words that stand for a verb."""
    return [word.letters for word in image.words if word.value == verb
            and (word.kind == "verb" or word.kind == "noun" and verb <= MOST_FOR_VERBS)]


def title(text):
    """What a place or a thing is called: the first line of its text."""
    return text.strip("\n").partition("\n")[0].strip()
