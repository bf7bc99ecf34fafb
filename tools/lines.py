"""The lines of a game in play: a file that only grows, one row for each thing that was done. docs/FORMATS.md has its rows.

A row stands on the disk before what it tells is done. So a game in play is at the last row, or at the one before it.
"""
import contextlib
import os
import re
import zlib

import kept

MOST = 100_000_000  # bytes
LONGEST = 255  # bytes of a line that count
NAME = re.compile(r"[A-Za-z0-9_-]{1,40}")
ROW = re.compile(rb"(\d{1,10}) ([0-9a-f]{8}) (\w+) ([ -~]*)")
BACK = "back"  # the name of the place that was left last by another row than a line
TEXT = re.compile(rb"(?:[ -\[\]-~]|\\x[0-9a-f]{2})*")


class Damaged(Exception):
    """A row that says nothing that could be so."""


class Game:
    """What lines are played over: an image, by its digest, and a seed; or in place of the seed a session that was kept at that row,
    by its digest, where what was typed before isn't known."""

    def __init__(self, digest, seed=None, base=None, row=None):
        self.digest, self.seed, self.base, self.row = digest, seed, base, row


class Place:
    """Where a game is: behind a line, which was typed at another place; without a line it is where the game begins."""

    __slots__ = ("game", "before", "line", "count")

    def __init__(self, game, before=None, line=None):
        self.game, self.before, self.line = game, before, line
        self.count = before.count + 1 if before else 0

    def lines(self):
        """The lines typed from the beginning on."""
        found, place = [], self
        while place.before:
            found.append(place.line)
            place = place.before
        return found[::-1]

    def back(self, count):
        """The place so many lines before, or the beginning where there are fewer."""
        place = self
        while count and place.before:
            place, count = place.before, count - 1
        return place


def written(line):
    """A line as a row has it."""
    return re.sub(rb"[^ -\[\]-~]", lambda byte: b"\\x%02x" % ord(byte[0]), line)


def read(text):
    """The line that a row has."""
    if not TEXT.fullmatch(text):
        raise Damaged
    line = re.sub(rb"\\x(..)", lambda digits: bytes([int(digits[1], 16)]), text)
    if len(line) > LONGEST:
        raise Damaged
    return line


class Lines:
    """The rows of a file, and the places that they tell: the last one is where the game is."""

    def __init__(self, path):
        self.path, self.file, self.fault = path, None, None
        self.places, self.names, self.check, self.length = [], {}, 0, 0
        self.waiting = b""  # rows that couldn't be written yet
        self.is_damaged = False

    @property
    def now(self):
        return self.places[-1] if self.places else None

    @property
    def before(self):
        """Where the game was before the last row."""
        return self.places[-2] if len(self.places) > 1 else None

    # --- reading

    def read(self):
        """Takes what the file has. Its last row may be cut off, and doesn't count then; another one that is wrong is damage, and no
        row from there on counts."""
        data, at = kept.content(self.path, MOST, b""), 0
        while at < len(data):
            end = data.find(b"\n", at)
            if end < 0 or not self.took(data[at:end]):
                self.is_damaged = end >= 0 and end + 1 < len(data)
                break
            at = end + 1
        self.length = at
        return self

    def took(self, row):
        """Takes a row where it is whole, and the next one."""
        parts = ROW.fullmatch(row)
        if not parts or int(parts[1]) != len(self.places) + 1:
            return False
        check = zlib.crc32(b"%s %s %s" % (parts[1], parts[3], parts[4]), self.check)
        if b"%08x" % check != parts[2]:
            return False
        try:
            self.take(parts[3].decode(), parts[4])
        except (Damaged, ValueError, IndexError):
            return False
        self.check = check
        return True

    def take(self, kind, rest):
        """Does what a row tells."""
        now, words = self.now, rest.decode("ascii").split(" ")
        row = len(self.places) + 1
        if kind == "game" and len(words) == 2:
            now = Place(Game(words[0], seed=int(words[1])))
        elif kind == "base" and len(words) == 2:
            now = Place(Game(words[0], base=words[1], row=row))
        elif kind == "line" and now:
            now = Place(now.game, now, read(rest))
        elif kind == "back" and 0 < int(rest) < row:
            now = self.places[int(rest) - 1]
        elif kind == "save" and now and NAME.fullmatch(words[0]) and words[0] != BACK and len(words) == 1:
            self.names[words[0]] = now
        else:
            raise Damaged
        if kind in ("game", "base", "back") and self.now:
            self.names[BACK] = self.now
        self.places.append(now)

    # --- writing

    def take_along(self, *rows):
        """Adds rows, each a kind and its text, that the next write takes along."""
        for kind, rest in rows:
            row = b"%d %s %s" % (len(self.places) + 1, kind.encode(), rest)
            self.take(kind, rest)
            self.check = zlib.crc32(row, self.check)
            number, _, told = row.partition(b" ")
            self.waiting += b"%s %08x %s\n" % (number, self.check, told)

    def add(self, *rows):
        """Adds rows and has them on the disk; where that fails they wait, and the next ones take them along. Gives whether all
        are there."""
        self.take_along(*rows)
        try:
            self.write()
        except OSError as fault:
            self.fault = fault.strerror
        return not self.waiting

    def write(self):
        """Writes what waits, by one write and one sync. What a write left in part, or was cut off in, is taken away."""
        is_new = self.file is None and not os.path.exists(self.path)
        if self.file is None:
            self.file = os.open(self.path, os.O_RDWR | os.O_CREAT | os.O_CLOEXEC, 0o600)
        if os.fstat(self.file).st_size > self.length:
            os.ftruncate(self.file, self.length)
        try:
            data = self.waiting
            while data:  # where only a part had room, the next write says why
                data = data[os.pwrite(self.file, data, self.length + len(self.waiting) - len(data)):]
            os.fsync(self.file)
        except OSError:
            with contextlib.suppress(OSError):
                os.ftruncate(self.file, self.length)
            raise
        if is_new:
            kept.sync_folder(os.path.dirname(self.path))
        self.length += len(self.waiting)
        self.waiting, self.fault = b"", None

    def added(self, *rows):
        """Adds rows where they can be on the disk; otherwise all is as it was. Gives whether they are."""
        places, check, waiting, names = list(self.places), self.check, self.waiting, dict(self.names)
        if self.add(*rows):
            return True
        self.places, self.check, self.waiting, self.names = places, check, waiting, names
        return False

    def row_of(self, place):
        """The number of the last row behind which the game was at a place."""
        return len(self.places) - self.places[::-1].index(place)

    def close(self):
        if self.file is not None:
            os.close(self.file)
            self.file = None
