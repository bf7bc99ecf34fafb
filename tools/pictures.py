"""The pictures of a game's page: which of them shows the place where the player is.

They lie in a folder NAME.pictures beside the game, with a table of the name table. Each row names a place by its number, flags and
their values where it counts for these alone, a file of the folder, and what is told to who can't see it:

  3 40 1: quay-at-night.svg The quay at night, and one lamp
  3: quay.svg The quay
  dark: dark.svg Nothing but black

The first row that fits counts. A value with a + behind it means this one or more; dark is where nothing is seen. A row that begins
with ; is a comment. A picture is an SVG without
anything in it but what is drawn, so that nothing of it runs and nothing is asked for.
"""
import collections
import json
import os
import re
import xml.parsers.expat

import paws

FOLDER, TABLE = ".pictures", "table"
MOST, MOST_OF_ALL, TABLE_LIMIT = 20_000, 250_000, 100_000  # bytes: of a picture, of those of a game, of a table
ROW = re.compile(r"(dark|[0-9]{1,3})((?: +[0-9]{1,3} +[0-9]{1,3}\+?)*) *: *(\S+)(.*)")
MOST_OF_FLAG = 255
NAME = re.compile(r"[A-Za-z0-9][A-Za-z0-9._-]*\.svg")
SVG = "http://www.w3.org/2000/svg"
DRAWN = set("svg g defs symbol use title desc path rect circle ellipse line polyline polygon text tspan linearGradient radialGradient "
            "stop clipPath mask pattern filter feGaussianBlur feOffset feBlend feFlood feMerge feMergeNode feComposite "
            "feColorMatrix feTurbulence feDisplacementMap".split())
OUTSIDE = re.compile(r"url\((?!#)|(?:image-set|image|src)\(|(?:data|javascript|blob|file):|//|\\", re.IGNORECASE)

# A row of the table: the place, or None in the dark; for flags the flag, and its least and its greatest value; the file; what is
# told of it; its number.
Row = collections.namedtuple("Row", "place flags file tells number")


class Wrong(Exception):
    """What no page can be made with: the file, the line, and why."""


def of(stem, places):
    """The pictures of a game whose files begin so, with so many places; none where it has no such folder."""
    folder = stem + FOLDER
    return Pictures(folder, read(folder, places)) if os.path.isdir(folder) else Pictures(folder, [])


class Pictures:
    """The rows of a table, and the files that they name."""

    def __init__(self, folder, rows):
        self.rows, self.files, whole = rows, {}, 0
        for row in rows:
            if row.file not in self.files:
                where = "%s:%d" % (os.path.join(folder, TABLE), row.number)
                self.files[row.file] = drawn(os.path.join(folder, row.file), where)
                whole += len(self.files[row.file].encode("utf-8"))
                if whole > MOST_OF_ALL:
                    raise Wrong("%s: up to here the pictures have %d bytes, and all may have %d" % (where, whole, MOST_OF_ALL))

    def __bool__(self):
        return bool(self.rows)

    @property
    def flags(self):
        """The flags by which pictures differ."""
        return sorted({flag for row in self.rows for flag, _, _ in row.flags})

    def at(self, place, flags):
        """The number of the row that shows a place, or None for the dark, while flags have these values; None where none does."""
        for number, row in enumerate(self.rows):
            if row.place == place and all(least <= flags[flag] <= most for flag, least, most in row.flags):
                return number
        return None

    def told(self):
        """What the script of a page is to know of the rows; a file by its number."""
        names = list(self.files)
        return [{"place": row.place, "flags": row.flags, "file": names.index(row.file), "tells": row.tells} for row in self.rows]

    def texts(self):
        """The bytes of a JSON text that has the texts of the files."""
        return json.dumps(list(self.files.values())).encode("ascii")


# --- The table -----------------------------------------------------------------------------------------------------

def text_of(path, most):
    """The text of a file in UTF-8, of so many bytes at most."""
    try:
        return paws.bytes_of(path, most).decode("utf-8-sig")
    except UnicodeDecodeError as fault:
        raise Wrong("%s: not UTF-8, at byte %d" % (path, fault.start)) from fault


def read(folder, places):
    """The rows of a table."""
    path, rows = os.path.join(folder, TABLE), []
    if not os.path.isfile(path):
        raise Wrong("%s is missing: it has to say which picture shows which place, as 3: quay.svg The quay" % path)
    for number, line in enumerate(text_of(path, TABLE_LIMIT).split("\n"), 1):
        line = line.strip()
        if line and not line.startswith(";"):
            row = row_of(line, number, places, "%s:%d" % (path, number))
            before = next((other for other in rows if hides(other, row)), None)
            if before:
                raise Wrong("%s:%d: this row never counts: that of line %d fits wherever it does" % (path, number, before.number))
            rows.append(row)
    return rows


def hides(row, later):
    """Whether a row fits wherever a later one does."""
    def is_implied(flag, least, most):
        return any(flag == other and least <= low and high <= most for other, low, high in later.flags)
    return row.place == later.place and all(is_implied(*needed) for needed in row.flags)


def row_of(line, number, places, where):
    """A row of the table, of a game with so many places."""
    if not line.isprintable():
        raise Wrong("%s: a control character stands there" % where)
    found = ROW.fullmatch(line)
    if not found:
        raise Wrong("%s: a row as this is wanted: PLACE FLAG VALUE: FILE.svg SENTENCE; it counts always without FLAG VALUE" % where)
    place, file, tells = found.group(1), found.group(3), found.group(4).strip()
    if place != "dark" and int(place) >= places:
        raise Wrong("%s: the game has no place %s: they go from 0 to %d" % (where, place, places - 1))
    words = found.group(2).split()
    flags = [flag_of(*pair, where) for pair in zip(words[::2], words[1::2])]
    if not NAME.fullmatch(file):
        raise Wrong("%s: a file of this folder is wanted, named by letters and digits, as quay.svg" % where)
    if not tells:
        raise Wrong("%s: behind the file a sentence is wanted, for who can't see the picture" % where)
    return Row(None if place == "dark" else int(place), flags, file, tells, number)


def flag_of(flag, value, where):
    """A flag, and the least and the greatest of its values for which a row counts."""
    least = int(value.rstrip("+"))
    if max(int(flag), least) > MOST_OF_FLAG:
        raise Wrong("%s: flags and their values go from 0 to %d" % (where, MOST_OF_FLAG))
    return int(flag), least, MOST_OF_FLAG if value.endswith("+") else least


# --- The pictures --------------------------------------------------------------------------------------------------

def drawn(path, where):
    """The text of a picture that nothing can run in, and that asks for nothing; the table names it where it is told to."""
    if not os.path.isfile(path):
        raise Wrong("%s: there is no file %s" % (where, path))
    if os.path.getsize(path) > MOST:
        raise Wrong("%s: %s has %d bytes, and may have %d" % (where, path, os.path.getsize(path), MOST))
    text = text_of(path, MOST)
    Checker(path).check(text)
    return text


class Checker:
    """Reads an SVG, and refuses what isn't drawn."""

    def __init__(self, path):
        self.path, self.depth = path, 0
        self.parser = xml.parsers.expat.ParserCreate(namespace_separator=" ")
        self.parser.StartElementHandler, self.parser.EndElementHandler = self.begins, self.ends
        self.parser.XmlDeclHandler = self.declared
        self.parser.StartDoctypeDeclHandler = lambda *_: self.refuse("a document type may not stand there")
        self.parser.ProcessingInstructionHandler = lambda *_: self.refuse("an instruction may not stand there")

    def check(self, text):
        try:
            self.parser.Parse(text, True)
        except xml.parsers.expat.ExpatError as fault:
            raise Wrong("%s:%d: not well formed: %s" % (self.path, fault.lineno, xml.parsers.expat.ErrorString(fault.code))) from fault

    def refuse(self, why):
        raise Wrong("%s:%d: %s" % (self.path, self.parser.CurrentLineNumber, why))

    def declared(self, _, encoding, *__):
        if encoding and encoding.lower() != "utf-8":
            self.refuse("UTF-8 is wanted, and %s is declared" % encoding)

    def begins(self, name, attributes):
        space, _, element = name.rpartition(" ")
        if not self.depth and (name != SVG + " svg" or "viewBox" not in attributes):
            self.refuse('a picture begins with svg, and that has xmlns="%s" and a viewBox' % SVG)
        if space != SVG or element not in DRAWN:
            self.refuse("the element %s may not stand there" % element)
        self.depth += 1
        for key, value in attributes.items():
            self.attribute(key.rpartition(" ")[2], value)

    def attribute(self, name, value):
        if name.lower().startswith("on"):
            self.refuse("the attribute %s may not stand there, since a script stands in it" % name)
        if name == "href" and not value.startswith("#") or OUTSIDE.search(value):
            self.refuse("the attribute %s leads outside" % name)

    def ends(self, _):
        self.depth -= 1
