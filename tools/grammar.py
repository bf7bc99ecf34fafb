"""The grammar of sources, as docs/LANGUAGE.md has it: what each token stands for, every fault that can be found, and the plain
source of one that has names for numbers."""
import difflib
import re
import unicodedata

import paws
from letters import UNKNOWN, letter_as_plain

TEXT_LIMIT = 4095
HEADERS = paws.HEADERS + ["/PRO"]
# The kind of item of each section of texts, and how many there may be.
TEXTS = {"/STX": ("system message", 256), "/MTX": ("message", 256), "/OTX": ("object", 255), "/LTX": ("location", 252)}
SECTION_OF = {kind: header for header, (kind, _) in TEXTS.items()}
CLASSES = ["verb", "adverb", "noun", "adjective", "preposition", "conjunction", "pronoun"]
CLASS_OF = {"A": "adverb", "B": "noun", "J": "adjective", "R": "preposition"}
# What a name may be declared as in the list /NAMES, and what that is called.
DECLARED = {"flag": "flag", "number": "number", "location": "location", "object": "object", "message": "message",
            "sysmess": "system message", "table": "table"}
KINDS = list(DECLARED.values())
LIMITS = {"words": 2000, "entries": 4000, "condacts": 255}
NAME = re.compile(r"[A-Z][A-Z0-9_]*$")
WORD = re.compile(r"[A-Z0-9]+$")
QUOTED = re.compile(r"'([A-Z0-9]+)'$")
REMARKS = ("#", "//")  # what begins a comment elsewhere
BYTE_ORDER_MARK = b"\xef\xbb\xbf".decode("latin-1")
ALIKE = 0.65  # how like a name has to be for one that is near


def article(noun):
    return ("an " if noun[0] in "aeiou" else "a ") + noun


def listed(names, last="or"):
    return names[0] if len(names) == 1 else "%s %s %s" % (", ".join(names[:-1]), last, names[-1])


def split(text):
    """The lines of a source, without their ends: up to the first byte 0x1A, and nothing behind the last line end."""
    lines = text.split("\x1a")[0].split("\n")
    ends = lines.pop()
    lines = [line[:-1] if line.endswith("\r") else line for line in lines]
    return lines + [ends] if ends else lines


class Token:
    """A token with the columns where it stands, counted from 0."""

    def __init__(self, text, start):
        self.text, self.start, self.end = text, start, start + len(text)
        self.letters = "".join(chr(ord(char) - 32) if "a" <= char <= "z" else char for char in text)

    @property
    def is_number(self):
        return re.match("[0-9]+$", self.text) is not None

    @property
    def number(self):
        digits = self.text.lstrip("0") or "0"
        return int(digits) if len(digits) < 10 else 10 ** 9


def tokens_of(line):
    return [Token(found.group(), found.start()) for found in re.finditer(r"[^ \t]+", line.split(";")[0])]


class Fault:
    """A fault: its line, its kind, the columns of what is wrong, and words on it. A warning has the kind None."""

    def __init__(self, line, kind, start, end, why):
        self.line, self.kind, self.start, self.end, self.why = line, kind, start, end, why


class Name:
    def __init__(self, written, kind, number, line, columns):
        self.written, self.kind, self.number, self.line, self.columns = written, kind, number, line, columns
        self.used = False


class Word:
    def __init__(self, written, line):
        self.written, self.line, self.value, self.kind = written, line, None, None

    def told(self):
        return "%s is the %s %s (line %d)" % (self.written, self.kind, self.value, self.line)


class Stop(Exception):
    """The rest of a line can't be read."""


class Reading:
    """A source that was read: its faults and warnings in the order of lines, and its lines with numbers for names."""

    def __init__(self, text):
        self.text, self.lines = text, split(text)
        self.faults, self.warnings, self.changes = [], [], {}
        self.broken = set()                                    # names whose declaration is faulty
        self.names, self.words, self.counts = {}, {}, dict.fromkeys(TEXTS, 0)
        self.condacts = {row.name: row.kinds for row in paws.condact_rows()}
        self.section, self.due, self.begun = None, 0, {}       # the section, the next header, the lines of those that came
        self.item, self.items, self.length = None, {}, None    # the item, the lines of items, the length of its text
        self.exits, self.rows, self.row_due = {}, {}, 0        # exits of this location, rows of objects
        self.table, self.entries, self.steps = -1, 0, None     # the table, its entries, the condacts of the entry
        self.tables_begun = set()                              # the numbers of the tables above
        self.unsure = set()                                    # kinds of which some may be missing, after an earlier fault
        self.number, self.line, self.muted, self.told_many = 0, "", False, False
        self.is_unknown, self.lost = False, []                 # whether this section is none; missing ones, with the lines around
        self.why_unread = None                                 # why no line can be read
        if len(text) > paws.SOURCE_LIMIT:
            self.fault_of_all("the source has more than the 8,388,608 bytes that are allowed.")
            return
        if self.is_of_another_kind():
            return
        self.slashes = [number for number, line in enumerate(self.lines, 1) if line.startswith("/")]
        self.name_tables()
        for self.number, self.line in enumerate(self.lines, 1):
            self.read_line()
        self.finish()

    def is_of_another_kind(self):
        """Tells of a file whose bytes are no plain text; a byte order mark is passed over then. Gives whether no line can be read."""
        if self.text.startswith(BYTE_ORDER_MARK):
            self.lines[0] = self.lines[0][len(BYTE_ORDER_MARK):]
            self.faults.append(Fault(1, "Text", 0, 1, "the file begins with a byte order mark: save it as UTF-8 without one."))
        elif self.text[:2] in ("\xff\xfe", "\xfe\xff"):
            self.why_unread = "the file is written in UTF-16: save it as UTF-8 or ASCII."
        elif "\r" in self.text and "\n" not in self.text:
            self.why_unread = "lines end with CR alone here: save the file with LF, or CR and LF, behind its lines."
        if self.why_unread:
            self.faults.append(Fault(1, "Text", 0, 1, self.why_unread))
        return bool(self.why_unread)

    # --- What is told ----------------------------------------------------------------------------------------------

    def nearest(self, name, names):
        """The name that is most like this one, or nothing; behind a hundred faults none is looked for, since that takes time."""
        if len(self.faults) >= 100:
            return None
        found = difflib.get_close_matches(name.upper(), list(names), n=1, cutoff=ALIKE)
        return found[0] if found else None

    def fault_of_all(self, why):
        self.faults.append(Fault(0, "TooBig", 0, 0, why))

    def fault(self, kind, token, why):
        """A fault at a token of this line, or where the line ends too early at its end."""
        if not self.muted:
            end = max([other.end for other in tokens_of(self.line)] or [0])
            start, end = (token.start, token.end) if token else (end + 1, end + 2)
            self.faults.append(Fault(self.number, kind, start, end, why))

    def stop(self, kind, token, why):
        self.fault(kind, token, why)
        raise Stop

    def warn(self, line, columns, why):
        self.warnings.append(Fault(line, None, columns[0], columns[1], why))

    def replace(self, token, text):
        """In the plain source other text stands in the token's place."""
        if not self.muted:
            self.changes.setdefault(self.number, []).append((token.start, token.end, text))

    # --- Names -----------------------------------------------------------------------------------------------------

    def name_tables(self):
        """How many tables there are, and their names: a table may be called above the place where it stands."""
        self.tables = 0
        for number in self.slashes:
            tokens = tokens_of(self.lines[number - 1])
            if tokens and tokens[0].letters == "/PRO":
                rest = tokens[1:]
                at = rest[0].number if rest and rest[0].is_number else self.tables
                named = [token for token in rest if not token.is_number][:1]
                if named and len(rest) == (2 if rest[0].is_number else 1) and self.why_no_name(named[0].letters) is None:
                    token = named[0]
                    self.names.setdefault(("table", token.letters),
                                          Name(token.text, "table", at, number, (token.start, token.end)))
                self.tables += 1

    def why_no_name(self, letters):
        """Why these letters can't be a name, or nothing."""
        if not NAME.match(letters):
            return "a name is letters, digits and underscores, and begins with a letter"
        if letters in self.condacts:
            return "%s is a condact; take another name" % letters
        if letters in paws.PLACES or "/" + letters in HEADERS + ["/NAMES"]:
            return "%s means something else already; take another name" % letters
        return None

    def declare(self, fault, token, letters, kind, number, written=None):
        """Takes a name for a number; tells why not, as a fault of the kind given."""
        why = self.why_no_name(letters)
        old = self.names.get((kind, letters))
        if why is None and old and (old.line, old.columns[0]) != (self.number, token.start):
            why = "%s is the name of %s %d already (line %d); take another name" % (old.written, kind, old.number, old.line)
        if why is None:
            if not old:
                self.names[kind, letters] = Name(written or token.text, kind, number, self.number, (token.start, token.end))
            return True
        self.broken.add(letters)
        self.fault(fault, token, why + ".")
        return False

    def named(self, letters, kinds):
        """The names with these letters, of the kinds."""
        return [self.names[kind, letters] for kind in kinds if (kind, letters) in self.names]

    def why_unknown(self, token, kinds):
        """What may be meant by a token that is no number, where a number of these kinds is wanted."""
        others = self.named(token.letters, KINDS)
        if others:
            return "%s is the name of %s %d (line %d)" % (others[0].written, others[0].kind, others[0].number, others[0].line)
        shown = paws.printable(token.text)
        if token.text.startswith('"'):
            return "texts stand in /MTX and the like, and their numbers or names here"
        if not NAME.match(token.letters):
            return "%s is no number" % shown
        why = "nothing has the name %s" % shown if len(kinds) > 1 else "no %s has the name %s" % (kinds[0], shown)
        if token.letters in paws.PLACES:
            return "%s is a place, and no %s" % (token.letters, kinds[0])
        if kinds == ["number"]:
            why = "%s is no number" % shown
        near = self.nearest(token.letters, [letters for kind, letters in self.names if kind in kinds])
        if near:
            name = self.named(near, kinds)[0]
            return why + "; near: %s (%s %d, line %d)" % (name.written, name.kind, name.number, name.line)
        return why

    # --- Numbers and words -----------------------------------------------------------------------------------------

    def take(self, tokens, wanted):
        """The next token of the line."""
        if not tokens:
            self.stop("Missing", None, "%s is missing: the line ends here." % wanted)
        return tokens.pop(0)

    def wants(self, kind):
        """What is wanted where a thing of this kind is, with its bounds."""
        if kind in ("flag", "number"):
            return "%s, 0 to 255," % article(kind)
        count = self.tables if kind == "table" else self.counts[SECTION_OF[kind]]
        if not count:
            return "%s (%s has none)" % (article(kind), SECTION_OF[kind])
        return "%s, 0 to %d," % (article(kind), count - 1) if count > 1 else "%s (0 is the only one)" % article(kind)

    def number_of(self, token, kinds, wanted, least, most, places=(), words=False):
        """The number that a token stands for; names, places and words in quotes are replaced by it."""
        quoted = QUOTED.match(token.letters) if words else None
        if token.is_number:
            number = token.number
        elif token.letters in places:
            return paws.PLACES[token.letters]
        elif quoted:
            word = self.words.get(quoted.group(1)[:5])
            if not word:
                self.fault("Number", token, "no word %s in /VOC above%s." % (quoted.group(1), self.near_word(quoted.group(1))))
                return None
            number = word.value
            if number is None:
                return None
            self.replace(token, str(number))
        else:
            found = self.named(token.letters, kinds)
            if len({name.number for name in found}) > 1:
                self.fault("Number", token, "%s is a name of two things: %s. Write the number, or give one of them another name."
                           % (token.text, listed(["%s %d (line %d)" % (name.kind, name.number, name.line) for name in found],
                                                 "and")))
                return None
            if not found and token.letters in self.broken:
                return None
            if not found:
                self.fault("Number", token, "%s is wanted here; %s." % (wanted, self.why_unknown(token, kinds)))
                return None
            for name in found:
                name.used = True
            number = found[0].number
            self.replace(token, str(number))
        if number < least or most is not None and number > most:
            self.fault("Range", token, "%s is wanted here." % wanted)
            return None
        return number

    def parameter(self, token, letter):
        """The parameter of a condact."""
        if letter in CLASS_OF:
            if token.text != "_":
                self.word_of(token, CLASS_OF[letter])
            return
        if letter == "N":
            self.number_of(token, KINDS, "a number, 0 to 255,", 0, 255, words=True)
            return
        kind = paws.KIND_OF[letter]
        wanted, most = self.wants(kind), 255 if kind == "flag" else self.tables - 1
        if kind in SECTION_OF:
            most = None if kind in self.unsure else self.counts[SECTION_OF[kind]] - 1
        if letter == "P":
            wanted = self.wants_place()
            if token.is_number and 252 <= token.number <= 255:
                return
            if token.letters in paws.PLACES:
                return
        self.number_of(token, [kind], wanted, 0, most)
        if token.text.startswith('"'):
            raise Stop

    def wants_place(self):
        return "a place (%s, NOTCREATED, WORN, CARRIED or HERE)" % self.wants("location").rstrip(",")

    def near_word(self, letters, kind=None):
        """The word most like these letters, where there is one."""
        near = self.nearest(letters, (word.written for word in self.words.values() if kind in (None, word.kind)))
        return "; near: %s (line %d)" % (near, self.words[near[:5]].line) if near else ""

    def word_of(self, token, kind, any_word=""):
        """The value of a word of the class, as a verb of a noun below 20; tells where there is none."""
        wanted = article(kind) + (" (or a noun below 20)" if kind == "verb" else "")
        why = None
        word = self.words.get(token.letters[:5])
        if not WORD.match(token.letters):
            near = self.near_word(token.letters, kind)
            why = "%s is no word%s" % (paws.printable(token.text), near or ": a word is letters and digits")
        elif word is None and token.letters in self.condacts and "/VOC" not in self.unsure:
            why = "no word %s in /VOC; it is a condact" % token.text
            if token.start == 0:
                why += ": a line with more condacts of the entry above begins with a space"
        elif word is None:
            why = "no word %s in /VOC%s" % (token.text, self.near_word(token.letters, kind) or self.near_word(token.letters))
            if "/VOC" in self.unsure:
                return None
        elif word.kind not in (None, kind) and not (kind == "verb" and word.kind == "noun" and (word.value or 0) < 20):
            why = word.told()
        if why is None:
            return word.value
        self.fault("Word", token, "%s%s is wanted here; %s." % (wanted, any_word, why))
        return None

    # --- Lines -----------------------------------------------------------------------------------------------------

    def read_line(self):
        line = self.line
        if line.startswith(";"):
            return
        self.muted = False
        is_text = self.item is not None and self.section in TEXTS and not line.startswith("/")
        bad = re.search("[^ -~]" if is_text else "[^ -~\t]", line)
        if bad:
            end = bad.start() + len(self.character(bad.start()))
            self.faults.append(Fault(self.number, "Text", bad.start(), end, self.why_byte(bad.start())))
            self.muted = True
        try:
            if is_text:
                self.text_line()
            elif line.startswith("/"):
                self.slash_line(tokens_of(line))
            else:
                tokens = tokens_of(line)
                if tokens and not self.is_unknown:
                    self.row(tokens)
        except Stop:
            pass
        if line.startswith(REMARKS) and not is_text:
            self.told_as("A comment begins with ;.")
        elif self.section == "/PRO" and line[:1] in (" ", "\t") and self.looks_like_entry(tokens_of(line)):
            self.told_as("A line that begins with a blank has more of the entry above.")

    def looks_like_entry(self, tokens):
        """Whether two words of the vocabulary, or _, stand first."""
        return len(tokens) > 1 and tokens[0].letters[:5] in self.words and (
            tokens[1].text == "_" or tokens[1].letters[:5] in self.words)

    def told_as(self, why):
        """Of a line that is meant otherwise than it is read one fault is told, and what to know there."""
        here = [fault for fault in self.faults if fault.line == self.number]
        for fault in here[1:]:
            self.faults.remove(fault)
        if here:
            here[0].why += " " + why

    def character(self, at):
        """The bytes at a column that are one character of UTF-8, or one byte."""
        for length in (4, 3, 2):
            try:
                if len(self.line[at:at + length].encode("latin-1").decode("utf-8")) == 1:
                    return self.line[at:at + length]
            except UnicodeDecodeError:
                pass
        return self.line[at]

    def why_byte(self, at):
        """What stands where only plain characters may, and what to write in its place."""
        byte = ord(self.line[at])
        if byte == 9:
            return "a tab may not stand in a text: write spaces."
        if byte < 32 or byte == 127:
            return "a control character (byte 0x%02X) may not stand here: take it out." % byte
        found = self.character(at).encode("latin-1")
        char = found.decode("utf-8") if len(found) > 1 else found.decode("latin-1")
        plain = letter_as_plain(char)
        name = unicodedata.name(char, "").lower()
        return "a source has plain ASCII only, and here is byte 0x%02X%s%s." % (
            byte, " (%s)" % name if name else "", ": write %s" % plain if plain.strip(" " + UNKNOWN) else ": take it out")

    def text_line(self):
        before = self.length
        self.length = len(self.line) if before is None else before + 1 + len(self.line)
        if (before or 0) <= TEXT_LIMIT < self.length and not self.muted:
            start = max(0, len(self.line) - (self.length - TEXT_LIMIT))
            self.faults.append(Fault(self.number, "TooBig", start, start + 1,
                                     "a text has at most 4,095 bytes, and here it passes them: make two texts of it."))

    # --- Lines that begin with / -----------------------------------------------------------------------------------

    def slash_line(self, tokens):
        first, rest = tokens[0] if tokens else Token("/", 0), tokens[1:]
        is_item = re.match("/[0-9]+$", first.letters) is not None
        if first.letters == "/NAMES":
            self.names_header(first, rest)
        elif first.letters in HEADERS:
            self.is_unknown = False
            self.header(first, rest)
        elif self.is_unknown:
            return
        elif is_item or self.may_be_named(first):
            self.item_line(first, rest, is_item)
        else:
            self.no_header(first)

    def names_header(self, first, rest):
        if self.due > 0 or self.section == "/NAMES":
            self.stop("Section", first, "the list of names stands once, before /VOC.")
        self.section = "/NAMES"
        if rest:
            self.fault("Section", rest[0], "nothing may stand behind /NAMES.")
        elif not self.muted:
            self.changes[self.number] = [(0, 0, ";")]

    def header(self, first, rest):
        header, wanted = first.letters, HEADERS[self.due] if self.due < len(HEADERS) else "/PRO"
        at = HEADERS.index(header)
        if header != wanted:
            if header in self.begun:
                self.section = self.item = None
                self.stop("Section", first, "%s began in line %d already; each section stands once." % (header, self.begun[header]))
            missing = HEADERS[self.due:at]
            if not missing:
                self.section = self.item = None
                self.stop("Section", first, "%s is due here: the sections stand in the order %s." % (wanted, " ".join(HEADERS)))
            self.fault("Section", first, "%s is missing above: the sections stand in the order %s.%s" % (
                listed(missing, "and"), " ".join(HEADERS), self.misspelt(missing[0])))
            self.lost.append((missing, max(self.begun.values(), default=0), self.number))
            self.unsure.update(missing)
            self.unsure.update(TEXTS[name][0] for name in missing if name in TEXTS)
        fine = header == wanted
        self.begin(header)
        if header == "/PRO":
            self.table_header(first, rest, fine)
            return
        if rest:
            self.stop("Extra", rest[0], "nothing may stand behind %s." % header)
        if header == "/CON" and not self.counts["/LTX"] and fine and "location" not in self.unsure:
            self.fault("Missing", first, "a game has at least one location: /LTX wants /0 and a text, above.")

    def begin(self, header):
        """The section begins."""
        self.section, self.item, self.items = header, None, {}
        self.due = max(self.due, HEADERS.index(header) + 1)
        if header == "/PRO":
            self.due = len(HEADERS)
        self.begun.setdefault(header, self.number)
        self.exits = {}

    def table_header(self, first, rest, fine):
        due, self.entries, self.steps = self.table + 1, 0, None
        self.table = due
        if not rest:
            self.stop("Missing", None, "/PRO wants the number of its table, here %d." % due)
        name = rest[0] if not rest[0].is_number else rest[1] if len(rest) == 2 else None
        if rest[0].is_number:
            self.tables_begun.add(due - 1)
            self.table = rest[0].number
            if self.table > 255:
                self.table = due
                self.stop("Range", rest[0], "there are at most 256 tables, 0 to 255.")
            if self.table != due:
                came = "; table %d came already" % self.table if self.table in self.tables_begun else ""
                if self.number_of_next_table() == due + 1:
                    self.table = due
                self.stop("Section", rest[0], "table %d is due here: tables count up from 0, without gaps%s." % (due, came))
        if len(rest) > (2 if rest[0].is_number else 1):
            self.stop("Extra" if rest[0].is_number else "Number", rest[1 if rest[0].is_number else 0],
                      "/PRO is followed by a number, a name, or both, and nothing else.")
        if name:
            if rest[0].is_number:
                if self.declare("Extra", name, name.letters, "table", self.table):
                    self.replace(Token(self.line[rest[0].end:name.end], rest[0].end), "")
            elif self.declare("Number", name, name.letters, "table", self.table):
                self.replace(name, str(self.table))
        if self.table == 0 and fine and self.row_due < self.counts["/OTX"] and "object" not in self.unsure:
            self.missing_rows(first)

    def number_of_next_table(self):
        """The number of the next table that has one."""
        for number in self.slashes:
            tokens = tokens_of(self.lines[number - 1])
            if number > self.number and len(tokens) > 1 and tokens[0].letters == "/PRO" and tokens[1].is_number:
                return tokens[1].number
        return None

    def missing_rows(self, first):
        rows = [number for number in range(self.counts["/OTX"]) if number not in self.rows]
        if rows:
            self.fault("Missing", first, "/OBJ wants a row for each text of /OTX, and there is none for object%s %s." % (
                           "" if len(rows) == 1 else "s", listed([str(number) for number in rows[:8]], "and")))

    def may_be_named(self, first):
        """Whether this can be an item that has its name in place of its number."""
        letters = first.letters[1:]
        if not NAME.match(letters):
            return False
        if self.section == "/CON":
            return bool(self.named(letters, ["location"]))
        return self.section in TEXTS and not self.is_misspelt(letters)

    def is_misspelt(self, letters):
        """Whether a name of an item seems to be a misspelt header: it looks like the next one, and that doesn't come below."""
        header = HEADERS[self.due] if self.due < len(HEADERS) else "/PRO"
        if not difflib.get_close_matches(letters, [header[1:]], 1, 0.6):
            return False
        return not self.comes_below(header)

    def comes_below(self, header):
        """Whether a header comes below this line."""
        behind = [tokens_of(self.lines[number - 1])[:1] for number in self.slashes if number > self.number]
        return header in [first[0].letters for first in behind if first]

    def misspelt(self, header):
        """An item's name that may be a misspelt header."""
        kind = TEXTS.get(self.section, (None,))[0]
        near = self.nearest(header[1:], [letters for other, letters in self.names if other == kind])
        if not near:
            return ""
        return " Is it /%s in line %d?" % (near, self.names[kind, near].line)

    def no_header(self, first):
        """A line that begins with / and is neither a header nor an item here."""
        near = self.nearest(first.letters, HEADERS)
        due = HEADERS[self.due] if self.due < len(HEADERS) else "/PRO"
        if self.section == "/CON" and NAME.match(first.letters[1:]) and near is None:
            token = Token(first.text[1:], first.start + 1)
            self.item, self.exits = -1 if self.item is None else self.item, {}
            self.stop("Section", first, "a location is wanted here; %s." % self.why_unknown(token, ["location"]))
        token = paws.printable(first.text)
        if self.section not in TEXTS and self.section != "/CON" and self.comes_below(due):
            self.section, self.item, self.is_unknown = None, None, True
            self.stop("Section", first, "no section has the name %s%s; the next is %s." % (token, "; near: " + near if near else "", due))
        if near:
            self.fault("Section", first, "no section has the name %s; near: %s." % (token, near))
            if near == due and near != "/PRO":
                self.begin(near)
            elif near not in self.begun:
                self.section = self.item = None
            raise Stop
        if self.section in TEXTS:
            self.take_item(self.counts[self.section])
        if self.section in TEXTS or self.section == "/CON":
            self.stop("Section", first, "an item is / and its number%s." % (
                "" if self.section == "/CON" else ", or / and a name of letters, digits and underscores"))
        self.stop("Section", first, "no section has the name %s; the next is %s." % (token, due))

    def item_line(self, first, rest, is_item):
        named = rest[0] if rest else None
        if self.section == "/CON":
            self.location_item(first, rest, is_item)
            return
        if self.section not in TEXTS:
            due = HEADERS[self.due] if self.due < len(HEADERS) else None
            lost = self.section is None and self.begun
            if not lost and rest:
                self.fault("Extra", rest[0], "nothing may stand behind the number of an item here.")
            elif not lost:
                self.fault("Section", first, "an item stands below /STX, /MTX, /OTX, /LTX or /CON.%s" % (
                    " Is %s missing above?" % due if due in TEXTS else ""))
            if due in TEXTS and is_item and not self.comes_below(due):
                self.begin(due)
                self.take_item(Token(first.text[1:], 1).number)
            raise Stop
        kind, limit = TEXTS[self.section]
        count = self.counts[self.section]
        if is_item and len(rest) > 1 or not is_item and rest:
            if is_item:
                self.take_item(Token(first.text[1:], 1).number)
            self.stop("Extra" if is_item else "Section", rest[1 if is_item else 0],
                      "an item has a number, a name, or both, and nothing else; no line of a text begins with /.")
        number = Token(first.text[1:], 1).number if is_item else count
        if is_item and rest and not self.declare("Extra", named, named.letters, kind, number):
            self.take_item(number)
            return
        if not is_item and not self.declare("Section", first, first.letters[1:], kind, number, first.text[1:]):
            self.take_item(number)
            return
        if is_item and rest:
            self.replace(Token(self.line[first.end:named.end], first.end), "")
        if not is_item:
            self.replace(first, "/%d" % number)
        if number != count:
            self.wrong_item(first, number, count, kind)
        elif count == limit:
            self.fault("TooBig", first, "%s has at most %d items." % (self.section, limit))
        self.take_item(number)

    def wrong_item(self, first, number, count, kind):
        """An item that doesn't count on."""
        due = HEADERS[self.due] if self.due < len(HEADERS) else None
        came = self.items.get(number)
        if number == 0 and count and due in TEXTS and not self.comes_below(due):
            self.fault("Range", first, "%s %d is due here: items count up from 0. Is %s missing above?" % (kind, count, due))
            self.begin(due)
        elif number < count and due == "/CON" and not self.comes_below(due):
            self.fault("Range", first, "%s %d is due here: items count up from 0. Is /CON missing above?" % (kind, count))
            self.begin(due)
        elif came:
            self.fault("Range", first, "%s %d came in line %d already, and %d is due here: items count up from 0, without gaps." % (
                kind, number, came, count))
        else:
            self.fault("Range", first, "%s %d is due here: items count up from 0, without gaps.%s" % (
                kind, count, " Is /CON missing above?" if due == "/CON" and not self.comes_below(due) else ""))

    def take_item(self, number):
        if self.section == "/CON":
            self.item = number
            return
        self.item, self.length = number, None
        self.items.setdefault(number, self.number)
        self.counts[self.section] = number + 1

    def location_item(self, first, rest, is_item):
        last, self.exits = self.item, {}
        if rest:
            self.item = -1 if last is None else last
            self.stop("Extra" if is_item else "Section", rest[0], "nothing may stand behind a location of /CON.")
        token = Token(first.text[1:], first.start + 1)
        self.item = -1 if last is None else last
        if is_item:
            number = token.number
        else:
            name = self.named(token.letters, ["location"])[0]
            name.used, number = True, name.number
            self.replace(first, "/%d" % number)
        count = self.counts["/LTX"]
        if number >= count and "location" not in self.unsure:
            self.stop("Range", first, "%s is wanted here." % self.wants("location"))
        if last is not None and number <= last:
            came = self.items.get(number)
            self.stop("Range", first, "locations rise in /CON, and %d came above%s." % (
                last, "; %d has its exits in line %d" % (number, came) if came else ""))
        self.items[number] = self.number
        self.item = number

    # --- Rows ------------------------------------------------------------------------------------------------------

    def row(self, tokens):
        if self.section == "/NAMES":
            self.names_row(list(tokens))
        elif self.section == "/VOC":
            self.word_row(tokens)
        elif self.section == "/CON" and self.item is not None:
            self.exit_row(tokens)
        elif self.section == "/OBJ":
            self.object_row(tokens)
        elif self.section == "/PRO":
            self.entry_row(tokens)
        elif self.section is None and self.begun:
            raise Stop  # the header above was faulty; what stands below it can't be judged
        elif self.section is None:
            self.stop("Section", tokens[0], "a source begins with /VOC; a comment begins with ;.")
        elif self.section == "/CON":
            self.stop("Section", tokens[0], "an exit stands below the location that it leads from, as /0.")
        else:
            self.stop("Section", tokens[0], "a text stands below its number, here /%d." % self.counts[self.section])

    def names_row(self, tokens):
        """A row of the list of names: name, number, kind. What is faulty in it is a line before /VOC for the program."""
        if len(tokens) != 3:
            self.stop("Section", tokens[3] if len(tokens) > 3 else None,
                      "a row of /NAMES is a name, a number and a kind, as: door_open 62 flag.")
        name, number, kind = tokens
        self.broken.update([name.letters, number.letters])
        if kind.text.lower() not in DECLARED:
            near = self.nearest(kind.letters, [other.upper() for other in DECLARED])
            self.stop("Section", kind, "the kind is %s%s." % (listed(list(DECLARED)), "; near: " + near.lower() if near else ""))
        if not number.is_number or number.number > 255:
            self.stop("Section", number, "a number, 0 to 255, is wanted here.")
        kind = DECLARED[kind.text.lower()]
        self.broken.difference_update([name.letters, number.letters])
        if self.declare("Section", name, name.letters, kind, number.number):
            same = [other for other in self.names.values() if other.kind == kind == "flag" and other.number == number.number]
            if len(same) > 1:
                self.warn(self.number, (name.start, name.end), "flag %d has the name %s too (line %d)" % (
                    number.number, same[0].written, same[0].line))
            if not self.muted:
                self.changes[self.number] = [(0, 0, ";")]

    def word_row(self, tokens):
        rest = list(tokens)
        token = rest.pop(0)
        letters = token.letters[:5]
        word, old = Word(token.text.upper(), self.number), self.words.get(letters)
        if not WORD.match(token.letters):
            self.fault("Word", token, "a word is letters and digits.")
        elif not old and len(self.words) < LIMITS["words"]:
            self.words[letters] = word
        value = self.take(rest, "a value, 2 to 254,")
        word.value = self.number_of(value, ["number"], "a value, 2 to 254,", 2, 254, words=True)
        kind = self.take(rest, "a class (%s)" % listed(CLASSES))
        if kind.text.lower() in CLASSES:
            word.kind = kind.text.lower()
        else:
            near = self.nearest(kind.letters, [name.upper() for name in CLASSES])
            self.fault("Word", kind, "the class is %s%s." % (listed(CLASSES), "; near: " + near.lower() if near else ""))
        self.end(rest, "a word has a value and a class, and nothing else")
        if old:
            five = "" if old.written == word.written else ", and five letters count"
            self.fault("Duplicate", token, "%s is declared already: %s%s." % (letters, old.told(), five))
        elif letters not in self.words and WORD.match(token.letters):
            self.fault("TooBig", token, "/VOC has at most 2,000 words.")

    def end(self, rest, why):
        """Nothing may be left over."""
        if rest:
            self.stop("Extra", rest[0], why + ".")

    def exit_row(self, tokens):
        rest = list(tokens)
        token = rest.pop(0)
        value = self.word_of(token, "verb")
        place = self.take(rest, self.wants("location") + " where the exit leads to,")
        most = None if "location" in self.unsure else self.counts["/LTX"] - 1
        self.number_of(place, ["location"], self.wants("location"), 0, most)
        self.end(rest, "an exit has a verb and a location, and nothing else")
        if value is not None and value in self.exits:
            old, line = self.exits[value]
            self.fault("Duplicate", token, "this location has an exit for %s already (line %d)%s." % (
                old, line, "" if old == token.letters else ", and %s is the same verb" % token.letters))
        elif value is not None:
            self.exits[value] = (token.letters, self.number)

    def object_row(self, tokens):
        rest, count = list(tokens), self.counts["/OTX"]
        sure = "object" not in self.unsure
        token = rest.pop(0)
        number = self.number_of(token, ["object"], self.wants("object"), 0, None)
        if number is not None and number != self.row_due and sure:
            self.fault("Range", token, "the row of object %d is due here: rows count up from 0, without gaps." % self.row_due
                       if self.row_due < count else "/OTX has %s." % ("no text" if not count else "the texts of objects 0 to %d" % (
                           count - 1) if count > 1 else "the text of object 0 alone"))
        elif number is not None and number >= count and sure:
            self.fault("Range", token, "/OTX has %s, and a row is wanted for each of its texts alone." % (
                "no text" if not count else "%d text%s" % (count, "" if count == 1 else "s")))
        if number is None:
            number = self.row_due
        self.row_due = number + 1
        self.rows[number] = self.number
        self.first_place(self.take(rest, "a first place"))
        weight = self.take(rest, "a weight, 0 to 63,")
        self.number_of(weight, ["number"], "a weight, 0 to 63,", 0, 63)
        kind = self.take(rest, "a kind (- C W CW)")
        if kind.letters not in ("-", "C", "W", "CW"):
            self.fault("Word", kind, "the kind is - for a plain thing, C for a container, W for what may be worn, or CW for both.")
        for name in ("noun", "adjective"):
            token = self.take(rest, "%s, or _ for none," % article(name))
            if token.text != "_":
                self.word_of(token, name, ", or _ for none,")
        self.end(rest, "a row has a number, a place, a weight, a kind, a noun and an adjective, and nothing else")

    def first_place(self, token):
        wanted = "a first place (%s, NOTCREATED, WORN or CARRIED)" % self.wants("location").rstrip(",")
        if token.letters == "HERE":
            self.fault("Number", token, wanted + " is wanted here; HERE is a place in condacts alone.")
        elif token.letters not in paws.PLACES and not (token.is_number and 252 <= token.number <= 254):
            most = None if "location" in self.unsure and not (token.is_number and token.number > 251) else self.counts["/LTX"] - 1
            self.number_of(token, ["location"], wanted, 0, most)

    def entry_row(self, tokens):
        rest = list(tokens)
        if self.line[0] in " \t":
            if self.steps is None:
                self.stop("Section", rest[0], "more condacts of an entry stand here, since the line begins with a blank; "
                          "but table %d has no entry above." % self.table)
        else:
            self.steps, self.told_many = 0, False
            for kind in ("verb", "noun"):
                token = self.take(rest, "%s, or _ for any," % article(kind))
                if token.text not in "_*":
                    if self.word_of(token, kind, ", or _ for any,") is None and token.start == 0 and token.letters in self.condacts:
                        raise Stop
            self.entries += 1
        self.condacts_of(rest)
        if self.entries == LIMITS["entries"] + 1 and self.line[0] not in " \t":
            self.fault("TooBig", tokens[0], "a table has at most 4,000 entries; call another by PROCESS.")
        if self.steps > LIMITS["condacts"] and not self.told_many:
            self.told_many = True
            self.fault("TooBig", tokens[0], "an entry has at most 255 condacts; make two of it.")

    def condacts_of(self, rest):
        last = None
        while rest:
            token = rest.pop(0)
            if token.letters not in self.condacts:
                self.no_condact(token, last, rest)
            kinds = self.condacts[token.letters]
            for at, letter in enumerate(kinds):
                wanted = self.wanted(letter)
                if rest and letter not in CLASS_OF and self.begins_condact(rest, letter):
                    self.fault("Number", rest[0], "%s is missing behind %s: here the next condact begins." % (wanted, token.letters))
                    break
                if not rest:
                    self.stop("Missing", None, "%s is missing: the line ends here, and a condact stands on one line with its parameters."
                              % wanted)
                if rest[0].text.startswith("@"):
                    self.indirect(token, kinds, at, rest)
                else:
                    self.parameter(rest.pop(0), letter)
            self.steps += 1
            last = token

    def indirect(self, condact, kinds, at, rest):
        """A parameter that begins with @: behind that stands the number or the name of a flag, where it is a first one."""
        token = rest.pop(0)
        if at or not paws.may_be_indirect(condact.letters, kinds):
            why = "%s takes no @" % condact.letters if not at else "@ stands before the first parameter of a condact alone"
            if kinds[at] in CLASS_OF:
                self.fault("Word", token, "%s is wanted here; %s." % (self.wanted(kinds[at]).rstrip(","), why))
            else:
                wanted = self.wants_place() if kinds[at] == "P" else self.wanted(kinds[at])
                self.fault("Number", token, "%s is wanted here; %s." % (wanted, why))
            return
        wanted = "behind @ a flag, 0 to 255,"
        if token.text != "@":
            self.number_of(Token(token.text[1:], token.start + 1), ["flag"], wanted, 0, 255)
            return
        apart = bool(rest) and (rest[0].is_number or bool(self.named(rest[0].letters, ["flag"])))
        self.fault("Number", token, "%s is wanted here%s." % (wanted, ", without a space" if apart else ""))
        if apart:
            rest.pop(0)

    def begins_condact(self, rest, letter):
        """Whether a condact stands where a number is wanted. WORN and CARRIED are places as well: there it depends on what follows."""
        if rest[0].letters not in paws.PLACES:
            return rest[0].letters in self.condacts
        return letter != "P" and rest[0].letters in self.condacts and len(rest) > 1 and rest[1].letters not in self.condacts

    def wanted(self, letter):
        if letter in CLASS_OF:
            return "%s, or _," % article(CLASS_OF[letter])
        return self.wants(paws.KIND_OF.get(letter, "number"))

    def no_condact(self, token, last, rest):
        near = self.nearest(token.letters, self.condacts)
        shown = paws.printable(token.text)
        if last and (token.is_number or self.named(token.letters, KINDS) or token.text in "_*" or token.text[0] == "@"):
            count = len(self.condacts[last.letters])
            self.stop("Condact", token, "a condact is wanted here: %s takes %s, and this is one too many." % (
                last.letters, "no parameter" if not count else "one parameter" if count == 1 else "%d parameters" % count))
        self.stop("Condact", token, "no condact has the name %s%s." % (shown, "; near: " + near if near else ""))

    # --- The end ---------------------------------------------------------------------------------------------------

    def told_once(self):
        """Where a header is missing, the lines that it should stand above are read as others: the first fault among them tells it."""
        for missing, first, last in self.lost:
            here = [fault for fault in self.faults if first < fault.line < last]
            if here:
                here[0].why = "%s %s missing above, so this is read as a line of %s: %s" % (
                    listed(missing, "and"), "is" if len(missing) == 1 else "are", self.lines[first - 1].split()[0].upper(), here[0].why)
                told = [fault for fault in self.faults if fault.line == last and " missing above" in fault.why]
                self.faults = [fault for fault in self.faults if fault not in here[1:] + told]

    def finish(self):
        self.muted = False
        self.told_once()
        if self.table < 2:
            missing = [name for name in HEADERS[self.due:] if name != "/PRO"]
            missing += ["/PRO %d" % number for number in range(self.table + 1, 3)]
            if not (self.faults and self.section is None):
                self.faults.append(Fault(len(self.lines) + 1, "Missing", 0, 0, "the source ends here%s, and %s %s missing." % (
                    ", before its first byte 0x1A" if "\x1a" in self.text else "", listed(missing, "and"),
                    "is" if len(missing) == 1 else "are")))
        for name in self.names.values():
            if not name.used and not re.search(r";.*\bunused\b", self.lines[name.line - 1]):
                self.warn(name.line, name.columns, "the name %s (%s %d) is never used" % (name.written, name.kind, name.number))
        self.warnings.sort(key=lambda warning: warning.line)

    def plain(self):
        """The source with numbers for names, line for line, and as it is where it has none."""
        if not self.changes:
            return self.text
        lines = self.text.split("\n")
        for number, changes in self.changes.items():
            for start, end, text in sorted(changes, reverse=True):
                line = lines[number - 1]
                lines[number - 1] = line[:start] + text + line[end:]
        return "\n".join(lines)


def reading_of(path):
    """The reading of a source in a file; of one that is too long, only as much as tells that."""
    return Reading(paws.beginning_of(path, paws.SOURCE_LIMIT).decode("latin-1"))


# --- What a person sees of it ----------------------------------------------------------------------------------------

MOST = 20      # faults that are shown
WIDTH = 120    # columns of a line that are shown


def marked(line, start, end):
    """The line, and below it marks at these columns; of a long line the part around them."""
    line = paws.printable(line)
    first = max(0, start - WIDTH // 2) if len(line) > WIDTH else 0
    last = first + WIDTH
    part = ("..." if first else "") + line[first:last] + ("..." if last < len(line) else "")
    return [part, " " * (start - first + (3 if first else 0)) + "^" * max(1, min(end, last) - start)]


def told(fault, lines):
    """A fault in words, and above them its line with marks."""
    if fault.line == 0:
        rows = ["(the whole source)"]
    elif fault.line > len(lines):
        rows = ["(at the end of the source)"]
    else:
        rows = marked(lines[fault.line - 1], fault.start, fault.end)
    return ["source line %d: %s" % (fault.line, fault.kind)] + ["  " + row.rstrip() for row in rows] + [
        "%s: %s" % (fault.kind, fault.why)]


def all_told(reading, said=None):
    """The lines that tell all faults of a source; said is what the program says of it, which comes first."""
    faults = sorted(reading.faults, key=lambda fault: fault.line)
    found = re.match(r"source line (\d+): (\w+)", said or "")
    if found and reading.why_unread:
        faults = [Fault(int(found.group(1)), found.group(2), 0, 1, reading.why_unread)]
    elif found and not (faults and (str(faults[0].line), faults[0].kind) == found.groups()):
        number, kind = int(found.group(1)), found.group(2)
        big = kind == "TooBig" and number == len(reading.lines) + 1
        why = "the image would have more than 4,194,304 bytes." if big else "the program refuses this line."
        faults.insert(0, Fault(number, kind, 0, 0, why))
    rows = [row for fault in faults[:MOST] for row in told(fault, reading.lines)]
    return rows + (["and %d more faults" % (len(faults) - MOST)] if len(faults) > MOST else [])
