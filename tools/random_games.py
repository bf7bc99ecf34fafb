"""Sources, lines and damage by chance, for tools/fuzz: each made of one run of random numbers, so a number gives them again.

A source is a small one that is accepted. Most of its tables lead somewhere soon; a few call each other without end or describe a
place anew in the table of descriptions, so that the limits of a piece are met too.
"""
import paws

KINDS = ["verb", "adverb", "noun", "adjective", "preposition", "conjunction", "pronoun"]
LETTERS = "ABCDEFGHIKLMNOPRSTUVWY"
# What a text may have: much that stands in any text, and what the program looks at.
SIGNS = "aeiourstlndh ,.'!?_\"-;/0123@*[](){}~&%"
SYSTEM = 54  # as many system messages as the program says by itself
# What leads back to the description; in table 1 or below it these begin a description within a description.
REDESCRIBES = ("DESC", "RESET", "SAVE", "LOAD")
MOST_DAMAGE = 4  # places that are damaged at once


def chosen(random, values, other):
    """One of the values, or the other where there is none."""
    return random.choice(values) if values else other


class RandomSource:
    """A source by chance. `text` is the source, `spoken` the words that a line may have."""

    def __init__(self, random):
        self.random = random
        self.words = self.some_words()
        self.spoken = list(self.words)
        self.count = {"L": random.randint(1, 5), "O": random.randint(0, 6), "M": random.randint(0, 8), "S": random.choice((3, 9, SYSTEM)),
                      "T": random.randint(3, 7)}
        self.is_wild = random.random() < 0.03
        self.text = "\n".join(self.rows()) + "\n"

    def some_words(self):
        """From a few letters on each: their value and their class. The first are two verbs, two nouns for ways and two for things."""
        firm = [(30, "verb"), (31, "verb"), (2, "noun"), (3, "noun"), (50, "noun"), (60, "noun")]
        rows = firm + [(self.random.randint(2, 254), self.random.choice(KINDS)) for _ in range(self.random.randint(0, 14))]
        found = {}
        for row in rows:
            word = ""
            while not word or word[:5] in {other[:5] for other in found}:
                word = "".join(self.random.choice(LETTERS) for _ in range(self.random.randint(1, 7)))
            found[word] = row
        return found

    def of_class(self, kind):
        return [word for word, row in self.words.items() if row[1] == kind]

    def verbs(self):
        """The words that may stand as the verb of an entry or an exit."""
        return [word for word, (value, kind) in self.words.items() if kind == "verb" or kind == "noun" and value < 20]

    def text_rows(self):
        """The lines of a text, which can't begin with `/` or `;`."""
        rows = ["".join(self.random.choice(SIGNS) for _ in range(self.random.choice((0, 3, 12, 40))))
                for _ in range(self.random.choice((0, 1, 1, 1, 2)))]
        return [row.lstrip("/;") for row in rows]

    def texts(self, header, count):
        yield header
        for number in range(count):
            yield "/%d" % number
            yield from self.text_rows()

    def place(self):
        return self.random.choice([str(self.random.randrange(self.count["L"])), "NOTCREATED", "WORN", "CARRIED"])

    def parameter(self, letter, table):
        """What a parameter may be; nothing where the game has nothing of its kind."""
        if letter in "OMS":
            return str(self.random.randrange(self.count[letter])) if self.count[letter] else None
        if letter == "L":
            return str(self.random.randrange(self.count["L"]))
        if letter == "P":
            return self.random.choice([self.place(), "HERE"])
        if letter == "T":
            called = range(0 if self.is_wild else table + 1, self.count["T"])
            called = [number for number in called if self.is_wild or number > 2]
            return str(self.random.choice(called)) if called else None
        if letter == "F":
            return str(self.random.choice([0, 1, 30, 33, 34, 37, 38, 42, 48, 51, 53, 58, 60, 61, 62, self.random.randrange(256)]))
        if letter == "N":
            return str(self.random.choice([0, 1, 2, 5, 50, 255, self.random.randrange(256)]))
        return chosen(self.random, self.of_class(paws.CLASSES[letter]), "_")

    def condact(self, row, table):
        """A condact as it is written; nothing where a parameter can't be."""
        if row.name in REDESCRIBES and table in self.described and not self.is_wild:
            return None
        given = [self.parameter(letter, table) for letter in row.kinds]
        if given and paws.may_be_indirect(row.name, row.kinds) and self.random.random() < 0.08:
            given[0] = "@" + self.parameter("F", table)
        return None if None in given else " ".join([row.name, *given])

    def entry(self, rows, table):
        verb = self.random.choice([chosen(self.random, self.verbs(), "_"), "_", "*"])
        noun = self.random.choice([chosen(self.random, self.of_class("noun"), "_"), "_", "_"])
        chain = [self.condact(self.random.choice(rows), table) for _ in range(self.random.randint(1, 6))]
        return " ".join([verb, noun, *filter(None, chain)])

    def rows(self):
        random, count = self.random, self.count
        yield "/VOC"
        for word, (value, kind) in self.words.items():
            yield "%s %d %s" % (word, value, kind)
        for header, letter in (("/STX", "S"), ("/MTX", "M"), ("/OTX", "O"), ("/LTX", "L")):
            yield from self.texts(header, count[letter])
        yield "/CON"
        for place in range(count["L"]):
            if random.random() < 0.7:
                yield "/%d" % place
                ways = {self.words[verb][0]: verb for verb in random.sample(self.verbs(), random.randint(0, 2))}
                for verb in ways.values():
                    yield "%s %d" % (verb, random.randrange(count["L"]))
        yield "/OBJ"
        for number in range(count["O"]):
            yield " ".join([str(number), self.place(), str(random.choice((0, 1, 2, 9, 63))), random.choice(("-", "C", "W", "CW")),
                            chosen(random, self.of_class("noun"), "_"), chosen(random, [*self.of_class("adjective"), "_"], "_")])
        every = paws.condact_rows()
        # Tables above 2 may be called by table 1 and table 2, so what describes anew stands in table 0 alone.
        self.described = range(1, count["T"])
        for table in range(count["T"]):
            yield "/PRO %d" % table
            for _ in range(random.randint(0, 8)):
                yield self.entry(every, table)


def line(random, spoken):
    """A line that somebody may type."""
    if random.random() < 0.15:
        return random.choice(["", "~", "Y", "N", "yes", "no", "...", " ", "\t", "x" * 300, "?!", "\x7f\xff"])
    parts = []
    for _ in range(random.randint(1, 5)):
        word = random.choice(spoken) if random.random() < 0.9 else random.choice(["XYZZY", "AND", "42", "it"])
        parts.append(random.choice((word, word.lower(), word + "S")))
        parts.append(random.choice((" ", " ", " ", " ", ". ", ", ", ' "', "; ", "  ")))
    return "".join(parts)


def worse_source(random, source):
    """A source with damage: to its bytes, to its lines or to its tokens, of which one is put in the place of another."""
    if random.random() < 0.3:
        return damaged(random, source)
    lines = source.split(b"\n")
    for _ in range(random.randint(1, 2)):
        at, other = random.randrange(len(lines)), random.randrange(len(lines))
        how = random.randrange(6)
        if how == 0:
            lines.insert(at, lines[other])
        elif how == 1 and len(lines) > 1:
            del lines[at]
        elif how == 2:
            lines[at], lines[other] = lines[other], lines[at]
        else:
            own, given = lines[at].split(b" "), lines[other].split(b" ") + [b"300", b"_", b"*", b"@7", b"DESC", b"/9", b";"]
            place = random.randrange(len(own) + 1)
            own[place:place + random.randrange(2)] = [random.choice(given)]
            lines[at] = b" ".join(own)
    return b"\n".join(lines)


def damaged(random, data, least=0):
    """Bytes with damage at a few places from the least offset on: changed, cut off, left out, put in, or copied from elsewhere."""
    data = bytearray(data)
    for _ in range(random.randint(1, MOST_DAMAGE)):
        at = random.randrange(least, len(data) + 1)
        how = random.randrange(7)
        if how == 0:
            data[at:at] = bytes([random.randrange(256)])
        elif how == 1:
            del data[at:at + random.choice((1, 1, 1, 2, 7))]
        elif how == 2 and random.random() < 0.3:
            del data[at:]
        elif how == 3:
            start = random.randrange(len(data) + 1)
            data[at:at + 4] = data[start:start + 4]
        elif at < len(data):
            data[at] = random.choice((data[at] ^ 1 << random.randrange(8), random.randrange(256), 0, 255, 10, 32))
    return bytes(data)
