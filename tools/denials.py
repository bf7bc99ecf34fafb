"""Which texts of a game deny each other: by a list of words that do, and by what the author marks in a file beside the game.

A file of marks, NAME.marks beside the game NAME.paws, has a row for each mark; one that begins with ; is a comment:

    never The fire roars | with a furnace without fire      these two in one turn, or in one state
    never The stalk hangs | after You cut the stalk          the first, once the second was shown
    never On the table with it | before You cut the stalk    the first, until the second is shown
    never In my coat | having iron key                       the first, while the thing is had
    never The goat stands | without straw hat                the first, while the thing isn't had
    same sea water waves                                     these words mean one thing
    share Grey, and wet | rocks gulls posts ; small things    one text may answer for each of these words, and why
    pass denies: ... a cold fire ... ; it is painted         a report that is right as it is, and why
    most bare 7 ; they are jokes                             so many reports of a kind are right, and why

In a text ... stands for any text.
"""
import re

import probing

# What can't be said of one thing at one time: each row has two lists of words.
PAIRS = [
    ("open opened ajar unlocked", "shut closed locked bolted barred|holds back"),
    ("burns burning lit alight roars blazes flames|full of light",
     "unlit extinguished|without fire|is out|gone out|went out|no fire|put out|cold"),
    ("turns spins revolves|goes round|in motion",
     "frozen motionless|stands still|hangs in|coat of ice|doesn't move|doesn't turn"),
    ("full|to the brim", "empty dry"),
    ("asleep sleeps snores|fast asleep", "awake|wide awake|has woken|wakes up"),
    ("clean spotless shines|not a speck", "dirty sooty|black with soot"),
    ("hammers works|at work", "idle|looks at his hands|looks at her hands"),
    ("alive", "dead"),
    ("tied", "untied loose"),
]
NOT = {"not", "isn't", "aren't", "wasn't", "no", "never", "hardly", "without", "doesn't", "nor"}
THERE = re.compile(r"\b(there is|there's|there are|lies|lie|hangs|stands on|is in|are in|waits in)\b")


def side_of(words):
    """A pattern for a side of a pair: words, and behind the first stroke phrases."""
    single, *phrases = words.split("|")
    return re.compile(r"\b(?:%s)\b" % "|".join(map(re.escape, single.split() + phrases)))


SIDES = [tuple(map(side_of, pair)) for pair in PAIRS]


def clauses(text):
    """The parts of a text of which each says one thing. What somebody says is left out."""
    told = re.sub(r"(?<!\w)'.*?'(?!\w)", " ", text, flags=re.DOTALL)
    parts = re.split(r"[.;:!?,()\n]|\band\b|\bbut\b|\bthat\b|\bwhich\b|\bwhere\b", told)
    return [part for part in parts if part.strip() and not re.search(r"\b(if|would|could|were)\b", part)]


class Denials:
    """What the texts of a game say of its nouns, and which of these deny each other."""

    def __init__(self, game):
        self.game, self.known = game, {}

    def claims(self, text):
        """What a text says: for each noun and each pair of PAIRS the clauses that are on one side, and on the other."""
        if text not in self.known:
            found = {}
            for clause in clauses(text):
                low = clause.lower()
                words = probing.words_in(low)
                nouns = {word for word in words if self.game.noun(word)}
                for number, sides in enumerate(SIDES):
                    for side, pattern in enumerate(sides):
                        said = pattern.search(low)
                        if said:
                            before = probing.words_in(low[:said.start()])[-2:]
                            turned = 1 - side if NOT & set(before) else side
                            for noun in nouns - {said.group()}:
                                found.setdefault((noun, number), ({}, {}))[turned][clause.strip()] = noun
            self.known[text] = found
        return self.known[text]

    def between(self, texts):
        """Pairs of clauses of some texts that deny each other."""
        merged = {}
        for text in texts:
            for key, sides in self.claims(text).items():
                both = merged.setdefault(key, ({}, {}))
                for mine, more in zip(both, sides):
                    mine.update(more)
        for (noun, _), (one, other) in merged.items():
            if one and other:
                yield noun, next(iter(one)), next(iter(other))


class Row:
    """A row of a file of marks."""

    def __init__(self, text, line):
        self.text, self.line, self.used = text, line, False


def letters_of(words):
    """The letters that count of each word."""
    return {word[:5] for word in words.lower().split()}


def as_pattern(text):
    return re.compile(".*?".join(re.escape(part.strip()) for part in text.split("...")), re.DOTALL)


class Marks:
    """What an author has marked beside a game."""

    WAYS = ("with", "after", "before", "having", "without")

    def __init__(self, path, lines, fault):
        self.path, self.fault = path, fault
        self.never, self.same, self.shared, self.passed, self.most = [], [], [], [], {}
        for number, row in enumerate(lines, 1):
            if row.strip() and not row.startswith(";"):
                self.take(number, row.strip())

    def take(self, number, row):
        word, _, rest = row.partition(" ")
        if word == "never":
            text, mark, other = rest.partition(" | ")
            way, _, other = other.partition(" ")
            if not mark or way not in self.WAYS or not other:
                self.fault("%s:%d: never wants a text, |, one of %s, and another" % (self.path, number, ", ".join(self.WAYS)))
            self.never.append((as_pattern(text), text, way, other, as_pattern(other)))
        elif word == "same" and len(rest.split()) > 1:
            self.same.append(letters_of(rest))
        elif word == "share":
            text, mark, rest = rest.partition(" | ")
            words, why, reason = rest.partition(" ; ")
            if not mark or not why or not reason.strip() or len(words.split()) < 2:
                self.fault("%s:%d: share wants a text, |, words, and behind ; a reason" % (self.path, number))
            self.shared.append((as_pattern(text), letters_of(words), Row("%s | %s" % (text, words), number)))
        elif word in ("pass", "most"):
            told, mark, reason = rest.partition(" ; ")
            kind, _, told = told.partition(": " if word == "pass" else " ")
            if not mark or not reason.strip() or not told or word == "most" and not told.isdigit():
                self.fault("%s:%d: %s wants a kind, what is passed over, and behind ; a reason" % (self.path, number, word))
            if word == "most":
                self.most[kind] = int(told)
            else:
                self.passed.append((kind, as_pattern(told), Row("%s: %s" % (kind, told), number)))
        else:
            self.fault("%s:%d: never, same, share, pass or most is wanted" % (self.path, number))

    def may_share(self, one, other, text):
        """Whether a text may answer for two words."""
        pair = letters_of("%s %s" % (one, other))
        if any(pair <= words for words in self.same):
            return True
        for pattern, words, row in self.shared:
            if pair <= words and pattern.search(text):
                row.used = True
                return True
        return False

    def unused(self):
        """The rows by which no report was passed over."""
        return [row for _, _, row in self.passed + self.shared if not row.used]

    def passes(self, kind, told):
        """Whether a report is passed over."""
        for wanted, pattern, row in self.passed:
            if wanted == kind and pattern.search(told):
                row.used = True
                return True
        return False
