"""What a game is expected to show: an author's files of tests, and whole texts beside the lines typed."""
import concurrent.futures
import glob
import os
import re
import textwrap

import output
import paws

WIDTH, BEFORE, AFTER = 68, 60, 400  # of a row of a difference; how much of what came is shown before it differs, and behind
ANY = "..."
SEED = "7"
QUESTIONS = (12, 13, 16)  # the system messages behind which an answer is typed


class Unreadable(Exception):
    """A file of tests that can't be read: its place, and why."""


def reading(main):
    """A script that ends with status 2 where a file of tests can't be read."""
    def done():
        try:
            return main()
        except Unreadable as fault:
            return paws.refusal(str(fault))
    return done


def words_of(text):
    """A text with one blank between two words: how it is broken into lines is not compared."""
    return " ".join(text.split())


class Answer:
    """What is wanted behind a line typed, or before the first one (typed is None then)."""

    def __init__(self, typed, line):
        self.typed, self.line = typed, line
        self.wanted, self.unwanted = [], []  # each with its line number

    def difference(self, shown):
        """The first difference of what was shown, or nothing."""
        shown = words_of(shown)
        for line, text in self.unwanted:
            at = shown.find(text)
            if at >= 0:
                return Difference(line, self.typed, "this mustn't come", text, shown, at, at + len(text), "unwanted")
        return self.missing(shown) if self.wanted else None

    def missing(self, shown):
        """The first part of the wanted text that isn't shown, or what is shown behind the last one."""
        parts = parts_of(self.wanted)
        first, last, at = parts[0], parts[-1], len(parts[0].text)
        if not shown.startswith(first.text):
            alike = len(os.path.commonprefix([first.text, shown]))
            why = "another text came" if first is last else "it begins otherwise"
            return Difference(first.line_of(alike), self.typed, why, first.text, shown, alike)
        for part in parts[1:-1]:
            found = shown.find(part.text, at)
            if found < 0:
                return Difference(part.line_of(0), self.typed, "this part is missing", part.text, shown[at:].strip())
            at = found + len(part.text)
        if first is last:
            more = shown[at:]
            return Difference(first.line_of(at), self.typed, "more came than that", first.text, shown, at) if more else None
        if not shown[at:].endswith(last.text):
            return Difference(last.line_of(0), self.typed, "it ends otherwise", last.text, shown[at:].strip())
        return None


class Part:
    """A part of a wanted text, between two places where any text may stand: its rows, each with its line."""

    def __init__(self):
        self.rows = []

    @property
    def text(self):
        return words_of(" ".join(text for _, text in self.rows))

    def line_of(self, at):
        """The line of what stands at a place of the text."""
        for line, text in self.rows:
            at -= len(words_of(text)) + (1 if text.strip() else 0)
            if at < 0:
                break
        return line


def rest_of(row):
    """What stands behind the first word of a row."""
    return row.split(None, 1)[1].strip()


def parts_of(rows):
    """The parts of a wanted text."""
    parts = [Part()]
    for line, text in rows:
        first, *others = text.split(ANY)
        parts[-1].rows.append((line, first))
        for other in others:
            parts.append(Part())
            parts[-1].rows.append((line, other))
    return parts


class Difference:
    """Where something else came: the line of the file, the line typed before, what is wrong, the text of the file that it is about,
    what came, and from where to where that is wrong."""

    def __init__(self, line, typed_line, why, text, came, begin=0, end=None, label="wanted"):
        self.line, self.typed, self.why, self.text, self.came, self.label = line, typed_line, why, text, came, label
        self.begin, self.end = begin, len(came) if end is None else end


class Test:
    """A test of a file: its name, its line, the seed, the test whose lines are typed before its own, and what is wanted of each answer."""

    def __init__(self, path, name, line, seed):
        self.path, self.name, self.line, self.seed = path, name, line, seed
        self.before = None
        self.answers = [Answer(None, line)]

    @property
    def own_lines(self):
        return [answer.typed for answer in self.answers[1:]]

    @property
    def lines_before(self):
        return self.before.lines if self.before else []

    @property
    def lines(self):
        return self.lines_before + self.own_lines

    def own_answers(self, answers):
        """What was shown right before the first line of its own, and behind each."""
        return answers[len(self.lines_before):]

    @property
    def is_open(self):
        """Whether nothing is wanted of it yet."""
        return not any(answer.wanted or answer.unwanted for answer in self.answers)

    def difference(self, shown):
        """The first difference of what was shown before the first line and behind each, or nothing."""
        found = (answer.difference(text) for answer, text in zip(self.answers, shown))
        return next((difference for difference in found if difference), None)


class Reader:
    """Reads a file of tests, row by row."""

    def __init__(self, path):
        self.path, self.tests, self.seed, self.number = path, [], SEED, 0
        for self.number, row in enumerate(paws.lines_of(path), 1):
            if row.strip() and not row.startswith(";"):
                self.row(row.rstrip())
        self.end_of_test()
        if not self.tests:
            self.fault("no test: a line that begins with # and a name begins one")

    def fault(self, why, line=None):
        raise Unreadable("%s:%d: %s" % (self.path, max(1, line or self.number), why))

    def row(self, row):
        mark, rest = row[0], row[1:].strip()
        if mark == "#":
            self.begin(rest)
        elif re.match(r"seed\b", row) and self.is_head(row):
            self.take_seed(row)
        elif self.tests and re.match(r"after\s", row) and not self.tests[-1].own_lines and self.tests[-1].is_open:
            self.begin_after(rest_of(row))
        elif not self.tests:
            self.fault("text above the first test: a line that begins with # and a name begins one")
        elif mark == ">":
            self.tests[-1].answers.append(Answer(row[2:] if row[1:2] == " " else row[1:], self.number))
        elif not row.isascii():
            self.fault("a letter that isn't ASCII, which no game shows")
        elif mark == "!":
            self.refuse(rest)
        else:
            self.tests[-1].answers[-1].wanted.append((self.number, row[1:] if mark == "\\" else row))

    def begin(self, name):
        self.end_of_test()
        if not name:
            self.fault("a test wants a name behind #")
        for test in self.tests:
            if test.name == name:
                self.fault("the test of line %d has this name already" % test.line)
        self.tests.append(Test(self.path, name, self.number, self.seed))

    def end_of_test(self):
        if self.tests and not self.tests[-1].own_lines and self.tests[-1].is_open:
            self.fault("this test has no line typed, and no text that is wanted", self.tests[-1].line)

    def begin_after(self, name):
        """A test begins where one above it ends, with the seed of that."""
        test, found = self.tests[-1], [other for other in self.tests[:-1] if other.name == name]
        if not found:
            self.fault("no test above has the name %s; as a text that is wanted this line has \\ before it" % name)
        test.before, test.seed = found[0], found[0].seed

    def is_head(self, row):
        """Whether no line is typed yet in this test; a seed below one is a fault, and other rows that begin so are text."""
        below = self.tests and self.tests[-1].own_lines
        if below and re.fullmatch(r"seed\s+\d+", row):
            self.fault("a seed stands above the first line typed; as a text that is wanted it has \\ before it")
        return not below

    def take_seed(self, row):
        found = re.fullmatch(r"seed\s+(\d{1,20})", row)
        if not found or int(found.group(1)) >= 1 << 64:
            self.fault("a seed is a number below 2^64, as in: seed 11; a text that is wanted and begins so has \\ before it")
        if self.tests and self.tests[-1].before:
            self.fault("this test has the seed of the one after which it begins")
        if self.tests:
            self.tests[-1].seed = found.group(1)
        else:
            self.seed = found.group(1)

    def refuse(self, text):
        if not text or ANY in text:
            self.fault("behind ! stands the text that mustn't come" + (", without ..." if text else ""))
        self.tests[-1].answers[-1].unwanted.append((self.number, words_of(text)))


def tests_of(paths):
    """The tests of several files."""
    return [test for path in paths for test in Reader(path).tests]


class Game:
    """A game that is played: the program, the image, and the texts with which a player is asked for a line."""

    def __init__(self, paw, image, source):
        self.paw, self.image = paw, image
        texts = [item.text for item in source.texts["/STX"]]
        named = {2} | {step.values[-1] for _, _, step in source.steps()
                       if step.name == "PROMPT" or step.name == "LET" and step.values[0] == 42}
        if None in named:  # a flag tells the prompt
            named = set(range(len(texts)))
        named.discard(0)  # it stands for 2
        self.prompts = [texts[number] + "\n" for number in named if number < len(texts) and texts[number]]
        self.last = texts[33] if len(texts) > 33 else ""
        self.questions = tuple(texts[number] for number in QUESTIONS if number < len(texts) and texts[number])

    def answer(self, part):
        """A text without the prompt at its end."""
        if self.questions and part.endswith(self.questions):
            return part
        if part.endswith(self.last):
            part = part[:len(part) - len(self.last)]
        for prompt in self.prompts:
            if part.endswith(prompt):
                return part[:-len(prompt)]
        return part


def beside(source, ending):
    """The files of a game with this ending: NAME.ending and NAME.WAY.ending."""
    start = os.path.splitext(source)[0]
    found = glob.glob(glob.escape(start) + "." + ending) + glob.glob(glob.escape(start) + ".*." + ending)
    return sorted(path for path in found if os.path.basename(path).split(".")[0] == os.path.basename(start))


def side_by_side(work, items):
    """What the work gives for each item, in their order; as many are done at a time as there are processors."""
    pool = concurrent.futures.ThreadPoolExecutor(max_workers=len(os.sched_getaffinity(0)))
    try:
        yield from pool.map(work, items)
    finally:
        pool.shutdown(cancel_futures=True)


def filled(path, plays):
    """The text of a file of tests, with the answers of some of them put below their lines."""
    added = {}
    for played in plays:
        for answer, shown in zip(played.test.answers[1:], played.answers[1:]):
            added[answer.line] = [("\\" if row[0] in "#>;!\\" or re.match(r"(seed|after)\b", row) else "") + row
                                  for row in map(str.strip, shown.split("\n")) if row]
    rows = []
    for number, row in enumerate(paws.lines_of(path), 1):
        rows += [row] + added.get(number, [])
    return "".join(row + "\n" for row in rows)


class Played:
    """A test that was played: what was shown before the first line and behind each, and what was another, if anything."""

    def __init__(self, game, test):
        self.test = test
        self.parts, status, said = paws.pieces(game.paw, game.image, test.lines, test.seed)
        self.answers = test.own_answers([game.answer(part) for part in self.parts])
        self.why = ended([game.paw, "walk", game.image, test.seed], status, said) if status else None
        self.difference = None if status else test.difference(self.answers)

    @property
    def failed(self):
        return bool(self.why or self.difference)

    def told(self, colours):
        """The rows that tell why it failed."""
        test, found = self.test, self.difference
        yield colours.paint("%s:%d: fails: %s" % (test.path, test.line, paws.printable(test.name)), "1")
        if not found:
            yield "    " + self.why
            return
        where = "before any line" if found.typed is None else "behind > " + paws.printable(found.typed)
        yield "%s:%d: %s: %s" % (test.path, found.line, where, found.why)
        yield from colours.block(found.label, paws.printable(found.text), 0, len(found.text), "32")
        start = max(0, found.begin - BEFORE)
        came = (".. " if start else "") + found.came[start:found.begin + AFTER]
        came += " .." if len(found.came) > found.begin + AFTER else ""
        shift = start - (3 if start else 0)
        yield from colours.block("came", came or "nothing", found.begin - shift, found.end - shift, "31")


class Colours:
    """Colours for a terminal, and none elsewhere."""

    def __init__(self):
        self.shown = output.has_colours()

    def paint(self, text, code):
        return "\33[%sm%s\33[0m" % (code, text) if self.shown and text else text

    def block(self, head, text, begin, end, code):
        """Rows of a text behind a head, with a part of it in colour."""
        at = 0
        for row in textwrap.wrap(text, WIDTH, break_long_words=False, break_on_hyphens=False) or [""]:
            first, last = (min(max(place - at, 0), len(row)) for place in (begin, end))
            yield "    %-10s%s" % (head, row[:first] + self.paint(row[first:last], code) + row[last:])
            at += len(row) + 1
            head = ""


# --- Whole texts -----------------------------------------------------------------------------------------------------

def typed(line):
    return "before any line" if line is None else "after the line '%s'" % line


def whole_difference(parts, lines, wanted):
    """The first place where what was shown isn't what was expected."""
    at = 0
    for number, part in enumerate(parts):
        line = lines[number - 1] if number else None
        for text in ([line + "\n"] if number else []) + [part]:
            if not wanted.startswith(text, at):
                shown = common(text, wanted[at:])
                return "%s came\n    %r\n  where the text has\n    %r" % (typed(line), text[shown:][:200],
                                                                        wanted[at + shown:][:200])
            at += len(text)
    return None if wanted[at:].strip("\n") == "" else "at the end the text has more: %r" % wanted[at:][:200]


def common(one, other):
    """How far both begin alike, up to the last line end before they differ."""
    return one.rfind("\n", 0, len(os.path.commonprefix([one, other]))) + 1


def is_transcript(text, lines, shown):
    """Whether the text is what was shown, with each line put in somewhere, in their order.

    One walk is enough for that. Where it isn't so, the pieces tell the place.
    """
    ends = {0}
    typed_length = 0
    for line in lines:
        found = set()
        for at in ends:
            while True:
                if text.startswith(line + "\n", at):
                    found.add(at + len(line) + 1)
                if at >= len(text) or shown[at - typed_length:at - typed_length + 1] != text[at]:
                    break
                at += 1
        typed_length += len(line) + 1
        ends = found
    return any(text[at:].rstrip("\n") == shown[at - typed_length:].rstrip("\n") for at in ends)


def text_beside(path):
    """The whole text that belongs to a file of lines."""
    return path[:-len(".lines")] + ".text"


def whole_text(paw, image, path, write=False):
    """Plays the lines of a file; gives what differs from the text beside it, or nothing."""
    lines = paws.lines_of(path)
    text = text_beside(path)
    if not write and os.path.exists(text):
        status, shown, said = paws.run([paw, "walk", image, SEED], lines)
        if not status and is_transcript(paws.text_of(text), lines, shown):
            return None
    parts, status, said = paws.pieces(paw, image, lines)
    if status:
        return ended([paw, "walk", image, SEED], status, said)
    if write:
        shown = paws.transcript(parts, lines)
        with open(text, "w", encoding="latin-1", newline="") as file:
            file.write(shown if shown.endswith("\n") else shown + "\n")
    if not os.path.exists(text):
        return "there is no %s" % os.path.basename(text)
    return whole_difference(parts, lines, paws.text_of(text))


def ended(words, status, said):
    return "the walk ends with status %d: %s" % (status, paws.failure(words, said))
