"""The worked examples of tools/tests/worked: its README has the notation."""
import collections
import glob
import os
import re

import sessions

FOLDER = os.path.join(os.path.dirname(os.path.abspath(__file__)), "worked")
GAMES = "games.files"
ESCAPE = re.compile(rb"\\(\\|x[0-9a-f]{2})")
LINE = re.compile(rb"[^\n]*\n|[^\n]+")
PARTS = ("|", "hex", "times", "from", "start")
OF_COMMAND = ("<", ">", "!", "status")

# A step: its kind, its words, and for a file its parts, for a command what is typed and what has to come of it.
Step = collections.namedtuple("Step", "where kind words rows")


class Unreadable(Exception):
    """A row that has no meaning, and where it stands."""


def text_of(rows):
    """The bytes of the rows of a text."""
    found = b""
    for row in rows:
        data = row.encode("utf-8")
        is_open = re.search(rb"(?<!\\)(?:\\\\)*\\$", data)
        found += ESCAPE.sub(lambda sign: b"\\" if sign[1] == b"\\" else bytes.fromhex(sign[1][1:].decode()),
                            data[:-1] if is_open else data) + (b"" if is_open else b"\n")
    return found


def steps_of(path):
    """The examples of a file: the title of each, and its steps."""
    examples = []
    with open(path, encoding="utf-8") as file:
        for number, row in enumerate(file.read().split("\n"), 1):
            sign, _, rest = row.partition(" ")
            where = "%s:%d" % (os.path.basename(path), number)
            if sign == "==":
                examples.append((rest, []))
            elif sign in PARTS + OF_COMMAND:
                examples[-1][1][-1].rows.append((sign, rest))
            elif row:
                examples[-1][1].append(Step(where, sign, rest.split(" ") if rest else [], []))
    return examples


def bytes_of(words):
    """Bytes by hexadecimal digits, or a number of times the same."""
    return bytes.fromhex(words[2]) * int(words[1]) if words[0] == "times" else bytes.fromhex("".join(words))


def made(step, files):
    """The bytes of the parts below a row."""
    found, text = b"", []
    for sign, rest in step.rows + [("", "")]:
        if sign == "|":
            text.append(rest)
            continue
        found, text, words = found + text_of(text), [], rest.split(" ")
        if sign == "hex":
            found += bytes.fromhex(rest)
        elif sign == "times":
            found += text_of([words[1] + "\\"]) * int(words[0])
        elif sign == "start":
            found += files[words[0]][:int(words[1])]
        elif sign == "from" and len(words) == 1:
            found += files[words[0]]
        elif sign == "from":
            first, last = (int(digits) for digits in words[1].split("-"))
            found += b"".join(LINE.findall(files[words[0]])[first - 1:last])
        elif sign:
            raise Unreadable("%s: %s is no part" % (step.where, sign))
    return found


def rows_under(step, sign):
    """The text under a sign, and none where there is no row with it."""
    rows = [rest for one, rest in step.rows if one == sign]
    return text_of(rows) if rows else None


class Command:
    """A command of an example: its words, what is typed to it, and what has to come of it; none where anything may."""

    def __init__(self, step):
        self.where = step.where
        self.words = [b"" if word == '""' else word.encode("utf-8") for word in step.words]
        self.typed = rows_under(step, "<") or b""
        self.shown, self.said = rows_under(step, ">"), rows_under(step, "!")
        self.status = int((rows_under(step, "status") or b"0").decode())


def games():
    """The files that examples begin with."""
    files = {}
    for _, steps in steps_of(os.path.join(FOLDER, GAMES)):
        for step in steps:
            files[step.words[0]] = made(step, files)
    return files


def examples():
    """All examples: the title of each, and its steps."""
    return [one for path in sorted(glob.glob(os.path.join(FOLDER, "*.examples"))) for one in steps_of(path)]


def changed(value):
    """Another value, near to this one: one byte of it is another."""
    if isinstance(value, int):
        return value ^ 1
    return bytes([value[0] ^ 1]) + value[1:] if value else b"x"


def compared(where, what, wanted, found):
    """What is wrong with what was found, in a list."""
    return ["%s: %s is %.200r, and should be %.200r" % (where, what, found, wanted)] if wanted != found else []


class Held:
    """Expectations that were held against what was found. Each is also held with a byte changed, where it may not fit."""

    def __init__(self):
        self.count, self.blind, self.wrong = 0, 0, []

    def hold(self, where, what, wanted, found):
        """Whether what was found is what was wanted."""
        self.count += 1
        self.wrong += compared(where, what, wanted, found)
        self.blind += not compared(where, what, changed(wanted), found)

    def hold_step(self, step, files):
        """Holds a row that says what a file has to be."""
        name = step.words[0]
        if step.kind == "holds":
            self.hold(step.where, name, made(step, files), files.get(name))
        elif step.kind == "has":
            at, wanted = int(step.words[1]), bytes_of(step.words[2:])
            self.hold(step.where, "%s at %d" % (name, at), wanted, files.get(name, b"")[at:at + len(wanted)])
        elif step.kind == "gone":
            self.hold(step.where, name + " is there", 0, int(name in files))
        elif step.kind == "same":
            states = [sessions.state_of(files[one]) for one in step.words]
            self.hold(step.where, "whether the states are the same", 1, int(states[0].is_same(states[1])))
        else:
            raise Unreadable("%s: %s is no step" % (step.where, step.kind))

    def hold_command(self, command, status, said, shown):
        """Holds what came of a command."""
        self.hold(command.where, "the status", command.status, status)
        for what, wanted, found in (("what is said", command.said, said), ("what is shown", command.shown, shown)):
            if wanted is not None:
                self.hold(command.where, what, wanted, found)
