"""What the scripts here share: the program, what it shows for lines typed, and the parts of a source."""
import argparse
import collections
import errno
import importlib.machinery
import importlib.util
import os
import re
import subprocess
import sys
import traceback

import changes
import output
import signals

TOP = os.path.dirname(os.path.dirname(os.path.abspath(__file__)))
REASONS = os.path.join(TOP, "tools", "reasons")
# How many bytes a file has at most: a source, an image and a session for the program, and a file of lines for the scripts.
SOURCE_LIMIT, IMAGE_LIMIT, SESSION_LIMIT, LINES_LIMIT = 8388608, 4194304, 172288, 8388608
FAULTY = 70  # the status of a script that has a fault of its own
TOO_LONG = "it has more than %s bytes"


def program(named=None):
    """The program to run: the one named, or that of the variable PAW, or that of the package, or the one that ./paw runs."""
    found = named or os.environ.get("PAW")
    installed = os.path.join(TOP, "..", "..", "lib", "paw", "paw")  # seen from share/paw of a package
    if not found and os.path.exists(installed):
        found = installed
    if not found:
        asked = subprocess.run([os.path.join(TOP, "paw"), "--which"], stdout=subprocess.PIPE)
        found = asked.stdout.decode().strip() or sys.exit(asked.returncode)
    if not os.access(found, os.X_OK):
        sys.exit("no program at %s" % found)
    return os.path.abspath(found)


def loaded(path):
    """A script as a module, for what others need of it."""
    loader = importlib.machinery.SourceFileLoader(os.path.basename(path) + "_script", path)
    module = importlib.util.module_from_spec(importlib.util.spec_from_loader(loader.name, loader))
    loader.exec_module(module)
    return module


def commands():
    """The commands, as the table in README has them: of each its name, the names of its words, and what it does."""
    with open(os.path.join(TOP, "README.md"), encoding="utf-8") as file:
        rows = re.findall(r"^\| `paw (\w+)((?: [A-Z]+)*)` \| (.*) \|$", file.read(), re.M)
    return [(name, words.split(), does) for name, words, does in rows]


def run(words, lines=(), seconds=None):
    """Runs the program with the words and the lines typed; gives its status, what it shows, and what it says. Where it may take so
    many seconds at most, and takes more, it is stopped."""
    typed = "".join(line + "\n" for line in lines)
    try:
        done = subprocess.run(words, input=typed.encode("latin-1"), stdout=subprocess.PIPE, stderr=subprocess.PIPE, timeout=seconds)
    except OSError as fault:
        raise OSError(fault.errno, "it can't run on this machine (%s)" % fault.strerror, words[0]) from fault
    return done.returncode, done.stdout.decode("latin-1"), done.stderr.decode("latin-1")


def reason(words, said):
    """Why the program failed, which was called with these words (itself the first) and said this: a sentence without its full stop,
    by what is found of its files. It is empty where nothing is known."""
    if said.strip() in ("outside failed: Show", "outside failed: Ask"):
        return ""  # its output and its input are those that a script gave it
    look = ["sh", "-c", '. "$0"; find_reason "$@"; printf %s "$why"', REASONS, said.strip(), *words]
    found = subprocess.run(look, stdin=subprocess.DEVNULL, stdout=subprocess.PIPE, stderr=subprocess.DEVNULL)
    return found.stdout.decode("utf-8", "replace")


def failure(words, said):
    """What the program said, called with these words, and why it said that, where that is known."""
    why = reason(words, said)
    return said.strip() + ("\n%s." % why if why else "")


def run_script(path, *given, typed=None, **streams):
    """Runs another script, which takes the signals itself, and ends before this one; gives its status, and what it shows where that
    is asked for. What it reads may be given."""
    with signals.held():
        child = subprocess.Popen([sys.executable, path, *given], **streams)
    try:
        shown = child.communicate(typed)[0]
    except KeyboardInterrupt as stopped:
        child.send_signal(stopped.args[0])
        child.wait()
        raise
    return child.returncode, shown


def script(main, is_filtered=True):
    """Runs a script, and ends with its status: quietly where its reader goes away or a signal ends it, with a line of words where a
    file fails. A terminal sees no control characters, unless the script draws on it."""
    sys.exit(signals.status_of(lambda: outcome(main, is_filtered)))


def outcome(main, is_filtered):
    """The status of a script that no signal ends."""
    name = os.path.basename(sys.argv[0])
    try:
        why = output.prepare(is_filtered)
        if why:
            return refusal("%s: %s" % (name, why))
        try:
            status = main()
        except SystemExit as end:
            status = end.code
        sys.stdout.flush()
        return status
    except BrokenPipeError:
        output.give_up()
        return 141
    except OSError as fault:
        output.give_up()
        return refusal("%s: %s: %s" % (name, "the output" if fault.filename is None else fault.filename or "''", fault.strerror))
    except MemoryError:
        return refusal("%s: memory is short" % name)
    except ModuleNotFoundError as fault:
        return refusal("%s wants the module %s, which isn't here; Debian has it as python3-%s" % (name, fault.name, fault.name))
    except subprocess.SubprocessError as fault:
        return refusal("%s: %s" % (name, fault))
    except Exception as fault:
        return own_fault(name, fault)


def own_fault(name, fault):
    """Says where a script has a fault of its own, in a line; gives the status of that."""
    if sys.flags.dev_mode:
        raise fault
    place = traceback.extract_tb(fault.__traceback__)[-1]
    refusal("%s has a fault of its own, in line %d of %s: %s: %s (PYTHONDEVMODE=1 shows more)" %
            (name, place.lineno, os.path.basename(place.filename), type(fault).__name__, fault))
    return FAULTY


def words(told):
    """A reader of a script's words, from what the script tells of itself: what it does, its usage, and the rest for --help."""
    does, usage, rest = told.split("\n\n", 2)
    found = argparse.ArgumentParser(usage=usage[len("usage: "):], description=does + "\n\n" + rest,
                                    formatter_class=argparse.RawDescriptionHelpFormatter)
    found.add_argument("--version", action=changes.Teller, nargs=0, default=argparse.SUPPRESS, help="tell the version")
    return found


def refusal(why):
    """Tells why a script can't do its work; gives its status then."""
    sys.stderr.write(why + "\n")
    return 2


def typed_lines(path):
    """The lines of a file, or those of standard input for -, as soon as each is typed. What is typed is shown again byte by byte."""
    sys.stdout.reconfigure(encoding="latin-1", errors="replace")
    return input_lines() if path == "-" else lines_of(path)


def input_lines():
    """The lines of standard input, as soon as each is typed."""
    left = LINES_LIMIT
    for line in iter(lambda: sys.stdin.buffer.readline(left + 1), b""):
        left -= len(line)
        if left < 0:
            raise OSError(errno.EFBIG, TOO_LONG % format(LINES_LIMIT, ","), "the input")
        yield line.decode("latin-1").rstrip("\r\n")


def pieces(paw, image, lines, seed="7", command="walk"):
    """The text before the first line, and the text that answers each line that was taken.

    What is shown for some lines is the beginning of what is shown for more, so each piece is what one more line
    adds. Also gives the status and the words of the whole walk. Lines behind the end of the game answer nothing.
    With the command "trace" they show what was read, too.
    """
    status, whole, said = run([paw, command, image, seed], lines)
    shown = [run([paw, command, image, seed], lines[:count])[1] for count in range(len(lines))] + [whole]
    parts = [shown[0]]
    for before, after in zip(shown, shown[1:]):
        if not after.startswith(before):
            sys.exit("the text of a longer walk doesn't begin with that of a shorter one")
        parts.append(after[len(before):])
    return parts, status, said


def transcript(parts, lines):
    """The text as a player sees it: each line stands where it was typed."""
    return parts[0] + "".join(line + "\n" + part for line, part in zip(lines, parts[1:]))


def beginning_of(path, most):
    """The first bytes of a file: one more than so many, where it has more."""
    with open(path, "rb") as file:
        return file.read(most + 1)


def bytes_of(path, most):
    """The bytes of a file that a user names, of so many at most: one that has more, or has no end, is refused."""
    data = beginning_of(path, most)
    if len(data) > most:
        raise OSError(errno.EFBIG, TOO_LONG % format(most, ","), path)
    return data


def lines_of(path):
    """The lines of a file."""
    return bytes_of(path, LINES_LIMIT).decode("latin-1").replace("\r\n", "\n").splitlines()


def text_of(path):
    """The bytes of a source as text."""
    return bytes_of(path, SOURCE_LIMIT).decode("latin-1")


def printable(text):
    """A text of a source for a terminal, column by column: no control byte, and nothing that isn't ASCII, reaches it."""
    return "".join(" " if char == "\t" else char if " " <= char <= "~" else "?" for char in text)


# --- The table of condacts, as docs/LANGUAGE.md has it -------------------------------------------------------------

CondactRow = collections.namedtuple("CondactRow", "code name kinds acts does")
INDIRECT = 128                      # in an image, what is added to the code of a condact that takes its first parameter from a flag
NEVER_INDIRECT = ("PROCESS", "DOALL")


def may_be_indirect(name, kinds):
    """Whether the first parameter of a condact may come from a flag: @ and the number of the flag."""
    return bool(kinds) and name not in NEVER_INDIRECT


def condact_rows(path=None):
    """The table of condacts, in the order of their codes: of each its name, the letters of what its parameters name, whether it acts
    (or tests), and what it does."""
    rows, acts = [], False
    with open(path or os.path.join(TOP, "docs", "LANGUAGE.md"), encoding="utf-8") as file:
        for line in file:
            acts = acts or line == "### Actions\n"
            cells = [cell.strip() for cell in line.split("|")]
            if len(cells) == 6 and cells[1].isdigit() and cells[2].isupper() and int(cells[1]) == len(rows):
                rows.append(CondactRow(len(rows), cells[2], cells[3].split(), acts, cells[4]))
    return rows


# --- Sources -------------------------------------------------------------------------------------------------------

class Fault(Exception):
    """A source that these scripts can't read; the program itself names its faults better."""


class Item:
    """A numbered text, with the line of its number and that of each of its rows."""

    def __init__(self, number, line):
        self.number, self.line, self.rows, self.lines = number, line, [], []

    @property
    def text(self):
        return "\n".join(self.rows)


class Word:
    """A word: the letters that count, the value, the class, and as it is written."""

    def __init__(self, written, value, kind, line):
        self.letters, self.value, self.kind, self.line, self.written = written[:5], value, kind, line, written


class Exit:
    def __init__(self, verb, to, line):
        self.verb, self.to, self.line = verb, to, line


class Thing:
    """An object: its place is a number, its words are values, 255 for none."""

    def __init__(self, number, place, weight, kind, noun, adjective, line):
        self.number, self.place, self.weight, self.kind = number, place, weight, kind
        self.noun, self.adjective, self.line = noun, adjective, line


class Step:
    """One condact: its name, its parameters as numbers, whether it acts, and its line. Where the first parameter comes from a flag
    (@), that is the flag, and the first of the values is None; otherwise the flag is None."""

    def __init__(self, name, values, acts, line, flag=None):
        self.name, self.values, self.acts, self.line, self.flag = name, values, acts, line, flag

    def with_first(self, value):
        """The plain condact with this value of its flag."""
        return Step(self.name, [value] + self.values[1:], self.acts, self.line)


class Entry:
    def __init__(self, verb, noun, written, line):
        self.verb, self.noun, self.written, self.line, self.steps = verb, noun, written, line, []


# What a condact does with the flags of its parameters: r looks at it, w sets it, b both.
FLAGS = {"ZERO": "r", "NOTZERO": "r", "EQ": "r", "NOTEQ": "r", "GT": "r", "LT": "r", "SAME": "rr", "NOTSAME": "rr",
         "MOVE": "b", "PRINT": "r", "SET": "w", "CLEAR": "w", "PLUS": "b", "MINUS": "b", "LET": "w", "ADD": "rb",
         "SUB": "rb", "RANDOM": "w", "COPYOF": " w", "COPYFO": "r ", "COPYFF": "rw", "WEIGH": " w", "WEIGHT": "w",
         "EXTERN": " b"}
# The flags that the program leaves alone.
OWN_FLAGS = [*range(11, 30), 39, 40, 41, *range(59, 256)]


def flags_of(step):
    """The flags that a condact names, each with whether it is looked at and whether it is set. The one behind @ is looked at; that
    whose number it holds is None, and may be any."""
    if step.flag is not None:
        yield step.flag, True, False
    for letter, value in zip(FLAGS.get(step.name, ""), step.values):
        if letter != " ":
            yield value, letter in "rb", letter in "wb"


PLACES = {"NOTCREATED": 252, "WORN": 253, "CARRIED": 254, "HERE": 255}
CLASSES = {"A": "adverb", "B": "noun", "J": "adjective", "R": "preposition"}
# What a parameter names, by its letter; all but words may have names of the author's.
KIND_OF = {"L": "location", "P": "location", "O": "object", "F": "flag", "M": "message", "S": "system message", "T": "table"}
HEADERS = ["/VOC", "/STX", "/MTX", "/OTX", "/LTX", "/CON", "/OBJ"]


def reading_of(text):
    """What the grammar makes of a source: the plain source, and the names for numbers."""
    import grammar
    return grammar.Reading(text)


def plain_of(text):
    """The source with numbers for names, line for line: as it is where it has none."""
    return reading_of(text).plain()


def plain_path(path, room):
    """The path of the plain source: that of the source where it has no names, or is too long; or else room, where it is written."""
    text = beginning_of(path, SOURCE_LIMIT).decode("latin-1")
    plain = text if len(text) > SOURCE_LIMIT else plain_of(text)
    if plain == text:
        return path
    with open(room, "w", encoding="latin-1", newline="") as file:
        file.write(plain)
    return room


class Source:
    """The parts of a source, each with the line that it stands in, and the comments by their lines."""

    def __init__(self, path):
        self.path = path
        self.words, self.exits, self.things, self.tables = [], {}, [], []
        self.comments, self.table_lines, self.first_header = {}, [], 0
        self.texts = {"/STX": [], "/MTX": [], "/OTX": [], "/LTX": []}
        self.condacts = {row.name: row for row in condact_rows()}
        self.section, self.place = None, None
        reading = reading_of(text_of(path))
        self.named = {(name.kind, name.number): name.written for name in reversed(reading.names.values())}
        text = reading.plain().split("\x1a")[0].replace("\r\n", "\n")
        lines = text.split("\n")
        self.plain = text  # as it was read, for the compiler
        for number, line in enumerate(lines[:-1] if lines and not lines[-1] else lines, 1):
            self.number = number
            if line.startswith(";"):
                self.comments[number] = line[1:]
            else:
                self.read(line)

    def fault(self, why):
        raise Fault("%s:%d: %s" % (self.path, self.number, why))

    def read(self, line):
        texts = self.texts.get(self.section)
        if texts and not line.startswith("/"):
            texts[-1].rows.append(line)
            texts[-1].lines.append(self.number)
            return
        line, mark, comment = line.partition(";")
        if mark:
            self.comments[self.number] = comment
        tokens = line.upper().split()
        if not tokens:
            return
        if line.startswith("/"):
            self.header(tokens)
        elif self.section == "/VOC":
            self.words.append(Word(tokens[0], self.number_of(tokens[1]), tokens[2].lower(), self.number))
        elif self.section == "/CON":
            row = Exit(self.value(tokens[0], "verb"), self.number_of(tokens[1]), self.number)
            self.exits.setdefault(self.place, []).append(row)
        elif self.section == "/OBJ":
            number, place, weight, kind, noun, adjective = tokens
            self.things.append(Thing(self.number_of(number), self.number_of(place), self.number_of(weight), kind,
                                     self.value(noun, "noun"), self.value(adjective, "adjective"), self.number))
        elif self.section == "/PRO":
            self.entry(line, tokens)
        else:
            self.fault("a line outside the sections")

    def header(self, tokens):
        self.first_header = self.first_header or self.number
        if tokens[0][1:].isdigit():
            number = int(tokens[0][1:])
            if self.section in self.texts:
                self.texts[self.section].append(Item(number, self.number))
            self.place = number
        elif tokens[0] == "/PRO":
            self.section = "/PRO"
            self.tables.append([])
            self.table_lines.append(self.number)
        elif tokens[0] in HEADERS:
            self.section = tokens[0]
        else:
            self.fault("no section of that name")

    def entry(self, line, tokens):
        if line[0] not in " \t":
            verb, noun = self.value(tokens[0], "verb"), self.value(tokens[1], "noun")
            self.tables[-1].append(Entry(verb, noun, " ".join(tokens[:2]), self.number))
            tokens = tokens[2:]
        while tokens:
            name = tokens.pop(0)
            if name not in self.condacts:
                self.fault("no condact of the name " + name)
            condact = self.condacts[name]
            if len(tokens) < len(condact.kinds):
                self.fault(name + " wants more parameters")
            flag = None
            if tokens and tokens[0].startswith("@") and may_be_indirect(name, condact.kinds):
                flag = self.number_of(tokens[0][1:])
            values = [self.parameter(token, kind, flag if at == 0 else None)
                      for at, (token, kind) in enumerate(zip(tokens, condact.kinds))]
            del tokens[:len(values)]
            self.tables[-1][-1].steps.append(Step(name, values, condact.acts, self.number, flag))

    def parameter(self, token, kind, flag):
        """The value of a parameter, or None where it comes from a flag."""
        if flag is not None:
            return None
        return self.value(token, CLASSES[kind]) if kind in CLASSES else self.number_of(token)

    def number_of(self, token):
        if token in PLACES:
            return PLACES[token]
        if not token.isdigit():
            self.fault("no number: " + token)
        return int(token)

    def value(self, token, kind):
        """The value of a word; a noun below 20 stands for a verb. * and _ match any word."""
        if token == "_" or token == "*":
            return 255 if token == "_" else 1
        for word in self.words:
            if word.letters == token[:5] and (word.kind == kind or kind == "verb" and word.kind == "noun"
                                              and word.value < 20):
                return word.value
        self.fault("no %s of the name %s" % (kind, token))

    def name(self, value, kind):
        """The first word with the value, in the order of the source."""
        kinds = [kind, "noun"] if kind == "verb" else [kind]
        for wanted in kinds:
            found = [word.letters for word in self.words if word.value == value and word.kind == wanted]
            if found:
                return found[0]
        return {1: "*", 255: "_"}.get(value, str(value))

    def phrase(self, text):
        """What a player who types this means by the rules: the first noun, its adjective, the second noun; 255 for none."""
        known = {word.letters: word for word in reversed(self.words)}
        nouns, adjective = [], 255
        for token in re.findall("[A-Z0-9]+|[.,;:!?\"]", text.upper()):
            word = known.get(token[:5])
            if not token[0].isalnum() or word and word.kind == "conjunction":
                if nouns:
                    break
            elif word and word.kind == "noun":
                nouns.append(word.value)
            elif word and word.kind == "adjective" and not nouns and adjective == 255:
                adjective = word.value
        return (nouns + [255, 255])[0], adjective, (nouns + [255, 255])[1]

    def told(self, kind, number):
        """The author's name of what has this number, or the number."""
        return self.named.get((kind, number)) or str(number)

    def header_of(self, line):
        """The line of the number of the text that a line belongs to, or the line itself."""
        for items in self.texts.values():
            for item in items:
                if line in item.lines:
                    return item.line
        return line

    def title(self, location):
        """The first line of the location's text."""
        texts = self.texts["/LTX"]
        text = texts[location].text if location < len(texts) else ""
        return text.split("\n")[0].strip()

    def text_of(self, thing):
        texts = self.texts["/OTX"]
        return texts[thing].text if thing < len(texts) else ""

    def steps(self):
        """All condacts, each with the number of its table and its entry."""
        for number, table in enumerate(self.tables):
            for entry in table:
                for step in entry.steps:
                    yield number, entry, step

    def values_of(self, flag):
        """The values that a flag can have, as far as the source alone tells: 0 from the start on, and what LET, SET and CLEAR give it.
        None where another condact, or the program, changes it too."""
        if flag not in OWN_FLAGS:
            return None
        found = {0}
        for _, _, step in self.steps():
            for other, _, sets in flags_of(step):
                if sets and other in (flag, None):
                    if step.flag is not None or step.name not in ("LET", "SET", "CLEAR"):
                        return None
                    found.add({"SET": 255, "CLEAR": 0}.get(step.name, step.values[-1]))
        return found

    def plain_steps(self, step):
        """The plain condacts that a condact can be: itself, or one for each value of its flag that names something. None where the
        values aren't known."""
        if step.flag is None:
            return [step]
        values, kind = self.values_of(step.flag), self.condacts[step.name].kinds[0]
        return None if values is None else [step.with_first(value) for value in sorted(values) if self.is_there(kind, value)]

    def is_there(self, kind, value):
        """Whether the value names something of the kind. Where it doesn't, a condact with it from a flag fails or does nothing."""
        section = {"M": "/MTX", "S": "/STX", "O": "/OTX", "L": "/LTX", "P": "/LTX"}.get(kind)
        return section is None or value < len(self.texts[section]) or kind == "P" and value in PLACES.values()

    def read_or_exit(path):
        try:
            return Source(path)
        except Fault as fault:
            sys.exit(refusal(str(fault)))
        except (ValueError, IndexError) as fault:
            sys.exit(refusal("%s: not read: %s; ./paw compile names the fault" % (path, fault)))


def is_image(path):
    with open(path, "rb") as file:
        return file.read(4) == b"PAWI"


def source_and_image(paw, path, room):
    """A source and its image: the one that was given, and the other made of it."""
    from_image = is_image(path)
    plain, image = os.path.join(room, "source"), os.path.join(room, "image")
    words = [paw, "decompile", path] if from_image else [paw, "compile", plain, image]
    if from_image:
        status, shown, said = run(words)
    else:
        source = Source.read_or_exit(path)
        status, shown, said = 0, source.plain, ""
    with open(plain, "w", encoding="latin-1", newline="") as file:
        file.write(shown)
    if not from_image:
        status, shown, said = run(words)
    if status:
        sys.exit(refusal("%s: %s" % (path, failure(words, said))))
    return (Source.read_or_exit(plain), path) if from_image else (source, image)
