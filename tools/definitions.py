"""Reads the definitions of crates/*/specs/*.antt as they stand, and makes Python functions of their equations.

Nothing of play is written here. A name is looked up along the `use` lines of its file; constants, and the forms of types that
programs share with definitions, come from crates/*/src. Only words of the standard library and the random words are written out
below, in NATIVE.

A list is a tuple, a record a dict, a form of a type a tuple of its name and its parts, and a function that is handed on a
Function. Each definition becomes one Python function, made when something first needs it. It answers its value, or a Tail, a
call that is still to be made to get it: so the calls of Python don't grow deep, however long a game is.
"""
import itertools
import os
import re

TOP = os.path.dirname(os.path.dirname(os.path.abspath(__file__)))
CRATES = os.path.join(TOP, "crates")


# --- Calls ---------------------------------------------------------------------------------------------------------

class Function:
    """A function that is handed on: how many arguments it wants, what it does, and the arguments that it has already."""

    def __init__(self, wants, body, given=()):
        self.wants, self.body, self.given = wants, body, given


class Tail:
    """A call that is still to be made."""

    def __init__(self, body, given):
        self.body, self.given = body, given


class Later:
    """An argument that is worked out where it is read, for definitions that read one of two."""

    def __init__(self, body):
        self.body = body


def go(body, *given):
    """Calls until there is a value."""
    value = body(*given)
    while type(value) is Tail:
        value = value.body(*value.given)
    return value


def apply(function, *given):
    """Gives a function more arguments: fewer than it wants, as many, or more."""
    given = function.given + given
    if len(given) < function.wants:
        return Function(function.wants, function.body, given)
    if len(given) == function.wants:
        return function.body(*given)
    return apply(go(function.body, *given[:function.wants]), *given[function.wants:])


def call(function, *given):
    return go(apply, function, *given)


def read(argument):
    return argument.body() if type(argument) is Later else argument


# --- Words of the standard library, and the random words -----------------------------------------------------------

NONE = ("None",)


def some(value):
    return ("Some", value)


def find(test, values):
    return next((some(value) for value in values if call(test, value)), NONE)


def position(test, values):
    return next((some(number) for number, value in enumerate(values) if call(test, value)), NONE)


def fold(step, value, values):
    for other in values:
        value = call(step, value, other)
    return value


def compared(compare, one, other):
    """How two lists compare: by the first elements that differ, or by their lengths."""
    orders = (call(compare, *pair) for pair in zip(one, other))
    return next((order for order in orders if order), (len(one) > len(other)) - (len(one) < len(other)))


def split(test, values):
    """The parts of a list between the elements that hold."""
    parts = [()]
    for value in values:
        parts = parts + [()] if call(test, value) else parts[:-1] + [parts[-1] + (value,)]
    return tuple(parts)


def lines(text):
    """The lines of a text: a CR right before the LF that ends a line is no part of it, and after the last LF there is none."""
    *rows, last = bytes(text).split(b"\n")
    return tuple(tuple(row[:-1] if row.endswith(b"\r") else row) for row in rows) + ((tuple(last),) if last else ())


def capital(byte):
    return byte - 32 if 97 <= byte < 123 else byte


def random_word(seed, number, words={}):
    """Word number, counted from 0, of the generator PCG XSH RR 64/32 on stream 0. The words of a seed are kept."""
    factor, mask = 6364136223846793005, 2 ** 64 - 1
    state, row = words.get(seed) or (((seed + 1) * factor + 1) & mask, [])
    while len(row) <= number:
        mixed, turn = ((state >> 18 ^ state) >> 27) & 0xFFFFFFFF, state >> 59
        row.append((mixed >> turn | mixed << (32 - turn)) & 0xFFFFFFFF)
        state = (state * factor + 1) & mask
    words[seed] = state, row
    return row[number]


NATIVE = {
    "length": (1, len),
    "map": (2, lambda step, values: tuple(call(step, value) for value in values)),
    "filter": (2, lambda test, values: tuple(value for value in values if call(test, value))),
    "find": (2, find),
    "lookup": (2, lambda test, rows: next((some(row[1]) for row in rows if call(test, row[0])), NONE)),
    "position": (2, position),
    "fold": (3, fold),
    "concat": (1, lambda lists: sum(lists, ())),
    "flat_map": (2, lambda step, values: sum((call(step, value) for value in values), ())),
    "sum_by": (2, lambda step, values: sum(call(step, value) for value in values)),
    "count_by": (2, lambda test, values: sum(1 for value in values if call(test, value))),
    "list_any": (2, lambda test, values: any(call(test, value) for value in values)),
    "zip": (2, lambda one, other: tuple(zip(one, other))),
    "before_first": (2, lambda test, values: tuple(itertools.takewhile(lambda value: not call(test, value), values))),
    "slice_split": (2, split),
    "lines": (1, lines),
    "is_ascii_digit": (1, lambda byte: 48 <= byte < 58),
    "digits_value": (2, lambda base, digits: int(bytes(digits), base)),
    "list_all": (2, lambda test, values: all(call(test, value) for value in values)),
    "take": (2, lambda count, values: values[:count]),
    "drop": (2, lambda count, values: values[count:]),
    "replicate": (2, lambda count, value: (value,) * count),
    "range_with_len": (2, lambda first, count: tuple(range(first, first + count))),
    "slice_get": (2, lambda values, at: some(values[at]) if at < len(values) else NONE),
    "slice_index": (2, lambda values, at: values[at] if at < len(values) else 0),
    "slice_index_or": (3, lambda values, at, other: values[at] if at < len(values) else other),
    "slice_set": (3, lambda values, at, new: values[:at] + (new,) + values[at + 1:] if at < len(values) else values),
    "option_map": (2, lambda step, option: NONE if option == NONE else some(call(step, option[1]))),
    "option_map_or": (3, lambda step, option, other: other if option == NONE else Tail(apply, (step, option[1]))),
    "option_and_then": (2, lambda step, option: NONE if option == NONE else Tail(apply, (step, option[1]))),
    "option_or": (2, lambda option, other: other if option == NONE else option),
    "option_to_list": (1, lambda option: option[1:]),
    "unwrap_or": (2, lambda option, other: other if option == NONE else option[1]),
    "is_some": (1, lambda option: option != NONE),
    "not": (1, lambda value: not value),
    "min": (2, min),
    "nat_lt": (2, lambda one, other: one < other),
    "nat_le": (2, lambda one, other: one <= other),
    "bit_and": (2, lambda one, other: one & other),
    "bytes_eq": (2, lambda one, other: one == other),
    "codes": (1, lambda text: text),
    "decimal": (1, lambda number: tuple(str(number).encode())),
    "to_ascii_uppercase": (1, capital),
    "is_ascii_alphanumeric": (1, lambda byte: 48 <= byte < 58 or 65 <= capital(byte) < 91),
    "to_le_bytes": (2, lambda width, number: tuple(number.to_bytes(width // 8, "little"))),
    "from_le_bytes": (2, lambda width, data: int.from_bytes(bytes(data), "little")),
    "nat_cmp": (2, lambda one, other: (one > other) - (one < other)),
    "slice_cmp": (3, compared),
    "is_lt": (1, lambda order: order < 0),
    "bound": (2, lambda result, step: Tail(apply, (step, result[1])) if result[0] == "Ok" else result),
    "ok_or": (2, lambda option, fault: ("Err", fault) if option == NONE else ("Ok", option[1])),
    "str_eq_ignore_ascii_case": (2, lambda one, other: tuple(map(capital, one)) == tuple(map(capital, other))),
    "suc": (1, lambda number: number + 1),
    "random_word": (2, random_word),
}
VALUES = {"true": True, "false": False, "zero": 0, "w16": 16, "w64": 64, "tt": ()}
FORMS = {"Some": 1, "None": 0, "Ok": 1, "Err": 1}
WRITTEN_OUT = {("Rattle.paw_world.specs.Draws", "random_word")}


# --- From text to trees --------------------------------------------------------------------------------------------

TOKEN = re.compile(r"""\s+|("(?:[^"\\]|\\.)*"|0x[\dA-F]+|\d[\d_]*|(?<=[\w')])\.[\w']+|[^\W\d][\w']*|\+\+|==|>>=|&&|\|\||[^\s\w])""")
STRENGTH = {">>=": (0, "l"), "||": (1, "l"), "&&": (2, "l"), "==": (3, "n"), "++": (4, "l"), "+": (4, "l"), "-": (4, "l"), "∷": (5, "r"),
            "*": (6, "l"), "/": (6, "l"), "%": (6, "l"), "^": (7, "r")}
ENDS = set(STRENGTH) | {None, ")", "]", "}", ",", ";", ".", "=", "then", "else", "in"}


def with_steps_parted(text):
    """An equation with a semicolon before each step of a `do` but the first: these are the lines that begin where the first one does."""
    rows, margin, is_first = [], None, False
    for row in text.split("\n"):
        begins = len(row) - len(row.lstrip())
        if is_first:
            margin, is_first = begins, False
        elif begins == margin and row[begins:][:1].isalpha():
            row = row[:begins] + "; " + row[begins:]
        is_first = is_first or row.endswith(" do")
        rows.append(row)
    return "\n".join(rows)


class Reader:
    """Reads an equation, `name pattern .. = side`, as trees: tuples that begin with their kind."""

    def __init__(self, text):
        self.tokens, self.at = [token for token in TOKEN.findall(with_steps_parted(text)) if token], 0

    def ahead(self):
        return self.tokens[self.at] if self.at < len(self.tokens) else None

    def next(self, wanted=None):
        token = self.ahead()
        if token is None or wanted not in (None, token):
            raise SyntaxError("%s where %s is wanted: %s" % (token, wanted or "more", " ".join(self.tokens)))
        self.at += 1
        return token

    def until(self, end):
        """The tokens up to this one, which is passed over."""
        start = self.at
        while self.next() != end:
            pass
        return self.tokens[start:self.at - 1]

    def equation(self):
        patterns = []
        self.next()
        while self.ahead() != "=":
            if self.ahead() == "{":
                self.until("}")
            else:
                patterns.append(self.part())
        self.next("=")
        side = self.whole()
        if self.ahead() is not None:
            raise SyntaxError("%s is left over: %s" % (self.ahead(), " ".join(self.tokens)))
        return patterns, side

    def whole(self, strength=0):
        if self.ahead() == "if":
            test, yes = (self.next("if"), self.whole())[1], (self.next("then"), self.whole())[1]
            return "if", test, yes, (self.next("else"), self.whole())[1]
        if self.ahead() == "λ":
            self.next()
            return "function", re.sub(r"\( ([^:]*) :[^)]*\)", r"\1", " ".join(self.until("."))).split(), self.whole()
        if self.ahead() == "let":
            self.next()
            name, value = self.until("=")[0], self.whole()
            return "let", name, value, (self.next("in"), self.whole())[1]
        if self.ahead() == "do":
            self.next()
            return self.steps()
        left = self.applied()
        while self.ahead() in STRENGTH and STRENGTH[self.ahead()][0] >= strength:
            own, side = STRENGTH[self.ahead()]
            left = "joined", self.next(), left, self.whole(own if side == "r" else own + 1)
        return left

    def steps(self):
        """The rest of a `do`: `name ← side` hands what it is on to the steps after it, unless it is a fault."""
        if self.tokens[self.at + 1:self.at + 2] != ["←"]:
            return self.whole()
        name, value, _ = self.next(), (self.next("←"), self.whole())[1], self.next(";")
        return "joined", ">>=", value, ("function", [name], self.steps())

    def applied(self):
        head, given = self.part(), []
        while self.ahead() not in ENDS:
            given.append(self.part())
        return ("applied", head, given) if given else head

    def part(self):
        token = self.next()
        if token == "(":
            parts = [self.whole()]
            while self.ahead() == ",":
                self.next()
                parts.append(self.whole())
            self.next(")")
            tree = ("tuple", parts) if len(parts) > 1 else parts[0]
        elif token == "[":
            self.next("]")
            tree = "list", ()
        elif token == "record":
            tree = "record", None if self.ahead() == "{" else self.part(), self.fields()
        elif token[0] == '"':
            tree = "text", tuple(eval(token).encode())
        elif token[0].isdigit():
            tree = "number", int(token, 0)
        elif token[0].isalpha() or token[0] == "_":
            tree = "name", token
        else:
            raise SyntaxError("%s has no meaning here: %s" % (token, " ".join(self.tokens)))
        while (self.ahead() or "")[:1] == "." and self.ahead() != ".":
            tree = "field", tree, self.next()[1:]
        return tree

    def fields(self):
        found = []
        self.next("{")
        while self.ahead() != "}":
            found.append((self.until("=")[0], self.whole()))
            if self.ahead() == ";":
                self.next()
        self.next("}")
        return found


# --- Files ---------------------------------------------------------------------------------------------------------

class Sources(dict):
    """The text of each crate's programs, without comments."""

    def __missing__(self, crate):
        texts = []
        for folder, _, names in os.walk(os.path.join(CRATES, crate, "src")):
            for name in names:
                if name.endswith(".rt"):
                    with open(os.path.join(folder, name), encoding="utf-8") as file:
                        texts.append(re.sub(r"//[^\n]*", "", file.read()))
        self[crate] = "\n".join(texts)
        return self[crate]


class Constants(dict):
    """The constants of programs. No two have the same name."""

    def __init__(self, sources):
        self.sources = sources

    def __missing__(self, name):
        for crate in sorted(os.listdir(CRATES)):
            found = re.search(r"^pub(?:\(crate\))? const %s: (?:\w+|\[[^]]*\]) = ([^;]+);" % name, self.sources[crate], re.M)
            if found:
                self[name] = eval(re.sub(r" as \w+", "", found.group(1)), {}, self)
                return self[name]
        raise NameError("no constant of the name " + name)


def parts_of(kind):
    """How many parts a form has: three in `(a b : A) (c : C) → T`, two in `A → (B → C) → T`."""
    named = re.findall(r"\(([\w' ]+) : ", kind)
    while not named and "(" in kind:
        kind = re.sub(r"\([^()]*\)", "", kind)
    return sum(len(names.split()) for names in named) if named else kind.count("→")


class Module:
    """A file of definitions: what it imports, its forms, and for each definition the texts of its equations."""

    def __init__(self, path):
        self.path, self.names, self.others, self.forms, self.equations = path, {}, {}, {}, {}
        with open(os.path.join(CRATES, *path.split(".")[1:]) + ".antt", encoding="utf-8") as file:
            text = re.sub(r"(?m)--[^\n]*$", "", file.read())
        for item in re.split(r"\n(?=[^\s}])", text):
            self.take(item)

    def take(self, item):
        head = re.match(r"((?:(?:abbrev|unfoldable|foldable|pub) )*)(use |mod |record |data |)([\w'.]*)", item)
        signed, kind, name = head.groups()
        if kind == "use ":
            self.use(" ".join(item[item.index("use ") + 4:].split()))
        elif kind == "data ":
            rows = re.findall(r"^  (?:pub )?([\w']+) : (.*)$", re.sub(r"\n {4,}", " ", item), re.M)
            self.forms.update((form, parts_of(kind)) for form, kind in rows)
        elif not kind and name:
            self.equations.setdefault(name, []).extend([] if signed else [item])

    def use(self, text):
        path, _, names = text.partition(".{")
        for part in names.rstrip("}").split(",") if names else []:
            name, _, other = part.strip().partition(" as ")
            self.names[other or name] = (path, name)
        if not names:
            path, _, other = text.partition(" as ")
            self.others[other] = path


class Definitions:
    """All definitions, as functions that are made on demand."""

    def __init__(self):
        self.modules, self.made, self.values, self.sources = {}, {}, {}, Sources()
        self.constants = Constants(self.sources)
        self.space = {"native_" + name: body for name, (_, body) in NATIVE.items()}
        self.space.update({"Function": Function, "Tail": Tail, "Later": Later, "go": go, "apply": apply, "read": read,
                           "value_of": self.value_of})

    def get(self, module, name):
        """A Python function for a definition, as for `paw_reading.specs.Turn`, `reading`."""
        _, python, wants, _ = self.found(self.module("Rattle." + module), name)
        return lambda *given: call(Function(wants, self.space[python]), *given)

    def module(self, path):
        if path not in self.modules:
            self.modules[path] = Module(path)
        return self.modules[path]

    def value_of(self, python):
        """The value of a definition without arguments."""
        if python not in self.values:
            self.values[python] = go(self.space[python])
        return self.values[python]

    def found(self, module, name):
        """What a name means in a file: its kind, its Python, how many arguments it wants, and which of them are read later."""
        if name in module.forms:
            return "form", name, module.forms[name], ()
        if module.equations.get(name) and (module.path, name) not in WRITTEN_OUT:
            return self.definition(module, name)
        if name in module.names:
            return self.imported(*module.names[name])
        return self.native(module.path, name)

    def imported(self, path, name):
        if path.startswith(("Rattle.std.", "Rattle.core.")):
            return self.native(path, name)
        if path.endswith(".TheConstants"):
            return "value", repr(self.constants[name]), 0, ()
        if path.endswith(".TheVariants"):
            forms = re.search(r"enum %s \{(.*?)^\}" % path.split(".")[-2], self.sources[path.split(".")[1]], re.M | re.S)
            parts = re.search(r"\b%s\b(?:\(([^)]*)\)| \{([^}]*)\})?" % name, forms.group(1))
            parts = (parts.group(1) or parts.group(2) or "").strip().rstrip(",")
            return "form", name, len([part for part in parts.split(",") if part.strip()]), ()
        return self.found(self.module(path), name)

    def native(self, path, name):
        if name in FORMS:
            return "form", name, FORMS[name], ()
        if name in VALUES:
            return "value", repr(VALUES[name]), 0, ()
        if name not in NATIVE:
            raise NameError("%s: %s isn't written in tools/definitions.py" % (path, name))
        return "call", "native_" + name, NATIVE[name][0], ()

    def definition(self, module, name):
        key = module.path, name
        if key not in self.made:
            trees = [Reader(text).equation() for text in module.equations[name]]
            python = "made%d_%s" % (len(self.made), name.replace("'", "_"))
            self.made[key] = "call", python, len(trees[0][0]), later_of(trees)
            self.make(module, python, trees, self.made[key][3])
        return self.made[key]

    def make(self, module, python, trees, later):
        text = Maker(self, module, later).text(python, trees)
        exec(compile(text, "<%s %s>" % (module.path, python), "exec"), self.space)

    def put(self, module, name, texts):
        """Puts other equations in the place of a definition's."""
        module.equations[name] = texts
        _, python, _, later = self.definition(module, name)
        self.make(module, python, [Reader(text).equation() for text in texts], later)
        self.values.clear()


# --- From trees to Python ------------------------------------------------------------------------------------------

def later_of(trees):
    """Which arguments a definition of one equation reads in a branch and nowhere else, as x in `if test then x else y`."""
    patterns, side = trees[0]
    text, branches = repr(side), []
    while len(trees) == 1 and side[0] == "if":
        branches, side = branches + [side[2]], side[3]
    branches += [side] if branches else []
    return {at for at, pattern in enumerate(patterns)
            if pattern[0] == "name" and 0 < branches.count(pattern) == text.count(repr(pattern))}


class Maker:
    """Makes the Python text of one definition."""

    def __init__(self, definitions, module, later):
        self.all, self.module, self.later = definitions, module, ["given%d" % at for at in later]
        self.lines, self.count = [], 0

    def text(self, python, trees):
        given = ["given%d" % at for at in range(len(trees[0][0]))]
        self.say(0, "def %s(%s):" % (python, ", ".join(given)))
        for patterns, side in trees:
            names, depth = {}, 1
            for pattern, value in zip(patterns, given):
                depth = self.match(pattern, value, names, depth)
            self.answer(side, names, depth)
        self.say(1, "raise ValueError('no equation of %s fits')" % python)
        return "\n".join(self.lines)

    def say(self, depth, text):
        self.lines.append("    " * depth + text)

    def fresh(self):
        self.count += 1
        return "own%d" % self.count

    def held(self, text, depth):
        name = self.fresh()
        self.say(depth, "%s = %s" % (name, text))
        return name

    def match(self, pattern, value, names, depth):
        """Says the tests of a pattern, and notes its names; gives the depth at which it goes on."""
        head, parts = (pattern[1], pattern[2]) if pattern[0] == "applied" else (pattern, [])
        test, inner = None, []
        if head[0] == "list":
            test = "not " + value
        elif head[0] == "number":
            test = "%s == %d" % (value, head[1])
        elif head[0] == "joined":
            test, inner = value, [(head[2], value + "[0]"), (head[3], value + "[1:]")]
        elif head[0] == "tuple":
            inner = [(part, "%s[%d]" % (value, at)) for at, part in enumerate(head[1])]
        elif head == ("name", "suc"):
            test, inner = value, [(parts[0], value + " - 1")]
        elif head[0] == "field" or head[1][0].isupper() or head[1] in VALUES:
            kind, python, _, _ = self.meaning(head, {})
            test = "%s == %s" % (value, python) if kind == "value" else "%s[0] == %r" % (value, python)
            inner = [(part, "%s[%d]" % (value, at + 1)) for at, part in enumerate(parts)]
        else:
            names[head[1]] = value
        if test:
            self.say(depth, "if %s:" % test)
            depth += 1
        for part, text in inner:
            depth = self.match(part, self.held(text, depth), names, depth)
        return depth

    def answer(self, tree, names, depth):
        """Says what answers. Each branch returns, so no `else` is needed."""
        if tree[0] == "if":
            self.say(depth, "if %s:" % self.value(tree[1], names))
            self.answer(tree[2], names, depth + 1)
            self.answer(tree[3], names, depth)
        elif tree[0] == "let":
            own = self.held(self.value(tree[2], names), depth)
            self.answer(tree[3], dict(names, **{tree[1]: own}), depth)
        else:
            self.say(depth, "return " + self.value(tree, names, True))

    def meaning(self, tree, names):
        """What a name means that is no name of the equation's own; nothing for other trees."""
        if tree[0] == "name" and tree[1] not in names:
            return self.all.found(self.module, tree[1])
        if tree[0] == "field" and tree[1][0] == "name" and tree[1][1] not in names and tree[1][1] in self.module.others:
            return self.all.imported(self.module.others[tree[1][1]], tree[2])
        return None

    def called(self, body, given, last):
        return ("Tail(%s, (%s,))" if last else "go(%s, %s)") % (body, ", ".join(given))

    def value(self, tree, names, last=False):
        """The Python of a tree. Where it is the last that is done it may be a Tail."""
        meaning = self.meaning(tree, names)
        if meaning:
            return self.word(*meaning[:3])
        if tree[0] in ("number", "text", "list"):
            return repr(tree[1])
        return getattr(self, "of_" + tree[0])(names, last, *tree[1:])

    def word(self, kind, python, wants):
        if kind == "value":
            return python
        if kind == "form":
            return "(%r,)" % python if wants == 0 else "Function(%d, lambda *parts: (%r,) + parts)" % (wants, python)
        return "value_of(%r)" % python if wants == 0 else "Function(%d, %s)" % (wants, python)

    def of_name(self, names, last, name):
        return self.called("read", [names[name]], last) if names[name] in self.later else names[name]

    def of_tuple(self, names, last, parts):
        return "(%s,)" % ", ".join(self.value(part, names) for part in parts)

    def of_field(self, names, last, tree, name):
        return "%s[%s]" % (self.value(tree, names), name if name.isdigit() else repr(name))

    def of_record(self, names, last, old, fields):
        parts = ["**" + self.value(old, names)] if old else []
        return "{%s}" % ", ".join(parts + ["%r: %s" % (name, self.value(value, names)) for name, value in fields])

    def of_if(self, names, last, test, yes, no):
        return "(%s if %s else %s)" % (self.value(yes, names, last), self.value(test, names), self.value(no, names, last))

    def of_let(self, names, last, name, value, tree):
        own = self.fresh()
        return "(lambda %s: %s)(%s)" % (own, self.value(tree, dict(names, **{name: own}), last), self.value(value, names))

    def of_function(self, names, last, given, tree):
        own = [self.fresh() for _ in given]
        body = self.value(tree, dict(names, **dict(zip(given, own))), True)
        return "Function(%d, lambda %s: %s)" % (len(own), ", ".join(own), body)

    def of_joined(self, names, last, sign, left, right):
        heads = [left]
        while sign == "∷" and right[:2] == ("joined", "∷"):
            heads, right = heads + [right[2]], right[3]
        if sign == ">>=":
            return self.called("native_bound", [self.value(left, names), self.value(right, names)], last)
        if sign == "∷":
            return "((%s,) + %s)" % (", ".join(self.value(head, names) for head in heads), self.value(right, names))
        shape = {"||": "({} or {})", "&&": "({} and {})", "++": "({} + {})", "-": "max(0, {} - {})", "/": "({} // {})",
                 "^": "({} ** {})"}.get(sign, "({} " + sign + " {})")
        return shape.format(self.value(left, names), self.value(right, names))

    def of_applied(self, names, last, head, parts):
        kind, python, wants, later = self.meaning(head, names) or (None, None, None, ())
        given = [self.given(part, names, at in later) for at, part in enumerate(parts)]
        if kind == "form" and len(given) == wants:
            return "(%r, %s)" % (python, ", ".join(given))
        if kind == "call" and len(given) == wants:
            return self.called(python, given, last)
        return self.called("apply", [self.value(head, names)] + given, last)

    def given(self, tree, names, later):
        """An argument; where it may stay unread, and takes work, it is worked out later."""
        if later and tree[0] in ("applied", "if", "let", "joined"):
            return "Later(lambda: %s)" % self.value(tree, names, True)
        return self.value(tree, names)
