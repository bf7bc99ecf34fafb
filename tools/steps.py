"""Condacts that were read: what paw trace shows of them, and what they are in words of a source."""
import re

import paws

READ = re.compile(r"(\d+)\.(\d+)\.(\d+) [A-Z0-9]+ (yes|no)\n|\[(\d+) more\]\n")
# What the flags of the program are for, where that helps to read a condact; and what their values name.
FLAGS = {0: "dark", 30: "score", 33: "verb", 34: "noun", 35: "adjective", 36: "adverb", 38: "place", 43: "preposition",
         44: "second noun", 45: "second adjective", 46: "noun of pronouns", 47: "adjective of pronouns", 50: "thing of the loop",
         51: "thing referred to", 54: "its place", 55: "its weight"}
VALUES = {33: "verb", 34: "B", 35: "J", 36: "A", 38: "L", 43: "R", 44: "B", 45: "J", 46: "B", 47: "J", 50: "O", 51: "O", 54: "P"}


def taken(shown, at=0):
    """What paw trace shows of condacts from a place on: each (table, entry, condact, whether it succeeded), how many more there
    were, and the place behind them."""
    read, more = [], 0
    found = READ.match(shown, at)
    while found:
        if found.group(5):
            more = int(found.group(5))
        else:
            read.append((int(found.group(1)), int(found.group(2)), int(found.group(3)), found.group(4) == "yes"))
        at = found.end()
        found = READ.match(shown, at)
    return read, more, at


def cut(text, width=40):
    """The first line of a text, or its beginning."""
    lines = text.strip().split("\n")
    return lines[0][:width] + (" .." if len(lines) > 1 or len(lines[0]) > width else "")


class Names:
    """What the numbers of a source stand for."""

    def __init__(self, source):
        self.source = source
        self.places = {value: name for name, value in paws.PLACES.items()}

    def of(self, kind, value):
        """The name of what a parameter of this kind names, or nothing."""
        texts = {"M": "/MTX", "S": "/STX", "O": "/OTX", "L": "/LTX", "P": "/LTX"}.get(kind)
        if kind == "P" and value in self.places:
            return self.places[value]
        if texts:
            items = self.source.texts[texts]
            return cut(items[value].text) if value < len(items) else "none" if value == 255 else ""
        if kind in paws.CLASSES or kind == "verb":
            return "none" if value == 255 else self.source.name(value, paws.CLASSES.get(kind, kind))
        return FLAGS.get(value, "") if kind == "F" else ""

    def number(self, kind, value):
        """The author's name of what a parameter of this kind names, or its number."""
        return self.source.told(paws.KIND_OF.get(kind), value)

    def step(self, step):
        """A condact with its parameters, and what they stand for in brackets."""
        row, told, kinds = [step.name], [], self.source.condacts[step.name].kinds
        for kind, value in zip(kinds, step.values):
            if value is None:
                row.append("@" + self.number("F", step.flag))
                told.append(FLAGS.get(step.flag, "") if row[-1] == "@%d" % step.flag else "")
                continue
            if kind in paws.CLASSES:
                row.append("_" if value == 255 else self.of(kind, value))
                continue
            is_place = kind == "P" and value in self.places
            row.append(self.places[value] if is_place else self.number(kind, value))
            if not is_place and (kind != "F" or row[-1] == str(value)):
                told.append(self.of(kind, value))
        if kinds == ["F", "N"] and step.values[0] in VALUES:
            told.append(self.of(VALUES[step.values[0]], step.values[1]))
        told = [name for name in told if name]
        return " ".join(row) + (" (%s)" % ", ".join(told) if told else "")
