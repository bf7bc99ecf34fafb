"""What CHANGELOG.md says: its entries, the newest first; and the version of this tree, or of the package that has this."""
import argparse
import collections
import hashlib
import os
import re

TOP = os.path.dirname(os.path.dirname(os.path.abspath(__file__)))
CHANGES, VERSION = os.path.join(TOP, "CHANGELOG.md"), os.path.join(TOP, "version")  # a package has the number alone
LIMIT = 1 << 20  # bytes
HEADING = re.compile(r"^## (\S+) \((.*)\)$", re.MULTILINE)
UNRELEASED = "unreleased"


class Entry(collections.namedtuple("Entry", "version when text")):
    """An entry: its version, what stands in brackets behind it (the date once it is out), and its lines from the heading on."""

    def is_out(self):
        return self.when != UNRELEASED


def text_of(path):
    with open(path, encoding="utf-8") as file:
        return file.read(LIMIT)


def entries(text):
    """The entries of a CHANGELOG.md."""
    found = list(HEADING.finditer(text))
    ends = [heading.start() for heading in found[1:]] + [len(text)]
    return [Entry(*heading.groups(), text[heading.start():end].rstrip() + "\n") for heading, end in zip(found, ends)]


def digest(entry):
    """The sum that is kept of an entry once it is out."""
    return hashlib.sha256(entry.text.encode("utf-8")).hexdigest()


def version():
    """The version: the newest of CHANGELOG.md."""
    return text_of(VERSION).strip() if os.path.exists(VERSION) else entries(text_of(CHANGES))[0].version


def tell(name):
    """Tells which version a program is."""
    print(name, version())


class Teller(argparse.Action):
    """The word --version of a script: it tells the version, and ends."""

    def __call__(self, parser, *_):
        tell(parser.prog)
        parser.exit()
