"""What is installed, as its pages speak of it: commands by the names that they have there, files by their paths there."""
import os
import posixpath
import re

import paws

# The scripts that become commands: paw-NAME.
SCRIPTS = {"tools": "bounds faults map nouns plain play publish site trace tried uses usual".split(),
           "hosting": "admin door serve".split()}
# The pages for users, and the sections of them that are for engineers.
PAGES = ("README.md", "docs/FORMATS.md", "docs/HOSTING.md", "docs/LANGUAGE.md", "docs/PAGE.md", "docs/PAW.md",
         "docs/PROTOCOL.md", "docs/TUTORIAL.md", "games/README.md", "editors/README.md")
FOR_ENGINEERS = {
    "README.md": ["Where a source changed", "To install it", "Check", "What is only tested", "What is neither",
                  "What it stands on"],
    "docs/HOSTING.md": ["What is proved, and what is only tested", "Figures"],
    "docs/PAGE.md": ["The files", "What is proved, and what is only tested"],
    "editors/README.md": ["How they are made"]}
SHARE, DOC, EXAMPLES = "/usr/share/paw", "/usr/share/doc/paw", "/usr/share/doc/paw-host/examples"
WIDTH = 132

COMMAND = "|".join("%s/(?:%s)" % (folder, "|".join(names)) for folder, names in SCRIPTS.items())
NAMES = [  # what stands in a page or a script of the tree, and what in its place
    (re.compile(r"/usr/local/kaldrevin/(%s)\b(?!/)" % COMMAND), lambda found: "/usr/bin/paw-" + found.group(1).split("/")[1]),
    (re.compile(r"(?<![\w./-])(%s)\b(?![./])" % COMMAND), lambda found: "paw-" + found.group(1).split("/")[1]),
    (re.compile(r"/usr/local/kaldrevin/(?=games/)"), lambda found: SHARE + "/"),
    (re.compile(r"(?<![\w.])\./paw\b(?![-_*])"), lambda found: "paw")]
PATHS = [  # the same in pages alone
    (re.compile(r"(?<![\w/.])bin/pawhost\b"), lambda found: "pawhost"),
    (re.compile(r"(?<![\w/.])bin/(?=paw\b)"), lambda found: "/usr/lib/paw/"),
    (re.compile(r"(?:\.\./)?hosting/samples/"), lambda found: EXAMPLES + "/"),
    (re.compile(r"(?:\.\./)?tools/clients/"), lambda found: DOC + "/examples/"),
    (re.compile(r"(?<![\w/.])bin/paw\.wasm\b"), lambda found: "/usr/lib/paw/paw.wasm"),
    (re.compile(r"(?<![\w/.])debian/(?=copyright\b)"), lambda found: DOC + "/"),
    (re.compile(r'"\$PWD/(editors/\w+)"'), lambda found: "%s/%s" % (SHARE, found.group(1)))]
LINK = re.compile(r"(!?)\[([^\]]*)\]\(([^)\s]+)\)")
OWN = re.compile(r"(?<![\w/.(\[-])((?:tools|hosting|games|editors|page)/[\w./-]*\w)")
IN_TREE = re.compile(r"(?<![\w/-])(?:\.ci|crates|bench|packaging|specs|tools|hosting|debian)/|\bcrates\b|\brt [a-z]|`rt`|`bin/`")
ABSOLUTE = re.compile(r"/usr/(?:bin|lib|share)/[\w./@-]*\w")
CALLED = re.compile(r"(?<![\w/.-])(paw-(?!host\b|web\b)[a-z]+)\b(?![\w.*/-])")
ITEM = re.compile(r"^(?:- |\d+\. )")
SENTENCE = re.compile(r"(?<=[.!?])\s+(?=[A-Z`*\[(])")


def replaced(text, rules):
    for form, word in rules:
        text = form.sub(word, text)
    return text


def named(text):
    """A text of the tree with the names that commands have where they are installed."""
    return replaced(text, NAMES)


def place_of(path):
    """Where a page or a picture of the tree lies, below /usr."""
    is_read = path == "docs/LANGUAGE.md" or path.startswith(("games/", "editors/"))  # by scripts, or beside files that are
    return ("share/paw/" if is_read else "share/doc/paw/") + path


def text_of(page):
    with open(os.path.join(paws.TOP, page), encoding="utf-8") as file:
        return file.read()


# --- Sections ------------------------------------------------------------------------------------------------------

def heading_of(line):
    """The depth and the words of a heading; the depth is 0 where the line is none."""
    found = re.match(r"(#+) (.*)", line)
    return (len(found.group(1)), found.group(2)) if found else (0, "")


def for_users(page, text):
    """The page without its sections for engineers."""
    kept, left_out = [], 0
    for line in text.split("\n"):
        depth, words = heading_of(line)
        if depth and (not left_out or depth <= left_out):
            left_out = depth if words in FOR_ENGINEERS.get(page, ()) else 0
        if not left_out:
            kept.append(line)
    return "\n".join(kept)


def anchors_of(page):
    """What links may name in a page that is installed."""
    headings = [heading_of(line)[1] for line in for_users(page, text_of(page)).split("\n")]
    return {re.sub(r"[^\w\- ]", "", words.lower()).replace(" ", "-") for words in headings if words}


# --- Links ---------------------------------------------------------------------------------------------------------

def is_there(page, target):
    """Whether a link of a page leads to what is installed."""
    path, _, anchor = target.partition("#")
    path = posixpath.normpath(posixpath.join(posixpath.dirname(page), path)) if path else page
    if path in PAGES:
        return not anchor or anchor in anchors_of(path)
    return path in ("games", "editors") or path.startswith("games/") or target.startswith("/usr/") or "://" in target


def linked(page, text):
    """The page with the words alone of each link that leads to what isn't installed."""
    def word(found):
        return found.group(0) if found.group(1) or is_there(page, found.group(3)) else found.group(2)
    return LINK.sub(word, text)


def pictures(page, text):
    """The pictures of a page, by their paths in the tree."""
    return [posixpath.normpath(posixpath.join(posixpath.dirname(page), target)) for mark, _, target in LINK.findall(text)
            if mark and not page.startswith("games/")]


# --- What only the tree has ----------------------------------------------------------------------------------------

def filled(words, indent):
    """A paragraph of words, broken as the pages are."""
    rows, row = [], ""
    for word in words.split():
        if row and len(row) + 1 + len(word) > WIDTH:
            rows, row = rows + [row], indent
        row += (" " if row.strip() else "") + word
    return "\n".join(rows + [row])


def sentences_kept(block):
    """A paragraph or an item of a list without its sentences about the tree; nothing where no other is left."""
    if not IN_TREE.search(block):
        return block
    mark = ITEM.match(block)
    mark = mark.group(0) if mark else ""
    kept = [part for part in SENTENCE.split(block[len(mark):]) if not IN_TREE.search(part)]
    return filled(mark + " ".join(kept), " " * len(mark)) if kept else ""


def items_of(block):
    """The items of a list."""
    found = []
    for line in block.split("\n"):
        if ITEM.match(line) or not found:
            found.append(line)
        else:
            found[-1] += "\n" + line
    return found


def is_code(block):
    return block.startswith("    ")


def block_kept(block):
    if is_code(block) or block.startswith("#"):
        return "" if IN_TREE.search(block) and is_code(block) else block
    if block.startswith("|"):
        return "\n".join(row for row in block.split("\n") if not IN_TREE.search(row))
    if ITEM.match(block):
        return "\n".join(item for item in map(sentences_kept, items_of(block)) if item)
    return sentences_kept(block)


def blocks_kept(blocks):
    """The blocks of a page without what only the tree has. What goes on behind an example that is left out goes with it."""
    kept, gone = [], False
    for block in blocks:
        found = "" if gone and block[:1].islower() else block_kept(block)
        gone = is_code(block) and not found
        if found:
            kept.append(found)
    return kept


def headings_kept(blocks):
    """The blocks without headings that have nothing below them."""
    kept = []
    for at, block in enumerate(blocks):
        below = heading_of(blocks[at + 1])[0] if at + 1 < len(blocks) else 1
        if not (block.startswith("#") and 0 < below <= heading_of(block)[0]):
            kept.append(block)
    return kept


def page(path, exists):
    """A page as it is installed. exists says of a path below /usr whether it is there."""
    text = replaced(named(linked(path, for_users(path, text_of(path)))), PATHS)
    text = OWN.sub(lambda found: SHARE + "/" + found.group(1) if exists("share/paw/" + found.group(1)) else found.group(0), text)
    blocks = blocks_kept(re.split(r"\n{2,}", text.strip("\n")))
    return "\n\n".join(headings_kept(blocks)) + "\n"


# --- What may not stand there --------------------------------------------------------------------------------------

def wrong_in(text, usr):
    """What a page for users names, and isn't there."""
    found = [name for form in (re.compile(r"(?<![\w.])\./paw\b(?![-_*])"), IN_TREE) for name in form.findall(text)]
    found += [path for path in ABSOLUTE.findall(text) if not os.path.exists(usr + path[len("/usr"):])]
    return found + [name for name in CALLED.findall(text) if not os.path.exists(os.path.join(usr, "bin", name))]


def faults(usr):
    """A line for each thing that a page below this folder names, and that isn't there."""
    pages = [os.path.join(usr, place_of(page)) for page in PAGES]
    pages += [os.path.join(folder, name) for folder in (usr + "/share/man/man1", usr + EXAMPLES[len("/usr"):])
              for name in sorted(os.listdir(folder))]
    rows = []
    for path in pages:
        with open(path, encoding="utf-8") as file:
            found = wrong_in(file.read().replace("\\-", "-"), usr)
        rows += ["%s: %s isn't there" % (os.path.relpath(path, usr), name) for name in found]
    return rows
