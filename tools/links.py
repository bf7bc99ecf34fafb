"""The links of the pages: whether each leads to a file that is there, and to a heading of it."""
import glob
import os
import re

import paws

PAGES = ["README.md", "docs/*.md", "games/README.md", "games/*/README.md", "editors/README.md"]
LINK = re.compile(r"\]\(([^()\s]+)\)")
FENCED = re.compile(r"^```.*?^```$", re.M | re.S)
CODE = re.compile(r"^    .*$|`[^`\n]*`", re.M)


def pages():
    """The pages below the folder of work whose links have to lead somewhere."""
    return sorted(path for pattern in PAGES for path in glob.glob(pattern))


def anchors(path):
    """The names by which headings of a page are linked to: small words, joined by hyphens; where some are alike, with a number."""
    found = set()
    for heading in re.findall(r"^#+ (.*)$", FENCED.sub("", paws.text_of(path)), re.M):
        name = again = re.sub(r"[^\w\- ]", "", heading.strip().lower()).replace(" ", "-")
        number = 0
        while again in found:
            number += 1
            again = "%s-%d" % (name, number)
        found.add(again)
    return found


def dead(page):
    """What is wrong with the links of a page, a sentence for each."""
    for target in LINK.findall(CODE.sub("", FENCED.sub("", paws.text_of(page)))):
        if re.match(r"\w+:", target):
            continue
        path, _, anchor = target.partition("#")
        path = os.path.normpath(os.path.join(os.path.dirname(page), path)) if path else page
        if not os.path.exists(path):
            yield "%s: the link to %s leads nowhere" % (page, target)
        elif anchor and anchor not in anchors(path):
            yield "%s: the link to %s leads to no heading" % (page, target)
