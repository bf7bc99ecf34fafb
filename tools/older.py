"""A game whose image has changed since: what was played with the older one, and how it differs over the newer one."""
import contextlib
import hashlib
import os

import kept
import lines as rows
import making

SHOWN = 60  # letters of an answer


class Older:
    """The game that was played last with an image of this path; none where the image is still the same."""

    def __init__(self, program, session, digest):
        self.program, self.session, self.digest, self.folder = program, session, digest, kept.Folder(session)
        lines = rows.Lines(self.folder.lines).read()
        self.place, self.names = lines.now, lines.names

    def can_be_played(self):
        """Whether its lines are known from the beginning on."""
        return bool(self.place) and self.place.game.digest == self.digest and not self.place.game.base

    def named(self):
        """The names of places that the lines lead through, by how many lines lead there."""
        found, place = {}, self.place
        while place:
            found[place.count] = [name for name, named in self.names.items() if named is place and name != rows.BACK]
            place = place.before
        return found

    def texts(self):
        """Its texts, where the image that it was played with is still there."""
        with open(self.folder.image, "rb") as file:
            image = file.read(rows.MOST)
        if hashlib.sha256(image).hexdigest() == self.digest:
            maker = making.Maker(self.program, self.folder.image, self.digest, self.folder)
            yield from maker.texts(self.place.game, self.place.lines())


def remembered(folder, image):
    """The digest of the image of this path that was played last; none where there was no other."""
    return kept.content(path_of(folder, image), 64, b"").decode("ascii", "replace")


def remember(folder, image, digest):
    """Remembers which image of this path was played last; a file without a name of its own is not remembered."""
    if not os.path.realpath(image).startswith("/proc/") and remembered(folder, image) != digest:
        with contextlib.suppress(OSError):
            os.makedirs(os.path.dirname(path_of(folder, image)), mode=0o700, exist_ok=True)
            kept.write_whole(path_of(folder, image), digest.encode())


def path_of(folder, image):
    return os.path.join(folder, "images", hashlib.sha256(os.fsencode(os.path.realpath(image))).hexdigest())


def differences(before, now):
    """What is told of each text that differs, in their order; of none behind one that can't be had."""
    with contextlib.suppress(kept.Refused, OSError):
        for number, ((line, old), (_, new)) in enumerate(zip(before, now)):
            if old != new:
                asked = 'The answer to line %d, "%s",' % (number, rows.written(line).decode()) if number else "The first text"
                yield "%s was\n  %s\nand is now\n  %s" % (asked, shortened(old, new), shortened(new, old))


def shortened(text, other):
    """The part of a text where it begins to differ from another, in one line."""
    text, other = (" ".join((one.rpartition("\n")[0] or one).split()) for one in (text, other))  # without the prompt
    same = len(os.path.commonprefix([text, other]))
    begin = 0 if same < SHOWN // 2 else text.rfind(" ", 0, same - SHOWN // 3) + 1
    part = text[begin:begin + SHOWN]
    return (".. " if begin else "") + part + (" .." if begin + SHOWN < len(text) else "")
