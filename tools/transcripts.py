"""A transcript: a text file that a game is written to. One that isn't there yet gets the game from its beginning on."""
import os
import re
import stat

import kept

LOOKED_AT = 4096  # bytes
ROWS = re.compile(rb"1 [0-9a-f]{8} (game|base) ")  # how the lines of a game begin


class Transcript:
    """A file that texts and lines are written to the end of. No file of the game itself is taken, by whatever way it is named."""

    def __init__(self, path, used):
        path = os.path.expanduser(path)
        refuse_used(path, used)
        self.name = path
        self.file = os.open(path, os.O_RDWR | os.O_CREAT | os.O_APPEND | os.O_NONBLOCK | os.O_NOCTTY | os.O_CLOEXEC, 0o666)
        try:
            kind = os.fstat(self.file)
            if not stat.S_ISREG(kind.st_mode):
                raise kept.Refused("%s is no regular file" % path)
            begun = os.pread(self.file, LOOKED_AT, 0)
            if is_one_of(kind, used):
                raise kept.Refused("%s is in use" % path)
            if b"\0" in begun or ROWS.match(begun):
                raise kept.Refused("%s is no text that could be gone on with" % path)
        except BaseException:
            os.close(self.file)
            raise
        self.is_new = not begun

    def write(self, text):
        data = text.encode("latin-1", "replace")
        while data:
            data = data[os.write(self.file, data):]

    def close(self):
        os.close(self.file)

    def drop(self):
        """Closes a file whose beginning couldn't be written; a new one is gone again."""
        self.close()
        if self.is_new:
            os.remove(self.name)


def refuse_used(path, used):
    """Refuses the files that are in use, and names that they will have."""
    real = os.path.realpath(path)
    folders = {os.path.dirname(os.path.realpath(name)) for name in used if os.path.dirname(name).endswith(".kept")}
    if real in map(os.path.realpath, used) or os.path.dirname(real) in folders or os.path.dirname(real).endswith(".kept"):
        raise kept.Refused("%s is in use" % path)


def is_one_of(kind, used):
    """Whether a file is one of those by another name."""
    for name in used:
        try:
            if os.path.samestat(kind, os.stat(name)):
                return True
        except OSError:
            pass
    return False
