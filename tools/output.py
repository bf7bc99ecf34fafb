"""The standard streams of a script: none is closed, and no control character of a file, or of its name, reaches a terminal."""
import os
import re
import sys

# All that isn't shown as it is: control characters but the line end and the tab, and the bytes of a name that isn't UTF-8.
HIDDEN = "[\x00-\x08\x0b-\x1f\x7f-\x9f\ud800-\udfff]"
COLOUR = "\x1b\\[[0-9;]*m"


def shown(text):
    """A text, or a name, as a terminal may see it: on one line, with ? for each control character."""
    return re.sub(HIDDEN + "|[\t\n]", "?", text)


class Filtered:
    """A stream that shows ? for what is hidden."""

    def __init__(self, stream):
        self.stream, self.has_colours = stream, False

    def write(self, text):
        if self.has_colours:
            return self.stream.write(re.sub("(%s)|%s" % (COLOUR, HIDDEN), lambda found: found[1] or "?", text))
        return self.stream.write(re.sub(HIDDEN, "?", text))

    def __getattr__(self, name):
        return getattr(self.stream, name)


class Told(Filtered):
    """Standard error: where it can't be written, what a script says is lost, and nothing else."""

    def write(self, text):
        try:
            return super().write(text)
        except OSError:
            return len(text)


def has_colours():
    """Whether colours may be shown; a terminal then gets them."""
    if not sys.stdout.isatty() or "NO_COLOR" in os.environ:
        return False
    if isinstance(sys.stdout, Filtered):
        sys.stdout.has_colours = True
    return True


def prepare(is_filtered):
    """Opens the streams that are closed, but the output, and filters what a terminal sees. Gives why a script can't begin, or
    nothing. What goes elsewhere has names byte by byte, so that others find the files."""
    is_closed = sys.stdout is None
    for number, name in ((0, "stdin"), (1, "stdout"), (2, "stderr")):
        if getattr(sys, name) is None:
            opened = os.open(os.devnull, os.O_RDWR)  # the lowest number that is free
            setattr(sys, name, open(opened, "r" if number == 0 else "w", encoding="utf-8"))
    sys.stderr = Told(sys.stderr)
    is_exact = sys.stdout.encoding == "utf-8" and not sys.stdout.isatty()
    sys.stdout.reconfigure(errors="surrogateescape" if is_exact else "backslashreplace")
    if sys.stdout.isatty() and is_filtered:
        sys.stdout = Filtered(sys.stdout)
    return "the output is closed" if is_closed else None


def give_up():
    """What is still held back goes nowhere."""
    os.dup2(os.open(os.devnull, os.O_WRONLY), sys.stdout.fileno())
