"""The marks in a text of a game, such as [CLS] and [INK 2]: what a terminal makes of each.

A mark is what a condact for a screen or a speaker prints: its name and its parameters in brackets, and a line end.
"""
import collections
import re

PARAMETERS = {"PICTURE": 1, "GRAPHIC": 1, "BEEP": 2, "CLS": 0, "PAPER": 1, "INK": 1, "BORDER": 1, "CHARSET": 1, "PROTECT": 0,
              "SAVEAT": 0, "BACKAT": 0, "PRINTAT": 2, "PAUSE": 1, "MODE": 2, "LINE": 1, "INPUT": 1}
MARK = re.compile(r"\[(%s)\]\n" % "|".join(name + r" (\d{1,3})" * count for name, count in PARAMETERS.items()))
ACTING = {"BEEP", "CLS", "PAPER", "INK"}
MOVING = {"BACKAT", "CLS", "PICTURE", "PRINTAT"}  # what follows these begins a line of its own
# The colours of a terminal in the order that INK and PAPER have: black, blue, red, magenta, green, cyan, yellow, white.
COLOURS = [0, 4, 1, 5, 2, 6, 3, 7]
LIGHT = 4  # from this colour on black letters are read better than white ones
WHITE = 7

Effect = collections.namedtuple("Effect", "at name value")


def read(text):
    """The text without its marks, and the effects, each with the place in that text where it comes."""
    parts, effects, length, last = [], [], 0, 0
    for mark in MARK.finditer(text):
        words = mark.group(1).split()
        begun = text[last:mark.start()]
        line = begun.rpartition("\n")[2] or (not begun and parts and not parts[-1].endswith("\n"))
        shown = begun + ("\n" if words[0] in MOVING and line else "")
        if words[0] == "PICTURE":
            shown += "[Picture %s]\n" % words[1]
        parts.append(shown)
        length += len(shown)
        last = mark.end()
        if words[0] in ACTING:
            effects.append(Effect(length, words[0], int(words[1]) if len(words) > 1 else None))
    return "".join(parts) + text[last:], effects


class Colours:
    """The colours that letters have: None where the terminal's own stand."""

    def __init__(self):
        self.ink, self.paper = None, None

    def take(self, effect):
        """INK and PAPER above 7 give the terminal's own colour back."""
        colour = effect.value if effect.value < len(COLOURS) else None
        if effect.name == "INK":
            self.ink = colour
        else:
            self.paper = colour

    def sequence(self):
        """What makes a terminal write so. Black and white alone stay the terminal's own, which may have either behind them; letters
        that would be as their paper are black or white."""
        if self.paper is None:
            return "" if self.ink in (None, 0, WHITE) else "\033[3%dm" % COLOURS[self.ink]
        ink = self.ink
        if ink is None or ink == self.paper:
            ink = 0 if self.paper >= LIGHT else WHITE
        return "\033[3%d;4%dm" % (COLOURS[ink], COLOURS[self.paper])
