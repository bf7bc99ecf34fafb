"""What a player sees and types at: a terminal, or plain streams."""
import contextlib
import importlib.util
import locale
import os
import re
import select
import signal
import sys
import termios

import escape
import letters
import marks
import wrapping

MORE = "-- more --"
KEPT = 100  # texts and lines that may be shown again where the window changes
HISTORY = 500
COLOUR = re.compile("\033\\[[0-9;]*m")
CONTROL = re.compile("[^\n -~\xa0-\U0010ffff]")  # no text of a game has these, but a session can be forged
WINDOW = 80, 24  # what stands for a size that a terminal doesn't know
# Keys as other players of text adventures have them; lines of commands go to the seat as if they were typed. What readline asks for
# completions by is here where the window is drawn, and readline draws its line behind that.
KEYS = ['"\\eu": "\\C-e\\C-u/undo\\C-m"', '"\\eh": "\\C-e\\C-u/help\\C-m"']
DRAWING = ['"\\C-x\\C-x1": complete', '"\\C-x\\C-x2": redraw-current-line', '"\\C-l": "\\C-x\\C-x1\\C-x\\C-x2"']


def size_known():
    """The columns and rows of the window, 0 where it doesn't know them."""
    with contextlib.suppress(OSError):
        return os.get_terminal_size(1)
    return 0, 0


class Streams:
    """Shows the texts byte by byte as the program does, and reads lines as they come. Lines are broken where a width is given, and
    at a terminal that knows its own."""
    is_terminal = False

    def __init__(self, width=None):
        self.fixed, self.is_echoed, self.prompt = width, os.isatty(0), ""

    def without_marks(self, text):
        """A text as it is shown."""
        return text

    def show(self, text):
        data = self.broken(text).encode("latin-1", "replace")
        while data:
            data = data[os.write(1, data):]

    def broken(self, text):
        """A text with its lines broken, behind the prompt where what was typed there isn't seen."""
        width = self.fixed or size_known()[0]
        if not width:
            return text
        whole = wrapping.wrapped(self.prompt + text, width)
        if not whole.startswith(self.prompt):  # no word fits behind the prompt
            whole = self.prompt + "\n" + wrapping.wrapped(text, width)
        begun, self.prompt = len(self.prompt), whole.rpartition("\n")[2]
        return whole[begun:]

    def told(self, status):
        """Takes what a status line would show."""

    def has_row(self, is_on):
        """Takes whether there should be a status line."""

    def use_history(self, path):
        """Takes where lines could be remembered."""

    def line(self):
        """A line as bytes, with no more of the input than that; None at the end of the input."""
        data = bytearray()
        while not data.endswith(b"\n"):
            byte = os.read(0, 1)
            if not byte:
                return letters.typed_line(bytes(data)) if data else None
            data += byte
        self.prompt = "" if self.is_echoed else self.prompt
        return letters.typed_line(bytes(data[:-1]).removesuffix(b"\r"))

    def key(self):
        return self.line()

    def close(self, ended):
        """Leaves what is shown last with a line end."""
        if os.isatty(1) and not ended:
            self.show("\n")


class WentOn(Exception):
    """A line was typed in part when the program was stopped; now it goes on."""

    def __init__(self, typed):
        super().__init__(typed)
        self.typed = typed


class Terminal:
    """Shows texts by words at the window's width, a screenful at a time, and reads lines with editing and history. Keys that are
    typed before they are asked for show nothing yet, and wait.

    One without a status line from the start sends no escape sequence at all, as a reader of screens likes it: it has no colours
    then, and nothing is drawn over what was shown."""
    is_terminal = True

    def __init__(self, width, has_status):
        self.fixed, self.has_status, self.status = width, has_status, ("", "")
        self.colours, self.shown, self.typing = marks.Colours(), [], False
        self.has_escapes = has_status
        self.has_colours = self.has_escapes and not os.environ.get("NO_COLOR")
        self.prompt, self.painted_prompt, self.waits = "", "", ""
        self.is_stale, self.is_asked = False, False
        self.modes = termios.tcgetattr(0)
        self.take_keys(False)
        signal.signal(signal.SIGWINCH, self.resized)
        signal.signal(signal.SIGTSTP, self.left_alone)
        self.know_letters()
        self.readline, self.history = self.line_editing(), None
        self.measure()
        self.settle()

    @staticmethod
    def know_letters():
        """Where the locale has ASCII alone, a terminal writes UTF-8 all the same."""
        if locale.nl_langinfo(locale.CODESET).upper() in ("ANSI_X3.4-1968", "US-ASCII", "ASCII", "646"):
            with contextlib.suppress(locale.Error):
                locale.setlocale(locale.LC_CTYPE, "C.UTF-8")
            sys.stdin.reconfigure(encoding="utf-8")
            sys.stdout.reconfigure(encoding="utf-8")
        sys.stdin.reconfigure(errors="surrogateescape")
        sys.stdout.reconfigure(errors="replace")

    def line_editing(self):
        """The library for editing lines, with its keys."""
        kind = os.environ["TERM"]
        if not self.has_escapes:
            os.environ["TERM"] = "dumb"
        import readline  # behind the handler of sizes, which it calls in its own: so both hear of a new one
        os.environ["TERM"] = kind
        readline.parse_and_bind("set enable-bracketed-paste off")
        readline.parse_and_bind("set bell-style none")
        readline.set_completer(self.asked_to_draw)
        for key in KEYS + (DRAWING if self.has_escapes else ['"\\C-l": redraw-current-line']):
            readline.parse_and_bind(key)
        self.escape = escape.Escape(readline, "kill-whole-line")
        readline.set_auto_history(False)
        readline.set_history_length(HISTORY)
        return readline

    def asked_to_draw(self, _, state):
        """Draws the window anew, and leaves the cursor as far down as readline has it in its line."""
        if state == 0:
            self.draw_anew()
            self.write("\n" * ((len(self.prompt) + self.readline.get_endidx()) // self.columns))

    def use_history(self, path):
        """Takes lines of earlier days from a file, and keeps those to come there."""
        self.history = path
        with contextlib.suppress(OSError):
            self.readline.read_history_file(path)
            self.readline.write_history_file(path)

    def remember(self, text):
        with contextlib.suppress(OSError, UnicodeError):  # a locale may know fewer letters than were typed
            self.readline.add_history(text)
            if self.history:
                os.makedirs(os.path.dirname(self.history), mode=0o700, exist_ok=True)
                with open(self.history, "a", encoding="utf-8", errors="surrogateescape"):
                    self.readline.append_history_file(1, self.history)

    # --- the window

    def measure(self):
        self.columns, self.rows = [found or assumed for found, assumed in zip(size_known(), WINDOW)]

    @property
    def has_line(self):
        """Whether there is room for a status line."""
        return self.has_status and self.rows >= 6 and self.columns >= 20

    @property
    def page(self):
        """The rows for texts."""
        return self.rows - (1 if self.has_line else 0)

    @property
    def width(self):
        return self.fixed or self.columns

    def write(self, text):
        sys.stdout.write(text)
        sys.stdout.flush()

    def take_keys(self, are_shown):
        """Has keys come one by one: shown as readline wants it, which does the rest, or not shown."""
        modes = list(self.modes)
        modes[3] &= ~termios.ICANON & ~termios.ECHO
        modes[3] |= termios.ECHO if are_shown else 0
        self.set_modes(modes)

    def set_modes(self, modes):
        """Where the window was closed there are none any more."""
        with contextlib.suppress(termios.error):
            termios.tcsetattr(0, termios.TCSADRAIN, modes)

    def left_alone(self, *_):
        """Gives the terminal back where Ctrl-Z stops this, and takes it again where it goes on."""
        typed = self.readline.get_line_buffer() if self.typing else ""
        self.give_back("\n")
        signal.signal(signal.SIGTSTP, signal.SIG_DFL)
        os.kill(os.getpid(), signal.SIGTSTP)
        signal.signal(signal.SIGTSTP, self.left_alone)
        self.take_keys(False)
        self.measure()
        if self.typing:
            self.draw_anew()
            raise WentOn(typed)
        self.settle()
        self.draw_status()
        self.write(self.waits)

    def settle(self):
        """Keeps the last row out of what moves. The cursor is kept too, and goes up where it stands in that row."""
        if self.has_line:
            self.write("\0337\033[r\0338\033D\033[A\0337\033[1;%dr\0338" % self.page)

    def resized(self, *_):
        """Shows the latest texts again as the new width has them; the line that is typed comes behind them by itself."""
        before = self.columns, self.rows
        self.measure()
        self.is_stale = self.is_stale or before != (self.columns, self.rows)
        if self.typing:
            self.draw_stale()

    def draw_stale(self):
        """Shows the latest texts again where the window changed meanwhile."""
        if self.is_stale:
            self.draw_anew()

    def draw_anew(self):
        self.is_stale = False
        if not self.has_escapes:
            return
        self.write("\033[r\033[H\033[2J")
        self.settle()
        free, last = self.page - 1, []
        for row in reversed(wrapping.wrapped("".join(self.shown), self.width).split("\n")[:-1]):
            free -= wrapping.rows_of(row, self.columns)
            if free < 0:
                break
            last.insert(0, row + "\n")
        self.write("".join(last))
        self.draw_status()

    def told(self, status):
        self.status = status
        self.settle()
        self.draw_status()

    def has_row(self, is_on):
        """Has a status line, or none."""
        self.free_row()
        self.has_status = is_on
        self.settle()
        self.draw_status()

    def free_row(self):
        """Gives the last row to what moves."""
        if self.has_line:
            self.write("\0337\033[%d;1H\033[K\033[r\0338" % self.rows)

    def draw_status(self):
        """The place at the left and the rest at the right, in the last row; of the rest the numbers alone where room is short."""
        if not self.has_line:
            return
        place, rest = self.status
        room = self.columns - 1
        if len(place) + len(rest) + 3 > room:
            rest = "/".join(re.findall("[0-9]+", rest))
        place = place[:max(0, room - len(rest) - 3)]
        line = " %s%s " % (place, rest.rjust(room - 1 - len(place)))
        self.write("\0337\033[%d;1H\033[0m\033[K\033[7m%s\033[0m\0338" % (self.rows, line[:self.columns]))

    # --- texts

    def rows_in(self, text, effects):
        """Each row of a text, with where it begins, and the effects that come in it."""
        at, left = 0, list(effects)
        for row in wrapping.wrapped(text, self.width).split("\n"):
            end = at + len(row)
            began = [effect for effect in left if effect.at <= end]
            left = left[len(began):]
            yield row, at, began
            at = end + 1

    def without_marks(self, text):
        """A text as it is shown, without colours."""
        return marks.read(text)[0]

    def show(self, text):
        """Shows a text, behind a prompt that nothing was typed at, up to its last row, which is the prompt of the next line."""
        text, effects = marks.read(CONTROL.sub("?", text))
        cleared = max((effect.at for effect in effects if effect.name == "CLS"), default=None)
        self.shown = self.shown[-KEPT:] + [text] if cleared is None else [text[cleared:]]
        effects = [effect._replace(at=effect.at + len(self.prompt)) for effect in effects]
        used, rows = 0, list(self.rows_in(self.prompt + text, effects))
        for row, at, began in rows[:-1]:
            high = wrapping.rows_of(row, self.columns)
            if used and used + high > self.page - 1:
                self.more()
                used = 0
            painted, used = self.painted(row, at, began, used)
            self.write(painted + "\n")
            used += high
        self.prompt, at, began = rows[-1]
        self.painted_prompt, _ = self.painted(self.prompt, at, began, used)

    def painted(self, row, at, began, used):
        """A row with its colours; what else comes in it is done."""
        parts, last = [], 0
        for effect in began:
            parts.append(self.coloured(row[last:effect.at - at]))
            last = effect.at - at
            if effect.name == "CLS":
                if used:
                    self.more()
                self.clear()
                used = 0
            elif effect.name == "BEEP":
                self.write("\a")
            else:
                self.colours.take(effect)
        return "".join(parts) + self.coloured(row[last:]), used

    def coloured(self, text):
        sequence = self.colours.sequence() if self.has_colours and text else ""
        return sequence + text + ("\033[0m" if sequence else "")

    def clear(self):
        """Moves all that was shown out of the window, so that it can be scrolled back to."""
        self.write("\033[%d;1H%s\033[H" % (self.page, "\n" * self.page) if self.has_escapes else "\n")

    def more(self):
        """Waits at the end of a screenful for any key."""
        try:
            self.any_key("\033[7m%s\033[0m" % MORE if self.has_escapes else MORE)
        finally:
            self.write("\r\033[K" if self.has_escapes else "\r%s\r" % (" " * len(MORE)))

    # --- what is typed

    def line(self):
        """A line as bytes; None at the end of the input."""
        self.draw_stale()
        self.is_asked = True
        text, typed = None, ""
        while text is None:
            # Python drops a Ctrl-C that comes in a hook of readline's, so there is one only where a line goes on.
            self.readline.set_startup_hook((lambda: self.readline.insert_text(typed)) if typed else None)
            try:
                self.typing = True
                self.take_keys(True)
                text = input(COLOUR.sub("\001\\g<0>\002", self.painted_prompt))
                self.escape.raise_again()
            except EOFError:
                return None
            except WentOn as again:
                typed = again.typed
            finally:
                self.typing = False
                self.take_keys(False)
        if text.strip():
            self.remember(text)
        self.was_typed(text)
        return letters.typed_line(text.replace("\n", " ").encode("utf-8", "surrogateescape"))

    def was_typed(self, text):
        self.shown.append(text + "\n")
        self.prompt, self.painted_prompt, self.is_asked = "", "", False

    def key(self):
        """Waits for any key, as the game wants it; the line that stands for that is empty. None at the end of the input."""
        self.draw_stale()
        self.is_asked = True
        key = self.any_key(self.painted_prompt)
        if key in (b"", b"\004"):
            return None
        self.write("\n")
        self.was_typed("")
        return b""

    def any_key(self, prompt):
        """The first byte of one key; the others, of an arrow or of a letter that has several, come at once and are taken too."""
        self.waits = prompt
        self.write(prompt)
        while not select.select([0], [], [])[0]:
            pass
        key = os.read(0, 1)
        if key >= b"\xc0":
            os.read(0, 1 + (key >= b"\xe0") + (key >= b"\xf0"))
        while key == b"\033" and select.select([0], [], [], 0.05)[0]:
            if not os.read(0, 16):
                break
        self.waits = ""
        return key

    def give_back(self, last):
        """Gives the terminal back as it was, with this text shown last."""
        self.write(last)
        self.free_row()
        self.set_modes(self.modes)

    def close(self, ended):
        """Leaves the cursor on a line of its own, behind all that was shown."""
        last = self.painted_prompt if ended else ""
        self.give_back(last + "\n" if last or self.is_asked else "")


def chosen(plain, width, has_status):
    """The terminal, where both input and output are one that can do what is wanted."""
    is_terminal = os.isatty(0) and os.isatty(1) and os.environ.get("TERM", "dumb") != "dumb"
    has_readline = importlib.util.find_spec("readline")
    return Terminal(width, has_status) if is_terminal and has_readline and not plain else Streams(width)
