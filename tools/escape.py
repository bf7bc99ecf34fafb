"""Has Escape alone be a key for readline, which else waits without end for the letter that makes it a Meta key."""
import select

ESCAPE, PATIENCE = 0x1b, 0.25       # seconds in which an arrow key sends the rest of what it is
ALONE, ENTER = 0x1e, 0x0d           # what readline gets for Escape alone; what ends its line
EMACS = 1                           # the way of editing where Escape has no other meaning


class Escape:
    """Reads the keys of readline from now on. What is raised meanwhile, as by Ctrl-C, can't go through readline: it ends the line,
    and stands here."""

    def __init__(self, readline, command):
        """A command for Escape alone; without the parts that this needs, the key stays as it is."""
        self.raised = None
        try:
            import ctypes
            library = ctypes.CDLL(readline.__file__)
            if ctypes.c_int.in_dll(library, "rl_editing_mode").value != EMACS:
                return
            place = ctypes.c_void_p.in_dll(library, "rl_getc_function")
            self.next = ctypes.CFUNCTYPE(ctypes.c_int, ctypes.c_void_p)(place.value)
            self.kept = ctypes.CFUNCTYPE(ctypes.c_int, ctypes.c_void_p)(self.key)
            place.value = ctypes.cast(self.kept, ctypes.c_void_p).value
        except (AttributeError, ImportError, OSError, TypeError, ValueError):
            return
        readline.parse_and_bind('"\\C-^": %s' % command)

    def key(self, stream):
        """The next byte of what is typed."""
        try:
            byte = self.next(stream)
            return ALONE if byte == ESCAPE and not select.select([0], [], [], PATIENCE)[0] else byte
        except BaseException as why:
            self.raised = why
            return ENTER

    def raise_again(self):
        """Raises what came while a key was read."""
        if self.raised:
            why, self.raised = self.raised, None
            raise why
