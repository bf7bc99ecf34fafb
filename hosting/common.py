"""What the scripts here share: the programs, names and lines, and what the file of a session tells."""
import collections
import contextlib
import os
import re
import secrets
import socket
import string
import subprocess
import sys
import time
import unicodedata

TOP = os.path.dirname(os.path.dirname(os.path.abspath(__file__)))
sys.path.insert(0, os.path.join(TOP, "tools"))
import letters  # noqa: E402
import paws  # noqa: E402
import sessions  # noqa: E402
from kept import sync_folder  # noqa: E402, F401 (for copies.py)

LONGEST_NAME, LONGEST_LINE = 16, 200    # letters; a line counts with its first 255 bytes, the name and a space among them
LONGEST_REPLY = 131200                  # bytes: a name, two pieces and what stands around them
LENGTH, MARK = sessions.SLOTS + 2 * sessions.SLOT, 80
OVER = 4                                # the prompt of a session whose game is over
SLOWEST = 30                            # seconds in which a line has to be answered


# --- The programs --------------------------------------------------------------------------------------------------

def program(name):
    """The path of paw or pawhost: that of the variable of its name in capitals, or else bin/ of the repository."""
    path = os.path.abspath(os.environ.get(name.upper()) or os.path.join(TOP, "bin", name))
    if not os.access(path, os.X_OK):
        sys.exit("no program at %s" % path)
    return path


class Ended(Exception):
    """pawhost has ended, and a line may be without a reply. The status is with it."""

    def __init__(self, status):
        super().__init__("pawhost ended with status %s" % status)
        self.status = status


class Host:
    """A pawhost in a folder of sessions.

    A body may hold what looks like the beginning of another reply. So the output is a socket that keeps packets apart, and each
    reply, which pawhost writes in one go, is one packet. A lock that is passed on is held until pawhost has ended too.
    """

    def __init__(self, folder, image, seed, lock=None):
        self.output, its_output = socket.socketpair(socket.AF_UNIX, socket.SOCK_SEQPACKET)
        self.output.settimeout(SLOWEST)
        its_output.setsockopt(socket.SOL_SOCKET, socket.SO_SNDBUF, 2 * LONGEST_REPLY)
        with its_output:
            self.process = subprocess.Popen([program("pawhost"), os.path.abspath(image), str(seed)], cwd=folder, bufsize=0,
                                            stdin=subprocess.PIPE, stdout=its_output, pass_fds=() if lock is None else (lock,))

    def ask(self, name, text=None):
        """The body of the reply to a line of a name, or to the name alone."""
        self.send(name, text)
        return self.reply(name)

    def send(self, name, text=None):
        """Hands a line over."""
        self.write(name.encode("ascii") + (b"" if text is None else b" " + text) + b"\n")

    def write(self, lines):
        """Hands lines over as they are. Where pawhost has ended, the reply tells it."""
        with contextlib.suppress(BrokenPipeError):
            self.process.stdin.write(lines)

    def reply(self, name):
        """The body of the next reply, which is that to a line of this name."""
        try:
            reply = self.output.recv(LONGEST_REPLY)
        except ConnectionResetError:
            reply = b""
        except TimeoutError:
            self.process.kill()
            reply = b""
        return self.body(name, reply)

    def body(self, name, reply):
        """The body of a packet that is the reply to a name; without one pawhost has ended."""
        if not reply:
            raise Ended(self.process.wait())
        begins = b"[" + name.encode("ascii") + b"]\n"
        if not (reply.startswith(begins) and reply.endswith(b"\n")):
            raise ValueError("no reply to %s: %r" % (name, reply[:80]))
        return reply[len(begins):-1].decode("latin-1")

    def end(self):
        self.process.stdin.close()
        self.output.close()
        return self.process.wait()

    def __enter__(self):
        return self

    def __exit__(self, *_):
        self.end()


def why_not(image, seed):
    """Why pawhost can't play an image with a seed, in words; None where it can."""
    done = subprocess.run([program("pawhost"), image, str(seed)], stdin=subprocess.DEVNULL, stdout=subprocess.DEVNULL)
    if not done.returncode:
        return None
    told = "pawhost can't play %s with the seed %s: status %d" % (image, seed, done.returncode)
    why = paws.reason([program("pawhost"), "walk", image], "outside failed: Load")
    return told + (": " + why if why else "")


# --- Names and lines -----------------------------------------------------------------------------------------------

def is_name(name):
    return re.fullmatch("[a-z0-9]{1,%d}" % LONGEST_NAME, name) is not None


def new_name():
    """Sixteen random letters, which nobody guesses: who has the name has the session."""
    return "".join(secrets.choice(string.ascii_lowercase) for _ in range(LONGEST_NAME))


def plain_line(typed):
    """The bytes of a typed line, in the letters that games know; None where it is too long or holds a control character."""
    plain = letters.plain(typed)
    return None if len(plain) > LONGEST_LINE or any(unicodedata.category(char) == "Cc" for char in typed) else plain


# --- What a file tells ---------------------------------------------------------------------------------------------

Kept = collections.namedtuple("Kept", "lines prompt")
NOTHING, BROKEN = Kept(None, None), Kept(-1, None)


def path_of(folder, name):
    return os.path.join(folder, name + ".paw")


def bytes_of(path):
    """The bytes of a file; none where it is missing, and of one that is no session the first ones."""
    try:
        with open(path, "rb") as file:
            return file.read(LENGTH + 1)
    except FileNotFoundError:
        return b""


def put(path, data, is_synced=True):
    """Puts a file in its place in one go, on the disk where it is synced. Where that fails, or is ended, nothing is left of it."""
    try:
        with open(path + ".new", "wb") as file:
            file.write(data)
            file.flush()
            if is_synced:
                os.fsync(file.fileno())
        os.replace(path + ".new", path)
    except BaseException:
        with contextlib.suppress(FileNotFoundError):
            os.unlink(path + ".new")
        raise


def kept_in(data):
    """How many lines the bytes of a session stand for, and its prompt; NOTHING where there are none, BROKEN where they can't be read.

    Only pawhost finds every fault: this looks no further than it needs to count.
    """
    if not data:
        return NOTHING
    if len(data) != LENGTH or data[0] != MARK:
        return BROKEN
    state = sessions.state_of(data)
    return Kept(state.lines, state.prompt)


def kept(folder, name):
    return kept_in(bytes_of(path_of(folder, name)))


def is_half_made(folder, name):
    """Whether a session was cut off while it was made: it has no mark yet, and has taken no line, so nothing is lost with it."""
    data = bytes_of(path_of(folder, name))
    whole = data.ljust(LENGTH, b"\0")
    return bool(data) and data[0] == 0 and all(sessions.state_at(whole, slot).lines == 0 for slot in (0, 1))


def put_aside(folder, name):
    """Takes a file out of the way, and keeps it."""
    os.makedirs(os.path.join(folder, "aside"), exist_ok=True)
    os.rename(path_of(folder, name), os.path.join(folder, "aside", "%s.%d" % (name, time.time_ns())))


def names_in(folder):
    """The names that have a file in a folder."""
    return sorted(entry.name[:-4] for entry in os.scandir(folder) if entry.name.endswith(".paw") and is_name(entry.name[:-4]))


# --- Words --------------------------------------------------------------------------------------------------------

def meaning(body):
    """What the words of pawhost that stand in place of a text mean."""
    return {"over": "The game is over.",
            "full": "This game has all the lines that it can keep.",
            "spent": "The game can't answer that: its answer would be too long. It stands where it was.",
            "too deep": "The game can't answer that: its tables call each other too deep. It stands where it was.",
            "refused": "What was kept of this game can't be read. Tell the host: nothing of it was changed."}.get(body, body)
