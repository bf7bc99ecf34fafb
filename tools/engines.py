"""What plays the lines of a game: the program over files in memory, or the module that browsers have, in node.

Both are asked for the same commands in the same words, and answer alike: docs/FORMATS.md says what a page asks.
"""
import collections
import contextlib
import os
import struct
import subprocess
import threading

import images
import kept
import making
import sessions

SLOWEST = 60  # seconds for an answer
NO_MEMORY = 254  # the status where not even a reply has room
LONGEST_MODULE, MARK = 2 ** 24, b"\0asm"
IMAGE, SESSION = "image", "session"  # what the files are called
HARNESS = os.path.join(os.path.dirname(os.path.abspath(__file__)), "module.js")

# How a command ended: its status, what was said, what was shown, and the session that it left, None where there is none.
Answer = collections.namedtuple("Answer", "status said shown left")


class Broken(Exception):
    """The program, or node, can't be run or doesn't answer: why, in words."""


# --- Requests and replies as bytes ---------------------------------------------------------------------------------

def number(value):
    return struct.pack("<I", value)


def part(data):
    return number(len(data)) + data


def listed(parts):
    return number(len(parts)) + b"".join(parts)


def request_of(words, files, lines):
    """The bytes of a request: words, files by name, and lines."""
    return b"".join([listed([part(word) for word in words]),
                     listed([part(name.encode()) + part(data) for name, data in files.items()]),
                     listed([part(line) for line in lines])])


def answer_in(reply):
    """What the bytes of a reply say."""
    if len(reply) <= 1:
        return Answer(reply[0] if reply else NO_MEMORY, b"", b"", None)
    found, at = [], 1
    for _ in range(2):
        length = struct.unpack_from("<I", reply, at)[0]
        found.append(reply[at + 4:at + 4 + length])
        at += 4 + length
    return Answer(reply[0], *found, reply[at + 5:] if reply[at] else None)


class Module:
    """The module in node, asked one request after the other."""

    def __init__(self, path):
        try:
            self.node = subprocess.Popen(["node", HARNESS, path], stdin=subprocess.PIPE, stdout=subprocess.PIPE,
                                         stderr=subprocess.DEVNULL, start_new_session=True)
        except OSError as fault:
            raise Broken("node can't be run: %s" % fault.strerror) from fault

    def __enter__(self):
        return self

    def __exit__(self, *_):
        with contextlib.suppress(BrokenPipeError):
            self.node.stdin.close()
        self.node.stdout.close()
        self.node.wait()

    def ask(self, request):
        """The bytes of the reply; Broken where none comes."""
        late = threading.Timer(SLOWEST, self.node.kill)
        late.start()
        try:
            self.node.stdin.write(part(request))
            self.node.stdin.flush()
            head = self.node.stdout.read(4)
            reply = self.node.stdout.read(struct.unpack("<I", head)[0]) if len(head) == 4 else None
        except BrokenPipeError:
            reply = None
        finally:
            late.cancel()
        if reply is None:
            raise Broken("node doesn't answer")
        return reply


# --- Engines of one game -------------------------------------------------------------------------------------------

class Engine:
    """What plays one image. A session that it leaves is bytes, of which nothing else is kept."""

    def __init__(self, data):
        self.data, self.digest = data, images.digest(data)

    def play(self, seed, lines):
        """Begins with a seed, and takes lines."""
        return self.answer([b"play", IMAGE.encode(), SESSION.encode(), b"%d" % seed], {}, lines)

    def resume(self, session, line):
        """Goes on with a session, by one line."""
        return self.answer([b"resume", IMAGE.encode(), SESSION.encode()], {SESSION: session}, [line])


class ByProgram(Engine):
    """The program, run for each answer over files in a room in memory."""

    def __init__(self, data, program):
        super().__init__(data)
        self.program = program
        making.sweep()
        self.room = making.made_room((making.MEMORY, None))
        self.put(IMAGE, data)

    def __enter__(self):
        return self

    def __exit__(self, *_):
        self.room.cleanup()

    def path(self, name):
        return os.path.join(self.room.name, name)

    def put(self, name, data):
        with open(self.path(name), "wb") as file:
            file.write(data)

    def answer(self, words, files, lines):
        with contextlib.suppress(FileNotFoundError):
            os.remove(self.path(SESSION))
        try:
            for name, data in files.items():
                self.put(name, data)
            ran = subprocess.run([self.program, *words], cwd=self.room.name, input=b"".join(line + b"\n" for line in lines),
                                 stdout=subprocess.PIPE, stderr=subprocess.PIPE, timeout=SLOWEST, start_new_session=True)
            return Answer(ran.returncode, ran.stderr, ran.stdout, kept.content(self.path(SESSION), sessions.LENGTH, b"") or None)
        except (kept.Refused, OSError) as fault:
            raise Broken(getattr(fault, "strerror", None) or str(fault)) from fault
        except subprocess.TimeoutExpired:
            raise Broken("the program takes too long") from None


class ByModule(Engine):
    """The module in node, which is begun anew where it has ended."""

    def __init__(self, data, path):
        super().__init__(data)
        self.path, self.module = path, None
        if not kept.content(path, LONGEST_MODULE).startswith(MARK):
            raise Broken("%s is no module" % path)

    def __enter__(self):
        return self

    def __exit__(self, *_):
        if self.module:
            self.module.__exit__()

    def answer(self, words, files, lines):
        self.module = self.module or Module(self.path)
        try:
            return answer_in(self.module.ask(request_of(words, {IMAGE: self.data, **files}, lines)))
        except Broken:
            self.module.__exit__()
            self.module = None
            raise
