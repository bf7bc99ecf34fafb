"""What computes the texts of a host: sessions in a folder in memory, which pawhosts play, each by a name of its own.

A session here is never believed to be more than what its lines make of it: whoever doubts it throws it away and has it made again.
Its file has a name that no other had before. So what pawhost still knows of one that was thrown away harms nothing.
"""
import asyncio
import collections
import concurrent.futures
import contextlib
import fcntl
import os
import shutil
import subprocess
import tempfile
import time

import common
import images
import sessions

MEMORY = "/dev/shm"             # what is written there is never on a disk
OURS = "paw-serve-"             # how folders of servers are named
KEY = 3                         # the prompt of a session that waits for a key
ATTEMPTS = 2                    # how often a session is made, and a line played, where a pawhost ends
MAKERS = 4                      # sessions that are made at once
HOSTS = 4                       # pawhosts of an image
MOST_ASKED = 32                 # lines that a pawhost is handed before it has answered them: its input holds more
LONGEST_ASKED = 255             # bytes of such a line that count
REPLY = bytearray(common.LONGEST_REPLY)
PATIENCE = 5                    # seconds for another server to begin
LEAST = 64                      # sessions that are kept, however little memory there is

# What the file of a session shows beside its text: the number of the place, or None in the dark, and the flags that were asked for.
# By its inode the file is known from one that was made in its stead.
Look = collections.namedtuple("Look", "inode lines prompt place score turns flags")


class NoRoom(Exception):
    """There is no memory for a session."""


class Broken(Exception):
    """A session that can't be made or played, though its image can: the words say how it failed."""


def look_of(path, flags=()):
    """What the file of a session shows, these flags by their values among it."""
    file = os.open(path, os.O_RDONLY | os.O_CLOEXEC)
    try:
        found = os.fstat(file)
        if found.st_size != sessions.LENGTH:
            raise Broken("its file has another length")
        slot = sessions.SLOTS + sessions.SLOT * (os.pread(file, 2, 0)[1] % 2)
        head = os.pread(file, sessions.BASE + 1048, slot)
        base, count = head[sessions.BASE:], min(int.from_bytes(head[:2], "little"), 4096)
        records = os.pread(file, 4 * count, slot + sessions.RECORDS)
    finally:
        os.close(file)
    lows, highs, values = records[::4], records[1::4], records[2::4]

    def state(at):
        """The byte at an offset: that of its last record, or else that of the base. There may be thousands of records."""
        found = lows.rfind(at % 256)
        while found >= 0 and highs[found] != at // 256:
            found = lows.rfind(at % 256, 0, found)
        return base[at] if found < 0 else values[found]

    has_light = not state(0) or state(256) in (state(38), 253, 254)
    return Look(found.st_ino, int.from_bytes(map(state, range(1039, 1047)), "little"), state(1047), state(38) if has_light else None,
                state(30), state(31) + 256 * state(32), {flag: state(flag) for flag in flags})


# --- The folder ----------------------------------------------------------------------------------------------------

class Room:
    """A folder in memory of one server, which goes with it. What servers left that were killed is taken away first."""

    def __init__(self, parent=MEMORY):
        parent = parent if os.access(parent, os.W_OK) else tempfile.gettempdir()
        with alone_in(parent) as is_alone:  # so nobody sweeps a folder away that is being made
            if is_alone:
                sweep(parent)
            self.path = tempfile.mkdtemp(prefix="%s%d-" % (OURS, os.getuid()), dir=parent)
            self.held = hold(os.path.join(self.path, ".held"))

    def end(self):
        shutil.rmtree(self.path, ignore_errors=True)


@contextlib.contextmanager
def alone_in(parent):
    """Whether servers that begin here at the same time wait until this is done; they don't where somebody keeps them from it."""
    file, end = os.open(parent, os.O_RDONLY | os.O_CLOEXEC), time.monotonic() + PATIENCE
    try:
        while True:
            try:
                fcntl.flock(file, fcntl.LOCK_EX | fcntl.LOCK_NB)
                is_alone = True
                break
            except OSError:
                is_alone = False
                if time.monotonic() > end:
                    break
                time.sleep(0.01)
        yield is_alone
    finally:
        os.close(file)


def hold(path):
    """Holds a file as long as this process lives; None where another one holds it."""
    file = os.open(path, os.O_RDWR | os.O_CREAT | os.O_CLOEXEC | os.O_NOFOLLOW, 0o600)
    try:
        fcntl.flock(file, fcntl.LOCK_EX | fcntl.LOCK_NB)
        return file
    except OSError:
        os.close(file)
        return None


def sweep(parent):
    """Takes away the folders of this user's servers that run no more."""
    for entry in os.scandir(parent):
        with contextlib.suppress(OSError):
            if entry.name.startswith("%s%d-" % (OURS, os.getuid())) and entry.is_dir(follow_symlinks=False):
                held = hold(os.path.join(entry.path, ".held"))
                if held is not None:
                    shutil.rmtree(entry.path, ignore_errors=True)
                    os.close(held)


# --- One game's texts ----------------------------------------------------------------------------------------------

class Pawhost:
    """A pawhost that answers in turn what it is asked; nothing else waits for it. Where it ends, what it was to answer first is
    Ended, and the rest goes to one that is begun anew."""

    def __init__(self, folder, image, tells):
        self.folder, self.image, self.tells = folder, image, tells
        self.host, self.loop, self.timer, self.since = None, None, None, 0
        self.waiting, self.asked = collections.deque(), collections.deque()  # what it was not handed yet, and what it was

    def ask(self, name, text=None):
        """The future of the body of its reply to a line, or to the name alone."""
        if text and b"\n" in text:
            raise ValueError("a line end in a line")
        self.loop = asyncio.get_running_loop()
        line, body = name.encode("ascii") + (b"" if text is None else b" " + text), self.loop.create_future()
        self.waiting.append((name, line[:LONGEST_ASKED] + b"\n", body))
        if not self.asked:
            self.hand_over()
        return body

    def hand_over(self):
        """Hands over what waits in one write, as much as surely fits into its input."""
        if self.waiting and self.host is None:
            try:
                self.begin()
            except OSError as fault:
                while self.waiting:
                    fail(self.waiting.popleft()[2], fault)
        lines = []
        while self.waiting and len(self.asked) < MOST_ASKED:
            self.asked.append(self.waiting.popleft())
            lines.append(self.asked[-1][1])
        if lines:
            self.host.write(b"".join(lines))
        self.since = time.monotonic()

    def begin(self):
        self.host = common.Host(self.folder, self.image, 0)
        self.host.output.setblocking(False)
        self.loop.add_reader(self.host.output, self.hear)
        self.timer = self.timer or self.loop.call_later(common.SLOWEST, self.look_after)

    def hear(self):
        """Takes the replies that are there, and hands over what waits."""
        try:
            self.hear_one()
            while self.asked:
                self.hear_one()
        except BlockingIOError:
            pass
        except (common.Ended, OSError, ValueError) as fault:
            self.end_with(fault)
        self.hand_over()

    def hear_one(self):
        """Takes the next reply, which is that to what was asked first."""
        length = self.host.output.recv_into(REPLY)
        name, _, body = self.asked[0] if self.asked else ("?", None, None)
        text = self.host.body(name, REPLY[:length])
        self.asked.popleft()
        if not body.done():
            body.set_result(text)

    def end_with(self, fault):
        """It has ended, or has to: what it was to answer first has no answer."""
        self.stop()
        self.tells("ended")
        if self.asked:
            fail(self.asked.popleft()[2], fault)
        self.waiting.extendleft(reversed(self.asked))
        self.asked.clear()

    def look_after(self):
        """Ends it where it has answered nothing for too long, which is then heard."""
        left, self.timer = common.SLOWEST, None
        if self.asked:
            left += self.since - time.monotonic()
        if self.host:
            if left <= 0:
                self.host.process.kill()
            self.timer = self.loop.call_later(max(left, 1), self.look_after)

    def stop(self):
        """Ends it at once, whatever it does."""
        host, self.host = self.host, None
        if host:
            if not self.loop.is_closed():
                self.loop.remove_reader(host.output)
            host.process.kill()
            with contextlib.suppress(OSError):
                host.end()


def fail(future, fault):
    if not future.done():
        future.set_exception(fault)


class Engine:
    """The texts of one image: sessions that are made from lines, and pawhosts that play them, each one line at a time. One that
    ends is begun anew. A session belongs to one of them, which may hold its lock. Of each state these flags are told."""

    def __init__(self, data, room, tells=lambda event: None, flags=()):
        self.places, self.flags = images.places(data), flags
        self.folder = os.path.join(room, images.digest(data))
        os.makedirs(self.folder, mode=0o700)
        self.image = os.path.join(self.folder, "image")
        with open(self.image, "wb") as file:
            file.write(data)
        self.paw = common.program("paw")
        self.hosts = [Pawhost(self.folder, self.image, tells) for _ in range(HOSTS)]
        self.makers = concurrent.futures.ThreadPoolExecutor(MAKERS)

    def path(self, file):
        return common.path_of(self.folder, file)

    def ask(self, file, text=None):
        """The future of the body of pawhost's reply to a line for a session, or to the session alone. Where it ends it is Ended,
        and this session alone has to be made again."""
        return self.hosts[int(file[1:]) % HOSTS].ask(file, text)

    async def make(self, file, seed, lines, base=None):
        """Makes a session of the lines, from its seed on, or from a session that it begins with."""
        loop = asyncio.get_running_loop()
        return await loop.run_in_executor(self.makers, self.made, file, seed, lines, base)

    def made(self, file, seed, lines, base):
        path, words = self.path(file), ["play", self.image, self.path(file), str(seed)]
        try:
            if base is not None:
                with open(path, "wb") as out:
                    out.write(base)
                words = ["resume", self.image, path]
            done = subprocess.run([self.paw, *words], input=b"".join(line + b"\n" for line in lines), stdout=subprocess.DEVNULL,
                                  stderr=subprocess.PIPE, timeout=common.SLOWEST)
        except OSError as fault:
            raise NoRoom(fault.strerror) from fault
        except subprocess.TimeoutExpired as fault:
            raise Broken("its lines take too long") from fault
        if done.returncode in (7, 8):
            raise NoRoom(done.stderr.decode("latin-1").strip())
        if done.returncode not in (0, 5, 6):  # a line that can't be answered ends it, which the count of lines shows
            raise Broken(done.stderr.decode("latin-1").strip())
        return look_of(path, self.flags)

    def look(self, file):
        return look_of(self.path(file), self.flags)

    def place(self, look):
        """The title of the place where a session is."""
        if look.place is None:
            return "In the dark"
        text = self.places[look.place] if look.place < len(self.places) else ""
        title = text.strip().split("\n")[0].strip()
        return title if len(title) <= 60 else ""

    def forget(self, file):
        with contextlib.suppress(OSError):
            os.unlink(self.path(file))

    def end(self):
        self.makers.shutdown(wait=False)
        for host in self.hosts:
            host.stop()


# --- Sessions in memory --------------------------------------------------------------------------------------------

class Session:
    """A session in memory: where its game stands, what its file shows, and the last text. One in use doesn't go for others."""

    def __init__(self, found, file, player, stand, look):
        self.engine, self.file, self.player, self.stand, self.look = found, file, player, stand, look
        self.text, self.in_use = "", 0


class Sessions:
    """As many sessions as there is room for; those that were used least lately go."""

    def __init__(self, most):
        self.most, self.found, self.number = max(LEAST, most), collections.OrderedDict(), 0

    def file(self):
        """A name for a file that no other had."""
        self.number += 1
        return "s%d" % self.number

    def get(self, who):
        session = self.found.get(who)
        if session:
            self.found.move_to_end(who)
        return session

    def put(self, who, session):
        self.drop(who)
        self.found[who] = session
        self.let_go(len(self.found) - self.most)

    def drop(self, who):
        session = self.found.pop(who, None)
        if session:
            session.engine.forget(session.file)

    def let_go(self, count):
        """Lets some go that nobody plays right now, this many where there are as many."""
        for who in [who for who, session in self.found.items() if not session.in_use][:max(0, count)]:
            self.drop(who)
