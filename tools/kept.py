"""Where a player's games are kept, and files that are read and put in their places so that nothing is lost.

A session FILE has a folder FILE.kept beside it, with what a seat knows of the game: the lines typed, the image, and more.
"""
import contextlib
import errno
import fcntl
import os
import re
import shutil
import stat
import time

MOST_SAVES = 10000
PATIENCE = 1  # seconds for a seat that is just ending
SAVE = re.compile(r"save-([A-Za-z0-9_-]{1,40})")


class Refused(Exception):
    """Why something can't be done, in words, with the status to end with."""

    def __init__(self, why, status=7):
        super().__init__(why)
        self.status = status


def data_folder():
    """The player's folder of sessions, made where it is missing."""
    data = os.environ.get("XDG_DATA_HOME", "")
    if not data.startswith("/"):
        home = os.environ.get("HOME")
        if not home:
            raise Refused("there is no HOME")
        data = os.path.join(home, ".local", "share")
    folder = os.path.join(data, "paw")
    try:
        os.makedirs(folder, mode=0o700, exist_ok=True)
    except (OSError, ValueError) as fault:
        raise Refused("%s: %s" % (folder, getattr(fault, "strerror", fault))) from fault
    if not os.access(folder, os.W_OK | os.X_OK):
        raise Refused("%s can't be written" % folder)
    return folder


# --- Files ---------------------------------------------------------------------------------------------------------

def content(path, most, none=None):
    """The bytes of a regular file, at most so many; what isn't there has those that are named for that, where any are."""
    try:
        file = os.open(path, os.O_RDONLY | os.O_NONBLOCK | os.O_CLOEXEC)
    except FileNotFoundError:
        if none is None:
            raise
        return none
    if not stat.S_ISREG(os.fstat(file).st_mode):
        os.close(file)
        raise Refused("%s is no regular file" % path)
    with open(file, "rb") as opened:
        data = opened.read(most + 1)
    if len(data) > most:
        raise Refused("%s is too long: it has more than %d bytes" % (path, most))
    return data


def write_whole(path, data):
    """Makes or replaces a file in one step: whatever stops this, the file is as it was or has all of the data."""
    write_synced(path + ".new", data)
    os.replace(path + ".new", path)
    sync_folder(os.path.dirname(path))


def write_synced(path, data):
    """Makes a file; where that fails there is none."""
    try:
        with open(path, "wb") as file:
            file.write(data)
            file.flush()
            os.fsync(file.fileno())
    except BaseException as fault:
        with contextlib.suppress(OSError):
            os.remove(path)
        if isinstance(fault, OSError):
            raise OSError(fault.errno, fault.strerror, path) from fault
        raise


def sync_folder(path):
    """Has the names in a folder on the disk."""
    folder = os.open(path, os.O_RDONLY)
    try:
        os.fsync(folder)
    finally:
        os.close(folder)


@contextlib.contextmanager
def held(path):
    """Keeps programs from playing a session for a while. A file system that has no locks keeps nobody away."""
    with open(path, "rb") as file:
        try:
            fcntl.flock(file, fcntl.LOCK_EX | fcntl.LOCK_NB)
        except OSError as fault:
            if fault.errno == errno.EWOULDBLOCK:
                raise Refused("another program plays %s right now" % path) from fault
        yield


def is_held(path):
    """Whether another program plays a session; a file that can't be opened is played by nobody."""
    try:
        with held(path):
            return False
    except Refused:
        return True
    except OSError:
        return False


# --- The folder of a session ---------------------------------------------------------------------------------------

class Folder:
    """The files that belong to a session."""

    def __init__(self, session):
        self.session, self.folder, self.seat = session, session + ".kept", None
        self.lines, self.image = self.path("played"), self.path("image")
        self.history = self.path("lines")
        self.made = session + ".new"

    def path(self, name):
        return os.path.join(self.folder, name)

    def base(self, row):
        """A session that the game was gone on with, at this row."""
        return self.path("base-%d" % row)

    def sit_down(self):
        """Keeps other seats from this session as long as this one runs, however it ends. One that is just ending is waited for."""
        with contextlib.suppress(OSError):
            if not os.path.isdir(self.folder):
                os.makedirs(self.folder, mode=0o700, exist_ok=True)
                sync_folder(os.path.dirname(self.folder))
            self.seat = open(self.path("seat"), "ab")
            end = time.monotonic() + PATIENCE
            while True:
                try:
                    fcntl.flock(self.seat, fcntl.LOCK_EX | fcntl.LOCK_NB)
                    return
                except BlockingIOError as fault:
                    if time.monotonic() > end:
                        raise Refused("%s is played in another window right now" % self.session) from fault
                time.sleep(0.02)

    def files(self):
        """The paths of all files that belong to the session, and of the session."""
        found = [self.session, self.made]
        with contextlib.suppress(OSError):
            found += [self.path(name) for name in os.listdir(self.folder)]
        return found

    def saves(self):
        """Sessions that earlier programs kept under a name."""
        with contextlib.suppress(OSError):
            found = [SAVE.fullmatch(name) for name in os.listdir(self.folder)]
            return {name[1]: self.path(name[0]) for name in found[:MOST_SAVES] if name}
        return {}

    def aside(self):
        """A folder for a session that is put aside, of a name that isn't taken."""
        number = 1
        while os.path.lexists("%s.%d" % (self.session, number)) or os.path.lexists("%s.%d.kept" % (self.session, number)):
            number += 1
        return Folder("%s.%d" % (self.session, number))

    def copied_aside(self, most):
        """A folder beside the name that the session will have, with what it needs to be gone on with: the lines, the image, and the
        sessions that the lines begin with. Where that fails there is none."""
        aside = self.aside()
        os.makedirs(aside.folder, mode=0o700)
        try:
            for name in os.listdir(self.folder) if os.path.isdir(self.folder) else []:
                if name in ("played", "image") or name.startswith("base-"):
                    write_synced(aside.path(name), content(self.path(name), most))
            sync_folder(aside.folder)
        except BaseException:
            shutil.rmtree(aside.folder, ignore_errors=True)
            raise
        return aside

    def put_aside(self):
        """Moves a session of which nothing was shown to a file with a number behind the name."""
        with held(self.session):
            os.rename(self.session, self.aside().session)
