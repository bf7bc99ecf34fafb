"""Sessions that the program makes of lines: by playing them from the beginning, anew each time. No copy of a session is believed.

They are made in memory where the machine has a folder for that, since each line is synced as it is played.
"""
import contextlib
import hashlib
import os
import re
import shutil
import subprocess
import tempfile

import kept
import playing
import sessions
import signals

MEMORY, ROOM = "/dev/shm", re.compile(r"paw-seat\.(\d+)\.\w+")


def made_room(folders):
    """A folder in the first of these that can have one."""
    for folder in folders:
        with contextlib.suppress(OSError):
            return tempfile.TemporaryDirectory(prefix="paw-seat.%d." % os.getpid(), dir=folder)
    raise kept.Refused("there is no room for a file that is made on the way")


def sweep():
    """Takes away what seats that were killed have left in memory."""
    with contextlib.suppress(OSError):
        for name in os.listdir(MEMORY):
            found, path = ROOM.fullmatch(name), os.path.join(MEMORY, name)
            if found and not os.path.exists("/proc/" + found[1]) and os.lstat(path).st_uid == os.geteuid():
                shutil.rmtree(path, ignore_errors=True)


class Maker:
    """Makes sessions of the game of one image."""

    def __init__(self, program, image, digest, folder):
        self.program, self.image, self.digest, self.folder = program, image, digest, folder

    @contextlib.contextmanager
    def room(self):
        """A folder for sessions that nobody keeps. It goes with what was done there, whatever signal comes."""
        with signals.held():
            room = made_room((MEMORY, None, os.path.dirname(self.folder.session)))
        try:
            yield room.name
        finally:
            with signals.held():
                room.cleanup()

    def begun(self, game, room):
        """The words that begin a game in a session of its own: play with the seed, or resume the one that was kept."""
        path = os.path.join(room, "session")
        if game.digest != self.digest:
            raise kept.Refused("this was played with another image of the game")
        if not game.base:
            return [self.program, "play", self.image, path, str(game.seed)], path
        base = self.base(game)
        with open(path, "wb") as file:
            file.write(base)
        return [self.program, "resume", self.image, path], path

    def base(self, game):
        """The bytes of the session that a game begins with; the program looks at them when it resumes them."""
        path = self.folder.base(game.row)
        base = kept.content(path, sessions.LENGTH, b"")
        if hashlib.sha256(base).hexdigest() != game.base:
            raise kept.Refused("%s is damaged, which the lines begin with" % path)
        return base

    def run(self, words, lines=b""):
        """Runs the program; gives what it shows. It has to take all."""
        done = subprocess.run(words, input=lines, stdout=subprocess.PIPE, stderr=subprocess.PIPE, close_fds=False,
                              start_new_session=True, restore_signals=False)
        if done.returncode:
            said = done.stderr.decode("utf-8", "replace").strip()
            raise kept.Refused("the program says: %s" % said if said else "the program ended with status %d" % done.returncode)
        return done.stdout.decode("latin-1")

    def made(self, game, lines):
        """The bytes of the session behind these lines, and its state. It was resumed, and shows what it should."""
        with self.room() as room:
            words, path = self.begun(game, room)
            first = 0 if not game.base else sessions.now(path).lines
            shown = self.run(words, b"".join(line + b"\n" for line in lines))
            data = kept.content(path, sessions.LENGTH)
            state = self.checked(path, data)
        if not shown.endswith(state.text) or state.lines != first + len(lines):
            raise kept.Refused("the lines can't be played again")
        return data, state

    def checked(self, path, data):
        """The state of a session of these bytes, where the program resumes it with the text that they say."""
        shown = self.run([self.program, "resume", self.image, path])
        if not sessions.is_made(data) or sessions.game_of(data) != self.digest or sessions.state_of(data).text != shown:
            raise kept.Refused("%s isn't the session that it should be" % path)
        return sessions.state_of(data)

    def state(self, place):
        """The state at a place; None where it can't be made."""
        with contextlib.suppress(kept.Refused, OSError):
            return self.made(place.game, place.lines())[1]
        return None

    def is_at(self, place, data):
        """Whether the session of these bytes is at a place."""
        now = sessions.state_of(data)
        if place.game.digest != self.digest or not place.game.base and (place.game.seed, place.count) != (now.seed, now.lines):
            return False
        made = self.state(place)
        return bool(made) and made.is_same(now)

    def prepare(self, game, lines):
        """Makes the file that will take the place of the session: whole, synced, and resumed where it lies."""
        data, _ = self.made(game, lines)
        path = self.folder.made
        kept.write_synced(path, data)
        try:
            self.checked(path, kept.content(path, sessions.LENGTH))
            if kept.content(path, sessions.LENGTH) != data:
                raise kept.Refused("%s can't be read as it was written" % path)
        except BaseException:
            self.drop()
            raise

    def drop(self):
        with contextlib.suppress(OSError):
            os.remove(self.folder.made)

    def texts(self, game, lines):
        """The text that a game begins with, and then each line with the text that answers it, up to the end of the game or to a
        turn that is too long."""
        with self.room() as room:
            words, path = self.begun(game, room)
            program = playing.Playing(words, path)
            try:
                text = program.first()
                if text is None:
                    raise kept.Refused("the lines can't be played again")
                yield None, text
                for line in lines:
                    text = program.answer(line)
                    if text is None:
                        return
                    yield line, text
            finally:
                program.end()
