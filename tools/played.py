"""A game in play: its image, a seed and the lines typed, and beside them the session that the program keeps.

Each row of the lines is on the disk before the session is changed. So behind whatever was stopped the session is at the last row,
or at the one before it; then a row takes the last one back. A session that is elsewhere was played by the program alone: the lines
begin anew there. A session that is gone or damaged is made again of the lines.
"""
import contextlib
import hashlib
import os
import shutil
import time

import kept
import lines as rows
import making
import playing
import sessions

ATTACH = "outside failed: Attach"
OTHERS = "session is of another game", "session has other routines"
LOOKED_AT = 4  # rows at the end, the last of which may have come to nothing
PATIENCE = 10  # seconds for a program whose front end was killed to end
MOST_IMAGE = 4194304  # bytes


class Ended(Exception):
    """The program has ended: its status, and what it said."""

    def __init__(self, status, said):
        super().__init__(said)
        self.status, self.said = status, said


class NotKept(Exception):
    """A line that can't be kept wasn't taken: why, in words."""


def row_of(game):
    """The row that begins a game, or begins at a session of it."""
    if game.base:
        return "base", b"%s %s" % (game.digest.encode(), game.base.encode())
    return "game", b"%s %d" % (game.digest.encode(), game.seed)


class Played:
    """The game of an image that is kept in a session. What a player should know of what was found is in notes."""

    def __init__(self, program, path, image, digest, session):
        self.program, self.path, self.image, self.digest, self.session = program, path, image, digest, session
        self.folder = kept.Folder(session)
        self.lines = rows.Lines(self.folder.lines)
        self.maker = making.Maker(program, path, digest, self.folder)
        self.playing, self.notes = None, []
        self.base = None  # the file and the bytes of a session that the lines begin with, until it is on the disk

    # --- beginning and going on

    def sit_down(self):
        """Takes the seat, and what the lines tell."""
        self.folder.sit_down()
        making.sweep()
        self.lines.read()
        if self.lines.is_damaged:
            self.leave_damaged()

    def leave_damaged(self):
        """Puts lines aside that are damaged, and keeps those before the damage."""
        number = 1
        while os.path.lexists("%s.%d" % (self.lines.path, number)):
            number += 1
        aside = "%s.%d" % (self.lines.path, number)
        whole = kept.content(self.lines.path, rows.MOST)
        kept.write_synced(aside, whole)
        kept.write_whole(self.lines.path, whole[:self.lines.length])
        self.lines.is_damaged = False
        row = len(self.lines.places) + 1
        self.notes.append("The lines of this game are damaged from row %d on, and lie in %s now." % (row, aside))

    def data(self):
        """The bytes of the session; none where there is none."""
        data = kept.content(self.session, sessions.LENGTH + 1, b"")
        if os.path.exists(self.session) and os.path.samefile(self.session, self.path):
            raise kept.Refused("%s is the image itself" % self.session)
        return data

    def has_lines(self):
        """Whether the lines are those of a game of this image."""
        return bool(self.lines.now) and self.lines.now.game.digest == self.digest

    def is_begun(self):
        """Whether there is a game to go on with. A session that was cut off while it was made is put aside."""
        data = self.data()
        if sessions.was_cut_off(data):
            self.folder.put_aside()
            data = b""
        return bool(data) or self.has_lines()

    def begin(self, seed, typed=(), named=None):
        """Begins a game, with lines that are played at once, and names of places by how many of these lead there. One that is there is
        put aside: gives the name that it has now."""
        data = self.data()
        if data and not sessions.may_be_one(data):
            raise kept.Refused("%s is no session, and stays as it is" % self.session, 4)
        game = rows.Game(self.digest, seed=seed)
        self.maker.prepare(game, typed)
        self.stop()
        told = [row_of(game)]
        for count in range(len(typed) + 1):
            told += [("line", rows.written(typed[count - 1]))] if count else []
            told += [("save", name.encode()) for name in (named or {}).get(count, [])]
        aside = self.folder.copied_aside(rows.MOST) if data else None
        self.move(told, aside, is_new=not data)
        self.keep_image()
        return aside and aside.session

    def write(self, *told):
        """Has rows on the disk, and before them the session that the lines begin with. Where one of that fails all stays as it
        was, and gives why it failed."""
        try:
            if self.base:
                kept.write_synced(*self.base)
                self.base = None
        except OSError as fault:
            return fault.strerror
        return None if self.lines.added(*told) else self.lines.fault

    def move(self, told, aside=None, is_new=False):
        """Adds rows, and makes the file that was prepared the session. Where one of that fails all stays as it was."""
        stood = len(self.lines.places)
        try:
            fault = self.write(*told)
            if fault:
                raise kept.Refused("it can't be written: %s" % fault)
            self.put_in_place(aside, is_new)
        except (kept.Refused, OSError):
            self.maker.drop()
            if aside:
                shutil.rmtree(aside.folder, ignore_errors=True)
            if 0 < stood < len(self.lines.places):
                self.lines.add(("back", b"%d" % stood))
            raise

    def put_in_place(self, aside=None, is_new=False):
        """Makes the file that was prepared the session, while no program plays the one that is there, which may be put aside."""
        with contextlib.ExitStack() as held:
            if os.path.exists(self.session):
                held.enter_context(kept.held(self.session))
                if is_new and os.path.getsize(self.session):
                    raise kept.Refused("another program has just begun a game in %s" % self.session)
            if aside:
                os.rename(self.session, aside.session)
            os.replace(self.folder.made, self.session)
        kept.sync_folder(os.path.dirname(self.session))

    def keep_image(self):
        """Keeps the image beside the lines, so that their answers can be told where it changes."""
        with contextlib.suppress(OSError):
            if kept.content(self.folder.image, MOST_IMAGE, b"") != self.image:
                kept.write_whole(self.folder.image, self.image)

    def go_on(self):
        """Goes on with the game that is kept; gives the text that is shown again."""
        self.maker.drop()
        if not self.data():
            self.make_again()
        try:
            text = self.resume()
        except Ended as ended:
            if ended.status != 4 or not self.has_lines() or ended.said.startswith(OTHERS) or not sessions.may_be_one(self.data()):
                raise
            aside = self.folder.aside()
            self.make_again(aside)
            self.notes.append("What was kept is damaged, and lies in %s now. It was made again of the lines typed." % aside.session)
            text = self.resume()
        self.find_place()
        self.keep_image()
        return text

    def make_again(self, aside=None):
        """Makes the session of the lines: of all of them, or without the last one where its turn is too long."""
        for place in (self.lines.now, self.lines.before):
            try:
                self.maker.prepare(place.game, place.lines())
                break
            except kept.Refused:
                if place is self.lines.before or not self.lines.before:
                    raise
        if aside:
            os.makedirs(aside.folder, mode=0o700)
        self.put_in_place(aside)

    def resume(self):
        """Has the program resume the session. One that is about to end, since its seat was killed, is waited for."""
        words, end = [self.program, "resume", self.path, self.session], time.monotonic() + PATIENCE
        while True:
            begun = playing.Playing(words, self.session)
            text = begun.first()
            if text is not None:
                self.playing = begun
                return text
            status, said = begun.end()
            if said != ATTACH or time.monotonic() > end or not os.access(self.session, os.R_OK | os.W_OK):
                raise Ended(status, said)
            time.sleep(0.02)

    def find_place(self):
        """Finds where among the lines the session is. Where the last row came to nothing it is taken back."""
        data, last = self.data(), len(self.lines.places)
        for row in range(last, max(0, last - LOOKED_AT), -1):
            if self.lines.places[row - 1] and self.maker.is_at(self.lines.places[row - 1], data):
                if row < last:
                    self.lines.add(("back", b"%d" % row))
                return
        begun = self.begun_with(data)
        if begun:
            self.lines.add(row_of(begun))
            return
        self.begin_here(data)
        if last or sessions.state_of(data).lines:
            self.notes.append("What was typed up to here isn't kept as lines: /undo reaches back to here.")

    def begun_with(self, data):
        """The game that a session stands at the beginning of, where no line was typed yet: its seed is all of it."""
        state = sessions.state_of(data)
        game = rows.Game(self.digest, seed=state.seed)
        return game if not state.lines and self.maker.is_at(rows.Place(game), data) else None

    def begin_here(self, data):
        """Lets the lines begin at a session, of which a copy is kept. The program resumes that each time before it is used."""
        row = len(self.lines.places) + 1
        self.base = self.folder.base(row), data
        self.lines.take_along(row_of(rows.Game(self.digest, base=hashlib.sha256(data).hexdigest(), row=row)))
        self.write()

    # --- playing

    def turn(self, line):
        """Has the program take a line, which is kept before; gives the text that answers it. A line that can't be kept isn't
        taken."""
        line = line[:rows.LONGEST]
        fault = self.write(("line", rows.written(line)))
        if fault:
            raise NotKept("the line can't be kept: %s" % fault)
        text = self.playing.answer(line)
        if text is None:
            ended, self.playing = self.playing, None
            status, said = ended.end()
            if status in (5, 6):
                self.lines.add(("back", b"%d" % (len(self.lines.places) - 1)))
            raise Ended(status, said)
        return text

    def go_to(self, place):
        """Goes to a place among the lines."""
        self.maker.prepare(place.game, place.lines())
        self.stop()
        self.move([("back", b"%d" % self.lines.row_of(place))])

    def stop(self):
        if self.playing:
            playing_now, self.playing = self.playing, None
            playing_now.end()

    # --- places

    def names(self):
        """The names of places, of the lines and of earlier programs."""
        return sorted({*self.lines.names, *self.folder.saves()})

    def save(self, name):
        """Gives the place of now a name."""
        fault = self.write(("save", name.encode()))
        if fault:
            raise kept.Refused("it can't be written: %s" % fault)

    def load(self, name):
        """Goes to the place of a name."""
        if name in self.lines.names:
            self.go_to(self.lines.names[name])
            return
        path = self.folder.saves().get(name)
        if not path:
            raise kept.Refused("nothing was kept as %s" % name)
        self.load_session(path, name)

    def load_session(self, path, name):
        """Goes on from a session that an earlier program kept under a name, where the program resumes it."""
        data = kept.content(path, sessions.LENGTH)
        if not sessions.is_made(data):
            raise kept.Refused("what was kept as %s is damaged" % name)
        if sessions.game_of(data) != self.digest:
            raise kept.Refused("what was kept as %s is of another game" % name)
        row = len(self.lines.places) + 1
        game = rows.Game(self.digest, base=hashlib.sha256(data).hexdigest(), row=row)
        kept.write_synced(self.folder.base(row), data)
        self.maker.prepare(game, [])
        begun = self.begun_with(data)
        self.stop()
        self.move([row_of(begun or game)])

    def texts(self):
        """The text that the game begins with, and each line with the text that answers it."""
        return self.maker.texts(self.lines.now.game, self.lines.now.lines())
