"""Games in play of one image, by name. Each is its seed and its lines; the session is made of them, and again where it is gone.

A line is played over the session in memory first, and kept then: before that nobody has its answer. So a line that was answered is
kept, and one that wasn't can be sent again.
"""
import collections
import contextlib
import os
import secrets
import string

import engines
import kept
import lines as rows
import sessions
from asked import Refusal

MOST_GAMES = 10000
MOST_OPEN = 64              # games whose session, and in a folder whose files, are at hand
LONGEST_RANDOM = 16         # letters of a name that nobody guesses
ENDING = ".session"         # of the file that a seat would keep beside the lines

Stand = collections.namedtuple("Stand", "data state")  # the bytes of a session, and the state that they show

NO_TURN = {5: ("spent", "The game can't answer that: its answer would be too long. It stands where it was."),
           6: ("deep", "The game can't answer that: its tables call each other too deep. It stands where it was."),
           9: ("full", "This game has all the lines that it can keep.")}
NO_ROOM = (7, 8, engines.NO_MEMORY)  # statuses: over files in memory a call fails for lack of room alone


def new_name():
    return "".join(secrets.choice(string.ascii_lowercase) for _ in range(LONGEST_RANDOM))


def stand_of(answer):
    """What a command leaves, where it took its lines."""
    if answer.status in NO_TURN:
        raise Refusal(*NO_TURN[answer.status])
    if answer.status in NO_ROOM:
        raise Refusal("room", "There is no room for that now. The game stands where it was.")
    if answer.status or answer.left is None:
        raise engines.Broken("the program says: %s" % answer.said.decode("latin-1").strip())
    return Stand(answer.left, sessions.state_of(answer.left))


class InMemory(rows.Lines):
    """The lines of a game that is kept nowhere else."""

    def write(self):
        self.waiting = b""


class Game:
    """A game in play."""

    def __init__(self, name, engine, lines, folder=None):
        self.name, self.engine, self.lines, self.folder = name, engine, lines, folder
        self.at = None

    @property
    def count(self):
        return self.lines.now.count

    def stand(self):
        """Where the game stands."""
        if self.at is None:
            self.at = self.made(self.lines.now)
        return self.at

    def made(self, place):
        """Where it stands at a place among its lines."""
        stand = stand_of(self.engine.play(place.game.seed, place.lines()))
        if stand.state.lines != place.count:
            raise engines.Broken("the lines can't be played again")
        return stand

    def keep(self, *row):
        """Adds a row, or changes nothing."""
        if not self.lines.added(row):
            raise Refusal("disk", "That can't be kept: %s. The game stands where it was." % self.lines.fault)

    def take(self, number, line):
        """Takes a line as the one of this number; gives where the game stands behind it. One that is there counts once."""
        now = self.lines.now
        if number <= now.count:
            place = now.back(now.count - number)
            if place.line == line:
                return self.stand() if place is now else self.made(place)
        if number != now.count + 1:
            other = ", and its line %d is another one" % number if number <= now.count else ""
            raise Refusal("number", "The game stands at line %d%s." % (now.count, other))
        before = self.stand()
        if before.state.prompt == sessions.OVER:
            raise Refusal("over", "The game is over.")
        after = stand_of(self.engine.resume(before.data, line))
        self.keep("line", rows.written(line))
        self.at = after
        return after

    def undo(self, count):
        """Goes back to the first lines, so many."""
        now = self.lines.now
        if count > now.count:
            raise Refusal("number", "The game stands at line %d." % now.count)
        if count < now.count:
            place = now.back(now.count - count)
            before = self.made(place)
            self.keep("back", b"%d" % self.lines.row_of(place))
            self.at = before
        return self.stand()

    def settle(self):
        """Takes away the session that a seat has left, where the lines make the same; they are all that is kept here."""
        if self.lines.now.game.base:
            raise Refusal("elsewhere", "The lines of this game begin with a session that only paw GAME.img goes on with.")
        session = self.folder.session
        try:
            with kept.held(session):
                data = kept.content(session, sessions.LENGTH)
                if not sessions.is_made(data) or not sessions.state_of(data).is_same(self.stand().state):
                    raise Refusal("elsewhere", "Its session is elsewhere than its lines; paw --session goes on with it.")
                os.remove(session)
        except FileNotFoundError:
            pass
        except kept.Refused as why:
            raise busy() from why

    def close(self):
        """Lets go of what makes it quick, and in a folder of its files, so that another program can play it."""
        self.at = None
        if self.folder:
            self.lines.close()
            if self.folder.seat:
                self.folder.seat.close()


def taken():
    return Refusal("taken", "There is a game of this name.")


def busy():
    return Refusal("busy", "Another program plays this game.")


class Games:
    """The games of one image that are in play, in memory."""

    def __init__(self, engine):
        self.engine, self.found, self.at_hand = engine, {}, collections.OrderedDict()

    def count(self):
        return len(self.found)

    def begin(self, name, seed):
        """Begins a game; without a name or a seed with those of the system."""
        if self.count() >= MOST_GAMES:
            raise Refusal("crowded", "There are %d games, which is the most." % MOST_GAMES)
        game = self.fresh(name or new_name())
        told = rows.Game(self.engine.digest, seed=secrets.randbits(64) if seed is None else seed)
        with closed_where_refused(game):
            game.at = game.made(rows.Place(told))
            game.keep("game", b"%s %d" % (told.digest.encode(), told.seed))
        return self.used(game)

    def fresh(self, name):
        """A game of a name that no other has."""
        if name in self.found:
            raise taken()
        return Game(name, self.engine, InMemory(None))

    def get(self, name):
        return self.used(self.found.get(name) or self.opened(name))

    def opened(self, _):
        """A game that isn't in memory."""
        raise Refusal("unknown", "There is no game of this name.")

    def used(self, game):
        """Has a game at hand, and lets go of the one that was used least lately where there are too many."""
        self.found[game.name] = self.at_hand[game.name] = game
        self.at_hand.move_to_end(game.name)
        if len(self.at_hand) > MOST_OPEN:
            self.let_go(self.at_hand.popitem(last=False)[1])
        return game

    def let_go(self, game):
        game.close()

    def end(self, name):
        """Forgets a game; in a folder its files stay."""
        game = self.get(name)
        del self.found[name], self.at_hand[name]
        game.close()


class GamesInFolder(Games):
    """The same, kept in a folder: those at hand are held against other programs."""

    def __init__(self, engine, folder):
        super().__init__(engine)
        self.folder = folder
        os.makedirs(folder, mode=0o700, exist_ok=True)

    def count(self):
        return len(os.listdir(self.folder))

    def files(self, name):
        return kept.Folder(os.path.join(self.folder, name + ENDING))

    def seated(self, name):
        """A game with the lines that are kept. Its files are this program's as long as it is at hand."""
        files = self.files(name)
        try:
            files.sit_down()
        except kept.Refused as why:
            raise busy() from why
        game = Game(name, self.engine, rows.Lines(files.lines), files)
        with closed_where_refused(game):
            game.lines.read()
        return game

    def fresh(self, name):
        if name in self.found or os.path.lexists(self.files(name).session):
            raise taken()
        game = self.seated(name)
        with closed_where_refused(game):
            if game.lines.now or game.lines.is_damaged:
                raise taken()
        return game

    def opened(self, name):
        if not os.path.lexists(self.files(name).session) and not os.path.lexists(self.files(name).lines):
            super().opened(name)
        game = self.seated(name)
        with closed_where_refused(game):
            self.look_over(game)
        return game

    def look_over(self, game):
        """Sees whether the lines that were kept are a game of this image, and all that there is of it."""
        lines = game.lines
        if lines.is_damaged:
            raise Refusal("damaged", "What was kept of this game is damaged from row %d on. Nothing of it was changed." %
                          (len(lines.places) + 1))
        if lines.now is None and os.path.lexists(game.folder.session):
            raise Refusal("elsewhere", "There is a session of this name without its lines; paw --session goes on with it.")
        if lines.now is None:
            super().opened(game.name)  # it was stopped while its first row was written
        if lines.now.game.digest != self.engine.digest:
            raise Refusal("image", "This game was played with another image.")
        game.settle()

    def let_go(self, game):
        super().let_go(game)
        del self.found[game.name]


@contextlib.contextmanager
def closed_where_refused(game):
    try:
        yield
    except BaseException:
        game.close()
        raise
