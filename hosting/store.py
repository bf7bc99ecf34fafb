"""The store of lines: what a host keeps, in SQLite or in PostgreSQL, and all that it keeps.

A game in play is its lines: by the image, the seed and the lines every text is given. So there is a row for each player, one for
each line that was taken, and one for each image that somebody began with. A number can be taken once, and a key can be taken once; the
schema sees to both. What is written together is one transaction of a thread of its own: lines of different names share a commit. What
failed is raised as Failed; whether it stands in the store is then unknown, and the key of a line tells.
"""
import collections
import concurrent.futures
import contextlib
import fcntl
import math
import os
import queue
import re
import sqlite3
import threading
import time

MOST_AT_ONCE = 500   # changes that share a commit
READERS = 4          # reads at once
PATIENCE = 10        # seconds for another program to end its change
HOUR = 3600
QUICK = 0.005        # seconds of a commit that a thread with other work may wait for
SHARE = 10           # such a thread gives to slower ones one part of so many of its time

SCHEMA = """
create table if not exists player (
  game text not null, name text not null, seed text not null, image text not null, generation bigint not null,
  begun bigint not null, seen bigint not null, base {bytes}, primary key (game, name));
create table if not exists line (
  game text not null, name text not null, generation bigint not null, n bigint not null, key text not null, text text not null,
  at bigint not null, primary key (game, name, generation, n), unique (game, name, key));
create table if not exists image (digest text not null primary key, data {bytes} not null)
"""
PLAYER = "game, name, seed, image, generation, begun, seen"
# A line is taken where its player stands at this generation, and at this line; the lock keeps the player there until the commit.
TAKE = """
insert into line (game, name, generation, n, key, text, at)
select game, name, generation, ?, ?, ?, ? from player where game = ? and name = ? and generation = ? and seed = ? and image = ?
and (? = 0 or exists (select 1 from line before where before.game = player.game and before.name = player.name
                      and before.generation = player.generation and before.n = ? and before.key = ?))
{lock} on conflict do nothing
"""
SEEN = "update player set seen = ? where game = ? and name = ?"
GAME_IN_PLAY = """
select p.seed, p.image, p.generation, p.begun, p.seen, p.base is not null, l.n, l.key, l.text, l.at
from player p left join line l on l.game = p.game and l.name = p.name and l.generation = p.generation and l.n > ?
where p.game = ? and p.name = ? order by l.n
"""
LAST = """
select p.generation, l.n, l.key from player p left join line l
on l.game = p.game and l.name = p.name and l.generation = p.generation
where p.game = ? and p.name = ? order by l.n desc limit 1
"""

Player = collections.namedtuple("Player", "game name seed image generation begun seen has_base", defaults=[False])
Line = collections.namedtuple("Line", "n key text at")
# Where a game stands: behind the line n, which has this key, in this generation. Before the first line n is 0, the key empty.
Stand = collections.namedtuple("Stand", "generation n key")


class Failed(Exception):
    """The store could not be read, or not be changed; a change that failed may stand there all the same."""


class Wrong(Exception):
    """An address of a store that nothing can be kept in; the words are for the operator."""


# --- The two engines -----------------------------------------------------------------------------------------------

class Sqlite:
    """One file of this machine, which nobody else can read."""

    failures, lock, begins, is_local = (sqlite3.Error, OSError), "", "begin immediate", True

    def __init__(self, path):
        self.path = os.path.abspath(path)

    def connect(self, patience=PATIENCE):
        with contextlib.suppress(FileExistsError):
            os.close(os.open(self.path, os.O_CREAT | os.O_EXCL | os.O_RDWR, 0o600))
        connection = sqlite3.connect(self.path, patience, isolation_level=None, check_same_thread=False)
        connection.execute("pragma journal_mode = wal")
        connection.execute("pragma synchronous = full")
        return connection

    def make(self, connection):
        connection.executescript("begin immediate;" + SCHEMA.format(bytes="blob") + "; commit")

    @contextlib.contextmanager
    def turn(self, waits=True):
        """A program's turn to change the file. SQLite itself looks more and more seldom whether another one is done, so that some
        would wait for very long. Who doesn't wait is told by BlockingIOError that another one has it."""
        file = os.open(self.path + "-turn", os.O_CREAT | os.O_RDWR | os.O_CLOEXEC, 0o600)
        try:
            fcntl.flock(file, fcntl.LOCK_EX if waits else fcntl.LOCK_EX | fcntl.LOCK_NB)
            yield
        finally:
            os.close(file)

    def asks(self, text):
        return text

    def bytes(self, data):
        return data


class Postgres:
    """A server that many machines share. It is found as libpq finds it: PGPASSFILE and the like have what is secret."""

    lock, begins, is_local = "for update of player", "begin", False

    def __init__(self, address):
        import psycopg2  # wanted where there are many machines, and not else
        self.driver, self.address = psycopg2, address
        self.failures = (psycopg2.Error,)

    def connect(self):
        connection = self.driver.connect(self.address, connect_timeout=PATIENCE, tcp_user_timeout=1000 * PATIENCE,
                                         application_name="paw", options="-c lock_timeout=%ds" % PATIENCE)
        connection.autocommit = True
        return connection

    def make(self, connection):
        with connection.cursor() as cursor:  # two that make the tables at once would hinder each other
            cursor.execute("begin; select pg_advisory_xact_lock(7235); " + SCHEMA.format(bytes="bytea") + "; commit")

    def asks(self, text):
        return text.replace("?", "%s")

    def turn(self, waits=True):
        return contextlib.nullcontext()

    def bytes(self, data):
        return None if data is None else self.driver.Binary(data)


def engine_of(address):
    """The engine of an address: postgresql://.., or the path of a file."""
    if not re.match("postgres(ql)?:", address):
        return Sqlite(address)
    if re.match("[a-z]+://[^/@]*:[^/@]*@", address) or "password=" in address:
        raise Wrong("The address of a store may not have its password: every user of this machine could read it. "
                    "Let it stand in ~/.pgpass or in PGPASSWORD.")
    return Postgres(address)


# --- The store -----------------------------------------------------------------------------------------------------

class Store:
    """A store that is open. What it does blocks; reads may come from several threads, a thread of their own does changes."""

    def __init__(self, address, tells=lambda rows, seconds: None):
        self.engine = engine_of(address)
        self.tells, self.own, self.readers = tells, threading.local(), []
        self.quick, self.quick_from = None, 0 if self.engine.is_local else math.inf
        self.waiting, self.take_text = queue.SimpleQueue(), TAKE.format(lock=self.engine.lock)
        with self.failing():
            connection = self.engine.connect()
            self.engine.make(connection)
            connection.close()
        self.writer = threading.Thread(target=self.write, daemon=True)
        self.writer.start()

    def close(self):
        """Ends it, once all that waits is written, or another program keeps it from that for long."""
        self.waiting.put(None)
        self.writer.join(2 * PATIENCE)
        for connection in [*self.readers, *([self.quick] if self.quick else [])]:
            with contextlib.suppress(Exception):
                connection.close()

    @contextlib.contextmanager
    def failing(self):
        try:
            yield
        except self.engine.failures as fault:
            raise Failed(str(fault).strip().split("\n")[0]) from fault

    # --- reading

    def read(self, text, *values):
        """The rows of a question; a connection that was lost in the meantime is made anew."""
        with self.failing():
            for is_last in (False, True):
                try:
                    return self.ask(self.connection(), text, values)
                except self.engine.failures:
                    self.own.connection = None
                    if is_last:
                        raise
        return []

    def connection(self):
        """The connection of this thread for reading."""
        if getattr(self.own, "connection", None) is None:
            self.own.connection = self.engine.connect()
            self.readers.append(self.own.connection)
        return self.own.connection

    def ask(self, connection, text, values):
        cursor = connection.cursor()
        cursor.execute(self.engine.asks(text), values)
        found = cursor.fetchall() if cursor.description else cursor.rowcount
        cursor.close()
        return found

    def game_in_play(self, game, name, after=0):
        """A player, and the lines behind a number, as they stood at one moment; None where there is no such player."""
        rows = self.read(GAME_IN_PLAY, after, game, name)
        if not rows:
            return None
        seed, image, generation, begun, seen, has_base = rows[0][:6]
        lines = [Line(*row[6:]) for row in rows if row[6] is not None]
        return Player(game, name, seed, image, generation, begun, seen, bool(has_base)), lines

    def base(self, game, name):
        """The session that a game begins with whose first lines aren't known; None for all others."""
        found = self.read("select base from player where game = ? and name = ?", game, name)
        return bytes(found[0][0]) if found and found[0][0] is not None else None

    def with_key(self, game, name, key):
        """Where the line of a key stands; None where none was taken."""
        found = self.read("select generation, n, key from line where game = ? and name = ? and key = ?", game, name, key)
        return Stand(*found[0]) if found else None

    def players(self, game=None):
        """All players, or those of one game."""
        rows = self.read("select %s, base is not null from player where ? = '' or game = ? order by game, name" % PLAYER,
                         game or "", game or "")
        return [Player(*row[:7], bool(row[7])) for row in rows]

    def image(self, digest):
        """The bytes of an image; None where nobody began with it."""
        found = self.read("select data from image where digest = ?", digest)
        return bytes(found[0][0]) if found else None

    # --- changes: each gives a future

    def keep_image(self, digest, data):
        """Keeps an image for those who begin with it, however the host's games change."""
        text = "insert into image (digest, data) values (?, ?) on conflict do nothing"
        return self.change("", digest, lambda ask: ask(text, digest, self.engine.bytes(data)))

    def begin(self, player, base=None):
        """Writes a new player; the result is whether the name was free."""
        values = (*player[:7], self.engine.bytes(base))
        text = "insert into player (%s, base) values (?, ?, ?, ?, ?, ?, ?, ?) on conflict do nothing" % PLAYER
        return self.change(player.game, player.name, lambda ask: ask(text, *values) == 1)

    def take(self, player, before, line):
        """Takes a line behind where a player stands (before); the result is whether it is taken. It isn't where the game stands
        elsewhere, where the number or the key is taken, and where the player is gone. When the player was last seen is written
        where an hour has passed since the time that is known."""
        return self.change(player.game, player.name, lambda ask: self.taken(ask, player, before, line))

    def taken(self, ask, player, before, line):
        values = (line.n, line.key, line.text, line.at, player.game, player.name, before.generation, player.seed, player.image,
                  before.n, before.n, before.key)
        is_taken = ask(self.take_text, *values) == 1
        if is_taken and abs(line.at - player.seen) > HOUR:
            ask(SEEN, line.at, player.game, player.name)
        return is_taken

    def take_now(self, lines):
        """Takes lines (each with its player and where that stands, as for take) in a transaction of this thread, and gives for
        each whether it is taken; None where they are to be handed to the thread that may wait. That is so where a commit was slow
        of late, and where anything fails. Where another one has its turn right now BlockingIOError tells it."""
        begun = time.monotonic()
        if begun < self.quick_from:
            return None
        try:
            self.quick = self.quick or self.engine.connect(0)
            given = self.transaction(self.quick, [lambda ask, line=line: self.taken(ask, *line) for line in lines], False)
        except BlockingIOError:
            raise
        except Exception:
            self.quick = self.rolled_back(self.quick)
            return None
        took = time.monotonic() - begun
        if took > QUICK:
            self.quick_from = begun + SHARE * took
        self.tells(len(lines), took)
        return given

    def renew(self, player, before, keeps, lines=(), **others):
        """Makes a new generation of the first lines (as many as keeps says), with others behind them, and another seed or image
        where these are named. The result is where the game stands then, or None where it doesn't stand where it was thought to
        (before)."""
        def does(ask):
            if self.engine.lock:
                ask("select 1 from player where game = ? and name = ? for update", player.game, player.name)
            found = ask(LAST, player.game, player.name)
            if not found or Stand(found[0][0], found[0][1] or 0, found[0][2] or "") != before:
                return None
            now, where = before.generation + 1, (player.game, player.name, before.generation)
            for name in others:
                assert name in ("seed", "image", "base")
                ask("update player set %s = ? where game = ? and name = ?" % name, others[name], player.game, player.name)
            ask("update player set generation = ?, seen = ? where game = ? and name = ?", now, int(time.time()), *where[:2])
            ask("delete from line where game = ? and name = ? and generation = ? and n > ?", *where, keeps)
            ask("update line set generation = ? where game = ? and name = ? and generation = ?", now, *where)
            for line in lines:
                ask("insert into line (game, name, generation, n, key, text, at) values (?, ?, ?, ?, ?, ?, ?)",
                    player.game, player.name, now, *line)
            found = ask(LAST, player.game, player.name)[0]
            return Stand(found[0], found[1] or 0, found[2] or "")
        return self.change(player.game, player.name, does)

    def delete(self, game, name):
        """Deletes a player and all lines for good; the result is whether there was one."""
        def does(ask):
            is_there = ask("delete from player where game = ? and name = ?", game, name) == 1
            ask("delete from line where game = ? and name = ?", game, name)
            return is_there
        return self.change(game, name, does)

    def change(self, game, name, does):
        """Has something done to what is kept of a name, in the next transaction; gives the future of what it gives."""
        future = concurrent.futures.Future()
        self.waiting.put(((game, name), does, future))  # a future that is cancelled while it waits isn't begun
        return future

    # --- the thread that writes

    def write(self):
        connection, is_over = None, False
        while not is_over:
            changes = [self.waiting.get()]
            while changes[-1] is not None and len(changes) < MOST_AT_ONCE and not self.waiting.empty():
                changes.append(self.waiting.get())
            is_over = changes[-1] is None
            changes = [change for change in changes if change and change[2].set_running_or_notify_cancel()]
            changes.sort(key=lambda change: change[0])  # so no two servers wait crosswise
            connection = self.commit(connection, changes)
        if connection:
            connection.close()

    def commit(self, connection, changes):
        """Does changes in one transaction. Where one of them fails each is done by itself, so that the others don't suffer; gives
        the connection, or None where it is lost."""
        if not changes:
            return connection
        begun = time.monotonic()
        try:
            connection = connection or self.engine.connect()
            given = self.transaction(connection, [does for _, does, _ in changes])
        except Exception as fault:
            connection = self.rolled_back(connection)
            if connection and len(changes) > 1:
                for change in changes:
                    connection = self.commit(connection, [change])
                return connection
            for _, _, future in changes:
                future.set_exception(Failed(str(fault).strip().split("\n")[0]))
            return connection
        for (_, _, future), value in zip(changes, given):
            future.set_result(value)
        self.tells(len(changes), time.monotonic() - begun)
        return connection

    def transaction(self, connection, changes, waits=True):
        def ask(text, *values):
            return self.ask(connection, text, values)
        with self.engine.turn(waits):
            ask(self.engine.begins)
            given = [does(ask) for does in changes]
            ask("commit")
            return given

    def rolled_back(self, connection):
        """A connection as it is without the transaction that failed; None where it can't be used any more."""
        if connection is None:
            return None
        try:
            self.ask(connection, "rollback", ())
            return connection
        except Exception:
            with contextlib.suppress(Exception):
                connection.close()
            return None
