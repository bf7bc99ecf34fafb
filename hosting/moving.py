"""Moves games in play: over to another image of their game, and from the files of sessions into a store."""
import collections
import contextlib
import hashlib
import os
import re
import string
import subprocess
import tempfile
import time

import common
import lines as rows
import paws
import sessions
import store

NAME = re.compile("[a-z]{%d}" % common.LONGEST_NAME)
TRIES = 3               # how often a game is moved that is played meanwhile
MEMORY = "/dev/shm"     # sessions that are only looked at are made there

# How a game went over: whether it did, the number of its first line that is answered otherwise (0: the first text), and why not.
Moved = collections.namedtuple("Moved", "name is_moved differs why", defaults=[None, ""])


@contextlib.contextmanager
def memory():
    """A folder in memory, for sessions that are only looked at."""
    with tempfile.TemporaryDirectory(dir=MEMORY if os.access(MEMORY, os.W_OK) else None) as room:
        yield room


def kept_image(kept, path):
    """Keeps an image in the store; gives its digest."""
    data = paws.bytes_of(path, paws.IMAGE_LIMIT)
    digest = hashlib.sha256(data).hexdigest()
    kept.keep_image(digest, data).result()
    return digest


class Images:
    """The images of a store, as files in memory."""

    def __init__(self, kept, room):
        self.kept, self.room = kept, room

    def path(self, digest):
        """The path of an image by its digest; None where the store doesn't have it."""
        path = os.path.join(self.room, digest + ".img")
        if not os.path.exists(path):
            data = self.kept.image(digest)
            if data is None:
                return None
            with open(path, "wb") as file:
                file.write(data)
        return path


# --- Another image -------------------------------------------------------------------------------------------------

def texts_of(image, seed, lines):
    """The first text of a game, and the answers to the lines up to the first that isn't taken."""
    with memory() as room, common.Host(room, image, seed) as host:
        texts = [host.ask("a")]
        for number, line in enumerate(lines, 1):
            body = host.ask("a", line.text.encode("ascii"))
            if common.meaning(body) != body and common.kept(room, "a").lines != number:
                break
            texts.append(body)
    return texts


def why_unplayable(kept, player, image):
    """Why a game in play can't be played from its lines; nothing where it can, and where it begins with a session."""
    found = kept.game_in_play(player.game, player.name)
    if found is None or player.has_base:
        return ""
    if image is None:
        return "its image isn't here"
    try:
        taken = len(texts_of(image, player.seed, found[1])) - 1
    except (common.Ended, ValueError) as fault:
        return str(fault)
    return "line %d isn't taken" % (taken + 1) if taken < len(found[1]) else ""


def first_difference(before, now):
    """The number of the first text that differs; None where all are the same."""
    for number, (one, other) in enumerate(zip(before, now)):
        if one != other:
            return number
    return min(len(before), len(now)) if len(before) != len(now) else None


def change_image(kept, player, old, new, digest, moves_all):
    """Moves a game in play over to a new image where all its texts are the same there, or where all are to be moved: then lines
    that aren't taken there any more are left out, with all behind them."""
    if player.has_base:
        return Moved(player.name, False, why="its first lines aren't known")
    if old is None:
        return Moved(player.name, False, why="its image isn't here any more")
    for _ in range(TRIES):
        found = kept.game_in_play(player.game, player.name)
        if found is None:
            return Moved(player.name, False, why="it is gone")
        player, lines = found
        if player.image == digest:
            return Moved(player.name, True)
        try:
            now = texts_of(new, player.seed, lines)
            differs = first_difference(texts_of(old, player.seed, lines), now)
        except (common.Ended, ValueError) as fault:
            return Moved(player.name, False, why=str(fault))
        if differs is not None and not moves_all:
            return Moved(player.name, False, differs)
        stand = store.Stand(player.generation, lines[-1].n, lines[-1].key) if lines else store.Stand(player.generation, 0, "")
        if kept.renew(player, stand, len(now) - 1, image=digest).result():
            return Moved(player.name, True, differs)
    return Moved(player.name, False, why="it is being played right now")


# --- Files of sessions ---------------------------------------------------------------------------------------------

class Refused(Exception):
    """Why a session doesn't come over, in words."""


def known_lines(path, image, digest, data):
    """The lines of a session where they lie beside it, and lead to what it is; None where they don't."""
    typed = path + ".kept/played"
    if not os.path.isfile(typed):
        return None
    place = rows.Lines(typed).read().now
    if place is None or place.game.seed is None or place.game.digest != digest:
        return None
    lines, state = place.lines(), sessions.state_of(data)
    if place.game.seed != state.seed or not all(line.isascii() for line in lines):
        return None
    with memory() as room:
        made = os.path.join(room, "session")
        subprocess.run([common.program("paw"), "play", image, made, str(state.seed)],
                       input=b"".join(line + b"\n" for line in lines), stdout=subprocess.DEVNULL, stderr=subprocess.DEVNULL)
        now = common.bytes_of(made)
        if not sessions.is_made(now) or not sessions.state_of(now).is_same(state):
            return None
    return lines


def check(image, data):
    """Raises Refused where the program doesn't resume a session."""
    with memory() as room:
        copy = os.path.join(room, "session")
        with open(copy, "wb") as file:
            file.write(data)
        done = subprocess.run([common.program("paw"), "resume", image, copy], stdin=subprocess.DEVNULL, stdout=subprocess.DEVNULL,
                              stderr=subprocess.PIPE)
    if done.returncode:
        raise Refused(done.stderr.decode("latin-1").strip())


def bring(kept, game, image, digest, path, name):
    """Brings the session of a file into a store. Gives the name that it has there, and how many of its lines are known; None for
    that number where it begins from its state."""
    data = common.bytes_of(path)
    if sessions.was_cut_off(data):
        raise Refused("its making was cut off, and nothing of it was ever shown")
    if not sessions.is_made(data):
        raise Refused("no session")
    if sessions.game_of(data) != digest:
        raise Refused("it is of another game, or of another version of this one")
    check(image, data)
    state, lines = sessions.state_of(data), known_lines(path, image, digest, data)
    now = int(time.time())
    name = name if NAME.fullmatch(name) else long_name(game, name, data)
    player = store.Player(game, name, str(state.seed), digest, 1, now, now)
    is_begun = kept.begin(player, data).result() if lines is None else begin_with_lines(kept, player, lines)
    if not is_begun and not came_before(kept, player, data, lines):
        raise Refused("there is another game of that name already")
    return player.name, None if lines is None else len(lines)


def long_name(game, name, data):
    """A name of sixteen letters for one that was chosen: always the same, and nobody guesses it who doesn't have the session."""
    digest = hashlib.sha256(b"\0".join([game.encode("ascii"), name.encode("ascii"), data])).digest()
    return "".join(string.ascii_lowercase[byte % 26] for byte in digest[:common.LONGEST_NAME])


def came_before(kept, player, data, lines):
    """Whether the player of a name was brought of the same session before."""
    if lines is None:
        return kept.base(player.game, player.name) == data
    there = kept.game_in_play(player.game, player.name)
    return there is not None and [line.text.encode("ascii") for line in there[1][:len(lines)]] == lines


def begin_with_lines(kept, player, lines):
    """Writes a new player with lines; gives whether the name was free."""
    text = "insert into player (%s) values (?, ?, ?, ?, ?, ?, ?) on conflict do nothing" % store.PLAYER

    def does(ask):
        if ask(text, *player[:7]) != 1:
            return False
        for number, line in enumerate(lines, 1):
            ask("insert into line (game, name, generation, n, key, text, at) values (?, ?, ?, ?, ?, ?, ?)",
                player.game, player.name, player.generation, number, "brought%d" % number, line.decode("ascii"), player.begun)
        return True
    return kept.change(player.game, player.name, does).result()


# --- What Redis knew -----------------------------------------------------------------------------------------------

def redis(url, *words):
    """What redis-cli answers, in rows."""
    done = subprocess.run(["redis-cli", "-u", url, "--no-auth-warning", *words], stdin=subprocess.DEVNULL, stdout=subprocess.PIPE,
                          stderr=subprocess.PIPE, timeout=60)
    said = done.stdout.decode("latin-1").splitlines()
    if done.returncode or said and said[0].startswith("(error)"):
        raise Refused("Redis: %s" % (done.stderr.decode("latin-1").strip() or " ".join(said)))
    return said


def counts_of_redis(url, prefix):
    """How many lines Redis knew of each name; none may wait there any more."""
    for stream in redis(url, "--scan", "--pattern", prefix + ":lines:*"):
        if redis(url, "xlen", stream) != ["0"]:
            raise Refused("lines wait in %s: let the consumers answer them first" % stream)
    told = redis(url, "hgetall", prefix + ":events")
    return {name: int(count) for name, count in zip(told[::2], told[1::2])}
