"""What a player asks of a host, step by step: to begin a game, to see where it stands, a line, back, and a game that is brought.

A line has the place that its page has seen (generation, number and key of the line before), and a key of its own. Its text is
shown once its row stands in the store, and where a row stands its text can be shown again by any server. What was sent twice has one
row. A page that is behind is shown what it hasn't seen, and its line isn't taken: the store alone decides that, never texts.
"""
import asyncio
import concurrent.futures
import re
import secrets
import time
import weakref

import common
import engine
import images
import store

MOST_TURNS = 200         # turns that are shown when a game is opened
MOST_AT_ONCE = 500       # turns that can be asked for at once
MOST_BROUGHT = 20000     # lines of a game that is brought
TRIES = 4                # how often a line is tried where others play the same game, and its row where others write
SOON = 0.001             # seconds until a row is tried again
LATEST = 20              # seconds for a change of the store
FULL_MEMORY = "There is no memory for this game right now. Nothing is lost: try again in a while."
WORDS = {"over": "over", "full": "full", "spent": "spent", "too deep": "deep"}  # of pawhost, and the event of each


class Refused(Exception):
    """A request that isn't done: the status of HTTP, why in words, and in how many seconds it can be sent again."""

    def __init__(self, status, why, again=None):
        super().__init__(why)
        self.status, self.why, self.again = status, why, again


class Game:
    """A game of a host: how its addresses begin, its image, what its about file says, the pictures of its places, and the seed of
    new games where all have the same one."""

    def __init__(self, prefix, image, fields, media, pictures, seed=None):
        self.prefix, self.image, self.fields, self.media, self.pictures, self.seed = prefix, image, fields, media, pictures, seed
        self.title = fields["title"]
        with open(image, "rb") as file:
            self.data = file.read()
        self.digest = images.digest(self.data)


def stand_of(player, lines):
    """Where a game stands, by all its lines or the last ones."""
    return store.Stand(player.generation, lines[-1].n, lines[-1].key) if lines else store.Stand(player.generation, 0, "")


def new_key():
    return secrets.token_urlsafe(12)


class Service:
    """The games of a host over one store, as one process serves them."""

    def __init__(self, kept, games, most, folder=None, tells=lambda event, number=1: None):
        self.store, self.games, self.tells = kept, {game.prefix: game for game in games}, tells
        self.room = engine.Room(folder) if folder else engine.Room()
        self.sessions, self.engines = engine.Sessions(most), {}
        self.readers = concurrent.futures.ThreadPoolExecutor(store.READERS)
        self.locks, self.unkept = weakref.WeakValueDictionary(), []

    def end(self):
        for found in self.engines.values():
            found.end()
        self.room.end()

    # --- what can be asked

    async def begin(self, game, seed=None):
        """Writes a new player; gives the first text."""
        return await self.alone(None, lambda: self.begun(game, seed if seed is not None else game.seed, []))

    async def open(self, game, name, first=None):
        """Shows where a game stands: the latest turns, or those from a number on."""
        async def does():
            session, lines = await self.session(game, name)
            count = session.stand.n
            begin = max(0, count - MOST_TURNS + 1) if first is None else min(first, count)
            return await self.shown(game, session, begin, begin + MOST_AT_ONCE - 1)
        return await self.alone((game.prefix, name), does)

    async def line(self, game, name, before, key, text):
        """Takes a line of a page that stands at a place (before); or tells why it isn't taken."""
        return await self.alone((game.prefix, name), lambda: self.take(game, name, before, key, text))

    async def undo(self, game, name, before, keeps):
        """Goes back to the first lines, as many as are kept."""
        async def does():
            session, _ = await self.session(game, name)
            if session.stand == before and keeps < before.n:
                if await self.change(self.store.renew(session.player, before, keeps)):
                    self.tells("undone")
                    session, _ = await self.session(game, name)
                    return {**await self.shown(game, session, session.stand.n), "taken": True}
                self.sessions.drop((game.prefix, name))
            return await self.behind(game, name, before)
        return await self.alone((game.prefix, name), does)

    async def bring(self, game, seed, lines, name=None, before=None):
        """Goes on with a game that was played elsewhere: in place of one here, or as a new one."""
        if name is None:
            return await self.alone(None, lambda: self.begun(game, seed, lines))
        return await self.alone((game.prefix, name), lambda: self.brought(game, name, before, seed, lines))

    async def lines(self, game, name):
        """The lines of a game, and what they were typed for."""
        player, lines = await self.found(game, name)
        stand = stand_of(player, lines)
        return {"name": name, "generation": stand.generation, "n": stand.n, "after": stand.key, "seed": player.seed,
                "image": player.image, "hasBase": player.has_base, "lines": [line.text for line in lines]}

    # --- a line

    async def take(self, game, name, before, key, text):
        who, why = (game.prefix, name), "This game is played elsewhere right now. Send the line again."
        for _ in range(TRIES):
            session = self.sessions.get(who)
            if session is None or session.stand != before:
                session, _ = await self.session(game, name)
            if session.stand != before:
                taken = await self.read(self.store.with_key, game.prefix, name, key)
                if taken:
                    self.tells("again")
                    return {**await self.shown(game, session, taken.n), "taken": True}
                return await self.behind(game, name, before)
            answer = await self.played(session, who, text)
            if answer is None:
                why = "The game could not answer. Send the line again."
                continue
            body, look = answer
            if look is None:
                self.tells(WORDS[body])
                return {**self.state(game, session, []), "taken": False, "refused": body, "note": common.meaning(body)}
            line = store.Line(before.n + 1, key, text.decode("ascii"), int(time.time()))
            if await self.kept(session.player, before, line):
                session.stand, session.look = store.Stand(before.generation, line.n, key), look
                session.text = body
                if abs(line.at - session.player.seen) > store.HOUR:
                    session.player = session.player._replace(seen=line.at)
                self.tells("taken")
                return {**self.state(game, session, [self.turn(line.n, line.text, body)]), "taken": True}
            self.sessions.drop(who)
        raise Refused(503, why, 1)

    async def played(self, session, who, text):
        """What answers a line, and what the session shows then: None for that where the line isn't taken. None for all of it
        where the session had to be thrown away."""
        session.in_use += 1
        try:
            body = await session.engine.ask(session.file, text)
            look = session.engine.look(session.file)
            if look.inode == session.look.inode:
                if look.lines == session.look.lines + (text is not None):
                    return body, look
                if look.lines == session.look.lines and body in WORDS:
                    return body, None
        except (common.Ended, engine.Broken, OSError, ValueError):
            pass
        finally:
            session.in_use -= 1
        session.engine.forget(session.file)
        self.sessions.drop(who)
        return None

    async def behind(self, game, name, before):
        """What a page hasn't seen that stands at a place; all of it where the game doesn't go on from there."""
        self.tells("behind")
        session, lines = await self.session(game, name, True)
        stand = session.stand
        goes_on = before.generation == stand.generation and before.n < stand.n and (not before.n or lines[before.n - 1].key == before.key)
        latest = max(0, stand.n - MOST_TURNS + 1)
        first = max(before.n + 1, latest) if goes_on else latest
        return {**await self.shown(game, session, first), "taken": False, "behind": True, "goesOn": goes_on}

    # --- games that begin

    async def begun(self, game, seed, lines):
        seed = str(secrets.randbits(64)) if seed is None else seed
        now, name = int(time.time()), common.new_name()
        player = store.Player(game.prefix, name, seed, game.digest, 1, now, now)
        taken = await self.playable(player, lines) if lines else []
        if not await self.change(self.store.begin(player)):
            raise Refused(503, "No game could be begun. Try again.", 1)
        self.tells("begun")
        if taken:
            await self.change(self.store.renew(player, store.Stand(1, 0, ""), 0, self.rows(taken)))
        session, _ = await self.session(game, name)
        return {**await self.shown(game, session, max(0, session.stand.n - MOST_TURNS + 1)), "taken": True, "brought": len(taken)}

    async def brought(self, game, name, before, seed, lines):
        session, _ = await self.session(game, name)
        if session.stand != before:
            return await self.behind(game, name, before)
        taken = await self.playable(session.player._replace(seed=seed, image=game.digest), lines)
        rows = self.rows(taken)
        if not await self.change(self.store.renew(session.player, before, 0, rows, seed=seed, image=game.digest, base=None)):
            self.sessions.drop((game.prefix, name))
            return await self.behind(game, name, before)
        self.tells("brought")
        session, _ = await self.session(game, name)
        first = max(0, session.stand.n - MOST_TURNS + 1)
        return {**await self.shown(game, session, first), "taken": True, "brought": len(taken)}

    def rows(self, lines):
        now = int(time.time())
        return [store.Line(n, new_key(), line.decode("ascii"), now) for n, line in enumerate(lines, 1)]

    async def playable(self, player, lines):
        """Those of the lines that can be played from the seed on, up to the first that can't."""
        session = await self.made(await self.engine(player), player, lines)
        session.engine.forget(session.file)
        return lines[:session.look.lines]

    # --- sessions

    async def engine(self, player):
        """What computes the texts of the image that a player has, be it an earlier one of the game: the store has it."""
        if player.image not in self.engines:
            data = await self.read(self.store.image, player.image)
            if data is None:
                raise Refused(503, "The version that this game was begun with isn't here. Nothing of it is lost: tell the host.")
            if player.image not in self.engines:
                self.engines[player.image] = engine.Engine(data, self.room.path, self.tells, self.flags_of(player.image))
        return self.engines[player.image]

    def flags_of(self, image):
        """The flags by which the pictures of an image's places differ."""
        return sorted({flag for game in self.games.values() if game.digest == image for flag in game.pictures.flags})

    async def session(self, game, name, wants_lines=False):
        """The session of a name, as the store has it now; and its lines, all where they are wanted or it was made anew."""
        who = (game.prefix, name)
        session = self.sessions.get(who)
        if session:
            player, lines = await self.found(game, name, 0 if wants_lines else max(0, session.stand.n - 1))
            at, is_same = session.stand.n - (lines[0].n if lines else 1), player[2:5] == session.player[2:5]
            fits = is_same and (session.stand.n == 0 or 0 <= at < len(lines) and lines[at].key == session.stand.key)
            if fits and await self.fed(session, who, [line for line in lines if line.n > session.stand.n]):
                return session, lines
            self.sessions.drop(who)
        player, lines = await self.found(game, name)
        session, _ = await self.anew(player, lines, len(lines) + 1)
        return session, lines

    async def fed(self, session, who, lines):
        """Plays lines that other servers took; whether they could be."""
        for line in lines:
            if await self.shows(session, who, line.text.encode("ascii")) is None:
                return False
            session.stand = store.Stand(session.player.generation, line.n, line.key)
        return True

    async def anew(self, player, lines, first, last=None):
        """A session of lines, made anew; and the texts of the turns from one on. One that isn't up to the last line goes again."""
        for _ in range(engine.ATTEMPTS):
            found = await self.once(player, lines, first, last)
            if found:
                return found
        raise Refused(503, "The game could not answer. Try again.", 1)

    async def once(self, player, lines, first, last):
        """The same; None where the session was lost while it was made."""
        found = await self.engine(player)
        who, last = (player.game, player.name), len(lines) if last is None else min(last, len(lines))
        base = await self.read(self.store.base, player.game, player.name) if player.has_base else None
        typed = [line.text.encode("ascii") for line in lines[:last]]
        before = typed[:max(0, first - 1)]
        session = await self.made(found, player, before, base)
        try:
            session.in_use += 1
            session.stand, texts = stand_of(player, lines), []
            if last == len(lines):
                self.sessions.put(who, session)
            taken = session.look.lines - (common.kept_in(base).lines if base else 0)
            asked = [None] if first == 0 or len(before) == len(typed) else []
            for text in [*before[taken:], *asked, *typed[len(before):]]:  # a line that this image can't answer was passed over
                shown = await self.shows(session, who, text)
                if shown is None:
                    return None
                texts.append(shown)
        finally:
            session.in_use -= 1
            if self.sessions.found.get(who) is not session:
                found.forget(session.file)
        return session, texts[len(texts) - (last - first + 1):]

    async def shows(self, session, who, text):
        """Plays a line that stands in the store, or nothing; gives the text, which is none where the line isn't taken. None where
        the session had to be thrown away."""
        answer = await self.played(session, who, text)
        if answer is None:
            return None
        body, look = answer
        session.look, session.text = look or session.look, body if look else ""
        return session.text

    async def made(self, found, player, lines, base=None):
        """A session of lines from the first on, as far as they can be played; where memory is short others go for it."""
        for is_last in (False, True):
            file = self.sessions.file()
            try:
                look = await found.make(file, player.seed, lines, base)
                self.tells("made")
                return engine.Session(found, file, player, store.Stand(player.generation, 0, ""), look)
            except engine.NoRoom:
                found.forget(file)
                self.sessions.let_go((len(self.sessions.found) + 1) // 2)
                if is_last:
                    self.tells("no room")
                    raise Refused(503, FULL_MEMORY, 5) from None
            except (engine.Broken, OSError, ValueError) as fault:
                found.forget(file)
                self.tells("refused")
                raise Refused(503, "This game can't be played: %s. Nothing of it was changed: tell the host." % fault) from None

    # --- what is shown

    async def shown(self, game, session, first, last=None):
        """A state with the turns from one on, or those up to another one."""
        player, stand = session.player, session.stand
        if first == stand.n and session.text:
            line = (await self.found(game, player.name, stand.n - 1))[1][-1:] if stand.n else []
            return self.state(game, session, [self.turn(stand.n, line[0].text if line else "", session.text)])
        player, lines = await self.found(game, player.name)
        made, texts = await self.anew(player, lines, first, last)
        typed = [""] + [line.text for line in lines]
        turns = [self.turn(n, typed[n], text) for n, text in enumerate(texts, first)]
        return self.state(game, made if last is None or last >= len(lines) else session, turns)

    def turn(self, number, line, text):
        return {"n": number, "line": line, "text": text}

    def state(self, game, session, turns):
        player, stand, look = session.player, session.stand, session.look
        has_pictures = game.pictures and player.image == game.digest  # what they show is said of this version alone
        return {"name": player.name, "generation": stand.generation, "n": stand.n, "after": stand.key, "seed": player.seed,
                "image": player.image, "isCurrent": player.image == game.digest, "hasBase": player.has_base,
                "over": look.prompt == common.OVER, "waitsForKey": look.prompt == engine.KEY, "place": session.engine.place(look),
                "score": look.score, "turnsMade": look.turns, "turns": turns,
                **({"picture": game.pictures.at(look.place, look.flags)} if has_pictures else {})}

    # --- small things

    async def alone(self, who, does):
        """Does something for a name while nothing else is done for it here; who asked may go away meanwhile."""
        try:
            if who is None:
                return await does()
            async with self.locks.setdefault(who, asyncio.Lock()):
                return await does()
        except store.Failed:
            self.tells("failed")
            if who:
                self.sessions.drop(who)
            raise Refused(503, "The game could not be kept just now. Send that again.", 2) from None

    async def read(self, does, *words):
        return await asyncio.get_running_loop().run_in_executor(self.readers, does, *words)

    async def kept(self, *line):
        """Whether a line is taken by the store. Those that are to be kept by now share a transaction: right here, where little has
        to be waited for, and else in the thread that does changes."""
        loop = asyncio.get_running_loop()
        if not self.unkept:
            loop.call_soon(self.keep, loop)
        is_taken = loop.create_future()
        self.unkept.append((line, is_taken))
        found = await is_taken
        return await self.change(self.store.take(*line)) if found is None else found

    def keep(self, loop, tries=TRIES):
        """Has the rows written that wait, or leaves them to the thread."""
        try:
            given = self.store.take_now([line for line, _ in self.unkept])
        except BlockingIOError:
            if tries:
                loop.call_later(SOON, self.keep, loop, tries - 1)
                return
            given = None
        waiting, self.unkept = self.unkept, []
        for (_, is_taken), found in zip(waiting, given or [None] * len(waiting)):
            if not is_taken.done():
                is_taken.set_result(found)

    async def change(self, future):
        """What a change of the store gives; where it doesn't come in time nobody knows whether it is done."""
        try:
            return await asyncio.wait_for(asyncio.wrap_future(future), LATEST)
        except asyncio.TimeoutError:
            raise store.Failed("it doesn't answer") from None

    async def found(self, game, name, after=0):
        found = await self.read(self.store.game_in_play, game.prefix, name, after)
        if found is None:
            self.sessions.drop((game.prefix, name))
            raise Refused(404, "There is no game by this address. It was begun elsewhere, or it was deleted.")
        return found


def is_prefix(word):
    return re.fullmatch("[a-z0-9][a-z0-9-]{0,39}", word) is not None
