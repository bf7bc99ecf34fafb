"""Whether the end of a walkthrough can still be reached behind a line, as far as bounded tries tell.

A copy of the game shows at each prompt its flags and the places of its things. Of each line that is tried in a state it tells
whether it changed anything but the turns. Where it did, the end with the most points can still be reached if

    - one more line leads back to the state as it was, or to one from which the end was reached: the usual verbs with what
      changed, each way, the way back, and what fetches a thing from another place; or
    - the rest of the walkthrough brings the end: of that which the state lies on, or else of one with a state that is like it;
      typed then, or behind up to DEPTH more lines (each verb with what changed, too), of which those are gone on with that make
      the least differ.

All else is told. It may be that longer ways about lead to the end; but a player would have to know them. Where the rest brings no
end behind up to SLACK turns of waiting, the clock of the game decides, and nothing is told of the state.
"""
import collections
import os
import re

import paws
import probing

SIGN = "[PICTURE 255]\n"
AT_ONCE = 100  # condacts of an entry
SLACK = 4  # turns that may be lost in a state of which something is told
DEPTH = 3  # lines that may mend what a line did
WIDTH = 2  # states that are gone on with, of those that one more line leads to
PLAYED_ON = 10  # and from which the rest of the way is typed
NEAREST = 2  # ways whose rest is tried from a state that lies on none with an end
MOST_TYPED = 20000  # lines of one run
PLACE = 38
NOTCREATED, CARRIED = 252, 254
BACK = ("get", "drop", "wear", "remove")  # what takes most lines back
WAYS = ("north", "south", "east", "west", "ne", "nw", "se", "sw", "up", "down", "in", "out")


class Point:
    """What stands at a prompt: the text before it, the mark of the state, and whether an end was told. A mark has a byte for each
    flag and each thing."""

    def __init__(self, text, mark, is_end):
        self.text, self.mark, self.is_end = text, mark, is_end


class Watched:
    """A copy of a game that shows at each prompt the flags it uses, and where its things are."""

    def __init__(self, game, room):
        source = game.source
        used = {flag for _, _, step in source.steps() for flag, _, _ in paws.flags_of(step)} - {None}
        self.game, self.flags = game, sorted((used | {0, PLACE}) - probing.PASSING)
        self.place = self.flags.index(PLACE)
        self.exits = {place: [(row.verb, row.to) for row in rows] for place, rows in source.exits.items()}
        # Behind the last thing that has a noun or a place there are texts alone.
        last = max((thing.number for thing in source.things if thing.noun != 255 or thing.place != NOTCREATED), default=-1)
        self.things = [thing.number for thing in source.things if thing.number <= last]
        self.length = len(self.flags) + len(self.things)
        self.rows = re.compile(r"(?:\d+\n){%d}" % self.length)
        self.shown = re.compile(re.escape(SIGN) + self.rows.pattern)
        self.marks, self.before = {}, (None, 0)
        self.image = os.path.join(room, "watched")
        path, spare = self.image + ".paws", sorted(set(paws.OWN_FLAGS) - used - probing.PASSING)[-2:]
        with open(path, "w", encoding="latin-1", newline="") as file:
            file.write(self.with_marks(source, spare) if len(spare) == 2 else "")
        self.is_made = paws.run([game.paw, "compile", path, self.image])[0] == 0

    def with_marks(self, source, spare):
        """The source, with entries that show the state before each sentence is read."""
        place, last = spare
        steps = ["COPYFF 51 %d" % last, "PICTURE 255"]
        steps += [step for flag in self.flags for step in ("PRINT %d" % flag, "NEWLINE")]
        for thing in self.things:
            steps += ["COPYOF %d %d" % (thing, place), "PRINT %d" % place, "NEWLINE"]
        steps.append("COPYFF %d 51" % last)
        rows = ["_ _ " + " ".join(steps[at:at + AT_ONCE]) for at in range(0, len(steps), AT_ONCE)]
        return re.sub(r"(?m)^(/PRO 2\b.*)$", lambda found: "\n".join([found.group(), *rows]), source.plain, count=1)

    def points(self, shown):
        """The prompts of what was shown. The text is kept of an end alone, and a mark is read once, however often it is shown."""
        for text, stop in self.game.stopped(shown)[0]:
            ended = stop in self.game.asked or self.game.over is not None and self.game.over in text
            yield Point(self.shown.sub("", text) if ended else "", None if ended else self.mark_in(text), ended)

    def mark_in(self, text):
        """The last mark that a text shows, or nothing."""
        _, sign, last = text.rpartition(SIGN)
        if sign and last not in self.marks:
            rows = self.rows.match(last)
            self.marks[last] = bytes(map(int, rows.group().split())) if rows else None
        return self.marks[last] if sign else None

    def walk(self, lines):
        return list(self.points(self.shown_by(lines)))

    def tried(self, before, each):
        """For each of some ways to go on behind the lines before: the point where it begins, and those behind its lines."""
        each, at_once, count = list(each), [], 0
        for number, lines in enumerate(each):
            at_once.append(lines)
            count += len(lines)
            if count > MOST_TYPED or number == len(each) - 1:
                chunks = self.tried_at_once(before, at_once, [])
                if len(chunks) != len(at_once):  # a question took such a line for its answer
                    chunks = self.tried_at_once(before, at_once, ["look"])
                if len(chunks) != len(at_once):
                    chunks = [""] * len(at_once)
                for typed, chunk in zip(at_once, chunks):
                    yield list(self.points(chunk))[:len(typed) + 1] or [Point("", None, False)]
                at_once, count = [], 0

    def tried_at_once(self, before, each, between):
        """What is shown behind each LOAD FOUR, with lines before it that answer what a game may ask."""
        if self.before[0] != before:
            self.before = before, len(self.shown_by(before))
        typed = [*before, "save four"]
        for lines in each:
            typed += [*between, "load four", *lines]
        shown = self.shown_by([*typed, *between, "load four"])[self.before[1]:]
        return shown.split(self.game.back)[1:-1]

    def shown_by(self, lines):
        return paws.run([self.game.paw, "walk", self.image, probing.SEED], lines)[1]

    def way(self, start, goal):
        """The lines that lead from a place to another by exits, or nothing."""
        words, known, queue = dict(enumerate(WAYS, 2)), {start: []}, collections.deque([start])
        while queue and goal not in known:
            place = queue.popleft()
            for verb, to in self.exits.get(place, ()):
                if to not in known and verb in words:
                    known[to] = known[place] + [words[verb]]
                    queue.append(to)
        return known.get(goal, [])


class Goal:
    """What is left of a way in a state: the way's name, and the lines that bring the end."""

    def __init__(self, name, rest):
        self.name, self.rest = name, rest


class Reaching:
    """Whether the end with the most points can be reached, state by state."""

    def __init__(self, game, ways, verbs, room):
        self.game, self.verbs, self.watched = game, list(verbs), Watched(game, room)
        self.alive, self.lost, self.on_ways, self.clock, self.changed = set(), set(), {}, set(), {}
        self.words = {value: game.written[word] for word, value in game.nouns.items()}
        self.acted = self.nouns_acted(game.source) | set(game.noun_of)
        walked = [(name, lines, self.watched.walk(lines)) for name, lines in ways if "four" not in " ".join(lines).lower().split()]
        ends = [(self.score(point), -number, self.title(point)) for number, (_, _, points) in enumerate(walked)
                for point in points if point.is_end]
        self.end = max(ends)[2] if ends else None
        self.ways = [(name, lines, points, self.ends_of(points)) for name, lines, points in walked]
        for name, lines, points, ends in self.ways:
            for number, point in enumerate(points):
                end = next((end for end in ends if end > number), None)
                if end and point.mark:
                    self.alive.add(point.mark)
                    place = point.mark[self.watched.place]
                    self.on_ways.setdefault(place, []).append((point.mark, Goal(name, lines[number:end])))

    def nouns_acted(self, source):
        """The nouns that an entry names beside another verb than X, or as what is behind another noun."""
        looks = self.game.verbs.get("x")
        named = {entry.noun for table in source.tables for entry in table if entry.verb not in (looks, 255)}
        return named | {step.values[0] for _, _, step in source.steps() if step.name == "NOUN2"}

    def ends_of(self, points):
        """Behind how many lines the end is told."""
        return [number for number, point in enumerate(points)
                if point.is_end and self.title(point) == self.end and not points[number - 1].is_end]

    def title(self, point):
        """The last paragraph of the text of an end, before the score."""
        return point.text.partition(self.game.says[21])[0].strip().split("\n\n")[-1].strip()

    def score(self, point):
        return int(re.match(r"\d*", point.text.partition(self.game.says[21])[2]).group() or 0)

    def is_brought(self, points):
        """Whether the end was told. The states on the way to it are kept."""
        for number, point in enumerate(points):
            if point.is_end and self.title(point) == self.end:
                self.alive.update(passed.mark for passed in points[:number] if passed.mark)
                return True
        return False

    def goal_of(self, state, base):
        """What is left of the way that the state lies on, or of one with a state that is like it."""
        count = len(state.lines)
        for name, lines, _, ends in self.ways:
            end = next((end for end in ends if end > count), None)
            if end and lines[:count] == state.lines:
                return Goal(name, lines[count:end])
        here = self.on_ways.get(base[self.watched.place], [])
        near = sorted((len(self.differing(mark, base)), number) for number, (mark, _) in enumerate(here))[:NEAREST]
        goals = [here[number][1] for _, number in near]
        brought = [self.is_brought(points) for points in self.watched.tried(state.lines, [goal.rest for goal in goals])]
        return next((goal for goal, is_one in zip(goals, brought) if is_one), None)

    def acting(self, lines):
        """Of some lines those whose nouns a thing has, or an entry names beside another verb than X."""
        return [line for line in lines if {self.game.noun(word) for word in line.split()[1:]} - {None} <= self.acted]

    def of_state(self, state, lines):
        """What each of some lines does in a state: the lines that lose the end, each with the way that would have brought it; and
        whether no line changes anything but the turns."""
        self.watched.marks, self.changed = {}, {}
        waited = [point for points in self.watched.tried(state.lines, [["wait"] * SLACK]) for point in points]
        base = waited[0].mark if waited else None
        if not base or any(point.is_end for point in waited):
            return [], False
        self.clock = {number for point in waited if point.mark for number in self.differing(base, point.mark)}
        fresh, is_stuck = {}, True
        for line, points in zip(lines, self.watched.tried(state.lines, [[line] for line in lines])):
            mark = points[-1].mark if len(points) > 1 else None
            if not mark or self.changes(base, mark):
                is_stuck = False
                if mark and mark not in self.alive | self.lost:
                    fresh.setdefault(mark, line)
        return list(self.losing(state, base, self.not_taken_back(state, base, fresh))), is_stuck

    def not_taken_back(self, state, base, fresh):
        """Of the states that lines lead to, those from which no line of the usual ones leads back."""
        tries = [(mark, [line, *more]) for mark, line in fresh.items() for more in self.mending(base, mark, line, BACK)]
        back = set()
        for (mark, lines), points in zip(tries, self.watched.tried(state.lines, [lines for _, lines in tries])):
            then = points[-1].mark if len(points) == len(lines) + 1 else None
            if then and (then in self.alive or not self.changes(base, then)):
                back.add(mark)
        return {mark: line for mark, line in fresh.items() if mark not in back}

    def losing(self, state, base, fresh):
        """The lines that lose the end which the state can still reach, of those that lead to each of some states."""
        goal = self.goal_of(state, base) if fresh and self.on_ways else None
        if goal is None:
            return
        waits = self.watched.tried(state.lines, [["wait"] * count + goal.rest for count in range(SLACK + 1)])
        if not all([self.is_brought(points) for points in waits]):
            return
        rests = self.watched.tried(state.lines, [[line] + goal.rest for line in fresh.values()])
        for (mark, line), is_one in zip(fresh.items(), [self.is_brought(points) for points in rests]):
            if not is_one and not self.is_mended(state, goal, base, mark, line):
                self.lost.add(mark)
                yield line, goal

    def differing(self, one, other):
        """What differs in two states."""
        return [number for number, (mine, yours) in enumerate(zip(one, other)) if mine != yours]

    def changes(self, base, mark):
        """What a state differs in from that which is tried, but for what the clock changes; it is asked of each mark once."""
        if mark not in self.changed:
            self.changed[mark] = [number for number in self.differing(base, mark) if number not in self.clock]
        return self.changed[mark]

    def is_mended(self, state, goal, base, mark, line):
        """Whether a few lines, and then the rest of the way, still bring the end."""
        known, edge = {mark}, [(mark, [line])]
        for _ in range(DEPTH):
            found = []
            for now, typed in edge:
                tries = [typed + more for more in self.mending(base, now, line, self.verbs)]
                for lines, points in zip(tries, self.watched.tried(state.lines, tries)):
                    then = points[-1].mark if len(points) == len(lines) + 1 else None
                    if then and then not in known:
                        known.add(then)
                        apart = len(self.changes(base, then))
                        if then in self.alive or not apart:
                            return True
                        found.append((apart, len(found), then, lines))
            found.sort()
            edge = [(then, lines) for _, _, then, lines in found[:WIDTH]]
            rests = self.watched.tried(state.lines, [lines + goal.rest for _, _, _, lines in found[:PLAYED_ON]])
            if any([self.is_brought(points) for points in rests]):
                return True
        return False

    def mending(self, base, now, line, verbs):
        """Lines that may take back what makes two states differ."""
        count, game = len(self.watched.flags), self.game
        things = [number - count for number in self.changes(base, now) if number >= count]
        nouns = {game.noun_of[thing] for thing in things} | {game.noun(word) for word in probing.words_in(line)}
        words = [self.words[noun] for noun in nouns & set(self.words)]
        place = self.watched.place
        if now[place] != base[place]:
            yield self.watched.way(now[place], base[place]) or [WAYS[0]]
            yield from ([way] for way in WAYS)
        named = {thing: self.words[noun] for thing, noun in enumerate(game.noun_of) if noun in self.words}
        holders = [named[thing] for thing in game.containers if thing in named]
        had = [word for thing, word in named.items() if now[count + thing] == CARRIED]
        for word, at in ((named[thing], now[count + thing]) for thing in things if thing in named):
            yield from self.fetching(now[place], at, word)
            yield from (["drop %s" % other, "get %s" % word] for other in had if at == now[place])
        for word in words:
            yield from (["%s %s" % (verb, word)] for verb in verbs)
            yield from (["put %s in %s" % (word, holder)] for holder in holders if things and holder != word)

    def fetching(self, here, there, word):
        """The lines that fetch a thing from another place."""
        way, back = self.watched.way(here, there), self.watched.way(there, here)
        if way and back:
            yield [*way, "get %s" % word, *back]
