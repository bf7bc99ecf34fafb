"""What plays of a game reach: entries, messages and exits."""
import os
import re
import shutil
import sys

import paws
import sessions
import signals
import steps

SAID = 54  # the system messages below are said by the program itself too
MEMORY = "/dev/shm" if os.access("/dev/shm", os.W_OK) else None  # where sessions that nobody keeps are synced at once


class Seen:
    """What one play or several have reached: condacts that succeeded and that failed, texts, exits as (place, verb, to)."""

    def __init__(self):
        self.done, self.failed, self.exits, self.texts, self.left_out = set(), set(), set(), [], 0

    def add(self, other):
        self.done |= other.done
        self.failed |= other.failed
        self.exits |= other.exits
        self.texts += other.texts
        self.left_out += other.left_out


def seen(game, source, lines, seed, parts):
    """What a play with these lines reaches; parts is what it shows, before the first line and behind each."""
    found = Seen()
    found.texts = ["".join(parts)]
    shown, at = paws.run([game.paw, "trace", game.image, seed], lines)[1], 0
    for part in parts:
        read, more, at = steps.taken(shown, at)
        if not shown.startswith(part, at):
            sys.exit("the trace shows another text than the walk")
        at += len(part)
        found.left_out += more
        for *place, succeeded in read:
            (found.done if succeeded else found.failed).add(tuple(place))
    with signals.room(MEMORY) as room:
        found.exits = set(moves(game, source, lines, seed, os.path.join(room, "session")))
    return found


def moves(game, source, lines, seed, session):
    """For each sentence the place before it, its verb, and the place behind it: from a session that is taken up for each."""
    if not goes_on([game.paw, "play", game.image, session, seed]):
        return
    before = sessions.now(session)
    for line in lines:
        for sentences in beginnings(source, line):
            shutil.copyfile(session, session + ".next")
            if not goes_on([game.paw, "resume", game.image, session + ".next"], [sentences]):
                return
            after = sessions.now(session + ".next")
            yield before.flags[38], after.flags[33], after.flags[38]
            before = after
        os.replace(session + ".next", session)


def goes_on(words, lines=()):
    """Whether a session goes on behind these lines; a fault that the game comes to ends it."""
    status, _, said = paws.run(words, lines)
    if said.startswith("outside failed"):
        sys.exit(paws.refusal("no session can be played: " + paws.failure(words, said)))
    return not status


def beginnings(source, line):
    """The line up to the end of each of its sentences: the last one is the line itself."""
    parting = {word.letters for word in source.words if word.kind == "conjunction"}
    for found in re.finditer(r"[A-Za-z0-9]+|[.,;:!?\"]", line):
        if not found.group()[0].isalnum() or found.group().upper()[:5] in parting:
            if line[:found.start()].strip() and line[found.end():].strip():
                yield line[:found.start()]
    yield line


class Report:
    """What of a source wasn't reached: rows for it, each with its line, and how much there is of each kind."""

    def __init__(self, path, source, reached):
        self.path, self.source, self.seen, self.names = path, source, reached, steps.Names(source)
        self.rows, self.counts = [], []
        self.written = [] if paws.is_image(path) else paws.lines_of(path)
        for number, table in enumerate(source.tables):
            self.take("table %d%s" % (number, self.name_at(source.table_lines[number])),
                      [self.entry(number, at, entry) for at, entry in enumerate(table) if entry.steps])
        self.take("messages", self.texts("message", "/MTX", self.printed(("MES", "MESSAGE"), "/MTX")))
        self.take("system messages", self.texts("system message", "/STX", self.printed(("SYSMESS",), "/STX") | self.said()))
        self.take("exits", [self.exit(place, way) for place, ways in source.exits.items() for way in ways])

    def take(self, kind, rows):
        """Counts the rows of a kind: (line, what) for each that wasn't reached, None for the others."""
        self.counts.append((kind, rows.count(None), len(rows)))
        self.rows += [row for row in rows if row]

    def name_at(self, line):
        """The name that an author has given to what stands at a line, with a blank before it."""
        row = self.written[line - 1] if line <= len(self.written) else ""
        tokens = row.partition(";")[0].replace("/PRO", "").replace("/", " ").split()
        return "" if not tokens or tokens[-1].isdigit() else " " + tokens[-1]

    def entry(self, table, at, entry):
        done = [step for number, step in enumerate(entry.steps) if (table, at, number) in self.seen.done]
        if any(step.acts for step in done) or len(done) == len(entry.steps):
            return None
        failed = [step for number, step in enumerate(entry.steps) if (table, at, number) in self.seen.failed]
        why = "comes no further than %s" % self.names.step(failed[-1]) if failed else "never read"
        return entry.line, "entry %s of table %s: %s" % (entry.written, self.source.told("table", table), why)

    def printed(self, condacts, section):
        """The numbers of messages that these condacts have printed. Where a flag told which, those whose text was shown."""
        done = [step for number, table in enumerate(self.source.tables) for at, entry in enumerate(table)
                for place, step in enumerate(entry.steps) if step.name in condacts and (number, at, place) in self.seen.done]
        found = {step.values[0] for step in done if step.flag is None}
        if any(step.flag is not None for step in done):
            found |= {item.number for item in self.source.texts[section] if self.was_shown(item)}
        return found

    def was_shown(self, item):
        """Whether a text was shown."""
        return any(re.search(re.escape(item.text).replace("_", ".*"), text) for text in self.seen.texts)

    def said(self):
        """The numbers of system messages that the program says itself, and whose text was shown."""
        prompts = {step.values[0] for _, _, step in self.source.steps() if step.name == "PROMPT"}
        return {number for number, item in enumerate(self.source.texts["/STX"])
                if (number < SAID or number in prompts or None in prompts) and self.was_shown(item)}

    def texts(self, kind, section, reached):
        return [None if number in reached else
                (item.line, "%s %d%s: %s" % (kind, number, self.name_at(item.line), steps.cut(item.text)))
                for number, item in enumerate(self.source.texts[section]) if item.text.strip()]

    def exit(self, place, way):
        if (place, way.verb, way.to) in self.seen.exits:
            return None
        there, then = (steps.cut(self.source.texts["/LTX"][number].text, 24) for number in (place, way.to))
        return way.line, "exit %s of %s (%s) to %s (%s)" % (
            self.names.of("verb", way.verb), self.source.told("location", place), there, self.source.told("location", way.to), then)

    def shown(self):
        """The rows of what wasn't reached, and a table of how much was."""
        for line, what in self.rows:
            yield "%s:%d: not reached: %s" % (self.path, line, what)
        counts = [count for count in self.counts if count[2]]
        width = max((len(kind) for kind, _, _ in counts), default=0)
        for kind, reached, of in counts:
            yield "%-*s  %4d of %4d reached  %3d%%" % (width, kind, reached, of, 100 * reached // of)
        if self.seen.left_out:
            yield ("%d condacts aren't in the traces, which show 1,000 for a text: what is told as not reached may be among them"
                   % self.seen.left_out)
