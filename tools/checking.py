"""What tools/contradictions looks for in each state of a game."""
import re

import denials
import probing

# Verbs that only tell, keep or end something: they aren't tried with things.
APART = ("i", "score", "turns", "save", "load", "quit", "undo", "again", "about", "resta", "yes", "no", "exits", "help", "wait")
# Verbs with a small word, which may be read as something else.
LOOSE = ("blow out", "put out", "turn on", "turn off", "take off", "put on", "put down", "look under", "look behind", "sit on",
         "knock on", "talk to", "listen to", "ask about")
# Verbs whose small word may lead to another place.
LEADING = ("climb up", "go into", "get out of")
ABSENT = (3, 26, 28, 32, 79, 23, 49, 50)
UNKNOWN = (6, 32, 57, 82)
BARE = (4, 48)
EMPTY = (25, 27, 30, 31, 34, 46, 81, *range(83, 104))
TRIES_ABSENT = 6  # nouns that aren't near, for each state
WAYS = ("north", "south", "east", "west", "ne", "nw", "se", "sw", "up", "down", "in", "out")
OF_VERBS = ("change", "denies", "marked", "absent", "unseen")  # what only the verbs tell
OF_ENDS = ("lost", "stuck")  # what the states tell that lines lead to
TRIED_ALWAYS = ("door", "key")  # nouns that most games have, and that most are asked for
NO_NOUN = "zebra"  # a word that no game here has
FOR_HELP = ("ask %s for help", "ask %s about help", "ask help of %s", "say help to %s", "%s, help")
PEOPLE_ASKED = 10  # topics for each person, for each state
SPEECH = re.compile(r"'\s+(?:says|said|asks) (?:the |your |uncle )?(\w+)", re.IGNORECASE)
CAPITALS = re.compile(r"\b[A-Z]{1,}(?: [A-Z]{2,}| [a-z]{2,4} [A-Z]{2,})+\b")


class Report:
    """Something that can't be so, and a way to type that shows it: lines, and the text that mustn't come then."""

    def __init__(self, kind, told, state, typed, unwanted):
        self.kind, self.told, self.state, self.typed, self.unwanted = kind, told, state, typed, unwanted

    @property
    def lines(self):
        return self.state.lines + self.typed

    def where(self):
        """Where it comes: the way and its line, and what is typed there."""
        typed = " > ".join([""] + self.typed).strip() or "> nothing more"
        return "%s, line %d: %s" % (self.state.way, len(self.state.lines), typed)

    def test(self):
        """A test of it for tools/tried."""
        rows = ["# %s: %s" % (self.kind, " ".join(self.told.split()))]
        rows += ["> " + line for line in self.lines] + ["! " + " ".join(self.unwanted.split()).replace("...", "")]
        return "\n".join(rows) + "\n\n"


class Checks:
    """All checks of a game, state by state, and what they report."""

    def __init__(self, game, marks, others, only):
        self.game, self.marks, self.others, self.only = game, marks, others, only
        self.denials, self.reaching = denials.Denials(game), None
        self.reports, self.known, self.states, self.lines = [], set(), 0, 0
        self.absent = game.pattern(*ABSENT)
        self.unknown = game.pattern(*UNKNOWN)
        self.refusals = game.pattern(*ABSENT, *UNKNOWN, *EMPTY, 5, 7, 8, 55, 56)
        self.bare, self.named = game.pattern(*BARE), game.pattern(79)
        self.left, self.reached, self.turn = set(), {}, 0
        self.bare_words, self.near_words = {}, set()
        self.verbs = self.verbs_tried()
        texts = game.source.texts
        self.people = set()
        for item in texts["/MTX"] + texts["/STX"]:
            self.people |= {game.noun(name.lower()) for name in SPEECH.findall(item.text)} - {None}
        self.place_texts = {item.text.split("\n")[0]: item.text for item in texts["/LTX"] if item.text}
        for step in (step for _, _, step in game.source.steps() if step.name == "PROMPT" and step.values[0] not in (None, 0, 2)):
            game.over = game.says[step.values[0]]

    def verbs_tried(self):
        """A word of each verb that is tried with things: the first of its value."""
        found, apart = {}, {self.game.verbs.get(word[:5]) for word in APART}
        for word, value in self.game.verbs.items():
            if value not in apart and value > 13:
                found.setdefault(value, self.game.written[word])
        return found

    def wants(self, kind):
        return not self.only or kind in self.only

    def report(self, kind, told, state, typed, unwanted, key=None):
        """Keeps a report, once for each of its keys, unless the author passes it over."""
        key = kind, key or told
        if self.wants(kind) and key not in self.known and not self.marks.passes(kind, told):
            self.known.add(key)
            self.reports.append(Report(kind, told, state, typed, unwanted))

    # --- one state

    def state(self, state, number):
        """Tries a state, by its number among all: of what isn't near other things are tried in each."""
        self.states += 1
        game, self.turn = self.game, number
        self.far, words = set(), sorted(game.nouns)
        plain = sorted(self.verbs.values()) + ["inventory", "help", "wait", "look"]
        first = self.tried(state, ["x " + game.written[word] for word in words] + plain)
        if len(first) < len(words) + len(plain):
            return
        looked, alone, (_, helped, waited, base) = first[:len(words)], first[len(words):-4], first[-4:]
        self.now = probing.Seen(game, base.seen)
        self.tail = self.behind(waited.answer)
        seen = [probing.Seen(game, one.seen) for one in first[-4:]]
        self.usual = {(one.place, one.score) for one in seen} | {(self.now.place, one.score) for one in seen}
        self.alone = {self.bare_answer(one.answer) for one in alone}
        self.leading = {one.line for one in alone if probing.Seen(game, one.seen).place != self.now.place}
        self.ends = any(game.is_end(text) for one in first[-4:] for text in (one.answer, one.again, one.seen))
        self.reached.setdefault(self.now.place, state)
        self.shown_words = {word[:5] for text in state.shown for word in probing.words_in(text)}
        near = {word: self.bare_answer(one.answer) for word, one in zip(words, looked)
                if not self.absent.fullmatch(self.bare_answer(one.answer))}
        texts_count = not self.only or self.only - set(OF_ENDS)
        if texts_count:
            self.of_texts(state, near, helped)
            self.of_words(state, near)
            for one in looked:
                self.of_try(state, one, near)
        lines = self.lines_tried(state, near)
        if texts_count:
            answers = {}
            for one in self.tried(state, lines):
                self.of_try(state, one, near)
                answers[one.line] = self.bare_answer(one.answer)
            self.of_help(state, self.one_word(near), answers)
        if self.reaching:
            self.of_ends(state, list(self.verbs.values()) + lines)

    def of_ends(self, state, lines):
        """Lines behind which an end can't be reached any more, and whether none changes anything."""
        lines = self.reaching.acting(lines)
        self.lines += len(lines)
        losing, is_stuck = self.reaching.of_state(state, lines)
        for line, goal in losing:
            told = "behind '%s' no line that was tried leads on to the end of %s" % (line, goal.name)
            answer = next((one.answer for one in probing.tried(self.game, state, [line])), "")
            self.report("lost", told, state, [line], answer[:60])
        if is_stuck:
            told = "no line that was tried changes anything but the turns: %s" % self.now.place
            self.report("stuck", told, state, [], self.now.place)

    def behind(self, waited):
        """What comes behind the answer in this turn, whatever is typed: a clock that strikes."""
        return waited.partition(self.game.says[35])[2]

    def bare_answer(self, answer):
        """An answer without what comes behind any answer in this turn."""
        return (answer.removesuffix(self.tail) if self.tail else answer).strip("\n")

    def tried(self, state, lines):
        found = [one for one in probing.tried(self.game, state, lines)]
        self.lines += 4 * len(lines)
        if len(found) < len(lines):
            at = len(found) - 1
            self.report("question", "the game ends behind one line", state, [lines[max(at, 0)]], "", key=lines[max(at, 0)])
            rest = [line for line in lines if line != lines[max(at, 0)]]
            return found + self.tried(state, rest[max(at, 0):]) if rest[max(at, 0):] and len(rest) < len(lines) else found
        return found

    def one_word(self, near):
        """A word for each noun that is near: one that was shown, where there is one."""
        found = {}
        for word in near:
            value = self.game.nouns[word]
            if value not in found or word in self.shown_words and found[value] not in self.shown_words:
                found[value] = word
        return found

    def lines_tried(self, state, near):
        """The lines that are tried in a state: each kind of sentence with what is near, and with some of what isn't."""
        game, nouns = self.game, self.one_word(near)
        far = sorted({value: word for word, value in game.nouns.items() if value not in nouns and word not in near}.values())
        step = max(1, len(far) // TRIES_ABSENT)
        far = [word for word in far if word in TRIED_ALWAYS] + (far[self.turn % step::step][:TRIES_ABSENT] if far else [])
        self.far, written = set(far), game.written
        nouns, far = {value: written[word] for value, word in nouns.items()}, [written[word] for word in far]
        lines = []
        if any(map(self.wants, OF_VERBS + OF_ENDS)):
            lines += ["%s %s" % (verb, noun) for verb in self.verbs.values() for noun in [*nouns.values(), *far]]
            lines += ["%s %s" % (verb, noun) for verb in LOOSE + LEADING for noun in [*nouns.values(), *far]]
            lines += ["%s %s" % (verb, NO_NOUN) for verb in [*self.verbs.values(), *LOOSE]]
        had = [word for value, word in nouns.items()
               if any(state.has(number) and noun == value for number, noun in enumerate(game.noun_of))]
        people = [nouns[value] for value in nouns if value in self.people]
        topics = sorted(set(nouns.values()) | {written[word] for word in self.shown_words & set(game.nouns)})
        topics = topics[self.turn % max(1, len(topics) // PEOPLE_ASKED)::max(1, len(topics) // PEOPLE_ASKED)][:PEOPLE_ASKED]
        for person in people:
            lines += ["%s %s to %s" % (verb, thing, person) for verb in ("give", "show") for thing in had]
            lines += ["ask %s about %s" % (person, topic) for topic in [*topics, *had]]
            lines += [wording % person for wording in FOR_HELP]
            lines += ["hello %s" % person, "say hello to %s" % person, "talk to %s" % person, "thank %s" % person]
        lines += ["%s %s %s %s" % (verb, thing, small, noun) for thing in had for noun in nouns.values()
                  for verb, small in (("put", "in"), ("put", "on")) if noun != thing]
        lines += ["%s %s with %s" % (verb, noun, thing) for thing in had[:4] for noun in nouns.values()
                  for verb in ("open", "light")]
        return lines + ["go " + way for way in WAYS]

    # --- what is told of the texts of a state

    def of_texts(self, state, near, helped):
        game, now = self.game, self.now
        has = [number for number in range(len(game.things)) if state.has(number)]
        texts = {now.told: [], **{answer: ["x " + word] for word, answer in near.items()}}
        for noun, one, other in self.denials.between([now.told]):
            self.report("denies", "%s: '%s' and '%s'" % (noun, one, other), state, ["look"], one)
        for text, typed in list(texts.items())[1:]:
            for noun, one, other in self.denials.between([now.told, text]):
                if one in text or other in text:
                    self.report("denies", "%s: '%s' and '%s'" % (noun, one, other), state, typed, one if one in text else other)
        self.of_marks(state, now.described, ["look"], has)
        for text, typed in list(texts.items())[1:]:
            self.of_marks(state, text, typed, has)
        for number in has:
            self.of_thing_had(state, helped.answer, ["help"], number)
        for name in now.listed:
            if name in game.things:
                self.of_listed(state, name)
        for proposed in CAPITALS.findall(helped.answer):
            self.proposed(state, proposed)

    def of_listed(self, state, name):
        noun = self.game.noun_of[self.game.things.index(name)]
        for clause in denials.clauses(self.now.told):
            words = probing.words_in(clause)
            for word, behind in zip(words, words[1:] + [""]):
                if self.game.noun(word) == noun and word in name and not self.game.noun(behind.removesuffix("'s")):
                    self.report("twice", "%s: '%s', and it is listed" % (name, clause.strip()), state, ["look"], clause.strip())

    def of_thing_had(self, state, text, typed, number):
        """Whether a text tells where a thing is that is carried."""
        name = self.game.things[number]
        words = {word for word in probing.words_in(name)
                 if self.game.noun(word) == self.game.noun_of[number]}
        for clause in re.split("[.;:!?]", text):
            if denials.THERE.search(clause) and words & set(probing.words_in(clause)):
                said = clause.strip(" '\n")
                self.report("told", "%s: '%s', and it is carried" % (name, said), state, typed, said)

    def proposed(self, state, line):
        """A line that HELP proposes has to be understood."""
        if line in self.known:
            return
        self.known.add(line)
        answer = next((one.answer for one in self.tried(state, [line.lower()])), "")
        if self.game.pattern(6, 57, 82).fullmatch(answer):
            self.report("help", "%s: %s" % (line, answer), state, [line.lower()], answer)

    def of_marks(self, state, text, typed, has, turn=None):
        for pattern, told, way, other, second in self.marks.never:
            if not pattern.search(text):
                continue
            shown = "\n".join(state.standing)
            before = " ".join(shown.split())
            found = {"with": lambda: second.search(turn or text + "\n" + self.now.told),
                     "after": lambda: second.search(shown) or second.search(before),
                     "before": lambda: not (second.search(shown) or second.search(before)),
                     "having": lambda: other in [self.game.things[number] for number in has],
                     "without": lambda: other not in [self.game.things[number] for number in has]}[way]()
            if found:
                self.report("marked", "'%s' %s '%s'" % (told, way, other), state, typed, told)

    # --- what is told of words

    def of_words(self, state, near):
        """Words of the description that have no answer of their own, or one answer for two."""
        shown = [word for word in dict.fromkeys(probing.words_in(self.now.told)) if len(word) > 2 and word not in self.others]
        for word in shown:
            answer = near.get(word[:5])
            if answer is not None and self.bare.fullmatch(answer):
                self.report("bare", "%s: %s" % (word, answer), state, ["x " + word], answer, key=word)
        by_value = {}
        for word in shown:
            if word[:5] in near:
                by_value.setdefault(self.game.noun(word), []).append(word)
        for words in by_value.values():
            for one, other in zip(words, words[1:]):
                if one[:4] != other[:4] and near[one[:5]] == near[other[:5]] and not self.bare.fullmatch(near[one[:5]]) \
                        and not self.marks.may_share(one, other, near[one[:5]]):
                    self.report("same", "%s and %s: %s" % (one, other, near[one[:5]]), state, ["x " + other], near[other[:5]])

    def of_help(self, state, nouns, answers):
        """Who is asked for help says one thing, whatever the wording."""
        for value in self.people & set(nouns):
            person = self.game.written[nouns[value]]
            asked = {wording % person: answers.get(wording % person, "") for wording in FOR_HELP}
            plain = answers.get("talk to %s" % person, "")
            if len(set(asked.values())) > 1 and not self.refusals.fullmatch(plain):
                odd = [line for line, answer in asked.items() if answer == plain or self.unknown.match(answer)]
                line = (odd + [FOR_HELP[0] % person])[0]
                self.report("help", "'%s' is answered otherwise than in other words: %s" % (line, asked.get(line, "")), state,
                            [line], asked.get(line, ""), key=value)

    # --- what is told of a try

    def of_try(self, state, one, near):
        game, seen = self.game, probing.Seen(self.game, one.seen)
        answer, words = self.bare_answer(one.answer), probing.words_in(one.line)
        absent = [word for word in words[1:] if word[:5] in self.far or word == NO_NOUN]
        ended = game.is_end(one.answer) or game.is_end(one.again)
        moved = seen.place != self.now.place and (seen.place, self.now.score) not in self.usual and \
            game.says[0] not in (seen.place, self.now.place)
        if moved:
            self.left.add(self.now.place)
        if self.ends or words[0] in self.leading:
            pass  # what comes of waiting, or of the verb alone, comes of no noun
        elif ended or moved or (self.now.place, seen.score) not in self.usual and seen.place == self.now.place:
            self.of_change(state, one, answer, words, absent, ended, moved)
        self.of_answer(state, one, answer, words, absent)
        self.of_turn(state, one, answer, seen, near)

    def of_change(self, state, one, answer, words, absent, ended, moved):
        """An end, a score or a place that a line leads to, which says something else."""
        typed = [one.line, one.line] if ended else [one.line]
        unwanted = (one.again if ended else one.answer)[:60]
        if self.unknown.fullmatch(answer) or self.absent.fullmatch(answer):
            if not ended or self.refusals.fullmatch(self.bare_answer(one.again)):
                self.report("change", "'%s' isn't understood, and changes something: %s" % (one.line, answer), state, typed,
                            unwanted)
        elif absent and (ended or moved) and words[0] not in ("go", "get"):
            told = "'%s' names what isn't here, and leads elsewhere: %s" % (one.line, unwanted)
            self.report("change", told, state, typed, unwanted,
                        key=(words[0], len(words) > 2 and words[1], self.now.place))
        elif one.line.startswith(LOOSE) and (ended or moved):
            told = "'%s' leads elsewhere: %s" % (one.line, unwanted)
            self.report("change", told, state, typed, unwanted, key=(*words[:2], self.now.place))

    def of_turn(self, state, one, answer, seen, near):
        """What an answer and the description behind it say together."""
        if answer in near.values() or answer in self.alone or self.refusals.fullmatch(answer):
            return
        for noun, first, second in self.denials.between([one.answer, seen.told]):
            if first not in self.now.told or second not in self.now.told:
                self.report("denies", "%s: '%s' and '%s'" % (noun, first, second), state, [one.line, "look"], first)
        has = [number for number in range(len(self.game.things)) if state.has(number)]
        self.of_marks(state, one.answer, [one.line], has)

    def of_answer(self, state, one, answer, words, absent):
        """Who answers, and for what."""
        game = self.game
        if self.named.fullmatch(answer):
            for number, name in enumerate(game.things):
                if answer == game.says[79].replace("_", name) and not state.has(number) and not self.was_shown(number):
                    self.report("unseen", "%s: %s" % (name, answer), state, [one.line], answer)
        asked = {game.noun(word) for word in words[1:]} & self.people
        speakers = {game.noun(name.lower()) for name in SPEECH.findall(answer)} - {None}
        if words[0] in ("ask", "give", "show", "talk", "hello", "thank") and words[:2] != ["ask", "about"] and \
                speakers and asked and not speakers & asked:
            self.report("other", "'%s' is answered so: %s" % (one.line, answer), state, [one.line], answer, key=answer)
        if absent and answer not in self.alone and not self.refusals.fullmatch(answer) and answer and \
                words[0] not in ("go", "ask", "say", "tell", "talk", "hello", "hi", "bye", "thank"):
            self.report("absent", "'%s': %s" % (one.line, answer), state, [one.line], answer, key=answer)
        if words[0] in ("ask", "give", "show", "talk"):
            named = {game.noun(word) for word in words[1:]}
            for number, noun in enumerate(game.noun_of):
                if noun in named and state.has(number):
                    self.of_thing_had(state, answer, [one.line], number)
                    if re.match(r"'(?:In|On|Under) (?:my|the|your)\b", answer):
                        self.report("told", "%s: %s, and it is carried" % (game.things[number], answer), state, [one.line],
                                    answer)

    def was_shown(self, number):
        """Whether a thing was shown on the way, by one of its words."""
        return any(word[:5] in self.shown_words for word in probing.words_in(self.game.things[number])
                   if self.game.noun(word) == self.game.noun_of[number])

    # --- what is told of whole ways

    def all_ways(self, ways):
        for place, state in self.reached.items():
            count = len(state.lines)
            goes_on = any(len(lines) > count and lines[:count] == state.lines for _, lines in ways)
            if place not in self.left and place and not goes_on and not self.game.is_end(place):
                self.report("held", "%s can't be left" % place, state, [], place)
        if self.wants("question"):
            self.questions(ways)

    def questions(self, ways):
        """What the question at each end takes for a yes."""
        for name, lines in ways:
            parts = self.game.parts(lines)
            title = parts[0].strip()[:30]
            for count in range(1, len(parts)):
                asked = self.asked_at(lines, count)
                if not asked:
                    continue
                state = probing.State(self.game, name, lines[:count], parts[:count])
                for line in ("look", "undo", "maybe", "quit", "wait"):
                    shown = self.game.walk(lines[:count] + [line])[len(self.game.walk(lines[:count])):]
                    if title and title in shown:
                        self.report("question", "'%s' begins the game anew" % line, state, [line], title, key=(line,))

    def asked_at(self, lines, count):
        shown = self.game.walk(lines[:count])
        told = self.game.over
        return shown.endswith(self.game.asked) or told is not None and shown.endswith(told + "\n" + self.game.prompt)
