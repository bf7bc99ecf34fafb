"""Warnings of what players stumble over in the words of a game: names that aren't understood, nouns without an answer.

tools/uses shows them beside its own. Nouns in a text are found by the words before and behind them, so what is said of the
texts of places is a guess; a comment silences it where it is wrong.
"""
import re

import paws

LONG = 60  # letters: a row of a verse, a list or a table is shorter
# What stands before a noun, and what is never part of one.
BEFORE = set("A AN THE THIS THESE THOSE SOME YOUR HIS HER ITS THEIR OUR MY ANOTHER EACH EVERY".split())
NEVER = BEFORE | set("""
    ANYBODY ANYONE ANYTHING EVERYBODY EVERYONE EVERYTHING EVERYWHERE LONGER NEWEST OLDEST SOMEBODY SOMEWHERE
    ABOUT ABOVE ACROSS AFTER AGAIN AGAINST AHEAD ALL ALMOST ALONG ALREADY ALSO ALWAYS AM AMONG AND ANY ARE AROUND AS AT
    AWAY BACK BE BEEN BEFORE BEHIND BELOW BENEATH BESIDE BESIDES BETWEEN BEYOND BOTH BUT BY CAN CANNOT COULD DID DO DOES
    DOWN DURING EITHER ELSE ENOUGH EVEN EVER EXCEPT FAR FEW FOR FROM FURTHER GO GOES HAD HALF HAS HAVE HE HERE HIM
    HIMSELF HOW I IF IN INSIDE INTO IS IT ITSELF JUST LEAD LEADS LEAVES LIE LIES LIKE LITTLE MANY MAY ME MIGHT MORE MOST
    MUCH MUST NEAR NEITHER NEVER NO NOBODY NONE NOR NOT NOTHING NOW OF OFF ON ONCE ONE ONES ONLY ONTO OR OTHER OTHERS
    OUT OUTSIDE OVER OWN PAST PERHAPS QUITE RATHER ROUND RUN RUNS S SAME SEEM SEEMS SEVERAL SHE SHOULD SINCE SO SOMEONE
    SOMETHING STAND STANDS STILL SUCH T THAN THAT THEIRS THEM THEN THERE THEY THOUGH THREE THROUGH TILL TO TOGETHER TOO
    TOWARD TOWARDS TWO FOUR FIVE SIX SEVEN EIGHT NINE TEN UNDER UNTIL UP UPON US VERY WAS WE WERE WHAT WHEN WHERE WHICH
    WHILE WHO WHOSE WHY WILL WITH WITHIN WITHOUT WOULD YES YET YOU YOURS YOURSELF""".split())
# Nouns that nobody looks at.
NO_THINGS = set("""
    AIR BEGINNING BIT BOTTOM CENTRE CHANCE COURSE DARK DARKNESS DAY DAYS DIRECTION DISTANCE DOZEN EAST END ENDS EVENING
    FIRST FOOT FRONT HEIGHT HOUR HOURS HUNDRED HURRY IDEA JOURNEY KIND LAST LEFT LENGTH LIFE LOT MATTER MIDDLE MINUTE
    MINUTES MOMENT MORNING NEXT NIGHT NOISE NORTH NUMBER ORDER PAIR PART PARTS PIECE PLACE PLACES POINT REASON REST
    RIGHT ROW SECOND SIDE SIDES SIGHT SILENCE SIZE SMELL SORT SOUND SOUTH STEP THING THINGS THIRD TIME TIMES TOP TRADE
    TURN USE VIEW WARMTH WAY WAYS WEST WHOLE WIDTH WORD WORDS WORLD YEAR YEARS""".split())
# What stands behind the word that names a thing, as in a bag of salt.
OF = set("OF IN ON WITH FROM FOR TO AT WITHOUT THAT FULL".split())
LOOKING = {"X", "EXAMI", "EXAM", "INSPE"}
ENDINGS = {"", "S", "ES", "ED", "D", "ING", "N", "EN", "ER", "R", "RS", "ERS", "LY", "Y"}
LEAVES = {"DONE", "NOTDONE", "OK", "DESC", "END", "RESET", "SAVE", "LOAD"}
OF_THINGS = {"ABSENT", "PRESENT", "ISAT", "ISNOTAT", "CARRIED", "NOTCARR", "WORN", "NOTWORN"}


def tokens(text):
    """The words of a line in capitals, and the marks between them, without those that only tell whose a thing is."""
    return re.findall("[A-Z0-9]+|[^A-Z0-9 -]", re.sub("[A-Z0-9]+'S\\b|[A-Z0-9]+S'(?= )", "", text.upper()))


def noun_phrases(text):
    """What stands behind each article and the like: the words up to one that is never part of a noun, or a mark."""
    found, open_phrase = [], None
    for token in tokens(text):
        if open_phrase is not None and (token in NEVER or not token[0].isalpha() or len(open_phrase) == 3):
            if open_phrase:
                found.append(open_phrase)
            open_phrase = None
        if token in BEFORE:
            open_phrase = []
        elif open_phrase is not None:
            open_phrase.append(token)
            if token in NO_THINGS:
                open_phrase = None
    return found + ([open_phrase] if open_phrase else [])


def allows(entry, location):
    """Whether the conditions of an entry let it be read at a location; what else it asks isn't looked at."""
    for step in entry.steps:
        values = step.values
        if step.flag is not None:
            continue
        if (step.name == "AT" and values[0] != location or step.name == "NOTAT" and values[0] == location or
                step.name == "ATGT" and location <= values[0] or step.name == "ATLT" and location >= values[0] or
                step.name == "EQ" and values[0] == 38 and values[1] != location):
            return False
    return True


class Wording:
    """The warnings of a source. places are the numbers of the locations that are places."""

    def __init__(self, source, places):
        self.source, self.places, self.rows = source, places, []
        self.known = {}
        for word in source.words:
            self.known.setdefault(word.letters, word)
        self.entries = [(number, entry) for number, table in enumerate(source.tables) for entry in table]
        self.looking = {word.value for word in source.words if word.kind == "verb" and word.letters in LOOKING}
        self.shown = [row for name in ("/LTX", "/OTX") for item in source.texts[name] for row in zip(item.lines, item.rows)]
        self.whole = {token for _, row in self.shown for token in tokens(row)}

    def all(self):
        for check in (self.own_names, self.parts, self.nouns, self.broken, self.behind, self.letters):
            check()
        return self.rows

    def warn(self, line, kind, why):
        self.rows.append((line, kind, why))

    def told(self, thing):
        return self.source.told("object", thing.number)

    def noun(self, token):
        """The value of a noun, or nothing."""
        word = self.known.get(token[:5])
        return word.value if word and word.kind == "noun" else None

    def name(self, value, kind="noun"):
        """The first word with the value, as it is written."""
        return next((word.written for word in self.source.words if word.value == value and word.kind == kind), str(value))

    # --- names of things

    def own_names(self):
        """Each object by the words that the game shows for it, and by the last of them, as a player would name it."""
        items = self.source.texts["/OTX"]
        for thing in self.source.things:
            if thing.noun == 255 or thing.number >= len(items) or not items[thing.number].rows:
                continue
            item = items[thing.number]
            noun, adjective, _ = self.source.phrase(item.text)
            name = self.name(thing.noun)
            means = "no noun" if noun == 255 else "the noun " + self.name(noun)
            if noun != thing.noun and not self.is_led(noun, thing.noun):
                self.warn(item.lines[0], "own name", "'%s' means %s, and the noun of object %s is %s"
                          % (item.text, means, self.told(thing), name))
            elif adjective not in (255, thing.adjective):
                self.warn(item.lines[0], "own name", "'%s' has the adjective %s, and object %s has %s" % (
                    item.text, self.name(adjective, "adjective"), self.told(thing),
                    "none" if thing.adjective == 255 else self.name(thing.adjective, "adjective")))
            else:
                self.last_word(thing, item, name)

    def last_word(self, thing, item, name):
        head = []
        for token in tokens(item.text):
            word = self.known.get(token[:5])
            if head and (token in OF or not token[0].isalnum() or word and word.kind in ("preposition", "conjunction")):
                break
            if token[0].isalnum() and token not in BEFORE:
                head.append(token)
        value = self.noun(head[-1]) if head else thing.noun
        if value != thing.noun and not self.is_led(value, thing.noun):
            self.warn(item.lines[0], "own name", "%s alone means %s, and the noun of object %s, '%s', is %s" % (
                head[-1], "nothing" if value is None else "the noun " + self.name(value), self.told(thing), item.text, name))

    def is_led(self, noun, wanted):
        """Whether an entry for any verb makes the one noun the other."""
        return noun is not None and any(
            entry.verb in (1, 255) and entry.noun == noun and step.name == "LET" and step.values == [34, wanted]
            for _, entry in self.entries for step in entry.steps)

    def parts(self):
        """An entry of a called table that takes a noun for a part of a place, where neither it nor what calls the table looks
        for the thing of that noun."""
        nouns = {thing.noun: thing for thing in reversed(self.source.things) if thing.noun != 255}
        for number, entry in self.entries:
            thing = nouns.get(entry.noun)
            asks = any(step.name in OF_THINGS and (step.flag is not None or nouns_of(self.source, step.values[0]) == entry.noun)
                       for step in entry.steps)
            placed = any(step.name in ("AT", "NOTAT", "ATGT", "ATLT") for step in entry.steps)
            sets = any(step.name in ("SET", "LET", "PLUS") and step.values[0] not in range(30, 59) for step in entry.steps)
            if entry.verb in (1, 255) and thing and placed and sets and not asks and self.is_called_first(number, entry.noun):
                self.warn(entry.line, "two meanings", "%s is a part of a place here, also where object %s, '%s', is present"
                          % (self.name(entry.noun), self.told(thing), self.source.text_of(thing.number)))

    def is_called_first(self, number, noun):
        """Whether something calls the table for the noun before WHATO has looked for a thing."""
        for table in self.source.tables:
            looked = []
            for entry in table:
                names = [step.name for step in entry.steps]
                asked = [step.values for step in entry.steps if step.name in ("EQ", "NOTEQ")]
                calls = any(step.name == "PROCESS" and step.values == [number] for step in entry.steps)
                guarded = "WHATO" in names and [51, 255] in asked or any(verb in (1, 255, entry.verb) for verb in looked)
                if calls and entry.noun in (1, 255, noun) and not guarded:
                    return True
                if "WHATO" in names and [51, 255] in asked and entry.noun in (1, 255) and names[-1] in LEAVES:
                    looked.append(entry.verb)
        return False

    # --- texts of places

    def nouns(self):
        for item in self.source.texts["/LTX"]:
            if item.number not in self.places:
                continue
            told = set()
            for line, row in zip(item.lines, item.rows):
                for phrase in noun_phrases(row):
                    if not told & set(phrase) and all(self.noun(token) is None for token in phrase):
                        told.update(phrase)
                        self.warn(line, "no word", "of '%s' in the text of location %s no word is a noun"
                                  % (" ".join(phrase).lower(), self.source.told("location", item.number)))
                for token in tokens(row):
                    value = self.noun(token)
                    if value is not None and value >= 20 and token not in told | NEVER and not self.is_other(token) and \
                            not self.answers(value, item.number):
                        told.add(token)
                        self.warn(line, "no answer", "%s stands in the text of location %s, and nothing there answers to it"
                                  % (token, self.source.told("location", item.number)))

    def answers(self, noun, location):
        """Whether something there has the noun: a thing that begins or comes there, or an entry for looking or for any verb."""
        if any(self.comes(thing, location) for thing in self.source.things if thing.noun == noun):
            return True
        return any((not self.looking or entry.verb in self.looking or entry.verb in (1, 255)) and self.is_for(entry, noun) and
                   allows(entry, location) and self.has_things(entry, location) for _, entry in self.entries)

    def has_things(self, entry, location):
        """Whether the things that an entry wants to be here or carried come to the location."""
        wanted = [step.values[0] for step in entry.steps if step.name in ("PRESENT", "CARRIED", "WORN") and step.flag is None]
        return all(self.comes(self.source.things[number], location) for number in wanted if number < len(self.source.things))

    def comes(self, thing, location):
        """Whether a thing begins at a location or with the player, or an entry brings it there."""
        return thing.place in (location, paws.PLACES["WORN"], paws.PLACES["CARRIED"]) or any(
            step.flag is not None and step.name in ("PLACE", "CREATE", "SWAP", "COPYOO") or
            step.name == "PLACE" and step.values == [thing.number, location] or
            step.name in ("CREATE", "SWAP") and thing.number in step.values and allows(entry, location) and
            any(other.name == "AT" for other in entry.steps)
            for _, entry in self.entries for step in entry.steps)

    @staticmethod
    def is_for(entry, noun):
        bounds = [step for step in entry.steps if step.values[:1] == [34] and step.name in ("EQ", "GT", "LT")]
        return entry.noun == noun or entry.noun in (1, 255) and bool(bounds) and all(
            noun == step.values[1] if step.name == "EQ" else noun > step.values[1] if step.name == "GT" else noun < step.values[1]
            for step in bounds)

    # --- lines

    def broken(self):
        """Paragraphs that were broken by hand: a row as long as a window, and behind it one that begins in the middle of a sentence."""
        for name, what in (("/STX", "system message"), ("/MTX", "message"), ("/OTX", "the text of object"),
                           ("/LTX", "the text of location")):
            for item in self.source.texts[name]:
                for line, row, below in zip(item.lines, item.rows, item.rows[1:]):
                    if len(row) >= LONG and below[:1].islower():
                        self.warn(line, "broken", "a paragraph of %s %d has a line end before '%s'"
                                  % (what, item.number, below.split(" ")[0]))
                        break

    # --- entries and words

    def behind(self):
        for _, entry in self.entries:
            names = [step.name for step in entry.steps]
            leaving = [at for at, step in enumerate(entry.steps[:-1]) if step.name in LEAVES and step.flag is None]
            if leaving:
                step = entry.steps[leaving[0] + 1]
                self.warn(step.line, "behind", "%s in the entry %s is never read: %s leaves the table"
                          % (step.name, entry.written, names[leaving[0]]))

    def letters(self):
        """A word that is declared a second time in its five letters, and one of a text that is read as another."""
        first = {}
        for word in self.source.words:
            above = first.setdefault(word.letters, word)
            if above is not word:
                self.warn(word.line, "five letters", "%s has the five letters of %s, line %d: they are one word"
                          % (word.written, above.written, above.line))
        told = set()
        for line, row in self.shown:
            for token in tokens(row):
                if token not in told | NEVER and self.is_other(token):
                    told.add(token)
                    word = self.known[token[:5]]
                    self.warn(line, "five letters", "%s is read as %s, line %d" % (token, word.written, word.line))

    def is_other(self, token):
        """Whether a word is read as another, and not as itself with another ending. One that is written with five letters may
        be the beginning of a longer one, unless a text has it so."""
        word = self.known.get(token[:5])
        if not word or len(token) < 5 or len(word.written) <= 5 and word.written not in self.whole:
            return False
        short, long = sorted((token, word.written), key=len)
        return not any(long == stem + end for stem in (short, short[:-1]) for end in ENDINGS if long.startswith(stem))


def nouns_of(source, number):
    return source.things[number].noun if number < len(source.things) else None
