"""Warnings of what a source says and its author hardly means: each is a game by the rules, and plays otherwise than it looks.

tools/uses shows them beside its own, and tells what each kind is. A comment silences one that is meant.
"""
import re

import paws

SAYS = {"MES", "MESSAGE", "SYSMESS"}
LEAVES = {"DONE", "NOTDONE", "OK", "DESC", "END", "QUIT", "RESET", "SAVE", "LOAD", "PARSE"}
INTO = {"PUTIN", "AUTOP", "TAKEOUT", "AUTOT"}
WEARS = {"WEAR", "WORN"}
STRENGTH = 10  # what can be carried where no ABILITY says otherwise
WITHIN_A_WORD = re.compile(r"[A-Za-z0-9]_[A-Za-z0-9]")


class Oversights:
    """A source, the locations where the player comes, and the warnings."""

    def __init__(self, source, reached, containers):
        self.source, self.reached, self.containers, self.rows = source, reached, containers, []
        self.lines = source.plain.split("\n")

    def warn(self, line, kind, why):
        self.rows.append((line, kind, why))

    def told(self, thing):
        return self.source.told("object", thing.number)

    def all(self):
        for check in (self.texts, self.underscores, self.entries, self.descriptions, self.insides, self.nouns, self.weights,
                      self.wearing, self.first_values, self.places, self.flags, self.empty_tables):
            check()
        return self.rows

    # --- texts

    def texts(self):
        """A line within a text that begins with ; is a comment. Remarks have a blank behind that."""
        for items in self.source.texts.values():
            for item in items:
                for line in range(item.line + 1, max(item.lines, default=0)):
                    if self.source.comments.get(line, " ")[:1] not in ("", " "):
                        self.warn(line, "left out", "a line of a text that begins with ; is a comment, and isn't shown")

    def underscores(self):
        for items in self.source.texts.values():
            for item in items:
                for line, row in zip(item.lines, item.rows):
                    found = WITHIN_A_WORD.search(row)
                    if found:
                        self.warn(line, "underscore", "_ stands for the text of an object, also within %s" % self.word_at(row, found))

    @staticmethod
    def word_at(row, found):
        return next(word for word in re.findall(r"\S+", row) if found.group() in word)

    # --- entries

    def entries(self):
        """An entry that says something and goes on, where one below it says something to the same words in any case."""
        table = self.source.tables[0] if self.source.tables else []
        for at, entry in enumerate(table):
            if entry.steps and entry.steps[-1].name in SAYS and entry.verb not in (1, 255):
                second = self.next_answer(entry, table[at + 1:])
                if second and second.steps[0].name in SAYS:
                    self.warn(entry.line, "goes on", "the entry %s doesn't end with DONE, so that of line %d answers too"
                              % (entry.written, second.line))

    def next_answer(self, entry, rows):
        """The next entry that is read to its end whenever this one is, if it says something or leaves the table."""
        asked = self.conditions(entry)
        for row in rows:
            answers = row.steps and (row.steps[0].name in SAYS or row.steps[-1].name in LEAVES)
            if answers and self.covers(row, entry) and self.conditions(row) <= asked:
                return row
        return None

    @staticmethod
    def conditions(entry):
        return {(step.name, step.flag, *step.values) for step in entry.steps if not step.acts}

    @staticmethod
    def covers(above, below):
        return all(mine in (1, 255) or mine == other for mine, other in ((above.verb, below.verb), (above.noun, below.noun)))

    def descriptions(self):
        """Table 1 is read after each description: one that it asks for without a condition never ends."""
        for entry in self.source.tables[1] if len(self.source.tables) > 1 else []:
            for step in entry.steps:
                if not step.acts or step.name in LEAVES - {"DESC"}:
                    break
                if step.name == "DESC":
                    self.warn(step.line, "again and again", "table 1 is read after each description, and here describes again in any case")
                    break

    # --- objects

    def insides(self):
        for _, _, step in self.source.steps():
            if step.name in INTO:
                for value in self.values_at(step, "L"):
                    if value not in self.containers:
                        self.warn(step.line, "container", "%s puts into or takes out of %s, and no object %d is a container"
                                  % (step.name, self.source.told("location", value), value))

    def values_at(self, step, kind):
        """The values of a condact's parameters of this kind that are known; PUTIN names a place by its number alone."""
        kinds = self.source.condacts[step.name].kinds
        return [value for letter, value in zip(kinds, step.values) if letter in (kind, "P") and value is not None and value < 252]

    def nouns(self):
        """Two objects that are called by different words, where both words are one by their value."""
        seen = {}
        for thing in self.source.things:
            word = self.noun_of(thing)
            key = (thing.noun, thing.adjective)
            if thing.noun != 255 and key in seen and seen[key][0] != word:
                self.warn(thing.line, "one noun", "%s and %s have one value, %d: by either a player means both objects, %s and %s"
                          % (seen[key][0], word, thing.noun, seen[key][1], self.told(thing)))
            seen.setdefault(key, (word, self.told(thing)))

    def noun_of(self, thing):
        return self.lines[thing.line - 1].split(";")[0].upper().split()[4][:5]

    def weights(self):
        """What weighs more than can ever be carried, where something takes objects up."""
        steps = [step for _, _, step in self.source.steps()]
        given = [step.values[1] for step in steps if step.name == "ABILITY"]
        sets = any(put and flag in (52, None) for step in steps if step.name != "ABILITY" for flag, _, put in paws.flags_of(step))
        taken = {step.values[0] for step in steps if step.name in ("GET", "TAKEOUT")}
        if sets or None in given:
            return
        most = max(given, default=STRENGTH)
        for thing in self.source.things:
            if thing.weight > most and (thing.number in taken or thing.noun != 255 and any(step.name == "AUTOG" for step in steps)):
                self.warn(thing.line, "too heavy", "object %s weighs %d, and no more than %d can be carried"
                          % (self.told(thing), thing.weight, most))

    def wearing(self):
        worn = {thing.number for thing in self.source.things if "W" in thing.kind or thing.place == paws.PLACES["WORN"]}
        for _, _, step in self.source.steps():
            if step.name in WEARS and step.values[0] is not None and step.values[0] not in worn:
                self.warn(step.line, "never holds", "%s %s: that object can't be worn"
                          % (step.name, self.source.told("object", step.values[0])))

    # --- values

    def first_values(self):
        """A message by a flag that is 0 at first, where what it is given later doesn't begin at 0."""
        for _, entry, step in self.source.steps():
            if step.name in SAYS and step.flag is not None and not self.is_asked(entry, step):
                given = (self.source.values_of(step.flag) or {0}) - {0}
                if given and min(given) > 1 and not self.is_set_to_zero(step.flag):
                    self.warn(step.line, "first value", "%s @%s says number 0 until the flag gets another value, %d or more"
                              % (step.name, self.source.told("flag", step.flag), min(given)))

    @staticmethod
    def is_asked(entry, step):
        """Whether a condition on the flag stands before a condact of its entry."""
        before = entry.steps[:entry.steps.index(step)]
        return any(flag == step.flag for one in before if not one.acts for flag, _, _ in paws.flags_of(one))

    def is_set_to_zero(self, flag):
        return any(step.name == "CLEAR" and step.values[0] == flag or step.name == "LET" and step.values == [flag, 0]
                   for _, _, step in self.source.steps())

    def flags(self):
        """A condition on a value that its flag never has."""
        for _, _, step in self.source.steps():
            if step.name == "EQ" and step.flag is None:
                values = self.source.values_of(step.values[0])
                if values is not None and len(values) > 1 and step.values[1] not in values:
                    self.warn(step.line, "never holds", "EQ %s %d: the flag is %s alone" % (
                        self.source.told("flag", step.values[0]), step.values[1], ", ".join(map(str, sorted(values)))))

    def places(self):
        """A condition on a place where the player never is."""
        for _, _, step in self.source.steps():
            if step.name == "AT" and step.values[0] is not None and step.values[0] not in self.reached:
                self.warn(step.line, "never holds", "AT %s: nothing leads there" % self.source.told("location", step.values[0]))

    def empty_tables(self):
        for _, _, step in self.source.steps():
            if step.name == "PROCESS" and step.values[0] < len(self.source.tables) and not self.source.tables[step.values[0]]:
                self.warn(step.line, "does nothing", "table %s has no entries" % self.source.told("table", step.values[0]))
