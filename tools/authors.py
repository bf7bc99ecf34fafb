"""A state of a game in the words of its source, which trace and the seat show to authors, and changes of it by hand."""
import paws
import sessions
import steps
from steps import FLAGS, VALUES

CARRIED_COUNT = 1  # the flag that counts what is carried


class Author:
    """A source, and what it calls the things of a state."""

    def __init__(self, source):
        self.source, self.names = source, steps.Names(source)

    @classmethod
    def of(cls, path):
        return cls(paws.Source(path))

    # --- what a state holds

    def place(self, state):
        return "%s %s" % (self.names.number("L", state.place), self.names.of("L", state.place))

    def where(self, state, thing):
        """Where an object is: here, within another, carried, or at a place."""
        place = state.places[thing]
        if place == state.place:
            return "here"
        if any("C" in other.kind and other.number == place for other in self.source.things):
            return "in the " + self.source.text_of(place)
        return self.names.places.get(place) or "%s %s" % (self.names.number("L", place), self.names.of("L", place))

    def of_flag(self, flag, value):
        told = [name for name in (FLAGS.get(flag), self.names.of(VALUES.get(flag), value)) if name]
        return "%d%s" % (value, " (%s)" % ", ".join(told) if told else "")

    def things(self, state):
        """A row for each object: its name or number, its text, and where it is."""
        for thing in self.source.things:
            yield "%3s %s: %s" % (self.names.number("O", thing.number), self.source.text_of(thing.number), self.where(state, thing.number))

    def flags(self, state):
        """A row for each flag that isn't 0."""
        for flag, value in enumerate(state.flags):
            if value and not (flag in VALUES and value == 255):
                yield "%3s %s" % (self.names.number("F", flag), self.of_flag(flag, value))

    def changes(self, before, now):
        """A row for each flag and each object that is otherwise than before."""
        for flag in range(256):
            if before.flags[flag] != now.flags[flag]:
                was, is_now = (self.of_flag(flag, state.flags[flag]) for state in (before, now))
                yield "flag %s: from %s to %s" % (self.names.number("F", flag), was, is_now)
        for thing in self.source.things:
            if before.places[thing.number] != now.places[thing.number]:
                yield "%s: from %s to %s" % (self.source.text_of(thing.number), self.where(before, thing.number),
                                             self.where(now, thing.number))

    # --- changes by hand

    def number_of(self, kind, word, count):
        """The number of what has this name or number; None where nothing has."""
        found = [number for (of, number), name in self.source.named.items() if of == kind and name.upper() == word.upper()]
        if not found and word.isascii() and word.isdigit() and len(word) < 4:
            found = [int(word)]
        return found[0] if found and found[0] < count else None

    def gone_to(self, data, word):
        """The bytes of a session where the player is at another place; None where there is no such place."""
        place = self.number_of("location", word, len(self.source.texts["/LTX"]))
        return None if place is None else sessions.changed(data, {sessions.PLACE: place})

    def taken(self, data, word):
        """The bytes of a session where an object is carried; None where there is no such object."""
        thing, state = self.number_of("object", word, len(self.source.things)), sessions.state_of(data)
        if thing is None:
            return None
        carried = state.flags[CARRIED_COUNT] + (state.places[thing] != sessions.CARRIED)
        return sessions.changed(data, {sessions.PLACES + thing: sessions.CARRIED, CARRIED_COUNT: min(carried, 255)})
