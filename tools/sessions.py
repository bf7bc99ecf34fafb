"""What the bytes of a session hold: docs/FORMATS.md has them."""
import hashlib
import sys

import paws

SLOTS, SLOT, BASE, TEXT, RECORDS = 128, 86080, 64, 4160, 69696
STATE, SHORT = 3419, 1371  # bytes of a state, and of one in a slot of version 1
LENGTH, MARK = SLOTS + 2 * SLOT, 80
LINE, KEY, OVER = 0, 3, 4  # prompts: for a line, for a key, and none, since the game is over; the two between them ask a question
DARK, SCORE, TURNS, PLACE = 0, 30, 31, 38  # flags
PLACES = 256  # where the places of objects begin in a state
WORN, CARRIED = 253, 254  # the places of what the player has


def number_at(data, at, size):
    return int.from_bytes(data[at:at + size], "little")


def is_made(data):
    """Whether these are the bytes of a session that was made, as far as its length and its mark tell."""
    return len(data) == LENGTH and data[0] == MARK


def may_be_one(data):
    """Whether these may be the bytes of a session, be it damaged or cut off; no text and no image begins so."""
    return was_cut_off(data) or is_made(data) or data[:1] == bytes([MARK]) and data[2:3] in (b"\0", b"\1", b"\2")


def was_cut_off(data):
    """Whether these may be the bytes of a session whose making was cut off: nothing of it was ever shown."""
    return 0 < len(data) <= LENGTH and data[0] == 0


def game_of(data):
    """The digest of the image that a session is of."""
    return data[32:64].hex()


class State:
    """What a slot of a session shows; none where it has no state."""

    def __init__(self, slot):
        self.base = bytearray(slot[BASE:BASE + 4096])
        records = slot[RECORDS:RECORDS + 4 * min(number_at(slot, 0, 2), 4096)]
        for low, high, value in zip(records[::4], records[1::4], records[2::4]):
            self.base[(low + 256 * high) % 4096] = value
        if slot[2:3] != b"\2":
            self.base[SHORT:STATE] = bytes(STATE - SHORT)
        self.flags, self.places = self.base[:256], self.base[256:511]
        self.seed, self.lines, self.prompt = number_at(self.base, 1023, 8), number_at(self.base, 1039, 8), self.base[1047]
        self.text = slot[TEXT:TEXT + number_at(self.base, 1369, 2)].decode("latin-1")

    @property
    def place(self):
        """The number of the place where the player is."""
        return self.flags[PLACE]

    @property
    def is_dark(self):
        """Whether nothing is seen there: it is dark, and thing 0, which gives light, isn't at hand."""
        return self.flags[DARK] != 0 and self.places[0] not in (self.place, WORN, CARRIED)

    @property
    def score(self):
        return self.flags[SCORE]

    @property
    def turns(self):
        return self.flags[TURNS] + 256 * self.flags[TURNS + 1]

    def is_same(self, other):
        """Whether another state shows the same, and goes on the same way."""
        return self.base[:STATE] == other.base[:STATE] and self.text == other.text


def state_at(data, slot):
    return State(data[SLOTS + SLOT * slot:SLOTS + SLOT * (slot + 1)])


def state_of(data):
    """The state that a session of these bytes shows."""
    return state_at(data, data[1] % 2)


def changed(data, values):
    """The bytes of a session whose state has other values at some of its bytes; it is resumed as any other."""
    base = state_of(data).base
    for at, value in values.items():
        base[at] = value
    at = SLOTS + SLOT * (data[1] % 2)
    return data[:at] + b"\0\0\2" + data[at + 3:at + BASE] + bytes(base) + data[at + TEXT:]


def now(path):
    """The state of a session that the program has just written."""
    with open(path, "rb") as file:
        return state_of(file.read(LENGTH))


def states(path, image):
    """The state of a session, and the one before its last line where that is still there."""
    with open(path, "rb") as file:
        data = file.read(LENGTH + 1)
    with open(image, "rb") as file:
        digest = hashlib.sha256(file.read()).digest()
    if not is_made(data):
        sys.exit(paws.refusal("%s: no session" % path))
    if data[32:64] != digest:
        sys.exit(paws.refusal("%s: the session is of another game" % path))
    used = data[1] % 2
    last, before = state_at(data, used), state_at(data, 1 - used)
    return last, before if before.lines + 1 == last.lines else None
