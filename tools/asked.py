"""What a program that plays asks for, one line of JSON each, looked at before anything is done: docs/PROTOCOL.md has the rules."""
import collections
import json
import re
import unicodedata

import letters
import lines as rows

VERSION = 1
LONGEST = 65536             # bytes of a request, without its line end
LONGEST_ID = 100            # letters
LONGEST_NUMBER = 20         # digits of a number that may mean something
BEHIND_NUMBERS = 2 ** 53    # numbers are below: each program that reads JSON has those exactly
BEHIND_SEEDS = 2 ** 64


class Refusal(Exception):
    """Why a request isn't done: a fixed word, and a sentence."""

    def __init__(self, kind, why):
        super().__init__(why)
        self.kind, self.why = kind, why


# --- Lines ---------------------------------------------------------------------------------------------------------

def lines(pieces):
    """The lines of an input that comes in pieces, without their ends. One that is too long is None, as soon as that shows; the rest
    of it is passed over."""
    data, is_passed_over = b"", False
    for piece in pieces:
        *whole, data = (data + piece).split(b"\n")
        for line in whole:
            if not is_passed_over:
                yield line if len(line) <= LONGEST else None
            is_passed_over = False
        if len(data) > LONGEST and not is_passed_over:
            yield None
            is_passed_over = True
        if is_passed_over:
            data = b""
    if data:
        yield data


def read(data):
    """The object of a line."""
    if data is None:
        raise Refusal("long", "The line has more than %d bytes." % LONGEST)
    try:
        found = json.loads(data.decode("utf-8"), object_pairs_hook=object_of, parse_int=number_of, parse_constant=not_json)
    except RecursionError:
        raise Refusal("json", "The line is nested too deep.") from None
    except ValueError:
        raise Refusal("json", "The line isn't one object of JSON in UTF-8, in which each name stands once.") from None
    if not isinstance(found, dict):
        raise Refusal("json", "The line is JSON, but no object.")
    return found


def object_of(pairs):
    found = dict(pairs)
    if len(found) < len(pairs):
        raise ValueError
    return found


def number_of(digits):
    """A whole number; one of many digits is no whole number here, whatever the version of Python makes of it."""
    return int(digits) if len(digits) <= LONGEST_NUMBER else float(digits)


def not_json(_):
    """NaN and its kin, which Python would read."""
    raise ValueError


# --- Fields --------------------------------------------------------------------------------------------------------

def is_number(value):
    return type(value) is int and 0 <= value < BEHIND_NUMBERS


def a_number(value):
    if not is_number(value):
        raise ValueError("a whole number from 0 on")
    return value


def a_count(value):
    if not is_number(value) or not value:
        raise ValueError("a whole number from 1 on")
    return value


def a_seed(value):
    digits = str(value) if is_number(value) else value
    if not isinstance(digits, str) or not re.fullmatch("[0-9]{1,%d}" % LONGEST_NUMBER, digits) or int(digits) >= BEHIND_SEEDS:
        raise ValueError("a number below 2^64: a string of digits, or below 2^53 a number")
    return int(digits)


def a_name(value):
    if not isinstance(value, str) or not rows.NAME.fullmatch(value):
        raise ValueError("a string of 1 to 40 letters, digits, - and _")
    return value


def a_line(value):
    """The bytes of a line typed, in the letters that games know."""
    if not isinstance(value, str) or any(unicodedata.category(letter) == "Cc" for letter in value):
        raise ValueError("a string without line ends and other controls")
    plain = letters.plain(value)
    if len(plain) > rows.LONGEST:
        raise ValueError("a line of at most %d letters" % rows.LONGEST)
    return plain


Form = collections.namedtuple("Form", "needs may_have")
OF_GAME = Form({"game": a_name}, {})
FORMS = {
    "begin": Form({}, {"game": a_name, "seed": a_seed}),
    "take": Form({"game": a_name, "n": a_count, "line": a_line}, {}),
    "undo": Form({"game": a_name, "to": a_number}, {}),
    "where": OF_GAME, "things": OF_GAME, "flags": OF_GAME, "exits": OF_GAME, "score": OF_GAME, "end": OF_GAME,
    "words": Form({}, {}),
}


def identity(found):
    """The id of a request: what its reply is known by."""
    value = found.get("id")
    if isinstance(value, str) and len(value) <= LONGEST_ID or type(value) is int and abs(value) < BEHIND_NUMBERS:
        return value
    raise Refusal("field", '"id" is wanted: a string of at most %d letters, or a whole number.' % LONGEST_ID)


def wanted(found):
    """What a request wants to have done, and its fields."""
    if type(found.get("paw")) is not int or found["paw"] != VERSION:
        raise Refusal("version", '"paw" is wanted, with the version of the protocol, which is %d here.' % VERSION)
    do = found.get("do")
    if not isinstance(do, str) or do not in FORMS:
        raise Refusal("do", '"do" is wanted, with one of %s.' % ", ".join(FORMS))
    form = FORMS[do]
    unknown = sorted(set(found) - {"paw", "id", "do", *form.needs, *form.may_have})
    if unknown:
        raise Refusal("field", '"%s" has no field %s.' % (do, json.dumps(unknown[0][:LONGEST_ID])))
    return do, {name: checked(do, name, found, look) for name, look in {**form.needs, **form.may_have}.items()
                if name in found or name in form.needs}


def checked(do, name, found, look):
    """The value of a field."""
    if name not in found:
        raise Refusal("field", '"%s" wants a field "%s".' % (do, name))
    try:
        return look(found[name])
    except ValueError as why:
        raise Refusal("field", '"%s" is to be %s.' % (name, why)) from None


# --- Replies -------------------------------------------------------------------------------------------------------

def done(name, fields):
    return json.dumps({"paw": VERSION, "id": name, "ok": True, **fields})


def not_done(name, refusal):
    return json.dumps({"paw": VERSION, "id": name, "ok": False, "kind": refusal.kind, "why": refusal.why})
