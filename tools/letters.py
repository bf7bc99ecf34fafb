"""The plain letters that typed ones stand for: games know ASCII alone, and every front end asks here.

A letter that Unicode takes apart stands for its base (o for an o with two dots); the table has those that it doesn't, and the
Greek and Cyrillic ones as they are spelt in Latin letters. Marks and characters without a width are left out, every kind of
blank and control is a blank, and what stands for nothing plain is a question mark, which parts phrases as it does where it is
typed. The program parts words at an apostrophe: so one between two letters is left out, or WHAT'S would be WHAT and S, which
goes south.
"""
import functools
import json
import re
import unicodedata

STANDS_FOR = {
    "ß": "ss", "ẞ": "SS", "æ": "ae", "Æ": "AE", "œ": "oe", "Œ": "OE", "ø": "o", "Ø": "O", "ł": "l", "Ł": "L", "đ": "d", "Đ": "D",
    "ð": "d", "Ð": "D", "þ": "th", "Þ": "TH", "ħ": "h", "Ħ": "H", "ŧ": "t", "Ŧ": "T", "ŋ": "ng", "Ŋ": "NG", "ı": "i", "ĸ": "k",
    "ƒ": "f", "×": "x", "·": "", "¿": "?", "¡": "!", "‘": "'", "’": "'", "‚": "'", "‛": "'", "‹": "'", "›": "'", "′": "'", "´": "'",
    "ʹ": "'", "ʻ": "'", "ʼ": "'", "“": '"', "”": '"', "„": '"', "‟": '"', "«": '"', "»": '"', "″": '"', "‐": "-", "‒": "-", "–": "-",
    "—": "-", "―": "-", "−": "-", "⁃": "-", "⁄": "/", "•": "*",
}
# Letters of other alphabets, as they are mostly written by those of the Latin one.
SPELT = {
    "а": "a", "б": "b", "в": "v", "г": "g", "д": "d", "е": "e", "ж": "zh", "з": "z", "и": "i", "к": "k", "л": "l", "м": "m", "н": "n",
    "о": "o", "п": "p", "р": "r", "с": "s", "т": "t", "у": "u", "ф": "f", "х": "kh", "ц": "ts", "ч": "ch", "ш": "sh", "щ": "shch",
    "ъ": "", "ы": "y", "ь": "", "э": "e", "ю": "yu", "я": "ya", "є": "ye", "і": "i", "ґ": "g", "ђ": "dj", "ј": "j", "љ": "lj",
    "њ": "nj", "ћ": "c", "џ": "dz", "ѕ": "dz",
    "α": "a", "β": "v", "γ": "g", "δ": "d", "ε": "e", "ζ": "z", "η": "i", "θ": "th", "ι": "i", "κ": "k", "λ": "l", "μ": "m", "ν": "n",
    "ξ": "x", "ο": "o", "π": "p", "ρ": "r", "σ": "s", "ς": "s", "τ": "t", "υ": "y", "φ": "f", "χ": "ch", "ψ": "ps", "ω": "o",
}
STANDS_FOR.update(SPELT)
STANDS_FOR.update({letter.upper(): spelt.upper() for letter, spelt in SPELT.items() if letter != "ς"})
UNKNOWN = "?"
WITHIN_WORD = "([A-Za-z0-9])'(?=[A-Za-z0-9])"
IN_JAVASCRIPT = """\
const STANDS_FOR = %s;
function plain(text) {
  const part = (letter) => {
    if (letter in STANDS_FOR) return STANDS_FOR[letter];
    if (/^[ -~]$/.test(letter)) return letter;
    if (/^[\\p{M}\\p{Cf}]$/u.test(letter)) return "";
    return /^[\\p{Z}\\p{Cc}]$/u.test(letter) ? " " : null;
  };
  const one = (letter) => {
    const parts = letter in STANDS_FOR ? [STANDS_FOR[letter]] : Array.from(letter.normalize("NFKD"), part);
    return parts.includes(null) ? "%s" : parts.join("");
  };
  return Array.from(text, one).join("").replace(/%s/g, "$1");
}
"""


def decoded(data):
    """The text of bytes typed: a terminal writes UTF-8 nearly always, whatever the locale says, and else one byte for a letter."""
    try:
        return data.decode("utf-8")
    except UnicodeDecodeError:
        return data.decode("latin-1")


def plain(text):
    """The bytes that a game gets for a text: ASCII without controls."""
    return re.sub(WITHIN_WORD, r"\1", "".join(map(letter_as_plain, text))).encode("ascii")


def typed_line(data):
    """The bytes of a line typed as they go on: those for the front end (with a slash) as they are, those for the game plain."""
    return data if data.lstrip().startswith(b"/") else plain(decoded(data))


@functools.lru_cache(1024)
def letter_as_plain(letter):
    if letter in STANDS_FOR:
        return STANDS_FOR[letter]
    parts = [part_as_plain(part) for part in unicodedata.normalize("NFKD", letter)]
    return UNKNOWN if None in parts else "".join(parts)


def part_as_plain(letter):
    """What a letter that can't be taken apart stands for; None for nothing."""
    if letter in STANDS_FOR:
        return STANDS_FOR[letter]
    if " " <= letter <= "~":
        return letter
    kind = unicodedata.category(letter)
    if kind[0] == "M" or kind == "Cf":
        return ""
    return " " if kind[0] == "Z" or kind == "Cc" else None


def javascript():
    """The same as a function of JavaScript, for a page that plays by itself."""
    return IN_JAVASCRIPT % (json.dumps(STANDS_FOR), UNKNOWN, WITHIN_WORD)
