"""Breaks lines at blanks, so that they fit a width: first fit, and a break only where a blank stood."""


def wrapped(text, width):
    """The text with a line end in place of some blanks, so that each line has at most this width or is one word alone. The lines
    that the text has stay, and each place of it keeps its number."""
    return "\n".join(wrapped_line(line, width) for line in text.split("\n"))


def wrapped_line(line, width):
    words = line.split(" ")
    parts, used = [words[0]], len(words[0])
    for word in words[1:]:
        fits = used + 1 + len(word) <= width
        parts.append((" " if fits else "\n") + word)
        used = used + 1 + len(word) if fits else len(word)
    return "".join(parts)


def rows_of(line, columns):
    """How many rows of a terminal a line takes: one that is too wide is cut at its columns."""
    return max(1, -(-len(line) // columns))
