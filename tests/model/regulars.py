"""Regular patterns: their grammar, and where they match.

Each pattern becomes one of Python's `re`, over the characters of a text in UTF-8. Nothing matches a stray, a byte that is no part of a
character. Two rules are Python's: which letters past ASCII `\\w` has, and what a loop over a part that can be empty matches.
"""

import re
from bisect import bisect_left
from functools import lru_cache
from itertools import accumulate

from codes import failed

LONGEST_PATTERN, NESTED_GROUPS, MOST_TIMES = 4096, 50, 255

# The characters that stand for bytes 80 to FF which are no part of a character, and what matches all others.
STRAYS = "\udc80-\udcff"
ANY = f"[^{STRAYS}]"

SIGNS = {"a": "\a", "e": "\x1b", "f": "\f", "n": "\n", "r": "\r", "t": "\t", "v": "\v"}
SETS = {
    "d": r"\d",
    "D": r"\D",
    "w": r"\w",
    "W": r"\W",
    "s": "\t-\r \x85\xa0\u1680\u2000-\u200a\u2028\u2029\u202f\u205f\u3000",
    "S": "\0-\x08\x0e-\x1f!-\x84\x86-\x9f\xa1-\u167f\u1681-\u1fff\u200b-\u2027\u202a-\u202e\u2030-\u205e\u2060-\u2fff\u3001-\udc7f\udd00-\U0010ffff",
}
NAMED = {
    "alnum": "0-9A-Za-z",
    "alpha": "A-Za-z",
    "cntrl": "\0-\x1f\x7f",
    "digit": "0-9",
    "lower": "a-z",
    "print": " -~",
    "space": "\t-\r ",
    "upper": "A-Z",
    "xdigit": "0-9A-Fa-f",
}

CODE = re.compile(r"x([0-9A-Fa-f]{2})|u([0-9A-Fa-f]{4})")
NAME = re.compile(r"\[:(%s):\]" % "|".join(NAMED))
COUNT = re.compile(r"\{(0|[1-9][0-9]*)(,(0|[1-9][0-9]*)?)?\}")


class Bad(Exception):
    """The text is no pattern."""


class Grammar:
    """Reads a pattern, and makes one of Python's. There `end` stands for `$`."""

    def __init__(self, text, end):
        self.text, self.end, self.at, self.depth = text, end, 0, 0

    def peek(self, many=1):
        return self.text[self.at : self.at + many]

    def take(self, text):
        """Reads a text if it is next; whether it is."""
        is_next = self.text.startswith(text, self.at)
        self.at += len(text) if is_next else 0
        return is_next

    def char(self):
        """Reads a character."""
        if self.at == len(self.text):
            raise Bad
        self.at += 1
        return self.text[self.at - 1]

    def whole(self):
        made = self.choice()
        if self.peek():
            raise Bad
        return made

    def choice(self):
        made = self.sequence()
        while self.take("|"):
            made += "|" + self.sequence()
        return made

    def sequence(self):
        made = ""
        while self.peek() and self.peek() not in "|)":
            made += self.piece()
        return made

    def piece(self):
        if self.take("^"):
            return "^"
        if self.take("$"):
            return self.end
        return self.atom() + self.times()

    def times(self):
        """Reads how often an atom may stand."""
        many = self.char() if self.peek() and self.peek() in "*+?" else self.count()
        return many + "?" if many and self.take("?") else many

    def count(self):
        found = COUNT.match(self.text, self.at)
        if not found:
            # a brace that begins no count is an atom
            return ""
        least, most = int(found[1]), int(found[3] or found[1])
        if not least <= most <= MOST_TIMES:
            raise Bad
        self.at = found.end()
        return found[0]

    def atom(self):
        if self.take("("):
            return self.group()
        if self.take("["):
            return self.members()
        if self.take("."):
            return ANY
        if self.take("\\"):
            kind, made = self.escape()
            return made if kind == "char" else without_strays(f"[{made}]")
        char = self.char()
        if char in "+*?)|^$" or char == "{" and self.peek().isascii() and self.peek().isdigit():
            raise Bad
        return re.escape(char)

    def group(self):
        opening = "(?:" if self.take("?:") else "("
        self.depth += 1
        if self.depth > NESTED_GROUPS:
            raise Bad
        made = opening + self.choice() + ")"
        if not self.take(")"):
            raise Bad
        self.depth -= 1
        return made

    def escape(self):
        """Reads what is after a backslash: a character or a set, and its pattern."""
        code = CODE.match(self.text, self.at)
        if code:
            self.at = code.end()
            number = int(code[1] or code[2], 16)
            if 0xD800 <= number <= 0xDFFF:
                raise Bad
            return "char", re.escape(chr(number))
        char = self.char()
        if char in SETS:
            return "set", SETS[char]
        if char not in SIGNS and (not char.isascii() or char.isalnum()):
            raise Bad
        return "char", re.escape(SIGNS.get(char, char))

    # classes

    def members(self):
        """Reads a class after its bracket."""
        made = "[^" + STRAYS if self.take("^") else "["
        if self.peek() and self.peek() in "]-":
            made += re.escape(self.char())
        while not self.take("]"):
            made += self.member()
        return without_strays(made + "]")

    def member(self):
        if self.peek(2) == "-]":
            return re.escape(self.char())
        name = NAME.match(self.text, self.at)
        if name:
            self.at = name.end()
            return NAMED[name[1]]
        kind, low = self.item()
        if kind == "set" or self.peek() != "-" or self.peek(2) == "-]":
            return low
        self.at += 1
        kind, high = self.item()
        if kind == "set" or plain(low) > plain(high):
            raise Bad
        return low + "-" + high

    def item(self):
        char = self.char()
        if char == "\\":
            return self.escape()
        if char in "]-" or char == "[" and self.peek() and self.peek() in ":.=":
            raise Bad
        return "char", re.escape(char)


def plain(escaped):
    """The character of a pattern for one."""
    return escaped[-1]


def without_strays(members):
    """A class without strays, which `\\D` and `\\W` would have."""
    return f"(?:(?![{STRAYS}]){members})" if r"\D" in members or r"\W" in members else members


@lru_cache(maxsize=1000)
def read_regular(pattern, end=r"\Z"):
    """The pattern as one of Python's."""
    try:
        if len(pattern) > LONGEST_PATTERN:
            raise Bad
        return Grammar(pattern.decode(), end).whole()
    except (Bad, UnicodeDecodeError):
        raise failed(b"bad regular expression", pattern) from None


@lru_cache(maxsize=1000)
def compiled(pattern, nocase, by_lines, is_ascii):
    made = read_regular(pattern, "$") if by_lines else read_regular(pattern)
    # without strays this is faster
    made = made.replace(ANY, ".") if is_ascii else made
    return re.compile(made, re.DOTALL | nocase * re.IGNORECASE | by_lines * re.MULTILINE)


class Characters:
    """A text by its characters, one of which begins at a place."""

    def __init__(self, data, at=0):
        self.text = data[:at].decode(errors="surrogateescape") + data[at:].decode(errors="surrogateescape")
        sizes = (len(char.encode(errors="surrogateescape")) for char in self.text)
        # where each character begins, if one of them has several bytes
        self.places = None if len(self.text) == len(data) else list(accumulate(sizes, initial=0))

    def number(self, place):
        """How many characters are before a place. None inside a character."""
        if self.places is None:
            return place
        number = bisect_left(self.places, place)
        return number if self.places[number] == place else None

    def span(self, span):
        return span if self.places is None else tuple(self.places[number] for number in span)


def matches_in_turn(pattern, data, nocase=False, by_lines=False, at=0):
    """The matches from a place on: where each of them and its groups start and end. None for a group that takes no part.

    The search for the next match begins at the end of the last one, or a byte later if that is empty. With `by_lines`, `^` and `$` also match
    at newlines.
    """
    regular, characters = compiled(pattern, nocase, by_lines, data.isascii()), Characters(data)
    while at <= len(data):
        if characters.number(at) is None:
            characters = Characters(data, at)
        found = regular.search(characters.text, characters.number(at))
        if not found:
            return
        spans = map(found.span, range(found.re.groups + 1))
        spans = [characters.span(span) if span != (-1, -1) else None for span in spans]
        yield spans
        start, end = spans[0]
        at = end + (start == end)


def find_regular(pattern, data, nocase=False, by_lines=False, at=0):
    """The first of `matches_in_turn`, or nothing."""
    return next(matches_in_turn(pattern, data, nocase, by_lines, at), [])
