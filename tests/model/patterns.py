"""What the arguments of `expect` say, where patterns are found, and which texts they fit."""

import re
from functools import lru_cache
from typing import NamedTuple

from codes import failed
from regulars import find_regular, read_regular

KEYWORDS = (b"eof", b"timeout", b"default", b"full_buffer")
KINDS = {b"-gl": "glob", b"-ex": "exact", b"-re": "regular"}
KINDS |= {b"-glob": "glob", b"-exact": "exact", b"-regexp": "regular", b"--": "glob"}
MARKS = (b"-nocase", b"-indices", b"-notransfer")

# How `switch` and `lsearch` compare.
MODES = (b"-exact", b"-glob", b"-regexp")

ANY = None
EVERY = frozenset(range(256))

# A byte behind a backslash, a class, or a byte.
GLOB_SIGN = re.compile(rb"(?s)\\.|\[[^\]]*\]|.")


class Case(NamedTuple):
    """A pattern or keyword of `expect`, its action, and how many `-i` stand before it."""

    kind: str
    pattern: bytes
    marks: frozenset
    action: bytes
    group: int

    def spans(self, data):
        """Where the match and its groups start and end, None for a group that takes no part; empty without a match."""
        find = {"glob": find_glob, "exact": find_exact, "regular": find_regular}.get(self.kind)
        return find(self.pattern, data, b"-nocase" in self.marks) if find else []


def read_arguments(words):
    """The cases, the words of each `-i`, and that of the last `-timeout`, None where it isn't there."""
    words, cases, ids, seconds = list(words), [], [], None
    while words:
        marks, kind, front = set(), None, words[0]
        while words and kind is None:
            front = words.pop(0)
            if front in MARKS:
                marks.add(front)
            elif front == b"-i" and words:
                ids.append(words.pop(0))
            elif front == b"-timeout" and words:
                seconds = words.pop(0)
            elif front in KINDS and words:
                kind, front = KINDS[front], words.pop(0)
                if kind == "regular":
                    read_regular(front)
            elif front.startswith(b"-") or front == b"null":
                raise failed(b"bad expect flag", front)
            else:
                kind = front.decode() if front in KEYWORDS else "glob"
        if kind:
            cases.append(Case(kind, front, frozenset(marks), words.pop(0) if words else b"", len(ids)))
        elif front in MARKS:
            raise failed(b"bad expect flag", front)
    return cases, ids, seconds


def find_exact(pattern, data, nocase):
    at = data.lower().find(pattern.lower()) if nocase else data.find(pattern)
    return [(at, at + len(pattern))] if at >= 0 else []


def find_glob(pattern, data, nocase):
    """The match that starts first, and is the longest from there."""
    at_start, elements, at_end = read_glob(pattern)
    if nocase:
        elements = in_both_cases(elements)
    is_first = at_start or elements[:1] == [ANY]
    for start in range(1 if is_first else len(data) + 1):
        ends = glob_ends(elements, data, start)
        if at_end:
            ends &= {len(data)}
        if ends:
            return [(start, max(ends))]
    return []


def glob_ends(elements, data, start):
    """All places where a match from a start can end."""
    places = {start}
    for element in elements:
        if element is ANY:
            places = set(range(min(places), len(data) + 1)) if places else places
        else:
            places = {at + 1 for at in places if at < len(data) and data[at] in element}
    return places


def read_glob(pattern):
    """Whether it is bound to the start, its elements, whether it is bound to the end."""
    at_start = pattern.startswith(b"^")
    signs = GLOB_SIGN.findall(pattern[at_start:])
    at_end = signs[-1:] == [b"$"]
    return at_start, list(map(element, signs[: len(signs) - at_end])), at_end


def element(sign):
    """The bytes that a sign of a glob stands for, or ANY."""
    if sign in (b"*", b"?"):
        return ANY if sign == b"*" else EVERY
    if len(sign) > 1:
        return read_class(sign[1:-1]) if sign.startswith(b"[") else frozenset(sign[1:])
    return frozenset(sign)


@lru_cache(maxsize=1000)
def elements_of(glob, nocase):
    """The elements of a glob in which `^` and `$` are ordinary."""
    elements = list(map(element, GLOB_SIGN.findall(glob)))
    return in_both_cases(elements) if nocase else elements


def fits_glob(glob, text, nocase=False):
    """Whether a glob fits the whole of a text."""
    return len(text) in glob_ends(elements_of(glob, nocase), text, 0)


def fits(mode, pattern, text, nocase=False):
    """Whether a pattern fits a text, in one of the modes."""
    if mode == b"-glob":
        return fits_glob(pattern, text, nocase)
    if mode == b"-regexp":
        return bool(find_regular(pattern, text, nocase))
    return text.lower() == pattern.lower() if nocase else text == pattern


def read_class(members):
    found, at = set(), 0
    while at < len(members):
        if members[at + 1 : at + 2] == b"-" and at + 2 < len(members):
            low, high = sorted((members[at], members[at + 2]))
            found.update(range(low, high + 1))
            at += 3
        else:
            found.add(members[at])
            at += 1
    return frozenset(found)


def in_both_cases(elements):
    return [element and frozenset(bytes(element).lower() + bytes(element).upper()) for element in elements]
