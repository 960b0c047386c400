"""The commands `regexp` and `regsub`."""

import re

from codes import failed
from regulars import find_regular, matches_in_turn, read_regular
from values import bounded, counted, flags, listed, place_of

FLAGS = {b"-all": False, b"-lineanchor": False, b"-nocase": False, b"-start": True, b"--": False}
GROUPS = 10

# What the text that replaces a match has of it: the match, a group or a quoted sign.
REPLACED = re.compile(rb"&|\\(?P<group>[0-9])|\\(?P<sign>[&\\])")


def read_search(given, pattern, text):
    """The arguments of `matches_in_turn`, by the flags and two words of a command."""
    start = min(max(place_of(given.get(b"-start", b"0"), len(text)), 0), len(text))
    read_regular(pattern)
    return pattern, text, b"-nocase" in given, b"-lineanchor" in given, start


def found_by(given, search):
    """The matches: each of them with `-all`, else the first one."""
    if b"-all" in given:
        return list(matches_in_turn(*search))
    return [spans for spans in [find_regular(*search)] if spans]


def told(spans, group, text, has_indices):
    """What a group matches: its text, or the places of its first and last byte."""
    span = spans[group] if group < len(spans) else None
    if has_indices:
        return b"%d %d" % (span[0], span[1] - 1) if span else b"-1 -1"
    return text[slice(*span)] if span else b""


def replaced(by, spans, text):
    """The text in place of a match."""
    return REPLACED.sub(lambda sign: sign["sign"] or told(spans, int(sign["group"] or b"0"), text, False), by)


class Searches:
    """The two commands, by `set` of `Variables`."""

    def do_regexp(self, words):
        given, words = flags(b"regexp", words, {**FLAGS, b"-indices": False, b"-inline": False})
        counted(b"regexp", words, 2, 2 + GROUPS)
        pattern, text, *names = words
        if b"-inline" in given and names:
            raise failed(b"regexp match variables not allowed when using -inline")
        found = found_by(given, read_search(given, pattern, text))
        has_indices = b"-indices" in given
        if b"-inline" in given:
            return listed([told(spans, group, text, has_indices) for spans in found for group in range(min(len(spans), GROUPS))])
        for group, name in enumerate(names if found else []):
            self.set(name, told(found[-1], group, text, has_indices))
        return b"%d" % len(found)

    def do_regsub(self, words):
        given, words = flags(b"regsub", words, FLAGS)
        counted(b"regsub", words, 3, 4)
        pattern, text, by, *name = words
        found = found_by(given, read_search(given, pattern, text))
        made, end = [], 0
        for spans in found:
            start, after = spans[0]
            made += [text[end:start], replaced(by, spans, text)]
            end = after
        made = bounded(b"".join([*made, text[end:]]))
        if not name:
            return made
        self.set(name[0], made)
        return b"%d" % len(found)
