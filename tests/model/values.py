"""What the words of a command say: options and flags, numbers, indexes, truth values and lists."""

import re
from math import inf

from codes import failed
from words import Malformed, read_list, write_list

# The most bytes of a value.
LONGEST_VALUE = 1_048_576

WHITE = b"\t\n\v\f\r "
TRUTHS = {b"true": True, b"yes": True, b"on": True, b"false": False, b"no": False, b"off": False}

NUMBER = re.compile(rb"0|-?[1-9][0-9]*")
INDEX = re.compile(rb"(?P<first>end|0|-?[1-9][0-9]*)(?:(?P<sign>[+-])(?P<second>0|-?[1-9][0-9]*))?")


# options and flags


def counted(name, words, least, most=inf):
    if not least <= len(words) <= most:
        raise failed(b"wrong # args for", name)


def option_of(name, words, options):
    """The option of a command, and the words after it."""
    counted(name, words, 1)
    option, *words = words
    if option not in options:
        raise failed(b"bad option", option)
    return option, words


def flags(name, words, known, tail=0):
    """The flags, each with its word, and the words after them. At least `tail` words are no flags.

    `known` says which flags take a word. Of the flags the last one was written last.
    """
    given, words = {}, list(words)
    while len(words) > tail and words[0].startswith(b"-"):
        flag = words.pop(0)
        if flag not in known:
            raise failed(b"bad flag", flag)
        if flag == b"--":
            break
        if known[flag]:
            counted(name, words, 1)
        given.pop(flag, None)
        given[flag] = words.pop(0) if known[flag] else b""
    return given, words


def last_of(given, modes):
    """The flag of these that was written last, or None."""
    return ([None] + [flag for flag in given if flag in modes])[-1]


# values


def bounded(value):
    """The value, unless it is too long."""
    if len(value) > LONGEST_VALUE:
        raise failed(b"value too long")
    return value


def has_64_bits(value):
    return -(2**63) <= value < 2**63


def is_number(text):
    return bool(NUMBER.fullmatch(text)) and has_64_bits(int(text))


def number(text):
    if not is_number(text):
        raise failed(b"expected number but got", text)
    return int(text)


def written(value):
    """The text of a result."""
    if not has_64_bits(value):
        raise failed(b"integer overflow")
    return b"%d" % value


def truth(text):
    return TRUTHS[text] if text in TRUTHS else number(text) != 0


def place_of(text, end):
    """The place that an index names; `end` is the last one."""
    read = INDEX.fullmatch(text)
    parts = [part for part in read.group("first", "second") if part not in (None, b"end")] if read else []
    if not read or not all(map(is_number, parts)):
        raise failed(b"bad index", text)
    first, second = end if read["first"] == b"end" else int(read["first"]), int(read["second"] or b"0")
    found = first - second if read["sign"] == b"-" else first + second
    # a difference from the end is never an error
    if not has_64_bits(found) and not text.startswith(b"end-"):
        raise failed(b"bad index", text)
    return found


def elements(text):
    """The elements of a list."""
    try:
        return read_list(text)
    except Malformed as fault:
        raise failed(fault.args[0]) from None


def listed(values):
    """The text of a list."""
    return bounded(write_list(values))


def pairs(values):
    """The elements of a list two by two."""
    if len(values) % 2:
        raise failed(b"bad list")
    return list(zip(values[::2], values[1::2]))


def concatenated(words):
    """The words that aren't empty without white space at their ends, with a space between."""
    return bounded(b" ".join(filter(None, map(trimmed, words))))


def trimmed(word):
    """A word without white space at its ends. A byte that a backslash quotes stays."""
    short = word.strip(WHITE)
    end = word.index(short) + len(short)
    return short + word[end : end + 1] if short.endswith(b"\\") else short
