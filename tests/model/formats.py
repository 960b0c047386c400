"""The commands `format` and `scan`."""

import re

from codes import failed
from values import LONGEST_VALUE, bounded, counted, number
from words import encoded

FORMATTED = re.compile(
    rb"(?P<text>[^%]+)|%(?:(?P<percent>%)|(?P<flags>[-0]*)(?P<width>[1-9][0-9]*|\*)?(?:\.(?P<precision>[0-9]*))?l?(?P<kind>[sduoxXc]))"
)
SCANNED = re.compile(rb"(?P<white>[\t-\r ]+)|%(?P<dropped>\*?)(?P<kind>[ds])|(?P<byte>[^%])")

WHITE = re.compile(rb"[\t-\r ]*")
WORD = re.compile(rb"[^\t-\r ]+")
INTEGER = re.compile(rb"[+-]?(?P<digits>[0-9]*)")

DIGITS = {b"d": b"%d", b"u": b"%d", b"o": b"%o", b"x": b"%x", b"X": b"%X"}
# The greatest number of a character, and the character in place of others.
LAST, REPLACEMENT = 0xFFFF, 0xFFFD


def pieces(template, piece):
    """The pieces of a template."""
    found, at = [], 0
    while at < len(template):
        read = piece.match(template, at)
        if not read:
            raise failed(b"bad format", template)
        found.append(read)
        at = read.end()
    return found


def field(spec, values):
    """What a conversion makes of the values that it takes, which leave the list. None if it is too long."""
    width = spec["width"] or b"0"
    width = number(taken(values)) if width == b"*" else int(width)
    value = taken(values)
    value = value if spec["kind"] == b"s" else number(value)
    precision = None if spec["precision"] is None else int(spec["precision"] or b"0")
    if max(abs(width), precision or 0) > LONGEST_VALUE:
        return None
    return widened(spec, converted(spec["kind"], value, precision), width)


def taken(values):
    counted(b"format", values, 1)
    return values.pop(0)


def converted(kind, value, precision):
    """A value by a conversion, without its width. The precision may be None."""
    if kind == b"s":
        return value[:precision]
    if kind == b"c":
        return encoded(value if 0 <= value <= LAST else REPLACEMENT)
    digits = DIGITS[kind] % (abs(value) if kind == b"d" else value % 2**64)
    return (b"-" if kind == b"d" and value < 0 else b"") + digits.rjust(precision or 0, b"0")


def widened(spec, made, width):
    """What was made, in its width. A negative one counts as the flag `-`."""
    if width < 0 or b"-" in spec["flags"]:
        return made.ljust(abs(width))
    is_text = spec["kind"] in b"sc"
    if b"0" not in spec["flags"] or not is_text and spec["precision"] is not None:
        return made.rjust(width)
    sign = made[:1] if not is_text and made.startswith(b"-") else b""
    return sign + made[len(sign) :].rjust(width - len(sign), b"0")


def passed(piece, text, at):
    """What a piece of a template reads at a place, or None if it can't; and the place after it, or that of the fault."""
    if piece["byte"]:
        return (b"", at + 1) if text.startswith(piece["byte"], at) else (None, at)
    at = WHITE.match(text, at).end()
    if piece["white"]:
        return b"", at
    if piece["kind"] == b"s":
        read = WORD.match(text, at)
        return (read[0], read.end()) if read else (None, at)
    read = INTEGER.match(text, at)
    if not read["digits"]:
        return None, read.end()
    return b"%d" % max(-(2**63), min(int(read[0]), 2**63 - 1)), read.end()


class Formats:
    """The two commands, by `set` of `Variables`."""

    def do_format(self, words):
        counted(b"format", words, 1)
        template, *values = words
        made = [field(piece, values) if piece["kind"] else piece["text"] or b"%" for piece in pieces(template, FORMATTED)]
        if None in made:
            raise failed(b"value too long")
        return bounded(b"".join(made))

    def do_scan(self, words):
        counted(b"scan", words, 3)
        text, template, *names = words
        template = pieces(template, SCANNED)
        many = sum(bool(piece["kind"]) and not piece["dropped"] for piece in template)
        counted(b"scan", names, many, many)
        at, count, has_read = 0, 0, False
        for piece in template:
            value, at = passed(piece, text, at)
            if value is None:
                return b"-1" if at == len(text) and not has_read else b"%d" % count
            has_read = has_read or bool(piece["kind"])
            if piece["kind"] and not piece["dropped"]:
                self.set(names[count], value)
                count += 1
        return b"%d" % count
