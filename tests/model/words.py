"""Commands, words and lists, read from bytes.

A word is whether it is expanded, and its parts: texts, variables and scripts.
"""

import functools
import re
from typing import NamedTuple, Optional

BLANKS = b" \t\v\f\r"
LETTERS = {b"a": b"\a", b"b": b"\b", b"f": b"\f", b"n": b"\n", b"r": b"\r", b"t": b"\t", b"v": b"\v"}
QUOTED_IN_LISTS = b'\t\n\v\f\r "{}[]$;\\'
LETTERED = dict(zip(b"\t\n\v\f\r", b"tnvfr"))

# How many brackets and indexes may stand within one another.
NESTED = 200

NAME = re.compile(rb"[A-Za-z0-9_]*")
# What begins and ends nothing in a word, and in braces.
ORDINARY = re.compile(rb"[A-Za-z0-9_.,:<>=+*/-]+")
BRACED = re.compile(rb"[^\\{}]+")
BACKSLASH = re.compile(
    rb"(?s)\\(?:(?P<line>\n[ \t]*)|(?P<octal>[0-3]?[0-7]{1,2})|x(?P<hex>[0-9A-Fa-f]{1,2})|u(?P<number>[0-9A-Fa-f]{1,4})|(?P<byte>.))"
)


class Malformed(Exception):
    """What can't be read, with its text."""


class Text(NamedTuple):
    bytes: bytes


class Variable(NamedTuple):
    """A name, and the parts of its index."""

    name: bytes
    index: Optional[list]


class Script(NamedTuple):
    source: bytes


class Word(NamedTuple):
    expand: bool
    parts: list


class Reader:
    """Reads a script's commands, one at a time; `inside` where it stands in a bracket. Without `has_scripts` a bracket is an ordinary byte."""

    def __init__(self, text, at=0, inside=False, depth=0, has_scripts=True):
        self.text, self.at, self.inside, self.depth, self.has_scripts = text, at, inside, depth, has_scripts

    def peek(self):
        return self.text[self.at : self.at + 1]

    def take(self):
        taken = self.peek()
        self.at += len(taken)
        return taken

    def run(self, pattern):
        """Reads what a pattern matches here, or nothing."""
        found = pattern.match(self.text, self.at)
        self.at = found.end() if found else self.at
        return found[0] if found else b""

    def is_over(self):
        return self.at == len(self.text) or self.inside and self.peek() == b"]"

    def ends_command(self):
        return self.is_over() or self.peek() in b"\n;"

    def is_blank(self):
        return self.at < len(self.text) and self.peek() in BLANKS or self.text.startswith(b"\\\n", self.at)

    def blanks(self):
        while self.is_blank():
            self.at += 1 + (self.peek() == b"\\")

    def empty_commands(self):
        self.blanks()
        while not self.is_over() and self.peek() in b"\n;#":
            if self.take() == b"#":
                self.comment()
            self.blanks()

    def comment(self):
        while self.at < len(self.text) and self.peek() != b"\n":
            if self.take() == b"\\":
                self.take()

    def command(self):
        """The next command's words, or None behind the last one."""
        self.empty_commands()
        if self.is_over():
            return None
        words = []
        while not self.ends_command():
            words.append(self.word())
            self.blanks()
        return words

    def word(self):
        expand = self.text.startswith(b"{*}", self.at)
        if expand:
            self.at += 3
            if self.is_blank() or self.ends_command():
                return Word(False, [Text(b"*")])
        if self.peek() == b'"':
            parts = self.closed(self.quoted(), b"quote")
        elif self.peek() == b"{":
            parts = self.closed([Text(self.braced())], b"brace")
        else:
            parts = self.parts(lambda: self.is_blank() or self.ends_command())
        return Word(expand, parts)

    def closed(self, parts, sign):
        if not (self.is_blank() or self.ends_command()):
            raise Malformed(b"extra characters after close-" + sign)
        return parts

    def closes(self, byte, fault):
        if self.at == len(self.text):
            raise Malformed(fault)
        return self.peek() == byte

    def quoted(self):
        self.at += 1
        parts = self.parts(lambda: self.closes(b'"', b'missing "'))
        self.at += 1
        return parts

    def braced(self):
        depth, made = 0, b""
        while True:
            made += self.run(BRACED)
            self.closes(b"}", b"missing close-brace")
            byte = self.peek()
            if byte == b"\\":
                made += self.backslash() if self.text.startswith(b"\\\n", self.at) else self.take() + self.take()
                continue
            depth += {b"{": 1, b"}": -1}.get(byte, 0)
            made += self.take()
            if depth == 0:
                return made[1:-1]

    def parts(self, ends):
        """Parts up to where `ends` says so, with texts joined."""
        found, text = [], b""
        while not ends():
            part = None
            run = self.run(ORDINARY)
            if run:
                text += run
            elif self.peek() == b"\\":
                text += self.backslash()
            elif self.peek() == b"[" and self.has_scripts:
                part = self.bracket()
            else:
                part = self.variable() if self.peek() == b"$" else None
                text += b"" if part else self.take()
            if part:
                found += [Text(text), part]
                text = b""
        return [*found, Text(text)]

    def backslash(self):
        read = BACKSLASH.match(self.text, self.at)
        if not read:
            return self.take()
        self.at = read.end()
        if read["line"]:
            return b" "
        if read["octal"]:
            return bytes([int(read["octal"], 8)])
        if read["hex"]:
            return bytes([int(read["hex"], 16)])
        if read["number"]:
            return encoded(int(read["number"], 16))
        return LETTERS.get(read["byte"], read["byte"])

    def deepen(self):
        if self.depth == NESTED:
            raise Malformed(b"nesting too deep")
        self.depth += 1

    def bracket(self):
        self.deepen()
        inner = Reader(self.text, self.at + 1, inside=True, depth=self.depth)
        for _ in iter(inner.command, None):
            pass
        inner.closes(b"]", b"missing close-bracket")
        source = self.text[self.at + 1 : inner.at]
        self.at = inner.at + 1
        self.depth -= 1
        return Script(source)

    def variable(self):
        """The variable behind a dollar, or None where that stands for itself."""
        if self.text.startswith(b"{", self.at + 1):
            end = self.text.find(b"}", self.at)
            if end < 0:
                raise Malformed(b"missing close-brace")
            name = self.text[self.at + 2 : end]
            self.at = end + 1
            return Variable(name, None)
        name = NAME.match(self.text, self.at + 1)
        if self.text.startswith(b"(", name.end()):
            self.at = name.end() + 1
            self.deepen()
            index = self.parts(lambda: self.closes(b")", b"missing )"))
            self.depth -= 1
            self.at += 1
            return Variable(name[0], index)
        if not name[0]:
            return None
        self.at = name.end()
        return Variable(name[0], None)


def encoded(number):
    """The character with this number in UTF-8."""
    return chr(number).encode(errors="surrogatepass")


def read_text(text):
    """The parts of a text as of a word in quotes, in which quotes and brackets are ordinary bytes."""
    reader = Reader(text, has_scripts=False)
    return reader.parts(lambda: reader.at == len(text))


@functools.lru_cache(maxsize=1000)
def read_script(source):
    """The commands of a script, and the text of the fault behind them, or None."""
    reader, commands = Reader(source), []
    try:
        for command in iter(reader.command, None):
            commands.append(command)
    except Malformed as fault:
        return commands, fault.args[0]
    return commands, None


def is_parted(reader):
    """Whether a list's element can't go on here."""
    return reader.at == len(reader.text) or reader.peek() in BLANKS + b"\n"


def read_list(text):
    """The elements of a list."""
    reader, found = Reader(text), []
    try:
        while True:
            while reader.at < len(text) and is_parted(reader):
                reader.at += 1
            if reader.at == len(text):
                return found
            found.append(read_element(reader))
    except Malformed:
        raise Malformed(b"bad list") from None


def read_element(reader):
    if reader.peek() == b"{":
        start = reader.at + 1
        reader.braced()
        made = reader.text[start : reader.at - 1]
    elif reader.peek() == b'"':
        reader.at += 1
        made = unquoted(reader, lambda: reader.closes(b'"', b"bad list"))
        reader.at += 1
    else:
        return unquoted(reader, lambda: is_parted(reader))
    if not is_parted(reader):
        raise Malformed(b"bad list")
    return made


def unquoted(reader, ends):
    made = b""
    while not ends():
        made += reader.backslash() if reader.peek() == b"\\" else reader.take()
    return made


def write_list(elements):
    return b" ".join(write_element(element, not at) for at, element in enumerate(elements))


def write_element(element, is_first):
    leads = is_first and element.startswith(b"#")
    if element and not leads and not any(byte in QUOTED_IN_LISTS for byte in element):
        return element
    if b"\\" not in element and balances(element):
        return b"{" + element + b"}"
    marked = b"\\" if leads else b""
    for byte in element:
        marked += b"\\" if byte in QUOTED_IN_LISTS else b""
        marked += bytes([LETTERED.get(byte, byte)])
    return marked


def balances(element):
    depth = 0
    for byte in element:
        depth += {ord("{"): 1, ord("}"): -1}.get(byte, 0)
        if depth < 0:
            return False
    return depth == 0
