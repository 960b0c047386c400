"""Expressions, as expr(n) describes them: read as a whole, then evaluated.

What is read is a tree: an operand is a list of parts, as a word is; an operator is a tuple with its operands.
"""

import re
from functools import lru_cache
from operator import add, and_, eq, floordiv, ge, gt, le, lt, mod, mul, ne, neg, or_, pos, sub, xor

from codes import failed
from values import TRUTHS, bounded, elements, has_64_bits, is_number, number, truth, written
from words import Malformed, Reader, Text

# How many parentheses, operators before an operand and branches may stand within one another.
NESTED = 200

SPACE = re.compile(rb"(?:[\t-\r ]|\\\n)*")
LITERAL = re.compile(rb"0[xX](?P<hex>[0-9A-Fa-f]+)|0(?P<octal>[0-7]+)|(?P<number>0|[1-9][0-9]*)|(?P<word>[a-z]+)")
# The least number; without its sign it is none.
LEAST = re.compile(rb"-9223372036854775808(?![0-9])")
PREFIX = re.compile(rb"[-+~!]")
SIGN = {sign: re.compile(re.escape(sign)) for sign in (b"?", b":", b"(", b")")}
INFIX = re.compile(rb"\*\*|\|\||&&|<<|>>|[<>=!]=|[-+*/%<>&^|]|(?:eq|ne|in|ni)(?![A-Za-z])")

# Operators between operands, from the loosest to the tightest.
LEVELS = [b"||", b"&&", b"|", b"^", b"&", b"in ni", b"eq ne", b"== !=", b"< > <= >=", b"<< >>", b"+ -", b"* / %", b"**"]
LEVEL = {operator: level for level, operators in enumerate(LEVELS) for operator in operators.split()}

COMPARED = {b"<": lt, b">": gt, b"<=": le, b">=": ge, b"==": eq, b"!=": ne}


class Malformation(Exception):
    """The text is no expression."""


class TooDeep(Exception):
    """More stand within one another than may."""


class Parser:
    """Reads an expression."""

    def __init__(self, text):
        self.reader, self.depth = Reader(text), 0

    def take(self, pattern):
        """Reads what a pattern matches after white space. None if it doesn't match; then nothing is read."""
        start = SPACE.match(self.reader.text, self.reader.at).end()
        found = pattern.match(self.reader.text, start)
        if found:
            self.reader.at = found.end()
        return found

    def takes(self, sign):
        return self.take(SIGN[sign]) is not None

    def whole(self):
        tree = self.choice()
        self.take(SPACE)
        if self.reader.peek():
            raise Malformation
        return tree

    def deeper(self, read, *words):
        """Reads one level deeper."""
        if self.depth == NESTED:
            raise TooDeep
        self.depth += 1
        made = read(*words)
        self.depth -= 1
        return made

    def choice(self):
        condition = self.operation(0)
        if not self.takes(b"?"):
            return condition
        one = self.deeper(self.choice)
        self.needed(b":")
        return b"?", condition, one, self.deeper(self.choice)

    def needed(self, sign):
        if not self.takes(sign):
            raise Malformation

    def operation(self, loosest):
        """Reads an operand, and the operators after it that bind as tight as a level or tighter."""
        left = self.operand()
        while True:
            before = self.reader.at
            found = self.take(INFIX)
            level = LEVEL.get(found[0]) if found else None
            if level is None or level < loosest:
                self.reader.at = before
                return left
            # powers group to the right
            left = found[0], left, self.operation(level + (found[0] != b"**"))

    def operand(self):
        least = self.take(LEAST)
        if least:
            return [Text(least[0])]
        prefix = self.take(PREFIX)
        if prefix:
            return prefix[0], self.deeper(self.operand)
        if self.takes(b"("):
            inner = self.deeper(self.choice)
            self.needed(b")")
            return inner
        self.take(SPACE)
        return self.plain()

    def plain(self):
        """Reads an operand without operators."""
        sign = self.reader.peek()
        if sign == b'"':
            return self.reader.quoted()
        if sign == b"{":
            return [Text(self.reader.braced())]
        part = {b"[": self.reader.bracket, b"$": self.reader.variable}.get(sign, self.literal)()
        if part is None:
            raise Malformation
        return [part]

    def literal(self):
        found = self.take(LITERAL)
        if not found:
            return None
        if found["word"]:
            return Text(found[0]) if found[0] in TRUTHS else None
        value = int(found["hex"] or found["octal"] or found["number"], {"hex": 16, "octal": 8}.get(found.lastgroup, 10))
        return Text(b"%d" % value) if has_64_bits(value) else None


@lru_cache(maxsize=1000)
def read_expression(text):
    try:
        return Parser(text).whole()
    except TooDeep:
        raise failed(b"expression too deep") from None
    except (Malformation, Malformed):
        raise failed(b"syntax error in expression", text) from None


def evaluated(text, fill):
    """The value of an expression. `fill` gives the value of a part."""
    return value_of(read_expression(text), fill)


def value_of(tree, fill):
    if isinstance(tree, list):
        return bounded(b"".join(map(fill, tree)))
    operator, *operands = tree
    if operator == b"?":
        return value_of(operands[1 if truth(value_of(operands[0], fill)) else 2], fill)
    if operator in (b"&&", b"||"):
        found = truth(value_of(operands[0], fill))
        if found == (operator == b"&&"):
            found = truth(value_of(operands[1], fill))
        return b"%d" % found
    values = [value_of(operand, fill) for operand in operands]
    return prefixed(operator, *values) if len(values) == 1 else combined(operator, *values)


def prefixed(operator, value):
    if operator == b"!":
        return b"%d" % (not truth(value))
    return written({b"-": neg, b"+": pos, b"~": lambda it: ~it}[operator](number(value)))


def combined(operator, left, right):
    """What an operator makes of two values."""
    if operator in (b"eq", b"ne"):
        return b"%d" % ((left == right) == (operator == b"eq"))
    if operator in (b"in", b"ni"):
        return b"%d" % ((left in elements(right)) == (operator == b"in"))
    if operator in COMPARED:
        if is_number(left) and is_number(right):
            left, right = int(left), int(right)
        return b"%d" % COMPARED[operator](left, right)
    return written(CALCULATED[operator](number(left), number(right)))


def divisor(number):
    if number == 0:
        raise failed(b"divide by zero")
    return number


def power(base, exponent):
    if base == 0 and exponent < 0:
        raise failed(b"exponentiation of zero by negative power")
    if abs(base) <= 1:
        # a small exponent with the same remainder gives the same
        return base ** min(abs(exponent), 2 + exponent % 2)
    # a negative power is rounded down to 0; one of 64 has more than 64 bits
    return base ** min(exponent, 64) if exponent >= 0 else 0


def shift(count):
    if count < 0:
        raise failed(b"negative shift argument")
    return min(count, 64)


CALCULATED = {
    b"+": add,
    b"-": sub,
    b"*": mul,
    b"/": lambda a, b: floordiv(a, divisor(b)),
    b"%": lambda a, b: mod(a, divisor(b)),
    b"**": power,
    b"<<": lambda a, b: a << shift(b),
    b">>": lambda a, b: a >> shift(b),
    b"&": and_,
    b"^": xor,
    b"|": or_,
}
