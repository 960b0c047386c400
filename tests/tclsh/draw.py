"""Draws short programs of value commands that tclsh 8.6 has to run as exprun does.

A value has a kind, so that none reaches a place where the pages name a difference:

- i: a number as numbers are written, or the empty text
- w: a text without digits, so it isn't the spelling of a number or of a truth value that LANGUAGE, "Against Tcl"
  names (` 7`, `007`, `y`)
- t: any text; it is compared by `eq` and `in`, never taken as a number
- l: a list of texts; k: a list of numbers
- e: nothing that matters

A variable's name begins with the kind of its values. Arrays a and b have texts.
"""

import re
from collections import Counter

from words import Writer, balances

# Letters that no truth value begins with, and of no hexadecimal number's front.
LETTERS = b"abcdxzABCDXZ"
# a few of them are drawn more often, so that texts find one another
TAME = LETTERS * 2 + b"abxabxabxABXAB" * 2 + b"    \n\t$[;#*?-,.:_/'@%^&=+<>!|~()`"
NASTY = TAME + b'"]{}\\' * 7
DIGITS = b"0123456789"
# Bytes past ASCII that are neither letters nor space in ISO 8859-1, which has one case for them. Letters change their
# case in ASCII alone here: LANGUAGE, the table of `string tolower`.
HIGH = b"\xd7\xf7\xd7\xf7"

VARIABLES = {"i": ["i1", "i2", "i3"], "w": ["w1", "w2"], "t": ["t1", "t2", "t3"], "l": ["l1", "l2"], "k": ["k1"]}
ARRAYS = ["a", "b"]
NUMBERS = [0, 1, 2, 3, 4, 5, 7, 8, 9, 10, 12, 16, 31, 63, 100, 255, -1, -2, -3, -7, -10]
# Their sums and products may leave 64 bits.
GREAT = [2**63 - 1, -(2**63), 2**62, 2**32, 2**31, 2**31 - 1, -(2**31), 2**53 + 1, 10**18, 3037000500]
TRUTHS = [b"true", b"yes", b"on", b"false", b"no", b"off"]

# `string is` with a class whose texts aren't numbers or truth values.
CLASSES = "alnum alpha ascii control digit graph lower print punct space upper wordchar xdigit".split()


class Program(Writer):
    """Draws one program: its commands, with the kinds of their values."""

    def __init__(self, rng, number):
        super().__init__(rng)
        self.serial = number
        self.used = Counter()
        self.depth = self.catches = self.loops = 0
        self.in_loop = self.in_proc = False
        self.procs = []
        self.is_nasty = self.chance(0.35)
        self.is_high = self.chance(0.12)
        # In these no error is caught, as the one of an overflow isn't Tcl's: LANGUAGE, "Expressions", "within 64 bits"
        self.is_great = self.chance(0.05)
        self.has_nul = self.is_high and self.chance(0.3)
        self.letters = (NASTY if self.is_nasty else TAME) + (HIGH if self.is_high else b"") + (b"\0\0" if self.has_nul else b"")
        self.makers = {kind: [(weight, getattr(self, f"{kind}_{name}")) for name, weight in table.items()] for kind, table in MAKERS.items()}

    # texts

    def text_of(self, letters, most=6):
        count = min(most, self.rng.choice([0, 1, 1, 2, 2, 3, 3, 4, 5, 6]))
        return bytes(self.rng.choice(letters) for _ in range(count))

    def word_text(self):
        return self.text_of(self.letters)

    def any_text(self):
        return self.text_of(self.letters + DIGITS * 2)

    def number(self):
        if self.is_great and self.chance(0.6):
            return self.rng.choice(GREAT)
        return self.rng.choice(NUMBERS)

    def literal(self, kind):
        """A text of this kind."""
        if kind == "i":
            return b"%d" % self.number()
        if kind == "w":
            return self.word_text()
        if kind == "k":
            return b" ".join(b"%d" % self.number() for _ in range(self.rng.randrange(6)))
        if kind == "l":
            return self.list_text([self.any_text() for _ in range(self.rng.randrange(5))], not self.is_nasty)
        return self.any_text() if self.chance(0.8) else b"%d" % self.number()

    def variable(self, kind):
        names = VARIABLES[kind]
        if kind == "l" and self.in_proc and self.chance(0.3):
            return b"args"
        return self.rng.choice(names).encode()

    def key(self):
        """An index of an array, as a part of a name that is a word."""
        return self.rng.choice([b"x", b"x", b"y", b"z", b"xy", b"1", b"$i1", b"$w1", b"[string length $w1]", b"x.y"])

    def element_name(self):
        return self.rng.choice(ARRAYS).encode() + b"(" + self.key() + b")"

    # words

    def deeper(self, make, *words):
        """What `make` gives, one level deeper."""
        self.depth += 1
        made = make(*words)
        self.depth -= 1
        return made

    def bracket(self, kind):
        return b"[" + self.deeper(self.command_of, kind) + b"]"

    def of(self, kind):
        """A word of this kind."""
        part = self.rng.random()
        if part < 0.03 and kind in "ik" and not self.is_great:
            # both refuse it
            return self.word(self.rng.choice([b"x", b"a b", b"zz"]))
        if part < 0.32 and self.depth < 3 and not self.in_loop:
            return self.bracket(kind)
        if part < 0.7:
            if kind == "t" and self.chance(0.5):
                return self.of_text()
            return b"$" + self.variable(kind) if self.chance(0.9) else b"${" + self.variable(kind) + b"}"
        if part < 0.8 and kind in "wt":
            return self.composed(kind)
        return self.word(self.literal(kind))

    def of_text(self):
        """A text by a variable of another kind."""
        if self.chance(0.3):
            return b"$" + self.element_name()
        # A list's text is another one here, if its elements have a sign of these five: LANGUAGE, "Lists", "Each list has one written text"
        kinds = "iwt" if self.is_nasty else "iwtlk"
        return b"$" + self.variable(self.rng.choice(kinds))

    def composed(self, kind):
        """A word of several parts."""
        parts = []
        for _ in range(self.rng.randrange(2, 4)):
            how = self.rng.random()
            inner = self.rng.choice("iwt") if kind == "t" else "w"
            if how < 0.4:
                parts.append(self.inside_quotes(self.literal(inner)))
            elif how < 0.8 or self.depth > 2 or self.in_loop:
                parts.append(b"${" + self.variable(inner) + b"}")
            else:
                parts.append(self.bracket(inner))
        return b'"' + b"".join(parts) + b'"'

    def listed(self):
        """A word that is a list."""
        if self.chance(0.12):
            return self.of("k")
        # the text of a list that isn't written as lists are: LANGUAGE, "Each list has one written text"
        if self.chance(0.15) and self.is_nasty:
            return self.of("t")
        return self.of("l")

    def target(self, kind):
        """The name of a variable that a command sets."""
        return self.element_name() if kind == "t" and self.chance(0.07) else self.variable(kind)

    def index(self):
        """A word that is an index."""
        n = self.rng.choice([0, 0, 1, 1, 2, 3, 5, -1])
        forms = [b"%d" % n] * 6 + [b"end", b"end", b"end-%d" % abs(n), b"end+%d" % abs(n), b"%d+1" % n, b"%d-1" % abs(n)]
        # a number in front of the sign, so `$i2+1` would be `+1` if it is empty: LANGUAGE, "Against Tcl"
        # LANGUAGE, "Against Tcl": an index has 64 bits, and 32 in tclsh 8.6
        return self.rng.choice(forms + ([] if self.is_great else [b"end-$i1", b"$i1", b"1+$i2"]))

    # commands

    def call(self, name, *words):
        self.used[name] += 1
        if words and self.chance(0.02):
            self.used["{*}"] += 1
            words = [*words[:-1], b"{*}[list " + (words[-1] if isinstance(words[-1], bytes) else words[-1].encode()) + b"]"]
        return self.command([it if isinstance(it, bytes) else it.encode() for it in (*name.split(), *words)])

    def command_of(self, kind):
        """A command whose value is of this kind."""
        makers = [it for it in self.makers[kind] if self.depth < 3 or it[1].__name__[2:] in SHALLOW]
        made = None
        while made is None:
            made = self.rng.choices([it for _, it in makers], [weight for weight, _ in makers])[0]()
        return made

    def flags(self, *choices, part=0.3):
        found = [it for it in choices if self.chance(part)]
        self.rng.shuffle(found)
        return found

    def set_to(self, kind):
        return self.call("set", self.variable(kind), self.of(kind))

    def i_set(self):
        return self.set_to("i")

    def w_set(self):
        return self.set_to("w")

    def t_set(self):
        return self.set_to("t")

    def l_set(self):
        return self.set_to("l")

    def k_set(self):
        return self.set_to("k")

    def i_incr(self):
        words = [self.of("i")] if self.chance(0.6) else []
        return self.call("incr", self.variable("i") if self.chance(0.9) else b"b(n)", *words)

    def i_llength(self):
        return self.call("llength", self.listed())

    def i_length(self):
        return self.call("string length", self.of("t"))

    def i_compare(self):
        return self.call("string " + self.rng.choice(["compare", "equal"]), *self.flags("-nocase"), self.of("t"), self.of("t"))

    def i_match(self):
        return self.call("string match", *self.flags("-nocase"), self.glob(), self.of("t"))

    def i_first(self):
        # The empty text is found at 0 or at the end: LANGUAGE, "Against Tcl"
        needle = self.inside_quotes(self.text_of(self.letters + DIGITS, 2) or b"a")
        more = b"${" + self.variable("w") + b"}" if self.chance(0.3) else b""
        return self.call("string " + self.rng.choice(["first", "last"]), b'"' + needle + more + b'"', self.of("t"))

    def i_is(self):
        flags = self.flags("-strict")
        which = self.rng.random()
        if which < 0.15:
            # a number, so without blanks, plus or zeros in front: LANGUAGE, "Expressions"
            # LANGUAGE, "Against Tcl": it has 64 bits, and 32 in tclsh 8.6
            return self.call("string is", "integer", *flags, self.of("i" if self.chance(0.7) and not self.is_great else "w"))
        if which < 0.3:
            name = self.rng.choice(["boolean", "true", "false"])
            return self.call("string is", name, *flags, self.rng.choice([self.of("i"), self.of("w"), self.rng.choice(TRUTHS)]))
        # classes are of ASCII: LANGUAGE, "ASCII classes"
        name = self.rng.choice(CLASSES if not self.is_high else ["ascii"])
        one = self.word(bytes([self.rng.choice(LETTERS + DIGITS + b"  \t_-Zf$|\x01\x7f")]) * self.rng.randrange(1, 3))
        return self.call("string is", name, *flags, self.rng.choice([one, self.of("t")]))

    def glob(self):
        """A word that is a glob."""
        if self.chance(0.1):
            # A [ without a ] and a last backslash stand for themselves here. The
            # texts of a tame program have a [ too.
            return self.word(bytes(byte for byte in self.any_text() if byte not in b"[\\"))
        parts = []
        for _ in range(self.rng.randrange(1, 5)):
            # a - first or last in a class is a member: the same line
            parts.append(self.rng.choice(GLOB))
        return self.word(b"".join(parts))

    def i_lsearch(self):
        # without -inline
        return self.searched([])

    def k_lsearch(self):
        return self.searched(["-all"])

    def t_lsearch(self):
        return self.searched(["-inline"])

    def l_lsearch(self):
        return self.searched(["-all", "-inline"])

    def searched(self, shape):
        mode = self.rng.choice(["", "-exact", "-glob"] + ([] if self.is_high else ["-regexp"]))
        flags = [*shape, *self.flags("-not", "-nocase", part=0.25)] + ([mode] if mode else [])
        self.rng.shuffle(flags)
        if self.chance(0.25):
            flags += ["-start", self.index()]
        # with -nocase pieces of letters would share bytes
        regular = self.rng.choice(EITHER_CASE) if "-nocase" in flags else self.regular()
        pattern = self.word(regular) if mode == "-regexp" else self.of("t") if mode == "-exact" else self.glob()
        return self.call("lsearch", *flags, self.listed(), pattern)

    def regular(self, can_be_empty=True):
        """A regular pattern of pieces of which no two share a byte, so a text is taken apart in one way only.

        Of several ways Tcl takes the longest: FOR_EXPECT_USERS, "Regular patterns".
        """
        has_one = False
        parts = []
        for group in self.rng.sample(ATOMS, self.rng.randrange(1, 4)):
            atom = self.rng.choice(group)
            if b"|" in atom and not atom.startswith(b"("):
                atom = b"(" + atom + b")" if self.chance(0.7) else b"(?:" + atom + b")"
            many = self.rng.choice([b"", b"", b"", b"+", b"*", b"?", b"{2}", b"{1,2}", b"{2,}"])
            if many and len(atom) > 1 and atom[:1] not in b"[\\(":
                atom = b"(?:" + atom + b")"
            if self.chance(0.4):
                parts.append(b"(" + atom + many + b")" + (b"?" if self.chance(0.15) and many != b"*" else b""))
                has_one |= many not in (b"*", b"?") and not parts[-1].endswith(b")?")
            else:
                parts.append(atom + many)
                has_one |= many not in (b"*", b"?")
        if not has_one and not can_be_empty:
            parts.append(b"_")
        pattern = b"".join(parts)
        if self.chance(0.15):
            pattern = b"^" + pattern
        if self.chance(0.15):
            pattern += b"$"
        return pattern

    def pattern(self, can_be_empty=True):
        """Flags and a pattern of regexp and regsub. With -nocase pieces of letters would share bytes."""
        flags = self.flags("-lineanchor", "--", part=0.15)
        lazy = self.rng.random()
        if lazy < 0.06:
            # one count, and it takes few: more of them differ
            return flags, self.rng.choice(LAZY)
        if lazy < 0.2:
            return ["-nocase", *flags], self.rng.choice(EITHER_CASE)
        return flags, self.regular(can_be_empty)

    def text_for_patterns(self):
        """A word that a pattern finds something in more often."""
        if self.chance(0.5):
            return self.word(b"".join(self.rng.choice(FOUND) for _ in range(self.rng.randrange(8))))
        return self.of("t")

    def i_regexp(self):
        if self.is_high:
            return None
        front = [*self.starts(0.15), *self.flags("-all", part=0.25), *self.flags("-indices", part=0.15)]
        # -all counts the empty match at the end, and tclsh 8.6 doesn't
        # LANGUAGE, "Against Tcl": a -start behind the end is the end here, so -indices are its own, and ^ holds in the empty text; not so in tclsh
        flags, pattern = self.pattern(can_be_empty="-all" not in front and "-start" not in front)
        names = [self.target("t") for _ in range(self.rng.choice([0, 0, 1, 2, 3, 4]))]
        return self.call("regexp", *front, *self.ended(flags), self.word(pattern), self.text_for_patterns(), *names)

    def starts(self, part):
        return ["-start", self.index()] if self.chance(part) else []

    def ended(self, flags):
        """The flags, with `--` at the end."""
        return [it for it in flags if it != "--"] + (["--"] if "--" in flags else [])

    def l_regexp(self):
        if self.is_high:
            return None
        front = ["-inline", *self.flags("-all", part=0.6), *self.flags("-indices", part=0.15)]
        flags, pattern = self.pattern(can_be_empty="-all" not in front)
        return self.call("regexp", *front, *self.ended(flags), self.word(pattern), self.text_for_patterns())

    def new_text(self):
        """A word that replaces what a pattern finds; in a tame program without a backslash of its own."""
        return self.word(b"".join(self.rng.choice(NEW if self.is_nasty else NEW[:-2]) for _ in range(self.rng.randrange(4))))

    def regsub_words(self):
        start = self.starts(0.12)
        # LANGUAGE, "Against Tcl": with a -start behind the end the empty text is found at the end here, and replaced; tclsh finds nothing
        flags, pattern = self.pattern(can_be_empty=not start)
        return [*start, *self.flags("-all", part=0.5), *self.ended(flags), self.word(pattern), self.text_for_patterns(), self.new_text()]

    def i_regsub(self):
        return None if self.is_high else self.call("regsub", *self.regsub_words(), self.target("t"))

    def t_regsub(self):
        return None if self.is_high else self.call("regsub", *self.regsub_words())

    def i_scan(self):
        template, kinds = self.rng.choice(SCANNED)
        names = [self.target(kind) for kind in kinds] or [b"t1"]
        text = self.word(self.rng.choice(TEXTS_TO_SCAN)) if self.chance(0.6) else self.of("t")
        return self.call("scan", text, self.word(template), *names)

    def i_exists(self):
        kind = self.rng.choice("iwtlk")
        return self.call("info exists", self.rng.choice([self.variable(kind), self.element_name(), b"a", b"b", b"none"]))

    def array_name(self):
        return self.rng.choice([b"a", b"a", b"b", b"t1", b"none"])

    def i_array(self):
        return self.call("array " + self.rng.choice(["size", "exists"]), self.array_name())

    def some_keys(self):
        return [self.rng.choice([b"*", b"x*", b"?", b"[xy]", b"1", b"x"])] if self.chance(0.4) else []

    def l_array(self):
        return self.call("array " + self.rng.choice(["names", "get"]), self.array_name(), *self.some_keys())

    def e_array_set(self):
        keys = [b"x", b"y", b"z", b"1", b"a b", b""]
        pairs = [it for _ in range(self.rng.randrange(4)) for it in (self.rng.choice(keys), self.any_text())]
        if self.chance(0.05):
            pairs.append(b"odd")
        words = self.word(self.list_text(pairs, not self.is_nasty)) if self.chance(0.75) else self.listed()
        return self.call("array set", self.array_name(), words)

    def e_array_unset(self):
        return self.call("array unset", self.array_name(), *self.some_keys())

    def e_unset(self):
        names = [self.variable(self.rng.choice("iwtlk")) if self.chance(0.7) else self.element_name() for _ in range(self.rng.randrange(1, 3))]
        return self.call("unset", *self.flags("-nocomplain", part=0.5), *names)

    def i_catch(self):
        if self.is_great:
            return None
        self.catches += 1
        body = self.rng.choice([b"break", b"continue", b"return x", b'error "a text"', None, None, None, None, None, None])
        if body is None:
            body = self.body_of(self.rng.choice("iwte"))
        else:
            self.used[body.split()[0].decode()] += 1
        return self.call("catch", self.body(body), b"e%d" % self.catches)

    def t_error(self):
        return self.call("error", self.word(self.rng.choice([b"broken", b"a text", b"{x} \\"])), *self.rng.choice([[], [], [b"info"], [b"info", b"code"]]))

    def t_refused(self):
        """A command that both refuse as it stands."""
        return self.call_text(self.rng.choice(REFUSED))

    def call_text(self, text):
        self.used["refused"] += 1
        return text

    def e_global(self):
        return self.call("global", *[self.variable(self.rng.choice("iwtlk")) for _ in range(self.rng.randrange(1, 3))])

    def e_upvar(self):
        kind = self.rng.choice("iwtlk")
        level = self.rng.choice([[], [b"1"], [b"#0"]])
        return self.call("upvar", *level, self.variable(kind), self.variable(kind))

    def w_append(self):
        return self.appended("w")

    def t_append(self):
        return self.appended("t")

    def appended(self, kind):
        # a missing variable counts as empty, also without texts: LANGUAGE, "Variables"
        name = self.element_name() if kind == "t" and self.chance(0.3) else self.variable(kind)
        words = [self.word(self.literal(kind)) if self.in_loop else self.of(kind) for _ in range(self.rng.choice([1, 1, 1, 2]))]
        return self.call("append", name, *words)

    def t_subst(self):
        # tclsh writes a list otherwise where an element has a bracket, a quote or a backslash
        return self.substituted([it for it in REPLACED if not set(it) & set(b'[]"') and it != rb"\\"])

    def i_subst(self):
        return self.call("string length", b"[" + self.substituted(REPLACED) + b"]")

    def substituted(self, parts):
        # a bracket in an index is a byte here: LANGUAGE, "Against Tcl"
        pieces = [b"$" + self.variable(self.rng.choice("iwt")), b"${" + self.variable("t") + b"}", *self.rng.choices(parts, k=3)]
        return self.call("subst", *[b"-nocommands"] * self.rng.choice([1, 1, 2]), self.word(b"".join(self.rng.choices(pieces, k=4))))

    def w_part(self):
        return self.part_of("w")

    def t_part(self):
        return self.part_of("t")

    def part_of(self, kind):
        """A part or a change of a text, which has only bytes of it."""
        text = self.of(kind)
        option = self.rng.choice("index range tolower toupper reverse repeat trim trimleft trimright".split())
        if option == "index":
            return self.call("string index", text, self.index())
        if option == "range":
            # a fault of tclsh: where the first one is a written end+1, tclsh 8.6.13 compiles the words behind it away
            first = self.index()
            return self.call("string range", text, b"end" if first.startswith(b"end+") else first, self.index())
        if option == "repeat":
            return self.call("string repeat", text, b"%d" % self.rng.choice([0, 1, 2, 2]))
        if option.startswith("trim"):
            # NUL isn't white space here: LANGUAGE, "Against Tcl"
            return self.call("string " + option, text, *([self.of(kind)] if self.has_nul or self.chance(0.5) else []))
        return self.call("string " + option, text)

    def w_map(self):
        return self.mapped("w")

    def t_map(self):
        return self.mapped("t")

    def mapped(self, kind):
        letter = self.letters if kind == "w" else self.letters + DIGITS
        pairs = [self.text_of(letter, 2) for _ in range(2 * self.rng.randrange(4))]
        if self.chance(0.03):
            pairs.append(b"odd")
        pairs = self.word(self.list_text(pairs, not self.is_nasty))
        return self.call("string map", *self.flags("-nocase", part=0.35), pairs, self.of(kind))

    def w_concat(self):
        return self.call("concat", *[self.of("w") for _ in range(self.rng.randrange(4))])

    def w_format(self):
        shape = self.rng.choice([b"%s", b"%-5s|", b"%5s", b"%.2s", b"<%s%s>", b"%%%s", b"%*s", b"%-*s"])
        values = [b"%d" % self.rng.choice([3, 6, -4])] if b"*" in shape else []
        return self.call("format", self.word(shape), *values, *[self.of("w") for _ in range(shape.count(b"s"))])

    def t_format(self):
        # - is stronger than 0 here
        shape = self.rng.choice(FORMATS)
        count = shape.count(b"%") - 2 * shape.count(b"%%") + shape.count(b"*")
        if b"c" in shape:
            # a character past ASCII is several bytes here: LANGUAGE, "A text is bytes"
            return self.call("format", self.word(shape), b"%d" % self.rng.choice([65, 32, 97, 123, 0x7E]))
        values = [self.of("i") for _ in range(count)]
        if b"*" in shape:
            values[0] = b"%d" % self.rng.choice([3, 6, -4])
        if self.chance(0.04):
            values = values[:-1]
        template = b"<" + shape + self.rng.choice([b"", b"", b"%s"]) + b">"
        return self.call("format", self.word(template), *values, *([self.of("t")] if self.chance(0.7) else []))

    def t_lindex(self):
        return self.call("lindex", self.listed(), self.index())

    def i_lindex(self):
        return self.call("lindex", self.of("k"), self.index())

    def t_join(self):
        return self.call("join", self.listed(), *([self.of("t")] if self.chance(0.6) else []))

    def t_element(self):
        return self.call("set", self.element_name(), *([self.of("t")] if self.chance(0.75) else []))

    def l_list(self):
        return self.call("list", *[self.of("t") for _ in range(self.rng.randrange(5))])

    def l_expanded(self):
        self.used["{*}"] += 1
        return self.call("list", *[self.rng.choice([self.of("t"), b"{*}" + self.listed()]) for _ in range(self.rng.randrange(1, 4))])

    def l_split(self):
        chars = [self.word(self.text_of(self.letters, 2))] if self.chance(0.6) else []
        return self.call("split", self.of("t"), *chars)

    def l_lrange(self):
        return self.call("lrange", self.listed(), self.index(), self.index())

    def l_linsert(self):
        return self.call("linsert", self.listed(), self.index(), *[self.of("t") for _ in range(self.rng.randrange(3))])

    def l_lreplace(self):
        return self.call("lreplace", self.listed(), self.index(), self.index(), *[self.of("t") for _ in range(self.rng.randrange(3))])

    def l_lreverse(self):
        return self.call("lreverse", self.listed())

    def l_lrepeat(self):
        return self.call("lrepeat", b"%d" % self.rng.choice([0, 1, 2, 3, -1]), *[self.of("t") for _ in range(self.rng.randrange(3))])

    def l_lsort(self):
        if self.has_nul:
            # LANGUAGE, "Lists and texts", has the order by bytes: tclsh 8.6 has NUL behind all other bytes of ASCII; here the order is by bytes
            return None
        return self.call("lsort", *self.flags("-decreasing", "-unique", "-nocase", part=0.25), self.listed())

    def l_lsort_index(self):
        """A list of lists in order; all are written as lists are."""
        texts = [b"a", b"b", b"A", b"c d", b""]
        count = self.rng.randrange(5)
        rows = [self.list_text([self.rng.choice(texts), b"%d" % self.rng.choice(NUMBERS)], True) for _ in range(count)]
        flags = self.flags("-decreasing", "-unique", part=0.3)
        flags += self.rng.choice(["-index 1 -integer", "-index 0 -nocase", "-index 0", "-integer -index end", "-index end-1"]).split()
        listed = self.list_text(rows, False) if self.is_nasty else b" ".join(b"{" + it + b"}" for it in rows)
        return self.call("lsort", *flags, self.word(listed))

    def l_concat(self):
        return self.call("concat", *[self.listed() for _ in range(self.rng.randrange(4))])

    def l_lappend(self):
        words = [self.word(self.any_text()) if self.in_loop else self.of("t") for _ in range(self.rng.randrange(3))]
        return self.call("lappend", self.variable("l"), *words)

    def l_lset(self):
        return self.call("lset", self.variable("l"), self.rng.choice([self.index(), b"0", b"1", b"end", b"end+1"]), self.of("t"))

    def l_lassign(self):
        return self.call("lassign", self.listed(), *[self.target("t") for _ in range(self.rng.randrange(4))])

    def k_list(self):
        return self.call("list", *[self.of("i") for _ in range(self.rng.randrange(5))])

    def k_lsort(self):
        return self.call("lsort", "-integer", *self.flags("-decreasing", "-unique"), self.of("k"))

    def k_lrange(self):
        return self.call("lrange", self.of("k"), self.index(), self.index())

    def k_lappend(self):
        return self.call("lappend", b"k1", *[b"%d" % self.number() if self.in_loop else self.of("i") for _ in range(self.rng.randrange(3))])

    # expressions

    def i_expr(self):
        text = self.flat()
        # without braces it is substituted twice; so only with numbers
        if self.chance(0.15) and not any(it in text for it in b'"{[\\;wt'):
            self.used["expr"] += 1
            return b"expr " + text.replace(b"\n", b" ")
        return self.call("expr", self.body(text))

    def condition(self):
        """An expression of numbers, for a body of a choice."""
        return self.body(self.flat())

    def flat(self):
        """Operands with operators between them, without the parentheses that say what is an operator's."""
        self.depth += 1
        text = self.operand()
        is_shift = False
        for _ in range(self.rng.choice([0, 1, 1, 1, 2, 2, 3, 4])):
            operators = LOOSE + ["+", "-", "*", "/", "%", "<<", "<<"] + (["+", "-", "*"] * 8 if self.is_great else [])
            if is_shift:
                # what is shifted by stays small
                operators = LOOSE
            operator = self.rng.choice(operators)
            self.used["expr " + operator] += 1
            is_shift = operator == "<<"
            gap = self.rng.choice([b" ", b" ", b" ", b"", b"\n "])
            right = b"%d" % self.rng.choice([0, 1, 2, 3, 8, 40 if self.is_great else 5]) if is_shift else self.operand()
            text += gap + operator.encode() + (gap or (b" " if right[:1] in b"-+~!&|<>=" else b"")) + right
        if self.chance(0.08):
            self.used["expr ?:"] += 1
            text += b" ? " + self.operand() + b" : " + self.operand()
        self.depth -= 1
        return text

    def operand(self):
        how = self.rng.random()
        if how < 0.25:
            return b"%d" % self.number()
        if how < 0.5:
            return b"$" + self.variable("i")
        if how < 0.58:
            sign = self.rng.choice([b"-", b"!", b"~", b"+", b"- ", b"--"])
            self.used["expr unary"] += 1
            return sign + self.operand()
        if how < 0.63:
            self.used["expr **"] += 1
            low, high = (0, 1, 2, 3, -2, -1), (0, 1, 2, 3, -1)
            return b"%d%s%d" % (self.rng.choice(low), self.rng.choice([b"**", b" ** "]), self.rng.choice(high)) + self.rng.choice([b"", b"", b"**2"])
        if how < 0.67:
            # its text is decimal here; so it is an operator's, never the whole value
            self.used["expr octal, hexadecimal"] += 1
            return self.rng.choice([b"0x1f", b"0xFF", b"010", b"0", b"00", b"0X0a", b"017"]) + b" | 0"
        if how < 0.72:
            return self.rng.choice(TRUTHS) if self.chance(0.5) else b'"%s"' % self.rng.choice(TRUTHS)
        if how < 0.76:
            return b"{%d}" % self.number() if self.chance(0.5) else b'"%d"' % self.number()
        if self.depth > 3:
            return b"%d" % self.number()
        if how < 0.81:
            return b"(" + self.deeper(self.flat) + b")"
        if how < 0.94:
            return b"(" + self.compared() + b")"
        return self.bracket("i") if not self.in_loop else b"$i1"

    def compared(self):
        """A comparison of texts. It is in parentheses, as eq, ne, in and ni bind looser than == here: LANGUAGE, "Against Tcl"."""
        self.depth += 1
        operator = self.rng.choice("eq ne in ni eq ne in ni < > <= >= == !=".split())
        self.used["expr " + operator] += 1
        if operator in ("in", "ni"):
            lists = [b"$" + self.variable(self.rng.choice("lk")), b"{%s}" % self.literal("k"), b"{a {} x b}"]
            words = [self.text_operand("t"), self.rng.choice(lists)]
        elif operator in ("eq", "ne"):
            words = [self.text_operand("t"), self.text_operand("t")]
        else:
            words = [self.text_operand("w"), self.text_operand("w") if self.chance(0.7) else b"$" + self.variable("i")]
            self.rng.shuffle(words)
        self.depth -= 1
        return words[0] + b" " + operator.encode() + b" " + words[1]

    def text_operand(self, kind):
        how = self.rng.random()
        if how < 0.5:
            return b"$" + self.variable(kind)
        if how < 0.6 and self.depth < 4 and not self.in_loop:
            return self.bracket(kind)
        text = self.literal(kind)
        return b"{" + text + b"}" if balances(text) and self.chance(0.5) else self.quoted(text)

    # bodies

    def body_of(self, kind):
        """A script whose value is of this kind."""
        self.depth += 1
        commands = [self.command_of(self.rng.choice("iwte")) for _ in range(self.rng.choice([0, 0, 1]))]
        made = self.script([*commands, self.command_of(kind)])
        self.depth -= 1
        return made

    def chosen(self, kind):
        how = self.rng.random()
        if how < 0.4:
            return self.if_of(kind)
        return self.switch_of(kind) if how < 0.8 else self.eval_of(kind)

    def i_chosen(self):
        return self.chosen("i")

    def w_chosen(self):
        return self.chosen("w")

    def t_chosen(self):
        return self.chosen("t")

    def i_call(self):
        return self.call_of("i")

    def w_call(self):
        return self.call_of("w")

    def t_call(self):
        return self.call_of("t")

    def if_of(self, kind):
        words = [self.condition(), *self.flags("then", part=0.2), self.body(self.body_of(kind))]
        if self.chance(0.2):
            words += ["elseif", self.condition(), *self.flags("then", part=0.2), self.body(self.body_of(kind))]
        if self.chance(0.6):
            words += [*self.flags("else", part=0.8), self.body(self.body_of(kind))]
        return self.call("if", *words)

    def switch_of(self, kind):
        modes = ["-exact", "-glob"] + ([] if self.is_high else ["-regexp"])
        mode = self.rng.choice(modes)
        self.used["switch " + mode] += 1
        pairs = []
        for _ in range(self.rng.randrange(1, 4)):
            if mode == "-regexp":
                pattern = self.regular()
            elif mode == "-glob":
                pattern = self.rng.choice([b"a*", b"*b*", b"?", b"[ab]*", b"*x", b"*[0-9]*", b"*"])
            else:
                pattern = self.any_text()
            pairs.append((pattern, b"-" if self.chance(0.15) else self.body_of(kind)))
        if self.chance(0.6):
            pairs.append((b"default", self.body_of(kind)))
        elif pairs[-1][1] == b"-":
            pairs[-1] = (pairs[-1][0], self.body_of(kind))
        flags = [mode] if mode != "-exact" or self.chance(0.4) else []
        text = self.of("t")
        is_list = self.chance(0.6)
        # with the pairs as words a text with a minus is taken for a flag
        flags += ["--"] if not is_list or self.chance(0.5) else []
        if is_list:
            # the pairs are a list, whose elements have no substitutions
            return self.call("switch", *flags, text, self.body(self.list_text([it for pair in pairs for it in pair], False)))
        return self.call("switch", *flags, text, *[it for pattern, body in pairs for it in (self.word(pattern), self.body(body))])

    def eval_of(self, kind):
        if self.chance(0.5):
            return self.call("eval", self.body(self.body_of(kind)))
        # a list is a command of its words
        name = self.variable(kind)
        return self.call("eval", b"[list set %s %s]" % (name, self.of(kind)))

    def call_of(self, kind):
        known = [it for it in self.procs if it[1] == kind]
        if not known or self.in_loop:
            return None
        name, _, kinds, has_default, has_args = self.rng.choice(known)
        kinds = kinds[:-1] if has_default and self.chance(0.5) else kinds
        words = [self.of(it) for it in kinds]
        if has_args:
            words += [self.of("t") for _ in range(self.rng.randrange(3))]
        if self.chance(0.05):
            words = words[:-1] if self.chance(0.5) else [*words, b"x"]
        self.used["call of a procedure"] += 1
        return self.command([name.encode(), *words])

    def e_proc(self):
        """A procedure. It has numbers and texts as arguments, under the names of its variables."""
        if self.in_proc or self.in_loop or self.depth > 1:
            return None
        kind = self.rng.choice("iwt")
        kinds = self.rng.sample("iwtlk", self.rng.randrange(4))
        has_default, has_args = bool(kinds) and self.chance(0.3), self.chance(0.25)
        names = [it.encode() + b"1" for it in kinds]
        if has_default:
            names[-1] = b"{%s %s}" % (names[-1], self.element(self.literal(kinds[-1]), False))
        if has_args:
            names.append(b"args")
        known, self.procs, self.in_proc = self.procs, [], has_args
        commands = [self.rng.choice([self.e_global, self.e_upvar])()] if self.chance(0.4) else []
        codes = ["-code", self.rng.choice(["ok", "0", "ok", "error", "4"])] if self.chance(0.2) else []
        last = self.call("return", *codes, self.of(kind)) if self.chance(0.3) else self.command_of(kind)
        body = self.script([*commands, *[self.command_of(self.rng.choice("iwte")) for _ in range(self.rng.randrange(2))], last])
        name = f"f{self.serial}_{len(known)}"
        self.in_proc, self.procs = False, [*known, (name, kind, kinds, has_default, has_args)]
        return self.call("proc", name, self.body(b" ".join(names)), self.body(body))

    def loop_body(self, kind="e"):
        """The body of a loop; in it texts don't grow by themselves, and no loop begins."""
        self.in_loop = True
        commands = [self.command_of(self.rng.choice("iwtlk")) for _ in range(self.rng.choice([1, 1, 2]))]
        if self.chance(0.25):
            leave = self.rng.choice(["break", "continue"])
            self.used[leave] += 1
            commands.insert(0, self.call("if", self.body(b"$i1 > %d" % self.rng.randrange(4)), leave))
        self.in_loop = False
        return self.body(self.script(commands))

    def counter(self):
        self.loops += 1
        return b"n%d" % self.loops

    def e_for(self):
        if self.in_loop:
            return None
        name = self.counter()
        # a break in the third script leaves the loop as a code: LANGUAGE, "Against Tcl"
        condition = b"{$%s < %d}" % (name, self.rng.randrange(4))
        return self.call("for", b"{set %s 0}" % name, condition, b"{incr %s}" % name, self.loop_body())

    def e_while(self):
        if self.in_loop:
            return None
        return self.call("while", b"{[incr %s] < %d}" % (self.counter(), self.rng.randrange(1, 4)), self.loop_body())

    def e_foreach(self):
        if self.in_loop:
            return None
        how = self.rng.random()
        if how < 0.3:
            return self.call("foreach", self.rng.choice([b"i1", b"{i1 i2}"]), self.of("k"), self.loop_body())
        return self.call("foreach", self.rng.choice([b"t1", b"t2", b"{t1 t2}", b"{t1 t3}"]), self.listed(), self.loop_body())

    # programs

    def names(self):
        """All variables that the program may have."""
        numbered = [f"e{at}" for at in range(1, self.catches + 1)] + [f"n{at}" for at in range(1, self.loops + 1)]
        return [it.encode() for it in [*(name for names in VARIABLES.values() for name in names), *ARRAYS, "none", *numbered]]

    def commands(self):
        """The program: commands, each with the kind of its value, or `-` for one that can only succeed."""
        if self.chance(0.1):
            return self.raw()
        made = []
        for kind, names in VARIABLES.items():
            for name in names:
                if self.chance(0.93):
                    made.append((b"set " + name.encode() + b" " + self.word(self.literal(kind)), "-"))
        if self.chance(0.3):
            made.append((b"array set a {x %d y {a b} 1 {}}" % self.number(), "-"))
        for _ in range(self.rng.randrange(1, 7)):
            kind = self.rng.choice("iiiiiiiiiiikkle" if self.is_great else "iiiiwwttttlllkee")
            made.append((self.script([self.command_of(kind)]), kind))
            if b"proc" in made[-1][0] and self.procs and self.chance(0.8):
                made.append((self.call_of(self.procs[-1][1]), self.procs[-1][1]))
        return made

    def raw(self):
        """Commands that aren't built, but of random signs."""
        how = self.rng.choice(sorted(RAW))
        self.is_nasty = True
        self.used["raw " + how] += 1
        made = [(b"set w1 {a b}", "-"), (b"set i1 3", "-")]
        for _ in range(self.rng.randrange(1, 4)):
            text = self.signs(RAW[how])
            if how == "words":
                made.append((b"list " + text, "l"))
            elif how == "list":
                made.append((b"lrange " + self.quoted(text) + b" 0 end", "l"))
            else:
                made.append((b"expr " + self.body(text), "e"))
        return made

    def signs(self, choices):
        return b"".join(self.rng.choice(choices) for _ in range(self.rng.randrange(1, 12)))


# Parts of patterns, templates and texts.

GLOB = [b"*", b"*", b"?", b"?", b"a", b"b", b"x", b"A", b"1", b" ", b"$", rb"\*", rb"\a", rb"\[", b"[ab]", b"[a-c]", b"[0-9]", b"[^x]", b"[c-a]", b"[A-Zx]"]
ATOMS = [
    [b"a", b"[ab]", b"[a-c]", b"ab"],
    [b"x", b"[xz]", b"x|z", b"xz"],
    [rb"\d", b"[0-9]", b"1", b"[[:digit:]]"],
    [b" ", rb"\s", b"[ ;]"],
    [b"A", b"[A-D]", b"(?:AB|C)", b"[[:upper:]]"],
    [rb"\$", rb"\.", b"[.,:]", b"[]{}]", rb"\[", rb"\\", rb"\{"],
]
LAZY = [rb"a.*?b", rb"\[.+?x", rb"(a.*?)b", rb"a.{1,3}?b", rb" (.+?) "]
EITHER_CASE = [b"ab", b"[a-c]+", b"(a)(b)?", b"X[ab]", b"x{2}", b"(a|x)+", b"[^a]", b"(.)a", b"A+ *"]
FOUND = [b"a", b"ab", b"x", b"xz", b"1", b"23", b" ", b"A", b"AB", b".", b"$", b"b", b"z", b"\n", b"["]
NEW = [b"&", rb"\0", rb"\1", rb"\2", b"<", b">", b"-", b"x", rb"\&", b" ", b"$", rb"\\", rb"\n"]

# Templates of scan, with the kinds of what they read.
SCANNED = [(b"%d", "i"), (b"%d.%d", "ii"), (b"%s %d", "ti"), (b"%*s %s", "t"), (b"a%d %*d b", "i"), (b"%s", "t"), (b" %d%s", "it"), (b"%d,%s", "it"), (b"x", ""), (b"%d %*d", "ii")]
TEXTS_TO_SCAN = [b"12", b"1.5", b"ab 7", b"a5 6 b", b" -3x", b"4,zz top", b"", b"+8", b"x"]
FORMATS = b"%d %5d| %-5d| %05d %.3d %6.3d %x %X %o %u %04x %c %3c %d%% %d,%d %ld %*d %08X %-4x| %.0d %02d:%02d".split()

# Parts of a text that subst replaces, or leaves as they are.
REPLACED = rb"$a(x) $b($w1) ${a(y)} $a($a(x)) $ $. \n \x41 \101 \u007e \$ \[ \\ [list [ ] [$w1] ; - # )".split() + [b" ", b'"', b"\n", b"\\\n  "]

# Operators that bind looser than a shift, and the one that makes a number small.
LOOSE = "< > <= >= == != & ^ | && || >>".split()

# Signs that commands, lists and expressions are made of without a plan.
RAW = {
    "words": [b"a", b"b", b"#", b"a b", b"{", b"}", b'"', b"[", b"]", b"[list", b"\\", rb"\a", rb"\x", rb"\40", rb"\400", b"\n", b";", b"\\\n", b"\t"]
    + [b"$w1", b"${w1}", b"$", b"$a(", b"(", b")", b"{*}", b" ", b" ", b" "],
    "list": [b"a", b"b", b"{", b"}", b'"', b"\\", rb"\{", rb"\}", rb'\"', rb"\x41", rb"\n", b"$", b"[", b"]", b";", b"#", b" ", b" ", b" ", b"\n", b"\\\n", b"\t"],
    "expr": b"1 2 0 - + * / % ( ) ! ~ && || < >= == ? : & | ^ true no $i1".split() + [b'"a"', b"{b}", b"[llength {a b}]", b" ", b" ", b" "],
}


def weights(text):
    words = text.split()
    return {name: float(weight) for name, weight in zip(words[::2], words[1::2])}


# What is drawn for each kind, and how often.
MAKERS = {
    "i": weights("set 3 incr 3 expr 14 llength 3 length 3 compare 3 match 3 first 4 is 4 lsearch 3 regexp 5 regsub 2 scan 2 exists 2 array 2 catch 4 lindex 2 subst 1 chosen 2 call 4"),
    "w": weights("set 4 append 3 part 6 map 3 concat 2 format 3 chosen 2 call 4"),
    "t": weights("set 4 append 3 part 7 map 3 format 5 lindex 5 join 4 element 4 lsearch 2 regsub 4 subst 2 chosen 3 error 1 refused 1.5 call 4"),
    "l": weights(
        "set 2 list 4 expanded 2 split 4 lrange 3 linsert 3 lreplace 3 lreverse 2 lrepeat 2 lsort 3 lsort_index 2 lsearch 2 concat 2 lappend 3"
        " lset 3 lassign 3 regexp 3 array 2"
    ),
    "k": weights("set 2 list 3 lsort 3 lrange 2 lappend 3 lsearch 2"),
    "e": weights("array_set 2 array_unset 1 unset 1 global 1 proc 6 for 3 while 2 foreach 5"),
}

# Commands that both refuse, as they are: a wrong count, a flag, an option, a class or an index that there isn't, no list.
REFUSED = re.split(rb" {3}|\n", rb"""
set   set a b c   incr   incr i1 1 2   incr i1 x   incr i1 1.5   append   lappend   llength   llength a b   lindex   lrange a   lrange a 0
lrange a 0 1 2   linsert a   lreplace a 0   lset   lreverse   lreverse a b   lrepeat   lrepeat x a   lassign   lsort   lsort a b   lsearch
lsearch a   join   join a b c   split   split a b c   concat [llength]   format   scan   scan a   string   string length
string length a b   string index a   string range a 0   string compare a   string equal a   string match a   string first a
string last a   string map a   string repeat a   string repeat a x   string reverse   string tolower   string trim   string is
string is alpha   string is letter a   string nothing a   string compare -none a b   regexp   regexp a   regsub a b   regexp {(} a
regexp {a**} a   regexp {[a} a   regsub {a)} a b   regexp -none a b   regsub -none a b c   regexp {x{2,1}} x   regexp {*a} a   switch
switch a   switch a {a}   switch a {a -}   switch a {}   switch -none a {a b}   foreach   foreach a   foreach a b   foreach {} a {}   for
for {} 1 {}   while   while 1   while 1 {} {}   while x {}   if   if 1   if 1 {} else   if 0 {} elseif   if x {}   if {} {}   proc
proc f   proc f {}   proc f {{a b c}} {}   proc f "\{" {}   error   error a b c d   catch   eval   expr   global [nosuch]   array
array size   array nothing a   array set a   array set a x   array names   info   info exists   info exists a b   info nothing   nosuch
break x   lindex {a b} x   lindex {a b} end-x   lrange {a b} 0 x   linsert {a b} x c   lreplace {a b} 0 x   string index abc x
string range abc 0 x   string index abc 1.5   llength "\{"   llength {"a"b}   llength "{a}b"   lindex "a "" 0   foreach t1 "\{" {}
lsort "a \{"   join "\{a"   lassign "\{" t1   lreverse "\{"   lsearch "\{" a   lsort -none {a b}   lsort -integer {1 x}
lsort -index 1 {{a b} c}   lsearch -none {a} a   format %d   format %d x   format %q a   scan a %q t1   scan a %d t1 t2   expr 1 +
expr {1 2}   expr {(1}   expr {1)}   expr {a}   expr {$}   expr {"a" + 1}   expr {!"a"}   expr {~true}   expr {1 / 0}   expr {1 % 0}
expr {1 << -1}   expr {0 ** -1}   upvar   upvar a   upvar 1 a   upvar a b   upvar #0 a   upvar x a b
subst   subst a b   subst -none a   subst -nocommands {$nosuch}   subst -nocommands {$a(}   subst -nocommands "\${"
""".strip(b"\n"))

# What may be drawn at the greatest depth.
SHALLOW = "set unset global incr length llength part lindex list element array append lappend".split()
