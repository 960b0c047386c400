"""Writes texts as words, lists and indexes of a script, in any of the ways that the language has."""

ORDINARY = frozenset(b"abcdefghijklmnopqrstuvwxyzABCDEFGHIJKLMNOPQRSTUVWXYZ0123456789_-.,:/@%^&*=+<>!|~?()'`#")
NAMED = {9: b"\\t", 10: b"\\n", 11: b"\\v", 12: b"\\f", 13: b"\\r"}


def balances(text, is_body=False):
    """Whether the text can stand in braces. In a body a backslash before a newline may become a space."""
    depth, at = 0, 0
    while at < len(text):
        if text[at : at + 1] == b"\\":
            if at + 1 == len(text) or text[at + 1 : at + 2] == b"\n" and not is_body:
                return False
            at += 2
            continue
        depth += (text[at : at + 1] == b"{") - (text[at : at + 1] == b"}")
        if depth < 0:
            return False
        at += 1
    return depth == 0


class Writer:
    """Writes words, as a random source chooses."""

    def __init__(self, rng):
        self.rng = rng

    def chance(self, part):
        return self.rng.random() < part

    def escaped(self, byte):
        """A byte by a backslash."""
        if byte in NAMED and self.chance(0.8):
            return NAMED[byte]
        if 0x20 <= byte < 0x7F and not chr(byte).isalnum() and self.chance(0.8):
            return b"\\" + bytes([byte])
        # \u has bytes of UTF-8 here, and is one character there: LANGUAGE, "Backslashes"
        kinds = (b"\\%03o", b"\\x%02x", b"\\u%04x") if byte < 0x80 else (b"\\%03o", b"\\x%02X")
        return self.rng.choice(kinds) % byte

    def bare(self, text):
        parts = []
        for at, byte in enumerate(text):
            # a bare { or " is ordinary but in front; ] would end a bracket
            is_ordinary = byte in ORDINARY or byte >= 0x80 or (at and byte in b'"' and self.chance(0.3))
            parts.append(bytes([byte]) if is_ordinary and not (at == 0 and byte in b"#{\"") and not self.chance(0.02) else self.escaped(byte))
        return b"".join(parts)

    def inside_quotes(self, text):
        parts = []
        for byte in text:
            has_to = byte in b'"\\$[{}'
            parts.append(self.escaped(byte) if has_to or byte < 0x20 and self.chance(0.7) or self.chance(0.02) else bytes([byte]))
        return b"".join(parts)

    def quoted(self, text):
        return b'"' + self.inside_quotes(text) + b'"'

    def word(self, text):
        """A word whose value is this text."""
        style = self.rng.random()
        if style < 0.45 and balances(text):
            return b"{" + text + b"}"
        if style < 0.75 and text and len(text) < 40:
            return self.bare(text)
        return self.quoted(text)

    def body(self, text):
        """A word whose value is a script or an expression: mostly in braces."""
        if balances(text, True) and self.chance(0.97):
            return b"{" + text + b"}"
        return self.quoted(text)

    def element(self, text, is_tame):
        """An element of a list as a text; a tame one as each list is written."""
        if is_tame:
            return b"{" + text + b"}" if not text or any(byte in b" \t\n$[;" for byte in text) or text[:1] == b"#" else text
        style = self.rng.random()
        if style < 0.4 and balances(text):
            return b"{" + text + b"}"
        if style < 0.6 and text:
            return self.bare(text)
        return b'"' + b"".join(b"\\" + bytes([byte]) if byte in b'"\\' else bytes([byte]) for byte in text) + b'"'

    def list_text(self, texts, is_tame):
        """A list with these elements, as a text. A tame one is the text that lists here have: LANGUAGE, "Lists"."""
        elements = [self.element(text, is_tame) for text in texts]
        if is_tame:
            # only a first # is quoted
            elements[1:] = [text if it[:1] == b"{" and text[:1] == b"#" and not any(byte in b" \t\n$[;" for byte in text) else it for it, text in zip(elements[1:], texts[1:])]
            return b" ".join(elements)
        return b"".join(it + self.rng.choice([b" ", b" ", b"  ", b"\t", b"\n"]) for it in elements)

    def between(self):
        """What separates words."""
        return self.rng.choice([b" "] * 60 + [b"  ", b"\t", b" \\\n ", b"\\\n"])

    def command(self, words):
        """Words as a command."""
        line = words[0]
        if self.chance(0.02):
            line = self.rng.choice([b"{%s}", b'"%s"']) % line
        for word in words[1:]:
            line += self.between() + word
        return line

    def script(self, commands):
        """Commands as a script."""
        parts = []
        for at, command in enumerate(commands):
            if at:
                parts.append(self.rng.choice([b";", b"; ", b"\n", b"\n\n", b" ;;"]))
            if self.chance(0.03):
                parts.append(self.rng.choice([b"# a note\n", b"# two \\\n lines; a [ \" of note\n", b"\n  #\n", b" "]))
            parts.append(command)
        if self.chance(0.1):
            parts.append(self.rng.choice([b";", b"\n", b" ", b";# the end"]))
        return b"".join(parts)
