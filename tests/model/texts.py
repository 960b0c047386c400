"""The command `string`."""

import string
from math import inf

from codes import failed
from patterns import fits_glob
from values import LONGEST_VALUE, TRUTHS, WHITE, bounded, counted, elements, flags, is_number, number, option_of, pairs, place_of

# The bytes of a class of `string is`.
CLASSES = {
    b"alnum": string.ascii_letters + string.digits,
    b"alpha": string.ascii_letters,
    b"ascii": "".join(map(chr, range(0x80))),
    b"control": "".join(map(chr, range(0x20))) + "\x7f",
    b"digit": string.digits,
    b"graph": "".join(map(chr, range(0x21, 0x7F))),
    b"lower": string.ascii_lowercase,
    b"print": "".join(map(chr, range(0x20, 0x7F))),
    # signs of mathematics and money, and accents are no punctuation
    b"punct": "!\"#%&'()*,-./:;?@[\\]_{}",
    b"space": "\t\n\v\f\r ",
    b"upper": string.ascii_uppercase,
    b"wordchar": string.ascii_letters + string.digits + "_",
    b"xdigit": string.hexdigits,
}
CLASSES = {name: frozenset(members.encode()) for name, members in CLASSES.items()}
# Classes of whole texts.
WHOLE = {
    b"integer": is_number,
    b"true": lambda text: text == b"1" or TRUTHS.get(text, False),
    b"false": lambda text: text == b"0" or not TRUTHS.get(text, True),
    b"boolean": lambda text: text in (b"0", b"1") or text in TRUTHS,
}

# The least and the most words of each option of `string`, without its flags.
OPTIONS = {
    b"length": (1, 1),
    b"index": (2, 2),
    b"range": (3, 3),
    b"equal": (2, 2),
    b"compare": (2, 2),
    b"match": (2, 2),
    b"first": (2, 2),
    b"last": (2, 2),
    b"map": (2, 2),
    b"is": (1, inf),
    b"repeat": (2, 2),
    b"reverse": (1, 1),
    b"tolower": (1, 1),
    b"toupper": (1, 1),
    b"trim": (1, 2),
    b"trimleft": (1, 2),
    b"trimright": (1, 2),
}
WITH_NOCASE = (b"equal", b"compare", b"match", b"map")


class Texts:
    """The options of `string`."""

    def do_string(self, words):
        option, words = option_of(b"string", words, OPTIONS)
        given = {}
        if option in WITH_NOCASE:
            given, words = flags(b"string", words, {b"-nocase": False}, tail=2)
        counted(b"string", words, *OPTIONS[option])
        made = getattr(self, "string_" + option.decode())
        return made(*words, nocase=True) if given else made(*words)

    def string_length(self, text):
        return b"%d" % len(text)

    def string_index(self, text, index):
        at = place_of(index, len(text) - 1)
        return text[at : at + 1] if at >= 0 else b""

    def string_range(self, text, first, last):
        first, last = (place_of(index, len(text) - 1) for index in (first, last))
        return text[max(first, 0) : max(last + 1, 0)]

    def string_equal(self, one, other, nocase=False):
        return b"%d" % (one.lower() == other.lower() if nocase else one == other)

    def string_compare(self, one, other, nocase=False):
        if nocase:
            one, other = one.lower(), other.lower()
        return b"%d" % ((one > other) - (one < other))

    def string_match(self, pattern, text, nocase=False):
        return b"%d" % fits_glob(pattern, text, nocase)

    def string_first(self, part, text):
        return b"%d" % text.find(part)

    def string_last(self, part, text):
        return b"%d" % text.rfind(part)

    def string_map(self, keys, text, nocase=False):
        keys = [(key.lower() if nocase else key, value) for key, value in pairs(elements(keys)) if key]
        folded = text.lower() if nocase else text
        made, at = [], 0
        while at < len(text):
            key, value = next((pair for pair in keys if folded.startswith(pair[0], at)), (text[at : at + 1],) * 2)
            made.append(value)
            at += len(key)
        return bounded(b"".join(made))

    def string_is(self, name, *words):
        given, words = flags(b"string", words, {b"-strict": False}, tail=1)
        counted(b"string", words, 1, 1)
        (text,) = words
        if name not in CLASSES and name not in WHOLE:
            raise failed(b"bad class", name)
        if not text:
            return b"%d" % (b"-strict" not in given)
        return b"%d" % (WHOLE[name](text) if name in WHOLE else CLASSES[name].issuperset(text))

    def string_repeat(self, text, count):
        count = max(number(count), 0)
        if len(text) * count > LONGEST_VALUE:
            raise failed(b"value too long")
        return text * count if text else b""

    def string_reverse(self, text):
        return text[::-1]

    def string_tolower(self, text):
        return text.lower()

    def string_toupper(self, text):
        return text.upper()

    def string_trim(self, text, marks=WHITE):
        return text.strip(marks)

    def string_trimleft(self, text, marks=WHITE):
        return text.lstrip(marks)

    def string_trimright(self, text, marks=WHITE):
        return text.rstrip(marks)
