"""The commands on lists."""

from codes import failed
from patterns import MODES, fits
from regulars import read_regular
from values import LONGEST_VALUE, bounded, concatenated, counted, elements, flags, last_of, listed, number, place_of

SEARCHES = {b"-all": False, b"-inline": False, b"-not": False, b"-nocase": False, b"-start": True, **dict.fromkeys(MODES, False)}
SORTS = {b"-integer": False, b"-decreasing": False, b"-unique": False, b"-nocase": False, b"-index": True}


def wanted(given, found, pattern):
    """The places of the elements that `lsearch` finds."""
    start = max(place_of(given.get(b"-start", b"0"), len(found) - 1), 0)
    mode = last_of(given, MODES) or b"-glob"
    if mode == b"-regexp":
        # also if there is no element
        read_regular(pattern)
    return [at for at in range(start, len(found)) if fits(mode, pattern, found[at], b"-nocase" in given) != (b"-not" in given)]


def key_of(element, given):
    """What `lsort` compares of an element."""
    if b"-index" in given:
        parts = elements(element)
        at = place_of(given[b"-index"], len(parts) - 1)
        if not 0 <= at < len(parts):
            raise failed(b"bad index", given[b"-index"])
        element = parts[at]
    if b"-integer" in given:
        return number(element)
    return element.lower() if b"-nocase" in given else element


class Lists:
    """The commands on lists, by `get` and `set` of `Variables`."""

    def do_list(self, words):
        return listed(words)

    def do_llength(self, words):
        counted(b"llength", words, 1, 1)
        return b"%d" % len(elements(words[0]))

    def do_lindex(self, words):
        counted(b"lindex", words, 1, 2)
        if len(words) == 1:
            return words[0]
        found = elements(words[0])
        at = place_of(words[1], len(found) - 1)
        return found[at] if 0 <= at < len(found) else b""

    def do_lrange(self, words):
        counted(b"lrange", words, 3, 3)
        found, first, last = self.ranged(words)
        return listed(found[max(first, 0) : max(last + 1, 0)])

    def ranged(self, words):
        """The elements of a list, and the places of two indexes."""
        found = elements(words[0])
        return found, *(place_of(word, len(found) - 1) for word in words[1:3])

    def do_linsert(self, words):
        counted(b"linsert", words, 2)
        found = elements(words[0])
        at = max(place_of(words[1], len(found)), 0)
        return listed([*found[:at], *words[2:], *found[at:]])

    def do_lreplace(self, words):
        counted(b"lreplace", words, 3)
        found, first, last = self.ranged(words)
        first = max(first, 0)
        return listed([*found[:first], *words[3:], *found[max(first, last + 1) :]])

    def do_lset(self, words):
        counted(b"lset", words, 3, 3)
        name, index, value = words
        found = elements(self.get(name))
        at = place_of(index, len(found) - 1)
        if not 0 <= at <= len(found):
            raise failed(b"bad index", index)
        return self.set(name, listed([*found[:at], value, *found[at + 1 :]]))

    def do_lassign(self, words):
        counted(b"lassign", words, 1)
        found, names = elements(words[0]), words[1:]
        for at, name in enumerate(names):
            self.set(name, found[at] if at < len(found) else b"")
        return listed(found[len(names) :])

    def do_lreverse(self, words):
        counted(b"lreverse", words, 1, 1)
        return listed(elements(words[0])[::-1])

    def do_lrepeat(self, words):
        counted(b"lrepeat", words, 1)
        count, values = number(words[0]), words[1:]
        if count < 0:
            raise failed(b"bad count", words[0])
        # each element takes at least a byte, and there is a space between two
        if 2 * len(values) * count - 1 > LONGEST_VALUE:
            raise failed(b"value too long")
        return listed(values * count if values else [])

    def do_concat(self, words):
        return concatenated(words)

    def do_join(self, words):
        counted(b"join", words, 1, 2)
        return bounded((words[1] if len(words) > 1 else b" ").join(elements(words[0])))

    def do_split(self, words):
        counted(b"split", words, 1, 2)
        text, marks = (*words, b" \n\t\r")[:2]
        if not text:
            return b""
        found = [b""]
        for byte in text:
            if byte in marks:
                found.append(b"")
            elif marks:
                found[-1] += bytes([byte])
            else:
                found.append(bytes([byte]))
        return listed(found if marks else found[1:])

    # searching and sorting

    def do_lsearch(self, words):
        given, words = flags(b"lsearch", words, SEARCHES, tail=2)
        counted(b"lsearch", words, 2, 2)
        found, pattern = elements(words[0]), words[1]
        places = wanted(given, found, pattern)
        told = [found[at] if b"-inline" in given else b"%d" % at for at in places]
        if b"-all" in given:
            return listed(told)
        return (told or [b"" if b"-inline" in given else b"-1"])[0]

    def do_lsort(self, words):
        given, words = flags(b"lsort", words, SORTS, tail=1)
        counted(b"lsort", words, 1, 1)
        keyed = [(key_of(element, given), element) for element in elements(words[0])]
        keyed.sort(key=lambda pair: pair[0], reverse=b"-decreasing" in given)
        if b"-unique" in given:
            # of equal elements the last one stays
            keyed = [pair for at, pair in enumerate(keyed) if at + 1 == len(keyed) or keyed[at + 1][0] != pair[0]]
        return listed([element for _, element in keyed])
