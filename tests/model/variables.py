"""Variables: texts and arrays, the scopes of procedures, and links between them."""

from codes import ERROR, Thrown, failed
from patterns import fits_glob
from values import bounded, counted, elements, is_number, listed, number, option_of, pairs, written

# The least and the most words of each option of `array`.
OPTIONS = {b"exists": (1, 1), b"get": (1, 2), b"names": (1, 2), b"set": (2, 2), b"size": (1, 1), b"unset": (1, 2)}


def parted(name):
    """The array and the index of an element's name, or another name and None."""
    if not name.endswith(b")") or b"(" not in name:
        return name, None
    array, _, index = name[:-1].partition(b"(")
    return array, index


def unable(act, name, why):
    return Thrown(ERROR, b'can\'t %s "%s": %s' % (act, name[:200], why))


class Scope:
    """The variables of a procedure, texts and arrays, and its links: each is a name that leads to a scope and a name there."""

    def __init__(self):
        self.variables, self.links = {}, {}

    def value(self, act, name, index, called):
        """The value of a variable or element, or None. To read or set an array itself, or an element of a text, is an error that has `called`."""
        held = self.variables.get(name)
        if index is None and isinstance(held, dict):
            raise unable(act, called, b"variable is array")
        if index is not None and isinstance(held, bytes):
            raise unable(act, called, b"variable isn't array")
        return held if index is None or held is None else held.get(index)

    def set(self, name, index, value):
        if index is None:
            self.variables[name] = value
        else:
            self.variables.setdefault(name, {})[index] = value

    def texts(self):
        """All values by name."""
        found = {}
        for name, held in self.variables.items():
            found |= {b"%s(%s)" % (name, index): value for index, value in held.items()} if isinstance(held, dict) else {name: held}
        return found


class Variables:
    """The commands on variables. `scopes` has one for each call of a procedure, after the global one."""

    def place(self, name):
        """The scope of a variable, and its name and index there."""
        array, index = parted(name)
        here = self.scopes[-1]
        return *here.links.get(array, (here, array)), index

    def value(self, name, act=b"read"):
        """The value of a variable, or None."""
        scope, home, index = self.place(name)
        return scope.value(act, home, index, name)

    def get(self, name):
        value = self.value(name)
        if value is None:
            raise unable(b"read", name, b"no such variable")
        return value

    def set(self, name, value):
        scope, home, index = self.place(name)
        bounded(value)
        scope.value(b"set", home, index, name)
        scope.set(home, index, value)
        return value

    def seen(self, name):
        """What a command of Expect reads: the variable of this scope, else the global one, else None."""
        value = self.value(name)
        return self.scopes[0].value(b"read", *parted(name), name) if value is None else value

    def do_set(self, words):
        counted(b"set", words, 1, 2)
        return self.set(*words) if len(words) > 1 else self.get(words[0])

    def do_incr(self, words):
        counted(b"incr", words, 1, 2)
        name, by = (*words, b"1")[:2]
        value = self.value(name)
        return self.set(name, written((0 if value is None else number(value)) + number(by)))

    def do_append(self, words):
        counted(b"append", words, 1)
        name, *texts = words
        return self.set(name, b"".join([self.value(name, b"set") or b"", *texts]))

    def do_lappend(self, words):
        counted(b"lappend", words, 1)
        name, *values = words
        return self.set(name, listed([*elements(self.value(name, b"set") or b""), *values]))

    def do_unset(self, words):
        """`-nocomplain` is a flag if no variable has this name."""
        complains = words[:1] != [b"-nocomplain"] or self.exists(b"-nocomplain")
        for name in words if complains else words[1:]:
            if complains and self.value_or_array(name) is None:
                raise unable(b"unset", name, b"no such variable")
            self.drop(name)
        return b""

    def value_or_array(self, name):
        """What a name means that is removed, or None."""
        scope, home, index = self.place(name)
        return scope.variables.get(home) if index is None else scope.value(b"set", home, index, name)

    def exists(self, name):
        scope, home, index = self.place(name)
        held = scope.variables.get(home)
        return held is not None if index is None else isinstance(held, dict) and index in held

    def drop(self, name):
        """Removes a variable if it is there."""
        if self.exists(name):
            scope, home, index = self.place(name)
            held = scope.variables if index is None else scope.variables[home]
            del held[home if index is None else index]

    # links

    def do_global(self, words):
        for name in words if len(self.scopes) > 1 else []:
            # nothing looks up an element's name among the links
            if parted(name)[1] is None:
                self.link(self.scopes[0], name, name)
        return b""

    def do_upvar(self, words):
        counted(b"upvar", words, 2)
        level, *names = words if len(words) % 2 else [b"1", *words]
        calls = len(self.scopes) - 1
        out = calls if level == b"#0" else int(level) if is_number(level) else 0
        if not 1 <= out <= calls:
            raise failed(b"bad level", level)
        for other, my in pairs(names):
            for name in (my, other):
                if parted(name)[1] is not None:
                    raise failed(b"bad variable name", name)
            self.link(self.scopes[-1 - out], other, my)
        return b""

    def link(self, there, other, my):
        here = self.scopes[-1]
        if my in here.variables:
            raise Thrown(ERROR, b'variable "%s" already exists' % my[:200])
        here.links[my] = there.links.get(other, (there, other))

    # arrays

    def do_array(self, words):
        option, words = option_of(b"array", words, OPTIONS)
        counted(b"array", words, *OPTIONS[option])
        return getattr(self, "array_" + option.decode())(*words)

    def array(self, name):
        """The array of this name, or None."""
        scope, home, index = self.place(name)
        held = scope.variables.get(home)
        return held if index is None and isinstance(held, dict) else None

    def indexes(self, name, glob):
        """The indexes that the glob fits, in byte order."""
        return sorted(index for index in self.array(name) or {} if fits_glob(glob, index))

    def array_exists(self, name):
        return b"%d" % (self.array(name) is not None)

    def array_size(self, name):
        return b"%d" % len(self.array(name) or {})

    def array_names(self, name, glob=b"*"):
        return listed(self.indexes(name, glob))

    def array_get(self, name, glob=b"*"):
        held = self.array(name)
        return listed([it for index in self.indexes(name, glob) for it in (index, held[index])])

    def array_set(self, name, values):
        values = pairs(elements(values))
        scope, home, _ = self.place(name)
        # with a parenthesis in it, the name of an element would begin with another array's name
        if b"(" in name or not values and isinstance(scope.variables.get(home), bytes):
            raise unable(b"set", name, b"variable isn't array")
        for index, value in values:
            self.set(b"%s(%s)" % (name, index), value)
        scope.variables.setdefault(home, {})
        return b""

    def array_unset(self, name, glob=None):
        if glob is not None:
            for index in self.indexes(name, glob):
                del self.array(name)[index]
        elif self.array(name) is not None:
            self.drop(name)
        return b""
