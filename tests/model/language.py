"""How scripts are evaluated, and the commands that evaluate scripts or return something about the language itself."""

from functools import partialmethod

from codes import BREAK, CONTINUE, ERROR, RETURN, Stopped, Thrown, astray, failed
from expressions import evaluated
from formats import Formats
from lists import Lists
from patterns import MODES, fits, fits_glob
from searches import Searches
from texts import Texts
from values import bounded, concatenated, counted, elements, flags, is_number, last_of, listed, number, option_of, pairs, truth
from variables import Scope, Variables
from words import Malformed, Script, Variable, read_script, read_text

# The codes that `return` takes.
CODES = {b"ok": 0, b"error": ERROR, b"return": RETURN, b"break": BREAK, b"continue": CONTINUE}
CODES |= {b"%d" % code: code for code in CODES.values()}

# How many scripts may be evaluated within one another.
NESTED = 200

# The commands that no procedure may replace.
FIXED = (
    b"append break catch close continue error eval exit exp_continue exp_send expect expr for foreach global if incr info lappend lindex list"
    b" llength log_user lrange match_max proc puts remove_nulls return send send_user set spawn string unset wait while"
).split()

# The least and the most words of each option of `info`.
INFO_OPTIONS = {b"exists": (1, 1), b"procs": (0, 1), b"commands": (0, 1)}

VERSIONS = {b"Expect": b"5.45.4", b"Tcl": b"8.6"}


def conflict(package, wanted):
    have, need = VERSIONS[package], wanted[:200]
    return failed(b'version conflict for package "%s": have %s, need %s' % (package, have, need))


def serves(version, wanted):
    """Whether a version serves the one that is wanted, by the first two numbers of both."""
    (first, second), (major, minor) = (map(number, (*text.split(b"."), b"0")[:2]) for text in (version, wanted))
    return first == major and second >= minor


class Interpreter(Variables, Lists, Texts, Formats, Searches):
    """Evaluates scripts. The method `do_NAME` is the command NAME."""

    def __init__(self, bound):
        self.bound, self.steps = bound, 0
        self.scopes, self.depth = [Scope()], 0
        self.procedures = {}
        self.transcript = b""

    def run(self, source):
        """How a script ends, and the text of its error."""
        try:
            self.evaluate(source)
        except Stopped as stop:
            return stop.args[0], b""
        except Thrown as thrown:
            code = thrown.carried if thrown.code == RETURN else thrown.code
            if code in (0, RETURN):
                return "exit:0", b""
            return "error", astray(Thrown(code, thrown.value)).value
        return "exit:0", b""

    def evaluate(self, source):
        """The value of a script's last command."""
        if self.depth == NESTED:
            raise failed(b"too many nested evaluations")
        self.depth += 1
        try:
            value = b""
            for words in self.commands(source):
                value = self.command(self.fill(words))
            return value
        finally:
            self.depth -= 1

    def commands(self, source):
        """The words of one command after another; a malformed one is an error in its turn."""
        commands, fault = read_script(source)
        yield from commands
        if fault is not None:
            raise failed(fault)

    def fill(self, words):
        filled = []
        for word in words:
            value = self.joined(word.parts)
            filled += elements(value) if word.expand else [value]
        return filled

    def joined(self, parts):
        return bounded(b"".join(map(self.part, parts)))

    def part(self, part):
        if isinstance(part, Script):
            return self.evaluate(part.source)
        if isinstance(part, Variable):
            return self.get(part.name if part.index is None else b"%s(%s)" % (part.name, self.joined(part.index)))
        return part.bytes

    def step(self):
        if self.steps == self.bound:
            raise Stopped("steplimit")
        self.steps += 1

    def command(self, words):
        self.step()
        if not words:
            return b""
        name, *words = words
        known = getattr(self, "do_" + name.decode("latin-1"), None)
        if name in self.procedures:
            return self.call(name, words)
        if known:
            return known(words)
        raise failed(b"invalid command name", name)

    # codes

    def do_catch(self, words):
        counted(b"catch", words, 1, 2)
        try:
            code, value = 0, self.evaluate(words[0])
        except Thrown as thrown:
            code, value = thrown.code, thrown.value
        if len(words) > 1:
            self.set(words[1], value)
        return b"%d" % code

    def do_error(self, words):
        counted(b"error", words, 1, 3)
        raise Thrown(ERROR, words[0])

    def do_return(self, words):
        code, rest = b"ok", words
        while len(rest) > 1:
            option, word, *rest = rest
            if option == b"-code":
                code = word
            elif option not in (b"-errorinfo", b"-errorcode"):
                raise failed(b"bad flag", option) if option.startswith(b"-") else failed(b"wrong # args for", b"return")
        if code not in CODES:
            raise failed(b"bad option", code)
        raise Thrown(RETURN, *(rest or [b""]), CODES[code])

    def do_break(self, words):
        counted(b"break", words, 0, 0)
        raise Thrown(BREAK)

    def do_continue(self, words):
        counted(b"continue", words, 0, 0)
        raise Thrown(CONTINUE)

    def do_exit(self, words, name=b"exit"):
        counted(name, words, 0, 1)
        (status,) = words or [b"0"]
        if not is_number(status) or not 0 <= int(status) <= 255:
            raise failed(b"bad exit status", status)
        raise Stopped("exit:%d" % int(status))

    do_exp_exit = partialmethod(do_exit, name=b"exp_exit")

    # choices

    def do_if(self, words):
        cases, otherwise = self.branches(words)
        for condition, body in cases:
            if self.is_true(condition):
                return self.evaluate(body)
        return self.evaluate(otherwise)

    def branches(self, words):
        """The conditions of `if` with their bodies, and the body after them."""
        words, cases, is_next = list(words), [], True
        while is_next:
            condition = self.next_word(words)
            if words[:1] == [b"then"]:
                words.pop(0)
            cases.append((condition, self.next_word(words)))
            is_next = words[:1] == [b"elseif"]
            if is_next:
                words.pop(0)
        if words[:1] == [b"else"]:
            words.pop(0)
            counted(b"if", words, 1)
        counted(b"if", words, 0, 1)
        return cases, (words or [b""])[0]

    def next_word(self, words):
        counted(b"if", words, 1)
        return words.pop(0)

    def do_switch(self, words):
        given, words = flags(b"switch", words, {**dict.fromkeys(MODES, False), b"--": False}, tail=2)
        counted(b"switch", words, 2)
        text, *cases = words
        cases = elements(cases[0]) if len(cases) == 1 else cases
        if not cases or len(cases) % 2 or cases[-1] == b"-":
            raise failed(b"wrong # args for", b"switch")
        mode = last_of(given, MODES) or b"-exact"
        for at in range(0, len(cases), 2):
            if cases[at] == b"default" and at == len(cases) - 2 or fits(mode, cases[at], text):
                return self.evaluate(next(body for body in cases[at + 1 :: 2] if body != b"-"))
        return b""

    # loops

    def do_while(self, words):
        counted(b"while", words, 2, 2)
        condition, body = words
        while self.is_true(condition):
            self.step()
            if not self.turn(body):
                break
        return b""

    def do_for(self, words):
        counted(b"for", words, 4, 4)
        start, condition, after, body = words
        self.evaluate(start)
        while self.is_true(condition):
            self.step()
            if not self.turn(body):
                break
            self.evaluate(after)
        return b""

    def do_foreach(self, words):
        counted(b"foreach", words, 3)
        *lists, body = words
        if len(lists) % 2:
            raise failed(b"wrong # args for", b"foreach")
        read = [self.named_values(*pair) for pair in pairs(lists)]
        for turn in range(max(-(-len(values) // len(names)) for names, values in read)):
            self.step()
            for names, values in read:
                for at, name in enumerate(names, turn * len(names)):
                    self.set(name, values[at] if at < len(values) else b"")
            if not self.turn(body):
                break
        return b""

    def named_values(self, names, values):
        """The names and the values of a pair of lists of `foreach`."""
        names = elements(names)
        if not names:
            raise failed(b"bad list")
        return names, elements(values)

    def turn(self, body):
        """Evaluates a loop's body; whether the loop goes on."""
        try:
            self.evaluate(body)
        except Thrown as thrown:
            if thrown.code not in (BREAK, CONTINUE):
                raise
            return thrown.code == CONTINUE
        return True

    # procedures

    def do_proc(self, words):
        counted(b"proc", words, 3, 3)
        name, formals, body = words
        if name in FIXED:
            raise failed(b"can't redefine", name)
        formals = [elements(formal) for formal in elements(formals)]
        if not all(1 <= len(formal) <= 2 for formal in formals):
            raise failed(b"bad list")
        self.procedures[name] = formals, body
        return b""

    def call(self, name, words):
        formals, body = self.procedures[name]
        takes_rest = formals[-1:] and formals[-1][0] == b"args"
        named = formals[:-1] if takes_rest else formals
        least = max((at for at, formal in enumerate(named, 1) if len(formal) == 1), default=0)
        counted(name, words, least, len(words) if takes_rest else len(named))
        self.scopes.append(Scope())
        try:
            for at, formal in enumerate(named):
                self.set(formal[0], words[at] if at < len(words) else formal[1])
            if takes_rest:
                self.set(b"args", listed(words[len(named) :]))
            return self.evaluate(body)
        except Thrown as thrown:
            if thrown.code == RETURN:
                return thrown.returned()
            raise astray(thrown) if thrown.code in (BREAK, CONTINUE) else thrown
        finally:
            self.scopes.pop()

    # evaluation

    def do_expr(self, words):
        counted(b"expr", words, 1)
        return evaluated(bounded(b" ".join(words)), self.part)

    def is_true(self, condition):
        return truth(evaluated(condition, self.part))

    def do_eval(self, words):
        counted(b"eval", words, 1)
        return self.evaluate(concatenated(words))

    def do_subst(self, words):
        given, words = flags(b"subst", words, {b"-nocommands": False}, tail=1)
        counted(b"subst", words, 1, 1)
        if not given:
            raise failed(b"wrong # args for", b"subst")
        try:
            parts = read_text(words[0])
        except Malformed as fault:
            raise failed(fault.args[0]) from None
        return self.joined(parts)

    # the language

    def do_info(self, words):
        option, words = option_of(b"info", words, INFO_OPTIONS)
        counted(b"info", words, *INFO_OPTIONS[option])
        if option == b"exists":
            return b"%d" % self.exists(words[0])
        names = set(self.procedures) if option == b"procs" else {*self.procedures, *self.names()}
        glob = (*words, b"*")[0]
        return listed(sorted(name for name in names if fits_glob(glob, name)))

    def names(self):
        """The names of all commands."""
        return [name[3:].encode() for name in dir(self) if name.startswith("do_")]

    def do_package(self, words):
        _, words = option_of(b"package", words, (b"require",))
        _, words = flags(b"package", words, {}, tail=1)
        counted(b"package", words, 1, 2)
        name, *wanted = words
        if name not in VERSIONS:
            raise failed(b"can't find package " + name[:200])
        if wanted and not serves(VERSIONS[name], wanted[0]):
            raise conflict(name, wanted[0])
        return VERSIONS[name]

    def do_exp_version(self, words, name=b"exp_version"):
        given, words = flags(name, words, {b"-exit": False})
        counted(name, words, 1 if given else 0, 1)
        if not words:
            return VERSIONS[b"Expect"]
        if serves(VERSIONS[b"Expect"], words[0]):
            return b""
        raise Stopped("exit:1") if given else conflict(b"Expect", words[0])

    do_expect_version = partialmethod(do_exp_version, name=b"expect_version")

    def do_debug(self, _words):
        """Nothing happens."""
        return b""

    do_exp_debug = do_exp_internal = do_strace = do_exp_strace = do_trap = do_exp_trap = do_debug
