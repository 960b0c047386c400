"""Programs that commands run to their end, and channels: files that a script reads and writes.

`Tools` is a part of `Dialogue`, which waits for answers and items.
"""

from functools import partialmethod
from math import inf as FOREVER

from codes import RETURN, Thrown, failed
from language import Interpreter
from values import LONGEST_VALUE, counted, elements, flags, option_of

CHILDREN = 16

READER = b'test -e "$1" || exit 2; test -d "$1" && exit 21; test -r "$1" || exit 13; exec cat <"$1"'
WRITER = b'exec 2>/dev/null; if test "$2" = a; then exec 3>>"$1"; else exec 3>"$1"; fi; echo; exec cat >&3'
ABNORMAL = b"child process exited abnormally"

TESTS = {b"exists": b"-e", b"readable": b"-r", b"writable": b"-w", b"executable": b"-x", b"isfile": b"-f", b"isdirectory": b"-d"}
FIELDS = b"atime ctime dev gid ino mode mtime nlink size uid".split()
TYPES = {1: b"fifo", 2: b"characterSpecial", 4: b"directory", 6: b"blockSpecial", 8: b"file", 12: b"socket"}


class Run:
    """The child of a program, which no spawn id names."""

    def __init__(self, number):
        self.number = number


class Channel:
    """What is left to read, or None in a channel that is written; and the error at its `close`, or none."""

    def __init__(self, run, rest=None, fault=b""):
        self.run, self.rest, self.fault, self.met = run, rest, fault, False


def front_of(text, quoted, cause):
    return failed(b'%s "%s": %s' % (text, quoted[:200], cause))


def is_well(answer):
    return answer.kind == "exit" and answer.what == b"0"


def ended_badly(answer):
    return b"child killed: unknown signal" if answer.kind == "killed" else ABNORMAL


def unread(answer):
    """The cause for which a file was not read."""
    return {b"2": b"notfound", b"13": b"denied"}.get(answer.what if answer.kind == "exit" else None, b"other")


def without_newline(text):
    return text[:-1] if text.endswith(b"\n") else text


def program(words):
    """The words of one program."""
    for word in words:
        if word in (b"|", b"&") or word.startswith((b"|", b"<", b">", b"2>")):
            raise failed(b"bad option", word)
    return words


class Tools(Interpreter):
    def started(self, text, quoted, words):
        """A child for a program, whose start has been answered."""
        run = Run(len(self.sent) + 1)
        if run.number > CHILDREN:
            raise failed(b"too many spawned children")
        self.sent[run.number] = 0
        cause = self.refusal(run, "spawn")
        if cause is not None:
            raise front_of(text, quoted, cause)
        return run

    def ran(self, words, text=b"couldn't execute", quoted=None):
        """Runs a program to its end: the child, how it ended, and its output."""
        run = self.started(text, words[0] if quoted is None else quoted, words)
        self.request(run, "end")
        return run, *self.heard(run)

    def heard(self, run):
        """How a program ended, and its output, which is taken to its end."""
        output = b""
        while (came := self.next_item(run)).kind == "out":
            output += came.what
            if len(output) > LONGEST_VALUE:
                raise failed(b"value too long")
        self.request(run, "close")
        answer = self.request(run, "wait")
        if came.kind == "fail":
            raise failed(b"read failed: " + came.what)
        return answer, output

    def file_named(self, name):
        """A name of a file, with the home folder in place of its tilde."""
        if name != b"~" and not name.startswith(b"~/"):
            return name
        home = self.seen(b"env(HOME)")
        return (self.get(b"env(HOME)") if home is None else home) + name[1:]

    # programs

    def do_exec(self, words):
        given, words = flags(b"exec", words, {b"-keepnewline": False, b"-ignorestderr": False, b"--": False})
        counted(b"exec", words, 1)
        _, answer, output = self.ran(program(words))
        if is_well(answer):
            return output if b"-keepnewline" in given else without_newline(output)
        output = without_newline(output)
        raise failed((output + b"\n" if output else b"") + ended_badly(answer))

    def do_system(self, words, name=b"system"):
        counted(name, words, 1)
        _, answer, output = self.ran([b"/bin/sh", b"-c", b" ".join(words)])
        self.transcript += output
        if not is_well(answer):
            raise failed(ABNORMAL)
        return b""

    do_exp_system = partialmethod(do_system, name=b"exp_system")

    def do_pwd(self, words):
        counted(b"pwd", words, 0, 0)
        return self.line([b"sh", b"-c", b"pwd -P"])

    def do_pid(self, words, name=b"pid"):
        counted(name, words, 0, 0)
        return self.line([b"sh", b"-c", b"echo $PPID"])

    do_getpid = partialmethod(do_pid, name=b"getpid")
    do_exp_getpid = partialmethod(do_pid, name=b"exp_getpid")

    def line(self, words):
        _, answer, output = self.ran(words)
        if not is_well(answer):
            raise front_of(b"couldn't execute", words[0], b"other")
        return without_newline(output)

    # times

    def do_clock(self, words):
        option, words = option_of(b"clock", words, (b"seconds", b"milliseconds"))
        counted(b"clock", words, 0, 0)
        return self.time_of_day(1000 if option == b"seconds" else 1)

    def time_of_day(self, unit):
        """The time of day in a unit of so many milliseconds. The first time date(1) tells it."""
        if self.day is None:
            told = self.line([b"date", b"+%s"])
            if not told.isdigit() or int(told) > 9_000_000_000_000:
                raise front_of(b"couldn't execute", b"date", b"other")
            self.day = 1000 * int(told) - self.clock
        return b"%d" % ((self.day + self.clock) // unit)

    def do_timestamp(self, words, name=b"timestamp"):
        given, words = flags(name, words, {b"-format": True, b"-seconds": True, b"-gmt": False})
        counted(name, words, 0, 0)
        seconds, form = given.get(b"-seconds"), given.get(b"-format")
        if seconds is not None and not seconds.isdigit():
            raise failed(b"expected number but got", seconds)
        if form is None:
            return self.time_of_day(1000) if seconds is None else seconds
        day = [] if seconds is None else [b"-d", b"@" + seconds]
        return self.line([b"date", *([b"-u"] if b"-gmt" in given else []), *day, b"+" + form])

    do_exp_timestamp = partialmethod(do_timestamp, name=b"exp_timestamp")

    def read_file(self, text, name):
        """The child of a file that is read, and its bytes."""
        words = [b"sh", b"-c", READER, b"sh", self.file_named(name)]
        run, answer, output = self.ran(words, text, name)
        if not is_well(answer):
            raise front_of(text, name, unread(answer))
        return run, output

    def do_source(self, words):
        counted(b"source", words, 1, 1)
        _, output = self.read_file(b"couldn't read file", words[0])
        try:
            return self.evaluate(output)
        except Thrown as thrown:
            if thrown.code != RETURN:
                raise
            return thrown.value

    # files

    def do_file(self, words):
        makers = {b"stat": (self.file_stat, 2, 2), b"delete": (self.file_delete, 1, FOREVER), b"copy": (self.file_copy, 2, 4)}
        for name, flag in TESTS.items():
            makers[name] = lambda words, flag=flag: self.file_test(flag, *words), 1, 1
        for name in (b"size", b"mtime"):
            makers[name] = lambda words, at=FIELDS.index(name): self.stated(*words)[at], 1, 1
        option, words = option_of(b"file", words, makers)
        made, least, most = makers[option]
        counted(b"file", words, least, most)
        return made(words)

    def file_test(self, flag, name):
        _, answer, _ = self.ran([b"test", flag, self.file_named(name)])
        if answer.kind != "exit" or answer.what not in (b"0", b"1"):
            raise front_of(b"couldn't execute", b"test", b"other")
        return b"1" if answer.what == b"0" else b"0"

    def stated(self, name):
        """The fields of a file."""
        words = [b"stat", b"-L", b"-c", b"%X %Z %d %g %i %f %Y %h %s %u", b"--", self.file_named(name)]
        _, answer, output = self.ran(words, b"could not read", name)
        if not is_well(answer):
            raise front_of(b"could not read", name, b"notfound")
        fields = elements(output)
        if len(fields) != len(FIELDS):
            raise front_of(b"could not read", name, b"other")
        return fields

    def file_stat(self, words):
        name, array = words
        fields = dict(zip(FIELDS, self.stated(name)))
        try:
            mode = int(fields[b"mode"], 16)
        except ValueError:
            raise front_of(b"could not read", name, b"other") from None
        fields[b"mode"], fields[b"type"] = b"%d" % mode, TYPES.get(mode // 4096, b"unknown")
        for index in sorted(fields):
            self.set(b"%s(%s)" % (array, index), fields[index])
        return b""

    def file_names(self, words):
        """The names behind `-force` and `--`."""
        words = list(words)
        while words and words[0].startswith(b"-"):
            flag = words.pop(0)
            if flag == b"--":
                break
            if flag != b"-force":
                raise failed(b"bad flag", flag)
        return words

    def file_delete(self, words):
        return self.changed(b"rm", b"error deleting", self.file_names(words), 1, FOREVER)

    def file_copy(self, words):
        return self.changed(b"cp", b"error copying", self.file_names(words), 2, 2)

    def changed(self, tool, text, names, least, most):
        counted(b"file", names, least, most)
        words = [tool, b"-f", b"--", *map(self.file_named, names)]
        _, answer, _ = self.ran(words, text, names[0])
        if not is_well(answer):
            raise front_of(text, names[0], b"other")
        return b""

    # channels

    def do_open(self, words):
        counted(b"open", words, 1, 2)
        name, mode = words if len(words) == 2 else (*words, b"r")
        channel = self.opened_program(name[1:], mode) if name.startswith(b"|") else self.opened_file(name, mode)
        if channel.rest is not None:
            channel.rest = channel.rest.replace(b"\r\n", b"\n").replace(b"\r", b"\n")
        made = b"file%d" % channel.run.number
        self.channels[made] = channel
        return made

    def opened_program(self, text, mode):
        if mode != b"r":
            raise failed(b"bad option", mode)
        words = program(elements(text))
        run, answer, output = self.ran(words)
        return Channel(run, output, b"" if is_well(answer) else ended_badly(answer))

    def opened_file(self, name, mode):
        path = self.file_named(name)
        if mode == b"r":
            return Channel(*self.read_file(b"couldn't open", name))
        if mode not in (b"w", b"a"):
            raise failed(b"bad option", mode)
        run = self.started(b"couldn't open", name, [b"sh", b"-c", WRITER, b"sh", path, mode])
        came = self.next_item(run)
        if came.kind == "out":
            return Channel(run)
        self.request(run, "close")
        self.request(run, "wait")
        raise front_of(b"couldn't open", name, b"other") if came.kind == "end" else failed(b"read failed: " + came.what)

    def channel(self, name, is_read):
        """An open channel, which is read or written."""
        if name not in self.channels or (self.channels[name].rest is not None) != is_read:
            raise failed(b"bad option", name)
        return self.channels[name]

    def do_gets(self, words):
        counted(b"gets", words, 1, 2)
        channel = self.channel(words[0], True)
        left = channel.rest
        line, newline, channel.rest = left.partition(b"\n")
        channel.met = not newline
        if len(words) == 1:
            return line
        self.set(words[1], line)
        return b"%d" % len(line) if left else b"-1"

    def do_read(self, words):
        counted(b"read", words, 1, 2)
        if len(words) == 2 and words[0] != b"-nonewline":
            return self.read_some(*words)
        channel = self.channel(words[-1], True)
        text, channel.rest, channel.met = channel.rest, b"", True
        return without_newline(text) if len(words) == 2 else text

    def read_some(self, name, count):
        if not count.isdigit():
            raise failed(b"expected number but got", count)
        channel, count = self.channel(name, True), int(count)
        channel.met = len(channel.rest) < count
        text, channel.rest = channel.rest[:count], channel.rest[count:]
        return text

    def do_eof(self, words):
        counted(b"eof", words, 1, 1)
        return b"%d" % self.channel(words[0], True).met

    def do_flush(self, words):
        counted(b"flush", words, 1, 1)
        if words[0] not in (b"stdout", b"stderr"):
            self.channel(words[0], False)
        return b""

    def do_puts(self, words):
        counted(b"puts", words, 1, 3)
        is_line = len(words) == 1 or words[0] != b"-nonewline"
        *channel, text = words if is_line else words[1:]
        counted(b"puts", channel, 0, 1)
        self.put(channel[0] if channel else b"stdout", text + b"\n" if is_line else text)
        return b""

    def put(self, name, text):
        if name == b"stdout":
            self.transcript += text
        elif name == b"stderr":
            self.complain(text)
        elif name.startswith(b"-"):
            raise failed(b"bad flag", name)
        else:
            self.written(self.channel(name, False).run, text)

    def complain(self, text):
        """Writes to standard error, whose program starts with the first text."""
        if text and self.errors is None:
            self.errors = self.started(b"couldn't open", b"stderr", [b"sh", b"-c", b"exec cat >&2"])
        self.written(self.errors, text)

    def written(self, run, text):
        if not text:
            return
        cause = self.refusal(run, "write")
        if cause is not None:
            raise failed(b"write failed: " + cause)
        self.sent[run.number] += len(text)

    def shut(self, name):
        """Closes a channel."""
        if name not in self.channels:
            raise failed(b"bad option", name)
        channel = self.channels.pop(name)
        if channel.rest is None:
            self.request(channel.run, "end")
            answer, _ = self.heard(channel.run)
            if not is_well(answer):
                raise failed(b"close failed: other")
        elif channel.fault:
            raise failed(channel.fault)
        return b""
