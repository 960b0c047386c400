"""Draws scripts, and what happens to their children while they run."""

from dialogue import FOREVER, Dialogue
from draw_values import Values
from events import ANSWERS, Event

CAUSES = [b"notfound", b"denied", b"broken", b"memory", b"other"]
TIMES = [0, 1, 1, 2, 3, 10, -1]
SIZES = [1, 2, 5, 5, 8, 2000]
DEEPEST = 3

MODES = [b"raw", b"-echo", b"-echo", b"-icanon", b"-icrnl", b"-opost", b"-onlcr", b"cooked", b"sane", b"rows 24"]
EDITED = [b"\r", b"\r", b"\r", b"\n", b"\x7f", b"\x7f", b"\x15", b"\x04", b"\x04"]
TYPED = [b"a", b"b", b"ab", b"c", b"A", b"\0", b"-", b"[", *EDITED]
PRINTED = [b"a", b"b", b"a", b"b", b"c", b"ab", b"A", b"B", b"\n", b"\r\n", b"\0", b".", b"[]", b"*"]

EXACT = [b"a", b"b", b"c", b"ab", b"ba", b"A", b"\r\n", b"\n", b"\b", b"."]
CLASSES = [b"[ab]", b"[c-a]", b"[-b]", b"[]", b"[", b"]"]
GLOB = [b"a", b"b", b"c", b"A", b"*", b"*", b"*", b"?", b"?", b"\\a", b"\\*", b"\r\n", *CLASSES]
GROUPS = [b"(a)", b"(b+)", b"(a|b)", b"(c)?", rb"(\.)"]
REGULAR = [b"a", b"b", b"c", b"A", b".", b".*", b"[ab]", b"[^a]", b"b{2}", rb"\r\n", rb"\w", *GROUPS]
MALFORMED = [b"a**", b"(a", b"a{2", b"[a"]
MARKS = [(b"-nocase", 0.3), (b"-indices", 0.2), (b"-notransfer", 0.1)]

SHOWN = [b"buffer", b"buffer", b"0,string", b"0,string", b"1,string", b"0,start", b"1,end", b"spawn_id"]
ASKED = [b"match_max", b"match_max -d", b"remove_nulls", b"log_user -info", b"wait", b"set spawn_id", b"set timeout"]
FLAGS = [b"-tty", b"-tty", b"-notty", b"-nottycopy", b"-nottyinit", b"-ignore SIGHUP", b"-noecho"]
TOOLS = [
    b"exec p",
    b"exec -keepnewline -- p a",
    b"system p {a b}",
    b"source a",
    b"pwd",
    b"getpid",
    b"clock seconds",
    b"timestamp",
    b"timestamp -gmt -format a -seconds 7",
    b"file exists a",
    b"file size a",
    b"file stat a s",
    b"file delete -force a b",
    b"puts stderr a",
    b"puts -nonewline stderr {}",
    b"send_error -- -a",
    b"exp_send_error {}",
]
CHANNELS = [
    b"set c [open a]",
    b"set c [open a r]",
    b"set c [open |p]",
    b"set c [open a w]",
    b"set c [open a a]",
    b"gets $c",
    b"gets $c line",
    b"gets $c line",
    b"read $c",
    b"read -nonewline $c",
    b"read $c 2",
    b"eof $c",
    b"puts $c a",
    b"puts -nonewline $c b",
    b"flush $c",
    b"close $c",
]
ENDS = [b"break", b"continue", b"{return r}", b"{return -code break}", b"{return -code return r}", b"{return -code error r}", b"{set n got}"]
ENDS += [b"{error no}", b"{exit 3}", b"{exp_exit 4}", b"{}"]

# What a procedure begins with.
FRONTS = [
    b"",
    b"global spawn_id a; ",
    b"global expect_out; ",
    b"global t u n l A expect_out; ",
    b"global t u n l A expect_out; ",
    b"set timeout 1; ",
    b"spawn p; ",
    b"upvar spawn_id spawn_id a b; ",
    b"upvar #0 expect_out expect_out; ",
    b"upvar a spawn_id; ",
    b"catch {upvar b a; upvar a(1) b}; upvar b x; ",
]

# Commands that are refused as they stand.
REFUSED = [
    b"send -x a",
    b"send",
    b"upvar a",
    b"upvar #1 a b",
    b"upvar 9 a b",
    b"exp_send a b",
    b"send -i",
    b"close now",
    b"wait -nohang",
    b"send -s a",
    b"send -h -- a",
    b"send_error a b",
    b"exp_pid -x",
    b"match_max 0",
    b"match_max -5",
    b"match_max many",
    b"remove_nulls 2",
    b"sleep 1.",
    b"after -1",
    b"remove_nulls -d 0 1",
    b"log_user 2",
    b"log_user",
    b"send_user -x",
    b"spawn",
    b"spawn -x p",
    b"spawn -tty",
    b"spawn -ignore",
    b"spawn -nottycopy -ignore SIGHUP",
    b"exec",
    b"exec a >b",
    b"exec -x p",
    b"clock",
    b"clock a",
    b"clock seconds a",
    b"timestamp -x",
    b"timestamp -format",
    b"timestamp -seconds x",
    b"timestamp -seconds 7",
    b"open a r+",
    b"open |p w",
    b"file a",
    b"file exists",
    b"file exists ~/a",
    b"file copy a",
    b"file delete -x",
    b"gets stdin",
    b"read file9 x",
    b"eof file9",
    b"flush stdout",
    b"puts -x a",
    b"puts file9 a",
    b"source a b",
    b"exp_continue now",
    b"exp_continue",
    b"expect -x",
    b"expect -ex",
    b"expect a null",
    b"expect null",
    b"expect -nocase",
    b"expect -timeout soon a",
    b"expect --",
    b"expect -i {} a",
    b"expect -i {\"a} a",
    b"expect_before -x",
    b"expect_after -i exp9 a",
    b"expect_after null",
    b"close -i exp9",
    b"wait -i p",
    b"interact",
]


def quoted(text):
    """A text as a word in quotes."""
    marked = b""
    for byte in text:
        front = b"\\" if byte in b'\\"$[{}' else b""
        marked += b"\\%03o" % byte if byte < 0x20 else front + bytes([byte])
    return b'"' + marked + b'"'


class Script:
    """Draws one script.

    With `any_bytes` its children print bytes past ASCII. `share` is the part of its commands that are commands on values.
    """

    def __init__(self, rng):
        self.rng = rng
        self.any_bytes = rng.random() < 0.2
        self.has_two = rng.random() < 0.5
        self.has_again = rng.random() < 0.2
        self.share = rng.choice([0, 0, 0.3, 0.6, 0.8])
        self.values = Values(rng)

    def chance(self, part):
        return self.rng.random() < part

    def is_long(self):
        """Whether a text is very long. Patterns of commands on values would take too much time over it."""
        return not self.share and self.chance(0.03)

    def some(self, choices, least, most):
        return [self.rng.choice(choices) for _ in range(self.rng.randrange(least, most + 1))]

    def written(self, text):
        """A text as a word, in quotes, braces or as it is."""
        if text.isalnum() and self.chance(0.5):
            return text
        if any(byte in b"\\{}" for byte in text) or self.chance(0.5):
            return quoted(text)
        return b"{" + text + b"}"

    def source(self):
        lines = []
        if self.chance(0.05):
            lines.append(b"# spawn {")
        if self.chance(0.3):
            lines.append(self.stty_init())
        if self.chance(0.6):
            lines.append(b"set timeout %d" % self.rng.choice(TIMES))
        if self.chance(0.1):
            lines.append(b"log_user 0")
        if self.chance(0.2):
            lines.append(b"match_max -d %d" % self.rng.choice(SIZES))
        if self.chance(0.2):
            lines.append(b"remove_nulls -d 0")
        if self.has_again:
            lines.append(b"proc again {} {exp_continue}")
        if self.chance(0.97):
            lines.append(self.rng.choice([b"spawn p", b"spawn p", b"spawn p", b"spawn -tty p"]))
        if self.chance(0.01):
            lines.append(b"foreach x {2 3 4 5 6 7 8 9 10 11 12 13 14 15 16} {spawn -noecho p}")
        if self.has_two:
            lines += [b"set a $spawn_id", self.rng.choice([b"spawn q", b"spawn -noecho q r", b"spawn -- q", b"spawn -tty q"])]
        if self.share:
            lines += self.values.front()
        return b"\n".join([*lines, *self.commands(5, 12 + int(80 * self.share), 0)])

    def commands(self, least, most, depth):
        return [self.wrapped(self.command(depth)) for _ in range(self.rng.randrange(least, most + 1))]

    def body(self, depth):
        return b"{" + b"; ".join(self.commands(1, 2, depth + 1)) + b"}"

    def wrapped(self, command):
        """A command as it is, one whose value is shown, or one whose errors are caught."""
        drawn = self.rng.random() * (1 + 2 * self.share)
        if drawn < 0.05:
            return b"puts <[" + command + b"]>"
        return command if drawn < 0.17 else b'puts "[catch {' + command + b'} m] $m"'

    def command(self, depth):
        if self.chance(self.share):
            return self.values.drawn(b"command", depth)
        makers, weights = zip(*self.MAKERS)
        return self.rng.choices(makers, weights)[0](self, depth)

    def either(self, name):
        """The name of a command, or the same one with `exp_` in front."""
        return b"exp_" + name if self.chance(0.3) else name

    def made(self, kind):
        """A word that commands on values make, or none."""
        return self.values.drawn(kind, 1) if self.chance(self.share / 3) else b""

    def text(self, pieces, least, most):
        """A word made of pieces, or by commands on values."""
        return self.made(b"text") or self.written(b"".join(self.some(pieces, least, most)))

    def seconds(self):
        return self.made(b"number") or b"%d" % self.rng.choice(TIMES)

    def stty_init(self):
        words = self.some(MODES, 1, 3)
        if self.chance(0.05):
            words.append(self.rng.choice([b"bogus", b"cols", b"rows x"]))
        return b"set stty_init {" + b" ".join(words) + b"}"

    def id(self):
        """A flag that names a child, or none."""
        if self.chance(0.04):
            return b" -i " + self.rng.choice([b"exp9", b"p", b"$b"])
        if self.chance(0.6 if self.has_two else 0.9):
            return b""
        return b" -i " + self.rng.choice([b"$a", b"$a", b"exp1", b"exp2"] if self.has_two else [b"exp1"])

    def other_id(self):
        """Before a pattern, a flag that names children for it and those behind it, or none."""
        if self.chance(0.6):
            return b""
        names = [b"$a", b"$spawn_id", b"exp1", b"exp2", b"any"]
        if self.chance(0.7):
            return b"-i " + self.rng.choice(names) + b" "
        return b'-i "' + b" ".join(self.some(names, 0 if self.chance(0.1) else 1, 3)) + b'" '

    def send(self, _depth):
        text = b"x" * 5000 if self.is_long() else self.text(TYPED, 0, 5)
        pace = self.rng.choice([b" -s", b" -h"]) if len(text) < 40 and self.chance(0.15) else b""
        return self.either(b"send") + pace + self.id() + (b" -- " if self.chance(0.2) else b" ") + text

    def expect(self, depth):
        front = self.id()
        if self.chance(0.1):
            return b"expect" + front + b" " + self.text(EXACT, 1, 3)
        return self.expecting(b"expect", front, depth)

    def standing(self, depth):
        """Patterns for each later expect, or none of them any more."""
        name = self.rng.choice([b"expect_before", b"expect_after", b"expect_after"])
        return name if self.chance(0.1) else self.expecting(name, self.id(), depth)

    def expecting(self, name, front, depth):
        if self.chance(0.3):
            front += b" -timeout " + self.seconds()
        cases = [self.case(depth) for _ in range(self.rng.choice([0, 1, 2, 2, 3, 3, 4]))]
        if self.has_two and self.chance(0.4):
            cases = [self.other_id() + case for case in cases]
        if cases and self.chance(0.1):
            cases[-1] = self.front()
        if self.chance(0.3):
            return name + b" {\n" + b"\n".join([front, *self.some([b"", b'# a "remark'], 0, 1), *cases]) + b"\n}"
        return b" ".join([name + front, *cases])

    def case(self, depth):
        case = self.front() + b" " + self.action(depth)
        return b"{*}{" + case + b"}" if self.chance(0.05) else case

    def front(self):
        """A pattern with its flags, or a keyword."""
        if self.chance(0.35):
            return self.rng.choice([b"eof", b"eof", b"timeout", b"timeout", b"default", b"full_buffer"])
        marks = [mark for mark, part in MARKS if self.chance(part)]
        return b" ".join([*marks, self.rng.choice([self.exact, self.glob, self.regular])()])

    def exact(self):
        return self.rng.choice([b"-ex ", b"-exact "]) + self.text(EXACT, 0, 2)

    def glob(self):
        kind = self.rng.choice([b"-gl ", b"-glob ", b"-- ", b"", b""])
        return kind + (self.made(b"glob") or self.written(self.bound(b"".join(self.some(GLOB, 0, 3)))))

    def regular(self):
        pieces = self.some(REGULAR, 1, 3) + (self.some(MALFORMED, 1, 1) if self.chance(0.03) else [])
        return self.rng.choice([b"-re ", b"-regexp "]) + (self.made(b"regular") or self.written(self.bound(b"".join(pieces))))

    def bound(self, pattern):
        return (b"^" if self.chance(0.1) else b"") + pattern + (b"$" if self.chance(0.1) else b"")

    def action(self, depth):
        drawn = self.rng.random()
        if drawn < 0.15:
            return b"again" if self.has_again else b"exp_continue"
        if drawn < 0.3:
            return b"{exp_continue -continue_timer}" if drawn < 0.2 else b"{send a\\r; exp_continue -continue_timer}"
        if drawn < 0.55 and self.chance(self.share):
            return b"{" + self.wrapped(self.values.drawn(b"command", depth)) + b"}"
        if drawn < 0.55:
            return b"{puts " + self.value() + b"}"
        if drawn < 0.65:
            return self.rng.choice(ENDS)
        if drawn < 0.75 or depth >= DEEPEST:
            return b"{puts %d}" % self.rng.randrange(10)
        return self.body(depth)

    def value(self):
        return b"<$expect_out(" + self.rng.choice(SHOWN) + b")>"

    def look(self, _depth):
        return b"puts " + (b"<[" + self.rng.choice(ASKED) + b"]>" if self.chance(0.4) else self.value())

    def change(self, _depth):
        return self.rng.choice(
            [
                b"set timeout " + self.seconds(),
                self.either(b"match_max") + self.id() + b" %d" % self.rng.choice(SIZES),
                b"match_max -d %d" % self.rng.choice(SIZES),
                self.either(b"remove_nulls") + self.rng.choice([b" -d", self.id()]) + b" %d" % self.rng.randrange(2),
                self.either(b"log_user") + b" %d" % self.rng.randrange(2),
                self.rng.choice([b"sleep 1", b"exp_sleep .25", b"sleep -1", b"after 40"]),
                self.either(b"send_user") + b" " + self.text(EXACT, 0, 2),
                b"set a $spawn_id",
                b"exp_pid" + self.id(),
                self.rng.choice([b"set send_slow {2 .1}", b"set send_slow {3 0}", b"set send_human {.2 .1 1 .15 .3}", b"set send_slow {0 1}"]),
                b"set spawn_id $a",
                self.stty_init(),
            ]
        )

    def spawn(self, _depth):
        name = self.either(b"spawn")
        if self.chance(0.3):
            return b" ".join([name, *self.some(FLAGS, 1, 3), b"p"])
        return name + self.rng.choice([b" p", b" -noecho p", b" -- p {a b}", b" nosuch -x"])

    def close(self, _depth):
        return self.either(b"close") + self.id()

    def wait(self, _depth):
        return self.either(b"wait") + self.rng.choice([b"", b"", b" -nowait"]) + self.id()

    def tool(self, _depth):
        return self.rng.choice(TOOLS)

    def channel(self, _depth):
        return self.rng.choice(CHANNELS)

    def refused(self, _depth):
        return self.rng.choice(REFUSED)

    def loop(self, depth):
        lists = self.rng.choice([b"x {1 2}", b"x {1 2}", b"x {1} {y z} {a b c}"])
        return b"foreach " + lists + b" " + self.body(depth) if depth < DEEPEST else b"break"

    def choice(self, depth):
        if depth >= DEEPEST:
            return b"break"
        first = b"-" if self.chance(0.3) else self.body(depth)
        last = b" default " + self.body(depth) if self.chance(0.6) else b""
        return b"switch -- " + self.value() + b" {<> " + first + b" <a> " + self.body(depth) + last + b"}"

    def procedure(self, depth):
        if depth >= DEEPEST:
            return b"return r"
        front = self.rng.choice(FRONTS)
        back = self.rng.choice([b"", b"; return r"])
        return b"proc f {} {" + front + self.body(depth)[1:-1] + back + b"}; f"

    def shown(self, _depth):
        """Shows all bytes that are kept, and maybe cuts them before."""
        front = self.rng.choice([b"", b"match_max %d; " % self.rng.choice(SIZES)])
        return front + b"expect * {puts <$expect_out(buffer)>}"

    MAKERS = [
        (send, 9),
        (expect, 11),
        (standing, 1),
        (look, 3),
        (change, 3),
        (spawn, 1),
        (close, 1),
        (wait, 2),
        (tool, 1),
        (channel, 1),
        (refused, 1),
        (loop, 1),
        (choice, 1),
        (procedure, 2),
        (shown, 2),
    ]


class Drawing(Dialogue):
    """A dialogue whose events are drawn as it waits for them: mostly ones that it has use for."""

    def __init__(self, rng, script, limit, bound):
        super().__init__([], limit, bound)
        self.rng, self.script, self.drawn, self.left = rng, script, [], rng.randrange(5, 50)
        self.printed = [*PRINTED, b"\xff", b"\xc3\xa9"] if script.any_bytes else PRINTED

    def events(self, source):
        self.run(source)
        return self.drawn[: self.rng.randrange(len(self.drawn) + 1)] if self.rng.random() < 0.1 else self.drawn

    def more(self):
        if self.left == 0:
            super().more()
        self.left -= 1
        for event in self.next():
            self.drawn.append(event)
            self.happens(event)

    def next(self):
        """An event that the script has use for, and now and then others before it."""
        act, child, deadline = self.awaited
        if act == "item":
            # a script that sleeps awaits no child: what any of them does stays for later
            child = self.rng.choice(child or (1, 2))
        moment = self.horizon + self.rng.choice([-200, -1, 0, 0, 0, 0, 1, 1, 10, 200, 700])
        if deadline != FOREVER and self.rng.random() < 0.25:
            moment = deadline + self.rng.randrange(2)
        moment = max(0, moment)
        others = []
        while self.rng.random() < 0.3:
            others.append(self.other(moment))
        return [*others, Event(*self.item(child, moment) if act == "item" else self.answer(act, child, moment))]

    def other(self, moment):
        child = self.rng.choice([1, 1, 1, 2, 2, 3])
        kind = self.rng.choice(["out"] * 20 + ["ok"] * 12 + ["tick", "tick", "end", "bad"])
        return Event("tick", 0, moment) if kind == "tick" else Event(kind, child, moment, self.what(kind))

    def item(self, child, moment):
        kind = self.rng.choice(["out"] * 20 + ["end"] * 2 + ["fail"] + ["tick"] * 3)
        return ("tick", 0, moment) if kind == "tick" else (kind, child, moment, self.what(kind))

    def answer(self, act, child, moment):
        usual = ["exit", "exit", "killed", "bad"] if act == "wait" else ["ok"]
        rare = ["bad", "bad", *ANSWERS]
        kind = self.rng.choice(rare if self.rng.random() < 0.05 else usual)
        return kind, child, moment, self.what(kind)

    def what(self, kind):
        if kind == "out":
            if self.script.is_long():
                return b"x" * self.rng.choice([1999, 2000, 2500, 4096])
            return b"".join(self.rng.choice(self.printed) for _ in range(self.rng.randrange(0, 6)))
        if kind == "exit":
            return b"%d" % self.rng.randrange(256)
        return self.rng.choice(CAUSES) if kind in ("fail", "bad") else None


def draw(rng):
    """A script, its events, a time limit in milliseconds or None, and a bound on steps."""
    script = Script(rng)
    source = script.source()
    limit = rng.choice([None, None, None, None, 2000, 3000])
    bound = rng.choice([70, 200, 400, 1000, 1000] if script.share else [9, 70, 70, 70, 70, 200])
    return source, Drawing(rng, script, limit, bound).events(source), limit, bound
