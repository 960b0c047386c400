"""The rules of one script over its events, written once more and by themselves.

Nothing here is shared with the program or its definitions: what a script does is simulated as the manual pages and
docs/ tell it. `Dialogue.run` gives the ending and the text of an error, `Dialogue.report` the whole report.
"""

import re
from functools import partialmethod
from typing import NamedTuple, Optional

from codes import AGAIN, AGAIN_IN_TIME, Stopped, Thrown, failed
from events import ITEMS
from patterns import read_arguments
from terminal import BadMode, Terminal
from tools import CHILDREN, FOREVER, Tools
from values import counted, elements, flags, is_number, last_of, number

LONGEST = 9_000_000_000_000
KEPT = 2000
LARGEST = 1_000_000
PIECE = 4096

# In place of a child: each child that takes part.
ANY = b"any"

LIST = re.compile(rb"[ \t\v\f\r]*\n")
SECONDS = re.compile(rb"-?(?:[0-9]+|([0-9]*)\.[0-9]+)")
WAIT_CODES = {b"notfound": 2, b"denied": 13, b"broken": 32, b"memory": 12, b"other": 5}


def milliseconds(text):
    """A time in seconds, or None if the text is no such."""
    if not SECONDS.fullmatch(text):
        return None
    whole, _, decimals = text.partition(b".")
    return 0 if text.startswith(b"-") else 1000 * int(whole or b"0") + int((decimals + b"000")[:3])


class Item(NamedTuple):
    """What a child's list holds: an event that came from it, or an echo."""

    kind: str
    child: int
    moment: int
    what: Optional[bytes]
    is_echo: bool = False


class Child:
    def __init__(self, number, terminal, size, removes):
        self.number, self.terminal, self.size, self.removes = number, terminal, size, removes
        self.kept, self.is_closed, self.is_waited_for = b"", False, False

    @property
    def id(self):
        return b"exp%d" % self.number


class Dialogue(Tools):
    def __init__(self, events, limit=None, steps=1_000_000, has_terminals=False):
        """A script's own events in order; a time limit in milliseconds; a bound on steps; what a spawn without -tty and -notty is."""
        super().__init__(steps)
        self.limit, self.has_terminals = FOREVER if limit is None else limit, has_terminals
        self.set(b"timeout", b"10")
        self.array_set(b"env", b"")
        if has_terminals:
            self.set(b"any_spawn_id", ANY)
        self.clock, self.horizon = 0, 0
        self.items = {number: [] for number in range(1, CHILDREN + 1)}
        self.answers = {number: [] for number in range(1, CHILDREN + 1)}
        for event in events:
            self.happens(event)
        self.children, self.sent, self.shows = {}, {}, True
        self.later = Child(0, None, KEPT, True)
        self.channels, self.errors, self.day = {}, None, None
        self.standing = {"before": [], "after": []}
        self.awaited = None

    def happens(self, event):
        self.horizon = max(self.horizon, event.moment)
        if event.kind == "tick":
            return
        items = self.items[event.child]
        item = Item(event.kind, event.child, self.horizon, event.what)
        if event.kind not in ITEMS:
            self.answers[event.child].append(item)
        elif not items or items[-1].kind == "out":
            items.append(item)

    # waiting

    def wait(self, queue, deadline, awaited):
        """The next item or answer, or None if the deadline has passed. `queue` gives the queue, which may be another one after each event."""
        soonest = min(deadline, self.limit)
        while not (queue() and queue()[0].moment <= soonest):
            if self.horizon > soonest:
                return self.late(deadline)
            self.awaited = awaited
            self.more()
        item = queue().pop(0)
        self.clock = max(self.clock, item.moment)
        return item

    def more(self):
        """Ends a script that waits for an event which isn't there."""
        raise Stopped("waiting")

    def late(self, deadline):
        """Goes on at the deadline, or ends the script at the time limit if that is earlier."""
        if deadline > self.limit:
            raise Stopped("timelimit")
        self.clock = deadline

    def request(self, child, act):
        """The answer to what is asked of a child."""
        return self.wait(lambda: self.answers[child.number], FOREVER, (act, child.number, FOREVER))

    def next_item(self, child):
        """The next item of a child alone."""
        return self.wait(lambda: self.items[child.number], FOREVER, ("item", (child.number,), FOREVER))

    def refusal(self, child, act):
        """The cause for which a request failed, or None."""
        answer = self.request(child, act)
        return {"ok": None, "bad": answer.what}.get(answer.kind, b"other")

    # children

    def named(self, name):
        """The child of an id, or of the current one."""
        if name is None:
            name = self.seen(b"spawn_id")
        if name is None:
            self.get(b"spawn_id")
        if name not in self.children:
            raise failed(b"no such spawn id", name)
        return self.children[name]

    def opened(self, name):
        return self.still_open(self.named(name))

    def still_open(self, child):
        if child.is_closed:
            raise failed(b"spawn id %s not open" % child.id)
        return child

    # commands

    def do_spawn(self, words, name=b"spawn"):
        is_on_terminal, is_told, shown, words = self.spawn_flags(words, name)
        terminal = self.bare() if is_on_terminal else self.terminal()
        child = Child(len(self.sent) + 1, terminal, self.later.size, self.later.removes)
        if child.number > CHILDREN:
            raise failed(b"too many spawned children")
        self.sent[child.number] = 0
        if self.shows and is_told:
            self.transcript += b" ".join([b"spawn", *shown, *words]) + b"\r\n"
        cause = self.refusal(child, "spawn") or (is_on_terminal and self.missing(child))
        if cause:
            raise failed(b'couldn\'t execute "%s": %s' % (words[0][:200], cause))
        self.children[child.id] = child
        self.set(b"spawn_id", child.id)
        return b"%d" % child.number

    do_exp_spawn = partialmethod(do_spawn, name=b"exp_spawn")

    def spawn_flags(self, words, name):
        """Whether the child is on a terminal of the system, whether it is told, the flags that are told, and the words."""
        is_on_terminal, is_told, shown, words = self.has_terminals, True, [], list(words)
        while words and words[0].startswith(b"-"):
            flag = words.pop(0)
            if flag == b"--":
                break
            if flag == b"-noecho":
                is_told = False
            elif flag in (b"-tty", b"-notty"):
                is_on_terminal = flag == b"-tty"
            elif flag in (b"-nottycopy", b"-nottyinit"):
                shown.append(flag)
            elif flag == b"-ignore":
                counted(name, words, 1)
                shown += [flag, words.pop(0)]
            else:
                raise failed(b"bad flag", flag)
        counted(name, words, 1)
        return is_on_terminal, is_told, shown, words

    def bare(self):
        """What stands for a terminal of the system, which does all of a terminal's work itself."""
        elements(self.seen(b"stty_init") or b"")
        return Terminal([b"raw", b"-echo"], is_number)

    def missing(self, child):
        """The cause for which a program isn't on its terminal, or None. The first byte is a line that tells of its start."""
        came = self.next_item(child)
        if came.kind == "out":
            self.received(child, came.what[1:])
            return None
        self.request(child, "close")
        self.request(child, "wait")
        return b"notfound"

    def terminal(self):
        modes = elements(self.seen(b"stty_init") or b"")
        try:
            return Terminal(modes, is_number)
        except BadMode as fault:
            raise failed(b"bad stty_init word", fault.args[0]) from None

    def do_send(self, words, name=b"send"):
        given, words = flags(name, words, {b"-i": True, b"-s": False, b"-h": False, b"--": False})
        counted(name, words, 1, 1)
        pace = last_of(given, (b"-s", b"-h"))
        pieces = self.pieces(pace, words[0]) if pace else [(0, words[0])]
        child = self.opened(given.get(b"-i"))
        for pause, piece in pieces:
            self.sleep(pause)
            self.type(child, piece)
        return b""

    def pieces(self, flag, text):
        """The pieces in which a text goes out, each with the pause before it in milliseconds."""
        name = b"send_slow" if flag == b"-s" else b"send_human"
        try:
            words = elements(self.seen(name))
        except (TypeError, Thrown):
            words = []
        count = words.pop(0) if flag == b"-s" and words else b"1"
        times = [milliseconds(word) for word in words]
        if None in times or len(times) != (1 if flag == b"-s" else 5) or not count.isdigit() or int(count) == 0:
            raise failed(b"bad " + name)
        if flag == b"-s":
            size = int(count)
            return [(times[0] if at else 0, text[at : at + size]) for at in range(0, len(text), size)]
        inside, ending, _, least, most = times
        ends = [at > 0 and text[at - 1 : at].isalnum() and not text[at : at + 1].isalnum() for at in range(len(text))]
        return [(min(most, max(least, ending if is_end else inside)), text[at : at + 1]) for at, is_end in enumerate(ends)]

    def type(self, child, text):
        """Types a text at a child's terminal."""
        echo, actions = child.terminal.send(text)
        self.place_echo(child, echo)
        for text in actions:
            cause = self.refusal(child, "end" if text is None else "write")
            if cause is not None:
                raise failed((b"end" if text is None else b"write") + b" failed: " + cause)
            self.sent[child.number] += len(text or b"")

    do_exp_send = partialmethod(do_send, name=b"exp_send")

    def place_echo(self, child, echo):
        """Puts an echo before the first item that came at the clock or later, in pieces."""
        items = self.items[child.number]
        later = (at for at, item in enumerate(items) if not item.is_echo and item.moment >= self.clock)
        place = next(later, len(items))
        pieces = [echo[at : at + PIECE] for at in range(0, len(echo), PIECE)]
        items[place:place] = [Item("out", child.number, self.clock, piece, is_echo=True) for piece in pieces]

    def do_send_user(self, words, name=b"send_user"):
        _, words = flags(name, words, {b"--": False})
        counted(name, words, 1, 1)
        self.transcript += words[0]
        return b""

    do_exp_send_user = partialmethod(do_send_user, name=b"exp_send_user")

    def do_send_error(self, words, name=b"send_error"):
        _, words = flags(name, words, {b"--": False})
        counted(name, words, 1, 1)
        self.complain(words[0])
        return b""

    do_exp_send_error = partialmethod(do_send_error, name=b"exp_send_error")

    def do_exp_pid(self, words):
        given, words = flags(b"exp_pid", words, {b"-i": True})
        counted(b"exp_pid", words, 0, 0)
        return b"%d" % self.named(given.get(b"-i")).number

    def do_close(self, words, name=b"close"):
        given, words = flags(name, words, {b"-i": True})
        counted(name, words, 0, 0 if given else 1)
        if words:
            return self.shut(words[0])
        self.closed(self.opened(given.get(b"-i")))
        return b""

    do_exp_close = partialmethod(do_close, name=b"exp_close")

    def closed(self, child):
        cause = self.refusal(child, "close")
        child.is_closed = True
        for place in self.standing:
            self.leave(place, [child])
        if cause is not None:
            raise failed(b"close failed: " + cause)

    def do_wait(self, words, name=b"wait"):
        given, words = flags(name, words, {b"-nowait": False, b"-i": True})
        counted(name, words, 0, 0)
        child = self.named(given.get(b"-i"))
        if child.is_waited_for:
            raise failed(b"spawn id %s already waited for" % child.id)
        child.is_waited_for = True
        front = b"%d %s " % (child.number, child.id)
        if b"-nowait" in given:
            return front + b"0 0"
        answer = self.request(child, "wait")
        if answer.kind == "exit":
            return front + b"0 " + answer.what
        if answer.kind == "killed":
            return front + b"0 -1 CHILDKILLED unknown unknown"
        return front + b"-1 %d" % WAIT_CODES[answer.what if answer.kind == "bad" else b"other"]

    do_exp_wait = partialmethod(do_wait, name=b"exp_wait")

    def option(self, name, words):
        """The child that a command is about, or what stands for later ones, and the word that is set, or None."""
        given, words = flags(name, words, {b"-d": False, b"-i": True})
        counted(name, words, 0, 1)
        child = self.later if b"-d" in given else self.opened(given.get(b"-i"))
        return child, words[0] if words else None

    def do_match_max(self, words, name=b"match_max"):
        child, size = self.option(name, words)
        if size is None:
            return b"%d" % child.size
        if not is_number(size) or not 1 <= int(size) <= LARGEST:
            raise failed(b"bad match_max size", size)
        child.size = int(size)
        child.kept = child.kept[-child.size :]
        return b""

    do_exp_match_max = partialmethod(do_match_max, name=b"exp_match_max")

    def do_remove_nulls(self, words, name=b"remove_nulls"):
        child, value = self.option(name, words)
        if value is None:
            return b"%d" % child.removes
        if value not in (b"0", b"1"):
            raise failed(b"bad remove_nulls value", value)
        child.removes = value == b"1"
        return b""

    do_exp_remove_nulls = partialmethod(do_remove_nulls, name=b"exp_remove_nulls")

    def do_log_user(self, words, name=b"log_user"):
        counted(name, words, 1, 1)
        if words[0] == b"-info":
            return b"%d" % self.shows
        if words[0] not in (b"0", b"1"):
            raise failed(b"bad option", words[0])
        self.shows = words[0] == b"1"
        return b""

    do_exp_log_user = partialmethod(do_log_user, name=b"exp_log_user")

    def do_exp_continue(self, words):
        given, words = flags(b"exp_continue", words, {b"-continue_timer": False})
        counted(b"exp_continue", words, 0, 0)
        raise Thrown(AGAIN_IN_TIME if given else AGAIN)

    def sleep(self, milliseconds):
        """Waits without taking what comes meanwhile."""
        if milliseconds > 0:
            deadline = FOREVER if milliseconds > 1000 * LONGEST else self.clock + milliseconds
            self.wait(list, deadline, ("item", (), deadline))
        return b""

    def do_sleep(self, words, name=b"sleep"):
        counted(name, words, 1, 1)
        time = milliseconds(words[0])
        if time is None:
            raise failed(b"expected number but got", words[0])
        return self.sleep(time)

    do_exp_sleep = partialmethod(do_sleep, name=b"exp_sleep")

    def do_after(self, words):
        counted(b"after", words, 1, 1)
        if not words[0].isdigit():
            raise failed(b"expected number but got", words[0])
        return self.sleep(int(words[0]))

    # expect

    def do_expect(self, words):
        cases, ids, seconds = self.patterns(words)
        groups = self.groups(ids, not ids or any(case.group == 0 and case.kind != "timeout" for case in cases))
        own = [(groups[case.group], case) for case in cases]
        named = [id for group in groups for id in group if id != ANY]
        time = self.time(seconds)
        deadline = self.clock + time
        while True:
            listed = self.standing["before"] + own + self.standing["after"]
            children = {*named, *(id for ids, _ in self.standing["before"] + self.standing["after"] for id in ids if id != ANY)}
            action = self.action(children, listed, deadline)
            try:
                return self.evaluate(action)
            except Thrown as thrown:
                if thrown.code not in (AGAIN, AGAIN_IN_TIME):
                    raise
                if thrown.code == AGAIN:
                    deadline = self.clock + time
            for child in named:
                self.still_open(child)

    def do_expect_before(self, words):
        return self.stand("before", words)

    def do_expect_after(self, words):
        return self.stand("after", words)

    def stand(self, place, words):
        """Puts cases behind those that stand before or after the own ones of each expect."""
        cases, ids, _ = self.patterns(words)
        groups = self.groups(ids, not ids or any(case.group == 0 for case in cases))
        self.leave(place, [id for group in groups for id in group])
        self.standing[place] += [(groups[case.group], case) for case in cases]
        return b""

    def leave(self, place, ids):
        """Takes ids away from the cases that stand there. A case that has none then is gone."""
        left = [([id for id in had if id not in ids], case) for had, case in self.standing[place]]
        self.standing[place] = [(had, case) for had, case in left if had]

    def patterns(self, words):
        return read_arguments(self.arguments(words))

    def groups(self, ids, is_current):
        """The children that each group of cases is for, in the order of the arguments."""
        groups = [[self.opened(None)] if is_current else []]
        for word in ids:
            names = elements(word) or [b""]
            groups.append([name if name == ANY else self.opened(name) for name in names])
        return groups

    def arguments(self, words):
        """The words of the list where there is one, else the words themselves."""
        if len(words) != 1 or not LIST.match(words[0]):
            return words
        found = []
        for command in self.commands(words[0]):
            found += self.fill(command)
        return found

    def time(self, seconds):
        """How long an expect waits, in milliseconds."""
        if seconds is None:
            seconds = self.seen(b"timeout")
        seconds = 10 if seconds is None else number(seconds)
        return 1000 * seconds if 0 <= seconds <= LONGEST else FOREVER

    def action(self, children, listed, deadline):
        """Waits for what a case is about; its action."""
        children = sorted(children, key=lambda child: child.number)
        own = {child: [case for ids, case in listed if child in ids or ANY in ids] for child in children}
        while True:
            for child in own:
                case = self.met(child, own[child])
                if case:
                    return case.action
            came = self.wait(lambda: self.next_of(children), deadline, ("item", tuple(child.number for child in own), deadline))
            if came is None:
                return self.first([case for _, case in listed], "timeout")[1]
            child = next(child for child in own if child.number == came.child)
            if came.kind != "out":
                return self.ended(child, came, own[child])
            self.received(child, came.what)

    def received(self, child, piece):
        output = child.terminal.show(piece.replace(b"\0", b"") if child.removes else piece)
        child.kept += output
        self.transcript += output if self.shows else b""

    def next_of(self, children):
        """The items of the child whose item is next; none as long as an item that is before it may still come."""
        queues = [self.items[child.number] for child in children]
        there = [queue for queue in queues if queue]
        if not there:
            return []
        queue = min(there, key=lambda queue: (queue[0].moment, queue[0].child))
        is_settled = len(there) == len(queues) or queue[0].moment < self.horizon
        return queue if is_settled else []

    def met(self, child, cases):
        """The case that the kept bytes meet, which is then recorded; without one the last bytes are kept."""
        for case in cases:
            spans = case.spans(child.kept)
            if spans:
                self.matched(child, case, spans)
                return case
        for case in cases:
            if case.kind == "full_buffer" and len(child.kept) >= child.size:
                self.emptied(child)
                return case
        child.kept = child.kept[-child.size :]
        return None

    def matched(self, child, case, spans):
        for group, span in enumerate(spans[:10]):
            if span is None:
                continue
            start, end = span
            if b"-indices" in case.marks:
                self.found(b"%d,start" % group, b"%d" % start)
                self.found(b"%d,end" % group, b"%d" % (end - 1))
            self.found(b"%d,string" % group, child.kept[start:end])
        self.taken(child, spans[0][1], stays=b"-notransfer" in case.marks)

    def emptied(self, child):
        self.taken(child, len(child.kept))

    def taken(self, child, end, stays=False):
        self.found(b"spawn_id", child.id)
        self.found(b"buffer", child.kept[:end])
        if not stays:
            child.kept = child.kept[end:]

    def found(self, index, value):
        self.set(b"expect_out(%s)" % index, value)

    def first(self, cases, keyword):
        """Whether a keyword or `default` is listed, and the action of the first of them."""
        for case in cases:
            if case.kind in (keyword, "default"):
                return True, case.action
        return False, b""

    def ended(self, child, came, cases):
        try:
            self.closed(child)
        except Thrown:
            if came.kind == "end":
                raise
        if came.kind == "fail":
            raise failed(b"read failed: " + came.what)
        is_listed, action = self.first(cases, "eof")
        if is_listed:
            self.emptied(child)
        return action

    # report

    def report(self, script, source, shows_variables):
        ending, fault = self.run(source)
        sent, text = sum(self.sent.values()), self.transcript
        head = "script %d end=%s steps=%d sent=%d transcript=%d\n" % (script, ending, self.steps, sent, len(text))
        made = head.encode() + text + b"\n"
        if ending == "error":
            made += b"error %d\n" % len(fault) + fault + b"\n"
        values = self.scopes[0].texts() if shows_variables else {}
        lines = ("var %s %s\n" % (name.hex() or "-", values[name].hex() or "-") for name in sorted(values))
        return made + "".join(lines).encode()
