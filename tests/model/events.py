"""Events of children, and the lines of a log."""

from typing import NamedTuple, Optional

ITEMS = ("out", "end", "fail")
ANSWERS = ("ok", "bad", "exit", "killed")


class Event(NamedTuple):
    """A line of a log: its word, a child (0 in a tick), a moment, and bytes, a cause or a status."""

    kind: str
    child: int
    moment: int
    what: Optional[bytes] = None

    def line(self, script):
        if self.kind == "tick":
            return b"tick %d\n" % self.moment
        held = (self.what.hex().encode() or b"-") if self.kind == "out" else self.what
        front = b"%s %d %d %d" % (self.kind.encode(), script, self.child, self.moment)
        return front + (b" " + held if held else b"") + b"\n"


HEADINGS = b"exprun-log 2", b"exprun-log 3"


def write_log(events, script):
    """The log of a script's events: in version 2 where each child is 1 to 16, else in version 3."""
    heading = HEADINGS[not all(event.kind == "tick" or 1 <= event.child <= 16 for event in events)]
    return heading + b"\n" + b"".join(event.line(script) for event in events) + b"total %d\n" % len(events)


def read_log(log, script):
    """The events of a script and the ticks in a log that has no fault, of any version."""
    found = []
    lines = log.splitlines()
    for line in lines[1:-1] if lines and lines[0] in HEADINGS else lines:
        kind, *fields = line.split(b" ")
        if kind == b"tick":
            found.append(Event("tick", 0, int(fields[0])))
        elif int(fields[0]) == script:
            what = fields[3] if len(fields) > 3 else None
            if kind == b"out":
                what = bytes.fromhex(what.decode().strip("-"))
            found.append(Event(kind.decode(), int(fields[1]), int(fields[2]), what))
    return found
