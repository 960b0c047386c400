"""A check by the prover, and what it says of each function and goal."""

import os
import re
import subprocess
from typing import NamedTuple

from crates import RT

# What ends a check with this program; it is asked for in the main thread.
GUARD = RT.guarded()
# A tactic that only gave up: the goal may hold.
LIMIT = re.compile(r"gave up at|at its own limit|its bounds|ran out of|so the goal may hold|could not tell")
# A proof file that names what is no more there.
NAMES = re.compile(r"is not in scope|has no field|has no `|\(nearest: |is no name|was not admitted|not found in")
TACTIC = re.compile(r"(?:`\S+`: )?`(omega|grind|search|simp|cc|rw)`")
NOTE = re.compile(r"note: \S+ it is not proved that (.*?) \(`([^`]+)`\)(.*)")
LINE = re.compile(r"fn (\S+): (.*)")
LEFT = re.compile(r"`search` did not prove ((?:`[^`]+`(?:, | and )?)+)")
IN_FILE = re.compile(r"(?m)^(?:\./)?proofs/(\S+)/(Answers|Invariants)\.antt:(\d+):\d+: error: (.*(?:\n  .*)*)")
# A search that ended: another bound would change nothing.
ENDED = "Every way was tried"
# What `grind` says, within a search too, where it found values at which all hypotheses hold and the goal doesn't.
FALSE = re.compile(r"`grind`: the goal does not follow\. The hypotheses hold, and the goal fails at")
FRONT = re.compile(r"(?m)^(?:\./)?(src/[^:\s]+)\S*: error\[")


class Refusal(NamedTuple):
    """How a goal was refused.

    - shown: a tactic tried all that it knows
    - false: a tactic found values at which the goal fails
    - limit: a tactic gave up
    - unfit: a written answer proves something else
    - names: a written answer names what is no more there

    It is a search's or a written answer's, and may be about the end of a loop.
    """

    goal: str
    how: str
    is_search: bool
    is_end: bool


class Checked(NamedTuple):
    """What a check said: each function's line by its name, and refused goals by function and by folder of proofs."""

    lines: dict
    goals: dict
    files: dict
    said: str
    seconds: float

    def is_refused(self, function):
        """Whether a function's line says that it is not proved, or says nothing of it."""
        return re.match(r"not proved|no proof|could not tell", self.lines.get(function, "no proof")) is not None


def run(words, room):
    """The output and the processor seconds of a command."""
    how = {"stdin": subprocess.DEVNULL, "stdout": subprocess.PIPE, "stderr": subprocess.STDOUT, "errors": "replace"}
    with subprocess.Popen([*GUARD, *words], cwd=room, **how) as process:
        said = process.stdout.read()
        _, status, used = os.wait4(process.pid, 0)
        process.returncode = os.waitstatus_to_exitcode(status)
    return said, used.ru_utime + used.ru_stime


def how_refused(message):
    """How a proof file's error refuses the goal that it is about."""
    first = message.partition("\n")[0]
    tactic = TACTIC.match(first)
    if not tactic:
        return "names" if NAMES.search(first) else "unfit"
    if FALSE.search(message):
        return "false"
    if ENDED in message:
        return "shown"
    return "limit" if tactic[1] == "search" or LIMIT.search(message) else "shown"


def files_of(said):
    """The errors in the proof files of functions, by the folder below proofs/."""
    found = {}
    for folder, file, line, message in IN_FILE.findall(said):
        goal = re.match(r"`([^`]+)`: ", message)
        how = how_refused(message) if file == "Answers" else "names"
        name = goal[1] if goal else f"{file}:{line}"
        found.setdefault(folder, []).append(Refusal(name, how, False, "decreases" in name))
    return found


def goals_of(said):
    """Each function's line, and the goals that a search left as the notes above the line tell them."""
    lines, goals, notes = {}, {}, {}
    for text in said.split("\n"):
        note, line = NOTE.match(text), LINE.match(text)
        if note:
            is_false = "allow values at which" in note[3]
            how = "limit" if LIMIT.search(note[3]) else "false" if is_false else "shown"
            notes[note[2]] = Refusal(note[2], how, True, "loop ends" in note[1])
        elif line:
            lines[line[1]] = line[2]
            left = LEFT.search(line[2])
            for goal in re.findall(r"`([^`]+)`", left[1] if left else ""):
                goals.setdefault(line[1], []).append(notes.get(goal) or Refusal(goal, "shown", True, False))
            notes = {}
    return lines, goals


def checked(words, room):
    """Runs a check in a copy of a crate."""
    said, seconds = run(words, room)
    if RT.STALE.search(said):
        raise SystemExit("a library's kept work fits no more: remove crates/*/out and run `rt ci`")
    return Checked(*goals_of(said), files_of(said), said, seconds)
