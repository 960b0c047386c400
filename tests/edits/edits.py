"""Edits that the prover must refuse: crates/NAME/edits/*.edit, in the format of must-fail/.

A line `file: PATH` names a file of src/, and pairs of lines `old: TEXT` and `new: TEXT` follow; each old text stands
there exactly once. More lines may stand at the head: `judge: FUNCTION` names a function beside the edited one that
must refuse, `refused-by: termination` says that the end of a recursion or a loop is what the edit is about, and
`goal: FUNCTION GOAL` names a goal at which it is refused, so that this goal alone is tried, and the search that has to
end there is written out at once. `tests/edits/run --goals` writes those.
"""

import re
from typing import NamedTuple

from functions import all_functions


class BadEdit(Exception):
    """An edit that can't be tried, with the reason."""


class Edit(NamedTuple):
    """An edit: its name, the texts that it takes and puts by file, its judges, and whether it is about an end.

    Of the goals at which it is refused it has those that it names, each behind its function.
    """

    name: str
    pairs: tuple
    judges: tuple
    of_termination: bool
    goals: tuple = ()

    def goals_of(self, function):
        """The goals that it names of a function."""
        return [goal for of, goal in self.goals if of == function]


class Change(NamedTuple):
    """What an edit changes: functions by their bodies, or also what stands outside of them."""

    functions: tuple
    is_outside: bool


def read_edit(path):
    """The edit in a file."""
    file, old, pairs, judges, goals, of_termination = None, None, [], [], [], False
    for line in path.read_text(encoding="utf-8").split("\n"):
        word, _, rest = line.partition(":")
        rest = rest[1:] if rest.startswith(" ") else rest
        if word == "file":
            file = rest.strip()
            if not re.fullmatch(r"src/[\w/]+\.rt", file):
                raise BadEdit(f"file: {file} is none of src/")
        elif word == "judge":
            judges.append(rest.strip())
        elif word == "refused-by" and rest.strip() == "termination":
            of_termination = True
        elif word == "goal" and len(rest.split()) == 2:
            goals.append(tuple(rest.split()))
        elif word == "old":
            old = rest
        elif word == "new":
            if not file or not old:
                raise BadEdit("a new text stands before any file or old text")
            pairs.append((file, old, rest))
            old = None
        elif line:
            raise BadEdit(f"a line says neither file, old, new, judge, refused-by nor goal: {line}")
    if not pairs:
        raise BadEdit("it has no old and new text")
    return Edit(path.stem, tuple(pairs), tuple(judges), of_termination, tuple(goals))


def edited(edit, texts):
    """The texts of a crate's source with the edit, by file."""
    made = dict(texts)
    for file, old, new in edit.pairs:
        if file not in made:
            raise BadEdit(f"there is no file {file}")
        count = made[file].count(old)
        if count != 1:
            raise BadEdit(f"an old text stands {count} times in {file}, and not once")
        made[file] = made[file].replace(old, new)
    return made


def parts(texts):
    """The head and the body of each function of a source by its name, and the rest of each file."""
    heads, bodies, rests = {}, {}, {file: [] for file in texts}
    ends = {}
    for it in all_functions(texts):
        text = texts[it.file]
        heads[it.name], bodies[it.name] = text[it.start : it.body], text[it.body : it.end]
        rests[it.file].append(text[ends.get(it.file, 0) : it.start])
        ends[it.file] = it.end
    for file, text in texts.items():
        rests[file].append(text[ends.get(file, 0) :])
    return heads, bodies, rests


def change_of(edit, texts):
    """What an edit changes in a source."""
    try:
        (heads, bodies, rests), (heads_now, bodies_now, rests_now) = parts(texts), parts(edited(edit, texts))
    except (ValueError, AttributeError, TypeError):
        return Change((), True)
    changed = tuple(name for name, body in bodies.items() if bodies_now.get(name) != body)
    return Change(changed, heads != heads_now or rests != rests_now)
