"""Notes in edits the goals at which they were refused, for the next run."""

import pathlib

from searches import BESIDE


def goals_to_note(source, trial, goal, found):
    """The goal at which a check refused an edit behind the function that it is of, but for a closure's and a stale one."""
    for function in trial.concerned(source):
        own = "" if len(function.mates) < 2 else function.name.rpartition("::")[2] + "-"
        refused = found.goals.get(f"{source.crate.name}::{function.name}", [])
        refused = refused + found.files.get(function.unit().replace("::", "/"), [])
        is_own = goal.startswith(own) and goal in [it.goal.removesuffix(BESIDE) for it in refused]
        if is_own and (function.name, goal) not in trial.stale:
            return [(function.name, goal)]
    return []


def note_goals(crate, name, goals):
    """Writes the goals of an edit at its head, in place of those that stand there."""
    path = pathlib.Path(crate.folder) / f"edits/{name}.edit"
    rest = [line for line in path.read_text(encoding="utf-8").split("\n") if not line.startswith("goal: ")]
    lines = [f"goal: {function} {goal}" for function, goal in goals]
    path.write_text("\n".join([*lines, *rest]), encoding="utf-8")
