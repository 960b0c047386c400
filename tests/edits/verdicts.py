"""Whether an edit was refused for what it is about, as far as a check tells.

Only a goal of the edited function counts, or of a function that the edit names as its judge: what merely calls a
refused function doesn't. A tactic that gave up decides nothing, nor does a written answer that no longer fits: such
a goal is tried once more by a search that is written out, which has to end without a proof. Where a proof file only
names what is no more there, only values at which a goal fails decide.
"""

import re
from typing import NamedTuple

from searches import BESIDE


class Verdict(NamedTuple):
    """What a check tells of an edit, and the goal that shows it.

    - refused: a goal doesn't hold
    - open: goals are to be tried by a search that is written out
    - files: so they were, and nothing shows that a goal doesn't hold
    - limit: a tactic gave up
    - end: only the end of a loop or a recursion is refused, or all but that, which isn't what the edit is about
    - proved: nothing of it is refused
    """

    word: str
    goal: str


def own_lines(crate, function, lines):
    """The names under which a check reports a function and the closures in it."""
    path = function.name.split("::")
    closures = {"::".join([crate.name, *path[:at], "fn", *path[at:]]) for at in range(len(path))}
    inside = [it for it in lines if it.rpartition("::")[0].split("+")[0] in closures]
    return [f"{crate.name}::{function.name}", *inside]


def refusals_of(crate, function, checked):
    """How the goals of a function were refused: by searches, and in its proof files."""
    found = [it for name in own_lines(crate, function, checked.lines) for it in checked.goals.get(name, [])]
    found += checked.files.get(function.unit().replace("::", "/"), [])
    if not function.cycle:
        return found
    own = "" if len(function.mates) == 1 else function.name.rpartition("::")[2] + "-"
    return [it._replace(is_end=it.is_end or is_end_in(function, it.goal)) for it in found if it.goal.startswith(own)]


def is_end_in(function, goal):
    """Whether a goal of a function in a cycle of calls is about a call in the cycle, which must come near the end."""
    called = re.fullmatch(r"(?:\w+-)?(\w+)-requires(?:-\d+)?", goal)
    return called is not None and called[1] in function.mates


def open_goals(refusals):
    """The goals for which a search is to be written out, with how each was refused."""
    return {it.goal: it.how for it in refusals if it.how in ("unfit", "names") or it.how == "limit" and it.is_search}


def with_sought(refusals, goals):
    """The refusals of answers, and how the searches beside answers that decide nothing were refused in their place.

    The second has the answers' goals, as a check over those searches alone would tell of them. A search alone was
    written for the given goals; one that isn't there tells nothing.
    """
    answers = [it for it in refusals if not (it.goal.endswith(BESIDE) or it.goal in goals and it.how == "names")]
    answers = [it._replace(is_search=it.is_search or it.how == "shown" and it.goal in goals) for it in answers]
    sought = [it._replace(goal=it.goal.removesuffix(BESIDE)) for it in refusals if it.goal.endswith(BESIDE)]
    return answers, [it for it in sought if it.goal in open_goals(answers)]


def is_decisive(refusal, searched):
    """Whether a refusal shows that a goal doesn't hold; searched has the goals for which a search is written out."""
    if refusal.how == "shown" and (refusal.is_search or refusal.goal in searched):
        return "names" not in searched.values()
    return refusal.how in ("shown", "false")


def verdict_of(edit, refusals, searched):
    """The verdict by the refusals of an edit's functions and judges; searched has how goals were refused before."""
    goals = {} if searched else open_goals(refusals)
    shown = [it for it in refusals if is_decisive(it, searched or goals)]
    about = [it.goal for it in shown if it.is_end == edit.of_termination]
    if about:
        return Verdict("refused", about[0])
    if goals:
        return Verdict("open", next(iter(goals)))
    for word, found in (("limit", [it for it in refusals if it.how == "limit"]), ("end", shown)):
        if found:
            return Verdict(word, found[0].goal)
    lost = [goal for goal, how in searched.items() if how != "limit"]
    return Verdict("files", lost[0]) if lost else Verdict("proved", "")


def without_refusal(names, checked):
    """Why a check refuses no goal of some functions: others' goals are refused, they have no proof at all, or they are proved."""
    others = ", ".join(sorted({*checked.goals, *checked.files}))
    if others:
        return f"only {others} refuses it, which it doesn't name as its judge"
    unproved = [f"{it}: {checked.lines.get(it, 'no proof')}" for it in names if checked.is_refused(it)]
    return f"no goal decides: {unproved[0]}" if unproved else "it is still proved"
