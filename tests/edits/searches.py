"""Searches that are written out for goals of a function: in place of its answers, beside them, or where it has none.

They have what the prover has at such a goal: its rules, and the lemmas and definitions that the function's
attribute `tactic` names.
"""

import re

from copies import ATTRIBUTE, above, folder_of

# How the name of a search that stands beside an answer ends.
BESIDE = "-sought"


def paths_in(word, attribute):
    """The paths behind `using` or `unfolding` in an attribute."""
    found = re.search(rf"\b{word}\(([^)]*)\)", attribute)
    return [it.strip() for it in found[1].split(",") if it.strip()] if found else []


def attribute_of(function, text):
    """The attribute `tactic` of a function, or nothing."""
    found = ATTRIBUTE.search(above(text, function.start)[1])
    return found[1] if found else ""


def import_of(crate, path):
    """The line that brings what a path of an attribute names."""
    parts = [crate.name if it == "crate" else it for it in path.split("::")]
    return f"use Rattle.{'.'.join(parts[:-1])}.{{{parts[-1]}}}"


def last(path):
    """The last name of a path."""
    return path.rpartition("::")[2]


def searched(paragraph, goal, unfolding, search):
    """An answer, or nothing, as a search for its goal; with what it unfolds itself, where it does."""
    head = re.search(rf"(?ms)\A(.*?^pub {re.escape(goal)} : .*?)^({re.escape(goal)}\b[^=\n]*=)", paragraph)
    if head is None:
        return paragraph
    own = "" if "\nunfolding " in head[1] or not unfolding else f"unfolding {' '.join(unfolding)}\n"
    return f"{head[1]}{own}{head[2]} {search}"


def answered_goals(folder):
    """The goals to which a folder of proofs has written answers."""
    file = folder / "Answers.antt"
    return re.findall(r"(?m)^pub (\S+) :", file.read_text(encoding="utf-8")) if file.is_file() else []


def has_answer(paragraphs, goal):
    """Whether a goal has a written answer."""
    return any(re.search(rf"(?m)^pub {re.escape(goal)} :", it) for it in paragraphs)


def beside(paragraphs, goal):
    """The answers of a function with one more for a goal that has one, under a name of its own."""
    found = next((it for it in paragraphs if re.search(rf"(?m)^pub {re.escape(goal)} :", it)), None)
    if found is None:
        return paragraphs
    lines = [it for it in found.split("\n") if not it.startswith("--")]
    return [*paragraphs, re.sub(rf"(?m)^(pub )?{re.escape(goal)}(?=[ \n])", rf"\g<1>{goal}{BESIDE}", "\n".join(lines))]


def names_of(paragraph):
    """What a paragraph of a proof file defines."""
    return re.findall(r"(?m)^(?:\w+ )*(\S+) :", paragraph)


def has_word(name, text):
    """Whether a text has a name as a word of its own."""
    return re.search(rf"(?<![\w-]){re.escape(name)}(?![\w-])", text) is not None


def answers_to(goals, paragraphs):
    """The paragraphs of a proof file with answers to these goals, and with what those name of the others."""
    kept = [it for it in paragraphs if any(has_answer([it], goal) for goal in goals)]
    while True:
        text = "\n".join(kept)
        named = [it for it in paragraphs if any(has_word(name, text) for name in names_of(it))]
        if set(named) <= set(kept):
            return kept
        kept = [it for it in paragraphs if it in kept or it in named]


def is_needed(crate, line, text):
    """Whether a line of imports brings more than lemmas of the crate that a text doesn't name."""
    names = re.fullmatch(rf"use Rattle\.{crate.name}\.proofs\.\S+\.\{{(.*)\}}", line)
    return names is None or any("◌" in it or has_word(it, text) for it in names[1].split(", "))


def write_searches(crate, function, text, goals, room, replaces=True):
    """Has a search answer these goals of a function, whose source has this text, in a copy of its crate.

    Where it replaces no answers, those that are written to these goals stay, with the search beside them, and there are
    no others.
    """
    folder = folder_of(function, room)
    file, attribute = folder / "Answers.antt", attribute_of(function, text)
    unfolding, using = paths_in("unfolding", attribute), paths_in("using", attribute)
    search = f"search ({', '.join(['rules', *map(last, using)])})"
    path = function.unit().replace("::", ".")
    before = f"use Rattle.{crate.name}.proofs.{path}.Goals as goal\n"
    if file.is_file():
        before = file.read_text(encoding="utf-8")
    paragraphs = before.rstrip("\n").split("\n\n")
    if not replaces:
        kept = answers_to(goals, paragraphs[1:])
        imports = [it for it in paragraphs[0].split("\n") if is_needed(crate, it, "\n\n".join(kept))]
        paragraphs = ["\n".join(imports), *kept]
    for goal in () if replaces else goals:
        paragraphs = beside(paragraphs, goal)
    for goal in [it + BESIDE if has_answer(paragraphs, it + BESIDE) else it for it in goals]:
        answer = f"pub {goal} : goal.{goal}\n{goal} {'t c' if function.cycle else 'c'} = ?"
        if not has_answer(paragraphs, goal):
            paragraphs.append(answer)
        paragraphs = [searched(it, goal, [last(path) for path in unfolding], search) for it in paragraphs]
    uses = ["use Rattle.std.proofs.Common.{rules}", *(import_of(crate, it) for it in (*unfolding, *using))]
    brought = re.findall(r"[^\s{},]+", " ".join(re.findall(r"(?m)^use .*\{(.*)\}", paragraphs[0])))
    lines = [it for it in uses if re.search(r"\{(.*)\}", it)[1] not in brought]
    folder.mkdir(parents=True, exist_ok=True)
    file.write_text("\n".join([*lines, "\n\n".join(paragraphs)]) + "\n", encoding="utf-8")
