"""Copies of a crate, in which proofs and bodies are left out."""

import pathlib
import re
import shutil
from collections import Counter

from functions import all_functions

PARTS = ("src", "specs", "proofs")
CYCLE = re.compile(r"(?m)^ *#\[cycle\(\w+\)\]\n")
ATTRIBUTE = re.compile(r"(?ms)^ *#\[tactic\((.*?)\)\]\n")


def copied(crate, room):
    """Copies a crate into an empty folder."""
    for part in PARTS:
        if (pathlib.Path(crate.folder) / part).is_dir():
            shutil.copytree(f"{crate.folder}/{part}", room / part)


def write_texts(texts, room):
    """Writes the texts of a source, by file."""
    for file, text in texts.items():
        (room / file).write_text(text, encoding="utf-8")


def folder_of(function, room):
    """Where the proof of a function, or of its cycle of calls, lies in a copy."""
    return room.joinpath("proofs", *function.unit().split("::"))


def may_have_hole(function, room):
    """Whether a function's proof can be left out: no trait's method's, nor where a module's proofs lie below."""
    return not function.of_trait and not any(it.is_dir() for it in folder_of(function, room).glob("*"))


def write_hole(crate, function, room):
    """Has the check take a function, or the functions of its cycle, by what is stated of it."""
    folder = folder_of(function, room)
    shutil.rmtree(folder, ignore_errors=True)
    folder.mkdir(parents=True)
    path, last = function.unit().replace("::", "."), folder.name
    where = path if function.cycle else f"{path}.Statement"
    (folder / "Proof.antt").write_text(
        f"use Rattle.{crate.name}.proofs.{where}.{{statement}}\n\n"
        f"pub {last}_spec : {{M : Type 1}} → statement M\n{last}_spec = ?\n",
        encoding="utf-8",
    )


def left_out_whole(functions, texts):
    """Those of these functions whose bodies can be left out, as they are without: in no cycle of calls.

    A cycle is left out whole or not at all, and what a constant calls keeps its body.
    """
    free = [it for it in functions if "const fn" not in texts[it.file][it.start : it.end].partition("{")[0]]
    sizes = Counter(it.unit() for it in free)
    return [it._replace(cycle=None, mates=()) for it in free if not it.cycle or sizes[it.unit()] == len(it.mates)]


def above(text, start):
    """The text before a function, parted where the comment and the attributes above it begin."""
    before, gap, own = text[:start].rpartition("\n\n")
    return before + gap, own


def without_bodies(functions, texts):
    """The texts of a source in which these functions call nothing, so that a check needs what they state alone."""
    made = dict(texts)
    for it in sorted(functions, key=lambda it: -it.start):
        text = made[it.file]
        depth = re.match(" *", text[it.start :])[0]
        before, own = above(text, it.start)
        head = text[it.start : it.body] + text[it.body : it.end].partition("{")[0]
        made[it.file] = f"{before}{CYCLE.sub('', own)}{head}{{\n{depth}    unreachable!()\n{depth}}}\n{text[it.end :]}"
    return made


def untried(units, texts):
    """The texts of a source in which no goal of these functions is tried but where an answer is written."""
    made = dict(texts)
    for it in sorted(all_functions(texts), key=lambda it: -it.start):
        if it.unit() in units:
            text = made[it.file]
            depth = re.match(" *", text[it.start :])[0]
            before, own = above(text, it.start)
            made[it.file] = f"{before}{ATTRIBUTE.sub('', own)}{depth}#[tactic(none)]\n{text[it.start :]}"
    return made
