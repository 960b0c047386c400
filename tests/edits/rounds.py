"""Rounds of edits: in each, one copy of a crate has edits of different functions, and holes for its other proofs."""

import pathlib
import re
import shutil
import tempfile
from typing import NamedTuple

from checks import checked
from copies import copied, folder_of, left_out_whole, may_have_hole, untried, without_bodies, write_hole, write_texts
from crates import check_words
from edits import BadEdit, Change, Edit, edited
from functions import all_functions
from searches import write_searches

RESERVED = re.compile(r"(?m)^\./(proofs/\S+)/Proof\.antt: error\[reserved-name\]")


class Source(NamedTuple):
    """A crate's source: its texts by file, its functions by name, and what each one's written answers rest on.

    That is a number of lines of proofs/, by the function's name; a function without answers isn't there.
    """

    crate: object
    texts: dict
    functions: dict
    rested_on: dict


class Trial(NamedTuple):
    """An edit that is to be tried, what it changes, and the goals for which a search is written out.

    Of each such goal it has how it was refused before, by the function's name. Stale goals are those that the edit names
    and that were left out.
    """

    edit: Edit
    change: Change
    searched: dict
    stale: tuple = ()

    def bare(self):
        """The same without the goals that the edit names: the searches that are written out for them decide nothing."""
        return self._replace(edit=self.edit._replace(goals=()), stale=self.edit.goals)

    def named(self, function):
        """The goals of a function that are tried alone, as the edit names them; without any, all are tried."""
        return () if self.searched else self.edit.goals_of(function.name)

    def concerned(self, source):
        """The functions that may refuse the edit: those that it changes, and its judges."""
        return [source.functions[name] for name in dict.fromkeys((*self.change.functions, *self.edit.judges))]


class Round(NamedTuple):
    """Trials in one copy, its texts, and the function that must stay proved."""

    trials: list
    texts: dict
    control: object


def source_of(crate):
    """The source of a crate."""
    top = pathlib.Path(crate.folder)
    texts = {str(it.relative_to(top)): it.read_text(encoding="utf-8") for it in sorted(top.glob("src/**/*.rt"))}
    functions = {it.name: it for it in all_functions(texts)}
    with_answers = [it for it in functions.values() if any(folder_of(it, top).glob("*.antt"))]
    return Source(crate, texts, functions, {it.name: lines_below(crate, it, top) for it in with_answers})


def lines_below(crate, function, top):
    """How many lines of a crate's proofs/ a function's written answers have, with all that they cite there."""
    left, read = list(folder_of(function, top).glob("*.antt")), {}
    while left:
        file = left.pop()
        if file not in read and file.is_file():
            read[file] = file.read_text(encoding="utf-8")
            cited = re.findall(rf"\bRattle\.{crate.name}\.(proofs\.[\w.]*\w)", read[file])
            left += [top.joinpath(*it.split(".")).with_suffix(".antt") for it in cited]
    return sum(it.count("\n") for it in read.values())


def names_any(source, function, names):
    """Whether a function's text has one of these names: what calls a refused function has no proof either."""
    text = source.texts[function.file][function.start : function.end]
    return not names.isdisjoint(re.findall(r"\w+", text))


def control_of(source, units):
    """The function whose proof no trial concerns and whose written answers rest on the least, or None.

    It calls none that a trial concerns. Where none has answers, it is the shortest function.
    """
    names = {it.name.rpartition("::")[2] for it in source.functions.values() if it.unit() in units}
    free = [it for it in source.functions.values() if it.unit() not in units and not it.of_trait]
    free = [it for it in free if not names_any(source, it, names)]
    lines = lambda it: source.rested_on.get(it.name, float("inf"))
    return min(free, key=lambda it: (lines(it), it.end - it.start), default=None)


def units_of(source, trials):
    """What is proved at once, of all that trials concern."""
    return {it.unit() for trial in trials for it in trial.concerned(source)}


def next_round(source, trials, common=None):
    """As many of the trials as one copy can have, and those that are left.

    The control is the common one, which no trial of the crate concerns, where there is one: what a round proved of it, the
    next ones need not.
    """
    taken, left, texts, units = [], [], source.texts, set()
    for trial in trials:
        mine = units_of(source, [trial])
        is_apart = not taken or not (trial.change.is_outside or taken[0].change.is_outside or mine & units)
        try:
            made = edited(trial.edit, texts) if is_apart and (common or control_of(source, units | mine)) else None
        except BadEdit:
            made = None
        if made is None:
            left.append(trial)
        else:
            taken, texts, units = [*taken, trial], made, units | mine
    return Round(taken, texts, common or control_of(source, units)), left


def with_holes(source, turn, room):
    """Writes the copy of a round into an empty folder, and returns the functions that are to be proved in it."""
    copied(source.crate, room)
    proved = {it.name: it for trial in turn.trials for it in trial.concerned(source)}
    proved[turn.control.name] = turn.control
    units = {it.unit() for it in proved.values()}
    left_out = [it for it in all_functions(turn.texts) if it.unit() not in units and may_have_hole(it, room)]
    whole = {it.name: it for it in left_out_whole(left_out, turn.texts)}
    concerned = [(trial, it) for trial in turn.trials for it in trial.concerned(source)]
    narrow = {it.unit() for trial, it in concerned if trial.named(it)}
    write_texts(untried(narrow, without_bodies(whole.values(), turn.texts)), room)
    for function in left_out:
        shutil.rmtree(folder_of(function, room), ignore_errors=True)
        write_hole(source.crate, whole.get(function.name, function), room)
    for trial, function in concerned:
        goals = trial.searched.get(function.name) if trial.searched else trial.named(function)
        if goals:
            text, replaces = source.texts[function.file], bool(trial.searched)
            write_searches(source.crate, function, text, goals, room, replaces)
    return list(proved)


def restored(source, folders, room):
    """Gives back the proofs where no hole can be, since the check has a module there."""
    for folder in folders:
        shutil.rmtree(room / folder)
        if (pathlib.Path(source.crate.folder) / folder).is_dir():
            shutil.copytree(f"{source.crate.folder}/{folder}", room / folder)


def run_round(source, turn, kept):
    """The check of a round over the work that a folder keeps, and the processor seconds of all that it took."""
    with tempfile.TemporaryDirectory(prefix="edits-") as folder:
        room = pathlib.Path(folder)
        proved = with_holes(source, turn, room)
        only = [word for name in proved for word in ("--only", f"{source.crate.name}::{name}")]
        words, seconds = [*check_words(source.crate), "--incremental", kept, "--allow-holes", *only], 0
        while True:
            found = checked(words, room)
            seconds += found.seconds
            folders = RESERVED.findall(found.said)
            if not folders:
                return found._replace(seconds=seconds)
            restored(source, folders, room)


def run_alone(source, trial, kept, flags):
    """A check with one edit, all proofs and no hole, over the work that a folder keeps."""
    with tempfile.TemporaryDirectory(prefix="edits-") as folder:
        room = pathlib.Path(folder)
        copied(source.crate, room)
        write_texts(edited(trial.edit, source.texts), room)
        return checked([*check_words(source.crate), "--incremental", kept, *flags], room)
