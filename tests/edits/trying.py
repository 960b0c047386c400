"""Tries the edits of a crate: in rounds, side by side, then what a round doesn't decide alone."""

import pathlib
import shutil
import tempfile
import threading
from concurrent.futures import ThreadPoolExecutor
from typing import NamedTuple

from checks import FRONT
from copies import folder_of
from edits import BadEdit, change_of, read_edit
from keeping import Keeping
from noting import goals_to_note
from rounds import Trial, control_of, next_round, run_alone, run_round, source_of, units_of
from searches import BESIDE, answered_goals
from verdicts import Verdict, open_goals, refusals_of, verdict_of, with_sought, without_refusal

WHY = {
    "files": "only a written proof no longer fits, and nothing shows that the goal doesn't hold",
    "limit": "a tactic gave up, so the goal may hold",
    "end": "what is refused isn't what the edit is about: the end of a loop or a recursion, or all but that",
}


class Tried(NamedTuple):
    """An edit that was tried: whether it was refused as it must be, and what to say of it."""

    name: str
    is_refused: bool
    said: str


class Trying:
    """The edits of one crate while they are tried, each check over what the first one proved.

    Each check takes a lane, where the crate's weight counts. Of each edit that a round refused it has the goals to note in it, and of each
    that is refused the goal for the ledger. What an earlier run on this machine saw refused is not tried again, nor what the ledger says,
    unless all is anew.
    """

    def __init__(self, crate, anew, ledger, lanes, weight):
        self.source, self.lanes, self.weight = source_of(crate), lanes, weight
        self.keeping, self.ledger = Keeping(crate, anew), ledger
        self.tried, self.controls, self.seconds, self.rounds, self.earlier, self.believed = [], [], 0, 0, 0, 0
        self.goals, self.refusals = {}, {}
        # what rounds share while they run side by side
        self.lock, self.kept, self.common, self.left, self.undecided = threading.Lock(), None, None, [], []

    def tell(self, edit, is_refused, said):
        """Notes what became of an edit."""
        self.tried.append(Tried(edit, is_refused, said))

    def refused(self, edit, said, goal, is_sound=True):
        """Notes that an edit was refused at a goal, and keeps it where nothing speaks against the check."""
        self.tell(edit, True, f"{said} {goal}")
        if is_sound:
            self.keeping.put(edit, goal)
            self.refusals[edit] = goal

    def is_known(self, name):
        """Whether an edit needn't be tried; what is known of it is told then."""
        goal = self.keeping.goal_of(name)
        if goal is not None:
            self.earlier += 1
            self.tell(name, True, f"refused at {goal}, as an earlier run saw")
        else:
            goal = self.ledger.goal_of(name)
            if goal is None:
                return False
            self.believed += 1
            self.tell(name, True, f"refused at {goal}, as the ledger says")
        self.refusals[name] = goal
        return True

    def trials(self):
        """The edits that can be applied and are to be tried; the others are told."""
        found = []
        for path in sorted(pathlib.Path(self.source.crate.folder).glob("edits/*.edit")):
            if self.is_known(path.stem):
                continue
            try:
                edit = read_edit(path)
                lost = [it for it in edit.judges if it not in self.source.functions]
                if lost:
                    raise BadEdit(f"there is no function {lost[0]}")
                change = change_of(edit, self.source.texts)
                if not change.functions and not change.is_outside:
                    raise BadEdit("it changes nothing")
                found.append(Trial(edit, change, {}))
            except BadEdit as why:
                self.tell(path.stem, False, f"BAD EDIT: {why}")
        return found

    def in_rounds(self, trials):
        """Tries edits in rounds, and returns what they don't decide, with its verdict.

        The others begin with a copy of what the first one proved.
        """
        self.undecided = [(it, Verdict("proved", "")) for it in trials if not it.concerned(self.source)]
        self.left = [it for it in trials if it.concerned(self.source)]
        if not self.left:
            return self.undecided
        self.common = control_of(self.source, units_of(self.source, self.left))
        self.take_round(self.kept)
        kept = [self.kept, *(f"{self.kept}-{number}" for number in range(1, min(self.lanes.count, self.rounds_left())))]
        for copy in kept[1:]:
            shutil.copytree(self.kept, copy)
        with ThreadPoolExecutor(len(kept)) as pool:
            list(pool.map(self.take_rounds, kept))
        return self.undecided

    def rounds_left(self):
        """How many rounds the edits that are left need, at least."""
        count, left = 0, self.left
        while left:
            _, left = next_round(self.source, left, self.common)
            count += 1
        return count

    def take_rounds(self, kept):
        """Tries one round after another over the work that a folder keeps, until no edit is left."""
        while self.take_round(kept):
            pass

    def take_round(self, kept):
        """Tries one round over the work that a folder keeps. Returns whether an edit was left for it."""
        with self.lanes.one(self.weight):
            with self.lock:
                if not self.left:
                    return False
                turn, self.left = next_round(self.source, self.left, self.common)
            found = run_round(self.source, turn, kept)
            with self.lock:
                self.left = self.judged(turn, found, kept) + self.left
        return True

    def judged(self, turn, found, kept):
        """Notes what a round decides, and returns what is to be tried again."""
        self.seconds, self.rounds = self.seconds + found.seconds, self.rounds + 1
        if not found.lines:
            return self.readable(turn.trials, found, kept)
        is_sound = not found.is_refused(f"{self.source.crate.name}::{turn.control.name}")
        if not is_sound:
            self.controls.append(turn.control.name)
        again = []
        for trial in turn.trials:
            verdict, goals = self.verdict(trial, found)
            if verdict.word == "refused":
                self.refused(trial.edit.name, "refused at", verdict.goal, is_sound)
                self.goals[trial.edit.name] = goals_to_note(self.source, trial, verdict.goal, found)
            elif trial.edit.goals and not trial.searched:
                again.append(trial.bare())
            elif verdict.word == "open":
                again.append(trial._replace(searched=goals))
            else:
                self.undecided.append((trial, verdict))
        return again

    def verdict(self, trial, found):
        """The verdict of a check on an edit, and the goals by function for which a search is to be written out."""
        split = {}
        for it in trial.concerned(self.source):
            named = trial.named(it)
            refusals = refusals_of(self.source.crate, it, found)
            if named:
                refusals = [of for of in refusals if of.goal.removesuffix(BESIDE) in named]
            alone = set(named) - set(answered_goals(folder_of(it, pathlib.Path(self.source.crate.folder))))
            split[it.name] = with_sought(refusals, alone)
        goals = {name: open_goals(answers) for name, (answers, _) in split.items()}
        searched = {goal: how for goals in trial.searched.values() for goal, how in goals.items()}
        verdict = verdict_of(trial.edit, [it for answers, _ in split.values() for it in answers], searched)
        sought = [it for _, sought in split.values() for it in sought]
        if verdict.word == "open" and sought:
            left = {goal: how for of in goals.values() for goal, how in of.items()}
            beside = verdict_of(trial.edit, sought, left)
            verdict = beside if beside.word == "refused" else verdict
        return verdict, goals

    def readable(self, trials, found, kept):
        """The trials of a round that no function was checked in, without those that the front end refuses."""
        files, read = set(FRONT.findall(found.said)), []
        for trial in trials:
            is_near = not files or files & {file for file, _, _ in trial.edit.pairs}
            alone = run_alone(self.source, trial, kept, ["--only", ""]) if is_near else None
            self.seconds += alone.seconds if alone else 0
            why = FRONT.search(alone.said) if alone else None
            if why:
                line = alone.said[why.start() :].partition("\n")[0]
                self.tell(trial.edit.name, False, f"BAD EDIT: it isn't read: {line}")
            else:
                read.append(trial)
        if len(read) == len(trials):
            where = self.source.crate.name
            raise SystemExit(f"{where}: a round isn't read, and each of its edits is: {found.said[-900:]}")
        return read

    def alone(self, trial, verdict):
        """Tries an edit by itself that no round decided."""
        if verdict.word in ("files", "end", "limit"):
            return self.tell(trial.edit.name, False, f"{WHY[verdict.word]}: {verdict.goal}")
        with self.lanes.one(self.weight):
            found = run_alone(self.source, trial, self.kept, [])
        self.seconds += found.seconds
        if not found.lines:
            return self.tell(trial.edit.name, False, f"NOT TRIED: its check tells of no function: {found.said.strip()[-300:]}")
        verdict, _ = self.verdict(trial, found)
        if verdict.word == "refused":
            return self.refused(trial.edit.name, "refused alone at", verdict.goal)
        if verdict.word != "proved":
            return self.tell(trial.edit.name, False, f"{WHY.get(verdict.word, verdict.word)}: {verdict.goal}")
        names = [f"{self.source.crate.name}::{it.name}" for it in trial.concerned(self.source)]
        return self.tell(trial.edit.name, False, f"NOT REFUSED: {without_refusal(names, found)}")

    def all(self):
        """Tries all edits of the crate."""
        with tempfile.TemporaryDirectory(prefix="edits-kept-") as folder:
            self.kept = f"{folder}/kept"
            pathlib.Path(self.kept).mkdir()
            for trial, verdict in self.in_rounds(self.trials()):
                self.alone(trial, verdict)
        return self
