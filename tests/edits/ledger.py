"""The ledger of landings: which edits a gate takes as refused without a trial.

`tests/edits/ledger/LANDING` says which landing is under way, and its base: the commit on which it stands, the last one that passed
the gate. There each edit was tried, or taken as refused. The gate compares an edit with what it was at the base (keys.py):

- It is new, or its own text, its functions or their proofs have changed: it is tried.
- Only what these rest on has changed (contracts, lemmas, definitions, types): one in four is tried, by turns.
- Nothing has changed: one in twelve is tried, by turns.

So no edit goes untried for more than twelve landings. Where the kit's logic or a file that decides what counts as a refusal is
another than at the base, all are tried.

A clone of the repository doesn't say where a landing begins, so the base is recorded. It must be a commit below HEAD; if HEAD
has commits that `origin/main` lacks, it must be below what the two share; and the number must be one more than at the base.
Without git or a whole history, and if the record doesn't hold, all are tried.
"""

import hashlib
import io
import pathlib
import re
import subprocess
import tarfile
import tempfile

from crates import RT, crates_of
from keys import keys_of

PLACE = "tests/edits/ledger/LANDING"
LANDING = re.compile(r"landing (\d+)\nbase ([0-9a-f]{40})\n")
# Of the edits that are as they were, and of those of which only what they rest on has changed, one in so many is tried.
KEPT, MOVED = 12, 4
# The files of this runner that decide what counts as a refusal.
DECIDING = ("checks", "copies", "edits", "functions", "rounds", "searches", "trying", "verdicts")


def turn_of(crate, name, turns):
    """The turn at which an edit is tried."""
    return int(hashlib.sha256(f"{crate}/{name}".encode()).hexdigest(), 16) % turns


def logic_in(text):
    """The sum of a kit's logic, which stands behind the kit's name."""
    found = re.search(r" logic (\S+)", text)
    return found[1] if found else None


class Ledger:
    """The landing that is under way, and the keys at its base. Faults says what is wrong with the record, if anything."""

    def __init__(self, top, anew=False):
        self.top, self.faults = pathlib.Path(top), []
        self.number, self.base, self.keys, self.why = 0, None, {}, "there is no record of the landing"
        is_whole = self.git("rev-parse", "--is-shallow-repository").strip() == "false"
        if anew:
            self.why = "anew"
        elif not ((self.top / ".git").exists() and is_whole and self.git("rev-parse", "--verify", "HEAD^{commit}")):
            self.why = "git or the whole history is missing"
        elif (self.top / PLACE).is_file():
            self.read_landing()
        if self.base:
            self.read_base()

    def said(self):
        """What is taken as refused, as a line."""
        if not self.base:
            return f"all edits are tried but those kept on this machine: {self.why}"
        return f"landing {self.number} on {self.base[:12]}; of edits as they were there one in {KEPT} is tried, with other contracts one in {MOVED}"

    def run_git(self, *words):
        """What git says in the working copy as bytes, or nothing where it fails or there is none."""
        try:
            done = subprocess.run(["git", "-C", str(self.top), *words], capture_output=True, check=False)
        except OSError:
            return b""
        return done.stdout if done.returncode == 0 else b""

    def git(self, *words):
        """The same as text."""
        return self.run_git(*words).decode()

    def is_below(self, commit, other):
        """Whether a commit is another one or an ancestor of it."""
        return self.git("merge-base", commit, other).strip() == commit

    def at_base(self, path):
        """The text of a file at the base."""
        return self.git("show", f"{self.base}:{path}")

    def read_landing(self):
        """Takes the number and the base from the record, and notes what is wrong with them."""
        self.why = "the record of the landing doesn't hold"
        found = LANDING.fullmatch((self.top / PLACE).read_text(encoding="utf-8"))
        if found is None:
            self.faults.append("it isn't `landing NUMBER` and `base COMMIT`")
            return
        self.number, base = int(found[1]), found[2]
        before = LANDING.fullmatch(self.git("show", f"{base}:{PLACE}"))
        before = int(before[1]) if before else 0
        head = self.git("rev-parse", "HEAD").strip()
        shared = self.git("merge-base", "HEAD", "origin/main").strip() or head
        if not self.is_below(base, head):
            self.faults.append(f"the base {base[:12]} is no commit below HEAD")
        elif shared != head and not self.is_below(base, shared):
            self.faults.append(f"the base {base[:12]} is a commit of this landing, which begins behind {shared[:12]}")
        elif self.number != before + 1:
            self.faults.append(f"its number is {self.number}, and at the base it is {before}")
        else:
            self.base = base

    def read_base(self):
        """Takes the keys at the base, unless the kit or this runner judges otherwise than there."""
        deciding = [it for it in DECIDING if self.at_base(f"tests/edits/{it}.py") != self.own_text(f"tests/edits/{it}.py")]
        if deciding:
            self.base, self.why = None, f"tests/edits/{deciding[0]}.py is another than at the base"
        elif logic_in(pathlib.Path(RT.KIT, "KIT-ID").read_text(encoding="utf-8")) != logic_in(self.at_base("built/BUILT")):
            self.base, self.why = None, "the kit's logic is another than that of built/BUILT at the base"
        else:
            with tempfile.TemporaryDirectory(prefix="exprun-base-") as folder:
                with tarfile.open(fileobj=io.BytesIO(self.run_git("archive", self.base, "crates.txt", "crates"))) as packed:
                    packed.extractall(folder, filter="data")
                self.keys = keys_of(crates_of(folder))

    def own_text(self, path):
        """The text of a file in the working copy."""
        file = self.top / path
        return file.read_text(encoding="utf-8") if file.is_file() else ""

    def of(self, crate, keys):
        """The ledger of a crate, given the keys of its edits."""
        return CrateLedger(self, crate, keys)


class CrateLedger:
    """What the ledger says of one crate's edits, whose keys now are given by name."""

    def __init__(self, ledger, crate, keys):
        self.ledger, self.crate, self.keys, self.old = ledger, crate, keys, ledger.keys.get(crate, {})

    def turns(self, name):
        """In how many landings an edit is tried once: 1 where it is tried now in any case."""
        old, now = self.old.get(name), self.keys.get(name)
        if not self.ledger.base or old is None or now is None or old.own != now.own:
            return 1
        return KEPT if old.rests == now.rests else MOVED

    def goal_of(self, name):
        """Where an edit was refused, if it isn't tried now: at the base, or before."""
        turns = self.turns(name)
        is_due = turn_of(self.crate, name, turns) == self.ledger.number % turns
        return None if is_due else "a goal at the base or before"
