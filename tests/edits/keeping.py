"""Refusals that an earlier run on this machine saw, as `rt ci` keeps what it proved.

A refusal is kept under the sum of all that it stands on: the kit, the texts of the crate and of those below it, the edit, and the texts of
this runner. So it never goes stale: where anything has changed, there is none under the new sum. Only refusals are kept. The goals that an
edit names are no part of the sum, since they say where to look and not what counts: so a run that writes them needn't be done again.
"""

import hashlib
import os
import pathlib

from crates import RT

HERE = pathlib.Path(__file__).resolve().parent


def store():
    """The folder of what is kept."""
    return pathlib.Path(os.environ.get("XDG_CACHE_HOME") or pathlib.Path.home() / ".cache") / "exprun" / "edits"


def runner():
    """The texts of this runner."""
    return [(it.name, it.read_bytes()) for it in sorted(HERE.glob("*.py"))]


class Keeping:
    """The refusals of a crate's edits that are kept; none where all are to be tried anew."""

    def __init__(self, crate, anew):
        kit = pathlib.Path(RT.KIT, "KIT-ID").read_bytes()
        self.crate, self.anew = crate, anew
        self.sum = hashlib.sha256(repr((kit, crate.stamp(), runner())).encode())

    def place(self, name):
        """The file that keeps the refusal of an edit."""
        sum = self.sum.copy()
        lines = pathlib.Path(self.crate.folder, "edits", f"{name}.edit").read_bytes().split(b"\n")
        sum.update(b"\n".join(it for it in lines if not it.startswith(b"goal: ")))
        return store() / f"{self.crate.name}-{name}-{sum.hexdigest()}"

    def goal_of(self, name):
        """Where an earlier run saw an edit refused, or None."""
        try:
            return None if self.anew else self.place(name).read_text(encoding="utf-8")
        except OSError:
            return None

    def put(self, name, goal):
        """Keeps that an edit was refused at a goal. Written apart and renamed, so that no other run reads half of it."""
        place = self.place(name)
        apart = place.with_name(f"new-{os.getpid()}-{place.name}")
        try:
            place.parent.mkdir(parents=True, exist_ok=True)
            apart.write_text(goal, encoding="utf-8")
            apart.rename(place)
        except OSError:
            # nothing is kept then, and the next run tries it again
            apart.unlink(missing_ok=True)
