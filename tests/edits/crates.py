"""The crates of a repository as the kit's `rt` sees them, and whether what lies below one is built."""

import os
import pathlib
import sys

sys.path.append(str(pathlib.Path(__file__).resolve().parent.parent.parent / "tools"))

from kit import kit_library  # noqa: E402

RT = kit_library()


def once(stamp):
    """The stamp of a crate, computed once for each object: it asks for those of all crates below, by each way to them."""

    def call(crate):
        if "once" not in vars(crate):
            crate.once = stamp(crate)
        return crate.once

    return call


RT.Crate.stamp = once(RT.Crate.stamp)


def crates_of(top):
    """The crates that the repository at a folder lists, lowest first."""
    return sorted(RT.crates_below(str(top)), key=lambda it: len(it.below()))


def check_words(crate):
    """The command that checks a crate from nothing at one job, in a folder with its src, specs and proofs."""
    return [RT.RATTLE, "check", *crate.words(["--jobs", "1"], keeps=False)]


def youngest_text(crate):
    """When the last of a crate's texts was written, in seconds."""
    files = RT.files_of(crate.folder)
    return max(os.stat(file).st_mtime for file in files)


def why_not_over(crate):
    """Why a crate can't be checked over what is built below it, or None.

    What `rt lib` and `rt check` built has a stamp of the texts that it was made from. What `rt ci` left has none: it
    must have been put there behind the texts. (The files may be older, since `rt ci` gives what it kept of an earlier run
    a second name here; the folder they stand in is this checkout's own.)
    """
    youngest = 0.0
    for below in crate.below():
        youngest = max(youngest, youngest_text(below))
        made = pathlib.Path(below.rlib) / "format"
        if not made.is_file():
            return f"{below.name} isn't built: run `rt lib` in crates/{below.name}, or `rt ci`"
        is_stamped = (made.parent.parent / "stamp").is_file()
        if not (below.is_built() if is_stamped else youngest < made.parent.stat().st_mtime):
            again = f"run `rt lib` in crates/{below.name}, or remove crates/*/out and run `rt ci`"
            return f"what is built of {below.name} is stale: {again}"
    return None
