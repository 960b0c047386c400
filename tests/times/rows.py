"""Rows of tests/times/measure: a stage, a crate or `-`, and processor seconds, between tabs. A line that begins with # is a comment."""

# the stages whose seconds are told by crate
BY_CRATE = ("proof", "tests", "edits in rounds")


def read(file):
    """The seconds by stage and crate. Rows of the same crate and stage are added up; other stages have no crates."""
    rows = {}
    with open(file, encoding="utf-8") as it:
        for line in it:
            if not line.startswith("#"):
                stage, crate, seconds = line.rstrip("\n").split("\t")
                work = stage, crate if stage in BY_CRATE else "-"
                rows[work] = rows.get(work, 0) + float(seconds)
    return rows
