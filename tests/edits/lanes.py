"""Lanes: how many checks run side by side."""

import contextlib
import heapq
import itertools
import os
import pathlib
import threading

# What a check takes at most, in KiB.
ROOM = 3_500_000
# How long a check that waits for memory waits before it looks again, in seconds.
PAUSE = 1


def count_of_lanes():
    """How many checks run side by side: as RT_JOBS says, or one a processor."""
    number = os.environ.get("RT_JOBS", "")
    return int(number) if number.isdigit() and int(number) else len(os.sched_getaffinity(0))


def has_room():
    """Whether memory holds one more check, and as much again for the checks that are still growing."""
    rows = dict(line.split(":") for line in pathlib.Path("/proc/meminfo").read_text().splitlines())
    return int(rows["MemAvailable"].split()[0]) > 2 * ROOM


class Lanes:
    """The lanes of a run. Of the checks that wait for one the heaviest is next, and of those with one weight the first."""

    def __init__(self):
        self.count, self.running, self.waiting = count_of_lanes(), 0, []
        self.numbers, self.changed = itertools.count(), threading.Condition()

    def is_free(self):
        """Whether one more check may begin."""
        return self.running < self.count and (not self.running or has_room())

    @contextlib.contextmanager
    def one(self, weight):
        """A lane for a check, once one is free."""
        turn = (-weight, next(self.numbers))
        with self.changed:
            heapq.heappush(self.waiting, turn)
            while self.waiting[0] != turn or not self.is_free():
                self.changed.wait(PAUSE)
            heapq.heappop(self.waiting)
            self.running += 1
            self.changed.notify_all()
        try:
            yield
        finally:
            with self.changed:
                self.running -= 1
                self.changed.notify_all()
