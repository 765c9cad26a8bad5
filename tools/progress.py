"""Prints which crate of how many is done, after how long, and about how long the others take.

The time that is left is that of the other crates by seconds.txt, at the speed so far. So it fits a machine that is slower
than the one which measured, once some crates are done.
"""
import os
import statistics
import sys
import threading
import time

TABLE = f"{os.path.dirname(os.path.realpath(__file__))}/seconds.txt"
# So many seconds count as if they had gone at full speed, since the first crates say little of the speed.
FULL = 60


def table():
    """The seconds of the table by name."""
    with open(TABLE, encoding="utf-8") as it:
        rows = [line.split() for line in it if not line.startswith("#")]
    return {name: int(seconds) for name, seconds in rows}


def seconds_of(name):
    """The seconds of the processor that a crate takes: one that is not in the table takes as long as most do."""
    found = table()
    return found.get(name, int(statistics.median(found.values())))


class Progress:
    """The progress of some crates, of which so many are worked on at once. `after` has the seconds of what comes after them."""

    def __init__(self, names, lanes, after=0, out=None):
        self.work, self.lanes, self.after, self.out = {name: seconds_of(name) for name in names}, lanes, after, out or sys.stdout
        self.left, self.lock, self.start = dict(self.work), threading.Lock(), time.monotonic()
        # The time at which the last crate was done, and the time that it took to find those that nothing had to be done for.
        self.last, self.kept = self.start, 0

    def minutes_left(self, gone):
        """About how many minutes are left after so many seconds of work."""
        left = sum(self.left.values())
        speed = (sum(self.work.values()) - left + FULL * self.lanes) / (gone + FULL)
        return round((left / speed + self.after) / 60)

    def say(self, name, what, is_done=True):
        """Says what has become of a crate. One that nothing had to be done for says nothing of the speed."""
        with self.lock:
            self.left.pop(name, None)
            now = time.monotonic()
            if not is_done:
                self.work[name], self.kept = 0, self.kept + now - self.last
            self.last = now
            minutes, seconds = divmod(int(now - self.start), 60)
            rest = self.minutes_left(now - self.start - self.kept)
            about = f", about {rest} min left" if rest else ""
            place = f"[{minutes:2}:{seconds:02}] {len(self.work) - len(self.left):2} of {len(self.work)}"
            print(f"{place}  {name}: {what}{about}", file=self.out, flush=True)
