#!/usr/bin/env python3
"""Writes a schedule of about 16 MB, the same each time: sleeps and wakeups of all processes, step by step, between each
other, with some notes, drains and checks, and a few events that are refused.

usage: make_schedule.py PROCS RENDEZ"""
import pathlib
import sys

sys.path.insert(0, str(pathlib.Path(__file__).parent.parent))
from script import numbers, write_script

STEP = 10_000_000_000
KINDS = ["interrupt", "hangup", "alarm", "closed", "alarm,interrupt", "interrupt,hangup,alarm,closed", "-"]


class Model:
    """What the schedule has done so far. A call is a sleep or a wakeup: each time that it goes on, it gives its next line.
    It is over before its last line, and its process is idle then."""

    def __init__(self, procs, rendez):
        self.draw = numbers()
        self.calls = [None] * procs
        self.is_marked = [False] * procs
        self.has_notes = [False] * procs
        self.posted = [None] * rendez
        self.level = [0] * rendez

    def sleep(self, p, r, level):
        is_double = self.posted[r] is not None
        if is_double:
            self.calls[p] = None
        else:
            self.posted[r] = p
        yield f"post {p} {r} {level}\n"
        is_leaving, is_woken = self.level[r] > level, False
        yield f"test {p}\n"
        while not is_leaving and not is_woken:
            if next(self.draw) & 7 == 0:
                yield f"check {p}\n"
            is_woken = self.is_marked[p]
            is_leaving = self.has_notes[p] and not is_woken
            # A process with nothing to see looks in vain now and then; most times it is passed over.
            is_passed_over = not is_leaving and not is_woken and next(self.draw) & 7
            yield "" if is_passed_over else f"look {p}\n"
        if is_leaving:
            is_out = self.posted[r] == p
            if is_out:
                self.posted[r] = None
            yield f"withdraw {p}\n"
            while not is_out:
                is_out = self.is_marked[p]
                yield f"look {p}\n"
        self.is_marked[p] = self.has_notes[p] = False
        self.calls[p] = None
        yield f"clear {p}\n"

    def wakeup(self, p, r, level):
        self.level[r] = max(self.level[r], level)
        yield f"raise {p} {r} {level}\n"
        sleeper = self.posted[r]
        self.posted[r] = None
        if sleeper is None:
            self.calls[p] = None
        yield f"take {p}\n"
        self.is_marked[sleeper] = True
        self.calls[p] = None
        yield f"mark {p}\n"

    def begin(self, p, n):
        """A call of an idle process: a sleep in any Rendez, or a wakeup where somebody sleeps, if one is found soon."""
        r = n % len(self.level)
        if n >> 16 & 7 < 3:
            # One sleep of four asks for a level that was passed already.
            below = n >> 20 & 3 == 0 and self.level[r] > 0
            return self.sleep(p, r, self.level[r] - below)
        for _ in range(8):
            place = next(self.draw) % len(self.level)
            if self.posted[place] is not None:
                r = place
                break
        return self.wakeup(p, r, self.level[r] + next(self.draw) % STEP)

    def refused(self, p, n):
        """A line that changes nothing: of no process or no Rendez, with a bad level, or in the wrong phase."""
        procs, rendez = len(self.calls), len(self.level)
        if self.calls[p] is not None:
            ways = [f"post {p} {n % rendez} 1\n", f"raise {p} {n % rendez} 1\n", f"drain {p}\n"]
            return ways[(n >> 16) % len(ways)]
        ways = [f"{verb} {p}\n" for verb in ("test", "look", "withdraw", "clear", "take", "mark", "check")]
        ways += [f"test {procs}\n", f"post {p} {rendez} 1\n", f"post {p} {n % rendez} {2**64 - 1}\n"]
        return ways[(n >> 16) % len(ways)]

    def lines(self):
        yield f"world {len(self.calls)} {len(self.level)}\n"
        while True:
            n = next(self.draw)
            p = n % len(self.calls)
            what, n = n >> 16 & 63, n >> 22
            if what == 0:
                yield self.refused(p, n)
            elif what == 1:
                kinds = KINDS[n % len(KINDS)]
                self.has_notes[p] |= kinds != "-"
                yield f"note {p} {kinds}\n"
            elif what == 2 and self.calls[p] is None:
                self.has_notes[p] = False
                yield f"drain {p}\n"
            else:
                if self.calls[p] is None:
                    self.calls[p] = self.begin(p, n)
                call = self.calls[p]
                yield next(call)


if __name__ == "__main__":
    procs, rendez = map(int, sys.argv[1:])
    write_script(Model(procs, rendez).lines())
