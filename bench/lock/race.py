#!/usr/bin/env python3
"""Lets two programs that call a counter under a lock run in turn, and prints their speed on 1, 2, 4 and 8 threads.

usage: race.py ROUNDS CALLS LOCKED MUTEX

Each thread of a program is pinned to a core, as many threads to each core as to the next, while all threads sleep; then
they begin together. The history of calls is cut into windows of equally many calls. The threads met in a window where each
made at least a quarter of an equal share of its calls, and the speed is that of the windows in which they met: where a
machine runs the threads one after the other no lock is contended, and both sides show 40 to 60 million applies. A round is
one run of each side. It is left out where the threads met in less than half the windows of either side, or could not be
pinned. One thread meets nobody, so its speed is that of the middle one of its windows, which leaves out those in which
other work had its core. What is printed are medians of the rounds that are left, with the least and the greatest."""
import os
import statistics
import subprocess
import sys
import time

THREADS = [1, 2, 4, 8]
LEAST_MET, LEAST_SHARE = 0.5, 0.25
# A window lasts a millisecond or two where a core has one thread, and some tens of milliseconds, which are several turns
# of the system's scheduler, where threads share a core.
WINDOW, SHARED_WINDOW = 1 << 14, 1 << 18


def pin(pid, threads, cores):
    """Pins the threads of a program, which sleep for 100 milliseconds first. False where they did not all appear."""
    tasks = f"/proc/{pid}/task"
    deadline = time.monotonic() + 0.08
    while time.monotonic() < deadline:
        found = sorted(map(int, os.listdir(tasks)))
        if len(found) == threads:
            for place, task in enumerate(found):
                os.sched_setaffinity(task, {cores[place % len(cores)]})
            return time.monotonic() < deadline
        time.sleep(0.001)
    return False


def run(program, threads, calls, cores):
    """The speed in million applies a second and the share of windows in which the threads met, or None."""
    window = WINDOW if threads <= len(cores) else SHARED_WINDOW
    words = [program, str(threads), str(calls // threads), str(window)]
    process = subprocess.Popen(words, stdout=subprocess.PIPE, text=True)
    is_pinned = pin(process.pid, threads, cores)
    *marks, total = process.communicate()[0].split("\n")[:-1]
    if process.returncode != 0 or int(total) != calls // threads * threads:
        sys.exit(f"{program} on {threads} threads ended with {process.returncode} and {total}")
    if not is_pinned:
        return None
    return speed([tuple(map(int, mark.split())) for mark in marks], threads, window)


def speed(marks, threads, window):
    """The same, of the marks of all threads: in which thread and window, after how many calls of the thread, and when."""
    first, makers = {}, {}
    for mark, after in zip(marks, marks[1:]):
        thread, place, before, nanos = mark
        first[place] = min(first.get(place, nanos), nanos)
        if after[0] == thread and (after[2] - before) * threads >= window * LEAST_SHARE:
            makers[place] = makers.get(place, 0) + 1
    # A window is whole where the next one has a mark too.
    places = [place for place in first if place + 1 in first]
    met = [place for place in places if makers.get(place) == threads]
    if not met:
        return 0.0, 0.0
    spans = [first[place + 1] - first[place] for place in met]
    nanos = sum(spans) if threads > 1 else statistics.median(spans) * len(met)
    return len(met) * window / nanos * 1e3, len(met) / len(places)


def spread(figures, form="7.2f"):
    return f"{statistics.median(figures):{form}} ({min(figures):.2f} to {max(figures):.2f})"


def main():
    rounds, calls = int(sys.argv[1]), int(sys.argv[2])
    programs = sys.argv[3:5]
    cores = sorted(os.sched_getaffinity(0))
    print(f"{len(cores)} cores, million applies a second: the median of the rounds in which the threads met, least to greatest")
    for threads in THREADS:
        kept, shares = [], []
        for number in range(rounds):
            # The side that goes first alternates.
            order = programs if number % 2 == 0 else programs[::-1]
            found = {program: run(program, threads, calls, cores) for program in order}
            ours, theirs = (found[program] for program in programs)
            shares += [side[1] for side in (ours, theirs) if side]
            if ours and theirs and min(ours[1], theirs[1]) >= LEAST_MET:
                kept.append((ours[0], theirs[0]))
        name = f"{threads} thread{'s' if threads > 1 else ' '}"
        if not kept:
            print(f"{name}  the threads met in none of {rounds} rounds")
            continue
        ours, theirs = zip(*kept)
        ratios = [a / b for a, b in kept]
        print(
            f"{name}  Locked {spread(ours)}  Mutex {spread(theirs)}  Locked / Mutex {spread(ratios, '.2f')}"
            f"  rounds {len(kept)} of {rounds}, met in {statistics.median(shares):.0%} of windows",
            flush=True,
        )


main()
