#!/usr/bin/env python3
"""Compares two programs that answer scripts: first what they say to each example and each script, and then their speed.

usage: measure.py COMMAND PLAIN P9SYNC SCRIPT...; COMMAND is pipe or replay

Each program runs ROUNDS times on each script, in turn, and the one that goes first alternates. The script is on standard
input, the answers go to /dev/null, and the environment is the one that the launcher gives. Figures are medians, with the
least and the greatest after them. Processor time is that of the user and of the system together. A share is p9sync's
speed as a part of the plain program's in one round. Peak memory is the greatest of all rounds. Of several scripts, it also
prints how the processor time of a line in the last compares with that in the first."""
import filecmp
import os
import pathlib
import statistics
import sys
import tempfile
import time
from typing import NamedTuple

ROUNDS = 9
TOP = pathlib.Path(__file__).resolve().parent.parent
# What the launcher sets for large pages, which the plain program asks for itself. Both run with it.
ENVIRONMENT = {**os.environ, "GLIBC_TUNABLES": "glibc.malloc.hugetlb=1"}


class Run(NamedTuple):
    """One run of a program: how it ended, the seconds of the processor and of the clock, and the peak memory in KiB."""

    status: int
    processor: float
    elapsed: float
    peak: int


def run(words, script, answers=os.devnull, faults=os.devnull):
    start = time.perf_counter()
    pid = os.fork()
    if pid == 0:
        make = os.O_WRONLY | os.O_CREAT | os.O_TRUNC
        os.dup2(os.open(script, os.O_RDONLY), 0)
        os.dup2(os.open(answers, make, 0o644), 1)
        os.dup2(os.open(faults, make, 0o644), 2)
        os.execve(words[0], words, ENVIRONMENT)
    _, status, usage = os.wait4(pid, 0)
    elapsed = time.perf_counter() - start
    return Run(os.waitstatus_to_exitcode(status), usage.ru_utime + usage.ru_stime, elapsed, usage.ru_maxrss)


def compare(programs, scripts):
    """Ends where the programs differ in their answers, their faults or how they end."""
    filecmp.clear_cache()
    with tempfile.TemporaryDirectory() as made:
        said = [[os.path.join(made, f"{kind}{number}") for kind in ("answers", "faults")] for number in range(2)]
        for script in scripts:
            ends = [run(words, script, *files).status for words, files in zip(programs, said)]
            # Read piece by piece, since the memory of this process counts as that of what it runs.
            if ends[0] != ends[1] or not all(filecmp.cmp(*pair, shallow=False) for pair in zip(*said)):
                sys.exit(f"{script}: the answers differ")


def time_all(programs, scripts, rounds=ROUNDS):
    """Of each script, the runs of each program."""
    runs = {script: ([], []) for script in scripts}
    for number in range(rounds):
        for script in scripts:
            for side in (0, 1) if number % 2 == 0 else (1, 0):
                result = run(programs[side], script)
                if result.status != 0:
                    sys.exit(f"{programs[side]} ended with {result.status} on {script}")
                runs[script][side].append(result)
    return runs


def shares(plain, ours, field):
    return [getattr(a, field) / getattr(b, field) for a, b in zip(plain, ours)]


def spread(figures, form=".2f"):
    return f"{statistics.median(figures):{form}} ({min(figures):{form}} to {max(figures):{form}})"


def count_lines(script):
    with open(script, "rb") as file:
        return sum(part.count(b"\n") for part in iter(lambda: file.read(1 << 16), b""))


def examples(command):
    found = sorted((TOP / "examples" / command).glob("*.script"))
    if not found:
        sys.exit(f"there are no examples of {command}")
    return found


def report(script, runs):
    megabytes, lines = os.path.getsize(script) / 1e6, count_lines(script)
    print(f"{os.path.basename(script)}: {megabytes:.1f} MB, {lines} lines, {os.cpu_count()} cores, {len(runs[0])} rounds")
    for name, of_side in zip(("plain", "p9sync"), runs):
        for field in ("processor", "elapsed"):
            seconds = [getattr(each, field) for each in of_side]
            middle = statistics.median(seconds)
            print(
                f"  {name:6} {field:9} {spread([1e3 * each for each in seconds], '5.1f')} ms"
                f"  {megabytes / middle:5.0f} MB/s  {lines / middle / 1e6:6.2f} million lines/s"
            )
        print(f"  {name:6} peak memory {max(each.peak for each in of_side) / 1024:.1f} MB")
    for field in ("processor", "elapsed"):
        print(f"  p9sync has {spread(shares(*runs, field))} of the plain program's speed by {field} time")


def main():
    command, plain, p9sync, *scripts = sys.argv[1:]
    programs = [[plain], [p9sync, command]]
    compare(programs, examples(command) + scripts)
    print(f"both say the same to {len(examples(command))} examples and {len(scripts)} scripts")
    runs = time_all(programs, scripts)
    for script in scripts:
        report(script, runs[script])
    if len(scripts) > 1:
        first, last = scripts[0], scripts[-1]
        for side, name in enumerate(("plain", "p9sync")):
            each = [statistics.median(r.processor for r in runs[s][side]) / count_lines(s) for s in (first, last)]
            names = os.path.basename(last), os.path.basename(first)
            print(f"{name} takes {each[1] / each[0]:.2f} times as long for a line of {names[0]} as of {names[1]}")


if __name__ == "__main__":
    main()
