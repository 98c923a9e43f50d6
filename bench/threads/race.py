#!/usr/bin/env python3
"""Prints how fast p9sync threads is beside the plain programs, in six shapes.

usage: race.py ROUNDS P9SYNC NAME=PROGRAM..

Each other program is called with its name, the writers, the writes of each and their size. First each
program's line is compared with the others'. Then they run in turn, ROUNDS times each,
and the one that goes first moves on by one each round. Elapsed time and processor time (of the user
and of the system together) are medians, with the least and the most after them; a share is the
speed of p9sync as a part of the other's in the same round, by elapsed time and by processor time.
All of a run counts, the start of the threads too."""
import os
import statistics
import sys
import time
from typing import NamedTuple

# How many writers, how many writes of each, and of how many bytes.
SHAPES = [
    (1, 100_000, 16),
    (4, 100_000, 16),
    (4, 100_000, 1_024),
    (16, 20_000, 64),
    (64, 5_000, 16),
    (1, 50_000, 8_192),
]


class Run(NamedTuple):
    """One run of a program: the seconds of the clock and of the processor, and what it wrote."""

    elapsed: float
    processor: float
    said: bytes


def run(words):
    out, into = os.pipe()
    begun = time.perf_counter()
    pid = os.fork()
    if pid == 0:
        os.dup2(into, 1)
        os.execv(words[0], words)
    os.close(into)
    _, status, usage = os.wait4(pid, 0)
    elapsed = time.perf_counter() - begun
    with os.fdopen(out, "rb") as lines:
        said = lines.read()
    if status != 0:
        sys.exit(f"{' '.join(words)} ended with {os.waitstatus_to_exitcode(status)}")
    return Run(elapsed, usage.ru_utime + usage.ru_stime, said)


def shown(figures, form):
    return f"{statistics.median(figures):{form}} ({min(figures):{form}} to {max(figures):{form}})"


def compare(programs):
    """Ends where the programs differ in what they say of the messages."""
    said = {name: run(words).said.decode().strip() for name, words in programs.items()}
    if len(set(said.values())) != 1:
        sys.exit(f"the programs differ: {said}")


def time_all(programs, rounds):
    """Of each program, its runs."""
    runs = {name: [] for name in programs}
    names = list(programs)
    for number in range(rounds):
        first = number % len(names)
        for name in names[first:] + names[:first]:
            runs[name].append(run(programs[name]))
    return runs


def report(messages, runs):
    ours = runs["p9sync"]
    for name, of_side in runs.items():
        rates = [messages / 1e6 / each.elapsed for each in of_side]
        line = f"  {name:9} {shown(rates, '7.3f')}"
        line += f"  {shown([each.processor for each in of_side], '6.2f')}"
        if name != "p9sync":
            elapsed = [theirs.elapsed / mine.elapsed for mine, theirs in zip(ours, of_side)]
            processor = [theirs.processor / mine.processor for mine, theirs in zip(ours, of_side)]
            line += f"  p9sync: {shown(elapsed, '.2f')} of its speed"
            line += f", {shown(processor, '.2f')} by processor time"
        print(line, flush=True)


def main():
    rounds, p9sync = int(sys.argv[1]), sys.argv[2]
    others = dict(word.split("=", 1) for word in sys.argv[3:])
    print(f"cores: {os.cpu_count()}, medians of {rounds} alternating rounds, least and most")
    print("of each: million messages a second, processor seconds, and the share of p9sync")
    for writers, writes, size in SHAPES:
        numbers = [str(writers), str(writes), str(size)]
        options = zip(["--writers", "--writes", "--size"], numbers)
        ours = [p9sync, "threads"] + [word for pair in options for word in pair]
        theirs = {name: [program, name] + numbers for name, program in others.items()}
        programs = {"p9sync": ours} | theirs
        compare(programs)
        print(f"{writers} writers, {writes} writes each, of {size} bytes")
        report(writers * writes, time_all(programs, rounds))


if __name__ == "__main__":
    main()
