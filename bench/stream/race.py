#!/usr/bin/env python3
"""Prints how fast a direction in stream mode is beside the plain programs, in six shapes.

usage: race.py ROUNDS STREAM PIPE CHANNEL

The pipe of the system runs twice, once as it is made, with 65,536 bytes, and once with the most that any process may ask
for, 1,048,576. The programs run in turn, ROUNDS times each, and the one that goes first moves on by one each round. Of
each: million writes a second, and processor seconds, as medians with the least and the most after them; a share is the
speed of the library as a part of the other's in the same round, by elapsed time and by processor time. All of a run
counts, the start of the threads too."""
import os
import statistics
import sys
import time

# How many writers, how many writes of each, and of how many bytes.
SHAPES = [
    (1, 1_000_000, 16),
    (4, 250_000, 16),
    (16, 50_000, 16),
    (64, 12_000, 16),
    (4, 100_000, 1_024),
    (1, 20_000, 65_536),
]
WIDEST = "1048576"


def run(words):
    out, into = os.pipe()
    begun = time.perf_counter()
    pid = os.fork()
    if pid == 0:
        os.dup2(into, 1)
        os.execv(words[0], words)
    os.close(into)
    _, status, usage = os.wait4(pid, 0)
    elapsed = time.perf_counter() - begun
    with os.fdopen(out, "rb") as lines:
        said = lines.read().strip()
    if status != 0:
        sys.exit(f"{' '.join(words)} ended with {os.waitstatus_to_exitcode(status)}")
    return elapsed, usage.ru_utime + usage.ru_stime, said


def shown(figures, form):
    return f"{statistics.median(figures):{form}} ({min(figures):{form}} to {max(figures):{form}})"


def main():
    rounds, (stream, pipe, channel) = int(sys.argv[1]), sys.argv[2:5]
    # Of each, the program, and what it is told after the shape.
    programs = {
        "stream": (stream, []),
        "pipe": (pipe, []),
        "wide pipe": (pipe, [WIDEST]),
        "channel": (channel, []),
    }
    names = list(programs)
    print(f"cores: {os.cpu_count()}, medians of {rounds} alternating rounds, least and most")
    for writers, writes, size in SHAPES:
        words = [str(writers), str(writes), str(size)]
        runs = {name: [] for name in names}
        for number in range(rounds):
            first = number % len(names)
            for name in names[first:] + names[:first]:
                program, more = programs[name]
                runs[name].append(run([program] + words + more))
        said = {each[2] for of_one in runs.values() for each in of_one}
        if said != {str(writers * writes * size).encode()}:
            sys.exit(f"the programs differ: {said}")
        print(f"{writers} writers, {writes} writes each, of {size} bytes")
        for name in names:
            line = f"  {name:9} {shown([writers * writes / 1e6 / each[0] for each in runs[name]], '7.3f')}"
            line += f"  {shown([each[1] for each in runs[name]], '6.2f')}"
            if name != "stream":
                pairs = list(zip(runs["stream"], runs[name]))
                line += f"  stream: {shown([theirs[0] / ours[0] for ours, theirs in pairs], '.2f')} of its speed"
                line += f", {shown([theirs[1] / ours[1] for ours, theirs in pairs], '.2f')} by processor time"
            print(line, flush=True)


if __name__ == "__main__":
    main()
