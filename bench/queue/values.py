#!/usr/bin/env python3
"""Lets bounded queues pass numbers in turn, and prints their speed.

usage: values.py ROUNDS NUMBERS VALUES RUST [GO]

The sides are the queue of `plan9`, the kit's bounded channel, Rust's sync_channel, crossbeam's bounded channel where RUST has it, and
a channel of Go's where there is a GO. Senders send so many numbers among them, and receivers receive until all is sent and hung up.
Each thread is pinned to a core, as many threads to each core as to the next, while all sleep; then they begin together. Go places its
own. The time is that of the thread that took longest. A round is one run of each side, in an order that moves on from round to round.
What is printed are medians of the rounds, with the least and the greatest."""
import os
import statistics
import subprocess
import sys
import time

SHAPES = [(1, 1, 16), (4, 1, 16), (4, 4, 16), (1, 1, 1024), (4, 1, 1024), (4, 4, 1024)]
NAMES = {"queue": "plan9's queue", "channel": "kit's channel", "sync_channel": "sync_channel", "crossbeam": "crossbeam", "go": "Go's channel"}


def pin(pid, least, cores):
    """Pins the threads of a program halfway through the 100 milliseconds that they sleep first. False where some are not there."""
    time.sleep(0.05)
    tasks = sorted(map(int, os.listdir(f"/proc/{pid}/task")))
    for place, task in enumerate(tasks):
        os.sched_setaffinity(task, {cores[place % len(cores)]})
    return len(tasks) >= least


def run(side, program, shape, numbers, cores):
    """The speed in million numbers a second, or None where the threads could not be pinned."""
    senders, receivers, capacity = shape
    process = subprocess.Popen([program, side, *map(str, shape), str(numbers)], stdout=subprocess.PIPE, text=True)
    is_pinned = side == "go" or pin(process.pid, senders + receivers, cores)
    out = process.communicate()[0].split()
    each = numbers // senders
    if process.returncode != 0 or len(out) != 2 or int(out[0]) != senders * (each * (each - 1) // 2):
        sys.exit(f"{side} with {shape} ended with {process.returncode} and {out}")
    return senders * each / int(out[1]) * 1e3 if is_pinned else None


def main():
    rounds, numbers = int(sys.argv[1]), int(sys.argv[2])
    programs = {"queue": sys.argv[3], "channel": sys.argv[3], "sync_channel": sys.argv[4]}
    if subprocess.run([sys.argv[4], "crossbeam", "1", "1", "1", "1"], capture_output=True, check=True).stdout:
        programs["crossbeam"] = sys.argv[4]
    if len(sys.argv) > 5:
        programs["go"] = sys.argv[5]
    sides, cores = list(programs), sorted(os.sched_getaffinity(0))
    print(f"cores: {len(cores)}, million numbers a second, medians of {rounds} alternating rounds, least and most")
    for shape in SHAPES:
        found = {side: [] for side in sides}
        for turn in range(rounds):
            first = turn % len(sides)
            for side in sides[first:] + sides[:first]:
                speed = run(side, programs[side], shape, numbers, cores)
                if speed is not None:
                    found[side].append(speed)
        print("{} to {}, capacity {}".format(*shape))
        ours = statistics.median(found["queue"]) if found["queue"] else 0
        for side in sides:
            if not found[side]:
                print(f"  {NAMES[side]:14} could not be pinned")
                continue
            middle = statistics.median(found[side])
            spread = f"{middle:7.2f} ({min(found[side]):.2f} to {max(found[side]):.2f})"
            beside = "" if side == "queue" else f"   plan9's: {ours / middle:.2f} of it"
            print(f"  {NAMES[side]:14} {spread}{beside}")


if __name__ == "__main__":
    main()
