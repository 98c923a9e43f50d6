#!/usr/bin/env python3
"""Lets bounded queues pass blocks of 8 bytes in turn, and prints their speed.

usage: race.py ROUNDS MESSAGES QUEUES SYNC_CHANNEL

Producers, one or four, put blocks that were made beforehand, and one consumer takes until it has all. Each thread is
pinned to a core, as many threads to each core as to the next, while all threads sleep; then they begin together. The
time is the consumer's, from there to the last block. A round is one run of each queue, in an order that moves on from
round to round. What is printed are medians of the rounds, with the least and the greatest."""
import os
import statistics
import subprocess
import sys
import time

SHAPES = [(1, 16), (4, 16), (1, 1024), (4, 1024)]
SIDES = ["ring", "array", "channel", "sync_channel"]
NAMES = {"ring": "ring", "array": "ArrayQueue", "channel": "kit's channel", "sync_channel": "sync_channel"}


def pin(pid, threads, cores):
    """Pins the threads of a program, which sleep for 100 milliseconds first. False where they did not all appear."""
    tasks = f"/proc/{pid}/task"
    deadline = time.monotonic() + 10
    while time.monotonic() < deadline:
        try:
            found = sorted(map(int, os.listdir(tasks)))
        except FileNotFoundError:
            return False
        if len(found) == threads:
            for place, task in enumerate(found):
                os.sched_setaffinity(task, {cores[place % len(cores)]})
            return True
        time.sleep(0.002)
    return False


def run(side, programs, producers, limit, messages, cores):
    """The speed in million blocks a second, or None where the threads could not be pinned."""
    words = [programs[side], side, str(producers), str(limit), str(messages)]
    process = subprocess.Popen(words, stdout=subprocess.PIPE, text=True)
    is_pinned = pin(process.pid, producers + 1, cores)
    out = process.communicate()[0].split()
    if process.returncode != 0 or len(out) != 2 or int(out[0]) != 8 * (messages // producers * producers):
        sys.exit(f"{side} with {producers} producers ended with {process.returncode} and {out}")
    return messages / int(out[1]) * 1e3 if is_pinned else None


def main():
    rounds, messages = int(sys.argv[1]), int(sys.argv[2])
    programs = {side: sys.argv[3] for side in SIDES}
    programs["sync_channel"] = sys.argv[4]
    cores = sorted(os.sched_getaffinity(0))
    print(f"cores: {len(cores)}, million blocks of 8 bytes a second, medians of {rounds} alternating rounds, least and most")
    for producers, limit in SHAPES:
        found = {side: [] for side in SIDES}
        for turn in range(rounds):
            first = turn % len(SIDES)
            for side in SIDES[first:] + SIDES[:first]:
                speed = run(side, programs, producers, limit, messages, cores)
                if speed is not None:
                    found[side].append(speed)
        print(f"{producers} producers, limit {limit}" if producers > 1 else f"1 producer, limit {limit}")
        ring = statistics.median(found["ring"]) if found["ring"] else 0
        for side in SIDES:
            if not found[side]:
                print(f"  {NAMES[side]:14} could not be pinned")
                continue
            middle = statistics.median(found[side])
            spread = f"{middle:7.2f} ({min(found[side]):.2f} to {max(found[side]):.2f})"
            beside = "" if side == "ring" else f"   the ring: {ring / middle:.2f} of it"
            print(f"  {NAMES[side]:14} {spread}{beside}")


if __name__ == "__main__":
    main()
