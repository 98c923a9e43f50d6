"""The machine of events and the machine of calls beside each other: what fails where the two differ."""
import collections

from explored.agreement import fail, second_reader
from explored.calls import CallMachine
from explored.classics import STATES
from explored.machine import Machine
from explored.maker import random_program
from explored.program import EXPIRED, TIMED, bits_of, program_of
from explored.searching import LIMIT, search

# Which random programs are compared. Those with branches, and those with deadlines, are of devices.
KINDS = ("core", "devices", "locks", "branches", "deadlines")
# How many states a program has at most by events: those with few steps have as many kinds of steps, and are quickly searched.
FEWER = 2000


def posts_expired(program):
    """Whether a `note` posts `expired` to a process that has calls with a deadline. By events a note that comes before what a call
    waits for ends the wait. By calls it may go on all the same, and if a tick took its timer by then, its wait for the note of the
    tick takes this one too."""
    timed = {pid for pid, row in enumerate(program.calls) for words in row if words[0] in TIMED}
    return any(words[0] == "note" and words[1] in timed and bits_of(words[2]) & EXPIRED for row in program.calls for words in row)


def shape_of_events(machine, state):
    """What both machines have of a state in which no process can make a step."""
    posted, level, flags, procs, (members, semas, pipes, timers) = state
    own = machine.program.own
    return (posted[:own], level[:own], flags, sources(machine, procs),
            tuple(tag if stage == "waiting" else None for _, stage, tag, _ in members),
            tuple((value, waiters) for value, waiters, *_ in semas),
            tuple((tuple((size, None) for size, _ in writes), rest, hung) for _, writes, rest, hung in pipes), timers)


def shape_of_calls(machine, state):
    posted, level, flags, procs, devices = state
    return posted, level, flags, sources(machine, procs), *devices


def sources(machine, procs):
    """Where in its lines each process is."""
    return tuple(machine.program.source(pid, over) for pid, (over, _, _) in enumerate(procs))


def found_differ(program, events, calls, written_out=None):
    """Where the search of a program by calls differs from that by events, or None. The events may have been those of the program with its
    loops written out."""
    machine, other = CallMachine(program), Machine(written_out or program)
    ours, others = {shape_of_calls(machine, state) for state in calls.last}, {shape_of_events(other, state) for state in events.last}
    if not (others <= ours if posts_expired(program) else others == ours):
        return f"so many last states are those of one machine only: of events {len(others - ours)}, of calls {len(ours - others)}"
    if events.branched - calls.branched or ours == others and calls.branched != events.branched:
        return f"by one machine only these answers lead past a call: {events.branched ^ calls.branched}"
    said = [(found.nevers.keys(), found.stuck is None, found.ends, found.caught is None) for found in (events, calls)]
    if ours == others and said[0] != said[1]:
        return f"by events it is {events.verdict}, and by calls {calls.verdict}"


def grains_differ(program, events):
    """Where the search by calls differs from this one by events, or None. Also what it found."""
    calls = search(CallMachine(program), events.states + LIMIT)
    return found_differ(program, events, calls), calls


def smallest(program):
    """A program that differs too, and none of those that lack a call, a device or a process more."""
    for candidate in program.smaller():
        found = candidate and not second_reader(candidate) and search(Machine(candidate), LIMIT)
        if found and grains_differ(candidate, found)[0]:
            return smallest(candidate)
    return program


def has_its_states():
    """Some programs have by calls as many states as is known."""
    for lines, states in STATES:
        found = search(CallMachine(program_of("\n".join(lines))), LIMIT)
        if (found.states, found.verdict) != (states, "ends"):
            fail(f"by calls it has {found.states} states and {found.verdict}, of this program:\n" + "\n".join(lines))


def grains_agree(seeds):
    """Compares the random programs of each kind with these seeds by both machines, and gives each with what was found so far."""
    taken = collections.Counter()
    for kind, seed in ((kind, seed) for kind in KINDS for seed in seeds):
        program, found = random_program(kind, seed, FEWER)
        if second_reader(program):
            taken["refused"] += 1
            yield f"{kind} {seed}", program, taken
            continue
        why, calls = grains_differ(program, found)
        if why:
            small = smallest(program)
            fail(f"{kind} {seed}: {grains_differ(small, search(Machine(small), LIMIT))[0]}, of this program:\n{small.script()}")
        taken.update({answer for _, answer in calls.branched} | found.came_to)
        taken.update({"programs": 1, found.verdict: 1, "none ends": not found.ends, "last": len(found.last), "events": found.states,
                      "calls": calls.states, "expired": posts_expired(program)})
        yield f"{kind} {seed}", program, taken
