"""Random programs."""
import random

from explored.call_words import EVENTS
from explored.deadlines import add_deadlines, add_late_notes, add_ticks, random_feeder, random_moments
from explored.machine import TICKED, Machine
from explored.program import ANSWERS, HANGUP, KINDS, MOST_TIMES, MOST_UNITS, TIMED, Branch, Program
from explored.searching import LIMIT, search


def random_kinds(dice):
    kinds = dice.sample(KINDS, dice.choice([0, 1, 1, 1, 2]))
    return ",".join(kinds) or "-"


def random_bytes(dice):
    text = "".join(f"{dice.randrange(256):02x}" for _ in range(dice.choice([0, 1, 1, 2, 3]))) or "-"
    return text.upper() if dice.random() < 0.3 else text


def random_pair(dice, kind, number, rendez, procs, notes):
    """Two calls for two processes, of which the second mostly lets the first go on."""
    if kind == "core":
        place = dice.randrange(rendez)
        if dice.random() < notes:
            sleep = dice.choice([("drain",), ("sleep", place, 0), ("sleep", place, 0)])
            return [sleep, ("note", dice.randrange(procs), random_kinds(dice))]
        above = HANGUP - 1 if dice.random() < 0.1 else dice.randint(0, 2)
        level = HANGUP if dice.random() < 0.1 else min(HANGUP, above + dice.choice([0, 1, 1, 1, 2]))
        return [("sleep", place, above), ("wakeup", place, level)]
    if kind == "space":
        tag = dice.choice([0, 0, 0, 1])
        return [("rendezvous", tag, dice.randrange(3)), ("rendezvous", tag, dice.randrange(3))]
    if kind == "sema":
        asks = dice.choice(["acquire", "acquire", "acquire", "try"])
        return [(asks, number), ("release", number, dice.choice([0, 1, 1, 1, 1, 2]))]
    lets = [("write", number, random_bytes(dice))] * 4 + [("hangup", number)]
    return [("read", number, dice.choice([1, 2, 3, 8])), dice.choice(lets)]


def random_devices(dice, procs):
    """Mostly one device, so that many calls meet there."""
    devices = []
    for kind in dice.choice([["space"], ["sema"], ["sema"], ["pipe"], ["pipe"], ["pipe"], ["space", "sema"], ["sema", "pipe"],
                             ["pipe", "sema"], ["sema", "sema"], ["pipe", "pipe"], ["space", "pipe"]]):
        seats = dice.choice([procs - 1, procs, procs, procs + 1])
        if kind == "space":
            devices.append((kind, seats))
        elif kind == "sema":
            devices.append((kind, dice.choice([0, 0, 0, 1, 2, MOST_UNITS]), seats))
        else:
            devices.append((kind, dice.choice([1, 1, 2, 3])) + (("stream",) if dice.random() < 0.4 else ()))
    return devices


def random_locks(dice):
    """Processes that take one or two locks in any order, mostly give them back, and seldom do something else; all with names."""
    procs, locks = dice.choice([2, 2, 3]), dice.choice([1, 2, 2])
    devices = [("sema", dice.choice([1, 1, 1, 1, 2, 0]), procs) for _ in range(locks)]
    calls = []
    for _ in range(procs):
        taken, given = dice.sample(range(locks), locks), dice.sample(range(locks), locks)
        row = [("acquire", lock) for lock in taken] + [("release", lock, 1) for lock in given if dice.random() < 0.85]
        if dice.random() < 0.15:
            odd = [("try", 0), ("release", 0, dice.randrange(3)), ("acquire", 0), ("note", 0, "alarm"), ("drain",)]
            row.insert(dice.randint(0, len(row)), dice.choice(odd))
        calls.append(row)
    if dice.random() < 0.25:
        devices.insert(dice.randint(0, locks), ("clock",))
        moments = random_moments(dice)
        add_deadlines(dice, calls, moments, 0.3)
        add_ticks(dice, dice.choice(calls), moments)
    words = dice.sample(WORDS, procs + locks)
    program = Program(1, devices, calls, {"process": words[:procs], "sema": words[procs:]})
    return with_branches(dice, program) if dice.random() < 0.35 else program


def random_calls(dice, kind, branches, has_clock):
    """A program of the core, or of a kind with devices, which may have branches, and deadlines."""
    if has_clock and dice.random() < 0.5:
        return finished(dice, Program(dice.randint(1, 2), *random_feeder(dice, branches)), branches)
    procs, rendez = dice.choice([2, 2, 3, 3, 3] if has_clock else [2, 2, 3, 3, 3, 4]), dice.randint(1, 3)
    devices = [] if kind == "core" else random_devices(dice, procs)
    if branches:
        devices = [("sema", 0, words[2]) if words[0] == "sema" and dice.random() < 0.6 else words for words in devices]
    kinds, counts = [("core", 0, procs)], {}
    for words in devices:
        counts[words[0]] = counts.get(words[0], -1) + 1
        kinds += [(words[0], counts[words[0]], procs if words[0] == "pipe" else words[-1])] * 2
    notes = 0.7 if devices else 0.25
    calls = [[] for _ in range(procs)]
    for _ in range(dice.randint(0, 4 - procs + branches) if has_clock else dice.randint(1, 6 - procs) if branches
                   else dice.randint(2, 9 - procs)):
        device, number, users = dice.choice(kinds)
        pids = dice.sample(range(procs), 2)
        for pid, words in zip(pids, random_pair(dice, device, number, rendez, procs, notes)):
            if pid < users and dice.random() < 0.95:
                calls[pid].insert(dice.randint(0, len(calls[pid])), words)
    if branches:
        add_causes(dice, kinds, calls)
    if has_clock:
        devices.insert(dice.randint(int(devices[0][0] == "space"), len(devices)), ("clock",))
        add_late_notes(dice, kinds, calls, branches)
    return finished(dice, with_repeats(dice, Program(rendez, devices, calls)), branches)


def finished(dice, program, branches):
    """It may have branches, and names."""
    return with_names(dice, with_branches(dice, program) if branches else program)


def random_aim(dice, branches, has_clock):
    """What a program with devices is to come to: a branch of a call with an answer, or what only calls with a deadline come to."""
    calls = {answer: [verb for verb in verbs if (verb in TIMED) == has_clock] for answer, verbs in ANSWERS.items()}
    answers = [answer for answer, verbs in calls.items() if verbs] + ["timed_out"] * has_clock if branches else []
    aim = dice.choice([*answers, *TICKED] if has_clock else answers or [None])
    return (dice.choice(calls[aim]), aim) if aim in answers else aim


def random_program(kind, seed, limit=LIMIT):
    """The random program of this kind, `core`, `devices` or `locks`, with this seed: the first with at most so many states. One
    with devices is the first of ten that comes to what was drawn before, or else the last of these ten: so each comes often.
    Of the kinds `branches` and `deadlines` are those with devices that have these."""
    dice = random.Random(f"{kind} {seed}")
    has_devices = kind in ("devices", "branches", "deadlines")
    branches, has_clock, left = dice.random() < 0.35, has_devices and dice.random() < 0.35, 10
    branches, has_clock = branches or kind == "branches", has_clock or kind == "deadlines"
    aim = random_aim(dice, branches, has_clock) if has_devices else None
    while True:
        program = random_locks(dice) if kind == "locks" else random_calls(dice, kind, branches, has_clock)
        found = any(program.calls) and search(Machine(program), limit)
        left -= bool(found)
        if found and (aim is None or aim in found.branched | found.came_to or left == 0):
            return program, found


def with_repeats(dice, program):
    """One program of three with calls that are made several times; seldom once, and seldom no calls at all."""
    if dice.random() < 0.66:
        return program
    calls, repeats = [list(row) for row in program.calls], {}
    for pid in dice.sample(range(len(calls)), dice.choice([1, 1, 1, 2])):
        row, at, repeats[pid] = calls[pid], 0, []
        for _ in range(dice.choice([1, 1, 2])):
            at = dice.randint(at, len(row))
            count, times = min(len(row) - at, dice.choice([0, 1, 1, 1, 2, 2, 3])), dice.choice([1, 2, 2, 2, 3, 4])
            row[at:at + count] = row[at:at + count] * times
            repeats[pid].append((at, count, times if count else dice.choice([1, 2, MOST_TIMES])))
            at += count * times
    return Program(program.own, program.devices, calls, repeats=repeats)


def add_causes(dice, kinds, calls):
    """For some devices, calls of one process that may end otherwise than well, with a call after them, and a call of another
    process that makes them end so: a note or a hangup."""
    for device, number, users in [*kinds[1::2], *kinds[:1] * (len(kinds) == 1 or dice.random() < 0.3)]:
        pid, other = dice.sample(range(len(calls)), 2)
        note, hangup = [("note", pid, dice.choice(KINDS))], [("hangup", number)]
        read, write = ("read", number, dice.choice([1, 2, 8])), ("write", number, random_bytes(dice))
        its, causes = dice.choice({
            "core": [([("sleep", 0, 0)], note)], "space": [([("rendezvous", 0, 1)], note)],
            "sema": [([("acquire", number)], note), ([("try", number)], []), ([("try", number)] * 2, [])],
            "pipe": [([read], note), ([read], hangup), ([write], hangup), ([write] * 2, note), ([write] * 2, hangup),
                     ([write, read], hangup)]}[device])
        if pid < users:
            at = dice.randint(0, len(calls[pid]))
            calls[pid][at:at] = its + dice.choice([[], [("drain",)], [("wakeup", 0, 1)], its[:1]])
            calls[other][at:at] = causes


def with_branches(dice, program):
    """Most calls that may end otherwise than well branch, mostly past some of the calls that follow."""
    branches, words = {}, dice.sample(LABELS, 4)
    for pid, calls in enumerate(program.calls):
        its = branches[pid] = []
        # Between two calls that a `repeat` says no label can stand.
        within = {to for at, count, times in program.repeats.get(pid, []) for to in range(at + 1, at + count * times)}
        for call, (verb, *_) in enumerate(calls):
            answers = [answer for answer, verbs in ANSWERS.items() if verb in verbs and call + 1 not in within]
            for answer in dice.sample(answers, len(answers)):
                further = [to for to in range(call + 2, len(calls) + 1) if to not in within]
                to = dice.choice(further) if further and dice.random() < 0.9 else call + 1
                free = [word for word in words if all(to == other.to or other.to <= call for other in its if other.label == word)]
                if free and dice.random() < (0.9 if to > call + 1 else 0.3):
                    its.append(Branch(call, answer, dice.choice(free), to))
    return Program(program.own, program.devices, program.calls, program.names, program.repeats, branches)


# Names that an answer has for other things.
WORDS = [*EVENTS, "acquires", "reads", "sets", "world", "states", "stuck", "process", "refused", "waits", "sleeps", "chart", "for", "held", "by", "semaphore", "e0",
         "A-long_name-of-32-letters-or-less"[:32]]
# Labels, some of which names may be too.
LABELS = [*WORDS[:4], WORDS[-1], "on", "end", "repeat", *ANSWERS, "process", "e0", "A_1-"]


def with_names(dice, program):
    """One program of three with names, for some kinds."""
    if dice.random() < 0.66:
        return program
    program, used = program.in_order()
    counts = {"process": len(program.calls), "rendez": used, "space": int(program.members > 0), "sema": len(program.semas),
              "pipe": len(program.pipes)}
    words = iter(dice.sample(WORDS, sum(counts.values())))
    kinds = [kind for kind, count in counts.items() if count and dice.random() < 0.7]
    return Program(program.own, program.devices, program.calls,
                   {kind: [next(words) for _ in range(counts[kind])] for kind in kinds}, program.repeats, program.branches)
