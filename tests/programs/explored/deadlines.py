"""Random deadlines and ticks."""
from explored.program import HANGUP, LAST_MOMENT, MOST_MS, TIMED, without_deadline

# The calls that may have a deadline, each with its name where it has one.
WITHIN = {verb: timed for timed, verb in TIMED.items()}


def random_moments(dice):
    """The moments of a program: its deadlines are these, and its ticks are at them or near."""
    return dice.choice([[3], [3], [2, 3], [2, 4], [2, 4], [0, 1], [MOST_MS], [LAST_MOMENT], [5, LAST_MOMENT], [5, LAST_MOMENT]])


def until_a_moment(dice, words, moments):
    """This call with a deadline. One at the last moment may be a sum above it."""
    moment = dice.choice(moments)
    ms = min(moment, dice.choice([0, 1, 2, MOST_MS]))
    now = moment - ms + (dice.choice([0, ms, ms]) if moment == LAST_MOMENT else 0)
    return WITHIN[words[0]], min(now, LAST_MOMENT), ms, *words[1:]


def random_tick(dice, moments):
    """A tick at one of these moments, mostly the last, or just before or after it."""
    return "tick", min(max(dice.choice([*moments, moments[-1]]) + dice.choice([-1, 0, 0, 0, 0, 1]), 0), LAST_MOMENT)


def add_ticks(dice, row, moments, last=0.8):
    """Sometimes a process ticks for ever, mostly at last; calls behind that are made only where an `on` leads past it."""
    if dice.random() < 0.4:
        ticks = "ticks", dice.choice([moments[-1], moments[-1], random_tick(dice, moments)[1]])
        row.insert(len(row) if dice.random() < last else dice.randint(0, len(row)), ticks)


def add_deadlines(dice, calls, moments, some=0.5):
    """Some of the calls that may wait have deadlines, and up to three ticks come, mostly of other processes."""
    for row in calls:
        row[:] = [until_a_moment(dice, words, moments) if words[0] in WITHIN and dice.random() < some else words for words in row]
    for _ in range(dice.choice([0, 1, 1, 1, 2, 2, 3])):
        free = [row for row in calls if not any(words[0] in TIMED for words in row)]
        row = dice.choice(free if free and dice.random() < 0.8 else calls)
        row.insert(dice.randint(0, len(row)), random_tick(dice, moments))


def add_late_notes(dice, kinds, calls, branches):
    """Deadlines of calls; and a call that a tick may end, beside another process, which may make it end well, and may then sleep where
    it slept, or may end it by the note of a tick that did not come."""
    moments, places = random_moments(dice), range(len(calls))
    pid, other, ticker = dice.sample(places, 3) if len(places) > 2 else (*dice.sample(places, 2), dice.choice(places))
    device, number, users = dice.choice(kinds)
    write, read, wakeup = ("write", number, "61"), ("read", number, 1), ("wakeup", 0, dice.choice([0, 1, 9]))
    its, causes = dice.choice({
        "core": [([("sleep", 0, 1)], [wakeup]), ([("sleep", 0, 1)], [wakeup, ("sleep", 0, 9)])],
        "space": [([("rendezvous", 0, 1)], [("rendezvous", 0, 2)])],
        "sema": [([("acquire", number)], [("release", number, 1)])],
        "pipe": [([read], [write]), ([read], [write, read]), ([write, write], [read]), ([read], [("hangup", number)]),
                 ([write, write], [("hangup", number)])]}[device])
    late = dice.choice([[], [], causes, causes, [("note", pid, dice.choice(["expired", "expired", "alarm", "alarm,expired"]))]])
    # Where all waits have deadlines, and a process that never waits ticks for ever, all calls end.
    all_end = dice.random() < 0.3
    add_deadlines(dice, calls, moments, 1 if all_end else 0.5)
    if pid < users:
        its = its[:-1] + [until_a_moment(dice, its[-1], moments)]
        then = [[], [("drain",)], [("wakeup", 0, 1)], [without_deadline(its[-1])]] if branches else [[], its[-1:]]
        calls[pid] += its + dice.choice(then)
    if other < users:
        calls[other] += late
    calls[ticker] += [random_tick(dice, moments)] * dice.choice([0, 1, 1, 2])
    if all_end:
        calls[:] = [[until_a_moment(dice, words, moments) if words[0] in WITHIN else words for words in row] for row in calls]
        calls[ticker] = [words for words in calls[ticker] if words[0] not in TIMED] + [("ticks", moments[-1])]
    else:
        add_ticks(dice, calls[ticker], moments)


def random_feeder(dice, branches):
    """The devices and calls of a program in which all calls end, whatever ticks come, so that the number of its states has to be right.
    Some processes wait, mostly with deadlines, for what one more does, which ticks too and never waits."""
    callers, moments, waits = dice.choice([1, 2, 2, 2]), random_moments(dice), ["core", "core", "sema", "read", "write", "space"]
    kinds = [dice.choice(waits)] * callers if dice.random() < 0.5 else [dice.choice(waits) for _ in range(callers)]
    calls, feeds = [], [random_tick(dice, moments) for _ in range(dice.choice([1, 1, 2]))]
    written = [] if "write" in kinds else dice.choice([[], [("write", 0, "61")], [("write", 0, "-")]])
    for pid, kind in enumerate(kinds):
        before, wait, feed = {
            "core": ([("wakeup", 0, 2)] * (dice.random() < 0.3), ("sleep", 0, dice.choice([0, 1])),
                     [("wakeup", 0, dice.choice([2, 3, HANGUP]))]),
            "sema": ([], ("acquire", 0), [("release", 0, 1)]),
            "read": ([], ("read", 0, dice.choice([1, 2])), written + [("hangup", 0)]),
            "write": ([("write", 0, "61")], ("write", 0, "61"), [("hangup", 0)]),
            "space": ([], ("rendezvous", 0, pid), [("note", pid, dice.choice(["alarm", "expired"]))])}[kind]
        times = dice.choice([1, 1, 2]) if kind in ("read", "core") else 1
        # Often the later moment is that of the first process.
        its_moments = [moments[-1 - pid % len(moments)]] if dice.random() < 0.5 else moments
        its = [until_a_moment(dice, wait, its_moments) if dice.random() < 0.85 else wait for _ in range(times)]
        calls.append(before + its + [("drain",)] * (branches and dice.random() < 0.7))
        feeds += [words for words in feed if words[0] != "hangup" or words not in feeds]
    if dice.random() < 0.4:
        feeds.append(("note", dice.randrange(callers), dice.choice(["alarm", "expired", "expired", "hangup,expired"])))
    dice.shuffle(feeds)
    # Writes come before the hangup, and find room.
    feeds.sort(key=lambda words: words[0] != "write")
    add_ticks(dice, feeds, moments, last=1)
    pipe = "pipe", len(kinds) if written else 1, *["stream"] * dice.choice([0, 1])
    devices = [("clock",), *[("sema", 0, callers + 1)] * ("sema" in kinds), *[pipe] * ("read" in kinds or "write" in kinds)]
    dice.shuffle(devices)
    return [("space", callers)] * ("space" in kinds) + devices, calls + [feeds]
