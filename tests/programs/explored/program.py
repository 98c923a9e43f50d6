"""A program: its lines, and the Rendez of its devices."""
import collections

from explored.comments import lines_said

HANGUP, ATOMIC_SIZE, MOST_UNITS = 2**64 - 1, 65536, 2147483647
LAST_MOMENT, MOST_MS = 2**64 - 1, 2**32 - 1
MOST_TIMES, MOST_CALLS, MOST_ONS = 1024, 65536, 1024
KINDS = ["interrupt", "hangup", "alarm", "closed", "expired"]
CLOSED, EXPIRED, MARK = 1 << KINDS.index("closed"), 1 << KINDS.index("expired"), 1 << len(KINDS)
# The calls with a deadline, and the same without: they have two words fewer, that say the deadline.
TIMED = {f"{verb}_within": verb for verb in ("sleep", "rendezvous", "acquire", "read", "write")}


def bits_of(kinds):
    """The notes of a line, as a bit for each kind."""
    return 0 if kinds == "-" else sum(1 << KINDS.index(kind) for kind in kinds.split(","))


def kinds_of(bits):
    return ",".join(kind for place, kind in enumerate(KINDS) if bits >> place & 1) or "-"


def put(row, place, what):
    return row[:place] + (what,) + row[place + 1:]


def without_deadline(words):
    """This call, and as one without a deadline where it has one."""
    return (TIMED[words[0]], *words[3:]) if words[0] in TIMED else words


def deadline(words):
    """The moment of a call with a deadline, or None."""
    return min(words[1] + words[2], LAST_MOMENT) if words[0] in TIMED else None


# What the first word of a line has after it that may have a name: as the next word, or after the deadline.
NAMED = {"process": "process", "space": "space", "sema": "sema", "pipe": "pipe", "sleep": "rendez", "wakeup": "rendez",
         "note": "process", "acquire": "sema", "try": "sema", "release": "sema", "write": "pipe", "read": "pipe", "hangup": "pipe",
         "try_read": "pipe"}
NAMED |= {timed: NAMED[verb] for timed, verb in TIMED.items() if verb in NAMED}
# The lines that may give a new name.
NAMES = {"process", "space", "sema", "pipe", "sleep", "wakeup", "sleep_within"}
# The answers that an `on` may name, and the calls that may end so.
ANSWERS = {"interrupted": (*TIMED.values(), *TIMED), "not_now": ("try",), "end": ("read", "read_within"),
           "hungup": ("write", "write_within"), "timed_out": (*TIMED,)}
# An `on`: its call, counted from 0, the answer, the label, and how many calls stand above the label's line.
Branch = collections.namedtuple("Branch", "call answer label to")


def place_of_name(verb):
    """Which word of a line may be a name."""
    return 3 if verb in TIMED else 1


def renumbered(words, new):
    """A call at another number."""
    place = place_of_name(words[0])
    return put(words, place, new[words[place]])


class Program:
    """`devices` are the lines after the first, and `calls` those of each process, all as their words, with numbers. `names` has
    the names of each kind that has them, in the order of the numbers. `repeats` has for each process the calls that its lines say
    by `repeat`, in their order: where these begin, how many they are the first time, and how often they stand there. `branches` has
    for each process its lines `on`, in their order. `following` has the call after a call where it is not the next one, `looped` the
    calls that stand in loops (explored/blocks.py), each with its process, and `heads` those that are the first of a round.

    After the Rendez of the first line come those of the members, those of all seats, and for each pipe that of its reader and
    those of its writers, one for each process."""

    def __init__(self, rendez, devices, calls, names=(), repeats=(), branches=()):
        self.own, self.devices, self.calls, self.names, self.repeats = rendez, devices, calls, dict(names), dict(repeats)
        self.following, self.looped, self.heads = {}, set(), set()
        self.branches = {pid: its for pid, its in dict(branches).items() if its}
        self.members = sum(words[1] for words in devices if words[0] == "space")
        self.semas = [words for words in devices if words[0] == "sema"]
        self.pipes = [words for words in devices if words[0] == "pipe"]
        self.has_clock = ("clock",) in devices
        self.seats, place = [], rendez + self.members
        for sema in self.semas:
            self.seats.append(place)
            place += sema[2]
        self.readers = [place + number * (1 + len(calls)) for number in range(len(self.pipes))]
        self.rendez = place + len(self.pipes) * (1 + len(calls))

    def source(self, pid, over):
        """What of the lines of a process the call with this number is."""
        return over

    def say(self, kind, number, before=""):
        """The name, or else the number, after these words."""
        named = self.names.get(kind, [])
        return named[number] if number < len(named) else f"{before}{number}"

    def said(self, words):
        """The words of a call, with names."""
        kind, place = NAMED.get(words[0]), place_of_name(words[0])
        return " ".join(self.say(kind, word) if kind and at == place else str(word) for at, word in enumerate(words))

    def lines(self):
        yield f"world {len(self.calls)} {self.own}"
        counts = {}
        for verb, *words in self.devices:
            counts[verb] = counts.get(verb, -1) + 1
            if verb == "sema" and words[1] == len(self.calls) and counts[verb] % 2 == 0:
                # a seat for each process, which needn't be told
                words = words[:1]
            yield " ".join([verb, *([self.say(verb, counts[verb])] if verb in self.names else []), *map(str, words)])
        for pid, calls in enumerate(self.calls):
            repeats, done = self.repeats.get(pid, []), 0
            if calls or repeats or "process" in self.names:
                yield f"process {self.say('process', pid)}"
            for at, count, times in [*repeats, (len(calls), 0, 0)]:
                for call in range(done, at):
                    yield self.said(calls[call])
                    yield from self.lines_after(pid, call)
                done = at + count * times
                if times:
                    yield from [f"repeat {times}", *map(self.said, calls[at:at + count]), "end"]
                if count:
                    yield from self.lines_after(pid, done - 1)

    def lines_after(self, pid, call):
        """The lines between a call and the next: each `on` of it, and the labels; one that is used again before that `on`."""
        branches, here = self.branches.get(pid, []), call + 1
        its = [branch for branch in branches if branch.call == call]
        before = {branch.label for branch in branches if branch.call < call and branch.to == here}
        before -= {branch.label for branch in its if branch.to == here}
        again = before & {branch.label for branch in its}
        yield from (f"{label}:" for label in sorted(again))
        for at, branch in enumerate(its):
            yield f"on {branch.answer} {branch.label}"
            if branch.to == here and not any((other.label, other.to) == (branch.label, here) for other in its[at + 1:]):
                yield f"{branch.label}:"
        yield from (f"{label}:" for label in sorted(before - again))

    def in_order(self):
        """With the Rendez numbered in the order of the first calls in them, as names number them."""
        used = [words[place_of_name(words[0])] for calls in self.calls for words in calls if NAMED.get(words[0]) == "rendez"]
        first = dict.fromkeys(used)
        new = {rendez: at for at, rendez in enumerate([*first, *(rendez for rendez in range(self.own) if rendez not in first)])}
        calls = [[renumbered(words, new) if NAMED.get(words[0]) == "rendez" else words for words in row] for row in self.calls]
        return Program(self.own, self.devices, calls, self.names, self.repeats, self.branches), len(first)

    def script(self):
        return "".join(f"{line}\n" for line in self.lines())

    def without_call(self, pid, at):
        calls, branches = [list(row) for row in self.calls], dict(self.branches)
        del calls[pid][at]
        branches[pid] = [Branch(call - (call > at), answer, label, to - (to > at))
                         for call, answer, label, to in branches.get(pid, []) if call != at]
        return Program(self.own, self.devices, calls, branches=branches)

    def without_branch(self, pid, branch):
        branches = self.branches | {pid: [other for other in self.branches[pid] if other is not branch]}
        return Program(self.own, self.devices, self.calls, branches=branches)

    def without_the_deadline(self, pid, at):
        calls = [list(row) for row in self.calls]
        calls[pid][at] = without_deadline(calls[pid][at])
        branches = self.branches | {pid: [branch for branch in self.branches.get(pid, ())
                                          if (branch.call, branch.answer) != (at, "timed_out")]}
        return Program(self.own, self.devices, calls, branches=branches)

    def without_device(self, words, number):
        """Without this device, the one with this number of its kind, where no call asks it; or None."""
        asks = {"space": ("rendezvous",), "sema": ("acquire", "try", "release"), "pipe": ("read", "write", "hangup"),
                "clock": ("tick", "ticks")}[words[0]]
        asked = [call for calls in self.calls for call in calls
                 if without_deadline(call)[0] in asks or words[0] == "clock" and call[0] in TIMED]
        if asked if words[0] in ("space", "clock") else any(call[place_of_name(call[0])] == number for call in asked):
            return None
        new = {other: other - (other > number) for other in range(len(self.devices))}
        calls = [[renumbered(call, new) if call in asked else call for call in row] for row in self.calls]
        return Program(self.own, [other for other in self.devices if other is not words], calls, branches=self.branches)

    def smaller(self):
        """Programs with one call, deadline, branch, device or process fewer."""
        for pid, calls in enumerate(self.calls):
            for at in range(len(calls)):
                yield self.without_call(pid, at)
            yield from (self.without_the_deadline(pid, at) for at, words in enumerate(calls) if words[0] in TIMED)
        for pid, branches in self.branches.items():
            for branch in branches:
                yield self.without_branch(pid, branch)
        for kind in "space", "sema", "pipe", "clock":
            for number, words in enumerate([words for words in self.devices if words[0] == kind]):
                yield self.without_device(words, number)
        last = len(self.calls) - 1
        if last and not self.calls[last] and not any(call[:2] == ("note", last) for calls in self.calls for call in calls):
            yield Program(self.own, self.devices, self.calls[:last], branches=self.branches)


def written_out(lines):
    """These lines with what stands between `repeat` and `end` as often as it is made."""
    out, within, times = [], None, 0
    for words in lines:
        if words[0] == "repeat":
            within, times = [], int(words[1])
        elif words[0] == "end":
            out, within = out + within * times, None
        else:
            (out if within is None else within).append(words)
    return [list(words) for words in out]


def with_seats(words, procs):
    """The words of a line; where a semaphore has no number of seats, it has one for each process."""
    return (*words, procs) if words[0] == "sema" and len(words) == 2 else words


def program_of(script):
    """The program of a script that has no fault."""
    first, *lines = lines_said(script)
    lines = written_out(lines)
    rendez, devices, calls, pid, names = int(first[2]), [], [[] for _ in range(int(first[1]))], None, {}
    branches = [[] for _ in calls]
    for verb, *words in lines:
        if verb in NAMES and (name := words[place_of_name(verb) - 1])[0].isalpha() and name not in names.get(NAMED[verb], []):
            names.setdefault(NAMED[verb], []).append(name)
    for verb, *words in lines:
        if verb == "on":
            branches[pid].append(Branch(len(calls[pid]) - 1, *words, None))
            continue
        if verb.endswith(":"):
            branches[pid] = [branch._replace(to=len(calls[pid])) if branch.to is None and branch.label == verb[:-1] else branch
                             for branch in branches[pid]]
            continue
        if NAMED.get(verb) in names:
            place = place_of_name(verb) - 1
            words[place] = names[NAMED[verb]].index(words[place])
            words = words[1:] if verb in ("space", "sema", "pipe") else words
        texts = {"note": 1, "write": 1, "pipe": 1, "write_within": 3}.get(verb, len(words))
        words = with_seats((verb, *map(int, words[:texts]), *words[texts:]), len(calls))
        if verb == "process":
            pid = words[1]
        else:
            (devices if pid is None else calls[pid]).append(words)
    program = Program(rendez, devices, calls, names, branches=enumerate(branches))
    return program.in_order()[0] if names else program
