"""A script of p9explore as model.py and call_model.py read it, and what its lines tell of the numbers of a state."""
import collections
import sys

KINDS = ("interrupt", "hangup", "alarm", "closed", "expired")
NAMED = {"process": "process", "sema": "sema", "pipe": "pipe", "sleep": "rendez", "wakeup": "rendez", "note": "process",
         "acquire": "sema", "try": "sema", "release": "sema", "write": "pipe", "read": "pipe", "hangup": "pipe"}
# How many words a line has after its first, but that of a process has one.
WORDS = {"process": 1, "sema": 2, "pipe": 1, "sleep": 2, "wakeup": 2, "note": 2, "drain": 0, "acquire": 1, "try": 1, "release": 2,
         "write": 2, "read": 2, "hangup": 1}


def refuse(why):
    print(why, file=sys.stderr)
    sys.exit(2)


class Script:
    """The calls of each process, with numbers for names; where the process goes on after which answer of a call; the semaphores, with
    their values, and the pipes, with their limits."""

    def __init__(self, lines):
        self.names = collections.defaultdict(dict)
        lines = [line.split() for line in lines]
        self.calls = [[] for _ in range(int(lines[0][1]))]
        self.semas, self.pipes, self.branches, self.waiting, self.repeated, self.pid = [], [], {}, [], None, None
        for verb, *words in lines:
            if verb == "process":
                self.number("process", words[0])
        for verb, *words in lines[1:]:
            self.read(verb, words)

    def number(self, kind, word):
        """A new name is given to the next thing of its kind."""
        return int(word) if word.isdecimal() else self.names[kind].setdefault(word, len(self.names[kind]))

    def read(self, verb, words):
        if verb == "repeat":
            self.times, self.repeated = int(words[0]), []
        elif verb == "end":
            self.calls[self.pid] += self.repeated * self.times
            self.repeated = None
        elif verb == "on":
            self.waiting.append((len(self.calls[self.pid]) - 1, *words))
        elif verb.endswith(":"):
            for call, answer, _ in (it for it in self.waiting if it[2] == verb[:-1]):
                self.branches[self.pid, call, answer] = len(self.calls[self.pid])
            self.waiting = [it for it in self.waiting if it[2] != verb[:-1]]
        elif len(words) - (verb in ("sema", "pipe") and not words[0].isdecimal()) != WORDS.get(verb):
            refuse(f"`{' '.join([verb, *words])}` is no line that it takes")
        else:
            self.read_call(verb, words)

    def read_call(self, verb, words):
        """A line of a call, a device or a process."""
        if verb in NAMED:
            words = [self.number(NAMED[verb], words[0]), *words[1:]]
        if verb == "sema":
            self.semas.append(int(words[-2]))
        elif verb == "pipe":
            self.pipes.append(int(words[-1]))
        elif verb == "process":
            self.pid = words[0]
        else:
            if verb == "note":
                words[1] = [] if words[1] == "-" else words[1].split(",")
            elif verb == "write":
                words[1] = 0 if words[1] == "-" else len(words[1]) // 2
            calls = self.calls[self.pid] if self.repeated is None else self.repeated
            calls.append((verb, *(int(it) if isinstance(it, str) else it for it in words)))

    def made(self, verb, number):
        """The calls of this kind at this Rendez or device, each with its process."""
        return [(pid, call) for pid, its in enumerate(self.calls) for call in its if call[:2] == (verb, number)]

    def users(self, verb, number):
        """The processes that make such a call."""
        return sorted({pid for pid, _ in self.made(verb, number)})

    def kinds(self, pid):
        """The notes that may be posted to a process."""
        kinds = {kind for _, call in self.made("note", pid) for kind in call[2]}
        if any(call[0] == "write" and self.made("hangup", call[1]) for call in self.calls[pid]):
            kinds.add("closed")
        return [kind for kind in KINDS if kind in kinds]

    def skips(self, pid):
        """Whether a process may go on elsewhere than with its next call."""
        return any(who == pid for who, *_ in self.branches)

    def net(self, pid, sema):
        """The most units that a process has released beyond those that it took, and the fewest, at first and after each call, and the
        fewest before an acquire."""
        low, high, lows, highs, before = 0, 0, [0], [0], []
        for verb, *words in self.calls[pid]:
            if words[:1] != [sema]:
                continue
            if verb == "acquire":
                before.append(low)
            if verb == "release":
                low, high = low + (0 if self.skips(pid) else words[1]), high + words[1]
            elif verb in ("acquire", "try"):
                low, high = low - 1, high - (verb == "acquire" and not self.kinds(pid) and not self.skips(pid))
            lows.append(low)
            highs.append(high)
        return max(highs), min(lows), min(before, default=None)

    def most_units(self, sema):
        return self.semas[sema] + sum(self.net(pid, sema)[0] for pid in range(len(self.calls)))
