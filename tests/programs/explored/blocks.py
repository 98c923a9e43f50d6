"""Programs whose calls stand in blocks: loops, choices, jumps, and places that must not be reached.

The lines of a process are a list: of lines, each its words, and of blocks, `Loop`, `Repeat` and `Either`, which have such lists."""
import collections

from explored.program import ANSWERS, Branch, Program

Loop, Repeat, Either = (collections.namedtuple(name, fields) for name, fields in
                        (("Loop", "body"), ("Repeat", "times body"), ("Either", "ways")))
# The answers that an `on` may name, with those of a `try_read`.
ALL_ANSWERS = ANSWERS | {"not_now": (*ANSWERS["not_now"], "try_read"), "end": (*ANSWERS["end"], "try_read")}
# The place after the last round of a loop that is written out.
WORN = "worn"


def lines_of(body):
    """The lines of a body as a script has them."""
    for item in body:
        if isinstance(item, Loop):
            yield from ["loop", *lines_of(item.body), "end"]
        elif isinstance(item, Repeat):
            yield from [f"repeat {item.times}", *lines_of(item.body), "end"]
        elif isinstance(item, Either):
            for way, lines in enumerate(item.ways):
                yield from ["or" if way else "either", *lines_of(lines)]
            yield "end"
        else:
            yield " ".join(map(str, item))


class Row:
    """The places of a process: its calls, its choices, and where it must not come to.

    With `rounds` a loop is written out so often, and after that it comes to WORN. `source` has what of the lines each place is, so that
    the places of a loop and of its rounds are told to be one."""

    def __init__(self, body, rounds=None):
        self.rounds, self.steps, self.jumps, self.looped, self.source = rounds, [], {}, [], []
        self.call, self.within, self.starts = None, 0, []
        waiting = self.write(body, {}, ())
        assert not waiting, waiting
        # Where each place and jump leads to at last.
        places = [at for at, step in enumerate(self.steps) if step[0] != "go"]
        self.number = {at: place for place, at in enumerate(places)}
        self.calls = [self.words_of(self.steps[at]) for at in places]
        self.following = {place: self.place(at + 1) for place, at in enumerate(places) if self.place(at + 1) != place + 1}
        self.branches = [Branch(self.number[at], answer, label, self.place(to.at)) for (at, answer), (label, to) in self.jumps.items()]
        self.loops = {place for place, at in enumerate(places) if self.looped[at] and self.steps[at][0] not in ("either", "never")}
        self.sources = [self.source[at] for at in places]
        self.heads = {place for start in self.starts for place in self.first_of(self.place(start))}

    def first_of(self, place):
        """This place, if it is a call, or a choice and the first places of its ways."""
        left, first = [place], set()
        while left:
            place = left.pop()
            if place not in first and place < len(self.calls) and self.calls[place][0] != "never":
                first.add(place)
                left += self.calls[place][1:] if self.calls[place][0] == "either" else []
        return first

    def words_of(self, step):
        return ("either", *(self.place(to.at) for to in step[1:])) if step[0] == "either" else step

    def place(self, at):
        """The place to which this step leads. A `go` is no place; no loop is one of these alone."""
        passed = set()
        while at < len(self.steps) and self.steps[at][0] == "go":
            assert at not in passed, "a loop without a call"
            passed.add(at)
            at = self.steps[at][1].at
        return self.number.get(at, len(self.number))

    def add(self, step, source):
        self.steps.append(step)
        self.looped.append(self.within > 0)
        self.source.append(source)
        return len(self.steps) - 1

    def write(self, body, heads, path):
        """Adds the steps of a block. The labels that wait for their lines, each with where they lead. `heads` are the labels of the heads
        around it."""
        waiting = []
        for at, item in enumerate(body):
            here = (*path, at)
            if isinstance(item, Loop):
                waiting += self.write_loop(item, heads, here)
            elif isinstance(item, Repeat):
                for time in range(item.times):
                    waiting += self.write(item.body, heads, (*here, time))
            elif isinstance(item, Either):
                waiting += self.write_either(item, heads, here)
            elif item[0].endswith(":"):
                for _, to in (it for it in waiting if it[0] == item[0][:-1]):
                    to.at = len(self.steps)
                waiting = [it for it in waiting if it[0] != item[0][:-1]]
            elif item[0] in ("on", "go"):
                to = heads.get(item[-1]) or Place()
                if item[-1] not in heads:
                    waiting.append((item[-1], to))
                if item[0] == "go":
                    self.add(("go", to), here)
                    self.call = None
                else:
                    assert self.call is not None and (self.call, item[1]) not in self.jumps
                    self.jumps[self.call, item[1]] = item[2], to
            else:
                at_step = self.add(item, here)
                self.call = None if item[0] == "never" else at_step
        return waiting

    def write_loop(self, loop, heads, path):
        body = list(loop.body)
        names = []
        while body and not isinstance(body[0], (Loop, Repeat, Either)) and body[0][0].endswith(":"):
            names.append(body.pop(0)[0][:-1])
        waiting, self.within, head = [], self.within + 1, Place(len(self.steps))
        for _ in range(self.rounds or 1):
            after = Place() if self.rounds else head
            self.call = None
            self.starts.append(len(self.steps))
            waiting += self.write(body, heads | {name: after for name in names}, path)
            if self.rounds:
                after.at = len(self.steps)
        self.add(("never", WORN) if self.rounds else ("go", head), None)
        self.within, self.call = self.within - 1, None
        return waiting

    def write_either(self, either, heads, path):
        """A process chooses the first way or one of the others, and these are such a choice again, where there are two at least."""
        ways, after, waiting = [Place() for _ in either.ways], Place(), []
        for at, way in enumerate(ways[:-2]):
            self.add(("either", way, Place(len(self.steps) + 1)), (*path, "or", at))
        self.add(("either", *ways[-2:]), path)
        for at, (way, body) in enumerate(zip(ways, either.ways)):
            way.at, self.call = len(self.steps), None
            waiting += self.write(body, heads, (*path, at))
            self.add(("go", after), None)
        after.at, self.call = len(self.steps), None
        return waiting


class Place:
    """Where something leads to, once that is known."""

    def __init__(self, at=None):
        self.at = at


class BlockProgram(Program):
    """`bodies` are the lines of each process. With `rounds` its loops are written out."""

    def __init__(self, rendez, devices, bodies, rounds=None):
        rows = [Row(body, rounds) for body in bodies]
        super().__init__(rendez, devices, [row.calls for row in rows], branches=[(pid, row.branches) for pid, row in enumerate(rows)])
        self.bodies, self.sources = bodies, [row.sources for row in rows]
        self.following = {(pid, place): to for pid, row in enumerate(rows) for place, to in row.following.items()}
        self.looped = {(pid, place) for pid, row in enumerate(rows) for place in row.loops}
        self.heads = {(pid, place) for pid, row in enumerate(rows) for place in row.heads}

    def source(self, pid, over):
        return self.sources[pid][over] if over < len(self.sources[pid]) else "ended"

    def written_out(self, rounds):
        return BlockProgram(self.own, self.devices, self.bodies, rounds)

    def lines(self):
        yield f"world {len(self.calls)} {self.own}"
        yield from (" ".join(map(str, words)) for words in self.devices)
        for pid, body in enumerate(self.bodies):
            yield from [f"process {pid}", *lines_of(body)]

    def smaller(self):
        """Programs with one line, block or process fewer."""
        for pid, body in enumerate(self.bodies):
            for less in shorter(body):
                try:
                    yield BlockProgram(self.own, self.devices, self.bodies[:pid] + [less] + self.bodies[pid + 1:])
                except (AssertionError, RecursionError):
                    continue


def shorter(body):
    """These lines without one line, or with a block in place of which its lines stand."""
    for at, item in enumerate(body):
        before, after = body[:at], body[at + 1:]
        yield before + after
        for changed in ([item.body] if isinstance(item, (Loop, Repeat)) else item.ways if isinstance(item, Either) else []):
            yield before + changed + after
        if isinstance(item, (Loop, Repeat)):
            yield from (before + [item._replace(body=less)] + after for less in shorter(item.body))
        elif isinstance(item, Either):
            for way, lines in enumerate(item.ways):
                yield from (before + [Either(item.ways[:way] + [less] + item.ways[way + 1:])] + after for less in shorter(lines))
