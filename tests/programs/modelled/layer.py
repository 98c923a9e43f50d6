"""The lower half of the model: kernels, processes, notes, sleeps and wakeups, by docs/BEHAVIOUR.md and docs/CORE.md.

A call is a generator. It yields a number where it passes a point of that number, `STEP` between two atomic steps, and a function
where it is parked until that function says so; it returns its answer. Whoever runs it lets others run at each of the three.
"""
TOP_LEVEL, STEP = 2**64 - 1, None
KINDS = ("interrupt", "hangup", "alarm", "closed", "expired")
CLOSED, EXPIRED = frozenset({"closed"}), frozenset({"expired"})
NO_PROC, NO_RENDEZ, BAD_LEVEL, DOUBLE = "no such process", "no such rendez", "bad level", "double sleep"
RFPROC, RFREND, RFNOTEG = 1, 2, 4


def kinds_word(notes):
    return ",".join(kind for kind in KINDS if kind in notes) or "-"


class Ended:
    """How a wait or a call ended: its answer, and the notes that ended a sleep of it."""

    def __init__(self, answer, notes=frozenset(), is_note=False):
        self.answer, self.notes, self.is_note = answer, notes, is_note

    def text(self):
        return f"interrupted {kinds_word(self.notes)}" if self.is_note else self.answer


class Kernel:
    def __init__(self, procs, rendez):
        self.procs, self.rendez = procs, rendez
        self.posted, self.levels = [None] * rendez, [0] * rendez
        self.marks, self.notes = [False] * procs, [frozenset()] * procs

    def post_notes(self, pid, notes):
        if pid >= self.procs:
            return NO_PROC
        self.notes[pid] |= notes
        return "ok"


class Proc:
    """A process: its pid in its kernel, and its seat at timers."""

    def __init__(self, kernel, pid):
        self.kernel, self.pid, self.timer = kernel, pid, None

    def take_notes(self):
        notes, self.kernel.notes[self.pid] = self.kernel.notes[self.pid], frozenset()
        return notes

    def put_back(self, notes):
        self.kernel.post_notes(self.pid, notes)

    def posted_in(self):
        return self.kernel.posted.index(self.pid) if self.pid in self.kernel.posted else None

    def is_flagged(self):
        return self.kernel.marks[self.pid] or bool(self.kernel.notes[self.pid])


def sleep(proc, rendez, threshold):
    """A sleep with its six points. It ends as `woken`, refused, or by notes."""
    kernel = proc.kernel
    yield 1
    if rendez >= kernel.rendez:
        return Ended(NO_RENDEZ)
    if threshold >= TOP_LEVEL:
        return Ended(BAD_LEVEL)
    if kernel.posted[rendez] is not None:
        return Ended(DOUBLE)
    kernel.posted[rendez] = proc.pid
    yield 2
    leaves = kernel.levels[rendez] > threshold
    if not leaves:
        yield 3
        if not proc.is_flagged():
            yield proc.is_flagged
        leaves = not kernel.marks[proc.pid]
    if leaves:
        yield 4
        if kernel.posted[rendez] == proc.pid:
            kernel.posted[rendez] = None
        else:
            yield 3
            if not kernel.marks[proc.pid]:
                yield lambda: kernel.marks[proc.pid]
    yield 5
    kernel.marks[proc.pid] = False
    notes = proc.take_notes()
    yield 6
    return Ended("woken", notes, bool(notes))


def unprobed(call):
    """The call without its points: they are steps of a call above it."""
    while True:
        try:
            what = next(call)
        except StopIteration as end:
            return end.value
        yield what if callable(what) else STEP


def wakeup(proc, rendez, level):
    kernel = proc.kernel
    if rendez >= kernel.rendez:
        return NO_RENDEZ
    kernel.levels[rendez] = max(kernel.levels[rendez], level)
    yield STEP
    pid, kernel.posted[rendez] = kernel.posted[rendez], None
    if pid is not None:
        yield STEP
        kernel.marks[pid] = True
    return "ok"


class Roster:
    """Who gives out the pids and the Rendez of a kernel, and knows the note groups: the group of each pid that was made."""

    def __init__(self, kernel):
        self.kernel, self.groups, self.next_group, self.next_rendez = kernel, [0], 1, 0

    def pids_left(self):
        return self.kernel.procs - len(self.groups)

    def rendez_left(self):
        return self.kernel.rendez - self.next_rendez

    def row(self, count):
        """The first of so many Rendez, or none."""
        if not 1 <= count <= self.rendez_left():
            return None
        self.next_rendez += count
        return self.next_rendez - count

    def new_group(self):
        self.next_group += 1
        return self.next_group - 1

    def rfork(self, parent, flags, known=RFPROC | RFNOTEG):
        """A new process, none, or why not."""
        if flags & ~known:
            return "bad flags"
        if not flags & RFPROC:
            if flags & RFNOTEG and parent.pid < len(self.groups):
                self.groups[parent.pid] = self.new_group()
            return None
        if not self.pids_left():
            return NO_PROC
        is_apart = flags & RFNOTEG or parent.pid >= len(self.groups)
        self.groups.append(self.new_group() if is_apart else self.groups[parent.pid])
        return Proc(self.kernel, len(self.groups) - 1)

    def note_group(self, proc, pid, notes):
        """Posts to each process of the group, one after another, in the caller's kernel."""
        yield STEP
        if pid >= len(self.groups) or proc.kernel.procs < self.kernel.procs:
            return NO_PROC
        reached = [it for it, group in enumerate(self.groups) if group == self.groups[pid]]
        for it in reached:
            yield STEP
            proc.kernel.post_notes(it, notes)
        return f"noted {len(reached)}"
