"""Plays scenes on the model, by docs/SCENES.md: a line in, its answer out.

Where several processes may go on, an order (`orders`) says which of them makes the next step. `raced` says whether it ever had a
choice.
"""
import re

from modelled import devices as dev
from modelled import queues
from modelled.layer import NO_PROC, NO_RENDEZ, RFNOTEG, RFPROC, RFREND, Kernel, Proc, Roster, kinds_word, sleep, wakeup

NOT_ITS, NOT_HERE, NO_CLOCK, WAITS_STILL = "not its call", "not here", "no clock", "waits still"
FLAGS = {"proc": RFPROC, "rend": RFREND, "noteg": RFNOTEG}
ALONE = {"sleep", "sleep_within", "wakeup", "tick", "note", "notes", "put_back", "notepg"}
CALLS = {
    "zero": {"wakeup", "tick", "note", "notes", "put_back", "notepg", "rendez", "row", "pids_left", "rendez_left"},
    "plain": ALONE,
    "reader": ALONE | {"read", "read_within", "try_read", "read_block", "next_piece", "read_exact", "hangup"},
    "writer": ALONE | {"write", "write_within", "write_long", "hangup"},
    "holder": {"acquire", "try_acquire", "acquire_within", "release", "rendez", "note", "notes"},
    "guest": {"rfork", "rendezvous", "rendezvous_within", "rendezvous_word", "rendez", "note", "notes"},
    "sharer": {"read"},
    "sender": {"send", "send_within", "try_send", "hangup", "rendez", "note", "notes"},
    "receiver": {"receive", "receive_within", "try_receive", "hangup", "rendez", "note", "notes"},
}
HANDLES = {"sender": 0, "receiver": 1}  # of a queue, with the place of the first one among its Rendez
FORKS = {"zero", "plain", "reader", "writer"}
PROBED = {"sleep": {"plain", "reader", "writer"}, "acquire": {"holder"}, "try_acquire": {"holder"}, "acquire_within": {"holder"},
          "rendezvous": {"guest"}, "rendezvous_within": {"guest"}}
# How many operands a call of another process than 0 has. A role may stand behind them.
OPERANDS = {"sleep": 2, "sleep_within": 4, "wakeup": 2, "tick": 1, "note": 2, "put_back": 1, "read": 1, "read_within": 3, "try_read": 1,
            "next_piece": 1, "read_exact": 1, "write": 1, "write_within": 3, "write_long": 1, "acquire_within": 2, "release": 1,
            "rendezvous": 2, "rendezvous_within": 4, "rendezvous_word": 2, "send": 1, "send_within": 3, "try_send": 1,
            "receive_within": 2}
# The calls in a role at an object that need no Rendez of it.
NEEDS_NO_ROW = {"note", "notes", "rendez"}
# The calls that do something before their first point or step.
ACTS_AT_ONCE = {"wakeup", "hangup", "sleep_within"}
MOST_STEPS, MOST_KEPT = 3000, 8


class NoAnswer(Exception):
    """The model can't say what a line is answered."""


class NotAScene(NoAnswer):
    """It is no line."""


class Spins(NoAnswer):
    """A wait goes round and round, since the level of its Rendez was raised by somebody else."""


class Waits(NoAnswer):
    """It is answered once all turns have passed."""


def bytes_of(word):
    found = re.fullmatch(r"([1-9]\d*)\*(.)", word)
    return b"" if word == "-" else found[2].encode() * int(found[1]) if found else word.encode()


def planned(words):
    """The processes and the Rendez that a plan's kernel has."""
    sizes = list(zip(words[::2], map(int, words[1::2])))
    rendez = {"rendez": (1, 0), "pipe": (2, 2), "space": (1, 0), "sema": (1, 0), "queue": (1, 0)}
    row = [rendez[kind][0] * size + rendez[kind][1] for kind, size in sizes if kind in rendez]
    return max([1] + [size for kind, size in sizes if kind != "rendez"]), sum(row)


def notes_of(word):
    return frozenset() if word == "-" else frozenset(word.split(","))


def flags_of(word):
    return int(word) if word.isdigit() else sum(FLAGS[it] for it in word.split(",")) if word != "-" else 0


def role_of(words):
    """The role that these words name: at which object, and whether at the direction back."""
    is_back = words[-1:] == ["back"]
    number = words[1:len(words) - is_back]
    return words[0], int(number[0]) if number else 1, is_back


def lacks(rendez, held):
    """Whether so many Rendez don't reach the end of the row of a thing with seats."""
    row = held.row()
    return row is not None and rendez < row.first + row.seats


class Run:
    """A call under way: its generator, the lines that are kept for it, and what it has visited."""

    def __init__(self, call, acts=True, held=None):
        self.held = held  # by what of its process it is made
        self.call, self.kept, self.due = call, None, []  # the kept lines of the point at which it stands are due
        self.acts = acts  # whether its next step does anything
        self.points, self.posted, self.parked, self.is_stopped, self.answer = [], [], None, False, None
        self.moves = 0  # how many steps it has made

    def is_ready(self):
        if self.is_stopped:
            return bool(self.due)
        return self.answer is None and (self.parked is None or bool(self.parked()))


class Held:
    """What a process has by a role: a seat, or which end, of a thing."""

    def __init__(self, role, which=1, is_back=False, thing=None, seat=None):
        self.role, self.which, self.is_back, self.thing, self.seat = role, which, is_back, thing, seat

    def name(self):
        return self.role, self.which, self.is_back

    def row(self):
        """Where the seats of its thing are counted; none where it has no seat."""
        return self.thing.line if self.role == "sharer" else self.thing if self.role in ("holder", "guest", *HANDLES) else None


class Actor:
    """A process of a scene: its number, and what it has, in the order in which it got it."""

    def __init__(self, proc, number, *held):
        self.proc, self.number, self.held = proc, number, list(held)
        self.run, self.is_gone, self.points, self.posted = None, False, [], []

    def last(self, *roles):
        """What it got last in one of these roles; none where it has none."""
        return next((it for it in reversed(self.held) if it.role in roles), None)

    def maker(self, verb, name=None):
        """By what it makes this call: in the role that is named, or by what it got last that makes it."""
        suiting = (it for it in reversed(self.held) if verb in CALLS[it.role] and name in (None, it.name()))
        return next(suiting, None)


class As:
    """A process in one of its roles."""

    def __init__(self, actor, held):
        self.actor, self.held = actor, held

    def __getattr__(self, name):
        own = ("role", "which", "is_back", "thing", "seat")
        return getattr(vars(self)["held"] if name in own else vars(self)["actor"], name)


class Lab:
    """With no order all go on as far as they can, the first one first."""

    def __init__(self, order=None, may_wait=False):
        self.order, self.may_wait, self.raced, self.steps = order, may_wait, False, 0
        self.kernel = self.roster = None
        self.actors, self.strangers = {}, 0
        self.pipes, self.semas, self.clocks, self.spaces, self.turns, self.queues = ([] for _ in range(6))
        self.kept, self.acted, self.is_fresh, self.keeper = [], [], True, None
        self.played, self.playing = 0, []  # how many lines were, and which are: one, and those that are kept in it

    # ---- lines

    def play(self, line):
        """The answer of a line; none of a comment, and of a line that makes its object."""
        words = line.split(" ")
        if not line or line.startswith("#"):
            return None
        if self.roster is None:
            return self.open(words)
        if words[0].isdigit() and not (int(words[0]) in self.actors):
            raise NotAScene(line)
        self.steps, self.played = 0, self.played + 1
        if self.order:
            self.go_on(self.order.steps(words))
        self.playing.append(words)
        try:
            answer = self.actor_line(words) if words[0].isdigit() else self.other_line(words)
        finally:
            self.playing.pop()
        if not self.order:
            self.go_on(MOST_STEPS + 1)
        return answer

    def go_on(self, steps):
        """Lets those that may go on do so: all that they can, or so many steps of it."""
        self.raced |= bool(self.ready())
        for _ in range(steps):
            if not self.step(True):
                break

    def whose(self, ready):
        """The one of these that the line is of."""
        number = self.playing[-1][0] if self.playing else ""
        return next((it for it in ready if str(it.number) == number), None)

    def open(self, words):
        procs, rendez = planned(words[1:]) if words[0] == "plan" else map(int, words[1:])
        self.roster = Roster(Kernel(0, 0))
        if not 1 <= procs <= 1024:
            return NO_PROC
        if not 1 <= rendez <= 8192:
            return NO_RENDEZ
        self.kernel = Kernel(procs, rendez)
        self.roster = Roster(self.kernel)
        self.actors[0] = Actor(Proc(self.kernel, 0), 0, Held("zero"))
        return None

    def other_line(self, words):
        verb, rest = words[0], words[1:]
        if verb == "at":
            return self.keep(int(rest[0]), " ".join(rest[1:]))
        if verb == "acted":
            number = int(rest[0]) - 1
            if not 0 <= number < len(self.acted):
                raise NotAScene(words)
            return self.acted[number][2] or "not reached"
        if verb == "left":
            return self.left()
        if verb == "rendez":
            return self.look_at_rendez(int(rest[0]))
        if verb == "stranger":
            return self.stranger(rest)
        return getattr(self, f"make_{verb}")(*rest)

    def actor_line(self, words):
        actor, verb, rest = self.actors[int(words[0])], words[1], words[2:]
        is_apart = rest[-1:] == ["&"]
        if verb == "waits":
            return self.waits(actor)
        if verb == "ends":
            return self.ends(actor)
        if verb == "look":
            return self.look(actor)
        if verb in ("points", "posted"):
            return self.visited(actor, verb)
        if verb == "gets" and not actor.number:
            raise NotAScene(words)
        if actor.is_gone or actor.run:
            return NOT_HERE
        if verb in ("fork", "rfork", "clock", "gets"):
            return getattr(self, verb)(actor, rest)
        return self.start(actor, verb, rest[:-1] if is_apart else rest, is_apart)

    # ---- threads

    def ready(self):
        return [it for it in self.actors.values() if it.run and it.run.is_ready()]

    def step(self, is_between=False):
        """One step of one process. Whether there was one: between two lines there need not be."""
        ready = self.ready()
        if not ready:
            return False
        self.raced |= len(ready) > 1
        self.steps += 1
        if self.steps > MOST_STEPS:
            raise Spins()
        first = self.order.first(ready, self, is_between) if self.order else ready[0]
        if first:
            self.advance(first)
        return first is not None

    def run_until(self, is_done):
        while not is_done():
            if not self.step():
                return False
        return True

    def advance(self, actor):
        run = actor.run
        if run.due:
            self.serve(run)
            return
        run.parked, run.moves, run.acts = None, run.moves + 1, True
        try:
            what = next(run.call)
        except StopIteration as end:
            run.answer = end.value
            return
        if callable(what):
            run.parked = what
        elif what is not None and run.kept is not None:
            self.visit(actor, run, what)

    def visit(self, actor, run, point):
        """A probed call stops at its first visit of a point for which lines are kept."""
        is_first = point not in run.points
        run.points.append(point)
        if actor.proc.posted_in() is not None:
            run.posted.append(point)
        actor.points, actor.posted = run.points, run.posted
        for kept in run.kept if is_first else []:
            if kept[0] == point:
                run.due.append(kept)
        run.is_stopped = bool(run.due)

    def serve(self, run):
        """Plays the lines of the point at which a call stands, and lets it go. Other lines may have come before."""
        due, run.due = run.due, []
        self.raced |= bool(self.ready())
        for kept in due:
            kept[2] = self.play_kept(kept[1])
        run.is_stopped = False

    def play_kept(self, line):
        try:
            return self.play(line) or "ok"
        except NotAScene:
            return "no line"

    def start(self, actor, verb, rest, is_apart):
        """Makes a call of a process: it is begun, and without `&` it is also ended."""
        run = self.begun(actor, verb, rest)
        if is_apart and actor.number:
            return "started"
        if not self.run_until(lambda: run.answer is not None):
            return self.after_all_turns(WAITS_STILL)
        actor.run = None
        return run.answer

    def begun(self, actor, verb, rest):
        """The call, which takes the lines that are kept; or one that is answered at once."""
        has_kept = bool(actor.number and self.kept and self.is_fresh and verb != "notepg")
        count = OPERANDS.get(verb, 0) if actor.number and verb != "notepg" else len(rest)
        held = actor.maker(verb, role_of(rest[count:]) if rest[count:] else None)
        if has_kept and not (held and held.role in PROBED.get(verb, ())):
            call = "not probed"
        else:
            call = self.call(As(actor, held), verb, rest[:count]) if held else NOT_ITS
        run = actor.run = Run(at_once(call) if isinstance(call, str) else call, verb in ACTS_AT_ONCE, held)
        if has_kept:
            self.is_fresh, self.keeper, run.kept = False, actor, self.kept
            actor.points, actor.posted = run.points, run.posted
        return run

    def after_all_turns(self, answer):
        if not self.may_wait:
            raise Waits()
        return answer

    def waits(self, actor):
        if not actor.run:
            return "no"
        kernel, pid = actor.proc.kernel, actor.proc.pid
        if self.run_until(lambda: actor.proc.posted_in() is not None and not kernel.marks[pid]):
            return "yes"
        return self.after_all_turns("no")

    def ends(self, actor):
        run = actor.run
        if not run:
            return "not started"
        if not self.run_until(lambda: run.answer is not None):
            return self.after_all_turns(WAITS_STILL)
        actor.run = None
        return run.answer

    def left(self):
        count = 0
        while running := [it for it in self.actors.values() if it.run]:
            for it in running:
                if it.proc.kernel is self.kernel:
                    self.kernel.post_notes(it.proc.pid, {"interrupt"})
                    self.playing[-1] = ["left", count, it.number]
                    self.go_on(self.order.steps(self.playing[-1]) if self.order else MOST_STEPS + 1)
            self.run_until(lambda: all(it.run.answer is not None for it in running))
            ended = [it for it in running if it.run.answer is not None]
            for it in ended:
                it.run = None
            if ended != running:
                return self.after_all_turns(f"stuck {len(running) - len(ended)}")
            count += len(running)
        return f"called off {count}"

    # ---- points

    def keep(self, point, line):
        if line[:1].isdigit() and int(line.split(" ")[0]) not in self.actors:
            raise NotAScene(line)
        under_way = not self.is_fresh and self.keeper.run
        is_ahead = under_way and under_way.kept is self.kept and under_way.answer is None
        if is_ahead and any(kept[2] is None for kept in self.kept):
            return "too many"
        if not self.is_fresh:
            self.kept, self.is_fresh = [], True
        if len(self.kept) == MOST_KEPT:
            return "too many"
        self.kept.append([point, line, None])
        self.acted = self.kept
        return "kept"

    def visited(self, actor, verb):
        if actor.run or actor.is_gone:
            return NOT_HERE
        if verb == "points":
            return " ".join(["points", *map(str, actor.points)])
        return f"posted {' '.join(map(str, actor.posted)) if actor.posted and actor.proc.pid < 64 else '-'}"

    # ---- looks

    def look(self, actor):
        kernel, pid = actor.proc.kernel, actor.proc.pid
        place = actor.proc.posted_in()
        state = ["Ready"] if place is None else ["Wakeme", str(place)]
        return " ".join(state + ["marked"] * kernel.marks[pid] + [kinds_word(kernel.notes[pid])])

    def look_at_rendez(self, rendez):
        if rendez >= self.kernel.rendez:
            raise NotAScene(rendez)
        posted = self.kernel.posted[rendez]
        return f"level {self.kernel.levels[rendez]} " + ("nobody" if posted is None else f"posted {posted}")

    # ---- objects

    def make_pipe(self, limit, writers, stream=False):
        limit, writers = int(limit), int(writers)
        if not 1 <= limit <= 1024 or not 1 <= writers <= 64:
            return "bad size"
        first = self.roster.row(2 * (1 + writers))
        if first is None:
            return NO_RENDEZ
        ways = [dev.Direction(limit, writers, stream, first), dev.Direction(limit, writers, stream, first + 1 + writers)]
        self.pipes.append(ways)
        return None

    def make_stream(self, limit, writers):
        return self.make_pipe(limit, writers, True)

    def make_sema(self, units, seats):
        units, seats = int(units), int(seats)
        if units > dev.MOST_UNITS:
            return dev.BAD_ARG
        return self.make_row(self.semas, seats, lambda first: dev.Sema(units, seats, first))

    def make_space(self, members):
        return self.make_row(self.spaces, int(members), lambda first: dev.Space(int(members), first))

    def make_row(self, kind, count, make):
        if not 1 <= count <= 1024:
            return NO_PROC
        first = self.roster.row(count)
        if first is None:
            return NO_RENDEZ
        kind.append(make(first))
        return None

    def make_new_group(self, number):
        number = int(number)
        if not 1 <= number <= len(self.spaces) or self.spaces[number - 1].given:
            return "no space"
        return self.make_space(self.spaces[number - 1].seats)

    def make_queue(self, capacity, handles):
        capacity, handles = int(capacity), int(handles)
        if not 1 <= capacity <= queues.MOST_VALUES or not 2 <= handles <= queues.MOST_HANDLES:
            return "bad size"
        return self.make_row(self.queues, handles, lambda first: queues.Queue(capacity, handles, first))

    def make_clock(self, seats):
        if not 1 <= int(seats) <= 1024:
            return NO_PROC
        self.clocks.append(dev.Timers(int(seats)))
        return None

    def make_share(self, procs, number="1"):
        way = self.way(number)
        if way is None or way.is_read:
            return NO_PROC
        answer = self.make_row(self.turns, int(procs), lambda first: dev.Turns(way, int(procs), first))
        way.is_read |= answer is None
        return answer

    def way(self, number, is_back=False):
        return self.pipes[int(number) - 1][is_back] if 1 <= int(number) <= len(self.pipes) else None

    # ---- processes

    def fork(self, actor, words):
        if words:
            return self.fork_in_role(actor, RFPROC, *role_of(words))
        held = actor.last("holder")
        return self.fork_beside(actor, held) if held else NOT_ITS

    def rfork(self, actor, words):
        flags = flags_of(words[0])
        if words[1:]:
            return self.fork_in_role(actor, flags, *role_of(words[1:]))
        held = actor.last("guest")
        return self.fork_guest(actor, held, flags) if held else self.fork_in_role(actor, flags, "plain")

    def fork_in_role(self, actor, flags, role, which=1, is_back=False):
        if not actor.last(*FORKS):
            return NOT_ITS
        is_one = flags in (RFPROC, RFPROC | RFNOTEG)
        found = self.who_has(role, self.thing(role, which)) if role == "sharer" and is_one else None
        if found:
            return NOT_ITS if flags & RFNOTEG else self.fork_beside(*found)
        if role == "writers" and is_one:
            return self.fork_writers(actor, flags, which, is_back)
        child = self.roster.rfork(actor.proc, flags)
        if not isinstance(child, Proc):
            return child or "nobody"
        return self.seat(child, child.pid, self.get(role, which, is_back))

    def seat(self, proc, number, got):
        """A process with what it got; who was refused is gone."""
        actor = self.actors[number] = Actor(proc, number)
        if isinstance(got, str):
            actor.is_gone = True
            return got
        actor.held.append(got)
        return f"process {number}"

    def fork_beside(self, actor, held):
        """A child with a seat beside its parent's."""
        if held.row().given == held.row().seats or not self.roster.pids_left():
            return NO_PROC
        child = self.roster.rfork(actor.proc, RFPROC)
        return self.seat(child, child.pid, self.beside(held.role, held.which, held.thing))

    def fork_writers(self, actor, flags, which, is_back):
        way = self.way(which, is_back)
        count = way.writers - way.written if way else 1024
        if count > self.roster.pids_left():
            return NO_PROC
        children = [self.roster.rfork(actor.proc, flags) for _ in range(count)]
        return [self.seat(it, it.pid, self.get("writer", which, is_back)) for it in children][-1] if count else "nobody"

    def stranger(self, words):
        procs, rendez, name = int(words[0]), int(words[1]), role_of(words[2:])
        if not 1 <= procs <= 1024:
            return NO_PROC
        if not 1 <= rendez <= 8192:
            return NO_RENDEZ
        held = Held(*name, self.thing(*name[:2]))
        got = NO_RENDEZ if held.thing and lacks(rendez, held) else self.get(*name)
        if isinstance(got, str):
            return got
        number, self.strangers = 1024 + self.strangers, self.strangers + 1
        return self.seat(Proc(Kernel(procs, rendez), 0), number, got)

    def gets(self, actor, words):
        got = self.get(*role_of(words))
        if isinstance(got, str):
            return got
        actor.held.append(got)
        return "ok"

    def thing(self, role, which):
        """What has seats for this role; none where there is no such thing."""
        kinds = {"holder": self.semas, "guest": self.spaces, "sharer": self.turns, **dict.fromkeys(HANDLES, self.queues)}
        kind = kinds.get(role, [])
        return kind[which - 1] if which <= len(kind) else None

    def who_has(self, role, thing):
        """The first process here that has this role there, and what it has."""
        here = (it for it in self.actors.values() if not it.run and not it.is_gone)
        return next(((it, held) for it in here for held in it.held if held.role == role and held.thing is thing), None)

    def get(self, role, which, is_back):
        """What a process gets by a role, or why it can't have it."""
        if role == "plain":
            return Held(role, which, is_back)
        if role in ("reader", "writer"):
            return self.get_end(role, which, is_back)
        thing = self.thing(role, which)
        if role in HANDLES:
            return self.get_handle(role, which, is_back, thing)
        if thing is None or Held(role, thing=thing).row().given and not self.who_has(role, thing):
            return NO_PROC
        return self.beside(role, which, thing, is_back)

    def get_end(self, role, which, is_back):
        way = self.way(which, is_back)
        if way is None or (way.is_read if role == "reader" else way.written == way.writers):
            return NO_PROC
        if role == "reader":
            way.is_read = True
            return Held(role, which, is_back, way)
        way.written += 1
        return Held(role, which, is_back, way, way.written - 1)

    def get_handle(self, role, which, is_back, queue):
        """The first sender or receiver of a queue; or a further one, if a process here has one."""
        if queue is not None and role not in queue.had:
            queue.had.add(role)
            return Held(role, which, is_back, queue, HANDLES[role])
        return self.beside(role, which, queue, is_back) if queue is not None and self.who_has(role, queue) else NO_PROC

    def beside(self, role, which, thing, is_back=False):
        """The next seat of a thing, if there is one."""
        row = Held(role, thing=thing).row()
        if row.given == row.seats:
            return NO_PROC
        row.given += 1
        return Held(role, which, is_back, thing, row.given - 1)

    def clock(self, actor, words):
        number = int((words or ["1"])[0])
        if not 1 <= number <= len(self.clocks):
            return NO_CLOCK
        timers = self.clocks[number - 1]
        if timers.given == timers.seats:
            return NO_PROC
        timers.given += 1
        actor.proc.timer = dev.TimerSeat(timers, timers.given - 1)
        return "ok"

    def fork_guest(self, actor, held, flags):
        """The rfork of a guest: flags, pid, Rendez and member, in this order."""
        space, which = held.thing, held.which
        if flags & ~7:
            return "bad flags"
        if flags & RFPROC and not self.roster.pids_left():
            return NO_PROC
        if flags & RFREND and self.roster.rendez_left() < space.seats:
            return NO_RENDEZ
        if flags & RFPROC and not flags & RFREND and space.given == space.seats:
            return NO_PROC
        child = self.roster.rfork(actor.proc, flags & ~RFREND)
        if flags & RFREND:
            space = dev.Space(space.seats, self.roster.row(space.seats))
            self.spaces.append(space)
            which = len(self.spaces)
        if child:
            return self.seat(child, child.pid, self.beside("guest", which, space))
        if flags & RFREND and lacks(actor.proc.kernel.rendez, Held("guest", thing=space)):
            actor.is_gone = True
            return NO_RENDEZ
        if flags & RFREND:
            vars(held).update(vars(self.beside("guest", which, space)))
        return "nobody"

    # ---- calls

    def call(self, actor, verb, words):
        """The call as a generator, or why it is not made."""
        numbers = [int(it) if it.isdigit() else it for it in words]
        if verb == "tick":
            timers = self.ticks(actor, numbers)
            return dev.tick(actor.proc, timers, numbers[0]) if timers else NO_CLOCK
        if verb.endswith("_within") and not actor.proc.timer:
            return NO_CLOCK
        if verb not in NEEDS_NO_ROW and lacks(actor.proc.kernel.rendez, actor.held):
            value = f" {numbers[-1]}" if actor.role == "sender" and numbers else ""
            return done(lambda: NO_RENDEZ + value)
        if verb == "room":
            raise NotAScene("the model knows no memory")
        return getattr(self, f"call_{verb}")(actor, words, numbers)

    def ticks(self, actor, numbers):
        if actor.number:
            return actor.proc.timer and actor.proc.timer.timers
        which = numbers[1] if numbers[1:] else 1
        return self.clocks[which - 1] if 1 <= which <= len(self.clocks) else None

    def call_sleep(self, actor, _, numbers):
        return texts(sleep(actor.proc, *numbers))

    def call_sleep_within(self, actor, _, numbers):
        return dev.sleep_within(actor.proc, *numbers)

    def call_wakeup(self, actor, _, numbers):
        return wakeup(actor.proc, *numbers)

    def call_note(self, actor, words, numbers):
        return done(lambda: actor.proc.kernel.post_notes(numbers[0], notes_of(words[1])))

    def call_notes(self, actor, *_):
        return done(lambda: f"notes {kinds_word(actor.proc.take_notes())}")

    def call_put_back(self, actor, words, _):
        return done(lambda: actor.proc.put_back(notes_of(words[0])) or "ok")

    def call_notepg(self, actor, words, numbers):
        return self.roster.note_group(actor.proc, numbers[0], notes_of(words[1]))

    def call_read(self, actor, _, numbers):
        if actor.role == "sharer":
            return dev.read_in_turn(actor.proc, actor.thing, actor.seat, numbers[0])
        return dev.read(actor.proc, actor.thing, numbers[0])

    call_next_piece = call_read

    def call_try_read(self, actor, _, numbers):
        return dev.read(actor.proc, actor.thing, numbers[0], False)

    def call_read_within(self, actor, _, numbers):
        return dev.read_within(actor.proc, actor.thing, *numbers)

    def call_read_block(self, actor, *_):
        return dev.read(actor.proc, actor.thing, None)

    def call_read_exact(self, actor, _, numbers):
        return dev.read_exact(actor.proc, actor.thing, numbers[0])

    def call_write(self, actor, words, _):
        return dev.write(actor.proc, actor.thing, actor.seat, bytes_of(words[0]))

    def call_write_within(self, actor, words, numbers):
        return dev.write_within(actor.proc, actor.thing, actor.seat, *numbers[:2], bytes_of(words[2]))

    def call_write_long(self, actor, words, _):
        return dev.write_long(actor.proc, actor.thing, actor.seat, bytes_of(words[0]))

    def call_hangup(self, actor, *_):
        hangup = queues.hang_up if actor.role in HANDLES else dev.hangup
        return hangup(actor.proc, actor.thing)

    def call_acquire(self, actor, *_):
        return dev.acquire(actor.proc, actor.thing, actor.seat)

    def call_try_acquire(self, actor, *_):
        return dev.acquire(actor.proc, actor.thing, actor.seat, False)

    def call_acquire_within(self, actor, _, numbers):
        return dev.acquire_within(actor.proc, actor.thing, actor.seat, *numbers)

    def call_release(self, actor, _, numbers):
        return dev.release(actor.proc, actor.thing, numbers[0])

    def call_rendezvous(self, actor, _, numbers):
        return dev.rendezvous(actor.proc, actor.thing, actor.seat, *numbers)

    def call_rendezvous_word(self, actor, _, numbers):
        return dev.rendezvous_word(actor.proc, actor.thing, actor.seat, *numbers)

    def call_rendezvous_within(self, actor, _, numbers):
        return dev.rendezvous_within(actor.proc, actor.thing, actor.seat, *numbers)

    def call_send(self, actor, _, numbers):
        return queues.send(actor.proc, actor.thing, actor.seat, numbers[0])

    def call_try_send(self, actor, _, numbers):
        return queues.send(actor.proc, actor.thing, actor.seat, numbers[0], False)

    def call_send_within(self, actor, _, numbers):
        return queues.send_within(actor.proc, actor.thing, actor.seat, *numbers)

    def call_receive(self, actor, *_):
        return queues.receive(actor.proc, actor.thing, actor.seat)

    def call_try_receive(self, actor, *_):
        return queues.receive(actor.proc, actor.thing, actor.seat, False)

    def call_receive_within(self, actor, _, numbers):
        return queues.receive_within(actor.proc, actor.thing, actor.seat, *numbers)

    def call_rendez(self, actor, *_):
        if actor.role == "zero":
            return self.call_row(actor, None, [1])
        return done(lambda: f"rendez {actor.thing.first + actor.seat}")

    def call_row(self, _, __, numbers):
        first = self.roster.row(numbers[0])
        return done(lambda: NO_RENDEZ if first is None else f"rendez {first}")

    def call_pids_left(self, *_):
        return done(lambda: f"pids {self.roster.pids_left()}")

    def call_rendez_left(self, *_):
        return done(lambda: f"rendez {self.roster.rendez_left()}")


def at_once(answer):
    """A call that does nothing, and is answered so."""
    return answer
    yield


def done(act):
    """A call of one step."""
    yield None
    return act()


def texts(call):
    return (yield from call).text()
