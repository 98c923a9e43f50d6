"""Makes scenes at random: objects, processes with a role at them, and then lines that the model answers in one way alone.

Each line is played on the model first. One that would end by all turns, or in a wait that goes round and round, is left out.
After each line whoever it let go on is met by `N ends` or `N waits`, so that no two lines overlap. What the model answers
differently where other processes go first is cut off.
"""
import random

from modelled.lab import ALONE, CALLS, OPERANDS, PROBED, As, Lab, NoAnswer
from modelled.layer import KINDS, TOP_LEVEL
from modelled.moves import SLEEPERS, move
from modelled.opening import ROLES, Opening
from modelled.orders import EXTREMES, Order

ORDERS, MOST_CALLS, STRANGERS = 16, 34, 1024
WAITING = {"sleep", "sleep_within", "read", "read_within", "read_block", "next_piece", "read_exact", "write", "write_within",
           "write_long", "acquire", "acquire_within", "rendezvous", "rendezvous_within", "rendezvous_word", "send", "send_within",
           "receive", "receive_within"}
# What a role calls more often than the rest of its calls.
OFTEN = {"reader": ["read", "read_within", "try_read", "read_block"], "writer": ["write", "write_within"],
         "plain": ["sleep", "sleep_within"], "holder": ["acquire", "acquire_within", "release"],
         "guest": ["rendezvous", "rendezvous_within"], "zero": ["note", "tick"], "sharer": ["read"],
         "sender": ["send", "send", "send_within", "try_send"], "receiver": ["receive", "receive", "receive_within", "try_receive"]}
TIMED = {"reader": "read_within", "writer": "write_within", "holder": "acquire_within", "guest": "rendezvous_within",
         "sender": "send_within", "receiver": "receive_within"}
# How many points a call has.
POINTS = {"sleep": 6, "acquire": 4, "try_acquire": 4, "acquire_within": 4, "rendezvous": 4, "rendezvous_within": 4}


class Scene:
    """Its lines, each with the answer of the model, and whether one of them is answered once all turns have passed."""

    def __init__(self, name, lines, waits=False):
        self.name, self.lines, self.waits = name, lines, waits

    def asked(self):
        return "".join(f"{line}\n" for line in [f"# {self.name}", *(line for line, _ in self.lines)])

    def answered(self):
        return [f"# {self.name}", *(line if answer is None else f"{line} = {answer}" for line, answer in self.lines)]


def answers(lines, order=None, waits=False):
    """What the model answers, up to a line that has no answer, and whether it had a choice."""
    lab, told = Lab(order, waits), []
    try:
        for line in lines:
            told.append((line, lab.play(line)))
    except NoAnswer:
        pass
    return told, lab.raced


def settled(lines, seed, waits=False, orders=ORDERS):
    """The lines with their answers, up to the first whose answer depends on who goes first."""
    first, raced = answers(lines, None, waits)
    for order in [*EXTREMES, *(Order(f"{seed} {number}") for number in range(orders))] if raced else []:
        other, _ = answers(lines[:len(first)], order, waits)
        first = first[:next((at for at, pair in enumerate(first) if other[at:at + 1] != [pair]), len(first))]
    return first


class LeftOut(Exception):
    """A line that has no answer was left out, and with it the rest of its turn."""


class Maker:
    def __init__(self, seed):
        self.seed, self.dice = seed, random.Random(seed)
        self.lab, self.lines, self.now, self.sent = Lab(), [], 100, 0
        self.calls = {}

    def scene(self):
        self.open()
        for _ in range(self.dice.randint(8, MOST_CALLS) if self.lab.kernel else 0):
            self.attempt(self.turn)
        return Scene(f"seed {self.seed}", settled([line for line, _ in self.lines], self.seed))

    def attempt(self, turn, *operands):
        """Does so, as far as it goes. What was kept for a call that was left out is left out too."""
        try:
            turn(*operands)
        except LeftOut:
            while self.lab.kernel and self.lab.is_fresh and self.lab.kept:
                del self.lines[max(at for at, (line, _) in enumerate(self.lines) if line.startswith("at ")):]
                self.play_again()

    # ---- lines

    def say(self, line):
        """Plays a line on the model and keeps it: its answer."""
        try:
            answer = self.lab.play(line)
        except NoAnswer as why:
            self.play_again()
            raise LeftOut() from why
        self.lines.append((line, answer))
        return answer

    def leave_out(self):
        self.lines.pop()
        self.play_again()
        raise LeftOut()

    def play_again(self):
        """Plays what is kept on a new model, as far as that goes."""
        self.lab = Lab()
        for at, (line, _) in enumerate(self.lines):
            try:
                self.lab.play(line)
            except NoAnswer:
                del self.lines[at:]
                return self.play_again()
        return None

    def meet(self, before):
        """Meets each process that went on since, until none has."""
        while True:
            moved = [it for it in self.lab.actors.values() if it.run and before.get(it.number) != (it.run, it.run.moves)]
            if not moved:
                return
            actor = self.dice.choice(moved)
            before[actor.number] = actor.run, actor.run.moves
            if actor.run.answer is not None:
                self.say(f"{actor.number} ends")
            elif actor.proc.posted_in() is not None:
                self.say(f"{actor.number} waits")

    def moves(self):
        return {it.number: (it.run, it.run.moves) for it in self.lab.actors.values() if it.run}

    def tell(self, line):
        before = self.moves()
        self.say(line)
        self.meet(before)

    def line(self, actor, words):
        """A call of a process in this role, which is named where the call would else be made in another."""
        held, verb = actor.held, words[0]
        is_named = verb in CALLS[held.role] and actor.maker(verb) is not held and len(words) == 1 + OPERANDS.get(verb, 0)
        name = [held.role, str(held.which)] + ["back"] * held.is_back
        return " ".join([str(actor.number), *words, *(name if is_named and verb not in ("notepg", "rfork") else [])])

    def make_call(self, actor, words):
        """A call of a process, with `&` where it waits, and else mostly without."""
        before, line = self.moves(), self.line(actor, words)
        if actor.number == 0 or words[0] in ("rfork", "notepg"):
            return self.tell(line)
        self.say(f"{line} &")
        if actor.number >= STRANGERS and actor.run and actor.run.answer is None:
            return self.leave_out()  # no note ends it, so the scene would end once all turns have passed
        if not actor.run:  # it was refused before it began
            self.lines[-1] = line, self.lines[-1][1]
        elif actor.run.answer is not None and self.dice.random() < 0.8 and not self.has_lines_to_come(actor):
            self.lines[-1] = line, actor.run.answer
            self.lab.actors[actor.number].run = None
        self.calls[actor.number] = words
        return self.meet(before)

    def has_lines_to_come(self, actor):
        """Whether another call has lines that are kept for it, which may find this process here or not."""
        return any(it.run and it.run.kept for it in self.lab.actors.values() if it.number != actor.number)

    # ---- the opening

    def open(self):
        dice = self.dice
        first, *others = Opening(dice).lines()
        self.say(first)
        for line in others if self.lab.kernel else []:
            numbers = [*self.lab.actors][1:]
            if line.startswith("gets") and not numbers:
                continue
            self.attempt(self.tell, f"{dice.choice(numbers)} {line}" if line.startswith("gets") else line)
        for number in list(self.lab.actors)[1:] if self.lab.clocks else []:
            if dice.random() < 0.85:
                self.attempt(self.tell, f"{number} clock")
        if self.lab.kernel and dice.random() < 0.15:
            self.attempt(self.tell, f"stranger {dice.randint(1, 3)} {dice.randint(1, 9)} {dice.choice(['plain', self.role()])}")
        seats = [held for actor in self.lab.actors.values() for held in actor.held if held.row() and held.row().given < held.row().seats]
        for held in dice.sample(seats, min(2, len(seats))) if self.lab.strangers else []:
            self.attempt(self.tell, f"{STRANGERS} gets {held.role} {held.which}")
        for it in [it for it in self.idle() if it.number >= STRANGERS and it.held.row()]:
            verb = dice.choice(sorted(CALLS[it.role] - {"rfork"}))
            self.attempt(self.make_call, it, [verb, *self.operands(it, verb)])

    def role(self):
        return self.dice.choice(ROLES)

    # ---- one turn

    def turn(self):
        dice, idle = self.dice, self.idle()
        parked = [As(it, it.run.held or it.held[-1]) for it in self.lab.actors.values() if it.run]
        if parked and dice.random() < 0.4:
            return self.end_a_wait(dice.choice(parked))
        if dice.random() < 0.4:
            return move(self)
        actor = dice.choice(idle[1:] if idle[1:] and dice.random() < 0.8 else idle)
        if dice.random() < 0.04:
            return self.tell(dice.choice(self.rare_lines()))
        if dice.random() < 0.12:
            return self.tell(self.looks())
        verb = self.verb(actor)
        if actor.role in ("reader", "writer") and dice.random() < 0.6:
            verb = self.filling(actor)
        maker = actor.maker(verb)
        is_probed = maker and maker.role in PROBED.get(verb, ())
        if verb in POINTS and is_probed and dice.random() < 0.3:
            return self.call_with_kept(actor, verb)
        if actor.number and not is_probed and verb not in POINTS and verb not in ("notepg", "rfork") and dice.random() < 0.02:
            return self.call_with_lines(actor, [verb, *self.operands(actor, verb)], ["at 1 0 notes"])
        if actor.role != "zero" and dice.random() < 0.15:
            self.tell(f"0 note {actor.proc.pid} {self.kinds()}")
        return self.make_call(actor, [verb, *self.operands(actor, verb)])

    def idle(self):
        """Each process that makes no call, in each of its roles."""
        return [As(it, held) for it in self.lab.actors.values() if not it.run and not it.is_gone for held in it.held]

    def forkers(self):
        return [it for it in self.idle() if it.role in SLEEPERS or it.number == 0]

    def timed(self):
        """Who can call until a moment."""
        return [it for it in self.idle() if it.proc.timer and it.role != "sharer"]

    def deadline(self, actor):
        """The moment of the call until a moment that this process makes."""
        return min(sum(map(int, self.calls[actor.number][1:3])), 2**64 - 1)

    def timed_call(self, actor):
        own = TIMED.get(actor.role)
        verb = own if own and (actor.role not in SLEEPERS or self.dice.random() < 0.7) else "sleep_within"
        return [verb, *self.operands(actor, verb)]

    def pair(self):
        """A holder or a guest, and another at the same object; nobody where there are none."""
        idle = [it for it in self.idle() if it.role in ("holder", "guest")]
        pairs = [(it, other) for it in idle for other in idle if it.number != other.number and it.thing is other.thing]
        return self.dice.choice(pairs) if pairs else (None, None)

    def verb(self, actor):
        dice = self.dice
        if actor.role in OFTEN and dice.random() < 0.6:
            return dice.choice(OFTEN[actor.role])
        if actor.role != "zero" and dice.random() < 0.03:
            return dice.choice(sorted(ALONE | {"read", "write", "hangup", "acquire", "release", "rendezvous", "send", "receive"}))
        return dice.choice(sorted(CALLS[actor.role] - {"room"}))

    def filling(self, actor):
        """A read where something is there, and a write where there is room: so a pipe has more than one write now and then."""
        pipe = actor.thing
        is_full = len(pipe.blocks) >= pipe.limit
        reads = ["read", "read", "try_read", "read_block", "next_piece", "read_exact", "read_within"]
        writes = ["write", "write", "write_long", "write_within"]
        if actor.role == "reader":
            return self.dice.choice(reads if is_full or self.dice.random() < 0.4 else ["sleep", "notes", "wakeup", "try_read"])
        return self.dice.choice(["sleep", "notes", "hangup", "write"] if is_full else writes)

    def looks(self):
        dice = self.dice
        actor = dice.choice(list(self.lab.actors.values()))
        return dice.choice([f"{actor.number} look", f"rendez {dice.randrange(self.lab.kernel.rendez)}",
                            f"{actor.number if actor.number else 1} notes" if actor.number else "0 notes"])

    def rare_lines(self):
        """Lines that make more, or are refused."""
        dice = self.dice
        size = dice.choice([0, 1, 2, 1024, 1025])
        here = self.idle() if dice.random() < 0.9 else [As(it, it.held[0]) for it in self.lab.actors.values() if not it.is_gone]
        forker = dice.choice([it for it in here if it.role in ("zero", "plain", "reader", "writer", "holder")])
        back = dice.choice(["", "", " back"])
        number = forker.number
        fork = f"{number} fork {self.role()}" if forker.role != "holder" else f"{number} fork"
        flags = dice.choice(["-", "proc", "noteg", "noteg", "proc,noteg", "proc,noteg", "rend", "proc,rend", "8", "15", "1"])
        rfork = f"{number} rfork {flags}{dice.choice(['', ' plain', ' writers', ' guest', ' sharer'])}"
        others = [] if forker.role == "holder" else [rfork]
        others += [f"{dice.choice(here[1:]).number} gets {self.role()}"] * 3 if here[1:] else []
        return [fork, *others, "0 fork writers" + back, f"pipe {size} {dice.choice([0, 1, 64, 65])}", f"stream {size} 1",
                f"sema {dice.choice([0, 1, 2147483647, 2147483648])} {size}", f"space {size}", f"clock {size}", "new_group 1",
                f"queue {dice.choice([0, 1, 1048576, 1048577])} {size}",
                f"share {size}", f"0 row {dice.choice([0, 1, 2, 9])}", "0 pids_left", "0 rendez_left", "left",
                f"{dice.choice(self.idle()).number} rendez", f"{dice.choice(self.idle()[-1:]).number} clock" if self.idle()[1:] else "left",
                f"stranger {dice.choice([0, 1, 2, 1025])} {dice.choice([0, 1, 9, 8193])} {self.role()}"]

    # ---- a wait that ends

    def end_a_wait(self, waiting):
        dice, number, pid = self.dice, waiting.number, waiting.proc.pid
        words, place = self.calls.get(number, ["sleep"]), waiting.proc.posted_in()
        ways = [f"0 note {pid} {self.kinds()}"]
        if words[0].endswith("_within"):
            deadline = self.deadline(waiting)
            ways += [f"0 tick {deadline}", f"0 tick {max(0, deadline - 1)}", f"0 tick {min(deadline + 1, 2**64 - 1)}"]
        if place is not None and words[0].startswith("sleep"):
            ways += [f"0 wakeup {place} {self.level()}", f"0 wakeup {place} 1"]
        others = [it for it in self.idle() if it.thing is waiting.thing and it.thing is not None]
        if others and dice.random() < 0.75:
            return self.partner(dice.choice(others), words)
        if number < 1024:
            return self.tell(dice.choice(ways))
        return None

    def partner(self, other, words):
        """A call of a process at the same object, mostly the one that is waited for."""
        if self.dice.random() < 0.8:
            return self.make_call(other, self.answering(other, words))
        verb = self.verb(other)
        return self.make_call(other, [verb, *self.operands(other, verb)])

    def answering(self, other, words):
        """The call of another process at the same object for which this one waits."""
        if other.role == "guest":
            return ["rendezvous", words[-2], str(self.dice.randrange(9))] if words[0].startswith("rendezvous") else ["notes"]
        if other.role == "holder":
            return ["release", str(self.dice.choice([1, 1, 2]))]
        verb = {"reader": "read", "writer": "write", "sharer": "read", "sender": "send", "receiver": "receive"}.get(other.role, "notes")
        return [verb, *self.operands(other, verb)]

    # ---- kept lines

    def call_with_kept(self, actor, verb):
        """A call that is stopped at points."""
        dice = self.dice
        words = [verb, *self.operands(actor, verb)]
        points = sorted(dice.randint(1, POINTS[verb] + (dice.random() < 0.1)) for _ in range(dice.choice([1, 1, 2, 3])))
        self.call_with_lines(actor, words, [f"at {point} {self.kept_line(actor, words)}".strip() for point in points])

    def call_with_lines(self, actor, words, lines):
        """A call for which lines are kept, and what these were answered."""
        count = self.keep_lines(lines)
        self.make_call(actor, words)
        if not actor.run:
            self.tell_acted(actor, count)

    def keep_lines(self, lines):
        return sum(self.say(line) == "kept" for line in lines)

    def tell_acted(self, actor, count):
        for at in range(count):
            self.say(f"acted {at + 1}")
        self.say(f"{actor.number} {self.dice.choice(['points', 'points', 'posted'])}")

    def kept_line(self, actor, words):
        dice, others = self.dice, [it for it in self.idle() if it.number != actor.number]
        pid = actor.proc.pid
        if dice.random() < 0.1:
            return dice.choice(["", f"{actor.number} look", f"rendez {dice.randrange(self.lab.kernel.rendez)}", f"{actor.number} notes"])
        if dice.random() < 0.35 and actor.number < 1024:
            return f"0 note {pid} {self.kinds()}"
        if actor.proc.timer and dice.random() < 0.4:
            return f"0 tick {self.now + dice.choice([0, 49, 50, 51])}"
        same = [it for it in others if it.thing is actor.thing and it.thing is not None]
        other = dice.choice(same if same and dice.random() < 0.8 else others)
        if other in same and dice.random() < 0.5:
            return self.line(other, self.answering(other, words))
        verb = self.verb(other)
        apart = ["&"] * (verb in WAITING and other.number < STRANGERS and dice.random() < 0.6)
        return " ".join([self.line(other, [verb, *self.operands(other, verb)]), *apart])

    # ---- operands

    def kinds(self):
        dice = self.dice
        return dice.choice(["-", "expired", "closed", "interrupt,alarm", "hangup", "alarm,closed", *KINDS[:3] * 3,
                            ",".join(dice.sample(KINDS, dice.randint(1, 5)))])

    def level(self):
        return self.dice.choice([0, 0, 0, 1, 1, 2, 3, 7, TOP_LEVEL - 1, TOP_LEVEL])

    def place(self, actor):
        rendez = actor.proc.kernel.rendez
        return self.dice.choice([rendez - 1] * 6 + [self.dice.randrange(rendez)] * 3 + [rendez])

    def data(self):
        dice = self.dice
        return dice.choice(["-", "a", "bc", "def", "-", "ghijk", "".join(dice.choices("lmnopq", k=dice.randint(1, 9))), "33*x", "40*y",
                            "65537*w", dice.choice(["65536*z", "2*v", "100*"])])

    def value(self):
        """A value that no send before had, mostly."""
        self.sent += 1
        return str(self.dice.choice([self.sent] * 9 + [0, 2**64 - 1]))

    def moment(self):
        dice = self.dice
        self.now += dice.choice([0, 0, 1, 10])
        late = [(2**64 - 16, 4294967295)] if dice.random() < 0.22 else []
        return map(str, dice.choice(late or [(self.now, dice.choice([0, 5, 50, 50]))]))

    def operands(self, actor, verb):
        dice = self.dice
        tagged = [str(dice.choice([7, 7, 7, 8])), str(dice.choice([0, 1, 5, 9, 2**64 - 1]))]
        count = [str(dice.choice([0, 1, 1, 2, 3, 4, 8, 8, 8, 99, 65536]))]
        makes = {
            "sleep": lambda: [str(self.place(actor)), str(self.level())],
            "sleep_within": lambda: [*self.moment(), str(self.place(actor)), str(self.level())],
            "wakeup": lambda: [str(self.place(actor)), str(self.level())],
            "tick": lambda: [str(self.now + dice.choice([0, 0, 5, 49, 50, 51, 2**63]))],
            "note": lambda: [str(dice.randrange(actor.proc.kernel.procs + 1)), self.kinds()],
            "put_back": lambda: [self.kinds()],
            "notepg": lambda: [str(dice.randrange(self.lab.kernel.procs + 1)), self.kinds()],
            "read_within": lambda: [*self.moment(), *count],
            "write": lambda: [self.data()],
            "write_within": lambda: [*self.moment(), self.data()],
            "write_long": lambda: [dice.choice([self.data(), "65537*x", "131072*x", "140000*x"])],
            "acquire_within": lambda: [*self.moment()],
            "release": lambda: [str(dice.choice([0, 1, 1, 1, 2, 3, 2147483647]))],
            "rendezvous": lambda: tagged,
            "rendezvous_word": lambda: tagged,
            "rendezvous_within": lambda: [*self.moment(), *tagged],
            "rfork": lambda: [dice.choice(["-", "proc", "proc", "noteg", "proc,noteg", "rend", "proc,rend", "proc,rend,noteg", "8"])],
            "send": lambda: [self.value()],
            "try_send": lambda: [self.value()],
            "send_within": lambda: [*self.moment(), self.value()],
            "receive_within": lambda: [*self.moment()],
            "row": lambda: [str(dice.choice([0, 1, 2, 9]))],
        }
        if verb in ("read", "try_read", "next_piece", "read_exact"):
            return count
        return makes[verb]() if verb in makes else []
