"""Who goes first where several processes may go on: by chance, one of them always, or as a search leads.

An order says which of them makes the next step. Between two lines it may also say that nobody does.
"""
import random
import types

from modelled.lab import MOST_STEPS, Lab, NoAnswer

MOST_TRIES = 8000
# The lines that see how far others are as they are played.
SEEING = {"waits", "look", "rendez", "acted", "at", "left"}
# What a play has that decides nothing that follows.
PASSED_OVER = {"order", "raced", "steps", "moves"}


class Order:
    """Who goes first, by chance: each process has a rank, and the ranks are drawn anew as often as this order does so. So one may be
    ahead of another for a whole call, as threads are."""

    def __init__(self, seed):
        self.dice, self.ranks = random.Random(seed), {}
        self.change = self.dice.choice([0, 0.02, 0.1, 0.3, 1])

    def first(self, ready, *_):
        if self.dice.random() < self.change:
            self.ranks.clear()
        return max(ready, key=lambda it: self.ranks.setdefault(it.number, self.dice.random()))

    def steps(self, _):
        """How many steps are made before a line."""
        return self.dice.choice([0, 0, 1, 2, 3, 5, 8, 40])


class Extreme:
    """The first process goes first, or the last, or whoever a line is of; and between two lines all go on as far as they can, or
    nobody does."""

    def __init__(self, sign, count, is_prompt=False):
        self.sign, self.count, self.is_prompt = sign, count, is_prompt

    def first(self, ready, lab, _):
        return self.is_prompt and lab.whose(ready) or max(ready, key=lambda it: self.sign * it.number)

    def steps(self, _):
        return self.count


EXTREMES = [Extreme(sign, count) for sign in (1, -1) for count in (MOST_STEPS, 0)] + [Extreme(sign, 0, True) for sign in (1, -1)]


# ---- a search of all orders


class Met(NoAnswer):
    """What follows was tried."""


class Led:
    """An order that makes these choices, and then takes the first of each further one. It keeps what else it might have taken."""

    def __init__(self, choices, seen):
        self.choices, self.made, self.seen, self.others = choices, 0, seen, []

    def first(self, ready, lab, is_between):
        whose = lab.whose(ready)
        options = [None] * is_between + sorted(ready, key=lambda it: it is not whose)
        options = next(([it] for it in ready if not it.run.acts), options)
        if len(options) == 1:
            return options[0]
        if self.made == len(self.choices):
            self.meet(lab, len(options))
        self.made += 1
        return options[self.choices[self.made - 1]]

    def meet(self, lab, count):
        state = shape_of(lab, {})
        if state in self.seen:
            raise Met()
        self.seen.add(state)
        self.others += [[*self.choices, other] for other in range(1, count)]
        self.choices.append(0)

    def steps(self, words):
        """Steps between two lines matter where the second one sees them; else they may as well be made in it."""
        return MOST_STEPS if SEEING & set(words[:2]) else 0

    def agrees(self, lines, wanted):
        """Whether the lines are answered so."""
        lab = Lab(self, True)
        try:
            return all(lab.play(line) == answer for line, answer in zip(lines, wanted))
        except NoAnswer:
            return False


def is_answer(lines, wanted):
    """Whether the lines are answered so in any order of steps; none if so many tries don't tell. Mostly the last choice is changed
    first; now and then any other, since a wrong one may be long before it shows."""
    seen, left, dice = set(), [[]], random.Random(1)
    for _ in range(MOST_TRIES):
        if not left:
            return False
        led = Led(left.pop(dice.choice([-1, -1, dice.randrange(len(left))])), seen)
        if led.agrees(lines, wanted):
            return True
        left += led.others
    return None


def shape_of(it, known):
    """All that is in it as one value, which is equal where what follows is. What is met again is told by its number."""
    if it is None or isinstance(it, (int, str, bytes)):
        return it
    if isinstance(it, (set, frozenset)):
        return "set", *sorted(it)
    if isinstance(it, types.GeneratorType):
        frame = it.gi_frame
        return frame and (it.gi_code.co_name, frame.f_lasti, shape_of(frame.f_locals, known), shape_of(it.gi_yieldfrom, known))
    if isinstance(it, tuple):
        return tuple(shape_of(part, known) for part in it)
    if id(it) in known:
        return "again", known[id(it)][0]
    known[id(it)] = len(known), it
    if isinstance(it, list):
        return tuple(shape_of(part, known) for part in it)
    if isinstance(it, dict):
        return tuple((key, shape_of(part, known)) for key, part in it.items())
    if hasattr(it, "__dict__") and not callable(it):
        return type(it).__name__, *(shape_of(part, known) for name, part in vars(it).items() if name not in PASSED_OVER)
    return "a step"
