#!/usr/bin/env python3
"""Writes a program of the core, read as p9explore reads it, as a Promela model for SPIN.

usage: model.py <SCRIPT >MODEL

Each event of docs/CORE.md is one step of the model, and each process a proctype: where it stands tells what it does next. A process that
is parked is one that can't be executed, so a program that can get stuck is one with an invalid end state.

The model is written to win. A variable has no more bits than its numbers need, and what the rest of a state tells has none:
- the level of a Rendez is kept as the place of its wakeup among those of this Rendez, and where nobody sleeps there and no call
  is passed over, it is told by where the processes stand,
- where a process is posted is one number, `posted1`, if nobody else sleeps in any of its Rendez; else a Rendez has a number of
  who is posted, `sleeper_rendez0`.

Of another script it says what it does not take, and the status is 2."""
import sys
from typing import NamedTuple

from script import Script, refuse

# The most bits of a variable.
MOST_BITS = 31


class Place(NamedTuple):
    """A Rendez: who may sleep there, and to how many levels it may be raised."""
    name: str
    sleepers: list
    levels: int


class Model:
    """What the processes share: the variables, each with the greatest number in it and the first, and the Rendez."""

    def __init__(self, script):
        self.script, self.variables, self.own = script, {}, {}

    def variable(self, name, most, first=0):
        """A variable that has numbers up to this one: its name, or 0 if it has no other."""
        if most.bit_length() > MOST_BITS:
            refuse(f"{name} has more than {MOST_BITS} bits")
        if most:
            self.variables[name] = max(most, *self.variables.get(name, (0,))[:1]), first
        return name if most else "0"

    def levels(self, number):
        """To what the wakeups of a Rendez raise it."""
        return sorted({call[2] for _, call in self.script.made("wakeup", number)} - {0})

    def rendez(self, number):
        return Place(f"rendez{number}", self.script.users("sleep", number), len(self.levels(number)))

    def level(self, place):
        """The variable of a level; or None if there is none, or what the others do tells it."""
        if place.levels and (place.sleepers or self.script.branches):
            return self.variable(f"level_{place.name}", place.levels)
        return None

    def posted(self, place, pid):
        """The variable that tells whether a process is posted in a Rendez, and the number that it then has."""
        if len(place.sleepers) > 1:
            return self.variable(f"sleeper_{place.name}", len(place.sleepers)), place.sleepers.index(pid) + 1
        own = self.own.setdefault(pid, [])
        if place.name not in own:
            own.append(place.name)
        return self.variable(f"posted{pid}", len(own)), own.index(place.name) + 1

    def has_mark(self, pid):
        return any(call[0] == "sleep" for call in self.script.calls[pid])

    def bit(self, pid, kind):
        """The bit of a note in the flags of a process. That of the mark is 1."""
        return 1 << self.has_mark(pid) + self.script.kinds(pid).index(kind)

    def flags(self, pid):
        return self.variable(f"flags{pid}", (1 << self.has_mark(pid) + len(self.script.kinds(pid))) - 1)

    def text(self):
        walks = [[*Walk(self, pid).text()] for pid in range(len(self.script.calls))]
        its = sorted(self.variables.items(), key=lambda it: -it[1][0].bit_length())
        yield from (f"unsigned {name} : {most.bit_length()} = {first};" for name, (most, first) in its)
        for walk in walks:
            yield ""
            yield from walk


def choice(when, does, to):
    """What is done in one step, and where it goes on."""
    if not does:
        return f"{when} -> goto {to}"
    return f"atomic {{ {when} -> {'; '.join(does)} }}; goto {to}" if len(does) > 1 or when != "true" else f"{does[0]}; goto {to}"


class Walk:
    """The steps of a process. Each is a label and its choices: when, what it does, and the label of the next step."""

    def __init__(self, model, pid):
        self.model, self.script, self.pid, self.flags = model, model.script, pid, model.flags(pid)
        self.kinds, self.has_mark = model.script.kinds(pid), model.has_mark(pid)
        self.lines = []

    def text(self):
        calls = self.script.calls[self.pid]
        makes = {"sleep": self.sleep, "wakeup": self.wakeup, "note": self.note, "drain": self.drain}
        for self.at, (verb, *words) in enumerate(calls):
            if verb not in makes:
                refuse(f"a `{verb}` is no call that it takes")
            makes[verb](*words)
        yield f"active proctype process{self.pid}() {{"
        yield from self.lines
        yield f"call{len(calls)}:\nend:\n    false\n}}"

    def over(self, answer=None):
        """Where the process goes on after its call, with this answer."""
        return f"call{self.script.branches.get((self.pid, self.at, answer), self.at + 1)}"

    def here(self, name):
        """The label of a step of this call."""
        return f"{name}{self.at}"

    def step(self, label, *choices):
        """A step. What never happens is no choice of it."""
        self.lines += [f"{label}:", "    if", *(f"    :: {choice(*it)}" for it in choices if it[0] != "false"), "    fi;"]

    # -- the core

    def sleep(self, number, threshold):
        """A sleep in a Rendez, of which it is asked whether its level is above the threshold."""
        place, levels = self.model.rendez(number), self.model.levels(number)
        least = sum(level <= threshold for level in levels)
        above = f"{self.model.level(place)} > {least}" if least < len(levels) else "false"
        posted, number = self.model.posted(place, self.pid)
        test, look, leaving, awaiting, clear = map(self.here, ("test", "look", "leaving", "awaiting", "clear"))
        marked, noticed, empty = f"({self.flags} & 1) != 0", f"{self.flags} > 1", [f"{self.flags} = 0"]
        is_free = f"{posted} == 0" if len(place.sleepers) > 1 else "true"
        self.step(self.here("call"), (is_free, [f"{posted} = {number}"], test), (negation(is_free), (), self.over()))
        self.step(test, (above, (), leaving), (negation(above), (), look))
        notes = f"{negation(marked)} && {noticed}" if self.kinds else "false"
        self.step(look, (marked, (), clear), (notes, (), leaving))
        self.step(leaving, (f"{posted} == {number}", [f"{posted} = 0"], clear), (f"{posted} != {number}", (), awaiting))
        self.step(awaiting, (marked, (), clear))
        if self.kinds:
            self.step(clear, (noticed, empty, self.over("interrupted")), (negation(noticed), empty, self.over()))
        else:
            self.step(clear, ("true", empty, self.over()))

    def wakeup(self, number, level):
        """A wakeup to the place of this level among those of its Rendez."""
        to, place = sum(other <= level for other in self.model.levels(number)), self.model.rendez(number)
        level, take = self.model.level(place), self.here("take")
        greater = to if to == place.levels else f"({level} < {to} -> {to} : {level})"
        self.step(self.here("call"), ("true", [f"{level} = {greater}"] if level and to else (), take))
        others = [pid for pid in place.sleepers if pid != self.pid]
        posted = [self.model.posted(place, pid) for pid in others]
        nobody = " && ".join(f"{name} != {number}" for name, number in posted) or "true"
        marks = [f"mark_{pid}_{self.at}" for pid in others]
        taken = [(f"{name} == {number}", [f"{name} = 0"], mark) for (name, number), mark in zip(posted, marks)]
        self.step(take, *taken, (nobody, (), self.over()))
        for pid, mark in zip(others, marks):
            flags = self.model.flags(pid)
            self.step(mark, ("true", [f"{flags} = {flags} | 1"], self.over()))

    def note(self, pid, kinds):
        """It posts notes to a process."""
        flags, bits = self.model.flags(pid), sum(self.model.bit(pid, kind) for kind in kinds)
        self.step(self.here("call"), ("true", [f"{flags} = {flags} | {bits}"] if bits else [], self.over()))

    def drain(self):
        self.step(self.here("call"), ("true", [f"{self.flags} = 0"] if self.flags != "0" else [], self.over()))


def negation(when):
    return {"true": "false", "false": "true"}.get(when, f"!({when})")


def main():
    print("\n".join(Model(Script(sys.stdin.read().splitlines())).text()))


if __name__ == "__main__":
    main()
