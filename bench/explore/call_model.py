#!/usr/bin/env python3
"""Writes a program of calls at semaphores and pipes as a Promela model for SPIN, as p9explore plays it.

usage: call_model.py <SCRIPT >MODEL

Each process is one loop in one place, and `pcN` tells where it is in its calls: before a call, waiting in it, or at a later step of it.
A call at a device is one step. Whoever waits for a unit stands in a line, and is moved on by the release that serves it. A note that is
pending ends such a wait in one step. A write is accepted in one step and stands in the next; a read or a
write that waits is made as soon as it would be answered. Where nobody can make a step, all calls have to be over: `timeout` says so in no
step more. So a model has the states that p9explore has, but for schedules that end by a step where a loop could begin a round.

It takes scripts with semaphores, notes of one kind, and pipes in message mode whose reads take whole writes. Of another one it says what it
does not take, and the status is 2."""
import sys
from typing import NamedTuple

from script import Script, refuse


class Digits(NamedTuple):
    """A list of numbers from 1 to `base`, kept as the digits of a variable."""
    name: str
    base: int
    most: int

    @property
    def width(self):
        return self.base.bit_length()

    @property
    def first(self):
        return self.name if self.most < 2 else f"({self.name} & {(1 << self.width) - 1})"

    def without_first(self):
        return f"{self.name} = " + ("0" if self.most < 2 else f"{self.name} >> {self.width}")

    def has(self, number):
        """Whether the number is among them; or "false"."""
        mask = (1 << self.width) - 1
        digits = [self.first, *(f"({self.name} >> {at * self.width} & {mask})" for at in range(1, self.most))][:self.most]
        return " || ".join(f"{digit} == {number}" for digit in digits) or "false"

    def with_last(self, number):
        """With the number after the others."""
        if self.most < 2:
            return f"{self.name} = {number}"
        text = f"{self.name} | {number << (self.most - 1) * self.width}"
        for at in reversed(range(self.most - 1)):
            text = f"({self.name} < {1 << at * self.width} -> {self.name} | {number << at * self.width} : {text})"
        return f"{self.name} = {text}"

    def with_new(self, number):
        """The same, if it is not among them."""
        name, _, text = self.with_last(number).partition(" = ")
        return f"{name} = ({self.has(number)} -> {name} : {text})"

    def without(self, number):
        """With the number left out, if it is among them."""
        text, mask = self.name, (1 << self.width) - 1
        for at in reversed(range(self.most)):
            low, high = (1 << at * self.width) - 1, (at + 1) * self.width
            text = (f"(({self.name} >> {at * self.width} & {mask}) == {number} -> "
                    f"{self.name} & {low} | {self.name} >> {high} << {at * self.width} : {text})")
        return f"{self.name} = {text}"


class CallModel:
    """The variables, each with the most that it may be and its first value; and the choices of each process."""

    def __init__(self, script):
        self.script, self.variables = script, {}
        self.counts = [len(calls) for calls in script.calls]
        self.has_note = [any(call[0] == "note" and call[1] == pid for calls in script.calls for call in calls)
                         for pid in range(len(self.counts))]

    def variable(self, name, most, first=0):
        self.variables[name] = most, first
        return name

    def pc(self, pid):
        """Where a process is: before each call, after all, waiting in a call, or after the first step of a write."""
        return self.variable(f"pc{pid}", 3 * self.counts[pid] + 2)

    def at(self, pid, call, step=0):
        return call if not step else step * (self.counts[pid] + 1) + call

    def note(self, pid):
        return self.variable(f"note{pid}", 1) if self.has_note[pid] else None

    def value(self, sema):
        return self.variable(f"value{sema}", max(1, self.script.most_units(sema)), self.script.semas[sema])

    def line(self, sema):
        """Who waits for a unit, as numbers from 1."""
        users = self.script.users("acquire", sema)
        it = Digits(f"line{sema}", len(users), len(users))
        if users:
            self.variable(it.name, (1 << it.width * it.most) - 1 if it.most > 1 else 1)
        return users, it

    def queue(self, pipe):
        """The writes that no read has taken, as digits: 1 for one that stands, else a number of who makes it; and hung."""
        users, limit = self.script.users("write", pipe), self.script.pipes[pipe]
        it = Digits(f"queue{pipe}", len(users) + 1, limit)
        self.variable(it.name, (1 << it.width * limit) - 1)
        return users, it, self.variable(f"hung{pipe}", 1)

    def to(self, pid, call, answer=None):
        return self.script.branches.get((pid, call, answer), call + 1)

    def choices(self, pid):
        makes = {"acquire": self.acquire, "try": self.try_it, "release": self.release, "note": self.post, "write": self.write,
                 "read": self.read, "hangup": self.hangup}
        for call, (verb, *words) in enumerate(self.script.calls[pid]):
            if verb not in makes:
                refuse(f"a `{verb}` is no call that it takes")
            yield from makes[verb](pid, call, *words)

    def step(self, pid, here, when, does, to):
        """A choice: at this place, if this holds, it does this and goes on there."""
        does = "; ".join([*does, f"pc{pid} = {to}"])
        return f"d_step {{ pc{pid} == {here}{' && ' + when if when else ''} -> {does} }}"

    def acquire(self, pid, call, sema):
        users, line = self.line(sema)
        value, number, note = self.value(sema), users.index(pid) + 1, self.note(pid)
        waits = self.at(pid, call, 1)
        yield self.step(pid, call, f"{value} > 0", [f"{value} = {value} - 1"], self.to(pid, call))
        yield self.step(pid, call, f"{value} == 0", [line.with_last(number)], waits)
        if note:
            yield self.step(pid, waits, f"{note} == 1", [f"{note} = 0", line.without(number)], self.to(pid, call, "interrupted"))

    def try_it(self, pid, call, sema):
        value = self.value(sema)
        yield self.step(pid, call, f"{value} > 0", [f"{value} = {value} - 1"], self.to(pid, call))
        yield self.step(pid, call, f"{value} == 0", [], self.to(pid, call, "not_now"))

    def serves(self, sema, users, line):
        """Whoever is first in the line goes on."""
        for number, other in enumerate(users, 1):
            for call, words in enumerate(self.script.calls[other]):
                if words[:2] == ("acquire", sema):
                    waits = f"{line.first} == {number} && pc{other} == {self.at(other, call, 1)}"
                    yield f":: {waits} -> {line.without_first()}; pc{other} = {self.to(other, call)}"

    def release(self, pid, call, sema, units):
        users, line = self.line(sema)
        value = self.value(sema)
        more = f"{value} = {value} + 1"
        one = f"if {' '.join(self.serves(sema, users, line))} :: {line.name} == 0 -> {more} fi" if users else more
        yield self.step(pid, call, "", units * [one], self.to(pid, call))

    def post(self, pid, call, other, kinds):
        if len(kinds) != 1:
            refuse("a note of several kinds is none that it takes")
        yield self.step(pid, call, "", [f"{self.note(other)} = 1"], self.to(pid, call))

    def write(self, pid, call, pipe, size):
        if self.has_note[pid]:
            refuse("a write of a process that gets notes is none that it takes")
        users, queue, hung = self.queue(pipe)
        number, waits, stands = users.index(pid) + 2, self.at(pid, call, 1), self.at(pid, call, 2)
        mask, last = (1 << queue.width) - 1, f"({queue.name} >> {(queue.most - 1) * queue.width} & {(1 << queue.width) - 1})"
        has_room = f"{last} == 0"
        for here in call, waits:
            yield self.step(pid, here, f"{hung} == 0 && {has_room}", [queue.with_last(number)], stands)
        yield self.step(pid, call, f"{hung} == 0 && !({has_room})", [], waits)
        marks = queue.name
        for at in range(queue.most):
            digit = f"({queue.name} >> {at * queue.width} & {mask})"
            marks = f"({digit} == {number} -> {queue.name} ^ {(number ^ 1) << at * queue.width} : {marks})"
        yield self.step(pid, stands, "", [f"{queue.name} = {marks}"], self.to(pid, call))

    def read(self, pid, call, pipe, room):
        if self.has_note[pid]:
            refuse("a read of a process that gets notes is none that it takes")
        if any(words[2] > room or not words[2] for _, words in self.script.made("write", pipe)):
            refuse("a read of a part of a write is none that it takes")
        _, queue, hung = self.queue(pipe)
        waits = self.at(pid, call, 1)
        stands, ended = f"{queue.first} == 1", f"{queue.name} == 0 && {hung} == 1"
        for here in call, waits:
            yield self.step(pid, here, stands, [queue.without_first()], self.to(pid, call))
            yield self.step(pid, here, ended, [], self.to(pid, call, "end"))
        yield self.step(pid, call, f"!({stands}) && !({ended})", [], waits)

    def hangup(self, pid, call, pipe):
        *_, hung = self.queue(pipe)
        yield self.step(pid, call, "", [f"{hung} = 1"], self.to(pid, call))

    def text(self):
        rows = [[*self.choices(pid)] for pid in range(len(self.counts))]
        over = " && ".join(f"{self.pc(pid)} == {count}" for pid, count in enumerate(self.counts))
        for name, (most, first) in sorted(self.variables.items(), key=lambda it: -it[1][0].bit_length()):
            yield f"unsigned {name} : {most.bit_length()} = {first};"
        for pid, row in enumerate(rows):
            last = [f"timeout -> assert({over})"] if pid == len(rows) - 1 else []
            yield from ["", f"active proctype process{pid}() {{", "end:", "    do", *(f"    :: {it}" for it in [*row, *last]), "    od", "}"]


if __name__ == "__main__":
    print("\n".join(CallModel(Script(sys.stdin.read().splitlines())).text()))
