"""Queues of values in the model, by man/queue.2, docs/SCENES.md and, for levels, docs/USING.md.

What the lock of a queue guards is one step.
"""
from modelled.devices import HUNGUP, Watch, wait_at
from modelled.layer import STEP, Ended, wakeup

MOST_VALUES, MOST_HANDLES = 2**20, 2**10


class Side:
    """The senders or the receivers of a queue: who stands in line, and who was granted what it waits for and has yet to use it."""

    def __init__(self):
        self.line, self.granted = [], set()

    def join(self, seat):
        if seat not in self.line:
            self.line.append(seat)

    def leave(self, seat):
        """The seat waits no more. Whether it was granted what it waited for."""
        is_granted = seat in self.granted
        self.granted.discard(seat)
        if seat in self.line:
            self.line.remove(seat)
        return is_granted


class Queue:
    """A bounded queue. Its first two handles are a sender and a receiver. Its grants are counted together."""

    def __init__(self, capacity, seats, first):
        self.capacity, self.seats, self.first = capacity, seats, first
        self.had, self.given = set(), 2  # which of the first two handles were given, and how many handles are spoken for
        self.values, self.hung, self.grants = [], False, 0
        self.senders, self.receivers = Side(), Side()

    def has_room(self, seat):
        return seat in self.senders.granted or len(self.values) + len(self.senders.granted) < self.capacity

    def has_value(self, seat):
        return seat in self.receivers.granted or len(self.values) > len(self.receivers.granted)

    def put(self, seat, value):
        """Accepts a value: who is to be woken for it, and the number."""
        self.senders.leave(seat)
        self.values.append(value)
        return self.serve(self.receivers)

    def take(self, seat):
        """The oldest value; and who is to be woken for its room, and the number."""
        self.receivers.leave(seat)
        return self.values.pop(0), self.serve(self.senders)

    def serve(self, side):
        """Grants what there is to the first in line, if somebody is."""
        if not side.line:
            return None
        seat = side.line.pop(0)
        side.granted.add(seat)
        self.grants += 1
        return seat, self.grants


def wake_next(proc, queue, served):
    if served:
        yield STEP
        yield from wakeup(proc, queue.first + served[0], served[1])


def ended_well(proc, answer, notes, watch):
    """A call that did what it was for. Notes that came meanwhile are pending again."""
    if not watch:
        proc.put_back(notes)
    return Ended(answer, notes)


def send_once(proc, queue, seat, value, waits=True, watch=None):
    while True:
        yield STEP
        if queue.hung:
            queue.senders.leave(seat)
            return Ended(HUNGUP)
        if queue.has_room(seat):
            yield from wake_next(proc, queue, queue.put(seat, value))
            return Ended("sent")
        if not waits:
            return Ended("not now")
        queue.senders.join(seat)
        slept = yield from wait_at(proc, queue.first + seat, queue.grants, watch)
        if slept.answer != "woken" or slept.is_note:
            yield STEP
            if not queue.senders.leave(seat) or queue.hung:
                return slept
            yield from wake_next(proc, queue, queue.put(seat, value))
            return ended_well(proc, "sent", slept.notes, watch)


def receive_once(proc, queue, seat, waits=True, watch=None):
    while True:
        yield STEP
        if queue.has_value(seat):
            value, served = queue.take(seat)
            yield from wake_next(proc, queue, served)
            return Ended(f"got {value}")
        if queue.hung:
            queue.receivers.leave(seat)
            return Ended("end")
        if not waits:
            return Ended("not now")
        queue.receivers.join(seat)
        slept = yield from wait_at(proc, queue.first + seat, queue.grants, watch)
        if slept.answer != "woken" or slept.is_note:
            yield STEP
            if not queue.receivers.leave(seat):
                return slept
            value, served = queue.take(seat)
            yield from wake_next(proc, queue, served)
            return ended_well(proc, f"got {value}", slept.notes, watch)


def with_value(ended, value):
    """What a send is answered: a value that was not sent came back."""
    return ended.answer if ended.answer == "sent" else f"{ended.text()} {value}"


def send(proc, queue, seat, value, waits=True):
    return with_value((yield from send_once(proc, queue, seat, value, waits)), value)


def send_within(proc, queue, seat, now, ms, value):
    watch = Watch(proc, now, ms)
    ended = yield from send_once(proc, queue, seat, value, True, watch)
    return with_value((yield from watch.settle(ended)), value)


def receive(proc, queue, seat, waits=True):
    return (yield from receive_once(proc, queue, seat, waits)).text()


def receive_within(proc, queue, seat, now, ms):
    watch = Watch(proc, now, ms)
    ended = yield from receive_once(proc, queue, seat, True, watch)
    return (yield from watch.settle(ended)).text()


def hang_up(proc, queue):
    if queue.hung:
        return "ok"
    queue.hung = True
    number = queue.grants + 1
    for seat in range(queue.seats):
        yield STEP
        yield from wakeup(proc, queue.first + seat, number)
    return "ok"
