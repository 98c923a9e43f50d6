"""The upper half of the model: pipes, semaphores, timers and tag spaces, by docs/BEHAVIOUR.md and man/.

Each call is a generator, as `layer` says. What a lock guards is one step.
"""
from modelled.layer import CLOSED, EXPIRED, NO_RENDEZ, STEP, TOP_LEVEL, Ended, sleep, unprobed, wakeup

ATOMIC_SIZE, MOST_UNITS, LAST_NUMBER, LAST_WORD = 65536, 2**31 - 1, 2**62 - 1, 2**64 - 1
TOO_BIG, HUNGUP, WORN, BAD_COUNT = "write too big", "i/o on hungup channel", "number worn out", "bad count"
BAD_ARG, TIMED_OUT = "bad argument", "timed out"


def bytes_word(data):
    """Bytes as an answer shows them: none, a long run of one byte by its length, or themselves."""
    if not data:
        return "-"
    if len(data) >= 33 and data == data[:1] * len(data):
        return f"{len(data)}*{data[:1].decode()}"
    return data.decode()


# ---- timers


class Timers:
    def __init__(self, seats):
        self.seats, self.given, self.deadlines = seats, 1, {}


class TimerSeat:
    """A seat of timers, and the call until a moment that uses it."""

    def __init__(self, timers, number):
        self.timers, self.number = timers, number


def tick(proc, timers, now):
    """Expires each timer whose deadline has come, one after another: the least deadline first and then the least seat."""
    for count in range(timers.seats):
        yield STEP
        due = sorted((deadline, number) for number, (deadline, _) in timers.deadlines.items() if deadline <= now)
        if not due:
            return f"expired {count}"
        _, pid = timers.deadlines.pop(due[0][1])
        yield STEP
        if pid < proc.kernel.procs:
            proc.kernel.post_notes(pid, EXPIRED)
    return f"expired {timers.seats}"


class Watch:
    """What a call until a moment does beside the call itself: its timer is set at its first sleep."""

    def __init__(self, proc, now, ms):
        self.proc, self.deadline, self.is_set = proc, min(now + ms, LAST_WORD), False

    def set(self):
        if not self.is_set:
            self.proc.timer.timers.deadlines[self.proc.timer.number] = self.deadline, self.proc.pid
        self.is_set = True

    def settle(self, ended):
        """Cancels the timer, or awaits the note of the tick that has taken it. How the call ends then."""
        if not self.is_set:
            return ended
        taken = self.proc.timer.timers.deadlines.pop(self.proc.timer.number, None) is None
        notes = ended.notes
        while taken and not notes & EXPIRED:
            if not self.proc.kernel.notes[self.proc.pid]:
                yield lambda: self.proc.kernel.notes[self.proc.pid]
            notes |= self.proc.take_notes()
        if not ended.is_note:
            self.proc.put_back(notes - EXPIRED)
            return Ended(ended.answer)
        if taken and not notes - EXPIRED:
            return Ended(TIMED_OUT)
        return Ended("", notes - EXPIRED, True)


# ---- pipes


class Direction:
    """One direction of a pipe. Its Rendez are that of the reader, and then one for each writer."""

    def __init__(self, limit, writers, stream, first):
        self.limit, self.writers, self.stream, self.first = limit, writers, stream, first
        self.blocks, self.rest, self.hung = [], b"", False
        self.last, self.taken = 0, 0
        self.is_read, self.written = False, 0  # which of its ends were given

    def is_of(self, proc):
        return proc.kernel.rendez >= self.first + 1 + self.writers


def wake_writers(proc, pipe, number):
    for writer in range(pipe.writers):
        yield from wakeup(proc, pipe.first + 1 + writer, number)


def hangup(proc, pipe):
    pipe.hung = True
    yield STEP
    if pipe.is_of(proc):
        yield from wakeup(proc, pipe.first, TOP_LEVEL)
        yield from wake_writers(proc, pipe, TOP_LEVEL)
    return "ok"


def wait_at(proc, rendez, number, watch):
    if watch:
        watch.set()
    return (yield from unprobed(sleep(proc, rendez, number)))


def write_once(proc, pipe, writer, data, watch=None):
    """One write: its number as the answer, or why it was refused."""
    if len(data) > ATOMIC_SIZE:
        return Ended(TOO_BIG)
    if not pipe.is_of(proc):
        return Ended(NO_RENDEZ)
    while True:
        yield STEP
        if pipe.hung:
            proc.put_back(CLOSED)
            return Ended(HUNGUP)
        if pipe.last == LAST_NUMBER:
            return Ended(WORN)
        if len(pipe.blocks) < pipe.limit:
            break
        slept = yield from wait_at(proc, pipe.first + 1 + writer, pipe.taken, watch)
        if slept.answer != "woken" or slept.is_note:
            return slept
    pipe.last += 1
    number, block = pipe.last, [pipe.last, None]
    pipe.blocks.append(block)
    yield STEP
    block[1] = data
    yield STEP
    yield from wakeup(proc, pipe.first, number)
    return Ended(f"taken {number}")


def write(proc, pipe, writer, data):
    return (yield from write_once(proc, pipe, writer, data)).text()


def write_within(proc, pipe, writer, now, ms, data):
    watch = Watch(proc, now, ms)
    ended = yield from write_once(proc, pipe, writer, data, watch)
    return (yield from watch.settle(ended)).text()


def write_long(proc, pipe, writer, data):
    taken = 0
    while True:
        part = data[taken:taken + ATOMIC_SIZE]
        ended = yield from write_once(proc, pipe, writer, part)
        if not ended.answer.startswith("taken "):
            return f"{ended.text()} {taken}"
        taken += len(part)
        if taken == len(data):
            return f"taken {taken}"


class Reading:
    """One read of a direction: what it got so far, and the last number that it took out and has not told the writers."""

    def __init__(self, pipe, count):
        self.pipe, self.count, self.out, self.took = pipe, count, None, None

    def take(self):
        """Takes what is there for it, up to its count. A block has no count."""
        pipe = self.pipe
        while self.out is None or pipe.stream and self.count is not None and len(self.out) < self.count:
            if pipe.rest:
                data, pipe.rest = pipe.rest, b""
            elif pipe.blocks and pipe.blocks[0][1] is not None:
                self.took, data = pipe.blocks.pop(0)
                pipe.taken = self.took
            else:
                break
            room = len(data) if self.count is None else self.count - len(self.out or b"")
            self.out, pipe.rest = (self.out or b"") + data[:room], data[room:]
        if pipe.stream and self.count is not None and not self.out:
            self.out = None


def read_once(proc, pipe, count, watch=None, waits=True):
    """One read. Its answer is the bytes, `end`, `not yet` or why it was refused."""
    if count == 0:
        return Ended(BAD_COUNT)
    if not pipe.is_of(proc):
        return Ended(NO_RENDEZ)
    reading = Reading(pipe, count)
    while True:
        yield STEP
        is_hung = pipe.hung
        reading.take()
        yield STEP
        if reading.took is not None:
            yield from wake_writers(proc, pipe, reading.took)
            reading.took = None
        if reading.out is not None:
            return Ended(reading.out)
        if is_hung and not pipe.blocks:
            return Ended("end")
        if not waits:
            return Ended("not yet")
        slept = yield from wait_at(proc, pipe.first, pipe.taken, watch)
        if slept.answer != "woken" or slept.is_note:
            return slept


def read_text(ended):
    return f"got {bytes_word(ended.answer)}" if isinstance(ended.answer, bytes) else ended.text()


def read(proc, pipe, count, waits=True):
    return read_text((yield from read_once(proc, pipe, count, None, waits)))


def read_within(proc, pipe, now, ms, count):
    watch = Watch(proc, now, ms)
    ended = yield from read_once(proc, pipe, count, watch)
    return read_text((yield from watch.settle(ended)))


def read_exact(proc, pipe, count):
    got = b""
    while len(got) < count:
        ended = yield from read_once(proc, pipe, count - len(got))
        if ended.answer == "end":
            return f"short {bytes_word(got)}"
        if not isinstance(ended.answer, bytes):
            return f"{ended.text()} {len(got)}"
        got += ended.answer
    return f"got {bytes_word(got)}"


# ---- turns at a shared read end


class Turns:
    """So many turns at a read end. Who waits for its turn sleeps in a Rendez of its own."""

    def __init__(self, pipe, seats, first):
        self.pipe, self.line = pipe, Sema(1, seats, first)


def read_in_turn(proc, turns, seat, count):
    ended = yield from acquire_once(proc, turns.line, seat)
    if ended.answer != "acquired":
        return ended.text()
    answer = yield from read(proc, turns.pipe, count)
    yield from release(proc, turns.line, 1)
    return answer


# ---- semaphores


class Sema:
    """A semaphore: its value, who stands in line, who was granted a unit that it has not fetched, and how many units each seat
    was granted."""

    def __init__(self, value, seats, first):
        self.value, self.seats, self.first, self.given = value, seats, first, 0
        self.line, self.granted, self.grants = [], set(), [0] * seats

    def fetch(self, seat):
        """Whether this seat has a unit now."""
        if seat in self.granted:
            self.granted.remove(seat)
            return True
        return False


def acquire_once(proc, sema, seat, waits=True, watch=None):
    """One unit, with the points 1 to 4, of which a call until a moment has 2 and 3."""
    yield STEP if watch else 1
    ended = None
    if sema.value > 0:
        sema.value -= 1
        ended = Ended("acquired")
    elif not waits:
        ended = Ended("not now")
    else:
        sema.line.append(seat)
        told = sema.grants[seat]
    while not ended:
        if watch:
            watch.set()
        yield 2
        slept = yield from unprobed(sleep(proc, sema.first + seat, told))
        yield 3
        if sema.fetch(seat):
            ended = Ended("acquired", slept.notes)
        elif slept.is_note or slept.answer != "woken":
            sema.line.remove(seat)
            ended = slept
    if not watch and not ended.is_note:
        proc.put_back(ended.notes)
    yield STEP if watch else 4
    return ended


def acquire(proc, sema, seat, waits=True):
    return (yield from acquire_once(proc, sema, seat, waits)).text()


def acquire_within(proc, sema, seat, now, ms):
    watch = Watch(proc, now, ms)
    ended = yield from acquire_once(proc, sema, seat, True, watch)
    return (yield from watch.settle(ended)).text()


def release(proc, sema, count):
    yield STEP
    if sema.value + count > MOST_UNITS:
        return BAD_ARG
    total = sema.value = sema.value + count
    woken = []
    while sema.value and sema.line:
        seat = sema.line.pop(0)
        sema.value -= 1
        sema.granted.add(seat)
        sema.grants[seat] += 1
        woken.append((seat, sema.grants[seat]))
    for seat, granted in woken:
        yield STEP
        yield from wakeup(proc, sema.first + seat, granted)
    return f"value {total}"


# ---- tag spaces


class Space:
    """A tag space: who waits with which tag and value, the values that were brought to those who waited, and how many calls of
    each member were met."""

    def __init__(self, seats, first):
        self.seats, self.first, self.given = seats, first, 0
        self.waiting, self.brought, self.meetings = {}, {}, [0] * seats


def meet_once(proc, space, member, tag, value, watch=None):
    """One rendezvous, with the points 1 to 4, of which a call until a moment has 2 and 3."""
    yield STEP if watch else 1
    ended = None
    if tag in space.waiting:
        partner, theirs = space.waiting.pop(tag)
        space.brought[partner] = value
        space.meetings[partner] += 1
        yield STEP
        yield from wakeup(proc, space.first + partner, space.meetings[partner])
        ended = Ended(f"met {theirs}")
    else:
        space.waiting[tag] = member, value
        told = space.meetings[member]
    while not ended:
        if watch:
            watch.set()
        yield 2
        slept = yield from unprobed(sleep(proc, space.first + member, told))
        yield 3
        if member in space.brought:
            ended = Ended(f"met {space.brought.pop(member)}", slept.notes)
        elif slept.is_note or slept.answer != "woken":
            del space.waiting[tag]
            ended = slept
    if not watch and not ended.is_note:
        proc.put_back(ended.notes)
    yield STEP if watch else 4
    return ended


def rendezvous(proc, space, member, tag, value):
    return (yield from meet_once(proc, space, member, tag, value)).text()


def rendezvous_word(proc, space, member, tag, value):
    answer = yield from unprobed(rendezvous(proc, space, member, tag, value))
    return f"met {LAST_WORD}" if answer.startswith("interrupted") else answer


def rendezvous_within(proc, space, member, now, ms, tag, value):
    watch = Watch(proc, now, ms)
    ended = yield from meet_once(proc, space, member, tag, value, watch)
    return (yield from watch.settle(ended)).text()


def sleep_within(proc, now, ms, rendez, threshold):
    """A sleep until a moment: the Rendez and the level are tested before its timer is set."""
    watch = Watch(proc, now, ms)
    if rendez < proc.kernel.rendez and threshold < TOP_LEVEL:
        watch.set()
    ended = yield from unprobed(sleep(proc, rendez, threshold))
    return (yield from watch.settle(ended)).text()
