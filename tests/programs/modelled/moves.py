"""Short runs of lines that bring an object where its rules matter: a full pipe, a stream of empty writes, a line of waiters, a deadline.

Each is played by a maker with those who are idle, and makes nothing where somebody that it needs is missing.
"""
SLEEPERS = {"plain", "reader", "writer"}


def at_direction(maker):
    """A direction with its idle reader and its idle writers, if there is one."""
    ways = {}
    for actor in maker.idle():
        if actor.role in ("reader", "writer"):
            ways.setdefault(actor.thing, []).append(actor)
    rows = []
    for way, actors in ways.items():
        readers, writers = ([it for it in actors if it.role == role] for role in ("reader", "writer"))
        rows += [(way, readers[0], writers)] if readers and writers else []
    return maker.dice.choice(rows) if rows else (None, None, [])


def write(maker, writers, data):
    writers = [it for it in writers if not it.run]
    if writers:
        maker.make_call(maker.dice.choice(writers), ["write", data])


def hang_up(maker, actor):
    if not actor.run:
        maker.make_call(actor, ["hangup"])


def fill_a_pipe(maker):
    """Writes until there is no room, one or all writers more; then a read, a note, or a hangup that ends them all."""
    dice, (way, reader, writers) = maker.dice, at_direction(maker)
    if not way:
        return
    for _ in range(way.limit - len(way.blocks) + dice.choice([1, 1, len(writers)])):
        write(maker, writers, dice.choice(["a", "bc", "-", "def"]))
    for _ in range(dice.choice([1, 1, 2])):
        how = dice.choice(["hang up", "hang up", "read", "read", "note", "read a part"])
        if how == "hang up":
            hang_up(maker, dice.choice([reader, reader, *writers]))
        elif how == "note" and writers[-1].number < 1024:
            maker.tell(f"0 note {writers[-1].proc.pid} {maker.kinds()}")
        elif not reader.run:
            maker.make_call(reader, ["read", "1" if how == "read a part" else "8"])
    for actor in dice.sample([reader, *writers], 2) if dice.random() < 0.5 else []:
        maker.tell(f"{actor.number} look")


def pass_empty_writes(maker):
    """Empty writes before, between and after bytes, read up to the last byte, before it and past it. The level of a writer's Rendez
    says how far a read went."""
    dice, (way, reader, writers) = maker.dice, at_direction(maker)
    if not way or not way.stream and dice.random() < 0.8:
        return
    room = way.limit - len(way.blocks)
    data = dice.choice([["ab", "-", "-"], ["-", "a", "-"], ["a", "-", "b"], ["-", "-"], ["a", "-"], ["abc", "-", "de"]])
    for it in data[:max(1, room)]:
        write(maker, writers, it)
    for _ in range(dice.choice([1, 2])):
        held = len(way.rest) + sum(len(block[1] or b"") for block in way.blocks)
        count = dice.choice([held, held, held, held - 1, held + 1, 8])
        if not reader.run:
            maker.make_call(reader, [dice.choice(["try_read", "try_read", "read"]), str(max(1, count))])
        maker.tell(f"rendez {way.first + 1 + dice.randrange(way.writers)}")
        write(maker, writers, dice.choice(["-", "g", "hi"]))
    if not reader.run and way.blocks and dice.random() < 0.6:
        maker.make_call(reader, [dice.choice(["try_read 8", "read_block", "read_block"])])


def send_whole_blocks(maker):
    """Writes about as long as the atomic size, and reads of as many bytes."""
    dice, (way, reader, writers) = maker.dice, at_direction(maker)
    writer = next((it for it in writers if not it.run), None)
    if not writer:
        return
    size = dice.choice([65535, 65536, 65536, 65537])
    verb = dice.choice(["write", "write", "write_long", "write_within"])
    if verb == "write_long":
        size = dice.choice([65536, 65537, 65540, 131072, 131073])
    maker.make_call(writer, [verb, *(maker.moment() if "within" in verb else []), f"{size}*{dice.choice('xyz')}"])
    for _ in range(dice.choice([1, 2, 3])):
        if not reader.run:
            verb = dice.choice(["read", "try_read", "read_block", "read_exact"])
            maker.make_call(reader, [verb] + [str(dice.choice([65535, 65536, 65537, 70000]))] * (verb != "read_block"))


def hang_up_and_go_on(maker):
    """A hangup, then a write of each kind, and reads up to the end and past it."""
    dice, (way, reader, writers) = maker.dice, at_direction(maker)
    if not way or len(maker.lines) < 12 and dice.random() < 0.5:
        return
    if dice.random() < 0.5:
        write(maker, writers, dice.choice(["ab", "-", "cde"]))
    hang_up(maker, dice.choice([reader, *writers]))
    for data in dice.sample(["x", "-", "65537*w", "65536*v"], 2):
        write(maker, writers, data)
    for _ in range(dice.choice([1, 2, 3])):
        if not reader.run:
            maker.make_call(reader, [dice.choice(["read", "try_read", "read_exact"]), str(dice.choice([1, 2, 8, 0]))])


def meet_a_deadline(maker):
    """One to three calls until a moment, ticks before it and at it, and now and then a note or what they wait for."""
    dice = maker.dice
    waiting = []
    for actor in dice.sample(maker.timed(), min(len(maker.timed()), dice.choice([1, 2, 2, 3]))):
        maker.make_call(actor, maker.timed_call(actor))
        if actor.run:
            waiting.append((maker.deadline(actor), actor))
    if not waiting:
        return
    moments = sorted(moment for moment, _ in waiting)
    how = dice.random()
    if how < 0.5:
        maker.tell(f"0 tick {max(0, moments[0] - 1)}")
    if 0.4 < how < 0.7 and waiting[0][1].number < 1024:
        maker.tell(f"0 note {waiting[0][1].proc.pid} {maker.kinds()}")
    maker.tell(f"0 tick {dice.choice([moments[0], moments[-1], moments[-1], min(moments[-1] + 7, 2**64 - 1)])}")
    if dice.random() < 0.4:
        maker.tell(f"0 tick {2**64 - 1}")
        maker.tell(f"{waiting[0][1].number} look")


def note_a_group(maker):
    """A process that leaves its group or makes another, and notes to a group."""
    dice, forkers = maker.dice, maker.forkers()
    if forkers:
        forker = dice.choice(forkers)
        maker.tell(f"{forker.number} rfork {dice.choice(['noteg', 'noteg', 'proc,noteg', 'proc'])}")
    posters = [it for it in maker.idle() if it.role in SLEEPERS or it.number == 0]
    made = [it for it in maker.lab.actors.values() if it.number < 1024]
    for _ in range(dice.choice([1, 1, 2])):
        poster = dice.choice(posters)
        pid = dice.choice([poster.proc.pid, *(it.number for it in made), maker.lab.kernel.procs - 1])
        maker.tell(f"{poster.number} notepg {pid} {maker.kinds()}")
    for actor in dice.sample(made, min(len(made), 3)):
        maker.tell(f"{actor.number} {'look' if actor.run or actor.is_gone else dice.choice(['look', 'notes'])}")


def line_up(maker):
    """Acquires that wait in a line, of which one may leave, and releases of one unit or more."""
    dice = maker.dice
    semas = {}
    for actor in maker.idle():
        if actor.role == "holder":
            semas.setdefault(actor.thing, []).append(actor)
    rows = [row for sema, row in semas.items() if len(row) > 1 and sema.value < 4]
    if not rows:
        return
    row = dice.choice(rows)
    dice.shuffle(row)
    for _ in range(row[0].thing.value):
        maker.make_call(row[0], ["try_acquire"])
    for actor in row[1:]:
        timed = actor.proc.timer and dice.random() < 0.3
        maker.make_call(actor, ["acquire_within", *maker.moment()] if timed else ["acquire"])
    if dice.random() < 0.4 and row[1].number < 1024:
        maker.tell(f"0 note {row[1].proc.pid} {maker.kinds()}")
    for count in dice.choice([[1], [1, 1], [2], [0, 1], [3], [1, 2**31 - 1, 0], [2, 2**31 - 1, 0]]):
        maker.make_call(row[0], ["release", str(count)])
    if dice.random() < 0.5:
        maker.make_call(row[0], ["try_acquire"])


def grant_at_a_point(maker):
    """What a call waits for, with notes or a tick, between its steps: after its sleep, or before it."""
    dice = maker.dice
    actor, partner = maker.pair()
    if not actor:
        return
    timed = actor.proc.timer and dice.random() < 0.65
    verb = ("acquire" if actor.role == "holder" else "rendezvous") + ("_within" if timed else "")
    words = [verb, *maker.operands(actor, verb)]
    if actor.role == "holder" and actor.thing.value:
        maker.make_call(partner, ["try_acquire"])
    lines = [maker.line(partner, maker.answering(partner, words))] if dice.random() < (0.5 if timed else 0.85) else []
    lines += [maker.line(partner, ["try_acquire"])] * (partner.role == "holder" and dice.random() < 0.55)
    lines += [f"0 note {actor.proc.pid} {maker.kinds()}"] if dice.random() < 0.7 or not lines else []
    lines += [f"0 tick {min(int(words[1]) + int(words[2]), 2**64 - 1)}"] if timed and dice.random() < 0.7 else []
    if dice.random() < 0.5:
        dice.shuffle(lines)
    points = [dice.choice([2, 3]) for _ in lines]
    kept = [f"at {point} {line}" for point, line in zip(points if dice.random() < 0.5 else [3] * len(lines), lines)]
    maker.call_with_lines(actor, words, kept + [f"at {dice.choice([2, 3])} {actor.number} look"] * (dice.random() < 0.3))
    if not actor.run:
        maker.tell(f"{actor.number} notes")


def wake_at_a_point(maker):
    """A wakeup, a note and looks between the steps of a sleep, and then another sleep."""
    dice = maker.dice
    sleepers = [it for it in maker.idle() if it.role in SLEEPERS and it.number < 1024]
    if not sleepers:
        return
    actor = dice.choice(sleepers)
    place = dice.randrange(maker.lab.kernel.rendez)
    level = maker.lab.kernel.levels[place]
    if level > 2**63:
        return
    lines = [f"0 wakeup {place} {dice.choice([level, level, level + 1])}", f"0 note {actor.proc.pid} {maker.kinds()}",
             f"{actor.number} look", f"rendez {place}"]
    points = sorted(dice.choice([2, 2, 3, 4, 5]) for _ in range(3))
    kept = [f"at {point} {line}" for point, line in zip(points, dice.sample(lines, 3))]
    maker.call_with_lines(actor, ["sleep", str(place), str(level)], kept)
    if not actor.run:
        maker.make_call(actor, ["sleep", str(place), str(level + 1)])


def wake_in_vain(maker):
    """Wakeups of a level that is too low, which take a waiter out again and again, and then what it waits for."""
    dice = maker.dice
    actor, partner = maker.pair()
    if not actor or actor.role == "holder" and actor.thing.value:
        return
    words = ["acquire"] if actor.role == "holder" else ["rendezvous", "7", "3"]
    place = actor.thing.first + actor.seat
    lines = [f"at 3 {actor.number} look", f"at {dice.choice([2, 3])} 0 notes", f"at 3 rendez {place}"]
    count = maker.keep_lines(lines[:dice.choice([1, 2, 3])])
    maker.make_call(actor, words)
    for _ in range(dice.choice([1, 2])):
        maker.tell(f"0 note 0 {maker.kinds()}")
        maker.tell(f"0 wakeup {place} 0")
    maker.make_call(partner, maker.answering(partner, words))
    if not actor.run:
        maker.tell_acted(actor, count)


def wait_in_vain_until_a_moment(maker):
    """A call until a moment that has to wait and is woken in vain, up to three times; then a tick, a note or what it waits for ends it,
    and no later tick finds its timer. Right behind it comes another such call of its process, whose moment is its own."""
    dice = maker.dice
    callers = [it for it in maker.timed() if it.number < 1024]
    if not callers:
        return
    actor = dice.choice(callers)
    for _ in range(dice.choice([1, 2, 2, 3])):
        words = maker.timed_call(actor)
        moment = min(int(words[1]) + int(words[2]), 2**64 - 1)
        leave_nothing(maker, actor, words)
        lines = dice.choice([f"at 3 0 tick {moment}", f"at 3 0 note {actor.proc.pid} {maker.kinds()}"])
        is_kept = actor.role in ("holder", "guest") and words[0] != "sleep_within" and dice.random() < 0.25
        count = maker.keep_lines([lines]) if is_kept else 0
        maker.make_call(actor, words)
        for _ in range(dice.choice([0, 1, 1, 1, 2, 3])):
            if actor.run and actor.proc.posted_in() is not None:
                maker.tell(f"0 wakeup {actor.proc.posted_in()} 0")
        if actor.run:
            end_at_a_moment(maker, actor, words, moment)
        if actor.run or actor.is_gone:
            return
        if count:
            maker.tell_acted(actor, count)
        maker.tell(f"0 tick {moment}")


def leave_nothing(maker, actor, words):
    """Takes what the call would find at once: units, or room for a write."""
    if words[0] == "acquire_within":
        for _ in range(min(actor.thing.value, 4)):
            maker.make_call(actor, ["try_acquire"])
    if words[0] == "write_within" and not actor.thing.hung:
        for _ in range(actor.thing.limit - len(actor.thing.blocks)):
            maker.make_call(actor, ["write", "a"])
    if words[0] == "send_within" and not actor.thing.hung:
        for _ in range(actor.thing.capacity - len(actor.thing.values)):
            maker.make_call(actor, ["try_send", maker.value()])
    if words[0] == "receive_within":
        for _ in range(len(actor.thing.values)):
            maker.make_call(actor, ["try_receive"])


def end_at_a_moment(maker, actor, words, moment):
    """Ends a call until this moment by a tick, mostly, or by a note or by what it waits for."""
    dice = maker.dice
    others = [it for it in maker.idle() if it.thing is actor.thing and it.role in ("holder", "guest", "reader", "writer", *VALUES)]
    how = dice.random()
    if how < 0.3 and others:
        other = dice.choice(others)
        return maker.make_call(other, maker.answering(other, words))
    if how < 0.5:
        return maker.tell(f"0 note {actor.proc.pid} {maker.kinds()}")
    if how < 0.7:
        maker.tell(f"0 tick {max(0, moment - 1)}")
    return maker.tell(f"0 tick {moment}") if actor.run else None


def move_to_a_space(maker):
    """An rfork of a guest, and calls with one tag in the spaces that there are then."""
    dice = maker.dice
    guests = [it for it in maker.idle() if it.role == "guest"]
    if not guests:
        return
    forker = dice.choice(guests)
    flags = ["proc", "proc", "rend", "rend", "rend,noteg", "proc,rend", "proc,rend", "proc,rend,noteg", "proc,noteg", "noteg"]
    maker.make_call(forker, ["rfork", dice.choice(flags)])
    guests = [it for it in maker.idle() if it.role == "guest"]
    for actor in dice.sample(guests, min(len(guests), 3)):
        maker.make_call(actor, ["rendezvous", "7", str(dice.randrange(9))])
    if dice.random() < 0.5:
        maker.tell(f"0 notepg {forker.number} {maker.kinds()}")
    for actor in {it.number: it for it in [forker, *guests[-1:]]}.values():
        if not actor.run and not actor.is_gone:
            maker.tell(maker.line(actor, ["rendez"]))


def raise_a_level(maker):
    """Who sleeps with a level, and wakeups below, at and above it."""
    dice, sleepers = maker.dice, [it for it in maker.idle() if it.role in SLEEPERS]
    if not sleepers:
        return
    actor = dice.choice(sleepers)
    place = maker.place(actor)
    for level in dice.sample(["0", "1", "2", "3"], dice.choice([0, 0, 1])):
        maker.tell(f"0 wakeup {place} {level}")
    if dice.random() < 0.4:
        maker.make_call(actor, ["put_back", maker.kinds()])
    maker.make_call(actor, ["sleep", str(place), dice.choice(["0", "1", "2"])])
    if actor.run and dice.random() < 0.5 and len(sleepers) > 1:
        other = dice.choice([it for it in sleepers if it is not actor])
        maker.make_call(other, ["put_back", maker.kinds()])
        maker.make_call(other, ["sleep", str(place), "0"])
        maker.tell(f"{other.number} look")
    maker.tell(f"0 wakeup {place} {dice.choice(['0', '1', '2', '3'])}")
    maker.tell(f"{actor.number} look")
    maker.tell(f"rendez {place}" if place < maker.lab.kernel.rendez else "0 notes")


def at_queue(maker):
    """A queue with its idle senders and its idle receivers, if one has both."""
    rows = {}
    for actor in maker.idle():
        if actor.role in ("sender", "receiver"):
            rows.setdefault(actor.thing, ([], []))[actor.role == "receiver"].append(actor)
    full = [(queue, *row) for queue, row in rows.items() if all(row)]
    return maker.dice.choice(full) if full else (None, [], [])


def call_by_one(maker, actors, words):
    """A call by one of these, if one makes none."""
    idle = [it for it in actors if not it.run and not it.is_gone]
    if idle:
        maker.make_call(maker.dice.choice(idle), words)


def timed(maker, actor, verb):
    """The call until a moment of this name, now and then, if the process can make it."""
    return [f"{verb}_within", *maker.moment()] if actor.proc.timer and maker.dice.random() < 0.3 else [verb]


def fill_a_queue(maker):
    """Sends until there is no room, and then a line of senders, of which one may leave it; receives, a hangup or notes end them all."""
    dice, (queue, senders, receivers) = maker.dice, at_queue(maker)
    if not queue:
        return
    for _ in range(queue.capacity - len(queue.values)):
        call_by_one(maker, senders, ["try_send" if dice.random() < 0.2 else "send", maker.value()])
    waiting = [it for it in dice.sample(senders, len(senders)) if not it.run]
    for actor in waiting:
        maker.make_call(actor, [*timed(maker, actor, "send"), maker.value()])
    end_a_line(maker, waiting, receivers, lambda: [dice.choice(["receive", "receive", "try_receive"])])


def line_up_receivers(maker):
    """Receives until there is no value, and then a line of receivers, of which one may leave it; sends, a hangup or notes end them all."""
    dice, (queue, senders, receivers) = maker.dice, at_queue(maker)
    if not queue:
        return
    for _ in range(len(queue.values)):
        call_by_one(maker, receivers, [dice.choice(["receive", "try_receive"])])
    waiting = [it for it in dice.sample(receivers, len(receivers)) if not it.run]
    for actor in waiting:
        maker.make_call(actor, timed(maker, actor, "receive"))
    end_a_line(maker, waiting, senders, lambda: [dice.choice(["send", "send", "try_send"]), maker.value()])


def end_a_line(maker, waiting, others, answer):
    """Ends what waits at a queue: a note to one, wakeups in vain, and then what the others do, or a hangup."""
    dice = maker.dice
    parked = [it for it in waiting if it.run and it.number < 1024]
    if parked and dice.random() < 0.4:
        maker.tell(f"0 note {dice.choice(parked).proc.pid} {maker.kinds()}")
    for _ in range(dice.choice([0, 0, 1, 2]) if parked else 0):
        maker.tell(f"0 wakeup {parked[0].thing.first + parked[0].seat} 0")
    for _ in range(dice.choice([1, 2, 2, 3])):
        if dice.random() < 0.2:
            call_by_one(maker, [*others, *waiting], [dice.choice(["hangup", "hangup", "hangup", "rendez"])])
        else:
            call_by_one(maker, others, answer())
    for actor in dice.sample([*waiting, *others], 2) if dice.random() < 0.3 else []:
        maker.tell(f"{actor.number} look")


def hang_up_a_queue(maker):
    """Sends, a hangup, sends of each kind, and receives up to the end and past it."""
    dice, (queue, senders, receivers) = maker.dice, at_queue(maker)
    if not queue or len(maker.lines) < 12 and dice.random() < 0.5:
        return
    for _ in range(dice.choice([0, 1, 2])):
        call_by_one(maker, senders, ["try_send", maker.value()])
    call_by_one(maker, [*senders, *receivers], ["hangup"])
    for verb in dice.sample(["send", "try_send", "send_within", "hangup"], 2):
        actor = dice.choice(senders)
        if not actor.run:
            maker.make_call(actor, [verb, *maker.operands(actor, verb)])
    for _ in range(dice.choice([1, 2, 3])):
        call_by_one(maker, receivers, [dice.choice(["receive", "try_receive"])])


def grant_by_a_stranger(maker):
    """A stranger grants room or a value to who waits, and wakes nobody here: then it hangs up, or who waits is ended by notes or a tick."""
    dice, (queue, senders, receivers) = maker.dice, at_queue(maker)
    if not queue or queue.given == queue.seats or queue.hung:
        return
    is_send = dice.random() < 0.5
    waiting, others = (senders, "receiver") if is_send else (receivers, "sender")
    actor = dice.choice(waiting)
    number = 1024 + maker.lab.strangers
    maker.tell(f"stranger 1 {maker.lab.kernel.rendez} {others} {actor.which}")
    if number not in maker.lab.actors or actor.number >= 1024:
        return
    for _ in range(queue.capacity - len(queue.values) if is_send else len(queue.values)):
        maker.make_call(actor, ["try_send", maker.value()] if is_send else ["try_receive"])
    words = [*timed(maker, actor, "send"), maker.value()] if is_send else timed(maker, actor, "receive")
    maker.make_call(actor, words)
    maker.tell(f"{number} {'try_receive' if is_send else 'try_send ' + maker.value()}")
    for it in [it for it in waiting if not it.run][:dice.choice([0, 1, 1])]:
        maker.make_call(it, ["try_send", maker.value()] if is_send else ["try_receive"])
    if dice.random() < 0.4:
        maker.tell(f"{number} hangup")
    if words[0].endswith("_within") and dice.random() < 0.7:
        maker.tell(f"0 tick {maker.deadline(actor)}")
    maker.tell(f"0 note {actor.proc.pid} {maker.kinds()}")
    if not actor.run:
        maker.tell(f"{actor.number} notes")


PIPES, UNITS, TAGS, VALUES = {"reader"}, {"holder"}, {"guest"}, {"sender", "receiver"}
# Each with how often it is made, and the roles of which it needs one.
MOVES = [(2, fill_a_pipe, PIPES), (3, pass_empty_writes, PIPES), (1, send_whole_blocks, PIPES), (1, hang_up_and_go_on, PIPES),
         (1, meet_a_deadline, {"plain", "reader"}), (2, meet_a_deadline, UNITS | TAGS | VALUES),
         (2, wait_in_vain_until_a_moment, {"plain", "reader", "writer", "holder", "guest", *VALUES}), (1, note_a_group, {"zero"}),
         (2, line_up, UNITS), (2, fill_a_queue, VALUES), (2, line_up_receivers, VALUES), (1, hang_up_a_queue, VALUES),
         (3, grant_by_a_stranger, VALUES),
         (2, grant_at_a_point, UNITS | TAGS), (1, grant_at_a_point, UNITS), (1, wake_in_vain, UNITS | TAGS), (2, move_to_a_space, TAGS),
         (1, raise_a_level, {"plain", "reader"}), (1, wake_at_a_point, {"plain", "reader"})]


def move(maker):
    """One of these that fits the roles that there are."""
    roles = {it.role for it in maker.idle()}
    fits = [(often, made) for often, made, needed in MOVES if needed & roles]
    maker.dice.choices([made for _, made in fits], [often for often, _ in fits])[0](maker)
