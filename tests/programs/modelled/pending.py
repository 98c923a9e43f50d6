"""Scenes for each call by a caller whose note is pending, and by one whose note comes while it waits, in both modes of a pipe; and for
each wait of a process in all roles."""
import itertools

from modelled.lab import CALLS, As
from modelled.maker import Maker, Scene, answers, settled

KINDS = ("alarm", "interrupt,expired")
# What is made first, in which process 1 is the caller, or 0 where there is none; the states that it can find; and its calls.
PIPE = ["kernel 5 9", "{mode} 1 1", "0 fork reader", "0 fork writer", "0 fork plain", "clock 4", "1 clock", "2 clock"]
WRITER = [*PIPE[:2], "0 fork writer", "0 fork reader", *PIPE[4:]]
PLAIN = ["kernel 4 2", *["0 fork plain"] * 2, "clock 4", "1 clock", "2 clock"]
SEMA = ["kernel 4 4", "sema {units} 2", *["0 fork holder"] * 2, "0 fork plain", "clock 4", "1 clock"]
SPACE = ["kernel 4 4", "space 2", *["0 fork guest"] * 2, "0 fork plain", "clock 4", "1 clock"]
FAMILY = ["kernel 4 4", "space 2", "0 fork guest", "1 rfork proc"]
SHARED = ["kernel 5 9", "pipe 1 1", "share 2", *["0 fork sharer"] * 2, "0 fork writer"]
SENDER = ["kernel 5 4", "queue 1 3", "0 fork sender", "0 fork receiver", "0 fork plain", "clock 4", "1 clock", "2 clock"]
RECEIVER = [*SENDER[:2], "0 fork receiver", "0 fork sender", *SENDER[4:]]
# One process in all roles, and the waits of each.
SEVERAL = ["kernel 2 23", *["{mode} 1 1"] * 3, "sema 0 2", "space 2", "share 2 3", *["queue 1 2"] * 2, "0 fork reader", "1 gets writer 2",
           "1 gets holder", "1 gets guest", "1 gets sharer", "1 gets sender", "1 gets receiver 2", "clock 4", "1 clock"]
WAITS = ["read 3", "read 3 reader", "read_within 100 50 3", "next_piece 3", "write x", "write_within 100 50 x", "write_long x", "acquire",
         "acquire_within 100 50", "rendezvous 7 5", "rendezvous_within 100 50 7 5", "send 7", "send_within 100 50 7", "receive",
         "receive_within 100 50", "sleep 22 0", "sleep_within 100 50 22 0"]
ANYBODY = ["wakeup 0 1", "tick 100", "note 0 alarm", "notes", "put_back hangup", "sleep 8 0", "sleep_within 100 50 8 0"]
ZERO = ["kernel 2 4", "0 fork plain", "clock 4", "1 clock"]
SEEN = ["rendez", "note 0 alarm", "notes"]
SLEEPS = ["sleep 0 0", "sleep_within 100 50 0 0", "sleep 0 18446744073709551615", "sleep_within 100 50 0 18446744073709551615"]
READS = ["read 3", "read_within 100 50 3", "try_read 3", "read_block", "next_piece 3", "read_exact 4", "read 0", "read_within 100 50 0"]
WRITES = ["write x", "write -", "write_within 100 50 x", "write_long x", "write_long 65537*x", "write 65537*x", "hangup"]
READ_STATES = [[], ["2 write abc"], ["2 write abc", "1 read 1"], ["2 write -"], ["2 hangup"], ["3 sleep 0 0 &"]]
WRITE_STATES = [[], ["1 write abc"], ["1 write abc", "2 read 1"], ["2 hangup"], ["1 write abc", "3 sleep 1 0 &"]]
UNITS = ["acquire", "try_acquire", "acquire_within 100 50", "release 1", "release 2147483647", *SEEN]
MEETS = ["rendezvous 7 5", "rendezvous_within 100 50 7 5", "rendezvous_word 7 5", *SEEN]
SENDS = ["send 7", "send_within 100 50 7", "try_send 7", "hangup", *SEEN]
RECEIVES = ["receive", "receive_within 100 50", "try_receive", "hangup", *SEEN]
SEND_STATES = [[], ["1 send 5"], ["2 hangup"], ["1 send 5", "2 hangup"], ["1 send 5", "3 sleep 0 0 &"]]
RECEIVE_STATES = [[], ["2 send 5"], ["2 hangup"], ["2 send 5", "1 hangup"], ["3 sleep 1 0 &"]]
MODES = [("a pipe", {"mode": "pipe"}), ("a stream", {"mode": "stream"})]


def rows():
    """Where each of the settings plays, with the words of its mode, what is made first, the states and the calls."""
    anybody = [*ANYBODY, *SLEEPS, "notepg 0 hangup"]
    for mode, names in MODES:
        yield mode, names, PIPE, READ_STATES, [*READS, "hangup"]
        yield mode, names, WRITER, WRITE_STATES, WRITES
        yield mode, names, PIPE, [[]], anybody
        yield mode, names, WRITER, [[]], anybody
        yield f"several roles, {mode}", names, SEVERAL, [["1 write y", "1 send 5"]], WAITS
    yield "alone", {}, PLAIN, [[], ["2 wakeup 0 1"], ["2 sleep 0 0 &"]], anybody
    yield "process 0", {}, ZERO, [[], ["1 sleep 0 0 &"]], [*ANYBODY[:5], "notepg 0 hangup", "rendez", "row 2", "pids_left", "rendez_left"]
    for units in "0", "1":
        yield "a semaphore", {"units": units}, SEMA, [[], ["3 sleep 0 0 &"]], UNITS
    yield "a space", {}, SPACE, [[], ["2 rendezvous 7 9 &"], ["3 sleep 0 0 &"]], MEETS
    yield "a family", {}, FAMILY, [[], ["2 rendezvous 7 9 &"]], ["rendezvous 7 5", "rfork noteg", "rfork rend", *SEEN]
    yield "a sender", {}, SENDER, SEND_STATES, SENDS
    yield "a receiver", {}, RECEIVER, RECEIVE_STATES, RECEIVES
    yield "turns", {}, SHARED, [[], ["3 write abc"], ["2 read 3 &"], ["3 hangup"]], ["read 3", "read 0"]


def settings():
    """Each opening with a state that it is brought to, the caller, and a call of it."""
    for place, names, opening, states, calls in rows():
        for state, call in itertools.product(states, calls):
            lines = [line.format(**names) for line in opening]
            if "_within" not in call and "tick" not in call:
                lines = [line for line in lines if "clock" not in line]
            if opening not in (PLAIN, ZERO) and lines[-1] == "0 fork plain" and not any(line.startswith("3 ") for line in state):
                lines.pop()
            yield place, [*lines, *state], int(opening is not ZERO), call


def missing():
    """The calls of a role that no setting has."""
    found = {(held.role, call.split(" ")[0]) for _, lines, caller, call in settings() for held in begun(lines).lab.actors[caller].held}
    return sorted({(role, call) for role, calls in CALLS.items() for call in calls} - found)


def begun(lines):
    """A maker that has played these lines, each to its end or to its wait."""
    maker = Maker("pending")
    for line in lines:
        number, _, call = line.removesuffix(" &").partition(" ")
        if line.endswith(" &"):
            maker.make_call(caller_of(maker, int(number)), call.split(" "))
        else:
            maker.tell(line)
    return maker


def caller_of(maker, number):
    actor = maker.lab.actors[number]
    return As(actor, actor.held[-1])


def closed(maker, name, caller):
    """What is left after the call: the notes, and what its Rendez and its object are."""
    for line in [f"{caller} look", "rendez 0", "left"]:
        maker.tell(line)
    lines = [line for line, _ in maker.lines]
    found = settled(lines, name)
    return Scene(name, found) if len(found) == len(lines) else None


def written(part=0, parts=1):
    """All of these scenes, or one of so many parts of them."""
    yield from [*in_vain()][part::parts]
    for number, (place, lines, caller, call) in itertools.islice(enumerate(settings()), part, None, parts):
        about, kinds = f"{place}: {call}, after {'; '.join(lines[1:])}", KINDS[number % 2]
        maker = begun([*lines, f"0 note {caller} {kinds}"])
        maker.make_call(caller_of(maker, caller), call.split(" "))
        yield closed(maker, f"{kinds} is pending, {about}", caller)
        for kinds in KINDS:
            maker = begun(lines)
            maker.make_call(caller_of(maker, caller), call.split(" "))
            if maker.lab.actors[caller].run:
                maker.tell(f"0 note {caller} {kinds}")
                yield closed(maker, f"{kinds} comes, {about}", caller)


def in_vain():
    """Lines that are answered once all turns have passed."""
    for at, lines in enumerate((["1 sleep 0 0", "1 notes", "1 ends", "1 waits", "0 note 1 alarm", "1 ends"], ["1 waits", "1 ends"])):
        lines = ["kernel 2 1", "0 fork plain", *lines]
        yield Scene(f"in vain {at}", answers(lines, None, True)[0], True)
