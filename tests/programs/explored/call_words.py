"""What is said of a step by calls, who does it and what comes of it; and of a schedule that is shown, which steps its lines are.

The words are those of man/p9explore.1: where a call is made, and how it goes on later."""
from explored.calls import WAITS
from explored.machine import BAD_ARGUMENT, IS_EXPIRED, REFUSALS
from explored.program import kinds_of

# What the events of the core have after the process that may have a name. A step of a sleep, a wakeup, a note or a drain is said so.
EVENTS = {"post": "rendez", "raise": "rendez"} | dict.fromkeys("test look withdraw clear take mark note drain".split(" "))
# How a call is named that was made before, by its verb: the kind of its object, and what stands before its number.
LATER = {"acquire": ("sema", "acquire of", "semaphore "), "read": ("pipe", "read of", "pipe "), "try_read": ("pipe", "read of", "pipe "),
         "write": ("pipe", "write to", "pipe "), "sleep": ("rendez", "sleep in", "rendez ")}


def event_line(program, words):
    """The line of an event, with names."""
    verb, pid, *words = words
    if words and EVENTS[verb]:
        words = [program.say(EVENTS[verb], words[0]), *words[1:]]
    return " ".join([verb, program.say("process", pid), *map(str, words)])


def later(machine, pid, words):
    """How a call of a process is named after it was made."""
    verb, number, *_ = words
    maker = machine.program.say("process", pid)
    if verb == "rendezvous":
        return f"{maker}'s call with tag {number}"
    kind, what, before = LATER[verb]
    return f"{maker}'s {what} {machine.program.say(kind, number, before)}"


def served(before, after):
    """Who stood in a line, and stands there no more, and has not left it."""
    lines = [[{pid for _, line in state[4][1] for pid in line} | {pid for pid, tag in enumerate(state[4][0]) if tag is not None}]
             for state in (before, after)]
    return sorted(lines[0][0] - lines[1][0])


def is_waiting(machine, state, pid):
    """Whether the call of a process waits, or sets its timer to wait."""
    return state[3][pid][1] in (WAITS, ("set",))


def found(machine, state, after, pid, number):
    """What a read finds in a direction."""
    writes, rest, hung = state[4][2][number]
    if rest or writes and writes[0][1] is None:
        return "has bytes"
    if hung and not writes:
        return "the end"
    return "waits" if is_waiting(machine, after, pid) else "nothing there"


def made(machine, state, pid, after, line, answer):
    """What is said of a call at a device that is made."""
    say, (verb, *_) = machine.program.say, line
    others = [say("process", other) for other in served(state, after)]
    waits = is_waiting(machine, after, pid)
    number = machine.calls[pid][state[3][pid][0]][1]
    if verb == "rendezvous":
        return f" calls with tag {number}: " + ("waits" if waits else f"meets {''.join(others)}")
    if verb in ("acquire", "try"):
        has_it = state[4][1][number][0] > 0
        then = "has it" if has_it else "waits" if verb == "acquire" else "not now"
        return f" {'acquires' if verb == 'acquire' else 'tries'} {say('sema', number, 'semaphore ')}: {then}"
    if verb == "release":
        then = ": bad argument" if answer is BAD_ARGUMENT else "".join(f": {other} has it" for other in others)
        return f" releases {line[3]} of {say('sema', number, 'semaphore ')}{then}"
    pipe = say("pipe", number, "pipe ")
    if verb == "put":
        then = "waits" if waits else "hung up" if state[4][2][number][2] else "accepted"
        return f" writes {line[3]} byte{'' if line[3] == 1 else 's'} to {pipe}: {then}"
    return f" reads from {pipe}: {found(machine, state, after, pid, number)}" if verb == "part" else f" hangs up {pipe}"


def of_timer(machine, state, pid, line):
    """What is said of a step at the timers."""
    say, verb = machine.program.say, line[0]
    if verb == "add":
        return f" sets its timer to {line[2]}"
    if verb == "cancel":
        return " cancels its timer" + (": a tick has taken it" if state[4][3][pid] == IS_EXPIRED else "")
    whom = machine.first_due(state, pid)
    return f" ticks at {line[2]}: " + ("no timer is due" if whom is None else f"takes the timer of {say('process', whom)}")


def ended(machine, state, pid, after, line):
    """What is said of a call that goes on after it was made."""
    (over, walk, _), verb = state[3][pid], line[0]
    if verb == "part":
        return found(machine, state, after, pid, machine.calls[pid][over][1])
    if verb in ("fail", "leave") and walk is WAITS:
        return f"{'interrupted' if machine.moments[pid][over] is None else 'woken'} by {kinds_of(state[2][pid])}"
    if verb == "leave":
        return "waits no more" + ("" if machine.has_to_wait(state, pid) else ", and was served")
    return {"go on": "was served", "stand": "stands", "await": "has the note of a tick"}[verb]


def said(machine, state, pid, step):
    """The line of a step of a process, or None of the one that ends the program."""
    after, line, answer = step
    over, walk, _ = state[3][pid]
    verb, maker = line[0], machine.program.say("process", pid)
    if verb == "note" and walk[0] == "tell":
        return f"{maker} posts expired to {machine.program.say('process', line[1])}"
    if verb in EVENTS:
        return event_line(machine.program, line)
    if verb == "either":
        return maker + (" goes on" if line[2] == walk[1] else " goes the other way")
    if verb in ("reached", "end"):
        return f"{maker} is where nobody may be" if verb == "reached" else None
    if verb in ("add", "cancel", "expire"):
        return maker + of_timer(machine, state, pid, line)
    call = machine.calls[pid][over]
    is_later = verb in ("go on", "fail", "leave", "stand", "await") or walk[0] == "more"
    if is_later:
        return f"{later(machine, pid, call)}: {ended(machine, state, pid, after, line)}"
    return maker + made(machine, state, pid, after, line, answer)


def played(machine, lines):
    """The states to which these lines lead, each of which has to be the next step of a process; none where a line is no step. Each with
    who made the steps, with the calls that were refused on the way, and with the answers that the steps get."""
    states = {(machine.opening(), (), ()): ()}
    for line in lines:
        after = {}
        for (state, makers, refused), answers in states.items():
            for pid in range(len(machine.calls)):
                for step in machine.moves(state, pid):
                    if said(machine, state, pid, step) == line:
                        call = ((pid, state[3][pid][0], step[2]),) if step[2] in REFUSALS else ()
                        after[step[0], (*makers, pid), refused + call] = (*answers, step[2])
        states = after
    return states
