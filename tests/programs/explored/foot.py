"""The lines after a schedule that is shown: who waits for what, at which line of the script, and who holds it."""
import collections
import re

from explored.comments import said_by
from explored.machine import ENDED, IS_EXPIRED, UNSET

# The first line of a schedule of events, and a line of who waits at the end of a schedule.
WORLD, WAITS = re.compile(r"world \d+ \d+"), re.compile(r"\S+ (waits (at line \d+ )?for|sleeps in) ")
# Who waits at which line for what, who takes and gives units back, and which calls wait for what.
FOOT = re.compile(r"(\S+) waits at line (\d+) for (.*?)(?: until (\d+))?$")
TAKES = re.compile(r"(\S+) (?:acquires|tries) (\S+|semaphore \d+): has it$")
GIVES = re.compile(r"(\S+) releases (\d+) of (\S+|semaphore \d+)((?:: \S+ has it)*)$")
WANTS = {"acquire": ("a unit of ",), "rendezvous": ("a partner with tag ",), "read": ("a write of ", "bytes of "),
         "write": ("room in ",), "sleep": ("a level above ",)}
NOTE_OF_A_TICK = "the note of a tick"


def steps_of(program, lines):
    """The lines of a schedule that are steps. What follows them says who waits, and which calls were refused."""
    lines = lines[1:] if lines and WORLD.fullmatch(lines[0]) else lines
    return lines[:next((at for at, line in enumerate(lines) if WAITS.match(line) or line.startswith("refused: ")), len(lines))]


def parked(machine, state):
    """The processes that can make no step and have not ended, nor count so."""
    return [pid for pid, (over, walk, _) in enumerate(state[3])
            if walk is not ENDED and (pid, over) not in machine.endless and not machine.moves(state, pid)]


def holders_of(steps):
    """Of each semaphore the processes that took more of its units than they gave back."""
    holds = collections.Counter()
    for line in steps:
        if takes := TAKES.match(line):
            holds[takes[2], takes[1]] += 1
        elif gives := GIVES.match(line):
            pid, count, sema, served = gives.groups()
            holds[sema, pid] = max(0, holds[sema, pid] - int(count))
            holds.update((sema, other) for other in re.findall(r": (\S+) has it", served))
    return {sema: [pid for other, pid in holds if other == sema and holds[other, pid]] for sema, _ in holds}


def wanted(machine, steps, state, pid):
    """What a process waits for."""
    program, (over, walk, phase) = machine.program, state[3][pid]
    verb, number, *_ = machine.calls[pid][over]
    if walk[0] in ("await", "looking"):
        return NOTE_OF_A_TICK
    if verb == "rendezvous":
        return f"a partner with tag {number}" + (f" in {program.say('space', 0)}" if "space" in program.names else "")
    if verb == "acquire":
        of = program.say("sema", number, "semaphore ")
        holding = set(holders_of(steps).get(of, []))
        held = [say for say in (program.say("process", other) for other in range(len(machine.calls))) if say in holding]
        return f"a unit of {of}" + (f", held by {' and '.join(held)}" if held else "")
    if verb in ("read", "write"):
        of = program.say("pipe", number, "pipe ")
        return f"room in {of}" if verb == "write" else f"{'a write' if program.names else 'bytes'} of {of}"
    return f"a level above {phase[2]} in {program.say('rendez', phase[1], 'rendez ')}"


def waits(machine, steps, state):
    """A line for each process that waits: what it waits for. The line of the script is not told."""
    for pid in parked(machine, state):
        timer = state[4][3][pid] if state[4][3] else UNSET
        until = "" if timer in (UNSET, IS_EXPIRED) else f" until {timer}"
        yield f"{machine.program.say('process', pid)} waits for {wanted(machine, steps, state, pid)}{until}"


def line_differs(lines, line, waiting):
    """Where a line of who waits does not fit the line of the script that it names, or None."""
    pid, number, what = waiting[1], int(waiting[2]), waiting[3].partition(", held by ")[0]
    verb = lines[number - 1][0]
    within, verb = verb.endswith("_within"), verb.removesuffix("_within")
    maker = next(words for words in lines[number - 1::-1] if words[0] == "process")
    if pid not in (maker[1], *(f"{maker[1]}.{like}" for like in range(int(maker[2]) if maker[2:] else 0))):
        return f"`{line}`: that line is of {maker[1]}"
    if not (what == NOTE_OF_A_TICK and within) and (verb not in WANTS or not what.startswith(WANTS[verb])):
        return f"`{line}`: that line is `{' '.join(lines[number - 1])}`"


def foot_differs(script, steps, foot):
    """Where a line of who waits does not fit the line of the script that it names, or None; and the lines without what line that is."""
    lines, told = [said_by(line).split(" ") for line in script.split("\n")], []
    for line in foot:
        waiting = FOOT.match(line)
        why = waiting and line_differs(lines, line, waiting)
        if why:
            return why, told
        told.append(line.replace(f" at line {waiting[2]}", "", 1) if waiting else line)
    return None, told
