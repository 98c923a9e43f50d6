"""Scripts with a fault."""
import itertools
import random

from explored.agreement import second_reader
from explored.maker import random_program
from explored.program import (
    ANSWERS, ATOMIC_SIZE, HANGUP, LAST_MOMENT, MOST_MS, MOST_TIMES, MOST_UNITS, TIMED, Program)

NO_BYTES = ["616", "4", "6g", "0x61", "61-", "--", "", "61 61", "00" * (ATOMIC_SIZE + 1)]
NO_WORLD = ["world 0 1", "world 1025 1", "world 1 0", "world 1 8193", "world 1", "world 1 1 1", "World 1 1", "world 01 1",
            "world +1 1", "world 1 1\r", "drain"]
NO_DEVICE = ["space 0", "space 1025", "space 1 1", "space", "sema 2147483648 1", "sema 0 0", "sema 0 1025", "sema",
             "sema 1 1 1", "pipe 0", "pipe 1025", "pipe 1 Stream", "pipe 1 stream stream", "pipe", "sema 1 8192", "world 1 1",
             "drain", "sleep 0 0", "on end end", "end:", "clock 1", "clock 0", "clock hall", "Clock", "clock ", " clock", "clocks",
             "tick 0", "ticks 0", "sleep_within 0 0 0 0"]
# Lines that no `on` and no label is like. No label is `nobody`.
NO_ON = ["on", "on end", "on end nobody nobody", "on End nobody", "On end nobody", "on end 1", "on end 2nd", "on end _a",
         "on  end nobody", "on end  nobody", " on end nobody", "on end nobody ", "on end nobody\r", "on end nobody:",
         "on: end nobody", "on ended nobody", "on not-now nobody", "on notnow nobody", "on gone nobody", "on 0 nobody",
         "on nobody end", f"on end {'a' * 33}", f"on interrupted {'a' * 33}", "on interrupted", "on interrupted interrupted nobody"]
NO_LABEL = ["nobody:", "Nobody:", "nobody", ":", "nobody :", "nobody::", " nobody:", "nobody: ", "nobody:\r", "1:", "2nd:", "_a:",
            "nobody:nobody", "nobody: drain", f"{'a' * 33}:"]
NO_CALL = ["sleep 0", "sleep 0 0 0", "Sleep 0 0", "sleep 00 0", "sleep 0 -1", "sleep 0 +1", "sleep  0 0", " drain", "drain ",
           "drain\r", "drain 0", "drian", f"sleep 0 {HANGUP}", f"sleep 0 {HANGUP + 1}",
           f"wakeup 0 {HANGUP + 1}", "wakeup 0", "note 0", "note 0 interrupt,interrupt", "note 0 interrupt,",
           "note 0 Interrupt", "note 0 kill", "note 0 -,alarm", "space 1", "sema 1 1", "pipe 1", "pipe 1 stream",
           "world 1 1", "process", "process 0 0", "acquire", "try", "hangup", "end", "end 1", "repeat", "repeat 0",
           f"repeat {MOST_TIMES + 1}", "repeat 02", "repeat +2", "repeat 2 2", "Repeat 2", "repeat -", "repeat drain", "clock"]
# Lines that no call with a deadline and no tick is like.
NO_DEADLINE = ["sleep_within 0 0", "sleep_within 1 0 0", "sleep_within 1 1 0 0 0", "sleep_within 0 -1 0 0", "sleep_within -1 0 0 0",
               "sleep_within 0 01 0 0", "sleep_within 00 0 0 0", "sleep_within 0  0 0 0", "sleep_within +1 0 0 0",
               "Sleep_within 0 0 0 0", "sleep_Within 0 0 0 0", "sleepwithin 0 0 0 0", "read within 0 0 0 1", "sleep_within 0 0 0 0 ",
               f"sleep_within {LAST_MOMENT + 1} 0 0 0", f"sleep_within 0 {MOST_MS + 1} 0 0", f"sleep_within 0 0 0 {HANGUP}",
               f"sleep_within 0 0 0 {HANGUP + 1}", "wakeup_within 0 0 0 1", "note_within 0 0 0 alarm", "drain_within 0 0",
               "try_within 0 0 0", "release_within 0 0 0 1", "hangup_within 0 0 0", "acquire_within 0", "acquire_within",
               "read_within 0", "write_within 0", "rendezvous_within 1 1", f"rendezvous_within {LAST_MOMENT + 1} 0 1 1",
               f"acquire_within 0 {MOST_MS + 1} 0", f"read_within 0 {MOST_MS + 1} 0 1", f"write_within 0 {MOST_MS + 1} 0 61",
               f"rendezvous_within 0 {MOST_MS + 1} 1 1", "tick", "tick 0 0", "tick -1", "tick 00", "tick +1", "tick 0 ", "Tick 0",
               "tick x", "tick -", f"tick {LAST_MOMENT + 1}", "ticks", "ticks 0 0", "ticks -1", "Ticks 0", f"ticks {LAST_MOMENT + 1}",
               "tick_within 0 0 0", "tickss 0"]
# Lines of calls that a script has only with a clock.
CLOCKED = ["tick 0", f"tick {LAST_MOMENT}", "ticks 0", "sleep_within 0 0 0 0", f"sleep_within {LAST_MOMENT} {MOST_MS} 0 1"]
# Lines that may not stand between `repeat` and `end`.
NO_REPEATED = ["end 2", "process 0", "space 1", "sema 0 1", "pipe 1", "pipe 1 stream", "world 1 1", "ends", "clock", "or", "on end"]


def within(dice, lines):
    """These lines of calls, as calls with a deadline where there are such."""
    return [f"{verb}_within {dice.choice([0, 5, LAST_MOMENT])} {dice.choice([0, 7, MOST_MS])} {words}"
            for verb, words in (line.split(" ", 1) for line in lines) if f"{verb}_within" in TIMED]


def impossible(program, pid):
    """Lines of a process that name what is not there, or what it has no seat or member of, or can only be refused."""
    procs, semas, pipes = len(program.calls), program.semas, program.pipes
    yield from [f"process {procs}", f"note {procs} alarm", f"sleep {program.own} 0", f"wakeup {program.own} 1"]
    yield from [f"{verb} {len(semas)}" for verb in ("acquire", "try")] + [f"release {len(semas)} 1"]
    yield from [f"read {len(pipes)} 1", f"write {len(pipes)} 61", f"hangup {len(pipes)}"]
    if pid >= program.members:
        yield "rendezvous 1 1"
    for number, (_, _, seats) in enumerate(semas):
        if pid >= seats:
            yield from [f"acquire {number}", f"try {number}", f"release {number} 1"]
    if semas:
        yield f"release 0 {MOST_UNITS + 1}"
    if pipes:
        yield from ["read 0 0", "read 0", "read 0 1 1", *(f"write 0 {text}" for text in NO_BYTES)]


def untimed(dice, program, pid):
    """A line of a process that is no call with a deadline and no tick; without a clock, one that would be with it."""
    if program.has_clock:
        return dice.choice([*NO_DEADLINE, *2 * within(dice, impossible(program, pid))])
    all_lines = ["sleep 0 0", "rendezvous 1 1", "acquire 0", "read 0 1", "write 0 61"]
    return dice.choice([*CLOCKED, *within(dice, all_lines), *NO_DEADLINE])


def is_of_branch(line):
    return line.startswith("on ") or line.endswith(":")


def no_branch(dice, above):
    """An `on` after these lines of a process that is a fault; or one whose label never comes, and then None."""
    words = [line.split(" ") for line in above]
    call = max(at for at, line in enumerate(above) if not is_of_branch(line))
    may = [answer for answer, verbs in ANSWERS.items() if words[call][0] in verbs]
    has = [its[1] for its in words[call + 1:] if its[0] == "on"]
    faulty = [f"on {answer} nobody" for answer in ANSWERS if answer in has or answer not in may]
    waits = [f"on {answer} nobody" for answer in may if answer not in has]
    if waits and dice.random() < 0.5:
        return dice.choice(waits), None
    return (dice.choice(faulty),)


def random_fault(seed):
    """A script with one faulty line, and that line's number."""
    dice = random.Random(f"fault {seed}")
    kind = dice.choice(["world", "device", "no process", *2 * ["call", "repeat", "untimed"], *3 * ["impossible", "branch"]])
    programs = (random_program("devices", f"{seed}.{number}")[0] for number in itertools.count())
    program = next(program for program in programs if not second_reader(program))
    program = Program(program.own, program.devices, program.calls, branches={} if kind == "repeat" else program.branches)
    lines, devices = list(program.lines()), len(program.devices)
    if kind == "world":
        lines[0] = dice.choice(NO_WORLD)
        return "\n".join([*lines, ""]), 1
    at = dice.randint(1, devices) if kind == "device" else dice.randint(devices + 2, len(lines))
    if kind == "no process":
        at, faulty = devices + 1, dice.choice(["space 1" if devices else "drain", "repeat 2", "end", "on end end", "end:"])
    elif kind == "branch":
        at = next(place for place in range(at, len(lines) + 1) if not is_of_branch([*lines, ""][place]))
        faulty, *waits = no_branch(dice, lines[max(place for place in range(at) if lines[place].startswith("process ")):at])
        if waits:
            # The next `process` line is at fault, or the line after the last.
            lines.insert(at, faulty)
            end = next((place for place in range(at, len(lines)) if lines[place].startswith("process ")), len(lines))
            return "\n".join([*lines, ""]), end + 1
    elif kind == "repeat":
        # In a `repeat` without its `end` the next `process` line is at fault, or the line after the last.
        lines.insert(at, f"repeat {dice.randint(1, MOST_TIMES)}")
        faulty = [place for place, line in enumerate(lines) if place >= at and line.startswith("process ")]
        end = min([*faulty, len(lines)])
        if dice.random() < 0.5:
            return "\n".join([*lines, ""]), end + 1
        at, faulty = dice.randint(at + 1, end), dice.choice(NO_REPEATED)
    elif kind in ("impossible", "untimed"):
        pid = int(next(line for line in reversed(lines[:at]) if line.startswith("process ")).split(" ")[1])
        faulty = untimed(dice, program, pid) if kind == "untimed" else dice.choice(list(impossible(program, pid)))
    elif kind == "device":
        # A second clock, and a space after a clock, are faults where they stand.
        clocks = [place for place, line in enumerate(lines[:at]) if line == "clock"]
        faulty = dice.choice(NO_DEVICE + (clocks and ["clock", "space 1"]))
    else:
        faulty = dice.choice(dice.choice([NO_CALL, NO_CALL, NO_ON, NO_LABEL]))
    lines.insert(at, faulty)
    return "\n".join([*lines, ""]), at + 1
