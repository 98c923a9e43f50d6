"""Programs and faults that stay the same."""
import itertools

from explored.agreement import agrees, fail, is_fault
from explored.answers import STATUS, run
from explored.faults import NO_LABEL, NO_ON
from explored.machine import Machine
from explored.program import ANSWERS, ATOMIC_SIZE, LAST_MOMENT, MOST_CALLS, MOST_MS, MOST_ONS, MOST_TIMES, program_of
from explored.searching import LIMIT, search

# A write is accepted in one step and stands in the next. Where process 0 is delayed between the two, the reader is told that
# nothing is there yet, and the note that was meant for its sleep ends its wait for the bytes.
DELAYED = """world 3 1
sema 0 3
pipe 1
process 0
write 0 61
process 1
hangup 0
release 0 1
note 2 interrupt
process 2
acquire 0
read 0 1
sleep 0 0
"""
# A wakeup in the Rendez of a semaphore's seat, to a level above each count of its grants: an acquire there asks, sleeps and asks
# for ever. No line may name that Rendez. It shows that the search finds what is caught.
CAUGHT = "world 2 1\nsema 0 2\nprocess 0\nacquire 0\nprocess 1\nwakeup 1 1\n"
# As many processes as there may be, whose states have no numbers of 128 bits. Nor do many of the random programs of the core have
# such numbers: those with two Rendez and a wakeup to the greatest level.
CROWD = "world 1024 1\nprocess 1023\ndrain\n"
# A write and a read of each power of two bytes, of one more and of one fewer.
SIZES = sorted({2**power + more for power in range(17) for more in (-1, 0, 1)} & {*range(1, ATOMIC_SIZE + 1)})
MANY_SIZES = "world 1 1\npipe 1\nprocess 0\n" + "".join(f"write 0 {'00' * size}\nread 0 {size}\n" for size in SIZES)
# What the search has to find in a script: the verdict, the steps of the schedule, and whether some schedule ends.
KNOWN = [(DELAYED, "stuck", 23, True), (CAUGHT, "caught", 0, False),
         (DELAYED.replace("read 0 1\n", "read 0 1\non interrupted over\n") + "over:\n", "ends", None, True)]
# A line without a line feed, no room for a Rendez, and declarations twice or out of order are faults, and of which line.
FAULTS = [(CAUGHT, 6), ("", 1), ("world 1 1", 1), ("world 1 1\nprocess 0\ndrain", 3), ("world 1 8192\nsema 0 1\n", 2),
          ("world 1 1\nspace 1\nspace 1\n", 3), ("world 1 1\nsema 1 1\nspace 1\n", 3)]
# So are a `repeat` before the first process, with a process in it, or without its end, and an `end` too many.
DRAIN, FIRST_MANY = "drain\n", f"process 0\nrepeat {MOST_TIMES}\n"
REPEATS = [("repeat 2\n", 2), ("end\n", 2), ("process 0\nend\n", 3), ("process 0\nrepeat 2\nend\nend\n", 5),
           ("process 0\nrepeat 2\nrepeat 2\nend\n", 6), ("process 0\nrepeat 2\nprocess 0\nend\n", 4),
           ("process 0\nrepeat 2\nsema 0 1\nend\n", 4), ("process 0\nrepeat 2\ndrain\n", 5), ("process 0\nrepeat 2\n", 4),
           ("process 0\nrepeat 2\ndrain", 4), ("process 0\nrepeat 2\nend", 4), ("process 0\nrepeat 2\nsleep 1 0\nend\n", 4)]
# Branches: before the first process, of no call, of another process, of a call that can't end so or has such an `on` already;
# labels that no `on` names, or that no line is; and a `repeat` between the two.
BRANCHED = "world 2 1\nspace 2\nsema 1 2\nclock\npipe 1\n"
BRANCH_FAULTS = [
    ("on end a\n", 1), ("a:\n", 1), ("process 0\non end a\n", 2), ("process 0\na:\n", 2), ("process 0\nread 0 1\na:\n", 3),
    ("process 0\nread 0 1\nprocess 1\non end a\n", 4), ("process 0\nrepeat 2\nend\non end a\n", 4),
    ("process 0\nread 0 1\non end a\non end b\n", 4), ("process 0\nread 0 1\non end a\non end a\n", 4),
    ("process 0\nread 0 1\non end a\na:\non end a\n", 5), ("process 0\nread 0 1\non end a\non interrupted b\nb:\non end b\n", 6),
    ("process 0\nread 0 1\ndrain\non end a\n", 4), ("process 0\nwrite 0 61\nread 0 1\non hungup a\n", 4),
    ("process 0\nread 0 1\non end a\nprocess 1\na:\n", 4), ("process 0\nread 0 1\non end a\nprocess 0\na:\n", 4),
    ("process 0\nread 0 1\non end a\non interrupted b\nb:\nprocess 1\n", 6), ("process 0\nread 0 1\non end a\n", 4),
    ("process 0\nread 0 1\non end a\non interrupted b\na:\n", 6), ("process 0\nread 0 1\non end a\ndrain\na:\ndrain\na:\n", 7),
    ("process 0\nread 0 1\non end a\nb:\na:\n", 4), ("process 0\nread 0 1\non end a\nA:\n", 4),
    ("process 0\nread 0 1\non end a", 3), ("process 0\nread 0 1\non end a\na:", 4), ("process 0\nread 0 1\non end end\nend\n", 4),
    ("process 0\nread 0 1\nrepeat 2\non end a\nend\na:\n", 4),
    ("process 0\nread 0 1\non end a\nrepeat 2\na:\nend\n", 5), ("process 0\nread 0 1\non end a\nrepeat 2\ndrain\n", 6),
    ("process 0\nread 0 1\non end a\nrepeat 2\nprocess 0\n", 5),
    *((f"process 0\nread 0 1\n{line}\n", 3) for line in NO_ON),
    *((f"process 0\nread 0 1\non end a\n{line}\n", 4) for line in NO_LABEL)]
# A call of each kind, of which each may end only by some answers.
EACH_CALL = ["sleep 0 0", "wakeup 0 1", "note 0 alarm", "drain", "rendezvous 1 1", "acquire 0", "try 0", "release 0 1",
             "write 0 61", "read 0 1", "hangup 0", "tick 0", "ticks 0", "sleep_within 0 5 0 0", "rendezvous_within 0 5 1 1",
             "acquire_within 0 5 0", "read_within 0 5 0 1", "write_within 0 5 0 61"]
# Branches that are none of these faults: `on` after an `end`, after a label and in a later part of a process; labels that are used
# again, by two calls and beside other labels, that are words of lines or names, and that nothing stands after.
BRANCHES = [
    "process 0\nread 0 1\non end a\na:\nread 0 1\non end a\ndrain\na:\nprocess 1\ntry 0\non not_now a\nhangup 0\na:\n",
    "process 0\nread 0 1\non interrupted a\na:\non end a\nhangup 0\na:\nprocess 1\nnote 0 alarm\nwrite 0 -\n",
    "process 0\nrepeat 2\nread 0 1\nend\non end end\nrepeat 3\nwrite 0 61\nread 0 1\nend\nend:\nprocess 1\nwrite 0 61\nhangup 0\n",
    "process 0\nread 0 1\nrepeat 2\nend\non end a\nrendezvous 0 0\na:\nprocess 1\nhangup 0\n",
    "process 0\nread 0 1\nprocess 1\nhangup 0\nprocess 0\non end a\nrendezvous 0 0\na:\nprocess 1\ndrain\nprocess 0\ndrain\n",
    "process 0\ntry 0\non not_now on\nrelease 0 1\non:\nprocess 1\nacquire 0\non interrupted process\nrelease 0 1\nprocess:\n",
    "process 0\nwrite 0 61\nwrite 0 61\non hungup a\non interrupted b\nacquire 0\non interrupted a\na:\nb:\nprocess 1\nhangup 0\n"
    "note 0 alarm\nread 0 1\n",
    "process 0\nread_within 0 5 0 1\non timed_out a\non end b\non interrupted timed_out\ndrain\na:\ndrain\nb:\ntimed_out:\n"
    "process 1\ntick 5\nnote 0 alarm\nhangup 0\n",
    "process 0\nrepeat 2\nacquire_within 1 4 0\nend\non timed_out clock\nrelease 0 1\nclock:\nprocess 1\nrepeat 2\ntick 5\nend\n",
    "process 0\nacquire 0\nsleep 0 0\non interrupted A-1_\nrendezvous 1 1\non interrupted A-1_\nrelease 0 1\nA-1_:\ndrain\n"
    f"process 1\nnote 0 alarm\nnote 0 interrupt\nacquire 0\non interrupted {'a' * 32}\ndrain\n{'a' * 32}:\n"]
# A read that has found the end and still wakes, after it took an empty write out, beside one that got a byte and wakes as many. All
# else may be the same there: two notes ended the read before, or one did, and the second was the same note as the first.
SAME_WAKES = """world 3 1
pipe 2 stream
process 0
read 0 8
read 0 8
on end over
drain
over:
process 1
write 0 61
write 0 -
hangup 0
process 2
note 0 alarm
note 0 alarm
"""
# One label for as many calls as may have an `on` that waits for it, of which the second takes its process there; and one more.
FIRST_TRIES = "world 1 1\nsema 1 1\nprocess 0\n" + MOST_ONS * "try 0\non not_now over\n"
MANY_BRANCHES = f"{FIRST_TRIES}over:\n"
# A process with many calls, a `repeat` of nothing, and a call more.
MANY_CALLS = f"world 1 1\n{FIRST_MANY}{MOST_CALLS // MOST_TIMES * DRAIN}end\nrepeat 7\nend\ndrain\n"
# Names: a script before its last line, and last lines of which each is a fault there, and after them those that are none.
GATE = "world 2 2\nspace hall 2\nsema gate 1 2\nclock\npipe jobs 1\nprocess alice\nsleep room 0\nprocess bob\nnote alice alarm\n"
NO_NAMES = ["process carol", "process gate", "process 0", "process 2nd", "process alice 1", "process", "process " + "a" * 33,
            "process _a", "process al.ice", "note carol alarm", "note 0 alarm", "note room alarm", "sleep 0 0", "sleep gate 0",
            "sleep bob 0", "sleep room", "wakeup 0 1", "wakeup jobs 1", "acquire 0", "acquire jobs", "acquire alice", "acquire Gate",
            "try hall", "release 0 1", "release gates 1", "read 0 1", "read gate 1", "read jobs", "write 0 61", "write job 61",
            "hangup 0", "hangup hall", "sema gate 1 2", "sema door 1 2", "pipe jobs 1", "space hall 1", "rendez room", "clock",
            "clock tower", "tick clock", "tick room", "sleep_within 0 1 0 0", "sleep_within 0 1 bob 0", "sleep_within room 0 0 0",
            "sleep_within 0 room 0 0", "sleep_within 0 1 room", "acquire_within 0 1 0", "acquire_within 0 1 jobs",
            "acquire_within gate 0 1", "acquire_within 0 gate 1", "read_within 0 1 0 1", "read_within 0 1 gate 1",
            "write_within 0 1 0 61", "write_within 0 1 hall 61", "rendezvous_within 0 1 hall 1"]
ARE_NAMES = ["process alice", "process bob", "sleep door 0", "wakeup room 1", "acquire gate", "read jobs 1", "rendezvous 1 1",
             "sleep_within 0 1 door 0", "sleep_within 0 1 room 0", "acquire_within 0 1 gate", "read_within 0 1 jobs 1",
             "write_within 0 1 jobs -", "rendezvous_within 0 1 1 1", "tick 0"]
# Declared twice, or without a name beside one that has one.
TWICE = [("sema gate 1 2", "sema gate 1 2", 3), ("sema gate 1 2", "sema 1 2", 3), ("sema 1 2", "sema gate 1 2", 2),
         ("sema gate 1 2", "pipe gate 1", 3), ("pipe jobs 1", "pipe jobs 1 stream", 3), ("pipe jobs 1", "pipe 1", 3),
         ("space hall 2", "sema hall 1 2", 3), ("sema gate 1 2", "pipe jobs", 3), ("sema gate", "pipe jobs 1", 2),
         ("space hall", "sema gate 1 2", 2), ("clock", "clock", 3), ("clock hall", "clock", 2), ("clock", "space 1", 3),
         ("clock", "space hall 1", 3), ("process 0", "clock", 3), ("process clock", "clock", 3), ("drain", "clock", 2),
         ("sema gate 1 2 3", "sema door 1 1", 2), ("pipe jobs 1 slow", "sema door 1 1", 2)]
REFUSED = [["frob"], ["--calls"], ["--states"], ["--states", "x"], ["--states", "-1"], ["--states", "1", "1"], ["--charts"], ["--Chart"],
           ["--chart", "--chart"], ["--chart", "1"], ["--states", "--chart"], ["--chart", "--states"], ["-c"], ["--chart=1"],
           ["--states", "1", "--chart", "--chart"], ["--chart", "--states", "1", "1"], ["--Any"], ["--any", "--any"],
           ["--any=1"], ["--any", "1"], ["--states", "--any"], ["--states", "1", "--any", "--any"],
           ["--any", "--states", "1", "--any"], ["--any", "--chart", "--states", "1", "1"]]


# Deadlines: the first line of `world` and a clock, and then these lines. What is found in such a script by argument: how many
# states, where these are easily counted, the verdict, the steps of the shortest schedule that gets stuck, and whether some ends.
DEADLINES = [
    # Nobody has a timer, and a unit that is there needs none: a tick is one step.
    ("1 1", "process 0\ntick 5\n", 2, "ends", None, True),
    ("1 1", "sema 1 1\nprocess 0\nacquire_within 0 5 0\ntick 9\n", 3, "ends", None, True),
    # It asks, sets its timer, posts itself, tests and sleeps. A tick before does not help, and one of its own does not come.
    ("1 1", "sema 0 1\nprocess 0\nacquire_within 0 5 0\n", 5, "stuck", 4, False),
    ("1 1", "sema 0 1\nprocess 0\ntick 9\nacquire_within 0 5 0\ntick 9\n", 6, "stuck", 5, False),
    # After a wakeup of two steps a sleep adds, posts, tests, withdraws, clears and cancels.
    ("1 1", "process 0\nwakeup 0 1\nsleep_within 0 5 0 0\n", 9, "ends", None, True),
    # A note ends the sleep at its look: one step more. Posted by a script, `expired` does so too, and nothing has timed out.
    ("1 1", "process 0\nnote 0 alarm\nsleep_within 0 5 0 0\non interrupted a\nsleep 0 0\na:\n", 9, "ends", None, True),
    ("1 1", "process 0\nnote 0 expired\nsleep_within 0 5 0 0\non interrupted a\nsleep 0 0\na:\n", 9, "ends", None, True),
    ("1 1", "process 0\nnote 0 expired\nsleep_within 0 5 0 0\non timed_out a\nsleep 0 0\na:\n", 11, "stuck", 10, False),
    # A read that finds a write (four steps) never has a timer: it takes one, and wakes the writer's Rendez by two.
    ("1 1", "pipe 1\nprocess 0\nwrite 0 61\nread_within 0 5 0 1\n", 8, "ends", None, True),
    # Nor does a write that finds the hangup (five steps): it is refused and posts `closed`, which ends no sleep after it.
    ("1 1", "pipe 1\nprocess 0\nhangup 0\nwrite_within 0 5 0 61\non hungup a\nsleep 0 0\na:\n", 8, "ends", None, True),
    ("1 1", "pipe 1\nprocess 0\nhangup 0\nread_within 0 5 0 1\non end a\nsleep 0 0\na:\n", 7, "ends", None, True),
    # It sets its timer once, also where it sleeps twice: an empty write wakes a reader of a stream, which then waits for the hangup.
    ("2 1", "pipe 1 stream\nprocess 0\nread_within 0 5 0 1\nprocess 1\nwrite 0 -\nhangup 0\ntick 5\n", None, "ends", None, True),
    # The sum is at most the last moment, at which a tick takes it: beside a tick that does not, each of four states is two.
    ("2 1", f"process 0\nsleep_within {LAST_MOMENT} {MOST_MS} 0 0\nprocess 1\ntick {LAST_MOMENT - 1}\n", 8, "stuck", 4, False),
    ("2 1", "process 0\nsleep_within 3 2 0 0\nprocess 1\ntick 4\n", 8, "stuck", 4, False),
    # At the deadline a tick takes the timer, unless it comes before the timer is set: four states before it, four where it found
    # none, three where the note is to come, and seven after the note, before and after the tick finds no other timer.
    ("2 1", "process 0\nsleep_within 3 2 0 0\nprocess 1\ntick 5\n", 25, "stuck", 4, True),
    ("2 1", f"process 0\nsleep_within {LAST_MOMENT} {MOST_MS} 0 0\nprocess 1\ntick {LAST_MOMENT}\n", 25, "stuck", 4, True),
    # The call takes the note of the tick that took its timer, so it never ends the next sleep. Another note does so, unless it ended
    # the first sleep.
    ("2 1", "process 0\nwakeup 0 1\nsleep_within 0 5 0 0\nsleep 0 1\nprocess 1\ntick 5\n", None, "stuck", 11, False),
    ("2 1", "process 0\nwakeup 0 1\nsleep_within 0 5 0 0\nsleep 0 1\nprocess 1\ntick 5\nnote 0 alarm\n", None, "stuck", 12, True),
    # With another note it is interrupted, whatever tick came.
    ("2 1", "process 0\nnote 0 alarm\nsleep_within 0 5 0 0\non interrupted a\nsleep 0 9\na:\nprocess 1\ntick 5\n", None, "ends",
     None, True),
    # A tick takes no more timers than there are processes. One that sleeps three times has not ended after it.
    ("2 1", "process 0\nrepeat 2\nsleep_within 0 5 0 0\nend\nprocess 1\ntick 5\n", None, "stuck", 4, True),
    ("2 1", "process 0\nrepeat 3\nsleep_within 0 5 0 0\nend\nprocess 1\ntick 5\n", None, "stuck", 4, False),
    # A process that ticks for ever makes no step while it finds no timer, and never goes on, also where a `repeat` says so.
    ("1 1", "process 0\nticks 5\n", 1, "ends", None, True),
    ("2 1", "process 0\nticks 5\nprocess 1\nticks 6\n", 1, "ends", None, True),
    ("1 1", "process 0\nrepeat 3\ndrain\nticks 5\nend\n", 2, "ends", None, True),
    # It takes each timer that it finds: four states before that, three where its note is to come, and seven after the note. A sleep
    # more begins in the last of these.
    ("2 1", "process 0\nsleep_within 3 2 0 0\nprocess 1\nticks 5\n", 14, "ends", None, True),
    ("2 1", "process 0\nrepeat 3\nsleep_within 3 2 0 0\nend\nprocess 1\nticks 6\n", 40, "ends", None, True),
    ("2 1", "process 0\nsleep_within 3 2 0 0\nprocess 1\nticks 4\n", 4, "stuck", 3, False),
    # A wait without a deadline gets stuck beside it.
    ("2 1", "process 0\nsleep_within 3 2 0 0\nsleep 0 0\nprocess 1\nticks 5\n", 16, "stuck", 11, False),
    # The least moment first, and then the least process: where the first tick took one timer, that was the other's. The second
    # tick comes to nobody who waits for it.
    ("3 1", "sema 0 3\nprocess 0\nacquire_within 0 5 0\nprocess 1\nacquire_within 0 3 0\nprocess 2\ntick 4\n", None, "stuck", 9,
     False),
    # Refused since another sleeps there, it is over, also where a tick has taken its timer: it takes its notes while it can't sleep.
    ("3 1", "process 0\nwakeup 0 1\nsleep_within 0 5 0 0\nwakeup 0 10\nprocess 1\ntick 5\nprocess 2\nsleep 0 9\n", None, "ends",
     None, True),
    # A unit that is granted before the timer is cancelled is kept, and a call that timed out has none: either way one is left.
    ("3 1", "sema 0 3\nprocess 0\nacquire_within 0 5 0\non timed_out a\nrelease 0 1\na:\nprocess 1\nrelease 0 1\n"
     "process 2\ntick 5\nacquire 0\nrelease 0 1\n", None, "ends", None, True)]


# Calls behind a tick that is made for ever are made only where an `on` leads past it. A `repeat` may have one too.
ONE_CLOCK = "world 2 1\nsema 0 2\nclock\n"
TICKS = ["process 0\nticks 5\nrepeat 2\ndrain\nend\nsleep 0 0\n", "process 0\nticks 5\nprocess 1\ndrain\nprocess 0\ndrain\nticks 5\n",
         "process 0\nsleep_within 0 5 0 0\non timed_out a\nticks 5\na:\ndrain\nprocess 1\nticks 5\n",
         "process 0\ntry 0\non not_now a\nticks 5\na:\ndrain\nprocess 1\nsleep_within 0 5 0 0\ntick 5\n",
         "process 0\ntry 0\non not_now a\nticks 5\na:\nsleep_within 0 5 0 0\nprocess 1\nrelease 0 1\nacquire_within 0 5 0\nticks 5\n",
         "process 0\nrepeat 2\ndrain\nticks 5\nend\nprocess 1\nsleep_within 0 5 0 0\n",
         "process 0\nrepeat 2\nticks 5\ndrain\nend\nprocess 1\nsleep_within 0 5 0 0\n"]


def deadlines():
    """The search finds in each script by events what is so by argument."""
    for world, lines, *known in DEADLINES:
        script = f"world {world}\nclock\n{lines}"
        found = search(Machine(program_of(script)), LIMIT)
        said = [found.states if known[0] else None, found.verdict, found.steps, found.ends]
        if said != known:
            fail(f"the search finds {said} where {known} is so:\n{script}")
        yield script
    for lines in TICKS:
        program = program_of(f"{ONE_CLOCK}{lines}")
        if run(f"{ONE_CLOCK}{lines}") != run(program.script()):
            fail(f"it says different things of these scripts:\n{ONE_CLOCK}{lines}\n{program.script()}")
        yield program.script()


def cases():
    """The programs and faults above, and command lines that are refused."""
    for script, *known in KNOWN:
        found = search(Machine(program_of(script)), LIMIT)
        if [found.verdict, found.steps, found.ends] != known:
            fail(f"the search finds {found.verdict} {found.steps} {found.ends} where {known} is so:\n{script}")
    for script, line in FAULTS:
        is_fault("a fault", script, line)
    for lines, line in REPEATS:
        is_fault("a repeat", f"world 1 1\n{lines}", line)
    for lines, line in BRANCH_FAULTS:
        is_fault("a branch", f"{BRANCHED}{lines}", BRANCHED.count("\n") + line)
    is_fault("one branch too many", f"{FIRST_TRIES}try 0\non not_now over\n", FIRST_TRIES.count("\n") + 2)
    for call, answer in itertools.product(EACH_CALL, ANSWERS):
        script = f"{BRANCHED}process 0\n{call}\non {answer} a\na:\n"
        if call.split(" ")[0] not in ANSWERS[answer]:
            is_fault("a branch", script, BRANCHED.count("\n") + 3)
        elif run(script)[0] == STATUS["fault"]:
            fail(f"on {answer} is a fault after {call}")
    for last in NO_NAMES:
        is_fault("a name", f"{GATE}{last}\n", GATE.count("\n") + 1)
    for last in ARE_NAMES:
        if run(f"{GATE}{last}\n")[0] == STATUS["fault"]:
            fail(f"{last} is a fault after the names of\n{GATE}")
    for one, other, line in TWICE:
        is_fault("a name twice", f"world 2 1\n{one}\n{other}\n", line)
    for words in REFUSED:
        status, text, _ = run(DELAYED, *words)
        if (status, text) != (2, ""):
            fail(f"it takes the command line {words}")
    for lines in BRANCHES:
        program = program_of(f"{BRANCHED}{lines}")
        if run(f"{BRANCHED}{lines}") != run(program.script()):
            fail(f"it says different things of these scripts:\n{BRANCHED}{lines}\n{program.script()}")
        yield agrees("branches", program)
    for script in deadlines():
        yield agrees("a deadline", program_of(script))
    yield agrees("two reads that wake", program_of(SAME_WAKES))
    large = f"world 1 8189\nsema 0 1\npipe 1\nprocess 0\nwrite 0 {'00' * ATOMIC_SIZE}\n"
    yield agrees("the largest write and the last Rendez", program_of(large))
    yield agrees("writes and reads of many sizes", program_of(MANY_SIZES))
    if run(MANY_CALLS)[:2] != (STATUS["ends"], f"states {MOST_CALLS + 2}\nends\n"):
        fail(f"it does not play a process that drains {MOST_CALLS + 1} times")
    if run(MANY_BRANCHES)[:2] != (STATUS["ends"], "states 3\nends\n"):
        fail(f"it does not play a process with {MOST_ONS} tries that have one label")
    for crowd in map(program_of, (CROWD, CROWD.replace("\n", "\nspace 1\n", 1), CROWD.replace("\n", "\nclock\n", 1) + "tick 0\n")):
        yield agrees("as many processes as there may be", crowd)
    yield agrees("a write that is delayed", program_of(DELAYED))
