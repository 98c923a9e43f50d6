"""The program p9explore, what it says of a script, and where that differs from what the search found."""
import subprocess

from common import TOP

from explored.call_words import EVENTS, played
from explored.comments import commented
from explored.foot import foot_differs, parked, steps_of, waits
from explored.scripts import ScriptMachine
from explored.searching import can_end

EXPLORER, REPLAY = f"{TOP}/crates/p9explore/out/p9explore", f"{TOP}/crates/p9sync/out/p9sync"
SECONDS = 120
LANE = "|" + 15 * " "
STATUS = {"ends": 0, "fault": 1, "stuck": 3, "too many": 4, "caught": 5, "reached": 6}
OTHERS = {True: "some schedules end", False: "no schedule ends"}
NOT_KNOWN = "whether some schedule ends is not known"


def run(script, *words):
    """The status of a run, and what it wrote on standard output and standard error."""
    ran = subprocess.run([EXPLORER, *map(str, words)], input=script, capture_output=True, text=True, timeout=SECONDS)
    return ran.returncode, ran.stdout, ran.stderr


def status_of(verdict):
    return STATUS[verdict.split(" ")[0]]


def sleepers(machine, state):
    """Where each process sleeps at the end of a schedule of the core, by numbers."""
    places = ((pid, *state[3][pid][2][1:]) for pid in parked(machine, state))
    return [f"{pid} sleeps in {rendez} above {threshold}" for pid, rendez, threshold in places]


def refusals(program, calls):
    """A line for each call of the core that was refused."""
    return [f"refused: process {program.say('process', pid)} call {over} {why}" for pid, over, why in calls]


def foot(machine, steps, state, refused):
    """The lines after a schedule that comes to this state."""
    if machine.reached(state):
        return []
    program = machine.program
    named = program.devices or program.names
    lines = list(waits(machine, steps, state)) if named else sleepers(machine, state)
    return lines if program.devices else lines + refusals(program, refused)


def chart(machine, makers, steps, state):
    """The lines of a chart: a head for each process, each step in the column of its process, and who waits for what."""
    yield "chart"
    yield from (LANE * pid + f"process {machine.program.say('process', pid)}" for pid in range(len(machine.calls)))
    yield from (LANE * pid + line for pid, line in zip(makers, steps))
    yield from () if machine.reached(state) else waits(machine, steps, state)


def replay_differs(program, steps, answers):
    """What p9sync replay answers is what the search was answered, and nothing is lost."""
    text = "\n".join([f"world {len(program.calls)} {program.own}", *steps, ""])
    ran = subprocess.run([REPLAY, "replay"], input=text, capture_output=True, text=True, timeout=SECONDS)
    if (ran.returncode, ran.stdout.splitlines()) != (0, [*answers, "lost no"]):
        return f"p9sync replay answers {ran.stdout}{ran.stderr}"


def is_so(machine, state, verdict):
    """Whether a schedule that comes to this state shows the verdict."""
    if verdict == "caught":
        return not can_end(machine, state)
    if verdict != "stuck":
        return verdict.removeprefix("reached ") in machine.reached(state)
    moves = any(machine.moves(state, pid) for pid in range(len(machine.calls)))
    return not moves and not machine.all_over(state) and not machine.reached(state)


def lines_differ(lines, wanted, script, steps):
    """Where the lines at the end of a schedule differ from those that are wanted, in which no line of the script is told; or None."""
    why, told = foot_differs(script, steps, lines)
    return why or (f"at the foot is {lines}, and not {wanted}" if told != wanted else None)


def schedule_differs(machine, script, verdict, lines, drawn):
    """What is wrong with the schedule that is shown, or with its chart, or None."""
    program = machine.program
    world = [] if program.devices else [f"world {len(program.calls)} {program.rendez}"]
    if lines[:len(world)] != world:
        return f"the schedule does not begin with {world}"
    steps = steps_of(program, lines)
    states = played(machine, steps)
    if not states:
        return "a line of the schedule is no step that can be made there"
    why = f"the last state is not {verdict}"
    for (state, makers, refused), answers in states.items():
        if not is_so(machine, state, verdict):
            continue
        after, picture = lines[len(world) + len(steps):], list(chart(machine, makers, steps, state))
        heads = len(machine.calls) + 1 + len(steps)
        why = lines_differ(after, foot(machine, steps, state, refused), script, steps)
        why = why or (drawn[:heads] != picture[:heads] and "\n".join(["its chart is", *picture]))
        why = why or lines_differ(drawn[heads:], picture[heads:], script, steps)
        if not why:
            is_replayed = not program.devices and not program.names and all(line.split(" ")[0] in EVENTS for line in steps)
            return replay_differs(program, steps, answers) if is_replayed else None
    return why


def chart_of(script, verdict, text, *words):
    """The chart that is drawn after this answer, or None where the answer is another with a chart."""
    status, charted, _ = run(script, *words, "--chart")
    return charted[len(text):].splitlines() if status == status_of(verdict) and charted.startswith(text) else None


def bound_differs(script, found, verdict, text, states, *words):
    """What is wrong where just so many states may be kept, or one fewer, or None."""
    if states > 1 and run(script, *words, "--states", states - 1)[:2] != (STATUS["too many"], f"more than {states - 1} states\n"):
        return f"it has more than {states - 1} states"
    status, again, _ = run(script, "--states", states, *words)
    if (status, again.replace(NOT_KNOWN, OTHERS[found.ends])) != (status_of(verdict), text):
        return f"it says something else where just {states} states may be kept"


def answer_differs(machine, script, found, verdicts, counts, *words):
    """Where p9explore with these words differs from what the search found, or None; and how many steps its schedule has. It has to
    answer one of these verdicts, and to count as many states as `counts` takes."""
    status, text, err = run(script, *words)
    first, verdict, *lines = *text.splitlines(), "", ""
    if verdict not in verdicts or status != status_of(verdict):
        return f"it is {' or '.join(sorted(verdicts))} after {found.steps} steps, and p9explore ends with {status}: {err}", None
    states = int(first.removeprefix("states "))
    if not counts(states):
        return f"{states} are not its states, which are {found.states}, and so many within 0, 1, .. steps: {found.within}", None
    drawn, lines = chart_of(script, verdict, text, *words), text.splitlines()[2:]
    if drawn is None:
        return "with a chart it says something else before it", None
    why = bound_differs(script, found, verdict, text, states, *words)
    if why or verdict == "ends":
        return why or (lines or drawn) and "there is more after `ends`", None
    if lines[0] != OTHERS[found.ends]:
        return f"of other schedules: {OTHERS[found.ends]}", None
    return schedule_differs(machine, script, verdict, lines[1:], drawn), len(steps_of(machine.program, lines[1:]))


def any_differs(machine, script, found):
    """Where p9explore --any differs from what the search found, or None."""
    bad = {f"reached {word}" for word in found.nevers} | ({"stuck"} if found.stuck is not None else set())
    counts = lambda states: 0 < states <= found.states and (bad or states == found.states)
    why, steps = answer_differs(machine, script, found, bad or found.verdicts, counts, "--any")
    if not why and steps is not None and steps < found.steps:
        why = f"the shortest schedule has {found.steps} steps, and {steps} are shown"
    return why and f"with --any: {why}"


def difference(program, found, script=None):
    """Where p9explore differs from what the search found, or None. The script has some comments."""
    machine, script = ScriptMachine(program), commented(script or program.script())[0]
    why, steps = answer_differs(machine, script, found, found.verdicts, found.counts)
    if not why and steps is not None and steps != found.steps:
        why = f"the shortest schedule has {found.steps} steps, and {steps} are shown"
    return why or any_differs(machine, script, found)
