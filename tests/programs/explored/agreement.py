"""A run of p9explore beside the search: what fails where the two differ."""
import re
import sys

from explored.answers import STATUS, difference, run
from explored.comments import commented
from explored.scripts import ScriptMachine
from explored.searching import LIMIT, search


def fail(why):
    sys.exit(f"tests/programs/explore: {why}")


def second_reader(program):
    """The line of a script by which a second process reads a direction, or None: the library's types exclude it, and p9explore refuses it."""
    readers, pid = {}, None
    for number, (verb, *words) in enumerate((line.split(" ") for line in program.script().splitlines()), 1):
        pid = words[0] if verb == "process" else pid
        if verb in ("read", "try_read", "read_within") and readers.setdefault(words[-2], pid) != pid:
            return number
    return None


def reduced(program):
    """A program that differs too, and none of those that lack a call, a device or a process more."""
    smaller = program
    while smaller:
        program, smaller = smaller, None
        for candidate in program.smaller():
            found = candidate and not second_reader(candidate) and search(ScriptMachine(candidate), LIMIT)
            if found and difference(candidate, found):
                smaller = candidate
                break
    return program


def agrees(name, program, most=LIMIT, script=None):
    """Fails where p9explore differs from the search of a program, which may have been read from a script. Whether some schedule gets
    stuck, or comes where it must not."""
    found = search(ScriptMachine(program), most)
    why = difference(program, found, script)
    if why and script:
        fail(f"{name}: {why}")
    if why:
        small = reduced(program)
        script, why = small.script(), difference(small, search(ScriptMachine(small), 10 * LIMIT))
        fail(f"{name}: {why}, of this program:\n{script}p9explore says:\n{''.join(run(script)[1:])}")
    return found.verdict != "ends"


def is_fault(name, script, number):
    """Fails where the line with this number is not at fault; also with comments, which move it."""
    line_is_fault(name, script, number)
    with_comments, numbers = commented(script)
    if number <= len(numbers):
        line_is_fault(name, with_comments, numbers[number - 1])


def line_is_fault(name, script, number):
    said = run(script)
    if said[:2] != (STATUS["fault"], "") or not re.fullmatch(f"p9explore: script fault at line {number}: [^\n]+\n", said[2]):
        fail(f"{name}: line {number} is a fault, and p9explore says {said} of this script:\n{script}")
