"""The goals at which the prover refuses a mistake, and of what kind they are."""
import re

CLAUSE = "a clause of the edited function, what it ensures"
ANSWERED_CLAUSE = "a clause whose answer, written by hand, is no proof of it any more"
ANSWER = "another goal whose answer is no proof of it any more"
LAW = "a lemma, an example or a law, where a definition is edited"
CALLED = "what a function requires that the edited one calls"
LOOP = "the invariant of a loop, which carries a clause"
TYPE = "the invariant of a type"
OTHER = "that a number is in its range, or a place is not reached, and nothing else"
# Of those that refuse a function the first of these counts.
STRONGEST = [CLAUSE, LOOP, TYPE, CALLED, ANSWERED_CLAUSE, ANSWER, OTHER]
# Refused, and the prover names no goal.
NONE = ("no goal that is named", "-")
# What the prover says of a proof file that it can't read. Then it tries no answer of it, and what else it refuses shows nothing.
UNREAD = ": error: expected "
# Refusals at no goal of a contract.
EMPTY = [("does not cover", "the borrow checker does not cover the edited function"),
         (UNREAD, "a proof file can't be read"),
         ("no proof: expected proof", "a proof file has another form than the edited function wants"),
         ("is not in scope", "it names what is not there"), ("has no field", "it names what is not there"),
         ("that can be named from here", "an answer is to a goal that is not there"), ("(nearest: ", "an answer names what is not there"),
         ("could not tell", "a limit of the prover came first"), ("ran out of", "a limit of the prover came first"),
         ("limit (", "a limit of the prover came first")]
# By the first letters of a goal, and where none fits, by what stands in it.
KINDS = [(r"returns", CLAUSE), (r"invariant_of", TYPE), (r".*-requires", CALLED), (r".*-(preserved|init|kept|smaller)\b", LOOP), (r"", OTHER)]
NOTE = re.compile(r"note: \S+:\d+:\d+: (?:it is not proved that .*?|`search` found no proof) \(`([^`]+)`\)")
ANSWERED = re.compile(r"\S*proofs/\S+/Answers\.antt:\d+:\d+: error: `([^`]+)`")
# What a mended answer leaves to the prover, and it finds no proof of.
SEARCHED = "`search`: no proof of "
LEMMA = re.compile(r".*: error: `([^`]+)`")
OF_A_PLACE = re.compile(r"(?:note: )?\S+:\d+:\d+: ")
# What a line begins with that says whether something is proved.
SAID = re.compile(r"(fn|struct|enum|trait|impl|checked) ")


def lines_of(said, line):
    """What the prover says of a function: the lines right before that one of it, and those of its answers."""
    lines = said.splitlines()
    at = lines.index(line)
    first = next((i + 1 for i in range(at - 1, -1, -1) if SAID.match(lines[i])), 0)
    answers = f"proofs/{re.match(r'fn [a-z_0-9]+::(.*?): ', line)[1].replace('::', '/')}/Answers.antt:"
    told = [it for it in lines[first:at] if OF_A_PLACE.match(it) and "/Answers.antt:" not in it]
    return told + [it for it in lines if answers in it and ": error: " in it] or [line]


def why_nothing(told):
    """Why these lines refuse a mistake at no goal of a contract, if they do."""
    return next((why for it in told for words, why in EMPTY if words in it), None)


def goal_of(told):
    """The kind of the goal at which these lines refuse a function, and its name: a clause before all others."""
    if any(UNREAD in it for it in told):
        return None
    by_hand = [it for it in map(ANSWERED.match, told) if it and not why_nothing([it.string])]
    searched = [*filter(None, map(NOTE.match, told)), *(it for it in by_hand if SEARCHED in it.string)]
    found = [(next(kind for words, kind in KINDS if re.match(words, it[1])), it[1]) for it in searched]
    found += [(ANSWERED_CLAUSE if it[1].startswith("returns") else ANSWER, it[1]) for it in by_hand if it not in searched]
    return min(found, key=lambda it: STRONGEST.index(it[0]), default=None)


def law_of(told):
    """What this line refuses where no function is edited: a law, an example or a lemma."""
    found = NOTE.match(told) or LEMMA.match(told)
    return LAW, found[1] if found else NONE[1]
