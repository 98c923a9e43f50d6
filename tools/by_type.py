"""Mistakes that a type refuses: the crate does not compile with one, before any proof, and the compiler says the words of its file."""
import tempfile

from by_prover import Room
from planted import Unfit

# The name of no function: the crate is compiled, and nothing is proved.
NO_FUNCTION = [""]


def try_crate(crate, mistakes):
    """Compiles a copy of the crate as it stands and with each of these mistakes, tells each, and returns how many are refused."""
    with tempfile.TemporaryDirectory(prefix="mistake-") as folder:
        room = Room(crate, folder, False)
        status, said = room.check({}, NO_FUNCTION)
        if status:
            print(f"{crate} does not compile as it stands:\n{said}", flush=True)
            return 0
        return sum(is_refused(room, it) for it in mistakes)


def is_refused(room, mistake):
    try:
        status, said = room.check(mistake.planted({}), NO_FUNCTION)
    except Unfit as why:
        print(f"{mistake.place}: CAN'T BE TRIED: {why}", flush=True)
        return False
    if status == 0:
        print(f"{mistake.place}: NOT REFUSED: it compiles", flush=True)
    elif mistake.words not in said:
        print(f"{mistake.place}: NOT REFUSED for `{mistake.words}`:\n{said}", flush=True)
    else:
        print(f"{mistake.place}: refused by a type: {mistake.words}", flush=True)
    return status != 0 and mistake.words in said
