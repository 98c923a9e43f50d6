"""What each function's proof came to, by the file in which the prover keeps its longest step: it is nearly all of the time."""
import os

STEP = ".Lts.oantt"
FIRST, PROOFS = "Rattle-", "-proofs."


def steps_in(folder):
    """The bytes of each function's step in a folder of checked proofs: {(crate, function): bytes}."""
    found = {}
    with os.scandir(folder) as files:
        for file in files:
            crate, at, function = file.name.removeprefix(FIRST).partition(PROOFS)
            if at and function.endswith(STEP):
                found[crate, function.removesuffix(STEP).replace(".", "::")] = file.stat().st_size
    return found


def in_order(found):
    """The functions, the dearest first."""
    return sorted(found, key=lambda it: -found[it])


def line_of(function, found):
    crate, name = function
    return f"{found[function] / 1e6:8.1f} MB  {crate}  {name}"
