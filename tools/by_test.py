"""Mistakes that no contract sees, so that a test, a scene, a size or a run refuses each: with it in the place of the code the test
fails, or what is played is answered otherwise. With the code itself each passes, as the gate has shown.

Nothing is proved, so what the crates keep of their proofs is not needed. To build costs far more than to run, so a test that is to
fail N times stands N times in what is built, and a scene N times in what p9lab plays. What a size is answered, and what a program
writes on what lies in its folder, is the same each time, and is played once.
"""
import glob
import os
import re
import shutil
import subprocess
import tempfile

from common import TOP, read, run, write
from planted import Unfit

FAILED, NOT_ENDED = 101, 6
TEST = r"^#\[test\]\nfn %s(\(.*?^}\n)"
PLAYER = "p9lab"
# The status of `rt try --cases` where a program ends, and writes something else than it is to write.
OTHERWISE = 5


def look(mistake):
    """Stops where the test of this mistake is not in its crate, its scene not in scenes/, its size not in tests/programs/sizes, or
    its program not in crates/."""
    if mistake.refuser == "scene":
        scenes_of(mistake)
    elif mistake.refuser == "size":
        with tempfile.TemporaryDirectory() as cases:
            write_case(mistake, cases)
    elif mistake.refuser == "run":
        stored_run(mistake, TOP)
    else:
        home_of(mistake, TOP)


def home_of(mistake, top):
    """The file that has its test, with its crate, and what stands after the test's name."""
    above = sorted(os.path.basename(it) for it in glob.glob(f"{top}/crates/tests_*"))
    for crate in (mistake.crate, *above):
        for name in sorted(glob.glob(f"{top}/crates/{crate}/src/**/*.rt", recursive=True)):
            found = re.search(TEST % mistake.words, read(name), re.M | re.S)
            if found:
                return name, crate, found[1]
    raise Unfit(f"{', '.join((mistake.crate, *above))} have no test {mistake.words}")


def scenes_of(mistake):
    """The text of its scenes: those with its name at their head."""
    text = "\n\n".join(read(name).strip() for name in sorted(glob.glob(f"{TOP}/scenes/*.scene")))
    found = [it for it in re.split(r"\n{2,}", text) if re.match(rf"# {mistake.words}\b", it)]
    if not found:
        raise Unfit(f"scenes/ has no scene {mistake.words}")
    return "\n\n".join(found)


def write_case(mistake, cases):
    """Writes what plays its size to a folder, and says in which crate that is to be played."""
    ran = run([f"{TOP}/tests/programs/sizes", "--cases", cases, *mistake.words.split()])
    if ran.returncode:
        raise Unfit(f"tests/programs/sizes has no {mistake.words}")
    return ran.stdout.strip()


def tried(folder, test):
    """The status of a test that stands there some times, whether it passed or failed each time that it ran, and what was said."""
    ran = subprocess.run(["rt", "try", "--test", "--", test], cwd=folder, stdin=subprocess.DEVNULL, text=True, errors="replace",
                         stdout=subprocess.PIPE, stderr=subprocess.STDOUT, check=False)
    return ran.returncode, re.findall(rf"^test (?:\w+::)*{test}(?:_time_\d+)? \.\.\. (\w+)", ran.stdout, re.M), ran.stdout


def fails(folder, test, times):
    """How often the test fails, and what was said where it doesn't. Where one does not end, which is to fail too, those after
    it don't run: it is begun again for them."""
    failed = 0
    while failed < times:
        status, told, said = tried(folder, test)
        failed += told.count("FAILED")
        if "ok" in told or not told or status not in (FAILED, NOT_ENDED):
            return failed, f"{test} {told or 'did not run'}: status {status}\n{said[-2000:]}"
        if status == FAILED and len(told) < times:
            return failed, f"{test} ran {len(told)} times\n{said[-2000:]}"
    return times, ""


def differs(folder, text, times):
    """How often the scenes are answered otherwise, and what was said where they are not."""
    played = "\n\n".join([text] * times) + "\n"
    # What never comes is awaited for fewer turns, so that all plays end within the minute that `rt try` gives a program.
    words = ["rt", "try", "--", "--turns", "100000"]
    ran = run(words, played, cwd=folder)
    asked = re.sub(r" = .*$", "", text.splitlines()[0], flags=re.M)
    if asked not in ran.stdout:
        return 0, f"it played nothing: status {ran.returncode}\n{ran.stdout[-2000:]}{ran.stderr[-2000:]}"
    same = ran.stdout.count(text)
    return times - same, f"{same} of {times} are answered as they are without it" if same else ""


def answers_otherwise(mistake, made, times):
    """Whether its size is answered otherwise or not at all, counted as so many times, and what was said where it is not."""
    with tempfile.TemporaryDirectory() as cases:
        folder = f"{made}/crates/{write_case(mistake, cases)}"
        ran = run(["rt", "try", "--cases", cases], cwd=folder)
    if ran.returncode in (OTHERWISE, NOT_ENDED):
        return times, ""
    return 0, f"status {ran.returncode}\n{ran.stdout[-2000:]}{ran.stderr[-2000:]}"


def stored_run(mistake, top):
    """The folder of its program, the words and the input that lie there, and what is to be written."""
    folder = f"{top}/crates/{mistake.words}"
    if not os.path.isfile(f"{folder}/stdout"):
        raise Unfit(f"crates/{mistake.words} has no file stdout")
    words, given, wanted = (read(f"{folder}/{it}") if os.path.isfile(f"{folder}/{it}") else "" for it in ("args", "stdin", "stdout"))
    return folder, words.splitlines(), given, wanted


def writes_otherwise(mistake, made, times):
    """Whether its program writes something else on what lies in its folder, counted as so many times, and what was said where it
    does not, or was not run."""
    folder, words, given, wanted = stored_run(mistake, made)
    ran = run(["rt", "try", "--", *words], given, cwd=folder)
    if ran.stdout != wanted and "run=ended" in ran.stderr:
        return times, ""
    return 0, f"status {ran.returncode}\n{ran.stdout[-2000:]}{ran.stderr[-2000:]}"


def fails_so(mistake, made, times):
    """How often its test fails, or what is played is answered otherwise, on this copy; and why that is not each time."""
    if mistake.refuser == "size":
        return answers_otherwise(mistake, made, times)
    if mistake.refuser == "run":
        return writes_otherwise(mistake, made, times)
    if mistake.refuser == "scene":
        return differs(f"{made}/crates/{PLAYER}", scenes_of(mistake), times)
    home, crate, rest = home_of(mistake, made)
    more = "".join(f"\n#[test]\nfn {mistake.words}_time_{time}{rest}" for time in range(2, times + 1))
    write(home, read(home) + more)
    return fails(f"{made}/crates/{crate}", mistake.words, times)


def is_refused(mistake, times):
    """Plants the mistake on a copy of the crates, and says whether it is refused each of so many times."""
    by = f"{mistake.refuser} {mistake.words}"
    with tempfile.TemporaryDirectory(prefix="plant-") as made:
        copy_into(made)
        try:
            for path, text in mistake.planted({}).items():
                write(f"{made}/crates/{mistake.crate}/{path}", text)
            failed, why = fails_so(mistake, made, times)
        except Unfit as unfit:
            failed, why = 0, str(unfit)
    print(f"{mistake.place}: NOT REFUSED: {by} fails {failed} of {times}: {why}" if why else f"{mistake.place}: refused by {by}, {times} of {times}",
          flush=True)
    return not why


def copy_into(made):
    """The sources of all crates."""
    for name in ("crates.txt", "HANDLES"):
        shutil.copy(f"{TOP}/{name}", made)
    for crate in glob.glob(f"{TOP}/crates/*/"):
        own = f"{made}/crates/{os.path.basename(os.path.dirname(crate))}"
        shutil.copytree(crate, own, ignore=shutil.ignore_patterns("out", "proofs", "mistakes", "must-fail"))
