"""Mistakes: files NAME.edit, each with a wrong edit of a crate, who refuses it, and whether each gate tries it. This reads them all.

A file is lines, each text on one of its own:

  file: PATH                 the file of the crate that it edits, below src/ or specs/
  old: TEXT                  stands in that file once
  new: TEXT                  stands in its place then; there may be several such pairs
  and: TEXT                  the next line of the text above it
  file: PATH                 below proofs/, with pairs of its own: mends an answer that names what the wrong body no longer has, so
                             that the prover refuses the mistake where its clause is false, not for a name
  refused by: type WORDS     the compiler refuses it, with these words, before any proof
  refused by: test NAME      this test fails, of the crate or of one of tests_*
  refused by: scene NAME     this scene of scenes/ is answered otherwise
  refused by: size PART N    this size of tests/programs/sizes is answered otherwise
  refused by: run NAME       this program writes something else than its file stdout, on its files args and stdin
  gate: always               each gate tries it

Without `refused by:` the prover refuses it. It stands in the crate's mistakes/, or in must-fail/, whose mistakes `rt ci` tries with
the prover, whole crates at a time. A line that begins with # is a note.
"""
import functools
import glob
import os
import re

from common import TOP, read
from copies import crates_below

PROVER, TYPE, TESTS = "prover", "type", ("test", "scene", "size", "run")
# What stands before the name of a function, the head of an `impl`, and where a type is declared.
FUNCTION = re.compile(r"\s*(?:pub(?:\([^)]*\))? )?(?:const )?(?:unsafe )?fn (\w+)")
IMPL = re.compile(r"impl(?:<.*?>)? (?:(?:\w+::)*(\w+)(?:<.*>)? for )?(\w+)")
TYPE_HEAD = r"^(?:pub(?:\([^)]*\))? )?(?:struct|enum|union) {}\b"


class Unfit(Exception):
    """Why a mistake can't be planted."""


class Mistake:
    """A mistake of a crate, as its file has it."""

    def __init__(self, crate, file):
        self.crate, self.file, self.place = crate, file, os.path.relpath(file, TOP)
        self.name = os.path.basename(file).removesuffix(".edit")
        self.in_must_fail = os.path.basename(os.path.dirname(file)) == "must-fail"
        self.paths, self.pairs, self.refuser, self.words, self.is_always, self.odd = [], [], PROVER, "", False, None
        self.old = None
        for line in read(file).splitlines():
            if line.strip() and not line.startswith("#"):
                self.take(line)

    def take(self, line):
        """Takes a line of the file."""
        word, colon, rest = line.partition(":")
        rest = rest.removeprefix(" ")
        if word == "file":
            self.paths.append(rest)
        elif word == "old":
            self.old = rest
        elif word == "new":
            self.pairs.append((self.paths[-1] if self.paths else None, self.old, rest))
            self.old = None
        elif word == "and" and self.old is not None:
            self.old += f"\n{rest}"
        elif word == "and" and self.pairs:
            self.pairs[-1] = (*self.pairs[-1][:2], f"{self.pairs[-1][2]}\n{rest}")
        elif word == "refused by" and rest.split(" ", 1)[0] in (PROVER, TYPE, *TESTS):
            self.refuser, _, self.words = rest.partition(" ")
        elif line == "gate: always":
            self.is_always = True
        else:
            self.odd = line

    def planted(self, texts):
        """These texts of files, by their paths, with the mistake in them."""
        if self.odd:
            raise Unfit(f"a line of no mistake: {self.odd}")
        if not self.pairs or self.old is not None or not all(path and old for path, old, _ in self.pairs):
            raise Unfit("no file, or no pair of old and new")
        if (self.refuser == PROVER) == bool(self.words):
            raise Unfit("`refused by: prover` stands alone, and the other refusers are named")
        for path, old, new in self.pairs:
            text = texts.get(path) or text_of(self.crate, path)
            if text.count(old) != 1:
                raise Unfit(f"{path} holds this {text.count(old)} times, not once: {old}")
            texts = {**texts, path: text.replace(old, new)}
        return texts

    @property
    def path(self):
        """The file that it edits first."""
        return self.paths[0] if self.paths else ""

    @functools.cached_property
    def functions(self):
        """The functions whose bodies it edits, by their paths below the crate; none where it edits something else too."""
        edits = [(path, old) for path, old, _ in self.pairs if not path.startswith("proofs/")]
        if not all(path.startswith("src/") for path, _ in edits):
            return frozenset()
        # A changed head of an `impl` is for the body that the mistake edits below it.
        found = [function_at(self.crate, path, text_of(self.crate, path), old) for path, old in edits if not old.startswith("impl")]
        return frozenset(found) if found and all(found) else frozenset()


def mistakes_of(crate):
    """All mistakes of a crate."""
    files = [it for folder in ("mistakes", "must-fail") for it in sorted(glob.glob(f"{TOP}/crates/{crate}/{folder}/*.edit"))]
    return [Mistake(crate, it) for it in files]


def every_mistake():
    """The mistakes of all crates, base first."""
    return [it for crate in crates_below() for it in mistakes_of(crate)]


@functools.lru_cache(maxsize=None)
def text_of(crate, path):
    return read(f"crates/{crate}/{path}")


def function_at(crate, path, text, old):
    """The function whose body holds this part of a file, if one does."""
    place = text.find(old)
    above, line = text[:place].splitlines(), text[text.rfind("\n", 0, place) + 1 :].split("\n", 1)[0]
    at = next((i for i in range(len(above) - 1, -1, -1) if FUNCTION.match(above[i])), None)
    # After its end, a brace that stands as deep as its head, it is over. Its head is no part of its body.
    if at is None or any(depth_of(it) <= depth_of(above[at]) and it.strip() for it in [*above[at + 1 :], line] if not heads(it)):
        return None
    name = FUNCTION.match(above[at])[1]
    if depth_of(above[at]) == 0:
        return "::".join([*module_of(path), name])
    head = next((IMPL.match(it) for it in reversed(above[:at]) if it.startswith("impl")), None)
    # the prover names methods of a type's own by the module of the type, and those of a trait by that of the `impl`
    declared = head and (path if head[1] else declared_in(crate, head[2]))
    return "::".join([*module_of(declared), f"{head[2]}{head[1] or ''}", name]) if declared else None


def heads(line):
    """Whether a line that stands no deeper than a function's head belongs to it: the end of its parameters or of its generic ones, or
    its body's first brace.
    """
    return line.lstrip().startswith((")", ">", "{", "where"))


def depth_of(line):
    return len(line) - len(line.lstrip())


def module_of(path):
    module = path.removeprefix("src/").removesuffix(".rt").split("/")
    return [] if module in (["lib"], ["main"]) else module


@functools.lru_cache(maxsize=None)
def declared_in(crate, name):
    """The file of the crate that declares this type."""
    folder = f"{TOP}/crates/{crate}/"
    for file in sorted(glob.glob(f"{folder}src/**/*.rt", recursive=True)):
        path = file.removeprefix(folder)
        if re.search(TYPE_HEAD.format(name), text_of(crate, path), re.MULTILINE):
            return path
    return None


def batch_of(mistakes):
    """Of these the first that can be planted at once, each in functions of its own; the texts with all of them; and the others."""
    now, later, texts, edited = [], [], {}, frozenset()
    for it in mistakes:
        try:
            texts, fits = (it.planted(texts), True) if it.functions and not it.functions & edited else (texts, False)
        except Unfit:
            fits = False
        now, later = ([*now, it], later) if fits else (now, [*later, it])
        edited |= it.functions if fits else frozenset()
    return now, texts, later
