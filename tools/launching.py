"""What the launcher needs to build a program. It is imported where one has to be built."""
import contextlib
import errno
import fcntl
import os
import signal
import subprocess
import sys
import tempfile
import time

from __main__ import NAME, PROGRAMS, TOP, Program, cant, fail, on_path, say, text_of

# A first build by the clock, on four processors: of p9sync as docs/TIMES.md has it, of the others estimates.
TAKES = {"p9sync": "8 to 20 minutes", "p9explore": "20 to 30 minutes", "p9lab": "30 to 50 minutes"}

# What is said of a copy that is not proved, beside that.
UNPROVED = {"p9explore": ", and it is some hundred times slower: a script of more than 20,000 states wants what ./p9explore builds"}


class Stopped(Exception):
    """A signal that ends the launch."""


def make(program, file, why, is_try):
    """Builds the program, or compiles it unproved, and answers what is to be run. Only a signal ends it otherwise than by a line."""
    if not on_path("rt"):
        fail(f"the program {why}, and rt, which builds it, is not on the path")
    if os.statvfs(TOP).f_flag & os.ST_NOEXEC:
        fail(f"the program {why}, and nothing may be run in {TOP}: its file system is mounted noexec")
    hold_streams()
    try:
        return compile_unproved(program, file) if is_try else build(program, file, why)
    except Stopped as found:
        say(f"{NAME}: the build was stopped")
        signal.signal(found.args[0], signal.SIG_DFL)
        os.kill(os.getpid(), found.args[0])


def hold_streams():
    """Has no file of ours take the number of a standard stream that is closed. The program finds it closed all the same."""
    with contextlib.suppress(OSError):
        while True:
            number = os.open(os.devnull, os.O_RDWR)
            if number > 2:
                os.close(number)
                break


def build(program, file, why):
    """Proves and builds the program, unless another launch does meanwhile."""
    lock, has_waited = take_lock(f"{TOP}/out/lock")
    if has_waited:
        program = Program(NAME)
        why = program.why_not(file)
    if why:
        path = f"{TOP}/{program.out}/build.log"
        log = begin_log(path)
        takes = TAKES.get(NAME, "10 to 40 minutes")
        say(f"{NAME}: the program {why}: building it, which takes {takes} on four processors, 7 GB of memory and 3.7 GB of disk the first time")
        status = run_builder([NAME, str(lanes())], log, lock, Progress(path, len(program.lines)).show)
        if status:
            fail(f"the program was not built{is_full(path)}; what the prover said is in {path}")
        note(program, file)
        say(f"{NAME}: built; what the prover said is in {path}")
    os.close(lock)
    return f"{TOP}/{file}"


def note(program, file):
    """Notes of what the file was built, and says where it can't be told."""
    try:
        if not program.note(file, program):
            say(f"{NAME}: a source was edited during the build: the next launch builds again")
    except OSError as error:
        cant("noted", f"{TOP}/{file}", error)


def compile_unproved(program, file):
    """Compiles the program as `rt try` does, and keeps it until a source changes."""
    out = f"{TOP}/{program.out}"
    with contextlib.suppress(OSError):
        os.makedirs(out, exist_ok=True)
    if not os.path.isdir(out) or not os.access(out, os.W_OK):
        return compile_aside(out)
    lock, has_waited = take_lock(f"{out}/try.lock")
    if has_waited:
        program = Program(NAME)
    if program.why_not(file):
        compile_to(f"{TOP}/{file}", f"{out}/try.log", lock)
        note(program, file)
        say(f"{NAME}: compiled, and kept as {TOP}/{file}: nothing of it is proved{UNPROVED.get(NAME, '')}")
    os.close(lock)
    return f"{TOP}/{file}"


def compile_aside(out):
    """Compiles it in a folder that is gone again once it runs, and answers its descriptor."""
    say(f"{NAME}: {out} can't be written, so what is compiled is not kept")
    with tempfile.TemporaryDirectory(prefix=f"{NAME}-") as folder:
        lock, _ = take_lock(f"{folder}/lock")
        compile_to(f"{folder}/{NAME}", f"{folder}/log", lock)
        say(f"{NAME}: compiled: nothing of it is proved")
        os.close(lock)
        return os.open(f"{folder}/{NAME}", os.O_RDONLY)


def compile_to(path, log, lock):
    say(f"{NAME}: compiling it, which takes half a minute to two minutes the first time")
    status = run_builder([NAME, "try", path], begin_log(log), lock, lambda _: None)
    for it in text_of(log).splitlines():
        # what else it says is of the run by which it was tried
        if status or it.startswith("rt: "):
            say(it)
    if status:
        fail(f"the program was not compiled{is_full(log)}")


def take_lock(path):
    """The lock of whoever builds, and whether another launch had it. What a killed build leaves behind holds it too."""
    try:
        os.makedirs(os.path.dirname(path), exist_ok=True)
        lock = os.open(path, os.O_RDWR | os.O_CREAT, 0o644)
    except OSError as error:
        cant("written", path, error)
    try:
        fcntl.flock(lock, fcntl.LOCK_EX | fcntl.LOCK_NB)
        return lock, False
    except BlockingIOError:
        say(f"{NAME}: another launch builds; this one waits for it")
        fcntl.flock(lock, fcntl.LOCK_EX)
        return lock, True


def begin_log(path):
    """The log of a build, on a disk that has some room."""
    try:
        os.makedirs(os.path.dirname(path), exist_ok=True)
        with open(path, "wb") as log:
            log.write(b"\n" * 65536)
        return open(path, "wb")
    except OSError as error:
        cant("written", path, error)


def is_full(log):
    """Says that a disk is full, if one is or was."""
    full = [it for it in (TOP, os.path.dirname(log)) if os.statvfs(it).f_bavail * os.statvfs(it).f_frsize < 1 << 16]
    if full or os.strerror(errno.ENOSPC) in text_of(log):
        return f": the disk of {(full or [TOP])[0]} is full, and a first build takes 3.7 GB"
    return ""


def lanes():
    """How many crates are proved side by side: as many as there are processors, up to four, and two where memory is short."""
    free = [int(it.split()[1]) for it in text_of("/proc/meminfo").splitlines() if it.startswith("MemAvailable:")]
    return min(len(os.sched_getaffinity(0)), 4 if free and free[0] >= 8 << 20 else 2)


def run_builder(words, log, lock, show):
    """Runs tools/build and answers its status. It holds the lock, and ends when this launch does: by a signal, or since nobody
    holds the other end of a pipe any more."""
    signals = [it for it in (signal.SIGHUP, signal.SIGINT, signal.SIGTERM, signal.SIGQUIT) if signal.getsignal(it) != signal.SIG_IGN]

    def stop(number, _):
        for it in signals:
            signal.signal(it, signal.SIG_IGN)
        raise Stopped(number)

    builder, (ends, held) = None, os.pipe()
    try:
        for it in signals:
            signal.signal(it, stop)
        builder = subprocess.Popen([sys.executable, f"{TOP}/tools/build", *words, str(lock), str(ends)], stdin=subprocess.DEVNULL,
                                   stdout=log, stderr=log, start_new_session=True, pass_fds=(lock, ends))
        os.close(ends)
        pause = 0.02
        while builder.poll() is None:
            time.sleep(pause)
            pause = min(1, 1.2 * pause)
            show(False)
        show(True)
    finally:
        # also what is left of a build that was killed itself
        os.close(held)
        if builder:
            end(builder)
    for it in signals:
        signal.signal(it, signal.SIG_DFL)
    return builder.returncode


def end(builder):
    """Ends the build and all that it started, and waits until it has ended."""
    for number, seconds in ((signal.SIGTERM, 15), (signal.SIGKILL, 5)):
        with contextlib.suppress(OSError, subprocess.TimeoutExpired):
            os.killpg(builder.pid, number)
            builder.wait(seconds)


class Progress:
    """How far a build is, by its log: in place on a terminal, and else a line for each crate."""

    def __init__(self, log, crates):
        self.log, self.crates, self.shown, self.left, self.begun = log, crates, 0, "", time.monotonic()
        rows = [it.split() for it in text_of(f"{TOP}/tools/progress").splitlines() if NAME == PROGRAMS[0] and not it.startswith("#")]
        self.shares = {row[0]: int(row[1]) for row in rows if len(row) == 2}

    def left_after(self, crate, lines):
        """How long the rest will take: of a first build of p9sync, if it goes on as it did until this crate was proved; of another, as
        tools/build said last. Nothing where neither says it."""
        if self.shares:
            share = self.shares.get(crate)
            minutes = int((time.monotonic() - self.begun) * (100 - share) / share / 60) + 1 if share else 0
            return f", about {minutes} minutes left" if minutes > 1 else ", about a minute left" if minutes else ""
        said = [it.rpartition(", about ")[2] for it in lines if it.startswith("-- ") and ", about " in it]
        return f", about {said[-1]}" if said and self.shown < self.crates else ""

    def show(self, is_last):
        lines = text_of(self.log).splitlines()
        ended = [it[3:-8] for it in lines if it.startswith("== ") and it.endswith(": proved")]
        for crate in ended[self.shown:]:
            self.shown += 1
            found = self.left_after(crate, lines)
            self.left = found or self.left
            if not os.isatty(2):
                say(f"{crate} proved, {self.shown} of {self.crates} crates{found}")
        if os.isatty(2):
            minutes = int((time.monotonic() - self.begun) / 60)
            text = f"\r{NAME}: {self.shown} of {self.crates} crates proved, after {minutes} minutes{self.left}\033[K"
            with contextlib.suppress(OSError):
                # a terminal that is gone
                os.write(2, os.fsencode(text + "\n" * is_last))
