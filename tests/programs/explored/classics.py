"""Programs that books have, and how many states they have at the grain of calls."""


def philosophers(count):
    """Each takes two forks, all in one order, and gives both back."""
    lines = [f"world {count} 1", *count * [f"sema 1 {count}"]]
    for pid in range(count):
        first, second = sorted((pid, (pid + 1) % count))
        lines += [f"process {pid}", f"acquire {first}", f"acquire {second}", f"release {second} 1", f"release {first} 1"]
    return lines


def readers_and_writers(readers, writers):
    """A reader takes one unit of two, and a writer both, one writer at a time."""
    procs = readers + writers
    lines = [f"world {procs} 1", f"sema room 2 {procs}", f"sema gate 1 {procs}"]
    for pid in range(readers):
        lines += [f"process reader{pid}", "acquire room", "release room 1"]
    for pid in range(writers):
        lines += [f"process writer{pid}", "acquire gate", "acquire room", "acquire room", "release gate 1", "release room 2"]
    return lines


def barber(customers):
    """A customer who finds no chair goes. A note ends the barber's last wait when all have gone."""
    procs = customers + 2
    lines = [f"world {procs} 1", f"sema waiting 0 {procs}", f"sema ready 0 {procs}", f"sema chairs 1 {procs}", f"sema gone 0 {procs}",
             "process barber", *customers * ["acquire waiting", "on interrupted closed", "release ready 1"], "closed:"]
    for pid in range(customers):
        lines += [f"process customer{pid}", "try chairs", "on not_now full", "release waiting 1", "acquire ready", "release chairs 1",
                  "full:", "release gone 1"]
    return [*lines, "process closer", *customers * ["acquire gone"], "note barber interrupt"]


def barrier(count):
    """All meet twice, each time at a door of its own, which a keeper opens."""
    procs = count + 1
    lines = [f"world {procs} 1", f"sema here 0 {procs}", f"sema first 0 {procs}", f"sema second 0 {procs}"]
    for pid in range(count):
        lines += [f"process p{pid}", "release here 1", "acquire first", "release here 1", "acquire second"]
    lines += ["process keeper"]
    for door in "first", "second":
        lines += [*count * ["acquire here"], f"release {door} {count}"]
    return lines


def smokers():
    """One of three agents puts two things on the table, for the smoker who has the third. A note ends the waits of the others."""
    names = ["tobacco", "paper", "match"]
    lines = ["world 7 1", "sema turn 1 7", "sema done 0 7", *(f"sema {name} 0 7" for name in names)]
    for name in names:
        lines += [f"process agent-{name}", "try turn", "on not_now over", f"release {name} 1", "over:"]
    for name in names:
        lines += [f"process {name}-smoker", f"acquire {name}", "on interrupted over", "release done 1", "over:"]
    return [*lines, "process closer", "acquire done", *(f"note {name}-smoker interrupt" for name in names)]


def two_locks():
    """Two take two locks in two orders, the second of them within a deadline, and try once more."""
    lines = ["world 3 1", "sema left 1 3", "sema right 1 3", "sema never 0 3", "clock"]
    for name, first, second in ("alice", "left", "right"), ("bob", "right", "left"):
        lines += [f"process {name}", f"acquire {first}", f"acquire_within 0 10 {second}", "on timed_out again", f"release {second} 1",
                  f"release {first} 1", "try never", "on not_now done", "again:", f"release {first} 1", f"acquire {first}",
                  f"acquire_within 10 10 {second}", "on timed_out late", f"release {second} 1", "late:", f"release {first} 1", "done:"]
    return [*lines, "process ticker", "ticks 100"]


def cancellation(requests):
    """A client waits for each reply within a deadline, and hangs up when the first is late."""
    return ["world 3 1", "pipe requests 1", "pipe replies 1", "clock", "process client",
            *requests * ["write requests 61", "read_within 0 10 replies 8", "on timed_out late"], "late:", "hangup requests",
            "hangup replies", "process server", *requests * ["read requests 1", "on end over", "write replies 62", "on hungup over"], "over:",
            "process ticker", "ticks 100"]


def turns(rounds):
    """Two take turns. A wakeup that comes late ends the next sleep, so each sleeps twice."""
    lines = ["world 2 2"]
    for pid in range(2):
        lines.append(f"process {pid}")
        for level in range(rounds):
            lines += ([] if pid == level == 0 else 2 * [f"sleep {pid} {level - (pid == 0)}"]) + [f"wakeup {1 - pid} {level + 1}"]
    return lines


def pipeline(stages, writes):
    """The first writes, each of the others reads and writes on, and the last only reads. Each hangs up when it has done so."""
    lines = [f"world {stages} 1", *(f"pipe p{number} 1" for number in range(stages - 1))]
    for stage in range(stages):
        reads, sends = [f"read p{stage - 1} 1"] * (stage > 0), [f"write p{stage} 61"] * (stage < stages - 1)
        lines += [f"process stage{stage}", *writes * [*reads, *sends], *[f"hangup p{stage}"] * (stage < stages - 1)]
    return lines


def producers(count):
    """Each writes twice, one more hangs up when all have done so, and a consumer reads until the end."""
    procs = count + 2
    lines = [f"world {procs} 1", "pipe jobs 2", f"sema done 0 {procs}"]
    for pid in range(count):
        lines += [f"process producer{pid}", "write jobs 61", "write jobs 61", "release done 1"]
    return [*lines, "process closer", *count * ["acquire done"], "hangup jobs", "process consumer",
            *(2 * count + 1) * ["read jobs 8", "on end over"], "over:"]


STATES = [(philosophers(4), 602), (readers_and_writers(2, 2), 360), (barber(2), 281), (barber(3), 1987), (barrier(2), 80),
          (barrier(4), 2476), (smokers(), 752), (two_locks(), 540), (cancellation(2), 126), (turns(2), 254), (pipeline(5, 2), 1456)]
