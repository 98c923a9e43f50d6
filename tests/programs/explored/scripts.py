"""The machine of calls as p9explore has it: a place that must not be reached is a step, after which nobody goes on; and where each process
could stay for ever, though some are about to begin a round of their loops, one step more ends the program."""
from explored.calls import CallMachine
from explored.machine import ENDED, IDLE

REACHED = "reached"


class ScriptMachine(CallMachine):
    """The program ends by a step of the last process, in one state, whatever was so before."""

    def __init__(self, program):
        super().__init__(program)
        self.makes["never"] = self.reach
        self.makes[REACHED] = lambda state, pid: None
        self.last = len(self.calls) - 1
        self.end_of_all = ("end",), (), (0,) * len(self.calls), tuple((len(row), ENDED, IDLE) for row in self.calls), ()

    def reach(self, state, pid):
        over, (_, word), _ = state[3][pid]
        return self.at(state, pid, (over, (REACHED, word), IDLE)), (REACHED, pid, word), None

    def reached(self, state):
        return {walk[1] for _, walk, _ in state[3] if walk[0] == REACHED} if self.has_never else set()

    def moves(self, state, pid):
        if self.reached(state):
            return ()
        ends = pid == self.last and self.may_begin(state) and self.all_over(state)
        return (*self.steps_of(state, pid), *[(self.end_of_all, ("end",), None)] * ends)

    def steps_of(self, state, pid):
        return super().moves(state, pid)

    def all_over(self, state):
        return all(place[1] is ENDED or (pid, place[0]) in self.endless and (self.is_next(pid, place) or not self.steps_of(state, pid))
                   for pid, place in enumerate(state[3]))

    def may_begin(self, state):
        """Whether a process is at the head of its loop, and has not made the call there."""
        return any((pid, place[0]) in self.endless and self.is_next(pid, place) for pid, place in enumerate(state[3]))
