"""What rdbg says of schedules: it plays each one, and finds the bad state in any order of its events."""
import re
from typing import NamedTuple

from find.errors import WrongUse
from find.session import SEAT

CALLS, BYTES = 90_000, 1_000_000  # of one run, which may have 100,000 calls and 1,048,576 bytes
HALT = re.compile(r" halted (\w+)$")
EVENTS = 20_000  # of one process, at most


class Verdict(NamedTuple):
    """Which breakpoint halts a schedule, and after how many of its steps; or nothing."""
    halted: str
    steps: int


class Judge:
    """Plays schedules after the own lines of a session, many in one run."""

    def __init__(self, rdbg, session):
        self.rdbg, self.session = rdbg, session
        self.names = [process.name for process in session.model.processes]
        self.beginning = session.all_calls()
        self.used = sum(len(call) + 1 for call in self.beginning) + len(session.program) + 3

    def step_call(self, step):
        """A step as a line of a run."""
        return f"{SEAT} step {self.names[step.process]} {step.command}"

    def calls(self, steps):
        """The lines that play a schedule, and go back to where it began."""
        moved = sorted({step.process for step in steps})
        back = [f"{SEAT} rollback {self.names[process]} {len(self.session.model.own[process])}" for process in moved]
        return [*map(self.step_call, steps), *back]

    def runs(self, schedules):
        """The schedules in groups, each for one run of rdbg. A group has pairs of a schedule and its lines."""
        group, calls, size = [], len(self.beginning), self.used
        for steps in schedules:
            lines = self.calls(steps)
            more = sum(len(line) + 1 for line in lines)
            if group and (calls + len(lines) > CALLS or size + more > BYTES):
                yield group
                group, calls, size = [], len(self.beginning), self.used
            group.append((steps, lines))
            calls, size = calls + len(lines), size + more
        if group:
            yield group

    def verdicts(self, schedules):
        """The verdict on each schedule."""
        found = []
        for group in self.runs(schedules):
            lines = [line for _, played in group for line in played]
            replies = iter(self.rdbg.replies(self.session.program, [*self.beginning, *lines])[len(self.beginning):])
            for steps, played in group:
                found.append(verdict(steps, [next(replies) for _ in played]))
        return found

    def cut(self, steps, name):
        """The number of events of each process in the cut of a breakpoint, after these steps."""
        lines = [*self.beginning, *map(self.step_call, steps), f"{SEAT} cut {name}"]
        reply = self.rdbg.replies(self.session.program, lines)[-1]
        counts = re.findall(r"(\w+)=(\d+)", reply)
        return tuple(int(count) for _, count in counts)

    def is_stuck(self, steps):
        """Whether no process can make an event after these steps."""
        lines = [*self.beginning, *map(self.step_call, steps), *(f"{SEAT} next {name}" for name in self.names)]
        replies = self.rdbg.replies(self.session.program, lines)[len(self.beginning):]
        return all(reply.startswith("ok") for reply in replies[:len(steps)]) and replies[len(steps):] == ["no 24"] * len(self.names)


def verdict(steps, replies):
    """The verdict on a schedule, of the replies to its lines."""
    for at, (step, reply) in enumerate(zip(steps, replies)):
        halt = HALT.search(reply)
        if halt:
            return Verdict(halt[1], at + 1)
        if not reply.startswith("ok"):
            raise WrongUse(f"rdbg refuses step {at + 1} of a schedule, {step}, with `{reply}`: the search and rdbg do not agree")
    return Verdict("", 0)
