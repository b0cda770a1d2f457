"""A model of what rdbg's processes have done, for tests. It keeps for each event all that is known of it.

It follows docs/language.md and docs/commands.md, and finds cuts and rollbacks from the clocks of the events. It shares no text with rdbg.
"""
from typing import NamedTuple

from harness.language import LocalState, evaluate, faults, holds


class Refused(Exception):
    """A command is refused, with this number and what follows it."""

    def __init__(self, *words):
        super().__init__(" ".join(map(str, words)))


class Event(NamedTuple):
    """An event: its command, its message with its number in the channel, the variables that it set, the state after it, and its clock."""
    command: int
    action: str  # "send", "recv" or nothing
    partner: str
    message: int
    count: int
    settings: dict  # for each variable that it set the values before and after
    after: LocalState
    clock: dict


class Hindrance(NamedTuple):
    """What prevents a command from firing: the refusal, the expression that is false or faults, the state in which it is evaluated, the
    message that the command would receive, and the process from which there is none."""
    refusal: int
    expression: object = None
    state: LocalState = None
    message: int = None
    source: str = ""


class World:
    """The events of the processes, and the commands that they can make again. It is not changed: what changes it returns another one."""

    def __init__(self, program, events, redo):
        self.program = program
        self.events = events  # for each process a tuple
        self.redo = redo  # for each process the commands after its place, the next one first
        self.frontiers = {}  # those that were found, by predicate

    @staticmethod
    def start(program):
        """The processes of a program before their first events."""
        return World(program, {p: () for p in program}, {p: () for p in program})

    def place(self, process):
        """How many events a process has."""
        return len(self.events[process])

    def length(self, process):
        """How long the line of a process is."""
        return self.place(process) + len(self.redo[process])

    def places(self):
        """How many events each process has."""
        return {p: self.place(p) for p in self.program}

    def state(self, process, count=None):
        """The local state of a process after so many events, or after all."""
        events = self.events[process] if count is None else self.events[process][:count]
        none = {p: 0 for p in self.program}
        return events[-1].after if events else LocalState(self.program[process].variables, none, none)

    def clock(self, process, count):
        """How many events of each process come before the state of a process after so many of its events."""
        return self.events[process][count - 1].clock if count else {p: 0 for p in self.program}

    def sends(self, source, target):
        """The messages from one process to another that were sent, each with the number of the event that sent it."""
        events = enumerate(self.events[source], 1)
        return [(event.message, n) for n, event in events if event.action == "send" and event.partner == target]

    def receipts(self, target, source):
        """The numbers of the events by which one process received messages from another."""
        events = enumerate(self.events[target], 1)
        return [n for n, event in events if event.action == "recv" and event.partner == source]

    def channel(self, source, target):
        """The messages on their way, each with the number of the event that sent it."""
        return self.sends(source, target)[len(self.receipts(target, source)):]

    def expressions(self, command):
        """The expressions of a command that are evaluated after its guard, in order."""
        sent = [command.action[2]] if command.action and command.action[0] == "send" else []
        return sent + [value for _, value in command.assignments]

    def hindrance(self, process, number):
        """What prevents a command from firing, or None."""
        state, command = self.state(process), self.program[process].commands[number]
        message = None
        if not holds(command.guard, state):
            return Hindrance(4 if faults(command.guard, state) else 3, command.guard, state)
        if command.action and command.action[0] == "recv":
            _, source, variable = command.action
            if not self.channel(source, process):
                return Hindrance(5, source=source)
            message = self.channel(source, process)[0][0]
            state = state.with_value(variable, message)
        fault = next((value for value in self.expressions(command) if faults(value, state)), None)
        return None if fault is None else Hindrance(4, fault, state, message)

    def firing(self, process):
        """The commands of a process that can fire."""
        return [number for number in range(len(self.program[process].commands)) if not self.hindrance(process, number)]

    def fired(self, process, number):
        """The event that a command makes, which has to be able to fire."""
        before, command = self.state(process), self.program[process].commands[number]
        clock, action, partner, message, count = dict(self.clock(process, self.place(process))), "", "", None, 0
        reads, set_values = before, {}
        if command.action:
            action, partner, operand = command.action
        if action == "recv":
            message, sender = self.channel(partner, process)[0]
            count = len(self.receipts(process, partner)) + 1
            clock = {p: max(clock[p], part) for p, part in self.clock(partner, sender).items()}
            reads, set_values = before.with_value(operand, message), {operand: message}
        elif action == "send":
            message, count = evaluate(operand, before), len(self.sends(process, partner)) + 1
        clock[process] = self.place(process) + 1
        set_values.update({variable: evaluate(value, reads) for variable, value in command.assignments})
        after = LocalState({**before.values, **set_values}, dict(before.sent), dict(before.got))
        if action:
            counts = after.sent if action == "send" else after.got
            counts[partner] += 1
        settings = {variable: (before.values[variable], value) for variable, value in set_values.items()}
        return Event(number, action, partner, message, count, settings, after, clock)

    def with_line(self, process, events, redo):
        """The world in which a process has these events and this redo line."""
        return World(self.program, {**self.events, process: tuple(events)}, {**self.redo, process: tuple(redo)})

    def step(self, process, number, redo=()):
        """The world after a `step`, with this redo line."""
        if number >= len(self.program[process].commands):
            raise Refused(2)
        hindrance = self.hindrance(process, number)
        if hindrance:
            raise Refused(hindrance.refusal)
        return self.with_line(process, (*self.events[process], self.fired(process, number)), redo)

    def step_again(self, process):
        """The world after a `redo`."""
        if not self.redo[process]:
            raise Refused(8)
        return self.step(process, self.redo[process][0], self.redo[process][1:])

    def next(self, process):
        """The world after a `next`."""
        firing = self.firing(process)
        if not firing:
            raise Refused(24)
        return self.step(process, firing[0])

    def receiver(self, process, number):
        """The process that received the message of an event, with its event, or None."""
        event = self.events[process][number - 1]
        receipts = self.receipts(event.partner, process) if event.action == "send" else []
        return (event.partner, receipts[event.count - 1]) if len(receipts) >= event.count > 0 else None

    def check_undo(self, process):
        """Refuses the undo of the last event of a process if there is none, or its message was received."""
        if not self.events[process]:
            raise Refused(6)
        receiver = self.receiver(process, self.place(process))
        if receiver:
            raise Refused(7, receiver[0])

    def shrunk(self, places):
        """The world in which each process goes back to so many events."""
        undone = {p: tuple(event.command for event in events[places[p]:]) for p, events in self.events.items()}
        events = {p: events[:places[p]] for p, events in self.events.items()}
        return World(self.program, events, {p: undone[p] + self.redo[p] for p in self.program})

    def undo(self, process):
        """The world after an `undo`."""
        self.check_undo(process)
        return self.shrunk({**self.places(), process: self.place(process) - 1})

    def rollback_places(self, process, count):
        """How many events each process keeps, if those that depend on a later event of this process are undone."""
        return {p: sum(event.clock[process] <= count for event in events) for p, events in self.events.items()}

    def rollback(self, process, count):
        """The world after a `rollback`."""
        if count > self.place(process):
            raise Refused(10)
        return self.shrunk(self.rollback_places(process, count))

    def frontier(self, predicate):
        """The least number of events of each process that a state in which the predicate holds can have. One more than there are is past."""
        key = tuple(predicate.items())
        if key not in self.frontiers:
            self.frontiers[key] = self.find_frontier(predicate)
        return self.frontiers[key]

    def find_frontier(self, predicate):
        """Raises the number of events of a process while its part is false, or another process depends on more of them."""
        places, found, before = self.places(), {p: 0 for p in self.program}, None
        while found != before:
            before = dict(found)
            for p in self.program:
                needed = [self.clock(q, min(found[q], places[q]))[p] for q in self.program]
                found[p] = max([found[p], *needed])
                while p in predicate and found[p] <= places[p] and not holds(predicate[p], self.state(p, found[p])):
                    found[p] += 1
        return found

    def cut(self, predicate):
        """The least cut in which a predicate holds, or None."""
        found, places = self.frontier(predicate), self.places()
        return found if all(found[p] <= places[p] for p in self.program) else None

    def crossing(self, cut, source, target):
        """The messages from one process to another that are sent in a cut, and not received in it."""
        sent = [message for message, event in self.sends(source, target) if event <= cut[source]]
        received = [event for event in self.receipts(target, source) if event <= cut[target]]
        return sent[len(received):]

    def depths(self, cut):
        """For each event of a cut, by its process and number, the length of the longest chain of events that ends with it."""
        found = {}
        events = [(sum(self.clock(p, n).values()), p, n) for p in self.program for n in range(1, cut[p] + 1)]
        for _, p, n in sorted(events):  # an event comes after those on which it depends
            event, before = self.events[p][n - 1], [found.get((p, n - 1), 0)]
            if event.action == "recv":
                before.append(found[event.partner, self.sends(event.partner, p)[event.count - 1][1]])
            found[p, n] = max(before) + 1
        return found
