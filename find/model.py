"""What is searched: the program, what each process has done already, and the states that are looked for."""
from typing import Dict, NamedTuple, Tuple

from find.language import Command, Count, Part, Process, Receive, Send, Truth, leaves, values

NEVER = Command(Truth(False), None, ())  # a command that cannot fire


class Breakpoint(NamedTuple):
    """A breakpoint: its name, and what it asks of each process that it names."""
    name: str
    parts: Tuple[Part, ...]


class Step(NamedTuple):
    """An event that a process makes: the number of the process, and that of its command."""
    process: int
    command: int


class Model(NamedTuple):
    """A program with the events that its processes make first, and what is looked for.

    `own` has for each process the commands of its own events. The processes make them before they are free.
    A state is looked for if one of the breakpoints holds in it. If `stuck` is set, those states are looked for in which no command can fire
    and no breakpoint of `unless` holds.
    """
    processes: Tuple[Process, ...]
    own: Tuple[Tuple[int, ...], ...]
    breakpoints: Tuple[Breakpoint, ...] = ()
    stuck: bool = False
    unless: Tuple[Breakpoint, ...] = ()

    @property
    def numbers(self) -> Dict[str, int]:
        """The number of each process by its name."""
        return {process.name: number for number, process in enumerate(self.processes)}

    @property
    def steps(self):
        """All commands of the program, each as the step that fires it."""
        return [Step(p, c) for p, process in enumerate(self.processes) for c in range(len(process.commands))]

    def command(self, step):
        """The command of a step."""
        return self.processes[step.process].commands[step.command]

    def only(self, steps):
        """The model in which no other command can fire than those of these steps and of the own events."""
        kept = {*steps, *(Step(process, command) for process, commands in enumerate(self.own) for command in commands)}
        processes = [process._replace(commands=tuple(command if Step(p, c) in kept else NEVER for c, command in enumerate(process.commands)))
                     for p, process in enumerate(self.processes)]
        return self._replace(processes=tuple(processes))

    def channels(self):
        """The pairs of processes between which a message can be sent and received."""
        numbers, sent, received = self.numbers, set(), set()
        for process, command in self.steps:
            action = self.processes[process].commands[command].action
            if isinstance(action, Send):
                sent.add((process, numbers[action.target]))
            if isinstance(action, Receive):
                received.add((numbers[action.source], process))
        return sorted(sent & received)

    def counts(self):
        """The counts of messages that an expression reads: a word, the process that counts, and the other one."""
        numbers, found = self.numbers, set()
        for number, process in enumerate(self.processes):
            for command in process.commands:
                for expression in [command.guard, *values(command)]:
                    found |= {(leaf.word, number, numbers[leaf.process]) for leaf in leaves(expression) if isinstance(leaf, Count)}
        for breakpoint in [*self.breakpoints, *self.unless]:
            for part in breakpoint.parts:
                found |= {(leaf.word, numbers[part.process], numbers[leaf.process]) for leaf in leaves(part.predicate) if isinstance(leaf, Count)}
        return sorted(found)
