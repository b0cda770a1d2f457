"""The names that the author of a program gave to its processes and commands."""
from typing import NamedTuple

from find.model import Step


class Name(NamedTuple):
    """How the author's text names a command: its process, its label or number, and its line, or 0 if that is not known."""
    process: str
    command: str
    line: int

    def written(self):
        """The name in a sentence."""
        shown = f"command {self.command}" if self.command.isdigit() else f"`{self.command}`"
        return f"{shown} of {self.process}" + (f" (line {self.line})" if self.line else "")


def plain_names(model):
    """The names of the plain program: commands have numbers."""
    return {step: Name(model.processes[step.process].name, str(step.command), 0) for step in model.steps}


def author_process(names, model, process):
    """The name of a process in the author's text."""
    commands = [name.process for step, name in names.items() if step.process == process]
    return commands[0] if commands else model.processes[process].name


def read_names(rdbg, text, model):
    """The names of all commands, by their steps, as `expand --names` prints them. A program that cannot print them gives the plain ones."""
    ran = rdbg.run("expand", "--names", given=text)
    found = plain_names(model)
    if ran.status != 0:
        return found
    numbers = model.numbers
    for line in ran.output.splitlines():
        process, command, place, author, label = line.split("\t")
        found[Step(numbers[process], int(command))] = Name(author, label or command, int(place))
    return found
