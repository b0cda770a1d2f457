"""Between which numbers a variable and the messages of a channel stay, if no arithmetic can change that."""
from typing import NamedTuple

from find.language import Number, Prefix, Receive, Send, Variable


class Range(NamedTuple):
    """The numbers from the least to the greatest."""
    least: int
    greatest: int

    def joined(self, other):
        """The range of both."""
        return Range(min(self.least, other.least), max(self.greatest, other.greatest))


ANY = Range(-2**63, 2**63 - 1)


def range_of(expression, process, found):
    """The range of the values of an expression, or None if nothing is known to come there."""
    if isinstance(expression, Number):
        return Range(expression.value, expression.value)
    if isinstance(expression, Prefix) and isinstance(expression.operand, Number):
        return Range(-expression.operand.value, -expression.operand.value)
    if isinstance(expression, Variable):
        return found.get((process, expression.name))
    return ANY


def flows(model):
    """From where numbers come to variables, as (process, name), and to channels, as (source, target)."""
    numbers = model.numbers
    for step in model.steps:
        command = model.command(step)
        if isinstance(command.action, Send):
            yield (step.process, numbers[command.action.target]), command.action.value, step.process
        if isinstance(command.action, Receive):
            yield (step.process, command.action.variable), (numbers[command.action.source], step.process), step.process
        for assignment in command.assignments:
            yield (step.process, assignment.variable), assignment.value, step.process


def ranges(model):
    """The range of each variable, by (process, name), and of each channel that can have a message, by (source, target)."""
    found = {(number, name): Range(value, value) for number, process in enumerate(model.processes) for name, value in process.variables.items()}
    all_flows, before = list(flows(model)), None
    while before != found:
        before = dict(found)
        for place, source, process in all_flows:
            is_channel = type(source) is tuple
            more = found.get(source) if is_channel else range_of(source, process, found)
            if more is not None:
                found[place] = found[place].joined(more) if place in found else more
    return found
