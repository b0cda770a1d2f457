"""Plays schedules of a model. Its commands are compiled to Python functions once, so that an event takes some microseconds."""
from collections import deque

from find.language import GREATEST, LEAST, Count, Number, Prefix, Receive, Send, Truth, Variable, can_fault, values

OPERATORS = {"=": "=="}


class Fault(Exception):
    """An evaluation faults."""


def fit(number):
    """A number, if it has 64 bits."""
    if LEAST <= number <= GREATEST:
        return number
    raise Fault


def quotient(left, right):
    """The quotient toward zero."""
    if right == 0:
        raise Fault
    size = abs(left) // abs(right)
    return fit(size if (left < 0) == (right < 0) else -size)


def remainder(left, right):
    """The remainder, with the sign of the dividend."""
    return fit(left - right * quotient(left, right))


ARITHMETIC = {"+": "fit({} + {})", "-": "fit({} - {})", "*": "fit({} * {})", "/": "quotient({}, {})", "%": "remainder({}, {})"}


class ProcessCode:
    """The Python functions of a process, as text.

    The state of a process is a list with its variables and then its counts. `channels` has the messages that are on their way.
    """

    def __init__(self, model, number, channels, counts):
        self.model, self.number, self.process = model, number, model.processes[number]
        self.numbers = model.numbers
        self.channels = {channel: at for at, channel in enumerate(channels)}
        own_counts = [(word, other) for word, process, other in counts if process == number]
        self.places = {name: at for at, name in enumerate([*self.process.variables, *own_counts])}

    def first_values(self):
        """The state at the start."""
        return [*self.process.variables.values(), *(0 for _ in range(len(self.places) - len(self.process.variables)))]

    def expression(self, expression, message=None):
        """An expression in Python. `message` is the variable that has the value of the message, if there is one."""
        if isinstance(expression, (Number, Truth)):
            return str(expression.value)
        if isinstance(expression, Variable):
            return "message" if expression.name == message else f"s{self.places[expression.name]}"
        if isinstance(expression, Count):
            return f"s{self.places[expression.word, self.numbers[expression.process]]}"
        if isinstance(expression, Prefix):
            operand = self.expression(expression.operand, message)
            return f"(not {operand})" if expression.operator == "not" else f"fit(-{operand})"
        return self.infix(expression, message)

    def infix(self, expression, message):
        """An operation in Python."""
        left, right = (self.expression(part, message) for part in (expression.left, expression.right))
        if expression.operator in ARITHMETIC:
            return ARITHMETIC[expression.operator].format(left, right)
        return f"({left} {OPERATORS.get(expression.operator, expression.operator)} {right})"

    def unpacked(self):
        """The line that takes the state apart."""
        return f"    [{', '.join(f's{place}' for place in self.places.values())}] = state"

    def channel(self, action):
        """The place of the channel from which a receive takes its message, or None if nothing is ever sent there."""
        return self.channels.get((self.numbers[action.source], self.number))

    def condition_lines(self, number, command):
        """The lines that find out whether a command can fire."""
        guard, indent, message = self.expression(command.guard), "    ", None
        yield f"    if {guard}:"
        indent += "    "
        if isinstance(command.action, Receive):
            message = command.action.variable
            yield f"{indent}if channels[{self.channel(command.action)}]:"
            indent += "    "
        checked = [self.expression(value, message) for value in values(command) if can_fault(value)]
        if message and any("message" in text for text in checked):
            yield f"{indent}message = channels[{self.channel(command.action)}][0]"
        yield from (f"{indent}{text}" for text in checked)
        yield f"{indent}found.append(steps[{number}])"

    def moves(self):
        """The function that lists the commands that can fire."""
        yield f"def moves_{self.number}(state, channels):"
        yield self.unpacked()
        yield "    found = []"
        for number, command in enumerate(self.process.commands):
            if isinstance(command.action, Receive) and self.channel(command.action) is None:
                continue
            lines = list(self.condition_lines(number, command))
            if can_fault(command.guard) or any(can_fault(value) for value in values(command)):
                yield "    try:"
                yield from (f"    {line}" for line in lines)
                yield "    except Fault:"
                yield "        pass"
            else:
                yield from lines
        yield "    return found"

    def fire(self, number, command):
        """The function that fires a command, which can fire."""
        action, message, numbers = command.action, None, self.numbers
        yield f"def fire_{self.number}_{number}(state, channels):"
        yield self.unpacked()
        counted = None
        if isinstance(action, Receive):
            message, counted = action.variable, ("got", numbers[action.source])
            yield f"    message = channels[{self.channel(action)}].popleft()" if self.channel(action) is not None else "    message = 0"
            yield f"    state[{self.places[message]}] = message"
        if isinstance(action, Send):
            counted = ("sent", numbers[action.target])
            channel = self.channels.get((self.number, numbers[action.target]))
            if channel is not None:
                yield f"    channels[{channel}].append({self.expression(action.value)})"
        if counted in self.places:
            yield f"    state[{self.places[counted]}] += 1"
        for assignment in command.assignments:
            yield f"    state[{self.places[assignment.variable]}] = {self.expression(assignment.value, message)}"

    def holds(self, name, predicate):
        """The function that says whether a part of a breakpoint holds. One that faults does not."""
        yield f"def {name}(state):"
        yield self.unpacked()
        yield "    try:"
        yield f"        return {self.expression(predicate)}"
        yield "    except Fault:"
        yield "        return False"


class Compiled:
    """The functions of a model."""

    def __init__(self, model):
        self.model, self.numbers, self.channels = model, model.numbers, model.channels()
        counts = model.counts()
        code = [ProcessCode(model, number, self.channels, counts) for number in range(len(model.processes))]
        self.first = [it.first_values() for it in code]
        steps = [[step for step in model.steps if step.process == number] for number in range(len(model.processes))]
        self.moves, self.fires = [], []
        for number, it in enumerate(code):
            functions = self.compiled(it, steps[number])
            self.moves.append(functions[f"moves_{number}"])
            self.fires.append([functions[f"fire_{number}_{at}"] for at in range(len(it.process.commands))])
        # For each command the process to which it sends, if that receives it, or None.
        received = set(self.channels)
        self.targets = [[self.target(step, received) for step in of_process] for of_process in steps]
        self.breakpoints = [self.condition(code, breakpoint) for breakpoint in model.breakpoints]
        # For each process the breakpoints that ask something of it, each with the function.
        self.parts = [[(at, holds) for at, condition in enumerate(self.breakpoints) for process, holds in condition if process == number]
                      for number in range(len(model.processes))]
        self.unless = [self.condition(code, breakpoint) for breakpoint in model.unless]

    def compiled(self, code, steps):
        """The functions of a process, by name."""
        lines = list(code.moves())
        for number, command in enumerate(code.process.commands):
            lines += code.fire(number, command)
        names = {"Fault": Fault, "fit": fit, "quotient": quotient, "remainder": remainder, "steps": steps}
        exec(compile("\n".join(lines), f"<process {code.process.name}>", "exec"), names)
        return names

    def target(self, step, received):
        """The process to which a command sends, if that receives it, or None."""
        action = self.model.command(step).action
        target = self.numbers[action.target] if isinstance(action, Send) else None
        return target if (step.process, target) in received else None

    def condition(self, code, breakpoint):
        """The parts of a breakpoint: pairs of a process and a function of its state."""
        found = []
        for part in breakpoint.parts:
            number = self.numbers[part.process]
            names = {"Fault": Fault, "fit": fit, "quotient": quotient, "remainder": remainder}
            exec("\n".join(code[number].holds("holds", part.predicate)), names)
            found.append((number, names["holds"]))
        return found


class Run:
    """The processes of a model while they move."""

    def __init__(self, compiled):
        self.compiled = compiled
        self.states = [list(values) for values in compiled.first]
        self.channels = [deque() for _ in compiled.channels]
        self.moves = [moves(state, self.channels) for moves, state in zip(compiled.moves, self.states)]
        # The parts of breakpoints that have not held yet: for each process, and how many for each breakpoint.
        self.unseen = [list(parts) for parts in compiled.parts]
        self.missing = [len(condition) for condition in compiled.breakpoints]
        for process in range(len(self.states)):
            self.see(process)

    def see(self, process):
        """Notes which parts of breakpoints hold in the state of a process."""
        for part in self.unseen[process][:]:
            breakpoint, holds = part
            if holds(self.states[process]):
                self.unseen[process].remove(part)
                self.missing[breakpoint] -= 1

    def may_halt(self):
        """Whether a breakpoint may halt, in some order of the events: each of its parts has held."""
        return 0 in self.missing

    def fire(self, step):
        """Fires a command, which can fire."""
        compiled, process = self.compiled, step.process
        compiled.fires[process][step.command](self.states[process], self.channels)
        self.moves[process] = compiled.moves[process](self.states[process], self.channels)
        target = compiled.targets[process][step.command]
        if target is not None:
            self.moves[target] = compiled.moves[target](self.states[target], self.channels)
        if self.unseen[process]:
            self.see(process)

    def can_fire(self, step):
        """Whether a command can fire now."""
        return step in self.moves[step.process]

    def holds(self, condition):
        """Whether all parts of a breakpoint hold now."""
        return all(holds(self.states[process]) for process, holds in condition)

    def is_bad(self):
        """Whether a breakpoint holds now."""
        return any(self.holds(condition) for condition in self.compiled.breakpoints)

    def is_stuck(self):
        """Whether no command can fire, and no condition excuses it."""
        return not any(self.moves) and not any(self.holds(condition) for condition in self.compiled.unless)


def own_order(compiled):
    """The own events of the processes in an order in which they can happen."""
    model, run = compiled.model, Run(compiled)
    left = [deque(own) for own in model.own]
    found = []
    while any(left):
        ready = next((step for step in model.steps if left[step.process] and left[step.process][0] == step.command and run.can_fire(step)), None)
        if ready is None:
            raise ValueError("the own events of the session cannot happen")
        left[ready.process].popleft()
        run.fire(ready)
        found.append(ready)
    return tuple(found)


class Simulator:
    """Makes runs that begin after the own events of a model."""

    def __init__(self, model):
        self.model, self.compiled = model, Compiled(model)
        self.own = own_order(self.compiled)

    def start(self):
        """A run after the own events."""
        run = Run(self.compiled)
        for step in self.own:
            run.fire(step)
        return run

    def run_of(self, steps):
        """The run after these steps, which can fire."""
        run = self.start()
        for step in steps:
            run.fire(step)
        return run

    def possible(self, steps):
        """The steps that can fire, one after the other. Those that cannot are left out."""
        run, made = self.start(), []
        for step in steps:
            if run.can_fire(step):
                run.fire(step)
                made.append(step)
        return made
