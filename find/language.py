"""The process language (docs/language.md): programs and predicates as trees.

The texts come from rdbg, which has checked them. So this reader reports no faults of its own.
"""
import re
from typing import NamedTuple, Optional, Tuple, Union

TOKEN = re.compile(r"[a-z][a-z0-9_]*|\d+|:=|!=|<=|>=|[-{}();:,=<>+*/%]")
LEAST, GREATEST = -2**63, 2**63 - 1


class Number(NamedTuple):
    """A number in the text."""
    value: int


class Truth(NamedTuple):
    """`true` or `false`."""
    value: bool


class Variable(NamedTuple):
    """A variable of the process."""
    name: str


class Count(NamedTuple):
    """`sent(process)` or `got(process)`."""
    word: str
    process: str


class Prefix(NamedTuple):
    """`not` or a minus before an operand."""
    operator: str
    operand: "Expression"


class Infix(NamedTuple):
    """An operator between two operands."""
    operator: str
    left: "Expression"
    right: "Expression"


Expression = Union[Number, Truth, Variable, Count, Prefix, Infix]


class Send(NamedTuple):
    """`send target value`."""
    target: str
    value: Expression


class Receive(NamedTuple):
    """`recv source variable`."""
    source: str
    variable: str


class Assignment(NamedTuple):
    """`variable := value`."""
    variable: str
    value: Expression


class Command(NamedTuple):
    """A guarded command."""
    guard: Expression
    action: Optional[Union[Send, Receive]]
    assignments: Tuple[Assignment, ...]


class Process(NamedTuple):
    """A process: its name, its variables with their first values, and its commands."""
    name: str
    variables: dict
    commands: Tuple[Command, ...]


class Part(NamedTuple):
    """What a breakpoint asks of one process."""
    process: str
    predicate: Expression


class Tokens:
    """The tokens of a text, which are read one after the other."""

    def __init__(self, text):
        self.found = [*TOKEN.findall(text), ""]
        self.at = 0

    def next(self):
        """The next token, which is not taken."""
        return self.found[self.at]

    def take(self):
        """Takes the next token."""
        self.at += 1
        return self.found[self.at - 1]

    def expect(self, wanted):
        """Takes the next token, which has to be this one."""
        token = self.take()
        if token != wanted:
            raise ValueError(f"{token!r} is where {wanted!r} is due")

    def took(self, wanted):
        """Takes the next token if it is this one."""
        if self.next() != wanted:
            return False
        self.at += 1
        return True


def read_expression(tokens):
    """Reads an expression."""
    token = tokens.take()
    if token.isdigit():
        return Number(int(token))
    if token in ("true", "false"):
        return Truth(token == "true")
    if token in ("sent", "got"):
        tokens.expect("(")
        expression = Count(token, tokens.take())
    elif token == "(":
        expression = read_operation(tokens)
    else:
        return Variable(token)
    tokens.expect(")")
    return expression


def read_operation(tokens):
    """Reads what is between two parentheses."""
    if tokens.next() in ("not", "-"):
        return Prefix(tokens.take(), read_expression(tokens))
    left = read_expression(tokens)
    return Infix(tokens.take(), left, read_expression(tokens))


def read_action(tokens):
    """Reads a send or a receive, if a body begins with one."""
    if tokens.took("send"):
        return Send(tokens.take(), read_expression(tokens))
    if tokens.took("recv"):
        return Receive(tokens.take(), tokens.take())
    return None


def read_assignment(tokens):
    """Reads an assignment."""
    variable = tokens.take()
    tokens.expect(":=")
    return Assignment(variable, read_expression(tokens))


def read_command(tokens):
    """Reads a guarded command."""
    tokens.expect("when")
    guard = read_expression(tokens)
    tokens.expect(":")
    action, assignments = read_action(tokens), []
    if action is None:
        assignments.append(read_assignment(tokens))
    while tokens.took(","):
        assignments.append(read_assignment(tokens))
    tokens.expect(";")
    return Command(guard, action, tuple(assignments))


def read_process(tokens):
    """Reads a process."""
    tokens.expect("process")
    name, variables, commands = tokens.take(), {}, []
    tokens.expect("{")
    while tokens.took("var"):
        variable = tokens.take()
        tokens.expect("=")
        sign = -1 if tokens.took("-") else 1
        variables[variable] = sign * int(tokens.take())
        tokens.expect(";")
    while tokens.next() == "when":
        commands.append(read_command(tokens))
    tokens.expect("}")
    return Process(name, variables, tuple(commands))


def read_program(text):
    """The processes of a plain program, in their order."""
    tokens, processes = Tokens(text), []
    while tokens.next():
        processes.append(read_process(tokens))
    return tuple(processes)


def end_of_predicate(text):
    """Where the predicate ends with which a text begins: at the parenthesis that closes it, or at a blank."""
    if not text.startswith("("):
        return len(text.split(maxsplit=1)[0])
    depth = 0
    for at, character in enumerate(text):
        depth += {"(": 1, ")": -1}.get(character, 0)
        if depth == 0:
            return at + 1
    return len(text)


def read_parts(text):
    """What a breakpoint asks for, of the text after its name: pairs of a process and a predicate."""
    parts, rest = [], text.strip()
    while rest:
        process, rest = rest.split(maxsplit=1)
        end = end_of_predicate(rest)
        parts.append(Part(process, read_expression(Tokens(rest[:end]))))
        rest = rest[end:].strip()
    return tuple(parts)


def operands(expression):
    """The expressions of which an expression is made directly."""
    if isinstance(expression, Prefix):
        return (expression.operand,)
    if isinstance(expression, Infix):
        return (expression.left, expression.right)
    return ()


def leaves(expression):
    """The numbers, truth values, variables and counts in an expression."""
    below = operands(expression)
    return [leaf for part in below for leaf in leaves(part)] if below else [expression]


def can_fault(expression):
    """Whether the evaluation of an expression may fault: it has arithmetic in it."""
    is_arithmetic = (isinstance(expression, Prefix) and expression.operator == "-"
                     or isinstance(expression, Infix) and expression.operator in ("+", "-", "*", "/", "%"))
    return is_arithmetic or any(can_fault(part) for part in operands(expression))


def values(command):
    """The expressions of a command that are evaluated after its guard."""
    sent = [command.action.value] if isinstance(command.action, Send) else []
    return sent + [assignment.value for assignment in command.assignments]
