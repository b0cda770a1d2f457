"""The process language, for tests: programs and predicates as trees, and the values of expressions.

An expression is a number, a truth value, or a tuple: ("variable", name), ("sent", process), ("got", process), ("not", e), ("-", e) or
(operator, left, right).
"""
import re
from typing import NamedTuple

TOKEN = re.compile(r"[a-z][a-z0-9_]*|\d+|:=|!=|<=|>=|[-{}();:,=<>+*/%]")
LEAST, GREATEST = -2**63, 2**63 - 1
COMPARISONS = {
    "=": lambda a, b: a == b, "!=": lambda a, b: a != b, "<": lambda a, b: a < b, "<=": lambda a, b: a <= b,
    ">": lambda a, b: a > b, ">=": lambda a, b: a >= b}


class EvaluationFault(Exception):
    """An evaluation faults: a number is out of range, or a division is by 0."""


class LocalState(NamedTuple):
    """The variables of a process, and how many messages it has sent to each process and received from it. No field is changed."""
    values: dict
    sent: dict
    got: dict

    def with_value(self, variable, value):
        """The state in which a variable has another value."""
        return self._replace(values={**self.values, variable: value})


class Command(NamedTuple):
    """A guarded command: its guard, ("send", process, value), ("recv", process, variable) or None, what it assigns, and its text."""
    guard: object
    action: tuple
    assignments: tuple
    text: str
    line: int


class Process(NamedTuple):
    """A process of a program: its variables with their first values, and its commands."""
    variables: dict
    commands: list


class Tokens:
    """The tokens of a text, which are read one after the other."""

    def __init__(self, text):
        self.text, self.at = text, 0
        self.found = [(token[0], token.start()) for token in TOKEN.finditer(text)] + [("", len(text))]

    def next(self):
        """The next token, which is not taken."""
        return self.found[self.at][0]

    def take(self, *expected):
        """Takes the next token, which has to be one of those expected, if there are any."""
        token = self.next()
        if expected and token not in expected:
            raise ValueError(f"{token!r} is where {expected} is due, in {self.text!r}")
        self.at += 1
        return token

    def took(self, token):
        """Takes the next token if it is this one."""
        is_next = self.next() == token
        self.at += is_next
        return is_next


def read_expression(tokens):
    """Reads an expression."""
    token = tokens.take()
    if token.isdigit():
        return int(token)
    if token in ("true", "false"):
        return token == "true"
    if token in ("sent", "got"):
        tokens.take("(")
        expression = (token, tokens.take())
    elif token == "(":
        expression = read_operation(tokens)
    else:
        return ("variable", token)
    tokens.take(")")
    return expression


def read_operation(tokens):
    """Reads what is between two parentheses."""
    if tokens.next() in ("not", "-"):
        return (tokens.take(), read_expression(tokens))
    left = read_expression(tokens)
    return (tokens.take(), left, read_expression(tokens))


def read_action(tokens):
    """Reads a send or a receive, if a body begins with one."""
    if tokens.next() not in ("send", "recv"):
        return None
    word, process = tokens.take(), tokens.take()
    return (word, process, read_expression(tokens) if word == "send" else tokens.take())


def read_command(tokens):
    """Reads a guarded command."""
    start = tokens.found[tokens.at][1]
    tokens.take("when")
    guard = read_expression(tokens)
    tokens.take(":")
    action, assignments = read_action(tokens), []
    while tokens.next() != ";" and (tokens.took(",") or not action):
        variable = tokens.take()
        tokens.take(":=")
        assignments.append((variable, read_expression(tokens)))
    end = tokens.found[tokens.at][1]
    tokens.take(";")
    text = " ".join(tokens.text[start:end + 1].split())
    return Command(guard, action, tuple(assignments), text, tokens.text.count("\n", 0, start) + 1)


def read_process(tokens):
    """Reads a process after its `{`."""
    variables, commands = {}, []
    while tokens.took("var"):
        name = tokens.take()
        tokens.take("=")
        sign = -1 if tokens.took("-") else 1
        variables[name] = sign * int(tokens.take())
        tokens.take(";")
    while tokens.next() == "when":
        commands.append(read_command(tokens))
    tokens.take("}")
    return Process(variables, commands)


def read_program(text):
    """The processes of a program, by name, in their order."""
    tokens, processes = Tokens(text), {}
    while tokens.took("process"):
        name = tokens.take()
        tokens.take("{")
        processes[name] = read_process(tokens)
    return processes


def read_predicate(text):
    """The expression that is written in a text."""
    return read_expression(Tokens(text))


def written(expression):
    """An expression as rdbg writes it."""
    if isinstance(expression, bool):
        return "true" if expression else "false"
    if isinstance(expression, int):
        return str(expression)
    if expression[0] == "variable":
        return expression[1]
    if expression[0] in ("sent", "got"):
        return f"{expression[0]}({expression[1]})"
    if len(expression) == 2:
        return f"({expression[0]} {written(expression[1])})"
    return f"({written(expression[1])} {expression[0]} {written(expression[2])})"


def parts(expression):
    """The expressions of which an expression is made directly."""
    is_leaf = not isinstance(expression, tuple) or expression[0] in ("variable", "sent", "got")
    return () if is_leaf else expression[1:]


def names(expression):
    """The variables and counts that an expression names, as rdbg writes them."""
    if isinstance(expression, tuple) and not parts(expression):
        return {written(expression)}
    return {name for part in parts(expression) for name in names(part)}


def value_of_name(name, state):
    """The value of a variable or a count, as an expression names it."""
    count = re.fullmatch(r"(sent|got)\((\w+)\)", name)
    return getattr(state, count[1])[count[2]] if count else state.values[name]


def arithmetic(operator, left, right):
    """The number that an operator makes of two numbers."""
    if operator in "/%":
        if right == 0:
            raise EvaluationFault
        quotient = abs(left) // abs(right) * (1 if (left < 0) == (right < 0) else -1)
        number = quotient if operator == "/" else left - right * quotient
        if quotient > GREATEST:
            raise EvaluationFault
    else:
        number = {"+": left + right, "-": left - right, "*": left * right}[operator]
    if not LEAST <= number <= GREATEST:
        raise EvaluationFault
    return number


def evaluate(expression, state):
    """The value of an expression in a local state."""
    if not isinstance(expression, tuple):
        return expression
    operator, *operands = expression
    if operator == "variable":
        return state.values[operands[0]]
    if operator in ("sent", "got"):
        return getattr(state, operator)[operands[0]]
    left = evaluate(operands[0], state)
    if operator == "not":
        return not left
    if len(operands) == 1:
        return arithmetic("-", 0, left)
    if operator in ("and", "or"):
        return evaluate(operands[1], state) if left == (operator == "and") else left
    right = evaluate(operands[1], state)
    return COMPARISONS[operator](left, right) if operator in COMPARISONS else arithmetic(operator, left, right)


def faults(expression, state):
    """Whether the evaluation of an expression faults."""
    try:
        evaluate(expression, state)
    except EvaluationFault:
        return True
    return False


def holds(expression, state):
    """Whether a truth expression is true. One that faults is not."""
    try:
        return evaluate(expression, state)
    except EvaluationFault:
        return False


def is_truth(expression):
    """Whether an expression is one for a truth value, and not for a number."""
    is_operation = isinstance(expression, tuple) and (expression[0] in COMPARISONS or expression[0] in ("and", "or", "not"))
    return isinstance(expression, bool) or is_operation


def conjuncts(expression):
    """The parts of a conjunction, from the left."""
    if isinstance(expression, tuple) and expression[0] == "and":
        return [*conjuncts(expression[1]), *conjuncts(expression[2])]
    return [expression]
