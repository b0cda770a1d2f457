"""Programs for the tests."""
from find.language import read_parts, read_program
from find.model import Breakpoint, Model


def model(text, breakpoint="", own=None, stuck=False, unless=()):
    """The model of a plain program, and of what follows the name in a line `break`."""
    processes = read_program(text)
    breakpoints = (Breakpoint("bad", read_parts(breakpoint)),) if breakpoint else ()
    excuses = tuple(Breakpoint(condition, read_parts(condition)) for condition in unless)
    return Model(processes, own or tuple(() for _ in processes), breakpoints, stuck, excuses)


COUNTER = "process a { var x = 0; when (x < 3) : x := (x + 1); }"

# A sender that is never held up by anything but its channel, and a receiver that takes numbers until it has five.
FLOW = """
process a { var x = 0; when (x < 6) : send b x, x := (x + 1); }
process b { var y = 0; var n = 0; when (sent(a) = 1) : recv a y, n := (n + 1); when (sent(a) = 0) : send a 1; }
"""

# For each kind of expression a value of y after the only command has fired, or None if it faults.
EXPRESSIONS = [
    ("7", 7), ("x", -7), ("(- x)", 7), ("(x + 2)", -5), ("(x - 2)", -9), ("(x * 3)", -21), ("(x / 2)", -3), ("(x % 2)", -1), ("(7 / (- 2))", -3),
    ("(7 % (- 2))", 1), ("((- 7) / (- 2))", 3), ("((- 7) % (- 2))", -1), ("(x / 0)", None), ("(x % 0)", None), ("(0 / x)", 0), ("(0 % x)", 0),
    ("((9223372036854775807 + 1) - 9223372036854775807)", None), ("((9223372036854775807 * 2) * 0)", None),
    ("(((- 9223372036854775807) - 1) / (- 1))", None), ("(((- 9223372036854775807) - 1) % (- 1))", None), ("(- ((- 9223372036854775807) - 1))", None),
    ("((9223372036854775807 - 9223372036854775800) * 1)", 7), ("(sent(b) + got(b))", 0)]
# For each kind of truth expression whether it holds where x is -7, or None if it faults.
CONDITIONS = [
    ("true", True), ("false", False), ("(not false)", True), ("(x = (- 7))", True), ("(x != (- 7))", False), ("(x < 0)", True), ("(x <= (- 7))", True),
    ("(x > 0)", False), ("(x >= (- 6))", False), ("((x = 0) and ((1 / 0) = 1))", False), ("((x < 0) or ((1 / 0) = 1))", True),
    ("((x < 0) and ((1 / 0) = 1))", None), ("(((1 / 0) = 1) or true)", None), ("(not ((1 / 0) = 1))", None), ("(sent(b) = 0)", True)]
