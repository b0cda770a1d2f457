"""The reports of the halts of a session: how many rows and columns they have, and what is wrong with them."""
import re

from harness import Fault
from harness.explanations import problem_of_explanations, talked_lines

ROWS, COLUMNS, PROCESSES = 22, 80, 9  # at most, for so many processes


def plain_session(suite, file):
    """The program of a session, and its lines, as a plain session."""
    ran = suite.rdbg("expand", given=file.read_bytes())
    if ran.status != 0:
        raise Fault(f"rdbg expand: status {ran.status}")
    program, end, lines = ran.output.decode().partition("\n%%\n")
    return program + end, [line for line in lines.splitlines() if line.strip() and not line.startswith(("#", ">"))]


def problem_of_report(lines):
    """What is wrong with the size of a report: the reply and the lines after it. The events of a batch come in addition."""
    report = lines[[line.startswith("  HALTED by ") for line in lines].index(True):]
    wide = next((line for line in lines[1:] if len(line) > COLUMNS), None)
    if wide:
        return f"a line of {len(wide)} columns: {wide}"
    rows = len(report) if re.match(r"ok( halted|.*=)", lines[0]) else len(lines)
    return f"{rows} rows of {lines[0]}" if rows > ROWS else ""


def problem_of_size(suite, file):
    """The first report of a session that is too large."""
    ran = suite.rdbg("talk", given=file.read_bytes(), columns=COLUMNS)
    if ran.status != 0:
        raise Fault(f"rdbg talk: status {ran.status}")
    text = ran.output.decode()
    if len(re.findall(r"(?m)^process\s", plain_session(suite, file)[0])) > PROCESSES:
        return ""
    for lines in map(str.splitlines, text.split("\n\n")):
        begin = next((at for at, line in enumerate(lines) if line.startswith("ok")), None)
        if begin is not None and any(line.startswith("  HALTED by ") for line in lines):
            problem = problem_of_report(lines[begin:])
            if problem:
                return problem
    return ""


def problem_of_halts(suite, file):
    """What is wrong with what is said of a session, compared with a model of it."""
    program, lines = plain_session(suite, file)
    return problem_of_explanations(program.removesuffix("%%\n"), talked_lines(suite, program, lines))
