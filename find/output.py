"""The session that is printed: the text as it was written, and the steps that were found."""
import re

from find.errors import WrongUse
from find.names import author_process
from find.session import LAST, SEAT, SessionText


def own_lines(text):
    """The own lines of a session, up to one that ends it."""
    kept = []
    for line in text.lines:
        if line.split()[:1] and line.split()[0] in LAST:
            break
        kept.append(line)
    return kept


def found_session(session, names, steps):
    """The session with the steps that were found, in the author's names."""
    lines = [*session.adjustments, *(f"step {names[step].process} {names[step].command}" for step in steps)]
    if session.model.stuck:
        lines += [f"next {author_process(names, session.model, process)}" for process in range(len(session.model.processes))]
    seat = f"{SEAT} " if session.has_seats else ""
    return SessionText(session.text.program, (*own_lines(session.text), *(f"{seat}{line}" for line in lines))).written()


def with_replies(rdbg, text):
    """The session with the replies that it has."""
    ran = rdbg.run("test", "--fill", "-", given=text)
    if ran.status != 0:
        raise WrongUse(f"rdbg test --fill ended with status {ran.status}\n{ran.errors}".strip())
    return ran.output


def closing_problem(rdbg, session, text):
    """What is wrong with a session that is printed, when rdbg plays it as it is, or nothing: its last line halts, or nothing can happen."""
    replies = [line[2:] for line in with_replies(rdbg, text).splitlines() if line.startswith("> ")]
    if session.model.stuck:
        asked = len(session.model.processes)
        return "" if replies[-asked:] == ["no 24"] * asked else "the last lines are not answered `no 24`"
    return "" if replies and re.search(r" halted \S+$", replies[-1]) else "the last line does not halt the session"
