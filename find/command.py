"""The command `find`: reads its arguments, searches, and prints what was found."""
import os
import sys

from find import options as command_line
from find.compare import compare
from find.errors import WrongUse
from find.names import read_names
from find.outcome import Ending, Outcome
from find.output import closing_problem, found_session, with_replies
from find.rdbg import Rdbg, find_program
from find.report import report_found, report_none, say
from find.search import Answer, Search
from find.session import read_file, read_session
from find.shrink import shrink

WRONG_USE, CLOSED, INTERRUPTED = 2, 3, 130


def read(options, rdbg):
    """The session to search, and the author's names."""
    text = read_file(options.file)
    session = read_session(rdbg, text, options.names, options.stuck, options.unless, options.from_start)
    processes = session.model.numbers
    for process, _ in [*options.weight, *options.at_most]:
        if process not in processes:
            raise WrongUse(f"no process has the name {process}")
    return session, read_names(rdbg, text, session.model)


def print_session(options, rdbg, session, names, steps):
    """Prints the session with the steps that were found, after rdbg has played it."""
    text = found_session(session, names, steps)
    # (what the own lines of the session reach, rdbg has said already)
    problem = "" if session.halted else closing_problem(rdbg, session, text)
    if problem:
        raise WrongUse(f"rdbg does not confirm what was found: {problem}")
    print(with_replies(rdbg, text) if options.test else text, end="", flush=True)


def find(options):
    """Searches, prints and returns the exit status."""
    rdbg = Rdbg(find_program())
    session, names = read(options, rdbg)
    if options.compare:
        return compare(options, rdbg, session)
    if session.halted:
        say(f"{session.halted} holds already after the session's own lines: no step is needed")
        answer = Answer(Outcome(Ending.FOUND), False, ())
    else:
        answer = Search(options, rdbg, session, names).run()
    if answer.outcome.ending is Ending.FOUND:
        steps = shrink(rdbg, session, answer.outcome.steps)
        report_found(answer, steps)
        print_session(options, rdbg, session, names, steps)
    else:
        report_none(session, names, answer)
    return INTERRUPTED if answer.is_interrupted else answer.outcome.ending.value


def main(words):
    """Runs the command with these arguments."""
    try:
        options = command_line.read_arguments(words)
        if options.help:
            print(command_line.HELP, end="")
            return 0
        return find(options)
    except WrongUse as wrong:
        print(f"rdbg find: {wrong}", file=sys.stderr)
        return WRONG_USE
    except KeyboardInterrupt:
        # (before the search has begun, or after it)
        print("rdbg find: interrupted", file=sys.stderr)
        return INTERRUPTED
    except BrokenPipeError:
        # (whoever reads the session has ended; nothing more can be printed)
        os.dup2(os.open(os.devnull, os.O_WRONLY), sys.stdout.fileno())
        return CLOSED
