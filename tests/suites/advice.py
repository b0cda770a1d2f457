"""What an interactive session says of random sessions and examples: its explanations are true, and its advice is accepted.

A model of the session checks each line of an explanation (harness/explanations.py). In addition, `run` is given what the explanations
offer, and each command of which `on` or `list` says whether it can fire. `back` takes that back before the next line of the session.
"""
import os
import re
import traceback
from concurrent.futures import ThreadPoolExecutor
from contextlib import closing
from functools import partial
from typing import NamedTuple

from harness import Fault, sessions
from harness.explanations import problem_of_explanations, talked_lines
from harness.player import pairs
from harness.random_sessions import END, random_session
from harness.reports import problem_of_halts, problem_of_size
from harness.session import call
from harness.tampering import unnoticed

SESSIONS, ALL_SESSIONS = 60, 3000
TAMPERED_SESSIONS = 20  # of which explanations are made false, to test their checks
TRIAL_SEAT = 16  # no session has lines of this seat
ACCEPTED = r"ok( halted \w+)?"
# What an explanation offers, with the command and the replies that it may have.
OFFERS = [
    (r"`(pass \w+)` lets the session continue", "{0}", "ok"),
    (r"`(pass \w+)` disarms it, and then the breakpoint (\w+) halts .*", "{0}", "ok halted {1}"),
    (r"the breakpoint (\w+) halts the session: `pass` lets it continue", "pass {0}", "ok"),
    (r"the breakpoint (\w+) halts the session: `pass` disarms it, and then the breakpoint (\w+) does", "pass {0}", "ok halted {1}"),
    (r"`(arm \w+)` arms it", "{0}", ACCEPTED),
    (r"`(goto \w+)` undoes the events that are not in its cut; .*", "{0}", "ok( .*)?"),
]
# What the last line of the report of a halt offers: each of these may be in it.
HALT_OFFERS = [
    (r"`(pass \w+)` goes on;", "{0}", "ok"),
    (r"`(pass \w+)` disarms it, and then the breakpoint (\w+) halts;", "{0}", "ok halted {1}"),
    (r"`(goto \w+)` undoes the \d+ events? that", "{0}", r"ok( \w+=\d+)+ halted \w+"),
    (r"`(undo \w+)` undoes \w+ \d+ alone", "{0}", r"ok \w+ \d+( halted \w+)?"),
]
ROLLBACK = re.compile(r"`rollback (\w+) (\d+)` undoes this event and all events that depend on it")
COMMAND = re.compile(r"(\w+): command (\d+) in line \d+: .*")
# What `list` says of a command, and the replies that a batch with it may have.
VERDICTS = [
    (r"  it can fire", ACCEPTED), (r"  no message .*", r"no 25 \d+ 5"), (r"  .* (?:is|are) false.*", r"no 25 \d+ 3"), (r"  .*faults.*", r"no 25 \d+ 4")]


class Trial(NamedTuple):
    """A command that is given, and then taken back, and a pattern of the reply that is due."""
    command: str
    due: str


def offers(talked):
    """What the explanation of a line offers."""
    for note in talked.notes:
        for pattern, command, due in OFFERS:
            found = re.fullmatch(pattern, note)
            if found:
                yield Trial(command.format(*found.groups()), due.format(*found.groups()))
        for pattern, command, due in HALT_OFFERS if note.startswith("`pass ") else []:
            for found in re.finditer(pattern, note):
                yield Trial(command.format(*found.groups()), due.format(*found.groups()))
        rollback = ROLLBACK.fullmatch(note)
        if rollback:
            places = talked.state.world.rollback_places(rollback[1], int(rollback[2]))
            yield Trial(f"rollback {rollback[1]} {rollback[2]}", f"ok {pairs(places)}( halted \\w+)?")


def step(state, process, number, due):
    """The command that makes an event, although a breakpoint may halt the session."""
    clears = [f"clear {name}" for name in state.breakpoints]
    return Trial(f"batch {' ; '.join([*clears, f'step {process} {number}'])}", due)


def listed_commands(talked):
    """What `list` says of each command."""
    for shown, verdict in zip(talked.notes, talked.notes[1:]):
        command = COMMAND.fullmatch(shown)
        if command:
            due = next((due for pattern, due in VERDICTS if re.fullmatch(pattern, verdict)), "a verdict that is known")
            yield step(talked.state, command[1], command[2], due)


def firing_commands(talked):
    """What `on` says of each command: it shows those that can fire."""
    shown = {command.groups() for command in map(COMMAND.fullmatch, talked.notes) if command}
    program = talked.state.world.program
    for process in filter(program.__contains__, talked.line.split()[1:] or program):
        for number in range(len(program[process].commands)):
            is_shown = (process, str(number)) in shown
            yield step(talked.state, process, number, ACCEPTED if is_shown else r"no 25 \d+ [345]")


def trials(talked):
    """The commands with which an explanation is tried."""
    word = talked.line.split()[0]
    commands = {"on": firing_commands, "list": listed_commands}.get(word, lambda _: [])
    return [*offers(talked), *commands(talked)]


def answers(suite, program, lines):
    """The replies of a run."""
    ran = suite.rdbg("run", given=program + "".join(f"{line}\n" for line in lines))
    if ran.status != 0:
        raise Fault(f"run: status {ran.status}")
    return ran.output.decode().splitlines()


def problem_of_advice(suite, program, talked):
    """The first command that has another reply than an explanation says. The lines of the session keep their replies."""
    given = []  # each line of the run, with a pattern of its reply, and the line of the session
    for at, line in enumerate(talked, 1):
        given.extend([(call(line.line), re.escape(line.reply), at)] if call(line.line) else [])
        for trial in trials(line):
            given.append((f"{TRIAL_SEAT} {trial.command}", trial.due, at))
            given.append((f"{TRIAL_SEAT} back", r"(ok|no) ?.*", at))
    replies = answers(suite, program, [line for line, _, _ in given])
    if len(replies) != len(given):
        return f"{len(given)} lines have {len(replies)} replies"
    for (line, due, at), reply in zip(given, replies):
        if not re.fullmatch(due, reply):
            return f"line {at}, {talked[at - 1].line}: the reply to `{line}` is {reply!r}, and {due!r} is due"
    return ""


def session_problem(suite, number):
    """What is wrong with the explanations of a random session."""
    program, _, text = random_session(number).partition(END)
    talked = talked_lines(suite, program + END, text.splitlines())
    calls = [line for line in talked if call(line.line)]
    if answers(suite, program + END, [call(line.line) for line in calls]) != [line.reply for line in calls]:
        return "the replies of talk and run differ"
    problem = problem_of_explanations(program, talked) or problem_of_advice(suite, program + END, talked)
    return problem or (number < TAMPERED_SESSIONS and unnoticed(program, talked, number)) or ""


def found_problem(suite, number):
    """The same, where an exception is a problem, too."""
    try:
        return str(session_problem(suite, number))
    except Fault as fault:
        return str(fault)
    except Exception:
        return traceback.format_exc()


def check_examples(suite):
    """Tests what is said of the examples, and that the reports of their halts have few rows."""
    for file in sessions("examples", "examples/notation"):
        suite.attempt(f"what is said of {file.name}", problem_of_halts, suite, file)
        suite.attempt(f"the reports of {file.name}", problem_of_size, suite, file)


def run(suite):
    """Plays the sessions side by side: most of the time goes to the program under test, in processes of its own."""
    numbers = range(ALL_SESSIONS if suite.options.all else SESSIONS)
    suite.program  # found once, before there are threads
    check_examples(suite)
    with ThreadPoolExecutor(len(os.sched_getaffinity(0))) as pool, closing(pool.map(partial(found_problem, suite), numbers)) as problems:
        for number, problem in zip(numbers, problems):
            suite.case(f"random session {number}", problem)
