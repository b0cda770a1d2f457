"""Reads a session: its text as it was written, its plain program, and what its own lines leave to be searched."""
import re
import sys
from pathlib import Path
from typing import Dict, List, NamedTuple, Tuple

from find.errors import WrongUse
from find.language import read_parts, read_program
from find.model import Breakpoint, Model

END = "%%"
DIRECTIVES = ("help", "?", "on", "list", "state", "line", "how", "from", "draw", "session")  # of interactive sessions: they have no reply
LAST = ("quit", "exit", "q")
SEAT = "1"
BREAK_LINE = re.compile(r"\s*(\d+\s+)?(for\b.*:\s*)?(batch\s+)?break\b")
BREAK_NAME = re.compile(r"\bbreak\s+(\S+)")
OTHER_PART = re.compile(r"\s;\s+(?!break\b)")  # of a batch
EVENT = re.compile(r"^(\w+) \{.*\}\ncommand (\d+):", re.MULTILINE)


class SessionText(NamedTuple):
    """A session as it is written: the program up to the line %%, with it, and the lines after it."""
    program: str
    lines: Tuple[str, ...]

    def written(self):
        """The whole text."""
        return self.program + "".join(f"{line}\n" for line in self.lines)

    def with_lines(self, *more):
        """The session with further lines."""
        return self._replace(lines=(*self.lines, *more))

    def from_start(self):
        """The session with its breakpoints alone. Of the lines that set one of a name, the last counts."""
        kept, names = [], set()
        for line in reversed(self.lines):
            if is_break_line(line) and names.isdisjoint(BREAK_NAME.findall(line)):
                kept.append(line)
                names.update(BREAK_NAME.findall(line))
        return self._replace(lines=tuple(reversed(kept)))


def is_break_line(line):
    """Whether a line sets breakpoints, and does nothing else."""
    return bool(BREAK_LINE.match(line)) and not OTHER_PART.search(line.split("#")[0])


def split_session(text):
    """A text as a session."""
    lines = text.splitlines(keepends=True)
    for at, line in enumerate(lines):
        if line.rstrip("\r\n") == END:
            program = "".join(lines[:at]) + f"{END}\n"
            return SessionText(program, tuple(line.rstrip("\r\n") for line in lines[at + 1:]))
    raise WrongUse("no line is %%: after the program write a line %%, and then a line `break NAME ..`")


def read_file(file):
    """The text of a file, or of standard input."""
    try:
        data = sys.stdin.buffer.read() if file == "-" else Path(file).read_bytes()
        return data.decode()
    except OSError as error:
        raise WrongUse(f"{file} cannot be read: {error.strerror}") from None
    except UnicodeDecodeError:
        raise WrongUse(f"{file} is not valid UTF-8") from None


def plain_name(name):
    """A name with indices, as `server[2]`, in the plain program."""
    return re.sub(r"\[(\d+)\]", r"_\1", name)


def calls_of(lines):
    """The lines of a plain session that have a reply, each with a seat."""
    calls = []
    for line in lines:
        words = line.split()
        if words and words[0] in LAST:
            break
        if words and words[0][0] not in "#>" and words[0] not in DIRECTIVES:
            calls.append(line if words[0].isdigit() else f"{SEAT} {line}")
    return calls


def set_breakpoints(calls, replies):
    """The predicates of the breakpoints that are set after these calls, by name, as the lines `break` have them."""
    states: List[Dict[str, str]] = [{}]  # after each command that can be taken back
    for call, reply in zip(calls, replies):
        words = call.split(maxsplit=1)[1]
        if not reply.startswith("ok"):
            continue
        if words.split()[0] == "back":
            states.pop()
        else:
            states.append(after_command(states[-1], words))
    return states[-1]


def after_command(breakpoints, command):
    """The breakpoints after an accepted command."""
    word, _, rest = command.strip().partition(" ")
    if word == "batch":
        for part in re.split(r"\s;\s", rest):
            breakpoints = after_command(breakpoints, part)
        return breakpoints
    name, _, predicate = rest.strip().partition(" ")
    if word == "break":
        return {**breakpoints, name: predicate}
    if word == "clear":
        return {other: text for other, text in breakpoints.items() if other != name}
    return breakpoints


class Session(NamedTuple):
    """A session whose own lines were played: what was written, what it is in the process language, and what is searched from there."""
    text: SessionText
    program: str  # the plain program
    calls: Tuple[str, ...]  # the plain lines that have replies, each with a seat
    adjustments: Tuple[str, ...]  # commands that leave exactly the wanted breakpoints armed, without a seat
    model: Model
    halted: str  # the breakpoint that holds after the own lines, or nothing
    has_seats: bool

    def all_calls(self):
        """The calls after which the search begins."""
        return [*self.calls, *(f"{SEAT} {line}" for line in self.adjustments)]


def expand(rdbg, text):
    """The plain session of a text."""
    ran = rdbg.run("expand", given=text)
    if ran.status != 0:
        raise WrongUse((ran.errors or ran.output).strip() or f"rdbg expand ended with status {ran.status}")
    return split_session(ran.output)


def check_program(rdbg, text):
    """Refuses a session whose program rdbg refuses, with its explanation."""
    ran = rdbg.run("check", "--explain", given=text)
    if ran.status != 0:
        raise WrongUse((ran.output + ran.errors).strip())


def own_events(rdbg, program, calls, processes):
    """For each process the commands of the events that remain after these calls."""
    ran = rdbg.run("draw", "--as", "shiviz", given="".join([f"{program}{END}\n", *(f"{call}\n" for call in calls)]))
    if ran.status != 0:
        raise WrongUse((ran.errors + ran.output).strip() or f"rdbg draw ended with status {ran.status}")
    events = EVENT.findall(ran.output)
    return tuple(tuple(int(command) for process, command in events if process == name) for name in processes)


def armed_breakpoints(reply):
    """The marks of all breakpoints, of a reply to `breaks`."""
    words = reply.split()[1:]
    return {name: mark == "on" for name, mark in zip(words[::2], words[1::2])}


def wanted_breakpoints(marks, names):
    """The breakpoints to look for: those that are named, or the armed ones."""
    if not marks:
        raise WrongUse("the session sets no breakpoint: after the line %% write `break NAME PROCESS (CONDITION) ..`")
    unknown = [name for name in names if plain_name(name) not in marks]
    if unknown:
        raise WrongUse(f"the session has no breakpoint {unknown[0]}: it has {', '.join(marks)}")
    wanted = [name for name in marks if name in map(plain_name, names)] if names else [name for name, is_armed in marks.items() if is_armed]
    if not wanted:
        raise WrongUse(f"no breakpoint is armed: name one by --break, as --break {next(iter(marks))}")
    return wanted


def adjust(marks, wanted):
    """Commands after which the wanted breakpoints are armed, and no other one is."""
    arm = [f"arm {name}" for name in wanted if not marks[name]]
    clear = [f"clear {name}" for name, is_armed in marks.items() if is_armed and name not in wanted]
    return tuple(clear + arm)


def refused_breaks(calls, replies):
    """The first line `break` that is refused, with its reply, or None."""
    for call, reply in zip(calls, replies):
        if call.split()[1:2] == ["break"] and not reply.startswith("ok"):
            return call, reply
    return None


def read_conditions(rdbg, text, conditions):
    """Conditions that are given as in `break`, read in the program of a session."""
    session = SessionText(text.program, tuple(f"break condition_{at} {condition}" for at, condition in enumerate(conditions, 1)))
    plain = expand(rdbg, session.written())
    program = plain.program[:-len(f"{END}\n")]
    calls = calls_of(plain.lines)
    found = []
    for condition, call, reply in zip(conditions, calls, rdbg.replies(program, calls)):
        if not reply.startswith("ok"):
            raise WrongUse(f"--unless: {condition} is not a condition of the program: `break NAME {condition}` is answered `{reply}`")
        found.append(Breakpoint(condition, read_parts(call.split(maxsplit=3)[3])))
    return tuple(found)


def read_session(rdbg, written, names=(), stuck=False, unless=(), from_start=False):
    """Reads a session. `names` are the breakpoints to look for, or none for all that are armed."""
    text = split_session(written)
    check_program(rdbg, text.program)
    if from_start:
        text = text.from_start()
    plain = expand(rdbg, text.written())
    program, calls = plain.program[:-len(f"{END}\n")], calls_of(plain.lines)
    processes = read_program(program)
    replies = rdbg.replies(program, [*calls, f"{SEAT} breaks"])
    refused = refused_breaks(calls, replies)
    if refused:
        raise WrongUse(f"the session's line `{refused[0]}` is answered `{refused[1]}`: `rdbg talk` explains why")
    marks = armed_breakpoints(replies[-1])
    wanted = [] if stuck else wanted_breakpoints(marks, names)
    adjustments = adjust(marks, wanted)
    predicates = set_breakpoints(calls, replies)
    breakpoints = tuple(Breakpoint(name, read_parts(predicates[name])) for name in wanted)
    own = own_events(rdbg, program, calls, [process.name for process in processes])
    model = Model(processes, own, breakpoints, stuck, read_conditions(rdbg, text, unless))
    ends = [*calls, *(f"{SEAT} {line}" for line in adjustments)]
    cuts = rdbg.replies(program, [*ends, *(f"{SEAT} cut {name}" for name in wanted)])[len(ends):]
    halted = next((name for name, cut in zip(wanted, cuts) if not cut.endswith(" none")), "")
    has_seats = bool(calls) and all(line.split()[0].isdigit() for line in text.lines if line.strip() and line.strip()[0] not in "#>")
    return Session(text, program, tuple(calls), adjustments, model, halted, has_seats)
