"""What the explanations of an interactive session say of its state, line by line, compared with a model of the session.

Each kind of line has a pattern and a function that checks what the line says. The modules claims_*.py have them. A line of no kind is a
problem, too, so a new text needs a new check.
"""
import re
from collections import defaultdict
from typing import NamedTuple

from harness import TOP

# The meaning of each refusal, as the documents say it.
MEANINGS = dict(re.findall(r"^\| (\d+) \| (.*) \|$", (TOP / "docs/commands.md").read_text(encoding="utf-8"), re.MULTILINE))
KINDS = []


class Contradiction(Exception):
    """What an explanation says is not so."""


class Kind(NamedTuple):
    """A kind of lines: their pattern, and a function that raises a contradiction if what the line says is not so."""
    pattern: re.Pattern
    check: object


def claim(pattern):
    """Registers a function as the check of the lines with this pattern. It gets what is read, and the named groups of the pattern."""
    def register(check):
        KINDS.append(Kind(re.compile(pattern), check))
        return check
    return register


def same(what, shown, true):
    """Raises a contradiction if a line says something else than what is so."""
    if shown != true:
        raise Contradiction(f"{what}: the line says {shown!r}, and the state is {true!r}")


def check(what, is_true):
    """Raises a contradiction if something is not so."""
    if not is_true:
        raise Contradiction(f"it is not so: {what}")


def counted(count):
    """A number of events, as rdbg writes it."""
    return f"{count} event" if count == 1 else f"{count} events"


class Reading:
    """An explanation while it is read: its line without the seat, the reply, and the session before and after the line."""

    def __init__(self, line, reply, notes, before, after, taken):
        self.words = re.sub(r"^\d+ ", "", line).split()
        self.line, self.reply, self.notes = line, reply, notes
        self.before, self.after, self.taken = before, after, taken
        self.breakpoint = self.words[1] if self.words[0] in ("cut", "why") else None  # the one that the lines are about
        self.command = None  # the process and the command that the next line is about
        self.needed = {}  # for each process how many events of it the search for a cut says are needed
        self.columns = {}  # in the report of a halt, where the marks of each depth end
        self.recorded, self.required = defaultdict(list), defaultdict(list)  # by its topic, what was said, and what has to be

    @property
    def world(self):
        """The processes after the line."""
        return self.after.world

    @property
    def refusal(self):
        """The number of the refusal, or an empty text."""
        return self.reply.split()[1] if self.reply.startswith("no ") else ""

    @property
    def refused(self):
        """The words of the command that is refused: of a batch its first one."""
        return " ".join(self.words[1:]).split(" ; ")[0].split() if self.words[0] == "batch" else self.words

    @property
    def predicate(self):
        """The predicate of the breakpoint that the lines are about."""
        return self.after.breakpoints[self.breakpoint].predicate

    @property
    def cut(self):
        """The cut of that breakpoint, or None."""
        return self.after.cut(self.breakpoint)

    def record(self, topic, what):
        """Notes that a line says this of the topic."""
        self.recorded[topic].append(what)

    def require(self, topic, *what):
        """Demands that the explanation says this of the topic."""
        self.required[topic].extend(what)

    def check_line(self, note):
        """Checks a line by the one check that knows it."""
        kinds = [kind for kind in KINDS if kind.pattern.fullmatch(note)]
        if len(kinds) != 1:
            raise Contradiction(f"{len(kinds) or 'no'} checks know this line")
        try:
            kinds[0].check(self, **kinds[0].pattern.fullmatch(note).groupdict())
        except LookupError as missing:
            raise Contradiction(f"it names something that is not there: {missing}") from missing

    def check_refusal(self):
        """Checks the first line of the explanation of a refusal. Returns the other lines."""
        if not self.refusal:
            return self.notes
        same("the refusal", self.notes[:1], [MEANINGS[self.refusal]])
        return self.notes[1:]

    def check_whole(self):
        """Checks that everything is said that has to be, in its order, and nothing else."""
        for topic in {**self.recorded, **self.required}:
            same(f"all lines of the topic '{topic}'", self.recorded[topic], self.required[topic])

    def problem(self):
        """What is wrong with the explanation, or an empty text."""
        note = ""
        try:
            for note in self.check_refusal():
                self.check_line(note)
            note = ""
            self.check_whole()
        except Contradiction as contradiction:
            return f"{note!r}: {contradiction}" if note else str(contradiction)
        return ""
