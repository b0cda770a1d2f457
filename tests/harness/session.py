"""A session file, and what the program under test makes of it: its replies and its pictures."""
import re

from harness import TOP, Fault

DIRECTIVES = ("help", "on", "list", "state", "line", "how", "from", "draw", "session", "quit")  # of interactive sessions; they have no reply


def call(line):
    """A line as `run` takes it, with its seat, or nothing if it has no reply."""
    words = line.split()
    if words[0].startswith("#") or words[0] in DIRECTIVES:
        return ""
    return line if words[0].isdigit() else f"1 {line}"


def short_name(file):
    """The name of a session file in a report."""
    return str(file.relative_to(TOP)) if TOP in file.parents else str(file)


def draw(suite, form, file, **options):
    """A session as a picture. The program runs at the top of the repository."""
    ran = suite.rdbg("draw", "--as", form, short_name(file), **options)
    if ran.status != 0:
        raise Fault(f"rdbg draw --as {form}: status {ran.status} {ran.errors.decode(errors='replace')}")
    return ran.output


class Session:
    """A session file: its program, and its lines, which a page numbers from 1."""

    def __init__(self, suite, file):
        self.suite = suite
        self.program, _, lines = file.read_text(encoding="utf-8").partition("\n%%\n")
        self.lines = [line for line in lines.splitlines() if line.strip() and not line.strip().startswith(">")]
        self.processes = re.findall(r"\bprocess\s+(\w+)", self.program)
        self.breakpoints = list(dict.fromkeys(re.findall(r"\bbreak\s+(\w+)", lines)))

    @property
    def calls(self):
        """The lines that have a reply, by number."""
        calls = ((n, call(line)) for n, line in enumerate(self.lines, 1))
        return {n: line for n, line in calls if line}

    def run(self, calls, command="run"):
        """The lines that the program writes if these are the lines of the session."""
        ran = self.suite.rdbg(command, given=f"{self.program}\n%%\n" + "".join(f"{line}\n" for line in calls))
        if ran.status != 0:
            raise Fault(f"rdbg {command}: status {ran.status} {ran.errors.decode(errors='replace')}")
        return ran.output.decode().splitlines()

    def replies(self, questions):
        """The replies to the lines, by number. `questions` are asked after the lines of these numbers, and the key of an answer is both."""
        calls, asked = self.calls, {}
        for n in range(len(self.lines) + 1):
            if n in calls:
                asked[n] = calls[n]
            asked.update({(n, question): f"1 {question}" for question in questions.get(n, ())})
        replies = self.run(asked.values())
        if len(replies) != len(asked):
            raise Fault(f"{len(asked)} lines have {len(replies)} replies")
        return dict(zip(asked, replies))
