"""Random sessions, the same each time. The program accepts most of their commands, and halts often."""
import random

from harness.language import read_program
from harness.player import Player
from harness.random_programs import random_program, truth
from harness.session import call

BREAKPOINTS = "kmn"
END = "%%\n"
FORMS = 20  # the sessions from this number on have forms of the notation in their guards
# How many of the lines with this refusal are kept, and how many of the other lines that are refused.
KEPT, OTHERS_KEPT = {"1": 1, "3": 1, "4": 1, "5": 1, "7": 1, "23": 1, "24": 0.5, "25": 0.3}, 0.1


class RandomSession:
    """A random session while its lines are chosen. It is played along, so that most commands are accepted."""

    def __init__(self, number):
        self.chance = random.Random(number)
        self.processes = random_program(self.chance, has_forms=number >= FORMS)
        self.program = "".join(process.written(self.chance) for process in self.processes.values())
        self.player = Player(read_program(self.program))

    def breakpoint_command(self):
        """A command that sets a breakpoint."""
        chosen = self.chance.sample(list(self.processes), self.chance.randint(1, min(3, len(self.processes))))
        parts = [f"{name} {truth(self.chance, self.processes[name])}" for name in chosen]
        if len(chosen) > 1 and self.chance.random() < 0.2:  # one that holds in no order
            source, target, count = *chosen[:2], self.chance.randrange(2)
            parts[:2] = [f"{source} (sent({target}) = {count})", f"{target} (got({source}) > {count})"]
        return f"break {self.chance.choice(BREAKPOINTS)} {' '.join(parts)}"

    def command(self):
        """A command that is not a batch."""
        process, name = self.chance.choice(list(self.processes)), self.chance.choice(BREAKPOINTS)
        place = self.player.state.world.place(process)
        weights = {
            f"next {process}": 10, f"step {process} {self.chance.randrange(5)}": 8, f"undo {process}": 2, f"redo {process}": 3,
            f"rollback {process} {self.chance.randrange(place + 2)}": 1, f"goto {name}": 1, self.breakpoint_command(): 2,
            f"clear {name}": 0.7, f"arm {name}": 1, f"pass {name}": 2}
        return self.chance.choices(list(weights), list(weights.values()))[0]

    def question(self):
        """A query, or a directive of an interactive session. A query has a seat."""
        process, other = self.chance.sample(list(self.processes), 2)
        name, seat = self.chance.choice(BREAKPOINTS), self.chance.choice("12")
        return self.chance.choice([
            f"{seat} vars {process}", f"{seat} chan {process} {other}", f"{seat} clock {process}", f"{seat} place {process}",
            f"{seat} can {process}", f"{seat} can {process}", f"{seat} cut {name}", *[f"{seat} why {name}"] * 4, f"{seat} breaks", "on",
            f"on {process}", "list", f"list {process}", "state", f"state {process}", f"line {process}"])

    def wrong_line(self):
        """A line that is refused for its words, or a directive for a process that there is not."""
        process, other = self.chance.sample(list(self.processes), 2)
        own, name = self.processes[process].variables[0], self.processes[other].variables[0]
        return self.chance.choice([
            "1 next nobody", f"1 chan {process} nobody", "state nobody", "on nobody", "list nobody", "line nobody",
            f"1 batch next {process} ; undo nobody", f"1 batch break k {process} (nothing = 1) ; next {process}",
            f"1 break k {process} (nothing = 1)", f"1 break k {process} (({own} = 1) and ({name} = 1))", f"1 break k {process} ({own} + 1)",
            f"1 break k {process} true {process} ({own} < 3)", f"1 break k nobody ({name} = 1)", f"1 break k {other}", "1 break k",
            f"1 step {process}", f"1 nxet {process}", f"17 undo {process}", f"1 batch next {process} ;"])

    def line(self):
        """A line of a session."""
        seat, kind = self.chance.choices("12", [9, 1])[0], self.chance.random()
        if kind < 0.02:
            process = self.chance.choice(list(self.processes))
            return f"{seat} batch " + " ; ".join([f"next {process}"] * self.chance.randint(5, 25))
        if kind < 0.1:
            return f"{seat} batch " + " ; ".join(self.command() for _ in range(self.chance.randint(1, 4)))
        if kind < 0.18:
            return f"{seat} back"
        if kind < 0.2:
            return self.wrong_line()
        return self.question() if kind < 0.38 else f"{seat} {self.command()}"

    def is_kept(self, line):
        """Plays the line, and says whether it belongs to the session. A line that is refused leaves the session as it is."""
        reply = self.player.reply(line) if call(line) else "ok"
        return not reply.startswith("no ") or self.chance.random() < KEPT.get(reply.split()[1], OTHERS_KEPT)

    def text(self):
        """The session file."""
        lines = filter(self.is_kept, iter(self.line, ""))
        return self.program + END + "".join(f"{next(lines)}\n" for _ in range(self.chance.randint(30, 120)))


def random_session(number):
    """A session file's text."""
    return RandomSession(number).text()
