"""An interactive session line by line, and what is wrong with its explanations."""
from harness import Fault
from harness.claims import Reading
from harness.claims_breakpoints import require_breakpoints
from harness.claims_commands import require_commands
from harness.claims_cuts import require_cuts
from harness.claims_events import require_events
from harness.claims_halts import require_halts
from harness.claims_refusals import require_refusals
from harness.claims_words import require_words
from harness.language import read_program
from harness.player import Player
from harness.session import call


WIDE = 1000  # columns, so that no line wraps


class Talked:
    """A line of an interactive session, with its reply, which a directive does not have, and its explanation."""

    def __init__(self, line, reply, notes):
        self.line, self.reply, self.notes = line, reply, notes
        self.state = None  # the session after it


def talked_lines(suite, program, lines):
    """The lines of an interactive session."""
    ran = suite.rdbg("talk", given=program + "".join(f"{line}\n" for line in lines), columns=WIDE)
    if ran.status != 0:
        raise Fault(f"talk: status {ran.status}")
    written, talked = [line for line in ran.output.decode().splitlines() if line], []
    for line in lines:
        if not written or written.pop(0) != line:
            raise Fault(f"talk does not write the line {line!r} where it is due")
        reply = written.pop(0) if call(line) else ""
        notes = []
        while written and written[0].startswith("  "):
            notes.append(written.pop(0)[2:])
        talked.append(Talked(line, reply, notes))
    if written:
        raise Fault(f"talk writes {written[0]!r} after its last line")
    return talked


def problem_of_line(player, talked):
    """What is wrong with the reply to a line, or with its explanation."""
    before, taken = player.state, list(player.taken)
    reply = player.reply(call(talked.line)) if call(talked.line) else ""
    talked.state = player.state
    if reply != talked.reply:
        return f"the reply is {talked.reply!r}, and the model's is {reply!r}"
    reading = Reading(talked.line, reply, talked.notes, before, player.state, taken)
    for require in (require_events, require_commands, require_breakpoints, require_cuts, require_halts, require_refusals, require_words):
        require(reading)
    return reading.problem()


def problem_of_explanations(program, talked):
    """The first line of a session whose explanation contradicts the state, and how."""
    player = Player(read_program(program))
    for at, line in enumerate(talked, 1):
        problem = problem_of_line(player, line)
        if problem:
            return f"line {at}, {line.line}: {line.reply}: {problem}"
    return ""
