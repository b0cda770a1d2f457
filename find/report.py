"""Says on standard error what a search did."""
import sys

from find.outcome import Ending

SHOWN = 12  # commands that never fired, at most

def say(text):
    """Says a text."""
    print(text, file=sys.stderr, flush=True)


def counted(number, word):
    """A number with a word, in the plural if it is not 1."""
    return f"{number:,} {word}{'' if number == 1 else 's'}"


def report_found(answer, steps):
    """Says what was found."""
    done = answer.outcome.done
    say(f"found: {counted(len(steps), 'event')}" + (f" ({done})" if done else ""))


def report_none(session, names, answer):
    """Says that nothing was found, what was done, and what may be the reason."""
    outcome = answer.outcome
    if outcome.ending is Ending.NONE:
        say(f"{'no schedule is stuck' if session.model.stuck else 'no schedule reaches it'}, {outcome.done}")
    else:
        say(f"none found so far: {outcome.done}; {outcome.reason}")
    never = [f"{name} never fired" for name in never_fired(session, names, outcome.fired)]
    more = [f"and {counted(len(never) - SHOWN, 'other')}"] if len(never) > SHOWN else []
    for line in [*never[:SHOWN], *more, *answer.advice]:
        say(line)


def never_fired(session, names, fired):
    """The commands that never fired, except for own events of the session."""
    own = {(process, command) for process, commands in enumerate(session.model.own) for command in commands}
    return [names[step].written() for step in session.model.steps if fired and not fired.get(step) and step not in own]
