"""Claims of explanations about events, and about how many events each process has."""
import re

from harness.claims import check, claim, counted, same
from harness.lines import commands_of

SETTING = re.compile(r"(\w+) (?:(-?\d+) -> (-?\d+)|stays (-?\d+))")
MOVES = ("rollback", "goto", "back", "batch")


def written_message(world, process, event):
    """The message of an event, as a line about the event shows it."""
    if not event.action:
        return None
    if event.action == "send":
        return f"{event.message} > {event.partner}"
    sender = world.sends(event.partner, process)[event.count - 1][1]
    return f"{event.message} < {event.partner} {sender}"


def read_settings(text):
    """The variables that a line about an event says were set, each with its values before and after."""
    settings = {}
    for setting in filter(None, text.split(", ")):
        name, old, new, kept = SETTING.fullmatch(setting).groups()
        check(f"{setting}: the values differ", old is None or old != new)
        settings[name] = (int(kept), int(kept)) if old is None else (int(old), int(new))
    return settings


@claim(r"(?P<process>\w+) (?P<number>\d+)  +(?:(?P<message>-?\d+ [<>] \w+(?: \d+)?)(?:  +))?(?P<undone>undone: )?"
       r"(?P<settings>(?:\w+ (?:-?\d+ -> -?\d+|stays -?\d+)(?:, )?)*) *:(?P<line>\d+) command (?P<command>\d+)")
def event(reading, process, number, message, undone, settings, line, command):
    """A line about an event: its message, the variables that it set, and its command. An undone event is one of the session before."""
    same("the event is shown as undone", bool(undone), reading.words[0] == "undo")
    world = reading.before.world if undone else reading.world
    found = world.events[process][int(number) - 1]
    same("the message", message, written_message(world, process, found))
    same("the settings", read_settings(settings), found.settings)
    same("the command", int(command), found.command)
    same("the line of the command", int(line), world.program[process].commands[found.command].line)
    reading.record("events", (process, int(number)))


@claim(r"(?P<process>\w+): (?:(?P<way>back from|from) (?P<old>\d+) to )?(?P<count>\d+ events?)(?:, (?P<redo>\d+) to redo)?")
def moved(reading, process, way, old, count, redo):
    """How many events a process has now, how many it had before, and how many it can make again."""
    before, after = reading.before.world.place(process), reading.world.place(process)
    same("the events now", count, counted(after))
    same("the way", way, None if before == after else "from" if before < after else "back from")
    same("the events before", old, None if before == after else str(before))
    same("what is to redo", int(redo or 0), len(reading.world.redo[process]))
    reading.record("moves", process)


@claim(r"taken back: `(?P<line>.*)`")
def taken_back(reading, line):
    """Which command `back` took back."""
    same("the command", line, reading.taken[-1][1])
    reading.record("taken back", line)


@claim(r"(?P<process>\w+) is here: place (?P<place>\d+) of (?P<length>\d+)")
def here(reading, process, place, length):
    """The place of a process, after its events."""
    same("the place", (int(place), int(length)), (reading.world.place(process), reading.world.length(process)))
    reading.record("here", process)


@claim(r"to redo: command (?P<number>\d+) in line (?P<line>\d+)")
def to_redo(reading, number, line):
    """A command that a process can make again."""
    same("the line of the command", int(line), reading.world.program[reading.words[1]].commands[int(number)].line)
    reading.record("to redo", int(number))


def made_in_batch(reading, process):
    """The numbers of the events that a batch made of a process, and that are still there."""
    old = reading.before.world.events[process]
    new = reading.world.events[process]
    return [n for n, made in enumerate(new, 1) if not any(made is kept for kept in old)]


def shown_of_batch(reading, process):
    """The same, without those of a process that made one before a `rollback` or a `goto` of the batch."""
    commands = commands_of(reading.words)
    lasting = max((at for at, words in enumerate(commands) if words[0] in ("rollback", "goto")), default=-1)
    early = [words for words in commands[:max(lasting, 0)] if words[0] in ("step", "next", "redo") and words[1] == process]
    return [] if early else made_in_batch(reading, process)


def require_moves(reading):
    """Demands a line for each process whose number of events, or line, is another, and for each event that a batch made."""
    before = reading.before.world
    for process in before.program:
        made = shown_of_batch(reading, process) if reading.words[0] == "batch" else []
        old, new = ((world.place(process), world.length(process)) for world in (before, reading.world))
        reading.require("moves", *([process] if made or old != new else []))
        reading.require("events", *((process, n) for n in made))


def require_events(reading):
    """Demands what has to be said of the events after this line."""
    word, process = reading.words[0], reading.words[-1]
    if word == "line" and process in reading.world.program:
        reading.require("events", *((process, n) for n in range(1, reading.world.place(process) + 1)))
        reading.require("here", process)
        reading.require("to redo", *reading.world.redo[process])
    elif reading.reply.startswith("ok") and word in MOVES:
        require_moves(reading)
        reading.require("taken back", *([reading.taken[-1][1]] if word == "back" else []))
    elif reading.reply.startswith("ok") and word in ("step", "next", "redo", "undo"):
        world = reading.before.world if word == "undo" else reading.world
        reading.require("events", (reading.words[1], world.place(reading.words[1])))
