"""Claims of explanations about what prevents a command: the other events, breakpoints and seats."""
from harness.claims import MEANINGS, check, claim, counted, same
from harness.lines import commands_of
from harness.player import do
from harness.world import Refused


@claim(r"(?P<process>\w+) has (?:only command 0|commands 0 to (?P<last>\d+)|(?P<none>no) command)")
def commands(reading, process, last, none):
    """Which commands a process has."""
    same("the process", process, reading.refused[1])
    same("the number of commands", 0 if none else int(last or 0) + 1, len(reading.world.program[process].commands))
    reading.record("reason", "2")


@claim(r"(?P<process>\w+) is at its start")
def at_start(reading, process):
    """A process has no event."""
    same("the process", process, reading.refused[1])
    same("the events", reading.world.place(process), 0)
    reading.record("reason", "6")


@claim(r"(?P<process>\w+)'s redo list is empty; `next` and `step` make new events")
def at_end(reading, process):
    """A process has nothing to redo."""
    same("the process", process, reading.refused[1])
    same("what is to redo", reading.world.redo[process], ())
    reading.record("reason", "8")


@claim(r"(?P<process>\w+) has (?P<events>\d+ events?)")
def events(reading, process, events):
    """How many events a process has."""
    same("the process", process, reading.refused[1])
    same("the events", events, counted(reading.world.place(process)))
    reading.record("reason", "10")


@claim(r"(?P<receiver>\w+) received the message of event (?P<sent>\d+) of (?P<process>\w+) by its event (?P<received>\d+)")
def consequence(reading, receiver, sent, process, received):
    """Which event received the message of the last event of a process."""
    same("the process", process, reading.refused[1])
    same("its last event", int(sent), reading.world.place(process))
    same("the receipt", (receiver, int(received)), reading.world.receiver(process, int(sent)))
    reading.record("reason", "7")


@claim(r"`rollback (?P<process>\w+) (?P<count>\d+)` undoes this event and all events that depend on it")
def rollback(reading, process, count):
    """Which rollback undoes an event. The events that depend on it are those in whose clocks it is, and the suite gives the command."""
    same("the command", (process, int(count)), (reading.refused[1], reading.world.place(process) - 1))
    kept = reading.world.rollback_places(process, int(count))
    check("an event of another process is undone", any(reading.world.place(p) > n for p, n in kept.items() if p != process))
    reading.record("rollback", process)


@claim(r"no breakpoint is set|the only breakpoint is (?P<name>\w+)|the breakpoints are (?P<names>\w+(?:, \w+)+)")
def breakpoints(reading, name, names):
    """Which breakpoints there are."""
    same("the breakpoints", [name] if name else names.split(", ") if names else [], list(reading.after.breakpoints))
    reading.record("reason", "12")


@claim(r"`arm (?P<name>\w+)` arms it")
def arm(reading, name):
    """A breakpoint is not armed."""
    same("the breakpoint", name, reading.refused[1])
    check("it is not armed", not reading.after.breakpoints[name].is_armed)
    reading.record("reason", "14")


@claim(r"every accepted command is already taken back; queries and refused lines leave nothing to take back")
def nothing_back(reading):
    """No command is left to take back."""
    same("the commands that are left", reading.taken, [])
    reading.record("reason", "16")


@claim(r"`(?P<seat>\d+) back` takes it back")
def other_seat(reading, seat):
    """Which seat gave the last command."""
    same("the seat", seat, reading.taken[-1][0])
    reading.record("reason", "17")


@claim(r"command (?P<at>\d+) of the batch, `(?P<command>.*)`: (?P<meaning>.*)")
def in_batch(reading, at, command, meaning):
    """Which command of a batch is refused, and the meaning of the refusal."""
    _, _, shown, number = reading.reply.split()
    same("its position", at, shown)
    words = commands_of(reading.words)[int(at) - 1]
    same("the command", command.split(), words[:2] if words[0] == "break" else words)
    same("the meaning", meaning, MEANINGS[number])
    reading.record("batch", int(at))


def state_in_batch(reading):
    """The session after the commands of a batch that are before the refused one."""
    state = reading.before
    for words in commands_of(reading.words)[:int(reading.reply.split()[2]) - 1]:
        try:
            state = do(state, words)[1]
        except Refused as refused:
            check(f"`{' '.join(words)}` is accepted: {refused}", False)
    return state


@claim(r"the commands before it were accepted, and are undone: of a batch all commands are made, or none")
def undone_batch(reading):
    """The commands before the refused one are accepted, and have left nothing."""
    state_in_batch(reading)
    same("what the batch changed", reading.after, reading.before)
    reading.record("undone batch", reading.line)


@claim(r"after the commands before it, a breakpoint halts the session: (?P<names>\w+(?: or \w+)*)")
def halted_batch(reading, names):
    """Which breakpoint halts the session in a batch."""
    check(f"one of them halts: {state_in_batch(reading).halting()}", state_in_batch(reading).halting()[0] in names.split(" or "))
    reading.record("halted batch", reading.line)


# The refusals that have a line of their own, besides their meaning.
WITH_REASON = ("2", "6", "7", "8", "10", "12", "14", "16", "17")


def require_refusals(reading):
    """Demands what has to be said of a refusal, or of a query `can`."""
    number, at = reading.refusal, "1"
    if reading.reply.startswith("can ") and " no 7 " in reading.reply:
        number = "7"
    if number == "25":
        _, _, at, number = reading.reply.split()
        reading.require("batch", int(at))
        if at != "1":
            reading.require("halted batch" if number == "9" else "undone batch", reading.line)
    if at == "1" and number in WITH_REASON:
        reading.require("reason", number)
        reading.require("rollback", *([reading.refused[1]] if number == "7" else []))
