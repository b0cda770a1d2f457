"""Claims of explanations about breakpoints: their predicates, how far they are, and how the search for a cut went."""
import re

from harness.claims import check, claim, counted, same
from harness.claims_commands import check_false
from harness.language import holds


def past(reading, name):
    """The processes that have too few events for a breakpoint."""
    world = reading.world
    frontier = world.frontier(reading.after.breakpoints[name].predicate)
    return [p for p, n in frontier.items() if n > world.place(p)]


def require_distance(reading, name):
    """Demands that the lines after a predicate say what its cut is, or which parts do not hold yet."""
    reading.breakpoint = name
    if reading.cut:
        reading.require("first cut", name)
    else:
        reading.require("not yet", *((name, p) for p in past(reading, name)))


@claim(r"it holds first after these events: (?P<places>.*)")
def first_cut(reading, places):
    """The cut of a breakpoint: how many events of each process it has."""
    cut = {p: int(n) for n, p in (place.split(" of ") for place in places.split(", "))}
    same("the cut", cut, reading.cut)
    reading.record("first cut", reading.breakpoint)


@claim(r"not yet in (?P<process>\w+): (?P<reason>.*?)(?P<further>; it can now fire .*|; none of its commands can fire now)?")
def not_yet(reading, process, reason, further):
    """The part of a process that does not hold yet, and, after `why`, which commands of the process can fire."""
    check(f"{process} has too few events", process in past(reading, reading.breakpoint))
    check_false(reason, reading.predicate[process], reading.world.state(process))
    same("what can fire is said", bool(further), reading.words[0] == "why")
    if further:
        firing = [(int(n), int(line)) for n, line in re.findall(r"command (\d+) in line (\d+)", further)]
        commands = reading.world.program[process].commands
        same("what can fire", firing, [(n, commands[n].line) for n in reading.world.firing(process)])
    reading.record("not yet", (reading.breakpoint, process))


@claim(r"(?P<process>\w+): its part is false (?:after|in (?P<states>\d+) states that were looked at, the last of them after) (?P<last>\d+ events?)")
def false_states(reading, process, states, last):
    """In how many states the search found the part of a process to be false. It may have left out those before what is needed."""
    count, number = int(last.split()[0]), int(states or 1)
    same("the number of events", last, counted(count))
    false = [n for n in range(count + 1) if not holds(reading.predicate[process], reading.world.state(process, n))]
    check("it is false in the last of them", false[-1:] == [count])
    needed = reading.needed.get(process, 0)
    check(f"there are so many: {len(false)}", len([n for n in false if n >= needed]) <= number <= len(false))
    check("all states from what is needed up to there are false", set(range(needed, count + 1)) <= set(false))
    reading.record("ruled out", process)


@claim(r"(?P<process>\w+): at least (?P<count>\d+ events?), since event (?P<event>\d+) of (?P<other>\w+) depends on its event (?P<last>\d+)")
def needed(reading, process, count, event, other, last):
    """How many events of a process are needed for an event of another one, which is needed, too."""
    world, event, last = reading.world, int(event), int(last)
    same("the number of events", count, counted(last))
    same("the event that it depends on", last, world.clock(other, event)[process])
    frontier = world.frontier(reading.predicate)
    check("the other event is needed", frontier[other] >= event)
    check("so many events are needed", frontier[process] >= last)
    reading.record("ruled out", process)


@claim(r"what is left is the earliest state:")
def what_is_left(reading):
    """The search found a cut."""
    check("the breakpoint has a cut", reading.cut)
    reading.record("earliest", reading.breakpoint)


@claim(r"the part of (?P<process>\w+) held last after (?P<held>\d+ events?), but event (?P<event>\d+) of (?P<other>\w+) depends on event "
       r"(?P<last>\d+) of (?P<same_process>\w+)")
def held_too_early(reading, process, held, event, other, last, same_process):
    """The part of a process held too early."""
    world, part, count, last = reading.world, reading.predicate[process], int(held.split()[0]), int(last)
    same("the process", same_process, process)
    same("the number of events", held, counted(count))
    check("it held in an earlier state", count < last and holds(part, world.state(process, count)))
    check("it does not hold after that", not any(holds(part, world.state(process, n)) for n in range(count + 1, world.place(process) + 1)))
    check("the other event depends on this one", world.clock(other, int(event))[process] >= last)
    check("the other event is needed", world.frontier(reading.predicate)[other] >= int(event))
    reading.record("held too early", process)


@claim(r"(?P<name>\w+): (?P<predicate>.+), (?P<mark>armed|not armed), (?P<cut>has a cut|no cut yet)")
def listed(reading, name, predicate, mark, cut):
    """A breakpoint that `breaks` shows."""
    breakpoint = reading.after.breakpoints[name]
    same("the predicate", predicate, breakpoint.written())
    same("the mark", mark, "armed" if breakpoint.is_armed else "not armed")
    same("the cut", cut, "has a cut" if reading.after.cut(name) else "no cut yet")
    reading.record("listed", name)


@claim(r"(?P<name>\w+): (?P<predicate>\w+ (?:\(|true\b|false\b)[^,]*)")
def predicate(reading, name, predicate):
    """The predicate of a breakpoint. The lines after it are about the same one."""
    same("the predicate", predicate, reading.after.breakpoints[name].written())
    reading.record("predicate", name)
    require_distance(reading, name)


@claim(r"`pass (?P<name>\w+)` (?:lets the session continue|disarms it, and then the breakpoint (?P<other>\w+) halts the session)")
def passing(reading, name, other):
    """Whether the session continues after `pass`, or which breakpoint halts it then."""
    check("the breakpoint is armed and has a cut", name in reading.after.halting())
    others = [found for found in reading.after.halting() if found != name]
    same("the breakpoint that halts it then", other, others[0] if others else None)
    reading.breakpoint = name
    reading.record("passing", name)


@claim(r"(?:`goto (?P<name>\w+)` undoes the events that are not in its cut; )?`undo`, `rollback` and `back` undo what led there")
def going_back(reading, name):
    """Whether there are events that are not in the cut. That the others undo what led there says nothing of the state."""
    is_beyond = reading.cut != reading.world.places()
    same("the breakpoint to go to", name, reading.breakpoint if is_beyond else None)
    reading.record("going back", reading.breakpoint)


def require_continuing(reading, name):
    """Demands how the session continues after a halt."""
    reading.require("passing", name)
    reading.require("going back", name)


def require_predicate(reading):
    """Demands the predicate of the breakpoint that a line sets, or that it needs and that has no cut."""
    word, name = reading.refused[:2]
    is_first = reading.words[0] != "batch" or reading.reply.split()[2:3] == ["1"]
    number = reading.reply.split()[-1] if reading.refusal == "25" else reading.refusal
    if reading.reply.startswith("ok") and word == "break" and reading.words[0] == "break":
        reading.require("predicate", *([] if reading.reply == f"ok halted {name}" else [name]))
    elif is_first and number in ("11", "13"):
        reading.require("predicate", name)
    elif is_first and number == "9":
        reading.require("predicate", *reading.after.halting()[:1])
        require_continuing(reading, reading.after.halting()[0])
    elif is_first and number == "15" and reading.after.cut(name):
        require_continuing(reading, name)


def require_search(reading):
    """Demands what `why` has to say of each process."""
    world, name = reading.world, reading.words[1]
    frontier = world.frontier(reading.predicate)
    reading.needed = {p: int(n) for p, n in re.findall(r"(?m)^(\w+): at least (\d+) event", "\n".join(reading.notes))}
    reading.require("ruled out", *(p for p in ruled_out_lines(reading) if frontier[p]))
    reading.require("earliest", *([name] if reading.cut else []))
    for process in past(reading, name):
        reading.require("not yet", (name, process))
        early = range(reading.needed.get(process, 0))
        if any(holds(reading.predicate[process], world.state(process, n)) for n in early):
            reading.require("held too early", process)


def ruled_out_lines(reading):
    """The processes of which states are ruled out, each once for a part that is false and once for a need of another process."""
    world, predicate = reading.world, reading.predicate
    for process, count in world.frontier(predicate).items():
        if count > reading.needed.get(process, 0):
            yield process
        elif any(f"{process}: its part is false" in note for note in reading.notes):
            yield process
        if process in reading.needed:
            yield process


def require_breakpoints(reading):
    """Demands what has to be said of breakpoints after this line."""
    word = reading.words[0]
    if word == "breaks":
        reading.require("listed", *reading.after.breakpoints)
    elif word == "why" and not reading.refusal:
        require_search(reading)
    elif len(reading.refused) > 1:
        require_predicate(reading)
