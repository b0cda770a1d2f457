"""Claims of explanations about the state of a cut: the table of the processes, and the messages that cross it."""
from harness.claims import check, claim, counted, same
from harness.claims_commands import read_values
from harness.halts import since
from harness.language import holds, names, value_of_name

SHOWN_MESSAGES = 12


@claim(r"(?P<process>\w+)  +(?P<count>\d+) of (?P<events>\d+ events?)(?:  +holds (?:(?P<start>from the start)|since event (?P<event>\d+)))?"
       r"(?:  +(?P<values>[\w()]+ = .*))?")
def row(reading, process, count, events, start, event, values):
    """What a process has done in the cut, since when its part holds, and its variables in the cut."""
    world, count = reading.world, int(count)
    same("the events in the cut", count, reading.cut[process])
    same("the events", events, counted(world.place(process)))
    state, part = world.state(process, count), reading.predicate.get(process)
    counts = {name: value_of_name(name, state) for name in names(part) if "(" in name} if part else {}
    same("the variables, and the counts that the part names", read_values(values or ""), {**state.values, **counts})
    if part is None:
        same("a part is said to hold", bool(start or event), False)
    else:
        check("the part holds in the cut", holds(part, state))
        same("since when the part holds", 0 if start else int(event or -1), since(world, reading.predicate, process, count))
    reading.record("rows", process)


@claim(r"on the way  +from (?P<source>\w+) to (?P<target>\w+): (?P<messages>.*?)(?: and (?P<more>\d+) more)?")
def crossing(reading, source, target, messages, more):
    """The messages that are sent in the cut and not received in it."""
    true = reading.world.crossing(reading.cut, source, target)
    same("the messages", [int(n) for n in messages.split(", ")], true[:SHOWN_MESSAGES])
    same("how many are left out", int(more or 0), len(true[SHOWN_MESSAGES:]))
    reading.record("crossing", (source, target))


def require_cut(reading, name):
    """Demands the table of the cut of a breakpoint."""
    world, cut = reading.world, reading.after.cut(name)
    pairs = ((p, q) for p in world.program for q in world.program)
    reading.require("rows", *world.program)
    reading.require("crossing", *(pair for pair in pairs if world.crossing(cut, *pair)))


def require_cuts(reading):
    """Demands what has to be said of the cut of a breakpoint after this line."""
    if reading.words[0] in ("cut", "why") and not reading.refusal and reading.cut:
        require_cut(reading, reading.words[1])
