"""Claims of the report of a halt, in lines that do not wrap: where the parts hold, which events lead there, why here and not earlier, and what
one can do next."""
import math
import re

from harness import halts
from harness.claims import check, claim, counted, same
from harness.claims_commands import read_values
from harness.language import holds, names, value_of_name

SHOWN_MESSAGES, SHOWN_CHANNELS, SHOWN_PARTS, TIGHT_ROWS, FEW_PROCESSES = 4, 6, 4, 7, 4
MARK = re.compile(r"(\*?)(\d+)(?:-(\d+))?")


def shown(reading):
    """The processes that have rows, in order."""
    world, cut, predicate = reading.world, reading.cut, reading.predicate
    return [p for p in halts.order(world, cut, predicate) if halts.is_shown(world, cut, predicate, p)]


def is_tight(reading):
    """Whether there are so many rows that the rest is shorter."""
    return len(shown(reading)) > TIGHT_ROWS


@claim(r"HALTED by (?P<name>\w+): (?:its (?P<count>\d+) parts hold \(`breaks` shows them\)|(?P<predicate>.+))")
def halted_by(reading, name, count, predicate):
    """The breakpoint that halts the session, and its predicate. The lines after it are about it."""
    same("the breakpoint", name, reading.after.halting()[0])
    parts = reading.after.breakpoints[name].predicate
    same("the parts", int(count) if count else 0, len(parts) if len(parts) > SHOWN_PARTS else 0)
    if predicate:
        same("the predicate", predicate, reading.after.breakpoints[name].written())
    reading.breakpoint = name
    reading.record("halted by", name)


@claim(r"HALTED as before by (?P<name>\w+); `cut (?P<again>\w+)` shows where")
def halted_as_before(reading, name, again):
    """The breakpoint that halted the session before, at the same cut."""
    same("the breakpoint", (name, again), (reading.after.halting()[0],) * 2)
    same("the cut before", reading.before.cut(name), reading.after.cut(name))
    reading.record("halted as before", name)


@claim(r"(?P<count>\d+) of (?P<events>\d+ events?) (?P<verb>leads?) there \(= part holds, \. false, \* since this event\):")
def signs(reading, count, events, verb):
    """How many of the events are in the cut."""
    same("the events in the cut", int(count), sum(reading.cut.values()))
    same("the events", events, counted(sum(reading.world.places().values())))
    same("the verb", verb, "leads" if int(count) == 1 else "lead")
    reading.record("signs", reading.breakpoint)


def check_ground(reading, process, ground, count):
    """Checks what is between the marks of a process, after so many events."""
    part = reading.predicate.get(process)
    sign = " " if part is None else "=" if holds(part, reading.world.state(process, count)) else "."
    check(f"the part of {process} after {counted(count)}", set(ground) <= {sign})


def check_column(reading, depth, column):
    """Checks that marks of the same depth end in the same column, and deeper ones to the right. The bar is deeper than all marks."""
    same("the column", column, reading.columns.setdefault(depth, column))
    ends = [end for _, end in sorted(reading.columns.items())]
    check("deeper marks are to the right", ends == sorted(set(ends)))


@claim(r"(?P<star>\*| ) (?P<process>\w+)  (?P<lane>[ .=*\d-]+)\|(?: (?P<values>.*))?")
def lane(reading, star, process, lane, values):
    """The events of a process in the cut, as marks in columns by their depth, and where its part holds."""
    world, cut, predicate = reading.world, reading.cut, reading.predicate
    same("the process has a part", star == "*", process in predicate)
    offset, begin, count = len(f"* {process}  "), len(lane) - len(lane.lstrip(" ")), 0
    star_at = halts.since(world, predicate, process, cut[process]) if process in predicate else None
    found, wanted = list(MARK.finditer(lane)), halts.depths(world, cut, predicate)[process]
    for mark, ((first, last), depth) in zip(found, wanted):
        same("the events of the mark", (int(mark[2]), int(mark[3] or mark[2])), (first, last))
        same("the star", bool(mark[1]), first == star_at)
        check_column(reading, depth, offset + mark.end())
        check_ground(reading, process, lane[begin:mark.start()], count)
        begin, count = mark.end(), last
    same("the marks", len(found), len(wanted))
    check_ground(reading, process, lane[begin:], count)
    check_column(reading, math.inf, offset + len(lane))
    state, part = world.state(process, cut[process]), [predicate[process]] if process in predicate else []
    same("the values", read_values(values or ""), {name: value_of_name(name, state) for found in part for name in names(found)})
    reading.record("lanes", process)


@claim(r"  on the way  +(?P<channels>.*)")
def channels(reading, channels):
    """The messages that are sent in the cut and not received in it."""
    world, cut, told = reading.world, reading.cut, []
    pairs = [(p, q) for p in world.program for q in world.program if world.crossing(cut, p, q)]
    for source, target in pairs[:SHOWN_CHANNELS]:
        messages = world.crossing(cut, source, target)
        more = len(messages) - SHOWN_MESSAGES
        told.append(f"{source} to {target}: {', '.join(map(str, messages[:SHOWN_MESSAGES]))}" + (f" and {more} more" if more > 0 else ""))
    if len(pairs) > SHOWN_CHANNELS:
        told.append(f"and in {len(pairs) - SHOWN_CHANNELS} other channels")
    same("the messages", channels, "; ".join(told) or "nothing")
    reading.record("on the way", reading.breakpoint)


@claim(r"  not needed  +(?P<processes>.*)")
def not_needed(reading, processes):
    """The processes of which no event is needed."""
    rows = shown(reading)
    order = halts.order(reading.world, reading.cut, reading.predicate)
    same("the processes", processes.split(", "), [p for p in order if p not in rows])
    reading.record("not needed", reading.breakpoint)


@claim(r"  (?P<process>\w+)  +(?P<values>\w+ = [^|]*)")
def other_values(reading, process, values):
    """The variables of a process that has no part."""
    same("the variables", read_values(values), reading.world.state(process, reading.cut[process]).values)
    reading.record("other values", process)


@claim(r"why here  +(?P<why>.*)")
def why_here(reading, why):
    """Why the cut is a state of the session."""
    true = "no event left of the bar needs one right of it"
    if halts.are_concurrent(reading.world, reading.cut, reading.predicate):
        true = ("neither * comes before the other: both parts can hold at once" if len(reading.predicate) == 2
                else "no * comes before another: all parts can hold at once")
    same("why", why, true)
    for process, count in reading.cut.items():
        clock = reading.world.clock(process, count)
        check("no event of the cut needs one that is not in it", all(clock[p] <= reading.cut[p] for p in clock))
    reading.record("why here", reading.breakpoint)


def check_join(reading):
    """Checks that each event of the cut is the one since which a part holds, or comes before one."""
    world, cut, predicate = reading.world, reading.cut, reading.predicate
    clocks = [world.clock(p, halts.since(world, predicate, p, cut[p])) for p in predicate]
    same("what comes before a star", {p: max(clock[p] for clock in clocks) for p in cut}, cut)


@claim(r"no earlier  +(?P<why>.*)")
def no_earlier(reading, why):
    """Why the session does not halt at a smaller cut. A part that held before held too early."""
    world, cut, predicate = reading.world, reading.cut, reading.predicate
    check_join(reading)
    early = {p: n for p in predicate for n in [halts.held_before(world, predicate, p, cut[p])] if n is not None}
    told = []
    for process, held in early.items():
        reasons = halts.reasons(world, cut, process, held + 1)
        check(f"an event of the cut depends on event {held + 1} of {process}", reasons)
        other, number = reasons[0]
        told.append(f"{process} held after {counted(held)}, too, but {other} {number} comes after {process} {held + 1}")
    most = 1 if is_tight(reading) else 2
    true = "; ".join(told[:most]) + (f"; and so on for {len(told) - most} more" if len(told) > most else "")
    if not told:
        true = "a part is false before its *, and all else comes before a *"
        if not any(cut.values()) or all(halts.since(world, predicate, p, cut[p]) == 0 for p in predicate):
            true = "it holds from the start"
        elif len(predicate) == 1:
            true = "its part is false before the *, and all else comes before the *"
    same("why not", why, true)
    reading.record("no earlier", reading.breakpoint)


def undos(reading):
    """The undos that the last line of a report offers."""
    world, cut, found = reading.world, reading.cut, []
    for process in reading.predicate:
        last = world.place(process)
        if last and last == cut[process] and not world.receiver(process, last):
            found.append(f"`undo {process}` undoes {process} {last} alone")
    return [] if is_tight(reading) else found[:2]


@claim(r"`pass (?P<name>\w+)` (?:goes on|disarms it, and then the breakpoint (?P<other>\w+) halts)(?P<rest>; .*)")
def what_next(reading, name, other, rest):
    """How the session continues after `pass`, and what else one can do. The suite `advice` gives these commands."""
    same("the breakpoint", name, reading.breakpoint)
    others = [found for found in reading.after.halting() if found != name]
    same("the breakpoint that halts it then", other, others[0] if others else None)
    beyond = sum(reading.world.places().values()) - sum(reading.cut.values())
    told = [f"`goto {name}` undoes the {counted(beyond)} that {'is' if beyond == 1 else 'are'} not needed"] if beyond else []
    told += undos(reading)
    numbers = {p: halts.since(reading.world, reading.predicate, p, reading.cut[p]) for p in reading.predicate}
    told += [f"`how {p} {n}` says what led to it" for p, n in numbers.items() if n][:1]
    same("what one can do", rest, "".join(f"; {words}" for words in [*told, f"`cut {name}` shows all values"]))
    reading.record("what next", name)


@claim(r"(?P<reply>ok(?: .*)?)")
def reply_again(reading, reply):
    """The reply, as the last line."""
    same("the reply", reply, reading.reply)
    check("it is the last line", reading.notes[-1] == reply)
    reading.record("reply again", reply)


def require_values(reading):
    """Demands the variables of the processes that have no part, if there are few processes."""
    world, predicate = reading.world, reading.predicate
    if len(world.program) <= FEW_PROCESSES:
        reading.require("other values", *(p for p in shown(reading) if p not in predicate and world.program[p].variables))


def require_halts(reading):
    """Demands the report of a halt, or that it is the one before."""
    halting = reading.after.halting()
    if reading.words[0] in ("cut", "why") or not reading.reply.startswith("ok") or not halting or not reading.reply.endswith(f"halted {halting[0]}"):
        return
    name = reading.breakpoint = halting[0]
    if reading.before.halting()[:1] == [name] and reading.before.cut(name) == reading.cut:
        reading.require("halted as before", name)
        return
    for topic in ("halted by", "signs", "on the way", "why here", "no earlier", "what next"):
        reading.require(topic, name)
    rows = shown(reading)
    reading.require("lanes", *rows)
    reading.require("not needed", *([name] if len(rows) < len(reading.world.program) else []))
    require_values(reading)
    reading.require("reply again", reading.reply)
