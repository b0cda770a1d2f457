"""Claims of explanations about commands: which can fire, and what prevents the others; and about the values of a process."""
import re
from itertools import groupby

from harness.claims import check, claim, same
from harness.claims_refusals import state_in_batch
from harness.counts import counted_parts
from harness.language import faults, holds, names, parts, value_of_name, written
from harness.lines import commands_of

HALTED = "the breakpoint (?P<name>\\w+) halts the session"


def read_values(text):
    """The values of a line, by name."""
    return {name: int(value) for name, value in (pair.split(" = ") for pair in text.split(", ") if pair)}


def check_values(shown, expressions, state):
    """Checks the values of the names in some expressions."""
    same("the values", read_values(shown or ""), {name: value_of_name(name, state) for found in expressions for name in names(found)})


def is_true_part(part, state):
    """Whether so many members of a part hold as have to."""
    least, members = part
    return sum(holds(member, state) for member in members) >= least


def count_of(least, members, state):
    """How many members hold, in words."""
    return f"{sum(holds(member, state) for member in members)} of {len(members)} hold, {least} {'is' if least == 1 else 'are'} needed"


def faulting_part(expression, state):
    """The smallest part of an expression that faults, which is evaluated first."""
    for part in parts(expression):
        if faults(part, state):
            return faulting_part(part, state)
    return expression


def check_fault(text, expression, state):
    """Checks a text that says where an expression faults."""
    found = re.fullmatch(r"(?P<whole>.*) faults(?: at (?P<part>[^:]*))?(?:: (?P<values>.*))?", text)
    check(f"{written(expression)} faults", found and faults(expression, state))
    part = faulting_part(expression, state)
    same("what faults", (found["whole"], found["part"]), (written(expression), None if part is expression else written(part)))
    check_values(found["values"], [expression], state)


def check_false(text, expression, state):
    """Checks a text that says why a truth expression does not hold: its first part that is false, or that it faults."""
    check(f"{written(expression)} does not hold", not holds(expression, state))
    if faults(expression, state):
        return check_fault(text, expression, state)
    found = re.fullmatch(r"(?:(?P<count>\d+ of .*); )?(?P<false>.*) (?P<word>is|are) false(?:: (?P<values>.*))?", text)
    least, members = next(part for part in counted_parts(expression, state) if not is_true_part(part, state))
    failing = [member for member in members if not holds(member, state)]
    same("what is false", found and found["false"], ", ".join(map(written, failing)))
    same("its word", found["word"], "is" if len(failing) == 1 else "are")
    same("how many hold", found["count"], count_of(least, members, state) if len(members) > 1 else None)
    return check_values(found["values"], failing, state)


def check_verdict(text, hindrance):
    """Checks a text that says what prevents a command from firing, or that it can fire."""
    if text == "it can fire" or not hindrance:
        return same("what prevents it", text, "it can fire" if not hindrance else hindrance)
    if hindrance.refusal == 3:
        return check_false(text, hindrance.expression, hindrance.state)
    if hindrance.refusal == 5:
        return same("what prevents it", text, f"no message from {hindrance.source} is on its way")
    begin = "" if hindrance.message is None else f"with the message {hindrance.message}, "
    check(f"the message is {hindrance.message}", text.startswith(begin))
    return check_fault(text[len(begin):], hindrance.expression, hindrance.state)


@claim(r"(?P<process>\w+): command (?P<number>\d+) in line (?P<line>\d+): (?P<text>.*;)")
def command(reading, process, number, line, text):
    """A command that `on` or `list` shows. `on` shows those that can fire."""
    number, found = int(number), reading.world.program[process].commands[int(number)]
    same("the command", (text, int(line)), (found.text, found.line))
    if reading.words[0] == "on":
        check("it can fire", not reading.world.hindrance(process, number))
    reading.command = (process, number)
    reading.record("commands", reading.command)


@claim(r"  (?P<verdict>it can fire|no message from \w+ is on its way|.* (?:(?:is|are) false|faults).*)")
def verdict_of_list(reading, verdict):
    """What prevents the command that `list` shows in the line before, or that it can fire."""
    check("a command is in the line before", reading.command)
    check_verdict(verdict, reading.world.hindrance(*reading.command))
    reading.record("verdicts", reading.command)
    reading.command = None


PARTS = r"a part of its guard is false|\d+ of \d+ hold, \d+ (?:is|are) needed"


def refused_now(reading):
    """The command that is refused, of a batch the one of it, and the processes in the state in which it is."""
    if reading.refusal != "25":
        return reading.refused, reading.world
    at = int(reading.reply.split()[2])
    return commands_of(reading.words)[at - 1], reading.world if at == 1 else state_in_batch(reading).world


@claim(rf"command (?P<number>\d+) in line (?P<line>\d+): (?P<verdict>(?!(?:{PARTS})$).*)")
def verdict_of_refusal(reading, number, line, verdict):
    """What prevents a command that is refused."""
    words, world = refused_now(reading)
    process, number = words[1], int(number)
    same("the line of the command", int(line), world.program[process].commands[number].line)
    check_verdict(verdict, world.hindrance(process, number))
    reading.record("verdicts", (process, number))


@claim(rf"command (?P<number>\d+) in line (?P<line>\d+): (?P<said>{PARTS})")
def parts_of_refusal(reading, number, line, said):
    """A command is refused because of its guard, of which each part has a line after this one. Of the only part, its members have."""
    words, world = refused_now(reading)
    process, number = words[1], int(number)
    same("the line of the command", int(line), world.program[process].commands[number].line)
    hindrance = world.hindrance(process, number)
    check("its guard is false", hindrance and hindrance.refusal == 3)
    reading.record("verdicts", (process, number))
    lines = list(signed_parts(hindrance.expression, hindrance.state))
    is_alone = len(counted_parts(hindrance.expression, hindrance.state)) == 1
    same("what is said", said, lines[0][1] if is_alone else "a part of its guard is false")
    for sign, text, expressions in lines[is_alone:]:
        reading.require("parts", (sign, text, *values_of(expressions, hindrance.state)))


def values_of(expressions, state):
    """The values of the names in some expressions, in their order by name."""
    return sorted({name: value_of_name(name, state) for found in expressions for name in names(found)}.items())


def signed_parts(expression, state):
    """What has to be said of the parts of a guard: for each a sign, the text, and the expressions whose values follow."""
    for part in counted_parts(expression, state):
        least, members = part
        sign = "+" if is_true_part(part, state) else "-"
        if len(members) == 1:
            yield sign, written(members[0]) + (" faults" if faults(members[0], state) else ""), members
            continue
        yield sign, count_of(least, members, state), []
        for holding, group in groupby(members, lambda member: holds(member, state)):
            group = list(group)
            yield "    +" if holding else "    -", ", ".join(map(written, group)), group


@claim(r"(?P<sign>(?:    )?[-+]) (?P<text>[^:]*)(?:: (?P<values>.*))?")
def part_of_guard(reading, sign, text, values):
    """A part of the guard of a refused command, or a member of one, and whether it holds."""
    reading.record("parts", (sign, text, *sorted(read_values(values or "").items())))


@claim(r"no command of (?P<process>any process|\w+) can fire")
def none_fires(reading, process):
    """`on` shows no command."""
    same("the process", process, (reading.words[1:] or ["any process"])[0])
    check("none can fire", not any(map(reading.world.firing, processes_of(reading))))
    reading.record("none fires", process)


@claim(HALTED + ": `pass` lets it continue")
def halted(reading, name):
    """A breakpoint halts the session, and no other one does after `pass`."""
    same("the breakpoints that halt the session", [name], reading.after.halting())
    reading.record("halted", name)


@claim(HALTED + ": `pass` disarms it, and then the breakpoint (?P<other>\\w+) does")
def halted_twice(reading, name, other):
    """The same if another breakpoint does."""
    same("the breakpoints that halt the session", [name, other], reading.after.halting()[:2])
    reading.record("halted", name)


@claim(r"(?P<process>\w+), place (?P<place>\d+) of (?P<length>\d+)(?:: (?P<values>.*))?")
def values(reading, process, place, length, values):
    """The place of a process, its variables, and the counts that are not 0."""
    same("the place", (int(place), int(length)), (reading.world.place(process), reading.world.length(process)))
    state = reading.world.state(process)
    counts = {f"{word}({other})": n for word in ("sent", "got") for other, n in getattr(state, word).items() if n}
    same("the values", read_values(values or ""), {**state.values, **counts})
    reading.record("values", process)


@claim(r"(?P<source>\w+) -> (?P<target>\w+):(?P<messages>(?: -?\d+)+)")
def channel(reading, source, target, messages):
    """The messages on their way from one process to another."""
    same("the messages", [int(n) for n in messages.split()], [message for message, _ in reading.world.channel(source, target)])
    reading.record("channels", (source, target))


def processes_of(reading):
    """The processes that a directive asks for, without a name that is not one."""
    return [p for p in reading.words[1:] or reading.world.program if p in reading.world.program]


def require_refused(reading):
    """Demands the verdicts after a refusal by 3, 4, 5 or 24."""
    refusal = reading.refusal
    if refusal == "25":
        at, refusal = reading.reply.split()[2:]
        commands = commands_of(reading.words)[:int(at)]
        if int(at) > 1 and any(words[0] not in ("step", "next") for words in commands):
            return
    if refusal not in ("3", "4", "5", "24"):
        return
    words, world = refused_now(reading)
    word, process = words[:2]
    if refusal == "24":
        reading.require("verdicts", *((process, n) for n in range(len(world.program[process].commands))))
    else:
        reading.require("verdicts", (process, world.redo[process][0] if word == "redo" else int(words[2])))


def require_commands(reading):
    """Demands what has to be said of commands and values after this line."""
    word, world = reading.words[0], reading.world
    if word in ("on", "list", "state") and not processes_of(reading):
        return
    if word in ("on", "list"):
        numbers = {p: range(len(world.program[p].commands)) if word == "list" else world.firing(p) for p in processes_of(reading)}
        shown = [(p, n) for p in numbers for n in numbers[p]]
        reading.require("commands", *shown)
        reading.require("verdicts", *(shown if word == "list" else []))
        reading.require("none fires", *([] if shown or word == "list" else [(reading.words[1:] or ["any process"])[0]]))
        reading.require("halted", *reading.after.halting()[:1])
    elif word == "state":
        shown = processes_of(reading)
        reading.require("values", *shown)
        pairs = ((p, q) for p in world.program for q in world.program if p in shown or q in shown)
        reading.require("channels", *(pair for pair in pairs if world.channel(*pair)))
    elif reading.refusal:
        require_refused(reading)
