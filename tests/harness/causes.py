"""What `how P N` and `from P X` say in an interactive session of a plain program, compared with a model of the session.

For some events and variables, the model works out each row of the answer: the values of the guard with the event since which they are so, the
events before and after, the chains of messages, and the command that undoes the event. That command is then given, and taken back.
"""
import random
import re

from harness import Fault
from harness.explanations import talked_lines
from harness.language import conjuncts, names, read_program, value_of_name, written
from harness.player import Player, pairs
from harness.session import call

END = "%%\n"
EVENTS, VARIABLES, STEPS = 4, 3, 32  # how many are asked for, and how many steps are shown at most
PLACE = re.compile(r"  +:\d+ command \d+$")
HOP = re.compile(r" -(-?\d+)-> (\w+) (\d+)(?: \.\. (\d+))?")
LABELS = ("comes after", "led to", "concurrent", "from", "to undo it")


def ranges(world, first, last):
    """Events in words: those of each process from one number to another."""
    found = [(p, first[p], last[p]) for p in world.program if first[p] <= last[p]]
    return ", ".join(f"{p} {low}" if low == high else f"{p} {low}-{high}" for p, low, high in found)


def named_values(world, process, expression):
    """The values that an expression names: first variables, then counts."""
    others = [f"{word}({p})" for word in ("sent", "got") for p in world.program]
    return [name for name in [*world.program[process].variables, *others] if name in names(expression)]


def writes(event, name):
    """Whether an event writes a value."""
    count = re.fullmatch(r"(sent|got)\((\w+)\)", name)
    if count:
        return (event.action, event.partner) == ({"sent": "send", "got": "recv"}[count[1]], count[2])
    return name in event.settings


def origin(world, process, count, name):
    """The number of the last event that wrote a value of a process which it has after so many of its events. 0 is the start."""
    return max((n for n, event in enumerate(world.events[process][:count], 1) if writes(event, name)), default=0)


def since(world, process, count, name):
    """What is said of a value that a process has after so many of its events."""
    number = origin(world, process, count, name)
    value = value_of_name(name, world.state(process, count))
    if not number:
        return f"{name} = {value} from the start"
    old = value_of_name(name, world.state(process, number - 1))
    was = "" if old == value or "(" in name else f" (was {old})"
    return f"{name} = {value}{was} since {process} {number}"


def sender(world, process, number):
    """The event that sent the message which an event received."""
    event = world.events[process][number - 1]
    return event.partner, world.sends(event.partner, process)[event.count - 1][1]


def reasons(world, process, number):
    """What is said of the guard of an event, and of its message."""
    event = world.events[process][number - 1]
    for part in conjuncts(world.program[process].commands[event.command].guard):
        yield written(part)
        for name in named_values(world, process, part):
            yield since(world, process, number - 1, name)
    if event.action == "recv":
        yield "{} sent by {} {}".format(event.message, *sender(world, process, number))


def rows(world, process, number):
    """The rows about the events before an event and after it, by their labels."""
    clock, places = world.clock(process, number), world.places()
    before = {p: clock[p] - (p == process) for p in world.program}
    after = {p: 1 + sum(event.clock[process] < number for event in events) for p, events in world.events.items()}
    counts = ", ".join(f"{count} of {p}" for p, count in before.items() if count)
    total = f"{sum(before.values()) or 'none'} of {sum(places.values()) - 1} others"
    yield "comes after", f"{counts}: {total}" if counts else total
    later = {**after, process: number + 1}
    yield "led to", ranges(world, later, places) or "no event"
    others = ranges(world, {p: clock[p] + 1 for p in world.program}, {p: after[p] - 1 for p in world.program})
    if others:
        yield "concurrent", others
    left = world.rollback_places(process, number - 1)
    undone = ranges(world, {p: left[p] + 1 + (p == process) for p in world.program}, places)
    alone = f"`undo {process}`: {process} {number} alone"
    yield "to undo it", f"`rollback {process} {number - 1}`: with {undone}" if undone else alone


def distances(world, process, number):
    """The fewest messages from each process to an event."""
    least, level, count = {(process, number): 0}, [(process, number)], 0
    while level:
        further = []
        for at in level:  # (it grows)
            p, n = at
            if n > 1 and (p, n - 1) not in least:
                least[p, n - 1] = count
                level.append((p, n - 1))
            if world.events[p][n - 1].action == "recv":
                further.append(sender(world, p, n))
        count += 1
        level = [at for at in dict.fromkeys(further) if at not in least]
        least.update({at: count for at in level})
    return {p: min(found for (q, _), found in least.items() if q == p) for p in {q for q, _ in least} - {process}}


def chain_problem(world, event, process, words, fewest):
    """What is wrong with a chain of messages from a process to an event."""
    begin, hops = re.match(rf"{process} (\d+)", words), HOP.findall(words)
    if not begin or begin[0] + "".join(hop[0] for hop in HOP.finditer(words)) != words:
        return f"it is {words}"
    at = (process, int(begin[1]))
    for value, receiver, number, until in hops:
        received = world.events[receiver][int(number) - 1]
        if received.action != "recv" or sender(world, receiver, int(number)) != at or received.message != int(value):
            return f"{receiver} {number} does not receive {value} from {at[0]} {at[1]}"
        at = (receiver, int(until or number))
    if at != event or len(hops) != fewest:
        return f"it ends with {at}, and has {len(hops)} messages in place of {fewest}"
    return ""


def joined(notes):
    """The rows of an answer, with their words in one line, and the reasons before them."""
    found, because = [], []
    for note in notes[2:]:
        label = next((label for label in LABELS if note.startswith(label)), "")
        if label == "from":
            label = " ".join(note.split()[:2])
        if label:
            found.append([label, note[len(label):].strip()])
        elif found:
            found[-1][1] += f" {note.strip()}"
        else:
            because.append(PLACE.sub("", note).strip())
    return found, [re.sub(r"^its (guard|message) +", "", reason) for reason in because]


def how_problem(world, process, number, notes):
    """What is wrong with the answer to `how P N`."""
    if len(notes) < 2 or notes[1] != "happened because" or not notes[0].startswith(f"{process} {number} "):
        return "it does not begin with the event"
    found, because = joined(notes)
    if because != list(reasons(world, process, number)):
        return f"the reasons are {because}, and in the model {list(reasons(world, process, number))}"
    plain = {label: words for label, words in found if not label.startswith("from ")}
    if plain != dict(rows(world, process, number)):
        return f"the rows are {plain}, and in the model {dict(rows(world, process, number))}"
    fewest = distances(world, process, number)
    chains = {label.split()[1]: words for label, words in found if label.startswith("from ")}
    if set(chains) != set(fewest):
        return f"there are chains from {set(chains)}, and in the model from {set(fewest)}"
    problems = {p: chain_problem(world, (process, number), p, words, fewest[p]) for p, words in chains.items()}
    return next((f"the chain from {p}: {problem}" for p, problem in problems.items() if problem), "")


def steps(world, process, variable):
    """The steps from which a value comes: for each event with what it set, or with its message, what is said of it."""
    open_steps, found = [(process, origin(world, process, world.place(process), variable), variable)], {}
    while open_steps:
        step = open_steps.pop()
        if step in found:
            continue
        p, n, name = step
        if not n:
            found[step] = f"{name} = {value_of_name(name, world.state(p, 0))}  {p}  from the start"
            continue
        event, command = world.events[p][n - 1], world.program[p].commands[world.events[p][n - 1].command]
        value = event.message if name is None else f"{name} = {value_of_name(name, world.state(p, n))}"
        assigned = dict(command.assignments).get(name)
        expression, deed = assigned, f"{name} := {written(assigned)}" if assigned is not None else ""
        if name is None:
            expression = command.action[2]
            deed = f"{event.message} > {event.partner}: {written(expression)}"
        elif not deed and event.action == "recv":
            source = sender(world, p, n)
            deed = f"{event.message} < {source[0]} {source[1]}"
            if "(" not in name:
                open_steps.append((*source, None))
        elif not deed:
            deed = f"sent to {event.partner}"
        found[step] = f"{value}  {p} {n}  {deed}  :{command.line} command {event.command}"
        for other in named_values(world, p, expression) if expression is not None else ():
            is_received = event.action == "recv" and other == command.action[2]
            open_steps.append((p, origin(world, p, n - (not is_received), other), other))
    return found


def from_problem(world, process, variable, notes):
    """What is wrong with the answer to `from P X`."""
    wanted = steps(world, process, variable)
    heights = {words: sum(world.clock(p, n).values()) for (p, n, _), words in wanted.items()}
    shown = [re.sub("  +", "  ", note) for note in notes]
    if len(wanted) > STEPS:
        if shown.pop() != ".. and earlier steps" or len(shown) != STEPS:
            return f"there are {len(wanted)} steps"
    if not set(shown) <= set(heights) or len(shown) != min(len(wanted), STEPS):
        return f"the steps are {shown}, and in the model {sorted(heights)}"
    order = [heights[words] for words in shown]
    return "" if order == sorted(order, reverse=True) else f"the steps are not the last ones first: {shown}"


def questions(world, number):
    """Some lines that ask for causes, and after each question about an event the command that undoes it, and `back`."""
    chance = random.Random(number)
    events = [(p, n) for p in world.program for n in range(1, world.place(p) + 1)]
    for p, n in chance.sample(events, min(EVENTS, len(events))):
        undone = sum(world.places().values()) - sum(world.rollback_places(p, n - 1).values())
        yield from (f"how {p} {n}", f"1 undo {p}" if undone == 1 else f"1 rollback {p} {n - 1}", "1 back")
    variables = [(p, x) for p, process in world.program.items() for x in process.variables]
    for p, x in chance.sample(variables, min(VARIABLES, len(variables))):
        yield f"from {p} {x}"


def undo_problem(world, asked, undone):
    """What is wrong with the command that an answer offers, or with what it undoes."""
    command = undone.line.removeprefix("1 ")
    if not any(f"`{command}`" in note for note in asked.notes):
        return f"{command} is not offered"
    words = command.split()
    if words[0] == "undo":
        wanted = f"ok {words[1]} {world.events[words[1]][-1].command}"
    else:
        wanted = f"ok {pairs(world.rollback_places(words[1], int(words[2])))}"
    return "" if re.fullmatch(rf"{re.escape(wanted)}( halted \w+)?", undone.reply) else f"{command}: {undone.reply}, and not {wanted}"


def problem_of_causes(suite, session, number):
    """What is wrong with what a session of a plain program says of causes at its end."""
    program, lines = session.split(END, 1)
    player = Player(read_program(program))
    lines = [line for line in lines.splitlines() if line.strip() and line.split()[0] not in ("quit", "exit", "q")]
    for line in lines:
        if call(line):
            player.reply(call(line))
    world = player.state.world
    asked = list(questions(world, number))
    talked = talked_lines(suite, program + END, [*lines, *asked])[len(lines):]
    for at, answer in enumerate(talked):
        words = answer.line.split()
        problem = ""
        if words[0] == "how":
            problem = how_problem(world, words[1], int(words[2]), answer.notes) or undo_problem(world, answer, talked[at + 1])
        elif words[0] == "from":
            problem = from_problem(world, words[1], words[2], answer.notes)
        if problem:
            return f"{answer.line}: {problem}"
    return ""
