"""A model of a session, for tests: the replies that its command lines have, and what rdbg knows after each of them."""
from typing import NamedTuple

from harness.language import written
from harness.lines import OF_BREAKPOINTS, commands_of, read_parts, refuse_words
from harness.world import Refused, World


class Breakpoint(NamedTuple):
    """A breakpoint: its mark, and its predicate by process."""
    is_armed: bool
    predicate: dict

    def written(self):
        """The predicate, as rdbg writes it."""
        return " and ".join(f"{p} {written(part)}" for p, part in self.predicate.items())


class State(NamedTuple):
    """A session after some of its lines. It is not changed."""
    world: World
    breakpoints: dict

    def cut(self, name):
        """The cut of a breakpoint, or None."""
        return self.world.cut(self.breakpoints[name].predicate)

    def halting(self):
        """The breakpoints that halt the session, or would if those before them were not armed."""
        return [name for name, breakpoint in self.breakpoints.items() if breakpoint.is_armed and self.cut(name)]

    def with_breakpoint(self, name, breakpoint):
        """The state in which a breakpoint is this one."""
        return self._replace(breakpoints={**self.breakpoints, name: breakpoint})


def pairs(numbers):
    """Numbers by name, as a reply shows them."""
    return " ".join(f"{name}={number}" for name, number in numbers.items())


def refuse_if(is_refused, *words):
    """Refuses a command under a condition."""
    if is_refused:
        raise Refused(*words)


# What a command does: from a state and the words after the command word to the words of the reply, and the state after it.
def move(state, words):
    """A `step`, `next` or `redo`."""
    refuse_if(state.halting(), 9, *state.halting()[:1])
    word, process = words[:2]
    world = state.world
    if word == "step":
        world = world.step(process, int(words[2]))
    else:
        world = world.next(process) if word == "next" else world.step_again(process)
    return f" {process} {world.events[process][-1].command}", state._replace(world=world)


def undo(state, words):
    """An `undo`."""
    process = words[1]
    world = state.world.undo(process)
    return f" {process} {state.world.events[process][-1].command}", state._replace(world=world)


def rollback(state, words):
    """A `rollback`."""
    world = state.world.rollback(words[1], int(words[2]))
    return f" {pairs(world.places())}", state._replace(world=world)


def set_breakpoint(state, words):
    """A `break`."""
    name = words[1]
    refuse_if(name in state.breakpoints, 11)
    return "", state.with_breakpoint(name, Breakpoint(True, dict(read_parts(words))))


def goto(state, words):
    """A `goto`."""
    refuse_if(not state.cut(words[1]), 13)
    world = state.world.shrunk(state.cut(words[1]))
    return f" {pairs(world.places())}", state._replace(world=world)


def clear(state, words):
    """A `clear`."""
    return "", state._replace(breakpoints={name: found for name, found in state.breakpoints.items() if name != words[1]})


def mark(state, words):
    """A `pass` or `arm`."""
    word, name = words
    breakpoint = state.breakpoints[name]
    refuse_if(breakpoint.is_armed == (word == "arm"), 15 if word == "arm" else 14)
    refuse_if(word == "pass" and not state.cut(name), 13)
    return "", state.with_breakpoint(name, breakpoint._replace(is_armed=word == "arm"))


def batch(state, words):
    """A `batch`."""
    for at, command in enumerate(commands_of(words), 1):
        try:
            _, state = do(state, command)
        except Refused as refused:
            raise Refused(25, at, str(refused).split()[0]) from None
    return "", state


COMMANDS = {
    "step": move, "next": move, "redo": move, "undo": undo, "rollback": rollback, "break": set_breakpoint, "goto": goto, "clear": clear,
    "pass": mark, "arm": mark, "batch": batch}

def do(state, words):
    """The words of a command's reply after `ok`, and the state after it."""
    refuse_if(words[0] in OF_BREAKPOINTS and words[1] not in state.breakpoints, 12)
    return COMMANDS[words[0]](state, words)


def can(world, process):
    """What `can` answers."""
    try:
        world.check_undo(process)
    except Refused as refused:
        return f"no {refused}"
    return "yes"


def answer(state, words):
    """The reply to a query."""
    refuse_if(words[0] in OF_BREAKPOINTS and words[1] not in state.breakpoints, 12)
    world, (word, *names) = state.world, words
    first = names[0] if names else ""
    if word == "breaks":
        shown = "".join(f" {name} {'on' if found.is_armed else 'off'}" for name, found in state.breakpoints.items())
        return f"breaks{shown}"
    if word == "cut":
        return f"cut {first} {pairs(state.cut(first)) if state.cut(first) else 'none'}"
    if word == "why":
        found = world.frontier(state.breakpoints[first].predicate)
        return f"why {first} " + pairs({p: n if n <= world.place(p) else "past" for p, n in found.items()})
    if word == "chan":
        return " ".join(map(str, ["chan", *names, *(message for message, _ in world.channel(*names))]))
    shown = {
        "vars": lambda: pairs(world.state(first).values), "clock": lambda: pairs(world.clock(first, world.place(first))),
        "place": lambda: f"{world.place(first)} of {world.length(first)}", "can": lambda: can(world, first)}[word]()
    return f"{word} {first} {shown}".strip()


class Player:
    """A session that is played line by line."""

    def __init__(self, program):
        self.state = State(World.start(program), {})
        self.taken = []  # for each command that can be taken back its seat, its line and the state before it

    def back(self, seat):
        """Takes back the last command, if the seat gave it."""
        refuse_if(not self.taken, 16)
        refuse_if(self.taken[-1][0] != seat, 17, self.taken[-1][0])
        self.state = self.taken.pop()[2]
        return ""

    def give(self, line, seat, words):
        """The reply to a command, after which the session is another one."""
        if words == ["back"]:
            words_of_reply = self.back(seat)
        else:
            words_of_reply, after = do(self.state, words)
            self.taken.append((seat, line, self.state))
            self.state = after
        halting = self.state.halting()
        return f"ok{words_of_reply}" + (f" halted {halting[0]}" if halting else "")

    def reply(self, line):
        """The reply to a command line with a seat."""
        seat, *words = line.split()
        try:
            refuse_words(self.state.world.program, seat, words)
            is_command = words[0] in COMMANDS or words[0] == "back"
            return self.give(line, seat, words) if is_command else answer(self.state, words)
        except Refused as refused:
            return f"no {refused}"
