"""What a page knows of its session, and the state to which this leads.

crates/ui_page/README.md lists the operations: what a line of the session did.
"""
import json
import re

from harness import Fault


def decoded(text):
    """A text of the data, which has each byte as a character."""
    return text.encode("latin-1").decode("utf-8", "backslashreplace")


def byte_of(sign):
    """The byte that stands in the data as the sign whose number is 256 more."""
    return chr(ord(sign[0]) - 256)


def data_text(page):
    """The data of a page, as lines of JSON."""
    return page.partition("type=application/json>")[2].partition("</script>")[0].strip()


def read_page(page):
    """The data of a page: its processes, the text of the program, and the lines, each with its reply and its operations. And by the numbers of
    lines, the explanations that some have."""
    texts = data_text(page).splitlines()
    data, *values = [json.loads(re.sub("[\u0100-\u01ff]", byte_of, text)) for text in texts]
    operations = {number: made for number, *made in values if isinstance(number, int)}
    shown = [value for value in values if isinstance(value[0], str)]
    data["lines"] = [[decoded(line), decoded(reply), *operations.get(number, [])] for number, (line, reply, *_) in enumerate(shown, 1)]
    data["explained"] = {number: decoded(texts[0]).splitlines() for number, (_, _, *texts) in enumerate(shown, 1) if texts}
    return data


def require(condition, *what):
    if not condition:
        raise Fault("the page contradicts itself: " + " ".join(map(str, what)))


def eliminations(numbers):
    """Eliminations from a list of numbers: each is p and to, or -1 - p, to, and the process and the event on which it depends."""
    rest = iter(numbers)
    return [[p, next(rest)] if p >= 0 else [-1 - p, next(rest), next(rest), next(rest)] for p in rest]


class Replay:
    """The state of a session, from what its page knows of each line."""

    def __init__(self, data):
        self.processes = [([], []) for _ in data["processes"]]  # of each its events, and the choices that it can make again
        self.kept = []  # `processes` before each accepted command, for `back`
        self.breakpoints = []  # of each its name, whether it is armed, and its eliminations
        self.halting = None  # the breakpoint that halts the session
        self.replies = {}
        for number, (line, reply, *operations) in enumerate(data["lines"], 1):
            if not line.strip().startswith("#"):
                self.follow(number, line.split(), reply, operations)

    def follow(self, number, words, reply, operations):
        self.replies[number] = reply
        name = words[1] if words[0].isdigit() else words[0]
        if reply.startswith("ok") and name != "back":
            self.kept.append(list(self.processes))
        for kind, *given in operations:
            self.OPERATIONS[kind](self, *given)
        if reply.startswith("ok"):
            require(self.halting == (reply.partition(" halted ")[2] or None), self.halting, "halts after line", number, "and not", reply)

    def make(self, p, *event):
        self.processes[p] = (self.processes[p][0] + [event], [])

    def make_again(self, p, *event):
        made, again = self.processes[p]
        self.processes[p] = (made + [event], again[1:])

    def undo(self, p):
        self.undo_to(p, len(self.processes[p][0]) - 1)

    def undo_to(self, p, count):
        made, again = self.processes[p]
        self.processes[p] = (made[:count], [event[0] for event in made[count:]] + again)

    def undo_all_to(self, counts):
        for p, count in enumerate(counts):
            self.undo_to(p, count)

    def go_back(self):
        self.processes = self.kept.pop()

    def batch(self, p, count, events, again):
        self.processes[p] = (self.processes[p][0][:count] + events, again)

    def set_breakpoints(self, breakpoints):
        trails = {name: trail for name, _, trail in self.breakpoints}
        self.breakpoints = [(name, armed, [] if parts else trails[name]) for name, armed, *parts in breakpoints]

    def search(self, searches):
        changed = set()
        for places, dropped, *numbers in searches:
            for first, count in zip(places[::2], places[1::2]):
                for i in range(first, first + count):
                    name, armed, trail = self.breakpoints[i]
                    require(dropped <= len(trail) and (dropped or numbers) and i not in changed, "the search of", name)
                    changed.add(i)
                    self.breakpoints[i] = (name, armed, trail[:len(trail) - dropped] + eliminations(numbers))

    def halt(self, name):
        self.halting = name

    OPERATIONS = {
        "e": make, "r": make_again, "u": undo, "p": undo_all_to, "b": go_back, "l": batch, "m": set_breakpoints, "c": search, "h": halt}


class FinalState:
    """What the program must answer after the last line, if the page is right."""

    def __init__(self, data):
        replay = Replay(data)
        self.replies = replay.replies
        self.names = [process["name"] for process in data["processes"]]
        self.answers, self.reasons = {}, {}
        for process, (made, again) in zip(data["processes"], replay.processes):
            self.add_process(process, made, again)
        self.answers["breaks"] = " ".join(["breaks", *(f"{name} {'on' if armed else 'off'}" for name, armed, _ in replay.breakpoints)])
        for name, _, trail in replay.breakpoints:
            self.add_breakpoint(name, trail, [len(made) for made, _ in replay.processes])

    def add_process(self, process, made, again):
        name, values = process["name"], dict(process["variables"])
        for _, sets, _ in made:
            for variable, old, new in sets:
                require(values[variable] == old, variable, "of", name, "is", values[variable], "and not", old)
                values[variable] = new
        self.answers[f"place {name}"] = f"place {name} {len(made)} of {len(made) + len(again)}"
        self.answers[f"vars {name}"] = " ".join([f"vars {name}", *(f"{variable}={value}" for variable, value in values.items())])

    def add_breakpoint(self, name, trail, lengths):
        heads = [0 for _ in self.names]
        for p, to, *cause in trail:
            require(to == heads[p] + 1 or cause and to > heads[p], "the candidate", to, "of", self.names[p])
            heads[p] = to
        heads = [head if head <= length else "past" for head, length in zip(heads, lengths)]
        counts = " ".join(f"{process}={head}" for process, head in zip(self.names, heads))
        self.answers[f"cut {name}"] = f"cut {name} " + ("none" if "past" in heads else counts)
        self.answers[f"why {name}"] = f"why {name} {counts}"
        self.reasons[name] = [reason for p in range(len(self.names)) for reason in self.reasons_of(p, trail)]

    def reasons_of(self, process, trail):
        """What an interactive session says of the eliminations of a process."""
        false = [to - 1 for p, to, *cause in trail if p == process and not cause]
        needed = [(to, *cause) for p, to, *cause in trail if p == process and cause]
        name = self.names[process]
        if len(false) == 1:
            yield f"{name}: its part is false after {events(false[0])}"
        elif false:
            yield f"{name}: its part is false in {len(false)} states that were looked at, the last of them after {events(false[-1])}"
        if needed:
            to, by, event = needed[-1]
            yield f"{name}: at least {events(to)}, since event {event} of {self.names[by]} depends on its event {to}"


def events(count):
    return f"{count} event" + ("" if count == 1 else "s")
