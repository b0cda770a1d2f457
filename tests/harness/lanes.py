"""The picture of a halt as a drawing, and what it must show by a model of the session."""
import re
from xml.etree import ElementTree

from harness import Fault
from harness.halts import depths, is_shown, order, since
from harness.language import read_program
from harness.player import Player
from harness.session import call

SVG = "{http://www.w3.org/2000/svg}"
TITLE = re.compile(r"(?P<process>\S+) events? (?P<first>\d+)(?:\u2013(?P<last>\d+))?(?:: .*)?")
LEAST_FONT = 10


class Lanes:
    """A picture of a halt: its elements by their classes."""

    def __init__(self, picture):
        self.text = picture.decode()
        self.root = ElementTree.fromstring(self.text)

    def of(self, tag, kind):
        return [item for item in self.root.iter(SVG + tag) if f"rdbg-{kind}" in item.get("class", "").split()]

    def words(self, kind):
        return ["".join(item.itertext()) for item in self.of("text", kind)]

    def marks(self, with_large=False):
        """The marks: of each its process, and its first and its last event. Or only those of events since which a part holds."""
        groups = [item for item in self.of("g", "mark") if not with_large or item.find(f"{SVG}circle") is not None]
        found = [TITLE.fullmatch(item.find(f"{SVG}title").text) for item in groups]
        return [(mark["process"], int(mark["first"]), int(mark["last"] or mark["first"])) for mark in found]


def state_at_halt(session):
    """The state of a session at its first halt, by the model, or None."""
    player = Player(read_program(f"{session.program}\n%%\n"))
    for line in session.calls.values():
        if re.search(r" halted \w+$", player.reply(line)):
            return player.state
    return None


def differences(pairs):
    return [f"{what}: the picture has {shown!r}, and the model {wanted!r}" for what, shown, wanted in pairs if shown != wanted]


def part_values(world, process, count, texts):
    """What is wrong with the values of a part."""
    state = world.state(process, count)
    for text in texts:
        for name, value in re.findall(r"(\w+(?:\(\w+\))?) = (-?\d+)", text):
            way, _, other = name.rstrip(")").partition("(")
            true = state.values.get(name) if not other else {"sent": state.sent, "got": state.got}[way][other]
            if int(value) != true:
                yield f"{process}: {name} is {true} in the cut, and not {value}"


def lanes_problems(picture, session):
    """What is wrong with the picture of the first halt of a session."""
    state, lanes = state_at_halt(session), Lanes(picture)
    world, name = state.world, state.halting()[0]
    predicate, cut = state.breakpoints[name].predicate, state.cut(name)
    rows = [p for p in order(world, cut, predicate) if is_shown(world, cut, predicate, p)]
    deep = depths(world, cut, predicate)
    shown = lanes.marks()
    depth_of = {(p, *mark): depth for p in rows for mark, depth in deep[p]}
    first = min((depth_of.get(mark, 0) for mark in shown), default=0)
    wanted = [(p, *mark) for p in rows for mark, depth in deep[p] if depth >= first]
    starts = {p: since(world, predicate, p, cut[p]) for p in predicate}
    large = [mark for mark in wanted if starts.get(mark[0]) == mark[1]]
    received = [mark for mark in wanted if world.events[mark[0]][mark[1] - 1].action == "recv"]
    channels = [(p, q) for p in world.program for q in world.program if p != q and world.crossing(cut, p, q)]
    since_words = [f"holds since event {n}" if n else "holds from the start" for n in starts.values()]
    fonts = [float(size) for size in re.findall(r"font(?:-size)?: ([\d.]+)px", lanes.text)]
    yield from differences([
        ("the processes", [re.sub(r"\.\.", "", text)[:6] for text in lanes.words("name")], [p[:6] for p in rows]),
        ("the marks", shown, wanted), ("the large marks", lanes.marks(with_large=True), large),
        ("since when parts hold", lanes.words("since"), since_words),
        ("the arrows", len(lanes.of("path", "message")), len(received)),
        ("the messages on their way", len(lanes.of("path", "flight")), len(channels)),
        ("the chips", len(lanes.of("rect", "chip")), len(predicate)),
        ("the least letters", [size for size in fonts if size < LEAST_FONT], []),
        ("the width", lanes.root.get("width"), "830")])
    values = iter(lanes.words("value"))
    if len(predicate) == len(lanes.words("value")):
        for process in predicate:
            yield from part_values(world, process, cut[process], [next(values)])
