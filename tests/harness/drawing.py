"""An SVG drawing of a session: its shapes and its words, and what is wrong with where they are.

A character is taken to be 8 pixels wide, and one of the legend 7. The monospaced fonts that browsers use are a little narrower.
"""
import re
from typing import NamedTuple
from xml.etree import ElementTree

SVG = "{http://www.w3.org/2000/svg}"
CHARACTER, KEY_CHARACTER, MARGIN = 8, 7, 14
REACH = 10  # from the line of a process to an arrow that ends at it, at most
ROW, STRETCH = 48, 2  # from a row to the next one, and how many rows an event may be below its least row
ASIDE, ASCENT, DESCENT, GAP = 12, 10, 3, 14
# Where the words at an event may be: whether on its left, and how far below it.
SIDES = ((False, 4), (False, -6), (False, 16), (True, 4), (True, -6), (True, 16), (False, -12), (False, 22), (True, -12), (True, 22))
PARTS = (3, 4, 6, 8, 10, 12, 13)  # where along an arrow its words may be, in sixteenths


class Box(NamedTuple):
    """Where a text is."""
    left: float
    top: float
    right: float
    bottom: float
    words: str

    def meets(self, other):
        return self.left < other.right and other.left < self.right and self.top < other.bottom and other.top < self.bottom

    def wider(self, across, down):
        """The same with this much room on each side, and above and below."""
        return Box(self.left - across, self.top - down, self.right + across, self.bottom + down, self.words)


class Stroke(NamedTuple):
    """A straight line."""
    x1: float
    y1: float
    x2: float
    y2: float
    kind: str

    def meets(self, box):
        if max(self.x1, self.x2) <= box.left or min(self.x1, self.x2) >= box.right:
            return False
        heights = (self.y1, self.y2) if self.x1 == self.x2 else (self.height_at(box.left), self.height_at(box.right))
        return min(heights) < box.bottom and max(heights) > box.top

    def height_at(self, x):
        """The height of the line at this place, or at its nearer end."""
        x = min(max(x, min(self.x1, self.x2)), max(self.x1, self.x2))
        return self.y1 + (self.y2 - self.y1) * (x - self.x1) / (self.x2 - self.x1) if self.x1 != self.x2 else self.y1

    def place_at(self, y):
        """The place of the line at this height, or at its nearer end."""
        turned = Stroke(self.y1, self.x1, self.y2, self.x2, self.kind)
        return turned.height_at(y)


def words_at(x, y, width, words):
    return Box(x, y - ASCENT, x + width, y + DESCENT, words)


def label_places(x, y, words):
    """The boxes in which the words of an event at this point may be."""
    width = CHARACTER * len(words)
    return [words_at(x - ASIDE - width if is_left else x + ASIDE, y + below, width, words) for is_left, below in SIDES]


def message_places(arrow, words):
    """The boxes in which the words at an arrow may be."""
    width = CHARACTER * len(words)
    for part in PARTS:
        left = arrow.x1 + (arrow.x2 - arrow.x1) * part / 16 - width / 2
        heights = arrow.height_at(left), arrow.height_at(left + width)
        yield from (words_at(left, y, width, words) for y in (min(heights) - 3 - DESCENT, max(heights) + 3 + ASCENT))
        y = arrow.y1 + (arrow.y2 - arrow.y1) * part / 16 + 4
        places = arrow.place_at(y - ASCENT), arrow.place_at(y + DESCENT)
        yield from (words_at(x, y, width, words) for x in (min(places) - 4 - width, max(places) + 4))
    left = max(arrow.x1, arrow.x2) - 2 - width
    heights = arrow.height_at(left), arrow.height_at(left + width)
    yield from (words_at(left, y, width, words) for y in (min(heights) - 3 - DESCENT, max(heights) + 3 + ASCENT))


def text_box(element, kinds):
    words, x, y = element.text or "", float(element.get("x")), float(element.get("y"))
    width = len(words) * (KEY_CHARACTER if "key" in kinds else CHARACTER)
    left = x - width / 2 if "value" in kinds else x - width if "end" in kinds else x
    return Box(left, y - 10, left + width, y + 3, words)


def pieces(points):
    """The pieces of a line with these corners, each as a box of no width or height."""
    corners = [tuple(map(float, point.split(","))) for point in points.split()]
    return [Box(min(a, c), min(b, d), max(a, c), max(b, d), "") for (a, b), (c, d) in zip(corners, corners[1:])]


class Drawing:
    def __init__(self, svg):
        self.text = svg.decode()
        self.root = ElementTree.fromstring(svg)
        self.width, self.height = float(self.root.get("width")), float(self.root.get("height"))
        self.shapes = [(element, self.kinds(element)) for element in self.root.iter()]
        self.boxes = [(text_box(element, kinds), kinds) for element, kinds in self.shapes if element.tag == f"{SVG}text"]
        self.lines = {box.words: box.left + 8 for box, kinds in self.boxes if "name" in kinds}

    @staticmethod
    def kinds(element):
        """The classes of a shape, without their prefix."""
        return [name.removeprefix("rdbg-") for name in (element.get("class") or "").split()]

    def of_kind(self, *wanted):
        return [element for element, kinds in self.shapes if set(wanted) & set(kinds)]

    def cuts(self):
        return [element for element in self.of_kind("cut") if element.get("points")]

    def problems(self, is_whole=True):
        """What is wrong with the drawing, one line each. If not all processes are shown, what depends on the others is lower."""
        rows = self.wrong_rows() if is_whole else []
        problems = [self.leaks(), self.outside(), self.wrong_arrows(), self.rising_arrows(), self.collisions(), self.crossed(), rows, self.crossings()]
        return [problem for found in problems for problem in found]

    def leaks(self):
        """Names that another part of a page may have, too."""
        style = self.root.find(f"{SVG}style").text
        selectors = [selector.strip() for rule in re.findall(r"([^{}]+)\{", style) for selector in rule.split(",") if "@" not in rule]
        general = [selector for selector in selectors if not selector.startswith(".rdbg-drawing ")]
        yield from (f"the style of {selector} is not of this drawing alone" for selector in general)
        for element, _ in self.shapes:
            names = [*(element.get("class") or "").split(), *filter(None, [element.get("id")])]
            yield from (f"the name {name} has no prefix" for name in names if not name.startswith("rdbg-"))

    def outside(self):
        """Words and shapes outside the drawing."""
        if self.root.get("viewBox") != f"0 0 {self.width:.0f} {self.height:.0f}":
            yield f"the view box is {self.root.get('viewBox')}"
        places = [box for box, _ in self.boxes]
        for element, _ in self.shapes:
            numbers = [element.get(name) for name in ("x1", "y1", "x2", "y2")]
            if None not in numbers:
                places += pieces("{},{} {},{}".format(*numbers))
            places += pieces(element.get("points") or "")
        for box in places:
            if box.left < 0 or box.top < 0 or box.right > self.width or box.bottom > self.height:
                yield f"outside the drawing: {box}"

    def wrong_arrows(self):
        """Arrows that do not go from the line of their sender to the line of their recipient."""
        for arrow in self.of_kind("message", "waiting"):
            title = arrow.find(f"{SVG}title").text
            sender, recipient = re.fullmatch(r"-?\d+ from event \d+ of ([\w\[\]]+).* (?:of|to) ([\w\[\]]+)", title).groups()
            for name, place in ((sender, "x1"), (recipient, "x2")):
                if abs(self.lines[name] - float(arrow.get(place))) > REACH:
                    yield f"the arrow of {title} does not reach the line of {name}"

    def collisions(self):
        """Words over words."""
        boxes = [box for box, kinds in self.boxes if "value" not in kinds]
        for place, box in enumerate(boxes):
            yield from (f"{box.words!r} is over {other.words!r}" for other in boxes[place + 1:] if box.meets(other))

    def crossed(self):
        """Words that the line of a cut crosses."""
        lines = [line for cut in self.cuts() for line in pieces(cut.get("points"))]
        for box, kinds in self.boxes:
            if "of" not in kinds and any(box.meets(line) for line in lines):
                yield f"a cut crosses {box.words!r}"

    def strokes(self, *kinds):
        """The lines of these kinds, and the pieces of the cuts."""
        for kind in kinds:
            for element in self.of_kind(kind):
                ends = [element.get(name) for name in ("x1", "y1", "x2", "y2")]
                if None not in ends:
                    yield Stroke(*map(float, ends), kind)
                corners = [tuple(map(float, point.split(","))) for point in (element.get("points") or "").split()]
                yield from (Stroke(*one, *other, kind) for one, other in zip(corners, corners[1:]))

    def rising_arrows(self):
        """Arrows that do not go down."""
        for arrow in self.of_kind("message", "waiting"):
            if float(arrow.get("y2")) <= float(arrow.get("y1")):
                yield f"the arrow of {arrow.find(f'{SVG}title').text} does not go down"

    def wrong_rows(self):
        """Events that are above their causal depth, or further below it than they need."""
        senders = {}
        for arrow in self.of_kind("message", "waiting"):
            title = arrow.find(f"{SVG}title").text
            ends = re.fullmatch(r"-?\d+ from event (\d+) of ([\w\[\]]+) to event (\d+) of ([\w\[\]]+)", title)
            if ends:
                senders[ends[4], ends[3]] = ends[2], ends[1]
        top = float(self.of_kind("line")[0].get("y1")) + 8
        rows, last = {}, {}
        for event in self.of_kind("event", "later"):
            number, process = re.match(r"event (\d+) of ([\w\[\]]+)", event.find(f"{SVG}title").text).groups()
            row = (float(event.get("cy")) - top) / ROW
            least = 1 + max(last.get(process, 0), rows.get(senders.get((process, number)), 0))
            if row not in range(least, least + STRETCH + 1):
                yield f"event {number} of {process} is in row {row}, and its causal depth is {least}"
            rows[process, number] = last[process] = int(row)

    def placed_words(self):
        """The words of the events and of the messages: each with its kind, its box and the boxes in which it may be."""
        events, arrows = self.of_kind("event", "later"), list(self.arrows())
        labels = [box for box, kinds in self.boxes if "words" in kinds]
        values = [box for box, kinds in self.boxes if "value" in kinds]
        for event, box in zip(events, labels):
            yield box, label_places(float(event.get("cx")), float(event.get("cy")), box.words)
        for arrow, box in zip(arrows, values):
            yield box, list(message_places(arrow, box.words))

    def arrows(self):
        """The arrows, in the order in which they are drawn."""
        for element in self.of_kind("message", "waiting"):
            yield Stroke(*(float(element.get(name)) for name in ("x1", "y1", "x2", "y2")), "arrow")

    def marks(self):
        """The boxes around the marks."""
        for mark in self.of_kind("event", "later", "decides"):
            x, y, radius = (float(mark.get(name)) for name in ("cx", "cy", "r"))
            yield Box(x - radius, y - radius, x + radius, y + radius, "a mark")

    def crossed_words(self):
        """The words of events and messages that others cross: each with what crosses it, and with the places where nothing would."""
        texts = [box for box, kinds in self.boxes if "key" not in kinds]
        shapes = [*self.marks(), *self.strokes("message", "waiting", "cut", "line")]
        for box, places in self.placed_words():
            others = [other for other in texts if other is not box]
            crossing = [other for other in [*others, *shapes] if other.meets(box)]
            if crossing:
                yield box, crossing, [place for place in places if self.is_free(place, others, shapes)]

    def is_free(self, place, texts, shapes):
        """Whether nothing crosses this box, and it is in the drawing."""
        meets_shape = any(shape.meets(place.wider(2, 2)) for shape in shapes)
        meets_text = any(text.meets(place.wider(GAP, 2)) for text in texts)
        return not meets_shape and not meets_text and MARGIN < place.left and place.right < self.width - MARGIN

    def crossings(self):
        """Words that are crossed though they have a place in which nothing crosses them."""
        for box, crossing, free in self.crossed_words():
            if free:
                what = getattr(crossing[0], "kind", None) or crossing[0].words
                yield f"{box.words!r} at {box.left:.0f},{box.bottom:.0f} is crossed by {what!r}, and {free[0].left:.0f},{free[0].bottom:.0f} is free"

    def events(self):
        """How many events are drawn."""
        return len(self.of_kind("event", "later"))
