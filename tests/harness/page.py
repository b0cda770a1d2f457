"""A page of a session in a browser: what it shows, and what it must show by the answers of the program."""
import re
from pathlib import Path

HARNESS = Path(__file__).resolve().parent
VIEW = (HARNESS / "page_view.js").read_text()
KEYS = {
    "ArrowLeft": 37, "ArrowUp": 38, "ArrowRight": 39, "ArrowDown": 40, "Home": 36, "End": 35, "PageUp": 33, "PageDown": 34, "Tab": 9,
    "Enter": 13, "Escape": 27, " ": 32, "+": 187, "-": 189, "/": 191, "f": 70, "h": 72, "H": 72, "p": 80}
TEXTS = {"Enter": "\r", **{key: key for key in " +-/fhHp"}}
STATE_LINES = 25  # of a session, at most, after which the state is compared
SHOWN_MESSAGES = 50  # of a channel; the page writes ` ..` after them


class Page:
    """A page in a browser, in one size and one mode, and what is wrong with it."""

    def __init__(self, browser, file, width, height, mode):
        self.browser, self.name, self.faults = browser, f"{width}x{height} {mode}", []
        browser.show(width, height, mode)
        browser.open(file)
        self.at = self.look()

    def fault(self, text):
        text = f"{self.name}: line {self.at['line']}: {text}"
        if text not in self.faults:
            self.faults.append(text)

    def expect(self, what, shown, wanted):
        if shown != wanted:
            self.fault(f"{what}: the page shows {shown!r}, and not {wanted!r}")

    def look(self):
        """What the page shows now."""
        return self.browser.evaluate(VIEW)

    def send(self, key, shift=False):
        text = TEXTS.get(key, "")
        given = {"key": key, "code": key if len(key) > 1 else "", "windowsVirtualKeyCode": KEYS[key], "modifiers": 8 if shift else 0}
        self.browser.ask("Input.dispatchKeyEvent", type="keyDown" if text else "rawKeyDown", text=text, **given)
        self.browser.ask("Input.dispatchKeyEvent", type="keyUp", **given)

    def press(self, key, shift=False):
        """Presses a key. The page must fit into its window then, and the focus must be visible."""
        self.send(key, shift)
        self.at = self.look()
        if not self.at["isFocusSeen"]:
            self.at = self.look()  # (a change of the size is drawn one frame later)
        for part in self.at["outside"]:
            self.fault(f"does not fit: {part}")
        if not self.at["isFocusSeen"] and self.at["focus"] != "BODY":
            self.fault(f"the focus is not visible: {self.at['focus']}")
        return self.at

    def tick(self):
        """Moves the clock by which the page plays."""
        self.browser.evaluate("tick()")
        self.at = self.look()

    def tab_to(self, what, shift=False):
        for _ in range(500):
            if self.press("Tab", shift)["focus"] == what:
                return True
        self.fault(f"Tab does not reach {what}")
        return False

    def tab_round(self):
        """What Tab reaches, from the lines to the lines again."""
        for _ in range(1000):
            stop = self.press("Tab")["focus"]
            if stop == "lines":
                return
            yield stop
        self.fault("Tab does not return to the lines")

    def table(self, caption):
        return next((rows for name, rows in self.at["tables"] if name == caption), [])


def state_lines(count):
    """The numbers of the lines after which the state is compared: all, or some at the same distance."""
    if count <= STATE_LINES:
        return list(range(count + 1))
    return sorted({round(count * (at + 1) / STATE_LINES) for at in range(STATE_LINES)})


def named_processes(parts):
    """The processes that the parts of a predicate are about: what is not within parentheses."""
    while "(" in parts:
        parts = re.sub(r"\([^()]*\)", " ", parts)
    return parts.split()


class Expected:
    """What the page of a session must show, by the answers of the program."""

    def __init__(self, session):
        self.lines, self.calls, self.processes, self.breakpoints = session.lines, session.calls, session.processes, session.breakpoints
        self.state_lines = state_lines(len(self.lines))
        self.channels = [(one, other) for one in self.processes for other in self.processes if one != other]
        questions = [f"{word} {name}" for name in self.processes for word in ("place", "vars", "clock")]
        questions += [f"chan {one} {other}" for one, other in self.channels] + [f"cut {name}" for name in self.breakpoints]
        self.replies = session.replies({n: questions for n in self.state_lines})

    @property
    def rows(self):
        """The processes from the top down: those of the breakpoint that halts the session first, in its order, and then the others."""
        first = []
        for n in self.halts[:1]:
            name = self.replies[n].rpartition(" ")[2]
            orders = [order for at, line in self.calls.items() if at <= n for order in line.split(" ; ")]
            parts = [re.search(rf"\bbreak {name} (.*)", order) for order in orders]
            first = named_processes([found[1] for found in parts if found][-1])
        return first + [name for name in self.processes if name not in first]

    def cut_counts(self, n, cut):
        """What the page shows of the events in a cut, for each process."""
        return [[name, f"{count} of {self.events_made(n, name)}"] for name, count in cut]

    @property
    def halts(self):
        """The numbers of the lines that halt the session."""
        return [n for n in range(1, len(self.lines) + 1) if re.search(r" halted \w+$", self.replies.get(n, ""))]

    def answer(self, n, question):
        """The answer to a question after line n, without the words of the question."""
        reply = self.replies[n, question]
        return reply[len(question):].strip() if reply.startswith(question) else reply

    def pairs(self, n, question):
        return [pair.split("=") for pair in self.answer(n, question).split()]

    def events_made(self, n, name):
        return int(self.answer(n, f"place {name}").split()[0])

    def process_row(self, n, name):
        made, _, length = self.answer(n, f"place {name}").split()
        again = int(length) - int(made)
        events = f"{made} event{'' if made == '1' else 's'}" + (f", {again} to redo" if again else "")
        return [name, events, self.answer(n, f"vars {name}")]

    def messages(self, n):
        """The messages on their way after line n, by channel."""
        waiting = {}
        for one, other in self.channels:
            messages = self.answer(n, f"chan {one} {other}").split()
            if messages:
                waiting[f"{one} to {other}"] = " ".join(messages[:SHOWN_MESSAGES]) + (" .." if len(messages) > SHOWN_MESSAGES else "")
        return waiting
