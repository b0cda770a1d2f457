"""What every page must do, by keyboard."""
import re

from harness import Fault

# Texts of the page.
ALL_PROCESSES, START = "all processes", "start of the session"
VARIABLES, EVENT_CLOCK, CUT, MESSAGES = "variables after it", "its clock", "state in the cut", "on their way"
CROSSING = "messages that cross the cut"
CONTROLS = {
    "first", "before", "play", "next", "last", "slider", "narrower", "wider", "fit", "code", "choose", "text", "copy", "save", "search", "beside", "above",
    "details"}

def check_line(page, expected, n):
    """What the page shows of line n, and of the state after some lines."""
    at = page.at
    if at["line"] != n:
        raise Fault(f"the page shows line {at['line']}, and not line {n}")
    line, reply = (expected.lines[n - 1], expected.replies.get(n, "")) if n > 0 else ("start", "")
    page.expect("the line", at["said"], [START] if n == 0 else [line] + ([reply] if reply else []))
    page.expect("the row", at["row"], [str(n or ""), line, reply or " "])
    if not at["isRowSeen"]:
        page.fault("its row is not visible")
    if re.match(r"ok \w+ \d+\b", reply) and line.split()[-1] in expected.processes and not (at["isLatestSeen"] or n in expected.halts and at["holding"]):
        page.fault("its event is not visible")
    if n in expected.state_lines:
        page.expect("the processes", page.table(""), [expected.process_row(n, name) for name in expected.processes])
        page.expect("the messages", dict(page.table(MESSAGES)), expected.messages(n))


def check_colours(page):
    """Only the breakpoint that halts is red, and no two cuts look alike."""
    halting = page.at["title"].partition(", halted ")[2]
    page.expect("what is red", page.at["red"], [halting] if halting else [])
    page.expect("the looks of the cuts", sorted(set(page.at["cutLooks"])), sorted(page.at["cutLooks"]))


def check_breakpoints(page, expected, n):
    """Each breakpoint that is set after line n, chosen by keyboard, shows its cut. The focus is at the lines before and after."""
    cuts = {name: expected.replies[n, f"cut {name}"] for name in expected.breakpoints}
    wanted = [name for name, answer in cuts.items() if not answer.startswith("no ")]
    page.expect("the breakpoints", sorted(page.at["breakpoints"]), sorted(f"breakpoint {name}" for name in wanted))
    check_colours(page)
    for name in wanted:
        if not page.tab_to(f"breakpoint {name}"):
            return
        page.press("Enter")
        cut = [] if cuts[name].endswith(" none") else expected.pairs(n, f"cut {name}")
        page.expect("the heading", page.at["heading"].replace("halted by", "breakpoint"), f"breakpoint {name}")
        page.expect(f"the cut of {name}", sorted(row[:2] for row in cut_rows(page)), sorted(expected.cut_counts(n, cut)))
        if not cut and not any("no cut" in note for note in page.at["notes"]):
            page.fault(f"it does not show that {name} has no cut")
        leave(page)
        if not page.tab_to("lines", shift=True):
            return


def cut_rows(page):
    """The processes of the shown cut, without the heads of the columns."""
    return page.table(CUT)[1:]


def leave(page):
    page.press("Escape")
    page.expect("the last heading after Escape", page.at["headings"][-1:], [ALL_PROCESSES])


def walk_to_event(page, expected, name, number):
    """Goes from event to event by Shift and arrow keys, to this one of this process."""
    p = expected.rows.index(name)
    for _ in range(40 + 2 * len(expected.processes) + number):
        found = re.fullmatch(r"(?:(start)|.*?event (\d+)) of (\w+)", page.at["heading"])
        if not found:
            raise Fault(f"Shift and an arrow key lead to {page.at['heading']!r}")
        if not page.at["isChosenSeen"]:
            page.fault(f"the chosen event is not visible: {page.at['heading']}")
        q, at = expected.rows.index(found[3]), int(found[2] or 0)
        if (q, at) == (p, number):
            return
        key = ("ArrowUp" if q > p else "ArrowDown") if q != p else "ArrowLeft" if at > number else "ArrowRight"
        page.press(key, shift=True)
    raise Fault(f"Shift and arrow keys do not reach event {number} of {name}")


def check_events(page, expected, n):
    """The last event of each process shows the variables and the clock."""
    page.press("ArrowRight", shift=True)
    for name in expected.processes:
        number = expected.events_made(n, name)
        walk_to_event(page, expected, name, number)
        values = [row[:2] for row in page.table(VARIABLES)]
        page.expect(f"the variables after event {number} of {name}", values, expected.pairs(n, f"vars {name}"))
        page.expect(f"the clock of event {number} of {name}", page.table(EVENT_CLOCK), expected.pairs(n, f"clock {name}"))
    leave(page)


def check_tab(page):
    """Tab reaches everything that can be used, each once. The drawing is one stop."""
    page.expect("the stops in the drawing", len(page.at["stop"]), 1)
    due = {*CONTROLS, *page.at["stop"], *page.at["breakpoints"]} | ({"program"} if page.at["isProgramShown"] else set())
    stops = list(page.tab_round())
    for stop in sorted(due - set(stops)):
        page.fault(f"Tab does not reach {stop}")
    for stop in sorted({stop for stop in stops if stops.count(stop) > 1}):
        page.fault(f"Tab reaches {stop} twice")


def check_enter(page):
    """Enter chooses the breakpoint or the event that has the focus, and Escape keeps the focus. In the part below, Home keeps the line."""
    tried = set()
    for stop in page.tab_round():
        kind = "event" if "event " in stop else stop.split()[0]
        if kind in ("breakpoint", "event", "start") and kind not in tried:
            tried.add(kind)
            page.press("Enter")
            page.expect("the heading after Enter", page.at["heading"].replace("halted by", "breakpoint"), stop.split(": ")[0])
            page.press("Escape")
            page.expect("the focus after Escape", page.at["focus"], stop)
        if stop == "details":
            line = page.at["line"]
            page.press("Home")
            page.expect("the line after Home in the part below", page.at["line"], line)


def check_roving(page, expected, n):
    """In the drawing, arrow keys move the focus from event to event and from process to process, and the line stays."""
    if not page.at["stop"] or not page.tab_to(page.at["stop"][0]):
        return
    for key in 40 * ["ArrowUp"]:
        page.press(key)
    for name in expected.rows:
        for _ in range(int(expected.answer(n, f"place {name}").split()[-1]) + 1):
            page.press("ArrowLeft")
        page.expect("the focus at the left", page.at["focus"], f"start of {name}")
        for event in range(1, min(4, expected.events_made(n, name)) + 1):
            page.expect("the focus", page.press("ArrowRight")["focus"].split(":")[0], f"event {event} of {name}")
        page.press("ArrowDown")
    page.expect("the line after arrow keys in the drawing", page.at["line"], n)
    page.press("Escape")
    page.expect("the focus after Escape with no choice", page.at["focus"], "lines")


def check_jumps(page, expected):
    """Home, End, and ten lines at once."""
    last = len(expected.lines)
    for key, wanted in (("Home", 0), ("PageDown", min(10, last)), ("PageUp", 0), ("End", last), ("PageUp", max(0, last - 10)), ("End", last)):
        page.press(key)
        check_line(page, expected, wanted)


def check_widths(page):
    """`+` makes the drawing wider, and `-` narrower again."""
    before = page.at["places"]
    wider = page.press("+")["places"]
    again = page.press("-")["places"]
    if before and wider == before:
        page.fault("+ does not make the drawing wider")
    page.expect("the drawing after + and -", again, before)


def changes(expected):
    """The lines that may change something, as their replies say, and the last line."""
    lines = [n for n in range(1, len(expected.lines) + 1) if expected.replies.get(n, "").startswith("ok")]
    return sorted({*lines, len(expected.lines)})


def check_play(page, expected):
    """Space plays, to the next line that changes something for each tick of the clock, and stops."""
    page.press("Home")
    page.press(" ")
    page.expect("the button while it plays", page.at["play"], "stop")
    for _ in range(3):
        before, last = page.at["line"], page.at["line"] == len(expected.lines)
        page.tick()
        if not last and (page.at["line"] <= before or page.at["line"] not in changes(expected)):
            page.fault(f"playing goes from line {before} to line {page.at['line']}")
        check_line(page, expected, page.at["line"])
    if page.at["play"] == "stop":
        page.press(" ")
    page.expect("the button after the stop", page.at["play"], "play")
    line = page.at["line"]
    page.tick()
    page.expect("the line after the stop", page.at["line"], line)


def check_play_to_end(page, expected):
    """At the last line playing stops by itself."""
    page.press("End")
    page.press("PageUp")
    page.press(" ")
    for _ in range(12):
        page.tick()
    page.expect("the line after playing", page.at["line"], len(expected.lines))
    page.expect("the button after the last line", page.at["play"], "play")


def check_lost_focus(page):
    """If the breakpoint that has the focus vanishes, the focus is visible elsewhere."""
    if page.at["breakpoints"] and page.tab_to(page.at["breakpoints"][-1]):
        page.press("Home")
        if not page.at["isFocusSeen"]:
            page.fault(f"a breakpoint had the focus, and now {page.at['focus']} has it, which is not visible")
        page.press("End")
        page.tab_to("lines", shift=page.at["focus"] != "BODY")


def missing_at_opening(page, expected):
    """How many of the events that violate are not visible when the page of a session that halts opens."""
    if not expected.halts:
        return 0
    events = [int(made.split()[0]) for _, made, part, *_ in cut_rows(page) if part]
    return sum(count > 0 for count in events) - page.at["holding"]


def check_halts(page, expected):
    """The page opens at the first halt, `h` goes to the next one, and `H` to the one before."""
    halts = expected.halts
    check_line(page, expected, halts[0] if halts else len(expected.lines))
    page.press("Home")
    for n in halts:
        page.press("h")
        check_line(page, expected, n)
    for n in reversed(halts[:-1]):
        page.press("H")
        check_line(page, expected, n)
    page.press("End")
