"""The pages of sessions in a headless browser, used by keyboard and pointer.

Each page is opened in two sizes, light and dark. In each of these four passes arrow keys go through all lines, and Home, End, Page Up, Page
Down, Tab, Enter, Escape, Shift with arrow keys, `+` and `-` are pressed; in the first pass also space, which plays. A page fails if it has an
error or writes to the console, if a part of it does not fit into the window, if the focus is not visible, or if it does not show what the
program answers: the reply of each line; after up to 25 lines the variables, the counts of events and the messages on their way, and in the
first pass the cut of each breakpoint; after the last line the cuts, and the variables and the clock of each process. The page of a session
that halts opens with all events that violate in view.

In two further passes the tools of the page are used: addresses, the search, the fit, what is hidden, zoom and drags, a selection of text,
and the saved drawing. The state in the cut at the first and the last halt is compared with `goto` and `vars`, and with what an interactive
session says. Texts must have a contrast of 4.5 to their ground, and marks one of 3. In the last pass the window is that of a telephone.

A session with bytes that are not valid UTF-8 must become a valid page that shows them by their numbers. A page without scripts must show its
session, a page in forced colours must have the same contrast, and a printed page must have no list of lines.

With --large, a session of 100,000 lines is drawn. Its page must open within 2 seconds. Each of 50 steps must take at most 200 ms, and half of
them at most 100 ms.
"""
import time
from pathlib import Path

from harness import TOP, Fault, sessions, temporary_folder
from harness.browser import needs_browser, running_browser
from harness.page import HARNESS, Expected, Page
from harness.page_checks import (
    check_breakpoints, check_enter, check_events, check_halts, check_jumps, check_line, check_lost_focus, check_play, check_play_to_end,
    check_roving, check_tab, check_widths, missing_at_opening)
from harness.page_tools import CONTRAST, check_contrast, run_checks
from harness.session import Session, draw, short_name

CLOCK = (HARNESS / "page_clock.js").read_text()
# Size, mode, and the key that goes through all lines.
PASSES = [(1366, 768, "light", "ArrowDown"), (1366, 768, "dark", "ArrowUp"), (1280, 720, "light", "ArrowRight"), (1280, 720, "dark", "ArrowLeft")]
TOOL_PASSES = [(1366, 768, "light"), (1920, 1080, "dark")]
NARROW = (390, 844, "dark")
LOW = (683, 384, "light")  # a small laptop at a zoom of 200 %
SHOWN_FAULTS = 12


def check_pass(page, expected, key, is_first):
    last = len(expected.lines)
    page.expect("violating events that are not in the first view", missing_at_opening(page, expected), 0)
    check_halts(page, expected)
    if not page.tab_to("lines"):
        return
    check_jumps(page, expected)
    places = list(range(last + 1))
    if key in ("ArrowUp", "ArrowLeft"):
        places.reverse()
    page.press("Home" if places[0] == 0 else "End")
    for n in places:
        if n != places[0]:
            page.press(key)
        check_line(page, expected, n)
        if is_first and n in expected.state_lines:
            check_breakpoints(page, expected, n)
    page.press("End")
    check_breakpoints(page, expected, last)
    check_widths(page)
    check_events(page, expected, last)
    check_tab(page)
    check_roving(page, expected, last)
    check_enter(page)
    check_lost_focus(page)
    if is_first and last > 0:
        check_play(page, expected)
        check_play_to_end(page, expected)


def check_narrow(page, expected, first_views):
    """On a telephone, all parts fit into the width, and the drawing and the details have room."""
    if expected.halts:
        first_views.append(missing_at_opening(page, expected) == 0)
    check_halts(page, expected)
    for key in ("Home", "PageDown", "End"):
        page.press(key)
        for part, least in (("drawing", 120), ("details", 160), ("lines", 80)):
            high = page.browser.evaluate(f"document.getElementById('{part}').clientHeight")
            if high < least:
                page.fault(f"{part} has a height of {high} pixels")
    check_line(page, expected, len(expected.lines))
    check_contrast(page)


def check_low(page, expected, first_views):
    """In a low window the drawing has most of it, and the page scrolls to what is below."""
    if expected.halts:
        first_views.append(missing_at_opening(page, expected) == 0)
    high, whole = page.browser.evaluate("[document.getElementById('drawing').clientHeight, document.documentElement.scrollHeight]")
    if high < 220 or whole <= LOW[1]:
        page.fault(f"the drawing has a height of {high} pixels, and the page {whole}")
    page.expect("what is beside or too wide", [part for part in page.at["outside"] if "width" in part], [])


def shortened(faults):
    more = len(faults) - SHOWN_FAULTS
    return "\n".join(faults[:SHOWN_FAULTS] + ([f"and {more} more"] if more > 0 else []))


def page_problem(suite, browser, file, page_file, first_views):
    """What is wrong with the page of a session."""
    faults, grounds = [], {}
    session = Session(suite, file)
    expected = Expected(session)
    page_file.write_bytes(draw(suite, "html", file))

    def attempt(width, height, mode, check):
        page = Page(browser, page_file, width, height, mode)
        grounds[mode] = page.at["ground"]
        try:
            check(page)
        except Fault as fault:
            page.fault(str(fault))
        faults.extend(page.faults + [f"{page.name}: {text}" for text in browser.complaints()])

    for width, height, mode, key in PASSES:
        attempt(width, height, mode, lambda page: check_pass(page, expected, key, is_first=key == PASSES[0][3]))
    for width, height, mode in TOOL_PASSES:
        attempt(width, height, mode, lambda page: run_checks(page, expected, session))
    attempt(*NARROW, lambda page: check_narrow(page, expected, first_views["telephone"]))
    attempt(*LOW, lambda page: check_low(page, expected, first_views["low window"]))
    if grounds["light"] == grounds["dark"]:
        faults.append("light and dark have the same background")
    return shortened(faults)


LARGE, HALTING = 100_000, 6_000  # lines, and the turn in which the breakpoint halts
RING = "abcdef"
LARGEST_OPENING, LARGEST_STEP, LARGEST_HALF = 2000, 200, 100  # milliseconds; half of the steps take at most the last
LARGE_TIMEOUT = 1200  # seconds of a run; a program that is built with checks is slow


def large_session():
    """Six processes in a ring, each of which sends and receives in turn; undo, redo, and a breakpoint that halts late and is passed."""
    program = ""
    for p, name in enumerate(RING):
        after, before = RING[(p + 1) % len(RING)], RING[p - 1]
        program += f"process {name} {{\n  var n = 0;\n  var sum = 0;\n"
        program += f"  when (sent({after}) = got({before})) : send {after} n, n := (n + 1);\n  when true : recv {before} sum;\n}}\n"
    lines = [f"1 break k a (got(f) = {HALTING}) f (got(e) = {HALTING})"]
    for turn in range(1, LARGE):
        name = RING[turn % len(RING)]
        lines += 2 * [f"1 next {other}" for other in RING]
        lines += ["1 pass k"] if turn == HALTING else []
        lines += [f"1 undo {name}", f"1 redo {name}", f"1 undo {name}", f"1 step {name} 1"]
        if len(lines) >= LARGE:
            break
    return program + "%%\n" + "".join(line + "\n" for line in lines[:LARGE])


def large_problem(suite, browser, room):
    """What is wrong with a page of 100,000 lines, and how long its opening and its steps take."""
    file, page_file = room / "large.rdbg", room / "large.html"
    file.write_text(large_session())
    replies = suite.rdbg("run", file, timeout=LARGE_TIMEOUT).output.decode().splitlines()
    if len(replies) != LARGE or any(reply.startswith("no ") for reply in replies) or sum(reply.endswith(" halted k") for reply in replies) != 1:
        return "the program does not answer its session as the test expects"
    begun = time.monotonic()
    page_file.write_bytes(draw(suite, "html", file, timeout=LARGE_TIMEOUT))
    print(f"rdbg draws a page of {LARGE} lines in {milliseconds(begun)} ms; it has {page_file.stat().st_size} bytes")
    begun = time.monotonic()
    page = Page(browser, page_file, *PASSES[0][:3])
    opening = milliseconds(begun)
    page.expect("the line", page.at["line"], next(n for n, reply in enumerate(replies, 1) if reply.endswith(" halted k")))
    steps = large_steps(page)
    longest, what = max(steps)
    middle = sorted(steps)[len(steps) // 2][0]
    print(f"the page opens in {opening} ms; of {len(steps)} steps the longest takes {longest} ms ({what}), half at most {middle} ms", flush=True)
    faults = page.faults + browser.complaints() + [f"{what} takes {taken} ms" for taken, what in steps if taken > LARGEST_STEP]
    faults += [f"half of the steps take more than {LARGEST_HALF} ms"] if middle > LARGEST_HALF else []
    return shortened(faults + ([f"opening takes {opening} ms"] if opening > LARGEST_OPENING else []))


def large_steps(page):
    """The milliseconds that each step takes, with its name: to both ends, and at twelve places a jump and three keys."""
    steps = []

    def step(what, act, wanted):
        begun = time.monotonic()
        act()
        page.at = page.look()
        steps.append((milliseconds(begun), f"{what} to line {wanted}"))
        page.expect("the line", page.at["line"], wanted)

    step("Home", lambda: page.send("Home"), 0)
    step("End", lambda: page.send("End"), LARGE)
    for turn in range(12):
        line = (LARGE * (5 * turn % 12) + LARGE // 3) // 12
        step("a jump", lambda: page.browser.evaluate(f"location.hash = '{line}'"), line)
        step("ArrowDown", lambda: page.send("ArrowDown"), line + 1)
        step("PageDown", lambda: page.send("PageDown"), line + 11)
        step("ArrowUp", lambda: page.send("ArrowUp"), line + 10)
    return steps


ODD_PROGRAM = b"process a {\n  var x = 0;\n  when (x < 3) : x := (x + 1);\n}\n%%\n"
ODD_LINES = [
    (b"# caf\xc3\xa9 \xff", "# caf\u00e9 \\xff"), (b"# \xe2\x80\xae \x1b[31m", "# \\u{202e} \\x1b[31m"), (b"1 nonsense \xc3", "1 nonsense \\xc3"),
    (b"1 next a", "1 next a")]


def odd_problem(suite, browser, room):
    """What is wrong with the page of a session with bytes that are not valid UTF-8, control characters and characters of direction."""
    file, page_file = room / "odd.rdbg", room / "odd.html"
    file.write_bytes(ODD_PROGRAM + b"".join(line + b"\n" for line, _ in ODD_LINES))
    page_file.write_bytes(draw(suite, "html", file))
    page_file.read_text(encoding="utf-8")
    page = Page(browser, page_file, 1366, 768, "light")
    page.press("Home")
    for _, wanted in ODD_LINES:
        page.press("ArrowDown")
        page.expect("the line", page.at["said"][0], wanted)
    return shortened(page.faults + browser.complaints())


def bare_problem(suite, browser, room):
    """What is wrong with a page without scripts, with one in forced colours, and with one in print."""
    page_file, faults = room / "bare.html", []
    page_file.write_bytes(draw(suite, "html", TOP / "examples" / "two_phase_commit.rdbg"))
    browser.ask("Emulation.setScriptExecutionDisabled", value=True)
    browser.open(page_file)
    shown = browser.evaluate("document.body.innerText")
    browser.ask("Emulation.setScriptExecutionDisabled", value=False)
    for text in ("Scripts are off", "split: left (state = 2) and right (state = 3)", "## split halts here"):
        faults += [] if text in shown else [f"without scripts the page does not show {text}"]
    browser.open(page_file)
    colours = {"forced-colors": "active", "prefers-color-scheme": "dark"}
    browser.ask("Emulation.setEmulatedMedia", features=[{"name": name, "value": value} for name, value in colours.items()])
    faults += [f"contrast in forced colours of {fault}" for fault in browser.evaluate(CONTRAST)]
    browser.ask("Emulation.setEmulatedMedia", media="print", features=[])
    seen = browser.evaluate("['lines', 'points', 'drawing', 'details'].filter(id => document.getElementById(id).getClientRects().length > 0)")
    browser.ask("Emulation.setEmulatedMedia", media="", features=[])
    faults += [] if seen == ["points", "drawing", "details"] else [f"in print there are {seen}"]
    return shortened(faults + browser.complaints())


def milliseconds(begun):
    return round(1000 * (time.monotonic() - begun))


def run(suite):
    if not needs_browser(suite, "all pages"):
        return
    files = [Path(name).resolve() for name in suite.options.file] or sessions("examples", "tests/pictures")
    with temporary_folder() as room, running_browser(room) as browser:
        browser.ask("Page.addScriptToEvaluateOnNewDocument", source=CLOCK)
        if suite.options.large:
            suite.attempt(f"a page of {LARGE} lines", large_problem, suite, browser, room)
        else:
            first_views = {"telephone": [], "low window": []}
            for file in files:
                suite.attempt(short_name(file), page_problem, suite, browser, file, room / "page.html", first_views)
            for where, views in first_views.items():
                seen, rest = sum(views), len(views) - sum(views)
                problem = f"they are in that of {seen}, and not in that of {rest}" if 9 * rest > seen else ""
                suite.case(f"on a {where}, the violating events are in the first view of nine in ten pages", problem)
            suite.attempt("a page with odd bytes", odd_problem, suite, browser, room)
            suite.attempt("a page without scripts, in forced colours, and in print", bare_problem, suite, browser, room)
