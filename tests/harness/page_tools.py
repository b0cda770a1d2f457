"""What a page does besides showing its lines: addresses, the state in a cut, the search, sizes, what is hidden, and the pointer."""
import json
import re

from harness.page import HARNESS
from harness.page_checks import ALL_PROCESSES, CROSSING, cut_rows

CONTRAST = (HARNESS / "page_contrast.js").read_text()
LATER = "new Promise(done => setTimeout(done, 400))"  # resolves once the address has followed


def run_checks(page, expected, session):
    check_address(page, expected)
    check_cut_states(page, expected, session)
    check_causes(page, expected, session)
    check_search(page, expected)
    check_fit(page)
    check_hidden(page, expected)
    check_pointer(page)
    check_message(page)
    check_splitters(page)
    check_selection(page)
    check_copied_text(page)
    check_saved_drawing(page, expected)
    check_program(page, session)
    check_contrast(page)


def check_contrast(page):
    for fault in page.browser.evaluate(CONTRAST):
        page.fault(f"contrast of {fault}")


# -- Addresses ----------------------------------------------------------------------------------------------------------------------------

def check_address(page, expected):
    """The address follows the line and the choice, and a page that is opened with it shows the same."""
    page.press("End")
    page.press("ArrowRight", shift=True)
    page.browser.evaluate(LATER)
    page.at = page.look()
    heading, address, line = page.at["heading"], page.at["hash"], page.at["line"]
    chosen = re.fullmatch(r"(?:(start)|.*?event (\d+)) of (\w+)", heading)
    page.expect("the address", address, f"{line}:{chosen[3]}:{chosen[2] or 0}")
    if f"line {line}" not in page.at["title"] and line:
        page.fault(f"the title does not name the line: {page.at['title']}")
    page.press("Escape")
    page.press("Home")
    page.browser.evaluate(LATER)
    page.browser.evaluate(f"location.hash = {json.dumps(address)}")
    page.at = page.look()
    page.expect("the heading at the address", (page.at["line"], page.at["heading"]), (line, heading))
    page.press("Escape")
    for n in expected.halts[:1]:
        page.browser.evaluate(LATER)
        page.browser.evaluate(f"location.hash = {n}")
        page.at = page.look()
        page.expect("the line at the address", page.at["line"], n)


# -- The state in the cut -----------------------------------------------------------------------------------------------------------------

def talk_of_cut(session, n, name):
    """What an interactive session says of the cut after line n: since when each part holds, and which messages cross it."""
    calls = [line for at, line in session.calls.items() if at <= n]
    since, crossing, question = {}, {}, f"1 cut {name}"
    lines = session.run([*calls, question], "talk")
    for line in lines[len(lines) - lines[::-1].index(question):]:
        found = re.match(r"  (\w+) +(\d+) of \d+ events? +(holds (?:since event \d+(?: or earlier)?|from the start))? ?", line)
        if found:
            since[found[1]] = found[3] or ""
        found = re.match(r"  on the way +from (\w+) to (\w+): (.*)", line)
        if found:
            crossing[f"{found[1]} to {found[2]}"] = found[3].replace(",", "")
    return since, crossing


def values_in_cut(session, n, name, processes):
    """The variables of each process in the cut: after `goto`, they are the present ones."""
    calls = [line for at, line in session.calls.items() if at <= n]
    replies = session.run([*calls, f"1 goto {name}", *(f"1 vars {process}" for process in processes)])
    return {process: reply.partition(f"vars {process}")[2].strip() for process, reply in zip(processes, replies[len(calls) + 1:])}


def without_counts(row):
    """The variables of a process in the cut, without the counts that its part names. All of these have to be there."""
    counts = re.findall(r"((?:sent|got)\(\w+\))=\d+", row[3])
    if sorted(set(counts)) != sorted(set(re.findall(r"(?:sent|got)\(\w+\)", row[1]))):
        return f"the counts {counts} for {row[1]}"
    return re.sub(r" ?(?:sent|got)\(\w+\)=\d+", "", row[3])


def check_cut_states(page, expected, session):
    """At the first and the last halt, and with nothing chosen, the page shows the state in the cut as the program reports it."""
    for n in dict.fromkeys(expected.halts[:1] + expected.halts[-1:]):
        name = expected.replies[n].rpartition(" ")[2]
        page.browser.evaluate(LATER)
        page.browser.evaluate(f"location.hash = '{n}'")
        page.at = page.look()
        page.expect("the heading", page.at["heading"], f"halted by {name}")
        rows = {row[0]: row[1:] for row in cut_rows(page)}
        page.expect("the processes of the cut", sorted(rows), sorted(expected.processes))
        since, crossing = talk_of_cut(session, n, name)
        page.expect("since when the parts hold", {process: row[2] for process, row in rows.items()}, {**dict.fromkeys(rows, ""), **since})
        values = values_in_cut(session, n, name, expected.processes)
        page.expect("the variables in the cut", {process: without_counts(row) for process, row in rows.items()}, values)
        if not any("more" in text for text in crossing.values()):
            page.expect("the messages that cross the cut", dict(page.table(CROSSING)), crossing)


# -- Causes -------------------------------------------------------------------------------------------------------------------------------

CHOSEN_EVENTS = 8  # at most, after the last line
CHAINS = "shortest chain of messages from"


def chain_lengths(session, name, n):
    """How many messages the shortest chain from each process to an event has, by the answer to `how`."""
    answer = session.run([*session.calls.values(), f"how {name} {n}"], "talk")
    notes = " ".join(line.strip() for line in answer[answer.index(f"how {name} {n}") + 1:])
    chains = re.findall(r"\bfrom (\w+)  +(\1 .*?)(?=\bfrom \w+  |\bto undo it|$)", notes)
    return {process: len(re.findall(r"-\S+-> ", chain)) for process, chain in chains}


def check_causes(page, expected, session):
    """A chosen event has as many events before it as its clock counts, and the command shown for it undoes it and the events that it names."""
    last, made = len(expected.lines), {name: expected.events_made(len(expected.lines), name) for name in expected.processes}
    events = [(name, n) for name in expected.processes for n in sorted({1, made[name] // 2, made[name]}) if 0 < n <= made[name]]
    page.browser.evaluate(LATER)
    for name, n in events[::-(-len(events) // CHOSEN_EVENTS) or 1]:
        page.browser.evaluate(f"location.hash = '{last}:{name}:{n}'")
        page.at = page.look()
        before = sum(int(count) for _, count in page.table("its clock")) - 1
        chains = {process: chain.count("\u2192") for process, chain in page.table(CHAINS)}
        page.expect(f"the chains to event {n} of {name}", chains, chain_lengths(session, name, n))
        undoing = page.browser.evaluate("(part => part && [part.textContent, part.querySelector('code').textContent])(document.querySelector('.undoing'))")
        if not undoing:
            page.fault(f"event {n} of {name} has no command that undoes it")
            continue
        spans = re.findall(r"(\w+) (\d+)(?:\u2013(\d+))?(?=[,:])", undoing[0].partition(" with ")[2])
        gone = {name: 1}
        for process, begin, end in spans:
            gone[process] = gone.get(process, 0) + int(end or begin) - int(begin) + 1
            page.expect(f"the last event of {process} that depends on event {n} of {name}", int(end or begin), made[process])
        after = sum(gone.values()) - 1
        wanted = f"after {before} of {sum(made.values()) - 1} other events; {after} {'comes' if after == 1 else 'come'} after it"
        if wanted not in page.at["notes"]:
            page.fault(f"event {n} of {name} is not {wanted!r}: {page.at['notes']}")
        questions = [f"1 place {process}" for process in expected.processes]
        replies = session.run([*session.calls.values(), f"1 {undoing[1]}", *questions])[-len(questions):]
        places = {process: int(reply.split()[2]) for process, reply in zip(expected.processes, replies)}
        page.expect(f"the events after {undoing[1]}", {process: made[process] - gone.get(process, 0) for process in made}, places)
    page.press("Escape")


# -- Search, size, and what is hidden -----------------------------------------------------------------------------------------------------

def type_text(page, text):
    page.browser.ask("Input.insertText", text=text)
    page.browser.evaluate("new Promise(done => setTimeout(done, 20))")
    page.at = page.look()


def check_search(page, expected):
    """The search finds a line by its text, and brings the page there."""
    page.press("Home")
    page.press("/")
    page.expect("the focus after /", page.at["focus"], "search")
    wanted = next((n for n, reply in sorted(expected.replies.items(), key=str) if isinstance(n, int) and reply.startswith("ok ")), None)
    if wanted is None:
        return leave_search(page)
    type_text(page, f"{expected.lines[wanted - 1]} -> {expected.replies[wanted]}")
    page.press("Enter")
    found = page.at["said"] if page.at["line"] else []
    if not {*expected.lines[wanted - 1].split(), *expected.replies[wanted].split()} <= {*" ".join(found).split()}:
        page.fault(f"the search for line {wanted} finds {found}")
    page.press("/")
    type_text(page, "no such thing as this")
    page.expect("what is found", page.browser.evaluate("document.getElementById('results').textContent"), "nothing found")
    leave_search(page)


def leave_search(page):
    page.press("Escape")
    page.expect("the focus after Escape in the search", page.at["focus"], "lines")
    page.browser.evaluate("document.getElementById('search').value = ''")


def check_fit(page):
    """`f` shows the whole drawing, and again what was before."""
    page.press("End")
    before = page.at["places"]
    page.press("f")
    more = page.browser.evaluate("(area => area.scrollWidth - area.clientWidth)(document.getElementById('drawing'))")
    if page.browser.evaluate("document.querySelectorAll('.event').length") < 60 and more > 1:
        page.fault(f"the drawing is {more} pixels too wide after f")
    page.press("f")
    page.press("End")
    page.expect("the size after f and f", len(page.at["places"]) > 0, len(before) > 0)


def click_at(page, expression, count=1):
    """Clicks with the pointer in the middle of an element, once the page is at rest."""
    page.look()
    page.look()
    x, y = page.browser.evaluate(f"(box => [box.left + box.width / 2, box.top + box.height / 2])({expression}.getBoundingClientRect())")
    for kind in ("mousePressed", "mouseReleased"):
        page.browser.ask("Input.dispatchMouseEvent", type=kind, x=x, y=y, button="left", clickCount=count)
    page.at = page.look()


def drawn_names(page):
    titles = page.browser.evaluate("[...document.querySelectorAll('.names g:not(.gone) title')].map(title => title.textContent)")
    return [title.removeprefix("start of ") for title in titles]


def check_hidden(page, expected):
    """A process and the questions can be hidden, and shown again."""
    first = "document.querySelector('#choices input')"
    before = drawn_names(page)
    click_at(page, "document.getElementById('choose')")
    click_at(page, first)
    page.expect("the names without the first", [name for name in drawn_names(page) if name == expected.processes[0]], [])
    click_at(page, first)
    page.expect("the names again", drawn_names(page), before)
    last = "[...document.querySelectorAll('#choices input')].at(-1)"
    click_at(page, last)
    asked = [n for n, reply in expected.replies.items() if isinstance(n, int) and not re.match(r"(ok|no)\b", reply)]
    page.press("Escape")
    page.press("End")
    page.press("Home")
    seen = [page.press("ArrowDown")["line"] for _ in range(min(12, len(expected.lines)))]
    page.expect("the listed questions", sorted(set(seen) & set(asked)), [])
    click_at(page, "document.getElementById('choose')")
    click_at(page, last)
    page.press("Escape")
    page.press("Home")


# -- Pointer ------------------------------------------------------------------------------------------------------------------------------

def check_pointer(page):
    """A click chooses an event, the wheel with ctrl zooms, and a drag moves a drawing that is larger than its window."""
    page.press("End")
    mark = "[...document.querySelectorAll('.event:not(.gone)')].find(item => item.isWithin)"
    if not page.browser.evaluate(f"Boolean({mark})"):
        return
    title = page.browser.evaluate(f"{mark}.querySelector('title').textContent").split(": command")[0]
    click_at(page, f"{mark}.querySelector('ellipse + ellipse')")
    page.expect("the heading after a click", page.at["heading"], title)
    line = page.at["line"]
    page.expect("the line after a click and an arrow key", page.press("ArrowUp")["line"], max(0, line - 1))
    page.press("ArrowDown")
    page.press("Escape")
    box = "document.getElementById('drawing').getBoundingClientRect()"
    x, y = page.browser.evaluate(f"(box => [box.left + .6 * box.width, box.top + box.height / 2])({box})")
    before = page.at["places"]
    for _ in range(12):
        page.browser.ask("Input.dispatchMouseEvent", type="mouseWheel", x=x, y=y, deltaX=0, deltaY=-120, modifiers=2)
    page.at = page.look()
    if page.at["places"] == before:
        page.fault("the wheel with ctrl does not change the size")
    offset = "document.getElementById('drawing').scrollLeft"
    page.browser.evaluate(f"{offset} = 10000")
    page.look()
    left = page.browser.evaluate(offset)
    page.browser.ask("Input.dispatchMouseEvent", type="mousePressed", x=x, y=y + 30, button="left", clickCount=1)
    page.browser.ask("Input.dispatchMouseEvent", type="mouseMoved", x=x + 60, y=y + 30, button="left", buttons=1)
    page.browser.ask("Input.dispatchMouseEvent", type="mouseReleased", x=x + 60, y=y + 30, button="left", clickCount=1)
    page.at = page.look()
    if left > 0:
        page.expect("the drawing after a drag", round(page.browser.evaluate(offset)), round(max(0, left - 60)))
    page.expect("the heading after a drag", page.at["headings"][-1:], [ALL_PROCESSES])
    for _ in range(14):
        page.press("-")
    page.press("Home")


def check_selection(page):
    """A selection of text stays when the line changes."""
    page.press("End")
    select = "getSelection().selectAllChildren(document.querySelector('#details h2:last-of-type'))"
    page.browser.evaluate(f"{select}, document.getElementById('lines').focus()")
    page.press("ArrowUp")
    page.expect("the selection after a step", page.browser.evaluate("getSelection().toString().trim()"), ALL_PROCESSES)
    page.browser.evaluate("getSelection().removeAllRanges()")


def check_message(page):
    """A click on an arrow chooses its message, of which the address is a part."""
    page.press("End")
    arrow = "[...document.querySelectorAll('.arrow:not(.gone)')][0]"
    if not page.browser.evaluate(f"Boolean({arrow})"):
        return
    title = page.browser.evaluate(f"{arrow}.querySelector('title').textContent")
    page.browser.evaluate(f"{arrow}.dispatchEvent(new MouseEvent('click', {{bubbles: true}}))")
    page.at = page.look()
    page.expect("the heading after a click on an arrow", page.at["heading"], title)
    page.browser.evaluate("new Promise(done => setTimeout(done, 400))")
    page.at = page.look()
    if not re.fullmatch(r"\d+:\w+:\w+:\d+", page.at["hash"]):
        page.fault(f"the address of a message is {page.at['hash']!r}")
    page.press("Escape")


def check_splitters(page):
    """Arrow keys on the bars between the areas make these larger and smaller."""
    sizes = {"beside": ("ArrowRight", "ArrowLeft", "lines", "offsetWidth"), "above": ("ArrowUp", "ArrowDown", "below", "offsetHeight")}
    for bar, (more, less, area, side) in sizes.items():
        if not page.tab_to(bar):
            return
        measure = f"document.getElementById('{area}').{side}"
        before, line = page.browser.evaluate(measure), page.at["line"]
        page.press(more)
        larger = page.browser.evaluate(measure)
        page.press(less)
        after = page.browser.evaluate(measure)
        if not after < larger:
            page.fault(f"{more} on {bar} makes {area} {larger} instead of {before}, and {less} {after}")
        page.expect(f"the line after keys on {bar}", page.at["line"], line)
    page.tab_to("lines", shift=True)


# -- Copies -------------------------------------------------------------------------------------------------------------------------------

def check_saved_drawing(page, expected):
    """The saved drawing is an SVG of its own, with all events, also those that are not visible."""
    page.press("End")
    page.browser.evaluate("window.saved = null, URL.createObjectURL = blob => (window.saved = blob, 'data:,')")
    page.browser.evaluate("HTMLAnchorElement.prototype.click = function () { window.savedAs = this.download; }")
    click_at(page, "document.getElementById('save')")
    found = page.browser.evaluate("""saved.text().then(text => {
      const made = new DOMParser().parseFromString(text, 'image/svg+xml');
      return [made.documentElement.tagName, made.querySelectorAll('ellipse').length / 2, /var\\(/.test(text), savedAs];
    })""")
    events = sum(int(expected.answer(len(expected.lines), f"place {name}").split()[-1]) for name in expected.processes)
    page.expect("the saved drawing", found[:3], ["svg", events, False])
    if not re.fullmatch(r"[\w.-]+-line-\d+\.svg", found[3]):
        page.fault(f"the name of the saved drawing is {found[3]}")


def check_copied_text(page):
    """The copied text has the line, and each heading and each row of the details."""
    page.browser.evaluate("navigator.clipboard.writeText = async text => { window.copied = text; }")
    click_at(page, "document.getElementById('text')")
    copied = page.browser.evaluate("window.copied").split()
    rows = [cell for _, rows in page.at["tables"] for row in rows for cell in row]
    for text in [*page.at["said"], *page.at["headings"], *rows]:
        if not {*text.split()} <= {*copied}:
            page.fault(f"the copied text does not have {text!r}")


def check_program(page, session):
    """The program is shown as it was written, with the command of the line's event marked."""
    if not page.at["isProgramShown"]:
        page.press("p")
    shown = page.browser.evaluate("[...document.querySelectorAll('#program > div')].map(line => line.textContent.trimEnd()).join('\\n').trimEnd()")
    page.expect("the program", shown, "\n".join(line.rstrip() for line in session.program.split("\n")).rstrip())
    page.press("Home")
    for _ in range(3):
        page.press("ArrowDown")
        marked = page.browser.evaluate("[...document.querySelectorAll('#program mark')].map(mark => mark.textContent).join(' ')")
        if marked and not marked.rstrip().endswith(";"):
            page.fault(f"the marked command does not end: {marked!r}")
