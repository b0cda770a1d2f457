"""The pictures of sessions: golden files, drawings, diagrams that Mermaid must read, logs that ShiViz must read, and pages that an HTML5
parser must read and that must know what the program answers.

The pages of tests/pictures/, of examples/ and of 20 random sessions are replayed from what they know of each line. The state to which this
leads, and the replies on the way, must be those of the program.
"""
import functools
import itertools
import re
import subprocess
import sys

from harness import TOP, Fault, sessions, temporary_folder
from harness.drawing import Drawing
from harness.explanations import talked_lines
from harness.lanes import lanes_problems
from harness.log import log_problems
from harness.page_data import FinalState, data_text, read_page
from harness.random_sessions import random_session
from harness.session import Session, draw, short_name

FORMS = ("text", "svg", "shiviz", "mermaid")
RANDOM_SESSIONS = 20
# A sequence diagram of Mermaid. In its texts, `#` begins a sign, `;` ends a line and `<` begins a tag.
MERMAID_TEXT = r"(?:[^#;<\n]|#lt;)+"
MERMAID = re.compile(
    rf"sequenceDiagram\n(?:  %% .*\n)?(?:  participant p\d+ as [\w\[\]]+\n)+"
    rf"(?:  (?:Note over p\d+(?:,p\d+)?|p\d+(?:->>|--\))p\d+): {MERMAID_TEXT}\n)*")
# Reads a page from standard input, and prints the faults that an HTML5 parser finds in it.
FIND_MARKUP_FAULTS = """
import html5lib, sys
parser = html5lib.HTMLParser()
parser.parse(sys.stdin.buffer.read())
for (line, column), fault, _ in parser.errors:
    print(f"line {line}, column {column}: {fault}")
"""
GOLDEN_PAGE = TOP / "docs" / "two_phase_commit.html"
MANY_EVENTS = 2_010
SHOWN_IN_TEXT = 60  # events, at most
DRAWN_EVENTS = 2_000  # at most, unless `--last` says more
MANY_BREAKPOINTS, MANY_PROCESSES = 64, 32
BYTES_OF_A_LINE = 150  # at most, in the page of so many breakpoints, on average


def shown_reasons(session, name):
    """What an interactive session says after the last line of the eliminations of a breakpoint."""
    question = f"1 why {name}"
    lines = session.run([*session.calls.values(), question], "talk")
    asked = max(number for number, line in enumerate(lines) if line == question)
    reasons = itertools.takewhile(lambda line: line != "  what is left is the earliest state:", lines[asked + 2:])
    return [line.strip() for line in reasons if not line.strip().startswith(("not yet in ", "the part of "))]


def explained_refusals(suite, session):
    """What an interactive session says of each line that is refused, by the numbers of the lines."""
    talked = talked_lines(suite, f"{session.program}\n%%\n", session.lines)
    return {n: line.notes for n, line in enumerate(talked, 1) if re.match(r"no \d", line.reply) and line.notes}


def wrong_answers(wanted, shown):
    """One line for each question to which the page and the program have different answers."""
    questions = [question for question in {**wanted, **shown} if wanted.get(question) != shown.get(question)]
    return [f"{question}: the page has {shown.get(question)!r}, and the program {wanted.get(question)!r}" for question in questions]


def page_problem(suite, file):
    """What the page of a session knows wrongly."""
    data, session = read_page(draw(suite, "html", file).decode()), Session(suite, file)
    page = FinalState(data)
    end = len(session.lines)
    replies = session.replies({end: list(page.answers)})
    shown = {number: reply for number, reply in page.replies.items() if reply}  # a directive has no reply
    problems = wrong_answers(replies, {**shown, **{(end, question): answer for question, answer in page.answers.items()}})
    problems += wrong_answers({name: shown_reasons(session, name) for name in page.reasons}, page.reasons)
    problems += wrong_answers(explained_refusals(suite, session), data["explained"])
    return "\n".join(problems)


def drawing_problem(suite, file):
    """What is wrong with the drawing of a session at its end."""
    drawing, events = Drawing(draw(suite, "svg", file)), len(draw(suite, "shiviz", file).splitlines()) // 2
    problems = drawing.problems()
    if drawing.events() != events:
        problems.append(f"{drawing.events()} events are drawn, and there are {events}")
    return "\n".join(problems)


def at_halt(suite, file, *options):
    """The drawing of a session at its first halt, or None."""
    ran = suite.rdbg("draw", "--as", "svg", "--at-halt", *options, short_name(file))
    return None if ran.status == 1 and ran.errors == b"error: no breakpoint halts the session\n" else ran


def halt_problem(suite, file):
    """What is wrong with the picture of the first halt of a session, if it has one: compared with a model of the session."""
    ran = at_halt(suite, file)
    return "\n".join(lanes_problems(ran.output, Session(suite, file))) if ran else ""


def whole_problem(suite, file):
    """What is wrong with the drawing of a whole session at its first halt, if it has one."""
    ran = at_halt(suite, file, "--whole")
    if not ran:
        return ""
    drawing = Drawing(ran.output)
    halting = [cut for cut in drawing.cuts() if "halts" in drawing.kinds(cut)]
    return "\n".join([*drawing.problems(), *([] if len(halting) == 1 else [f"{len(halting)} cuts halt the session"])])


def process_names(drawing):
    return [name.text for name in drawing.of_kind("name")]


def selection_problem(suite, file):
    """What is wrong with the drawing of the first two processes of a session."""
    wanted = process_names(Drawing(draw(suite, "svg", file)))[:2]
    drawing = Drawing(suite.rdbg("draw", "--as", "svg", "--only", ",".join(wanted), file).output)
    shown = process_names(drawing)
    return "\n".join([*drawing.problems(is_whole=False), *([] if shown == wanted else [f"it shows {shown} in place of {wanted}"])])


def mermaid_problem(suite, file):
    """The first line that Mermaid does not read."""
    diagram = draw(suite, "mermaid", file).decode()
    read = MERMAID.match(diagram)
    rest = diagram[read.end():] if read else diagram
    return rest and f"Mermaid does not read {rest.splitlines()[0]!r}"


def log_problem(suite, file):
    """What is wrong with the log of a session."""
    return "\n".join(log_problems(draw(suite, "shiviz", file).decode()))


@functools.cache
def python_with_parser():
    """A Python that has the HTML5 parser html5lib, or None."""
    for python in (sys.executable, "/usr/bin/python3"):
        if subprocess.run([python, "-c", "import html5lib"], stderr=subprocess.DEVNULL).returncode == 0:
            return python
    return None


def markup_problem(suite, file):
    """What an HTML5 parser finds wrong with the page of a session."""
    ran = subprocess.run([python_with_parser(), "-c", FIND_MARKUP_FAULTS], input=draw(suite, "html", file), stdout=subprocess.PIPE)
    return ran.stdout.decode() if ran.returncode == 0 else f"the parser ended with status {ran.returncode}"


def check_markup(suite, file):
    name = f"the markup of the page of {short_name(file)}"
    if python_with_parser():
        suite.attempt(name, markup_problem, suite, file)
    else:
        suite.skip(name, "html5lib is not installed")


def counting_process(name):
    return f"process {name} {{\n  var x = 0;\n  when true : x := (x + 1);\n}}\n"


def long_drawing_problem(suite, room):
    """What is wrong with the drawing of a session of more events than a drawing shows."""
    file = room / "many_events.rdbg"
    file.write_text(counting_process("a") + "%%\n" + MANY_EVENTS * "1 next a\n")
    left = MANY_EVENTS - DRAWN_EVENTS
    usual, whole = Drawing(draw(suite, "svg", file)), Drawing(suite.rdbg("draw", "--as", "svg", "--last", MANY_EVENTS, file).output)
    yield from [] if usual.events() == DRAWN_EVENTS else [f"{usual.events()} events are drawn"]
    yield from [] if f"{left} earlier events are left out." in usual.text else ["it does not say how many are left out"]
    yield from [] if whole.events() == MANY_EVENTS else [f"{whole.events()} events are drawn where --last asks for all"]


def early_cut_problem(suite, room):
    """What is wrong with the text of a session whose halt is long before its last events."""
    file = room / "early_cut.rdbg"
    file.write_text(counting_process("a") + "%%\n" + SHOWN_IN_TEXT * "1 next a\n" + 10 * "1 next a\n" + "1 break early a (x = 1)\n")
    lines = draw(suite, "text", file).decode().splitlines()
    cuts = [at for at, line in enumerate(lines) if line.startswith("##")]
    events = [line for line in lines if line.startswith("o ")]
    yield from [] if len(cuts) == 1 else [f"the line of the cut is there {len(cuts)} times"]
    yield from [] if len(events) == 7 and events[-1].startswith("o 7:") else [f"the events are {events}"]
    yield from [] if f".. {SHOWN_IN_TEXT + 3} later events are left out" in lines else ["it does not say how many are left out"]


def shared_searches_problem(suite, room):
    """What is wrong with the page of many breakpoints whose searches go on at each event: it has what they share once."""
    file, names = room / "many_breakpoints.rdbg", [f"p{number}" for number in range(MANY_PROCESSES)]
    predicate = " ".join(f"{name} (x > 30000)" for name in names)
    breakpoints = [f"1 break b{number} {predicate}" for number in range(MANY_BREAKPOINTS - 1)]
    lines = [*breakpoints, f"1 break other p1 (x = 2) p3 (x = 2) {names[-1]} (x = 9)", *4 * [f"1 next {name}" for name in names]]
    file.write_text("".join(map(counting_process, names)) + "%%\n" + "".join(f"{line}\n" for line in lines))
    page = draw(suite, "html", file).decode()
    events = re.findall(r'^\[\d+,\["e",.*', page, re.MULTILINE)
    size = sum(map(len, events)) // max(1, len(events))
    yield from [] if len(events) == 4 * len(names) else [f"{len(events)} lines made an event"]
    yield from [] if size <= BYTES_OF_A_LINE else [f"what a line did has {size} bytes"]
    yield page_problem(suite, file)


def joined_problems(problem, *arguments):
    return "\n".join(filter(None, problem(*arguments)))


def check_golden(suite, golden, form, file):
    try:
        suite.golden(golden, draw(suite, form, file))
    except Fault as fault:
        suite.case(short_name(golden), fault)


def check_page_of_documents(suite):
    """The page among the documents has the data of a page that is drawn now. --update writes it anew, with the script and the style of now."""
    page = draw(suite, "html", TOP / "examples" / "two_phase_commit.rdbg").decode()
    if suite.options.update:
        GOLDEN_PAGE.write_text(page, encoding="utf-8")
    suite.same(short_name(GOLDEN_PAGE), data_text(page), data_text(GOLDEN_PAGE.read_text(encoding="utf-8")))


def run(suite):
    for file in sessions("tests/pictures"):
        for form in FORMS:
            check_golden(suite, file.with_suffix(f".{form}"), form, file)
        halt = at_halt(suite, file)
        if halt:
            suite.golden(file.with_suffix(".halt.svg"), halt.output)
    check_page_of_documents(suite)
    with temporary_folder() as room:
        suite.attempt("a drawing of many events", joined_problems, long_drawing_problem, suite, room)
        suite.attempt("the text of an early cut", joined_problems, early_cut_problem, suite, room)
        suite.attempt("a page of many breakpoints", joined_problems, shared_searches_problem, suite, room)
        random_files = [room / f"random_{number}.rdbg" for number in range(RANDOM_SESSIONS)]
        for number, file in enumerate(random_files):
            file.write_text(random_session(number))
        for file in [*sessions("tests/pictures", "examples"), *random_files]:
            suite.attempt(f"the page of {short_name(file)}", page_problem, suite, file)
            check_markup(suite, file)
            suite.attempt(f"{short_name(file)} as mermaid", mermaid_problem, suite, file)
            suite.attempt(f"{short_name(file)} as a log", log_problem, suite, file)
            suite.attempt(f"the drawing of {short_name(file)}", drawing_problem, suite, file)
            suite.attempt(f"the picture of the first halt of {short_name(file)}", halt_problem, suite, file)
            suite.attempt(f"the drawing of {short_name(file)} at its first halt", whole_problem, suite, file)
            suite.attempt(f"the drawing of two processes of {short_name(file)}", selection_problem, suite, file)
