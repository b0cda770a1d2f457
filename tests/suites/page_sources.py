"""The sources of the page: what is generated from them, their syntax, and the functions of the script that need no browser.

The Rattle files with the page are generated from crates/ui_page/page/ (--update writes them anew). With Node.js, the script must have no fault of
syntax. Its functions must compute, from the data of a page, what the program answers after each line of an example: the values, the clock and
the number of events of each process, the messages on their way, and the cut of each breakpoint, in which each part must hold.
"""
import json
import subprocess

from harness import TOP, Fault, sessions, temporary_folder
from harness.page import HARNESS, Expected
from harness.page_sources import GENERATED, SOURCES, generated, script
from harness.session import Session, draw, short_name
from harness.value_words import ValueWords


def node(*words):
    ran = subprocess.run(["node", *map(str, words)], stdout=subprocess.PIPE, stderr=subprocess.PIPE, text=True, timeout=120)
    if ran.returncode != 0:
        raise Fault(f"node: status {ran.returncode}\n{ran.stderr}")
    return ran.stdout


def syntax_problem(folder):
    (folder / "script.js").write_text(script(), encoding="utf-8")
    node("--check", folder / "script.js")


def wanted_state(expected, n):
    """What the program answers after line n, in the form in which the functions of the page return it."""
    def counts(question):
        return [int(count) for _, count in expected.pairs(n, question)]

    processes = [{
        "name": name, "events": expected.events_made(n, name), "length": int(expected.answer(n, f"place {name}").split()[2]),
        "values": expected.pairs(n, f"vars {name}"), "clock": counts(f"clock {name}"),
    } for name in expected.processes]
    messages = [[one, other, expected.answer(n, f"chan {one} {other}").split()] for one, other in expected.channels]
    cuts = {}
    for name in expected.breakpoints:
        answer = expected.answer(n, f"cut {name}")
        if not answer.startswith("no "):
            cuts[name] = counts(f"cut {name}") if "=" in answer else None
    return processes, sorted(message for message in messages if message[2]), cuts


def state_problem(state, expected, n):
    processes, messages, cuts = wanted_state(expected, n)
    shown = {point["name"]: point["cut"] for point in state["cuts"]}
    compared = [*zip(state["processes"], processes), (sorted(state["messages"]), messages), (shown, cuts)]
    for one, other in compared:
        if one != other:
            return f"after line {n}: {one}, not {other}"
    if not all(all(point["holding"]) for point in state["cuts"]):
        return f"after line {n}: a part does not hold in the cut: {state['cuts']}"
    return ""


def session_problem(suite, plain, file, folder):
    """The first line of a session after which the functions of the page do not compute what the program answers to its plain session. The names
    of a model are read back."""
    expected = Expected(Session(suite, plain))
    (folder / "page.html").write_bytes(draw(suite, "html", file))
    states = plain_names(json.loads(node(HARNESS / "page_functions.js", SOURCES, folder / "page.html", *expected.state_lines)))
    read_values(ValueWords(file.read_text(encoding="utf-8").partition("\n%%\n")[0]), states)
    problems = (state_problem(state, expected, n) for state, n in zip(states, expected.state_lines))
    return next(filter(None, problems), "")


def plain_names(value):
    """A value of JSON in which names have their indices in brackets, with plain names."""
    if isinstance(value, str):
        return value.replace("[", "_").replace("]", "")
    if isinstance(value, list):
        return [plain_names(one) for one in value]
    return {plain_names(key): plain_names(one) for key, one in value.items()} if isinstance(value, dict) else value


def read_values(values, states):
    """Puts numbers in place of the words that are shown for values."""
    for state in states:
        for process in state["processes"]:
            process["values"] = [[name, values.number(value)] for name, value in process["values"]]
        state["messages"] = [[one, other, [values.number(value) for value in sent]] for one, other, sent in state["messages"]]


def model_problem(suite, file, folder):
    """The same for a session in the model notation, without its comments."""
    program, end, lines = file.read_text(encoding="utf-8").partition("\n%%\n")
    kept = [f"{line}\n" for line in lines.splitlines() if not line.lstrip().startswith("#")]
    model, plain = folder / "model.rdbg", folder / "plain.rdbg"
    model.write_text(program + end + "".join(kept), encoding="utf-8")
    plain.write_bytes(suite.rdbg("expand", model).output)
    return session_problem(suite, plain, model, folder)


def run(suite):
    for name, text in generated().items():
        suite.golden(GENERATED / f"{name}.rt", text)
    suite.compared(*GENERATED.rglob("*.rt"))
    if not suite.needs("node", "the script of the page"):
        return
    with temporary_folder() as folder:
        suite.attempt("the syntax of the script", syntax_problem, folder)
        for file in sessions(TOP / "examples"):
            suite.attempt(short_name(file), session_problem, suite, file, file, folder)
        for file in sessions(TOP / "examples" / "notation"):
            suite.attempt(short_name(file), model_problem, suite, file, folder)
