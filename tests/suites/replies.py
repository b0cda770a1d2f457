"""The replies to the examples: what `run` and `test` make of each session, and the calls that crews make.

tests/replies/NAME.out has the replies to examples/NAME.rdbg, one for each command line. What `how` and `from` say at the end of each example,
and of 40 random sessions (400 with --all), is compared with a model (harness/causes.py).
"""
from harness import TESTS, TOP, sessions, temporary_folder
from harness.causes import problem_of_causes
from harness.random_sessions import random_session

REPLIES = TESTS / "replies"
CAUSES, ALL_CAUSES = 40, 400  # random sessions of which causes are asked
# The examples that a crew runs, and how many processes each has. A process makes a call in each turn.
CREWS, TURNS = {"transfers": 3, "snapshot": 9}, 1000


def with_replies(session, replies):
    """The session with the reply `> ..` after each command line, as `test` reads it. Blank lines have no reply."""
    program, end, lines = session.partition("\n%%\n")
    expected = iter(replies.splitlines())
    made = [f"{line}\n> {next(expected, 'there is no reply')}" if line.strip() else line for line in lines.splitlines()]
    return "\n".join([program + end.rstrip("\n"), *made, *(f"> {reply}" for reply in expected)]) + "\n"


def check_example(suite, example, room):
    """Tests the replies of `run`, and that `test` finds the same ones."""
    wanted = REPLIES / f"{example.stem}.out"
    suite.golden(wanted, suite.rdbg("run", given=example.read_bytes()).output)
    session = room / example.name
    replies = wanted.read_text(encoding="utf-8") if wanted.exists() else ""
    session.write_text(with_replies(example.read_text(encoding="utf-8"), replies), encoding="utf-8")
    ran = suite.rdbg("test", session.name, folder=room, merge=True)
    report = f"{session.name}: ok, {len(replies.splitlines())} replies\nstatus 0\n"
    suite.same(f"rdbg test, for {example.stem}", ran.output + b"status %d\n" % ran.status, report.encode())


def check_causes(suite):
    """Tests what examples and random sessions say of causes."""
    for example in sessions("examples"):
        suite.case(f"causes of {example.stem}", problem_of_causes(suite, example.read_text(encoding="utf-8"), 0))
    for number in range(ALL_CAUSES if suite.options.all else CAUSES):
        suite.case(f"causes of random session {number}", problem_of_causes(suite, random_session(number), number))


def run(suite):
    with temporary_folder() as room:
        for example in sessions("examples"):
            check_example(suite, example, room)
    suite.compared(*REPLIES.iterdir())
    for name, processes in CREWS.items():
        ran = suite.rdbg("crew", "--turns", TURNS, given=(TOP / "examples" / f"{name}.rdbg").read_bytes(), merge=True)
        suite.same(f"a crew of {name}", ran.output, f"calls {processes * TURNS}\njournal ok\n".encode())
    check_causes(suite)
