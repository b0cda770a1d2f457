"""The examples in the model notation: what `rdbg expand` prints for each, and the replies to that plain session.

Where examples/ has a plain example of the same name, the replies are those of the plain example; the two use other names, in the same order.
Otherwise tests/notation/NAME.out has the replies. `talk`, `draw` and `check --explain` of the example do what they do of its plain session,
once the names and labels in what they print are read back.
"""
import re

from harness import TESTS, TOP, temporary_folder
from harness.session import call
from harness.value_words import ValueWords

EXAMPLES = TOP / "examples"
PLAIN = TESTS / "notation"
REPLIES = TESTS / "replies"

DECLARED = re.compile(r"\b(?:process|var)\s+(\w+)")
WORD = re.compile(r"[A-Za-z_]\w*")
END_OF_PROGRAM = "\n%%\n"


def program(path):
    return path.read_text().partition(END_OF_PROGRAM)[0]


def program_lines(path):
    """The lines of a program that are not blank and not a comment."""
    lines = [line.strip() for line in program(path).splitlines()]
    return sum(1 for line in lines if line and not line.startswith("#"))


def renamed(shown, present, wanted):
    """Replies with the names that one program declares replaced by those of the other, in the order of their declarations."""
    names = dict(zip(DECLARED.findall(present), DECLARED.findall(wanted)))
    return WORD.sub(lambda word: names.get(word.group(), word.group()), shown)


def plain_names(text):
    """A text in which names have their indices in brackets, with plain names."""
    return text.replace("[", "_").replace("]", "")


def read_back(suite, example, talk):
    """The lines and replies of a session in the notation, as those of its plain session: with plain names, and with the numbers of commands and
    of values."""
    values = ValueWords(program(example))
    rows = [line.split("\t") for line in suite.rdbg("expand", "--names", example).output.decode().splitlines()]
    numbers = {(name, plain_names(label)): number for name, number, _, _, label in rows if label}

    def plain_line(line):
        sign = "> " if line.startswith("> ") else ""
        words = plain_names(line.removeprefix(sign)).split(" ")
        if words[0] == "ok" and tuple(words[1:3]) in numbers:
            words[2] = numbers[tuple(words[1:3])]
        return sign + values.plain_reply(" ".join(words))

    return "\n".join(map(plain_line, talk.split("\n")))


# The label of an event in a sequence diagram, alone or before what the event did.
NOTED_LABEL = re.compile(r"^  Note over \w+: \w+\n|(?<=: )\w+, ", re.MULTILINE)


def without_labels(drawn):
    """A sequence diagram or a log with plain names, and without the numbers and labels of commands."""
    return NOTED_LABEL.sub("", re.sub(r"\bcommand [^\s:]+:", "command:", plain_names(drawn)))


def without_explanations(talk):
    """The lines and replies of a session, without comments and explanations."""
    return b"".join(line for line in talk.splitlines(keepends=True) if line.strip() and not line.startswith((b"  ", b"#")))


def replies(suite, plain):
    """The replies to the lines of a plain session. A line without a seat is one of seat 1."""
    start, end, lines = plain.decode().partition(END_OF_PROGRAM)
    calls = [call(line) for line in lines.splitlines() if line.strip()]
    return suite.rdbg("run", given=start + end + "".join(f"{line}\n" for line in calls if line)).output.decode()


def check_replies(suite, example, plain):
    """Compares the replies to an example, of which this is the plain session, with those of the plain example or with a golden file."""
    shown, twin = replies(suite, plain), EXAMPLES / example.name
    if twin.exists():
        shown = renamed(shown, program(PLAIN / example.name), program(twin))
        suite.same(f"{example.name}: the replies", shown, (REPLIES / f"{twin.stem}.out").read_text())
    else:
        suite.golden(PLAIN / f"{example.stem}.out", shown)


def check_direct(suite, example, plain):
    """Compares what the program does with an example and with its plain session, given as its input."""
    talks = [suite.rdbg("talk", example), suite.rdbg("talk", given=plain)]
    shown, wanted = (without_explanations(talk.output).decode() for talk in talks)
    suite.same(f"{example.name}: an interactive session", read_back(suite, example, shown), wanted)
    for form in ["shiviz", "mermaid"]:
        drawn = [suite.rdbg("draw", "--as", form, example), suite.rdbg("draw", "--as", form, given=plain)]
        shown, wanted = (without_labels(picture.output.decode()) for picture in drawn)
        if form == "mermaid":
            shown = ValueWords(program(example)).plain_picture(shown)
        suite.same(f"{example.name}: drawn as {form}", shown, wanted)
    sizes = [suite.rdbg("check", "--explain", example), suite.rdbg("check", given=plain)]
    suite.same(f"{example.name}: its size", *(size.output.decode() for size in sizes))


# A session with seats, whose lines are repeated, stop early, and end with `quit`.
PLAYED = """process p[i: 1..2] { var x = 0; go: when x < 3 : x := x + 1; }
%%
1 next p[1] 2
2 break late p[1] (x = 3) p[2] (x = 2)
1 next p[1] 5   # the third is refused
for i: 1..2 : 1 next p[i] 2
1 step p[2] go
1 undo p[2]
1 back
quit
1 next p[1]
"""


def check_played(suite):
    """What `expand` prints is what `talk` plays: each line, followed by the reply that a run gives to it."""
    expanded = suite.rdbg("expand", given=PLAYED).output.decode()
    program, end, lines = expanded.partition(END_OF_PROGRAM)
    lines = [line for line in lines.splitlines() if line and line != "quit"]
    replies = suite.rdbg("run", given=program + end + "".join(f"{line}\n" for line in lines)).output.decode().splitlines()
    played = "".join(f"{line}\n{reply}\n" for line, reply in zip(lines, replies))
    talk = without_explanations(suite.rdbg("talk", given=PLAYED).output).decode()
    with temporary_folder() as folder:
        (folder / "played.rdbg").write_text(PLAYED)
        talk = read_back(suite, folder / "played.rdbg", talk)
    suite.same("a session with repeated lines, as it is expanded", played, talk.removesuffix("quit\n"))


def run(suite):
    check_played(suite)
    written = sorted((EXAMPLES / "notation").glob("*.rdbg"))
    for example in written:
        expanded = suite.rdbg("expand", example)
        suite.same(f"{example.name}: the status of its expansion", expanded.status, 0)
        suite.golden(PLAIN / example.name, expanded.output)
        check_direct(suite, example, expanded.output)
        check_replies(suite, example, expanded.output)
    suite.compared(*PLAIN.iterdir())
    pairs = [(example, EXAMPLES / example.name) for example in written if (EXAMPLES / example.name).exists()]
    short, long = (sum(map(program_lines, files)) for files in zip(*pairs))
    suite.case("the programs are at most half as long", "" if 2 * short <= long else f"{short} lines, and {long}")
