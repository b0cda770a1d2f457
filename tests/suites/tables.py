"""Tables of texts: which are programs, where others have their first fault, what models and command lines become, and how lines are answered.

Each file of tests/tables/ has the rows of one topic, as these:

  check: program refused 5 at ^
  in process a { var x = 0; when true : …; } process b { }
    a target             | send ^c 1
    a variable           | x := 1, ^y := 1

A heading is a command of rdbg and the first line that the command writes, in which `^` is the offset of the mark in the text of a row. A line
`in` has what is around the text of each row; if there are several, each row is tried in each. A frame of several lines has `| ` before each.
Headings with nothing between them share the rows below. A row is a name and a text, or a text alone, and is indented by two; its further lines
are indented by four. A line that begins with `#` is a comment. In texts and frames

  ^               is the mark, which is taken out
  «TEXT×3»        is TEXT three times
  «TEXT×1..3»     is TEXT with 1, 2 and 3 in place of `#`, and the number before it in place of `#'`; one may be within another
  each of [a-z]   makes a row for each byte of the class

Bytes that are not shown are written as in transcripts (harness/transcripts.py). After `=>` a row has what else the command writes:

  check --explain   the sentence below the excerpt
  expand            all of it; blanks count only after a line `%%`
  talk              the plain lines that are played, with ` | ` between them; if the row has a mark, the sentence that is at the mark

The rows of a talk are lines of one session, and its heading has the beginning of the reply to each line with a mark.

A row of `run` is a session with the replies next to its lines (harness/side_by_side.py), as in

  run
  in | process a { var x = 0; when true : x := (x + 1); }
     | %%
     | …
    an event is undone |
      1 next a -> ok a 0
      1 undo a -> ok a 0
  after | 1 next a -> ok a 0
    1 vars a   -> vars a x=1

`in the same` repeats the frames of the heading before. Lines `after` continue the frames, for the rows below them. Lines `same` are asked
before and after each row, and have the same replies. After a row of `run, and back` all its commands are taken back, the last one first, and
each other line is asked again and has the reply that it had. A row of `arguments` has arguments, and the first line that rdbg writes then;
its heading has the status.
"""
import os
import re
import shlex
from concurrent.futures import ThreadPoolExecutor
from functools import partial
from typing import NamedTuple

from harness import TESTS, difference, is_proved, side_by_side
from harness.transcripts import as_text

TABLES = TESTS / "tables"
SLOW = "much.txt"  # takes minutes in a program that is not proved
REPEATED = re.compile(r"«([^«]*?)×(\d+)(?:\.\.(\d+))?»")
HOLE = "…".encode()
END = b"%%\n"
NEXT = b"# the next row\n"  # between the lines of a talk
SESSIONS = ["run", "run, and back"]


class Row(NamedTuple):
    """A row in a frame: where it is and its name, the frame and the text, of which one may have a mark, and what is after `=>`."""
    name: str
    frame: bytes
    text: bytes
    wanted: bytes


class Session(NamedTuple):
    """A row that is a session: where it is and its name, what is before it, and its lines. Both are as shown, without repetitions."""
    name: str
    before: str
    lines: str


class Group(NamedTuple):
    """A heading with its frames, the lines `after` and `same`, and its rows: the number of the first line of each, and its lines."""
    command: str
    output: str
    frames: list
    after: list
    same: list
    rows: list


def groups(path):
    found, block = [], []
    for number, line in enumerate(path.read_text(encoding="utf-8").splitlines(), 1):
        if line.startswith("    "):
            found[-1].rows[-1][1].append(line[4:])
        elif line.startswith("   | "):
            block[-1] += "\n" + line[5:]
        elif line.startswith("  "):
            found[-1].rows.append((number, [line[2:]]))
        elif line == "in the same":
            found[-1].frames.extend(found[-2].frames)
        elif line.startswith(("in ", "after ", "same ")):
            kind, _, first = line.partition(" ")
            if kind == "after" and found[-1].rows:
                found.append(found[-1]._replace(after=[], rows=[]))
            block = {"in": found[-1].frames, "after": found[-1].after, "same": found[-1].same}[kind]
            block.append(first.removeprefix("| "))
        elif line and not line.startswith("#"):
            command, _, output = line.partition(": ")
            found.append(Group(command, output, [], [], [], found[-1].rows if found and not found[-1].rows else []))
    return found


def repeated(found):
    part, first, last = found.groups()
    if not last:
        return part * int(first)
    return "".join(part.replace("#'", str(number - 1)).replace("#", str(number)) for number in range(int(first), int(last) + 1))


def expanded(shown):
    """A text without repetitions, those within others first."""
    while REPEATED.search(shown):
        shown = REPEATED.sub(repeated, shown)
    return shown


def as_bytes(shown):
    return as_text(expanded(shown).encode().split(b"\n"))[:-1]


def texts(shown):
    """The text of a row, or the bytes of its class."""
    if not shown.startswith("each of "):
        return [as_bytes(shown)]
    one = re.compile(shown.removeprefix("each of ").encode(), re.DOTALL)
    return [bytes([byte]) for byte in range(256) if one.fullmatch(bytes([byte]))]


def shown_rows(path, group):
    """The rows of a group: where each is and its name, what is shown of it, and what is after `=>`."""
    for number, lines in group.rows:
        shown, _, wanted = re.fullmatch(r"(.*?) *(\s=>(?:\s|$)(.*))?", "\n".join(lines), re.DOTALL).groups()
        *name, shown = re.split(r" +\|\s", shown, maxsplit=1)
        first = "".join(name) or shown.split("\n")[0]
        yield f"{path.name}:{number}: {first}", shown, wanted or ""


def framed_rows(path, group):
    """The rows of a group, each in each frame."""
    for name, shown, wanted in shown_rows(path, group):
        for frame in group.frames or ["…"]:
            if group.command in SESSIONS:
                before = "\n".join([*frame.split("\n")[:-1], *group.after])
                yield Session(name, expanded(before), expanded(shown))
            else:
                yield from (Row(name, as_bytes(frame), text, as_bytes(wanted)) for text in texts(shown))


def bare(session):
    """A session without the blanks of its program."""
    program, end, lines = session.partition(END)
    return b"".join(program.split()) + end + lines


def check_text(suite, group, row):
    """What differs in what a command writes about a text."""
    front, _, back = row.frame.replace(HOLE, row.text).partition(b"^")
    ran = suite.rdbg(*group.command.split(), given=front + back, merge=True, timeout=600)
    if group.command == "expand":
        return difference(bare(ran.output), bare(row.frame.replace(HOLE, row.wanted)))
    first, *notes = ran.output.split(b"\n")
    shown, wanted = [first], [group.output.replace("^", str(len(front))).encode()]
    status = side_by_side.status_after(wanted)
    if row.wanted:
        shown, wanted = shown + notes[3:4], wanted + [b"  " + row.wanted]
    return difference(b"\n".join([*shown, b"status %d" % ran.status]), b"\n".join([*wanted, b"status %d" % status]))


def check_line(group, row, output):
    """What differs in what a talk writes about a line."""
    front, mark, back = row.text.partition(b"^")
    if not mark:
        return difference(b" | ".join(block.split(b"\n")[0] for block in output.strip(b"\n").split(b"\n\n")), row.wanted)
    wanted = b"\n" + group.output.encode(), b"\n  %s%s\n  %s^ %s\n" % (front, back, b" " * len(front), row.wanted)
    shown = re.sub(rb"\^\n +", b"^ ", output)
    return "" if all(part in shown for part in wanted) else difference(shown, b"..".join(wanted))


def check_talk(suite, group, rows):
    """What differs in each line of a talk."""
    program, end, frame = rows[0].frame.rpartition(END)
    lines = b"".join(NEXT + frame.replace(HOLE, row.text.replace(b"^", b"")) + b"\n" for row in rows)
    _, *output = suite.rdbg("talk", given=program + end + lines, timeout=600).output.split(NEXT)
    if len(output) != len(rows):
        return [f"{len(output)} of {len(rows)} lines were played"] * len(rows)
    return [check_line(group, row, shown) for row, shown in zip(rows, output)]


def calls(suite):
    """The calls of rdbg, each a group and rows of it."""
    for path in sorted(TABLES.glob("*.txt")):
        if path.name == SLOW and not suite.options.all and not is_proved(suite.program):
            suite.skip(path.name, "it takes minutes in a program that is not proved (--all plays it)")
            continue
        for group in groups(path):
            rows = list(framed_rows(path, group))
            yield from [(group, rows)] if group.command == "talk" else [(group, [row]) for row in rows]


def check_session(suite, group, row):
    """What differs in a session."""
    if group.command == "run, and back":
        return side_by_side.check_and_back(suite, row.before, row.lines)
    if group.same:
        return side_by_side.check_same(suite, row.before, row.lines, "\n".join(group.same))
    return side_by_side.check(suite, row.before, row.lines)


def check_arguments(suite, group, row):
    """What differs in the first line and the status of a call with arguments."""
    words, wanted = re.split(" *-> ", row.text.decode(), maxsplit=1)
    ran = suite.rdbg(*shlex.split(words), folder=TESTS, merge=True)
    return difference(b"%s\nstatus %d" % (ran.output.split(b"\n")[0], ran.status), f"{wanted}\nstatus {group.output}".encode())


def differences(suite, call):
    """What differs in each row of a call."""
    group, rows = call
    if group.command == "talk":
        return check_talk(suite, group, rows)
    check = check_session if group.command in SESSIONS else check_arguments if group.command == "arguments" else check_text
    return [check(suite, group, *rows)]


def run(suite):
    made = list(calls(suite))
    with ThreadPoolExecutor(len(os.sched_getaffinity(0))) as pool:
        for (_, rows), problems in zip(made, pool.map(partial(differences, suite), made)):
            for row, problem in zip(rows, problems):
                suite.case(row.name, problem)
