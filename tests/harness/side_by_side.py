"""Sessions of `rdbg run` whose lines have their replies next to them.

  LINE -> REPLY   a line of the input, and the line that rdbg writes about it; a reply that ends in `…` only begins so
  LINE            a line about which it writes nothing, as those of a program

A session ends in ` (no end)` if no line end is after its last line. Bytes that are not shown are written as in transcripts.
"""
import re
from itertools import islice
from typing import NamedTuple, Optional

ESCAPED, NO_END, REST = " (escaped)", " (no end)", "…".encode()
FIRST = 3  # of the lines that have another reply, in a report


class Line(NamedTuple):
    """A line of the input, and the reply to it, if there is one."""
    text: bytes
    reply: Optional[bytes] = None


BLANK = Line(b"")  # of which long sessions have a million


def lines_of(session):
    """The lines of a session that has no repetitions any more."""
    lines = []
    for shown in session.removesuffix(NO_END).split("\n") if session else []:
        if not shown:
            lines.append(BLANK)
            continue
        bare = shown.removesuffix(ESCAPED)
        text, _, reply = re.fullmatch(r"(.*?)( *-> ?(.*))?", bare).groups()
        text = (text if bare == shown else text.encode().decode("unicode_escape")).encode("latin-1")
        lines.append(Line(text, None if reply is None else reply.encode()))
    return lines


def with_replies(lines):
    return [line for line in lines if line.reply is not None]


def status_after(replies):
    """The status of a run or a check, by the last line that it writes or by the only one."""
    last = replies[-1] if replies else b""
    return 3 if last.startswith(b"program refused") else 1 if last == b"input too long" else 0


def play(suite, lines, end):
    """Plays lines. Returns those with a reply, each with the one that it has, and what else differs from a session that is played well."""
    ran = suite.rdbg("run", given=b"\n".join(line.text for line in lines) + end, merge=True, timeout=600)
    *replies, rest = ran.output.split(b"\n")
    asked = with_replies(lines)
    played = [Line(line.text, reply) for line, reply in zip(asked, replies)]
    if rest or len(replies) != len(asked):
        return played, f"it writes {len(replies)} lines in place of {len(asked)}"
    wanted = status_after([line.reply for line in asked])
    return played, "" if ran.status == wanted else f"the status is {ran.status} in place of {wanted}"


def is_as_wanted(line, wanted):
    return line.reply.startswith(wanted.reply.removesuffix(REST)) if wanted.reply.endswith(REST) else line == wanted


def compare(played, wanted):
    """The first lines that have another reply."""
    others = ((line, want) for line, want in zip(played, wanted) if not is_as_wanted(line, want))
    shown = (b"%.100s -> %.100s, and not %.100s" % (*line, want.reply) for line, want in islice(others, FIRST))
    return b"\n".join(shown).decode(errors="backslashreplace")


def check(suite, before, lines):
    """What differs in lines after a session, or in that session."""
    session = lines_of(before) + lines_of(lines)
    played, problem = play(suite, session, b"" if lines.endswith(NO_END) else b"\n")
    return compare(played, with_replies(session)) or problem


def check_same(suite, before, lines, asked):
    """What differs in lines after a session, or in the replies to those that are asked before and after them."""
    setup, lines = lines_of(before), lines_of(lines)
    asked = [Line(line.text, REST) for line in lines_of(asked)]
    session = [*setup, *asked, *lines, *asked]
    played, problem = play(suite, session, b"\n")
    first = len(with_replies(setup))
    return compare(played, with_replies(session)) or problem or compare(played[-len(asked):], played[first:first + len(asked)])


def way_back(there):
    """The lines that take back each command of a session, the last one first, and ask each question again before which it was given."""
    lines, halt = [Line(b"1 back", b"no 16")], b""
    for line in with_replies(there):
        if line.reply.startswith(b"ok"):
            lines.append(Line(line.text.split()[0] + b" back", b"ok" + halt))
            halt = b"".join(line.reply.partition(b" halted ")[1:])
        else:
            lines.append(line)
    return lines[::-1]


def check_and_back(suite, before, lines):
    """What differs in lines after a program, or on the way back to it."""
    lines = lines_of(lines)
    # Which lines are commands is known before the replies to the questions are.
    played, problem = play(suite, lines_of(before) + lines + way_back(lines), b"\n")
    there = played[:len(with_replies(lines))]
    return compare(there, with_replies(lines)) or compare(played[len(there):], way_back(there)) or problem
