#!/usr/bin/env python3
"""Measures the search on the examples, and prints the tables of docs/measurements.md.

  python3 find/measure.py examples           what each engine finds in each example with a mistake
  python3 find/measure.py orders             in how many random schedules a bad state is passed through, and in how many some order reaches one
  python3 find/measure.py examples FILE..    the same for these files

RDBG names the program. Times need an idle machine.
"""
import os
import re
import subprocess
import sys
import time
from pathlib import Path

sys.dont_write_bytecode = True
TOP = Path(__file__).resolve().parent.parent
sys.path[0] = str(TOP)

from find.errors import WrongUse  # noqa: E402
from find.rdbg import Rdbg, find_program  # noqa: E402
from find.language import read_program  # noqa: E402
from find.session import END, calls_of, expand, own_events, read_file, split_session  # noqa: E402

SECONDS, SCHEDULES = 60, 200
FOUND = re.compile(r"found: (\d+) events? \((.*)\)")
NONE_SO_FAR = re.compile(r"none found so far: (.*);")


def events_to_halt(rdbg, file):
    """How many events the session of a file makes until it halts first, or None."""
    plain = expand(rdbg, read_file(str(file)))
    program, calls = plain.program[:-len(f"{END}\n")], calls_of(plain.lines)
    replies = rdbg.replies(program, calls)
    halt = next((place for place, reply in enumerate(replies) if " halted " in reply), None)
    if halt is None:
        return None
    names = [process.name for process in read_program(program)]
    return sum(map(len, own_events(rdbg, program, calls[:halt + 1], names)))


def sessions_with_mistakes(rdbg):
    """The examples that halt, each with the number of events until then. A model in the notation is left out if there is a plain one."""
    plain = sorted((TOP / "examples").glob("*.rdbg"))
    others = [file for file in sorted((TOP / "examples/notation").glob("*.rdbg")) if file.name not in {one.name for one in plain}]
    for file in plain + others:
        try:
            split_session(read_file(str(file)))
        except WrongUse:  # (a program for crews has no lines)
            continue
        events = events_to_halt(rdbg, file)
        if events is not None:
            yield file, events


def searched(file, *options):
    """How a search ended: what it printed on standard error, and the seconds that it took."""
    begun = time.monotonic()
    ran = subprocess.run([sys.executable, str(TOP / "find"), "--from-start", *options, str(file)], stdin=subprocess.DEVNULL,
                         stdout=subprocess.DEVNULL, stderr=subprocess.PIPE, text=True, env=os.environ)
    return ran.stderr, time.monotonic() - begun


def cells(file, engine, events):
    """The cells of a table for one engine: what it did, in how many seconds, and how many events it found. If these are more than the
    session has, the engine looks for a shorter schedule as long as it may."""
    said, seconds = searched(file, "--engine", engine, "--seconds", str(SECONDS))
    if FOUND.search(said) and int(FOUND.search(said)[1]) > events:
        said, seconds = searched(file, "--engine", engine, "--seconds", str(SECONDS), "--shortest")
    found, none = FOUND.search(said), NONE_SO_FAR.search(said)
    done = (found[2] if found else none[1] if none else said.strip()).replace("SPIN: ", "").replace("sampling: ", "")
    return [done.rsplit(", ", 1)[0], f"{seconds:.0f}", found[1] if found else "none"]


def measure_examples(rdbg, files):
    """Prints the table of the examples."""
    print("| Example | Events in the session | SPIN | Seconds | Events | Sampling | Seconds | Events |\n|---|---|---|---|---|---|---|---|")
    for file, events in ((Path(file), events_to_halt(rdbg, file)) for file in files) if files else sessions_with_mistakes(rdbg):
        row = [file.stem, str(events), *cells(file, "spin", events), *cells(file, "sample", events)]
        print(f"| {' | '.join(row)} |", flush=True)


def measure_orders(rdbg, files):
    """Prints the table of the orders."""
    print("| Example | A bad state is passed through | Some order reaches one |\n|---|---|---|")
    for file in map(Path, files) if files else (file for file, _ in sessions_with_mistakes(rdbg)):
        ran = subprocess.run([sys.executable, str(TOP / "find"), "--compare", "--from-start", "--schedules", str(SCHEDULES), str(file)],
                             stdin=subprocess.DEVNULL, stdout=subprocess.PIPE, text=True, env=os.environ)
        shares = re.findall(r"\((\d+%)\)", ran.stdout)
        print(f"| {file.stem} | {' | '.join(shares)} |", flush=True)


def main(words):
    """Measures what the arguments name."""
    measures = {"examples": measure_examples, "orders": measure_orders}
    if not words or words[0] not in measures:
        print(__doc__, file=sys.stderr)
        return 2
    measures[words[0]](Rdbg(find_program()), words[1:])
    return 0


sys.exit(main(sys.argv[1:]))
