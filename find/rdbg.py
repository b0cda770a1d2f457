"""The program `rdbg`, which plays sessions and judges schedules."""
import os
import shutil
import subprocess
from pathlib import Path
from typing import NamedTuple

from find.errors import WrongUse

LAUNCHER = Path(__file__).resolve().parent.parent / "rdbg"


class Ran(NamedTuple):
    """How a run of the program ended, and what it printed."""
    status: int
    output: str
    errors: str


def find_program():
    """The path of rdbg: what RDBG names, the launcher next to this package, or the one on the PATH."""
    named = os.environ.get("RDBG")
    if named:
        found = shutil.which(named)
        if not found:
            raise WrongUse(f"RDBG names {named}, which is not a program")
        return found
    if os.access(LAUNCHER, os.X_OK) and LAUNCHER.is_file():
        return str(LAUNCHER)
    found = shutil.which("rdbg")
    if not found:
        raise WrongUse("rdbg is missing: name it by the variable RDBG, or put it on the PATH")
    return found


class Rdbg:
    """The program at a path."""

    def __init__(self, path):
        self.path = path

    def run(self, *arguments, given=""):
        """Runs the program with these arguments and this input."""
        try:
            # (in a session of its own, so that Ctrl-C reaches the search alone)
            ran = subprocess.run([self.path, *arguments], input=given.encode(), stdout=subprocess.PIPE, stderr=subprocess.PIPE,
                                 start_new_session=True)
        except OSError as error:
            raise WrongUse(f"{self.path} cannot be run: {error.strerror}") from None
        return Ran(ran.returncode, ran.stdout.decode(errors="replace"), ran.stderr.decode(errors="replace"))

    def replies(self, program, calls):
        """The reply to each call of a session of a plain program."""
        ran = self.run("run", given="".join([f"{program}%%\n", *(f"{call}\n" for call in calls)]))
        replies = ran.output.splitlines()
        if ran.status != 0 or len(replies) != len(calls):
            ended = f"rdbg run ended with status {ran.status} after {len(replies)} of {len(calls)} replies"
            raise WrongUse("\n".join([ended, *replies[-1:], ran.errors]).strip())
        return replies
