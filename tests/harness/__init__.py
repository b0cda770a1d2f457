"""What every suite uses: the program under test, one way to run it, and one report."""
import difflib
import os
import shutil
import subprocess
import sys
import tempfile
import traceback
from contextlib import contextmanager
from pathlib import Path
from typing import NamedTuple

TOP = Path(__file__).resolve().parents[2]
TESTS = TOP / "tests"
os.environ.pop("COLUMNS", None)  # (lines wrap at 80 columns, at whatever terminal the suites run)
DIFF_LINES = 12  # of a text that differs, at most, in a report


def stop(why):
    """Ends the run, because the suites could not run at all."""
    print(f"tests/run: {why}", file=sys.stderr)
    sys.exit(2)


def program():
    """The program under test: the one that RDBG names, or the one that `./rdbg` runs, proved or not."""
    named = os.environ.get("RDBG")
    if named:
        found = shutil.which(named)
        return found and str(Path(found).resolve()) or stop(f"RDBG names {named}, which is not a program")
    asked = subprocess.run([TOP / "rdbg", "--where"], stdout=subprocess.PIPE, text=True)
    return asked.stdout.strip() if asked.returncode == 0 else stop("build the program first: ./rdbg --version, or ./rdbg --prove to prove it, too")


def is_proved(path):
    """Whether this program is proved. `./rdbg` keeps one that is not in a folder of its own."""
    return Path(path).parent.name != "rdbg-unproved"


class Fault(Exception):
    """What is wrong in a test that cannot continue."""


class Ran(NamedTuple):
    """How a run of the program ended, and what it wrote."""
    status: int
    output: bytes
    errors: bytes


class Suite:
    """A suite while it runs: its options, and how many of its tests passed, failed and were skipped."""

    def __init__(self, name, options):
        self.name, self.options = name, options
        self.passed = self.failed = self.skipped = 0
        self.golden_files = set()  # those that were compared
        self._program = None

    @property
    def program(self):
        self._program = self._program or program()
        return self._program

    def summary(self):
        return f"{self.passed} passed, {self.failed} failed" + (f", {self.skipped} skipped" if self.skipped else "")

    def rdbg(self, *words, given=b"", folder=TOP, merge=False, timeout=120, columns=None):
        """Runs the program, which wraps lines as at a terminal of so many columns. With `merge` its errors are part of its output, in the order
        in which it writes them."""
        given = given.encode() if isinstance(given, str) else given
        errors = subprocess.STDOUT if merge else subprocess.PIPE
        ran = subprocess.run([self.program, *map(str, words)], input=given, stdout=subprocess.PIPE, stderr=errors, cwd=folder, timeout=timeout,
                             env=None if columns is None else {**os.environ, "COLUMNS": str(columns)})
        return Ran(ran.returncode, ran.stdout, ran.stderr or b"")

    def case(self, name, problem=""):
        """Counts a test. It failed if there is a problem, which is printed."""
        if not problem:
            self.passed += 1
            return True
        self.failed += 1
        print(f"FAILED {self.name}: {name}:", *str(problem).splitlines(), sep="\n  ", flush=True)
        return False

    def attempt(self, name, find_problem, *given):
        """A test that this function returns no problem and raises no exception."""
        try:
            problem = find_problem(*given)
        except Fault as fault:
            problem = fault
        except Exception:
            problem = traceback.format_exc()
        return self.case(name, problem)

    def same(self, name, shown, wanted):
        """A test that two texts are the same. `shown` is what the program wrote."""
        return self.case(name, difference(shown, wanted))

    def golden(self, path, shown):
        """A test that a text is what a golden file has, or, with --update, writes the file anew."""
        shown = shown.encode() if isinstance(shown, str) else shown
        self.golden_files.add(path)
        if self.options.update:
            path.parent.mkdir(parents=True, exist_ok=True)
            path.write_bytes(shown)
        name = str(path.relative_to(TOP))
        if not path.exists():
            return self.case(name, "there is no such golden file (--update writes it)")
        return self.same(name, shown, path.read_bytes())

    def compared(self, *golden_files):
        """A test that each of these golden files was compared, so that none is left over."""
        for path in sorted(set(golden_files) - self.golden_files):
            self.case(str(path.relative_to(TOP)), "no test compares this golden file")

    def skip(self, name, why):
        self.skipped += 1
        print(f"skipped {self.name}: {name}: {why}", flush=True)

    def needs(self, tool, name):
        """Whether a tool is installed. If not, the test is skipped."""
        if shutil.which(tool):
            return True
        self.skip(name, f"{tool} is not installed")
        return False


def difference(shown, wanted):
    """The first lines in which two texts differ, or an empty text."""
    if shown == wanted:
        return ""
    one, other = (text.decode(errors="backslashreplace") if isinstance(text, bytes) else text for text in (wanted, shown))
    lines = list(difflib.unified_diff(one.splitlines(), other.splitlines(), "wanted", "shown", lineterm="", n=1))
    if not lines:
        return "the texts differ only in their line ends"
    more = len(lines) - DIFF_LINES
    return "\n".join(lines[:DIFF_LINES] + ([f"({more} more lines)"] if more > 0 else []))


@contextmanager
def temporary_folder():
    with tempfile.TemporaryDirectory(prefix="rdbg-tests-") as name:
        yield Path(name).resolve()


def sessions(*folders):
    """The session files of these folders of the repository: those that have command lines."""
    files = sorted(file for folder in folders for file in (TOP / folder).glob("*.rdbg"))
    return [file for file in files if "\n%%\n" in file.read_text(encoding="utf-8")]
