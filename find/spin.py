"""The search by SPIN: all interleavings, breadth first, so that what it finds is a shortest one."""
import os
import re
import shutil
import signal
import subprocess
import tempfile
import time
from pathlib import Path

from find.names import author_process
from find.outcome import Ending, Outcome
from find.promela import MODEL_FILE, NARROW, WIDE, Translation

COMPILERS = ("gcc", "clang", "cc")
PACKAGES = {"spin": "spin", "a C compiler": "gcc"}
DEPTH = 10_000_000  # events of a schedule, at most
CHANNEL, LONGEST = 4, 64  # messages that a channel keeps at first, and at most if nothing else stops the search
MANY = 300  # commands; a verifier of more is compiled without optimization, which would take a minute
SPARE = 1024  # bytes of a state besides those of the model
PROGRESS = re.compile(r"Depth=\s*(\d+) States=\s*(\S+) Transitions=\s*\S+ Memory=\s*(\S+)")
STATES = re.compile(r"^\s*(\d+) states, stored", re.MULTILINE)
DEPTH_REACHED = re.compile(r"depth reached (\d+)")
STEP = re.compile(r"^find: step (\d+)$", re.MULTILINE)
FIRED = re.compile(r"^find: fired (\d+) (\d+)$", re.MULTILINE)
FULL = re.compile(r"^find: full (\d+) (\d+)$", re.MULTILINE)
TOO_WIDE = re.compile(r"^find: wide (-?\d+) (-?\d+)$", re.MULTILINE)


class SpinFailed(Exception):
    """SPIN cannot search: the message says why, for a person."""


def missing_tools():
    """The tools that the search needs and that are not installed."""
    found = {"spin": shutil.which("spin"), "a C compiler": next(filter(None, map(shutil.which, COMPILERS)), None)}
    return [tool for tool, path in found.items() if not path]


def missing_message(missing):
    """Which packages to install."""
    packages = " ".join(PACKAGES[tool] for tool in missing)
    are, plural = ("is", "") if len(missing) == 1 else ("are", "s")
    return f"{' and '.join(missing)} {are} not installed: install the package{plural} {packages}"


def run_tool(folder, *words):
    """Runs a tool in a folder. Its output is part of the message if it fails."""
    ran = subprocess.run(words, cwd=folder, stdin=subprocess.DEVNULL, stdout=subprocess.PIPE, stderr=subprocess.STDOUT, text=True,
                         errors="replace", start_new_session=True)
    if ran.returncode != 0:
        raise SpinFailed(f"{' '.join(words)} ended with status {ran.returncode}\n{ran.stdout.strip()}")
    return ran.stdout


class SpinSearch:
    """A search by SPIN. `start` begins it, `poll` says whether it has ended, and `close` ends it in any case."""

    def __init__(self, model, names, length, memory, may_lengthen=False):
        self.model, self.names, self.length, self.memory, self.may_lengthen = model, names, length, memory, may_lengthen
        self.widest, self.verifier, self.has_run_out = NARROW, None, False
        self.room = tempfile.TemporaryDirectory(prefix="rdbg-find-")
        self.folder = Path(self.room.name)
        self.log = self.folder / "log"

    def start(self):
        """Translates the model, compiles the verifier and starts it."""
        files = Translation(self.model, self.length, self.widest).files()
        for name, text in files.items():
            (self.folder / name).write_text(text)
        # (the text has nothing for a preprocessor)
        run_tool(self.folder, "spin", "-Pcat", "-a", MODEL_FILE)
        compiler = next(filter(None, map(shutil.which, COMPILERS)))
        run_tool(self.folder, compiler, "-O0" if len(self.model.steps) > MANY else "-O2", "-w", "-DBFS", "-DSAFETY", "-DNOREDUCE", f"-DMEMLIM={self.memory}",
                 f"-DVECTORSZ={self.vector_size(files[MODEL_FILE])}", "-DFREQ=100000", "-o", "pan", "pan.c")
        self.begun = time.monotonic()
        with open(self.log, "wb") as log:
            self.verifier = subprocess.Popen(["./pan", "-E", f"-m{DEPTH}"], cwd=self.folder, stdin=subprocess.DEVNULL, stdout=log,
                                             stderr=subprocess.STDOUT, start_new_session=True)

    def vector_size(self, text):
        """How many bytes a state may have."""
        slots = text.count("\n") + self.length * len(self.model.channels())
        return 8 * slots + SPARE

    def said(self):
        """What the verifier has printed."""
        return self.log.read_text(errors="replace") if self.log.exists() else ""

    def progress(self):
        """How far the search is, in numbers."""
        lines = PROGRESS.findall(self.said())
        if not lines:
            return "SPIN: searching"
        depth, states, memory = lines[-1]
        rate = float(states) / max(time.monotonic() - self.begun, 0.001)
        return f"SPIN: {float(states):,.0f} states, {rate:,.0f} a second, depth {depth}, {float(memory):,.0f} MB"

    def interrupt(self):
        """Ends the search before its end. What it did so far is the outcome."""
        self.has_run_out = True
        if self.verifier.poll() is None:
            self.verifier.send_signal(signal.SIGINT)
            try:
                self.verifier.wait(10)
            except subprocess.TimeoutExpired:
                self.verifier.kill()
                self.verifier.wait()

    def close(self):
        """Ends the search, and removes its files."""
        if self.verifier and self.verifier.poll() is None:
            self.verifier.kill()
            self.verifier.wait()
        self.room.cleanup()

    def poll(self):
        """The outcome, or None as long as the search runs."""
        if self.verifier.poll() is None:
            return None
        said = self.said()
        wide = TOO_WIDE.search(said)
        if self.has_run_out or not self.is_changed(said, wide):
            return self.outcome(said, wide)
        try:
            self.start()
        except SpinFailed as failed:
            return Outcome(Ending.STOPPED, (), self.done(said), str(failed))
        return None

    def is_changed(self, said, wide):
        """Whether another translation may say more, which is searched next: with wider numbers, or with longer channels, if nothing but full
        channels was in the way."""
        if wide and self.widest == NARROW:
            self.widest = WIDE
            return True
        is_held_up = FULL.search(said) and "assertion violated" not in said and not self.why_stopped(said, wide)
        if is_held_up and self.may_lengthen and self.length < LONGEST:
            self.length *= 2
            return True
        return False

    def outcome(self, said, wide):
        """What the verifier found, of all that it printed."""
        steps = self.model.steps
        fired = {steps[int(number)]: int(count) for number, count in FIRED.findall(said)}
        done = self.done(said)
        if "assertion violated" in said:
            return Outcome(Ending.FOUND, free_steps(self.model, self.trail()), done, "", fired)
        reason = self.why_stopped(said, wide)
        if reason:
            return Outcome(Ending.STOPPED, (), done, reason, fired)
        full = FULL.findall(said)
        if full:
            return Outcome(Ending.STOPPED, (), done, self.full_reason(full), fired)
        return Outcome(Ending.NONE, (), f"with at most {self.length} messages in each channel; {done}", "", fired)

    def done(self, said):
        """How many states were visited, and how deep."""
        states, depth = STATES.findall(said), DEPTH_REACHED.findall(said)
        return f"SPIN: {int(states[-1]):,} states, depth {depth[-1]}" if states and depth else "SPIN: no states counted"

    def why_stopped(self, said, wide):
        """Why the search is not complete, or nothing if it is."""
        if wide:
            return self.wide_reason(int(wide[1]), int(wide[2]))
        if "MEMLIM" in said.split("(Spin Version")[0] or "out of memory" in said:
            return f"SPIN has used the {self.memory:,} MB that --memory allows"
        if self.has_run_out:
            return "the time is over"
        if "max search depth too small" in said:
            return f"SPIN has reached its greatest depth, {DEPTH:,} events"
        if self.verifier.returncode < 0:
            return f"SPIN's verifier was ended by {signal.Signals(-self.verifier.returncode).name}"
        if self.verifier.returncode != 0 or not STATES.search(said) or "Search not completed" in said:
            return "SPIN's verifier ended early: " + " ".join(said.split("\n")[-5:]).strip()
        return ""

    def wide_reason(self, number, value):
        """That a state cannot keep a number."""
        if number < 0:
            return f"SPIN keeps numbers of 32 bits, and a variable begins with {value}"
        name = self.names[self.model.steps[number]]
        return f"SPIN keeps numbers of 32 bits, and {name.written()} makes {value}"

    def full_reason(self, full):
        """That full channels have held up sends."""
        source, target = (author_process(self.names, self.model, int(number)) for number in full[0])
        others = f" and {len(full) - 1} other{'s' * (len(full) > 2)}" if len(full) > 1 else ""
        return f"the channel from {source} to {target}{others} was full with {self.length} messages (--channel allows more)"

    def trail(self):
        """The steps that lead to the state, which the verifier plays again."""
        played = run_trail(self.folder)
        steps = self.model.steps
        return tuple(steps[int(number)] for number in STEP.findall(played))


def free_steps(model, steps):
    """The steps of an interleaving without the own events of the processes, which a session makes first."""
    left, free = [len(own) for own in model.own], []
    for step in steps:
        if left[step.process]:
            left[step.process] -= 1
        else:
            free.append(step)
    return tuple(free)


def run_trail(folder):
    """What the verifier prints when it plays its trail."""
    ran = subprocess.run(["./pan", "-r"], cwd=folder, stdin=subprocess.DEVNULL, stdout=subprocess.PIPE, stderr=subprocess.STDOUT, text=True,
                         errors="replace", start_new_session=True)
    return ran.stdout


def free_memory():
    """Half of the memory that is free, in MB."""
    try:
        found = re.search(r"MemAvailable:\s+(\d+) kB", Path("/proc/meminfo").read_text())
    except OSError:
        found = None
    return int(found[1]) // 2048 if found else os.sysconf("SC_PAGE_SIZE") * os.sysconf("SC_PHYS_PAGES") // 2**22
