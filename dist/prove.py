#!/usr/bin/env python3
"""Proves the crates of the program side by side, and builds the program. `./rdbg --prove` calls it. It prints on standard error."""
import os
import re
import shutil
import signal
import subprocess
import sys
import tempfile
import time
from pathlib import Path

from toolchain import FAILED, TOP, LoggedRun, check_toolchain, clear_line, need_toolchain, say, show_line

PROGRAM = TOP / "crates/rdbg/out/rdbg"
MEMORY = 3_000_000_000  # in bytes, that the proof of a crate may take


class Crate:
    """A crate of the program: its line of crates.txt, the crates below it, and its lines of code, to which the time of its proof is in
    proportion."""

    def __init__(self, name, line, below):
        self.name, self.line, self.below = name, line, below
        self.lines = sum(file.read_bytes().count(b"\n") for file in (TOP / "crates" / name / "src").rglob("*.rt"))
        self.chain = self.lines  # of this crate and of those that wait for it, one after the other

    def all_below(self):
        """The crates that this one needs, lowest first, and the crate itself."""
        return list(dict.fromkeys([found for crate in self.below for found in crate.all_below()] + [self]))


def program_crates():
    """The crates that the program is made of, lowest first."""
    lines, crates = {}, {}
    for line in (TOP / "crates.txt").read_text().splitlines():
        name, colon, _ = line.partition("#")[0].partition(":")
        if colon:
            lines[name.split()[0]] = line

    def crate(name):
        if name not in crates:
            below = [crate(it) for it in lines[name].partition(":")[2].split() if it in lines]
            crates[name] = Crate(name, lines[name], below)
        return crates[name]

    found = crate("rdbg").all_below()
    for it in reversed(found):
        for below in it.below:
            below.chain = max(below.chain, below.lines + it.chain)
    return found


def copy_crates(crates, room):
    """Copies the sources of these crates to a repository of their own. The copy has no must-fail edits, which the program does not need."""
    (room / ".git").mkdir(parents=True)  # (`rt ci` runs at the top of a repository)
    (room / "crates.txt").write_text("".join(f"{crate.line}\n" for crate in crates))
    shutil.copy(TOP / "HANDLES", room)
    unneeded = shutil.ignore_patterns("out", "must-fail", "mutants", "*.md")
    for crate in crates:
        shutil.copytree(TOP / "crates" / crate.name, room / "crates" / crate.name, ignore=unneeded)


class Proof(LoggedRun):
    """A run of `rt ci` over these crates, in a copy. What earlier runs on this machine have proved, `rt ci` takes over from them."""

    def __init__(self, crates, targets, room, is_urgent):
        copy_crates(crates, room)
        super().__init__(room)
        self.targets = targets

        def prepare():
            os.setpgrp()  # (so that Ctrl-C reaches this script alone, which then ends the run)
            os.nice(0 if is_urgent else 15)

        self.process = subprocess.Popen(["rt", "ci"], cwd=room, stdin=subprocess.DEVNULL, stdout=self.log, stderr=subprocess.STDOUT, preexec_fn=prepare)


class Progress:
    """How much is proved so far. At a terminal one line says so, elsewhere a line for each crate."""

    def __init__(self, crates):
        self.crates, self.begun, self.done, self.functions = crates, time.monotonic(), [], 0
        self.is_terminal = sys.stderr.isatty()

    def add(self, crate, said):
        proved = re.search(rf"(?ms)^== {crate.name}$.*?^logic=proved functions=(\d+) ", said)
        self.done.append(crate)
        self.functions += int(proved[1]) if proved else 0
        if not self.is_terminal:
            what = f"{proved[1]} functions are proved" if proved else "an earlier run has proved it"
            say(f"{crate.name}: {what} ({self.summary()})")

    def summary(self):
        share = 100 * sum(crate.lines for crate in self.done) // sum(crate.lines for crate in self.crates)
        minutes = (time.monotonic() - self.begun) / 60
        return f"{len(self.done)} of {len(self.crates)} crates, {share} % of the code, {self.functions:,} functions, {minutes:.1f} minutes"

    def show(self, under_way):
        show_line(f"{self.summary()}; proving {', '.join(crate.name for crate in under_way)}")


class NotProved(Exception):
    """A crate was not proved. The text is what `rt ci` wrote."""


def keeps_proofs():
    """Whether `rt ci` of this kit keeps what it has proved for its next run."""
    helped = subprocess.run(["rt", "help"], stdout=subprocess.PIPE, stderr=subprocess.STDOUT, text=True)
    return "kept beside the kit" in helped.stdout


def lanes():
    """How many crates to prove at a time, by the processors and the free memory."""
    free = re.search(r"(?m)^MemAvailable: *(\d+) kB", Path("/proc/meminfo").read_text())
    return max(1, min(len(os.sched_getaffinity(0)), 1024 * int(free[1]) // MEMORY if free else 1))


class Prover:
    """Proves crates side by side: each by a run of `rt ci` of its own, as soon as those below it are proved, and first those on which the
    longest chain waits. Where `rt ci` keeps nothing for its next run, one run proves them all."""

    def __init__(self, crates, room):
        self.crates, self.room, self.progress, self.lanes = crates, room, Progress(crates), lanes()
        self.waiting = sorted(crates, key=lambda crate: -crate.chain)
        self.running = []
        if not keeps_proofs():
            self.prove_whole()

    def prove_whole(self):
        self.close()
        self.progress.done.clear()
        self.waiting = []
        self.running = [Proof(self.crates, self.crates, self.room / "whole", True)]

    def under_way(self):
        return [crate for proof in self.running for crate in proof.targets]

    def start(self):
        """Begins with the crates that can be proved now, as many as there are lanes."""
        ready = [crate for crate in self.waiting if all(below in self.progress.done for below in crate.below)]
        for crate in ready[: self.lanes - len(self.running)]:
            is_urgent = all(crate.chain >= other.chain for other in self.under_way())
            self.waiting.remove(crate)
            self.running.append(Proof(crate.all_below(), [crate], self.room / crate.name, is_urgent))

    def collect(self):
        """Takes what has ended. The repository in which the last crate was proved stays."""
        for proof in [proof for proof in self.running if proof.has_ended()]:
            said = proof.said()
            if proof.process.returncode != 0:
                raise NotProved(said)
            self.running.remove(proof)
            proof.close(signal.SIGKILL)
            if self.waiting and re.search(r"(?m)^rt: note: .* (nothing|not) (is )?kept", said):
                return self.prove_whole()
            for crate in proof.targets:
                self.progress.add(crate, said)
            if self.waiting:
                shutil.rmtree(proof.room)

    def run(self):
        """Proves everything. The folder of the last crate, with what was built of it."""
        while self.waiting or self.running:
            self.start()
            self.progress.show(self.under_way())
            time.sleep(0.3)
            self.collect()
        folder = next(self.room.iterdir())
        return folder / "crates" / self.crates[-1].name

    def close(self):
        clear_line()
        for proof in self.running:
            proof.close(signal.SIGKILL)


def errors_in(log):
    """The lines of `rt ci` that say what went wrong: those of the crates that failed, without what went well in them."""
    sections = re.split(r"(?m)^(?=== )", log)
    failed = [section for section in sections if re.search(r"(?m)^rt: .* NOT PROVED$", section)] or sections[-1:]
    well = re.compile(r".*: (proved|assumed)$|statements |logic |empty contracts: 0 |library |by-macro: |rt: chose ")
    return "\n".join(line for section in failed for line in section.splitlines() if not well.match(line))


def install_program(built, begun):
    """Puts the program where `./rdbg` finds it, as old as the begin of its proof, so that a later edit is seen."""
    PROGRAM.parent.mkdir(exist_ok=True)
    new = PROGRAM.with_name("rdbg.new")
    shutil.copy(built, new)
    os.utime(new, (begun, begun))
    os.replace(new, PROGRAM)


def prove():
    need_toolchain()
    begun, crates = time.time(), program_crates()
    with tempfile.TemporaryDirectory(prefix="rdbg-prove-") as name:
        prover = Prover(crates, Path(name))
        say(f"proving {len(crates)} crates, {prover.lanes} at a time; after an interruption it continues where it was")
        try:
            install_program(prover.run() / "out/rdbg", begun)
        except NotProved as failure:
            prover.close()
            print(errors_in(str(failure)), file=sys.stderr)
            say("the program is not proved, so it was not built")
            check_toolchain()
            return FAILED
        finally:
            prover.close()
        say(f"the program is proved and built: {prover.progress.summary()}")
    return 0


def main():
    for stop in (signal.SIGTERM, signal.SIGHUP):
        signal.signal(stop, lambda number, _: sys.exit(128 + number))  # (so that what runs is ended, and the copies are removed)
    try:
        return prove()
    except KeyboardInterrupt:
        return 130


sys.exit(main())
