"""Runs the engines side by side until one of them has the answer."""
import time
from collections import Counter
from typing import NamedTuple, Tuple

from find.outcome import Ending, Outcome
from find.progress import Progress
from find.report import say
from find.sampling import Sampling
from find.spin import CHANNEL, SpinFailed, SpinSearch, missing_message, missing_tools

PAUSE = 0.02  # seconds between two looks at the engines
PATIENCE = 10.0  # seconds, at least, that SPIN may look for a shorter schedule than sampling has found
ORDER = (Ending.FOUND, Ending.NONE, Ending.STOPPED)  # of the outcomes, the one that says most first


class Answer(NamedTuple):
    """The outcome of the search, whether Ctrl-C ended it, and what the engines suggest."""
    outcome: Outcome
    is_interrupted: bool
    advice: Tuple[str, ...]


def stopped(first, last):
    """The outcome of two searches that stopped, in the order in which they ended."""
    done = [first.done, last.done] if first.reason == last.reason else [first.done, first.reason, last.done]
    fired = Counter(first.fired or {})
    fired.update(last.fired or {})
    return Outcome(Ending.STOPPED, (), "; ".join(done), last.reason, dict(fired))


class Search:
    """The engines that search, and their outcomes."""

    def __init__(self, options, rdbg, session, names):
        self.options, self.progress = options, Progress()
        self.begun = time.monotonic()
        self.end = self.begun + options.seconds
        self.spin = self.sampling = None
        if options.engine != "sample":
            self.spin = self.started_spin(session, names)
        if options.engine == "sample" or options.engine == "auto" or self.spin is None:
            self.sampling = Sampling(rdbg, session, options)
            self.sampling.start()
        self.outcomes, self.is_interrupted = {}, False

    def started_spin(self, session, names):
        """The search by SPIN, or None if SPIN cannot search here."""
        missing = missing_tools()
        if missing:
            say(f"{missing_message(missing)}; until then, schedules are sampled")
            return None
        length = self.options.channel
        spin = SpinSearch(session.model, names, length or CHANNEL, self.options.memory, may_lengthen=length is None)
        try:
            spin.start()
        except SpinFailed as failed:
            spin.close()
            say(f"{failed}; schedules are sampled")
            return None
        return spin

    def engines(self):
        """The engines that have no outcome yet."""
        return [engine for engine in (self.spin, self.sampling) if engine and engine not in self.outcomes]

    def run(self):
        """Waits for the outcomes that decide the search."""
        try:
            while not self.is_over():
                try:
                    self.look()
                except KeyboardInterrupt:
                    self.is_interrupted = True
                    self.stop()
        finally:
            self.progress.clear()
            for engine in (self.spin, self.sampling):
                if engine:
                    engine.close()
        return self.answer()

    def look(self):
        """Looks once at each engine."""
        for engine in self.engines():
            outcome = engine.poll()
            if outcome:
                self.outcomes[engine] = outcome
                self.note(engine, outcome)
        if time.monotonic() > self.end:
            self.stop()
        self.progress.show(lambda: "; ".join(engine.progress() for engine in self.engines()))
        time.sleep(PAUSE)

    def note(self, engine, outcome):
        """Does what follows from an outcome of one engine for the other."""
        if engine is self.sampling and outcome.ending is Ending.FOUND and self.spin in self.engines() and not self.options.shortest:
            now = time.monotonic()
            self.end = min(self.end, now + max(PATIENCE, now - self.begun))
        goes_on = self.sampling in self.engines() and not self.is_interrupted and time.monotonic() < self.end
        if engine is self.spin and outcome.ending is Ending.STOPPED and goes_on:
            self.progress.clear()
            say(f"{outcome.done}; {outcome.reason}; sampling continues")

    def stop(self):
        """Ends all engines."""
        for engine in self.engines():
            engine.interrupt()

    def is_over(self):
        """Whether the search is decided: all engines have ended, or SPIN has found a schedule or shown that there is none."""
        spin = self.outcomes.get(self.spin)
        return not self.engines() or spin is not None and spin.ending is not Ending.STOPPED

    def answer(self):
        """The answer, of the outcomes of the engines."""
        outcomes = [self.outcomes[engine] for engine in (self.spin, self.sampling) if engine in self.outcomes]
        best = min(outcomes, key=lambda outcome: (ORDER.index(outcome.ending), len(outcome.steps)))
        if best.ending is Ending.STOPPED and len(outcomes) == 2:
            best = stopped(*self.outcomes.values())
        if self.is_interrupted:
            best = best._replace(reason="interrupted")
        advice = self.sampling.advice() if self.sampling else ""
        return Answer(best, self.is_interrupted, (advice,) if advice else ())
