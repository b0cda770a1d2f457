"""The search by sampling: schedules are made by the simulator on all processors, and rdbg judges them.

The schedules have numbers, and each is made by random numbers of its own. So the same seed plays the same schedules, on any number of
processors. After the first one that halts, some more are played, and the shortest that was found is kept.
"""
import random
import time
from collections import Counter
from typing import Dict, NamedTuple, Optional, Tuple

from find.judge import Judge
from find.model import Step
from find.outcome import Ending, Outcome
from find.pool import Pool, WorkerEnded
from find.report import counted
from find.shrink import Shrinker
from find.simulator import Simulator
from find.strategies import STRATEGIES

LARGEST = 256  # schedules of a batch
SHORT, LONG = 0.2, 1.0  # seconds for a batch; after shorter or longer ones the next are larger or smaller
MORE = 3  # after the first schedule that halts, so many times as many as until then are played
PATIENCE = 5.0  # seconds that this may take


class Choices(NamedTuple):
    """How schedules are made."""
    strategies: Tuple[str, ...]
    seed: int
    length: int
    weight: Tuple[Tuple[str, int], ...]
    at_most: Tuple[Tuple[str, int], ...]


class Batch(NamedTuple):
    """What some schedules did: the seconds that they took, how many there were, their events, the least and the greatest number of events,
    how often each command fired, the number of the first schedule that was found, and its steps after it was shortened."""
    seconds: float
    schedules: int
    events: int
    shortest: int
    longest: int
    fired: Dict[Step, int]
    found: Optional[int]
    steps: Tuple[Step, ...]


def choices_of(options):
    """The choices that the options make."""
    return Choices(options.strategies, options.seed, options.length, tuple(options.weight), tuple(options.at_most))


class Player:
    """Makes schedules of a model."""

    def __init__(self, model, choices):
        self.model, self.choices, self.simulator = model, choices, Simulator(model)
        numbers = model.numbers
        self.bounds = {numbers[name]: bound for name, bound in choices.at_most}

    def play(self, number, watch=None):
        """The schedule of a number: its steps, and the run after it. `watch` is called with the run after each event."""
        choices = self.choices
        chance = random.Random(f"{choices.seed}/{number}")
        strategy = STRATEGIES[choices.strategies[number % len(choices.strategies)]](chance, self.model, choices)
        run, steps, left = self.simulator.start(), [], dict(self.bounds)
        while len(steps) < choices.length:
            moves = [step for of_process in run.moves for step in of_process if left.get(step.process) != 0]
            if not moves:
                break
            step = strategy.choose(moves)
            run.fire(step)
            steps.append(step)
            if step.process in left:
                left[step.process] -= 1
            if watch:
                watch(run)
        return steps, run


class Worker:
    """Plays, judges and shortens the schedules of a batch."""

    def __init__(self, rdbg, session, choices):
        self.player, self.judge, self.stuck = Player(session.model, choices), Judge(rdbg, session), session.model.stuck
        self.shrinker = Shrinker(rdbg, session)

    def __call__(self, first, count):
        """The schedules of these numbers."""
        begun, played, fired = time.monotonic(), [], Counter()
        for number in range(first, first + count):
            steps, run = self.player.play(number)
            fired.update(steps)
            played.append((steps, run.is_stuck() if self.stuck else run.may_halt()))
        lengths = [len(steps) for steps, _ in played]
        found = self.first_bad(played)
        seconds = time.monotonic() - begun
        steps = () if found is None else self.shrinker.shrunk(played[found][0])
        return Batch(seconds, count, sum(lengths), min(lengths), max(lengths), dict(fired), None if found is None else first + found, steps)

    def first_bad(self, played):
        """The place of the first schedule that reaches a state that is looked for, or None."""
        candidates = [place for place, (_, may_be_bad) in enumerate(played) if may_be_bad]
        if self.stuck:
            return candidates[0] if candidates else None
        verdicts = self.judge.verdicts([played[place][0] for place in candidates])
        return next((place for place, verdict in zip(candidates, verdicts) if verdict.halted), None)


class Sampling:
    """A search by sampling. `start` begins it, `poll` says whether it has ended, and `close` ends it in any case."""

    name = "sampling"

    def __init__(self, rdbg, session, options):
        self.session, self.options = session, options
        self.given = (rdbg, session, choices_of(options))
        self.limit, self.schedules, self.events = options.schedules, 0, 0
        self.fired, self.shortest, self.longest = Counter({step: 0 for step in session.model.steps}), None, 0
        self.pool, self.done_batches, self.next, self.size, self.counted = None, {}, 0, 1, 0
        self.best, self.stopped = None, ""

    def start(self):
        """Starts the processes that play."""
        self.begun = time.monotonic()
        self.end = None  # when the search for a shorter schedule ends
        self.pool = Pool(self.options.jobs, Worker, self.given)
        self.fill()

    def fill(self):
        """Gives the processes something to do."""
        while self.pool.idle:
            size = self.size if self.limit is None else min(self.size, self.limit - self.next)
            if size <= 0:
                break
            self.pool.submit((self.next, size))
            self.next += size

    def poll(self):
        """The outcome, or None as long as the search runs."""
        try:
            results = self.pool.results()
        except WorkerEnded:
            results, self.stopped = [], "a process that plays schedules was ended"
        for task, batch in results:
            self.done_batches[task[0]] = batch
        while self.counted in self.done_batches:
            self.add(self.done_batches.pop(self.counted))
        if self.end and time.monotonic() > self.end:
            self.stopped = "the schedule that was found is short enough"
        if not self.stopped:
            self.fill()
        if not self.pool.busy and not self.stopped:
            self.stopped = "that is what --schedules allows"
        return self.outcome() if self.stopped else None

    def outcome(self):
        """How the search ended."""
        if self.best is not None:
            return Outcome(Ending.FOUND, self.best, self.done(), "", dict(self.fired))
        return Outcome(Ending.STOPPED, (), self.done(), self.stopped, dict(self.fired))

    def add(self, batch):
        """Counts what a batch did. The batches come in the order of their schedules."""
        self.counted += batch.schedules
        self.schedules += batch.schedules
        self.events += batch.events
        if batch.seconds < SHORT:
            self.size = min(2 * self.size, LARGEST)
        elif batch.seconds > LONG:
            self.size = max(self.size // 2, 1)
        self.fired.update(batch.fired)
        self.shortest = batch.shortest if self.shortest is None else min(self.shortest, batch.shortest)
        self.longest = max(self.longest, batch.longest)
        if batch.found is not None:
            self.keep(batch)

    def keep(self, batch):
        """Keeps the schedule of a batch if it is shorter. After the first one, the search goes on for a while."""
        if self.best is None and not self.options.shortest:
            more = (1 + MORE) * (batch.found + 1)
            self.limit = more if self.limit is None else min(self.limit, more)
            self.end = time.monotonic() + PATIENCE
        if self.best is None or len(batch.steps) < len(self.best):
            self.best = batch.steps

    def done(self):
        """What was done, in numbers."""
        return f"sampling: {counted(self.schedules, 'schedule')}, {counted(self.events, 'event')}"

    def progress(self):
        """How far the search is, in numbers."""
        rate = self.events / max(time.monotonic() - self.begun, 0.001)
        found = f", found {len(self.best)} events" if self.best is not None else ""
        return f"sampling: {self.schedules:,} schedules, {rate:,.0f} events a second{found}"

    def interrupt(self):
        """Ends the search before its end."""
        self.stopped = self.stopped or "the time is over"

    def close(self):
        """Ends the processes."""
        if self.pool:
            self.pool.close()

    def advice(self):
        """What the schedules suggest, or nothing."""
        if self.shortest and self.shortest == self.longest == self.options.length:
            return f"all schedules have exactly {self.longest} events, which --length allows: is there a guard that never becomes false?"
        return ""
