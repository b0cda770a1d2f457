"""Makes a schedule that was found shorter: fewer processes that move, and fewer events."""
from find.judge import Judge
from find.simulator import Simulator


class Shrinker:
    """Shortens a schedule while rdbg says that it still reaches a bad state."""

    def __init__(self, rdbg, session):
        self.session, self.judge, self.simulator = session, Judge(rdbg, session), Simulator(session.model)

    def in_cut(self, steps):
        """The steps up to the one that halts, without the events that are not in the cut: no other one is needed."""
        verdict = self.judge.verdicts([steps])[0]
        steps = steps[:verdict.steps]
        cut = self.judge.cut(steps, verdict.halted)
        made, kept = [len(own) for own in self.session.model.own], []
        for step in steps:
            made[step.process] += 1
            if made[step.process] <= cut[step.process]:
                kept.append(step)
        return tuple(kept)

    def is_bad(self, candidates):
        """For each of some schedules whether it reaches a state that is looked for, as a verdict or None."""
        if self.session.model.stuck:
            return [run.is_stuck() or None for run in map(self.simulator.run_of, candidates)]
        likely = [steps for steps in candidates if self.simulator.run_of(steps).may_halt()]
        verdicts = iter(self.judge.verdicts(likely))
        found = {id(steps): next(verdicts) for steps in likely}
        return [found[id(steps)] if id(steps) in found and found[id(steps)].halted else None for steps in candidates]

    def judged(self, steps, left_out):
        """For each of these sets of places, if its places can be left out, the set and the schedule that is then left. Steps that can then
        not fire are left out, too."""
        candidates = [tuple(self.simulator.possible([step for place, step in enumerate(steps) if place not in places])) for places in left_out]
        found = zip(left_out, candidates, self.is_bad(candidates))
        return [(places, self.kept(candidate, verdict)) for places, candidate, verdict in found if verdict]

    def kept(self, candidate, verdict):
        """What is needed of a schedule that reaches a state that is looked for."""
        return candidate if self.session.model.stuck else candidate[:verdict.steps]

    def best(self, steps, left_out):
        """The shortest schedule that is left if some of these sets of places are left out, or None."""
        alone = self.judged(steps, left_out)
        if not alone:
            return None
        unions = [set().union(*(places for places, _ in alone[:count])) for count in range(2, len(alone) + 1)]
        found = [kept for _, kept in [*alone, *self.judged(steps, unions)]]
        shortest = min(found, key=len)
        return shortest if self.session.model.stuck else self.in_cut(shortest)

    def without_processes(self, steps):
        """The steps without those of some processes, one after the other."""
        for process in sorted({step.process for step in steps}):
            places = {place for place, step in enumerate(steps) if step.process == process}
            steps = self.best(steps, [places]) or steps
        return steps

    def without_events(self, steps):
        """The steps without some that lie together: first many at once, at last single ones, as long as there are some."""
        size = max(1, len(steps) // 4)
        while True:
            parts = [set(range(first, first + size)) for first in range(0, len(steps), max(1, size // 2))]
            shorter = self.best(steps, parts)
            if shorter is not None and len(shorter) < len(steps):
                steps = shorter
            elif size == 1:
                return steps
            else:
                size //= 2

    def shrunk(self, steps):
        """The schedule, shortened."""
        if not self.session.model.stuck:
            steps = self.in_cut(steps)
        return self.without_events(self.without_processes(steps))


def in_blocks(steps, simulator):
    """The same events in an order in which each process makes as many of them as it can before the next one moves."""
    left = {process: [step for step in steps if step.process == process] for process in sorted({step.process for step in steps})}
    run, ordered = simulator.start(), []
    while any(left.values()):
        before = len(ordered)
        for waiting in left.values():
            while waiting and run.can_fire(waiting[0]):
                run.fire(waiting[0])
                ordered.append(waiting.pop(0))
        if len(ordered) == before:
            raise ValueError("the events of a schedule cannot happen")
    return tuple(ordered)


def shrink(rdbg, session, steps):
    """A shorter schedule that reaches a state that is looked for, too."""
    if not steps:
        return tuple(steps)
    shrinker = Shrinker(rdbg, session)
    return in_blocks(shrinker.shrunk(steps), shrinker.simulator)
