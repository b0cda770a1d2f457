"""Plays schedules, and says in how many of them a bad state was passed through, and in how many some order of the events reaches one."""
from find.errors import WrongUse
from find.judge import Judge
from find.sampling import Player, choices_of

SCHEDULES = 200


class Watch:
    """Notes whether a bad state was passed through."""

    def __init__(self):
        self.is_bad = False

    def __call__(self, run):
        self.is_bad = self.is_bad or run.is_bad()


def compare(options, rdbg, session):
    """Plays schedules and prints the two numbers."""
    if session.halted:
        raise WrongUse(f"{session.halted} holds already after the session's own lines (--from-start leaves its events out)")
    player, judge = Player(session.model, choices_of(options)), Judge(rdbg, session)
    count, passed, candidates = options.schedules or SCHEDULES, 0, []
    for number in range(count):
        watch = Watch()
        steps, run = player.play(number, watch)
        passed += watch.is_bad
        if run.may_halt():
            candidates.append(steps)
    reached = sum(bool(verdict.halted) for verdict in judge.verdicts(candidates))
    print(f"{count} schedules: {passed} pass through a bad state ({passed / count:.0%}), "
          f"{reached} reach one in some order of their events ({reached / count:.0%})")
    return 0
