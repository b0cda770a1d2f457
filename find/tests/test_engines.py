"""The two engines: the simulator, and the translation to Promela if SPIN is installed."""
import time
import unittest

from find.model import Step
from find.names import Name, plain_names
from find.outcome import Ending, Outcome
from find.search import stopped
from find.simulator import Run, Compiled, Simulator
from find.spin import SpinSearch, missing_tools
from find.tests.programs import CONDITIONS, COUNTER, EXPRESSIONS, FLOW, model

MEMORY = 1000  # MB for SPIN


def spin(searched, length=4, memory=MEMORY, may_lengthen=False):
    """The outcome of a search by SPIN."""
    search = SpinSearch(searched, plain_names(searched), length, memory, may_lengthen)
    try:
        search.start()
        outcome = search.poll()
        while outcome is None:
            time.sleep(0.01)
            outcome = search.poll()
        return outcome
    finally:
        search.close()


def after_command(value):
    """A program whose only command sets y to an expression, where x is -7."""
    return f"process a {{ var x = -7; var y = 99; when (y = 99) : y := {value}; }} process b {{ }}"


class Simulation(unittest.TestCase):
    def test_values(self):
        for expression, value in EXPRESSIONS:
            with self.subTest(expression):
                run = Run(Compiled(model(after_command(expression))))
                self.assertEqual(len(run.moves[0]), value is not None)
                if value is not None:
                    run.fire(run.moves[0][0])
                    self.assertEqual(run.states[0][1], value)

    def test_conditions(self):
        for expression, holds in CONDITIONS:
            with self.subTest(expression):
                run = Run(Compiled(model(f"process a {{ var x = -7; when {expression} : x := 1; }} process b {{ }}")))
                self.assertEqual(len(run.moves[0]), int(bool(holds)))

    def test_own_events_come_first(self):
        run = Simulator(model(COUNTER, own=((0, 0),))).start()
        self.assertEqual(run.states[0], [2])

    def test_may_halt(self):
        run = Run(Compiled(model(COUNTER, "a (x = 1)")))
        self.assertFalse(run.may_halt())
        for _ in range(2):
            run.fire(run.moves[0][0])
        self.assertTrue(run.may_halt(), "x was 1")
        self.assertFalse(run.is_bad(), "x is 2")

    def test_stuck(self):
        excused = model(COUNTER, stuck=True, unless=["a (x = 3)"])
        for searched, is_stuck in ((model(COUNTER, stuck=True), True), (excused, False)):
            run = Run(Compiled(searched))
            while run.moves[0]:
                run.fire(run.moves[0][0])
            self.assertEqual(run.is_stuck(), is_stuck)


class BothEngines(unittest.TestCase):
    def test_each_says_why_it_stopped(self):
        spin = Outcome(Ending.STOPPED, (), "9 states", "no memory", {Step(0, 0): 1, Step(1, 0): 0})
        sampling = Outcome(Ending.STOPPED, (), "2 schedules", "the time is over", {Step(0, 0): 2, Step(1, 0): 0})
        both = stopped(spin, sampling)
        self.assertEqual((both.done, both.reason), ("9 states; no memory; 2 schedules", "the time is over"))
        self.assertEqual(both.fired, {Step(0, 0): 3, Step(1, 0): 0})

    def test_one_reason_is_said_once(self):
        one = Outcome(Ending.STOPPED, (), "9 states", "the time is over")
        self.assertEqual(stopped(one, one).done, "9 states; 9 states")


@unittest.skipIf(missing_tools(), "SPIN or a C compiler is missing")
class Translation(unittest.TestCase):
    def test_values(self):
        """All expressions in one program: a process for each, and a breakpoint that holds if all of them have the right values."""
        processes, parts = [], []
        for number, (expression, value) in enumerate(EXPRESSIONS):
            processes.append(after_command(expression).replace("process a ", f"process a_{number} ").replace(" process b { }", ""))
            parts.append(f"a_{number} (y = {99 if value is None else value if value >= 0 else f'(- {-value})'})")
        for first in range(0, len(processes), 6):
            with self.subTest(first):
                text, wanted = "".join(processes[first:first + 6]) + " process b { }", " ".join(parts[first:first + 6])
                outcome = spin(model(text, wanted))
                self.assertEqual(outcome.ending, Ending.FOUND)
                can_fire = sum(value is not None for _, value in EXPRESSIONS[first:first + 6])
                self.assertEqual(len(outcome.steps), can_fire)

    def test_faults_cannot_fire(self):
        faults = [number for number, (_, value) in enumerate(EXPRESSIONS) if value is None]
        text = "".join(after_command(EXPRESSIONS[number][0]).replace("process a ", f"process a_{number} ").replace(" process b { }", "") for number in faults)
        outcome = spin(model(text, f"a_{faults[0]} (x = 1)"))
        self.assertEqual((outcome.ending, sum(outcome.fired.values())), (Ending.NONE, 0))

    def test_conditions(self):
        for first in range(0, len(CONDITIONS), 8):
            with self.subTest(first):
                conditions = list(enumerate(CONDITIONS))[first:first + 8]
                processes = [f"process a_{number} {{ var x = -7; when ({text} and (x = (- 7))) : x := 1; }}" for number, (text, _) in conditions]
                wanted = " ".join(f"a_{number} (x = {'1' if holds else '(- 7)'})" for number, (_, holds) in conditions)
                outcome = spin(model("".join(processes) + "process b { }", wanted))
                self.assertEqual(len(outcome.steps), sum(bool(holds) for _, (_, holds) in conditions))

    def test_counts(self):
        outcome = spin(model(FLOW, "a ((sent(b) = 6) and (got(b) = 0)) b ((got(a) = 5) and (sent(a) = 1))"))
        self.assertEqual((outcome.ending, len(outcome.steps)), (Ending.FOUND, 12))

    def test_full_channel(self):
        outcome = spin(model(FLOW, "a (x = 7)"), length=2)
        self.assertEqual(outcome.ending, Ending.STOPPED)
        self.assertIn("the channel from a to b was full with 2 messages", outcome.reason)

    def test_longer_channels(self):
        outcome = spin(model(FLOW, "a (x = 7)"), length=2, may_lengthen=True)
        self.assertEqual(outcome.ending, Ending.NONE)
        self.assertIn("with at most 8 messages in each channel", outcome.done)

    def test_full_channel_of_a_family(self):
        names = {Step(0, 0): Name("a[1]", "0", 1), Step(1, 0): Name("b[1]", "0", 1)}
        self.assertIn("the channel from a[1] to b[1] and 1 other was full", SpinSearch(model(FLOW), names, 4, MEMORY).full_reason([("0", "1"), ("1", "0")]))

    def test_complete(self):
        outcome = spin(model(FLOW, "a (x = 7)"), length=6)
        self.assertEqual(outcome.ending, Ending.NONE)

    def test_values_of_32_bits(self):
        outcome = spin(model("process a { var x = 30000; when (x < 2000000000) : x := (x * 2); }", "a (x = 1966080000)"))
        self.assertEqual((outcome.ending, len(outcome.steps)), (Ending.FOUND, 16))

    def test_value_that_is_too_large(self):
        outcome = spin(model("process a { var x = 1000000; when true : x := (x * x); }", "a (x = 5)"))
        self.assertEqual(outcome.ending, Ending.STOPPED)
        self.assertIn("command 0 of a makes 1000000000000", outcome.reason)

    def test_own_events(self):
        """What the processes did comes first, in any order with what follows: left may enter and leave after right has entered."""
        room = "process left { var x = 0; when (x = 0) : x := 1; when (x = 1) : x := 2; } process right { var x = 0; when (x = 0) : x := 1; }"
        outcome = spin(model(room, "left (x = 1) right (x = 1)", own=((0, 1), ())))
        self.assertEqual((outcome.ending, [tuple(step) for step in outcome.steps]), (Ending.FOUND, [(1, 0)]))

    def test_stuck(self):
        outcome = spin(model(COUNTER, stuck=True))
        self.assertEqual((outcome.ending, len(outcome.steps)), (Ending.FOUND, 3))
        self.assertEqual(spin(model(COUNTER, stuck=True, unless=["a (x = 3)"])).ending, Ending.NONE)

    def test_out_of_memory(self):
        processes = "".join(f"process a_{number} {{ var x = 0; when true : x := (x + 1); }}" for number in range(8))
        outcome = spin(model(processes, "a_0 (x < 0)"), memory=150)
        self.assertEqual(outcome.ending, Ending.STOPPED)
        self.assertIn("--memory", outcome.reason)
