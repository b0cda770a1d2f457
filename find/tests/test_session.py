"""What a session says, and what is printed."""
import unittest

from find.errors import WrongUse
from find.model import Step
from find.names import Name, read_names
from find.options import read_arguments
from find.rdbg import Ran
from find.session import after_command, calls_of, is_break_line, plain_name, set_breakpoints, split_session
from find.tests.programs import COUNTER, model


class Printing:
    """A program that prints this for any arguments."""

    def __init__(self, status, output):
        self.ran = Ran(status, output, "")

    def run(self, *_arguments, given=""):
        """What it prints."""
        return self.ran


class Names(unittest.TestCase):
    def test_names_of_the_author(self):
        names = read_names(Printing(0, "a\t0\t7\tserver[3]\thear[2]\n"), "", model(COUNTER))
        self.assertEqual(names, {Step(0, 0): Name("server[3]", "hear[2]", 7)})
        self.assertEqual(names[Step(0, 0)].written(), "`hear[2]` of server[3] (line 7)")

    def test_command_without_a_label(self):
        self.assertEqual(read_names(Printing(0, "a\t0\t1\ta\t\n"), "", model(COUNTER)), {Step(0, 0): Name("a", "0", 1)})

    def test_program_that_prints_no_names(self):
        self.assertEqual(read_names(Printing(2, ""), "", model(COUNTER)), {Step(0, 0): Name("a", "0", 0)})


class Lines(unittest.TestCase):
    def test_split(self):
        text = split_session("process a { }\r\n%%\r\nnext a\n\n# b")
        self.assertEqual((text.program, text.lines), ("process a { }\r\n%%\n", ("next a", "", "# b")))
        self.assertRaises(WrongUse, split_session, "process a { }\n %%\n")

    def test_from_start(self):
        text = split_session("%%\nstep a 0\n1 break b a true\nfor i: 1..2 : break c[i] a true\n> ok\n")
        self.assertEqual(text.from_start().lines, ("1 break b a true", "for i: 1..2 : break c[i] a true"))
        text = split_session("%%\nbreak b a true\nbreak c a true\nclear b\nbreak b a false\n")
        self.assertEqual(text.from_start().lines, ("break c a true", "break b a false"))

    def test_lines_that_only_set_breakpoints(self):
        for line in ("break b a true  # one ; two", "1 batch break b a true ; break c a true", "for i: 1..2 : batch break b[i] a true ; break c[i] a true"):
            with self.subTest(line):
                self.assertTrue(is_break_line(line))
        for line in ("breaks", "batch break b a true ; step a 0", "batch step a 0 ; break b a true", "clear b", "step a 0  # break"):
            with self.subTest(line):
                self.assertFalse(is_break_line(line))

    def test_calls(self):
        self.assertEqual(calls_of(["next a", "", "# b", "> ok", " on", "2 next a", "quit", "next a"]), ["1 next a", "2 next a"])

    def test_breakpoints(self):
        calls = ["1 break b a (x = 1)", "1 clear b", "1 back", "1 batch break c a true ; step a 0 ; clear b", "1 break d a false"]
        self.assertEqual(set_breakpoints(calls, ["ok", "ok", "ok", "ok", "no 23"]), {"c": "a true"})
        self.assertEqual(after_command({"b": ""}, "step a 0"), {"b": ""})

    def test_plain_name(self):
        self.assertEqual(plain_name("cell[1][20]"), "cell_1_20")


class Arguments(unittest.TestCase):
    def test_defaults(self):
        options = read_arguments(["file"])
        self.assertEqual((options.engine, options.channel, options.length, len(options.strategies)), ("auto", None, 100, 5))
        self.assertEqual(read_arguments(["--compare", "file"]).strategies, ("random",))

    def test_wrong(self):
        for words in ([], ["--stuck", "--break", "b", "f"], ["--unless", "a true", "f"], ["--channel", "0", "f"], ["--weight", "a", "f"],
                      ["--seconds", "x", "f"]):
            with self.subTest(words):
                self.assertRaises(WrongUse, read_arguments, words)
