"""The reader of the process language."""
import unittest

from find.language import Assignment, Command, Infix, Number, Part, Receive, Send, Truth, Variable, read_parts, read_program


class ReadProgram(unittest.TestCase):
    def test_commands(self):
        first, second = read_program("process a{var x=-1;when true:send b(x+1),x:=0;}process b{var y=2;when(y<3):recv a y;}")
        self.assertEqual(first.variables, {"x": -1})
        self.assertEqual(first.commands, (Command(Truth(True), Send("b", Infix("+", Variable("x"), Number(1))), (Assignment("x", Number(0)),)),))
        self.assertEqual(second.commands, (Command(Infix("<", Variable("y"), Number(3)), Receive("a", "y"), ()),))

    def test_process_without_anything(self):
        self.assertEqual(read_program("process a { }")[0].commands, ())

    def test_parts(self):
        self.assertEqual(read_parts(" a (x = (1 + 2))  b true"), (
            Part("a", Infix("=", Variable("x"), Infix("+", Number(1), Number(2)))), Part("b", Truth(True))))
