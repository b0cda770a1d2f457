"""Explanations that are made false on purpose, to test that their checks notice it."""
import random
import re

from harness.explanations import problem_of_line
from harness.language import read_program
from harness.player import Player


def tampered(chance, notes):
    """An explanation with another number in one of its lines, or without one of its lines."""
    at = chance.randrange(len(notes))
    numbers = list(re.finditer(r"\b\d+\b", notes[at]))
    if not numbers or chance.random() < 0.2:
        return notes[:at] + notes[at + 1:]
    number = chance.choice(numbers)
    line = notes[at][:number.start()] + str(int(number[0]) + 1) + notes[at][number.end():]
    return [*notes[:at], line, *notes[at + 1:]]


def unnoticed(program, talked, seed):
    """The first line of a session of which a false explanation is not noticed."""
    chance, player = random.Random(seed), Player(read_program(program))
    for at, line in enumerate(talked, 1):
        if line.notes:
            state, taken, notes = player.state, list(player.taken), line.notes
            line.notes = tampered(chance, notes)
            if not problem_of_line(player, line):
                return f"line {at}, {line.line}: nobody notices the explanation {line.notes!r} in place of {notes!r}"
            player.state, player.taken, line.notes = state, taken, notes
        problem_of_line(player, line)
    return ""
