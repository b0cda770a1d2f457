"""The form of command lines, for tests: which lines are refused for their words, before a session is asked."""
from harness.language import is_truth, names, read_predicate
from harness.world import Refused

# How many words a command or a query has, and which of them, from 1, name processes.
FORMS = {
    "step": (3, [1]), "next": (2, [1]), "redo": (2, [1]), "undo": (2, [1]), "rollback": (3, [1]), "goto": (2, []), "clear": (2, []),
    "pass": (2, []), "arm": (2, []), "back": (1, []), "breaks": (1, []), "cut": (2, []), "why": (2, []), "vars": (2, [1]),
    "chan": (3, [1, 2]), "clock": (2, [1]), "place": (2, [1]), "can": (2, [1])}
IN_BATCHES = ("step", "next", "redo", "undo", "rollback", "goto", "clear", "pass", "arm", "break")
OF_BREAKPOINTS = ("goto", "clear", "pass", "arm", "cut", "why")
SEATS = 16


def commands_of(words):
    """The commands of a batch, each as its words."""
    return [command.split() for command in " ".join(words[1:]).split(" ; ")]


def split_parts(words):
    """The processes of a line `break`, each with the text of its predicate."""
    parts, process = [], None
    for word in words[2:]:
        if process is None:
            process, text = word, ""
            continue
        text = f"{text} {word}".strip()
        if text.count("(") == text.count(")"):
            parts.append((process, text))
            process = None
    return parts if process is None else []


def read_parts(words):
    """The same with the predicates as trees."""
    return [(process, read_predicate(text)) for process, text in split_parts(words)]


def is_form(words):
    """Whether a line after its seat has a form of a command or a query."""
    if words[0] == "batch":
        return all(command and command[0] in IN_BATCHES and is_form(command) for command in commands_of(words))
    if words[0] == "break":
        return bool(split_parts(words))
    if words[0] not in FORMS or len(words) != FORMS[words[0]][0]:
        return False
    return words[0] not in ("step", "rollback") or words[2].isdigit()


def refuse_parts(program, words):
    """Refuses a line `break` of which a process is unknown, or a predicate is not one of its process."""
    seen = set()
    for process, predicate in read_parts(words):
        if process not in program:
            raise Refused(1)
        counts = {f"{word}({other})" for word in ("sent", "got") for other in program if other != process}
        if process in seen or not is_truth(predicate) or not names(predicate) <= {*program[process].variables, *counts}:
            raise Refused(23)
        seen.add(process)


def refuse_names(program, words):
    """Refuses a line that has the right form, and a name or a predicate that is wrong."""
    if words[0] == "batch":
        for command in commands_of(words):
            refuse_names(program, command)
    elif words[0] == "break":
        refuse_parts(program, words)
    elif not all(words[at] in program for at in FORMS[words[0]][1]):
        raise Refused(1)


def refuse_words(program, seat, words):
    """Refuses a line that is wrong whatever the session is."""
    if not 1 <= int(seat) <= SEATS or not words or not is_form(words):
        raise Refused(22)
    refuse_names(program, words)
