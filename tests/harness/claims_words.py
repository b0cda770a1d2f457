"""Claims of explanations about the words of a line: the names in it, and which processes and variables there are."""
from harness.claims import check, claim, same
from harness.language import is_truth, names
from harness.lines import is_form, read_parts, split_parts


def listing(words):
    """The names in a text that has commas between them."""
    return words.split(", ")


@claim(r"`(?P<word>\S*)` is not a process; (?:the only process is|the processes are) (?P<processes>\w+(?:, \w+)*)")
def not_a_process(reading, word, processes):
    """A word is not the name of a process, and which names there are."""
    same("the processes", listing(processes), list(reading.world.program))
    check("the word is in the line, and is not one of them", word in reading.words and word not in reading.world.program)
    reading.record("unknown", word)


def wrong_part(reading):
    """The first part of a line `break` that is wrong: its process, its text, and the unknown name in it."""
    for (process, text), (_, predicate) in zip(split_parts(reading.words), read_parts(reading.words)):
        program = reading.world.program
        counts = {f"{word}({other})" for word in ("sent", "got") for other in program}
        unknown = sorted(names(predicate) - {*program[process].variables, *counts}, key=text.index)
        if unknown or not is_truth(predicate):
            return process, text, unknown[0] if unknown else None
    return None


@claim(r"(?P<blanks> *)\^ nothing has this name")
def unknown_name(reading, blanks):
    """A mark under a name that is unknown."""
    _, text, name = wrong_part(reading)
    same("what is marked", text[len(blanks):][:len(name)], name)
    reading.record("mark", "name")


@claim(r"(?P<blanks> *)\^ a number is where a truth value is expected, or a truth value where a number is expected")
def not_a_truth(reading, blanks):
    """A mark under a predicate that is a number."""
    same("the column and the unknown name", (len(blanks), wrong_part(reading)[2]), (0, None))
    reading.record("mark", "type")


@claim(r"(?P<process>\w+) has (?:the variables? (?P<variables>\w+(?:, \w+)*)|no variable)")
def variables(reading, process, variables):
    """Which variables a process has."""
    same("the process", process, wrong_part(reading)[0])
    same("its variables", listing(variables) if variables else [], list(reading.world.program[process].variables))
    check("no process has the other name", not any(wrong_part(reading)[2] in found.variables for found in reading.world.program.values()))
    reading.record("known", process)


@claim(r"`(?P<name>\w+)` is a variable of (?P<process>\w+): what it must be is in a part of its own, `(?P<same_process>\w+) \(\.\.\)`")
def variable_of_other(reading, name, process, same_process):
    """A name is a variable of another process."""
    owner, _, unknown = wrong_part(reading)
    same("the name", name, unknown)
    check("it is a variable of this process alone of the two", name in reading.world.program[process].variables and process != owner)
    same("the process of the part", same_process, process)
    reading.record("known", owner)


@claim(r"(?P<process>\w+) already has a part: combine both, as in `\(\(x = 1\) and \(y = 2\)\)`")
def two_parts(reading, process):
    """A process has two parts."""
    check("it has two", [found for found, _ in split_parts(reading.words)].count(process) > 1)
    reading.record("mark", "twice")


@claim(r"`(?P<word>\w+)` is not a command; did you mean this one\?")
def not_a_command(reading, word):
    """A word is not a command."""
    check("no line begins with it", word == reading.words[0] and not is_form(reading.words))


@claim(r"`(?P<seat>\d+)` is not a seat: seats are the numbers from 1 to 16")
def not_a_seat(reading, seat):
    """A number is not a seat."""
    check("it is too large or 0", reading.line.split()[0] == seat and not 1 <= int(seat) <= 16)


@claim(r"for example `break (?P<name>\w+) (?P<process>\w+) \((?P<variable>\w+) = 1\)`")
def example(reading, name, process, variable):
    """A line that sets a breakpoint."""
    check("the process has the variable", variable in reading.world.program[process].variables)


# Lines that say nothing of the state: the forms of commands, and what is wrong with the words of a line.
SILENT = [
    r"`[a-z]+(?: [A-Z](?: [A-Z])*)?(?: \[.*\])?(?: C ; C \.\.)?`: .*"]


@claim("|".join(SILENT))
def form(reading):
    """A form of a command, or a mark under a line."""
    same("the refusal", reading.refusal, "22")


@claim(r"(?P<line>break .*)")
def marked_line(reading, line):
    """A line with a mark under it in the next line."""
    reading.record("marked line", line.split())


@claim(r" *\^ (?:a process and its predicate are missing after the name|a predicate is missing after the last process)")
def missing(reading):
    """A mark where a part of a line is missing."""
    same("the refusal", reading.refusal, "22")
    reading.require("marked line", reading.words)


@claim(r"(?P<text>\(.*\))")
def marked_text(reading, text):
    """The text of a predicate, with a mark under it in the next line."""
    process, wrong, _ = wrong_part(reading)
    same("the predicate", text, wrong)
    reading.record("text", process)


def require_words(reading):
    """Demands what has to be said of an unknown process, or a wrong predicate."""
    program, word = reading.world.program, reading.words[0]
    if word in ("on", "list", "state", "line") and reading.words[-1] not in program and len(reading.words) > 1:
        reading.require("unknown", reading.words[-1])
    elif word == "batch" or reading.refusal not in ("1", "23"):
        return
    elif reading.refusal == "1":
        shown = [p for p, _ in split_parts(reading.words)] if word == "break" else reading.words[1:]
        reading.require("unknown", next(p for p in shown if p not in program))
    elif not wrong_part(reading):
        reading.require("mark", "twice")
    else:
        process, _, unknown = wrong_part(reading)
        reading.require("text", process)
        reading.require("mark", "name" if unknown else "type")
        reading.require("known", *([process] if unknown else []))
