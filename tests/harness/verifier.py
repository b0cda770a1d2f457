"""Compares the translation of many programs to Promela, and the simulator of `find`, with the model of a session.

Many programs are put into one verifier, because most of its time is its compilation. The verifier prints the local state that each event
makes. From each program it makes all interleavings of a few events.
"""
import re
import shutil
import subprocess

from find import promela
from find.language import read_program as read_for_find
from find.model import Model
from find.promela import TYPES, Translation
from find.simulator import Run, Compiled
from harness.language import read_program
from harness.world import Refused, World

EVENTS = 5  # of an interleaving
OPTIONS = ["-O0", "-w", "-DBFS", "-DSAFETY", "-DNOREDUCE", "-DVECTORSZ=60000"]
OWN_NAME = re.compile(r"\b(x\d+_\d+|channel\d+_\d+|length\d+_\d+|(?:sent|got)\d+_\d+|ready_\d+|can_\d+|fire_\d+|full_\d+_\d+|fired)\b")
# In place of the end of the search: a state with a value that cannot be kept has no further event, and is not printed.
KEPT = """\
static long long kept(int command, long long value, long long least, long long greatest)
{
  if (value < least || value > greatest) now.is_too_wide = 1;
  return value;
}
"""


def model_of(text):
    """A program as a model of `find`."""
    processes = read_for_find(text)
    return Model(processes, tuple(() for _ in processes))


class Part:
    """One of the programs of a verifier."""

    def __init__(self, number, text):
        self.number, self.model = number, model_of(text)
        self.translation = Translation(self.model, EVENTS, promela.WIDE)

    def renamed(self, lines):
        """Lines of the translation, with names of their own in the verifier."""
        return [OWN_NAME.sub(rf"part{self.number}_\1", line) for line in lines]

    def shown(self, process):
        """C statements that print the local state of a process: its variables and the counts that are read."""
        counts = [f"{word}{p}_{other}" for word, p, other in self.translation.counts if p == process]
        names = [*(self.translation.variable(process, name) for name in self.model.processes[process].variables), *counts]
        values = "".join(f", (long long) now.{name}" for name in names)
        return f'printf("local {self.number} {process}{" %lld" * len(names)}\\n"{values});'

    def options(self):
        """The options of the verifier's process for the commands of the program."""
        for number, step in enumerate(self.model.steps):
            yield (f"  :: d_step {{ c_expr {{ now.which == {self.number} && now.events < {EVENTS} && !now.is_too_wide && can_{number} () }} -> "
                   f"c_code {{ fire_{number}(); now.events++; if (!now.is_too_wide) {self.shown(step.process)} }} }}")

    def first(self):
        """The option that chooses the program."""
        values = [f"now.{self.translation.variable(number, name)} = {value};" for number, process in enumerate(self.model.processes)
                  for name, value in process.variables.items() if value]
        return f"  :: d_step {{ c_code {{ now.which = {self.number}; {' '.join(values)} }} }}"


def promela_text(parts):
    """The verifier of some programs."""
    lines = ["short which;", "byte events;", "bool is_too_wide;"]
    for part in parts:
        lines += part.renamed(part.translation.declarations())
    lines += [f'c_code {{ \\#include "{promela.CODE_FILE}" }}', "active proctype system()", "{", "  if"]
    for part in parts:
        lines += part.renamed([part.first()])
    lines += ["  fi;", "  do"]
    for part in parts:
        lines += part.renamed(part.options())
    return "\n".join([*lines, "  od", "}", ""])


def code_text(parts):
    """The C functions of the verifier."""
    lines = [promela.HELPERS, KEPT]
    for part in parts:
        lines += part.renamed(part.translation.commands())
    return "\n".join([*lines, ""])


def verified(texts, folder):
    """For each program the local states that the verifier makes, each as the number of its process and its values."""
    parts = [Part(number, text) for number, text in enumerate(texts)]
    (folder / promela.MODEL_FILE).write_text(promela_text(parts))
    (folder / promela.CODE_FILE).write_text(code_text(parts))
    compiler = shutil.which("gcc") or shutil.which("clang")
    for words in (["spin", "-Pcat", "-a", promela.MODEL_FILE], [compiler, *OPTIONS, "-o", "pan", "pan.c"]):
        subprocess.run(words, cwd=folder, stdin=subprocess.DEVNULL, stdout=subprocess.PIPE, stderr=subprocess.STDOUT, check=True)
    ran = subprocess.run(["./pan", "-E"], cwd=folder, stdin=subprocess.DEVNULL, stdout=subprocess.PIPE, text=True, check=True)
    if "Search not completed" in ran.stdout or "error" in ran.stdout.split("errors: 0")[0]:
        raise ValueError(ran.stdout[-2000:])
    found = [set() for _ in texts]
    for line in ran.stdout.splitlines():
        words = line.split()
        if words[:1] == ["local"]:
            found[int(words[1])].add(tuple(map(int, words[2:])))
    return found


def is_kept(event):
    """Whether a state of SPIN can keep all values that an event makes."""
    made = [value for _, value in event.settings.values()] + ([event.message] if event.action == "send" else [])
    return all(TYPES[promela.WIDE].least <= value <= TYPES[promela.WIDE].greatest for value in made)


def local_state(world, process, counts):
    """The values of a process as the verifier prints them."""
    names = list(world.program)
    state = world.state(names[process])
    return (process, *state.values.values(), *(getattr(state, word)[names[other]] for word, p, other in counts if p == process))


def expected(text):
    """The local states that the model of a session makes, in all interleavings of a few events."""
    program, counts = read_program(text), model_of(text).counts()
    names = list(program)
    level, found, seen = [World.start(program)], set(), set()
    for _ in range(EVENTS):
        following = []
        for world in level:
            for process, name in enumerate(names):
                for number in world.firing(name):
                    after = world.step(name, number)
                    if not is_kept(after.events[name][-1]):
                        continue
                    found.add(local_state(after, process, counts))
                    key = (str([after.state(p) for p in names]), str([[m for m, _ in after.channel(p, q)] for p in names for q in names if p != q]))
                    if key not in seen:
                        seen.add(key)
                        following.append(after)
        level = following
    return found


def translation_problems(texts, folder):
    """What is wrong with the translation of some programs."""
    for text, shown in zip(texts, verified(texts, folder)):
        wanted = expected(text)
        if shown != wanted:
            yield f"{text}only the verifier: {sorted(shown - wanted)[:5]}\nonly the model: {sorted(wanted - shown)[:5]}"


def simulator_problem(text, chance, events=30):
    """What is wrong with the simulator on a random schedule of a program, or nothing."""
    model, world = model_of(text), World.start(read_program(text))
    run, names = Run(Compiled(model)), [process.name for process in model.processes]
    for _ in range(events):
        for process, name in enumerate(names):
            moves, wanted = [step.command for step in run.moves[process]], world.firing(name)
            if moves != wanted:
                return f"{text}{name} can fire {wanted} and not {moves}, after {world.places()}"
            local, state = tuple(run.states[process]), local_state(world, process, model.counts())[1:]
            if local != state:
                return f"{text}{name} has {state} and not {local}, after {world.places()}"
        moves = [step for of_process in run.moves for step in of_process]
        if not moves:
            break
        step = chance.choice(moves)
        run.fire(step)
        try:
            world = world.step(names[step.process], step.command)
        except Refused as refused:
            return f"{text}{step} is refused: {refused}"
    return ""
