"""Random programs in the process language: some processes, messages between them, and expressions that may fault."""

NAMES = [("a", "b"), ("a", "b", "c"), ("left", "right", "judge_1"), ("p", "q", "r", "when_s")]
VARIABLES = ("x", "y", "z", "n")


def variable(chance, process):
    """One of the variables of a process."""
    return chance.choice(process.variables)


def count(chance, process):
    """A count of messages."""
    return f"{chance.choice(['sent', 'got'])}({chance.choice(process.others)})"


def number(chance, process):
    """An expression for a number, which seldom faults."""
    name, other = variable(chance, process), variable(chance, process)
    return chance.choices(
        [str(chance.randrange(4)), name, f"({name} + {chance.randint(1, 2)})", f"({name} - 1)", f"({name} + {other})", f"(- {name})",
         count(chance, process), f"(6 / {name})", f"({other} % {name})", f"({name} * 4611686018427387904)"],
        [6, 4, 9, 2, 2, 1, 1, 1, 1, 1])[0]


def comparison(chance, process):
    """A comparison of a variable or a count with a number."""
    left = count(chance, process) if chance.random() < 0.3 else variable(chance, process)
    return f"({left} {chance.choice(['=', '!=', '<', '<=', '>', '>='])} {chance.randrange(4)})"


def truth(chance, process):
    """A truth expression, as of a guard or a part of a breakpoint."""
    first, second = comparison(chance, process), comparison(chance, process)
    name = variable(chance, process)
    return chance.choices(
        [first, f"({first} and {second})", f"({first} or {second})", f"(not {first})", f"((6 / {name}) > {chance.randrange(3)})",
         f"(({first} and {second}) and ({name} < 3))", "true", "false"],
        [10, 4, 2, 1, 1, 1, 1, 0.2])[0]


def of_three(chance, process):
    """That two of three comparisons hold, or that one does: a form of the notation, written out."""
    first, second, third = (comparison(chance, process) for _ in range(3))
    two = f"(({first} and ({second} or {third})) or ({second} and {third}))"
    return chance.choice([two, f"(({first} or {second}) or {third})"])


def guard(chance, process):
    """A guard, which is often true."""
    if process.has_forms and chance.random() < 0.3:
        return of_three(chance, process)
    return "true" if chance.random() < 0.5 else truth(chance, process)


class RandomProcess:
    """A process of a random program: its name, those of the others, its variables, and the bodies of its commands."""

    def __init__(self, chance, name, names, has_forms):
        self.name, self.others, self.has_forms = name, [other for other in names if other != name], has_forms
        self.variables = chance.sample(VARIABLES, chance.randint(1, 3))
        self.commands = []

    def add(self, chance, action=""):
        """Adds a command with this action, and some assignments."""
        free = [name for name in self.variables if action.split()[-1:] != [name] or not action.startswith("recv")]
        chosen = chance.sample(free, min(len(free), chance.randint(0 if action else 1, 2)))
        body = ([action] if action else []) + [f"{name} := {number(chance, self)}" for name in chosen]
        self.commands.append(f"when {guard(chance, self)} : {', '.join(body)};")

    def written(self, chance):
        """The text of the process, in one line or in several."""
        variables = [f"var {name} = {chance.randint(-1, 2)};" for name in self.variables]
        chance.shuffle(self.commands)
        between = " " if chance.random() < 0.2 else "\n  "
        end = "\n" if between != " " else " "
        return f"process {self.name} {{{between}{between.join([*variables, *self.commands])}{end}}}\n"


def random_program(chance, has_forms=False):
    """The processes of a random program. Most messages can be received. Guards may be forms of the notation, written out."""
    names = chance.choice(NAMES)
    processes = {name: RandomProcess(chance, name, names, has_forms) for name in names}
    for _ in range(chance.randint(2, 5)):
        source, target = chance.sample(names, 2)
        processes[source].add(chance, f"send {target} {number(chance, processes[source])}")
        processes[target].add(chance, f"recv {source} {variable(chance, processes[target])}")
    for process in processes.values():
        if chance.random() < 0.6:
            process.add(chance)
    return processes
