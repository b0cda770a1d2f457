"""How the next step of a schedule is chosen from those that can fire. A choice depends only on the random numbers."""


class Random:
    """Any command, by the weight of its process."""

    def __init__(self, chance, model, options):
        self.chance = chance
        numbers = model.numbers
        self.weights = {numbers[name]: weight for name, weight in options.weight}

    def choose(self, moves):
        """One of the steps."""
        if not self.weights:
            return self.chance.choice(moves)
        weights = [self.weights.get(step.process, 1) for step in moves]
        return self.chance.choices(moves, weights)[0] if any(weights) else self.chance.choice(moves)


class Priorities:
    """The process of the highest priority. At a few random places the priority of one drops below all others.

    Burckhardt, Kothari, Musuvathi, Nagarakatte: A randomized scheduler with probabilistic guarantees of finding bugs, ASPLOS 2010.
    """

    DROPS = 3

    def __init__(self, chance, model, options):
        self.chance, self.number = chance, 0
        order = list(range(len(model.processes)))
        chance.shuffle(order)
        self.priority = {process: place for place, process in enumerate(order, 1)}
        self.drops = sorted(chance.sample(range(options.length), min(self.DROPS, options.length)))

    def highest(self, moves):
        """The process of the highest priority that can move."""
        return max((step.process for step in moves), key=self.priority.get)

    def choose(self, moves):
        """One of the steps."""
        process = self.highest(moves)
        if self.number in self.drops:
            self.priority[process] = -self.drops.index(self.number)
            process = self.highest(moves)
        self.number += 1
        return self.chance.choice([step for step in moves if step.process == process])


class Swarm:
    """Some of the commands, by random weights. The others fire only if none of these can.

    Groce, Zhang, Eide, Chen, Regehr: Swarm testing, ISSTA 2012.
    """

    def __init__(self, chance, model, _options):
        self.chance = chance
        self.weights = {step: 2 ** chance.randrange(5) for step in model.steps if chance.random() < 0.5}

    def choose(self, moves):
        """One of the steps."""
        chosen = [step for step in moves if step in self.weights]
        if not chosen:
            return self.chance.choice(moves)
        return self.chance.choices(chosen, [self.weights[step] for step in chosen])[0]


class Stall:
    """A random half of the processes pause after a few events, until nothing else can fire."""

    LONGEST = 11  # events before the pause

    def __init__(self, chance, model, options, choice=Random):
        self.inner = choice(chance, model, options)
        # For each process that will pause, how many events it makes before.
        self.left = {process: chance.randint(1, self.LONGEST) for process in range(len(model.processes)) if chance.random() < 0.5}

    def choose(self, moves):
        """One of the steps."""
        going = [step for step in moves if self.left.get(step.process) != 0]
        if not going:
            self.left, going = {}, moves
        step = self.inner.choose(going)
        if step.process in self.left:
            self.left[step.process] -= 1
        return step


class StallSwarm(Stall):
    """The same, with the choices of a swarm."""

    def __init__(self, chance, model, options):
        super().__init__(chance, model, options, Swarm)


STRATEGIES = {"random": Random, "priorities": Priorities, "swarm": Swarm, "stall": Stall, "stall-swarm": StallSwarm}
