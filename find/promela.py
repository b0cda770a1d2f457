"""The translation of a model to Promela, the language of SPIN.

The whole program is one SPIN process. Its state is made of global variables: those of the processes, the channels and the counts. Each
command is one `d_step` of it. What a command does is written in C, because numbers have 64 bits and results out of range are faults.
For the command N, `ready_N` says whether it can fire if channels have no limit, `can_N` whether it can fire here, and `fire_N` fires it.

The verifier prints lines that begin with `find:`, besides those of SPIN (spin.py reads them):

    find: step N           command N fires, when a trail is played again
    find: fired N COUNT    at the end: how often command N fired
    find: full P Q         at the end: a full channel from P to Q has held up a send
    find: wide N VALUE     command N, or a first value if N is -1, is too large for a state; the search ends
"""
from find.language import Count, Number, Prefix, Receive, Send, Truth, Variable, can_fault, values
from find.ranges import Range, ranges

# The types of Promela that keep numbers, narrowest first.
TYPES = {"byte": Range(0, 255), "short": Range(-2**15, 2**15 - 1), "int": Range(-2**31, 2**31 - 1)}
MODEL_FILE, CODE_FILE = "model.pml", "commands.h"
NARROW, WIDE = "short", "int"  # for numbers that arithmetic makes
OPERATORS = {"=": "==", "and": "&&", "or": "||"}
FUNCTIONS = {"+": "sum", "-": "difference", "*": "product", "/": "quotient", "%": "remainder_of"}

# `fault` is set by an expression that faults, and then its value does not matter.
HELPERS = """\
extern int readtrail;
static int fault;
static long long checked(int overflows, long long value)
{
  if (overflows) fault = 1;
  return overflows ? 0 : value;
}
static long long sum(long long a, long long b)
{
  long long c;
  int overflows = __builtin_add_overflow(a, b, &c);
  return checked(overflows, c);
}
static long long difference(long long a, long long b)
{
  long long c;
  int overflows = __builtin_sub_overflow(a, b, &c);
  return checked(overflows, c);
}
static long long product(long long a, long long b)
{
  long long c;
  int overflows = __builtin_mul_overflow(a, b, &c);
  return checked(overflows, c);
}
static int cannot_divide(long long a, long long b)
{
  return b == 0 || (b == -1 && a == -9223372036854775807LL - 1);
}
static long long quotient(long long a, long long b)
{
  int overflows = cannot_divide(a, b);
  return checked(overflows, overflows ? 0 : a / b);
}
static long long remainder_of(long long a, long long b)
{
  int overflows = cannot_divide(a, b);
  return checked(overflows, overflows ? 0 : a % b);
}
"""
# A value that is to be kept in the state, which ends the search if it is too large.
KEPT = """\
static long long kept(int command, long long value, long long least, long long greatest)
{
  if (value < least || value > greatest) {
    printf("find: wide %d %lld\\n", command, value);
    fflush(stdout);
    exit(0);
  }
  return value;
}
"""


def narrowest(found):
    """The narrowest type that keeps all numbers of a range, or None."""
    return next((name for name, range in TYPES.items() if range.joined(found) == range), None)


def literal(value):
    """A number as C has it."""
    return f"{value}LL" if value > -2**63 else "(-9223372036854775807LL - 1)"


class Translation:
    """The Promela text of a model, in which each channel keeps so many messages.

    `widest` is the type of the numbers that arithmetic makes.
    """

    def __init__(self, model, length, widest=NARROW):
        self.model, self.length, self.widest = model, length, widest
        self.numbers, self.channels, self.counts = model.numbers, model.channels(), model.counts()
        self.ranges = ranges(model)

    # -- Names of the state -------------------------------------------------------------------------------------------------------------

    def variable(self, process, name):
        """The name of a variable in the state."""
        return f"x{process}_{list(self.model.processes[process].variables).index(name)}"

    def type_of(self, found):
        """The type that keeps the numbers of a range, as far as they are kept."""
        return narrowest(found) or self.widest

    def declarations(self):
        """The declarations of the state."""
        for number, process in enumerate(self.model.processes):
            for name, value in process.variables.items():
                yield f"{self.type_of(self.ranges[number, name])} {self.variable(number, name)};  /* {name} of {process.name} */"
            if self.model.own[number]:
                yield f"short made{number};  /* own events that {process.name} has made */"
        for source, target in self.channels:
            yield f"{self.type_of(self.ranges[source, target])} channel{source}_{target}[{self.length}];"
            yield f"{'byte' if self.length < 256 else 'int'} length{source}_{target};"
        for word, process, other in self.counts:
            yield f"{self.widest} {word}{process}_{other};"

    # -- Expressions --------------------------------------------------------------------------------------------------------------------

    def expression(self, process, expression, message=None):
        """An expression of a process in C. `message` is the variable that has the value of the message, if there is one."""
        if isinstance(expression, Number):
            return literal(expression.value)
        if isinstance(expression, Truth):
            return str(int(expression.value))
        if isinstance(expression, Variable):
            return "message" if expression.name == message else f"(long long) now.{self.variable(process, expression.name)}"
        if isinstance(expression, Count):
            return f"(long long) now.{expression.word}{process}_{self.numbers[expression.process]}"
        if isinstance(expression, Prefix):
            operand = self.expression(process, expression.operand, message)
            return f"!({operand})" if expression.operator == "not" else f"difference(0, {operand})"
        return self.infix(process, expression, message)

    def infix(self, process, expression, message):
        """An operation in C."""
        left, right = (self.expression(process, part, message) for part in (expression.left, expression.right))
        if expression.operator in FUNCTIONS:
            return f"{FUNCTIONS[expression.operator]}({left}, {right})"
        return f"({left} {OPERATORS.get(expression.operator, expression.operator)} {right})"

    # -- Commands -----------------------------------------------------------------------------------------------------------------------

    def message_lines(self, step, command):
        """Lines that take the message of a receive, which is in the channel, into a variable of its own. Nothing for other commands."""
        if isinstance(command.action, Receive):
            yield f"  long long message = now.channel{self.numbers[command.action.source]}_{step.process}[0];"

    def ready(self, number, step):
        """The function that says whether a command can fire if channels have no limit."""
        command, process = self.model.command(step), step.process
        yield f"static int ready_{number}(void)"
        yield "{"
        if self.model.own[process]:
            own = ", ".join(map(str, self.model.own[process]))
            yield f"  static const int own[] = {{{own}}};"
            yield f"  if (now.made{process} < {len(self.model.own[process])} && own[now.made{process}] != {step.command}) return 0;"
        yield "  fault = 0;"
        yield f"  if (!({self.expression(process, command.guard)}) || fault) return 0;"
        message = None
        if isinstance(command.action, Receive):
            source, message = self.numbers[command.action.source], command.action.variable
            if (source, process) not in self.channels:
                yield "  return 0;"
                yield "}"
                return
            yield f"  if (now.length{source}_{process} == 0) return 0;"
        checked = [self.expression(process, value, message) for value in values(command) if can_fault(value)]
        if checked:
            yield from self.message_lines(step, command)
            yield from (f"  (void) {text};" for text in checked)
        yield "  return !fault;"
        yield "}"

    def can(self, number, step):
        """The function that says whether a command can fire."""
        action = self.model.command(step).action
        channel = (step.process, self.numbers[action.target]) if isinstance(action, Send) else None
        yield f"static int can_{number}(void)"
        yield "{"
        yield f"  if (!ready_{number}()) return 0;"
        if channel in self.channels:
            source, target = channel
            yield f"  if (now.length{source}_{target} == {self.length}) {{ full_{source}_{target} = 1; return 0; }}"
        yield "  return 1;"
        yield "}"

    def kept(self, number, value, found):
        """A value that is kept in the state, with a check if not all numbers of its range can be."""
        if narrowest(found):
            return value
        return f"kept({number}, {value}, {literal(TYPES[self.widest].least)}, {literal(TYPES[self.widest].greatest)})"

    def counted(self, number, word, process, other):
        """Lines that count a message, if the count is read."""
        if (word, process, other) in self.counts:
            name = f"now.{word}{process}_{other}"
            yield f"  {name} = kept({number}, {name} + 1, 0, {TYPES[self.widest].greatest});"

    def send(self, number, step, action):
        """Lines that put the value `sent` into its channel."""
        target = self.numbers[action.target]
        if (step.process, target) in self.channels:
            channel = f"{step.process}_{target}"
            yield f"  now.channel{channel}[now.length{channel}++] = {self.kept(number, 'sent', self.ranges[step.process, target])};"
        yield from self.counted(number, "sent", step.process, target)

    def receive(self, number, step, action):
        """Lines that take the oldest message out of its channel. A place without a message is 0, so that equal states are equal."""
        source = self.numbers[action.source]
        channel = f"{source}_{step.process}"
        yield f"  memmove((void *) now.channel{channel}, (void *) (now.channel{channel} + 1), {self.length - 1} * sizeof now.channel{channel}[0]);"
        yield f"  now.channel{channel}[{self.length - 1}] = 0;"
        yield f"  now.length{channel}--;"
        yield f"  now.{self.variable(step.process, action.variable)} = message;"
        yield from self.counted(number, "got", step.process, source)

    def fire(self, number, step):
        """The function that fires a command, which can fire."""
        command, process = self.model.command(step), step.process
        action, message = command.action, None
        yield f"static void fire_{number}(void)"
        yield "{"
        if isinstance(action, Receive) and (self.numbers[action.source], process) not in self.channels:
            yield "}"
            return
        yield from self.message_lines(step, command)
        if isinstance(action, Receive):
            message = action.variable
        if isinstance(action, Send):
            yield f"  long long sent = {self.expression(process, action.value)};"
        for place, assignment in enumerate(command.assignments):
            yield f"  long long value{place} = {self.expression(process, assignment.value, message)};"
        if isinstance(action, Send):
            yield from self.send(number, step, action)
        if isinstance(action, Receive):
            yield from self.receive(number, step, action)
        for place, assignment in enumerate(command.assignments):
            value = self.kept(number, f"value{place}", self.ranges[process, assignment.variable])
            yield f"  now.{self.variable(process, assignment.variable)} = {value};"
        if self.model.own[process]:
            yield f"  if (now.made{process} < {len(self.model.own[process])}) now.made{process}++;"
        yield f"  fired[{number}]++;"
        yield f'  if (readtrail) printf("find: step {number}\\n");'
        yield "}"

    # -- What is looked for -------------------------------------------------------------------------------------------------------------

    def holds(self, name, breakpoint):
        """The function that says whether a breakpoint holds. A part that faults does not."""
        yield f"static int {name}(void)"
        yield "{"
        for part in breakpoint.parts:
            yield "  fault = 0;"
            yield f"  if (!({self.expression(self.numbers[part.process], part.predicate)}) || fault) return 0;"
        yield "  return 1;"
        yield "}"

    def goal(self):
        """The function `is_bad`, which says whether the state is looked for, and those that it calls."""
        conditions = [*self.model.breakpoints, *self.model.unless]
        for place, breakpoint in enumerate(conditions):
            yield from self.holds(f"holds_{place}", breakpoint)
        yield "static int is_bad(void)"
        yield "{"
        if self.model.stuck:
            yield from (f"  if (ready_{number}()) return 0;" for number in range(len(self.model.steps)))
            yield from (f"  if (holds_{place}()) return 0;" for place in range(len(conditions)))
            yield "  return 1;"
        else:
            yield from (f"  if (holds_{place}()) return 1;" for place in range(len(conditions)))
            yield "  return 0;"
        yield "}"
        yield "static int is_good(void) { return !is_bad(); }"

    def report(self):
        """The function that prints at the end what fired and which channels were full."""
        yield "static void report(void)"
        yield "{"
        for number in range(len(self.model.steps)):
            yield f'  printf("find: fired {number} %ld\\n", fired[{number}]);'
        for source, target in self.channels:
            yield f'  if (full_{source}_{target}) printf("find: full {source} {target}\\n");'
        yield "  fflush(stdout);"
        yield "}"

    # -- The whole ----------------------------------------------------------------------------------------------------------------------

    def first_values(self):
        """Lines that begin the search: the first values, and the report."""
        for number, process in enumerate(self.model.processes):
            for name, value in process.variables.items():
                if value:
                    yield f"    now.{self.variable(number, name)} = {self.kept(-1, literal(value), self.ranges[number, name])};"
        yield "    atexit(report);"

    def commands(self):
        """The C functions of the commands."""
        yield f"static long fired[{max(1, len(self.model.steps))}];"
        yield from (f"static int full_{source}_{target};" for source, target in self.channels)
        for number, step in enumerate(self.model.steps):
            yield f"/* {self.model.processes[step.process].name} {step.command} */"
            for function in (self.ready, self.can, self.fire):
                yield from function(number, step)

    def functions(self):
        """All C functions."""
        yield HELPERS + KEPT
        yield from self.commands()
        yield from self.goal()
        yield from self.report()

    def lines(self):
        """The lines of the Promela text."""
        yield from self.declarations()
        # (SPIN has a limit for the C code in its text, but none for a file)
        yield f'c_code {{ \\#include "{CODE_FILE}" }}'
        yield "active proctype system()"
        yield "{"
        yield "  d_step { c_code {"
        yield from self.first_values()
        yield "  }; assert(c_expr { is_good () }) };"
        # (SPIN takes a name directly before a parenthesis for a side effect)
        yield "  do"
        for number in range(len(self.model.steps)):
            yield f"  :: d_step {{ c_expr {{ can_{number} () }} -> c_code {{ fire_{number}(); }}; assert(c_expr {{ is_good () }}) }}"
        yield "  :: c_expr { 0 } -> skip"
        yield "  od"
        yield "}"

    def files(self):
        """The texts of the files for SPIN, by name."""
        return {MODEL_FILE: "\n".join(self.lines()) + "\n", CODE_FILE: "\n".join(self.functions()) + "\n"}
