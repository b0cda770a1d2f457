"""The arguments of the command line."""
import argparse
import os

from find.errors import WrongUse
from find.session import plain_name
from find.spin import free_memory

HELP = """\
rdbg find searches for a schedule that reaches a bad state.

It reads a session: a program, a line %% and lines after it. It plays these
lines, searches on from there until a breakpoint of the session halts, and
prints the session with the steps that were found, for `rdbg talk`. With
FILE -, it reads standard input.

Two engines search. SPIN tries all interleavings, breadth first, so it finds a
shortest schedule, or shows that there is none. Sampling plays random
schedules; a breakpoint finds the bad state in any order of their events.
rdbg plays and judges every schedule that is printed.

USAGE:
    rdbg find [OPTIONS] FILE

WHAT IS LOOKED FOR:
    --break <NAME>        A breakpoint of the session. May be repeated.
                          [default: all that are armed]
    --stuck               A state in which no command of any process can fire.
    --unless <CONDITION>  With --stuck: a state that is not looked for, as
                          'site[1] (done = 1) site[2] (done = 1)'. May be
                          repeated.
    --from-start          Leave out the session's own events, and search from
                          the first state, for breakpoints as they were set.

ENGINES:
    --engine <ENGINE>     auto, spin or sample. auto runs both side by side,
                          and sampling alone if SPIN is missing.
                          [default: auto]
    --seconds <N>         Stop after N seconds. [default: 300]
    --shortest            Use all of --seconds to look for a shorter schedule
                          than sampling has found.
    --jobs <N>            Processors that sample. [default: all]

SPIN:
    --channel <N>         Messages that a channel keeps. A send waits while its
                          channel is full. [default: 4, then twice as many
                          as long as nothing else stops the search]
    --memory <MB>         Memory that SPIN may use.
                          [default: half of what is free]

SAMPLING:
    --strategy <NAME>     random, priorities, swarm, stall or stall-swarm. May
                          be repeated; they take turns.
                          [default: all; with --compare, random]
    --seed <N>            The same seed plays the same schedules. [default: 1]
    --schedules <N>       Stop after N schedules.
    --length <N>          Events of a schedule, at most. [default: 100]
    --weight <P=N>        With random: choose the process P N times as often.
                          May be repeated.
    --at-most <P=N>       The process P makes at most N events after those of
                          the session. May be repeated.

OUTPUT:
    --test                Print the reply to each line, for `rdbg test`.
    --compare             Print no session. Play --schedules schedules (200),
                          and say how many pass through a bad state in the
                          order played, and how many reach one in some order.
    -h, --help            Print this help.

The session goes to standard output, everything else to standard error.

EXIT STATUS:
    0     a bad state was found
    1     there is none, and the search was complete
    2     wrong use: arguments, the file, or the session
    3     the search stopped before its end
    130   interrupted by Ctrl-C

The variable RDBG names the program rdbg. docs/searching.md says what an
answer means.
"""
ENGINES = ("auto", "spin", "sample")
STRATEGIES = ("random", "priorities", "swarm", "stall", "stall-swarm")


class Parser(argparse.ArgumentParser):
    """A parser that reports wrong arguments as all wrong use is reported."""

    def error(self, message):
        raise WrongUse(f"{message}\nFor more information, try '--help'.")


def positive(word):
    """A number above 0."""
    if not word.isdigit() or int(word) == 0:
        raise argparse.ArgumentTypeError(f"{word} is not a number above 0")
    return int(word)


def seconds(word):
    """A number of seconds."""
    try:
        number = float(word)
    except ValueError:
        number = -1.0
    if not 0 < number < float("inf"):
        raise argparse.ArgumentTypeError(f"{word} is not a number of seconds above 0")
    return number


def pair(word):
    """A process and a number."""
    name, _, number = word.partition("=")
    if not name or not number.isdigit():
        raise argparse.ArgumentTypeError(f"{word} is not of the form PROCESS=NUMBER")
    return plain_name(name), int(number)


def read_arguments(words):
    """The options that the arguments choose. `help` is set if the help is asked for."""
    parser = Parser(prog="rdbg find", add_help=False, allow_abbrev=False)
    parser.add_argument("file", nargs="?", metavar="FILE")
    parser.add_argument("-h", "--help", action="store_true")
    parser.add_argument("--break", dest="names", action="append", default=[], metavar="NAME")
    parser.add_argument("--stuck", action="store_true")
    parser.add_argument("--unless", action="append", default=[], metavar="CONDITION")
    parser.add_argument("--from-start", action="store_true")
    parser.add_argument("--engine", choices=ENGINES, default="auto")
    parser.add_argument("--seconds", type=seconds, default=300.0, metavar="N")
    parser.add_argument("--shortest", action="store_true")
    parser.add_argument("--jobs", type=positive, default=os.cpu_count() or 1, metavar="N")
    parser.add_argument("--channel", type=positive, metavar="N")
    parser.add_argument("--memory", type=positive, default=None, metavar="MB")
    parser.add_argument("--strategy", dest="strategies", action="append", choices=STRATEGIES, metavar="NAME")
    parser.add_argument("--seed", type=int, default=1, metavar="N")
    parser.add_argument("--schedules", type=positive, default=None, metavar="N")
    parser.add_argument("--length", type=positive, default=100, metavar="N")
    parser.add_argument("--weight", action="append", type=pair, default=[], metavar="P=N")
    parser.add_argument("--at-most", action="append", type=pair, default=[], metavar="P=N")
    parser.add_argument("--test", action="store_true")
    parser.add_argument("--compare", action="store_true")
    options = parser.parse_args(words)
    if options.help:
        return options
    check(options)
    options.strategies = tuple(options.strategies or (STRATEGIES[:1] if options.compare else STRATEGIES))
    options.memory = options.memory or free_memory()
    return options


def check(options):
    """Refuses arguments that do not go together."""
    if options.file is None:
        raise WrongUse("FILE is missing\nFor more information, try '--help'.")
    if options.unless and not options.stuck:
        raise WrongUse("--unless goes with --stuck")
    if options.stuck and options.names:
        raise WrongUse("--stuck and --break do not go together")
    if options.compare and (options.stuck or options.test):
        raise WrongUse("--compare goes neither with --stuck nor with --test")
    if (options.channel or 0) > 10_000:
        raise WrongUse("a channel may keep at most 10,000 messages")
    if options.length > 20_000:
        raise WrongUse("a schedule may have at most 20,000 events")
