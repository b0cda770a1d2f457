"""Logs for ShiViz: their form, and whether their clocks are those of one history."""
import json
import re

# What the documents name as the expression with which ShiViz reads a log.
ENTRY = re.compile(r"(?P<host>\S*) (?P<clock>\{.*\})\n(?P<event>.*)\n")


def entries(log):
    """The events of a log, as pairs of a process and a clock; and what ShiViz does not read of the log."""
    found, end = [], 0
    while read := ENTRY.match(log, end):
        found.append((read["host"], json.loads(read["clock"])))
        end = read.end()
    return found, log[end:]


def is_at_most(clock, other):
    return all(count <= other.get(process, 0) for process, count in clock.items())


def clock_problems(found):
    """What is wrong with the clocks: an event counts itself, and each event that it counts has happened before it."""
    clocks = {}
    for host, clock in found:
        own = clocks.setdefault(host, [])
        if clock.get(host) != len(own) + 1:
            yield f"event {len(own) + 1} of {host} counts {clock.get(host)} of its process"
        for process, count in clock.items():
            before = clocks.get(process, [])[:count] if process != host else own
            if len(before) < count - (process == host):
                yield f"event {len(own) + 1} of {host} counts {count} of {process}, which has {len(before)}"
            elif before and not is_at_most(before[-1], clock):
                yield f"event {len(own) + 1} of {host} does not count all that event {len(before)} of {process} counts"
        own.append(clock)


def log_problems(log):
    """What is wrong with a log."""
    found, rest = entries(log)
    unread = [f"ShiViz does not read {rest.splitlines()[0]!r}"] if rest else []
    return [*unread, *clock_problems(found)]
