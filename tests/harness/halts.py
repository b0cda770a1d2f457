"""A model of what the report of a halt shows: where the parts of a predicate hold, why not earlier, the marks of the events, and their order."""
from harness.language import holds


def truths(world, predicate, process, count):
    """Whether the part of a process holds after each number of its events, up to this one."""
    return [holds(predicate[process], world.state(process, n)) for n in range(count + 1)]


def since(world, predicate, process, count):
    """The least number of events since which a part holds, up to this one, after which it holds."""
    while count and holds(predicate[process], world.state(process, count - 1)):
        count -= 1
    return count


def held_before(world, predicate, process, count):
    """The last number of events after which a part held, before those since which it holds, or None."""
    first = since(world, predicate, process, count)
    return max((n for n in range(first) if holds(predicate[process], world.state(process, n))), default=None)


def reasons(world, cut, process, number):
    """The events of a cut that depend on this event: the first one of each other process."""
    found = []
    for other in world.program:
        after = [n for n in range(1, cut[other] + 1) if world.clock(other, n)[process] >= number]
        found.extend([(other, after[0])] if other != process and after else [])
    return found


def marks(world, cut, predicate, process):
    """The events of a process in a cut, as pairs of the first and the last event of each mark."""
    values = truths(world, predicate, process, cut[process]) if process in predicate else [False] * (cut[process] + 1)
    changes = [False] + [values[n] != values[n - 1] for n in range(1, len(values))]
    starts = [n for n in range(1, cut[process] + 1)
              if n == 1 or world.events[process][n - 1].action == "recv" or changes[n] or changes[n - 1]]
    return list(zip(starts, [n - 1 for n in starts[1:]] + [cut[process]]))


def depths(world, cut, predicate):
    """For each process the marks of its events in a cut, each with the length of the longest chain of marks that ends with it."""
    rows = {p: marks(world, cut, predicate, p) for p in world.program}
    mark_of = {(p, n): mark for p, row in rows.items() for mark in row for n in range(mark[0], mark[1] + 1)}
    found = {}

    def depth(process, mark):
        if (process, mark) not in found:
            event, before = world.events[process][mark[0] - 1], []
            if mark[0] > 1:
                before.append((process, mark_of[process, mark[0] - 1]))
            if event.action == "recv":
                sender = world.sends(event.partner, process)[event.count - 1][1]
                before.append((event.partner, mark_of[event.partner, sender]))
            found[process, mark] = 1 + max((depth(*key) for key in before), default=0)
        return found[process, mark]

    return {p: [(mark, depth(p, mark)) for mark in row] for p, row in rows.items()}


def order(world, cut, predicate):
    """The processes in the order of the rows: those of the predicate, and then by the fewest messages to one of them."""
    sent = {p: {event.partner for event in world.events[p][:cut[p]] if event.action == "send"} for p in world.program}
    distances = {p: 0 for p in predicate}
    for distance in range(len(world.program)):
        near = {p for p, found in distances.items() if found == distance}
        for p in world.program:
            if p not in distances and sent[p] & near:
                distances[p] = distance + 1
    far = len(world.program) + 1

    def rank(process):
        distance = distances.get(process, far)
        return distance, -sum(distances.get(p) == distance - 1 for p in sent[process]), list(world.program).index(process)

    return [*predicate, *sorted((p for p in world.program if p not in predicate), key=rank)]


def is_shown(world, cut, predicate, process):
    """Whether a process has a row: it has a part, an event in the cut, or a message on its way to it."""
    return process in predicate or cut[process] > 0 or any(world.crossing(cut, source, process) for source in world.program)


def are_concurrent(world, cut, predicate):
    """Whether each part holds since the last event of its process in the cut, and none of these events is before another one."""
    last = {p: since(world, predicate, p, cut[p]) for p in predicate}
    if len(last) < 2 or any(n == 0 or n != cut[p] for p, n in last.items()):
        return False
    return not any(p != q and world.clock(q, last[q])[p] >= last[p] for p in last for q in last)
