"""Expressions that say that so many of their members hold, as docs/notation.md writes out the forms `all`, `some` and `at_least`."""
from harness.language import conjuncts, faults, parts

FEWEST = 3  # members joined by `or` that are shown as a count


def joined(operator, members):
    """Members that are joined by an operator: the first half, rounded up, and the rest."""
    if len(members) == 1:
        return members[0]
    half = (len(members) + 1) // 2
    return (operator, joined(operator, members[:half]), joined(operator, members[half:]))


def at_least(least, members):
    """The form `at_least` of these members, for 1 up to their number."""
    if least == len(members):
        return joined("and", members)
    if least == 1:
        return joined("or", members)
    return ("or", ("and", members[0], at_least(least - 1, members[1:])), at_least(least, members[1:]))


def alternatives(expression):
    """The members that are joined by `or`."""
    if isinstance(expression, tuple) and expression[0] == "or":
        return alternatives(expression[1]) + alternatives(expression[2])
    return [expression]


def are_alike(first, other):
    """Whether two expressions differ in names and numbers alone."""
    if isinstance(first, bool) or isinstance(other, bool):
        return first is other
    if isinstance(first, int) or isinstance(other, int):
        return isinstance(first, int) and isinstance(other, int)
    if first[0] != other[0] or len(first) != len(other):
        return False
    return not parts(first) or all(map(are_alike, parts(first), parts(other)))


def chosen_members(expression):
    """The first members of a form `at_least`, and the rest of the expression."""
    members = []
    while isinstance(expression, tuple) and expression[0] == "or" and isinstance(expression[1], tuple) and expression[1][0] == "and":
        members.append(expression[1][1])
        expression = expression[2]
    return members, expression


def last_members(expression, count):
    """So many members that are joined by `and`, or None."""
    if count == 1:
        return [expression]
    if not isinstance(expression, tuple) or expression[0] != "and":
        return None
    first, rest = last_members(expression[1], (count + 1) // 2), last_members(expression[2], count // 2)
    return first + rest if first and rest else None


def counted_members(expression, state):
    """How many members of an expression have to hold, and the members, if it says that of several of which none faults. Otherwise it is the only
    member."""
    first, rest = chosen_members(expression)
    found = None
    for least in range(2, 65) if first else []:
        last = last_members(rest, least)
        if last and at_least(least, first + last) == expression:
            found = least, first + last
            break
    members = alternatives(expression)
    if not first and len(members) >= FEWEST and all(are_alike(members[0], member) for member in members):
        found = 1, members
    if found and not any(faults(member, state) for member in found[1]):
        return found
    return 1, [expression]


def counted_parts(expression, state):
    """The parts of a conjunction, each as counted members."""
    return [counted_members(part, state) for part in conjuncts(expression)]
