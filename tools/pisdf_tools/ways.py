"""Shortest ways in small graphs that are given as the next names of each name."""


def reversed_steps(steps):
    """The names before each name."""
    before = {}
    for name, others in steps.items():
        for other in dict.fromkeys(others):
            before.setdefault(other, []).append(name)
    return before


def steps_towards(goals, before):
    """For each name from which a goal can be reached the next name on a shortest way. A goal has itself."""
    towards = {goal: goal for goal in goals}
    pending = list(goals)
    for name in pending:
        for other in before.get(name, ()):
            if other not in towards:
                towards[other] = name
                pending.append(other)
    return towards


def along(name, towards):
    """The names from this one to the goal."""
    found = [name]
    while towards[found[-1]] != found[-1]:
        found.append(towards[found[-1]])
    return found


def to_itself(start, steps):
    """The names of a shortest way from a name to itself, with the name at both ends, or None."""
    towards = steps_towards([start], reversed_steps(steps))
    first = [other for other in steps.get(start, ()) if other in towards]
    found = [[start] + along(other, towards) for other in first]
    return min(found, key=len, default=None)


def without_ends(steps):
    """The names from which one can go on without end: what is left when those without a next name are taken away again and again."""
    known = set(steps)
    left = {name: set(others) & known for name, others in steps.items()}
    counts = {name: len(others) for name, others in left.items()}
    before = reversed_steps(left)
    ready = [name for name, count in counts.items() if count == 0]
    for name in ready:
        for other in before.get(name, ()):
            counts[other] -= 1
            if counts[other] == 0:
                ready.append(other)
    return {name: others for name, others in left.items() if counts[name] > 0}


def in_rings(steps):
    """The names that lie in a ring, or between two rings."""
    onward = {name: list(others) for name, others in without_ends(steps).items()}
    return set(without_ends(back(onward)))


def back(steps):
    """The same steps the other way round."""
    before = reversed_steps(steps)
    return {name: before.get(name, []) for name in steps}
