"""Plain searches for the repetition vector of a level, for a deadlock, and for what one thread feeds to each firing."""
from itertools import product

BASE_ENTRY = 1024
MOST_STATES = 4000


def joining(level):
    """The links between two actors that connect them."""
    return [link for link in level.links if link.is_inner and link.production and link.consumption]


def parts(level):
    """The connected parts of a level."""
    left, found = list(level.actors), []
    while left:
        part = {left[0]}
        for _ in level.actors:
            for link in joining(level):
                if link.tail in part or link.head in part:
                    part |= {link.tail, link.head}
        found.append([actor for actor in level.actors if actor in part])
        left = [actor for actor in left if actor not in part]
    return found


def counts_from(part, links, first):
    """The counts with which each link is given what is taken from it, where the first actor of a part fires so often. None where there
    are none in whole numbers up to 1,024."""
    counts = {part[0]: first}
    for _ in part:
        for link in links:
            for one, other, put, taken in ((link.tail, link.head, link.production, link.consumption),
                                           (link.head, link.tail, link.consumption, link.production)):
                if one in counts and other not in counts:
                    counts[other], rest = divmod(counts[one] * put, taken)
                    if rest or counts[other] > BASE_ENTRY:
                        return None
    same = all(counts[link.tail] * link.production == counts[link.head] * link.consumption for link in links)
    return counts if same else None


def base_of(level, part):
    """The least solution of a part's balance equations, looked for from 1 on, or None."""
    links = [link for link in joining(level) if link.tail in part]
    tried = (counts_from(part, links, first) for first in range(1, BASE_ENTRY + 1))
    return next((counts for counts in tried if counts), None)


def is_served(level, counts):
    """Whether the interfaces at these actors are read and written whole, where both of a link's rates are positive."""
    for link in level.links:
        moved = counts[link.head] * link.consumption if link.head in counts else 0
        if link.source and link.head in counts and link.consumption and moved < link.production:
            return False
        moved = counts[link.tail] * link.production if link.tail in counts else 0
        if link.sink and link.tail in counts and link.production and moved < link.consumption:
            return False
    return True


def repetition(level):
    """The repetition vector by its definition, with the factor of each part looked for from 1 on. None where there is none."""
    if any((link.production == 0) != (link.consumption == 0) for link in level.links):
        return None
    counts = {}
    for part in parts(level):
        base = base_of(level, part)
        if base is None:
            return None
        times = 1
        while not is_served(level, {actor: times * entry for actor, entry in base.items()}):
            times += 1
        counts.update((actor, times * entry) for actor, entry in base.items())
    return counts


def is_least(level, counts):
    """Whether no lesser numbers of firings solve the balance equations of the level without interfaces: all are tried. None where they are
    too many, or where interfaces ask for more."""
    tried = 1
    for count in counts.values():
        tried *= count
    if tried > MOST_STATES or any(not link.is_inner for link in level.links):
        return None
    solving = [vector for vector in product(*(range(1, count + 1) for count in counts.values()))
               if all(link_is_balanced(link, dict(zip(counts, vector))) for link in level.links if link.is_inner)]
    return solving == [tuple(counts.values())]


def link_is_balanced(link, counts):
    return counts[link.tail] * link.production == counts[link.head] * link.consumption


# ---- deadlock


def can_fire(links, fired, actor):
    """Whether each link to the actor has the tokens for one firing more, after so many firings of each."""
    return all(link.delay + fired[link.tail] * link.production >= (fired[actor] + 1) * link.consumption for link in links if link.head == actor)


def has_schedule(level, counts):
    """Whether some list of firings is admissible: each number of firings of each actor that a list leads to is looked at. None where they
    are too many."""
    states = 1
    for count in counts.values():
        states *= count + 1
    if states > MOST_STATES:
        return None
    links = [link for link in level.links if link.is_inner]
    actors, wanted = list(counts), tuple(counts.values())
    begun = tuple(0 for _ in actors)
    reached, waiting = {begun}, [begun]
    while waiting:
        state = waiting.pop()
        fired = dict(zip(actors, state))
        for place, actor in enumerate(actors):
            after = state[:place] + (state[place] + 1,) + state[place + 1:]
            if state[place] < wanted[place] and after not in reached and can_fire(links, fired, actor):
                reached.add(after)
                waiting.append(after)
    return wanted in reached


# ---- what one thread feeds


class Queues:
    """One thread over queues without a bound, on names of tokens: ("source", name, place), ("init", link, place) or ("firing", actor, turn,
    link, place). `fed` has what each firing takes from each link, `kept` what the sinks keep, `left` what is left of the links."""

    def __init__(self, level, order):
        self.level, self.turns, self.fed = level, dict.fromkeys(level.actors, 0), {}
        self.queues = [[("init", number, k) for k in range(link.delay)] for number, link in enumerate(level.links)]
        self.read = [0] * len(level.links)
        for actor in order:
            self.fire(actor)
        self.left = {number: self.queues[number] for number, link in enumerate(level.links) if link.is_inner}
        self.kept = {link.sink: self.queues[number][len(self.queues[number]) - link.consumption:]
                     for number, link in enumerate(level.links) if link.sink}

    def take(self, number, link):
        if link.source is None:
            taken, self.queues[number] = self.queues[number][:link.consumption], self.queues[number][link.consumption:]
            return taken
        start, self.read[number] = self.read[number], self.read[number] + link.consumption
        return [("source", link.source, place % link.production) for place in range(start, start + link.consumption)]

    def fire(self, actor):
        turn = self.turns[actor]
        self.turns[actor] += 1
        for number, link in enumerate(self.level.links):
            if link.head == actor:
                self.fed[actor, turn, number] = self.take(number, link)
        for number, link in enumerate(self.level.links):
            if link.tail == actor:
                self.queues[number] += [("firing", actor, turn, number, k) for k in range(link.production)]
