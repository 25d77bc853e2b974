"""The balance equations of a level: the repetition vector, and why there is none; limits; and the order of firings."""
from dataclasses import dataclass
from fractions import Fraction
from math import gcd, lcm

from .limits import BASE_ENTRY, FIRINGS, LINKS, TOKENS


@dataclass
class Conflict:
    """A link whose equation can't hold. `kind` is `zero` or `ratio`, `wanted` how often the head fires for a firing of the tail by
    this link, `forced` by the others, over the links `way`."""
    kind: str
    link: object
    wanted: Fraction | None = None
    forced: Fraction | None = None
    way: tuple = ()


@dataclass
class Balance:
    """What the balance equations of a level say. `counts` is the repetition vector by actor, None where there is none."""
    counts: dict | None
    base: dict
    conflicts: list
    large: list
    components: list


def zero_links(level):
    """Links of which exactly one rate is 0."""
    return [link for link in level.links if (link.production == 0) != (link.consumption == 0)]


def spread(level):
    """Relative counts by actor, walking the links, with the link by which each was reached; components; conflicts."""
    ratios, came_by, components = {}, {}, []
    inner = [link for link in level.links if link.is_inner and link.production and link.consumption]
    at = {}
    for link in inner:
        at.setdefault(link.tail, []).append(link)
        at.setdefault(link.head, []).append(link)
    for start in level.actors:
        if start in ratios:
            continue
        ratios[start], came_by[start], component = Fraction(1), None, [start]
        for actor in component:
            for link in at.get(actor, ()):
                other = link.head if link.tail == actor else link.tail
                if other not in ratios:
                    factor = Fraction(link.production, link.consumption)
                    ratios[other] = ratios[actor] * (factor if link.tail == actor else 1 / factor)
                    came_by[other] = (actor, link)
                    component.append(other)
        components.append(component)
    wrong = [link for link in inner if ratios[link.tail] * link.production != ratios[link.head] * link.consumption]
    return ratios, came_by, components, wrong


def solve(level):
    """The repetition vector of a level, or the equations that can't hold."""
    zeros = [Conflict("zero", link) for link in zero_links(level)]
    ratios, came_by, components, wrong = spread(level)
    conflicts = zeros + [Conflict("ratio", link, Fraction(link.production, link.consumption), ratios[link.head] / ratios[link.tail],
                                  tuple(tree_way(link.tail, link.head, came_by))) for link in wrong]
    base, large = {}, []
    for component in components:
        scale = lcm(*(ratios[actor].denominator for actor in component))
        counts = {actor: int(ratios[actor] * scale) for actor in component}
        least = gcd(*counts.values())
        base.update({actor: count // least for actor, count in counts.items()})
        large += [actor for actor in component if base[actor] > BASE_ENTRY]
    if conflicts or large:
        return Balance(None, base, conflicts, large, components)
    counts = {}
    for component in components:
        factor = least_factor(level, component, base)
        counts.update({actor: factor * base[actor] for actor in component})
    return Balance(counts, base, [], [], components)


def tree_way(one, other, came_by):
    """The links over which the walk leads from one actor to another."""
    def chain(actor):
        steps = [(actor, None)]
        while came_by[steps[-1][0]] is not None:
            above, link = came_by[steps[-1][0]]
            steps.append((above, link))
        return steps
    left, right = chain(one), chain(other)
    places = {actor: place for place, (actor, _) in enumerate(right)}
    meet = next(place for place, (actor, _) in enumerate(left) if actor in places)
    up = [link for _, link in left[1:meet + 1]]
    down = [link for _, link in right[1:places[left[meet][0]] + 1]]
    return up + down[::-1]


def least_factor(level, component, base):
    """The least factor with which a component reads and writes all that its interfaces hold."""
    inside, factor = set(component), 1
    for link in level.links:
        if link.source is not None and link.head in inside and link.consumption:
            factor = max(factor, -(-link.production // (base[link.head] * link.consumption)))
        if link.sink is not None and link.tail in inside and link.production:
            factor = max(factor, -(-link.consumption // (base[link.tail] * link.production)))
    return factor


def link_count(link, counts):
    """How much a link counts towards the limit of links."""
    return (counts[link.tail] if link.tail else 1) + (counts[link.head] if link.head else 1) + 2


def token_count(link, counts):
    """How much a link counts towards the limit of tokens."""
    moved = counts[link.tail] * link.production if link.tail else counts[link.head] * link.consumption if link.head else link.production
    return moved + link.delay


def over_limit(level, counts):
    """The first limit that is passed: its word, the count and the limit. None where none is."""
    sums = (("firings", sum(counts.values()), FIRINGS),
            ("links", sum(link_count(link, counts) for link in level.links), LINKS),
            ("tokens", sum(token_count(link, counts) for link in level.links), TOKENS))
    return next((found for found in sums if found[1] > found[2]), None)


@dataclass
class Stuck:
    """A level in which no firing is possible any more: the counts left, the tokens on each link, and the firings done."""
    left: dict
    on_link: dict
    done: dict


def order_of(level, counts, more=None):
    """The firings of a level in the order of one thread, or Stuck. `more` has tokens added to the delays of links, by place."""
    inner = [(place, link) for place, link in enumerate(level.links) if link.is_inner]
    on_link = {place: link.delay + (more or {}).get(place, 0) for place, link in inner}
    ins, outs = {}, {}
    for place, link in inner:
        ins.setdefault(link.head, []).append((place, link))
        outs.setdefault(link.tail, []).append((place, link))
    left, order = dict(counts), []
    while any(left.values()):
        ready = next((actor for actor in level.actors if left[actor]
                      and all(on_link[place] >= link.consumption for place, link in ins.get(actor, ()))), None)
        if ready is None:
            return Stuck({actor: count for actor, count in left.items() if count}, on_link, {a: counts[a] - left[a] for a in counts})
        for place, link in ins.get(ready, ()):
            on_link[place] -= link.consumption
        for place, link in outs.get(ready, ()):
            on_link[place] += link.production
        left[ready] -= 1
        order.append(ready)
    return order
