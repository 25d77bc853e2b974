"""Rates that would fit: of an end whose rate is 0, and of interfaces that lose tokens or give them again."""
from dataclasses import replace

from .balance import solve, zero_links
from .expressions import names
from .limits import RATE
from .wording import listed, quoted


def fitting_rate(level, link):
    """The rate of the end with the rate 0 that fits the rest of the level, or None."""
    wrong = zero_links(level)
    counts = solve(replace(level, links=[other for other in level.links if other not in wrong])).counts
    if counts is None:
        return None
    zero, known, rate = (link.tail, link.head, link.consumption) if link.production == 0 else (link.head, link.tail, link.production)
    moved = rate * (counts[known] if known else 1)
    fits = counts[zero] if zero else 1
    return moved // fits if moved % fits == 0 and moved // fits <= RATE else None


def is_fixed(graph):
    """Whether all rates of a graph's interfaces and kernels are numbers."""
    ports = graph.inputs + graph.outputs + [port for actor in graph.actors if not actor.is_hierarchical for port in actor.ins + actor.outs]
    return not any(names(port.rate.tree) for port in ports if port.rate)


def moved_at(link, counts):
    """The name of the interface at a link, its rate, and how many tokens the firings move there; None where there is none."""
    if link.source and "." not in link.source and link.head and link.consumption:
        return link.source, link.production, counts[link.head] * link.consumption
    if link.sink and link.tail and link.production:
        return link.sink, link.consumption, counts[link.tail] * link.production
    return None


def fitting_interfaces(level, actor):
    """The fewest interfaces to change, with their new rates, so that those by an actor's component lose and repeat nothing. There may be two
    such changes."""
    found = solve(level)
    if not is_fixed(level.graph) or found.counts is None:
        return []
    component = next(component for component in found.components if actor in component)
    most = found.counts[actor] // found.base[actor]
    fits = []
    for factor in range(max(1, most - 1), most + 1):
        counts = {other: found.base[other] * factor for other in component}
        ends = [moved_at(link, counts) for link in level.links if (link.head or link.tail) in counts]
        fits.append({name: moved for name, rate, moved in filter(None, ends) if moved != rate})
    least = min(map(len, fits))
    return [fit for fit in fits if len(fit) == least and all(rate <= RATE for rate in fit.values())]


def fitting_words(level, actor):
    """The rates of interfaces with which nothing is lost or read again."""
    fits = [listed([f"the rate {rate} of {quoted(name)}" for name, rate in fit.items()]) for fit in fitting_interfaces(level, actor)]
    return f"With {', or with '.join(fits)}{',' * (len(fits) > 1)} nothing is read again or lost." if fits else ""
