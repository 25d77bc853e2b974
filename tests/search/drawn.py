"""Draws levels, the same in each run: what is drawn depends on the number that it is drawn from alone."""
import itertools
import random
from math import gcd

from levels import Made


def names(count):
    return [f"a{k}" for k in range(count)]


def shuffled(draw, made):
    made.mixed = list(range(len(made.inner) + len(made.sources) + len(made.sinks)))
    draw.shuffle(made.mixed)
    return made


# ---- small levels, whose rates needn't fit


def single_links():
    """All levels of one link between two actors, or of one actor to itself, with rates up to 4 and delays up to 2."""
    for tail, head in [(0, 0), (0, 1), (1, 0)]:
        for p, c, delay in itertools.product(range(5), range(5), range(3)):
            yield Made(names(1 + max(tail, head)), [(f"a{tail}", p, f"a{head}", c, delay)])


def small(seed):
    """Up to three actors and three links, with rates up to 3 and delays up to 2."""
    draw = random.Random(seed)
    actors = names(draw.randint(1, 3))
    return Made(actors, [(draw.choice(actors), draw.choice([1, 1, 2, 3, draw.randint(0, 3)]), draw.choice(actors),
                          draw.choice([1, 1, 2, 3, draw.randint(0, 3)]), draw.randint(0, 2)) for _ in range(draw.randint(0, 3))])


def row(seed):
    """Two actors in a row between a source and a sink, with rates up to 4."""
    draw = random.Random(seed)
    rates = [draw.choice([1, 2, 3, 4, draw.randint(0, 4)]) for _ in range(6)]
    return Made(names(2), [("a0", rates[2], "a1", rates[3], 0)], [(rates[0], "a0", rates[1])], [("a1", rates[4], rates[5])])


# ---- graphs without a cycle


def acyclic():
    """All graphs of up to four firings and four edges, with edges of 1 to 3 tokens that are drawn. An actor fires once."""
    for count in range(1, 5):
        pairs = list(itertools.combinations(range(count), 2))
        for edges in range(5 if pairs else 1):
            for chosen in itertools.combinations_with_replacement(pairs, edges):
                draw = random.Random(f"{count} {chosen}")
                sizes = [draw.randint(1, 3) for _ in chosen]
                yield shuffled(draw, Made(names(count), [(f"a{tail}", size, f"a{head}", size, 0) for (tail, head), size in zip(chosen, sizes)]))


def wide(seed):
    """A graph of 5 to 30 firings, each of an actor of its own, with up to four times as many edges of up to 1, 4 or 20 tokens. The order
    of the actors in the file isn't that of the edges."""
    draw = random.Random(seed)
    actors, most = names(draw.randint(5, 30)), draw.choice([1, 4, 20])
    ranks = {actor: draw.random() for actor in actors}
    inner = []
    for _ in range(min(128, draw.randint(0, 4 * len(actors)))):
        tail, head = sorted(draw.sample(actors, 2), key=ranks.get)
        size = draw.randint(1, most)
        inner.append((tail, size, head, size, 0))
    return shuffled(draw, Made(actors, inner))


# ---- levels of all kinds


def rates_between(draw, tail_count, head_count, most):
    """Rates with which both sides move as many tokens. A few times they don't, or are both 0."""
    common = gcd(tail_count, head_count)
    times = draw.randint(1, most)
    p, c = head_count // common * times, tail_count // common * times
    chance = draw.random()
    return (0, 0) if chance < 0.03 else (p + 1, c) if chance < 0.04 else (0, c) if chance < 0.045 else (p, c)


def drawn_link(draw, counts, most):
    tail, head = draw.choice(list(counts)), draw.choice(list(counts))
    p, c = rates_between(draw, counts[tail], counts[head], most)
    backward = int(tail[1:]) >= int(head[1:])
    enough = c * draw.randint(1, counts[head])
    delay = draw.choice([enough, enough, p * counts[tail], draw.randint(0, 3)]) if backward else draw.choice([0, 0, 0, draw.randint(1, 7)])
    return tail, p, head, c, delay


def outer_rate(draw, moved, rate):
    """The rate of an interface at which an actor moves so many tokens: often just as many, or such as need a factor."""
    if rate == 0:
        return 0
    return draw.choice([moved, moved, draw.randint(1, moved), draw.randint(1, 3 * moved)])


def mixed(seed):
    """Up to eight actors with links of all kinds: with delays, to themselves, from sources and to sinks, with children that keep tokens,
    with outputs of configuration actors and parameters that these set."""
    draw = random.Random(seed)
    counts = {actor: draw.choice([1, 1, 2, 3, 4, 6]) for actor in names(draw.randint(1, 8))}
    most = draw.choice([1, 2, 5])
    made = Made(list(counts), [drawn_link(draw, counts, most) for _ in range(draw.randint(0, 2 * len(counts)))])
    for actor in draw.choices(list(counts), k=draw.randint(0, 3)):
        rate = draw.randint(0 if draw.random() < 0.1 else 1, most)
        made.sources.append((outer_rate(draw, counts[actor] * rate, rate), actor, rate))
    for actor in draw.choices(list(counts), k=draw.randint(0, 3)):
        rate = draw.randint(0 if draw.random() < 0.1 else 1, most)
        made.sinks.append((actor, rate, outer_rate(draw, counts[actor] * rate, rate)))
    made.kept = {actor: draw.randint(1, 4) for actor in counts if draw.random() < 0.1}
    made.configured = [k for k, (rate, _, _) in enumerate(made.sources) if rate and draw.random() < 0.2]
    made.told = draw.choice([None, None, 1, 2])
    return shuffled(draw, made)


# ---- levels at limits and over them


def chain(count, more=()):
    """Two actors in a row that fire so often, between a source and a sink, and more links."""
    return Made(names(2), [("a0", 1, "a1", 1, 0), *more], [(count, "a0", 1)], [("a1", 1, count)])


def at_limits():
    """What is at a limit or over it, and the level: entries of the base vector, firings, links and tokens. Levels of very many firings can
    fire none, so that they are refused for that where a limit doesn't refuse them before."""
    ring, none = ("a1", 1, "a0", 1, 0), ("a0", 0, "a1", 0, 0)
    yield "no actor", Made([])
    yield "an entry of 1024", Made(names(2), [("a0", 1024, "a1", 1, 0)])
    yield "an entry of 1025", Made(names(2), [("a0", 1025, "a1", 1, 0)])
    yield "an entry of 1025 over two links", Made(names(3), [("a0", 41, "a1", 1, 0), ("a1", 25, "a2", 1, 0)])
    yield "rates over 1024 with lesser entries", Made(names(3), [("a0", 82, "a1", 2, 0), ("a1", 2050, "a2", 4100, 0)])
    yield "2048 firings", chain(1024, [ring])
    yield "2049 firings", Made(names(3), [("a0", 1, "a1", 1, 0), ring, ("a1", 1, "a2", 1024, 0)], [(1024, "a0", 1)])
    yield "8192 links", chain(177, [ring] + [none] * 20)
    yield "8196 links", Made(names(3), [*chain(177).inner, ring, *[none] * 20, ("a2", 0, "a2", 0, 0)], [(177, "a0", 1)], [("a1", 1, 177)])
    full = [("a0", 262144, "a1", 262144, 0)]
    yield "1048576 tokens", Made(names(2), full * 4)
    yield "1048577 tokens", Made(names(2), full * 4 + [("a0", 0, "a1", 0, 1)])
    yield "1048576 tokens with a delay", Made(names(2), full * 3 + [("a0", 196608, "a1", 196608, 65536)])
