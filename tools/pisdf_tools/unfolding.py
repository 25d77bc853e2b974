"""Whether so many iterations of a graph can be fired as one, and the graph file in which they are one (docs/MEANING.md has the rule)."""
from dataclasses import dataclass

from . import balance
from .firing import Runner
from .fitting import fitting_words
from .levels import Refused
from .limits import RATE, UNFOLD_TIMES
from .wording import counted, grouped, joined, named, quoted

SECONDS = 2


@dataclass
class Unfolding:
    """How many iterations can be fired as one, and why no more, as a sentence. With 1 there are none, and the sentence says why."""
    most: int
    why: str

    def why_not(self, times):
        """Why so many can't be fired as one, or an empty text."""
        return "" if times <= self.most else self.why


@dataclass
class Meeting:
    """An interface of positive rate, and the tokens that all firings of the actor at it move there in an iteration, with its port's rate."""
    name: str
    rate: int
    actor: str
    count: int
    each: int
    is_input: bool

    @property
    def moved(self):
        return self.count * self.each

    def words(self):
        return (f"The {'input' if self.is_input else 'output'} {quoted(self.name)} has the rate {self.rate}, and {quoted(self.actor)} "
                f"{'reads' if self.is_input else 'gives'} {self.count} x {self.each} = {self.moved} in an iteration.")


def unfolding_of(file):
    """What can be told of the graphs of a file without a fault."""
    why = state_trouble(file.top_graph)
    if why:
        return Unfolding(1, why)
    try:
        early, level, counts = first_level(file)
    except Refused as refused:
        return Unfolding(1, f"The graph is refused as {quoted(refused.cause)}.")
    meetings = list(meetings_of(level, counts))
    why = component_trouble(level, meetings) or moving_trouble(level, meetings)
    if why:
        return Unfolding(1, why)
    for times in range(2, UNFOLD_TIMES + 1):
        why = limit_trouble(early, level, counts, times)
        if why:
            return Unfolding(times - 1, why)
    return Unfolding(UNFOLD_TIMES, f"The command takes at most {UNFOLD_TIMES}.")


def state_trouble(graph):
    """What in the top graph stands against it, whatever the rates are."""
    configs = [actor.name.text for actor in graph.actors if actor.is_config]
    if configs:
        which = "The configuration actor" if len(configs) == 1 else "The configuration actors"
        return f"{which} {named(configs)} of the top graph {'has' if len(configs) == 1 else 'have'} to fire once in each iteration."
    for number, fifo in enumerate(graph.fifos):
        if fifo.delay_length and fifo.life == "firing":
            return (f"The delay of FIFO {number} ({quoted(fifo.tail.text)} to {quoted(fifo.head.text)}) of the top graph begins anew in each iteration. "
                    "With `\"life\":\"permanent\"` it goes on.")
    return ""


def first_level(file):
    """The early values, the level and the counts of the top graph, which has no configuration actor. Raises Refused."""
    runner, graph = Runner(file, SECONDS), file.top_graph
    early = runner.top_early()
    level, counts, _ = runner.scheduled(graph, graph.name.text, early, {})
    return early, level, counts


def meetings_of(level, counts):
    for link in level.links:
        if link.source is not None and link.head and link.production:
            yield Meeting(link.source, link.production, link.head, counts[link.head], link.consumption, True)
        if link.sink is not None and link.tail and link.consumption:
            yield Meeting(link.sink, link.consumption, link.tail, counts[link.tail], link.production, False)


def component_trouble(level, meetings):
    """Which actors hang at no interface: nothing says how often they fire in several iterations."""
    joined_actors = {meeting.actor for meeting in meetings}
    for component in balance.solve(level).components:
        if not joined_actors & set(component):
            if len(component) == 1:
                return f"The actor {quoted(component[0])} is joined to no interface whose rate is over 0."
            return f"The actors {named(component)} are joined to no interface whose rate is over 0."
    return ""


def moving_trouble(level, meetings):
    """At which interface the firings move other than the tokens of one iteration."""
    meeting = next((meeting for meeting in meetings if meeting.moved != meeting.rate), None)
    return joined([meeting.words(), fitting_words(level, meeting.actor)]) if meeting else ""


def limit_trouble(early, level, counts, times):
    """Which limit so many iterations as one would pass."""
    for name, rate in {**early.inputs, **early.outputs}.items():
        if times * rate > RATE:
            return f"The interface {quoted(name)} would have the rate {grouped(times * rate)}, and a rate is at most {grouped(RATE)}."
    passed = balance.over_limit(level, {actor: times * count for actor, count in counts.items()})
    if not passed:
        return ""
    word, count, limit = passed
    return f"{counted(times, 'iteration')} as one have {grouped(count)} {word}, and at most {grouped(limit)} are allowed (`limit {word}`)."


def group_words(file, times, iterations):
    """Which iterations of a run are fired as one, and why the others aren't."""
    if times == 1:
        return "TIMES is 1, so the iterations are made one by one, as by `run`."
    found = unfolding_of(file)
    if times > found.most:
        fewer = f" Up to {found.most} can." if found.most > 1 else ""
        return f"The iterations are made one by one, since {times} of them can't be fired as one. {found.why}{fewer}"
    groups, rest = divmod(iterations, times)
    if not groups:
        return f"A group has {counted(times, 'iteration')}, and {iterations} {'was' if iterations == 1 else 'were'} asked for. So they are made one by one."
    after = f", and {counted(rest, 'iteration')} behind {'it' if groups == 1 else 'them'} one by one" if rest else ""
    return f"{counted(groups, 'group')} of {times} iterations {'is' if groups == 1 else 'are'} fired as one{after}."


# ---- the file in which they are one


def unfolded_text(file, times):
    """The text of a file, whose iterations can be fired as one, with so many times the rates of the top graph's interfaces, and all else
    as it stands."""
    graph = file.top_graph
    early = Runner(file, SECONDS).top_early()
    rates = [(port.rate.value, {**early.inputs, **early.outputs}[port.name.text]) for port in graph.inputs + graph.outputs]
    parts, at, text = [], 0, file.source.text
    for value, rate in sorted(rates, key=lambda pair: pair[0].start):
        parts.append(f'{text[at:value.start]}"{times * rate}"')
        at = value.end
    return "".join(parts) + text[at:]
