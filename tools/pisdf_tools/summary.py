"""What can be told of a graph file without a fault and without tokens: interfaces, parameters, repetition vectors, hierarchy."""
from math import prod

from .exploring import MOST_CHOICES, choices
from .expressions import NoValue, bounds, evaluate, names
from .limits import PARAMETER_HIGH, UNFOLD_TIMES
from .rate_params import with_sources
from .run_refusals import RunRefusals
from .unfolding import unfolding_of
from .wording import counted, listed, quoted, with_names


def range_words(low, high):
    return str(low) if low == high else f"{low} to {high}"


# The bounds of an expression that has no value.
NONE = (1, 0)


class Ranges:
    """The bounds of the parameters of each graph, as far as they follow from the file."""

    def __init__(self, file):
        self.file, self.found = file, {}

    def of(self, graph):
        """The bounds of a graph's parameters by name."""
        if graph.pointer not in self.found:
            # They are kept at once, since those of the derived parameters are found by them.
            ranges = self.found[graph.pointer] = {param.name.text: self.given(graph, param) for param in graph.params if param.kind != "is"}
            for _ in graph.params:
                for param in (param for param in graph.of_kind("is") if param.name.text not in ranges):
                    if not all(name in ranges for name in self.names(param)):
                        continue
                    low, high = self.exact(param.expression.tree, graph) or bounds(param.expression.tree, ranges) or (param.low, param.high)
                    ranges[param.name.text] = (max(low, param.low), min(high, param.high))
        return self.found[graph.pointer]

    def given(self, graph, param):
        """The bounds of a parameter that is given from outside: those that it states, within those of the arguments where it is inherited."""
        spans = []
        for other in self.file.graphs if param.kind == "in" else ():
            for actor in other.actors:
                if actor.is_hierarchical and actor.child.text == graph.name.text:
                    argument = self.argument(graph, param, actor)
                    spans.append(self.exact(argument.tree, other) or bounds(argument.tree, self.of(other)))
        if not spans or None in spans:
            return param.low, param.high
        return max(param.low, min(low for low, _ in spans)), min(param.high, max(high for _, high in spans))

    def argument(self, graph, param, actor):
        """What an actor gives to an inherited parameter of its graph."""
        return actor.args[[other.name.text for other in graph.of_kind("in")].index(param.name.text)]

    def exact(self, tree, graph):
        """The least and the greatest value of an expression by all values of the parameters in it, or None where these are many. The least
        is the greater one where there is no value."""
        found = [name.name for name in names(tree)]
        sources = [graph.param(name) for name in sorted(with_sources(graph, found)) if graph.param(name).kind != "is"]
        spans = {param.name.text: self.span(graph, param) for param in sources}
        if prod(map(len, spans.values())) > MOST_CHOICES:
            return None
        values = [self.value(tree, graph, chosen) for chosen in choices(sources, {}, spans)[0]]
        known = [value for value in values if value is not None]
        return (min(known), max(known)) if known else NONE

    def span(self, graph, param):
        """The values of a parameter that is given from outside, as far as they are known. Where none is left, those that it states."""
        low, high = self.of(graph)[param.name.text]
        return range(low, high + 1) or range(param.low, param.high + 1)

    def value(self, tree, graph, chosen):
        """The value of an expression by `chosen`, which has those of the parameters that it comes from, and gets those of derived ones.
        None where it has none."""
        for name in names(tree):
            param = graph.param(name.name)
            if name.name not in chosen:
                value = self.value(param.expression.tree, graph, chosen)
                chosen[name.name] = value if value is not None and param.low <= value <= param.high else None
            if chosen[name.name] is None:
                return None
        try:
            return evaluate(tree, chosen)
        except NoValue:
            return None

    def names(self, param):
        return [name.name for name in names(param.expression.tree)]

    def rate_words(self, rate, graph):
        """A rate as it is written, with its bounds where it names parameters."""
        span = self.exact(rate.tree, graph) or bounds(rate.tree, self.of(graph))
        if span is None or span == NONE or rate.text.strip() == str(span[0]):
            return rate.text
        return f"{rate.text} = {span[0]}" if span[0] == span[1] else f"{rate.text} = {span[0]} to {span[1]}"


MOST_LINES = 12
KIND_WORDS = {"in": "from an argument", "set": "set by a configuration actor"}


class Summary:
    """Writes what is known of a file, graph by graph from the top on."""

    def __init__(self, reading, explorer):
        self.reading, self.file, self.ranges, self.explorer = reading, reading.file, Ranges(reading.file), explorer

    def lines(self):
        for graph, depth in self.file.hierarchy():
            yield from self.graph_lines(graph, depth)
        unused = [graph.name.text for graph in self.file.unused()]
        if unused:
            verb = "it is" if len(unused) == 1 else "they are"
            yield f"No actor names {with_names('graph', unused)}, so {verb} never fired."

    def graph_lines(self, graph, depth):
        namers = {other.name.text: [actor.name.text for actor in other.actors if actor.is_hierarchical and actor.child.text == graph.name.text]
                  for other in self.file.graphs}
        users = [f"{quoted(name)} by its {with_names('actor', found).removeprefix('the ')}" for name, found in namers.items() if found]
        yield f"graph {graph.name.text}: depth {depth}, " + (f"fired in {listed(users)}" if users else "the top graph, fired once in each iteration")
        for what, ports in (("input", graph.inputs), ("output", graph.outputs)):
            for port in ports:
                yield f"  {what} {port.name.text}: rate {self.ranges.rate_words(port.rate, graph)}"
        for param in graph.params:
            low, high = self.ranges.of(graph).get(param.name.text, (param.low, param.high))
            source = f"= {param.expression.text}" if param.kind == "is" else KIND_WORDS[param.kind]
            bound = "no value in its range" if low > high else "any value from 0 on" if (low, high) == (0, PARAMETER_HIGH) else range_words(low, high)
            yield f"  parameter {param.name.text}: {source}, {bound}"
        if graph.exports:
            yield f"  exports {listed([word.text for word in graph.exports])}"
        yield from self.actor_lines(graph)
        yield from self.repetition_lines(graph)
        if graph is self.file.top_graph:
            yield from self.unfolding_lines(graph)

    def actor_lines(self, graph):
        kinds = [f"{counted(len(found), what)}" for what, found in (
            ("kernel actor", [a for a in graph.actors if a.kind == "kernel"]), ("configuration actor", [a for a in graph.actors if a.kind == "config"]),
            ("hierarchical actor", [a for a in graph.actors if a.kind == "graph"]),
            ("hierarchical configuration actor", [a for a in graph.actors if a.kind == "setgraph"])) if found]
        kept = self.file.kept_by(graph)
        yield f"  {listed(kinds) or 'no actors'}, {counted(len(graph.fifos), 'FIFO')}" + (f", keeps {counted(kept, 'token')} from firing to firing" if kept else "")

    def unfolding_lines(self, graph):
        """How many iterations can be fired as one. Nothing is said of a graph that is refused."""
        if any(outcome.refused for outcome in self.explorer.outcomes.get(graph.name.text, ())):
            return
        found = unfolding_of(self.file)
        if found.most == UNFOLD_TIMES:
            yield f"  unfold: up to {UNFOLD_TIMES} iterations can be fired as one"
        elif found.most > 1:
            yield f"  unfold: up to {found.most} iterations can be fired as one. {found.why}"
        else:
            yield f"  unfold: no two iterations can be fired as one. {found.why}"

    # ---- repetition vectors

    def repetition_lines(self, graph):
        """The repetition vector, for each choice of values where these are few."""
        outcomes = self.explorer.outcomes.get(graph.name.text)
        if not outcomes:
            yield "  repetition: it wasn't looked at, since what stands above it is refused or took too long"
            return
        told = {}
        for outcome in outcomes:
            told.setdefault(self.outcome_words(outcome), []).append(outcome.values)
        for words, found in list(told.items())[:MOST_LINES]:
            yield f"  {words}{self.where_words(graph, found, len(outcomes), len(told))}"
        if len(told) > MOST_LINES:
            yield f"  {len(told) - MOST_LINES} more cases aren't shown"
        if graph.name.text in self.explorer.unknown:
            yield f"  {self.untried_words(graph)}"

    def untried_words(self, graph):
        """How many values were tried where not all were."""
        tried, every = self.explorer.unknown[graph.name.text]
        chosen = [f"{param.name.text} ({range_words(param.low, param.high)})" for param in graph.of_kind("set")
                  if param.name.text in self.explorer.rate_params.of(graph)]
        if not chosen or tried == every:
            return "these are only some of the values that the parameters may have"
        what = "values" if len(chosen) == 1 else "choices of values"
        return f"of {listed(chosen)} {tried} {what} were tried; the others weren't"

    def where_words(self, graph, found, all_count, told_count):
        """For which values something holds. Nothing is said where it holds for all."""
        names = [name for name in found[0] if graph.param(name).kind != "is"]
        if not names or (told_count == 1 and graph.of_kind("set")):
            return ""
        if len(names) == 1 and len(found) > 2:
            numbers = sorted({values[names[0]] for values in found})
            if len(numbers) == numbers[-1] - numbers[0] + 1:
                return f" where {names[0]} = {numbers[0]} to {numbers[-1]}"
        shown = [" and ".join(f"{name} = {values[name]}" for name in names if name in values) for values in found]
        shown = [words for words in dict.fromkeys(shown) if words]
        if not shown:
            return ""
        return f" where {listed(shown, 'or')}" if len(shown) <= 8 else f" in {len(found)} of {all_count} cases, as where {shown[0]}"

    def outcome_words(self, outcome):
        """The repetition vector with some values, or why there is none, as a line."""
        if outcome.refused:
            return f"each firing is refused: {listed([refused.cause for refused in outcome.refusals])}"
        vector = ", ".join(f"{actor} {count}" for actor, count in self.in_order(outcome))
        vector = vector or f"no actors{' but configuration actors' * bool(outcome.level.graph.actors)}"
        return f"repetition: {vector}{self.losses(outcome.level, outcome.counts)}"

    def in_order(self, outcome):
        """The actors in the order of the file, with how often they fire."""
        return [(actor, outcome.counts[actor]) for actor in outcome.level.actors]

    def losses(self, level, counts):
        """What the interfaces lose or read again."""
        words = []
        for link in level.links:
            if link.source is not None and link.head and counts[link.head] * link.consumption > link.production:
                words.append(f"{link.source} of rate {link.production} is read {counts[link.head]} x {link.consumption} = {counts[link.head] * link.consumption}, from the front again")
            if link.sink is not None and link.tail and counts[link.tail] * link.production > link.consumption:
                words.append(f"{link.sink} of rate {link.consumption} gets {counts[link.tail]} x {link.production} = {counts[link.tail] * link.production} and keeps the last")
        return f" ({'; '.join(words)})" if words else ""


def certain_refusals(reading, explorer):
    """Refusals that every run of this file meets, with their explanations."""
    return [(refused, RunRefusals(reading, refused, 0).text()) for refused in explorer.certain_refusals()]
