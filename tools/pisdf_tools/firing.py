"""Fires graphs as one thread does, to find out why a run is refused and where tokens are lost or read again.

The program itself is asked for all answers. What is worked out here only explains them.
"""
import time
from dataclasses import dataclass, field

from . import balance
from .kernel_work import KernelFault, fire
from .levels import Levels, Refused


class TooLong(Exception):
    """The time that an explanation may take is over. It is that of this thread, so that a busy machine changes nothing of what is told."""


@dataclass
class Note:
    """Where an interface loses tokens or gives them again: for the first time, how often, and how many tokens it was each time."""
    level: object
    link: object
    count: int
    path: str
    iteration: int
    times: int = 0
    amounts: set = field(default_factory=set)


class Runner:
    """Runs a file's top graph iteration by iteration. `notes` gathers where interfaces lose or repeat tokens, and `levels_done` how
    often each graph was fired."""

    def __init__(self, file, seconds):
        self.file, self.levels, self.end = file, Levels(file), time.thread_time() + seconds
        self.notes, self.levels_done, self.iteration, self.is_done = {}, {}, 0, False

    def first_state(self, graph):
        """The tokens of permanent delays, and the states of children, as they are before the first firing."""
        fifos = {number: fifo.first_tokens() for number, fifo in enumerate(graph.fifos) if fifo.life == "permanent"}
        return {"fifos": fifos, "actors": {actor.name.text: self.first_state(self.file.child_of(actor))
                                           for actor in graph.actors if actor.is_hierarchical}}

    def check_time(self):
        if time.thread_time() > self.end:
            raise TooLong

    def top_early(self):
        graph = self.file.top_graph
        return self.at_path(graph.name.text, lambda: self.levels.early(graph, []))

    def at_path(self, path, work):
        try:
            return work()
        except Refused as refused:
            refused.path = refused.path or path
            raise

    def run(self, iterations, stream, first=0):
        """Runs iterations. `stream(name, start, count)` gives tokens of an input, or None where there are too few."""
        graph = self.file.top_graph
        state = self.first_state(graph)
        for self.iteration in range(first, iterations):
            early = self.top_early()
            ins = {name: stream(name, self.iteration * rate, rate) for name, rate in early.inputs.items()}
            if any(tokens is None for tokens in ins.values()):
                return
            self.graph(graph, graph.name.text, early, ins, state)
        self.is_done = True

    def graph(self, graph, path, early, ins, state):
        """One firing of a graph: its outputs and its exports by name. The state is changed to the one left."""
        self.check_time()
        chosen, outs = self.configure(graph, path, early, ins, state)
        level, counts, order = self.at_path(path, lambda: self.scheduled(graph, path, early, chosen))
        sinks = self.fire_level(level, counts, order, path, {**ins, **outs}, state)
        return sinks, {word.text: level.values[word.text] for word in graph.exports}

    def configure(self, graph, path, early, ins, state):
        """What the configuration actors give: values by parameter, and tokens by end."""
        chosen, outs = {}, {}
        for actor in graph.actors:
            if not actor.is_config:
                continue
            args, rates, child_early = early.configs[actor.name.text]
            fed = {fifo.head.text: ins[fifo.tail.text] for fifo in graph.fifos if fifo.head.text.partition(".")[0] == actor.name.text and "." in fifo.head.text}
            if actor.is_hierarchical:
                child = self.file.child_of(actor)
                given, exports = self.graph(child, f"{path}/{actor.name.text}:0", child_early,
                                            {port.name.text: fed[f"{actor.name.text}.{port.name.text}"] for port in child.inputs},
                                            state["actors"][actor.name.text])
                values = [exports[word.text] for word in child.exports]
                outs.update({f"{actor.name.text}.{port}": tokens for port, tokens in given.items()})
            else:
                tokens = [fed[f"{actor.name.text}.{port.name.text}"] for port in actor.ins]
                made, values = self.kernel(graph, actor, 0, path, args, tokens, list(rates.values()), early.values)
                outs.update({f"{actor.name.text}.{port}": given for port, given in zip(rates, made)})
            for word, value in zip(actor.sets, values):
                chosen[word.text] = value
        return chosen, outs

    def kernel(self, graph, actor, firing, path, args, ins, outs, values):
        try:
            return fire(actor.kernel.text, args, ins, outs, len(actor.sets or []))
        except KernelFault as fault:
            refused = Refused("kernel", f"kernel {actor.name.text}:{firing} {fault.code}", graph, actor, values,
                              fault=fault, firing=firing, args=args, ins=ins, outs=outs)
            refused.path = path
            raise refused from None

    def scheduled(self, graph, path, early, chosen):
        """The level, its repetition vector and its firings in order. Raises Refused."""
        inherited = {param.name.text: early.values[param.name.text] for param in graph.of_kind("in")}
        values = self.levels.params(graph, {**inherited, **chosen}, False)
        level = self.levels.level(graph, early, values)
        found = balance.solve(level)
        if found.counts is None:
            raise Refused("rates", "rates", graph, None, values, level=level, balance=found)
        limit = balance.over_limit(level, found.counts)
        if limit:
            raise Refused("limit", f"limit {limit[0]} {limit[1]}", graph, None, values, level=level, counts=found.counts, limit=limit)
        order = balance.order_of(level, found.counts)
        if isinstance(order, balance.Stuck):
            left = "".join(f" {actor} {order.left[actor]}" for actor in level.actors if actor in order.left)
            raise Refused("deadlock", f"deadlock{left}", graph, None, values, level=level, counts=found.counts, stuck=order)
        self.note(level, found.counts, path)
        return level, found.counts, order

    def note(self, level, counts, path):
        """Where a level reads tokens of an interface again, or drops tokens for one."""
        name = level.graph.name.text
        self.levels_done[name] = self.levels_done.get(name, 0) + 1
        for link in level.links:
            if link.source is not None and link.head and counts[link.head] * link.consumption != link.production:
                self.note_one(level, link, link.source, counts[link.head], path)
            if link.sink is not None and link.tail and counts[link.tail] * link.production != link.consumption:
                self.note_one(level, link, link.sink, counts[link.tail], path)

    def note_one(self, level, link, end, count, path):
        """Notes one interface whose rate differs from what the firings move there."""
        note = self.notes.setdefault((level.graph.name.text, end), Note(level, link, count, path, self.iteration))
        note.times += 1
        note.amounts.add(abs(count * link.consumption - link.production) if link.source is not None else abs(count * link.production - link.consumption))

    def fire_level(self, level, counts, order, path, sources, state):
        """Fires all firings of a level in order. Gives the tokens of the outputs, and changes the state to the one left."""
        graph, lines, fired = level.graph, {}, dict.fromkeys(level.actors, 0)
        ins, outs = {}, {}
        for place, link in enumerate(level.links):
            if link.fifo is None:
                continue
            fifo = graph.fifos[link.fifo]
            lines[place] = list(state["fifos"].get(link.fifo, fifo.first_tokens())) if link.source is None else sources[link.source]
            ins[link.head_port], outs[link.tail_port] = (place, link), (place, link)
        for name in order:
            self.check_time()
            actor = graph.actor(name)
            reads = {end: self.read(lines[place], link, fired[name]) for end, (place, link) in ins.items() if link.head == name}
            made = self.fire_actor(level, actor, fired[name], path, reads, state)
            for end, tokens in made.items():
                lines[outs[end][0]].extend(tokens)
            fired[name] += 1
        sinks = {}
        for place, link in enumerate(level.links):
            if link.sink is not None and link.fifo is not None:
                sinks[link.sink] = lines[place][len(lines[place]) - link.consumption:]
            elif link.fifo in state["fifos"]:
                state["fifos"][link.fifo] = lines[place][counts[link.head] * link.consumption:]
        return sinks

    def read(self, line, link, firing):
        start = firing * link.consumption
        if link.source is None:
            return line[start:start + link.consumption]
        return [line[(start + step) % len(line)] for step in range(link.consumption)]

    def fire_actor(self, level, actor, firing, path, reads, state):
        name = actor.name.text
        if actor.is_hierarchical:
            child = self.file.child_of(actor)
            ins = {port.name.text: reads[f"{name}.{port.name.text}"] for port in child.inputs}
            made, _ = self.graph(child, f"{path}/{name}:{firing}", level.earlies[name], ins, state["actors"][name] if self.file.kept_by(child)
                                 else self.first_state(child))
            return {f"{name}.{port}": tokens for port, tokens in made.items()}
        ins = [reads[f"{name}.{port.name.text}"] for port in actor.ins]
        rates = [level.rates[f"{name}.{port.name.text}"] for port in actor.outs]
        made, _ = self.kernel(level.graph, actor, firing, path, level.args[name], ins, rates, level.values)
        return {f"{name}.{port.name.text}": tokens for port, tokens in zip(actor.outs, made)}
