"""Faults of FIFOs, of the order of parameters, of the hierarchy and of counts of parts (faults 8 to 13)."""
from . import expressions, ways
from .graph_file import shown_place
from .limits import DELAY, GRAPHS, HOLD, NESTED_GRAPHS, PARTS
from .name_faults import expressions_of
from .wording import counted, grouped, joined, listed, named, quoted

PART_WORDS = {"params": "parameters", "fifos": "FIFOs"}


class Ends:
    """The ends of one graph: what each is, and the FIFOs that stand there."""

    def __init__(self, file, graph):
        self.kinds, self.fifos, self.unknown_actors, self.places = {}, {}, set(), {}
        for port in graph.inputs:
            self.enter(port.name.text, "input", port)
        for port in graph.outputs:
            self.enter(port.name.text, "output", port)
        for actor in graph.actors:
            ports = file.ports_of(actor)
            if ports is None or not actor.kind:
                self.unknown_actors.add(actor.name.text)
                continue
            for kind, of_kind in (("in", ports[0]), ("out", ports[1])):
                for port in of_kind:
                    self.enter(f"{actor.name.text}.{port.name.text}", kind, actor if actor.is_hierarchical else port)
        for number, fifo in enumerate(graph.fifos):
            for word in (fifo.tail, fifo.head):
                if word:
                    self.fifos.setdefault(word.text, []).append(number)
        self.without_tail = [number for number, fifo in enumerate(graph.fifos) if not fifo.tail]
        self.without_head = [number for number, fifo in enumerate(graph.fifos) if not fifo.head]

    def enter(self, end, kind, part):
        self.kinds.setdefault(end, kind)
        self.places.setdefault(end, part)

    def kind(self, word):
        return self.kinds.get(word.text) if word else None


class WiringFaults:
    def __init__(self, file, faults):
        self.file, self.faults = file, faults
        self.depends = {}

    def add(self, number, detail, part, *sentences):
        self.faults.add(number, detail, part.pointer, *shown_place(self.file.source, part), joined(sentences))

    # ---- wires

    def wires(self):
        for graph in self.file.graphs:
            ends, told = Ends(self.file, graph), set()
            for fifo in graph.fifos:
                self.directions(fifo, ends)
            for end, kind in ends.kinds.items():
                if len(ends.fifos.get(end, [])) != 1 and end not in told:
                    self.one_fifo(end, kind, ends, told)

    def directions(self, fifo, ends):
        tail, head = ends.kind(fifo.tail), ends.kind(fifo.head)
        both = tail in ("output", "in") and head in ("input", "out")
        swap = "Exchange `from` and `to`." if both else ""
        if tail in ("output", "in"):
            self.add(8, f"wire {fifo.tail.text}", fifo.tail, f"The FIFO comes from {quoted(fifo.tail.text)}, which is {self.direction_words(tail)}.",
                     swap or "A FIFO comes from an input interface or from the output of an actor.")
        if head in ("input", "out") and not both:
            self.add(8, f"wire {fifo.head.text}", fifo.head, f"The FIFO leads to {quoted(fifo.head.text)}, which is {self.direction_words(head)}.",
                     swap or "A FIFO leads to an output interface or to the input of an actor.")

    def direction_words(self, kind):
        return {"input": "an input interface of the graph: tokens come from there", "output": "an output interface of the graph: tokens go there",
                "in": "an input of an actor: tokens go there", "out": "an output of an actor: tokens come from there"}[kind]

    def one_fifo(self, end, kind, ends, told):
        """An end with no FIFO or with several. Where only one other end lacks a FIFO too, that is told of with it."""
        fifos, word = ends.fifos.get(end, []), ends.places[end].name
        what = {"input": "the input interface", "output": "the output interface", "in": "the input", "out": "the output"}[kind]
        if fifos:
            hint = ("To feed two FIFOs with the same tokens, put an actor with the kernel `dup` between." if kind in ("input", "out")
                    else "Two FIFOs can't lead to one end. An actor with two inputs, as one of `add`, makes one of two.")
            text = f"{listed([f'FIFO {number}' for number in fifos])} stand at {what} {quoted(end)}. Each end has exactly one FIFO. {hint}"
        else:
            text = f"No FIFO stands at {what} {quoted(end)}. Each end has exactly one. {self.missing_fifo(end, kind, ends, told)}"
        self.faults.add(8, f"wire {end}", word.pointer, word.value.start, word.value.end, text)

    def missing_fifo(self, end, kind, ends, told):
        """The FIFO to add: in full where only one other end may be meant."""
        is_tail = kind in ("input", "out")
        lost = ends.without_tail if is_tail else ends.without_head
        if lost:
            verb = "comes from" if is_tail else "leads to"
            return f"{listed([f'FIFO {number}' for number in lost[:8]], 'or')}, of which it isn't known what it {verb}, may be meant for it."
        wanted = ("output", "in") if is_tail else ("input", "out")
        free = [other for other, its_kind in ends.kinds.items() if its_kind in wanted and other not in ends.fifos
                and not (kind in ("input", "output") and its_kind in ("input", "output"))]
        if len(free) == 1:
            told.update(free)
            tail, head = (end, free[0]) if is_tail else (free[0], end)
            return f"{quoted(free[0])} has none either. Add `{{\"from\":\"{tail}\",\"to\":\"{head}\"}}` to `fifos`, if that is meant."
        also = f" Without a FIFO as well: {named(free)}." if free else ""
        return f"Add a FIFO that {'comes from it' if is_tail else 'leads to it'}.{also}"

    # ---- where FIFOs may stand

    def interface_wires(self):
        for graph in self.file.graphs:
            ends = Ends(self.file, graph)
            for number, fifo in enumerate(graph.fifos):
                text = self.why_not_there(fifo, graph, ends)
                if text:
                    self.add(9, f"interface {graph.name.text} {number}", fifo, text)

    def why_not_there(self, fifo, graph, ends):
        tail, head = ends.kind(fifo.tail), ends.kind(fifo.head)
        from_config = self.config_at(fifo.tail, tail, "out", graph)
        to_config = self.config_at(fifo.head, head, "in", graph)
        name = quoted(fifo.tail.text) if fifo.tail else ""
        if tail == "input" and head == "output":
            return f"The FIFO leads from the input interface {name} to the output interface {quoted(fifo.head.text)}. Put an actor with the kernel `pass` between."
        if fifo.delay_length and (tail == "input" or head == "output"):
            end = fifo.tail.text if tail == "input" else fifo.head.text
            return (f"The FIFO has a delay of {counted(fifo.delay_length, 'token')} and touches the interface {quoted(end)}. A delay stands "
                    "between two actors: put an actor with the kernel `pass` between, and the delay on the FIFO between the actors.")
        if to_config and tail is not None and tail != "input":
            return (f"The FIFO feeds the configuration actor {quoted(to_config)} from {name}, which is {self.direction_words(tail).split(':')[0]}. "
                    "A configuration actor fires before all others, so it reads input interfaces alone. "
                    f"Give {quoted(to_config)} an input interface, or let a child make the value by an actor of the kind `setgraph`.")
        if from_config and fifo.delay_length:
            return (f"The FIFO leaves the configuration actor {quoted(from_config)} with a delay of {counted(fifo.delay_length, 'token')}. "
                    "A configuration actor fires once in each firing of the graph, so nothing is left for a delay. Take the delay away.")
        if from_config and head == "output":
            return (f"The FIFO leads from the configuration actor {quoted(from_config)} to the output interface {quoted(fifo.head.text)}. "
                    "Put an actor with the kernel `pass` between.")
        return ""

    def config_at(self, word, kind, wanted, graph):
        """The name of the configuration actor at an end, or None."""
        actor = graph.actor(word.text.partition(".")[0]) if word and kind == wanted else None
        return actor.name.text if actor and actor.is_config else None

    # ---- the order of parameters

    def orders(self):
        for graph in self.file.graphs:
            self.depends = {param.name.text: [name.name for name in self.names_of(param.expression)] for param in graph.params}
            candidates = ways.in_rings(self.depends)
            for param in graph.params:
                ring = ways.to_itself(param.name.text, self.depends) if param.name.text in candidates else None
                if ring:
                    self.add(10, f"order {param.name.text}", param.expression or param.name, self.ring_words(ring))
                    break
            self.early_places(graph)

    def names_of(self, expression):
        return expressions.names(expression.tree) if expression and expression.tree else []

    def ring_words(self, ring):
        if len(ring) == 2:
            return f"The expression of {quoted(ring[0])} names {quoted(ring[0])} itself. A parameter has to get its value from others."
        if len(ring) > 12:
            return f"The parameter depends on itself, over {len(ring) - 1} parameters. None of them can get a value first. Break the ring."
        steps = listed([f"{quoted(one)} names {quoted(other)}" for one, other in zip(ring, ring[1:])])
        return f"The parameter depends on itself: {steps}. None of them can get a value first. Break the ring."

    def late_chains(self, graph):
        """For each late parameter the next name on a shortest way to a chosen one, which has itself."""
        chosen = [param.name.text for param in graph.of_kind("set")]
        return ways.steps_towards(chosen, ways.reversed_steps(self.depends))

    def early_places(self, graph):
        """Expressions that are needed before the configuration actors fire, and name what these set."""
        configs = {id(actor) for actor in graph.actors if actor.is_config}
        chains = self.late_chains(graph)
        for expression, actor in expressions_of(graph):
            is_rate_of_interface = actor is None and expression.pointer.split("/")[3] in ("inputs", "outputs")
            if not is_rate_of_interface and (actor is None or id(actor) not in configs):
                continue
            what = "The rate of an interface" if actor is None else (
                "An argument of a configuration actor" if "/args/" in expression.pointer else "An output rate of a configuration actor")
            for name in self.names_of(expression):
                if name.name in chains:
                    self.late_fault(expression, name, ways.along(name.name, chains), what, graph)
                    break

    def late_fault(self, expression, name, chain, what, graph):
        start = expression.value.start + 1 + name.at
        setter = next((actor.name.text for actor in graph.actors for word in actor.sets or [] if word and word.text == chain[-1]), None)
        by = f"the configuration actor {quoted(setter)} sets" if setter else "a configuration actor sets"
        way = f"{quoted(name.name)} depends on {quoted(chain[-1])}, which {by}" if len(chain) > 1 else f"{by[:1].upper()}{by[1:]} {quoted(name.name)}"
        advice = self.fixed_rate_words(expression, graph) if what.startswith("The rate") else ""
        self.faults.add(10, f"order {name.name}", expression.pointer, start, start + len(name.name),
                        joined([f"{what} is needed before the configuration actors fire. {way}.", "So it may not stand here.", advice]))

    def fixed_rate_words(self, expression, graph):
        """What to do in place of a rate of an interface that changes."""
        _, _, _, lists, place, _ = expression.pointer.split("/")
        if lists == "inputs":
            return "Give the interface a rate that doesn't change, and let the actors inside read as many of its tokens as they need."
        name = quoted(graph.outputs[int(place)].name.text)
        return (f"An output gives as many tokens in each iteration. Give {name} the greatest number of tokens, and tell by a second output how many of "
                "them count: docs/USING.md shows how, under \"An output of varying length\".")

    # ---- the hierarchy

    def hierarchy(self):
        children = {graph.name.text: [(actor, self.file.child_of(actor)) for actor in graph.actors
                                      if actor.is_hierarchical and self.file.child_of(actor)] for graph in self.file.graphs}
        found = False
        for graph in self.file.graphs:
            way = self.way_to_itself(graph.name.text, children)
            if way and not found:
                found = True
                steps = listed([f"{quoted(name)} by its actor {quoted(actor)}" for name, actor in way])
                self.add(11, f"cycle {graph.name.text}", graph.name,
                         f"The graph holds itself, over {steps}. A graph can't be a part of itself: such a file has no end of firings.")
        if not found:
            self.depths(children)

    def way_to_itself(self, start, children):
        """The graphs over which a graph holds itself, each with the actor that names the next, or None."""
        steps = {name: [child.name.text for _, child in found] for name, found in children.items()}
        ring = ways.to_itself(start, steps)
        return ring and [(name, next(actor.name.text for actor, child in children[name] if child.name.text == other))
                         for name, other in zip(ring, ring[1:])]

    def depths(self, children):
        chains = {}

        def chain(name):
            if name not in chains:
                below = [chain(child.name.text) for _, child in children[name]]
                chains[name] = [name] + max(below, key=len, default=[])
            return chains[name]

        for graph in self.file.graphs:
            longest = chain(graph.name.text)
            if len(longest) > NESTED_GRAPHS:
                self.add(12, f"depth {graph.name.text}", graph.name,
                         f"From this graph on {len(longest)} graphs are nested in each other: {named(longest, 20)}. At most {NESTED_GRAPHS} may be. "
                         "Put the work of one graph into the one around it.")
                return

    # ---- counts

    def too_many(self, word, count, limit, part, what, advice=""):
        self.add(13, f"count {word}", part, f"There are {grouped(count)} {what}, and at most {grouped(limit)} may be.", advice)

    def counts(self):
        members = self.file.root.value
        if len(self.file.graphs) > GRAPHS:
            value = members["graphs"].value
            self.faults.add(13, "count graphs", "/graphs", value.start, value.start + 1,
                            f"There are {len(self.file.graphs)} graphs, and at most {GRAPHS} may be in a file.")
        for graph in self.file.graphs:
            for name, limit in PARTS.items():
                count = len(getattr(graph, name))
                if count > limit:
                    self.too_many(name, count, limit, graph.name, f"{PART_WORDS.get(name, name)} in the graph {quoted(graph.name.text)}",
                                  "Put a part of the work into a graph of its own, and name it by an actor of the kind `graph`.")
            self.delays(graph)

    def delays(self, graph):
        for fifo in graph.fifos:
            if fifo.delay_length > DELAY:
                self.too_many("delay", fifo.delay_length, DELAY, fifo, "tokens in this delay")
        is_child = any(actor.is_hierarchical and self.file.child_of(actor) is graph for other in self.file.graphs for actor in other.actors)
        kept = self.file.kept_by(graph)
        if is_child and kept > HOLD:
            self.too_many("hold", kept, HOLD, graph.name, f"tokens that the graph {quoted(graph.name.text)} keeps from one firing to the next",
                          "They are those of its permanent delays, and of those of its hierarchical actors.")


def find(file, faults):
    """Adds the faults 8 to 13 of a file."""
    wiring = WiringFaults(file, faults)
    wiring.wires()
    wiring.interface_wires()
    wiring.orders()
    wiring.hierarchy()
    wiring.counts()
