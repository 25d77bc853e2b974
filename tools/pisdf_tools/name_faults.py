"""Faults of names and counts: duplicates, unknown names, kernels, and numbers of arguments and ports (faults 4 to 7)."""
from . import expressions, kernels
from .end_names import EndNames
from .wording import counted, joined, listed, named, quoted, with_names

COUNT_WORDS = {"args": ("argument", "arguments"), "ins": ("input", "inputs"), "outs": ("output", "outputs"),
               "sets": ("parameter that it sets", "parameters that it sets")}


def words_of_actor(actor):
    """All expressions of an actor, in the order of the walk."""
    found = list(actor.args or [])
    for port in (actor.ins or []) + (actor.outs or []):
        found += [port.rate] if port.rate else []
    return found


def expressions_of(graph):
    """All expressions of a graph up to its FIFOs, in the order of the walk, each with the actor whose it is or None."""
    for param in graph.params:
        if param.expression:
            yield param.expression, None
    for port in graph.inputs + graph.outputs:
        if port.rate:
            yield port.rate, None
    for actor in graph.actors:
        for expression in words_of_actor(actor):
            yield expression, actor


class NameFaults:
    """Looks at the names of a file. Where an unknown name has a near known one, later faults are looked for with that."""

    def __init__(self, file, faults):
        self.file, self.faults = file, faults

    def add(self, number, detail, word, *sentences):
        self.faults.add(number, detail, word.pointer, word.value.start, word.value.end, joined(sentences))

    # ---- duplicates

    def duplicates(self):
        seen_graphs = {}
        for graph in self.file.graphs:
            self.first_of(seen_graphs, graph.name, "graph", "Each graph of the file has a name of its own.")
            seen = {}
            for what, parts in (("parameter", graph.params), ("input", graph.inputs), ("output", graph.outputs), ("actor", graph.actors)):
                for part in parts:
                    self.first_of(seen, part.name, what, "The parameters, inputs, outputs and actors of a graph have names that differ.")
                    if what == "actor":
                        self.duplicate_ports(part)

    def duplicate_ports(self, actor):
        seen = {}
        for what, ports in (("input", actor.ins or []), ("output", actor.outs or [])):
            for port in ports:
                self.first_of(seen, port.name, f"{what} of {quoted(actor.name.text)}", "All ports of an actor have names that differ.")

    def first_of(self, seen, word, what, rule):
        if not word.text:
            return
        if word.text in seen:
            other, first = seen[word.text]
            line, column = self.faults.source.position(first.value.start)
            self.add(4, f"duplicate {word.text}", word,
                     f"{quoted(word.text)} is the name of this {what}, and of the {other} at line {line}, column {column}.",
                     rule, "Rename one of the two, and the ends and expressions that mean it.")
        else:
            seen[word.text] = (what, word)

    # ---- unknown names

    def unknown_names(self):
        if self.file.top and not self.file.top_graph:
            self.file.top = self.unknown_graph(self.file.top, "`top` names the graph that is run.", self.unnamed_graph())
        for graph in self.file.graphs:
            for param in graph.params:
                self.names_in(param.expression, graph)
            for port in graph.inputs + graph.outputs:
                self.names_in(port.rate, graph)
            for actor in graph.actors:
                self.names_of_actor(actor, graph)
            EndNames(self.file, self.faults, graph).resolve()
            graph.exports = [self.param_word(word, graph, "`exports` lists parameters of this graph.") for word in graph.exports]

    def unnamed_graph(self):
        """The only graph that no actor names, or None."""
        children = {actor.child.text for graph in self.file.graphs for actor in graph.actors if actor.child}
        found = [graph.name.text for graph in self.file.graphs if graph.name.text not in children]
        return found[0] if len(found) == 1 else None

    def names_of_actor(self, actor, graph):
        if actor.child and not self.file.graph(actor.child.text):
            actor.child = self.unknown_graph(actor.child, "A hierarchical actor names a graph of this file.")
        for expression in words_of_actor(actor):
            self.names_in(expression, graph)
        if actor.sets:
            actor.sets = [self.param_word(word, graph, "`sets` lists parameters of this graph.") for word in actor.sets]

    def unknown_graph(self, word, rule, likely=None):
        """Tells of a graph that isn't there. `likely` is the one that is meant where no name is near."""
        known = [graph.name.text for graph in self.file.graphs]
        meant = self.faults.near(word.text, known) or likely
        self.add(5, f"unknown {word.text}", word, f"There is no graph {quoted(word.text)}.", rule,
                 f"This file has {with_names('graph', known)}." if known else "This file has no graph.", self.ask(meant))
        return self.meaning(word, meant)

    def ask(self, meant):
        return f"Do you mean {quoted(meant)}?" if meant else ""

    def meaning(self, word, meant):
        """The word that is most likely meant, at the same place. None where nothing is near."""
        return type(word)(meant, word.value, word.pointer) if meant else None

    def names_in(self, expression, graph):
        if not expression or not expression.tree:
            return
        for name in expressions.names(expression.tree):
            if not graph.param(name.name):
                start = expression.value.start + 1 + name.at
                self.faults.add(5, f"unknown {name.name}", expression.pointer, start, start + len(name.name),
                                self.unknown_param(name.name, graph, "An expression names parameters of its own graph."))

    def param_word(self, word, graph, rule):
        if graph.param(word.text):
            return word
        self.add(5, f"unknown {word.text}", word, self.unknown_param(word.text, graph, rule))
        known = [param.name.text for param in graph.params]
        return self.meaning(word, self.faults.near(word.text, known)) or word

    def unknown_param(self, name, graph, rule):
        known = [param.name.text for param in graph.params]
        others = [other.name.text for other in self.file.graphs if other is not graph and other.param(name)]
        has = f"Graph {quoted(graph.name.text)} has {with_names('parameter', known)}." if known else f"Graph {quoted(graph.name.text)} has no parameters."
        elsewhere = ""
        if others:
            elsewhere = (f"Graph {quoted(others[0])} has one of that name. A graph gets values from the graph around it by a "
                         "parameter of the kind `in` and an argument of the actor.")
        meant = "" if self.part_words(name, graph) else self.ask(self.faults.near(name, known))
        return joined([f"There is no parameter {quoted(name)}.", self.part_words(name, graph), rule, has, meant, elsewhere])

    def part_words(self, name, graph):
        """What else has the name in the graph, or an empty text."""
        for what, found in (("an input", graph.inputs), ("an output", graph.outputs), ("an actor", graph.actors)):
            if any(part.name.text == name for part in found):
                return f"{quoted(name)} is {what} of the graph, and no number."
        return ""

    # ---- kernels and counts

    def kernels(self):
        for graph in self.file.graphs:
            for actor in graph.actors:
                if actor.kernel and not actor.is_hierarchical:
                    self.kernel(actor)

    def kernel(self, actor):
        known = kernels.table()
        kernel = known.get(actor.kernel.text)
        if kernel is None:
            fitting = [name for name, row in known.items() if row.actor_kind == actor.kind]
            other = kernels.OTHER_WORDS.get(actor.kernel.text.lower(), "")
            meant = None if other else self.faults.near(actor.kernel.text, fitting)
            guess = f"Do you mean {quoted(meant)} ({known[meant].short})?" if meant else f"The kernels of a {actor.kind} actor are {named(fitting, 30)}."
            self.add(6, f"kernel {actor.kernel.text}", actor.kernel, f"There is no kernel {quoted(actor.kernel.text)}.", other or guess,
                     "`./pisdf kernels` tells of each.")
            actor.kernel = self.meaning(actor.kernel, meant)
        elif kernel.actor_kind != actor.kind:
            self.kernel_of_other_kind(actor, kernel)
            actor.kernel = None

    def kernel_of_other_kind(self, actor, kernel):
        if kernel.is_config:
            advice = "Write `\"kind\":\"config\"`, give it a list `sets`, and no rates at its inputs."
            advice += self.alike_words(actor)
            what = f"{quoted(kernel.name)} sets parameters, so it is a kernel of configuration actors (`config`)."
        else:
            advice = f"Write `\"kind\":\"kernel\"`, or take one of {named(row.name for row in kernels.table().values() if row.is_config)}."
            what = f"{quoted(kernel.name)} sets no parameter, so it is a kernel of kernel actors (`kernel`)."
        self.add(6, f"kernel {kernel.name}", actor.kernel, what, f"The actor {quoted(actor.name.text)} is of the kind {quoted(actor.kind)}.", advice)

    def alike_words(self, actor):
        """The kernels of the actor's kind with its numbers of arguments, inputs and outputs."""
        lists = {"args": actor.args or [], "ins": actor.ins or [], "outs": actor.outs or []}
        found = [row.name for row in kernels.table().values() if row.actor_kind == actor.kind and all(len(parts) in row.counts[name] for name, parts in lists.items())]
        numbers = listed([counted(len(parts), COUNT_WORDS[name][0]) for name, parts in lists.items()])
        return f" Or take a kernel actor's kernel with {numbers}: {named(found, 8, 'or')}." if found else ""

    def counts(self):
        for graph in self.file.graphs:
            for actor in graph.actors:
                self.counts_of_actor(actor)
            for param in graph.params:
                self.param_sources(param, graph)

    def counts_of_actor(self, actor):
        if actor.is_hierarchical:
            sentences = self.child_counts(actor)
        else:
            sentences = self.kernel_counts(actor)
        if sentences:
            self.faults.add(7, f"ports {actor.name.text}", actor.name.pointer, actor.name.value.start, actor.name.value.end, joined(sentences))

    def kernel_counts(self, actor):
        row = kernels.table().get(actor.kernel.text) if actor.kernel else None
        if row is None:
            return []
        lists = {"args": actor.args, "ins": actor.ins, "outs": actor.outs}
        if actor.kind == "config":
            lists["sets"] = actor.sets
        wrong = [name for name, parts in lists.items() if parts is not None and len(parts) not in row.counts[name]]
        sentences = []
        for name in wrong:
            one, many = COUNT_WORDS[name]
            sentences.append(f"The kernel {quoted(row.name)} takes {self.span_words(row.counts[name], one, many)}, and here "
                             f"{'is' if len(lists[name]) == 1 else 'are'} {len(lists[name])} in {quoted(name)}.")
        if "args" in wrong and row.sentence("Arguments"):
            sentences.append(f"Its arguments: {row.sentence('Arguments')}")
        if sentences:
            sentences.append(f"{quoted(row.name)} in short: {row.short}.")
        return sentences

    def span_words(self, span, one, many):
        if span.most == 0:
            return f"no {many}"
        return f"{span} {one if span.least == span.most == 1 else many}"

    def child_counts(self, actor):
        child = self.file.child_of(actor)
        if child is None:
            return []
        sentences, inherited = [], [param.name.text for param in child.of_kind("in")]
        if actor.args is not None and len(actor.args) != len(inherited):
            count = "one parameter" if len(inherited) == 1 else f"{len(inherited)} parameters"
            wanted = f"{count} of the kind `in`: {named(inherited)}" if inherited else "no parameter of the kind `in`"
            sentences.append(f"The actor has {counted(len(actor.args), 'argument')}, and its graph {quoted(child.name.text)} has {wanted}. "
                             "It takes one argument for each, in their order.")
        exports = [word.text for word in child.exports]
        if actor.kind == "setgraph" and actor.sets is not None and len(actor.sets) != len(exports):
            wanted = f"exports {counted(len(exports), 'parameter')}: {named(exports)}" if exports else "exports nothing"
            sentences.append(f"The actor sets {counted(len(actor.sets), 'parameter')}, and its graph {quoted(child.name.text)} {wanted}. "
                             "`sets` has one name for each, in their order.")
        return sentences

    def param_sources(self, param, graph):
        setters = [actor.name.text for actor in graph.actors for word in actor.sets or [] if word and word.text == param.name.text]
        name, text = quoted(param.name.text), ""
        if param.kind == "in" and self.file.top_graph is graph and setters:
            text = (f"{name} is of the kind `in`, so an actor that names this graph would give its value, and {quoted(graph.name.text)} is the "
                    f"top graph, which no actor names. {named(setters)} sets it: write `\"kind\":\"set\"`.")
        elif param.kind == "in" and self.file.top_graph is graph:
            text = (f"{name} is of the kind `in`, so an actor that names this graph would give its value. {quoted(graph.name.text)} is the "
                    "top graph, which no actor names. Make it of the kind `is` with an `expr`, or `set` with a configuration actor.")
        elif param.kind == "set" and len(setters) != 1:
            text = self.chosen_words(param, graph, setters)
        elif param.kind in ("in", "is") and setters:
            text = (f"{name} is of the kind {quoted(param.kind)}, and the actor {quoted(setters[0])} has it in its `sets`. "
                    "Only a parameter of the kind `set` is set by an actor.")
        if text:
            self.faults.add(7, f"ports {param.name.text}", param.name.pointer, param.name.value.start, param.name.value.end, text)

    def chosen_words(self, param, graph, setters):
        name = quoted(param.name.text)
        if setters:
            return (f"{name} is of the kind `set`, and stands {len(setters)} times in the `sets` of {named(dict.fromkeys(setters))}. "
                    "Exactly one actor sets it, once.")
        configs = [actor.name.text for actor in graph.actors if actor.is_config]
        advice = (f"Write it into the `sets` of {named(configs, last='or')}" if configs else
                  "Add a configuration actor, as one with the kernel `read_param`, with its name in `sets`")
        return f"{name} is of the kind `set`, and no actor of graph {quoted(graph.name.text)} sets it. {advice}, or give it the kind `is` and an `expr`."


def find(file, faults):
    """Adds the faults 4 to 7 of a file."""
    names = NameFaults(file, faults)
    names.duplicates()
    names.unknown_names()
    names.kernels()
    names.counts()
