"""A graph file as dataclasses, with the place of each part, as far as it can be read.

Where a value has not its form, what was meant is taken wherever that is plain, so that more faults can be told at once.
"""
from dataclasses import dataclass, field
from functools import cached_property

from .json_file import Value
from .source import Source


@dataclass
class Word:
    """A name or an end as it stands in the file."""
    text: str
    value: Value
    pointer: str


@dataclass
class Expression:
    """An expression of the file. `tree` is None where it can't be read."""
    text: str
    tree: object
    value: Value
    pointer: str


@dataclass
class Param:
    name: Word
    kind: str
    expression: Expression | None
    low: int
    high: int
    value: Value
    pointer: str


@dataclass
class Port:
    """An interface of a graph, or a port of an actor. An input of a configuration actor has no rate."""
    name: Word
    rate: Expression | None
    value: Value
    pointer: str


@dataclass
class Actor:
    """An actor. `kernel` is the name of its kernel or None, `child` that of its graph or None.

    A list that the file lacks is None.
    """
    name: Word
    kind: str
    kernel: Word | None
    child: Word | None
    args: list | None
    ins: list | None
    outs: list | None
    sets: list | None
    value: Value
    pointer: str

    @property
    def is_config(self):
        return self.kind in ("config", "setgraph")

    @property
    def is_hierarchical(self):
        return self.kind in ("graph", "setgraph")


@dataclass
class Fifo:
    """A FIFO. `delay` is a number of zeros or a list of tokens, `life` is `firing` or `permanent` as the file means it."""
    tail: Word | None
    head: Word | None
    delay: object
    life: str
    value: Value
    pointer: str

    @property
    def delay_length(self):
        return self.delay if isinstance(self.delay, int) else len(self.delay)

    def first_tokens(self):
        return [0] * self.delay if isinstance(self.delay, int) else list(self.delay)


@dataclass
class Graph:
    name: Word
    params: list = field(default_factory=list)
    inputs: list = field(default_factory=list)
    outputs: list = field(default_factory=list)
    actors: list = field(default_factory=list)
    fifos: list = field(default_factory=list)
    exports: list = field(default_factory=list)
    value: Value = None
    pointer: str = ""

    @cached_property
    def params_by_name(self):
        return {param.name.text: param for param in reversed(self.params)}

    @cached_property
    def actors_by_name(self):
        return {actor.name.text: actor for actor in reversed(self.actors)}

    def param(self, name):
        return self.params_by_name.get(name)

    def actor(self, name):
        return self.actors_by_name.get(name)

    def of_kind(self, *kinds):
        return [param for param in self.params if param.kind in kinds]


@dataclass
class GraphFile:
    """All graphs of a file. `top` is the name of the top graph, `root` the value of the file."""
    source: Source
    root: Value
    version: int
    top: Word | None
    graphs: list
    kept: dict = field(default_factory=dict, repr=False)

    @cached_property
    def graphs_by_name(self):
        return {graph.name.text: graph for graph in reversed(self.graphs)}

    def graph(self, name):
        return self.graphs_by_name.get(name)

    @property
    def top_graph(self):
        return self.graph(self.top.text) if self.top else None

    def child_of(self, actor):
        """The graph that a hierarchical actor names, or None."""
        return self.graph(actor.child.text) if actor.child else None

    def ports_of(self, actor):
        """The inputs and the outputs of an actor: its own, or the interfaces of its child. None where that isn't known."""
        if not actor.is_hierarchical:
            return actor.ins or [], actor.outs or []
        child = self.child_of(actor)
        return (child.inputs, child.outputs) if child else None

    def hierarchy(self):
        """The graphs that are fired, each with its depth: the top first, and each after one that names it."""
        depths, pending = {}, [(self.top_graph, 0)]
        for graph, depth in pending:
            if graph.name.text not in depths:
                depths[graph.name.text] = depth
                pending += [(self.child_of(actor), depth + 1) for actor in graph.actors if actor.is_hierarchical]
        return [(self.graph(name), depth) for name, depth in depths.items()]

    def unused(self):
        """The graphs that are never fired, since no actor on the way from the top names them."""
        fired = {graph.name.text for graph, _ in self.hierarchy()}
        return [graph for graph in self.graphs if graph.name.text not in fired]

    def kept_by(self, graph):
        """How many tokens a graph keeps from one of its firings to the next. A graph that holds itself counts once."""
        if graph.pointer not in self.kept:
            self.kept[graph.pointer] = 0
            own = sum(fifo.delay_length for fifo in graph.fifos if fifo.life == "permanent")
            self.kept[graph.pointer] = own + sum(self.kept_by(self.child_of(actor)) for actor in graph.actors
                                                 if actor.is_hierarchical and self.child_of(actor))
        return self.kept[graph.pointer]

    def place_of(self, pointer):
        return place_words(self.root, pointer)

    def position(self, part):
        """Where a part that has a value stands, as `g.json, line 3, column 5`."""
        return self.source.place(part.value.start)


def shown_place(source, part):
    """The start and the end of what is marked for a part: of a FIFO that is laid out over lines its first end, of another object its
    first letter, else the whole value."""
    value = part.value
    if value.kind not in ("object", "list"):
        return value.start, value.end
    if isinstance(part, Fifo) and part.tail and "\n" in source.text[value.start:value.end]:
        return part.tail.value.start, part.tail.value.end
    return value.start, value.start + 1


LIST_WORDS = {"params": "parameter", "inputs": "input", "outputs": "output", "actors": "actor", "graphs": "graph",
              "ins": "input", "outs": "output"}
NUMBER_WORDS = {"args": "argument", "sets": "set", "exports": "export", "delay": "delay token"}


def name_of(value):
    """The text of an object's member `name`, or None."""
    member = value.value.get("name") if value.kind == "object" else None
    return member.value.value if member and member.value.kind == "string" else None


def fifo_words(value, number):
    ends = [value.value[name].value.value for name in ("from", "to")
            if value.kind == "object" and name in value.value and value.value[name].value.kind == "string"]
    return f"FIFO {number}" + (f" (`{ends[0]}` to `{ends[1]}`)" if len(ends) == 2 else "")


def step_words(above, value, number):
    """A step into a list in words: by the name of the part where it has one, else by its number."""
    if above == "fifos":
        return fifo_words(value, number)
    if above in NUMBER_WORDS:
        return f"{NUMBER_WORDS[above]} {number}"
    name = name_of(value)
    return f"{LIST_WORDS.get(above, above)} `{name}`" if name else f"{LIST_WORDS.get(above, above)} {number}"


def place_words(root, pointer):
    """A pointer in words, as `graph `g`, input `x`, member `rate``."""
    words, value, above = [], root, ""
    for step in pointer.strip("/").split("/"):
        if not step:
            continue
        if value.kind == "list" and step.isdigit() and int(step) < len(value.value):
            value = value.value[int(step)]
            words.append(step_words(above, value, int(step)))
        elif value.kind == "object" and step in value.value:
            value = value.value[step].value
            if step == "name":
                continue
            if value.kind != "list" or step == "delay":
                words.append(f"member `{step}`")
            elif pointer.strip("/").endswith(step):
                words.append(f"list `{step}`")
        above = step
    return ", ".join(words)
