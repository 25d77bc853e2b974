"""The values of parameters and rates in one firing of a graph, and the level that they make (docs/MEANING.md defines both)."""
from dataclasses import dataclass, field

from .expressions import NoValue, evaluate, names
from .limits import RATE


class Refused(Exception):
    """A firing of a graph is refused. `cause` are the words of the program's line behind the path; the rest tells more.

    `part` is what the cause names, `values` the parameters' values as far as they are known, `more` what the kind of cause needs.
    `is_firm` is False where it may not hold with values that weren't tried.
    """

    def __init__(self, kind, cause, graph, part=None, values=None, **more):
        super().__init__(cause)
        self.kind, self.cause, self.graph, self.part, self.values, self.more = kind, cause, graph, part, values or {}, more
        self.path, self.is_firm = "", True

    @property
    def line(self):
        return f"run: {self.path} {self.cause}"


@dataclass
class Early:
    """What is known of a firing before its configuration actors fire. `configs` has for each of them its arguments, its output
    rates by port and its child's Early."""
    values: dict
    inputs: dict
    outputs: dict
    configs: dict = field(default_factory=dict)


@dataclass
class Link:
    """A FIFO of a level, or an actor's link to itself by which its child's state goes on (`fifo` is None then).

    `tail` and `head` are names of actors, or None where `source` or `sink` names the interface or the configuration output.
    """
    fifo: int | None
    tail: str | None
    head: str | None
    source: str | None
    sink: str | None
    production: int
    consumption: int
    delay: int
    tail_port: str = ""
    head_port: str = ""

    @property
    def is_inner(self):
        return self.tail is not None and self.head is not None


@dataclass
class Level:
    """A graph with fixed rates: its actors that are no configuration actors, and its links. `args` and `earlies` are by actor."""
    graph: object
    actors: list
    links: list
    args: dict
    earlies: dict
    rates: dict
    values: dict


def value_of(expression, values):
    """The value of an expression, or NoValue."""
    return evaluate(expression.tree, values)


def checked_rate(expression, name, graph, values, prefix, part):
    try:
        rate = value_of(expression, values)
    except NoValue as fault:
        raise Refused("rate", f"rate {prefix}{name} {fault.why}", graph, part, values, expression=expression, why=fault)
    if not 0 <= rate <= RATE:
        raise Refused("rate", f"rate {prefix}{name} value {rate}", graph, part, values, expression=expression, value=rate)
    return rate


def checked_args(actor, graph, values, prefix):
    found = []
    for place, expression in enumerate(actor.args):
        try:
            found.append(value_of(expression, values))
        except NoValue as fault:
            raise Refused("rate", f"rate {prefix}{actor.name.text}[{place}] {fault.why}", graph, actor, values, expression=expression, why=fault)
    return found


class Levels:
    """Works out the parameters, rates and levels of the graphs of one file."""

    def __init__(self, file):
        self.file, self.early_names = file, {}

    def params(self, graph, given, only_early, prefix=""):
        """The values of a graph's parameters, of which `given` has those that come from outside. Raises Refused."""
        values, faults = {}, {}
        pending = [param for param in graph.params if not only_early or self.is_early(graph, param)]
        waiting = True
        while waiting:
            waiting = False
            for param in pending:
                name = param.name.text
                if name in values or name in faults:
                    continue
                needs = [other.name for other in names(param.expression.tree)] if param.kind == "is" else []
                if any(other in faults for other in needs):
                    faults[name] = None
                elif all(other in values for other in needs):
                    self.param(param, graph, given, values, faults, prefix)
                    waiting = True
        for param in pending:
            if faults.get(param.name.text):
                faults[param.name.text].values = values
                raise faults[param.name.text]
        return values

    def param(self, param, graph, given, values, faults, prefix):
        name = param.name.text
        try:
            value = value_of(param.expression, values) if param.kind == "is" else given[name]
        except NoValue as fault:
            faults[name] = Refused("param", f"param {prefix}{name} {fault.why}", graph, param, why=fault)
            return
        if param.low <= value <= param.high:
            values[name] = value
        else:
            faults[name] = Refused("param", f"param {prefix}{name} value {value} range {param.low} {param.high}", graph, param, value=value)

    def is_early(self, graph, param):
        """Whether a parameter depends on no chosen one."""
        if graph.name.text not in self.early_names:
            late, grows = {other.name.text for other in graph.of_kind("set")}, True
            while grows:
                more = {other.name.text for other in graph.of_kind("is") if other.name.text not in late
                        and any(name.name in late for name in names(other.expression.tree))}
                late |= more
                grows = bool(more)
            self.early_names[graph.name.text] = {other.name.text for other in graph.params} - late
        return param.name.text in self.early_names[graph.name.text]

    def early(self, graph, inherited, prefix=""):
        """The early check of a graph. `inherited` has the values of its parameters of the kind `in`, in their order."""
        given = dict(zip((param.name.text for param in graph.of_kind("in")), inherited))
        values = self.params(graph, given, True, prefix)
        found = Early(values, {}, {})
        for ports, rates in ((graph.inputs, found.inputs), (graph.outputs, found.outputs)):
            for port in ports:
                rates[port.name.text] = checked_rate(port.rate, port.name.text, graph, values, prefix, port)
        for actor in graph.actors:
            if actor.is_config:
                found.configs[actor.name.text] = self.early_config(actor, graph, found, prefix)
        return found

    def early_config(self, actor, graph, found, prefix):
        args = checked_args(actor, graph, found.values, prefix)
        if not actor.is_hierarchical:
            return args, {port.name.text: checked_rate(port.rate, f"{actor.name.text}.{port.name.text}", graph, found.values, prefix, actor)
                          for port in actor.outs}, None
        child = self.file.child_of(actor)
        early = self.early(child, args, f"{prefix}{actor.name.text}.")
        for port in child.inputs:
            feeding = self.feeding(graph, f"{actor.name.text}.{port.name.text}")
            rate = early.inputs[port.name.text]
            if rate != found.inputs[feeding]:
                raise Refused("rate", f"rate {prefix}{actor.name.text}.{port.name.text} value {rate}", graph, actor, found.values,
                              value=rate, interface=feeding, interface_rate=found.inputs[feeding], port=port, child=child)
        return args, early.outputs, early

    def feeding(self, graph, end):
        return next(fifo.tail.text for fifo in graph.fifos if fifo.head.text == end)

    def level(self, graph, early, values):
        """The level of a graph whose parameters have these values. Raises Refused."""
        actors = [actor for actor in graph.actors if not actor.is_config]
        args, earlies, rates = {}, {}, {}
        for actor in actors:
            name = actor.name.text
            args[name] = checked_args(actor, graph, values, "")
            if actor.is_hierarchical:
                earlies[name] = self.early(self.file.child_of(actor), args[name], f"{name}.")
                inside = {**earlies[name].inputs, **earlies[name].outputs}
                rates.update({f"{name}.{port}": rate for port, rate in inside.items()})
            else:
                for port in actor.ins + actor.outs:
                    rates[f"{name}.{port.name.text}"] = checked_rate(port.rate, f"{name}.{port.name.text}", graph, values, "", actor)
        for name, (_, outs, _) in early.configs.items():
            rates.update({f"{name}.{port}": rate for port, rate in outs.items()})
        rates.update({**early.inputs, **early.outputs})
        links = self.links(graph, rates, {actor.name.text for actor in actors}) + self.state_links(actors)
        return Level(graph, [actor.name.text for actor in actors], links, args, earlies, rates, values)

    def links(self, graph, rates, inner):
        found = []
        configs = {actor.name.text for actor in graph.actors if actor.is_config}
        for number, fifo in enumerate(graph.fifos):
            tail, _, tail_port = fifo.tail.text.partition(".")
            head, _, head_port = fifo.head.text.partition(".")
            if head_port and head in configs:
                continue
            is_tail, is_head = bool(tail_port) and tail in inner, bool(head_port) and head in inner
            found.append(Link(number, tail if is_tail else None, head if is_head else None, None if is_tail else fifo.tail.text,
                              None if is_head else fifo.head.text, rates[fifo.tail.text], rates[fifo.head.text], fifo.delay_length,
                              fifo.tail.text, fifo.head.text))
        return found

    def state_links(self, actors):
        kept = [(actor.name.text, self.file.kept_by(self.file.child_of(actor))) for actor in actors if actor.is_hierarchical]
        return [Link(None, name, name, None, None, count, count, count, name, name) for name, count in kept if count]
