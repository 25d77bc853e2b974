"""Levels that are made up, each with a graph file and a token file of which it is the level (docs/MEANING.md defines levels)."""
import json
from dataclasses import dataclass, field

from pisdf_tools.levels import Level, Link

# The kernels that actors have by their numbers of inputs and outputs. `plan`, `schedule` and `memory` fire none of them.
KERNELS = {(0, 1): ("ramp", ["0", "1"]), (1, 1): ("pass", []), (1, 2): ("dup", []), (2, 1): ("add", [])}


@dataclass
class Made:
    """A level that is made up: its actors by name, the links between them as (tail, p, head, c, delay), those from sources as
    (rate, head, c), and those to sinks as (tail, p, rate).

    `kept` says of some actors how many tokens their child keeps from one firing to the next. The sources at the places `configured`
    are outputs of configuration actors. `mixed` has the FIFOs in the order of the file, by their place among all links. A rate of a
    kernel's port that is `told` is written as a parameter that a configuration actor sets.
    """
    actors: list
    inner: list = field(default_factory=list)
    sources: list = field(default_factory=list)
    sinks: list = field(default_factory=list)
    kept: dict = field(default_factory=dict)
    configured: list = field(default_factory=list)
    mixed: list = None
    told: int = None

    def source_name(self, place):
        return f"c{place}.o" if place in self.configured else f"x{place}"

    def fifos(self):
        """The FIFOs of the level, in the order of the file."""
        found = [Link(0, tail, head, None, None, p, c, delay, f"{tail}.o{k}", f"{head}.i{k}")
                 for k, (tail, p, head, c, delay) in enumerate(self.inner)]
        found += [Link(0, None, head, self.source_name(k), None, rate, c, 0, self.source_name(k), f"{head}.s{k}")
                  for k, (rate, head, c) in enumerate(self.sources)]
        found += [Link(0, tail, None, None, f"y{k}", p, rate, 0, f"{tail}.t{k}", f"y{k}") for k, (tail, p, rate) in enumerate(self.sinks)]
        return found if self.mixed is None else [found[place] for place in self.mixed]

    def level(self):
        links = self.fifos() + [Link(None, actor, actor, None, None, kept, kept, kept, actor, actor)
                                for actor in self.actors for kept in [self.kept.get(actor)] if kept]
        return Level(None, self.actors, links, {}, {}, {}, {})

    def source_names(self):
        """The names of the sources in their order: inputs, and then what configuration actors give."""
        places = range(len(self.sources))
        return [self.source_name(k) for k in places if k not in self.configured] + [self.source_name(k) for k in places if k in self.configured]

    def sink_names(self):
        return [f"y{k}" for k in range(len(self.sinks))]


# ---- the graph file


def port(name, rate):
    return {"name": name, "rate": str(rate)}


def kernel(name, work, args, ins, outs):
    return {"name": name, "kind": "kernel", "kernel": work, "args": args, "ins": ins, "outs": outs}


def config(name, work, outs, param):
    return {"name": name, "kind": "config", "kernel": work, "args": [], "ins": [{"name": "i"}], "outs": outs, "sets": [param]}


def graph(name, params, ins, outs, actors, links):
    return {"name": name, "params": [{"name": param, "kind": "set"} for param in params], "inputs": ins, "outputs": outs,
            "actors": actors, "fifos": links, "exports": []}


def child(name, ins, outs, kept):
    """A graph with an actor at each interface, which keeps so many tokens from one firing to the next."""
    actors, links = [], []
    for k, one in enumerate(ins):
        actors.append(kernel(f"a{k}", "add", [], [port("i", 1), port("j", 1)], [port("o", 1)]))
        links += [{"from": one["name"], "to": f"a{k}.i"}, {"from": f"a{k}.o", "to": f"a{k}.j", "delay": 1}]
    for k, one in enumerate(outs):
        actors.append(kernel(f"r{k}", "ramp", ["0", "1"], [], [port("o", 1)]))
        links.append({"from": f"r{k}.o", "to": one["name"]})
    if kept:
        actors.append(kernel("k", "pass", [], [port("i", 1)], [port("o", 1)]))
        links.append({"from": "k.o", "to": "k.i", "delay": kept, "life": "permanent"})
    return graph(name, [], ins, outs, actors, links)


def ports_of(made):
    """The inputs and the outputs of each actor, as ports of the file."""
    ins, outs = {actor: [] for actor in made.actors}, {actor: [] for actor in made.actors}
    for link in made.fifos():
        if link.head:
            ins[link.head].append(port(link.head_port.split(".")[1], link.consumption))
        if link.tail:
            outs[link.tail].append(port(link.tail_port.split(".")[1], link.production))
    return ins, outs


def retold(ports, told):
    return [port(one["name"], "v" if one["rate"] == str(told) else one["rate"]) for one in ports]


def actors_of(made):
    """The actors of the file, and the children of those whose ports no kernel has."""
    ins, outs = ports_of(made)
    actors, children = [], []
    for name in made.actors:
        shape = KERNELS.get((len(ins[name]), len(outs[name])))
        if shape and not made.kept.get(name):
            actors.append(kernel(name, *shape, retold(ins[name], made.told), retold(outs[name], made.told)))
        else:
            actors.append({"name": name, "kind": "graph", "graph": f"g{name}", "args": []})
            children.append(child(f"g{name}", ins[name], outs[name], made.kept.get(name)))
    return actors, children


def files_of(made):
    """The text of the graph file, and that of a token file for one iteration."""
    actors, children = actors_of(made)
    links = [{"from": link.tail_port, "to": link.head_port, **({"delay": link.delay} if link.delay else {})} for link in made.fifos()]
    ins = [port(f"x{k}", rate) for k, (rate, _, _) in enumerate(made.sources)]
    tokens = "".join(f"x{k}" + ",0" * rate + "\n" for k, (rate, _, _) in enumerate(made.sources))
    configs = [config(f"c{k}", "spread", [port("o", made.sources[k][0])], f"n{k}") for k in made.configured]
    links += [{"from": f"x{k}", "to": f"c{k}.i"} for k in made.configured]
    params = [f"n{k}" for k in made.configured]
    if made.told is not None:
        ins.append(port("t", 1))
        tokens += f"t,{made.told}\n"
        configs.append(config("ct", "read_param", [], "v"))
        links.append({"from": "t", "to": "ct.i"})
        params.append("v")
    outs = [port(f"y{k}", rate) for k, (_, _, rate) in enumerate(made.sinks)]
    top = graph("g", params, ins, outs, configs + actors, links)
    return json.dumps({"pisdf": 3, "top": "g", "graphs": [top, *children]}), tokens
