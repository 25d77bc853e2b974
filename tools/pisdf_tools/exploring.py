"""Walks the hierarchy of a file without tokens: for each choice of values its levels, and what is refused whatever the tokens are."""
import time
from dataclasses import dataclass, field
from itertools import product
from math import prod

from .firing import Runner
from .kernel_work import OVERFLOW, SHAPE, VALUE, KernelFault, fire
from .levels import Refused
from .rate_params import RateParams, names_in, with_sources

SECONDS = 4
MOST_CHOICES = 64


@dataclass
class Outcome:
    """What becomes of a firing of a graph with these values of its parameters: its level with the repetition vector, or refusals, of
    which the first is the one that a run meets where none depends on tokens."""
    values: dict
    level: object = None
    counts: dict | None = None
    refusals: list = field(default_factory=list)

    @property
    def refused(self):
        return self.refusals[0] if self.refusals else None


def spread(span, most):
    """The values of a parameter, or where they are more, so many of them from the least to the greatest."""
    if len(span) <= most:
        return span
    return sorted({span[(len(span) - 1) * place // max(most - 1, 1)] for place in range(most)})


def choices(params, values, picked=None):
    """Choices of values for these parameters, each with the given values, and how many choices there are at all. `picked` has the values of
    those parameters that have only some of their range."""
    spans = [(picked or {}).get(param.name.text) or range(param.low, param.high + 1) for param in params]
    every = prod(map(len, spans))
    most = MOST_CHOICES if every <= MOST_CHOICES else int(MOST_CHOICES ** (1 / len(params)) + 0.001)
    spreads = [spread(span, most) for span in spans]
    if prod(map(len, spreads)) > MOST_CHOICES:
        spreads = [values[:1] for values in spreads]
    return [{**values, **dict(zip((param.name.text for param in params), chosen))} for chosen in product(*spreads)], every


def certain_fault(kernel, args, ins, outs, sets):
    """The fault that a kernel meets whatever its tokens are, found by tokens that are all 0, or None."""
    try:
        fire(kernel, args, [[0] * rate for rate in ins], outs, sets)
    except KernelFault as fault:
        if fault.code == SHAPE or (fault.code == VALUE and kernel != "pick") or (fault.code == OVERFLOW and kernel == "ramp"):
            return fault
    return None


@dataclass
class Setting:
    """A graph as it is looked at: its path, its early values, and `loose`, its parameters of which not all values are tried."""
    graph: object
    path: str
    early: object
    loose: set

    def is_loose(self, expressions):
        return bool(with_sources(self.graph, names_in(expressions)) & self.loose)


class Explorer:
    """`outcomes` has those of each graph by its name.

    Of the parameters that decide rates all values are tried. Where these are too many, the graph is in `unknown`, with how many
    choices were tried and how many there are. Parameters that stand in arguments alone have one value, their least.
    """

    def __init__(self, file):
        self.file, self.runner, self.outcomes, self.unknown = file, Runner(file, SECONDS), {}, {}
        self.end, self.seen, self.rate_params = time.thread_time() + SECONDS, set(), RateParams(file)
        top = file.top_graph
        try:
            early = self.runner.top_early()
        except Refused as refused:
            self.outcomes[top.name.text] = [Outcome({}, refusals=[refused])]
        else:
            self.graph(Setting(top, top.name.text, early, set()))

    def graph(self, setting):
        """Looks at a graph with its early values, and at what it holds."""
        graph, name = setting.graph, setting.graph.name.text
        given = {param.name.text: setting.early.values[param.name.text] for param in graph.of_kind("in")}
        key = (name, tuple(given.values()), frozenset(setting.loose))
        if key in self.seen:
            return
        self.seen.add(key)
        self.try_values(setting, given)
        for actor in graph.actors:
            if actor.kind == "setgraph":
                self.graph(self.below(setting, actor, setting.early.configs[actor.name.text][2]))

    def try_values(self, setting, given):
        """An outcome for each choice of values that is tried."""
        graph, name = setting.graph, setting.graph.name.text
        found, deciding = self.outcomes.setdefault(name, []), self.rate_params.of(graph)
        chosen = graph.of_kind("set")
        tried, every = choices([param for param in chosen if param.name.text in deciding], given, self.picked(setting))
        others = [param for param in chosen if param.name.text not in deciding]
        setting.loose |= {param.name.text for param in others}
        if len(tried) < every or setting.loose & deciding:
            self.unknown[name] = (len(tried), every)
            setting.loose |= {param.name.text for param in chosen}
        for place, values in enumerate(tried):
            if time.thread_time() > self.end:
                self.unknown[name] = (place, every)
                setting.loose |= {param.name.text for param in chosen}
                return
            found.append(self.outcome_of_any(setting, values, others))

    def picked(self, setting):
        """The values that the kernel `pick` can give to a parameter within its range, by its name."""
        found = {}
        for actor in setting.graph.actors:
            if actor.kind == "config" and actor.kernel.text == "pick" and not setting.is_loose(actor.args):
                param = setting.graph.param(actor.sets[0].text)
                args = setting.early.configs[actor.name.text][0]
                found[param.name.text] = sorted({value for value in args if param.low <= value <= param.high})
        return found

    def outcome_of_any(self, setting, values, others):
        """The outcome with the least values of the other parameters, or where these alone are refused, with the greatest."""
        found = self.outcome(setting, {**values, **{param.name.text: param.low for param in others}})
        if all(refused.is_firm for refused in found.refusals):
            return found
        return self.outcome(setting, {**values, **{param.name.text: param.high for param in others}})

    def below(self, setting, actor, early):
        """The graph of a hierarchical actor, in which a parameter is loose where its argument is."""
        child = self.file.child_of(actor)
        loose = {param.name.text for param, argument in zip(child.of_kind("in"), actor.args) if setting.is_loose([argument])}
        return Setting(child, f"{setting.path}/{actor.name.text}:0", early, loose)

    def outcome(self, setting, values):
        graph = setting.graph
        chosen = {param.name.text: values[param.name.text] for param in graph.of_kind("set")}
        found = Outcome({name: value for name, value in values.items() if name in self.rate_params.of(graph)})
        self.configs(setting, found.refusals)
        try:
            found.level, found.counts, _ = self.runner.scheduled(graph, setting.path, setting.early, chosen)
        except Refused as refused:
            refused.path = refused.path or setting.path
            refused.is_firm = self.is_firm(setting, refused)
            found.refusals.append(refused)
            found.level = refused.more.get("level")
        for name in found.level.actors if found.level else []:
            self.actor(setting, found, name)
        return found

    def is_firm(self, setting, refused):
        """Whether the refusal holds whatever the values are that aren't tried."""
        if refused.kind not in ("param", "rate"):
            return not setting.loose & self.rate_params.of(setting.graph)
        if refused.graph is not setting.graph:
            return not setting.loose
        found = {refused.part.name.text} if refused.kind == "param" else names_in([refused.more["expression"]] if "expression" in refused.more else [])
        return not with_sources(setting.graph, found) & setting.loose

    def actor(self, setting, found, name):
        actor, level = setting.graph.actor(name), found.level
        if actor.is_hierarchical:
            self.graph(self.below(setting, actor, level.earlies[name]))
            return
        rates = [[level.rates[f"{name}.{port.name.text}"] for port in ports] for ports in (actor.ins, actor.outs)]
        self.fault(actor, setting, (level.values, level.args[name]), rates, found.refusals)

    def configs(self, setting, refusals):
        """Faults of the kernels of configuration actors, whose rates are those of the interfaces that feed them."""
        graph, early = setting.graph, setting.early
        for actor in graph.actors:
            if actor.kind == "config":
                args, outs, _ = early.configs[actor.name.text]
                ins = [early.inputs[self.runner.levels.feeding(graph, f"{actor.name.text}.{port.name.text}")] for port in actor.ins]
                self.fault(actor, setting, (early.values, args), (ins, list(outs.values())), refusals)

    def fault(self, actor, setting, given, rates, refusals):
        """Adds the fault that a kernel meets whatever its tokens are. What an argument decides isn't told where its value is loose."""
        values, args = given
        fault = certain_fault(actor.kernel.text, args, *rates, len(actor.sets or []))
        if not fault or (fault.code != SHAPE and setting.is_loose(actor.args)):
            return
        shown = {name: value for name, value in values.items() if not with_sources(setting.graph, {name}) & setting.loose}
        refused = Refused("kernel", f"kernel {actor.name.text}:0 {fault.code}", setting.graph, actor, shown, fault=fault, firing=0,
                          args=[] if setting.is_loose(actor.args) else args, ins=[], outs=rates[1])
        refused.path = setting.path
        refused.is_firm = not setting.is_loose([port.rate for port in actor.ins + actor.outs if port.rate])
        refusals.append(refused)

    def certain_refusals(self):
        """Refusals that no tokens avoid: those of graphs that are refused with all values of their parameters."""
        certain = []
        for found in self.outcomes.values():
            if found and all(any(refused.is_firm for refused in outcome.refusals) for outcome in found):
                certain += [refused for refused in found[0].refusals if refused.is_firm]
        return certain
