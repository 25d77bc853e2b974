"""What the parts of graphs are called in pictures."""
from pisdf_tools.limits import PARAMETER_HIGH
from pisdf_tools.rate_params import names_in

SHOWN_TOKENS = 4


def called(name, words):
    return f"{name}({', '.join(words)})" if words else name


def actor_lines(actor):
    """An actor's name, and what it does."""
    what = f"graph {actor.child.text}" if actor.child else actor.kernel.text
    return [actor.name.text, called(what, [argument.text for argument in actor.args])]


def param_lines(param):
    """A parameter's name, its expression where it has one, and its range where it isn't the widest."""
    expression = f" = {param.expression.text}" if param.expression else ""
    is_widest = (param.low, param.high) == (0, PARAMETER_HIGH)
    return [param.name.text + expression] + ([] if is_widest else [f"{param.low} to {param.high}"])


def delay_label(fifo):
    """What stands on a FIFO at first, and how long it lives: the first tokens, and how many there are."""
    count = fifo.delay_length
    if not count:
        return ""
    tokens = ["0"] * min(count, SHOWN_TOKENS) if isinstance(fifo.delay, int) else fifo.delay[:SHOWN_TOKENS]
    shown = ", ".join(map(str, tokens))
    more = f", .. ({count} tokens)" if count > SHOWN_TOKENS else ""
    return f"delay {shown}{more}" + (", permanent" if fifo.life == "permanent" else "")


def end_label(end, rates):
    """What stands at an end of a FIFO: the port's name and its rate. An interface's name stands in its own box."""
    return " ".join(word for word in (end.text.partition(".")[2], rates[end.text]) if word)


def rates_of(graph, file):
    """The rate at each end of a graph, as it is written: of an interface, or of an actor's port. An input of a configuration actor has
    none."""
    rates = {part.name.text: part.rate.text for part in graph.inputs + graph.outputs}
    for actor in graph.actors:
        ins, outs = file.ports_of(actor)
        rates.update({f"{actor.name.text}.{port.name.text}": port.rate.text if port.rate else "" for port in ins + outs})
    return rates


def uses(graph):
    """Who sets a parameter of a graph and who uses it, as pairs: an actor and the parameter, or the parameter and whoever names it."""
    for param in graph.params:
        name = param.name.text
        for actor in graph.actors:
            if name in [word.text for word in actor.sets or []]:
                yield actor.name.text, name
            if name in names_in(actor.args + [port.rate for port in (actor.ins or []) + (actor.outs or []) if port.rate]):
                yield name, actor.name.text
        for part in graph.inputs + graph.outputs:
            if name in names_in([part.rate]):
                yield name, part.name.text
        for other in graph.of_kind("is"):
            if name in names_in([other.expression]):
                yield name, other.name.text


# ---- nodes of a single-rate graph

PLAIN = ("firing", "source", "sink")


class Names:
    """What the nodes of a plan are called. `links` has the two ends of each link of the level, where the graph is known; the ends of
    a link by which an actor's state goes on are the actor."""

    def __init__(self, rows, links=()):
        self.kinds = {row[0]: (row[1], row[2]) for row in rows["node"]}
        self.links, self.before, self.after = links, {}, {}
        for _, tail, head, _, _ in rows.get("edge", []):
            self.before.setdefault(head, tail)
            self.after.setdefault(tail, head)

    def ends(self, link):
        """The two ends of a link, or None."""
        return self.links[int(link)] if link.isdigit() and int(link) < len(self.links) else None

    def of(self, number):
        """A firing and an interface by their names, others by what they stand beside."""
        kind, name = self.kinds[number]
        if kind in PLAIN:
            return name
        if kind in ("init", "end"):
            return self.delay(number, kind, name)
        near = (self.before if kind in ("fork", "broadcast") else self.after).get(number)
        if near is None:
            return f"{kind} {name}"
        return f"{kind} of {self.beside(near, name, 0)}" if kind in ("fork", "broadcast") else f"{kind} to {self.beside(near, name, 1)}"

    def beside(self, number, link, side):
        """A node at a link with its port, where that is known."""
        kind, name = self.kinds[number]
        ends = self.ends(link)
        port = ends[side].partition(".")[2] if ends and kind == "firing" else ""
        return f"{name}.{port}" if port else self.of(number)

    def delay(self, number, kind, link):
        """The beginning or the end of a delay: by the port that the delay leads to, or by the firing that is next to it."""
        ends = self.ends(link)
        if ends and ends[0] == ends[1]:
            return f"state of {ends[0]}" if kind == "init" else f"next state of {ends[0]}"
        if ends:
            return f"{kind} of {ends[1]}"
        near, way = number, self.after if kind == "init" else self.before
        while near in way:
            near = way[near]
            if self.kinds[near][0] in PLAIN:
                return f"{'init to' if kind == 'init' else 'end from'} {self.kinds[near][1]}"
        return f"{kind} {link}"

    def group(self, number):
        """Where a node goes in a picture of actors in place of firings: a firing to its actor, what copies on a link to that link."""
        kind, name = self.kinds[number]
        if kind == "firing":
            return name.rsplit(":", 1)[0]
        if kind in PLAIN:
            return name
        ends = self.ends(name)
        if not ends:
            return f"link {name}"
        return f"state of {ends[0]}" if ends[0] == ends[1] else f"{ends[0]} to {ends[1]}"
