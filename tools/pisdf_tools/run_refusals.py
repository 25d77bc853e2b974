"""What a refusal of a run means: the values that led to it, where they come from, and what to do."""
from math import gcd, lcm

from . import balance
from .expressions import names
from .fitting import fitting_rate
from .graph_file import shown_place
from .kernels import code_meaning, table
from .limits import BASE_ENTRY, PARAMETER_HIGH, RATE, TOKENS
from .rate_params import RateParams, names_in, with_sources
from .static_refusals import graph_at
from .wording import counted, grouped, joined, listed, quoted, shortened, times

MOST_SHOWN = 8
# At so many FIFOs of a ring it is tried whether a delay there is enough.
MOST_TRIED = 16


def tokens_words(tokens):
    """Tokens in a row, of many only the first."""
    shown = ", ".join(str(token) for token in tokens[:MOST_SHOWN])
    return f"{shown}, .." if len(tokens) > MOST_SHOWN else shown


def values_words(expression, values):
    """The values of the parameters in an expression, as ` with `n` = 3`."""
    found = dict.fromkeys(name.name for name in names(expression.tree) if name.name in values)
    return f" with {listed([f'{quoted(name)} = {values[name]}' for name in found])}" if found else ""


def range_advice(param, value, source):
    """What to do where a parameter has a value out of its range."""
    name = param.name.text
    if value < 0:
        return (f"A parameter is never negative. Let it hold the value plus {-value}, with bounds that fit, and write `{name}-{-value}` "
                "where the negative one is wanted, as in an argument.")
    if value > PARAMETER_HIGH:
        return f"A parameter is {PARAMETER_HIGH} at most. Let greater numbers be tokens or arguments."
    return f"Its range is {param.low} to {param.high}. Mend {source}, or widen the range."


class RunRefusals:
    """Tells of one refusal. `reading` is the graph file, `refused` what the firing rules found."""

    def __init__(self, reading, refused, iteration):
        self.reading, self.source, self.refused, self.iteration = reading, reading.source, refused, iteration
        self.graph, self.values = refused.graph, refused.values

    def text(self):
        tell = {"param": self.param, "rate": self.rate, "rates": self.rates, "limit": self.limit, "deadlock": self.deadlock,
                "kernel": self.kernel}[self.refused.kind]
        return tell()

    def at(self, part, *sentences):
        """A paragraph that stands at a part of the file."""
        start, end = shown_place(self.source, part)
        where = self.reading.file.place_of(part.pointer)
        return (f"{self.source.place(start)}, in {where}, in the firing {quoted(self.refused.path)} of iteration {self.iteration}:\n"
                f"{self.source.snippet(start, end)}\n{joined(sentences)}")

    def line_of(self, part):
        line, column = self.source.position(part.value.start)
        return f"line {line}, column {column}"

    # ---- parameters and rates

    def param(self):
        param, more = self.refused.part, self.refused.more
        name = quoted(param.name.text)
        if "why" in more:
            return self.at(param.expression, f"The parameter {name} has no value{values_words(param.expression, self.values)}: {more['why'].text}.",
                           more["why"].advice)
        value = more["value"]
        if param.kind == "is":
            came = f"The value of \"{shortened(param.expression.text)}\"{values_words(param.expression, self.values)} is {value}."
            return self.at(param.expression, came, range_advice(param, value, "the expression"))
        if param.kind == "set":
            return self.at(param, f"The parameter {name} is set to {value} by {self.setter_words(param)}.", range_advice(param, value, "what is set"))
        argument = self.argument()
        return self.at(argument, f"The argument gives the parameter {name} of the graph {quoted(self.graph.name.text)} ({self.line_of(param)}) the value {value}.",
                       range_advice(param, value, "the argument"))

    def argument(self):
        """The argument that gives the inherited parameter of this refusal."""
        file = self.reading.file
        graph, (*names_above, name) = graph_at(file, self.refused.path), self.refused.cause.split(" ")[1].split(".")
        for step in names_above:
            actor = graph.actor(step)
            graph = file.child_of(actor)
        return actor.args[[param.name.text for param in graph.of_kind("in")].index(name)]

    def setter_words(self, param):
        for actor in self.graph.actors:
            if any(word.text == param.name.text for word in actor.sets or []):
                if actor.kind == "setgraph":
                    return f"what the graph {quoted(actor.child.text)} exports, by the actor {quoted(actor.name.text)}"
                ends = [fifo.tail.text for fifo in self.graph.fifos if fifo.head.text.startswith(actor.name.text + ".")]
                fed = f", which reads the input {quoted(ends[0])}" if ends else ""
                return f"the configuration actor {quoted(actor.name.text)} ({actor.kernel.text}){fed}"
        return "a configuration actor"

    def rate(self):
        more, expression = self.refused.more, self.refused.more.get("expression")
        if "interface" in more:
            return self.at(more["port"], f"The input {quoted(more['port'].name.text)} of the graph {quoted(more['child'].name.text)} has the rate {more['value']}. "
                           f"The actor {quoted(self.refused.part.name.text)} is fed by the input interface {quoted(more['interface'])}, whose rate is {more['interface_rate']}.",
                           "A configuration actor reads the whole interface once, so both rates must be equal.")
        shown = f"\"{shortened(expression.text)}\"{values_words(expression, self.values)}"
        what = "argument" if "/args/" in expression.pointer else "rate"
        if "why" in more:
            return self.at(expression, f"The {what} {shown} has no value: {more['why'].text}.",
                           more["why"].advice)
        value = more["value"]
        wrong = f"A rate may be {grouped(RATE)} at most" if value > RATE else "A rate can't be below 0"
        return self.at(expression, f"The rate {shown} is {value}. {wrong}.",
                       self.fewer_words(expression) if value > RATE else "")

    def fewer_words(self, expression):
        """How to do with a lower rate."""
        if "/actors/" in expression.pointer:
            return "Let the actor fire more often on fewer tokens."
        if self.graph is self.reading.file.top_graph:
            return "Let an iteration take and give fewer tokens, and make more iterations."
        return "Let a firing of the graph take and give fewer tokens, and fire it more often."

    # ---- balance

    def fifo_words(self, link):
        if link.fifo is None:
            return f"the state of the graph of {quoted(link.tail)}"
        fifo = self.graph.fifos[link.fifo]
        return f"FIFO {link.fifo} ({self.line_of(fifo)}), from {quoted(fifo.tail.text)} to {quoted(fifo.head.text)}"

    def rates(self):
        found, sentences = self.refused.more["balance"], []
        for conflict in found.conflicts[:4]:
            sentences.append(self.zero_words(conflict.link) if conflict.kind == "zero" else self.conflict_words(conflict))
        if len(found.conflicts) > 4:
            sentences.append(f"{counted(len(found.conflicts) - 4, 'FIFO')} more can't hold either.")
        for actor in found.large[:3] if not found.conflicts else []:
            least = min(found.base, key=lambda other: (found.base[other], other))
            sentences.append(f"The rates let {quoted(actor)} fire {times(found.base[actor])} for {times(found.base[least])} of {quoted(least)}.")
        if found.large and not found.conflicts:
            sentences += [f"The balance may ask for {grouped(BASE_ENTRY)} firings of an actor.", self.uneven_words(self.uneven_links(found))]
        return self.at(self.place_of_conflict(found), "No numbers of firings fit the rates of this graph.", *sentences, self.env_words())

    def place_of_conflict(self, found):
        """The rate that is 0, or the FIFO whose equation can't hold, or the one whose rates are the most uneven."""
        uneven = [] if found.conflicts else self.uneven_links(found)
        if uneven:
            return self.graph.fifos[uneven[0].fifo]
        first = found.conflicts[0] if found.conflicts else None
        if first and first.kind == "zero":
            return self.rate_at(first.link.tail_port if first.link.production == 0 else first.link.head_port)
        return self.graph.fifos[first.link.fifo] if first and first.link.fifo is not None else self.graph.name

    def uneven_links(self, found):
        """The FIFOs that make the counts great, the most uneven first: those of which no rate divides the other, then by how far the rates are
        from each other."""
        part = set(next(component for component in found.components if found.large[0] in component)) if found.large else ()
        links = [link for link in self.refused.more["level"].links if link.fifo is not None and link.tail in part and link.head in part
                 and link.production != link.consumption and link.production and link.consumption]
        return sorted(links, key=lambda link: (-(link.production % link.consumption > 0 and link.consumption % link.production > 0),
                                               -(lcm(link.production, link.consumption) // gcd(link.production, link.consumption))))

    def uneven_words(self, links):
        shown = ", and on ".join(f"{self.fifo_words(link)}, with {link.production} to {link.consumption}" for link in links[:2])
        return f"The rates differ most on {shown}. Take rates there of which one divides the other, or that are nearer to each other." if shown else ""

    def rate_at(self, end):
        """The expression of the rate at an end."""
        name, _, port = end.partition(".")
        actor = self.graph.actor(name)
        ins, outs = self.reading.file.ports_of(actor) if actor else (self.graph.inputs, self.graph.outputs)
        return next(part.rate for part in ins + outs if part.name.text == (port or name))

    def env_words(self, names=None):
        """The values of these parameters, or of those that decide rates."""
        names = RateParams(self.reading.file).of(self.graph) if names is None else names
        shown = [f"{quoted(name)} = {value}" for name, value in self.values.items() if name in names][:12]
        if not shown:
            return ""
        return f"The parameter is {shown[0]}." if len(shown) == 1 else f"The parameters are {listed(shown)}."

    def zero_words(self, link):
        is_tail = link.production == 0
        zero, other = (link.tail_port, link.head_port) if is_tail else (link.head_port, link.tail_port)
        rate = self.rate_at(zero)
        shown = "" if rate.text.strip() == "0" else f", as \"{shortened(rate.text)}\"{values_words(rate, self.values)}"
        moves = f"{quoted(other)} {'takes' if is_tail else 'gives'} {counted(link.consumption + link.production, 'token')}{' a firing' if '.' in other else ''}"
        what = f"The {'input' if is_tail else 'output'} {quoted(zero)}" if "." not in zero else quoted(zero)
        fit = fitting_rate(self.refused.more["level"], link)
        advice = "" if fit is None else f": {fit} fits the other rates" + ("" if "." in zero else ", so that nothing is read again or lost")
        return (f"{what} has the rate 0 ({self.line_of(rate)}){shown}, and on {self.fifo_words(link)}, {moves}. Of the two rates of a FIFO both are 0 or "
                f"neither is. Most likely the 0 is wrong{advice}.")

    def conflict_words(self, conflict):
        link = conflict.link
        own = (f"On {self.fifo_words(link)}, {quoted(link.tail_port)} gives {counted(link.production, 'token')} a firing and {quoted(link.head_port)} "
               f"takes {link.consumption}")
        if link.tail == link.head:
            return f"{own}. Both ends are of one actor, so the rates must be equal."
        own += f", so {self.ratio_words(link, conflict.wanted)}"
        way = listed([f"FIFO {other.fifo} ({other.production} to {other.consumption})" for other in conflict.way if other.fifo is not None])
        return f"{own}. But by {way} {self.ratio_words(link, conflict.forced)}. Change a rate so that both agree."

    def ratio_words(self, link, ratio):
        """How often the head fires for so many firings of the tail."""
        return f"{quoted(link.head)} has to fire {times(ratio.numerator)} for {'each firing' if ratio.denominator == 1 else f'{ratio.denominator} firings'} of {quoted(link.tail)}"

    def limit(self):
        what, count, limit = self.refused.more["limit"]
        level, counts = self.refused.more["level"], self.refused.more["counts"]
        head = f"One firing of the graph {quoted(self.graph.name.text)} has {grouped(count)} {what}, and {grouped(limit)} are allowed."
        if what == "firings":
            parts = sorted(counts.items(), key=lambda pair: -pair[1])[:4]
            most = listed([f"{quoted(actor)} {times(found)}" for actor, found in parts])
            return self.at(self.graph.name, head, f"Most often fire {most}.", self.driver_words(level, counts, parts[0][0]),
                           "Give the ports of these actors greater rates, so that a firing works on more tokens.", self.env_words())
        measure = balance.link_count if what == "links" else balance.token_count
        parts = sorted(level.links, key=lambda link: -measure(link, counts))[:3]
        most = listed([f"{self.fifo_words(link)} with {grouped(measure(link, counts))}" for link in parts])
        rule = ("A link counts the firings at both of its ends, and 2." if what == "links" else "A link counts the tokens that are put on it in all firings, and its delay.")
        advice = "Give ports greater rates, so that there are fewer firings." if what == "links" else "Split the work: let an iteration take fewer tokens."
        return self.at(self.graph.name, head, rule, f"The most have {most}.", advice, self.env_words())

    def driver_words(self, level, counts, actor):
        """The interface that makes an actor fire so often."""
        for link in level.links:
            if link.head == actor and link.source is not None:
                return f"The interface {quoted(link.source)} has {grouped(link.production)} tokens, of which a firing of {quoted(actor)} reads {link.consumption}."
            if link.tail == actor and link.sink is not None:
                return f"The interface {quoted(link.sink)} wants {grouped(link.consumption)} tokens, of which a firing of {quoted(actor)} gives {link.production}."
        return ""

    # ---- deadlock

    def deadlock(self):
        more = self.refused.more
        level, stuck = more["level"], more["stuck"]
        waits = {}
        for place, link in enumerate(level.links):
            if link.is_inner and link.head in stuck.left and stuck.on_link[place] < link.consumption:
                waits.setdefault(link.head, []).append((place, link))
        ring = self.ring_of_waits(waits)
        left = [f"{quoted(actor)} ({stuck.left[actor]})" for actor in level.actors if actor in stuck.left]
        sentences = [f"No firing is possible any more. Firings are left of {listed(left[:8])}."]
        for place, link in ring[:6]:
            sentences.append(f"{quoted(link.head)} waits for {counted(link.consumption, 'token')} on {self.fifo_words(link)}, which has {stuck.on_link[place]}.")
        sentences.append("These actors wait for each other in a ring." if len(ring) > 1 else "The actor waits for itself.")
        link, enough = self.best_place(level, more["counts"], ring)
        sentences.append(self.delay_advice(link, enough))
        part = self.graph.fifos[link.fifo] if link.fifo is not None else self.graph.name
        return self.at(part, *sentences, self.env_words())

    def ring_of_waits(self, waits):
        """Links in a ring, each of which lacks tokens from the actor that waits for the next."""
        actor, way, seen = next(iter(waits)), [], {}
        while actor not in seen:
            seen[actor] = len(way)
            place, link = next(((place, link) for place, link in waits[actor] if link.tail in waits), waits[actor][0])
            way.append((place, link))
            actor = link.tail
        return way[seen[actor]:]

    def best_place(self, level, counts, ring):
        """Where a delay is most likely meant, with how many tokens more let all fire there: where one stands already, else at a FIFO that leads
        back in the file, of those where a longer delay alone is enough. Where it is at none of them, the number is None."""
        order = {actor.name.text: place for place, actor in enumerate(self.graph.actors)}
        inner = [pair for pair in ring if pair[1].fifo is not None] or ring
        inner.sort(key=lambda pair: (pair[1].delay > 0, order[pair[1].tail] >= order[pair[1].head], pair[1].fifo or 0), reverse=True)
        for place, link in inner[:MOST_TRIED]:
            enough = self.enough_at(level, counts, place, link)
            if enough is not None:
                return link, enough
        return inner[0][1], None

    def enough_at(self, level, counts, place, link):
        """With how many tokens more on one link all fire, found by trying. None where no number is enough."""
        low, high = 0, min(link.consumption * counts[link.head], TOKENS)
        if isinstance(balance.order_of(level, counts, {place: high}), balance.Stuck):
            return None
        while high - low > 1:
            middle = (low + high) // 2
            if isinstance(balance.order_of(level, counts, {place: middle}), balance.Stuck):
                low = middle
            else:
                high = middle
        return high

    def delay_advice(self, link, enough):
        """How long a delay on a link lets all fire."""
        if enough is None:
            return "More than one FIFO needs a delay: begin with this one."
        now = f" more, {link.delay + enough} in all," if link.delay else ""
        life = "With `\"life\":\"permanent\"` its tokens go on to the next firing of the graph." if self.reading.file.version > 1 else ""
        return joined([f"A delay of {counted(enough, 'token')}{now} on FIFO {link.fifo} is enough: `\"delay\":{link.delay + enough}`.", life])

    # ---- kernels

    def kernel(self):
        more, actor = self.refused.more, self.refused.part
        fault, row = more["fault"], table()[actor.kernel.text]
        args = f" with {'the argument' if len(more['args']) == 1 else 'the arguments'} {', '.join(map(str, more['args']))}" if more["args"] else ""
        reads = listed([f"{quoted(port.name.text)} read {counted(len(tokens), 'token')}{': ' * bool(tokens)}{tokens_words(tokens)}"
                        for port, tokens in zip(actor.ins, more["ins"])])
        gives = listed([f"{quoted(port.name.text)} has the rate {rate}" for port, rate in zip(actor.outs, more["outs"])])
        return self.at(actor.kernel, f"Firing {more['firing']} of the actor {quoted(actor.name.text)} met code {fault.code}: {code_meaning(fault.code)}.",
                       f"{quoted(row.name)} in short: {row.short}. Here {fault.text}." if row.is_config else
                       f"The kernel {quoted(row.name)}{args} gives {row.short}. Here {fault.text}.", self.feeding_words(actor), f"{reads[:1].upper()}{reads[1:]}." if reads else "",
                       f"{gives[:1].upper()}{gives[1:]}." if gives else "", row.rule(fault.code), self.env_words(self.used_by(actor)))

    def used_by(self, actor):
        """The parameters that an actor's arguments and rates name, and those that these are derived from."""
        return with_sources(self.graph, names_in(actor.args + [port.rate for port in actor.ins + actor.outs if port.rate]))

    def feeding_words(self, actor):
        """The interfaces that feed a configuration actor, with their rates."""
        ends = [fifo.tail.text for fifo in self.graph.fifos if fifo.head.text.partition(".")[0] == actor.name.text] if actor.is_config else []
        rates = [(end, self.rate_at(end)) for end in ends]
        return joined(f"The input {quoted(end)} feeds it, with the rate \"{shortened(rate.text)}\" ({self.line_of(rate)})." for end, rate in rates)
