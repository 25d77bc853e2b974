"""Unknown ends of FIFOs (fault 5): what is there in their place, which end is most likely meant, and what to write."""
from .graph_reading import name_trouble
from .limits import PARTS
from .wording import joined, listed, named, quoted, with_names


class EndNames:
    """Looks at the ends of a graph's FIFOs. An unknown end becomes the one that is most likely meant, else None.

    Only an end without a FIFO is taken for meant, so no later fault follows from a guess. `kinds` has for each end `ins` for what
    tokens may be led to, or `outs` for what they come from.
    """

    def __init__(self, file, faults, graph):
        self.file, self.faults, self.graph = file, faults, graph
        self.kinds, self.taken, self.asked, self.renamed = self.all_ends(), set(), {}, {}
        for number, fifo in enumerate(graph.fifos):
            for word, wanted in ((fifo.tail, "outs"), (fifo.head, "ins")):
                if word:
                    self.enter(word.text, number, wanted)

    def all_ends(self):
        ends = {port.name.text: "outs" for port in self.graph.inputs}
        ends.update({port.name.text: "ins" for port in self.graph.outputs})
        for actor in self.graph.actors:
            for kind, ports in zip(("ins", "outs"), self.file.ports_of(actor) or ([], [])):
                ends.update({f"{actor.name.text}.{port.name.text}": kind for port in ports})
        return ends

    def enter(self, end, number, wanted):
        """Notes an end that a FIFO stands at, or the port that is asked of an actor that isn't there."""
        name, _, port = end.partition(".")
        if end in self.kinds:
            self.taken.add(end)
        elif port and not self.graph.actor(name):
            self.asked.setdefault(name, []).append((number, port, wanted))

    def resolve(self):
        """Tells the unknown ends of the graph and puts what is meant in their place."""
        if self.asked:
            self.find_renamed()
        for number, fifo in enumerate(self.graph.fifos):
            fifo.tail = self.end(fifo.tail, number, "outs")
            fifo.head = self.end(fifo.head, number, "ins")

    def find_renamed(self):
        """For each actor that isn't there the one that has the asked ports and no FIFO, where there is just one."""
        used = {end.partition(".")[0] for end in self.taken}
        unused = [actor.name.text for actor in self.graph.actors if actor.name.text not in used]
        if len(unused) > PARTS["actors"] or len(self.asked) > PARTS["actors"]:
            return
        for name, ports in self.asked.items():
            fitting = [other for other in unused if all(self.kinds.get(f"{other}.{port}") == wanted for _, port, wanted in ports)]
            near = self.faults.near(name, fitting) if len(fitting) > 1 else None
            if len(fitting) == 1 or near:
                self.renamed[name] = near or fitting[0]
                unused.remove(self.renamed[name])

    def end(self, word, number, wanted):
        """The end as it is, or the one that is most likely meant where it is unknown."""
        if word is None or word.text in self.kinds:
            return word
        name, _, port = word.text.partition(".")
        actor = self.graph.actor(name)
        if actor and port and (not actor.kind or self.file.ports_of(actor) is None):
            return None
        if port and name in self.renamed:
            return self.renamed_end(word, number, name, port)
        return self.unknown_end(word, wanted)

    def meaning(self, word, meant):
        self.taken.add(meant)
        return type(word)(meant, word.value, word.pointer)

    # ---- an actor that was renamed

    def renamed_end(self, word, number, name, port):
        """One paragraph at the first end tells of all ends that name the actor."""
        meant, asked = self.renamed[name], self.asked[name]
        if asked[0][:2] == (number, port):
            ins, outs = self.file.ports_of(self.graph.actor(meant))
            ports = [part.name.text for part in ins + outs]
            others = list(dict.fromkeys(f"FIFO {other}" for other, _, _ in asked if other != number))
            also = f" Change {listed(others)} in the same way." if others else ""
            write = f"Write {quoted(f'{meant}.{port}')} here.{also}"
            if name_trouble(meant):
                write = f"{quoted(meant)} is no name, so call the actor {quoted(name)} again."
            self.add(word, f"Graph {quoted(self.graph.name.text)} has no actor {quoted(name)}.",
                     f"{quoted(meant)} has {with_names('port', ports)}, and no FIFO: was {quoted(name)} renamed? {write}")
        return self.meaning(word, f"{meant}.{port}")

    def add(self, word, *sentences):
        self.faults.add(5, f"unknown {word.text}", word.pointer, word.value.start, word.value.end, joined(sentences))

    # ---- other ends

    def unknown_end(self, word, wanted):
        free = [end for end, kind in self.kinds.items() if kind == wanted and end not in self.taken]
        meant = self.nearest_end(word.text, free)
        self.add(word, self.why_no_end(word.text), self.advice(word.text, meant, free, wanted))
        return self.meaning(word, meant) if meant else None

    def nearest_end(self, text, free):
        """The free end that is most likely meant: of the same actor or an interface like it, else the nearest name, else the only one."""
        name, _, port = text.partition(".")
        if self.graph.actor(name):
            alike = [end for end in free if end.partition(".")[0] == name]
        else:
            alike = [end for end in free if ("." in end) == bool(port)]
        if len(alike) == 1 and (self.graph.actor(name) or not port):
            return alike[0]
        return self.faults.near(text, alike) or self.faults.near(text, free) or (free[0] if len(free) == 1 else None)

    def advice(self, text, meant, free, wanted):
        """What to write in place of an unknown end."""
        what = "output" if wanted == "ins" else "input"
        verb = "lead to" if wanted == "ins" else "come from"
        if meant and "." not in meant + text:
            wrong = name_trouble(meant)
            return self.ask(meant) if wrong else f"The {what} {quoted(meant)} has no FIFO: write {quoted(meant)} here, or call the {what} {quoted(text)}."
        if meant:
            return self.ask(meant)
        if free:
            return f"A FIFO may {verb} {named(free, last='or')} here: no FIFO stands there yet."
        more = f"add an {what} {quoted(text)} to the graph" if "." not in text else "add a port"
        return f"Each end that a FIFO may {verb} has its FIFO already: {more}, or leave this FIFO out."

    def ask(self, meant):
        wrong = next((step for step in meant.split(".") if name_trouble(step)), None)
        if wrong is None:
            return f"Do you mean {quoted(meant)}?"
        return f"It may mean {quoted(wrong)}, which is no name: rename that first."

    def why_no_end(self, text):
        name, _, port = text.partition(".")
        actor, label = self.graph.actor(name), f"Graph {quoted(self.graph.name.text)}"
        if actor and port:
            return joined([f"The actor {quoted(name)} has no port {quoted(port)}.", self.port_list(actor)])
        if actor:
            return f"{quoted(name)} is an actor. An end names one of its ports too, as {quoted(self.any_port(actor))}."
        if any(part.name.text == name for part in self.graph.inputs + self.graph.outputs):
            return f"{quoted(name)} is an interface, so its end is {quoted(name)} alone."
        if self.graph.param(name):
            return f"{quoted(name)} is a parameter. No FIFO leads to a parameter or comes from one: name it in an expression."
        known = [actor.name.text for actor in self.graph.actors] if port else [part.name.text for part in self.graph.inputs + self.graph.outputs]
        what = "actor" if port else "interface"
        has = f"It has {with_names(what, known)}." if known else f"It has no {what}s."
        return f"{label} has no {what} {quoted(name)}. {has}"

    def any_port(self, actor):
        ins, outs = self.file.ports_of(actor) or ([], [])
        return f"{actor.name.text}.{(ins + outs)[0].name.text}" if ins + outs else f"{actor.name.text}.i"

    def port_list(self, actor):
        ins, outs = self.file.ports_of(actor) or ([], [])
        owner = f"They are those of its graph {quoted(actor.child.text)}." if actor.is_hierarchical and actor.child else ""
        lists = [with_names(what, (port.name.text for port in ports)) for what, ports in (("input", ins), ("output", outs)) if ports]
        return joined([f"It has {listed(lists)}." if lists else "It has no ports.", owner])
