"""What a refusal of a run means by the line alone, where its iteration can't be worked out in a short time."""
from .kernels import code_meaning, table
from .limits import BASE_ENTRY, FIRINGS, LINKS, RATE, TOKENS
from .wording import grouped, joined, quoted

CAUSES = {
    "rates": f"No numbers of firings from 1 to {grouped(BASE_ENTRY)} fit the rates of this graph with the values that its parameters have there, "
             "or of the two rates of a FIFO exactly one is 0.",
    "deadlock": "No firing is possible any more. Each actor named here has so many firings left, and lacks tokens on an input. "
                "A FIFO of the ring that they form needs a delay.",
    "limit": f"One firing of a graph has at most {grouped(FIRINGS)} firings, {grouped(LINKS)} links and {grouped(TOKENS)} tokens. "
             "Let a firing work on more tokens at once, or an iteration on fewer.",
    "rate": f"A rate lies from 0 to {grouped(RATE)}, and an argument has a value within 64 bits.",
    "param": "The parameter has no value, or one out of its range.",
}


def graph_at(file, path):
    """The graph that is fired at a path, as `g/b:0`."""
    graph = file.top_graph
    for step in path.split("/")[1:]:
        actor = graph.actor(step.rpartition(":")[0]) if graph else None
        graph = file.child_of(actor) if actor else None
    return graph


def part_at(file, graph, name):
    """The parameter, interface, port or argument of a name as `b.n`, `a.i` or `a[0]`, or the last part that is found."""
    found = graph
    for step in name.split("."):
        plain, _, place = step.partition("[")
        actor, param = graph.actor(plain), graph.param(plain)
        port = next((port for port in graph.inputs + graph.outputs if port.name.text == plain), None)
        if actor is None:
            return param or port or found
        found = actor.args[int(place[:-1])] if place else actor
        graph = file.child_of(actor) if actor.is_hierarchical else None
        if graph is None:
            ports = (actor.ins or []) + (actor.outs or [])
            return next((port for port in ports if port.name.text == name.rpartition(".")[2]), found)
    return found


def kernel_words(actor, code):
    row = table()[actor.kernel.text]
    return joined([f"The kernel {quoted(row.name)} met code {code}: {code_meaning(code)}.", row.rule(code)])


def plain_words(reading, line):
    """A paragraph on the line of a refused run."""
    _, path, cause, *words = line.split(" ")
    graph = graph_at(reading.file, path)
    if graph is None:
        return CAUSES.get(cause, "")
    part, text = graph.name, CAUSES.get(cause, "")
    if cause in ("param", "rate"):
        part = part_at(reading.file, graph, words[0])
    elif cause == "deadlock":
        part = graph.actor(words[0]) or graph.name
    elif cause == "kernel":
        part = graph.actor(words[0].rpartition(":")[0])
        text = kernel_words(part, int(words[1]))
    where = reading.file.place_of(part.pointer)
    return (f"{reading.source.place(part.value.start)}, in {where}, in the firing {quoted(path)}:\n"
            f"{reading.source.snippet(part.value.start, part.value.start + 1)}\n{text}")
