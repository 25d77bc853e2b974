"""The single-rate graph of a level by its definition (docs/MEANING.md), and what flows over its edges."""
from dataclasses import dataclass, field


@dataclass
class Edge:
    """`tail` and `head` are nodes as the graph names them, and then their numbers. `link` is the number of the link."""
    tail: object
    head: object
    size: int
    link: int


@dataclass
class Graph:
    """Nodes are ("source", name), ("init", link), ("firing", actor, turn), ("broadcast", link), ("fork", link, writer), ("join", link,
    reader), ("round", link), ("end", link) and ("sink", name)."""
    nodes: list = field(default_factory=list)
    edges: list = field(default_factory=list)


@dataclass
class Side:
    """A writer or a reader of so many places of a link's line, from a place on."""
    node: tuple
    start: int
    size: int


def firings(actor, count, start, rate):
    return [Side(("firing", actor, turn), start + turn * rate, rate) for turn in range(count)]


def sides(number, link, counts):
    """The writers and the readers of a link, in order, without those of no places."""
    if link.source:
        writers = [Side(("source", link.source), 0, link.production)]
    else:
        writers = [Side(("init", number), 0, link.delay)] + firings(link.tail, counts[link.tail], link.delay, link.production)
    if link.sink:
        readers = [Side(("sink", link.sink), 0, link.consumption)]
    else:
        taken = counts[link.head] * link.consumption
        readers = firings(link.head, counts[link.head], 0, link.consumption) + [Side(("end", number), taken, link.delay)]
    return [side for side in writers if side.size], [side for side in readers if side.size]


def pieces_of(writers, readers):
    """The ranges of places that a writer and a reader have in common: both by number, and the size."""
    found = []
    for w, writer in enumerate(writers):
        for r, reader in enumerate(readers):
            start, end = max(writer.start, reader.start), min(writer.start + writer.size, reader.start + reader.size)
            if start < end:
                found.append((start, w, r, end - start))
    return [(w, r, size) for _, w, r, size in sorted(found)]


def add_pieces(graph, number, writers, readers):
    """Forks and joins where a writer or a reader has more than one piece, and the edges."""
    pieces = pieces_of(writers, readers)
    forked = [w for w in range(len(writers)) if sum(w == one for one, _, _ in pieces) > 1]
    joined = [r for r in range(len(readers)) if sum(r == one for _, one, _ in pieces) > 1]
    graph.nodes += [("fork", number, w) for w in forked] + [("join", number, r) for r in joined]
    graph.edges += [Edge(writers[w].node, ("fork", number, w), writers[w].size, number) for w in forked]
    for w, r, size in pieces:
        tail = ("fork", number, w) if w in forked else writers[w].node
        head = ("join", number, r) if r in joined else readers[r].node
        graph.edges.append(Edge(tail, head, size, number))
    graph.edges += [Edge(("join", number, r), readers[r].node, readers[r].size, number) for r in joined]


def add_link(graph, number, link, counts):
    writers, readers = sides(number, link, counts)
    if link.source and writers and sum(reader.size for reader in readers) != link.production:
        node = ("broadcast", number)
        graph.nodes.append(node)
        graph.edges.append(Edge(writers[0].node, node, link.production, number))
        graph.edges += [Edge(node, reader.node, reader.size, number) for reader in readers]
    elif link.sink and readers and sum(writer.size for writer in writers) != link.consumption:
        node = ("round", number)
        graph.nodes.append(node)
        graph.edges += [Edge(writer.node, node, writer.size, number) for writer in writers]
        graph.edges.append(Edge(node, readers[0].node, link.consumption, number))
    elif not (link.source or link.sink) or (writers and readers):
        add_pieces(graph, number, writers, readers)


def turns_of(order):
    """The firings of an order, each with its number among those of its actor."""
    done = {}
    for actor in order:
        yield actor, done.get(actor, 0)
        done[actor] = done.get(actor, 0) + 1


def expand(level, counts, order, sources, sinks):
    """The single-rate graph of a level, whose edges have the numbers of nodes at their ends."""
    graph = Graph([("source", name) for name in sources])
    delayed = [number for number, link in enumerate(level.links) if link.delay]
    graph.nodes += [("init", number) for number in delayed]
    graph.nodes += [("firing", actor, turn) for actor, turn in turns_of(order)]
    for number, link in enumerate(level.links):
        add_link(graph, number, link, counts)
    graph.nodes += [("end", number) for number in delayed] + [("sink", name) for name in sinks]
    number_of = {node: number for number, node in enumerate(graph.nodes)}
    for edge in graph.edges:
        edge.tail, edge.head = number_of[edge.tail], number_of[edge.head]
    return graph


# ---- what flows


def cut(tokens, sizes):
    """The tokens cut into parts of these sizes; False where they are others in number."""
    parts, start = [], 0
    for size in sizes:
        parts.append(tokens[start:start + size])
        start += size
    return start == len(tokens) and parts


def sent(node, into, out):
    """What a node sends over the edges that leave it, of what came over those that enter it. False where that doesn't go up."""
    came, sizes = [token for _, tokens in into for token in tokens], [edge.size for edge in out]
    kind = node[0]
    if kind == "source":
        return cut([("source", node[1], k) for k in range(sum(sizes))], sizes)
    if kind == "init":
        return cut([("init", node[1], k) for k in range(sum(sizes))], sizes)
    if kind == "firing":
        return [[("firing", node[1], node[2], edge.link, k) for k in range(edge.size)] for edge in out]
    if kind == "broadcast":
        return cut([came[k % len(came)] for k in range(sum(sizes))], sizes)
    if kind == "round":
        return cut(came[len(came) - sum(sizes):], sizes)
    if kind in ("fork", "join"):
        return cut(came, sizes)
    return [] if not out else False


def flow(graph, sequence):
    """What comes over the edges that enter each node, as (edge, tokens): the nodes are taken in a sequence in which each stands behind those
    before it. None where some node can't send what its edges hold."""
    into, out = {node: [] for node in range(len(graph.nodes))}, {node: [] for node in range(len(graph.nodes))}
    for place, edge in enumerate(graph.edges):
        into[edge.head].append(place)
        out[edge.tail].append(place)
    on_edge, came = {}, {}
    for node in sequence:
        came[node] = [(graph.edges[place], on_edge[place]) for place in into[node]]
        parts = sent(graph.nodes[node], came[node], [graph.edges[place] for place in out[node]])
        if parts is False:
            return None
        on_edge.update(zip(out[node], parts))
    return came


def delivers(graph, sequence, queues):
    """Whether what arrives at firings, sinks and ends is what one thread takes from the queues, keeps and leaves."""
    came = flow(graph, sequence)
    if came is None:
        return False
    fed, kept, left = {}, {}, {}
    for number, node in enumerate(graph.nodes):
        for edge, tokens in came[number]:
            if node[0] == "firing":
                fed[node[1], node[2], edge.link] = tokens
            elif node[0] == "sink":
                kept[node[1]] = tokens
            elif node[0] == "end":
                left[node[1]] = tokens
    return without_empty(queues.fed) == fed and without_empty(queues.kept) == kept and without_empty(queues.left) == left


def without_empty(lists):
    return {key: tokens for key, tokens in lists.items() if tokens}
