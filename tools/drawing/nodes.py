"""The nodes of the single-rate graph of a level, as docs/MEANING.md numbers them.

The program writes the plan of the top graph alone. For the graphs below, a page names the nodes of a journal by these.
"""
from pisdf_tools import firing


class Recorder(firing.Runner):
    """Runs a graph, and keeps of each firing of a graph its level, its counts and its order by its path."""

    def __init__(self, file, seconds):
        super().__init__(file, seconds)
        self.found = {}

    def scheduled(self, graph, path, early, chosen):
        found = super().scheduled(graph, path, early, chosen)
        self.found.setdefault(path, found)
        return found


def ends_of(level):
    """The two ends of each link of a level."""
    return [(link.tail_port, link.head_port) for link in level.links]


def pieces(writers, readers):
    """For each writer and each reader of any places how many pieces it has; both are pairs of a name and a number of places."""
    spans = [[(name, size) for name, size in side if size] for side in (writers, readers)]
    counts = [dict.fromkeys((name for name, _ in side), 0) for side in spans]
    at, left = [0, 0], [side[0][1] for side in spans]
    while at[0] < len(spans[0]) and at[1] < len(spans[1]):
        size = min(left)
        for side in (0, 1):
            counts[side][spans[side][at[side]][0]] += 1
        for side in (0, 1):
            left[side] -= size
            if not left[side]:
                at[side] += 1
                left[side] = spans[side][at[side]][1] if at[side] < len(spans[side]) else 0
    return counts


def sides_of(place, link, counts):
    """The writers and the readers of a link, each with its number of places."""
    writers = [(f"{link.tail}:{at}", link.production) for at in range(counts[link.tail])] if link.tail else [(link.source, link.production)]
    readers = [(f"{link.head}:{at}", link.consumption) for at in range(counts[link.head])] if link.head else [(link.sink, link.consumption)]
    if link.delay:
        writers.insert(0, (("init", place), link.delay))
        readers.append((("end", place), link.delay))
    return writers, readers


def copiers(place, link, counts):
    """The nodes that copy on a link: the kind of each, and the writer or the reader that it stands beside."""
    writers, readers = sides_of(place, link, counts)
    given, taken = (sum(size for _, size in side) for side in (writers, readers))
    if not given or not taken:
        return []
    if given != taken:
        return [("broadcast", link.source)] if link.source else [("round", link.sink)]
    tails, heads = pieces(writers, readers)
    return [("fork", name) for name, count in tails.items() if count > 1] + [("join", name) for name, count in heads.items() if count > 1]


def rows_of(level, counts, order):
    """The rows of the nodes of a level as a plan has them, as far as they name the nodes, and an edge to the neighbour that names each."""
    nodes, numbers, edges = [], {}, []

    def add(kind, name, known):
        numbers[known] = str(len(nodes))
        nodes.append([str(len(nodes)), kind, name])

    links = list(enumerate(level.links))
    for name in sources_of(level):
        add("source", name, name)
    for place, link in links:
        if link.delay:
            add("init", str(place), ("init", place))
    fired = dict.fromkeys(level.actors, 0)
    for actor in order:
        add("firing", f"{actor}:{fired[actor]}", f"{actor}:{fired[actor]}")
        fired[actor] += 1
    beside = []
    for place, link in links:
        for kind, name in copiers(place, link, counts):
            beside.append((kind, name, str(len(nodes))))
            add(kind, str(place), (kind, name, place))
    for place, link in links:
        if link.delay:
            add("end", str(place), ("end", place))
    for port in level.graph.outputs:
        add("sink", port.name.text, port.name.text)
    for kind, name, number in beside:
        ends = (numbers[name], number) if kind in ("fork", "broadcast") else (number, numbers[name])
        edges.append(["", *ends, "", ""])
    return {"node": nodes, "edge": edges}


def sources_of(level):
    """The inputs and the outputs of configuration actors that lead to actors, in their order."""
    used = {link.source for link in level.links if link.source}
    inputs = [port.name.text for port in level.graph.inputs]
    return [name for name in inputs if name in used] + [link.source for link in level.links if link.source and link.source not in inputs]
