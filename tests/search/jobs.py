"""The list schedule, the exclusion and the placement of a single-rate graph by their definitions (docs/MEANING.md)."""


def costs_of(count, edges):
    """A node costs 1 and the sizes of all edges at it."""
    costs = [1] * count
    for edge in edges:
        costs[edge.tail] += edge.size
        costs[edge.head] += edge.size
    return costs


def before_and_after(count, pairs):
    before, after = [set() for _ in range(count)], [set() for _ in range(count)]
    for tail, head in pairs:
        before[head].add(tail)
        after[tail].add(head)
    return before, after


def sequence_of(count, pairs):
    """All nodes, one after the other: always the one of the least number of which all nodes before it were put there."""
    before, after = before_and_after(count, pairs)
    ready, found = [node for node in range(count) if not before[node]], []
    while ready:
        node = min(ready)
        ready.remove(node)
        found.append(node)
        for head in after[node]:
            before[head].discard(node)
            if not before[head]:
                ready.append(head)
    return found


def priorities(sequence, pairs, costs):
    """The cost of the heaviest path that begins at each node, itself counted."""
    _, after = before_and_after(len(costs), pairs)
    found = [0] * len(costs)
    for node in reversed(sequence):
        found[node] = costs[node] + max((found[head] for head in after[node]), default=0)
    return found


def list_schedule(pairs, costs, priority, workers):
    """For each node its worker, its start and its end."""
    before, after = before_and_after(len(costs), pairs)
    free, placed, waits = [0] * workers, {}, [len(nodes) for nodes in before]
    ready = {node: 0 for node in range(len(costs)) if not before[node]}
    while ready:
        worker = min(range(workers), key=lambda one: (free[one], one))
        start = max(free[worker], min(ready.values()))
        node = min((node for node, time in ready.items() if time <= start), key=lambda one: (-priority[one], one))
        del ready[node]
        free[worker] = start + costs[node]
        placed[node] = (worker, start, free[worker])
        for head in after[node]:
            waits[head] -= 1
            if not waits[head]:
                ready[head] = max(placed[one][2] for one in before[head])
    return [placed[node] for node in range(len(costs))]


# ---- buffers


def reached_from(sequence, pairs):
    """The nodes to which a path of at least one edge leads from each node."""
    _, after = before_and_after(len(sequence), pairs)
    reached = [set() for _ in sequence]
    for node in reversed(sequence):
        for head in after[node]:
            reached[node] |= {head} | reached[head]
    return reached


def exclusions(edges, reached):
    """For each edge those with which it excludes each other: no path leads from the head of either to the tail of the other."""
    apart = [[] for _ in edges]
    for e, edge in enumerate(edges):
        behind = reached[edge.head]
        for f in range(e):
            if edges[f].tail not in behind and edge.tail not in reached[edges[f].head]:
                apart[e].append(f)
                apart[f].append(e)
    return apart


def first_fit(edges, apart):
    """The offsets of buffers, placed by size downwards and then by number, and where the highest ends."""
    offsets = {}
    for e in sorted(range(len(edges)), key=lambda one: (-edges[one].size, one)):
        offset = 0
        for start, f in sorted((offsets[f], f) for f in apart[e] if f in offsets):
            if start < offset + edges[e].size and offset < start + edges[f].size:
                offset = start + edges[f].size
        offsets[e] = offset
    height = max((offsets[e] + edge.size for e, edge in enumerate(edges)), default=0)
    return [offsets[e] for e in range(len(edges))], height


def is_valid(edges, apart, offsets, height):
    """Whether no cell is shared by buffers that exclude each other, cell by cell, and none lies above the height."""
    cells = [set(range(offset, offset + edge.size)) for edge, offset in zip(edges, offsets)]
    return all(cells[e].isdisjoint(cells[f]) for e in range(len(edges)) for f in apart[e] if f < e) and all(max(own) < height for own in cells)


def is_tight(edges, apart, offsets):
    """Whether at each lower offset each buffer shares a cell with one that was placed before it and excludes it."""
    for e, edge in enumerate(edges):
        barred = set()
        for f in apart[e]:
            if (-edges[f].size, f) < (-edge.size, e):
                barred.update(range(offsets[f] - edge.size + 1, offsets[f] + edges[f].size))
        if not barred.issuperset(range(offsets[e])):
            return False
    return True


def shares_live(edges, offsets, sequence):
    """Whether two buffers share a cell while both are live, from the step that writes one to the step that reads it, where nodes run in
    this sequence."""
    step = {node: place for place, node in enumerate(sequence)}
    owner = {}
    for e in sorted(range(len(edges)), key=lambda one: step[edges[one].tail]):
        for cell in range(offsets[e], offsets[e] + edges[e].size):
            if cell in owner and step[edges[owner[cell]].head] >= step[edges[e].tail]:
                return True
            owner[cell] = e
    return False
