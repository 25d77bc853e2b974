"""Graph files and plans as text for Graphviz."""
from drawing.layout import Arrow, forward, layers_of
from drawing.parts import Names, actor_lines, delay_label, end_label, param_lines, rates_of, uses
from drawing.svg import colour
from pisdf_tools.wording import counted

LOOKS = {
    "kernel": 'shape=box, fillcolor="#eaf1f8"',
    "config": 'shape=box, style="rounded,filled", fillcolor="#fde3c0"',
    "graph": 'shape=box3d, margin="0.16,0.06", fillcolor="#e3f1dc"',
    "setgraph": 'shape=box3d, margin="0.16,0.06", fillcolor="#fde3c0"',
    "interface": 'shape=cds, fillcolor="#ffffff"',
    "param": 'shape=house, fillcolor="#d6e4ff", fontsize=11, margin="0.03,0.01", height=0.3',
}
FONT = 'fontname="Helvetica,Arial,sans-serif"'
# A graph of more layers is drawn from the top down: from left to right it would be a strip that is wider than any page.
MOST_LAYERS = 16
# A plan with more nodes is drawn with a node for each actor.
MOST_NODES = 200


def quoted(text):
    return '"' + text.replace("\\", "\\\\").replace('"', '\\"').replace("\n", "\\n") + '"'


# ---- graph files


def node(graph, name):
    return quoted(f"{graph.name.text}/{name}")


def fifo_line(graph, fifo, rates):
    ends = fifo.tail, fifo.head
    tail, head = (node(graph, end.text.partition(".")[0]) for end in ends)
    delay = delay_label(fifo)
    label = f"label={quoted(' ' + delay + ' ')}, " if delay else ""
    tail_label, head_label = (quoted(end_label(end, rates)) for end in ends)
    return f"    {tail} -> {head} [{label}taillabel={tail_label}, headlabel={head_label}];"


def cluster_lines(graph, file):
    name = graph.name.text
    exports = f", exports {', '.join(word.text for word in graph.exports)}" if graph.exports else ""
    yield f"  subgraph {quoted('cluster_' + name)} {{"
    yield f"    label={quoted(f'graph {name}{exports}')}; labeljust=l; color=\"#8094a8\"; style=rounded;"
    for part in graph.inputs + graph.outputs:
        yield f"    {node(graph, part.name.text)} [label={quoted(part.name.text)}, {LOOKS['interface']}];"
    for actor in graph.actors:
        yield f"    {node(graph, actor.name.text)} [label={quoted(chr(10).join(actor_lines(actor)))}, {LOOKS[actor.kind]}];"
    for param in graph.params:
        yield f"    {node(graph, param.name.text)} [label={quoted(chr(10).join(param_lines(param)))}, {LOOKS['param']}];"
    for one, other in uses(graph):
        yield f'    {node(graph, one)} -> {node(graph, other)} [style=dashed, color="#5577bb", arrowsize=0.6];'
    rates = rates_of(graph, file)
    for fifo in graph.fifos:
        yield fifo_line(graph, fifo, rates)
    yield "  }"


def layers(graph):
    """How many layers the parts of a graph lie in, by the longest way over FIFOs and uses of parameters."""
    names = [part.name.text for part in graph.inputs + graph.outputs + graph.actors + graph.params]
    arrows = [Arrow(fifo.tail.text.partition(".")[0], fifo.head.text.partition(".")[0]) for fifo in graph.fifos] + [Arrow(*pair) for pair in uses(graph)]
    return max(layers_of(names, forward(names, arrows)).values(), default=0) + 1


def graph_dot(file):
    is_long = max(map(layers, file.graphs), default=0) > MOST_LAYERS
    yield "digraph {"
    yield f"  {'rankdir=TB; ranksep=0.7; nodesep=0.7' if is_long else 'rankdir=LR; ranksep=0.7; nodesep=0.35'}; {FONT}; fontsize=13;"
    yield f'  node [style=filled, {FONT}, fontsize=13, height=0.45, color="#445566"];'
    yield f'  edge [{FONT}, fontsize=11, labelfontsize=11, labeldistance=1.7, labelangle=22, arrowsize=0.7, color="#445566"];'
    # Graphviz draws the boxes from below.
    for graph in sorted(file.graphs, key=lambda graph: graph is file.top_graph):
        yield from cluster_lines(graph, file)
    yield "}"


# ---- plans

PLAN_HEAD = f"  rankdir=LR; node [shape=box, style=filled, {FONT}, fontsize=12]; edge [{FONT}, fontsize=11, arrowsize=0.7];"


def plan_dot(rows, critical=()):
    """A node for each node of the single-rate graph, or for each actor where there are many. The nodes of the critical path are bold."""
    if len(rows["node"]) > MOST_NODES:
        yield from grouped_dot(rows)
        return
    steps, names = set(zip(critical, critical[1:])), Names(rows)
    yield "digraph {"
    yield PLAN_HEAD
    for number, _, _, home, priority in rows["node"]:
        label = f"{names.of(number)}\nworker {home}\npriority {priority}"
        bold = ", penwidth=3" if number in critical else ""
        yield f"  n{number} [label={quoted(label)}, fillcolor={quoted(colour(int(home)))}{bold}];"
    for _, tail, head, size, offset in rows.get("edge", []):
        bold = ", penwidth=3" if (tail, head) in steps else ""
        yield f"  n{tail} -> n{head} [label={quoted(f'{size} at {offset}')}{bold}];"
    yield "}"


def groups_of(rows, names):
    """The nodes and edges by actors: how many nodes each group has, and how many edges and tokens lead from one to another."""
    place, counts, flows = {}, {}, {}
    for number, *_ in rows["node"]:
        place[number] = names.group(number)
        counts[place[number]] = counts.get(place[number], 0) + 1
    for _, tail, head, size, _ in rows.get("edge", []):
        ends = place[tail], place[head]
        edges, tokens = flows.get(ends, (0, 0))
        flows[ends] = edges + 1, tokens + int(size)
    return counts, flows


def flow_words(edges, tokens):
    return f"{counted(edges, 'edge')}, {counted(tokens, 'token')}"


def grouped_dot(rows):
    counts, flows = groups_of(rows, Names(rows))
    numbers = {name: number for number, name in enumerate(counts)}
    yield "digraph {"
    yield PLAN_HEAD
    yield f"  label={quoted(str(len(rows['node'])) + ' nodes, one box for those of an actor or a link')}; {FONT};"
    for name, count in counts.items():
        yield f"  g{numbers[name]} [label={quoted(name + chr(10) + counted(count, 'node'))}, fillcolor=\"#eaf1f8\"];"
    for (tail, head), (edges, tokens) in flows.items():
        yield f"  g{numbers[tail]} -> g{numbers[head]} [label={quoted(flow_words(edges, tokens))}];"
    yield "}"
