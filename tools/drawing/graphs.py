"""Graphs and plans as pictures that need nothing else."""
from drawing.dot import flow_words, groups_of
from drawing.layout import Arrow, Box, drawing
from drawing.parts import actor_lines, delay_label, end_label, param_lines, rates_of, uses
from drawing.svg import colour
from pisdf_tools.wording import counted

FILLS = {"kernel": "#dce9f5", "config": "#fde3c0", "graph": "#dcefd3", "setgraph": "#fde3c0", "interface": "#ffffff", "param": "#d6e4ff"}
# On a page a plan with more nodes is drawn with a box for each actor.
MOST_NODES = 60


def graph_picture(graph, file):
    """One graph: its interfaces, actors and parameters, its FIFOs with ports, rates and delays, and who sets and uses a parameter."""
    boxes = interface_boxes(graph.inputs)
    for actor in graph.actors:
        boxes.append(Box(actor.name.text, actor_lines(actor), FILLS[actor.kind], "config" if actor.is_config else "box"))
    boxes += [Box(param.name.text, param_lines(param), FILLS["param"], "param") for param in graph.params]
    boxes += interface_boxes(graph.outputs)
    rates = rates_of(graph, file)
    arrows = []
    for fifo in graph.fifos:
        labels = end_label(fifo.tail, rates), delay_label(fifo), end_label(fifo.head, rates)
        arrows.append(Arrow(fifo.tail.text.partition(".")[0], fifo.head.text.partition(".")[0], labels))
    arrows += [Arrow(one, other, look="use") for one, other in uses(graph)]
    return drawing(boxes, arrows, f"The graph {graph.name.text}: {part_words(graph)}")


def interface_boxes(ports):
    return [Box(port.name.text, [port.name.text], FILLS["interface"], "interface") for port in ports]


def part_words(graph):
    """How many parts a graph has."""
    return ", ".join(counted(len(found), thing) for found, thing in ((graph.actors, "actor"), (graph.fifos, "FIFO"), (graph.params, "parameter")))


def is_grouped(rows):
    """Whether a plan has too many nodes for a box for each."""
    return len(rows["node"]) > MOST_NODES


def plan_picture(rows, names):
    """The single-rate graph of a plan, or its actors where it has many nodes."""
    if is_grouped(rows):
        return grouped_picture(rows, names)
    boxes = [Box(number, [names.of(number), f"worker {home}"], colour(int(home))) for number, _, _, home, _ in rows["node"]]
    arrows = [Arrow(tail, head, ("", f"{size} at {offset}", "")) for _, tail, head, size, offset in rows.get("edge", [])]
    return drawing(boxes, arrows, f"The single-rate graph: {counted(len(boxes), 'node')}, {counted(len(arrows), 'edge')} with their sizes and offsets")


def grouped_picture(rows, names):
    counts, flows = groups_of(rows, names)
    boxes = [Box(name, [name, counted(count, "node")], FILLS["kernel"]) for name, count in counts.items()]
    arrows = [Arrow(tail, head, ("", flow_words(edges, tokens), "")) for (tail, head), (edges, tokens) in flows.items()]
    return drawing(boxes, arrows, f"The single-rate graph of {counted(len(rows['node']), 'node')}, one box for those of an actor or a link")
