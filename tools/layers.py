#!/usr/bin/env python3
"""Draws the crates in layers.

    layers.py text    the layers from the highest, each crate with the crates that it uses
    layers.py page    puts this text into docs/ARCHITECTURE.md, in place of the one there
    layers.py dot     the same as Graphviz DOT
    layers.py svg     the same as a picture in docs/pictures/crates.svg, where Graphviz is there

The crates are those of crates.txt, and so is what they use. A crate's layer is the lowest above all that it uses. What a crate
also reaches through another one that it uses is left out. The libraries of the toolchain have no line there and are left out too.
"""
import os
import re
import shutil
import subprocess
import sys
import textwrap

TOP = os.path.realpath(os.path.join(os.path.dirname(__file__), ".."))
PICTURE = os.path.join("docs", "pictures", "crates.svg")
PAGE = os.path.join("docs", "ARCHITECTURE.md")
WIDTH = 118


def read_uses(path):
    """The crates that each crate uses."""
    uses = {}
    with open(path, encoding="utf-8") as file:
        for line in file:
            head, _, rest = line.partition(":")
            name = re.match(r"\w+", head)
            if name:
                uses[name.group()] = rest.split()
    return {name: [used for used in names if used in uses] for name, names in uses.items()}


def order_of(uses):
    """The crates, each after all that it uses."""
    order, open_now = [], []

    def visit(name):
        if name in open_now:
            raise SystemExit(f"layers.py: {name} uses itself by way of {open_now[-1]}")
        if name in order:
            return
        open_now.append(name)
        for used in uses[name]:
            visit(used)
        open_now.pop()
        order.append(name)

    for name in sorted(uses):
        visit(name)
    return order


def layers_of(uses):
    """The layer of each crate, from 0."""
    layers = {}
    for name in order_of(uses):
        layers[name] = 1 + max((layers[used] for used in uses[name]), default=-1)
    return layers


def reached_of(uses):
    """All crates that each crate uses, also by way of others."""
    reached = {}
    for name in order_of(uses):
        reached[name] = set(uses[name]).union(*(reached[used] for used in uses[name]))
    return reached


def direct_of(uses):
    """The crates that each crate uses, but for those that it also reaches through another one."""
    reached = reached_of(uses)
    return {
        name: sorted(used for used in set(names) if not any(used in reached[other] for other in names))
        for name, names in uses.items()
    }


def by_layer(layers):
    for layer in range(max(layers.values()), -1, -1):
        yield layer, sorted(name for name in layers if layers[name] == layer)


def draw_text(uses):
    layers, direct = layers_of(uses), direct_of(uses)
    longest = max(len(name) for name in uses)
    for layer, names in by_layer(layers):
        for place, name in enumerate(names):
            number = str(layer) if place == 0 else ""
            start = f"{number:>2}  {name:<{longest}}"
            text = f"{start}  {' '.join(direct[name])}".rstrip()
            yield from textwrap.wrap(text, WIDTH, subsequent_indent=" " * (len(start) + 2), drop_whitespace=True, break_on_hyphens=False)


def draw_page(uses):
    """Puts the text in place of the one that the page has between its first two lines of three backticks."""
    path = os.path.join(TOP, PAGE)
    with open(path, encoding="utf-8") as file:
        before, _, after = file.read().split("```\n", 2)
    with open(path, "w", encoding="utf-8") as file:
        file.write(before + "```\n" + "".join(line + "\n" for line in draw_text(uses)) + "```\n" + after)
    yield PAGE


def draw_dot(uses):
    layers, direct = layers_of(uses), direct_of(uses)
    yield "digraph crates {"
    yield '  rankdir=TB; ranksep=0.4; nodesep=0.15; node [shape=box, style="rounded,filled", fillcolor="#eef3f8", fontname="Helvetica", fontsize=12, height=0.3, margin="0.08,0.04"];'
    yield '  edge [color="#8094a8", arrowsize=0.6];'
    for layer, names in by_layer(layers):
        yield "  { rank=same; " + " ".join(f"{name};" for name in names) + " }"
    for name in sorted(direct):
        for used in direct[name]:
            yield f"  {name} -> {used};"
    yield "}"


def draw_svg(uses):
    if not shutil.which("dot"):
        raise SystemExit("layers.py: the command 'dot' of Graphviz isn't there")
    dot = "\n".join(draw_dot(uses))
    subprocess.run(["dot", "-Tsvg", "-o", os.path.join(TOP, PICTURE)], input=dot, check=True, encoding="utf-8")
    yield PICTURE


DRAWINGS = {"text": draw_text, "page": draw_page, "dot": draw_dot, "svg": draw_svg}


def main(words):
    if len(words) != 1 or words[0] not in DRAWINGS:
        print(__doc__.strip(), file=sys.stderr)
        return 1
    for line in DRAWINGS[words[0]](read_uses(os.path.join(TOP, "crates.txt"))):
        print(line)
    return 0


if __name__ == "__main__":
    sys.exit(main(sys.argv[1:]))
