#!/usr/bin/env python3
"""Draws graph files, plans, schedules and memory.

    ./pisdf draw graph GRAPH            a graph file as Graphviz DOT, each graph of the hierarchy in a box of its own
    ./pisdf draw plan PLAN [SCHEDULE]   what `plan` wrote as Graphviz DOT, with the critical path where SCHEDULE is given; a box
                                        for each actor where there are more than 200 nodes
    ./pisdf draw gantt SCHEDULE [PLAN]  what `schedule` wrote as an SVG chart of the workers, with names where PLAN is given
    ./pisdf draw cells PLAN [MEMORY]    which buffer lies in which cells, as SVG: as `plan` has it, or as `memory` has it
    ./pisdf draw unfolded TIMES GRAPH   the graph file in which TIMES iterations are one, as `unfold` fires them, for a plan of them

The files PLAN, SCHEDULE and MEMORY are what `pisdf plan`, `pisdf schedule` and `pisdf memory` wrote for one graph and as many
workers; `-` stands for the standard input. The picture is written to the standard output.
"""
import os
import sys

sys.dont_write_bytecode = True
sys.path.insert(0, os.path.dirname(os.path.realpath(__file__)))

from drawing import charts, dot, svg
from drawing.inputs import Refused, read_graphs, rows_with, whole_graphs
from drawing.parts import Names
from pisdf_tools.output import written
from pisdf_tools.unfolding import unfolded_text, unfolding_of
from pisdf_tools.wording import counted, named, nearest, quoted
from pisdf_tools.words import number_trouble


def draw_graph(path):
    return dot.graph_dot(read_graphs(path))


def draw_plan(path, schedule=None):
    critical = rows_with(schedule, ["path"])["path"][0] if schedule else ()
    return dot.plan_dot(rows_with(path, ["node"]), critical)


def draw_gantt(path, plan=None):
    return [svg.alone(charts.gantt(rows_with(path, ["critical", "work", "length", "path"]), Names(rows_with(plan, ["node"])) if plan else None))]


def draw_cells(path, memory=None):
    return [svg.alone(charts.cells(rows_with(path, ["node", "height"]), rows_with(memory, ["ordered", "offset"]) if memory else None))]


def draw_unfolded(times, path):
    trouble = number_trouble("TIMES", times)
    if trouble:
        raise Refused(trouble)
    file = whole_graphs(path)
    why = unfolding_of(file).why_not(int(times))
    if why:
        raise Refused(f"{int(times)} iterations of {path} can't be fired as one. {why}")
    return [unfolded_text(file, int(times)).rstrip("\n")]


# Each drawing, and how many words it takes at least and at most.
DRAWINGS = {"graph": (draw_graph, 1, 1), "plan": (draw_plan, 1, 2), "gantt": (draw_gantt, 1, 2), "cells": (draw_cells, 1, 2),
            "unfolded": (draw_unfolded, 2, 2)}


def main(words):
    draw, least, most = DRAWINGS.get(words[0] if words else "", (None, 0, 0))
    if draw is None or not least <= len(words) - 1 <= most:
        if words:
            print(f"draw: {words_trouble(words, least, most)}\n", file=sys.stderr)
        print(__doc__.strip(), file=sys.stderr)
        return 1
    try:
        return written("draw", lambda: write_lines(draw(*words[1:])))
    except Refused as refused:
        print(f"draw: {refused}", file=sys.stderr)
        return 2
    except (KeyError, ValueError, IndexError, TypeError, RecursionError) as error:
        if os.environ.get("PISDF_TOOLS_TRACE"):
            raise
        print(f"draw: this can't be drawn ({type(error).__name__}). Are the files whole, and of one graph?", file=sys.stderr)
        return 2


def words_trouble(words, least, most):
    """What is wrong with words that ask for no drawing."""
    if words[0] not in DRAWINGS:
        meant = nearest(words[0], DRAWINGS)
        return f"{quoted(words[0])} is none of {named(DRAWINGS)}." + (f" Do you mean {quoted(meant)}?" if meant else "")
    wanted = counted(most, "word") if least == most else f"{least} or {counted(most, 'word')}"
    return f"{quoted(words[0])} takes {wanted} more, and here {'is' if len(words) == 2 else 'are'} {len(words) - 1}."


def write_lines(lines):
    for line in lines:
        print(line)
    return 0


if __name__ == "__main__":
    try:
        sys.exit(main(sys.argv[1:]))
    except KeyboardInterrupt:
        sys.exit(130)
